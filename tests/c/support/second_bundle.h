/* The second coder's bundles: document 01's rules for writing and reading a bundle once more, written from that document (facts and entry from the
 * manual), on top of the second coder's blocks. Like them it is slow and plain on purpose and shares nothing with the library. */
#ifndef SECOND_BUNDLE_H
#define SECOND_BUNDLE_H

#include "second.h"

#include <stddef.h>
#include <stdint.h>

/* B, for a k that is not 0. */
size_t second_blocks(size_t k, size_t length);

/* The numbers of a bundle and of one entry of its table. */
struct bundle_facts {
    size_t k, n, length, held, blocks;
};

struct bundle_entry {
    size_t position, offset, count;
};

/* For sizes that are known to be good. Symbols stand block after block, n for each, all positions of one block together. */

/* The code words of a file. */
void second_symbols(size_t k, size_t n, const uint8_t *file, size_t length, uint32_t *symbols);
/* Changes the first word of a block, which has to be a whole one in the file, so that the block's symbol at a position is 65536. It is not for
 * k = 1, where that symbol would have to be the word itself. */
void second_overflow(size_t k, size_t n, uint8_t *file, size_t length, size_t block, size_t position);
/* Writes the bundle that holds the m shadows of these positions, and gives its length. The symbols need not be those of a file. */
size_t second_lay_out(size_t k, size_t n, size_t length, const uint32_t *positions, size_t m, const uint32_t *symbols, uint8_t *out);

/* Calls with all their checks. What is lent is left as document 01 says that the call leaves it. On success `place` is the number that the
 * call gives: the bundle's length, the file's length, or 0. */
struct second_answer second_write(size_t k, size_t n, const uint8_t *file, size_t file_len, uint8_t *out, size_t out_len, uint32_t *work,
                                  size_t work_len);
struct second_answer second_read(const uint8_t *bundle, size_t bundle_len, uint8_t *out, size_t out_len, uint32_t *work, size_t work_len);
struct second_answer second_facts(const uint8_t *bundle, size_t bundle_len, struct bundle_facts *facts);
struct second_answer second_entry(const uint8_t *bundle, size_t bundle_len, size_t index, struct bundle_entry *entry);

#endif
