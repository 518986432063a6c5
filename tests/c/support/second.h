/* The second coder: document 01's rules once more, written from that document alone, for the library to be held against. It is slow and plain
 * on purpose and shares nothing with the library, not even its header: values are sums of powers, decoding is elimination on the equations. */
#ifndef SECOND_H
#define SECOND_H

#include <stddef.h>
#include <stdint.h>

/* Document 01's numbers, written down again: a wrong number in the library's header would show. */
enum { OK, SHAPE, LENGTH, ROOM, FEW, POSITION, REPEAT, VALUE, DISAGREE, WORD, TAIL, FORM };

/* One block, for sizes and lists that are known to be good. */

/* N, the smallest power of two that is at least n. */
size_t second_size(size_t n);
/* r^position, r being the root of order N. */
uint32_t second_point(size_t n, size_t position);
/* s(x) of the message s with k symbols. */
uint32_t second_value(const uint32_t *message, size_t k, uint32_t x);
/* Writes the n symbols of the code word. */
void second_word(const uint32_t *message, size_t k, size_t n, uint32_t *word);
/* Whether a message fits all m symbols, m being at least k. Writes its k symbols if so. */
int second_message(size_t k, size_t n, const uint32_t *positions, const uint32_t *values, size_t m, uint32_t *message);

/* A call with all its checks. Output and working space are left as document 01 says that the call leaves them. */
struct second_answer {
    uint32_t status;
    size_t place;
};

struct second_answer second_encode(size_t k, size_t n, const uint32_t *message, size_t message_len, uint32_t *out, size_t out_len,
                                   uint32_t *work, size_t work_len);
struct second_answer second_decode(size_t k, size_t n, const uint32_t *positions, size_t positions_len, const uint32_t *values,
                                   size_t values_len, uint32_t *out, size_t out_len, uint32_t *work, size_t work_len);

#endif
