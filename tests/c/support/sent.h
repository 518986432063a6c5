/* Bundles that look random and are the same in each run: a file that was sent, the shadows of it that are held, and what can be wrong with
 * them. It stands in one place so that the library and the listing program meet the same kinds of damage. */
#ifndef SENT_H
#define SENT_H

#include <stddef.h>
#include <stdint.h>

/* The longest code word, and how many symbols, or bytes of a bundle, there is room for. */
enum { LONGEST = 4096, MOST_MADE = 400000 };

/* What was sent: a file, zero bytes behind it up to the whole block, its symbols, and the m positions that are held. `number` counts the files
 * of this run. */
struct sent {
    unsigned long number;
    size_t k, n, length, blocks, m;
    uint8_t file[2 * MOST_MADE];
    uint32_t symbols[MOST_MADE], positions[LONGEST];
};

extern struct sent sent;

/* The bundle as it is damaged. */
extern uint8_t made[MOST_MADE];
extern size_t made_length;

/* What can be wrong with a bundle. The first six are put into its symbols or its order, which are laid out properly then, the others into its
 * bytes. */
enum damage {
    ALTERED_FEW,  /* 1 to m - k symbols in some blocks */
    ALTERED_MANY, /* any number of symbols in a block */
    NO_WORD,      /* a message with a symbol 65536 */
    PADDING,      /* a message with padding that is not zero */
    OVERFLOWS,    /* 65536 for another symbol, or 0 for it */
    ORDER,        /* shadows in another order */
    WORDS,        /* words of 1 to m - k shadows */
    UNUSED,       /* words of listed blocks, which is no damage */
    BYTES,        /* some bytes anywhere */
    HEADER,       /* a field of the header */
    TABLE,        /* a field of the table */
    LISTS,        /* an overflow list */
    ENDS,         /* bytes more or less at the end */
    SHIFT,        /* bytes more or less before the end, the offsets behind them as they should be */
    DAMAGES
};

/* A length of up to so many blocks, often at the end of one. */
size_t choose_length(size_t k, size_t most_blocks);
/* A file for the shape, and its symbols. In half of the files most blocks have a symbol 65536. */
void choose_file(size_t k, size_t n, size_t length);
/* A file of so many whole blocks that has one symbol 65536, at this block and position. k is 2 at least. */
void choose_lone_overflow(size_t k, size_t n, size_t blocks, size_t block, size_t position);
/* How many shadows are held, and which. */
void choose_shadows(void);

/* A set of damages has a bit for each. */

/* Up to so many damages. */
unsigned choose_damages(size_t count);
/* Those of the damages that the sent shadows can have. They are counted. */
unsigned possible_damages(unsigned damages);
/* Makes the bundle of the held shadows with these damages, which have to be possible. The sent symbols stay. Gives the first block that was
 * altered in few, where that is a damage. */
size_t make_bundle(unsigned damages);
/* Prints how often each damage was seen. A run in which one of them never came up shows less than it should, and fails. */
void report_damages(void);

#endif
