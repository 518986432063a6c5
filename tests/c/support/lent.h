/* What the C programs share: the check that counts, junk that is the same in each run, and lent buffers of which every cell can be compared
 * after a call. It stands in one place so that no program is laxer about a cell than another. */
#ifndef LENT_H
#define LENT_H

#include <stddef.h>
#include <stdint.h>

/* MOST lets a list have a place above 2^16, and a size that is refused have all the room that it would need. MOST_BYTES is room for the bundle
 * of the longest file with twenty shadows. */
enum { GUARD = 16, MOST = 70000, MOST_BYTES = 3000000 };

/* Counts a check. One that does not hold is printed and ends the program. */
void expect(int held, const char *what, size_t size, size_t at);
unsigned long checks_passed(void);

/* Numbers that look random and are the same in each run: any, one from 0 to limit - 1, those from 0 to count - 1 in some order. */
uint32_t junk(void);
size_t below(size_t limit);
void shuffle(uint32_t *list, size_t count);

size_t least(size_t a, size_t b);

/* The number that stands in so many bytes of a bundle, most significant byte first, and one put there. */
size_t number_at(const uint8_t *at, size_t count);
void put_number(uint8_t *at, size_t count, size_t number);

/* A buffer of `room` cells to be lent, between two guards, and what all these cells have to hold after the call. */
struct lent {
    size_t room;
    uint32_t cells[GUARD + MOST + GUARD];
    uint32_t due[GUARD + MOST + GUARD];
};

/* Gives the buffer its room and fills the room and the guards with junk. */
void fill_with_junk(struct lent *buffer, size_t room);

uint32_t *lend(struct lent *buffer);

/* From here on the buffer is due to stay as it is, but for what is written through `due_of` afterwards. */
void remember(struct lent *buffer);
uint32_t *due_of(struct lent *buffer);

/* Whether each cell, the guards' too, holds what is due. If not, `at` gets the first index that does not, counted from the lent part's front
 * (so it is below 0 in the guard before it). */
int holds_its_due(const struct lent *buffer, long *at);

/* All cells but `count` from the front of the lent part hold what is due. */
void expect_untouched_after(const struct lent *buffer, size_t count, const char *what);

/* The same for bytes. */
struct lent_bytes {
    size_t room;
    uint8_t cells[GUARD + MOST_BYTES + GUARD];
    uint8_t due[GUARD + MOST_BYTES + GUARD];
};

void fill_bytes_with_junk(struct lent_bytes *buffer, size_t room);
uint8_t *lend_bytes(struct lent_bytes *buffer);
void remember_bytes(struct lent_bytes *buffer);
uint8_t *due_bytes_of(struct lent_bytes *buffer);
int bytes_hold_their_due(const struct lent_bytes *buffer, long *at);

/* The single numbers that a call writes besides, RESULTS at most. Each stands between two guards, and all hold junk and are due to stay as
 * they are, but for what is written through `due_result` afterwards. If one, or a guard beside it, does not, `which` gets its index. */
enum { RESULTS = 5 };
void fill_results_with_junk(void);
size_t *lend_result(size_t which);
size_t *due_result(size_t which);
int results_hold_their_due(size_t *which);

/* The number that a call writes, with guards. */
size_t *lend_number(void);
size_t number_written(void);
int number_guards_hold(void);
void expect_number(size_t place, const char *what, size_t size);

#endif
