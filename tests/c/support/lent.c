/* The buffers, the junk and the counted checks that the C programs share: see lent.h. */
#include "lent.h"

#include <stdio.h>
#include <stdlib.h>
#include <string.h>

static unsigned long checks;

void expect(int held, const char *what, size_t size, size_t at)
{
    checks++;
    if (!held) {
        printf("FAILED: %s, size %zu, at %zu\n", what, size, at);
        exit(1);
    }
}

unsigned long checks_passed(void)
{
    return checks;
}

static uint64_t state = 20261115;

uint32_t junk(void)
{
    state ^= state << 13;
    state ^= state >> 7;
    state ^= state << 17;
    return (uint32_t)(state >> 16);
}

size_t below(size_t limit)
{
    return junk() % limit;
}

void shuffle(uint32_t *list, size_t count)
{
    for (size_t i = 0; i < count; i++) {
        size_t other = below(i + 1);
        list[i] = list[other];
        list[other] = (uint32_t)i;
    }
}

size_t least(size_t a, size_t b)
{
    return a < b ? a : b;
}

size_t number_at(const uint8_t *at, size_t count)
{
    size_t number = 0;
    for (size_t i = 0; i < count; i++)
        number = number << 8 | at[i];
    return number;
}

void put_number(uint8_t *at, size_t count, size_t number)
{
    for (size_t i = 0; i < count; i++)
        at[i] = (uint8_t)(number >> 8 * (count - 1 - i));
}

static void expect_room(size_t room, size_t most)
{
    if (room > most) {
        printf("FAILED: a buffer of %zu cells is asked for, and there are %zu\n", room, most);
        exit(1);
    }
}

static size_t cells_of(const struct lent *buffer)
{
    return GUARD + buffer->room + GUARD;
}

void fill_with_junk(struct lent *buffer, size_t room)
{
    expect_room(room, MOST);
    buffer->room = room;
    for (size_t i = 0; i < cells_of(buffer); i++)
        buffer->cells[i] = junk();
}

uint32_t *lend(struct lent *buffer)
{
    return buffer->cells + GUARD;
}

void remember(struct lent *buffer)
{
    memcpy(buffer->due, buffer->cells, cells_of(buffer) * sizeof *buffer->cells);
}

uint32_t *due_of(struct lent *buffer)
{
    return buffer->due + GUARD;
}

int holds_its_due(const struct lent *buffer, long *at)
{
    size_t i = 0;
    if (memcmp(buffer->cells, buffer->due, cells_of(buffer) * sizeof *buffer->cells) == 0)
        return 1;
    while (buffer->cells[i] == buffer->due[i])
        i++;
    *at = (long)i - GUARD;
    return 0;
}

void expect_untouched_after(const struct lent *buffer, size_t count, const char *what)
{
    size_t from = GUARD + count, behind = cells_of(buffer) - from;
    expect(memcmp(buffer->cells, buffer->due, GUARD * sizeof *buffer->cells) == 0, what, count, 0);
    expect(memcmp(buffer->cells + from, buffer->due + from, behind * sizeof *buffer->cells) == 0, what, count, from);
}

void fill_bytes_with_junk(struct lent_bytes *buffer, size_t room)
{
    expect_room(room, MOST_BYTES);
    buffer->room = room;
    for (size_t i = 0; i < GUARD + room + GUARD; i++)
        buffer->cells[i] = (uint8_t)junk();
}

uint8_t *lend_bytes(struct lent_bytes *buffer)
{
    return buffer->cells + GUARD;
}

void remember_bytes(struct lent_bytes *buffer)
{
    memcpy(buffer->due, buffer->cells, GUARD + buffer->room + GUARD);
}

uint8_t *due_bytes_of(struct lent_bytes *buffer)
{
    return buffer->due + GUARD;
}

int bytes_hold_their_due(const struct lent_bytes *buffer, long *at)
{
    size_t i = 0;
    if (memcmp(buffer->cells, buffer->due, GUARD + buffer->room + GUARD) == 0)
        return 1;
    while (buffer->cells[i] == buffer->due[i])
        i++;
    *at = (long)i - GUARD;
    return 0;
}

/* Result `which` is cell 2 * which + 1, the others are guards. */
static size_t results[2 * RESULTS + 1], results_due[2 * RESULTS + 1];

void fill_results_with_junk(void)
{
    for (size_t i = 0; i < 2 * RESULTS + 1; i++)
        results[i] = results_due[i] = junk();
}

size_t *lend_result(size_t which)
{
    return results + 2 * which + 1;
}

size_t *due_result(size_t which)
{
    return results_due + 2 * which + 1;
}

int results_hold_their_due(size_t *which)
{
    for (size_t i = 0; i < 2 * RESULTS + 1; i++) {
        *which = i / 2;
        if (results[i] != results_due[i])
            return 0;
    }
    return 1;
}

static size_t numbers[3];

size_t *lend_number(void)
{
    numbers[0] = 77;
    numbers[1] = 78;
    numbers[2] = 79;
    return numbers + 1;
}

size_t number_written(void)
{
    return numbers[1];
}

int number_guards_hold(void)
{
    return numbers[0] == 77 && numbers[2] == 79;
}

void expect_number(size_t place, const char *what, size_t size)
{
    char text[160];
    snprintf(text, sizeof text, "%s: number", what);
    expect(number_written() == place, text, size, number_written());
    snprintf(text, sizeof text, "%s: guards of the number", what);
    expect(number_guards_hold(), text, size, 0);
}
