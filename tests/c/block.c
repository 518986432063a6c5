/* Encoding and decoding of one block, called from C: the cases that document 01 names and those on which its rules turn. The answers are
 * written down by hand; only the code words of junk messages come from the second coder. Guard cells stand round every buffer, every lent cell
 * holds junk before each call, and every cell is compared after it, those of the lists that are only read too. */
#include "lent.h"
#include "second.h"
#include "sulmirejo.h"

#include <stdio.h>
#include <string.h>

enum { LONGEST = 4096 };

static const uint32_t P = 65537;

struct list {
    size_t count;
    const uint32_t *numbers;
};

/* For the tables: a list with its count. A list that is left out is empty. */
#define LIST(...) {sizeof((uint32_t[]){__VA_ARGS__}) / sizeof(uint32_t), (const uint32_t[]){__VA_ARGS__}}

/* A call of encode and what is due: status and place, the code word, and how many cells of the working space have to be zero. What is left
 * out is 0, so a case without a status has to succeed, and a refusal has to write nothing. */
struct encoding {
    const char *what;
    size_t k, n;
    struct list message;
    size_t out, work;
    uint32_t status;
    size_t place;
    struct list word;
    size_t zero;
};

/* The same for decode. */
struct decoding {
    const char *what;
    size_t k, n;
    struct list positions, values;
    size_t out, work;
    uint32_t status;
    size_t place;
    struct list message;
    size_t zero;
};

static struct lent message, positions, values, out, work;

static void copy(uint32_t *to, struct list from)
{
    for (size_t i = 0; i < from.count; i++)
        to[i] = from.numbers[i];
}

static void lend_list(struct lent *buffer, struct list content)
{
    fill_with_junk(buffer, content.count);
    copy(lend(buffer), content);
    remember(buffer);
}

static void lend_space(struct lent *buffer, size_t room)
{
    fill_with_junk(buffer, room);
    remember(buffer);
}

static void expect_due(const struct lent *buffer, const char *what, const char *part, size_t size)
{
    char text[160];
    long at = 0;
    int holds = holds_its_due(buffer, &at);
    snprintf(text, sizeof text, "%s: %s", what, part);
    expect(holds, text, size, (size_t)at);
}

static void try_encoding(const struct encoding *one)
{
    uint32_t status;
    lend_list(&message, one->message);
    lend_space(&out, one->out);
    lend_space(&work, one->work);
    copy(due_of(&out), one->word);
    memset(due_of(&work), 0, one->zero * sizeof(uint32_t));
    status = sulmirejo_encode(one->k, one->n, lend(&message), message.room, lend(&out), out.room, lend(&work), work.room, lend_number());
    expect(status == one->status, one->what, one->n, status);
    expect_number(one->place, one->what, one->n);
    expect_due(&message, one->what, "message", one->n);
    expect_due(&out, one->what, "output", one->n);
    expect_due(&work, one->what, "working space", one->n);
}

static void try_decoding(const struct decoding *one)
{
    uint32_t status;
    lend_list(&positions, one->positions);
    lend_list(&values, one->values);
    lend_space(&out, one->out);
    lend_space(&work, one->work);
    copy(due_of(&out), one->message);
    memset(due_of(&work), 0, one->zero * sizeof(uint32_t));
    status = sulmirejo_decode(one->k, one->n, lend(&positions), positions.room, lend(&values), values.room, lend(&out), out.room,
                              lend(&work), work.room, lend_number());
    expect(status == one->status, one->what, one->n, status);
    expect_number(one->place, one->what, one->n);
    expect_due(&positions, one->what, "positions", one->n);
    expect_due(&values, one->what, "values", one->n);
    expect_due(&out, one->what, "output", one->n);
    expect_due(&work, one->what, "working space", one->n);
}

/* The points of n = 4 (and of n = 3, whose root has order 4 too) are 1, -256, -1 and 256, those of n = 5 to 8 begin 1, 4096, -256, 16, -1. */
static const struct encoding words[] = {
    {"P5", .k = 2, .n = 3, .message = LIST(1, 2), .out = 3, .work = 8, .word = LIST(3, 65026, 65536), .zero = 8},
    {"P6", .k = 1, .n = 4, .message = LIST(65536), .out = 4, .work = 8, .word = LIST(65536, 65536, 65536, 65536), .zero = 8},
    {"P3 as a word", .k = 2, .n = 4, .message = LIST(1, 2), .out = 4, .work = 8, .word = LIST(3, 65026, 65536, 513), .zero = 8},
    {"k = n = 4", .k = 4, .n = 4, .message = LIST(1, 2, 0, 0), .out = 4, .work = 8, .word = LIST(3, 65026, 65536, 513), .zero = 8},
    {"k = n = 1", .k = 1, .n = 1, .message = LIST(7), .out = 1, .work = 2, .word = LIST(7), .zero = 2},
    {"65536 alone", .k = 1, .n = 1, .message = LIST(65536), .out = 1, .work = 2, .word = LIST(65536), .zero = 2},
    {"k = n = 2", .k = 2, .n = 2, .message = LIST(1, 2), .out = 2, .work = 4, .word = LIST(3, 65536), .zero = 4},
    {"the points of 4", .k = 2, .n = 4, .message = LIST(0, 1), .out = 4, .work = 8, .word = LIST(1, 65281, 65536, 256), .zero = 8},
    {"the points of 5", .k = 2, .n = 5, .message = LIST(0, 1), .out = 5, .work = 16, .word = LIST(1, 4096, 65281, 16, 65536), .zero = 16},
    {"cubes", .k = 4, .n = 4, .message = LIST(0, 0, 0, 1), .out = 4, .work = 8, .word = LIST(1, 256, 65536, 65281), .zero = 8},
    {"zeros", .k = 3, .n = 3, .message = LIST(0, 0, 0), .out = 3, .work = 8, .word = LIST(0, 0, 0), .zero = 8},
    {"65536 in 3", .k = 3, .n = 3, .message = LIST(65536, 65536, 65536), .out = 3, .work = 8, .word = LIST(65534, 256, 65536), .zero = 8},
    {"65536 in 4", .k = 4, .n = 4, .message = LIST(65536, 65536, 65536, 65536), .out = 4, .work = 8, .word = LIST(65533, 0, 0, 0), .zero = 8},
    {"65536 times 65536", .k = 2, .n = 4, .message = LIST(0, 65536), .out = 4, .work = 8, .word = LIST(65536, 256, 1, 65281), .zero = 8},
    {"more output", .k = 2, .n = 3, .message = LIST(1, 2), .out = 4, .work = 8, .word = LIST(3, 65026, 65536), .zero = 8},
    {"more working space", .k = 2, .n = 3, .message = LIST(1, 2), .out = 3, .work = 9, .word = LIST(3, 65026, 65536), .zero = 8},
    {"much room", .k = 2, .n = 3, .message = LIST(1, 2), .out = 500, .work = 9000, .word = LIST(3, 65026, 65536), .zero = 8},
};

#define BEYOND32 ((size_t)4294967296u) /* is 0 where only 32 bits are looked at */

static const struct encoding refused_words[] = {
    {"k = 0", .k = 0, .n = 4, .out = 4, .work = 8, .status = SULMIREJO_SHAPE},
    {"k = n = 0", .k = 0, .n = 0, .out = 4, .work = 8, .status = SULMIREJO_SHAPE},
    {"n = 0", .k = 1, .n = 0, .message = LIST(1), .out = 4, .work = 8, .status = SULMIREJO_SHAPE},
    {"k > n", .k = 5, .n = 4, .message = LIST(1, 2, 3, 4, 5), .out = 8, .work = 16, .status = SULMIREJO_SHAPE},
    {"k > n within N", .k = 4, .n = 3, .message = LIST(1, 2, 3, 4), .out = 4, .work = 8, .status = SULMIREJO_SHAPE},
    {"n = 4097", .k = 2, .n = 4097, .message = LIST(1, 2), .out = 8192, .work = 16384, .status = SULMIREJO_SHAPE},
    {"n = 8192", .k = 2, .n = 8192, .message = LIST(1, 2), .out = 8192, .work = 16384, .status = SULMIREJO_SHAPE},
    {"largest n", .k = 2, .n = SIZE_MAX, .message = LIST(1, 2), .out = 8, .work = 16, .status = SULMIREJO_SHAPE},
    {"largest k", .k = SIZE_MAX, .n = 4, .message = LIST(1, 2), .out = 8, .work = 16, .status = SULMIREJO_SHAPE},
    {"largest k and n", .k = SIZE_MAX, .n = SIZE_MAX, .message = LIST(1, 2), .out = 8, .work = 16, .status = SULMIREJO_SHAPE},
    {"n = 2^32 + 4", .k = 2, .n = BEYOND32 + 4, .message = LIST(1, 2), .out = 4, .work = 8, .status = SULMIREJO_SHAPE},
    {"k = 2^32 + 2", .k = BEYOND32 + 2, .n = 4, .message = LIST(1, 2), .out = 4, .work = 8, .status = SULMIREJO_SHAPE},
    {"both from 2^32", .k = BEYOND32 + 2, .n = BEYOND32 + 4, .message = LIST(1, 2), .out = 4, .work = 8, .status = SULMIREJO_SHAPE},
    {"message one short", .k = 2, .n = 4, .message = LIST(1), .out = 4, .work = 8, .status = SULMIREJO_LENGTH},
    {"message one long", .k = 2, .n = 4, .message = LIST(1, 2, 0), .out = 4, .work = 8, .status = SULMIREJO_LENGTH},
    {"message as long as n", .k = 2, .n = 4, .message = LIST(1, 2, 0, 0), .out = 4, .work = 8, .status = SULMIREJO_LENGTH},
    {"message empty", .k = 1, .n = 4, .out = 4, .work = 8, .status = SULMIREJO_LENGTH},
    {"output one short", .k = 2, .n = 3, .message = LIST(1, 2), .out = 2, .work = 8, .status = SULMIREJO_ROOM},
    {"no output", .k = 2, .n = 3, .message = LIST(1, 2), .out = 0, .work = 8, .status = SULMIREJO_ROOM},
    {"work one short", .k = 2, .n = 3, .message = LIST(1, 2), .out = 3, .work = 7, .status = SULMIREJO_ROOM},
    {"work of 2n", .k = 2, .n = 3, .message = LIST(1, 2), .out = 3, .work = 6, .status = SULMIREJO_ROOM},
    {"work of 2n, n = 5", .k = 2, .n = 5, .message = LIST(1, 2), .out = 5, .work = 10, .status = SULMIREJO_ROOM},
    {"work one short, n = 5", .k = 2, .n = 5, .message = LIST(1, 2), .out = 5, .work = 15, .status = SULMIREJO_ROOM},
    {"work one short, n = 1", .k = 1, .n = 1, .message = LIST(7), .out = 1, .work = 1, .status = SULMIREJO_ROOM},
    {"output one short, n = 1", .k = 1, .n = 1, .message = LIST(7), .out = 0, .work = 2, .status = SULMIREJO_ROOM},
    {"no room at all", .k = 2, .n = 3, .message = LIST(1, 2), .out = 0, .work = 0, .status = SULMIREJO_ROOM},
    {"value first", .k = 2, .n = 4, .message = LIST(65537, 2), .out = 4, .work = 8, .status = SULMIREJO_VALUE, .place = 0},
    {"value last", .k = 2, .n = 4, .message = LIST(65536, 65537), .out = 4, .work = 8, .status = SULMIREJO_VALUE, .place = 1},
    {"two values", .k = 3, .n = 4, .message = LIST(1, 4294967295u, 65537), .out = 4, .work = 8, .status = SULMIREJO_VALUE, .place = 1},
    {"value 2^17", .k = 1, .n = 1, .message = LIST(131072), .out = 1, .work = 2, .status = SULMIREJO_VALUE, .place = 0},
};

/* Two and more faults in one call: the one that is tested first is the answer. */
static const struct encoding words_of_two_faults[] = {
    {"k above n, message short", .k = 5, .n = 4, .message = LIST(1), .out = 8, .work = 16, .status = SULMIREJO_SHAPE},
    {"k = 0, message of 1", .k = 0, .n = 4, .message = LIST(1), .out = 8, .work = 16, .status = SULMIREJO_SHAPE},
    {"n = 4097, message long", .k = 1, .n = 4097, .message = LIST(1, 2), .out = 8192, .work = 16384, .status = SULMIREJO_SHAPE},
    {"k above n, no room", .k = 2, .n = 1, .message = LIST(1, 2), .out = 0, .work = 0, .status = SULMIREJO_SHAPE},
    {"n = 4097, room for 4096", .k = 1, .n = 4097, .message = LIST(1), .out = 4096, .work = 8192, .status = SULMIREJO_SHAPE},
    {"k above n, value", .k = 2, .n = 1, .message = LIST(65537, 2), .out = 2, .work = 4, .status = SULMIREJO_SHAPE},
    {"message long, output short", .k = 2, .n = 4, .message = LIST(1, 2, 3), .out = 3, .work = 8, .status = SULMIREJO_LENGTH},
    {"message short, work short", .k = 2, .n = 4, .message = LIST(1), .out = 4, .work = 7, .status = SULMIREJO_LENGTH},
    {"message long, value", .k = 2, .n = 4, .message = LIST(65537, 2, 3), .out = 4, .work = 8, .status = SULMIREJO_LENGTH},
    {"output short, value", .k = 2, .n = 4, .message = LIST(65537, 2), .out = 3, .work = 8, .status = SULMIREJO_ROOM},
    {"work short, value", .k = 2, .n = 4, .message = LIST(1, 65537), .out = 4, .work = 7, .status = SULMIREJO_ROOM},
    {"all but the shape", .k = 2, .n = 4, .message = LIST(65537), .out = 3, .work = 7, .status = SULMIREJO_LENGTH},
    {"everything", .k = 2, .n = 1, .message = LIST(65537), .out = 0, .work = 0, .status = SULMIREJO_SHAPE},
};

static const struct decoding messages[] = {
    {"P7", 2, 4, LIST(3, 1), LIST(513, 65026), .out = 2, .work = 16, .message = LIST(1, 2), .zero = 16},
    {"P8", 2, 4, LIST(0, 2), LIST(3, 0), .out = 2, .work = 16, .message = LIST(32770, 32770), .zero = 16},
    {"P10", 2, 4, LIST(0, 1, 2, 3), LIST(3, 65026, 65536, 513), .out = 2, .work = 16, .message = LIST(1, 2), .zero = 16},
    {"P7's message from 0 and 2", 2, 4, LIST(0, 2), LIST(3, 65536), .out = 2, .work = 16, .message = LIST(1, 2), .zero = 16},
    {"P10 reversed", 2, 4, LIST(3, 2, 1, 0), LIST(513, 65536, 65026, 3), .out = 2, .work = 16, .message = LIST(1, 2), .zero = 16},
    {"P5 from 0 and 1", 2, 3, LIST(0, 1), LIST(3, 65026), .out = 2, .work = 16, .message = LIST(1, 2), .zero = 16},
    {"P5 from 2 and 0", 2, 3, LIST(2, 0), LIST(65536, 3), .out = 2, .work = 16, .message = LIST(1, 2), .zero = 16},
    {"P5 from 1 and 2", 2, 3, LIST(1, 2), LIST(65026, 65536), .out = 2, .work = 16, .message = LIST(1, 2), .zero = 16},
    {"P5 from all", 2, 3, LIST(2, 1, 0), LIST(65536, 65026, 3), .out = 2, .work = 16, .message = LIST(1, 2), .zero = 16},
    {"P5 with k = 3", 3, 3, LIST(1, 0, 2), LIST(65026, 3, 65536), .out = 3, .work = 16, .message = LIST(1, 2, 0), .zero = 16},
    {"k = n = 1", 1, 1, LIST(0), LIST(7), .out = 1, .work = 4, .message = LIST(7), .zero = 4},
    {"65536 alone", 1, 1, LIST(0), LIST(65536), .out = 1, .work = 4, .message = LIST(65536), .zero = 4},
    {"k = n = 2", 2, 2, LIST(1, 0), LIST(65536, 3), .out = 2, .work = 8, .message = LIST(1, 2), .zero = 8},
    {"m = k = 1 at the last position", 1, 4, LIST(3), LIST(65536), .out = 1, .work = 16, .message = LIST(65536), .zero = 16},
    {"P6", 1, 4, LIST(1, 3, 0, 2), LIST(65536, 65536, 65536, 65536), .out = 1, .work = 16, .message = LIST(65536), .zero = 16},
    {"values 65536 in 4", 4, 4, LIST(0, 1, 2, 3), LIST(65536, 65536, 65536, 65536),
     .out = 4, .work = 16, .message = LIST(65536, 0, 0, 0), .zero = 16},
    {"values 65536 in 3", 3, 3, LIST(2, 0, 1), LIST(65536, 65536, 65536), .out = 3, .work = 16, .message = LIST(65536, 0, 0), .zero = 16},
    {"message 65536 in 4", 4, 4, LIST(0, 1, 2, 3), LIST(65533, 0, 0, 0),
     .out = 4, .work = 16, .message = LIST(65536, 65536, 65536, 65536), .zero = 16},
    {"message 65536 in 3", 3, 3, LIST(2, 0, 1), LIST(65536, 65534, 256),
     .out = 3, .work = 16, .message = LIST(65536, 65536, 65536), .zero = 16},
    {"zeros", 2, 4, LIST(3, 0, 1), LIST(0, 0, 0), .out = 2, .work = 16, .message = LIST(0, 0), .zero = 16},
    {"squares with k = 3", 3, 4, LIST(0, 1, 2, 3), LIST(1, 65536, 1, 65536), .out = 3, .work = 16, .message = LIST(0, 0, 1), .zero = 16},
    {"cubes with k = 4", 4, 4, LIST(0, 1, 2, 3), LIST(1, 256, 65536, 65281), .out = 4, .work = 16, .message = LIST(0, 0, 0, 1), .zero = 16},
    {"root of order 8", 2, 5, LIST(4, 3), LIST(65536, 16), .out = 2, .work = 32, .message = LIST(0, 1), .zero = 32},
    {"m = k altered", 2, 4, LIST(1, 3), LIST(65026, 514), .out = 2, .work = 16, .message = LIST(32770, 65411), .zero = 16},
    {"more output", 2, 4, LIST(3, 1), LIST(513, 65026), .out = 3, .work = 16, .message = LIST(1, 2), .zero = 16},
    {"more working space", 2, 4, LIST(3, 1), LIST(513, 65026), .out = 2, .work = 17, .message = LIST(1, 2), .zero = 16},
    {"much room", 2, 3, LIST(2, 1), LIST(65536, 65026), .out = 500, .work = 9000, .message = LIST(1, 2), .zero = 16},
};

/* Altered symbols, and those of a polynomial with one power too many. */
static const struct decoding disagreements[] = {
    {"P9", 2, 4, LIST(0, 2, 1), LIST(3, 0, 65026), .out = 2, .work = 16, .status = SULMIREJO_DISAGREE, .zero = 16},
    {"first of 3 altered", 2, 4, LIST(1, 3, 0), LIST(65027, 513, 3), .out = 2, .work = 16, .status = SULMIREJO_DISAGREE, .zero = 16},
    {"middle of 3 altered", 2, 4, LIST(1, 3, 0), LIST(65026, 512, 3), .out = 2, .work = 16, .status = SULMIREJO_DISAGREE, .zero = 16},
    {"last of 3 altered", 2, 4, LIST(1, 3, 0), LIST(65026, 513, 4), .out = 2, .work = 16, .status = SULMIREJO_DISAGREE, .zero = 16},
    {"last of 4 altered", 2, 4, LIST(0, 1, 2, 3), LIST(3, 65026, 65536, 514), .out = 2, .work = 16, .status = SULMIREJO_DISAGREE, .zero = 16},
    {"65536 made 0", 2, 4, LIST(0, 1, 2, 3), LIST(3, 65026, 0, 513), .out = 2, .work = 16, .status = SULMIREJO_DISAGREE, .zero = 16},
    {"two against two", 1, 4, LIST(0, 1, 2, 3), LIST(5, 5, 6, 6), .out = 1, .work = 16, .status = SULMIREJO_DISAGREE, .zero = 16},
    {"one up, one down", 1, 4, LIST(0, 1, 2, 3), LIST(5, 5, 6, 4), .out = 1, .work = 16, .status = SULMIREJO_DISAGREE, .zero = 16},
    {"last up and down", 2, 4, LIST(0, 1, 2, 3), LIST(3, 65026, 0, 512), .out = 2, .work = 16, .status = SULMIREJO_DISAGREE, .zero = 16},
    {"k = 1, last altered", 1, 2, LIST(1, 0), LIST(5, 65536), .out = 1, .work = 8, .status = SULMIREJO_DISAGREE, .zero = 8},
    {"n = 3 altered", 2, 3, LIST(0, 1, 2), LIST(3, 65026, 0), .out = 2, .work = 16, .status = SULMIREJO_DISAGREE, .zero = 16},
    {"squares from 3", 2, 4, LIST(2, 3, 0), LIST(1, 65536, 1), .out = 2, .work = 16, .status = SULMIREJO_DISAGREE, .zero = 16},
    {"squares from 4", 2, 4, LIST(0, 1, 2, 3), LIST(1, 65536, 1, 65536), .out = 2, .work = 16, .status = SULMIREJO_DISAGREE, .zero = 16},
    {"cubes with k = 3", 3, 4, LIST(0, 1, 2, 3), LIST(1, 256, 65536, 65281), .out = 3, .work = 16, .status = SULMIREJO_DISAGREE, .zero = 16},
    {"cubes with k = 2", 2, 4, LIST(0, 1, 2, 3), LIST(1, 256, 65536, 65281), .out = 2, .work = 16, .status = SULMIREJO_DISAGREE, .zero = 16},
    {"much room", 2, 4, LIST(0, 2, 1), LIST(3, 0, 65026), .out = 500, .work = 9000, .status = SULMIREJO_DISAGREE, .zero = 16},
};

static const struct decoding refused_sizes[] = {
    {"k = 0", 0, 4, LIST(0, 1), LIST(3, 65026), .out = 4, .work = 16, .status = SULMIREJO_SHAPE},
    {"k = 0 with empty lists", 0, 4, .out = 4, .work = 16, .status = SULMIREJO_SHAPE},
    {"k = n = 0", 0, 0, .out = 4, .work = 16, .status = SULMIREJO_SHAPE},
    {"n = 0", 1, 0, LIST(0), LIST(3), .out = 4, .work = 16, .status = SULMIREJO_SHAPE},
    {"k > n", 5, 4, LIST(0, 1, 2, 3), LIST(3, 65026, 65536, 513), .out = 8, .work = 32, .status = SULMIREJO_SHAPE},
    {"k > n within N", 4, 3, LIST(0, 1, 2), LIST(3, 65026, 65536), .out = 4, .work = 16, .status = SULMIREJO_SHAPE},
    {"n = 4097", 2, 4097, LIST(0, 1), LIST(3, 65026), .out = 8192, .work = 32768, .status = SULMIREJO_SHAPE},
    {"n = 8192", 2, 8192, LIST(0, 1), LIST(3, 65026), .out = 8192, .work = 32768, .status = SULMIREJO_SHAPE},
    {"largest n", 2, SIZE_MAX, LIST(0, 1), LIST(3, 65026), .out = 4, .work = 16, .status = SULMIREJO_SHAPE},
    {"largest k", SIZE_MAX, 4, LIST(0, 1), LIST(3, 65026), .out = 4, .work = 16, .status = SULMIREJO_SHAPE},
    {"largest k and n", SIZE_MAX, SIZE_MAX, LIST(0, 1), LIST(3, 65026), .out = 4, .work = 16, .status = SULMIREJO_SHAPE},
    {"n = 2^32 + 4", 2, BEYOND32 + 4, LIST(0, 1), LIST(3, 65026), .out = 4, .work = 16, .status = SULMIREJO_SHAPE},
    {"k = 2^32 + 2", BEYOND32 + 2, 4, LIST(0, 1), LIST(3, 65026), .out = 4, .work = 16, .status = SULMIREJO_SHAPE},
    {"both from 2^32", BEYOND32 + 2, BEYOND32 + 4, LIST(0, 1), LIST(3, 65026), .out = 4, .work = 16, .status = SULMIREJO_SHAPE},
    {"a value more", 2, 4, LIST(0, 1), LIST(3, 65026, 65536), .out = 2, .work = 16, .status = SULMIREJO_LENGTH},
    {"a position more", 2, 4, LIST(0, 1, 2), LIST(3, 65026), .out = 2, .work = 16, .status = SULMIREJO_LENGTH},
    {"no values", 2, 4, LIST(0, 1), .out = 2, .work = 16, .status = SULMIREJO_LENGTH},
    {"no positions", 2, 4, .values = LIST(3, 65026), .out = 2, .work = 16, .status = SULMIREJO_LENGTH},
    {"output one short", 2, 4, LIST(0, 1), LIST(3, 65026), .out = 1, .work = 16, .status = SULMIREJO_ROOM},
    {"no output", 1, 4, LIST(0, 1), LIST(3, 3), .out = 0, .work = 16, .status = SULMIREJO_ROOM},
    {"work one short", 2, 4, LIST(0, 1), LIST(3, 65026), .out = 2, .work = 15, .status = SULMIREJO_ROOM},
    {"work one short, n = 3", 2, 3, LIST(0, 1), LIST(3, 65026), .out = 2, .work = 15, .status = SULMIREJO_ROOM},
    {"work of 4n, n = 3", 2, 3, LIST(0, 1), LIST(3, 65026), .out = 2, .work = 12, .status = SULMIREJO_ROOM},
    {"work of encode", 2, 4, LIST(0, 1), LIST(3, 65026), .out = 2, .work = 8, .status = SULMIREJO_ROOM},
    {"work one short, n = 5", 2, 5, LIST(4, 3), LIST(65536, 16), .out = 2, .work = 31, .status = SULMIREJO_ROOM},
    {"work one short, n = 1", 1, 1, LIST(0), LIST(7), .out = 1, .work = 3, .status = SULMIREJO_ROOM},
    {"output one short, n = 1", 1, 1, LIST(0), LIST(7), .out = 0, .work = 4, .status = SULMIREJO_ROOM},
    {"no room at all", 2, 4, LIST(0, 1), LIST(3, 65026), .out = 0, .work = 0, .status = SULMIREJO_ROOM},
    {"m = k - 1", 2, 4, LIST(1), LIST(65026), .out = 2, .work = 16, .status = SULMIREJO_FEW},
    {"m = k - 1 = 0", 1, 4, .out = 1, .work = 16, .status = SULMIREJO_FEW},
    {"m = k - 1 = n - 1", 4, 4, LIST(0, 1, 2), LIST(3, 65026, 65536), .out = 4, .work = 16, .status = SULMIREJO_FEW},
    {"m = 0", 3, 4, .out = 3, .work = 16, .status = SULMIREJO_FEW},
};

static const struct decoding refused_lists[] = {
    {"position 4 of 4 first", 2, 4, LIST(4, 1), LIST(3, 65026), .out = 2, .work = 16, .status = SULMIREJO_POSITION, .place = 0},
    {"position 4 of 4 last", 2, 4, LIST(3, 4), LIST(513, 3), .out = 2, .work = 16, .status = SULMIREJO_POSITION, .place = 1},
    {"position 3 of 3", 2, 3, LIST(0, 3), LIST(3, 513), .out = 2, .work = 16, .status = SULMIREJO_POSITION, .place = 1},
    {"position 1 of 1", 1, 1, LIST(1), LIST(7), .out = 1, .work = 4, .status = SULMIREJO_POSITION, .place = 0},
    {"first of two", 2, 4, LIST(0, 9, 4, 2), LIST(3, 0, 3, 65536), .out = 2, .work = 16, .status = SULMIREJO_POSITION, .place = 1},
    {"position 2^16", 2, 4, LIST(1, 65536), LIST(65026, 3), .out = 2, .work = 16, .status = SULMIREJO_POSITION, .place = 1},
    {"position 2^16 + 2", 2, 4, LIST(1, 65538), LIST(65026, 65536), .out = 2, .work = 16, .status = SULMIREJO_POSITION, .place = 1},
    {"largest position", 2, 4, LIST(4294967295u, 1), LIST(513, 65026), .out = 2, .work = 16, .status = SULMIREJO_POSITION, .place = 0},
    {"position 2^31", 1, 4, LIST(1, 2147483648u), LIST(3, 3), .out = 1, .work = 16, .status = SULMIREJO_POSITION, .place = 1},
    {"longer than n, position", 2, 4, LIST(0, 1, 2, 3, 4), LIST(3, 65026, 65536, 513, 3), .out = 2, .work = 16,
     .status = SULMIREJO_POSITION, .place = 4},
    {"longer than 4N, position", 1, 1, LIST(0, 0, 0, 0, 0, 1), LIST(7, 7, 7, 7, 7, 7), .out = 1, .work = 4, .status = SULMIREJO_POSITION,
     .place = 5},
    {"repeat at 1", 2, 4, LIST(0, 0), LIST(3, 3), .out = 2, .work = 16, .status = SULMIREJO_REPEAT, .place = 1},
    {"repeat of n - 1 at 1", 2, 4, LIST(3, 3, 1), LIST(513, 513, 65026), .out = 2, .work = 16, .status = SULMIREJO_REPEAT, .place = 1},
    {"repeat last", 2, 4, LIST(3, 0, 2, 3), LIST(513, 3, 65536, 513), .out = 2, .work = 16, .status = SULMIREJO_REPEAT, .place = 3},
    {"repeat of its neighbour", 2, 4, LIST(3, 0, 2, 2), LIST(513, 3, 65536, 65536),
     .out = 2, .work = 16, .status = SULMIREJO_REPEAT, .place = 3},
    {"repeat in the middle", 2, 4, LIST(2, 0, 2, 3), LIST(65536, 3, 65536, 513), .out = 2, .work = 16, .status = SULMIREJO_REPEAT, .place = 2},
    {"inner pair first", 2, 4, LIST(0, 1, 1, 0), LIST(3, 65026, 65026, 3), .out = 2, .work = 16, .status = SULMIREJO_REPEAT, .place = 2},
    {"three times", 1, 4, LIST(1, 2, 1, 1), LIST(5, 5, 5, 5), .out = 1, .work = 16, .status = SULMIREJO_REPEAT, .place = 2},
    {"repeat with another value", 1, 4, LIST(1, 1), LIST(5, 6), .out = 1, .work = 16, .status = SULMIREJO_REPEAT, .place = 1},
    {"longer than n, repeat", 2, 4, LIST(0, 1, 2, 3, 0), LIST(3, 65026, 65536, 513, 3), .out = 2, .work = 16,
     .status = SULMIREJO_REPEAT, .place = 4},
    {"longer than n, early repeat", 2, 3, LIST(2, 2, 0, 1), LIST(65536, 65536, 3, 65026), .out = 2, .work = 16, .status = SULMIREJO_REPEAT,
     .place = 1},
    {"longer than n, late repeat", 2, 3, LIST(2, 1, 0, 1), LIST(65536, 65026, 3, 65026), .out = 2, .work = 16, .status = SULMIREJO_REPEAT,
     .place = 3},
    {"longer than 4N, repeat", 1, 1, LIST(0, 0, 0, 0, 0, 0), LIST(7, 7, 7, 7, 7, 7),
     .out = 1, .work = 4, .status = SULMIREJO_REPEAT, .place = 1},
    {"value first", 2, 4, LIST(0, 2), LIST(65537, 0), .out = 2, .work = 16, .status = SULMIREJO_VALUE, .place = 0},
    {"value last", 2, 4, LIST(0, 2), LIST(65536, 65537), .out = 2, .work = 16, .status = SULMIREJO_VALUE, .place = 1},
    {"value that would fit", 2, 4, LIST(0, 2), LIST(65540, 65536), .out = 2, .work = 16, .status = SULMIREJO_VALUE, .place = 0},
    {"first of two values", 1, 4, LIST(0, 2, 1), LIST(3, 4294967295u, 65537), .out = 1, .work = 16, .status = SULMIREJO_VALUE, .place = 1},
    {"value behind the first k", 1, 4, LIST(0, 2, 1), LIST(3, 3, 65540), .out = 1, .work = 16, .status = SULMIREJO_VALUE, .place = 2},
    {"value 2^17", 1, 1, LIST(0), LIST(131072), .out = 1, .work = 4, .status = SULMIREJO_VALUE, .place = 0},
};

/* Two and more faults in one call: the one that is tested first is the answer, also where the other stands earlier in its list. */
static const struct decoding messages_of_two_faults[] = {
    {"shape, length", 5, 4, LIST(0, 1, 2, 3), LIST(3, 65026, 65536), .out = 8, .work = 32, .status = SULMIREJO_SHAPE},
    {"k = 0, length", 0, 4, LIST(0), .out = 8, .work = 32, .status = SULMIREJO_SHAPE},
    {"n = 4097, length", 1, 4097, LIST(0), LIST(3, 3), .out = 8192, .work = 32768, .status = SULMIREJO_SHAPE},
    {"shape, room", 5, 4, LIST(0, 1, 2, 3), LIST(3, 65026, 65536, 513), .out = 0, .work = 0, .status = SULMIREJO_SHAPE},
    {"n = 4097, room of 4096", 1, 4097, LIST(0), LIST(3), .out = 1, .work = 16384, .status = SULMIREJO_SHAPE},
    {"shape, few", 5, 4, .out = 8, .work = 32, .status = SULMIREJO_SHAPE},
    {"shape, position", 0, 4, LIST(4), LIST(3), .out = 8, .work = 32, .status = SULMIREJO_SHAPE},
    {"length, output", 2, 4, LIST(0, 1, 2), LIST(3, 65026), .out = 1, .work = 16, .status = SULMIREJO_LENGTH},
    {"length, work", 2, 4, LIST(0, 1), LIST(3, 65026, 65536), .out = 2, .work = 15, .status = SULMIREJO_LENGTH},
    {"length, few values", 2, 4, LIST(0, 1), LIST(3), .out = 2, .work = 16, .status = SULMIREJO_LENGTH},
    {"length, few positions", 2, 4, LIST(0), LIST(3, 65026), .out = 2, .work = 16, .status = SULMIREJO_LENGTH},
    {"length, position", 2, 4, LIST(4, 0), LIST(3, 65026, 65536), .out = 2, .work = 16, .status = SULMIREJO_LENGTH},
    {"output, few", 2, 4, LIST(0), LIST(3), .out = 1, .work = 16, .status = SULMIREJO_ROOM},
    {"work, few", 2, 4, LIST(0), LIST(3), .out = 2, .work = 15, .status = SULMIREJO_ROOM},
    {"output, position", 2, 4, LIST(4, 0), LIST(3, 3), .out = 1, .work = 16, .status = SULMIREJO_ROOM},
    {"work, disagreement", 1, 4, LIST(0, 1), LIST(3, 4), .out = 1, .work = 15, .status = SULMIREJO_ROOM},
    {"few, position", 3, 4, LIST(4, 0), LIST(3, 3), .out = 3, .work = 16, .status = SULMIREJO_FEW},
    {"few, repeat", 3, 4, LIST(1, 1), LIST(3, 3), .out = 3, .work = 16, .status = SULMIREJO_FEW},
    {"few, value", 3, 4, LIST(1, 0), LIST(65537, 3), .out = 3, .work = 16, .status = SULMIREJO_FEW},
    {"position behind a repeat", 2, 4, LIST(0, 0, 4), LIST(3, 3, 3), .out = 2, .work = 16, .status = SULMIREJO_POSITION, .place = 2},
    {"a position repeated", 2, 4, LIST(4, 4), LIST(3, 3), .out = 2, .work = 16, .status = SULMIREJO_POSITION, .place = 0},
    {"position behind a value", 2, 4, LIST(0, 1, 4), LIST(65537, 3, 3), .out = 2, .work = 16, .status = SULMIREJO_POSITION, .place = 2},
    {"position, disagreement", 1, 4, LIST(0, 1, 4), LIST(3, 4, 3), .out = 1, .work = 16, .status = SULMIREJO_POSITION, .place = 2},
    {"repeat behind a value", 2, 4, LIST(0, 1, 1), LIST(65537, 3, 3), .out = 2, .work = 16, .status = SULMIREJO_REPEAT, .place = 2},
    {"repeat, disagreement", 1, 4, LIST(0, 1, 1), LIST(3, 4, 4), .out = 1, .work = 16, .status = SULMIREJO_REPEAT, .place = 2},
    {"value behind a disagreement", 2, 4, LIST(0, 1, 2, 3), LIST(4, 65026, 65536, 65537), .out = 2, .work = 16, .status = SULMIREJO_VALUE,
     .place = 3},
    {"position, repeat, value", 2, 4, LIST(1, 1, 4), LIST(65537, 3, 3), .out = 2, .work = 16, .status = SULMIREJO_POSITION, .place = 2},
    {"everything from few on", 4, 4, LIST(1, 1, 4), LIST(65537, 3, 3), .out = 4, .work = 16, .status = SULMIREJO_FEW},
    {"everything from room on", 4, 4, LIST(1, 1, 4), LIST(65537, 3, 3), .out = 3, .work = 15, .status = SULMIREJO_ROOM},
    {"everything from length on", 4, 4, LIST(1, 1, 4), LIST(65537, 3), .out = 3, .work = 15, .status = SULMIREJO_LENGTH},
    {"everything", 5, 4, LIST(1, 1, 4), LIST(65537, 3), .out = 3, .work = 15, .status = SULMIREJO_SHAPE},
};

#define TRY_ALL(try_one, table) \
    for (size_t row = 0; row < sizeof(table) / sizeof *(table); row++) \
        try_one(&(table)[row])

static void try_tables(void)
{
    TRY_ALL(try_encoding, words);
    TRY_ALL(try_encoding, refused_words);
    TRY_ALL(try_encoding, words_of_two_faults);
    TRY_ALL(try_decoding, messages);
    TRY_ALL(try_decoding, disagreements);
    TRY_ALL(try_decoding, refused_sizes);
    TRY_ALL(try_decoding, refused_lists);
    TRY_ALL(try_decoding, messages_of_two_faults);
}

/* A message that was sent, and the symbols of it that are received. */
struct block {
    size_t k, n, m;
    uint32_t message[LONGEST + 1], word[LONGEST], positions[MOST], values[MOST];
};

static struct block sent;

static void expect_sent(const char *what)
{
    struct encoding one = {what, sent.k, sent.n, {sent.k, sent.message}, sent.n, 2 * second_size(sent.n), SULMIREJO_OK, 0,
                           {sent.n, sent.word}, 0};
    one.zero = one.work;
    try_encoding(&one);
}

/* Sends a message of junk symbols, among them 65536. */
static void send_block(size_t k, size_t n)
{
    sent.k = k;
    sent.n = n;
    for (size_t i = 0; i < k; i++)
        sent.message[i] = i % 5 == 3 ? 65536 : junk() % P;
    second_word(sent.message, k, n, sent.word);
    expect_sent("word of a junk message");
}

static void receive(size_t j, size_t position)
{
    sent.positions[j] = (uint32_t)position;
    sent.values[j] = sent.word[position];
}

/* Decodes what was received. The message is due on success, and the working space is zero unless a list was refused. */
static void expect_answer(const char *what, uint32_t status, size_t place)
{
    struct decoding one = {what, sent.k, sent.n, {sent.m, sent.positions}, {sent.m, sent.values}, sent.k, 4 * second_size(sent.n), status,
                           place, {0, NULL}, 0};
    if (status == SULMIREJO_OK)
        one.message = (struct list){sent.k, sent.message};
    if (status == SULMIREJO_OK || status == SULMIREJO_DISAGREE)
        one.zero = one.work;
    try_decoding(&one);
}

/* Each received symbol in turn is altered: with more than k of them no message fits. */
static void alter_each(void)
{
    for (size_t j = 0; j < sent.m; j++) {
        uint32_t right = sent.values[j];
        sent.values[j] = (right + 1 + junk() % 65536) % P;
        expect_answer("one symbol altered", SULMIREJO_DISAGREE, 0);
        sent.values[j] = right;
    }
}

/* The symbols that `chosen` has a bit for, in rising order or in falling. */
static void receive_chosen(unsigned chosen, int falling)
{
    sent.m = 0;
    for (size_t i = 0; i < sent.n; i++) {
        size_t position = falling ? sent.n - 1 - i : i;
        if (chosen >> position & 1)
            receive(sent.m++, position);
    }
}

static void try_every_choice(size_t k, size_t n)
{
    send_block(k, n);
    for (unsigned chosen = 0; chosen < 1u << n; chosen++) {
        receive_chosen(chosen, (int)(junk() % 2));
        if (sent.m < k)
            expect_answer("too few chosen", SULMIREJO_FEW, 0);
        else
            expect_answer("from some of the symbols", SULMIREJO_OK, 0);
        if (sent.m > k)
            alter_each();
    }
}

static void try_reversed(size_t k, size_t n)
{
    send_block(k, n);
    sent.m = n;
    for (size_t j = 0; j < n; j++)
        receive(j, n - 1 - j);
    expect_answer("all symbols in reversed order", SULMIREJO_OK, 0);
}

/* m different positions in junk order. */
static void receive_shuffled(size_t m)
{
    static uint32_t order[LONGEST];
    sent.m = m;
    for (size_t i = 0; i < sent.n; i++)
        order[i] = (uint32_t)i;
    for (size_t j = 0; j < m; j++) {
        size_t other = j + junk() % (sent.n - j);
        uint32_t position = order[other];
        order[other] = order[j];
        receive(j, position);
    }
}

/* Long blocks: taken from m shuffled symbols, refused with one of them altered, in front, in the middle and at the end. */
static void try_long(size_t k, size_t n, size_t m)
{
    const size_t altered[] = {0, m / 2, m - 1};
    send_block(k, n);
    receive_shuffled(m);
    expect_answer("long block", SULMIREJO_OK, 0);
    for (size_t i = 0; m > k && i < 3; i++) {
        uint32_t right = sent.values[altered[i]];
        sent.values[altered[i]] = (right + 1) % P;
        expect_answer("long block with one symbol altered", SULMIREJO_DISAGREE, 0);
        sent.values[altered[i]] = right;
    }
    sent.m = k - 1;
    expect_answer("long block with one symbol too few", SULMIREJO_FEW, 0);
}

/* s(x) = -(1 + x + .. + x^4095) is -4096 at 1 and 0 at the other points of order 4096. */
static void try_longest_of_65536(void)
{
    sent.k = sent.n = sent.m = LONGEST;
    for (size_t i = 0; i < LONGEST; i++) {
        sent.message[i] = 65536;
        sent.word[i] = i == 0 ? 61441 : 0;
        receive(i, i);
    }
    expect_sent("65536 everywhere");
    expect_answer("65536 everywhere", SULMIREJO_OK, 0);
}

/* The longest block is taken, one longer is not, and one cell less is too little room. */
static void try_longest_words(void)
{
    struct encoding one = {"longest", LONGEST, LONGEST, {LONGEST, sent.message}, LONGEST, 8191, SULMIREJO_ROOM, 0, {0, NULL}, 0};
    try_encoding(&one);
    one.out = LONGEST - 1;
    one.work = 8192;
    try_encoding(&one);
    one.out = one.work = MOST;
    one.status = SULMIREJO_SHAPE;
    one.n = LONGEST + 1;
    try_encoding(&one);
    one.k = one.message.count = LONGEST + 1;
    try_encoding(&one);
}

static void try_longest_messages(void)
{
    struct decoding one = {"longest", LONGEST, LONGEST, {LONGEST, sent.positions}, {LONGEST, sent.values}, LONGEST, 16383, SULMIREJO_ROOM,
                           0, {0, NULL}, 0};
    try_decoding(&one);
    one.out = LONGEST - 1;
    one.work = 16384;
    try_decoding(&one);
    one.out = one.work = MOST;
    one.status = SULMIREJO_SHAPE;
    one.n = LONGEST + 1;
    try_decoding(&one);
    one.k = LONGEST + 1;
    try_decoding(&one);
}

static void try_longest(void)
{
    try_long(LONGEST, LONGEST, LONGEST);
    try_longest_of_65536();
    try_longest_words();
    try_longest_messages();
}

/* A list longer than n repeats a position at index n at the latest, or has one outside, which counts first wherever it stands. */
static void try_longer_lists(void)
{
    send_block(3, LONGEST);
    sent.m = MOST;
    for (size_t j = 0; j < sent.m; j++)
        receive(j, j % LONGEST);
    expect_answer("longer than n", SULMIREJO_REPEAT, LONGEST);
    sent.values[0] = 65537;
    expect_answer("longer than n, with a value", SULMIREJO_REPEAT, LONGEST);
    sent.positions[sent.m - 1] = LONGEST;
    expect_answer("longer than n, with a position", SULMIREJO_POSITION, sent.m - 1);
    sent.m = LONGEST;
    expect_answer("as long as n, with a value", SULMIREJO_VALUE, 0);
    sent.positions[LONGEST - 1] = 0;
    expect_answer("repeat at the last index", SULMIREJO_REPEAT, LONGEST - 1);
    sent.positions[LONGEST / 2] = LONGEST / 2 + 1;
    expect_answer("repeat in the middle", SULMIREJO_REPEAT, LONGEST / 2 + 1);
    sent.positions[1] = 0;
    expect_answer("repeat at index 1", SULMIREJO_REPEAT, 1);
}

int main(void)
{
    try_tables();
    for (size_t n = 1; n <= 6; n++)
        for (size_t k = 1; k <= n; k++)
            try_every_choice(k, n);
    try_reversed(3, 5);
    try_reversed(7, 100);
    try_reversed(50, LONGEST);
    try_long(2000, LONGEST, 3000);
    try_long(LONGEST - 1, LONGEST, LONGEST);
    try_long(1, LONGEST, LONGEST);
    try_long(1025, 1025, 1025);
    try_longest();
    try_longer_lists();
    printf("block: %lu checks passed\n", checks_passed());
    return 0;
}
