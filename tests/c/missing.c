/* Decoding and reading, called from C, by the positions that are missing, on which their work turns: those that are not held, and those
 * between n and N. For each N up to 4096 there are code words of the lengths N, N - 1 and N/2 + 1, and messages of one symbol, of a quarter and
 * of half of N, of one more than these, and of n; k, k + 1 and all n symbols are held, in rising, falling and junk order. Due is what was sent,
 * whose code word is the second coder's, and where more than k are held and one is altered DISAGREE. Where it takes no delay the second coder
 * decodes too. Every lent cell holds junk before each call and is compared after it. */
#include "lent.h"
#include "second.h"
#include "second_bundle.h"
#include "sulmirejo.h"

#include <stdio.h>
#include <string.h>

enum { LONGEST = 4096, BLOCKS = 3, MOST_MADE = 16 + 8 * LONGEST + 4 * LONGEST * BLOCKS };

/* The second coder decodes in m * k * k steps and is asked up to AFFORDED of them. It codes a block in n * k steps, and bundles are read up to
 * CODED of them. Up to n = SHORT each of the three symbols is altered in each order. */
enum { AFFORDED = 200000, CODED = 1024 * 257, SHORT = 256 };

enum order { RISING, FALLING, MIXED, ORDERS };

static const uint32_t P = 65537;

static struct lent positions, values, out, work;
static struct lent_bytes bundle, file;

/* A message with its code word, and a file, the last byte of its last block missing, with the symbols of its blocks. */
static struct {
    size_t k, n, length;
    uint32_t message[LONGEST], word[LONGEST], symbols[BLOCKS * LONGEST];
    uint8_t file[2 * LONGEST * BLOCKS];
} sent;

/* How many calls of decode had no missing position, one held, more than 512 missing, and were made by the second coder too; how many bundles
 * were read. */
static unsigned long none_missing, one_held, many_missing, compared, bundles;

static void expect_due(const struct lent *buffer, const char *what)
{
    long at = 0;
    expect(holds_its_due(buffer, &at), what, sent.n, (size_t)at);
}

static void expect_bytes_due(const struct lent_bytes *buffer, const char *what)
{
    long at = 0;
    expect(bytes_hold_their_due(buffer, &at), what, sent.n, (size_t)at);
}

static void lend_space(struct lent *buffer, size_t room)
{
    fill_with_junk(buffer, room);
    remember(buffer);
}

/* What the output and the working space are due to hold after decode, by the second coder if it can be asked. */
static void lay_due(uint32_t status)
{
    const size_t k = sent.k, m = positions.room;
    if (m * k * k <= AFFORDED) {
        const struct second_answer due = second_decode(k, sent.n, lend(&positions), m, lend(&values), m, due_of(&out), out.room,
                                                       due_of(&work), work.room);
        expect(due.status == status, "the second coder's answer", sent.n, due.status);
        expect(status != OK || memcmp(due_of(&out), sent.message, k * sizeof *sent.message) == 0, "the second coder's message", sent.n, k);
        compared++;
        return;
    }
    if (status == OK)
        memcpy(due_of(&out), sent.message, k * sizeof *sent.message);
    memset(due_of(&work), 0, 4 * second_size(sent.n) * sizeof(uint32_t));
}

static void try_decode(const char *what, uint32_t status)
{
    const size_t missing = second_size(sent.n) - positions.room;
    uint32_t answer;
    remember(&positions);
    remember(&values);
    lend_space(&out, sent.k + 1);
    lend_space(&work, 4 * second_size(sent.n) + 1);
    lay_due(status);
    answer = sulmirejo_decode(sent.k, sent.n, lend(&positions), positions.room, lend(&values), values.room, lend(&out), out.room, lend(&work),
                              work.room, lend_number());
    expect(answer == status, what, sent.n, answer);
    expect_number(0, what, sent.n);
    expect_due(&positions, "positions");
    expect_due(&values, "values");
    expect_due(&out, "output");
    expect_due(&work, "working space");
    none_missing += missing == 0;
    one_held += positions.room == 1;
    many_missing += missing > 512;
}

/* m of the positions, without a pattern, in this order. */
static void hold_positions(size_t m, enum order order)
{
    static uint32_t chosen[LONGEST];
    static uint8_t held[LONGEST];
    size_t j = 0;
    fill_with_junk(&positions, m);
    shuffle(chosen, sent.n);
    memset(held, 0, sizeof held);
    for (size_t i = 0; i < m; i++)
        held[chosen[i]] = 1;
    for (size_t i = 0; i < sent.n; i++) {
        const size_t position = order == FALLING ? sent.n - 1 - i : i;
        if (held[position])
            lend(&positions)[j++] = (uint32_t)position;
    }
    if (order == MIXED)
        memcpy(lend(&positions), chosen, m * sizeof *chosen);
}

static void receive(size_t m, enum order order)
{
    hold_positions(m, order);
    fill_with_junk(&values, m);
    for (size_t j = 0; j < m; j++)
        lend(&values)[j] = sent.word[lend(&positions)[j]];
}

static uint32_t another(uint32_t symbol)
{
    return (symbol + 1 + junk() % 65536) % P;
}

/* The received symbol at an index is altered: with more than k of them no message fits. */
static void try_altered(size_t at)
{
    const uint32_t right = lend(&values)[at];
    lend(&values)[at] = another(right);
    try_decode("one symbol altered", SULMIREJO_DISAGREE);
    lend(&values)[at] = right;
}

/* The first, a middle and the last received symbol are altered, in long blocks another one in each order. */
static void try_held(size_t m)
{
    const size_t places[ORDERS] = {0, m / 2, m - 1};
    for (enum order order = RISING; order < ORDERS; order++) {
        receive(m, order);
        try_decode("received symbols", SULMIREJO_OK);
        for (size_t i = 0; m > sent.k && i < ORDERS; i++)
            if (sent.n <= SHORT || i == order)
                try_altered(places[i]);
    }
}

/* The bundle with the lent positions. A refusal of a block leaves zeros. */
static void try_read(const char *what, uint32_t status, size_t place)
{
    static uint8_t made[MOST_MADE];
    const size_t length = second_lay_out(sent.k, sent.n, sent.length, lend(&positions), positions.room, sent.symbols, made);
    uint32_t answer;
    fill_bytes_with_junk(&bundle, length);
    memcpy(lend_bytes(&bundle), made, length);
    remember_bytes(&bundle);
    fill_bytes_with_junk(&file, sent.length + 1);
    remember_bytes(&file);
    lend_space(&work, 8 * second_size(sent.n) + 1);
    memset(due_bytes_of(&file), 0, sent.length);
    if (status == SULMIREJO_OK)
        memcpy(due_bytes_of(&file), sent.file, sent.length);
    memset(due_of(&work), 0, 8 * second_size(sent.n) * sizeof(uint32_t));
    answer = sulmirejo_read(lend_bytes(&bundle), bundle.room, lend_bytes(&file), file.room, lend(&work), work.room, lend_number());
    expect(answer == status, what, sent.n, answer);
    expect_number(place, what, sent.n);
    expect_bytes_due(&bundle, "bundle");
    expect_bytes_due(&file, "file");
    expect_due(&work, "the reader's working space");
    bundles++;
}

/* All blocks, and then one symbol of the middle one or of the last altered, of the first, a middle and the last shadow. */
static void try_shadows(size_t m)
{
    const size_t places[] = {0, m / 2, m - 1};
    hold_positions(m, RISING);
    try_read("held shadows", SULMIREJO_OK, sent.length);
    for (size_t i = 0; m > sent.k && i < 3; i++) {
        const size_t block = 1 + i % 2;
        uint32_t *symbol = sent.symbols + block * sent.n + lend(&positions)[places[i]], right = *symbol;
        *symbol = another(right);
        try_read("one symbol of a block altered", SULMIREJO_DISAGREE, block);
        *symbol = right;
    }
}

/* A message of junk symbols, among them 65536, and a file of junk. */
static void send(size_t k, size_t n)
{
    sent.k = k;
    sent.n = n;
    for (size_t i = 0; i < k; i++)
        sent.message[i] = i % 5 == 3 ? 65536 : junk() % P;
    second_word(sent.message, k, n, sent.word);
    if (n * k > CODED)
        return;
    sent.length = 2 * k * BLOCKS - 1;
    for (size_t i = 0; i < sent.length; i++)
        sent.file[i] = (uint8_t)junk();
    second_symbols(k, n, sent.file, sent.length, sent.symbols);
}

static void try_shape(size_t k, size_t n)
{
    const size_t counts[] = {k, k + 1, n};
    size_t last = 0;
    send(k, n);
    for (size_t i = 0; i < 3; i++) {
        if (counts[i] <= last || counts[i] > n)
            continue;
        last = counts[i];
        try_held(last);
        if (n * k <= CODED)
            try_shadows(last);
    }
}

static void try_length(size_t n)
{
    const size_t size = second_size(n), lengths[] = {1, size / 4, size / 4 + 1, size / 2, size / 2 + 1, n};
    size_t last = 0;
    for (size_t i = 0; i < sizeof lengths / sizeof *lengths; i++) {
        if (lengths[i] <= last || lengths[i] > n)
            continue;
        last = lengths[i];
        try_shape(last, n);
    }
}

static void try_size(size_t size)
{
    const size_t lengths[] = {size / 2 + 1, size - 1, size};
    size_t last = size / 2;
    for (size_t i = 0; i < 3; i++) {
        if (lengths[i] <= last)
            continue;
        last = lengths[i];
        try_length(last);
    }
}

int main(void)
{
    for (size_t size = 1; size <= LONGEST; size *= 2)
        try_size(size);
    printf("decode: none missing %lu, one held %lu, more than 512 missing %lu, the second coder asked %lu; bundles read %lu\n", none_missing,
           one_held, many_missing, compared, bundles);
    expect(none_missing > 0 && one_held > 0 && many_missing > 0 && compared > 0 && bundles > 0, "one of these never came up", 0, 0);
    printf("missing: %lu checks passed\n", checks_passed());
    return 0;
}
