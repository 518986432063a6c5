/* The sent files and the damages of their bundles: see sent.h. */
#include "sent.h"

#include "lent.h"
#include "second_bundle.h"

#include <stdio.h>
#include <stdlib.h>
#include <string.h>

static const uint32_t P = 65537;

static const char *const damage_names[DAMAGES] = {"few symbols", "many symbols", "no word", "padding", "overflows", "order", "words",
                                                  "unused words", "bytes", "header", "table", "lists", "ends", "shift"};
static unsigned long damage_seen[DAMAGES];

struct sent sent;
uint8_t made[MOST_MADE];
size_t made_length;

size_t choose_length(size_t k, size_t most_blocks)
{
    const size_t whole_blocks = below(most_blocks) * 2 * k;
    switch (below(6)) {
    case 0:
        return whole_blocks;
    case 1:
        return whole_blocks + 1;
    case 2:
        return whole_blocks + 2 * k - 1;
    case 3:
        return below(3) == 0 ? 0 : 1 + below(2 * k);
    default:
        return whole_blocks + below(2 * k + 1);
    }
}

/* Junk, zeros, ones, words at the ends, or words of which the second makes 65536 with the first. */
static void choose_words(size_t kind)
{
    static const uint16_t ends[] = {0, 1, 255, 256, 32768, 65534, 65535, 65535};
    for (size_t i = 0; i < sent.k * sent.blocks; i++) {
        const size_t last = i == 0 ? 0 : number_at(sent.file + 2 * i - 2, 2);
        const size_t word = kind == 0 ? 0 : kind == 1 ? 65535 : kind == 2 ? ends[below(8)] : junk() % 65536;
        put_number(sent.file + 2 * i, 2, kind == 3 && i % 2 == 1 && last > 0 ? 65536 - last : word);
    }
}

static void begin_file(size_t k, size_t n, size_t length)
{
    /* with overflow lists as long as can be, and some bytes for damages that make it longer */
    if (16 + 8 * n + 4 * n * second_blocks(k, length) + 64 > MOST_MADE) {
        printf("FAILED: a file of %zu bytes with k %zu and n %zu is asked for, and its bundle has no room\n", length, k, n);
        exit(1);
    }
    sent.number++;
    sent.k = k;
    sent.n = n;
    sent.length = length;
    sent.blocks = second_blocks(k, length);
}

void choose_file(size_t k, size_t n, size_t length)
{
    begin_file(k, n, length);
    choose_words(below(8));
    memset(sent.file + length, 0, 2 * k * sent.blocks - length);
    if (k > 1 && below(2) == 0)
        for (size_t block = 0; block * 2 * k + 2 <= length; block++)
            if (below(4) != 0)
                second_overflow(k, n, sent.file, length, block, below(n));
    second_symbols(k, n, sent.file, length, sent.symbols);
}

static size_t count_overflows(void)
{
    size_t count = 0;
    for (size_t i = 0; i < sent.n * sent.blocks; i++)
        count += sent.symbols[i] == 65536;
    return count;
}

void choose_lone_overflow(size_t k, size_t n, size_t blocks, size_t block, size_t position)
{
    begin_file(k, n, 2 * k * blocks);
    do { /* junk has one of its own now and then */
        choose_words(4); /* junk, which is every kind above 3 */
        second_overflow(k, n, sent.file, sent.length, block, position);
        second_symbols(k, n, sent.file, sent.length, sent.symbols);
    } while (count_overflows() != 1 || sent.symbols[block * n + position] != 65536);
}

void choose_shadows(void)
{
    static uint8_t held[LONGEST];
    static uint32_t order[LONGEST];
    const size_t k = sent.k, n = sent.n;
    const size_t counts[] = {n, n, k, k, least(k + 1, n), least(k + 2, n), k + below(n - k + 1), k + below(n - k + 1), n - below(n - k + 1),
                             k + below(n - k + 1), k - 1, below(k)};
    const size_t count = counts[below(sizeof counts / sizeof *counts)];
    memset(held, 0, sizeof held);
    shuffle(order, n);
    for (size_t i = 0; i < count; i++)
        held[order[i]] = 1;
    sent.m = 0;
    for (size_t i = 0; i < n; i++)
        if (held[i])
            sent.positions[sent.m++] = (uint32_t)i;
}

static uint32_t *symbol_of(size_t block, size_t j)
{
    return sent.symbols + block * sent.n + sent.positions[j];
}

/* Alters so many of the held symbols of a block. */
static void alter_block(size_t block, size_t count)
{
    static uint32_t order[LONGEST];
    shuffle(order, sent.m);
    for (size_t i = 0; i < count; i++) {
        uint32_t *symbol = symbol_of(block, order[i]);
        *symbol = (*symbol + (below(3) == 0 ? 1 : 1 + junk() % 65536)) % P;
    }
}

/* Gives the first block that was altered. */
static size_t alter_few(void)
{
    const size_t first = below(sent.blocks);
    for (size_t block = first; block < sent.blocks; block++)
        if (block == first || below(3) == 0)
            alter_block(block, 1 + below(sent.m - sent.k));
    return first;
}

/* The code word of a message of the sent file with one change takes the place of that block's symbols. */
static void recode(size_t block, size_t at, uint32_t symbol)
{
    static uint32_t message[LONGEST];
    for (size_t i = 0; i < sent.k; i++)
        message[i] = (uint32_t)number_at(sent.file + 2 * (block * sent.k + i), 2);
    message[at] = symbol;
    second_word(message, sent.k, sent.n, sent.symbols + block * sent.n);
}

/* Makes a byte of the last block's padding another. */
static void spoil_padding(void)
{
    const size_t from = sent.length - (sent.blocks - 1) * 2 * sent.k, at = from + below(2 * sent.k - from);
    const uint32_t byte = below(2) ? 1 + junk() % 255 : below(2) ? 1 : 128;
    const uint32_t right = (uint32_t)number_at(sent.file + 2 * ((sent.blocks - 1) * sent.k + at / 2), 2);
    recode(sent.blocks - 1, at / 2, right + (at % 2 == 0 ? 256 * byte : byte));
}

static void spoil_overflows(void)
{
    for (size_t left = 1 + below(3); left > 0; left--) {
        uint32_t *symbol = symbol_of(below(sent.blocks), below(sent.m));
        *symbol = *symbol == 65536 ? 0 : 65536;
    }
}

static void spoil_order(void)
{
    const size_t a = below(sent.m), b = below(sent.m);
    const uint32_t kept = sent.positions[a];
    sent.positions[a] = sent.positions[b];
    if (below(2))
        sent.positions[b] = kept;
}

/* Where the body of an entry has its list, its words and its end, while the layout is good. */
struct body {
    size_t list, words, end;
};

static struct body body_of(size_t j)
{
    const uint8_t *entry = made + 16 + 8 * j;
    const size_t offset = number_at(entry + 4, 4), count = number_at(entry + 2, 2);
    const struct body body = {offset, offset + 2 * count, offset + 2 * count + 2 * sent.blocks};
    return body;
}

/* Alters bytes of the words of 1 to m - k shadows. */
static void spoil_words(void)
{
    static uint32_t order[LONGEST];
    const size_t count = 1 + below(sent.m - sent.k);
    shuffle(order, sent.m);
    for (size_t i = 0; i < count; i++) {
        const struct body body = body_of(order[i]);
        for (size_t left = 1 + below(4); left > 0; left--)
            made[body.words + below(body.end - body.words)] = (uint8_t)junk();
    }
}

/* Sets words of listed blocks, which are not used. */
static void spoil_unused(void)
{
    for (size_t j = 0; j < sent.m; j++) {
        const struct body body = body_of(j);
        for (size_t at = body.list; at < body.words; at += 2)
            put_number(made + body.words + 2 * number_at(made + at, 2), 2, below(3) == 0 ? 0 : junk());
    }
}

static void spoil_bytes(void)
{
    for (size_t left = 1 + below(3); left > 0 && made_length > 0; left--)
        made[below(below(2) ? least(made_length, 16 + 8 * sent.m) : made_length)] ^= (uint8_t)(below(2) ? 1u << below(8) : 1 + below(255));
}

static void spoil_header(void)
{
    const size_t k = sent.k, n = sent.n, m = sent.m, length = sent.length, size = second_size(n), block = 2 * k;
    const size_t ks[] = {0, k - 1, k + 1, n, n + 1, 1, k + 256, 4096, 65535, junk()};
    const size_t ns[] = {0, n - 1, n + 1, size, size + 1, 2 * size, k, k - 1, n + 256, 4096, 4097, 65535, junk()};
    const size_t padded = block * sent.blocks;
    const size_t lengths[] = {0, length - 1, length + 1, padded, padded + 1, padded - block, padded - block + 1, below(padded + 1),
                              below(padded + 1), 1048576, 1048577, 65535 * block, 65535 * block + 1, length + 65536, length + 16777216,
                              junk()};
    const size_t ms[] = {0, m - 1, m + 1, k - 1, n, n + 1, m + 256, 65535, junk()};
    switch (below(6)) {
    case 0:
        put_number(made + 4, 2, ks[below(sizeof ks / sizeof *ks)]);
        break;
    case 1:
        put_number(made + 6, 2, ns[below(sizeof ns / sizeof *ns)]);
        break;
    case 2:
    case 3:
        put_number(made + 8, 4, lengths[below(sizeof lengths / sizeof *lengths)]);
        break;
    case 4:
        put_number(made + 12, 2, ms[below(sizeof ms / sizeof *ms)]);
        break;
    default:
        made[below(2) ? below(4) : 14 + below(2)] ^= (uint8_t)(1u << below(8));
    }
}

/* Changes the position, the count or the offset of an entry, most often by little. */
static void spoil_table(void)
{
    uint8_t *entry = made + 16 + 8 * below(sent.m);
    const size_t which = below(3), at = which == 0 ? 0 : which == 1 ? 2 : 4, bytes = which == 2 ? 4 : 2, right = number_at(entry + at, bytes);
    const size_t others[] = {right - 1, right + 1, right + 1, right + 2, right - 2, 0, sent.n, right + 256, right + 65536, junk(), SIZE_MAX};
    put_number(entry + at, bytes, others[below(sizeof others / sizeof *others)]);
}

/* Changes an entry of a list, if there is one: to B, to its neighbour, to another block, to junk, or exchanges two. */
static void spoil_lists(void)
{
    for (size_t j = below(sent.m), left = sent.m; left > 0; left--, j = (j + 1) % sent.m) {
        const struct body body = body_of(j);
        const size_t count = (body.words - body.list) / 2, i = count == 0 ? 0 : below(count), other = i == 0 ? count - 1 : i - 1;
        uint8_t *entry = made + body.list + 2 * i;
        if (count == 0)
            continue;
        const size_t mine = number_at(entry, 2), its = number_at(made + body.list + 2 * other, 2);
        const size_t others[] = {sent.blocks, sent.blocks, its, its, mine + 1, mine - 1, below(sent.blocks), mine + 256, 65535, junk()};
        put_number(entry, 2, others[below(sizeof others / sizeof *others)]);
        if (below(4) == 0) {
            put_number(entry, 2, its);
            put_number(made + body.list + 2 * other, 2, mine);
        }
        return;
    }
}

static void spoil_ends(void)
{
    const size_t more = 1 + (below(2) ? 0 : below(20));
    if (below(4) == 0) {
        made_length = 12 + below(5);
    } else if (below(2)) {
        made_length -= below(4) == 0 ? below(made_length + 1) : least(more, made_length);
    } else {
        for (size_t i = 0; i < more; i++)
            made[made_length++] = below(2) ? 0 : (uint8_t)junk();
    }
}

/* Puts in or takes out bytes before a body or in its list, the later offsets and sometimes the count following: a gap, an overlap, or a list
 * that is longer or shorter by one. */
static void spoil_by_shift(void)
{
    const size_t j = below(sent.m), step = below(3) == 0 ? 1 : 2, which = below(3);
    const struct body body = body_of(j);
    const size_t at = which == 0 ? body.list : body.words, count = number_at(made + 18 + 8 * j, 2);
    const int more = below(2) || at + step > made_length;
    memmove(made + at + (more ? step : 0), made + at + (more ? 0 : step), made_length - at - (more ? 0 : step));
    for (size_t i = 0; more && i < step; i++)
        made[at + i] = i + 1 < step ? 0 : (uint8_t)below(sent.blocks + 2);
    made_length = more ? made_length + step : made_length - step;
    for (size_t later = which == 0 ? j : j + 1; later < sent.m; later++) {
        uint8_t *offset = made + 20 + 8 * later;
        put_number(offset, 4, more ? number_at(offset, 4) + step : number_at(offset, 4) - step);
    }
    if (which == 1)
        put_number(made + 18 + 8 * j, 2, more ? count + 1 : count - 1);
}

/* Whether the sent shadows can have the damage at all. Those that look at the table need it as it was laid out. */
static int is_possible(enum damage damage)
{
    switch (damage) {
    case ALTERED_FEW:
    case WORDS:
        return sent.m > sent.k && sent.blocks > 0;
    case ALTERED_MANY:
    case OVERFLOWS:
        return sent.m > 0 && sent.blocks > 0;
    case NO_WORD:
        return sent.blocks > 0;
    case PADDING:
        return sent.length % (2 * sent.k) != 0;
    case ORDER:
        return sent.m > 1;
    case UNUSED:
    case TABLE:
    case LISTS:
    case SHIFT:
        return sent.m > 0;
    default:
        return 1;
    }
}

unsigned choose_damages(size_t count)
{
    unsigned damages = 0;
    for (; count > 0; count--)
        damages |= 1u << below(DAMAGES);
    return damages;
}

unsigned possible_damages(unsigned damages)
{
    for (int damage = 0; damage < DAMAGES; damage++) {
        if (!is_possible((enum damage)damage))
            damages &= ~(1u << damage);
        damage_seen[damage] += damages >> damage & 1;
    }
    return damages;
}

/* Damages the symbols and gives the first block that was altered in few, where that is the damage. */
static size_t spoil_symbols(unsigned damages)
{
    size_t first = 0;
    if (damages >> NO_WORD & 1)
        for (size_t left = 1 + below(2); left > 0; left--)
            recode(below(sent.blocks), below(sent.k), 65536);
    if (damages >> PADDING & 1)
        spoil_padding();
    if (damages >> OVERFLOWS & 1)
        spoil_overflows();
    if (damages >> ALTERED_MANY & 1)
        alter_block(below(sent.blocks), 1 + below(sent.m));
    if (damages >> ALTERED_FEW & 1)
        first = alter_few();
    if (damages >> ORDER & 1)
        spoil_order();
    return first;
}

/* Damages the bytes. Those damages that look at the table come first, and only one of those that change it. */
static void spoil_bundle(unsigned damages)
{
    if (damages >> WORDS & 1)
        spoil_words();
    if (damages >> UNUSED & 1)
        spoil_unused();
    if (damages >> LISTS & 1)
        spoil_lists();
    if (damages >> SHIFT & 1)
        spoil_by_shift();
    if (damages >> TABLE & 1)
        spoil_table();
    if (damages >> HEADER & 1)
        spoil_header();
    if (damages >> BYTES & 1)
        spoil_bytes();
    if (damages >> ENDS & 1)
        spoil_ends();
}

size_t make_bundle(unsigned damages)
{
    static uint32_t kept[MOST_MADE];
    size_t first;
    memcpy(kept, sent.symbols, sent.blocks * sent.n * sizeof *kept);
    first = spoil_symbols(damages);
    made_length = second_lay_out(sent.k, sent.n, sent.length, sent.positions, sent.m, sent.symbols, made);
    memcpy(sent.symbols, kept, sent.blocks * sent.n * sizeof *kept);
    spoil_bundle(damages);
    return first;
}

void report_damages(void)
{
    printf("damages:");
    for (int damage = 0; damage < DAMAGES; damage++) {
        printf("%s %s %lu", damage == 0 ? "" : ",", damage_names[damage], damage_seen[damage]);
        if (damage_seen[damage] == 0) {
            printf("\nFAILED: a damage never came up\n");
            exit(1);
        }
    }
    printf("\n");
}
