/* The second coder's bundles, from document 01 alone: see second_bundle.h. Where two ways are open it takes the plainer one, so that a reader
 * can hold it against the document line by line. */
#include "second_bundle.h"

#include <stdio.h>
#include <stdlib.h>
#include <string.h>

enum { HEADER = 16, ENTRY = 8, LONGEST = 4096 };

static const uint8_t mark[4] = {0x46, 0x4E, 0x54, 0x42};

/* "Numbers are most significant byte first." */
static size_t number_at(const uint8_t *at, size_t bytes)
{
    size_t number = 0;
    for (size_t i = 0; i < bytes; i++)
        number = number * 256 + at[i];
    return number;
}

static void put(uint8_t *at, size_t bytes, size_t number)
{
    for (size_t i = bytes; i > 0; i--) {
        at[i - 1] = (uint8_t)(number % 256);
        number /= 256;
    }
}

size_t second_blocks(size_t k, size_t length)
{
    return length / (2 * k) + (length % (2 * k) == 0 ? 0 : 1);
}

static int bad_shape(size_t k, size_t n, size_t length)
{
    return k == 0 || k > n || n > LONGEST || length > 1048576 || second_blocks(k, length) > 65535;
}

static struct second_answer answer(uint32_t status, size_t place)
{
    struct second_answer result = {status, place};
    return result;
}

/* Word i of the file, which goes on with zero bytes. */
static uint32_t word_of_file(const uint8_t *file, size_t length, size_t i)
{
    uint32_t high = 2 * i < length ? file[2 * i] : 0, low = 2 * i + 1 < length ? file[2 * i + 1] : 0;
    return 256 * high + low;
}

void second_symbols(size_t k, size_t n, const uint8_t *file, size_t length, uint32_t *symbols)
{
    static uint32_t message[LONGEST];
    for (size_t block = 0; block < second_blocks(k, length); block++) {
        for (size_t i = 0; i < k; i++)
            message[i] = word_of_file(file, length, block * k + i);
        second_word(message, k, n, symbols + block * n);
    }
}

void second_overflow(size_t k, size_t n, uint8_t *file, size_t length, size_t block, size_t position)
{
    static uint32_t message[LONGEST];
    uint32_t others;
    message[0] = 0;
    for (size_t i = 1; i < k; i++)
        message[i] = word_of_file(file, length, block * k + i);
    others = second_value(message, k, second_point(n, position));
    /* what the others lack to 65536 is a word unless they make 0 */
    if (others != 0)
        put(file + block * 2 * k, 2, 65536 - others);
}

static void put_header(uint8_t *out, size_t k, size_t n, size_t length, size_t m)
{
    memcpy(out, mark, sizeof mark);
    put(out + 4, 2, k);
    put(out + 6, 2, n);
    put(out + 8, 4, length);
    put(out + 12, 2, m);
    put(out + 14, 2, 0);
}

size_t second_lay_out(size_t k, size_t n, size_t length, const uint32_t *positions, size_t m, const uint32_t *symbols, uint8_t *out)
{
    const size_t blocks = second_blocks(k, length);
    size_t at = HEADER + ENTRY * m;
    put_header(out, k, n, length, m);
    for (size_t j = 0; j < m; j++) {
        const uint32_t *shadow = symbols + positions[j];
        uint8_t *entry = out + HEADER + ENTRY * j;
        size_t count = 0;
        put(entry, 2, positions[j]);
        put(entry + 4, 4, at);
        for (size_t block = 0; block < blocks; block++) {
            if (shadow[block * n] == 65536) {
                put(out + at, 2, block);
                at += 2;
                count++;
            }
        }
        put(entry + 2, 2, count);
        for (size_t block = 0; block < blocks; block++) {
            put(out + at, 2, shadow[block * n] == 65536 ? 0 : shadow[block * n]);
            at += 2;
        }
    }
    return at;
}

struct second_answer second_write(size_t k, size_t n, const uint8_t *file, size_t file_len, uint8_t *out, size_t out_len, uint32_t *work,
                                  size_t work_len)
{
    uint32_t positions[LONGEST], *symbols;
    size_t blocks, length;
    if (bad_shape(k, n, file_len))
        return answer(SHAPE, 0);
    blocks = second_blocks(k, file_len);
    if (out_len < 16 + 8 * n + 4 * n * blocks || work_len < 8 * second_size(n))
        return answer(ROOM, 0);
    symbols = malloc((n * blocks + 1) * sizeof *symbols);
    if (symbols == NULL) {
        printf("the second coder gets no memory for %zu blocks of %zu symbols\n", blocks, n);
        exit(1);
    }
    for (size_t i = 0; i < n; i++)
        positions[i] = (uint32_t)i;
    second_symbols(k, n, file, file_len, symbols);
    length = second_lay_out(k, n, file_len, positions, n, symbols, out);
    memset(work, 0, 8 * second_size(n) * sizeof *work);
    free(symbols);
    return answer(OK, length);
}

/* The entry as it stands in the table. */
static struct bundle_entry entry_at(const uint8_t *bundle, size_t index)
{
    const uint8_t *at = bundle + HEADER + ENTRY * index;
    struct bundle_entry entry = {.position = number_at(at, 2), .offset = number_at(at + 4, 4), .count = number_at(at + 2, 2)};
    return entry;
}

/* "c block numbers of 2 bytes, rising strictly, each below B" */
static int list_is_right(const uint8_t *list, size_t count, size_t blocks)
{
    for (size_t i = 0; i < count; i++) {
        if (number_at(list + 2 * i, 2) >= blocks)
            return 0;
        if (i > 0 && number_at(list + 2 * i, 2) <= number_at(list + 2 * i - 2, 2))
            return 0;
    }
    return 1;
}

/* Whether table and bodies are as the layout says: positions that rise strictly and are below n, bodies without gaps from the table's end to
 * the bundle's, and right lists in them. */
static int rest_is_right(const uint8_t *bundle, size_t bundle_len, const struct bundle_facts *facts)
{
    size_t at = HEADER + ENTRY * facts->held;
    if (bundle_len < at)
        return 0;
    for (size_t j = 0; j < facts->held; j++) {
        const struct bundle_entry entry = entry_at(bundle, j);
        const size_t body = 2 * entry.count + 2 * facts->blocks;
        if (entry.position >= facts->n)
            return 0;
        if (j > 0 && entry.position <= entry_at(bundle, j - 1).position)
            return 0;
        if (entry.offset != at || bundle_len - at < body)
            return 0;
        if (!list_is_right(bundle + at, entry.count, facts->blocks))
            return 0;
        at += body;
    }
    return at == bundle_len;
}

/* The checks that are made of every bundle, and its numbers if all hold. */
static uint32_t check_layout(const uint8_t *bundle, size_t bundle_len, struct bundle_facts *facts)
{
    if (bundle_len < HEADER || memcmp(bundle, mark, sizeof mark) != 0 || bundle[14] != 0 || bundle[15] != 0)
        return FORM;
    facts->k = number_at(bundle + 4, 2);
    facts->n = number_at(bundle + 6, 2);
    facts->length = number_at(bundle + 8, 4);
    facts->held = number_at(bundle + 12, 2);
    if (bad_shape(facts->k, facts->n, facts->length))
        return SHAPE;
    facts->blocks = second_blocks(facts->k, facts->length);
    return rest_is_right(bundle, bundle_len, facts) ? OK : FORM;
}

/* "The value 65536 is stored by listing b in that shadow's overflow list. Every other value is its own word." */
static uint32_t symbol_at(const uint8_t *bundle, const struct bundle_entry *entry, size_t block)
{
    const uint8_t *list = bundle + entry->offset, *words = list + 2 * entry->count;
    for (size_t i = 0; i < entry->count; i++)
        if (number_at(list + 2 * i, 2) == block)
            return 65536;
    return (uint32_t)number_at(words + 2 * block, 2);
}

/* The message of one block from all shadows that are held. */
static int message_of(const uint8_t *bundle, const struct bundle_facts *facts, size_t block, uint32_t *message)
{
    static uint32_t positions[LONGEST], values[LONGEST];
    for (size_t j = 0; j < facts->held; j++) {
        const struct bundle_entry entry = entry_at(bundle, j);
        positions[j] = (uint32_t)entry.position;
        values[j] = symbol_at(bundle, &entry, block);
    }
    return second_message(facts->k, facts->n, positions, values, facts->held, message);
}

static uint32_t read_block(const uint8_t *bundle, const struct bundle_facts *facts, size_t block, uint8_t *out)
{
    static uint32_t message[LONGEST];
    if (!message_of(bundle, facts, block, message))
        return DISAGREE;
    for (size_t i = 0; i < facts->k; i++)
        if (message[i] == 65536)
            return WORD;
    for (size_t i = 0; i < 2 * facts->k; i++) {
        const uint32_t byte = i % 2 == 0 ? message[i / 2] / 256 : message[i / 2] % 256;
        const size_t at = block * 2 * facts->k + i;
        if (at < facts->length)
            out[at] = (uint8_t)byte;
        else if (byte != 0)
            return TAIL;
    }
    return OK;
}

struct second_answer second_read(const uint8_t *bundle, size_t bundle_len, uint8_t *out, size_t out_len, uint32_t *work, size_t work_len)
{
    struct bundle_facts facts;
    uint32_t status = check_layout(bundle, bundle_len, &facts);
    if (status != OK)
        return answer(status, 0);
    if (out_len < facts.length || work_len < 8 * second_size(facts.n))
        return answer(ROOM, 0);
    if (facts.held < facts.k)
        return answer(FEW, 0);
    memset(work, 0, 8 * second_size(facts.n) * sizeof *work);
    for (size_t block = 0; block < facts.blocks; block++) {
        status = read_block(bundle, &facts, block, out);
        if (status != OK) {
            memset(out, 0, facts.length);
            return answer(status, block);
        }
    }
    return answer(OK, facts.length);
}

struct second_answer second_facts(const uint8_t *bundle, size_t bundle_len, struct bundle_facts *facts)
{
    struct bundle_facts found;
    const uint32_t status = check_layout(bundle, bundle_len, &found);
    if (status == OK)
        *facts = found;
    return answer(status, 0);
}

struct second_answer second_entry(const uint8_t *bundle, size_t bundle_len, size_t index, struct bundle_entry *entry)
{
    struct bundle_facts facts;
    const uint32_t status = check_layout(bundle, bundle_len, &facts);
    if (status != OK)
        return answer(status, 0);
    if (index >= facts.held)
        return answer(POSITION, 0);
    *entry = entry_at(bundle, index);
    return answer(OK, 0);
}
