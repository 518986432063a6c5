/* How much room each call asks for, called from C: what is told is held against document 01's "Room needed" and its limits, worked out here,
 * and then lent to the call itself: exactly so much, and one cell less of either. Where no room is told, the call has to give the same refusal
 * without any. Guard cells stand round every number and every buffer. */
#include "lent.h"
#include "second.h"
#include "second_bundle.h"
#include "sulmirejo.h"

#include <stdio.h>
#include <string.h>

enum { LONGEST = 4096, LONGEST_FILE = 1048576, MOST_BLOCKS = 65535, HEADER = 16 };

/* The header says the same limits. */
_Static_assert(SULMIREJO_LONGEST == LONGEST && SULMIREJO_LONGEST_FILE == LONGEST_FILE && SULMIREJO_MOST_BLOCKS == MOST_BLOCKS, "limits");
_Static_assert(SULMIREJO_MODULUS == 65537, "the modulus");

/* Calls are tried with as many bytes at most, the largest of all apart from that: more would take long, and say nothing new. */
enum { TRIED_BYTES = 50000 };

/* The places of the two results. */
enum { OUT, WORK };

#define BEYOND32 ((size_t)4294967296u) /* is 0 where only 32 bits are looked at */

/* What is due: a refusal, or the two rooms. */
struct room {
    uint32_t status;
    size_t out, work;
};

static struct lent list, out, work;
static struct lent_bytes file, bundle, bytes;

static int bad_shape(size_t k, size_t n)
{
    return k == 0 || k > n || n > LONGEST;
}

static int bad_bundle_shape(size_t k, size_t n, size_t length)
{
    return bad_shape(k, n) || length > LONGEST_FILE || second_blocks(k, length) > MOST_BLOCKS;
}

/* The call has returned: status and number, and the two results, which a refusal leaves as they were. */
static void expect_told(const char *what, size_t size, uint32_t status, const struct room *due)
{
    size_t which = 0;
    expect(status == due->status, what, size, status);
    expect_number(0, what, size);
    if (due->status == SULMIREJO_OK) {
        *due_result(OUT) = due->out;
        *due_result(WORK) = due->work;
    }
    expect(results_hold_their_due(&which), what, size, which);
}

/* Both buffers hold junk, which a refusal leaves. */
static void lend_space(size_t cells, size_t spaces)
{
    fill_with_junk(&out, cells);
    remember(&out);
    fill_with_junk(&work, spaces);
    remember(&work);
}

static void expect_answer(const char *what, size_t size, uint32_t status, uint32_t due)
{
    long at = 0;
    expect(status == due, what, size, status);
    expect(number_guards_hold(), what, size, 0);
    if (due == SULMIREJO_OK) {
        expect_untouched_after(&out, out.room, what);
        expect_untouched_after(&work, work.room, what);
    } else {
        expect(holds_its_due(&out, &at), what, size, (size_t)at);
        expect(holds_its_due(&work, &at), what, size, (size_t)at);
    }
}

/* Transform and inverse: the list of zeros has this length. */

static void try_transforming(size_t length, size_t spaces, uint32_t due)
{
    fill_with_junk(&list, length);
    memset(lend(&list), 0, length * sizeof(uint32_t));
    lend_space(0, spaces);
    expect_answer("transform", length, sulmirejo_transform(lend(&list), length, lend(&work), spaces, lend_number()), due);
    lend_space(0, spaces);
    expect_answer("inverse", length, sulmirejo_inverse(lend(&list), length, lend(&work), spaces, lend_number()), due);
}

/* The transform's room has no output: the first result stays as it was. */
static void try_transform_room(size_t length)
{
    const int good = length != 0 && length <= LONGEST && second_size(length) == length;
    struct room due = {good ? SULMIREJO_OK : SULMIREJO_SHAPE, 0, length};
    uint32_t status;
    fill_results_with_junk();
    due.out = *due_result(OUT);
    status = sulmirejo_transform_room(length, lend_result(WORK), lend_number());
    expect_told("transform's room", length, status, &due);
    if (good) {
        try_transforming(length, length, SULMIREJO_OK);
        try_transforming(length, length - 1, SULMIREJO_ROOM);
    } else if (length <= MOST) {
        try_transforming(length, 0, SULMIREJO_SHAPE);
    }
}

/* Encode, with a message of k zeros where its shape is good. */
static void try_encoding(size_t k, size_t n, size_t cells, size_t spaces, uint32_t due)
{
    const size_t count = bad_shape(k, n) ? 0 : k;
    fill_with_junk(&list, count);
    memset(lend(&list), 0, count * sizeof(uint32_t));
    lend_space(cells, spaces);
    expect_answer("encode", n, sulmirejo_encode(k, n, lend(&list), count, lend(&out), cells, lend(&work), spaces, lend_number()), due);
}

/* Decode, with k positions and zeros as their values where that does not take long, and else with none, which is FEW behind ROOM. */
static void try_decoding(size_t k, size_t n, size_t cells, size_t spaces, uint32_t due)
{
    static uint32_t positions[LONGEST];
    const size_t count = bad_shape(k, n) || k > 300 ? 0 : k;
    fill_with_junk(&list, count);
    memset(lend(&list), 0, count * sizeof(uint32_t));
    for (size_t i = 0; i < count; i++)
        positions[i] = (uint32_t)i;
    lend_space(cells, spaces);
    if (due == SULMIREJO_OK && count < k)
        due = SULMIREJO_FEW;
    expect_answer("decode", n,
                  sulmirejo_decode(k, n, positions, count, lend(&list), count, lend(&out), cells, lend(&work), spaces, lend_number()), due);
}

typedef uint32_t room_call(size_t, size_t, size_t *, size_t *, size_t *);
typedef void block_call(size_t, size_t, size_t, size_t, uint32_t);

static void try_block_room(const char *what, room_call *ask, block_call *try_one, size_t k, size_t n, const struct room *due)
{
    fill_results_with_junk();
    expect_told(what, n, ask(k, n, lend_result(OUT), lend_result(WORK), lend_number()), due);
    if (due->status != SULMIREJO_OK) {
        try_one(k, n, 0, 0, due->status);
        return;
    }
    try_one(k, n, due->out, due->work, SULMIREJO_OK);
    try_one(k, n, due->out - 1, due->work, SULMIREJO_ROOM);
    try_one(k, n, due->out, due->work - 1, SULMIREJO_ROOM);
}

static void try_block_rooms(size_t k, size_t n)
{
    const struct room refused = {SULMIREJO_SHAPE, 0, 0};
    struct room encoding = refused, decoding = refused;
    if (!bad_shape(k, n)) {
        encoding = (struct room){SULMIREJO_OK, n, 2 * second_size(n)};
        decoding = (struct room){SULMIREJO_OK, k, 4 * second_size(n)};
    }
    try_block_room("encode's room", sulmirejo_encode_room, try_encoding, k, n, &encoding);
    try_block_room("decode's room", sulmirejo_decode_room, try_decoding, k, n, &decoding);
}

/* Write and read: the output is bytes, and a refusal leaves them. */

static void lend_bytes_and_space(size_t count, size_t spaces)
{
    fill_bytes_with_junk(&bytes, count);
    remember_bytes(&bytes);
    lend_space(0, spaces);
}

static void expect_bytes_answer(const char *what, size_t size, uint32_t status, uint32_t due)
{
    long at = 0;
    expect_answer(what, size, status, due);
    if (due == SULMIREJO_OK) /* what is written is another program's matter: here the guards are */
        memcpy(due_bytes_of(&bytes), lend_bytes(&bytes), bytes.room);
    expect(bytes_hold_their_due(&bytes, &at), what, size, (size_t)at);
}

static void try_writing(size_t k, size_t n, size_t count, size_t spaces, uint32_t due)
{
    lend_bytes_and_space(count, spaces);
    expect_bytes_answer("write", n,
                        sulmirejo_write(k, n, lend_bytes(&file), file.room, lend_bytes(&bytes), count, lend(&work), spaces, lend_number()),
                        due);
}

static void try_reading(size_t count, size_t spaces, uint32_t due)
{
    lend_bytes_and_space(count, spaces);
    expect_bytes_answer("read", bundle.room,
                        sulmirejo_read(lend_bytes(&bundle), bundle.room, lend_bytes(&bytes), count, lend(&work), spaces, lend_number()),
                        due);
}

static struct room writer_room(size_t k, size_t n, size_t length)
{
    struct room due = {SULMIREJO_SHAPE, 0, 0};
    if (!bad_bundle_shape(k, n, length))
        due = (struct room){SULMIREJO_OK, 16 + 8 * n + 4 * n * second_blocks(k, length), 8 * second_size(n)};
    return due;
}

/* The call itself is tried where the file and its bundle are short enough. */
static void try_write_room(size_t k, size_t n, size_t length, size_t tried)
{
    const struct room due = writer_room(k, n, length);
    fill_results_with_junk();
    expect_told("writer's room", n, sulmirejo_write_room(k, n, length, lend_result(OUT), lend_result(WORK), lend_number()), &due);
    if (length > tried || due.out > tried)
        return;
    fill_bytes_with_junk(&file, length);
    if (due.status != SULMIREJO_OK) {
        try_writing(k, n, 0, 0, due.status);
        return;
    }
    try_writing(k, n, due.out, due.work, SULMIREJO_OK);
    try_writing(k, n, due.out - 1, due.work, SULMIREJO_ROOM);
    try_writing(k, n, due.out, due.work - 1, SULMIREJO_ROOM);
}

/* A bundle that holds no shadow at all: its layout is good, and it is answered FEW where there is room. */
static void lend_header(size_t k, size_t n, size_t length)
{
    uint8_t *header;
    fill_bytes_with_junk(&bundle, HEADER);
    header = lend_bytes(&bundle);
    memcpy(header, "FNTB", 4);
    put_number(header + 4, 2, k);
    put_number(header + 6, 2, n);
    put_number(header + 8, 4, length);
    put_number(header + 12, 4, 0);
}

/* The lent bundle: what is due, and what the reader answers with that room. */
static void try_read_room(const struct room *due, uint32_t with_room, size_t tried)
{
    long at = 0;
    fill_results_with_junk();
    remember_bytes(&bundle);
    expect_told("reader's room", bundle.room,
                sulmirejo_read_room(lend_bytes(&bundle), bundle.room, lend_result(OUT), lend_result(WORK), lend_number()), due);
    expect(bytes_hold_their_due(&bundle, &at), "bundle of the reader's room", bundle.room, (size_t)at);
    if (due->status != SULMIREJO_OK) {
        try_reading(0, 0, due->status);
        return;
    }
    if (due->out > tried)
        return;
    try_reading(due->out, due->work, with_room);
    try_reading(due->out, due->work - 1, SULMIREJO_ROOM);
    if (due->out > 0)
        try_reading(due->out - 1, due->work, SULMIREJO_ROOM);
}

/* The header has two bytes for k and for n, and four for L. */
static void try_header_room(size_t k, size_t n, size_t length, size_t tried)
{
    struct room due = {SULMIREJO_SHAPE, 0, 0};
    if (k > 65535 || n > 65535 || length >= BEYOND32)
        return;
    if (!bad_bundle_shape(k, n, length))
        due = (struct room){SULMIREJO_OK, length, 8 * second_size(n)};
    lend_header(k, n, length);
    try_read_room(&due, SULMIREJO_FEW, tried);
}

/* A bundle that is whole, with a byte too few and with one too many. */
static void try_whole_bundle(size_t k, size_t n, size_t length)
{
    const struct room needed = writer_room(k, n, length), due = {SULMIREJO_OK, length, 8 * second_size(n)}, form = {SULMIREJO_FORM, 0, 0};
    fill_bytes_with_junk(&file, length);
    fill_bytes_with_junk(&bundle, needed.out);
    lend_space(0, needed.work);
    expect(sulmirejo_write(k, n, lend_bytes(&file), length, lend_bytes(&bundle), bundle.room, lend(&work), work.room, lend_number()) ==
               SULMIREJO_OK,
           "a bundle to read", n, length);
    bundle.room = number_written();
    try_read_room(&due, SULMIREJO_OK, MOST_BYTES);
    bundle.room--;
    try_read_room(&form, SULMIREJO_OK, 0);
    bundle.room += 2;
    try_read_room(&form, SULMIREJO_OK, 0);
}

/* FORM of the front: wrong bytes, fewer than sixteen, and before SHAPE. */
static void try_broken_headers(void)
{
    const struct room form = {SULMIREJO_FORM, 0, 0};
    for (size_t at = 0; at < HEADER; at++) {
        lend_header(1, 1, 0);
        lend_bytes(&bundle)[at] ^= 128;
        /* what stands from 4 to 11, k, n and L, is for SHAPE to judge */
        if (at < 4 || at >= 12)
            try_read_room(&form, SULMIREJO_OK, 0);
    }
    for (size_t count = 0; count < HEADER; count++) {
        lend_header(1, 1, 0);
        bundle.room = count;
        try_read_room(&form, SULMIREJO_OK, 0);
    }
    lend_header(0, 1, 0);
    lend_bytes(&bundle)[15] = 1;
    try_read_room(&form, SULMIREJO_OK, 0);
}

static void try_bundle_rooms(size_t k, size_t n)
{
    const size_t block = k > LONGEST ? 2 : 2 * k;
    const size_t lengths[] = {0, 1, block - 1, block, block + 1, 1000, MOST_BLOCKS * block, MOST_BLOCKS * block + 1,
                              LONGEST_FILE - 1, LONGEST_FILE, LONGEST_FILE + 1, BEYOND32 - 1, BEYOND32, BEYOND32 + 4, SIZE_MAX};
    for (size_t i = 0; i < sizeof lengths / sizeof *lengths; i++) {
        try_write_room(k, n, lengths[i], TRIED_BYTES);
        try_header_room(k, n, lengths[i], TRIED_BYTES);
    }
}

static void try_shapes(size_t n)
{
    const size_t messages[] = {0, 1, 2, 3, 8, n / 2, n - 1, n, n + 1, LONGEST, LONGEST + 1, BEYOND32, BEYOND32 + 1, SIZE_MAX};
    for (size_t i = 0; i < sizeof messages / sizeof *messages; i++) {
        try_block_rooms(messages[i], n);
        try_bundle_rooms(messages[i], n);
    }
}

/* The largest that there is room for here: B at its limit, and the longest file in the longest blocks. */
static void try_largest(void)
{
    try_write_room(8, 8, MOST_BLOCKS * 16, MOST_BYTES);
    try_write_room(8, 8, MOST_BLOCKS * 16 + 1, MOST_BYTES);
    try_write_room(LONGEST, LONGEST, LONGEST_FILE, MOST_BYTES);
    try_write_room(LONGEST, LONGEST, LONGEST_FILE + 1, MOST_BYTES);
    try_header_room(LONGEST, LONGEST, LONGEST_FILE, MOST_BYTES);
    try_header_room(8, 8, MOST_BLOCKS * 16, MOST_BYTES);
}

int main(void)
{
    const size_t lengths[] = {0, 1, 2, 3, 4, 5, 7, 8, 9, 100, 255, 256, 257, 2048, 4095, 4096, 4097, 8192, BEYOND32, BEYOND32 + 4, SIZE_MAX};
    for (size_t i = 0; i < sizeof lengths / sizeof *lengths; i++) {
        try_transform_room(lengths[i]);
        try_shapes(lengths[i]);
    }
    for (size_t n = 1; n <= 9; n++)
        for (size_t length = 0; length <= 40; length++)
            try_whole_bundle((n + 1) / 2, n, length);
    try_broken_headers();
    try_largest();
    printf("rooms: %lu checks passed\n", checks_passed());
    return 0;
}
