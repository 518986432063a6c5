/* Writing and reading bundles, called from C: the cases that document 01 names and those on which its rules turn, and every way to break a
 * layout. The answers are written down by hand; only the code words of junk files come from the second coder. Guard cells stand round every
 * buffer, every lent cell holds junk before each call, and every cell is compared after it, those of the bundle that is only read too. */
#include "lent.h"
#include "second.h"
#include "second_bundle.h"
#include "sulmirejo.h"

#include <stdio.h>
#include <string.h>

enum { LONGEST = 4096, LONGEST_FILE = 1048576, KINDS = FORM + 1 };

#define BEYOND32 ((size_t)4294967296u) /* is 0 where only 32 bits are looked at */

struct bytes {
    size_t count;
    const uint8_t *bytes;
};

struct list {
    size_t count;
    const uint32_t *numbers;
};

/* For the tables: bytes or a list with their count. What is left out is empty. */
#define BYTES(...) {sizeof((uint8_t[]){__VA_ARGS__}), (const uint8_t[]){__VA_ARGS__}}
#define LIST(...) {sizeof((uint32_t[]){__VA_ARGS__}) / sizeof(uint32_t), (const uint32_t[]){__VA_ARGS__}}

/* A call of write and what is due: the status, the bundle, and how many cells of the working space have to be zero. What is left out is 0, so
 * a case without a status has to succeed, and a refusal has to write nothing. */
struct writing {
    const char *what;
    size_t k, n;
    struct bytes file;
    size_t out, work;
    uint32_t status;
    struct bytes bundle;
    size_t zero;
};

/* The same for read. The last `cut` bytes of the bundle are not lent, but stand behind the lent ones. Due are the file, or so many zero
 * bytes. */
struct reading {
    const char *what;
    struct bytes bundle;
    size_t cut, out, work;
    uint32_t status;
    size_t place;
    struct bytes file;
    size_t zero_bytes, zero;
};

static struct lent_bytes file, bundle, out;
static struct lent work;

static void copy(uint8_t *to, struct bytes from)
{
    for (size_t i = 0; i < from.count; i++)
        to[i] = from.bytes[i];
}

static void lend_space(size_t bytes, size_t cells)
{
    fill_bytes_with_junk(&out, bytes);
    remember_bytes(&out);
    fill_with_junk(&work, cells);
    remember(&work);
}

static void lend_content(struct lent_bytes *buffer, struct bytes content, size_t cut)
{
    content.count -= cut;
    fill_bytes_with_junk(buffer, content.count);
    content.count += least(cut, GUARD);
    copy(lend_bytes(buffer), content);
    remember_bytes(buffer);
}

static void expect_bytes_due(const struct lent_bytes *buffer, const char *what, const char *part)
{
    char text[160];
    long at = 0;
    int holds = bytes_hold_their_due(buffer, &at);
    snprintf(text, sizeof text, "%s: %s", what, part);
    expect(holds, text, buffer->room, (size_t)at);
}

static void expect_work_due(const char *what)
{
    char text[160];
    long at = 0;
    int holds = holds_its_due(&work, &at);
    snprintf(text, sizeof text, "%s: working space", what);
    expect(holds, text, work.room, (size_t)at);
}

static void expect_results_due(const char *what, const char *part)
{
    char text[160];
    size_t which = 0;
    int hold = results_hold_their_due(&which);
    snprintf(text, sizeof text, "%s: result of %s", what, part);
    expect(hold, text, bundle.room, which);
}

static void try_writing(const struct writing *one)
{
    uint32_t status;
    lend_content(&file, one->file, 0);
    lend_space(one->out, one->work);
    copy(due_bytes_of(&out), one->bundle);
    memset(due_of(&work), 0, one->zero * sizeof(uint32_t));
    status = sulmirejo_write(one->k, one->n, lend_bytes(&file), file.room, lend_bytes(&out), out.room, lend(&work), work.room, lend_number());
    expect(status == one->status, one->what, one->n, status);
    expect_number(one->bundle.count, one->what, one->n);
    expect_bytes_due(&file, one->what, "file");
    expect_bytes_due(&out, one->what, "bundle");
    expect_work_due(one->what);
}

/* The facts of the lent bundle are those in its header, B comes from them. A refusal leaves the five as they are. */
static void try_facts(const char *what, uint32_t refusal)
{
    const uint8_t *header = lend_bytes(&bundle);
    uint32_t status;
    fill_results_with_junk();
    if (refusal == SULMIREJO_OK) {
        const size_t k = number_at(header + 4, 2), length = number_at(header + 8, 4);
        *due_result(0) = k;
        *due_result(1) = number_at(header + 6, 2);
        *due_result(2) = length;
        *due_result(3) = number_at(header + 12, 2);
        *due_result(4) = (length + 2 * k - 1) / (2 * k);
    }
    status = sulmirejo_facts(header, bundle.room, lend_result(0), lend_result(1), lend_result(2), lend_result(3), lend_result(4),
                             lend_number());
    expect(status == refusal, what, bundle.room, status);
    expect_number(0, what, bundle.room);
    expect_results_due(what, "facts");
}

static void try_entry(const char *what, size_t index, uint32_t refusal)
{
    const uint8_t *start = lend_bytes(&bundle);
    uint32_t status;
    fill_results_with_junk();
    if (refusal == SULMIREJO_OK) {
        const uint8_t *entry = start + 16 + 8 * index;
        *due_result(0) = number_at(entry, 2);
        *due_result(1) = number_at(entry + 4, 4);
        *due_result(2) = number_at(entry + 2, 2);
    }
    status = sulmirejo_entry(start, bundle.room, index, lend_result(0), lend_result(1), lend_result(2), lend_number());
    expect(status == refusal, what, index, status);
    expect_number(0, what, index);
    expect_results_due(what, "entry");
}

/* Facts and entries of the lent bundle, which depend on its layout alone: what the reader refuses later does not concern them. */
static void try_layout(const char *what, uint32_t status)
{
    const int refused = status == SULMIREJO_SHAPE || status == SULMIREJO_FORM;
    const size_t held = refused ? 0 : number_at(lend_bytes(&bundle) + 12, 2);
    const size_t inside[] = {0, 1, held / 2, held - 2, held - 1}, outside[] = {held, held + 1, BEYOND32, SIZE_MAX};
    try_facts(what, refused ? status : SULMIREJO_OK);
    for (size_t i = 0; i < sizeof inside / sizeof *inside; i++)
        if (inside[i] < held)
            try_entry(what, inside[i], SULMIREJO_OK);
    for (size_t i = 0; i < sizeof outside / sizeof *outside; i++)
        try_entry(what, outside[i], refused ? status : SULMIREJO_POSITION);
    expect_bytes_due(&bundle, what, "bundle that is listed");
}

static void try_reading(const struct reading *one)
{
    uint32_t status;
    lend_content(&bundle, one->bundle, one->cut);
    lend_space(one->out, one->work);
    copy(due_bytes_of(&out), one->file);
    memset(due_bytes_of(&out), 0, one->zero_bytes);
    memset(due_of(&work), 0, one->zero * sizeof(uint32_t));
    status = sulmirejo_read(lend_bytes(&bundle), bundle.room, lend_bytes(&out), out.room, lend(&work), work.room, lend_number());
    expect(status == one->status, one->what, bundle.room, status);
    expect_number(one->status == SULMIREJO_OK ? one->file.count : one->place, one->what, bundle.room);
    expect_bytes_due(&bundle, one->what, "bundle");
    expect_bytes_due(&out, one->what, "file");
    expect_work_due(one->what);
    try_layout(one->what, one->status);
}

/* P11's bundle, document 01's own bytes. */
#define P11_SHAPE 0x46, 0x4E, 0x54, 0x42, 0x00, 0x02, 0x00, 0x04
#define P11_TABLE \
    0x00, 0x00, 0x00, 0x00, 0x00, 0x00, 0x00, 0x30, 0x00, 0x01, 0x00, 0x00, 0x00, 0x00, 0x00, 0x32, \
    0x00, 0x02, 0x00, 0x01, 0x00, 0x00, 0x00, 0x34, 0x00, 0x03, 0x00, 0x00, 0x00, 0x00, 0x00, 0x38
#define P11_BODIES 0x00, 0x03, 0xFE, 0x02, 0x00, 0x00, 0x00, 0x00, 0x02, 0x01
static const uint8_t p11[] = {P11_SHAPE, 0x00, 0x00, 0x00, 0x04, 0x00, 0x04, 0x00, 0x00, P11_TABLE, P11_BODIES};
static const uint8_t p11_file[] = {0x00, 0x01, 0x00, 0x02};

#define P11 {sizeof p11, p11}
#define P11_FILE {sizeof p11_file, p11_file}

/* A bundle with several blocks, the last one padded, and with 65536 in the first, the middle and the last of them. The points of n = 4 are 1,
 * -256, -1 and 256, so that the words a and b of a block make the symbols a + b, a - 256b, a - b and a + 256b:
 *     a =     1, b =     2:     3, 65026, 65536,   513
 *     a = 32769, b = 32767: 65536, 33153,     2, 32385, for 256 * 32767 is -384
 *     a =   255, b =   256:   511,   256, 65536,   254, for 256 * 256 is -1 */
static const uint8_t three_file[] = {0x00, 0x01, 0x00, 0x02, 0x80, 0x01, 0x7F, 0xFF, 0x00, 0xFF, 0x01};
static const uint8_t three[] = {
    0x46, 0x4E, 0x54, 0x42, 0x00, 0x02, 0x00, 0x04, 0x00, 0x00, 0x00, 0x0B, 0x00, 0x04, 0x00, 0x00, /* header */
    0x00, 0x00, 0x00, 0x01, 0x00, 0x00, 0x00, 0x30, 0x00, 0x01, 0x00, 0x00, 0x00, 0x00, 0x00, 0x38, /* entries from 16 and from 24 */
    0x00, 0x02, 0x00, 0x02, 0x00, 0x00, 0x00, 0x3E, 0x00, 0x03, 0x00, 0x00, 0x00, 0x00, 0x00, 0x48, /* entries from 32 and from 40 */
    0x00, 0x01, 0x00, 0x03, 0x00, 0x00, 0x01, 0xFF,                                                 /* body 0 from 48, list from 48 */
    0xFE, 0x02, 0x81, 0x81, 0x01, 0x00,                                                             /* body 1 from 56 */
    0x00, 0x00, 0x00, 0x02, 0x00, 0x00, 0x00, 0x02, 0x00, 0x00,                                     /* body 2 from 62, list from 62 */
    0x02, 0x01, 0x7E, 0x81, 0x00, 0xFE,                                                             /* body 3 from 72 to 77 */
};

#define THREE {sizeof three, three}
#define THREE_FILE {sizeof three_file, three_file}

/* The bundles of an empty file. */
static const uint8_t empty_of_1[] = {0x46, 0x4E, 0x54, 0x42, 0, 1, 0, 1, 0, 0, 0, 0, 0, 1, 0, 0, 0, 0, 0, 0, 0, 0, 0, 24};
static const uint8_t empty_of_5[] = {
    0x46, 0x4E, 0x54, 0x42, 0, 2, 0, 5, 0, 0, 0, 0, 0, 5, 0, 0, 0, 0, 0, 0, 0, 0, 0, 56, 0, 1, 0, 0, 0, 0, 0, 56,
    0, 2, 0, 0, 0, 0, 0, 56, 0, 3, 0, 0, 0, 0, 0, 56, 0, 4, 0, 0, 0, 0, 0, 56,
};

#define EMPTY_OF_1 {sizeof empty_of_1, empty_of_1}
#define EMPTY_OF_5 {sizeof empty_of_5, empty_of_5}

static const struct writing bundles[] = {
    {"P11", 2, 4, P11_FILE, .out = 64, .work = 32, .bundle = P11, .zero = 32},
    {"three blocks", 2, 4, THREE_FILE, .out = 96, .work = 32, .bundle = THREE, .zero = 32},
    {"three blocks, more room", 2, 4, THREE_FILE, .out = 97, .work = 33, .bundle = THREE, .zero = 32},
    {"three blocks, much room", 2, 4, THREE_FILE, .out = 5000, .work = 9000, .bundle = THREE, .zero = 32},
    {"empty, k = n = 1", 1, 1, .out = 24, .work = 8, .bundle = EMPTY_OF_1, .zero = 8},
    {"empty, n = 5", 2, 5, .out = 56, .work = 64, .bundle = EMPTY_OF_5, .zero = 64},
    {"empty, more room", 2, 5, .out = 57, .work = 65, .bundle = EMPTY_OF_5, .zero = 64},
    {"one byte, k = n = 1", 1, 1, BYTES(0xAB), .out = 28, .work = 8, .zero = 8,
     .bundle = BYTES(0x46, 0x4E, 0x54, 0x42, 0, 1, 0, 1, 0, 0, 0, 1, 0, 1, 0, 0, 0, 0, 0, 0, 0, 0, 0, 24, 0xAB, 0)},
    {"two bytes, k = n = 1", 1, 1, BYTES(0xFF, 0xFF), .out = 28, .work = 8, .zero = 8,
     .bundle = BYTES(0x46, 0x4E, 0x54, 0x42, 0, 1, 0, 1, 0, 0, 0, 2, 0, 1, 0, 0, 0, 0, 0, 0, 0, 0, 0, 24, 0xFF, 0xFF)},
    {"one more than a block, k = n = 1", 1, 1, BYTES(0x01, 0x02, 0x03), .out = 32, .work = 8, .zero = 8,
     .bundle = BYTES(0x46, 0x4E, 0x54, 0x42, 0, 1, 0, 1, 0, 0, 0, 3, 0, 1, 0, 0, 0, 0, 0, 0, 0, 0, 0, 24, 1, 2, 3, 0)},
    {"k = 1, n = 3", 1, 3, BYTES(0x12, 0x34, 0x56, 0x78), .out = 64, .work = 32, .zero = 32,
     .bundle = BYTES(0x46, 0x4E, 0x54, 0x42, 0, 1, 0, 3, 0, 0, 0, 4, 0, 3, 0, 0, 0, 0, 0, 0, 0, 0, 0, 40, 0, 1, 0, 0, 0, 0, 0, 44,
                     0, 2, 0, 0, 0, 0, 0, 48, 0x12, 0x34, 0x56, 0x78, 0x12, 0x34, 0x56, 0x78, 0x12, 0x34, 0x56, 0x78)},
    {"P5 as a bundle", 2, 3, P11_FILE, .out = 52, .work = 32, .zero = 32,
     .bundle = BYTES(0x46, 0x4E, 0x54, 0x42, 0, 2, 0, 3, 0, 0, 0, 4, 0, 3, 0, 0, 0, 0, 0, 0, 0, 0, 0, 40, 0, 1, 0, 0, 0, 0, 0, 42,
                     0, 2, 0, 1, 0, 0, 0, 44, 0x00, 0x03, 0xFE, 0x02, 0, 0, 0, 0)},
    /* 258 and 768: 256 * 768 is -3 */
    {"odd length", 2, 4, BYTES(0x01, 0x02, 0x03), .out = 64, .work = 32, .zero = 32,
     .bundle = BYTES(0x46, 0x4E, 0x54, 0x42, 0, 2, 0, 4, 0, 0, 0, 3, 0, 4, 0, 0, 0, 0, 0, 0, 0, 0, 0, 48, 0, 1, 0, 0, 0, 0, 0, 50,
                     0, 2, 0, 0, 0, 0, 0, 52, 0, 3, 0, 0, 0, 0, 0, 54, 0x04, 0x02, 0x01, 0x05, 0xFE, 0x03, 0x00, 0xFF)},
    {"one more than a block", 2, 4, BYTES(0x00, 0x01, 0x00, 0x02, 0x05), .out = 80, .work = 32, .zero = 32,
     .bundle = BYTES(0x46, 0x4E, 0x54, 0x42, 0, 2, 0, 4, 0, 0, 0, 5, 0, 4, 0, 0, 0, 0, 0, 0, 0, 0, 0, 48, 0, 1, 0, 0, 0, 0, 0, 52,
                     0, 2, 0, 1, 0, 0, 0, 56, 0, 3, 0, 0, 0, 0, 0, 62, 0x00, 0x03, 0x05, 0x00, 0xFE, 0x02, 0x05, 0x00,
                     0, 0, 0, 0, 0x05, 0x00, 0x02, 0x01, 0x05, 0x00)},
    {"padding of whole words", 4, 4, P11_FILE, .out = 64, .work = 32, .zero = 32,
     .bundle = BYTES(0x46, 0x4E, 0x54, 0x42, 0, 4, 0, 4, 0, 0, 0, 4, 0, 4, 0, 0, P11_TABLE, P11_BODIES)},
};

static const struct writing refused_bundles[] = {
    {"k = 0", 0, 4, P11_FILE, .out = 90, .work = 90, .status = SULMIREJO_SHAPE},
    {"k = 0, empty", 0, 4, .out = 90, .work = 90, .status = SULMIREJO_SHAPE},
    {"k = n = 0", 0, 0, P11_FILE, .out = 90, .work = 90, .status = SULMIREJO_SHAPE},
    {"n = 0", 1, 0, P11_FILE, .out = 90, .work = 90, .status = SULMIREJO_SHAPE},
    {"k > n", 5, 4, P11_FILE, .out = 90, .work = 90, .status = SULMIREJO_SHAPE},
    {"k > n within N", 4, 3, P11_FILE, .out = 90, .work = 90, .status = SULMIREJO_SHAPE},
    {"n = 4097", 2, 4097, P11_FILE, .out = 70000, .work = 66000, .status = SULMIREJO_SHAPE},
    {"largest n", 2, SIZE_MAX, P11_FILE, .out = 90, .work = 90, .status = SULMIREJO_SHAPE},
    {"largest k", SIZE_MAX, 4, P11_FILE, .out = 90, .work = 90, .status = SULMIREJO_SHAPE},
    {"largest k and n", SIZE_MAX, SIZE_MAX, P11_FILE, .out = 90, .work = 90, .status = SULMIREJO_SHAPE},
    {"k = 2^63", SIZE_MAX / 2 + 1, SIZE_MAX, P11_FILE, .out = 90, .work = 90, .status = SULMIREJO_SHAPE},
    {"n = 2^16 + 4", 2, 65540, P11_FILE, .out = 90, .work = 90, .status = SULMIREJO_SHAPE},
    {"n = 2^32 + 4", 2, BEYOND32 + 4, P11_FILE, .out = 90, .work = 90, .status = SULMIREJO_SHAPE},
    {"k = 2^32 + 2", BEYOND32 + 2, 4, P11_FILE, .out = 90, .work = 90, .status = SULMIREJO_SHAPE},
    {"both from 2^32", BEYOND32 + 2, BEYOND32 + 4, P11_FILE, .out = 90, .work = 90, .status = SULMIREJO_SHAPE},
    {"output one short", 2, 4, P11_FILE, .out = 63, .work = 32, .status = SULMIREJO_ROOM},
    {"output of the bundle's length", 2, 4, P11_FILE, .out = 58, .work = 32, .status = SULMIREJO_ROOM},
    {"no output", 2, 4, P11_FILE, .out = 0, .work = 32, .status = SULMIREJO_ROOM},
    {"work one short", 2, 4, P11_FILE, .out = 64, .work = 31, .status = SULMIREJO_ROOM},
    {"work of decode", 2, 4, P11_FILE, .out = 64, .work = 16, .status = SULMIREJO_ROOM},
    {"work of 8n, n = 3", 2, 3, P11_FILE, .out = 52, .work = 24, .status = SULMIREJO_ROOM},
    {"no room at all", 2, 4, P11_FILE, .out = 0, .work = 0, .status = SULMIREJO_ROOM},
    {"output one short, empty", 1, 1, .out = 23, .work = 8, .status = SULMIREJO_ROOM},
    {"work one short, empty", 1, 1, .out = 24, .work = 7, .status = SULMIREJO_ROOM},
    {"output for no overflow, k = 1", 1, 1, BYTES(0xAB), .out = 26, .work = 8, .status = SULMIREJO_ROOM},
    {"output one short, k = 1", 1, 1, BYTES(0xAB), .out = 27, .work = 8, .status = SULMIREJO_ROOM},
    {"k = 0, no room", 0, 4, P11_FILE, .out = 0, .work = 0, .status = SULMIREJO_SHAPE},
    {"k > n, output short", 5, 4, P11_FILE, .out = 63, .work = 32, .status = SULMIREJO_SHAPE},
    {"n = 4097, work of 4096", 1, 4097, P11_FILE, .out = 70000, .work = 32768, .status = SULMIREJO_SHAPE},
};

/* One shadow of P11's, which is too few. */
#define ONE_SHADOW P11_SHAPE, 0x00, 0x00, 0x00, 0x04, 0x00, 0x01, 0x00, 0x00, 0x00, 0x02, 0x00, 0x01, 0x00, 0x00, 0x00, 0x18

static const struct reading files[] = {
    {"P11", P11, .out = 4, .work = 32, .file = P11_FILE, .zero = 32},
    {"P11, more output", P11, .out = 5, .work = 32, .file = P11_FILE, .zero = 32},
    {"P11, more working space", P11, .out = 4, .work = 33, .file = P11_FILE, .zero = 32},
    {"P11, much room", P11, .out = 500, .work = 9000, .file = P11_FILE, .zero = 32},
    {"P11, output one short", P11, .out = 3, .work = 32, .status = SULMIREJO_ROOM},
    {"P11, no output", P11, .out = 0, .work = 32, .status = SULMIREJO_ROOM},
    {"P11, work one short", P11, .out = 4, .work = 31, .status = SULMIREJO_ROOM},
    {"P11, work of decode", P11, .out = 4, .work = 16, .status = SULMIREJO_ROOM},
    {"P11, no working space", P11, .out = 4, .work = 0, .status = SULMIREJO_ROOM},
    {"P12, L = 3", BYTES(P11_SHAPE, 0, 0, 0, 3, 0, 4, 0, 0, P11_TABLE, P11_BODIES), .out = 3, .work = 32, .status = SULMIREJO_TAIL,
     .zero_bytes = 3, .zero = 32},
    {"P12, L = 3, more room", BYTES(P11_SHAPE, 0, 0, 0, 3, 0, 4, 0, 0, P11_TABLE, P11_BODIES), .out = 4, .work = 33,
     .status = SULMIREJO_TAIL, .zero_bytes = 3, .zero = 32},
    {"P12, L = 5", BYTES(P11_SHAPE, 0, 0, 0, 5, 0, 4, 0, 0, P11_TABLE, P11_BODIES), .out = 8, .work = 32, .status = SULMIREJO_FORM},
    {"three blocks", THREE, .out = 11, .work = 32, .file = THREE_FILE, .zero = 32},
    {"three blocks, room of whole blocks", THREE, .out = 12, .work = 32, .file = THREE_FILE, .zero = 32},
    {"three blocks, output one short", THREE, .out = 10, .work = 32, .status = SULMIREJO_ROOM},
    {"empty, k = n = 1", EMPTY_OF_1, .out = 0, .work = 8, .zero = 8},
    {"empty, k = n = 1, more room", EMPTY_OF_1, .out = 3, .work = 9, .zero = 8},
    {"empty, work one short", EMPTY_OF_1, .out = 0, .work = 7, .status = SULMIREJO_ROOM},
    {"empty, n = 5", EMPTY_OF_5, .out = 0, .work = 64, .zero = 64},
    {"empty, n = 5, work of 8n", EMPTY_OF_5, .out = 0, .work = 40, .status = SULMIREJO_ROOM},
    {"empty, m = k", BYTES(0x46, 0x4E, 0x54, 0x42, 0, 1, 0, 5, 0, 0, 0, 0, 0, 1, 0, 0, 0, 4, 0, 0, 0, 0, 0, 24), .out = 0, .work = 64,
     .zero = 64},
    {"empty, m = 1, k = 2", BYTES(0x46, 0x4E, 0x54, 0x42, 0, 2, 0, 5, 0, 0, 0, 0, 0, 1, 0, 0, 0, 4, 0, 0, 0, 0, 0, 24), .out = 0, .work = 64,
     .status = SULMIREJO_FEW},
    {"empty, m = 0", BYTES(0x46, 0x4E, 0x54, 0x42, 0, 1, 0, 1, 0, 0, 0, 0, 0, 0, 0, 0), .out = 0, .work = 8, .status = SULMIREJO_FEW},
    {"empty, m = 0, work short", BYTES(0x46, 0x4E, 0x54, 0x42, 0, 1, 0, 1, 0, 0, 0, 0, 0, 0, 0, 0), .out = 0, .work = 7,
     .status = SULMIREJO_ROOM},
    {"empty, a list", BYTES(0x46, 0x4E, 0x54, 0x42, 0, 1, 0, 1, 0, 0, 0, 0, 0, 1, 0, 0, 0, 0, 0, 1, 0, 0, 0, 24, 0, 0), .out = 0, .work = 8,
     .status = SULMIREJO_FORM},
    {"m = 0", BYTES(P11_SHAPE, 0, 0, 0, 4, 0, 0, 0, 0), .out = 4, .work = 32, .status = SULMIREJO_FEW},
    {"m = 0, output short", BYTES(P11_SHAPE, 0, 0, 0, 4, 0, 0, 0, 0), .out = 3, .work = 32, .status = SULMIREJO_ROOM},
    {"m = 0, work short", BYTES(P11_SHAPE, 0, 0, 0, 4, 0, 0, 0, 0), .out = 4, .work = 31, .status = SULMIREJO_ROOM},
    {"m = 0, one byte more", BYTES(P11_SHAPE, 0, 0, 0, 4, 0, 0, 0, 0, 0), .out = 4, .work = 32, .status = SULMIREJO_FORM},
    {"m = 1", BYTES(ONE_SHADOW, 0, 0, 0, 0), .out = 4, .work = 32, .status = SULMIREJO_FEW},
    {"m = 1, output short", BYTES(ONE_SHADOW, 0, 0, 0, 0), .out = 3, .work = 32, .status = SULMIREJO_ROOM},
    {"m = 1, work short", BYTES(ONE_SHADOW, 0, 0, 0, 0), .out = 4, .work = 31, .status = SULMIREJO_ROOM},
    {"m = 1, list of B", BYTES(ONE_SHADOW, 0, 1, 0, 0), .out = 4, .work = 32, .status = SULMIREJO_FORM},
    {"m = 1, list of B, no room", BYTES(ONE_SHADOW, 0, 1, 0, 0), .out = 0, .work = 0, .status = SULMIREJO_FORM},
    {"m = 1, one byte more", BYTES(ONE_SHADOW, 0, 0, 0, 0, 0), .out = 4, .work = 32, .status = SULMIREJO_FORM},
    {"no bytes", {0, NULL}, .out = 4, .work = 32, .status = SULMIREJO_FORM},
    {"no bytes, no room", {0, NULL}, .out = 0, .work = 0, .status = SULMIREJO_FORM},
};

/* A bundle by its symbols, n for each block, of which those at the positions are held. It is read with exactly the room that it needs. */
struct coded {
    const char *what;
    size_t k, n, length;
    struct list positions, symbols;
    uint32_t status;
    size_t place;
    struct bytes file;
};

static int refuses_block(uint32_t status)
{
    return status == SULMIREJO_DISAGREE || status == SULMIREJO_WORD || status == SULMIREJO_TAIL;
}

/* A reading with exactly the room that it needs, and with what is due by its answer. */
static struct reading exactly(const char *what, struct bytes content, size_t n, struct bytes right, uint32_t status, size_t place)
{
    struct reading one = {what, content, 0, right.count, 8 * second_size(n), status, place, {0, NULL}, 0, 0};
    if (status == SULMIREJO_OK)
        one.file = right;
    if (refuses_block(status))
        one.zero_bytes = right.count;
    if (status == SULMIREJO_OK || refuses_block(status))
        one.zero = one.work;
    return one;
}

/* The bundle that a test has made, and the symbols for it. */
static uint8_t made[MOST_BYTES];
static uint32_t symbols[MOST_BYTES / 2];

static struct bytes lay_out(size_t k, size_t n, size_t length, const uint32_t *positions, size_t m)
{
    struct bytes content = {second_lay_out(k, n, length, positions, m, symbols, made), made};
    return content;
}

static void try_coded(const struct coded *one)
{
    const struct bytes right = {one->length, one->file.bytes};
    struct bytes coded;
    struct reading reading;
    memcpy(symbols, one->symbols.numbers, one->symbols.count * sizeof *symbols);
    coded = lay_out(one->k, one->n, one->length, one->positions.numbers, one->positions.count);
    reading = exactly(one->what, coded, one->n, right, one->status, one->place);
    try_reading(&reading);
    reading.out += 3;
    reading.work += 3;
    try_reading(&reading);
}

/* The symbols of two words in the order 1, -256, -1, 256 of the points. One word alone makes four times itself. */
#define S1_2 3, 65026, 65536, 513             /* 1 and 2 */
#define S32769_32767 65536, 33153, 2, 32385   /* 256 * 32767 is -384 */
#define S255_256 511, 256, 65536, 254         /* 256 * 256 is -1 */
#define S65536_0 65536, 65536, 65536, 65536   /* the first symbol is no word */
#define S0_65536 65536, 256, 1, 65281         /* the second is none */
#define S5_65536 4, 261, 6, 65286             /* the second is none, and nothing is listed */
#define S65536_7 6, 63744, 65529, 1791        /* 256 * 7 is 1792 */
#define S1280_0 1280, 1280, 1280, 1280
#define S1281_0 1281, 1281, 1281, 1281
#define S1280_1 1281, 1024, 1279, 1536
#define S1280_256 1536, 1281, 1024, 1279
#define ALL LIST(0, 1, 2, 3)

static const struct coded good_symbols[] = {
    {"P11 from its symbols", 2, 4, 4, ALL, LIST(S1_2), .file = P11_FILE},
    {"three blocks from their symbols", 2, 4, 11, ALL, LIST(S1_2, S32769_32767, S255_256), .file = THREE_FILE},
    {"65536 is not 0", 2, 4, 4, LIST(0, 2), LIST(S1_2), .file = P11_FILE},
    {"without 65536", 2, 4, 4, LIST(1, 3), LIST(S1_2), .file = P11_FILE},
    {"shadows 2 and 3", 2, 4, 11, LIST(2, 3), LIST(S1_2, S32769_32767, S255_256), .file = THREE_FILE},
    {"65536 first", 2, 4, 8, LIST(0, 1, 3), LIST(S32769_32767, S1_2), .file = BYTES(0x80, 0x01, 0x7F, 0xFF, 0, 1, 0, 2)},
    {"one byte more than a block", 2, 4, 5, ALL, LIST(S1_2, S1280_0), .file = BYTES(0, 1, 0, 2, 5)},
    {"two bytes more than a block", 2, 4, 6, ALL, LIST(S1_2, S1281_0), .file = BYTES(0, 1, 0, 2, 5, 1)},
    {"three bytes more than a block", 2, 4, 7, ALL, LIST(S1_2, S1280_256), .file = BYTES(0, 1, 0, 2, 5, 0, 1)},
    {"a whole block more", 2, 4, 8, ALL, LIST(S1_2, S1280_1), .file = BYTES(0, 1, 0, 2, 5, 0, 0, 1)},
    {"zeros", 2, 4, 7, LIST(0, 3), LIST(0, 0, 0, 0, 0, 0, 0, 0), .file = BYTES(0, 0, 0, 0, 0, 0, 0)},
    /* what no one can see: m = k, and another file fits */
    {"m = k altered", 2, 4, 4, LIST(1, 3), LIST(0, 65026, 0, 514), .file = BYTES(0x80, 0x02, 0xFF, 0x83)},
    {"k = 1, n = 1", 1, 1, 5, LIST(0), LIST(258, 65535, 1280), .file = BYTES(1, 2, 0xFF, 0xFF, 5)},
    {"k = 1 from the last shadow", 1, 3, 3, LIST(2), LIST(9, 9, 258, 9, 9, 768), .file = BYTES(1, 2, 3)},
};

static const struct coded refused_symbols[] = {
    {"m = k - 1", 2, 4, 4, LIST(2), LIST(S1_2), .status = SULMIREJO_FEW},
    {"m = 0", 2, 4, 4, .symbols = LIST(S1_2), .status = SULMIREJO_FEW},
    {"m = n - 1, k = n", 4, 4, 8, LIST(0, 1, 3), LIST(S1_2), .status = SULMIREJO_FEW},
    {"P9 as a bundle", 2, 4, 4, LIST(0, 1, 2), LIST(3, 65026, 0, 513), .status = SULMIREJO_DISAGREE},
    {"last shadow altered", 2, 4, 4, ALL, LIST(3, 65026, 65536, 514), .status = SULMIREJO_DISAGREE},
    {"first shadow altered", 2, 4, 4, ALL, LIST(4, 65026, 65536, 513), .status = SULMIREJO_DISAGREE},
    {"listed though it is 3", 2, 4, 4, ALL, LIST(65536, 65026, 65536, 513), .status = SULMIREJO_DISAGREE},
    {"block 1 altered", 2, 4, 11, ALL, LIST(S1_2, 65536, 33153, 2, 32384, S255_256), .status = SULMIREJO_DISAGREE, .place = 1},
    {"block 2 altered", 2, 4, 11, ALL, LIST(S1_2, S32769_32767, 511, 256, 0, 254), .status = SULMIREJO_DISAGREE, .place = 2},
    {"blocks 1 and 2 altered", 2, 4, 11, ALL, LIST(S1_2, 0, 33153, 2, 32385, 511, 256, 0, 254), .status = SULMIREJO_DISAGREE, .place = 1},
    {"blocks 0 and 2 altered", 2, 4, 11, LIST(0, 1, 2), LIST(3, 65026, 65535, 0, S32769_32767, 511, 256, 0, 0), .status = SULMIREJO_DISAGREE},
    {"first symbol 65536", 2, 4, 4, ALL, LIST(S65536_0), .status = SULMIREJO_WORD},
    {"second symbol 65536", 2, 4, 4, ALL, LIST(S0_65536), .status = SULMIREJO_WORD},
    {"65536 and nothing listed", 2, 4, 4, ALL, LIST(S5_65536), .status = SULMIREJO_WORD},
    {"65536 from m = k", 2, 4, 4, LIST(1, 2), LIST(S5_65536), .status = SULMIREJO_WORD},
    {"65536, k = n = 1", 1, 1, 2, LIST(0), LIST(65536), .status = SULMIREJO_WORD},
    {"65536 in block 1", 2, 4, 8, ALL, LIST(S1_2, S65536_0), .status = SULMIREJO_WORD, .place = 1},
    {"65536 in block 1, second symbol", 2, 4, 12, ALL, LIST(S1_2, S0_65536, S255_256), .status = SULMIREJO_WORD, .place = 1},
    {"65536 in the padding", 2, 4, 2, ALL, LIST(S5_65536), .status = SULMIREJO_WORD},
    {"65536 in the padding of block 1", 2, 4, 6, ALL, LIST(S1_2, S5_65536), .status = SULMIREJO_WORD, .place = 1},
    {"65536 half in the padding", 1, 1, 3, LIST(0), LIST(258, 65536), .status = SULMIREJO_WORD, .place = 1},
    {"65536 in block 0, block 1 altered", 2, 4, 8, ALL, LIST(S65536_0, 3, 65026, 65536, 514), .status = SULMIREJO_WORD},
    {"block 0 altered, 65536 in block 1", 2, 4, 8, ALL, LIST(3, 65026, 65536, 514, S65536_0), .status = SULMIREJO_DISAGREE},
    {"65536 in a block that is altered", 2, 4, 4, ALL, LIST(4, 261, 6, 65287), .status = SULMIREJO_DISAGREE},
    {"65536 in block 1 that is altered", 2, 4, 8, ALL, LIST(S1_2, 65536, 256, 1, 65280), .status = SULMIREJO_DISAGREE, .place = 1},
    {"65536 before the padding", 2, 4, 2, ALL, LIST(S65536_7), .status = SULMIREJO_WORD},
    {"65536 behind the first padding", 2, 4, 1, ALL, LIST(S5_65536), .status = SULMIREJO_WORD},
    {"65536 in block 0, padding of block 1", 2, 4, 5, ALL, LIST(S0_65536, S1281_0), .status = SULMIREJO_WORD},
    {"padding, last byte of one", 2, 4, 3, ALL, LIST(S1_2), .status = SULMIREJO_TAIL},
    {"padding, last byte of two", 2, 4, 2, ALL, LIST(S1_2), .status = SULMIREJO_TAIL},
    {"padding, first and last of three", 2, 4, 1, ALL, LIST(S1_2), .status = SULMIREJO_TAIL},
    {"padding of block 1, first byte", 2, 4, 5, ALL, LIST(S1_2, S1281_0), .status = SULMIREJO_TAIL, .place = 1},
    {"padding of block 1, last byte", 2, 4, 5, ALL, LIST(S1_2, S1280_1), .status = SULMIREJO_TAIL, .place = 1},
    {"padding of block 1, middle byte", 2, 4, 5, ALL, LIST(S1_2, S1280_256), .status = SULMIREJO_TAIL, .place = 1},
    {"padding of block 1, high byte of a word", 2, 4, 6, ALL, LIST(S1_2, S1280_256), .status = SULMIREJO_TAIL, .place = 1},
    {"padding from m = k", 2, 4, 3, LIST(0, 2), LIST(S1_2), .status = SULMIREJO_TAIL},
    {"padding of a block that is altered", 2, 4, 3, ALL, LIST(3, 65026, 65536, 514), .status = SULMIREJO_DISAGREE},
    {"block 0 altered, padding of block 1", 2, 4, 5, ALL, LIST(3, 65026, 65536, 514, S1281_0), .status = SULMIREJO_DISAGREE},
    {"k = 1, padding", 1, 2, 3, LIST(0, 1), LIST(258, 258, 769, 769), .status = SULMIREJO_TAIL, .place = 1},
};

/* A change of the bundle of three blocks: at one place some bytes are gone and others put in, then others are put over what stands there.
 * What is left out of the rooms is more than enough for n up to 8. */
struct breach {
    const char *what;
    size_t at, gone;
    struct bytes put;
    struct {
        size_t at;
        struct bytes put;
    } also[4];
    size_t out, work;
    uint32_t status;
    size_t place;
    struct bytes file;
    size_t zero_bytes, zero;
};

static void try_breach(const struct breach *one)
{
    const size_t behind = one->at + one->gone;
    struct reading reading = {one->what, {0, made}, 0, one->out ? one->out : 20, one->work ? one->work : 70, one->status, one->place,
                              one->file, one->zero_bytes, one->zero};
    memcpy(made, three, one->at);
    copy(made + one->at, one->put);
    memcpy(made + one->at + one->put.count, three + behind, sizeof three - behind);
    for (size_t i = 0; i < sizeof one->also / sizeof *one->also; i++)
        copy(made + one->also[i].at, one->also[i].put);
    reading.bundle.count = sizeof three - one->gone + one->put.count;
    try_reading(&reading);
}

static const struct breach headers[] = {
    {"unchanged", 0, 0, {0, NULL}, .file = THREE_FILE, .zero = 32},
    {"mark, byte 0", 0, 1, BYTES(0x47), .status = SULMIREJO_FORM},
    {"mark, byte 1", 1, 1, BYTES(0x6E), .status = SULMIREJO_FORM},
    {"mark, byte 2", 2, 1, BYTES(0x55), .status = SULMIREJO_FORM},
    {"mark, byte 3", 3, 1, BYTES(0x43), .status = SULMIREJO_FORM},
    {"mark turned round", 0, 4, BYTES(0x42, 0x54, 0x4E, 0x46), .status = SULMIREJO_FORM},
    {"k = 0", 4, 2, BYTES(0, 0), .status = SULMIREJO_SHAPE},
    {"k = 1, so B = 6", 4, 2, BYTES(0, 1), .status = SULMIREJO_FORM},
    {"k = 3, so B = 2", 4, 2, BYTES(0, 3), .status = SULMIREJO_FORM},
    {"k = 5", 4, 2, BYTES(0, 5), .status = SULMIREJO_SHAPE},
    {"k = 258", 4, 2, BYTES(1, 2), .status = SULMIREJO_SHAPE},
    {"n = 0", 6, 2, BYTES(0, 0), .status = SULMIREJO_SHAPE},
    {"n = 1", 6, 2, BYTES(0, 1), .status = SULMIREJO_SHAPE},
    {"n = 2", 6, 2, BYTES(0, 2), .status = SULMIREJO_FORM},
    {"n = 3", 6, 2, BYTES(0, 3), .status = SULMIREJO_FORM},
    /* differences of neighbouring symbols make the ratio r, and a longer block has another root */
    {"n = 5", 6, 2, BYTES(0, 5), .status = SULMIREJO_DISAGREE, .zero_bytes = 11, .zero = 64},
    {"n = 8", 6, 2, BYTES(0, 8), .status = SULMIREJO_DISAGREE, .zero_bytes = 11, .zero = 64},
    {"n = 9", 6, 2, BYTES(0, 9), .status = SULMIREJO_ROOM},
    {"n = 260", 6, 2, BYTES(1, 4), .work = 4096, .status = SULMIREJO_DISAGREE, .zero_bytes = 11, .zero = 4096},
    {"n = 4096", 6, 2, BYTES(0x10, 0), .work = 32769, .status = SULMIREJO_DISAGREE, .zero_bytes = 11, .zero = 32768},
    {"n = 4096, work one short", 6, 2, BYTES(0x10, 0), .work = 32767, .status = SULMIREJO_ROOM},
    {"n = 4097", 6, 2, BYTES(0x10, 1), .work = 66000, .status = SULMIREJO_SHAPE},
    {"n = 65535", 6, 2, BYTES(0xFF, 0xFF), .work = 66000, .status = SULMIREJO_SHAPE},
    {"L = 0", 8, 4, BYTES(0, 0, 0, 0), .status = SULMIREJO_FORM},
    {"L = 8", 8, 4, BYTES(0, 0, 0, 8), .status = SULMIREJO_FORM},
    {"L = 9", 8, 4, BYTES(0, 0, 0, 9), .status = SULMIREJO_TAIL, .place = 2, .zero_bytes = 9, .zero = 32},
    {"L = 10", 8, 4, BYTES(0, 0, 0, 10), .status = SULMIREJO_TAIL, .place = 2, .zero_bytes = 10, .zero = 32},
    {"L = 12", 8, 4, BYTES(0, 0, 0, 12), .file = BYTES(0, 1, 0, 2, 0x80, 1, 0x7F, 0xFF, 0, 0xFF, 1, 0), .zero = 32},
    {"L = 13", 8, 4, BYTES(0, 0, 0, 13), .status = SULMIREJO_FORM},
    {"L = 267", 8, 4, BYTES(0, 0, 1, 11), .status = SULMIREJO_FORM},
    {"L = 65547", 8, 4, BYTES(0, 1, 0, 11), .status = SULMIREJO_FORM},
    {"L = 262140, so B = 65535", 8, 4, BYTES(0, 3, 0xFF, 0xFC), .status = SULMIREJO_FORM},
    {"L = 262141, so B = 65536", 8, 4, BYTES(0, 3, 0xFF, 0xFD), .status = SULMIREJO_SHAPE},
    {"L = 262155, so B = 65539", 8, 4, BYTES(0, 4, 0, 11), .status = SULMIREJO_SHAPE},
    {"L = 1048587", 8, 4, BYTES(0, 0x10, 0, 11), .status = SULMIREJO_SHAPE},
    {"L = 2^24 + 11", 8, 4, BYTES(1, 0, 0, 11), .status = SULMIREJO_SHAPE},
    {"L = 2^32 - 1", 8, 4, BYTES(0xFF, 0xFF, 0xFF, 0xFF), .status = SULMIREJO_SHAPE},
    {"m = 0", 12, 2, BYTES(0, 0), .status = SULMIREJO_FORM},
    {"m = 3", 12, 2, BYTES(0, 3), .status = SULMIREJO_FORM},
    {"m = 5", 12, 2, BYTES(0, 5), .status = SULMIREJO_FORM},
    {"m = 260", 12, 2, BYTES(1, 4), .status = SULMIREJO_FORM},
    {"m = 65535", 12, 2, BYTES(0xFF, 0xFF), .status = SULMIREJO_FORM},
    {"byte 14", 14, 1, BYTES(1), .status = SULMIREJO_FORM},
    {"byte 14, highest bit", 14, 1, BYTES(0x80), .status = SULMIREJO_FORM},
    {"byte 15", 15, 1, BYTES(1), .status = SULMIREJO_FORM},
    {"byte 15, highest bit", 15, 1, BYTES(0x80), .status = SULMIREJO_FORM},
};

static const struct breach tables[] = {
    {"position 0 made 1", 16, 2, BYTES(0, 1), .status = SULMIREJO_FORM},
    {"position 0 made 4", 16, 2, BYTES(0, 4), .status = SULMIREJO_FORM},
    {"position 0 made 256", 16, 2, BYTES(1, 0), .status = SULMIREJO_FORM},
    {"position 1 made 0", 24, 2, BYTES(0, 0), .status = SULMIREJO_FORM},
    {"position 1 made 2", 24, 2, BYTES(0, 2), .status = SULMIREJO_FORM},
    {"position 1 made 3", 24, 2, BYTES(0, 3), .status = SULMIREJO_FORM},
    {"position 2 made 0", 32, 2, BYTES(0, 0), .status = SULMIREJO_FORM},
    {"position 2 made 1", 32, 2, BYTES(0, 1), .status = SULMIREJO_FORM},
    {"position 2 made 258", 32, 2, BYTES(1, 2), .status = SULMIREJO_FORM},
    {"position 3 made 0", 40, 2, BYTES(0, 0), .status = SULMIREJO_FORM},
    {"position 3 made 2", 40, 2, BYTES(0, 2), .status = SULMIREJO_FORM},
    {"position 3 made n", 40, 2, BYTES(0, 4), .status = SULMIREJO_FORM},
    {"position 3 made 5", 40, 2, BYTES(0, 5), .status = SULMIREJO_FORM},
    {"position 3 made 259", 40, 2, BYTES(1, 3), .status = SULMIREJO_FORM},
    {"position 3 made 65535", 40, 2, BYTES(0xFF, 0xFF), .status = SULMIREJO_FORM},
    {"positions 0 and 1 exchanged", 16, 2, BYTES(0, 1), {{24, BYTES(0, 0)}}, .status = SULMIREJO_FORM},
    {"positions falling", 16, 2, BYTES(0, 3), {{24, BYTES(0, 2)}, {32, BYTES(0, 1)}, {40, BYTES(0, 0)}}, .status = SULMIREJO_FORM},
    {"positions 1 to 4", 16, 2, BYTES(0, 1), {{24, BYTES(0, 2)}, {32, BYTES(0, 3)}, {40, BYTES(0, 4)}}, .status = SULMIREJO_FORM},
    {"all positions 3", 16, 2, BYTES(0, 3), {{24, BYTES(0, 3)}, {32, BYTES(0, 3)}}, .status = SULMIREJO_FORM},
    {"count 0 of body 0", 18, 2, BYTES(0, 0), .status = SULMIREJO_FORM},
    {"count 2 of body 0", 18, 2, BYTES(0, 2), .status = SULMIREJO_FORM},
    {"count 257 of body 0", 18, 2, BYTES(1, 1), .status = SULMIREJO_FORM},
    {"count 1 of body 1", 26, 2, BYTES(0, 1), .status = SULMIREJO_FORM},
    {"count 1 of body 2", 34, 2, BYTES(0, 1), .status = SULMIREJO_FORM},
    {"count 3 of body 2", 34, 2, BYTES(0, 3), .status = SULMIREJO_FORM},
    {"count 1 of body 3", 42, 2, BYTES(0, 1), .status = SULMIREJO_FORM},
    {"count 65535 of body 3", 42, 2, BYTES(0xFF, 0xFF), .status = SULMIREJO_FORM},
    {"offset 0 one less", 20, 4, BYTES(0, 0, 0, 0x2F), .status = SULMIREJO_FORM},
    {"offset 0 one more", 20, 4, BYTES(0, 0, 0, 0x31), .status = SULMIREJO_FORM},
    {"offset 0 from the table's end", 20, 4, BYTES(0, 0, 0, 0), .status = SULMIREJO_FORM},
    {"offset 1 one less", 28, 4, BYTES(0, 0, 0, 0x37), .status = SULMIREJO_FORM},
    {"offset 1 one more", 28, 4, BYTES(0, 0, 0, 0x39), .status = SULMIREJO_FORM},
    {"offset 2 one less", 36, 4, BYTES(0, 0, 0, 0x3D), .status = SULMIREJO_FORM},
    {"offset 2 one more", 36, 4, BYTES(0, 0, 0, 0x3F), .status = SULMIREJO_FORM},
    {"offset 3 one less", 44, 4, BYTES(0, 0, 0, 0x47), .status = SULMIREJO_FORM},
    {"offset 3 one more", 44, 4, BYTES(0, 0, 0, 0x49), .status = SULMIREJO_FORM},
    {"offset 3 with 2^24", 44, 4, BYTES(1, 0, 0, 0x48), .status = SULMIREJO_FORM},
    {"offset 3 with 2^16", 44, 4, BYTES(0, 1, 0, 0x48), .status = SULMIREJO_FORM},
    {"offset 3 with 2^8", 44, 4, BYTES(0, 0, 1, 0x48), .status = SULMIREJO_FORM},
    {"offset 3 of 2^32 - 1", 44, 4, BYTES(0xFF, 0xFF, 0xFF, 0xFF), .status = SULMIREJO_FORM},
    {"offsets from the table's end", 20, 4, BYTES(0, 0, 0, 0), {{28, BYTES(0, 0, 0, 8)}, {36, BYTES(0, 0, 0, 14)}, {44, BYTES(0, 0, 0, 24)}},
     .status = SULMIREJO_FORM},
    {"bodies 2 and 3 exchanged", 36, 4, BYTES(0, 0, 0, 0x44), {{44, BYTES(0, 0, 0, 0x3E)}, {62, BYTES(2, 1, 0x7E, 0x81, 0, 0xFE)},
     {68, BYTES(0, 0, 0, 2, 0, 0, 0, 2, 0, 0)}}, .status = SULMIREJO_FORM},
    {"bodies 1 and 3 are one", 44, 4, BYTES(0, 0, 0, 0x38), .status = SULMIREJO_FORM},
};

static const struct breach bodies[] = {
    {"gap before body 3", 72, 0, BYTES(0, 0), {{44, BYTES(0, 0, 0, 0x4A)}}, .status = SULMIREJO_FORM},
    {"gap before body 0", 48, 0, BYTES(0, 0), {{20, BYTES(0, 0, 0, 0x32)}, {28, BYTES(0, 0, 0, 0x3A)}, {36, BYTES(0, 0, 0, 0x40)},
     {44, BYTES(0, 0, 0, 0x4A)}}, .status = SULMIREJO_FORM},
    {"overlap of bodies 2 and 3", 76, 2, {0, NULL}, {{44, BYTES(0, 0, 0, 0x46)}}, .status = SULMIREJO_FORM},
    {"overlap of the table and body 0", 48, 2, {0, NULL}, {{20, BYTES(0, 0, 0, 0x2E)}, {28, BYTES(0, 0, 0, 0x36)},
     {36, BYTES(0, 0, 0, 0x3C)}, {44, BYTES(0, 0, 0, 0x46)}}, .status = SULMIREJO_FORM},
    {"one byte short", 77, 1, {0, NULL}, .status = SULMIREJO_FORM},
    {"two bytes short", 76, 2, {0, NULL}, .status = SULMIREJO_FORM},
    {"without body 3", 72, 6, {0, NULL}, .status = SULMIREJO_FORM},
    {"without bodies", 48, 30, {0, NULL}, .status = SULMIREJO_FORM},
    {"without table and bodies", 16, 62, {0, NULL}, .status = SULMIREJO_FORM},
    {"one byte long", 78, 0, BYTES(0), .status = SULMIREJO_FORM},
    {"two bytes long", 78, 0, BYTES(0, 0), .status = SULMIREJO_FORM},
    {"a second bundle behind it", 78, 0, BYTES(0x46, 0x4E, 0x54, 0x42, 0, 1, 0, 1, 0, 0, 0, 0, 0, 0, 0, 0), .status = SULMIREJO_FORM},
    {"list of body 0: B", 48, 2, BYTES(0, 3), .status = SULMIREJO_FORM},
    {"list of body 0: 257", 48, 2, BYTES(1, 1), .status = SULMIREJO_FORM},
    {"list of body 0: 65535", 48, 2, BYTES(0xFF, 0xFF), .status = SULMIREJO_FORM},
    {"list of body 2: falling", 62, 4, BYTES(0, 2, 0, 0), .status = SULMIREJO_FORM},
    {"list of body 2: 0 twice", 62, 4, BYTES(0, 0, 0, 0), .status = SULMIREJO_FORM},
    {"list of body 2: 2 twice", 62, 4, BYTES(0, 2, 0, 2), .status = SULMIREJO_FORM},
    {"list of body 2: B last", 62, 4, BYTES(0, 0, 0, 3), .status = SULMIREJO_FORM},
    {"list of body 2: B first", 62, 4, BYTES(0, 3, 0, 2), .status = SULMIREJO_FORM},
    {"list of body 2: high byte", 62, 4, BYTES(0, 0, 1, 2), .status = SULMIREJO_FORM},
    {"list of three: 0, 2, 1", 66, 0, BYTES(0, 1), {{34, BYTES(0, 3)}, {44, BYTES(0, 0, 0, 0x4A)}}, .status = SULMIREJO_FORM},
    {"list of three: 1, 0, 2", 62, 0, BYTES(0, 1), {{34, BYTES(0, 3)}, {44, BYTES(0, 0, 0, 0x4A)}}, .status = SULMIREJO_FORM},
    {"list of three: 0, 2, 2", 66, 0, BYTES(0, 2), {{34, BYTES(0, 3)}, {44, BYTES(0, 0, 0, 0x4A)}}, .status = SULMIREJO_FORM},
    {"list of four: 0 to B", 64, 0, BYTES(0, 1), {{34, BYTES(0, 4)}, {44, BYTES(0, 0, 0, 0x4C)}, {68, BYTES(0, 3)}},
     .status = SULMIREJO_FORM},
    {"a list of more than B", 62, 0, BYTES(0, 0, 0, 1), {{34, BYTES(0, 4)}, {44, BYTES(0, 0, 0, 0x4C)}}, .status = SULMIREJO_FORM},
    {"an entry of B in body 1", 56, 0, BYTES(0, 3), {{26, BYTES(0, 1)}, {36, BYTES(0, 0, 0, 0x40)}, {44, BYTES(0, 0, 0, 0x4A)}},
     .status = SULMIREJO_FORM},
    /* these are good layouts of other symbols */
    {"an entry more in body 1", 56, 0, BYTES(0, 2), {{26, BYTES(0, 1)}, {36, BYTES(0, 0, 0, 0x40)}, {44, BYTES(0, 0, 0, 0x4A)}},
     .status = SULMIREJO_DISAGREE, .place = 2, .zero_bytes = 11, .zero = 32},
    {"a list of all blocks", 64, 0, BYTES(0, 1), {{34, BYTES(0, 3)}, {44, BYTES(0, 0, 0, 0x4A)}}, .status = SULMIREJO_DISAGREE, .place = 1,
     .zero_bytes = 11, .zero = 32},
    {"list of body 0: 2 for 1", 48, 2, BYTES(0, 2), .status = SULMIREJO_DISAGREE, .place = 1, .zero_bytes = 11, .zero = 32},
    {"list of body 2: 0 and 1", 62, 4, BYTES(0, 0, 0, 1), .status = SULMIREJO_DISAGREE, .place = 1, .zero_bytes = 11, .zero = 32},
    {"list of body 2: 1 and 2", 62, 4, BYTES(0, 1, 0, 2), .status = SULMIREJO_DISAGREE, .place = 0, .zero_bytes = 11, .zero = 32},
    {"word of block 0", 51, 1, BYTES(4), .status = SULMIREJO_DISAGREE, .place = 0, .zero_bytes = 11, .zero = 32},
    {"word of block 1", 69, 1, BYTES(3), .status = SULMIREJO_DISAGREE, .place = 1, .zero_bytes = 11, .zero = 32},
    {"word of block 2", 76, 1, BYTES(1), .status = SULMIREJO_DISAGREE, .place = 2, .zero_bytes = 11, .zero = 32},
    {"word of a listed block, body 0", 52, 2, BYTES(0xFF, 0xFF), .file = THREE_FILE, .zero = 32},
    {"word of a listed block, body 2", 66, 2, BYTES(0, 1), .file = THREE_FILE, .zero = 32},
    {"last word of a listed block, body 2", 70, 2, BYTES(0x12, 0x34), .file = THREE_FILE, .zero = 32},
};

/* Two and more faults in one bundle: the one that is tested first is the answer. */
static const struct breach two_faults[] = {
    {"mark, k = 0", 0, 6, BYTES(0x46, 0x4E, 0x54, 0x41, 0, 0), .status = SULMIREJO_FORM},
    {"mark, L", 3, 1, BYTES(0x41), {{8, BYTES(0xFF)}}, .status = SULMIREJO_FORM},
    {"byte 14, k > n", 14, 1, BYTES(1), {{5, BYTES(5)}}, .status = SULMIREJO_FORM},
    {"byte 15, n = 4097", 15, 1, BYTES(1), {{6, BYTES(0x10, 1)}}, .status = SULMIREJO_FORM},
    {"byte 15, B", 15, 1, BYTES(1), {{9, BYTES(4)}}, .status = SULMIREJO_FORM},
    {"k = 0, header alone", 16, 62, {0, NULL}, {{5, BYTES(0)}}, .status = SULMIREJO_SHAPE},
    {"k > n, header alone", 16, 62, {0, NULL}, {{5, BYTES(5)}}, .status = SULMIREJO_SHAPE},
    {"n = 4097, header alone", 16, 62, {0, NULL}, {{6, BYTES(0x10, 1)}}, .status = SULMIREJO_SHAPE},
    {"L, header alone", 16, 62, {0, NULL}, {{8, BYTES(1)}}, .status = SULMIREJO_SHAPE},
    {"B, header alone", 16, 62, {0, NULL}, {{9, BYTES(4)}}, .status = SULMIREJO_SHAPE},
    {"k = 0, header without its last byte", 15, 63, {0, NULL}, {{5, BYTES(0)}}, .status = SULMIREJO_FORM},
    {"k = 0, one byte short", 77, 1, {0, NULL}, {{5, BYTES(0)}}, .status = SULMIREJO_SHAPE},
    {"k > n, m above n", 12, 2, BYTES(0, 5), {{5, BYTES(5)}}, .status = SULMIREJO_SHAPE},
    {"n = 4097, position", 40, 2, BYTES(0x20, 0), {{6, BYTES(0x10, 1)}}, .status = SULMIREJO_SHAPE},
    {"n below k, positions", 6, 2, BYTES(0, 1), .status = SULMIREJO_SHAPE},
    {"L, one byte long", 78, 0, BYTES(0), {{8, BYTES(1)}}, .status = SULMIREJO_SHAPE},
    {"B, list", 48, 2, BYTES(0xFF, 0xFF), {{9, BYTES(4)}}, .status = SULMIREJO_SHAPE},
    {"L, no room", 8, 4, BYTES(0, 0x10, 0, 1), .out = 1, .work = 1, .status = SULMIREJO_SHAPE},
    {"position, output short", 40, 2, BYTES(0, 4), .out = 10, .status = SULMIREJO_FORM},
    {"repeat, work short", 40, 2, BYTES(0, 2), .work = 31, .status = SULMIREJO_FORM},
    {"offset, no room", 44, 4, BYTES(0, 0, 0, 0x49), .out = 1, .work = 1, .status = SULMIREJO_FORM},
    {"list, output short", 48, 2, BYTES(0, 3), .out = 10, .status = SULMIREJO_FORM},
    {"end, work short", 78, 0, BYTES(0), .work = 31, .status = SULMIREJO_FORM},
    {"position, block 0 altered", 40, 2, BYTES(0, 4), {{51, BYTES(4)}}, .status = SULMIREJO_FORM},
    {"last list, block 0 altered", 65, 1, BYTES(3), {{51, BYTES(4)}}, .status = SULMIREJO_FORM},
    {"output short, block 0 altered", 51, 1, BYTES(4), .out = 10, .status = SULMIREJO_ROOM},
    {"work short, block 0 altered", 51, 1, BYTES(4), .work = 31, .status = SULMIREJO_ROOM},
    {"output short, padding", 11, 1, BYTES(10), .out = 9, .status = SULMIREJO_ROOM},
    {"everything", 0, 6, BYTES(0, 0, 0, 0, 0, 0), {{16, BYTES(9, 9)}, {48, BYTES(9, 9)}}, .out = 1, .work = 1, .status = SULMIREJO_FORM},
    {"everything from shape on", 4, 2, BYTES(0, 0), {{16, BYTES(9, 9)}, {48, BYTES(9, 9)}}, .out = 1, .work = 1, .status = SULMIREJO_SHAPE},
};

#define TRY_ALL(try_one, table) \
    for (size_t row = 0; row < sizeof(table) / sizeof *(table); row++) \
        try_one(&(table)[row])

static void try_tables(void)
{
    TRY_ALL(try_writing, bundles);
    TRY_ALL(try_writing, refused_bundles);
    TRY_ALL(try_reading, files);
    TRY_ALL(try_coded, good_symbols);
    TRY_ALL(try_coded, refused_symbols);
    TRY_ALL(try_breach, headers);
    TRY_ALL(try_breach, tables);
    TRY_ALL(try_breach, bodies);
    TRY_ALL(try_breach, two_faults);
}

/* Every front part of a bundle is too short, though the rest of it stands behind. */
static void try_fronts(struct bytes whole)
{
    for (size_t cut = 1; cut <= whole.count; cut++) {
        struct reading one = {"front of a bundle", whole, cut, 40, 70, SULMIREJO_FORM, 0, {0, NULL}, 0, 0};
        try_reading(&one);
    }
}

/* What document 01's listing says of P11, number by number: facts, then position, offset and count. */
static void try_listing(void)
{
    static const size_t facts[] = {2, 4, 4, 4, 1}, entries[4][3] = {{0, 48, 0}, {1, 50, 0}, {2, 52, 1}, {3, 56, 0}};
    const struct bytes whole = P11;
    lend_content(&bundle, whole, 0);
    try_layout("P11's listing", SULMIREJO_OK);
    try_facts("P11's facts", SULMIREJO_OK);
    for (size_t i = 0; i < 5; i++)
        expect(*lend_result(i) == facts[i], "P11's facts", i, *lend_result(i));
    for (size_t index = 0; index < 4; index++) {
        try_entry("P11's entry", index, SULMIREJO_OK);
        for (size_t i = 0; i < 3; i++)
            expect(*lend_result(i) == entries[index][i], "P11's entry", index, *lend_result(i));
    }
}

/* Bundles that are a header alone, m being 0, so that a limit needs no long bundle. */
static const struct {
    size_t k, n, length, blocks;
    uint32_t refusal;
} limits[] = {
    {1, 1, 0, 0, 0},
    {1, 1, 1, 1, 0},
    {1, 1, 131068, 65534, 0},
    {1, 1, 131069, 65535, 0},
    {1, 4096, 131070, 65535, 0},
    {1, 1, 131071, 0, SULMIREJO_SHAPE},
    {1, 4096, 131072, 0, SULMIREJO_SHAPE},
    {2, 3, 262140, 65535, 0},
    {2, 3, 262141, 0, SULMIREJO_SHAPE},
    {8, 8, 1048560, 65535, 0},
    {8, 8, 1048561, 0, SULMIREJO_SHAPE},
    {8, 8, 1048576, 0, SULMIREJO_SHAPE},
    {9, 9, 1048576, 58255, 0},
    {9, 9, 1048577, 0, SULMIREJO_SHAPE},
    {16, 20, 1048575, 32768, 0},
    {16, 20, 1048576, 32768, 0},
    {16, 20, 1048577, 0, SULMIREJO_SHAPE},
    {4096, 4096, 1048576, 128, 0},
    {4096, 4096, 1048577, 0, SULMIREJO_SHAPE},
    {4096, 4096, 2097152, 0, SULMIREJO_SHAPE},
    {4096, 4096, 16777216, 0, SULMIREJO_SHAPE},
    {4096, 4096, 4294967295u, 0, SULMIREJO_SHAPE},
    {4096, 4096, 8192, 1, 0},
    {4096, 4096, 8193, 2, 0},
    {4095, 4096, 8191, 2, 0},
    {4096, 4095, 0, 0, SULMIREJO_SHAPE},
    {1, 4097, 0, 0, SULMIREJO_SHAPE},
    {4097, 4097, 0, 0, SULMIREJO_SHAPE},
    {1, 65535, 0, 0, SULMIREJO_SHAPE},
    {65535, 65535, 0, 0, SULMIREJO_SHAPE},
    {0, 1, 0, 0, SULMIREJO_SHAPE},
    {0, 0, 0, 0, SULMIREJO_SHAPE},
    {1, 0, 0, 0, SULMIREJO_SHAPE},
    {0, 4, 4, 0, SULMIREJO_SHAPE},
    {2, 1, 4, 0, SULMIREJO_SHAPE},
    {3, 3, 6, 1, 0},
    {3, 3, 7, 2, 0},
};

static struct bytes bare_header(size_t k, size_t n, size_t length)
{
    struct bytes content = {16, made};
    memcpy(made, p11, 4);
    put_number(made + 4, 2, k);
    put_number(made + 6, 2, n);
    put_number(made + 8, 4, length);
    put_number(made + 12, 4, 0);
    return content;
}

static void try_limits(void)
{
    for (size_t i = 0; i < sizeof limits / sizeof *limits; i++) {
        const size_t n = limits[i].n, length = limits[i].length;
        const struct bytes content = bare_header(limits[i].k, n, length);
        const int good = limits[i].refusal == 0;
        struct reading one = {"header alone", content, 0, 40, 70, limits[i].refusal, 0, {0, NULL}, 0, 0};
        if (good) {
            one.out = length;
            one.work = 8 * second_size(n);
            one.status = SULMIREJO_FEW;
        }
        try_reading(&one);
        try_facts("header alone", limits[i].refusal);
        expect(!good || *lend_result(4) == limits[i].blocks, "blocks of a header alone", i, *lend_result(4));
        one.status = good ? SULMIREJO_ROOM : limits[i].refusal;
        one.work--;
        try_reading(&one);
        one.work++;
        one.out -= length > 0;
        if (length > 0)
            try_reading(&one);
    }
}

/* A file, the first word of some of its blocks chosen so that symbols 65536 come up where k is 2 or more: in many of the first blocks, and in
 * some of the later ones, the last whole one among them. */
static uint8_t content[LONGEST_FILE + 1];

static void choose_content(size_t k, size_t n, size_t length)
{
    const size_t blocks = length / (2 * k);
    for (size_t i = 0; i < length; i++)
        content[i] = (uint8_t)junk();
    for (size_t block = 0; k > 1 && block * 2 * k + 2 <= length; block++)
        if ((block < 100 && block % 3 != 1) || block % 101 == 0 || block + 1 == blocks)
            second_overflow(k, n, content, length, block, junk() % n);
}

/* Reads the bundle that holds the shadows that `chosen` has a bit for: too few, or the file. */
static void try_choice(size_t k, size_t n, size_t length, unsigned chosen)
{
    const struct bytes right = {length, content};
    uint32_t positions[32];
    size_t m = 0;
    struct reading one;
    for (size_t i = 0; i < n; i++)
        if (chosen >> i & 1)
            positions[m++] = (uint32_t)i;
    one = exactly("some of the shadows", lay_out(k, n, length, positions, m), n, right, m < k ? SULMIREJO_FEW : SULMIREJO_OK, 0);
    try_reading(&one);
}

static void try_every_choice(size_t k, size_t n)
{
    const size_t lengths[] = {0, 1, 2 * k - 1, 2 * k, 2 * k + 1, 6 * k - 1, 8 * k};
    for (size_t i = 0; i < sizeof lengths / sizeof *lengths; i++) {
        choose_content(k, n, lengths[i]);
        second_symbols(k, n, content, lengths[i], symbols);
        for (unsigned chosen = 0; chosen < 1u << n; chosen++)
            try_choice(k, n, lengths[i], chosen);
    }
}

/* Every choice of the shadows of three blocks, with an altered symbol in each of them in turn: seen where more than k are held. */
static void try_every_alteration(void)
{
    static const uint32_t right[] = {S1_2, S32769_32767, S255_256};
    const struct bytes same = THREE_FILE;
    for (unsigned chosen = 0; chosen < 16; chosen++) {
        uint32_t positions[4];
        size_t m = 0;
        for (uint32_t i = 0; i < 4; i++)
            if (chosen >> i & 1)
                positions[m++] = i;
        for (size_t at = 0; m > 2 && at < 12; at++) {
            const int held = chosen >> at % 4 & 1;
            struct reading one;
            memcpy(symbols, right, sizeof right);
            symbols[at] = (symbols[at] + 1 + junk() % 65536) % 65537;
            one = exactly("one symbol altered", lay_out(2, 4, 11, positions, m), 4, same, held ? SULMIREJO_DISAGREE : SULMIREJO_OK,
                          held ? at / 4 : 0);
            try_reading(&one);
        }
    }
}

/* What document 01 says of P11's bundle with one other byte, where it is not FORM: bytes from .. to with values low .. high. */
static const struct {
    size_t from, to;
    unsigned low, high;
    uint32_t status;
} altered_p11[] = {
    {4, 4, 1, 255, SULMIREJO_SHAPE},     /* k is 258 and more */
    {5, 5, 0, 0, SULMIREJO_SHAPE},       /* k = 0; k = 1 has two blocks */
    {5, 5, 3, 4, SULMIREJO_OK},          /* k = 3 and 4: the messages (1, 2, 0) and (1, 2, 0, 0), and zeros are padding */
    {5, 5, 5, 255, SULMIREJO_SHAPE},     /* k > n */
    {6, 6, 1, 15, SULMIREJO_DISAGREE},   /* n from 260 to 3844, whose root is another */
    {6, 6, 16, 255, SULMIREJO_SHAPE},    /* n is 4100 and more */
    {7, 7, 0, 1, SULMIREJO_SHAPE},       /* n < k; n = 2 and 3 have no position 3 */
    {7, 7, 5, 255, SULMIREJO_DISAGREE},  /* n from 5 to 255, whose root is another */
    {8, 8, 1, 255, SULMIREJO_SHAPE},     /* L is 2^24 + 4 and more */
    {9, 9, 4, 255, SULMIREJO_SHAPE},     /* L is 262148 and more, so B is 65537 and more */
    {11, 11, 1, 3, SULMIREJO_TAIL},      /* L = 1 to 3, and the last byte is 2 */
    {48, 51, 0, 255, SULMIREJO_DISAGREE},
    {54, 55, 0, 255, SULMIREJO_OK},      /* the word of a listed block */
    {56, 57, 0, 255, SULMIREJO_DISAGREE},
};

static uint32_t due_when_altered(size_t at, unsigned value)
{
    for (size_t i = 0; i < sizeof altered_p11 / sizeof *altered_p11; i++)
        if (altered_p11[i].from <= at && at <= altered_p11[i].to && altered_p11[i].low <= value && value <= altered_p11[i].high)
            return altered_p11[i].status;
    return SULMIREJO_FORM;
}

/* Reads P11's bundle with one other byte. Where it is not refused, it is P11's file that comes back. */
static uint32_t try_altered(size_t at, unsigned value)
{
    const uint32_t status = due_when_altered(at, value);
    const struct bytes altered = {sizeof p11, made};
    struct bytes right = P11_FILE;
    struct reading one;
    memcpy(made, p11, sizeof p11);
    made[at] = (uint8_t)value;
    if (status != SULMIREJO_FORM && status != SULMIREJO_SHAPE)
        right.count = number_at(made + 8, 4);
    one = exactly("P11 with another byte", altered, least(number_at(made + 6, 2), LONGEST), right, status, 0);
    try_reading(&one);
    return status;
}

/* Every byte of P11's bundle with every other value. Only a word that is not used, and a k that pads with zeros, leave it a bundle of its
 * file. */
static void alter_every_byte(void)
{
    static const unsigned long due[KINDS] = {[OK] = 512, [SHAPE] = 1256, [DISAGREE] = 1796, [TAIL] = 3, [FORM] = 11223};
    unsigned long seen[KINDS] = {0};
    for (size_t at = 0; at < sizeof p11; at++)
        for (unsigned value = 0; value < 256; value++)
            if (value != p11[at])
                seen[try_altered(at, value)]++;
    for (size_t status = 0; status < KINDS; status++)
        expect(seen[status] == due[status], "P11 with another byte: answers of one kind", status, seen[status]);
    printf("P11's 58 bytes with every other value: OK %lu, all of them P11's file, SHAPE %lu, DISAGREE %lu, TAIL %lu, FORM %lu\n", seen[OK],
           seen[SHAPE], seen[DISAGREE], seen[TAIL], seen[FORM]);
}

/* Writes the content with exactly the room that it needs and reads the bundle back. The second coder says which bundle it is. */
static void try_whole(const char *what, size_t k, size_t n, size_t length)
{
    const struct bytes right = {length, content};
    const size_t cells = 8 * second_size(n), room = 16 + 8 * n + 4 * n * second_blocks(k, length);
    struct writing writing = {what, k, n, right, room, cells, SULMIREJO_OK, {0, made}, cells};
    struct reading reading;
    writing.bundle.count = second_write(k, n, content, length, made, sizeof made, lend(&work), MOST).place;
    try_writing(&writing);
    reading = exactly(what, writing.bundle, n, right, SULMIREJO_OK, 0);
    try_reading(&reading);
}

/* The refusal stands with enough working space and, as it is tested before that or for the same reason, with too little. */
static void refuse_whole(const char *what, size_t k, size_t n, size_t length, uint32_t status, size_t room)
{
    struct writing writing = {what, k, n, {length, content}, room, 8 * second_size(n), status, {0, NULL}, 0};
    try_writing(&writing);
    writing.work--;
    try_writing(&writing);
}

/* The most blocks and the longest file are taken, one more is not, whatever the room. */
static void try_longest(void)
{
    choose_content(1, 1, sizeof content);
    try_whole("most blocks, k = 1", 1, 1, 131070);
    try_whole("most blocks, k = 1, odd", 1, 2, 131069);
    refuse_whole("one block more, k = 1", 1, 1, 131071, SULMIREJO_SHAPE, MOST_BYTES);
    refuse_whole("one block more, k = 1", 1, 1, 131072, SULMIREJO_SHAPE, MOST_BYTES);
    refuse_whole("most blocks, output one short", 1, 1, 131070, SULMIREJO_ROOM, 16 + 8 + 4 * 65535 - 1);
    refuse_whole("one block more, output short", 1, 1, 131071, SULMIREJO_SHAPE, 16 + 8 + 4 * 65535);
    refuse_whole("one block more, k = 8", 8, 8, 1048561, SULMIREJO_SHAPE, MOST_BYTES);
    refuse_whole("longest file, k = 8", 8, 8, LONGEST_FILE, SULMIREJO_SHAPE, MOST_BYTES);
    refuse_whole("longest file and one byte, k = 16", 16, 20, LONGEST_FILE + 1, SULMIREJO_SHAPE, MOST_BYTES);
    refuse_whole("longest file and one byte, k = n = 4096", 4096, 4096, LONGEST_FILE + 1, SULMIREJO_SHAPE, MOST_BYTES);
    refuse_whole("longest file, output one short", 16, 20, LONGEST_FILE, SULMIREJO_ROOM, 16 + 8 * 20 + 4 * 20 * 32768 - 1);
    choose_content(16, 20, LONGEST_FILE);
    try_whole("longest file", 16, 20, LONGEST_FILE);
    choose_content(8, 8, 1048560);
    try_whole("most blocks, k = 8", 8, 8, 1048560);
    choose_content(300, 1000, 1201);
    try_whole("long blocks", 300, 1000, 1201);
}

/* Where only the first word of a block is not zero, every shadow holds that word: so the longest blocks need no second coder. */
static struct bytes bundle_of_constants(size_t k, size_t n, size_t length)
{
    const size_t blocks = (length + 2 * k - 1) / (2 * k);
    struct bytes whole = {16 + 8 * n + 2 * n * blocks, made};
    memset(content, 0, length);
    bare_header(k, n, length);
    put_number(made + 12, 2, n);
    for (size_t block = 0; block < blocks; block++)
        put_number(content + block * 2 * k, 2, junk() % 65536);
    content[length] = 0;
    for (size_t i = 0; i < n; i++) {
        const size_t offset = 16 + 8 * n + 2 * blocks * i;
        put_number(made + 16 + 8 * i, 2, i);
        put_number(made + 18 + 8 * i, 2, 0);
        put_number(made + 20 + 8 * i, 4, offset);
        for (size_t block = 0; block < blocks; block++)
            memcpy(made + offset + 2 * block, content + block * 2 * k, 2);
    }
    return whole;
}

static void try_constants(size_t k, size_t n, size_t length, int read_back)
{
    const struct bytes whole = bundle_of_constants(k, n, length), right = {length, content};
    const size_t blocks = (length + 2 * k - 1) / (2 * k), cells = 8 * second_size(n);
    const struct writing writing = {"constants", k, n, right, 16 + 8 * n + 4 * n * blocks, cells, SULMIREJO_OK, whole, cells};
    struct reading reading = exactly("constants", whole, n, right, SULMIREJO_OK, 0);
    try_writing(&writing);
    if (!read_back)
        return;
    try_reading(&reading);
    made[whole.count - 1] ^= 1;
    reading = exactly("constants, the last byte altered", whole, n, right, n > k ? SULMIREJO_DISAGREE : SULMIREJO_OK, blocks - 1);
    if (n > k)
        try_reading(&reading);
}

/* Blocks of the words 32769 and 32767 alone: shadow 0 of two lists all of them, and shadow 1 holds the difference 2. */
static void try_full_list(size_t blocks, int read_back)
{
    struct bytes whole = {32 + 6 * blocks, made}, right = {4 * blocks, content};
    const struct writing writing = {"all blocks listed", 2, 2, right, 32 + 8 * blocks, 16, SULMIREJO_OK, whole, 16};
    const struct reading reading = exactly("all blocks listed", whole, 2, right, SULMIREJO_OK, 0);
    bare_header(2, 2, 4 * blocks);
    put_number(made + 12, 4, 2 * 65536);
    put_number(made + 16, 4, blocks);
    put_number(made + 20, 4, 32);
    put_number(made + 24, 4, 65536);
    put_number(made + 28, 4, 32 + 4 * blocks);
    for (size_t block = 0; block < blocks; block++) {
        put_number(content + 4 * block, 4, 0x80017FFF);
        put_number(made + 32 + 2 * block, 2, block);
        put_number(made + 32 + 2 * blocks + 2 * block, 2, 0);
        put_number(made + 32 + 4 * blocks + 2 * block, 2, 2);
    }
    try_writing(&writing);
    if (read_back)
        try_reading(&reading);
}

/* The longest list there is, of one shadow whose every symbol is 65536. No file has such a bundle, and its first block says so. */
static void try_longest_list(void)
{
    const struct bytes whole = {24 + 4 * 65535, made}, right = {131070, content};
    const struct reading reading = exactly("longest list", whole, 1, right, SULMIREJO_WORD, 0);
    bare_header(1, 1, 131070);
    put_number(made + 12, 4, 65536);
    put_number(made + 16, 4, 65535);
    put_number(made + 20, 4, 24);
    for (size_t block = 0; block < 65535; block++) {
        put_number(made + 24 + 2 * block, 2, block);
        put_number(made + 24 + 2 * 65535 + 2 * block, 2, junk());
    }
    try_reading(&reading);
}

/* A bundle under 16 bytes is FORM whatever its sizes are. */
static void try_refused_fronts(void)
{
    try_fronts(bare_header(0, 4, 4));
    try_fronts(bare_header(1, 4097, 0));
    try_fronts(bare_header(16, 16, 1048577));
    try_fronts(bare_header(1, 1, 131071));
    try_fronts(bare_header(1, 1, 0));
}

int main(void)
{
    const struct bytes whole_p11 = P11, whole_three = THREE, whole_empty = EMPTY_OF_5;
    try_tables();
    try_fronts(whole_p11);
    try_fronts(whole_three);
    try_fronts(whole_empty);
    try_refused_fronts();
    try_listing();
    try_limits();
    for (size_t n = 1; n <= 6; n++)
        for (size_t k = 1; k <= n; k++)
            try_every_choice(k, n);
    try_every_alteration();
    alter_every_byte();
    try_longest();
    try_constants(1, LONGEST, 3, 1);
    try_constants(LONGEST, LONGEST, 2 * LONGEST - 1, 1);
    try_constants(LONGEST, LONGEST, LONGEST_FILE, 0);
    try_full_list(3000, 1);
    try_full_list(65535, 0);
    try_longest_list();
    printf("bundle: %lu checks passed\n", checks_passed());
    return 0;
}
