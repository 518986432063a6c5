/* What a browser shell does with the library, to copy from: a page becomes a bundle, shadows of it are lost, the page comes back; the same for
 * one block of symbols; and what refusals look like. It is C11 and C++17 at once. Each step is checked, and a step that does not do what it
 * should ends the program with a sentence. */
#include "sulmirejo.h"

#include <stdio.h>
#include <stdlib.h>
#include <string.h>

/* Of N shadows, or symbols, any K bring everything back. */
enum { K = 8, N = 12, PAGE_LENGTH = 1000 };

struct bytes {
    uint8_t *at;
    size_t count;
};

static void fail(const char *what)
{
    fprintf(stderr, "shell: %s\n", what);
    exit(1);
}

/* What the refusals mean to a person. The place says where, for those that have one. */
static const char *in_words(uint32_t status)
{
    switch (status) {
    case SULMIREJO_SHAPE:
        return "a size that cannot be";
    case SULMIREJO_LENGTH:
        return "lists whose lengths do not fit";
    case SULMIREJO_ROOM:
        return "too little memory was lent";
    case SULMIREJO_FEW:
        return "too few shadows or symbols have come so far";
    case SULMIREJO_POSITION:
        return "a position outside the code word";
    case SULMIREJO_REPEAT:
        return "a position that was given twice";
    case SULMIREJO_VALUE:
        return "a number above 65536";
    case SULMIREJO_DISAGREE:
        return "something was altered on the way";
    case SULMIREJO_WORD:
    case SULMIREJO_TAIL:
    case SULMIREJO_FORM:
        return "this was never written as a bundle, or was altered on the way";
    default:
        return "done";
    }
}

static void show_refusal(const char *what, uint32_t status, size_t place)
{
    printf("%s: %s (refusal %u, place %zu)\n", what, in_words(status), (unsigned)status, place);
}

/* For calls that have to succeed here. */
static void need_ok(const char *call, uint32_t status)
{
    if (status != SULMIREJO_OK) {
        fprintf(stderr, "shell: %s is refused: %s (refusal %u)\n", call, in_words(status), (unsigned)status);
        exit(1);
    }
}

/* Memory to lend. It has values, which the library asks for, and it is never null, not even where nothing is asked for: an empty file. */
static void *find_memory(size_t count, size_t size)
{
    void *memory = calloc(count > 0 ? count : 1, size);
    if (memory == NULL)
        fail("there is no memory");
    return memory;
}

/* Asks how much room is needed, finds it, writes. The room is more than most bundles take: the bundle's length comes with the answer. */
static struct bytes write_bundle(struct bytes page)
{
    size_t room = 0, work_room = 0, number = 0;
    uint32_t status = sulmirejo_write_room(K, N, page.count, &room, &work_room, &number);
    need_ok("sulmirejo_write_room", status);
    struct bytes bundle = {(uint8_t *)find_memory(room, 1), 0};
    uint32_t *work = (uint32_t *)find_memory(work_room, sizeof *work);
    status = sulmirejo_write(K, N, page.at, page.count, bundle.at, room, work, work_room, &number);
    need_ok("sulmirejo_write", status);
    bundle.count = number;
    free(work);
    return bundle;
}

/* The other way round. Nothing is known of a bundle that came in, so every refusal is an answer that the caller has to expect. On a refusal
 * nothing of the page is given. */
static uint32_t read_bundle(struct bytes bundle, struct bytes *page, size_t *place)
{
    size_t room = 0, work_room = 0;
    uint32_t status = sulmirejo_read_room(bundle.at, bundle.count, &room, &work_room, place);
    if (status != SULMIREJO_OK)
        return status;
    uint8_t *file = (uint8_t *)find_memory(room, 1);
    uint32_t *work = (uint32_t *)find_memory(work_room, sizeof *work);
    status = sulmirejo_read(bundle.at, bundle.count, file, room, work, work_room, place);
    if (status == SULMIREJO_OK) {
        page->at = file;
        page->count = *place; /* on success the number is the file's length */
    } else {
        free(file);
    }
    free(work);
    return status;
}

/* All numbers of a bundle are most significant byte first. */
static void put_number(uint8_t *at, size_t count, size_t number)
{
    for (size_t i = count; i > 0; i--) {
        at[i - 1] = (uint8_t)(number & 255);
        number >>= 8;
    }
}

/* Copies the shadow of one table entry behind what is kept so far, and gives where it ends. */
static size_t keep_one(struct bytes whole, size_t index, size_t blocks, struct bytes kept, size_t entry, size_t end)
{
    size_t position = 0, offset = 0, overflows = 0, number = 0;
    uint32_t status = sulmirejo_entry(whole.at, whole.count, index, &position, &offset, &overflows, &number);
    need_ok("sulmirejo_entry", status);
    const size_t length = 2 * overflows + 2 * blocks; /* the overflow list, then a word for each block */
    put_number(kept.at + entry, 2, position);
    put_number(kept.at + entry + 2, 2, overflows);
    put_number(kept.at + entry + 4, 4, end);
    memcpy(kept.at + end, whole.at + offset, length);
    return end + length;
}

/* The bundle that holds only the shadows of these table entries, which have to rise. That is what arrives when the others are lost. */
static struct bytes keep(struct bytes whole, const size_t *indices, size_t count)
{
    size_t k = 0, n = 0, length = 0, held = 0, blocks = 0, number = 0;
    uint32_t status = sulmirejo_facts(whole.at, whole.count, &k, &n, &length, &held, &blocks, &number);
    need_ok("sulmirejo_facts", status);
    struct bytes kept = {(uint8_t *)find_memory(whole.count, 1), 16 + 8 * count};
    memcpy(kept.at, whole.at, 16); /* the header stays, but for the number of shadows held */
    put_number(kept.at + 12, 2, count);
    for (size_t i = 0; i < count; i++)
        kept.count = keep_one(whole, indices[i], blocks, kept, 16 + 8 * i, kept.count);
    return kept;
}

static void need_page(struct bytes bundle, struct bytes page)
{
    size_t k = 0, n = 0, length = 0, held = 0, blocks = 0, number = 0;
    uint32_t status = sulmirejo_facts(bundle.at, bundle.count, &k, &n, &length, &held, &blocks, &number);
    need_ok("sulmirejo_facts", status);
    struct bytes back = {NULL, 0};
    status = read_bundle(bundle, &back, &number);
    need_ok("sulmirejo_read", status);
    if (back.count != page.count || memcmp(back.at, page.at, page.count) != 0)
        fail("another page comes back");
    printf("from %zu of %zu shadows, %zu bytes, the page of %zu bytes comes back\n", held, n, bundle.count, back.count);
    free(back.at);
}

static void need_refusal(const char *what, struct bytes bundle, uint32_t refusal, size_t due_place)
{
    struct bytes back = {NULL, 0};
    size_t place = 0;
    uint32_t status = read_bundle(bundle, &back, &place);
    show_refusal(what, status, place);
    if (status != refusal || place != due_place)
        fail("that is not the refusal that is due");
}

/* Any bytes do. The words of block 1 are 8192 each and make 65536, so that shadow 0 has an overflow list. */
static void make_page(uint8_t *page)
{
    for (size_t i = 0; i < PAGE_LENGTH; i++)
        page[i] = (uint8_t)("<p>hello</p> "[i % 13] + i / 256);
    for (size_t i = 2 * K; i < 4 * K; i++)
        page[i] = i % 2 == 0 ? 0x20 : 0x00;
}

/* A page there and back, from all shadows, from K of them, from one less, and from all with a byte altered. */
static void try_page(void)
{
    static const size_t indices[K] = {0, 1, 3, 5, 6, 8, 10, 11};
    uint8_t content[PAGE_LENGTH];
    make_page(content);
    struct bytes page = {content, PAGE_LENGTH}, whole = write_bundle(page);
    struct bytes enough = keep(whole, indices, K), few = keep(whole, indices, K - 1);
    need_page(whole, page);
    need_page(enough, page);
    need_refusal("one shadow less", few, SULMIREJO_FEW, 0);
    size_t position = 0, offset = 0, overflows = 0, number = 0;
    need_ok("sulmirejo_entry", sulmirejo_entry(whole.at, whole.count, 0, &position, &offset, &overflows, &number));
    if (overflows != 1)
        fail("shadow 0 has no overflow list of one block");
    whole.at[offset + 2 * overflows + 2 * 2] ^= 1; /* behind the list, the word of block 2 */
    need_refusal("a byte of block 2 altered", whole, SULMIREJO_DISAGREE, 2);
    free(whole.at);
    free(enough.at);
    free(few.at);
}

/* Decodes one block from the first `count` of the symbols. */
static uint32_t decode(const uint32_t *positions, const uint32_t *values, size_t count, uint32_t *message, size_t *place)
{
    size_t room = 0, work_room = 0;
    uint32_t status = sulmirejo_decode_room(K, N, &room, &work_room, place);
    need_ok("sulmirejo_decode_room", status);
    uint32_t *work = (uint32_t *)find_memory(work_room, sizeof *work);
    status = sulmirejo_decode(K, N, positions, count, values, count, message, room, work, work_room, place); /* room is K */
    free(work);
    return status;
}

/* One block, for a shell that has a bundle format of its own. Symbols are numbers from 0 to 65536, so they do not fit two bytes. */
static void try_block(void)
{
    const uint32_t message[K] = {1, 2, 3, 5, 8, 13, 21, 65535}, positions[K + 1] = {11, 0, 2, 3, 9, 5, 6, 8, 1}; /* 4, 7 and 10 are lost */
    uint32_t back[K] = {0}, values[K + 1];
    size_t room = 0, work_room = 0, number = 0;
    need_ok("sulmirejo_encode_room", sulmirejo_encode_room(K, N, &room, &work_room, &number));
    uint32_t *word = (uint32_t *)find_memory(room, sizeof *word), *work = (uint32_t *)find_memory(work_room, sizeof *work);
    need_ok("sulmirejo_encode", sulmirejo_encode(K, N, message, K, word, room, work, work_room, &number));
    for (size_t i = 0; i < K + 1; i++)
        values[i] = word[positions[i]];
    need_ok("sulmirejo_decode", decode(positions, values, K, back, &number));
    if (memcmp(back, message, sizeof message) != 0)
        fail("another message comes back");
    printf("from %d of %d symbols the message comes back\n", (int)K, (int)N);
    values[3] ^= 1;
    uint32_t status = decode(positions, values, K + 1, back, &number); /* with only K no alteration can be seen */
    show_refusal("an altered symbol among K + 1", status, number);
    if (status != SULMIREJO_DISAGREE)
        fail("that is not the refusal that is due");
    free(word);
    free(work);
}

int main(void)
{
    try_page();
    try_block();
    return 0;
}
