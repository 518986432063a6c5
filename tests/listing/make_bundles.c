/* make_bundles PAGE FOLDER: writes the bundles that stand in bundles/ for people to look at, with the listing of each, all by the second coder.
 * It is here so that anyone can see where they come from, and so that they can be held against what it writes. */
#include "lent.h"
#include "second.h"
#include "second_bundle.h"
#include "second_listing.h"

#include <stdio.h>
#include <stdlib.h>
#include <string.h>

enum { K = 8, N = 12, SPACE = 10000 };

static const char *folder;

/* A file cut into symbols, as it goes into the bundles. */
struct coded {
    size_t k, n, length;
    uint8_t file[SPACE];
    uint32_t symbols[SPACE];
};

static struct coded page;

static void must(int held, const char *what)
{
    if (!held) {
        perror(what);
        exit(1);
    }
}

static void save(const char *name, const char *ending, const void *bytes, size_t length)
{
    char path[1000];
    FILE *file;
    must(snprintf(path, sizeof path, "%s/%s.%s", folder, name, ending) < (int)sizeof path, "a long path");
    file = fopen(path, "wb");
    must(file != NULL && fwrite(bytes, 1, length, file) == length && fclose(file) == 0, path);
}

/* Writes a bundle, which may be damaged, and its listing. */
static void save_bundle(const char *name, const uint8_t *bundle, size_t length)
{
    char text[LISTING_ROOM];
    second_listing(bundle, length, text);
    save(name, "bundle", bundle, length);
    save(name, "listing", text, strlen(text));
}

/* Codes the file that stands in it, with zero bytes behind it. */
static void code(struct coded *coded, size_t k, size_t n, size_t length)
{
    coded->k = k;
    coded->n = n;
    coded->length = length;
    second_symbols(k, n, coded->file, length, coded->symbols);
}

/* The bundle of the shadows from position `first` on, every `step`th, `count` of them. */
static size_t lay_out(const struct coded *coded, size_t first, size_t step, size_t count, uint8_t *bundle)
{
    uint32_t positions[N_SERVED];
    for (size_t i = 0; i < count; i++)
        positions[i] = (uint32_t)(first + i * step);
    return second_lay_out(coded->k, coded->n, coded->length, positions, count, coded->symbols, bundle);
}

static void save_shadows(const char *name, const struct coded *coded, size_t first, size_t step, size_t count)
{
    uint8_t bundle[SPACE];
    save_bundle(name, bundle, lay_out(coded, first, step, count, bundle));
}

/* The page's bundle with another symbol in the message of one block, which is coded as if it were right. */
static void save_other_message(const char *name, size_t block, size_t at, uint32_t symbol)
{
    static struct coded other;
    uint32_t message[K];
    other = page;
    for (size_t i = 0; i < K; i++)
        message[i] = (uint32_t)number_at(page.file + 2 * (block * K + i), 2);
    message[at] = symbol;
    second_word(message, K, N, other.symbols + block * N);
    save_shadows(name, &other, 0, 1, N);
}

/* P11, an empty file, and four of the 300 shadows of a file of four bytes, which are more than the program serves. */
static void save_others(void)
{
    static struct coded p11 = {.file = {0, 1, 0, 2}}, empty, wide = {.file = "wide"};
    code(&p11, 2, 4, 4);
    save_shadows("p11", &p11, 0, 1, 4);
    code(&empty, 2, 3, 0);
    save_shadows("empty", &empty, 0, 1, 3);
    code(&wide, 2, 300, 4);
    save_shadows("wide", &wide, 40, 80, 4);
}

/* The page's bundle with a bit altered in the word of block 2 of shadow 5. */
static void save_altered(void)
{
    uint8_t bundle[SPACE];
    const size_t length = lay_out(&page, 0, 1, N, bundle);
    struct bundle_entry entry;
    second_entry(bundle, length, 5, &entry);
    bundle[entry.offset + 2 * entry.count + 2 * 2 + 1] ^= 1;
    save_bundle("page-altered", bundle, length);
}

/* The page's bundle without its end, and with a k above n. */
static void save_broken(void)
{
    uint8_t bundle[SPACE];
    const size_t length = lay_out(&page, 0, 1, N, bundle);
    save_bundle("page-cut", bundle, length - 100);
    put_number(bundle + 4, 2, N + 1);
    save_bundle("page-shape", bundle, length);
}

static void read_page(const char *path)
{
    FILE *file = fopen(path, "rb");
    must(file != NULL, path);
    const size_t length = fread(page.file, 1, SPACE / 2, file);
    must(!ferror(file) && fclose(file) == 0, path);
    code(&page, K, N, length);
}

int main(int count, char **words)
{
    if (count != 3) {
        fprintf(stderr, "usage: make_bundles PAGE FOLDER\n");
        return 2;
    }
    folder = words[2];
    read_page(words[1]);
    save_others();
    save_shadows("page", &page, 0, 1, N);
    save_shadows("page-8-held", &page, 2, 1, K);
    save_shadows("page-7-held", &page, 2, 1, K - 1);
    save_altered();
    save_broken();
    save_other_message("page-no-word", 3, 4, 65536);
    save_other_message("page-tail", second_blocks(K, page.length) - 1, K - 1, 0x2020);
    return 0;
}
