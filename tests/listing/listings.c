/* The listing program held against document 01: cases whose text is written down by hand, then many good and damaged bundles that look random
 * and are the same in each run, compared byte for byte with the second coder's listing. The arguments are the command that starts the program.
 * Half of the inputs come as a file, half through a pipe; some ways in and out of the program that go in small pieces are tried too. */
#include "lent.h"
#include "second.h"
#include "second_bundle.h"
#include "second_listing.h"
#include "sent.h"
#include "started.h"

#include <stdio.h>
#include <stdlib.h>
#include <string.h>

enum { KINDS = FORM + 1, MOST_INPUT = 100000, WANTED = 300 };

/* How often each last line was seen, and how often with a place that is not 0. */
static unsigned long seen[KINDS], seen_later[KINDS], written, seeded;

/* An input, and the text that is due. The bytes are written as document 01 writes them; so many zero bytes follow. */
struct written {
    const char *what, *bytes;
    size_t zeros;
    const char *text;
};

/* P11's bundle in document 01's words, but for the header's second half. */
#define P11_SHAPE "46 4E 54 42 00 02 00 04 "
#define P11_TABLE "00 00 00 00 00 00 00 30  00 01 00 00 00 00 00 32  00 02 00 01 00 00 00 34  00 03 00 00 00 00 00 38 "
#define P11_BODIES "00 03 FE 02 00 00 00 00 02 01 "
#define P11 P11_SHAPE "00 00 00 04 00 04 00 00 " P11_TABLE P11_BODIES
#define P11_LINES "0 48 0\n1 50 0\n2 52 1\n3 56 0\n"

/* Two blocks, the first is P11's. With k = 2 and n = 4 the points are 1, -256, -1 and 256, so the words a and b of a block make the symbols
 * a + b, a - 256b, a - b and a + 256b:
 *     a =    -1, b = 1:     0, 65280, 65535, 255, for -1 is 65536
 *     a =     5, b = 1:     6, 65286,     4, 261 */
#define TWO_TABLE "00 04 00 00  00 00 00 00 00 00 00 30  00 01 00 00 00 00 00 34  00 02 00 01 00 00 00 38  00 03 00 00 00 00 00 3E "
#define TWO_LINES "0 48 0\n1 52 0\n2 56 1\n3 62 0\n"
#define NO_WORD_BODIES "00 03 00 00  FE 02 FF 00  00 00 00 00 FF FF  02 01 00 FF "
#define PADDED_BODIES "00 03 00 06  FE 02 FF 06  00 00 00 00 00 04  02 01 01 05 "

static const struct written cases[] = {
    {"P11", P11, 0, "k 2 n 4 length 4 held 4 blocks 1\n" P11_LINES "OK\n"},
    {"P12, L = 3", P11_SHAPE "00 00 00 03 00 04 00 00 " P11_TABLE P11_BODIES, 0,
     "k 2 n 4 length 3 held 4 blocks 1\n" P11_LINES "REFUSED 10 0\n"},
    {"P12, L = 5", P11_SHAPE "00 00 00 05 00 04 00 00 " P11_TABLE P11_BODIES, 0, "REFUSED 11 0\n"},
    {"the word of a listed block is not used", P11_SHAPE "00 00 00 04 00 04 00 00 " P11_TABLE "00 03 FE 02 00 00 12 34 02 01", 0,
     "k 2 n 4 length 4 held 4 blocks 1\n" P11_LINES "OK\n"},
    {"shadows 0 and 2 with 0 for 65536 are P8's, whose words are two bytes each",
     P11_SHAPE "00 00 00 04 00 02 00 00  00 00 00 00 00 00 00 20  00 02 00 00 00 00 00 22  00 03 00 00", 0,
     "k 2 n 4 length 4 held 2 blocks 1\n0 32 0\n2 34 0\nOK\n"},
    {"P9's are compared all three",
     P11_SHAPE "00 00 00 04 00 03 00 00  00 00 00 00 00 00 00 28  00 01 00 00 00 00 00 2A  00 02 00 00 00 00 00 2C  00 03 FE 02 00 00", 0,
     "k 2 n 4 length 4 held 3 blocks 1\n0 40 0\n1 42 0\n2 44 0\nREFUSED 8 0\n"},

    {"a symbol 65536 in block 1", P11_SHAPE "00 00 00 08 " TWO_TABLE NO_WORD_BODIES, 0,
     "k 2 n 4 length 8 held 4 blocks 2\n" TWO_LINES "REFUSED 9 1\n"},
    {"an altered word in block 1", P11_SHAPE "00 00 00 08 " TWO_TABLE "00 03 00 06  FE 02 FF 06  00 00 00 00 00 04  02 01 01 04", 0,
     "k 2 n 4 length 8 held 4 blocks 2\n" TWO_LINES "REFUSED 8 1\n"},
    {"altered words in both blocks", P11_SHAPE "00 00 00 08 " TWO_TABLE "00 02 00 06  FE 02 FF 06  00 00 00 00 00 04  02 01 01 04", 0,
     "k 2 n 4 length 8 held 4 blocks 2\n" TWO_LINES "REFUSED 8 0\n"},
    {"nothing padded", P11_SHAPE "00 00 00 08 " TWO_TABLE PADDED_BODIES, 0, "k 2 n 4 length 8 held 4 blocks 2\n" TWO_LINES "OK\n"},
    {"one byte of padding in block 1", P11_SHAPE "00 00 00 07 " TWO_TABLE PADDED_BODIES, 0,
     "k 2 n 4 length 7 held 4 blocks 2\n" TWO_LINES "REFUSED 10 1\n"},
    {"65536 in block 0 comes before an altered word in block 1",
     P11_SHAPE "00 00 00 08 00 03 00 00  00 00 00 00 00 00 00 28  00 01 00 00 00 00 00 2C  00 02 00 00 00 00 00 30 "
               "00 00 00 03  FF 00 FE 02  FF FF 00 00", 0,
     "k 2 n 4 length 8 held 3 blocks 2\n0 40 0\n1 44 0\n2 48 0\nREFUSED 9 0\n"},
    {"65536 among the held symbols, and padding that is not zero",
     "46 4E 54 42 00 02 00 02 00 00 00 01 00 02 00 00  00 00 00 00 00 00 00 20  00 01 00 01 00 00 00 22  00 00  00 00 00 00", 0,
     "k 2 n 2 length 1 held 2 blocks 1\n0 32 0\n1 34 1\nREFUSED 10 0\n"}, /* a + b is 0 and a - b 65536: a is 32768 and b 32769 */
    {"65536 in the message comes before padding that is not zero",
     "46 4E 54 42 00 02 00 02 00 00 00 02 00 02 00 00  00 00 00 00 00 00 00 20  00 01 00 00 00 00 00 22  00 00  FF FF", 0,
     "k 2 n 2 length 2 held 2 blocks 1\n0 32 0\n1 34 0\nREFUSED 9 0\n"}, /* a + b is 0 and a - b 65535: a is 65536 and b 1 */
    {"65536 in the padding is WORD too",
     "46 4E 54 42 00 02 00 02 00 00 00 02 00 02 00 00  00 00 00 00 00 00 00 20  00 01 00 00 00 00 00 22  00 00  00 02", 0,
     "k 2 n 2 length 2 held 2 blocks 1\n0 32 0\n1 34 0\nREFUSED 9 0\n"}, /* a + b is 0 and a - b 2: a is 1 and b 65536 */

    {"one of two shadows", P11_SHAPE "00 00 00 04 00 01 00 00  00 03 00 00 00 00 00 18  02 01", 0,
     "k 2 n 4 length 4 held 1 blocks 1\n3 24 0\nREFUSED 4 0\n"},
    {"no shadow", P11_SHAPE "00 00 00 04 00 00 00 00", 0, "k 2 n 4 length 4 held 0 blocks 1\nREFUSED 4 0\n"},
    {"no shadow of an empty file", P11_SHAPE "00 00 00 00 00 00 00 00", 0, "k 2 n 4 length 0 held 0 blocks 0\nREFUSED 4 0\n"},
    {"an empty file", "46 4E 54 42 00 01 00 01 00 00 00 00 00 01 00 00  00 00 00 00 00 00 00 18", 0,
     "k 1 n 1 length 0 held 1 blocks 0\n0 24 0\nOK\n"},

    {"k = 0", "46 4E 54 42 00 00 00 04 00 00 00 04 00 00 00 00", 0, "REFUSED 1 0\n"},
    {"k above n", "46 4E 54 42 00 05 00 04 00 00 00 04 00 00 00 00", 0, "REFUSED 1 0\n"},
    {"n = 4097", "46 4E 54 42 00 02 10 01 00 00 00 04 00 00 00 00", 0, "REFUSED 1 0\n"},
    {"L = 1,048,577", "46 4E 54 42 00 09 00 09 00 10 00 01 00 00 00 00", 0, "REFUSED 1 0\n"},
    {"B = 65,536", "46 4E 54 42 00 01 00 01 00 01 FF FF 00 00 00 00", 0, "REFUSED 1 0\n"},
    {"SHAPE comes before the rest of FORM", "46 4E 54 42 00 00 00 04 00 00 00 04 00 00 00 00", 1, "REFUSED 1 0\n"},
    {"the first part of FORM comes before SHAPE", "46 4E 54 42 00 00 00 04 00 00 00 04 00 00 00 01", 0, "REFUSED 11 0\n"},

    {"n = 4096", "46 4E 54 42 00 02 10 00 00 00 00 04 00 00 00 00", 0, "REFUSED 3 0\n"},
    {"n = 257", "46 4E 54 42 00 02 01 01 00 00 00 04 00 00 00 00", 0, "REFUSED 3 0\n"},
    {"n = 257, FORM comes before ROOM", "46 4E 54 42 00 02 01 01 00 00 00 04 00 00 00 00", 1, "REFUSED 11 0\n"},
    {"n = 256", "46 4E 54 42 00 02 01 00 00 00 00 04 00 00 00 00", 0, "k 2 n 256 length 4 held 0 blocks 1\nREFUSED 4 0\n"},
    {"L = 24,577", P11_SHAPE "00 00 60 01 00 00 00 00", 0, "REFUSED 3 0\n"},
    {"L = 24,576", P11_SHAPE "00 00 60 00 00 00 00 00", 0, "k 2 n 4 length 24576 held 0 blocks 6144\nREFUSED 4 0\n"},
    {"L = 1,048,576", "46 4E 54 42 00 09 00 09 00 10 00 00 00 00 00 00", 0, "REFUSED 3 0\n"},
    {"B = 65,535", "46 4E 54 42 00 01 00 01 00 01 FF FE 00 00 00 00", 0, "REFUSED 3 0\n"},
    {"24,577 bytes with no mark", "", 24577, "REFUSED 3 0\n"},
    {"24,577 bytes with a mark", P11, 24577 - 58, "REFUSED 3 0\n"},
    {"100,000 bytes", P11, 100000 - 58, "REFUSED 3 0\n"},
    {"24,576 bytes with no mark", "", 24576, "REFUSED 11 0\n"},
    {"24,576 bytes with a mark", P11, 24576 - 58, "REFUSED 11 0\n"},
    {"24,576 bytes that are a bundle: 16 + 8 + 2 * 12276", "46 4E 54 42 00 01 00 01 00 00 5F E8 00 01 00 00  00 00 00 00 00 00 00 18", 24552,
     "k 1 n 1 length 24552 held 1 blocks 12276\n0 24 0\nOK\n"},

    {"nothing", "", 0, "REFUSED 11 0\n"},
    {"one byte", "46", 0, "REFUSED 11 0\n"},
    {"15 bytes", "46 4E 54 42 00 02 00 04 00 00 00 04 00 00 00", 0, "REFUSED 11 0\n"},
    {"another mark", "46 4E 54 43 00 02 00 04 00 00 00 04 00 00 00 00", 0, "REFUSED 11 0\n"},
    {"byte 14 is 1", "46 4E 54 42 00 02 00 04 00 00 00 04 00 00 01 00", 0, "REFUSED 11 0\n"},
    {"a byte behind the end", P11, 1, "REFUSED 11 0\n"},
    {"a table that is cut off", P11_SHAPE "00 00 00 04 00 04 00 00 00 00 00 00 00 00 00 30", 0, "REFUSED 11 0\n"},
    {"position n", P11_SHAPE "00 00 00 04 00 01 00 00  00 04 00 00 00 00 00 18  02 01", 0, "REFUSED 11 0\n"},
    {"a position twice", P11_SHAPE "00 00 00 04 00 02 00 00  00 01 00 00 00 00 00 20  00 01 00 00 00 00 00 22  FE 02 FE 02", 0,
     "REFUSED 11 0\n"},
    {"a listed block that is B", P11_SHAPE "00 00 00 04 00 01 00 00  00 02 00 01 00 00 00 18  00 01 00 00", 0, "REFUSED 11 0\n"},
    {"a list that rises", P11_SHAPE "00 00 00 08 00 01 00 00  00 00 00 02 00 00 00 18  00 00 00 01 00 00 00 00", 0,
     "k 2 n 4 length 8 held 1 blocks 2\n0 24 2\nREFUSED 4 0\n"},
    {"a list that falls", P11_SHAPE "00 00 00 08 00 01 00 00  00 00 00 02 00 00 00 18  00 01 00 00 00 00 00 00", 0, "REFUSED 11 0\n"},
    {"a block listed twice", P11_SHAPE "00 00 00 08 00 01 00 00  00 00 00 02 00 00 00 18  00 01 00 01 00 00 00 00", 0, "REFUSED 11 0\n"},
    {"an offset that is one too far", P11_SHAPE "00 00 00 04 00 01 00 00  00 02 00 00 00 00 00 19  00 01", 0, "REFUSED 11 0\n"},
};

/* Holds what was printed against what is due. Where it differs, says so and ends the program. */
static void hold(const char *what, const uint8_t *input, size_t length, const char *due, const struct printed *printed)
{
    if (printed->length == strlen(due) && memcmp(printed->text, due, printed->length) == 0)
        return;
    printf("DIFFERS: %s\nthe input is %zu bytes:", what, length);
    for (size_t i = 0; i < length && i < 200; i++)
        printf(" %02X", input[i]);
    printf("\nthe program prints %zu bytes:\n%.*s\ndue is:\n%s", printed->length, (int)printed->length, printed->text, due);
    exit(1);
}

static void count(struct second_answer answer)
{
    seen[answer.status]++;
    seen_later[answer.status] += answer.place != 0;
}

/* The bytes that a text of hexadecimal numbers tells, and how many they are. */
static size_t bytes_of(const char *text, uint8_t *bytes)
{
    size_t count = 0;
    char *end;
    for (unsigned long byte = strtoul(text, &end, 16); end != text; byte = strtoul(text, &end, 16)) {
        bytes[count++] = (uint8_t)byte;
        text = end;
    }
    return count;
}

/* A case is held against its text, and so is the second coder, in which the same slip would pass otherwise. */
static void try_written(const struct written *one)
{
    static uint8_t input[MOST_INPUT];
    char second[LISTING_ROOM];
    size_t length = bytes_of(one->bytes, input);
    memset(input + length, 0, one->zeros);
    length += one->zeros;
    count(second_listing(input, length, second));
    if (strcmp(second, one->text) != 0) {
        printf("FAILED: %s: the second coder lists\n%sand not\n%s", one->what, second, one->text);
        exit(1);
    }
    hold(one->what, input, length, one->text, print_from_file(input, length));
    hold(one->what, input, length, one->text, print_from_pieces(input, length, 10000, 0));
    written++;
}

/* Holds the made bundle's listing against the second coder's. */
static void try_made(const char *what)
{
    char due[LISTING_ROOM];
    const size_t piece = 1 + below(30000);
    count(second_listing(made, made_length, due));
    hold(what, made, made_length, due, seeded % 2 == 0 ? print_from_file(made, made_length) : print_from_pieces(made, made_length, piece, 0));
    seeded++;
}

/* A file of the shape, some of its shadows, and damages of which the impossible ones are left out. */
static void try_sent(const char *what, size_t k, size_t n, size_t length, unsigned damages)
{
    choose_file(k, n, length);
    choose_shadows();
    make_bundle(possible_damages(damages));
    try_made(what);
}

/* Each damage alone on bundles of up to twenty shadows, none, and up to three at once. */
static void try_small(void)
{
    for (size_t round = 0; round < 25 * DAMAGES; round++) {
        const size_t n = 1 + below(20), k = 1 + below(n);
        const unsigned damages = round % 5 == 0 ? 0 : round % 5 == 1 ? choose_damages(3) : 1u << round % DAMAGES;
        try_sent("a small bundle", k, n, choose_length(k, 6), damages);
    }
}

/* More shadows, up to as many as the program serves. */
static void try_large(void)
{
    static const size_t lengths[] = {31, 32, 33, 63, 64, 65, 100, 127, 128, 129, 200, 254, 255, 256, 256};
    for (size_t round = 0; round < 6 * sizeof lengths / sizeof *lengths; round++) {
        const size_t n = lengths[round / 6], k = round % 3 == 0 ? n - below(3) : 1 + below(round % 3 == 1 ? n : 9);
        try_sent("a large bundle", k, n, choose_length(k, k > 100 ? 3 : 9), round % 2 == 0 ? 0 : choose_damages(1));
    }
}

/* Files up to as long as the program serves: a bundle of k shadows, in which the longest just have no room, or of more. */
static void try_long(void)
{
    for (size_t round = 0; round < 60; round++) {
        const size_t n = 1 + below(8), k = 1 + below(n), length = below(2) ? 24576 - below(200) : below(24576);
        try_sent("a long file", k, n, length, round % 2 == 0 ? 0 : choose_damages(1));
    }
}

/* More shadows than the program serves: ROOM, unless the layout is wrong, and also where few are held. */
static void try_beyond(void)
{
    static const size_t lengths[] = {257, 258, 300, 511, 512, 513, 1000, 4095, 4096};
    for (size_t round = 0; round < 4 * sizeof lengths / sizeof *lengths; round++) {
        const size_t k = 1 + below(30);
        try_sent("n above 256", k, lengths[round / 4], choose_length(k, 3), round % 2 == 0 ? 0 : choose_damages(1));
    }
    for (size_t round = 0; round < 8; round++) {
        choose_file(1 + below(30), 4096, below(6));
        choose_shadows();
        make_bundle(0);
        put_number(made + 6, 2, 4097 + below(3));
        try_made("n above 4096");
    }
}

/* Fewer shadows than k, of files as long as the program serves and a byte longer. */
static void try_few_of_long(void)
{
    for (size_t round = 0; round < 12; round++) {
        const size_t k = 40 + below(100), n = k + below(10);
        choose_file(k, n, 24576 + round % 2);
        sent.m = round < 4 ? 0 : below(k / 2);
        for (size_t i = 0; i < sent.m; i++)
            sent.positions[i] = (uint32_t)(n - sent.m + i);
        make_bundle(0);
        try_made(round % 2 == 0 ? "few shadows, L = 24,576" : "few shadows, L = 24,577");
    }
}

/* Bundles of 24,576 bytes, 16 + 8k + 2kB with 12,280 = k * (B + 4), or a little more where there are overflow lists: as they are, with a byte
 * more, and cut to about that length. */
static void try_border(void)
{
    static const size_t ks[] = {1, 2, 4, 5, 8, 10, 20, 40};
    for (size_t round = 0; round < 3 * sizeof ks / sizeof *ks; round++) {
        const size_t k = ks[round / 3], blocks = 12280 / k - 4;
        choose_file(k, k, 2 * k * blocks - below(2 * k));
        for (sent.m = 0; sent.m < k; sent.m++)
            sent.positions[sent.m] = (uint32_t)sent.m;
        make_bundle(0);
        made_length = round % 3 == 0 ? made_length : round % 3 == 1 ? made_length + 1 : 24575 + below(3);
        try_made("a bundle at the border");
    }
}

/* Inputs that are no bundle at all. */
static void try_noise(void)
{
    static const size_t lengths[] = {0, 1, 2, 3, 4, 15, 16, 17, 24, 100, 24575, 24576, 24577, 24578, 30000, 65536, 100000};
    for (size_t i = 0; i < sizeof lengths / sizeof *lengths; i++) {
        made_length = lengths[i];
        for (size_t at = 0; at < made_length; at++)
            made[at] = (uint8_t)junk();
        try_made("noise");
        memcpy(made, "FNTB", least(made_length, 4));
        try_made("noise behind the mark");
    }
}

/* The longest listing: 256 shadows, in nearly as many bytes as the program takes. */
static void make_longest(void)
{
    choose_file(20, 256, 40 * 43);
    for (sent.m = 0; sent.m < 256; sent.m++)
        sent.positions[sent.m] = (uint32_t)sent.m;
    make_bundle(0);
}

/* Input and output that go in pieces are carried on, and reading that fails is the end of the input. */
static void try_ways(void)
{
    uint8_t p11[58];
    char due[LISTING_ROOM];
    const size_t length = bytes_of(P11, p11);
    hold("P11 in pieces of one byte", p11, length, cases[0].text, print_from_pieces(p11, length, 1, 500));
    hold("P11 in pieces of seven bytes", p11, length, cases[0].text, print_from_pieces(p11, length, 7, 500));
    hold("standard input closed", p11, 0, "REFUSED 11 0\n", print_from_closed());
    hold("standard input a folder", p11, 0, "REFUSED 11 0\n", print_from_folder());
    make_longest();
    second_listing(made, made_length, due);
    hold("the longest listing, from small pieces", made, made_length, due, print_from_pieces(made, made_length, 101, 50));
    hold("the longest listing, to a slow reader", made, made_length, due, print_to_slow_reader(made, made_length));
}

/* Prints how often each last line was seen. A run in which one of them never came up shows less than it should, and fails. */
static void report(void)
{
    static const uint32_t kinds[] = {OK, SHAPE, ROOM, FEW, DISAGREE, WORD, TAIL, FORM};
    for (size_t i = 0; i < sizeof kinds / sizeof *kinds; i++) {
        const uint32_t kind = kinds[i];
        if (kind == OK)
            printf("last lines: OK %lu", seen[OK]);
        else
            printf(", REFUSED %u %lu", (unsigned)kind, seen[kind]);
        if (kind == DISAGREE || kind == WORD)
            printf(" (%lu with a place other than 0)", seen_later[kind]);
        if (seen[kind] == 0 || ((kind == DISAGREE || kind == WORD) && seen_later[kind] == 0)) {
            printf("\nFAILED: a last line, or a place other than 0 with it, never came up\n");
            exit(1);
        }
    }
    printf("\n");
    if (seeded < WANTED) {
        printf("FAILED: %lu inputs are fewer than %d\n", seeded, WANTED);
        exit(1);
    }
}

int main(int word_count, char **words)
{
    if (word_count < 2) {
        fprintf(stderr, "usage: listings WORD.., the words being the command that starts the listing program\n");
        return 2;
    }
    set_command(words + 1);
    for (size_t i = 0; i < sizeof cases / sizeof *cases; i++)
        try_written(&cases[i]);
    try_ways();
    try_small();
    try_large();
    try_long();
    try_beyond();
    try_few_of_long();
    try_border();
    try_noise();
    report();
    report_damages();
    printf("listings: %lu written by hand and %lu of good and damaged bundles, 0 differ\n", written, seeded);
    return 0;
}
