/* The library's bundles held against the second coder's on many files and damaged bundles that look random and are the same in each run: all
 * shapes up to n = 40 and some longer ones, with none to three kinds of damage at once. The second coder is run on what the lent cells are
 * due to hold, so every cell, the number and the guards are compared. Apart from it, the reader is held against the file that was sent. */
#include "lent.h"
#include "second.h"
#include "second_bundle.h"
#include "sent.h"
#include "sulmirejo.h"

#include <stdio.h>
#include <stdlib.h>
#include <string.h>

enum { KINDS = FORM + 1 };

static const char *const names[KINDS] = {"OK", "SHAPE", "LENGTH", "ROOM", "FEW", "POSITION", "REPEAT", "VALUE", "DISAGREE", "WORD", "TAIL",
                                         "FORM"};

/* A call, with a bit for each answer that it can give. */
struct call {
    const char *name;
    unsigned answers;
    unsigned long seen[KINDS];
};

static struct call writing = {"write", 1u << OK | 1u << SHAPE | 1u << ROOM, {0}};
static struct call reading = {
    "read", 1u << OK | 1u << SHAPE | 1u << ROOM | 1u << FEW | 1u << DISAGREE | 1u << WORD | 1u << TAIL | 1u << FORM, {0}};
static struct call facts = {"facts", 1u << OK | 1u << SHAPE | 1u << FORM, {0}};
static struct call entries = {"entry", 1u << OK | 1u << SHAPE | 1u << POSITION | 1u << FORM, {0}};
static unsigned long damaged, whole, altered_few, altered_shadows;

static struct lent_bytes file, bundle, out;
static struct lent work;

/* Says which call it was and ends the program. */
static void differs(const struct call *call, const char *what, long at)
{
    printf("DIFFERS: file %lu, k %zu, n %zu, length %zu, held %zu, %s", sent.number, sent.k, sent.n, sent.length, sent.m, call->name);
    printf(", room %zu and %zu: %s, %ld\n  bundle, %zu:", out.room, work.room, what, at, bundle.room);
    for (size_t i = 0; i < bundle.room && i < 200; i++)
        printf(" %02X", lend_bytes(&bundle)[i]);
    printf("\n");
    exit(1);
}

static void hold_bytes(const struct call *call, struct lent_bytes *buffer, const char *what)
{
    long at = 0;
    if (!bytes_hold_their_due(buffer, &at)) {
        printf("%s byte %ld holds %u, due is %u\n", what, at, lend_bytes(buffer)[at], due_bytes_of(buffer)[at]);
        differs(call, what, at);
    }
}

/* Holds the library's answer, the number and the working space against the second coder's, and counts the call. */
static void hold(struct call *call, uint32_t status, struct second_answer due)
{
    long at = 0;
    if (status != due.status) {
        printf("the library answers %u, due is %u\n", (unsigned)status, (unsigned)due.status);
        differs(call, "status", (long)status);
    }
    if (number_written() != due.place || !number_guards_hold()) {
        printf("the number is %zu, due is %zu\n", number_written(), due.place);
        differs(call, "number", (long)number_written());
    }
    if (!holds_its_due(&work, &at))
        differs(call, "working space", at);
    call->seen[status]++;
}

static uint32_t run_write(size_t k, size_t n)
{
    uint32_t status;
    struct second_answer due;
    remember_bytes(&file);
    remember_bytes(&out);
    remember(&work);
    due = second_write(k, n, lend_bytes(&file), file.room, due_bytes_of(&out), out.room, due_of(&work), work.room);
    status = sulmirejo_write(k, n, lend_bytes(&file), file.room, lend_bytes(&out), out.room, lend(&work), work.room, lend_number());
    hold(&writing, status, due);
    hold_bytes(&writing, &file, "file");
    hold_bytes(&writing, &out, "bundle");
    return status;
}

static uint32_t run_read(void)
{
    uint32_t status;
    struct second_answer due;
    remember_bytes(&bundle);
    remember_bytes(&out);
    remember(&work);
    due = second_read(lend_bytes(&bundle), bundle.room, due_bytes_of(&out), out.room, due_of(&work), work.room);
    status = sulmirejo_read(lend_bytes(&bundle), bundle.room, lend_bytes(&out), out.room, lend(&work), work.room, lend_number());
    hold(&reading, status, due);
    hold_bytes(&reading, &bundle, "bundle");
    hold_bytes(&reading, &out, "file");
    return status;
}

static void hold_results(const struct call *call)
{
    size_t which = 0;
    hold_bytes(call, &bundle, "bundle");
    if (!results_hold_their_due(&which)) {
        printf("result %zu is %zu, due is %zu\n", which, *lend_result(which), *due_result(which));
        differs(call, "result", (long)which);
    }
}

/* The facts of the lent bundle, whose layout need not be good. */
static void run_facts(void)
{
    struct bundle_facts found;
    struct second_answer due = second_facts(lend_bytes(&bundle), bundle.room, &found);
    uint32_t status;
    fill_results_with_junk();
    if (due.status == OK) {
        *due_result(0) = found.k;
        *due_result(1) = found.n;
        *due_result(2) = found.length;
        *due_result(3) = found.held;
        *due_result(4) = found.blocks;
    }
    status = sulmirejo_facts(lend_bytes(&bundle), bundle.room, lend_result(0), lend_result(1), lend_result(2), lend_result(3), lend_result(4),
                             lend_number());
    hold(&facts, status, due);
    hold_results(&facts);
}

static void run_entry(size_t index)
{
    struct bundle_entry found;
    struct second_answer due = second_entry(lend_bytes(&bundle), bundle.room, index, &found);
    uint32_t status;
    fill_results_with_junk();
    if (due.status == OK) {
        *due_result(0) = found.position;
        *due_result(1) = found.offset;
        *due_result(2) = found.count;
    }
    status = sulmirejo_entry(lend_bytes(&bundle), bundle.room, index, lend_result(0), lend_result(1), lend_result(2), lend_number());
    hold(&entries, status, due);
    hold_results(&entries);
}

/* Room for a call that needs so much: enough, or too little of the one, the other or both. */
static size_t room_of(size_t needed, int is_short)
{
    if (is_short && needed > 0)
        return below(2) ? needed - 1 : below(needed);
    return needed + (below(2) ? 0 : below(2) ? below(4) : below(60));
}

static void lend_room(size_t bytes, size_t cells, int is_short)
{
    const size_t which = is_short ? 1 + below(3) : 0;
    fill_bytes_with_junk(&out, room_of(bytes, which & 1));
    fill_with_junk(&work, room_of(cells, which & 2));
}

/* k and n of which one is refused, also such as would be good where only their lower bits are looked at. */
static void spoil_shape(size_t *k, size_t *n)
{
    const size_t good_k = *k, good_n = *n, beyond32 = 4294967296u;
    const size_t shapes[][2] = {{0, good_n}, {0, 0}, {good_n + 1, good_n}, {good_n + 1 + below(100), good_n}, {good_k, 4097},
                                {good_k, 4097 + below(4096)}, {good_k, SIZE_MAX}, {SIZE_MAX, SIZE_MAX}, {good_k, 65536 + good_n},
                                {good_k, beyond32 + good_n}, {beyond32 + good_k, good_n}, {good_k, 0}};
    const size_t *shape = shapes[below(sizeof shapes / sizeof *shapes)];
    *k = shape[0];
    *n = shape[1];
}

/* Writes the sent file, with a shape that is refused or with too little room in some calls. */
static void try_write(int bad_shape, int is_short)
{
    size_t k = sent.k, n = sent.n;
    fill_bytes_with_junk(&file, sent.length);
    memcpy(lend_bytes(&file), sent.file, sent.length);
    lend_room(16 + 8 * n + 4 * n * sent.blocks, 8 * second_size(n), is_short);
    if (bad_shape)
        spoil_shape(&k, &n);
    run_write(k, n);
}

/* The room that the lent bundle needs, or what the sent file needs where its layout is not good. */
static void lend_room_for_bundle(int is_short)
{
    struct bundle_facts found = {.n = sent.n, .length = sent.length};
    second_facts(lend_bytes(&bundle), bundle.room, &found);
    lend_room(found.length, 8 * second_size(found.n), is_short);
}

static int file_came_back(uint32_t status)
{
    return status == SULMIREJO_OK && number_written() == sent.length && memcmp(lend_bytes(&out), sent.file, sent.length) == 0;
}

/* Apart from the second coder: with k or more shadows that are whole the file comes back. With 1 to m - k altered symbols in a block that
 * block is refused. With words of m - k shadows altered it is the file or a refusal, never another file. */
static void hold_against_sent(unsigned damages, uint32_t status, size_t first)
{
    if (sent.m < sent.k)
        return;
    if ((damages & ~(1u << UNUSED)) == 0) {
        whole++;
        if (!file_came_back(status))
            differs(&reading, "the sent file does not come back", (long)status);
    } else if (damages == 1u << ALTERED_FEW) {
        altered_few++;
        if (status != SULMIREJO_DISAGREE || number_written() != first)
            differs(&reading, "at most m - k symbols of a block are altered, and it is not seen", (long)first);
    } else if ((damages & ~(1u << UNUSED)) == 1u << WORDS) {
        altered_shadows++;
        if (!file_came_back(status) && status != SULMIREJO_DISAGREE)
            differs(&reading, "words of at most m - k shadows are altered, and another file comes back", (long)status);
    }
}

/* Reads the held shadows with these damages, and lists the bundle. */
static void try_read(unsigned damages, int is_short)
{
    size_t first;
    uint32_t status;
    damages = possible_damages(damages);
    damaged += damages != 0;
    first = make_bundle(damages);
    fill_bytes_with_junk(&bundle, made_length);
    memcpy(lend_bytes(&bundle), made, made_length + GUARD); /* what was cut off stands behind it */
    lend_room_for_bundle(is_short);
    status = run_read();
    if (!is_short)
        hold_against_sent(damages, status, first);
    run_facts();
    run_entry(below(sent.m + 1));
    run_entry(below(3) == 0 ? sent.m + below(3) : below(3) == 0 ? SIZE_MAX - below(2) : 4294967296u + below(sent.m + 1));
}

/* In each round a file is written and its bundle is read from some of the shadows: once whole, then with a damage alone, and with up to three
 * at once. */
static void try_shape(size_t k, size_t n, size_t most_blocks, size_t rounds)
{
    for (size_t round = 0; round < rounds; round++) {
        choose_file(k, n, choose_length(k, most_blocks));
        try_write(0, 0);
        try_write(below(3) == 0, below(2) == 0);
        choose_shadows();
        try_read(0, below(8) == 0);
        choose_shadows();
        try_read(below(2) ? 1u << ALTERED_FEW : 1u << WORDS, 0);
        choose_shadows();
        try_read(1u << below(DAMAGES), below(16) == 0);
        choose_shadows();
        try_read(choose_damages(1 + below(3)), below(6) == 0);
    }
}

/* Longer blocks, with k and m as large as the second coder can do without delay. */
static void try_longer(void)
{
    static const size_t lengths[] = {41, 63, 64, 65, 100, 128, 129, 200, 255, 256, 257, 500, 512, 513, 1000, 1024, 1025, 2048, 2049, 3000,
                                     4095, 4096, 4096};
    for (size_t i = 0; i < sizeof lengths / sizeof *lengths; i++) {
        const size_t n = lengths[i];
        try_shape(1 + below(4), n, 3, 2);
        try_shape(1 + below(n > 1000 ? 8 : 40), n, 2, 2);
        if (n <= 128)
            try_shape(n - below(3), n, 2, 2);
    }
}

/* Files as long as a limit, a little shorter and a little longer. */
static void try_limits(void)
{
    for (size_t round = 0; round < 40; round++) {
        const size_t k = round % 2 == 0 ? 1 + below(9) : 9 + below(4000), most = least(1048576, 2 * k * 65535);
        const size_t above = 1 + (below(2) ? 0 : below(2 * k)), n = k + below(2);
        fill_bytes_with_junk(&file, most + above);
        lend_room(below(2) ? MOST_BYTES - 100 : 16 + 8 * n + 4 * n, 8 * second_size(n), below(2) == 0);
        run_write(k, n);
    }
    for (size_t k = 1; k <= 3; k++) {
        const size_t n = k + below(3), length = 2 * k * 65535 - below(2 * k);
        fill_bytes_with_junk(&file, length);
        lend_room(16 + 8 * n + 4 * n * 65535, 8 * second_size(n), 0);
        run_write(k, n);
        lend_room(16 + 8 * n + 4 * n * 65535, 8 * second_size(n), 1);
        run_write(k, n);
    }
}

/* Files of several blocks with one symbol 65536: in the first, a middle and the last block, at the first, a middle and the last position. */
static void try_lone_overflows(void)
{
    static const size_t shapes[][2] = {{2, 2}, {2, 3}, {3, 7}, {8, 8}, {5, 16}, {9, 33}, {20, 100}, {4, 256}, {2, 1025}, {3, 4096}};
    enum { BLOCKS = 5 };
    for (size_t i = 0; i < sizeof shapes / sizeof *shapes; i++)
        for (size_t block = 0; block < BLOCKS; block += BLOCKS / 2)
            for (size_t third = 0; third < 3; third++) {
                const size_t k = shapes[i][0], n = shapes[i][1];
                choose_lone_overflow(k, n, BLOCKS, block, third * (n - 1) / 2);
                try_write(0, 0);
                choose_shadows();
                try_read(0, 0);
            }
}

/* Prints how often each answer of a call was seen. A run in which one of them never came up shows less than it should, and fails. */
static void report(const struct call *call)
{
    const char *before = ": ";
    printf("%s", call->name);
    for (int answer = 0; answer < KINDS; answer++) {
        if (!(call->answers >> answer & 1))
            continue;
        printf("%s%s %lu", before, names[answer], call->seen[answer]);
        before = ", ";
        if (call->seen[answer] == 0) {
            printf("\nFAILED: an answer of %s never came up\n", call->name);
            exit(1);
        }
    }
    printf("\n");
}

int main(void)
{
    for (size_t n = 1; n <= 40; n++)
        for (size_t k = 1; k <= n; k++)
            try_shape(k, n, 6, 16);
    try_longer();
    try_limits();
    try_lone_overflows();
    report(&writing);
    report(&reading);
    report(&facts);
    report(&entries);
    report_damages();
    printf("read against what was sent: whole %lu, 1 to m - k symbols of a block altered %lu, ", whole, altered_few);
    printf("words of 1 to m - k shadows altered %lu\n", altered_shadows);
    if (whole == 0 || altered_few == 0 || altered_shadows == 0) {
        printf("FAILED: one of these never came up\n");
        return 1;
    }
    printf("bundles: %lu files and %lu damaged bundles, 0 differ\n", sent.number, damaged);
    return 0;
}
