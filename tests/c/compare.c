/* The library held against the second coder on many calls that look random and are the same in each run: all shapes up to n = 64 and some
 * longer ones, with good and damaged lists and up to three faults at once. The second coder is run on what the lent cells are due to hold, so
 * every cell, the number and the guards are compared. Apart from it, decode is held against what was sent. */
#include "lent.h"
#include "second.h"
#include "sulmirejo.h"

#include <stdio.h>
#include <stdlib.h>
#include <string.h>

enum { LONGEST = 4096, KINDS = DISAGREE + 1 };

static const uint32_t P = 65537;
static const char *const names[KINDS] = {"OK", "SHAPE", "LENGTH", "ROOM", "FEW", "POSITION", "REPEAT", "VALUE", "DISAGREE"};

/* The faults that a call can have, by the number of the refusal that each leads to where it stands alone. DISAGREE stands for altered symbols,
 * which need not lead to it: another message may fit. */
struct call {
    const char *name;
    size_t faults;
    int fault[DISAGREE];
    unsigned long seen[KINDS], together[KINDS][KINDS];
};

static struct call encode = {"encode", 4, {SHAPE, LENGTH, ROOM, VALUE}, {0}, {{0}}};
static struct call decode = {"decode", 8, {SHAPE, LENGTH, ROOM, FEW, POSITION, REPEAT, VALUE, DISAGREE}, {0}, {{0}}};
static unsigned long calls, unaltered, altered_few, altered_many;

/* One call: the sizes as they are passed, and a bit for each fault that was put in. The lengths of the lists are the buffers' rooms. */
struct trial {
    struct call *call;
    size_t k, n;
    unsigned faults;
};

static struct lent message, positions, values, out, work;

/* What was sent: a good message of k symbols and its code word of length n. */
static struct {
    size_t k, n;
    uint32_t message[LONGEST], word[LONGEST];
} sent;

static int has(const struct trial *trial, int fault)
{
    return trial->faults >> fault & 1;
}

static void print_list(const char *name, struct lent *buffer)
{
    printf("  %s, %zu:", name, buffer->room);
    for (size_t i = 0; i < buffer->room && i < 100; i++)
        printf(" %u", (unsigned)due_of(buffer)[i]);
    printf(buffer->room > 100 ? " ..\n" : "\n");
}

/* Says which call it was and ends the program. */
static void differs(const struct trial *trial, const char *what, long at)
{
    printf("DIFFERS: call %lu, %s of k %zu, n %zu", calls, trial->call->name, trial->k, trial->n);
    printf(", room %zu and %zu: %s, %ld\n", out.room, work.room, what, at);
    if (trial->call == &encode) {
        print_list("message", &message);
    } else {
        print_list("positions", &positions);
        print_list("values", &values);
    }
    exit(1);
}

static void hold_buffer(const struct trial *trial, struct lent *buffer, const char *what)
{
    long at = 0;
    if (!holds_its_due(buffer, &at)) {
        printf("%s cell %ld holds %u, due is %u\n", what, at, (unsigned)lend(buffer)[at], (unsigned)due_of(buffer)[at]);
        differs(trial, what, at);
    }
}

/* Holds the library's answer and every lent cell against the second coder's, and counts the call. */
static void hold(const struct trial *trial, uint32_t status, struct second_answer due)
{
    calls++;
    if (status != due.status) {
        printf("the library answers %u, due is %u\n", (unsigned)status, (unsigned)due.status);
        differs(trial, "status", (long)status);
    }
    if (number_written() != due.place || !number_guards_hold()) {
        printf("the number is %zu, due is %zu\n", number_written(), due.place);
        differs(trial, "number or its guards", (long)number_written());
    }
    hold_buffer(trial, &message, "message");
    hold_buffer(trial, &positions, "positions");
    hold_buffer(trial, &values, "values");
    hold_buffer(trial, &out, "output");
    hold_buffer(trial, &work, "working space");
    trial->call->seen[status]++;
    for (int one = SHAPE; one < KINDS; one++)
        for (int other = SHAPE; other < one; other++)
            trial->call->together[other][one] += has(trial, one) && has(trial, other);
}

static void remember_all(void)
{
    remember(&message);
    remember(&positions);
    remember(&values);
    remember(&out);
    remember(&work);
}

static uint32_t run_encode(const struct trial *trial)
{
    uint32_t status;
    struct second_answer due;
    remember_all();
    due = second_encode(trial->k, trial->n, lend(&message), message.room, due_of(&out), out.room, due_of(&work), work.room);
    status = sulmirejo_encode(trial->k, trial->n, lend(&message), message.room, lend(&out), out.room, lend(&work), work.room, lend_number());
    hold(trial, status, due);
    return status;
}

static uint32_t run_decode(const struct trial *trial)
{
    uint32_t status;
    struct second_answer due;
    remember_all();
    due = second_decode(trial->k, trial->n, lend(&positions), positions.room, lend(&values), values.room, due_of(&out), out.room,
                        due_of(&work), work.room);
    status = sulmirejo_decode(trial->k, trial->n, lend(&positions), positions.room, lend(&values), values.room, lend(&out), out.room,
                              lend(&work), work.room, lend_number());
    hold(trial, status, due);
    return status;
}

/* k and n of which one is refused, also such as would be good where only their lower bits are looked at. */
static void spoil_shape(struct trial *trial)
{
    const size_t k = trial->k, n = trial->n, beyond32 = 4294967296u;
    const size_t shapes[][2] = {{0, n}, {0, 0}, {n + 1, n}, {n + 1 + below(100), n}, {k, 4097}, {k, 4097 + below(4096)}, {k, SIZE_MAX},
                                {SIZE_MAX, SIZE_MAX}, {k, beyond32 + n}, {beyond32 + k, n}, {k, 0}};
    const size_t *shape = shapes[below(sizeof shapes / sizeof *shapes)];
    trial->k = shape[0];
    trial->n = shape[1];
}

static size_t other_length(size_t length)
{
    const size_t longer = length + 1 + (below(2) ? 0 : below(9));
    return length == 0 || below(2) ? longer : below(2) ? length - 1 : below(length);
}

static size_t less_than(size_t needed)
{
    return needed == 0 ? 0 : below(2) ? needed - 1 : below(needed);
}

static size_t at_least(size_t needed)
{
    return needed + (below(2) ? 0 : below(2) ? below(4) : below(60));
}

/* Rooms for a call that needs so much, or too little of the one, the other or both. */
static void lend_room(const struct trial *trial, size_t out_needed, size_t work_needed)
{
    size_t which = has(trial, ROOM) ? 1 + below(3) : 0;
    fill_with_junk(&out, which & 1 ? less_than(out_needed) : at_least(out_needed));
    fill_with_junk(&work, which & 2 ? less_than(work_needed) : at_least(work_needed));
}

/* A size as it is passed, or the good one where it is beyond all rooms. */
static size_t within(size_t passed, size_t good)
{
    return passed <= 2 * LONGEST ? passed : good;
}

static uint32_t bad_value(uint32_t right)
{
    const uint32_t bad[] = {65537, 65538, 131072, 4294967295u, right + 65537, 65537 + junk() % 65537, 65537 + junk() % 4294901759u};
    return bad[below(sizeof bad / sizeof *bad)];
}

/* One or two values of the list that are no symbols. An empty list cannot have the fault. */
static void spoil_values(struct trial *trial, struct lent *list)
{
    if (list->room == 0)
        trial->faults &= ~(1u << VALUE);
    for (size_t left = list->room == 0 ? 0 : 1 + below(2); left > 0; left--) {
        size_t at = below(list->room);
        lend(list)[at] = bad_value(lend(list)[at] % P);
    }
}

/* Encodes the sent message, with these faults. */
static void try_encode(unsigned faults)
{
    struct trial trial = {&encode, sent.k, sent.n, faults};
    size_t length;
    if (has(&trial, SHAPE))
        spoil_shape(&trial);
    length = within(trial.k, sent.k);
    fill_with_junk(&message, has(&trial, LENGTH) ? other_length(length) : length);
    lend_room(&trial, within(trial.n, sent.n), 2 * second_size(within(trial.n, sent.n)));
    for (size_t i = 0; i < message.room; i++)
        lend(&message)[i] = i < sent.k ? sent.message[i] : junk() % P;
    if (has(&trial, VALUE))
        spoil_values(&trial, &message);
    run_encode(&trial);
}

/* How many symbols are received: from k - 1 to n, and more than n where the list is to be refused for it. The second coder needs m * k * k
 * steps, which bounds m for long blocks. */
static size_t pick_count(const struct trial *trial)
{
    const size_t k = sent.k, n = sent.n, afford = 50000000 / (k * k), most = afford < k ? k : least(n, afford);
    if (has(trial, FEW))
        return less_than(k);
    if ((has(trial, POSITION) || has(trial, REPEAT)) && below(3) == 0)
        return n + 1 + below(n + 5);
    switch (below(has(trial, DISAGREE) ? 9 : 4)) {
    case 0:
        return k;
    case 1:
        return least(k + 1, most);
    case 2:
        return most;
    default:
        return k + below(most - k + 1);
    }
}

/* Different positions in junk order, with the symbols that were sent there. Behind n of them come repeats, or positions from n on. */
static void receive(const struct trial *trial)
{
    static uint32_t order[LONGEST];
    shuffle(order, sent.n);
    for (size_t j = 0; j < positions.room; j++)
        lend(&positions)[j] = j < sent.n ? order[j] : has(trial, REPEAT) ? order[below(sent.n)] : (uint32_t)j;
    for (size_t j = 0; j < values.room; j++) {
        size_t position = j < positions.room ? lend(&positions)[j] : SIZE_MAX;
        lend(&values)[j] = position < sent.n ? sent.word[position] : junk() % P;
    }
}

static void change(size_t j, uint32_t difference)
{
    lend(&values)[j] = (lend(&values)[j] + difference) % P;
}

static void alter_some(size_t count, size_t m)
{
    static uint32_t order[2 * LONGEST + 100];
    shuffle(order, m);
    for (size_t i = 0; i < count; i++)
        change(order[i], below(3) == 0 ? 1 : 1 + junk() % 65536);
}

/* Adds a multiple of one power to all m, so that a polynomial fits which is no message where the power is k or more. */
static void add_power(size_t power, uint64_t factor, size_t m)
{
    for (size_t j = 0; j < m; j++) /* the power of a point r^i is r^(i*power) */
        change(j, (uint32_t)(factor * second_point(sent.n, lend(&positions)[j] * power) % P));
}

/* Turns the symbols into those of another message, the nearest there is: it has the first k - 1 of them too. */
static void take_nearest(size_t m)
{
    static uint32_t points[LONGEST];
    const uint64_t factor = 1 + below(65536);
    for (size_t j = 0; j < m; j++)
        points[j] = second_point(sent.n, lend(&positions)[j]);
    for (size_t j = sent.k - 1; j < m; j++) {
        uint64_t product = factor;
        for (size_t i = 0; i < sent.k - 1; i++)
            product = product * (points[j] + P - points[i]) % P;
        change(j, (uint32_t)product);
    }
}

/* Alters m good symbols, m being at least k, by rules that a careless decoder might not see: so that another message fits, by two differences
 * that cancel in a sum, by the power k, by another power, or by two of them whose factors cancel. */
static void alter_by_rule(size_t m)
{
    const size_t spare = m - sent.k, kind = below(5), first = below(m);
    const uint32_t factor = 1 + junk() % 65536;
    if (kind == 0 || spare == 0) {
        take_nearest(m);
    } else if (kind == 1) {
        change(first, factor);
        change((first + 1 + below(m - 1)) % m, P - factor);
    } else {
        add_power(kind == 2 ? sent.k : sent.k + below(spare + 1), factor, m);
        if (kind == 4)
            add_power(sent.k + below(spare + 1), P - factor, m);
    }
}

/* Alters one of m symbols, up to m - k, exactly m - k, or more. */
static void alter_by_count(size_t m)
{
    const size_t spare = m > sent.k ? m - sent.k : 0, kind = below(4);
    if (kind == 0)
        alter_some(spare + 1 + below(m - spare), m);
    else if (kind == 1 || spare == 0)
        alter_some(1, m);
    else
        alter_some(kind == 2 ? spare : 1 + below(spare), m);
}

static size_t count_altered(void)
{
    size_t count = 0;
    for (size_t j = 0; j < positions.room; j++)
        count += lend(&values)[j] != sent.word[lend(&positions)[j]];
    return count;
}

static void spoil_positions(struct trial *trial)
{
    const uint32_t n = (uint32_t)sent.n, size = (uint32_t)second_size(n);
    if (positions.room == 0)
        trial->faults &= ~(1u << POSITION);
    for (size_t left = positions.room == 0 ? 0 : 1 + below(2); left > 0; left--) {
        const uint32_t bad[] = {n, n + 1, n < size ? size - 1 : size, size, 65536, 65536 + junk() % n, 2147483648u, 4294967295u,
                                n + junk() % 65537};
        lend(&positions)[below(positions.room)] = bad[below(sizeof bad / sizeof *bad)];
    }
}

/* One or two positions that stand earlier, half of them with the symbol that stands there too. A position outside the code word is not lost by
 * it, but stands earlier too. */
static void spoil_by_repeats(struct trial *trial)
{
    if (positions.room < 2)
        trial->faults &= ~(1u << REPEAT);
    for (size_t left = positions.room < 2 ? 0 : 1 + below(2); left > 0; left--) {
        size_t at = 1 + below(positions.room - 1), earlier = below(at);
        if (lend(&positions)[at] < sent.n)
            lend(&positions)[at] = lend(&positions)[earlier];
        else
            lend(&positions)[earlier] = lend(&positions)[at];
        if (at < values.room && below(2))
            lend(&values)[at] = lend(&values)[earlier];
    }
}

/* Apart from the second coder: what was sent comes back where nothing is altered. Where 1 to m - k symbols are, no message may come back: the
 * sent one does not fit all, and any other has at most k - 1 symbols in common with it. */
static void hold_against_sent(const struct trial *trial, uint32_t status)
{
    const size_t altered = count_altered();
    if (altered == 0) {
        unaltered++;
        if (status != SULMIREJO_OK || memcmp(lend(&out), sent.message, sent.k * sizeof *sent.message) != 0)
            differs(trial, "the sent message does not come back", 0);
    } else if (altered <= positions.room - sent.k) {
        altered_few++;
        if (status != SULMIREJO_DISAGREE)
            differs(trial, "at most m - k symbols are altered, and it is not seen", (long)altered);
    } else {
        altered_many++;
    }
}

/* Decodes symbols of the sent code word, with these faults. */
static void try_decode(unsigned faults)
{
    struct trial trial = {&decode, sent.k, sent.n, faults};
    size_t m = pick_count(&trial);
    uint32_t status;
    fill_with_junk(&positions, m);
    fill_with_junk(&values, has(&trial, LENGTH) ? other_length(m) : m);
    receive(&trial);
    m = least(positions.room, values.room);
    if (m == 0)
        trial.faults &= ~(1u << DISAGREE);
    if (trial.faults == 1u << DISAGREE && below(2))
        alter_by_rule(m);
    else if (has(&trial, DISAGREE))
        alter_by_count(m);
    if (has(&trial, POSITION))
        spoil_positions(&trial);
    if (has(&trial, REPEAT))
        spoil_by_repeats(&trial);
    if (has(&trial, VALUE))
        spoil_values(&trial, &values);
    if (has(&trial, SHAPE))
        spoil_shape(&trial);
    lend_room(&trial, within(trial.k, sent.k), 4 * second_size(within(trial.n, sent.n)));
    status = run_decode(&trial);
    if (faults == 0 || faults == 1u << DISAGREE)
        hold_against_sent(&trial, status);
}

/* A message of junk, of 65536, of numbers at the ends, of one number among zeros, or one of whose symbols 65536 is sent. */
static void choose_message(size_t k, size_t n)
{
    static const uint32_t ends[] = {0, 1, 65535, 65536};
    const size_t kind = below(7), only = below(k);
    sent.k = k;
    sent.n = n;
    for (size_t i = 0; i < k; i++)
        sent.message[i] = kind == 0 ? 65536 : kind == 1 ? ends[below(4)] : kind == 2 && i != only ? 0 : junk() % P;
    if (kind >= 4) {
        uint32_t symbol = second_value(sent.message, k, second_point(n, below(n)));
        sent.message[0] = (sent.message[0] + 65536 + P - symbol) % P;
    }
}

/* Chooses so many different faults of a call. */
static unsigned choose_faults(const struct call *call, size_t count)
{
    uint32_t order[DISAGREE] = {0};
    unsigned faults = 0;
    shuffle(order, call->faults);
    for (size_t i = 0; i < count; i++)
        faults |= 1u << call->fault[order[i]];
    return faults;
}

static void send_word(size_t k, size_t n)
{
    choose_message(k, n);
    try_encode(0);
    memcpy(sent.word, lend(&out), n * sizeof *sent.word);
}

/* In each round a message is encoded, its code word decoded, and the message encoded again with faults. The first decoding has no faults, the
 * next two have altered symbols only, the others one, two and three faults. */
static void try_shape(size_t k, size_t n)
{
    static const size_t faults[] = {0, 0, 0, 1, 2, 2, 3};
    for (size_t round = 0; round < sizeof faults / sizeof *faults; round++) {
        send_word(k, n);
        try_decode(round == 1 || round == 2 ? 1u << DISAGREE : choose_faults(&decode, faults[round]));
        try_encode(choose_faults(&encode, faults[round] == 0 ? 1 : faults[round]));
    }
}

/* Longer blocks, with k as large as the second coder can do without delay. The longest ones are only encoded. */
static void try_longer(void)
{
    static const size_t lengths[] = {65, 96, 127, 128, 129, 200, 255, 256, 257, 500, 511, 512, 513, 1000, 1023, 1024, 1025, 2047, 2048, 2049,
                                     3000, 4095, 4096, 4096, 4096};
    for (size_t i = 0; i < sizeof lengths / sizeof *lengths; i++) {
        try_shape(1 + below(3), lengths[i]);
        try_shape(1 + below(60), lengths[i]);
        try_shape(1 + below(least(lengths[i], 400)), lengths[i]);
        if (lengths[i] <= 129)
            try_shape(lengths[i], lengths[i]);
    }
    send_word(1000, LONGEST);
    send_word(LONGEST - 1, LONGEST - 1);
    send_word(LONGEST, LONGEST);
}

/* Prints how often each answer of a call was seen, and how often the rarest two faults were put in at once. A run in which one of them never
 * came up shows less than it should, and fails. */
static void report(const struct call *call)
{
    unsigned long rarest = calls, seldom = call->seen[OK];
    printf("%s: OK %lu", call->name, call->seen[OK]);
    for (size_t i = 0; i < call->faults; i++) {
        const int fault = call->fault[i];
        printf(", %s %lu", names[fault], call->seen[fault]);
        seldom = least(seldom, call->seen[fault]);
        for (size_t j = 0; j < i; j++)
            rarest = least(rarest, call->together[call->fault[j]][fault]);
    }
    printf("; each two faults at once in %lu calls or more\n", rarest);
    if (seldom == 0 || rarest == 0) {
        printf("FAILED: an answer of %s or two of its faults never came up\n", call->name);
        exit(1);
    }
}

int main(void)
{
    for (size_t n = 1; n <= 64; n++)
        for (size_t k = 1; k <= n; k++)
            try_shape(k, n);
    try_longer();
    report(&encode);
    report(&decode);
    printf("decode of good lists: none altered %lu, 1 to m - k altered %lu, more altered %lu\n", unaltered, altered_few, altered_many);
    if (unaltered == 0 || altered_few == 0 || altered_many == 0) {
        printf("FAILED: one of these never came up\n");
        return 1;
    }
    printf("compare: %lu calls, 0 differ\n", calls);
    return 0;
}
