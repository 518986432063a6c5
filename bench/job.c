/* The counted and timed calls, what they are lent and what is due: see job.h. What is due comes from the second coder of the C tests, or is
 * what was encoded; of a bundle the layout is the second coder's and the symbols are encode's, which is held against the second coder in the
 * tests. Nothing of it is worked out during the call. */
#include "job.h"

#include "lent.h"
#include "second.h"
#include "second_bundle.h"
#include "sulmirejo.h"

#include <stdio.h>
#include <stdlib.h>
#include <string.h>

/* Plain sums are slow: the transform and encode are compared at this many places, the last one and others spread evenly. */
enum { SAMPLES = 8 };

static const char *const calls[CALLS] = {"transform", "inverse", "encode", "decode", "write", "read"};
static const char *const kinds[KINDS] = {"even", "some", "all", "fits", "over"};

static int index_of(const char *name, const char *const *names, int count)
{
    int i = 0;
    while (i < count && strcmp(name, names[i]) != 0)
        i++;
    return i;
}

enum call call_named(const char *name)
{
    return (enum call)index_of(name, calls, CALLS);
}

enum kind kind_named(const char *name)
{
    return (enum kind)index_of(name, kinds, KINDS);
}

static void *memory(size_t count, size_t size)
{
    void *found = calloc(count + 1, size);
    if (found == NULL) {
        fprintf(stderr, "no memory for %zu elements of %zu bytes\n", count, size);
        exit(1);
    }
    return found;
}

static void taken(uint32_t status, const struct job *job)
{
    if (status != SULMIREJO_OK) {
        fprintf(stderr, "%s with k %zu, n %zu and %zu blocks is refused: %u, place %zu\n", calls[job->call], job->k, job->n, job->blocks,
                (unsigned)status, job->number);
        exit(1);
    }
}

static size_t sample(size_t i, size_t count)
{
    return count - 1 - i * count / SAMPLES;
}

/* The due list is the values of the list's polynomial at the sampled places. */
static void due_by_sums(struct job *job, const uint32_t *list, size_t length)
{
    job->due_len = SAMPLES;
    for (size_t i = 0; i < SAMPLES; i++)
        job->due[i] = second_value(list, length, second_point(job->n, sample(i, job->n)));
}

static void encode(struct job *job, const uint32_t *message, uint32_t *word)
{
    taken(sulmirejo_encode(job->k, job->n, message, job->k, word, job->n, job->work, job->work_len, &job->number), job);
}

static void message_of_block(const struct job *job, size_t block, uint32_t *message)
{
    for (size_t i = 0; i < job->k; i++) {
        const uint8_t *word = job->file + (block * job->k + i) * 2;
        message[i] = (uint32_t)word[0] * 256 + word[1];
    }
}

static int has_overflow(const uint32_t *word, size_t n)
{
    for (size_t i = 0; i < n; i++)
        if (word[i] == 65536)
            return 1;
    return 0;
}

/* Fills a block's symbols. Where none may be 65536, its first word is raised until none is, which moves all symbols alike. */
static void encode_block(struct job *job, size_t block, uint32_t *message)
{
    uint32_t *word = job->symbols + block * job->n;
    uint8_t *first = job->file + block * job->k * 2;
    if (job->kind == OVER)
        second_overflow(job->k, job->n, job->file, job->file_len, block, block % job->n);
    for (;;) {
        message_of_block(job, block, message);
        encode(job, message, word);
        if (job->kind != FITS || !has_overflow(word, job->n))
            return;
        first[1]++;
        first[0] = (uint8_t)(first[0] + (first[1] == 0));
    }
}

/* The positions that are held, rising. */
static void hold(struct job *job)
{
    uint8_t *marks = memory(job->n, 1);
    uint32_t *order = memory(job->n, sizeof *order);
    shuffle(order, job->n);
    for (size_t i = 0; i < job->k; i++)
        marks[order[i]] = 1;
    for (size_t i = 0; i < job->n; i++)
        if ((job->kind == EVEN && i % 2 == 0) || (job->kind == SOME && marks[i]) || job->kind >= ALL)
            job->positions[job->held++] = (uint32_t)i;
    free(order);
    free(marks);
}

static void prepare_list(struct job *job)
{
    for (size_t i = 0; i < job->n; i++)
        job->list[i] = junk() % 65537;
    if (job->call == TRANSFORM) {
        due_by_sums(job, job->list, job->n);
        return;
    }
    job->due_len = job->n;
    memcpy(job->due, job->list, job->n * sizeof *job->list);
    taken(sulmirejo_transform(job->list, job->n, job->work, job->work_len, &job->number), job);
}

static void prepare_block(struct job *job)
{
    for (size_t i = 0; i < job->k; i++)
        job->list[i] = junk() % 65537;
    if (job->call == ENCODE) {
        due_by_sums(job, job->list, job->k);
        return;
    }
    job->due_len = job->k;
    memcpy(job->due, job->list, job->k * sizeof *job->list);
    encode(job, job->list, job->symbols);
    for (size_t i = 0; i < job->held; i++)
        job->values[i] = job->symbols[job->positions[i]];
}

static void prepare_bundle(struct job *job)
{
    for (size_t block = 0; block < job->blocks; block++)
        encode_block(job, block, job->list);
    job->bytes_len = 16 + 8 * job->n + 4 * job->n * job->blocks;
    job->bytes = memory(job->bytes_len, 1);
    job->bundle = memory(job->bytes_len, 1);
    job->bundle_len = second_lay_out(job->k, job->n, job->file_len, job->positions, job->held, job->symbols, job->bundle);
}

void job_prepare(struct job *job, const uint8_t *content)
{
    const size_t n = job->n;
    job->held = job->due_len = job->bundle_len = job->bytes_len = job->number = 0;
    job->file_len = job->blocks * 2 * job->k;
    job->work_len = 8 * second_size(n);
    job->list = memory(n, sizeof *job->list);
    job->due = memory(n + SAMPLES, sizeof *job->due);
    job->positions = memory(n, sizeof *job->positions);
    job->values = memory(n, sizeof *job->values);
    job->out = memory(n, sizeof *job->out);
    job->work = memory(job->work_len, sizeof *job->work);
    job->symbols = memory(n * (job->blocks + 1), sizeof *job->symbols);
    job->file = memory(job->file_len, 1);
    job->bundle = job->bytes = NULL;
    for (size_t i = 0; i < job->file_len; i++)
        job->file[i] = content == NULL ? (uint8_t)junk() : content[i];
    hold(job);
    if (job->call < ENCODE)
        prepare_list(job);
    else if (job->call < WRITE)
        prepare_block(job);
    else
        prepare_bundle(job);
}

void job_call(struct job *job)
{
    uint32_t status = SULMIREJO_OK;
    size_t *number = &job->number;
    switch (job->call) {
    case TRANSFORM:
        status = sulmirejo_transform(job->list, job->n, job->work, job->work_len, number);
        break;
    case INVERSE:
        status = sulmirejo_inverse(job->list, job->n, job->work, job->work_len, number);
        break;
    case ENCODE:
        status = sulmirejo_encode(job->k, job->n, job->list, job->k, job->out, job->n, job->work, job->work_len, number);
        break;
    case DECODE:
        status = sulmirejo_decode(job->k, job->n, job->positions, job->held, job->values, job->held, job->out, job->k, job->work,
                                  job->work_len, number);
        break;
    case WRITE:
        status = sulmirejo_write(job->k, job->n, job->file, job->file_len, job->bytes, job->bytes_len, job->work, job->work_len, number);
        break;
    default:
        status = sulmirejo_read(job->bundle, job->bundle_len, job->bytes, job->bytes_len, job->work, job->work_len, number);
    }
    taken(status, job);
}

int job_is_right(const struct job *job)
{
    const int reads = job->call == READ, sampled = job->call == TRANSFORM || job->call == ENCODE;
    const uint32_t *list = job->call <= INVERSE ? job->list : job->out;
    const uint8_t *bytes = reads ? job->file : job->bundle;
    const size_t bytes_len = job->call < WRITE ? 0 : reads ? job->file_len : job->bundle_len;
    uint32_t differs = bytes_len != job->number;
    for (size_t i = 0; i < job->due_len; i++)
        differs |= list[sampled ? sample(i, job->n) : i] ^ job->due[i];
    for (size_t i = 0; i < bytes_len; i++)
        differs |= bytes[i] ^ job->bytes[i];
    return differs == 0;
}
