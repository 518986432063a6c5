/* Another coder to stand beside: jerasure's matrix code over 16 bits on a file cut into k parts, with n - k parts added, encoded and then
 * decoded with as many data parts lost as there are parts added. The matrix is Cauchy's: encoding costs the same with Vandermonde's, which
 * takes cubic time to make. Prints the milliseconds of making the matrix, of encoding and of decoding, the last one only if it takes no more
 * than LIMIT seconds. */
#include "clock.h"

#include <jerasure.h>
#include <jerasure/cauchy.h>

#include <stdio.h>
#include <stdlib.h>
#include <string.h>

enum { W = 16, MOST = 1048576 };

struct code {
    int k, added, *matrix;
    size_t size;
    char **data, **coding;
};

static void fail(const char *sentence)
{
    fprintf(stderr, "jerasure: %s\n", sentence);
    exit(1);
}

static void *memory(size_t count, size_t size)
{
    void *found = calloc(count + 1, size);
    if (found == NULL)
        fail("no memory");
    return found;
}

static char *content_of(const char *path, size_t *length)
{
    FILE *file = fopen(path, "rb");
    char *bytes = memory(MOST, 1);
    if (file == NULL)
        fail("the file cannot be opened");
    *length = fread(bytes, 1, MOST, file);
    fclose(file);
    return bytes;
}

/* Parts of equal size, one behind the other. */
static char **parts_of(char *bytes, int count, size_t size)
{
    char **parts = memory((size_t)count, sizeof *parts);
    for (int i = 0; i < count; i++)
        parts[i] = bytes + (size_t)i * size;
    return parts;
}

/* Data parts from the front, as many as can be lost, and -1 behind them. */
static int *lost(const struct code *code)
{
    const int count = code->k < code->added ? code->k : code->added;
    int *list = memory((size_t)count, sizeof *list);
    for (int i = 0; i < count; i++)
        list[i] = i;
    list[count] = -1;
    return list;
}

/* A later part may be stopped for taking too long, so what is known is printed at once. */
static void report(const char *what, const struct best *best)
{
    printf("%s %.3f\n", what, best->least);
    fflush(stdout);
}

static void time_matrix(struct code *code)
{
    struct best best = {0, 0, 0, 0};
    start(&best);
    code->matrix = cauchy_original_coding_matrix(code->k, code->added, W);
    stop(&best);
    if (code->matrix == NULL)
        fail("there is no such matrix");
    report("matrix", &best);
}

static void time_encode(const struct code *code)
{
    struct best best = {0, 0, 0, 0};
    while (again(&best)) {
        start(&best);
        jerasure_matrix_encode(code->k, code->added, W, code->matrix, code->data, code->coding, (int)code->size);
        stop(&best);
    }
    report("encode", &best);
}

/* The kernel ends the program when it has used that many seconds more. */
static void limit_rest(const char *seconds)
{
    struct rlimit limit;
    limit.rlim_cur = limit.rlim_max = (rlim_t)(processor_ms() / 1e3 + 1) + strtoul(seconds, NULL, 10);
    if (setrlimit(RLIMIT_CPU, &limit) != 0)
        fail("the time cannot be limited");
}

static void time_decode(const struct code *code)
{
    const size_t length = (size_t)code->k * code->size;
    struct best best = {0, 0, 0, 0};
    char *sent = memory(length, 1);
    int *list = lost(code), status;
    memcpy(sent, code->data[0], length);
    while (again(&best)) {
        for (int i = 0; list[i] != -1; i++)
            memset(code->data[i], 0, code->size);
        start(&best);
        status = jerasure_matrix_decode(code->k, code->added, W, code->matrix, 0, list, code->data, code->coding, (int)code->size);
        stop(&best);
        if (status != 0 || memcmp(sent, code->data[0], length) != 0)
            fail("it does not bring the file back");
    }
    report("decode", &best);
    free(list);
    free(sent);
}

int main(int count, char **words)
{
    struct code code;
    size_t length;
    char *bytes;
    if (count != 5) {
        fprintf(stderr, "usage: jerasure K N FILE LIMIT\n");
        return 2;
    }
    code.k = atoi(words[1]);
    code.added = atoi(words[2]) - code.k;
    bytes = content_of(words[3], &length);
    code.size = code.k > 0 ? length / (size_t)code.k : 0;
    if (code.added <= 0 || code.size % sizeof(long) != 0 || code.size * (size_t)code.k != length)
        fail("the file has to be k parts of a multiple of eight bytes, and n above k");
    code.data = parts_of(bytes, code.k, code.size);
    code.coding = parts_of(memory((size_t)code.added, code.size), code.added, code.size);
    time_matrix(&code);
    time_encode(&code);
    limit_rest(words[4]);
    time_decode(&code);
    return 0;
}
