/* The times of the library that stand beside other coders' times: a file's bundle written, and the file read from a bundle that holds the
 * shadows at the even positions. Prints milliseconds. */
#include "clock.h"
#include "job.h"

#include <stdio.h>
#include <stdlib.h>

enum { MOST = 1048576 };

static double time_of(struct job *job)
{
    struct best best = {0, 0, 0, 0};
    while (again(&best)) {
        start(&best);
        job_call(job);
        stop(&best);
        if (!job_is_right(job)) {
            fprintf(stderr, "timed: a wrong answer with k %zu and n %zu\n", job->k, job->n);
            exit(1);
        }
    }
    return best.least;
}

/* The whole blocks of a file, and how many they are. */
static const uint8_t *content_of(const char *path, size_t block_len, size_t *blocks)
{
    static uint8_t content[MOST];
    FILE *file = fopen(path, "rb");
    if (file == NULL) {
        fprintf(stderr, "timed: %s cannot be opened\n", path);
        exit(1);
    }
    *blocks = fread(content, 1, MOST, file) / block_len;
    fclose(file);
    return content;
}

int main(int count, char **words)
{
    struct job job = {.kind = ALL};
    const uint8_t *content;
    if (count != 5 || ((job.call = call_named(words[1])) != WRITE && job.call != READ)) {
        fprintf(stderr, "usage: timed write|read K N FILE\n");
        return 2;
    }
    job.k = strtoul(words[2], NULL, 10);
    job.n = strtoul(words[3], NULL, 10);
    if (job.k == 0 || job.k * 2 != job.n || job.n > 4096) {
        fprintf(stderr, "timed: K is half of N, and N up to 4096\n");
        return 2;
    }
    if (job.call == READ)
        job.kind = EVEN;
    content = content_of(words[4], 2 * job.k, &job.blocks);
    job_prepare(&job, content);
    printf("%.3f\n", time_of(&job));
    return 0;
}
