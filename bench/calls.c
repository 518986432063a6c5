/* A program to count instructions on: it prepares one call of the library and makes it, or does not. The difference of the two runs is the
 * call, and neither the start-up nor the filling nor the comparison is in it. */
#include "job.h"

#include <stdio.h>
#include <stdlib.h>

int main(int count, char **words)
{
    struct job job;
    int made;
    if (count != 7 || (job.call = call_named(words[1])) == CALLS || (job.kind = kind_named(words[4])) == KINDS) {
        fprintf(stderr, "usage: calls transform|inverse|encode|decode|write|read K N even|some|all|fits|over BLOCKS 0|1\n");
        return 2;
    }
    job.k = strtoul(words[2], NULL, 10);
    job.n = strtoul(words[3], NULL, 10);
    job.blocks = strtoul(words[5], NULL, 10);
    made = words[6][0] == '1';
    if (job.k == 0 || job.k > job.n || job.n > 4096 || job.blocks > 1048576 / (2 * job.k)) {
        fprintf(stderr, "calls: K is from 1 to N, N up to 4096, and the blocks are 1048576 bytes at most\n");
        return 2;
    }
    job_prepare(&job, NULL);
    if (made)
        job_call(&job);
    if (!job_is_right(&job) && made) {
        fprintf(stderr, "%s with k %zu, n %zu and %zu blocks gives a wrong answer\n", words[1], job.k, job.n, job.blocks);
        return 1;
    }
    return 0;
}
