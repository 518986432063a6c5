/* One call of the library with all that it is lent, and with the result that is due: what is counted (calls.c) and what is timed (timed.c) is
 * the same call on the same buffers, and neither is worth a figure if its answer is wrong. */
#ifndef JOB_H
#define JOB_H

#include <stddef.h>
#include <stdint.h>

enum call { TRANSFORM, INVERSE, ENCODE, DECODE, WRITE, READ, CALLS };

/* What decode and read are given: the even positions, k positions without a pattern, or all. What write is given: blocks of which no symbol is
 * 65536, or blocks of which one is. The other calls take any of them. */
enum kind { EVEN, SOME, ALL, FITS, OVER, KINDS };

/* The file has blocks * 2 * k bytes. A call's result stands in `list` for the transforms, in `out` for a block, in `bytes` for a bundle or a
 * file. What is due stands in `due`, in `bundle` or in `file`. */
struct job {
    enum call call;
    enum kind kind;
    size_t k, n, blocks, held, file_len, bundle_len, bytes_len, due_len, work_len, number;
    uint32_t *list, *due, *positions, *values, *out, *work, *symbols;
    uint8_t *file, *bundle, *bytes;
};

/* The index of a name in its list, or how many there are if it is none of them. */
enum call call_named(const char *name);
enum kind kind_named(const char *name);

/* Allocates and fills everything. The bytes of the file are those at `content`, or the same junk in each run if it is null; where the kind says
 * so, its blocks' first words are changed. */
void job_prepare(struct job *job, const uint8_t *content);

/* The call itself. A refusal ends the program with a sentence. */
void job_call(struct job *job);

/* Whether the result is the due one. It costs the same whatever is found, so that a run without the call can be taken off a run with it. */
int job_is_right(const struct job *job);

#endif
