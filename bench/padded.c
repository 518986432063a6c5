/* padded STACK PADDING COMMAND ARG..: becomes the command, with a stack of STACK bytes of which a string in the environment takes PADDING. It
 * is for bench/stack: a shell would have to run on that little stack itself. */
#define _DEFAULT_SOURCE
#include <stdio.h>
#include <stdlib.h>
#include <string.h>
#include <sys/personality.h>
#include <sys/resource.h>
#include <unistd.h>

int main(int count, char **words)
{
    struct rlimit limit;
    char *padding, *environment[2] = {NULL, NULL};
    size_t length;
    if (count < 4) {
        fprintf(stderr, "usage: padded STACK PADDING COMMAND ARG..\n");
        return 2;
    }
    limit.rlim_cur = limit.rlim_max = strtoul(words[1], NULL, 10);
    length = strtoul(words[2], NULL, 10);
    padding = calloc(length + 3, 1);
    /* without a fixed start the kernel leaves up to 8 KiB of the stack unused, other ones in each run */
    if (padding == NULL || personality(ADDR_NO_RANDOMIZE) == -1 || setrlimit(RLIMIT_STACK, &limit) != 0) {
        fprintf(stderr, "padded: the stack cannot be set\n");
        return 2;
    }
    padding[0] = 'P';
    padding[1] = '=';
    memset(padding + 2, 'x', length);
    environment[0] = padding;
    execve(words[3], words + 3, environment);
    fprintf(stderr, "padded: %s cannot be run\n", words[3]);
    return 2;
}
