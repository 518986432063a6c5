/* The listing program as a process: what stands on its standard input, and what it prints on its standard output. It is apart from the cases so
 * that each of them is tried through the same few ways in. */
#ifndef STARTED_H
#define STARTED_H

#include <stddef.h>
#include <stdint.h>

/* What a run printed. The room is more than any listing takes; the rest of a longer text is left out, so that it differs. */
struct printed {
    size_t length;
    char text[32768];
};

/* The words of the command that starts the program, and a null pointer behind them. */
void set_command(char **words);

/* Each of these runs the program once. A run that a signal ends, or that takes more than a minute, ends this program with a sentence. */

/* The input is a file. */
const struct printed *print_from_file(const uint8_t *input, size_t length);
/* The input comes through a pipe in pieces of so many bytes, with a pause of so many microseconds before each. */
const struct printed *print_from_pieces(const uint8_t *input, size_t length, size_t piece, long pause);
/* Standard input is closed, or is a folder: in both reading fails at once. */
const struct printed *print_from_closed(void);
const struct printed *print_from_folder(void);
/* The input is a file, and the output goes to a reader that takes nothing until the program waits for it, and the program is stopped and goes on
 * then: a call of write that has written a part returns with that part. */
const struct printed *print_to_slow_reader(const uint8_t *input, size_t length);

#endif
