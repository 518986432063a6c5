/* Processes, pipes and files for the listing program: see started.h. */
#define _GNU_SOURCE /* pipe2 */
#include "started.h"

#include <fcntl.h>
#include <signal.h>
#include <stdio.h>
#include <stdlib.h>
#include <sys/ioctl.h>
#include <sys/socket.h>
#include <sys/wait.h>
#include <time.h>
#include <unistd.h>

enum { CLOSED = -1, MOST_SECONDS = 60 };

static char **command;
static struct printed printed;

void set_command(char **words)
{
    command = words;
}

static void must(int held, const char *what)
{
    if (!held) {
        perror(what);
        exit(1);
    }
}

static void wait_a_while(long microseconds)
{
    const struct timespec pause = {microseconds / 1000000, microseconds % 1000000 * 1000};
    nanosleep(&pause, NULL);
}

/* Starts the program with these as its standard input and output. */
static pid_t start(int input, int output)
{
    const pid_t program = fork();
    must(program >= 0, "fork");
    if (program > 0)
        return program;
    if (input == CLOSED)
        close(STDIN_FILENO);
    else
        must(dup2(input, STDIN_FILENO) == STDIN_FILENO, "dup2");
    must(dup2(output, STDOUT_FILENO) == STDOUT_FILENO, "dup2");
    alarm(MOST_SECONDS); /* it goes on ticking in the program */
    execvp(command[0], command);
    perror(command[0]);
    _exit(127);
}

/* Reads up to the end of what is printed. */
static void collect(int from)
{
    char beyond[4096];
    ssize_t count = 1;
    printed.length = 0;
    while (count > 0) {
        const size_t left = sizeof printed.text - printed.length;
        count = left > 0 ? read(from, printed.text + printed.length, left) : read(from, beyond, sizeof beyond);
        must(count >= 0, "read");
        if (left > 0)
            printed.length += (size_t)count;
    }
    close(from);
}

static void wait_for_end(pid_t program)
{
    int status;
    must(waitpid(program, &status, 0) == program, "waitpid");
    if (WIFSIGNALED(status) || WEXITSTATUS(status) != 0) {
        printf("FAILED: %s could not be started, did not end well, or took more than %d seconds: status %d\n", command[0], MOST_SECONDS, status);
        exit(1);
    }
}

/* Runs the program on an input that is open and gives what it prints. */
static const struct printed *print_from(int input)
{
    int ends[2];
    pid_t program;
    must(pipe2(ends, O_CLOEXEC) == 0, "pipe2");
    program = start(input, ends[1]);
    close(ends[1]);
    collect(ends[0]);
    wait_for_end(program);
    return &printed;
}

/* A file that holds the input, with its front as the place to read from. */
static int file_of(const uint8_t *input, size_t length)
{
    static FILE *file;
    if (file == NULL)
        file = tmpfile();
    must(file != NULL, "tmpfile");
    must(ftruncate(fileno(file), 0) == 0 && pwrite(fileno(file), input, length, 0) == (ssize_t)length, "a temporary file");
    must(lseek(fileno(file), 0, SEEK_SET) == 0, "lseek");
    return fileno(file);
}

const struct printed *print_from_file(const uint8_t *input, size_t length)
{
    return print_from(file_of(input, length));
}

/* A process that writes the pieces. The signal that says that nobody reads any more ends it: the program need not read to the end. */
static pid_t start_writer(const int *ends, const uint8_t *input, size_t length, size_t piece, long pause)
{
    const pid_t writer = fork();
    must(writer >= 0, "fork");
    if (writer > 0)
        return writer;
    close(ends[0]);
    for (size_t at = 0; at < length;) {
        const ssize_t count = write(ends[1], input + at, length - at < piece ? length - at : piece);
        must(count > 0, "write");
        at += (size_t)count;
        wait_a_while(pause);
    }
    _exit(0);
}

const struct printed *print_from_pieces(const uint8_t *input, size_t length, size_t piece, long pause)
{
    int ends[2];
    pid_t writer;
    must(pipe2(ends, O_CLOEXEC) == 0, "pipe2");
    writer = start_writer(ends, input, length, piece, pause);
    close(ends[1]);
    print_from(ends[0]);
    close(ends[0]);
    must(waitpid(writer, NULL, 0) == writer, "waitpid");
    return &printed;
}

const struct printed *print_from_closed(void)
{
    return print_from(CLOSED);
}

const struct printed *print_from_folder(void)
{
    const int folder = open("/", O_RDONLY | O_DIRECTORY | O_CLOEXEC);
    must(folder >= 0, "open /");
    print_from(folder);
    close(folder);
    return &printed;
}

/* Fills the socket, then takes out the one piece that lets one piece more in, however long. Gives how many bytes are in it. */
static size_t fill(const int *ends)
{
    const char byte = '.';
    char taken;
    size_t filled = 0;
    while (send(ends[1], &byte, 1, MSG_DONTWAIT) == 1)
        filled++;
    must(filled > 1 && read(ends[0], &taken, 1) == 1, "a full socket");
    return filled - 1;
}

/* Waits until something stands behind the filling, and a little longer, so that the next piece waits too; then stops the program and lets it go
 * on, which wakes it in the middle of its call. Gives how many bytes stood behind the filling by then. */
static size_t wake_in_the_middle(pid_t program, int from, size_t filled)
{
    siginfo_t happened;
    int there = 0;
    for (int tries = 0; tries < 4000 && (size_t)there <= filled; tries++) {
        wait_a_while(2000);
        must(ioctl(from, FIONREAD, &there) == 0, "ioctl");
    }
    wait_a_while(50000);
    must(kill(program, SIGSTOP) == 0, "stop");
    must(waitid(P_PID, (id_t)program, &happened, WSTOPPED | WEXITED | WNOWAIT) == 0, "waitid");
    must(ioctl(from, FIONREAD, &there) == 0, "ioctl");
    must(kill(program, SIGCONT) == 0, "continue");
    return (size_t)there - filled;
}

const struct printed *print_to_slow_reader(const uint8_t *input, size_t length)
{
    const int least_room = 1;
    char filling;
    int ends[2];
    size_t filled, first;
    pid_t program;
    must(socketpair(AF_UNIX, SOCK_STREAM | SOCK_CLOEXEC, 0, ends) == 0, "socketpair");
    must(setsockopt(ends[1], SOL_SOCKET, SO_SNDBUF, &least_room, sizeof least_room) == 0, "setsockopt");
    filled = fill(ends);
    program = start(file_of(input, length), ends[1]);
    close(ends[1]);
    first = wake_in_the_middle(program, ends[0], filled);
    for (; filled > 0; filled--)
        must(read(ends[0], &filling, 1) == 1, "the filling");
    collect(ends[0]);
    wait_for_end(program);
    if (first == 0 || first >= printed.length) {
        printf("FAILED: no write was cut short: of %zu bytes %zu came before the program was woken\n", printed.length, first);
        exit(1);
    }
    return &printed;
}
