/* make k n FILE BUNDLE: the program behind bundles/make, which makes a bundle of any file with the library. Whatever goes wrong is said in a
 * sentence, with what to do about it. */
#include "sulmirejo.h"

#include <errno.h>
#include <stdio.h>
#include <stdlib.h>
#include <string.h>

/* What the listing program serves: bytes of a bundle, n, bytes of a file. */
enum { BUNDLE_SERVED = 24576, N_SERVED = 256, FILE_SERVED = 24576 };

static void *find_memory(size_t count, size_t size)
{
    void *memory = calloc(count, size);
    if (memory == NULL) {
        fprintf(stderr, "there is no memory for %zu times %zu bytes: end other programs\n", count, size);
        exit(1);
    }
    return memory;
}

/* A whole number as it is written by people, at most seven digits of it. */
static int is_number(const char *word, size_t *number)
{
    const size_t digits = strspn(word, "0123456789");
    *number = strtoul(word, NULL, 10);
    return digits > 0 && digits <= 7 && word[digits] == '\0';
}

/* Reads the file, one byte more than may be at most, and gives how many bytes that is. */
static size_t read_file(const char *path, uint8_t *file)
{
    FILE *stream = fopen(path, "rb");
    if (stream != NULL) {
        const size_t length = fread(file, 1, SULMIREJO_LONGEST_FILE + 1, stream);
        if (!ferror(stream)) {
            fclose(stream);
            return length;
        }
    }
    fprintf(stderr, "%s cannot be read: %s\n", path, strerror(errno));
    exit(1);
}

static void save(const char *path, const uint8_t *bundle, size_t length)
{
    FILE *stream = fopen(path, "wb");
    if (stream == NULL || fwrite(bundle, 1, length, stream) != length || fclose(stream) != 0) {
        fprintf(stderr, "%s cannot be written: %s\n", path, strerror(errno));
        exit(1);
    }
}

/* A bundle is refused for its sizes alone: which of them, and what would do. */
static const char *what_to_change(size_t k, size_t n, size_t length)
{
    if (k == 0)
        return "k is 0: take 1 or more";
    if (n > SULMIREJO_LONGEST)
        return "n is above 4096: take 4096 or less";
    if (k > n)
        return "k is above n: take a k up to n";
    if (length > SULMIREJO_LONGEST_FILE)
        return "the file is longer than 1,048,576 bytes: cut it in parts";
    return "the file makes more than 65,535 blocks of 2k bytes: take a larger k";
}

static void report(size_t k, size_t n, const char *path, size_t length, const char *bundle_path, size_t bundle_length)
{
    printf("%s: %zu bytes, ", bundle_path, bundle_length);
    printf("%zu shadows of the %zu bytes of %s, any %zu of which bring it back\n", n, length, path, k);
    if (n > N_SERVED || bundle_length > BUNDLE_SERVED || length > FILE_SERVED) {
        printf("the listing program will answer ROOM for it (REFUSED 3 0): ");
        printf("it serves bundles and files of up to 24,576 bytes each, and n up to 256\n");
    }
}

int main(int count, char **words)
{
    size_t k, n, room = 0, work_room = 0, number = 0;
    if (count != 5 || !is_number(words[1], &k) || !is_number(words[2], &n)) {
        fprintf(stderr, "usage: make k n FILE BUNDLE, k and n being whole numbers\n");
        return 2;
    }
    uint8_t *file = find_memory(SULMIREJO_LONGEST_FILE + 1, 1);
    const size_t length = read_file(words[3], file);
    if (sulmirejo_write_room(k, n, length, &room, &work_room, &number) != SULMIREJO_OK) {
        fprintf(stderr, "no bundle is made: %s\n", what_to_change(k, n, length));
        return 1;
    }
    uint8_t *bundle = find_memory(room, 1);
    uint32_t *work = find_memory(work_room, sizeof *work);
    const uint32_t status = sulmirejo_write(k, n, file, length, bundle, room, work, work_room, &number);
    if (status != SULMIREJO_OK) {
        fprintf(stderr, "no bundle is made: the library refuses by %u, with the room that it asked for\n", (unsigned)status);
        return 1;
    }
    save(words[4], bundle, number);
    report(k, n, words[3], length, words[4], number);
    return 0;
}
