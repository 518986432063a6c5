/* Sulmirejo: an erasure coder over the integers modulo 65537, for content that is broadcast one way and cannot be asked for twice.
 *
 * A file, a page for example, becomes a bundle of n shadows (sulmirejo_write), and any k of them bring it back (sulmirejo_read): n - k may
 * be lost. Below that, for a format of your own, k numbers become n (sulmirejo_encode), any k of which bring them back (sulmirejo_decode).
 *
 * This file is the manual. The functions are in libsulmirejo.a, for x86-64 Linux: `scripts/prove sulmirejo` proves the library and writes
 * it to target/staticlib/, and `cc -I include my_shell.c target/staticlib/libsulmirejo.a` links a program with it. Each function is proved
 * to do what is written here, for every argument that the types allow, as long as the caller keeps four rules that no function can test:
 *   - a pointer is not null, not even where its count is 0 (what calloc gives for 0 bytes, or data() of an empty vector, may be null), is
 *   aligned for its type, and points to as many elements as the count behind it says, to one if there is none;
 *   - those elements may be read and, where the pointer is not to const, written;
 *   - they have values: memory that was never written is set first, to anything (that of calloc is);
 *   - what the pointers of one call point to does not overlap, `number` included, and during the call nobody else writes it, nor reads what
 *   the call may write.
 * There is no state: calls may run at the same time in different threads, as long as each keeps the last rule; what calls only read they
 * may share. Nothing is allocated and no lock is taken. No call fails but by a refusal, given the stack that it needs: the deepest call is
 * a small function that calls itself thirteen deep, and the largest array on the stack has 512 bytes.
 *
 * Words that are used below:
 *   - symbol: a whole number from 0 to 65536, kept in a uint32_t, since 65536 does not fit 16 bits;
 *   - message: k symbols; code word: the n symbols that it becomes, 1 <= k <= n <= 4096;
 *   - position: a place in the code word, from 0 to n - 1;
 *   - N: the smallest power of two that is at least n;
 *   - block: 2*k bytes of a file, which are one message; B: how many blocks the file has;
 *   - shadow: the symbols that stand at one position, of all blocks of a file;
 *   - m: how many symbols, or shadows, a call is given;
 *   - working space: numbers that the call uses as it goes along, whatever they held.
 * Counts (k, n, all that end in _len) are counts of elements and not of bytes: a number of a uint32_t list takes four bytes.
 *
 * Every call returns 0 (SULMIREJO_OK), or the number of the refusal. Its last argument, `number`, is always written:
 *   - on success with 0, but by sulmirejo_write with the bundle's length and by sulmirejo_read with the file's;
 *   - on a refusal with its place, which is 0 unless it is stated below: an index into the list that was given, counted from 0, or a block.
 * The checks of a call are made in the order of their numbers, each over the whole list before the next, and the first that fails is the
 * answer; calls that are given a bundle make them in the order that is stated with sulmirejo_read. A refused call writes nothing but
 * `number`, except for DISAGREE, WORD and TAIL, which leave zeros where it is stated below.
 *
 * An example, to stand in a function, with <stdio.h> and <stdlib.h>; tests/c/shell.c is a longer one, in which shadows are lost.
 *
 *     // a page becomes a bundle of 4 shadows, any 2 of which bring it back: ask for the room, find it, lend it
 *     const uint8_t page[5] = {'h', 'e', 'l', 'l', 'o'};
 *     size_t room = 0, work_room = 0, number = 0;
 *     if (sulmirejo_write_room(2, 4, 5, &room, &work_room, &number) != SULMIREJO_OK)
 *         return 1;
 *     uint8_t *bundle = (uint8_t *)calloc(room, 1);
 *     uint32_t *work = (uint32_t *)calloc(work_room, sizeof *work);
 *     if (bundle == NULL || work == NULL)
 *         return 1;
 *     if (sulmirejo_write(2, 4, page, 5, bundle, room, work, work_room, &number) != SULMIREJO_OK)
 *         return 1;
 *     const size_t length = number; // of the bundle, which may be less than the room
 *     free(work);
 *
 *     // the bundle comes in somewhere else, where nothing is known of it: any refusal is an answer to expect
 *     if (sulmirejo_read_room(bundle, length, &room, &work_room, &number) != SULMIREJO_OK)
 *         return 1;
 *     uint8_t *file = (uint8_t *)calloc(room > 0 ? room : 1, 1); // an empty file asks for no room
 *     work = (uint32_t *)calloc(work_room, sizeof *work);
 *     if (file == NULL || work == NULL)
 *         return 1;
 *     uint32_t status = sulmirejo_read(bundle, length, file, room, work, work_room, &number);
 *     if (status == SULMIREJO_OK)
 *         printf("%.*s\n", (int)number, (const char *)file); // prints hello
 *     else if (status == SULMIREJO_FEW)
 *         printf("wait for more shadows\n");
 *     else
 *         printf("refused: %u, place %zu\n", (unsigned)status, number);
 *     free(file);
 *     free(work);
 *     free(bundle);
 *
 *     // one block: symbol 2 is lost, and the other three bring the message back
 *     uint32_t message[2] = {1, 2}, word[4] = {0}, back[2] = {0}, space[16] = {0};
 *     if (sulmirejo_encode(2, 4, message, 2, word, 4, space, 16, &number) != SULMIREJO_OK)
 *         return 1;
 *     uint32_t positions[3] = {3, 1, 0}, values[3] = {word[3], word[1], word[0]};
 *     status = sulmirejo_decode(2, 4, positions, 3, values, 3, back, 2, space, 16, &number);
 *     if (status == SULMIREJO_DISAGREE)
 *         printf("a symbol was altered\n");
 *     else if (status == SULMIREJO_OK)
 *         printf("%u %u\n", (unsigned)back[0], (unsigned)back[1]); // prints 1 2
 */
#ifndef SULMIREJO_H
#define SULMIREJO_H

#include <stddef.h>
#include <stdint.h>

#ifdef __cplusplus
extern "C" {
#endif

/* The refusals. Each function says below which of them it gives, and exactly when. */
#define SULMIREJO_OK 0u
#define SULMIREJO_SHAPE 1u    /* a size that cannot be: k, n, a list's length, a file's */
#define SULMIREJO_LENGTH 2u   /* lists whose lengths do not fit */
#define SULMIREJO_ROOM 3u     /* output or working space too short: the functions that end in _room tell what is asked for */
#define SULMIREJO_FEW 4u      /* fewer symbols, or shadows, than k: with more of them the call can be made again */
#define SULMIREJO_POSITION 5u /* a position outside the code word, an index outside the table */
#define SULMIREJO_REPEAT 6u   /* a position given twice */
#define SULMIREJO_VALUE 7u    /* a number above 65536 */
#define SULMIREJO_DISAGREE 8u /* no message fits all symbols: something was altered */
#define SULMIREJO_WORD 9u     /* a decoded symbol is 65536, which is no word of two bytes */
#define SULMIREJO_TAIL 10u    /* padding that is not zero */
#define SULMIREJO_FORM 11u    /* no bundle: its bytes break the layout in any other way */

/* The limits. */
#define SULMIREJO_MODULUS 65537u        /* symbols are below it */
#define SULMIREJO_LONGEST 4096u         /* the largest n, and the longest list that is transformed */
#define SULMIREJO_LONGEST_FILE 1048576u /* the most bytes of a file in a bundle */
#define SULMIREJO_MOST_BLOCKS 65535u    /* the largest B of a bundle */

/* The evaluation point of a position in a code word of length n: r^position modulo 65537, where N is the smallest power of two that is at
 * least n, and r the root of order N, which is 3^(65536/N) modulo 65537.
 *
 * Refusals: SHAPE for n = 0 and for n above 4096; POSITION, place 0, for a position of n or more.
 * Afterwards: *point holds the point on success, and is as it was on a refusal. */
uint32_t sulmirejo_point(size_t n, size_t position, uint32_t *point, size_t *number);

/* The transform of N = list_len numbers a_0 .. a_(N-1): A_j = sum over i of a_i * r^(i*j) modulo 65537, written in place of the list, where
 * r is the root of order N, 3^(65536/N) modulo 65537. N is 1, 2, 4 up to 4096. The working space is N numbers.
 *
 * Refusals: SHAPE where list_len is 0, above 4096 or no power of two; ROOM where work_len is below list_len; VALUE where a number of the
 * list is above 65536, with the index of the first such number as its place.
 * Afterwards: on success the list holds A_0 .. A_(N-1), the first N numbers of the working space are zero and the later ones as they were.
 * On a refusal list and working space are as they were. */
uint32_t sulmirejo_transform(uint32_t *list, size_t list_len, uint32_t *work, size_t work_len, size_t *number);

/* The inverse of it: a_j = (1/N) * sum over i of A_i * r^(-i*j) modulo 65537, written in place of the list. Each of the two undoes the
 * other. Working space, refusals with their places, and what the buffers hold afterwards are the transform's. */
uint32_t sulmirejo_inverse(uint32_t *list, size_t list_len, uint32_t *work, size_t work_len, size_t *number);

/* The code word of a message: out[i] = s(r^i) modulo 65537 for i = 0 .. n-1, where s(x) = message[0] + message[1]*x + .. +
 * message[k-1]*x^(k-1), N is the smallest power of two that is at least n, and r the root of order N, 3^(65536/N) modulo 65537. Any k of
 * the n symbols, with their positions i, bring the message back. The output is n numbers, the working space 2*N.
 *
 * Refusals: SHAPE where k is 0 or above n, or n above 4096; LENGTH where message_len is not k; ROOM where out_len is below n or work_len
 * below 2*N; VALUE where a number of the message is above 65536, with the index of the first such number as its place.
 * Afterwards: on success the output's first n numbers are the code word and the later ones as they were, the first 2*N numbers of the
 * working space are zero and the later ones as they were. On a refusal output and working space are as they were. */
uint32_t sulmirejo_encode(size_t k, size_t n, const uint32_t *message, size_t message_len, uint32_t *out, size_t out_len, uint32_t *work,
                          size_t work_len, size_t *number);

/* The message of which values[j] is the symbol at positions[j] of the code word, for every j: all m = positions_len symbols are compared,
 * also where k of them would do. Positions may come in any order. Where no message fits all m, the answer is DISAGREE: with at most m - k
 * altered values the result is the message that was sent or DISAGREE, never another. With m = k some message always fits, so that no
 * alteration can be seen: give every symbol that there is. The output is k numbers, the working space 4*N, N being the smallest power of
 * two that is at least n.
 *
 * Refusals: SHAPE where k is 0 or above n, or n above 4096; LENGTH where values_len is not positions_len; ROOM where out_len is below k or
 * work_len below 4*N; FEW where positions_len is below k; POSITION where a position is n or more, REPEAT where a position stands earlier in
 * the list, VALUE where a value is above 65536, each with the first such index as its place; DISAGREE, place 0, where no message fits.
 * Afterwards: on success the output's first k numbers are the message and the later ones as they were, the first 4*N numbers of the working
 * space are zero and the later ones as they were. On DISAGREE the first 4*N numbers of the working space are zero, the later ones and the
 * output as they were. On any other refusal output and working space are as they were. */
uint32_t sulmirejo_decode(size_t k, size_t n, const uint32_t *positions, size_t positions_len, const uint32_t *values, size_t values_len,
                          uint32_t *out, size_t out_len, uint32_t *work, size_t work_len, size_t *number);

/* The bundle of a file: all n shadows of it, of which any k bring the file back. The file is taken as words of two bytes, most significant
 * byte first, padded with zero bytes to whole blocks of 2*k bytes; B is their number, file_len / (2*k) rounded up, so 0 for an empty file.
 * Shadow i holds symbol i of the code word of each block. All numbers of a bundle are most significant byte first:
 *   - the header, 16 bytes: 46 4E 54 42 (hexadecimal), k (2 bytes), n (2), the file's length L (4), the number m held (2), two zero bytes;
 *   - the table, m entries of 8 bytes: position i (2), overflow count c (2), offset of the body from the bundle's start (4);
 *   - the bodies, in the table's order and without gaps, the first at 16 + 8*m, the last up to the bundle's end.
 * Positions rise strictly and are below n. A body has 2*c + 2*B bytes: c block numbers of 2 bytes, rising strictly and below B, those of
 * the blocks whose symbol is 65536; then B words of 2 bytes, one for each block: the symbol, or 00 00 where it is 65536. The writer holds
 * all n shadows. The bundle of fewer is made by copying: the header with another m, their entries with new offsets, their bodies as they
 * are (tests/c/shell.c does it).
 *
 * The output is 16 + 8*n + 4*n*B bytes, however few of them the bundle takes: for a long file about 2*n/k times its length, and the bundle
 * takes about half of that. The working space is 8*N numbers, N being the smallest power of two that is at least n.
 *
 * Refusals: SHAPE where k is 0 or above n, n above 4096, file_len above 1048576 or B above 65535; ROOM where out_len is below 16 + 8*n +
 * 4*n*B or work_len below 8*N.
 * Afterwards: on success *number is the bundle's length, the output's first *number bytes are the bundle and the later ones as they were,
 * also those that the stated output has room for; the first 8*N numbers of the working space are zero and the later ones as they were. On a
 * refusal output and working space are as they were. */
uint32_t sulmirejo_write(size_t k, size_t n, const uint8_t *file, size_t file_len, uint8_t *out, size_t out_len, uint32_t *work,
                         size_t work_len, size_t *number);

/* The file of a bundle, which may hold any m of the n shadows, k or more: the layout above holds for it, but that the word of a listed
 * block is not used and may be anything. All m shadows are compared, also where k of them would do: where the header is as it was written
 * and in each block at most m - k of the m symbols are altered, the answer is the file or a refusal, never another file. With m = k
 * DISAGREE is never given and an alteration may go unseen: keep every shadow that there is. k, n and L are believed as they stand in the
 * header. The output is L bytes, the working space 8*N numbers, N being the smallest power of two that is at least n; sulmirejo_read_room
 * tells both beforehand.
 *
 * Refusals, in this order: FORM where bundle_len is below 16, the first four bytes are others or the last two of the header are not zero;
 * SHAPE where k is 0 or above n, n above 4096, L above 1048576 or B above 65535; FORM for any other breach of the layout; ROOM where
 * out_len is below L or work_len below 8*N; FEW where m is below k, also where L is 0; then block by block DISAGREE where no message fits
 * all m symbols of the block, WORD where a symbol of its message is 65536, also in the padding, TAIL where a byte of the padding is not
 * zero, each with the block as its place.
 * Afterwards: on success *number is L, the output's first L bytes are the file and the later ones as they were, the first 8*N numbers of
 * the working space are zero and the later ones as they were. On DISAGREE, WORD and TAIL the output's first L bytes and the first 8*N
 * numbers of the working space are zero, the later ones as they were. On any other refusal output and working space are as they were. */
uint32_t sulmirejo_read(const uint8_t *bundle, size_t bundle_len, uint8_t *out, size_t out_len, uint32_t *work, size_t work_len,
                        size_t *number);

/* What a bundle's header says: k, n, the file's length L, the number m of shadows held, and B, the number of blocks. The whole layout is
 * tested, the symbols are not looked at, and m may be below k: *held below *k says that sulmirejo_read will answer FEW.
 *
 * Refusals, in this order: FORM, SHAPE and FORM, exactly where sulmirejo_read gives them, each with place 0.
 * Afterwards: on success *k, *n, *length, *held and *blocks hold these numbers, and *number 0. On a refusal the five are as they were. */
uint32_t sulmirejo_facts(const uint8_t *bundle, size_t bundle_len, size_t *k, size_t *n, size_t *length, size_t *held, size_t *blocks,
                         size_t *number);

/* What entry `index` of a bundle's table says, counted from 0 to m - 1: the shadow's position, the offset of its body, its overflow count
 * c. The whole layout is tested, in each call anew.
 *
 * Refusals, in this order: FORM, SHAPE and FORM, exactly where sulmirejo_read gives them; POSITION, place 0, where index is m or more.
 * Afterwards: on success *position, *offset and *count hold these numbers, and *number 0. On a refusal the three are as they were. */
uint32_t sulmirejo_entry(const uint8_t *bundle, size_t bundle_len, size_t index, size_t *position, size_t *offset, size_t *count,
                         size_t *number);

/* How much room a call asks for, so that memory can be found before it: *out_len is the least output and *work_len the least working space
 * with which the call of that name is not refused by ROOM; with less of either it is refused by ROOM, or by LENGTH, which is tested before,
 * where its lists have wrong lengths. sulmirejo_transform_room is for sulmirejo_transform and sulmirejo_inverse, which work in the list
 * itself and ask for working space alone. In elements, and at most:
 *   - transform, inverse: no output; working space list_len, at most 4096;
 *   - encode: output n, at most 4096; working space 2*N, at most 8192;
 *   - decode: output k, at most 4096; working space 4*N, at most 16384;
 *   - write: output 16 + 8*n + 4*n*B bytes, at most 1073758224 (with n = 4096 and B = 65535); working space 8*N, at most 32768;
 *   - read: output L bytes, at most 1048576; working space 8*N, at most 32768.
 *
 * Refusals: those that the call gives for the same k, n, lengths or bundle, whatever it is lent, each with place 0: SHAPE, exactly where
 * the call gives it; sulmirejo_read_room, in this order: FORM, SHAPE and FORM, exactly where sulmirejo_read gives them. FEW is none of
 * them: the room of a bundle with too few shadows is told.
 * Afterwards: on success *out_len and *work_len hold these numbers, and *number 0. On a refusal the two are as they were. */
uint32_t sulmirejo_transform_room(size_t list_len, size_t *work_len, size_t *number);
uint32_t sulmirejo_encode_room(size_t k, size_t n, size_t *out_len, size_t *work_len, size_t *number);
uint32_t sulmirejo_decode_room(size_t k, size_t n, size_t *out_len, size_t *work_len, size_t *number);
uint32_t sulmirejo_write_room(size_t k, size_t n, size_t file_len, size_t *out_len, size_t *work_len, size_t *number);
uint32_t sulmirejo_read_room(const uint8_t *bundle, size_t bundle_len, size_t *out_len, size_t *work_len, size_t *number);

#ifdef __cplusplus
}
#endif

#endif
