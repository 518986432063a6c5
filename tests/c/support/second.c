/* The second coder, from document 01 alone: see second.h. Where two ways are open it takes the plainer one, so that a reader can hold it
 * against the document line by line. */
#include "second.h"

#include <stdio.h>
#include <stdlib.h>
#include <string.h>

static const uint32_t P = 65537;

/* The field. A product of two symbols may be 2^32, so it is taken in 64 bits. */
static uint32_t plus(uint32_t a, uint32_t b)
{
    return (a + b) % P;
}

static uint32_t times(uint32_t a, uint32_t b)
{
    return (uint32_t)((uint64_t)a * b % P);
}

static uint32_t to_the(uint32_t x, size_t exponent)
{
    uint32_t result = 1;
    for (; exponent > 0; exponent /= 2) {
        if (exponent % 2 == 1)
            result = times(result, x);
        x = times(x, x);
    }
    return result;
}

/* "The inverse of a nonzero symbol is its power 65535." */
static uint32_t one_over(uint32_t x)
{
    return to_the(x, 65535);
}

size_t second_size(size_t n)
{
    size_t size = 1;
    while (size < n)
        size *= 2;
    return size;
}

/* 3 has order 65536, so its power 65536 / N has order N. */
uint32_t second_point(size_t n, size_t position)
{
    return to_the(to_the(3, 65536 / second_size(n)), position);
}

uint32_t second_value(const uint32_t *message, size_t k, uint32_t x)
{
    uint32_t sum = 0, power = 1;
    for (size_t i = 0; i < k; i++) {
        sum = plus(sum, times(message[i], power));
        power = times(power, x);
    }
    return sum;
}

void second_word(const uint32_t *message, size_t k, size_t n, uint32_t *word)
{
    for (size_t i = 0; i < n; i++)
        word[i] = second_value(message, k, second_point(n, i));
}

/* The m equations as rows of k + 1 numbers: the powers 0 to k - 1 of the point, then the value. The unknowns are the message's symbols. */
static uint32_t *equations(size_t k, size_t n, const uint32_t *positions, const uint32_t *values, size_t m)
{
    uint32_t *rows = malloc(m * (k + 1) * sizeof *rows);
    if (rows == NULL) {
        printf("the second coder gets no memory for %zu equations of %zu unknowns\n", m, k);
        exit(1);
    }
    for (size_t j = 0; j < m; j++) {
        uint32_t *row = rows + j * (k + 1), x = second_point(n, positions[j]);
        row[0] = 1;
        for (size_t i = 1; i < k; i++)
            row[i] = times(row[i - 1], x);
        row[k] = values[j];
    }
    return rows;
}

static void swap_rows(uint32_t *a, uint32_t *b, size_t width)
{
    for (size_t i = 0; i < width; i++) {
        uint32_t kept = a[i];
        a[i] = b[i];
        b[i] = kept;
    }
}

/* Brings a row with something other than 0 in this column to the column's own row, and makes that number 1. */
static void bring_lead(uint32_t *rows, size_t m, size_t width, size_t column)
{
    uint32_t *lead = rows + column * width, over;
    size_t at = column;
    while (at < m && rows[at * width + column] == 0)
        at++;
    if (at == m) {
        printf("the second coder meets equations of different points that depend on each other\n");
        exit(1);
    }
    swap_rows(lead, rows + at * width, width);
    over = one_over(lead[column]);
    for (size_t i = column; i < width; i++)
        lead[i] = times(lead[i], over);
}

/* Takes the column's unknown out of every row but its own. */
static void clear_column(uint32_t *rows, size_t m, size_t width, size_t column)
{
    const uint32_t *lead = rows + column * width;
    for (size_t j = 0; j < m; j++) {
        uint32_t *row = rows + j * width, factor = P - row[column];
        if (j == column || row[column] == 0)
            continue;
        for (size_t i = column; i < width; i++)
            row[i] = (uint32_t)((row[i] + (uint64_t)factor * lead[i]) % P);
    }
}

int second_message(size_t k, size_t n, const uint32_t *positions, const uint32_t *values, size_t m, uint32_t *message)
{
    size_t width = k + 1;
    uint32_t *rows = equations(k, n, positions, values, m);
    int fits = 1;
    for (size_t column = 0; column < k; column++) {
        bring_lead(rows, m, width, column);
        clear_column(rows, m, width, column);
    }
    /* the rows behind the first k say 0 = number now */
    for (size_t j = k; j < m; j++)
        fits = fits && rows[j * width + k] == 0;
    for (size_t i = 0; fits && i < k; i++)
        message[i] = rows[i * width + k];
    free(rows);
    return fits;
}

/* The checks. Each of those over a list gives the first index that breaks its rule, or the list's length if none does. */
static int bad_shape(size_t k, size_t n)
{
    return k == 0 || k > n || n > 4096;
}

static size_t first_above(const uint32_t *list, size_t length, size_t limit)
{
    size_t i = 0;
    while (i < length && list[i] <= limit)
        i++;
    return i;
}

static size_t first_repeat(const uint32_t *list, size_t length)
{
    for (size_t i = 0; i < length; i++)
        for (size_t earlier = 0; earlier < i; earlier++)
            if (list[earlier] == list[i])
                return i;
    return length;
}

static struct second_answer answer(uint32_t status, size_t place)
{
    struct second_answer result = {status, place};
    return result;
}

struct second_answer second_encode(size_t k, size_t n, const uint32_t *message, size_t message_len, uint32_t *out, size_t out_len,
                                   uint32_t *work, size_t work_len)
{
    size_t place;
    if (bad_shape(k, n))
        return answer(SHAPE, 0);
    if (message_len != k)
        return answer(LENGTH, 0);
    if (out_len < n || work_len < 2 * second_size(n))
        return answer(ROOM, 0);
    place = first_above(message, k, 65536);
    if (place < k)
        return answer(VALUE, place);
    second_word(message, k, n, out);
    memset(work, 0, 2 * second_size(n) * sizeof *work);
    return answer(OK, 0);
}

struct second_answer second_decode(size_t k, size_t n, const uint32_t *positions, size_t positions_len, const uint32_t *values,
                                   size_t values_len, uint32_t *out, size_t out_len, uint32_t *work, size_t work_len)
{
    size_t m = positions_len, place;
    if (bad_shape(k, n))
        return answer(SHAPE, 0);
    if (positions_len != values_len)
        return answer(LENGTH, 0);
    if (out_len < k || work_len < 4 * second_size(n))
        return answer(ROOM, 0);
    if (m < k)
        return answer(FEW, 0);
    place = first_above(positions, m, n - 1);
    if (place < m)
        return answer(POSITION, place);
    place = first_repeat(positions, m);
    if (place < m)
        return answer(REPEAT, place);
    place = first_above(values, m, 65536);
    if (place < m)
        return answer(VALUE, place);
    memset(work, 0, 4 * second_size(n) * sizeof *work);
    return second_message(k, n, positions, values, m, out) ? answer(OK, 0) : answer(DISAGREE, 0);
}
