/* The transform, its inverse and the points, called from C and held against the plain sums, which are worked out here by code of its own: no
 * table of roots and no halving. Guard cells stand round every buffer, and every lent cell holds junk before each call. */
#include "lent.h"
#include "sulmirejo.h"

#include <stdio.h>
#include <string.h>

enum { LONGEST = 4096, TWICE = 8192 };

static const uint32_t P = 65537;

/* The field, by plain arithmetic. */
static uint32_t times(uint32_t a, uint32_t b)
{
    return (uint32_t)((uint64_t)a * b % P);
}

static uint32_t to_the(uint32_t x, size_t exponent)
{
    uint32_t result = 1;
    while (exponent--)
        result = times(result, x);
    return result;
}

/* 3 has order 65536, so its power 65536 / size has order size. */
static uint32_t root_of_order(size_t size)
{
    return to_the(3, 65536 / size);
}

/* The x with size * x = 1, found by trial. */
static uint32_t one_over(size_t size)
{
    uint32_t x = 1;
    while (times((uint32_t)size, x) != 1)
        x++;
    return x;
}

/* result[j] = factor * sum over i of a[i] * r^(i*j), one term after the other. */
static void plain_sums(const uint32_t *a, size_t size, uint32_t r, uint32_t factor, uint32_t *result)
{
    uint32_t step = 1; /* r^j */
    for (size_t j = 0; j < size; j++) {
        uint64_t sum = 0;
        uint32_t power = 1; /* r^(i*j) */
        for (size_t i = 0; i < size; i++) {
            sum += times(a[i], power);
            power = times(power, step);
        }
        result[j] = times((uint32_t)(sum % P), factor);
        step = times(step, r);
    }
}

/* Each has room for twice the longest list, whatever part of it a call is told of: so a write far behind its end is seen too. */
static struct lent list, work;

typedef uint32_t call(uint32_t *, size_t, uint32_t *, size_t, size_t *);

static void expect_result(call *function, const char *name, size_t size, size_t room, const uint32_t *expected)
{
    fill_with_junk(&work, TWICE);
    remember(&list);
    remember(&work);
    expect(function(lend(&list), size, lend(&work), room, lend_number()) == SULMIREJO_OK, name, size, 0);
    expect_number(0, name, size);
    for (size_t i = 0; i < size; i++) {
        expect(lend(&list)[i] == expected[i], name, size, i);
        expect(lend(&work)[i] == 0, "working space zero", size, i);
    }
    expect_untouched_after(&list, size, "list untouched behind its end");
    expect_untouched_after(&work, size, "working space untouched behind the stated part");
}

static void expect_refusal(size_t size, size_t room, uint32_t refusal, size_t place)
{
    call *both[2] = {sulmirejo_transform, sulmirejo_inverse};
    for (int i = 0; i < 2; i++) {
        remember(&list);
        remember(&work);
        expect(both[i](lend(&list), size, lend(&work), room, lend_number()) == refusal, "refusal", size, room);
        expect_number(place, "refusal", size);
        expect_untouched_after(&list, 0, "list untouched on a refusal");
        expect_untouched_after(&work, 0, "working space untouched on a refusal");
    }
}

/* There by the transform and back by the inverse, and the inverse first, against the plain sums. */
static void try_list(const uint32_t *symbols, size_t size, size_t room, uint32_t root, uint32_t root_over, uint32_t part)
{
    static uint32_t sums[LONGEST];
    fill_with_junk(&list, TWICE);
    memcpy(lend(&list), symbols, size * sizeof *symbols);
    plain_sums(symbols, size, root, 1, sums);
    expect_result(sulmirejo_transform, "transform", size, room, sums);
    expect_result(sulmirejo_inverse, "inverse of the transform", size, room, symbols);
    plain_sums(symbols, size, root_over, part, sums);
    expect_result(sulmirejo_inverse, "inverse", size, room, sums);
    expect_result(sulmirejo_transform, "transform of the inverse", size, room, symbols);
}

static void try_size(size_t size)
{
    static uint32_t symbols[LONGEST];
    uint32_t root = root_of_order(size), root_over = to_the(root, size - 1), part = one_over(size);
    for (size_t i = 0; i < size; i++)
        symbols[i] = junk() % P;
    try_list(symbols, size, size, root, root_over, part);
    for (size_t i = 0; i < size; i++)
        symbols[i] = 65536;
    try_list(symbols, size, size + 5, root, root_over, part);
    memset(symbols, 0, sizeof symbols);
    symbols[size - 1] = 65536;
    try_list(symbols, size, TWICE, root, root_over, part);
}

static void good_list(size_t size)
{
    fill_with_junk(&list, TWICE);
    fill_with_junk(&work, TWICE);
    for (size_t i = 0; i < size; i++)
        lend(&list)[i] = junk() % P;
}

/* Every length up to 8192 but the powers of two up to 4096 is SHAPE, also without room and with a wrong value. */
static void try_shapes(void)
{
    size_t power = 1;
    good_list(TWICE);
    for (size_t size = 0; size <= TWICE; size++) {
        if (size == power && size <= LONGEST)
            power *= 2;
        else {
            expect_refusal(size, TWICE, SULMIREJO_SHAPE, 0);
            expect_refusal(size, 0, SULMIREJO_SHAPE, 0);
        }
    }
    lend(&list)[0] = 65537;
    expect_refusal(3, 0, SULMIREJO_SHAPE, 0);
    expect_refusal(TWICE, 0, SULMIREJO_SHAPE, 0);
}

static void try_refusals(size_t size)
{
    good_list(size);
    expect_refusal(size, size - 1, SULMIREJO_ROOM, 0);
    expect_refusal(size, 0, SULMIREJO_ROOM, 0);
    lend(&list)[size - 1] = 65537;
    expect_refusal(size, size - 1, SULMIREJO_ROOM, 0);
    expect_refusal(size, size, SULMIREJO_VALUE, size - 1);
    lend(&list)[size / 2] = 4294967295u;
    expect_refusal(size, size, SULMIREJO_VALUE, size / 2);
    lend(&list)[0] = 65537;
    expect_refusal(size, TWICE, SULMIREJO_VALUE, 0);
}

/* The worked numbers P1 to P4. */
static void try_worked_numbers(void)
{
    static const uint32_t p1[] = {5}, from2[] = {1, 2}, p2[] = {3, 65536}, from3[] = {1, 2, 0, 0}, p3[] = {3, 65026, 65536, 513};
    good_list(0);
    memcpy(lend(&list), p1, sizeof p1);
    expect_result(sulmirejo_transform, "P1", 1, 1, p1);
    memcpy(lend(&list), from2, sizeof from2);
    expect_result(sulmirejo_transform, "P2", 2, 2, p2);
    memcpy(lend(&list), from3, sizeof from3);
    expect_result(sulmirejo_transform, "P3", 4, 4, p3);
    expect_result(sulmirejo_inverse, "P4", 4, 4, from3);
}

static void expect_point(size_t n, size_t position, uint32_t status, size_t place, uint32_t value)
{
    uint32_t cells[3] = {junk(), junk(), junk()}, before[3];
    memcpy(before, cells, sizeof cells);
    expect(sulmirejo_point(n, position, cells + 1, lend_number()) == status, "point", n, position);
    expect_number(place, "point", n);
    expect(cells[0] == before[0] && cells[2] == before[2], "guards of a point", n, position);
    expect(cells[1] == (status == SULMIREJO_OK ? value : before[1]), "value of a point", n, position);
}

static void try_points(void)
{
    static const size_t lengths[] = {1, 2, 3, 4, 5, 255, 256, 257, 4095, 4096};
    for (size_t k = 0; k < sizeof lengths / sizeof *lengths; k++) {
        size_t n = lengths[k], size = 1;
        uint32_t value = 1;
        while (size < n)
            size *= 2;
        for (size_t position = 0; position < n; position++) {
            expect_point(n, position, SULMIREJO_OK, 0, value);
            value = times(value, root_of_order(size));
        }
        expect_point(n, n, SULMIREJO_POSITION, 0, 0);
        expect_point(n, (size_t)-1, SULMIREJO_POSITION, 0, 0);
    }
    expect_point(0, 0, SULMIREJO_SHAPE, 0, 0);
    expect_point(4097, 0, SULMIREJO_SHAPE, 0, 0);
    expect_point((size_t)-1, (size_t)-1, SULMIREJO_SHAPE, 0, 0);
    /* 4 and 1 where only 32 bits are looked at */
    expect_point((size_t)4294967300u, 1, SULMIREJO_SHAPE, 0, 0);
    expect_point(4, (size_t)4294967297u, SULMIREJO_POSITION, 0, 0);
}

int main(void)
{
    try_worked_numbers();
    for (size_t size = 1; size <= LONGEST; size *= 2) {
        try_size(size);
        try_refusals(size);
    }
    try_shapes();
    try_points();
    printf("transform: %lu checks passed\n", checks_passed());
    return 0;
}
