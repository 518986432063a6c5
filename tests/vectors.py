#!/usr/bin/env python3
"""What the program `vectors` must write, worked out from document 01 by Python's own integers, with none of the crates' code."""

P = 65537


def refused(number, place):
    return f"REFUSED {number} {place}"


def operation(a, sign, b, value):
    """The first operand above 65536 is refused by VALUE, number 7."""
    above = [i for i, operand in enumerate((a, b)) if operand > 65536]
    answer = refused(7, above[0]) if above else value(a, b) % P
    print(f"{a} {sign} {b} = {answer}")


def operations():
    for a, b in ((65536, 1), (65536, 65536)):
        operation(a, "+", b, lambda x, y: x + y)
    for a, b in ((0, 1), (0, 65536)):
        operation(a, "-", b, lambda x, y: x - y)
    for a, b in ((65536, 65536), (65536, 2)):
        operation(a, "*", b, lambda x, y: x * y)
    for a, b in ((3, 32768), (3, 65536), (0, 0)):
        operation(a, "^", b, lambda x, y: pow(x, y, P))


def operands():
    for a, b in ((65537, 0), (0, 65537), (65537, 65537)):
        operation(a, "+", b, lambda x, y: x + y)
    operation(0, "-", 4294967295, lambda x, y: x - y)
    operation(4294967295, "*", 4294967295, lambda x, y: x * y)
    for a, b in ((65537, 1), (1, 65537)):
        operation(a, "^", b, lambda x, y: pow(x, y, P))


def roots():
    """The root of order 2^i is 3 to the power 2^(16-i)."""
    for i in range(17):
        root = pow(3, 2 ** (16 - i), P)
        print(f"root {i} = {root}, its square = {root * root % P}")


def inverses():
    """Found by trial: the one symbol that makes the product 1."""
    for x in (1, 2, 65536, 0, 65537):
        fits = [y for y in range(P) if x * y % P == 1] if x <= 65536 else []
        print(f"inverse of {x} = {fits[0] if fits else refused(7, 0)}")


def points():
    """Position i stands for r^i, r the root of order N, N the smallest power of two that is at least n."""
    for n, i in ((1, 0), (3, 1), (3, 2), (3, 3), (4, 3), (4, 4), (4096, 1), (4096, 4095), (4096, 4096), (4097, 0), (0, 0)):
        if n < 1 or n > 4096:
            answer = refused(1, 0)
        elif i >= n:
            answer = refused(5, 0)
        else:
            size = 1
            while size < n:
                size *= 2
            answer = pow(pow(3, 65536 // size, P), i, P)
        print(f"n {n}, point of position {i} = {answer}")


if __name__ == "__main__":
    operations()
    operands()
    roots()
    inverses()
    points()
