"""bundle.py K M SIZE: writes a bundle of exactly SIZE bytes with n = 256 that holds M shadows, the same in each run.

It is the longest input that the listing program takes, to measure the stack on. It is laid out by document 01 alone, with plain values of
polynomials, and shares nothing with the library. Overflow entries fill what M whole shadows leave of the size.
"""

import random
import sys

P, N = 65537, 256
R = pow(3, 65536 // N, P)


def value(coefficients, x):
    total = 0
    for c in reversed(coefficients):
        total = (total * x + c) % P
    return total


def product(a, b):
    result = [0] * (len(a) + len(b) - 1)
    for i, x in enumerate(a):
        for j, y in enumerate(b):
            result[i + j] = (result[i + j] + x * y) % P
    return result


def symbols_of_block(k, positions, overflows):
    """The symbols at the positions, exactly so many of which are 65536, of a message of k words.

    The message is -1 plus a multiple of the polynomial that is 0 at the points of chosen positions."""
    while True:
        message = [random.randrange(P) for _ in range(k - overflows)]
        for position in random.sample(positions, overflows):
            message = product(message, [-pow(R, position, P) % P, 1])
        message[0] = (message[0] - 1) % P
        symbols = [value(message, pow(R, position, P)) for position in positions]
        if 65536 not in message and symbols.count(65536) == overflows:
            return symbols


def body(symbols):
    words = [b for b, symbol in enumerate(symbols) if symbol == 65536]
    words += [symbol % 65536 for symbol in symbols]
    return b"".join(word.to_bytes(2, "big") for word in words)


def bundle(k, m, size):
    units = (size - 16) // 2
    blocks = units // m - 4
    overflows = units - m * (blocks + 4)
    if not 1 <= k <= m <= N or blocks < 1 or size % 2 or overflows > blocks * (k - 1):
        sys.exit(f"bundle.py: no bundle of {size} bytes with k = {k} and {m} shadows")
    positions = sorted(random.sample(range(N), m))
    block_symbols = [symbols_of_block(k, positions, overflows // blocks + (b < overflows % blocks)) for b in range(blocks)]
    bodies = [body(shadow) for shadow in zip(*block_symbols)]
    out = b"FNTB" + b"".join(x.to_bytes(w, "big") for x, w in ((k, 2), (N, 2), (2 * k * blocks, 4), (m, 2), (0, 2)))
    offset = 16 + 8 * m
    for position, shadow in zip(positions, bodies):
        count = len(shadow) // 2 - blocks
        out += position.to_bytes(2, "big") + count.to_bytes(2, "big") + offset.to_bytes(4, "big")
        offset += len(shadow)
    return out + b"".join(bodies)


if len(sys.argv) != 4:
    sys.exit("usage: bundle.py K M SIZE")
random.seed(24576)
sys.stdout.buffer.write(bundle(*map(int, sys.argv[1:])))
