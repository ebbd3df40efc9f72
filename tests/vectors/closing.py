"""What close says of a block, for demo.py and samples.py. Written from CCSDS 131.5-O-1, document 01 and request 2; it shares no code
with the repository."""
from encode import ROWS, TABLE_4_1


def check_rows(code):
    """Each check row as the set of its positions."""
    n, k, m, q, a = TABLE_4_1[code]
    rows = [set() for _ in range(m)]
    for x in range(k):
        for y in [int(y) for y in ROWS[code].split("\n")[x // q].split()]:
            rows[(y + x % q * a) % m] ^= {x}
    for j in range(m):
        rows[j] ^= {k + j} | ({k + j - 1} if j > 0 else set())
    return rows


def sent(code, fill):
    """The positions that are not idle."""
    n, k, m, q, a = TABLE_4_1[code]
    return [*range(fill), *range(k, n)]


def close(code, w, fill, heard):
    """The verdict with its counts, and the symbols that every agreeing codeword has and that were not heard. Gaussian elimination: an
    equation is one integer, the missing positions above the right-hand side. Idle symbols are zero and stand in no equation."""
    shift = 8 * w
    positions = set(sent(code, fill))
    pivots = {}
    verdict = None
    for row in check_rows(code):
        e = 0
        for p in row & positions:
            e ^= int.from_bytes(heard[p], "big") if p in heard else 1 << shift + p
        for bit, other in pivots.items():
            if e >> bit & 1:
                e ^= other
        if e == 0:
            continue
        if e >> shift == 0:
            verdict, pivots = "inconsistent", {}
            break
        top = e.bit_length() - 1
        for bit, other in pivots.items():
            if other >> top & 1:
                pivots[bit] = other ^ e
        pivots[top] = e
    filled = {}
    for bit, e in pivots.items():
        if e >> shift == 1 << bit - shift:
            filled[bit - shift] = (e & (1 << shift) - 1).to_bytes(w, "big")
    left = len(positions) - len(heard) - len(filled)
    verdict = verdict or ("ambiguous" if left else "whole")
    return f"{verdict} heard {len(heard)} filled {len(filled)} left {left}", filled
