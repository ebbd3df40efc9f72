"""Prints what the program block_samples must print: the sample blocks of document 01 that are tests, and short blocks of request 2. It
shares no code with the repository. Run: python3 tests/vectors/samples.py > crates/block_samples/stdout"""
from closing import close
from encode import TABLE_4_1, encode, pattern

# u_0 and the 79 parity symbols that it changes, in C1
CHANGED = [0, *range(553, 572), *range(584, 610), *range(734, 768)]


def sample(name, code, w, told, heard, fill=None, info=None, parity=None, compare=False):
    """A line: close's answer, and whether position `told` is filled. All is zero but what is given."""
    n, k, m, q, a = TABLE_4_1[code]
    fill = k if fill is None else fill
    info = bytes(fill * w) if info is None else info
    parity = bytes(m * w) if parity is None else parity
    block = info + bytes((k - fill) * w) + parity
    symbols = [block[p * w:(p + 1) * w] for p in range(n)]
    report, filled = close(code, w, fill, {p: symbols[p] for p in heard})
    line = f"{name}: {report}, position {told}{'' if told in filled else ' not'} filled"
    if compare:
        # what is neither heard nor filled is zero afterwards
        after = [symbols[p] if p in heard else filled.get(p, bytes(w)) for p in range(n)]
        line += ", as sent" if after == symbols else ", not as sent"
    print(line)


def coded(code, w, fill):
    info = pattern(fill * w, 1)
    return {"fill": fill, "info": info, "parity": encode(code, w, info), "compare": True}


sample("C1, positions 1 to 511 and 767 heard", 1, 4, 0, [*range(1, 512), 767], **coded(1, 4, 512))
sample("C1, all zero, u_0 and 79 parity symbols missing", 1, 4, 0, set(range(768)).difference(CHANGED))
sample("C1, the same with p_60 missing too", 1, 4, 572, set(range(768)).difference(CHANGED, [572]))
sample("C2, nothing heard", 2, 1, 3071, [])
sample("C2, only LWC 3072 heard, byte 01", 2, 1, 3071, [3071], parity=bytes(1023) + b"\x01")
sample("C1, fill 1, nothing heard", 1, 4, 512, [], fill=1)
sample("C1, fill 100, positions 1 to 99 and 767 heard", 1, 4, 0, [*range(1, 100), 767], **coded(1, 4, 100))
sample("C1, fill 1, only LWC 513 heard, first byte 01", 1, 4, 512, [512], fill=1, parity=b"\x01" + bytes(1023))
