"""Prints what the program demo must print. Written from CCSDS 131.5-O-1, document 01 and request 2; it shares no code with the
repository. Run: python3 tests/vectors/demo.py <crates/demo/stdin >crates/demo/stdout"""
import sys

from closing import close, sent
from encode import TABLE_4_1, checksum, encode

CODE, W, PROTOCOL, FIRST_LSC = 1, 16, 1, 7
N, K, M, Q, A = TABLE_4_1[CODE]


def sdnv(x):
    groups = [x % 128]
    while x >= 128:
        x //= 128
        groups.insert(0, 128 + x % 128)
    return bytes(groups)


def unit(lsc, position, symbol):
    value = sdnv(W) + sdnv(K) + sdnv(N) + sdnv(0)
    head = bytes([1 << 4 | PROTOCOL << 1, 1]) + (position + 1).to_bytes(2, "big") + lsc.to_bytes(2, "big")
    return head + bytes([1]) + sdnv(len(value)) + value + symbol


def shown(name, data):
    return name + "".join(f" {b:02x}" for b in data[:8]) + f" checksum {checksum(data)}"


def block(lsc, data):
    fill = -(-len(data) // W)
    info = data.ljust(fill * W, b"\0")
    parity = encode(CODE, W, info)
    codeword = info.ljust(K * W, b"\0") + parity
    # idle positions have no unit: their places stay zero
    units = {p: unit(lsc, p, codeword[p * W:(p + 1) * W]) for p in sent(CODE, fill)}
    heard = {p: u[-W:] for p, u in units.items() if p * 7919 % 1000 >= 300}
    report, filled = close(CODE, W, fill, heard)
    symbols = {**heard, **filled}
    same = b"".join(symbols.get(p, bytes(W)) for p in range(N)) == codeword
    print(f"block {lsc}: bytes {len(data)}, fill {fill}")
    print(shown("information", info))
    print(shown("parity", parity))
    print(shown("units", b"".join(units.get(p, bytes(len(units[0]))) for p in range(N))))
    print(f"units written {len(units)}, lost {len(units) - len(heard)}, kept {len(heard)}")
    print(f"closed: {report}, {'as sent' if same else 'not as sent'}")


def main():
    scene = sys.stdin.buffer.read()
    for i in range(0, len(scene), K * W):
        block(FIRST_LSC + i // (K * W), scene[i:i + K * W])


main()
