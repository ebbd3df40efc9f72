"""Makes the vectors that the program unit_vectors reads and the lines that it must print. Written from document 01 ("The unit",
"Why a call is turned down", "Sending") and requests 2 and 6 alone; it shares no code with the repository.
Run: python3 tests/vectors/units.py crates/unit_vectors/stdin crates/unit_vectors/stdout"""
import sys

# n, k, m
CODES = {1: (768, 512, 256), 2: (3072, 2048, 1024), 4: (640, 512, 128), 5: (2560, 2048, 512), 7: (576, 512, 64), 8: (2304, 2048, 256)}


class Refused(Exception):
    pass


# ---- SDNV, by strings of bits

def sdnv(v):
    bits = bin(v)[2:]
    bits = bits.zfill(-(-len(bits) // 7) * 7)
    groups = [bits[i:i + 7] for i in range(0, len(bits), 7)]
    return bytes(int(("1" if i + 1 < len(groups) else "0") + g, 2) for i, g in enumerate(groups))


def take_sdnv(data, cut):
    """The number that data begins with, and the rest; `cut` is the refusal where the bytes end early."""
    bits = ""
    for count, byte in enumerate(data, 1):
        bits += f"{byte:08b}"[1:]
        if count == 1 and byte == 0x80 or count == 5 and (byte > 127 or int(bits, 2) > 4294967295):
            raise Refused(19)
        if byte < 128:
            return int(bits, 2), data[count:]
    raise Refused(cut)


# ---- the reader: what is left of the unit is cut off from the front

def read_unit(unit):
    if len(unit) < 6:
        raise Refused(5)
    head = f"{unit[0]:08b}"
    if head[:4] != "0001" or head[7] != "0" or unit[1] == 0:
        raise Refused(5)
    rest, coding = unit[6:], []
    for _ in range(unit[1]):
        if not rest:
            raise Refused(6)
        kind = rest[0]
        if kind in (0, 255) or kind == 1 and coding:
            raise Refused(20)
        size, rest = take_sdnv(rest[1:], 6)
        if size > len(rest):
            raise Refused(6)
        value, rest = rest[:size], rest[size:]
        if kind == 1:
            numbers = []
            for _ in range(4):
                number, value = take_sdnv(value, 20)
                numbers.append(number)
            if value:
                raise Refused(20)
            coding = numbers
    said = " W {} k {} n {} seed {}".format(*coding) if coding else " no type 1"
    return (f"protocol {int(head[4:7], 2)} count {unit[1]} LWC {int.from_bytes(unit[2:4], 'big')}"
            f" LSC {int.from_bytes(unit[4:6], 'big')}{said} symbol at {len(unit) - len(rest)}")


# ---- the writer

def unit(code, w, protocol, lsc, lwc, symbol):
    n, k, m = CODES[code]
    value = b"".join(map(sdnv, (w, k, n, 0)))
    head = int("0001" + f"{protocol:03b}" + "0", 2)
    return bytes([head, 1]) + lwc.to_bytes(2, "big") + lsc.to_bytes(2, "big") + b"\x01" + sdnv(len(value)) + value + symbol


def unit_bytes(code, w):
    return len(unit(code, w, 0, 1, 1, bytes(w))) if code in CODES and 1 <= w <= 1024 else 0


def write(code, w, protocol, lsc, fill, lwc, symbol, outs):
    if code not in CODES:
        raise Refused(1)
    n, k, m = CODES[code]
    if not 1 <= w <= 1024:
        raise Refused(2)
    if not 1 <= lsc <= 65534 or protocol > 7:
        raise Refused(3)
    if not 1 <= fill <= k:
        raise Refused(13)
    if outs != unit_bytes(code, w):
        raise Refused(4)
    if not 1 <= lwc <= n:
        raise Refused(9)
    if fill < lwc <= k:
        raise Refused(14)
    if len(symbol) != w:
        raise Refused(10)
    return unit(code, w, protocol, lsc, lwc, symbol)


# ---- show

def show(code, w, fill, info, parity, lwc):
    if code not in CODES or not 1 <= w <= 1024:
        return b""
    n, k, m = CODES[code]
    if not 1 <= fill <= k or len(info) != fill * w or len(parity) != m * w or not 1 <= lwc <= n:
        return b""
    # the idle symbols stand for nothing here, so nothing is shown of them
    symbols = [info[i * w:(i + 1) * w] for i in range(fill)] + [b""] * (k - fill) + [parity[j * w:(j + 1) * w] for j in range(m)]
    return symbols[lwc - 1]


# ---- vectors and lines

vectors, lines = [], []


def vector(kind, numbers, data):
    vectors.append(b"".join(x.to_bytes(4, "big") for x in (kind, *numbers, len(data))) + data)


def shown(data):
    check = 0
    for byte in data:
        check = (257 * check + byte) % 4294967291
    return "".join(f" {byte:02x}" for byte in data[:18]) + f" checksum {check}"


def line_of_read(data):
    try:
        return "read: " + read_unit(data)
    except Refused as r:
        return f"read: refused {r}"


def reads(data):
    vector(1, (0, 0, 0, 0, 0, 0, 0), data)
    lines.append(line_of_read(data))


def k_of(code):
    return CODES[code][1] if code in CODES else 512


def writes(code, w, protocol, lsc, lwc, symbols, outs, fill=None):
    fill = k_of(code) if fill is None else fill
    symbol = bytes((7 * i + 1) % 256 for i in range(symbols))
    vector(2, (code, w, protocol, lsc, fill, lwc, outs), symbol)
    try:
        out = write(code, w, protocol, lsc, fill, lwc, symbol, outs)
        lines.extend(["write:" + shown(out), line_of_read(out)])
    except Refused as r:
        lines.append(f"write: refused {r}" + shown(b"\xee" * outs))


def shows(code, w, infos, parities, lwc, fill=None):
    fill = k_of(code) if fill is None else fill
    data = bytes((i * i + 3 * i + 5) // 2 % 256 for i in range(infos + parities))
    vector(3, (code, w, 0, 0, fill, lwc, infos), data)
    symbol = show(code, w, fill, data[:infos], data[infos:], lwc)
    lines.append(f"show: {len(symbol)}" + shown(symbol))


def sizes(code, w):
    vector(4, (code, w, 0, 0, 0, 0, 0), b"")
    lines.append(f"unit bytes: {unit_bytes(code, w)}")


# the unit of the gather sample, and headers at their borders
SAMPLE = bytes.fromhex("12010001000701060284008600 00AA55".replace(" ", ""))
reads(SAMPLE)
for size in range(8):
    reads(SAMPLE[:size])
for first in (0x00, 0x02, 0x0E, 0x10, 0x11, 0x12, 0x13, 0x1E, 0x1F, 0x20, 0x22, 0x32, 0x92, 0xF2):
    reads(bytes([first]) + SAMPLE[1:])
for count in (0, 1, 2, 255):
    reads(SAMPLE[:1] + bytes([count]) + SAMPLE[2:])
for lwc, lsc in ((0, 0), (0, 7), (1, 0), (65535, 65535), (256, 255), (768, 65534), (3072, 1)):
    reads(SAMPLE[:2] + lwc.to_bytes(2, "big") + lsc.to_bytes(2, "big") + SAMPLE[6:])


def with_extensions(*parts, symbol=b"\xAA\x55"):
    reads(bytes([0x12, len(parts), 0, 1, 0, 7]) + b"".join(parts) + symbol)


CODING = SAMPLE[6:14]


def ext(kind, value):
    return bytes([kind]) + sdnv(len(value)) + value


def coding(value):
    with_extensions(ext(1, value))


# other types before and after type 1
with_extensions(ext(2, b""), CODING)
with_extensions(CODING, ext(2, b"\x01\x02\x03"))
with_extensions(ext(254, b"\x00" * 200), CODING, ext(77, b"\xFF"), ext(3, b""))
with_extensions(ext(2, b""))
with_extensions(ext(254, b"\x01"), ext(253, b""))
with_extensions(CODING, CODING)
with_extensions(CODING, ext(9, b"x"), CODING)
with_extensions(*[ext(2, b"")] * 254, CODING)
with_extensions(*[ext(2, b"")] * 255)
with_extensions(*[CODING] * 255)
# types at their borders
for kind in (0, 1, 2, 127, 128, 254, 255):
    with_extensions(ext(kind, b"\x01\x01\x01\x01"))
    with_extensions(CODING, ext(kind, b""))
# bytes that end early: every cut of two extensions
long = bytes([0x12, 2, 0, 1, 0, 7]) + ext(9, b"abc") + CODING
for size in range(6, len(long) + 1):
    reads(long[:size])
with_extensions(b"\x09\x02", symbol=b"ab")
with_extensions(b"\x09\x03", symbol=b"ab")
with_extensions(b"\x09\x8F\xFF\xFF\xFF\x7F", symbol=b"ab")
with_extensions(b"\x09\x90\x80\x80\x80\x00", symbol=b"ab")
with_extensions(b"\x09\x80\x80\x80\x80\x02", symbol=b"ab")
with_extensions(b"\x09\x80\x80\x80\x80\x80\x02", symbol=b"ab")
with_extensions(b"\x01\x86\x00", CODING)
# numbers of a type 1
for number in ("00", "7F", "8000", "8001", "8100", "FF7F", "818000", "8F FF FF FF 7F", "90 80 80 80 00", "8F FF FF FF FF", "80 80 80 80 7F",
               "80 80 80 80 80 01", "80", "80 80 80 80", "80 80 80 80 80", "FF FF FF 7F", "81 80 80 80 00"):
    number = bytes.fromhex(number.replace(" ", ""))
    for place in range(4):
        coding(b"".join(number if i == place else b"\x05" for i in range(4)))
# not four numbers
for count in (0, 1, 2, 3, 5, 6):
    coding(b"\x05" * count)
coding(b"\x02\x84\x00\x86\x00\x00\x80")
coding(b"\x02\x84\x00\x86\x00\x81")
coding(b"\x02\x84\x00\x86")
with_extensions(b"\x01\x86\x00" + CODING[2:])
with_extensions(b"\x01\x80\x06" + CODING[2:])
with_extensions(b"\x01\x80\x80\x80\x80\x06" + CODING[2:])
with_extensions(b"\x01\x05" + CODING[2:])
with_extensions(b"\x01\x07" + CODING[2:])
with_extensions(CODING, symbol=b"")
# which byte decides: an extension count, and all bytes after the header
SECOND = CODING.hex()
for count, rest in (
        (1, ""), (1, "00"), (1, "FF"), (1, "01"), (2, "09 00"), (2, "09 00 00"), (2, "09 00 FF"),              # a type
        (2, SECOND), (2, SECOND + "01"), (2, SECOND + "01 80"), (2, SECOND + "00"), (2, SECOND + "02"),        # a second one
        (1, "09 80"), (1, "01 80"), (1, "01 01 80"), (1, "01 04 05 05 05 80"), (1, "01 03 80 00 00"),          # a leading 80
        (1, "09 81 80 00"), (1, "01 06 05 05 05 81 80 00"), (1, "09 81 80"), (1, "01 05 05 05 05 81 80"),      # one inside
        (1, "09 90 80 80 80"), (1, "09 90 80 80 80 00"), (1, "09 8F FF FF FF 7F"), (1, "09 FF FF FF FF"),      # a fifth byte
        (1, "09 FF FF FF FF FF"), (1, "09 8F FF FF FF FF"), (1, "01 07 05 05 05 90 80 80 80"),
        (1, "01 08 05 05 05 90 80 80 80 00"), (1, "01 08 05 05 05 FF FF FF FF FF"), (1, "01 08 05 05 05 8F FF FF FF 7F"),
        (1, "01 05 80"), (1, "01 03 80 80"), (1, "01 02 FF"), (1, "09 01"), (1, "09 01 00"), (1, "09 00"),     # a length past the unit
        (1, "01 00"), (1, "01 01 85"), (1, "01 03 05 05 05"), (1, "01 04 05 05 05 85"), (1, "01 04 05 05 05 05"),  # a value's end
        (1, "01 05 05 05 05 05 80"), (1, "01 06 05 05 05 05 80 01"), (1, "01 05 05 05 05 05 05"), (1, "01 05 05 05 05 05 85")):  # after the fourth
    reads(bytes([0x12, count, 0, 1, 0, 7]) + bytes.fromhex(rest.replace(" ", "")))
# the sample with one byte or two changed
state = 1


def draw(n):
    global state
    state = (1103515245 * state + 12345) % 2147483648
    return state // 65536 % n


for _ in range(400):
    data = bytearray(bytes([0x12, 2, 0, 1, 0, 7]) + ext(9, b"abc") + CODING + b"\xAA\x55")
    for _ in range(1 + draw(2)):
        data[draw(len(data))] = (0, 1, 2, 3, 6, 127, 128, 129, 255, draw(256))[draw(10)]
    reads(bytes(data))

# writes: what is admitted, and each refusal at its border
for code in (*range(11), 65536):
    for w in (0, 1, 2, 127, 128, 1023, 1024, 1025, 65536):
        sizes(code, w)
for code in CODES:
    n, k, m = CODES[code]
    for w in (1, 2, 16, 127, 128, 129, 1024):
        for lwc in (1, k, k + 1, n):
            writes(code, w, 1, 7, lwc, w, unit_bytes(code, w))
    good = unit_bytes(code, 16)
    for protocol in (0, 7, 8, 15, 256):
        writes(code, 16, protocol, 7, 1, 16, good)
    for lsc in (0, 1, 255, 256, 65534, 65535, 65536, 65543):
        writes(code, 16, 1, lsc, 1, 16, good)
    for lwc in (0, 1, 255, 256, k, k + 1, n, n + 1, 65535, 65536, 65537):
        writes(code, 16, 1, 7, lwc, 16, good)
    for outs in (0, good - 16, good - 1, good, good + 1):
        writes(code, 16, 1, 7, 1, 16, outs)
    for symbols in (0, 15, 16, 17):
        writes(code, 16, 1, 7, 1, symbols, good)
    for w in (0, 1024, 1025):
        writes(code, w, 1, 7, 1, w, unit_bytes(code, w))
for code in (0, 3, 6, 9, 10, 65537, 65540):
    writes(code, 16, 1, 7, 1, 16, 30)
# several at once: the first of the table
for none, code in ((3, 1), (6, 7)):
    for wrong in range(64):
        writes(none if wrong & 1 else code, 1025 if wrong & 2 else 16, 8 if wrong & 4 else 1, 7, CODES[code][0] + 1 if wrong & 16 else 1,
               15 if wrong & 32 else 16, 29 if wrong & 8 else 30)

# show: the ends of both buffers, and each refusal at its border
for code, w in ((1, 1), (1, 2), (2, 1), (4, 5), (5, 1), (7, 2), (8, 1)):
    n, k, m = CODES[code]
    for lwc in (0, 1, 2, k - 1, k, k + 1, k + 2, n - 1, n, n + 1, 65536):
        shows(code, w, k * w, m * w, lwc)
    for infos, parities in ((k * w - 1, m * w), (k * w + 1, m * w), (k * w, m * w - 1), (k * w, m * w + 1), (0, 0), (k * w + 1, m * w - 1)):
        shows(code, w, infos, parities, 1)
for code, w in ((0, 1), (3, 1), (6, 1), (9, 1), (1, 0), (1, 1025), (65537, 1)):
    shows(code, w, 512, 256, 1)

# short blocks: written and shown on both sides of each border, with fills that are refused, and with more that is wrong
for code in CODES:
    n, k, m = CODES[code]
    good = unit_bytes(code, 16)
    for fill in (0, 1, 2, k // 2, k - 1, k, k + 1, n, 65536 + 1):
        for lwc in sorted({0, 1, 2, min(fill, n), min(fill + 1, n), k, k + 1, n, n + 1}):
            writes(code, 16, 1, 7, lwc, 16, good, fill)
        for lwc in (k, k + 1):
            writes(code, 16, 1, 7, lwc, 15, good, fill)
            writes(code, 16, 1, 7, lwc, 16, good + 1, fill)
            writes(code, 16, 1, 0, lwc, 16, good, fill)
for wrong in range(128):
    writes(3 if wrong & 1 else 1, 1025 if wrong & 2 else 16, 8 if wrong & 4 else 1, 7, 512 if wrong & 32 else 1,
           15 if wrong & 64 else 16, 29 if wrong & 16 else 30, 0 if wrong & 8 else 511)
for code, w in ((1, 2), (5, 1), (7, 5)):
    n, k, m = CODES[code]
    for fill in (1, k // 2, k - 1):
        for lwc in (0, 1, fill, fill + 1, k, k + 1, n, n + 1):
            shows(code, w, fill * w, m * w, lwc, fill)
        for infos, parities in ((k * w, m * w), (fill * w - 1, m * w), (fill * w + 1, m * w), (fill * w, m * w - 1)):
            shows(code, w, infos, parities, 1, fill)
    for fill in (0, k + 1):
        shows(code, w, fill * w, m * w, 1, fill)
        shows(code, w, fill * w, m * w, n, fill)

with open(sys.argv[1], "wb") as f:
    f.write(b"".join(vectors))
with open(sys.argv[2], "w") as f:
    f.write("\n".join(lines) + "\n")
