// include/lipvezor.h in C++11: every call on blocks of each code, full and short, and what it answers. Exit status 0, or 1 and what is not so.
#include "lipvezor.h"

#include <cstdio>
#include <cstring>
#include <vector>

namespace {

typedef std::vector<uint8_t> Bytes;

bool wrong = false;

// a block's numbers, each of them another one
const size_t W = 16;
lipvezor_block numbers(size_t code, size_t fill)
{
    lipvezor_block all = {};
    all.code = code;
    all.w = W;
    all.protocol = 3;
    all.lsc = 1234;
    all.fill = fill;
    return all;
}
lipvezor_block block;

void expect(bool holds, const char *what)
{
    if (!holds) {
        std::printf("calls: code %zu, fill %zu, not so: %s\n", block.code, block.fill, what);
        wrong = true;
    }
}

// the macros are constants in C++ too
static_assert(LIPVEZOR_K(LIPVEZOR_C4) == 512 && LIPVEZOR_N(LIPVEZOR_C8) == 2304 && LIPVEZOR_M(3) == 0, "codes");
static_assert(LIPVEZOR_WORK_WORDS(LIPVEZOR_C7) == 640 && LIPVEZOR_UNIT_BYTES(LIPVEZOR_C5, W) == 30, "sizes");
static_assert(LIPVEZOR_TILE_ROWS(W, 12) == 1 && LIPVEZOR_TILE_ROWS(W, 13) == 2, "rows");
static_assert(LIPVEZOR_INFORMATION_BYTES(LIPVEZOR_C4, W, 512) == 8192 && LIPVEZOR_INFORMATION_BYTES(LIPVEZOR_C4, W, 513) == 0, "fills");

struct Sizes {
    size_t n, k, m, information, parity, symbols, unit, work_words, work_bytes;
};

Sizes sizes()
{
    return Sizes{lipvezor_n(block.code), lipvezor_k(block.code), lipvezor_m(block.code),
                 lipvezor_information_bytes(block.code, block.w, block.fill), lipvezor_parity_bytes(block.code, block.w),
                 lipvezor_symbol_bytes(block.code, block.w), lipvezor_unit_bytes(block.code, block.w), lipvezor_work_words(block.code),
                 lipvezor_work_bytes(block.code, block.w)};
}

// tiles, one after the other, and their lengths
struct Tiles {
    Bytes bytes;
    std::vector<size_t> lengths;

    // so many tiles of so many bytes, none of them 0; a pointer is not NULL, also where there is none
    Tiles(size_t count, size_t length) : bytes(), lengths(count, length)
    {
        bytes.reserve(1 + count * length);
        lengths.reserve(1 + count);
        for (size_t i = 0; i < count * length; i++) {
            bytes.push_back(static_cast<uint8_t>(1 + i % 255));
        }
    }

    uint8_t pack(const lipvezor_block &of, Bytes &output) const
    {
        return lipvezor_pack(&of, bytes.data(), bytes.size(), lengths.data(), lengths.size(), output.data(), output.size());
    }

    // the same, refused
    bool is_refused(const lipvezor_block &of, size_t output_length, uint8_t refusal) const
    {
        Bytes output(output_length, 0xA5);
        return pack(of, output) == refusal && output == Bytes(output_length, 0xA5);
    }
};

// tiles that fit: their rows, and zeros after them
void pack_rows(const Tiles &tiles)
{
    Bytes output(block.fill * W, 0xA5), rows(block.fill * W);
    size_t row = 0, at = 0;
    for (size_t left : tiles.lengths) {
        for (; left > 0; row++) {
            const size_t count = left < W - 4 ? left : W - 4, next = left > count ? row + 2 : 0;
            const uint8_t head[] = {static_cast<uint8_t>(next >> 8), static_cast<uint8_t>(next), 0, static_cast<uint8_t>(count)};
            std::memcpy(&rows[row * W], head, sizeof head);
            std::memcpy(&rows[row * W + 4], &tiles.bytes[at], count);
            at += count;
            left -= count;
        }
    }
    expect(lipvezor_rows_needed(W, tiles.lengths.data(), tiles.lengths.size()) == row, "rows that tiles need");
    expect(tiles.pack(block, output) == LIPVEZOR_DONE, "pack is done");
    expect(output == rows, "the rows of tiles");
}

// tiles that just fit and that just do not; and what pack refuses, in its order
void pack_all(const Sizes &size)
{
    const size_t room = W - 4, length = block.fill * W;
    const Tiles one(1, block.fill * room), each(block.fill, 1);
    pack_rows(Tiles(0, 0));
    pack_rows(Tiles(1, 1));
    pack_rows(Tiles(block.fill / 2, room + 1));
    pack_rows(one);
    pack_rows(each);
    expect(Tiles(1, block.fill * room + 1).is_refused(block, length, LIPVEZOR_REFUSED_OVERFULL), "pack refuses one byte too many");
    expect(Tiles(block.fill + 1, 1).is_refused(block, length, LIPVEZOR_REFUSED_OVERFULL), "pack refuses one tile too many");

    Tiles wrong_sum = one, wraps = each;
    wrong_sum.lengths[0]--;
    expect(wrong_sum.is_refused(block, length, LIPVEZOR_REFUSED_TILES), "pack refuses bytes of no tile");
    wrong_sum.lengths[0] += 2;
    expect(wrong_sum.is_refused(block, length, LIPVEZOR_REFUSED_TILES), "pack refuses a tile without its bytes, before too many rows");
    wraps.lengths.insert(wraps.lengths.begin(), 2, SIZE_MAX / 2 + 1);
    expect(wraps.is_refused(block, length, LIPVEZOR_REFUSED_TILES), "pack refuses lengths whose sum would wrap to the bytes");
    Tiles empty = each;
    empty.lengths.push_back(0);
    expect(empty.is_refused(block, length, LIPVEZOR_REFUSED_TILES), "pack refuses a tile of no bytes");
    expect(empty.is_refused(block, length - 1, LIPVEZOR_REFUSED_LENGTH), "and a length before");
    expect(empty.is_refused(block, length + 1, LIPVEZOR_REFUSED_LENGTH), "and a greater length");

    lipvezor_block other = block;
    other.protocol = 8;
    other.lsc = 0;
    Bytes output(length);
    expect(one.pack(other, output) == LIPVEZOR_DONE, "a label does not count for pack");
    other.fill = size.k + 1;
    expect(empty.is_refused(other, length - 1, LIPVEZOR_REFUSED_FILL), "pack refuses a fill");
    other.w = 5;
    expect(empty.is_refused(other, length - 1, LIPVEZOR_REFUSED_FILL), "5 bytes are not narrow");
    other.w = 4;
    expect(empty.is_refused(other, length - 1, LIPVEZOR_REFUSED_NARROW), "4 bytes are");
    other.w = 0;
    expect(empty.is_refused(other, length - 1, LIPVEZOR_REFUSED_WIDTH), "0 bytes are no width");
    other.code = 3;
    expect(empty.is_refused(other, length - 1, LIPVEZOR_REFUSED_CODE), "pack refuses a code");
}

// LWC fill + 1 and k, which show and write refuse after a length and before a symbol
void show_and_write_idle(const Sizes &size, lipvezor_codeword codeword, Bytes &symbol)
{
    Bytes unit(size.unit);
    const size_t idle[] = {block.fill + 1, size.k};
    for (size_t lwc : idle) {
        expect(lipvezor_show(&block, &codeword, lwc, symbol.data(), symbol.size()) == LIPVEZOR_REFUSED_IDLE, "show refuses an idle LWC");
        expect(lipvezor_show(&block, &codeword, lwc, symbol.data(), W - 1) == LIPVEZOR_REFUSED_LENGTH, "show refuses a length before");
        expect(lipvezor_write(&block, lwc, symbol.data(), W, unit.data(), unit.size()) == LIPVEZOR_REFUSED_IDLE, "write refuses an idle LWC");
        expect(lipvezor_write(&block, lwc, symbol.data(), W - 1, unit.data(), unit.size()) == LIPVEZOR_REFUSED_IDLE, "idle before symbol");
    }
}

// a fill of 0, as of a record that does not name it, and of k + 1: every call with a record refuses it, before a length and after a label
void no_fill(const Sizes &size)
{
    const size_t fills[] = {0, size.k + 1, SIZE_MAX};
    uint8_t byte = 0xA5;
    uint64_t word = 0xA5;
    lipvezor_codeword codeword = {&byte, 1, &byte, 1};
    lipvezor_buffers buffers = {&byte, 1, &byte, 1};
    lipvezor_work work = {&word, 1, &byte, 1};
    lipvezor_taken taken = {};
    lipvezor_report report = {};
    for (size_t fill : fills) {
        lipvezor_block other = block;
        other.fill = fill;
        uint8_t out = 0xA5;
        const size_t length = 1;
        expect(lipvezor_pack(&other, &byte, 1, &length, 1, &out, 1) == LIPVEZOR_REFUSED_FILL, "pack refuses a fill");
        expect(lipvezor_encode(&other, &codeword) == LIPVEZOR_REFUSED_FILL, "encode refuses a fill");
        expect(lipvezor_show(&other, &codeword, 1, &out, 1) == LIPVEZOR_REFUSED_FILL, "show refuses a fill");
        expect(lipvezor_write(&other, 1, &byte, 1, &out, 1) == LIPVEZOR_REFUSED_FILL, "write refuses a fill");
        expect(lipvezor_open(&other, &buffers) == LIPVEZOR_REFUSED_FILL, "open refuses a fill");
        expect(lipvezor_take(&other, &buffers, &byte, 1, &taken) == LIPVEZOR_REFUSED_FILL, "take refuses a fill");
        expect(lipvezor_close(&other, &buffers, &work, &report) == LIPVEZOR_REFUSED_FILL, "close refuses a fill");
        other.lsc = 0;
        expect(lipvezor_open(&other, &buffers) == LIPVEZOR_REFUSED_LABEL, "open refuses a label before a fill");
        expect(byte == 0xA5 && word == 0xA5 && out == 0xA5, "and nothing is written");
    }
}

// every unit that is sent, in memory of its own
std::vector<Bytes> send(const Sizes &size, const Bytes &information, Bytes &parity)
{
    std::vector<Bytes> units;
    Bytes symbol(W);
    lipvezor_codeword codeword = {};
    codeword.information = information.data();
    codeword.information_length = information.size();
    codeword.parity = parity.data();
    codeword.parity_length = parity.size();
    expect(lipvezor_encode(&block, &codeword) == LIPVEZOR_DONE, "encode is done");
    for (size_t lwc = lipvezor_next_lwc(&block, 0); lwc != 0; lwc = lipvezor_next_lwc(&block, lwc)) {
        units.push_back(Bytes(size.unit));
        Bytes &unit = units.back();
        expect(lipvezor_show(&block, &codeword, lwc, symbol.data(), symbol.size()) == LIPVEZOR_DONE, "show is done");
        const uint8_t *sent = lwc <= size.k ? &information[(lwc - 1) * W] : &parity[(lwc - 1 - size.k) * W];
        expect(std::memcmp(symbol.data(), sent, W) == 0, "the symbol of an LWC");
        expect(lipvezor_write(&block, lwc, symbol.data(), symbol.size(), unit.data(), unit.size()) == LIPVEZOR_DONE, "write is done");
    }
    expect(units.size() == block.fill + size.m, "as many units as are sent");
    expect(lipvezor_show(&block, &codeword, size.n + 1, symbol.data(), symbol.size()) == LIPVEZOR_REFUSED_POSITION, "show refuses a position");
    if (block.fill < size.k) {
        show_and_write_idle(size, codeword, symbol);
    }
    codeword.parity_length--;
    expect(lipvezor_encode(&block, &codeword) == LIPVEZOR_REFUSED_LENGTH, "encode refuses a length");
    return units;
}

void look(const Sizes &size, const Bytes &unit)
{
    lipvezor_parts parts = lipvezor_parts();
    expect(lipvezor_read(unit.data(), unit.size(), &parts) == LIPVEZOR_DONE, "read is done");
    expect(parts.protocol == block.protocol && parts.count == 1 && parts.lwc == size.n && parts.lsc == block.lsc && parts.symbol == size.unit - W
           && parts.coding == 1 && parts.w == W && parts.k == size.k && parts.n == size.n && parts.seed == 0, "a unit's parts");
    expect(lipvezor_code_of(parts.k, parts.n) == block.code, "a unit's code");
    expect(lipvezor_read(unit.data(), 5, &parts) == LIPVEZOR_REFUSED_HEADER && parts.lwc == size.n, "a refused read leaves the parts");
}

struct Received {
    Bytes symbols, marks, bytes;
    std::vector<uint64_t> words;

    explicit Received(const Sizes &size)
        : symbols(size.symbols, 0xA5), marks(size.n, 0xA5), bytes(size.work_bytes, 0xA5), words(size.work_words, 0xA5)
    {
    }

    lipvezor_buffers buffers()
    {
        lipvezor_buffers all = {};
        all.symbols = symbols.data();
        all.symbols_length = symbols.size();
        all.marks = marks.data();
        all.marks_length = marks.size();
        return all;
    }

    uint8_t open()
    {
        const lipvezor_buffers lent = buffers();
        return lipvezor_open(&block, &lent);
    }

    uint8_t take(const lipvezor_block &of, const Bytes &unit, lipvezor_taken *taken)
    {
        const lipvezor_buffers lent = buffers();
        return lipvezor_take(&of, &lent, unit.data(), unit.size(), taken);
    }

    uint8_t close(size_t words_length, lipvezor_report *report)
    {
        const lipvezor_buffers lent = buffers();
        lipvezor_work work = {};
        work.words = words.data();
        work.words_length = words_length;
        work.bytes = bytes.data();
        work.bytes_length = bytes.size();
        return lipvezor_close(&block, &lent, &work, report);
    }
};

// half as many units are lost as there is parity, each as far from the next
size_t take_all(const Sizes &size, const std::vector<Bytes> &units, Received &received)
{
    const size_t step = 2 * units.size() / size.m;
    lipvezor_taken taken = lipvezor_taken();
    size_t kept = 0;
    expect(received.open() == LIPVEZOR_DONE, "open is done");
    for (size_t i = 0; i < units.size(); i++) {
        if (i % step == 0) {
            continue;
        }
        expect(received.take(block, units[i], &taken) == LIPVEZOR_DONE && taken.result == LIPVEZOR_KEPT, "a unit is kept");
        expect(received.take(block, units[i], &taken) == LIPVEZOR_DONE && taken.result == LIPVEZOR_REPEATED, "it is kept once");
        kept++;
    }
    lipvezor_block other = block;
    other.lsc++;
    taken.result = 77;
    expect(received.take(other, units[0], &taken) == LIPVEZOR_REFUSED_FOREIGN && taken.result == 77, "a refused take leaves its record");
    return kept;
}

// units with LWC fill + 1 and k, as a full block has them
void take_idle(const Sizes &size, Received &received)
{
    const Bytes symbol(W, 9), before = received.symbols, marks = received.marks;
    const lipvezor_block full = numbers(block.code, size.k);
    const size_t idle[] = {block.fill + 1, size.k};
    for (size_t lwc : idle) {
        Bytes unit(size.unit);
        lipvezor_taken taken = {77};
        expect(lipvezor_write(&full, lwc, symbol.data(), symbol.size(), unit.data(), unit.size()) == LIPVEZOR_DONE, "written in a full block");
        expect(received.take(block, unit, &taken) == LIPVEZOR_REFUSED_IDLE && taken.result == 77, "take refuses an idle LWC");
    }
    expect(received.symbols == before && received.marks == marks, "and keeps nothing");
    // heard before the fill was known: close does not count them
    received.symbols[(size.k - 1) * W] = 9;
    received.marks[size.k - 1] = LIPVEZOR_MARK_HEARD;
}

void close_all(const Sizes &size, Received &received, size_t kept)
{
    const size_t sent = block.fill + size.m;
    lipvezor_report report = {1, 2, 3, 4};
    expect(received.close(size.work_words - 1, &report) == LIPVEZOR_REFUSED_LENGTH && report.verdict == 1 && report.heard == 2
           && report.filled == 3 && report.left == 4, "a refused close leaves its record");
    expect(received.close(size.work_words, &report) == LIPVEZOR_DONE, "close is done");
    expect(report.verdict == LIPVEZOR_WHOLE && report.heard == kept && report.filled == sent - kept && report.left == 0, "the report");
}

void there_and_back()
{
    const Sizes size = sizes();
    pack_all(size);
    Bytes information(size.information), parity(size.parity);
    for (size_t i = 0; i < information.size(); i++) {
        information[i] = static_cast<uint8_t>(i * i >> 4);
    }
    const std::vector<Bytes> units = send(size, information, parity);
    look(size, units.back());
    Received received(size);
    const size_t kept = take_all(size, units, received);
    if (block.fill < size.k) {
        take_idle(size, received);
    }
    close_all(size, received, kept);
    expect(std::memcmp(received.symbols.data(), information.data(), information.size()) == 0, "the information is as sent");
    expect(std::memcmp(&received.symbols[size.k * W], parity.data(), parity.size()) == 0, "the parity is as sent");
    for (size_t i = block.fill; i < size.k; i++) {
        expect(received.marks[i] == 0 && Bytes(&received.symbols[i * W], &received.symbols[i * W] + W) == Bytes(W), "an idle position is zero");
    }
    no_fill(size);
}

} // namespace

int main()
{
    const size_t codes[] = {LIPVEZOR_C1, LIPVEZOR_C2, LIPVEZOR_C4, LIPVEZOR_C5, LIPVEZOR_C7, LIPVEZOR_C8};
    for (size_t code : codes) {
        const size_t k = lipvezor_k(code), fills[] = {k, 1, 2, k - 1};
        for (size_t fill : fills) {
            block = numbers(code, fill);
            there_and_back();
        }
    }
    expect(lipvezor_version() == LIPVEZOR_VERSION, "the version");
    if (!wrong) {
        std::printf("calls: all as the header says, %s\n", lipvezor_refusal_text(LIPVEZOR_DONE));
    }
    return wrong;
}
