/*
 * What include/lipvezor.h says by itself is what the archive says: size macros and size functions, the version, the records' layout; and the
 * texts of the refusals, and the LWCs that are sent. Exit status 0, or 1 and what is not so.
 */
#include "lipvezor.h"

#include <stdio.h>
#include <string.h>

/* the macros are constants */
static uint8_t information[LIPVEZOR_INFORMATION_BYTES(LIPVEZOR_C1, 16, LIPVEZOR_K(LIPVEZOR_C1))];
static uint8_t parity[LIPVEZOR_PARITY_BYTES(LIPVEZOR_C1, 16)];
static uint8_t symbols[LIPVEZOR_SYMBOL_BYTES(LIPVEZOR_C2, LIPVEZOR_MAX_WIDTH)];
static uint8_t marks[LIPVEZOR_N(LIPVEZOR_C2)];
static uint8_t unit[LIPVEZOR_UNIT_BYTES(LIPVEZOR_C2, LIPVEZOR_MAX_WIDTH)];
static uint64_t work_words[LIPVEZOR_WORK_WORDS(LIPVEZOR_C2)];
static uint8_t work_bytes[LIPVEZOR_WORK_BYTES(LIPVEZOR_C2, LIPVEZOR_MAX_WIDTH)];
_Static_assert(sizeof information == 8192 && sizeof parity == 4096, "C1's information and parity of 16 bytes a symbol");
_Static_assert(sizeof symbols == 3145728 && sizeof marks == 3072, "the largest block");
_Static_assert(sizeof unit == 1039 && LIPVEZOR_UNIT_BYTES(LIPVEZOR_C1, 127) == 141 && LIPVEZOR_UNIT_BYTES(LIPVEZOR_C1, 128) == 143, "units");
_Static_assert(sizeof work_words == 401408 && sizeof work_bytes == 1048576, "the largest work buffers");
_Static_assert(LIPVEZOR_SYMBOL_BYTES(LIPVEZOR_C1, 8 + 8) == 12288 && LIPVEZOR_UNIT_BYTES(LIPVEZOR_C1, 100 + 28) == 143, "a sum as W");
_Static_assert(LIPVEZOR_INFORMATION_BYTES(LIPVEZOR_C1, 8 + 8, 100 + 1) == 1616, "a sum as fill");
_Static_assert(LIPVEZOR_INFORMATION_BYTES(LIPVEZOR_C1, 16, 0) == 0 && LIPVEZOR_INFORMATION_BYTES(LIPVEZOR_C1, 16, 513) == 0
               && LIPVEZOR_INFORMATION_BYTES(LIPVEZOR_C2, 16, 513) == 8208 && LIPVEZOR_INFORMATION_BYTES(LIPVEZOR_C2, 16, 2049) == 0
               && LIPVEZOR_INFORMATION_BYTES(3, 16, 1) == 0, "a fill that is refused");
_Static_assert(LIPVEZOR_N(3) == 0 && LIPVEZOR_SYMBOL_BYTES(0, 16) == 0 && LIPVEZOR_UNIT_BYTES(6, 16) == 0 && LIPVEZOR_WORK_WORDS(9) == 0,
               "no code's sizes");
_Static_assert(LIPVEZOR_TILE_ROWS(5, 7) == 7 && LIPVEZOR_TILE_ROWS(16, 12) == 1 && LIPVEZOR_TILE_ROWS(16, 13) == 2 && LIPVEZOR_TILE_ROWS(16, 1) == 1
               && LIPVEZOR_TILE_ROWS(LIPVEZOR_MAX_WIDTH, 1020 + 1) == 2 && LIPVEZOR_TILE_ROWS(8 + 8, 8 + 16) == 2, "rows of a tile");
_Static_assert(LIPVEZOR_VERSION > 0 && LIPVEZOR_STACK > 0 && LIPVEZOR_CLOSE_STACK > LIPVEZOR_STACK, "other constants");

/* table 4-1 of the standard */
#define TABLE_4_1(code, n, k, m) _Static_assert(LIPVEZOR_N(code) == (n) && LIPVEZOR_K(code) == (k) && LIPVEZOR_M(code) == (m), #code)
TABLE_4_1(LIPVEZOR_C1, 768, 512, 256);
TABLE_4_1(LIPVEZOR_C2, 3072, 2048, 1024);
TABLE_4_1(LIPVEZOR_C4, 640, 512, 128);
TABLE_4_1(LIPVEZOR_C5, 2560, 2048, 512);
TABLE_4_1(LIPVEZOR_C7, 576, 512, 64);
TABLE_4_1(LIPVEZOR_C8, 2304, 2048, 256);

/* the archive has a record as words of 64 bits, numbers or a pointer and its length, in this order */
#define MEMBER(record, member, index) _Static_assert(offsetof(record, member) == (index) * sizeof(size_t), #record "." #member)
#define MEMBERS(record, count) _Static_assert(sizeof(record) == (count) * sizeof(size_t) && _Alignof(record) == _Alignof(size_t), #record)
MEMBERS(lipvezor_block, 5);
MEMBER(lipvezor_block, code, 0);
MEMBER(lipvezor_block, w, 1);
MEMBER(lipvezor_block, protocol, 2);
MEMBER(lipvezor_block, lsc, 3);
MEMBER(lipvezor_block, fill, 4);
MEMBERS(lipvezor_codeword, 4);
MEMBER(lipvezor_codeword, information, 0);
MEMBER(lipvezor_codeword, information_length, 1);
MEMBER(lipvezor_codeword, parity, 2);
MEMBER(lipvezor_codeword, parity_length, 3);
MEMBERS(lipvezor_buffers, 4);
MEMBER(lipvezor_buffers, symbols, 0);
MEMBER(lipvezor_buffers, symbols_length, 1);
MEMBER(lipvezor_buffers, marks, 2);
MEMBER(lipvezor_buffers, marks_length, 3);
MEMBERS(lipvezor_work, 4);
MEMBER(lipvezor_work, words, 0);
MEMBER(lipvezor_work, words_length, 1);
MEMBER(lipvezor_work, bytes, 2);
MEMBER(lipvezor_work, bytes_length, 3);
MEMBERS(lipvezor_parts, 10);
MEMBER(lipvezor_parts, protocol, 0);
MEMBER(lipvezor_parts, count, 1);
MEMBER(lipvezor_parts, lwc, 2);
MEMBER(lipvezor_parts, lsc, 3);
MEMBER(lipvezor_parts, symbol, 4);
MEMBER(lipvezor_parts, coding, 5);
MEMBER(lipvezor_parts, w, 6);
MEMBER(lipvezor_parts, k, 7);
MEMBER(lipvezor_parts, n, 8);
MEMBER(lipvezor_parts, seed, 9);
MEMBERS(lipvezor_taken, 1);
MEMBER(lipvezor_taken, result, 0);
MEMBERS(lipvezor_report, 4);
MEMBER(lipvezor_report, verdict, 0);
MEMBER(lipvezor_report, heard, 1);
MEMBER(lipvezor_report, filled, 2);
MEMBER(lipvezor_report, left, 3);

static int wrong;

static void same(const char *what, size_t w, size_t ours, size_t theirs)
{
    if (ours != theirs) {
        printf("sizes: %s, W %zu: %zu by the header, %zu by the archive\n", what, w, ours, theirs);
        wrong = 1;
    }
}

static void expect(int holds, const char *what)
{
    if (!holds) {
        printf("sizes: not so: %s\n", what);
        wrong = 1;
    }
}

#define SAME_INFORMATION(code, w, fill) \
    same(#code " information, fill " #fill, w, LIPVEZOR_INFORMATION_BYTES(code, w, fill), lipvezor_information_bytes(code, w, fill))

#define SAME_SIZES(code, w) \
    do { \
        same(#code " n", w, LIPVEZOR_N(code), lipvezor_n(code)); \
        same(#code " k", w, LIPVEZOR_K(code), lipvezor_k(code)); \
        same(#code " m", w, LIPVEZOR_M(code), lipvezor_m(code)); \
        SAME_INFORMATION(code, w, 0); \
        SAME_INFORMATION(code, w, 1); \
        SAME_INFORMATION(code, w, w); \
        SAME_INFORMATION(code, w, LIPVEZOR_K(code) - 1); \
        SAME_INFORMATION(code, w, LIPVEZOR_K(code)); \
        SAME_INFORMATION(code, w, LIPVEZOR_K(code) + 1); \
        same(#code " parity", w, LIPVEZOR_PARITY_BYTES(code, w), lipvezor_parity_bytes(code, w)); \
        same(#code " symbols", w, LIPVEZOR_SYMBOL_BYTES(code, w), lipvezor_symbol_bytes(code, w)); \
        same(#code " unit", w, LIPVEZOR_UNIT_BYTES(code, w), lipvezor_unit_bytes(code, w)); \
        same(#code " work words", w, LIPVEZOR_WORK_WORDS(code), lipvezor_work_words(code)); \
        same(#code " work bytes", w, LIPVEZOR_WORK_BYTES(code, w), lipvezor_work_bytes(code, w)); \
    } while (0)

/* 0 for numbers that are refused */
static void no_sizes(size_t code, size_t w)
{
    same("information, refused", w, 0, lipvezor_information_bytes(code, w, 1));
    same("information, refused", w, 0, lipvezor_information_bytes(code, w, 512));
    same("parity, refused", w, 0, lipvezor_parity_bytes(code, w));
    same("symbols, refused", w, 0, lipvezor_symbol_bytes(code, w));
    same("unit, refused", w, 0, lipvezor_unit_bytes(code, w));
    same("work bytes, refused", w, 0, lipvezor_work_bytes(code, w));
}

static void no_code(size_t code)
{
    same("n, refused", 0, 0, lipvezor_n(code));
    same("k, refused", 0, 0, lipvezor_k(code));
    same("m, refused", 0, 0, lipvezor_m(code));
    same("work words, refused", 0, 0, lipvezor_work_words(code));
    no_sizes(code, 1);
}

#define COUNT(array) (sizeof(array) / sizeof *(array))

static const size_t codes[] = {LIPVEZOR_C1, LIPVEZOR_C2, LIPVEZOR_C4, LIPVEZOR_C5, LIPVEZOR_C7, LIPVEZOR_C8};

/* 3, 6 and 9 are the standard's other codes */
static const size_t others[] = {0, 3, 6, 9, 10, 256 + 1, ((size_t)1 << 32) + 1, SIZE_MAX};

static void compare_sizes(void)
{
    const size_t widths[] = {0, LIPVEZOR_MAX_WIDTH + 1, SIZE_MAX};
    for (size_t w = 1; w <= LIPVEZOR_MAX_WIDTH; w++) {
        SAME_SIZES(LIPVEZOR_C1, w);
        SAME_SIZES(LIPVEZOR_C2, w);
        SAME_SIZES(LIPVEZOR_C4, w);
        SAME_SIZES(LIPVEZOR_C5, w);
        SAME_SIZES(LIPVEZOR_C7, w);
        SAME_SIZES(LIPVEZOR_C8, w);
    }
    for (size_t i = 0; i < COUNT(others); i++)
        no_code(others[i]);
    for (size_t i = 0; i < COUNT(codes); i++)
        for (size_t j = 0; j < COUNT(widths); j++)
            no_sizes(codes[i], widths[j]);
}

/* a fill may be 1 to k; the widest fills would not fit 64 bits */
static void compare_fills(void)
{
    const size_t fills[] = {0, 4096, (size_t)1 << 32, SIZE_MAX / 1024, SIZE_MAX};
    for (size_t i = 0; i < COUNT(codes); i++) {
        const size_t code = codes[i], k = lipvezor_k(code);
        for (size_t fill = 1; fill <= k; fill++)
            same("information by fill", 3, fill * 3, lipvezor_information_bytes(code, 3, fill));
        same("information, fill k + 1", 3, 0, lipvezor_information_bytes(code, 3, k + 1));
        for (size_t j = 0; j < COUNT(fills); j++) {
            same("information, a fill that is refused", 1024, 0, lipvezor_information_bytes(code, 1024, fills[j]));
            same("the same, by the macro", 1024, LIPVEZOR_INFORMATION_BYTES(code, (size_t)1024, fills[j]), 0);
        }
    }
}

static size_t rows_of_three(size_t w, size_t a, size_t b, size_t c)
{
    return lipvezor_rows_needed(w, (const size_t[]){a, b, c}, 3);
}

/* rows of tiles: each tile's by themselves, whole ones; not above SIZE_MAX */
static void compare_rows(void)
{
    const size_t refused[] = {0, 1, 4, LIPVEZOR_MAX_WIDTH + 1, SIZE_MAX};
    for (size_t w = 5; w <= LIPVEZOR_MAX_WIDTH; w++) {
        const size_t room = w - 4, lengths[] = {1, room, room + 1, 7 * room, 7 * room + 1, SIZE_MAX - 1, SIZE_MAX};
        for (size_t i = 0; i < COUNT(lengths); i++)
            same("rows of a tile", w, LIPVEZOR_TILE_ROWS(w, lengths[i]), lipvezor_rows_needed(w, &lengths[i], 1));
        same("rows of tiles", w, 1 + 1 + 2 + 7 + 8, lipvezor_rows_needed(w, lengths, 5));
        same("rows of no tile", w, 0, lipvezor_rows_needed(w, lengths, 0));
        same("rows of tiles of no bytes", w, 1, rows_of_three(w, 0, 1, 0));
    }
    same("rows just up to SIZE_MAX", 5, SIZE_MAX, rows_of_three(5, SIZE_MAX - 2, 1, 1));
    same("rows just below SIZE_MAX", 5, SIZE_MAX - 1, rows_of_three(5, 1, SIZE_MAX - 3, 1));
    same("rows above SIZE_MAX", 5, SIZE_MAX, rows_of_three(5, SIZE_MAX - 1, 1, 1));
    same("rows above SIZE_MAX, then more", 5, SIZE_MAX, rows_of_three(5, SIZE_MAX, SIZE_MAX, 7));
    same("rows above SIZE_MAX, W 6", 6, SIZE_MAX, rows_of_three(6, SIZE_MAX, SIZE_MAX, SIZE_MAX));
    for (size_t i = 0; i < COUNT(refused); i++)
        same("rows, refused", refused[i], 0, rows_of_three(refused[i], 1, 1000, SIZE_MAX));
}

/* the LWCs of a block's units, one by one */
static void compare_lwcs(const lipvezor_block *block)
{
    const size_t k = lipvezor_k(block->code), n = lipvezor_n(block->code);
    size_t next = lipvezor_next_lwc(block, 0), sent = 0;
    for (size_t lwc = 1; lwc <= n; lwc++) {
        const int idle = lwc > block->fill && lwc <= k;
        if (!idle) {
            expect(next == lwc, "the next LWC that is sent");
            next = lipvezor_next_lwc(block, lwc);
            sent++;
        } else {
            expect(lipvezor_next_lwc(block, lwc) == k + 1, "after an idle LWC the first of the parity");
        }
    }
    expect(next == 0, "none after the last");
    same("units sent", 0, block->fill + lipvezor_m(block->code), sent);
    expect(!lipvezor_next_lwc(block, n + 1) && !lipvezor_next_lwc(block, SIZE_MAX), "none after what is no LWC");
}

static void compare_next_lwc(void)
{
    for (size_t i = 0; i < COUNT(codes); i++) {
        const size_t k = lipvezor_k(codes[i]), fills[] = {1, 2, k / 2, k - 1, k}, refused[] = {0, k + 1, SIZE_MAX};
        for (size_t j = 0; j < COUNT(fills); j++)
            compare_lwcs(&(lipvezor_block){.code = codes[i], .w = 1, .lsc = 1, .fill = fills[j]});
        for (size_t j = 0; j < COUNT(refused); j++) {
            const lipvezor_block block = {.code = codes[i], .w = 1, .lsc = 1, .fill = refused[j]};
            expect(!lipvezor_next_lwc(&block, 0) && !lipvezor_next_lwc(&block, 1) && !lipvezor_next_lwc(&block, k), "none of a refused fill");
        }
    }
    for (size_t i = 0; i < COUNT(others); i++)
        for (size_t fill = 0; fill < 3; fill++)
            expect(!lipvezor_next_lwc(&(lipvezor_block){.code = others[i], .w = 1, .lsc = 1, .fill = fill}, 0), "none of a number that is no code's");
}

/* a code is found by its k and n, and by no other two */
static void compare_codes(void)
{
    for (size_t i = 0; i < COUNT(codes); i++) {
        const size_t code = codes[i], k = lipvezor_k(code), n = lipvezor_n(code);
        same("code of k and n", 0, lipvezor_code_of(k, n), code);
        expect(!lipvezor_code_of(k, n + 1) && !lipvezor_code_of(k - 1, n) && !lipvezor_code_of(n, k), "no code of other numbers");
        for (size_t j = 0; j < COUNT(codes); j++)
            expect(lipvezor_code_of(k, lipvezor_n(codes[j])) == (lipvezor_k(codes[j]) == k ? codes[j] : 0), "k and n of two codes");
    }
    expect(!lipvezor_code_of(0, 0) && !lipvezor_code_of(16384, 24576) && !lipvezor_code_of(SIZE_MAX, SIZE_MAX), "no code of such numbers");
}

static void compare_version(void)
{
    size_t first, second, third;
    char text[32];
    same("version", 0, LIPVEZOR_VERSION, lipvezor_version());
    expect(sscanf(LIPVEZOR_VERSION_TEXT, "%zu.%zu.%zu", &first, &second, &third) == 3, "the version's text has three numbers");
    same("version by its text", 0, first * 10000 + second * 100 + third, lipvezor_version());
    snprintf(text, sizeof text, "%zu.%zu.%zu", first, second, third);
    expect(strcmp(text, LIPVEZOR_VERSION_TEXT) == 0, "the version's text has nothing but them");
}

/* a number of the enum has a text of its own, any other the common one */
static void compare_texts(void)
{
    static const unsigned numbers[] = {
        LIPVEZOR_DONE, LIPVEZOR_REFUSED_CODE, LIPVEZOR_REFUSED_WIDTH, LIPVEZOR_REFUSED_NARROW, LIPVEZOR_REFUSED_LABEL, LIPVEZOR_REFUSED_FILL,
        LIPVEZOR_REFUSED_LENGTH, LIPVEZOR_REFUSED_TILES, LIPVEZOR_REFUSED_OVERFULL, LIPVEZOR_REFUSED_HEADER, LIPVEZOR_REFUSED_EXTENSION,
        LIPVEZOR_REFUSED_NUMBER, LIPVEZOR_REFUSED_EXTENSION_KIND, LIPVEZOR_REFUSED_PARAMETERS, LIPVEZOR_REFUSED_FOREIGN,
        LIPVEZOR_REFUSED_POSITION, LIPVEZOR_REFUSED_IDLE, LIPVEZOR_REFUSED_SYMBOL, LIPVEZOR_REFUSED_MARK, LIPVEZOR_REFUSED_CONFLICT,
    };
    const size_t count = COUNT(numbers);
    const char *common = lipvezor_refusal_text(255);
    size_t others = 0;
    for (unsigned number = 0; number < 1000; number++) {
        const char *text = lipvezor_refusal_text(number);
        expect(text && *text, "each number has a text");
        others += text && strcmp(text, common) == 0;
    }
    expect(others == 1000 - count, "as many texts as refusals, and done");
    for (size_t i = 0; i < count; i++)
        for (size_t j = 0; j < i; j++)
            expect(strcmp(lipvezor_refusal_text(numbers[i]), lipvezor_refusal_text(numbers[j])) != 0, "texts differ");
}

int main(void)
{
    compare_sizes();
    compare_fills();
    compare_rows();
    compare_next_lwc();
    compare_codes();
    compare_version();
    compare_texts();
    (void)information, (void)parity, (void)symbols, (void)marks, (void)unit, (void)work_words, (void)work_bytes;
    if (!wrong)
        printf("sizes: header and archive agree, version %s\n", LIPVEZOR_VERSION_TEXT);
    return wrong;
}
