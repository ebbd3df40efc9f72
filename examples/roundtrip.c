/*
 * A C1 block there and back: encode, write a unit of each symbol, lose some, take the rest in another order, close, compare.
 * Exit status 0 and a line of counts, or 1 and what went wrong.
 *
 * With the library installed (make install):
 *     cc -std=c11 roundtrip.c $(pkg-config --cflags --libs lipvezor) -o roundtrip
 */
#include "lipvezor.h"

#include <stdio.h>
#include <string.h>

/* a full block; with a smaller FILL it is a short one, of so many information symbols */
enum { CODE = LIPVEZOR_C1, W = 16, FILL = LIPVEZOR_K(CODE), N = LIPVEZOR_N(CODE) };

static const lipvezor_block block = {.code = CODE, .w = W, .protocol = 1, .lsc = 7, .fill = FILL};

/* the sender's buffers; units is the link */
static uint8_t information[LIPVEZOR_INFORMATION_BYTES(CODE, W, FILL)];
static uint8_t parity[LIPVEZOR_PARITY_BYTES(CODE, W)];
static const lipvezor_codeword codeword = {
    .information = information, .information_length = sizeof information, .parity = parity, .parity_length = sizeof parity};
static uint8_t units[N][LIPVEZOR_UNIT_BYTES(CODE, W)];
static size_t sent;

/* the receiver's */
static uint8_t symbols[LIPVEZOR_SYMBOL_BYTES(CODE, W)];
static uint8_t marks[N];
static uint64_t work_words[LIPVEZOR_WORK_WORDS(CODE)];
static uint8_t work_bytes[LIPVEZOR_WORK_BYTES(CODE, W)];
static const lipvezor_buffers buffers = {.symbols = symbols, .symbols_length = sizeof symbols, .marks = marks, .marks_length = sizeof marks};
static const lipvezor_work work = {
    .words = work_words, .words_length = LIPVEZOR_WORK_WORDS(CODE), .bytes = work_bytes, .bytes_length = sizeof work_bytes};

static int fail(const char *call, uint8_t refused)
{
    fprintf(stderr, "roundtrip: %s: refused %u, %s\n", call, (unsigned)refused, lipvezor_refusal_text(refused));
    return 1;
}

/* on board: 0, or 1 if a call refused */
static int send_block(void)
{
    uint8_t refused = lipvezor_encode(&block, &codeword);
    if (refused)
        return fail("encode", refused);
    for (size_t lwc = lipvezor_next_lwc(&block, 0); lwc != 0; lwc = lipvezor_next_lwc(&block, lwc)) {
        uint8_t symbol[W];
        refused = lipvezor_show(&block, &codeword, lwc, symbol, sizeof symbol);
        if (refused)
            return fail("show", refused);
        refused = lipvezor_write(&block, lwc, symbol, sizeof symbol, units[sent], sizeof units[sent]);
        if (refused)
            return fail("write", refused);
        sent++;
    }
    return 0;
}

/* every fourth unit does not arrive */
static int lost(size_t i)
{
    return i % 4 == 0;
}

/* on the ground: 0 and what close found, or 1 if a call refused */
static int receive_block(lipvezor_report *report)
{
    uint8_t refused = lipvezor_open(&block, &buffers);
    if (refused)
        return fail("open", refused);
    for (size_t i = sent; i-- > 0;) {
        lipvezor_taken taken;
        if (lost(i))
            continue;
        refused = lipvezor_take(&block, &buffers, units[i], sizeof units[i], &taken);
        if (refused)
            return fail("take", refused);
    }
    refused = lipvezor_close(&block, &buffers, &work, report);
    return refused ? fail("close", refused) : 0;
}

/* only a whole block's bytes may be used */
static int as_sent(const lipvezor_report *report)
{
    return report->verdict == LIPVEZOR_WHOLE && memcmp(symbols, information, sizeof information) == 0;
}

int main(void)
{
    lipvezor_report report;
    if (lipvezor_version() != LIPVEZOR_VERSION) {
        fprintf(stderr, "roundtrip: the library is not of this header's version, %s\n", LIPVEZOR_VERSION_TEXT);
        return 1;
    }
    for (size_t i = 0; i < sizeof information; i++)
        information[i] = (uint8_t)(i * i >> 4);
    if (send_block() || receive_block(&report))
        return 1;
    if (!as_sent(&report)) {
        fprintf(stderr, "roundtrip: not as sent: verdict %zu, heard %zu, filled %zu, left %zu\n", report.verdict, report.heard, report.filled,
                report.left);
        return 1;
    }
    printf("whole: heard %zu, filled %zu, left %zu, as sent\n", report.heard, report.filled, report.left);
    return 0;
}
