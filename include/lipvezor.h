/* SPDX-License-Identifier: Apache-2.0 */
/*
 * Lipvezor 0.5.1: the erasure layer of a satellite downlink (codes C1, C2, C4, C5, C7 and C8 of CCSDS 131.5-O-1), for C11 and C++11.
 *
 * Sending:   lipvezor_encode, then for each LWC of lipvezor_next_lwc lipvezor_show and lipvezor_write. Tiles may be packed first, by
 *            lipvezor_pack: what it makes is the information.
 * Receiving: lipvezor_open, lipvezor_take for each unit that arrives, in any order, and lipvezor_close. A block may be closed more than
 *            once, and units may be taken between two closes.
 *
 * Words
 *   symbol    W bytes. k information symbols and the m parity symbols made from them are the n = k + m symbols of a block.
 *   unit      the bytes that are sent for one symbol.
 *   LSC       the block's number, 1 to 65534.
 *   LWC       a symbol's number in its block, 1 to n: LWC 1 to k are information, k + 1 to n parity. A position counts from 0: LWC - 1.
 *   fill      how many information symbols a block has, 1 to k: k for a full block, less for a short one, such as a scene's last.
 *   idle      the information symbols above the fill, LWC fill + 1 to k: they are zero, and no unit is sent for them.
 *   tile      1 byte or more that belong together, such as a part of a scene; it may be more than an information symbol holds.
 *   row       an information symbol of packed tiles: 4 bytes that say how many tile bytes it has and which row follows, and those tile bytes.
 *
 * Answers. Every call of the archive but lipvezor_version and the sizes returns 0 (LIPVEZOR_DONE) or the number of a refusal (enum
 * lipvezor_refusal), and the compiler warns where that is not looked at. What else a call has to say it writes to a record that it was lent.
 * Every call may be handed any numbers, bytes and lengths: what does not fit is refused, the first refusal that applies is returned, in the
 * order of the enum, and a refused call has changed nothing that it was lent. A size of 0 says that the code, W or fill is refused, and
 * lipvezor_rows_needed is 0 also where there is no tile. All this is proved of the archive's source, for all inputs, and so is what each call
 * answers and leaves in every buffer.
 *
 * Which bytes may be used. Only a verdict of lipvezor_close says it: of a whole block all, of an ambiguous one the symbols that are not
 * marked as missing, of an inconsistent one none. The symbol of position p lies at symbols + p * W, so the information is the first
 * fill * W bytes (lipvezor_information_bytes); idle symbols are zeros after it, and the parity lies at symbols + k * W, whatever the fill. A
 * verdict holds until lipvezor_take keeps another unit: then the block is closed again.
 *
 * Warning: a unit does not carry the fill. Sender and receiver must both know it, from the scene's length or told by other means. A receiver
 * that does not know it yet opens the block and takes its units with fill k, and sets the fill in its record before it closes: what was taken
 * stays, and what was taken at a position that is now idle does not count. (If any was, that position's mark is 1: the fill is too small, or a
 * unit was changed on the way.) Where the receiver's fill is not the sender's:
 *  - too large, as k for a short block: positions that the sender has idle are missing like others. Nothing wrong is said, but less is filled:
 *    a block that would be whole is ambiguous, if more is missing than the parity can fill.
 *  - too small: symbols that were sent are taken for zeros, and their units are refused (idle). Where that contradicts what was heard, the
 *    block is inconsistent; where it does not, the block is whole or ambiguous, and wrong. So a fill that is not certain must not be too small.
 *
 * A unit, byte by byte, as lipvezor_write makes it; one that arrives may have other extensions too. It has no CRC-32: the frame or packet
 * layer below adds that when it sends a unit, and tests and removes it when one arrives. A unit that was changed on the way and is taken all
 * the same makes the block inconsistent where it contradicts the others; where it does not, the block is whole or ambiguous, and wrong.
 *   0         version 1 in the upper four bits, protocol ID (0 to 7) in the next three, reserved bit 0
 *   1         number of extensions: 1
 *   2, 3      LWC, big-endian
 *   4, 5      LSC, big-endian
 *   6         type of the extension: 1, coding parameters
 *   7         length of its value: 6, or 7 where W is 128 or more
 *   8 ...     W, k, n and seed 0 as SDNVs (RFC 6256, shortest form): 1 or 2, 2, 2 and 1 bytes
 *   then      the symbol's W bytes
 *
 * A row, byte by byte, as lipvezor_pack makes it. Row r is the information symbol of LWC r, from 1 on. Each tile begins a row of its own, and
 * every row but a tile's last is full. The rows from the last tile's end to the fill are all zeros; they are sent. No call takes tiles out of
 * rows again: the ground follows this table.
 *   0, 1      next, big-endian: r + 1 where the tile goes on in the following row, 0 where it ends here
 *   2, 3      count of the tile bytes in this row, big-endian: 1 to W - 4
 *   4 ...     the tile bytes, then zeros to the row's end
 *
 * What the caller must see to, as always in C:
 *  - a buffer is a pointer and, after it, its length in elements, as two arguments or in a record; the pointer is valid for that many,
 *    aligned for its type, and not NULL, even where the length is 0; a pointer to a record is not NULL either;
 *  - a buffer or record that a call may write overlaps no other that the same call gets. What a call only reads may overlap.
 *
 * Needs. x86-64 Linux; no library but C's own, and of that memcpy and memset alone. Nothing is allocated, no call keeps a pointer or reads
 * or writes anything but what it was lent, so two threads may call at the same time on different buffers. LIPVEZOR_STACK and
 * LIPVEZOR_CLOSE_STACK say how many bytes of stack a call takes at most.
 *
 * Versions. Until 1.0 a change of the second number may change this interface, and a change of the third does not. The archive and this
 * header belong together: lipvezor_version() == LIPVEZOR_VERSION. Compile again when the second number changes: a record may have grown.
 * Initialise a record by its members' names ({.code = ..., .w = ...}; in C++ before 20: lipvezor_block block = {}; block.code = ...;), so
 * that a member added in a later version is 0 in code that does not name it, and is refused with its own number where 0 does not fit.
 */
#ifndef LIPVEZOR_H
#define LIPVEZOR_H

#include <stddef.h>
#include <stdint.h>

#ifdef __cplusplus
extern "C" {
static_assert(sizeof(size_t) == 8, "lipvezor: a size_t has 64 bits");
#else
_Static_assert(sizeof(size_t) == 8, "lipvezor: a size_t has 64 bits");
#endif

/* The compiler warns where the answer of such a call is not looked at. */
#if defined(__GNUC__) || defined(__clang__)
#define LIPVEZOR_CHECKED __attribute__((warn_unused_result))
#else
#define LIPVEZOR_CHECKED
#endif

/* ---- version */

#define LIPVEZOR_VERSION_TEXT "0.5.1"
/* first number * 10000 + second * 100 + third */
#define LIPVEZOR_VERSION 501

/* The archive's version, as LIPVEZOR_VERSION. */
size_t lipvezor_version(void);

/* ---- refusals */

/* In the order in which they are tried, which is not that of the numbers. Extension, number and extension kind have one place in it: a unit's
   extensions are read byte by byte, and the first byte that can't be accepted decides. */
enum lipvezor_refusal {
    LIPVEZOR_DONE = 0,                /* not refused */
    LIPVEZOR_REFUSED_CODE = 1,        /* the code's number is not 1, 2, 4, 5, 7 or 8 */
    LIPVEZOR_REFUSED_WIDTH = 2,       /* W is 0 or above 1024 */
    LIPVEZOR_REFUSED_NARROW = 15,     /* W is below 5: a row has no place for a tile byte (pack) */
    LIPVEZOR_REFUSED_LABEL = 3,       /* LSC is 0 or above 65534, or the protocol ID is above 7 */
    LIPVEZOR_REFUSED_FILL = 13,       /* the fill is 0 or above k */
    LIPVEZOR_REFUSED_LENGTH = 4,      /* a symbol, mark, work, information, parity or output buffer is not exactly its size */
    LIPVEZOR_REFUSED_TILES = 16,      /* the length of a tile is 0, or the lengths don't add up to the tiles' bytes */
    LIPVEZOR_REFUSED_OVERFULL = 17,   /* the tiles need more rows than the fill */
    LIPVEZOR_REFUSED_HEADER = 5,      /* under 6 bytes, version not 1, reserved bit set, or extension count 0 */
    LIPVEZOR_REFUSED_EXTENSION = 6,   /* the unit's bytes end early: before a type, within a length, or before the end of a value */
    LIPVEZOR_REFUSED_NUMBER = 19,     /* an SDNV too long, too large or not in its shortest form */
    LIPVEZOR_REFUSED_EXTENSION_KIND = 20, /* type 0 or 255, a second type 1, or type 1 not exactly four numbers */
    LIPVEZOR_REFUSED_PARAMETERS = 7,  /* no type 1, or not the block's W, k, n and 0 */
    LIPVEZOR_REFUSED_FOREIGN = 8,     /* the unit's LSC or protocol ID is not the block's */
    LIPVEZOR_REFUSED_POSITION = 9,    /* LWC is 0 or above n */
    LIPVEZOR_REFUSED_IDLE = 14,       /* LWC is above the block's fill and not above k: no unit is sent for it */
    LIPVEZOR_REFUSED_SYMBOL = 10,     /* the symbol is not W bytes */
    LIPVEZOR_REFUSED_MARK = 11,       /* a mark above 2: at the unit's position (take), anywhere (close) */
    LIPVEZOR_REFUSED_CONFLICT = 12    /* heard there with other bytes */
};

/* What a call's answer means, in a few words for a log; never NULL. */
static inline const char *lipvezor_refusal_text(unsigned number)
{
    switch (number) {
    case LIPVEZOR_DONE: return "done";
    case LIPVEZOR_REFUSED_CODE: return "code: the number is not 1, 2, 4, 5, 7 or 8";
    case LIPVEZOR_REFUSED_WIDTH: return "width: W is 0 or above 1024";
    case LIPVEZOR_REFUSED_NARROW: return "narrow: W is below 5";
    case LIPVEZOR_REFUSED_LABEL: return "label: LSC is 0 or above 65534, or the protocol ID is above 7";
    case LIPVEZOR_REFUSED_FILL: return "fill: 0 or above k";
    case LIPVEZOR_REFUSED_LENGTH: return "length: a buffer isn't exactly its size";
    case LIPVEZOR_REFUSED_TILES: return "tiles: a length is 0, or the lengths don't add up to the bytes";
    case LIPVEZOR_REFUSED_OVERFULL: return "overfull: the tiles need more rows than the fill";
    case LIPVEZOR_REFUSED_HEADER: return "header: under 6 bytes, version not 1, reserved bit set, or no extensions";
    case LIPVEZOR_REFUSED_EXTENSION: return "extension: the unit's bytes end early";
    case LIPVEZOR_REFUSED_NUMBER: return "number: an SDNV too long, too large or not in its shortest form";
    case LIPVEZOR_REFUSED_EXTENSION_KIND: return "extension kind: type 0 or 255, a second type 1, or type 1 not exactly four numbers";
    case LIPVEZOR_REFUSED_PARAMETERS: return "parameters: none, or not the block's W, k, n and seed 0";
    case LIPVEZOR_REFUSED_FOREIGN: return "foreign: the unit's LSC or protocol ID isn't the block's";
    case LIPVEZOR_REFUSED_POSITION: return "position: LWC is 0 or above n";
    case LIPVEZOR_REFUSED_IDLE: return "idle: LWC is above the block's fill and not above k";
    case LIPVEZOR_REFUSED_SYMBOL: return "symbol: not W bytes";
    case LIPVEZOR_REFUSED_MARK: return "mark: above 2";
    case LIPVEZOR_REFUSED_CONFLICT: return "conflict: heard there before with other bytes";
    default: return "not a number of this version";
    }
}

/* ---- codes and sizes */

/* The codes, by their number. A higher rate, k / n, sends less parity and fills fewer losses; at the same rate the larger k fills more of them,
   and takes more memory. Loss: if each unit is lost with this probability, at most about 1 block in 1000 is not whole. A unit says its k and n,
   so a block of one code refuses the units of another (parameters). C2 has the largest of each size below. */
#define LIPVEZOR_C1 1                 /* k  512, m  256, n  768: rate 2/3, loss 27 % */
#define LIPVEZOR_C2 2                 /* k 2048, m 1024, n 3072: rate 2/3, loss 30 % */
#define LIPVEZOR_C4 4                 /* k  512, m  128, n  640: rate 4/5, loss 15 % */
#define LIPVEZOR_C5 5                 /* k 2048, m  512, n 2560: rate 4/5, loss 17 % */
#define LIPVEZOR_C7 7                 /* k  512, m   64, n  576: rate 8/9, loss  7 % */
#define LIPVEZOR_C8 8                 /* k 2048, m  256, n 2304: rate 8/9, loss  9 % */

/* The largest W, LSC and protocol ID. */
#define LIPVEZOR_MAX_WIDTH 1024
#define LIPVEZOR_MAX_LSC 65534
#define LIPVEZOR_MAX_PROTOCOL 7

/* Sizes as constants, for static buffers: LIPVEZOR_SYMBOL_BYTES(LIPVEZOR_C1, 16). They are 0 for a number that is no code's, and that of the
   information also for a fill that is refused; w is a W that is not refused. Of a short block only the information is less. */
#define LIPVEZOR_K(code) \
    ((code) == LIPVEZOR_C1 || (code) == LIPVEZOR_C4 || (code) == LIPVEZOR_C7 ? 512 \
     : (code) == LIPVEZOR_C2 || (code) == LIPVEZOR_C5 || (code) == LIPVEZOR_C8 ? 2048 : 0)
#define LIPVEZOR_M(code) \
    ((code) == LIPVEZOR_C1 ? 256 : (code) == LIPVEZOR_C4 ? 128 : (code) == LIPVEZOR_C7 ? 64 \
     : (code) == LIPVEZOR_C2 ? 1024 : (code) == LIPVEZOR_C5 ? 512 : (code) == LIPVEZOR_C8 ? 256 : 0)
#define LIPVEZOR_N(code) (LIPVEZOR_K(code) + LIPVEZOR_M(code))
#define LIPVEZOR_INFORMATION_BYTES(code, w, fill) ((fill) <= LIPVEZOR_K(code) ? (fill) * (w) : 0)
#define LIPVEZOR_PARITY_BYTES(code, w) (LIPVEZOR_M(code) * (w))
#define LIPVEZOR_SYMBOL_BYTES(code, w) (LIPVEZOR_N(code) * (w))
#define LIPVEZOR_UNIT_BYTES(code, w) (LIPVEZOR_N(code) == 0 ? 0 : ((w) < 128 ? 14 : 15) + (w))
#define LIPVEZOR_WORK_WORDS(code) (LIPVEZOR_M(code) * (LIPVEZOR_N(code) / 64 + 1))
#define LIPVEZOR_WORK_BYTES(code, w) (LIPVEZOR_M(code) * (w))

/* Rows that one tile needs, for a fill that is a constant: 20 * LIPVEZOR_TILE_ROWS(64, 1000) for 20 tiles of 1000 bytes. w is a W that
   lipvezor_pack does not refuse. */
#define LIPVEZOR_TILE_ROWS(w, length) ((length) / ((w) - 4) + ((length) % ((w) - 4) != 0))

/* The same sizes from the archive, for numbers that are known at run time only: 0 for a code, W or fill that is refused. */

/* n: symbols of a block, idle ones too, and the bytes of its marks. */
size_t lipvezor_n(size_t code);

/* k: information symbols, idle ones too; the largest fill. */
size_t lipvezor_k(size_t code);

/* m: parity symbols. */
size_t lipvezor_m(size_t code);

/* fill * W: bytes of the information. */
size_t lipvezor_information_bytes(size_t code, size_t w, size_t fill);

/* m * W: bytes of the parity. */
size_t lipvezor_parity_bytes(size_t code, size_t w);

/* n * W: bytes of a block's symbols, idle ones too. */
size_t lipvezor_symbol_bytes(size_t code, size_t w);

/* Bytes of a unit. */
size_t lipvezor_unit_bytes(size_t code, size_t w);

/* m * (n / 64 + 1): 64-bit words of close's first work buffer. */
size_t lipvezor_work_words(size_t code);

/* m * W: bytes of close's second work buffer. */
size_t lipvezor_work_bytes(size_t code, size_t w);

/*
 * Rows that tiles of these lengths need: the sum of length / (W - 4), each rounded up. With this fill a block is the shortest that holds the
 * tiles; where it is above k, they need more than one block. It is 0 for a W that lipvezor_pack refuses. A length of 0, which lipvezor_pack
 * refuses too, counts no row. Where the sum is above SIZE_MAX, it is SIZE_MAX.
 */
size_t lipvezor_rows_needed(size_t w, const size_t *lengths, size_t lengths_length);

/* The code with these k and n, as lipvezor_read finds them in a unit; 0, which is no code's number, if there is none. */
static inline size_t lipvezor_code_of(size_t k, size_t n)
{
    for (size_t code = LIPVEZOR_C1; code <= LIPVEZOR_C8; code++)
        if (k != 0 && lipvezor_k(code) == k && lipvezor_n(code) == n)
            return code;
    return 0;
}

/* Bytes of stack that lipvezor_close takes at most, and that every other call does. The loader's part is in it, where memset or memcpy is bound
   at its first call. */
#define LIPVEZOR_CLOSE_STACK 40000
#define LIPVEZOR_STACK 8000

/* ---- a block */

/* A block's numbers. Each call on the block is lent this record. */
typedef struct lipvezor_block {
    size_t code;                      /* the number of one of the codes above, as LIPVEZOR_C1 */
    size_t w;                         /* bytes of a symbol, 1 to LIPVEZOR_MAX_WIDTH */
    size_t protocol;                  /* protocol ID, 0 to 7 */
    size_t lsc;                       /* the block's number, 1 to 65534 */
    size_t fill;                      /* information symbols that are sent, 1 to k: k for a full block */
} lipvezor_block;

/*
 * The LWC of the unit that is sent after that of lwc, idle ones left out: 1 to fill, then k + 1 to n. After 0 it is the first, and after the
 * last it is 0, as for a code or fill that is refused:
 *
 *     for (size_t lwc = lipvezor_next_lwc(&block, 0); lwc != 0; lwc = lipvezor_next_lwc(&block, lwc))
 */
static inline size_t lipvezor_next_lwc(const lipvezor_block *block, size_t lwc)
{
    const size_t k = lipvezor_k(block->code);
    if (block->fill == 0 || block->fill > k || lwc >= lipvezor_n(block->code))
        return 0;
    return lwc < block->fill || lwc >= k ? lwc + 1 : k + 1;
}

/* The buffers of a block on board. encode writes the parity; no call changes this record or the information. */
typedef struct lipvezor_codeword {
    const uint8_t *information;       /* lipvezor_information_bytes bytes: fill * W */
    size_t information_length;
    uint8_t *parity;                  /* lipvezor_parity_bytes bytes */
    size_t parity_length;
} lipvezor_codeword;

/* The buffers of a block on the ground. open, take and close write to both; no call changes this record. */
typedef struct lipvezor_buffers {
    uint8_t *symbols;                 /* lipvezor_symbol_bytes bytes */
    size_t symbols_length;
    uint8_t *marks;                   /* lipvezor_n bytes, each an enum lipvezor_mark */
    size_t marks_length;
} lipvezor_buffers;

/* Work space of a close, for one block at a time. It may hold anything, and is all 0 after a verdict; no call changes this record. */
typedef struct lipvezor_work {
    uint64_t *words;                  /* lipvezor_work_words words */
    size_t words_length;              /* in words */
    uint8_t *bytes;                   /* lipvezor_work_bytes bytes */
    size_t bytes_length;
} lipvezor_work;

/* A position's mark. An idle position is neither missing nor heard, whatever its mark; open and a verdict of close give it 0. */
enum lipvezor_mark {
    LIPVEZOR_MARK_MISSING = 0,        /* its bytes are 0 after a close */
    LIPVEZOR_MARK_HEARD = 1,          /* taken from a unit */
    LIPVEZOR_MARK_FILLED = 2          /* filled by close */
};

/* ---- sending */

/*
 * Packs tiles into rows, an output of lipvezor_information_bytes bytes, which is the information for lipvezor_encode. The tiles' bytes lie one
 * after the other in tiles, and lengths has the bytes of each. Every byte of the output is written: without tiles all become 0. Of the block's
 * numbers code, w and fill count here, protocol and lsc do not.
 * Refuses: code, width, narrow, fill, length (of the output), tiles, overfull.
 */
LIPVEZOR_CHECKED
uint8_t lipvezor_pack(const lipvezor_block *block,
                      const uint8_t *tiles, size_t tiles_length,
                      const size_t *lengths, size_t lengths_length,
                      uint8_t *output, size_t output_length);

/*
 * Makes the parity of the information. Of the block's numbers code, w and fill count here, protocol and lsc do not.
 * Refuses: code, width, fill, length.
 */
LIPVEZOR_CHECKED
uint8_t lipvezor_encode(const lipvezor_block *block, const lipvezor_codeword *codeword);

/*
 * The symbol of an LWC, information or parity, copied to an output of W bytes. Of the block's numbers code, w and fill count here, protocol
 * and lsc do not.
 * Refuses: code, width, fill, length (of any of the three buffers), position, idle.
 */
LIPVEZOR_CHECKED
uint8_t lipvezor_show(const lipvezor_block *block, const lipvezor_codeword *codeword, size_t lwc,
                      uint8_t *output, size_t output_length);

/*
 * The unit of one symbol of W bytes, into an output of lipvezor_unit_bytes bytes. It may begin at any address; wide symbols are written
 * fastest where it is a multiple of 16, as malloc's are.
 * Refuses: code, width, label, fill, length (of the output), position, idle, symbol.
 */
LIPVEZOR_CHECKED
uint8_t lipvezor_write(const lipvezor_block *block, size_t lwc,
                       const uint8_t *symbol, size_t symbol_length,
                       uint8_t *output, size_t output_length);

/* ---- receiving */

/* What lipvezor_read finds in a unit. */
typedef struct lipvezor_parts {
    size_t protocol;                  /* protocol ID */
    size_t count;                     /* extensions */
    size_t lwc;
    size_t lsc;
    size_t symbol;                    /* where the symbol starts; it reaches to the unit's end */
    size_t coding;                    /* 1 if coding parameters (type 1) came; else 0, and the four after it are 0 */
    size_t w;
    size_t k;
    size_t n;
    size_t seed;
} lipvezor_parts;

/*
 * What a unit's bytes say by themselves, whatever block they are of. lipvezor_take reads units too: a receiver needs this call only to see
 * which block a unit is of.
 * Refuses: header; extension, number, extension kind.
 */
LIPVEZOR_CHECKED
uint8_t lipvezor_read(const uint8_t *unit, size_t unit_length, lipvezor_parts *parts);

/*
 * Opens a block: all symbol bytes and marks become 0. The caller hands the same numbers and buffers to each call on the block; only the fill
 * may be set later, before a close.
 * Refuses: code, width, label, fill, length.
 */
LIPVEZOR_CHECKED
uint8_t lipvezor_open(const lipvezor_block *block, const lipvezor_buffers *buffers);

/* What lipvezor_take did with a unit. */
enum lipvezor_result {
    LIPVEZOR_KEPT = 1,                /* the symbol is kept */
    LIPVEZOR_REPEATED = 2             /* heard before, with the same bytes; nothing changed */
};

typedef struct lipvezor_taken {
    size_t result;                    /* enum lipvezor_result */
} lipvezor_taken;

/*
 * Takes one unit. A kept symbol stands at its position, with mark LIPVEZOR_MARK_HEARD; it may take the place of a filled one. Only a kept
 * unit changes the block. A receiver goes on after a refusal: the unit counts as lost.
 * Refuses: all but narrow, tiles and overfull.
 */
LIPVEZOR_CHECKED
uint8_t lipvezor_take(const lipvezor_block *block, const lipvezor_buffers *buffers,
                      const uint8_t *unit, size_t unit_length,
                      lipvezor_taken *taken);

/* How many codewords agree with the symbols heard. 0 is no verdict. */
enum lipvezor_verdict {
    LIPVEZOR_WHOLE = 1,               /* just one: every symbol is there */
    LIPVEZOR_AMBIGUOUS = 2,           /* two or more: the symbols on which they all agree are filled */
    LIPVEZOR_INCONSISTENT = 3         /* none: a symbol was heard that was not sent; nothing is filled */
};

/* What lipvezor_close found. The counts add up to fill + m, which is n for a full block: idle positions are not counted. */
typedef struct lipvezor_report {
    size_t verdict;                   /* enum lipvezor_verdict */
    size_t heard;                     /* positions of which a unit was kept */
    size_t filled;                    /* missing ones that this close filled */
    size_t left;                      /* missing ones that it could not */
} lipvezor_report;

/*
 * Closes the block: each missing symbol that the heard ones determine is filled, with mark LIPVEZOR_MARK_FILLED; one that they leave open
 * has bytes and mark 0, and so has every idle one, whatever stood there. The answer 0 says that there is a verdict, not that the block is
 * whole: report->verdict says that.
 * Refuses: code, width, label, fill, length (of any of the four buffers), mark (also at an idle position).
 */
LIPVEZOR_CHECKED
uint8_t lipvezor_close(const lipvezor_block *block, const lipvezor_buffers *buffers, const lipvezor_work *work, lipvezor_report *report);

#ifdef __cplusplus
}
#endif

#endif
