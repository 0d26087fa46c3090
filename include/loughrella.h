/* Loughrella: a disk control unit to learn channel programming with (FIPS 97, fixed blocks of 512 bytes).
 *
 * Four functions: a chain is run, a class of chains is run, a unit record is set up, an alternate is given back. None keeps
 * anything between calls, allocates, prints or fails: every input has its result, and all that is written is in the buffers that
 * are lent. They may run at the same time on buffers of their own.
 *
 * A buffer is a pointer and its length in bytes; where the length is 0 the pointer may be anything, NULL too. The caller
 * owns the buffers and gets them back when the function returns. The buffers of one call must not overlap: nothing is
 * promised where they do. Numbers in them are big-endian.
 *
 * For C99 and later, and C++. Link with libloughrella.a (code for x86-64; it calls memcpy, memmove and memset).
 */
#ifndef LOUGHRELLA_H
#define LOUGHRELLA_H

#include <stddef.h>
#include <stdint.h>

#ifdef __cplusplus
extern "C" {
#endif

/* Grows with what this file offers, and says where a caller may have to change something.
 *   6  loughrella_give_back, and causes 50 and 51, which it alone gives. No caller has to change anything.
 *   5  Alternates for defective blocks. Every caller has to change two things: loughrella_run and loughrella_run_class take the
 *      number of alternates after the store's length, 0 where there are none, and then the store is what it was; and the unit
 *      record has 290 bytes, the 34 that it had and after them the map. To a record that was kept from before, 256 zeros are
 *      added. Cause 8 is new, of a call and of a chain of a class. A format was always refused by cause 39; where an alternate
 *      is unused it is done.
 *   4  loughrella_run_class, the walk over its results, and cause 7, which it alone gives. No caller has to change anything.
 *   3  Data chaining: flag 80 goes on with the same command in the next CCW. It was refused by cause 10. Chains without it are
 *      run as before. Where it is used there may be fewer answers than CCWs: who finds a CCW's answer by the CCW's number
 *      counts the pieces that were reached (see answers). And who takes unit status 00 for a program check looks for channel
 *      status 20, for the answer of a piece that is not the last is all zero. A chain whose CCWs all have flag 80 or 40 is
 *      refused by cause 5; it was run where one had 80 and not 40.
 *   2  The residual of a command that its parameters refused (causes 22 to 26, 32 to 39) is the count less the parameters,
 *      which were read. It was the whole count: who took it for that takes the count from the CCW.
 *   1  The first. */
#define LOUGHRELLA_VERSION 6

#define LOUGHRELLA_BLOCK_SIZE 512u       /* bytes of a block */
#define LOUGHRELLA_MAX_BLOCKS 131072u    /* blocks of a store, its alternates among them */
#define LOUGHRELLA_MAX_ALTERNATES 64u    /* alternates of a store */
#define LOUGHRELLA_MAX_STORAGE 16777216u /* bytes of main storage */
#define LOUGHRELLA_MAX_CHAIN 256u        /* bytes of a chain: 32 CCWs */
#define LOUGHRELLA_CCW_SIZE 8u
#define LOUGHRELLA_ANSWER_SIZE 8u
#define LOUGHRELLA_RECORD_SIZE 290u

/* The map, in the record: where it begins, the bytes of an entry, and the two entries that are no block's. */
#define LOUGHRELLA_MAP_AT 34u
#define LOUGHRELLA_ENTRY_SIZE 4u
#define LOUGHRELLA_UNUSED 0u
#define LOUGHRELLA_DEFECTIVE 0xFFFFFFFFu

/* Runs one command chain on one device.
 *
 * chain    8 bytes per CCW: command, data address (3), flags, ignored, count (2). Flags, in hexadecimal: 80 goes on with the
 *          same command in the next CCW, its next piece, whose command byte is ignored; 40 chains the next command; 20
 *          suppresses incorrect length. Next to 80 the other two mean nothing: a command has those of its final piece. The
 *          chain ends at the first CCW with neither 80 nor 40; what follows is not looked at. Only read.
 * storage  main storage, 0 to 16,777,216 bytes. A piece's data area is its count of bytes from its address; the command's data
 *          is that of its pieces, one after the other, and its count is their sum. Pieces may overlap: what is stored is
 *          stored in order, so that the later bytes stay.
 * store    the device, 1 to 131,072 blocks of 512 bytes, in a row: first its primary blocks, 1 at least, which are numbered
 *          from 0 and alone make its block count; behind them its alternates.
 * alternates
 *          how many of the store's blocks are alternates, 0 to 64: places for blocks that are defective.
 * record   the unit record, 290 bytes: sense (24), blocks read (3), blocks written with check (3), access movements (2), ready
 *          (1), read-only (1), the map (256). For ready and read-only 0 is no and any other value is yes. The map has an entry
 *          of 4 bytes for each of 64 alternates, in order: 0 for an unused one, FFFFFFFF for a defective one, else the number
 *          plus 1 of the block that is there. Of the first 34 bytes every value is right, of the map those that cause 8 leaves.
 *          The record is what the unit remembers from one call to the next; loughrella_record sets one up.
 * answers  at least as long as the chain. Each piece reached gets 8 bytes, in order and with no gap: unit status, channel
 *          status, residual count (2), cause, zero, blocks moved (2). Reached are the first piece of a command and each one
 *          where bytes moved; a command without flag 80 is one piece. The residual is the piece's own. The command's statuses,
 *          cause and blocks moved are in the last of its pieces that was reached; the answers before it are all zero. After
 *          causes 22 to 26 the unit has read the 16 bytes of parameters, after 32 to 39 the 8 bytes, and they are not left;
 *          after any other refusal all is left, and the first piece alone is reached. Bytes of answers beyond those stay as
 *          they are.
 *
 * A format (LOCATE, operation 4) gives a block the lowest unused alternate. From then on every READ, WRITE and READ IPL of the
 * block goes there. A block that had an alternate leaves it for the new one, and the old one is defective for good. No data is
 * moved: the driver writes the block again. Where no alternate is unused the format is refused by cause 39.
 *
 * Returns 256 times a cause plus the number of answers. With cause 0 that is 1 to 32: a piece that is reached counts as a
 * command reached. With causes 1 to 6 and 8 no command was reached and no byte of any buffer was changed.
 *
 * The most that one call can cost: 983,025 blocks stored, that is 503,308,800 bytes, nearly all of them zeros (fifteen short
 * WRITEs, each after a LOCATE for 65,535 blocks; on a smaller device 15 times its blocks); or 1,966,570 bytes moved to or from
 * main storage (a READ IPL of 512 bytes, a LOCATE, and one transfer of 30 pieces of 65,535; on a device of at least 3,840
 * blocks). The two do not come in one chain: one that stores that many blocks moves at most 1,049,192 bytes.
 * Alternates change none of these numbers: a format stores no block.
 * The first was 0.07 to 0.11 seconds on a busy 2-core x86-64 virtual machine; longer, where the system has yet to give the
 * store its memory (docs/SPEED.md).
 */
uint32_t loughrella_run(const uint8_t *chain, size_t chain_len, uint8_t *storage, size_t storage_len, uint8_t *store,
                        size_t store_len, uint32_t alternates, uint8_t *record, size_t record_len, uint8_t *answers,
                        size_t answers_len);

/* Marks a class: runs the chains of one buffer on one device, in order, each as loughrella_run runs it on what the chains
 * before it have left.
 *
 * chains   each chain after its length in bytes (2). A chain has any length, 0 too. Only read. An empty buffer is a class of no
 *          chain, and right.
 * storage, store, alternates, record
 *          as above; each chain finds what the one before it has left, the map too.
 * results  for each chain, in order and with no gap: its cause (2), the number of its answers (2), and room for one answer for
 *          each 8 bytes of its length, rounded up: LOUGHRELLA_RESULT_SIZE in all. The answers begin at the front of the room;
 *          bytes of it that they do not take stay as they are, and so do results behind all of these.
 *
 * Returns 0, whatever became of the chains: each has its own cause, 0 to 6 (never 4) or 8, in its own result. Or 256 times
 * LOUGHRELLA_BAD_CLASS, with nothing run and no byte of any buffer changed.
 *
 * It costs what its chains cost one by one.
 */
uint32_t loughrella_run_class(const uint8_t *chains, size_t chains_len, uint8_t *storage, size_t storage_len, uint8_t *store,
                              size_t store_len, uint32_t alternates, uint8_t *record, size_t record_len, uint8_t *results,
                              size_t results_len);

/* The bytes of results that a chain of this length, 0 to 65,535, takes. */
#define LOUGHRELLA_RESULT_SIZE(chain_len) (4u + ((size_t)(chain_len) + 7u) / 8u * LOUGHRELLA_ANSWER_SIZE)

/* A walk over the results of a class, from chain to chain, after a call that returned 0:
 *
 *     struct loughrella_walk at = loughrella_walk_results(chains, chains_len, results, results_len);
 *     while (loughrella_next_result(&at))
 *         printf("cause %u, %u answers\n", at.cause, at.reached);
 */
struct loughrella_walk {
    /* the chain that the walk has come to, and its result */
    const uint8_t *chain;
    size_t chain_len;
    unsigned cause, reached;
    const uint8_t *answers; /* as many as were reached, 8 bytes each */

    /* what lies ahead */
    const uint8_t *chains, *results;
    size_t chains_len, results_len;
};

/* A walk that has not come to a chain yet. */
static inline struct loughrella_walk loughrella_walk_results(const uint8_t *chains, size_t chains_len, const uint8_t *results,
                                                             size_t results_len)
{
    struct loughrella_walk at = {NULL, 0, 0, 0, NULL, chains, results, chains_len, results_len};
    return at;
}

/* Goes to the next chain: 1; or 0, with the walk as it was, behind the last one. Whatever the bytes are, it reads nothing outside
 * the two buffers and ends: where no whole chain with room for its result lies ahead. */
static inline int loughrella_next_result(struct loughrella_walk *at)
{
    size_t length, size;

    if (at->chains_len < 2) return 0;
    length = (size_t)at->chains[0] << 8 | at->chains[1];
    size = LOUGHRELLA_RESULT_SIZE(length);
    if (at->chains_len - 2 < length || at->results_len < size) return 0;
    at->chain = at->chains + 2;
    at->chain_len = length;
    at->cause = (unsigned)at->results[0] << 8 | at->results[1];
    at->reached = (unsigned)at->results[2] << 8 | at->results[3];
    at->answers = at->results + 4;
    at->chains += 2 + length;
    at->chains_len -= 2 + length;
    at->results += size;
    at->results_len -= size;
    return 1;
}

/* Sets up the record of a unit: no sense, all counts zero, the two bytes as given (0 is no, any other value is yes), every
 * alternate unused.
 * Returns 0; or 256 times LOUGHRELLA_BAD_RECORD, with nothing written, where the record is not 290 bytes. */
uint32_t loughrella_record(uint8_t *record, size_t record_len, uint8_t ready, uint8_t read_only);

/* Gives the alternate of a block back, as after a term: the block's data goes from the alternate to the block's own place, the
 * alternate is filled with zeros, and its entry of the map becomes unused, so that a later format may take it. Every block shows
 * to a READ what it showed before. An alternate that is defective is no block's, and is never given back.
 *
 * store, alternates, record
 *          as above. Of the store the block's own place and the alternate are written, of the record the alternate's entry of the
 *          map; all other bytes stay. It is not a command: whether the unit is ready or read-only is not looked at, and sense and
 *          counts stay.
 * block    the number of a block of the device, from 0.
 *
 * Returns 0; or 256 times a cause, with no byte changed: 2, 6 or 8, as loughrella_run gives them, then LOUGHRELLA_BEYOND_DEVICE,
 * then LOUGHRELLA_NOT_MAPPED; the first of them that holds.
 *
 * It costs a copy of one block and one block of zeros, whatever the device.
 */
uint32_t loughrella_give_back(uint8_t *store, size_t store_len, uint32_t alternates, uint8_t *record, size_t record_len,
                              uint32_t block);

/* The two parts of what is returned: the cause; and, by loughrella_run, the number of answers. */
#define LOUGHRELLA_CAUSE(result) ((result) / 256u)
#define LOUGHRELLA_REACHED(result) ((result) % 256u)

/* The causes: of a call (returned; of a chain of a class, in its result), and of a refused command (in its answer). */
enum loughrella_cause {
    LOUGHRELLA_ACCEPTED = 0,

    /* the call was refused: nothing was run and nothing written; the first of them that holds */
    LOUGHRELLA_BAD_CHAIN = 1,     /* chain length 0, over 256 or no multiple of 8 */
    LOUGHRELLA_BAD_STORE = 2,     /* store length 0, no multiple of 512, or over 131,072 blocks; or it has over 64 alternates, or
                                   * no primary block */
    LOUGHRELLA_BAD_STORAGE = 3,   /* main storage over 16,777,216 bytes */
    LOUGHRELLA_BAD_ANSWERS = 4,   /* answers shorter than the chain */
    LOUGHRELLA_ENDLESS_CHAIN = 5, /* every CCW has flag 80 or 40 */
    LOUGHRELLA_BAD_RECORD = 6,    /* the unit record is not 290 bytes */
    LOUGHRELLA_BAD_MAP = 8,       /* two entries of the map name one block, or one names a block that is no primary of the
                                   * device, or one beyond the device's alternates is not 0. 0 and FFFFFFFF name no block */

    /* the class was refused: nothing was run and nothing written */
    LOUGHRELLA_BAD_CLASS = 7, /* the lengths do not end at the buffer's end, or the results are shorter than all that room */

    /* program checks: unit status 00, channel status 20; the unit did not see the command. 13 first, then 10 to 12 piece by
     * piece; whichever piece it is, the answer is the first piece's, with its own count as residual */
    LOUGHRELLA_BAD_FLAGS = 10,       /* a flag other than 80, 40 and 20 is on */
    LOUGHRELLA_NO_COUNT = 11,        /* the count is 0 */
    LOUGHRELLA_OUTSIDE_STORAGE = 12, /* the data area leaves main storage; not tested for NO-OPERATION */
    LOUGHRELLA_NO_COMMAND = 13,      /* the low four bits of the command, of its first piece, are 0 or 8 */

    /* unit checks: unit status 0E, and new sense in the record */
    LOUGHRELLA_EXTENT_SHORT = 20,       /* DEFINE EXTENT: the sum of its counts is under 16 */
    LOUGHRELLA_EXTENT_STANDS = 21,      /* an extent stands already in this chain */
    LOUGHRELLA_BAD_MASK = 22,           /* mask bits 0-1 are 10, or one of bits 2, 3, 6, 7 is on, or byte 1 is not 0 */
    LOUGHRELLA_MAINTENANCE = 23,        /* mask bit 4 is on */
    LOUGHRELLA_BAD_BLOCK_SIZE = 24,     /* block size neither 0 nor 512 */
    LOUGHRELLA_FIRST_AFTER_LAST = 25,   /* first displacement greater than last */
    LOUGHRELLA_EXTENT_OUTSIDE = 26,     /* the extent leaves the device's primary blocks */
    LOUGHRELLA_NO_EXTENT = 30,          /* LOCATE: no extent in this chain */
    LOUGHRELLA_LOCATE_SHORT = 31,       /* the sum of its counts is under 8 */
    LOUGHRELLA_BAD_MODIFIER = 32,       /* modifier bit 0, 1 or 2 is on */
    LOUGHRELLA_BAD_OPERATION = 33,      /* not one of the five operations */
    LOUGHRELLA_BAD_BLOCK_COUNT = 34,    /* block count 0, or not 1 for a format */
    LOUGHRELLA_BAD_REPLICATION = 35,    /* replication count below the block count, or no multiple of it */
    LOUGHRELLA_OUTSIDE_EXTENT = 36,     /* a block to be processed is outside the extent */
    LOUGHRELLA_MASK_FORBIDS = 37,       /* the mask forbids the operation */
    LOUGHRELLA_READ_ONLY = 38,          /* the unit is read-only, and the operation writes or formats */
    LOUGHRELLA_NO_ALTERNATE = 39,       /* a format, and no alternate is unused; the map stays as it was */
    LOUGHRELLA_IPL_NOT_FIRST = 40,      /* READ IPL neither first in its chain nor after a READ IPL */
    LOUGHRELLA_NO_LOCATE = 41,          /* READ or WRITE not directly after an accepted LOCATE */
    LOUGHRELLA_OTHER_DIRECTION = 42,    /* READ after a LOCATE that writes, WRITE after one that reads, either after a format */
    LOUGHRELLA_UNKNOWN_COMMAND = 43,    /* not a command of this unit */
    LOUGHRELLA_NOT_READY = 44,          /* the unit is not ready */

    /* no alternate was given back: nothing was written. Tested after 2, 6 and 8 */
    LOUGHRELLA_BEYOND_DEVICE = 50, /* the block is none of the device's primary blocks */
    LOUGHRELLA_NOT_MAPPED = 51     /* the block lies at its own place */
};

#ifdef __cplusplus
}
#endif

#endif
