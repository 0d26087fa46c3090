// Alternates for defective blocks (02, ask 4), all worked out by hand from the papers. The device has 8 primaries, 0 to 7, if nothing
// else is said; its alternates are blocks 8, 9, .. of the store. Block i of the store is filled with byte i, so what is read from an
// alternate shows 08, 09, ..
#include "test.h"
#include "words.h"

#include <stdio.h>
#include <string.h>

#include "loughrella.h"

#define ONE_MOVEMENT LOG("000000", "000000", "0001")

// Blocks 2 to 5, read to, or written from, 20 on.
#define READ_4 DEVICE "06000004 00000002 8*DD 2048*DD"
#define WRITE_4 DEVICE "01000004 00000002 8*DD 512*A1 512*A2 512*A3 512*A4"
#define READ_CHAIN DEFINE LOCATE "42 000020 00 00 0800"
#define WRITE_CHAIN DEFINE LOCATE "41 000020 00 00 0800"
#define READ_LOG LOG("000004", "000000", "0001")

// ---- The call: limits, and the map.

// A chain of one NO-OPERATION on a store of so many blocks.
static const struct limit {
    const char *name;
    uint32_t blocks, alternates, result;
} limits[] = {
    {"2, 64 alternates and a primary", 65, 64, 1},
    {"2, 65 alternates and a primary", 66, 65, 0x200},
    {"2, 64 alternates and two primaries", 66, 64, 1},
    {"2, 64 alternates and no primary", 64, 64, 0x200},
    {"2, 63 alternates and a primary", 64, 63, 1},
    {"2, a block that is the primary", 1, 0, 1},
    {"2, a block that is the alternate", 1, 1, 0x200},
    {"2, a primary and an alternate", 2, 1, 1},
    {"2, two alternates and no primary", 2, 2, 0x200},
    {"2, more alternates than blocks", 2, 3, 0x200},
    {"2, no block and an alternate", 0, 1, 0x200},
    {"2, 256 alternates are not 0", 300, 256, 0x200},
    {"2, 257 alternates are not 1", 300, 257, 0x200},
    {"2, 65,536 alternates", 8, 65536, 0x200},
    {"2, 2^31 alternates", 8, 0x80000000u, 0x200},
    {"2, 2^32 - 1 alternates", 8, 0xFFFFFFFFu, 0x200},
    {"2, 131,072 blocks in all, 64 of them alternates", 131072, 64, 1},
    {"2, 131,072 blocks in all, 65 of them alternates", 131072, 65, 0x200},
    {"2, 131,072 primaries and an alternate", 131073, 1, 0x200},
    {"2, 131,072 primaries and 64 alternates", 131136, 64, 0x200},
};

static bool is_so(const char *what, uint32_t result, uint32_t expected)
{
    if (result != expected) printf("  result of %s %lX, not %lX\n", what, (unsigned long)result, (unsigned long)expected);
    return result == expected;
}

// Whether the call comes out so; and a give back behind it, of no block, by the same 2 or 8, else by 50 (02, ask 6).
static bool comes_out(const struct buffers *library, const struct buffers *twin, uint32_t expected)
{
    uint32_t given = expected == 0x200 || expected == 0x800 ? expected : 0x3200;
    return is_so("the call", call_library(library), expected) && buffers_equal(library, twin) &&
           is_so("a give back", call_library_give_back(library, 0xFFFFFFFF), given) && buffers_equal(library, twin);
}

// NO-OPERATION where it should be accepted; where it should not, a SENSE, which would write to main storage, record and answers.
static bool call_gives(const size_t length[BUFFERS], uint32_t alternates, const uint8_t *map, uint32_t expected, bool at_end)
{
    struct buffers library, twin;
    buffers_place(&library, &twin, length, at_end);
    library.alternates = alternates;
    text_bytes(library.at[CHAIN], 8, expected == 1 ? NOP_END : "04 000000 20 00 0018");
    fill_rest(&library);
    if (map != NULL) memcpy(library.at[RECORD] + MAP_AT, map, MAP_SIZE);
    buffers_copy(&library, &twin);
    if (expected == 1) text_bytes(twin.at[ANSWERS], 8, NOP_DONE);
    return comes_out(&library, &twin, expected);
}

static bool limit_holds(const struct limit *l)
{
    size_t length[BUFFERS] = {8, 24, (size_t)BLOCK * l->blocks, RECORD_SIZE, 8};
    return call_gives(length, l->alternates, NULL, l->result, true) && call_gives(length, l->alternates, NULL, l->result, false);
}

// The order of the causes: 1 before 2, 2 before 3, where 2 is for the alternates.
static bool limit_order(void)
{
    static const size_t chain_of_7[BUFFERS] = {7, 24, 66 * BLOCK, RECORD_SIZE, 8};
    static const size_t long_storage[BUFFERS] = {8, MAX_STORAGE + 1, 66 * BLOCK, RECORD_SIZE, 8};
    struct buffers library, twin;
    buffers_place(&library, &twin, chain_of_7, true);
    memset(library.at[CHAIN], 0, 7);
    library.alternates = 65;
    return call_library(&library) == 0x100 && call_gives(long_storage, 65, NULL, 0x200, true) &&
           call_gives(long_storage, 64, NULL, 0x300, true);
}

// Cause 8, and its neighbours that are right.
static const struct map {
    const char *name, *why;
    uint32_t alternates;
    const char *entries; // zeros follow
    uint32_t result;
} maps[] = {
    {"8, no alternates, an empty map", "nothing is named", 0, "", 1},
    {"8, no alternates, the first entry", "beyond the device's alternates, and not 0", 0, "00000001", 0x800},
    {"8, no alternates, the last entry", "the same", 0, "252*00 00000001", 0x800},
    {"8, no alternates, a defective entry", "it is not 0 either", 0, "FFFFFFFF", 0x800},
    {"8, no alternates, each byte counts: the first", "01000000 is not 0", 0, "01", 0x800},
    {"8, no alternates, each byte counts: the last", "of all 256", 0, "255*00 01", 0x800},
    {"8, block 0", "its number plus 1 is 1", 1, "00000001", 1},
    {"8, the last primary", "7 plus 1", 1, "00000008", 1},
    {"8, the first alternate", "8 plus 1: it is no primary", 1, "00000009", 0x800},
    {"8, a defective alternate", "FFFFFFFF names no block", 1, "FFFFFFFF", 1},
    {"8, one less than defective", "it would name block FFFFFFFD", 1, "FFFFFFFE", 0x800},
    {"8, the sign bit", "80000001 is not 1", 1, "80000001", 0x800},
    {"8, the first byte", "01000001 is not 1", 1, "01000001", 0x800},
    {"8, the second byte", "00010001 is not 1", 1, "00010001", 0x800},
    {"8, the third byte", "00000101 is not 1", 1, "00000101", 0x800},
    {"8, big-endian", "08000000 is not 8", 1, "08000000", 0x800},
    {"8, the entry just beyond", "one alternate has one entry", 1, "00000001 00000002", 0x800},
    {"8, the entry just beyond, alone", "the same", 1, "00000000 00000002", 0x800},
    {"8, the entry just beyond is defective", "it is not 0", 1, "FFFFFFFF FFFFFFFF", 0x800},
    {"8, two blocks", "each is named once", 2, "00000003 00000004", 1},
    {"8, one block twice", "two entries name one primary", 2, "00000003 00000003", 0x800},
    {"8, two defective", "they are no names and may repeat", 2, "FFFFFFFF FFFFFFFF", 1},
    {"8, two unused", "so may zeros", 3, "00000000 00000003 00000000", 1},
    {"8, one block twice, not side by side", "0 between them", 3, "00000005 00000000 00000005", 0x800},
    {"8, one block twice, a defective one between", "for good", 3, "00000005 FFFFFFFF 00000005", 0x800},
    {"8, the last primary twice", "7 plus 1", 2, "00000008 00000008", 0x800},
    {"8, the last of 64", "it is the device's", 64, "252*00 00000001", 1},
    {"8, the last of 63", "it is not", 63, "252*00 00000001", 0x800},
    {"8, 64 defective", "all may be", 64, "256*FF", 1},
    {"8, 8 named and 56 defective", "no primary is left", 64,
     "00000008 00000007 00000006 00000005 00000004 00000003 00000002 00000001 224*FF", 1},
    {"8, the first and the last of 64", "two entries name one primary", 64, "00000002 248*FF 00000002", 0x800},
};

static bool map_gives(uint32_t primaries, uint32_t alternates, const uint8_t *map, uint32_t result)
{
    size_t length[BUFFERS] = {8, 24, (size_t)BLOCK * (primaries + alternates), RECORD_SIZE, 8};
    return call_gives(length, alternates, map, result, true);
}

static void check_maps(void)
{
    for (size_t i = 0; i < COUNT_OF(maps); i++) {
        uint8_t map[MAP_SIZE] = {0};
        text_bytes(map, MAP_SIZE, maps[i].entries);
        bool holds = map_gives(8, maps[i].alternates, map, maps[i].result);
        if (!holds) printf("  why: %s\n", maps[i].why);
        check("alternates", maps[i].name, holds);
    }
}

// 8 is about the record's values, whatever the unit's state is: not ready, read-only, with sense pending or without. The chain is
// one SENSE, which is done while not ready too.
static bool every_state(void)
{
    static const char *const states[] = {"24*00 8*00 00 00", "24*00 8*00 00 01", "24*00 8*00 01 01", PENDING_RECORD};
    for (size_t i = 0; i < COUNT_OF(states); i++) {
        static const size_t length[BUFFERS] = {8, 24, 9 * BLOCK, RECORD_SIZE, 8};
        struct buffers library, twin;
        buffers_place(&library, &twin, length, true);
        library.alternates = 1;
        fill_rest(&library);
        text_bytes(library.at[CHAIN], 8, "04 000000 00 00 0018");
        text_bytes(library.at[RECORD], MAP_AT, states[i]);
        put32(library.at[RECORD] + MAP_AT, 9);
        buffers_copy(&library, &twin);
        if (call_library(&library) != 0x800 || !buffers_equal(&library, &twin)) return printf("  state %zu\n", i), false;
        put32(library.at[RECORD] + MAP_AT, 8);
        if (call_library(&library) != 1) return printf("  state %zu, a right map\n", i), false;
    }
    return true;
}

// Every two entries of 64, naming one block or two.
static bool every_pair(void)
{
    for (uint32_t i = 0; i < MAX_ALTERNATES; i++)
        for (uint32_t k = 0; k < MAX_ALTERNATES; k++) {
            uint8_t map[MAP_SIZE] = {0};
            if (i == k) continue;
            put32(map + 4 * i, 3);
            put32(map + 4 * k, 3);
            if (!map_gives(8, 64, map, 0x800)) return printf("  entries %u and %u, one block\n", (unsigned)i, (unsigned)k), false;
            put32(map + 4 * k, 4);
            if (!map_gives(8, 64, map, 1)) return printf("  entries %u and %u, two blocks\n", (unsigned)i, (unsigned)k), false;
        }
    return true;
}

// Each entry on devices of 0 to 64 alternates: right below their number, wrong from there on.
static bool every_entry(void)
{
    for (uint32_t alternates = 0; alternates <= MAX_ALTERNATES; alternates++)
        for (uint32_t i = 0; i < MAX_ALTERNATES; i++) {
            uint8_t map[MAP_SIZE] = {0};
            put32(map + 4 * i, i % 2 == 0 ? 1 : DEFECTIVE);
            if (!map_gives(1, alternates, map, i < alternates ? 1 : 0x800))
                return printf("  entry %u of %u\n", (unsigned)i, (unsigned)alternates), false;
        }
    return true;
}

// The last primary and the one that is none, on devices of other sizes; the alternates behind them do not count.
static bool last_primaries(void)
{
    static const uint32_t sizes[] = {1, 2, 63, 64, 65, 255, 256, 257, 1000};
    for (size_t n = 0; n < COUNT_OF(sizes); n++)
        for (uint32_t i = 0; i < 4; i++) {
            uint8_t map[MAP_SIZE] = {0};
            put32(map + 4 * i, sizes[n]);
            if (!map_gives(sizes[n], 4, map, 1)) return printf("  %u primaries, entry %u\n", (unsigned)sizes[n], (unsigned)i), false;
            put32(map + 4 * i, sizes[n] + 1);
            if (!map_gives(sizes[n], 4, map, 0x800)) return printf("  %u primaries, one more\n", (unsigned)sizes[n]), false;
        }
    return true;
}

// The largest device: 131,072 blocks in all, 64 of them alternates. Its last primary is 131,007 (1FFBF), mapped to the last
// alternate, block 131,071 of the store. The READ IPL's extent ends with it: the LOCATE behind it is refused.
static bool largest_device(void)
{
    static const size_t length[BUFFERS] = {32, 40, (size_t)MAX_BLOCKS * BLOCK, RECORD_SIZE, 32};
    struct buffers library, twin;
    buffers_place(&library, &twin, length, true);
    library.alternates = 64;
    fill_rest(&library);
    text_bytes(library.at[CHAIN], 32, "02 000000 60 00 0001 43 000010 40 00 0008 42 000001 60 00 0001 43 000018 00 00 0008");
    text_bytes(library.at[STORAGE], 40, "16*DD 06000001 0001FFBF 06000001 0001FFC0 8*DD");
    text_bytes(library.at[RECORD] + 24, 10, "000000 000000 0000 " READY_RW);
    text_bytes(library.at[RECORD] + MAP_AT, MAP_SIZE, "252*00 0001FFC0");
    library.at[STORE][131071u * BLOCK] = 0x5A;
    buffers_copy(&library, &twin);
    text_bytes(twin.at[STORAGE], 2, "D2 5A");
    text_bytes(twin.at[RECORD], 32, SENSE_OUTSIDE " 16*00 000002 000000 0002");
    text_bytes(twin.at[ANSWERS], 32, MOVED("0001") DONE MOVED("0001") REFUSED("0000", "24"));
    return call_library(&library) == 4 && buffers_equal(&library, &twin);
}

static bool header_names(void)
{
    return LOUGHRELLA_VERSION == 6 && LOUGHRELLA_RECORD_SIZE == 290 && LOUGHRELLA_MAX_ALTERNATES == 64 && LOUGHRELLA_MAP_AT == 34 &&
           LOUGHRELLA_ENTRY_SIZE == 4 && LOUGHRELLA_UNUSED == 0 && LOUGHRELLA_DEFECTIVE == 0xFFFFFFFF && LOUGHRELLA_BAD_MAP == 8 &&
           LOUGHRELLA_MAP_AT + LOUGHRELLA_MAX_ALTERNATES * LOUGHRELLA_ENTRY_SIZE == LOUGHRELLA_RECORD_SIZE;
}

// ---- Formats.

#define FORMAT_DONE(n, w, before, locate, after, k) \
    {.name = n, .why = w, .alternates = k, .map = before, .storage = DEVICE locate, .chain = DEFINE LOCATE_END, \
     .answers = DONE DONE, .log = ONE_MOVEMENT, .map_after = after}
#define FORMAT_REFUSED(n, w, before, extent, locate, cause, sense_bytes, k) \
    {.name = n, .why = w, .alternates = k, .map = before, .storage = extent locate, .chain = DEFINE LOCATE_END, \
     .answers = DONE REFUSED("0000", cause), .sense = sense_bytes}

static const struct line format_lines[] = {
    FORMAT_DONE("a format", "the lowest unused alternate, 0, for block 3; no data moves, and one movement is counted",
                "", "04000001 00000003", "00000004", 2),
    FORMAT_DONE("a format of block 0", "0 plus 1", "", "04000001 00000000", "00000001", 1),
    FORMAT_DONE("a format of the last block", "7 plus 1", "", "04000001 00000007", "00000008", 1),
    FORMAT_DONE("a format with bit 3, and a replication count", "R1 and 01: both are ignored", "", "14770001 00000003", "00000004", 1),
    FORMAT_DONE("a hole in the map", "the lowest that is 0: the second", "00000001 00000000 00000003 00000000", "04000001 00000005",
                "00000001 00000006 00000003", 4),
    FORMAT_DONE("two holes behind defective ones", "FFFFFFFF is not unused: the third", "FFFFFFFF FFFFFFFF 00000000 00000002",
                "04000001 00000005", "FFFFFFFF FFFFFFFF 00000006 00000002", 5),
    FORMAT_DONE("the last entry of the device", "three are taken, the fourth is the last", "00000001 FFFFFFFF 00000003",
                "04000001 00000005", "00000001 FFFFFFFF 00000003 00000006", 4),
    FORMAT_DONE("a mapped block", "takes another, and the old one is defective", "00000004", "04000001 00000003",
                "FFFFFFFF 00000004", 2),
    FORMAT_DONE("a mapped block, and a hole before it", "the lowest unused is the first; the old one is the third",
                "00000000 00000002 00000004", "04000001 00000003", "00000004 00000002 FFFFFFFF", 3),
    FORMAT_DONE("a mapped block, and a hole behind it", "the third; the old one, the first, is not unused",
                "00000004 00000002", "04000001 00000003", "FFFFFFFF 00000002 00000004", 3),
    FORMAT_DONE("a neighbour of a mapped block", "block 4 is not block 3: nothing becomes defective", "00000004", "04000001 00000004",
                "00000004 00000005", 2),
    {.name = "a format in a data set", .why = "P5: displacement 12 is block 4, and 4 plus 1 is named", .alternates = 1,
     .storage = EXTENT("00000002", "0000000A", "0000000D") "04000001 0000000C", .chain = DEFINE LOCATE_END, .answers = DONE DONE,
     .log = ONE_MOVEMENT, .map_after = "00000005"},
    {.name = "a format in pieces", .why = "02, ask 2: 3 + 5 are the LOCATE's 8", .alternates = 1,
     .storage = DEVICE "040000 5*DD 01 00000003", .chain = DEFINE "43 000010 80 00 0003 43 000018 00 00 0005",
     .answers = DONE USED DONE, .log = ONE_MOVEMENT, .map_after = "00000004"},
    {.name = "incorrect length of a format", .why = "8 bytes can move, as of any LOCATE: 40, it is done, the chain ends",
     .alternates = 1, .storage = DEVICE "04000001 00000003 4*DD", .chain = DEFINE "43 000010 40 00 000C" NOP_END,
     .answers = DONE "0C 40 0004 00 00 0000", .log = ONE_MOVEMENT, .map_after = "00000004"},
    {.name = "a format zeroes the sense", .why = "01: each command that the unit sees does; FFFF movements stay", .alternates = 1,
     .record = PENDING "012345 06789A FFFF " READY_RW, .storage = DEVICE "04000001 00000003", .chain = DEFINE LOCATE_END,
     .answers = DONE DONE, .log = LOG("012345", "06789A", "FFFF"), .map_after = "00000004"},
    {.name = "one block three times", .why = "each takes the next and flags the one before, for good", .alternates = 4,
     .storage = DEVICE "04000001 00000003", .chain = DEFINE LOCATE LOCATE LOCATE_END, .answers = DONE DONE DONE DONE,
     .log = LOG("000000", "000000", "0003"), .map_after = "FFFFFFFF FFFFFFFF 00000004"},
    {.name = "two blocks by turns", .why = "a flagged alternate is never taken again: 3, 5, 3, 5", .alternates = 4,
     .storage = DEVICE "04000001 00000003 04000001 00000005", .chain = DEFINE LOCATE LOCATE2 LOCATE "43 000018 00 00 0008",
     .answers = DONE DONE DONE DONE DONE, .log = LOG("000000", "000000", "0004"), .map_after = "FFFFFFFF FFFFFFFF 00000004 00000006"},
};

// 39 exactly when none is unused; the map stays as it was, the refused LOCATE counts no movement and has read its 8 bytes.
static const struct line exhausted_lines[] = {
    FORMAT_REFUSED("39, no alternates", "none is unused where there is none", "", DEVICE, "04000001 00000003", "27",
                   EXHAUSTED("04000001 00000003"), 0),
    FORMAT_REFUSED("39, the only one is taken", "by another block", "00000001", DEVICE, "04000001 00000003", "27",
                   EXHAUSTED("04000001 00000003"), 1),
    FORMAT_REFUSED("39, the only one is defective", "for good", "FFFFFFFF", DEVICE, "04000001 00000003", "27",
                   EXHAUSTED("04000001 00000003"), 1),
    FORMAT_REFUSED("39, the only one is the block's own", "it is not unused, and stays the block's", "00000004", DEVICE,
                   "14770001 00000003", "27", EXHAUSTED("14770001 00000003"), 1),
    FORMAT_REFUSED("39, some taken, some defective", "none is 0", "00000001 FFFFFFFF 00000008", DEVICE, "04000001 00000003", "27",
                   EXHAUSTED("04000001 00000003"), 3),
    FORMAT_DONE("39 not given, the last one is unused", "one is enough", "00000001 FFFFFFFF", "04000001 00000003",
                "00000001 FFFFFFFF 00000004", 3),
    {.name = "39 after the last one", .why = "one is left for block 3; none for block 5; one movement", .alternates = 2, .map = "00000001",
     .storage = DEVICE "04000001 00000003 04000001 00000005", .chain = DEFINE LOCATE LOCATE2 NOP_END,
     .answers = DONE DONE REFUSED("0000", "27"), .sense = EXHAUSTED("04000001 00000005"), .log = ONE_MOVEMENT,
     .map_after = "00000001 00000004"},
    {.name = "39 of the same block again", .why = "its old one is flagged once; then it stays where it is", .alternates = 2,
     .storage = DEVICE "04000001 00000003", .chain = DEFINE LOCATE LOCATE LOCATE_END,
     .answers = DONE DONE DONE REFUSED("0000", "27"), .sense = EXHAUSTED("04000001 00000003"), .log = LOG("000000", "000000", "0002"),
     .map_after = "FFFFFFFF 00000004"},
    {.name = "39 with count 12", .why = "02, ask 1: 12 - 8 are left; no 40; sense and counts as found before", .alternates = 1,
     .map = "00000008", .record = PENDING_RECORD, .storage = DEVICE "04000001 00000003 4*DD", .chain = DEFINE "43 000010 40 00 000C" NOP_END,
     .answers = DONE REFUSED("0004", "27"), .sense = EXHAUSTED("04000001 00000003"), .log = COUNTS_AFTER},
    {.name = "39 in pieces", .why = "R5: the eight bytes as gathered; the second piece has 6 of 9 left", .alternates = 1, .map = "FFFFFFFF",
     .storage = DEVICE "04550001 00 3*DD 000003 6*DD", .chain = DEFINE "43 000010 80 00 0005 43 000018 00 00 0009",
     .answers = DONE USED REFUSED("0006", "27"), .sense = EXHAUSTED("04550001 00000003")},
    {.name = "39, then READ", .why = "the chain ends with a refusal", .alternates = 1, .map = "FFFFFFFF",
     .storage = DEVICE "04000001 00000003 8*DD", .chain = DEFINE LOCATE "42 000018 20 00 0001", .answers = DONE REFUSED("0000", "27"),
     .sense = EXHAUSTED("04000001 00000003")},
};

// What refuses a format before 39, with an alternate unused and with none: the map stays as it was.
#define MASK(byte) byte "000000 00000000 00000000 00000007 "
static const struct line refused_lines[] = {
    FORMAT_REFUSED("34, a format of no block", "01", "", DEVICE, "04000000 00000003", "22", SENSE_ARGUMENT, 1),
    FORMAT_REFUSED("34, a format of two blocks", "01; 002, 2.1.4: one block", "", DEVICE, "04000002 00000003", "22", SENSE_ARGUMENT, 2),
    FORMAT_REFUSED("34 before 39", "order", "FFFFFFFF", DEVICE, "04000002 00000003", "22", SENSE_ARGUMENT, 1),
    FORMAT_REFUSED("36, a format of the first alternate", "block 8 is none of the device's", "", DEVICE, "04000001 00000008", "24",
                   SENSE_OUTSIDE, 1),
    FORMAT_REFUSED("36 before 39", "order", "FFFFFFFF", DEVICE, "04000001 00000008", "24", SENSE_OUTSIDE, 1),
    FORMAT_REFUSED("37, mask 00", "it forbids formats", "", MASK("00"), "04000001 00000003", "25", SENSE_ARGUMENT, 1),
    FORMAT_REFUSED("37, mask 01", "it forbids formats and writes", "", MASK("40"), "04000001 00000003", "25", SENSE_ARGUMENT, 1),
    FORMAT_REFUSED("37 before 39, mask 00", "order", "FFFFFFFF", MASK("00"), "04000001 00000003", "25", SENSE_ARGUMENT, 1),
    FORMAT_REFUSED("37 before 39, mask 01", "order", "00000004", MASK("40"), "04000001 00000003", "25", SENSE_ARGUMENT, 1),
    {.name = "38, an alternate is unused", .why = "read-only", .record = READ_ONLY, .alternates = 1, .storage = DEVICE "04000001 00000003",
     .chain = DEFINE LOCATE_END, .answers = DONE REFUSED("0000", "26"), .sense = SENSE_INHIBITED},
    {.name = "38 before 39", .why = "order", .record = READ_ONLY, .alternates = 1, .map = "00000004", .storage = DEVICE "04000001 00000003",
     .chain = DEFINE LOCATE_END, .answers = DONE REFUSED("0000", "26"), .sense = SENSE_INHIBITED},
    {.name = "37, a format after READ IPL", .why = "its extent has mask 00", .alternates = 1, .storage = DEVICE "04000001 00000003",
     .chain = "02 000000 60 00 0001" LOCATE_END, .answers = MOVED("0001") REFUSED("0000", "25"), .sense = SENSE_ARGUMENT,
     .log = LOG("000001", "000000", "0001"), .storage_after = {{0, "00"}}},
    {.name = "30, a format without an extent", .why = "01", .alternates = 1, .storage = DEVICE "04000001 00000003", .chain = LOCATE_END,
     .answers = REFUSED("0008", "1E"), .sense = SENSE_SEQUENCE},
    {.name = "31, a format of 7 bytes", .why = "01", .alternates = 1, .storage = DEVICE "04000001 00000003",
     .chain = DEFINE "43 000010 20 00 0007", .answers = DONE REFUSED("0007", "1F"), .sense = SENSE_FEWER},
    {.name = "44, a format while not ready", .why = "01", .record = NOT_READY, .alternates = 1, .storage = DEVICE "04000001 00000003",
     .chain = DEFINE LOCATE_END, .answers = REFUSED("0010", "2C"), .sense = SENSE_NOT_READY},
};

// 42: the format is a LOCATE that stands, and neither reads nor writes.
static const struct line after_lines[] = {
    {.name = "42, READ after a format", .why = "the format is done and counted all the same", .alternates = 1,
     .storage = DEVICE "04000001 00000003 8*DD 512*DD", .chain = DEFINE LOCATE "42 000020 00 00 0200",
     .answers = DONE DONE REFUSED("0200", "2A"), .sense = SENSE_SEQUENCE, .log = ONE_MOVEMENT, .map_after = "00000004"},
    {.name = "42, WRITE after a format", .why = "nothing is stored", .alternates = 1, .storage = DEVICE "04000001 00000003 8*DD 512*A5",
     .chain = DEFINE LOCATE "41 000020 00 00 0200", .answers = DONE DONE REFUSED("0200", "2A"), .sense = SENSE_SEQUENCE,
     .log = ONE_MOVEMENT, .map_after = "00000004"},
    {.name = "42, a format replaces a read LOCATE", .why = "01: a later LOCATE replaces an earlier one", .alternates = 1,
     .storage = DEVICE "06000001 00000001 04000001 00000003 DD", .chain = DEFINE LOCATE LOCATE2 "42 000020 20 00 0001",
     .answers = DONE DONE DONE REFUSED("0001", "2A"), .sense = SENSE_SEQUENCE, .log = LOG("000000", "000000", "0002"),
     .map_after = "00000004"},
    {.name = "42, a format replaces a write LOCATE", .why = "the same", .alternates = 1,
     .storage = DEVICE "01000001 00000001 04000001 00000003 DD", .chain = DEFINE LOCATE LOCATE2 "41 000020 20 00 0001",
     .answers = DONE DONE DONE REFUSED("0001", "2A"), .sense = SENSE_SEQUENCE, .log = LOG("000000", "000000", "0002"),
     .map_after = "00000004"},
    {.name = "41, format, NO-OPERATION, READ", .why = "not directly after it", .alternates = 1,
     .storage = DEVICE "04000001 00000003 DD", .chain = DEFINE LOCATE "03 000000 40 00 0001 42 000018 20 00 0001",
     .answers = DONE DONE NOP_DONE REFUSED("0001", "29"), .sense = SENSE_SEQUENCE, .log = ONE_MOVEMENT, .map_after = "00000004"},
    {.name = "format, LOCATE, READ of the block", .why = "no data moved: it shows what the alternate held, 08s, not its 03s",
     .alternates = 1, .storage = DEVICE "04000001 00000003 06000001 00000003 512*DD",
     .chain = DEFINE LOCATE LOCATE2 "42 000020 00 00 0200", .answers = DONE DONE DONE MOVED("0001"),
     .log = LOG("000001", "000000", "0002"), .map_after = "00000004", .storage_after = {{0x20, "512*08"}}},
    {.name = "format, LOCATE, WRITE of the block", .why = "the data goes to the alternate; block 3 keeps its 03s", .alternates = 1,
     .storage = DEVICE "04000001 00000003 01000001 00000003 512*A5", .chain = DEFINE LOCATE LOCATE2 "41 000020 00 00 0200",
     .answers = DONE DONE DONE MOVED("0001"), .log = LOG("000000", "000000", "0002"), .map_after = "00000004",
     .store_after = {{8 * BLOCK, "512*A5"}}},
    {.name = "format, WRITE, READ, format again, READ",
     .why = "A5s go to alternate 0 and come back; the second format takes alternate 1, which holds 09s", .alternates = 2,
     .storage = DEVICE "04000001 00000003 05000001 00000003 06000001 00000003 8*DD 512*A5 512*DD 512*DD",
     .chain = DEFINE LOCATE LOCATE2 "41 000030 40 00 0200 43 000020 40 00 0008 42 000230 40 00 0200" LOCATE
              "43 000020 40 00 0008 42 000430 00 00 0200",
     .answers = DONE DONE DONE MOVED("0001") DONE MOVED("0001") DONE DONE MOVED("0001"), .log = LOG("000002", "000001", "0005"),
     .map_after = "FFFFFFFF 00000004", .storage_after = {{0x230, "512*A5 512*09"}}, .store_after = {{8 * BLOCK, "512*A5"}}},
    {.name = "WRITE, format, READ", .why = "what was written to the primary stays there, and is not shown any more", .alternates = 1,
     .storage = DEVICE "01000001 00000003 04000001 00000003 06000001 00000003 8*DD 512*A5 512*DD",
     .chain = DEFINE LOCATE "41 000030 40 00 0200" LOCATE2 "43 000020 40 00 0008 42 000230 00 00 0200",
     .answers = DONE DONE MOVED("0001") DONE DONE MOVED("0001"), .log = LOG("000001", "000000", "0003"), .map_after = "00000004",
     .storage_after = {{0x230, "512*08"}}, .store_after = {{3 * BLOCK, "512*A5"}}},
    {.name = "formats of two blocks, out of order, then READ", .why = "5 to alternate 0, 4 to alternate 1: blocks 3 to 6 are 03, 09, 08, 06",
     .alternates = 2, .storage = DEVICE "04000001 00000005 04000001 00000004 06000004 00000003 8*DD 2048*DD",
     .chain = DEFINE LOCATE LOCATE2 "43 000020 40 00 0008 42 000030 00 00 0800", .answers = DONE DONE DONE DONE MOVED("0004"),
     .log = LOG("000004", "000000", "0003"), .map_after = "00000006 00000005",
     .storage_after = {{0x30, "512*03 512*09 512*08 512*06"}}},
};

// ---- Transfers through the map.

#define READS_AS(n, w, before, after) \
    {.name = n, .why = w, .alternates = 4, .map = before, .storage = READ_4, .chain = READ_CHAIN, .answers = DONE DONE MOVED("0004"), \
     .log = READ_LOG, .storage_after = {{0x20, after}}}

static const struct line read_lines[] = {
    READS_AS("READ, no block mapped", "02 to 05", "", "512*02 512*03 512*04 512*05"),
    READS_AS("READ, others mapped", "1 and 6 are not read", "00000002 00000007", "512*02 512*03 512*04 512*05"),
    READS_AS("READ, only defective ones", "FFFFFFFF is nobody's", "FFFFFFFF FFFFFFFF", "512*02 512*03 512*04 512*05"),
    READS_AS("READ, the first mapped", "2 to alternate 0", "00000003", "512*08 512*03 512*04 512*05"),
    READS_AS("READ, the second mapped", "3 to alternate 1", "FFFFFFFF 00000004", "512*02 512*09 512*04 512*05"),
    READS_AS("READ, the last mapped", "5 to alternate 3", "12*00 00000006", "512*02 512*03 512*04 512*0B"),
    READS_AS("READ, first and last mapped", "2 to 1, 5 to 0", "00000006 00000003", "512*09 512*03 512*04 512*08"),
    READS_AS("READ, neighbours mapped in order", "3 to 1, 4 to 2: they lie in a row", "00000000 00000004 00000005",
             "512*02 512*09 512*0A 512*05"),
    READS_AS("READ, neighbours mapped the other way round", "4 to 1, 3 to 2", "00000000 00000005 00000004",
             "512*02 512*0A 512*09 512*05"),
    READS_AS("READ, neighbours mapped with a gap", "3 to 0, 4 to 2; 1 is defective", "00000004 FFFFFFFF 00000005",
             "512*02 512*08 512*0A 512*05"),
    READS_AS("READ, alternates in a row, blocks not", "2 to 0, 4 to 1", "00000003 00000005", "512*08 512*03 512*09 512*05"),
    READS_AS("READ, all mapped in order", "2 to 0, .. 5 to 3", "00000003 00000004 00000005 00000006", "512*08 512*09 512*0A 512*0B"),
    READS_AS("READ, all mapped in reverse", "2 to 3, .. 5 to 0", "00000006 00000005 00000004 00000003", "512*0B 512*0A 512*09 512*08"),
    READS_AS("READ, all mapped out of order", "4, 2, 5, 3", "00000005 00000003 00000006 00000004", "512*09 512*0B 512*08 512*0A"),
    READS_AS("READ, a row that goes on behind the blocks", "4, 5 and 6 to 0, 1 and 2: 6 is not read", "00000005 00000006 00000007",
             "512*02 512*03 512*08 512*09"),
    READS_AS("READ, a row that begins before the blocks", "1 and 2 to 0 and 1: 1 is not read", "00000002 00000003",
             "512*09 512*03 512*04 512*05"),
    {.name = "READ of the last primary and of the first alternate's number", .why = "block 7 is mapped; 8 is outside", .alternates = 1,
     .map = "00000008", .storage = DEVICE "06000001 00000007 06000001 00000008 DD",
     .chain = DEFINE LOCATE "42 000020 60 00 0001 43 000018 00 00 0008",
     .answers = DONE DONE MOVED("0001") REFUSED("0000", "24"), .sense = SENSE_OUTSIDE, .log = LOG("000001", "000000", "0001"),
     .storage_after = {{0x20, "08"}}},
    {.name = "READ of 513 bytes, the second block mapped", .why = "one byte of the alternate; 2 blocks moved", .alternates = 2,
     .map = "00000000 00000004", .storage = DEVICE "06000003 00000002 8*DD 520*DD", .chain = DEFINE LOCATE "42 000020 20 00 0201",
     .answers = DONE DONE MOVED("0002"), .log = LOG("000002", "000000", "0001"), .storage_after = {{0x20, "512*02 09"}}},
    {.name = "READ of 512 bytes, the second block mapped", .why = "it is not begun", .alternates = 2, .map = "00000000 00000004",
     .storage = DEVICE "06000003 00000002 8*DD 520*DD", .chain = DEFINE LOCATE "42 000020 20 00 0200",
     .answers = DONE DONE MOVED("0001"), .log = LOG("000001", "000000", "0001"), .storage_after = {{0x20, "512*02"}}},
    {.name = "READ in pieces across mapped blocks", .why = "300, 500, 400 and 336 bytes, backwards: of 02, 09, 0A", .alternates = 3,
     .map = "FFFFFFFF 00000004 00000005", .storage = DEVICE "06000003 00000002 8*DD 1536*DD",
     .chain = DEFINE LOCATE "42 0004F4 80 00 012C 42 000300 80 00 01F4 42 000170 80 00 0190 42 000020 00 00 0150",
     .answers = DONE DONE USED USED USED MOVED("0003"), .log = LOG("000003", "000000", "0001"),
     .storage_after = {{0x20, "336*0A"}, {0x170, "224*09 176*0A"}, {0x300, "212*02 288*09"}, {0x4F4, "300*02"}}},
    {.name = "READ in pieces that overlap, over a mapped block", .why = "02, ask 2: the later bytes stay, wherever they come from",
     .alternates = 1, .map = "00000004", .storage = DEVICE "06000002 00000002 8*DD 768*DD",
     .chain = DEFINE LOCATE "42 000020 80 00 0200 42 000120 00 00 0200", .answers = DONE DONE USED MOVED("0002"),
     .log = LOG("000002", "000000", "0001"), .storage_after = {{0x20, "256*02 512*08"}}},
    {.name = "a replicated READ", .why = "it takes the first unit, 2 and 3, through the map", .alternates = 2,
     .map = "00000004 00000005", .storage = DEVICE "02040002 00000002 8*DD 1024*DD", .chain = DEFINE LOCATE "42 000020 00 00 0400",
     .answers = DONE DONE MOVED("0002"), .log = LOG("000002", "000000", "0001"), .storage_after = {{0x20, "512*02 512*08"}}},
    {.name = "READ in a data set", .why = "P5: displacement 12 is block 4, which is mapped; 13, block 5, is not", .alternates = 2,
     .map = "0000000D 00000005", .blocks = 16, .storage = EXTENT("00000002", "0000000A", "0000000D") "06000002 0000000C 8*DD 1024*DD",
     .chain = DEFINE LOCATE "42 000020 00 00 0400", .answers = DONE DONE MOVED("0002"), .log = LOG("000002", "000000", "0001"),
     .storage_after = {{0x20, "512*11 512*05"}}},
    {.name = "a LOCATE that lies in an alternate", .why = "01, errors: what READ shows are the next LOCATE's bytes, for block 5",
     .alternates = 1, .map = "00000004", .storage = DEVICE "06000001 00000003 8*DD 512*DD", .store_before = {{8 * BLOCK, "06000001 00000005"}},
     .chain = DEFINE LOCATE "42 000010 60 00 0008" LOCATE "42 000020 00 00 0200",
     .answers = DONE DONE MOVED("0001") DONE MOVED("0001"), .log = LOG("000002", "000000", "0002"),
     .storage_after = {{0x10, "06000001 00000005"}, {0x20, "512*05"}}},
    {.name = "READ IPL of a mapped block 0", .why = "block 0 too goes through the map", .alternates = 3, .map = "00000002 FFFFFFFF 00000001",
     .storage = "512*DD", .chain = "02 000000 00 00 0200", .answers = MOVED("0001"), .log = LOG("000001", "000000", "0001"),
     .storage_after = {{0, "512*0A"}}},
    {.name = "READ IPL, another block mapped", .why = "block 0 is not", .alternates = 1, .map = "00000002", .storage = "512*DD",
     .chain = "02 000000 00 00 0200", .answers = MOVED("0001"), .log = LOG("000001", "000000", "0001"), .storage_after = {{0, "512*00"}}},
    {.name = "READ IPL twice, then READ of block 0 and 1", .why = "R4; all of them find alternate 0", .alternates = 1, .map = "00000001",
     .storage = DEVICE "06000002 00000000 8*DD 1024*DD",
     .chain = "02 000000 60 00 0001 02 000001 60 00 0002" LOCATE "42 000020 00 00 0400",
     .answers = MOVED("0001") MOVED("0001") DONE MOVED("0002"), .log = LOG("000004", "000000", "0003"),
     .storage_after = {{0, "08 08 08"}, {0x20, "512*08 512*01"}}},
};

#define WRITES_AS(n, w, before, ...) \
    {.name = n, .why = w, .alternates = 4, .map = before, .storage = WRITE_4, .chain = WRITE_CHAIN, .answers = DONE DONE MOVED("0004"), \
     .log = ONE_MOVEMENT, .store_after = {__VA_ARGS__}}

static const struct line write_lines[] = {
    WRITES_AS("WRITE, no block mapped", "2 to 5", "", {2 * BLOCK, "512*A1 512*A2 512*A3 512*A4"}),
    WRITES_AS("WRITE, others mapped", "1 and 6 are not written", "00000002 00000007", {2 * BLOCK, "512*A1 512*A2 512*A3 512*A4"}),
    WRITES_AS("WRITE, the first mapped", "block 2 keeps its bytes", "00000003", {3 * BLOCK, "512*A2 512*A3 512*A4"}, {8 * BLOCK, "512*A1"}),
    WRITES_AS("WRITE, the second mapped", "block 3 keeps its bytes", "FFFFFFFF 00000004", {2 * BLOCK, "512*A1"},
              {4 * BLOCK, "512*A3 512*A4"}, {9 * BLOCK, "512*A2"}),
    WRITES_AS("WRITE, the last mapped", "block 5 keeps its bytes", "12*00 00000006", {2 * BLOCK, "512*A1 512*A2 512*A3"},
              {11 * BLOCK, "512*A4"}),
    WRITES_AS("WRITE, neighbours mapped in order", "3 to 1, 4 to 2", "00000000 00000004 00000005", {2 * BLOCK, "512*A1"},
              {5 * BLOCK, "512*A4"}, {9 * BLOCK, "512*A2 512*A3"}),
    WRITES_AS("WRITE, neighbours mapped the other way round", "4 to 1, 3 to 2", "00000000 00000005 00000004", {2 * BLOCK, "512*A1"},
              {5 * BLOCK, "512*A4"}, {9 * BLOCK, "512*A3 512*A2"}),
    WRITES_AS("WRITE, a row that goes on behind the blocks", "4, 5 and 6 to 0, 1 and 2: 6 is not written",
              "00000005 00000006 00000007", {2 * BLOCK, "512*A1 512*A2"}, {8 * BLOCK, "512*A3 512*A4"}),
    WRITES_AS("WRITE, a row that begins before the blocks", "1 and 2 to 0 and 1: 1 is not written", "00000002 00000003",
              {3 * BLOCK, "512*A2 512*A3 512*A4"}, {9 * BLOCK, "512*A1"}),
    WRITES_AS("WRITE, all mapped in order", "2 to 0, .. 5 to 3", "00000003 00000004 00000005 00000006",
              {8 * BLOCK, "512*A1 512*A2 512*A3 512*A4"}),
    WRITES_AS("WRITE, all mapped out of order", "4, 2, 5, 3", "00000005 00000003 00000006 00000004",
              {8 * BLOCK, "512*A3 512*A1 512*A4 512*A2"}),
    {.name = "a short WRITE over mapped blocks",
     .why = "R2: 513 bytes; block 2, one byte and zeros in 3 (alternate 0), zeros in 4 and in 5 (alternate 1); 3 and 5 keep theirs",
     .alternates = 2, .map = "00000004 00000006", .storage = DEVICE "05000004 00000002 8*DD 512*A1 A2",
     .chain = DEFINE LOCATE "41 000020 20 00 0201", .answers = DONE DONE MOVED("0002"), .log = LOG("000000", "000004", "0001"),
     .store_after = {{2 * BLOCK, "512*A1"}, {4 * BLOCK, "512*00"}, {8 * BLOCK, "A2 511*00 512*00"}}},
    {.name = "a WRITE of one byte, all mapped", .why = "R2: zeros go to the alternates alone", .alternates = 3,
     .map = "00000006 00000004 00000005", .storage = DEVICE "01000003 00000003 8*DD A1", .chain = DEFINE LOCATE "41 000020 20 00 0001",
     .answers = DONE DONE MOVED("0001"), .log = ONE_MOVEMENT, .store_after = {{8 * BLOCK, "512*00 A1 511*00 512*00"}}},
    {.name = "a WRITE of 512 bytes, the second block mapped", .why = "R2: it is not begun, and all of it zeros", .alternates = 1,
     .map = "00000004", .storage = DEVICE "01000002 00000002 8*DD 512*A1", .chain = DEFINE LOCATE "41 000020 20 00 0200",
     .answers = DONE DONE MOVED("0001"), .log = ONE_MOVEMENT, .store_after = {{2 * BLOCK, "512*A1"}, {8 * BLOCK, "512*00"}}},
    {.name = "a long WRITE to a mapped block", .why = "513 bytes for 512: the alternate behind it stays", .alternates = 2, .map = "00000004",
     .storage = DEVICE "01000001 00000003 8*DD 513*A1", .chain = DEFINE LOCATE "41 000020 20 00 0201",
     .answers = DONE DONE "0C 00 0001 00 00 0001", .log = ONE_MOVEMENT, .store_after = {{8 * BLOCK, "512*A1"}}},
    {.name = "WRITE in pieces across mapped blocks", .why = "300, 500 and 1 bytes for 02, 09 and 0A: zeros behind them", .alternates = 3,
     .map = "FFFFFFFF 00000004 00000005", .storage = DEVICE "01000003 00000002 8*DD 300*A1 500*A2 A3",
     .chain = DEFINE LOCATE "41 000020 80 00 012C 41 00014C 80 00 01F4 41 000340 20 00 0001",
     .answers = DONE DONE USED USED MOVED("0002"), .log = ONE_MOVEMENT,
     .store_after = {{2 * BLOCK, "300*A1 212*A2"}, {9 * BLOCK, "288*A2 A3 223*00 512*00"}}},
    {.name = "WRITE after READ IPL of a mapped block 0", .why = "block 0 is written at its alternate", .alternates = 1, .map = "00000001",
     .storage = DEVICE "01000001 00000000 512*A1", .chain = "02 000000 60 00 0001" LOCATE "41 000018 00 00 0200",
     .answers = MOVED("0001") DONE MOVED("0001"), .log = LOG("000001", "000000", "0002"), .storage_after = {{0, "08"}},
     .store_after = {{8 * BLOCK, "512*A1"}}},
};

// What is neither a format nor a transfer leaves the map.
static const struct line other_lines[] = {
    {.name = "SENSE, the log, SENSE TYPE and NO-OPERATION", .why = "01: they zero sense and counts, and nothing behind them",
     .alternates = 3, .map = "00000004 FFFFFFFF 00000001", .record = PENDING_RECORD, .storage = "24*DD",
     .chain = "04 000000 60 00 0001 A4 000001 60 00 0001 E4 000002 60 00 0001" NOP_END, .answers = DONE DONE DONE NOP_DONE,
     .storage_after = {{0, "A1 00 FF"}}},
    {.name = "a unit check", .why = "a refusal replaces the 24 bytes of sense", .alternates = 3, .map = "00000004 FFFFFFFF 00000001",
     .record = PENDING_RECORD, .storage = DEVICE, .chain = "64 000000 00 00 0010", .answers = REFUSED("0010", "2B"),
     .sense = SENSE_COMMAND, .log = COUNTS_AFTER},
    {.name = "not ready", .why = "the same", .alternates = 3, .map = "00000004 FFFFFFFF 00000001", .record = NOT_READY,
     .storage = "512*DD", .chain = "02 000000 00 00 0200", .answers = REFUSED("0200", "2C"), .sense = SENSE_NOT_READY},
};

// The alternates are not counted: 26 and READ IPL's extent go by the primaries.
static const struct line extent_lines[] = {
    {.name = "26, all primaries", .why = "0 to 7", .alternates = 4, .storage = DEVICE, .chain = DEFINE_END, .answers = DONE},
    {.name = "26, one block of the alternates", .why = "0 to 8", .alternates = 4, .storage = EXTENT("00000000", "00000000", "00000008"),
     .chain = DEFINE_END, .answers = REFUSED("0000", "1A"), .sense = SENSE_ARGUMENT},
    {.name = "26, the alternates alone", .why = "8 is not below 8", .alternates = 4, .storage = EXTENT("00000008", "00000000", "00000003"),
     .chain = DEFINE_END, .answers = REFUSED("0000", "1A"), .sense = SENSE_ARGUMENT},
    {.name = "26, all blocks of the store", .why = "0 to 11", .alternates = 4, .storage = EXTENT("00000000", "00000000", "0000000B"),
     .chain = DEFINE_END, .answers = REFUSED("0000", "1A"), .sense = SENSE_ARGUMENT},
    {.name = "26, one primary and 64 alternates", .why = "block 0 alone", .blocks = 1, .alternates = 64,
     .storage = EXTENT("00000000", "00000000", "00000001"), .chain = DEFINE_END, .answers = REFUSED("0000", "1A"), .sense = SENSE_ARGUMENT},
    {.name = "READ IPL's extent ends with the primaries", .why = "block 8 is outside: 36", .alternates = 4,
     .storage = DEVICE "06000001 00000008 DD", .chain = "02 000018 60 00 0001" LOCATE_END,
     .answers = MOVED("0001") REFUSED("0000", "24"), .sense = SENSE_OUTSIDE, .log = LOG("000001", "000000", "0001"),
     .storage_after = {{0x18, "00"}}},
    {.name = "READ IPL's extent has the last primary", .why = "block 7", .alternates = 4, .storage = DEVICE "06000001 00000007 DD",
     .chain = "02 000018 60 00 0001" LOCATE_END, .answers = MOVED("0001") DONE, .log = LOG("000001", "000000", "0002"),
     .storage_after = {{0x18, "00"}}},
};

// READ or WRITE of 127 blocks from 3 on, of 200, with 64 alternates: every other block is mapped, in an order that has no system.
// Block 3 + 2 i is at alternate 37 i mod 64.
static uint32_t place_127(uint32_t block) { return (block - 3) % 2 != 0 ? block : 200 + (block - 3) / 2 * 37 % 64; }

static bool transfer_127(bool writes)
{
    struct text map = {.n = 0}, before = {.n = 0}, storage = {.n = 0}, after = {.n = 0};
    uint8_t entries[64] = {0}, bytes[264];
    struct line line = {.blocks = 200, .alternates = 64, .map = map.s, .storage = storage.s, .answers = DONE DONE MOVED("007F")};
    for (uint32_t i = 0; i < 64; i++) entries[i * 37 % 64] = (uint8_t)(3 + 2 * i + 1);
    for (uint32_t i = 0; i < 64; i++) add(&map, "000000%02X ", entries[i]);
    for (uint32_t i = 0; i < 264; i++) bytes[i] = (uint8_t)i;
    for (uint32_t i = 3; i < 130; i++) {
        add(&before, "512*%02X ", writes ? 255 - i : 0xDD);
        if (writes) bytes[place_127(i)] = (uint8_t)(255 - i);
        else add(&after, "512*%02X ", place_127(i) % 256);
    }
    for (uint32_t i = 0; writes && i < 264; i++) add(&after, "512*%02X ", bytes[i]);
    add(&storage, EXTENT("00000000", "00000000", "000000C7") "%s00007F 00000003 8*DD %s", writes ? "01" : "06", before.s);
    line.chain = writes ? DEFINE LOCATE "41 000020 00 00 FE00" : DEFINE LOCATE "42 000020 00 00 FE00";
    line.log = writes ? ONE_MOVEMENT : LOG("00007F", "000000", "0001");
    if (writes) line.store_after[0] = (struct change){0, after.s};
    else line.storage_after[0] = (struct change){0x20, after.s};
    return line_holds(&line);
}

// ---- Classes: each chain finds the map that the one before it left.

#define RAN(reached) "0000 " reached " "
#define FORMAT_3 "0010" DEFINE LOCATE_END
#define READ_3 "0018" DEFINE LOCATE2 "42 000020 20 00 0001 "
#define MOVED_ONE RAN("0003") DONE DONE MOVED("0001")

static const struct line class_lines[] = {
    {.name = "a class: format, then READ", .why = "the second chain finds the first one's map", .alternates = 1,
     .storage = DEVICE "04000001 00000003 06000001 00000003 DD", .chain = FORMAT_3 READ_3, .answers = RAN("0002") DONE DONE MOVED_ONE,
     .log = LOG("000001", "000000", "0002"), .map_after = "00000004", .storage_after = {{0x20, "08"}}},
    {.name = "a class: READ, format, format, READ", .why = "03s before, then alternate 1's 09s; alternate 0 is defective", .alternates = 2,
     .storage = DEVICE "04000001 00000003 06000001 00000003 2*DD",
     .chain = READ_3 FORMAT_3 FORMAT_3 "0018" DEFINE LOCATE2 "42 000021 20 00 0001",
     .answers = MOVED_ONE RAN("0002") DONE DONE RAN("0002") DONE DONE MOVED_ONE, .log = LOG("000002", "000000", "0004"),
     .map_after = "FFFFFFFF 00000004", .storage_after = {{0x20, "03 09"}}},
    {.name = "a class: 39, then READ and SENSE", .why = "the block is still at its alternate; READ's chain has zeroed the sense",
     .alternates = 1, .map = "00000004", .storage = DEVICE "04000001 00000003 06000001 00000003 DD 24*DD",
     .chain = FORMAT_3 "0008 04 000021 00 00 0018" READ_3, .answers = RAN("0002") DONE REFUSED("0000", "27") RAN("0001") DONE MOVED_ONE,
     .log = LOG("000001", "000000", "0001"), .storage_after = {{0x20, "08 80 01 00000000 00 0C 04000001 00000003 8*00"}}},
    {.name = "a class: format of block 0, then READ IPL", .why = "the second chain's block 0 is the alternate", .alternates = 1,
     .storage = DEVICE "04000001 00000000 DD", .chain = FORMAT_3 "0008 02 000018 20 00 0001",
     .answers = RAN("0002") DONE DONE RAN("0001") MOVED("0001"), .log = LOG("000001", "000000", "0002"), .map_after = "00000001",
     .storage_after = {{0x18, "08"}}},
    {.name = "a class with a bad map", .why = "8 stands in each chain's own result; 1 and 5 come before it; nothing is run", .alternates = 2,
     .map = "00000004 00000004", .storage = "24*DD", .chain = "0000 0008 04 000000 20 00 0018 0008 03 000000 40 00 0001" "0009 9*03" "0008" NOP_END,
     .answers = "0001 0000 0008 0000 8*EE 0005 0000 8*EE 0001 0000 16*EE 0008 0000 8*EE"},
    {.name = "a class with an entry and no alternates", .why = "8 is not the class's own cause: it returns 0", .map = "252*00 00000001",
     .storage = "24*DD", .chain = "0008 04 000000 20 00 0018 0008" NOP_END, .answers = "0008 0000 8*EE 0008 0000 8*EE"},
};

// Formats of 65 blocks on a device with 64 alternates, in three chains of 31, 31 and 3 formats. Each takes the next one; the 65th
// finds none. Where `again`, all are of one block: each flags the one before.
static bool formats_65(bool again)
{
    struct text storage = {.n = 0}, chain = {.n = 0}, answers = {.n = 0}, map = {.n = 0};
    struct line line = {.blocks = 100, .alternates = 64, .storage = storage.s, .chain = chain.s, .answers = answers.s, .map_after = map.s,
                        .log = LOG("000000", "000000", "0040"), .sense = again ? EXHAUSTED("04000001 00000005") : EXHAUSTED("04000001 00000040")};
    add(&storage, EXTENT("00000000", "00000000", "00000063"));
    for (unsigned i = 0; i < 65; i++) add(&storage, "04000001 %08X ", again ? 5 : i);
    for (unsigned i = 0; i < 65; i++) {
        if (i % 31 == 0) add(&chain, "%04X " DEFINE, i < 62 ? 256 : 32);
        if (i % 31 == 0) add(&answers, "0000 %04X " DONE, i < 62 ? 32 : 4);
        add(&chain, "43 %06X %s 00 0008 ", 16 + 8 * i, i % 31 == 30 || i == 64 ? "00" : "40");
        add(&answers, "%s", i < 64 ? DONE : REFUSED("0000", "27"));
        if (i < 64) add(&map, "%08X ", !again ? i + 1 : i < 63 ? DEFECTIVE : 6);
    }
    return class_holds(&line);
}

void test_alternates(void)
{
    for (size_t i = 0; i < COUNT_OF(limits); i++) check("alternates", limits[i].name, limit_holds(&limits[i]));
    check("alternates", "2, after 1 and before 3", limit_order());
    check_maps();
    check("alternates", "8, every state of the unit", every_state());
    check("alternates", "8, every two entries", every_pair());
    check("alternates", "8, every entry of 0 to 64 alternates", every_entry());
    check("alternates", "8, the last primary of other devices", last_primaries());
    check("alternates", "the largest device", largest_device());
    check("alternates", "the header's names", header_names());
    check_lines("formats", format_lines, COUNT_OF(format_lines));
    check_lines("formats", exhausted_lines, COUNT_OF(exhausted_lines));
    check_lines("formats", refused_lines, COUNT_OF(refused_lines));
    check_lines("formats", after_lines, COUNT_OF(after_lines));
    check("formats", "65 blocks, 64 alternates", formats_65(false));
    check("formats", "one block 65 times, 64 alternates", formats_65(true));
    check_lines("mapped", read_lines, COUNT_OF(read_lines));
    check_lines("mapped", write_lines, COUNT_OF(write_lines));
    check_lines("mapped", other_lines, COUNT_OF(other_lines));
    check_lines("mapped", extent_lines, COUNT_OF(extent_lines));
    check("mapped", "READ of 127 blocks, 64 of them mapped", transfer_127(false));
    check("mapped", "WRITE of 127 blocks, 64 of them mapped", transfer_127(true));
    check_classes("mapped", class_lines, COUNT_OF(class_lines));
}
