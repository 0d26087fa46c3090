// Data chaining (02, ask 2): commands in pieces, each line worked out by hand from the papers.
#include "test.h"
#include "words.h"

#include <stdio.h>

#define ONE_MOVEMENT LOG("000000", "000000", "0001")

// Parameters are gathered.
static const struct line gather_lines[] = {
    {.name = "DEFINE EXTENT in two pieces", .why = "parameters may be gathered, and 10 + 6 are 16: P1",
     .storage = "0000 00000005 10*DD C0000000 00000002 0000 6*DD",
     .chain = "63 000010 80 00 000A 63 000000 00 00 0006", .answers = USED DONE},
    {.name = "LOCATE in two pieces", .why = "3 + 5 are 8; the READ is directly after it, and its answer too",
     .storage = DEVICE "060000 5*DD 01 00000003 3*DD 512*DD",
     .chain = DEFINE "43 000010 80 00 0003 43 000018 40 00 0005 42 000020 00 00 0200", .answers = DONE USED DONE MOVED("0001"),
     .log = LOG("000001", "000000", "0001"), .storage_after = {{0x20, "512*03"}}},
    {.name = "39 in two pieces", .why = "R5: sense has the LOCATE's eight bytes, as gathered",
     .storage = DEVICE "0001 00000003 2*DD 1477 6*DD", .chain = DEFINE "43 000018 80 00 0002 43 000010 00 00 0006",
     .answers = DONE USED REFUSED("0000", "27"), .sense = "80 01 00000000 00 0C 14770001 00000003"},
    {.name = "39 in three pieces", .why = "the third is not reached; of the second's 9 bytes 5 were read",
     .storage = DEVICE "147700 5*DD 01 00000003 4*DD", .chain = DEFINE "43 000010 80 00 0003 43 000018 80 00 0009 43 000000 40 00 0001" NOP_END,
     .answers = DONE USED REFUSED("0004", "27"), .sense = "80 01 00000000 00 0C 14770001 00000003"},
    {.name = "a LOCATE that a READ scattered", .why = "01, errors: parameters are taken when the command runs; displacement 0 has become 5",
     .storage = DEVICE "06000001 00000005 06000001 00000000 4*DD",
     .chain = DEFINE LOCATE "42 00001F 80 00 0001 42 000020 60 00 0001 43 000018 80 00 0004 43 00001C 40 00 0004 42 000021 20 00 0001",
     .answers = DONE DONE USED MOVED("0001") USED DONE MOVED("0001"), .log = LOG("000002", "000000", "0002"),
     .storage_after = {{0x1F, "05 05 05"}}},
    {.name = "the same bytes twice", .why = "pieces of one command may overlap: 8 bytes of zeros are first and last displacement 0",
     .storage = "8*00 C0000000 00000002", .chain = "63 000008 80 00 0008 63 000000 80 00 0004 63 000000 00 00 0004",
     .answers = USED USED DONE},
};

// READ and the sending commands scatter. Storage from 20 on is DD.
static const struct line scatter_lines[] = {
    {.name = "a piece is not reached, its flag 20", .why = "1,024 of 1,040 bytes move; the third piece's flags 20 and 40 hold",
     .storage = DEVICE "06000002 00000003 8*DD 1040*DD",
     .chain = DEFINE LOCATE "42 000120 80 00 0300 42 000020 80 00 0100 42 000420 60 00 0010" NOP_END,
     .answers = DONE DONE USED MOVED("0002") NOP_DONE, .log = LOG("000002", "000000", "0001"),
     .storage_after = {{0x20, "256*04"}, {0x120, "512*03 256*04"}}},
    {.name = "a piece is not reached, flag 20 off", .why = "flag 20 of the pieces before means nothing: 40, and the chain ends",
     .storage = DEVICE "06000002 00000003 8*DD 1040*DD",
     .chain = DEFINE LOCATE "42 000120 A0 00 0300 42 000020 A0 00 0100 42 000420 40 00 0010" NOP_END,
     .answers = DONE DONE USED "0C 40 0000 00 00 0002", .log = LOG("000002", "000000", "0001"),
     .storage_after = {{0x20, "256*04"}, {0x120, "512*03 256*04"}}},
    {.name = "a residual in the last piece reached", .why = "each answer has its own: 10 - 4", .storage = "13*DD",
     .chain = "E4 000000 80 00 0003 E4 000003 20 00 000A", .answers = USED "0C 00 0006 00 00 0000",
     .storage_after = {{0, "FF009701051201"}}},
    {.name = "the sum is too small", .why = "3 + 3 is not 7: 40, though nothing is left", .storage = "8*DD",
     .chain = "E4 000000 80 00 0003 E4 000003 40 00 0003" NOP_END, .answers = USED "0C 40 0000 00 00 0000",
     .storage_after = {{0, "FF0097010512"}}},
    {.name = "flag 40 with flag 80", .why = "40 means nothing there; the second piece ends the chain, and its command byte is ignored",
     .storage = "32*DD", .chain = "E4 000000 C0 00 0003 03 000010 00 00 0004" NOP_END, .answers = USED DONE,
     .storage_after = {{0, "FF0097"}, {0x10, "01051201"}}},
    {.name = "12 in a piece that no byte would reach", .why = "all pieces are tested before the unit sees the command; flag 20 does not help",
     .storage = "8*DD", .chain = "E4 000000 80 00 0003 E4 000003 80 00 0004 E4 000008 20 00 0001", .answers = PROGRAM("0003", "0C")},
    {.name = "pieces overlap", .why = "the later bytes stay: block 4 where both pieces are",
     .storage = DEVICE "06000002 00000003 8*DD 768*DD", .chain = DEFINE LOCATE "42 000120 80 00 0200 42 000020 00 00 0200",
     .answers = DONE DONE USED MOVED("0002"), .log = LOG("000002", "000000", "0001"), .storage_after = {{0x20, "512*04 256*03"}}},
    {.name = "pieces at one place", .why = "FF 00 97, then 01 05 12, then 01", .storage = "4*DD",
     .chain = "E4 000000 80 00 0003 E4 000000 80 00 0003 E4 000000 00 00 0001", .answers = USED USED DONE,
     .storage_after = {{0, "01 05 12"}}},
    {.name = "READ IPL in pieces, then READ IPL", .why = "R4; blocks moved is 1, in the last piece reached",
     .storage = "1024*DD", .chain = "02 000200 80 00 0001 03 000000 40 00 01FF 02 000201 20 00 0001",
     .answers = USED MOVED("0001") MOVED("0001"), .log = LOG("000002", "000000", "0002"),
     .storage_after = {{0, "511*00"}, {0x200, "00 00"}}},
    {.name = "a part of the log in pieces", .why = "R7: the counts are zeroed even when fewer than 24 bytes move",
     .record = PENDING_RECORD, .storage = "16*DD", .chain = "A4 000008 80 00 0008 A4 000000 20 00 0003", .answers = USED DONE,
     .storage_after = {{0, "012345"}, {8, "00 00 10 00000000 68"}}},
};

// WRITE gathers. Zero fill goes by the sum.
static const struct line write_lines[] = {
    {.name = "WRITE in two pieces, short", .why = "R2, R3: 5 bytes, then zeros to the end of block 4; 1 moved, 2 written with check",
     .storage = DEVICE "05000002 00000003 11223344 55667788", .chain = DEFINE LOCATE "41 00001E 80 00 0002 41 000018 20 00 0003",
     .answers = DONE DONE USED MOVED("0001"), .log = LOG("000000", "000002", "0001"),
     .store_after = {{3 * BLOCK, "77881122 33 1019*00"}}},
    {.name = "a piece across two blocks", .why = "the second piece fills block 3 and begins block 4: 2 moved",
     .storage = DEVICE "01000002 00000003 11223344 55667788 511*A5", .chain = DEFINE LOCATE "41 000020 80 00 01FF 41 000018 20 00 0002",
     .answers = DONE DONE USED MOVED("0002"), .log = ONE_MOVEMENT, .store_after = {{3 * BLOCK, "511*A5 11 22 511*00"}}},
    {.name = "the same bytes twice", .why = "pieces of one command may overlap",
     .storage = DEVICE "01000001 00000003 8*DD 256*A5", .chain = DEFINE LOCATE "41 000020 80 00 0100 41 000020 00 00 0100",
     .answers = DONE DONE USED MOVED("0001"), .log = ONE_MOVEMENT, .store_after = {{3 * BLOCK, "512*A5"}}},
    {.name = "a WRITE's second piece is not reached", .why = "528 is not 512: 40, in the first piece; nothing of it is left",
     .storage = DEVICE "01000001 00000003 8*DD 528*A5", .chain = DEFINE LOCATE "41 000020 80 00 0200 41 000220 40 00 0010" NOP_END,
     .answers = DONE DONE "0C 40 0000 00 00 0001", .log = ONE_MOVEMENT, .store_after = {{3 * BLOCK, "512*A5"}}},
};

// What comes after a command in pieces, and what comes before one.
static const struct line sequence_lines[] = {
    {.name = "answers are dense", .why = "pieces not reached have none: DEFINE EXTENT 1 of 2, LOCATE 1 of 2, READ 2 of 3",
     .storage = DEVICE "06000001 00000003 8*DD 512*DD",
     .chain = "63 000000 80 00 0010 63 000000 60 00 0005 43 000010 80 00 0008 43 000000 60 00 0001"
              "42 000020 80 00 0100 42 000120 80 00 0100 42 000000 60 00 0001" NOP_END,
     .answers = DONE DONE USED MOVED("0001") NOP_DONE, .log = LOG("000001", "000000", "0001"), .storage_after = {{0x20, "512*03"}}},
    {.name = "READ with a piece 43, then READ", .why = "the command byte of a piece is ignored: what is directly before is a READ: 41",
     .storage = DEVICE "06000001 00000003 8*DD",
     .chain = DEFINE LOCATE "42 000018 80 00 0001 43 000019 60 00 0001 42 00001A 20 00 0001",
     .answers = DONE DONE USED MOVED("0001") REFUSED("0001", "29"), .sense = SENSE_SEQUENCE,
     .log = LOG("000001", "000000", "0001"), .storage_after = {{0x18, "03 03"}}},
    {.name = "LOCATE with a piece 03, then READ", .why = "what is directly before is the LOCATE",
     .storage = DEVICE "06000001 00000003 8*DD", .chain = DEFINE "43 000010 80 00 0004 03 000014 40 00 0004 42 000018 20 00 0001",
     .answers = DONE USED DONE MOVED("0001"), .log = LOG("000001", "000000", "0001"), .storage_after = {{0x18, "03"}}},
    {.name = "NO-OPERATION with a piece 02, then READ IPL", .why = "R4: not chained from a READ IPL: 40", .storage = "DD",
     .chain = "03 000000 80 00 0002 02 000000 40 00 0001 02 000000 20 00 0001",
     .answers = "0C 00 0002 00 00 0000" REFUSED("0001", "28"), .sense = SENSE_SEQUENCE},
    {.name = "READ IPL in pieces is first", .why = "its own piece is no command before it", .storage = "2*DD",
     .chain = "02 000000 80 00 0001 02 000001 20 00 0001", .answers = USED MOVED("0001"), .log = LOG("000001", "000000", "0001"),
     .storage_after = {{0, "00 00"}}},
    {.name = "a DEFINE EXTENT's piece 63", .why = "it is no second extent", .storage = DEVICE,
     .chain = "63 000000 80 00 0008 63 000008 00 00 0008", .answers = USED DONE},
    {.name = "NO-OPERATION in pieces", .why = "it moves nothing: the first piece alone, its own count; no 12 in any; sense stays",
     .record = PENDING_RECORD, .storage = "", .chain = "03 FFFFFF A0 00 FFFF E4 FFFFFF 40 00 0001" NOP_END,
     .answers = "0C 00 FFFF 00 00 0000" NOP_DONE, .sense = PENDING, .log = COUNTS_AFTER},
    {.name = "43 in pieces", .why = "it has read nothing: the first piece alone, its own count", .storage = "8*DD",
     .chain = "64 000000 80 00 0001 03 000001 40 00 0007" NOP_END, .answers = REFUSED("0001", "2B"), .sense = SENSE_COMMAND},
};

// Sums above 65,535, which a count alone cannot have. 65,535 bytes of data begin at 20.
#define DEVICE_OF(last) EXTENT("00000000", "00000000", last)
static const struct line sum_lines[] = {
    {.name = "20 by a sum of 65,544", .why = "not by 65,544 - 65,536, which is under 16; the first piece has all 16",
     .storage = DEVICE "65519*DD", .chain = "63 000000 80 00 FFFF 63 000000 20 00 0009", .answers = "0C 00 FFEF 00 00 0000"},
    {.name = "incorrect length of 65,552", .why = "65,552 - 65,536 is 16, but 65,552 is not",
     .storage = DEVICE "65519*DD", .chain = "63 000000 80 00 FFFF 63 000000 40 00 0011" NOP_END, .answers = "0C 40 FFEF 00 00 0000"},
    {.name = "incorrect length of 131,088", .why = "131,088 - 131,072 is 16",
     .storage = DEVICE "65519*DD", .chain = "63 000000 80 00 FFFF 63 000000 80 00 FFFF 63 000000 40 00 0012" NOP_END,
     .answers = "0C 40 FFEF 00 00 0000"},
    {.name = "31 by a sum of 65,543", .why = "not by 65,543 - 65,536, which is under 8", .storage = DEVICE "06000001 00000000 65527*DD",
     .chain = DEFINE "43 000010 80 00 FFFF 43 000010 20 00 0008", .answers = DONE "0C 00 FFF7 00 00 0000", .log = ONE_MOVEMENT},
    {.name = "WRITE of 66,535 bytes", .why = "zero fill begins where the sum ends, in the 130th of 200 blocks", .blocks = 200,
     .storage = DEVICE_OF("000000C7") "010000C8 00000000 8*DD 65535*A5 1000*B6",
     .chain = DEFINE LOCATE "41 000020 80 00 FFFF 41 01001F 20 00 03E8", .answers = DONE DONE USED MOVED("0082"),
     .log = ONE_MOVEMENT, .store_after = {{0, "65535*A5 1000*B6 35865*00"}}},
    {.name = "WRITE of 196,605 bytes", .why = "three times 65,535, 3 bytes short of 384 blocks", .blocks = 400,
     .storage = DEVICE_OF("0000018F") "05000180 00000000 8*DD 65535*A5",
     .chain = DEFINE LOCATE "41 000020 80 00 FFFF 41 000020 80 00 FFFF 41 000020 40 00 FFFF" NOP_END,
     .answers = DONE DONE USED USED "0C 40 0000 00 00 0180", .log = LOG("000000", "000180", "0001"),
     .store_after = {{0, "196605*A5 3*00"}}},
};

// READ of 128 blocks, 65,536 bytes, in pieces of 65,535 and 1: exact.
static bool read_65536(void)
{
    struct text after = {.n = 0};
    struct line line = {.blocks = 200, .storage = DEVICE_OF("000000C7") "06000080 00000000 8*DD 65536*DD",
                        .chain = DEFINE LOCATE "42 000020 80 00 FFFF 42 01001F 00 00 0001", .answers = DONE DONE USED MOVED("0080"),
                        .log = LOG("000080", "000000", "0001"), .storage_after = {{0x20, after.s}}};
    for (unsigned block = 0; block < 128; block++) add(&after, "512*%02X ", block);
    return line_holds(&line);
}

// The longest transfers: 32 CCWs, 30 of them pieces of 65,535 bytes at one place, after a LOCATE for 3,840 blocks (1,966,080
// bytes, 30 more than come). Of a READ the last piece's bytes stay: 1,900,515 to 1,966,049, which are the last 29 of block 3,711
// (7F), blocks 3,712 to 3,838 (80 to FE), and 482 of block 3,839 (FF).
static bool longest_transfer(bool writes)
{
    struct text chain = {.n = 0}, answers = {.n = 0}, after = {.n = 0};
    struct line line = {.blocks = 4000, .chain = chain.s, .answers = answers.s, .log = LOG("000F01", "000000", "0002"),
                        .storage = "16*DD 06000F00 00000000 8*DD 65535*A5", .storage_after = {{0, "00"}, {0x20, after.s}}};
    add(&chain, "02 000000 60 00 0001 43 000010 40 00 0008 ");
    add(&answers, MOVED("0001") DONE);
    for (int i = 0; i < 30; i++) add(&chain, "%02X 000020 %02X 00 FFFF ", writes ? 0x41 : 0x42, i < 29 ? 0x80 : 0x20);
    for (int i = 0; i < 29; i++) add(&answers, USED);
    add(&answers, MOVED("0F00"));
    add(&after, "29*7F ");
    for (unsigned byte = 0x80; byte < 0xFF; byte++) add(&after, "512*%02X ", byte);
    add(&after, "482*FF");
    if (writes) {
        line.storage = "16*DD 05000F00 00000000 8*DD 65535*A5";
        line.log = LOG("000001", "000F00", "0002");
        line.storage_after[1].bytes = NULL;
        line.store_after[0] = (struct change){0, "1966050*A5 30*00"};
    }
    return line_holds(&line);
}

// The channel programs of the Linux driver dasd_fba for a device that may chain data: DEFINE EXTENT (size 512, offset 3,
// displacements 0 to n - 1), LOCATE for n blocks, n READs or WRITEs of 512 with flag 80 on all but the last. The pages lie in
// main storage from the last block's to the first's.
static bool linux_program(unsigned n, bool writes)
{
    struct text storage = {.n = 0}, chain = {.n = 0}, answers = {.n = 0}, after = {.n = 0};
    char log[32];
    struct line line = {.blocks = 64, .storage = storage.s, .chain = chain.s, .answers = answers.s, .log = log};
    add(&storage, "%s000200 00000003 00000000 %08X %s0000%02X 00000000 8*DD ", writes ? "00" : "40", n - 1, writes ? "05" : "06", n);
    for (unsigned i = 0; i < n; i++) add(&storage, "512*%02X ", 0xA0 + i);
    add(&chain, DEFINE LOCATE);
    add(&answers, DONE DONE);
    for (unsigned i = 0; i < n; i++) {
        add(&chain, "%s %06X %s 00 0200 ", writes ? "41" : "42", 0x20 + 512 * (n - 1 - i), i < n - 1 ? "80" : "00");
        add(&answers, "%s", i < n - 1 ? USED : "0C 00 0000 00 00 ");
        add(&after, "512*%02X ", writes ? 0xA0 + n - 1 - i : 3 + n - 1 - i); // the last block's page is the first in storage
    }
    add(&answers, "00%02X", n);
    snprintf(log, sizeof log, "%06X %06X 0001", writes ? 0 : n, writes ? n : 0);
    if (writes) line.store_after[0] = (struct change){3 * BLOCK, after.s};
    else line.storage_after[0] = (struct change){0x20, after.s};
    return line_holds(&line);
}

static bool linux_programs(bool writes)
{
    for (unsigned n = 1; n <= 30; n++)
        if (!linux_program(n, writes)) return printf("  %u blocks\n", n), false;
    return true;
}

// Flags 40 and 20 on a piece with flag 80 mean nothing; those of the final piece hold, also where it is not reached. SENSE TYPE
// has 7 bytes: pieces of 7 and 1, and of 3 and 4.
static bool flags_of_pieces(void)
{
    for (unsigned flags = 0; flags < 16; flags++) {
        unsigned first = 0x80 + 0x20 * (flags / 4), final = 0x20 * (flags % 4);
        bool chains = (final & 0x40) != 0, suppresses = (final & 0x20) != 0;
        char chain[96];
        struct line line = {.storage = "8*DD", .chain = chain, .storage_after = {{0, "FF009701051201"}}};
        snprintf(chain, sizeof chain, "E4 000000 %02X 00 0007 E4 000007 %02X 00 0001 " NOP_END, first, final);
        line.answers = !suppresses ? "0C 40 0000 00 00 0000" : chains ? DONE NOP_DONE : DONE;
        if (!line_holds(&line)) return printf("  not reached, flags %02X and %02X\n", first, final), false;
        snprintf(chain, sizeof chain, "E4 000000 %02X 00 0003 E4 000003 %02X 00 0004 " NOP_END, first, final);
        line.answers = chains ? USED DONE NOP_DONE : USED DONE;
        if (!line_holds(&line)) return printf("  reached, flags %02X and %02X\n", first, final), false;
    }
    return true;
}

// The command byte of a second piece is ignored, whatever it is: for 13 and 43, and for 12, which goes by the first.
static bool later_command_bytes(void)
{
    for (unsigned byte = 0; byte < 256; byte++) {
        char chain[96];
        struct line line = {.storage = "8*DD", .chain = chain, .answers = USED DONE, .storage_after = {{0, "FF009701051201"}}};
        snprintf(chain, sizeof chain, "E4 000000 80 00 0003 %02X 000003 00 00 0004", byte);
        if (!line_holds(&line)) return printf("  inside, byte %02X\n", byte), false;
        snprintf(chain, sizeof chain, "E4 000000 80 00 0003 %02X 000005 00 00 0004", byte);
        line = (struct line){.storage = "8*DD", .chain = chain, .answers = PROGRAM("0003", "0C")};
        if (!line_holds(&line)) return printf("  outside, byte %02X\n", byte), false;
        snprintf(chain, sizeof chain, "03 000000 80 00 0001 %02X 000009 00 00 0004", byte);
        line.answers = NOP_DONE;
        if (!line_holds(&line)) return printf("  NO-OPERATION, byte %02X\n", byte), false;
    }
    return true;
}

// 10, 11 and 12 piece by piece: the first piece that has one of them gives it, and of several in one piece the first in this
// order. One answer, in the first piece, with its own count; nothing moves, and the record stays. A fault is a sum of 1 (flag
// 08), 2 (count 0) and 4 (an area that leaves main storage, which NO-OPERATION does not mind).
static bool faults_hold(bool nop, const unsigned faults[3])
{
    static const unsigned flags[3] = {0x80, 0x80, 0x00}, addresses[3] = {0, 2, 4}, counts[3] = {2, 2, 3};
    struct text chain = {.n = 0};
    char answer[32];
    unsigned cause = 0;
    for (int i = 0; i < 3; i++)
        add(&chain, "%s %06X %02X 00 %04X ", nop ? "03" : "E4", (faults[i] & 4) != 0 ? 7 : addresses[i],
            flags[i] | ((faults[i] & 1) != 0 ? 0x08 : 0), (faults[i] & 2) != 0 ? 0 : counts[i]);
    for (int i = 2; i >= 0; i--) { // what comes first is set last
        if ((faults[i] & 4) != 0 && !nop) cause = 12;
        if ((faults[i] & 2) != 0) cause = 11;
        if ((faults[i] & 1) != 0) cause = 10;
    }
    struct line line = {.record = PENDING_RECORD, .storage = "8*DD", .chain = chain.s, .answers = answer, .sense = PENDING, .log = COUNTS_AFTER};
    snprintf(answer, sizeof answer, PROGRAM("%04X", "%02X"), (faults[0] & 2) != 0 ? 0 : 2, cause);
    if (cause == 0 && nop) line.answers = "0C 00 0002 00 00 0000";
    if (cause == 0 && !nop) {
        line.answers = USED USED DONE;
        line.sense = NULL;
        line.storage_after[0] = (struct change){0, "FF009701051201"};
    }
    return line_holds(&line);
}

static bool faults_in_pieces(void)
{
    for (unsigned way = 0; way < 2 * 512; way++) {
        const unsigned faults[3] = {way % 8, way / 8 % 8, way / 64 % 8};
        if (!faults_hold(way >= 512, faults)) return printf("  faults %u %u %u\n", faults[0], faults[1], faults[2]), false;
    }
    return true;
}

// Splits n bytes that stand in a row (as text) in two, swaps the parts, and tells where: the first k come from the rear.
static void swapped(struct text *to, const uint8_t *bytes, unsigned n, unsigned k)
{
    for (unsigned i = 0; i < n; i++) add(to, "%02X", bytes[(k + i) % n]);
}

// DEFINE EXTENT and LOCATE in every two pieces, the rear one first in main storage.
static bool every_split(void)
{
    uint8_t extent[16], locate[8];
    text_bytes(extent, 16, EXTENT("00000002", "0000000A", "0000000D"));
    text_bytes(locate, 8, "06000002 0000000C");
    for (unsigned k = 1; k < 16; k++) {
        struct text storage = {.n = 0}, chain = {.n = 0};
        unsigned n = k % 7 + 1; // 1 to 7, of the LOCATE's
        struct line line = {.storage = storage.s, .chain = chain.s, .answers = USED DONE USED DONE MOVED("0001"),
                            .log = LOG("000001", "000000", "0001"), .storage_after = {{24, "04"}}};
        swapped(&storage, extent, 16, k);
        swapped(&storage, locate, 8, n);
        add(&storage, " 2*DD");
        add(&chain, "63 %06X 80 00 %04X 63 000000 40 00 %04X ", 16 - k, k, 16 - k);
        add(&chain, "43 %06X 80 00 %04X 43 000010 40 00 %04X 42 000018 20 00 0001", 24 - n, n, 8 - n);
        if (!line_holds(&line)) return printf("  %u bytes of the extent first, %u of the LOCATE\n", k, n), false;
    }
    return true;
}

// SENSE, SENSE TYPE, the log and READ IPL in every two pieces, the rear one first in main storage.
static bool every_scatter(const char *command, unsigned n, const char *text, const char *answers, const char *log)
{
    uint8_t bytes[512];
    text_bytes(bytes, sizeof bytes, text);
    for (unsigned k = 1; k < n; k += n < 100 ? 1 : 17) {
        struct text storage = {.n = 0}, chain = {.n = 0}, after = {.n = 0};
        struct line line = {.record = PENDING_RECORD, .storage = storage.s, .chain = chain.s, .answers = answers, .log = log,
                            .storage_after = {{0, after.s}}};
        add(&storage, "%u*DD", n + 1);
        swapped(&after, bytes, n, k);
        add(&chain, "%s %06X 80 00 %04X %s 000000 00 00 %04X", command, n - k, k, command, n - k);
        if (!line_holds(&line)) return printf("  command %s, %u bytes first\n", command, k), false;
    }
    return true;
}

void test_pieces(void)
{
    check_lines("pieces", gather_lines, COUNT_OF(gather_lines));
    check_lines("pieces", scatter_lines, COUNT_OF(scatter_lines));
    check_lines("pieces", write_lines, COUNT_OF(write_lines));
    check_lines("pieces", sequence_lines, COUNT_OF(sequence_lines));
    check_lines("pieces", sum_lines, COUNT_OF(sum_lines));
    check("pieces", "READ of 65,536 bytes", read_65536());
    check("pieces", "the longest READ", longest_transfer(false));
    check("pieces", "the longest WRITE", longest_transfer(true));
    check("pieces", "the Linux driver reads 1 to 30 blocks", linux_programs(false));
    check("pieces", "the Linux driver writes 1 to 30 blocks", linux_programs(true));
    check("pieces", "flags 40 and 20 of two pieces", flags_of_pieces());
    check("pieces", "every command byte in a second piece", later_command_bytes());
    check("pieces", "10, 11 and 12 in three pieces", faults_in_pieces());
    check("pieces", "every split of the parameters", every_split());
    check("pieces", "every split of SENSE", every_scatter("04", 24, PENDING, USED DONE, COUNTS_AFTER));
    check("pieces", "every split of SENSE TYPE", every_scatter("E4", 7, "FF009701051201", USED DONE, COUNTS_AFTER));
    check("pieces", "every split of the log",
          every_scatter("A4", 24, "00 00 10 00000000 68 012345 00000000 06789A 00 0BCD 000000", USED DONE, NULL));
    check("pieces", "splits of READ IPL", every_scatter("02", 512, "512*00", USED MOVED("0001"), LOG("012346", "06789A", "0BCE")));
}
