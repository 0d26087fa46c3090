// Causes 10 to 44, each on each side of its line, and the order in which they are tested. All by hand from 01's table
// of causes and the table of sense in docs/SENSE.md.
#include "test.h"
#include "words.h"

#include <stdio.h>
#include <stdlib.h>

#define ONE_MOVEMENT LOG("000000", "000000", "0001")

// A chain of one DEFINE EXTENT. Refused for its parameters it has read all 16 bytes (02, ask 1), and none is left.
#define EXTENT_DONE(n, w, s) {.name = n, .why = w, .storage = s, .chain = DEFINE_END, .answers = DONE}
#define EXTENT_REFUSED(n, w, s, cause, sense_bytes) \
    {.name = n, .why = w, .storage = s, .chain = DEFINE_END, .answers = REFUSED("0000", cause), .sense = sense_bytes}

// DEFINE EXTENT, LOCATE. Refused for its parameters the LOCATE has read all 8 bytes.
#define LOCATE_DONE(n, w, s) {.name = n, .why = w, .storage = s, .chain = DEFINE LOCATE_END, .answers = DONE DONE, .log = ONE_MOVEMENT}
#define LOCATE_REFUSED(n, w, s, cause, sense_bytes) \
    {.name = n, .why = w, .storage = s, .chain = DEFINE LOCATE_END, .answers = DONE REFUSED("0000", cause), .sense = sense_bytes}

static const struct line channel_lines[] = {
    {.name = "11, count 0", .why = "01: applies to NO-OPERATION too", .storage = "", .chain = "03 000000 00 00 0000",
     .answers = PROGRAM("0000", "0B")},
    {.name = "11, count 1", .why = "01", .storage = "", .chain = NOP_END, .answers = NOP_DONE},
    {.name = "12, area ends with storage", .why = "01: address 1 and count 7 in 8 bytes", .storage = "8*DD",
     .chain = "E4 000001 00 00 0007",
     .answers = DONE, .storage_after = {{1, "FF009701051201"}}},
    {.name = "12, area one byte beyond", .why = "01: address 2 and count 7 in 8 bytes", .storage = "8*DD",
     .chain = "E4 000002 00 00 0007",
     .answers = PROGRAM("0007", "0C")},
    {.name = "12, by the whole count", .why = "01: 7 bytes would fit, the count of 9 does not", .storage = "8*DD",
     .chain = "E4 000000 20 00 0009", .answers = PROGRAM("0009", "0C")},
    {.name = "12, by the whole count of a READ", .why = "01: 512 bytes can move and would fit, the count of 513 does not",
     .storage = DEVICE "06000001 00000003 8*DD 512*DD", .chain = DEFINE LOCATE "42 000020 20 00 0201",
     .answers = DONE DONE PROGRAM("0201", "0C"), .log = ONE_MOVEMENT},
    {.name = "12, no storage at all", .why = "01", .storage = "", .chain = "04 000000 00 00 0018",
     .answers = PROGRAM("0018", "0C")},
    {.name = "12, last byte of the largest storage", .why = "01: FFFFFF + 1 is 16,777,216", .storage = "16777216*DD",
     .chain = "E4 FFFFFF 20 00 0001", .answers = DONE, .storage_after = {{0xFFFFFF, "FF"}}},
    {.name = "12, past the largest storage", .why = "01: an address does not wrap at 24 bits", .storage = "16777216*DD",
     .chain = "E4 FFFFFF 20 00 0002", .answers = PROGRAM("0002", "0C")},
    {.name = "44, ready", .why = "01", .storage = DEVICE, .chain = DEFINE_END, .answers = DONE},
    {.name = "44, not ready", .why = "01", .record = NOT_READY, .storage = DEVICE, .chain = DEFINE_END,
     .answers = REFUSED("0010", "2C"), .sense = SENSE_NOT_READY},
    {.name = "44, the log", .why = "01: A4 is neither 04 nor E4", .record = NOT_READY, .storage = "24*DD",
     .chain = "A4 000000 00 00 0018",
     .answers = REFUSED("0018", "2C"), .sense = SENSE_NOT_READY},
};

static const struct line extent_lines[] = {
    {.name = "20, count 15", .why = "01", .storage = DEVICE, .chain = "63 000000 20 00 000F",
     .answers = REFUSED("000F", "14"), .sense = SENSE_FEWER},
    EXTENT_DONE("20, count 16", "01", DEVICE),
    {.name = "21, a second extent", .why = "01; 002, 2.1.3", .storage = DEVICE, .chain = DEFINE DEFINE_END,
     .answers = DONE REFUSED("0010", "15"), .sense = SENSE_SEQUENCE},
    EXTENT_REFUSED("22, byte 1 is 01", "01", "C0010000 00000000 00000000 00000007", "16", SENSE_ARGUMENT),
    EXTENT_REFUSED("22, byte 1 is 80", "01", "C0800000 00000000 00000000 00000007", "16", SENSE_ARGUMENT),
    EXTENT_DONE("24, size 0", "01; 002, 2.1.3: zero for 512", "C0000000 00000000 00000000 00000007"),
    EXTENT_DONE("24, size 512", "01", "C0000200 00000000 00000000 00000007"),
    EXTENT_REFUSED("24, size 511", "01; 002, 5.1: Block Size Exception", "C00001FF 00000000 00000000 00000007", "18", SENSE_SIZE_BAD),
    EXTENT_REFUSED("24, size 513", "01", "C0000201 00000000 00000000 00000007", "18", SENSE_SIZE_BAD),
    EXTENT_REFUSED("24, size 2", "01: big-endian", "C0000002 00000000 00000000 00000007", "18", SENSE_SIZE_BAD),
    EXTENT_DONE("25, first is last", "01", EXTENT("00000000", "80000000", "80000000")),
    EXTENT_REFUSED("25, first over last", "01", EXTENT("00000000", "80000000", "7FFFFFFF"), "19", SENSE_ARGUMENT),
    EXTENT_DONE("26, the last block", "01: offset 7", EXTENT("00000007", "00000000", "00000000")),
    EXTENT_REFUSED("26, the block after", "01: offset 8", EXTENT("00000008", "00000000", "00000000"), "1A", SENSE_ARGUMENT),
    EXTENT_DONE("26, displacements at the top", "01: FFFFFFFF - FFFFFFF8 is 7", EXTENT("00000000", "FFFFFFF8", "FFFFFFFF")),
    EXTENT_REFUSED("26, one more at the top", "01: FFFFFFFF - FFFFFFF7 is 8", EXTENT("00000000", "FFFFFFF7", "FFFFFFFF"), "1A", SENSE_ARGUMENT),
    EXTENT_REFUSED("26, all displacements", "01", EXTENT("00000000", "00000000", "FFFFFFFF"), "1A", SENSE_ARGUMENT),
    EXTENT_REFUSED("26, largest of all", "01: the sum is 2^33 - 2", EXTENT("FFFFFFFF", "00000000", "FFFFFFFF"), "1A", SENSE_ARGUMENT),
};

static const struct line locate_lines[] = {
    {.name = "30, no extent", .why = "01", .storage = DEVICE "06000001 00000000", .chain = "03 000000 40 00 0001" LOCATE_END,
     .answers = NOP_DONE REFUSED("0008", "1E"), .sense = SENSE_SEQUENCE},
    LOCATE_DONE("30, after an extent", "01", DEVICE "06000001 00000000"),
    {.name = "31, count 7", .why = "01", .storage = DEVICE "06000001 00000000", .chain = DEFINE "43 000010 20 00 0007",
     .answers = DONE REFUSED("0007", "1F"), .sense = SENSE_FEWER},
    LOCATE_DONE("34, one block", "01", DEVICE "06000001 00000000"),
    LOCATE_REFUSED("34, format of none", "01", DEVICE "04000000 00000000", "22", SENSE_ARGUMENT),
    LOCATE_REFUSED("34, format of two", "01", DEVICE "04000002 00000000", "22", SENSE_ARGUMENT),
    LOCATE_REFUSED("34, format of 257", "01: both bytes count", DEVICE "04000101 00000000", "22", SENSE_ARGUMENT),
    LOCATE_DONE("35, replication is block count", "01; 002, 2.1.4: then a plain read", DEVICE "02030003 00000000"),
    LOCATE_REFUSED("35, replication below block count", "01", DEVICE "02010002 00000000", "23", SENSE_ARGUMENT),
    LOCATE_REFUSED("35, block count 256 over replication 255", "01", DEVICE "02FF0100 00000000", "23", SENSE_ARGUMENT),
    LOCATE_DONE("35, replication ignored for a read", "01", DEVICE "06050002 00000000"),
    LOCATE_DONE("36, all blocks", "01", DEVICE "06000008 00000000"),
    LOCATE_REFUSED("36, one more", "01", DEVICE "06000009 00000000", "24", SENSE_OUTSIDE),
    LOCATE_DONE("36, last displacement of all", "01", EXTENT("00000007", "FFFFFFFF", "FFFFFFFF") "01000001 FFFFFFFF"),
    LOCATE_DONE("36, replication range fits", "01", DEVICE "02080002 00000000"),
    LOCATE_REFUSED("36, replication range one unit over", "MISMATCHES: the whole range", DEVICE "020A0002 00000000", "24", SENSE_OUTSIDE),
};

static const struct line sequence_lines[] = {
    {.name = "40, READ IPL after an extent", .why = "01", .storage = DEVICE "512*DD", .chain = DEFINE "02 000010 00 00 0200",
     .answers = DONE REFUSED("0200", "28"), .sense = SENSE_SEQUENCE},
    {.name = "40, READ IPL first", .why = "01", .storage = "512*DD", .chain = "02 000000 00 00 0200", .answers = MOVED("0001"),
     .log = LOG("000001", "000000", "0001"), .storage_after = {{0, "512*00"}}},
    {.name = "41, READ first", .why = "01", .storage = "512*DD", .chain = "42 000000 00 00 0200",
     .answers = REFUSED("0200", "29"), .sense = SENSE_SEQUENCE},
    {.name = "41, WRITE first", .why = "01", .storage = "512*DD", .chain = "41 000000 00 00 0200",
     .answers = REFUSED("0200", "29"), .sense = SENSE_SEQUENCE},
    {.name = "41, WRITE first, read-only", .why = "MISMATCHES: no write operation was located: 80 00", .record = READ_ONLY,
     .storage = "512*DD",
     .chain = "41 000000 00 00 0200", .answers = REFUSED("0200", "29"), .sense = SENSE_SEQUENCE},
    {.name = "41, READ after READ IPL", .why = "01: an extent is no LOCATE", .storage = "512*DD",
     .chain = "02 000000 40 00 0200 42 000000 00 00 0200",
     .answers = MOVED("0001") REFUSED("0200", "29"), .sense = SENSE_SEQUENCE, .log = LOG("000001", "000000", "0001"),
     .storage_after = {{0, "512*00"}}},
    {.name = "42, READ after a write LOCATE", .why = "01", .storage = DEVICE "01000001 00000001 8*DD 512*DD",
     .chain = DEFINE LOCATE "42 000020 00 00 0200", .answers = DONE DONE REFUSED("0200", "2A"), .sense = SENSE_SEQUENCE,
     .log = ONE_MOVEMENT},
    {.name = "42, READ after a write and check LOCATE", .why = "01", .storage = DEVICE "05000001 00000001 8*DD 512*DD",
     .chain = DEFINE LOCATE "42 000020 00 00 0200", .answers = DONE DONE REFUSED("0200", "2A"), .sense = SENSE_SEQUENCE,
     .log = ONE_MOVEMENT},
    {.name = "42, WRITE after a read LOCATE", .why = "01", .storage = DEVICE "06000001 00000001 8*DD 512*DD",
     .chain = DEFINE LOCATE "41 000020 00 00 0200", .answers = DONE DONE REFUSED("0200", "2A"), .sense = SENSE_SEQUENCE,
     .log = ONE_MOVEMENT},
    {.name = "42, WRITE after a replicated LOCATE", .why = "01", .storage = DEVICE "02020001 00000001 8*DD 512*DD",
     .chain = DEFINE LOCATE "41 000020 00 00 0200", .answers = DONE DONE REFUSED("0200", "2A"), .sense = SENSE_SEQUENCE,
     .log = ONE_MOVEMENT},
    {.name = "42, WRITE after a write and check LOCATE", .why = "01", .storage = DEVICE "05000001 00000001 8*DD 512*A5",
     .chain = DEFINE LOCATE "41 000020 00 00 0200", .answers = DONE DONE MOVED("0001"), .log = LOG("000000", "000001", "0001"),
     .store_after = {{BLOCK, "512*A5"}}},
};

// 01: "Order is the table's order, top to bottom". Each line breaks two neighbours; the upper one is given.
static const struct line order_lines[] = {
    {.name = "13 before 10", .why = "order", .storage = "", .chain = "00 000000 10 00 0000", .answers = PROGRAM("0000", "0D")},
    {.name = "10 before 11", .why = "order", .storage = "", .chain = "03 000000 10 00 0000", .answers = PROGRAM("0000", "0A")},
    {.name = "11 before 12", .why = "order", .storage = "", .chain = "63 000001 00 00 0000", .answers = PROGRAM("0000", "0B")},
    {.name = "12 before 44", .why = "order", .record = NOT_READY, .storage = "", .chain = DEFINE_END,
     .answers = PROGRAM("0010", "0C")},
    {.name = "12 before 43", .why = "order", .storage = "", .chain = "FF 000000 00 00 0001", .answers = PROGRAM("0001", "0C")},
    {.name = "44 before 43", .why = "MISMATCHES; 002, 1.9.1 d", .record = NOT_READY, .storage = "DD", .chain = "FF 000000 00 00 0001",
     .answers = REFUSED("0001", "2C"), .sense = SENSE_NOT_READY},
    {.name = "44 before 20", .why = "order", .record = NOT_READY, .storage = "DD", .chain = "63 000000 00 00 0001",
     .answers = REFUSED("0001", "2C"), .sense = SENSE_NOT_READY},
    {.name = "20 before 21", .why = "order", .storage = DEVICE, .chain = DEFINE "63 000000 00 00 000F",
     .answers = DONE REFUSED("000F", "14"), .sense = SENSE_FEWER},
    {.name = "21 before 22", .why = "order", .storage = DEVICE "16*FF", .chain = DEFINE "63 000010 00 00 0010",
     .answers = DONE REFUSED("0010", "15"), .sense = SENSE_SEQUENCE},
    EXTENT_REFUSED("22 before 23", "order", "28000000 00000000 00000000 00000007", "16", SENSE_ARGUMENT),
    EXTENT_REFUSED("23 before 24", "order", "08000001 00000000 00000000 00000007", "17", SENSE_ARGUMENT),
    EXTENT_REFUSED("24 before 25", "order", "C0000001 00000000 00000005 00000004", "18", SENSE_SIZE_BAD),
    EXTENT_REFUSED("25 before 26", "order", EXTENT("00000009", "00000005", "00000004"), "19", SENSE_ARGUMENT),
    {.name = "30 before 31", .why = "order", .storage = "8*DD", .chain = "43 000000 00 00 0007",
     .answers = REFUSED("0007", "1E"), .sense = SENSE_SEQUENCE},
    {.name = "31 before 32", .why = "order", .storage = DEVICE "86000001 00000000", .chain = DEFINE "43 000010 00 00 0007",
     .answers = DONE REFUSED("0007", "1F"), .sense = SENSE_FEWER},
    LOCATE_REFUSED("32 before 33", "order", DEVICE "87000001 00000000", "20", SENSE_ARGUMENT),
    LOCATE_REFUSED("33 before 34", "order", DEVICE "07000000 00000000", "21", SENSE_ARGUMENT),
    LOCATE_REFUSED("34 before 35", "order", DEVICE "02000000 00000000", "22", SENSE_ARGUMENT),
    LOCATE_REFUSED("34 before 36", "order", DEVICE "04000002 00000007", "22", SENSE_ARGUMENT),
    LOCATE_REFUSED("35 before 36", "order", DEVICE "02050002 00000008", "23", SENSE_ARGUMENT),
    LOCATE_REFUSED("36 before 37", "order", "40000000 00000000 00000000 00000007 01000001 00000008", "24", SENSE_OUTSIDE),
    {.name = "37 before 38", .why = "order", .record = READ_ONLY,
     .storage = "40000000 00000000 00000000 00000007 01000001 00000000",
     .chain = DEFINE LOCATE_END, .answers = DONE REFUSED("0000", "25"), .sense = SENSE_ARGUMENT},
    {.name = "38 before 39", .why = "order", .record = READ_ONLY, .storage = DEVICE "04000001 00000000", .chain = DEFINE LOCATE_END,
     .answers = DONE REFUSED("0000", "26"), .sense = SENSE_INHIBITED},
    {.name = "44 before 40", .why = "order", .record = "32*00 00 00", .storage = "24*DD",
     .chain = "04 000000 40 00 0018 02 000000 00 00 0010",
     .answers = DONE REFUSED("0010", "2C"), .sense = SENSE_NOT_READY, .storage_after = {{0, "24*00"}}},
    {.name = "41 before 42", .why = "order", .storage = DEVICE "01000001 00000001 8*DD 512*DD",
     .chain = DEFINE LOCATE "03 000000 40 00 0001 42 000020 00 00 0200",
     .answers = DONE DONE NOP_DONE REFUSED("0200", "29"), .sense = SENSE_SEQUENCE, .log = ONE_MOVEMENT},
};

// 13 and 43 for all 256 command bytes. Storage is empty but for NO-OPERATION's sake there is one byte.
static bool command_bytes(void)
{
    static const char listed[] = "\x03\x63\x43\x42\x41\x02\x04\xE4\xA4";
    for (unsigned command = 0; command < 256; command++) {
        char chain[32];
        struct line line = {.storage = "DD", .chain = chain, .answers = REFUSED("0001", "2B"), .sense = SENSE_COMMAND};
        bool is_listed = false;
        for (const char *p = listed; *p != '\0'; p++) is_listed = is_listed || (unsigned char)*p == command;
        if (is_listed) continue; // the other lines have them
        snprintf(chain, sizeof chain, "%02X 000000 00 00 0001", command);
        if (command % 16 == 0 || command % 16 == 8) {
            line.answers = PROGRAM("0001", "0D");
            line.sense = NULL;
        }
        if (!line_holds(&line)) return printf("  command %02X\n", command), false;
    }
    return true;
}

// 10 for all 256 flag bytes: those of flags 80, 40 and 20 alone are free of it. With 80 (02, ask 2) the second CCW is the
// first command's second piece, whatever 40 says.
static bool flag_bytes(void)
{
    for (unsigned flags = 0; flags < 256; flags++) {
        char chain[64];
        bool two = (flags & 0xC0) == 0x40, good = flags % 0x20 == 0;
        struct line line = {.storage = "", .chain = chain, .answers = PROGRAM("0001", "0A")};
        snprintf(chain, sizeof chain, "03 000000 %02X 00 0001 03 000000 00 00 0001", flags);
        if (good) line.answers = two ? NOP_DONE NOP_DONE : NOP_DONE;
        if (!line_holds(&line)) return printf("  flags %02X\n", flags), false;
    }
    return true;
}

// 22 and 23 for all 256 masks. Accepted: bits 0-1 are 00, 01 or 11, bit 5 either, no other.
static bool mask_bytes(void)
{
    for (unsigned mask = 0; mask < 256; mask++) {
        char storage[64];
        struct line line = {.storage = storage, .chain = DEFINE_END, .answers = REFUSED("0000", "16"), .sense = SENSE_ARGUMENT};
        snprintf(storage, sizeof storage, "%02X000000 00000000 00000000 00000007", mask);
        switch (mask) {
        case 0x00: case 0x04: case 0x40: case 0x44: case 0xC0: case 0xC4:
            line.answers = DONE;
            line.sense = NULL;
            break;
        case 0x08: case 0x0C: case 0x48: case 0x4C: case 0xC8: case 0xCC:
            line.answers = REFUSED("0000", "17");
            break;
        default:
            break;
        }
        if (!line_holds(&line)) return printf("  mask %02X\n", mask), false;
    }
    return true;
}

// 32 and 33 for all 256 operation bytes: operations 1, 2, 4, 5 and 6, with modifier bit 3 or without.
static bool operation_bytes(void)
{
    for (unsigned byte = 0; byte < 256; byte++) {
        char storage[96], sense[64];
        struct line line = {.storage = storage, .chain = DEFINE LOCATE_END, .answers = DONE REFUSED("0000", "20"), .sense = SENSE_ARGUMENT};
        snprintf(storage, sizeof storage, DEVICE "%02X010001 00000000", byte);
        if (byte < 0x20) line.answers = DONE REFUSED("0000", "21");
        switch (byte) {
        case 0x01: case 0x02: case 0x05: case 0x06: case 0x11: case 0x12: case 0x15: case 0x16:
            line.answers = DONE DONE;
            line.sense = NULL;
            line.log = ONE_MOVEMENT;
            break;
        case 0x04: case 0x14:
            snprintf(sense, sizeof sense, "80 01 00000000 00 0C %02X010001 00000000", byte);
            line.answers = DONE REFUSED("0000", "27");
            line.sense = sense;
            break;
        default:
            break;
        }
        if (!line_holds(&line)) return printf("  operation %02X\n", byte), false;
    }
    return true;
}

// 37 and 38: for each mask and operation what a unit that writes, and a read-only one, answers. 0 is accepted.
static bool permissions(void)
{
    static const struct { unsigned mask, operation, writable, read_only; } table[] = {
        {0x00, 4, 37, 37}, {0x00, 1, 0, 38},  {0x00, 5, 0, 38},  {0x00, 6, 0, 0}, {0x00, 2, 0, 0},
        {0x40, 4, 37, 37}, {0x40, 1, 37, 37}, {0x40, 5, 37, 37}, {0x40, 6, 0, 0}, {0x40, 2, 0, 0},
        {0xC0, 4, 39, 38}, {0xC0, 1, 0, 38},  {0xC0, 5, 0, 38},  {0xC0, 6, 0, 0}, {0xC0, 2, 0, 0},
    };
    for (size_t i = 0; i < 2 * COUNT_OF(table); i++) {
        bool read_only = i >= COUNT_OF(table);
        unsigned mask = table[i % COUNT_OF(table)].mask, operation = table[i % COUNT_OF(table)].operation;
        unsigned cause = read_only ? table[i % COUNT_OF(table)].read_only : table[i % COUNT_OF(table)].writable;
        char storage[96], answers[96];
        struct line line = {.storage = storage, .record = read_only ? READ_ONLY : NULL, .chain = DEFINE LOCATE_END, .answers = answers};
        snprintf(storage, sizeof storage, "%02X000000 00000000 00000000 00000007 %02X010001 00000000", mask, operation);
        snprintf(answers, sizeof answers, DONE "%s 00 0000 %02X 00 0000", cause != 0 ? "0E" : "0C", cause);
        if (cause == 0) line.log = ONE_MOVEMENT;
        if (cause == 37) line.sense = SENSE_ARGUMENT;
        if (cause == 38) line.sense = SENSE_INHIBITED;
        if (cause == 39) line.sense = "80 01 00000000 00 0C 04010001 00000000";
        if (!line_holds(&line)) return printf("  mask %02X, operation %u, read-only %d\n", mask, operation, read_only), false;
    }
    return true;
}

// 02, ask 1: the residual of every refusal by the unit but 20 and 31. `taken` bytes were transferred before the check that
// refused; `least` is the least count that gets there. Data fills storage to the largest count.
#define FILLED " 66000*DD"
#define BAD_EXTENT(cause, storage, sense) {cause, 16, 16, NULL, storage FILLED, "", "63 000000", "", sense}
#define BAD_LOCATE(cause, storage, sense) {cause, 8, 8, NULL, storage FILLED, DEFINE, "43 000010", DONE, sense}

static const struct refusal {
    unsigned cause, taken, least;
    const char *record, *storage, *before, *command; // commands before it; its own command byte and address
    const char *answers, *sense;                     // of the commands before it; afterwards
} refusals[] = {
    {21, 0, 16, NULL, DEVICE FILLED, DEFINE, "63 000010", DONE, SENSE_SEQUENCE},
    BAD_EXTENT(22, "80000000 00000000 00000000 00000007", SENSE_ARGUMENT),
    BAD_EXTENT(23, "08000000 00000000 00000000 00000007", SENSE_ARGUMENT),
    BAD_EXTENT(24, "C00001FF 00000000 00000000 00000007", SENSE_SIZE_BAD),
    BAD_EXTENT(25, EXTENT("00000000", "00000005", "00000004"), SENSE_ARGUMENT),
    BAD_EXTENT(26, EXTENT("00000000", "00000000", "00000008"), SENSE_ARGUMENT),
    {30, 0, 1, NULL, DEVICE "86000001 00000000" FILLED, "", "43 000010", "", SENSE_SEQUENCE},
    BAD_LOCATE(32, DEVICE "86000001 00000000", SENSE_ARGUMENT),
    BAD_LOCATE(33, DEVICE "07000001 00000000", SENSE_ARGUMENT),
    BAD_LOCATE(34, DEVICE "06000000 00000000", SENSE_ARGUMENT),
    BAD_LOCATE(35, DEVICE "02050002 00000000", SENSE_ARGUMENT),
    BAD_LOCATE(36, DEVICE "06000001 00000008", SENSE_OUTSIDE),
    BAD_LOCATE(37, "40000000 00000000 00000000 00000007 01000001 00000000", SENSE_ARGUMENT),
    {38, 8, 8, READ_ONLY, DEVICE "01000001 00000000" FILLED, DEFINE, "43 000010", DONE, SENSE_INHIBITED},
    BAD_LOCATE(39, DEVICE "04000001 00000003", "80 01 00000000 00 0C 04000001 00000003"),
    {40, 0, 1, NULL, DEVICE FILLED, DEFINE, "02 000010", DONE, SENSE_SEQUENCE},
    {41, 0, 1, NULL, DEVICE FILLED, DEFINE, "42 000010", DONE, SENSE_SEQUENCE},
    {42, 0, 1, NULL, DEVICE "06000001 00000000" FILLED, DEFINE LOCATE, "41 000018", DONE DONE, SENSE_SEQUENCE},
    {43, 0, 1, NULL, DEVICE FILLED, "", "64 000000", "", SENSE_COMMAND},
    {44, 0, 1, NOT_READY, "80000000" FILLED, "", "63 000000", "", SENSE_NOT_READY},
    {44, 0, 1, NOT_READY, "86000001" FILLED, "", "43 000000", "", SENSE_NOT_READY},
};

// With flags 00, 20, 40 and 60: the refusal shows channel status 00 and ends the chain with each.
static bool residual_holds(const struct refusal *r, unsigned count)
{
    for (unsigned flags = 0; flags <= 0x60; flags += 0x20) {
        char chain[128], answers[128];
        struct line line = {.record = r->record, .storage = r->storage, .chain = chain, .answers = answers, .sense = r->sense,
                            .log = r->cause == 42 ? ONE_MOVEMENT : NULL};
        snprintf(chain, sizeof chain, "%s%s %02X 00 %04X " NOP_END, r->before, r->command, flags, count);
        snprintf(answers, sizeof answers, "%s0E 00 %04X %02X 00 0000", r->answers, count - r->taken, r->cause);
        if (!line_holds(&line)) return printf("  cause %u, flags %02X, count %u\n", r->cause, flags, count), false;
    }
    return true;
}

static bool residuals(void)
{
    static const unsigned beyond[] = {0, 1, 4, 7, 8, 9, 15, 16, 17, 239, 240, 248, 65519};
    for (size_t i = 0; i < COUNT_OF(refusals); i++)
        for (size_t k = 0; k < COUNT_OF(beyond); k++)
            if (!residual_holds(&refusals[i], refusals[i].least + beyond[k])) return false;
    return true;
}

// 02, ask 2: the same refusals in two pieces, in a row in main storage. The bytes that were read spread over them: the first
// piece alone is reached if it has them all, and shows what is left of it; else it is used up, and the second shows the rest.
static bool split_holds(const struct refusal *r, unsigned first, unsigned second)
{
    char chain[128], answers[128];
    struct line line = {.record = r->record, .storage = r->storage, .chain = chain, .answers = answers, .sense = r->sense,
                        .log = r->cause == 42 ? ONE_MOVEMENT : NULL};
    unsigned long address = strtoul(r->command + 3, NULL, 16) + first;
    snprintf(chain, sizeof chain, "%s%s 80 00 %04X FF %06lX 40 00 %04X " NOP_END, r->before, r->command, first, address, second);
    if (r->taken <= first)
        snprintf(answers, sizeof answers, "%s0E 00 %04X %02X 00 0000", r->answers, first - r->taken, r->cause);
    else
        snprintf(answers, sizeof answers, "%s" USED "0E 00 %04X %02X 00 0000", r->answers, second - (r->taken - first), r->cause);
    if (!line_holds(&line)) return printf("  cause %u, pieces of %u and %u\n", r->cause, first, second), false;
    return true;
}

static bool residuals_in_pieces(void)
{
    static const unsigned firsts[] = {1, 2, 7, 8, 9, 15, 16, 17, 300}, beyond[] = {0, 1, 8, 16, 60000};
    for (size_t i = 0; i < COUNT_OF(refusals); i++)
        for (size_t k = 0; k < COUNT_OF(firsts); k++)
            for (size_t n = 0; n < COUNT_OF(beyond); n++) {
                unsigned least = firsts[k] < refusals[i].least ? refusals[i].least - firsts[k] : 1; // of the second piece
                if (!split_holds(&refusals[i], firsts[k], least + beyond[n])) return false;
            }
    return true;
}

// 20 and 31 go by the sum: one byte too few is refused in the first piece alone, which keeps its count.
static bool short_sums(void)
{
    static const struct refusal extent = {20, 0, 1, NULL, "80000000" FILLED, "", "63 000000", "", SENSE_FEWER};
    static const struct refusal locate = {31, 0, 1, NULL, DEVICE "86000001 00000000", DEFINE, "43 000010", DONE, SENSE_FEWER};
    for (unsigned first = 1; first < 15; first++)
        if (!split_holds(&extent, first, 15 - first) || (first < 7 && !split_holds(&locate, first, 7 - first))) return false;
    return true;
}

// 20 and 31: every count that is too small stays whole, though the parameters are bad too.
static bool short_counts(void)
{
    static const struct refusal extent = {20, 0, 1, NULL, "80000000" FILLED, "", "63 000000", "", SENSE_FEWER};
    static const struct refusal locate = {31, 0, 1, NULL, DEVICE "86000001 00000000", DEFINE, "43 000010", DONE, SENSE_FEWER};
    for (unsigned count = 1; count < 16; count++)
        if (!residual_holds(&extent, count) || (count < 8 && !residual_holds(&locate, count))) return false;
    return true;
}

void test_causes(void)
{
    check_lines("causes", channel_lines, COUNT_OF(channel_lines));
    check_lines("causes", extent_lines, COUNT_OF(extent_lines));
    check_lines("causes", locate_lines, COUNT_OF(locate_lines));
    check_lines("causes", sequence_lines, COUNT_OF(sequence_lines));
    check_lines("order", order_lines, COUNT_OF(order_lines));
    check("causes", "13 and 43, every command byte", command_bytes());
    check("causes", "10, every flag byte", flag_bytes());
    check("causes", "22 and 23, every mask", mask_bytes());
    check("causes", "32, 33 and 39, every operation byte", operation_bytes());
    check("causes", "37 and 38, every mask with every operation", permissions());
    check("residuals", "every refusal, counts beyond its parameters", residuals());
    check("residuals", "20 and 31, every count", short_counts());
    check("residuals", "every refusal in two pieces", residuals_in_pieces());
    check("residuals", "20 and 31 by the sum of two pieces", short_sums());
}
