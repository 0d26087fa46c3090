// Words that the lines share. Storage: the extent's 16 bytes at 0, a LOCATE's 8 at 10, another's at 18, data from 20 (hexadecimal).
#ifndef WORDS_H
#define WORDS_H

#define EXTENT(offset, first, last) "C0000000 " offset " " first " " last " "
#define DEVICE EXTENT("00000000", "00000000", "00000007") // all eight blocks, everything allowed

// Command words: command, address, flags, ignored, count. Chained ones have flag 40.
#define DEFINE "63 000000 40 00 0010 "
#define DEFINE_END "63 000000 00 00 0010 "
#define LOCATE "43 000010 40 00 0008 "
#define LOCATE_END "43 000010 00 00 0008 "
#define LOCATE2 "43 000018 40 00 0008 "
#define NOP_END "03 000000 00 00 0001 "

// Answers: unit status, channel status, residual, cause, zero, blocks moved.
#define DONE "0C 00 0000 00 00 0000 "
#define USED "00 00 0000 00 00 0000 " // a piece that is used up, and not the last one reached
#define NOP_DONE "0C 00 0001 00 00 0000 "
#define MOVED(blocks) "0C 00 0000 00 00 " blocks " "
#define REFUSED(residual, cause) "0E 00 " residual " " cause " 00 0000 "
#define PROGRAM(count, cause) "00 20 " count " " cause " 00 0000 "

// Sense (docs/SENSE.md; 002, 5.1 and 5.2). The zeros that follow are left out.
#define SENSE_COMMAND "80 00 00000000 00 01"
#define SENSE_SEQUENCE "80 00 00000000 00 02"
#define SENSE_FEWER "80 00 00000000 00 03"
#define SENSE_ARGUMENT "80 00 00000000 00 04"
#define SENSE_SIZE_BAD "80 40 00000000 00 04"
#define SENSE_OUTSIDE "80 04 00000000 00 04"
#define SENSE_INHIBITED "80 02 00000000 00 00"
#define SENSE_NOT_READY "40 00 00000000 00 10"
#define EXHAUSTED(locate) "80 01 00000000 00 0C " locate // R5: message C, and the LOCATE's eight bytes

// The log in the record: blocks read, blocks written with check, access movements.
#define LOG(read, checked, movements) read " " checked " " movements

// Records before.
#define PENDING "A1A2A3A4 A5A6A7A8 B1B2B3B4 B5B6B7B8 C1C2C3C4 C5C6C7C8 "
#define COUNTS "012345 06789A 0BCD "
#define READY_RW "01 00"
#define PENDING_RECORD PENDING COUNTS READY_RW
#define COUNTS_AFTER LOG("012345", "06789A", "0BCD")
#define NOT_READY "32*00 00 00"
#define READ_ONLY "32*00 01 01"

#define COUNT_OF(table) (sizeof(table) / sizeof *(table))

#endif
