/* The recovery course: blocks of the disk go bad, and the driver gives them another place; then the term ends.
 *
 *     cc recovery.c $(pkg-config --cflags --libs loughrella) && ./a.out
 *
 * The unit of this course has no flaws of its own, so the program only says that a block has failed; a driver would have seen it
 * in the sense after a READ. What the driver does then is real: a Format Defective Block, which has the unit take an alternate
 * for the block, and a WRITE of the data, for a format moves none. At last the alternates are used up, and the driver reads that
 * from the sense. When the term ends the alternates are given back, so that the next one has them; only the one that failed itself
 * stays defective. The printout is recovery.out. */
#include <loughrella.h>

#include <stdio.h>
#include <stdlib.h>
#include <string.h>

#define BLOCKS 8u     /* the device's blocks, 0 to 7: its primaries */
#define ALTERNATES 3u /* behind them in the store: blocks 8, 9 and 10 of it */

/* Main storage: the parameters of the driver's commands, sense, and data. */
#define EXTENT_AT 0u
#define LOCATE_AT 16u
#define SENSE_AT 24u
#define DATA_AT 48u

enum { WRITE = 0x41, READ = 0x42, LOCATE = 0x43, DEFINE_EXTENT = 0x63, SENSE = 0x04 }; /* commands */
enum { WRITE_DATA = 1, FORMAT_DEFECTIVE_BLOCK = 4, READ_DATA = 6 };                    /* operations of a LOCATE */
enum { END = 0x00, CHAIN = 0x40, SUPPRESS_LENGTH = 0x20 };                             /* flags */

static const unsigned pages[] = {2, 5, 6}; /* the blocks of this story */
static uint8_t store[(BLOCKS + ALTERNATES) * LOUGHRELLA_BLOCK_SIZE];
static uint8_t storage[DATA_AT + LOUGHRELLA_BLOCK_SIZE];
static uint8_t record[LOUGHRELLA_RECORD_SIZE];
static uint8_t chain[LOUGHRELLA_MAX_CHAIN], answers[LOUGHRELLA_MAX_CHAIN];
static size_t chain_len;

/* ---- Numbers are big-endian. */

static void put32(uint8_t *to, uint32_t value)
{
    to[0] = (uint8_t)(value >> 24);
    to[1] = (uint8_t)(value >> 16);
    to[2] = (uint8_t)(value >> 8);
    to[3] = (uint8_t)value;
}

static unsigned get16(const uint8_t *from) { return (unsigned)from[0] << 8 | from[1]; }
static uint32_t get32(const uint8_t *from) { return (uint32_t)get16(from) << 16 | get16(from + 2); }

/* ---- A chain in the making. */

static void add_command(unsigned command, unsigned address, unsigned flags, size_t count)
{
    uint8_t *word = chain + chain_len;

    put32(word, address); /* three bytes of it */
    word[0] = (uint8_t)command;
    word[4] = (uint8_t)flags;
    word[5] = 0;
    word[6] = (uint8_t)(count >> 8);
    word[7] = (uint8_t)count;
    chain_len += LOUGHRELLA_CCW_SIZE;
}

/* An extent over the whole device. Its mask, C0, forbids nothing: with 00 a format would be refused, with 40 a write too. */
static void add_extent(void)
{
    put32(storage + EXTENT_AT, 0xC0000000u);     /* mask, zero, block size 0: 512 */
    put32(storage + EXTENT_AT + 4, 0);           /* offset */
    put32(storage + EXTENT_AT + 8, 0);           /* first displacement */
    put32(storage + EXTENT_AT + 12, BLOCKS - 1); /* last displacement */
    add_command(DEFINE_EXTENT, EXTENT_AT, CHAIN, 16);
}

static void add_locate(unsigned operation, unsigned block, unsigned flags)
{
    put32(storage + LOCATE_AT, (uint32_t)operation << 24 | 1); /* operation, replication count, block count 1 */
    put32(storage + LOCATE_AT + 4, block);                     /* displacement; the extent begins at block 0 */
    add_command(LOCATE, LOCATE_AT, flags, 8);
}

/* Runs the chain. Tells the last answer, which says how the chain ended. */
static const uint8_t *run(void)
{
    uint32_t result = loughrella_run(chain, chain_len, storage, sizeof storage, store, sizeof store, ALTERNATES, record,
                                     sizeof record, answers, sizeof answers);

    chain_len = 0;
    if (LOUGHRELLA_CAUSE(result) != 0) { /* the call itself is wrong; no chain of this program is */
        printf("the call was refused by cause %u\n", (unsigned)LOUGHRELLA_CAUSE(result));
        exit(1);
    }
    return answers + LOUGHRELLA_ANSWER_SIZE * (LOUGHRELLA_REACHED(result) - 1);
}

/* ---- What the driver does. */

/* Format Defective Block: the LOCATE is all there is to it. A READ or WRITE directly behind it would be refused, by cause 42. */
static const uint8_t *format_block(unsigned block)
{
    add_extent();
    add_locate(FORMAT_DEFECTIVE_BLOCK, block, END);
    return run();
}

/* The text, and zeros behind it: a short WRITE fills its block with them. */
static void write_block(unsigned block, const char *text)
{
    size_t length = strlen(text);

    memcpy(storage + DATA_AT, text, length);
    add_extent();
    add_locate(WRITE_DATA, block, CHAIN);
    add_command(WRITE, DATA_AT, SUPPRESS_LENGTH, length);
    run();
}

/* To main storage. */
static const uint8_t *read_block(unsigned block)
{
    add_extent();
    add_locate(READ_DATA, block, CHAIN);
    add_command(READ, DATA_AT, END, LOUGHRELLA_BLOCK_SIZE);
    run();
    return storage + DATA_AT;
}

static const uint8_t *read_sense(void)
{
    add_command(SENSE, SENSE_AT, END, 24);
    run();
    return storage + SENSE_AT;
}

/* ---- What the teacher does: it is no command, and no chain is run. */

/* Gives the block's alternate back: its data goes to the block's own place, and zeros to the alternate. Tells the cause. */
static unsigned give_back(unsigned block)
{
    return (unsigned)LOUGHRELLA_CAUSE(loughrella_give_back(store, sizeof store, ALTERNATES, record, sizeof record, block));
}

/* ---- What there is to see. A driver sees what READ shows; the rest is the unit's own, and lies in the record and in the store. */

/* The text that a block begins with, unless every byte of it is zero. */
static void show_bytes(const char *what, const uint8_t *block)
{
    unsigned i = 0;

    while (i < LOUGHRELLA_BLOCK_SIZE && block[i] == 0) i++;
    if (i == LOUGHRELLA_BLOCK_SIZE) printf("%s zeros", what);
    else printf("%s \"%s\"", what, (const char *)block);
}

static void show_block(unsigned block)
{
    printf("  block %u:", block);
    show_bytes(" READ shows", read_block(block));
    show_bytes("; its own place holds", store + LOUGHRELLA_BLOCK_SIZE * block);
    printf("\n");
}

static uint32_t map_entry(unsigned alternate) { return get32(record + LOUGHRELLA_MAP_AT + LOUGHRELLA_ENTRY_SIZE * alternate); }

static void show_alternate(unsigned alternate)
{
    uint32_t entry = map_entry(alternate);

    printf("  alternate %u: %08X, ", alternate, (unsigned)entry);
    if (entry == LOUGHRELLA_UNUSED) printf("unused");
    else if (entry == LOUGHRELLA_DEFECTIVE) printf("defective");
    else printf("it is block %u", (unsigned)entry - 1);
    show_bytes("; it holds", store + LOUGHRELLA_BLOCK_SIZE * (BLOCKS + alternate));
    printf("\n");
}

static void show_map(void)
{
    unsigned i;

    for (i = 0; i < ALTERNATES; i++) show_alternate(i);
}

static void show_device(void)
{
    unsigned i;

    for (i = 0; i < sizeof pages / sizeof *pages; i++) show_block(pages[i]);
    show_map();
}

/* What a driver reads from the sense of a format that was refused (FIPS 97, 5.1, 5.2 and appendix A). */
static void explain(const uint8_t *sense)
{
    unsigned i;

    printf("  sense:");
    for (i = 0; i < 24; i++) printf(" %02X", sense[i]);
    printf("\n");
    if ((sense[0] & 0x80) != 0) printf("  byte 0, bit 0: COMMAND REJECT\n");
    if ((sense[1] & 0x01) != 0) printf("  byte 1, bit 7: OPERATION INCOMPLETE, so bytes 8 to 17 are about the LOCATE\n");
    printf("  byte 7: format %X, message %X%s\n", sense[7] >> 4, sense[7] & 0x0F,
           sense[7] == 0x0C ? ": the alternate space is exhausted" : "");
    printf("  bytes 8 to 15: operation %u, %u block, displacement %u\n", sense[8] & 0x0Fu, get16(sense + 10), (unsigned)get32(sense + 12));
    printf("  bytes 16 and 17: %u blocks transferred\n", get16(sense + 16));
    printf("  so the driver tells the operator, and does not try again\n");
}

/* ---- The story. */

/* A block has failed. The driver has its data, and gives it a new place, if there is one. */
static void recover(unsigned block, const char *data)
{
    const uint8_t *answer = format_block(block);

    printf("\nBlock %u has failed. Format Defective Block: unit status %02X, cause %u\n", block, answer[0], answer[4]);
    if (answer[4] == LOUGHRELLA_NO_ALTERNATE) {
        explain(read_sense());
        return;
    }
    show_block(block); /* a format moves no data: READ shows what the alternate held */
    write_block(block, data);
    printf("  written again\n");
    show_block(block);
    show_map();
}

/* Every block is asked for, and the one behind the last. */
static void give_all_back(void)
{
    unsigned block, not_mapped = 0;

    for (block = 0; block <= BLOCKS; block++) {
        unsigned cause = give_back(block);

        if (cause == LOUGHRELLA_ACCEPTED) printf("  block %u: given back\n", block);
        if (cause == LOUGHRELLA_NOT_MAPPED) not_mapped++;
        if (cause == LOUGHRELLA_BEYOND_DEVICE) printf("  block %u: cause %u, the device has no such block\n", block, cause);
    }
    printf("  %u other blocks: cause %u, they have no alternate\n", not_mapped, (unsigned)LOUGHRELLA_NOT_MAPPED);
}

int main(void)
{
    loughrella_record(record, sizeof record, 1, 0);
    printf("A device of %u blocks, and %u alternates behind them. Three pages are written.\n", BLOCKS, ALTERNATES);
    write_block(2, "page 2, first copy");
    write_block(5, "page 5, first copy");
    write_block(6, "page 6, first copy");
    show_device();

    recover(5, "page 5, second copy");
    recover(5, "page 5, third copy"); /* now it was its alternate that failed, and that is defective for good */
    recover(2, "page 2, second copy");
    recover(6, "page 6, second copy"); /* refused: the page stays where it was */

    printf("\nThe term ends:\n");
    show_device();
    printf("The teacher gives the alternates back, block by block:\n");
    give_all_back();
    printf("READ shows every page as before; one alternate stays defective, and the others are as new:\n");
    show_device();

    printf("\nA new term.");
    recover(6, "page 6, second copy"); /* takes the lowest that was given back */
    return 0;
}
