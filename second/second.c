#include "second.h"

#include <stdbool.h>
#include <string.h>

// What is lent (01, "What is lent").
#define BLOCK 512u
#define CCW_SIZE 8u
#define ANSWER_SIZE 8u
#define MAX_CHAIN 256u
#define MAX_CCWS (MAX_CHAIN / CCW_SIZE)
#define MAX_BLOCKS 131072u
#define MAX_STORAGE 16777216u

// Alternates (02, ask 4), and what an entry of the map is where it is not the number of a primary block plus 1.
#define MAX_ALTERNATES 64u
#define ENTRY_SIZE 4u
#define MAP_SIZE (MAX_ALTERNATES * ENTRY_SIZE)
#define UNUSED 0u
#define DEFECTIVE 0xFFFFFFFFu

// A class (02, ask 3): what stands before each chain, and before the answers in its result.
#define LENGTH_SIZE 2u
#define HEAD_SIZE 4u

// The unit record's places. The sense comes first, the map last.
enum {
    SENSE_SIZE = 24, BLOCKS_READ = 24, BLOCKS_CHECKED = 27, MOVEMENTS = 30, READY = 32, READ_ONLY = 33, MAP = 34,
    RECORD_SIZE = MAP + MAP_SIZE
};

enum { // Command bytes
    READ_IPL = 0x02, NO_OPERATION = 0x03, SENSE = 0x04, WRITE = 0x41, READ = 0x42, LOCATE = 0x43,
    DEFINE_EXTENT = 0x63, READ_LOG = 0xA4, SENSE_TYPE = 0xE4
};

enum { CHAIN_DATA = 0x80, CHAIN_COMMAND = 0x40, SUPPRESS_LENGTH = 0x20 }; // Flags
enum { CHANNEL_END_DEVICE_END = 0x0C, UNIT_CHECK = 0x02 };                // Unit status
enum { INCORRECT_LENGTH = 0x40, PROGRAM_CHECK = 0x20 };                   // Channel status
enum { FIRST_UNIT_CHECK = 20, NO_ALTERNATE = 39, LAST_CAUSE = 44 };       // Causes with a place of their own

// Operations of LOCATE, as sets, so that a mask's permission is one set too.
#define OPERATION(code) (1u << (code))
#define FORMAT OPERATION(4)
#define WRITE_CHECK OPERATION(5)
#define READ_REPLICATED OPERATION(2)
#define WRITES (OPERATION(1) | WRITE_CHECK)
#define READS (OPERATION(6) | READ_REPLICATED)

// What mask bits 0-1 allow; 10 is refused by cause 22.
static const uint32_t allowed[4] = {READS | WRITES, READS, 0, READS | WRITES | FORMAT};

// Sense bytes 0, 1 and 7 of each unit check (docs/SENSE.md).
static const uint8_t sense_of[LAST_CAUSE + 1 - FIRST_UNIT_CHECK][3] = {
    [20 - 20] = {0x80, 0x00, 0x03}, [21 - 20] = {0x80, 0x00, 0x02}, [22 - 20] = {0x80, 0x00, 0x04},
    [23 - 20] = {0x80, 0x00, 0x04}, [24 - 20] = {0x80, 0x40, 0x04}, [25 - 20] = {0x80, 0x00, 0x04},
    [26 - 20] = {0x80, 0x00, 0x04}, [30 - 20] = {0x80, 0x00, 0x02}, [31 - 20] = {0x80, 0x00, 0x03},
    [32 - 20] = {0x80, 0x00, 0x04}, [33 - 20] = {0x80, 0x00, 0x04}, [34 - 20] = {0x80, 0x00, 0x04},
    [35 - 20] = {0x80, 0x00, 0x04}, [36 - 20] = {0x80, 0x04, 0x04}, [37 - 20] = {0x80, 0x00, 0x04},
    [38 - 20] = {0x80, 0x02, 0x00}, [39 - 20] = {0x80, 0x01, 0x0C}, [40 - 20] = {0x80, 0x00, 0x02},
    [41 - 20] = {0x80, 0x00, 0x02}, [42 - 20] = {0x80, 0x00, 0x02}, [43 - 20] = {0x80, 0x00, 0x01},
    [44 - 20] = {0x40, 0x00, 0x10},
};

static const uint8_t device_type[7] = {0xFF, 0x00, 0x97, 0x01, 0x05, 0x12, 0x01};

// One data area of a command: the address and count of a CCW.
struct piece {
    uint32_t address, count;
};

// A command: its first CCW and, while a CCW has flag 80, the next one (02, ask 2).
struct command {
    uint8_t code, flags; // the code of the first piece; the flags of the final one, where alone 40 and 20 mean something
    uint32_t sum;        // of all counts: at most 32 times 65,535
    const uint8_t *next; // the CCW after the final piece
    struct piece piece[MAX_CCWS];
};

// A mapped block, and the block of the store where its alternate is.
struct mapped {
    uint32_t block, place;
};

#define NO_BLOCK 0xFFFFFFFFu // ends a list of mapped blocks, and is above all of them

// Bytes of the store, or of main storage.
struct part {
    uint8_t *at;
    uint32_t size;
};

// Blocks of the device from one on, and the first of the mapped ones that is not before it.
struct blocks {
    uint32_t first, count;
    const struct mapped *next;
};

// What an accepted command can move, and the blocks it began.
struct work {
    uint32_t can_move, blocks;
};

// One chain's run: the buffers, the extent, the last accepted LOCATE and the command directly before.
struct run {
    uint8_t *storage, *store, *record, *answer; // the answer is the next to be written
    size_t storage_len;
    uint32_t primaries, alternates, mapped_count;
    struct mapped *mapped;                    // ascending; as the map has them
    uint32_t offset, first, last;             // the extent, if one stands
    uint32_t operation, block, block_count;   // the LOCATE, if one was accepted
    uint8_t mask, before;                     // before is 0 at the chain's first command
    bool extent;
};

static uint32_t get16(const uint8_t *p) { return (uint32_t)p[0] << 8 | p[1]; }
static uint32_t get24(const uint8_t *p) { return (uint32_t)p[0] << 16 | get16(p + 1); }
static uint32_t get32(const uint8_t *p) { return (uint32_t)p[0] << 24 | get24(p + 1); }

static void put16(uint8_t *p, uint32_t value)
{
    p[0] = (uint8_t)(value >> 8);
    p[1] = (uint8_t)value;
}

static void put24(uint8_t *p, uint32_t value)
{
    p[0] = (uint8_t)(value >> 16);
    put16(p + 1, value);
}

static void put32(uint8_t *p, uint32_t value)
{
    p[0] = (uint8_t)(value >> 24);
    put24(p + 1, value);
}

static uint32_t smaller(uint32_t a, uint32_t b) { return a < b ? a : b; }

// Adds to a count of the log; a full count stays at its largest value.
static void count24(uint8_t *field, uint32_t amount) { put24(field, smaller(get24(field) + amount, 0xFFFFFF)); }
static void count16(uint8_t *field, uint32_t amount) { put16(field, smaller(get16(field) + amount, 0xFFFF)); }

// Scatters as much of the data as the pieces take, in order: where they overlap the later bytes stay.
static void send(const struct run *r, const struct command *c, const uint8_t *data, uint32_t size)
{
    uint32_t left = smaller(c->sum, size);
    for (const struct piece *p = c->piece; left > 0; p++) {
        uint32_t part = smaller(p->count, left);
        memcpy(r->storage + p->address, data, part);
        data += part;
        left -= part;
    }
}

// Gathers as much from the pieces as they have and the size takes.
static void gather(const struct run *r, const struct command *c, uint8_t *to, uint32_t size)
{
    uint32_t left = smaller(c->sum, size);
    for (const struct piece *p = c->piece; left > 0; p++) {
        uint32_t part = smaller(p->count, left);
        memcpy(to, r->storage + p->address, part);
        to += part;
        left -= part;
    }
}

// A command's parameters, of which the sum has enough: where they stand if the first piece has them all, else gathered.
static const uint8_t *parameters(const struct run *r, const struct command *c, uint8_t *room, uint32_t size)
{
    if (c->piece[0].count >= size) return r->storage + c->piece[0].address;
    gather(r, c, room, size);
    return room;
}

// The first mapped block that is not before this one.
static struct mapped *mapped_from(const struct run *r, uint32_t block)
{
    struct mapped *m = r->mapped;
    while (m->block < block) m++;
    return m;
}

static uint8_t *block_at(const struct run *r, uint32_t place) { return r->store + (size_t)BLOCK * place; }

// The entry of the map that names a mapped block.
static uint8_t *entry_of(const struct run *r, const struct mapped *m)
{
    return r->record + MAP + ENTRY_SIZE * (m->place - r->primaries);
}

// Takes from the front the blocks that lie in a row in the store: all up to the next mapped one; or that one, and those behind it
// whose alternates follow its own.
static struct part take_row(const struct run *r, struct blocks *b)
{
    uint32_t place = b->first, count = smaller(b->next->block - b->first, b->count);
    if (count == 0) {
        place = b->next->place;
        do {
            count++;
            b->next++;
        } while (count < b->count && b->next->block == b->first + count && b->next->place == place + count);
    }
    b->first += count;
    b->count -= count;
    return (struct part){block_at(r, place), BLOCK * count};
}

// Moves so many bytes between the pieces and the blocks, row by row, in order as send and gather do. What a WRITE's bytes do not
// fill gets zeros.
static void move_rows(const struct run *r, const struct command *c, struct blocks b, uint32_t left)
{
    const struct piece *p = c->piece;
    struct part area = {r->storage, 0};
    while (b.count > 0) {
        struct part row = take_row(r, &b);
        while (row.size > 0 && left > 0) {
            if (area.size == 0) {
                area = (struct part){r->storage + p->address, p->count};
                p++;
            }
            uint32_t part = smaller(smaller(row.size, area.size), left);
            if (c->code == WRITE) memcpy(row.at, area.at, part);
            else memcpy(area.at, row.at, part);
            row = (struct part){row.at + part, row.size - part};
            area = (struct part){area.at + part, area.size - part};
            left -= part;
        }
        if (c->code == WRITE) memset(row.at, 0, row.size);
    }
}

// Adds a block to the mapped ones. Tells whether it was not among them.
static bool add_mapped(struct run *r, uint32_t block, uint32_t alternate)
{
    struct mapped *m = r->mapped + r->mapped_count++;
    m[1].block = NO_BLOCK;
    for (; m > r->mapped && m[-1].block > block; m--) *m = m[-1];
    *m = (struct mapped){block, r->primaries + alternate};
    return m == r->mapped || m[-1].block < block;
}

// The block goes to the lowest unused alternate, and the one that it had is defective for good. No data moves. Tells whether one
// was unused: else nothing changes.
static bool format(struct run *r, uint32_t block)
{
    uint8_t *map = r->record + MAP;
    uint32_t unused = 0;
    while (unused < r->alternates && get32(map + ENTRY_SIZE * unused) != UNUSED) unused++;
    if (unused == r->alternates) return false;
    put32(map + ENTRY_SIZE * unused, block + 1);
    struct mapped *m = mapped_from(r, block);
    if (m->block == block) {
        put32(entry_of(r, m), DEFECTIVE);
        m->place = r->primaries + unused;
    } else {
        add_mapped(r, block, unused);
    }
    return true;
}

static uint32_t define_extent(struct run *r, const struct command *c, struct work *w)
{
    uint8_t room[16];
    if (c->sum < 16) return 20;
    if (r->extent) return 21;
    const uint8_t *p = parameters(r, c, room, 16);
    if (p[0] >> 6 == 2 || (p[0] & 0x33) != 0 || p[1] != 0) return 22;
    if ((p[0] & 0x08) != 0) return 23;
    uint32_t size = get16(p + 2), offset = get32(p + 4), first = get32(p + 8), last = get32(p + 12);
    if (size != 0 && size != BLOCK) return 24;
    if (first > last) return 25;
    if ((uint64_t)offset + (last - first) >= r->primaries) return 26;
    r->extent = true;
    r->mask = p[0];
    r->offset = offset;
    r->first = first;
    r->last = last;
    w->can_move = 16;
    return 0;
}

static uint32_t locate(struct run *r, const struct command *c, struct work *w)
{
    uint8_t room[8];
    if (!r->extent) return 30;
    if (c->sum < 8) return 31;
    const uint8_t *p = parameters(r, c, room, 8);
    if ((p[0] & 0xE0) != 0) return 32; // bit 3 is ignored (R1)
    uint32_t operation = OPERATION(p[0] & 0x0F), blocks = get16(p + 2), displacement = get32(p + 4), range = blocks;
    if ((operation & (READS | WRITES | FORMAT)) == 0) return 33;
    if (blocks == 0 || (operation == FORMAT && blocks != 1)) return 34;
    if (operation == READ_REPLICATED) {
        range = p[1];
        if (range < blocks || range % blocks != 0) return 35;
    }
    if (displacement < r->first || (uint64_t)displacement + range - 1 > r->last) return 36;
    if ((operation & allowed[r->mask >> 6]) == 0) return 37;
    if (r->record[READ_ONLY] != 0 && (operation & (WRITES | FORMAT)) != 0) return 38;
    uint32_t block = displacement - r->first + r->offset;
    if (operation == FORMAT && !format(r, block)) return NO_ALTERNATE;
    r->operation = operation;
    r->block = block;
    r->block_count = blocks;
    count16(r->record + MOVEMENTS, 1);
    w->can_move = 8;
    return 0;
}

// So many blocks from the LOCATE's first on.
static struct blocks located(const struct run *r, uint32_t count)
{
    return (struct blocks){r->block, count, mapped_from(r, r->block)};
}

// Whether none of them is mapped.
static bool lie_in_a_row(const struct blocks *b) { return b->next->block - b->first >= b->count; }

static uint32_t read_data(struct run *r, const struct command *c, struct work *w)
{
    if (r->before != LOCATE) return 41;
    if ((r->operation & READS) == 0) return 42;
    w->can_move = BLOCK * r->block_count;
    uint32_t moved = smaller(c->sum, w->can_move);
    w->blocks = (moved + BLOCK - 1) / BLOCK;
    struct blocks blocks = located(r, w->blocks);
    if (lie_in_a_row(&blocks)) send(r, c, block_at(r, r->block), moved);
    else move_rows(r, c, blocks, moved);
    count24(r->record + BLOCKS_READ, w->blocks);
    return 0;
}

// Every block of the LOCATE is stored: the data, then zeros (R2). With the check, all of them count (R3).
static uint32_t write_data(struct run *r, const struct command *c, struct work *w)
{
    if (r->before != LOCATE) return 41;
    if ((r->operation & WRITES) == 0) return 42;
    w->can_move = BLOCK * r->block_count;
    uint32_t moved = smaller(c->sum, w->can_move);
    w->blocks = (moved + BLOCK - 1) / BLOCK;
    struct blocks blocks = located(r, r->block_count);
    if (lie_in_a_row(&blocks)) {
        uint8_t *target = block_at(r, r->block);
        gather(r, c, target, moved);
        memset(target + moved, 0, w->can_move - moved);
    } else {
        move_rows(r, c, blocks, moved);
    }
    if (r->operation == WRITE_CHECK) count24(r->record + BLOCKS_CHECKED, r->block_count);
    return 0;
}

static uint32_t read_ipl(struct run *r, const struct command *c, struct work *w)
{
    if (r->before != 0 && r->before != READ_IPL) return 40; // chained from a READ IPL it is accepted (R4)
    r->extent = true;
    r->mask = 0;
    r->offset = 0;
    r->first = 0;
    r->last = r->primaries - 1;
    send(r, c, block_at(r, r->mapped->block == 0 ? r->mapped->place : 0), BLOCK);
    count24(r->record + BLOCKS_READ, 1);
    count16(r->record + MOVEMENTS, 1);
    w->can_move = BLOCK;
    w->blocks = 1;
    return 0;
}

static uint32_t sense(struct run *r, const struct command *c, struct work *w)
{
    send(r, c, r->record, SENSE_SIZE);
    memset(r->record, 0, SENSE_SIZE);
    w->can_move = SENSE_SIZE;
    return 0;
}

static uint32_t sense_type(struct run *r, const struct command *c, struct work *w)
{
    send(r, c, device_type, sizeof device_type);
    w->can_move = sizeof device_type;
    return 0;
}

static uint32_t read_log(struct run *r, const struct command *c, struct work *w)
{
    uint8_t log[SENSE_SIZE] = {[2] = 0x10, [7] = 0x68}; // Environmental Data Present (R7); format 6, message 8
    memcpy(log + 8, r->record + BLOCKS_READ, 3);
    memcpy(log + 15, r->record + BLOCKS_CHECKED, 3);
    memcpy(log + 19, r->record + MOVEMENTS, 2);
    send(r, c, log, sizeof log);
    memset(r->record + BLOCKS_READ, 0, READY - BLOCKS_READ);
    w->can_move = sizeof log;
    return 0;
}

// Takes a command from the chain, and what the channel refuses before the unit sees it: cause 13 by the first CCW's code, then
// the causes of each piece in turn. After a CCW with flag 80 there is another, for the chain has one that ends it.
static uint32_t fetch(const struct run *r, struct command *c, const uint8_t *ccw)
{
    uint8_t code = ccw[0], flags;
    uint32_t sum = 0;
    struct piece *p = c->piece;
    if ((code & 0x07) == 0) return 13;
    do {
        uint32_t address = get24(ccw + 1), count = get16(ccw + 6);
        flags = ccw[4];
        if ((flags & ~(CHAIN_DATA | CHAIN_COMMAND | SUPPRESS_LENGTH)) != 0) return 10;
        if (count == 0) return 11;
        if (code != NO_OPERATION && (size_t)address + count > r->storage_len) return 12;
        *p++ = (struct piece){address, count};
        sum += count;
        ccw += CCW_SIZE;
    } while ((flags & CHAIN_DATA) != 0);
    c->code = code;
    c->flags = flags;
    c->sum = sum;
    c->next = ccw;
    return 0;
}

// The command as the unit sees it: causes 44, 43, then the command's own.
static uint32_t unit_command(struct run *r, const struct command *c, struct work *w)
{
    if (c->code != NO_OPERATION && c->code != SENSE) memset(r->record, 0, SENSE_SIZE);
    if (r->record[READY] == 0 && c->code != SENSE && c->code != SENSE_TYPE) return 44;
    switch (c->code) {
    case NO_OPERATION: return 0;
    case DEFINE_EXTENT: return define_extent(r, c, w);
    case LOCATE: return locate(r, c, w);
    case READ: return read_data(r, c, w);
    case WRITE: return write_data(r, c, w);
    case READ_IPL: return read_ipl(r, c, w);
    case SENSE: return sense(r, c, w);
    case SENSE_TYPE: return sense_type(r, c, w);
    case READ_LOG: return read_log(r, c, w);
    default: return 43;
    }
}

// New sense after a unit check; cause 39 also keeps the LOCATE's parameters (R5).
static void set_sense(struct run *r, const struct command *c, uint32_t cause)
{
    const uint8_t *bytes = sense_of[cause - FIRST_UNIT_CHECK];
    memset(r->record, 0, SENSE_SIZE);
    r->record[0] = bytes[0];
    r->record[1] = bytes[1];
    r->record[7] = bytes[2];
    if (cause == NO_ALTERNATE) gather(r, c, r->record + 8, 8);
}

static void put_answer(struct run *r, uint8_t unit, uint8_t channel, uint32_t residual, uint32_t cause, uint32_t blocks)
{
    uint8_t *answer = r->answer;
    answer[0] = unit;
    answer[1] = channel;
    put16(answer + 2, residual);
    answer[4] = (uint8_t)cause;
    answer[5] = 0;
    put16(answer + 6, blocks);
    r->answer += ANSWER_SIZE;
}

// A piece is reached if it is the first or bytes moved there. Answers each piece reached but the last: it is used up, and shows
// zeros. Returns the last one's residual.
static uint32_t answer_used(struct run *r, const struct command *c, uint32_t moved)
{
    const struct piece *p = c->piece;
    for (; moved > p->count; p++) {
        moved -= p->count;
        memset(r->answer, 0, ANSWER_SIZE);
        r->answer += ANSWER_SIZE;
    }
    return p->count - moved;
}

// The parameter bytes that a refused command has taken. They are transferred first and checked then (002, 2.1.3 and
// 2.1.4; 02, ask 1), so causes 22 to 26 and 32 to 39 come after them. The pieces held that many: 20 and 31 are tested before.
static uint32_t taken(uint32_t cause)
{
    if (cause >= 22 && cause <= 26) return 16;
    if (cause >= 32 && cause <= 39) return 8;
    return 0;
}

// Runs one command and writes its answers; tells whether the chain goes on. A program check is answered in the first piece alone.
static bool run_command(struct run *r, struct command *c, const uint8_t *ccw)
{
    struct work w = {0, 0};
    uint32_t cause = fetch(r, c, ccw);
    if (cause != 0) {
        put_answer(r, 0, PROGRAM_CHECK, get16(ccw + 6), cause, 0);
        return false;
    }
    cause = unit_command(r, c, &w);
    if (cause != 0) {
        set_sense(r, c, cause);
        uint32_t residual = answer_used(r, c, taken(cause));
        put_answer(r, CHANNEL_END_DEVICE_END | UNIT_CHECK, 0, residual, cause, 0);
        return false;
    }
    bool incorrect = (c->flags & SUPPRESS_LENGTH) == 0 && c->sum != w.can_move && c->code != NO_OPERATION;
    uint32_t residual = answer_used(r, c, smaller(c->sum, w.can_move));
    put_answer(r, CHANNEL_END_DEVICE_END, incorrect ? INCORRECT_LENGTH : 0, residual, 0, w.blocks);
    return !incorrect && (c->flags & CHAIN_COMMAND) != 0;
}

static bool chain_ends(const uint8_t *chain, size_t chain_len)
{
    for (size_t i = 4; i < chain_len; i += CCW_SIZE)
        if ((chain[i] & (CHAIN_DATA | CHAIN_COMMAND)) == 0) return true;
    return false;
}

// Whether a store of this length, with so many alternates, is a device: else cause 2.
static bool is_device(size_t store_len, uint32_t alternates)
{
    if (store_len % BLOCK != 0 || store_len / BLOCK > MAX_BLOCKS) return false;
    if (alternates > MAX_ALTERNATES || alternates >= store_len / BLOCK) return false; // there is a primary
    return true;
}

static uint32_t primaries_of(size_t store_len, uint32_t alternates) { return (uint32_t)(store_len / BLOCK) - alternates; }

static uint32_t call_cause(const uint8_t *chain, size_t chain_len, size_t storage_len, size_t store_len,
                           uint32_t alternates, size_t record_len, size_t answers_len)
{
    if (chain_len == 0 || chain_len > MAX_CHAIN || chain_len % CCW_SIZE != 0) return 1;
    if (!is_device(store_len, alternates)) return 2;
    if (storage_len > MAX_STORAGE) return 3;
    if (answers_len < chain_len) return 4;
    if (!chain_ends(chain, chain_len)) return 5;
    if (record_len != RECORD_SIZE) return 6;
    return 0;
}

static bool is_empty(const uint8_t *map)
{
    uint8_t any = 0;
    for (size_t i = 0; i < MAP_SIZE; i++) any |= map[i];
    return any == 0;
}

// Lists the mapped blocks. Tells whether the map is right: else cause 8.
static bool list_mapped(struct run *r)
{
    const uint8_t *map = r->record + MAP;
    r->mapped[0].block = NO_BLOCK;
    if (is_empty(map)) return true;
    for (uint32_t i = 0; i < MAX_ALTERNATES; i++) {
        uint32_t entry = get32(map + ENTRY_SIZE * i);
        if (entry == UNUSED) continue;
        if (i >= r->alternates) return false;
        if (entry == DEFECTIVE) continue;
        if (entry > r->primaries || !add_mapped(r, entry - 1, i)) return false;
    }
    return true;
}

uint32_t second_run(const uint8_t *chain, size_t chain_len, uint8_t *storage, size_t storage_len,
                    uint8_t *store, size_t store_len, uint32_t alternates, uint8_t *record, size_t record_len,
                    uint8_t *answers, size_t answers_len)
{
    uint32_t cause = call_cause(chain, chain_len, storage_len, store_len, alternates, record_len, answers_len);
    if (cause != 0) return 256 * cause;
    struct mapped mapped[MAX_ALTERNATES + 1];
    struct run r = {.storage = storage, .store = store, .record = record, .answer = answers, .storage_len = storage_len,
                    .mapped = mapped, .primaries = primaries_of(store_len, alternates), .alternates = alternates};
    if (!list_mapped(&r)) return 256 * 8;
    struct command c;
    for (const uint8_t *ccw = chain; run_command(&r, &c, ccw); ccw = c.next) r.before = c.code;
    return (uint32_t)(r.answer - answers) / ANSWER_SIZE;
}

// The room for a chain's answers: one for each 8 bytes of its length, rounded up. So a chain whose length is right has as many
// bytes as it needs, and cause 4 cannot come.
static size_t answer_room(size_t length) { return (length + CCW_SIZE - 1) / CCW_SIZE * ANSWER_SIZE; }

// Whether the last chain ends where the buffer does and the results have room for all of them: else cause 7.
static bool class_fits(const uint8_t *chains, size_t chains_len, size_t results_len)
{
    while (chains_len > 0) {
        if (chains_len < LENGTH_SIZE) return false;
        size_t length = get16(chains), size = HEAD_SIZE + answer_room(length);
        if (chains_len - LENGTH_SIZE < length || results_len < size) return false;
        chains += LENGTH_SIZE + length;
        chains_len -= LENGTH_SIZE + length;
        results_len -= size;
    }
    return true;
}

uint32_t second_run_class(const uint8_t *chains, size_t chains_len, uint8_t *storage, size_t storage_len,
                          uint8_t *store, size_t store_len, uint32_t alternates, uint8_t *record, size_t record_len,
                          uint8_t *results, size_t results_len)
{
    if (!class_fits(chains, chains_len, results_len)) return 256 * 7;
    while (chains_len > 0) {
        size_t length = get16(chains), room = answer_room(length);
        uint32_t result = second_run(chains + LENGTH_SIZE, length, storage, storage_len, store, store_len, alternates, record,
                                     record_len, results + HEAD_SIZE, room);
        put16(results, result / 256);
        put16(results + 2, result % 256);
        chains += LENGTH_SIZE + length;
        chains_len -= LENGTH_SIZE + length;
        results += HEAD_SIZE + room;
    }
    return 0;
}

uint32_t second_record(uint8_t *record, size_t record_len, uint8_t ready, uint8_t read_only)
{
    if (record_len != RECORD_SIZE) return 256 * 6;
    memset(record, 0, RECORD_SIZE);
    record[READY] = ready;
    record[READ_ONLY] = read_only;
    return 0;
}

// No command: the unit's state is not looked at, and sense and counts stay.
uint32_t second_give_back(uint8_t *store, size_t store_len, uint32_t alternates, uint8_t *record, size_t record_len,
                          uint32_t block)
{
    if (!is_device(store_len, alternates)) return 256 * 2;
    if (record_len != RECORD_SIZE) return 256 * 6;
    struct mapped mapped[MAX_ALTERNATES + 1];
    struct run r = {.store = store, .record = record, .mapped = mapped, .primaries = primaries_of(store_len, alternates),
                    .alternates = alternates};
    if (!list_mapped(&r)) return 256 * 8;
    if (block >= r.primaries) return 256 * 50;
    const struct mapped *m = mapped_from(&r, block);
    if (m->block != block) return 256 * 51;
    memcpy(block_at(&r, block), block_at(&r, m->place), BLOCK);
    memset(block_at(&r, m->place), 0, BLOCK);
    put32(entry_of(&r, m), UNUSED);
    return 0;
}
