// Makes inputs: mostly meaningful chains, some of them damaged in one place.
#include "test.h"

#include <string.h>

#define STORE_MAX ((size_t)MAX_BLOCKS * BLOCK)
#define TOP 0xFFFFFFFFu

// A chain in the making, and what its author believes to stand.
struct maker {
    struct random *r;
    const struct buffers *library, *twin;
    size_t chain;                   // where the chain begins in its buffer: 0, but for the chains of a class
    uint32_t words, limit;          // command words so far, and how many there shall be
    struct device *device;
    uint32_t storage, blocks;       // bytes of storage; the device's blocks, without alternates
    uint32_t parameters;            // where the next parameters go
    uint32_t offset, first, last;
    uint32_t operation, block_count;
    bool extent;
    bool careful;                   // nothing is damaged, so that the chain gets far
    bool in_pieces;                 // many commands are in pieces
    bool huge;                      // counts are summed up to more than 65,535
    bool formats;                   // many LOCATEs are formats
};

uint64_t random_next(struct random *r) // splitmix64
{
    uint64_t z = r->state += 0x9E3779B97F4A7C15u;
    z = (z ^ z >> 30) * 0xBF58476D1CE4E5B9u;
    z = (z ^ z >> 27) * 0x94D049BB133111EBu;
    return z ^ z >> 31;
}

uint32_t random_below(struct random *r, uint32_t limit) { return (uint32_t)((random_next(r) >> 32) * limit >> 32); }

bool percent(struct random *r, uint32_t chance) { return random_below(r, 100) < chance; }
uint32_t between(struct random *r, uint32_t low, uint32_t high) { return low + random_below(r, high - low + 1); }

static bool mishap(const struct maker *m, uint32_t chance) { return !m->careful && percent(m->r, chance); }

void random_fill(struct random *r, uint8_t *to, size_t length)
{
    for (; length >= 8; length -= 8, to += 8) {
        uint64_t value = random_next(r);
        memcpy(to, &value, 8);
    }
    for (; length > 0; length--) *to++ = (uint8_t)random_next(r);
}

// Writes on both sides, as far as the buffer goes.
static void put(const struct maker *m, int buffer, size_t at, const uint8_t *bytes, size_t size)
{
    if (at > m->library->length[buffer] || size > m->library->length[buffer] - at) return;
    memcpy(m->library->at[buffer] + at, bytes, size);
    memcpy(m->twin->at[buffer] + at, bytes, size);
}

// A command word, with flag 40 unless it has flag 80; now and then one that the channel or the unit refuses (13, 43, 10, 11, 12).
static void put_word(struct maker *m, uint32_t command, uint32_t address, uint32_t flags, uint32_t count)
{
    if (m->words == m->limit) return;
    for (uint32_t chance = 3; mishap(m, chance); chance = 15) { // sometimes two at once, for the order of causes
        switch (random_below(m->r, 5)) {
        case 0: command = (command & 0xF0) | (percent(m->r, 50) ? 8 : 0); break;
        case 1: command = random_below(m->r, 256); break;
        case 2: flags = percent(m->r, 50) ? 1u << random_below(m->r, 8) : random_below(m->r, 256); break;
        case 3: count = 0; break;
        default: address = m->storage - count + 1 + (percent(m->r, 30) ? random_below(m->r, 1u << 24) : 0); break;
        }
    }
    if ((flags & 0x80) == 0) flags |= 0x40;
    uint8_t word[8] = {(uint8_t)command, (uint8_t)(address >> 16), (uint8_t)(address >> 8), (uint8_t)address,
                       (uint8_t)flags, (uint8_t)random_next(m->r), (uint8_t)(count >> 8), (uint8_t)count};
    put(m, CHAIN, m->chain + 8 * (size_t)m->words, word, 8);
    m->words++;
}

// Parameters go one after the other; when the first half of storage is full, over the oldest ones.
static uint32_t put_parameters(struct maker *m, const uint8_t *bytes, uint32_t size)
{
    if (m->parameters + size > m->storage / 2) m->parameters = 0;
    uint32_t at = m->parameters;
    put(m, STORAGE, at, bytes, size);
    m->parameters += size;
    return at;
}

// A data area of the count in storage, mostly behind the parameters.
static uint32_t area(struct maker *m, uint32_t count)
{
    if (count > m->storage) return random_below(m->r, m->storage + 1);
    uint32_t room = m->storage - count;
    if (percent(m->r, 10)) return room;
    if (m->parameters <= room && percent(m->r, 85)) return between(m->r, m->parameters, room);
    return random_below(m->r, room + 1);
}

// Flag 20 always where the length would be wrong and the chain should go on, else half the time.
static uint32_t suppress(struct maker *m, bool exact) { return percent(m->r, exact ? 40 : m->careful ? 100 : 75) ? 0x20 : 0; }

// ---- Pieces (02, ask 2).

// Flags of a piece with flag 80, where 40 and 20 mean nothing, and the command byte of the next one, which is ignored.
static uint32_t link_flags(struct maker *m) { return 0x80 | (percent(m->r, 30) ? 0x40u : 0) | (percent(m->r, 30) ? 0x20u : 0); }
static uint32_t later_byte(struct maker *m, uint32_t command) { return percent(m->r, 60) ? command : random_below(m->r, 256); }

// How many of `most` bytes, one at least, the next piece has.
static uint32_t some_part(struct maker *m, uint32_t most)
{
    uint32_t kind = random_below(m->r, 100);
    if (kind < 30 && most > BLOCK) return BLOCK;
    if (kind < 60) return between(m->r, 1, most < 16 ? most : 16);
    return between(m->r, 1, most);
}

// Another place for a piece. Parameters are taken along.
static uint32_t other_place(struct maker *m, uint32_t command, uint32_t address, uint32_t part)
{
    uint8_t bytes[64];
    if (command == 0x03) return random_below(m->r, 1u << 24);
    if (command != 0x63 && command != 0x43) return area(m, part);
    if (part > sizeof bytes || address + part > m->storage) return address;
    memcpy(bytes, m->library->at[STORAGE] + address, part);
    return put_parameters(m, bytes, part);
}

// Pieces after the last one that a command can reach.
static void put_more_pieces(struct maker *m, uint32_t command, uint32_t pieces)
{
    for (; pieces > 0; pieces--) {
        uint32_t count = m->storage >= 65535 && percent(m->r, 60) ? 65535 : between(m->r, 1, m->storage < 600 ? m->storage + 1 : 600);
        put_word(m, later_byte(m, command), area(m, count), pieces > 1 ? link_flags(m) : suppress(m, false), count);
    }
}

// A command: a word, or pieces as far as the chain has room. Its bytes stand in a row; unless they must stay there, a piece may go
// to another place, over other pieces too.
static void put_command_at(struct maker *m, uint32_t command, uint32_t address, uint32_t flags, uint32_t count, bool stays)
{
    uint32_t pieces = m->in_pieces && percent(m->r, 45) ? percent(m->r, 85) ? between(m->r, 2, 4) : between(m->r, 2, 32) : 1;
    uint32_t more = m->in_pieces && percent(m->r, 10) ? between(m->r, 1, 3) : 0, byte = command;
    if (pieces > m->limit - m->words && percent(m->r, 85)) pieces = m->limit - m->words; // else its last ones are cut off
    stays = stays || !m->in_pieces;
    for (; pieces > 1 && count > 1; pieces--) {
        uint32_t part = some_part(m, count - 1);
        put_word(m, byte, stays || percent(m->r, 50) ? address : other_place(m, command, address, part), link_flags(m), part);
        byte = later_byte(m, command);
        address += part;
        count -= part;
    }
    put_word(m, byte, stays || percent(m->r, 70) ? address : other_place(m, command, address, count), more > 0 ? link_flags(m) : flags, count);
    put_more_pieces(m, command, more);
}

static void put_command(struct maker *m, uint32_t command, uint32_t address, uint32_t flags, uint32_t count)
{
    put_command_at(m, command, address, flags, count, false);
}

// A transfer of so many bytes, more than a count can have, or by one piece fewer or more: pieces of 65,535, then the rest.
static void put_huge(struct maker *m, uint32_t command, uint32_t exact)
{
    uint32_t pieces = exact / 65535, rest = exact % 65535;
    if (percent(m->r, 15)) pieces++;
    else if (percent(m->r, 15)) pieces--;
    if (rest == 0 || percent(m->r, 30)) rest = between(m->r, 1, 65535);
    for (; pieces > 0; pieces--) put_word(m, command, area(m, 65535), link_flags(m), 65535);
    put_word(m, later_byte(m, command), area(m, rest), suppress(m, false), rest);
}

// ---- Alternates (02, ask 4).

uint32_t generate_alternates(struct random *r)
{
    uint32_t kind = random_below(r, 100);
    if (kind < 45) return 0;
    if (kind < 57) return 1;
    if (kind < 82) return between(r, 2, 6);
    if (kind < 92) return MAX_ALTERNATES;
    return between(r, 0, MAX_ALTERNATES);
}

static uint32_t entry(const uint8_t *map, uint32_t i) { return get32(map + 4 * i); }

uint32_t place_of(const uint8_t *map, uint32_t primaries, uint32_t block)
{
    for (uint32_t i = 0; i < MAX_ALTERNATES; i++)
        if (entry(map, i) == block + 1) return primaries + i;
    return block;
}

static bool is_mapped(const struct device *d, uint32_t block) { return place_of(d->map, d->primaries, block) != block; }

static uint32_t lowest_unused(const struct device *d)
{
    uint32_t i = 0;
    while (i < d->alternates && entry(d->map, i) != 0) i++;
    return i;
}

// A block for an entry: after the one before it, in a row; before it; or anywhere, block 0 more often than others.
static uint32_t some_block(struct random *r, const struct device *d, uint32_t before)
{
    uint32_t kind = random_below(r, 100);
    if (kind < 35 && before + 1 < d->primaries) return before + 1;
    if (kind < 45 && before > 0) return before - 1;
    if (kind < 55) return 0;
    return random_below(r, d->primaries);
}

// Of a hundred entries so many are unused, and so many defective; in the first maps none is used, in the last none is left.
void generate_map(struct random *r, struct device *d)
{
    static const struct { uint32_t unused, defective; } kinds[8] = {
        {100, 0}, {100, 0}, {90, 4}, {60, 10}, {30, 20}, {10, 5}, {0, 30}, {0, 0},
    };
    uint32_t kind = random_below(r, 8), block = 0;
    memset(d->map, 0, MAP_SIZE);
    if (d->primaries == 0 || d->alternates > MAX_ALTERNATES) return;
    for (uint32_t i = 0; i < d->alternates; i++) {
        if (percent(r, kinds[kind].unused)) continue;
        uint32_t candidate = some_block(r, d, block);
        bool defective = percent(r, kinds[kind].defective) || is_mapped(d, candidate);
        put32(d->map + 4 * i, defective ? DEFECTIVE : candidate + 1);
        if (!defective) block = candidate;
    }
    if (kind == 7 && d->alternates > 0 && percent(r, 50)) put32(d->map + 4 * random_below(r, d->alternates), 0); // one is left
}

// Two entries that name one block; one that names none, the nearest or the farthest; or one beyond the alternates.
void damage_map(struct random *r, const struct device *d, uint8_t *map)
{
    static const uint32_t values[4] = {1, DEFECTIVE, 0x01000000, 0x80000000};
    uint32_t i = d->alternates > 0 ? random_below(r, d->alternates) : MAX_ALTERNATES, k = d->alternates > 1 ? (i + 1) % d->alternates : i;
    switch (i < MAX_ALTERNATES ? random_below(r, 3) : 2) {
    case 0:
        if (percent(r, 50) && d->alternates > 1) k = (i + 1 + random_below(r, d->alternates - 1)) % d->alternates;
        if (entry(map, i) == 0 || entry(map, i) == DEFECTIVE) put32(map + 4 * i, between(r, 1, d->primaries));
        memcpy(map + 4 * k, map + 4 * i, 4);
        break;
    case 1:
        put32(map + 4 * i, percent(r, 50) ? d->primaries + 1 : percent(r, 50) ? DEFECTIVE - 1 : between(r, d->primaries + 1, DEFECTIVE - 1));
        break;
    default:
        if (d->alternates == MAX_ALTERNATES) break;
        i = percent(r, 40) ? d->alternates : percent(r, 40) ? MAX_ALTERNATES - 1 : between(r, d->alternates, MAX_ALTERNATES - 1);
        put32(map + 4 * i, percent(r, 50) ? values[random_below(r, 4)] : between(r, 1, d->primaries));
        break;
    }
}

// What the author believes of a format.
static void believe_format(struct device *d, uint32_t block)
{
    uint32_t taken = lowest_unused(d), old = place_of(d->map, d->primaries, block);
    if (taken == d->alternates) return;
    if (old != block) put32(d->map + 4 * (old - d->primaries), DEFECTIVE);
    put32(d->map + 4 * taken, block + 1);
}

// ---- Commands.

static uint32_t some_count(struct maker *m, uint32_t exact)
{
    uint32_t kind = random_below(m->r, 100), largest = m->storage < 65535 ? m->storage : 65535;
    if (kind < 60 && exact <= largest) return exact;
    if (kind < 80 && exact > 1) return between(m->r, 1, exact - 1 < largest ? exact - 1 : largest);
    if (kind < 90 && exact < largest) return between(m->r, exact + 1, exact + 600 < largest ? exact + 600 : largest);
    return largest == 0 ? 1 : between(m->r, 1, largest);
}

static void make_simple(struct maker *m, uint32_t command, uint32_t exact)
{
    uint32_t count = some_count(m, exact);
    if (count > 2000 && percent(m->r, 80)) count = exact;
    put_command(m, command, area(m, count), suppress(m, count == exact), count);
}

static void make_no_operation(struct maker *m)
{
    put_command(m, 0x03, random_below(m->r, 1u << 24), suppress(m, true), between(m->r, 1, 65535));
}

static void damage_extent(struct maker *m, uint8_t p[16], uint32_t *count)
{
    switch (random_below(m->r, 8)) {
    case 0: *count = between(m->r, 1, 15); break;
    case 1: p[0] |= (uint8_t)(1u << random_below(m->r, 8)); break;
    case 2: p[0] = (uint8_t)random_next(m->r); break;
    case 3: p[1] = (uint8_t)random_next(m->r); break;
    case 4: p[2 + random_below(m->r, 2)] ^= (uint8_t)(1u << random_below(m->r, 8)); break;
    case 5: put32(p + 8, m->last + 1 + random_below(m->r, 3)); break;                      // first over last, or 0
    case 6: put32(p + 4, percent(m->r, 50) ? TOP - random_below(m->r, 3) : m->blocks - (m->last - m->first)); break;
    default: put32(p + 12, percent(m->r, 50) ? TOP : m->last + 1 + random_below(m->r, 3)); break;
    }
}

static void make_extent(struct maker *m)
{
    static const uint8_t masks[8] = {0x00, 0x00, 0x00, 0x40, 0xC0, 0xC0, 0xC0, 0xC4};
    uint8_t p[16] = {masks[random_below(m->r, 8) | (m->careful ? 4 : 0)]};
    m->offset = percent(m->r, 40) ? 0 : random_below(m->r, m->blocks);
    uint32_t size = percent(m->r, 50) ? m->blocks - m->offset : between(m->r, 1, m->blocks - m->offset);
    switch (random_below(m->r, 5)) {
    case 0: m->first = 0; break;
    case 1: m->first = m->offset; break;
    case 2: m->first = random_below(m->r, 300); break;
    case 3: m->first = TOP - size + 1; break;
    default: m->first = random_below(m->r, TOP - size + 1); break;
    }
    m->last = m->first + (size - 1);
    p[2] = percent(m->r, 50) ? 2 : 0;
    put32(p + 4, m->offset);
    put32(p + 8, m->first);
    put32(p + 12, m->last);
    uint32_t count = percent(m->r, 90) ? 16 : between(m->r, 16, 40);
    if (mishap(m, 25)) damage_extent(m, p, &count);
    put_command(m, 0x63, put_parameters(m, p, 16), suppress(m, count == 16), count);
    m->extent = true;
}

static void damage_locate(struct maker *m, uint8_t p[8], uint32_t *count)
{
    switch (random_below(m->r, 8)) {
    case 0: *count = between(m->r, 1, 7); break;
    case 1: p[0] |= (uint8_t)(1u << between(m->r, 5, 7)); break;
    case 2: p[0] = (uint8_t)random_below(m->r, 32); break;
    case 3: p[2] = p[3] = 0; break;
    case 4: p[3] = (uint8_t)random_next(m->r); break;
    case 5: p[1] = (uint8_t)random_next(m->r); p[0] = 2; break;
    case 6: put32(p + 4, percent(m->r, 50) ? m->first - 1 : m->last); break;
    default: put32(p + 4, m->last - m->block_count + 2 + random_below(m->r, 2)); break; // one block outside, or all
    }
}

static uint32_t some_operation(struct maker *m)
{
    static const uint8_t operations[16] = {6, 6, 6, 6, 6, 1, 1, 1, 1, 5, 5, 5, 2, 2, 2, 4};
    if (m->formats && percent(m->r, 35) && (!m->careful || lowest_unused(m->device) < m->device->alternates)) return 4;
    return operations[random_below(m->r, m->careful ? 15 : 16)];
}

// Where in the extent a LOCATE for so many blocks begins, counted from its first; often such that a mapped block is among them.
static uint32_t some_start(struct maker *m, uint32_t range)
{
    uint32_t last = m->last - m->first + 1 - range, i = random_below(m->r, MAX_ALTERNATES), block = entry(m->device->map, i) - 1;
    if (percent(m->r, 40) && block >= m->offset && block - m->offset <= m->last - m->first) {
        uint32_t start = block - m->offset, back = random_below(m->r, range);
        start -= back < start ? back : start;
        return start < last ? start : last;
    }
    return random_below(m->r, last + 1);
}

// The eight bytes of a LOCATE inside the extent.
static void locate_parameters(struct maker *m, uint8_t p[8])
{
    uint32_t size = m->last - m->first + 1, most = size < 65535 ? size : 65535;
    m->operation = some_operation(m);
    uint32_t limit = m->huge ? 65535 : percent(m->r, 70) ? 4 : percent(m->r, 70) ? 127 : 65535;
    m->block_count = between(m->r, 1, most < limit ? most : limit);
    if (m->operation == 4) m->block_count = 1;
    uint32_t range = m->block_count;
    p[1] = (uint8_t)random_next(m->r);
    if (m->operation == 2) {
        if (m->block_count > 255) range = m->block_count = 1;
        uint32_t units = (size < 255 ? size : 255) / m->block_count;
        range = m->block_count * between(m->r, 1, units);
        p[1] = (uint8_t)range;
    }
    p[0] = (uint8_t)(m->operation | (percent(m->r, 15) ? 0x10 : 0));
    p[2] = (uint8_t)(m->block_count >> 8);
    p[3] = (uint8_t)m->block_count;
    uint32_t start = some_start(m, range);
    put32(p + 4, m->first + start);
    if (m->operation == 4) believe_format(m->device, m->offset + start);
}

static void make_locate(struct maker *m)
{
    uint8_t p[8];
    locate_parameters(m, p);
    uint32_t count = percent(m->r, 93) ? 8 : between(m->r, 8, 20);
    if (mishap(m, 14)) damage_locate(m, p, &count);
    put_command(m, 0x43, put_parameters(m, p, 8), suppress(m, count == 8), count);
}

// Behind a LOCATE; now and then behind a format too, where it is refused by 42.
static void make_transfer(struct maker *m)
{
    if (m->operation == 4 && (m->careful || percent(m->r, 80))) return;
    bool writes = m->operation == 1 || m->operation == 5;
    uint32_t exact = BLOCK * m->block_count, count = some_count(m, exact);
    if (m->operation == 4) writes = percent(m->r, 50);
    if (mishap(m, 5)) writes = !writes;
    if (m->huge && exact > 65535 && percent(m->r, 80)) put_huge(m, writes ? 0x41 : 0x42, exact);
    else put_command(m, writes ? 0x41 : 0x42, area(m, count), suppress(m, count == exact), count);
}

// A READ that brings in the parameters of the next LOCATE, which lie in the store.
static void make_overwrite(struct maker *m)
{
    uint8_t p[8], inner[8];
    uint32_t displacement = m->first + random_below(m->r, m->last - m->first + 1), at = random_below(m->r, BLOCK - 7), to = area(m, BLOCK);
    uint32_t place = place_of(m->device->map, m->blocks, displacement - m->first + m->offset);
    locate_parameters(m, inner);
    put(m, STORE, (size_t)BLOCK * place + at, inner, 8);
    memcpy(p, (const uint8_t[8]){6, 0, 0, 1}, 8);
    put32(p + 4, displacement);
    put_command(m, 0x43, put_parameters(m, p, 8), 0, 8);
    put_command_at(m, 0x42, to, suppress(m, true), BLOCK, true);
    put_command_at(m, 0x43, to + at, suppress(m, true), 8, true);
    make_transfer(m);
}

static void make_ipl(struct maker *m)
{
    do make_simple(m, 0x02, BLOCK);
    while (percent(m->r, 20));
    m->extent = true;
    m->offset = m->first = 0;
    m->last = m->blocks - 1;
}

// A command that needs no extent.
static void make_other(struct maker *m)
{
    switch (random_below(m->r, 5)) {
    case 0: make_simple(m, 0x04, 24); break;
    case 1: make_simple(m, 0xE4, 7); break;
    case 2: make_simple(m, 0xA4, 24); break;
    default: make_no_operation(m); break;
    }
}

// A command where it will be refused: 40, 41, 21 or 30.
static void make_misplaced(struct maker *m)
{
    switch (random_below(m->r, 4)) {
    case 0: make_ipl(m); break;
    case 1: make_transfer(m); break;
    case 2: make_extent(m); break;
    default: make_locate(m); break;
    }
}

static void make_step(struct maker *m)
{
    if (mishap(m, 4)) {
        make_misplaced(m);
    } else if (percent(m->r, 22)) {
        make_other(m);
    } else if (!m->extent) {
        if (m->words == 0 && percent(m->r, 15)) make_ipl(m);
        else make_extent(m);
    } else if (percent(m->r, 12)) {
        make_overwrite(m);
    } else {
        make_locate(m);
        if (mishap(m, 5)) make_no_operation(m);
        if (percent(m->r, 92)) make_transfer(m);
    }
}

// ---- Sizes.

static uint32_t some_storage(struct random *r)
{
    uint32_t kind = random_below(r, 100);
    if (kind < 2) return 0;
    if (kind < 6) return random_below(r, 64);
    if (kind < 60) return between(r, 600, 4096);
    if (kind < 97) return between(r, 2048, 9000);
    return between(r, 60000, 80000);
}

static uint32_t some_blocks(struct random *r)
{
    uint32_t kind = random_below(r, 100);
    if (kind < 8) return 1;
    if (kind < 85) return between(r, 2, 16);
    if (kind < 97) return between(r, 17, 64);
    return between(r, 128, 260);
}

// The largest sizes by turns, those just over them too.
static void large_lengths(struct random *r, uint32_t turn, size_t length[BUFFERS])
{
    switch (turn % 6) {
    case 0: length[STORAGE] = MAX_STORAGE; length[STORE] = STORE_MAX; break;
    case 1: length[STORAGE] = MAX_STORAGE + 1 + random_below(r, 100); break;
    case 2: length[STORAGE] = MAX_STORAGE; break;
    case 3: length[STORE] = STORE_MAX; break;
    case 4: length[STORE] = STORE_MAX + BLOCK; break;
    default:
        length[STORAGE] = random_below(r, MAX_STORAGE);
        length[STORE] = (size_t)BLOCK * between(r, 300, MAX_BLOCKS);
        break;
    }
}

// One length in a hundred or so is wrong, by little or by much.
static void damage_lengths(struct random *r, size_t length[BUFFERS])
{
    switch (random_below(r, 400)) {
    case 0: length[CHAIN] = percent(r, 50) ? length[CHAIN] - between(r, 1, 8) : random_below(r, 600); break;
    case 4: length[CHAIN] = 8 * (size_t)between(r, 33, 70); break;
    case 1: length[STORE] = percent(r, 50) ? length[STORE] - between(r, 1, 512) : random_below(r, 4096); break;
    case 2: length[ANSWERS] = percent(r, 50) ? length[CHAIN] - between(r, 1, 8) : random_below(r, 300); break;
    case 3: length[RECORD] = percent(r, 50) ? RECORD_SIZE + between(r, 1, 3) - 2 : random_below(r, 600); break;
    default: break;
    }
}

// ---- The whole input.

// Counts zero, anything, or near their largest values; the device's map, or one that is wrong.
void generate_record(struct random *r, uint8_t record[RECORD_SIZE], const struct device *d, bool careful)
{
    memset(record, 0, RECORD_SIZE);
    if (percent(r, 50)) random_fill(r, record, 24);
    switch (random_below(r, 4)) {
    case 0: random_fill(r, record + 24, 8); break;
    case 1:
        memset(record + 24, 0xFF, 8);
        record[26] = (uint8_t)(0xFF - random_below(r, 6));
        record[29] = (uint8_t)(0xFF - random_below(r, 6));
        record[31] = (uint8_t)(0xFF - random_below(r, 6));
        break;
    default: break;
    }
    record[32] = careful || percent(r, 95) ? (uint8_t)between(r, 1, 255) : 0;
    record[33] = careful || percent(r, 88) ? 0 : (uint8_t)between(r, 1, 255);
    memcpy(record + MAP_AT, d->map, MAP_SIZE);
    if (!careful && percent(r, 4) && d->alternates <= MAX_ALTERNATES) damage_map(r, d, record + MAP_AT);
}

// The last word ends the chain; now and then an earlier one does, or none, with flag 40 or with flag 80.
static void end_chain(struct maker *m)
{
    uint32_t way = random_below(m->r, 250);
    if (m->words == 0 || way == 0) return;
    uint32_t last = percent(m->r, 8) ? random_below(m->r, m->words) : m->words - 1;
    size_t at = m->chain + 8 * (size_t)last + 4;
    if (at >= m->library->length[CHAIN]) return;
    uint8_t flags = (m->library->at[CHAIN][at] & 0x3F) | (way == 1 ? 0x80 : 0);
    put(m, CHAIN, at, &flags, 1);
}

// The chain's words, or every byte as it is but for the end.
static void make_chain(struct maker *m, bool meaningful)
{
    while (meaningful && m->words < m->limit) make_step(m);
    m->words = m->limit;
    end_chain(m);
}

void generate_chain(struct random *r, const struct buffers *library, const struct buffers *twin, struct device *d, size_t at,
                    uint32_t words, uint32_t *parameters)
{
    struct maker m = {.r = r, .library = library, .twin = twin, .device = d, .chain = at, .limit = words, .parameters = *parameters,
                      .storage = (uint32_t)library->length[STORAGE], .blocks = d->primaries};
    m.careful = percent(r, 60);
    m.in_pieces = percent(r, 40);
    m.formats = percent(r, 30);
    make_chain(&m, m.careful || percent(r, 95));
    *parameters = m.parameters;
}

void generate_fill(struct random *r, const struct buffers *library, const struct buffers *twin, bool large)
{
    struct buffers from = *library, to = *twin;
    for (int i = 0; i < BUFFERS; i++) {
        if (large && (i == STORAGE || i == STORE)) from.length[i] = to.length[i] = 0;
        random_fill(r, from.at[i], from.length[i]);
    }
    buffers_copy(&from, &to);
}

void generate_large_contents(struct random *r)
{
    static const size_t length[BUFFERS] = {0, MAX_STORAGE + 65536, STORE_MAX + 65536, 0, 0};
    struct buffers library, twin;
    buffers_place(&library, &twin, length, false);
    generate_fill(r, &library, &twin, false);
}

// The device that a store of this length is. A small one gets its alternates added; of a large one they are the last blocks.
static struct device some_device(struct random *r, size_t *store, bool large)
{
    struct device d = {.alternates = generate_alternates(r)};
    if (!large) *store += (size_t)BLOCK * d.alternates;
    d.primaries = (uint32_t)(*store / BLOCK);
    if (d.alternates >= d.primaries) d.alternates = d.primaries - 1;
    d.primaries -= d.alternates;
    generate_map(r, &d);
    return d;
}

// One number in a hundred or so is wrong: too many, no primary, or as many as leave the map wrong.
static uint32_t lent_alternates(struct random *r, const struct device *d)
{
    uint32_t blocks = d->primaries + d->alternates;
    if (blocks > MAX_ALTERNATES + 1 && random_below(r, 20) == 0) return MAX_ALTERNATES + 1; // and a primary is left
    switch (random_below(r, 500)) {
    case 0: return between(r, MAX_ALTERNATES + 1, MAX_ALTERNATES + 3);
    case 1: return blocks;
    case 2: return blocks + between(r, 1, 3);
    case 3: return TOP - random_below(r, 3);
    case 4: return random_below(r, MAX_ALTERNATES + 1);
    case 5: return d->alternates + 1;
    case 6: return d->alternates > 0 ? d->alternates - 1 : 0;
    default: return d->alternates;
    }
}

void generate(struct random *r, struct buffers *library, struct buffers *twin, uint32_t large)
{
    struct maker m = {.r = r, .library = library, .twin = twin};
    uint8_t record[RECORD_SIZE];
    m.limit = percent(r, 4) ? 32 : percent(r, 50) ? between(r, 1, 6) : between(r, 1, 32);
    size_t length[BUFFERS] = {8 * (size_t)m.limit, some_storage(r), (size_t)BLOCK * some_blocks(r), RECORD_SIZE, 0};
    m.careful = percent(r, 40);
    m.in_pieces = percent(r, 50);
    m.formats = percent(r, 40);
    m.huge = random_below(r, 70) == 0;
    if (m.huge) {
        length[STORAGE] = between(r, 65535, 140000);
        length[STORE] = (size_t)BLOCK * between(r, 257, 900);
    }
    if (large != 0) large_lengths(r, large - 1, length);
    struct device device = some_device(r, &length[STORE], large != 0), before = device;
    m.device = &device;
    m.storage = (uint32_t)length[STORAGE];
    m.blocks = device.primaries;
    length[ANSWERS] = length[CHAIN] + (percent(r, 50) ? 0 : random_below(r, 20));
    if (large == 0) damage_lengths(r, length);
    buffers_place(library, twin, length, percent(r, 50));
    library->alternates = twin->alternates = m.careful ? device.alternates : lent_alternates(r, &device);
    generate_fill(r, library, twin, large != 0);
    make_chain(&m, m.careful || percent(r, 95));
    generate_record(r, record, &before, m.careful);
    if (m.careful || percent(r, 97)) put(&m, RECORD, 0, record, RECORD_SIZE);
    else if (percent(r, 70)) put(&m, RECORD, MAP_AT, record + MAP_AT, MAP_SIZE); // the rest is anything
}
