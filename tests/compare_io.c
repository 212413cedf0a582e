#include "check.h"
#include "compare.h"
#include "layout.h"
#include "resources.h"
#include "sockets.h"

/* RequestIO with a base that is named; compare_io_choice.c has base 0. */

/* ---- Attributes1 and IOAddrLines ---- */

/* Attributes1's low four bits: A is BAD_ATTRIBUTE, s a grant that shares, d one
   that doesn't. Bits 2 and 3 "have no effect here". */
static const char by_hand[] = "dsAsdsAsdsAsdsAs";

static void try_attributes(uint8_t attributes, uint8_t lines)
{
    bool good = attributes < 16 && by_hand[attributes] != 'A' && lines >= 1 && lines <= 16;
    lend_ports(0, 65536);
    if (!good) {
        io_refused(4, 1, 0x305, 2, attributes, lines, CS_BAD_ATTRIBUTE);
        io_refused(4, 1, 0, 2, attributes, lines, CS_BAD_ATTRIBUTE);
        return;
    }
    io_granted(4, 1, 0x305, 2, attributes, lines);
    io_grant_bytes(1, 4, 0x305, 2, lines, by_hand[attributes] == 's');
    io_released(4, 1, 0x305, 2);
    io_chosen(4, 1, 2, attributes, lines, 2);
}

/* "attribute bits outside section 5.52's list, First Shared without Shared, or
   lines outside 1 to 16, BAD_ATTRIBUTE": every byte. */
void io_attributes(void)
{
    static const uint8_t lines[] = {0, 1, 2, 8, 9, 10, 15, 16, 17, 18, 32, 128, 255};
    for (unsigned attributes = 0; attributes <= 255; attributes++)
        for (size_t i = 0; i < sizeof lines; i++)
            try_attributes((uint8_t)attributes, lines[i]);
    for (unsigned value = 0; value <= 255; value++)
        try_attributes(12, (uint8_t)value);
}

/* ---- NumPorts1 and NumPorts2 ---- */

/* "NumPorts1 0 or over two to the lines": every count with every number of
   lines. A byte has no more than 255. */
void io_counts(void)
{
    static const uint8_t most[] = {0,   2,   4,   8,   16,  32,  64,  128, 255,
                                   255, 255, 255, 255, 255, 255, 255, 255};
    for (uint8_t lines = 1; lines <= 16; lines++)
        for (unsigned count = 0; count <= 255; count++) {
            lend_ports(0, 65536);
            if (count >= 1 && count <= most[lines])
                io_granted(15, 6, 0x7FF3, (uint8_t)count, ALONE, lines);
            else {
                io_refused(15, 6, 0x7FF3, (uint8_t)count, ALONE, lines, CS_BAD_SIZE);
                io_refused(15, 6, 0, (uint8_t)count, ALONE, lines, CS_BAD_SIZE);
            }
        }
}

/* "NumPorts2 not 0, BAD_SIZE (BasePort2 and Attributes2 ignored)". */
void io_second_range(void)
{
    for (unsigned value = 0; value <= 255; value++)
        for (unsigned base = 0; base < 2; base++) {
            uint8_t any = (uint8_t)value, other = (uint8_t)~value, high = base == 0 ? 0 : 3;
            uint8_t one[] = {2, 0, 0, high, 8, 0, any, other, 0, any, 16};
            uint8_t left[] = {2, 0, 0, 3, 8, 0, any, other, 0, any, 16};
            uint8_t two[] = {2, 0, 0, high, 8, 0, other, any, any, other, 16};
            lend_ports(0x300, 16);
            must_be(ask_call(CS_REQUEST_IO, 1, one, sizeof one), CS_SUCCESS, 1);
            packet_must_be(left, sizeof left);
            if (any == 0)
                continue;
            lend_ports(0x300, 16);
            must_be(ask_call(CS_REQUEST_IO, 1, two, sizeof two), CS_BAD_SIZE, 0);
            packet_must_be(two, sizeof two);
        }
}

/* ---- Ports past FFFF or unmanaged ---- */

static void granted_if(bool good, uint16_t base, uint8_t count)
{
    if (good)
        io_granted(16, 0, base, count, ALONE, 16);
    else
        io_refused(16, 0, base, count, ALONE, 16, CS_BAD_BASE);
}

/* All ports are managed, or all but the last one or two. What is asked for ends
   there, or goes past FFFF. */
void io_last_ports(void)
{
    static const uint8_t counts[] = {1, 2, 3, 8, 16, 127, 128, 254, 255};
    for (uint32_t managed = 0xFFFE; managed <= 65536; managed++)
        for (size_t i = 0; i < sizeof counts; i++)
            for (uint32_t end = 0xFFFC; end <= 0x100FF; end++) {
                if (end - counts[i] > 0xFFFF)
                    break;
                lend_ports(0, managed);
                granted_if(end <= managed, (uint16_t)(end - counts[i]), counts[i]);
            }
}

/* Asked for everything in and around 300 to 30F, which are managed but for the
   gap. */
static void ask_around(const struct model *m, uint32_t gap)
{
    for (uint32_t base = 0x2FC; base <= 0x312; base++)
        for (uint32_t count = 1; count <= 20; count++) {
            bool within = base >= 0x300 && base + count <= 0x310;
            lend_set(m);
            describe("%u ranges, a gap at %X", m->ranges, (unsigned)gap);
            granted_if(within && (gap < base || gap >= base + count), (uint16_t)base,
                       (uint8_t)count);
        }
}

/* 300 to 30F in parts of so many ports, of which every second is reserved, or in
   the other order. */
static void in_parts(uint32_t size, bool first_reserved)
{
    struct model m;
    ready_set(&m, 0, 0);
    for (uint32_t from = 0; from < 16; from += size)
        manage(&m, 0x300 + from, from + size <= 16 ? size : 16 - from,
               (from / size % 2 == 0) == first_reserved);
    ask_around(&m, 0);
}

/* The same without one port; the part after it comes first in the set. */
static void with_a_gap(uint32_t gap, bool reserved)
{
    struct model m;
    ready_set(&m, 0, 0);
    manage(&m, gap + 1, 0x30F - gap, reserved);
    manage(&m, 0x300, gap - 0x300, !reserved);
    ask_around(&m, gap);
}

/* Ranges that adjoin are as good as one: two, three, four and sixteen. */
void io_managed_ports(void)
{
    static const uint32_t sizes[] = {16, 8, 9, 6, 4, 1};
    for (size_t i = 0; i < sizeof sizes / sizeof *sizes; i++) {
        in_parts(sizes[i], false);
        in_parts(sizes[i], true);
    }
    with_a_gap(0x301, false);
    with_a_gap(0x308, false);
    with_a_gap(0x308, true);
    with_a_gap(0x30E, true);
}

/* 32 ranges that adjoin, 256 ports in a row; and 32 with a gap of one port after
   each. */
void io_many_ranges(void)
{
    struct model m;
    ready_set(&m, 0, 0);
    for (uint32_t i = 0; i < 32; i++)
        manage(&m, 0xFF00 + 8 * i, 8, i % 3 == 0);
    for (uint32_t base = 0xFEFF; base <= 0xFF02; base++) {
        lend_set(&m);
        granted_if(base == 0xFF00 || base == 0xFF01, (uint16_t)base, 255);
    }
    ready_set(&m, 0, 0);
    for (uint32_t i = 0; i < 32; i++)
        manage(&m, 0xFF00 + 8 * i, 7, i % 3 == 0);
    for (uint16_t i = 0; i < 32; i++) {
        uint16_t base = (uint16_t)(0xFF00 + 8 * i);
        lend_set(&m);
        granted_if(false, base, 8);
        granted_if(false, (uint16_t)(base + 7), 1);
        granted_if(true, base, 7);
    }
}

/* ---- Sharing ---- */

/* "It meets a live grant, and First Shared is set or the two don't both share:
   IN_USE." */
static bool joins(uint8_t attributes, bool held_shares)
{
    return held_shares && (attributes & 3) == SHARED;
}

static void granted_unless(bool in_use, uint8_t socket, uint16_t base, uint8_t count,
                           uint8_t attributes)
{
    if (in_use)
        io_refused(5, socket, base, count, attributes, 16, CS_IN_USE);
    else
        io_granted(5, socket, base, count, attributes, 16);
}

/* Some client, perhaps the one that asks, holds 308 to 30F on one socket. */
static void share_with(uint16_t holder, bool held_shares, uint8_t attributes)
{
    static const struct {
        uint16_t base;
        uint8_t count;
        bool met;
    } asked[] = {{0x308, 8, true},  {0x300, 32, true}, {0x30A, 2, true}, {0x301, 8, true},
                 {0x300, 9, true},  {0x30F, 8, true},  {0x308, 1, true}, {0x30F, 1, true},
                 {0x300, 8, false}, {0x310, 8, false}, {0x307, 1, false}};
    for (size_t i = 0; i < sizeof asked / sizeof *asked; i++) {
        struct model m;
        uint8_t holds = (uint8_t)(i % 8), asks = (uint8_t)((i + 3) % 8);
        ready_set(&m, 0, 0);
        manage(&m, 0x300, 32, false);
        m.io[holds] = (struct io_grant){true, holder, 0x308, 8, 16, held_shares};
        lend_set(&m);
        granted_unless(asked[i].met && !joins(attributes, held_shares), asks, asked[i].base,
                       asked[i].count, attributes);
        io_grant_bytes(holds, holder, 0x308, 8, 16, held_shares);
    }
}

/* Every Attributes1 that is accepted; 12 are. */
void io_sharing(void)
{
    static const uint16_t holders[] = {1, 5, 16};
    for (uint8_t attributes = 0; attributes < 16; attributes++)
        for (size_t h = 0; by_hand[attributes] != 'A' && h < 3; h++) {
            share_with(holders[h], false, attributes);
            share_with(holders[h], true, attributes);
        }
}

/* Seven hold four ports each, 300 to 31B, and share them but for one of the
   seven; a request for all of them meets every one, and one for a part of them
   those that it reaches. */
static void one_of_seven(uint8_t asks, unsigned one)
{
    struct model m;
    unsigned place = 0;
    ready_set(&m, 0, 0);
    manage(&m, 0x300, 32, true);
    for (unsigned s = 0; s < CS_SOCKETS; s++)
        if (s != asks) {
            m.io[s] =
                (struct io_grant){true, 9, (uint16_t)(0x300 + 4 * place), 4, 16, place != one};
            place++;
        }
    lend_set(&m);
    granted_unless(one < 7, asks, 0x300, 28, SHARED);
    if (one >= 7)
        return;
    granted_unless(true, asks, (uint16_t)(0x303 + 4 * one), 1, SHARED);
    granted_unless(true, asks, 0x300, (uint8_t)(4 * one + 1), SHARED);
    granted_unless(false, asks, (uint16_t)(0x304 + 4 * one), (uint8_t)(28 - 4 * one), SHARED);
}

void io_sharing_with_many(void)
{
    for (uint8_t asks = 0; asks < CS_SOCKETS; asks++)
        for (unsigned one = 0; one <= 7; one++)
            one_of_seven(asks, one);
}

/* Eight sockets share; First Shared was the first, and none after it. */
void io_eight_share(void)
{
    lend_ports(0x300, 8);
    io_granted(16, 0, 0x300, 8, FIRST_SHARED, 16);
    for (uint8_t s = 1; s < CS_SOCKETS; s++) {
        io_refused(1, s, 0x300, 8, ALONE, 16, CS_IN_USE);
        io_refused(1, s, 0x300, 8, FIRST_SHARED, 16, CS_IN_USE);
        io_granted((uint16_t)(16 - s), s, 0x300, 8, SHARED, 16);
        io_refused(1, s, 0x300, 8, SHARED, 16, CS_IN_USE);
    }
    io_refused(1, 8, 0x300, 8, SHARED, 16, CS_BAD_SOCKET);
    for (uint8_t s = 0; s < 7; s++) {
        io_released((uint16_t)(16 - s), s, 0x300, 8);
        io_refused(1, s, 0x300, 8, ALONE, 16, CS_IN_USE);
        io_refused(1, s, 0x300, 8, FIRST_SHARED, 16, CS_IN_USE);
    }
    io_released(9, 7, 0x300, 8);
    io_granted(1, 3, 0x300, 8, ALONE, 16);
    io_refused(2, 4, 0x300, 8, SHARED, 16, CS_IN_USE);
}

/* ---- Decoded lines ---- */

struct ports {
    uint16_t base;
    uint8_t count, lines;
};

static struct ports ports(uint16_t base, uint8_t count, uint8_t lines)
{
    return (struct ports){base, count, lines};
}

/* Some ports are held, not shared, and the others are asked for. */
static void met_by_lines(struct ports held, struct ports asked, bool met)
{
    struct model m;
    ready_set(&m, 0, 0);
    manage(&m, 0, 65536, false);
    m.io[4] = (struct io_grant){true, 3, held.base, held.count, held.lines, false};
    lend_set(&m);
    describe("held %X, %u ports, %u lines", held.base, held.count, held.lines);
    if (met)
        io_refused(8, 2, asked.base, asked.count, ALONE, asked.lines, CS_IN_USE);
    else
        io_granted(8, 2, asked.base, asked.count, ALONE, asked.lines);
}

/* Two ports that differ in one bit meet exactly if a card doesn't decode it: at
   every pair of line counts. */
void io_lines(void)
{
    for (uint8_t bit = 0; bit < 16; bit++)
        for (uint8_t held = 1; held <= 16; held++)
            for (uint8_t asked = 1; asked <= 16; asked++)
                met_by_lines(ports(0x9249, 1, held),
                             ports((uint16_t)(0x9249 ^ 1u << bit), 1, asked),
                             held <= bit || asked <= bit);
}

/* 2F8 and 6F8, eight ports each, at all line counts that can have eight: bit 10
   tells them apart. */
void io_2f8_and_6f8(void)
{
    for (uint8_t low = 3; low <= 16; low++)
        for (uint8_t high = 3; high <= 16; high++) {
            bool met = low <= 10 || high <= 10;
            met_by_lines(ports(0x2F8, 8, low), ports(0x6F8, 8, high), met);
            met_by_lines(ports(0x6F8, 8, high), ports(0x2F8, 8, low), met);
        }
}

/* 1340 to 1347 are held. What is asked for begins so far from 1340, or from one of
   its aliases. These come every two to the smaller count of lines; those at both ends
   of the ports are tried. */
static void ask_near(uint8_t held, uint8_t asked, uint8_t count, int from)
{
    unsigned smaller = held < asked ? held : asked;
    for (uint32_t alias = 0x1340 % (1u << smaller); alias <= 0xFF00; alias += 1u << smaller) {
        if (alias > 0x2000 && alias < 0xE000)
            continue;
        met_by_lines(ports(0x1340, 8, held), ports((uint16_t)((int)alias + from), count, asked),
                     from < 8 && from + count > 0);
    }
}

void io_aliases(void)
{
    static const uint8_t lines[] = {9, 10, 12, 16}, counts[] = {1, 2, 8, 9, 255};
    static const int before[] = {-2, -1, 0, 1}, after[] = {6, 7, 8, 9};
    for (unsigned i = 0; i < 16; i++)
        for (unsigned c = 0; c < 5; c++)
            for (unsigned d = 0; d < 4; d++) {
                ask_near(lines[i / 4], lines[i % 4], counts[c], before[d] - (int)counts[c] + 1);
                ask_near(lines[i / 4], lines[i % 4], counts[c], after[d]);
            }
}

/* Ports on both sides of a multiple of two to the lines, and as many as the lines
   can tell apart or one fewer: by hand. */
static const struct {
    struct ports one, other;
    bool met;
} around[] = {
    {{0x3FF, 2, 16}, {0x400, 1, 10}, true},     {{0x3FE, 2, 16}, {0x400, 1, 10}, false},
    {{0x3FC, 8, 10}, {0x803, 1, 16}, true},     {{0x3FC, 8, 10}, {0x804, 4, 16}, false},
    {{0x3FC, 8, 10}, {0xFBFC, 1, 16}, true},    {{0x3FC, 8, 10}, {0xFBFB, 1, 16}, false},
    {{0x1F0, 32, 8}, {0x40F, 1, 16}, true},     {{0x1F0, 32, 8}, {0x410, 224, 16}, false},
    {{0x100, 255, 8}, {0x2FF, 1, 16}, false},   {{0x100, 255, 8}, {0x2FE, 1, 16}, true},
    {{0x101, 255, 9}, {0x402, 255, 16}, false}, {{0x101, 255, 9}, {0x403, 255, 16}, true},
    {{0x010, 16, 4}, {0xABCD, 1, 16}, true},    {{0x010, 15, 4}, {0xABCE, 1, 16}, true},
    {{0x010, 15, 4}, {0xABCF, 1, 16}, false},   {{0x001, 2, 1}, {0xFFFF, 1, 16}, true},
    {{0x001, 1, 1}, {0xFFFF, 1, 1}, true},      {{0x001, 1, 1}, {0xFFFE, 1, 16}, false},
    {{0xFFFF, 1, 16}, {0x001, 255, 16}, false}, {{0xFFFF, 1, 16}, {0x7FFF, 1, 15}, true},
    {{0x8001, 1, 15}, {0x001, 1, 16}, true},    {{0x8001, 1, 16}, {0x001, 1, 16}, false},
};

void io_around_a_multiple(void)
{
    for (size_t i = 0; i < sizeof around / sizeof *around; i++) {
        met_by_lines(around[i].one, around[i].other, around[i].met);
        met_by_lines(around[i].other, around[i].one, around[i].met);
    }
}

/* ---- N1 to N4, N8 and N9, from a fresh table and by calls alone ---- */

/* Client 1, and cards in both sockets. */
static void lend_two_sockets(void)
{
    lend_fresh(2);
    must_be(register_one(), CS_SUCCESS, 1);
    must_be(ask_card_in(0), CS_SUCCESS, 0);
    must_be(ask_card_in(1), CS_SUCCESS, 0);
}

/* The first ports are granted, then the second asked for; neither shares. Where
   they meet, both are granted if both share. All ports are managed. */
static void two_requests(struct ports first, struct ports second, bool met)
{
    lend_two_sockets();
    must_be(add_range(LONG, 0, 65536), CS_SUCCESS, GIVEN);
    io_granted(1, 0, first.base, first.count, ALONE, first.lines);
    if (!met) {
        io_granted(1, 1, second.base, second.count, ALONE, second.lines);
        return;
    }
    io_refused(1, 1, second.base, second.count, ALONE, second.lines, CS_IN_USE);
    io_released(1, 0, first.base, first.count);
    io_granted(1, 1, second.base, second.count, SHARED, second.lines);
    io_refused(1, 0, first.base, first.count, ALONE, first.lines, CS_IN_USE);
    io_refused(1, 0, first.base, first.count, FIRST_SHARED, first.lines, CS_IN_USE);
    io_granted(1, 0, first.base, first.count, SHARED, first.lines);
}

static void both_orders(struct ports one, struct ports other, bool met)
{
    two_requests(one, other, met);
    two_requests(other, one, met);
}

/* "300, 16 managed, 300 to 307 held: base 0, 8 ports, all at 16 lines, gives 308." */
static void n8(void)
{
    static const uint8_t asked[] = {1, 0, 0, 0, 8, 0, 0, 0, 0, 0, 16};
    static const uint8_t left[] = {1, 0, 8, 3, 8, 0, 0, 0, 0, 0, 16};
    static const uint8_t both[] = {1, 0, 0, 3, 8, 16, 0, 0, 0, 0, 0,
                                   1, 0, 8, 3, 8, 16, 0, 0, 0, 0, 0};
    lend_two_sockets();
    must_be(add_range(SHORT, 0x300, 16), CS_SUCCESS, GIVEN);
    io_granted(1, 0, 0x300, 8, ALONE, 16);
    must_be(ask_call(CS_REQUEST_IO, 1, asked, sizeof asked), CS_SUCCESS, 1);
    packet_must_be(left, sizeof left);
    table_must_have(AT_IO, both, sizeof both);
}

/* "302 to 30C managed: base 0, 5 ports, 16 lines gives 308." */
static void n9(void)
{
    static const uint8_t asked[] = {0, 0, 0, 0, 5, 0, 0, 0, 0, 0, 16};
    static const uint8_t left[] = {0, 0, 8, 3, 5, 0, 0, 0, 0, 0, 16};
    static const uint8_t grant[] = {1, 0, 8, 3, 5, 16, 0, 0, 0, 0, 0};
    lend_two_sockets();
    must_be(add_range(SHORT, 0x302, 11), CS_SUCCESS, GIVEN);
    must_be(ask_call(CS_REQUEST_IO, 1, asked, sizeof asked), CS_SUCCESS, 1);
    packet_must_be(left, sizeof left);
    table_must_have(AT_IO, grant, sizeof grant);
}

void io_cases(void)
{
    both_orders(ports(0x2F8, 8, 10), ports(0x6F8, 8, 16), true);
    both_orders(ports(0x2F8, 8, 16), ports(0x6F8, 8, 16), false);
    both_orders(ports(0x3E8, 8, 16), ports(0x3F0, 8, 16), false);
    both_orders(ports(0x100, 1, 8), ports(0x200, 1, 16), true);
    n8();
    n9();
}
