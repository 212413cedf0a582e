#include "check.h"
#include "compare.h"
#include "layout.h"
#include "resources.h"
#include "sets.h"
#include "sockets.h"

/* ---- Attributes and IRQInfo1 ----

   What document 01 makes of each row's attributes with a card of each column:
   neither, Level, Pulse, both; then the same with Share. A is BAD_ATTRIBUTE, a
   BAD_ARGS; e, t, l and p are the manner of a grant: exclusive,
   time-multiplexed, dynamic level, dynamic pulse. */
static const char *const by_hand[16] = {
    "aeeeaeee", /* exclusive */
    "atttattt", /* time-multiplexed */
    "AAAAalpl", /* dynamic */
    "AAAAAAAA", /* type 3 */
    "AAeeAAee", /* Force Pulse, exclusive */
    "AAttAAtt", /* Force Pulse, time-multiplexed */
    "AAAAAApp", /* Force Pulse, dynamic */
    "AAAAAAAA", /* Force Pulse, type 3 */
    "AAAAAAAA", /* First Shared, exclusive */
    "atttattt", /* First Shared, time-multiplexed */
    "AAAAalpl", /* First Shared, dynamic */
    "AAAAAAAA", /* First Shared, type 3 */
    "AAAAAAAA", /* First Shared and Force Pulse, exclusive */
    "AAttAAtt", /* First Shared and Force Pulse, time-multiplexed */
    "AAAAAApp", /* First Shared and Force Pulse, dynamic */
    "AAAAAAAA", /* First Shared and Force Pulse, type 3 */
};

static uint8_t manner_of(char letter)
{
    return letter == 'e'   ? EXCLUSIVE
           : letter == 't' ? TIME_MULTIPLEXED
           : letter == 'l' ? DYNAMIC_LEVEL
                           : DYNAMIC_PULSE;
}

static void granted(uint16_t client, uint8_t socket, uint16_t attributes, uint8_t info_1,
                    uint16_t info_2, uint8_t level)
{
    manner_granted(client, socket, attributes, info_1, info_2, level,
                   manner_of(by_hand[attributes][info_1 >> 5]));
}

/* "Mask set with any of IRQInfo1's bits 0 to 3, or with IRQInfo2 0"; "With Mask
   clear, the low four bits name one level and IRQInfo2 is ignored." */
static void try_attributes(uint16_t attributes, uint8_t info_1, uint16_t info_2)
{
    char letter = by_hand[attributes][info_1 >> 5];
    bool mask = (info_1 & 0x10) != 0;
    uint8_t low = info_1 & 15;
    if (letter == 'A')
        irq_refused(4, 1, attributes, info_1, info_2, CS_BAD_ATTRIBUTE);
    else if (letter == 'a' || (mask && (low != 0 || info_2 == 0)))
        irq_refused(4, 1, attributes, info_1, info_2, CS_BAD_ARGS);
    else
        granted(4, 1, attributes, info_1, info_2, mask ? lowest_level(info_2) : low);
}

/* Every IRQInfo1 with every attribute that there is. */
void irq_attributes(void)
{
    static const uint16_t info_2[] = {0, 0x0001, 0x0008, 0x8000, 0xC0A0, 0xFFFF};
    for (uint16_t attributes = 0; attributes < 16; attributes++)
        for (unsigned info_1 = 0; info_1 <= 255; info_1++)
            for (size_t i = 0; i < sizeof info_2 / sizeof *info_2; i++) {
                lend_ready(0xFFFF, 0);
                try_attributes(attributes, (uint8_t)info_1, info_2[i]);
            }
    must_hold("40 of the 128 pairs are granted", answered(CS_SUCCESS) == 40 * (16 * 6 + 5));
    must_hold("80 are no attributes", answered(CS_BAD_ATTRIBUTE) == 80 * 32 * 6);
}

/* "any of bits 4 to 15 set", alone and with one more, whatever the card can do. */
void irq_attributes_reserved(void)
{
    static const uint8_t cards[] = {0x03, 0x23, 0x43, 0x63, 0x83, 0xA3, 0xC3, 0xE3, 0xF0, 0xF3};
    lend_ready(0xFFFF, 0);
    for (uint16_t low = 0; low < 16; low++)
        for (unsigned bit = 4; bit < 16; bit++)
            for (unsigned other = 4; other <= bit; other++)
                for (size_t i = 0; i < sizeof cards; i++)
                    irq_refused(1, 0, (uint16_t)(low | 1u << bit | 1u << other), cards[i], 0x0008,
                                CS_BAD_ATTRIBUTE);
    irq_refused(1, 0, 0xFFFF, 0xE3, 0, CS_BAD_ATTRIBUTE);
    irq_refused(1, 0, 0xFFF2, 0xE3, 0, CS_BAD_ATTRIBUTE);
    irq_granted(1, 0, 2, 0xE3, 0, 3);
}

/* AssignedIRQ isn't looked at, and neither is IRQInfo2 with Mask clear. */
void irq_fields_ignored(void)
{
    struct chance c = {31};
    for (unsigned assigned = 0; assigned <= 255; assigned++) {
        uint8_t any = (uint8_t)pick(&c, 256), other = (uint8_t)pick(&c, 256);
        uint8_t asked[] = {5, 0, 6, 0, (uint8_t)assigned, 0xCC, any, other};
        uint8_t left[] = {5, 0, 6, 1, 12, 0xCC, any, other};
        lend_ready(1u << 12, 1u << 12);
        must_be(ask_call(CS_REQUEST_IRQ, 16, asked, sizeof asked), CS_SUCCESS, 16);
        packet_must_be(left, sizeof left);
    }
}

/* ---- Levels that are named ---- */

/* Named by number or by mask; managed alone, with all others, or not at all. */
static void try_level(uint8_t level, uint16_t managed, uint16_t reserved)
{
    uint8_t info_1[] = {(uint8_t)(0x20 | level), 0x30};
    for (unsigned i = 0; i < 2; i++) {
        uint16_t info_2 = (uint16_t)(i == 0 ? ~(1u << level) : 1u << level);
        lend_ready(managed, reserved);
        if ((managed >> level & 1) != 0)
            irq_granted(9, 4, 0, info_1[i], info_2, level);
        else
            irq_refused(9, 4, 0, info_1[i], info_2, CS_BAD_IRQ);
    }
}

void irq_levels_named(void)
{
    for (uint8_t level = 0; level < CS_LEVELS; level++) {
        uint16_t alone = (uint16_t)(1u << level), others = (uint16_t)~alone;
        try_level(level, alone, 0);
        try_level(level, alone, alone);
        try_level(level, 0xFFFF, 0);
        try_level(level, 0xFFFF, alone);
        try_level(level, 0xFFFF, others);
        try_level(level, 0, 0);
        try_level(level, others, 0);
        try_level(level, others, others);
    }
}

/* ---- The choice ---- */

/* "An unreserved level comes before a reserved one, then the lowest." Two levels
   are named, each reserved or not. */
void irq_choice_of_two(void)
{
    for (uint8_t low = 0; low < CS_LEVELS; low++)
        for (uint8_t high = (uint8_t)(low + 1); high < CS_LEVELS; high++) {
            uint16_t lower = (uint16_t)(1u << low), higher = (uint16_t)(1u << high);
            uint16_t both = lower | higher;
            lend_ready(both, 0);
            irq_granted(2, 6, 0, 0x30, both, low);
            irq_granted(2, 5, 0, 0x30, both, high);
            irq_refused(2, 4, 0, 0x30, both, CS_BAD_IRQ);
            lend_ready(0xFFFF, lower);
            irq_granted(2, 6, 0, 0x30, both, high);
            irq_granted(2, 5, 0, 0x30, both, low);
            irq_refused(2, 4, 0, 0x30, both, CS_BAD_IRQ);
            lend_ready(0xFFFF, both);
            irq_granted(2, 6, 0, 0x30, both, low);
            lend_ready(higher, 0);
            irq_granted(2, 6, 0, 0x30, both, high);
            lend_ready(0xFFFF, (uint16_t)~both);
            irq_granted(2, 6, 0, 0x30, 0xFFFF, low);
        }
}

/* Up to seven levels held, exclusively, from sockets 1 to 7. */
static void choose_by_chance(struct chance *c)
{
    struct model m;
    uint16_t managed = (uint16_t)pick(c, 65536);
    uint16_t reserved = (uint16_t)(managed & pick(c, 65536)), held = 0;
    uint16_t named = (uint16_t)(1u << pick(c, CS_LEVELS));
    if (one_in(c, 2))
        named |= (uint16_t)pick(c, 65536);
    ready_set(&m, managed, reserved);
    for (unsigned s = 1; s < CS_SOCKETS; s++) {
        uint8_t level = (uint8_t)pick(c, CS_LEVELS);
        if ((managed >> level & 1) == 0 || (held >> level & 1) != 0)
            continue;
        m.irq[s] = (struct irq_grant){true, (uint16_t)(1 + pick(c, CS_CLIENTS)), level, EXCLUSIVE};
        held |= (uint16_t)(1u << level);
    }
    lend_set(&m);
    describe("managed %04X, reserved %04X, held %04X", managed, reserved, held);
    uint8_t level = first_level(named & managed & (uint16_t)~held, reserved);
    if (level < CS_LEVELS)
        irq_granted(7, 0, 0, 0x70, named, level);
    else
        irq_refused(7, 0, 0, 0x70, named, CS_BAD_IRQ);
}

void irq_choice_of_many(void)
{
    struct chance c = {32};
    for (unsigned i = 0; i < 2000; i++)
        choose_by_chance(&c);
    must_hold("some fitted", answered(CS_SUCCESS) >= 1000);
    must_hold("some didn't", answered(CS_BAD_IRQ) >= 500);
    lend_ready(0xFFFF, 0x00FF);
    for (uint8_t s = 0; s < CS_SOCKETS; s++)
        irq_granted(1, s, 0, 0x30, 0xFFFF, (uint8_t)(8 + s));
    lend_ready(0x00FF, 0x00FF);
    for (uint8_t s = 0; s < CS_SOCKETS; s++)
        irq_granted((uint16_t)(s + 1), s, 0, 0x30, 0xFFFF, s);
    lend_ready(0x007F, 0);
    for (uint8_t s = 1; s < CS_SOCKETS; s++)
        irq_granted(1, s, 0, 0x30, 0xFFFF, (uint8_t)(s - 1));
    irq_refused(1, 0, 0, 0x30, 0xFFFF, CS_BAD_IRQ);
}

/* ---- Who goes together ---- */

/* "only equal ones, and never exclusive"; "either has no grant or, without First
   Shared, all its grants go together with this manner." So many hold the level,
   all in one manner; First Shared with Exclusive is refused before. */
static void join(uint8_t level, unsigned many, uint8_t held, unsigned a, bool first_shared)
{
    struct model m;
    uint16_t attributes = asked[a].attributes | (first_shared ? 8 : 0);
    uint8_t info_1 = (uint8_t)(asked[a].info_1 | level);
    bool joins = !first_shared && held == asked[a].manner && held != EXCLUSIVE;
    ready_set(&m, 0xFFFF, (uint16_t)(many % 2 == 0 ? 1u << level : 0));
    for (unsigned s = 0; s < many; s++)
        m.irq[s] = (struct irq_grant){true, (uint16_t)(16 - s), level, held};
    lend_set(&m);
    describe("level %u held by %u in manner %u", level, many, held);
    if (first_shared && asked[a].manner == EXCLUSIVE)
        irq_refused(5, 7, attributes, info_1, 0, CS_BAD_ATTRIBUTE);
    else if (!joins)
        irq_refused(5, 7, attributes, info_1, 0, CS_BAD_IRQ);
    else
        granted(5, 7, attributes, info_1, 0, level);
    must_be(ask_sharers(level), CS_SUCCESS, (uint16_t)(joins ? many + 1 : many));
}

void irq_joining(void)
{
    for (uint8_t level = 0; level < CS_LEVELS; level++)
        for (uint8_t held = 0; held < MANNERS; held++)
            for (unsigned many = 1; many <= (held == EXCLUSIVE ? 1u : 7u); many++)
                for (unsigned a = 0; a < ASKED; a++) {
                    join(level, many, held, a, false);
                    join(level, many, held, a, true);
                }
}

/* Level 3 is held time-multiplexed, 5 dynamic level, 7 dynamic pulse, 9
   exclusive; 11 and 13 have no grant. */
static void lend_each_manner(uint16_t reserved)
{
    struct model m;
    ready_set(&m, 0x2AA8, reserved);
    m.irq[1] = (struct irq_grant){true, 1, 3, TIME_MULTIPLEXED};
    m.irq[2] = (struct irq_grant){true, 2, 5, DYNAMIC_LEVEL};
    m.irq[3] = (struct irq_grant){true, 3, 7, DYNAMIC_PULSE};
    m.irq[4] = (struct irq_grant){true, 4, 9, EXCLUSIVE};
    lend_set(&m);
}

/* The level for each manner asked, without First Shared and with it; all are
   named. */
static void each_goes_to(uint16_t reserved, const uint8_t levels[ASKED],
                         const uint8_t first_shared[ASKED])
{
    for (unsigned a = 0; a < ASKED; a++) {
        uint8_t info_1 = asked[a].info_1 | 0x10;
        lend_each_manner(reserved);
        granted(6, 0, asked[a].attributes, info_1, 0xFFFF, levels[a]);
        if (asked[a].manner == EXCLUSIVE)
            continue;
        lend_each_manner(reserved);
        granted(6, 0, asked[a].attributes | 8, info_1, 0xFFFF, first_shared[a]);
    }
}

/* A level of the manner asked for comes first, reserved or not (K1); with First
   Shared, and for Exclusive, one without a grant. */
void irq_each_manner(void)
{
    each_goes_to(1u << 11, (const uint8_t[]){13, 3, 5, 7, 7}, (const uint8_t[]){0, 13, 13, 13, 13});
    each_goes_to(0, (const uint8_t[]){11, 3, 5, 7, 7}, (const uint8_t[]){0, 11, 11, 11, 11});
    each_goes_to(1u << 3 | 1u << 5 | 1u << 7, (const uint8_t[]){11, 3, 5, 7, 7},
                 (const uint8_t[]){0, 11, 11, 11, 11});
    each_goes_to(0x2AA8, (const uint8_t[]){11, 3, 5, 7, 7}, (const uint8_t[]){0, 11, 11, 11, 11});
    each_goes_to(1u << 11 | 1u << 13, (const uint8_t[]){11, 3, 5, 7, 7},
                 (const uint8_t[]){0, 11, 11, 11, 11});
}

/* ---- Sharers ---- */

/* Eight sockets share; then there is no socket for a ninth. */
static void eight_share(unsigned a)
{
    uint16_t attributes = asked[a].attributes;
    uint8_t info_1 = asked[a].info_1 | 6;
    lend_ready(1u << 6, 1u << 6);
    for (uint8_t s = 0; s < CS_SOCKETS; s++) {
        must_be(ask_sharers(6), CS_SUCCESS, s);
        granted((uint16_t)(16 - s), s, attributes, info_1, 0, 6);
        irq_refused(1, s, attributes, info_1, 0, CS_IN_USE);
    }
    must_be(ask_sharers(6), CS_SUCCESS, 8);
    irq_refused(1, CS_SOCKETS, attributes, info_1, 0, CS_BAD_SOCKET);
    must_be(ask_sharers(5), CS_SUCCESS, 0);
    must_be(ask_sharers(22), CS_BAD_IRQ, 0);
}

/* And leave again, in another order; Exclusive comes in when all have left, not
   when one is left. */
static void eight_leave(unsigned a)
{
    uint16_t attributes = asked[a].attributes;
    for (unsigned i = 0; i < CS_SOCKETS; i++) {
        uint8_t s = (uint8_t)(3 * i % CS_SOCKETS), next = (uint8_t)(3 * (i + 1) % CS_SOCKETS);
        must_be(release_irq((uint16_t)(16 - s), s, attributes, 6), CS_SUCCESS, (uint16_t)(16 - s));
        no_irq_grant_bytes(s);
        must_be(ask_sharers(6), CS_SUCCESS, (uint16_t)(7 - i));
        if (i < 7) {
            irq_refused(1, s, 0, 0xE6, 0, CS_BAD_IRQ);
            irq_refused((uint16_t)(16 - s), s, attributes | 8, asked[a].info_1 | 6, 0, CS_BAD_IRQ);
            irq_refused(1, next, 0, 0xE6, 0, CS_IN_USE);
        }
    }
    irq_granted(1, 7, 0, 0xE6, 0, 6);
    irq_refused(2, 0, attributes, asked[a].info_1 | 6, 0, CS_BAD_IRQ);
    irq_refused(2, 0, 0, 0xE6, 0, CS_BAD_IRQ);
    must_be(ask_sharers(6), CS_SUCCESS, 1);
}

void irq_sharers(void)
{
    for (unsigned a = 1; a < ASKED; a++) {
        eight_share(a);
        eight_leave(a);
    }
}

/* ---- ReleaseIRQ ---- */

/* "Other attribute bits are ignored"; of both dynamic manners the type is 2. */
static void release_with(uint8_t held, uint16_t attributes)
{
    static const uint8_t types[MANNERS] = {0, 1, 2, 2};
    struct model m;
    bool good = (attributes & 3) == types[held];
    ready_set(&m, 0xFFFF, 0);
    m.irq[3] = (struct irq_grant){true, 8, 10, held};
    lend_set(&m);
    must_be(release_irq(8, 3, attributes, 10), good ? CS_SUCCESS : CS_BAD_ATTRIBUTE, good ? 8 : 0);
    if (good)
        no_irq_grant_bytes(3);
    else
        irq_grant_bytes(3, 8, 10, held);
}

void release_attributes(void)
{
    for (uint8_t held = 0; held < MANNERS; held++)
        for (uint16_t type = 0; type < 4; type++) {
            for (unsigned bit = 2; bit < 16; bit++)
                release_with(held, (uint16_t)(type | 1u << bit));
            release_with(held, type);
            release_with(held, type | 0xFFFC);
        }
}

/* Client 8 holds level 10 on socket 3, and client 9 level 11 on socket 4. */
static void release_not_held(uint16_t client, uint8_t socket, unsigned level)
{
    bool held =
        (client == 8 && socket == 3 && level == 10) || (client == 9 && socket == 4 && level == 11);
    for (uint16_t type = 0; type < 4 && !held; type++)
        must_be(release_irq(client, socket, type, (uint8_t)level), CS_BAD_IRQ, 0);
}

/* "BAD_IRQ unless this client holds this level on this socket" */
void release_of_others(void)
{
    struct model m;
    ready_set(&m, 0xFFFF, 0);
    m.irq[3] = (struct irq_grant){true, 8, 10, EXCLUSIVE};
    m.irq[4] = (struct irq_grant){true, 9, 11, DYNAMIC_PULSE};
    lend_set(&m);
    for (unsigned level = 0; level <= 255; level++)
        for (uint8_t socket = 2; socket <= 5; socket++) {
            release_not_held(8, socket, level);
            release_not_held(9, socket, level);
        }
    for (uint16_t client = 1; client <= CS_CLIENTS; client++)
        for (uint8_t socket = 0; socket < CS_SOCKETS; socket++) {
            release_not_held(client, socket, 0);
            release_not_held(client, socket, 10);
            release_not_held(client, socket, 11);
        }
    must_be(release_irq(8, 3, 0, 10), CS_SUCCESS, 8);
    must_be(release_irq(8, 3, 0, 10), CS_BAD_IRQ, 0);
    must_be(release_irq(9, 4, 2, 11), CS_SUCCESS, 9);
    must_be(release_irq(9, 4, 2, 11), CS_BAD_IRQ, 0);
}

/* Handles have two bytes: 0102, 0100 and 2 are three clients. */
void release_by_low_bytes(void)
{
    struct model m;
    ready_set(&m, 0xFFFF, 0);
    m.issued = m.client[15].handle = 0x0102;
    m.client[14].handle = 0x0100;
    m.irq[0] = (struct irq_grant){true, 0x0102, 0, EXCLUSIVE};
    m.irq[1] = (struct irq_grant){true, 2, 1, EXCLUSIVE};
    m.irq[2] = (struct irq_grant){true, 0x0100, 2, EXCLUSIVE};
    lend_set(&m);
    must_be(release_irq(2, 0, 0, 0), CS_BAD_IRQ, 0);
    must_be(release_irq(0x0100, 0, 0, 0), CS_BAD_IRQ, 0);
    must_be(release_irq(0x0102, 1, 0, 1), CS_BAD_IRQ, 0);
    must_be(release_irq(0x0102, 2, 0, 2), CS_BAD_IRQ, 0);
    must_be(release_irq(0x0102, 0, 0, 0), CS_SUCCESS, 0x0102);
    must_be(release_irq(2, 1, 0, 1), CS_SUCCESS, 2);
    must_be(release_irq(0x0100, 2, 0, 2), CS_SUCCESS, 0x0100);
    irq_granted(0x0102, 7, 0, 0x2F, 0, 15);
    irq_grant_bytes(7, 0x0102, 15, EXCLUSIVE);
}

/* ---- Every place of a grant ---- */

/* Granted and released on each socket, of each level, in each manner; the packet
   that RequestIRQ leaves is one that ReleaseIRQ takes. */
void irq_every_place(void)
{
    lend_ready(0xFFFF, 0xF0F0);
    for (uint8_t socket = 0; socket < CS_SOCKETS; socket++)
        for (uint8_t level = 0; level < CS_LEVELS; level++)
            for (unsigned a = 0; a < ASKED; a++) {
                uint16_t client = (uint16_t)(1 + (socket + level) % CS_CLIENTS);
                uint16_t left = asked[a].attributes | (asked[a].manner == DYNAMIC_PULSE ? 256 : 0);
                granted(client, socket, asked[a].attributes, asked[a].info_1 | level, 0, level);
                must_be(ask_sharers(level), CS_SUCCESS, 1);
                must_be(release_irq(client, socket, left, level), CS_SUCCESS, client);
                no_irq_grant_bytes(socket);
                must_be(ask_sharers(level), CS_SUCCESS, 0);
            }
}

/* Grants of every socket at once, each of its own level and client. */
void irq_every_socket(void)
{
    lend_ready(0xFFFF, 0);
    for (uint8_t s = 0; s < CS_SOCKETS; s++)
        irq_granted((uint16_t)(16 - s), s, 0, (uint8_t)(0x20 | (15 - s)), 0, (uint8_t)(15 - s));
    for (uint8_t s = 0; s < CS_SOCKETS; s++)
        irq_grant_bytes(s, (uint16_t)(16 - s), (uint8_t)(15 - s), EXCLUSIVE);
    for (uint8_t i = 0; i < CS_SOCKETS; i++) {
        uint8_t s = (uint8_t)(5 * i % CS_SOCKETS);
        must_be(release_irq((uint16_t)(16 - s), s, 0, (uint8_t)(15 - s)), CS_SUCCESS,
                (uint16_t)(16 - s));
    }
    for (uint8_t s = 0; s < CS_SOCKETS; s++)
        no_irq_grant_bytes(s);
}

/* ---- What a grant holds ---- */

/* "refused with IN_USE exactly while the client holds an I/O grant, an IRQ grant
   or a socket mask." */
void irq_keeps_its_client(void)
{
    lend_ready(0xFFFF, 0);
    for (uint8_t s = 0; s < CS_SOCKETS; s++) {
        uint16_t first = (uint16_t)(s + 1), last = (uint16_t)(16 - s);
        irq_granted(last, s, 0, 0x30, 0xFFFF, 0);
        must_be(deregister(last), CS_IN_USE, 0);
        must_be(deregister(first), CS_SUCCESS, first);
        must_be(release_irq(last, s, 1, 0), CS_BAD_ATTRIBUTE, 0);
        must_be(release_irq(last, s, 0, 1), CS_BAD_IRQ, 0);
        must_be(deregister(last), CS_IN_USE, 0);
        must_be(release_irq(last, s, 0, 0), CS_SUCCESS, last);
        must_be(deregister(last), CS_SUCCESS, last);
        must_be(deregister(last), CS_BAD_HANDLE, 0);
    }
}

/* A client with two grants keeps the second when it gives the first back. */
void irq_two_of_a_client(void)
{
    lend_ready(0xFFFF, 0);
    irq_granted(16, 0, 1, 0x24, 0, 4);
    irq_granted(16, 7, 1, 0x24, 0, 4);
    must_be(ask_sharers(4), CS_SUCCESS, 2);
    must_be(release_irq(16, 0, 1, 4), CS_SUCCESS, 16);
    must_be(deregister(16), CS_IN_USE, 0);
    must_be(ask_sharers(4), CS_SUCCESS, 1);
    must_be(release_irq(16, 7, 1, 4), CS_SUCCESS, 16);
    must_be(deregister(16), CS_SUCCESS, 16);
}

/* Remove, First and Next (35H) beside grants that calls made. */
void irq_keeps_its_level(void)
{
    static const uint8_t shown_as[ASKED] = {0x80, 0x81, 0x82, 0x82, 0x82};
    for (unsigned a = 0; a < ASKED; a++) {
        lend_ready(1u << 3 | 1u << 9, 0);
        granted(12, 5, asked[a].attributes, asked[a].info_1 | 9, 0, 9);
        level_shown(CS_ACTION_FIRST, 0, (struct shown){.base = 3});
        level_shown(CS_ACTION_NEXT, 3,
                    (struct shown){.base = 9, .attributes = shown_as[a], .holder = 12});
        must_be(remove_level(9), CS_IN_USE, 0);
        must_be(remove_level(3), CS_SUCCESS, GIVEN);
        irq_refused(12, 6, 0, 0x23, 0, CS_BAD_IRQ);
        must_be(release_irq(12, 5, asked[a].attributes, 9), CS_SUCCESS, 12);
        level_shown(CS_ACTION_FIRST, 0, (struct shown){.base = 9});
        must_be(remove_level(9), CS_SUCCESS, GIVEN);
        irq_refused(12, 5, asked[a].attributes, asked[a].info_1 | 9, 0, CS_BAD_IRQ);
        must_be(add_level(9), CS_SUCCESS, GIVEN);
        granted(12, 5, asked[a].attributes, asked[a].info_1 | 9, 0, 9);
    }
}

/* ---- N6, N7, N10 and N11, from a fresh table and by calls alone ---- */

/* "levels 3 and 5 managed, 5 reserved", and client 1. */
static void lend_n6(void)
{
    lend_fresh(3);
    must_be(add_level(3), CS_SUCCESS, GIVEN);
    must_be(adjust_irq(CS_ACTION_ADD, CS_RESERVE, 5), CS_SUCCESS, GIVEN);
    must_be(register_one(), CS_SUCCESS, 1);
    for (uint32_t socket = 0; socket < 3; socket++)
        must_be(ask_card_in(socket), CS_SUCCESS, 0);
}

/* "exclusive, mask 0028H from three sockets: 3, 5, BAD_IRQ." */
static void n6(void)
{
    lend_n6();
    irq_granted(1, 0, 0, 0x30, 0x0028, 3);
    irq_granted(1, 1, 0, 0x30, 0x0028, 5);
    irq_refused(1, 2, 0, 0x30, 0x0028, CS_BAD_IRQ);
}

/* "only 3 named: dynamic level, then from another socket time-multiplexed
   BAD_IRQ, then from it dynamic level: two sharers." */
static void n7(void)
{
    lend_n6();
    irq_granted(1, 0, 2, 0xA3, 0, 3);
    irq_refused(1, 1, 1, 0xA3, 0, CS_BAD_IRQ);
    irq_granted(1, 1, 2, 0xA3, 0, 3);
    must_be(ask_sharers(3), CS_SUCCESS, 2);
}

/* "register, deregister, register: handle 2." */
static void n10(void)
{
    lend_fresh(1);
    must_be(register_one(), CS_SUCCESS, 1);
    must_be(deregister(1), CS_SUCCESS, 1);
    must_be(register_one(), CS_SUCCESS, 2);
}

/* "packet 00 00 02 00 00 B0 28 00 becomes 00 00 02 00 03 B0 28 00; with D0 for
   B0, 00 00 02 01 03 D0 28 00." */
static void n11(uint8_t info_1, uint8_t high_attributes)
{
    uint8_t packet[] = {0x00, 0x00, 0x02, 0x00, 0x00, info_1, 0x28, 0x00};
    uint8_t becomes[] = {0x00, 0x00, 0x02, high_attributes, 0x03, info_1, 0x28, 0x00};
    lend_n6();
    must_be(ask_call(CS_REQUEST_IRQ, 1, packet, sizeof packet), CS_SUCCESS, 1);
    packet_must_be(becomes, sizeof becomes);
}

void irq_cases(void)
{
    n6();
    n7();
    n10();
    n11(0xB0, 0x00);
    n11(0xD0, 0x01);
}

/* ---- Bytes, from docs/LAYOUT.md ---- */

/* The IRQ grants of all seats. */
static void irq_grants_are(const uint8_t by_hand[SEATS][IRQ_SIZE])
{
    table_must_have(AT_IRQ, (const uint8_t *)by_hand, SEATS * IRQ_SIZE);
}

/* A refusal leaves every byte; what is compared with the model says so too. */
void irq_bytes(void)
{
    static const uint8_t before[SEATS][IRQ_SIZE] = {{0}};
    static const uint8_t one[SEATS][IRQ_SIZE] = {[7] = {2, 0, 15, 3}};
    static const uint8_t two[SEATS][IRQ_SIZE] = {[0] = {1, 0, 0, 1}, [7] = {2, 0, 15, 3}};
    static const uint8_t head[] = {67, 8, 2, 0, 2, 0}, levels[] = {1, 0}, reserved[] = {1, 1};
    lend_fresh(8);
    must_be(register_one(), CS_SUCCESS, 1);
    must_be(register_one(), CS_SUCCESS, 2);
    must_be(add_level(0), CS_SUCCESS, GIVEN);
    must_be(adjust_irq(CS_ACTION_ADD, CS_RESERVE, 15), CS_SUCCESS, GIVEN);
    must_be(ask_card_in(0), CS_SUCCESS, 0);
    must_be(ask_card_in(7), CS_SUCCESS, 0);
    irq_grants_are(before);
    pulse_granted(2, 7, 6, 0xCF, 0, 15);
    irq_grants_are(one);
    irq_refused(1, 0, 0, 0x2F, 0, CS_BAD_IRQ);
    irq_grants_are(one);
    irq_granted(1, 0, 1, 0x20, 0, 0);
    irq_grants_are(two);
    table_must_have(AT_LAYOUT, head, sizeof head);
    table_must_have(AT_LEVELS, levels, sizeof levels);
    table_must_have(AT_LEVELS + LEVEL_SIZE * 15, reserved, sizeof reserved);
    must_be(release_irq(1, 0, 1, 0), CS_SUCCESS, 1);
    irq_grants_are(one);
    must_be(release_irq(2, 7, 2, 15), CS_SUCCESS, 2);
    irq_grants_are(before);
}

/* full_set's levels are shared by two sockets each, 0 to 3. Each grant is given
   back; the last client shares the level instead. */
void irq_full_table(void)
{
    struct model m;
    full_set(&m, CS_CLIENTS);
    lend_set(&m);
    for (uint8_t s = 0; s < CS_SOCKETS; s++) {
        uint16_t holder = (uint16_t)(s + 1);
        uint8_t level = s / 2;
        irq_refused(16, s, 2, 0xF0, 0xFFFF, CS_IN_USE);
        must_be(release_irq(16, s, 2, level), CS_BAD_IRQ, 0);
        must_be(release_irq(holder, s, 2, level), CS_SUCCESS, holder);
        irq_refused(16, s, 0, 0xF0, 0x0001, CS_BAD_IRQ);
        irq_granted(16, s, 10, 0xF0, (uint16_t)(0xFFF0 | 1u << level), 4);
        must_be(release_irq(16, s, 2, 4), CS_SUCCESS, 16);
        irq_granted(16, s, 2, 0xF0, (uint16_t)(1u << level), level);
    }
    must_be(ask_sharers(3), CS_SUCCESS, 2);
}
