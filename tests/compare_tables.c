#include <string.h>

#include "check.h"
#include "clauses.h"
#include "compare.h"
#include "layout.h"
#include "old_layout.h"
#include "resources.h"
#include "sets.h"
#include "sockets.h"

/* ---- Every entry that looks at the table, asked for something it would do ---- */

static uint32_t boot_both(void)
{
    static const uint8_t records[] = {CS_RESOURCE_IRQ, 0, 6, 0,    0, 0, 0, 0, 0, 0,
                                      CS_RESOURCE_IO,  0, 0, 0x50, 0, 0, 1, 0, 0, 0};
    uint64_t answer = ask_boot(records, sizeof records);
    return CS_BOOT_CODE(answer) | CS_BOOT_PLACE(answer) << 16;
}

enum { ENTRIES = 18 };

static uint32_t ask_entry(unsigned which)
{
    switch (which) {
    case 0:
        return ask_card_in(0);
    case 1:
        return ask_card_out(0);
    case 2:
        return ask_sharers(0);
    case 3:
        return register_one();
    case 4:
        return deregister(1);
    case 5:
        return add_level(9);
    case 6:
        return remove_level(9);
    case 7:
        return adjust_irq(CS_ACTION_FIRST, 0, 0);
    case 8:
        return add_range(SHORT, 0x7000, 1);
    case 9:
        return remove_range(LONG, 0x7000, 1);
    case 10:
        return adjust_io(LONG, CS_ACTION_NEXT, 0, 0, 0, 0);
    case 11:
        return request_irq(1, 0, 2, 0xB0, 0xFFFF);
    case 12:
        return release_irq(1, 0, 2, 0);
    case 13:
        return request_mask(1, 0, 0);
    case 14:
        return release_mask(1, 0);
    case 15:
        return request_io(1, 0, 0, 1, SHARED, 16);
    case 16:
        return release_io(1, 0, 0x100, 8);
    default:
        return boot_both();
    }
}

/* Whether the archive takes the lent bytes as a table: cs_sharers answers 00
   or 19, and changes no byte; if 19, so does every other entry. */
static void table_is(bool good)
{
    uint32_t answer = ask_sharers(0);
    must_be(CS_CODE(answer), good ? CS_SUCCESS : CS_GENERAL_FAILURE, 0);
    for (unsigned which = 0; !good && which < ENTRIES; which++)
        must_be(ask_entry(which), CS_GENERAL_FAILURE, 0);
}

static void set_is(const struct model *m, bool good)
{
    lend_set(m);
    table_is(good);
}

/* ---- Sets written by hand, on both sides of a limit ---- */

/* Two sockets, clients 1 and 2, levels 3 and 4, all ports managed. */
static struct model two_sockets(void)
{
    struct model m;
    model_fresh(&m, 2);
    m.issued = m.clients = 2;
    m.client[0] = (struct client){.handle = 1, .attributes = CS_IO_CLIENT};
    m.client[1] = (struct client){.handle = 2, .attributes = CS_MEMORY_CLIENT};
    m.level[3].managed = m.level[4].managed = true;
    m.range[m.ranges++] = (struct range){0, CS_PORTS, false};
    return m;
}

static void handles_by_hand(void)
{
    struct model m = two_sockets();
    set_is(&m, true);
    m.issued = 1;
    set_is(&m, false);
    m.issued = CS_HANDLES;
    m.client[1].handle = CS_HANDLES;
    set_is(&m, true);
    m.client[1].handle = 1;
    set_is(&m, false);
    m.client[1].handle = 0;
    set_is(&m, false);
}

static void limits_by_hand(void)
{
    struct model m;
    for (unsigned sockets = 0; sockets <= 255; sockets += sockets < 10 ? 1 : 49) {
        model_fresh(&m, 1);
        m.sockets = sockets;
        set_is(&m, sockets >= 1 && sockets <= CS_SOCKETS);
    }
    full_set(&m, CS_CLIENTS);
    set_is(&m, true);
    full_set(&m, 8);
    set_is(&m, true);
    m.issued = 7;
    set_is(&m, false);
}

static void masks_by_hand(void)
{
    struct model m = two_sockets();
    m.client[0].masks[1] = (struct mask){true, 0};
    set_is(&m, true);
    m.client[0].masks[1].events = 0x0FFF;
    set_is(&m, true);
    m.client[0].masks[1].events = 0x1000;
    set_is(&m, false);
    m.client[0].masks[1].events = 0xFFFE;
    set_is(&m, false);
    m.client[0].masks[1] = (struct mask){false, 0};
    m.client[0].masks[2] = (struct mask){true, 0};
    set_is(&m, false);
}

static void one_range_is(uint32_t base, uint32_t count, bool good)
{
    struct model m;
    model_fresh(&m, 1);
    m.range[m.ranges++] = (struct range){base, count, true};
    set_is(&m, good);
}

/* Beside a range of 300, 16. */
static void second_range_is(uint32_t base, uint32_t count, bool good)
{
    struct model m;
    model_fresh(&m, 1);
    m.range[0] = (struct range){0x300, 16, false};
    m.range[1] = (struct range){base, count, false};
    m.ranges = 2;
    set_is(&m, good);
}

static void ranges_by_hand(void)
{
    one_range_is(0, CS_PORTS, true);
    one_range_is(0, CS_PORTS + 1, false);
    one_range_is(0, 0, false);
    one_range_is(1, CS_PORTS, false);
    one_range_is(0xFFFF, 1, true);
    one_range_is(0xFFFF, 2, false);
    one_range_is(0xFFF8, 8, true);
    one_range_is(0xFFF9, 8, false);
    one_range_is(8, 0xFFFFFFFF, false);
    one_range_is(8, 0x80000001, false);
    second_range_is(0x310, 1, true);
    second_range_is(0x30F, 1, false);
    second_range_is(0x2FF, 1, true);
    second_range_is(0x2FF, 2, false);
    second_range_is(0x300, 16, false);
    second_range_is(0x304, 2, false);
    second_range_is(0x200, 0x200, false);
}

static void one_io_grant_is(uint16_t base, uint8_t count, uint8_t lines, bool good)
{
    struct model m = two_sockets();
    m.io[1] = (struct io_grant){true, 2, base, count, lines, false};
    set_is(&m, good);
}

static void io_grants_by_hand(void)
{
    one_io_grant_is(1, 1, 16, true);
    one_io_grant_is(0, 1, 16, false);
    one_io_grant_is(1, 255, 16, true);
    one_io_grant_is(1, 0, 16, false);
    one_io_grant_is(1, 255, 8, true);
    one_io_grant_is(1, 255, 7, false);
    one_io_grant_is(1, 128, 7, true);
    one_io_grant_is(1, 129, 7, false);
    one_io_grant_is(1, 2, 1, true);
    one_io_grant_is(1, 3, 1, false);
    one_io_grant_is(1, 1, 0, false);
    one_io_grant_is(1, 1, 17, false);
    one_io_grant_is(1, 1, 255, false);
    one_io_grant_is(0xFFFF, 1, 16, true);
    one_io_grant_is(0xFFFF, 2, 16, false);
    one_io_grant_is(0xFF01, 255, 16, true);
    one_io_grant_is(0xFF02, 255, 16, false);
}

/* A grant's ports may lie in two ranges, and not in the gap between two. */
static void managed_ports_by_hand(void)
{
    struct model m = two_sockets();
    m.range[0] = (struct range){0x308, 8, true};
    m.range[1] = (struct range){0x300, 8, false};
    m.ranges = 2;
    m.io[0] = (struct io_grant){true, 1, 0x300, 16, 16, false};
    set_is(&m, true);
    m.io[0].count = 17;
    set_is(&m, false);
    m.io[0] = (struct io_grant){true, 1, 0x2FF, 2, 16, false};
    set_is(&m, false);
    m.io[0] = (struct io_grant){true, 1, 0x307, 2, 16, false};
    set_is(&m, true);
    m.range[0].base = 0x309;
    set_is(&m, false);
}

/* All ports but so many from the gap on. */
static void all_but(struct model *m, uint32_t gap, uint32_t count)
{
    m->ranges = 0;
    if (gap > 0)
        m->range[m->ranges++] = (struct range){0, gap, true};
    if (gap + count < CS_PORTS)
        m->range[m->ranges++] = (struct range){gap + count, CS_PORTS - gap - count, false};
}

static void one_grant_beside(uint16_t base, uint8_t count, uint8_t lines, uint32_t gap,
                             uint32_t missing, bool good)
{
    struct model m = two_sockets();
    all_but(&m, gap, missing);
    m.io[1] = (struct io_grant){true, 2, base, count, lines, true};
    set_is(&m, good);
}

/* K2: "A saved table with a grant that breaks this rule is no longer well formed."
   Every entry refuses it; one without such a grant is as good as before. */
static void repeated_ports_by_hand(void)
{
    one_grant_beside(0x6F8, 8, 10, 0x2F8, 8, false);
    one_grant_beside(0x6F8, 8, 11, 0x2F8, 8, true);
    one_grant_beside(0x6F8, 8, 16, 0x2F8, 8, true);
    one_grant_beside(0x6F8, 8, 10, 0x2F8, 1, false);
    one_grant_beside(0x6F8, 8, 10, 0x2FF, 1, false);
    one_grant_beside(0x6F8, 8, 10, 0x300, 0x3F8, true);
    one_grant_beside(0x6F8, 8, 10, 0x300, 0x3F9, false);
    one_grant_beside(0x6F8, 8, 10, 0, 0x2F8, true);
    one_grant_beside(0x6F8, 8, 10, 0, 0x2F9, false);
    one_grant_beside(0x6F8, 8, 10, 0xFEFF, 0x101, false);
    one_grant_beside(0x6F8, 8, 10, 0xFF00, 0x100, true);
    one_grant_beside(0x3FE, 8, 10, 0, 1, false);
    one_grant_beside(0x3FE, 8, 10, 6, 0x3F8, true);
    one_grant_beside(0x3FE, 8, 10, 0xFFFF, 1, false);
    one_grant_beside(0xFFF8, 8, 16, 0, 0xFFF8, true);
    one_grant_beside(0xFFF8, 8, 15, 0, 0x7FF8, true);
    one_grant_beside(0xFFF8, 8, 15, 0, 0x7FF9, false);
    one_grant_beside(0x7FFF, 1, 15, 0x8000, 0x7FFF, true);
    one_grant_beside(0x7FFF, 1, 15, 0x8000, 0x8000, false);
    one_grant_beside(2, 1, 1, 1, 1, true);
    one_grant_beside(2, 1, 1, 0, 1, false);
    one_grant_beside(1, 1, 1, 0xFFFF, 1, false);
    one_grant_beside(1, 2, 1, 0xFFFF, 1, false);
}

static void grants_clients_by_hand(void)
{
    struct model m = two_sockets();
    m.io[0] = (struct io_grant){true, 3, 0x300, 8, 16, false};
    set_is(&m, false);
    m.io[0].client = 2;
    m.irq[0] = (struct irq_grant){true, 3, 3, EXCLUSIVE};
    set_is(&m, false);
    m.irq[0].client = 2;
    set_is(&m, true);
    m.irq[0].level = 5;
    set_is(&m, false);
    m.irq[0].level = 4;
    set_is(&m, true);
    m.irq[0].manner = DYNAMIC_PULSE;
    set_is(&m, true);
    m.irq[0].manner = MANNERS;
    set_is(&m, false);
    m.irq[2] = m.irq[0];
    m.irq[0] = (struct irq_grant){0};
    m.irq[2].manner = EXCLUSIVE;
    set_is(&m, false);
}

/* N1 to N4, as two grants of one table that do not share, or that do. */
static void two_io_grants_are(struct io_grant a, struct io_grant b, bool met)
{
    struct model m = two_sockets();
    for (unsigned sharing = 0; sharing < 4; sharing++) {
        a.shared = sharing % 2 == 1;
        b.shared = sharing / 2 == 1;
        m.io[0] = a;
        m.io[1] = b;
        set_is(&m, !met || sharing == 3);
        m.io[0] = b;
        m.io[1] = a;
        set_is(&m, !met || sharing == 3);
    }
}

static struct io_grant ports(uint16_t base, uint8_t count, uint8_t lines)
{
    return (struct io_grant){true, 1, base, count, lines, false};
}

static void meeting_by_hand(void)
{
    two_io_grants_are(ports(0x2F8, 8, 10), ports(0x6F8, 8, 16), true);
    two_io_grants_are(ports(0x2F8, 8, 16), ports(0x6F8, 8, 16), false);
    two_io_grants_are(ports(0x3E8, 8, 16), ports(0x3F0, 8, 16), false);
    two_io_grants_are(ports(0x100, 1, 8), ports(0x200, 1, 16), true);
    two_io_grants_are(ports(0x300, 8, 16), ports(0x307, 8, 16), true);
    two_io_grants_are(ports(0x3FF, 2, 16), ports(0x400, 1, 10), true);
    two_io_grants_are(ports(0x3FE, 2, 16), ports(0x400, 1, 10), false);
    two_io_grants_are(ports(0x001, 2, 1), ports(0xFFFF, 1, 16), true);
    two_io_grants_are(ports(0x100, 255, 8), ports(0x2FF, 1, 16), false);
    two_io_grants_are(ports(0x100, 255, 8), ports(0x2FE, 1, 16), true);
}

void written_sets(void)
{
    handles_by_hand();
    limits_by_hand();
    masks_by_hand();
    ranges_by_hand();
    io_grants_by_hand();
    managed_ports_by_hand();
    repeated_ports_by_hand();
    grants_clients_by_hand();
    meeting_by_hand();
}

/* ---- Random sets, and the same with one clause broken ---- */

void random_sets(void)
{
    static struct model m;
    struct chance c = {11};
    for (unsigned i = 0; i < 500; i++) {
        random_set(&c, &m);
        set_is(&m, true);
        ask_sharers(pick(&c, CS_LEVELS));
    }
}

void broken_clauses(void)
{
    static uint8_t image[CS_TABLE_SIZE];
    struct chance c = {12};
    for (unsigned clause = 0; clause < clauses(); clause++)
        for (unsigned tries = 0; tries < 60; tries++) {
            break_clause(&c, clause, image);
            lend_bytes(image, sizeof image);
            describe("broken: %s", clause_name(clause));
            table_is(false);
        }
    must_hold("every one was refused", answered(CS_SUCCESS) == 0);
}

/* ---- Tables of the layout before this one ---- */

/* "every call answers GENERAL_FAILURE and changes no byte. Make a fresh table". */
static void old_table_of(const struct model *m)
{
    static uint8_t image[CS_TABLE_SIZE];
    old_image(m, image);
    lend_bytes(image, sizeof image);
    describe("in the layout before this one, of %u sockets, %u clients, %u ranges", m->sockets,
             m->clients, m->ranges);
    must_hold("the model refuses it too", !lent_accepted());
    table_is(false);
    must_be(ask_fresh(m->sockets), CS_SUCCESS, 0);
    table_is(true);
}

/* Fresh ones, those with one card alone, full ones, and random ones. */
void old_tables(void)
{
    static struct model m;
    struct chance c = {15};
    for (uint32_t sockets = 1; sockets <= CS_SOCKETS; sockets++) {
        model_fresh(&m, sockets);
        old_table_of(&m);
        for (uint32_t s = 0; s < sockets; s++) {
            model_fresh(&m, sockets);
            m.card[s] = true;
            old_table_of(&m);
        }
    }
    for (unsigned clients = 8; clients <= CS_CLIENTS; clients++) {
        full_set(&m, clients);
        old_table_of(&m);
    }
    for (unsigned i = 0; i < 500; i++) {
        random_set(&c, &m);
        old_table_of(&m);
    }
}

/* ---- Pairs of grants ---- */

static struct io_grant some_ports(struct chance *c, uint32_t most)
{
    uint8_t count = (uint8_t)(1 + pick(c, most)), lines = (uint8_t)(1 + pick(c, CS_LINES));
    return ports(0, count, lines);
}

/* Two I/O grants near each other or near an alias of each other. */
void meeting_grants(void)
{
    struct chance c = {13};
    for (unsigned i = 0; i < 4000; i++) {
        struct model m = two_sockets();
        struct io_grant a = some_ports(&c, 255), b = some_ports(&c, one_in(&c, 2) ? 8 : 255);
        unsigned smaller = a.lines < b.lines ? a.lines : b.lines;
        a.base = (uint16_t)(1 + pick(&c, CS_PORTS - 256));
        uint32_t alias = a.base + (pick(&c, CS_PORTS) << smaller);
        uint32_t beside = one_in(&c, 2) ? a.count : 0u - b.count;
        b.base = (uint16_t)(alias + beside + pick(&c, 5) - 2);
        a.shared = one_in(&c, 3);
        b.shared = one_in(&c, 3);
        m.io[0] = a;
        m.io[1] = b;
        lend_set(&m);
        describe("grants %04X, %u ports, %u lines, shared %d and %04X, %u, %u, %d", a.base, a.count,
                 a.lines, a.shared, b.base, b.count, b.lines, b.shared);
        ask_sharers(0);
    }
    must_hold("some were accepted", answered(CS_SUCCESS) >= 500);
    must_hold("some were refused", answered(CS_GENERAL_FAILURE) >= 500);
}

/* "only equal ones, and never exclusive", on each level and pair of sockets. */
void manners_on_a_level(void)
{
    struct model m;
    for (unsigned pair = 0; pair < MANNERS * MANNERS; pair++)
        for (uint32_t s = 1; s < CS_SOCKETS; s++) {
            uint8_t a = (uint8_t)(pair / MANNERS), b = (uint8_t)(pair % MANNERS);
            full_set(&m, CS_CLIENTS);
            memset(m.irq, 0, sizeof m.irq);
            m.irq[s / 2] = (struct irq_grant){true, 1, (uint8_t)(2 * s), a};
            m.irq[s] = (struct irq_grant){true, 2, (uint8_t)(2 * s), b};
            bool together = a == b && a != EXCLUSIVE;
            set_is(&m, together);
            must_be(ask_sharers(2 * s), together ? CS_SUCCESS : CS_GENERAL_FAILURE,
                    together ? 2 : 0);
            m.irq[s].level ^= 1;
            set_is(&m, true);
        }
}

/* ---- Single bytes ---- */

static void lend_damaged(const uint8_t *image, size_t at, uint8_t value)
{
    static uint8_t damaged[CS_TABLE_SIZE];
    memcpy(damaged, image, CS_TABLE_SIZE);
    damaged[at] = value;
    lend_bytes(damaged, CS_TABLE_SIZE);
    describe("byte %u changed from %02X to %02X", (unsigned)at, image[at], value);
}

static void ask_next_entry(void)
{
    static unsigned entry;
    ask_entry(entry++ % ENTRIES);
}

static void damage(const uint8_t *image, size_t at, uint8_t value)
{
    if (value == image[at])
        return;
    lend_damaged(image, at, value);
    ask_sharers(0);
    ask_next_entry();
}

static void damage_facts(struct chance *c, const uint8_t *image)
{
    for (size_t at = 0; at < AT_REST; at++) {
        damage(image, at, image[at] ^ 1);
        damage(image, at, (uint8_t)(image[at] + 1));
        damage(image, at, image[at] ^ 0x10);
        damage(image, at, 0);
        damage(image, at, (uint8_t)pick(c, 256));
    }
}

static void damage_rest(const uint8_t *image, size_t from)
{
    for (size_t at = AT_REST + from; at < CS_TABLE_SIZE; at += 2)
        damage(image, at, (uint8_t)(1u << at % 8));
}

void damaged_bytes(void)
{
    static struct model m;
    static uint8_t image[CS_TABLE_SIZE];
    struct chance c = {14};
    for (unsigned which = 0; which < 8; which++) {
        if (which == 0)
            model_fresh(&m, CS_SOCKETS);
        else if (which == 1)
            full_set(&m, CS_CLIENTS);
        else
            random_set(&c, &m);
        model_image(&m, image);
        damage_facts(&c, image);
        if (which < 2)
            damage_rest(image, which);
    }
    must_hold("some were still tables", answered(CS_SUCCESS) >= 300);
    must_hold("most were none", answered(CS_GENERAL_FAILURE) >= 200000);
}

/* ---- Single bytes of tables that calls made ---- */

/* Two levels; so many ranges of 32 ports from 300 on, and all ports below and above
   them. */
static const struct boot_list *list_of(unsigned ranges)
{
    static struct boot_list list;
    uint32_t end = 0x300 + 0x20 * ranges;
    list.len = 0;
    put_record(&list, CS_RESOURCE_IRQ, 0, 3, 0);
    put_record(&list, CS_RESOURCE_IRQ, CS_RESERVE, 9, 0);
    for (unsigned i = 0; i < ranges; i++)
        put_record(&list, CS_RESOURCE_IO, i % 2 == 0 ? 0 : CS_RESERVE, 0x300 + 0x20 * i, 0x20);
    put_record(&list, CS_RESOURCE_IO, CS_RESERVE, end, CS_PORTS - end);
    put_record(&list, CS_RESOURCE_IO, CS_RESERVE, 0, 0x300);
    return &list;
}

/* Some sockets, each with a card; clients come, and the second one leaves. */
static void make_table(uint32_t sockets, uint16_t clients, unsigned ranges)
{
    lend_fresh(sockets);
    must_boot(boot(list_of(ranges)), CS_SUCCESS, 4 + ranges);
    for (uint16_t client = 1; client <= clients; client++)
        must_be(register_one(), CS_SUCCESS, client);
    must_be(deregister(2), CS_SUCCESS, 2);
    for (uint32_t s = 0; s < sockets; s++)
        must_be(ask_card_in(s), CS_SUCCESS, 0);
}

/* Two sockets: a grant at ten lines and one that shares, levels held alone, masks
   of both clients; the second card is out again. */
static void make_small_table(void)
{
    make_table(2, 3, 2);
    io_granted(1, 0, 0x300, 8, ALONE, 10);
    io_chosen(3, 1, 20, FIRST_SHARED, 16, 0x20);
    irq_granted(3, 0, 0, 0x30, 0x0208, 3);
    irq_granted(3, 1, 0, 0x30, 0x0208, 9);
    must_be(request_mask(1, 1, 0), CS_SUCCESS, 1);
    must_be(request_mask(3, 0, 0x0FFF), CS_SUCCESS, 3);
    must_be(ask_card_out(1), CS_SUCCESS, 0);
}

/* Eight sockets: ports that adjoin, shared in pairs, at 9 to 16 lines; a level that
   all share; a mask on each. */
static void make_large_table(void)
{
    make_table(8, 6, 5);
    for (uint8_t s = 0; s < CS_SOCKETS; s++) {
        uint16_t client = s % 2 == 0 ? 1 : 6;
        io_granted(client, s, (uint16_t)(0x300 + 16 * (s / 2)), 16, SHARED, (uint8_t)(9 + s));
        irq_granted(client, s, 2, 0xA3, 0, 3);
        must_be(request_mask(client, s, (uint16_t)(0x0101 * s)), CS_SUCCESS, client);
    }
}

/* Whether this place is in the head, among the levels, in a record that is used, in
   one of a client's places or among its masks for sockets. */
static bool is_used(const struct model *m, size_t at)
{
    if (at < AT_RANGES)
        return true;
    if (at < AT_HANDLES)
        return (at - AT_RANGES) / RANGE_SIZE < m->ranges;
    if (at < AT_ATTRIBUTES)
        return (at - AT_HANDLES) / HANDLE_SIZE < m->clients;
    if (at < AT_EVENTS)
        return (at - AT_ATTRIBUTES) / ATTRIBUTES_SIZE < m->clients;
    if (at < AT_IO)
        return (at - AT_EVENTS) / EVENTS_SIZE < m->clients;
    if (at < AT_IO + IO_SIZE * CS_SOCKETS)
        return m->io[(at - AT_IO) / IO_SIZE].live;
    if (at >= AT_IRQ && at < AT_IRQ + IRQ_SIZE * CS_SOCKETS)
        return m->irq[(at - AT_IRQ) / IRQ_SIZE].live;
    return at >= AT_MASKS && at < AT_MASKS + (size_t)MASKS_SIZE * m->clients &&
           (at - AT_MASKS) % MASKS_SIZE < MASK_SIZE * CS_SOCKETS;
}

/* Every other value in what is used, one in what is not. */
static void damage_everywhere(void)
{
    static uint8_t image[CS_TABLE_SIZE];
    struct model m = *lent_facts();
    memcpy(image, lent_table(), sizeof image);
    for (size_t at = 0; at < CS_TABLE_SIZE; at++) {
        bool used = is_used(&m, at);
        for (unsigned change = used ? 1 : 1 + at % 255; change <= 255; change += used ? 1 : 255) {
            lend_damaged(image, at, (uint8_t)(image[at] ^ change));
            ask_next_entry();
        }
    }
}

void damaged_tables(void)
{
    make_small_table();
    damage_everywhere();
    make_large_table();
    damage_everywhere();
    must_hold("some were still tables", answered(CS_SUCCESS) >= 1000);
    must_hold("most were none", answered(CS_GENERAL_FAILURE) >= 50000);
}
