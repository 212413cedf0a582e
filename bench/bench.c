/*
 * bench.c: what a call costs
 *
 * Times, in one run and interleaved, the median of many repetitions of each
 * call on thirteen tables, beside memcmp of as many bytes, beside a call that is
 * refused on the same table and beside model_read, the same check of the table
 * in plain C. A boot list needs a fresh table each time: what is timed is
 * cs_fresh and cs_boot, and cs_fresh's own time is taken off. A granted IRQ, I/O
 * or mask call changes some bytes, which are put back before the next: what is
 * timed is the call and the copy of those bytes.
 */
#define _XOPEN_SOURCE 700

#include <stdio.h>
#include <stdlib.h>
#include <string.h>
#include <time.h>

#include "layout.h"
#include "sets.h"

/* How often a call is timed, and how often it is made each time. */
enum { REPETITIONS = 301, BATCH = 100 };

/* An I/O call on a named base costs at most so many times a bad handle. */
#define NAMED_BAR 1.2

/* A search for a base costs at most so many times memcmp, whatever the table. */
#define SEARCH_BAR 8

/* And so does looking at a table. */
#define LOOK_BAR 2

static uint8_t table[CS_TABLE_SIZE], other[CS_TABLE_SIZE];
static volatile uint32_t answered;

/* ---- The calls; each works on the table as it stands ---- */

static uint32_t register_client(void)
{
    static uint8_t packet[CS_REGISTER_CLIENT_LENGTH] = {CS_IO_CLIENT};
    return cs_call(table, sizeof table, CS_REGISTER_CLIENT, 0, packet, sizeof packet);
}

static void refused(void)
{
    answered = register_client();
}

static void pair(void)
{
    uint32_t answer = register_client();
    answered =
        CS_CODE(cs_call(table, sizeof table, CS_DEREGISTER_CLIENT, CS_HANDLE(answer), NULL, 0));
}

/* ---- Managed resources: levels from 0 on, and full_set's ranges ---- */

enum { FIRST_BASE = 0x100, STEP = 0x40, RANGE_PORTS = 0x10 };

static unsigned ranges, levels; /* of the table laid out */

static uint32_t base_of(unsigned range)
{
    return FIRST_BASE + STEP * range;
}

static uint32_t adjust_io(uint8_t action, uint32_t base)
{
    uint8_t packet[CS_ADJUST_IO_SHORT_LENGTH] = {
        action, CS_RESOURCE_IO, (uint8_t)base, (uint8_t)(base >> 8), RANGE_PORTS, 0, CS_LINES};
    return cs_call(table, sizeof table, CS_ADJUST_RESOURCE_INFO, 0, packet, sizeof packet);
}

static uint32_t adjust_irq(uint8_t action, unsigned level)
{
    uint8_t packet[CS_ADJUST_IRQ_LENGTH] = {action, CS_RESOURCE_IRQ, 0, (uint8_t)level};
    return cs_call(table, sizeof table, CS_ADJUST_RESOURCE_INFO, 0, packet, sizeof packet);
}

static void first_range(void)
{
    answered = CS_CODE(adjust_io(CS_ACTION_FIRST, 0));
}

/* The last one, so that all are passed. */
static void next_range(void)
{
    answered = CS_CODE(adjust_io(CS_ACTION_NEXT, base_of(ranges - 1) - 1));
}

static void first_level(void)
{
    answered = CS_CODE(adjust_irq(CS_ACTION_FIRST, 0));
}

static void next_level(void)
{
    answered = CS_CODE(adjust_irq(CS_ACTION_NEXT, levels - 2));
}

/* One that nobody holds, in the middle where there are many. */
static void range_pair(void)
{
    uint32_t base = base_of(ranges / 2);
    answered = CS_CODE(adjust_io(CS_ACTION_REMOVE, base)) | CS_CODE(adjust_io(CS_ACTION_ADD, base));
}

static void level_pair(void)
{
    answered = CS_CODE(adjust_irq(CS_ACTION_REMOVE, levels - 1)) |
               CS_CODE(adjust_irq(CS_ACTION_ADD, levels - 1));
}

/* ---- IRQ grants and masks: the last client asks, at the last socket ---- */

enum { LAST_SOCKET = CS_SOCKETS - 1, LAST_LEVEL = CS_LEVELS - 1 };

/* A request that fits, and one that doesn't. */
struct wish {
    uint16_t attributes, named;
};
static uint16_t last_client;    /* of the table laid out: its handle */
static unsigned last_place;     /* and its place among the clients */
static struct wish fits, never; /* these too */

static uint32_t request_irq(uint16_t client, struct wish wish)
{
    uint8_t packet[CS_REQUEST_IRQ_LENGTH] = {LAST_SOCKET, 0, (uint8_t)wish.attributes};
    packet[5] = CS_IRQ_INFO_SHARE | CS_IRQ_INFO_LEVEL | CS_IRQ_INFO_MASK;
    packet[6] = (uint8_t)wish.named;
    packet[7] = (uint8_t)(wish.named >> 8);
    return CS_CODE(cs_call(table, sizeof table, CS_REQUEST_IRQ, client, packet, sizeof packet));
}

static uint32_t release_irq(uint16_t attributes)
{
    uint8_t packet[CS_RELEASE_IRQ_LENGTH] = {LAST_SOCKET, 0, (uint8_t)attributes, 0, LAST_LEVEL};
    return CS_CODE(
        cs_call(table, sizeof table, CS_RELEASE_IRQ, last_client, packet, sizeof packet));
}

static uint32_t request_mask(void)
{
    uint8_t packet[CS_REQUEST_SOCKET_MASK_LENGTH] = {LAST_SOCKET, 0, 0xFF, 0x0F};
    return CS_CODE(
        cs_call(table, sizeof table, CS_REQUEST_SOCKET_MASK, last_client, packet, sizeof packet));
}

static uint32_t release_mask(void)
{
    uint8_t packet[CS_RELEASE_SOCKET_MASK_LENGTH] = {LAST_SOCKET, 0};
    return CS_CODE(
        cs_call(table, sizeof table, CS_RELEASE_SOCKET_MASK, last_client, packet, sizeof packet));
}

/* What a granted call changed, as it was; a refused one changed nothing. */
static void put_irq_back(void)
{
    size_t at = AT_IRQ + IRQ_SIZE * LAST_SOCKET;
    memcpy(table + at, other + at, IRQ_SIZE);
}

static void put_mask_back(void)
{
    size_t at = mask_place(last_place, LAST_SOCKET);
    memcpy(table + at, other + at, MASK_SIZE);
}

static void bad_handle(void)
{
    answered = request_irq((uint16_t)(last_client + 1), fits);
}

static void ask_irq(void)
{
    answered = request_irq(last_client, fits);
    put_irq_back();
}

static void ask_irq_that_never_fits(void)
{
    answered = request_irq(last_client, never);
}

static void give_irq_back(void)
{
    answered = release_irq(fits.attributes);
    put_irq_back();
}

static void give_another_type_back(void)
{
    answered = release_irq(CS_IRQ_TIME_MULTIPLEXED);
}

static void ask_mask(void)
{
    answered = request_mask();
    put_mask_back();
}

static void give_mask_back(void)
{
    answered = release_mask();
    put_mask_back();
}

/* ---- I/O grants: the last client asks, at the last socket ---- */

enum { GRANT_PORTS = 8 };

/* Ports that are free, held from another socket, not managed; how many lines the card
   that asks decodes. */
struct ports_of {
    uint16_t free, held, unmanaged;
    uint8_t lines;
};
static struct ports_of ports; /* of the table laid out */

static uint32_t request_io(uint16_t base, uint8_t count, uint8_t lines)
{
    uint8_t packet[CS_REQUEST_IO_LENGTH] = {LAST_SOCKET, 0, (uint8_t)base, (uint8_t)(base >> 8),
                                            count};
    packet[10] = lines;
    return CS_CODE(cs_call(table, sizeof table, CS_REQUEST_IO, last_client, packet, sizeof packet));
}

static void put_io_back(void)
{
    size_t at = AT_IO + IO_SIZE * LAST_SOCKET;
    memcpy(table + at, other + at, IO_SIZE);
}

static void ask_ports(void)
{
    answered = request_io(ports.free, GRANT_PORTS, ports.lines);
    put_io_back();
}

static void ask_held_ports(void)
{
    answered = request_io(ports.held, GRANT_PORTS, ports.lines);
}

static void ask_unmanaged_ports(void)
{
    answered = request_io(ports.unmanaged, GRANT_PORTS, ports.lines);
}

static void ask_any_ports(void)
{
    answered = request_io(0, GRANT_PORTS, ports.lines);
    put_io_back();
}

static void ask_any_255_ports(void)
{
    answered = request_io(0, 255, CS_LINES);
}

static void ask_any_port(void)
{
    answered = request_io(0, 1, CS_LINES);
}

/* Of a card that decodes 15 lines, or 14. */
static void ask_any_6_ports_by_15(void)
{
    answered = request_io(0, 6, 15);
    put_io_back();
}

static void ask_any_port_by_14(void)
{
    answered = request_io(0, 1, 14);
}

/* Of a card that decodes 11 lines, on the table where ports are repeated: in the
   first range, and every other has these ports too; or the last one lacks one. */
enum { REPEATED_LINES = 11, REPEATED_FREE = 0x7E0, REPEATED_SHORT = 0x7F4 };

static void ask_repeated_ports(void)
{
    answered = request_io(REPEATED_FREE, GRANT_PORTS, REPEATED_LINES);
    put_io_back();
}

static void ask_ports_a_port_short(void)
{
    answered = request_io(REPEATED_SHORT, GRANT_PORTS, REPEATED_LINES);
}

static void give_ports_back(void)
{
    uint8_t packet[CS_RELEASE_IO_LENGTH] = {LAST_SOCKET, 0, (uint8_t)ports.free,
                                            (uint8_t)(ports.free >> 8), GRANT_PORTS};
    answered =
        CS_CODE(cs_call(table, sizeof table, CS_RELEASE_IO, last_client, packet, sizeof packet));
    put_io_back();
}

/* ---- Boot lists of all levels and as many ranges as can be ---- */

enum { IN_ORDER, MIXED, DESCENDING, LISTS };
static uint8_t lists[LISTS][CS_BOOT_MOST][CS_BOOT_RECORD];

static void put_record(uint8_t *record, unsigned which)
{
    bool level = which < CS_LEVELS;
    uint32_t number = level ? which : base_of(which - CS_LEVELS);
    record[0] = level ? CS_RESOURCE_IRQ : CS_RESOURCE_IO;
    record[2] = (uint8_t)number;
    record[3] = (uint8_t)(number >> 8);
    record[6] = RANGE_PORTS;
}

/* 29 and 48 have no common factor. */
static void make_lists(void)
{
    for (unsigned i = 0; i < CS_BOOT_MOST; i++) {
        put_record(lists[IN_ORDER][i], i);
        put_record(lists[MIXED][i], 29 * i % CS_BOOT_MOST);
        put_record(lists[DESCENDING][i], CS_BOOT_MOST - 1 - i);
    }
}

static void fresh(void)
{
    answered = cs_fresh(table, sizeof table, CS_SOCKETS);
}

static void boot(unsigned which)
{
    fresh();
    answered |= CS_BOOT_CODE(
        cs_boot(table, sizeof table, (const uint8_t *)lists[which], sizeof lists[which]));
}

static void boot_in_order(void)
{
    boot(IN_ORDER);
}

static void boot_mixed(void)
{
    boot(MIXED);
}

static void boot_descending(void)
{
    boot(DESCENDING);
}

/* ---- Host calls, and the yardsticks ---- */

static void card_in(void)
{
    answered = cs_card_in(table, sizeof table, 0);
}

static void sharers(void)
{
    answered = CS_CODE(cs_sharers(table, sizeof table, 0));
}

static void plain_c(void)
{
    static struct model m;
    answered = model_read(table, sizeof table, &m) ? CS_SUCCESS : CS_GENERAL_FAILURE;
}

/* Through a volatile pointer, so that no compiler knows the result. */
static int (*volatile compare)(const void *, const void *, size_t) = memcmp;

static void memcmp_8192(void)
{
    answered = (uint32_t)compare(table, other, sizeof table);
}

/* ---- What is timed on which tables ---- */

enum {
    FRESH,
    SIXTEEN_CLIENTS,
    ONE_RANGE,
    FULL,
    ONE_HOLDER,
    ALL_HELD,
    ALL_BARRED,
    GAPPED,
    REPEATED,
    FEW_LINES,
    MIXED_LINES,
    NO_ORDER,
    SPARSE,
    TABLES
};
enum {
    EVERYWHERE = (1 << TABLES) - 1,
    MANAGED = 1 << ONE_RANGE | 1 << FULL,
    BOOTED = 1 << FRESH,
    HELD = 1 << ONE_HOLDER | 1 << ALL_HELD,
    BARRED = 1 << ALL_BARRED,
    GAPS = 1 << GAPPED,
    ALIASES = 1 << REPEATED,
    FULL_KINDS = 1 << FEW_LINES | 1 << MIXED_LINES | 1 << NO_ORDER | 1 << SPARSE,
    NOT_HELD = EVERYWHERE & ~HELD & ~BARRED & ~GAPS & ~ALIASES & ~FULL_KINDS,
    /* The last client is the 16th. */
    LAST_OF_16 = 1 << ALL_HELD | BARRED | GAPS | ALIASES | FULL_KINDS
};

/* The rows that others are held against, by name; the rest follow them. */
enum { MEMCMP, REFUSED, FRESH_CALL, BAD_HANDLE, BAD_HANDLE_A_PLACE_FREE };

static const struct call {
    const char *name;
    void (*once)(void);
    bool pair;             /* two calls: the time of one is told */
    bool full;             /* on the table without a place for what may be asked */
    bool after_fresh;      /* cs_fresh is timed with it, and its own time is taken off */
    unsigned on;           /* which tables */
    uint32_t answer;       /* what it has to answer, or another thing was timed */
    double bar;            /* at most so many times another row; 0 for none */
    unsigned against;      /* that row */
    const char *yardstick; /* what it is called where others are held against it */
} calls[] = {
    /* clang-format off */
    [MEMCMP] = {.name = "memcmp of 8,192 equal bytes", .once = memcmp_8192, .full = true,
                .on = EVERYWHERE, .answer = 0, .yardstick = "memcmp"},
    [REFUSED] = {.name = "RegisterClient refused with OUT_OF_RESOURCE",
                 .once = refused, .full = true, .on = EVERYWHERE, .answer = CS_OUT_OF_RESOURCE,
                 .yardstick = "refused"},
    [FRESH_CALL] = {.name = "cs_fresh", .once = fresh, .full = true,
                    .on = BOOTED, .answer = CS_SUCCESS},
    [BAD_HANDLE] = {.name = "RequestIRQ refused with BAD_HANDLE", .once = bad_handle, .full = true,
                    .on = HELD | FULL_KINDS, .answer = CS_BAD_HANDLE, .yardstick = "bad handle"},
    [BAD_HANDLE_A_PLACE_FREE] = {.name = "RequestIRQ refused with BAD_HANDLE, a place free",
                                 .once = bad_handle, .on = HELD, .answer = CS_BAD_HANDLE,
                                 .yardstick = "bad handle"},
    {.name = "RegisterClient, DeregisterClient, a place free", .once = pair, .pair = true,
     .on = NOT_HELD, .answer = CS_SUCCESS},
    {.name = "cs_card_in", .once = card_in, .full = true,
     .on = EVERYWHERE, .answer = CS_SUCCESS},
    {.name = "cs_sharers", .once = sharers, .full = true,
     .on = EVERYWHERE, .answer = CS_SUCCESS},
    {.name = "First range", .once = first_range, .full = true,
     .on = MANAGED, .answer = CS_SUCCESS, .bar = 1.2, .against = REFUSED},
    {.name = "Next range, the last", .once = next_range, .full = true,
     .on = MANAGED, .answer = CS_SUCCESS, .bar = 1.2, .against = REFUSED},
    {.name = "First level", .once = first_level, .full = true,
     .on = MANAGED, .answer = CS_SUCCESS, .bar = 1.2, .against = REFUSED},
    {.name = "Next level, the last", .once = next_level, .full = true,
     .on = MANAGED, .answer = CS_SUCCESS, .bar = 1.2, .against = REFUSED},
    {.name = "Remove, Add of a range", .once = range_pair, .pair = true, .full = true,
     .on = MANAGED, .answer = CS_SUCCESS},
    {.name = "Remove, Add of a level", .once = level_pair, .pair = true, .full = true,
     .on = MANAGED, .answer = CS_SUCCESS},
    {.name = "RequestIRQ", .once = ask_irq,
     .on = HELD, .answer = CS_SUCCESS, .bar = 1.2, .against = BAD_HANDLE_A_PLACE_FREE},
    {.name = "RequestIRQ refused with BAD_IRQ", .once = ask_irq_that_never_fits,
     .on = HELD, .answer = CS_BAD_IRQ, .bar = 1.2, .against = BAD_HANDLE_A_PLACE_FREE},
    {.name = "RequestIRQ refused with IN_USE", .once = ask_irq, .full = true,
     .on = HELD, .answer = CS_IN_USE, .bar = 1.2, .against = BAD_HANDLE},
    {.name = "ReleaseIRQ", .once = give_irq_back, .full = true,
     .on = HELD, .answer = CS_SUCCESS, .bar = 1.2, .against = BAD_HANDLE},
    {.name = "ReleaseIRQ refused with BAD_IRQ", .once = give_irq_back,
     .on = HELD, .answer = CS_BAD_IRQ, .bar = 1.2, .against = BAD_HANDLE_A_PLACE_FREE},
    {.name = "ReleaseIRQ refused with BAD_ATTRIBUTE", .once = give_another_type_back, .full = true,
     .on = HELD, .answer = CS_BAD_ATTRIBUTE, .bar = 1.2, .against = BAD_HANDLE},
    {.name = "RequestIO", .once = ask_ports,
     .on = HELD, .answer = CS_SUCCESS, .bar = NAMED_BAR, .against = BAD_HANDLE_A_PLACE_FREE},
    {.name = "RequestIO refused with BAD_BASE", .once = ask_unmanaged_ports,
     .on = HELD, .answer = CS_BAD_BASE, .bar = NAMED_BAR, .against = BAD_HANDLE_A_PLACE_FREE},
    {.name = "RequestIO refused with IN_USE, ports held", .once = ask_held_ports,
     .on = HELD, .answer = CS_IN_USE, .bar = NAMED_BAR, .against = BAD_HANDLE_A_PLACE_FREE},
    {.name = "RequestIO refused with IN_USE", .once = ask_ports, .full = true,
     .on = HELD, .answer = CS_IN_USE, .bar = NAMED_BAR, .against = BAD_HANDLE},
    {.name = "RequestIO of any 8 ports", .once = ask_any_ports,
     .on = HELD, .answer = CS_SUCCESS, .bar = SEARCH_BAR, .against = MEMCMP},
    {.name = "RequestIO of any 255 ports, IN_USE", .once = ask_any_255_ports,
     .on = HELD | BARRED, .answer = CS_IN_USE, .bar = SEARCH_BAR, .against = MEMCMP},
    {.name = "RequestIO of any port, IN_USE", .once = ask_any_port,
     .on = BARRED, .answer = CS_IN_USE, .bar = SEARCH_BAR, .against = MEMCMP},
    {.name = "RequestIO of any 6 ports by 15 lines", .once = ask_any_6_ports_by_15,
     .on = GAPS, .answer = CS_SUCCESS, .bar = SEARCH_BAR, .against = MEMCMP},
    {.name = "RequestIO of any port by 14 lines, IN_USE", .once = ask_any_port_by_14,
     .on = GAPS, .answer = CS_IN_USE, .bar = SEARCH_BAR, .against = MEMCMP},
    {.name = "cs_sharers of a table that is long to look at", .once = sharers, .full = true,
     .on = ALIASES, .answer = CS_SUCCESS, .bar = LOOK_BAR, .against = MEMCMP},
    {.name = "RequestIO by 11 lines", .once = ask_repeated_ports,
     .on = ALIASES, .answer = CS_SUCCESS, .bar = LOOK_BAR, .against = MEMCMP},
    {.name = "RequestIO by 11 lines, a port short, BAD_BASE", .once = ask_ports_a_port_short,
     .on = ALIASES, .answer = CS_BAD_BASE, .bar = LOOK_BAR, .against = MEMCMP},
    {.name = "ReleaseIO", .once = give_ports_back, .full = true,
     .on = HELD, .answer = CS_SUCCESS, .bar = NAMED_BAR, .against = BAD_HANDLE},
    {.name = "ReleaseIO refused with BAD_BASE", .once = give_ports_back,
     .on = HELD, .answer = CS_BAD_BASE, .bar = NAMED_BAR, .against = BAD_HANDLE_A_PLACE_FREE},
    {.name = "RequestSocketMask", .once = ask_mask,
     .on = HELD, .answer = CS_SUCCESS, .bar = 1.2, .against = BAD_HANDLE_A_PLACE_FREE},
    {.name = "RequestSocketMask refused with IN_USE", .once = ask_mask, .full = true,
     .on = HELD, .answer = CS_IN_USE, .bar = 1.2, .against = BAD_HANDLE},
    {.name = "ReleaseSocketMask", .once = give_mask_back, .full = true,
     .on = HELD, .answer = CS_SUCCESS, .bar = 1.2, .against = BAD_HANDLE},
    {.name = "ReleaseSocketMask refused with BAD_SOCKET", .once = give_mask_back,
     .on = HELD, .answer = CS_BAD_SOCKET, .bar = 1.2, .against = BAD_HANDLE_A_PLACE_FREE},
    {.name = "boot list of 48 in order", .once = boot_in_order, .full = true,
     .after_fresh = true, .on = BOOTED, .answer = CS_SUCCESS, .bar = 12, .against = REFUSED},
    {.name = "boot list of 48, mixed", .once = boot_mixed, .full = true,
     .after_fresh = true, .on = BOOTED, .answer = CS_SUCCESS, .bar = 12, .against = REFUSED},
    {.name = "boot list of 48, descending", .once = boot_descending, .full = true,
     .after_fresh = true, .on = BOOTED, .answer = CS_SUCCESS, .bar = 12, .against = REFUSED},
    {.name = "RequestIRQ", .once = ask_irq, .on = FULL_KINDS, .answer = CS_SUCCESS},
    {.name = "RequestIO", .once = ask_ports, .on = FULL_KINDS, .answer = CS_SUCCESS},
    {.name = "RequestIO refused with BAD_BASE", .once = ask_unmanaged_ports,
     .on = FULL_KINDS, .answer = CS_BAD_BASE},
    {.name = "RequestIO refused with IN_USE, ports held", .once = ask_held_ports,
     .on = FULL_KINDS, .answer = CS_IN_USE},
    {.name = "RequestIO of any 8 ports", .once = ask_any_ports,
     .on = FULL_KINDS, .answer = CS_SUCCESS},
    {.name = "ReleaseIO", .once = give_ports_back, .full = true,
     .on = FULL_KINDS, .answer = CS_SUCCESS},
    {.name = "RequestSocketMask", .once = ask_mask, .on = FULL_KINDS, .answer = CS_SUCCESS},
    {.name = "plain C: the table read and checked", .once = plain_c, .full = true,
     .on = EVERYWHERE, .answer = CS_SUCCESS},
    /* clang-format on */
};
enum { CALLS = sizeof calls / sizeof *calls };

static bool timed_on(unsigned which, unsigned call)
{
    return (calls[call].on >> which & 1) != 0;
}

/* ---- The tables, without a place for a client, and on the held and barred ones and
   the further full ones for a grant and a mask of the last socket; and with one ---- */

static const char *const table_names[TABLES] = {
    [FRESH] = "fresh",           [SIXTEEN_CLIENTS] = "16 clients",
    [ONE_RANGE] = "one range",   [FULL] = "full",
    [ONE_HOLDER] = "one holder", [ALL_HELD] = "all held",
    [ALL_BARRED] = "barred",     [GAPPED] = "gaps",
    [REPEATED] = "aliases",      [FEW_LINES] = "11 lines",
    [MIXED_LINES] = "11 to 16",  [NO_ORDER] = "no order",
    [SPARSE] = "sparse",
};
static uint8_t images[TABLES][2][CS_TABLE_SIZE];

static void only_clients(struct model *m, unsigned clients)
{
    model_fresh(m, CS_SOCKETS);
    m->clients = m->issued = clients;
    for (unsigned i = 0; i < clients; i++)
        m->client[i] = (struct client){.handle = (uint16_t)(i + 1), .attributes = CS_IO_CLIENT};
}

/* Ranges that lie alike: the same ports are managed in each block of 800. */
static uint32_t alike_base(unsigned range)
{
    return FIRST_BASE + (1u << REPEATED_LINES) * range;
}

/* Where the I/O grants of a held table begin: one after the other in one range; each
   in a range of its own of those that lie alike, at other ports of it; in the second
   half of each of the last eight of 32 ranges, in order or in none, as 5 and 8 have no
   common factor. */
static uint32_t grant_base(unsigned which, unsigned socket)
{
    switch (which) {
    case ONE_HOLDER:
        return FIRST_BASE + GRANT_PORTS * socket;
    case FEW_LINES:
    case MIXED_LINES:
        return alike_base(4 * socket + 3) + 2 * GRANT_PORTS * socket;
    case NO_ORDER:
        return base_of(CS_RANGES - CS_SOCKETS + (5 * socket + 3) % CS_SOCKETS) + GRANT_PORTS;
    default:
        return base_of(CS_RANGES - CS_SOCKETS + socket) + GRANT_PORTS;
    }
}

/* How many lines the card of a grant decodes: 11; 11 to 16; or all. */
static uint8_t grant_lines(unsigned which, unsigned socket)
{
    if (which == FEW_LINES)
        return REPEATED_LINES;
    if (which == MIXED_LINES)
        return (uint8_t)(REPEATED_LINES + socket % (CS_LINES - REPEATED_LINES + 1));
    return CS_LINES;
}

/* The handles of 16 clients: 1, 2, 3 and on; or 2, 5, 8 and on, so that none is one
   more than its client's place. */
static uint16_t handle_of(unsigned which, unsigned place)
{
    return (uint16_t)(which == SPARSE ? 3 * place + 2 : place + 1);
}

/* All sockets have a card, two grants and a mask of the last client; but for the
   last socket, if there is to be a place. */
static void give_to_last(struct model *m, bool full, unsigned which, uint8_t manner)
{
    struct client *last = &m->client[m->clients - 1];
    for (unsigned s = 0; s < CS_SOCKETS; s++) {
        bool hold = full || s < LAST_SOCKET;
        uint8_t level = (uint8_t)(manner == EXCLUSIVE ? LAST_LEVEL - LAST_SOCKET + s : LAST_LEVEL);
        m->card[s] = true;
        m->irq[s] = (struct irq_grant){hold, last->handle, level, manner};
        m->io[s] = (struct io_grant){hold,        last->handle, (uint16_t)grant_base(which, s),
                                     GRANT_PORTS, CS_LINES,     false};
        last->masks[s] = (struct mask){hold, 0};
    }
}

/* One client, which shares the last level with itself and has 64 of 255 ports;
   and a full table whose last client has the last eight levels, and ports of the
   last eight ranges. All levels are managed, the odd ones reserved. */
static void make_held(bool full)
{
    static struct model m;
    only_clients(&m, 1);
    m.issued = full ? CS_HANDLES : 1;
    for (unsigned level = 0; level < CS_LEVELS; level++)
        m.level[level] = (struct level){true, level % 2 == 1};
    m.range[m.ranges++] = (struct range){FIRST_BASE, 255, false};
    give_to_last(&m, full, ONE_HOLDER, DYNAMIC_LEVEL);
    model_image(&m, images[ONE_HOLDER][full]);
    full_set(&m, CS_CLIENTS);
    give_to_last(&m, full, ALL_HELD, EXCLUSIVE);
    model_image(&m, images[ALL_HELD][full]);
}

/* All ports are managed. Five sockets hold the last ports, 255 each; two cards of
   one line an odd and an even port, so that every port meets one of those two. */
static void make_barred(bool full)
{
    static struct model m;
    only_clients(&m, CS_CLIENTS);
    m.range[m.ranges++] = (struct range){0, CS_PORTS, false};
    for (unsigned s = 0; s < (full ? CS_SOCKETS : LAST_SOCKET); s++) {
        uint16_t base = (uint16_t)(CS_PORTS - 256 * (s + 1));
        m.card[s] = true;
        m.io[s] = (struct io_grant){true, 1, base, 255, CS_LINES, true};
        if (s == 5 || s == 6)
            m.io[s] = (struct io_grant){true, 1, (uint16_t)s, 1, 1, true};
    }
    m.card[LAST_SOCKET] = true;
    model_image(&m, images[ALL_BARRED][full]);
}

/* A search by few lines is long: most candidates are repeated at a port in a gap. */
static void make_gapped(bool full)
{
    static struct model m;
    gapped_set(&m);
    model_image(&m, images[GAPPED][full]);
}

/* Looking at the table is long: 32 ranges that lie alike, each 800 above the one
   before, and grants by cards of 11 lines, 250 ports each, in the last, which are
   repeated in every range. The last range lacks the last port of the others. */
static void make_repeated(bool full)
{
    static struct model m;
    only_clients(&m, CS_CLIENTS);
    for (uint32_t i = 0; i < CS_RANGES; i++)
        m.range[m.ranges++] = (struct range){4 + 0x800 * i, i == 31 ? 0x7F7 : 0x7F8, false};
    for (unsigned s = 0; s < CS_SOCKETS; s++) {
        bool hold = full || s < LAST_SOCKET;
        uint16_t base = (uint16_t)(0xF804 + 250 * s);
        m.card[s] = true;
        m.io[s] = (struct io_grant){hold, CS_CLIENTS, base, 250, REPEATED_LINES, false};
    }
    model_image(&m, images[REPEATED][full]);
}

/* Full tables on which looking at the grants or for their clients is longer: the last
   eight clients hold the sockets' grants, each its own ports; the last socket has none
   if there is to be a place. */
static void make_full_kind(bool full, unsigned which)
{
    static struct model m;
    full_set(&m, CS_CLIENTS);
    for (unsigned i = 0; i < CS_CLIENTS; i++)
        m.client[i].handle = handle_of(which, i);
    m.issued = handle_of(which, CS_CLIENTS - 1);
    for (unsigned i = 0; i < CS_RANGES && (which == FEW_LINES || which == MIXED_LINES); i++)
        m.range[i] = (struct range){alike_base(i), 255, i % 2 == 1};
    for (unsigned s = 0; s < CS_SOCKETS; s++) {
        bool hold = full || s < LAST_SOCKET;
        uint16_t client = m.client[CS_CLIENTS - CS_SOCKETS + s].handle;
        m.io[s] = (struct io_grant){
            hold, client, (uint16_t)grant_base(which, s), GRANT_PORTS, grant_lines(which, s),
            false};
        m.irq[s].live = hold;
        m.irq[s].client = client;
    }
    m.client[CS_CLIENTS - 1].masks[LAST_SOCKET].held = full;
    model_image(&m, images[which][full]);
}

static void make_tables(void)
{
    static struct model m;
    for (unsigned full = 0; full < 2; full++) {
        unsigned clients = full ? CS_CLIENTS : CS_CLIENTS - 1;
        model_fresh(&m, CS_SOCKETS);
        m.issued = full ? CS_HANDLES : 0;
        model_image(&m, images[FRESH][full]);
        m.level[0].managed = m.level[1].managed = true;
        m.range[m.ranges++] = (struct range){FIRST_BASE, RANGE_PORTS, false};
        model_image(&m, images[ONE_RANGE][full]);
        only_clients(&m, clients);
        model_image(&m, images[SIXTEEN_CLIENTS][full]);
        full_set(&m, clients);
        model_image(&m, images[FULL][full]);
        make_held(full);
        make_barred(full);
        make_gapped(full);
        make_repeated(full);
        for (unsigned which = FEW_LINES; which <= SPARSE; which++)
            make_full_kind(full, which);
    }
}

static void lay_out(unsigned which, const struct call *call)
{
    memcpy(table, images[which][call->full], sizeof table);
    memcpy(other, table, sizeof other);
    ranges = which == FULL ? CS_RANGES : 1;
    levels = which == FULL ? CS_LEVELS : 2;
    last_place = (LAST_OF_16 >> which & 1) != 0 ? CS_CLIENTS - 1 : 0;
    last_client = handle_of(which, last_place);
    ports = (struct ports_of){(uint16_t)grant_base(which, LAST_SOCKET),
                              (uint16_t)grant_base(which, LAST_SOCKET - 1), 0xFF00,
                              grant_lines(which, LAST_SOCKET)};
    fits = which == ALL_HELD ? (struct wish){CS_IRQ_EXCLUSIVE, 0xFF00}
                             : (struct wish){CS_IRQ_DYNAMIC, 0x8000};
    never = which == ALL_HELD ? (struct wish){CS_IRQ_DYNAMIC, 0x7F00}
                              : (struct wish){CS_IRQ_DYNAMIC | CS_IRQ_FIRST_SHARED, 0x8000};
}

/* ---- Time ---- */

static double now(void)
{
    struct timespec t;
    clock_gettime(CLOCK_MONOTONIC, &t);
    return (double)t.tv_sec * 1e9 + (double)t.tv_nsec;
}

/* Nanoseconds for one call. */
static double time_batch(unsigned which, const struct call *call)
{
    lay_out(which, call);
    call->once();
    double start = now();
    for (unsigned i = 0; i < BATCH; i++)
        call->once();
    double taken = now() - start;
    if (answered != call->answer) {
        fprintf(stderr, "bench: %s, %s: answered %02lX\n", table_names[which], call->name,
                (unsigned long)answered);
        exit(2);
    }
    return taken / BATCH / (call->pair ? 2 : 1);
}

static double samples[TABLES][CALLS][REPETITIONS];

static int by_size(const void *a, const void *b)
{
    double x = *(const double *)a, y = *(const double *)b;
    return (x > y) - (x < y);
}

static double median(unsigned which, unsigned call)
{
    double *values = samples[which][call];
    qsort(values, REPETITIONS, sizeof *values, by_size);
    return values[REPETITIONS / 2];
}

static void take_samples(void)
{
    for (unsigned r = 0; r < REPETITIONS; r++)
        for (unsigned which = 0; which < TABLES; which++)
            for (unsigned i = 0; i < CALLS; i++)
                if (timed_on(which, i))
                    samples[which][i][r] = time_batch(which, &calls[i]);
}

static void print_bar(const struct call *call, double taken, const double *medians)
{
    if (call->bar > 0)
        printf("  at most %.1f x %s: %s", call->bar, calls[call->against].yardstick,
               taken / medians[call->against] <= call->bar ? "met" : "NOT MET");
}

static void print_row(unsigned which, unsigned call, const double *medians)
{
    double taken = medians[call] - (calls[call].after_fresh ? medians[FRESH_CALL] : 0);
    printf("%-10s  %-48s %8.2f x memcmp %6.2f x refused %9.0f ns", table_names[which],
           calls[call].name, taken / medians[MEMCMP], taken / medians[REFUSED], taken);
    print_bar(&calls[call], taken, medians);
    printf("\n");
}

static void print_times(void)
{
    for (unsigned which = 0; which < TABLES; which++) {
        double medians[CALLS] = {0};
        for (unsigned i = 0; i < CALLS; i++)
            medians[i] = median(which, i);
        for (unsigned i = 0; i < CALLS; i++)
            if (timed_on(which, i))
                print_row(which, i, medians);
    }
}

int main(void)
{
    make_tables();
    make_lists();
    take_samples();
    print_times();
    return 0;
}
