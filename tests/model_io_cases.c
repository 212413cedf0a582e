/*
 * model_io_cases.c: the model's own cases for ports, RequestIO and ReleaseIO
 */
#include <string.h>

#include "model_cases.h"
#include "sets.h"

/* 5.52's bits, and the lengths that 5.52 and 5.44 ask for. */
static void io_numbers(void)
{
    static const uint32_t numbers[][2] = {
        {CS_REQUEST_IO_LENGTH, 11},    {CS_RELEASE_IO_LENGTH, 11},   {CS_IO_SHARED, 1u << 0},
        {CS_IO_FIRST_SHARED, 1u << 1}, {CS_IO_FORCE_ALIAS, 1u << 2}, {CS_IO_16_BIT, 1u << 3},
    };
    for (size_t i = 0; i < sizeof numbers / sizeof *numbers; i++)
        expect("a number of an I/O service", numbers[i][0] == numbers[i][1]);
}

/* ---- Short ways to ask ---- */

/* BasePort1 is told. */
uint32_t request_io_base(struct model *m, uint8_t socket, uint16_t base, uint8_t ports,
                         uint8_t attributes, uint8_t lines, uint16_t *given)
{
    uint8_t packet[11] = {socket, 0,          (uint8_t)base, (uint8_t)(base >> 8),
                          ports,  attributes, 0xAA,          0xAA,
                          0,      0xFF,       lines};
    uint32_t answer = model_call(m, CS_REQUEST_IO, 1, packet, sizeof packet);
    *given = (uint16_t)(packet[2] | packet[3] << 8);
    return answer;
}

uint32_t request_io_code(struct model *m, uint8_t socket, uint16_t base, uint8_t ports,
                         uint8_t attributes, uint8_t lines)
{
    uint16_t given;
    return request_io_base(m, socket, base, ports, attributes, lines, &given);
}

static uint32_t release_io(struct model *m, uint8_t socket, uint16_t handle, uint16_t base,
                           uint8_t ports, uint8_t ports_2)
{
    uint8_t packet[11] = {
        socket, 0, (uint8_t)base, (uint8_t)(base >> 8), ports, 0xFF, 0xAA, 0xAA, ports_2, 0xFF, 0};
    return model_call(m, CS_RELEASE_IO, handle, packet, sizeof packet);
}

uint32_t release_io_code(struct model *m, uint8_t socket, uint16_t base, uint8_t ports)
{
    return release_io(m, socket, 1, base, ports, 0);
}

/* ---- N1 to N4, N8 and N9 ---- */

static struct io_grant ports(uint16_t base, uint8_t count, uint8_t lines)
{
    return (struct io_grant){true, 1, base, count, lines, false};
}

static bool two_meet(struct io_grant a, struct io_grant b)
{
    return meet(&a, &b) && meet(&b, &a);
}

static bool neither_meets(struct io_grant a, struct io_grant b)
{
    return !meet(&a, &b) && !meet(&b, &a);
}

static void n1_to_n4(void)
{
    expect("N1", two_meet(ports(0x2F8, 8, 10), ports(0x6F8, 8, 16)));
    expect("N2", neither_meets(ports(0x2F8, 8, 16), ports(0x6F8, 8, 16)));
    expect("N3", neither_meets(ports(0x3E8, 8, 16), ports(0x3F0, 8, 16)));
    expect("N4", two_meet(ports(0x100, 1, 8), ports(0x200, 1, 16)));
}

static void n8_n9(void)
{
    struct model m;
    uint16_t given;
    ready(&m);
    add_io(&m, 0x300, 16);
    expect_code("N8 held", request_io_base(&m, 0, 0x300, 8, 0, 16, &given), CS_SUCCESS);
    expect_code("N8", request_io_base(&m, 1, 0, 8, 0, 16, &given), CS_SUCCESS);
    expect("N8 gives 308", given == 0x308);
    ready(&m);
    add_io(&m, 0x302, 11);
    expect_code("N9", request_io_base(&m, 0, 0, 5, 0, 16, &given), CS_SUCCESS);
    expect("N9 gives 308", given == 0x308);
}

/* ---- Meeting ---- */

/* The rule by its letter: every port of one against every port of the other. */
static bool meet_by_letter(const struct io_grant *a, const struct io_grant *b)
{
    unsigned smaller = a->lines < b->lines ? a->lines : b->lines;
    for (unsigned i = 0; i < a->count; i++)
        for (unsigned j = 0; j < b->count; j++)
            if ((a->base + i) % (1u << smaller) == (b->base + j) % (1u << smaller))
                return true;
    return false;
}

static struct io_grant some_ports(struct chance *c, uint32_t base)
{
    uint8_t count = (uint8_t)(1 + pick(c, 20)), lines = (uint8_t)(1 + pick(c, CS_LINES));
    return ports((uint16_t)base, count, lines);
}

static void meeting(void)
{
    struct chance c = {1};
    unsigned met = 0, tried = 3000;
    for (unsigned i = 0; i < tried; i++) {
        struct io_grant a = some_ports(&c, pick(&c, CS_PORTS));
        struct io_grant b = some_ports(&c, a.base + (1u << a.lines) + pick(&c, 64) - 32);
        expect("meeting by its letter", meet(&a, &b) == meet_by_letter(&a, &b));
        met += meet_by_letter(&a, &b);
    }
    expect("some met, some didn't", met >= tried / 10 && met <= tried - tried / 10);
}

/* ---- RequestIO ---- */

static void request_io_codes(void)
{
    static const struct {
        const char *what;
        uint16_t base;
        uint8_t ports, attributes, lines;
        uint32_t code;
    } cases[] = {
        {"bit 4", 0x300, 8, 0x10, 16, CS_BAD_ATTRIBUTE},
        {"bits 2 and 3", 0x300, 8, 0x0C, 16, CS_SUCCESS},
        {"First Shared without Shared", 0x300, 8, 2, 16, CS_BAD_ATTRIBUTE},
        {"First Shared with Shared", 0x300, 8, 3, 16, CS_SUCCESS},
        {"lines 0", 0x300, 1, 0, 0, CS_BAD_ATTRIBUTE},
        {"lines 1", 0x300, 2, 0, 1, CS_SUCCESS},
        {"lines 17", 0x300, 1, 0, 17, CS_BAD_ATTRIBUTE},
        {"no port", 0x300, 0, 0, 16, CS_BAD_SIZE},
        {"two to the lines", 0x300, 8, 0, 3, CS_SUCCESS},
        {"over two to the lines", 0x300, 9, 0, 3, CS_BAD_SIZE},
        {"unmanaged at the end", 0x309, 8, 0, 16, CS_BAD_BASE},
        {"unmanaged at the start", 0x2FF, 8, 0, 16, CS_BAD_BASE},
        {"the last of the range", 0x308, 8, 0, 16, CS_SUCCESS},
        {"up to FFFF", 0xFFF8, 8, 0, 16, CS_SUCCESS},
        {"past FFFF", 0xFFF9, 8, 0, 16, CS_BAD_BASE},
        {"over two ranges", 0x300, 24, 0, 16, CS_SUCCESS},
        {"base 0, no candidate", 0, 33, 0, 16, CS_IN_USE},
    };
    for (size_t i = 0; i < sizeof cases / sizeof *cases; i++) {
        struct model m;
        ready(&m);
        add_io(&m, 0x300, 16);
        add_io(&m, 0xFFF8, 8);
        if (cases[i].ports == 24)
            add_io(&m, 0x310, 8);
        if (cases[i].lines < 16) { /* all ports: the card answers at many */
            long_io(&m, CS_ACTION_ADD, 0, 0x300);
            long_io(&m, CS_ACTION_ADD, 0x310, 0xFCE8);
        }
        expect_code(cases[i].what,
                    request_io_code(&m, 0, cases[i].base, cases[i].ports, cases[i].attributes,
                                    cases[i].lines),
                    cases[i].code);
    }
}

/* Each check with all that come after it. */
static void io_order(void)
{
    struct model m;
    uint8_t packet[12] = {8, 1, 0xFF, 0xFF, 0, 0xF2, 0, 0, 1, 0, 0};
    ready(&m);
    add_io(&m, 0x300, 16);
    request_io_code(&m, 1, 0x300, 8, 0, 16);
    model_card_out(&m, 1);
    expect_code("12 bytes", model_call(&m, CS_REQUEST_IO, 3, packet, 12), CS_BAD_ARG_LENGTH);
    expect_code("10 bytes", model_call(&m, CS_REQUEST_IO, 3, packet, 10), CS_BAD_ARG_LENGTH);
    expect_code("client 3", model_call(&m, CS_REQUEST_IO, 3, packet, 11), CS_BAD_HANDLE);
    expect_code("socket 8", model_call(&m, CS_REQUEST_IO, 1, packet, 11), CS_BAD_SOCKET);
    packet[0] = 1;
    expect_code("function 1", model_call(&m, CS_REQUEST_IO, 1, packet, 11), CS_BAD_SOCKET);
    packet[1] = 0;
    expect_code("no card", model_call(&m, CS_REQUEST_IO, 1, packet, 11), CS_NO_CARD);
    model_card_in(&m, 1);
    expect_code("bit 7", model_call(&m, CS_REQUEST_IO, 1, packet, 11), CS_BAD_ATTRIBUTE);
    packet[5] = 2;
    expect_code("First Shared", model_call(&m, CS_REQUEST_IO, 1, packet, 11), CS_BAD_ATTRIBUTE);
    packet[5] = 0;
    expect_code("lines 0", model_call(&m, CS_REQUEST_IO, 1, packet, 11), CS_BAD_ATTRIBUTE);
    packet[10] = 16;
    expect_code("no port", model_call(&m, CS_REQUEST_IO, 1, packet, 11), CS_BAD_SIZE);
    packet[4] = 2;
    expect_code("NumPorts2", model_call(&m, CS_REQUEST_IO, 1, packet, 11), CS_BAD_SIZE);
    packet[8] = 0;
    expect_code("a grant", model_call(&m, CS_REQUEST_IO, 1, packet, 11), CS_IN_USE);
    packet[0] = 0;
    expect_code("past FFFF", model_call(&m, CS_REQUEST_IO, 1, packet, 11), CS_BAD_BASE);
}

/* "BasePort2 and Attributes2 ignored"; what is written is BasePort1 alone. */
static void io_packets(void)
{
    struct model m;
    uint8_t named[11] = {7, 0, 4, 3, 4, 0x0D, 0xFF, 0xFF, 0, 0xFF, 12};
    uint8_t chosen[11] = {6, 0, 0, 0, 3, 0x0C, 1, 2, 0, 3, 16};
    ready(&m);
    for (unsigned i = 0; i < 16; i++) /* where a card of 12 lines answers */
        add_io(&m, (uint16_t)(0x302 + 0x1000 * i), 16);
    expect("a named base", model_call(&m, CS_REQUEST_IO, 2, named, 11) == 2u << 16);
    expect("its packet", memcmp(named, "\x07\x00\x04\x03\x04\x0D\xFF\xFF\x00\xFF\x0C", 11) == 0);
    expect("its grant", m.io[7].live && m.io[7].client == 2 && m.io[7].base == 0x304 &&
                            m.io[7].count == 4 && m.io[7].lines == 12 && m.io[7].shared);
    expect("a chosen base", model_call(&m, CS_REQUEST_IO, 1, chosen, 11) == 1u << 16);
    expect("its packet", memcmp(chosen, "\x06\x00\x08\x03\x03\x0C\x01\x02\x00\x03\x10", 11) == 0);
    expect("its grant", m.io[6].live && m.io[6].client == 1 && m.io[6].base == 0x308 &&
                            m.io[6].count == 3 && m.io[6].lines == 16 && !m.io[6].shared);
}

static void io_sharing(void)
{
    struct model m;
    uint16_t given;
    ready(&m);
    m.range[m.ranges++] = (struct range){0, 0x2F8, true};
    m.range[m.ranges++] = (struct range){0x2F8, 16, false};
    m.range[m.ranges++] = (struct range){0x308, 0xFCF8, true};
    request_io_base(&m, 0, 0x6F8, 8, 1, 10, &given);
    expect_code("an alias, not shared", request_io_code(&m, 1, 0x2F8, 8, 0, 16), CS_IN_USE);
    expect_code("an alias, First Shared", request_io_code(&m, 1, 0x2F8, 8, 3, 16), CS_IN_USE);
    expect_code("an alias, shared", request_io_code(&m, 1, 0x2F8, 8, 1, 16), CS_SUCCESS);
    expect_code("a second on the socket", request_io_code(&m, 1, 0x300, 8, 1, 16), CS_IN_USE);
    request_io_base(&m, 2, 0, 8, 1, 16, &given);
    expect("base 0 meets no live grant, also if shared", given == 0x300);
}

/* "It meets a live grant, and First Shared is set or the two don't both share". */
static void io_sharing_table(void)
{
    static const uint8_t asked[] = {0, 1, 3};
    static const uint32_t codes[2][3] = {{CS_IN_USE, CS_IN_USE, CS_IN_USE},
                                         {CS_IN_USE, CS_SUCCESS, CS_IN_USE}};
    for (unsigned held = 0; held < 2; held++)
        for (unsigned a = 0; a < 3; a++) {
            struct model m;
            ready(&m);
            add_io(&m, 0x300, 16);
            request_io_code(&m, 5, 0x304, 4, (uint8_t)held, 16);
            expect_code("ports that meet", request_io_code(&m, 2, 0x307, 4, asked[a], 16),
                        codes[held][a]);
            expect_code("ports that don't", request_io_code(&m, 3, 0x30C, 4, asked[a], 16),
                        CS_SUCCESS);
        }
}

static void io_choice(void)
{
    struct model m;
    uint16_t given;
    ready(&m);
    short_io(&m, CS_ACTION_ADD, 0x200, 16, CS_RESERVE);
    short_io(&m, CS_ACTION_ADD, 0x300, 4, 0);
    short_io(&m, CS_ACTION_ADD, 0x304, 4, CS_RESERVE);
    request_io_base(&m, 0, 0, 8, 0, 16, &given);
    expect("half reserved is not wholly unreserved", given == 0x200);
    request_io_base(&m, 1, 0, 4, 0, 16, &given);
    expect("unreserved first", given == 0x300);
    request_io_base(&m, 2, 0, 4, 0, 16, &given);
    expect("then the lowest reserved", given == 0x208);
    ready(&m);
    long_io(&m, CS_ACTION_ADD, 0, CS_PORTS);
    request_io_base(&m, 0, 0, 255, 0, 16, &given);
    expect("a positive multiple", given == 256);
}

/* ---- The choice by its letter ---- */

/* The ports below WORLD are managed by chance; those from there on all are, or none
   is. What is asked for has fewer than ROOM. */
enum { WORLD = 64, ROOM = 16 };

/* For every port whether it is managed, and whether in an unreserved range; and for
   every rest modulo two to the lines whether a port that leaves it isn't managed. */
struct port_map {
    bool managed[CS_PORTS + ROOM], unreserved[CS_PORTS + ROOM], lacking[CS_PORTS];
};

static void map_of(const struct model *m, unsigned lines, struct port_map *map)
{
    memset(map, 0, sizeof *map);
    for (unsigned i = 0; i < m->ranges; i++)
        for (uint32_t p = 0; p < m->range[i].count; p++) {
            map->managed[m->range[i].base + p] = true;
            map->unreserved[m->range[i].base + p] = !m->range[i].reserved;
        }
    for (uint32_t p = 0; p < CS_PORTS; p++)
        if (!map->managed[p])
            map->lacking[p % (1u << lines)] = true;
}

static bool smallest_power(uint32_t power, uint32_t count)
{
    return (power & (power - 1)) == 0 && power >= count && power / 2 < count;
}

/* "the positive multiples of the smallest power of two not below the count, all
   ports managed, .. meeting no live grant", with every port in what is marked. K2:
   "each port that equals a granted one modulo two to the lines must be managed
   too". */
static bool is_candidate(const struct model *m, const struct port_map *map, const bool *marked,
                         const struct io_grant *wish)
{
    uint32_t power = 1;
    while (!smallest_power(power, wish->count))
        power++;
    if (wish->base == 0 || wish->base % power != 0)
        return false;
    for (unsigned i = 0; i < wish->count; i++)
        if (!marked[wish->base + i] || map->lacking[(wish->base + i) % (1u << wish->lines)])
            return false;
    for (unsigned s = 0; s < CS_SOCKETS; s++)
        if (m->io[s].live && meet_by_letter(&m->io[s], wish))
            return false;
    return true;
}

/* 0 if there is none. */
static uint16_t lowest_candidate(const struct model *m, const struct port_map *map,
                                 const bool *marked, struct io_grant wish)
{
    for (uint32_t base = 0; base < CS_PORTS; base++) {
        wish.base = (uint16_t)base;
        if (is_candidate(m, map, marked, &wish))
            return wish.base;
    }
    return 0;
}

/* Up to four ranges, the ports from WORLD on, and three grants if the requests are
   granted. */
static void some_world(struct chance *c, struct model *m)
{
    ready(m);
    for (unsigned i = 0; i < 4; i++) {
        uint32_t base = pick(c, WORLD), count = 1 + pick(c, 24);
        uint8_t attributes = one_in(c, 2) ? CS_RESERVE : 0;
        if (base + count <= WORLD)
            short_io(m, CS_ACTION_ADD, (uint16_t)base, (uint8_t)count, attributes);
    }
    if (one_in(c, 2))
        m->range[m->ranges++] = (struct range){WORLD, CS_PORTS - WORLD, true};
    for (uint8_t s = 1; s <= 3; s++) {
        uint16_t base = (uint16_t)(1 + pick(c, WORLD - 1));
        uint8_t count = (uint8_t)(1 + pick(c, 4)), lines = (uint8_t)(4 + pick(c, 4));
        uint8_t attributes = (uint8_t)pick(c, 2);
        request_io_code(m, s, base, count, attributes, one_in(c, 3) ? 16 : lines);
    }
}

/* "Candidates wholly in unreserved ranges come first, then the lowest; none:
   IN_USE." K2: "The order by reserve looks at the range's own ports alone." */
static void choice_by_letter(void)
{
    static struct port_map map;
    struct chance c = {2};
    unsigned passed_over = 0, reserved = 0, few_lines = 0, none = 0, tried = 1000;
    for (unsigned i = 0; i < tried; i++) {
        struct model m;
        uint16_t given;
        some_world(&c, &m);
        uint8_t count = (uint8_t)(1 + pick(&c, 9)), lines = one_in(&c, 2) ? 16 : 5;
        map_of(&m, lines, &map);
        uint16_t unreserved = lowest_candidate(&m, &map, map.unreserved, ports(0, count, lines));
        uint16_t any = lowest_candidate(&m, &map, map.managed, ports(0, count, lines));
        uint16_t by_letter = unreserved != 0 ? unreserved : any;
        expect_code("a choice by its letter",
                    request_io_base(&m, 0, 0, count, (uint8_t)(i % 2), lines, &given),
                    by_letter == 0 ? CS_IN_USE : CS_SUCCESS);
        expect("the base by its letter", given == by_letter);
        passed_over += unreserved > any;
        reserved += unreserved == 0 && any != 0;
        few_lines += lines == 5 && any != 0;
        none += any == 0;
    }
    expect("a lower reserved one was passed over", passed_over >= tried / 20);
    expect("reserved ones were taken", reserved >= tried / 20);
    expect("some were by few lines", few_lines >= tried / 20);
    expect("some found none", none >= tried / 20);
}

/* ---- ReleaseIO ---- */

static void io_release(void)
{
    struct model m;
    ready(&m);
    add_io(&m, 0x300, 16);
    request_io_code(&m, 0, 0x300, 8, 0, 16);
    model_card_out(&m, 0);
    expect_code("another client", release_io(&m, 0, 2, 0x300, 8, 0), CS_BAD_BASE);
    expect_code("another base", release_io(&m, 0, 1, 0x308, 8, 0), CS_BAD_BASE);
    expect_code("another count", release_io(&m, 0, 1, 0x300, 7, 0), CS_BAD_BASE);
    expect_code("another socket", release_io(&m, 1, 1, 0x300, 8, 0), CS_BAD_BASE);
    expect_code("NumPorts2 before that", release_io(&m, 1, 1, 0x300, 8, 1), CS_BAD_SIZE);
    expect_code("remove a held range", short_io(&m, CS_ACTION_REMOVE, 0x300, 16, 0), CS_IN_USE);
    expect_code("remove a part", short_io(&m, CS_ACTION_REMOVE, 0x308, 8, 0), CS_BAD_BASE);
    expect_code("deregister a holder", deregister(&m, 1), CS_IN_USE);
    expect_code("released without a card", release_io(&m, 0, 1, 0x300, 8, 0), CS_SUCCESS);
    expect_code("released again", release_io(&m, 0, 1, 0x300, 8, 0), CS_BAD_BASE);
    expect_code("remove it then", short_io(&m, CS_ACTION_REMOVE, 0x300, 16, 0), CS_SUCCESS);
}

/* NumPorts2, and a socket's function. */
static void fields_that_must_be_zero(void)
{
    struct model m;
    uint8_t two_ranges[11] = {0, 0, 0, 3, 8, 0, 0, 0, 1, 0, 16};
    uint8_t function[11] = {0, 1, 0, 3, 8, 0, 0, 0, 0, 0, 16};
    ready(&m);
    add_io(&m, 0x300, 16);
    expect_code("NumPorts2 not 0", model_call(&m, CS_REQUEST_IO, 1, two_ranges, 11), CS_BAD_SIZE);
    expect_code("function not 0", model_call(&m, CS_REQUEST_IO, 1, function, 11), CS_BAD_SOCKET);
    expect_code("nor at a release", model_call(&m, CS_RELEASE_IO, 1, function, 11), CS_BAD_SOCKET);
}

void io_cases(void)
{
    io_numbers();
    n1_to_n4();
    n8_n9();
    meeting();
    request_io_codes();
    io_order();
    io_packets();
    io_sharing();
    io_sharing_table();
    io_choice();
    choice_by_letter();
    io_release();
    fields_that_must_be_zero();
}
