#include "check.h"
#include "compare.h"
#include "sockets.h"

/* RequestIO with base 0: "candidates are the positive multiples of the smallest
   power of two not below the count, all ports managed, none past FFFF, meeting no
   live grant. Candidates wholly in unreserved ranges come first, then the lowest;
   none: IN_USE." */

/* Client 6 asks at socket 5; 0 for the base is IN_USE. */
static void choice_is(uint8_t count, uint8_t attributes, uint8_t lines, uint16_t base)
{
    if (base != 0)
        io_chosen(6, 5, count, attributes, lines, base);
    else
        io_refused(6, 5, 0, count, attributes, lines, CS_IN_USE);
}

/* The same once more: what was given back is chosen again. */
static void choice_stays(uint8_t count, uint8_t attributes, uint8_t lines, uint16_t base)
{
    choice_is(count, attributes, lines, base);
    if (base == 0)
        return;
    io_released(6, 5, base, count);
    choice_is(count, attributes, lines, base);
}

/* ---- Multiples ---- */

/* Counts, and for each the smallest power of two not below it. */
static const struct {
    uint8_t count;
    uint16_t power;
} powers[] = {{1, 1},   {2, 2},    {3, 4},     {4, 4},     {5, 8},     {7, 8},
              {8, 8},   {9, 16},   {16, 16},   {17, 32},   {32, 32},   {33, 64},
              {64, 64}, {65, 128}, {128, 128}, {129, 256}, {254, 256}, {255, 256}};
enum { POWERS = sizeof powers / sizeof *powers };

/* Only so many ports from here on are managed. */
static void only(uint32_t from, uint32_t ports, uint8_t count, uint32_t base)
{
    lend_ports(from, ports);
    describe("%lX, %lu ports managed", (unsigned long)from, (unsigned long)ports);
    choice_is(count, ALONE, 16, (uint16_t)base);
}

/* Around one multiple and the next: as many ports as are asked for, one fewer,
   and a range that begins one port early or late. */
static void around(uint8_t count, uint32_t power, uint32_t multiple)
{
    only(multiple, count, count, multiple);
    only(multiple + 1, power - 1 + count, count, multiple + power);
    if (count == 1)
        return; /* every port is a multiple of 1 */
    only(multiple, count - 1u, count, 0);
    only(multiple + 1, power - 2 + count, count, 0);
    only(multiple - 1, count + 1u, count, multiple);
    only(multiple - 1, power, count, count == power ? 0 : multiple);
}

/* "positive": port 0 may be managed, and base 0 is no candidate. */
void io_multiples(void)
{
    for (unsigned i = 0; i < POWERS; i++) {
        uint8_t count = powers[i].count;
        uint32_t power = powers[i].power;
        only(0, 65536, count, power);
        only(0, power + count, count, power);
        only(0, power + count - 1, count, 0);
        around(count, power, 2 * power);
        around(count, power, 3 * power);
        around(count, power, 0x8000);
        around(count, power, 0xFC00);
        only(65536 - power, power, count, 65536 - power);
        only(65536 - power, count, count, 65536 - power);
        if (power > 1)
            only(65536 - power + 1, power - 1, count, 0);
    }
    only(0, 1, 1, 0);
    only(0, 2, 1, 1);
    only(1, 1, 1, 1);
    only(0xFFFF, 1, 1, 0xFFFF);
    only(0xFFFF, 1, 2, 0);
    only(0xFF01, 255, 255, 0);
    only(0xFF00, 255, 255, 0xFF00);
}

/* ---- Cases by hand ----

   Ranges are managed and grants live as listed, from socket 0 on, and one request
   is made. */
/* clang-format off */
static const struct {
    const char *what;
    struct range ranges[7];
    struct io_grant grants[4];
    uint8_t count, attributes, lines;
    uint16_t base;
} cases[] = {
    {"nothing is managed", {{0}}, {{0}}, 1, ALONE, 16, 0},

    /* Reserved and unreserved. */
    {"unreserved before a lower reserved one",
     {{0x200, 8, true}, {0x300, 8, false}}, {{0}}, 8, ALONE, 16, 0x300},
    {"the lowest of two unreserved",
     {{0x400, 8, false}, {0x300, 8, false}}, {{0}}, 8, ALONE, 16, 0x300},
    {"the lowest of two reserved",
     {{0x400, 8, true}, {0x300, 8, true}}, {{0}}, 8, ALONE, 16, 0x300},
    {"reserved if unreserved ports are too few",
     {{0x200, 8, true}, {0x300, 7, false}}, {{0}}, 8, ALONE, 16, 0x200},
    {"half reserved is as reserved: the lower one",
     {{0x200, 4, false}, {0x204, 4, true}, {0x300, 8, true}}, {{0}}, 8, ALONE, 16, 0x200},
    {"half reserved comes after unreserved",
     {{0x200, 4, false}, {0x204, 4, true}, {0x300, 8, false}}, {{0}}, 8, ALONE, 16, 0x300},
    {"its last port alone is reserved",
     {{0x200, 7, false}, {0x207, 1, true}, {0x300, 8, false}}, {{0}}, 8, ALONE, 16, 0x300},
    {"its first port alone is reserved",
     {{0x200, 1, true}, {0x201, 7, false}, {0x300, 8, false}}, {{0}}, 8, ALONE, 16, 0x300},
    {"a port in the middle is reserved",
     {{0x200, 3, false}, {0x203, 1, true}, {0x204, 4, false}, {0x300, 8, false}}, {{0}},
     8, ALONE, 16, 0x300},
    {"a reserved port behind it makes no difference",
     {{0x200, 5, false}, {0x205, 3, true}, {0x300, 8, false}}, {{0}}, 5, ALONE, 16, 0x200},
    {"two unreserved ranges that adjoin",
     {{0x204, 4, false}, {0x200, 4, false}, {0x100, 8, true}}, {{0}}, 8, ALONE, 16, 0x200},
    {"three ranges that adjoin",
     {{0x203, 2, false}, {0x205, 3, false}, {0x200, 3, false}}, {{0}}, 8, ALONE, 16, 0x200},
    {"a gap of one port",
     {{0x200, 3, false}, {0x204, 4, false}, {0x308, 8, true}}, {{0}}, 8, ALONE, 16, 0x308},
    {"the unreserved one is held, so a reserved one",
     {{0x200, 8, true}, {0x300, 8, false}}, {{true, 1, 0x300, 8, 16, false}}, 8, ALONE, 16, 0x200},
    {"the reserved one is held too",
     {{0x200, 8, true}, {0x300, 8, false}},
     {{true, 1, 0x300, 8, 16, false}, {true, 1, 0x200, 8, 16, false}}, 8, ALONE, 16, 0},

    /* Live grants. */
    {"N8", {{0x300, 16, false}}, {{true, 1, 0x300, 8, 16, false}}, 8, ALONE, 16, 0x308},
    {"N9", {{0x302, 11, false}}, {{0}}, 5, ALONE, 16, 0x308},
    {"one held port bars a candidate",
     {{0x300, 24, false}}, {{true, 9, 0x307, 1, 16, false}}, 8, ALONE, 16, 0x308},
    {"the port after it doesn't",
     {{0x300, 24, false}}, {{true, 9, 0x305, 1, 16, false}}, 5, ALONE, 16, 0x300},
    {"the client's own grant bars it",
     {{0x300, 16, false}}, {{true, 6, 0x300, 8, 16, false}}, 8, ALONE, 16, 0x308},
    {"held ports on both sides",
     {{0x300, 24, false}},
     {{true, 9, 0x300, 8, 16, false}, {true, 8, 0x310, 8, 16, false}}, 8, ALONE, 16, 0x308},
    {"three grants that reach into all candidates",
     {{0x300, 24, false}},
     {{true, 9, 0x317, 1, 16, false}, {true, 8, 0x300, 1, 16, false},
      {true, 9, 0x308, 8, 16, true}},
     8, ALONE, 16, 0},
    {"a smaller count fits between them",
     {{0x300, 24, false}},
     {{true, 9, 0x317, 1, 16, false}, {true, 8, 0x300, 1, 16, false},
      {true, 9, 0x308, 8, 16, true}},
     4, ALONE, 16, 0x304},

    /* Sharing makes no difference. */
    {"a grant that shares bars one that shares",
     {{0x300, 16, false}}, {{true, 1, 0x300, 8, 16, true}}, 8, SHARED, 16, 0x308},
    {"and First Shared",
     {{0x300, 16, false}}, {{true, 1, 0x300, 8, 16, true}}, 8, FIRST_SHARED, 16, 0x308},
    {"and where there is no other",
     {{0x300, 8, false}}, {{true, 1, 0x300, 8, 16, true}}, 8, SHARED, 16, 0},
    {"a reserved one rather than a shared one",
     {{0x300, 8, false}, {0x200, 8, true}}, {{true, 1, 0x300, 8, 16, true}}, 8, SHARED, 16, 0x200},
    {"bits 2 and 3 neither",
     {{0x300, 16, false}}, {{true, 1, 0x300, 8, 16, true}}, 8, SHARED | 12, 16, 0x308},

    /* Decoded lines; where a card of few lines answers, all ports are managed. */
    {"6F8 and AF8 are 2F8 to a card of ten lines",
     {{0x6F8, 8, false}, {0xAF8, 16, false}, {0, 0x6F8, true}, {0x700, 0x3F8, true},
      {0xB08, 0xF4F8, true}},
     {{true, 1, 0x2F8, 8, 10, false}}, 8, ALONE, 16, 0xB00},
    {"and to one of ten lines that asks",
     {{0x2F8, 8, false}, {0x6F8, 8, false}, {0xAF8, 16, false}, {0, 0x2F8, true},
      {0x300, 0x3F8, true}, {0x700, 0x3F8, true}, {0xB08, 0xF4F8, true}},
     {{true, 1, 0x6F8, 8, 16, false}}, 8, ALONE, 10, 0xB00},
    {"the same at sixteen lines",
     {{0x2F8, 8, false}, {0x6F8, 8, false}, {0xAF8, 8, false}},
     {{true, 1, 0x6F8, 8, 16, false}}, 8, ALONE, 16, 0x2F8},
    {"eleven lines tell 2F8 and 6F8 apart",
     {{0x6F8, 8, false}, {0, 0x6F8, true}, {0x700, 0xF900, true}},
     {{true, 1, 0x2F8, 8, 11, false}}, 8, ALONE, 16, 0x6F8},
    {"two grants of other lines, each bars one",
     {{0x4100, 1, false}, {0x4210, 1, false}, {0x4321, 1, false}, {0, 0x4100, true},
      {0x4101, 0x10F, true}, {0x4211, 0x110, true}, {0x4322, 0xBCDE, true}},
     {{true, 1, 0x100, 1, 9, false}, {true, 2, 0x10, 1, 5, false}}, 1, ALONE, 16, 0x4321},
    {"as many ports as the lines tell apart meet every grant",
     {{0, 65536, false}}, {{true, 1, 0x33F, 1, 16, false}}, 8, ALONE, 3, 0},
    {"and are chosen where there is none", {{0, 65536, false}}, {{0}}, 8, ALONE, 3, 8},
    {"one fewer leaves one",
     {{0, 65536, false}}, {{true, 1, 0x33F, 1, 16, false}}, 7, ALONE, 3, 8},
    {"a grant of all ports that its lines tell apart bars all",
     {{0, 65536, false}}, {{true, 1, 0x304, 4, 2, true}}, 1, SHARED, 16, 0},
    {"255 ports at eight lines leave one of 256",
     {{0, 65536, false}}, {{true, 1, 0x100, 255, 8, false}}, 1, ALONE, 16, 0xFF},
    {"if that one is held, the next like it",
     {{0, 65536, false}},
     {{true, 1, 0x100, 255, 8, false}, {true, 1, 0xFF, 1, 16, false}}, 1, ALONE, 16, 0x1FF},
};
/* clang-format on */

static void lend_case(size_t i)
{
    struct model m;
    ready_set(&m, 0, 0);
    for (unsigned r = 0; r < 7 && cases[i].ranges[r].count > 0; r++)
        manage(&m, cases[i].ranges[r].base, cases[i].ranges[r].count, cases[i].ranges[r].reserved);
    for (unsigned s = 0; s < 4; s++)
        m.io[s] = cases[i].grants[s];
    lend_set(&m);
    describe("%s", cases[i].what);
}

void io_choice(void)
{
    for (size_t i = 0; i < sizeof cases / sizeof *cases; i++) {
        lend_case(i);
        choice_stays(cases[i].count, cases[i].attributes, cases[i].lines, cases[i].base);
    }
}

/* 32 ranges of eight ports, 2F8, AF8 and on, at which a card of eleven lines answers;
   a card of so many lines holds the first. */
static void alike(uint8_t held, uint8_t lines, uint16_t base)
{
    struct model m;
    ready_set(&m, 0, 0);
    for (uint32_t i = 0; i < CS_RANGES; i++)
        manage(&m, 0x2F8 + 0x800 * i, 8, i % 4 == 3);
    m.io[2] = (struct io_grant){true, 1, 0x2F8, 8, held, true};
    lend_set(&m);
    describe("%u lines at a grant, %u asked", held, lines);
    choice_stays(8, SHARED, lines, base);
}

/* The smaller of the two line counts decides: at eleven AF8 is 2F8 and so is every
   other, at twelve AF8 is another and 12F8 is 2F8. */
void io_alike_chosen(void)
{
    for (uint8_t lines = 11; lines <= 16; lines++) {
        alike(11, lines, 0);
        alike(lines, 11, 0);
    }
    for (uint8_t lines = 12; lines <= 16; lines++) {
        alike(12, lines, 0xAF8);
        alike(lines, 12, 0xAF8);
        alike(lines, 10, 0);
    }
}

/* Eight sockets ask for eight ports each; 400 to 41F are reserved, 500 to 51F
   not. When all are held, eight that are given back are chosen again; nine ports
   don't fit, and eight lines can't tell 400 and 500 apart. */
void io_all_chosen(void)
{
    static const uint16_t order[] = {0x500, 0x508, 0x510, 0x518, 0x400, 0x408, 0x410, 0x418};
    struct model m;
    ready_set(&m, 0, 0);
    manage(&m, 0x400, 32, true);
    manage(&m, 0x500, 32, false);
    lend_set(&m);
    for (uint8_t s = 0; s < CS_SOCKETS; s++)
        io_chosen((uint16_t)(s + 1), s, 8, s % 2 == 0 ? ALONE : SHARED, 16, order[s]);
    for (uint8_t s = 0; s < CS_SOCKETS; s++) {
        uint16_t client = (uint16_t)(s + 1);
        io_refused(client, s, 0, 8, ALONE, 16, CS_IN_USE);
        io_released(client, s, order[s], 8);
        io_refused(client, s, 0, 9, ALONE, 16, CS_IN_USE);
        io_refused(client, s, 0, 8, ALONE, 8, CS_IN_USE);
        io_chosen(client, s, 8, ALONE, 16, order[s]);
    }
}

/* One line tells odd and even ports apart: where a card of one line holds an odd
   port and another an even one, all 65,535 candidates are barred. */
void io_all_barred(void)
{
    struct model m;
    ready_set(&m, 0, 0);
    manage(&m, 0, 65536, false);
    m.io[0] = (struct io_grant){true, 1, 0xFFFF, 1, 1, true};
    lend_set(&m);
    choice_is(1, SHARED, 16, 2);
    m.io[7] = (struct io_grant){true, 2, 0xFFFE, 1, 1, true};
    lend_set(&m);
    choice_is(1, SHARED, 16, 0);
    choice_is(255, ALONE, 16, 0);
}
