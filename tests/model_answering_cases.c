/*
 * model_answering_cases.c: the model's own cases for K2 of document 02, the ports
 * at which a card answers
 */
#include "model_cases.h"
#include "sets.h"

/* ---- One port is not managed ---- */

/* All ports are managed but for the gap, if it is a port. */
enum { NO_GAP = CS_PORTS };

static void all_but(struct model *m, uint32_t gap)
{
    ready(m);
    if (gap > 0)
        m->range[m->ranges++] = (struct range){0, gap, false};
    if (gap < CS_PORTS - 1)
        m->range[m->ranges++] = (struct range){gap + 1, CS_PORTS - 1 - gap, true};
}

/* "each port that equals a granted one modulo two to the lines must be managed too:
   BAD_BASE for a named base": whether the card answers at the gap, by hand. */
static const struct {
    uint16_t base;
    uint8_t count, lines;
    uint32_t gap;
    bool answers;
} gaps[] = {
    /* 16 lines: the ports themselves, also where they end at FFFF. */
    {0x6F8, 8, 16, NO_GAP, false},
    {0x6F8, 8, 16, 0x2F8, false},
    {0x6F8, 8, 16, 0x6F7, false},
    {0x6F8, 8, 16, 0x6F8, true},
    {0x6F8, 8, 16, 0x6FF, true},
    {0x6F8, 8, 16, 0x700, false},
    {0xFFF8, 8, 16, 0, false},
    {0xFFF8, 8, 16, 0xFFFF, true},
    /* 15 lines: each port has one alias, 8000 above or below. */
    {0x6F8, 8, 15, NO_GAP, false},
    {0x6F8, 8, 15, 0x86F7, false},
    {0x6F8, 8, 15, 0x86F8, true},
    {0x6F8, 8, 15, 0x86FF, true},
    {0x6F8, 8, 15, 0x8700, false},
    {0x86F8, 8, 15, 0x6F7, false},
    {0x86F8, 8, 15, 0x6F8, true},
    {0x86F8, 8, 15, 0x6FF, true},
    {0x86F8, 8, 15, 0x700, false},
    {0x8000, 1, 15, 0, true},
    {0x8000, 1, 15, 0x4000, false},
    {0x7FFF, 1, 15, 0xFFFF, true},
    {0x7FFF, 1, 15, 0xFFFE, false},
    {0x7FFF, 1, 15, 0, false},
    /* Ports on both sides of 8000: 7FFE to 8001, so 0, 1, FFFE and FFFF. */
    {0x7FFE, 4, 15, NO_GAP, false},
    {0x7FFE, 4, 15, 0, true},
    {0x7FFE, 4, 15, 1, true},
    {0x7FFE, 4, 15, 2, false},
    {0x7FFE, 4, 15, 0xFFFD, false},
    {0x7FFE, 4, 15, 0xFFFE, true},
    {0x7FFE, 4, 15, 0xFFFF, true},
    /* 10 lines: 2F8, 6F8, AF8 and on, up to FEF8. */
    {0x6F8, 8, 10, NO_GAP, false},
    {0x6F8, 8, 10, 0x2F7, false},
    {0x6F8, 8, 10, 0x2F8, true},
    {0x6F8, 8, 10, 0x2FB, true},
    {0x6F8, 8, 10, 0x2FF, true},
    {0x6F8, 8, 10, 0x300, false},
    {0x6F8, 8, 10, 0x4F8, false},
    {0x6F8, 8, 10, 0xAF8, true},
    {0x6F8, 8, 10, 0xFEF7, false},
    {0x6F8, 8, 10, 0xFEF8, true},
    {0x6F8, 8, 10, 0xFEFF, true},
    {0x6F8, 8, 10, 0xFF00, false},
    {0xFFFF, 1, 10, 0, false},
    {0xFFFF, 1, 10, 0x3FF, true},
    /* Ports on both sides of 400: 0 to 5, 3FE to 405 and on, FBFE to FC05, FFFE and
       FFFF, where the last block of aliases is cut. */
    {0x3FE, 8, 10, NO_GAP, false},
    {0x3FE, 8, 10, 0, true},
    {0x3FE, 8, 10, 5, true},
    {0x3FE, 8, 10, 6, false},
    {0x3FE, 8, 10, 0x3FD, false},
    {0x3FE, 8, 10, 0x406, false},
    {0x3FE, 8, 10, 0x7FD, false},
    {0x3FE, 8, 10, 0x7FE, true},
    {0x3FE, 8, 10, 0x805, true},
    {0x3FE, 8, 10, 0x806, false},
    {0x3FE, 8, 10, 0xFC05, true},
    {0x3FE, 8, 10, 0xFC06, false},
    {0x3FE, 8, 10, 0xFFFD, false},
    {0x3FE, 8, 10, 0xFFFE, true},
    {0x3FE, 8, 10, 0xFFFF, true},
    /* 9 lines: F8, 2F8, 4F8 and on. */
    {0x6F8, 8, 9, NO_GAP, false},
    {0x6F8, 8, 9, 0x0F8, true},
    {0x6F8, 8, 9, 0x1F8, false},
    {0x6F8, 8, 9, 0x4FF, true},
    {0x6F8, 8, 9, 0xFEF8, true},
    {0x6F8, 8, 9, 0xFFF8, false},
    {0x101, 255, 9, 0x100, false},
    {0x101, 255, 9, 0x301, true},
    {0x101, 255, 9, 0x3FF, true},
    {0x101, 255, 9, 0x400, false},
    {0x101, 255, 9, 0xFFFF, true},
    /* 2 lines: every fourth port; four ports, every port. */
    {0x6F8, 1, 2, NO_GAP, false},
    {0x6F8, 1, 2, 0, true},
    {0x6F8, 1, 2, 1, false},
    {0x6F8, 1, 2, 0xFFFC, true},
    {0x6F8, 1, 2, 0xFFFF, false},
    {0x6F9, 4, 2, NO_GAP, false},
    {0x6F9, 4, 2, 0, true},
    {0x6F9, 4, 2, 0xFFFF, true},
    {0x6F9, 3, 2, 0xFFFF, true},
    {0x6F9, 3, 2, 0xFFFC, false},
    /* 1 line: the odd ports, or all. */
    {0x6F9, 1, 1, NO_GAP, false},
    {0x6F9, 1, 1, 1, true},
    {0x6F9, 1, 1, 0, false},
    {0x6F9, 1, 1, 0xFFFF, true},
    {0x6F9, 1, 1, 0xFFFE, false},
    {0x6F8, 2, 1, NO_GAP, false},
    {0x6F8, 2, 1, 0, true},
    {0x6F8, 2, 1, 0xFFFF, true},
};

/* A request for these ports, and a saved table that has them granted. */
static void one_port_missing(void)
{
    for (size_t i = 0; i < sizeof gaps / sizeof *gaps; i++) {
        struct model m;
        all_but(&m, gaps[i].gap);
        expect_code("a named base beside a gap",
                    request_io_code(&m, 3, gaps[i].base, gaps[i].count, 0, gaps[i].lines),
                    gaps[i].answers ? CS_BAD_BASE : CS_SUCCESS);
        all_but(&m, gaps[i].gap);
        m.io[3] = (struct io_grant){true, 2, gaps[i].base, gaps[i].count, gaps[i].lines, false};
        expect("a saved table beside a gap", well_formed(&m) == !gaps[i].answers);
    }
}

/* ---- Base 0 ---- */

enum { MOST = 6 };

static void manage_all(struct model *m, const struct range ranges[MOST])
{
    ready(m);
    for (unsigned i = 0; i < MOST && ranges[i].count > 0; i++)
        m->range[m->ranges++] = ranges[i];
}

/* "not a candidate for base 0. .. The order by reserve looks at the range's own
   ports alone." Base 0 is IN_USE. */
/* clang-format off */
static const struct {
    const char *what;
    struct range ranges[MOST];
    uint8_t count, lines;
    uint16_t base;
} choices[] = {
    {"reserved aliases make no difference",
     {{0x100, 8, true}, {0x8100, 8, false}}, 8, 15, 0x8100},
    {"nor unreserved ones",
     {{0x100, 8, false}, {0x8100, 8, true}}, 8, 15, 0x100},
    {"both reserved, the lowest",
     {{0x100, 8, true}, {0x8100, 8, true}}, 8, 15, 0x100},
    {"aliases below are reserved, at 10 lines",
     {{0, 0x400, true}, {0x400, 0xFC00, false}}, 8, 10, 0x400},
    {"the first port's alias is missing",
     {{0x100, 8, false}, {0x200, 8, false}, {0x8101, 7, false}, {0x8200, 8, false}}, 8, 15, 0x200},
    {"the last port's",
     {{0x100, 8, false}, {0x200, 8, false}, {0x8100, 7, false}, {0x8200, 8, false}}, 8, 15, 0x200},
    {"a reserved one, if the unreserved one's aliases are missing",
     {{0x100, 8, false}, {0x200, 8, true}, {0x8200, 8, true}}, 8, 15, 0x200},
    {"no candidate", {{0x100, 8, false}, {0x8100, 7, false}}, 8, 15, 0},
    {"one port fewer", {{0x100, 8, false}, {0x8100, 7, false}}, 7, 15, 0x100},
    {"the aliases below are missing", {{0x8100, 8, false}}, 8, 15, 0},
    {"the same at 16 lines", {{0x8100, 8, false}}, 8, 16, 0x8100},
    {"port 0 is missing", {{1, 0xFFFF, false}}, 1, 10, 1},
    {"and is an alias of every second port", {{1, 0xFFFF, false}}, 1, 1, 1},
    {"port FFFF is missing", {{0, 0xFFFF, false}}, 1, 1, 2},
    {"and is an alias of one of any two", {{0, 0xFFFF, false}}, 2, 1, 0},
    {"of one of any four", {{0, 0xFFFF, false}}, 4, 2, 0},
    {"and not of the first three", {{0, 0xFFFF, false}}, 3, 2, 4},
    {"2F8 is missing, at 9 lines", {{0, 0x2F8, false}, {0x2F9, 0xFD07, false}}, 255, 9, 0x100},
    {"0F8 is missing, at 8 lines", {{0, 0xF8, false}, {0xF9, 0xFF07, false}}, 255, 8, 0},
    {"1F8 is missing, at 9 lines", {{0, 0x1F8, false}, {0x1F9, 0xFE07, false}}, 255, 9, 0x200},
};
/* clang-format on */

static void choice_by_aliases(void)
{
    for (size_t i = 0; i < sizeof choices / sizeof *choices; i++) {
        struct model m;
        uint16_t given;
        manage_all(&m, choices[i].ranges);
        expect_code(choices[i].what,
                    request_io_base(&m, 3, 0, choices[i].count, 0, choices[i].lines, &given),
                    choices[i].base == 0 ? CS_IN_USE : CS_SUCCESS);
        expect(choices[i].what, given == choices[i].base);
    }
}

/* ---- K2's own case, by calls ---- */

/* "A ten-line card was given 6F8 and answered at 2F8, which belongs to our main
   board and was never managed." */
static void given_6f8(void)
{
    struct model m;
    uint16_t given;
    ready(&m);
    add_io(&m, 0x6F8, 8);
    expect_code("6F8 alone", request_io_code(&m, 0, 0x6F8, 8, 0, 10), CS_BAD_BASE);
    long_io(&m, CS_ACTION_ADD, 0x700, 0xF900);
    expect_code("all aliases but 2F8", request_io_code(&m, 0, 0x6F8, 8, 0, 10), CS_BAD_BASE);
    expect_code("any base", request_io_code(&m, 0, 0, 8, 0, 10), CS_IN_USE);
    expect_code("16 lines", request_io_code(&m, 1, 0x6F8, 8, 0, 16), CS_SUCCESS);
    expect_code("held too", request_io_code(&m, 0, 0x6F8, 8, 0, 10), CS_BAD_BASE);
    release_io_code(&m, 1, 0x6F8, 8);
    short_io(&m, CS_ACTION_ADD, 0x2F8, 7, CS_RESERVE);
    expect_code("all but 2FF", request_io_code(&m, 0, 0x6F8, 8, 0, 10), CS_BAD_BASE);
    expect_code("any base", request_io_code(&m, 0, 0, 8, 0, 10), CS_IN_USE);
    short_io(&m, CS_ACTION_ADD, 0x2FF, 1, CS_RESERVE);
    expect_code("2F8 is managed", request_io_code(&m, 0, 0x6F8, 8, 0, 10), CS_SUCCESS);
    release_io_code(&m, 0, 0x6F8, 8);
    expect_code("any base then", request_io_base(&m, 0, 0, 8, 0, 10, &given), CS_SUCCESS);
    expect("6F8, as 2F8 is reserved", given == 0x6F8);
}

/* ---- Remove, and what First and Next show ---- */

/* Bit 7 and the holder of the lowest range above this port. */
static bool shown_free(struct model *m, uint16_t above)
{
    uint8_t packet[12] = {3, 1, (uint8_t)above, (uint8_t)(above >> 8)};
    uint32_t answer = model_call(m, CS_ADJUST_RESOURCE_INFO, 9, packet, sizeof packet);
    return answer == CS_SUCCESS && packet[10] == 0;
}

/* "Remove is IN_USE if a live grant holds or is repeated at any port of the range."
   6F8 is held at ten lines: 2F8 and AF8 are aliases, and none is below 2F8 or
   between 300 and 6F7. */
static void removed_beside_aliases(void)
{
    struct model m;
    ready(&m);
    long_io(&m, CS_ACTION_ADD, 1, 0x2F7);
    long_io(&m, CS_ACTION_ADD, 0x2F8, 1);
    long_io(&m, CS_ACTION_ADD, 0x2F9, 6);
    long_io(&m, CS_ACTION_ADD, 0x2FF, 1);
    long_io(&m, CS_ACTION_ADD, 0x300, 0x3F8);
    long_io(&m, CS_ACTION_ADD, 0x6F8, 8);
    long_io(&m, CS_ACTION_ADD, 0x700, 0xF900);
    expect_code("6F8", request_io_code(&m, 0, 0x6F8, 8, 0, 10), CS_SUCCESS);
    expect("2F8 is shown free", shown_free(&m, 0x2F7));
    expect("2FF is shown free", shown_free(&m, 0x2FE));
    expect("6F8 is not", !shown_free(&m, 0x300));
    expect("700 is shown free", shown_free(&m, 0x6F8));
    expect_code("the first alias", long_io(&m, CS_ACTION_REMOVE, 0x2F8, 1), CS_IN_USE);
    expect_code("those between", long_io(&m, CS_ACTION_REMOVE, 0x2F9, 6), CS_IN_USE);
    expect_code("the last one", long_io(&m, CS_ACTION_REMOVE, 0x2FF, 1), CS_IN_USE);
    expect_code("the held one", long_io(&m, CS_ACTION_REMOVE, 0x6F8, 8), CS_IN_USE);
    expect_code("aliases above", long_io(&m, CS_ACTION_REMOVE, 0x700, 0xF900), CS_IN_USE);
    expect_code("no such range", long_io(&m, CS_ACTION_REMOVE, 0x2F8, 8), CS_BAD_BASE);
    expect_code("below all aliases", long_io(&m, CS_ACTION_REMOVE, 1, 0x2F7), CS_SUCCESS);
    expect_code("between two", long_io(&m, CS_ACTION_REMOVE, 0x300, 0x3F8), CS_SUCCESS);
    expect("still a table", well_formed(&m));
    release_io_code(&m, 0, 0x6F8, 8);
    expect_code("an alias then", long_io(&m, CS_ACTION_REMOVE, 0x2F8, 1), CS_SUCCESS);
    expect_code("aliases above then", long_io(&m, CS_ACTION_REMOVE, 0x700, 0xF900), CS_SUCCESS);
}

/* ---- By its letter ---- */

/* Every port that equals one of these modulo two to the lines. */
static void mark_answering(const struct io_grant *g, bool answers[CS_PORTS])
{
    for (uint32_t port = 0; port < CS_PORTS; port++) {
        answers[port] = false;
        for (uint32_t i = 0; i < g->count; i++)
            if (port % (1u << g->lines) == (g->base + i) % (1u << g->lines))
                answers[port] = true;
    }
}

static bool managed_by_letter(const struct model *m, uint32_t port)
{
    for (unsigned i = 0; i < m->ranges; i++)
        if (port >= m->range[i].base && port < m->range[i].base + m->range[i].count)
            return true;
    return false;
}

static bool all_managed(const struct model *m, const bool answers[CS_PORTS])
{
    for (uint32_t port = 0; port < CS_PORTS; port++)
        if (answers[port] && !managed_by_letter(m, port))
            return false;
    return true;
}

static bool some_within(const struct range *r, const bool answers[CS_PORTS])
{
    for (uint32_t port = r->base; port < r->base + r->count; port++)
        if (answers[port])
            return true;
    return false;
}

/* Each range is removed in its turn from a copy. */
static void removed_by_letter(const struct model *m, const bool answers[CS_PORTS])
{
    for (unsigned i = 0; i < m->ranges; i++) {
        struct model copy = *m;
        expect_code("Remove by its letter",
                    long_io(&copy, CS_ACTION_REMOVE, m->range[i].base, m->range[i].count),
                    some_within(&m->range[i], answers) ? CS_IN_USE : CS_SUCCESS);
    }
}

/* Sets by chance, without their grants; a request for managed ports near an end of a
   range, and the table that has them granted. */
static void answering_by_letter(void)
{
    static bool answers[CS_PORTS];
    struct chance c = {3};
    unsigned granted = 0, refused = 0, tried = 300;
    for (unsigned i = 0; i < tried; i++) {
        struct model m;
        ready(&m);
        repeating_ranges(&c, &m);
        const struct range *r = &m.range[pick(&c, m.ranges)];
        uint8_t lines = (uint8_t)(one_in(&c, 2) ? 9 + pick(&c, 7) : 1 + pick(&c, 15));
        uint32_t most = lines < 3 ? 1u << lines : 8, from = pick(&c, r->count);
        most = most < r->count - from ? most : r->count - from;
        struct io_grant g = {true,  1,    (uint16_t)(r->base + from), (uint8_t)(1 + pick(&c, most)),
                             lines, false};
        g.base = g.base == 0 ? 1 : g.base;
        mark_answering(&g, answers);
        bool good = all_managed(&m, answers);
        expect_code("a named base by its letter", request_io_code(&m, 3, g.base, g.count, 0, lines),
                    good ? CS_SUCCESS : CS_BAD_BASE);
        m.io[3] = g;
        expect("a set by its letter", well_formed(&m) == good);
        if (good)
            removed_by_letter(&m, answers);
        granted += good;
        refused += !good;
    }
    expect("some were granted, some refused", granted >= tried / 5 && refused >= tried / 5);
}

void answering_cases(void)
{
    one_port_missing();
    choice_by_aliases();
    given_6f8();
    removed_beside_aliases();
    answering_by_letter();
}
