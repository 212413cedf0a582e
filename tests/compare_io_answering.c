#include <string.h>

#include "check.h"
#include "compare.h"
#include "resources.h"
#include "sets.h"
#include "sockets.h"

/* K2 of document 02: "each port that equals a granted one modulo two to the lines
   must be managed too: BAD_BASE for a named base, not a candidate for base 0. Remove
   is IN_USE if a live grant holds or is repeated at any port of the range. The order
   by reserve looks at the range's own ports alone." */

/* ---- One port at the edge of a block of aliases ---- */

struct card {
    uint16_t base;
    uint8_t count, lines;
};

/* Of every number of lines but 16. The bases are multiples of the smallest power of
   two not below the count, so that base 0 can give them. */
static const struct card aligned[] = {
    {0x6F8, 8, 15},  {0x86F8, 8, 15},   {0x7F00, 255, 15}, {0x8000, 1, 15}, {0xFFFF, 1, 15},
    {0x6F8, 8, 14},  {0xFF00, 255, 14}, {0x6F8, 8, 13},    {0x6F8, 5, 12},  {0x1000, 1, 12},
    {0x6F8, 8, 11},  {0x6F8, 8, 10},    {0x2F8, 8, 10},    {0xFEF8, 8, 10}, {0x400, 1, 10},
    {0x100, 255, 9}, {0x6F8, 8, 9},     {0xFE00, 1, 9},    {0x100, 255, 8}, {0x1FF, 1, 8},
    {0x300, 127, 7}, {0x6F8, 8, 6},     {0x6F8, 8, 5},     {0x6F8, 8, 4},   {0x2F8, 7, 3},
    {0x6F8, 3, 2},   {0x6F9, 1, 2},     {0x6FA, 1, 1},     {0xFFFF, 1, 1},
};
enum { ALIGNED = sizeof aligned / sizeof *aligned };

/* The same where the ports lie on both sides of a multiple of two to the lines. A block
   of their aliases would begin before port 0 or end past FFFF: it is cut there. */
static const struct card around[] = {
    {0x7FFE, 4, 15}, {0x7F81, 255, 15}, {0x3FE, 8, 10}, {0x7FF, 2, 10},
    {0xFBFC, 8, 10}, {0xFFF, 2, 12},    {0x1FF, 2, 9},  {0xFD80, 255, 9},
    {0x105, 6, 3},   {0xFFEF, 2, 4},    {0x6FB, 2, 2},
};
enum { AROUND = sizeof around / sizeof *around };

/* A card answers in blocks of ports: its own, and as many aliases every two to the lines
   below and above. An edge is the first or last port of a block, where the card answers,
   or the port beside it, where it does not. */
struct edge {
    const struct card *card;
    uint32_t port;
    bool answers;
};
typedef void on_edge(const struct edge *e);

/* The block that begins here, perhaps before 0. */
static void edges_of_block(const struct card *card, int32_t start, on_edge *try)
{
    int32_t end = start + card->count;
    struct edge first = {card, (uint32_t)(start < 0 ? 0 : start), true};
    struct edge last = {card, (uint32_t)(end > CS_PORTS ? CS_PORTS : end) - 1, true};
    struct edge before = {card, (uint32_t)(start - 1), false}, after = {card, (uint32_t)end, false};
    try(&first);
    try(&last);
    if (start > 0)
        try(&before);
    if (end < CS_PORTS)
        try(&after);
}

/* The lowest two blocks, the card's own ports and the blocks beside them, the highest
   two. */
static void edges_of_card(const struct card *card, on_edge *try)
{
    int32_t modulus = 1 << card->lines, lowest = card->base % modulus, highest;
    if (lowest + card->count > modulus)
        lowest -= modulus;
    highest = lowest;
    while (highest + modulus < CS_PORTS)
        highest += modulus;
    for (int32_t start = lowest; start <= highest; start += modulus)
        if (start <= lowest + modulus || start >= highest - modulus ||
            (start >= card->base - modulus && start <= card->base + modulus))
            edges_of_block(card, start, try);
}

static void on_all_edges(on_edge *try)
{
    for (unsigned i = 0; i < ALIGNED; i++)
        edges_of_card(&aligned[i], try);
    for (unsigned i = 0; i < AROUND; i++)
        edges_of_card(&around[i], try);
}

static bool is_own(const struct edge *e)
{
    return e->port >= e->card->base && e->port < (uint32_t)e->card->base + e->card->count;
}

/* These ports are managed but for the gap, which may lie elsewhere. */
static void manage_but(struct model *m, uint32_t from, uint32_t end, uint32_t gap, bool reserved)
{
    bool within = gap >= from && gap < end;
    uint32_t first_end = within ? gap : end;
    if (first_end > from)
        manage(m, from, first_end - from, reserved);
    if (within && gap + 1 < end)
        manage(m, gap + 1, end - gap - 1, reserved);
}

/* All ports are managed but this one. The card's own are unreserved, the others are
   reserved. */
static void all_but(struct model *m, const struct edge *e)
{
    uint32_t base = e->card->base, end = base + e->card->count;
    ready_set(m, 0, 0);
    manage_but(m, 0, base, e->port, true);
    manage_but(m, base, end, e->port, false);
    manage_but(m, end, CS_PORTS, e->port, true);
}

static void tell(const struct edge *e)
{
    describe("%X, %u ports, %u lines; port %X", e->card->base, e->card->count, e->card->lines,
             (unsigned)e->port);
}

static void name_it(const struct edge *e)
{
    struct model m;
    all_but(&m, e);
    lend_set(&m);
    tell(e);
    if (e->answers)
        io_refused(7, 6, e->card->base, e->card->count, SHARED, e->card->lines, CS_BAD_BASE);
    else
        io_granted(7, 6, e->card->base, e->card->count, SHARED, e->card->lines);
}

void io_edges_named(void)
{
    on_all_edges(name_it);
}

/* The own ports alone are unreserved, so that base comes before all others; but where
   the card answers at the gap it is none of the candidates. */
static void choose_it(const struct edge *e)
{
    struct model m;
    all_but(&m, e);
    lend_set(&m);
    tell(e);
    if (!e->answers) {
        io_chosen(7, 6, e->card->count, ALONE, e->card->lines, e->card->base);
        return;
    }
    request_io(7, 6, 0, e->card->count, ALONE, e->card->lines);
    must_hold("another base or none", lent_facts()->io[6].base != e->card->base);
}

void io_edges_chosen(void)
{
    for (unsigned i = 0; i < ALIGNED; i++)
        edges_of_card(&aligned[i], choose_it);
    must_hold("some found another", answered(CS_SUCCESS) >= 300);
    must_hold("some found none", answered(CS_IN_USE) >= 20);
}

/* The port is a range of its own. It is shown as held only if it is, and removed only
   if the card doesn't answer there. */
static void remove_it(const struct edge *e)
{
    struct model m;
    bool own = is_own(e);
    all_but(&m, e);
    manage(&m, e->port, 1, true);
    lend_set(&m);
    tell(e);
    io_granted(7, 6, e->card->base, e->card->count, SHARED, e->card->lines);
    range_shown(SHORT, e->port == 0 ? CS_ACTION_FIRST : CS_ACTION_NEXT, e->port - 1,
                (struct shown){e->port, 1, own ? 0x81 : 0, own ? 7 : 0});
    must_be(remove_range(SHORT, e->port, 1), e->answers ? CS_IN_USE : CS_SUCCESS,
            e->answers ? 0 : GIVEN);
    io_released(7, 6, e->card->base, e->card->count);
    must_be(remove_range(LONG, e->port, 1), e->answers ? CS_SUCCESS : CS_BAD_BASE,
            e->answers ? GIVEN : 0);
}

void io_edges_removed(void)
{
    on_all_edges(remove_it);
}

/* A saved table has the ports granted. */
static void save_it(const struct edge *e)
{
    struct model m;
    all_but(&m, e);
    m.io[6] = (struct io_grant){true, 7, e->card->base, e->card->count, e->card->lines, true};
    lend_set(&m);
    tell(e);
    must_be(ask_sharers(0), e->answers ? CS_GENERAL_FAILURE : CS_SUCCESS, 0);
    must_be(release_io(7, 6, e->card->base, e->card->count),
            e->answers ? CS_GENERAL_FAILURE : CS_SUCCESS, e->answers ? 0 : 7);
}

void io_edges_saved(void)
{
    on_all_edges(save_it);
}

/* Sixteen lines: the ports themselves, and none past FFFF. 6F8 to 6FF, or the last
   eight ports, are managed and nothing else; then one of them isn't. */
static void only_own(uint16_t base)
{
    struct model m;
    lend_ports(base, 8);
    io_granted(7, 6, base, 8, ALONE, 16);
    io_released(7, 6, base, 8);
    io_chosen(7, 6, 8, ALONE, 16, base);
    io_released(7, 6, base, 8);
    io_refused(7, 6, base, 8, ALONE, 15, CS_BAD_BASE);
    io_refused(7, 6, 0, 8, ALONE, 15, CS_IN_USE);
    for (uint32_t gap = base; gap < base + 8u; gap++) {
        ready_set(&m, 0, 0);
        manage_but(&m, base, base + 8u, gap, false);
        lend_set(&m);
        io_refused(7, 6, base, 8, ALONE, 16, CS_BAD_BASE);
        io_refused(7, 6, 0, 8, ALONE, 16, CS_IN_USE);
    }
}

void io_sixteen_lines(void)
{
    only_own(0x6F8);
    only_own(0xFFF8);
}

/* ---- Base 0: cases by hand ---- */

/* The ranges that are managed, and what a card is given; 0 is IN_USE. */
/* clang-format off */
static const struct {
    const char *what;
    struct range ranges[6];
    uint8_t count, lines;
    uint16_t base;
} choices[] = {
    {"its own ports are unreserved, their aliases are reserved",
     {{0x100, 8, true}, {0x8100, 8, false}}, 8, 15, 0x8100},
    {"the other way round",
     {{0x100, 8, false}, {0x8100, 8, true}}, 8, 15, 0x100},
    {"all reserved: the lowest",
     {{0x100, 8, true}, {0x8100, 8, true}}, 8, 15, 0x100},
    {"every port below 400 is reserved, and has an alias above",
     {{0, 0x400, true}, {0x400, 0xFC00, false}}, 8, 10, 0x400},
    {"the first port's alias is missing: the next one",
     {{0x100, 8, false}, {0x200, 8, false}, {0x8101, 7, false}, {0x8200, 8, false}}, 8, 15, 0x200},
    {"the last port's alias is missing: the next one",
     {{0x100, 8, false}, {0x200, 8, false}, {0x8100, 7, false}, {0x8200, 8, false}}, 8, 15, 0x200},
    {"the last port isn't asked for",
     {{0x100, 8, false}, {0x200, 8, false}, {0x8100, 7, false}, {0x8200, 8, false}}, 7, 15, 0x100},
    {"the unreserved one lacks its aliases: a reserved one",
     {{0x100, 8, false}, {0x200, 8, true}, {0x8200, 8, true}}, 8, 15, 0x200},
    {"the aliases above are missing", {{0x100, 8, false}}, 8, 15, 0},
    {"the aliases below are missing", {{0x8100, 8, false}}, 8, 15, 0},
    {"the aliases lie in two ranges",
     {{0x100, 8, false}, {0x8100, 3, false}, {0x8103, 5, true}}, 8, 15, 0x100},
    {"port 0 is missing, of every even port", {{1, 0xFFFF, false}}, 1, 1, 1},
    {"port FFFF is missing, of every odd port", {{0, 0xFFFF, false}}, 1, 1, 2},
    {"both are missing, so any is", {{1, 0xFFFE, false}}, 1, 1, 0},
    {"any two ports are all ports", {{0, 0xFFFF, false}}, 2, 1, 0},
    {"all ports are there", {{0, 0x8000, true}, {0x8000, 0x8000, false}}, 2, 1, 0x8000},
    {"255 of 512, and 1F8 is missing",
     {{0, 0x1F8, false}, {0x1F9, 0xFE07, false}}, 255, 9, 0x200},
    {"255 of 256, and 1F8 is missing",
     {{0, 0x1F8, false}, {0x1F9, 0xFE07, false}}, 255, 8, 0},
    {"255 of 256, and 1FF is missing",
     {{0, 0x1FF, false}, {0x200, 0xFE00, true}}, 255, 8, 0x100},
};
/* clang-format on */

void io_choice_by_aliases(void)
{
    for (size_t i = 0; i < sizeof choices / sizeof *choices; i++) {
        struct model m;
        ready_set(&m, 0, 0);
        for (unsigned r = 0; r < 6 && choices[i].ranges[r].count > 0; r++)
            manage(&m, choices[i].ranges[r].base, choices[i].ranges[r].count,
                   choices[i].ranges[r].reserved);
        lend_set(&m);
        describe("%s", choices[i].what);
        if (choices[i].base == 0)
            io_refused(9, 1, 0, choices[i].count, SHARED, choices[i].lines, CS_IN_USE);
        else
            io_chosen(9, 1, choices[i].count, SHARED, choices[i].lines, choices[i].base);
    }
}

/* ---- By calls alone ---- */

/* Client 1, a card in socket 0, and a second client and card. */
static void lend_two(void)
{
    lend_fresh(2);
    must_be(register_one(), CS_SUCCESS, 1);
    must_be(register_one(), CS_SUCCESS, 2);
    must_be(ask_card_in(0), CS_SUCCESS, 0);
    must_be(ask_card_in(1), CS_SUCCESS, 0);
}

/* "A ten-line card was given 6F8 and answered at 2F8, which belongs to our main board
   and was never managed." */
void io_given_6f8(void)
{
    lend_two();
    must_be(add_range(SHORT, 0x6F8, 8), CS_SUCCESS, GIVEN);
    io_refused(1, 0, 0x6F8, 8, ALONE, 10, CS_BAD_BASE);
    io_refused(1, 0, 0, 8, ALONE, 10, CS_IN_USE);
    must_be(add_range(LONG, 0x700, 0xF900), CS_SUCCESS, GIVEN);
    io_refused(1, 0, 0x6F8, 8, ALONE, 10, CS_BAD_BASE);
    io_refused(1, 0, 0xAF8, 8, ALONE, 10, CS_BAD_BASE);
    io_refused(1, 0, 0, 8, ALONE, 10, CS_IN_USE);
    io_granted(1, 0, 0x6F8, 8, ALONE, 16);
    io_refused(2, 1, 0x6F8, 8, ALONE, 16, CS_IN_USE);
    io_refused(2, 1, 0x6F8, 8, ALONE, 10, CS_BAD_BASE);
    io_released(1, 0, 0x6F8, 8);
    must_be(adjust_io(SHORT, CS_ACTION_ADD, 0x2F8, 7, CS_RESERVE, 16), CS_SUCCESS, GIVEN);
    io_refused(1, 0, 0x6F8, 8, ALONE, 10, CS_BAD_BASE);
    io_refused(1, 0, 0, 8, ALONE, 10, CS_IN_USE);
    io_granted(1, 0, 0x6F8, 7, ALONE, 10);
    io_released(1, 0, 0x6F8, 7);
    must_be(adjust_io(SHORT, CS_ACTION_ADD, 0x2FF, 1, CS_RESERVE, 16), CS_SUCCESS, GIVEN);
    io_granted(1, 0, 0x6F8, 8, ALONE, 10);
    walk_shows(
        (struct shown[]){
            {0x2F8, 7, 0, 0}, {0x2FF, 1, 0, 0}, {0x6F8, 8, 0x80, 1}, {0x700, 0xF900, 0, 0}},
        4);
    io_refused(2, 1, 0x2F8, 8, ALONE, 16, CS_IN_USE);
    must_be(remove_range(SHORT, 0x2F8, 7), CS_IN_USE, 0);
    must_be(remove_range(SHORT, 0x2FF, 1), CS_IN_USE, 0);
    must_be(remove_range(SHORT, 0x2F8, 8), CS_BAD_BASE, 0);
    must_be(remove_range(SHORT, 0x6F8, 7), CS_BAD_BASE, 0);
    must_be(remove_range(LONG, 0x700, 0xF900), CS_IN_USE, 0);
    io_released(1, 0, 0x6F8, 8);
    io_chosen(2, 1, 8, SHARED, 10, 0x6F8);
    must_be(ask_card_out(1), CS_SUCCESS, 0);
    must_be(remove_range(SHORT, 0x2FF, 1), CS_IN_USE, 0);
    io_released(2, 1, 0x6F8, 8);
    must_be(remove_range(SHORT, 0x2FF, 1), CS_SUCCESS, GIVEN);
    io_refused(1, 0, 0x6F8, 8, ALONE, 10, CS_BAD_BASE);
}

/* All ports in 32 ranges, added in some order. The card needs every one, so it is
   granted its ports after the last, and keeps them all. A second card of sixteen lines
   has ports of the first range all the while. */
static void after_the_last(unsigned factor)
{
    lend_two();
    for (uint32_t i = 0; i < CS_RANGES; i++) {
        uint32_t base = 0x800 * (factor * i % CS_RANGES);
        must_be(add_range(LONG, base, 0x800), CS_SUCCESS, GIVEN);
        must_be(ask_sharers(0), CS_SUCCESS, 0);
        if (base == 0)
            io_granted(2, 1, 0x400, 8, SHARED, 16);
        if (i < CS_RANGES - 1)
            io_refused(1, 0, 0x1406, 4, SHARED, 10, CS_BAD_BASE);
    }
    io_granted(1, 0, 0x1406, 4, SHARED, 10);
    for (uint32_t i = 0; i < CS_RANGES; i++)
        must_be(remove_range(LONG, 0x800 * i, 0x800), CS_IN_USE, 0);
    io_released(1, 0, 0x1406, 4);
    for (uint32_t i = 0; i < CS_RANGES; i++)
        must_be(remove_range(LONG, 0x800 * i, 0x800), i == 0 ? CS_IN_USE : CS_SUCCESS,
                i == 0 ? 0 : GIVEN);
}

void io_added_then_asked(void)
{
    for (unsigned factor = 1; factor < CS_RANGES; factor += 6)
        after_the_last(factor);
}

/* ---- By chance ---- */

enum { WORLDS = 500, QUESTIONS = 40 };

/* How often what was asked for came about, by cards of fewer than 16 lines. */
static struct {
    unsigned long named, chosen; /* granted */
    unsigned long by_aliases;    /* BAD_BASE: the ports themselves are managed */
    unsigned long none;          /* IN_USE: no candidate */
    unsigned long kept;          /* Remove is IN_USE: no port of the range is held */
    unsigned long removed;       /* beside grants */
} seen;

static bool all_managed(const struct model *m, uint32_t base, uint32_t count)
{
    uint32_t found = 0;
    for (unsigned i = 0; i < m->ranges; i++)
        for (uint32_t port = base; port < base + count; port++)
            found += port >= m->range[i].base && port < m->range[i].base + m->range[i].count;
    return found == count;
}

static bool some_held(const struct model *m, const struct range *r)
{
    for (unsigned s = 0; s < CS_SOCKETS; s++)
        if (m->io[s].live && m->io[s].base < r->base + r->count &&
            r->base < (uint32_t)m->io[s].base + m->io[s].count)
            return true;
    return false;
}

/* Near an end of a range, or an alias of that; or any managed port. */
static uint16_t some_base(struct chance *c, const struct model *m, uint8_t lines, uint8_t count)
{
    const struct range *r = &m->range[pick(c, m->ranges)];
    uint32_t edge = one_in(c, 2) ? r->base : r->base + r->count, above = pick(c, 4) << lines;
    uint32_t below = one_in(c, 2) ? count : 0, near = edge + above - below + pick(c, 3) - 1;
    uint32_t base = one_in(c, 4) ? r->base + pick(c, r->count) : near;
    return (uint16_t)(base % CS_PORTS == 0 ? 1 : base);
}

static void count_request(const struct model *before, const struct card *card, uint32_t code)
{
    if (card->lines == 16)
        return;
    if (card->base == 0) {
        seen.chosen += code == CS_SUCCESS;
        seen.none += code == CS_IN_USE;
        return;
    }
    seen.named += code == CS_SUCCESS;
    seen.by_aliases += code == CS_BAD_BASE && all_managed(before, card->base, card->count);
}

static void ask_for_ports(struct chance *c, uint8_t socket)
{
    struct model before = *lent_facts();
    uint8_t lines = (uint8_t)(one_in(c, 4) ? 1 + pick(c, 16) : 9 + pick(c, 7));
    uint32_t most = lines < 4 ? 1u << lines : one_in(c, 8) ? 255 : 12;
    uint8_t count = (uint8_t)(1 + pick(c, most)), attributes = one_in(c, 3) ? ALONE : SHARED;
    struct card card = {0, count, lines};
    if (before.ranges > 0 && !one_in(c, 4))
        card.base = some_base(c, &before, lines, count);
    uint32_t answer = request_io(3, socket, card.base, count, attributes, lines);
    count_request(&before, &card, CS_CODE(answer));
}

/* Some range is removed, and mostly added again, perhaps a port short; or what keeps
   it is looked at. */
static void ask_for_range(struct chance *c)
{
    struct model before = *lent_facts();
    if (before.ranges == 0)
        return;
    struct range r = before.range[pick(c, before.ranges)];
    bool shorter = r.count > 1 && one_in(c, 3);
    uint8_t attributes = one_in(c, 3) ? CS_RESERVE : 0;
    uint32_t answer = remove_range(LONG, r.base, r.count);
    seen.kept += CS_CODE(answer) == CS_IN_USE && !some_held(&before, &r);
    seen.removed += CS_CODE(answer) == CS_SUCCESS;
    if (CS_CODE(answer) != CS_SUCCESS)
        adjust_io(LONG, CS_ACTION_NEXT, r.base == 0 ? 0 : r.base - 1, 0, 0, 0);
    else if (!one_in(c, 3))
        adjust_io(LONG, CS_ACTION_ADD, r.base, r.count - shorter, attributes, 16);
}

static void ask_one(struct chance *c)
{
    uint8_t socket = (uint8_t)pick(c, CS_SOCKETS);
    struct io_grant g = lent_facts()->io[socket];
    if (one_in(c, 4))
        ask_for_range(c);
    else if (g.live && !one_in(c, 3))
        release_io(g.client, socket, g.base, g.count);
    else
        ask_for_ports(c, socket);
}

void io_answering_worlds(void)
{
    struct chance c = {44};
    memset(&seen, 0, sizeof seen);
    for (unsigned i = 0; i < WORLDS; i++) {
        struct model m;
        ready_set(&m, 0, 0);
        repeating_ranges(&c, &m);
        lend_set(&m);
        begin_log(i % 100 == 0 ? AFTER_EACH : AT_THE_END);
        for (unsigned k = 0; k < QUESTIONS; k++)
            ask_one(&c);
        end_log();
    }
    must_hold("named ports were granted", seen.named >= 500);
    must_hold("ports were chosen", seen.chosen >= 500);
    must_hold("managed ports were refused for their aliases", seen.by_aliases >= 500);
    must_hold("there was no candidate", seen.none >= 200);
    must_hold("a range was kept for an alias alone", seen.kept >= 200);
    must_hold("a range was removed", seen.removed >= 200);
}
