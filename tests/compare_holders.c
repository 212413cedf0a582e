#include "check.h"
#include "compare.h"
#include "resources.h"
#include "sets.h"
#include "sockets.h"

/* Tables with live grants, written from docs/LAYOUT.md. compare_irq.c and
   compare_io_held.c have those that calls make. */

/* ---- Levels ---- */

static void hold_level(struct model *m, unsigned socket, uint16_t client, uint8_t level,
                       uint8_t manner)
{
    m->irq[socket] = (struct irq_grant){true, client, level, manner};
}

/* "For IRQ, bits 0 to 1 are the holders' type, or 0", with bit 7; by manner. */
static const uint8_t type_by_hand[MANNERS] = {0x80, 0x81, 0x82, 0x82};

/* Level 9 is held from socket 8 - many on, by clients many, .. 2, 1; beside it 8
   and 10 are managed and held by nobody. */
static void level_held_by(unsigned many, uint8_t manner)
{
    struct model m;
    ready_set(&m, 0, 0);
    m.level[8] = m.level[10] = (struct level){true, false};
    m.level[9] = (struct level){true, many % 2 == 1};
    for (unsigned i = 0; i < many; i++)
        hold_level(&m, CS_SOCKETS - many + i, (uint16_t)(many - i), 9, manner);
    lend_set(&m);
    level_shown(CS_ACTION_FIRST, 0, (struct shown){.base = 8});
    level_shown(CS_ACTION_NEXT, 8,
                (struct shown){.base = 9, .attributes = type_by_hand[manner], .holder = 1});
    level_shown(CS_ACTION_NEXT, 9, (struct shown){.base = 10});
    no_level_shown(CS_ACTION_NEXT, 10);
    must_be(remove_level(9), CS_IN_USE, 0);
    must_be(add_level(9), CS_IN_USE, 0);
    must_be(adjust_irq(CS_ACTION_REMOVE, CS_RESERVE, 9), CS_BAD_ATTRIBUTE, 0);
    must_be(remove_level(8), CS_SUCCESS, GIVEN);
    must_be(remove_level(10), CS_SUCCESS, GIVEN);
    must_be(ask_sharers(9), CS_SUCCESS, (uint16_t)many);
}

/* The first and the last level, held from the first and the last socket. */
static void level_at_both_ends(uint8_t level, unsigned socket)
{
    struct model m;
    ready_set(&m, 0, 0);
    m.level[level] = (struct level){true, false};
    hold_level(&m, socket, 16, level, EXCLUSIVE);
    lend_set(&m);
    level_shown(CS_ACTION_FIRST, 0,
                (struct shown){.base = level, .attributes = 0x80, .holder = 16});
    no_level_shown(CS_ACTION_NEXT, level);
    must_be(remove_level(level), CS_IN_USE, 0);
    must_be(remove_level(level ^ 15), CS_BAD_IRQ, 0);
}

void levels_held(void)
{
    level_held_by(1, EXCLUSIVE);
    for (unsigned many = 1; many <= CS_SOCKETS; many++)
        for (uint8_t manner = TIME_MULTIPLEXED; manner < MANNERS; manner++)
            level_held_by(many, manner);
    for (unsigned socket = 0; socket < CS_SOCKETS; socket++) {
        level_at_both_ends(0, socket);
        level_at_both_ends(15, socket);
    }
}

/* ---- Handles of holders ---- */

/* Three holders' handles in every order, sharing a level and a range's ports. */
static void three_holders(const uint16_t handles[3], const unsigned sockets[3])
{
    struct model m;
    ready_set(&m, 0, 0);
    m.issued = CS_HANDLES;
    m.level[5] = (struct level){true, false};
    m.range[m.ranges++] = (struct range){0x300, 0x20, false};
    for (unsigned i = 0; i < 3; i++) {
        m.client[i].handle = handles[i];
        hold_level(&m, sockets[i], handles[i], 5, DYNAMIC_LEVEL);
        m.io[sockets[i]] = (struct io_grant){true, handles[i], 0x308, 8, CS_LINES, true};
    }
    lend_set(&m);
    level_shown(CS_ACTION_FIRST, 0,
                (struct shown){.base = 5, .attributes = 0x82, .holder = 0x00FF});
    walk_shows((struct shown[]){{0x300, 0x20, 0x81, 0x00FF}}, 1);
}

/* "the handle answered is then the lowest of the holders' handles": also where
   the low byte of another is lower, and where that one stands first or last. */
void lowest_holder(void)
{
    static const uint16_t handles[][3] = {{0x00FF, 0x0100, 0xFFFF}, {0x00FF, 0xFFFF, 0x0100},
                                          {0x0100, 0x00FF, 0xFFFF}, {0x0100, 0xFFFF, 0x00FF},
                                          {0xFFFF, 0x00FF, 0x0100}, {0xFFFF, 0x0100, 0x00FF}};
    static const unsigned sockets[][3] = {{0, 1, 2}, {0, 3, 7}, {5, 6, 7}, {7, 4, 1}};
    for (unsigned h = 0; h < 6; h++)
        for (unsigned s = 0; s < 4; s++)
            three_holders(handles[h], sockets[s]);
}

/* One client on every socket: it is its own lowest. The handle given, be it a
   live one, a dead one or 0, makes no difference. */
void one_client_holds_all(void)
{
    static const uint16_t given[] = {0, 3, 7, 17, 0xFFFF};
    static const uint8_t first[CS_ADJUST_IRQ_LENGTH] = {CS_ACTION_FIRST, CS_RESOURCE_IRQ};
    struct model m;
    ready_set(&m, 0, 0);
    m.level[0] = (struct level){true, true};
    m.range[m.ranges++] = (struct range){1, 64, true};
    for (unsigned s = 0; s < CS_SOCKETS; s++) {
        hold_level(&m, s, 7, 0, TIME_MULTIPLEXED);
        m.io[s] = (struct io_grant){true, 7, (uint16_t)(1 + 8 * s), 8, CS_LINES, false};
    }
    lend_set(&m);
    level_shown(CS_ACTION_FIRST, 0, (struct shown){.base = 0, .attributes = 0x81, .holder = 7});
    walk_shows((struct shown[]){{1, 64, 0x80, 7}}, 1);
    for (size_t i = 0; i < sizeof given / sizeof *given; i++)
        must_be(ask_call(CS_ADJUST_RESOURCE_INFO, given[i], first, sizeof first), CS_SUCCESS, 7);
    must_be(remove_range(LONG, 1, 64), CS_IN_USE, 0);
    must_be(remove_level(0), CS_IN_USE, 0);
}

/* ---- Which ports hold a range ---- */

/* Ranges 2F8 to 2FF, 300 to 30F, 310 to 317 and 320 to 327, of which the first
   three adjoin; one grant, which holds those marked. */
static void one_grant(uint16_t base, uint8_t count, bool shared, const char *held)
{
    static const struct range ranges[] = {
        {0x2F8, 8, false}, {0x300, 16, true}, {0x310, 8, false}, {0x320, 8, true}};
    struct shown shown[4];
    struct model m;
    ready_set(&m, 0, 0);
    for (unsigned i = 0; i < 4; i++) {
        bool hold = held[i] == 'h';
        m.range[m.ranges++] = ranges[i];
        shown[i] = (struct shown){ranges[i].base, ranges[i].count,
                                  (uint8_t)(!hold    ? 0
                                            : shared ? 0x81
                                                     : 0x80),
                                  hold ? 4 : 0};
    }
    m.io[6] = (struct io_grant){true, 4, base, count, CS_LINES, shared};
    lend_set(&m);
    describe("a grant of %X, %u ports", base, count);
    walk_shows(shown, 4);
    for (unsigned i = 0; i < 4; i++) {
        bool hold = held[i] == 'h';
        must_be(remove_range(forms[i % 2], ranges[i].base, ranges[i].count),
                hold ? CS_IN_USE : CS_SUCCESS, hold ? 0 : GIVEN);
    }
}

/* A grant of one port, at both ends of ranges and beside them; grants that span
   ranges. */
void ports_that_hold(void)
{
    static const struct {
        uint16_t base;
        uint8_t count;
        const char *held;
    } cases[] = {
        {0x2F8, 1, "h..."},  {0x2FF, 1, "h..."},  {0x300, 1, ".h.."},  {0x307, 1, ".h.."},
        {0x30F, 1, ".h.."},  {0x310, 1, "..h."},  {0x317, 1, "..h."},  {0x320, 1, "...h"},
        {0x327, 1, "...h"},  {0x2F8, 8, "h..."},  {0x300, 16, ".h.."}, {0x2FF, 2, "hh.."},
        {0x2F8, 9, "hh.."},  {0x30F, 2, ".hh."},  {0x30F, 9, ".hh."},  {0x2FF, 18, "hhh."},
        {0x2F8, 32, "hhh."}, {0x2F8, 24, "hh.."}, {0x2F8, 25, "hhh."}, {0x301, 14, ".h.."},
        {0x300, 17, ".hh."}, {0x320, 8, "...h"},
    };
    for (size_t i = 0; i < sizeof cases / sizeof *cases; i++) {
        one_grant(cases[i].base, cases[i].count, false, cases[i].held);
        one_grant(cases[i].base, cases[i].count, true, cases[i].held);
    }
}

/* Ranges at both ends of the ports: 0 and 1, and FFFF. A grant can't have port
   0, so 0 alone is never held. */
void ports_at_both_ends(void)
{
    struct model m;
    ready_set(&m, 0, 0);
    m.range[m.ranges++] = (struct range){0, 1, false};
    m.range[m.ranges++] = (struct range){1, 1, false};
    m.range[m.ranges++] = (struct range){0xFFFE, 1, false};
    m.range[m.ranges++] = (struct range){0xFFFF, 1, false};
    m.io[0] = (struct io_grant){true, 2, 1, 1, CS_LINES, false};
    m.io[1] = (struct io_grant){true, 1, 0xFFFF, 1, CS_LINES, true};
    lend_set(&m);
    walk_shows(
        (struct shown[]){{0, 1, 0, 0}, {1, 1, 0x80, 2}, {0xFFFE, 1, 0, 0}, {0xFFFF, 1, 0x81, 1}},
        4);
    must_be(remove_range(SHORT, 1, 1), CS_IN_USE, 0);
    must_be(remove_range(SHORT, 0xFFFF, 1), CS_IN_USE, 0);
    must_be(remove_range(SHORT, 0, 1), CS_SUCCESS, GIVEN);
    must_be(remove_range(SHORT, 0xFFFE, 1), CS_SUCCESS, GIVEN);
    ready_set(&m, 0, 0);
    m.range[m.ranges++] = (struct range){0, 65536, false};
    m.io[5] = (struct io_grant){true, 12, 0xFF01, 255, CS_LINES, false};
    lend_set(&m);
    walk_shows((struct shown[]){{0, 65536, 0x80, 12}}, 1);
    must_be(remove_range(LONG, 0, 65536), CS_IN_USE, 0);
}

/* "For I/O, bit 0 is set if there are holders and all of them share." Up to
   eight holders of parts that don't meet, each sharing or not. */
void sharing_holders(void)
{
    for (unsigned sharing = 0; sharing < 256; sharing++)
        for (unsigned many = 0; many <= CS_SOCKETS; many += many < 3 ? 1 : 5) {
            struct model m;
            bool all = sharing % (1u << many) == (1u << many) - 1;
            if (sharing >> many != 0)
                continue;
            ready_set(&m, 0, 0);
            m.range[m.ranges++] = (struct range){0x300, 0x40, false};
            m.range[m.ranges++] = (struct range){0x340, 8, false};
            for (unsigned s = 0; s < many; s++)
                m.io[s] = (struct io_grant){true, (uint16_t)(16 - s), (uint16_t)(0x300 + 8 * s),
                                            8,    CS_LINES,           (sharing >> s & 1) != 0};
            lend_set(&m);
            walk_shows((struct shown[]){{0x300, 0x40,
                                         (uint8_t)(many == 0 ? 0
                                                   : all     ? 0x81
                                                             : 0x80),
                                         (uint16_t)(many == 0 ? 0 : 17 - many)},
                                        {0x340, 8, 0, 0}},
                       2);
        }
}

static void removed_unless(bool in_use, uint32_t base, uint32_t count)
{
    must_be(remove_range(LONG, base, count), in_use ? CS_IN_USE : CS_SUCCESS, in_use ? 0 : GIVEN);
    must_be(add_range(LONG, base, count), in_use ? CS_IN_USE : CS_SUCCESS, in_use ? 0 : GIVEN);
}

/* A grant at 6F8 that decodes ten lines answers at 2F8 too; its own ports hold
   6F8 alone. K2: "Remove is IN_USE if a live grant holds or is repeated at any port
   of the range." At nine lines or fewer there are aliases below 2F8 and between
   300 and 6F7; at fifteen or fewer there are some above 6FF. */
void aliases_hold_nothing(void)
{
    for (uint8_t lines = 4; lines <= 16; lines++) {
        struct model m;
        ready_set(&m, 0, 0);
        manage(&m, 0, 0x2F8, false);
        manage(&m, 0x2F8, 8, false);
        manage(&m, 0x300, 0x3F8, true);
        manage(&m, 0x6F8, 8, false);
        manage(&m, 0x700, 0xF900, false);
        m.io[0] = (struct io_grant){true, 3, 0x6F8, 8, lines, true};
        lend_set(&m);
        describe("%u lines", lines);
        walk_shows((struct shown[]){{0, 0x2F8, 0, 0},
                                    {0x2F8, 8, 0, 0},
                                    {0x300, 0x3F8, 0, 0},
                                    {0x6F8, 8, 0x81, 3},
                                    {0x700, 0xF900, 0, 0}},
                   5);
        removed_unless(true, 0x6F8, 8);
        removed_unless(lines <= 10, 0x2F8, 8);
        removed_unless(lines <= 9, 0, 0x2F8);
        removed_unless(lines <= 9, 0x300, 0x3F8);
        removed_unless(lines <= 15, 0x700, 0xF900);
    }
}

/* ---- A full table ---- */

/* The grants of full_set: ranges 100, 140, 180 and 1C0 by two clients each. */
void full_table_walked(void)
{
    struct shown all[CS_RANGES];
    struct model m;
    full_set(&m, CS_CLIENTS);
    lend_set(&m);
    for (unsigned i = 0; i < CS_RANGES; i++)
        all[i] = (struct shown){0x100 + 0x40 * i, 0x10, i < 4 ? 0x81 : 0,
                                (uint16_t)(i < 4 ? 2 * i + 1 : 0)};
    walk_shows(all, CS_RANGES);
    for (uint8_t level = 0; level < CS_LEVELS; level++)
        level_shown(level == 0 ? CS_ACTION_FIRST : CS_ACTION_NEXT, (uint8_t)(level - 1),
                    (struct shown){.base = level,
                                   .attributes = level < 4 ? 0x82 : 0,
                                   .holder = (uint16_t)(level < 4 ? 2 * level + 1 : 0)});
    must_be(add_range(LONG, 0x8000, 1), CS_OUT_OF_RESOURCE, 0);
    must_be(add_level(15), CS_IN_USE, 0);
    for (unsigned i = 0; i < CS_RANGES; i++)
        must_be(remove_range(SHORT, all[i].base, 0x10), i < 4 ? CS_IN_USE : CS_SUCCESS,
                i < 4 ? 0 : GIVEN);
    for (uint8_t level = 0; level < CS_LEVELS; level++)
        must_be(remove_level(level), level < 4 ? CS_IN_USE : CS_SUCCESS, level < 4 ? 0 : GIVEN);
}

/* ---- Random sets, walked and taken apart ---- */

/* By the model alone; every range and level in both forms, then removed. */
static void walk_and_remove(struct chance *c)
{
    const struct model *m = lent_facts();
    uint32_t base = pick(c, CS_PORTS);
    for (unsigned from = 0; from <= m->ranges; from++) {
        uint32_t at = from == 0 ? base : m->range[from - 1].base;
        for (unsigned f = 0; f < 2; f++)
            adjust_io(forms[f], (uint8_t)(CS_ACTION_FIRST + pick(c, 2)), at, 7 * f, 0, 0);
    }
    for (uint8_t level = 0; level < CS_LEVELS; level++) {
        adjust_irq((uint8_t)(CS_ACTION_FIRST + pick(c, 2)), 0, level);
        remove_level(level);
    }
    for (unsigned i = m->ranges; i-- > 0;)
        remove_range(LONG, m->range[i].base, m->range[i].count);
}

void random_holders(void)
{
    static struct model m;
    struct chance c = {22};
    for (unsigned i = 0; i < 400; i++) {
        random_set(&c, &m);
        lend_set(&m);
        walk_and_remove(&c);
    }
    must_hold("some were held", answered(CS_IN_USE) >= 300);
    must_hold("some were not", answered(CS_SUCCESS) >= 3000);
    must_hold("some were too large", answered(CS_BAD_SIZE) >= 100);
}
