#include "check.h"
#include "compare.h"
#include "resources.h"
#include "sets.h"
#include "sockets.h"

/* K1: "A sharing request without First Shared shall by default take the lowest
   named level that already has grants of its manner; only if none exists, the
   old choice. Exclusive and First Shared requests keep the old choice." */

enum { FIRST = 8 };

/* Socket 0's request of client 6, by mask, and the level that it takes;
   CS_LEVELS if none fits. */
static void takes(unsigned a, uint16_t first, uint16_t named, uint8_t level)
{
    uint16_t attributes = asked[a].attributes | first;
    uint8_t info_1 = asked[a].info_1 | 0x10;
    if (level == CS_LEVELS)
        irq_refused(6, 0, attributes, info_1, named, CS_BAD_IRQ);
    else
        manner_granted(6, 0, attributes, info_1, named, level, asked[a].manner);
}

/* ---- Two levels ---- */

/* All levels are managed. The lower is held by socket 4 in one manner, the
   higher by socket 2 in another; NOBODY's is no grant. */
enum { NOBODY = 0xFF };
struct two {
    uint8_t low, high;
    uint16_t reserved;
};

static void lend_two(const struct two *t, uint8_t low_manner, uint8_t high_manner)
{
    struct model m;
    ready_set(&m, 0xFFFF, t->reserved);
    if (low_manner != NOBODY)
        m.irq[4] = (struct irq_grant){true, 3, t->low, low_manner};
    if (high_manner != NOBODY)
        m.irq[2] = (struct irq_grant){true, 9, t->high, high_manner};
    lend_set(&m);
    describe("levels %u and %u, reserved %04X, held in %u and %u", t->low, t->high, t->reserved,
             low_manner, high_manner);
}

/* Where a level has a grant of the manner it is taken, reserved or not, the
   lowest of two; one that isn't named isn't. */
static void of_its_manner(const struct two *t, unsigned a)
{
    uint8_t manner = asked[a].manner;
    uint16_t lower = (uint16_t)(1u << t->low), higher = (uint16_t)(1u << t->high);
    lend_two(t, NOBODY, manner);
    takes(a, 0, lower | higher, t->high);
    lend_two(t, NOBODY, manner);
    takes(a, 0, lower, t->low);
    lend_two(t, manner, NOBODY);
    takes(a, 0, lower | higher, t->low);
    lend_two(t, manner, NOBODY);
    takes(a, 0, higher, t->high);
    lend_two(t, manner, manner);
    takes(a, 0, lower | higher, t->low);
    lend_two(t, manner, manner);
    takes(a, 0, higher, t->high);
}

/* The old choice: with First Shared, and for Exclusive. */
static void old_choice(const struct two *t, unsigned a)
{
    uint8_t manner = asked[a].manner;
    uint16_t both = (uint16_t)(1u << t->low | 1u << t->high);
    lend_two(t, NOBODY, manner);
    takes(a, FIRST, both, t->low);
    lend_two(t, manner, NOBODY);
    takes(a, FIRST, both, t->high);
    lend_two(t, manner, manner);
    takes(a, FIRST, both, CS_LEVELS);
    lend_two(t, NOBODY, NOBODY);
    takes(a, 0, both, first_level(both, t->reserved));
    lend_two(t, NOBODY, manner);
    takes(0, 0, both, t->low);
    lend_two(t, manner, NOBODY);
    takes(0, 0, both, t->high);
    lend_two(t, manner, manner);
    takes(0, 0, both, CS_LEVELS);
}

/* A level of another manner isn't joined, of the same type or not. */
static void of_another(const struct two *t, unsigned a, uint8_t other)
{
    uint16_t both = (uint16_t)(1u << t->low | 1u << t->high);
    lend_two(t, NOBODY, other);
    takes(a, 0, both, t->low);
    lend_two(t, other, NOBODY);
    takes(a, 0, both, t->high);
    lend_two(t, other, asked[a].manner);
    takes(a, 0, both, t->high);
    lend_two(t, asked[a].manner, other);
    takes(a, 0, both, t->low);
    lend_two(t, other, other);
    takes(a, 0, both, CS_LEVELS);
}

static void try_two(const struct two *t)
{
    for (unsigned a = 1; a < ASKED; a++) {
        of_its_manner(t, a);
        old_choice(t, a);
        for (uint8_t other = 0; other < MANNERS; other++)
            if (other != asked[a].manner)
                of_another(t, a, other);
    }
}

void irq_joins_of_two(void)
{
    for (uint8_t low = 0; low < CS_LEVELS; low++)
        for (uint8_t high = (uint8_t)(low + 1); high < CS_LEVELS; high++) {
            uint16_t lower = (uint16_t)(1u << low), higher = (uint16_t)(1u << high);
            uint16_t reserved[] = {0, lower, higher, lower | higher};
            for (unsigned i = 0; i < 4; i++)
                try_two(&(struct two){low, high, reserved[i]});
        }
}

/* ---- Many levels ---- */

/* Up to seven grants, from sockets 1 to 7, on levels that have each one manner;
   told are the levels held, and of these those of each manner. */
static uint16_t hold_some(struct chance *c, struct model *m, uint16_t managed,
                          uint16_t of_manner[MANNERS])
{
    uint8_t manners[CS_LEVELS];
    uint16_t held = 0;
    for (unsigned level = 0; level < CS_LEVELS; level++)
        manners[level] = (uint8_t)pick(c, MANNERS);
    for (unsigned s = 1; s < CS_SOCKETS; s++) {
        uint8_t level = (uint8_t)pick(c, CS_LEVELS), manner = manners[level];
        uint16_t here = (uint16_t)(1u << level);
        if ((managed & here) == 0 || (manner == EXCLUSIVE && (held & here) != 0))
            continue;
        m->irq[s] = (struct irq_grant){true, (uint16_t)(1 + pick(c, CS_CLIENTS)), level, manner};
        held |= here;
        of_manner[manner] |= here;
    }
    return held;
}

/* Whether a level was joined. */
static bool join_by_chance(struct chance *c)
{
    struct model m;
    uint16_t of_manner[MANNERS] = {0};
    uint16_t managed = (uint16_t)pick(c, 65536);
    uint16_t reserved = (uint16_t)(managed & pick(c, 65536));
    uint16_t named = (uint16_t)(pick(c, 65536) | 1u << pick(c, CS_LEVELS));
    ready_set(&m, managed, reserved);
    uint16_t held = hold_some(c, &m, managed, of_manner);
    lend_set(&m);
    unsigned a = pick(c, ASKED);
    bool first = asked[a].manner != EXCLUSIVE && one_in(c, 4);
    uint16_t joined = 0;
    if (asked[a].manner != EXCLUSIVE && !first)
        joined = named & of_manner[asked[a].manner];
    describe("managed %04X, reserved %04X, held %04X", managed, reserved, held);
    takes(a, first ? FIRST : 0, named,
          joined != 0 ? lowest_level(joined)
                      : first_level(named & managed & (uint16_t)~held, reserved));
    return joined != 0;
}

void irq_joins_of_many(void)
{
    struct chance c = {33};
    unsigned joined = 0;
    for (unsigned i = 0; i < 6000; i++)
        joined += join_by_chance(&c);
    must_hold("some were joined", joined >= 1000);
    must_hold("some took the old choice", answered(CS_SUCCESS) >= joined + 1000);
    must_hold("some didn't fit", answered(CS_BAD_IRQ) >= 20);
}

/* ---- From a fresh table and by calls alone ---- */

/* Level 3 is managed, and 5 with reserve; client 1, and cards in sockets 0 to 3. */
static void lend_3_and_5(void)
{
    lend_fresh(4);
    must_be(add_level(3), CS_SUCCESS, GIVEN);
    must_be(adjust_irq(CS_ACTION_ADD, CS_RESERVE, 5), CS_SUCCESS, GIVEN);
    must_be(register_one(), CS_SUCCESS, 1);
    for (uint32_t socket = 0; socket < 4; socket++)
        must_be(ask_card_in(socket), CS_SUCCESS, 0);
}

/* The reserved level with a sharer before the free unreserved one; First Shared
   takes that; then both have one, and the lowest is joined. */
static void reserved_then_lowest(void)
{
    lend_3_and_5();
    irq_granted(1, 0, 2, 0xA5, 0, 5);
    irq_granted(1, 1, 2, 0xB0, 0x0028, 5);
    irq_granted(1, 2, 10, 0xB0, 0x0028, 3);
    irq_granted(1, 3, 2, 0xB0, 0x0028, 3);
    must_be(ask_sharers(3), CS_SUCCESS, 2);
    must_be(ask_sharers(5), CS_SUCCESS, 2);
}

/* The last sharer gone, and the level is as free as before. */
static void last_sharer_gone(void)
{
    lend_3_and_5();
    irq_granted(1, 0, 1, 0xA5, 0, 5);
    irq_granted(1, 1, 1, 0xB0, 0x0028, 5);
    must_be(release_irq(1, 0, 1, 5), CS_SUCCESS, 1);
    irq_granted(1, 2, 1, 0xB0, 0x0028, 5);
    must_be(release_irq(1, 1, 1, 5), CS_SUCCESS, 1);
    must_be(release_irq(1, 2, 1, 5), CS_SUCCESS, 1);
    irq_granted(1, 3, 1, 0xB0, 0x0028, 3);
}

/* Dynamic pulse does not join dynamic level; Exclusive joins neither; a level
   that isn't named isn't taken, and named alone it is. */
static void others_keep_out(void)
{
    lend_3_and_5();
    irq_granted(1, 0, 2, 0xA5, 0, 5);
    pulse_granted(1, 1, 6, 0xF0, 0x0028, 3);
    irq_refused(1, 2, 0, 0xB0, 0x0028, CS_BAD_IRQ);
    pulse_granted(1, 2, 2, 0xD0, 0x0028, 3);
    irq_granted(1, 3, 2, 0xF0, 0x0028, 5);
    lend_3_and_5();
    irq_granted(1, 0, 2, 0xA5, 0, 5);
    irq_granted(1, 1, 0, 0xB0, 0x0028, 3);
    lend_3_and_5();
    irq_granted(1, 0, 2, 0xA5, 0, 5);
    irq_granted(1, 1, 2, 0xA3, 0, 3);
    irq_granted(1, 2, 2, 0xB0, 0x0020, 5);
}

/* A card that has gone leaves its grant, and that is joined. */
static void card_gone(void)
{
    lend_3_and_5();
    irq_granted(1, 0, 2, 0xA5, 0, 5);
    must_be(ask_card_out(0), CS_SUCCESS, 0);
    irq_granted(1, 1, 2, 0xB0, 0x0028, 5);
}

void irq_joins_by_calls(void)
{
    reserved_then_lowest();
    last_sharer_gone();
    others_keep_out();
    card_gone();
}

/* "Our two-link consoles run out of levels": all eight sockets name any level,
   and the fifteen others stay free. */
void irq_joins_to_the_last(void)
{
    for (unsigned a = 1; a < ASKED; a++) {
        uint8_t info_1 = asked[a].info_1 | 0x10;
        lend_ready(0xFFFF, 0x0010);
        manner_granted(1, 0, asked[a].attributes, asked[a].info_1 | 4, 0, 4, asked[a].manner);
        for (uint8_t s = 1; s < CS_SOCKETS; s++)
            manner_granted(s, s, asked[a].attributes, info_1, 0xFFFF, 4, asked[a].manner);
        must_be(ask_sharers(4), CS_SUCCESS, CS_SOCKETS);
        must_be(ask_sharers(0), CS_SUCCESS, 0);
    }
}
