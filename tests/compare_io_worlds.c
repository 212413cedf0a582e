#include <string.h>

#include "check.h"
#include "compare.h"
#include "sets.h"
#include "sockets.h"

/* RequestIO and ReleaseIO by chance. In a small world, of few ports and few lines,
   most ranges are near each other or each other's aliases; in a large one counts
   and lines are any. Grants are made by the calls themselves. A card of few lines
   answers at many ports: in most small worlds the ports beyond are managed too.
   compare_io_answering.c has more of such. */

/* How many worlds, and how many questions in each: the model's search for a base
   that finds none looks at up to 65,535 candidates. */
enum { SMALL_WORLDS = 1200, IN_SMALL = 40, LARGE_WORLDS = 60, IN_LARGE = 60 };
enum { BARRED_WORLDS = 240, IN_BARRED = 24 };

struct world {
    uint32_t low, ports; /* the ports that are spoken of: so many from low on */
    uint32_t most;       /* NumPorts1 is mostly not over it */
    uint8_t few, many;   /* IOAddrLines is mostly from few to many, or 16 */
    uint32_t one_range;  /* one in so many has one range of all these ports */
    bool beyond;         /* all other ports are managed */
};

/* A world in low ports, or up to FFFF. */
static struct world small_world(struct chance *c)
{
    uint32_t ports = 16u << pick(c, 3), low = one_in(c, 12) ? CS_PORTS - ports : 0;
    return (struct world){low, ports, 9, 3, 7, 4, !one_in(c, 3)};
}

static const struct world large_world = {0, CS_PORTS, 255, 1, 16, 2, false};

/* Up to so many ranges, which may adjoin, none larger than this. */
static void manage_some(struct chance *c, const struct world *w, unsigned ranges, uint32_t largest)
{
    struct model m;
    ready_set(&m, 0, 0);
    if (w->beyond)
        manage(&m, w->low == 0 ? w->ports : 0, CS_PORTS - w->ports, one_in(c, 16));
    if (one_in(c, w->one_range))
        manage(&m, w->low, w->ports, one_in(c, 4));
    for (unsigned i = 0; i < ranges && m.ranges < ranges; i++) {
        uint32_t base = w->low + pick(c, w->ports), count = 1 + pick(c, largest);
        bool adjoins = m.ranges > 0 && one_in(c, 2);
        if (adjoins)
            base = m.range[m.ranges - 1].base + m.range[m.ranges - 1].count;
        manage(&m, base, count, one_in(c, 3));
        if (!well_formed(&m))
            m.ranges--;
    }
    lend_set(&m);
}

/* ---- Questions ---- */

/* How often what was asked for came about. */
static struct {
    unsigned long named, chosen; /* granted */
    unsigned long joined;        /* granted, meeting a grant that shares */
    unsigned long met;           /* IN_USE: named ports meet a grant */
    unsigned long by_lines;      /* the same, and no grant has one of these ports */
    unsigned long none;          /* IN_USE: no candidate */
} seen;

static bool meets_one(const struct model *m, const struct io_grant *wish)
{
    for (unsigned s = 0; s < CS_SOCKETS; s++)
        if (m->io[s].live && meet(&m->io[s], wish))
            return true;
    return false;
}

static bool holds_one(const struct model *m, const struct io_grant *wish)
{
    for (unsigned s = 0; s < CS_SOCKETS; s++)
        if (m->io[s].live && m->io[s].base < wish->base + wish->count &&
            wish->base < m->io[s].base + m->io[s].count)
            return true;
    return false;
}

/* Of a request at a socket without a grant. */
static void count_request(const struct model *before, const struct io_grant *wish, uint32_t code)
{
    if (wish->base == 0) {
        seen.chosen += code == CS_SUCCESS;
        seen.none += code == CS_IN_USE;
        return;
    }
    seen.named += code == CS_SUCCESS;
    seen.joined += code == CS_SUCCESS && meets_one(before, wish);
    seen.met += code == CS_IN_USE;
    seen.by_lines += code == CS_IN_USE && !holds_one(before, wish);
}

/* Near a grant's base or an alias of it, where there is a grant; else any port. */
static uint32_t some_base(struct chance *c, const struct model *m, const struct world *w)
{
    const struct io_grant *g = &m->io[pick(c, CS_SOCKETS)];
    if (!g->live || one_in(c, 3))
        return w->low + pick(c, w->ports + 2);
    uint32_t alias = g->base + (pick(c, 4) << g->lines);
    return alias + pick(c, 5) - 2;
}

static uint8_t some_lines(struct chance *c, const struct world *w)
{
    if (one_in(c, 3))
        return 16;
    if (one_in(c, 24))
        return (uint8_t)pick(c, 256);
    return (uint8_t)(w->few + pick(c, w->many - w->few + 1u));
}

static void ask_request(struct chance *c, const struct world *w, uint8_t socket)
{
    static const uint8_t known[] = {ALONE, ALONE, SHARED, SHARED, SHARED, FIRST_SHARED, 13, 15};
    struct model before = *lent_facts();
    uint8_t count = (uint8_t)(one_in(c, 24) ? pick(c, 256) : 1 + pick(c, w->most));
    uint8_t attributes = one_in(c, 24) ? (uint8_t)pick(c, 256) : known[pick(c, sizeof known)];
    uint16_t base = (uint16_t)(one_in(c, 3) ? 0 : some_base(c, &before, w));
    uint16_t client = (uint16_t)(1 + pick(c, CS_CLIENTS + one_in(c, 24)));
    struct io_grant wish = {.base = base, .count = count, .lines = some_lines(c, w)};
    uint32_t answer = request_io(client, socket, base, count, attributes, wish.lines);
    if (!before.io[socket].live)
        count_request(&before, &wish, CS_CODE(answer));
}

/* Mostly what is held, by its client. */
static void ask_release(struct chance *c, uint8_t socket)
{
    struct io_grant g = lent_facts()->io[socket];
    if (one_in(c, 12))
        g.client = (uint16_t)(1 + pick(c, CS_CLIENTS));
    if (one_in(c, 12))
        g.base = (uint16_t)(g.base + pick(c, 3) - 1);
    if (one_in(c, 12))
        g.count = (uint8_t)(g.count + pick(c, 3) - 1);
    release_io(g.client, socket, g.base, g.count);
}

static void ask_some(struct chance *c, const struct world *w, unsigned questions)
{
    for (unsigned i = 0; i < questions; i++) {
        uint8_t socket = (uint8_t)pick(c, CS_SOCKETS);
        if (lent_facts()->io[socket].live && !one_in(c, 6))
            ask_release(c, socket);
        else
            ask_request(c, w, socket);
    }
}

static void each_came_about(unsigned long least)
{
    must_hold("named ports were granted", seen.named >= least);
    must_hold("ports were chosen", seen.chosen >= least);
    must_hold("a request joined a grant that shares", seen.joined >= least);
    must_hold("named ports met a grant", seen.met >= least);
    must_hold("they met it by its lines alone", seen.by_lines >= least);
    must_hold("there was no candidate", seen.none >= least);
    must_hold("ports were past FFFF or unmanaged",
              answered_to(CS_REQUEST_IO, CS_BAD_BASE) >= least);
    must_hold("grants were given back", answered_to(CS_RELEASE_IO, CS_SUCCESS) >= least);
    must_hold("releases were refused", answered_to(CS_RELEASE_IO, CS_BAD_BASE) >= least);
}

void io_small_worlds(void)
{
    struct chance c = {41};
    memset(&seen, 0, sizeof seen);
    for (unsigned i = 0; i < SMALL_WORLDS; i++) {
        struct world w = small_world(&c);
        manage_some(&c, &w, 6, w.ports / 2);
        begin_log(i % 100 == 0 ? AFTER_EACH : AT_THE_END);
        ask_some(&c, &w, IN_SMALL);
        end_log();
    }
    each_came_about(700);
}

void io_large_worlds(void)
{
    struct chance c = {42};
    memset(&seen, 0, sizeof seen);
    for (unsigned i = 0; i < LARGE_WORLDS; i++) {
        manage_some(&c, &large_world, 1 + pick(&c, CS_RANGES), 4096);
        begin_log(i % 20 == 0 ? AFTER_EACH : AT_THE_END);
        ask_some(&c, &large_world, IN_LARGE);
        end_log();
    }
    each_came_about(60);
}

/* ---- Bases that are chosen where few are free ---- */

/* Ranges of one size, so far apart that they lie alike modulo a power of two, or
   each a little further on; or ranges that adjoin, and all ports. How few lines a
   card can have there, that all of its ports are managed. */
static uint8_t manage_alike(struct chance *c)
{
    struct model m;
    bool adjoin = one_in(c, 16);
    uint8_t bits = (uint8_t)(11 + pick(c, 4));
    uint32_t apart = (uint32_t)1 << bits, from = adjoin ? 0 : pick(c, apart / 2);
    uint32_t count = adjoin ? apart : 1 + pick(c, 512);
    uint32_t slip = adjoin || !one_in(c, 4) ? 0 : pick(c, 9);
    ready_set(&m, 0, 0);
    for (uint32_t base = from; base + count <= CS_PORTS; base += apart + slip)
        manage(&m, base, count, one_in(c, 2));
    lend_set(&m);
    return adjoin ? 5 : bits;
}

/* Shared grants on all sockets but the last, of cards that decode few lines: each
   bars the same bases again and again. */
static void bar_some(struct chance *c, uint8_t few)
{
    for (uint8_t s = 0; s < CS_SOCKETS - 1; s++) {
        const struct model *m = lent_facts();
        const struct range *r = &m->range[pick(c, m->ranges)];
        uint8_t lines = (uint8_t)(one_in(c, 8) ? 1 + pick(c, 16) : few + pick(c, 3));
        uint32_t most = (uint32_t)1 << lines;
        most = most < r->count ? most : r->count;
        uint32_t count = 1 + pick(c, most < 255 ? most : 255);
        uint32_t base = r->base + pick(c, r->count - count + 1);
        request_io(1, s, (uint16_t)base, (uint8_t)count, SHARED, lines);
    }
}

/* The last socket asks for any base, and gives it back. */
static void ask_chosen(struct chance *c, uint8_t few)
{
    const uint8_t last = CS_SOCKETS - 1;
    uint8_t count = (uint8_t)(one_in(c, 2) ? 1 + pick(c, 8) : 1 + pick(c, 255));
    uint8_t lines = (uint8_t)(one_in(c, 4) ? 8 + pick(c, 9) : few + pick(c, 17u - few));
    uint32_t code = CS_CODE(request_io(2, last, 0, count, one_in(c, 2) ? SHARED : ALONE, lines));
    seen.chosen += code == CS_SUCCESS;
    seen.none += code == CS_IN_USE;
    if (code == CS_SUCCESS)
        release_io(2, last, lent_facts()->io[last].base, count);
}

void io_barred_worlds(void)
{
    struct chance c = {43};
    memset(&seen, 0, sizeof seen);
    for (unsigned i = 0; i < BARRED_WORLDS; i++) {
        uint8_t few = manage_alike(&c);
        begin_log(i % 100 == 0 ? AFTER_EACH : AT_THE_END);
        bar_some(&c, few);
        for (unsigned k = 0; k < IN_BARRED; k++)
            ask_chosen(&c, few);
        end_log();
    }
    must_hold("ports were chosen where few bases are free", seen.chosen >= 2000);
    must_hold("there was no candidate where few bases are free", seen.none >= 2000);
}
