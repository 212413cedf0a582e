#include "log.h"

#include <stdio.h>
#include <string.h>

#include "names.h"

/* ---- Entries ---- */

enum { MOST_ENTRIES = 1024, MOST_BYTES = 1 << 17, MOST_PRINTED = 32 };

struct entry {
    enum { SERVICE, CARD_IN, CARD_OUT, SHARERS, BOOT, FRESH } of;
    uint32_t number;             /* given: a service, a socket, a level or a socket count */
    uint16_t handle;             /* given to a service */
    const uint8_t *given, *left; /* a packet before and after; or a boot list */
    size_t len;
    uint32_t code, answered; /* answered: a handle, a count or a place */
};

static struct entry entry[MOST_ENTRIES];
static unsigned entries;
static bool is_open, overflowed;

/* What the table said at the start. */
static struct facts start;
static unsigned sockets_at_start, issued_at_start;

/* The packets and boot lists of the entries. */
static uint8_t bytes[MOST_BYTES];
static size_t bytes_kept;

static const uint8_t *keep(const uint8_t *from, size_t len)
{
    uint8_t *to = bytes + bytes_kept;
    if (len > 0)
        memcpy(to, from, len);
    bytes_kept += len;
    return to;
}

/* Whether there is to be an entry, with so many bytes. */
static bool takes(size_t len)
{
    if (is_open && (entries == MOST_ENTRIES || len > MOST_BYTES - bytes_kept))
        overflowed = true;
    return is_open && !overflowed;
}

static void enter(struct entry e, uint32_t answer)
{
    e.code = CS_CODE(answer);
    e.answered = CS_HANDLE(answer);
    entry[entries++] = e;
}

void log_call(uint16_t service, uint16_t handle, const uint8_t *given, const uint8_t *left,
              size_t len, uint32_t answer)
{
    if (!takes(2 * len))
        return;
    struct entry e = {.of = SERVICE, .number = service, .handle = handle, .len = len};
    e.given = keep(given, len);
    e.left = keep(left, len);
    enter(e, answer);
}

void log_card_in(uint32_t socket, uint32_t answer)
{
    if (takes(0))
        enter((struct entry){.of = CARD_IN, .number = socket}, answer);
}

void log_card_out(uint32_t socket, uint32_t answer)
{
    if (takes(0))
        enter((struct entry){.of = CARD_OUT, .number = socket}, answer);
}

void log_sharers(uint32_t level, uint32_t answer)
{
    if (takes(0))
        enter((struct entry){.of = SHARERS, .number = level}, answer);
}

void log_fresh(uint32_t sockets, uint32_t answer)
{
    if (takes(0))
        enter((struct entry){.of = FRESH, .number = sockets}, answer);
}

void log_boot(const uint8_t *records, size_t len, uint64_t answer)
{
    if (!takes(len))
        return;
    entry[entries++] = (struct entry){
        .of = BOOT,
        .given = keep(records, len),
        .len = len,
        .code = CS_BOOT_CODE(answer),
        .answered = CS_BOOT_PLACE(answer),
    };
}

/* ---- What an entry was given and answered ---- */

/* Little-endian; past the end there is 0. */
static uint32_t number_at(const uint8_t *from, size_t len, size_t at, size_t size)
{
    uint32_t value = 0;
    for (size_t i = 0; i < size && at + i < len; i++)
        value |= (uint32_t)from[at + i] << (8 * i);
    return value;
}

static uint32_t given(const struct entry *e, size_t at, size_t size)
{
    return number_at(e->given, e->len, at, size);
}

static uint32_t left(const struct entry *e, size_t at, size_t size)
{
    return number_at(e->left, e->len, at, size);
}

static bool done(const struct entry *e, uint16_t service)
{
    return e->code == CS_SUCCESS && e->of == SERVICE && e->number == service;
}

static bool adjusted(const struct entry *e, uint32_t action, uint32_t resource)
{
    return done(e, CS_ADJUST_RESOURCE_INFO) && given(e, 0, 1) == action &&
           given(e, 1, 1) == resource;
}

/* The packets of grants and masks begin with it. */
static uint32_t socket_given(const struct entry *e)
{
    return given(e, 0, 1);
}

static bool reserve(uint32_t attributes)
{
    return (attributes & CS_RESERVE) != 0;
}

/* "IRQ: attributes at 2, level at 3." */
static struct fact level_given(const struct entry *e)
{
    return (struct fact){LEVEL, {given(e, 3, 1), reserve(given(e, 2, 1))}};
}

/* "I/O fields, short: base 2 bytes at 2, ports 1 at 4, attributes at 5 .. Long:
   base 4 at 2, ports 4 at 6, attributes at 10" */
static struct fact range_given(const struct entry *e)
{
    if (e->len == CS_ADJUST_IO_SHORT_LENGTH)
        return (struct fact){RANGE, {given(e, 2, 2), given(e, 4, 1), reserve(given(e, 5, 1))}};
    return (struct fact){RANGE, {given(e, 2, 4), given(e, 6, 4), reserve(given(e, 10, 1))}};
}

/* "Dynamic is pulse if Force Pulse is set or the card lacks Level." The attributes
   are 2 bytes at 2, IRQInfo1 is at 5. */
static uint32_t manner_given(const struct entry *e)
{
    uint32_t attributes = given(e, 2, 2), info_1 = given(e, 5, 1);
    bool pulse = (attributes & CS_IRQ_FORCE_PULSE) != 0 || (info_1 & CS_IRQ_INFO_LEVEL) == 0;
    switch (attributes & CS_IRQ_TYPE) {
    case CS_IRQ_EXCLUSIVE:
        return EXCLUSIVE;
    case CS_IRQ_TIME_MULTIPLEXED:
        return TIME_MULTIPLEXED;
    default:
        return pulse ? DYNAMIC_PULSE : DYNAMIC_LEVEL;
    }
}

/* Dynamic level and dynamic pulse are of one type. */
static uint32_t type_of(uint32_t manner)
{
    switch (manner) {
    case EXCLUSIVE:
        return CS_IRQ_EXCLUSIVE;
    case TIME_MULTIPLEXED:
        return CS_IRQ_TIME_MULTIPLEXED;
    default:
        return CS_IRQ_DYNAMIC;
    }
}

/* ---- The rules of each kind: which entry makes a fact, and which gives it back ---- */

static bool client_made(const struct entry *e, struct fact *f)
{
    if (!done(e, CS_REGISTER_CLIENT))
        return false;
    *f = (struct fact){CLIENT, {e->answered, given(e, 0, 2), given(e, 2, 2)}};
    return true;
}

static bool client_given_back(const struct entry *e, const struct fact *f)
{
    return done(e, CS_DEREGISTER_CLIENT) && e->handle == f->value[0];
}

static bool mask_made(const struct entry *e, struct fact *f)
{
    if (!done(e, CS_REQUEST_SOCKET_MASK))
        return false;
    *f = (struct fact){MASK, {e->handle, socket_given(e), given(e, 2, 2)}};
    return true;
}

static bool mask_given_back(const struct entry *e, const struct fact *f)
{
    return done(e, CS_RELEASE_SOCKET_MASK) && e->handle == f->value[0] &&
           socket_given(e) == f->value[1];
}

static bool level_made(const struct entry *e, struct fact *f)
{
    if (!adjusted(e, CS_ACTION_ADD, CS_RESOURCE_IRQ))
        return false;
    *f = level_given(e);
    return true;
}

static bool level_given_back(const struct entry *e, const struct fact *f)
{
    return adjusted(e, CS_ACTION_REMOVE, CS_RESOURCE_IRQ) && level_given(e).value[0] == f->value[0];
}

static bool range_made(const struct entry *e, struct fact *f)
{
    if (!adjusted(e, CS_ACTION_ADD, CS_RESOURCE_IO))
        return false;
    *f = range_given(e);
    return true;
}

static bool range_given_back(const struct entry *e, const struct fact *f)
{
    if (!adjusted(e, CS_ACTION_REMOVE, CS_RESOURCE_IO))
        return false;
    struct fact r = range_given(e);
    return r.value[0] == f->value[0] && r.value[1] == f->value[1];
}

static bool card_made(const struct entry *e, struct fact *f)
{
    *f = (struct fact){CARD, {e->number}};
    return e->of == CARD_IN && e->code == CS_SUCCESS;
}

static bool card_given_back(const struct entry *e, const struct fact *f)
{
    return e->of == CARD_OUT && e->code == CS_SUCCESS && e->number == f->value[0];
}

/* Where the values of grants stand. */
enum { SOCKET = 0, HOLDER = 1 };
enum { IO_BASE = 2, IO_COUNT = 3, IO_LINES = 4, IO_SHARED = 5 };
enum { IRQ_LEVEL = 2, IRQ_MANNER = 3 };

/* "Success writes BasePort1": it is read where it was written. */
static bool io_grant_made(const struct entry *e, struct fact *f)
{
    if (!done(e, CS_REQUEST_IO))
        return false;
    uint32_t count = given(e, 4, 1), lines = given(e, 10, 1);
    bool shared = (given(e, 5, 1) & CS_IO_SHARED) != 0;
    *f = (struct fact){IO_GRANT, {socket_given(e), e->handle, left(e, 2, 2), count, lines, shared}};
    return true;
}

/* "BAD_BASE unless this client holds that base and count on this socket." */
static bool io_grant_given_back(const struct entry *e, const struct fact *f)
{
    return done(e, CS_RELEASE_IO) && socket_given(e) == f->value[SOCKET] &&
           e->handle == f->value[HOLDER] && given(e, 2, 2) == f->value[IO_BASE] &&
           given(e, 4, 1) == f->value[IO_COUNT];
}

/* "Success writes AssignedIRQ": the same. */
static bool irq_grant_made(const struct entry *e, struct fact *f)
{
    if (!done(e, CS_REQUEST_IRQ))
        return false;
    *f = (struct fact){IRQ_GRANT, {socket_given(e), e->handle, left(e, 4, 1), manner_given(e)}};
    return true;
}

/* "BAD_IRQ unless this client holds this level on this socket; only then
   BAD_ATTRIBUTE if the type bits differ." */
static bool irq_grant_given_back(const struct entry *e, const struct fact *f)
{
    return done(e, CS_RELEASE_IRQ) && socket_given(e) == f->value[SOCKET] &&
           e->handle == f->value[HOLDER] && given(e, 4, 1) == f->value[IRQ_LEVEL] &&
           (given(e, 2, 2) & CS_IRQ_TYPE) == type_of(f->value[IRQ_MANNER]);
}

static const struct {
    const char *name, *value_names[MOST_VALUES];
    bool (*made)(const struct entry *e, struct fact *f);
    bool (*given_back)(const struct entry *e, const struct fact *f);
} rules[KINDS] = {
    [CLIENT] = {"client", {"handle", "attributes", "event mask"}, client_made, client_given_back},
    [MASK] = {"mask", {"handle", "socket", "events"}, mask_made, mask_given_back},
    [LEVEL] = {"managed level", {"level", "reserved"}, level_made, level_given_back},
    [RANGE] = {"managed range", {"base", "count", "reserved"}, range_made, range_given_back},
    [CARD] = {"card", {"socket"}, card_made, card_given_back},
    [IO_GRANT] = {"I/O grant",
                  {"socket", "client", "base", "count", "lines", "shared"},
                  io_grant_made,
                  io_grant_given_back},
    [IRQ_GRANT] = {"IRQ grant",
                   {"socket", "client", "level", "manner"},
                   irq_grant_made,
                   irq_grant_given_back},
};

/* ---- A boot list makes a managed level or range of each of its "earlier ones",
   the records before the place that it answered ---- */

static unsigned records_added(const struct entry *e)
{
    size_t records = e->len / CS_BOOT_RECORD;
    return e->answered < records ? e->answered : (unsigned)records;
}

/* "A record has a resource type and attributes of one byte, a base or level and a
   port count of four" */
static struct fact record_added(const struct entry *e, unsigned place)
{
    size_t at = place * CS_BOOT_RECORD;
    uint32_t number = given(e, at + 2, 4), ports = given(e, at + 6, 4);
    bool reserved = reserve(given(e, at + 1, 1));
    if (given(e, at, 1) == CS_RESOURCE_IO)
        return (struct fact){RANGE, {number, ports, reserved}};
    return (struct fact){LEVEL, {number, reserved}};
}

/* ---- What any entry makes: so many facts at most, and which they are ---- */

static unsigned most_made(const struct entry *e)
{
    return e->of == BOOT ? records_added(e) : 1;
}

static bool made(const struct entry *e, unsigned i, enum kind kind, struct fact *f)
{
    if (e->of != BOOT)
        return rules[kind].made(e, f);
    *f = record_added(e, i);
    return f->kind == kind;
}

/* ---- Lists of facts ---- */

static bool same(const struct fact *a, const struct fact *b)
{
    if (a->kind != b->kind)
        return false;
    for (unsigned i = 0; i < MOST_VALUES; i++)
        if (a->value[i] != b->value[i])
            return false;
    return true;
}

static bool has(const struct facts *l, const struct fact *f)
{
    for (unsigned i = 0; i < l->many; i++)
        if (same(&l->fact[i], f))
            return true;
    return false;
}

static void list(struct facts *l, struct fact f)
{
    if (has(l, &f))
        return;
    if (l->many < MOST_FACTS)
        l->fact[l->many++] = f;
    else
        l->more = true;
}

static void begin_list(struct facts *l)
{
    l->many = 0;
    l->more = false;
}

/* ---- What a table says ---- */

static void list_client(struct facts *l, const struct client *c)
{
    list(l, (struct fact){CLIENT, {c->handle, c->attributes, c->event_mask}});
    for (uint32_t s = 0; s < CS_SOCKETS; s++)
        if (c->masks[s].held)
            list(l, (struct fact){MASK, {c->handle, s, c->masks[s].events}});
}

static void list_socket(struct facts *l, const struct model *m, uint32_t s)
{
    const struct io_grant *io = &m->io[s];
    const struct irq_grant *irq = &m->irq[s];
    if (m->card[s])
        list(l, (struct fact){CARD, {s}});
    if (io->live)
        list(l,
             (struct fact){IO_GRANT, {s, io->client, io->base, io->count, io->lines, io->shared}});
    if (irq->live)
        list(l, (struct fact){IRQ_GRANT, {s, irq->client, irq->level, irq->manner}});
}

static void what_is_said(const struct model *m, struct facts *out)
{
    begin_list(out);
    for (unsigned i = 0; i < m->clients; i++)
        list_client(out, &m->client[i]);
    for (uint32_t level = 0; level < CS_LEVELS; level++)
        if (m->level[level].managed)
            list(out, (struct fact){LEVEL, {level, m->level[level].reserved}});
    for (const struct range *r = m->range; r < m->range + m->ranges; r++)
        list(out, (struct fact){RANGE, {r->base, r->count, r->reserved}});
    for (uint32_t s = 0; s < CS_SOCKETS; s++)
        list_socket(out, m, s);
}

void open_log(const struct model *said_at_start)
{
    what_is_said(said_at_start, &start);
    sockets_at_start = said_at_start->sockets;
    issued_at_start = said_at_start->issued;
    entries = 0;
    bytes_kept = 0;
    overflowed = false;
    is_open = true;
}

void close_log(void)
{
    is_open = false;
}

/* ---- What stands ---- */

/* Lists it if no entry from one place up to another gives it back. A refusal gives
   nothing back. */
static void list_if_it_lasts(struct facts *out, struct fact f, unsigned from, unsigned to)
{
    for (unsigned place = from; place < to; place++)
        if (entry[place].code == CS_SUCCESS && rules[f.kind].given_back(&entry[place], &f))
            return;
    list(out, f);
}

/* The facts of a kind that stand before the entry at this place. */
static void list_standing(struct facts *out, enum kind kind, unsigned before)
{
    struct fact f;
    for (unsigned i = 0; i < start.many; i++)
        if (start.fact[i].kind == kind)
            list_if_it_lasts(out, start.fact[i], 0, before);
    for (unsigned place = 0; place < before; place++)
        for (unsigned i = 0; i < most_made(&entry[place]); i++)
            if (made(&entry[place], i, kind, &f))
                list_if_it_lasts(out, f, place + 1, before);
}

void what_stands(struct facts *out)
{
    begin_list(out);
    for (enum kind kind = 0; kind < KINDS; kind++)
        list_standing(out, kind, entries);
}

/* ---- Counting what is compared, telling what is wrong ---- */

/* The place of the last entry that made the fact. */
static int maker(const struct fact *f)
{
    struct fact one;
    for (unsigned place = entries; place-- > 0;)
        for (unsigned i = 0; i < most_made(&entry[place]); i++)
            if (made(&entry[place], i, f->kind, &one) && same(&one, f))
                return (int)place;
    return has(&start, f) ? AT_START : NOWHERE;
}

static void tell(struct verdict *v, struct wrong w)
{
    if (v->wrong < MOST_TOLD)
        v->told[v->wrong] = w;
    v->wrong++;
}

static void of_log(struct verdict *v, bool holds, const char *otherwise)
{
    v->compared++;
    if (!holds)
        tell(v, (struct wrong){.what = otherwise, .place = NOWHERE});
}

static void of_entry(struct verdict *v, bool holds, const char *otherwise, unsigned place)
{
    v->compared++;
    if (!holds)
        tell(v, (struct wrong){.what = otherwise, .place = (int)place});
}

static void of_fact(struct verdict *v, bool holds, const char *otherwise, const struct fact *f)
{
    v->compared++;
    if (!holds)
        tell(v, (struct wrong){otherwise, maker(f), true, *f});
}

static void print_fact(const struct fact *f)
{
    const char *const *names = rules[f->kind].value_names;
    printf(": %s", rules[f->kind].name);
    for (unsigned i = 0; i < MOST_VALUES && names[i] != NULL; i++)
        printf("%s %s %lu", i == 0 ? ":" : ",", names[i], (unsigned long)f->value[i]);
}

static void print_entry(const struct entry *e)
{
    static const char *const names[] = {"service", "card in",   "card out",
                                        "sharers", "boot list", "fresh table"};
    printf("%s %02lX, handle %u, given", names[e->of], (unsigned long)e->number, e->handle);
    for (size_t i = 0; i < e->len && i < MOST_PRINTED; i++)
        printf(" %02X", e->given[i]);
    printf("; answered %s, %lu\n", code_name(e->code), (unsigned long)e->answered);
}

void print_wrong(const struct wrong *w)
{
    printf("%s", w->what);
    if (w->of_fact)
        print_fact(&w->fact);
    if (w->of_fact && w->place < 0)
        printf("; %s", w->place == AT_START ? "the start said it" : "nothing made it");
    printf("\n");
    if (w->place >= 0) {
        printf("  place %d of the log: ", w->place);
        print_entry(&entry[w->place]);
    }
}

/* ---- Judging the facts ---- */

static uint32_t smaller(uint32_t a, uint32_t b)
{
    return a < b ? a : b;
}

/* "Two ranges meet when some port of one equals some port of the other modulo two
   to the smaller of their decoded line counts." */
static bool ports_meet(const struct fact *a, const struct fact *b)
{
    uint32_t lines = smaller(smaller(a->value[IO_LINES], b->value[IO_LINES]), CS_LINES);
    uint32_t modulus = (uint32_t)1 << lines;
    for (uint32_t i = 0; i < a->value[IO_COUNT]; i++)
        for (uint32_t j = 0; j < b->value[IO_COUNT]; j++)
            if ((a->value[IO_BASE] + i) % modulus == (b->value[IO_BASE] + j) % modulus)
                return true;
    return false;
}

/* Both asked to share, and in the same manner. */
static bool share(const struct fact *a, const struct fact *b)
{
    if (a->kind == IO_GRANT)
        return a->value[IO_SHARED] && b->value[IO_SHARED];
    return a->value[IRQ_MANNER] == b->value[IRQ_MANNER] && a->value[IRQ_MANNER] != EXCLUSIVE;
}

static bool meet_unshared(const struct fact *a, const struct fact *b)
{
    if (a->kind != b->kind || a->value[SOCKET] == b->value[SOCKET] || share(a, b))
        return false;
    return a->kind == IO_GRANT ? ports_meet(a, b) : a->value[IRQ_LEVEL] == b->value[IRQ_LEVEL];
}

static bool meets_another(const struct fact *grant, const struct facts *l)
{
    for (unsigned i = 0; i < l->many; i++)
        if (meet_unshared(grant, &l->fact[i]))
            return true;
    return false;
}

static unsigned issued(void)
{
    unsigned count = issued_at_start;
    for (unsigned place = 0; place < entries; place++)
        count += done(&entry[place], CS_REGISTER_CLIENT);
    return count;
}

void judge_facts(struct verdict *v, const struct model *m)
{
    static struct facts stands, said;
    what_stands(&stands);
    what_is_said(m, &said);
    of_log(v, !overflowed, "there was no room for an entry");
    of_log(v, !stands.more, "more stands than a table has room for");
    of_log(v, m->sockets == sockets_at_start, "the socket count is another");
    of_log(v, m->issued == issued(), "the number issued is another");
    for (unsigned i = 0; i < said.many; i++)
        of_fact(v, has(&stands, &said.fact[i]), "said and does not stand", &said.fact[i]);
    for (unsigned i = 0; i < stands.many; i++) {
        const struct fact *f = &stands.fact[i];
        of_fact(v, has(&said, f), "stands and is not said", f);
        if (f->kind == IO_GRANT || f->kind == IRQ_GRANT)
            of_fact(v, !meets_another(f, &stands), "meets a grant of another socket", f);
    }
}

/* ---- Judging the answers ---- */

/* "Handles are 1, 2, 3 and on, each issued once in a table's life; 0 is never
   live." */
static bool is_new(uint32_t handle, unsigned before)
{
    for (unsigned place = 0; place < before; place++)
        if (done(&entry[place], CS_REGISTER_CLIENT) && entry[place].answered == handle)
            return false;
    return handle > issued_at_start;
}

static bool holds_level(const struct facts *grants, uint32_t socket, uint32_t level)
{
    for (unsigned i = 0; i < grants->many; i++)
        if (grants->fact[i].value[SOCKET] == socket && grants->fact[i].value[IRQ_LEVEL] == level)
            return true;
    return false;
}

/* "the number of live grants, never over 8": a socket has one. */
static uint32_t sharers(uint32_t level, unsigned before)
{
    static struct facts grants;
    uint32_t count = 0;
    begin_list(&grants);
    list_standing(&grants, IRQ_GRANT, before);
    for (uint32_t s = 0; s < CS_SOCKETS; s++)
        count += holds_level(&grants, s, level);
    return count;
}

/* "a refusal answers 0"; "Every code but 00 leaves table and packet unchanged" */
static void judge_refusal(struct verdict *v, const struct entry *e, unsigned place)
{
    of_entry(v, e->answered == 0, "a refusal answered a handle or a count", place);
    if (e->of == SERVICE)
        of_entry(v, memcmp(e->given, e->left, e->len) == 0, "a refusal changed its packet", place);
}

void judge_answers(struct verdict *v)
{
    for (unsigned place = 0; place < entries; place++) {
        const struct entry *e = &entry[place];
        if (e->of == BOOT)
            of_entry(v, e->answered <= e->len / CS_BOOT_RECORD, "a place past the list", place);
        else if (e->code != CS_SUCCESS)
            judge_refusal(v, e, place);
        else if (e->of == FRESH)
            of_entry(v, false, "a fresh table in the middle of a run", place);
        else if (e->of == SHARERS)
            of_entry(v, e->answered == sharers(e->number, place), "another number of sharers",
                     place);
        else if (done(e, CS_REGISTER_CLIENT))
            of_entry(v, is_new(e->answered, place), "a handle that is not new", place);
    }
}
