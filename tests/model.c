#include "model.h"

#include <string.h>

/* ---- Fields of a packet: little-endian ---- */

static uint32_t field(const uint8_t *packet, size_t at, size_t size)
{
    uint32_t value = 0;
    for (size_t i = 0; i < size; i++)
        value |= (uint32_t)packet[at + i] << (8 * i);
    return value;
}

static void write_field(uint8_t *packet, size_t at, size_t size, uint32_t value)
{
    for (size_t i = 0; i < size; i++)
        packet[at + i] = (uint8_t)(value >> (8 * i));
}

/* A call's handle, first the given and then the answered one, and its packet. */
struct call {
    uint16_t handle;
    uint8_t *packet;
    size_t len;
};

/* ---- Clients ---- */

/* The live client's place, or the number of clients. */
static unsigned place_of(const struct model *m, uint16_t handle)
{
    unsigned i = 0;
    while (i < m->clients && m->client[i].handle != handle)
        i++;
    return i;
}

static bool is_live(const struct model *m, uint16_t handle)
{
    return place_of(m, handle) < m->clients;
}

/* 5.37: bits 0, 1 and 2 are client types, "only one bit may be set to one,
   but one of the bits must be set to one"; bits 5 to 15 are reserved. */
static bool attributes_allowed(uint16_t attributes)
{
    unsigned type = attributes & 7;
    return (type == 1 || type == 2 || type == 4) && attributes >> 5 == 0;
}

/* "Event mask bits 12 to 15 set: BAD_ATTRIBUTE." */
static bool events_allowed(uint16_t events)
{
    return events < EVENT_MASKS;
}

static uint32_t register_client(struct model *m, struct call *call)
{
    uint16_t attributes = (uint16_t)field(call->packet, 0, 2);
    uint16_t event_mask = (uint16_t)field(call->packet, 2, 2);
    if (!attributes_allowed(attributes) || !events_allowed(event_mask))
        return CS_BAD_ATTRIBUTE;
    if (m->clients == CS_CLIENTS || m->issued == CS_HANDLES)
        return CS_OUT_OF_RESOURCE;
    m->issued++;
    call->handle = (uint16_t)m->issued;
    m->client[m->clients++] =
        (struct client){.handle = call->handle, .attributes = attributes, .event_mask = event_mask};
    return CS_SUCCESS;
}

/* "while the client holds an I/O grant, an IRQ grant or a socket mask." */
static bool holds_something(const struct model *m, const struct client *client)
{
    for (unsigned s = 0; s < CS_SOCKETS; s++) {
        if (m->io[s].live && m->io[s].client == client->handle)
            return true;
        if (m->irq[s].live && m->irq[s].client == client->handle)
            return true;
        if (client->masks[s].held)
            return true;
    }
    return false;
}

static uint32_t deregister_client(struct model *m, struct call *call)
{
    struct client *client = &m->client[place_of(m, call->handle)];
    if (holds_something(m, client))
        return CS_IN_USE;
    *client = m->client[--m->clients];
    return CS_SUCCESS;
}

/* ---- I/O ports ---- */

static bool overlap(uint32_t base1, uint32_t count1, uint32_t base2, uint32_t count2)
{
    return base1 < base2 + count2 && base2 < base1 + count1;
}

/* "Two ranges meet when some port of one equals some port of the other modulo
   two to the smaller of their decoded line counts." */
bool meet(const struct io_grant *a, const struct io_grant *b)
{
    unsigned lines = a->lines < b->lines ? a->lines : b->lines;
    uint32_t modulus = (uint32_t)1 << lines;
    for (uint32_t port = a->base; port < (uint32_t)a->base + a->count; port++) {
        uint32_t beyond = (port + CS_PORTS - b->base) % modulus;
        if (beyond < b->count)
            return true;
    }
    return false;
}

static bool in_range(const struct range *r, uint32_t port)
{
    return r->base <= port && port - r->base < r->count;
}

/* The range that has this port, or NULL. */
static const struct range *range_of(const struct model *m, uint32_t port)
{
    for (unsigned i = 0; i < m->ranges; i++)
        if (in_range(&m->range[i], port))
            return &m->range[i];
    return NULL;
}

/* Whether all of these ports are managed; and then whether none is reserved. */
static bool ports_managed(const struct model *m, uint32_t base, uint32_t count, bool *unreserved)
{
    uint32_t port = base;
    *unreserved = true;
    while (port < base + count) {
        const struct range *r = range_of(m, port);
        if (r == NULL)
            return false;
        *unreserved = *unreserved && !r->reserved;
        port = r->base + r->count;
    }
    return true;
}

/* A card answers at "each port that equals a granted one modulo two to the lines"
   (K2): at the granted ports and at their aliases. These lie in blocks of as many ports
   as were granted; each block begins two to the lines after the one before. The lowest
   may begin before 0, the highest may end past FFFF: there are no such ports. With 16
   lines the granted ports are the only block.
   Of the block that begins here: are all its ports managed, and is one of them in this
   range? */
static bool block_managed(const struct model *m, const struct io_grant *g, int32_t start)
{
    bool unreserved;
    int32_t end = start + g->count < CS_PORTS ? start + g->count : CS_PORTS;
    if (start < 0)
        start = 0;
    return end <= start || ports_managed(m, (uint32_t)start, (uint32_t)(end - start), &unreserved);
}

static bool block_in(const struct io_grant *g, int32_t start, const struct range *r)
{
    return start < (int32_t)(r->base + r->count) && (int32_t)r->base < start + g->count;
}

/* K2: each such port "must be managed too". Most blocks are within the range in which
   the one before begins. */
static bool answering_managed(const struct model *m, const struct io_grant *g)
{
    const struct range *r = NULL;
    int32_t modulus = (int32_t)1 << g->lines;
    for (int32_t start = g->base % modulus - modulus; start < CS_PORTS; start += modulus) {
        if (r != NULL && start + g->count <= (int32_t)(r->base + r->count))
            continue;
        if (!block_managed(m, g, start))
            return false;
        r = start < 0 ? NULL : range_of(m, (uint32_t)start);
    }
    return true;
}

/* K2: "holds or is repeated at any port of the range." */
static bool answers_in(const struct io_grant *g, const struct range *r)
{
    int32_t modulus = (int32_t)1 << g->lines;
    for (int32_t start = g->base % modulus - modulus; start < CS_PORTS; start += modulus)
        if (block_in(g, start, r))
            return true;
    return false;
}

/* "NumPorts1 0 or over two to the lines" is not allowed. */
static bool count_allowed(uint32_t count, unsigned lines)
{
    return count >= 1 && count <= (uint32_t)1 << lines;
}

static bool lines_allowed(unsigned lines)
{
    return lines >= 1 && lines <= CS_LINES;
}

/* "It meets a live grant, and First Shared is set or the two don't both share:
   IN_USE." A candidate for base 0 has to be alone as with First Shared. */
static bool in_the_way(const struct model *m, const struct io_grant *wish, bool alone)
{
    for (unsigned s = 0; s < CS_SOCKETS; s++) {
        const struct io_grant *g = &m->io[s];
        if (g->live && meet(g, wish) && (alone || !(g->shared && wish->shared)))
            return true;
    }
    return false;
}

/* The lowest multiple of the step that isn't below the lowest managed port from here
   on: none before it has its ports managed. CS_PORTS if there is none. */
static uint32_t next_multiple(const struct model *m, uint32_t from, uint32_t step)
{
    uint32_t managed = CS_PORTS;
    for (unsigned i = 0; i < m->ranges; i++) {
        const struct range *r = &m->range[i];
        uint32_t lowest = r->base > from ? r->base : from;
        if (in_range(r, lowest) && lowest < managed)
            managed = lowest;
    }
    return (managed + step - 1) / step * step;
}

/* "meeting no live grant", and K2: repeated at an unmanaged port, "not a candidate for
   base 0". Bases that are equal modulo two to the lines meet the same grants and are
   repeated at the same ports: those found unfit are marked. */
static bool is_fit(const struct model *m, const struct io_grant *wish, bool unfit[CS_PORTS])
{
    bool *mark = &unfit[wish->base % ((uint32_t)1 << wish->lines)];
    *mark = *mark || in_the_way(m, wish, true) || !answering_managed(m, wish);
    return !*mark;
}

/* "Base 0: candidates are the positive multiples of the smallest power of two
   not below the count, all ports managed, none past FFFF, meeting no live grant.
   Candidates wholly in unreserved ranges come first, then the lowest; none:
   IN_USE." The answer is then 0. K2: "The order by reserve looks at the range's own
   ports alone." */
static uint32_t choose_base(const struct model *m, struct io_grant *wish)
{
    static bool unfit[CS_PORTS];
    bool unreserved;
    uint32_t step = 1, lowest_reserved = 0;
    memset(unfit, 0, sizeof unfit);
    while (step < wish->count)
        step *= 2;
    for (uint32_t base = next_multiple(m, step, step); base + wish->count <= CS_PORTS;
         base = next_multiple(m, base + step, step)) {
        wish->base = (uint16_t)base;
        if (!ports_managed(m, base, wish->count, &unreserved))
            continue;
        if ((lowest_reserved != 0 && !unreserved) || !is_fit(m, wish, unfit))
            continue;
        if (unreserved)
            return base;
        lowest_reserved = base;
    }
    return lowest_reserved;
}

/* RequestIO's packet: socket 2, base 2, ports, attributes, base 2 (2), ports 2,
   attributes 2, lines. */
enum { IO_BASE = 2, IO_PORTS = 4, IO_ATTRIBUTES = 5, IO_PORTS_2 = 8, IO_LINES = 10 };
enum { IO_LISTED = CS_IO_SHARED | CS_IO_FIRST_SHARED | CS_IO_FORCE_ALIAS | CS_IO_16_BIT };

/* "attribute bits outside section 5.52's list, First Shared without Shared, or
   lines outside 1 to 16, BAD_ATTRIBUTE" */
static bool io_attributes_allowed(uint8_t attributes, uint8_t lines)
{
    if ((attributes & ~IO_LISTED) != 0)
        return false;
    if ((attributes & CS_IO_FIRST_SHARED) != 0 && (attributes & CS_IO_SHARED) == 0)
        return false;
    return lines_allowed(lines);
}

/* The base for a request, or the code of its refusal. K2: "BAD_BASE for a named
   base". */
static uint32_t place_io(const struct model *m, struct io_grant *wish, bool first_shared)
{
    uint32_t base = wish->base;
    if (base == 0) {
        base = choose_base(m, wish);
        wish->base = (uint16_t)base;
        return base == 0 ? CS_IN_USE : CS_SUCCESS;
    }
    if (base + wish->count > CS_PORTS || !answering_managed(m, wish))
        return CS_BAD_BASE;
    return in_the_way(m, wish, first_shared) ? CS_IN_USE : CS_SUCCESS;
}

static uint32_t request_io(struct model *m, struct call *call)
{
    uint8_t *packet = call->packet;
    uint8_t attributes = packet[IO_ATTRIBUTES];
    struct io_grant wish = {
        .live = true,
        .client = call->handle,
        .base = (uint16_t)field(packet, IO_BASE, 2),
        .count = packet[IO_PORTS],
        .lines = packet[IO_LINES],
        .shared = (attributes & CS_IO_SHARED) != 0,
    };
    if (!io_attributes_allowed(attributes, wish.lines))
        return CS_BAD_ATTRIBUTE;
    if (!count_allowed(wish.count, wish.lines) || packet[IO_PORTS_2] != 0)
        return CS_BAD_SIZE;
    if (m->io[packet[0]].live)
        return CS_IN_USE;
    uint32_t code = place_io(m, &wish, (attributes & CS_IO_FIRST_SHARED) != 0);
    if (code != CS_SUCCESS)
        return code;
    m->io[packet[0]] = wish;
    write_field(packet, IO_BASE, 2, wish.base);
    return CS_SUCCESS;
}

/* "BAD_BASE unless this client holds that base and count on this socket. Its
   NumPorts2 must be 0 (BAD_SIZE before that)." */
static uint32_t release_io(struct model *m, struct call *call)
{
    const uint8_t *packet = call->packet;
    struct io_grant *g = &m->io[packet[0]];
    if (packet[IO_PORTS_2] != 0)
        return CS_BAD_SIZE;
    if (!g->live || g->client != call->handle || g->base != field(packet, IO_BASE, 2) ||
        g->count != packet[IO_PORTS])
        return CS_BAD_BASE;
    memset(g, 0, sizeof *g);
    return CS_SUCCESS;
}

/* ---- IRQ ---- */

/* RequestIRQ's packet, and the type that is none. */
enum { IRQ_ATTRIBUTES = 2, IRQ_ASSIGNED = 4, IRQ_INFO_1 = 5, IRQ_INFO_2 = 6 };
enum { TYPE_RESERVED = 3 };

/* "only equal ones, and never exclusive." */
bool go_together(uint8_t a, uint8_t b)
{
    return a == b && a != EXCLUSIVE;
}

static unsigned type_of(uint8_t manner)
{
    return manner == EXCLUSIVE          ? CS_IRQ_EXCLUSIVE
           : manner == TIME_MULTIPLEXED ? CS_IRQ_TIME_MULTIPLEXED
                                        : CS_IRQ_DYNAMIC;
}

/* "Dynamic is pulse if Force Pulse is set or the card lacks Level." */
static uint8_t manner_asked(unsigned attributes, unsigned info_1)
{
    if ((attributes & CS_IRQ_TYPE) == CS_IRQ_EXCLUSIVE)
        return EXCLUSIVE;
    if ((attributes & CS_IRQ_TYPE) == CS_IRQ_TIME_MULTIPLEXED)
        return TIME_MULTIPLEXED;
    if ((attributes & CS_IRQ_FORCE_PULSE) != 0 || (info_1 & CS_IRQ_INFO_LEVEL) == 0)
        return DYNAMIC_PULSE;
    return DYNAMIC_LEVEL;
}

/* "BAD_ATTRIBUTE: type 3; any of bits 4 to 15 set; First Shared with
   Exclusive; Force Pulse without the card's Pulse bit; dynamic sharing without
   its Share bit." */
static bool irq_attributes_allowed(unsigned attributes, unsigned info_1)
{
    unsigned type = attributes & CS_IRQ_TYPE;
    if (type == TYPE_RESERVED || attributes >> 4 != 0)
        return false;
    if ((attributes & CS_IRQ_FIRST_SHARED) != 0 && type == CS_IRQ_EXCLUSIVE)
        return false;
    if ((attributes & CS_IRQ_FORCE_PULSE) != 0 && (info_1 & CS_IRQ_INFO_PULSE) == 0)
        return false;
    return !(type == CS_IRQ_DYNAMIC && (info_1 & CS_IRQ_INFO_SHARE) == 0);
}

/* "BAD_ARGS: neither Level nor Pulse; Mask set with any of IRQInfo1's bits 0
   to 3, or with IRQInfo2 0." */
static bool irq_info_allowed(unsigned info_1, unsigned info_2)
{
    if ((info_1 & (CS_IRQ_INFO_LEVEL | CS_IRQ_INFO_PULSE)) == 0)
        return false;
    return !((info_1 & CS_IRQ_INFO_MASK) != 0 &&
             ((info_1 & CS_IRQ_INFO_LEVEL_NUMBER) != 0 || info_2 == 0));
}

/* "With Mask clear, the low four bits name one level and IRQInfo2 is ignored." */
static unsigned levels_named(unsigned info_1, unsigned info_2)
{
    return (info_1 & CS_IRQ_INFO_MASK) != 0 ? info_2 : 1u << (info_1 & CS_IRQ_INFO_LEVEL_NUMBER);
}

static bool holds_level(const struct irq_grant *g, uint32_t level)
{
    return g->live && g->level == level;
}

static uint32_t sharers(const struct model *m, uint32_t level)
{
    uint32_t count = 0;
    for (unsigned s = 0; s < CS_SOCKETS; s++)
        count += holds_level(&m->irq[s], level);
    return count;
}

static bool all_go_together(const struct model *m, unsigned level, uint8_t manner)
{
    for (unsigned s = 0; s < CS_SOCKETS; s++)
        if (holds_level(&m->irq[s], level) && !go_together(m->irq[s].manner, manner))
            return false;
    return true;
}

/* "A level fits if it is named, managed, and either has no grant or, without
   First Shared, all its grants go together with this manner." */
static bool fits(const struct model *m, unsigned level, unsigned named, uint8_t manner,
                 bool first_shared)
{
    if ((named >> level & 1) == 0 || !m->level[level].managed)
        return false;
    return sharers(m, level) == 0 || (!first_shared && all_go_together(m, level, manner));
}

/* "An unreserved level comes before a reserved one, then the lowest." CS_LEVELS
   if none fits. */
static unsigned first_fitting(const struct model *m, unsigned named, uint8_t manner,
                              bool first_shared)
{
    unsigned lowest_reserved = CS_LEVELS;
    for (unsigned level = 0; level < CS_LEVELS; level++) {
        if (!fits(m, level, named, manner, first_shared))
            continue;
        if (!m->level[level].reserved)
            return level;
        if (lowest_reserved == CS_LEVELS)
            lowest_reserved = level;
    }
    return lowest_reserved;
}

/* K1: "the lowest named level that already has grants of its manner". CS_LEVELS
   if there is none. */
static unsigned lowest_of_manner(const struct model *m, unsigned named, uint8_t manner)
{
    unsigned lowest = CS_LEVELS;
    for (unsigned s = 0; s < CS_SOCKETS; s++) {
        const struct irq_grant *g = &m->irq[s];
        if (g->live && g->manner == manner && (named >> g->level & 1) != 0 && g->level < lowest)
            lowest = g->level;
    }
    return lowest;
}

/* K1: "only if none exists, the old choice. Exclusive and First Shared requests
   keep the old choice." */
static unsigned choose_level(const struct model *m, unsigned named, uint8_t manner,
                             bool first_shared)
{
    unsigned joined = CS_LEVELS;
    if (manner != EXCLUSIVE && !first_shared)
        joined = lowest_of_manner(m, named, manner);
    return joined < CS_LEVELS ? joined : first_fitting(m, named, manner, first_shared);
}

static uint32_t request_irq(struct model *m, struct call *call)
{
    uint8_t *packet = call->packet;
    unsigned attributes = field(packet, IRQ_ATTRIBUTES, 2);
    unsigned info_1 = packet[IRQ_INFO_1], info_2 = field(packet, IRQ_INFO_2, 2);
    if (!irq_attributes_allowed(attributes, info_1))
        return CS_BAD_ATTRIBUTE;
    if (!irq_info_allowed(info_1, info_2))
        return CS_BAD_ARGS;
    if (m->irq[packet[0]].live)
        return CS_IN_USE;
    uint8_t manner = manner_asked(attributes, info_1);
    unsigned level = choose_level(m, levels_named(info_1, info_2), manner,
                                  (attributes & CS_IRQ_FIRST_SHARED) != 0);
    if (level == CS_LEVELS)
        return CS_BAD_IRQ;
    m->irq[packet[0]] = (struct irq_grant){true, call->handle, (uint8_t)level, manner};
    packet[IRQ_ASSIGNED] = (uint8_t)level;
    if (manner == DYNAMIC_PULSE)
        write_field(packet, IRQ_ATTRIBUTES, 2, attributes | CS_IRQ_PULSE_ALLOCATED);
    return CS_SUCCESS;
}

/* "BAD_IRQ unless this client holds this level on this socket; only then
   BAD_ATTRIBUTE if the type bits differ." */
static uint32_t release_irq(struct model *m, struct call *call)
{
    const uint8_t *packet = call->packet;
    struct irq_grant *g = &m->irq[packet[0]];
    if (!holds_level(g, packet[IRQ_ASSIGNED]) || g->client != call->handle)
        return CS_BAD_IRQ;
    if ((packet[IRQ_ATTRIBUTES] & CS_IRQ_TYPE) != type_of(g->manner))
        return CS_BAD_ATTRIBUTE;
    memset(g, 0, sizeof *g);
    return CS_SUCCESS;
}

/* ---- Socket masks ---- */

static struct mask *asked_mask(struct model *m, const struct call *call)
{
    return &m->client[place_of(m, call->handle)].masks[call->packet[0]];
}

static uint32_t request_socket_mask(struct model *m, struct call *call)
{
    struct mask *mask = asked_mask(m, call);
    uint16_t events = (uint16_t)field(call->packet, 2, 2);
    if (!events_allowed(events))
        return CS_BAD_ATTRIBUTE;
    if (mask->held)
        return CS_IN_USE;
    *mask = (struct mask){true, events};
    return CS_SUCCESS;
}

/* "nothing held: BAD_SOCKET." */
static uint32_t release_socket_mask(struct model *m, struct call *call)
{
    struct mask *mask = asked_mask(m, call);
    if (!mask->held)
        return CS_BAD_SOCKET;
    *mask = (struct mask){false, 0};
    return CS_SUCCESS;
}

/* ---- Managed resources ---- */

/* "Resource 0, 3, 4: UNSUPPORTED_SERVICE; over 4: BAD_ARGS." */
static uint32_t resource_code(unsigned resource)
{
    if (resource == CS_RESOURCE_IO || resource == CS_RESOURCE_IRQ)
        return CS_SUCCESS;
    return resource < RESOURCES ? CS_UNSUPPORTED_SERVICE : CS_BAD_ARGS;
}

/* "Add (1) allows only bit 6, reserve; Remove (0) no bit" */
static bool adjust_attributes_allowed(unsigned action, unsigned attributes)
{
    return (attributes & ~(action == CS_ACTION_ADD ? CS_RESERVE : 0u)) == 0;
}

static uint32_t add_level(struct model *m, unsigned attributes, uint32_t level)
{
    if (!adjust_attributes_allowed(CS_ACTION_ADD, attributes))
        return CS_BAD_ATTRIBUTE;
    if (level >= CS_LEVELS)
        return CS_BAD_IRQ;
    if (m->level[level].managed)
        return CS_IN_USE;
    m->level[level] = (struct level){true, (attributes & CS_RESERVE) != 0};
    return CS_SUCCESS;
}

static uint32_t remove_level(struct model *m, unsigned attributes, uint32_t level)
{
    if (!adjust_attributes_allowed(CS_ACTION_REMOVE, attributes))
        return CS_BAD_ATTRIBUTE;
    if (level >= CS_LEVELS || !m->level[level].managed)
        return CS_BAD_IRQ;
    if (sharers(m, level) > 0)
        return CS_IN_USE;
    m->level[level] = (struct level){false, false};
    return CS_SUCCESS;
}

/* An I/O range as a packet or a boot record has it. */
struct io_fields {
    uint32_t base, ports;
    unsigned attributes, lines;
};

/* "both need lines of 16 for I/O; else BAD_ATTRIBUTE. .. I/O then: ports 0 or
   over 65,536 BAD_SIZE; a port past FFFF BAD_BASE." */
static uint32_t io_fields_code(unsigned action, const struct io_fields *f)
{
    if (!adjust_attributes_allowed(action, f->attributes) || f->lines != CS_LINES)
        return CS_BAD_ATTRIBUTE;
    if (f->ports == 0 || f->ports > CS_PORTS)
        return CS_BAD_SIZE;
    return f->base > CS_PORTS - f->ports ? CS_BAD_BASE : CS_SUCCESS;
}

static uint32_t add_range(struct model *m, const struct io_fields *f)
{
    uint32_t code = io_fields_code(CS_ACTION_ADD, f);
    if (code != CS_SUCCESS)
        return code;
    for (unsigned i = 0; i < m->ranges; i++)
        if (overlap(m->range[i].base, m->range[i].count, f->base, f->ports))
            return CS_IN_USE;
    if (m->ranges == CS_RANGES)
        return CS_OUT_OF_RESOURCE;
    m->range[m->ranges++] = (struct range){f->base, f->ports, (f->attributes & CS_RESERVE) != 0};
    return CS_SUCCESS;
}

static struct range *exact_range(struct model *m, uint32_t base, uint32_t count)
{
    for (unsigned i = 0; i < m->ranges; i++)
        if (m->range[i].base == base && m->range[i].count == count)
            return &m->range[i];
    return NULL;
}

static bool holds_port_of(const struct io_grant *g, const struct range *r)
{
    return g->live && overlap(g->base, g->count, r->base, r->count);
}

/* K2: "Remove is IN_USE if a live grant holds or is repeated at any port of the
   range." */
static bool range_in_use(const struct model *m, const struct range *r)
{
    for (unsigned s = 0; s < CS_SOCKETS; s++)
        if (m->io[s].live && answers_in(&m->io[s], r))
            return true;
    return false;
}

/* "Remove: no range with just that base and count BAD_BASE", then IN_USE. */
static uint32_t remove_range(struct model *m, const struct io_fields *f)
{
    uint32_t code = io_fields_code(CS_ACTION_REMOVE, f);
    if (code != CS_SUCCESS)
        return code;
    struct range *range = exact_range(m, f->base, f->ports);
    if (range == NULL)
        return CS_BAD_BASE;
    if (range_in_use(m, range))
        return CS_IN_USE;
    *range = m->range[--m->ranges];
    return CS_SUCCESS;
}

/* "the handle answered is then the lowest of the holders' handles, else 0." */
static void note_holder(uint16_t *lowest, uint16_t holder)
{
    if (*lowest == 0 || holder < *lowest)
        *lowest = holder;
}

/* "Bit 7 is set exactly if a live grant holds the level .. For IRQ, bits 0 to 1
   are the holders' type, or 0. Other bits are 0." */
static uint8_t level_attributes(const struct model *m, unsigned level, uint16_t *holder)
{
    unsigned attributes = 0;
    *holder = 0;
    for (unsigned s = 0; s < CS_SOCKETS; s++) {
        if (!holds_level(&m->irq[s], level))
            continue;
        note_holder(holder, m->irq[s].client);
        attributes = CS_ALLOCATED | type_of(m->irq[s].manner);
    }
    return (uint8_t)attributes;
}

/* "Bit 7 is set exactly if a live grant holds .. a port of the range .. For I/O,
   bit 0 is set if there are holders and all of them share. .. Other bits are
   0." */
static uint8_t range_attributes(const struct model *m, const struct range *r, uint16_t *holder)
{
    bool all_share = true;
    *holder = 0;
    for (unsigned s = 0; s < CS_SOCKETS; s++) {
        if (!holds_port_of(&m->io[s], r))
            continue;
        note_holder(holder, m->io[s].client);
        all_share = all_share && m->io[s].shared;
    }
    if (*holder == 0)
        return 0;
    return all_share ? CS_ALLOCATED | CS_IO_SHARED : CS_ALLOCATED;
}

/* "First (2) gives the lowest base or level; Next (3) the lowest above the
   packet's; none: NO_MORE_ITEMS." */
static uint32_t show_level(const struct model *m, struct call *call)
{
    uint8_t *packet = call->packet;
    for (unsigned level = packet[0] == CS_ACTION_FIRST ? 0 : packet[3] + 1u; level < CS_LEVELS;
         level++)
        if (m->level[level].managed) {
            packet[2] = level_attributes(m, level, &call->handle);
            packet[3] = (uint8_t)level;
            return CS_SUCCESS;
        }
    return CS_NO_MORE_ITEMS;
}

static uint32_t adjust_level(struct model *m, struct call *call)
{
    const uint8_t *packet = call->packet;
    switch (packet[0]) {
    case CS_ACTION_REMOVE:
        return remove_level(m, packet[2], packet[3]);
    case CS_ACTION_ADD:
        return add_level(m, packet[2], packet[3]);
    default:
        return show_level(m, call);
    }
}

/* "I/O fields, short: base 2 bytes at 2, ports 1 at 4, attributes at 5, lines at
   6. Long: base 4 at 2, ports 4 at 6, attributes at 10, lines at 11." */
struct form {
    size_t length, base_size, ports_at, ports_size, attributes_at, lines_at;
    uint32_t most_ports;
};
static const struct form short_form = {CS_ADJUST_IO_SHORT_LENGTH, 2, 4, 1, 5, 6, 255};
static const struct form long_form = {CS_ADJUST_IO_LONG_LENGTH, 4, 6, 4, 10, 11, CS_PORTS};

/* "First (2) gives the lowest base or level; Next (3) the lowest above the
   packet's" */
static const struct range *lowest_range(const struct model *m, unsigned action, uint32_t base)
{
    const struct range *lowest = NULL;
    for (unsigned i = 0; i < m->ranges; i++) {
        const struct range *r = &m->range[i];
        if ((action == CS_ACTION_FIRST || r->base > base) &&
            (lowest == NULL || r->base < lowest->base))
            lowest = r;
    }
    return lowest;
}

/* "A short packet can't show more than 255 ports: BAD_SIZE." */
static uint32_t show_range(const struct model *m, struct call *call, const struct form *form)
{
    uint8_t *packet = call->packet;
    const struct range *r = lowest_range(m, packet[0], field(packet, 2, form->base_size));
    if (r == NULL)
        return CS_NO_MORE_ITEMS;
    if (r->count > form->most_ports)
        return CS_BAD_SIZE;
    write_field(packet, 2, form->base_size, r->base);
    write_field(packet, form->ports_at, form->ports_size, r->count);
    packet[form->attributes_at] = range_attributes(m, r, &call->handle);
    packet[form->lines_at] = CS_LINES;
    return CS_SUCCESS;
}

static uint32_t adjust_range(struct model *m, struct call *call, const struct form *form)
{
    const uint8_t *packet = call->packet;
    struct io_fields f = {
        .base = field(packet, 2, form->base_size),
        .ports = field(packet, form->ports_at, form->ports_size),
        .attributes = packet[form->attributes_at],
        .lines = packet[form->lines_at],
    };
    switch (packet[0]) {
    case CS_ACTION_REMOVE:
        return remove_range(m, &f);
    case CS_ACTION_ADD:
        return add_range(m, &f);
    default:
        return show_range(m, call, form);
    }
}

/* "Length under 2: BAD_ARG_LENGTH. Then Action over 3: BAD_ARGS. .. Then the
   length: IRQ 4; I/O 7 or 12." */
static uint32_t adjust_resource_info(struct model *m, struct call *call)
{
    const uint8_t *packet = call->packet;
    size_t len = call->len;
    if (len < 2)
        return CS_BAD_ARG_LENGTH;
    if (packet[0] >= ACTIONS)
        return CS_BAD_ARGS;
    uint32_t code = resource_code(packet[1]);
    if (code != CS_SUCCESS)
        return code;
    if (packet[1] == CS_RESOURCE_IRQ)
        return len == CS_ADJUST_IRQ_LENGTH ? adjust_level(m, call) : CS_BAD_ARG_LENGTH;
    if (len == short_form.length)
        return adjust_range(m, call, &short_form);
    if (len == long_form.length)
        return adjust_range(m, call, &long_form);
    return CS_BAD_ARG_LENGTH;
}

/* "it gets the code that Add's rules give those values, I/O in the long form
   with lines 16, IRQ without the count." */
static uint32_t boot_record(struct model *m, const uint8_t *record)
{
    struct io_fields f = {field(record, 2, 4), field(record, 6, 4), record[1], CS_LINES};
    uint32_t code = resource_code(record[0]);
    if (code != CS_SUCCESS)
        return code;
    return record[0] == CS_RESOURCE_IRQ ? add_level(m, f.attributes, f.base) : add_range(m, &f);
}

uint64_t model_boot(struct model *m, const uint8_t *records, size_t len)
{
    uint64_t place, whole = len / CS_BOOT_RECORD;
    uint32_t code = CS_SUCCESS;
    for (place = 0; place < whole; place++) {
        code = boot_record(m, records + place * CS_BOOT_RECORD);
        if (code != CS_SUCCESS)
            return code | place << 32;
    }
    code = len % CS_BOOT_RECORD == 0 ? CS_SUCCESS : CS_BAD_ARG_LENGTH;
    return code | place << 32;
}

/* ---- Calls ---- */

/* How far the checks go that services share; each includes those before it. */
enum checks { NONE, LENGTH, HANDLE, SOCKET, CARD };

struct service {
    uint16_t number;
    enum checks checks;
    size_t length;
    uint32_t (*own)(struct model *m, struct call *call);
};

static const struct service services[] = {
    {CS_REGISTER_CLIENT, LENGTH, CS_REGISTER_CLIENT_LENGTH, register_client},
    {CS_DEREGISTER_CLIENT, HANDLE, CS_DEREGISTER_CLIENT_LENGTH, deregister_client},
    {CS_ADJUST_RESOURCE_INFO, NONE, 0, adjust_resource_info},
    {CS_REQUEST_IRQ, CARD, CS_REQUEST_IRQ_LENGTH, request_irq},
    {CS_RELEASE_IRQ, SOCKET, CS_RELEASE_IRQ_LENGTH, release_irq},
    {CS_REQUEST_IO, CARD, CS_REQUEST_IO_LENGTH, request_io},
    {CS_RELEASE_IO, SOCKET, CS_RELEASE_IO_LENGTH, release_io},
    {CS_REQUEST_SOCKET_MASK, CARD, CS_REQUEST_SOCKET_MASK_LENGTH, request_socket_mask},
    {CS_RELEASE_SOCKET_MASK, SOCKET, CS_RELEASE_SOCKET_MASK_LENGTH, release_socket_mask},
};

/* "table, service, length, handle, socket, card", of which the first two are
   behind. */
static uint32_t shared_checks(const struct model *m, const struct service *service,
                              const struct call *call)
{
    const uint8_t *packet = call->packet;
    if (service->checks >= LENGTH && call->len != service->length)
        return CS_BAD_ARG_LENGTH;
    if (service->checks >= HANDLE && !is_live(m, call->handle))
        return CS_BAD_HANDLE;
    if (service->checks >= SOCKET && (packet[0] >= m->sockets || packet[1] != 0))
        return CS_BAD_SOCKET;
    if (service->checks >= CARD && !m->card[packet[0]])
        return CS_NO_CARD;
    return CS_SUCCESS;
}

static const struct service *find_service(uint16_t number)
{
    for (size_t i = 0; i < sizeof services / sizeof *services; i++)
        if (services[i].number == number)
            return &services[i];
    return NULL;
}

/* "The handle answered is the one given, save where a rule below says otherwise;
   a refusal answers 0." */
uint32_t model_call(struct model *m, uint16_t service, uint16_t handle, uint8_t *packet,
                    size_t packet_len)
{
    const struct service *asked = find_service(service);
    if (asked == NULL)
        return CS_UNSUPPORTED_SERVICE;
    struct call call = {handle, packet, packet_len};
    uint32_t code = shared_checks(m, asked, &call);
    if (code == CS_SUCCESS)
        code = asked->own(m, &call);
    return code == CS_SUCCESS ? code | (uint32_t)call.handle << 16 : code;
}

/* ---- Host calls ---- */

/* "Fresh: a count of 1 to 8 .. Nothing is managed, no card in, none issued." */
uint32_t model_fresh(struct model *m, uint32_t sockets)
{
    if (sockets < 1 || sockets > CS_SOCKETS)
        return CS_GENERAL_FAILURE;
    memset(m, 0, sizeof *m);
    m->sockets = sockets;
    return CS_SUCCESS;
}

/* "Card in and out: BAD_SOCKET or done, also when nothing changes." */
static uint32_t set_card(struct model *m, uint32_t socket, bool card)
{
    if (socket >= m->sockets)
        return CS_BAD_SOCKET;
    m->card[socket] = card;
    return CS_SUCCESS;
}

uint32_t model_card_in(struct model *m, uint32_t socket)
{
    return set_card(m, socket, true);
}

uint32_t model_card_out(struct model *m, uint32_t socket)
{
    return set_card(m, socket, false);
}

/* "a level over 15 is BAD_IRQ; a refusal's count is 0; else the number of live
   grants, never over 8." */
uint32_t model_sharers(const struct model *m, uint32_t level)
{
    return level >= CS_LEVELS ? CS_BAD_IRQ : sharers(m, level) << 16;
}

/* ---- Well-formed sets ---- */

/* "socket count 1 to 8; .. up to 16 live clients .. handles issued so far, up to
   65,535; .. up to 32 managed I/O ranges" */
static bool keeps_limits(const struct model *m)
{
    return m->sockets >= 1 && m->sockets <= CS_SOCKETS && m->clients <= CS_CLIENTS &&
           m->issued <= CS_HANDLES && m->ranges <= CS_RANGES;
}

/* "a card present or not in each": only a socket below the count has a card. */
static bool cards_good(const struct model *m)
{
    for (unsigned s = m->sockets; s < CS_SOCKETS; s++)
        if (m->card[s])
            return false;
    return true;
}

/* "every grant and mask has .. a socket below the count"; "masks are ones a
   request accepts". */
static bool masks_good(const struct model *m, const struct client *client)
{
    for (unsigned s = 0; s < CS_SOCKETS; s++)
        if (client->masks[s].held && (s >= m->sockets || !events_allowed(client->masks[s].events)))
            return false;
    return true;
}

static bool handle_repeated(const struct model *m, unsigned i)
{
    for (unsigned j = 0; j < i; j++)
        if (m->client[j].handle == m->client[i].handle)
            return true;
    return false;
}

/* "live handles differ, aren't 0 and aren't over the number issued; .. attributes
   and masks are ones a request accepts" */
static bool clients_good(const struct model *m)
{
    for (unsigned i = 0; i < m->clients; i++) {
        const struct client *c = &m->client[i];
        if (c->handle == 0 || c->handle > m->issued || handle_repeated(m, i))
            return false;
        if (!attributes_allowed(c->attributes) || !events_allowed(c->event_mask))
            return false;
        if (!masks_good(m, c))
            return false;
    }
    return true;
}

/* "an unmanaged level isn't reserved" */
static bool levels_good(const struct model *m)
{
    for (unsigned level = 0; level < CS_LEVELS; level++)
        if (m->level[level].reserved && !m->level[level].managed)
            return false;
    return true;
}

/* "ranges have a port and don't overlap or pass FFFF" */
static bool ranges_good(const struct model *m)
{
    for (unsigned i = 0; i < m->ranges; i++) {
        const struct range *r = &m->range[i];
        if (r->count == 0 || r->base >= CS_PORTS || r->count > CS_PORTS - r->base)
            return false;
        for (unsigned j = 0; j < i; j++)
            if (overlap(m->range[j].base, m->range[j].count, r->base, r->count))
                return false;
    }
    return true;
}

/* "every grant and mask has a live client and a socket below the count; granted
   levels and ports are managed; an I/O grant has base 1 or more, lines 1 to 16
   and a count RequestIO allows". K2: "A saved table with a grant that breaks this
   rule is no longer well formed." */
static bool io_grant_good(const struct model *m, unsigned socket)
{
    const struct io_grant *g = &m->io[socket];
    return socket < m->sockets && is_live(m, g->client) && g->base >= 1 &&
           lines_allowed(g->lines) && count_allowed(g->count, g->lines) &&
           (uint32_t)g->base + g->count <= CS_PORTS && answering_managed(m, g);
}

/* "grants meet only as demand 3 allows": both share. */
static bool io_grants_good(const struct model *m)
{
    for (unsigned s = 0; s < CS_SOCKETS; s++) {
        const struct io_grant *g = &m->io[s];
        if (!g->live)
            continue;
        if (!io_grant_good(m, s))
            return false;
        for (unsigned t = 0; t < s; t++)
            if (m->io[t].live && meet(&m->io[t], g) && !(m->io[t].shared && g->shared))
                return false;
    }
    return true;
}

/* "every grant and mask has a live client and a socket below the count; granted
   levels and ports are managed" */
static bool irq_grant_good(const struct model *m, unsigned socket)
{
    const struct irq_grant *g = &m->irq[socket];
    return socket < m->sockets && is_live(m, g->client) && g->level < CS_LEVELS &&
           m->level[g->level].managed && g->manner < MANNERS;
}

/* "grants meet only as demand 3 allows": on one level in one sharing manner. */
static bool irq_grants_good(const struct model *m)
{
    for (unsigned s = 0; s < CS_SOCKETS; s++) {
        const struct irq_grant *g = &m->irq[s];
        if (!g->live)
            continue;
        if (!irq_grant_good(m, s))
            return false;
        for (unsigned t = 0; t < s; t++)
            if (holds_level(&m->irq[t], g->level) && !go_together(m->irq[t].manner, g->manner))
                return false;
    }
    return true;
}

bool well_formed(const struct model *m)
{
    return keeps_limits(m) && cards_good(m) && clients_good(m) && levels_good(m) &&
           ranges_good(m) && io_grants_good(m) && irq_grants_good(m);
}
