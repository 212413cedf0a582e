#include "sets.h"

#include <string.h>

/* ---- Chance ----

   C leaves open which of two draws in one expression or list comes first, so each
   stands in a declaration or statement of its own: the same sets everywhere. */

/* splitmix64 */
static uint64_t next(struct chance *c)
{
    uint64_t z = c->state += 0x9E3779B97F4A7C15u;
    z = (z ^ z >> 30) * 0xBF58476D1CE4E5B9u;
    z = (z ^ z >> 27) * 0x94D049BB133111EBu;
    return z ^ z >> 31;
}

uint32_t pick(struct chance *c, uint32_t below)
{
    return (uint32_t)((next(c) >> 32) * below >> 32);
}

bool one_in(struct chance *c, uint32_t many)
{
    return pick(c, many) == 0;
}

static uint8_t byte(struct chance *c)
{
    return (uint8_t)pick(c, 256);
}

/* ---- Sets ---- */

void full_set(struct model *m, unsigned clients)
{
    model_fresh(m, CS_SOCKETS);
    m->clients = m->issued = clients;
    for (unsigned i = 0; i < clients; i++) {
        m->client[i].handle = (uint16_t)(i + 1);
        m->client[i].attributes = CS_IO_CLIENT | CS_INSERTION_SHARABLE;
        m->client[i].event_mask = EVENT_MASKS - 1;
        for (unsigned s = 0; s < CS_SOCKETS; s++)
            m->client[i].masks[s] =
                (struct mask){true, (uint16_t)(CS_EVENT_CARD_DETECT_CHANGE + s)};
    }
    for (unsigned level = 0; level < CS_LEVELS; level++)
        m->level[level] = (struct level){true, level % 2 == 1};
    m->ranges = CS_RANGES;
    for (uint32_t i = 0; i < CS_RANGES; i++)
        m->range[i] = (struct range){0x100 + 0x40 * i, 0x10, i % 2 == 1};
    for (unsigned s = 0; s < CS_SOCKETS; s++) {
        uint16_t client = (uint16_t)(s + 1), base = (uint16_t)(0x100 + 0x40 * (s / 2));
        m->card[s] = true;
        m->io[s] = (struct io_grant){true, client, base, 8, CS_LINES, true};
        m->irq[s] = (struct irq_grant){true, client, (uint8_t)(s / 2), DYNAMIC_LEVEL};
    }
}

/* clang-format off */
static const struct range gapped[] = {
    {0x0515, 411, false}, {0x09AC, 463, false}, {0x11FB, 268, false}, {0x19B5, 468, false},
    {0x207C, 418, false}, {0x241B, 485, false}, {0x31DB, 147, false}, {0x3785, 186, false},
    {0x3F59, 302, false}, {0x4B86, 138, false}, {0x57E5, 129, false}, {0x5B01, 562, false},
    {0x62ED,  72, false}, {0x6E13, 145, false}, {0x7482, 915, true},  {0x7A27, 382, false},
    {0x86AD, 202, false}, {0x8E16, 135, false}, {0x9377,  69, false}, {0x9ED2, 312, false},
    {0xA34B,  17, false}, {0xAFA1,  55, false}, {0xB446,  82, false}, {0xBCD0, 658, false},
    {0xC582, 1244, false}, {0xCC27, 284, false}, {0xD96B, 119, false}, {0xDD8F, 337, false},
    {0xE7AF, 438, false}, {0xF055, 553, false}, {0xF617,  34, true},
};
/* clang-format on */

void gapped_set(struct model *m)
{
    model_fresh(m, CS_SOCKETS);
    m->clients = m->issued = CS_CLIENTS;
    for (unsigned i = 0; i < CS_CLIENTS; i++)
        m->client[i] = (struct client){.handle = (uint16_t)(i + 1), .attributes = CS_IO_CLIENT};
    for (unsigned s = 0; s < CS_SOCKETS; s++)
        m->card[s] = true;
    m->ranges = sizeof gapped / sizeof *gapped;
    memcpy(m->range, gapped, sizeof gapped);
}

static uint16_t allowed_attributes(struct chance *c)
{
    uint32_t type = pick(c, 3), insertion = pick(c, 4);
    return (uint16_t)(1u << type | insertion << 3);
}

static void random_client(struct chance *c, struct model *m)
{
    struct client *new_one = &m->client[m->clients++];
    new_one->handle = (uint16_t)(1 + pick(c, m->issued));
    new_one->attributes = allowed_attributes(c);
    new_one->event_mask = (uint16_t)pick(c, EVENT_MASKS);
    for (unsigned s = 0; s < m->sockets; s++)
        if (one_in(c, 3))
            new_one->masks[s] = (struct mask){true, (uint16_t)pick(c, EVENT_MASKS)};
    if (!well_formed(m))
        memset(&m->client[--m->clients], 0, sizeof *new_one);
}

/* A port near those that others use, so that requests meet. */
static uint32_t some_port(struct chance *c)
{
    static const uint32_t known[] = {0,     1,     0x2F8, 0x300,  0x3E8,
                                     0x3F0, 0x6F8, 0x700, 0xFF00, 0xFFF8};
    uint32_t base = known[pick(c, sizeof known / sizeof *known)];
    return one_in(c, 4) ? pick(c, CS_PORTS) : (base + pick(c, 16)) % CS_PORTS;
}

static uint32_t some_count(struct chance *c)
{
    static const uint32_t known[] = {1, 2, 5, 8, 16, 32, 255, 256, 1024};
    return one_in(c, 4) ? 1 + pick(c, 40) : known[pick(c, sizeof known / sizeof *known)];
}

static uint8_t some_lines(struct chance *c)
{
    static const uint8_t known[] = {16, 16, 10, 12, 8};
    return one_in(c, 3) ? (uint8_t)(1 + pick(c, CS_LINES)) : known[pick(c, sizeof known)];
}

static void random_range(struct chance *c, struct model *m)
{
    uint32_t base = some_port(c), count = some_count(c);
    if (m->ranges == CS_RANGES)
        return;
    m->range[m->ranges++] = (struct range){base, count, one_in(c, 3)};
    if (!well_formed(m))
        m->ranges--;
}

/* All ports but a few: ranges that adjoin, or have a short gap between them. */
static void nearly_all_ports(struct chance *c, struct model *m)
{
    uint32_t from = one_in(c, 2) ? 0 : pick(c, 4);
    for (unsigned left = 1 + pick(c, 8); left > 0 && from < CS_PORTS; left--) {
        uint32_t most = CS_PORTS - from, count = 1 + pick(c, one_in(c, 3) ? most : most / 4 + 1);
        if (left == 1)
            count = one_in(c, 4) ? most - pick(c, 2) : most;
        m->range[m->ranges++] = (struct range){from, count, one_in(c, 3)};
        from += count + (one_in(c, 2) ? 0 : pick(c, 4));
    }
}

/* Ranges that lie alike, two to 11 or more ports apart; one of them may lack a
   port. */
static void alike_ranges(struct chance *c, struct model *m)
{
    uint32_t apart = 0x800u << pick(c, 5), from = pick(c, apart), most = apart - from;
    uint32_t count = 1 + pick(c, most < 64 ? most : 64);
    for (uint32_t base = from; base < CS_PORTS; base += apart)
        m->range[m->ranges++] = (struct range){base, count, one_in(c, 3)};
    if (count > 1 && one_in(c, 2))
        m->range[pick(c, m->ranges)].count--;
}

void repeating_ranges(struct chance *c, struct model *m)
{
    switch (pick(c, 5)) {
    case 0:
        m->range[m->ranges++] = (struct range){0, CS_PORTS, one_in(c, 2)};
        break;
    case 1:
    case 2:
        alike_ranges(c, m);
        break;
    default:
        nearly_all_ports(c, m);
    }
}

static uint16_t some_client(struct chance *c, const struct model *m)
{
    return m->client[pick(c, m->clients)].handle;
}

/* A part of a managed range, as long as a grant can be. */
static void random_io_grant(struct chance *c, struct model *m, unsigned socket)
{
    const struct range *r = &m->range[pick(c, m->ranges)];
    uint32_t from = pick(c, r->count), left = r->count - from, count = some_count(c);
    uint16_t client = some_client(c, m);
    uint8_t lines = some_lines(c);
    m->io[socket] = (struct io_grant){
        .live = true,
        .client = client,
        .base = (uint16_t)(r->base + from),
        .count = (uint8_t)(count < left ? count : left),
        .lines = lines,
        .shared = one_in(c, 2),
    };
    if (!well_formed(m))
        m->io[socket] = (struct io_grant){0};
}

static void random_irq_grant(struct chance *c, struct model *m, unsigned socket)
{
    uint16_t client = some_client(c, m);
    uint8_t level = (uint8_t)pick(c, CS_LEVELS), manner = (uint8_t)pick(c, MANNERS);
    m->irq[socket] = (struct irq_grant){true, client, level, manner};
    if (!well_formed(m))
        m->irq[socket] = (struct irq_grant){0};
}

static void random_grants(struct chance *c, struct model *m, unsigned socket)
{
    for (unsigned tries = pick(c, 4); tries > 0 && m->ranges > 0 && !m->io[socket].live; tries--)
        random_io_grant(c, m, socket);
    for (unsigned tries = pick(c, 6); tries > 0 && !m->irq[socket].live; tries--)
        random_irq_grant(c, m, socket);
}

void random_set(struct chance *c, struct model *m)
{
    model_fresh(m, 1 + pick(c, CS_SOCKETS));
    m->issued = one_in(c, 4) ? 1 + pick(c, CS_HANDLES) : pick(c, 40);
    for (unsigned s = 0; s < m->sockets; s++)
        m->card[s] = !one_in(c, 3);
    for (unsigned level = 0; level < CS_LEVELS; level++) {
        m->level[level].managed = one_in(c, 2);
        m->level[level].reserved = m->level[level].managed && one_in(c, 3);
    }
    for (unsigned tries = m->issued == 0 ? 0 : pick(c, CS_CLIENTS + 1); tries > 0; tries--)
        random_client(c, m);
    if (one_in(c, 2))
        repeating_ranges(c, m);
    for (unsigned tries = pick(c, CS_RANGES); tries > 0; tries--)
        random_range(c, m);
    for (unsigned s = 0; m->clients > 0 && s < m->sockets; s++)
        random_grants(c, m, s);
}

/* ---- Requests ---- */

static void put_number(uint8_t *at, size_t size, uint32_t value)
{
    for (size_t i = 0; i < size; i++)
        at[i] = (uint8_t)(value >> (8 * i));
}

static void put(struct request *r, size_t at, size_t size, uint32_t value)
{
    put_number(r->packet + at, size, value);
}

/* Whether the socket is one that the request is near to being accepted for. */
typedef bool likes(const struct model *m, uint16_t client, unsigned socket);

/* Mostly below the count; of those mostly one that is liked, if some tries find
   one. */
static void put_socket(struct chance *c, const struct model *m, struct request *r, likes *liked)
{
    unsigned socket = pick(c, m->sockets);
    for (unsigned tries = pick(c, 6); tries > 0 && !liked(m, r->handle, socket); tries--)
        socket = pick(c, m->sockets);
    r->packet[0] = one_in(c, 32) ? byte(c) : (uint8_t)(one_in(c, 16) ? m->sockets : socket);
    r->packet[1] = one_in(c, 32) ? byte(c) : 0;
}

static void register_packet(struct chance *c, const struct model *m, struct request *r)
{
    (void)m;
    put(r, 0, 2, one_in(c, 8) ? pick(c, 65536) : allowed_attributes(c));
    put(r, 2, 2, one_in(c, 8) ? pick(c, 65536) : pick(c, EVENT_MASKS));
}

static void any_packet(struct chance *c, const struct model *m, struct request *r)
{
    (void)c, (void)m, (void)r;
}

/* Mostly the number itself; else one of 32 bits, near it or at a limit. */
static uint32_t perhaps_wide(struct chance *c, uint32_t number)
{
    static const uint32_t known[] = {0,     255,   256,        0xFFFF,    65536,
                                     65537, 65539, 0x80000000, 0xFFFFFFFF};
    if (!one_in(c, 8))
        return number;
    return one_in(c, 2) ? number | (uint32_t)1 << (8 + pick(c, 24))
                        : known[pick(c, sizeof known / sizeof *known)];
}

/* How many ports from here on up to the next range, or to the last port. */
static uint32_t unmanaged_from(const struct model *m, uint32_t port)
{
    uint32_t next = CS_PORTS;
    for (unsigned i = 0; i < m->ranges; i++)
        if (m->range[i].base >= port && m->range[i].base < next)
            next = m->range[i].base;
    return next - port;
}

/* Ports that are managed, or next to them, or all of a short gap, or others. */
static struct range some_ports(struct chance *c, const struct model *m)
{
    uint32_t base = one_in(c, 2) ? pick(c, CS_PORTS) : some_port(c);
    struct range ports = {base, some_count(c), false};
    if (m->ranges > 0 && one_in(c, 2)) {
        const struct range *known = &m->range[pick(c, m->ranges)];
        ports.base = known->base;
        switch (pick(c, 4)) {
        case 0:
            ports.base += known->count;
            if (unmanaged_from(m, ports.base) < 16)
                ports.count = unmanaged_from(m, ports.base);
            break;
        case 1:
            ports.base += pick(c, 3) - 1;
            break;
        default:
            ports.count = known->count;
        }
    }
    ports.base = perhaps_wide(c, ports.base);
    ports.count = perhaps_wide(c, ports.count);
    return ports;
}

static uint8_t some_attributes(struct chance *c)
{
    return one_in(c, 16) ? byte(c) : one_in(c, 3) ? CS_RESERVE : 0;
}

static uint8_t some_resource(struct chance *c)
{
    if (one_in(c, 16))
        return one_in(c, 4) ? byte(c) : (uint8_t)pick(c, RESOURCES + 1);
    return one_in(c, 3) ? CS_RESOURCE_IRQ : CS_RESOURCE_IO;
}

static void adjust_packet(struct chance *c, const struct model *m, struct request *r)
{
    struct range ports = some_ports(c, m);
    uint32_t attributes = some_attributes(c), lines = one_in(c, 16) ? byte(c) : CS_LINES;
    uint32_t ends = attributes | lines << 8;
    r->packet[0] = one_in(c, 32) ? byte(c) : (uint8_t)pick(c, ACTIONS);
    r->packet[1] = some_resource(c);
    if (r->packet[1] == CS_RESOURCE_IRQ) {
        r->len = CS_ADJUST_IRQ_LENGTH;
        r->packet[2] = (uint8_t)ends;
        r->packet[3] = one_in(c, 16) ? byte(c) : (uint8_t)pick(c, CS_LEVELS + 1);
    } else if (one_in(c, 2)) {
        r->len = CS_ADJUST_IO_SHORT_LENGTH;
        put(r, 2, 2, ports.base);
        put(r, 4, 1, ports.count);
        put(r, 5, 2, ends);
    } else {
        put(r, 2, 4, ports.base);
        put(r, 6, 4, ports.count);
        put(r, 10, 2, ends);
    }
}

static bool irq_free(const struct model *m, uint16_t client, unsigned socket)
{
    (void)client;
    return m->card[socket] && !m->irq[socket].live;
}

static bool irq_held(const struct model *m, uint16_t client, unsigned socket)
{
    (void)client;
    return m->irq[socket].live;
}

static bool io_free(const struct model *m, uint16_t client, unsigned socket)
{
    (void)client;
    return m->card[socket] && !m->io[socket].live;
}

static bool io_held(const struct model *m, uint16_t client, unsigned socket)
{
    (void)client;
    return m->io[socket].live;
}

static bool mask_held(const struct model *m, uint16_t client, unsigned socket)
{
    for (unsigned i = 0; i < m->clients; i++)
        if (m->client[i].handle == client)
            return m->client[i].masks[socket].held;
    return false;
}

static bool mask_free(const struct model *m, uint16_t client, unsigned socket)
{
    return m->card[socket] && !mask_held(m, client, socket);
}

/* Mostly attributes that a card with Share, Level and Pulse can have, and a level
   named by its number or several by Mask. */
static void request_irq_packet(struct chance *c, const struct model *m, struct request *r)
{
    static const uint8_t allowed[] = {0, 1, 2, 4, 5, 6, 9, 10, 13, 14};
    static const uint8_t cards[] = {0xE0, 0xE0, 0xE0, 0xA0, 0xC0, 0xC0, 0x60};
    uint8_t card = cards[pick(c, sizeof cards)];
    put_socket(c, m, r, irq_free);
    put(r, 2, 2, allowed[pick(c, sizeof allowed)]);
    if (one_in(c, 8))
        put(r, 2, 2, pick(c, one_in(c, 2) ? 65536 : 16));
    r->packet[5] = (uint8_t)(card | (one_in(c, 2) ? CS_IRQ_INFO_MASK : pick(c, CS_LEVELS)));
    if (one_in(c, 16))
        r->packet[5] = byte(c);
    uint32_t one = pick(c, CS_LEVELS), other = pick(c, CS_LEVELS);
    if (one_in(c, 2))
        put(r, 6, 2, one_in(c, 8) ? 0 : 1u << one | 1u << other);
}

static void release_irq_packet(struct chance *c, const struct model *m, struct request *r)
{
    put_socket(c, m, r, irq_held);
    const struct irq_grant *g = &m->irq[r->packet[0] % CS_SOCKETS];
    put(r, 2, 2, one_in(c, 4) ? pick(c, 65536) : g->manner == DYNAMIC_PULSE ? 2 : g->manner);
    r->packet[4] = one_in(c, 8) ? byte(c) : g->level;
    r->handle = one_in(c, 4) || !g->live ? r->handle : g->client;
}

/* A managed port, a granted one or an alias of it, one near an alias of a range's end,
   or another. */
static uint32_t some_base(struct chance *c, const struct model *m, uint8_t lines)
{
    const struct io_grant *g = &m->io[pick(c, CS_SOCKETS)];
    if (g->live && one_in(c, 3))
        return g->base + (pick(c, 4) << g->lines);
    if (m->ranges == 0 || one_in(c, 4))
        return some_port(c);
    const struct range *r = &m->range[pick(c, m->ranges)];
    uint32_t within = pick(c, r->count), near = pick(c, 12);
    if (lines <= CS_LINES && one_in(c, 4))
        return r->base + r->count + (pick(c, 4) << lines) - near;
    return r->base + within;
}

/* Base 0 in every third. */
static void request_io_packet(struct chance *c, const struct model *m, struct request *r)
{
    put_socket(c, m, r, io_free);
    r->packet[10] = one_in(c, 16) ? byte(c) : some_lines(c);
    put(r, 2, 2, one_in(c, 3) ? 0 : some_base(c, m, r->packet[10]));
    r->packet[4] = (uint8_t)some_count(c);
    r->packet[5] = one_in(c, 8) ? byte(c) : (uint8_t)pick(c, 16);
    r->packet[8] = one_in(c, 16) ? byte(c) : 0;
}

static void release_io_packet(struct chance *c, const struct model *m, struct request *r)
{
    put_socket(c, m, r, io_held);
    const struct io_grant *g = &m->io[r->packet[0] % CS_SOCKETS];
    put(r, 2, 2, one_in(c, 8) ? some_port(c) : g->base);
    r->packet[4] = one_in(c, 8) ? byte(c) : g->count;
    r->packet[8] = one_in(c, 16) ? byte(c) : 0;
    r->handle = one_in(c, 4) || !g->live ? r->handle : g->client;
}

static void request_mask_packet(struct chance *c, const struct model *m, struct request *r)
{
    put_socket(c, m, r, mask_free);
    put(r, 2, 2, one_in(c, 8) ? pick(c, 65536) : one_in(c, 8) ? 0 : pick(c, EVENT_MASKS));
}

static void release_mask_packet(struct chance *c, const struct model *m, struct request *r)
{
    put_socket(c, m, r, mask_held);
}

static const struct {
    uint16_t service;
    size_t len;
    void (*packet)(struct chance *c, const struct model *m, struct request *r);
} kinds[] = {
    {CS_REGISTER_CLIENT, CS_REGISTER_CLIENT_LENGTH, register_packet},
    {CS_DEREGISTER_CLIENT, CS_DEREGISTER_CLIENT_LENGTH, any_packet},
    {CS_ADJUST_RESOURCE_INFO, CS_ADJUST_IO_LONG_LENGTH, adjust_packet},
    {CS_REQUEST_IRQ, CS_REQUEST_IRQ_LENGTH, request_irq_packet},
    {CS_RELEASE_IRQ, CS_RELEASE_IRQ_LENGTH, release_irq_packet},
    {CS_REQUEST_IO, CS_REQUEST_IO_LENGTH, request_io_packet},
    {CS_RELEASE_IO, CS_RELEASE_IO_LENGTH, release_io_packet},
    {CS_REQUEST_SOCKET_MASK, CS_REQUEST_SOCKET_MASK_LENGTH, request_mask_packet},
    {CS_RELEASE_SOCKET_MASK, CS_RELEASE_SOCKET_MASK_LENGTH, release_mask_packet},
};

static uint16_t some_handle(struct chance *c, const struct model *m)
{
    if (m->clients > 0 && !one_in(c, 8))
        return some_client(c, m);
    return (uint16_t)(one_in(c, 2) ? pick(c, 65536) : pick(c, m->issued + 2));
}

void random_request(struct chance *c, const struct model *m, struct request *r)
{
    unsigned kind = pick(c, sizeof kinds / sizeof *kinds);
    for (size_t i = 0; i < MOST_PACKET; i++)
        r->packet[i] = byte(c);
    r->service = one_in(c, 32) ? (uint16_t)pick(c, 65536) : kinds[kind].service;
    r->handle = some_handle(c, m);
    r->len = kinds[kind].len;
    kinds[kind].packet(c, m, r);
    if (one_in(c, 16))
        r->len = pick(c, MOST_PACKET + 1);
}

/* ---- Boot lists ---- */

static void boot_record(struct chance *c, const struct model *m, uint8_t *record)
{
    struct range ports = some_ports(c, m);
    record[0] = some_resource(c);
    record[1] = some_attributes(c);
    if (record[0] == CS_RESOURCE_IRQ)
        ports.base = perhaps_wide(c, pick(c, CS_LEVELS + 1));
    put_number(record + 2, 4, ports.base);
    put_number(record + 6, 4, ports.count);
}

size_t random_boot_list(struct chance *c, const struct model *m, uint8_t records[MOST_BOOT_LIST])
{
    size_t len = pick(c, one_in(c, 8) ? MOST_BOOT_LIST / CS_BOOT_RECORD : 6) * CS_BOOT_RECORD;
    for (size_t at = 0; at < len; at += CS_BOOT_RECORD)
        boot_record(c, m, records + at);
    return len > 0 && one_in(c, 6) ? len - 1 - pick(c, CS_BOOT_RECORD - 1) : len;
}
