#include "clauses.h"

#include <string.h>

#include "layout.h"

/* A clause is broken in the facts or in their image. The answer is false where
   the set lacks what that takes. */
struct clause {
    const char *name;
    bool (*in_facts)(struct chance *c, struct model *m);
    bool (*in_image)(struct chance *c, const struct model *m, uint8_t *image);
};

static struct client *some_client(struct chance *c, struct model *m)
{
    return m->clients == 0 ? NULL : &m->client[pick(c, m->clients)];
}

static bool holds_grant(const struct model *m, uint16_t client)
{
    for (unsigned s = 0; s < CS_SOCKETS; s++)
        if ((m->io[s].live && m->io[s].client == client) ||
            (m->irq[s].live && m->irq[s].client == client))
            return true;
    return false;
}

/* A client whose handle no grant names. */
static struct client *idle_client(struct chance *c, struct model *m)
{
    struct client *client = some_client(c, m);
    return client == NULL || holds_grant(m, client->handle) ? NULL : client;
}

/* One of these bits, the first and the last among them. */
static uint16_t bit_of(struct chance *c, unsigned first, unsigned last)
{
    return (uint16_t)(1u << (first + pick(c, last + 1 - first)));
}

static bool no_sockets(struct chance *c, struct model *m)
{
    (void)c;
    for (unsigned s = 0; s < m->sockets; s++) {
        m->card[s] = false;
        m->io[s].live = m->irq[s].live = false;
        for (unsigned i = 0; i < m->clients; i++)
            m->client[i].masks[s].held = false;
    }
    m->sockets = 0;
    return true;
}

static bool too_many_sockets(struct chance *c, struct model *m)
{
    m->sockets = CS_SOCKETS + 1 + pick(c, 255 - CS_SOCKETS);
    return true;
}

static bool card_past_count(struct chance *c, struct model *m)
{
    if (m->sockets == CS_SOCKETS)
        return false;
    m->card[m->sockets + pick(c, CS_SOCKETS - m->sockets)] = true;
    return true;
}

static bool handle_zero(struct chance *c, struct model *m)
{
    struct client *client = idle_client(c, m);
    if (client != NULL)
        client->handle = 0;
    return client != NULL;
}

static bool handle_twice(struct chance *c, struct model *m)
{
    struct client *client = idle_client(c, m), *other = some_client(c, m);
    if (client == other)
        return false;
    if (client != NULL)
        client->handle = other->handle;
    return client != NULL;
}

static bool handle_not_issued(struct chance *c, struct model *m)
{
    uint16_t highest = 0;
    (void)c;
    for (unsigned i = 0; i < m->clients; i++)
        if (m->client[i].handle > highest)
            highest = m->client[i].handle;
    m->issued = highest == 0 ? m->issued : highest - 1u;
    return highest != 0;
}

static bool attributes_not_accepted(struct chance *c, struct model *m)
{
    struct client *client = some_client(c, m);
    if (client == NULL)
        return false;
    uint16_t type = client->attributes & 7;
    switch (pick(c, 3)) {
    case 0:
        client->attributes ^= type;
        break;
    case 1:
        client->attributes |= (uint16_t)(type == 4 ? 1 : type << 1);
        break;
    default:
        client->attributes |= bit_of(c, 5, 7); /* the table has a byte for them */
    }
    return true;
}

static bool events_not_accepted(struct chance *c, struct model *m)
{
    struct client *client = some_client(c, m);
    if (client != NULL)
        client->event_mask |= bit_of(c, 12, 15);
    return client != NULL;
}

static bool mask_not_accepted(struct chance *c, struct model *m)
{
    struct client *client = some_client(c, m);
    if (client != NULL)
        client->masks[pick(c, m->sockets)] = (struct mask){true, bit_of(c, 12, 15)};
    return client != NULL;
}

static bool mask_past_count(struct chance *c, struct model *m)
{
    struct client *client = some_client(c, m);
    if (client == NULL || m->sockets == CS_SOCKETS)
        return false;
    unsigned socket = m->sockets + pick(c, CS_SOCKETS - m->sockets);
    client->masks[socket] = (struct mask){true, (uint16_t)pick(c, EVENT_MASKS)};
    return true;
}

static bool unmanaged_reserved(struct chance *c, struct model *m)
{
    struct level *level = &m->level[pick(c, CS_LEVELS)];
    level->reserved = level->reserved || !level->managed;
    return !level->managed;
}

static struct range *some_range(struct chance *c, struct model *m)
{
    return m->ranges == 0 ? NULL : &m->range[pick(c, m->ranges)];
}

static void no_io_grants(struct model *m)
{
    memset(m->io, 0, sizeof m->io);
}

static bool empty_range(struct chance *c, struct model *m)
{
    struct range *r = some_range(c, m);
    no_io_grants(m);
    if (r != NULL)
        r->count = 0;
    return r != NULL;
}

static bool overlapping_range(struct chance *c, struct model *m)
{
    const struct range *r = some_range(c, m);
    if (r == NULL || m->ranges == CS_RANGES)
        return false;
    uint32_t port = r->base + pick(c, r->count);
    m->range[m->ranges++] = (struct range){port, 1, one_in(c, 2)};
    return true;
}

static bool range_past_ffff(struct chance *c, struct model *m)
{
    struct range *highest = m->ranges == 0 ? NULL : &m->range[0];
    for (unsigned i = 0; i < m->ranges; i++)
        if (m->range[i].base > highest->base)
            highest = &m->range[i];
    if (highest != NULL)
        highest->count = CS_PORTS - highest->base + 1 + (one_in(c, 2) ? 0 : pick(c, 0xFFFE0000));
    return highest != NULL;
}

/* The set's only I/O grant: one managed port from 1 on, all lines. */
static struct io_grant *only_io_grant(struct chance *c, struct model *m)
{
    struct range *r = some_range(c, m);
    unsigned socket = pick(c, m->sockets);
    no_io_grants(m);
    if (r == NULL || m->clients == 0 || r->base + r->count < 2)
        return NULL;
    uint32_t base = r->base + pick(c, r->count);
    m->io[socket] = (struct io_grant){
        true,        some_client(c, m)->handle, (uint16_t)(base == 0 ? 1 : base), 1, CS_LINES,
        one_in(c, 2)};
    return &m->io[socket];
}

static uint16_t dead_handle(struct chance *c, const struct model *m)
{
    uint16_t handle = (uint16_t)(1 + pick(c, CS_HANDLES));
    for (unsigned i = 0; i < m->clients; i++)
        if (m->client[i].handle == handle)
            return dead_handle(c, m);
    return handle;
}

static bool io_grant_of_dead(struct chance *c, struct model *m)
{
    struct io_grant *g = only_io_grant(c, m);
    if (g != NULL)
        g->client = dead_handle(c, m);
    return g != NULL;
}

static bool io_grant_past_count(struct chance *c, struct model *m)
{
    struct io_grant *g = only_io_grant(c, m);
    if (g == NULL || m->sockets == CS_SOCKETS)
        return false;
    m->io[m->sockets + pick(c, CS_SOCKETS - m->sockets)] = *g;
    *g = (struct io_grant){0};
    return true;
}

static bool io_grant_unmanaged(struct chance *c, struct model *m)
{
    struct io_grant *g = only_io_grant(c, m);
    if (g == NULL)
        return false;
    for (unsigned i = 0; i < m->ranges; i++)
        if (m->range[i].base <= g->base && g->base - m->range[i].base < m->range[i].count)
            m->range[i] = m->range[--m->ranges];
    return true;
}

/* All ports are managed but one, which equals one of the grant's in the lines that
   its card decodes. */
static bool io_grant_repeated_unmanaged(struct chance *c, struct model *m)
{
    struct io_grant *g = only_io_grant(c, m);
    if (g == NULL)
        return false;
    g->lines = (uint8_t)(1 + pick(c, CS_LINES - 1));
    g->count = (uint8_t)(1 + pick(c, g->lines < 8 ? 1u << g->lines : 255));
    g->base = (uint16_t)(1 + pick(c, CS_PORTS - g->count));
    uint32_t own = g->base + pick(c, g->count), bit = g->lines + pick(c, CS_LINES - g->lines);
    uint32_t gap = own ^ 1u << bit;
    m->ranges = 0;
    if (gap > 0)
        m->range[m->ranges++] = (struct range){0, gap, one_in(c, 2)};
    if (gap < CS_PORTS - 1)
        m->range[m->ranges++] = (struct range){gap + 1, CS_PORTS - 1 - gap, one_in(c, 2)};
    return true;
}

static bool io_grant_base_zero(struct chance *c, struct model *m)
{
    struct io_grant *g = only_io_grant(c, m);
    if (g == NULL)
        return false;
    uint32_t count = 1 + pick(c, CS_PORTS);
    m->ranges = 1;
    m->range[0] = (struct range){0, count, one_in(c, 2)};
    g->base = 0;
    return true;
}

static bool io_grant_lines(struct chance *c, struct model *m)
{
    struct io_grant *g = only_io_grant(c, m);
    if (g != NULL)
        g->lines = (uint8_t)(one_in(c, 2) ? 0 : CS_LINES + 1 + pick(c, 255 - CS_LINES));
    return g != NULL;
}

static bool io_grant_no_port(struct chance *c, struct model *m)
{
    struct io_grant *g = only_io_grant(c, m);
    if (g != NULL)
        g->count = 0;
    return g != NULL;
}

static bool io_grant_over_lines(struct chance *c, struct model *m)
{
    struct io_grant *g = only_io_grant(c, m);
    if (g == NULL)
        return false;
    m->ranges = 1;
    m->range[0] = (struct range){0, CS_PORTS, one_in(c, 2)};
    g->base = (uint16_t)(1 + pick(c, CS_PORTS - 256));
    g->lines = (uint8_t)(1 + pick(c, 7));
    g->count = (uint8_t)((1u << g->lines) + 1);
    return true;
}

/* Two grants an alias apart, or in the very same place, that don't both share. */
static bool io_grants_meet(struct chance *c, struct model *m)
{
    struct io_grant *g = only_io_grant(c, m);
    if (g == NULL || m->sockets < 2)
        return false;
    unsigned socket = (unsigned)(g - m->io);
    struct io_grant *other = &m->io[(socket + 1) % m->sockets];
    m->ranges = 1;
    m->range[0] = (struct range){0, CS_PORTS, one_in(c, 2)};
    *other = *g;
    other->lines = (uint8_t)(4 + pick(c, CS_LINES - 3));
    other->base = (uint16_t)(g->base + (pick(c, CS_PORTS) << other->lines));
    other->shared = !g->shared;
    return other->base != 0;
}

/* The set's only IRQ grant. */
static struct irq_grant *only_irq_grant(struct chance *c, struct model *m)
{
    unsigned socket = pick(c, m->sockets), level = pick(c, CS_LEVELS);
    memset(m->irq, 0, sizeof m->irq);
    if (m->clients == 0 || !m->level[level].managed)
        return NULL;
    m->irq[socket] = (struct irq_grant){true, some_client(c, m)->handle, (uint8_t)level,
                                        (uint8_t)pick(c, MANNERS)};
    return &m->irq[socket];
}

static bool irq_grant_of_dead(struct chance *c, struct model *m)
{
    struct irq_grant *g = only_irq_grant(c, m);
    if (g != NULL)
        g->client = dead_handle(c, m);
    return g != NULL;
}

static bool irq_grant_past_count(struct chance *c, struct model *m)
{
    struct irq_grant *g = only_irq_grant(c, m);
    if (g == NULL || m->sockets == CS_SOCKETS)
        return false;
    m->irq[m->sockets + pick(c, CS_SOCKETS - m->sockets)] = *g;
    *g = (struct irq_grant){0};
    return true;
}

static bool irq_grant_unmanaged(struct chance *c, struct model *m)
{
    struct irq_grant *g = only_irq_grant(c, m);
    if (g != NULL)
        m->level[g->level] = (struct level){false, false};
    return g != NULL;
}

static bool irq_grant_past_levels(struct chance *c, struct model *m)
{
    struct irq_grant *g = only_irq_grant(c, m);
    if (g != NULL)
        g->level = (uint8_t)(CS_LEVELS + pick(c, 256 - CS_LEVELS));
    return g != NULL;
}

static bool irq_grant_past_manners(struct chance *c, struct model *m)
{
    struct irq_grant *g = only_irq_grant(c, m);
    if (g != NULL)
        g->manner = (uint8_t)(MANNERS + pick(c, 256 - MANNERS));
    return g != NULL;
}

static bool irq_grants_meet(struct chance *c, struct model *m)
{
    struct irq_grant *g = only_irq_grant(c, m);
    if (g == NULL || m->sockets < 2)
        return false;
    unsigned socket = (unsigned)(g - m->irq);
    struct irq_grant *other = &m->irq[(socket + 1) % m->sockets];
    *other = *g;
    if (g->manner != EXCLUSIVE)
        other->manner = (uint8_t)((g->manner + 1 + pick(c, MANNERS - 1)) % MANNERS);
    return true;
}

/* ---- Clauses of the image: one set, one image ---- */

static uint8_t not_a_mark(struct chance *c)
{
    return (uint8_t)(2 + pick(c, 254));
}

/* One of these bytes, which are all 0, becomes another number. */
static void spoil(struct chance *c, uint8_t *zeros, size_t many)
{
    uint32_t at = pick(c, (uint32_t)many);
    zeros[at] = (uint8_t)(1 + pick(c, 255));
}

static void put_word(uint8_t *at, uint32_t word)
{
    at[0] = (uint8_t)word;
    at[1] = (uint8_t)(word >> 8);
}

static void miscount(struct chance *c, uint8_t *count)
{
    uint8_t right = *count;
    do
        *count = (uint8_t)(one_in(c, 2) ? right + 3 - pick(c, 6) : pick(c, 256));
    while (*count == right);
}

/* Also what the socket count would be if it stood here. */
static bool another_layout(struct chance *c, const struct model *m, uint8_t *image)
{
    (void)m;
    do
        image[AT_LAYOUT] = (uint8_t)pick(c, one_in(c, 2) ? CS_SOCKETS + 1 : 256);
    while (image[AT_LAYOUT] == THIS_LAYOUT);
    return true;
}

static bool client_count_wrong(struct chance *c, const struct model *m, uint8_t *image)
{
    (void)m;
    miscount(c, image + AT_CLIENT_COUNT);
    return true;
}

/* More clients than may be live, and nothing else is wrong with them: the runs have
   room for them. */
static bool too_many_clients(struct chance *c, const struct model *m, uint8_t *image)
{
    enum { HIGH = CS_HANDLES - CLIENT_PLACES };
    unsigned many = CS_CLIENTS + 1 + pick(c, CLIENT_PLACES - CS_CLIENTS);
    for (unsigned i = 0; i < m->clients; i++)
        if (m->client[i].handle >= HIGH)
            return false;
    for (unsigned place = m->clients; place < many; place++) {
        put_word(image + AT_HANDLES + HANDLE_SIZE * place, HIGH + place);
        image[AT_ATTRIBUTES + ATTRIBUTES_SIZE * place] = CS_IO_CLIENT;
    }
    put_word(image + AT_ISSUED, CS_HANDLES);
    image[AT_CLIENT_COUNT] = (uint8_t)many;
    return true;
}

static bool range_count_wrong(struct chance *c, const struct model *m, uint8_t *image)
{
    (void)m;
    miscount(c, image + AT_RANGE_COUNT);
    return true;
}

static bool card_not_a_mark(struct chance *c, const struct model *m, uint8_t *image)
{
    image[AT_CARDS + pick(c, m->sockets)] = not_a_mark(c);
    return true;
}

static bool level_not_a_mark(struct chance *c, const struct model *m, uint8_t *image)
{
    unsigned level = pick(c, CS_LEVELS), mark = one_in(c, 2) ? LEVEL_MANAGED : LEVEL_RESERVED;
    image[AT_LEVELS + LEVEL_SIZE * level + mark] = not_a_mark(c);
    return m->level[level].managed;
}

static bool shared_not_a_mark(struct chance *c, const struct model *m, uint8_t *image)
{
    unsigned socket = pick(c, m->sockets);
    image[AT_IO + IO_SIZE * socket + IO_SHARED] = not_a_mark(c);
    return m->io[socket].live;
}

static bool range_not_a_mark(struct chance *c, const struct model *m, uint8_t *image)
{
    if (m->ranges == 0)
        return false;
    image[AT_RANGES + RANGE_SIZE * pick(c, m->ranges) + RANGE_RESERVED] = not_a_mark(c);
    return true;
}

static bool io_grant_spare(struct chance *c, const struct model *m, uint8_t *image)
{
    unsigned socket = pick(c, m->sockets);
    spoil(c, image + AT_IO + IO_SIZE * socket + IO_SPARE, IO_SIZE - IO_SPARE);
    return m->io[socket].live;
}

/* A record without a client's handle is zero. */
static bool io_record_not_zero(struct chance *c, const struct model *m, uint8_t *image)
{
    unsigned socket = pick(c, CS_SOCKETS);
    spoil(c, image + AT_IO + IO_SIZE * socket + IO_BASE, IO_SIZE - IO_BASE);
    return !m->io[socket].live;
}

static bool irq_record_not_zero(struct chance *c, const struct model *m, uint8_t *image)
{
    unsigned socket = pick(c, CS_SOCKETS);
    spoil(c, image + AT_IRQ + IRQ_SIZE * socket + IRQ_LEVEL, IRQ_SIZE - IRQ_LEVEL);
    return !m->irq[socket].live;
}

/* A seat that no socket has: some byte is another, or a socket's grant stands there. */
static unsigned seat_past_sockets(struct chance *c)
{
    return CS_SOCKETS + pick(c, SEATS - CS_SOCKETS);
}

static bool io_seat_not_zero(struct chance *c, const struct model *m, uint8_t *image)
{
    (void)m;
    spoil(c, image + AT_IO + IO_SIZE * seat_past_sockets(c), IO_SIZE);
    return true;
}

static bool irq_seat_not_zero(struct chance *c, const struct model *m, uint8_t *image)
{
    (void)m;
    spoil(c, image + AT_IRQ + IRQ_SIZE * seat_past_sockets(c), IRQ_SIZE);
    return true;
}

static void move_record(uint8_t *records, unsigned from, unsigned to, size_t size)
{
    memcpy(records + size * to, records + size * from, size);
    memset(records + size * from, 0, size);
}

static bool io_grant_past_sockets(struct chance *c, const struct model *m, uint8_t *image)
{
    unsigned socket = pick(c, m->sockets), seat = seat_past_sockets(c);
    move_record(image + AT_IO, socket, seat, IO_SIZE);
    return m->io[socket].live;
}

static bool irq_grant_past_sockets(struct chance *c, const struct model *m, uint8_t *image)
{
    unsigned socket = pick(c, m->sockets), seat = seat_past_sockets(c);
    move_record(image + AT_IRQ, socket, seat, IRQ_SIZE);
    return m->irq[socket].live;
}

/* The places of a run that no client has. */
static void spoil_run(struct chance *c, const struct model *m, uint8_t *run, unsigned places,
                      size_t size)
{
    spoil(c, run + size * m->clients, size * (places - m->clients));
}

static bool handle_place_not_zero(struct chance *c, const struct model *m, uint8_t *image)
{
    spoil_run(c, m, image + AT_HANDLES, HANDLE_PLACES, HANDLE_SIZE);
    return true;
}

static bool last_handle_place_not_zero(struct chance *c, const struct model *m, uint8_t *image)
{
    (void)m;
    spoil(c, image + AT_HANDLES + HANDLE_SIZE * (HANDLE_PLACES - 1), HANDLE_SIZE);
    return true;
}

static bool attributes_place_not_zero(struct chance *c, const struct model *m, uint8_t *image)
{
    spoil_run(c, m, image + AT_ATTRIBUTES, CLIENT_PLACES, ATTRIBUTES_SIZE);
    return true;
}

static bool events_place_not_zero(struct chance *c, const struct model *m, uint8_t *image)
{
    spoil_run(c, m, image + AT_EVENTS, CLIENT_PLACES, EVENTS_SIZE);
    return true;
}

/* A mask's word that is not 0; every other time one that a mask can have. */
static void spoil_mask(struct chance *c, uint8_t *image, unsigned client, unsigned seat)
{
    uint32_t word = 1 + pick(c, one_in(c, 2) ? EVENT_MASKS : 65535);
    put_word(image + mask_place(client, seat), word);
}

static bool mask_word_high(struct chance *c, const struct model *m, uint8_t *image)
{
    if (m->clients == 0)
        return false;
    unsigned client = pick(c, m->clients), socket = pick(c, m->sockets);
    uint32_t over = one_in(c, 4) ? 0 : pick(c, 65535 - EVENT_MASKS);
    put_word(image + mask_place(client, socket), EVENT_MASKS + 1 + over);
    return true;
}

static bool mask_not_zero_past_count(struct chance *c, const struct model *m, uint8_t *image)
{
    if (m->clients == 0 || m->sockets == CS_SOCKETS)
        return false;
    unsigned client = pick(c, m->clients);
    spoil_mask(c, image, client, m->sockets + pick(c, CS_SOCKETS - m->sockets));
    return true;
}

static bool mask_past_sockets(struct chance *c, const struct model *m, uint8_t *image)
{
    if (m->clients == 0)
        return false;
    unsigned client = pick(c, m->clients);
    spoil_mask(c, image, client, seat_past_sockets(c));
    return true;
}

static bool mask_of_no_client(struct chance *c, const struct model *m, uint8_t *image)
{
    if (m->clients == CS_CLIENTS)
        return false;
    unsigned client = m->clients + pick(c, CS_CLIENTS - m->clients);
    unsigned seat = pick(c, one_in(c, 2) ? m->sockets : SEATS);
    spoil_mask(c, image, client, seat);
    return true;
}

static bool spare_not_zero(struct chance *c, const struct model *m, uint8_t *image)
{
    (void)m;
    spoil(c, image + AT_SPARE, AT_MASKS - AT_SPARE);
    return true;
}

static bool range_record_not_zero(struct chance *c, const struct model *m, uint8_t *image)
{
    if (m->ranges == CS_RANGES)
        return false;
    spoil(c, image + AT_RANGES + RANGE_SIZE * m->ranges, RANGE_SIZE * (CS_RANGES - m->ranges));
    return true;
}

static bool rest_not_zero(struct chance *c, const struct model *m, uint8_t *image)
{
    (void)m;
    spoil(c, image + AT_REST, CS_TABLE_SIZE - AT_REST);
    return true;
}

/* A record changes places with the one after it. */
static void swap_with_next(uint8_t *records, unsigned which, size_t size)
{
    uint8_t kept[MASKS_SIZE], *at = records + size * which;
    memcpy(kept, at, size);
    memcpy(at, at + size, size);
    memcpy(at + size, kept, size);
}

/* The handles alone, and clients with all that they have. */
static bool handles_out_of_order(struct chance *c, const struct model *m, uint8_t *image)
{
    if (m->clients < 2)
        return false;
    swap_with_next(image + AT_HANDLES, pick(c, m->clients - 1), HANDLE_SIZE);
    return true;
}

static bool clients_out_of_order(struct chance *c, const struct model *m, uint8_t *image)
{
    if (m->clients < 2)
        return false;
    unsigned client = pick(c, m->clients - 1);
    swap_with_next(image + AT_HANDLES, client, HANDLE_SIZE);
    swap_with_next(image + AT_ATTRIBUTES, client, ATTRIBUTES_SIZE);
    swap_with_next(image + AT_EVENTS, client, EVENTS_SIZE);
    swap_with_next(image + AT_MASKS, client, MASKS_SIZE);
    return true;
}

static bool ranges_out_of_order(struct chance *c, const struct model *m, uint8_t *image)
{
    if (m->ranges < 2)
        return false;
    swap_with_next(image + AT_RANGES, pick(c, m->ranges - 1), RANGE_SIZE);
    return true;
}

/* clang-format off */
#define FACTS(clause) {#clause, clause, NULL}
#define IMAGE(clause) {#clause, NULL, clause}
/* clang-format on */

static const struct clause all[] = {
    FACTS(no_sockets),
    FACTS(too_many_sockets),
    FACTS(card_past_count),
    FACTS(handle_zero),
    FACTS(handle_twice),
    FACTS(handle_not_issued),
    FACTS(attributes_not_accepted),
    FACTS(events_not_accepted),
    FACTS(mask_not_accepted),
    FACTS(mask_past_count),
    FACTS(unmanaged_reserved),
    FACTS(empty_range),
    FACTS(overlapping_range),
    FACTS(range_past_ffff),
    FACTS(io_grant_of_dead),
    FACTS(io_grant_past_count),
    FACTS(io_grant_unmanaged),
    FACTS(io_grant_repeated_unmanaged),
    FACTS(io_grant_base_zero),
    FACTS(io_grant_lines),
    FACTS(io_grant_no_port),
    FACTS(io_grant_over_lines),
    FACTS(io_grants_meet),
    FACTS(irq_grant_of_dead),
    FACTS(irq_grant_past_count),
    FACTS(irq_grant_unmanaged),
    FACTS(irq_grant_past_levels),
    FACTS(irq_grant_past_manners),
    FACTS(irq_grants_meet),
    IMAGE(another_layout),
    IMAGE(client_count_wrong),
    IMAGE(too_many_clients),
    IMAGE(range_count_wrong),
    IMAGE(card_not_a_mark),
    IMAGE(level_not_a_mark),
    IMAGE(shared_not_a_mark),
    IMAGE(io_grant_spare),
    IMAGE(io_record_not_zero),
    IMAGE(irq_record_not_zero),
    IMAGE(io_seat_not_zero),
    IMAGE(irq_seat_not_zero),
    IMAGE(io_grant_past_sockets),
    IMAGE(irq_grant_past_sockets),
    IMAGE(handle_place_not_zero),
    IMAGE(last_handle_place_not_zero),
    IMAGE(attributes_place_not_zero),
    IMAGE(events_place_not_zero),
    IMAGE(range_record_not_zero),
    IMAGE(range_not_a_mark),
    IMAGE(mask_word_high),
    IMAGE(mask_not_zero_past_count),
    IMAGE(mask_past_sockets),
    IMAGE(mask_of_no_client),
    IMAGE(spare_not_zero),
    IMAGE(handles_out_of_order),
    IMAGE(clients_out_of_order),
    IMAGE(ranges_out_of_order),
    IMAGE(rest_not_zero),
};

unsigned clauses(void)
{
    return sizeof all / sizeof *all;
}

const char *clause_name(unsigned which)
{
    return all[which].name;
}

void break_clause(struct chance *c, unsigned which, uint8_t image[CS_TABLE_SIZE])
{
    static struct model m;
    const struct clause *clause = &all[which];
    bool broken;
    do {
        random_set(c, &m);
        broken = clause->in_facts == NULL || clause->in_facts(c, &m);
        model_image(&m, image);
        broken = broken && (clause->in_image == NULL || clause->in_image(c, &m, image));
    } while (!broken);
}
