#include "layout.h"

#include <string.h>

static uint16_t word(const uint8_t *at)
{
    return (uint16_t)(at[0] | at[1] << 8);
}

static void put_word(uint8_t *at, unsigned value)
{
    at[0] = (uint8_t)value;
    at[1] = (uint8_t)(value >> 8);
}

static uint32_t double_word(const uint8_t *at)
{
    return word(at) | (uint32_t)word(at + 2) << 16;
}

static void put_double_word(uint8_t *at, uint32_t value)
{
    put_word(at, value & 0xFFFF);
    put_word(at + 2, value >> 16);
}

size_t mask_place(unsigned client, unsigned seat)
{
    return AT_MASKS + (size_t)MASKS_SIZE * client + MASK_SIZE * seat;
}

/* ---- Facts to bytes ---- */

static void put_level(uint8_t *at, const struct level *level)
{
    at[LEVEL_MANAGED] = level->managed;
    at[LEVEL_RESERVED] = level->reserved;
}

static void put_io_grant(uint8_t *at, const struct io_grant *g)
{
    if (!g->live)
        return;
    put_word(at + IO_CLIENT, g->client);
    put_word(at + IO_BASE, g->base);
    at[IO_COUNT] = g->count;
    at[IO_LINES] = g->lines;
    at[IO_SHARED] = g->shared;
}

static void put_irq_grant(uint8_t *at, const struct irq_grant *g)
{
    if (!g->live)
        return;
    put_word(at + IRQ_CLIENT, g->client);
    at[IRQ_LEVEL] = g->level;
    at[IRQ_MANNER] = g->manner;
}

/* The client in this place of the runs. */
static void put_client(uint8_t *out, unsigned place, const struct client *c)
{
    put_word(out + AT_HANDLES + HANDLE_SIZE * place, c->handle);
    out[AT_ATTRIBUTES + ATTRIBUTES_SIZE * place] = (uint8_t)c->attributes;
    put_word(out + AT_EVENTS + EVENTS_SIZE * place, c->event_mask);
    for (unsigned s = 0; s < CS_SOCKETS; s++)
        if (c->masks[s].held)
            put_word(out + mask_place(place, s), c->masks[s].events + 1u);
}

static void put_range(uint8_t *at, const struct range *r)
{
    put_word(at + RANGE_BASE, r->base);
    put_double_word(at + RANGE_COUNT, r->count);
    at[RANGE_RESERVED] = r->reserved;
}

/* LAYOUT.md's "handles of the clients, lowest first": how many come before this one. */
static unsigned client_place(const struct model *m, unsigned i)
{
    unsigned place = 0;
    for (unsigned j = 0; j < m->clients; j++)
        place += m->client[j].handle < m->client[i].handle ||
                 (m->client[j].handle == m->client[i].handle && j < i);
    return place;
}

/* LAYOUT.md's "ranges in order of base": how many come before this one. */
static unsigned range_place(const struct model *m, unsigned i)
{
    unsigned place = 0;
    for (unsigned j = 0; j < m->ranges; j++)
        place +=
            m->range[j].base < m->range[i].base || (m->range[j].base == m->range[i].base && j < i);
    return place;
}

void model_image(const struct model *m, uint8_t out[CS_TABLE_SIZE])
{
    memset(out, 0, CS_TABLE_SIZE);
    out[AT_LAYOUT] = THIS_LAYOUT;
    out[AT_SOCKETS] = (uint8_t)m->sockets;
    out[AT_CLIENT_COUNT] = (uint8_t)m->clients;
    out[AT_RANGE_COUNT] = (uint8_t)m->ranges;
    put_word(out + AT_ISSUED, m->issued);
    for (unsigned s = 0; s < CS_SOCKETS; s++) {
        out[AT_CARDS + s] = m->card[s];
        put_io_grant(out + AT_IO + IO_SIZE * s, &m->io[s]);
        put_irq_grant(out + AT_IRQ + IRQ_SIZE * s, &m->irq[s]);
    }
    for (unsigned level = 0; level < CS_LEVELS; level++)
        put_level(out + AT_LEVELS + LEVEL_SIZE * level, &m->level[level]);
    for (unsigned i = 0; i < m->clients; i++)
        put_client(out, client_place(m, i), &m->client[i]);
    for (unsigned i = 0; i < m->ranges; i++)
        put_range(out + AT_RANGES + RANGE_SIZE * range_place(m, i), &m->range[i]);
}

/* ---- Bytes to facts: any bytes whose counts keep the limits ---- */

static struct level get_level(const uint8_t *at)
{
    return (struct level){at[LEVEL_MANAGED] != 0, at[LEVEL_RESERVED] != 0};
}

static struct io_grant get_io_grant(const uint8_t *at)
{
    return (struct io_grant){
        .live = word(at + IO_CLIENT) != 0,
        .client = word(at + IO_CLIENT),
        .base = word(at + IO_BASE),
        .count = at[IO_COUNT],
        .lines = at[IO_LINES],
        .shared = at[IO_SHARED] != 0,
    };
}

static struct irq_grant get_irq_grant(const uint8_t *at)
{
    return (struct irq_grant){
        .live = word(at + IRQ_CLIENT) != 0,
        .client = word(at + IRQ_CLIENT),
        .level = at[IRQ_LEVEL],
        .manner = at[IRQ_MANNER],
    };
}

/* A word over 4,096 comes out with reserved events set. */
static struct mask get_mask(const uint8_t *at)
{
    if (word(at) == 0)
        return (struct mask){false, 0};
    return (struct mask){true, (uint16_t)(word(at) - 1)};
}

static struct client get_client(const uint8_t *bytes, unsigned place)
{
    struct client c = {
        .handle = word(bytes + AT_HANDLES + HANDLE_SIZE * place),
        .attributes = bytes[AT_ATTRIBUTES + ATTRIBUTES_SIZE * place],
        .event_mask = word(bytes + AT_EVENTS + EVENTS_SIZE * place),
    };
    for (unsigned s = 0; s < CS_SOCKETS; s++)
        c.masks[s] = get_mask(bytes + mask_place(place, s));
    return c;
}

static struct range get_range(const uint8_t *at)
{
    return (struct range){
        .base = word(at + RANGE_BASE),
        .count = double_word(at + RANGE_COUNT),
        .reserved = at[RANGE_RESERVED] != 0,
    };
}

static void get_facts(const uint8_t *bytes, struct model *m)
{
    memset(m, 0, sizeof *m);
    m->sockets = bytes[AT_SOCKETS];
    m->clients = bytes[AT_CLIENT_COUNT];
    m->ranges = bytes[AT_RANGE_COUNT];
    m->issued = word(bytes + AT_ISSUED);
    for (unsigned s = 0; s < CS_SOCKETS; s++) {
        m->card[s] = bytes[AT_CARDS + s] != 0;
        m->io[s] = get_io_grant(bytes + AT_IO + IO_SIZE * s);
        m->irq[s] = get_irq_grant(bytes + AT_IRQ + IRQ_SIZE * s);
    }
    for (unsigned level = 0; level < CS_LEVELS; level++)
        m->level[level] = get_level(bytes + AT_LEVELS + LEVEL_SIZE * level);
    for (unsigned i = 0; i < m->clients; i++)
        m->client[i] = get_client(bytes, i);
    for (unsigned i = 0; i < m->ranges; i++)
        m->range[i] = get_range(bytes + AT_RANGES + RANGE_SIZE * i);
}

/* "Each well-formed set has exactly one image. Any other bytes, or another
   length, are refused": the facts' own image has to be these very bytes. */
bool model_read(const uint8_t *bytes, size_t len, struct model *m)
{
    uint8_t image[CS_TABLE_SIZE];
    if (len != CS_TABLE_SIZE || bytes[AT_CLIENT_COUNT] > CS_CLIENTS ||
        bytes[AT_RANGE_COUNT] > CS_RANGES)
        return false;
    get_facts(bytes, m);
    model_image(m, image);
    return memcmp(bytes, image, CS_TABLE_SIZE) == 0 && well_formed(m);
}
