#include "old_layout.h"

#include <string.h>

/* Where the parts of the old image stood, and how long the records were. */
enum {
    OLD_SOCKETS = 0,
    OLD_CLIENT_COUNT = 1,
    OLD_RANGE_COUNT = 2,
    OLD_ISSUED = 3,
    OLD_CARDS = 5,
    OLD_LEVELS = 13,
    OLD_IO = 45,
    OLD_IRQ = 133,
    OLD_CLIENTS = 165,
    OLD_RANGES = 517
};
enum { LEVEL_BYTES = 2, IO_BYTES = 11, IRQ_BYTES = 4, CLIENT_BYTES = 22, RANGE_BYTES = 7 };

/* "0 no mask, else 4,096 + the mask". */
enum { MASK_HELD = 4096 };

static void put(uint8_t *at, size_t size, uint32_t value)
{
    for (size_t i = 0; i < size; i++)
        at[i] = (uint8_t)(value >> (8 * i));
}

static void put_io_grant(uint8_t *at, const struct io_grant *g)
{
    if (!g->live)
        return;
    put(at, 2, g->client);
    put(at + 2, 2, g->base);
    at[4] = g->count;
    at[5] = g->lines;
    at[6] = g->shared;
}

static void put_irq_grant(uint8_t *at, const struct irq_grant *g)
{
    if (!g->live)
        return;
    put(at, 2, g->client);
    at[2] = g->level;
    at[3] = g->manner;
}

static void put_client(uint8_t *at, const struct client *c)
{
    put(at, 2, c->handle);
    put(at + 2, 2, c->attributes);
    put(at + 4, 2, c->event_mask);
    for (unsigned s = 0; s < CS_SOCKETS; s++)
        if (c->masks[s].held)
            put(at + 6 + 2 * s, 2, MASK_HELD + c->masks[s].events);
}

static void put_range(uint8_t *at, const struct range *r)
{
    put(at, 2, r->base);
    put(at + 2, 4, r->count);
    at[6] = r->reserved;
}

/* "clients in order of handle", "ranges in order of base": how many come before. */
static unsigned clients_before(const struct model *m, uint16_t handle)
{
    unsigned before = 0;
    for (unsigned i = 0; i < m->clients; i++)
        before += m->client[i].handle < handle;
    return before;
}

static unsigned ranges_before(const struct model *m, uint32_t base)
{
    unsigned before = 0;
    for (unsigned i = 0; i < m->ranges; i++)
        before += m->range[i].base < base;
    return before;
}

static void put_lists(const struct model *m, uint8_t *out)
{
    for (unsigned i = 0; i < m->clients; i++) {
        unsigned place = clients_before(m, m->client[i].handle);
        put_client(out + OLD_CLIENTS + CLIENT_BYTES * place, &m->client[i]);
    }
    for (unsigned i = 0; i < m->ranges; i++) {
        unsigned place = ranges_before(m, m->range[i].base);
        put_range(out + OLD_RANGES + RANGE_BYTES * place, &m->range[i]);
    }
}

void old_image(const struct model *m, uint8_t out[CS_TABLE_SIZE])
{
    memset(out, 0, CS_TABLE_SIZE);
    out[OLD_SOCKETS] = (uint8_t)m->sockets;
    out[OLD_CLIENT_COUNT] = (uint8_t)m->clients;
    out[OLD_RANGE_COUNT] = (uint8_t)m->ranges;
    put(out + OLD_ISSUED, 2, m->issued);
    for (unsigned s = 0; s < CS_SOCKETS; s++) {
        out[OLD_CARDS + s] = m->card[s];
        put_io_grant(out + OLD_IO + IO_BYTES * s, &m->io[s]);
        put_irq_grant(out + OLD_IRQ + IRQ_BYTES * s, &m->irq[s]);
    }
    for (unsigned level = 0; level < CS_LEVELS; level++) {
        out[OLD_LEVELS + LEVEL_BYTES * level] = m->level[level].managed;
        out[OLD_LEVELS + LEVEL_BYTES * level + 1] = m->level[level].reserved;
    }
    put_lists(m, out);
}
