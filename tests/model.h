/*
 * model.h: document 01 once more, in plain C, as K1 and K2 of document 02 amend
 * it
 *
 * Written from the documents and the volume alone, for comparison with the
 * proved library: a set of facts and the rules over it, for all nine services
 * and the five host calls.
 */
#ifndef MODEL_H
#define MODEL_H

#include <stdbool.h>
#include <stddef.h>
#include <stdint.h>

#include "card_services.h"

/* Actions are below this, and resource types; two of those are built. */
enum { ACTIONS = 4, RESOURCES = 5 };

/* Event masks are below this: bits 12 to 15 are refused. */
#define EVENT_MASKS 0x1000

/* "Four manners: exclusive, time-multiplexed, dynamic level, dynamic pulse." */
enum manner { EXCLUSIVE, TIME_MULTIPLEXED, DYNAMIC_LEVEL, DYNAMIC_PULSE, MANNERS };

struct mask {
    bool held;
    uint16_t events;
};

struct client {
    uint16_t handle;
    uint16_t attributes;
    uint16_t event_mask;
    struct mask masks[CS_SOCKETS]; /* by socket */
};

struct level {
    bool managed;
    bool reserved;
};

struct range {
    uint32_t base;
    uint32_t count;
    bool reserved;
};

struct io_grant {
    bool live;
    uint16_t client;
    uint16_t base;
    uint8_t count;
    uint8_t lines;
    bool shared;
};

struct irq_grant {
    bool live;
    uint16_t client;
    uint8_t level;
    uint8_t manner;
};

/* What a table says. The order of clients and of ranges says nothing. */
struct model {
    unsigned sockets;
    bool card[CS_SOCKETS];
    unsigned issued;
    unsigned clients;
    struct client client[CS_CLIENTS];
    struct level level[CS_LEVELS];
    unsigned ranges;
    struct range range[CS_RANGES];
    struct io_grant io[CS_SOCKETS];   /* by socket */
    struct irq_grant irq[CS_SOCKETS]; /* by socket */
};

/* The rules that cases and well-formed sets speak of. */
bool meet(const struct io_grant *a, const struct io_grant *b);
bool go_together(uint8_t a, uint8_t b);
bool well_formed(const struct model *m);

/* The entries, over a well-formed set; packed as in card_services.h. */
uint32_t model_fresh(struct model *m, uint32_t sockets);
uint32_t model_card_in(struct model *m, uint32_t socket);
uint32_t model_card_out(struct model *m, uint32_t socket);
uint32_t model_sharers(const struct model *m, uint32_t level);
uint32_t model_call(struct model *m, uint16_t service, uint16_t handle, uint8_t *packet,
                    size_t packet_len);

uint64_t model_boot(struct model *m, const uint8_t *records, size_t len);

#endif
