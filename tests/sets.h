/*
 * sets.h: the sets of facts and the requests that tests and benchmark use
 */
#ifndef SETS_H
#define SETS_H

#include "model.h"

/* A small generator of its own: the same numbers on every machine. */
struct chance {
    uint64_t state;
};

uint32_t pick(struct chance *c, uint32_t below);
bool one_in(struct chance *c, uint32_t many);

/* A full table: cards, levels and 32 ranges managed, an I/O grant and an IRQ
   grant on each of 8 sockets; the clients, 8 to 16, have handles from 1 and a
   mask on each socket. */
void full_set(struct model *m, unsigned clients);

/* A table with 16 clients, a card in each socket, and 31 ranges of many sizes with
   gaps between them. Nobody holds anything. The search for a base for a
   card of 15 lines is long there. */
void gapped_set(struct model *m);

/* Ranges of a set that has none, by which many ports are repeated at managed ones:
   all ports, all but a few, or ranges that lie alike; and then often a port short. */
void repeating_ranges(struct chance *c, struct model *m);

/* Some well-formed set. */
void random_set(struct chance *c, struct model *m);

#define MOST_PACKET 32
struct request {
    uint16_t service;
    uint16_t handle;
    uint8_t packet[MOST_PACKET];
    size_t len;
};

/* Some request, mostly one that the facts are near to accepting. */
void random_request(struct chance *c, const struct model *m, struct request *r);

/* Some boot list, mostly of a few records that add something; its length. */
#define MOST_BOOT_LIST (64 * CS_BOOT_RECORD)
size_t random_boot_list(struct chance *c, const struct model *m, uint8_t records[MOST_BOOT_LIST]);

#endif
