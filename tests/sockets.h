/*
 * sockets.h: IRQ grants, I/O grants and socket masks, asked field by field
 */
#ifndef SOCKETS_H
#define SOCKETS_H

#include "check.h"

/* Eight sockets with a card in each, clients 1 to 16; of the levels those
   managed, and of these those reserved, are bits. Nobody holds anything. */
void ready_set(struct model *m, uint16_t managed, uint16_t reserved);
void lend_ready(uint16_t managed, uint16_t reserved);

/* Adds a managed range to the set; lends a ready set with one, unreserved, and no
   level. */
void manage(struct model *m, uint32_t base, uint32_t count, bool reserved);
void lend_ports(uint32_t base, uint32_t count);

/* AssignedIRQ as RequestIRQ is asked with it here: some byte that is no level. */
enum { NOT_ASSIGNED = 0xEE };

/* What the I/O services ignore, as they are asked with it here: each byte of
   BasePort2 and Attributes2, and of a release Attributes1 and the lines. */
enum { IGNORED = 0xDD };

/* Attributes1: nothing set, Shared, First Shared with Shared. */
enum { ALONE = 0, SHARED = 1, FIRST_SHARED = 3 };

/* The function is 0. */
uint32_t request_irq(uint16_t client, uint8_t socket, uint16_t attributes, uint8_t info_1,
                     uint16_t info_2);
uint32_t release_irq(uint16_t client, uint8_t socket, uint16_t attributes, uint8_t level);
uint32_t request_io(uint16_t client, uint8_t socket, uint16_t base, uint8_t count,
                    uint8_t attributes, uint8_t lines);
uint32_t release_io(uint16_t client, uint8_t socket, uint16_t base, uint8_t count);
uint32_t request_mask(uint16_t client, uint8_t socket, uint16_t events);
uint32_t release_mask(uint16_t client, uint8_t socket);

/* RequestIRQ with the answer and the packet worked out by hand: this level
   granted, by pulse or not, or the packet as it was asked. */
void irq_granted(uint16_t client, uint8_t socket, uint16_t attributes, uint8_t info_1,
                 uint16_t info_2, uint8_t level);
void pulse_granted(uint16_t client, uint8_t socket, uint16_t attributes, uint8_t info_1,
                   uint16_t info_2, uint8_t level);
void irq_refused(uint16_t client, uint8_t socket, uint16_t attributes, uint8_t info_1,
                 uint16_t info_2, uint32_t code);

/* The level granted in this manner, with the grant's bytes. */
void manner_granted(uint16_t client, uint8_t socket, uint16_t attributes, uint8_t info_1,
                    uint16_t info_2, uint8_t level, uint8_t manner);

/* How each manner is asked for, the level apart: exclusive, time-multiplexed,
   dynamic level, and dynamic pulse in both ways. */
enum { ASKED = 5 };
extern const struct asked {
    uint8_t manner;
    uint16_t attributes;
    uint8_t info_1;
} asked[ASKED];

/* Of levels that are bits: the lowest, and the one that comes first by "An
   unreserved level comes before a reserved one, then the lowest.", CS_LEVELS if
   there is none. */
uint8_t lowest_level(uint16_t levels);
uint8_t first_level(uint16_t levels, uint16_t reserved);

/* RequestIO with the answer, the packet and the grant's bytes worked out by hand:
   a named base granted, base 0 with the base chosen, or the packet as it was
   asked. */
void io_granted(uint16_t client, uint8_t socket, uint16_t base, uint8_t count, uint8_t attributes,
                uint8_t lines);
void io_chosen(uint16_t client, uint8_t socket, uint8_t count, uint8_t attributes, uint8_t lines,
               uint16_t base);
void io_refused(uint16_t client, uint8_t socket, uint16_t base, uint8_t count, uint8_t attributes,
                uint8_t lines, uint32_t code);

/* ReleaseIO that gives the grant back, and one that is refused. */
void io_released(uint16_t client, uint8_t socket, uint16_t base, uint8_t count);
void io_not_released(uint16_t client, uint8_t socket, uint16_t base, uint8_t count);

/* A socket's grants and a client's mask as docs/LAYOUT.md has their bytes: the
   client of a mask is told by its place, a mask by its word, which is one more than
   the mask, or 0 for none. */
void irq_grant_bytes(unsigned socket, uint16_t client, uint8_t level, uint8_t manner);
void no_irq_grant_bytes(unsigned socket);
void io_grant_bytes(unsigned socket, uint16_t client, uint16_t base, uint8_t count, uint8_t lines,
                    bool shared);
void no_io_grant_bytes(unsigned socket);
void mask_bytes(unsigned place, unsigned socket, uint16_t word);

#endif
