/*
 * resources.h: AdjustResourceInfo and the boot list, asked field by field
 */
#ifndef RESOURCES_H
#define RESOURCES_H

#include "check.h"

/* The handle that every call here gives: "The handle isn't looked at." */
#define GIVEN 0xBEEF

/* The two forms of an I/O packet, by their lengths. */
enum form { SHORT = CS_ADJUST_IO_SHORT_LENGTH, LONG = CS_ADJUST_IO_LONG_LENGTH };
extern const enum form forms[2];

/* Of wider numbers the short form takes the low bytes. */
void io_packet(uint8_t *packet, enum form form, uint8_t action, uint32_t base, uint32_t ports,
               uint8_t attributes, uint8_t lines);

uint32_t adjust_io(enum form form, uint8_t action, uint32_t base, uint32_t ports,
                   uint8_t attributes, uint8_t lines);
uint32_t adjust_irq(uint8_t action, uint8_t attributes, uint8_t level);

/* With no attribute and lines of 16. */
uint32_t add_range(enum form form, uint32_t base, uint32_t ports);
uint32_t remove_range(enum form form, uint32_t base, uint32_t ports);
uint32_t add_level(uint8_t level);
uint32_t remove_level(uint8_t level);

/* First, or Next from a base or a level; all that is ignored is some byte. What
   the packet becomes and which handle is answered was worked out by hand. */
struct shown {
    uint32_t base, ports; /* or the level, and no count */
    uint8_t attributes;
    uint16_t holder;
};
void range_shown(enum form form, uint8_t action, uint32_t from, struct shown by_hand);
void level_shown(uint8_t action, uint8_t from, struct shown by_hand);

/* The same, refused: the packet stays as it was. */
void range_refused(enum form form, uint8_t action, uint32_t from, uint32_t code);
void no_level_shown(uint8_t action, uint8_t from);

/* First and then Next in both forms, up to the end, over these ranges and no
   others; BAD_SIZE where the short form can't show one. */
void walk_shows(const struct shown *ranges, unsigned many);

/* A boot list, record by record. */
enum { MOST_RECORDS = 64 };
struct boot_list {
    uint8_t bytes[MOST_RECORDS * CS_BOOT_RECORD];
    size_t len;
};
void put_record(struct boot_list *list, uint8_t resource, uint8_t attributes, uint32_t number,
                uint32_t ports);
uint64_t boot(const struct boot_list *list);

#endif
