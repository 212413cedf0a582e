#include "resources.h"

#include "sets.h"

const enum form forms[2] = {SHORT, LONG};

static void put(uint8_t *at, size_t size, uint32_t value)
{
    for (size_t i = 0; i < size; i++)
        at[i] = (uint8_t)(value >> (8 * i));
}

/* ---- AdjustResourceInfo ---- */

void io_packet(uint8_t *packet, enum form form, uint8_t action, uint32_t base, uint32_t ports,
               uint8_t attributes, uint8_t lines)
{
    packet[0] = action;
    packet[1] = CS_RESOURCE_IO;
    put(packet + 2, form == SHORT ? 2 : 4, base);
    put(packet + (form == SHORT ? 4 : 6), form == SHORT ? 1 : 4, ports);
    packet[form - 2] = attributes;
    packet[form - 1] = lines;
}

/* The packet of the last call, as it was asked. */
static uint8_t asked[CS_ADJUST_IO_LONG_LENGTH];

uint32_t adjust_io(enum form form, uint8_t action, uint32_t base, uint32_t ports,
                   uint8_t attributes, uint8_t lines)
{
    io_packet(asked, form, action, base, ports, attributes, lines);
    return ask_call(CS_ADJUST_RESOURCE_INFO, GIVEN, asked, form);
}

uint32_t adjust_irq(uint8_t action, uint8_t attributes, uint8_t level)
{
    asked[0] = action;
    asked[1] = CS_RESOURCE_IRQ;
    asked[2] = attributes;
    asked[3] = level;
    return ask_call(CS_ADJUST_RESOURCE_INFO, GIVEN, asked, CS_ADJUST_IRQ_LENGTH);
}

uint32_t add_range(enum form form, uint32_t base, uint32_t ports)
{
    return adjust_io(form, CS_ACTION_ADD, base, ports, 0, CS_LINES);
}

uint32_t remove_range(enum form form, uint32_t base, uint32_t ports)
{
    return adjust_io(form, CS_ACTION_REMOVE, base, ports, 0, CS_LINES);
}

uint32_t add_level(uint8_t level)
{
    return adjust_irq(CS_ACTION_ADD, 0, level);
}

uint32_t remove_level(uint8_t level)
{
    return adjust_irq(CS_ACTION_REMOVE, 0, level);
}

/* ---- First and Next ---- */

static uint8_t some_byte(void)
{
    static struct chance c = {21};
    return (uint8_t)pick(&c, 256);
}

/* "Other input fields are ignored": they are filled with any bytes, and First's
   base and level too. */
static uint32_t show_range(enum form form, uint8_t action, uint32_t from)
{
    uint32_t base = action == CS_ACTION_FIRST ? some_byte() * 0x01010101u : from;
    uint32_t ports = some_byte() * 0x01000101u;
    uint8_t attributes = some_byte(), lines = some_byte();
    return adjust_io(form, action, base, ports, attributes, lines);
}

static uint32_t show_level(uint8_t action, uint8_t from)
{
    uint8_t attributes = some_byte();
    return adjust_irq(action, attributes, action == CS_ACTION_FIRST ? some_byte() : from);
}

void range_shown(enum form form, uint8_t action, uint32_t from, struct shown by_hand)
{
    uint8_t packet[CS_ADJUST_IO_LONG_LENGTH];
    must_be(show_range(form, action, from), CS_SUCCESS, by_hand.holder);
    io_packet(packet, form, action, by_hand.base, by_hand.ports, by_hand.attributes, 16);
    packet_must_be(packet, form);
}

void level_shown(uint8_t action, uint8_t from, struct shown by_hand)
{
    uint8_t packet[] = {action, CS_RESOURCE_IRQ, by_hand.attributes, (uint8_t)by_hand.base};
    must_be(show_level(action, from), CS_SUCCESS, by_hand.holder);
    packet_must_be(packet, sizeof packet);
}

void range_refused(enum form form, uint8_t action, uint32_t from, uint32_t code)
{
    must_be(show_range(form, action, from), code, 0);
    packet_must_be(asked, form);
}

void no_level_shown(uint8_t action, uint8_t from)
{
    must_be(show_level(action, from), CS_NO_MORE_ITEMS, 0);
    packet_must_be(asked, CS_ADJUST_IRQ_LENGTH);
}

/* "A short packet can't show more than 255 ports: BAD_SIZE." */
static void one_shown(enum form form, uint8_t action, uint32_t from, struct shown by_hand)
{
    if (form == SHORT && by_hand.ports > 255)
        range_refused(form, action, from, CS_BAD_SIZE);
    else
        range_shown(form, action, from, by_hand);
}

static void walk(enum form form, const struct shown *ranges, unsigned many)
{
    uint8_t action = CS_ACTION_FIRST;
    uint32_t from = 0;
    for (unsigned i = 0; i < many; i++) {
        one_shown(form, action, from, ranges[i]);
        action = CS_ACTION_NEXT;
        from = ranges[i].base;
    }
    range_refused(form, action, from, CS_NO_MORE_ITEMS);
}

void walk_shows(const struct shown *ranges, unsigned many)
{
    walk(SHORT, ranges, many);
    walk(LONG, ranges, many);
}

/* ---- Boot lists ---- */

void put_record(struct boot_list *list, uint8_t resource, uint8_t attributes, uint32_t number,
                uint32_t ports)
{
    uint8_t *record = list->bytes + list->len;
    record[0] = resource;
    record[1] = attributes;
    put(record + 2, 4, number);
    put(record + 6, 4, ports);
    list->len += CS_BOOT_RECORD;
}

uint64_t boot(const struct boot_list *list)
{
    return ask_boot(list->bytes, list->len);
}
