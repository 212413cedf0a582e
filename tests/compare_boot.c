#include <string.h>

#include "check.h"
#include "compare.h"
#include "layout.h"
#include "resources.h"
#include "sets.h"

/* ---- One record ---- */

static uint64_t boot_one(uint8_t resource, uint8_t attributes, uint32_t number, uint32_t ports)
{
    struct boot_list list = {.len = 0};
    put_record(&list, resource, attributes, number, ports);
    return boot(&list);
}

/* Alone on a fresh table: "answers its place (from 0) and code", or "the list's
   length in records". */
static void record_gets(uint8_t resource, uint8_t attributes, uint32_t number, uint32_t ports,
                        uint32_t code)
{
    lend_fresh(1);
    must_boot(boot_one(resource, attributes, number, ports), code, code == CS_SUCCESS ? 1 : 0);
}

/* "Resource 0, 3, 4: UNSUPPORTED_SERVICE; over 4: BAD_ARGS", before attributes. */
static void record_types(void)
{
    static const uint8_t far[] = {5, 6, 127, 128, 129, 130, 255};
    for (unsigned attributes = 0; attributes <= 0xFF; attributes += 0x33) {
        record_gets(0, (uint8_t)attributes, 3, 1, CS_UNSUPPORTED_SERVICE);
        record_gets(3, (uint8_t)attributes, 3, 1, CS_UNSUPPORTED_SERVICE);
        record_gets(4, (uint8_t)attributes, 3, 1, CS_UNSUPPORTED_SERVICE);
        for (size_t i = 0; i < sizeof far; i++)
            record_gets(far[i], (uint8_t)attributes, 3, 1, CS_BAD_ARGS);
    }
}

/* "Add (1) allows only bit 6, reserve", before level, ports and base. */
static void record_attributes(void)
{
    for (unsigned attributes = 0; attributes <= 255; attributes++) {
        bool good = attributes == 0 || attributes == 0x40;
        uint8_t byte = (uint8_t)attributes;
        record_gets(CS_RESOURCE_IRQ, byte, 3, 1, good ? CS_SUCCESS : CS_BAD_ATTRIBUTE);
        record_gets(CS_RESOURCE_IRQ, byte, 16, 1, good ? CS_BAD_IRQ : CS_BAD_ATTRIBUTE);
        record_gets(CS_RESOURCE_IO, byte, 3, 1, good ? CS_SUCCESS : CS_BAD_ATTRIBUTE);
        record_gets(CS_RESOURCE_IO, byte, 3, 0, good ? CS_BAD_SIZE : CS_BAD_ATTRIBUTE);
        record_gets(CS_RESOURCE_IO, byte, 0xFFFF, 2, good ? CS_BAD_BASE : CS_BAD_ATTRIBUTE);
    }
}

/* A level has four bytes here; "IRQ without the count". */
static void record_levels(void)
{
    static const uint32_t far[] = {16,         17,         255,        256,        256 + 3,
                                   65535,      65536,      65536 + 3,  0x01000003, 0x80000000,
                                   0x80000003, 0xFFFF0003, 0xFFFFFF03, 0xFFFFFFFF};
    static const uint32_t counts[] = {0, 1, 255, 65536, 65537, 0x80000000, 0xFFFFFFFF};
    for (size_t i = 0; i < sizeof counts / sizeof *counts; i++) {
        for (uint32_t level = 0; level < CS_LEVELS; level++)
            record_gets(CS_RESOURCE_IRQ, 0, level, counts[i], CS_SUCCESS);
        for (size_t l = 0; l < sizeof far / sizeof *far; l++)
            record_gets(CS_RESOURCE_IRQ, 0, far[l], counts[i], CS_BAD_IRQ);
    }
}

/* "I/O in the long form with lines 16" */
static void record_ranges(void)
{
    static const struct {
        uint32_t base, ports, code;
    } cases[] = {
        {0x300, 0, CS_BAD_SIZE},          {0x300, 1, CS_SUCCESS},
        {0x300, 255, CS_SUCCESS},         {0x300, 256, CS_SUCCESS},
        {0, 65536, CS_SUCCESS},           {0, 65537, CS_BAD_SIZE},
        {1, 65535, CS_SUCCESS},           {1, 65536, CS_BAD_BASE},
        {0xFFF8, 8, CS_SUCCESS},          {0xFFF9, 8, CS_BAD_BASE},
        {0xFFFF, 1, CS_SUCCESS},          {0xFFFF, 2, CS_BAD_BASE},
        {0x10000, 1, CS_BAD_BASE},        {0x10000, 0, CS_BAD_SIZE},
        {0x10300, 8, CS_BAD_BASE},        {0x80000300, 8, CS_BAD_BASE},
        {0xFFFF0000, 65536, CS_BAD_BASE}, {0xFFFFFFF8, 8, CS_BAD_BASE},
        {0xFFFFFFFF, 1, CS_BAD_BASE},     {0xFFFFFFFF, 0xFFFFFFFF, CS_BAD_SIZE},
        {1, 0xFFFFFFFF, CS_BAD_SIZE},     {0x300, 0x10008, CS_BAD_SIZE},
        {0x300, 0x80000008, CS_BAD_SIZE},
    };
    for (size_t i = 0; i < sizeof cases / sizeof *cases; i++) {
        record_gets(CS_RESOURCE_IO, 0, cases[i].base, cases[i].ports, cases[i].code);
        record_gets(CS_RESOURCE_IO, CS_RESERVE, cases[i].base, cases[i].ports, cases[i].code);
    }
}

void boot_records(void)
{
    record_types();
    record_attributes();
    record_levels();
    record_ranges();
}

/* ---- Where a list stops ---- */

/* A record that adds something: levels first, then ranges of 8. */
static void put_good(struct boot_list *list, unsigned i)
{
    if (i < CS_LEVELS)
        put_record(list, CS_RESOURCE_IRQ, i % 3 == 0 ? CS_RESERVE : 0, i, 0xABCD);
    else
        put_record(list, CS_RESOURCE_IO, i % 3 == 0 ? CS_RESERVE : 0, 0x100 * i, 8);
}

static void nothing_managed(void)
{
    no_level_shown(CS_ACTION_FIRST, 0);
    walk_shows(NULL, 0);
}

/* Of the records of put_good just those before this place stay: levels here. */
static void levels_below(uint8_t place)
{
    for (uint8_t level = 0; level < place; level++)
        level_shown(level == 0 ? CS_ACTION_FIRST : CS_ACTION_NEXT, (uint8_t)(level - 1),
                    (struct shown){.base = level});
    no_level_shown(place == 0 ? CS_ACTION_FIRST : CS_ACTION_NEXT, (uint8_t)(place - 1));
}

static void put_refused(struct boot_list *list, uint32_t code)
{
    switch (code) {
    case CS_UNSUPPORTED_SERVICE:
        put_record(list, 3, 0, 9, 1);
        break;
    case CS_BAD_ARGS:
        put_record(list, 255, 0, 9, 1);
        break;
    case CS_BAD_ATTRIBUTE:
        put_record(list, CS_RESOURCE_IRQ, 0x80, 9, 1);
        break;
    case CS_BAD_IRQ:
        put_record(list, CS_RESOURCE_IRQ, 0, 16, 1);
        break;
    case CS_BAD_SIZE:
        put_record(list, CS_RESOURCE_IO, 0, 9, 0);
        break;
    default:
        put_record(list, CS_RESOURCE_IO, 0, 0xFFFF, 2);
    }
}

/* "it stops at the first refused, answers its place (from 0) and code, and
   earlier ones stay." Those after it add nothing, whatever they are. */
static void refused_at(unsigned place, unsigned after, uint32_t code, size_t tail)
{
    struct boot_list list = {.len = 0};
    for (unsigned i = 0; i < place; i++)
        put_good(&list, i);
    put_refused(&list, code);
    for (unsigned i = 0; i < after; i++)
        put_good(&list, place + i);
    list.len += tail;
    lend_fresh(2);
    must_boot(boot(&list), code, place);
    levels_below((uint8_t)place);
    walk_shows(NULL, 0);
}

void boot_stops(void)
{
    static const uint32_t codes[] = {CS_UNSUPPORTED_SERVICE,
                                     CS_BAD_ARGS,
                                     CS_BAD_ATTRIBUTE,
                                     CS_BAD_IRQ,
                                     CS_BAD_SIZE,
                                     CS_BAD_BASE};
    for (size_t i = 0; i < sizeof codes / sizeof *codes; i++)
        for (unsigned place = 0; place <= 9; place += 3) {
            refused_at(place, 0, codes[i], 0);
            refused_at(place, 0, codes[i], 1);
            refused_at(place, 0, codes[i], 9);
            refused_at(place, 4, codes[i], 0);
            refused_at(place, 4, codes[i], 5);
        }
}

/* The same level or port twice, in the list or managed before it. */
void boot_in_use(void)
{
    struct boot_list list = {.len = 0};
    put_record(&list, CS_RESOURCE_IRQ, 0, 5, 0);
    put_record(&list, CS_RESOURCE_IO, 0, 0x300, 16);
    put_record(&list, CS_RESOURCE_IO, CS_RESERVE, 0x310, 1);
    put_record(&list, CS_RESOURCE_IO, 0, 0x30F, 1);
    put_record(&list, CS_RESOURCE_IRQ, 0, 6, 0);
    lend_fresh(1);
    must_boot(boot(&list), CS_IN_USE, 3);
    walk_shows((struct shown[]){{0x300, 16, 0, 0}, {0x310, 1, 0, 0}}, 2);
    level_shown(CS_ACTION_FIRST, 0, (struct shown){.base = 5});
    no_level_shown(CS_ACTION_NEXT, 5);
    must_boot(boot(&list), CS_IN_USE, 0);
    must_be(remove_level(5), CS_SUCCESS, GIVEN);
    must_boot(boot(&list), CS_IN_USE, 1);
    must_be(remove_level(5), CS_SUCCESS, GIVEN);
    must_be(remove_range(SHORT, 0x300, 16), CS_SUCCESS, GIVEN);
    must_boot(boot(&list), CS_IN_USE, 2);
    walk_shows((struct shown[]){{0x300, 16, 0, 0}, {0x310, 1, 0, 0}}, 2);
}

/* "bytes too few for a record at the end are refused at its place with
   BAD_ARG_LENGTH." The bytes of a good record, broken off. */
void boot_tails(void)
{
    static const unsigned whole[] = {0, 1, 2, 15, 16};
    for (size_t w = 0; w < sizeof whole / sizeof *whole; w++)
        for (size_t tail = 0; tail < CS_BOOT_RECORD; tail++) {
            struct boot_list list = {.len = 0};
            for (unsigned i = 0; i <= whole[w]; i++)
                put_good(&list, i);
            list.len = whole[w] * CS_BOOT_RECORD + tail;
            lend_fresh(1);
            must_boot(boot(&list), tail == 0 ? CS_SUCCESS : CS_BAD_ARG_LENGTH, whole[w]);
            levels_below((uint8_t)whole[w]);
            walk_shows(NULL, 0);
        }
}

/* No record: nothing is read, be there a list or not. */
void boot_nothing(void)
{
    static const uint8_t some[1] = {0};
    struct model m;
    lend_fresh(1);
    must_boot(ask_boot(NULL, 0), CS_SUCCESS, 0);
    must_boot(ask_boot(some, 0), CS_SUCCESS, 0);
    nothing_managed();
    full_set(&m, CS_CLIENTS);
    lend_set(&m);
    must_boot(ask_boot(NULL, 0), CS_SUCCESS, 0);
    must_boot(ask_boot(some, 1), CS_BAD_ARG_LENGTH, 0);
}

/* Bytes by docs/LAYOUT.md, of two levels and two ranges and of a refused one. */
void boot_bytes(void)
{
    static const uint8_t two[] = {2}, managed[] = {1, 0}, reserved[] = {1, 1};
    static const uint8_t ranges[] = {0xF8, 0x02, 0x08, 0, 0, 0, 0, 0x00, 0x03, 0x00, 1, 0, 0, 1, 0};
    struct boot_list list = {.len = 0};
    put_record(&list, CS_RESOURCE_IO, CS_RESERVE, 0x300, 256);
    put_record(&list, CS_RESOURCE_IRQ, CS_RESERVE, 3, 0);
    put_record(&list, CS_RESOURCE_IO, 0, 0x2F8, 8);
    put_record(&list, CS_RESOURCE_IRQ, 0, 4, 0);
    put_record(&list, CS_RESOURCE_IRQ, CS_RESERVE, 4, 0);
    lend_fresh(1);
    must_boot(boot(&list), CS_IN_USE, 4);
    table_must_have(AT_RANGE_COUNT, two, sizeof two);
    table_must_have(AT_LEVELS + LEVEL_SIZE * 3, reserved, sizeof reserved);
    table_must_have(AT_LEVELS + LEVEL_SIZE * 4, managed, sizeof managed);
    table_must_have(AT_RANGES, ranges, sizeof ranges);
}

/* ---- As long as a list can be ---- */

static void all_48_shown(void)
{
    struct shown all[CS_RANGES];
    levels_below(CS_LEVELS);
    for (unsigned i = 0; i < CS_RANGES; i++)
        all[i] = (struct shown){0x100 * (CS_LEVELS + i), 8, 0, 0};
    walk_shows(all, CS_RANGES);
}

/* The 48 records of put_good in another order: i times an odd number not
   divisible by 3. */
static void put_48(struct boot_list *list, unsigned step, bool backwards)
{
    for (unsigned i = 0; i < 48; i++)
        put_good(list, step * (backwards ? 47 - i : i) % 48);
}

/* "up to 32 managed I/O ranges" and "IRQ levels 0 to 15": a 49th is refused. */
static void the_49th(const struct boot_list *all, uint8_t resource, uint32_t number, uint32_t code)
{
    struct boot_list list = *all;
    put_record(&list, resource, 0, number, 8);
    put_good(&list, 0);
    lend_fresh(8);
    must_boot(boot(&list), code, 48);
    all_48_shown();
}

static void longest_list(unsigned step, bool backwards)
{
    struct boot_list list = {.len = 0};
    put_48(&list, step, backwards);
    lend_fresh(8);
    must_boot(boot(&list), CS_SUCCESS, 48);
    all_48_shown();
    must_boot(boot(&list), CS_IN_USE, 0);
    the_49th(&list, CS_RESOURCE_IO, 0x8000, CS_OUT_OF_RESOURCE);
    the_49th(&list, CS_RESOURCE_IO, 0x1007, CS_IN_USE);
    the_49th(&list, CS_RESOURCE_IO, 0xFFFF, CS_BAD_BASE);
    the_49th(&list, CS_RESOURCE_IRQ, 15, CS_IN_USE);
    the_49th(&list, CS_RESOURCE_IRQ, 16, CS_BAD_IRQ);
    the_49th(&list, 0, 0, CS_UNSUPPORTED_SERVICE);
    list.len += 3;
    lend_fresh(8);
    must_boot(boot(&list), CS_BAD_ARG_LENGTH, 48);
    all_48_shown();
}

void boot_48(void)
{
    longest_list(1, false);
    longest_list(1, true);
    longest_list(5, false);
    longest_list(7, true);
    longest_list(25, false);
}

/* The records of put_good, as many as can be, in an order that mixes levels and
   ranges: which of them stands at a place. */
static unsigned mixed(unsigned place)
{
    return 29 * place % CS_BOOT_MOST;
}

static void put_mixed(struct boot_list *list, unsigned from, unsigned many)
{
    for (unsigned i = 0; i < many; i++)
        put_good(list, mixed(from + i));
}

/* By docs/LAYOUT.md: of the mixed records those before this place are managed. */
static void mixed_stay(unsigned place)
{
    uint8_t managed[CS_LEVELS] = {0}, ranges = 0;
    for (unsigned i = 0; i < place; i++)
        if (mixed(i) < CS_LEVELS)
            managed[mixed(i)] = 1;
        else
            ranges++;
    table_must_have(AT_RANGE_COUNT, &ranges, 1);
    for (unsigned level = 0; level < CS_LEVELS; level++)
        table_must_have(AT_LEVELS + LEVEL_SIZE * level + LEVEL_MANAGED, &managed[level], 1);
}

/* So many good records, and then nothing, a record broken off, or a refused one
   with good ones and broken bytes after it, which add nothing. */
static void ends_at(unsigned place, uint32_t code, unsigned after, size_t tail)
{
    struct boot_list list = {.len = 0};
    put_mixed(&list, 0, place);
    if (code != CS_SUCCESS && code != CS_BAD_ARG_LENGTH)
        put_refused(&list, code);
    put_mixed(&list, place, after);
    list.len += tail;
    lend_fresh(3);
    describe("%u records, code %02X, %u more, %u bytes", place, (unsigned)code, after,
             (unsigned)tail);
    must_boot(boot(&list), code, place);
    mixed_stay(place);
}

/* A list's bytes may be read some records at a time: every place is one where it
   ends, breaks off and is refused, whatever number of records that is. */
void boot_every_place(void)
{
    for (unsigned place = 0; place <= CS_BOOT_MOST; place++) {
        ends_at(place, CS_SUCCESS, 0, 0);
        for (size_t tail = 1; tail < CS_BOOT_RECORD; tail++)
            ends_at(place, CS_BAD_ARG_LENGTH, 0, tail);
        for (unsigned after = 0; after <= 9; after++) {
            ends_at(place, CS_BAD_ARGS, after, 0);
            ends_at(place, CS_BAD_SIZE, after, 5);
        }
    }
}

/* 33 ranges and no level: refused at 32. */
void boot_33_ranges(void)
{
    struct boot_list list = {.len = 0};
    for (unsigned i = 0; i < 33; i++)
        put_record(&list, CS_RESOURCE_IO, 0, 0xFFF0 - 16 * i, 16);
    lend_fresh(1);
    must_boot(boot(&list), CS_OUT_OF_RESOURCE, 32);
    range_shown(LONG, CS_ACTION_FIRST, 0, (struct shown){0xFFF0 - 16 * 31, 16, 0, 0});
}

/* A long lent list of the same record: the second is refused, and no more is
   looked at. */
void boot_far_too_long(void)
{
    static uint8_t records[65530];
    for (size_t at = 0; at < sizeof records; at += CS_BOOT_RECORD)
        memcpy(records + at, (uint8_t[]){CS_RESOURCE_IRQ, 0, 7, 0, 0, 0, 0, 0, 0, 0}, 10);
    lend_fresh(1);
    must_boot(ask_boot(records, sizeof records), CS_IN_USE, 1);
    must_boot(ask_boot(records, sizeof records - 1), CS_IN_USE, 0);
    level_shown(CS_ACTION_FIRST, 0, (struct shown){.base = 7});
    no_level_shown(CS_ACTION_NEXT, 7);
}

/* ---- Tables that have something, and bytes that are none ---- */

/* A full table has no room; without its ranges and levels it has. Clients,
   cards, grants and masks stay. */
void boot_beside_grants(void)
{
    struct model m;
    full_set(&m, CS_CLIENTS);
    lend_set(&m);
    must_boot(boot_one(CS_RESOURCE_IO, 0, 0x8000, 1), CS_OUT_OF_RESOURCE, 0);
    must_boot(boot_one(CS_RESOURCE_IO, 0, 0x10F, 1), CS_IN_USE, 0);
    must_boot(boot_one(CS_RESOURCE_IRQ, 0, 3, 1), CS_IN_USE, 0);
    m.ranges = 4;
    for (unsigned level = 4; level < CS_LEVELS; level++)
        m.level[level] = (struct level){false, false};
    lend_set(&m);
    must_boot(boot_one(CS_RESOURCE_IO, CS_RESERVE, 0x110, 16), CS_SUCCESS, 1);
    must_boot(boot_one(CS_RESOURCE_IRQ, CS_RESERVE, 4, 1), CS_SUCCESS, 1);
    must_be(ask_call(CS_DEREGISTER_CLIENT, 1, NULL, 0), CS_IN_USE, 0);
    walk_shows((struct shown[]){{0x100, 16, 0x81, 1},
                                {0x110, 16, 0, 0},
                                {0x140, 16, 0x81, 3},
                                {0x180, 16, 0x81, 5},
                                {0x1C0, 16, 0x81, 7}},
               5);
}

/* "If the table is not well formed: place 0, GENERAL_FAILURE", be the list good,
   bad, broken or none. */
static void boot_refused_unformed(void)
{
    struct boot_list list = {.len = 0};
    must_boot(ask_boot(NULL, 0), CS_GENERAL_FAILURE, 0);
    put_good(&list, 0);
    must_boot(boot(&list), CS_GENERAL_FAILURE, 0);
    put_good(&list, 20);
    put_refused(&list, CS_BAD_ARGS);
    must_boot(boot(&list), CS_GENERAL_FAILURE, 0);
    list.len -= 3;
    must_boot(boot(&list), CS_GENERAL_FAILURE, 0);
    list.len = 1;
    must_boot(boot(&list), CS_GENERAL_FAILURE, 0);
}

void boot_unformed(void)
{
    static const size_t lengths[] = {0, 1, CS_TABLE_SIZE - 1, CS_TABLE_SIZE + 1,
                                     CS_TABLE_SIZE + 65536};
    static uint8_t bytes[MOST_LENT];
    struct model m;
    model_fresh(&m, 8);
    for (size_t i = 0; i < sizeof lengths / sizeof *lengths; i++) {
        model_image(&m, bytes);
        lend_bytes(bytes, lengths[i]);
        boot_refused_unformed();
    }
    for (size_t at = 0; at < CS_TABLE_SIZE; at += at < AT_REST ? 1 : 97) {
        model_image(&m, bytes);
        bytes[at] ^= 0x80;
        lend_bytes(bytes, CS_TABLE_SIZE);
        describe("byte %u of a fresh table changed", (unsigned)at);
        if (at == AT_ISSUED || at == AT_ISSUED + 1)
            continue; /* a table that issued more handles */
        must_hold("the model refuses it too", !lent_accepted());
        boot_refused_unformed();
    }
}
