#include "check.h"
#include "compare.h"
#include "layout.h"
#include "resources.h"
#include "sets.h"

/* ---- Action, resource, length ---- */

/* What comes after the length: on a fresh table, of a packet that is all zero
   but for its action and resource. */
static uint32_t all_zero_by_hand(unsigned action, unsigned resource)
{
    if (action == 2 || action == 3)
        return CS_NO_MORE_ITEMS;
    if (resource == 1)
        return CS_BAD_ATTRIBUTE; /* lines of 0 */
    return action == 1 ? CS_SUCCESS : CS_BAD_IRQ;
}

/* "Length under 2: BAD_ARG_LENGTH. Then Action over 3: BAD_ARGS. Resource 0, 3,
   4: UNSUPPORTED_SERVICE; over 4: BAD_ARGS. Then the length: IRQ 4; I/O 7 or
   12." */
static uint32_t length_by_hand(size_t len, unsigned action, unsigned resource)
{
    if (len < 2)
        return CS_BAD_ARG_LENGTH;
    if (action > 3 || resource > 4)
        return CS_BAD_ARGS;
    if (resource == 0 || resource == 3 || resource == 4)
        return CS_UNSUPPORTED_SERVICE;
    if (resource == 2 ? len != 4 : len != 7 && len != 12)
        return CS_BAD_ARG_LENGTH;
    return all_zero_by_hand(action, resource);
}

static void try_length(size_t len, uint8_t action, uint8_t resource)
{
    static uint8_t packet[MOST_LENT];
    uint32_t code = length_by_hand(len, action, resource);
    packet[0] = action;
    packet[1] = resource;
    lend_fresh(1);
    must_be(ask_call(CS_ADJUST_RESOURCE_INFO, GIVEN, packet, len), code,
            code == CS_SUCCESS ? GIVEN : 0);
}

void adjust_lengths(void)
{
    static const size_t large[] = {24,        255,       256 + 4,    256 + 7,  256 + 12,
                                   65536 + 4, 65536 + 7, 65536 + 12, MOST_LENT};
    static const uint8_t actions[] = {0, 1, 2, 3, 4, 5, 128, 255};
    static const uint8_t resources[] = {0, 1, 2, 3, 4, 5, 6, 129, 255};
    for (size_t a = 0; a < sizeof actions; a++)
        for (size_t r = 0; r < sizeof resources; r++) {
            for (size_t len = 0; len <= 14; len++)
                try_length(len, actions[a], resources[r]);
            for (size_t i = 0; i < sizeof large / sizeof *large; i++)
                try_length(large[i], actions[a], resources[r]);
        }
    lend_fresh(1);
    must_be(ask_call(CS_ADJUST_RESOURCE_INFO, GIVEN, NULL, 0), CS_BAD_ARG_LENGTH, 0);
}

/* ---- Attributes and lines ---- */

/* Of levels 4 and ranges 400 to 407: managed, for Remove; not, for Add. */
static void lend_for(uint8_t action)
{
    lend_fresh(1);
    if (action == CS_ACTION_REMOVE) {
        must_be(add_level(4), CS_SUCCESS, GIVEN);
        must_be(add_range(SHORT, 0x400, 8), CS_SUCCESS, GIVEN);
    }
}

static void done_or_bad_attribute(uint32_t answer, bool good)
{
    must_be(answer, good ? CS_SUCCESS : CS_BAD_ATTRIBUTE, good ? GIVEN : 0);
}

/* "Add (1) allows only bit 6, reserve; Remove (0) no bit; both need lines of 16
   for I/O; else BAD_ATTRIBUTE." */
static void try_attributes(uint8_t action, uint8_t attributes)
{
    static const uint8_t lines[] = {0, 1, 15, 17, 32, 255, 16};
    bool good = attributes == 0 || (action == CS_ACTION_ADD && attributes == 0x40);
    lend_for(action);
    done_or_bad_attribute(adjust_irq(action, attributes, 4), good);
    for (unsigned f = 0; f < 2; f++) {
        lend_for(action);
        for (size_t i = 0; i < sizeof lines; i++)
            done_or_bad_attribute(adjust_io(forms[f], action, 0x400, 8, attributes, lines[i]),
                                  good && lines[i] == 16);
    }
}

/* Attributes come before all that is the service's own. */
static void attributes_first(uint8_t action)
{
    lend_fresh(1);
    must_be(adjust_irq(action, 0x80, 16), CS_BAD_ATTRIBUTE, 0);
    must_be(adjust_irq(action, 0x80, 4), CS_BAD_ATTRIBUTE, 0);
    for (unsigned f = 0; f < 2; f++) {
        must_be(adjust_io(forms[f], action, 0xFFFF, 0, 1, 16), CS_BAD_ATTRIBUTE, 0);
        must_be(adjust_io(forms[f], action, 0xFFFF, 0, 0, 10), CS_BAD_ATTRIBUTE, 0);
        must_be(adjust_io(forms[f], action, 0xFFFF, 0, 0, 16), CS_BAD_SIZE, 0);
        must_be(adjust_io(forms[f], action, 0xFFFF, 2, 0, 16), CS_BAD_BASE, 0);
    }
}

void adjust_attributes(void)
{
    for (unsigned attributes = 0; attributes <= 255; attributes++) {
        try_attributes(CS_ACTION_ADD, (uint8_t)attributes);
        try_attributes(CS_ACTION_REMOVE, (uint8_t)attributes);
    }
    attributes_first(CS_ACTION_ADD);
    attributes_first(CS_ACTION_REMOVE);
}

/* ---- Levels ---- */

static void levels_past_15(uint8_t action)
{
    static const uint8_t far[] = {16, 17, 31, 32, 127, 128, 240, 255};
    for (size_t i = 0; i < sizeof far; i++)
        must_be(adjust_irq(action, 0, far[i]), CS_BAD_IRQ, 0);
}

static void every_level_comes_and_goes(uint8_t attributes)
{
    for (uint8_t level = 0; level < CS_LEVELS; level++) {
        must_be(remove_level(level), CS_BAD_IRQ, 0);
        must_be(adjust_irq(CS_ACTION_ADD, attributes, level), CS_SUCCESS, GIVEN);
        must_be(adjust_irq(CS_ACTION_ADD, attributes, level), CS_IN_USE, 0);
        must_be(adjust_irq(CS_ACTION_ADD, attributes ^ 0x40, level), CS_IN_USE, 0);
    }
    levels_past_15(CS_ACTION_ADD);
    levels_past_15(CS_ACTION_REMOVE);
    for (uint8_t i = 0; i < CS_LEVELS; i++) {
        uint8_t level = (uint8_t)(5 * i % CS_LEVELS);
        must_be(remove_level(level), CS_SUCCESS, GIVEN);
        must_be(remove_level(level), CS_BAD_IRQ, 0);
    }
}

/* "level over 15 BAD_IRQ; Add of a managed level IN_USE; Remove of an unmanaged
   one BAD_IRQ" */
void levels_managed(void)
{
    lend_fresh(1);
    every_level_comes_and_goes(0);
    every_level_comes_and_goes(CS_RESERVE);
    levels_past_15(CS_ACTION_ADD);
    levels_past_15(CS_ACTION_REMOVE);
}

/* The reserve mark isn't shown: "Other bits are 0." */
void levels_walked(void)
{
    static const uint8_t managed[] = {0, 3, 4, 9, 15};
    lend_fresh(1);
    no_level_shown(CS_ACTION_FIRST, 0);
    no_level_shown(CS_ACTION_NEXT, 0);
    for (size_t i = sizeof managed; i-- > 0;)
        must_be(adjust_irq(CS_ACTION_ADD, i % 2 == 0 ? CS_RESERVE : 0, managed[i]), CS_SUCCESS,
                GIVEN);
    level_shown(CS_ACTION_FIRST, 0, (struct shown){.base = 0});
    for (unsigned from = 0; from <= 255; from++) {
        size_t i = 0;
        while (i < sizeof managed && managed[i] <= from)
            i++;
        if (i < sizeof managed)
            level_shown(CS_ACTION_NEXT, (uint8_t)from, (struct shown){.base = managed[i]});
        else
            no_level_shown(CS_ACTION_NEXT, (uint8_t)from);
    }
    must_be(remove_level(0), CS_SUCCESS, GIVEN);
    level_shown(CS_ACTION_FIRST, 0, (struct shown){.base = 3});
    level_shown(CS_ACTION_NEXT, 0, (struct shown){.base = 3});
    must_be(remove_level(15), CS_SUCCESS, GIVEN);
    no_level_shown(CS_ACTION_NEXT, 9);
    no_level_shown(CS_ACTION_NEXT, 15);
}

/* ---- Bases and counts ---- */

static const struct {
    uint32_t base, ports, code;
} limits[] = {
    {0x300, 0, CS_BAD_SIZE},
    {0x300, 1, CS_SUCCESS},
    {0x300, 255, CS_SUCCESS},
    {0x300, 256, CS_SUCCESS},
    {0, 1, CS_SUCCESS},
    {0, 65535, CS_SUCCESS},
    {0, 65536, CS_SUCCESS},
    {0, 65537, CS_BAD_SIZE},
    {1, 65535, CS_SUCCESS},
    {1, 65536, CS_BAD_BASE},
    {1, 65537, CS_BAD_SIZE},
    {0xFF00, 256, CS_SUCCESS},
    {0xFF01, 255, CS_SUCCESS},
    {0xFF01, 256, CS_BAD_BASE},
    {0xFF02, 255, CS_BAD_BASE},
    {0xFFF8, 8, CS_SUCCESS}, /* N5 */
    {0xFFF9, 8, CS_BAD_BASE},
    {0xFFFF, 1, CS_SUCCESS},
    {0xFFFF, 2, CS_BAD_BASE},
    {0xFFFF, 65536, CS_BAD_BASE},
    {0xFFFF, 65537, CS_BAD_SIZE},
    {0xFFFF, 0, CS_BAD_SIZE},
    {0x10000, 0, CS_BAD_SIZE},
    {0x10000, 1, CS_BAD_BASE},
    {0x10000, 65536, CS_BAD_BASE},
    {0x10300, 8, CS_BAD_BASE},
    {0x1FFFF, 1, CS_BAD_BASE},
    {0x01000300, 8, CS_BAD_BASE},
    {0x80000000, 1, CS_BAD_BASE},
    {0x80000000, 0x80000000, CS_BAD_SIZE},
    {0xFFFF0000, 65536, CS_BAD_BASE}, /* sums of 2^32 and over */
    {0xFFFF0001, 65536, CS_BAD_BASE},
    {0xFFFFFFF8, 8, CS_BAD_BASE},
    {0xFFFFFFF9, 8, CS_BAD_BASE},
    {0xFFFFFFFF, 1, CS_BAD_BASE},
    {0xFFFFFFFF, 2, CS_BAD_BASE},
    {0xFFFFFFFF, 65536, CS_BAD_BASE},
    {0xFFFFFFFF, 0xFFFFFFFF, CS_BAD_SIZE},
    {0xFFFFFFFF, 0, CS_BAD_SIZE},
    {1, 0xFFFFFFFF, CS_BAD_SIZE},
    {0x300, 0xFFFFFFFF, CS_BAD_SIZE},
    {0x300, 0x10008, CS_BAD_SIZE},
    {0x300, 0x01000008, CS_BAD_SIZE},
    {0x300, 0x20000, CS_BAD_SIZE},
    {0x300, 0x80000008, CS_BAD_SIZE},
};
enum { LIMITS = sizeof limits / sizeof *limits };

static bool fits_short(uint32_t base, uint32_t ports)
{
    return base <= 0xFFFF && ports <= 255;
}

/* Added, shown and removed again, or refused both ways. */
static void try_limit(enum form form, uint32_t base, uint32_t ports, uint32_t code)
{
    bool good = code == CS_SUCCESS;
    struct shown range = {base, ports, 0, 0};
    lend_fresh(1);
    describe("base %lX, %lu ports", (unsigned long)base, (unsigned long)ports);
    if (good)
        must_be(remove_range(form, base, ports), CS_BAD_BASE, 0);
    must_be(add_range(form, base, ports), code, good ? GIVEN : 0);
    walk_shows(&range, good ? 1 : 0);
    must_be(remove_range(form, base, ports), code, good ? GIVEN : 0);
    walk_shows(NULL, 0);
}

/* "ports 0 or over 65,536 BAD_SIZE; a port past FFFF BAD_BASE." */
void port_limits(void)
{
    for (unsigned i = 0; i < LIMITS; i++) {
        try_limit(LONG, limits[i].base, limits[i].ports, limits[i].code);
        if (fits_short(limits[i].base, limits[i].ports))
            try_limit(SHORT, limits[i].base, limits[i].ports, limits[i].code);
    }
    for (uint32_t ports = 0; ports <= 255; ports++)
        for (uint32_t base = 0xFFFE - ports; base <= 0xFFFF && base <= 0x10001 - ports; base++)
            try_limit(SHORT, base, ports,
                      ports == 0             ? CS_BAD_SIZE
                      : base + ports > 65536 ? CS_BAD_BASE
                                             : CS_SUCCESS);
}

/* ---- Managed already ---- */

/* Beside 300, 16, and 320, 16. */
static void try_second(uint32_t base, uint32_t ports, bool good)
{
    for (unsigned f = 0; f < 2; f++) {
        if (forms[f] == SHORT && !fits_short(base, ports))
            continue;
        lend_fresh(1);
        must_be(add_range(SHORT, 0x320, 16), CS_SUCCESS, GIVEN);
        must_be(add_range(LONG, 0x300, 16), CS_SUCCESS, GIVEN);
        must_be(add_range(forms[f], base, ports), good ? CS_SUCCESS : CS_IN_USE, good ? GIVEN : 0);
    }
}

/* "a port already managed IN_USE" */
void ports_managed_already(void)
{
    try_second(0x2FF, 1, true);
    try_second(0x2FF, 2, false);
    try_second(0x2F0, 16, true);
    try_second(0x2F0, 17, false);
    try_second(0x300, 1, false);
    try_second(0x300, 16, false);
    try_second(0x307, 1, false);
    try_second(0x30F, 1, false);
    try_second(0x30F, 2, false);
    try_second(0x310, 1, true);
    try_second(0x310, 16, true);
    try_second(0x310, 17, false);
    try_second(0x318, 8, true);
    try_second(0x318, 9, false);
    try_second(0x31F, 1, true);
    try_second(0x32F, 1, false);
    try_second(0x330, 255, true);
    try_second(0x2FF, 18, false);
    try_second(0x2FF, 255, false);
    try_second(0, 0x300, true);
    try_second(0, 0x301, false);
    try_second(0, 65536, false);
    try_second(0x330, 65536 - 0x330, true);
    try_second(0x32F, 65536 - 0x32F, false);
}

/* No port is left beside all of them, and none is passed over. */
void whole_port_space(void)
{
    static const struct shown whole = {0, 65536, 0, 0};
    lend_fresh(1);
    must_be(add_range(LONG, 0, 65536), CS_SUCCESS, GIVEN);
    for (uint32_t base = 0; base <= 0xFFFF; base += base % 0x1000 == 0xFFF ? 1 : 0xFFF) {
        must_be(add_range(SHORT, base, 1), CS_IN_USE, 0);
        must_be(add_range(LONG, base, 1), CS_IN_USE, 0);
        must_be(remove_range(LONG, base, 1), CS_BAD_BASE, 0);
    }
    must_be(add_range(LONG, 0, 65536), CS_IN_USE, 0);
    walk_shows(&whole, 1);
    must_be(remove_range(LONG, 0, 65535), CS_BAD_BASE, 0);
    must_be(remove_range(LONG, 0, 65536), CS_SUCCESS, GIVEN);
    must_be(add_range(LONG, 0, 32768), CS_SUCCESS, GIVEN);
    must_be(add_range(LONG, 32768, 32768), CS_SUCCESS, GIVEN);
    walk_shows((struct shown[]){{0, 32768, 0, 0}, {32768, 32768, 0, 0}}, 2);
}

/* Two ranges that adjoin stay two, three too, whichever comes last. */
void adjoining_ranges(void)
{
    static const struct shown three[] = {{0x300, 8, 0, 0}, {0x308, 8, 0, 0}, {0x310, 8, 0, 0}};
    static const unsigned orders[][3] = {{0, 1, 2}, {0, 2, 1}, {1, 0, 2},
                                         {1, 2, 0}, {2, 0, 1}, {2, 1, 0}};
    for (unsigned o = 0; o < 6; o++) {
        lend_fresh(1);
        for (unsigned i = 0; i < 3; i++)
            must_be(add_range(forms[i % 2], three[orders[o][i]].base, 8), CS_SUCCESS, GIVEN);
        walk_shows(three, 3);
        must_be(remove_range(SHORT, 0x300, 16), CS_BAD_BASE, 0);
        must_be(remove_range(SHORT, 0x300, 24), CS_BAD_BASE, 0);
        must_be(remove_range(SHORT, 0x308, 16), CS_BAD_BASE, 0);
        must_be(remove_range(SHORT, 0x308, 8), CS_SUCCESS, GIVEN);
        walk_shows((struct shown[]){three[0], three[2]}, 2);
    }
}

/* "no range with just that base and count BAD_BASE" */
void removed_by_base_and_count(void)
{
    static const struct {
        uint32_t base, ports;
    } wrong[] = {{0x300, 15},   {0x300, 17}, {0x2FF, 16}, {0x301, 16}, {0x301, 15},
                 {0x2FF, 17},   {0x300, 8},  {0x308, 8},  {0x300, 1},  {0x300, 255},
                 {0x200, 16},   {0x400, 16}, {0, 16},     {3, 16},     {0x300, 0x110},
                 {0x300, 4096}, {0, 65536},  {0x1300, 16}};
    lend_fresh(1);
    must_be(adjust_io(SHORT, CS_ACTION_ADD, 0x300, 16, CS_RESERVE, 16), CS_SUCCESS, GIVEN);
    for (size_t i = 0; i < sizeof wrong / sizeof *wrong; i++) {
        must_be(remove_range(LONG, wrong[i].base, wrong[i].ports), CS_BAD_BASE, 0);
        if (fits_short(wrong[i].base, wrong[i].ports))
            must_be(remove_range(SHORT, wrong[i].base, wrong[i].ports), CS_BAD_BASE, 0);
    }
    must_be(remove_range(LONG, 0x10300, 16), CS_BAD_BASE, 0);
    must_be(remove_range(LONG, 0x300, 0x10010), CS_BAD_SIZE, 0);
    must_be(remove_range(SHORT, 0x300, 16), CS_SUCCESS, GIVEN);
    must_be(remove_range(SHORT, 0x300, 16), CS_BAD_BASE, 0);
}

/* ---- The order of ranges, and room for them ---- */

/* Ranges of i + 1 ports, in the middle of each 800H ports. */
static struct shown range_at(unsigned i)
{
    return (struct shown){0x800 * i + 0x400, i + 1, 0, 0};
}

/* Into a table with this many, a new one at each place of their order. */
static void insert_everywhere(unsigned many)
{
    struct shown all[CS_RANGES];
    for (unsigned place = 0; place <= many; place++) {
        struct model m;
        model_fresh(&m, 1);
        for (unsigned i = 0; i <= many; i++) {
            all[i] = range_at(i);
            if (i != place)
                m.range[m.ranges++] = (struct range){all[i].base, all[i].ports, i % 2 == 1};
        }
        lend_set(&m);
        must_be(add_range(forms[place % 2], all[place].base, all[place].ports), CS_SUCCESS, GIVEN);
        walk_shows(all, many + 1);
        must_be(remove_range(SHORT, all[place].base, all[place].ports), CS_SUCCESS, GIVEN);
        must_be(adjust_io(LONG, CS_ACTION_ADD, all[place].base, all[place].ports, CS_RESERVE, 16),
                CS_SUCCESS, GIVEN);
    }
}

void ranges_in_order(void)
{
    insert_everywhere(0);
    insert_everywhere(1);
    insert_everywhere(2);
    insert_everywhere(5);
    insert_everywhere(CS_RANGES - 2);
    insert_everywhere(CS_RANGES - 1);
}

static void all_32_shown(void)
{
    struct shown all[CS_RANGES];
    for (unsigned i = 0; i < CS_RANGES; i++)
        all[i] = range_at(i);
    walk_shows(all, CS_RANGES);
}

/* "32 ranges present OUT_OF_RESOURCE", after "a port already managed IN_USE". */
static void no_room(void)
{
    for (unsigned f = 0; f < 2; f++) {
        must_be(add_range(forms[f], 0, 1), CS_OUT_OF_RESOURCE, 0);
        must_be(add_range(forms[f], 0xFFFF, 1), CS_OUT_OF_RESOURCE, 0);
        must_be(add_range(forms[f], 0x400, 1), CS_IN_USE, 0);
        must_be(add_range(forms[f], 0x3FF, 2), CS_IN_USE, 0);
        must_be(add_range(forms[f], 0, 0), CS_BAD_SIZE, 0);
        must_be(add_range(forms[f], 0xFFFF, 2), CS_BAD_BASE, 0);
        must_be(adjust_io(forms[f], CS_ACTION_ADD, 0, 1, 0, 15), CS_BAD_ATTRIBUTE, 0);
    }
}

/* Room that is freed at any place is used again, and only once. */
void room_for_ranges(void)
{
    lend_fresh(1);
    for (unsigned i = 0; i < CS_RANGES; i++) {
        struct shown range = range_at(7 * i % CS_RANGES);
        must_be(add_range(forms[i % 2], range.base, range.ports), CS_SUCCESS, GIVEN);
    }
    no_room();
    all_32_shown();
    for (unsigned i = 0; i < CS_RANGES; i++) {
        struct shown range = range_at(i);
        must_be(remove_range(SHORT, range.base, range.ports), CS_SUCCESS, GIVEN);
        must_be(add_range(SHORT, 0xFFFF, 1), CS_SUCCESS, GIVEN);
        must_be(add_range(SHORT, 0xFFFE, 1), CS_OUT_OF_RESOURCE, 0);
        must_be(remove_range(LONG, 0xFFFF, 1), CS_SUCCESS, GIVEN);
        must_be(add_range(LONG, range.base, range.ports), CS_SUCCESS, GIVEN);
        no_room();
    }
    all_32_shown();
    for (unsigned i = 0; i < CS_RANGES; i++) {
        struct shown range = range_at(11 * i % CS_RANGES);
        must_be(remove_range(LONG, range.base, range.ports), CS_SUCCESS, GIVEN);
    }
    walk_shows(NULL, 0);
}

/* ---- First and Next ---- */

/* Next from a base that is no range's, below, between and above all. */
static void next_from_anywhere(const struct shown *ranges, unsigned many)
{
    static const uint32_t wide[] = {0x10000,    0x100FF,    0x10300,    0x1FFFF,   0x01000000,
                                    0x7FFFFFFF, 0x80000000, 0xFFFF0000, 0xFFFFFFFF};
    for (uint32_t from = 0; from <= 0xFFFF; from += from % 0x100 == 0xFF ? 1 : 0x55) {
        unsigned i = 0;
        while (i < many && ranges[i].base <= from)
            i++;
        for (unsigned f = 0; f < 2; f++)
            if (i < many)
                range_shown(forms[f], CS_ACTION_NEXT, from, ranges[i]);
            else
                range_refused(forms[f], CS_ACTION_NEXT, from, CS_NO_MORE_ITEMS);
    }
    for (size_t i = 0; i < sizeof wide / sizeof *wide; i++)
        range_refused(LONG, CS_ACTION_NEXT, wide[i], CS_NO_MORE_ITEMS);
}

void ranges_walked(void)
{
    static const struct shown ranges[] = {{0, 1, 0, 0},     {1, 255, 0, 0},   {0x300, 16, 0, 0},
                                          {0x310, 3, 0, 0}, {0x400, 1, 0, 0}, {0x6F8, 8, 0, 0},
                                          {0xFFFF, 1, 0, 0}};
    enum { MANY = sizeof ranges / sizeof *ranges };
    lend_fresh(1);
    walk_shows(NULL, 0);
    next_from_anywhere(ranges, 0);
    for (unsigned i = 0; i < MANY; i++) {
        struct shown r = ranges[3 * i % MANY];
        must_be(adjust_io(forms[i % 2], CS_ACTION_ADD, r.base, r.ports, i % 3 == 0 ? CS_RESERVE : 0,
                          16),
                CS_SUCCESS, GIVEN);
    }
    walk_shows(ranges, MANY);
    next_from_anywhere(ranges, MANY);
    must_be(remove_range(SHORT, 0xFFFF, 1), CS_SUCCESS, GIVEN);
    next_from_anywhere(ranges, MANY - 1);
    must_be(remove_range(LONG, 0, 1), CS_SUCCESS, GIVEN);
    walk_shows(ranges + 1, MANY - 2);
}

/* "A short packet can't show more than 255 ports: BAD_SIZE": the next one is
   refused, and isn't passed over. */
void large_ranges_shown(void)
{
    static const struct shown ranges[] = {
        {0x100, 255, 0, 0},   {0x200, 256, 0, 0},  {0x300, 1, 0, 0},     {0x400, 257, 0, 0},
        {0x1000, 4096, 0, 0}, {0x2000, 255, 0, 0}, {0x8000, 32768, 0, 0}};
    static const struct shown whole = {0, 65536, 0, 0};
    enum { MANY = sizeof ranges / sizeof *ranges };
    lend_fresh(1);
    for (unsigned i = 0; i < MANY; i++)
        must_be(add_range(LONG, ranges[i].base, ranges[i].ports), CS_SUCCESS, GIVEN);
    walk_shows(ranges, MANY);
    range_refused(SHORT, CS_ACTION_NEXT, 0x8000, CS_NO_MORE_ITEMS);
    range_refused(SHORT, CS_ACTION_NEXT, 0x7FFF, CS_BAD_SIZE);
    lend_fresh(1);
    must_be(add_range(LONG, whole.base, whole.ports), CS_SUCCESS, GIVEN);
    walk_shows(&whole, 1);
    range_refused(SHORT, CS_ACTION_NEXT, 0, CS_NO_MORE_ITEMS);
}

/* ---- The handle ---- */

static uint32_t adjust_as(uint16_t handle, uint8_t action, uint8_t resource)
{
    uint8_t packet[CS_ADJUST_IO_SHORT_LENGTH] = {action, resource, 0, 0, 1, 0, 16};
    if (resource == CS_RESOURCE_IRQ)
        return ask_call(CS_ADJUST_RESOURCE_INFO, handle, packet, CS_ADJUST_IRQ_LENGTH);
    return ask_call(CS_ADJUST_RESOURCE_INFO, handle, packet, sizeof packet);
}

/* "The handle isn't looked at." Add and Remove answer the one given; First and
   Next 0, as nobody holds anything; "a refusal answers 0". */
static void try_handle(uint16_t handle, uint8_t resource)
{
    uint32_t not_there = resource == CS_RESOURCE_IRQ ? CS_BAD_IRQ : CS_BAD_BASE;
    must_be(adjust_as(handle, CS_ACTION_ADD, resource), CS_SUCCESS, handle);
    must_be(adjust_as(handle, CS_ACTION_ADD, resource), CS_IN_USE, 0);
    must_be(adjust_as(handle, CS_ACTION_FIRST, resource), CS_SUCCESS, 0);
    must_be(adjust_as(handle, CS_ACTION_NEXT, resource), CS_NO_MORE_ITEMS, 0);
    must_be(adjust_as(handle, CS_ACTION_REMOVE, resource), CS_SUCCESS, handle);
    must_be(adjust_as(handle, CS_ACTION_REMOVE, resource), not_there, 0);
    must_be(adjust_as(handle, CS_ACTION_FIRST, resource), CS_NO_MORE_ITEMS, 0);
    must_be(adjust_as(handle, 4, resource), CS_BAD_ARGS, 0);
    must_be(adjust_as(handle, CS_ACTION_ADD, 0), CS_UNSUPPORTED_SERVICE, 0);
}

/* Clients 1 and 3 are live, 2 was, 4 is to be. */
void given_handles(void)
{
    static const uint16_t given[] = {0, 1, 2, 3, 4, 255, 256, 0x7FFF, 0x8000, 0xFFFF};
    struct model m;
    model_fresh(&m, 1);
    m.issued = 3;
    m.client[m.clients++] = (struct client){.handle = 1, .attributes = CS_IO_CLIENT};
    m.client[m.clients++] = (struct client){.handle = 3, .attributes = CS_IO_CLIENT};
    lend_set(&m);
    for (size_t i = 0; i < sizeof given / sizeof *given; i++) {
        try_handle(given[i], CS_RESOURCE_IO);
        try_handle(given[i], CS_RESOURCE_IRQ);
    }
}

/* ---- Cases by number, and what stays as it was ---- */

/* N5 "Add FFF8, 8 passes; FFF9, 8 is BAD_BASE." N12 "300, 16 managed and
   unheld, short First: 02 01 00 03 10 00 10, handle 0." */
void resource_cases(void)
{
    static const uint8_t n12[] = {0x02, 0x01, 0x00, 0x03, 0x10, 0x00, 0x10};
    uint8_t first[7] = {0x02, 0x01, 0xFF, 0xFF, 0xFF, 0xFF, 0xFF};
    for (unsigned f = 0; f < 2; f++) {
        lend_fresh(1);
        must_be(add_range(forms[f], 0xFFF9, 8), CS_BAD_BASE, 0);
        must_be(add_range(forms[f], 0xFFF8, 8), CS_SUCCESS, GIVEN);
        must_be(add_range(forms[f], 0x300, 16), CS_SUCCESS, GIVEN);
        must_be(ask_call(CS_ADJUST_RESOURCE_INFO, GIVEN, first, sizeof first), CS_SUCCESS, 0);
        packet_must_be(n12, sizeof n12);
    }
}

/* Bytes by docs/LAYOUT.md: the number of ranges, ranges in order of base, and the
   marks of levels. */
void resource_bytes(void)
{
    static const uint8_t two[] = {2}, one[] = {1}, managed[] = {1, 0}, reserved[] = {1, 1},
                         neither[] = {0, 0};
    static const uint8_t ranges[] = {0xF8, 0x02, 8, 0, 0, 0, 0, 0x00, 0x03, 16, 0, 0, 0, 1, 0};
    static const uint8_t whole[] = {0, 0, 0, 0, 1, 0, 1, 0, 0, 0, 0, 0, 0, 0, 0};
    lend_fresh(1);
    must_be(adjust_io(LONG, CS_ACTION_ADD, 0x300, 16, CS_RESERVE, 16), CS_SUCCESS, GIVEN);
    must_be(add_range(SHORT, 0x2F8, 8), CS_SUCCESS, GIVEN);
    table_must_have(AT_RANGE_COUNT, two, sizeof two);
    table_must_have(AT_RANGES, ranges, sizeof ranges);
    must_be(add_level(0), CS_SUCCESS, GIVEN);
    must_be(adjust_irq(CS_ACTION_ADD, CS_RESERVE, 15), CS_SUCCESS, GIVEN);
    table_must_have(AT_LEVELS, managed, sizeof managed);
    table_must_have(AT_LEVELS + LEVEL_SIZE * 15, reserved, sizeof reserved);
    must_be(remove_level(15), CS_SUCCESS, GIVEN);
    table_must_have(AT_LEVELS + LEVEL_SIZE * 15, neither, sizeof neither);
    must_be(remove_range(SHORT, 0x2F8, 8), CS_SUCCESS, GIVEN);
    must_be(remove_range(SHORT, 0x300, 16), CS_SUCCESS, GIVEN);
    must_be(adjust_io(LONG, CS_ACTION_ADD, 0, 65536, CS_RESERVE, 16), CS_SUCCESS, GIVEN);
    table_must_have(AT_RANGE_COUNT, one, sizeof one);
    table_must_have(AT_RANGES, whole, sizeof whole);
}

/* Clients, cards and sharers beside what is managed. */
void other_calls_beside(void)
{
    lend_fresh(2);
    must_be(register_one(), CS_SUCCESS, 1);
    must_be(add_range(SHORT, 0x300, 16), CS_SUCCESS, GIVEN);
    must_be(ask_card_in(1), CS_SUCCESS, 0);
    must_be(add_level(15), CS_SUCCESS, GIVEN);
    must_be(ask_sharers(15), CS_SUCCESS, 0);
    must_be(register_one(), CS_SUCCESS, 2);
    must_be(add_range(LONG, 0x100, 512), CS_SUCCESS, GIVEN);
    must_be(ask_call(CS_DEREGISTER_CLIENT, 1, NULL, 0), CS_SUCCESS, 1);
    must_be(remove_range(SHORT, 0x300, 16), CS_SUCCESS, GIVEN);
    must_be(remove_level(15), CS_SUCCESS, GIVEN);
    must_be(ask_card_out(1), CS_SUCCESS, 0);
    must_be(register_one(), CS_SUCCESS, 3);
    walk_shows((struct shown[]){{0x100, 512, 0, 0}}, 1);
}
