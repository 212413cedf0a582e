/*
 * model_layout_cases.c: docs/LAYOUT.md's places in plain numbers, the bytes that say
 * nothing, and tables of the layout before this one, run against the model alone
 */
#include <string.h>

#include "layout.h"
#include "model_cases.h"
#include "old_layout.h"
#include "sets.h"

static uint8_t image[CS_TABLE_SIZE];

static bool accepted(void)
{
    static struct model read;
    return model_read(image, sizeof image, &read);
}

/* So many bytes from a place on; all others of an image are zero. */
struct part {
    size_t at, len;
    uint8_t bytes[16];
};

static void expect_parts(const char *what, const struct part *parts, size_t many)
{
    static uint8_t by_hand[CS_TABLE_SIZE];
    memset(by_hand, 0, sizeof by_hand);
    for (size_t i = 0; i < many; i++)
        memcpy(by_hand + parts[i].at, parts[i].bytes, parts[i].len);
    expect(what, memcmp(image, by_hand, sizeof image) == 0);
}

/* ---- Images by hand ---- */

/* "Clients 3 and 9 are live, 9 handles were issued, socket 1 of 2 has a card, and
   client 9 has the mask 0x080 for it". */
static void example_set(struct model *m)
{
    model_fresh(m, 2);
    m->issued = 9;
    m->clients = 2;
    m->card[1] = true;
    m->client[0] = (struct client){.handle = 9, .attributes = CS_IO_CLIENT};
    m->client[0].masks[1] = (struct mask){true, 0x080};
    m->client[1] = (struct client){.handle = 3, .attributes = CS_IO_CLIENT};
}

static void example(void)
{
    static const struct part parts[] = {
        {0, 6, {0x43, 0x02, 0x02, 0x00, 0x09, 0x00}},
        {6, 2, {0x00, 0x01}},
        {270, 6, {0x03, 0x00, 0x09, 0x00, 0x00, 0x00}},
        {400, 2, {4, 4}},
        {1664 + 128 + 2, 2, {0x81, 0x00}},
    };
    struct model m;
    example_set(&m);
    model_image(&m, image);
    expect_parts("LAYOUT.md's example", parts, sizeof parts / sizeof *parts);
    expect("it is accepted", accepted());
}

/* The first and the last of everything, in no order. */
static void ends_set(struct model *m)
{
    model_fresh(m, CS_SOCKETS);
    m->issued = 0xFFFE;
    m->clients = CS_CLIENTS;
    for (unsigned i = 0; i < CS_CLIENTS; i++)
        m->client[i] = (struct client){(uint16_t)(0x0FEE * (16 - i)), CS_MEMORY_CLIENT, 0, {{0}}};
    m->client[15].attributes = 0x1A;
    m->client[15].event_mask = 0x0123;
    m->client[15].masks[0] = (struct mask){true, 0};
    m->client[0].attributes = 0x0C;
    m->client[0].event_mask = 0x0FED;
    m->client[0].masks[7] = (struct mask){true, 0x0FFF};
    m->card[0] = m->card[7] = true;
    m->level[0] = (struct level){true, false};
    m->level[15] = (struct level){true, true};
    m->ranges = CS_RANGES;
    for (uint32_t i = 0; i < CS_RANGES; i++)
        m->range[i] = (struct range){0x800 * (31 - i), 1, false};
    m->range[31].count = 0x7FF;
    m->range[0] = (struct range){0xFEDC, 0x124, true};
    m->io[0] = (struct io_grant){true, 0x0FEE, 0x0123, 0xFE, 16, false};
    m->io[7] = (struct io_grant){true, 0xFEE0, 0xFEDC, 9, 16, true};
    m->irq[0] = (struct irq_grant){true, 0xFEE0, 15, EXCLUSIVE};
    m->irq[7] = (struct irq_grant){true, 0x0FEE, 0, DYNAMIC_PULSE};
}

/* The ends first; then the ranges between them, and the handles and attributes of all
   clients. */
static void ends(void)
{
    enum { ENDS = 14 };
    struct part parts[ENDS + CS_RANGES + 2 * CS_CLIENTS] = {
        {0, 6, {67, 8, 16, 32, 0xFE, 0xFF}},
        {6, 8, {1, 0, 0, 0, 0, 0, 0, 1}},
        {14, 2, {1, 0}},
        {44, 2, {1, 1}},
        {46, 7, {0x00, 0x00, 0xFF, 0x07, 0, 0, 0}},
        {263, 7, {0xDC, 0xFE, 0x24, 0x01, 0, 0, 1}},
        {464, 2, {0x23, 0x01}},
        {494, 2, {0xED, 0x0F}},
        {592, 7, {0xEE, 0x0F, 0x23, 0x01, 0xFE, 16, 0}},
        {669, 7, {0xE0, 0xFE, 0xDC, 0xFE, 9, 16, 1}},
        {1296, 4, {0xE0, 0xFE, 15, 0}},
        {1324, 4, {0xEE, 0x0F, 0, 3}},
        {1664, 2, {0x01, 0x00}},
        {1664 + 128 * 15 + 14, 2, {0x00, 0x10}},
    };
    struct model m;
    size_t many = ENDS;
    for (size_t i = 1; i < CS_RANGES - 1; i++)
        parts[many++] = (struct part){46 + 7 * i, 3, {0x00, (uint8_t)(8 * i), 1}};
    for (size_t i = 0; i < CS_CLIENTS; i++) {
        uint32_t handle = (uint32_t)(0x0FEE * (i + 1));
        uint8_t attributes = i == 0 ? 0x1A : i == 15 ? 0x0C : 0x01;
        parts[many++] = (struct part){270 + 2 * i, 2, {(uint8_t)handle, (uint8_t)(handle >> 8)}};
        parts[many++] = (struct part){400 + i, 1, {attributes}};
    }
    ends_set(&m);
    model_image(&m, image);
    expect_parts("the ends of every part", parts, many);
    expect("they are accepted", accepted());
}

/* ---- Bytes that say nothing ---- */

static void refused_with(const char *what, size_t at, uint8_t value)
{
    uint8_t kept = image[at];
    image[at] = value;
    expect(what, !accepted());
    image[at] = kept;
}

/* Stretches of a full table that are always zero. */
static const struct {
    const char *what;
    size_t from, to;
} zeros[] = {
    {"a handle of a client past the 16th", 270 + 2 * 16, 400},
    {"attributes of a client past the 16th", 400 + 16, 464},
    {"events of a client past the 16th", 464 + 2 * 16, 592},
    {"an I/O grant past seat 7", 592 + 11 * 8, 1296},
    {"an IRQ grant past seat 7", 1296 + 4 * 8, 1552},
    {"the bytes before the masks", 1552, 1664},
    {"the bytes after the masks", 3712, 8192},
};

static void bytes_that_say_nothing(void)
{
    struct model m;
    full_set(&m, CS_CLIENTS);
    model_image(&m, image);
    expect("a full table is accepted", accepted());
    for (unsigned value = 0; value < 256; value++)
        if (value != 67)
            refused_with("another layout", 0, (uint8_t)value);
    for (size_t i = 0; i < sizeof zeros / sizeof *zeros; i++)
        for (size_t at = zeros[i].from; at < zeros[i].to; at++)
            refused_with(zeros[i].what, at, (uint8_t)(1u << at % 8));
    for (size_t seat = 0; seat < 8; seat++)
        for (size_t at = 7; at < 11; at++)
            refused_with("a grant's second range", 592 + 11 * seat + at, 1);
    for (size_t client = 0; client < 16; client++)
        for (size_t at = 16; at < 128; at++)
            refused_with("a mask past seat 7", 1664 + 128 * client + at, 1);
    expect("it is the full table still", accepted());
}

/* Of clients, ranges and grants that aren't there no byte stands: in a fresh table
   every other byte is refused but another number of handles issued. */
static void bytes_of_a_fresh_table(void)
{
    struct model m;
    model_fresh(&m, CS_SOCKETS);
    model_image(&m, image);
    for (size_t at = 0; at < sizeof image; at++)
        if (at != 4 && at != 5)
            refused_with("a byte of a fresh table", at, image[at] ^ 0x80);
    image[4] = image[5] = 0xFF;
    expect("all handles issued", accepted());
}

/* "0 for no mask, else the mask + 1", and no bits but 0 to 11; past the count none. */
static void mask_words(void)
{
    struct model m;
    example_set(&m);
    model_image(&m, image);
    for (uint32_t word = 0; word <= 0xFFFF; word++) {
        image[1664 + 128] = (uint8_t)word;
        image[1664 + 129] = (uint8_t)(word >> 8);
        expect("a mask's word", accepted() == (word <= 4096));
    }
    image[1664 + 128] = image[1664 + 129] = 0;
    for (size_t seat = 2; seat < 64; seat++)
        refused_with("a mask for no socket", 1664 + 128 + 2 * seat, 1);
    for (size_t client = 2; client < 16; client++)
        refused_with("a mask of no client", 1664 + 128 * client, 1);
}

/* ---- The layout before this one ---- */

/* The page as it was: the socket count first, records of 22 bytes for clients, a mask
   as 4,096 more. */
static void old_example(void)
{
    static const struct part parts[] = {
        {0, 5, {2, 2, 0, 9, 0}},
        {5, 2, {0, 1}},
        {165, 6, {3, 0, 4, 0, 0, 0}},
        {165 + 22, 10, {9, 0, 4, 0, 0, 0, 0, 0, 0x80, 0x10}},
    };
    struct model m;
    example_set(&m);
    old_image(&m, image);
    expect_parts("the example in the old layout", parts, sizeof parts / sizeof *parts);
}

static void old_refused(const struct model *m)
{
    old_image(m, image);
    expect("a table of the layout before this one", !accepted());
    model_image(m, image);
    expect("the same in this one", accepted());
}

static void old_tables(void)
{
    static struct model m;
    struct chance c = {16};
    for (uint32_t sockets = 1; sockets <= CS_SOCKETS; sockets++) {
        model_fresh(&m, sockets);
        old_refused(&m);
    }
    for (unsigned clients = 8; clients <= CS_CLIENTS; clients++) {
        full_set(&m, clients);
        old_refused(&m);
    }
    for (unsigned i = 0; i < 500; i++) {
        random_set(&c, &m);
        old_refused(&m);
    }
}

void layout_cases(void)
{
    example();
    ends();
    bytes_that_say_nothing();
    bytes_of_a_fresh_table();
    mask_words();
    old_example();
    old_tables();
}
