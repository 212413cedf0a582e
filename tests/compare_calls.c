#include <string.h>

#include "check.h"
#include "compare.h"
#include "layout.h"
#include "resources.h"
#include "sets.h"
#include "sockets.h"

/* ---- Short ways to ask ---- */

static uint32_t register_with(uint16_t attributes, uint16_t events)
{
    uint8_t packet[CS_REGISTER_CLIENT_LENGTH] = {(uint8_t)attributes, (uint8_t)(attributes >> 8),
                                                 (uint8_t)events, (uint8_t)(events >> 8)};
    return ask_call(CS_REGISTER_CLIENT, 0, packet, sizeof packet);
}

/* ---- The table ---- */

static const size_t lengths[] = {
    0, 1, CS_TABLE_SIZE - 1, CS_TABLE_SIZE, CS_TABLE_SIZE + 1, CS_TABLE_SIZE + 65536};
enum { LENGTHS = sizeof lengths / sizeof *lengths };

static uint8_t some_bytes[MOST_LENT];

static void fill(struct chance *c, unsigned how)
{
    for (size_t i = 0; i < sizeof some_bytes; i++)
        some_bytes[i] = how == 0 ? 0 : how == 1 ? 0xFF : (uint8_t)pick(c, 256);
}

/* "Fresh: a count of 1 to 8 and a buffer of 8,192 bytes, else GENERAL_FAILURE
   and no byte changed. .. The old bytes don't matter." */
void fresh_tables(void)
{
    struct chance c = {1};
    for (unsigned how = 0; how < 3; how++) {
        fill(&c, how);
        for (unsigned l = 0; l < LENGTHS; l++)
            for (uint32_t sockets = 0; sockets <= 255; sockets += sockets < 12 ? 1 : 27) {
                bool good = lengths[l] == CS_TABLE_SIZE && sockets >= 1 && sockets <= CS_SOCKETS;
                lend_bytes(some_bytes, lengths[l]);
                must_be(ask_fresh(sockets), good ? CS_SUCCESS : CS_GENERAL_FAILURE, 0);
            }
        for (uint32_t sockets = 0; sockets <= 600; sockets++) {
            lend_bytes(some_bytes, CS_TABLE_SIZE);
            ask_fresh(sockets);
        }
    }
}

/* A table that is good but for its length; the byte beyond is 0 or not. */
void table_lengths(void)
{
    static const uint8_t level_15[CS_BOOT_RECORD] = {CS_RESOURCE_IRQ, CS_RESERVE, 15};
    static uint8_t bytes[MOST_LENT];
    struct model m;
    full_set(&m, CS_CLIENTS - 1);
    for (unsigned beyond = 0; beyond < 2; beyond++) {
        memset(bytes, (int)beyond, sizeof bytes);
        model_image(&m, bytes);
        for (unsigned l = 0; l < LENGTHS; l++) {
            bool good = lengths[l] == CS_TABLE_SIZE;
            uint32_t code = good ? CS_SUCCESS : CS_GENERAL_FAILURE;
            lend_bytes(bytes, lengths[l]);
            must_be(ask_sharers(CS_LEVELS - 1), code, 0);
            must_be(ask_card_out(CS_SOCKETS - 1), code, 0);
            must_be(ask_card_in(CS_SOCKETS - 1), code, 0);
            must_be(register_one(), code, good ? CS_CLIENTS : 0);
            must_be(remove_level(CS_LEVELS - 1), code, good ? GIVEN : 0);
            must_boot(ask_boot(level_15, sizeof level_15), code, good ? 1 : 0);
            must_be(release_irq(8, 7, 2, 3), code, good ? 8 : 0);
            must_be(request_irq(1, 7, 0, 0x2F, 0), code, good ? 1 : 0);
            must_be(release_mask(1, 7), code, good ? 1 : 0);
            must_be(request_mask(1, 7, 0), code, good ? 1 : 0);
            must_be(release_io(8, 7, 0x1C0, 8), code, good ? 8 : 0);
            must_be(request_io(1, 7, 0x1C8, 8, 0, 16), code, good ? 1 : 0);
            must_be(ask_call(0x7777, 0, NULL, 0),
                    good ? CS_UNSUPPORTED_SERVICE : CS_GENERAL_FAILURE, 0);
        }
    }
}

/* ---- RegisterClient ---- */

/* 5.37's client types, one of them and no reserved bit, written out. */
static bool by_hand_allowed(uint16_t attributes)
{
    static const uint16_t allowed[] = {0x01, 0x02, 0x04, 0x09, 0x0A, 0x0C,
                                       0x11, 0x12, 0x14, 0x19, 0x1A, 0x1C};
    for (size_t i = 0; i < sizeof allowed / sizeof *allowed; i++)
        if (allowed[i] == attributes)
            return true;
    return false;
}

static void try_attributes(uint16_t attributes, uint16_t events, bool good)
{
    lend_fresh(1);
    must_be(register_with(attributes, events), good ? CS_SUCCESS : CS_BAD_ATTRIBUTE, good ? 1 : 0);
}

void register_attributes(void)
{
    for (unsigned bit = 0; bit < 16; bit++) {
        try_attributes((uint16_t)(1u << bit), 0, bit <= 2);
        try_attributes(CS_IO_CLIENT, (uint16_t)(1u << bit), bit <= 11);
        try_attributes(0, (uint16_t)(1u << bit), false);
    }
    for (uint16_t low = 0; low < 32; low++) {
        try_attributes(low, 0x0FFF, by_hand_allowed(low));
        try_attributes(low, 0x1FFF, false);
        for (unsigned bit = 5; bit < 16; bit++)
            try_attributes((uint16_t)(low | 1u << bit), 0x0FFF, false);
    }
}

/* "RegisterClient doesn't look at the given handle"; "fields after the event
   mask are ignored"; the packet stays. */
void register_packets(void)
{
    enum { RIGHT = CS_REGISTER_CLIENT_LENGTH };
    static const size_t tried[] = {0,     1,         2,  3,  4,           12,           RIGHT - 1,
                                   RIGHT, RIGHT + 1, 16, 28, RIGHT + 256, RIGHT + 65536};
    static uint8_t bytes[RIGHT + 65536] = {CS_IO_CLIENT, 0, 0xFF, 0x0F};
    struct chance c = {2};
    for (size_t i = 0; i < sizeof tried / sizeof *tried; i++) {
        bool good = tried[i] == RIGHT;
        lend_fresh(2);
        must_be(ask_call(CS_REGISTER_CLIENT, 9, bytes, tried[i]),
                good ? CS_SUCCESS : CS_BAD_ARG_LENGTH, good ? 1 : 0);
        must_be(ask_call(CS_DEREGISTER_CLIENT, 1, bytes, tried[i]),
                tried[i] != 0 ? CS_BAD_ARG_LENGTH : CS_BAD_HANDLE, 0);
    }
    lend_fresh(2);
    for (uint16_t i = 0; i < CS_CLIENTS; i++) {
        for (size_t at = 4; at < RIGHT; at++)
            bytes[at] = (uint8_t)pick(&c, 256);
        must_be(ask_call(CS_REGISTER_CLIENT, (uint16_t)pick(&c, 65536), bytes, RIGHT), CS_SUCCESS,
                (uint16_t)(i + 1));
    }
    must_be(ask_call(CS_DEREGISTER_CLIENT, 3, NULL, 0), CS_SUCCESS, 3);
    must_be(ask_call(CS_REGISTER_CLIENT, 3, NULL, 0), CS_BAD_ARG_LENGTH, 0);
}

/* "OUT_OF_RESOURCE exactly if 16 are live .." */
void client_limit(void)
{
    lend_fresh(8);
    for (uint16_t i = 1; i <= CS_CLIENTS; i++)
        must_be(register_one(), CS_SUCCESS, i);
    must_be(register_one(), CS_OUT_OF_RESOURCE, 0);
    must_be(register_with(0, 0), CS_BAD_ATTRIBUTE, 0);
    for (uint16_t i = 1; i <= CS_CLIENTS; i++) {
        must_be(deregister(i), CS_SUCCESS, i);
        must_be(register_one(), CS_SUCCESS, (uint16_t)(CS_CLIENTS + i));
        must_be(register_one(), CS_OUT_OF_RESOURCE, 0);
    }
    for (uint16_t i = 2 * CS_CLIENTS; i > CS_CLIENTS; i--)
        must_be(deregister(i), CS_SUCCESS, i);
    must_be(register_one(), CS_SUCCESS, 2 * CS_CLIENTS + 1);
}

/* ---- Handles ---- */

/* "each issued once in a table's life": clients come and go by chance. */
static void no_handle_twice(void)
{
    struct chance c = {3};
    lend_fresh(4);
    uint16_t last = 0;
    for (unsigned i = 0; i < 600; i++) {
        const struct model *m = lent_facts();
        if (m->clients == 0 || (m->clients < CS_CLIENTS && one_in(&c, 2))) {
            must_be(register_one(), CS_SUCCESS, ++last);
        } else {
            uint16_t leaving = m->client[pick(&c, m->clients)].handle;
            must_be(deregister(leaving), CS_SUCCESS, leaving);
        }
    }
}

void handles(void)
{
    lend_fresh(1);
    must_be(deregister(0), CS_BAD_HANDLE, 0);
    must_be(deregister(1), CS_BAD_HANDLE, 0);
    must_be(register_one(), CS_SUCCESS, 1);
    must_be(register_one(), CS_SUCCESS, 2);
    must_be(deregister(0), CS_BAD_HANDLE, 0);
    must_be(deregister(3), CS_BAD_HANDLE, 0);
    must_be(deregister(0x0101), CS_BAD_HANDLE, 0);
    must_be(deregister(0xFFFF), CS_BAD_HANDLE, 0);
    must_be(deregister(1), CS_SUCCESS, 1);
    must_be(deregister(1), CS_BAD_HANDLE, 0);
    must_be(register_one(), CS_SUCCESS, 3);
    must_be(deregister(1), CS_BAD_HANDLE, 0);
    must_be(deregister(3), CS_SUCCESS, 3);
    must_be(deregister(2), CS_SUCCESS, 2);
    must_be(register_one(), CS_SUCCESS, 4);
    no_handle_twice();
}

/* "OUT_OF_RESOURCE exactly if .. 65,535 were issued", with no client live too. */
void last_handles(void)
{
    struct model m;
    model_fresh(&m, 1);
    m.issued = CS_HANDLES - 2;
    lend_set(&m);
    must_be(register_one(), CS_SUCCESS, CS_HANDLES - 1);
    must_be(register_one(), CS_SUCCESS, CS_HANDLES);
    must_be(register_one(), CS_OUT_OF_RESOURCE, 0);
    must_be(deregister(CS_HANDLES - 1), CS_SUCCESS, CS_HANDLES - 1);
    must_be(register_one(), CS_OUT_OF_RESOURCE, 0);
    must_be(deregister(CS_HANDLES), CS_SUCCESS, CS_HANDLES);
    must_be(register_one(), CS_OUT_OF_RESOURCE, 0);
    must_be(register_with(CS_MEMORY_CLIENT | CS_IO_CLIENT, 0), CS_BAD_ATTRIBUTE, 0);
    must_be(deregister(CS_HANDLES), CS_BAD_HANDLE, 0);
    m.issued = 255;
    lend_set(&m);
    must_be(register_one(), CS_SUCCESS, 256);
    must_be(register_one(), CS_SUCCESS, 257);
    must_be(deregister(1), CS_BAD_HANDLE, 0);
}

/* ---- What a client holds ---- */

enum holding { AN_IO_GRANT, AN_IRQ_GRANT, A_MASK, NOTHING, HOLDINGS };

static void hold(struct model *m, enum holding what, uint16_t client, unsigned socket)
{
    if (what == AN_IO_GRANT)
        m->io[socket] = (struct io_grant){true, client, 0x300, 8, CS_LINES, false};
    if (what == AN_IRQ_GRANT)
        m->irq[socket] = (struct irq_grant){true, client, 3, EXCLUSIVE};
    if (what == A_MASK)
        m->client[client - 1].masks[socket] = (struct mask){true, 0};
}

/* Client 1 holds one thing on one socket; client 2 holds nothing. */
void deregister_in_use(void)
{
    for (unsigned socket = 0; socket < CS_SOCKETS; socket++)
        for (unsigned what = 0; what < HOLDINGS; what++) {
            struct model m;
            full_set(&m, CS_CLIENTS);
            for (unsigned s = 0; s < CS_SOCKETS; s++) {
                m.io[s].live = m.irq[s].live = false;
                m.client[0].masks[s].held = m.client[1].masks[s].held = false;
            }
            m.range[0] = (struct range){0x300, 8, false};
            m.ranges = 1;
            hold(&m, what, 1, socket);
            lend_set(&m);
            bool free = what == NOTHING;
            must_be(deregister(1), free ? CS_SUCCESS : CS_IN_USE, free ? 1 : 0);
            must_be(deregister(2), CS_SUCCESS, 2);
            must_be(deregister(3), CS_IN_USE, 0);
        }
}

/* ---- Host calls ---- */

static void both_card_calls(uint32_t socket, uint32_t code)
{
    must_be(ask_card_in(socket), code, 0);
    must_be(ask_card_in(socket), code, 0);
    must_be(ask_card_out(socket), code, 0);
    must_be(ask_card_out(socket), code, 0);
}

/* "BAD_SOCKET or done, also when nothing changes. Card out takes no grant or
   mask away." */
void cards(void)
{
    static const uint32_t far[] = {9, 15, 16, 127, 128, 255, 256, 257, 263, 32768, 65535};
    for (uint32_t sockets = 1; sockets <= CS_SOCKETS; sockets++) {
        lend_fresh(sockets);
        for (uint32_t socket = 0; socket <= CS_SOCKETS; socket++)
            both_card_calls(socket, socket < sockets ? CS_SUCCESS : CS_BAD_SOCKET);
        for (size_t i = 0; i < sizeof far / sizeof *far; i++)
            both_card_calls(far[i], CS_BAD_SOCKET);
    }
    struct model m;
    full_set(&m, CS_CLIENTS);
    lend_set(&m);
    for (uint32_t socket = 0; socket < CS_SOCKETS; socket++)
        must_be(ask_card_out(socket), CS_SUCCESS, 0);
    must_be(ask_sharers(3), CS_SUCCESS, 2);
}

/* "a level over 15 is BAD_IRQ; a refusal's count is 0; else the number of live
   grants, never over 8." */
void sharers_counted(void)
{
    static const uint32_t far[] = {16, 17, 31, 32, 255, 256, 259, 32771, 65535};
    for (uint16_t many = 0; many <= CS_SOCKETS; many++) {
        struct model m;
        uint8_t shared = (uint8_t)(2 * many % CS_LEVELS);
        full_set(&m, CS_CLIENTS);
        for (unsigned s = 0; s < CS_SOCKETS; s++) {
            m.irq[s].live = s < many;
            m.irq[s].level = shared;
        }
        lend_set(&m);
        for (uint32_t level = 0; level < CS_LEVELS; level++)
            must_be(ask_sharers(level), CS_SUCCESS, level == shared ? many : 0);
        for (size_t i = 0; i < sizeof far / sizeof *far; i++)
            must_be(ask_sharers(far[i]), CS_BAD_IRQ, 0);
    }
}

/* Numbers over every count, socket and level; the low 8, 16 or 24 bits of most
   are one. */
static const uint32_t wide[] = {
    256,        257,        256 + 8,    256 + 15,   65535,      65536,      65537,      65536 + 3,
    65536 + 15, 0x01000000, 0x01000001, 0x80000001, 0xFFFF0003, 0xFFFFFF01, 0xFFFFFFF8, 0xFFFFFFFF};
enum { WIDE = sizeof wide / sizeof *wide };

static void no_entry_takes(uint32_t number)
{
    must_be(ask_fresh(number), CS_GENERAL_FAILURE, 0);
    must_be(ask_card_in(number), CS_BAD_SOCKET, 0);
    must_be(ask_card_out(number), CS_BAD_SOCKET, 0);
    must_be(ask_sharers(number), CS_BAD_IRQ, 0);
}

static void no_entry_takes_wide_numbers(void)
{
    for (size_t i = 0; i < WIDE; i++)
        no_entry_takes(wide[i]);
    for (uint32_t bit = CS_LEVELS; bit != 0; bit <<= 1)
        for (uint32_t low = 0; low < CS_LEVELS; low++)
            no_entry_takes(bit | low);
}

/* Of the fresh table a card in would change a byte, of the full one a card out. */
void wide_numbers(void)
{
    struct model m;
    lend_fresh(CS_SOCKETS);
    no_entry_takes_wide_numbers();
    full_set(&m, CS_CLIENTS);
    lend_set(&m);
    no_entry_takes_wide_numbers();
}

/* ---- Service numbers and broken tables ---- */

/* With a packet that RegisterClient accepts. */
static void ask_every_service(void)
{
    static const uint8_t packet[CS_REGISTER_CLIENT_LENGTH] = {CS_IO_CLIENT};
    for (uint32_t service = 0; service <= 0xFFFF; service++)
        ask_call((uint16_t)service, 1, packet, sizeof packet);
}

/* "Built: RegisterClient 10H (5.37), DeregisterClient 02H (5.8), .." and the
   others' numbers in that order. */
void every_service(void)
{
    static const uint16_t built[] = {0x10, 0x02, 0x35, 0x20, 0x1C, 0x1F, 0x1B, 0x22, 0x2F};
    struct model m;
    full_set(&m, CS_CLIENTS - 1);
    lend_set(&m);
    ask_every_service();
    for (unsigned i = 0; i < 9; i++)
        must_hold("each of the nine is a service",
                  answered_to(built[i], CS_UNSUPPORTED_SERVICE) == 0);
    must_hold("no other number is one", answered(CS_UNSUPPORTED_SERVICE) == 65536 - 9);
    must_hold("RegisterClient was answered SUCCESS", answered(CS_SUCCESS) == 1);
}

static void lend_broken(size_t at)
{
    static uint8_t image[CS_TABLE_SIZE];
    struct model m;
    full_set(&m, CS_CLIENTS - 1);
    model_image(&m, image);
    image[at] ^= 0x80;
    lend_bytes(image, sizeof image);
}

void every_service_broken(void)
{
    lend_broken(CS_TABLE_SIZE - 1);
    ask_every_service();
    must_hold("all are answered GENERAL_FAILURE", answered(CS_GENERAL_FAILURE) == 65536);
}

/* Asked for what a full table would do, and for what none would. */
static void no_socket_service_answers(void)
{
    static const uint16_t services[] = {CS_REQUEST_IRQ,         CS_RELEASE_IRQ,
                                        CS_REQUEST_IO,          CS_RELEASE_IO,
                                        CS_REQUEST_SOCKET_MASK, CS_RELEASE_SOCKET_MASK};
    irq_refused(1, 0, 2, 0xF0, 0xFFFF, CS_GENERAL_FAILURE);
    irq_refused(0, 0xFF, 0xFFFF, 0, 0, CS_GENERAL_FAILURE);
    must_be(release_irq(1, 0, 2, 0), CS_GENERAL_FAILURE, 0);
    must_be(release_irq(0, 0xFF, 0xFFFF, 0xFF), CS_GENERAL_FAILURE, 0);
    io_refused(1, 0, 0, 8, 0, 16, CS_GENERAL_FAILURE);
    io_refused(0, 0xFF, 0xFFFF, 0, 0xFF, 0, CS_GENERAL_FAILURE);
    must_be(release_io(1, 0, 0x100, 8), CS_GENERAL_FAILURE, 0);
    must_be(release_io(0, 0xFF, 0, 0), CS_GENERAL_FAILURE, 0);
    must_be(request_mask(1, 0, 0), CS_GENERAL_FAILURE, 0);
    must_be(request_mask(0, 0xFF, 0xFFFF), CS_GENERAL_FAILURE, 0);
    must_be(release_mask(1, 0), CS_GENERAL_FAILURE, 0);
    must_be(release_mask(0, 0xFF), CS_GENERAL_FAILURE, 0);
    for (size_t i = 0; i < sizeof services / sizeof *services; i++)
        must_be(ask_call(services[i], 1, NULL, 0), CS_GENERAL_FAILURE, 0);
}

/* "Host calls check the table first too": before a bad service, length, handle,
   socket, level or attribute. Fresh alone looks at no old byte. */
void broken_before_anything(void)
{
    static const size_t places[] = {
        AT_LAYOUT, AT_SOCKETS, AT_CLIENT_COUNT,   AT_RANGE_COUNT, AT_CARDS,         AT_LEVELS,
        AT_RANGES, AT_HANDLES, AT_ATTRIBUTES - 1, AT_ATTRIBUTES,  AT_EVENTS + 1,    AT_IO,
        AT_IRQ,    AT_SPARE,   AT_MASKS + 1,      AT_REST,        CS_TABLE_SIZE - 1};
    for (size_t i = 0; i < sizeof places / sizeof *places; i++) {
        lend_broken(places[i]);
        must_hold("the model refuses it too", !lent_accepted());
        must_be(register_one(), CS_GENERAL_FAILURE, 0);
        must_be(register_with(0xFFFF, 0xFFFF), CS_GENERAL_FAILURE, 0);
        must_be(ask_call(CS_REGISTER_CLIENT, 0, NULL, 0), CS_GENERAL_FAILURE, 0);
        must_be(deregister(CS_CLIENTS - 1), CS_GENERAL_FAILURE, 0);
        must_be(deregister(0), CS_GENERAL_FAILURE, 0);
        must_be(ask_call(0xFFFF, 0, NULL, 0), CS_GENERAL_FAILURE, 0);
        must_be(ask_call(CS_ADJUST_RESOURCE_INFO, 0, NULL, 0), CS_GENERAL_FAILURE, 0);
        must_be(adjust_irq(4, 0xFF, 0xFF), CS_GENERAL_FAILURE, 0);
        must_be(adjust_io(LONG, CS_ACTION_ADD, 0, 0, 0xFF, 0), CS_GENERAL_FAILURE, 0);
        range_refused(SHORT, CS_ACTION_FIRST, 0, CS_GENERAL_FAILURE);
        no_socket_service_answers();
        must_boot(ask_boot(NULL, 0), CS_GENERAL_FAILURE, 0);
        must_be(ask_card_in(0), CS_GENERAL_FAILURE, 0);
        must_be(ask_card_in(CS_SOCKETS), CS_GENERAL_FAILURE, 0);
        must_be(ask_card_out(0), CS_GENERAL_FAILURE, 0);
        must_be(ask_card_out(65535), CS_GENERAL_FAILURE, 0);
        must_be(ask_card_out(65536), CS_GENERAL_FAILURE, 0);
        must_be(ask_sharers(0), CS_GENERAL_FAILURE, 0);
        must_be(ask_sharers(CS_LEVELS), CS_GENERAL_FAILURE, 0);
        must_be(ask_sharers(65536), CS_GENERAL_FAILURE, 0);
        must_be(ask_fresh(0), CS_GENERAL_FAILURE, 0);
        must_be(ask_fresh(257), CS_GENERAL_FAILURE, 0);
        must_be(ask_fresh(3), CS_SUCCESS, 0);
        must_be(ask_card_in(2), CS_SUCCESS, 0);
    }
}
