#include <string.h>

#include "check.h"
#include "compare.h"
#include "sockets.h"

/* ---- The services that name a socket, each with what it accepts ---- */

/* A packet for socket 0: level 6 named or held, dynamic level; Card Detect; eight
   ports from 304 on, at 16 lines. */
enum { REQUEST_IRQ, RELEASE_IRQ, REQUEST_MASK, RELEASE_MASK, REQUEST_IO, RELEASE_IO, KINDS };
static const struct kind {
    uint16_t service;
    size_t len;
    uint8_t packet[CS_REQUEST_IO_LENGTH];
} kinds[KINDS] = {
    [REQUEST_IRQ] = {CS_REQUEST_IRQ, 8, {0, 0, 2, 0, NOT_ASSIGNED, 0xA6, 0, 0}},
    [RELEASE_IRQ] = {CS_RELEASE_IRQ, 5, {0, 0, 2, 0, 6}},
    [REQUEST_MASK] = {CS_REQUEST_SOCKET_MASK, 4, {0, 0, 0x80, 0}},
    [RELEASE_MASK] = {CS_RELEASE_SOCKET_MASK, 2, {0, 0}},
    [REQUEST_IO] = {CS_REQUEST_IO, 11, {0, 0, 0x04, 0x03, 8, 0, 0, 0, 0, 0, 16}},
    [RELEASE_IO] = {CS_RELEASE_IO, 11, {0, 0, 0x04, 0x03, 8, 0, 0, 0, 0, 0, 16}},
};

/* Level 6 and ports 300 to 30F are managed. */
static void both_managed(struct model *m)
{
    ready_set(m, 1u << 6, 0);
    manage(m, 0x300, 16, false);
}

static void lend_both_managed(void)
{
    struct model m;
    both_managed(&m);
    lend_set(&m);
}

/* What the client at this place has to hold before a release. */
static void hold(struct model *m, const struct kind *kind, unsigned place, unsigned socket)
{
    struct client *client = &m->client[place];
    if (kind->service == CS_RELEASE_IRQ)
        m->irq[socket] = (struct irq_grant){true, client->handle, 6, DYNAMIC_LEVEL};
    if (kind->service == CS_RELEASE_SOCKET_MASK)
        client->masks[socket] = (struct mask){true, CS_EVENT_CARD_DETECT_CHANGE};
    if (kind->service == CS_RELEASE_IO)
        m->io[socket] = (struct io_grant){true, client->handle, 0x304, 8, 16, false};
}

/* Any length up to what is lent. */
static uint32_t ask(const struct kind *kind, uint16_t handle, uint8_t socket, uint8_t function,
                    size_t len)
{
    static uint8_t packet[MOST_LENT];
    memcpy(packet, kind->packet, sizeof kind->packet);
    packet[0] = socket;
    packet[1] = function;
    return ask_call(kind->service, handle, packet, len);
}

static void done_or(uint32_t answer, bool good, uint16_t handle, uint32_t code)
{
    must_be(answer, good ? CS_SUCCESS : code, good ? handle : 0);
}

/* ---- Lengths ---- */

static void try_length(const struct kind *kind, size_t len)
{
    struct model m;
    both_managed(&m);
    hold(&m, kind, 0, 0);
    lend_set(&m);
    describe("length %lu", (unsigned long)len);
    done_or(ask(kind, 1, 0, 0, len), len == kind->len, 1, CS_BAD_ARG_LENGTH);
}

/* Also lengths whose low bits are the right one's. */
void packet_lengths(void)
{
    for (unsigned k = 0; k < KINDS; k++) {
        for (size_t len = 0; len <= 20; len++)
            try_length(&kinds[k], len);
        try_length(&kinds[k], 256 + kinds[k].len);
        try_length(&kinds[k], 65536 + kinds[k].len);
        must_be(ask_call(kinds[k].service, 1, NULL, 0), CS_BAD_ARG_LENGTH, 0);
    }
}

/* ---- Handles ---- */

/* Clients 1 to 15 and 300: 44 is its low byte, 16 was given back. */
static void try_handle(const struct kind *kind, uint16_t handle)
{
    struct model m;
    bool live = (handle >= 1 && handle <= 15) || handle == 300;
    both_managed(&m);
    m.issued = m.client[15].handle = 300;
    hold(&m, kind, handle == 300 ? 15 : live ? handle - 1u : 0, 5);
    lend_set(&m);
    done_or(ask(kind, handle, 5, 0, kind->len), live, handle, CS_BAD_HANDLE);
}

void packet_handles(void)
{
    static const uint16_t far[] = {0x0101, 0x0201, 0x1001, 0x8001, 0xFF01, 0xFFFF};
    for (unsigned k = 0; k < KINDS; k++) {
        for (uint16_t handle = 0; handle <= 320; handle++)
            try_handle(&kinds[k], handle);
        for (size_t i = 0; i < sizeof far / sizeof *far; i++)
            try_handle(&kinds[k], far[i]);
    }
}

/* Nothing is done for a handle that was given back. */
static void gone(uint16_t client)
{
    irq_refused(client, 6, 2, 0xA6, 0, CS_BAD_HANDLE);
    must_be(request_mask(client, 6, 0), CS_BAD_HANDLE, 0);
    must_be(release_irq(client, 7, 2, 6), CS_BAD_HANDLE, 0);
    must_be(release_mask(client, 7), CS_BAD_HANDLE, 0);
    io_refused(client, 6, 0x304, 8, ALONE, 16, CS_BAD_HANDLE);
    io_refused(client, 6, 0, 8, ALONE, 16, CS_BAD_HANDLE);
    must_be(release_io(client, 7, 0x304, 8), CS_BAD_HANDLE, 0);
}

/* All that there is to hold, at socket 7. */
static void get_all(uint16_t client)
{
    irq_granted(client, 7, 2, 0xA6, 0, 6);
    must_be(request_mask(client, 7, 0), CS_SUCCESS, client);
    io_granted(client, 7, 0x304, 8, ALONE, 16);
}

static void give_all_back(uint16_t client)
{
    must_be(release_irq(client, 7, 2, 6), CS_SUCCESS, client);
    must_be(release_mask(client, 7), CS_SUCCESS, client);
    io_released(client, 7, 0x304, 8);
}

/* "each issued once in a table's life": who registers again is another client,
   and has nothing of what the old handle had. */
void stale_handles(void)
{
    lend_both_managed();
    get_all(16);
    give_all_back(16);
    must_be(deregister(1), CS_SUCCESS, 1);
    must_be(deregister(16), CS_SUCCESS, 16);
    gone(1);
    gone(16);
    must_be(register_one(), CS_SUCCESS, 17);
    gone(1);
    gone(16);
    get_all(17);
    gone(1);
    gone(16);
    must_be(deregister(17), CS_IN_USE, 0);
    give_all_back(17);
    must_be(deregister(17), CS_SUCCESS, 17);
    gone(17);
}

/* Each client gives back its own alone: another's grant is BAD_IRQ or BAD_BASE,
   another's mask BAD_SOCKET. */
void others_holdings(void)
{
    lend_both_managed();
    irq_granted(15, 7, 2, 0xA6, 0, 6);
    irq_granted(16, 6, 2, 0xA6, 0, 6);
    must_be(request_mask(15, 7, 0), CS_SUCCESS, 15);
    must_be(request_mask(16, 6, 0), CS_SUCCESS, 16);
    io_granted(15, 7, 0x304, 8, SHARED, 16);
    io_granted(16, 6, 0x304, 8, SHARED, 16);
    must_be(release_irq(16, 7, 2, 6), CS_BAD_IRQ, 0);
    must_be(release_irq(15, 6, 2, 6), CS_BAD_IRQ, 0);
    must_be(release_mask(16, 7), CS_BAD_SOCKET, 0);
    must_be(release_mask(15, 6), CS_BAD_SOCKET, 0);
    io_not_released(16, 7, 0x304, 8);
    io_not_released(15, 6, 0x304, 8);
    must_be(ask_sharers(6), CS_SUCCESS, 2);
    must_be(release_irq(15, 7, 2, 6), CS_SUCCESS, 15);
    must_be(release_mask(15, 7), CS_SUCCESS, 15);
    io_released(15, 7, 0x304, 8);
    must_be(deregister(15), CS_SUCCESS, 15);
    must_be(deregister(16), CS_IN_USE, 0);
    must_be(release_irq(16, 6, 2, 6), CS_SUCCESS, 16);
    must_be(release_mask(16, 6), CS_SUCCESS, 16);
    must_be(deregister(16), CS_IN_USE, 0);
    io_released(16, 6, 0x304, 8);
    must_be(deregister(16), CS_SUCCESS, 16);
}

/* ---- Sockets ---- */

static void try_socket(const struct kind *kind, unsigned sockets, uint8_t socket, uint8_t function)
{
    struct model m;
    bool below = socket < sockets;
    both_managed(&m);
    m.sockets = sockets;
    for (unsigned s = sockets; s < CS_SOCKETS; s++)
        m.card[s] = false;
    hold(&m, kind, 1, below ? socket : 0);
    lend_set(&m);
    describe("%u sockets, socket %u, function %u", sockets, socket, function);
    done_or(ask(kind, 2, socket, function, kind->len), below && function == 0, 2, CS_BAD_SOCKET);
}

/* "socket not below the count, function not 0" */
void packet_sockets(void)
{
    static const uint8_t far[] = {8, 9, 15, 16, 32, 64, 127, 128, 129, 255};
    static const uint8_t functions[] = {0, 1, 2, 7, 8, 16, 128, 255};
    for (unsigned k = 0; k < KINDS; k++)
        for (unsigned sockets = 1; sockets <= CS_SOCKETS; sockets++)
            for (size_t f = 0; f < sizeof functions; f++) {
                for (uint8_t socket = 0; socket < CS_SOCKETS; socket++)
                    try_socket(&kinds[k], sockets, socket, functions[f]);
                for (size_t i = 0; i < sizeof far; i++)
                    try_socket(&kinds[k], sockets, far[i], functions[f]);
            }
}

/* ---- Cards ---- */

/* "Card out takes no grant or mask away", on socket 2; a card on another socket
   makes no difference. */
static void irq_and_mask_between(void)
{
    lend_both_managed();
    irq_granted(1, 2, 1, 0x26, 0, 6);
    must_be(request_mask(1, 2, 0x0FFF), CS_SUCCESS, 1);
    must_be(ask_card_out(2), CS_SUCCESS, 0);
    irq_grant_bytes(2, 1, 6, TIME_MULTIPLEXED);
    mask_bytes(0, 2, 0x1000);
    must_be(ask_sharers(6), CS_SUCCESS, 1);
    must_be(deregister(1), CS_IN_USE, 0);
    irq_refused(1, 2, 1, 0x26, 0, CS_NO_CARD);
    irq_refused(2, 2, 1, 0x26, 0, CS_NO_CARD);
    must_be(request_mask(1, 2, 0), CS_NO_CARD, 0);
    must_be(request_mask(2, 2, 0), CS_NO_CARD, 0);
    irq_granted(2, 3, 1, 0x26, 0, 6);
    must_be(ask_card_in(2), CS_SUCCESS, 0);
    irq_refused(1, 2, 1, 0x26, 0, CS_IN_USE);
    must_be(request_mask(1, 2, 0), CS_IN_USE, 0);
    must_be(request_mask(2, 2, 0), CS_SUCCESS, 2);
    must_be(ask_sharers(6), CS_SUCCESS, 2);
    must_be(ask_card_out(2), CS_SUCCESS, 0);
    must_be(ask_card_out(3), CS_SUCCESS, 0);
    must_be(release_irq(1, 2, 1, 6), CS_SUCCESS, 1);
    must_be(release_mask(1, 2), CS_SUCCESS, 1);
    no_irq_grant_bytes(2);
    mask_bytes(0, 2, 0);
    must_be(deregister(1), CS_SUCCESS, 1);
    must_be(release_mask(2, 2), CS_SUCCESS, 2);
    must_be(release_irq(2, 3, 1, 6), CS_SUCCESS, 2);
    must_be(deregister(2), CS_SUCCESS, 2);
    must_be(ask_sharers(6), CS_SUCCESS, 0);
}

/* The same of an I/O grant: its ports stay held, for others and for base 0. */
static void io_between(void)
{
    lend_both_managed();
    io_granted(1, 2, 0x304, 8, SHARED, 16);
    must_be(ask_card_out(2), CS_SUCCESS, 0);
    io_grant_bytes(2, 1, 0x304, 8, 16, true);
    must_be(deregister(1), CS_IN_USE, 0);
    io_refused(1, 2, 0x304, 8, SHARED, 16, CS_NO_CARD);
    io_refused(2, 2, 0x300, 4, ALONE, 16, CS_NO_CARD);
    io_refused(2, 2, 0, 4, ALONE, 16, CS_NO_CARD);
    io_refused(2, 3, 0x30B, 1, ALONE, 16, CS_IN_USE);
    io_refused(2, 3, 0, 8, ALONE, 16, CS_IN_USE);
    io_chosen(2, 3, 4, ALONE, 16, 0x300);
    must_be(ask_card_in(2), CS_SUCCESS, 0);
    io_refused(1, 2, 0x304, 8, SHARED, 16, CS_IN_USE);
    io_refused(2, 2, 0x30C, 4, ALONE, 16, CS_IN_USE);
    must_be(ask_card_out(2), CS_SUCCESS, 0);
    must_be(ask_card_out(3), CS_SUCCESS, 0);
    io_not_released(2, 2, 0x304, 8);
    io_released(1, 2, 0x304, 8);
    must_be(deregister(1), CS_SUCCESS, 1);
    io_released(2, 3, 0x300, 4);
    must_be(deregister(2), CS_SUCCESS, 2);
}

void cards_between(void)
{
    irq_and_mask_between();
    io_between();
}

/* Each socket's own card is what is looked at. */
void empty_sockets(void)
{
    for (unsigned cards = 0; cards < 1u << CS_SOCKETS; cards++)
        for (uint8_t socket = 0; socket < CS_SOCKETS; socket++) {
            struct model m;
            bool card = (cards >> socket & 1) != 0;
            both_managed(&m);
            for (unsigned s = 0; s < CS_SOCKETS; s++)
                m.card[s] = (cards >> s & 1) != 0;
            lend_set(&m);
            done_or(request_irq(3, socket, 0, 0x26, 0), card, 3, CS_NO_CARD);
            done_or(request_mask(3, socket, 0), card, 3, CS_NO_CARD);
            done_or(request_io(3, socket, 0, 8, ALONE, 16), card, 3, CS_NO_CARD);
        }
}

/* ---- The order of the checks ----

   Any of a service's checks are made to apply at once, in every combination: the
   first of them gives the code. */

/* Bit i of what applies stands for codes[i]. */
static uint32_t first_code(const uint32_t *codes, unsigned many, unsigned applies)
{
    for (unsigned i = 0; i < many; i++)
        if ((applies >> i & 1) != 0)
            return codes[i];
    return CS_SUCCESS;
}

/* A socket that there isn't: a function, one at the count, one far off. */
static const struct {
    uint8_t socket, function;
} no_sockets[] = {{0, 1}, {CS_SOCKETS, 0}, {0xFF, 0xFF}};

/* The checks that all of them share, on socket 0: the packet is one byte too
   short, the client was never registered, there is no such socket. */
static void ask_wrongly(const struct kind *kind, unsigned applies, uint8_t socket, uint8_t function,
                        uint32_t code)
{
    bool length = (applies & 1) != 0, handle = (applies & 2) != 0, no_socket = (applies & 4) != 0;
    must_be(ask(kind, handle ? 77 : 1, no_socket ? socket : 0, no_socket ? function : 0,
                kind->len - (length ? 1 : 0)),
            code, code == CS_SUCCESS ? 1 : 0);
}

static void order_is(const struct model *m, const struct kind *kind, const uint32_t *codes,
                     unsigned many, unsigned applies)
{
    for (size_t i = 0; i < sizeof no_sockets / sizeof *no_sockets; i++) {
        lend_set(m);
        describe("checks that apply: %02X", applies);
        ask_wrongly(kind, applies, no_sockets[i].socket, no_sockets[i].function,
                    first_code(codes, many, applies));
    }
}

/* Reserved or contradictory bits, and fields outside their lists; the card has
   Share and Level, and level 6 is named. */
static void request_irq_wrongly(uint16_t bad_attributes, uint8_t bad_info_1, uint16_t bad_info_2)
{
    static const uint32_t codes[] = {CS_BAD_ARG_LENGTH, CS_BAD_HANDLE, CS_BAD_SOCKET, CS_NO_CARD,
                                     CS_BAD_ATTRIBUTE,  CS_BAD_ARGS,   CS_IN_USE,     CS_BAD_IRQ};
    for (unsigned applies = 0; applies < 1u << 8; applies++) {
        struct model m;
        struct kind kind = kinds[REQUEST_IRQ];
        ready_set(&m, (applies & 0x80) != 0 ? 1u << 9 : 1u << 9 | 1u << 6, 0);
        m.card[0] = (applies & 8) == 0;
        if ((applies & 0x10) != 0) {
            kind.packet[2] = (uint8_t)bad_attributes;
            kind.packet[3] = (uint8_t)(bad_attributes >> 8);
        }
        if ((applies & 0x20) != 0) {
            kind.packet[5] = bad_info_1;
            kind.packet[6] = (uint8_t)bad_info_2;
            kind.packet[7] = (uint8_t)(bad_info_2 >> 8);
        }
        if ((applies & 0x40) != 0)
            m.irq[0] = (struct irq_grant){true, (applies & 0x80) != 0 ? 2 : 1, 9, EXCLUSIVE};
        order_is(&m, &kind, codes, 8, applies);
    }
}

void request_irq_order(void)
{
    static const uint16_t attributes[] = {3, 0x0012, 0x0102, 0x8002, 8, 6};
    static const struct {
        uint8_t info_1;
        uint16_t info_2;
    } infos[] = {{0x86, 0}, {0xB1, 0x0040}, {0xB8, 0x0040}, {0xB0, 0}};
    for (size_t a = 0; a < sizeof attributes / sizeof *attributes; a++)
        for (size_t i = 0; i < sizeof infos / sizeof *infos; i++)
            request_irq_wrongly(attributes[a], infos[i].info_1, infos[i].info_2);
}

/* "BAD_IRQ unless this client holds this level on this socket; only then
   BAD_ATTRIBUTE if the type bits differ." */
static void release_irq_wrongly(uint16_t holder, uint8_t held, uint8_t named, uint8_t type)
{
    static const uint32_t codes[] = {CS_BAD_ARG_LENGTH, CS_BAD_HANDLE, CS_BAD_SOCKET, CS_BAD_IRQ,
                                     CS_BAD_ATTRIBUTE};
    for (unsigned applies = 0; applies < 1u << 5; applies++)
        for (unsigned card = 0; card < 2; card++) {
            struct model m;
            struct kind kind = kinds[RELEASE_IRQ];
            bool irq = (applies & 8) != 0;
            ready_set(&m, 0xFFFF, 0);
            m.card[0] = card == 1;
            if (!irq)
                m.irq[0] = (struct irq_grant){true, 1, 6, DYNAMIC_PULSE};
            else if (holder != 0)
                m.irq[0] = (struct irq_grant){true, holder, held, DYNAMIC_PULSE};
            if (irq)
                kind.packet[4] = named;
            if ((applies & 0x10) != 0)
                kind.packet[2] = type;
            order_is(&m, &kind, codes, 5, applies);
        }
}

void release_irq_order(void)
{
    static const uint8_t types[] = {0, 1, 3};
    for (size_t t = 0; t < sizeof types; t++) {
        release_irq_wrongly(0, 0, 6, types[t]);
        release_irq_wrongly(0, 0, 0, types[t]);
        release_irq_wrongly(2, 6, 6, types[t]);
        release_irq_wrongly(1, 6, 7, types[t]);
        release_irq_wrongly(1, 6, 6 + 16, types[t]);
        release_irq_wrongly(1, 0, 0xFF, types[t]);
    }
}

/* A mask of 0 is a mask. */
static void request_mask_wrongly(uint8_t high_events, uint16_t held)
{
    static const uint32_t codes[] = {CS_BAD_ARG_LENGTH, CS_BAD_HANDLE,    CS_BAD_SOCKET,
                                     CS_NO_CARD,        CS_BAD_ATTRIBUTE, CS_IN_USE};
    for (unsigned applies = 0; applies < 1u << 6; applies++) {
        struct model m;
        struct kind kind = kinds[REQUEST_MASK];
        ready_set(&m, 0, 0);
        m.card[0] = (applies & 8) == 0;
        if ((applies & 0x10) != 0)
            kind.packet[3] = high_events;
        if ((applies & 0x20) != 0)
            m.client[0].masks[0] = (struct mask){true, held};
        order_is(&m, &kind, codes, 6, applies);
    }
}

void request_mask_order(void)
{
    static const uint8_t high_events[] = {0x10, 0x20, 0x40, 0x80, 0xFF};
    for (size_t i = 0; i < sizeof high_events; i++) {
        request_mask_wrongly(high_events[i], 0);
        request_mask_wrongly(high_events[i], 0x0FFF);
    }
}

/* Of a mask that isn't held the code is the socket's own once more. */
void release_mask_order(void)
{
    static const uint32_t codes[] = {CS_BAD_ARG_LENGTH, CS_BAD_HANDLE, CS_BAD_SOCKET,
                                     CS_BAD_SOCKET};
    for (unsigned applies = 0; applies < 1u << 4; applies++)
        for (unsigned card = 0; card < 2; card++) {
            struct model m;
            ready_set(&m, 0, 0);
            m.card[0] = card == 1;
            m.client[1].masks[0] = m.client[0].masks[1] = (struct mask){true, 0};
            if ((applies & 8) == 0)
                m.client[0].masks[0] = (struct mask){true, 0};
            order_is(&m, &kinds[RELEASE_MASK], codes, 4, applies);
        }
}

struct wrong_attribute {
    uint8_t attributes, lines;
};
struct wrong_size {
    uint8_t count, lines, ports_2;
};

/* 304 to 30B are asked for, or 309 to 310, of which one isn't managed, or any
   eight. Another socket holds 307 to 30A, which meet them all. */
static void request_io_wrongly(bool named, struct wrong_attribute attribute, struct wrong_size size)
{
    static const uint32_t codes[] = {CS_BAD_ARG_LENGTH, CS_BAD_HANDLE,    CS_BAD_SOCKET,
                                     CS_NO_CARD,        CS_BAD_ATTRIBUTE, CS_BAD_SIZE,
                                     CS_IN_USE,         CS_BAD_BASE,      CS_IN_USE};
    for (unsigned applies = 0; applies < 1u << 9; applies++) {
        struct model m;
        struct kind kind = kinds[REQUEST_IO];
        if (!named && (applies & 0x80) != 0)
            continue; /* base 0 is never a bad one */
        both_managed(&m);
        m.card[0] = (applies & 8) == 0;
        if ((applies & 0x20) != 0) {
            kind.packet[4] = size.count;
            kind.packet[8] = size.ports_2;
            kind.packet[10] = size.lines;
        }
        if ((applies & 0x10) != 0) {
            kind.packet[5] = attribute.attributes;
            kind.packet[10] = attribute.lines;
        }
        if ((applies & 0x40) != 0)
            m.io[0] = (struct io_grant){true, (applies & 8) != 0 ? 2 : 1, 0x300, 1, 16, false};
        if ((applies & 0x80) != 0)
            kind.packet[2] = 0x09;
        if (!named)
            kind.packet[2] = kind.packet[3] = 0;
        if ((applies & 0x100) != 0)
            m.io[1] = (struct io_grant){true, 2, 0x307, 4, 16, true};
        order_is(&m, &kind, codes, 9, applies);
    }
}

/* Reserved bits, First Shared without Shared, lines of 0, 17 and 255; no port, nine
   ports at three lines, a second range. */
void request_io_order(void)
{
    static const struct wrong_attribute attributes[] = {{0x10, 16}, {0x81, 16}, {0x02, 16},
                                                        {0, 0},     {0, 17},    {0x0E, 255}};
    static const struct wrong_size sizes[] = {{0, 16, 0}, {9, 3, 0}, {8, 16, 1}};
    for (size_t a = 0; a < sizeof attributes / sizeof *attributes; a++)
        for (size_t i = 0; i < sizeof sizes / sizeof *sizes; i++) {
            request_io_wrongly(true, attributes[a], sizes[i]);
            request_io_wrongly(false, attributes[a], sizes[i]);
        }
}

/* "BAD_BASE unless this client holds that base and count on this socket. Its
   NumPorts2 must be 0 (BAD_SIZE before that)." What socket 0 has instead, if
   anything, and what socket 1 has. */
static void release_io_wrongly(struct io_grant instead, struct io_grant beside, uint8_t ports_2)
{
    static const uint32_t codes[] = {CS_BAD_ARG_LENGTH, CS_BAD_HANDLE, CS_BAD_SOCKET, CS_BAD_SIZE,
                                     CS_BAD_BASE};
    for (unsigned applies = 0; applies < 1u << 5; applies++)
        for (unsigned card = 0; card < 2; card++) {
            struct model m;
            struct kind kind = kinds[RELEASE_IO];
            both_managed(&m);
            m.card[0] = card == 1;
            m.io[1] = beside;
            if ((applies & 0x10) != 0)
                m.io[0] = instead;
            else
                hold(&m, &kind, 0, 0);
            if ((applies & 8) != 0)
                kind.packet[8] = ports_2;
            order_is(&m, &kind, codes, 5, applies);
        }
}

void release_io_order(void)
{
    static const struct io_grant nothing, own = {true, 1, 0x30C, 4, 16, false};
    static const struct io_grant others[] = {{0},
                                             {true, 2, 0x304, 8, 16, false},
                                             {true, 1, 0x303, 8, 16, false},
                                             {true, 1, 0x304, 7, 16, false},
                                             {true, 1, 0x300, 4, 16, true}};
    for (size_t i = 0; i < sizeof others / sizeof *others; i++) {
        release_io_wrongly(others[i], nothing, 1);
        release_io_wrongly(others[i], own, 255);
    }
}
