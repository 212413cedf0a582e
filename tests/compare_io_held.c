#include "check.h"
#include "compare.h"
#include "layout.h"
#include "resources.h"
#include "sets.h"
#include "sockets.h"

/* ReleaseIO, and what an I/O grant holds: its client, its ranges, its bytes. */

/* ---- ReleaseIO ---- */

/* Client 8 holds 304 to 309 on socket 3, client 9 30A to 30D on socket 4, client 8
   30E on socket 5; all ports are managed. */
static void lend_three_held(void)
{
    struct model m;
    ready_set(&m, 0, 0);
    manage(&m, 0, 65536, false);
    m.io[3] = (struct io_grant){true, 8, 0x304, 6, 10, false};
    m.io[4] = (struct io_grant){true, 9, 0x30A, 4, 16, true};
    m.io[5] = (struct io_grant){true, 8, 0x30E, 1, 4, true};
    lend_set(&m);
}

static bool held(uint16_t client, uint8_t socket, uint16_t base, uint8_t count)
{
    return (client == 8 && socket == 3 && base == 0x304 && count == 6) ||
           (client == 9 && socket == 4 && base == 0x30A && count == 4) ||
           (client == 8 && socket == 5 && base == 0x30E && count == 1);
}

static void release_not_held(uint16_t client, uint8_t socket, uint16_t base, uint8_t count)
{
    if (!held(client, socket, base, count))
        io_not_released(client, socket, base, count);
}

/* "BAD_BASE unless this client holds that base and count on this socket." */
void io_release_of_others(void)
{
    static const uint16_t bases[] = {0, 4, 0x204, 0x303, 0x304, 0x305, 0x30A, 0x30E, 0x704, 0x8304};
    static const uint8_t counts[] = {0, 1, 4, 5, 6, 7, 255};
    lend_three_held();
    for (uint16_t client = 7; client <= 10; client++)
        for (uint8_t socket = 2; socket <= 6; socket++)
            for (size_t b = 0; b < sizeof bases / sizeof *bases; b++)
                for (size_t i = 0; i < sizeof counts; i++)
                    release_not_held(client, socket, bases[b], counts[i]);
    for (unsigned count = 0; count <= 255; count++)
        release_not_held(8, 3, 0x304, (uint8_t)count);
    for (unsigned bit = 0; bit < 16; bit++)
        release_not_held(8, 3, (uint16_t)(0x304 ^ 1u << bit), 6);
    for (uint16_t client = 1; client <= CS_CLIENTS; client++)
        for (uint8_t socket = 0; socket < CS_SOCKETS; socket++) {
            release_not_held(client, socket, 0x304, 6);
            release_not_held(client, socket, 0, 0);
        }
    io_grant_bytes(3, 8, 0x304, 6, 10, false);
    io_grant_bytes(4, 9, 0x30A, 4, 16, true);
    io_grant_bytes(5, 8, 0x30E, 1, 4, true);
    io_released(8, 3, 0x304, 6);
    io_not_released(8, 3, 0x304, 6);
    io_released(9, 4, 0x30A, 4);
    io_not_released(9, 4, 0x30A, 4);
    io_released(8, 5, 0x30E, 1);
}

/* "Its NumPorts2 must be 0 (BAD_SIZE before that). Its attributes, lines and
   BasePort2 are ignored.": of the packet that names the grant, each byte from 5
   on with every value. */
void io_release_fields(void)
{
    for (size_t at = 5; at < CS_RELEASE_IO_LENGTH; at++)
        for (unsigned value = 0; value <= 255; value++) {
            uint8_t packet[] = {3, 0, 0x04, 0x03, 6, 0, 0, 0, 0, 0, 10};
            bool good = at != 8 || value == 0;
            packet[at] = (uint8_t)value;
            lend_three_held();
            must_be(ask_call(CS_RELEASE_IO, 8, packet, sizeof packet),
                    good ? CS_SUCCESS : CS_BAD_SIZE, good ? 8 : 0);
            packet_must_be(packet, sizeof packet);
            if (good)
                no_io_grant_bytes(3);
            else
                io_grant_bytes(3, 8, 0x304, 6, 10, false);
        }
}

/* Handles have two bytes: 0102, 0100 and 2 are three clients. */
void io_release_by_low_bytes(void)
{
    struct model m;
    ready_set(&m, 0, 0);
    manage(&m, 0x300, 16, false);
    m.issued = m.client[15].handle = 0x0102;
    m.client[14].handle = 0x0100;
    lend_set(&m);
    io_granted(0x0102, 0, 0x300, 4, ALONE, 16);
    io_granted(2, 1, 0x304, 4, ALONE, 16);
    io_granted(0x0100, 2, 0x308, 4, ALONE, 16);
    io_not_released(2, 0, 0x300, 4);
    io_not_released(0x0100, 0, 0x300, 4);
    io_not_released(0x0102, 1, 0x304, 4);
    io_not_released(0x0102, 2, 0x308, 4);
    io_released(0x0102, 0, 0x300, 4);
    io_released(2, 1, 0x304, 4);
    io_released(0x0100, 2, 0x308, 4);
}

/* ---- Every place of a grant ---- */

/* The packet that RequestIO leaves is one that ReleaseIO takes. */
static void grant_and_release(uint16_t client, uint8_t socket, uint8_t count, uint8_t attributes,
                              uint8_t lines, uint16_t base)
{
    uint8_t left[] = {socket, 0, (uint8_t)base, (uint8_t)(base >> 8), count, attributes, 0xFF, 0,
                      0,      9, lines};
    uint8_t asked[] = {socket, 0, 0, 0, count, attributes, 0xFF, 0, 0, 9, lines};
    must_be(ask_call(CS_REQUEST_IO, client, asked, sizeof asked), CS_SUCCESS, client);
    packet_must_be(left, sizeof left);
    io_grant_bytes(socket, client, base, count, lines, attributes != ALONE);
    must_be(ask_call(CS_RELEASE_IO, client, left, sizeof left), CS_SUCCESS, client);
    packet_must_be(left, sizeof left);
    no_io_grant_bytes(socket);
}

/* On each socket, for every client, with all that a grant's bytes can be. All ports
   are managed, 0FF0 to 11EF unreserved. */
void io_every_place(void)
{
    static const uint8_t attributes[] = {ALONE, SHARED, FIRST_SHARED};
    struct model m;
    ready_set(&m, 0, 0);
    manage(&m, 0, 0x0FF0, true);
    manage(&m, 0x0FF0, 0x200, false);
    manage(&m, 0x11F0, 0xEE10, true);
    lend_set(&m);
    for (uint8_t socket = 0; socket < CS_SOCKETS; socket++)
        for (uint16_t client = 1; client <= CS_CLIENTS; client++)
            for (unsigned a = 0; a < 3; a++) {
                uint8_t lines = (uint8_t)(8 + (socket + client) % 9);
                grant_and_release(client, socket, 1, attributes[a], lines, 0x0FF0);
                grant_and_release(client, socket, 17, attributes[a], lines, 0x1000);
                grant_and_release(client, socket, 255, attributes[a], lines, 0x1000);
            }
}

/* Grants of every socket at once, each of its own client, ports, lines; given
   back in another order, each leaves the others as they are. */
void io_every_socket(void)
{
    lend_ports(0, 65536);
    for (uint8_t s = 0; s < CS_SOCKETS; s++)
        io_granted((uint16_t)(16 - s), s, (uint16_t)(0x4000 + 0x101 * s), (uint8_t)(200 + s),
                   s % 2 == 0 ? ALONE : SHARED, (uint8_t)(16 - s % 3));
    for (uint8_t i = 0; i < CS_SOCKETS; i++) {
        uint8_t s = (uint8_t)(5 * i % CS_SOCKETS), next = (uint8_t)(5 * (i + 1) % CS_SOCKETS);
        io_released((uint16_t)(16 - s), s, (uint16_t)(0x4000 + 0x101 * s), (uint8_t)(200 + s));
        if (i < 7)
            io_grant_bytes(next, (uint16_t)(16 - next), (uint16_t)(0x4000 + 0x101 * next),
                           (uint8_t)(200 + next), (uint8_t)(16 - next % 3), next % 2 == 1);
    }
}

/* ---- What a grant holds ---- */

/* "refused with IN_USE exactly while the client holds an I/O grant, an IRQ grant
   or a socket mask." */
void io_keeps_its_client(void)
{
    lend_ports(0x300, 16);
    for (uint8_t s = 0; s < CS_SOCKETS; s++) {
        uint16_t first = (uint16_t)(s + 1), last = (uint16_t)(16 - s);
        io_chosen(last, s, 3, s % 2 == 0 ? ALONE : SHARED, 16, 0x300);
        must_be(deregister(last), CS_IN_USE, 0);
        must_be(deregister(first), CS_SUCCESS, first);
        io_not_released(last, s, 0x300, 4);
        io_not_released(last, s, 0, 3);
        must_be(deregister(last), CS_IN_USE, 0);
        io_released(last, s, 0x300, 3);
        must_be(deregister(last), CS_SUCCESS, last);
        must_be(deregister(last), CS_BAD_HANDLE, 0);
    }
}

/* A client with grants on two sockets, which don't meet or are shared, keeps the
   second when it gives the first back. */
void io_two_of_a_client(void)
{
    lend_ports(0x300, 16);
    io_granted(16, 0, 0x300, 8, ALONE, 16);
    io_refused(16, 7, 0x307, 2, ALONE, 16, CS_IN_USE);
    io_granted(16, 7, 0x308, 8, ALONE, 16);
    io_not_released(16, 0, 0x308, 8);
    io_released(16, 0, 0x300, 8);
    must_be(deregister(16), CS_IN_USE, 0);
    io_granted(16, 0, 0x300, 8, SHARED, 16);
    io_released(16, 7, 0x308, 8);
    io_granted(16, 7, 0x300, 8, SHARED, 16);
    io_released(16, 0, 0x300, 8);
    must_be(deregister(16), CS_IN_USE, 0);
    io_released(16, 7, 0x300, 8);
    must_be(deregister(16), CS_SUCCESS, 16);
}

/* An I/O grant, an IRQ grant and a mask of one client and socket are held apart:
   none is released with another. */
void io_beside_others(void)
{
    struct model m;
    ready_set(&m, 1u << 4, 0);
    manage(&m, 0x300, 16, false);
    lend_set(&m);
    io_granted(2, 3, 0x304, 4, ALONE, 16);
    must_be(release_irq(2, 3, 0, 4), CS_BAD_IRQ, 0);
    must_be(release_mask(2, 3), CS_BAD_SOCKET, 0);
    irq_granted(2, 3, 0, 0x24, 0, 4);
    must_be(request_mask(2, 3, 0x0010), CS_SUCCESS, 2);
    io_released(2, 3, 0x304, 4);
    irq_grant_bytes(3, 2, 4, EXCLUSIVE);
    mask_bytes(1, 3, 0x0011);
    must_be(deregister(2), CS_IN_USE, 0);
    io_not_released(2, 3, 0x304, 4);
    io_granted(2, 3, 0x304, 4, ALONE, 16);
    must_be(release_irq(2, 3, 0, 4), CS_SUCCESS, 2);
    must_be(release_mask(2, 3), CS_SUCCESS, 2);
    io_grant_bytes(3, 2, 0x304, 4, 16, false);
    must_be(deregister(2), CS_IN_USE, 0);
    io_released(2, 3, 0x304, 4);
    must_be(deregister(2), CS_SUCCESS, 2);
}

/* 300 to 307, 308 to 30F and 700 to 707 as they are shown, each with its attributes
   and its holder; what lies between, and the ports at both ends, are held by none. */
static void three_shown(struct shown low, struct shown high, struct shown far)
{
    walk_shows((struct shown[]){{0, 0x300, 0, 0},
                                {0x300, 8, low.attributes, low.holder},
                                {0x308, 8, high.attributes, high.holder},
                                {0x310, 0x3F0, 0, 0},
                                {0x700, 8, far.attributes, far.holder},
                                {0x708, 0xF8F8, 0, 0}},
               6);
}

static struct shown by(uint8_t attributes, uint16_t holder)
{
    return (struct shown){.attributes = attributes, .holder = holder};
}

/* Remove, First and Next (35H) beside grants that calls made. A grant at ten lines
   holds its own ports alone, and none of their aliases: 706 is one of 306. But it
   keeps the ranges of both, and its card needs both. */
void io_keeps_its_ranges(void)
{
    const struct shown none = by(0, 0);
    lend_ready(0, 0);
    must_be(add_range(LONG, 0, 0x300), CS_SUCCESS, GIVEN);
    must_be(add_range(SHORT, 0x300, 8), CS_SUCCESS, GIVEN);
    must_be(add_range(LONG, 0x308, 8), CS_SUCCESS, GIVEN);
    must_be(add_range(LONG, 0x310, 0x3F0), CS_SUCCESS, GIVEN);
    must_be(add_range(SHORT, 0x700, 8), CS_SUCCESS, GIVEN);
    must_be(add_range(LONG, 0x708, 0xF8F8), CS_SUCCESS, GIVEN);
    io_granted(12, 5, 0x306, 4, SHARED, 10);
    three_shown(by(0x81, 12), by(0x81, 12), none);
    must_be(remove_range(SHORT, 0x300, 8), CS_IN_USE, 0);
    must_be(remove_range(LONG, 0x308, 8), CS_IN_USE, 0);
    must_be(remove_range(SHORT, 0x700, 8), CS_IN_USE, 0);
    io_granted(3, 1, 0x30A, 6, ALONE, 16);
    io_granted(14, 0, 0x300, 2, ALONE, 16);
    three_shown(by(0x80, 12), by(0x80, 3), none);
    io_released(14, 0, 0x300, 2);
    io_granted(11, 0, 0x300, 8, SHARED, 16);
    three_shown(by(0x81, 11), by(0x80, 3), none);
    io_released(12, 5, 0x306, 4);
    io_released(11, 0, 0x300, 8);
    three_shown(none, by(0x80, 3), none);
    must_be(remove_range(SHORT, 0x308, 8), CS_IN_USE, 0);
    must_be(remove_range(SHORT, 0x300, 8), CS_SUCCESS, GIVEN);
    io_refused(12, 5, 0x306, 4, SHARED, 10, CS_BAD_BASE);
    io_refused(12, 5, 0x704, 4, SHARED, 10, CS_BAD_BASE);
    must_be(add_range(SHORT, 0x300, 8), CS_SUCCESS, GIVEN);
    io_released(3, 1, 0x30A, 6);
    must_be(remove_range(SHORT, 0x308, 8), CS_SUCCESS, GIVEN);
    io_granted(12, 5, 0x704, 4, SHARED, 10);
    must_be(remove_range(SHORT, 0x300, 8), CS_IN_USE, 0);
    must_be(remove_range(SHORT, 0x700, 8), CS_IN_USE, 0);
    must_be(ask_card_out(5), CS_SUCCESS, 0);
    must_be(remove_range(SHORT, 0x300, 8), CS_IN_USE, 0);
    must_be(remove_range(SHORT, 0x700, 8), CS_IN_USE, 0);
    io_released(12, 5, 0x704, 4);
    must_be(remove_range(SHORT, 0x300, 8), CS_SUCCESS, GIVEN);
}

/* Three clients share a range by calls, in every order: the lowest handle is
   shown, and bit 0 as long as all of them share. */
void io_holders_shown(void)
{
    static const uint16_t orders[][3] = {{4, 9, 16}, {4, 16, 9}, {9, 4, 16},
                                         {9, 16, 4}, {16, 4, 9}, {16, 9, 4}};
    for (unsigned i = 0; i < 6; i++) {
        const uint16_t *clients = orders[i];
        lend_ports(0x300, 32);
        for (uint8_t s = 0; s < 3; s++)
            io_granted(clients[s], (uint8_t)(3 * s), 0x308, 8, SHARED, 16);
        walk_shows((struct shown[]){{0x300, 32, 0x81, 4}}, 1);
        io_granted(1, 7, 0x310, 1, ALONE, 16);
        walk_shows((struct shown[]){{0x300, 32, 0x80, 1}}, 1);
        io_released(1, 7, 0x310, 1);
        for (uint8_t s = 0; s < 3; s++)
            if (clients[s] == 4)
                io_released(4, (uint8_t)(3 * s), 0x308, 8);
        walk_shows((struct shown[]){{0x300, 32, 0x81, 9}}, 1);
    }
}

/* ---- Bytes, from docs/LAYOUT.md ---- */

/* The I/O grants of all seats. */
static void io_grants_are(const uint8_t by_hand[SEATS][IO_SIZE])
{
    table_must_have(AT_IO, (const uint8_t *)by_hand, SEATS * IO_SIZE);
}

/* The first and the last client, socket and port; bits 2 and 3 are in no byte. A
   refusal leaves every byte; what is compared with the model says so too. */
void io_bytes(void)
{
    static const uint8_t none[SEATS][IO_SIZE] = {{0}};
    static const uint8_t last[SEATS][IO_SIZE] = {[7] = {0xFF, 0xFF, 0xFF, 0xFF, 1, 12, 1}};
    static const uint8_t both[SEATS][IO_SIZE] = {
        [0] = {1, 0, 1, 0, 255, 16, 0}, [7] = {0xFF, 0xFF, 0xFF, 0xFF, 1, 12, 1}};
    static const uint8_t first[SEATS][IO_SIZE] = {[0] = {1, 0, 1, 0, 255, 16, 0}};
    static const uint8_t head[] = {67, 8, 2, 1, 0xFF, 0xFF, 1, 1, 1, 1, 1, 1, 1, 1};
    static const uint8_t handles[] = {1, 0, 0xFF, 0xFF, 0, 0}, attributes[] = {4, 4, 0},
                         range[] = {0, 0, 0, 0, 1, 0, 0};
    struct model m;
    ready_set(&m, 0, 0);
    m.clients = 2;
    m.issued = m.client[1].handle = 0xFFFF;
    lend_set(&m);
    must_be(add_range(LONG, 0, 65536), CS_SUCCESS, GIVEN);
    io_grants_are(none);
    io_granted(0xFFFF, 7, 0xFFFF, 1, FIRST_SHARED | 12, 12);
    io_grants_are(last);
    io_refused(1, 0, 0x0FFF, 1, ALONE, 16, CS_IN_USE);
    io_refused(1, 0, 0xFF02, 255, ALONE, 16, CS_BAD_BASE);
    io_grants_are(last);
    io_granted(1, 0, 1, 255, ALONE | 12, 16);
    io_grants_are(both);
    table_must_have(AT_LAYOUT, head, sizeof head);
    table_must_have(AT_HANDLES, handles, sizeof handles);
    table_must_have(AT_ATTRIBUTES, attributes, sizeof attributes);
    table_must_have(AT_RANGES, range, sizeof range);
    io_released(0xFFFF, 7, 0xFFFF, 1);
    io_grants_are(first);
    io_released(1, 0, 1, 255);
    io_grants_are(none);
}

/* full_set's ranges 100, 140, 180 and 1C0 of 16 ports are held, their first eight
   ports by two sockets each, which share. Each grant is given back; the last
   client shares the ports instead. */
void io_full_table(void)
{
    struct model m;
    full_set(&m, CS_CLIENTS);
    lend_set(&m);
    for (uint8_t s = 0; s < CS_SOCKETS; s++) {
        uint16_t holder = (uint16_t)(s + 1), base = (uint16_t)(0x100 + 0x40 * (s / 2));
        io_refused(16, s, 0x90F, 8, SHARED, 16, CS_IN_USE);
        io_not_released(16, s, base, 8);
        io_released(holder, s, base, 8);
        io_refused(16, s, base, 9, ALONE, 16, CS_IN_USE);
        io_refused(16, s, 0x10C, 5, SHARED, 16, CS_BAD_BASE);
        io_refused(16, s, 0, 17, SHARED, 16, CS_IN_USE);
        io_chosen(16, s, 16, SHARED, 16, 0x200);
        io_released(16, s, 0x200, 16);
        io_granted(16, s, base, 9, SHARED, 16);
    }
}
