#include "sockets.h"

#include "layout.h"

void ready_set(struct model *m, uint16_t managed, uint16_t reserved)
{
    model_fresh(m, CS_SOCKETS);
    m->clients = m->issued = CS_CLIENTS;
    for (unsigned i = 0; i < CS_CLIENTS; i++)
        m->client[i] = (struct client){.handle = (uint16_t)(i + 1), .attributes = CS_IO_CLIENT};
    for (unsigned s = 0; s < CS_SOCKETS; s++)
        m->card[s] = true;
    for (unsigned level = 0; level < CS_LEVELS; level++)
        m->level[level] = (struct level){(managed >> level & 1) != 0, (reserved >> level & 1) != 0};
}

void lend_ready(uint16_t managed, uint16_t reserved)
{
    struct model m;
    ready_set(&m, managed, reserved);
    lend_set(&m);
}

void manage(struct model *m, uint32_t base, uint32_t count, bool reserved)
{
    m->range[m->ranges++] = (struct range){base, count, reserved};
}

void lend_ports(uint32_t base, uint32_t count)
{
    struct model m;
    ready_set(&m, 0, 0);
    manage(&m, base, count, false);
    lend_set(&m);
}

/* ---- IRQ ---- */

static void irq_packet(uint8_t packet[CS_REQUEST_IRQ_LENGTH], uint8_t socket, uint16_t attributes,
                       uint8_t assigned, uint8_t info_1, uint16_t info_2)
{
    packet[0] = socket;
    packet[1] = 0;
    packet[2] = (uint8_t)attributes;
    packet[3] = (uint8_t)(attributes >> 8);
    packet[4] = assigned;
    packet[5] = info_1;
    packet[6] = (uint8_t)info_2;
    packet[7] = (uint8_t)(info_2 >> 8);
}

uint32_t request_irq(uint16_t client, uint8_t socket, uint16_t attributes, uint8_t info_1,
                     uint16_t info_2)
{
    uint8_t packet[CS_REQUEST_IRQ_LENGTH];
    irq_packet(packet, socket, attributes, NOT_ASSIGNED, info_1, info_2);
    return ask_call(CS_REQUEST_IRQ, client, packet, sizeof packet);
}

uint32_t release_irq(uint16_t client, uint8_t socket, uint16_t attributes, uint8_t level)
{
    uint8_t packet[CS_RELEASE_IRQ_LENGTH] = {socket, 0, (uint8_t)attributes,
                                             (uint8_t)(attributes >> 8), level};
    return ask_call(CS_RELEASE_IRQ, client, packet, sizeof packet);
}

static void packet_left(uint8_t socket, uint16_t attributes, uint8_t assigned, uint8_t info_1,
                        uint16_t info_2)
{
    uint8_t by_hand[CS_REQUEST_IRQ_LENGTH];
    irq_packet(by_hand, socket, attributes, assigned, info_1, info_2);
    packet_must_be(by_hand, sizeof by_hand);
}

void irq_granted(uint16_t client, uint8_t socket, uint16_t attributes, uint8_t info_1,
                 uint16_t info_2, uint8_t level)
{
    must_be(request_irq(client, socket, attributes, info_1, info_2), CS_SUCCESS, client);
    packet_left(socket, attributes, level, info_1, info_2);
}

/* "Success writes AssignedIRQ and, for dynamic pulse only, attribute bit 8." */
void pulse_granted(uint16_t client, uint8_t socket, uint16_t attributes, uint8_t info_1,
                   uint16_t info_2, uint8_t level)
{
    must_be(request_irq(client, socket, attributes, info_1, info_2), CS_SUCCESS, client);
    packet_left(socket, attributes | 0x0100, level, info_1, info_2);
}

void irq_refused(uint16_t client, uint8_t socket, uint16_t attributes, uint8_t info_1,
                 uint16_t info_2, uint32_t code)
{
    must_be(request_irq(client, socket, attributes, info_1, info_2), code, 0);
    packet_left(socket, attributes, NOT_ASSIGNED, info_1, info_2);
}

void manner_granted(uint16_t client, uint8_t socket, uint16_t attributes, uint8_t info_1,
                    uint16_t info_2, uint8_t level, uint8_t manner)
{
    if (manner == DYNAMIC_PULSE)
        pulse_granted(client, socket, attributes, info_1, info_2, level);
    else
        irq_granted(client, socket, attributes, info_1, info_2, level);
    irq_grant_bytes(socket, client, level, manner);
}

const struct asked asked[ASKED] = {{EXCLUSIVE, 0, 0xE0},
                                   {TIME_MULTIPLEXED, 1, 0xE0},
                                   {DYNAMIC_LEVEL, 2, 0xE0},
                                   {DYNAMIC_PULSE, 6, 0xE0},
                                   {DYNAMIC_PULSE, 2, 0xC0}};

uint8_t lowest_level(uint16_t levels)
{
    uint8_t level = 0;
    while ((levels >> level & 1) == 0)
        level++;
    return level;
}

uint8_t first_level(uint16_t levels, uint16_t reserved)
{
    uint16_t unreserved = levels & (uint16_t)~reserved;
    return unreserved != 0 ? lowest_level(unreserved)
           : levels != 0   ? lowest_level(levels)
                           : CS_LEVELS;
}

void irq_grant_bytes(unsigned socket, uint16_t client, uint8_t level, uint8_t manner)
{
    uint8_t by_hand[] = {(uint8_t)client, (uint8_t)(client >> 8), level, manner};
    table_must_have(AT_IRQ + IRQ_SIZE * socket, by_hand, sizeof by_hand);
}

void no_irq_grant_bytes(unsigned socket)
{
    irq_grant_bytes(socket, 0, 0, 0);
}

/* ---- I/O ---- */

static void io_ports_packet(uint8_t packet[CS_REQUEST_IO_LENGTH], uint8_t socket, uint16_t base,
                            uint8_t count, uint8_t attributes, uint8_t lines)
{
    packet[0] = socket;
    packet[1] = 0;
    packet[2] = (uint8_t)base;
    packet[3] = (uint8_t)(base >> 8);
    packet[4] = count;
    packet[5] = attributes;
    packet[6] = packet[7] = IGNORED;
    packet[8] = 0;
    packet[9] = IGNORED;
    packet[10] = lines;
}

uint32_t request_io(uint16_t client, uint8_t socket, uint16_t base, uint8_t count,
                    uint8_t attributes, uint8_t lines)
{
    uint8_t packet[CS_REQUEST_IO_LENGTH];
    io_ports_packet(packet, socket, base, count, attributes, lines);
    return ask_call(CS_REQUEST_IO, client, packet, sizeof packet);
}

/* "Its attributes, lines and BasePort2 are ignored." */
uint32_t release_io(uint16_t client, uint8_t socket, uint16_t base, uint8_t count)
{
    uint8_t packet[CS_RELEASE_IO_LENGTH];
    io_ports_packet(packet, socket, base, count, IGNORED, IGNORED);
    return ask_call(CS_RELEASE_IO, client, packet, sizeof packet);
}

static void io_packet_left(uint8_t socket, uint16_t base, uint8_t count, uint8_t attributes,
                           uint8_t lines)
{
    uint8_t by_hand[CS_REQUEST_IO_LENGTH];
    io_ports_packet(by_hand, socket, base, count, attributes, lines);
    packet_must_be(by_hand, sizeof by_hand);
}

void io_granted(uint16_t client, uint8_t socket, uint16_t base, uint8_t count, uint8_t attributes,
                uint8_t lines)
{
    must_be(request_io(client, socket, base, count, attributes, lines), CS_SUCCESS, client);
    io_packet_left(socket, base, count, attributes, lines);
    io_grant_bytes(socket, client, base, count, lines, (attributes & 1) != 0);
}

/* "Success writes BasePort1." */
void io_chosen(uint16_t client, uint8_t socket, uint8_t count, uint8_t attributes, uint8_t lines,
               uint16_t base)
{
    must_be(request_io(client, socket, 0, count, attributes, lines), CS_SUCCESS, client);
    io_packet_left(socket, base, count, attributes, lines);
    io_grant_bytes(socket, client, base, count, lines, (attributes & 1) != 0);
}

void io_refused(uint16_t client, uint8_t socket, uint16_t base, uint8_t count, uint8_t attributes,
                uint8_t lines, uint32_t code)
{
    must_be(request_io(client, socket, base, count, attributes, lines), code, 0);
    io_packet_left(socket, base, count, attributes, lines);
}

void io_released(uint16_t client, uint8_t socket, uint16_t base, uint8_t count)
{
    must_be(release_io(client, socket, base, count), CS_SUCCESS, client);
    io_packet_left(socket, base, count, IGNORED, IGNORED);
    no_io_grant_bytes(socket);
}

void io_not_released(uint16_t client, uint8_t socket, uint16_t base, uint8_t count)
{
    must_be(release_io(client, socket, base, count), CS_BAD_BASE, 0);
    io_packet_left(socket, base, count, IGNORED, IGNORED);
}

void io_grant_bytes(unsigned socket, uint16_t client, uint16_t base, uint8_t count, uint8_t lines,
                    bool shared)
{
    uint8_t by_hand[IO_SIZE] = {
        (uint8_t)client, (uint8_t)(client >> 8), (uint8_t)base, (uint8_t)(base >> 8), count, lines,
        shared};
    table_must_have(AT_IO + IO_SIZE * socket, by_hand, sizeof by_hand);
}

void no_io_grant_bytes(unsigned socket)
{
    io_grant_bytes(socket, 0, 0, 0, 0, false);
}

/* ---- Masks ---- */

uint32_t request_mask(uint16_t client, uint8_t socket, uint16_t events)
{
    uint8_t packet[CS_REQUEST_SOCKET_MASK_LENGTH] = {socket, 0, (uint8_t)events,
                                                     (uint8_t)(events >> 8)};
    return ask_call(CS_REQUEST_SOCKET_MASK, client, packet, sizeof packet);
}

uint32_t release_mask(uint16_t client, uint8_t socket)
{
    uint8_t packet[CS_RELEASE_SOCKET_MASK_LENGTH] = {socket, 0};
    return ask_call(CS_RELEASE_SOCKET_MASK, client, packet, sizeof packet);
}

void mask_bytes(unsigned place, unsigned socket, uint16_t word)
{
    uint8_t by_hand[] = {(uint8_t)word, (uint8_t)(word >> 8)};
    table_must_have(mask_place(place, socket), by_hand, sizeof by_hand);
}
