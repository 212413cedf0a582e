#include "check.h"
#include "compare.h"
#include "layout.h"
#include "sets.h"
#include "sockets.h"

/* ---- Events ---- */

/* "bits 12 to 15 BAD_ATTRIBUTE": every mask that is accepted, and of those past
   them one in 255 and each of the bits. A mask that is had is seen in its word,
   and given back. */
void mask_events(void)
{
    lend_ready(0, 0);
    for (uint32_t events = 0; events <= 0xFFFF; events += events < 0x1000 ? 1 : 0x0FF) {
        bool good = events <= 0x0FFF;
        must_be(request_mask(3, 5, (uint16_t)events), good ? CS_SUCCESS : CS_BAD_ATTRIBUTE,
                good ? 3 : 0);
        mask_bytes(2, 5, (uint16_t)(good ? events + 1 : 0));
        must_be(release_mask(3, 5), good ? CS_SUCCESS : CS_BAD_SOCKET, good ? 3 : 0);
        mask_bytes(2, 5, 0);
    }
    for (unsigned bit = 12; bit < 16; bit++) {
        must_be(request_mask(3, 5, (uint16_t)(1u << bit)), CS_BAD_ATTRIBUTE, 0);
        must_be(request_mask(3, 5, (uint16_t)(1u << bit | 0x0FFF)), CS_BAD_ATTRIBUTE, 0);
    }
    must_be(request_mask(3, 5, 0xFFFF), CS_BAD_ATTRIBUTE, 0);
}

/* A mask of no event is a mask all the same. */
void mask_of_no_event(void)
{
    lend_ready(0, 0);
    must_be(release_mask(16, 7), CS_BAD_SOCKET, 0);
    must_be(request_mask(16, 7, 0), CS_SUCCESS, 16);
    mask_bytes(15, 7, 1);
    must_be(request_mask(16, 7, 0), CS_IN_USE, 0);
    must_be(request_mask(16, 7, 1), CS_IN_USE, 0);
    must_be(request_mask(16, 7, 0x1000), CS_BAD_ATTRIBUTE, 0);
    must_be(deregister(16), CS_IN_USE, 0);
    must_be(release_mask(16, 7), CS_SUCCESS, 16);
    mask_bytes(15, 7, 0);
    must_be(release_mask(16, 7), CS_BAD_SOCKET, 0);
    must_be(deregister(16), CS_SUCCESS, 16);
    must_be(request_mask(16, 7, 0), CS_BAD_HANDLE, 0);
}

/* ---- Clients and sockets ---- */

static uint16_t some_events(uint16_t client, unsigned socket)
{
    return (uint16_t)(0x0800 | client << 4 | socket);
}

/* "a second one for the same client and socket IN_USE": each pair has its own,
   also when all the others are there. */
static void every_pair(void)
{
    for (uint16_t client = 1; client <= CS_CLIENTS; client++)
        for (uint8_t socket = 0; socket < CS_SOCKETS; socket++) {
            must_be(release_mask(client, socket), CS_BAD_SOCKET, 0);
            must_be(request_mask(client, socket, some_events(client, socket)), CS_SUCCESS, client);
            must_be(request_mask(client, socket, 0), CS_IN_USE, 0);
        }
    for (uint16_t client = 1; client <= CS_CLIENTS; client++)
        for (uint8_t socket = 0; socket < CS_SOCKETS; socket++)
            mask_bytes(client - 1u, socket, (uint16_t)(some_events(client, socket) + 1));
}

/* The last one that a client gives back lets it leave; 5 and 128 have no common
   factor. */
static void every_pair_given_back(void)
{
    unsigned left[CS_CLIENTS];
    for (unsigned i = 0; i < CS_CLIENTS; i++)
        left[i] = CS_SOCKETS;
    for (unsigned i = 0; i < CS_CLIENTS * CS_SOCKETS; i++) {
        unsigned pair = 5 * i % (CS_CLIENTS * CS_SOCKETS);
        uint16_t client = (uint16_t)(1 + pair / CS_SOCKETS);
        uint8_t socket = (uint8_t)(pair % CS_SOCKETS);
        must_be(deregister(client), CS_IN_USE, 0);
        must_be(release_mask(client, socket), CS_SUCCESS, client);
        must_be(release_mask(client, socket), CS_BAD_SOCKET, 0);
        if (--left[client - 1] == 0)
            must_be(deregister(client), CS_SUCCESS, client);
    }
    must_hold("all have left", lent_facts()->clients == 0);
}

void masks_of_all(void)
{
    lend_ready(0, 0);
    every_pair();
    every_pair_given_back();
}

/* One client on all sockets, and all clients on one: nobody else has a mask. */
void masks_of_one(void)
{
    static const uint16_t ends[] = {1, 16};
    for (unsigned e = 0; e < 2; e++) {
        uint16_t one = ends[e], other = ends[1 - e];
        lend_ready(0, 0);
        for (uint8_t socket = 0; socket < CS_SOCKETS; socket++) {
            must_be(request_mask(one, socket, 0x0FFF), CS_SUCCESS, one);
            must_be(release_mask(other, socket), CS_BAD_SOCKET, 0);
        }
        must_be(deregister(one), CS_IN_USE, 0);
        must_be(deregister(other), CS_SUCCESS, other);
        for (uint8_t socket = 0; socket < CS_SOCKETS; socket++)
            must_be(release_mask(one, socket), CS_SUCCESS, one);
        must_be(deregister(one), CS_SUCCESS, one);
    }
    for (uint8_t socket = 0; socket < CS_SOCKETS; socket++) {
        lend_ready(0, 0);
        for (uint16_t client = 1; client <= CS_CLIENTS; client++) {
            must_be(request_mask(client, socket, client), CS_SUCCESS, client);
            must_be(release_mask(client, socket ^ 1), CS_BAD_SOCKET, 0);
        }
        must_be(release_mask(9, socket), CS_SUCCESS, 9);
        must_be(request_mask(9, socket, 0), CS_SUCCESS, 9);
        must_be(request_mask(8, socket, 0), CS_IN_USE, 0);
        must_be(request_mask(10, socket, 0), CS_IN_USE, 0);
    }
}

/* ---- Masks beside what else there is ---- */

/* Of clients 1 to 3 those that are left, in their places: handles, attributes and
   events, up to a place that nobody has. */
static void clients_are(const uint8_t *left, unsigned many)
{
    static const uint8_t attributes[] = {0, 0x01, 0x1A, 0x04};
    uint8_t handles[8] = {0}, of_clients[4] = {0}, events[8] = {0};
    for (unsigned i = 0; i < many; i++) {
        handles[2 * i] = left[i];
        of_clients[i] = attributes[left[i]];
        events[2 * i] = (uint8_t)(0x11 * left[i]);
        events[2 * i + 1] = left[i];
    }
    table_must_have(AT_HANDLES, handles, sizeof handles);
    table_must_have(AT_ATTRIBUTES, of_clients, sizeof of_clients);
    table_must_have(AT_EVENTS, events, sizeof events);
}

static void masks_are(unsigned place, const uint8_t by_hand[MASKS_SIZE])
{
    table_must_have(AT_MASKS + (size_t)MASKS_SIZE * place, by_hand, MASKS_SIZE);
}

/* A client goes to the place before when one before it leaves: all that it has, its
   masks too, goes with it. */
void masks_move(void)
{
    static const uint8_t packets[][CS_REGISTER_CLIENT_LENGTH] = {
        {0x01, 0, 0x11, 0x01}, {0x1A, 0, 0x22, 0x02}, {0x04, 0, 0x33, 0x03}};
    static const uint8_t first[MASKS_SIZE] = {[2] = 0xAB, [3] = 0x0A}, none[MASKS_SIZE] = {0};
    static const uint8_t third[MASKS_SIZE] = {[2] = 0x56, [3] = 0x05, [14] = 0x00, [15] = 0x10};
    lend_fresh(8);
    for (uint16_t client = 1; client <= 3; client++)
        must_be(ask_call(CS_REGISTER_CLIENT, 0, packets[client - 1], sizeof packets[0]), CS_SUCCESS,
                client);
    must_be(ask_card_in(1), CS_SUCCESS, 0);
    must_be(ask_card_in(7), CS_SUCCESS, 0);
    must_be(request_mask(3, 1, 0x0555), CS_SUCCESS, 3);
    must_be(request_mask(3, 7, 0x0FFF), CS_SUCCESS, 3);
    must_be(request_mask(1, 1, 0x0AAA), CS_SUCCESS, 1);
    clients_are((const uint8_t[]){1, 2, 3}, 3);
    masks_are(0, first);
    masks_are(1, none);
    masks_are(2, third);
    must_be(deregister(2), CS_SUCCESS, 2);
    clients_are((const uint8_t[]){1, 3}, 2);
    masks_are(0, first);
    masks_are(1, third);
    masks_are(2, none);
    must_be(release_mask(1, 1), CS_SUCCESS, 1);
    must_be(deregister(1), CS_SUCCESS, 1);
    clients_are((const uint8_t[]){3}, 1);
    masks_are(0, third);
    masks_are(1, none);
    must_be(request_mask(3, 1, 0), CS_IN_USE, 0);
    must_be(release_mask(3, 1), CS_SUCCESS, 3);
    must_be(release_mask(3, 7), CS_SUCCESS, 3);
    mask_bytes(0, 1, 0);
    mask_bytes(0, 7, 0);
}

/* On a full table each mask is there already; given back, it can be had again,
   and the grants stay. */
void masks_of_a_full_table(void)
{
    struct model m;
    full_set(&m, CS_CLIENTS);
    lend_set(&m);
    for (uint16_t client = 1; client <= CS_CLIENTS; client++)
        for (uint8_t socket = 0; socket < CS_SOCKETS; socket++) {
            must_be(request_mask(client, socket, 0), CS_IN_USE, 0);
            mask_bytes(client - 1u, socket, (uint16_t)(0x0081 + socket));
            must_be(release_mask(client, socket), CS_SUCCESS, client);
            must_be(request_mask(client, socket, 0x0FFF), CS_SUCCESS, client);
            mask_bytes(client - 1u, socket, 0x1000);
        }
    must_be(ask_sharers(0), CS_SUCCESS, 2);
}

/* Masks and IRQ grants are held apart: neither is released with the other. */
void masks_beside_grants(void)
{
    lend_ready(1u << 4, 0);
    irq_granted(2, 3, 0, 0x24, 0, 4);
    must_be(release_mask(2, 3), CS_BAD_SOCKET, 0);
    must_be(request_mask(2, 3, 0x0010), CS_SUCCESS, 2);
    must_be(release_irq(2, 3, 0, 4), CS_SUCCESS, 2);
    mask_bytes(1, 3, 0x0011);
    must_be(deregister(2), CS_IN_USE, 0);
    irq_granted(2, 3, 0, 0x24, 0, 4);
    must_be(release_mask(2, 3), CS_SUCCESS, 2);
    irq_grant_bytes(3, 2, 4, EXCLUSIVE);
    must_be(deregister(2), CS_IN_USE, 0);
    must_be(release_irq(2, 3, 0, 4), CS_SUCCESS, 2);
    must_be(deregister(2), CS_SUCCESS, 2);
}
