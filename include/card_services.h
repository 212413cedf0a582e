/*
 * card_services.h: the Card Services table keeper, for C and C++
 *
 * The keeper answers Card Services requests (PC Card Standard 7.0, volume 5,
 * DOS real mode binding). It works on one table of CS_TABLE_SIZE bytes that
 * the caller lends it. All that the keeper knows is in that table: it has no
 * state of its own and allocates nothing. Numbers such as 5.37 are sections
 * of the volume, numbers such as 10H are its services.
 *
 * Calling
 * -------
 *  - Every entry but cs_fresh first checks the whole table. A table that is
 *    not well formed is refused with CS_GENERAL_FAILURE.
 *  - Checks run in the order in which they are listed here. The first check
 *    that applies gives the code.
 *  - A refused call (any code but CS_SUCCESS) changes nothing, not one byte of
 *    the table or the packet. The handle or count that it answers is 0. Only a
 *    boot list leaves something: the records before the refused one stay
 *    added, and the place of the refused one is answered.
 *  - Each pointer is followed by the size of its buffer. All bytes of the
 *    buffer must be readable, and writable if the pointer is not const. No
 *    alignment is needed. Table, packet and boot list must not overlap. If the
 *    size is 0, the pointer may be any pointer.
 *  - Two calls on one table must not run at the same time. An interrupt
 *    handler must not call while another call on that table runs. Calls on
 *    different tables may run at the same time.
 *  - Numbers in table, packet and boot list are little-endian on every
 *    machine.
 *  - The number of sockets, a socket and a level are 32 bits wide, and any
 *    value may be passed: 257 sockets are refused and do not become 1. A
 *    service and a handle have 16 bits in the volume. If you pass a wider
 *    number, C keeps its low 16 bits before the keeper sees it.
 *
 * The table
 * ---------
 * A table is well formed if cs_fresh made it and only the keeper changed it
 * since. You may copy it, save it and load it again: the copy is as good.
 * (A table saved by an older keeper, which had the earlier layout, is refused
 * with CS_GENERAL_FAILURE.) In full, a table is refused if its length is not
 * CS_TABLE_SIZE or if one of these does not hold:
 *  - it has 1 to CS_SOCKETS sockets, and no card, grant or mask at any other;
 *  - at most CS_CLIENTS clients are live; their handles differ, are not 0 and
 *    are not over the number issued;
 *  - a client's attributes and event mask are ones that RegisterClient
 *    accepts, and its socket masks have none of the bits 12 to 15;
 *  - an IRQ level that is reserved is managed;
 *  - at most CS_RANGES I/O ranges are managed; each has a port, none passes
 *    port FFFF, and no two overlap;
 *  - the client of a grant is live; the level of an IRQ grant is managed; each
 *    port at which the card of an I/O grant answers (see RequestIO) is managed;
 *  - an I/O grant has base 1 or more, 1 to 16 decoded lines, and 1 to 255
 *    ports but not over two to the lines; none of them is past port FFFF;
 *  - if a port of one I/O grant equals a port of another one in the lines that
 *    both decode, both grants share; two IRQ grants on one level have the same
 *    manner, and it is not the exclusive one;
 *  - every byte is the one that docs/LAYOUT.md has for all this: the first is
 *    67, clients and ranges are in order, each mark of yes or no is 0 or 1, and
 *    bytes that say nothing are 0.
 *
 * These rules are no checksum: a damaged byte can turn a valid table into
 * another valid table.
 *
 * CS_GENERAL_FAILURE means that you cannot trust the table. (From cs_fresh it
 * only means that the length or the number of sockets is wrong.) Nothing was
 * changed, and every further call but cs_fresh is refused, too. Then load a
 * saved table, or make a fresh one and load its boot list; and tell the keeper
 * which cards are in.
 * Every handle of the lost table is then void. A fresh table issues 1, 2, 3
 * and on anew. A saved table has the clients that were live when it was saved,
 * and issues again the handles that were issued since.
 * cs_sharers(table, len, 0) changes nothing, and answers CS_GENERAL_FAILURE
 * exactly if the table is not well formed.
 *
 * Linking
 * -------
 * `sh tests/demo.sh` writes target/staticlib/libkeeper.a, for x86-64 with
 * the System V calling convention:
 *
 *   gcc -Iinclude firmware.c target/staticlib/libkeeper.a
 *
 * It is freestanding: no start-up code, no heap, no state, no thread-local
 * storage. It calls memset, which the program has to have. Compilers ask every
 * freestanding program for memcpy, memmove, memset and memcmp; the keeper
 * needs nothing beside those four. It uses SSE2, which has to be on. It also
 * uses the 128 bytes below the stack pointer that System V leaves to it (the
 * red zone). So an interrupt during a call has to keep the SSE registers and
 * needs a stack of its own.
 *
 * A call takes less than CS_STACK bytes of stack. This counts its return
 * address and the red zone. bench/run.sh measures it, on tables from fresh to
 * full: it is a measurement and no proof.
 *
 * What it leaves out
 * ------------------
 *  - Callbacks. Nobody is called when an event happens. The keeper checks and
 *    keeps event masks, and does nothing else with them.
 *  - Windows, DMA, tuples, memory services, the Pointer argument and CardBus.
 *    cs_call answers CS_UNSUPPORTED_SERVICE for every service that is not
 *    listed below.
 *
 * Example
 * -------
 *   #include "card_services.h"
 *
 *   static uint8_t table[CS_TABLE_SIZE];
 *
 *   static const uint8_t boot_list[2 * CS_BOOT_RECORD] = {
 *       CS_RESOURCE_IRQ, 0, 5, 0, 0, 0, 0, 0, 0, 0,
 *       CS_RESOURCE_IO, CS_RESERVE, 0x00, 0x03, 0, 0, 16, 0, 0, 0
 *   };
 *
 *   int main(void)
 *   {
 *       uint8_t packet[CS_REGISTER_CLIENT_LENGTH] = {0};
 *       uint8_t irq[CS_REQUEST_IRQ_LENGTH] = {0};
 *       uint8_t io[CS_REQUEST_IO_LENGTH] = {0};
 *       uint16_t events = CS_EVENT_CARD_DETECT_CHANGE | CS_EVENT_RESET;
 *       uint64_t booted;
 *       uint32_t answer;
 *       uint16_t client;
 *
 *       if (cs_fresh(table, sizeof table, 2) != CS_SUCCESS)
 *           return 1;
 *       booted = cs_boot(table, sizeof table, boot_list, sizeof boot_list);
 *       if (CS_BOOT_CODE(booted) != CS_SUCCESS)
 *           return 1;
 *       if (cs_card_in(table, sizeof table, 0) != CS_SUCCESS)
 *           return 1;
 *
 *       packet[0] = CS_IO_CLIENT;
 *       packet[2] = (uint8_t)events;
 *       packet[3] = (uint8_t)(events >> 8);
 *       answer = cs_call(table, sizeof table, CS_REGISTER_CLIENT, 0,
 *                        packet, sizeof packet);
 *       if (CS_CODE(answer) != CS_SUCCESS)
 *           return 1;
 *       client = CS_HANDLE(answer);
 *
 *       irq[2] = CS_IRQ_DYNAMIC;
 *       irq[5] = CS_IRQ_INFO_SHARE | CS_IRQ_INFO_LEVEL | 5;
 *       answer = cs_call(table, sizeof table, CS_REQUEST_IRQ, client,
 *                        irq, sizeof irq);
 *       if (CS_CODE(answer) != CS_SUCCESS || irq[4] != 5)
 *           return 1;
 *       answer = cs_call(table, sizeof table, CS_RELEASE_IRQ, client,
 *                        irq, CS_RELEASE_IRQ_LENGTH);
 *       if (CS_CODE(answer) != CS_SUCCESS)
 *           return 1;
 *
 *       io[4] = 8;
 *       io[10] = CS_LINES;
 *       answer = cs_call(table, sizeof table, CS_REQUEST_IO, client,
 *                        io, sizeof io);
 *       if (CS_CODE(answer) != CS_SUCCESS || io[2] != 0x00 || io[3] != 0x03)
 *           return 1;
 *       answer = cs_call(table, sizeof table, CS_RELEASE_IO, client,
 *                        io, CS_RELEASE_IO_LENGTH);
 *       if (CS_CODE(answer) != CS_SUCCESS)
 *           return 1;
 *
 *       answer = cs_call(table, sizeof table, CS_DEREGISTER_CLIENT, client,
 *                        NULL, CS_DEREGISTER_CLIENT_LENGTH);
 *       return CS_CODE(answer) == CS_SUCCESS ? 0 : 1;
 *   }
 */
#ifndef CARD_SERVICES_H
#define CARD_SERVICES_H

#include <stddef.h>
#include <stdint.h>

#ifdef __cplusplus
extern "C" {
#endif

/* The length of a table, in bytes. */
#define CS_TABLE_SIZE 8192

/* A table has 1 to CS_SOCKETS sockets, numbered from 0. */
#define CS_SOCKETS 8

/* At most this many clients are live at one time. */
#define CS_CLIENTS 16

/* A table issues the handles 1 to CS_HANDLES, each once in its life. */
#define CS_HANDLES 65535

/* IRQ levels are 0 to CS_LEVELS - 1. */
#define CS_LEVELS 16

/* I/O ports are 0 to CS_PORTS - 1. CS_LINES address lines tell them apart. */
#define CS_PORTS 65536
#define CS_LINES 16

/* At most this many I/O ranges are managed at one time. */
#define CS_RANGES 32

/* A call takes less than this many bytes of stack: see Linking, above. */
#define CS_STACK 1000

/* ---- Codes: the numbers of the volume's chapter 8 ---- */

/* Done. */
#define CS_SUCCESS 0x00

/* Reserved or contradictory bits. */
#define CS_BAD_ATTRIBUTE 0x02

/* Ports past FFFF, unmanaged, or not the held ones. A card may answer at more
   ports than it is granted, its aliases: see RequestIO. */
#define CS_BAD_BASE 0x03

/* No fitting level, or not that one. */
#define CS_BAD_IRQ 0x06

/* Port count. */
#define CS_BAD_SIZE 0x0A

/* Socket not below the count, function not 0, or no mask held. */
#define CS_BAD_SOCKET 0x0B

/* Empty socket. */
#define CS_NO_CARD 0x14

/* Service or resource type not built. */
#define CS_UNSUPPORTED_SERVICE 0x15

/* Table not well formed. For what to do then see The table, above. */
#define CS_GENERAL_FAILURE 0x19

/* Packet length, or a broken boot record. */
#define CS_BAD_ARG_LENGTH 0x1B

/* Field value outside its list. */
#define CS_BAD_ARGS 0x1C

/* Held or already managed; or a card answers there (AdjustResourceInfo), or
   there are no ports to choose (RequestIO with BasePort1 0). */
#define CS_IN_USE 0x1E

/* List at its end. */
#define CS_NO_MORE_ITEMS 0x1F

/* No room. */
#define CS_OUT_OF_RESOURCE 0x20

/* Not a live client. */
#define CS_BAD_HANDLE 0x21

/* ---- Packed answers: code + 65536 * handle, or code + 65536 * count ---- */

#define CS_CODE(answer) ((uint32_t)(answer) & 0xFFFF)
#define CS_HANDLE(answer) ((uint16_t)((uint32_t)(answer) >> 16))
#define CS_COUNT(answer) ((uint16_t)((uint32_t)(answer) >> 16))

/* ---- The answer of cs_boot, 64 bits: code + 2^32 * place ---- */

#define CS_BOOT_CODE(answer) ((uint32_t)(answer))
#define CS_BOOT_PLACE(answer) ((uint32_t)((uint64_t)(answer) >> 32))

/* ---- Events: the bits of an event mask, by their names in 5.37 ---- */

#define CS_EVENT_WRITE_PROTECT_CHANGE 0x0001
#define CS_EVENT_CARD_LOCK_CHANGE 0x0002
#define CS_EVENT_EJECTION_REQUEST 0x0004
#define CS_EVENT_INSERTION_REQUEST 0x0008
#define CS_EVENT_BATTERY_DEAD 0x0010
#define CS_EVENT_BATTERY_LOW 0x0020
#define CS_EVENT_READY_CHANGE 0x0040
#define CS_EVENT_CARD_DETECT_CHANGE 0x0080
#define CS_EVENT_POWER_MANAGEMENT_CHANGE 0x0100
#define CS_EVENT_RESET 0x0200
#define CS_EVENT_SOCKET_SERVICES_UPDATED 0x0400
#define CS_EVENT_EXTENDED_STATUS_CHANGE 0x0800

/* ---- The table ---- */

/*
 * cs_fresh: makes a fresh table in the lent bytes
 *
 * sockets: the number of sockets, 1 to CS_SOCKETS
 *
 * Checks:
 *  1. len is not CS_TABLE_SIZE, or sockets is not 1 to CS_SOCKETS:
 *     CS_GENERAL_FAILURE
 *
 * The old bytes do not matter. Writes every byte: nothing is managed, no card
 * is in, and no handle is issued.
 *
 * Answers the code.
 */
uint32_t cs_fresh(uint8_t *table, size_t len, uint32_t sockets);

/*
 * cs_card_in, cs_card_out: say that a card is now in a socket, or that none is
 *
 * Checks:
 *  1. table not well formed: CS_GENERAL_FAILURE
 *  2. socket not below the table's count: CS_BAD_SOCKET
 *
 * Writes whether a card is in that socket. It succeeds even if that changes
 * nothing. cs_card_out takes no grant and no mask away.
 *
 * Answers the code.
 */
uint32_t cs_card_in(uint8_t *table, size_t len, uint32_t socket);
uint32_t cs_card_out(uint8_t *table, size_t len, uint32_t socket);

/*
 * cs_sharers: asks for the number of sharers of an IRQ level
 *
 * Checks:
 *  1. table not well formed: CS_GENERAL_FAILURE
 *  2. level not below CS_LEVELS: CS_BAD_IRQ
 *
 * Writes nothing.
 *
 * Answers the code and the number of live IRQ grants of the level, never over
 * CS_SOCKETS: CS_CODE(answer) and CS_COUNT(answer). For a level that is not
 * managed the number is 0.
 */
uint32_t cs_sharers(const uint8_t *table, size_t len, uint32_t level);

/*
 * cs_boot: loads a boot list: adds resource records in order
 *
 * records: the records, one after the other, records_len bytes in all
 *
 * Record, CS_BOOT_RECORD bytes:
 *   0  resource, 1 byte: CS_RESOURCE_IO or CS_RESOURCE_IRQ
 *   1  attributes, 1 byte: CS_RESERVE or 0
 *   2  base or level, 4 bytes
 *   6  ports, 4 bytes; ignored in an IRQ record
 *
 * Checks:
 *  1. table not well formed: CS_GENERAL_FAILURE, place 0
 *  2. for each record in turn, from place 0 on: the checks 5 and 7 to 11 that
 *     AdjustResourceInfo (below) makes for an Add with these values and 16
 *     lines
 *  3. bytes are left at the end, too few for a record: CS_BAD_ARG_LENGTH
 *
 * Stops at the first refused record. That record and those after it add
 * nothing; those before it stay added. The list's own bytes are not changed.
 *
 * Answers the code and a place: CS_BOOT_CODE(answer) and
 * CS_BOOT_PLACE(answer). With CS_SUCCESS the place is the number of records.
 * With any other code it is the place of the refused record, counted from 0:
 * so many records were added. The place is never over CS_BOOT_MOST, since no
 * more can be added than all levels and CS_RANGES ranges.
 */
#define CS_BOOT_RECORD 10
#define CS_BOOT_MOST (CS_LEVELS + CS_RANGES)

uint64_t cs_boot(uint8_t *table, size_t len, const uint8_t *records,
                 size_t records_len);

/* ---- Services ---- */

/*
 * cs_call: makes a Card Services request
 *
 * service: one of the numbers below
 * handle:  the Handle argument: the client's handle, if the service looks at it
 * packet:  the argument packet; packet_len is ArgLength
 *
 * Checks:
 *  1. table not well formed: CS_GENERAL_FAILURE
 *  2. service is not one of the numbers below: CS_UNSUPPORTED_SERVICE
 *  3. those listed at the service
 *
 * Answers the code and a handle: CS_CODE(answer) and CS_HANDLE(answer). After
 * CS_SUCCESS the handle is the one given, unless the service says otherwise.
 */
uint32_t cs_call(uint8_t *table, size_t len, uint16_t service, uint16_t handle,
                 uint8_t *packet, size_t packet_len);

/*
 * RegisterClient (5.37): registers a new client
 *
 * Packet, 14 bytes:
 *   0  attributes, 2 bytes
 *        bit 0  CS_MEMORY_CLIENT             exactly one of these three
 *        bit 1  CS_MEMORY_TECHNOLOGY_DRIVER
 *        bit 2  CS_IO_CLIENT
 *        bit 3  CS_INSERTION_SHARABLE        none, one or both of these
 *        bit 4  CS_INSERTION_EXCLUSIVE
 *        bits 5 to 15 reserved
 *   2  event mask, 2 bytes
 *        bits 0 to 11  any of CS_EVENT_...
 *        bits 12 to 15 reserved
 *   4  the rest is ignored
 *
 * The given handle is not looked at. Checks:
 *  3. packet_len is not CS_REGISTER_CLIENT_LENGTH: CS_BAD_ARG_LENGTH
 *  4. no client type, more than one, a reserved attribute bit, or a reserved
 *     event mask bit: CS_BAD_ATTRIBUTE
 *  5. CS_CLIENTS are live, or CS_HANDLES were issued: CS_OUT_OF_RESOURCE
 *
 * Writes the client (handle, attributes, event mask) and the number of handles
 * issued. The packet is not changed. Answers the new handle: 1, 2, 3 and on.
 */
#define CS_REGISTER_CLIENT 0x10
#define CS_REGISTER_CLIENT_LENGTH 14

#define CS_MEMORY_CLIENT 0x01
#define CS_MEMORY_TECHNOLOGY_DRIVER 0x02
#define CS_IO_CLIENT 0x04
#define CS_INSERTION_SHARABLE 0x08
#define CS_INSERTION_EXCLUSIVE 0x10

/*
 * DeregisterClient (5.8): ends a client
 *
 * The packet is empty. Checks:
 *  3. packet_len is not 0: CS_BAD_ARG_LENGTH
 *  4. handle is not a live client's: CS_BAD_HANDLE
 *  5. the client holds an I/O grant, an IRQ grant or a socket mask: CS_IN_USE
 *
 * Removes the client. Its handle is never issued again. Answers the given
 * handle.
 */
#define CS_DEREGISTER_CLIENT 0x02
#define CS_DEREGISTER_CLIENT_LENGTH 0

/*
 * AdjustResourceInfo (5.3): adds, removes and shows what is managed
 *
 * Packet of an IRQ level, 4 bytes:
 *   0  action, 1 byte: CS_ACTION_...
 *   1  resource, 1 byte: CS_RESOURCE_IRQ
 *   2  attributes, 1 byte
 *   3  level, 1 byte
 *
 * Packet of an I/O range, short (7 bytes) or long (12 bytes). packet_len says
 * which.
 *   short  long
 *     0      0   action, 1 byte: CS_ACTION_...
 *     1      1   resource, 1 byte: CS_RESOURCE_IO
 *     2      2   base, 2 bytes; 4 in the long form
 *     4      6   ports, 1 byte; 4 in the long form
 *     5     10   attributes, 1 byte
 *     6     11   lines, 1 byte
 *
 * Attributes:
 *   bit 6  CS_RESERVE, only for Add: what is unreserved is granted first. A
 *          reserved level is granted if none of the unreserved levels named
 *          fits, or if a sharing request joins it (see RequestIRQ). Reserved
 *          ports are granted if BasePort1 names them; for BasePort1 0 they are
 *          chosen only if no candidate is wholly unreserved
 *   bit 7  CS_ALLOCATED, shown: a live grant holds the level, or a port of
 *          the range
 *   bit 0  CS_IO_SHARED, shown for I/O: there are holders and all of them
 *          share (CS_IO_SHARED of their RequestIO)
 *   bits 0 and 1, CS_IRQ_TYPE, shown for IRQ: the holders' type,
 *          CS_IRQ_EXCLUSIVE, CS_IRQ_TIME_MULTIPLEXED or CS_IRQ_DYNAMIC; or 0
 *
 * The given handle is not looked at. Checks:
 *  3. packet_len is under 2: CS_BAD_ARG_LENGTH
 *  4. action is over 3: CS_BAD_ARGS
 *  5. resource is 0, 3 or 4: CS_UNSUPPORTED_SERVICE; over 4: CS_BAD_ARGS
 *  6. packet_len is not CS_ADJUST_IRQ_LENGTH (IRQ), or neither
 *     CS_ADJUST_IO_SHORT_LENGTH nor CS_ADJUST_IO_LONG_LENGTH (I/O):
 *     CS_BAD_ARG_LENGTH
 *
 * Add and Remove:
 *  7. an attribute bit other than CS_RESERVE (Add), any attribute bit
 *     (Remove), or, for I/O, lines that are not CS_LINES: CS_BAD_ATTRIBUTE
 *
 * then, for an IRQ level:
 *  8. level not below CS_LEVELS: CS_BAD_IRQ
 *  9. it is managed (Add): CS_IN_USE; it is not managed (Remove): CS_BAD_IRQ
 * 10. a live grant holds it (Remove): CS_IN_USE
 *
 * then, for an I/O range:
 *  8. ports is 0 or over CS_PORTS: CS_BAD_SIZE
 *  9. one of the ports is past FFFF: CS_BAD_BASE
 * 10. one of them is managed (Add): CS_IN_USE; no managed range has just that
 *     base and number of ports (Remove): CS_BAD_BASE
 * 11. CS_RANGES ranges are managed (Add): CS_OUT_OF_RESOURCE; the card of a
 *     live grant answers at a port of the range (Remove; see RequestIO):
 *     CS_IN_USE
 *
 * Add writes the level or the range, managed, and reserved or not. Remove
 * removes it. The packet is not changed. Adjacent ranges are not merged:
 * Remove names a range as it was added. Answers the given handle.
 *
 * First and Next:
 *  7. nothing of the resource is managed (First), or nothing with a base or
 *     level above the packet's (Next): CS_NO_MORE_ITEMS
 *  8. the packet is short and the range has more than 255 ports: CS_BAD_SIZE
 *
 * First shows the lowest base or level, Next the lowest above the packet's.
 * The packet's other fields are ignored. Writes base and ports, or level; the
 * attributes; and for I/O 16 as the lines. Attribute bits that are not listed
 * as shown are 0, CS_RESERVE among them. The table is not changed. Answers the
 * lowest of the holders' handles, or 0 if there is no holder. The holders of a
 * range are the clients of the grants that have a port of it. A grant whose
 * card has only aliases in the range is not shown, and Remove is refused all
 * the same.
 */
#define CS_ADJUST_RESOURCE_INFO 0x35
#define CS_ADJUST_IRQ_LENGTH 4
#define CS_ADJUST_IO_SHORT_LENGTH 7
#define CS_ADJUST_IO_LONG_LENGTH 12

#define CS_ACTION_REMOVE 0
#define CS_ACTION_ADD 1
#define CS_ACTION_FIRST 2
#define CS_ACTION_NEXT 3

#define CS_RESOURCE_IO 1
#define CS_RESOURCE_IRQ 2

#define CS_RESERVE 0x40
#define CS_ALLOCATED 0x80
#define CS_IO_SHARED 0x01
#define CS_IRQ_TYPE 0x03

#define CS_IRQ_EXCLUSIVE 0
#define CS_IRQ_TIME_MULTIPLEXED 1
#define CS_IRQ_DYNAMIC 2

/*
 * RequestIRQ (5.53): asks for a socket's IRQ grant, one level in one manner
 *
 * Packet, 8 bytes:
 *   0  socket, 1 byte
 *   1  function, 1 byte: 0
 *   2  attributes, 2 bytes
 *        bits 0 and 1, CS_IRQ_TYPE: CS_IRQ_EXCLUSIVE, CS_IRQ_TIME_MULTIPLEXED
 *               or CS_IRQ_DYNAMIC; 3 is reserved
 *        bit 2  CS_IRQ_FORCE_PULSE      dynamic sharing by pulse, even if
 *                                       the card has Level
 *        bit 3  CS_IRQ_FIRST_SHARED     take a level that has no grant yet
 *        bit 8  CS_IRQ_PULSE_ALLOCATED  only written; a request that sets it
 *                                       is refused, as for a reserved bit
 *        bits 4 to 7 and 9 to 15 reserved, ISRAddressProvided (bit 4), too:
 *        there is no Pointer argument
 *   4  AssignedIRQ, 1 byte: only written, not looked at
 *   5  IRQInfo1, 1 byte: what the card can do, and which levels are named
 *        bits 0 to 3  CS_IRQ_INFO_LEVEL_NUMBER  the level, if Mask is clear
 *        bit 4        CS_IRQ_INFO_MASK          Mask: IRQInfo2 names levels
 *        bit 5        CS_IRQ_INFO_LEVEL         Level
 *        bit 6        CS_IRQ_INFO_PULSE         Pulse
 *        bit 7        CS_IRQ_INFO_SHARE         Share
 *   6  IRQInfo2, 2 bytes: bit n names level n; ignored if Mask is clear
 *
 * A grant's manner is exclusive, time-multiplexed, dynamic level or dynamic
 * pulse. Dynamic sharing is dynamic pulse if CS_IRQ_FORCE_PULSE is set or the
 * card lacks Level, else dynamic level; CS_IRQ_FORCE_PULSE has no effect on
 * the two other types.
 *
 * A level fits if it is named and managed, and either has no grant or, without
 * CS_IRQ_FIRST_SHARED, all of its grants have this same manner and that is not
 * the exclusive one. Checks:
 *  3. packet_len is not CS_REQUEST_IRQ_LENGTH: CS_BAD_ARG_LENGTH
 *  4. handle is not a live client's: CS_BAD_HANDLE
 *  5. socket not below the table's count, or function not 0: CS_BAD_SOCKET
 *  6. no card in the socket: CS_NO_CARD
 *  7. type 3, a reserved attribute bit, CS_IRQ_FIRST_SHARED with
 *     CS_IRQ_EXCLUSIVE, CS_IRQ_FORCE_PULSE without Pulse, or CS_IRQ_DYNAMIC
 *     without Share: CS_BAD_ATTRIBUTE
 *  8. neither Level nor Pulse, or Mask with any of IRQInfo1's bits 0 to 3, or
 *     Mask with an IRQInfo2 of 0: CS_BAD_ARGS
 *  9. the socket has an IRQ grant, whoever holds it: CS_IN_USE
 * 10. no level fits: CS_BAD_IRQ
 *
 * The level granted is one that fits. A request that is not exclusive and
 * without CS_IRQ_FIRST_SHARED joins: it is granted the lowest level named that
 * already has grants of its manner, reserved or not. If there is none, and for
 * every other request, an unreserved level comes before a reserved one, then
 * the lowest. So if they name several levels, links that share take one level
 * together. If a link is to take a level without a grant, ask with
 * CS_IRQ_FIRST_SHARED. If it is to take a certain level, name only that level.
 *
 * Writes the grant (client, level, manner). Writes AssignedIRQ into the packet
 * and, only for dynamic pulse, CS_IRQ_PULSE_ALLOCATED. Answers the given
 * handle. cs_card_out takes no grant away.
 *
 * The first CS_RELEASE_IRQ_LENGTH bytes of the packet that is left are the
 * packet that releases the grant.
 */
#define CS_REQUEST_IRQ 0x20
#define CS_REQUEST_IRQ_LENGTH 8

#define CS_IRQ_FORCE_PULSE 0x0004
#define CS_IRQ_FIRST_SHARED 0x0008
#define CS_IRQ_PULSE_ALLOCATED 0x0100

#define CS_IRQ_INFO_LEVEL_NUMBER 0x0F
#define CS_IRQ_INFO_MASK 0x10
#define CS_IRQ_INFO_LEVEL 0x20
#define CS_IRQ_INFO_PULSE 0x40
#define CS_IRQ_INFO_SHARE 0x80

/*
 * ReleaseIRQ (5.45): gives a socket's IRQ grant back
 *
 * Packet, 5 bytes:
 *   0  socket, 1 byte
 *   1  function, 1 byte: 0
 *   2  attributes, 2 bytes: CS_IRQ_TYPE as it was requested; other bits are
 *      ignored
 *   4  AssignedIRQ, 1 byte: the level granted
 *
 * Needs no card. Checks:
 *  3. packet_len is not CS_RELEASE_IRQ_LENGTH: CS_BAD_ARG_LENGTH
 *  4. handle is not a live client's: CS_BAD_HANDLE
 *  5. socket not below the table's count, or function not 0: CS_BAD_SOCKET
 *  6. this client does not hold this level on this socket: CS_BAD_IRQ
 *  7. the type is not the grant's: CS_BAD_ATTRIBUTE. The type of dynamic level
 *     and of dynamic pulse is CS_IRQ_DYNAMIC
 *
 * Removes the grant. The packet is not changed. Answers the given handle.
 */
#define CS_RELEASE_IRQ 0x1C
#define CS_RELEASE_IRQ_LENGTH 5

/*
 * RequestIO (5.52): asks for a socket's I/O grant, one range of ports
 *
 * Packet, 11 bytes:
 *   0  socket, 1 byte
 *   1  function, 1 byte: 0
 *   2  BasePort1, 2 bytes: the first port; or 0, then the keeper chooses it
 *      and writes it here
 *   4  NumPorts1, 1 byte: the number of ports
 *   5  Attributes1, 1 byte
 *        bit 0  CS_IO_SHARED        the ports may be shared with grants that
 *                                   share them, too
 *        bit 1  CS_IO_FIRST_SHARED  needs CS_IO_SHARED: take ports that meet
 *                                   no grant yet, to share them from now on
 *        bit 2  CS_IO_FORCE_ALIAS   no effect here
 *        bit 3  CS_IO_16_BIT        no effect here
 *        bits 4 to 7 reserved
 *   6  BasePort2, 2 bytes: ignored
 *   8  NumPorts2, 1 byte: 0, since a grant has one range
 *   9  Attributes2, 1 byte: ignored
 *  10  IOAddrLines, 1 byte: how many address lines the card decodes, 1 to
 *      CS_LINES
 *
 * A card that decodes n lines cannot tell ports apart whose numbers are equal
 * in the low n bits: with 10 lines it answers at 2F8, at 6F8, at AF8 and on.
 * So two ranges meet if a port of one equals a port of the other modulo two to
 * the smaller of their line counts: 2F8 at 10 lines meets 6F8 at any number of
 * lines, and with 16 lines each they do not meet.
 *
 * A card answers at each port from 0 to FFFF that equals one of its own ports
 * in the lines that it decodes. Such a port, below or above its own ports, is
 * an alias. All of these ports have to be managed: a card of 10 lines is
 * granted 6F8 only if its aliases 2F8, AF8 and so on up to FEF8 are managed,
 * too. With 16 lines a card has no alias. Add the ports of a card of few lines
 * as large ranges: at most CS_RANGES ranges are managed, and with 10 lines a
 * card answers in 64 places. Checks:
 *  3. packet_len is not CS_REQUEST_IO_LENGTH: CS_BAD_ARG_LENGTH
 *  4. handle is not a live client's: CS_BAD_HANDLE
 *  5. socket not below the table's count, or function not 0: CS_BAD_SOCKET
 *  6. no card in the socket: CS_NO_CARD
 *  7. a reserved attribute bit, CS_IO_FIRST_SHARED without CS_IO_SHARED, or
 *     lines that are 0 or over CS_LINES: CS_BAD_ATTRIBUTE
 *  8. NumPorts1 is 0 or over two to the lines, or NumPorts2 is not 0:
 *     CS_BAD_SIZE
 *  9. the socket has an I/O grant, whoever holds it: CS_IN_USE
 *
 * then, if BasePort1 is not 0:
 * 10. one of the ports is past FFFF, or a port at which the card answers is
 *     not managed: CS_BAD_BASE
 * 11. the ports meet those of a live grant, of this client or another, and
 *     CS_IO_FIRST_SHARED is set or the two do not both share: CS_IN_USE
 *
 * then, if BasePort1 is 0:
 * 10. there is no candidate: CS_IN_USE
 *
 * A candidate is a positive multiple of the smallest power of two not below
 * NumPorts1. None of the NumPorts1 ports from it on is past FFFF; all ports at
 * which the card would answer are managed; and the ports meet no live grant,
 * not even one that shares. So the two sharing bits make no difference to the
 * choice. Candidates whose NumPorts1 ports are all in unreserved ranges come
 * first, then the lowest. Whether their aliases are reserved makes no
 * difference.
 *
 * Writes the grant (client, base, ports, lines, shared or not). Writes
 * BasePort1, and nothing else, into the packet. Answers the given handle.
 * cs_card_out takes no grant away.
 *
 * The packet that is left is the packet that releases the grant.
 */
#define CS_REQUEST_IO 0x1F
#define CS_REQUEST_IO_LENGTH 11

#define CS_IO_FIRST_SHARED 0x02
#define CS_IO_FORCE_ALIAS 0x04
#define CS_IO_16_BIT 0x08

/*
 * ReleaseIO (5.44): gives a socket's I/O grant back
 *
 * Packet, 11 bytes:
 *   0  socket, 1 byte
 *   1  function, 1 byte: 0
 *   2  BasePort1, 2 bytes: the base granted
 *   4  NumPorts1, 1 byte: the number of ports granted
 *   5  Attributes1, 1 byte: ignored
 *   6  BasePort2, 2 bytes: ignored
 *   8  NumPorts2, 1 byte: 0
 *   9  Attributes2, 1 byte: ignored
 *  10  IOAddrLines, 1 byte: ignored
 *
 * Needs no card. Checks:
 *  3. packet_len is not CS_RELEASE_IO_LENGTH: CS_BAD_ARG_LENGTH
 *  4. handle is not a live client's: CS_BAD_HANDLE
 *  5. socket not below the table's count, or function not 0: CS_BAD_SOCKET
 *  6. NumPorts2 is not 0: CS_BAD_SIZE
 *  7. this client does not hold this base and number of ports on this socket:
 *     CS_BAD_BASE
 *
 * Removes the grant. The packet is not changed. Answers the given handle.
 */
#define CS_RELEASE_IO 0x1B
#define CS_RELEASE_IO_LENGTH 11

/*
 * RequestSocketMask (5.54): asks for a client's event mask for one socket
 *
 * Packet, 4 bytes:
 *   0  socket, 1 byte
 *   1  function, 1 byte: 0
 *   2  event mask, 2 bytes
 *        bits 0 to 11  any of CS_EVENT_..., or none: a mask of 0 is a mask,
 *                      too
 *        bits 12 to 15 reserved
 *
 * Checks:
 *  3. packet_len is not CS_REQUEST_SOCKET_MASK_LENGTH: CS_BAD_ARG_LENGTH
 *  4. handle is not a live client's: CS_BAD_HANDLE
 *  5. socket not below the table's count, or function not 0: CS_BAD_SOCKET
 *  6. no card in the socket: CS_NO_CARD
 *  7. a reserved event mask bit: CS_BAD_ATTRIBUTE
 *  8. the client has a mask for this socket: CS_IN_USE
 *
 * Writes the mask. The packet is not changed. Answers the given handle. A
 * client may have one such mask for each socket, beside the event mask that it
 * registered with. cs_card_out takes no mask away.
 */
#define CS_REQUEST_SOCKET_MASK 0x22
#define CS_REQUEST_SOCKET_MASK_LENGTH 4

/*
 * ReleaseSocketMask (5.46): gives a client's event mask for one socket back
 *
 * Packet, 2 bytes:
 *   0  socket, 1 byte
 *   1  function, 1 byte: 0
 *
 * Needs no card. Checks:
 *  3. packet_len is not CS_RELEASE_SOCKET_MASK_LENGTH: CS_BAD_ARG_LENGTH
 *  4. handle is not a live client's: CS_BAD_HANDLE
 *  5. socket not below the table's count, or function not 0: CS_BAD_SOCKET
 *  6. the client has no mask for this socket: CS_BAD_SOCKET
 *
 * Removes the mask. The packet is not changed. Answers the given handle.
 */
#define CS_RELEASE_SOCKET_MASK 0x2F
#define CS_RELEASE_SOCKET_MASK_LENGTH 2

#ifdef __cplusplus
}
#endif

#endif
