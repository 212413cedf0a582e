/*
 * demo.c: the keeper's main job, call by call
 *
 * A table of two sockets, the levels and ports that it manages, two cards and
 * clients that come and go; then four lessons: a handle is not a slot, a refusal
 * changes nothing, a card answers at more ports than it is given, ports whose
 * numbers differ can still be the same port.
 */
#include <stdbool.h>
#include <stdio.h>
#include <string.h>

#include "card_services.h"
#include "names.h"

static uint8_t table[CS_TABLE_SIZE];

static void tell_code(const char *call, uint32_t code)
{
    printf("%s: %s\n", call, code_name(code));
}

static void tell_bytes(const uint8_t *bytes, size_t len)
{
    for (size_t i = 0; i < len; i++)
        printf(" %02X", bytes[i]);
}

/* Makes a call, and tells its answer and what became of the packet. Of a refusal
   it is told whether every byte is as before. */
static void call(uint16_t service, uint16_t handle, uint8_t *packet, size_t len)
{
    static uint8_t table_before[CS_TABLE_SIZE], packet_before[CS_REGISTER_CLIENT_LENGTH];
    memcpy(table_before, table, sizeof table);
    memcpy(packet_before, packet, len);
    uint32_t answer = cs_call(table, sizeof table, service, handle, packet, len);
    bool table_kept = memcmp(table_before, table, sizeof table) == 0;
    bool packet_kept = memcmp(packet_before, packet, len) == 0;
    printf(": %s, handle %u\n", code_name(CS_CODE(answer)), (unsigned)CS_HANDLE(answer));
    if (CS_CODE(answer) != CS_SUCCESS)
        printf("  table %s, packet %s\n", table_kept ? "kept" : "changed",
               packet_kept ? "kept" : "changed");
    if (!packet_kept) {
        printf("  packet");
        tell_bytes(packet_before, len);
        printf("\n  became");
        tell_bytes(packet, len);
        printf("\n");
    }
}

/* ---- What is managed ---- */

static const uint8_t boot_list[][CS_BOOT_RECORD] = {
    {CS_RESOURCE_IRQ, 0, 3},                          /* level 3 */
    {CS_RESOURCE_IRQ, CS_RESERVE, 5},                 /* level 5, reserved */
    {CS_RESOURCE_IO, 0, 0x00, 0x03, 0, 0, 16},        /* ports 300 to 30F */
    {CS_RESOURCE_IRQ, 0, 16},                         /* there is no level 16 */
    {CS_RESOURCE_IO, CS_RESERVE, 0xF8, 0x02, 0, 0, 8} /* ports 2F8 to 2FF, reserved */
};

static void load(const char *list, const uint8_t *records, size_t len)
{
    uint64_t answer = cs_boot(table, sizeof table, records, len);
    printf("%s: %s, place %lu\n", list, code_name(CS_BOOT_CODE(answer)),
           (unsigned long)CS_BOOT_PLACE(answer));
}

static uint32_t adjust(uint8_t *packet, size_t len)
{
    return cs_call(table, sizeof table, CS_ADJUST_RESOURCE_INFO, 0, packet, len);
}

static const char *held(uint8_t attributes)
{
    return (attributes & CS_ALLOCATED) != 0 ? "held" : "free";
}

static void show_levels(void)
{
    uint8_t packet[CS_ADJUST_IRQ_LENGTH] = {CS_ACTION_FIRST, CS_RESOURCE_IRQ, 0, 0};
    const char *call = "First level";
    uint32_t answer;
    while (CS_CODE(answer = adjust(packet, sizeof packet)) == CS_SUCCESS) {
        printf("%s: level %u, %s\n", call, packet[3], held(packet[2]));
        packet[0] = CS_ACTION_NEXT;
        call = "Next level";
    }
    tell_code(call, CS_CODE(answer));
}

static void show_ports(void)
{
    uint8_t packet[CS_ADJUST_IO_LONG_LENGTH] = {CS_ACTION_FIRST, CS_RESOURCE_IO};
    const char *call = "First range";
    uint32_t answer;
    while (CS_CODE(answer = adjust(packet, sizeof packet)) == CS_SUCCESS) {
        unsigned base = packet[2] | (unsigned)packet[3] << 8;
        unsigned ports = packet[6] | (unsigned)packet[7] << 8;
        printf("%s: ports %X to %X, %s\n", call, base, base + ports - 1, held(packet[10]));
        packet[0] = CS_ACTION_NEXT;
        call = "Next range";
    }
    tell_code(call, CS_CODE(answer));
}

static uint32_t adjust_ports(uint8_t action, uint16_t base, uint16_t ports)
{
    uint8_t packet[CS_ADJUST_IO_LONG_LENGTH] = {action, CS_RESOURCE_IO, (uint8_t)base,
                                                (uint8_t)(base >> 8)};
    packet[6] = (uint8_t)ports;
    packet[7] = (uint8_t)(ports >> 8);
    packet[11] = CS_LINES;
    return CS_CODE(adjust(packet, sizeof packet));
}

/* The fourth record is refused: those before it stay, the last one is loaded
   by itself. */
static void manage(void)
{
    load("Boot list of 5 records", (const uint8_t *)boot_list, sizeof boot_list);
    show_levels();
    show_ports();
    load("Boot list of the last record", boot_list[4], sizeof boot_list[4]);
    tell_code("Add ports 308 to 317", adjust_ports(CS_ACTION_ADD, 0x308, 16));
    tell_code("Add ports 310 to 317", adjust_ports(CS_ACTION_ADD, 0x310, 8));
    tell_code("Remove ports 308 to 317", adjust_ports(CS_ACTION_REMOVE, 0x308, 16));
    tell_code("Remove ports 300 to 30F", adjust_ports(CS_ACTION_REMOVE, 0x300, 16));
    show_ports();
}

/* ---- The services ---- */

static void register_client(uint8_t attributes)
{
    uint8_t packet[CS_REGISTER_CLIENT_LENGTH] = {attributes, 0, CS_EVENT_CARD_DETECT_CHANGE, 0};
    printf("RegisterClient, attributes %02X", attributes);
    call(CS_REGISTER_CLIENT, 0, packet, sizeof packet);
}

static void deregister_client(uint16_t client)
{
    uint8_t empty[1] = {0};
    printf("DeregisterClient %u", client);
    call(CS_DEREGISTER_CLIENT, client, empty, CS_DEREGISTER_CLIENT_LENGTH);
}

/* For a card that does level interrupts and can share; of levels 0 to 7 those
   whose bits are set will do. */
static void request_irq(uint16_t client, uint8_t socket, uint8_t type, uint8_t levels)
{
    uint8_t packet[CS_REQUEST_IRQ_LENGTH] = {socket, 0, type};
    packet[5] = CS_IRQ_INFO_SHARE | CS_IRQ_INFO_LEVEL | CS_IRQ_INFO_MASK;
    packet[6] = levels;
    printf("RequestIRQ, client %u, socket %u, type %u, levels %02X", client, socket, type, levels);
    call(CS_REQUEST_IRQ, client, packet, sizeof packet);
}

static void release_irq(uint16_t client, uint8_t socket, uint8_t level)
{
    uint8_t packet[CS_RELEASE_IRQ_LENGTH] = {socket, 0, CS_IRQ_DYNAMIC, 0, level};
    printf("ReleaseIRQ, client %u, socket %u, level %u", client, socket, level);
    call(CS_RELEASE_IRQ, client, packet, sizeof packet);
}

/* Eight ports, which are not shared; base 0 asks for any. */
static void request_io(uint16_t client, uint8_t socket, uint16_t base, uint8_t lines)
{
    uint8_t packet[CS_REQUEST_IO_LENGTH] = {socket, 0, (uint8_t)base, (uint8_t)(base >> 8), 8};
    packet[10] = lines;
    printf("RequestIO, client %u, socket %u, base %X, %u lines", client, socket, base, lines);
    call(CS_REQUEST_IO, client, packet, sizeof packet);
}

static void release_io(uint16_t client, uint8_t socket, uint16_t base)
{
    uint8_t packet[CS_RELEASE_IO_LENGTH] = {socket, 0, (uint8_t)base, (uint8_t)(base >> 8), 8};
    printf("ReleaseIO, client %u, socket %u, base %X", client, socket, base);
    call(CS_RELEASE_IO, client, packet, sizeof packet);
}

static void request_mask(uint16_t client, uint8_t socket)
{
    uint8_t packet[CS_REQUEST_SOCKET_MASK_LENGTH] = {socket, 0, CS_EVENT_CARD_DETECT_CHANGE, 0};
    printf("RequestSocketMask, client %u, socket %u", client, socket);
    call(CS_REQUEST_SOCKET_MASK, client, packet, sizeof packet);
}

static void release_mask(uint16_t client, uint8_t socket)
{
    uint8_t packet[CS_RELEASE_SOCKET_MASK_LENGTH] = {socket, 0};
    printf("ReleaseSocketMask, client %u, socket %u", client, socket);
    call(CS_RELEASE_SOCKET_MASK, client, packet, sizeof packet);
}

static void sharers(uint32_t level)
{
    uint32_t answer = cs_sharers(table, sizeof table, level);
    printf("Sharers of level %lu: %s, %u\n", (unsigned long)level, code_name(CS_CODE(answer)),
           (unsigned)CS_COUNT(answer));
}

/* ---- The lessons ---- */

enum { LEVEL_3 = 1 << 3, LEVEL_5 = 1 << 5 };

/* Handle 1 is given back and stale from then on; 2 and 3 stay. */
static void a_handle_is_not_a_slot(void)
{
    puts("\nA handle is not a slot: a number given back is never given again.");
    register_client(CS_IO_CLIENT);
    deregister_client(1);
    register_client(CS_IO_CLIENT);
    register_client(CS_MEMORY_CLIENT);
    deregister_client(1);
    request_irq(1, 0, CS_IRQ_DYNAMIC, LEVEL_3 | LEVEL_5);
}

/* Level 5 is reserved, so both clients get level 3, and share it. Refused on the
   way: a client of two types, a shared level for one alone, an interrupt of no
   type, and that a client leaves while it holds something. */
static void a_refusal_changes_nothing(void)
{
    puts("\nA refusal changes nothing: table and packet keep every byte.");
    register_client(CS_IO_CLIENT | CS_MEMORY_CLIENT);
    request_irq(2, 0, CS_IRQ_DYNAMIC, LEVEL_3 | LEVEL_5);
    request_irq(3, 1, CS_IRQ_EXCLUSIVE, LEVEL_3);
    request_irq(3, 1, 3, LEVEL_3);
    request_irq(3, 1, CS_IRQ_DYNAMIC, LEVEL_3 | LEVEL_5);
    sharers(3);
    show_levels();
    request_mask(3, 1);
    deregister_client(3);
}

/* A card that decodes ten lines, at 6F8, answers at 2F8 too: not before 2F8 is managed,
   and 2F8 stays managed then. */
static void more_ports_than_given(void)
{
    puts("\nA card answers at more ports than it is given: all of them have to be managed.");
    tell_code("Remove ports 2F8 to 2FF", adjust_ports(CS_ACTION_REMOVE, 0x2F8, 8));
    tell_code("Add ports 6F8 to 6FF", adjust_ports(CS_ACTION_ADD, 0x6F8, 8));
    tell_code("Add ports 700 to FFFF", adjust_ports(CS_ACTION_ADD, 0x700, 0xF900));
    request_io(2, 0, 0x6F8, 10);
    tell_code("Add ports 2F8 to 2FF", adjust_ports(CS_ACTION_ADD, 0x2F8, 8));
    request_io(2, 0, 0x6F8, 10);
    tell_code("Remove ports 2F8 to 2FF", adjust_ports(CS_ACTION_REMOVE, 0x2F8, 8));
}

/* That card cannot tell 2F8 and 6F8 apart; two that decode all lines can. */
static void the_same_port(void)
{
    puts("\nPorts whose numbers differ can still be the same port: 2F8 and 6F8.");
    request_io(3, 1, 0x2F8, 16);
    request_io(3, 1, 0, 16);
    release_io(3, 1, 0x310);
    release_io(2, 0, 0x6F8);
    request_io(2, 0, 0x2F8, 16);
    request_io(3, 1, 0x6F8, 16);
    show_ports();
}

/* The client gives back what it has, and can leave. */
static void a_card_goes(void)
{
    puts("\nA card that goes takes nothing away.");
    tell_code("Card out, socket 1", cs_card_out(table, sizeof table, 1));
    sharers(3);
    deregister_client(3);
    release_irq(2, 1, 3);
    release_irq(3, 1, 3);
    release_io(3, 1, 0x6F8);
    release_mask(3, 1);
    sharers(3);
    deregister_client(3);
}

int main(void)
{
    tell_code("Fresh table of 2 sockets", cs_fresh(table, sizeof table, 2));
    manage();
    tell_code("Card in, socket 0", cs_card_in(table, sizeof table, 0));
    tell_code("Card in, socket 1", cs_card_in(table, sizeof table, 1));
    tell_code("Card in, socket 2", cs_card_in(table, sizeof table, 2));
    a_handle_is_not_a_slot();
    a_refusal_changes_nothing();
    more_ports_than_given();
    the_same_port();
    a_card_goes();
    return 0;
}
