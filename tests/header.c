/* card_services.h on its own, included twice, its names used. */
#include "card_services.h"
#include "card_services.h"

/* The entries' types: a number of another width does not compile. */
uint32_t (*const fresh)(uint8_t *, size_t, uint32_t) = cs_fresh;
uint32_t (*const card_in)(uint8_t *, size_t, uint32_t) = cs_card_in;
uint32_t (*const card_out)(uint8_t *, size_t, uint32_t) = cs_card_out;
uint32_t (*const sharers)(const uint8_t *, size_t, uint32_t) = cs_sharers;
uint64_t (*const boot)(uint8_t *, size_t, const uint8_t *, size_t) = cs_boot;
uint32_t (*const call)(uint8_t *, size_t, uint16_t, uint16_t, uint8_t *, size_t) = cs_call;

uint32_t every_name(uint8_t *table, uint8_t *packet)
{
    uint32_t codes = CS_SUCCESS + CS_BAD_ATTRIBUTE + CS_BAD_BASE + CS_BAD_IRQ + CS_BAD_SIZE +
                     CS_BAD_SOCKET + CS_NO_CARD + CS_UNSUPPORTED_SERVICE + CS_GENERAL_FAILURE +
                     CS_BAD_ARG_LENGTH + CS_BAD_ARGS + CS_IN_USE + CS_NO_MORE_ITEMS +
                     CS_OUT_OF_RESOURCE + CS_BAD_HANDLE;
    uint32_t attributes = CS_MEMORY_CLIENT | CS_MEMORY_TECHNOLOGY_DRIVER | CS_IO_CLIENT |
                          CS_INSERTION_SHARABLE | CS_INSERTION_EXCLUSIVE;
    uint32_t events =
        CS_EVENT_WRITE_PROTECT_CHANGE | CS_EVENT_CARD_LOCK_CHANGE | CS_EVENT_EJECTION_REQUEST |
        CS_EVENT_INSERTION_REQUEST | CS_EVENT_BATTERY_DEAD | CS_EVENT_BATTERY_LOW |
        CS_EVENT_READY_CHANGE | CS_EVENT_CARD_DETECT_CHANGE | CS_EVENT_POWER_MANAGEMENT_CHANGE |
        CS_EVENT_RESET | CS_EVENT_SOCKET_SERVICES_UPDATED | CS_EVENT_EXTENDED_STATUS_CHANGE;
    uint32_t resources = CS_ACTION_REMOVE + CS_ACTION_ADD + CS_ACTION_FIRST + CS_ACTION_NEXT +
                         CS_RESOURCE_IO + CS_RESOURCE_IRQ + CS_RESERVE + CS_ALLOCATED +
                         CS_IO_SHARED + CS_IRQ_TYPE + CS_IRQ_EXCLUSIVE + CS_IRQ_TIME_MULTIPLEXED +
                         CS_IRQ_DYNAMIC + CS_ADJUST_IO_SHORT_LENGTH + CS_ADJUST_IO_LONG_LENGTH +
                         CS_PORTS + CS_LINES + CS_RANGES;
    uint32_t irq = CS_IRQ_FORCE_PULSE + CS_IRQ_FIRST_SHARED + CS_IRQ_PULSE_ALLOCATED +
                   CS_IRQ_INFO_LEVEL_NUMBER + CS_IRQ_INFO_MASK + CS_IRQ_INFO_LEVEL +
                   CS_IRQ_INFO_PULSE + CS_IRQ_INFO_SHARE;
    uint32_t io = CS_IO_FIRST_SHARED + CS_IO_FORCE_ALIAS + CS_IO_16_BIT + CS_STACK;
    uint64_t booted = cs_boot(table, CS_TABLE_SIZE, packet, CS_BOOT_MOST * CS_BOOT_RECORD);
    uint32_t answer = cs_fresh(table, CS_TABLE_SIZE, CS_SOCKETS);
    answer += cs_card_in(table, CS_TABLE_SIZE, CS_SOCKETS - 1);
    answer += cs_card_out(table, CS_TABLE_SIZE, CS_SOCKETS - 1);
    answer += CS_COUNT(cs_sharers(table, CS_TABLE_SIZE, CS_LEVELS - 1));
    answer += CS_CODE(cs_call(table, CS_TABLE_SIZE, CS_REGISTER_CLIENT, CS_HANDLES, packet,
                              CS_REGISTER_CLIENT_LENGTH));
    answer += CS_HANDLE(cs_call(table, CS_TABLE_SIZE, CS_DEREGISTER_CLIENT, CS_CLIENTS, packet,
                                CS_DEREGISTER_CLIENT_LENGTH));
    answer +=
        cs_call(table, CS_TABLE_SIZE, CS_ADJUST_RESOURCE_INFO, 0, packet, CS_ADJUST_IRQ_LENGTH);
    answer += cs_call(table, CS_TABLE_SIZE, CS_REQUEST_IRQ, 1, packet, CS_REQUEST_IRQ_LENGTH);
    answer += cs_call(table, CS_TABLE_SIZE, CS_RELEASE_IRQ, 1, packet, CS_RELEASE_IRQ_LENGTH);
    answer += cs_call(table, CS_TABLE_SIZE, CS_REQUEST_IO, 1, packet, CS_REQUEST_IO_LENGTH);
    answer += cs_call(table, CS_TABLE_SIZE, CS_RELEASE_IO, 1, packet, CS_RELEASE_IO_LENGTH);
    answer += cs_call(table, CS_TABLE_SIZE, CS_REQUEST_SOCKET_MASK, 1, packet,
                      CS_REQUEST_SOCKET_MASK_LENGTH);
    answer += cs_call(table, CS_TABLE_SIZE, CS_RELEASE_SOCKET_MASK, 1, packet,
                      CS_RELEASE_SOCKET_MASK_LENGTH);
    answer += CS_BOOT_CODE(booted) + CS_BOOT_PLACE(booted);
    return codes + attributes + events + resources + irq + io + answer;
}
