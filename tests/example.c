#include "card_services.h"

static uint8_t table[CS_TABLE_SIZE];

static const uint8_t boot_list[2 * CS_BOOT_RECORD] = {
    CS_RESOURCE_IRQ, 0, 5, 0, 0, 0, 0, 0, 0, 0,
    CS_RESOURCE_IO, CS_RESERVE, 0x00, 0x03, 0, 0, 16, 0, 0, 0
};

int main(void)
{
    uint8_t packet[CS_REGISTER_CLIENT_LENGTH] = {0};
    uint8_t irq[CS_REQUEST_IRQ_LENGTH] = {0};
    uint8_t io[CS_REQUEST_IO_LENGTH] = {0};
    uint16_t events = CS_EVENT_CARD_DETECT_CHANGE | CS_EVENT_RESET;
    uint64_t booted;
    uint32_t answer;
    uint16_t client;

    if (cs_fresh(table, sizeof table, 2) != CS_SUCCESS)
        return 1;
    booted = cs_boot(table, sizeof table, boot_list, sizeof boot_list);
    if (CS_BOOT_CODE(booted) != CS_SUCCESS)
        return 1;
    if (cs_card_in(table, sizeof table, 0) != CS_SUCCESS)
        return 1;

    packet[0] = CS_IO_CLIENT;
    packet[2] = (uint8_t)events;
    packet[3] = (uint8_t)(events >> 8);
    answer = cs_call(table, sizeof table, CS_REGISTER_CLIENT, 0,
                     packet, sizeof packet);
    if (CS_CODE(answer) != CS_SUCCESS)
        return 1;
    client = CS_HANDLE(answer);

    irq[2] = CS_IRQ_DYNAMIC;
    irq[5] = CS_IRQ_INFO_SHARE | CS_IRQ_INFO_LEVEL | 5;
    answer = cs_call(table, sizeof table, CS_REQUEST_IRQ, client,
                     irq, sizeof irq);
    if (CS_CODE(answer) != CS_SUCCESS || irq[4] != 5)
        return 1;
    answer = cs_call(table, sizeof table, CS_RELEASE_IRQ, client,
                     irq, CS_RELEASE_IRQ_LENGTH);
    if (CS_CODE(answer) != CS_SUCCESS)
        return 1;

    io[4] = 8;
    io[10] = CS_LINES;
    answer = cs_call(table, sizeof table, CS_REQUEST_IO, client,
                     io, sizeof io);
    if (CS_CODE(answer) != CS_SUCCESS || io[2] != 0x00 || io[3] != 0x03)
        return 1;
    answer = cs_call(table, sizeof table, CS_RELEASE_IO, client,
                     io, CS_RELEASE_IO_LENGTH);
    if (CS_CODE(answer) != CS_SUCCESS)
        return 1;

    answer = cs_call(table, sizeof table, CS_DEREGISTER_CLIENT, client,
                     NULL, CS_DEREGISTER_CLIENT_LENGTH);
    return CS_CODE(answer) == CS_SUCCESS ? 0 : 1;
}
