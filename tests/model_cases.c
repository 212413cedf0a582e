/*
 * model_cases.c: document 01's cases by number, and both sides of the rules,
 * run against the model alone
 */
#include <stdio.h>
#include <string.h>

#include "layout.h"
#include "model_cases.h"
#include "names.h"
#include "sets.h"

static unsigned long checks, failed;

void expect(const char *what, bool holds)
{
    checks++;
    if (!holds) {
        failed++;
        printf("model_cases: not so: %s\n", what);
    }
}

void expect_code(const char *what, uint32_t answer, uint32_t code)
{
    checks++;
    if (CS_CODE(answer) != code) {
        failed++;
        printf("model_cases: %s: expected %s, got %s\n", what, code_name(code),
               code_name(CS_CODE(answer)));
    }
}

/* ---- The header's numbers ---- */

/* Document 01's table of codes. */
static void codes(void)
{
    static const struct {
        uint32_t code;
        const char *name;
    } table[] = {
        {0x00, "SUCCESS"},         {0x02, "BAD_ATTRIBUTE"},
        {0x03, "BAD_BASE"},        {0x06, "BAD_IRQ"},
        {0x0A, "BAD_SIZE"},        {0x0B, "BAD_SOCKET"},
        {0x14, "NO_CARD"},         {0x15, "UNSUPPORTED_SERVICE"},
        {0x19, "GENERAL_FAILURE"}, {0x1B, "BAD_ARG_LENGTH"},
        {0x1C, "BAD_ARGS"},        {0x1E, "IN_USE"},
        {0x1F, "NO_MORE_ITEMS"},   {0x20, "OUT_OF_RESOURCE"},
        {0x21, "BAD_HANDLE"},
    };
    for (size_t i = 0; i < sizeof table / sizeof *table; i++)
        expect(table[i].name, strcmp(code_name(table[i].code), table[i].name) == 0);
}

static const uint16_t services[] = {
    CS_REGISTER_CLIENT, CS_DEREGISTER_CLIENT,   CS_ADJUST_RESOURCE_INFO,
    CS_REQUEST_IRQ,     CS_RELEASE_IRQ,         CS_REQUEST_IO,
    CS_RELEASE_IO,      CS_REQUEST_SOCKET_MASK, CS_RELEASE_SOCKET_MASK};
enum { SERVICES = sizeof services / sizeof *services };

/* Document 01's numbers, in its order. */
static void service_numbers(void)
{
    static const uint16_t numbers[SERVICES] = {0x10, 0x02, 0x35, 0x20, 0x1C,
                                               0x1F, 0x1B, 0x22, 0x2F};
    for (unsigned i = 0; i < SERVICES; i++)
        expect("a service's number", services[i] == numbers[i]);
}

/* 5.37's, from bit 0 on. */
static void event_bits(void)
{
    static const uint16_t events[] = {CS_EVENT_WRITE_PROTECT_CHANGE,
                                      CS_EVENT_CARD_LOCK_CHANGE,
                                      CS_EVENT_EJECTION_REQUEST,
                                      CS_EVENT_INSERTION_REQUEST,
                                      CS_EVENT_BATTERY_DEAD,
                                      CS_EVENT_BATTERY_LOW,
                                      CS_EVENT_READY_CHANGE,
                                      CS_EVENT_CARD_DETECT_CHANGE,
                                      CS_EVENT_POWER_MANAGEMENT_CHANGE,
                                      CS_EVENT_RESET,
                                      CS_EVENT_SOCKET_SERVICES_UPDATED,
                                      CS_EVENT_EXTENDED_STATUS_CHANGE};
    for (unsigned bit = 0; bit < sizeof events / sizeof *events; bit++)
        expect("an event's bit", events[bit] == 1u << bit);
}

/* Document 01's limits, and its numbers for 35H and the boot list. */
static void resource_numbers(void)
{
    static const uint32_t numbers[][2] = {
        {CS_LEVELS, 16},
        {CS_PORTS, 65536},
        {CS_LINES, 16},
        {CS_RANGES, 32},
        {CS_ADJUST_IRQ_LENGTH, 4},
        {CS_ADJUST_IO_SHORT_LENGTH, 7},
        {CS_ADJUST_IO_LONG_LENGTH, 12},
        {CS_ACTION_REMOVE, 0},
        {CS_ACTION_ADD, 1},
        {CS_ACTION_FIRST, 2},
        {CS_ACTION_NEXT, 3},
        {CS_RESOURCE_IO, 1},
        {CS_RESOURCE_IRQ, 2},
        {CS_RESERVE, 1u << 6},
        {CS_ALLOCATED, 1u << 7},
        {CS_IO_SHARED, 1u << 0},
        {CS_IRQ_TYPE, 1u << 0 | 1u << 1},
        {CS_IRQ_EXCLUSIVE, 0},
        {CS_IRQ_TIME_MULTIPLEXED, 1},
        {CS_IRQ_DYNAMIC, 2},
        {CS_BOOT_RECORD, 10},
        {CS_BOOT_MOST, 48},
        {CS_BOOT_CODE((uint64_t)48 << 32 | 0x20), 0x20},
        {CS_BOOT_PLACE((uint64_t)48 << 32 | 0x20), 48},
    };
    for (size_t i = 0; i < sizeof numbers / sizeof *numbers; i++)
        expect("a number of 35H or the boot list", numbers[i][0] == numbers[i][1]);
}

/* 5.53's bits, and the lengths that 5.53, 5.45, 5.54 and 5.46 ask for. */
static void irq_and_mask_numbers(void)
{
    static const uint32_t numbers[][2] = {
        {CS_REQUEST_IRQ_LENGTH, 8},
        {CS_RELEASE_IRQ_LENGTH, 5},
        {CS_REQUEST_SOCKET_MASK_LENGTH, 4},
        {CS_RELEASE_SOCKET_MASK_LENGTH, 2},
        {CS_IRQ_FORCE_PULSE, 1u << 2},
        {CS_IRQ_FIRST_SHARED, 1u << 3},
        {CS_IRQ_PULSE_ALLOCATED, 1u << 8},
        {CS_IRQ_INFO_LEVEL_NUMBER, 1u << 0 | 1u << 1 | 1u << 2 | 1u << 3},
        {CS_IRQ_INFO_MASK, 1u << 4},
        {CS_IRQ_INFO_LEVEL, 1u << 5},
        {CS_IRQ_INFO_PULSE, 1u << 6},
        {CS_IRQ_INFO_SHARE, 1u << 7},
    };
    for (size_t i = 0; i < sizeof numbers / sizeof *numbers; i++)
        expect("a number of an IRQ or mask service", numbers[i][0] == numbers[i][1]);
}

/* ---- Short ways to ask ---- */

static uint32_t adjust(struct model *m, const uint8_t *packet, size_t len)
{
    uint8_t copy[CS_ADJUST_IO_LONG_LENGTH] = {0};
    memcpy(copy, packet, len);
    return model_call(m, CS_ADJUST_RESOURCE_INFO, 0, copy, len);
}

static uint32_t add_irq(struct model *m, uint8_t level, uint8_t attributes)
{
    return adjust(m, (uint8_t[]){CS_ACTION_ADD, CS_RESOURCE_IRQ, attributes, level},
                  CS_ADJUST_IRQ_LENGTH);
}

static uint32_t remove_irq(struct model *m, uint8_t level)
{
    return adjust(m, (uint8_t[]){CS_ACTION_REMOVE, CS_RESOURCE_IRQ, 0, level},
                  CS_ADJUST_IRQ_LENGTH);
}

/* Add or Remove of an I/O range, in the short and in the long form. */
uint32_t short_io(struct model *m, uint8_t action, uint16_t base, uint8_t ports, uint8_t attributes)
{
    return adjust(m,
                  (uint8_t[]){action, CS_RESOURCE_IO, (uint8_t)base, (uint8_t)(base >> 8), ports,
                              attributes, CS_LINES},
                  CS_ADJUST_IO_SHORT_LENGTH);
}

uint32_t long_io(struct model *m, uint8_t action, uint32_t base, uint32_t ports)
{
    uint8_t packet[CS_ADJUST_IO_LONG_LENGTH] = {action, CS_RESOURCE_IO};
    for (unsigned i = 0; i < 4; i++) {
        packet[2 + i] = (uint8_t)(base >> 8 * i);
        packet[6 + i] = (uint8_t)(ports >> 8 * i);
    }
    packet[11] = CS_LINES;
    return adjust(m, packet, sizeof packet);
}

uint32_t add_io(struct model *m, uint16_t base, uint8_t ports)
{
    return short_io(m, CS_ACTION_ADD, base, ports, 0);
}

static uint32_t register_io_client(struct model *m)
{
    uint8_t packet[CS_REGISTER_CLIENT_LENGTH] = {CS_IO_CLIENT};
    return model_call(m, CS_REGISTER_CLIENT, 0, packet, sizeof packet);
}

uint32_t deregister(struct model *m, uint16_t handle)
{
    return model_call(m, CS_DEREGISTER_CLIENT, handle, NULL, 0);
}

/* AssignedIRQ is told, or FF for a refusal. */
static uint32_t request_irq(struct model *m, uint8_t socket, uint16_t attributes, uint8_t info_1,
                            uint16_t info_2, uint8_t *assigned)
{
    uint8_t packet[8] = {socket, 0,      (uint8_t)attributes, (uint8_t)(attributes >> 8),
                         0xFF,   info_1, (uint8_t)info_2,     (uint8_t)(info_2 >> 8)};
    uint32_t answer = model_call(m, CS_REQUEST_IRQ, 1, packet, sizeof packet);
    *assigned = packet[4];
    return answer;
}

static uint32_t request_irq_code(struct model *m, uint8_t socket, uint16_t attributes,
                                 uint8_t info_1, uint16_t info_2)
{
    uint8_t assigned;
    return request_irq(m, socket, attributes, info_1, info_2, &assigned);
}

static uint32_t release_irq(struct model *m, uint8_t socket, uint16_t handle, uint8_t type,
                            uint8_t level)
{
    return model_call(m, CS_RELEASE_IRQ, handle, (uint8_t[]){socket, 0, type, 0xFF, level}, 5);
}

/* Eight sockets with cards and clients 1 and 2. */
void ready(struct model *m)
{
    model_fresh(m, CS_SOCKETS);
    for (uint32_t s = 0; s < CS_SOCKETS; s++)
        model_card_in(m, s);
    register_io_client(m);
    register_io_client(m);
}

/* N6: "levels 3 and 5 managed, 5 reserved". */
static void ready_n6(struct model *m)
{
    ready(m);
    add_irq(m, 3, 0);
    add_irq(m, 5, CS_RESERVE);
}

/* Host numbers are looked at whole. */
static void host_numbers(void)
{
    static const uint32_t wide[] = {256, 257, 65536, 65537, 0x01000001, 0x80000001, 0xFFFFFFFF};
    struct model m;
    ready(&m);
    for (size_t i = 0; i < sizeof wide / sizeof *wide; i++) {
        expect_code("a wide count", model_fresh(&m, wide[i]), CS_GENERAL_FAILURE);
        expect_code("card in at a wide socket", model_card_in(&m, wide[i]), CS_BAD_SOCKET);
        expect_code("card out at a wide socket", model_card_out(&m, wide[i]), CS_BAD_SOCKET);
        expect_code("a wide level", model_sharers(&m, wide[i]), CS_BAD_IRQ);
    }
    for (uint32_t s = 0; s < CS_SOCKETS; s++)
        expect("the cards stay", m.card[s]);
}

/* ---- N5 to N7 and N10 to N12; model_io_cases.c has the others ---- */

static void n5(void)
{
    struct model m;
    ready(&m);
    expect_code("N5 FFF9", add_io(&m, 0xFFF9, 8), CS_BAD_BASE);
    expect_code("N5 FFF8", add_io(&m, 0xFFF8, 8), CS_SUCCESS);
}

static void n6(void)
{
    struct model m;
    uint8_t assigned;
    ready_n6(&m);
    expect_code("N6 first", request_irq(&m, 0, 0, 0x30, 0x0028, &assigned), CS_SUCCESS);
    expect("N6 first is 3", assigned == 3);
    expect_code("N6 second", request_irq(&m, 1, 0, 0x30, 0x0028, &assigned), CS_SUCCESS);
    expect("N6 second is 5", assigned == 5);
    expect_code("N6 third", request_irq(&m, 2, 0, 0x30, 0x0028, &assigned), CS_BAD_IRQ);
    expect("N6 third keeps the packet", assigned == 0xFF);
}

static void n7(void)
{
    struct model m;
    ready_n6(&m);
    expect_code("N7 dynamic level", request_irq_code(&m, 0, 2, 0xA3, 0), CS_SUCCESS);
    expect_code("N7 time-multiplexed", request_irq_code(&m, 1, 1, 0xA3, 0), CS_BAD_IRQ);
    expect_code("N7 dynamic level again", request_irq_code(&m, 1, 2, 0xA3, 0), CS_SUCCESS);
    expect("N7 two sharers", model_sharers(&m, 3) == 2u << 16);
}

static void n10(void)
{
    struct model m;
    model_fresh(&m, 1);
    expect("N10 first", register_io_client(&m) == 1u << 16);
    expect("N10 deregister", deregister(&m, 1) == 1u << 16);
    expect("N10 second", register_io_client(&m) == 2u << 16);
}

static void n11(void)
{
    struct model m;
    uint8_t level[8] = {0, 0, 2, 0, 0, 0xB0, 0x28, 0}, pulse[8] = {0, 0, 2, 0, 0, 0xD0, 0x28, 0};
    ready_n6(&m);
    expect("N11 level", model_call(&m, CS_REQUEST_IRQ, 1, level, 8) == 1u << 16);
    expect("N11 level's packet", memcmp(level, "\x00\x00\x02\x00\x03\xB0\x28\x00", 8) == 0);
    ready_n6(&m);
    expect("N11 pulse", model_call(&m, CS_REQUEST_IRQ, 1, pulse, 8) == 1u << 16);
    expect("N11 pulse's packet", memcmp(pulse, "\x00\x00\x02\x01\x03\xD0\x28\x00", 8) == 0);
}

static void n12(void)
{
    struct model m;
    uint8_t packet[7] = {2, 1, 0xFF, 0xFF, 0xFF, 0xFF, 0xFF};
    ready(&m);
    add_io(&m, 0x300, 16);
    expect("N12", model_call(&m, CS_ADJUST_RESOURCE_INFO, 7, packet, 7) == 0);
    expect("N12's packet", memcmp(packet, "\x02\x01\x00\x03\x10\x00\x10", 7) == 0);
}

/* ---- Rules beside the numbered cases ---- */

static void manners(void)
{
    static const bool table[MANNERS][MANNERS] = {
        {false, false, false, false},
        {false, true, false, false},
        {false, false, true, false},
        {false, false, false, true},
    };
    for (uint8_t a = 0; a < MANNERS; a++)
        for (uint8_t b = 0; b < MANNERS; b++)
            expect("four by four", go_together(a, b) == table[a][b]);
}

static void request_irq_codes(void)
{
    static const struct {
        const char *what;
        uint16_t attributes;
        uint8_t info_1;
        uint16_t info_2;
        uint32_t code;
    } cases[] = {
        {"type 3", 3, 0xA3, 0, CS_BAD_ATTRIBUTE},
        {"bit 4", 0x10, 0xA3, 0, CS_BAD_ATTRIBUTE},
        {"bit 8", 0x100, 0xA3, 0, CS_BAD_ATTRIBUTE},
        {"bit 15", 0x8000, 0xA3, 0, CS_BAD_ATTRIBUTE},
        {"First Shared with Exclusive", 8, 0xA3, 0, CS_BAD_ATTRIBUTE},
        {"First Shared with time-multiplexed", 9, 0x23, 0, CS_SUCCESS},
        {"Force Pulse without Pulse", 4, 0xA3, 0, CS_BAD_ATTRIBUTE},
        {"Force Pulse with Pulse", 4, 0x43, 0, CS_SUCCESS},
        {"dynamic without Share", 2, 0x23, 0, CS_BAD_ATTRIBUTE},
        {"time-multiplexed without Share", 1, 0x23, 0, CS_SUCCESS},
        {"neither Level nor Pulse", 0, 0x83, 0, CS_BAD_ARGS},
        {"Mask with bit 0", 0, 0x31, 8, CS_BAD_ARGS},
        {"Mask with bit 3", 0, 0x38, 8, CS_BAD_ARGS},
        {"Mask with IRQInfo2 0", 0, 0x30, 0, CS_BAD_ARGS},
        {"Mask clear, IRQInfo2 ignored", 0, 0x23, 0x0020, CS_SUCCESS},
        {"a level that is not managed", 0, 0x24, 0, CS_BAD_IRQ},
        {"levels that are not managed", 0, 0x30, 0xFFD7, CS_BAD_IRQ},
    };
    for (size_t i = 0; i < sizeof cases / sizeof *cases; i++) {
        struct model m;
        ready_n6(&m);
        expect_code(cases[i].what,
                    request_irq_code(&m, 0, cases[i].attributes, cases[i].info_1, cases[i].info_2),
                    cases[i].code);
    }
}

static void irq_order(void)
{
    struct model m;
    uint8_t assigned;
    ready_n6(&m);
    model_card_out(&m, 1);
    expect_code("no card before type 3", request_irq_code(&m, 1, 3, 0xA3, 0), CS_NO_CARD);
    expect_code("socket 8", request_irq_code(&m, 8, 3, 0xA3, 0), CS_BAD_SOCKET);
    request_irq(&m, 0, 2, 0xB0, 0x0028, &assigned);
    expect_code("a second grant on the socket", request_irq_code(&m, 0, 2, 0xB0, 0x0028),
                CS_IN_USE);
    expect_code("BAD_ARGS before it", request_irq_code(&m, 0, 2, 0x80, 0), CS_BAD_ARGS);
    expect_code("BAD_ATTRIBUTE before that", request_irq_code(&m, 0, 3, 0x80, 0), CS_BAD_ATTRIBUTE);
    request_irq(&m, 2, 10, 0xB0, 0x0028, &assigned);
    expect("First Shared takes a level without a grant", assigned == 5);
    request_irq(&m, 3, 6, 0xF0, 0x0028, &assigned);
    expect("dynamic pulse does not join dynamic level", assigned == 0xFF);
    request_irq(&m, 3, 2, 0xF0, 0x0028, &assigned);
    expect("dynamic level joins the lowest", assigned == 3);
}

static void irq_choice(void)
{
    struct model m;
    uint8_t assigned;
    ready_n6(&m);
    add_irq(&m, 9, 0);
    add_irq(&m, 12, CS_RESERVE);
    request_irq(&m, 0, 0, 0x23, 0x0220, &assigned);
    expect("IRQInfo2 names nothing with Mask clear", assigned == 3);
    request_irq(&m, 1, 0, 0x30, 0x1220, &assigned);
    expect("an unreserved level before a lower reserved one", assigned == 9);
    request_irq(&m, 2, 0, 0x30, 0x1220, &assigned);
    expect("then the lowest reserved one", assigned == 5);
}

/* K1, on N6's table: the level of the manner asked for, reserved or not; the
   lowest of two; not with First Shared, not for Exclusive, and not unnamed. */
static void irq_preferred(void)
{
    struct model m;
    uint8_t assigned;
    ready_n6(&m);
    request_irq(&m, 0, 2, 0xA5, 0, &assigned);
    expect("5 named alone", assigned == 5);
    request_irq(&m, 1, 2, 0xB0, 0x0028, &assigned);
    expect("a reserved level with a sharer before a free one", assigned == 5);
    request_irq(&m, 2, 10, 0xB0, 0x0028, &assigned);
    expect("First Shared takes the free one", assigned == 3);
    request_irq(&m, 3, 2, 0xB0, 0x0028, &assigned);
    expect("the lowest of two", assigned == 3);
    request_irq(&m, 4, 1, 0xB0, 0x0028, &assigned);
    expect("time-multiplexed joins neither", assigned == 0xFF);
    ready_n6(&m);
    request_irq(&m, 0, 6, 0xE5, 0, &assigned);
    request_irq(&m, 1, 2, 0xB0, 0x0028, &assigned);
    expect("dynamic level beside dynamic pulse", assigned == 3);
    ready_n6(&m);
    request_irq(&m, 0, 2, 0xA5, 0, &assigned);
    request_irq(&m, 1, 0, 0xB0, 0x0028, &assigned);
    expect("Exclusive beside a sharer", assigned == 3);
    ready_n6(&m);
    request_irq(&m, 0, 2, 0xA5, 0, &assigned);
    request_irq(&m, 1, 2, 0xB0, 0x0008, &assigned);
    expect("a level of its manner that isn't named", assigned == 3);
    ready(&m);
    add_irq(&m, 3, CS_RESERVE);
    add_irq(&m, 5, 0);
    request_irq(&m, 0, 1, 0x23, 0, &assigned);
    request_irq(&m, 1, 9, 0x25, 0, &assigned);
    request_irq(&m, 2, 1, 0x30, 0x0028, &assigned);
    expect("the lowest of two, though reserved", assigned == 3);
}

static void irq_release(void)
{
    struct model m;
    ready_n6(&m);
    request_irq_code(&m, 0, 6, 0xC3, 0);
    model_card_out(&m, 0);
    expect_code("another client", release_irq(&m, 0, 2, 2, 3), CS_BAD_IRQ);
    expect_code("another level", release_irq(&m, 0, 1, 2, 5), CS_BAD_IRQ);
    expect_code("another socket", release_irq(&m, 1, 1, 2, 3), CS_BAD_IRQ);
    expect_code("another type", release_irq(&m, 0, 1, 1, 3), CS_BAD_ATTRIBUTE);
    expect_code("level before type", release_irq(&m, 0, 1, 1, 5), CS_BAD_IRQ);
    expect_code("no client 3", release_irq(&m, 9, 3, 2, 3), CS_BAD_HANDLE);
    expect_code("no socket 9", release_irq(&m, 9, 1, 2, 3), CS_BAD_SOCKET);
    expect_code("remove a held level", remove_irq(&m, 3), CS_IN_USE);
    expect_code("deregister a holder", deregister(&m, 1), CS_IN_USE);
    expect_code("released without a card", release_irq(&m, 0, 1, 2, 3), CS_SUCCESS);
    expect_code("remove it then", remove_irq(&m, 3), CS_SUCCESS);
    expect_code("remove it again", remove_irq(&m, 3), CS_BAD_IRQ);
}

/* On N6's table, with 300, 16 managed too. */
static const struct {
    const char *what;
    uint8_t packet[13];
    size_t len;
    uint32_t code;
} adjust_cases[] = {
    {"length 1", {9}, 1, CS_BAD_ARG_LENGTH},
    {"action 4", {4, 0}, 2, CS_BAD_ARGS},
    {"resource 0", {1, 0}, 2, CS_UNSUPPORTED_SERVICE},
    {"resource 3", {1, 3}, 2, CS_UNSUPPORTED_SERVICE},
    {"resource 4", {1, 4}, 2, CS_UNSUPPORTED_SERVICE},
    {"resource 5", {1, 5}, 2, CS_BAD_ARGS},
    {"IRQ, length 5", {1, 2, 0, 4, 0}, 5, CS_BAD_ARG_LENGTH},
    {"I/O, length 8", {1, 1, 0, 1, 8, 0, 16, 0}, 8, CS_BAD_ARG_LENGTH},
    {"Add IRQ, bit 7", {1, 2, 0x80, 4}, 4, CS_BAD_ATTRIBUTE},
    {"Add IRQ, bit 6", {1, 2, 0x40, 15}, 4, CS_SUCCESS},
    {"Remove IRQ, bit 6", {0, 2, 0x40, 3}, 4, CS_BAD_ATTRIBUTE},
    {"level 16", {1, 2, 0, 16}, 4, CS_BAD_IRQ},
    {"Add a managed level", {1, 2, 0, 3}, 4, CS_IN_USE},
    {"lines 15", {1, 1, 0, 1, 8, 0, 15}, 7, CS_BAD_ATTRIBUTE},
    {"no port", {1, 1, 0, 1, 0, 0, 16}, 7, CS_BAD_SIZE},
    {"all ports", {1, 1, 0, 0, 0, 0, 0, 0, 1, 0, 0, 16}, 12, CS_IN_USE},
    {"65,537 ports", {1, 1, 0, 0, 0, 0, 1, 0, 1, 0, 0, 16}, 12, CS_BAD_SIZE},
    {"base 10000H", {1, 1, 0, 0, 1, 0, 1, 0, 0, 0, 0, 16}, 12, CS_BAD_BASE},
    {"base FFFFFFFFH", {1, 1, 255, 255, 255, 255, 1, 0, 0, 0, 0, 16}, 12, CS_BAD_BASE},
    {"beside a range", {1, 1, 0x10, 3, 8, 0x40, 16}, 7, CS_SUCCESS},
    {"over its last port", {1, 1, 0x0F, 3, 8, 0, 16}, 7, CS_IN_USE},
    {"Next after the last", {3, 1, 0, 3, 0, 0, 0}, 7, CS_NO_MORE_ITEMS},
    {"Next after the last level", {3, 2, 0, 5}, 4, CS_NO_MORE_ITEMS},
    {"Next after level 255", {3, 2, 0, 255}, 4, CS_NO_MORE_ITEMS},
    {"length 0", {0}, 0, CS_BAD_ARG_LENGTH},
    {"action 255 before resource 0", {255, 0}, 2, CS_BAD_ARGS},
    {"resource 255", {3, 255}, 2, CS_BAD_ARGS},
    {"resource 3 before the length", {2, 3, 0}, 3, CS_UNSUPPORTED_SERVICE},
    {"IRQ, length 3", {2, 2, 0}, 3, CS_BAD_ARG_LENGTH},
    {"IRQ, length 7", {2, 2, 0, 0, 0, 0, 0}, 7, CS_BAD_ARG_LENGTH},
    {"I/O, length 4", {2, 1, 0, 0}, 4, CS_BAD_ARG_LENGTH},
    {"I/O, length 11", {2, 1}, 11, CS_BAD_ARG_LENGTH},
    {"I/O, length 13", {2, 1}, 13, CS_BAD_ARG_LENGTH},
    {"Add IRQ, attribute before level", {1, 2, 1, 16}, 4, CS_BAD_ATTRIBUTE},
    {"Remove level 16", {0, 2, 0, 16}, 4, CS_BAD_IRQ},
    {"Remove a level not managed", {0, 2, 0, 4}, 4, CS_BAD_IRQ},
    {"Remove a level, held by nobody", {0, 2, 0, 3}, 4, CS_SUCCESS},
    {"Add I/O, bits 6 and 0", {1, 1, 0, 1, 8, 0x41, 16}, 7, CS_BAD_ATTRIBUTE},
    {"Remove I/O, bit 6", {0, 1, 0, 3, 16, 0x40, 16}, 7, CS_BAD_ATTRIBUTE},
    {"Remove I/O, lines 17", {0, 1, 0, 3, 16, 0, 17}, 7, CS_BAD_ATTRIBUTE},
    {"lines before ports", {1, 1, 0, 1, 0, 0, 15}, 7, CS_BAD_ATTRIBUTE},
    {"ports before base", {1, 1, 0, 0, 1, 0, 0, 0, 0, 0, 0, 16}, 12, CS_BAD_SIZE},
    {"a sum of 2^32", {1, 1, 0, 0, 255, 255, 0, 0, 1, 0, 0, 16}, 12, CS_BAD_BASE},
    {"ports FFFFFFFFH", {1, 1, 1, 0, 0, 0, 255, 255, 255, 255, 0, 16}, 12, CS_BAD_SIZE},
    {"Remove 300, 16", {0, 1, 0, 3, 16, 0, 16}, 7, CS_SUCCESS},
    {"Remove 300, 16, long", {0, 1, 0, 3, 0, 0, 16, 0, 0, 0, 0, 16}, 12, CS_SUCCESS},
    {"Remove 300, 15", {0, 1, 0, 3, 15, 0, 16}, 7, CS_BAD_BASE},
    {"Remove 301, 16", {0, 1, 1, 3, 16, 0, 16}, 7, CS_BAD_BASE},
    {"Next from below", {3, 1, 0xFF, 2, 0, 0, 0}, 7, CS_SUCCESS},
    {"Next from 10000H", {3, 1, 0, 0, 1, 0, 0, 0, 0, 0, 0, 0}, 12, CS_NO_MORE_ITEMS},
    {"First, all else any byte", {2, 1, 255, 255, 255, 255, 255}, 7, CS_SUCCESS},
};

static void adjust_codes(void)
{
    for (size_t i = 0; i < sizeof adjust_cases / sizeof *adjust_cases; i++) {
        struct model m;
        uint8_t packet[13];
        ready_n6(&m);
        add_io(&m, 0x300, 16);
        memcpy(packet, adjust_cases[i].packet, sizeof packet);
        expect_code(adjust_cases[i].what,
                    model_call(&m, CS_ADJUST_RESOURCE_INFO, 77, packet, adjust_cases[i].len),
                    adjust_cases[i].code);
    }
}

static void shown(void)
{
    struct model m;
    uint8_t level[4] = {2, 2, 0xFF, 0xFF}, range[12] = {3, 1, 0xFF, 2};
    ready_n6(&m);
    long_io(&m, CS_ACTION_ADD, 0x300, 256);
    add_io(&m, 0x100, 255);
    request_irq_code(&m, 0, 6, 0xC3, 0);
    request_io_code(&m, 0, 0x308, 8, 1, 16);
    expect("First level's holder",
           model_call(&m, CS_ADJUST_RESOURCE_INFO, 9, level, 4) == 1u << 16);
    expect("First level", memcmp(level, "\x02\x02\x82\x03", 4) == 0);
    expect_code("First range, 255 ports in short", adjust(&m, (uint8_t[]){2, 1, 0, 0, 0, 0, 0}, 7),
                CS_SUCCESS);
    expect_code("Next range, 256 ports in short", adjust(&m, (uint8_t[]){3, 1, 0, 1, 0, 0, 0}, 7),
                CS_BAD_SIZE);
    expect("Next range's holder",
           model_call(&m, CS_ADJUST_RESOURCE_INFO, 9, range, 12) == 1u << 16);
    expect("Next range",
           memcmp(range, "\x03\x01\x00\x03\x00\x00\x00\x01\x00\x00\x81\x10", 12) == 0);
}

/* Clients 2, 1 and 3 hold level 3, and ports of one range, on sockets 0 to 2. */
static void shown_holders(void)
{
    static const uint16_t clients[] = {2, 1, 3};
    struct model m;
    uint8_t level[4] = {2, 2}, range[7] = {2, 1};
    ready_n6(&m);
    register_io_client(&m);
    add_io(&m, 0x300, 24);
    for (unsigned s = 0; s < 3; s++) {
        m.irq[s] = (struct irq_grant){true, clients[s], 3, TIME_MULTIPLEXED};
        m.io[s] = (struct io_grant){true, clients[s], (uint16_t)(0x300 + 8 * s), 8, 16, s != 1};
    }
    expect("the lowest holder", model_call(&m, CS_ADJUST_RESOURCE_INFO, 9, level, 4) == 1u << 16);
    expect("their type", level[2] == 0x81);
    expect("the lowest again", model_call(&m, CS_ADJUST_RESOURCE_INFO, 9, range, 7) == 1u << 16);
    expect("not all of them share", range[5] == 0x80);
    m.io[1].shared = true;
    model_call(&m, CS_ADJUST_RESOURCE_INFO, 9, range, 7);
    expect("all of them share", range[5] == 0x81);
}

/* Its own ports hold a range: the first, the last, not the ones beside it. */
static void ports_that_hold(void)
{
    static const struct {
        uint16_t base;
        uint8_t count;
        bool holds;
    } grants[] = {{0x2FF, 1, false}, {0x300, 1, true}, {0x30F, 1, true}, {0x310, 1, false},
                  {0x2FF, 2, true},  {0x30F, 2, true}, {0x700, 8, false}};
    for (size_t i = 0; i < sizeof grants / sizeof *grants; i++) {
        struct model m;
        uint8_t range[7] = {3, 1, 0xFF, 2};
        ready(&m);
        add_io(&m, 0x2F0, 16);
        add_io(&m, 0x300, 16);
        long_io(&m, CS_ACTION_ADD, 0x310, 0x500);
        m.io[3] = (struct io_grant){true, 2, grants[i].base, grants[i].count, 16, false};
        expect("the holder", model_call(&m, CS_ADJUST_RESOURCE_INFO, 9, range, 7) ==
                                 (grants[i].holds ? 2u << 16 : 0));
        expect("bit 7", range[5] == (grants[i].holds ? 0x80 : 0));
        expect_code("Remove", short_io(&m, CS_ACTION_REMOVE, 0x300, 16, 0),
                    grants[i].holds ? CS_IN_USE : CS_SUCCESS);
    }
}

/* Add and Remove answer the handle given, whatever it is. */
static void given_handles(void)
{
    static const uint16_t given[] = {0, 1, 2, 9, 0xFFFF};
    for (size_t i = 0; i < sizeof given / sizeof *given; i++) {
        struct model m;
        uint8_t add[4] = {1, 2, 0, 7}, take[4] = {0, 2, 0, 7}, first[4] = {2, 2, 0, 0};
        uint32_t answer = (uint32_t)given[i] << 16;
        ready(&m);
        expect("Add's handle", model_call(&m, CS_ADJUST_RESOURCE_INFO, given[i], add, 4) == answer);
        expect("First's handle",
               model_call(&m, CS_ADJUST_RESOURCE_INFO, given[i], first, 4) == CS_SUCCESS);
        expect("Remove's handle",
               model_call(&m, CS_ADJUST_RESOURCE_INFO, given[i], take, 4) == answer);
    }
}

static void masks(void)
{
    struct model m;
    ready(&m);
    uint8_t mask[4] = {2, 0, 0xFF, 0x0F}, wide[4] = {2, 0, 0, 0x10};
    expect_code("mask bit 12", model_call(&m, CS_REQUEST_SOCKET_MASK, 1, wide, 4),
                CS_BAD_ATTRIBUTE);
    expect_code("nothing held", model_call(&m, CS_RELEASE_SOCKET_MASK, 1, mask, 2), CS_BAD_SOCKET);
    expect_code("a mask", model_call(&m, CS_REQUEST_SOCKET_MASK, 1, mask, 4), CS_SUCCESS);
    expect_code("a second", model_call(&m, CS_REQUEST_SOCKET_MASK, 1, mask, 4), CS_IN_USE);
    expect_code("another client's", model_call(&m, CS_REQUEST_SOCKET_MASK, 2, mask, 4), CS_SUCCESS);
    expect_code("deregister a holder", deregister(&m, 1), CS_IN_USE);
    model_card_out(&m, 2);
    expect_code("no card", model_call(&m, CS_REQUEST_SOCKET_MASK, 1, mask, 4), CS_NO_CARD);
    expect_code("released without a card", model_call(&m, CS_RELEASE_SOCKET_MASK, 1, mask, 2),
                CS_SUCCESS);
    expect_code("deregister", deregister(&m, 1), CS_SUCCESS);
}

static void mask_of_no_event(void)
{
    struct model m;
    uint8_t mask[4] = {7, 0, 0, 0};
    ready(&m);
    expect_code("a mask of 0", model_call(&m, CS_REQUEST_SOCKET_MASK, 2, mask, 4), CS_SUCCESS);
    expect_code("is a mask", model_call(&m, CS_REQUEST_SOCKET_MASK, 2, mask, 4), CS_IN_USE);
    expect_code("that keeps its client", deregister(&m, 2), CS_IN_USE);
    expect_code("and is released", model_call(&m, CS_RELEASE_SOCKET_MASK, 2, mask, 2), CS_SUCCESS);
    expect_code("once", model_call(&m, CS_RELEASE_SOCKET_MASK, 2, mask, 2), CS_BAD_SOCKET);
}

static void boot_list(void)
{
    struct model m;
    const uint8_t records[] = {
        2, 0x40, 5,    0,    0, 0, 0xFF, 0xFF, 0xFF, 0xFF, /* level 5, reserved */
        1, 0,    0xF8, 0xFF, 0, 0, 8,    0,    0,    0,    /* FFF8, 8 */
        1, 0,    0xFF, 0xFF, 0, 0, 1,    0,    0,    0,    /* FFFF, 1 */
    };
    ready(&m);
    expect("boot, none", model_boot(&m, NULL, 0) == 0);
    expect("boot, two", model_boot(&m, records, 20) == (uint64_t)2 << 32);
    expect("boot, what stays", m.level[5].reserved && m.ranges == 1);
    ready(&m);
    expect("boot, third in use", model_boot(&m, records, 30) == (CS_IN_USE | (uint64_t)2 << 32));
    expect("boot, earlier ones stay", m.level[5].reserved && m.ranges == 1);
    ready(&m);
    expect("boot, bytes too few",
           model_boot(&m, records, 19) == (CS_BAD_ARG_LENGTH | (uint64_t)1 << 32));
}

static void boot_codes(void)
{
    static const struct {
        const char *what;
        uint8_t record[CS_BOOT_RECORD];
        uint32_t code;
    } cases[] = {
        {"boot, resource 0", {0, 0, 3, 0, 0, 0, 1, 0, 0, 0}, CS_UNSUPPORTED_SERVICE},
        {"boot, resource 4", {4, 0, 3, 0, 0, 0, 1, 0, 0, 0}, CS_UNSUPPORTED_SERVICE},
        {"boot, resource 5", {5, 0x80, 3, 0, 0, 0, 1, 0, 0, 0}, CS_BAD_ARGS},
        {"boot, bit 7", {2, 0x80, 16, 0, 0, 0, 1, 0, 0, 0}, CS_BAD_ATTRIBUTE},
        {"boot, level 15", {2, 0, 15, 0, 0, 0, 1, 0, 0, 0}, CS_SUCCESS},
        {"boot, level 16", {2, 0, 16, 0, 0, 0, 1, 0, 0, 0}, CS_BAD_IRQ},
        {"boot, level 256", {2, 0, 0, 1, 0, 0, 1, 0, 0, 0}, CS_BAD_IRQ},
        {"boot, level 65,539", {2, 0, 3, 0, 1, 0, 1, 0, 0, 0}, CS_BAD_IRQ},
        {"boot, no port", {1, 0, 0, 3, 0, 0, 0, 0, 0, 0}, CS_BAD_SIZE},
        {"boot, all ports", {1, 0x40, 0, 0, 0, 0, 0, 0, 1, 0}, CS_SUCCESS},
        {"boot, 65,537 ports", {1, 0, 0, 0, 0, 0, 1, 0, 1, 0}, CS_BAD_SIZE},
        {"boot, FFF9, 8", {1, 0, 0xF9, 0xFF, 0, 0, 8, 0, 0, 0}, CS_BAD_BASE},
        {"boot, a sum of 2^32", {1, 0, 0xFF, 0xFF, 0xFF, 0xFF, 1, 0, 0, 0}, CS_BAD_BASE},
    };
    for (size_t i = 0; i < sizeof cases / sizeof *cases; i++) {
        struct model m;
        ready(&m);
        uint64_t answer = model_boot(&m, cases[i].record, CS_BOOT_RECORD);
        expect_code(cases[i].what, CS_BOOT_CODE(answer), cases[i].code);
        expect("its place", CS_BOOT_PLACE(answer) == (cases[i].code == CS_SUCCESS ? 1 : 0));
    }
}

/* A refused record comes before the bytes that are too few, and nothing after
   it is added; 48 records are all there is to add. */
static void boot_places(void)
{
    struct model m;
    uint8_t records[49 * CS_BOOT_RECORD] = {0};
    for (unsigned i = 0; i < 49; i++) {
        uint8_t *record = records + i * CS_BOOT_RECORD;
        record[0] = i < 16 ? CS_RESOURCE_IRQ : CS_RESOURCE_IO;
        record[i < 16 ? 2 : 3] = (uint8_t)i;
        record[6] = 8;
    }
    ready(&m);
    expect("boot, 48", model_boot(&m, records, 480) == (uint64_t)48 << 32);
    ready(&m);
    expect("boot, 49", model_boot(&m, records, 490) == (CS_OUT_OF_RESOURCE | (uint64_t)48 << 32));
    records[20] = 9;
    ready(&m);
    expect("boot, place 2", model_boot(&m, records, 45) == (CS_BAD_ARGS | (uint64_t)2 << 32));
    expect("boot, only those before",
           m.level[0].managed && m.level[1].managed && !m.level[2].managed && !m.level[3].managed);
}

static void range_limit(void)
{
    struct model m;
    ready(&m);
    for (uint16_t i = 0; i < CS_RANGES; i++)
        expect_code("32 ranges", add_io(&m, (uint16_t)(16 * i), 8), CS_SUCCESS);
    expect_code("the 33rd", add_io(&m, 0x8000, 8), CS_OUT_OF_RESOURCE);
    expect_code("held comes first", add_io(&m, 0, 8), CS_IN_USE);
}

/* ---- Runs: every set reached is well formed, a refusal changes nothing, and
   the image says the set ---- */

/* How often a service was answered SUCCESS, and how often not, by its number. */
static unsigned done[65536], refused[65536];

static void step(struct chance *c, struct model *m)
{
    static uint8_t before[CS_TABLE_SIZE], after[CS_TABLE_SIZE];
    static struct model read;
    struct request r, kept;
    random_request(c, m, &r);
    kept = r;
    model_image(m, before);
    uint32_t answer = model_call(m, r.service, r.handle, r.packet, r.len);
    model_image(m, after);
    expect("the set reached is well formed", model_read(after, sizeof after, &read));
    (CS_CODE(answer) == CS_SUCCESS ? done : refused)[r.service]++;
    if (CS_CODE(answer) == CS_SUCCESS)
        return;
    expect("a refusal keeps the set", memcmp(before, after, sizeof after) == 0);
    expect("a refusal keeps the packet", memcmp(kept.packet, r.packet, MOST_PACKET) == 0);
    expect("a refusal answers handle 0", CS_HANDLE(answer) == 0);
}

static void runs(void)
{
    static struct model m;
    for (uint64_t seed = 1; seed <= 40; seed++) {
        struct chance c = {seed};
        random_set(&c, &m);
        for (unsigned i = 0; i < 60; i++)
            step(&c, &m);
    }
    for (unsigned i = 0; i < SERVICES; i++) {
        expect("runs do each service", done[services[i]] >= 5);
        expect("runs refuse each service", refused[services[i]] >= 50);
    }
}

int main(void)
{
    codes();
    service_numbers();
    event_bits();
    resource_numbers();
    irq_and_mask_numbers();
    host_numbers();
    n5();
    n6();
    n7();
    n10();
    n11();
    n12();
    manners();
    request_irq_codes();
    irq_order();
    irq_choice();
    irq_preferred();
    irq_release();
    adjust_codes();
    shown();
    shown_holders();
    ports_that_hold();
    given_handles();
    masks();
    mask_of_no_event();
    boot_list();
    boot_codes();
    boot_places();
    range_limit();
#define CASES(function) function();
    OTHER_CASES(CASES)
#undef CASES
    runs();
    printf("model_cases: %lu checks, %lu differ\n", checks, failed);
    return failed == 0 ? 0 : 1;
}
