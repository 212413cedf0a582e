/*
 * stack.c: the stack that a call takes
 *
 * Makes each call on a painted stack and looks how far down the paint is gone:
 * on a fresh table, on full ones, on some where a search for a base goes far and
 * on random ones, each also broken. Ends with status 1 if a call takes as much as
 * card_services.h says it doesn't (CS_STACK), or as much as the bar for every
 * entry.
 */
#define _XOPEN_SOURCE 700

#include <stdio.h>
#include <stdlib.h>
#include <string.h>
#include <ucontext.h>

#include "layout.h"
#include "sets.h"

enum { BAR = 1024, RANDOM_TABLES = 100 };

static uint8_t table[CS_TABLE_SIZE];
static volatile uint32_t answered;

/* ---- The calls ---- */

static void nothing(void)
{
    answered = CS_SUCCESS;
}

static void fresh(void)
{
    answered = cs_fresh(table, sizeof table, CS_SOCKETS);
}

static void card_in(void)
{
    answered = cs_card_in(table, sizeof table, 0);
}

static void card_out(void)
{
    answered = cs_card_out(table, sizeof table, 0);
}

static void sharers(void)
{
    answered = cs_sharers(table, sizeof table, 0);
}

static void register_client(void)
{
    static uint8_t packet[CS_REGISTER_CLIENT_LENGTH] = {CS_IO_CLIENT};
    answered = cs_call(table, sizeof table, CS_REGISTER_CLIENT, 0, packet, sizeof packet);
}

static void deregister_client(void)
{
    answered = cs_call(table, sizeof table, CS_DEREGISTER_CLIENT, 1, NULL, 0);
}

/* A call with these bytes. */
static uint8_t packet[CS_ADJUST_IO_LONG_LENGTH];

#define CALL(name, service, handle, ...)                                                           \
    static void name(void)                                                                         \
    {                                                                                              \
        static const uint8_t asked[] = {__VA_ARGS__};                                              \
        memcpy(packet, asked, sizeof asked);                                                       \
        answered = cs_call(table, sizeof table, service, handle, packet, sizeof asked);            \
    }

/* AdjustResourceInfo: each action in each form. */
#define ADJUST(name, ...) CALL(name, CS_ADJUST_RESOURCE_INFO, 0, __VA_ARGS__)

ADJUST(add_level, CS_ACTION_ADD, CS_RESOURCE_IRQ, 0, 7)
ADJUST(remove_level, CS_ACTION_REMOVE, CS_RESOURCE_IRQ, 0, 7)
ADJUST(first_level, CS_ACTION_FIRST, CS_RESOURCE_IRQ, 0, 0)
ADJUST(next_level, CS_ACTION_NEXT, CS_RESOURCE_IRQ, 0, 0)
ADJUST(add_short, CS_ACTION_ADD, CS_RESOURCE_IO, 0x10, 0, 8, 0, 16)
ADJUST(remove_short, CS_ACTION_REMOVE, CS_RESOURCE_IO, 0x00, 0x06, 16, 0, 16)
ADJUST(first_short, CS_ACTION_FIRST, CS_RESOURCE_IO, 0, 0, 0, 0, 0)
ADJUST(next_short, CS_ACTION_NEXT, CS_RESOURCE_IO, 0x00, 0x01, 0, 0, 0)
ADJUST(add_long, CS_ACTION_ADD, CS_RESOURCE_IO, 0x10, 0, 0, 0, 8, 0, 0, 0, 0, 16)
ADJUST(remove_long, CS_ACTION_REMOVE, CS_RESOURCE_IO, 0x00, 0x06, 0, 0, 16, 0, 0, 0, 0, 16)
ADJUST(first_long, CS_ACTION_FIRST, CS_RESOURCE_IO, 0, 0, 0, 0, 0, 0, 0, 0, 0, 0)
ADJUST(next_long, CS_ACTION_NEXT, CS_RESOURCE_IO, 0x00, 0x01, 0, 0, 0, 0, 0, 0, 0, 0)

/* The last client of a full table asks, at its last socket: for any level or
   ports, for held ones, and with fields that are refused. */
CALL(irq, CS_REQUEST_IRQ, 16, 7, 0, CS_IRQ_DYNAMIC, 0, 0, 0xF0, 0xFF, 0xFF)
CALL(irq_by_pulse, CS_REQUEST_IRQ, 16, 7, 0, CS_IRQ_DYNAMIC | CS_IRQ_FORCE_PULSE, 0, 0, 0xF0, 0xFF,
     0xFF)
CALL(irq_shared, CS_REQUEST_IRQ, 16, 7, 0, CS_IRQ_DYNAMIC, 0, 0, 0xB0, 0x01, 0)
CALL(irq_never_fits, CS_REQUEST_IRQ, 16, 7, 0, CS_IRQ_EXCLUSIVE, 0, 0, 0xF0, 0x0F, 0)
CALL(irq_bad_args, CS_REQUEST_IRQ, 16, 7, 0, CS_IRQ_DYNAMIC, 0, 0, 0xF1, 0xFF, 0xFF)
CALL(irq_bad_attributes, CS_REQUEST_IRQ, 16, 7, 0, CS_IRQ_DYNAMIC, 1, 0, 0xF0, 0xFF, 0xFF)
CALL(irq_bad_handle, CS_REQUEST_IRQ, 0xFFFF, 7, 0, CS_IRQ_DYNAMIC, 0, 0, 0xF0, 0xFF, 0xFF)
CALL(release_irq, CS_RELEASE_IRQ, 8, 7, 0, CS_IRQ_DYNAMIC, 0, 3)
CALL(release_other_type, CS_RELEASE_IRQ, 8, 7, 0, CS_IRQ_EXCLUSIVE, 0, 3)
CALL(release_other_level, CS_RELEASE_IRQ, 8, 7, 0, CS_IRQ_DYNAMIC, 0, 4)
CALL(io, CS_REQUEST_IO, 16, 7, 0, 0xC8, 0x01, 8, 0, 0, 0, 0, 0, 16)
CALL(io_shared, CS_REQUEST_IO, 16, 7, 0, 0xC0, 0x01, 8, CS_IO_SHARED, 0, 0, 0, 0, 10)
CALL(io_met, CS_REQUEST_IO, 16, 7, 0, 0xC0, 0x01, 8, 0, 0, 0, 0, 0, 10)
CALL(io_unmanaged, CS_REQUEST_IO, 16, 7, 0, 0xC9, 0x01, 8, 0, 0, 0, 0, 0, 16)
CALL(io_past_the_last, CS_REQUEST_IO, 16, 7, 0, 0xFF, 0xFF, 2, 0, 0, 0, 0, 0, 16)
CALL(io_any, CS_REQUEST_IO, 16, 7, 0, 0, 0, 8, 0, 0, 0, 0, 0, 16)
CALL(io_any_one, CS_REQUEST_IO, 16, 7, 0, 0, 0, 1, CS_IO_SHARED, 0, 0, 0, 0, 1)
CALL(io_any_by_14, CS_REQUEST_IO, 16, 7, 0, 0, 0, 1, 0, 0, 0, 0, 0, 14)
CALL(io_any_by_15, CS_REQUEST_IO, 16, 7, 0, 0, 0, 6, 0, 0, 0, 0, 0, 15)
CALL(io_any_255, CS_REQUEST_IO, 16, 7, 0, 0, 0, 255, 0, 0, 0, 0, 0, 8)
CALL(io_no_port, CS_REQUEST_IO, 16, 7, 0, 0, 0, 0, 0, 0, 0, 0, 0, 16)
CALL(io_two_ranges, CS_REQUEST_IO, 16, 7, 0, 0, 0, 8, 0, 0, 0, 8, 0, 16)
CALL(io_bad_attributes, CS_REQUEST_IO, 16, 7, 0, 0, 0, 8, CS_IO_FIRST_SHARED, 0, 0, 0, 0, 16)
CALL(io_bad_lines, CS_REQUEST_IO, 16, 7, 0, 0, 0, 8, 0, 0, 0, 0, 0, 17)
CALL(io_bad_function, CS_REQUEST_IO, 16, 7, 1, 0, 0, 8, 0, 0, 0, 0, 0, 16)
CALL(io_bad_handle, CS_REQUEST_IO, 0xFFFF, 7, 0, 0, 0, 8, 0, 0, 0, 0, 0, 16)
CALL(io_bad_length, CS_REQUEST_IO, 16, 7, 0, 0, 0, 8, 0, 0, 0, 0, 0)
CALL(release_io, CS_RELEASE_IO, 8, 7, 0, 0xC0, 0x01, 8, 0, 0, 0, 0, 0, 16)
CALL(release_other_ports, CS_RELEASE_IO, 8, 7, 0, 0xC0, 0x01, 7, 0, 0, 0, 0, 0, 16)
CALL(release_two_ranges, CS_RELEASE_IO, 8, 7, 0, 0xC0, 0x01, 8, 0, 0, 0, 8, 0, 16)
CALL(mask, CS_REQUEST_SOCKET_MASK, 16, 7, 0, 0xFF, 0x0F)
CALL(mask_bad_events, CS_REQUEST_SOCKET_MASK, 16, 7, 0, 0xFF, 0x1F)
CALL(release_mask, CS_RELEASE_SOCKET_MASK, 16, 7, 0)

/* As many records as can be added, the lowest base last. */
static uint8_t boot_list[CS_BOOT_MOST][CS_BOOT_RECORD];

static void make_boot_list(void)
{
    for (unsigned i = 0; i < CS_BOOT_MOST; i++) {
        uint8_t *record = boot_list[i];
        record[0] = i < CS_LEVELS ? CS_RESOURCE_IRQ : CS_RESOURCE_IO;
        record[i < CS_LEVELS ? 2 : 3] = (uint8_t)(i < CS_LEVELS ? i : CS_BOOT_MOST - i);
        record[6] = 16;
    }
}

static void boot(void)
{
    answered =
        CS_BOOT_CODE(cs_boot(table, sizeof table, (const uint8_t *)boot_list, sizeof boot_list));
}

static void no_service(void)
{
    answered = cs_call(table, sizeof table, 0xFFFF, 0, NULL, 0);
}

/* Each call with a code that it has to answer on some table: else what was to be
   measured was not. */
static const struct {
    void (*once)(void);
    uint32_t code;
} calls[] = {
    {card_in, CS_SUCCESS},
    {card_out, CS_SUCCESS},
    {sharers, CS_SUCCESS},
    {register_client, CS_SUCCESS},
    {register_client, CS_OUT_OF_RESOURCE},
    {deregister_client, CS_SUCCESS},
    {deregister_client, CS_IN_USE},
    {add_level, CS_SUCCESS},
    {remove_level, CS_SUCCESS},
    {first_level, CS_SUCCESS},
    {next_level, CS_SUCCESS},
    {add_short, CS_SUCCESS},
    {remove_short, CS_SUCCESS},
    {first_short, CS_SUCCESS},
    {next_short, CS_SUCCESS},
    {add_long, CS_SUCCESS},
    {remove_long, CS_SUCCESS},
    {first_long, CS_SUCCESS},
    {next_long, CS_SUCCESS},
    {boot, CS_SUCCESS},
    {no_service, CS_UNSUPPORTED_SERVICE},
    {irq, CS_SUCCESS},
    {irq, CS_IN_USE},
    {irq, CS_NO_CARD},
    {irq_by_pulse, CS_SUCCESS},
    {irq_shared, CS_SUCCESS},
    {irq_never_fits, CS_BAD_IRQ},
    {irq_bad_args, CS_BAD_ARGS},
    {irq_bad_attributes, CS_BAD_ATTRIBUTE},
    {irq_bad_handle, CS_BAD_HANDLE},
    {release_irq, CS_SUCCESS},
    {release_other_type, CS_BAD_ATTRIBUTE},
    {release_other_level, CS_BAD_IRQ},
    {io, CS_SUCCESS},
    {io, CS_IN_USE},
    {io, CS_NO_CARD},
    {io_shared, CS_SUCCESS},
    {io_shared, CS_BAD_BASE},
    {io_met, CS_IN_USE},
    {io_met, CS_BAD_BASE},
    {io_unmanaged, CS_BAD_BASE},
    {io_past_the_last, CS_BAD_BASE},
    {io_any, CS_SUCCESS},
    {io_any_one, CS_SUCCESS},
    {io_any_one, CS_IN_USE},
    {io_any_by_14, CS_SUCCESS},
    {io_any_by_14, CS_IN_USE},
    {io_any_by_15, CS_SUCCESS},
    {io_any_by_15, CS_IN_USE},
    {io_any_255, CS_SUCCESS},
    {io_any_255, CS_IN_USE},
    {io_no_port, CS_BAD_SIZE},
    {io_two_ranges, CS_BAD_SIZE},
    {io_bad_attributes, CS_BAD_ATTRIBUTE},
    {io_bad_lines, CS_BAD_ATTRIBUTE},
    {io_bad_function, CS_BAD_SOCKET},
    {io_bad_handle, CS_BAD_HANDLE},
    {io_bad_length, CS_BAD_ARG_LENGTH},
    {release_io, CS_SUCCESS},
    {release_other_ports, CS_BAD_BASE},
    {release_two_ranges, CS_BAD_SIZE},
    {mask, CS_SUCCESS},
    {mask, CS_IN_USE},
    {mask_bad_events, CS_BAD_ATTRIBUTE},
    {release_mask, CS_SUCCESS},
    {release_mask, CS_BAD_SOCKET},
};
enum { CALLS = sizeof calls / sizeof *calls };

static bool measured[CALLS]; /* the call answered its code */

static void plain_c(void)
{
    static struct model m;
    answered = model_read(table, sizeof table, &m) ? CS_SUCCESS : CS_GENERAL_FAILURE;
}

/* ---- A call on a painted stack ---- */

static uint8_t stack[1 << 15];
static ucontext_t outside, inside;

static size_t touched(void (*once)(void), const uint8_t *image, int paint)
{
    size_t clean = 0;
    memcpy(table, image, sizeof table);
    memset(stack, paint, sizeof stack);
    getcontext(&inside);
    inside.uc_stack.ss_sp = stack;
    inside.uc_stack.ss_size = sizeof stack;
    inside.uc_link = &outside;
    makecontext(&inside, once, 0);
    swapcontext(&outside, &inside);
    while (clean < sizeof stack && stack[clean] == (uint8_t)paint)
        clean++;
    return sizeof stack - clean;
}

/* With two paints, as a call may write the bytes of one; beyond what calling
   nothing takes. */
static size_t stack_of(void (*once)(void), const uint8_t *image)
{
    size_t first = touched(once, image, 0xA5), second = touched(once, image, 0x3C);
    size_t base = touched(nothing, image, 0xA5);
    return (first > second ? first : second) - base;
}

/* ---- The tables ---- */

static size_t largest;

static void note(size_t taken)
{
    if (taken > largest)
        largest = taken;
}

static void measure(const uint8_t *image, bool good)
{
    for (unsigned i = 0; i < CALLS; i++) {
        size_t taken = stack_of(calls[i].once, image);
        calls[i].once();
        if ((CS_CODE(answered) != CS_GENERAL_FAILURE) != good) {
            fprintf(stderr, "stack: call %u: answered %08lX\n", i, (unsigned long)answered);
            exit(2);
        }
        measured[i] = measured[i] || CS_CODE(answered) == calls[i].code;
        note(taken);
    }
    note(stack_of(fresh, image));
}

static void all_measured(void)
{
    for (unsigned i = 0; i < CALLS; i++)
        if (!measured[i]) {
            fprintf(stderr, "stack: call %u never answered %02lX\n", i,
                    (unsigned long)calls[i].code);
            exit(2);
        }
}

static void measure_set(const struct model *m)
{
    static uint8_t image[CS_TABLE_SIZE];
    model_image(m, image);
    measure(image, true);
    image[CS_TABLE_SIZE - 1] = 1;
    measure(image, false);
}

/* The last socket without grants and the last client's mask, then without a card
   too. */
static void measure_places(struct model *m)
{
    m->io[CS_SOCKETS - 1].live = m->irq[CS_SOCKETS - 1].live = false;
    m->client[m->clients - 1].masks[CS_SOCKETS - 1].held = false;
    measure_set(m);
    m->card[CS_SOCKETS - 1] = false;
    measure_set(m);
}

/* All ports are managed, and seven cards of eight lines hold ports: 255 of 256 or,
   with the last socket's, all that eight lines tell apart. A search for one more
   passes many of the ports, or finds that all are barred. Then there are gaps between
   ranges, in which most ports are repeated. */
static void measure_searches(void)
{
    static struct model m;
    full_set(&m, CS_CLIENTS);
    m.range[0] = (struct range){0, CS_PORTS, true};
    m.ranges = 1;
    for (unsigned s = 0; s < CS_SOCKETS; s++)
        m.io[s] = (struct io_grant){s < CS_SOCKETS - 1, 1, (uint16_t)(s + 1), 1, 8, true};
    measure_set(&m);
    m.io[5] = (struct io_grant){true, 1, 0x100, 255, 8, true};
    measure_set(&m);
    m.io[6] = (struct io_grant){true, 1, 0x1FF, 1, 8, true};
    measure_set(&m);
    memset(m.io, 0, sizeof m.io);
    measure_set(&m);
    gapped_set(&m);
    measure_set(&m);
}

static void measure_all(void)
{
    static struct model m;
    struct chance c = {1};
    model_fresh(&m, CS_SOCKETS);
    measure_set(&m);
    for (unsigned i = 0; i < RANDOM_TABLES; i++) {
        random_set(&c, &m);
        measure_set(&m);
    }
    full_set(&m, CS_CLIENTS - 1);
    measure_set(&m);
    full_set(&m, CS_CLIENTS);
    measure_set(&m);
    measure_places(&m);
    measure_searches();
}

int main(void)
{
    static struct model m;
    static uint8_t image[CS_TABLE_SIZE];
    make_boot_list();
    measure_all();
    all_measured();
    full_set(&m, CS_CLIENTS);
    model_image(&m, image);
    printf("largest stack use of a call: %lu bytes  under %d: %s\n", (unsigned long)largest, BAR,
           largest < BAR ? "met" : "NOT MET");
    printf("stack use of plain C:        %lu bytes\n", (unsigned long)stack_of(plain_c, image));
    if (largest < CS_STACK && largest < BAR)
        return 0;
    printf("stack: card_services.h says less than %d bytes\n", CS_STACK);
    return 1;
}
