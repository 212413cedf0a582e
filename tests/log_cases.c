/*
 * log_cases.c: short logs, and what stands after each, worked out by hand from
 * document 01; and logs with a wrong answer, or beside a table that says
 * something else, which have to be told
 */
#include <string.h>

#include "log.h"
#include "model_cases.h"

/* ---- Entries, in short ---- */

static void open_fresh(unsigned sockets)
{
    struct model m = {.sockets = sockets};
    open_log(&m);
}

/* SUCCESS, with a handle or a count. */
static uint32_t with(uint16_t number)
{
    return (uint32_t)number << 16;
}

/* The packet is left as it was given. */
static void entry(uint16_t service, uint16_t handle, const uint8_t *packet, size_t len,
                  uint32_t answer)
{
    log_call(service, handle, packet, packet, len, answer);
}

static void registered(uint16_t handle)
{
    static const uint8_t packet[CS_REGISTER_CLIENT_LENGTH] = {CS_IO_CLIENT, 0, 0x80};
    entry(CS_REGISTER_CLIENT, 0, packet, sizeof packet, with(handle));
}

static void deregistered(uint16_t handle, uint32_t answer)
{
    entry(CS_DEREGISTER_CLIENT, handle, NULL, CS_DEREGISTER_CLIENT_LENGTH, answer);
}

static void adjust_level(uint8_t action, uint8_t level, uint8_t attributes, uint32_t code)
{
    entry(CS_ADJUST_RESOURCE_INFO, 0, (uint8_t[]){action, CS_RESOURCE_IRQ, attributes, level},
          CS_ADJUST_IRQ_LENGTH, code);
}

static void short_range(uint8_t action, uint16_t base, uint8_t ports, uint8_t attributes,
                        uint32_t code)
{
    const uint8_t packet[CS_ADJUST_IO_SHORT_LENGTH] = {
        action, CS_RESOURCE_IO, (uint8_t)base, (uint8_t)(base >> 8), ports, attributes, CS_LINES};
    entry(CS_ADJUST_RESOURCE_INFO, 0, packet, sizeof packet, code);
}

static void long_range(uint8_t action, uint16_t base, uint16_t ports, uint8_t attributes,
                       uint32_t code)
{
    const uint8_t packet[CS_ADJUST_IO_LONG_LENGTH] = {
        action,
        CS_RESOURCE_IO,
        [2] = (uint8_t)base,
        [3] = (uint8_t)(base >> 8),
        [6] = (uint8_t)ports,
        [7] = (uint8_t)(ports >> 8),
        [10] = attributes,
        [11] = CS_LINES,
    };
    entry(CS_ADJUST_RESOURCE_INFO, 0, packet, sizeof packet, code);
}

static void mask(uint16_t handle, uint8_t socket, uint16_t events, uint32_t code)
{
    const uint8_t packet[] = {socket, 0, (uint8_t)events, (uint8_t)(events >> 8)};
    entry(CS_REQUEST_SOCKET_MASK, handle, packet, sizeof packet, code);
}

static void mask_released(uint16_t handle, uint8_t socket, uint32_t code)
{
    entry(CS_RELEASE_SOCKET_MASK, handle, (uint8_t[]){socket, 0}, CS_RELEASE_SOCKET_MASK_LENGTH,
          code);
}

/* AssignedIRQ as it was given. */
enum { NOT_ASSIGNED = 0xEE };

/* RequestIRQ of client 1, with AssignedIRQ as it was left. */
static void irq(uint8_t socket, uint8_t attributes, uint8_t info_1, uint16_t info_2,
                uint8_t assigned, uint32_t answer)
{
    const uint8_t given[] = {socket,       0,      attributes,      0,
                             NOT_ASSIGNED, info_1, (uint8_t)info_2, (uint8_t)(info_2 >> 8)};
    uint8_t left[sizeof given];
    memcpy(left, given, sizeof given);
    left[4] = assigned;
    log_call(CS_REQUEST_IRQ, 1, given, left, sizeof given, answer);
}

static void irq_released_by(uint16_t handle, uint8_t socket, uint16_t attributes, uint8_t level,
                            uint32_t answer)
{
    const uint8_t packet[CS_RELEASE_IRQ_LENGTH] = {socket, 0, (uint8_t)attributes,
                                                   (uint8_t)(attributes >> 8), level};
    entry(CS_RELEASE_IRQ, handle, packet, sizeof packet, answer);
}

static void irq_released(uint8_t socket, uint8_t type, uint8_t level, uint32_t answer)
{
    irq_released_by(1, socket, type, level, answer);
}

/* RequestIO of client 1, with the base as it was asked and as it was written. */
static void io_granted(uint8_t socket, uint16_t asked, uint16_t base, uint8_t ports,
                       uint8_t attributes, uint8_t lines)
{
    const uint8_t given[] = {socket, 0,          (uint8_t)asked, (uint8_t)(asked >> 8),
                             ports,  attributes, 0xAA,           0xAA,
                             0,      0xFF,       lines};
    uint8_t left[sizeof given];
    memcpy(left, given, sizeof given);
    left[2] = (uint8_t)base;
    left[3] = (uint8_t)(base >> 8);
    log_call(CS_REQUEST_IO, 1, given, left, sizeof given, with(1));
}

static void io_released_by(uint16_t handle, uint8_t socket, uint16_t base, uint8_t ports,
                           uint32_t answer)
{
    const uint8_t packet[CS_RELEASE_IO_LENGTH] = {socket, 0, (uint8_t)base, (uint8_t)(base >> 8),
                                                  ports};
    entry(CS_RELEASE_IO, handle, packet, sizeof packet, answer);
}

static void io_released(uint8_t socket, uint16_t base, uint8_t ports, uint32_t answer)
{
    io_released_by(1, socket, base, ports, answer);
}

/* ---- What is worked out by hand ---- */

/* These facts and no others: by kind, and then in the order of the log. */
static void stands(const char *what, unsigned many, const struct fact *by_hand)
{
    static struct facts got;
    what_stands(&got);
    bool all = got.many == many && !got.more;
    for (unsigned i = 0; all && i < many; i++)
        all = got.fact[i].kind == by_hand[i].kind &&
              memcmp(got.fact[i].value, by_hand[i].value, sizeof by_hand[i].value) == 0;
    expect(what, all);
}

/* So much is wrong, and this comes first, at this place. */
static void is_told(const struct verdict *v, unsigned long wrong, const char *first, int place)
{
    expect(first, v->wrong == wrong && v->compared >= wrong);
    expect("what is told",
           v->wrong > 0 && strcmp(v->told[0].what, first) == 0 && v->told[0].place == place);
}

static void answers_told(unsigned long wrong, const char *first, int place)
{
    struct verdict v = {0};
    judge_answers(&v);
    is_told(&v, wrong, first, place);
}

static void facts_told(const struct model *said, unsigned long wrong, const char *first, int place)
{
    struct verdict v = {0};
    judge_facts(&v, said);
    is_told(&v, wrong, first, place);
}

static void answers_good(const char *what)
{
    struct verdict v = {0};
    judge_answers(&v);
    expect(what, v.wrong == 0);
}

static void facts_good(const char *what, const struct model *said)
{
    struct verdict v = {0};
    judge_facts(&v, said);
    expect(what, v.wrong == 0);
}

/* ---- What stands ---- */

/* "N10 register, deregister, register: handle 2." */
static void n10(void)
{
    open_fresh(1);
    stands("nothing stands at first", 0, NULL);
    registered(1);
    stands("N10's first client", 1, (struct fact[]){{CLIENT, {1, CS_IO_CLIENT, 0x80}}});
    deregistered(1, with(1));
    stands("N10's client leaves", 0, NULL);
    registered(2);
    stands("N10's second client", 1, (struct fact[]){{CLIENT, {2, CS_IO_CLIENT, 0x80}}});
    deregistered(2, CS_IN_USE);
    stands("a holder stays", 1, (struct fact[]){{CLIENT, {2, CS_IO_CLIENT, 0x80}}});
    answers_good("N10's handles");
}

/* "Card out takes no grant or mask away." */
static void card_out(void)
{
    static const struct fact by_hand[] = {{MASK, {1, 0, 0x0801}},
                                          {CARD, {1}},
                                          {IO_GRANT, {0, 1, 0x300, 8, 16, 0}},
                                          {IRQ_GRANT, {0, 1, 3, EXCLUSIVE}}};
    open_fresh(2);
    log_card_in(0, CS_SUCCESS);
    log_card_in(1, CS_SUCCESS);
    log_card_in(1, CS_SUCCESS);
    log_card_in(2, CS_BAD_SOCKET);
    mask(1, 0, 0x0801, with(1));
    io_granted(0, 0x300, 0x300, 8, 0, 16);
    irq(0, 0, 0x23, 0, 3, with(1));
    log_card_out(0, CS_SUCCESS);
    log_card_out(257, CS_BAD_SOCKET);
    stands("card out", 4, by_hand);
    answers_good("card out's answers");
}

static const uint8_t boot_list[] = {
    2, 0x40, 5,    0,    0, 0, 0xFF, 0xFF, 0xFF, 0xFF, /* level 5, reserved */
    1, 0,    0xF8, 0xFF, 0, 0, 8,    0,    0,    0,    /* FFF8, 8 */
    1, 0,    0xFF, 0xFF, 0, 0, 1,    0,    0,    0,    /* FFFF, 1, managed by then */
    2, 0,    6,    0,    0, 0, 0,    0,    0,    0,    /* level 6 */
};

/* "it stops at the first refused, answers its place (from 0) and code, and earlier
   ones stay." */
static void boot_lists(void)
{
    static const struct fact by_hand[] = {{LEVEL, {5, 1}}, {RANGE, {0xFFF8, 8, 0}}};
    open_fresh(1);
    log_boot(boot_list, sizeof boot_list, CS_IN_USE | (uint64_t)2 << 32);
    stands("a boot list refused at place 2", 2, by_hand);
    open_fresh(1);
    log_boot(boot_list, 20, (uint64_t)2 << 32);
    stands("a boot list of two", 2, by_hand);
    adjust_level(CS_ACTION_REMOVE, 5, 0, CS_SUCCESS);
    stands("a boot list's level removed", 1, &by_hand[1]);
    short_range(CS_ACTION_REMOVE, 0xFFF8, 8, 0, CS_SUCCESS);
    stands("a boot list's range removed", 0, NULL);
    log_boot(boot_list, 19, CS_BAD_ARG_LENGTH | (uint64_t)1 << 32);
    stands("bytes too few for the second", 1, by_hand);
    log_boot(NULL, 0, 0);
    stands("no records", 1, by_hand);
    answers_good("places of boot lists");
}

/* "N6 levels 3 and 5 managed, 5 reserved; exclusive, mask 0028H from three sockets:
   3, 5, BAD_IRQ." */
static void n6(void)
{
    static const struct fact by_hand[] = {{LEVEL, {3, 0}},
                                          {LEVEL, {5, 1}},
                                          {IRQ_GRANT, {0, 1, 3, EXCLUSIVE}},
                                          {IRQ_GRANT, {1, 1, 5, EXCLUSIVE}}};
    open_fresh(3);
    adjust_level(CS_ACTION_ADD, 3, 0, CS_SUCCESS);
    adjust_level(CS_ACTION_ADD, 5, CS_RESERVE, CS_SUCCESS);
    irq(0, 0, 0x30, 0x0028, 3, with(1));
    irq(1, 0, 0x30, 0x0028, 5, with(1));
    irq(2, 0, 0x30, 0x0028, NOT_ASSIGNED, CS_BAD_IRQ);
    stands("N6", 4, by_hand);
    irq_released(0, CS_IRQ_EXCLUSIVE, 5, CS_BAD_IRQ);
    stands("N6, a release refused", 4, by_hand);
    irq_released(1, CS_IRQ_EXCLUSIVE, 5, with(1));
    stands("N6, a grant given back", 3, by_hand);
    answers_good("N6's answers");
}

/* "N7 only 3 named: dynamic level, then from another socket time-multiplexed
   BAD_IRQ, then from it dynamic level: two sharers." */
static void n7(void)
{
    static const struct fact by_hand[] = {{IRQ_GRANT, {0, 1, 3, DYNAMIC_LEVEL}},
                                          {IRQ_GRANT, {1, 1, 3, DYNAMIC_LEVEL}}};
    struct model said = {.sockets = 2,
                         .irq = {{true, 1, 3, DYNAMIC_LEVEL}, {true, 1, 3, DYNAMIC_LEVEL}}};
    open_fresh(2);
    log_sharers(3, with(0));
    irq(0, 2, 0xA3, 0, 3, with(1));
    irq(1, 1, 0xA3, 0, NOT_ASSIGNED, CS_BAD_IRQ);
    log_sharers(3, with(1));
    irq(1, 2, 0xA3, 0, 3, with(1));
    log_sharers(3, with(2));
    log_sharers(16, CS_BAD_IRQ);
    stands("N7", 2, by_hand);
    facts_good("N7's grants share", &said);
    irq_released(0, CS_IRQ_DYNAMIC, 3, with(1));
    log_sharers(3, with(1));
    log_sharers(4, with(0));
    answers_good("N7's sharers");
}

/* "N8 300, 16 managed, 300 to 307 held: base 0, 8 ports, all at 16 lines, gives
   308." */
static void n8(void)
{
    static const struct fact by_hand[] = {{RANGE, {0x300, 16, 0}},
                                          {IO_GRANT, {0, 1, 0x300, 8, 16, 0}},
                                          {IO_GRANT, {1, 1, 0x308, 8, 16, 1}}};
    struct model said = {
        .sockets = 2,
        .ranges = 1,
        .range = {{0x300, 16, false}},
        .io = {{true, 1, 0x300, 8, 16, false}, {true, 1, 0x308, 8, 16, true}},
    };
    open_fresh(2);
    short_range(CS_ACTION_ADD, 0x300, 16, 0, CS_SUCCESS);
    io_granted(0, 0x300, 0x300, 8, CS_IO_16_BIT, 16);
    io_granted(1, 0, 0x308, 8, CS_IO_SHARED, 16);
    stands("N8", 3, by_hand);
    facts_good("N8's grants do not meet", &said);
    io_released(0, 0x300, 7, CS_BAD_BASE);
    io_released(1, 0x308, 8, with(1));
    stands("N8, the second given back", 2, by_hand);
    answers_good("N8's answers");
}

/* The log that docs/READING.md works out. */
static void worked_out_on_paper(void)
{
    static const struct fact by_hand[] = {{CLIENT, {2, CS_IO_CLIENT, 0x80}},
                                          {RANGE, {0x300, 16, 0}}};
    struct model said = {
        .sockets = 2,
        .issued = 2,
        .clients = 1,
        .client = {{.handle = 2, .attributes = CS_IO_CLIENT, .event_mask = 0x80}},
        .ranges = 1,
        .range = {{0x300, 16, false}},
    };
    open_fresh(2);
    registered(1);
    log_card_in(1, CS_SUCCESS);
    short_range(CS_ACTION_ADD, 0x300, 16, 0, CS_SUCCESS);
    io_granted(1, 0, 0x300, 8, 0, 16);
    deregistered(1, CS_IN_USE);
    log_card_out(1, CS_SUCCESS);
    io_released(1, 0x300, 8, with(1));
    deregistered(1, with(1));
    registered(2);
    stands("the log worked out on paper", 2, by_hand);
    facts_good("its table", &said);
    answers_good("its answers");
}

/* A mask is given back by client and socket, and may come again. */
static void masks_given_back(void)
{
    static const struct fact by_hand[] = {{MASK, {1, 1, 2}}, {MASK, {2, 0, 3}}, {MASK, {1, 0, 0}}};
    open_fresh(2);
    mask(1, 0, 1, with(1));
    mask(1, 1, 2, with(1));
    mask(2, 0, 3, with(2));
    mask(1, 0, 4, CS_IN_USE);
    mask_released(1, 0, with(1));
    mask_released(1, 0, CS_BAD_SOCKET);
    stands("a mask given back", 2, by_hand);
    mask(1, 0, 0, with(1));
    stands("a mask of no event", 3, by_hand);
}

/* "Remove: no range with just that base and count BAD_BASE": one that was answered
   SUCCESS all the same gives nothing back. */
static void removed(void)
{
    static const struct fact by_hand[] = {{LEVEL, {3, 1}},
                                          {LEVEL, {4, 0}},
                                          {RANGE, {0x300, 16, 0}},
                                          {RANGE, {0x310, 256, 1}},
                                          {RANGE, {0x500, 16, 0}}};
    open_fresh(1);
    adjust_level(CS_ACTION_ADD, 3, CS_RESERVE, CS_SUCCESS);
    adjust_level(CS_ACTION_ADD, 4, 0, CS_SUCCESS);
    short_range(CS_ACTION_ADD, 0x300, 16, 0, CS_SUCCESS);
    long_range(CS_ACTION_ADD, 0x310, 256, CS_RESERVE, CS_SUCCESS);
    short_range(CS_ACTION_ADD, 0x500, 16, 0, CS_SUCCESS);
    stands("Add, in either form", 5, by_hand);
    adjust_level(CS_ACTION_ADD, 3, 0, CS_IN_USE);
    adjust_level(CS_ACTION_REMOVE, 3, 0, CS_IN_USE);
    long_range(CS_ACTION_REMOVE, 0x300, 16, 0, CS_IN_USE);
    long_range(CS_ACTION_REMOVE, 0x300, 8, 0, CS_BAD_BASE);
    stands("a Remove refused", 5, by_hand);
    long_range(CS_ACTION_REMOVE, 0x300, 8, 0, CS_SUCCESS);
    stands("a Remove of another count", 5, by_hand);
    long_range(CS_ACTION_REMOVE, 0x500, 16, 0, CS_SUCCESS);
    stands("Remove, in the other form", 4, by_hand);
    adjust_level(CS_ACTION_REMOVE, 3, 0, CS_SUCCESS);
    stands("a level removed", 3, &by_hand[1]);
}

/* First shows level 3, Next the range 300, 16: nothing comes or goes. */
static void shown(void)
{
    static const struct fact by_hand[] = {{LEVEL, {3, 0}}, {RANGE, {0x300, 16, 0}}};
    open_fresh(1);
    adjust_level(CS_ACTION_ADD, 3, 0, CS_SUCCESS);
    short_range(CS_ACTION_ADD, 0x300, 16, 0, CS_SUCCESS);
    log_call(CS_ADJUST_RESOURCE_INFO, 9, (uint8_t[]){2, 2, 0xFF, 0xFF}, (uint8_t[]){2, 2, 0, 3}, 4,
             CS_SUCCESS);
    log_call(CS_ADJUST_RESOURCE_INFO, 9, (uint8_t[]){3, 1, 0xFF, 2, 0, 0, 0},
             (uint8_t[]){3, 1, 0, 3, 16, 0, 16}, 7, CS_SUCCESS);
    adjust_level(CS_ACTION_NEXT, 3, 0, CS_NO_MORE_ITEMS);
    log_sharers(3, with(0));
    stands("First and Next", 2, by_hand);
}

/* "Dynamic is pulse if Force Pulse is set or the card lacks Level." Bits 5 and 6 of
   IRQInfo1 are Level and Pulse. */
static void manners_asked(void)
{
    static const struct {
        uint8_t attributes, info_1;
        uint32_t manner;
    } cases[] = {
        {CS_IRQ_EXCLUSIVE, 0x23, EXCLUSIVE},
        {CS_IRQ_EXCLUSIVE | CS_IRQ_FORCE_PULSE, 0x43, EXCLUSIVE},
        {CS_IRQ_TIME_MULTIPLEXED, 0x23, TIME_MULTIPLEXED},
        {CS_IRQ_TIME_MULTIPLEXED | CS_IRQ_FORCE_PULSE, 0x43, TIME_MULTIPLEXED},
        {CS_IRQ_DYNAMIC, 0xA3, DYNAMIC_LEVEL},
        {CS_IRQ_DYNAMIC | CS_IRQ_FIRST_SHARED, 0xE3, DYNAMIC_LEVEL},
        {CS_IRQ_DYNAMIC, 0xC3, DYNAMIC_PULSE},
        {CS_IRQ_DYNAMIC | CS_IRQ_FORCE_PULSE, 0xE3, DYNAMIC_PULSE},
    };
    for (size_t i = 0; i < sizeof cases / sizeof *cases; i++) {
        open_fresh(1);
        irq(0, cases[i].attributes, cases[i].info_1, 0, 3, with(1));
        stands("the manner asked", 1, (struct fact[]){{IRQ_GRANT, {0, 1, 3, cases[i].manner}}});
    }
}

/* A run that starts from other facts: what they say stands until it is given back,
   and the next handle is above those that were issued. */
static void other_starts(void)
{
    static const struct fact by_hand[] = {
        {CLIENT, {1, CS_IO_CLIENT, 0}},
        {CLIENT, {7, CS_IO_CLIENT, 0x80}},
        {MASK, {1, 0, 9}},
        {LEVEL, {3, 1}},
        {IRQ_GRANT, {1, 1, 3, 0}},
    };
    struct model m = {.sockets = 2, .issued = 6, .clients = 2, .ranges = 1};
    m.client[0] = (struct client){1, CS_IO_CLIENT, 0, {{true, 9}}};
    m.client[1] = (struct client){6, CS_IO_CLIENT, 0, {{false, 0}}};
    m.card[1] = true;
    m.level[3] = (struct level){true, true};
    m.range[0] = (struct range){0x300, 16, false};
    m.io[0] = (struct io_grant){true, 1, 0x300, 8, 10, true};
    m.irq[1] = (struct irq_grant){true, 1, 3, EXCLUSIVE};
    open_log(&m);
    facts_good("the start's facts stand", &m);
    io_released(0, 0x300, 8, with(1));
    short_range(CS_ACTION_REMOVE, 0x300, 16, 0, CS_SUCCESS);
    deregistered(6, with(6));
    log_card_out(1, CS_SUCCESS);
    registered(7);
    log_sharers(3, with(1));
    stands("after another start", 5, by_hand);
    answers_good("the answers after another start");
    registered(6);
    answers_told(1, "a handle that is not new", 6);
}

/* "Fresh: a count of 1 to 8 .. else GENERAL_FAILURE and no byte changed." */
static void fresh_refused(void)
{
    static const struct fact by_hand[] = {{CLIENT, {1, CS_IO_CLIENT, 0x80}}, {CARD, {1}}};
    struct model said = {.sockets = 2, .card = {false, true}, .issued = 1, .clients = 1};
    said.client[0] = (struct client){1, CS_IO_CLIENT, 0x80, {{false, 0}}};
    open_fresh(2);
    log_fresh(0, CS_GENERAL_FAILURE);
    registered(1);
    log_card_in(1, CS_SUCCESS);
    log_fresh(9, CS_GENERAL_FAILURE);
    log_fresh(257, CS_GENERAL_FAILURE);
    stands("a cs_fresh refused", 2, by_hand);
    facts_good("the table of a cs_fresh refused", &said);
    answers_good("the answer of a cs_fresh refused");
}

/* ---- Wrong answers ---- */

static void wrong_fresh(void)
{
    open_fresh(1);
    log_fresh(0, CS_GENERAL_FAILURE | with(1));
    answers_told(1, "a refusal answered a handle or a count", 0);
    open_fresh(1);
    log_card_in(0, CS_SUCCESS);
    log_fresh(257, CS_SUCCESS);
    answers_told(1, "a fresh table in the middle of a run", 1);
}

static void wrong_handles(void)
{
    static const uint8_t packet[CS_REGISTER_CLIENT_LENGTH];
    open_fresh(1);
    registered(1);
    deregistered(1, with(1));
    registered(1);
    answers_told(1, "a handle that is not new", 2);
    open_fresh(1);
    registered(0);
    answers_told(1, "a handle that is not new", 0);
    open_fresh(1);
    entry(CS_REGISTER_CLIENT, 4, packet, sizeof packet, CS_BAD_ATTRIBUTE | with(4));
    answers_told(1, "a refusal answered a handle or a count", 0);
}

static void wrong_counts(void)
{
    open_fresh(2);
    irq(0, 2, 0xA3, 0, 3, with(1));
    log_sharers(3, with(2));
    log_sharers(3, with(1));
    irq_released(0, CS_IRQ_DYNAMIC, 3, with(1));
    log_sharers(3, with(1));
    answers_told(2, "another number of sharers", 1);
    open_fresh(2);
    log_sharers(0, with(9));
    log_sharers(16, CS_BAD_IRQ | with(1));
    answers_told(2, "another number of sharers", 0);
    open_fresh(1);
    log_boot(boot_list, 19, CS_BAD_ARG_LENGTH | (uint64_t)2 << 32);
    answers_told(1, "a place past the list", 0);
}

/* "Writing AssignedIRQ before the last check." */
static void changed_packets(void)
{
    open_fresh(1);
    irq(0, 0, 0x23, 0, NOT_ASSIGNED, CS_BAD_IRQ);
    irq(0, 0, 0x23, 0, 3, CS_BAD_IRQ);
    answers_told(1, "a refusal changed its packet", 1);
    stands("a refusal makes nothing", 0, NULL);
}

/* ---- Tables that say something else ---- */

static void other_numbers(void)
{
    struct model said = {.sockets = 1, .issued = 1};
    open_fresh(1);
    registered(1);
    deregistered(1, with(1));
    facts_good("one issued", &said);
    said.issued = 0;
    facts_told(&said, 1, "the number issued is another", NOWHERE);
    said.issued = 1;
    said.sockets = 2;
    facts_told(&said, 1, "the socket count is another", NOWHERE);
}

/* One fact of each kind, and a table that says them all. */
static void make_one_of_each(struct model *said)
{
    *said = (struct model){.sockets = 1, .card = {true}, .issued = 1, .clients = 1, .ranges = 1};
    said->client[0] = (struct client){1, CS_IO_CLIENT, 0x80, {{true, 5}}};
    said->level[3] = (struct level){true, true};
    said->range[0] = (struct range){0x300, 16, false};
    said->io[0] = (struct io_grant){true, 1, 0x300, 8, 10, true};
    said->irq[0] = (struct irq_grant){true, 1, 3, TIME_MULTIPLEXED};
    open_fresh(1);
    log_card_in(0, CS_SUCCESS);
    registered(1);
    mask(1, 0, 5, with(1));
    adjust_level(CS_ACTION_ADD, 3, CS_RESERVE, CS_SUCCESS);
    short_range(CS_ACTION_ADD, 0x300, 16, 0, CS_SUCCESS);
    io_granted(0, 0, 0x300, 8, CS_IO_SHARED, 10);
    irq(0, 1, 0x23, 0, 3, with(1));
}

/* Another value in what the table says of the client and of what is managed, and of
   the grants. */
enum { BESIDE_GRANTS = 7, OF_GRANTS = 8 };
static void say_other(struct model *said, unsigned which)
{
    switch (which) {
    case 0:
        said->client[0].attributes = CS_MEMORY_CLIENT;
        break;
    case 1:
        said->client[0].event_mask = 0;
        break;
    case 2:
        said->client[0].masks[0].events = 4;
        break;
    case 3:
        said->level[3].reserved = false;
        break;
    case 4:
        said->range[0].base = 0x301;
        break;
    case 5:
        said->range[0].count = 17;
        break;
    default:
        said->range[0].reserved = true;
    }
}

static void say_other_grant(struct model *said, unsigned which)
{
    switch (which) {
    case 0:
        said->io[0].client = 2;
        break;
    case 1:
        said->io[0].base = 0x700;
        break;
    case 2:
        said->io[0].count = 7;
        break;
    case 3:
        said->io[0].lines = 16;
        break;
    case 4:
        said->io[0].shared = false;
        break;
    case 5:
        said->irq[0].client = 2;
        break;
    case 6:
        said->irq[0].level = 4;
        break;
    default:
        said->irq[0].manner = EXCLUSIVE;
    }
}

/* The fact that is said doesn't stand, and the one that stands isn't said. */
static void other_values(void)
{
    for (unsigned which = 0; which < BESIDE_GRANTS + OF_GRANTS; which++) {
        struct model said;
        make_one_of_each(&said);
        facts_good("one of each", &said);
        if (which < BESIDE_GRANTS)
            say_other(&said, which);
        else
            say_other_grant(&said, which - BESIDE_GRANTS);
        facts_told(&said, 2, "said and does not stand", NOWHERE);
    }
}

static void lost_and_left(void)
{
    struct model said, nothing = {.sockets = 1, .issued = 1};
    make_one_of_each(&said);
    facts_told(&nothing, 7, "stands and is not said", 1);
    mask_released(1, 0, with(1));
    facts_told(&said, 1, "said and does not stand", 2);
    io_released(0, 0x300, 8, with(1));
    facts_told(&said, 2, "said and does not stand", 2);
    irq_released(0, CS_IRQ_TIME_MULTIPLEXED, 3, with(1));
    facts_told(&said, 3, "said and does not stand", 2);
    adjust_level(CS_ACTION_REMOVE, 3, 0, CS_SUCCESS);
    short_range(CS_ACTION_REMOVE, 0x300, 16, 0, CS_SUCCESS);
    facts_told(&said, 5, "said and does not stand", 2);
    log_card_out(0, CS_SUCCESS);
    deregistered(1, with(1));
    facts_told(&said, 7, "said and does not stand", 1);
    facts_good("all given back", &nothing);
}

/* Releases of something else that were answered SUCCESS all the same: the grant stands,
   the table that still says it is good, and one that has lost it is told. */
static void stands_all_the_same(const char *what, struct fact grant, const struct model *said)
{
    struct model lost = {.sockets = 1};
    stands(what, 1, &grant);
    facts_good(what, said);
    facts_told(&lost, 1, "stands and is not said", 0);
}

/* "BAD_BASE unless this client holds that base and count on this socket." */
static void io_released_wrongly(void)
{
    static const struct {
        const char *what;
        uint16_t handle;
        uint8_t socket;
        uint16_t base;
        uint8_t ports;
    } cases[] = {
        {"ReleaseIO by another client", 2, 0, 0x300, 8},
        {"ReleaseIO by a client of the same low byte", 257, 0, 0x300, 8},
        {"ReleaseIO on another socket", 1, 1, 0x300, 8},
        {"ReleaseIO of the base before", 1, 0, 0x2FF, 8},
        {"ReleaseIO of a base of the same low byte", 1, 0, 0x200, 8},
        {"ReleaseIO of a base of the same high byte", 1, 0, 0x308, 8},
        {"ReleaseIO of fewer ports", 1, 0, 0x300, 7},
        {"ReleaseIO of more ports", 1, 0, 0x300, 9},
    };
    struct model said = {.sockets = 1, .io = {{true, 1, 0x300, 8, 10, true}}};
    for (size_t i = 0; i < sizeof cases / sizeof *cases; i++) {
        open_fresh(1);
        io_granted(0, 0x300, 0x300, 8, CS_IO_SHARED, 10);
        io_released_by(cases[i].handle, cases[i].socket, cases[i].base, cases[i].ports,
                       with(cases[i].handle));
        stands_all_the_same(cases[i].what, (struct fact){IO_GRANT, {0, 1, 0x300, 8, 10, 1}}, &said);
        io_released(0, 0x300, 8, with(1));
        stands("ReleaseIO of just that", 0, NULL);
    }
}

/* "BAD_IRQ unless this client holds this level on this socket; only then BAD_ATTRIBUTE
   if the type bits differ." */
static void irq_released_wrongly(void)
{
    static const struct {
        const char *what;
        uint16_t handle;
        uint8_t socket, type, level;
    } cases[] = {
        {"ReleaseIRQ by another client", 2, 0, CS_IRQ_DYNAMIC, 3},
        {"ReleaseIRQ by a client of the same low byte", 257, 0, CS_IRQ_DYNAMIC, 3},
        {"ReleaseIRQ on another socket", 1, 1, CS_IRQ_DYNAMIC, 3},
        {"ReleaseIRQ of another level", 1, 0, CS_IRQ_DYNAMIC, 4},
        {"ReleaseIRQ of level 19", 1, 0, CS_IRQ_DYNAMIC, 19},
        {"ReleaseIRQ of type exclusive", 1, 0, CS_IRQ_EXCLUSIVE, 3},
        {"ReleaseIRQ of type time-multiplexed", 1, 0, CS_IRQ_TIME_MULTIPLEXED, 3},
        {"ReleaseIRQ of type 3", 1, 0, 3, 3},
    };
    struct model said = {.sockets = 1, .irq = {{true, 1, 3, DYNAMIC_LEVEL}}};
    for (size_t i = 0; i < sizeof cases / sizeof *cases; i++) {
        open_fresh(1);
        irq(0, CS_IRQ_DYNAMIC, 0xA3, 0, 3, with(1));
        irq_released_by(cases[i].handle, cases[i].socket, cases[i].type, cases[i].level,
                        with(cases[i].handle));
        stands_all_the_same(cases[i].what, (struct fact){IRQ_GRANT, {0, 1, 3, DYNAMIC_LEVEL}},
                            &said);
        irq_released(0, CS_IRQ_DYNAMIC, 3, with(1));
        stands("ReleaseIRQ of just that", 0, NULL);
    }
}

/* A grant's own type gives it back, "Other attribute bits are ignored", and no other
   type does. Asked: the types with Force Pulse or without it, of a card with Level,
   Pulse and Share. */
static void irq_released_by_type(void)
{
    static const uint8_t asked[MANNERS] = {0, 1, 2, 6}, type[MANNERS] = {0, 1, 2, 2};
    for (uint8_t manner = 0; manner < MANNERS; manner++)
        for (uint8_t given = 0; given < 4; given++) {
            open_fresh(1);
            irq(0, asked[manner], 0xE3, 0, 3, with(1));
            irq_released_by(1, 0, 0xFFFC | given, 3, with(1));
            stands("ReleaseIRQ by the type", given == type[manner] ? 0 : 1,
                   (struct fact[]){{IRQ_GRANT, {0, 1, 3, manner}}});
        }
}

/* A grant from the start that was lost. */
static void lost_from_the_start(void)
{
    struct model m = {.sockets = 1, .irq = {{true, 1, 3, EXCLUSIVE}}};
    struct model nothing = {.sockets = 1};
    open_log(&m);
    log_card_out(0, CS_SUCCESS);
    facts_told(&nothing, 1, "stands and is not said", AT_START);
}

/* ---- Grants that meet ---- */

/* N1 to N4, and who shares. */
static void ports_that_meet(void)
{
    static const struct {
        struct io_grant grants[2];
        bool told;
    } cases[] = {
        {{{true, 1, 0x2F8, 8, 10, false}, {true, 1, 0x6F8, 8, 16, false}}, true},  /* N1 */
        {{{true, 1, 0x2F8, 8, 16, false}, {true, 1, 0x6F8, 8, 16, false}}, false}, /* N2 */
        {{{true, 1, 0x3E8, 8, 16, false}, {true, 1, 0x3F0, 8, 16, false}}, false}, /* N3 */
        {{{true, 1, 0x100, 1, 8, false}, {true, 1, 0x200, 1, 16, false}}, true},   /* N4 */
        {{{true, 1, 0x2F8, 8, 10, true}, {true, 1, 0x6F8, 8, 16, false}}, true},
        {{{true, 1, 0x2F8, 8, 10, false}, {true, 1, 0x6F8, 8, 16, true}}, true},
        {{{true, 1, 0x2F8, 8, 10, true}, {true, 1, 0x6F8, 8, 16, true}}, false},
        {{{true, 1, 0x300, 8, 16, false}, {true, 1, 0x307, 1, 16, false}}, true},
        {{{true, 1, 0x300, 8, 16, false}, {true, 1, 0x308, 1, 16, false}}, false},
    };
    for (size_t i = 0; i < sizeof cases / sizeof *cases; i++) {
        struct model said = {.sockets = 2};
        open_fresh(2);
        for (uint8_t s = 0; s < 2; s++) {
            const struct io_grant *g = &cases[i].grants[s];
            said.io[s] = *g;
            io_granted(s, g->base, g->base, g->count, g->shared ? CS_IO_SHARED : 0, g->lines);
        }
        if (cases[i].told)
            facts_told(&said, 2, "meets a grant of another socket", 0);
        else
            facts_good("ports that may stand", &said);
    }
}

/* "Two manners go together by a four by four table: only equal ones, and never
   exclusive." On two levels any two may stand. */
static void levels_that_meet(void)
{
    static const uint8_t asked[MANNERS] = {0, 1, 2, 6};
    for (uint8_t a = 0; a < MANNERS; a++)
        for (uint8_t b = 0; b < MANNERS; b++) {
            struct model said = {.sockets = 2, .irq = {{true, 1, 3, a}, {true, 1, 4, b}}};
            open_fresh(2);
            irq(0, asked[a], 0xE3, 0, 3, with(1));
            irq(1, asked[b], 0xE4, 0, 4, with(1));
            facts_good("two levels", &said);
            irq_released(1, asked[b] % 4, 4, with(1));
            irq(1, asked[b], 0xE3, 0, 3, with(1));
            said.irq[1].level = 3;
            if (a == b && a != EXCLUSIVE)
                facts_good("manners that go together", &said);
            else
                facts_told(&said, 2, "meets a grant of another socket", 0);
        }
}

/* ---- Room ---- */

static void room(void)
{
    static const uint8_t packet[640];
    struct model said = {.sockets = 1, .card = {true}};
    open_fresh(1);
    for (unsigned i = 0; i < 1000; i++)
        log_card_in(0, CS_SUCCESS);
    facts_good("a run of 1,000", &said);
    for (unsigned i = 0; i < 1000; i++)
        log_card_in(0, CS_SUCCESS);
    facts_told(&said, 1, "there was no room for an entry", NOWHERE);
    open_fresh(1);
    log_card_in(0, CS_SUCCESS);
    for (unsigned i = 0; i < 1000; i++)
        entry(0, 0, packet, sizeof packet, CS_UNSUPPORTED_SERVICE);
    facts_told(&said, 1, "there was no room for an entry", NOWHERE);
}

/* More masks than 16 clients can have. */
static void more_than_a_table_says(void)
{
    struct model said = {.sockets = 1};
    open_fresh(1);
    for (uint16_t handle = 1; handle <= MOST_FACTS + 1; handle++)
        mask(handle, 0, 0, with(handle));
    facts_told(&said, 1 + MOST_FACTS, "more stands than a table has room for", NOWHERE);
}

static void closed(void)
{
    open_fresh(1);
    log_card_in(0, CS_SUCCESS);
    close_log();
    log_card_out(0, CS_SUCCESS);
    stands("a closed log stays", 1, (struct fact[]){{CARD, {0}}});
}

void log_cases(void)
{
    n10();
    card_out();
    boot_lists();
    n6();
    n7();
    n8();
    worked_out_on_paper();
    masks_given_back();
    removed();
    shown();
    manners_asked();
    other_starts();
    fresh_refused();
    wrong_fresh();
    wrong_handles();
    wrong_counts();
    changed_packets();
    other_numbers();
    other_values();
    lost_and_left();
    io_released_wrongly();
    irq_released_wrongly();
    irq_released_by_type();
    lost_from_the_start();
    ports_that_meet();
    levels_that_meet();
    room();
    more_than_a_table_says();
    closed();
}
