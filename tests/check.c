#include "check.h"

#include <stdarg.h>
#include <stdio.h>
#include <string.h>

#include "layout.h"
#include "log.h"
#include "names.h"

/* ---- Counting and reporting ---- */

enum { MOST_REPORTS = 40, MOST_PRINTED = 32, CODES = 256, NUMBERED = 256 };

static const char *running = "";
static unsigned long checks, by_log, differ, seen[CODES];
static unsigned long seen_of[NUMBERED][CODES]; /* of cs_call, by service */
static char description[200];

/* Counts a difference; says whether it is still to be printed. */
static bool reports(void)
{
    differ++;
    if (differ == MOST_REPORTS + 1)
        printf("compare: further differences are counted and not printed\n");
    return differ <= MOST_REPORTS;
}

void must_hold(const char *what, bool holds)
{
    checks++;
    if (!holds && reports())
        printf("compare: %s: not so: %s\n", running, what);
}

/* An answer taken apart: its code and the number beside it. */
struct answer {
    uint32_t code, number;
    const char *number_is;
};

static struct answer taken_apart(uint32_t answer)
{
    return (struct answer){CS_CODE(answer), CS_HANDLE(answer), "handle or count"};
}

static struct answer boot_taken_apart(uint64_t answer)
{
    return (struct answer){CS_BOOT_CODE(answer), CS_BOOT_PLACE(answer), "place"};
}

static bool same_answer(struct answer a, struct answer b)
{
    return a.code == b.code && a.number == b.number;
}

static void print_answer(const char *who, struct answer answer)
{
    printf("  %s %02lX %s, %s %lu\n", who, (unsigned long)answer.code, code_name(answer.code),
           answer.number_is, (unsigned long)answer.number);
}

static void differs_by_hand(void)
{
    printf("compare: %s: the case worked out by hand differs%s%s\n", running,
           description[0] == 0 ? "" : ": ", description);
}

static void by_hand(struct answer got, uint32_t code, uint32_t number)
{
    struct answer expected = {code, number, got.number_is};
    checks++;
    if (!same_answer(got, expected) && reports()) {
        differs_by_hand();
        print_answer("expected", expected);
        print_answer("got     ", got);
    }
}

void must_be(uint32_t answer, uint32_t code, uint16_t handle)
{
    by_hand(taken_apart(answer), code, handle);
}

void must_boot(uint64_t answer, uint32_t code, uint32_t place)
{
    by_hand(boot_taken_apart(answer), code, place);
}

unsigned long answered(uint32_t code)
{
    return seen[code];
}

unsigned long answered_to(uint16_t service, uint32_t code)
{
    return seen_of[service][code];
}

void run_group(const char *name, void (*group)(void), unsigned long least)
{
    unsigned long checks_before = checks, differ_before = differ;
    running = name;
    description[0] = 0;
    memset(seen, 0, sizeof seen);
    memset(seen_of, 0, sizeof seen_of);
    group();
    unsigned long made = checks - checks_before;
    printf("compare: %s: %lu checks, %lu differ\n", name, made, differ - differ_before);
    if (made < least && reports())
        printf("compare: %s: at least %lu checks were to be made\n", name, least);
}

int end_checks(void)
{
    printf("compare: with the model %lu checks, with the log %lu\n", checks - by_log, by_log);
    printf("compare: %lu checks, %lu differ\n", checks, differ);
    return differ == 0 ? 0 : 1;
}

/* ---- Lent bytes: as they are, and as they should be, guards included ---- */

enum { GUARD = 61, GUARD_BYTE = 0xC5 };

struct lent {
    uint8_t is[GUARD + MOST_LENT + GUARD], should[GUARD + MOST_LENT + GUARD];
    size_t len;
};

/* The packet of cs_call or the boot list of cs_boot is lent beside the table. */
static struct lent table, packet;

static size_t room(const struct lent *l)
{
    return GUARD + l->len + GUARD;
}

static void lend(struct lent *l, const uint8_t *bytes, size_t len)
{
    l->len = len;
    memset(l->should, GUARD_BYTE, room(l));
    if (len > 0)
        memcpy(l->should + GUARD, bytes, len);
    memcpy(l->is, l->should, room(l));
}

static bool as_it_should(const struct lent *l)
{
    return memcmp(l->is, l->should, room(l)) == 0;
}

/* Places are counted from the first lent byte; guards are below 0 or past the
   length. */
static void print_first_difference(const char *what, const struct lent *l)
{
    size_t i = 0;
    while (i < room(l) && l->is[i] == l->should[i])
        i++;
    if (i < room(l))
        printf("  %s byte %ld of %lu: expected %02X, got %02X\n", what, (long)i - GUARD,
               (unsigned long)l->len, l->should[i], l->is[i]);
}

static void print_bytes(const uint8_t *bytes, size_t len)
{
    for (size_t i = 0; i < len && i < MOST_PRINTED; i++)
        printf(" %02X", bytes[i]);
}

static void bytes_by_hand(const uint8_t *got, const uint8_t *expected, size_t len)
{
    checks++;
    if (memcmp(got, expected, len) == 0 || !reports())
        return;
    differs_by_hand();
    printf("  expected");
    print_bytes(expected, len);
    printf("\n  got     ");
    print_bytes(got, len);
    printf("\n");
}

void packet_must_be(const uint8_t *expected, size_t len)
{
    bytes_by_hand(packet.is + GUARD, expected, len);
}

void table_must_have(size_t at, const uint8_t *expected, size_t len)
{
    bytes_by_hand(table.is + GUARD + at, expected, len);
}

/* ---- The lent table's facts ---- */

static bool accepted;
static struct model facts;

void lend_bytes(const uint8_t *bytes, size_t len)
{
    lend(&table, bytes, len);
    accepted = model_read(bytes, len, &facts);
    description[0] = 0;
}

void describe(const char *format, ...)
{
    va_list values;
    va_start(values, format);
    vsnprintf(description, sizeof description, format, values);
    va_end(values);
}

void lend_set(const struct model *m)
{
    static uint8_t image[CS_TABLE_SIZE];
    model_image(m, image);
    lend_bytes(image, sizeof image);
}

void lend_fresh(uint32_t sockets)
{
    struct model m;
    model_fresh(&m, sockets);
    lend_set(&m);
}

bool lent_accepted(void)
{
    return accepted;
}

const struct model *lent_facts(void)
{
    return &facts;
}

const uint8_t *lent_table(void)
{
    return table.is + GUARD;
}

/* ---- The log of a run ---- */

static bool judged_after_each;

static void take_verdict(const struct verdict *v)
{
    checks += v->compared;
    by_log += v->compared;
    for (unsigned long i = 0; i < v->wrong; i++)
        if (reports() && i < MOST_TOLD) {
            printf("compare: %s: the log: ", running);
            print_wrong(&v->told[i]);
        }
}

/* What the archive left is read, and not what the model works with. */
static void facts_by_log(void)
{
    static struct model said;
    struct verdict v = {0};
    must_hold("a run's table is well formed", model_read(lent_table(), table.len, &said));
    judge_facts(&v, &said);
    take_verdict(&v);
}

void begin_log(enum judged when)
{
    judged_after_each = when == AFTER_EACH;
    open_log(&facts);
}

void end_log(void)
{
    struct verdict v = {0};
    facts_by_log();
    judge_answers(&v);
    take_verdict(&v);
    judged_after_each = false;
    close_log();
}

/* ---- Questions ---- */

struct question {
    const char *entry, *argument_is;
    uint32_t argument;
    bool accepted;
    unsigned sockets, clients, issued, ranges;
    long service;          /* of cs_call; -1 of the others */
    const char *packet_is; /* this and the packet: of cs_call and cs_boot alone */
    const uint8_t *packet;
    size_t packet_len;
};

/* The table is told as it was before the answer. */
static struct question question(const char *entry, const char *argument_is, uint32_t argument)
{
    return (struct question){
        .entry = entry,
        .argument_is = argument_is,
        .argument = argument,
        .accepted = accepted,
        .sockets = facts.sockets,
        .clients = facts.clients,
        .issued = facts.issued,
        .ranges = facts.ranges,
        .service = -1,
        .packet_is = "packet",
    };
}

/* Lends the bytes that go with it; NULL is lent as no bytes. */
static void lend_with(struct question *q, const char *packet_is, const uint8_t *bytes, size_t len)
{
    q->packet_is = packet_is;
    q->packet = bytes == NULL ? packet.should : bytes;
    q->packet_len = len;
    lend(&packet, bytes, len);
}

static void print_packet(const struct question *q)
{
    if (q->service >= 0)
        printf(", service %02lX", (unsigned long)q->service);
    printf(", %s of %lu:", q->packet_is, (unsigned long)q->packet_len);
    print_bytes(q->packet, q->packet_len);
}

static void print_question(const struct question *q)
{
    printf("compare: %s: %s differs: %s %lu", running, q->entry, q->argument_is,
           (unsigned long)q->argument);
    if (q->packet != NULL)
        print_packet(q);
    printf("\n  table of %lu bytes", (unsigned long)table.len);
    if (q->accepted)
        printf(": %u sockets, %u clients, %u issued, %u ranges", q->sockets, q->clients, q->issued,
               q->ranges);
    else
        printf(", not well formed");
    printf("%s%s\n", description[0] == 0 ? "" : "; ", description);
}

static bool all_as_expected(struct answer expected, struct answer got)
{
    return same_answer(expected, got) && as_it_should(&table) && as_it_should(&packet);
}

static void count_answer(const struct question *q, uint32_t code)
{
    seen[code]++;
    if (q->service >= 0 && q->service < NUMBERED)
        seen_of[q->service][code]++;
}

/* After a difference table and packet are set right, so that the next question
   starts from what should be. */
static void compare_all(const struct question *q, struct answer expected, struct answer got)
{
    checks++;
    count_answer(q, got.code % CODES);
    if (judged_after_each)
        facts_by_log();
    if (all_as_expected(expected, got))
        return;
    if (reports()) {
        print_question(q);
        print_answer("expected", expected);
        print_answer("got     ", got);
        print_first_difference("table", &table);
        print_first_difference(q->packet_is, &packet);
    }
    memcpy(table.is, table.should, room(&table));
    memcpy(packet.is, packet.should, room(&packet));
}

static uint32_t compare(const struct question *q, uint32_t expected, uint32_t got)
{
    compare_all(q, taken_apart(expected), taken_apart(got));
    return got;
}

/* What the model answers; a success writes the table's new image. */
static uint32_t image_after(uint32_t answer)
{
    if (CS_CODE(answer) == CS_SUCCESS)
        model_image(&facts, table.should + GUARD);
    return answer;
}

uint32_t ask_fresh(uint32_t sockets)
{
    struct question q = question("cs_fresh", "sockets", sockets);
    uint32_t expected = CS_GENERAL_FAILURE;
    if (table.len == CS_TABLE_SIZE)
        expected = image_after(model_fresh(&facts, sockets));
    accepted = accepted || expected == CS_SUCCESS;
    uint32_t got = cs_fresh(table.is + GUARD, table.len, sockets);
    log_fresh(sockets, got);
    return compare(&q, expected, got);
}

uint32_t ask_card_in(uint32_t socket)
{
    struct question q = question("cs_card_in", "socket", socket);
    uint32_t expected = accepted ? image_after(model_card_in(&facts, socket)) : CS_GENERAL_FAILURE;
    uint32_t got = cs_card_in(table.is + GUARD, table.len, socket);
    log_card_in(socket, got);
    return compare(&q, expected, got);
}

uint32_t ask_card_out(uint32_t socket)
{
    struct question q = question("cs_card_out", "socket", socket);
    uint32_t expected = accepted ? image_after(model_card_out(&facts, socket)) : CS_GENERAL_FAILURE;
    uint32_t got = cs_card_out(table.is + GUARD, table.len, socket);
    log_card_out(socket, got);
    return compare(&q, expected, got);
}

uint32_t ask_sharers(uint32_t level)
{
    struct question q = question("cs_sharers", "level", level);
    uint32_t expected = accepted ? model_sharers(&facts, level) : CS_GENERAL_FAILURE;
    uint32_t got = cs_sharers(table.is + GUARD, table.len, level);
    log_sharers(level, got);
    return compare(&q, expected, got);
}

static uint32_t expected_of_call(uint16_t service, uint16_t handle, size_t len)
{
    if (!accepted)
        return CS_GENERAL_FAILURE;
    return image_after(model_call(&facts, service, handle, packet.should + GUARD, len));
}

uint32_t ask_call(uint16_t service, uint16_t handle, const uint8_t *bytes, size_t len)
{
    struct question q = question("cs_call", "handle", handle);
    q.service = service;
    lend_with(&q, "packet", bytes, len);
    uint32_t expected = expected_of_call(service, handle, len);
    uint8_t *passed = bytes == NULL ? NULL : packet.is + GUARD;
    uint32_t got = cs_call(table.is + GUARD, table.len, service, handle, passed, len);
    log_call(service, handle, bytes, packet.is + GUARD, len, got);
    return compare(&q, expected, got);
}

uint32_t register_one(void)
{
    static const uint8_t packet[CS_REGISTER_CLIENT_LENGTH] = {CS_IO_CLIENT, 0,
                                                              CS_EVENT_CARD_DETECT_CHANGE};
    return ask_call(CS_REGISTER_CLIENT, 0, packet, sizeof packet);
}

uint32_t deregister(uint16_t handle)
{
    static const uint8_t empty[1];
    return ask_call(CS_DEREGISTER_CLIENT, handle, empty, CS_DEREGISTER_CLIENT_LENGTH);
}

/* A refusal writes the image too: "earlier ones stay". */
static uint64_t expected_of_boot(size_t len)
{
    if (!accepted)
        return CS_GENERAL_FAILURE;
    uint64_t answer = model_boot(&facts, packet.should + GUARD, len);
    model_image(&facts, table.should + GUARD);
    return answer;
}

uint64_t ask_boot(const uint8_t *records, size_t len)
{
    struct question q = question("cs_boot", "length", (uint32_t)len);
    lend_with(&q, "boot list", records, len);
    uint64_t expected = expected_of_boot(len);
    const uint8_t *passed = records == NULL ? NULL : packet.is + GUARD;
    uint64_t got = cs_boot(table.is + GUARD, table.len, passed, len);
    log_boot(records, len, got);
    compare_all(&q, boot_taken_apart(expected), boot_taken_apart(got));
    return got;
}
