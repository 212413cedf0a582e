#include "check.h"
#include "compare.h"
#include "sets.h"

/* What a run is after: that things come, that they come and go, or that sockets'
   grants and masks come and go. */
enum aim { COMING, GOING, OF_SOCKETS };

static bool of_sockets(uint16_t service)
{
    return service == CS_REQUEST_IRQ || service == CS_RELEASE_IRQ || service == CS_REQUEST_IO ||
           service == CS_RELEASE_IO || service == CS_REQUEST_SOCKET_MASK ||
           service == CS_RELEASE_SOCKET_MASK;
}

/* Where things are to come, Add before Remove, First and Next, and few that
   leave. */
static bool wanted(struct chance *c, const struct request *r, enum aim aim)
{
    if (aim == OF_SOCKETS)
        return of_sockets(r->service) || one_in(c, 8);
    if (r->service == CS_ADJUST_RESOURCE_INFO && aim == COMING)
        return r->packet[0] == CS_ACTION_ADD || one_in(c, 6);
    if (aim == COMING && r->service == CS_DEREGISTER_CLIENT)
        return one_in(c, 4);
    return one_in(c, 2);
}

static void ask_request(struct chance *c, enum aim aim)
{
    struct request r;
    do
        random_request(c, lent_facts(), &r);
    while (!wanted(c, &r, aim));
    ask_call(r.service, r.handle, r.packet, r.len);
}

/* Mostly near the limit; else the same with one of the bits 8 to 31. */
static uint32_t some_number(struct chance *c, uint32_t limit)
{
    uint32_t near = pick(c, limit + 2);
    return one_in(c, 16) ? near | (uint32_t)1 << (8 + pick(c, 24)) : near;
}

static void ask_boot_list(struct chance *c)
{
    uint8_t records[MOST_BOOT_LIST];
    ask_boot(records, random_boot_list(c, lent_facts(), records));
}

/* Cards come more often than they go: requests want one. */
static void ask_card(struct chance *c)
{
    uint32_t socket = some_number(c, CS_SOCKETS);
    if (one_in(c, 4))
        ask_card_out(socket);
    else
        ask_card_in(socket);
}

static void random_question(struct chance *c, enum aim aim)
{
    switch (pick(c, aim == OF_SOCKETS ? 64 : 16)) {
    case 0:
    case 1:
        ask_card(c);
        break;
    case 2:
        ask_sharers(some_number(c, CS_LEVELS));
        break;
    case 3:
        ask_boot_list(c);
        break;
    default:
        ask_request(c, aim);
    }
}

/* cs_fresh on the table as it stands, with a number of sockets that there can't be. */
static void ask_refused_fresh(void)
{
    static const uint32_t wrong[] = {0, CS_SOCKETS + 1, 257};
    static unsigned asked;
    must_be(ask_fresh(wrong[asked++ % 3]), CS_GENERAL_FAILURE, 0);
}

/* The questions of a run by their place, and a cs_fresh after each 50th. */
static void ask_at(unsigned place, struct chance *c, enum aim aim)
{
    random_question(c, aim);
    if (place % 50 == 49)
        ask_refused_fresh();
}

static void run_on(struct chance *c, unsigned questions)
{
    for (unsigned i = 0; i < questions; i++)
        ask_at(i, c, i / 100 % 4 != 3 ? COMING : GOING);
}

/* ---- The codes that runs have to see ---- */

/* Every code that document 01 has for a service, but for GENERAL_FAILURE, which
   is the table's. */
static const struct {
    uint16_t service;
    unsigned many;
    uint8_t codes[11];
} gives[] = {
    {CS_REGISTER_CLIENT, 4, {CS_SUCCESS, CS_BAD_ARG_LENGTH, CS_BAD_ATTRIBUTE, CS_OUT_OF_RESOURCE}},
    {CS_DEREGISTER_CLIENT, 4, {CS_SUCCESS, CS_BAD_ARG_LENGTH, CS_BAD_HANDLE, CS_IN_USE}},
    {CS_ADJUST_RESOURCE_INFO,
     11,
     {CS_SUCCESS, CS_BAD_ARG_LENGTH, CS_BAD_ARGS, CS_UNSUPPORTED_SERVICE, CS_BAD_ATTRIBUTE,
      CS_BAD_IRQ, CS_IN_USE, CS_BAD_SIZE, CS_BAD_BASE, CS_OUT_OF_RESOURCE, CS_NO_MORE_ITEMS}},
    {CS_REQUEST_IRQ,
     9,
     {CS_SUCCESS, CS_BAD_ARG_LENGTH, CS_BAD_HANDLE, CS_BAD_SOCKET, CS_NO_CARD, CS_BAD_ATTRIBUTE,
      CS_BAD_ARGS, CS_IN_USE, CS_BAD_IRQ}},
    {CS_RELEASE_IRQ,
     6,
     {CS_SUCCESS, CS_BAD_ARG_LENGTH, CS_BAD_HANDLE, CS_BAD_SOCKET, CS_BAD_IRQ, CS_BAD_ATTRIBUTE}},
    {CS_REQUEST_IO,
     9,
     {CS_SUCCESS, CS_BAD_ARG_LENGTH, CS_BAD_HANDLE, CS_BAD_SOCKET, CS_NO_CARD, CS_BAD_ATTRIBUTE,
      CS_BAD_SIZE, CS_IN_USE, CS_BAD_BASE}},
    {CS_RELEASE_IO,
     6,
     {CS_SUCCESS, CS_BAD_ARG_LENGTH, CS_BAD_HANDLE, CS_BAD_SOCKET, CS_BAD_SIZE, CS_BAD_BASE}},
    {CS_REQUEST_SOCKET_MASK,
     7,
     {CS_SUCCESS, CS_BAD_ARG_LENGTH, CS_BAD_HANDLE, CS_BAD_SOCKET, CS_NO_CARD, CS_BAD_ATTRIBUTE,
      CS_IN_USE}},
    {CS_RELEASE_SOCKET_MASK, 4, {CS_SUCCESS, CS_BAD_ARG_LENGTH, CS_BAD_HANDLE, CS_BAD_SOCKET}},
};
enum { SERVICES = sizeof gives / sizeof *gives };

/* Each of the service's codes so often, and no other; the number of calls. */
static unsigned long saw_all_of(unsigned service, unsigned long least)
{
    unsigned long calls = 0, all = 0;
    for (uint32_t code = 0; code < 256; code++)
        all += answered_to(gives[service].service, code);
    for (unsigned i = 0; i < gives[service].many; i++) {
        unsigned long times = answered_to(gives[service].service, gives[service].codes[i]);
        must_hold("a run gave each service's codes often enough", times >= least);
        calls += times;
    }
    must_hold("a run gave a service no other code", calls == all);
    return calls;
}

static void saw_all(unsigned long least)
{
    for (unsigned i = 0; i < SERVICES; i++)
        saw_all_of(i, least);
    must_hold("there were other services", answered(CS_UNSUPPORTED_SERVICE) >= least);
}

/* ---- Runs ---- */

void runs_from_fresh(void)
{
    for (uint64_t seed = 1; seed <= 120; seed++) {
        struct chance c = {seed};
        lend_fresh((uint32_t)(1 + seed % CS_SOCKETS));
        begin_log(seed == 50 ? AFTER_EACH : AT_THE_END);
        run_on(&c, 1000);
        end_log();
        ask_fresh(some_number(&c, CS_SOCKETS));
    }
    saw_all(10);
    must_hold("a run did enough", answered(CS_SUCCESS) >= 15000);
}

/* Every eighth is a full table. */
void runs_from_sets(void)
{
    static struct model m;
    for (uint64_t seed = 1001; seed <= 1800; seed++) {
        struct chance c = {seed};
        if (seed % 8 == 0)
            full_set(&m, 8 + pick(&c, CS_CLIENTS - 7));
        else
            random_set(&c, &m);
        lend_set(&m);
        begin_log(seed % 150 == 0 ? AFTER_EACH : AT_THE_END);
        run_on(&c, 100);
        end_log();
    }
    saw_all(50);
    must_hold("a run did enough", answered(CS_SUCCESS) >= 15000);
}

/* 100,000 calls of the six services that name a socket, at least. */
void runs_of_sockets(void)
{
    static struct model m;
    unsigned long calls = 0;
    for (uint64_t seed = 2001; seed <= 2450; seed++) {
        struct chance c = {seed};
        do
            random_set(&c, &m);
        while (m.clients == 0);
        lend_set(&m);
        begin_log(seed % 150 == 0 ? AFTER_EACH : AT_THE_END);
        for (unsigned i = 0; i < 320; i++)
            ask_at(i, &c, OF_SOCKETS);
        end_log();
    }
    for (unsigned i = 0; i < SERVICES; i++)
        if (of_sockets(gives[i].service))
            calls += saw_all_of(i, 300);
    must_hold("a run had enough calls that name a socket", calls >= 100000);
}
