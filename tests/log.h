/*
 * log.h: what stands after a run of calls, worked out from their log alone
 *
 * A log has the facts that a table said at its start and an entry for every call
 * since, with all that was given and all that was answered. For each kind of fact
 * one rule says which entry makes it, and one which entry gives it back; a fact
 * stands if the start said it or an entry made it, and no later one gave it back.
 * The model's rules have no part in this.
 */
#ifndef LOG_H
#define LOG_H

#include "model.h"

/* ---- Facts ---- */

/* What a table can say, each with its values in their order. */
enum kind {
    CLIENT,    /* handle, attributes, event mask */
    MASK,      /* handle, socket, events */
    LEVEL,     /* level, reserved or not */
    RANGE,     /* base, count, reserved or not */
    CARD,      /* socket */
    IO_GRANT,  /* socket, client, base, count, lines, shared or not */
    IRQ_GRANT, /* socket, client, level, manner */
    KINDS
};

enum { MOST_VALUES = 6 };
struct fact {
    enum kind kind;
    uint32_t value[MOST_VALUES];
};

/* No fact twice, and as many as a table has room for. */
enum { MOST_FACTS = CS_CLIENTS * (1 + CS_SOCKETS) + CS_LEVELS + CS_RANGES + 3 * CS_SOCKETS };
struct facts {
    unsigned many;
    struct fact fact[MOST_FACTS];
    bool more; /* there are others */
};

/* ---- The log: there is one at a time ---- */

/* Between the two each call that is told is an entry; outside them none is. */
void open_log(const struct model *said_at_start);
void close_log(void);

/* A boot list and a packet as they were given, and the packet as it was left. */
void log_call(uint16_t service, uint16_t handle, const uint8_t *given, const uint8_t *left,
              size_t len, uint32_t answer);
void log_card_in(uint32_t socket, uint32_t answer);
void log_card_out(uint32_t socket, uint32_t answer);
void log_sharers(uint32_t level, uint32_t answer);
void log_boot(const uint8_t *records, size_t len, uint64_t answer);

/* A cs_fresh that is refused: it makes nothing and gives nothing back. One that
   succeeds begins another run, and is told as wrong in this one. */
void log_fresh(uint32_t sockets, uint32_t answer);

/* ---- What it comes to ---- */

void what_stands(struct facts *out);

/* Something wrong: with a fact, or without one; and with the place in the log of
   an entry, which for a fact is the last that made it. */
enum { AT_START = -1, NOWHERE = -2 };
struct wrong {
    const char *what;
    int place;
    bool of_fact;
    struct fact fact;
};
void print_wrong(const struct wrong *w);

/* How much was compared and how much of it is wrong; the first few are told. */
enum { MOST_TOLD = 8 };
struct verdict {
    unsigned long compared, wrong;
    struct wrong told[MOST_TOLD];
};

/* Whether the table says exactly what stands, the number issued and the socket
   count too, and whether grants that stand meet only where they may. */
void judge_facts(struct verdict *v, const struct model *said);

/* Whether each entry answered what the log before it asks for. */
void judge_answers(struct verdict *v);

#endif
