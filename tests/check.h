/*
 * check.h: the archive beside the model
 *
 * One table is lent at a time, between guard bytes. Each question goes to the
 * archive and to the model; code, handle, count or place, every byte of table,
 * packet and boot list and the guards are compared, and the archive's answer is
 * handed on.
 */
#ifndef CHECK_H
#define CHECK_H

#include "model.h"

/* No more bytes than this are lent. */
#define MOST_LENT (65536 + CS_TABLE_SIZE)

/* Lends these bytes. The model reads them; what it refuses, the archive is to
   refuse with GENERAL_FAILURE at every question. */
void lend_bytes(const uint8_t *bytes, size_t len);
void lend_set(const struct model *m);
void lend_fresh(uint32_t sockets);

/* What a report is to say of the lent table, after it was lent. */
void describe(const char *format, ...);

/* The facts that the lent table says, if the model accepts it; its bytes, as the
   archive left them. */
bool lent_accepted(void);
const struct model *lent_facts(void);
const uint8_t *lent_table(void);

uint32_t ask_fresh(uint32_t sockets);
uint32_t ask_card_in(uint32_t socket);
uint32_t ask_card_out(uint32_t socket);
uint32_t ask_sharers(uint32_t level);

/* A packet of NULL is passed on as NULL. */
uint32_t ask_call(uint16_t service, uint16_t handle, const uint8_t *packet, size_t len);

/* RegisterClient with a packet that it accepts; DeregisterClient. */
uint32_t register_one(void);
uint32_t deregister(uint16_t handle);

/* A boot list of NULL is passed on as NULL. */
uint64_t ask_boot(const uint8_t *records, size_t len);

/* A run's log: what was lent and every question since, with the archive's answers; a
   cs_fresh of a run has to be refused. At the end, or after each question too, the
   table's bytes have to say what stands by the log alone; at the end the answers have
   to be those that the log asks for. */
enum judged { AT_THE_END, AFTER_EACH };
void begin_log(enum judged when);
void end_log(void);

/* The archive's answer, the packet of the last call and bytes of the table as it
   left them, beside those worked out by hand from document 01 and, for the table,
   docs/LAYOUT.md. */
void must_be(uint32_t answer, uint32_t code, uint16_t handle);
void must_boot(uint64_t answer, uint32_t code, uint32_t place);
void packet_must_be(const uint8_t *expected, size_t len);
void table_must_have(size_t at, const uint8_t *expected, size_t len);

/* How often the archive answered this code in the running group. */
unsigned long answered(uint32_t code);

/* The same, to calls of this service, whose number is below 256. */
unsigned long answered_to(uint16_t service, uint32_t code);

/* Something else that has to hold. */
void must_hold(const char *what, bool holds);

/* Runs a group, which has to make at least so many checks. */
void run_group(const char *name, void (*group)(void), unsigned long least);

/* Prints the summary; the program's exit status. */
int end_checks(void);

#endif
