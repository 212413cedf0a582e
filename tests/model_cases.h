/*
 * model_cases.h: what the files of the model's own cases share
 */
#ifndef MODEL_CASES_H
#define MODEL_CASES_H

#include "model.h"

void expect(const char *what, bool holds);
void expect_code(const char *what, uint32_t answer, uint32_t code);

/* Eight sockets with cards and clients 1 and 2. */
void ready(struct model *m);

/* Add or Remove of an I/O range, in the short and in the long form; Add without
   attributes. */
uint32_t short_io(struct model *m, uint8_t action, uint16_t base, uint8_t ports,
                  uint8_t attributes);
uint32_t long_io(struct model *m, uint8_t action, uint32_t base, uint32_t ports);
uint32_t add_io(struct model *m, uint16_t base, uint8_t ports);

uint32_t deregister(struct model *m, uint16_t handle);

/* RequestIO of client 1, by its code, or with BasePort1 told too; ReleaseIO of
   client 1. */
uint32_t request_io_code(struct model *m, uint8_t socket, uint16_t base, uint8_t ports,
                         uint8_t attributes, uint8_t lines);
uint32_t request_io_base(struct model *m, uint8_t socket, uint16_t base, uint8_t ports,
                         uint8_t attributes, uint8_t lines, uint16_t *given);
uint32_t release_io_code(struct model *m, uint8_t socket, uint16_t base, uint8_t ports);

/* The cases of the other files, in the order in which they run. A row makes the
   prototype below and the call in model_cases.c. */
#define OTHER_CASES(CASES)                                                                         \
    CASES(io_cases)        /* model_io_cases.c: ports, RequestIO and ReleaseIO */                  \
    CASES(answering_cases) /* model_answering_cases.c: K2, the ports at which a card answers */    \
    CASES(layout_cases)    /* model_layout_cases.c: the table's bytes, now and before */           \
    CASES(log_cases)       /* log_cases.c: what stands after a log, which log.c works out */

#define CASES(function) void function(void);
OTHER_CASES(CASES)
#undef CASES

#endif
