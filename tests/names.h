/* names.h: the codes by document 01's names */
#ifndef NAMES_H
#define NAMES_H

#include <stdint.h>

const char *code_name(uint32_t code);

#endif
