#include "names.h"

#include <stddef.h>

#include "card_services.h"

/* clang-format off */
#define NAMED(name) {CS_##name, #name}
/* clang-format on */

static const struct {
    uint32_t code;
    const char *name;
} names[] = {
    NAMED(SUCCESS),         NAMED(BAD_ATTRIBUTE),   NAMED(BAD_BASE),   NAMED(BAD_IRQ),
    NAMED(BAD_SIZE),        NAMED(BAD_SOCKET),      NAMED(NO_CARD),    NAMED(UNSUPPORTED_SERVICE),
    NAMED(GENERAL_FAILURE), NAMED(BAD_ARG_LENGTH),  NAMED(BAD_ARGS),   NAMED(IN_USE),
    NAMED(NO_MORE_ITEMS),   NAMED(OUT_OF_RESOURCE), NAMED(BAD_HANDLE),
};

const char *code_name(uint32_t code)
{
    for (size_t i = 0; i < sizeof names / sizeof *names; i++)
        if (names[i].code == code)
            return names[i].name;
    return "no code of document 01";
}
