/*
 * compare.c: the archive and the model, question by question
 *
 * Ends with 'compare: N checks, 0 differ' and status 0, or with status 1.
 */
#include "compare.h"

#include "check.h"

/* Each group with the least number of checks that it has to make. */
static const struct {
    const char *name;
    void (*group)(void);
    unsigned long least;
} groups[] = {
#define GROUP(name, function, least) {name, function, least},
#include "groups.h"
#undef GROUP
};

int main(void)
{
    for (unsigned i = 0; i < sizeof groups / sizeof *groups; i++)
        run_group(groups[i].name, groups[i].group, groups[i].least);
    return end_checks();
}
