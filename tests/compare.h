/* compare.h: the groups of the comparison, a prototype for each row of groups.h */
#ifndef COMPARE_H
#define COMPARE_H

#define GROUP(name, function, least) void function(void);
#include "groups.h"
#undef GROUP

#endif
