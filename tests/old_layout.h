/*
 * old_layout.h: a set of facts as the bytes of the layout before this one
 *
 * Keepers that had that layout may have saved tables, and each of those has to be
 * refused: tests lend them. Written from docs/LAYOUT.md as it was then; nothing is
 * shared with layout.h.
 */
#ifndef OLD_LAYOUT_H
#define OLD_LAYOUT_H

#include "model.h"

/* The old image of a set within the limits. */
void old_image(const struct model *m, uint8_t out[CS_TABLE_SIZE]);

#endif
