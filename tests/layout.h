/*
 * layout.h: a set of facts as the 8,192 bytes of a table, and back
 *
 * Written from docs/LAYOUT.md.
 */
#ifndef LAYOUT_H
#define LAYOUT_H

#include "model.h"

/* Where the parts of the image stand. */
enum {
    AT_LAYOUT = 0,
    AT_SOCKETS = 1,
    AT_CLIENT_COUNT = 2,
    AT_RANGE_COUNT = 3,
    AT_ISSUED = 4,
    AT_CARDS = 6,
    AT_LEVELS = 14,
    AT_RANGES = 46,
    AT_HANDLES = 270,
    AT_ATTRIBUTES = 400,
    AT_EVENTS = 464,
    AT_IO = 592,
    AT_IRQ = 1296,
    AT_SPARE = 1552,
    AT_MASKS = 1664,
    AT_REST = 3712
};

/* The first byte: the mark of this layout. */
enum { THIS_LAYOUT = 67 };

/* How many places there are: of clients in the runs, one more among the handles, and
   seats. Only the first CS_CLIENTS and CS_SOCKETS of them are used. */
enum { CLIENT_PLACES = 64, HANDLE_PLACES = 65, SEATS = 64 };

/* Where the fields stand in their records, and how long the records are. */
enum { LEVEL_MANAGED = 0, LEVEL_RESERVED = 1, LEVEL_SIZE = 2 };
enum { RANGE_BASE = 0, RANGE_COUNT = 2, RANGE_RESERVED = 6, RANGE_SIZE = 7 };
enum { IO_CLIENT = 0, IO_BASE = 2, IO_COUNT = 4, IO_LINES = 5, IO_SHARED = 6, IO_SPARE = 7 };
enum { IO_SIZE = 11 };
enum { IRQ_CLIENT = 0, IRQ_LEVEL = 2, IRQ_MANNER = 3, IRQ_SIZE = 4 };

/* How long a client's part of each run is; of its masks there is one for each seat. */
enum { HANDLE_SIZE = 2, ATTRIBUTES_SIZE = 1, EVENTS_SIZE = 2, MASK_SIZE = 2 };
enum { MASKS_SIZE = MASK_SIZE * SEATS };

/* The image of a set within the limits; the set need not be well formed, but its
   attributes have to fit a byte and its masks a word. */
void model_image(const struct model *m, uint8_t out[CS_TABLE_SIZE]);

/* Accepts exactly the images of well-formed sets; then *m is that set. */
bool model_read(const uint8_t *bytes, size_t len, struct model *m);

/* Where a mask's word stands: of the client in this place, for this seat. The word is
   0 for none, else one more than the mask's events. */
size_t mask_place(unsigned client, unsigned seat);

#endif
