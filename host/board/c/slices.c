/*
 * slices.c: where the slices of a step on an index or on postings stand, and the memory
 * beside them and beside a record.
 */
#include "runner.h"

void place_slices(struct slice *slices, uint32_t count, uint32_t aligned)
{
    uint32_t last = step % count, first = step / count % count;

    for (uint32_t i = 0; i < count; i++)
        slices[i].at = cards_start + (i + 1) * ROOM + (i == aligned ? 0 : (step + i) % 4);
    slices[first].at = cards_start;
    slices[last].at = cards_end - slices[last].len;
}

void each_side(const struct slice *slices, uint32_t count, void (*look)(const char *what, uint8_t *strip))
{
    for (const struct slice *one = slices; one < slices + count; one++) {
        if (one->at != cards_start)
            look(one->before, one->at - STRIP);
        if (one->at + one->len != cards_end)
            look(one->behind, one->at + one->len);
    }
}
