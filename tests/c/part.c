/*
 * A part of a program that goes into a shared object, with the library inside it.
 */
#include "part.h"

#include "surface_network.h"

/* The rule that it goes by. */
static const uint8_t sheet[] = SN_RULE_SHEET(SN_THROUGH_LOWEST);

uint32_t part_peaks(uint32_t side, const int32_t *heights)
{
    uint8_t marks[SN_MAX_POSTS];
    size_t posts = (size_t)side * side;
    sn_counts counts = sn_survey(sheet, sizeof sheet, side, side, heights, posts, marks, posts);

    return counts.code == SN_OK ? counts.peaks : 0;
}
