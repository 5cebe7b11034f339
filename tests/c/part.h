/* What the shared object of part.c shows. */
#ifndef PART_H
#define PART_H

#include <stdint.h>

/* The peaks of a square plot; 0 where it is refused. */
uint32_t part_peaks(uint32_t side, const int32_t *heights);

#endif
