/*
 * A list that is shorter than its caller says: the call reads beyond it. The sanitizers
 * do not see that, and valgrind does.
 */
#include "surface_network.h"

#include <stdlib.h>

int main(void)
{
    volatile size_t posts = 9; /* which keeps the compiler from seeing it too */
    int32_t *heights = (int32_t *)calloc(posts - 1, sizeof *heights);
    uint32_t code;

    if (heights == NULL)
        return 1;
    code = sn_next_down(SN_NO_SHEET, 3, 3, 100, 100, heights, posts, 4).code;
    free(heights);
    return code != SN_OK && code != SN_HEIGHT_OUT_OF_RANGE;
}
