/*
 * Uses the shared object of part.c. The program has a function with the name of one
 * of the library's calls: the shared object must not call it.
 */
#include "part.h"

int sn_survey(void);

int sn_survey(void)
{
    return 1;
}

int main(void)
{
    static const int32_t star[9] = {0, 2, 0, 2, 1, 2, 0, 2, 0};

    return part_peaks(3, star) == 4 && sn_survey() == 1 ? 0 : 1;
}
