/*
 * A program without a C library: it brings memcpy and memset itself, and the archive
 * needs nothing else. Its status is 0 where the calls answer as they should.
 */
#include "surface_network.h"

void *memcpy(void *to, const void *from, size_t bytes);
void *memset(void *to, int byte, size_t bytes);

void *memcpy(void *to, const void *from, size_t bytes)
{
    uint8_t *put = (uint8_t *)to;
    const uint8_t *get = (const uint8_t *)from;

    while (bytes-- > 0)
        *put++ = *get++;
    return to;
}

void *memset(void *to, int byte, size_t bytes)
{
    uint8_t *put = (uint8_t *)to;

    while (bytes-- > 0)
        *put++ = (uint8_t)byte;
    return to;
}

static int wrong(void)
{
    static const int32_t star[9] = {0, 2, 0, 2, 1, 2, 0, 2, 0};
    static uint8_t marks[9], joins[9], splits[9], name[SN_MAX_NAME], file[SN_FILE_SIZE(3, 3)];
    static uint16_t dales[9], hills[9];
    static int32_t heights[9];
    sn_counts counts = sn_survey(SN_NO_SHEET, 3, 3, star, 9, marks, 9);
    sn_trial_counts trial = sn_trial(SN_NO_SHEET, 3, 3, star, 9, 4, 3);

    return !SN_VERSION_MATCHES() || counts.code != SN_OK || counts.peaks != 1 ||
        counts.pits != 2 || counts.saddles != 1 ||
        trial.code != SN_OK || trial.pits != 2 || trial.new_pits != 1 ||
        sn_settings(SN_NO_SHEET, name, SN_MAX_NAME).code != SN_OK ||
        sn_dales_and_hills(SN_NO_SHEET, 3, 3, 100, 100, star, 9, dales, 9, hills, 9).code ||
        dales[4] != 4 || hills[4] != 7 ||
        sn_joins_and_splits(SN_NO_SHEET, 3, 3, star, 9, joins, 9, splits, 9).code != SN_OK ||
        joins[1] != 1 || splits[1] != 0 ||
        sn_write_survey(3, 3, 100, 100, star, 9, file, sizeof file).code != SN_OK ||
        sn_read_survey(file, sizeof file, heights, 9).code != SN_OK || heights[7] != 2;
}

/* Where the kernel starts it: nobody called it, and the stack is aligned otherwise. */
__attribute__((force_align_arg_pointer, noreturn)) void _start(void);

void _start(void)
{
    long call = 60, status = wrong();

    for (;;)
        __asm__ volatile("syscall" : : "a"(call), "D"(status) : "rcx", "r11", "memory");
}
