/*
 * Mistakes of which the header makes gcc warn, by -DMISTAKE: 1 to 34 a length beyond
 * its list, for each list of each call; 35 to 38 a null list with a length; 39 to 43
 * an answer that is not looked at; 44 to 67 a list that a call writes lent as another
 * of its lists too, for each two of them; 68 and 69, 70, 71 the first three of a trial;
 * 0 none.
 */
#include "surface_network.h"

#define LENGTH_OF(list, length) (MISTAKE == (list) ? (length) + 1 : (length))
#define LENGTH(list) LENGTH_OF(list, 9)

/* A list, or another one in its place. */
#define BYTES(mistake, list, other) ((uint8_t *)OR(mistake, list, other))
#define ENTRIES(mistake, list, other) ((uint16_t *)OR(mistake, list, other))
#define HEIGHTS(mistake, list, other) ((int32_t *)OR(mistake, list, other))
#define OR(mistake, list, other) (MISTAKE == (mistake) ? (void *)(other) : (void *)(list))

static int32_t heights[9];
static uint8_t sheet[9], name[SN_MAX_NAME], marks[9], ring[SN_RING_LENGTH], file[9];
static uint8_t joins[9], splits[9];
static uint16_t line[9], dales[9], hills[9];

static uint32_t lengths(void)
{
    uint32_t sum = 0;

    sum += sn_settings(sheet, LENGTH(1), name, LENGTH_OF(2, SN_MAX_NAME)).code;
    sum += sn_survey(sheet, LENGTH(3), 3, 3, heights, LENGTH(4), marks, LENGTH(5)).code;
    sum += sn_reshoot(sheet, LENGTH(6), 3, 3, heights, LENGTH(7), marks, LENGTH(8), 0, 0).code;
    sum += sn_ring(sheet, LENGTH(9), 3, 3, heights, LENGTH(10), 0, ring,
                   LENGTH_OF(11, SN_RING_LENGTH)).code;
    sum += sn_next_down(sheet, LENGTH(12), 3, 3, 1, 1, heights, LENGTH(13), 0).code;
    sum += sn_next_up(sheet, LENGTH(14), 3, 3, 1, 1, heights, LENGTH(15), 0).code;
    sum += sn_thalweg(sheet, LENGTH(16), 3, 3, 1, 1, heights, LENGTH(17), 0, 0, line,
                      LENGTH(18)).code;
    sum += sn_ridge(sheet, LENGTH(19), 3, 3, 1, 1, heights, LENGTH(20), 0, 0, line,
                    LENGTH(21)).code;
    sum += sn_dales_and_hills(sheet, LENGTH(22), 3, 3, 1, 1, heights, LENGTH(23), dales,
                              LENGTH(24), hills, LENGTH(25)).code;
    sum += sn_joins_and_splits(sheet, LENGTH(26), 3, 3, heights, LENGTH(27), joins, LENGTH(28),
                               splits, LENGTH(29)).code;
    sum += sn_read_survey(file, LENGTH(30), heights, LENGTH(31)).code;
    sum += sn_write_survey(3, 3, 1, 1, heights, LENGTH(32), file, LENGTH(33)).code;
    sum += sn_trial(sheet, LENGTH(68), 3, 3, heights, LENGTH(69), 0, 0).code;
    return sum + (uint32_t)sn_file_posts(file, LENGTH(34));
}

static uint32_t nulls(void)
{
    uint32_t sum = 0;

    sum += sn_survey(SN_NO_SHEET, 3, 3, heights, 9, MISTAKE == 35 ? NULL : marks, 9).code;
    sum += sn_ring(SN_NO_SHEET, 3, 3, heights, 9, 0, MISTAKE == 36 ? NULL : ring,
                   SN_RING_LENGTH).code;
    sum += sn_settings(MISTAKE == 37 ? NULL : sheet, 9, name, SN_MAX_NAME).code;
    sum += sn_joins_and_splits(SN_NO_SHEET, 3, 3, heights, 9, joins, 9,
                               MISTAKE == 38 ? NULL : splits, 9).code;
    sum += sn_trial(SN_NO_SHEET, 3, 3, MISTAKE == 70 ? NULL : heights, 9, 0, 0).code;
    /* No mistake: without entries two lists may both be null. */
    return sum + sn_read_survey(NULL, 0, NULL, 0).code;
}

static uint32_t answers(void)
{
#if MISTAKE == 39
    sn_survey(SN_NO_SHEET, 3, 3, heights, 9, marks, 9);
#elif MISTAKE == 40
    sn_ring(SN_NO_SHEET, 3, 3, heights, 9, 0, ring, SN_RING_LENGTH);
#elif MISTAKE == 41
    sn_settings(sheet, 9, name, SN_MAX_NAME);
#elif MISTAKE == 42
    sn_version();
#elif MISTAKE == 43
    sn_joins_and_splits(SN_NO_SHEET, 3, 3, heights, 9, joins, 9, splits, 9);
#elif MISTAKE == 71
    sn_trial(SN_NO_SHEET, 3, 3, heights, 9, 0, 0);
#endif
    return 0;
}

static uint32_t shared_lists(void)
{
    uint32_t sum = 0;

    sum += sn_settings(sheet, 9, BYTES(44, name, sheet), 9).code;
    sum += sn_survey(sheet, 9, 3, 3, heights, 9, BYTES(45, marks, sheet), 9).code;
    sum += sn_survey(sheet, 9, 3, 3, heights, 9, BYTES(46, marks, heights), 9).code;
    sum += sn_reshoot(sheet, 8, 3, 3, HEIGHTS(47, heights, sheet), 2, marks, 9, 0, 0).code;
    sum += sn_reshoot(sheet, 8, 3, 3, heights, 9, BYTES(48, marks, sheet), 9, 0, 0).code;
    sum += sn_reshoot(sheet, 8, 3, 3, heights, 9, BYTES(49, marks, heights), 9, 0, 0).code;
    sum += sn_ring(sheet, 8, 3, 3, heights, 9, 0, BYTES(50, ring, sheet), 8).code;
    sum += sn_ring(sheet, 8, 3, 3, heights, 9, 0, BYTES(51, ring, heights), 8).code;
    sum += sn_thalweg(sheet, 8, 3, 3, 1, 1, heights, 9, 0, 0, ENTRIES(52, line, sheet), 4).code;
    sum += sn_thalweg(sheet, 8, 3, 3, 1, 1, heights, 9, 0, 0, ENTRIES(53, line, heights), 9).code;
    sum += sn_ridge(sheet, 8, 3, 3, 1, 1, heights, 9, 0, 0, ENTRIES(54, line, sheet), 4).code;
    sum += sn_ridge(sheet, 8, 3, 3, 1, 1, heights, 9, 0, 0, ENTRIES(55, line, heights), 9).code;
    sum += sn_dales_and_hills(sheet, 8, 3, 3, 1, 1, heights, 9, ENTRIES(56, dales, sheet), 4,
                              hills, 9).code;
    sum += sn_dales_and_hills(sheet, 8, 3, 3, 1, 1, heights, 9, ENTRIES(57, dales, heights), 9,
                              hills, 9).code;
    sum += sn_dales_and_hills(sheet, 8, 3, 3, 1, 1, heights, 9, dales, 9,
                              ENTRIES(58, hills, sheet), 4).code;
    sum += sn_dales_and_hills(sheet, 8, 3, 3, 1, 1, heights, 9, dales, 9,
                              ENTRIES(59, hills, heights), 9).code;
    sum += sn_dales_and_hills(sheet, 8, 3, 3, 1, 1, heights, 9, dales, 9,
                              ENTRIES(60, hills, dales), 9).code;
    sum += sn_joins_and_splits(sheet, 8, 3, 3, heights, 9, BYTES(61, joins, sheet), 9, splits,
                               9).code;
    sum += sn_joins_and_splits(sheet, 8, 3, 3, heights, 9, BYTES(62, joins, heights), 9, splits,
                               9).code;
    sum += sn_joins_and_splits(sheet, 8, 3, 3, heights, 9, joins, 9, BYTES(63, splits, sheet),
                               9).code;
    sum += sn_joins_and_splits(sheet, 8, 3, 3, heights, 9, joins, 9, BYTES(64, splits, heights),
                               9).code;
    sum += sn_joins_and_splits(sheet, 8, 3, 3, heights, 9, joins, 9, BYTES(65, splits, joins),
                               9).code;
    sum += sn_read_survey(file, 9, HEIGHTS(66, heights, file), 2).code;
    return sum + sn_write_survey(3, 3, 1, 1, heights, 9, BYTES(67, file, heights), 9).code;
}

int main(void)
{
    return lengths() + nulls() + answers() + shared_lists() == 0;
}
