/*
 * "Example plots" of docs/SPECIFICATION.md through the C calls, by both rules, settings
 * sheets, spacings and survey files. Compiles as C99 and as C++. Every list is its own
 * piece of the heap, exactly as long as lent, so that a memory checker sees a byte too
 * many; a ring's, a name's, joins and splits lie between guards, which are looked at, so
 * that they need no checker.
 */
#include "surface_network.h"

#include <stdio.h>
#include <stdlib.h>
#include <string.h>

static int passed, failed;

static void check(int holds, const char *what)
{
    if (holds) {
        passed++;
    } else {
        failed++;
        printf("FAILED: %s\n", what);
    }
}

/* A list on the heap with the content given, or zeros. */
static void *lent(size_t size, const void *content)
{
    void *list = calloc(size ? size : 1, 1);
    if (!list)
        abort();
    if (content)
        memcpy(list, content, size);
    return list;
}

/* A settings sheet, and what sn_settings answers to it. */
typedef struct {
    size_t length;
    uint8_t bytes[SN_MAX_SHEET + 1];
    uint32_t code, rule;
    const char *name;
} sheet;

enum { SHEETS = 38 };

/* First those that are accepted: none, no entry, one of them, both, and the longest. Then those
   that are not whole: cut off, of another version, with another count, with entries that do
   not end where the sheet ends. Then those with a kind, a length or a value that no sheet
   has. */
static const sheet sheets[SHEETS] = {
    {0, {0}, SN_OK, 2, ""},
    {5, {1, 0, 0, 0, 0}, SN_OK, 2, ""},
    {8, {1, 0, 0, 0, 3, 1, 1, 1}, SN_OK, 1, ""},
    {8, {1, 0, 0, 0, 3, 1, 1, 2}, SN_OK, 2, ""},
    {8, {1, 0, 0, 0, 3, 2, 1, 32}, SN_OK, 2, " "},
    {14, {1, 0, 0, 0, 9, 1, 1, 1, 2, 4, 'p', 'o', 'n', 'd'}, SN_OK, 1, "pond"},
    {14, {1, 0, 0, 0, 9, 1, 1, 2, 2, 4, 'p', 'o', 'n', 'd'}, SN_OK, 2, "pond"},
    {42, {1, 0, 0, 0, 37, 1, 1, 1, 2, 32, 32, 32, 32, 32, 32, 32, 32, 32, 32, 32, 32, 32, 32, 32,
          32, 126, 126, 126, 126, 126, 126, 126, 126, 126, 126, 126, 126, 126, 126, 126, 126, 126},
     SN_OK, 1, "               ~~~~~~~~~~~~~~~~~"},

    {1, {1}, SN_BAD_SHEET, 0, ""},
    {4, {1, 0, 0, 0}, SN_BAD_SHEET, 0, ""},
    {5, {0, 0, 0, 0, 0}, SN_BAD_SHEET, 0, ""},
    {5, {2, 0, 0, 0, 0}, SN_BAD_SHEET, 0, ""},
    {5, {1, 0, 0, 0, 1}, SN_BAD_SHEET, 0, ""},
    {6, {1, 0, 0, 0, 0, 1}, SN_BAD_SHEET, 0, ""},
    {8, {1, 0, 0, 0, 2, 1, 1, 1}, SN_BAD_SHEET, 0, ""},
    {8, {1, 1, 0, 0, 3, 1, 1, 1}, SN_BAD_SHEET, 0, ""},
    {8, {1, 3, 0, 0, 0, 1, 1, 1}, SN_BAD_SHEET, 0, ""},
    {6, {1, 0, 0, 0, 1, 1}, SN_BAD_SHEET, 0, ""},
    {9, {1, 0, 0, 0, 4, 1, 1, 1, 2}, SN_BAD_SHEET, 0, ""},
    {7, {1, 0, 0, 0, 2, 1, 1}, SN_BAD_SHEET, 0, ""},
    {8, {1, 0, 0, 0, 3, 2, 2, 32}, SN_BAD_SHEET, 0, ""},
    {11, {1, 0, 0, 0, 6, 1, 1, 9, 2, 2, 32}, SN_BAD_SHEET, 0, ""},

    {7, {1, 0, 0, 0, 2, 1, 0}, SN_BAD_ENTRY, 0, ""},
    {9, {1, 0, 0, 0, 4, 1, 2, 1, 1}, SN_BAD_ENTRY, 0, ""},
    {8, {1, 0, 0, 0, 3, 1, 1, 0}, SN_BAD_ENTRY, 0, ""},
    {8, {1, 0, 0, 0, 3, 1, 1, 3}, SN_BAD_ENTRY, 0, ""},
    {7, {1, 0, 0, 0, 2, 0, 0}, SN_BAD_ENTRY, 0, ""},
    {8, {1, 0, 0, 0, 3, 0, 1, 1}, SN_BAD_ENTRY, 0, ""},
    {7, {1, 0, 0, 0, 2, 3, 0}, SN_BAD_ENTRY, 0, ""},
    {8, {1, 0, 0, 0, 3, 255, 1, 1}, SN_BAD_ENTRY, 0, ""},
    {11, {1, 0, 0, 0, 6, 1, 1, 1, 1, 1, 1}, SN_BAD_ENTRY, 0, ""},
    {11, {1, 0, 0, 0, 6, 2, 1, 32, 2, 1, 32}, SN_BAD_ENTRY, 0, ""},
    {11, {1, 0, 0, 0, 6, 2, 1, 32, 1, 1, 1}, SN_BAD_ENTRY, 0, ""},
    {7, {1, 0, 0, 0, 2, 2, 0}, SN_BAD_ENTRY, 0, ""},
    {40, {1, 0, 0, 0, 35, 2, 33, 32, 32, 32, 32, 32, 32, 32, 32, 32, 32, 32, 32, 32, 32, 32, 32, 32,
          32, 32, 32, 32, 32, 32, 32, 32, 32, 32, 32, 32, 32, 32, 32, 32},
     SN_BAD_ENTRY, 0, ""},
    {8, {1, 0, 0, 0, 3, 2, 1, 31}, SN_BAD_ENTRY, 0, ""},
    {9, {1, 0, 0, 0, 4, 2, 2, 32, 127}, SN_BAD_ENTRY, 0, ""},
    {8, {1, 0, 0, 0, 3, 2, 1, 160}, SN_BAD_ENTRY, 0, ""}
};

/* A sheet on the heap. */
static uint8_t *lent_sheet(const sheet *s)
{
    return (uint8_t *)lent(s->length, s->bytes);
}

/* The first sheet that means a rule. */
static const sheet *meaning(uint32_t rule)
{
    const sheet *s = sheets;
    while (s->rule != rule)
        s++;
    return s;
}

typedef struct {
    const char *name;
    uint32_t rule, rows, columns, along_row, along_column;
    int32_t heights[12];
    uint8_t marks[12];
    uint32_t peaks, pits, saddles;
    const char *rings[12]; /* a digit for each member of a post's ring */
    uint32_t k[12];
    uint16_t dales[12], hills[12];
} plot;

enum { PLOTS = 15, V = SN_VIRTUAL_PIT };

/* Spacings. */
#define EQUAL 100, 100
#define WIDE 200, 100

static const plot flat = {"flat", 1, 2, 2, EQUAL, {0, 0, 0, 0}, {0, 0, 1, 0}, 1, 1, 0,
                          {"3222", "324", "443", "4324"}, {1, 1, 1, 1},
                          {V, V, V, V}, {2, 2, 2, 2}};
static const plot crossed = {"crossed", 1, 2, 2, EQUAL, {5, 0, 0, 5}, {1, 0, 3, 1}, 2, 1, 1,
                             {"333", "3121", "1413", "333"}, {1, 1, 2, 1},
                             {V, V, V, V}, {0, 3, 3, 3}};
static const plot star = {"star", 1, 3, 3, EQUAL, {0, 2, 0, 2, 1, 2, 0, 2, 0},
                          {0, 1, 0, 1, 5, 1, 0, 1, 0}, 4, 1, 3,
                          {"3111", "3333", "3111", "3333", "13131313", "3333", "1113", "3333",
                           "1311"}, {1, 1, 1, 1, 4, 1, 1, 1, 1},
                          {V, V, V, V, V, V, V, V, V}, {3, 1, 5, 3, 7, 5, 7, 7, 7}};
static const plot hollow = {"hollow", 1, 3, 3, EQUAL, {1, 1, 1, 1, 0, 1, 1, 1, 1},
                            {3, 0, 0, 0, 2, 0, 0, 0, 1}, 1, 2, 1,
                            {"3232", "3234", "3234", "4323", "11111111", "4323", "4323", "3234",
                             "4343"}, {2, 1, 1, 1, 0, 1, 1, 1, 1},
                            {V, V, V, V, 4, V, V, V, V}, {8, 8, 8, 8, 8, 8, 8, 8, 8}};
static const plot runs = {"runs", 1, 3, 3, EQUAL, {0, 3, 9, 2, 5, 7, 6, 8, 1},
                          {0, 0, 1, 0, 3, 0, 0, 1, 0}, 2, 1, 1,
                          {"3111", "31113", "333", "31113", "313133", "13333", "313", "33333",
                           "1311"}, {1, 1, 1, 1, 2, 1, 1, 1, 1},
                          {V, V, V, V, V, V, V, V, V}, {7, 2, 2, 7, 7, 2, 7, 7, 7}};

/* Driven 0 1 2 5 4 3 6 7 8. With ties by post number it has these marks, dales and hills too:
   rings and steps tell. The diagonals are 0-4, 1-5, 4-6 and 5-7. */
static const plot level = {"level", 1, 3, 3, EQUAL, {0, 0, 0, 0, 0, 0, 0, 0, 0},
                           {0, 0, 0, 0, 0, 0, 0, 0, 1}, 1, 1, 0,
                           {"3222", "32224", "324", "4423", "442224", "432224", "4423", "44234",
                            "434"}, {1, 1, 1, 1, 1, 1, 1, 1, 1},
                           {V, V, V, V, V, V, V, V, V}, {8, 8, 8, 8, 8, 8, 8, 8, 8}};

/* By rule 2 the diagonal of flat joins posts 1 and 2, and that of crossed posts 0 and 3. In star
   they are 1-3, 1-5, 3-7 and 5-7, a square round post 4; in hollow 1-3, 1-5, 3-7 and 4-8; in
   level 1-3, 2-4, 3-7 and 4-8. */
static const plot flat_2 = {"flat, rule 2", 2, 2, 2, EQUAL, {0, 0, 0, 0}, {0, 0, 1, 0}, 1, 1, 0,
                            {"322", "3224", "4443", "432"}, {1, 1, 1, 1},
                            {V, V, V, V}, {2, 2, 2, 2}};
static const plot crossed_2 = {"crossed, rule 2", 2, 2, 2, EQUAL, {5, 0, 0, 5},
                               {0, 0, 0, 1}, 1, 1, 0,
                               {"3323", "311", "113", "3334"}, {1, 1, 1, 1},
                               {V, V, V, V}, {3, 3, 3, 3}};
static const plot star_2 = {"star, rule 2", 2, 3, 3, EQUAL, {0, 2, 0, 2, 1, 2, 0, 2, 0},
                            {0, 3, 0, 0, 2, 0, 0, 1, 0}, 1, 2, 1,
                            {"311", "332323", "311", "343233", "1111", "333234", "113", "343334",
                             "131"}, {1, 2, 1, 1, 0, 1, 1, 1, 1},
                            {V, V, V, V, 4, V, V, V, V}, {7, 7, 7, 7, 7, 7, 7, 7, 7}};
static const plot hollow_2 = {"hollow, rule 2", 2, 3, 3, EQUAL, {1, 1, 1, 1, 0, 1, 1, 1, 1},
                              {0, 3, 0, 0, 2, 0, 0, 0, 1}, 1, 2, 1,
                              {"322", "322324", "324", "443223", "11111", "43234", "423", "32344",
                               "4343"}, {1, 2, 1, 1, 0, 1, 1, 1, 1},
                              {V, V, V, V, 4, V, V, V, V}, {8, 8, 8, 8, 8, 8, 8, 8, 8}};

static const plot level_2 = {"level, rule 2", 2, 3, 3, EQUAL, {0, 0, 0, 0, 0, 0, 0, 0, 0},
                             {0, 0, 0, 0, 0, 0, 0, 0, 1}, 1, 1, 0,
                             {"322", "32224", "3224", "444223", "444222", "4322", "423", "42344",
                              "4344"}, {1, 1, 1, 1, 1, 1, 1, 1, 1},
                             {V, V, V, V, V, V, V, V, V}, {8, 8, 8, 8, 8, 8, 8, 8, 8}};

/* Steepest, not lowest: by equal spacings the middle drains to the east, though the post in the
   corner is the lowest. By a wider one along the rows it drains to the corner. */
static const plot slant = {"slant", 1, 3, 3, EQUAL, {9, 9, 9, 9, 8, 2, 9, 7, 0},
                           {3, 0, 1, 0, 0, 0, 1, 0, 0}, 2, 1, 1,
                           {"3232", "32334", "334", "43323", "133311", "13311", "433", "13311",
                            "1311"},
                           {2, 1, 1, 1, 1, 1, 1, 1, 1},
                           {V, V, V, V, V, V, V, V, V},
                           {6, 2, 2, 6, 6, 2, 6, 6, 6}};
static const plot slant_wide = {"slant, wide", 1, 3, 3, WIDE, {9, 9, 9, 9, 8, 2, 9, 7, 0},
                                {3, 0, 1, 0, 0, 0, 1, 0, 0}, 2, 1, 1,
                                {"3232", "32334", "334", "43323", "133311", "13311", "433",
                                 "13311", "1311"},
                                {2, 1, 1, 1, 1, 1, 1, 1, 1},
                                {V, V, V, V, V, V, V, V, V},
                                {6, 2, 2, 6, 2, 2, 6, 6, 2}};

/* Post 5 is a saddle with a run of the pit at 6 and of 9 on the border: a wider spacing along
   the rows turns its line from the one to the other. */
static const plot turn = {"turn", 1, 3, 4, EQUAL, {9, 17, 16, 15, 18, 10, 4, 14, 19, 5, 12, 13},
                          {0, 1, 0, 0, 0, 3, 2, 0, 1, 3, 0, 0}, 2, 2, 2,
                          {"3111", "33333", "3331", "3331", "33313", "13313", "11111111", "1333",
                           "333", "131311", "3133", "1333"},
                          {1, 1, 1, 1, 1, 2, 0, 1, 1, 2, 1, 1},
                          {V, V, V, V, V, 6, 6, V, V, V, V, V},
                          {8, 1, 1, 1, 8, 8, 1, 1, 8, 8, 1, 1}};
static const plot turn_wide = {"turn, wide", 1, 3, 4, WIDE,
                               {9, 17, 16, 15, 18, 10, 4, 14, 19, 5, 12, 13},
                               {0, 1, 0, 0, 0, 3, 2, 0, 1, 3, 0, 0}, 2, 2, 2,
                               {"3111", "33333", "3331", "3331", "33313", "13313", "11111111",
                                "1333", "333", "131311", "3133", "1333"},
                               {1, 1, 1, 1, 1, 2, 0, 1, 1, 2, 1, 1},
                               {V, V, V, V, V, V, 6, V, V, V, V, V},
                               {8, 1, 1, 1, 8, 1, 1, 1, 8, 8, 1, 1}};

static size_t posts_of(const plot *p)
{
    return (size_t)p->rows * p->columns;
}

static void survey(const plot *p, const sheet *s)
{
    size_t n = posts_of(p);
    uint8_t *bytes = lent_sheet(s);
    int32_t *heights = (int32_t *)lent(n * sizeof *heights, p->heights);
    uint8_t *marks = (uint8_t *)lent(n, NULL);
    sn_counts got;

    memset(marks, 99, n);
    got = sn_survey(bytes, s->length, p->rows, p->columns, heights, n, marks, n);
    check(got.code == SN_OK && got.place == 0, p->name);
    check(got.peaks == p->peaks && got.pits == p->pits && got.saddles == p->saddles, p->name);
    check(memcmp(marks, p->marks, n) == 0, p->name);
    check(memcmp(heights, p->heights, n * sizeof *heights) == 0, p->name);

    got = sn_survey(bytes, s->length, p->rows, p->columns, heights, n, marks, n - 1);
    check(got.code == SN_BAD_LIST_LENGTH && got.peaks == 0, "marks one short");
    got = sn_survey(bytes, s->length, p->rows, p->columns, heights, n - 1, marks, n);
    check(got.code == SN_BAD_HEIGHTS_LENGTH && got.pits == 0, "heights one short");
    check(memcmp(marks, p->marks, n) == 0, "a refused survey leaves the marks");
    free(bytes);
    free(heights);
    free(marks);
}

/* Six counts: those of one survey, and those of another. */
static int has_counts(sn_trial_counts got, sn_counts now, sn_counts then)
{
    return got.code == SN_OK && got.place == 0 && got.peaks == now.peaks &&
        got.pits == now.pits && got.saddles == now.saddles && got.new_peaks == then.peaks &&
        got.new_pits == then.pits && got.new_saddles == then.saddles;
}

/* From a level plot to this one, post by post, each tried first, with refused calls between. The
   survey and the re-shoots may have other sheets: it is the rule that is one. */
static void reshoots(const plot *p, const sheet *s)
{
    size_t n = posts_of(p);
    const sheet *other = meaning(p->rule);
    uint8_t *bytes = lent_sheet(s), *others = lent_sheet(other);
    int32_t *heights = (int32_t *)lent(n * sizeof *heights, NULL);
    uint8_t *marks = (uint8_t *)lent(n, NULL);
    uint8_t *fresh = (uint8_t *)lent(n, NULL);
    sn_counts counts = sn_survey(others, other->length, p->rows, p->columns, heights, n, marks, n);
    uint32_t post;

    check(counts.code == SN_OK, "survey of level ground");
    for (post = 0; post < n; post++) {
        sn_counts before = counts;
        sn_trial_counts trial = sn_trial(bytes, s->length, p->rows, p->columns, heights, n, post,
                                         p->heights[post]);
        sn_answer got;

        check(heights[post] == 0, "a trial leaves the height");
        got = sn_reshoot(bytes, s->length, p->rows, p->columns, heights, n, marks, n, post,
                         p->heights[post]);
        check(got.code == SN_OK && got.place == 0, "a re-shoot is accepted");
        got = sn_reshoot(bytes, s->length, p->rows, p->columns, heights, n, marks, n,
                         (uint32_t)n, 0);
        check(got.code == SN_NO_SUCH_POST, "no such post");
        got = sn_reshoot(bytes, s->length, p->rows, p->columns, heights, n, marks, n, post,
                         SN_MAX_HEIGHT + 1);
        check(got.code == SN_BAD_NEW_HEIGHT, "new height out of range");
        counts = sn_survey(others, other->length, p->rows, p->columns, heights, n, fresh, n);
        check(counts.peaks + counts.pits == counts.saddles + 2, "the balance");
        check(has_counts(trial, before, counts), "the trial's counts are the surveys'");
        check(memcmp(marks, fresh, n) == 0, "marks as after a fresh survey");
    }
    check(memcmp(heights, p->heights, n * sizeof *heights) == 0, p->name);
    check(memcmp(marks, p->marks, n) == 0, p->name);
    free(bytes);
    free(others);
    free(heights);
    free(marks);
    free(fresh);
}

enum { GUARD = 16, UNTOUCHED = 77 };

/* Has the list between two guards these characters, as far as they are past a first one, and
   zeros after them, or without characters its old content? Are the guards as they were? */
static int has_text(const uint8_t *guarded, size_t length, const char *text, char first)
{
    size_t i, size = text ? strlen(text) : 0;

    for (i = 0; i < length + 2 * GUARD; i++) {
        int expected = UNTOUCHED;
        if (text && i >= GUARD && i < GUARD + length)
            expected = i < GUARD + size ? text[i - GUARD] - first : 0;
        if (guarded[i] != expected)
            return 0;
    }
    return 1;
}

static int has_codes(const uint8_t *guarded, size_t length, const char *codes)
{
    return has_text(guarded, length, codes, '0');
}

/* One ring into a list of some length; the codes expected, null where it is refused. */
static void ring(const plot *p, const sheet *s, uint32_t post, size_t length, uint32_t code,
                 const char *codes, uint32_t k, uint32_t mark, const char *what)
{
    size_t n = posts_of(p);
    uint8_t *bytes = lent_sheet(s);
    int32_t *heights = (int32_t *)lent(n * sizeof *heights, p->heights);
    uint8_t *list = (uint8_t *)lent(length + 2 * GUARD, NULL);
    sn_ring_mark got;

    memset(list, UNTOUCHED, length + 2 * GUARD);
    got = sn_ring(bytes, s->length, p->rows, p->columns, heights, n, post, list + GUARD, length);
    check(got.code == code && got.place == 0, what);
    check(got.k == k && got.mark == mark, what);
    check(has_codes(list, length, codes), what);
    check(memcmp(heights, p->heights, n * sizeof *heights) == 0, what);
    free(bytes);
    free(heights);
    free(list);
}

/* The ring of every post, and of some that are not there. */
static void rings(const plot *p, const sheet *s)
{
    static const size_t lengths[3] = {0, SN_RING_LENGTH - 1, SN_RING_LENGTH + 1};
    uint32_t post, n = (uint32_t)posts_of(p), beyond[3] = {n, SN_VIRTUAL_PIT, UINT32_MAX};
    int i;

    for (post = 0; post < n; post++)
        ring(p, s, post, SN_RING_LENGTH, SN_OK, p->rings[post], p->k[post], p->marks[post],
             p->name);
    for (i = 0; i < 3; i++) {
        ring(p, s, 0, lengths[i], SN_BAD_LIST_LENGTH, NULL, 0, 0, "not eight bytes");
        ring(p, s, beyond[i], lengths[i], SN_BAD_LIST_LENGTH, NULL, 0, 0,
             "the list before the post");
        ring(p, s, beyond[i], SN_RING_LENGTH, SN_NO_SUCH_POST, NULL, 0, 0,
             "no ring without a post");
    }
}

/* What else a ring is refused for, before its post is looked at. */
static void refused_rings(void)
{
    static const int32_t heights[4] = {0, 0, SN_MAX_HEIGHT + 1, SN_MIN_HEIGHT - 1};
    uint8_t guarded[SN_RING_LENGTH + 2 * GUARD], *list = guarded + GUARD;
    sn_ring_mark got;

    memset(guarded, UNTOUCHED, sizeof guarded);
    got = sn_ring(SN_NO_SHEET, 2, 2, heights, 4, 4, list, SN_RING_LENGTH);
    check(got.code == SN_HEIGHT_OUT_OF_RANGE && got.place == 2, "a height before the post");
    check(got.k == 0 && got.mark == 0, "nothing of a refused ring");
    got = sn_ring(SN_NO_SHEET, 2, 2, heights, 4, 4, NULL, 0);
    check(got.code == SN_BAD_LIST_LENGTH && got.place == 0, "a list before the heights");
    got = sn_ring(SN_NO_SHEET, 2, 2, heights, 3, 4, NULL, 0);
    check(got.code == SN_BAD_HEIGHTS_LENGTH, "heights one short");
    got = sn_ring(SN_NO_SHEET, 2, 2, NULL, 0, 4, list, SN_RING_LENGTH);
    check(got.code == SN_BAD_HEIGHTS_LENGTH, "no heights");
    got = sn_ring(SN_NO_SHEET, 1, 121, NULL, 0, 4, NULL, 0);
    check(got.code == SN_BAD_SIDES, "sides before lists");
    check(has_codes(guarded, SN_RING_LENGTH, NULL), "a refused ring leaves its list");
}

typedef sn_entries line_call(const uint8_t *, size_t, uint32_t, uint32_t, uint32_t, uint32_t,
                             const int32_t *, size_t, uint32_t, uint32_t, uint16_t *, size_t);

/* One line into a list of some length; the entries expected, 7 where untouched. */
static void line(line_call *call, const plot *p, uint32_t post, uint32_t run, size_t length,
                 uint32_t code, uint32_t count, uint16_t a, uint16_t b, uint16_t c,
                 const char *what)
{
    size_t n = posts_of(p), i;
    const uint16_t expected[3] = {a, b, c};
    const sheet *s = meaning(p->rule);
    uint8_t *bytes = lent_sheet(s);
    int32_t *heights = (int32_t *)lent(n * sizeof *heights, p->heights);
    uint16_t *list = (uint16_t *)lent(length * sizeof *list, NULL);
    sn_entries got;

    for (i = 0; i < length; i++)
        list[i] = 7;
    got = call(bytes, s->length, p->rows, p->columns, p->along_row, p->along_column, heights, n,
               post, run, list, length);
    check(got.code == code && got.place == 0 && got.count == count, what);
    for (i = 0; i < length; i++)
        check(list[i] == (i < 3 ? expected[i] : 7), what);
    free(bytes);
    free(heights);
    free(list);
}

static void lines(void)
{
    static const uint16_t peaks[4] = {1, 5, 7, 3}, pits[4] = {2, 8, 6, 0};
    uint32_t run;

    line(sn_thalweg, &crossed, 2, 0, 3, SN_OK, 3, 2, 1, V, "crossed, water line 0");
    line(sn_thalweg, &crossed, 2, 0, 5, SN_OK, 3, 2, 1, V, "later entries stay");
    line(sn_thalweg, &crossed, 2, 1, 2, SN_OK, 2, 2, V, 7, "crossed, water line 1");
    line(sn_thalweg, &crossed, 2, 0, 2, SN_LINE_TOO_LONG, 0, 7, 7, 7, "a list of two");
    line(sn_thalweg, &crossed, 2, 0, 0, SN_LINE_TOO_LONG, 0, 7, 7, 7, "an empty list");
    line(sn_thalweg, &crossed, 2, 2, 3, SN_NO_SUCH_RUN, 0, 7, 7, 7, "crossed, run 2");
    line(sn_thalweg, &crossed, 1, 0, 3, SN_NOT_A_SADDLE, 0, 7, 7, 7, "no saddle");
    line(sn_thalweg, &crossed, 4, 0, 3, SN_NO_SUCH_POST, 0, 7, 7, 7, "no post");
    line(sn_ridge, &crossed, 2, 0, 2, SN_OK, 2, 2, 0, 7, "crossed, crest line 0");
    line(sn_ridge, &crossed, 2, 1, 2, SN_OK, 2, 2, 3, 7, "crossed, crest line 1");
    line(sn_ridge, &crossed, 2, 2, 2, SN_NO_SUCH_RUN, 0, 7, 7, 7, "crossed, upper run 2");
    for (run = 0; run < 4; run++) {
        line(sn_ridge, &star, 4, run, 2, SN_OK, 2, 4, peaks[run], 7, "star, crest line");
        line(sn_thalweg, &star, 4, run, 4, SN_OK, 3, 4, pits[run], V, "star, water line");
    }
    line(sn_ridge, &star, 4, 4, 2, SN_NO_SUCH_RUN, 0, 7, 7, 7, "star, run 4");
}

/* By rule 2 post 1 of star and of hollow is the saddle, and post 4 the pit. */
static void lines_2(void)
{
    line(sn_thalweg, &crossed_2, 2, 0, 3, SN_NOT_A_SADDLE, 0, 7, 7, 7, "crossed, no saddle");
    line(sn_thalweg, &star_2, 4, 0, 3, SN_NOT_A_SADDLE, 0, 7, 7, 7, "star, no saddle");
    line(sn_thalweg, &star_2, 1, 0, 3, SN_OK, 2, 1, 4, 7, "star, to the pit");
    line(sn_thalweg, &star_2, 1, 1, 3, SN_OK, 2, 1, V, 7, "star, over the border");
    line(sn_thalweg, &star_2, 1, 2, 3, SN_NO_SUCH_RUN, 0, 7, 7, 7, "star, run 2");
    line(sn_ridge, &star_2, 1, 0, 3, SN_OK, 3, 1, 5, 7, "star, to the peak");
    line(sn_ridge, &star_2, 1, 1, 4, SN_OK, 3, 1, 3, 7, "star, to the same peak");
    line(sn_ridge, &star_2, 1, 1, 2, SN_LINE_TOO_LONG, 0, 7, 7, 7, "star, a list of two");
    line(sn_thalweg, &hollow_2, 1, 0, 3, SN_OK, 2, 1, 4, 7, "hollow, to the pit");
    line(sn_ridge, &hollow_2, 1, 0, 3, SN_OK, 3, 1, 5, 8, "hollow, to the peak");
    line(sn_ridge, &hollow_2, 1, 1, 3, SN_LINE_TOO_LONG, 0, 7, 7, 7, "hollow, four entries");
}

/* The lines of turn, by equal spacings and by a wider one along the rows. */
static void lines_turned(void)
{
    line(sn_thalweg, &turn, 5, 0, 3, SN_OK, 2, 5, 6, 7, "turn, to the pit");
    line(sn_thalweg, &turn_wide, 5, 0, 3, SN_OK, 3, 5, 9, V, "turned over the border");
    line(sn_thalweg, &turn_wide, 5, 0, 2, SN_LINE_TOO_LONG, 0, 7, 7, 7, "turned, a list of two");
    line(sn_thalweg, &turn, 5, 1, 3, SN_OK, 3, 5, 0, V, "turn, the other run");
    line(sn_thalweg, &turn_wide, 5, 1, 3, SN_OK, 3, 5, 0, V, "turned, the other run");
    line(sn_ridge, &turn_wide, 5, 1, 3, SN_OK, 3, 5, 4, 8, "turned, a crest line");
    line(sn_thalweg, &turn_wide, 9, 1, 3, SN_OK, 2, 9, V, 7, "a run that holds the virtual pit");
}

/* Every call that takes spacings turns these away, after the sides and before the lists. By
   rule 1 post 2 is a saddle, so that its lines could be written. */
static void refused_spacings(uint32_t along_row, uint32_t along_column)
{
    static const uint32_t rows[3] = {2, 2, 1};
    static const size_t lengths[3] = {4, 3, 3};
    static const uint8_t named[] = SN_RULE_SHEET(SN_THROUGH_LOWEST);
    int32_t heights[4] = {5, 0, 0, 5};
    uint16_t dales[4] = {7, 7, 7, 7}, hills[4] = {7, 7, 7, 7};
    uint8_t file[SN_FILE_SIZE(2, 2)] = {7};
    int i;

    for (i = 0; i < 3; i++) {
        uint32_t r = rows[i], a = along_row, b = along_column;
        uint32_t code = r == 1 ? (uint32_t)SN_BAD_SIDES : (uint32_t)SN_BAD_SPACING;
        size_t n = lengths[i];
        size_t s = sizeof named;
        sn_next down = sn_next_down(named, s, r, 2, a, b, heights, n, 2);
        sn_next up = sn_next_up(named, s, r, 2, a, b, heights, n, 2);
        sn_entries water = sn_thalweg(named, s, r, 2, a, b, heights, n, 2, 0, dales, 4);
        sn_entries crest = sn_ridge(named, s, r, 2, a, b, heights, n, 2, 0, hills, 4);
        sn_answer parts = sn_dales_and_hills(named, s, r, 2, a, b, heights, n, dales, 4, hills, 4);
        sn_answer wrote = sn_write_survey(r, 2, a, b, heights, n, file, sizeof file);
        check(down.code == code && !down.place && !down.post, "next down, its spacings");
        check(up.code == code && !up.place && !up.post, "next up, its spacings");
        check(water.code == code && !water.place && !water.count, "thalweg, its spacings");
        check(crest.code == code && !crest.place && !crest.count, "ridge, its spacings");
        check(parts.code == code && !parts.place, "dales and hills, their spacings");
        check(wrote.code == code && !wrote.place, "a file, its spacings");
    }
    for (i = 0; i < 4; i++)
        check(dales[i] == 7 && hills[i] == 7, "no list is changed by bad spacings");
    check(file[0] == 7 && file[1] == 0, "no file is changed by bad spacings");
}

static void spacings(void)
{
    static const uint32_t bad[4] = {0, SN_MAX_SPACING + 1, 65536 + 100, UINT32_MAX};
    sn_next down = sn_next_down(SN_NO_SHEET, 2, 2, SN_MIN_SPACING, SN_MAX_SPACING,
                                crossed.heights, 4, 0);
    int i;

    check(down.code == SN_OK && down.post == V, "spacings at their bounds");
    for (i = 0; i < 4; i++) {
        refused_spacings(bad[i], 100);
        refused_spacings(100, bad[i]);
        refused_spacings(bad[i], bad[3 - i]);
    }
}

/* Reads a 2 by 2 file that begins so, with these tenths. */
static sn_size read4(const uint8_t *header, size_t header_length, const int32_t *tenths,
                     int32_t *heights)
{
    uint8_t *file = (uint8_t *)lent(header_length + 16, NULL), *at = file + header_length;
    sn_size got;
    int i;

    memcpy(file, header, header_length);
    for (i = 0; i < 4; i++, at += 4) {
        uint32_t v = (uint32_t)tenths[i];
        at[0] = (uint8_t)(v >> 24);
        at[1] = (uint8_t)(v >> 16);
        at[2] = (uint8_t)(v >> 8);
        at[3] = (uint8_t)v;
    }
    got = sn_read_survey(file, header_length + 16, heights, 4);
    free(file);
    return got;
}

/* What both versions of a 2 by 2 file begin with. */
static const uint8_t header_1[SN_FILE_HEADER_1] = {SN_FILE_VERSION_1, 0, 0, 0, 18, 2, 2};
static const uint8_t header_2[SN_FILE_HEADER] = {SN_FILE_VERSION, 0, 0, 0, 22, 2, 2, 3, 232, 0, 1};

/* Files of the version whose header this is, and of these spacings. */
static void files(const uint8_t *header, size_t length, uint32_t along_row, uint32_t along_column)
{
    static const int32_t halves[2][4] = {{4, 5, 15, -5}, {25, -15, -25, 26}};
    static const int32_t whole[2][4] = {{0, 0, 2, 0}, {2, -2, -2, 3}};
    static const int32_t most[4] = {10000000, -10000000, 0, 0};
    static const int32_t beyond[4] = {0, 0, 10000001, -10000001};
    int32_t *heights = (int32_t *)lent(4 * sizeof *heights, NULL);
    uint8_t *file = (uint8_t *)lent(0, NULL);
    sn_size got;
    int i;

    for (i = 0; i < 2; i++) {
        got = read4(header, length, halves[i], heights);
        check(got.code == SN_OK && got.rows == 2 && got.columns == 2, "tenths are read");
        check(got.along_row == along_row && got.along_column == along_column, "spacings are read");
        check(memcmp(heights, whole[i], sizeof whole[i]) == 0, "halves go to even");
    }
    got = read4(header, length, beyond, heights);
    check(got.code == SN_HEIGHT_OUT_OF_RANGE && got.place == 2 && got.rows == 0,
          "10,000,001 tenths");
    check(got.along_row == 0 && got.along_column == 0, "nothing of a refused file");
    check(memcmp(heights, whole[1], sizeof whole[1]) == 0, "a refused file leaves the heights");
    got = read4(header, length, most, heights);
    check(got.code == SN_OK && heights[0] == SN_MAX_HEIGHT && heights[1] == SN_MIN_HEIGHT,
          "10,000,000 tenths");
    got = sn_read_survey(file, 0, heights, 4);
    check(got.code == SN_FILE_TOO_SHORT, "empty file");
    got = sn_read_survey(NULL, 0, heights, 4);
    check(got.code == SN_FILE_TOO_SHORT, "no file");
    free(heights);
    free(file);
}

/* The files that begin as one of version 2 does, each on the heap: no byte after them is read.
   Of another version they are refused as soon as there are SN_FILE_HEADER_1 bytes. */
static void short_files(void)
{
    static const int32_t tenths[4] = {0, 0, 0, 0};
    uint8_t spaced[SN_FILE_HEADER];
    int32_t heights[4] = {7, 7, 7, 7};
    size_t length;
    sn_size got;

    for (length = 0; length <= SN_FILE_HEADER; length++) {
        uint8_t *file = (uint8_t *)lent(length, header_2);
        uint32_t code = length < SN_FILE_HEADER_1 ? (uint32_t)SN_FILE_TOO_SHORT
                                                  : (uint32_t)SN_BAD_VERSION;
        got = sn_read_survey(file, length, heights, 4);
        check(got.code == (length < SN_FILE_HEADER ? (uint32_t)SN_FILE_TOO_SHORT
                                                   : (uint32_t)SN_BAD_COUNT), "a file cut short");
        if (length > 0) {
            file[0] = 3;
            got = sn_read_survey(file, length, heights, 4);
            check(got.code == code, "version 3, cut short");
            file[0] = 0;
            got = sn_read_survey(file, length, heights, 4);
            check(got.code == code, "version 0, cut short");
        }
        free(file);
    }
    for (length = SN_FILE_HEADER_1; length < SN_FILE_HEADER; length += 2) {
        memcpy(spaced, header_2, sizeof spaced);
        spaced[length] = 4;
        got = read4(spaced, sizeof spaced, tenths, heights);
        check(got.code == SN_BAD_SPACING && got.rows == 0, "a filed spacing out of range");
        spaced[length] = 0;
        spaced[length + 1] = 0;
        got = read4(spaced, sizeof spaced, tenths, heights);
        check(got.code == SN_BAD_SPACING, "a filed spacing of 0");
        spaced[4] = 18;
        got = read4(spaced, sizeof spaced, tenths, heights);
        check(got.code == SN_BAD_SPACING, "a spacing before the count");
        spaced[6] = 1;
        got = read4(spaced, sizeof spaced, tenths, heights);
        check(got.code == SN_BAD_SIDES, "the sides before a spacing");
    }
    check(heights[0] == 7 && heights[3] == 7, "refused files leave the heights");
}

/* A file written and read back. */
static void round_trip(void)
{
    static const uint8_t begins[SN_FILE_HEADER + 4] = {2, 0, 0, 0, 22, 2, 2, 0, 200, 1, 44,
                                                       0, 0, 0, 50};
    int32_t *heights = (int32_t *)lent(4 * sizeof *heights, crossed.heights);
    uint8_t *file = (uint8_t *)lent(SN_FILE_SIZE(2, 2), NULL);
    int32_t back[4];
    sn_answer wrote = sn_write_survey(2, 2, 200, 300, heights, 4, file, SN_FILE_SIZE(2, 2));
    sn_size got = sn_read_survey(file, SN_FILE_SIZE(2, 2), back, 4);

    check(wrote.code == SN_OK && memcmp(file, begins, sizeof begins) == 0, "crossed is written");
    check(got.code == SN_OK && memcmp(back, heights, sizeof back) == 0, "and read back");
    check(got.along_row == 200 && got.along_column == 300, "with its spacings");
    file[0] = SN_FILE_VERSION_1;
    got = sn_read_survey(file, SN_FILE_SIZE(2, 2), back, 4);
    check(got.code == SN_BAD_COUNT, "taken for version 1");
    file[0] = 3;
    got = sn_read_survey(file, SN_FILE_SIZE(2, 2), back, 4);
    check(got.code == SN_BAD_VERSION, "version 3");
    free(heights);
    free(file);
}

static void sides(void)
{
    static const uint32_t tried[4] = {1, 2, 120, 121};
    int i, j;

    for (i = 0; i < 4; i++)
        for (j = 0; j < 4; j++) {
            uint32_t rows = tried[i], columns = tried[j];
            size_t n = (size_t)rows * columns;
            int good = i % 3 != 0 && j % 3 != 0;
            int32_t *heights = (int32_t *)lent(n * sizeof *heights, NULL);
            uint8_t *marks = (uint8_t *)lent(n, NULL), *others = (uint8_t *)lent(n, NULL);
            sn_counts got = sn_survey(SN_NO_SHEET, rows, columns, heights, n, marks, n);
            sn_trial_counts trial = sn_trial(SN_NO_SHEET, rows, columns, heights, n, 0, 1);
            sn_answer shot = sn_reshoot(SN_NO_SHEET, rows, columns, heights, n, marks, n, 0, 1);
            uint8_t list[SN_RING_LENGTH];
            sn_ring_mark last = sn_ring(SN_NO_SHEET, rows, columns, heights, n, (uint32_t)n - 1,
                                        list, SN_RING_LENGTH);

            check(got.code == (good ? (uint32_t)SN_OK : (uint32_t)SN_BAD_SIDES), "sides");
            check(got.peaks + got.pits == (good ? got.saddles + 2 : 0), "balance");
            check(trial.code == got.code && trial.peaks == got.peaks && trial.pits == got.pits,
                  "trial");
            check(trial.new_peaks + trial.new_pits == (good ? trial.new_saddles + 2 : 0),
                  "balance of a trial");
            check(shot.code == got.code && heights[0] == (good ? 1 : 0), "re-shoot");
            check(last.code == got.code && last.mark == (good ? marks[n - 1] : 0), "ring");
            check(sn_joins_and_splits(SN_NO_SHEET, rows, columns, heights, n, marks, n, others,
                                      n).code == got.code, "joins and splits");
            free(heights);
            free(marks);
            free(others);
        }
}

/* The dales and hills of a plot. */
static void parts(const plot *p, const sheet *s)
{
    size_t n = posts_of(p);
    uint8_t *bytes = lent_sheet(s);
    uint16_t *dales = (uint16_t *)lent(n * sizeof *dales, NULL);
    uint16_t *hills = (uint16_t *)lent(n * sizeof *hills, NULL);
    sn_answer got = sn_dales_and_hills(bytes, s->length, p->rows, p->columns, p->along_row,
                                       p->along_column, p->heights, n, dales, n, hills, n);

    check(got.code == SN_OK && got.place == 0, p->name);
    check(memcmp(dales, p->dales, n * sizeof *dales) == 0, p->name);
    check(memcmp(hills, p->hills, n * sizeof *hills) == 0, p->name);
    free(bytes);
    free(dales);
    free(hills);
}

/* A plot's joins and splits, a digit for each post. */
typedef struct {
    const char *name;
    uint32_t rule, rows, columns;
    int32_t heights[25];
    const char *joins, *splits;
} joined;

enum { JOINED = 14 };

/* The middle of star joins four tops by rule 1; by rule 2 it is a pit, which post 1 joins to what
   is outside, as it does in hollow. A crater's ridge goes round its middle: each of its passes
   has two lower runs, but only at the lowest are they two bodies, since the ground below another
   goes round by that one. By rule 2 the middle of wells joins four pits; in ditch two of these
   are open to the border, so that the virtual pit joins them, and the ditch parts the high
   ground. Passes of one height are driven east before west in an odd row, and west before east in
   an even one. */
static const joined joined_plots[JOINED] = {
    {"flat, joins and splits", 1, 2, 2, {0, 0, 0, 0}, "0000", "0000"},
    {"crossed, joins and splits", 1, 2, 2, {5, 0, 0, 5}, "0000", "0010"},
    {"crossed, rule 2, joins and splits", 2, 2, 2, {5, 0, 0, 5}, "0000", "0000"},
    {"star, joins and splits", 1, 3, 3, {0, 2, 0, 2, 1, 2, 0, 2, 0}, "000000000", "000030000"},
    {"star, rule 2, joins and splits", 2, 3, 3, {0, 2, 0, 2, 1, 2, 0, 2, 0},
     "010000000", "000000000"},
    {"hollow, joins and splits", 1, 3, 3, {1, 1, 1, 1, 0, 1, 1, 1, 1}, "100000000", "000000000"},
    {"hollow, rule 2, joins and splits", 2, 3, 3, {1, 1, 1, 1, 0, 1, 1, 1, 1},
     "010000000", "000000000"},
    {"crater", 1, 5, 5,
     {0, 1, 2, 1, 0, 1, 9, 7, 9, 1, 2, 8, 3, 8, 2, 1, 9, 5, 9, 1, 0, 1, 2, 1, 0},
     "0000000000000000010000000", "0000000100010100000000000"},
    {"crater, rule 2", 2, 5, 5,
     {0, 1, 2, 1, 0, 1, 9, 7, 9, 1, 2, 8, 3, 8, 2, 1, 9, 5, 9, 1, 0, 1, 2, 1, 0},
     "0000000000000000010000000", "0000000100010100000000000"},
    {"wells, rule 2", 2, 5, 5,
     {9, 9, 9, 9, 9, 9, 8, 1, 8, 9, 9, 1, 5, 1, 9, 9, 8, 1, 8, 9, 9, 9, 9, 9, 9},
     "0100000000003000000000000", "0000000000000000000000000"},
    {"ditch", 1, 5, 5,
     {9, 9, 0, 9, 9, 9, 8, 1, 8, 9, 9, 1, 5, 1, 9, 9, 8, 1, 8, 9, 9, 9, 0, 9, 9},
     "0000000000000000000000000", "1000000000000000020000000"},
    {"ditch, rule 2", 2, 5, 5,
     {9, 9, 0, 9, 9, 9, 8, 1, 8, 9, 9, 1, 5, 1, 9, 9, 8, 1, 8, 9, 9, 9, 0, 9, 9},
     "0000000000002000000000000", "0000000000001000000000000"},
    {"passes in an odd row", 2, 3, 5, {1, 9, 9, 9, 1, 2, 6, 4, 6, 2, 1, 9, 9, 9, 1},
     "000000001000000", "000000100000000"},
    {"passes in an even row", 2, 5, 5,
     {0, 1, 2, 1, 0, 1, 9, 9, 9, 1, 2, 5, 3, 5, 2, 1, 9, 9, 9, 1, 0, 1, 2, 1, 0},
     "0000000000010000000000000", "0000000000000100000000000"}
};

/* Into lists of right and of other lengths; both stay where either does not fit. */
static void joins_and_splits(const joined *p, const sheet *s)
{
    size_t n = (size_t)p->rows * p->columns, length, other;
    uint8_t *bytes = lent_sheet(s);
    int32_t *heights = (int32_t *)lent(n * sizeof *heights, p->heights);

    for (length = n - 1; length <= n + 1; length++)
        for (other = n - 1; other <= n + 1; other++) {
            int fits = length == n && other == n;
            uint8_t *joins = (uint8_t *)lent(length + 2 * GUARD, NULL);
            uint8_t *splits = (uint8_t *)lent(other + 2 * GUARD, NULL);
            sn_answer got;

            memset(joins, UNTOUCHED, length + 2 * GUARD);
            memset(splits, UNTOUCHED, other + 2 * GUARD);
            got = sn_joins_and_splits(bytes, s->length, p->rows, p->columns, heights, n,
                                      joins + GUARD, length, splits + GUARD, other);
            check(got.code == (fits ? (uint32_t)SN_OK : (uint32_t)SN_BAD_LIST_LENGTH), p->name);
            check(got.place == 0, p->name);
            check(has_codes(joins, length, fits ? p->joins : NULL), p->name);
            check(has_codes(splits, other, fits ? p->splits : NULL), p->name);
            free(joins);
            free(splits);
        }
    check(memcmp(heights, p->heights, n * sizeof *heights) == 0, p->name);
    free(bytes);
    free(heights);
}

/* What else they are refused for. */
static void refused_joins(void)
{
    static const int32_t heights[4] = {0, SN_MAX_HEIGHT, SN_MAX_HEIGHT + 1, SN_MIN_HEIGHT - 1};
    uint8_t guarded[2][4 + 2 * GUARD], *joins = guarded[0] + GUARD, *splits = guarded[1] + GUARD;
    sn_answer got;

    memset(guarded, UNTOUCHED, sizeof guarded);
    got = sn_joins_and_splits(SN_NO_SHEET, 2, 2, heights, 4, joins, 4, splits, 4);
    check(got.code == SN_HEIGHT_OUT_OF_RANGE && got.place == 2, "joins, a height out of range");
    got = sn_joins_and_splits(SN_NO_SHEET, 2, 2, heights, 4, joins, 4, NULL, 0);
    check(got.code == SN_BAD_LIST_LENGTH && got.place == 0, "no splits");
    got = sn_joins_and_splits(SN_NO_SHEET, 2, 2, heights, 4, NULL, 0, splits, 4);
    check(got.code == SN_BAD_LIST_LENGTH && got.place == 0, "no joins");
    got = sn_joins_and_splits(SN_NO_SHEET, 2, 2, NULL, 0, NULL, 0, NULL, 0);
    check(got.code == SN_BAD_HEIGHTS_LENGTH && got.place == 0, "joins, no heights");
    got = sn_joins_and_splits(SN_NO_SHEET, 1, 121, NULL, 0, NULL, 0, NULL, 0);
    check(got.code == SN_BAD_SIDES && got.place == 0, "joins, sides before lists");
    check(has_codes(guarded[0], 4, NULL) && has_codes(guarded[1], 4, NULL),
          "refused joins and splits leave their lists");
}

/* A height that is tried at a post, and the counts that come of it. */
typedef struct {
    const char *name;
    uint32_t rule, rows, columns;
    int32_t heights[25];
    uint32_t post;
    int32_t height;
    uint32_t counts[6]; /* peaks, pits, saddles; the same with the new height */
} tried;

enum { TRIED = 20 };

/* Crossed by rule 1: put level with the others, post 0 is no peak, and post 2 no saddle; post 1 put
   up to 9 is the one peak. In star, whose middle is a saddle of multiplicity 3, a middle above
   the tops takes their peaks and is one. Below the corners it is a pit; then each corner, between
   the pit and what is outside, is a saddle. As high as the tops it is above posts 1 and 5, which
   are driven before it, and below 3 and 7. Hollow filled up is one slope to post 8. Heaped it has
   a peak in its middle, and by rule 1 post 8 remains one: a diagonal of its cell joins 5 and 7.
   In tops by rule 2 the middle keeps the corners from being peaks; below all it is a pit, and they
   are peaks. No move of peaks is greater than there and in star, by three. Of pits that is so in
   corners by rule 1 and in wells by rule 2. In the last three the drive decides: a hook of
   level posts has one peak, at its end, and holds a pit; the bottom row of hook and top is driven
   from east to west, so that post 9 is a peak. */
static const tried trials[TRIED] = {
    {"flat, trial of its own height", 1, 2, 2, {0, 0, 0, 0}, 0, 0, {1, 1, 0, 1, 1, 0}},
    {"crossed, post 0 put level", 1, 2, 2, {5, 0, 0, 5}, 0, 0, {2, 1, 1, 1, 1, 0}},
    {"crossed, post 1 put up", 1, 2, 2, {5, 0, 0, 5}, 1, 9, {2, 1, 1, 1, 1, 0}},
    {"crossed, rule 2, post 0 put level", 2, 2, 2, {5, 0, 0, 5}, 0, 0, {1, 1, 0, 1, 1, 0}},
    {"star, its middle put up", 1, 3, 3, {0, 2, 0, 2, 1, 2, 0, 2, 0}, 4, 3,
     {4, 1, 3, 1, 1, 0}},
    {"star, its middle put down", 1, 3, 3, {0, 2, 0, 2, 1, 2, 0, 2, 0}, 4, -1,
     {4, 1, 3, 4, 2, 4}},
    {"star, its middle put level with the tops", 1, 3, 3, {0, 2, 0, 2, 1, 2, 0, 2, 0}, 4, 2,
     {4, 1, 3, 2, 1, 1}},
    {"star, a top put down", 1, 3, 3, {0, 2, 0, 2, 1, 2, 0, 2, 0}, 1, 0, {4, 1, 3, 3, 1, 2}},
    {"star, rule 2, its middle put up", 2, 3, 3, {0, 2, 0, 2, 1, 2, 0, 2, 0}, 4, 3,
     {1, 2, 1, 1, 1, 0}},
    {"hollow, filled", 1, 3, 3, {1, 1, 1, 1, 0, 1, 1, 1, 1}, 4, 1, {1, 2, 1, 1, 1, 0}},
    {"hollow, heaped", 1, 3, 3, {1, 1, 1, 1, 0, 1, 1, 1, 1}, 4, 2, {1, 2, 1, 2, 1, 1}},
    {"hollow, opened at a corner", 1, 3, 3, {1, 1, 1, 1, 0, 1, 1, 1, 1}, 8, 0,
     {1, 2, 1, 2, 2, 2}},
    {"hollow, rule 2, heaped", 2, 3, 3, {1, 1, 1, 1, 0, 1, 1, 1, 1}, 4, 2, {1, 2, 1, 1, 1, 0}},
    {"tops, rule 2", 2, 3, 3, {3, 1, 3, 1, 4, 1, 3, 1, 3}, 4, 0, {1, 1, 0, 4, 2, 4}},
    {"corners", 1, 5, 5,
     {9, 9, 9, 9, 9, 9, 1, 5, 1, 9, 9, 5, 0, 5, 9, 9, 1, 5, 1, 9, 9, 9, 9, 9, 9}, 12, 6,
     {1, 2, 1, 2, 5, 5}},
    {"wells", 1, 5, 5,
     {9, 9, 9, 9, 9, 9, 8, 1, 8, 9, 9, 1, 5, 1, 9, 9, 8, 1, 8, 9, 9, 9, 9, 9, 9}, 12, 0,
     {2, 2, 2, 1, 2, 1}},
    {"wells, rule 2", 2, 5, 5,
     {9, 9, 9, 9, 9, 9, 8, 1, 8, 9, 9, 1, 5, 1, 9, 9, 8, 1, 8, 9, 9, 9, 9, 9, 9}, 12, 0,
     {1, 5, 4, 1, 2, 1}},
    {"hook", 1, 3, 3, {1, 1, 1, 0, 0, 1, 0, 0, 0}, 6, 1, {1, 2, 1, 2, 2, 2}},
    {"hook and top", 1, 4, 3, {1, 1, 1, 0, 0, 1, 0, 0, 0, 0, 0, 1}, 9, -1, {3, 2, 3, 2, 2, 2}},
    {"hook and top, rule 2", 2, 4, 3, {1, 1, 1, 0, 0, 1, 0, 0, 0, 0, 0, 1}, 9, -1,
     {3, 2, 3, 2, 2, 2}}
};

/* Has a trial these counts, from the first three to the last or the other way round? They move as
   they may. */
static void check_counts(sn_trial_counts got, const uint32_t *now, const uint32_t *then,
                         const char *what)
{
    int peaks = (int)got.new_peaks - (int)got.peaks, pits = (int)got.new_pits - (int)got.pits;
    int saddles = (int)got.new_saddles - (int)got.saddles;

    check(got.code == SN_OK && got.place == 0, what);
    check(got.peaks == now[0] && got.pits == now[1] && got.saddles == now[2], what);
    check(got.new_peaks == then[0] && got.new_pits == then[1] && got.new_saddles == then[2], what);
    check(abs(peaks) <= 5 && abs(pits) <= 5 && abs(saddles) <= 10, "moves of a trial");
    check(saddles == peaks + pits, "saddles move by the two together");
}

/* There, and from the new height back; every list is left as it was. */
static void trial(const tried *p, const sheet *s)
{
    size_t n = (size_t)p->rows * p->columns;
    uint8_t *bytes = lent_sheet(s);
    int32_t *heights = (int32_t *)lent(n * sizeof *heights, p->heights);
    sn_trial_counts got;

    got = sn_trial(bytes, s->length, p->rows, p->columns, heights, n, p->post, p->height);
    check_counts(got, p->counts, p->counts + 3, p->name);
    check(memcmp(heights, p->heights, n * sizeof *heights) == 0, p->name);
    heights[p->post] = p->height;
    got = sn_trial(bytes, s->length, p->rows, p->columns, heights, n, p->post,
                   p->heights[p->post]);
    check_counts(got, p->counts + 3, p->counts, p->name);
    check(heights[p->post] == p->height, p->name);
    heights[p->post] = p->heights[p->post];
    check(memcmp(heights, p->heights, n * sizeof *heights) == 0, p->name);
    check(s->length == 0 || memcmp(bytes, s->bytes, s->length) == 0, p->name);
    free(bytes);
    free(heights);
}

/* A trial that is refused for this has no counts; a re-shoot with four marks is refused alike. */
static void refused_trial(uint32_t rows, const int32_t *heights, size_t length, uint32_t post,
                          int32_t height, uint32_t code, uint32_t place, const char *what)
{
    uint8_t marks[4] = {7, 7, 7, 7};
    int32_t *copy = (int32_t *)lent(length * sizeof *copy, heights);
    sn_trial_counts got = sn_trial(SN_NO_SHEET, rows, 2, heights, length, post, height);
    sn_answer shot = sn_reshoot(SN_NO_SHEET, rows, 2, copy, length, marks, 4, post, height);

    check(got.code == code && got.place == place, what);
    check(!got.peaks && !got.pits && !got.saddles, what);
    check(!got.new_peaks && !got.new_pits && !got.new_saddles, what);
    check(shot.code == code && shot.place == place, what);
    free(copy);
}

static void refused_trials(void)
{
    static const int32_t good[4] = {5, 0, 0, 5};
    static const int32_t bad[4] = {0, SN_MAX_HEIGHT, SN_MAX_HEIGHT + 1, SN_MIN_HEIGHT - 1};
    const int32_t high = SN_MAX_HEIGHT + 1, low = SN_MIN_HEIGHT - 1;

    refused_trial(2, good, 4, 0, high, SN_BAD_NEW_HEIGHT, 0, "trial, a height too high");
    refused_trial(2, good, 4, 3, low, SN_BAD_NEW_HEIGHT, 0, "trial, a height too low");
    refused_trial(2, good, 4, 3, INT32_MIN, SN_BAD_NEW_HEIGHT, 0, "trial, the lowest number");
    refused_trial(2, good, 4, 4, 0, SN_NO_SUCH_POST, 0, "trial, no such post");
    refused_trial(2, good, 4, UINT32_MAX, high, SN_NO_SUCH_POST, 0, "trial, the post first");
    refused_trial(2, bad, 4, 4, high, SN_HEIGHT_OUT_OF_RANGE, 2, "trial, the heights first");
    refused_trial(2, bad + 2, 2, 0, 0, SN_BAD_HEIGHTS_LENGTH, 0, "trial, their number first");
    refused_trial(2, bad, 4, 2, 0, SN_HEIGHT_OUT_OF_RANGE, 2, "trial, the old height counts");
    refused_trial(2, NULL, 0, 4, high, SN_BAD_HEIGHTS_LENGTH, 0, "trial, no heights");
    refused_trial(1, bad, 4, 4, high, SN_BAD_SIDES, 0, "trial, the sides first");
    refused_trial(121, NULL, 0, 4, high, SN_BAD_SIDES, 0, "trial, sides before lists");
}

/* A step down and a step up from a post. */
static void next(const plot *p, uint32_t post, uint32_t down, uint32_t up, const char *what)
{
    const sheet *s = meaning(p->rule);
    sn_next got = sn_next_down(s->bytes, s->length, p->rows, p->columns, p->along_row,
                               p->along_column, p->heights, posts_of(p), post);

    check(got.code == SN_OK && got.place == 0 && got.post == down, what);
    got = sn_next_up(s->bytes, s->length, p->rows, p->columns, p->along_row, p->along_column,
                     p->heights, posts_of(p), post);
    check(got.code == SN_OK && got.place == 0 && got.post == up, what);
}

static void walks(void)
{
    sn_next up = sn_next_up(SN_NO_SHEET, 3, 3, EQUAL, hollow.heights, 9, 9);

    check(up.code == SN_NO_SUCH_POST && up.post == 0, "no such post");
    next(&hollow, 4, 4, 7, "a pit stays, and rises to the last of the nearest");
    next(&hollow, 5, V, 8, "from the border");
    next(&hollow, 8, V, 8, "a peak stays");
    next(&hollow, 0, V, 3, "from a corner to its last neighbour");
    next(&hollow_2, 1, V, 3, "along a diagonal by rule 2, back as the odd row is driven");
    next(&hollow_2, 3, V, 7, "along another");
    next(&star, 4, 0, 7, "down to a corner");
    next(&star_2, 4, 4, 7, "no corner by rule 2");
    next(&runs, 0, V, 4, "up a diagonal");
    next(&runs, 4, 0, 7, "past a diagonal");
    next(&crossed, 0, V, 0, "a peak");
    next(&crossed_2, 0, V, 3, "no peak by rule 2");
    next(&flat, 3, V, 2, "up as the odd row is driven");
    next(&flat_2, 1, V, 2, "up the diagonal of rule 2");
    next(&level, 4, 0, 7, "the middle, down to the first driven");
    next(&level_2, 4, 1, 8, "the middle by rule 2");
    next(&level, 5, V, 8, "from an odd row to the last of the next");
    next(&level, 3, V, 6, "and from its end to the first of the next");
    next(&slant, 4, 5, 3, "steepest, not lowest");
    next(&slant_wide, 4, 8, 1, "by a wider spacing to the corner");
    next(&turn, 5, 6, 4, "to the pit");
    next(&turn_wide, 5, 9, 1, "turned");
}

/* What a sheet says, into lists of three lengths: 13 and 14 go before 3. */
static void settings(const sheet *s)
{
    size_t length, size = strlen(s->name);

    for (length = SN_MAX_NAME - 1; length <= SN_MAX_NAME + 1; length++) {
        int fits = length == SN_MAX_NAME, good = fits && s->code == SN_OK;
        uint32_t code = s->code || fits ? s->code : (uint32_t)SN_BAD_LIST_LENGTH;
        uint8_t *bytes = lent_sheet(s), *list = (uint8_t *)lent(length + 2 * GUARD, NULL);
        sn_sheet got;

        memset(list, UNTOUCHED, length + 2 * GUARD);
        got = sn_settings(bytes, s->length, list + GUARD, length);
        check(got.code == code && got.place == 0, "settings, code");
        check(got.rule == (good ? s->rule : 0), "settings, rule");
        check(got.name_length == (good ? size : 0), "settings, length of the name");
        check(has_text(list, length, good ? s->name : NULL, 0), "settings, name");
        free(bytes);
        free(list);
    }
}

/* A sheet that is refused is refused by every call that takes one, whatever else is wrong:
   the first time nothing is, then the post and the run, then the sides, a spacing and all
   lists. */
static void refused_sheet(const sheet *s)
{
    static const uint32_t rows[3] = {2, 2, 1}, along_row[3] = {100, 100, 0}, posts[3] = {2, 9, 9};
    static const size_t lengths[3] = {4, 4, 3};
    uint8_t *b = lent_sheet(s), marks[4] = {7, 7, 7, 7}, ring_list[SN_RING_LENGTH] = {7};
    int32_t heights[4] = {5, 0, 0, 5};
    uint8_t joins[4] = {7, 7, 7, 7}, splits[4] = {7, 7, 7, 7};
    uint16_t dales[4] = {7, 7, 7, 7}, hills[4] = {7, 7, 7, 7};
    int i;

    for (i = 0; i < 3; i++) {
        uint32_t r = rows[i], a = along_row[i], p = posts[i];
        size_t n = lengths[i], l = s->length;
        sn_counts counts = sn_survey(b, l, r, 2, heights, n, marks, n);
        sn_trial_counts trial = sn_trial(b, l, r, 2, heights, n, p, 1);
        sn_ring_mark shown = sn_ring(b, l, r, 2, heights, n, p, ring_list, 2 * n);
        sn_next down = sn_next_down(b, l, r, 2, a, 100, heights, n, p);
        sn_next up = sn_next_up(b, l, r, 2, a, 100, heights, n, p);
        sn_entries water = sn_thalweg(b, l, r, 2, a, 100, heights, n, p, p, dales, n);
        sn_entries crest = sn_ridge(b, l, r, 2, a, 100, heights, n, p, p, hills, n);
        check(counts.code == s->code && !counts.place && !counts.pits, "survey, its sheet");
        check(sn_reshoot(b, l, r, 2, heights, n, marks, n, p, 1).code == s->code,
              "re-shoot, its sheet");
        check(trial.code == s->code && !trial.place && !trial.pits && !trial.new_pits,
              "trial, its sheet");
        check(shown.code == s->code && !shown.place && !shown.k, "ring, its sheet");
        check(down.code == s->code && !down.place && !down.post, "next down, its sheet");
        check(up.code == s->code && !up.place && !up.post, "next up, its sheet");
        check(water.code == s->code && !water.place && !water.count, "thalweg, its sheet");
        check(crest.code == s->code && !crest.place && !crest.count, "ridge, its sheet");
        check(sn_dales_and_hills(b, l, r, 2, a, 100, heights, n, dales, n, hills, n).code ==
              s->code, "dales and hills, their sheet");
        check(sn_joins_and_splits(b, l, r, 2, heights, n, joins, n, splits, n).code == s->code,
              "joins and splits, their sheet");
    }
    check(memcmp(heights, crossed.heights, sizeof heights) == 0, "no height is changed");
    for (i = 0; i < 4; i++)
        check(marks[i] == 7 && dales[i] == 7 && hills[i] == 7 && joins[i] == 7 && splits[i] == 7,
              "no list is changed");
    check(ring_list[0] == 7 && ring_list[1] == 0, "no ring is changed");
    free(b);
}

int main(void)
{
    const plot *const plots[PLOTS] = {&flat, &crossed, &star, &hollow, &runs, &level,
                                      &flat_2, &crossed_2, &star_2, &hollow_2, &level_2,
                                      &slant, &slant_wide, &turn, &turn_wide};
    int i, j;

    for (j = 0; j < SHEETS; j++) {
        settings(&sheets[j]);
        if (sheets[j].code != SN_OK)
            refused_sheet(&sheets[j]);
        for (i = 0; i < PLOTS; i++)
            if (plots[i]->rule == sheets[j].rule) {
                survey(plots[i], &sheets[j]);
                reshoots(plots[i], &sheets[j]);
                rings(plots[i], &sheets[j]);
                parts(plots[i], &sheets[j]);
            }
        for (i = 0; i < JOINED; i++)
            if (joined_plots[i].rule == sheets[j].rule)
                joins_and_splits(&joined_plots[i], &sheets[j]);
        for (i = 0; i < TRIED; i++)
            if (trials[i].rule == sheets[j].rule)
                trial(&trials[i], &sheets[j]);
    }
    refused_rings();
    refused_joins();
    refused_trials();
    lines();
    lines_2();
    lines_turned();
    spacings();
    files(header_1, sizeof header_1, SN_FILE_SPACING_1, SN_FILE_SPACING_1);
    files(header_2, sizeof header_2, SN_MAX_SPACING, SN_MIN_SPACING);
    short_files();
    round_trip();
    sides();
    walks();
    printf("%d passed, %d failed\n", passed, failed);
    return failed != 0;
}
