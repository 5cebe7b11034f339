/*
 * What the header has beside the calls: version, sizes, codes in words, what a mark
 * says, a ring's codes, the words of answers, the numbers of files, spacings and sheets,
 * and how many heights a file asks for. Compiles as C89 and later and as C++, and so
 * without a C cast.
 */
#include "surface_network.h"

#include <stdio.h>
#include <string.h>

static int passed, failed;

static void check(int holds, const char *what)
{
    if (holds) {
        passed++;
    } else {
        failed++;
        printf("FAILED: %s\n", what);
    }
}

/* A file's size is a constant: an array can have it. */
typedef uint8_t largest_file[SN_FILE_SIZE(SN_MAX_SIDE, SN_MAX_SIDE)];

static void sizes(void)
{
    uint32_t rows = 3, columns = 4;
    int side = 2;

    check(sizeof(largest_file) == SN_MAX_FILE, "the largest file");
    check(SN_MAX_POSTS == SN_MAX_SIDE * SN_MAX_SIDE, "posts");
    check(SN_MAX_LINE == SN_MAX_POSTS + 1, "entries of a line");
    check(SN_FILE_SIZE(rows, columns) == 59, "the file of 3 by 4 posts");
    check(SN_FILE_SIZE(side, side + 1) == 35, "the file of 2 by 3 posts");
    check(SN_FILE_VERSION == 2 && SN_FILE_HEADER == 11, "what a file begins with");
    check(SN_FILE_VERSION_1 == 1 && SN_FILE_HEADER_1 == 7 && SN_FILE_SPACING_1 == 100,
          "and one of version 1");
}

/* The numbers of spacings, and the answer of a file, which is six words and no more. */
static void spacings_alone(void)
{
    check(SN_MIN_SPACING == 1 && SN_MAX_SPACING == 1000, "the range of a spacing");
    check(offsetof(sn_size, code) == 0 && offsetof(sn_size, place) == 4, "code and place");
    check(offsetof(sn_size, rows) == 8 && offsetof(sn_size, columns) == 12, "rows and columns");
    check(offsetof(sn_size, along_row) == 16 && offsetof(sn_size, along_column) == 20,
          "spacings");
    check(sizeof(sn_size) == 24, "the size of a file's answer");
}

static void version(void)
{
    char text[40];

    sprintf(text, "%d.%d.%d", SN_VERSION_MAJOR, SN_VERSION_MINOR, SN_VERSION_PATCH);
    check(strcmp(text, SN_VERSION) == 0, "the version as text");
    check(SN_VERSION_NUMBER / 10000 == SN_VERSION_MAJOR, "the version as a number: major");
    check(SN_VERSION_NUMBER / 100 % 100 == SN_VERSION_MINOR, "minor");
    check(SN_VERSION_NUMBER % 100 == SN_VERSION_PATCH, "patch");
    check(sn_version() == SN_VERSION_NUMBER, "the version of the archive");
    check(SN_VERSION_MATCHES() == 1, "the versions match");
}

/* A file of version 2, with heights of 0. */
static uint8_t file[SN_MAX_FILE];
static int32_t filed[SN_MAX_POSTS + 1];

static void put_header(uint8_t rows, uint8_t columns, size_t count)
{
    file[0] = SN_FILE_VERSION;
    file[1] = file[2] = 0;
    file[3] = count >> 8 & 255;
    file[4] = count & 255;
    file[5] = rows;
    file[6] = columns;
    file[7] = file[9] = 0;
    file[8] = file[10] = 1;
}

static int is_side(uint8_t side)
{
    return side >= SN_MIN_SIDE && side <= SN_MAX_SIDE;
}

/* Of every two sides: the heights that a read takes, and no others. */
static void file_posts(void)
{
    uint8_t rows = 0, columns = 0;
    size_t length, posts, size;
    int lent = 1, refused = 1, told = 1, early = 1, accepted = 0;

    do {
        do {
            posts = is_side(rows) && is_side(columns) ? SN_TO_SIZE(rows) * columns : 0;
            size = posts == 0 ? SN_FILE_HEADER : SN_FILE_SIZE(rows, columns);
            put_header(rows, columns, size - 5);
            for (length = 0; length < SN_FILE_HEADER_1; length++)
                early = early && sn_file_posts(file, length) == 0;
            for (; length <= SN_FILE_HEADER; length++)
                told = told && sn_file_posts(file, length) == posts;
            told = told && sn_file_posts(file, size) == posts;
            if (posts == 0) {
                refused = refused && sn_read_survey(file, size, filed, 0).code == SN_BAD_SIDES;
                continue;
            }
            lent = lent && sn_read_survey(file, size, filed, posts).code == SN_OK;
            refused = refused &&
                sn_read_survey(file, size, filed, posts - 1).code == SN_BAD_LIST_LENGTH &&
                sn_read_survey(file, size, filed, posts + 1).code == SN_BAD_LIST_LENGTH;
            accepted++;
        } while (++columns != 0);
    } while (++rows != 0);
    check(accepted == 119 * 119, "the sides of all plots");
    check(early && sn_file_posts(SN_NO_BYTES, 0) == 0, "no posts under seven bytes");
    check(told, "posts of a file");
    check(lent, "as many are what a read takes");
    check(refused, "and another number is not");
}

static void codes(void)
{
    uint32_t code, other;

    for (code = 0; code <= SN_BAD_SPACING + 1; code++) {
        check(strlen(sn_code_text(code)) > 5, "a code has words");
        for (other = 0; other < code; other++)
            check(strcmp(sn_code_text(code), sn_code_text(other)) != 0, "words of its own");
    }
    check(strcmp(sn_code_text(SN_BAD_SPACING + 1), sn_code_text(UINT32_MAX)) == 0, "no such code");
    check(SN_BAD_SHEET == 13 && SN_BAD_ENTRY == 14, "the codes of a sheet");
    check(strcmp(sn_code_text(13), "the settings sheet is damaged or of another version") == 0, "words of 13");
    check(strcmp(sn_code_text(14), "the settings sheet has an entry that it may not have") == 0,
          "words of 14");
    check(SN_BAD_SPACING == 15, "the code of a spacing");
    check(strcmp(sn_code_text(15), "a spacing is outside 1 to 1,000 centimetres") == 0,
          "words of 15");
}

/* The numbers of a sheet; its answer is four words and no more. */
static void sheets_alone(void)
{
    check(SN_SHEET_VERSION == 1 && SN_SHEET_HEADER == 5, "what a sheet begins with");
    check(SN_ENTRY_RULE == 1 && SN_ENTRY_NAME == 2, "kinds of entries");
    check(SN_THROUGH_LOWEST == 1 && SN_THROUGH_HIGHEST == 2, "rules");
    check(SN_DEFAULT_RULE == SN_THROUGH_HIGHEST, "the rule where none is named");
    check(SN_MAX_NAME == 32, "the longest name");
    check(SN_MAX_SHEET == SN_SHEET_HEADER + 3 + 2 + SN_MAX_NAME, "the longest sheet");
    check(offsetof(sn_sheet, code) == 0 && offsetof(sn_sheet, place) == 4, "code and place");
    check(offsetof(sn_sheet, rule) == 8 && offsetof(sn_sheet, name_length) == 12,
          "rule and length of the name");
    check(sizeof(sn_sheet) == 16, "the size of a sheet's answer");
}

/* Sheets that name a rule and no more. */
static const uint8_t rule_1[] = SN_RULE_SHEET(SN_THROUGH_LOWEST);
static const uint8_t rule_2[] = SN_RULE_SHEET(SN_THROUGH_HIGHEST);
#define RULE_1 rule_1, sizeof rule_1
#define RULE_2 rule_2, sizeof rule_2

/* The longest sheet, none, and those that name a rule. */
static void settings(void)
{
    static const uint8_t entries[10] = {SN_SHEET_VERSION, 0, 0, 0, SN_MAX_SHEET - SN_SHEET_HEADER,
                                        SN_ENTRY_RULE, 1, SN_THROUGH_LOWEST,
                                        SN_ENTRY_NAME, SN_MAX_NAME};
    uint8_t sheet[SN_MAX_SHEET], name[SN_MAX_NAME];
    sn_sheet said;

    memset(sheet, 'x', sizeof sheet);
    memcpy(sheet, entries, sizeof entries);
    said = sn_settings(sheet, SN_MAX_SHEET, name, SN_MAX_NAME);
    check(said.code == SN_OK && said.rule == SN_THROUGH_LOWEST, "the rule of a sheet");
    check(said.name_length == SN_MAX_NAME && memcmp(name, sheet + 10, SN_MAX_NAME) == 0,
          "the name of a sheet");
    said = sn_settings(SN_NO_SHEET, name, SN_MAX_NAME);
    check(said.code == SN_OK && said.rule == SN_DEFAULT_RULE, "the rule of no sheet");
    check(said.name_length == 0 && name[0] == 0 && name[SN_MAX_NAME - 1] == 0, "no name");
    said = sn_settings(RULE_1, name, SN_MAX_NAME);
    check(said.code == SN_OK && said.rule == SN_THROUGH_LOWEST, "rule 1 named");
    said = sn_settings(RULE_2, name, SN_MAX_NAME);
    check(said.code == SN_OK && said.rule == SN_THROUGH_HIGHEST, "rule 2 named");
}

static void marks_alone(void)
{
    static const uint32_t runs[6] = {0, 0, 0, 2, 3, 4};
    uint32_t mark;

    for (mark = SN_ORDINARY; mark <= SN_SADDLE_3; mark++) {
        check(SN_IS_SADDLE(mark) == (runs[mark] != 0), "is a saddle");
        check(SN_SADDLE_RUNS(mark) == runs[mark], "runs of a mark");
        check(SN_MULTIPLICITY(mark) == (runs[mark] ? runs[mark] - 1 : 0), "multiplicity of a mark");
    }
}

/* Here and below, by rule 1: a post has a thalweg and a ridge for each of its runs, and no
   more. */
static void lines_of(const int32_t *heights, uint32_t post, uint8_t mark)
{
    uint16_t line[10];
    uint32_t run, runs = SN_SADDLE_RUNS(mark), end = SN_IS_SADDLE(mark) ? 8 : 7;
    sn_entries down, up;

    for (run = 0; run <= runs; run++) {
        down = sn_thalweg(RULE_1, 3, 3, 100, 100, heights, 9, post, run, line, 10);
        up = sn_ridge(RULE_1, 3, 3, 100, 100, heights, 9, post, run, line, 10);
        check(down.code == (run < runs ? 0 : end), "a thalweg for each run");
        check(up.code == (run < runs ? 0 : end), "a ridge for each run");
    }
}

/* The numbers of a ring's codes, and its answer, which is four words and no more. */
static void ring_alone(void)
{
    static const int stands[5] = {SN_NO_MEMBER, SN_ABOVE_BY_HEIGHT, SN_ABOVE_BY_TIE,
                                  SN_BELOW_BY_HEIGHT, SN_BELOW_BY_TIE};
    int i;

    for (i = 0; i < 5; i++)
        check(stands[i] == i, "codes of members");
    check(SN_RING_LENGTH == 8, "the bytes of a ring");
    check(offsetof(sn_ring_mark, code) == 0 && offsetof(sn_ring_mark, place) == 4,
          "code and place");
    check(offsetof(sn_ring_mark, k) == 8 && offsetof(sn_ring_mark, mark) == 12, "k and mark");
    check(sizeof(sn_ring_mark) == 16, "the size of a ring's answer");
}

/* The answer of a trial is eight words and no more. */
static void trial_alone(void)
{
    check(offsetof(sn_trial_counts, code) == 0 && offsetof(sn_trial_counts, place) == 4,
          "code and place");
    check(offsetof(sn_trial_counts, peaks) == 8 && offsetof(sn_trial_counts, pits) == 12 &&
          offsetof(sn_trial_counts, saddles) == 16, "counts now");
    check(offsetof(sn_trial_counts, new_peaks) == 20 && offsetof(sn_trial_counts, new_pits) == 24 &&
          offsetof(sn_trial_counts, new_saddles) == 28, "counts with the new height");
    check(sizeof(sn_trial_counts) == 32, "the size of a trial's answer");
}

/* A trial of any height, at any post, tells a survey's counts now and what they would be. */
static void trials_of(const int32_t *heights, sn_counts now)
{
    int32_t tried[9];
    uint8_t marks[9];
    uint32_t post;
    int32_t height;

    for (post = 0; post < 9; post++)
        for (height = -1; height <= 10; height++) {
            sn_trial_counts got = sn_trial(RULE_1, 3, 3, heights, 9, post, height);
            sn_counts then;

            memcpy(tried, heights, sizeof tried);
            tried[post] = height;
            then = sn_survey(RULE_1, 3, 3, tried, 9, marks, 9);
            check(got.code == SN_OK && got.place == 0, "a trial");
            check(got.peaks == now.peaks && got.pits == now.pits && got.saddles == now.saddles,
                  "counts now");
            check(got.new_peaks == then.peaks && got.new_pits == then.pits &&
                  got.new_saddles == then.saddles, "counts as they would be");
        }
}

/* A ring tells the mark, and by its codes the runs. */
static void ring_of(const int32_t *heights, uint32_t post, uint8_t mark)
{
    uint8_t ring[SN_RING_LENGTH];
    uint32_t i, members = 0, starts = 0, above = 0;
    sn_ring_mark got = sn_ring(RULE_1, 3, 3, heights, 9, post, ring, SN_RING_LENGTH);

    while (members < SN_RING_LENGTH && ring[members] != SN_NO_MEMBER)
        members++;
    for (i = 0; i < members; i++) {
        int before = ring[i ? i - 1 : members - 1] >= SN_BELOW_BY_HEIGHT;
        int below = ring[i] >= SN_BELOW_BY_HEIGHT;
        if (!below)
            above++;
        else if (!before)
            starts++;
    }
    check(got.code == SN_OK && got.mark == mark, "a ring's mark");
    check(got.k == (above ? starts : 1), "a ring's runs");
    check(!SN_IS_SADDLE(mark) || got.k == SN_SADDLE_RUNS(mark), "a saddle's runs");
}

/* Joins and splits of a post make its multiplicity; all of them make the counts. */
static void bodies_of(const int32_t *heights, const uint8_t *marks, sn_counts counts)
{
    uint8_t joins[9], splits[9];
    uint32_t post, all_joins = 0, all_splits = 0;
    sn_answer got = sn_joins_and_splits(RULE_1, 3, 3, heights, 9, joins, 9, splits, 9);

    check(got.code == SN_OK && got.place == 0, "joins and splits");
    for (post = 0; post < 9; post++) {
        check(SN_MULTIPLICITY(marks[post]) == 0u + joins[post] + splits[post],
              "joins and splits of a post");
        all_joins += joins[post];
        all_splits += splits[post];
    }
    check(all_joins == counts.pits - 1, "all joins");
    check(all_splits == counts.peaks - 1, "all splits");
}

/* A plot whose middle has a mark. */
static void marks_of(const int32_t *heights, uint8_t middle)
{
    uint8_t marks[9];
    uint32_t post, sum = 0;
    sn_counts counts = sn_survey(RULE_1, 3, 3, heights, 9, marks, 9);

    check(counts.code == SN_OK && marks[4] == middle, "the middle's mark");
    for (post = 0; post < 9; post++) {
        sum += SN_MULTIPLICITY(marks[post]);
        ring_of(heights, post, marks[post]);
        lines_of(heights, post, marks[post]);
    }
    check(sum == counts.saddles, "multiplicities make the count");
    bodies_of(heights, marks, counts);
    trials_of(heights, counts);
}

int main(void)
{
    static const int32_t two[9] = {0, 3, 9, 2, 5, 7, 6, 8, 1};
    static const int32_t three[9] = {2, 2, 0, 2, 1, 2, 0, 2, 0};
    static const int32_t four[9] = {0, 2, 0, 2, 1, 2, 0, 2, 0};
    static const int32_t pit[9] = {1, 1, 1, 1, 0, 1, 1, 1, 1};

    sizes();
    spacings_alone();
    version();
    file_posts();
    codes();
    marks_alone();
    ring_alone();
    trial_alone();
    sheets_alone();
    settings();
    marks_of(two, SN_SADDLE_1);
    marks_of(three, SN_SADDLE_2);
    marks_of(four, SN_SADDLE_3);
    marks_of(pit, SN_PIT);
    printf("%d passed, %d failed\n", passed, failed);
    return failed != 0;
}
