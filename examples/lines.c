/*
 * Lists all lines of a plot and draws them on a map of its posts. The plot has no settings
 * sheet, so that diagonals go through the highest posts.
 *
 *     lines plot.svy
 *
 * A saddle has a thalweg and a ridge for each of its runs; SN_SADDLE_RUNS tells from
 * its mark how many that is. A listed line is T or R, saddle, run, then its entries,
 * the virtual pit written V.
 */
#include "surface_network.h"

#include <stdio.h>

static uint8_t file[SN_MAX_FILE + 1]; /* a byte more, to see a file that is too long */
static uint32_t rows, columns, along_row, along_column;
static size_t posts;
static int32_t heights[SN_MAX_POSTS];
static uint8_t marks[SN_MAX_POSTS];
static uint16_t line[SN_MAX_LINE];

/* What lies at each post, apart from its mark. */
enum { THALWEG = 1, RIDGE = 2 };
static uint8_t drawn[SN_MAX_POSTS];

static int refused(const char *call, uint32_t code)
{
    fprintf(stderr, "%s: %s\n", call, sn_code_text(code));
    return 1;
}

/* A failed read is not a short file. */
static int read_plot(const char *name)
{
    FILE *f = fopen(name, "rb");
    size_t length;
    int failed;
    sn_size size;

    if (f == NULL) {
        perror(name);
        return 1;
    }
    length = fread(file, 1, sizeof file, f);
    failed = ferror(f);
    if (failed)
        perror(name);
    fclose(f);
    if (failed)
        return 1;
    posts = sn_file_posts(file, length);
    size = sn_read_survey(file, length, heights, posts);
    rows = size.rows;
    columns = size.columns;
    along_row = size.along_row;
    along_column = size.along_column;
    return size.code == SN_OK ? 0 : refused(name, size.code);
}

/* Lists the line that was written, and notes which posts it goes through. */
static void show_line(char letter, uint32_t saddle, uint32_t run, uint32_t count)
{
    uint32_t i;

    printf("%c %lu %lu:", letter, (unsigned long)saddle, (unsigned long)run);
    for (i = 0; i < count; i++) {
        if (line[i] == SN_VIRTUAL_PIT) {
            printf(" V");
        } else {
            printf(" %u", (unsigned)line[i]);
            drawn[line[i]] |= letter == 'T' ? THALWEG : RIDGE;
        }
    }
    printf("\n");
}

static int show_lines_of(uint32_t saddle)
{
    uint32_t run, runs = SN_SADDLE_RUNS(marks[saddle]);
    sn_entries entries;

    for (run = 0; run < runs; run++) {
        entries = sn_thalweg(SN_NO_SHEET, rows, columns, along_row, along_column, heights, posts,
                             saddle, run, line, SN_MAX_LINE);
        if (entries.code != SN_OK)
            return refused("thalweg", entries.code);
        show_line('T', saddle, run, entries.count);
    }
    for (run = 0; run < runs; run++) {
        entries = sn_ridge(SN_NO_SHEET, rows, columns, along_row, along_column, heights, posts,
                           saddle, run, line, SN_MAX_LINE);
        if (entries.code != SN_OK)
            return refused("ridge", entries.code);
        show_line('R', saddle, run, entries.count);
    }
    return 0;
}

static char sign_of(uint32_t post)
{
    static const char by_lines[4] = {'.', '~', '=', '+'};

    switch (marks[post]) {
    case SN_PEAK: return '^';
    case SN_PIT: return 'o';
    case SN_ORDINARY: return by_lines[drawn[post]];
    default: return 'x';
    }
}

static void draw_map(void)
{
    uint32_t post;

    printf("\n^ peak  o pit  x saddle  ~ thalweg  = ridge  + both\n\n");
    for (post = 0; post < posts; post++)
        printf("%c%c", sign_of(post), (post + 1) % columns == 0 ? '\n' : ' ');
}

int main(int argc, char **argv)
{
    sn_counts counts;
    uint32_t post;

    if (argc != 2) {
        fprintf(stderr, "usage: lines plot.svy\n");
        return 2;
    }
    if (read_plot(argv[1]))
        return 1;
    counts = sn_survey(SN_NO_SHEET, rows, columns, heights, posts, marks, posts);
    if (counts.code != SN_OK)
        return refused("survey", counts.code);
    for (post = 0; post < posts; post++)
        if (show_lines_of(post))
            return 1;
    draw_map();
    return 0;
}
