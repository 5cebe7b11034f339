/*
 * A small panel program: reads a survey file and the plot's settings sheet, surveys it,
 * re-shoots a post, follows a walk a post at a time, and shows a saddle with the grounds
 * of its mark, its water line and the ground that it joins.
 *
 *     panel plot.svy [plot.set]
 *
 * Without a sheet diagonals go through the highest posts; one that names rule 1 is
 * plots/lowest.set.
 */
#include "surface_network.h"

#include <stdio.h>

/* A byte more than the longest, to see a file that is too long. */
static uint8_t file[SN_MAX_FILE + 1], sheet[SN_MAX_SHEET + 1];
static size_t file_length, sheet_length; /* 0 where there is no sheet */
static uint32_t rows, columns, along_row, along_column;
static size_t posts;
static int32_t heights[SN_MAX_POSTS];
static uint8_t marks[SN_MAX_POSTS], joins[SN_MAX_POSTS], splits[SN_MAX_POSTS];
static uint16_t line[SN_MAX_LINE], dales[SN_MAX_POSTS], hills[SN_MAX_POSTS];

/* Shows why a call was turned away: code, place, and the code in words. */
static int refused(const char *call, uint32_t code, uint32_t place)
{
    fprintf(stderr, "%s refused: %lu at %lu, %s\n", call, (unsigned long)code,
            (unsigned long)place, sn_code_text(code));
    return 1;
}

static void print_vertex(uint32_t v)
{
    if (v == SN_VIRTUAL_PIT)
        printf(" V");
    else
        printf(" %lu", (unsigned long)v);
}

/* Reads a file, as far as there is room. A failed read is not a short file. */
static int read_file(const char *name, uint8_t *bytes, size_t room, size_t *length)
{
    FILE *f = fopen(name, "rb");
    int failed;

    if (f == NULL) {
        perror(name);
        return 1;
    }
    *length = fread(bytes, 1, room, f);
    failed = ferror(f);
    if (failed)
        perror(name);
    fclose(f);
    return failed != 0;
}

/* The plot of the file that was read. */
static int read_plot(void)
{
    sn_size size;

    posts = sn_file_posts(file, file_length);
    size = sn_read_survey(file, file_length, heights, posts);
    if (size.code != SN_OK)
        return refused("read", size.code, size.place);
    rows = size.rows;
    columns = size.columns;
    along_row = size.along_row;
    along_column = size.along_column;
    return 0;
}

/* What the plot's sheet says. All calls are lent that sheet: no call remembers a rule. */
static int show_settings(void)
{
    uint8_t name[SN_MAX_NAME];
    sn_sheet said = sn_settings(sheet, sheet_length, name, SN_MAX_NAME);

    if (said.code != SN_OK)
        return refused("settings", said.code, said.place);
    if (said.name_length == 0)
        printf("no name");
    else
        printf("%.*s", (int)said.name_length, (const char *)name);
    printf(": diagonals through the %s posts\n",
           said.rule == SN_THROUGH_LOWEST ? "lowest" : "highest");
    return 0;
}

static void show_spacings(void)
{
    printf("posts %lu cm apart along a row, %lu cm along a column\n", (unsigned long)along_row,
           (unsigned long)along_column);
}

static int survey(void)
{
    sn_counts counts = sn_survey(sheet, sheet_length, rows, columns, heights, posts, marks, posts);

    if (counts.code != SN_OK)
        return refused("survey", counts.code, counts.place);
    printf("%lu by %lu: %lu peaks, %lu pits, %lu saddles\n",
           (unsigned long)rows, (unsigned long)columns, (unsigned long)counts.peaks,
           (unsigned long)counts.pits, (unsigned long)counts.saddles);
    return 0;
}

/* Puts a corrected height at a post; only the marks round it change. */
static int reshoot(uint32_t post, int32_t height)
{
    sn_answer answer = sn_reshoot(sheet, sheet_length, rows, columns, heights, posts, marks, posts,
                                  post, height);

    if (answer.code != SN_OK)
        return refused("re-shoot", answer.code, answer.place);
    printf("post %lu is now at %ld mm, mark %d\n", (unsigned long)post, (long)heights[post],
           marks[post]);
    return 0;
}

/* Follows a walk down a post at a time, to a pit or to the virtual pit. */
static int walk_down(uint32_t post)
{
    printf("walk:");
    for (;;) {
        sn_next next = sn_next_down(sheet, sheet_length, rows, columns, along_row, along_column,
                                    heights, posts, post);
        if (next.code != SN_OK)
            return refused("next", next.code, next.place);
        print_vertex(post);
        if (next.post == post)
            break;
        post = next.post;
        if (post == SN_VIRTUAL_PIT) {
            print_vertex(post);
            break;
        }
    }
    printf("\n");
    return 0;
}

/* The grounds of a post's mark: + above and - below, = where the heights are equal. */
static int show_ring(uint32_t post)
{
    static const char *const signs[] = {"", "+", "+=", "-", "-="};
    uint8_t ring[SN_RING_LENGTH];
    size_t i;
    sn_ring_mark shown = sn_ring(sheet, sheet_length, rows, columns, heights, posts, post, ring,
                                 SN_RING_LENGTH);

    if (shown.code != SN_OK)
        return refused("ring", shown.code, shown.place);
    printf("ring of %lu:", (unsigned long)post);
    for (i = 0; i < SN_RING_LENGTH && ring[i] != SN_NO_MEMBER; i++)
        printf(" %s", signs[ring[i]]);
    printf(", k %lu, mark %lu\n", (unsigned long)shown.k, (unsigned long)shown.mark);
    return 0;
}

/* A saddle's water line 0, and the dale and the hill that the saddle is in. */
static int show_saddle(uint32_t saddle)
{
    uint32_t i;
    sn_answer parts = sn_dales_and_hills(sheet, sheet_length, rows, columns, along_row,
                                         along_column, heights, posts, dales, posts, hills, posts);
    sn_entries entries = sn_thalweg(sheet, sheet_length, rows, columns, along_row, along_column,
                                    heights, posts, saddle, 0, line, SN_MAX_LINE);

    if (parts.code != SN_OK)
        return refused("dales and hills", parts.code, parts.place);
    if (entries.code != SN_OK)
        return refused("thalweg", entries.code, entries.place);
    printf("thalweg:");
    for (i = 0; i < entries.count; i++)
        print_vertex(line[i]);
    printf("\ndale:");
    print_vertex(dales[saddle]);
    printf(", hill:");
    print_vertex(hills[saddle]);
    printf("\n");
    return 0;
}

/* How many bodies of lower ground a post joins, and of higher, less one each. */
static int show_joins(uint32_t post)
{
    sn_answer answer = sn_joins_and_splits(sheet, sheet_length, rows, columns, heights, posts,
                                           joins, posts, splits, posts);

    if (answer.code != SN_OK)
        return refused("joins and splits", answer.code, answer.place);
    printf("joins %d, splits %d\n", joins[post], splits[post]);
    return 0;
}

int main(int argc, char **argv)
{
    uint32_t middle, saddle;

    if (argc != 2 && argc != 3) {
        fprintf(stderr, "usage: panel plot.svy [plot.set]\n");
        return 2;
    }
    if (!SN_VERSION_MATCHES()) {
        fprintf(stderr, "panel: compiled for version %lu of the library, linked with %lu\n",
                (unsigned long)SN_VERSION_NUMBER, (unsigned long)sn_version());
        return 1;
    }
    if (read_file(argv[1], file, sizeof file, &file_length) || read_plot())
        return 1;
    if (argc == 3 && read_file(argv[2], sheet, sizeof sheet, &sheet_length))
        return 1;
    if (show_settings())
        return 1;
    show_spacings();
    if (survey())
        return 1;
    middle = (uint32_t)posts / 2;
    if (reshoot(middle, heights[middle] - 5))
        return 1;
    /* From the last post that is on no border. */
    if (walk_down((uint32_t)posts - columns - 2))
        return 1;
    for (saddle = 0; saddle < posts && !SN_IS_SADDLE(marks[saddle]); saddle++)
        ;
    return saddle < posts && (show_ring(saddle) || show_saddle(saddle) || show_joins(saddle));
}
