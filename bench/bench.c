/*
 * The library against its C twin, in one run, the three builds taking turns on
 * the same lists, by either rule, with even and with uneven spacings. Times are
 * medians, in nanoseconds a post. The lists are warm and are not cleared between
 * calls. The status is 0 where all builds agree on every answer and list, however
 * long they took.
 *
 *     bench [rounds]
 */
#define _POSIX_C_SOURCE 199309L
#include "twin.h"

#include <math.h>
#include <stdio.h>
#include <stdlib.h>
#include <string.h>
#include <time.h>

TWIN_DECLARE(scalar);
TWIN_DECLARE(vector);

/* One build of the calls. */
typedef struct {
    sn_sheet (*settings)(const uint8_t *, size_t, uint8_t *, size_t);
    sn_counts (*survey)(const uint8_t *, size_t, uint32_t, uint32_t, const int32_t *, size_t,
                        uint8_t *, size_t);
    sn_answer (*reshoot)(const uint8_t *, size_t, uint32_t, uint32_t, int32_t *, size_t,
                         uint8_t *, size_t, uint32_t, int32_t);
    sn_trial_counts (*trial)(const uint8_t *, size_t, uint32_t, uint32_t, const int32_t *, size_t,
                             uint32_t, int32_t);
    sn_ring_mark (*ring)(const uint8_t *, size_t, uint32_t, uint32_t, const int32_t *, size_t,
                         uint32_t, uint8_t *, size_t);
    sn_next (*next_down)(const uint8_t *, size_t, uint32_t, uint32_t, uint32_t, uint32_t,
                         const int32_t *, size_t, uint32_t);
    sn_next (*next_up)(const uint8_t *, size_t, uint32_t, uint32_t, uint32_t, uint32_t,
                       const int32_t *, size_t, uint32_t);
    sn_entries (*thalweg)(const uint8_t *, size_t, uint32_t, uint32_t, uint32_t, uint32_t,
                          const int32_t *, size_t, uint32_t, uint32_t, uint16_t *, size_t);
    sn_entries (*ridge)(const uint8_t *, size_t, uint32_t, uint32_t, uint32_t, uint32_t,
                        const int32_t *, size_t, uint32_t, uint32_t, uint16_t *, size_t);
    sn_answer (*dales_and_hills)(const uint8_t *, size_t, uint32_t, uint32_t, uint32_t, uint32_t,
                                 const int32_t *, size_t, uint16_t *, size_t, uint16_t *,
                                 size_t);
    sn_answer (*joins_and_splits)(const uint8_t *, size_t, uint32_t, uint32_t, const int32_t *,
                                  size_t, uint8_t *, size_t, uint8_t *, size_t);
    sn_size (*read_survey)(const uint8_t *, size_t, int32_t *, size_t);
    sn_answer (*write_survey)(uint32_t, uint32_t, uint32_t, uint32_t, const int32_t *, size_t,
                              uint8_t *, size_t);
} calls;

#define CALLS(prefix)                                                                 \
    {prefix##_settings, prefix##_survey, prefix##_reshoot, prefix##_trial,            \
     prefix##_ring, prefix##_next_down, prefix##_next_up, prefix##_thalweg,           \
     prefix##_ridge, prefix##_dales_and_hills, prefix##_joins_and_splits,             \
     prefix##_read_survey, prefix##_write_survey}

enum { LIBRARY, SCALAR, VECTOR, BUILDS };
static const calls builds[BUILDS] = {CALLS(sn), CALLS(scalar), CALLS(vector)};

/* ---- plots ---- */

enum { RANDOM, NEAR_LEVEL, FLAT, TERRACES, SPIRAL, CHECKERBOARD, SMOOTH, KINDS };
static const char *const kind_names[KINDS] = {"random", "near level", "flat", "terraces",
                                              "spiral", "checkerboard", "smooth"};

static uint64_t seed;

static uint32_t chance(uint32_t n)
{
    seed = seed * 6364136223846793005u + 1442695040888963407u;
    return (uint32_t)(seed >> 33) % n;
}

/* A path one post wide, falling from the outside to the middle between walls. */
static void spiral(int32_t *heights, int side)
{
    const int32_t wall = 900000;
    int r = 1, c = 1, dr = 0, dc = 1, stuck = 0;
    int32_t height = 800000;

    for (int i = 0; i < side * side; i++)
        heights[i] = wall;
    while (stuck < 2) {
        int r1 = r + dr, c1 = c + dc, r2 = r1 + dr, c2 = c1 + dc;
        heights[r * side + c] = height;
        if (r1 < 1 || c1 < 1 || r1 >= side - 1 || c1 >= side - 1 ||
            heights[r1 * side + c1] != wall || heights[r2 * side + c2] != wall) {
            int turn = dr;
            dr = dc, dc = -turn;
            stuck++;
        } else {
            r = r1, c = c1;
            height -= 10;
            stuck = 0;
        }
    }
}

static void fill(int32_t *heights, int side, int kind)
{
    int n = side * side;

    seed = 1;
    for (int p = 0; p < n; p++) {
        int r = p / side, c = p % side;
        switch (kind) {
        case RANDOM: heights[p] = (int32_t)chance(2000001) - 1000000; break;
        case NEAR_LEVEL: heights[p] = chance(8) ? 0 : (int32_t)chance(3) - 1; break;
        /* Steps of eight rows, level channels along the odd ones. */
        case TERRACES: heights[p] = r / 8 * 10 - r % 2 * 5; break;
        case CHECKERBOARD: heights[p] = (r + c) % 2; break;
        case SMOOTH: heights[p] = (int32_t)(3000 * (sin(r * 0.11) + cos(c * 0.07 + r * 0.02))); break;
        default: heights[p] = 0;
        }
    }
    if (kind == SPIRAL)
        spiral(heights, side);
}

/* ---- one call on one plot ---- */

/* Those before READ go by a rule, those from DALES_AND_HILLS to RIDGE by spacings too. */
enum {
    SURVEY, RESHOOT, TRIAL, RING, JOINS_AND_SPLITS, DALES_AND_HILLS, NEXT_DOWN, NEXT_UP, THALWEG,
    RIDGE, READ, READ_1, WRITE, SETTINGS
};
static const char *const call_names[SETTINGS + 1] = {
    "survey", "re-shoot", "trial", "ring", "joins and splits", "dales and hills", "next down",
    "next up", "thalweg", "ridge", "read", "read version 1", "write", "settings"
};

/* The longest sheet: the rule of the lowest post, and a name of 32 bytes. */
static const uint8_t full_sheet[SN_MAX_SHEET] =
    "\1\0\0\0\45" "\1\1\1" "\2\40" "the field beyond the old orchard";

/* The ways to call: the sheet and the spacings, and which line is drawn. The last is not timed. */
enum { ORDINARY, LOWEST, UNEVEN, UNEVEN_LOWEST, WAYS };
static struct {
    const uint8_t *sheet;
    size_t length;
    uint32_t along_row, along_column;
    uint32_t post, run;
} ways[WAYS] = {
    {NULL, 0, 100, 100, 0, 0},
    {full_sheet, SN_MAX_SHEET, 100, 100, 0, 0},
    {NULL, 0, 100, 250, 0, 0},
    {full_sheet, SN_MAX_SHEET, 100, 250, 0, 0}
};

/* Lists lie apart: where they touch, a loop may take them to overlap. */
enum { GAP = 512 };
static uint32_t side, posts;
static int32_t heights[SN_MAX_POSTS + GAP], held[SN_MAX_POSTS + GAP];
static uint8_t marks[SN_MAX_POSTS + GAP], ring[SN_RING_LENGTH], file[SN_MAX_FILE + GAP];
static uint8_t joins[SN_MAX_POSTS + GAP], splits[SN_MAX_POSTS + GAP], name[SN_MAX_NAME];
static uint16_t dales[SN_MAX_POSTS + GAP], hills[SN_MAX_POSTS + GAP], line[SN_MAX_LINE + GAP];

/* The sum of an answer's numbers. */
static uint32_t of_answer(sn_answer a)
{
    return a.code + a.place;
}

static uint32_t of_sheet(sn_sheet a)
{
    return a.code + a.place + a.rule + 3 * a.name_length;
}

static uint32_t of_counts(sn_counts a)
{
    return a.code + a.place + a.peaks + 3 * a.pits + 5 * a.saddles;
}

static uint32_t of_trial_counts(sn_trial_counts a)
{
    return a.code + a.place + a.peaks + 3 * a.pits + 5 * a.saddles + 7 * a.new_peaks +
           11 * a.new_pits + 13 * a.new_saddles;
}

static uint32_t of_ring_mark(sn_ring_mark a)
{
    return a.code + a.place + a.k + 7 * a.mark;
}

static uint32_t of_next(sn_next a)
{
    return a.code + a.place + a.post;
}

static uint32_t of_entries(sn_entries a)
{
    return a.code + a.place + a.count;
}

static uint32_t of_size(sn_size a)
{
    return a.code + a.place + a.rows + a.columns + 3 * a.along_row + 5 * a.along_column;
}

/* A height for a trial: on level ground lower, level or higher, and nowhere out of range. */
static int32_t tried(uint32_t post, uint32_t turn)
{
    return heights[(post + turn) % posts] / 2 + (int32_t)(turn % 3) - 1;
}

/* Calls once; gives the sum of the answer's numbers. */
static uint32_t once(int build, int way, int call, uint32_t turn)
{
    const calls *b = &builds[build];
    const uint8_t *sheet = ways[way].sheet;
    size_t n = posts, length = ways[way].length, file_size = SN_FILE_SIZE(side, side);
    uint32_t p = turn * 7919 % posts, post = ways[way].post, run = ways[way].run;
    uint32_t along_row = ways[way].along_row, along_column = ways[way].along_column;

    switch (call) {
    case SURVEY:
        return of_counts(b->survey(sheet, length, side, side, heights, n, marks, n));
    case RESHOOT:
        return of_answer(b->reshoot(sheet, length, side, side, held, n, marks, n, p,
                                    heights[(p + turn) % posts]));
    case TRIAL:
        return of_trial_counts(b->trial(sheet, length, side, side, heights, n, p, tried(p, turn)));
    case RING:
        return of_ring_mark(b->ring(sheet, length, side, side, heights, n, p, ring,
                                    SN_RING_LENGTH));
    case JOINS_AND_SPLITS:
        return of_answer(b->joins_and_splits(sheet, length, side, side, heights, n, joins, n,
                                             splits, n));
    case DALES_AND_HILLS:
        return of_answer(b->dales_and_hills(sheet, length, side, side, along_row, along_column,
                                            heights, n, dales, n, hills, n));
    case NEXT_DOWN:
        return of_next(b->next_down(sheet, length, side, side, along_row, along_column, heights,
                                    n, p));
    case NEXT_UP:
        return of_next(b->next_up(sheet, length, side, side, along_row, along_column, heights,
                                  n, p));
    case THALWEG:
        return of_entries(b->thalweg(sheet, length, side, side, along_row, along_column, heights,
                                     n, post, run, line, SN_MAX_LINE));
    case RIDGE:
        return of_entries(b->ridge(sheet, length, side, side, along_row, along_column, heights,
                                   n, post, run, line, SN_MAX_LINE));
    case READ:
        return of_size(b->read_survey(file, file_size, held, n));
    case READ_1:
        return of_size(b->read_survey(file, file_size - (SN_FILE_HEADER - SN_FILE_HEADER_1), held,
                                      n));
    case WRITE:
        return of_answer(b->write_survey(side, side, along_row, along_column, heights, n, file,
                                         file_size));
    default:
        return of_sheet(b->settings(sheet, length, name, SN_MAX_NAME));
    }
}

static uint64_t digest(uint64_t sum, const void *list, size_t size)
{
    const uint8_t *bytes = (const uint8_t *)list;
    for (size_t i = 0; i < size; i++)
        sum = (sum ^ bytes[i]) * 1099511628211u;
    return sum;
}

/* Some calls from the same start, and a digest of answers and lists. Each turn writes
   all of the ring, so that it is looked at after each. A trial has more turns, so that its
   posts come to the borders too. */
static uint64_t outcome(int build, int way, int call)
{
    uint64_t sum = 0;
    uint32_t turns = call == TRIAL ? 300 : 20;

    memcpy(held, heights, sizeof held);
    memset(marks, 0, sizeof marks);
    memset(ring, 99, sizeof ring);
    memset(joins, 99, sizeof joins);
    memset(splits, 99, sizeof splits);
    memset(dales, 0, sizeof dales);
    memset(hills, 0, sizeof hills);
    memset(line, 0, sizeof line);
    memset(name, 0, sizeof name);
    for (uint32_t turn = 0; turn < turns; turn++)
        sum = digest(sum * 31 + once(build, way, call, turn), ring, sizeof ring);
    sum = digest(sum, heights, sizeof heights);
    sum = digest(sum, held, sizeof held);
    sum = digest(sum, marks, sizeof marks);
    sum = digest(sum, joins, sizeof joins);
    sum = digest(sum, splits, sizeof splits);
    sum = digest(sum, dales, sizeof dales);
    sum = digest(sum, hills, sizeof hills);
    sum = digest(sum, line, sizeof line);
    sum = digest(sum, name, sizeof name);
    return digest(sum, file, sizeof file);
}

static uint32_t distance(uint32_t a, uint32_t b)
{
    return a < b ? b - a : a - b;
}

/* Of so many lines, from the first saddle on, the one whose entries are nearest to the number
   wanted. Gives its entries. */
static uint32_t choose_line(int way, int call, uint32_t wanted, uint32_t tries)
{
    uint32_t entries = 0, post = 0, run = 0;

    (void)once(SCALAR, way, SURVEY, 0);
    for (uint32_t p = 0; p < posts && tries > 0 && entries != wanted; p++)
        for (uint32_t k = 0; k < SN_SADDLE_RUNS(marks[p]); k++) {
            uint32_t count;
            ways[way].post = p, ways[way].run = k;
            count = once(SCALAR, way, call, 0);
            if (entries == 0 || distance(count, wanted) < distance(entries, wanted))
                entries = count, post = p, run = k;
            tries -= tries > 0;
        }
    ways[way].post = post, ways[way].run = run;
    return entries;
}

/* Puts heights between whole millimetres into the file, halves among them. */
static void file_tenths(void)
{
    for (uint32_t p = 0; p < posts; p++) {
        uint32_t tenths = (uint32_t)(heights[p] * 5 + (int32_t)(p % 21) - 10);
        for (int i = 0; i < 4; i++)
            file[SN_FILE_HEADER + 4 * p + i] = (uint8_t)(tenths >> (24 - 8 * i));
    }
}

/* Makes the file one of version 1. */
static void file_version_1(void)
{
    uint32_t count = SN_FILE_HEADER_1 - 5 + 4 * posts;

    file[0] = SN_FILE_VERSION_1;
    for (int i = 0; i < 4; i++)
        file[1 + i] = (uint8_t)(count >> (24 - 8 * i));
    memmove(file + SN_FILE_HEADER_1, file + SN_FILE_HEADER, 4 * (size_t)posts);
}

/* By the first way a long line is drawn, by the others one with as many entries where there
   is any, so that they can be compared. */
static void prepare(uint32_t a_side, int kind, int way, int call)
{
    side = a_side;
    posts = side * side;
    fill(heights, (int)side, kind);
    memcpy(held, heights, sizeof held);
    if (call == THALWEG || call == RIDGE) {
        uint32_t entries = choose_line(ORDINARY, call, SN_MAX_LINE, 400);
        for (int i = LOWEST; i < WAYS; i++)
            (void)choose_line(i, call, entries, 40000);
    }
    (void)once(SCALAR, way, WRITE, 0);
    if (call == READ || call == READ_1)
        file_tenths();
    if (call == READ_1)
        file_version_1();
}

/* ---- times ---- */

enum { MOST_ROUNDS = 1000 };
static int rounds = 25;

static double now(void)
{
    struct timespec t;
    clock_gettime(CLOCK_MONOTONIC, &t);
    return (double)t.tv_sec * 1e9 + (double)t.tv_nsec;
}

static int compare(const void *a, const void *b)
{
    double x = *(const double *)a, y = *(const double *)b;
    return (x > y) - (x < y);
}

static double median(double *values)
{
    qsort(values, (size_t)rounds, sizeof *values, compare);
    return values[rounds / 2];
}

/* Who takes turns: the builds, and where ways are compared the library by the ordinary one. */
enum { BY_ORDINARY = BUILDS, TURNS };

static int is_compared(int way, int call)
{
    return way != ORDINARY && call < READ;
}

typedef struct {
    double time[TURNS];  /* nanoseconds a post */
    double ratio[TURNS]; /* the library's time to this one's */
} figures;

/* A ratio is taken within a round, so that a machine that grows slower for a while does not
   bend it. */
static figures measure(int way, int call)
{
    double times[TURNS][MOST_ROUNDS], ratios[TURNS][MOST_ROUNDS];
    uint32_t repeats = 1 + 400000 / (posts * 5);
    int turns = is_compared(way, call) ? TURNS : BUILDS;
    figures f = {{0}, {0}};

    for (int round = 0; round < rounds; round++) {
        for (int i = 0; i < turns; i++) {
            int build = i == BY_ORDINARY ? LIBRARY : i, by = i == BY_ORDINARY ? ORDINARY : way;
            double start = now();
            for (uint32_t turn = 0; turn < repeats; turn++)
                (void)once(build, by, call, turn);
            times[i][round] = (now() - start) / repeats / posts;
        }
        for (int i = 0; i < turns; i++)
            ratios[i][round] = times[LIBRARY][round] / times[i][round];
    }
    for (int i = 0; i < turns; i++) {
        f.time[i] = median(times[i]);
        f.ratio[i] = median(ratios[i]);
    }
    return f;
}

static void heading(const char *title, const char *right, const char *last)
{
    printf("%s\n\n%-16s %-13s %9s %9s %9s %11s %11s %12s\n", title, "call", right, "library",
           "scalar", "vector", "lib/scalar", "lib/vector", last);
}

/* Uneven spacings are looked at by both rules. */
static int agree_on(int way, int call)
{
    uint64_t library = outcome(LIBRARY, way, call);
    return library == outcome(SCALAR, way, call) && library == outcome(VECTOR, way, call) &&
           (way != UNEVEN || agree_on(UNEVEN_LOWEST, call));
}

static int row(int way, const char *right, uint32_t a_side, int kind, int call)
{
    figures f;
    int agree;

    prepare(a_side, kind, way, call);
    agree = agree_on(way, call);
    prepare(a_side, kind, way, call);
    f = measure(way, call);
    printf("%-16s %-13s %9.2f %9.2f %9.2f %11.2f %11.2f %12.2f%s\n", call_names[call], right,
           f.time[LIBRARY], f.time[SCALAR], f.time[VECTOR], f.ratio[SCALAR], f.ratio[VECTOR],
           is_compared(way, call) ? f.ratio[BY_ORDINARY] : f.time[LIBRARY] * posts / 1000,
           agree ? "" : "  THEY DISAGREE");
    return agree;
}

/* The calls of each way that is timed, the titles, and the last column: what a call takes, or
   what it takes of the ordinary way's. */
static const struct {
    int first, end;
    const char *by_plot, *by_size, *last;
} tables[UNEVEN + 1] = {
    {SURVEY, SETTINGS,
     "Nanoseconds a post at 120 by 120. Rule 2, no sheet, spacings 100 and 100.",
     "\nBy size. Rule 2.", "lib us/call"},
    {SURVEY, READ,
     "\nNanoseconds a post at 120 by 120. Rule 1, a sheet of 42 bytes.",
     "\nBy size. Rule 1.", "lib rule 1/2"},
    {DALES_AND_HILLS, READ,
     "\nNanoseconds a post at 120 by 120. Rule 2, spacings 100 along a row, 250 along a column.",
     "\nBy size. Spacings 100 and 250.", "lib 250/100"}
};

/* Files are written and read with uneven spacings: even ones could be exchanged. */
static int by_plot(int way)
{
    int agree = 1;

    heading(tables[way].by_plot, "plot", tables[way].last);
    for (int call = tables[way].first; call < tables[way].end; call++)
        for (int kind = 0; kind < KINDS; kind++)
            agree &= row(call < READ ? way : UNEVEN, kind_names[kind], 120, kind, call);
    return agree;
}

static int by_size(int way)
{
    static const uint32_t sides[4] = {15, 30, 60, 120};
    enum { WHOLE = 4 };
    static const int whole_plots[WHOLE] = {SURVEY, TRIAL, JOINS_AND_SPLITS, DALES_AND_HILLS};
    int agree = 1;

    heading(tables[way].by_size, "side", tables[way].last);
    for (int c = 0; c < WHOLE; c++) {
        if (whole_plots[c] < tables[way].first)
            continue;
        for (int kind = RANDOM; kind <= SPIRAL; kind += SPIRAL)
            for (int i = 0; i < 4; i++) {
                char label[32];
                snprintf(label, sizeof label, "%3u %s", (unsigned)sides[i],
                         kind_names[kind]);
                agree &= row(way, label, sides[i], kind, whole_plots[c]);
            }
    }
    return agree;
}

/* With one post, times a post are times a call. */
static int settings(void)
{
    heading("\nNanoseconds a call.", "sheet", tables[ORDINARY].last);
    return row(LOWEST, "42 bytes", 1, FLAT, SETTINGS);
}

int main(int argc, char **argv)
{
    int agree = 1;

    if (argc > 1)
        rounds = atoi(argv[1]);
    if (argc > 2 || rounds < 1 || rounds > MOST_ROUNDS) {
        fprintf(stderr, "usage: bench [rounds, 1 to %d]\n", MOST_ROUNDS);
        return 2;
    }
    printf("Medians of %d rounds, lists warm.\n\n", rounds);
    for (int way = ORDINARY; way <= UNEVEN; way++) {
        agree &= by_plot(way);
        agree &= by_size(way);
    }
    agree &= settings();
    printf(agree ? "\nAll builds agree.\n" : "\nTHE BUILDS DISAGREE.\n");
    return !agree;
}
