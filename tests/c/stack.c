/*
 * How much stack each call takes, its arguments included, on large plots of several
 * kinds, by both rules. Standard input has a line for each call, its name and the
 * bytes that it may take: the table of docs/C.md. Each call is then run on a stack that
 * has just these, with nothing below it that may be read or written.
 *
 *     stack [FIRST]
 *
 * With FIRST the program was linked so that memcpy and memset are looked up where they
 * are first called, on the caller's stack: the first call in a process may take so many
 * bytes more, and one of the calls must be seen to take more than it does again. So
 * each call has a process of its own, and what is here calls neither of the two.
 */
#include "surface_network.h"

#include <stdio.h>
#include <stdlib.h>
#include <string.h>
#include <sys/mman.h>
#include <sys/wait.h>
#include <ucontext.h>
#include <unistd.h>

/* No figure is further than SLACK above what was measured, lest it be an old one. */
enum { SIDE = 120, POSTS = SIDE * SIDE, CALLS = 14, KINDS = 6, PATTERN = 0xa5, SLACK = 512 };

/* What the processes share. */
static struct lists {
    int32_t heights[POSTS];
    uint16_t line[SN_MAX_LINE], dales[POSTS], hills[POSTS];
    uint8_t marks[POSTS], joins[POSTS], splits[POSTS];
    uint8_t ring[SN_RING_LENGTH], file[SN_MAX_FILE], name[SN_MAX_NAME], rule;
    uint32_t post, code;
    size_t first, again; /* the bytes that a call took */
    int confined;        /* it ended on a stack that had no more than it may take */
} *of;

static uint8_t stack[1 << 19];
static ucontext_t here, there;

/* The rule, which each process takes from what is shared, and a name. */
enum { RULE_PLACE = 7 };
static uint8_t sheet[] = {SN_SHEET_VERSION, 0, 0, 0, 8, SN_ENTRY_RULE, 1, SN_THROUGH_LOWEST,
                          SN_ENTRY_NAME, 3, 'd', 'a', 'm'};
#define SHEET sheet, sizeof sheet

/* By these a diagonal can be as steep as a side. */
#define SPACINGS 3, 4

static void version(void)
{
    of->code = SN_VERSION_MATCHES() ? SN_OK : SN_BAD_VERSION;
}

static void settings(void)
{
    of->code = sn_settings(SHEET, of->name, SN_MAX_NAME).code;
}

static void survey(void)
{
    of->code = sn_survey(SHEET, SIDE, SIDE, of->heights, POSTS, of->marks, POSTS).code;
}

static void reshoot(void)
{
    of->code = sn_reshoot(SHEET, SIDE, SIDE, of->heights, POSTS, of->marks, POSTS, of->post,
                          of->heights[of->post]).code;
}

static void trial(void)
{
    of->code = sn_trial(SHEET, SIDE, SIDE, of->heights, POSTS, of->post,
                        of->heights[of->post] + 1).code;
}

static void ring(void)
{
    of->code = sn_ring(SHEET, SIDE, SIDE, of->heights, POSTS, of->post, of->ring,
                       SN_RING_LENGTH).code;
}

static void next_down(void)
{
    of->code = sn_next_down(SHEET, SIDE, SIDE, SPACINGS, of->heights, POSTS, of->post).code;
}

static void next_up(void)
{
    of->code = sn_next_up(SHEET, SIDE, SIDE, SPACINGS, of->heights, POSTS, of->post).code;
}

static void thalweg(void)
{
    of->code = sn_thalweg(SHEET, SIDE, SIDE, SPACINGS, of->heights, POSTS, of->post, 0, of->line,
                          SN_MAX_LINE).code;
}

static void ridge(void)
{
    of->code = sn_ridge(SHEET, SIDE, SIDE, SPACINGS, of->heights, POSTS, of->post, 0, of->line,
                        SN_MAX_LINE).code;
}

static void parts(void)
{
    of->code = sn_dales_and_hills(SHEET, SIDE, SIDE, SPACINGS, of->heights, POSTS, of->dales,
                                  POSTS, of->hills, POSTS).code;
}

static void joins_and_splits(void)
{
    of->code = sn_joins_and_splits(SHEET, SIDE, SIDE, of->heights, POSTS, of->joins, POSTS,
                                   of->splits, POSTS).code;
}

static void read_survey(void)
{
    of->code = sn_read_survey(of->file, SN_MAX_FILE, of->heights, POSTS).code;
}

static void write_survey(void)
{
    of->code = sn_write_survey(SIDE, SIDE, SPACINGS, of->heights, POSTS, of->file,
                               SN_MAX_FILE).code;
}

static struct {
    const char *name;
    void (*call)(void);
    size_t figure, most;
} calls[CALLS] = {
    {"sn_version", version, 0, 0}, {"sn_settings", settings, 0, 0}, {"sn_survey", survey, 0, 0},
    {"sn_reshoot", reshoot, 0, 0}, {"sn_trial", trial, 0, 0}, {"sn_ring", ring, 0, 0},
    {"sn_next_down", next_down, 0, 0}, {"sn_next_up", next_up, 0, 0},
    {"sn_thalweg", thalweg, 0, 0}, {"sn_ridge", ridge, 0, 0},
    {"sn_dales_and_hills", parts, 0, 0}, {"sn_joins_and_splits", joins_and_splits, 0, 0},
    {"sn_read_survey", read_survey, 0, 0}, {"sn_write_survey", write_survey, 0, 0}
};

static int passed, failed;

static void check(int holds, const char *name, const char *what, size_t bytes)
{
    if (holds) {
        passed++;
    } else {
        failed++;
        printf("FAILED: %s, %s: %lu bytes\n", name, what, (unsigned long)bytes);
    }
}

/* Runs a call on a stack of so many bytes. */
static void run_on(uint8_t *lowest, size_t bytes, void (*call)(void))
{
    getcontext(&there);
    there.uc_stack.ss_sp = lowest;
    there.uc_stack.ss_size = bytes;
    there.uc_link = &here;
    makecontext(&there, call, 0);
    swapcontext(&here, &there);
}

/* The bytes of stack that a call touches. */
static size_t taken(void (*call)(void))
{
    volatile uint8_t *byte = stack;
    size_t i;

    for (i = 0; i < sizeof stack; i++)
        byte[i] = PATTERN;
    run_on(stack, sizeof stack, call);
    for (i = 0; i < sizeof stack && byte[i] == PATTERN; i++)
        ;
    return sizeof stack - i;
}

/* Runs a call on a stack of so many bytes with as many below it that end the process. */
static void confine(void (*call)(void), size_t bytes)
{
    uint8_t *below = (uint8_t *)mmap(NULL, 2 * sizeof stack, PROT_READ | PROT_WRITE,
                                     MAP_PRIVATE | MAP_ANONYMOUS, -1, 0);

    if (below == MAP_FAILED || mprotect(below, sizeof stack, PROT_NONE) != 0)
        _exit(1);
    run_on(below + sizeof stack, bytes, call);
}

/* Runs a call in a process of its own, twice with room, and once more on as many bytes as
   it may take. */
static void measure(void (*call)(void), size_t bytes)
{
    int status = 1;
    pid_t child = fork();

    if (child == 0) {
        sheet[RULE_PLACE] = of->rule;
        of->code = SN_BAD_SPACING;
        of->confined = 0;
        of->first = taken(call);
        of->again = taken(call);
        of->code = SN_BAD_SPACING;
        confine(call, bytes);
        of->confined = 1;
        _exit(0);
    }
    if (child < 0 || waitpid(child, &status, 0) != child || status != 0)
        of->code = SN_BAD_SPACING;
}

/* Heights by chance, of so many kinds, with marks, a saddle and a file of them; few kinds
   make level ground. */
static void fill(uint32_t kinds, uint8_t rule)
{
    uint32_t i, seed = 1;

    of->rule = rule;
    for (i = 0; i < POSTS; i++) {
        seed = seed * 1664525 + 1013904223;
        of->heights[i] = (int32_t)((seed >> 8) % kinds);
    }
    measure(survey, sizeof stack);
    measure(write_survey, sizeof stack);
    for (i = POSTS / 2; i < POSTS - 1 && !SN_IS_SADDLE(of->marks[i]); i++)
        ;
    of->post = i;
}

/* Each call has one figure. */
static void read_figures(void)
{
    char name[32];
    unsigned long bytes;
    int i;

    while (scanf("%31s %lu", name, &bytes) == 2) {
        for (i = 0; i < CALLS && strcmp(name, calls[i].name) != 0; i++)
            ;
        check(i < CALLS && calls[i].figure == 0, name, "one figure of one call", bytes);
        if (i < CALLS)
            calls[i].figure = bytes;
    }
}

int main(int argc, char **argv)
{
    static const uint32_t kinds[3] = {2, 7, 1000000};
    size_t more = argc == 2 ? strtoul(argv[1], NULL, 10) : 0, most = 0;
    int i, k;

    of = (struct lists *)mmap(NULL, sizeof *of, PROT_READ | PROT_WRITE,
                              MAP_SHARED | MAP_ANONYMOUS, -1, 0);
    if (of == MAP_FAILED)
        return 1;
    read_figures();
    for (k = 0; k < KINDS; k++) {
        fill(kinds[k % 3], k < 3 ? SN_THROUGH_LOWEST : SN_THROUGH_HIGHEST);
        for (i = 0; i < CALLS; i++) {
            measure(calls[i].call, calls[i].figure);
            check(of->confined, calls[i].name, "on a stack of just its figure", calls[i].figure);
            check(of->code == SN_OK, calls[i].name, sn_code_text(of->code), 0);
            check(of->first <= calls[i].figure + more, calls[i].name, "the first time", of->first);
            check(of->again <= calls[i].figure, calls[i].name, "again", of->again);
            if (of->again > calls[i].most)
                calls[i].most = of->again;
            if (of->first > of->again && of->first - of->again > most)
                most = of->first - of->again;
        }
    }
    for (i = 0; i < CALLS; i++) {
        printf("%s: %lu bytes of stack\n", calls[i].name, (unsigned long)calls[i].most);
        check(calls[i].figure <= calls[i].most + SLACK, calls[i].name, "its figure is too high",
              calls[i].figure);
    }
    printf("a first call: at most %lu bytes more\n", (unsigned long)most);
    check((most > 64) == (more > 0), "a first call", "takes more where it is to", most);
    printf("%d passed, %d failed\n", passed, failed);
    return failed != 0;
}
