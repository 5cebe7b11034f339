/*
 * Calls that a signal interrupts, calls that its handler makes meanwhile on lists of its
 * own, and calls of a child after fork.
 */
#include "surface_network.h"

#include <signal.h>
#include <stdio.h>
#include <string.h>
#include <sys/time.h>
#include <sys/wait.h>
#include <unistd.h>

enum { SIDE = 120, POSTS = SIDE * SIDE, SIGNALS = 200 };

static int32_t heights[POSTS];

/* What the calls write, and what the trial answers. */
typedef struct {
    uint8_t marks[POSTS], joins[POSTS], splits[POSTS];
    uint16_t dales[POSTS], hills[POSTS];
    sn_trial_counts trial;
} outcome;

static outcome right, main_one, handler_one;
static volatile sig_atomic_t signals, wrong;

static int work(outcome *of)
{
    sn_counts counts = sn_survey(SN_NO_SHEET, SIDE, SIDE, heights, POSTS, of->marks, POSTS);
    sn_answer parts = sn_dales_and_hills(SN_NO_SHEET, SIDE, SIDE, 3, 4, heights, POSTS,
                                         of->dales, POSTS, of->hills, POSTS);
    sn_answer bodies = sn_joins_and_splits(SN_NO_SHEET, SIDE, SIDE, heights, POSTS, of->joins,
                                           POSTS, of->splits, POSTS);

    of->trial = sn_trial(SN_NO_SHEET, SIDE, SIDE, heights, POSTS, POSTS / 2, 0);
    return counts.code == SN_OK && parts.code == SN_OK && bodies.code == SN_OK &&
        of->trial.code == SN_OK && memcmp(of, &right, sizeof *of) == 0;
}

static void handler(int signal)
{
    (void)signal;
    memset(&handler_one, 0, sizeof handler_one);
    if (!work(&handler_one))
        wrong = 1;
    signals++;
}

static int child_works(void)
{
    int status = 1;
    pid_t child = fork();

    if (child == 0)
        _exit(work(&main_one) ? 0 : 1);
    return child > 0 && waitpid(child, &status, 0) == child && status == 0;
}

int main(void)
{
    static const struct itimerval often = {{0, 1000}, {0, 1000}}, never;
    struct sigaction action;
    uint32_t i, seed = 1;
    int passed = 0, forked, interrupted = 1;

    for (i = 0; i < POSTS; i++) {
        seed = seed * 1664525 + 1013904223;
        heights[i] = (int32_t)((seed >> 8) % 1000);
    }
    (void)work(&right);
    memset(&action, 0, sizeof action);
    action.sa_handler = handler;
    action.sa_flags = SA_RESTART;
    sigaction(SIGALRM, &action, NULL);
    setitimer(ITIMER_REAL, &often, NULL);
    while (signals < SIGNALS) {
        memset(&main_one, 0, sizeof main_one);
        interrupted = interrupted && work(&main_one);
    }
    setitimer(ITIMER_REAL, &never, NULL);
    forked = child_works();
    passed = interrupted + !wrong + forked;
    printf("interrupted %d, in the handler %d, after fork %d\n", interrupted, !wrong, forked);
    printf("%d passed, %d failed\n", passed, 3 - passed);
    return passed != 3;
}
