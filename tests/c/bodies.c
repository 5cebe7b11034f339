/*
 * The twin with joins and splits by their definition, in place of its own: the bodies are
 * searched from each neighbour of each post. That takes long, so that its own serve plots of
 * more than MANY posts. -DMISTAKE makes one of the mistakes below, of which the tests must
 * tell.
 */
#define joins_and_splits fast_joins_and_splits
#include "../../bench/twin.c"
#undef joins_and_splits

#ifndef MISTAKE
#define MISTAKE NO_MISTAKE
#endif

enum {
    NO_MISTAKE,
    RUNS_FOR_BODIES,       /* runs are counted, whatever bodies they lie in */
    NO_VIRTUAL_PIT,        /* the virtual pit is left out */
    VIRTUAL_PIT_ABOVE,     /* it is among the posts above, too */
    NO_BODIES_LESS_ONE,    /* a pit has 255 joins, a peak 255 splits */
    THROUGH_THE_POST,      /* bodies that touch the post are one */
    A_POST_TOO_FEW,        /* the last post before this one is left out */
    A_POST_TOO_MANY,       /* the first post after this one is among them */
    EIGHT_NEIGHBOURS,      /* every corner is a neighbour */
    FOUR_NEIGHBOURS,       /* none is */
    OTHER_DIAGONALS,       /* those of the other rule */
    TIES_IN_NEITHER,       /* posts of equal height are neither below nor above */
    BODIES_NOT_LESS_ONE,   /* one too many, but where there is none */
    TWO_BODIES_AT_MOST,    /* a post joins two bodies, and no third */
    BORDER_NOT_JOINED,     /* a way ends at the virtual pit */
    EXCHANGED,             /* joins for splits */
    MISTAKES
};

enum { MANY = 100 };

typedef struct {
    uint32_t rule, rows, columns;
    const int32_t *heights;
} ground;

/* Is q below p, or above it? */
static int is_beyond(const ground *g, uint32_t q, uint32_t p, int up)
{
    return up ? is_below(g->heights, g->columns, p, q) : is_below(g->heights, g->columns, q, p);
}

/* The post next below p in the height order, or next above it; p where there is none. */
static uint32_t next_in_order(const ground *g, uint32_t p, int up)
{
    uint32_t best = p;
    for (uint32_t q = 0; q < g->rows * g->columns; q++)
        if (is_beyond(g, q, p, up) && (best == p || is_beyond(g, best, q, up)))
            best = q;
    return best;
}

/* Is the vertex among those below a post, or above it? */
static int is_among(const ground *g, uint32_t v, uint32_t p, int up)
{
    if (v == SN_VIRTUAL_PIT)
        return up ? MISTAKE == VIRTUAL_PIT_ABOVE : MISTAKE != NO_VIRTUAL_PIT;
    if (MISTAKE == TIES_IN_NEITHER && v != p && g->heights[v] == g->heights[p])
        return 0;
    return is_beyond(g, v, p, up);
}

static int is_border(const ground *g, uint32_t p)
{
    uint32_t r = p / g->columns, c = p % g->columns;
    return r == 0 || c == 0 || r == g->rows - 1 || c == g->columns - 1;
}

/* Are two posts that touch by a corner joined by an edge? */
static int is_diagonal(const ground *g, uint32_t p, uint32_t q)
{
    uint32_t rule = MISTAKE == OTHER_DIAGONALS ? 3 - g->rule : g->rule;
    ring round = ring_of(rule, g->rows, g->columns, g->heights, p);
    if (MISTAKE == EIGHT_NEIGHBOURS || MISTAKE == FOUR_NEIGHBOURS)
        return MISTAKE == EIGHT_NEIGHBOURS;
    for (unsigned i = 0; i < round.count; i++)
        if (round.post[i] == q)
            return 1;
    return 0;
}

/* Puts the neighbours of a vertex into a list, and gives how many they are. */
static size_t neighbours(const ground *g, uint32_t v, uint16_t *list)
{
    size_t count = 0;
    if (v == SN_VIRTUAL_PIT) {
        for (uint32_t p = 0; p < g->rows * g->columns && MISTAKE != BORDER_NOT_JOINED; p++)
            if (is_border(g, p))
                list[count++] = (uint16_t)p;
        return count;
    }
    for (int r = -1; r <= 1; r++)
        for (int c = -1; c <= 1; c++) {
            uint32_t row = v / g->columns + (uint32_t)r, column = v % g->columns + (uint32_t)c;
            uint32_t p = row * g->columns + column;
            if (row < g->rows && column < g->columns && (r || c) &&
                (!r || !c || is_diagonal(g, v, p)))
                list[count++] = (uint16_t)p;
        }
    if (is_border(g, v))
        list[count++] = SN_VIRTUAL_PIT;
    return count;
}

/* How many bodies the neighbours of a post lie in, of the vertices below it or above it. */
static unsigned bodies(const ground *g, uint32_t p, int up)
{
    uint8_t reached[SN_VIRTUAL_PIT + 1] = {0};
    uint16_t start[SN_RING_LENGTH + 1], next[MANY], open[MANY + 1];
    size_t starts = neighbours(g, p, start);
    uint32_t than = p;
    unsigned count = 0;

    if (MISTAKE == RUNS_FOR_BODIES) {
        ring round = ring_of(g->rule, g->rows, g->columns, g->heights, p);
        unsigned places[SN_RING_LENGTH];
        return runs_of(&round, !up, places);
    }
    if (MISTAKE == A_POST_TOO_FEW)
        than = next_in_order(g, p, up);
    if (MISTAKE == A_POST_TOO_MANY)
        than = next_in_order(g, next_in_order(g, p, !up), !up);
    for (size_t i = 0; i < starts; i++) {
        size_t left = 0;
        if (reached[start[i]] || !is_among(g, start[i], than, up))
            continue;
        count++;
        reached[start[i]] = 1;
        open[left++] = start[i];
        while (left > 0) {
            size_t found = neighbours(g, open[--left], next);
            for (size_t j = 0; j < found; j++) {
                uint16_t v = next[j];
                if (!reached[v] && (v == p ? MISTAKE == THROUGH_THE_POST
                                           : is_among(g, v, than, up))) {
                    reached[v] = 1;
                    open[left++] = v;
                }
            }
        }
    }
    return MISTAKE == TWO_BODIES_AT_MOST && count > 2 ? 2 : count;
}

static uint8_t joined(const ground *g, uint32_t p, int up)
{
    unsigned count = bodies(g, p, up);
    if (MISTAKE == BODIES_NOT_LESS_ONE)
        return (uint8_t)count;
    return (uint8_t)(count > 0 || MISTAKE == NO_BODIES_LESS_ONE ? count - 1 : 0);
}

sn_answer sn_joins_and_splits(const uint8_t *sheet, size_t sheet_length,
                              uint32_t rows, uint32_t columns,
                              const int32_t *heights, size_t heights_length,
                              uint8_t *restrict joins, size_t joins_length,
                              uint8_t *restrict splits, size_t splits_length)
{
    settings set = settings_of(sheet, sheet_length);
    size_t posts = (size_t)rows * columns;
    sn_answer no = refusal(set.code, rows, columns, any_spacings, heights, heights_length,
                           joins_length == posts && splits_length == posts);
    ground g = {set.rule, rows, columns, heights};
    if (no.code)
        return no;
    if (posts > MANY)
        return sn_fast_joins_and_splits(sheet, sheet_length, rows, columns, heights,
                                        heights_length, joins, joins_length, splits,
                                        splits_length);
    for (uint32_t p = 0; p < posts; p++) {
        joins[p] = joined(&g, p, MISTAKE == EXCHANGED);
        splits[p] = joined(&g, p, MISTAKE != EXCHANGED);
    }
    return no;
}
