/* Regions, costs and the cutting rule: document 01, "The plan", with request 7's axes that have no cost. */
#include "planner.h"

/* Single steps of the second phase, before the others are taken in a jump. */
#ifndef STEPS
#define STEPS 64
#endif

/*
 * "Region of an operand: 64 x (floor(C / 64) + 1) x M. C sums (extent - 1) x byte stride over axes whose byte stride is below 64; M is the product
 * of the other extents. Regions add over operands."
 *
 * A line has at most 256 bytes and a sum of (extent - 1) is below the extents' product, so an operand's region is at most 256 times the total, and
 * that of eight operands below 2^75.
 */
wide_t region(const axes_t *axes, const uint64_t *blocks, size_t first, uint64_t line)
{
    wide_t whole = 0;
    for (size_t k = 0; k < axes->operands; k++) {
        wide_t c = 0, m = 1;
        for (size_t i = first; i < axes->rank; i++)
            if (axes->bytes[k][i] < line)
                c += (wide_t)(blocks[i] - 1) * (uint64_t)axes->bytes[k][i];
            else
                m *= blocks[i];
        whole += line * (c / line + 1) * m;
    }
    return whole;
}

/*
 * The cost of an axis, 0 where it has none.
 *
 * "Cost is 1 if some operand's stride is 0, else twice the least stride size, at most 2^63 - 1."; in 02 "An axis on which every stride is 0 [...] The
 * cost of such an axis shall say that it has none"
 */
static uint64_t cost_of(const axes_t *axes, size_t axis)
{
    uint64_t least = UINT64_MAX, most = 0;
    for (size_t k = 0; k < axes->operands; k++) {
        const uint64_t size = size_of(axes->strides[k][axis]);
        least = size < least ? size : least;
        most = size > most ? size : most;
    }
    if (most == 0) {
        met(NO_COST);
        return 0;
    }
    if (least == 0) {
        met(COST_1);
        return 1;
    }
    if (least > INT64_MAX / 2) {
        met(COST_MOST);
        return INT64_MAX;
    }
    return 2 * least;
}

/* What a tail is shortened by. */
typedef struct tail_t {
    axes_t *axes;
    size_t first;
    const record_t *record;
    uint64_t costs[MOST_RANK];
} tail_t;

static wide_t measure(const tail_t *tail, const uint64_t *blocks) { return region(tail->axes, blocks, tail->first, tail->record->line); }

static wide_t score(const tail_t *tail, size_t axis) { return (wide_t)(tail->axes->blocks[axis] - 1) * tail->costs[axis]; }

/*
 * The axis to shorten. "Score is (block - 1) x cost over blocks above 1; the last wins ties."; in 02 "cutting shall choose among the others", those
 * with a cost. Either is a score of 0. While a region is above the cache there is one: where every block with a cost is 1, each operand has one line.
 */
static size_t greatest(const tail_t *tail)
{
    size_t found = tail->first;
    wide_t best = 0;
    for (size_t i = tail->first; i < tail->axes->rank; i++) {
        const wide_t each = score(tail, i);
        if (each == 0 || each < best)
            continue;
        if (each == best)
            met(SCORE_TIE);
        best = each;
        found = i;
    }
    return found;
}

/* "while the region is at least 65,536, halve (rounding up) the block with the greatest score"; in 02 "halving stops below twice the cache" */
static void halve(const tail_t *tail)
{
    uint64_t *blocks = tail->axes->blocks;
    const wide_t twice = 2 * (wide_t)tail->record->cache;
    for (wide_t now; (now = measure(tail, blocks)) >= twice;) {
        const size_t axis = greatest(tail);
        blocks[axis] = blocks[axis] / 2 + blocks[axis] % 2;
        met(now == twice ? HALVED_TWICE : HALVED);
    }
}

/* "then while it is above 32,768 take 1 off the one with the greatest score, sought anew each time"; at most so many times, and whether it is done */
static int lessen(const tail_t *tail, uint64_t steps)
{
    uint64_t *blocks = tail->axes->blocks;
    while (measure(tail, blocks) > tail->record->cache) {
        if (steps-- == 0)
            return 0;
        blocks[greatest(tail)]--;
        met(ONE_OFF);
    }
    return 1;
}

/* The blocks when every score has come down to a level: each the longest with a score of at most that, or as it was. */
static void at_level(const tail_t *tail, wide_t level, uint64_t *blocks)
{
    for (size_t i = tail->first; i < tail->axes->rank; i++) {
        blocks[i] = tail->axes->blocks[i];
        if (score(tail, i) > level)
            blocks[i] = (uint64_t)(level / tail->costs[i]) + 1;
    }
}

/*
 * Takes off what single steps would, but for the last one on each axis. It is the same: a step shortens a block of the greatest score, so until all
 * scores are at most some level only blocks with a score above it are shortened, each until its own is not, in whatever order. So single steps come
 * by the blocks of every level, unless they end before. They do not end before a level whose blocks are too much, since less is taken off on the way
 * there, and a region never grows as blocks shrink. Between the least such level and the next lower one, which fits, no axis loses more than 1: a
 * cost is at least 1. At level 0 every block with a cost is 1, and fits.
 */
static void jump(const tail_t *tail)
{
    uint64_t tried[MOST_RANK];
    wide_t fits = 0, over = 0;
    for (size_t i = tail->first; i < tail->axes->rank; i++)
        over = score(tail, i) > over ? score(tail, i) : over;
    while (over - fits > 1) {
        const wide_t middle = fits + (over - fits) / 2;
        at_level(tail, middle, tried);
        if (measure(tail, tried) > tail->record->cache)
            over = middle;
        else
            fits = middle;
    }
    at_level(tail, over, tried);
    for (size_t i = tail->first; i < tail->axes->rank; i++)
        tail->axes->blocks[i] = tried[i];
}

static wide_t least_bytes(const axes_t *axes, size_t first)
{
    wide_t least = axes->bytes[0][first];
    for (size_t k = 0; k < axes->operands; k++)
        for (size_t i = first; i < axes->rank; i++)
            least = axes->bytes[k][i] < least ? axes->bytes[k][i] : least;
    return least;
}

/* "If the least byte stride in the tail is above 32,768, the tail's blocks become 1. Otherwise [...]" */
static void shorten(axes_t *axes, size_t first, const record_t *record)
{
    tail_t tail = {axes, first, record, {0}};
    const wide_t least = least_bytes(axes, first);
    if (least > record->cache) {
        met(TAIL_TO_1);
        for (size_t i = first; i < axes->rank; i++)
            axes->blocks[i] = 1;
        return;
    }
    if (least == record->cache)
        met(LEAST_IS_CACHE);
    for (size_t i = first; i < axes->rank; i++)
        tail.costs[i] = cost_of(axes, i);
    halve(&tail);
    if (lessen(&tail, STEPS))
        return;
    met(JUMP);
    jump(&tail);
    lessen(&tail, MOST_RANK);
}

typedef struct ranks_t {
    unsigned rows[MOST_OPERANDS][MOST_RANK];
} ranks_t;

/* "ranks are those of the plan's axes, taken once over all of them and not afresh (an operand of size 0 has ranks all 1)" */
static void plan_ranks(const axes_t *axes, ranks_t *ranks)
{
    for (size_t k = 0; k < axes->operands; k++)
        if (axes->sizes[k] != 0)
            ranks_of(axes->strides[k], axes->rank, ranks->rows[k]);
        else
            for (size_t i = 0; i < axes->rank; i++)
                ranks->rows[k][i] = 1;
}

/* "every operand's first rank equals the least rank that any operand has in the tail" */
static int keeps_first(const axes_t *axes, const ranks_t *ranks, size_t first)
{
    unsigned least = ranks->rows[0][first];
    for (size_t k = 0; k < axes->operands; k++)
        for (size_t i = first; i < axes->rank; i++)
            least = ranks->rows[k][i] < least ? ranks->rows[k][i] : least;
    for (size_t k = 0; k < axes->operands; k++)
        if (ranks->rows[k][first] != least)
            return 0;
    return 1;
}

/*
 * "Cutting looks at a tail of axes, at first all. It ends if the tail is empty or its region is at most 32,768. If every operand's first rank equals
 * the least rank that any operand has in the tail, the first axis is kept whole and the rule starts over on the rest"
 */
void cut(axes_t *axes, const record_t *record)
{
    ranks_t ranks;
    plan_ranks(axes, &ranks);
    for (size_t first = 0; first < axes->rank; first++) {
        const wide_t now = region(axes, axes->blocks, first, record->line);
        if (now <= record->cache) {
            met(now == record->cache ? TAIL_JUST : TAIL_FITS);
            return;
        }
        if (!keeps_first(axes, &ranks, first)) {
            shorten(axes, first, record);
            return;
        }
        met(FIRST_KEPT);
    }
    met(TAIL_EMPTY);
}
