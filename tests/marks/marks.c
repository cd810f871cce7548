/*
 * The repeat mark against brute force: every layout of rank 0 to 3 with extents 0 to 4 and strides -5 to 5, and seeded ones with totals around
 * 4,096, where it ceases to be exact, and around 256, where the code goes over from one way of listing offsets to another. The answers are worked
 * out here from document 02's sentences: all offsets sorted, or the stride sizes.
 */
#include "gougelily.h"

#include <inttypes.h>
#include <stdio.h>
#include <stdlib.h>

enum { LIMIT = 4096, MOST = 8 };

static const char *const names[] = {"no", "yes", "undecided"};
static uint64_t small_met[2], near_met[2], at_limit_met[2], above_met[3];

static int by_number(const void *one, const void *other)
{
    int64_t a = *(const int64_t *)one, b = *(const int64_t *)other;
    return (a > b) - (a < b);
}

static uint64_t size_of(int64_t stride) { return stride < 0 ? -(uint64_t)stride : (uint64_t)stride; }

static uint64_t total_of(size_t rank, const uint64_t *extents)
{
    uint64_t total = 1;
    for (size_t i = 0; i < rank; i++)
        total *= extents[i];
    return total;
}

/* "yes exactly if two indices share an offset" */
static int exact(size_t rank, const uint64_t *extents, const int64_t *strides)
{
    static int64_t offsets[LIMIT];
    size_t count = 1;
    offsets[0] = 0;
    for (size_t i = 0; i < rank; i++) {
        for (uint64_t at = 1; at < extents[i]; at++)
            for (size_t j = 0; j < count; j++)
                offsets[at * count + j] = offsets[j] + (int64_t)at * strides[i];
        count *= extents[i];
    }
    qsort(offsets, count, sizeof *offsets, by_number);
    for (size_t j = 1; j < count; j++)
        if (offsets[j] == offsets[j - 1])
            return GOUGELILY_MARK_YES;
    return GOUGELILY_MARK_NO;
}

/* "yes for a zero stride on an axis of extent above 1. Otherwise it is no if, by rising stride size .." */
static int quick(size_t rank, const uint64_t *extents, const int64_t *strides)
{
    int64_t sizes[MOST];
    size_t count = 0;
    for (size_t i = 0; i < rank; i++)
        if (extents[i] > 1)
            sizes[count++] = (int64_t)size_of(strides[i]);
    qsort(sizes, count, sizeof *sizes, by_number);
    for (size_t j = 0; j < count; j++) {
        if (sizes[j] == 0)
            return GOUGELILY_MARK_YES;
        uint64_t before = 0;
        int once = 0;
        for (size_t i = 0; i < rank; i++)
            if (extents[i] > 1) {
                uint64_t size = size_of(strides[i]);
                once += size == (uint64_t)sizes[j];
                before += size < (uint64_t)sizes[j] ? (extents[i] - 1) * size : 0;
            }
        /* of two equal sizes the later one stands behind a reach that is at least its own size */
        if (once > 1 || (uint64_t)sizes[j] <= before)
            return GOUGELILY_MARK_UNDECIDED;
    }
    return GOUGELILY_MARK_NO;
}

static void compare(size_t rank, const uint64_t *extents, const int64_t *strides)
{
    uint64_t total = total_of(rank, extents);
    int want = total == 0 ? GOUGELILY_MARK_NO : total <= LIMIT ? exact(rank, extents, strides) : quick(rank, extents, strides);
    int64_t answer = gougelily_repeat_mark(extents, rank, strides, rank);
    if (answer != want) {
        printf("the mark is %" PRId64 ", not %s, at", answer, names[want]);
        for (size_t i = 0; i < rank; i++)
            printf(" %" PRIu64 "*%" PRId64, extents[i], strides[i]);
        printf("\n");
        exit(1);
    }
    if (total > LIMIT)
        above_met[want]++;
    else if (total > 3500)
        at_limit_met[want]++;
    else if (total >= 230)
        near_met[want]++;
    else
        small_met[want]++;
}

static void all_small(size_t rank, size_t axis, uint64_t *extents, int64_t *strides)
{
    if (axis == rank) {
        compare(rank, extents, strides);
        return;
    }
    for (extents[axis] = 0; extents[axis] <= 4; extents[axis]++)
        for (strides[axis] = -5; strides[axis] <= 5; strides[axis]++)
            all_small(rank, axis + 1, extents, strides);
}

static uint64_t state = 1;

static uint64_t below(uint64_t n)
{
    state ^= state << 13, state ^= state >> 7, state ^= state << 17;
    return state % n;
}

/*
 * A layout of `low` to `high` cells, one in four of exactly `around` or one more of an axis: drawn extents, one of them what is missing; if the
 * others have too many cells already, it is 1. Strides packed, nearly packed, small, or of any size.
 */
static void draw(uint64_t low, uint64_t around, uint64_t high)
{
    uint64_t extents[MOST];
    int64_t strides[MOST];
    size_t rank = 1 + below(MOST - 1), last;
    uint64_t total = 1, next = 1, kind = below(4);
    for (size_t i = 0; i < rank; i++) {
        extents[i] = 1 + below(rank > 4 ? 4 : 12);
        total *= extents[i];
    }
    last = below(rank);
    total /= extents[last];
    extents[last] = total > high ? 1 : (low + below(high - low)) / total;
    if (below(4) == 0 && around % total == 0)
        extents[last] = around / total + below(2);
    for (size_t i = 0; i < rank; i++) {
        int64_t stride = (int64_t)(kind == 2 ? below(40) : below(100000));
        if (kind < 2) {
            stride = (int64_t)next;
            next = (extents[i] - 1) * next + next + (below(6) == 0 ? below(3) : 0) - (kind == 1 && below(6) == 0);
        }
        strides[i] = below(2) ? stride : -stride;
    }
    for (size_t i = rank; i > 1; i--) {
        size_t j = below(i);
        uint64_t e = extents[i - 1];
        int64_t s = strides[i - 1];
        extents[i - 1] = extents[j], extents[j] = e;
        strides[i - 1] = strides[j], strides[j] = s;
    }
    if (total_of(rank, extents) <= 10000)
        compare(rank, extents, strides);
}

/* The count of each sort of seeded layouts, and the seed, may be given. */
int main(int argc, char **argv)
{
    const uint64_t draws = argc > 1 ? strtoull(argv[1], NULL, 10) : 10000;
    if (argc > 2)
        state = strtoull(argv[2], NULL, 10) * 2 + 1;
    for (size_t rank = 0; rank <= 3; rank++) {
        uint64_t extents[3];
        int64_t strides[3];
        all_small(rank, 0, extents, strides);
    }
    uint64_t small = small_met[0] + small_met[1] + near_met[0] + near_met[1];
    near_met[0] = near_met[1] = 0;
    for (uint64_t i = 0; i < draws; i++)
        draw(3500, LIMIT, 4700);
    for (uint64_t i = 0; i < draws; i++)
        draw(230, 256, 280);
    printf("%" PRIu64 " small layouts, and %" PRIu64 " no, %" PRIu64 " yes from 230 cells on; then up to %d cells %" PRIu64 " no, %" PRIu64 " yes; above %" PRIu64 " no, %" PRIu64 " yes, %" PRIu64 " undecided\n",
           small, near_met[0], near_met[1], LIMIT, at_limit_met[0], at_limit_met[1], above_met[0], above_met[1], above_met[2]);
    for (int i = 0; i < 2; i++)
        if (near_met[i] < 100 || at_limit_met[i] < 100 || above_met[i] < 100 || above_met[2] < 100) {
            printf("some answer was hardly met\n");
            return 1;
        }
    return 0;
}
