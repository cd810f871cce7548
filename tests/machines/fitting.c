/* Declining of tiles, and the L1 fit: document 01, "The plan". */
#include "planner.h"

/* The first axis whose block is shorter than its extent, or the rank. */
static size_t first_cut(const axes_t *axes)
{
    size_t i = 0;
    while (i < axes->rank && axes->blocks[i] == axes->extents[i])
        i++;
    return i;
}

/* Of the axes from `first` on that are not in `done`, the one with the least byte stride. */
static size_t next_rising(const axes_t *axes, size_t k, size_t first, uint64_t done)
{
    size_t found = axes->rank;
    for (size_t i = first; i < axes->rank; i++)
        if ((done >> i & 1) == 0 && (found == axes->rank || axes->bytes[k][i] < axes->bytes[k][found]))
            found = i;
    return found;
}

/*
 * "width = size + the sum of (extent - 1) x byte stride over axes before the cut, a multiple of 64; then, over the other axes by rising byte stride,
 * each is a multiple of 64 and no less than the span so far, which grows from width by (extent - 1) x stride"
 */
static int passes(const axes_t *axes, size_t k, size_t first, uint64_t line)
{
    wide_t span = axes->sizes[k];
    uint64_t done = 0;
    for (size_t i = 0; i < first; i++)
        span += (axes->extents[i] - 1) * axes->bytes[k][i];
    if (span % line != 0) {
        met(WIDTH_UNEVEN);
        return 0;
    }
    for (size_t left = axes->rank - first; left > 0; left--) {
        const size_t i = next_rising(axes, k, first, done);
        const wide_t stride = axes->bytes[k][i];
        if (stride < span || stride % line != 0) {
            met(stride < span ? STRIDE_SHORT : STRIDE_UNEVEN);
            return 0;
        }
        span += (axes->extents[i] - 1) * stride;
        done |= (uint64_t)1 << i;
    }
    return 1;
}

/* "Tiles are declined (blocks are full) if the first cut axis is not axis 0 and each operand of nonzero size passes" */
int declined(const axes_t *axes, uint64_t line)
{
    const size_t first = first_cut(axes);
    if (first == axes->rank) {
        met(NOTHING_CUT);
        return 0;
    }
    met(CUT);
    if (first == 0) {
        met(AXIS_0_CUT);
        return 0;
    }
    for (size_t k = 0; k < axes->operands; k++)
        if (axes->sizes[k] == 0)
            met(SIZE_0_PASSES);
        else if (!passes(axes, k, first, line))
            return 0;
    met(DECLINED);
    return 1;
}

/* The axes of each operand's product, a bit for each, and whether it counts. */
typedef struct products_t {
    uint64_t axes[MOST_OPERANDS];
    int counts[MOST_OPERANDS];
} products_t;

/*
 * "An operand counts if its size is not 0 and its first axis with byte stride below 64 exists and is not axis 0; it contributes the product of blocks
 * of axes before that one whose byte stride is a nonzero multiple of 4,096."
 */
static int product_of(const axes_t *axes, size_t k, const record_t *record, uint64_t *product)
{
    size_t below = 0;
    *product = 0;
    while (below < axes->rank && axes->bytes[k][below] >= record->line)
        below++;
    if (axes->sizes[k] == 0 || below == axes->rank || below == 0) {
        met(axes->sizes[k] == 0 ? COUNT_SIZE_0 : below == 0 ? COUNT_AXIS_0 : COUNT_NONE_BELOW);
        return 0;
    }
    for (size_t i = 0; i < below; i++)
        if (axes->bytes[k][i] != 0 && axes->bytes[k][i] % record->way == 0)
            *product |= (uint64_t)1 << i;
    met(*product != 0 ? COUNTS_SOME : COUNTS_NONE);
    return 1;
}

/* "Load is the sum."; two products of blocks, each at most the total */
static wide_t load(const axes_t *axes, const products_t *products)
{
    wide_t sum = 0;
    for (size_t k = 0; k < axes->operands; k++) {
        wide_t product = 1;
        for (size_t i = 0; i < axes->rank; i++)
            if (products->axes[k] >> i & 1)
                product *= axes->blocks[i];
        sum += products->counts[k] ? product : 0;
    }
    return sum;
}

static int enters(const axes_t *axes, const products_t *products, size_t axis)
{
    for (size_t k = 0; k < axes->operands; k++)
        if (products->counts[k] && (products->axes[k] >> axis & 1))
            return 1;
    return 0;
}

/* "skip an axis where the chosen stride is 0, which enters no product, or whose block is 1" */
static int skipped(const axes_t *axes, const products_t *products, size_t chosen, size_t axis)
{
    const int outside = !enters(axes, products, axis), is_1 = axes->blocks[axis] == 1, still = axes->strides[chosen][axis] == 0;
    if (outside || is_1 || still)
        met(outside ? SKIP_OUTSIDE : is_1 ? SKIP_1 : SKIP_STILL);
    return outside || is_1 || still;
}

/* "if block 1 still leaves load above 6, set 1 and go on; else set the greatest block with load at most 6 and end"; whether it ends */
static int fit_axis(axes_t *axes, const products_t *products, size_t axis, uint64_t live)
{
    uint64_t best = 0;
    /* the block is a factor of a product, so the load is no less */
    for (uint64_t block = 1; block <= live; block++) {
        axes->blocks[axis] = block;
        if (load(axes, products) <= live)
            best = block;
    }
    axes->blocks[axis] = best == 0 ? 1 : best;
    met(best == 0 ? SET_1 : SET_GREATEST);
    return best != 0;
}

/* "If load is above 6, from the outermost axis" */
void fit(axes_t *axes, size_t chosen, const record_t *record)
{
    products_t products;
    for (size_t k = 0; k < axes->operands; k++)
        products.counts[k] = product_of(axes, k, record, &products.axes[k]);
    const wide_t whole = load(axes, &products);
    if (whole <= record->live) {
        met(whole == record->live ? LOAD_JUST : LOAD_BELOW);
        return;
    }
    for (size_t i = axes->rank; i-- > 0;)
        if (!skipped(axes, &products, chosen, i) && fit_axis(axes, &products, i, record->live))
            return;
    met(LOAD_STAYS);
}
