/*
 * Drawn layouts, made for a record so that every branch of planning is met: their regions are about as large as its cache or larger, and their
 * strides meet multiples of its line and way.
 */
#include "draw.h"

enum { AXES = 66, OPERANDS = 20 };

#define WIDEST ((uint64_t)1 << 62)

typedef struct draft_t {
    size_t rank, operands;
    uint64_t extents[AXES], sizes[OPERANDS];
    int64_t strides[OPERANDS][AXES];
    uint64_t purpose, chosen;
} draft_t;

static uint64_t gcd(uint64_t a, uint64_t b) { return b == 0 ? a : gcd(b, a % b); }

/* So many elements of a size that their bytes are a multiple of a number. */
static uint64_t elements(uint64_t size, uint64_t many) { return size == 0 ? 1 : many / gcd(many, size); }

static uint64_t at_least_1(uint64_t number) { return number == 0 ? 1 : number; }

static wide_t up(wide_t number, uint64_t unit) { return (number + unit - 1) / unit * unit; }

static wide_t lesser(wide_t a, wide_t b) { return a < b ? a : b; }

/* ------------------------------------------------------------ extents */

static uint64_t power_above(uint64_t extent)
{
    uint64_t power = 1;
    while (power < extent)
        power *= 2;
    return power;
}

/* Extents of 2 or more with about so many cells. */
static void draw_shape(draft_t *draft, size_t rank, uint64_t cells)
{
    uint64_t total = 1;
    draft->rank = rank;
    for (size_t i = 0; i < rank; i++)
        draft->extents[i] = 1;
    while (rank != 0 && total < cells) {
        const uint64_t times = between(2, 5);
        draft->extents[below(rank)] *= times;
        total *= times;
    }
    const int powers = chance(40), eights = chance(15);
    for (size_t i = 0; i < rank; i++) {
        uint64_t *extent = &draft->extents[i];
        *extent = *extent < 2 ? 2 : *extent + below(*extent / 4 + 1);
        *extent = powers ? power_above(*extent) : eights ? (uint64_t)up(*extent, 8) : *extent;
    }
}

/* Extents with just so many cells, each prime factor on any axis. */
static void draw_exact(draft_t *draft, size_t rank, uint64_t cells)
{
    draft->rank = rank;
    for (size_t i = 0; i < rank; i++)
        draft->extents[i] = 1;
    for (uint64_t prime = 2; cells > 1; prime++)
        for (; cells % prime == 0; cells /= prime)
            draft->extents[below(rank)] *= prime;
}

/* ------------------------------------------------------------ strides */

/* The axes of an operand from the quickest to the slowest: as given, the reverse, with the quickest of those given, or any. */
static void draw_order(const size_t *axes, size_t rank, size_t *order)
{
    const uint64_t kind = below(4);
    const size_t kept = kind == 2 ? below(3) : 1, from = kept < rank ? kept : rank;
    for (size_t i = 0; i < rank; i++)
        order[i] = kind == 1 ? axes[rank - 1 - i] : axes[i];
    if (kind > 1)
        shuffle(order + from, rank - from);
}

/* Lays an operand in this order of axes: dense, or padded to lines, ways, or farther than the cache. */
static void lay(draft_t *draft, size_t k, const size_t *order, const record_t *record)
{
    const uint64_t size = draft->sizes[k], by_line = elements(size, record->line), by_way = elements(size, record->way);
    const uint64_t far = record->cache / at_least_1(size) + below(2), padding = below(8);
    wide_t step = ONE_OF(1, 1, 1, 1, 1, 2, 3, by_line, by_way, far);
    for (size_t j = 0; j < draft->rank; j++) {
        const size_t axis = order[j];
        draft->strides[k][axis] = (int64_t)lesser(step, WIDEST);
        step = lesser(step, WIDEST) * at_least_1(draft->extents[axis]);
        if (padding == 2 || padding == 3)
            step = up(step, by_line) + ONE_OF(0, 0, 0, by_line);
        else if ((padding == 4 || padding == 5) && chance(80))
            step = up(step, by_way);
        else if (padding == 6)
            step += below(10);
        else if (padding == 7 && step < far)
            step = far;
    }
}

/* Broadcasts, ties, strides of other sizes, negative strides. */
static void disturb(draft_t *draft, size_t k, const record_t *record)
{
    const uint64_t size = draft->sizes[k];
    int64_t *strides = draft->strides[k];
    const int still = chance(20), back = chance(20);
    if (draft->rank != 0 && chance(15)) {
        const size_t axis = below(draft->rank), other = below(draft->rank);
        const uint64_t some = below(10000), by_line = elements(size, record->line), by_way = elements(size, record->way);
        strides[axis] = (int64_t)ONE_OF(1, 2, by_line, by_way, record->cache / at_least_1(size), (uint64_t)strides[other], some);
    }
    for (size_t i = 0; i < draft->rank; i++) {
        if (still && chance(35))
            strides[i] = 0;
        if (back && chance(50))
            strides[i] = -strides[i];
    }
}

static void draw_strides(draft_t *draft, const record_t *record)
{
    size_t axes[AXES], order[AXES];
    for (size_t i = 0; i < draft->rank; i++)
        axes[i] = i;
    if (chance(40))
        shuffle(axes, draft->rank);
    for (size_t k = 0; k < draft->operands; k++) {
        draw_order(axes, draft->rank, order);
        lay(draft, k, order, record);
        disturb(draft, k, record);
    }
}

/* ------------------------------------------------------------ sizes, purposes */

static uint64_t draw_size(void) { return ONE_OF(0, 1, 1, 2, 4, 4, 8, 8, 8, 8, 16, 24, 32, 3, 64, 100, 128, 256); }

static void draw_sizes(draft_t *draft)
{
    const uint64_t size = draw_size();
    draft->operands = ONE_OF(1, 2, 2, 2, 2, 2, 2, 2, 3, 3, between(4, 7), 8);
    for (size_t k = 0; k < draft->operands; k++)
        draft->sizes[k] = chance(70) ? size : draw_size();
}

/* Any purpose above 2 is a fold; without a chosen operand its number is not looked at. */
static void draw_purpose(draft_t *draft)
{
    draft->purpose = ONE_OF(0, 1, 1, 1, 1, chance(90) ? 2 : any());
    draft->chosen = draft->purpose == POINTWISE && chance(50) ? any() : below(draft->operands);
}

/* ------------------------------------------------------------ kinds */

/* About the cache, or many times as large. */
static void large(draft_t *draft, const record_t *record)
{
    uint64_t most = 1;
    draw_sizes(draft);
    for (size_t k = 0; k < draft->operands; k++)
        most = draft->sizes[k] > most ? draft->sizes[k] : most;
    const uint64_t cells = spread(record->cache / 8, record->cache * 64) / most;
    draw_shape(draft, ONE_OF(1, 2, 2, 2, 3, 3, 3, 3, 4, 4, 5, 6, 8, 10), cells < 1025 ? 1025 : cells);
    draw_strides(draft, record);
    draw_purpose(draft);
}

/* Two operands, one of them with byte strides that are multiples of the way: lines that fall into the same sets. */
static void crowded(draft_t *draft, const record_t *record)
{
    const uint64_t size = ONE_OF(1, 2, 4, 8, 8, 8, 16), by_way = elements(size, record->way);
    draft->operands = 2;
    draft->sizes[0] = draft->sizes[1] = size;
    const uint64_t cells = record->cache / size * ONE_OF(1, 2, 8, 60);
    draw_shape(draft, between(2, 5), cells);
    draw_strides(draft, record);
    draft->purpose = POINTWISE_INTO;
    draft->chosen = below(2);
    const size_t far = below(2), near_axis = below(draft->rank);
    for (size_t i = 0; i < draft->rank; i++) {
        draft->strides[far][i] = (int64_t)(by_way * ONE_OF(1, 1, 2, 3, (uint64_t)1 << i, 1000));
        if (chance(20))
            draft->strides[1 - far][i] = 0;
    }
    draft->strides[far][near_axis] = (int64_t)ONE_OF(1, 1, 1, 0, elements(size, record->line));
}

/* One or two long axes with small strides, often 0: regions beyond 64 bits, single steps without end. Some are refused. */
static void huge(draft_t *draft, const record_t *record)
{
    draw_sizes(draft);
    draw_shape(draft, between(1, 3), 2000);
    for (size_t many = ONE_OF(1, 1, 2); many > 0; many--) {
        const size_t place = below(++draft->rank);
        draft->extents[draft->rank - 1] = draft->extents[place];
        draft->extents[place] = spread(1 << 16, (uint64_t)1 << ONE_OF(24, 40, 60));
    }
    draw_strides(draft, record);
    draw_purpose(draft);
    for (size_t k = 0; k < draft->operands; k++)
        for (size_t i = 0; i < draft->rank; i++)
            if (draft->extents[i] >= 1 << 16 && chance(80))
                draft->strides[k][i] = (int64_t)ONE_OF(0, 0, 0, 1, elements(draft->sizes[k], record->line), elements(draft->sizes[k], record->way));
}

static void add_axis(draft_t *draft, size_t place, uint64_t extent)
{
    for (size_t i = draft->rank++; i > place; i--) {
        draft->extents[i] = draft->extents[i - 1];
        for (size_t k = 0; k < draft->operands; k++)
            draft->strides[k][i] = draft->strides[k][i - 1];
    }
    draft->extents[place] = extent;
    for (size_t k = 0; k < draft->operands; k++)
        draft->strides[k][place] = 0;
}

/* A large layout with an axis more, which nobody moves along, or only operands of size 0. */
static void broadcast(draft_t *draft, const record_t *record)
{
    large(draft, record);
    const size_t place = below(draft->rank + 1);
    const int64_t alone = (int64_t)ONE_OF(0, 0, 0, 1, -(uint64_t)7);
    add_axis(draft, place, ONE_OF(2, 9, 100, 1000, 5000, 1 << 20, 1 << 30));
    for (size_t k = 0; k < draft->operands; k++)
        draft->strides[k][place] = draft->sizes[k] == 0 ? alone : 0;
}

/* Each operand with strides 1, 2, 3 .. in some order: no two axes have the same rank. */
static void lay_apart(draft_t *draft)
{
    size_t order[AXES];
    for (size_t i = 0; i < draft->rank; i++)
        order[i] = i;
    for (size_t k = 0; k < draft->operands; k++) {
        if (chance(50))
            shuffle(order, draft->rank);
        for (size_t i = 0; i < draft->rank; i++)
            draft->strides[k][order[i]] = chance(3) ? 0 : (int64_t)(i + 1);
    }
}

/* Many axes, most of them short. */
static void high(draft_t *draft, const record_t *record)
{
    const uint64_t ones = ONE_OF(20, 40, 80);
    draw_sizes(draft);
    draft->rank = chance(50) ? between(9, 16) : chance(50) ? between(17, 64) : chance(50) ? MOST_RANK : between(58, 63);
    for (size_t i = 0; i < draft->rank; i++)
        draft->extents[i] = chance((unsigned)ones) ? 1 : draft->rank < 24 ? between(2, 4) : 2;
    if (chance(40))
        lay_apart(draft);
    else
        draw_strides(draft, record);
    draw_purpose(draft);
}

/* At most about 1,024 cells, also none; rank 0. */
static void small(draft_t *draft, const record_t *record)
{
    const int exact = chance(30);
    const size_t rank = exact ? between(1, 6) : below(7);
    draw_sizes(draft);
    if (exact)
        draw_exact(draft, rank, between(SMALL - 1, SMALL + 2));
    else
        draw_shape(draft, rank, ONE_OF(1, 30, 300, SMALL));
    for (size_t i = 0; i < draft->rank; i++)
        if (!exact && chance(10))
            draft->extents[i] = ONE_OF(0, 1, 1);
    draw_strides(draft, record);
    draw_purpose(draft);
}

/* A number of 1 to `most`: a power of two, or any. */
static uint64_t stretch(uint64_t most) { return chance(60) ? power_above(spread(1, most) / 2 + 1) : between(1, most); }

static uint64_t wide_size(void)
{
    const uint64_t bit = below(64), times = ONE_OF(1, 3, 7, 63), less = below(99), size = any();
    return ONE_OF((uint64_t)1 << bit, times << bit % 59, UINT64_MAX - less, size);
}

static wide_t reach_of(const draft_t *draft, size_t k)
{
    wide_t reach = 0;
    for (size_t i = 0; i < draft->rank; i++)
        if (draft->extents[i] != 0)
            reach += lesser((wide_t)(draft->extents[i] - 1) * size_of(draft->strides[k][i]), (wide_t)1 << 64);
    return reach;
}

/* The strides of an operand made longer, up to row 6's limit. */
static void stretch_strides(draft_t *draft, size_t k)
{
    for (size_t i = 0; i < draft->rank; i++) {
        const wide_t reach = reach_of(draft, k), span = (wide_t)at_least_1(draft->extents[i]) * at_least_1(size_of(draft->strides[k][i]));
        const uint64_t most = reach < WIDEST ? (uint64_t)((WIDEST - reach) / span) : 0;
        if (chance(40) && most > 1)
            draft->strides[k][i] *= (int64_t)stretch(most);
    }
}

/* Sizes of any 64 bits, and strides up to row 6's limit: byte strides of one word and of two. */
static void wide(draft_t *draft, const record_t *record)
{
    const int lines = chance(20); /* whole lines, whatever the strides: tiles may be declined */
    (chance(25) ? large : chance(70) ? crowded : high)(draft, record);
    for (size_t k = 0; k < draft->operands; k++) {
        if (lines)
            draft->sizes[k] = (uint64_t)1 << between(50, 63);
        else if (chance(40))
            draft->sizes[k] = wide_size();
        if (!lines && chance(50))
            stretch_strides(draft, k);
    }
}

/* What an operand's reach leaves up to 2^63 - 1, or one less or more, on an axis of 2. */
static void take_the_rest(draft_t *draft, size_t k, size_t axis)
{
    const wide_t reach = reach_of(draft, k);
    if (reach >= INT64_MAX)
        return;
    const uint64_t beside = ONE_OF(-(uint64_t)1, 0, 0, 0, 1);
    const uint64_t left = (uint64_t)INT64_MAX - (uint64_t)reach + beside;
    draft->strides[k][axis] = chance(50) || left > INT64_MAX ? (int64_t)-left : (int64_t)left;
}

/* A reach at row 6's limit, of one operand or of all: in the second case all strides of an axis are about 2^63. */
static void at_reach(draft_t *draft, const record_t *record)
{
    (chance(60) ? large : chance(50) ? small : wide)(draft, record);
    const size_t place = below(draft->rank + 1), one = below(draft->operands);
    const int all = chance(60);
    add_axis(draft, place, 2);
    for (size_t k = 0; k < draft->operands; k++)
        if (all || k == one)
            take_the_rest(draft, k, place);
}

/* Totals of 2^64 - 1 and its neighbours, cut into axes: strides of 0 and a few small ones. */
static void at_total(draft_t *draft, const record_t *record)
{
    static const uint64_t primes[] = {3, 5, 17, 257, 641, 65537, 6700417}; /* of 2^64 - 1 */
    const int of_two = chance(40);
    draw_sizes(draft);
    draft->rank = between(1, 7);
    for (size_t i = 0; i < draft->rank; i++)
        draft->extents[i] = 1;
    for (size_t j = 0; j < 7; j++)
        if (!of_two)
            draft->extents[below(draft->rank)] *= primes[j];
    for (size_t bits = between(62, 64); of_two && bits > 0; bits--)
        draft->extents[below(draft->rank)] *= 2;
    if (chance(20))
        draft->extents[below(draft->rank)]++;
    draw_strides(draft, record);
    for (size_t k = 0; k < draft->operands; k++)
        for (size_t i = 0; i < draft->rank; i++)
            if (draft->extents[i] > 1 << 20 ? chance(95) : chance(60))
                draft->strides[k][i] = 0;
    draw_purpose(draft);
}

/* Powers of two with a region of about 2^64 or more, so that words would wrap to 0: dense, in sizes of a line or more. */
static void vast(draft_t *draft, const record_t *record)
{
    draft->operands = between(1, 3);
    const size_t rank = between(2, 5);
    draw_exact(draft, rank, (uint64_t)1 << between(54, 61));
    for (size_t k = 0; k < draft->operands; k++)
        draft->sizes[k] = (uint64_t)32 << (chance(70) ? below(4) : below(59));
    draw_strides(draft, record);
    draw_purpose(draft);
}

static uint64_t edge_extent(void)
{
    const uint64_t half = ((uint64_t)1 << 32) - 1 + below(3), middle = (uint64_t)1 << 63, some = spread(1, UINT64_MAX);
    return ONE_OF(0, 0, 1, 2, 3, 1024, 1025, half, middle - 1, middle, middle + 1, UINT64_MAX, some);
}

static int64_t edge_stride(void)
{
    const uint64_t stride = ONE_OF(0, 0, 1, 2, INT64_MAX, (uint64_t)1 << 63, (uint64_t)1 << 62, ((uint64_t)1 << 62) - 1, spread(0, UINT64_MAX));
    return (int64_t)(chance(50) ? stride : -stride);
}

/* An axis of 2^63 whose neighbour would join it if that were within isize. */
static void beyond_isize(draft_t *draft)
{
    const size_t i = below(draft->rank - 1);
    draft->extents[i] = (uint64_t)1 << 63;
    for (size_t k = 0; k < draft->operands; k++) {
        const int still = k != 0 && chance(30);
        draft->strides[k][i] = still ? 0 : -1;
        draft->strides[k][i + 1] = still ? 0 : INT64_MIN;
    }
}

/* Any numbers at their limits, mostly with a zero extent, so that rows 5 and 6 pass; strides that join the axis before, or would if they wrapped. */
static void edges(draft_t *draft, const record_t *record)
{
    (void)record;
    draft->operands = between(1, 3);
    draft->rank = between(1, 6);
    for (size_t i = 0; i < draft->rank; i++)
        draft->extents[i] = edge_extent();
    if (chance(70))
        draft->extents[below(draft->rank)] = 0;
    const int joined = chance(60);
    for (size_t k = 0; k < draft->operands; k++) {
        draft->sizes[k] = chance(50) ? draw_size() : wide_size();
        for (size_t i = 0; i < draft->rank; i++) {
            const uint64_t follows = i == 0 ? 1 : (uint64_t)draft->strides[k][i - 1] * draft->extents[i - 1];
            draft->strides[k][i] = i != 0 && joined && chance(70) ? (int64_t)follows : edge_stride();
        }
    }
    if (draft->rank > 1 && chance(15))
        beyond_isize(draft);
    draw_purpose(draft);
}

/* ------------------------------------------------------------ counts */

static void put(case_t *drawn, const draft_t *draft)
{
    drawn->rank = draft->rank;
    drawn->operands = draft->operands;
    drawn->stride_count = 0;
    drawn->purpose = draft->purpose;
    drawn->chosen = draft->chosen;
    for (size_t i = 0; i < draft->rank; i++)
        drawn->extents[i] = draft->extents[i];
    for (size_t k = 0; k < draft->operands; k++) {
        drawn->sizes[k] = draft->sizes[k];
        for (size_t i = 0; i < draft->rank; i++)
            drawn->strides[drawn->stride_count++] = draft->strides[k][i];
    }
}

/* So many axes: those there are, and axes of 1. */
static void lengthen(draft_t *draft, size_t rank)
{
    for (size_t i = draft->rank; i < rank; i++) {
        draft->extents[i] = 1;
        for (size_t k = 0; k < draft->operands; k++)
            draft->strides[k][i] = 5;
    }
    draft->rank = rank;
}

/* So many operands: those there are, and the first one again. */
static void repeat(draft_t *draft, size_t operands)
{
    for (size_t k = draft->operands; k < operands; k++) {
        draft->sizes[k] = draft->sizes[0];
        for (size_t i = 0; i < draft->rank; i++)
            draft->strides[k][i] = draft->strides[0][i];
    }
    draft->operands = operands;
}

static uint64_t other_count(uint64_t count)
{
    const uint64_t other = ONE_OF(count - 1, count + 1, 0, 2 * count, count + 7);
    return other > ROOM_STRIDES ? 0 : other;
}

/* Counts that a row refuses, or just does not. */
static void damaged(case_t *drawn, const record_t *record)
{
    draft_t draft;
    const uint64_t kind = below(6);
    (chance(50) ? large : small)(&draft, record);
    if (kind == 0 || kind == 5)
        lengthen(&draft, between(63, AXES));
    if (kind == 1 || kind == 5)
        repeat(&draft, ONE_OF(0, 7, 8, 9, OPERANDS));
    put(drawn, &draft);
    for (size_t j = drawn->stride_count; j < 2 * drawn->stride_count + 8 && j < ROOM_STRIDES; j++)
        drawn->strides[j] = edge_stride();
    if (kind == 2 || (kind == 5 && chance(50)))
        drawn->stride_count = other_count(drawn->stride_count);
    if (kind == 3 || (kind == 5 && chance(50)))
        drawn->chosen = ONE_OF(drawn->operands - 1, drawn->operands, drawn->operands + 1, UINT64_MAX);
    if (kind == 4)
        drawn->chosen = edge_extent();
}

void draw_layout(case_t *drawn, const record_t *record)
{
    static const struct {
        void (*draw)(draft_t *, const record_t *);
        unsigned percent;
    } kinds[] = {{large, 43}, {crowded, 15}, {huge, 6}, {broadcast, 6}, {high, 4},
                 {small, 5},  {wide, 9},     {vast, 2}, {at_reach, 2},  {at_total, 2}, {edges, 3}};
    draft_t draft;
    uint64_t at = below(100);
    for (size_t i = 0; i < sizeof kinds / sizeof *kinds; i++) {
        if (at < kinds[i].percent) {
            kinds[i].draw(&draft, record);
            put(drawn, &draft);
            return;
        }
        at -= kinds[i].percent;
    }
    damaged(drawn, record);
}
