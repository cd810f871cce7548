/*
 * The library as a C program meets it, to be run under the sanitizers or under
 * valgrind. calls.h lends the memory of each call, and compares the function on
 * structs with the raw one. Every function of the header is called with numbers
 * that are good, wrong, at the limits and at random. Checked are:
 * - known layouts and texts, and one call for each refusal; a layout's check is
 *   what planning it for the fixed machine answers; the words of a refusal;
 * - layouts at random: a walk meets every cell once, at the offsets that its
 *   original index tells, and the index maps are inverse; many steps in one call
 *   hand out the blocks of single steps; windows have the offsets of their cells;
 * - layouts as texts: what is printed is their plan and their walk; and damaged;
 * - lists of visits at random, judged;
 * - descriptions of arrays at random, read and written again;
 * - layouts at random, copied: the destination's cells are the source's, and
 *   every other byte is as it was;
 * - cells at random, summed again in the order of the walk's blocks, bit by bit;
 * - visits: each is the step, with its number and the index of its first cell,
 *   and both views say what the record says;
 * - sessions at random: operands join and leave, and after each call the session
 *   is one begun with its present layout, and its plan that of planning; with one
 *   number changed it is refused, unless it is such a session again;
 * - layouts, plans and states at random, whatever they hold: a call ends with an
 *   answer.
 */
#include "calls.h"

/* The plan for the fixed machine, which the check of the layout foretells. */
static int64_t plan_of(const struct layout *l, gougelily_plan_t *p)
{
    int64_t answer = plan_on(l, fixed, p);
    CHECK(answer == check_of(l));
    return answer;
}

/* Calls with strings. */
static int64_t text_is(const char *text, char *room, size_t size) { return text_of(text, strlen(text), room, size); }

static int64_t judge_is(const uint64_t *extents, size_t rank, const char *text, uint8_t *marks, size_t count)
{
    return judge_of(extents, rank, text, strlen(text), marks, count);
}

static int64_t described_is(const char *text, struct described *d) { return described_of(text, strlen(text), d); }

/* The mark of one operand of a layout. */
static int64_t operand_mark(const struct layout *l, size_t operand)
{
    return mark_of(l->extents, l->rank, l->strides + operand * l->rank, l->rank);
}

/* ------------------------------------------------------------ known answers */

static struct layout two(uint64_t e0, uint64_t e1, int64_t a0, int64_t a1, int64_t b0, int64_t b1, uint64_t purpose)
{
    struct layout l = {{e0, e1}, {8, 8}, purpose, 0, {a0, a1, b0, b1}, 2, 2, 4};
    return l;
}

static struct layout one(uint64_t extent, int64_t stride, uint64_t size)
{
    struct layout l = {{extent}, {size}, GOUGELILY_FOLD, 0, {stride}, 1, 1, 1};
    return l;
}

static void known_plans(void)
{
    gougelily_plan_t p = {0};
    struct layout l = two(64, 64, 1, 64, 64, 1, GOUGELILY_POINTWISE_INTO);
    CHECK(plan_of(&l, &p) == 0 && p.rank == 2 && p.operands == 2 && p.blocks[0] == 64 && p.blocks[1] == 32);
    l = two(64, 64, 1, 64, 512, 1, GOUGELILY_POINTWISE_INTO);
    CHECK(plan_of(&l, &p) == 0 && p.blocks[0] == 6 && p.blocks[1] == 32);
    CHECK(plan_on(&l, (gougelily_machine_t){32, 4096, 4096, 6}, &p) == 0 && p.blocks[0] == 6 && p.blocks[1] == 16);
    CHECK(plan_on(&l, (gougelily_machine_t){48, 32768, 4080, 6}, &p) == -GOUGELILY_RECORD);
    CHECK(plan_on(&l, (gougelily_machine_t){64, 32768, 4096, 0}, &p) == -GOUGELILY_RECORD);
    l.purpose = GOUGELILY_FOLD;
    CHECK(plan_of(&l, &p) == 0 && p.blocks[0] == 64 && p.blocks[1] == 32);
    l.rank = 0, l.stride_count = 0;
    CHECK(plan_of(&l, &p) == 0 && p.rank == 0 && p.operands == 2);
    CHECK(gougelily_plan(NULL, 0, l.sizes, 2, NULL, 0, 0, 0, 64, 32768, 4096, 6, &p.rank, &p.operands, p.extents,
                         p.blocks, p.strides) == 0);
}

static void known_walk(void)
{
    gougelily_plan_t p = {0};
    gougelily_walk_t w = {0};
    gougelily_block_t k = {0};
    struct many m = {0};
    const int64_t start = 10;
    p.rank = 1, p.operands = 1, p.extents[0] = 5, p.blocks[0] = 2, p.strides[0] = 3;
    CHECK(begin_of(&p, &start, 1, &w) == 0 && !w.ended);
    for (int i = 0; i < 3; i++)
        CHECK(step_of(&p, &w, &k) == 1 && k.offsets[0] == 10 + 6 * i && k.length == (i < 2 ? 2 : 1) &&
              k.strides[0] == 3);
    CHECK(w.ended == 1 && step_of(&p, &w, &k) == 0);
    w.ended = 7;
    CHECK(step_of(&p, &w, &k) == 0 && w.ended == 7);
    w.ended = 0, w.counters[0] = 5;
    CHECK(step_of(&p, &w, &k) == -GOUGELILY_STATE && many_of(&p, &w, &m, 4, 4) == -GOUGELILY_STATE);
    w.counters[0] = 0;
    CHECK(many_of(&p, &w, &m, 0, 4) == 0 && many_of(&p, &w, &m, 4, 0) == 0 && !w.ended && w.counters[0] == 0);
    CHECK(many_of(&p, &w, &m, 2, 4) == 2 && m.lengths[0] == 2 && m.lengths[1] == 2 && m.offsets[0] == 10 &&
          m.offsets[1] == 16 && m.offsets[2] == 0 && w.counters[0] == 4);
    CHECK(many_of(&p, &w, &m, 4, 4) == 1 && m.lengths[0] == 1 && m.offsets[0] == 22 && m.lengths[1] == 2 && w.ended);
    CHECK(many_of(&p, &w, &m, 4, 4) == 0 && gougelily_step_walk_many(&p, &w, m.lengths, 4, m.offsets, 4) == 0);
    p.extents[0] = 0;
    CHECK(begin_of(&p, &start, 1, &w) == 0 && w.ended == 1);
}

/* The words of an answer, which is negative where the enum's number is not; the library is that of the header; older names are names. */
static void known_words(void)
{
    CHECK(gougelily_refused(-6) == GOUGELILY_REACH && gougelily_refused(0) == GOUGELILY_SERVED);
    CHECK(gougelily_refused(GOUGELILY_REACH) == GOUGELILY_SERVED);
    CHECK(strcmp(gougelily_refusal_text(-GOUGELILY_RANK), "the rank is above 64") == 0);
    CHECK(strcmp(gougelily_refusal_text(-24), "the machine record is outside its bounds") == 0);
    CHECK(strcmp(gougelily_refusal_text(0), "not refused") == 0 && strcmp(gougelily_refusal_text(6), "not refused") == 0);
    CHECK(strcmp(gougelily_refusal_text(-99), "no refusal has this number") == 0);
    CHECK(gougelily_version() == GOUGELILY_VERSION);
    CHECK(gougelily_next_block == gougelily_step_walk && gougelily_find_original == gougelily_original_index_of);
}

static void known_refusals(void)
{
    const uint64_t five = 5;
    const int64_t last = INT64_MAX;
    gougelily_plan_t p = {0};
    gougelily_walk_t w = {0};
    gougelily_block_t k = {0};
    gougelily_index_t x = {0};
    struct layout l = one(5, 1, 8);
    l.rank = 65;
    CHECK(plan_of(&l, &p) == -GOUGELILY_RANK && operand_mark(&l, 0) == -GOUGELILY_RANK);
    l.rank = 1, l.operands = 9;
    CHECK(plan_of(&l, &p) == -GOUGELILY_OPERANDS);
    l.operands = 1, l.stride_count = 2;
    CHECK(plan_of(&l, &p) == -GOUGELILY_STRIDE_COUNT);
    l.stride_count = 1, l.chosen = 1;
    CHECK(plan_of(&l, &p) == -GOUGELILY_CHOSEN);
    l = two((uint64_t)1 << 32, (uint64_t)1 << 32, 1, 1, 1, 1, GOUGELILY_POINTWISE);
    CHECK(plan_of(&l, &p) == -GOUGELILY_TOTAL);
    l = one(3, (int64_t)1 << 62, 1);
    CHECK(plan_of(&l, &p) == -GOUGELILY_REACH);
    l = one(2, (int64_t)1 << 60, 8);
    CHECK(plan_of(&l, &p) == 0 && p.rank == 1 && p.extents[0] == 2 && p.blocks[0] == 2);
    l = one(5, 1, 8);
    CHECK(index_of(&l, 1, &five, 1, &x) == -GOUGELILY_INDEX && index_of(&l, 0, &five, 0, &x) == -GOUGELILY_INDEX);
    CHECK(plan_of(&l, &p) == 0 && begin_of(&p, &last, 0, &w) == -GOUGELILY_START_COUNT);
    CHECK(begin_of(&p, &last, 1, &w) == -GOUGELILY_OFFSETS);
    p.operands = 0;
    CHECK(step_of(&p, &w, &k) == -GOUGELILY_OPERANDS);
    p.rank = 65;
    CHECK(step_of(&p, &w, &k) == -GOUGELILY_RANK && begin_of(&p, &last, 1, &w) == -GOUGELILY_RANK);
}

static void known_windows(void)
{
    struct layout l = two(4, 5, 1, 4, 5, 1, GOUGELILY_POINTWISE);
    struct window n = {{3, 0}, {2, 3}, {-2, 2}, 2, 2, 2};
    gougelily_windowed_t made = {0}, again = {0};
    const gougelily_layout_t v = view(&l);
    const gougelily_window_t w = {n.firsts, n.counts, n.steps, 2};
    CHECK(window_of(&l, &n, &made) == 0 && made.extents[0] == 2 && made.extents[1] == 3 && made.extents[2] == 0);
    CHECK(made.strides[0] == -2 && made.strides[1] == 8 && made.strides[2] == -10 && made.strides[3] == 2);
    CHECK(made.strides[4] == 0 && made.shifts[0] == 3 && made.shifts[1] == 15 && made.shifts[2] == 0);
    CHECK(gougelily_window_layout(&v, &w, &again) == 0 && memcmp(&made, &again, sizeof made) == 0);
    CHECK(gougelily_windowed_layout(&v, &made).strides == made.strides);
    n.counts[1] = 4;
    CHECK(window_of(&l, &n, &made) == -GOUGELILY_WINDOW);
    n.counts[1] = 0, n.firsts[1] = 5;
    CHECK(window_of(&l, &n, &made) == 0 && made.shifts[0] == 0 && made.shifts[1] == 0 && made.strides[1] == 4);
    n.firsts[1] = 6;
    CHECK(window_of(&l, &n, &made) == -GOUGELILY_WINDOW);
    n.firsts[1] = 0, n.counts[1] = 1, n.steps[1] = 0;
    CHECK(window_of(&l, &n, &made) == -GOUGELILY_WINDOW);
    n.steps[1] = 1, n.step_count = 1;
    CHECK(window_of(&l, &n, &made) == -GOUGELILY_WINDOW);
    l.strides[3] = INT64_MAX;
    CHECK(window_of(&l, &n, &made) == -GOUGELILY_REACH);
    l.stride_count = 3;
    CHECK(window_of(&l, &n, &made) == -GOUGELILY_STRIDE_COUNT);
    l.rank = 0, l.stride_count = 0;
    CHECK(gougelily_window(NULL, 0, l.sizes, 2, NULL, 0, NULL, 0, NULL, 0, NULL, 0, made.extents, made.strides,
                           made.shifts) == 0);
}

static void known_texts(void)
{
    static const char text[] = "L,P,2,2,-\nE,2,3\nO,8,1,2\nO,8,3,1\n";
    static const char output[] = "K,2\nA,0,2,2,1,3\nA,1,3,3,2,1\nB,0,2,0,0\nB,1,2,2,1\nB,2,2,4,2\nZ,3,6\n";
    const size_t length = sizeof output - 1;
    char room[100];
    memset(room, '#', sizeof room);
    CHECK(text_is(text, room, sizeof room) == (int64_t)length && memcmp(room, output, length) == 0);
    for (size_t i = length; i < sizeof room; i++)
        CHECK(room[i] == '#');
    /* Every length of the room, from none to past the output. */
    for (size_t size = 0; size <= length + 16; size++) {
        const size_t kept = size < length ? 0 : length;
        memset(room, '#', sizeof room);
        CHECK(text_is(text, room, size) == (size < length ? -GOUGELILY_ROOM : (int64_t)length));
        for (size_t i = kept; i < size; i++)
            CHECK(room[i] == '#');
    }
    CHECK(gougelily_walklist((const uint8_t *)text, sizeof text - 1, NULL, 0) == -GOUGELILY_ROOM);
    CHECK(gougelily_walklist(NULL, 0, NULL, 0) == -GOUGELILY_FORM);
    CHECK(text_is("L,P,0,0,-\nE\n", room, sizeof room) == -GOUGELILY_OPERANDS);
    CHECK(text_is("L,F,0,1,1\nE\nO,8\n", room, sizeof room) == -GOUGELILY_CHOSEN);
    CHECK(text_is("L,P,1,1,-\nE,1048577\nO,8,1\n", room, sizeof room) == -GOUGELILY_TEXT_TOTAL);
    CHECK(text_is("L,P,1,1,-\nE,1048576\nO,8,1\n", room, sizeof room) > 0);
    CHECK(text_is("L,P,1,1,-\nE,1048577\nO,8,9223372036854775807\n", room, sizeof room) == -GOUGELILY_REACH);
    CHECK(text_is("L,P,1,1,-\nE,02\nO,8,1\n", room, sizeof room) == -GOUGELILY_FORM);
}

#define MARKED(list) (memcmp(marks, list, 7) == 0)

static void known_judging(void)
{
    static const uint64_t extents[65] = {3, 2}, none[2] = {3, 0}, many[1] = {65537}, far[2] = {UINT64_MAX, 2};
    uint8_t marks[7];
    memset(marks, 7, sizeof marks);
    CHECK(judge_is(extents, 2, "V,0,3,0,1\nV,0,3,0,0\n", marks, 6) == GOUGELILY_ACCEPTED && MARKED("\1\1\1\1\1\1\7"));
    CHECK(judge_is(extents, 2, "V,1,2,1,0\n", marks, 6) == GOUGELILY_SHORT && MARKED("\0\1\0\0\1\0\7"));
    CHECK(judge_is(extents, 2, "V,0,3,0,0\nV,1,2,1,0\n", marks, 6) == GOUGELILY_DOUBLE && MARKED("\1\1\1\0\1\0\7"));
    CHECK(judge_is(extents, 2, "V,0,3,0,0\nV,0,2,2,1\n", marks, 6) == GOUGELILY_OUTSIDE && MARKED("\0\0\0\0\0\0\7"));
    CHECK(judge_is(extents, 2, "V,0,18446744073709551615,1,0\n", marks, 6) == GOUGELILY_OUTSIDE);
    CHECK(judge_is(extents, 2, "", marks, 6) == GOUGELILY_SHORT);
    CHECK(judge_is(none, 2, "", marks, 0) == GOUGELILY_ACCEPTED);
    CHECK(judge_is(none, 2, "V,0,1,0,0\n", marks, 0) == GOUGELILY_OUTSIDE);
    memset(marks, 7, sizeof marks);
    for (size_t count = 0; count <= 7; count++)
        CHECK(count == 6 || judge_is(extents, 2, "", marks, count) == -GOUGELILY_VISITS);
    CHECK(judge_is(extents, 2, "V,0,0,0,0\n", marks, 6) == -GOUGELILY_VISITS);
    CHECK(judge_is(extents, 2, "V,2,1,0,0\n", marks, 6) == -GOUGELILY_VISITS);
    CHECK(judge_is(extents, 2, "V,0,3,0,0\nV,0,3,0,1", marks, 6) == -GOUGELILY_VISITS);
    CHECK(judge_is(extents, 2, "V,0,18446744073709551616,0,0\n", marks, 6) == -GOUGELILY_VISITS);
    CHECK(judge_is(extents, 0, "", marks, 1) == -GOUGELILY_VISITS);
    CHECK(judge_is(many, 1, "", marks, 1) == -GOUGELILY_TEXT_TOTAL);
    CHECK(judge_is(far, 2, "", marks, 1) == -GOUGELILY_TOTAL);
    CHECK(judge_is(extents, 65, "", marks, 1) == -GOUGELILY_RANK);
    CHECK(MARKED("\7\7\7\7\7\7\7"));
    CHECK(gougelily_judge(none, 2, NULL, 0, NULL, 0) == GOUGELILY_ACCEPTED);
    CHECK(gougelily_judge(NULL, 0, NULL, 0, NULL, 0) == -GOUGELILY_VISITS);
}

static void known_descriptions(void)
{
    static const char text[] = "N,8,2\nS,3,4\nT,-32,8\n", behind[] = "N,8,2\nS,3,4\nT,-32,8\n......";
    struct described d, same;
    char room[27] = "..........................";
    memset(&d, 7, sizeof d), memset(&same, 7, sizeof same);
    CHECK(described_is("N,8,1\nS,3", &d) == -GOUGELILY_FORM);
    CHECK(described_is("N,8,1\nS,3\nT,8\n\n", &d) == -GOUGELILY_FORM);
    CHECK(described_is("N,8,1\nS,18446744073709551616\n", &d) == -GOUGELILY_FORM);
    CHECK(described_is("N,0,0\nS\n", &d) == -GOUGELILY_BYTE_STRIDES);
    CHECK(described_is("N,8,1\nS,3\nT,12\n", &d) == -GOUGELILY_BYTE_STRIDES);
    CHECK(described_is("N,1,2\nS,1,9223372036854775808\n", &d) == -GOUGELILY_BYTE_STRIDES);
    CHECK(memcmp(&d, &same, sizeof d) == 0);
    CHECK(described_is(text, &d) == 0 && d.size[0] == 8 && d.rank[0] == 2);
    CHECK(d.extents[0] == 4 && d.extents[1] == 3 && d.strides[0] == 1 && d.strides[1] == -4);
    for (int i = 2; i < 64; i++)
        CHECK(d.extents[i] == 0 && d.strides[i] == 0);
    CHECK(described_is("N,8,2\nS,3,4\n", &d) == 0 && d.strides[0] == 1 && d.strides[1] == 4);
    CHECK(described_is("N,16,0\nS\nT\n", &d) == 0 && d.rank[0] == 0 && d.extents[0] == 0);
    const uint64_t extents[65] = {4, 3};
    const int64_t strides[2] = {1, -4}, far[1] = {INT64_MIN};
    for (size_t length = 0; length < sizeof text - 1; length++)
        CHECK(description_of(8, extents, 2, strides, 2, room, length) == -GOUGELILY_ROOM && room[0] == '.');
    CHECK(description_of(8, extents, 2, strides, 2, room, 26) == (int64_t)sizeof text - 1 && strcmp(room, behind) == 0);
    CHECK(description_of(0, extents, 65, strides, 2, room, 0) == -GOUGELILY_BYTE_STRIDES);
    CHECK(description_of(2, extents, 65, far, 1, room, 0) == -GOUGELILY_BYTE_STRIDES);
    CHECK(description_of(1, extents, 65, far, 1, room, 0) == -GOUGELILY_RANK);
    CHECK(description_of(1, extents, 2, far, 1, room, 0) == -GOUGELILY_STRIDE_COUNT);
    CHECK(description_of(1, extents, 1, far, 1, room, 0) == -GOUGELILY_ROOM);
    CHECK(gougelily_to_numpy(1, NULL, 0, NULL, 0, NULL, 0) == -GOUGELILY_ROOM);
    CHECK(gougelily_from_numpy(NULL, 0, d.size, d.rank, d.extents, d.strides) == -GOUGELILY_FORM);
}

static void known_copies(void)
{
    static const int64_t starts[3] = {0, 0, 0}, back[2] = {5, 0}, before[2] = {-1, 0};
    static const uint8_t from[12] = "aabbccddeeff";
    struct layout l = two(2, 3, 1, 2, 3, 1, GOUGELILY_POINTWISE);
    uint8_t to[14];
    l.sizes[0] = l.sizes[1] = 2;
    memset(to, '-', sizeof to);
    CHECK(copy_of(&l, fixed, starts, 2, to, 14, from, 12) == 0 && memcmp(to, "aaddbbeeccff--", 14) == 0);
    l.strides[0] = -1, l.strides[1] = -2;
    memset(to, '-', sizeof to);
    CHECK(copy_of(&l, fixed, back, 2, to, 12, from, 12) == 0 && memcmp(to, "ffcceebbddaa--", 14) == 0);
    l.strides[0] = 1, l.strides[1] = 2;
    memset(to, '-', sizeof to);
    CHECK(copy_of(&l, fixed, starts, 2, to, 11, from, 12) == -GOUGELILY_BUFFER);
    CHECK(copy_of(&l, fixed, starts, 2, to, 12, from, 11) == -GOUGELILY_BUFFER);
    CHECK(copy_of(&l, fixed, before, 2, to, 12, from, 12) == -GOUGELILY_BUFFER);
    CHECK(copy_of(&l, fixed, starts, 1, to, 12, from, 12) == -GOUGELILY_START_COUNT);
    CHECK(copy_of(&l, fixed, starts, 3, to, 12, from, 12) == -GOUGELILY_START_COUNT);
    l.strides[1] = 1;
    CHECK(copy_of(&l, fixed, starts, 2, to, 12, from, 12) == -GOUGELILY_REPEATS);
    CHECK(copy_of(&l, fixed, starts, 2, to, 1, from, 12) == -GOUGELILY_BUFFER);
    l.sizes[1] = 1;
    CHECK(copy_of(&l, fixed, starts, 2, to, 1, from, 12) == -GOUGELILY_COPY_SIZES);
    l.sizes[0] = l.sizes[1] = 17;
    CHECK(copy_of(&l, fixed, starts, 2, to, 12, from, 12) == -GOUGELILY_COPY_SIZES);
    l.sizes[0] = l.sizes[1] = 0;
    CHECK(copy_of(&l, fixed, starts, 2, to, 12, from, 12) == -GOUGELILY_COPY_SIZES);
    l.extents[0] = 0;
    CHECK(copy_of(&l, fixed, starts, 2, to, 12, from, 12) == -GOUGELILY_COPY_SIZES);
    l.sizes[0] = l.sizes[1] = 16;
    CHECK(copy_of(&l, fixed, before, 2, to, 12, from, 12) == 0);
    CHECK(memcmp(to, "--------------", 14) == 0);
    CHECK(gougelily_copy(l.extents, 2, l.sizes, 2, l.strides, 4, 64, 32768, 4096, 6, starts, 2, NULL, 0, NULL, 0) == 0);
}

/* The bits of two doubles; of two that are not a number any. */
static int same_double(double a, double b)
{
    return (a != a && b != b) || memcmp(&a, &b, sizeof a) == 0;
}

static int summary_is(const gougelily_summary_t *y, double sum, double least, double greatest, uint64_t count,
                      uint64_t nans, uint64_t extremes)
{
    return same_double(y->sum, sum) && same_double(y->least, least) && same_double(y->greatest, greatest) &&
           y->count == count && y->nans == nans && y->extremes == extremes;
}

static void known_summaries(void)
{
    const double nan = strtod("nan", NULL), far = strtod("inf", NULL);
    const double cells[6] = {1.5, -2.0, 4.0, -0.0, nan, far};
    gougelily_summary_t y;
    memset(&y, 7, sizeof y);
    const gougelily_summary_t old = y;
    struct layout l = two(3, 2, 1, 0, 0, 0, GOUGELILY_FOLD);
    l.operands = 1, l.stride_count = 2;
    CHECK(summary_of(&l, fixed, 0, cells, 6, &y) == 0 && summary_is(&y, 7.0, -2.0, 4.0, 6, 0, 1));
    CHECK(summary_of(&l, fixed, 2, cells, 6, &y) == 0 && summary_is(&y, nan, -0.0, 4.0, 6, 2, 1));
    l.strides[0] = -1;
    CHECK(summary_of(&l, fixed, 2, cells, 3, &y) == 0 && summary_is(&y, 7.0, -2.0, 4.0, 6, 0, 1));
    l.strides[0] = 0;
    CHECK(summary_of(&l, fixed, 3, cells, 6, &y) == 0 && summary_is(&y, 0.0, -0.0, -0.0, 6, 0, 1));
    CHECK(summary_of(&l, fixed, 4, cells, 6, &y) == 0 && summary_is(&y, nan, 0.0, 0.0, 6, 6, 0));
    CHECK(summary_of(&l, fixed, 5, cells, 6, &y) == 0 && summary_is(&y, far, far, far, 6, 0, 1));
    l.extents[1] = 0;
    CHECK(summary_of(&l, fixed, -9, cells, 0, &y) == 0 && summary_is(&y, 0.0, 0.0, 0.0, 0, 0, 0));
    y = old;
    gougelily_machine_t m = fixed;
    m.live = 0;
    CHECK(summary_of(&l, m, 0, cells, 6, &y) == -GOUGELILY_RECORD);
    l.extents[1] = 2, l.strides[0] = 1;
    CHECK(summary_of(&l, fixed, 4, cells, 6, &y) == -GOUGELILY_SLICE);
    CHECK(summary_of(&l, fixed, -1, cells, 6, &y) == -GOUGELILY_SLICE);
    CHECK(summary_of(&l, fixed, INT64_MAX - 1, cells, 6, &y) == -GOUGELILY_OFFSETS);
    CHECK(summary_of(&l, fixed, INT64_MAX - 2, cells, 6, &y) == -GOUGELILY_SLICE);
    l.strides[0] = INT64_MIN;
    CHECK(summary_of(&l, fixed, 0, cells, 6, &y) == -GOUGELILY_REACH);
    l.extents[0] = UINT64_MAX;
    CHECK(summary_of(&l, fixed, 0, cells, 6, &y) == -GOUGELILY_TOTAL);
    l.stride_count = 3;
    CHECK(summary_of(&l, fixed, 0, cells, 6, &y) == -GOUGELILY_STRIDE_COUNT);
    l.rank = 65;
    CHECK(summary_of(&l, fixed, 0, cells, 6, &y) == -GOUGELILY_RANK);
    CHECK(memcmp(&y, &old, sizeof y) == 0);
    CHECK(gougelily_summarize(NULL, 0, NULL, 0, &fixed, 0, cells, 1, &y) == 0 && summary_is(&y, 1.5, 1.5, 1.5, 1, 0, 1));
    CHECK(gougelily_summarize(NULL, 0, NULL, 0, &fixed, 0, NULL, 0, &y) == -GOUGELILY_SLICE);
}

static void known_visits(void)
{
    const struct layout l = two(3, 3, 1, 10, 1, 10, GOUGELILY_POINTWISE), other = two(3, 2, 1, 10, 1, 10, GOUGELILY_POINTWISE);
    static const uint64_t firsts[6][3] = {{2, 0, 0}, {2, 0, 1}, {1, 2, 0}, {1, 2, 1}, {2, 0, 2}, {1, 2, 2}};
    const int64_t starts[2] = {5, INT64_C(1) << 50};
    gougelily_plan_t p = {0};
    gougelily_walk_t w = {0}, held;
    gougelily_visit_t v, kept;
    gougelily_student_t s;
    CHECK(plan_of(&l, &p) == 0 && p.rank == 2);
    p.blocks[0] = p.blocks[1] = 2;
    CHECK(begin_of(&p, starts, 2, &w) == 0);
    for (uint64_t n = 0; n < 6; n++) {
        memset(&v, 0x33, sizeof v);
        CHECK(visit_of(&l, &p, &w, &v) == 1);
        see(&v, &s);
        CHECK(s.number == n && s.length == firsts[n][0] && s.first.count == 2);
        CHECK(s.first.places[0] == firsts[n][1] && s.first.places[1] == firsts[n][2]);
        CHECK(v.block.offsets[1] == starts[1] + (int64_t)(firsts[n][1] + 10 * firsts[n][2]));
    }
    kept = v, held = w;
    CHECK(visit_of(&l, &p, &w, &v) == 0 && visit_of(&l, &p, &w, &v) == 0);
    CHECK(memcmp(&kept, &v, sizeof v) == 0 && memcmp(&held, &w, sizeof w) == 0);
    /* 11 on a layout that has no such row, 10 before it, 1 and 2 of the plan before the layout's rows */
    CHECK(begin_of(&p, starts, 2, &w) == 0);
    w.counters[1] = 2, w.offsets[0] += 20, w.offsets[1] += 20;
    CHECK(visit_of(&other, &p, &w, &v) == -GOUGELILY_INDEX);
    w.counters[0] = 1;
    CHECK(visit_of(&other, &p, &w, &v) == -GOUGELILY_STATE);
    p.operands = 9;
    CHECK(visit_of(&other, &p, &w, &v) == -GOUGELILY_OPERANDS);
    p.rank = 65;
    CHECK(visit_of(&other, &p, &w, &v) == -GOUGELILY_RANK);
}

static void known_sessions(void)
{
    static gougelily_session_t s, held;
    const int64_t three[2] = {0, 3}, far[3] = {INT64_C(1) << 62, 0, INT64_C(1) << 62};
    struct layout l = two(4, 4, 1, 4, 4, 1, GOUGELILY_POINTWISE_INTO);
    l.chosen = 1;
    CHECK(session_of(&l, fixed, &s) == 0 && s.weights[0] == 12 && s.weights[1] == 33 && s.costs[0] == 2 && s.costs[1] == 2);
    CHECK(s.ranks[0] == 1 && s.ranks[1] == 2 && s.ranks[64] == 2 && s.ranks[65] == 1 && s.plan.blocks[0] == 4);
    held = s;
    CHECK(join_of(&s, 4, three, 2) == 0 && s.operands == 3 && s.sizes[2] == 4 && s.strides[5] == 3 && s.chosen == 1);
    CHECK(leave_of(&s, 2) == 0 && memcmp(&s, &held, sizeof s) == 0);
    CHECK(join_of(&s, 4, three, 2) == 0 && leave_of(&s, 0) == 0 && s.chosen == 0 && s.purpose == 1 && s.sizes[1] == 4);
    CHECK(leave_of(&s, 0) == 0 && s.chosen == 0 && s.purpose == 0 && s.operands == 1);
    CHECK(leave_of(&s, 0) == -GOUGELILY_LEAVING && join_of(&s, 8, far, 3) == -GOUGELILY_STRIDE_COUNT);
    CHECK(join_of(&s, 8, far, 2) == -GOUGELILY_REACH && join_of(&s, 8, NULL, 0) == -GOUGELILY_STRIDE_COUNT);
    while (s.operands < 8)
        CHECK(join_of(&s, 8, three, 2) == 0);
    CHECK(join_of(&s, 8, far, 3) == -GOUGELILY_NINTH && leave_of(&s, 8) == -GOUGELILY_LEAVING);
    s.weights[63] = 1;
    CHECK(join_of(&s, 8, far, 3) == -GOUGELILY_STATE && leave_of(&s, 8) == -GOUGELILY_STATE);
    l.chosen = 2;
    CHECK(session_of(&l, fixed, &s) == -GOUGELILY_CHOSEN);
    l.chosen = 1, l.purpose = 9;
    CHECK(session_of(&l, fixed, &s) == 0 && s.purpose == 2 && leave_of(&s, 1) == 0 && s.purpose == 2 && s.chosen == 0);
}

/* ------------------------------------------------------------ numbers at random */

static uint64_t state = 1;

static uint64_t random64(void) /* splitmix64 */
{
    uint64_t z = state += UINT64_C(0x9e3779b97f4a7c15);
    z = (z ^ (z >> 30)) * UINT64_C(0xbf58476d1ce4e5b9);
    z = (z ^ (z >> 27)) * UINT64_C(0x94d049bb133111eb);
    return z ^ (z >> 31);
}

static uint64_t below(uint64_t n) { return random64() % n; }

/* Small, near a power of 2 or near the ends. */
static uint64_t wild(void)
{
    uint64_t z;
    switch (below(4)) {
    case 0:
        return below(9);
    case 1:
        z = (uint64_t)1 << below(64);
        return z + below(3) - 1;
    case 2:
        return below(3) - 2;
    default:
        z = random64();
        return z >> below(64);
    }
}

static int64_t signed64(uint64_t bits)
{
    int64_t z;
    memcpy(&z, &bits, sizeof z);
    return z;
}

static void make_wild(void *array, size_t places)
{
    for (size_t i = 0; i < places; i++) {
        uint64_t z = wild();
        memcpy((unsigned char *)array + 8 * i, &z, sizeof z);
    }
}

/* ------------------------------------------------------------ layouts at random */

/* Strides of a dense array whose axes lie in some order, some of them run backwards, some doubled or 0. */
static struct layout tame(void)
{
    struct layout l = {0};
    uint64_t most = below(8) == 0 ? 24 : 5;
    l.rank = below(5);
    if (below(8) == 0) /* from rank 9 on the walk has a rule of its own */
        l.rank = 5 + below(7), most = 3;
    if (below(16) == 0) /* up to the most, nearly all of extent 1 */
        l.rank = 12 + below(53), most = 1;
    l.operands = below(8) == 0 ? 1 + below(8) : 1 + below(3);
    l.purpose = below(3);
    l.chosen = below(l.operands);
    l.stride_count = l.rank * l.operands;
    for (size_t i = 0; i < l.rank; i++)
        l.extents[i] = below(20 + l.rank) == 0 ? 0 : 1 + below(most);
    for (size_t i = 0; l.rank > 11 && i < 6; i++)
        l.extents[below(l.rank)] += below(3);
    for (size_t k = 0; k < l.operands; k++) {
        int64_t *row = l.strides + k * l.rank, next = 1;
        size_t turn = below(4);
        l.sizes[k] = below(10) == 0 ? 0 : (uint64_t)1 << below(5);
        for (size_t j = 0; j < l.rank; j++) {
            size_t i = (turn & 1 ? l.rank - 1 - j : j + turn / 2) % l.rank;
            row[i] = below(8) == 0 ? 0 : below(5) == 0 ? -next : next;
            next *= (int64_t)l.extents[i] + (below(4) == 0);
        }
    }
    return l;
}

static struct layout garbage(void)
{
    struct layout l = {0};
    l.rank = below(8) == 0 ? below(70) : below(5);
    l.operands = below(8) == 0 ? below(10) : below(4);
    l.purpose = wild();
    l.chosen = below(4);
    l.stride_count = below(8) == 0 ? below(5) : l.rank * l.operands;
    make_wild(l.extents, l.rank);
    make_wild(l.sizes, l.operands);
    make_wild(l.strides, l.stride_count);
    return l;
}

/* Any record: some allowed, at the bounds, or far outside. */
static gougelily_machine_t any_machine(void)
{
    gougelily_machine_t m = {(uint64_t)16 << below(6), 4096 + below(3) - 1, 0, below(18)};
    if (below(2))
        m.cache = 4096 + below(1044481);
    m.way = m.line * (1 + below(m.cache / m.line));
    switch (below(8)) {
    case 0:
        m.line = wild();
        break;
    case 1:
        m.cache = wild();
        break;
    case 2:
        m.way = wild();
        break;
    case 3:
        m.live = wild();
        break;
    }
    return m;
}

static int machine_allowed(gougelily_machine_t m)
{
    return (m.line == 32 || m.line == 64 || m.line == 128 || m.line == 256) && m.cache >= 4096 && m.cache <= 1048576 &&
           m.way % m.line == 0 && m.way >= m.line && m.way <= m.cache && m.live >= 1 && m.live <= 16;
}

static uint64_t cells_met, blocks_met, windows_met, texts_met, lists_judged, descriptions_met, copies_made, cells_summed, sessions_met, refusals_met,
    records_refused;

/* "array places behind the counts are 0" */
static int blank(const void *array, size_t from, size_t to)
{
    static const uint64_t zeros[GOUGELILY_PLAN_STRIDES];
    return memcmp((const unsigned char *)array + 8 * from, zeros, 8 * (to - from)) == 0;
}

static int plan_blank(const gougelily_plan_t *p)
{
    for (size_t k = 0; k < p->operands; k++)
        if (!blank(p->strides, 64 * k + p->rank, 64 * k + 64))
            return 0;
    return blank(p->extents, p->rank, 64) && blank(p->blocks, p->rank, 64) && blank(p->strides, 64 * p->operands, 512);
}

/* One cell of a block: the maps are inverse there, and the offsets are those of the original index. */
static void meet(const struct layout *l, const gougelily_plan_t *p, const gougelily_block_t *b, uint64_t cell,
                 const int64_t *starts, unsigned char *seen)
{
    uint64_t counters[GOUGELILY_MAX_RANK], number = 0;
    gougelily_index_t original = {1, {2, 3, 4, 5}}, back = original;
    memcpy(counters, b->counters, sizeof counters);
    counters[0] += cell;
    CHECK(index_of(l, 1, counters, p->rank, &original) == 0 && original.count == l->rank);
    CHECK(index_of(l, 0, original.places, l->rank, &back) == 0 && back.count == p->rank);
    CHECK(blank(original.places, l->rank, 64) && blank(back.places, p->rank, 64));
    CHECK(memcmp(back.places, counters, 8 * p->rank) == 0);
    for (size_t k = 0; k < l->operands; k++) {
        int64_t offset = starts[k];
        for (size_t i = 0; i < l->rank; i++)
            offset += (int64_t)original.places[i] * l->strides[k * l->rank + i];
        CHECK(offset == b->offsets[k] + (int64_t)cell * b->strides[k]);
    }
    for (size_t i = l->rank; i-- > 0;)
        number = number * l->extents[i] + original.places[i];
    CHECK(!seen[number]++);
    cells_met++;
}

/* One call, from a state that is not refused: the blocks and the state of as many single steps. */
static int64_t call_many(const gougelily_plan_t *p, gougelily_walk_t *w)
{
    struct many m, held;
    gougelily_walk_t single = *w;
    gougelily_block_t b;
    const size_t lengths = below(MOST_BLOCKS), records = below(MOST_BLOCKS);
    const size_t offsets = records * p->operands + below(p->operands), room = lengths < records ? lengths : records;
    int64_t answer;
    make_wild(&m, sizeof m / 8);
    make_wild(&b, sizeof b / 8);
    held = m;
    answer = many_of(p, w, &m, lengths, offsets);
    CHECK(answer >= 0 && (size_t)answer <= room);
    for (size_t j = 0; j < (size_t)answer; j++) {
        CHECK(step_of(p, &single, &b) == 1 && b.length == m.lengths[j]);
        CHECK(memcmp(b.offsets, m.offsets + j * p->operands, 8 * p->operands) == 0);
        held.lengths[j] = b.length;
        memcpy(held.offsets + j * p->operands, b.offsets, 8 * p->operands);
    }
    CHECK(memcmp(&held, &m, sizeof m) == 0 && memcmp(&single, w, sizeof single) == 0);
    CHECK((size_t)answer == room || w->ended == 1);
    return answer;
}

static void walk_layout(const struct layout *l)
{
    const gougelily_layout_t v = view(l);
    gougelily_machine_t m = any_machine();
    gougelily_plan_t p = {0}, again = {0};
    gougelily_walk_t w = {0};
    gougelily_block_t b = {0};
    const int64_t starts[8] = {7, -1000, INT64_C(1) << 40, 0, 1, -1, -(INT64_C(1) << 40), 5};
    uint64_t total = 1, cells = 0;
    for (size_t i = 0; i < l->rank; i++)
        total *= l->extents[i];
    if (total > 4096)
        return;
    unsigned char *seen = calloc(total + 1, 1);
    CHECK(seen != NULL);
    make_wild(&p, sizeof p / 8);
    make_wild(&w, sizeof w / 8);
    make_wild(&b, sizeof b / 8);
    CHECK(plan_on(l, m, &p) == (machine_allowed(m) ? 0 : -GOUGELILY_RECORD));
    if (!machine_allowed(m)) {
        records_refused++;
        m = fixed;
        CHECK(plan_of(l, &p) == 0);
    }
    CHECK(p.rank <= l->rank && p.operands == l->operands && plan_blank(&p));
    CHECK(gougelily_plan_layout(&v, &m, &again) == 0 && memcmp(&p, &again, sizeof p) == 0);
    if (below(2)) /* any block sizes make a walk */
        make_wild(p.blocks, GOUGELILY_MAX_RANK);
    CHECK(begin_of(&p, starts, p.operands, &w) == 0 && w.ended == (total == 0));
    for (uint64_t calls = 0; calls < 20 && !w.ended; calls++)
        call_many(&p, &w);
    CHECK(begin_of(&p, starts, p.operands, &w) == 0);
    gougelily_walk_t visited = w;
    for (uint64_t number = 0; step_of(&p, &w, &b) == 1; number++) {
        gougelily_visit_t seen_now;
        gougelily_student_t student;
        make_wild(&seen_now, sizeof seen_now / 8);
        CHECK(visit_of(l, &p, &visited, &seen_now) == 1 && memcmp(&visited, &w, sizeof w) == 0);
        CHECK(seen_now.number == number && memcmp(&seen_now.block, &b, sizeof b) == 0 && seen_now.first.count == l->rank);
        see(&seen_now, &student);
        for (size_t k = 0; k < l->operands; k++) {
            int64_t offset = starts[k];
            for (size_t i = 0; i < l->rank; i++)
                offset += (int64_t)student.first.places[i] * l->strides[k * l->rank + i];
            CHECK(offset == b.offsets[k]);
        }
        CHECK(b.length > 0 && (p.rank == 0 ? b.length == 1 : b.counters[0] + b.length <= p.extents[0]));
        CHECK(blank(b.counters, p.rank, 64) && blank(b.offsets, p.operands, 8) && blank(b.strides, p.operands, 8));
        for (uint64_t cell = 0; cell < b.length; cell++)
            meet(l, &p, &b, cell, starts, seen);
        cells += b.length;
        blocks_met++;
    }
    CHECK(cells == total && w.ended == 1);
    free(seen);
}

/* A window of it at random, and one cell of the window. */
static void cut_layout(const struct layout *l)
{
    struct window n = {0};
    gougelily_windowed_t made;
    uint64_t x[70], y[70];
    int empty = 0;
    n.first_count = n.count_count = n.step_count = l->rank;
    for (size_t i = 0; i < l->rank; i++) {
        const uint64_t e = l->extents[i];
        const int64_t step = (int64_t)(1 + below(3)) * (below(2) ? 1 : -1);
        n.steps[i] = step, n.firsts[i] = e > 0 ? below(e) : 0;
        if (e > 0)
            n.counts[i] = 1 + (step < 0 ? n.firsts[i] / (uint64_t)-step : (e - 1 - n.firsts[i]) / (uint64_t)step);
        if (below(10) == 0)
            n.counts[i] = 0;
        empty |= n.counts[i] == 0;
    }
    make_wild(&made, sizeof made / 8);
    CHECK(window_of(l, &n, &made) == 0 && memcmp(made.extents, n.counts, 8 * l->rank) == 0);
    CHECK(blank(made.extents, l->rank, 64) && blank(made.strides, l->rank * l->operands, 512));
    CHECK(blank(made.shifts, empty ? 0 : l->operands, 8));
    for (size_t i = 0; i < l->rank && !empty; i++) {
        x[i] = below(n.counts[i]);
        y[i] = n.firsts[i] + (uint64_t)n.steps[i] * x[i];
        CHECK(y[i] < l->extents[i]);
    }
    for (size_t k = 0; k < l->operands && !empty; k++) {
        int64_t here = made.shifts[k], there = 0;
        for (size_t i = 0; i < l->rank; i++) {
            here += (int64_t)x[i] * made.strides[k * l->rank + i];
            there += (int64_t)y[i] * l->strides[k * l->rank + i];
        }
        CHECK(here == there);
    }
    windows_met++;
    if (l->rank > 0) {
        const size_t i = below(l->rank);
        if (below(2))
            n.counts[i] = l->extents[i] + 1;
        else
            n.steps[i] = 0;
        CHECK(window_of(l, &n, &made) == -GOUGELILY_WINDOW);
        refusals_met++;
    }
}

/* Any lists at all. */
static void garbage_window(const struct layout *l)
{
    struct window n;
    gougelily_windowed_t made = {0};
    make_wild(n.firsts, 70), make_wild(n.counts, 70), make_wild(n.steps, 70);
    n.first_count = below(8) ? l->rank : below(70);
    n.count_count = below(8) ? l->rank : below(70);
    n.step_count = below(8) ? l->rank : below(70);
    refusals_met += window_of(l, &n, &made) < 0;
}

/* Lines over 2 x 2 cells, most of them in the form; the marks say which cells were met. */
static void any_visits(void)
{
    static const uint64_t extents[2] = {2, 2};
    char text[160] = "", *at = text;
    uint8_t marks[4] = {9, 9, 9, 9};
    for (uint64_t lines = below(6); lines > 0; lines--)
        at += sprintf(at, "V,%d,%d,%d,%d\n", (int)below(2), 1 + (int)below(2), (int)below(2), (int)below(2));
    if (below(4) == 0 && at > text)
        text[below((uint64_t)(at - text))] = "V,0123\n"[below(7)];
    const int64_t answer = judge_is(extents, 2, text, marks, 4);
    for (int i = 0; i < 4; i++)
        CHECK(answer < 0 ? marks[i] == 9 : marks[i] <= (answer != GOUGELILY_OUTSIDE));
    CHECK(answer != GOUGELILY_ACCEPTED || memcmp(marks, "\1\1\1\1", 4) == 0);
    refusals_met += answer < 0;
    lists_judged++;
}

/* The product of the extents, at most 2^64 - 1. */
static uint64_t total_of(const uint64_t *extents, size_t rank)
{
    uint64_t total = 1;
    for (size_t i = 0; i < rank; i++)
        total = extents[i] && total > UINT64_MAX / extents[i] ? UINT64_MAX : total * extents[i];
    return total;
}

/* Any extents, and lines of any numbers. */
static void garbage_visits(void)
{
    static uint8_t marks[ROOM];
    char text[400] = "", *at = text;
    uint64_t extents[66];
    const size_t rank = below(8) ? 1 + below(3) : below(66);
    make_wild(extents, rank);
    for (size_t i = 0; i < rank && below(4); i++)
        extents[i] = 1 + extents[i] % 40;
    for (uint64_t lines = below(4); lines > 0 && rank < 4; lines--) {
        at += sprintf(at, "V,%d,%" PRIu64, (int)below(rank + 1), wild());
        for (size_t i = 0; i < rank; i++)
            at += sprintf(at, ",%" PRIu64, below(2) ? wild() : below(40));
        at += sprintf(at, "\n");
    }
    const uint64_t total = total_of(extents, rank);
    memset(marks, 9, sizeof marks);
    const size_t room = total <= ROOM && below(8) ? (size_t)total : below(100);
    const int64_t answer = judge_is(extents, rank, text, marks, room);
    if (rank <= 64 && rank > 0 && room == total)
        CHECK(answer >= 0 || answer == -GOUGELILY_VISITS);
    refusals_met += answer < 0;
    lists_judged++;
}

/* The text that the numbers of a layout make; its length. */
static size_t write_text(const struct layout *l, char *text)
{
    char *at = text;
    at += sprintf(at, "L,%c,%zu,%zu,", l->purpose > 1 ? 'F' : 'P', l->rank, l->operands);
    at += l->purpose == 0 ? sprintf(at, "-\nE") : sprintf(at, "%" PRIu64 "\nE", l->chosen);
    for (size_t i = 0; i < l->rank; i++)
        at += sprintf(at, ",%" PRIu64, l->extents[i]);
    for (size_t k = 0; k < l->operands; k++) {
        at += sprintf(at, "\nO,%" PRIu64, l->sizes[k]);
        for (size_t i = 0; i < l->rank; i++)
            at += sprintf(at, ",%" PRId64, l->strides[k * l->rank + i]);
    }
    at += sprintf(at, "\n");
    return (size_t)(at - text);
}

/* The lines of a layout that is planned: of its plan, and of the blocks of its walk. What is longer than the room is cut. */
static size_t write_lines(const struct layout *l, char *lines)
{
    const int64_t starts[GOUGELILY_MAX_OPERANDS] = {0};
    const gougelily_layout_t v = view(l);
    gougelily_plan_t p;
    gougelily_walk_t w;
    gougelily_block_t b;
    char *at = lines;
    uint64_t blocks = 0, cells = 0;
    CHECK(gougelily_plan_layout(&v, &fixed, &p) == 0 && gougelily_begin_walk(&p, starts, p.operands, &w) == 0);
    at += sprintf(at, "K,%zu\n", p.rank);
    for (size_t i = 0; i < p.rank; i++) {
        at += sprintf(at, "A,%zu,%" PRIu64 ",%" PRIu64, i, p.extents[i], p.blocks[i]);
        for (size_t k = 0; k < p.operands; k++)
            at += sprintf(at, ",%" PRId64, p.strides[64 * k + i]);
        at += sprintf(at, "\n");
    }
    for (; at - lines <= ROOM && gougelily_step_walk(&p, &w, &b) == 1; blocks++, cells += b.length) {
        at += sprintf(at, "B,%" PRIu64 ",%" PRIu64, blocks, b.length);
        for (size_t k = 0; k < p.operands; k++)
            at += sprintf(at, ",%" PRId64, b.offsets[k]);
        at += sprintf(at, "\n");
    }
    at += sprintf(at, "Z,%" PRIu64 ",%" PRIu64 "\n", blocks, cells);
    return (size_t)(at - lines);
}

/* A layout as text: the lines of its plan and its walk. Then with a byte changed. */
static void any_text(struct layout l)
{
    static char text[ROOM], room[ROOM], lines[2 * ROOM];
    l.stride_count = l.rank * l.operands;
    size_t length = write_text(&l, text);
    const int64_t checked = check_of(&l), answer = text_of(text, length, room, ROOM);
    if (length > 16384)
        CHECK(answer == -GOUGELILY_FORM);
    else if (checked < 0)
        CHECK(answer == checked);
    else if (total_of(l.extents, l.rank) > 1048576)
        CHECK(answer == -GOUGELILY_TEXT_TOTAL);
    else {
        const size_t due = write_lines(&l, lines);
        CHECK(due > ROOM ? answer == -GOUGELILY_ROOM : answer == (int64_t)due && memcmp(room, lines, due) == 0);
    }
    texts_met++;
    text[below(length)] = "LEOPF,-0189\n"[below(12)];
    refusals_met += (answer < 0) + (text_of(text, length - below(8) / 7, room, below(2) ? ROOM : below(300)) < 0);
}

/* Any numbers as a description, and what it says read again; then with a byte changed. */
static void any_description(void)
{
    struct described d, again;
    uint64_t sizes[1];
    char room[2721] = "";
    const size_t rank = below(8) ? below(5) : below(66), count = below(16) ? rank : below(66);
    uint64_t extents[66];
    int64_t strides[66];
    make_wild(extents, 66), make_wild(strides, 66), make_wild(sizes, 1);
    for (size_t i = 0; i < count; i++)
        if (below(8))
            strides[i] = (int64_t)below(100) - 50;
    const uint64_t size = below(4) ? 1 + below(16) : sizes[0];
    memset(&d, 9, sizeof d);
    const int64_t answer = description_of(size, extents, rank, strides, count, room, below(8) ? sizeof room - 1 : below(40));
    refusals_met += answer < 0;
    if (answer < 0)
        return;
    room[answer] = '\0';
    CHECK(described_is(room, &d) == 0 && d.size[0] == size && d.rank[0] == rank);
    CHECK(memcmp(d.extents, extents, rank * 8) == 0 && memcmp(d.strides, strides, rank * 8) == 0);
    room[below((uint64_t)answer)] = "NST,-0189\n"[below(10)];
    refusals_met += described_is(room, &again) < 0;
    descriptions_met++;
}

/* The next index, axis 0 quickest; 0 behind the last. */
static int next_index(const struct layout *l, uint64_t *x)
{
    for (size_t i = 0; i < l->rank; x[i++] = 0)
        if (++x[i] < l->extents[i])
            return 1;
    return 0;
}

/* Operands 0 and 1 of a layout, copied between buffers that are as long as their cells ask, or a little shorter or longer. */
static void copy_layout(struct layout l)
{
    enum { MOST_BYTES = 8192 };
    static uint8_t to[MOST_BYTES], due[MOST_BYTES], from[MOST_BYTES];
    int64_t starts[2], length[2];
    int zero = 0;
    if (l.operands < 2)
        return;
    l.operands = 2, l.stride_count = 2 * l.rank;
    l.sizes[0] = l.sizes[1] = 1 + below(16);
    for (size_t k = 0; k < 2; k++) {
        int64_t low = 0, high = 0;
        for (size_t i = 0; i < l.rank; i++) {
            const int64_t way = ((int64_t)l.extents[i] - 1) * l.strides[k * l.rank + i];
            zero |= l.extents[i] == 0;
            low += way < 0 ? way : 0, high += way > 0 ? way : 0;
        }
        starts[k] = -low + (int64_t)below(2);
        length[k] = (starts[k] + high + 1) * (int64_t)l.sizes[k] + (below(4) == 0 ? (int64_t)below(5) - 2 : 0);
        if (length[k] < 0 || length[k] > MOST_BYTES)
            return;
    }
    for (size_t i = 0; i < MOST_BYTES; i++)
        to[i] = due[i] = (uint8_t)random64(), from[i] = (uint8_t)random64();
    const gougelily_machine_t m = below(4) == 0 ? any_machine() : fixed;
    const int64_t answer = copy_of(&l, m, starts, 2, to, (size_t)length[0], from, (size_t)length[1]);
    uint64_t x[70] = {0};
    int outside = 0;
    if (!zero)
        do {
            int64_t at[2] = {starts[0], starts[1]};
            for (size_t k = 0; k < 2; k++) {
                for (size_t i = 0; i < l.rank; i++)
                    at[k] += (int64_t)x[i] * l.strides[k * l.rank + i];
                outside |= (at[k] + 1) * (int64_t)l.sizes[k] > length[k];
            }
            if (answer == 0 && !outside)
                memcpy(due + at[0] * (int64_t)l.sizes[0], from + at[1] * (int64_t)l.sizes[1], l.sizes[0]);
        } while (next_index(&l, x));
    CHECK(memcmp(to, due, MOST_BYTES) == 0);
    if (!machine_allowed(m))
        CHECK(answer == -GOUGELILY_RECORD);
    else if (zero)
        CHECK(answer == 0);
    else if (outside)
        CHECK(answer == -GOUGELILY_BUFFER);
    else
        CHECK(answer == (operand_mark(&l, 0) == GOUGELILY_MARK_NO ? 0 : -GOUGELILY_REPEATS));
    copies_made += answer == 0;
    refusals_met += answer < 0;
}

static void garbage_copy(const struct layout *l)
{
    uint8_t to[64] = {0}, from[64] = {0};
    int64_t starts[10];
    make_wild(starts, 10);
    const size_t count = below(4) == 0 ? below(10) : l->operands;
    refusals_met += copy_of(l, any_machine(), starts, count, to, below(65), from, below(65)) < 0;
}

/* Cells at random under the first operand of a layout: the summary is what the blocks of its walk give, cell by cell. */
static void any_summary(const struct layout *from)
{
    enum { MOST = 512 };
    static const double odd[8] = {0.0, -0.0, 1.0, -1.0, 5e-324, 1e308, -1e308, 0.1};
    double cells[MOST];
    struct layout l = *from;
    int64_t low = 0, high = 0;
    l.operands = 1, l.sizes[0] = 8, l.stride_count = l.rank, l.purpose = GOUGELILY_FOLD, l.chosen = 0;
    uint64_t total = 1;
    for (size_t i = 0; i < l.rank; i++) {
        total *= l.extents[i];
        if (l.strides[i] < -MOST || l.strides[i] > MOST || l.extents[i] > MOST)
            return;
        const int64_t way = l.strides[i] * (l.extents[i] > 0 ? (int64_t)l.extents[i] - 1 : 0);
        *(way < 0 ? &low : &high) += way;
    }
    if (total == 0)
        low = high = 0;
    if (high - low >= MOST || total > 4 * MOST)
        return;
    const size_t count = (size_t)(high - low) + 1;
    for (size_t i = 0; i < count; i++)
        cells[i] = below(3) ? (double)(int64_t)below(1000) / 7.0 - 60.0 : odd[below(8)];
    if (below(8) == 0)
        cells[below(count)] = strtod("nan", NULL);
    if (below(8) == 0)
        cells[below(count)] = strtod("-inf", NULL);
    const gougelily_machine_t m = below(2) ? fixed : (gougelily_machine_t){32, 4096, 4096, 1};
    gougelily_summary_t y = {9, 9, 9, 9, 9, 9}, due = {0, 0, 0, 0, 0, 0};
    gougelily_plan_t p = {0};
    gougelily_walk_t w;
    gougelily_block_t b;
    const int64_t start = -low;
    CHECK(plan_on(&l, m, &p) == 0 && gougelily_begin_walk(&p, &start, 1, &w) == 0);
    while (gougelily_step_walk(&p, &w, &b) == 1)
        for (uint64_t k = 0; k < b.length; k++) {
            const double x = cells[b.offsets[0] + (int64_t)k * b.strides[0]];
            due.sum += x, due.count++;
            if (x != x) {
                due.nans++;
                continue;
            }
            if (!due.extremes || x < due.least)
                due.least = x;
            if (!due.extremes || x > due.greatest)
                due.greatest = x;
            due.extremes = 1;
        }
    CHECK(summary_of(&l, m, start, cells, count, &y) == 0);
    CHECK(summary_is(&y, due.sum, due.least, due.greatest, due.count, due.nans, due.extremes) && y.count == total);
    if (total > 0) {
        CHECK(summary_of(&l, m, start - 1, cells, count, &y) == -GOUGELILY_SLICE);
        CHECK(summary_of(&l, m, start, cells, count - 1, &y) == -GOUGELILY_SLICE);
    }
    cells_summed += due.count;
}

/* Any numbers. A sum of very many visits takes its time: that call is one that is refused. */
static void garbage_summary(const struct layout *l)
{
    double cells[64];
    gougelily_summary_t y = {9, 9, 9, 9, 9, 9};
    for (size_t i = 0; i < 64; i++)
        cells[i] = (double)i;
    const int64_t start = total_of(l->extents, l->rank) > ROOM ? -1 : below(2) ? (int64_t)below(64) : signed64(wild());
    struct layout one_operand = *l;
    if (below(8))
        one_operand.stride_count = l->rank;
    refusals_met += summary_of(&one_operand, any_machine(), start, cells, below(65), &y) < 0;
}

/* ------------------------------------------------------------ sessions at random */

/* The layout that a session says, if its counts have room. */
static int present(const gougelily_session_t *s, struct layout *l)
{
    if (s->rank > 64 || s->operands > 8)
        return 0;
    l->rank = s->rank, l->operands = s->operands, l->stride_count = s->rank * s->operands;
    l->purpose = s->purpose, l->chosen = s->chosen;
    memcpy(l->extents, s->extents, 8 * l->rank);
    memcpy(l->sizes, s->sizes, 8 * l->operands);
    memcpy(l->strides, s->strides, 8 * l->stride_count);
    return 1;
}

/* Whether a session is one begun with its present layout; its plan is then that of planning. */
static int begun(const gougelily_session_t *s)
{
    struct layout l = {0};
    static gougelily_session_t again;
    gougelily_plan_t p = {0};
    memset(&again, 0x77, sizeof again);
    if (!present(s, &l) || session_of(&l, s->machine, &again) != 0)
        return 0;
    CHECK(plan_on(&l, s->machine, &p) == 0 && memcmp(&p, &again.plan, sizeof p) == 0);
    return memcmp(s, &again, sizeof again) == 0;
}

static void any_session(const struct layout *l)
{
    static gougelily_session_t s, before, changed;
    gougelily_machine_t m = any_machine();
    make_wild(&s, sizeof s / 8);
    CHECK(leave_of(&s, below(8)) == -GOUGELILY_STATE);
    CHECK(session_of(l, m, &s) == (machine_allowed(m) ? 0 : -GOUGELILY_RECORD));
    if (!machine_allowed(m))
        CHECK(session_of(l, fixed, &s) == 0);
    for (int call = 0; call < 3; call++) {
        before = s;
        if (below(2)) {
            int64_t strides[64];
            for (size_t i = 0; i < l->rank; i++)
                strides[i] = (int64_t)below(9) - 4;
            CHECK(join_of(&s, below(9), strides, l->rank) == (before.operands < 8 ? 0 : -GOUGELILY_NINTH));
            CHECK(memcmp(s.ranks, before.ranks, 8 * 64 * before.operands) == 0);
        } else {
            const uint64_t k = below(before.operands + 1);
            const int gone = k < before.operands && before.operands > 1;
            CHECK(leave_of(&s, k) == (gone ? 0 : -GOUGELILY_LEAVING));
            CHECK(memcmp(s.ranks, before.ranks, 8 * 64 * (gone ? k : before.operands)) == 0);
            CHECK(!gone || memcmp(s.ranks + 64 * k, before.ranks + 64 * (k + 1), 8 * 64 * (before.operands - 1 - k)) == 0);
        }
        CHECK(begun(&s));
        sessions_met++;
    }
    changed = s;
    const size_t at = below(2) ? below(80) : below(sizeof s / 8);
    make_wild((unsigned char *)&changed + 8 * at, 1);
    const int right = begun(&changed);
    const int64_t joined = join_of(&changed, 8, NULL, 0);
    CHECK((joined == -GOUGELILY_STATE) == !right);
    refusals_met += joined < 0;
}

/* A session begins with what planning takes. */
static void garbage_session(const struct layout *l)
{
    static gougelily_session_t s;
    gougelily_plan_t p;
    const gougelily_machine_t m = any_machine();
    make_wild(&s, sizeof s / 8), make_wild(&p, sizeof p / 8);
    const int64_t answer = session_of(l, m, &s);
    CHECK(answer == plan_on(l, m, &p) && (answer < 0 || memcmp(&p, &s.plan, sizeof p) == 0));
    refusals_met += answer < 0;
}

/* ------------------------------------------------------------ plans and states at random */

/* A visit, whatever layout, plan and state are: a step that is refused is refused so, and a record that is handed out is the step's. */
static void any_visit(const struct layout *l, const gougelily_plan_t *p, gougelily_walk_t w)
{
    gougelily_walk_t same = w;
    gougelily_block_t b = {0};
    gougelily_visit_t v;
    gougelily_student_t s;
    make_wild(&v, sizeof v / 8);
    see(&v, &s);
    const int64_t answer = visit_of(l, p, &w, &v), step = step_of(p, &same, &b), checked = check_of(l);
    CHECK(checked == 0 ? answer == step || (step == 1 && answer == -GOUGELILY_INDEX) : answer < 0 && answer >= checked);
    if (answer == 1) {
        CHECK(memcmp(&v.block, &b, sizeof b) == 0 && memcmp(&w, &same, sizeof w) == 0 && v.first.count == l->rank);
        see(&v, &s);
    }
    refusals_met += answer < 0;
}

/* A few steps, whatever plan and state are. */
static void steps(const gougelily_plan_t *p, gougelily_walk_t *w)
{
    gougelily_block_t b = {0};
    struct many m = {0};
    for (int i = 0; i < 4; i++) {
        gougelily_walk_t same = *w;
        int64_t answer = step_of(p, w, &b), many = many_of(p, &same, &m, 1 + below(MOST_BLOCKS), below(MOST_OFFSETS));
        CHECK(answer < 1 ? many == answer : many >= 0);
        refusals_met += answer < 0;
        CHECK((answer == -GOUGELILY_RANK) == (p->rank > 64));
        CHECK((answer == -GOUGELILY_OPERANDS) == (p->rank <= 64 && (p->operands == 0 || p->operands > 8)));
        if (answer != 1)
            return;
        CHECK(b.length > 0 && (p->rank == 0 || b.length <= p->extents[0]));
    }
}

static void garbage_plan(const struct layout *l)
{
    gougelily_plan_t p = {0};
    gougelily_walk_t w = {0};
    int64_t starts[9];
    size_t count;
    p.rank = below(6) == 0 ? wild() : below(6);
    p.operands = below(6) == 0 ? wild() : 1 + below(3);
    count = below(6) == 0 ? below(10) : p.operands < 9 ? p.operands : 9;
    make_wild(p.extents, GOUGELILY_MAX_RANK);
    make_wild(p.blocks, GOUGELILY_MAX_RANK);
    make_wild(p.strides, GOUGELILY_PLAN_STRIDES);
    if (below(2))
        for (size_t i = 0; i < GOUGELILY_MAX_RANK; i++)
            p.extents[i] %= 100;
    if (below(2))
        for (size_t i = 0; i < GOUGELILY_PLAN_STRIDES; i++)
            p.strides[i] %= 1000;
    make_wild(starts, 9);
    if (begin_of(&p, starts, count, &w) == 0)
        steps(&p, &w);
    else
        refusals_met++;
    make_wild(&w.ended, 1);
    make_wild(w.counters, below(2) || p.rank > 64 ? GOUGELILY_MAX_RANK : p.rank);
    make_wild(w.offsets, below(2) || p.operands > 8 ? GOUGELILY_MAX_OPERANDS : p.operands);
    any_visit(l, &p, w);
    steps(&p, &w);
}

/* A plan and a state as handed out, with one number changed. */
static void one_number_changed(const struct layout *l)
{
    gougelily_plan_t p = {0};
    gougelily_walk_t w = {0};
    gougelily_block_t b = {0};
    const int64_t starts[8] = {0};
    CHECK(plan_of(l, &p) == 0 && begin_of(&p, starts, p.operands, &w) == 0);
    for (uint64_t n = below(3); n > 0; n--)
        step_of(&p, &w, &b);
    const uint64_t z = wild();
    const uint64_t at = below(4) == 0 ? below(GOUGELILY_MAX_RANK) : below(p.rank + 1);
    switch (below(6)) {
    case 0:
        p.extents[at] = z;
        break;
    case 1:
        p.blocks[at] = z;
        break;
    case 2:
        p.strides[64 * below(p.operands) + at] = signed64(z);
        break;
    case 3:
        w.counters[at] = z;
        break;
    case 4:
        w.offsets[at % GOUGELILY_MAX_OPERANDS] = signed64(z);
        break;
    default:
        w.ended = z;
    }
    any_visit(l, &p, w);
    steps(&p, &w);
}

int main(int argc, char **argv)
{
    const unsigned long long rounds = argc > 1 ? strtoull(argv[1], NULL, 10) : 2000;
    make_areas();
    known_plans();
    known_walk();
    known_words();
    known_refusals();
    known_windows();
    known_texts();
    known_judging();
    known_descriptions();
    known_copies();
    known_summaries();
    known_visits();
    known_sessions();
    for (round_number = 1; round_number <= rounds; round_number++) {
        struct layout l = tame(), g = garbage();
        gougelily_plan_t p = {0};
        gougelily_index_t x = {0};
        uint64_t counters[4];
        walk_layout(&l);
        cut_layout(&l);
        garbage_window(&g);
        any_visits();
        garbage_visits();
        any_text(l);
        any_text(g);
        any_description();
        copy_layout(l);
        garbage_copy(&g);
        any_summary(&l);
        garbage_summary(&g);
        any_session(&l);
        garbage_session(&g);
        one_number_changed(&l);
        garbage_plan(below(2) ? &l : &g);
        refusals_met += plan_of(&g, &p) < 0;
        refusals_met += plan_on(&g, any_machine(), &p) < 0;
        make_wild(counters, 4);
        size_t count = below(5);
        refusals_met += index_of(&g, 0, counters, count, &x) < 0;
        refusals_met += index_of(&g, 1, counters, count, &x) < 0;
        operand_mark(&l, below(l.operands));
        refusals_met += mark_of(g.extents, g.rank, g.strides, below(8) ? g.rank : g.stride_count) < 0;
    }
    const struct {
        const char *what;
        uint64_t count;
    } met[] = {
        {"blocks", blocks_met},
        {"cells", cells_met},
        {"windows", windows_met},
        {"texts", texts_met},
        {"judged lists", lists_judged},
        {"descriptions", descriptions_met},
        {"copies", copies_made},
        {"cells summed", cells_summed},
        {"sessions", sessions_met},
        {"refusals", refusals_met + records_refused},
        {"of them of records", records_refused},
    };
    printf("%llu rounds", rounds);
    for (size_t i = 0; i < sizeof met / sizeof *met; i++)
        printf(", %" PRIu64 " %s", met[i].count, met[i].what);
    printf("\n");
    return 0;
}
