/*
 * The library's functions as a C program calls them, for programs that are run
 * under the sanitizers. Every argument that is a pointer is lent from memory of
 * its own, with guard bytes on one side and a page that cannot be touched on the
 * other. After every call its inputs are as they were, after a refusal its
 * outputs too, and its answer is one that the function may give.
 */
#define _DEFAULT_SOURCE
#include <inttypes.h>
#include <stdio.h>
#include <stdlib.h>
#include <string.h>
#include <sys/mman.h>
#include <unistd.h>

#include "gougelily.h"

/* Under valgrind's memcheck what a call is only to write is not defined before it, and is after it. */
#ifdef MEMCHECK
#include <valgrind/memcheck.h>
#define MAKE_UNDEFINED(at, size) VALGRIND_MAKE_MEM_UNDEFINED(at, size)
#define MAKE_DEFINED(at, size) VALGRIND_MAKE_MEM_DEFINED(at, size)
#define ALL_DEFINED(at, size) (VALGRIND_CHECK_MEM_IS_DEFINED(at, size) == 0)
#else
#define MAKE_UNDEFINED(at, size) 0
#define MAKE_DEFINED(at, size) 0
#define ALL_DEFINED(at, size) 1
#endif

static unsigned long long round_number;

static void fail(const char *what)
{
    fprintf(stderr, "round %llu: %s\n", round_number, what);
    exit(1);
}

#define CHECK(fact) ((fact) ? (void)0 : fail(#fact))

/* ------------------------------------------------------------ lent memory */

enum { ROOM = 65536, GUARDS = 4096, GUARD = 0xa5, MOST_AREAS = 18 };

static struct area {
    unsigned char *bytes; /* ROOM + GUARDS bytes between two pages that cannot be touched */
    unsigned char *zone;  /* the array with its guard bytes, at the first or at the last of them */
    unsigned char *array; /* in the zone, beside the page */
    size_t size;
    int blank;                         /* lent by lend_blank */
    unsigned char held[ROOM + GUARDS]; /* the zone before the call */
} areas[MOST_AREAS];

static size_t lent_now;
static int at_end;

static void make_areas(void)
{
    const size_t page = (size_t)sysconf(_SC_PAGESIZE);
    for (size_t i = 0; i < MOST_AREAS; i++) {
        unsigned char *all = mmap(NULL, ROOM + GUARDS + 2 * page, PROT_NONE, MAP_PRIVATE | MAP_ANONYMOUS, -1, 0);
        if (all == MAP_FAILED || mprotect(all + page, ROOM + GUARDS, PROT_READ | PROT_WRITE) != 0)
            fail("no memory");
        areas[i].bytes = all + page;
    }
}

static void *lend(const void *value, size_t size)
{
    struct area *a = &areas[lent_now++];
    a->zone = at_end ? a->bytes + ROOM - size : a->bytes;
    a->array = at_end ? a->zone + GUARDS : a->zone;
    a->size = size;
    a->blank = 0;
    memset(at_end ? a->zone : a->zone + size, GUARD, GUARDS);
    if (size > 0)
        memcpy(a->array, value, size);
    memcpy(a->held, a->zone, GUARDS + size);
    return a->array;
}

/* An array that a call that is served writes whole, and that no call reads. */
static void *lend_blank(const void *value, size_t size)
{
    void *array = lend(value, size);
    areas[lent_now - 1].blank = 1;
    (void)MAKE_UNDEFINED(array, size);
    return array;
}

/* After a call whose areas from `output` on may have been written if `served`. Other bytes are as they were. */
static void settle(size_t output, int served)
{
    for (size_t i = 0; i < lent_now; i++) {
        struct area *a = &areas[i];
        if (a->blank && served)
            CHECK(ALL_DEFINED(a->array, a->size));
        (void)MAKE_DEFINED(a->array, a->size);
        if (i >= output && served)
            memcpy(a->held + (a->array - a->zone), a->array, a->size);
        CHECK(memcmp(a->zone, a->held, GUARDS + a->size) == 0);
    }
    lent_now = 0;
    at_end = !at_end;
}

#define LEND(name) lend(&(name), sizeof(name))
#define BLANK(name) lend_blank(&(name), sizeof(name))
#define TAKE(name, from) memcpy(&(name), from, sizeof(name))

/* ------------------------------------------------------------ the calls */

/* Room for counts that are refused, too. */
struct layout {
    uint64_t extents[70], sizes[10], purpose, chosen;
    int64_t strides[700];
    size_t rank, operands, stride_count;
};

static gougelily_layout_t view(const struct layout *l)
{
    gougelily_layout_t v = {l->extents, l->rank,         l->sizes,   l->operands,
                            l->strides, l->stride_count, l->purpose, l->chosen};
    return v;
}

static const gougelily_machine_t fixed = GOUGELILY_FIXED_MACHINE;

static int64_t plan_on(const struct layout *l, gougelily_machine_t m, gougelily_plan_t *p)
{
    const gougelily_layout_t v = view(l);
    gougelily_plan_t by_struct = *p;
    const int64_t struct_answer = gougelily_plan_layout(&v, &m, &by_struct);
    const uint64_t *e = lend(l->extents, l->rank * 8), *z = lend(l->sizes, l->operands * 8);
    const int64_t *s = lend(l->strides, l->stride_count * 8);
    size_t *rank = BLANK(p->rank), *operands = BLANK(p->operands);
    uint64_t *extents = BLANK(p->extents), *blocks = BLANK(p->blocks);
    int64_t *strides = BLANK(p->strides);
    int64_t answer = gougelily_plan(e, l->rank, z, l->operands, s, l->stride_count, l->purpose, l->chosen, m.line,
                                    m.cache, m.way, m.live, rank, operands, extents, blocks, strides);
    CHECK(answer <= 0 && (answer >= -6 || answer == -24));
    settle(3, answer == 0);
    TAKE(p->rank, rank), TAKE(p->operands, operands), TAKE(p->extents, extents), TAKE(p->blocks, blocks);
    TAKE(p->strides, strides);
    CHECK(answer == struct_answer && memcmp(p, &by_struct, sizeof *p) == 0);
    return answer;
}

static int64_t check_of(const struct layout *l)
{
    const gougelily_layout_t v = view(l);
    const uint64_t *e = lend(l->extents, l->rank * 8), *z = lend(l->sizes, l->operands * 8);
    const int64_t *s = lend(l->strides, l->stride_count * 8);
    int64_t answer = gougelily_check_layout(e, l->rank, z, l->operands, s, l->stride_count, l->purpose, l->chosen);
    CHECK(answer <= 0 && answer >= -6 && answer == gougelily_check(&v));
    settle(3, 0);
    return answer;
}

/* The lists of a window, with room for counts that are refused. */
struct window {
    uint64_t firsts[70], counts[70];
    int64_t steps[70];
    size_t first_count, count_count, step_count;
};

static int64_t window_of(const struct layout *l, const struct window *n, gougelily_windowed_t *made)
{
    const gougelily_layout_t v = view(l);
    const gougelily_window_t lists = {n->firsts, n->counts, n->steps, n->first_count};
    const int one_rank = n->first_count == n->count_count && n->first_count == n->step_count;
    gougelily_windowed_t by_struct = *made;
    const int64_t struct_answer = one_rank ? gougelily_window_layout(&v, &lists, &by_struct) : 0;
    const uint64_t *e = lend(l->extents, l->rank * 8), *z = lend(l->sizes, l->operands * 8);
    const int64_t *s = lend(l->strides, l->stride_count * 8);
    const uint64_t *f = lend(n->firsts, n->first_count * 8), *c = lend(n->counts, n->count_count * 8);
    const int64_t *d = lend(n->steps, n->step_count * 8);
    uint64_t *extents = BLANK(made->extents);
    int64_t *strides = BLANK(made->strides), *shifts = BLANK(made->shifts);
    int64_t answer = gougelily_window(e, l->rank, z, l->operands, s, l->stride_count, f, n->first_count, c,
                                      n->count_count, d, n->step_count, extents, strides, shifts);
    CHECK(answer == 0 || answer == -15 || (answer <= -1 && answer >= -6 && answer != -4));
    settle(6, answer == 0);
    TAKE(made->extents, extents), TAKE(made->strides, strides), TAKE(made->shifts, shifts);
    CHECK(!one_rank || (answer == struct_answer && memcmp(made, &by_struct, sizeof *made) == 0));
    return answer;
}

static int64_t index_of(const struct layout *l, int original, const uint64_t *counters, size_t count,
                        gougelily_index_t *x)
{
    const gougelily_layout_t v = view(l);
    gougelily_index_t by_struct = *x;
    const int64_t struct_answer =
        (original ? gougelily_original_index_of : gougelily_plan_index_of)(&v, counters, count, &by_struct);
    const uint64_t *e = lend(l->extents, l->rank * 8), *z = lend(l->sizes, l->operands * 8);
    const int64_t *s = lend(l->strides, l->stride_count * 8);
    const uint64_t *c = lend(counters, count * 8);
    size_t *number = BLANK(x->count);
    uint64_t *places = BLANK(x->places);
    int64_t answer = (original ? gougelily_original_index : gougelily_plan_index)(
        e, l->rank, z, l->operands, s, l->stride_count, l->purpose, l->chosen, c, count, number, places);
    CHECK(answer <= 0 && (answer >= -6 || answer == -11));
    settle(4, answer == 0);
    TAKE(x->count, number), TAKE(x->places, places);
    CHECK(answer == struct_answer && memcmp(x, &by_struct, sizeof *x) == 0);
    return answer;
}

static int64_t begin_of(const gougelily_plan_t *p, const int64_t *starts, size_t count, gougelily_walk_t *w)
{
    gougelily_walk_t by_struct = *w;
    const int64_t struct_answer = gougelily_begin_walk(p, starts, count, &by_struct);
    const uint64_t *e = LEND(p->extents), *b = LEND(p->blocks);
    const int64_t *s = LEND(p->strides), *z = lend(starts, count * 8);
    uint64_t *ended = BLANK(w->ended), *counters = BLANK(w->counters);
    int64_t *offsets = BLANK(w->offsets);
    int64_t answer = gougelily_begin(p->rank, p->operands, e, b, s, z, count, ended, counters, offsets);
    CHECK(answer <= 0 && answer >= -9 && answer != -3 && answer != -4 && answer != -7);
    settle(4, answer == 0);
    TAKE(w->ended, ended), TAKE(w->counters, counters), TAKE(w->offsets, offsets);
    CHECK(answer == struct_answer && memcmp(w, &by_struct, sizeof *w) == 0);
    return answer;
}

static int64_t step_of(const gougelily_plan_t *p, gougelily_walk_t *w, gougelily_block_t *k)
{
    gougelily_walk_t walk = *w;
    gougelily_block_t by_struct = *k;
    const int64_t struct_answer = gougelily_step_walk(p, &walk, &by_struct);
    const uint64_t *e = LEND(p->extents), *b = LEND(p->blocks);
    const int64_t *s = LEND(p->strides);
    uint64_t *ended = LEND(w->ended), *counters = LEND(w->counters);
    int64_t *offsets = LEND(w->offsets);
    uint64_t *block_counters = BLANK(k->counters), *length = BLANK(k->length);
    int64_t *block_offsets = BLANK(k->offsets), *block_strides = BLANK(k->strides);
    int64_t answer = gougelily_step(p->rank, p->operands, e, b, s, ended, counters, offsets, block_counters, length,
                                    block_offsets, block_strides);
    CHECK(answer == 1 || answer == 0 || answer == -1 || answer == -2 || answer == -10);
    settle(3, answer == 1);
    TAKE(w->ended, ended), TAKE(w->counters, counters), TAKE(w->offsets, offsets);
    TAKE(k->counters, block_counters), TAKE(k->length, length);
    TAKE(k->offsets, block_offsets), TAKE(k->strides, block_strides);
    CHECK(answer == struct_answer && memcmp(w, &walk, sizeof walk) == 0 && memcmp(k, &by_struct, sizeof *k) == 0);
    return answer;
}

static int64_t visit_of(const struct layout *l, const gougelily_plan_t *p, gougelily_walk_t *w, gougelily_visit_t *v)
{
    const gougelily_layout_t of = view(l);
    gougelily_walk_t walk = *w;
    gougelily_visit_t by_struct = *v;
    const int64_t struct_answer = gougelily_next_visit(&of, p, &walk, &by_struct);
    const uint64_t *x = lend(l->extents, l->rank * 8), *z = lend(l->sizes, l->operands * 8);
    const int64_t *d = lend(l->strides, l->stride_count * 8);
    const uint64_t *e = LEND(p->extents), *b = LEND(p->blocks);
    const int64_t *s = LEND(p->strides);
    uint64_t *ended = LEND(w->ended), *counters = LEND(w->counters);
    int64_t *offsets = LEND(w->offsets);
    uint64_t *number = BLANK(v->number), *block_counters = BLANK(v->block.counters), *length = BLANK(v->block.length);
    int64_t *block_offsets = BLANK(v->block.offsets), *block_strides = BLANK(v->block.strides);
    size_t *count = BLANK(v->first.count);
    uint64_t *places = BLANK(v->first.places);
    int64_t answer = gougelily_visit(x, l->rank, z, l->operands, d, l->stride_count, l->purpose, l->chosen, p->rank,
                                     p->operands, e, b, s, ended, counters, offsets, number, block_counters, length,
                                     block_offsets, block_strides, count, places);
    CHECK(answer == 1 || answer == 0 || (answer < 0 && answer >= -6) || answer == -10 || answer == -11);
    settle(6, answer == 1);
    TAKE(w->ended, ended), TAKE(w->counters, counters), TAKE(w->offsets, offsets);
    TAKE(v->number, number), TAKE(v->block.counters, block_counters), TAKE(v->block.length, length);
    TAKE(v->block.offsets, block_offsets), TAKE(v->block.strides, block_strides);
    TAKE(v->first.count, count), TAKE(v->first.places, places);
    CHECK(answer == struct_answer && memcmp(w, &walk, sizeof walk) == 0 && memcmp(v, &by_struct, sizeof *v) == 0);
    return answer;
}

/* Both views are what the record says, over memory that held anything. */
static void see(const gougelily_visit_t *v, gougelily_student_t *student)
{
    gougelily_block_t block, by_struct;
    gougelily_student_t student_by_struct;
    const size_t count = v->first.count < 64 ? v->first.count : 64;
    memset(&block, 0x77, sizeof block), memset(student, 0x77, sizeof *student);
    const uint64_t *c = LEND(v->block.counters), *x = LEND(v->first.places);
    const int64_t *o = LEND(v->block.offsets), *d = LEND(v->block.strides);
    uint64_t *counters = BLANK(block.counters), *length = BLANK(block.length);
    int64_t *offsets = BLANK(block.offsets), *strides = BLANK(block.strides);
    uint64_t *number = BLANK(student->number), *run = BLANK(student->length), *places = BLANK(student->first.places);
    size_t *places_count = BLANK(student->first.count);
    CHECK(gougelily_engineer(v->number, c, v->block.length, o, d, v->first.count, x, counters, length, offsets, strides) == 0);
    CHECK(gougelily_student(v->number, c, v->block.length, o, d, v->first.count, x, number, run, places_count, places) == 0);
    settle(4, 1);
    TAKE(block.counters, counters), TAKE(block.length, length), TAKE(block.offsets, offsets), TAKE(block.strides, strides);
    TAKE(student->number, number), TAKE(student->length, run), TAKE(student->first.count, places_count);
    TAKE(student->first.places, places);
    CHECK(gougelily_engineer_view(v, &by_struct) == 0 && memcmp(&block, &by_struct, sizeof block) == 0);
    CHECK(gougelily_student_view(v, &student_by_struct) == 0 && memcmp(student, &student_by_struct, sizeof *student) == 0);
    CHECK(memcmp(&block, &v->block, sizeof block) == 0);
    CHECK(student->number == v->number && student->length == v->block.length);
    CHECK(student->first.count == count && memcmp(student->first.places, v->first.places, 8 * count) == 0);
    for (size_t i = count; i < GOUGELILY_MAX_RANK; i++)
        CHECK(student->first.places[i] == 0);
}

/* Room for some blocks, whatever the number of operands. */
enum { MOST_BLOCKS = 16, MOST_OFFSETS = MOST_BLOCKS * GOUGELILY_MAX_OPERANDS };

struct many {
    uint64_t lengths[MOST_BLOCKS];
    int64_t offsets[MOST_OFFSETS];
};

static int64_t many_of(const gougelily_plan_t *p, gougelily_walk_t *w, struct many *m, size_t lengths, size_t offsets)
{
    gougelily_walk_t walk = *w;
    struct many by_struct = *m;
    const int64_t struct_answer = gougelily_step_walk_many(p, &walk, by_struct.lengths, lengths, by_struct.offsets, offsets);
    const uint64_t *e = LEND(p->extents), *b = LEND(p->blocks);
    const int64_t *s = LEND(p->strides);
    uint64_t *ended = LEND(w->ended), *counters = LEND(w->counters);
    int64_t *walk_offsets = LEND(w->offsets);
    uint64_t *block_lengths = lend(m->lengths, lengths * 8);
    int64_t *block_offsets = lend(m->offsets, offsets * 8);
    int64_t answer = gougelily_step_many(p->rank, p->operands, e, b, s, ended, counters, walk_offsets, block_lengths,
                                         lengths, block_offsets, offsets);
    CHECK(answer == -1 || answer == -2 || answer == -10 || (answer >= 0 && (uint64_t)answer <= lengths));
    settle(3, answer > 0);
    TAKE(w->ended, ended), TAKE(w->counters, counters), TAKE(w->offsets, walk_offsets);
    memcpy(m->lengths, block_lengths, lengths * 8);
    memcpy(m->offsets, block_offsets, offsets * 8);
    CHECK(answer == struct_answer && memcmp(w, &walk, sizeof walk) == 0 && memcmp(m, &by_struct, sizeof *m) == 0);
    return answer;
}

static int64_t mark_of(const uint64_t *extents, size_t rank, const int64_t *strides, size_t count)
{
    const uint64_t *e = lend(extents, rank * 8);
    const int64_t *s = lend(strides, count * 8);
    int64_t answer = gougelily_repeat_mark(e, rank, s, count);
    CHECK(answer == -1 || answer == -3 || answer == -5 || answer == -6 || (answer >= 0 && answer <= GOUGELILY_MARK_UNDECIDED));
    settle(2, 0);
    return answer;
}

static int64_t text_of(const void *text, size_t length, char *room, size_t size)
{
    const uint8_t *t = lend(text, length);
    uint8_t *r = lend(room, size);
    int64_t answer = gougelily_walklist(t, length, r, size);
    CHECK(answer <= (int64_t)size && answer >= -14 && answer != -3 && (answer >= -6 || answer <= -12));
    settle(1, answer >= 0);
    if (size > 0)
        memcpy(room, r, size);
    return answer;
}

static int64_t judge_of(const uint64_t *extents, size_t rank, const void *text, size_t length, uint8_t *marks,
                        size_t count)
{
    const uint64_t *e = lend(extents, rank * 8);
    const uint8_t *t = lend(text, length);
    uint8_t *m = lend_blank(marks, count);
    int64_t answer = gougelily_judge(e, rank, t, length, m, count);
    CHECK(answer <= GOUGELILY_OUTSIDE && (answer >= -1 || answer == -5 || answer == -13 || answer == -23));
    settle(2, answer >= 0);
    if (count > 0)
        memcpy(marks, m, count);
    return answer;
}

/* What a description says: the memory handed out is `d`'s. */
struct described {
    uint64_t size[1], extents[64];
    int64_t strides[64];
    size_t rank[1];
};

static int64_t described_of(const void *text, size_t length, struct described *d)
{
    const uint8_t *t = lend(text, length);
    uint64_t *size = BLANK(d->size), *extents = BLANK(d->extents);
    int64_t *strides = BLANK(d->strides);
    size_t *rank = BLANK(d->rank);
    const int64_t answer = gougelily_from_numpy(t, length, size, rank, extents, strides);
    CHECK(answer == 0 || answer == -1 || answer == -12 || answer == -19);
    settle(1, answer >= 0);
    TAKE(d->size, size), TAKE(d->rank, rank), TAKE(d->extents, extents), TAKE(d->strides, strides);
    return answer;
}

static int64_t description_of(uint64_t size, const uint64_t *extents, size_t rank, const int64_t *strides, size_t count,
                              char *room, size_t length)
{
    const uint64_t *e = lend(extents, rank * 8);
    const int64_t *s = lend(strides, count * 8);
    uint8_t *r = lend(room, length);
    const int64_t answer = gougelily_to_numpy(size, e, rank, s, count, r, length);
    CHECK(answer <= (int64_t)length && (answer >= -1 || answer == -3 || answer == -14 || answer == -19));
    settle(2, answer >= 0);
    if (length > 0)
        memcpy(room, r, length);
    return answer;
}

static int64_t copy_of(const struct layout *l, gougelily_machine_t m, const int64_t *starts, size_t count, uint8_t *to,
                       size_t to_len, const uint8_t *from, size_t from_len)
{
    static uint8_t by_struct[ROOM];
    const gougelily_layout_t v = view(l);
    if (to_len > 0)
        memcpy(by_struct, to, to_len);
    const int64_t struct_answer = gougelily_copy_cells(&v, &m, starts, count, by_struct, to_len, from, from_len);
    const uint64_t *e = lend(l->extents, l->rank * 8), *z = lend(l->sizes, l->operands * 8);
    const int64_t *s = lend(l->strides, l->stride_count * 8), *o = lend(starts, count * 8);
    const uint8_t *f = lend(from, from_len);
    uint8_t *t = lend(to, to_len);
    int64_t answer = gougelily_copy(e, l->rank, z, l->operands, s, l->stride_count, m.line, m.cache, m.way, m.live, o,
                                    count, t, to_len, f, from_len);
    CHECK(answer == 0 || answer == -24 || (answer <= -16 && answer >= -18) ||
          (answer < 0 && answer >= -9 && answer != -4 && answer != -7));
    settle(5, answer == 0);
    if (to_len > 0)
        memcpy(to, t, to_len);
    CHECK(answer == struct_answer && (to_len == 0 || memcmp(to, by_struct, to_len) == 0));
    return answer;
}

static int64_t summary_of(const struct layout *l, gougelily_machine_t m, int64_t start, const double *cells, size_t count,
                          gougelily_summary_t *y)
{
    gougelily_summary_t by_struct = *y;
    const int64_t struct_answer =
        gougelily_summarize(l->extents, l->rank, l->strides, l->stride_count, &m, start, cells, count, &by_struct);
    const uint64_t *e = lend(l->extents, l->rank * 8);
    const int64_t *s = lend(l->strides, l->stride_count * 8);
    const double *c = lend(cells, count * 8);
    double *sum = BLANK(y->sum), *least = BLANK(y->least), *greatest = BLANK(y->greatest);
    uint64_t *n = BLANK(y->count), *nans = BLANK(y->nans), *extremes = BLANK(y->extremes);
    int64_t answer = gougelily_summary(e, l->rank, s, l->stride_count, m.line, m.cache, m.way, m.live, start, c, count,
                                       sum, least, greatest, n, nans, extremes);
    CHECK(answer == 0 || answer == -1 || answer == -3 || answer == -24 || answer == -5 || answer == -6 || answer == -9 ||
          answer == -22);
    settle(3, answer == 0);
    TAKE(y->sum, sum), TAKE(y->least, least), TAKE(y->greatest, greatest);
    TAKE(y->count, n), TAKE(y->nans, nans), TAKE(y->extremes, extremes);
    CHECK(answer == struct_answer && memcmp(y, &by_struct, sizeof *y) == 0);
    return answer;
}

/* A session but for its extents, each part lent by itself. */
struct lent_session {
    uint64_t *purpose, *chosen, *machine, *sizes, *ranks, *weights, *costs, *plan_extents, *blocks;
    size_t *rank, *operands, *plan_counts;
    int64_t *strides, *plan_strides;
};

static struct lent_session lend_session(const gougelily_session_t *s)
{
    const size_t counts[2] = {s->plan.rank, s->plan.operands};
    struct lent_session at;
    at.purpose = LEND(s->purpose), at.chosen = LEND(s->chosen), at.machine = LEND(s->machine);
    at.rank = LEND(s->rank), at.operands = LEND(s->operands), at.sizes = LEND(s->sizes), at.strides = LEND(s->strides);
    at.ranks = LEND(s->ranks), at.weights = LEND(s->weights), at.costs = LEND(s->costs);
    at.plan_counts = LEND(counts), at.plan_extents = LEND(s->plan.extents), at.blocks = LEND(s->plan.blocks);
    at.plan_strides = LEND(s->plan.strides);
    return at;
}

static void take_session(gougelily_session_t *s, const struct lent_session *at)
{
    TAKE(s->purpose, at->purpose), TAKE(s->chosen, at->chosen), TAKE(s->machine, at->machine);
    TAKE(s->rank, at->rank), TAKE(s->operands, at->operands), TAKE(s->sizes, at->sizes), TAKE(s->strides, at->strides);
    TAKE(s->ranks, at->ranks), TAKE(s->weights, at->weights), TAKE(s->costs, at->costs);
    TAKE(s->plan.rank, at->plan_counts), TAKE(s->plan.operands, at->plan_counts + 1);
    TAKE(s->plan.extents, at->plan_extents), TAKE(s->plan.blocks, at->blocks), TAKE(s->plan.strides, at->plan_strides);
}

/* The function on the struct did the same. */
static void same_session(int64_t answer, const gougelily_session_t *s, int64_t struct_answer,
                         const gougelily_session_t *by_struct)
{
    CHECK(answer == struct_answer && memcmp(s, by_struct, sizeof *s) == 0);
}

static int64_t session_of(const struct layout *l, gougelily_machine_t m, gougelily_session_t *s)
{
    const gougelily_layout_t v = view(l);
    gougelily_session_t by_struct = *s;
    const int64_t struct_answer = gougelily_session_begin(&v, &m, &by_struct);
    const uint64_t *e = lend(l->extents, l->rank * 8), *z = lend(l->sizes, l->operands * 8);
    const int64_t *t = lend(l->strides, l->stride_count * 8);
    uint64_t *extents = LEND(s->extents);
    const struct lent_session at = lend_session(s);
    const int64_t answer = gougelily_begin_session(
        e, l->rank, z, l->operands, t, l->stride_count, l->purpose, l->chosen, m.line, m.cache, m.way, m.live, at.purpose,
        at.chosen, at.machine, at.rank, at.operands, extents, at.sizes, at.strides, at.ranks, at.weights, at.costs,
        at.plan_counts, at.plan_extents, at.blocks, at.plan_strides);
    settle(3, answer == 0);
    take_session(s, &at), TAKE(s->extents, extents);
    same_session(answer, s, struct_answer, &by_struct);
    return answer;
}

static int64_t join_of(gougelily_session_t *s, uint64_t size, const int64_t *strides, size_t count)
{
    gougelily_session_t by_struct = *s;
    const int64_t struct_answer = gougelily_session_join(&by_struct, size, strides, count);
    const uint64_t *extents = LEND(s->extents);
    const int64_t *t = lend(strides, count * 8);
    const struct lent_session at = lend_session(s);
    const int64_t answer =
        gougelily_join_session(at.purpose, at.chosen, at.machine, at.rank, at.operands, extents, at.sizes, at.strides, at.ranks,
                               at.weights, at.costs, at.plan_counts, at.plan_extents, at.blocks, at.plan_strides, size, t, count);
    settle(2, answer == 0);
    take_session(s, &at);
    same_session(answer, s, struct_answer, &by_struct);
    return answer;
}

static int64_t leave_of(gougelily_session_t *s, uint64_t operand)
{
    gougelily_session_t by_struct = *s;
    const int64_t struct_answer = gougelily_session_leave(&by_struct, operand);
    const uint64_t *extents = LEND(s->extents);
    const struct lent_session at = lend_session(s);
    const int64_t answer =
        gougelily_leave_session(at.purpose, at.chosen, at.machine, at.rank, at.operands, extents, at.sizes, at.strides, at.ranks,
                                at.weights, at.costs, at.plan_counts, at.plan_extents, at.blocks, at.plan_strides, operand);
    settle(1, answer == 0);
    take_session(s, &at);
    same_session(answer, s, struct_answer, &by_struct);
    return answer;
}
