/*
 * How much stack each entry of the library takes at most, on the layouts that
 * take most: every entry runs on a stack of its own that is painted before the
 * call, and what is no longer painted afterwards was used. It prints a table and
 * ends with status 1 if an entry takes more than 256 KiB.
 */
#define _GNU_SOURCE
#include <inttypes.h>
#include <pthread.h>
#include <stdio.h>
#include <stdlib.h>
#include <string.h>
#include <sys/mman.h>

#include "gougelily.h"

enum { STACK = 4 << 20, LIMIT = 256 << 10, PAINT = 0x5a };

static unsigned char *stack;

static void end(const char *what)
{
    fprintf(stderr, "stack: %s\n", what);
    exit(2);
}

/* ------------------------------------------------------------ the layouts */

/* Cutting keeps one axis after another, as deep as it can: all strides are alike. */
static uint64_t deep_extents[58], wide_extents[64];
static int64_t deep_strides[58 * 8], wide_strides[64 * 8], forwards[64];
static const uint64_t sizes[8] = {8, 8, 8, 8, 8, 8, 8, 8};

static gougelily_layout_t deep, wide, transposed;
static const uint64_t square[2] = {1000, 1000};
static const int64_t rows[4] = {1, 1000, 1000, 1};

/* The same with a listing that fits the room. */
static char text[16384], room[65536];

static void make_layouts(void)
{
    for (int i = 0; i < 58; i++)
        deep_extents[i] = i == 57 ? 65 : 2;
    for (int i = 0; i < 58 * 8; i++)
        deep_strides[i] = 512;
    for (int i = 0; i < 64; i++)
        wide_extents[i] = i % 8 < 5 ? 2 : 1;
    for (int i = 0; i < 64; i++)
        forwards[i] = 1;
    for (int k = 0; k < 8; k++)
        for (int i = 0; i < 64; i++)
            wide_strides[k * 64 + i] = (int64_t)1 << (i * (k + 3) % 40);
    deep = (gougelily_layout_t){deep_extents, 58, sizes, 8, deep_strides, 58 * 8, GOUGELILY_FOLD, 0};
    wide = (gougelily_layout_t){wide_extents, 64, sizes, 8, wide_strides, 64 * 8, GOUGELILY_FOLD, 7};
    transposed = (gougelily_layout_t){square, 2, sizes, 2, rows, 4, GOUGELILY_POINTWISE_INTO, 0};

    char *at = text + sprintf(text, "L,F,10,8,0\nE");
    for (int i = 0; i < 10; i++)
        at += sprintf(at, ",%d", i == 0 ? 65 : 2);
    for (int k = 0; k < 8; k++) {
        at += sprintf(at, "\nO,8");
        for (int i = 0; i < 10; i++)
            at += sprintf(at, ",512");
    }
    sprintf(at, "\n");
}

/* ------------------------------------------------------------ the entries */

static const gougelily_machine_t fixed = GOUGELILY_FIXED_MACHINE;
static gougelily_plan_t plan;
static gougelily_walk_t walk;
static gougelily_block_t block;
static gougelily_index_t told;
static gougelily_windowed_t cut;
static gougelily_visit_t seen;
static gougelily_student_t shown;
static gougelily_session_t session;
static int64_t answer;
static uint64_t lengths[64];
static int64_t offsets[512];
static const int64_t starts[8];
static const uint64_t zeros[64];

static void plan_deep(void) { answer = gougelily_plan_layout(&deep, &fixed, &plan); }
static void plan_transposed(void) { answer = gougelily_plan_layout(&transposed, &fixed, &plan); }
static void plan_wide(void) { answer = gougelily_plan_layout(&wide, &fixed, &plan); }
static void check(void) { answer = gougelily_check(&wide); }
static void window(void)
{
    const gougelily_window_t all = {zeros, wide_extents, forwards, 64};
    answer = gougelily_window_layout(&wide, &all, &cut);
}
static void begin(void) { answer = gougelily_begin_walk(&plan, starts, plan.operands, &walk); }
static void step(void) { answer = gougelily_step_walk(&plan, &walk, &block); }
static void find(void) { answer = gougelily_original_index_of(&wide, zeros, plan.rank, &told); }
static void find_back(void) { answer = gougelily_plan_index_of(&wide, zeros, 64, &told); }
/* The exact test of 4,096 cells, with its two lists. */
static void mark(void)
{
    static const uint64_t folded_extents[2] = {64, 64};
    static const int64_t folded_strides[2] = {3, 5};
    answer = gougelily_repeat_mark(folded_extents, 2, folded_strides, 2);
}
static void list(void)
{
    answer = gougelily_walklist((const uint8_t *)text, strlen(text), (uint8_t *)room, sizeof room);
}
/* 64 axes, and a visit that names them all. */
static void judged(void)
{
    static uint64_t ones[64];
    static uint8_t mark[1];
    static char visit[8 + 2 * 64] = "V,63,1";
    for (int i = 0; i < 64; i++)
        ones[i] = 1, memcpy(visit + 6 + 2 * i, ",0", 2);
    visit[6 + 2 * 64] = '\n';
    answer = gougelily_judge(ones, 64, (const uint8_t *)visit, 7 + 2 * 64, mark, 1);
}
/* 64 axes, read and written again. */
static void described(void)
{
    static char view[16 + 4 * 64] = "N,8,64\nS";
    static uint64_t size[1], axes[64];
    static int64_t steps[64];
    static size_t count[1];
    char *at = view + 8;
    for (int i = 0; i < 64; i++, at += 2)
        memcpy(at, ",1", 2);
    memcpy(at, "\nT", 2), at += 2;
    for (int i = 0; i < 64; i++, at += 2)
        memcpy(at, ",8", 2);
    *at++ = '\n';
    answer = gougelily_from_numpy((const uint8_t *)view, (size_t)(at - view), size, count, axes, steps);
}
static void description(void)
{
    static uint64_t axes[64];
    static int64_t steps[64];
    answer = gougelily_to_numpy(8, axes, 64, steps, 64, (uint8_t *)room, sizeof room);
}

/* A transpose whose mark is told by the exact test, with its two lists. */
static void copied(void)
{
    static const uint64_t extents[2] = {64, 64}, wide[2] = {16, 16};
    static const int64_t turned[4] = {65, 64, 64, 1};
    static uint8_t to[8192 * 16], from[4096 * 16];
    answer = gougelily_copy(extents, 2, wide, 2, turned, 4, fixed.line, fixed.cache, fixed.way, fixed.live, starts, 2, to,
                            sizeof to, from, sizeof from);
}
/* 64 axes, 20 of them with two indices, which the source has in the other order. */
static void copied_deep(void)
{
    static const uint64_t one[2] = {1, 1};
    static uint64_t extents[64];
    static int64_t turned[128];
    static uint8_t to[1 << 20], from[1 << 20];
    for (int i = 0; i < 64; i++)
        extents[i] = i < 20 ? 2 : 1;
    for (int i = 0; i < 20; i++)
        turned[i] = 1 << i, turned[64 + i] = 1 << (19 - i);
    answer = gougelily_copy(extents, 64, one, 2, turned, 128, fixed.line, fixed.cache, fixed.way, fixed.live, starts, 2,
                            to, sizeof to, from, sizeof from);
}

/* 16 axes of one operand, cut as deep as so few cells let it. */
static void summarized(void)
{
    enum { AXES = 16 };
    static gougelily_summary_t summary;
    static double cells[512 * (64 + AXES) + 1];
    answer = gougelily_summarize(deep.extents + 58 - AXES, AXES, deep.strides, AXES, &fixed, 0, cells,
                                 sizeof cells / sizeof cells[0], &summary);
}
static void visit(void) { answer = gougelily_next_visit(&wide, &plan, &walk, &seen); }
static void engineer(void) { answer = gougelily_engineer_view(&seen, &block); }
static void student(void) { answer = gougelily_student_view(&seen, &shown); }
/* The 58 axes again: begun with 7 operands, an eighth joins, and the first one leaves. */
static void session_begins(void)
{
    gougelily_layout_t seven = deep;
    seven.operands = 7, seven.stride_count = 58 * 7;
    answer = gougelily_session_begin(&seven, &fixed, &session);
}
static void session_joined(void) { answer = gougelily_session_join(&session, 8, deep_strides, 58); }
static void session_left(void) { answer = gougelily_session_leave(&session, 0); }
static void many(void)
{
    answer = gougelily_step_many(plan.rank, plan.operands, plan.extents, plan.blocks, plan.strides, &walk.ended,
                                 walk.counters, walk.offsets, lengths, 64, offsets, 512);
}
static void nothing(void) { answer = 0; }

/* Entries that take and return values, by the C functions of crate parts. */
uint64_t parts_plan(const uint64_t *, size_t, const uint64_t *, size_t, const int64_t *, size_t, uint64_t, uint64_t,
                    uint64_t, uint64_t, uint64_t, uint64_t, size_t[1], size_t[1],
                    uint64_t[64], uint64_t[64], int64_t[512]);
int64_t parts_step(size_t, size_t, const uint64_t[64], const uint64_t[64], const int64_t[512], uint64_t[1],
                   uint64_t[64], int64_t[8], uint64_t[64], uint64_t[1], int64_t[8], int64_t[8]);
int64_t parts_step_lent(size_t, size_t, const uint64_t[64], const uint64_t[64], const int64_t[512], uint64_t[1],
                        uint64_t[64], int64_t[8], uint64_t[64], uint64_t[1], int64_t[8], int64_t[8]);

static void plan_value(void)
{
    answer = -(int64_t)parts_plan(deep.extents, deep.rank, deep.sizes, deep.operands, deep.strides, deep.stride_count,
                                  deep.purpose, deep.chosen, fixed.line, fixed.cache, fixed.way, fixed.live, &plan.rank,
                                  &plan.operands, plan.extents, plan.blocks, plan.strides);
}
static void step_value(void)
{
    answer = parts_step(plan.rank, plan.operands, plan.extents, plan.blocks, plan.strides, &walk.ended, walk.counters,
                        walk.offsets, block.counters, &block.length, block.offsets, block.strides);
}
static void step_lent(void)
{
    answer = parts_step_lent(plan.rank, plan.operands, plan.extents, plan.blocks, plan.strides, &walk.ended,
                             walk.counters, walk.offsets, block.counters, &block.length, block.offsets, block.strides);
}

/* ------------------------------------------------------------ measuring */

static void *run(void *call)
{
    (*(void (**)(void))call)();
    return NULL;
}

/* Bytes of stack that a call takes, with those of a thread that does nothing. */
static size_t used(void (*call)(void))
{
    pthread_attr_t attributes;
    pthread_t thread;
    memset(stack, PAINT, STACK);
    if (pthread_attr_init(&attributes) != 0 || pthread_attr_setstack(&attributes, stack, STACK) != 0 ||
        pthread_create(&thread, &attributes, run, &call) != 0 || pthread_join(thread, NULL) != 0)
        end("no thread");
    pthread_attr_destroy(&attributes);
    size_t untouched = 0;
    while (untouched < STACK && stack[untouched] == PAINT)
        untouched++;
    return STACK - untouched;
}

int main(void)
{
    static const struct {
        const char *name;
        void (*call)(void);
    } calls[] = {
        {"gougelily_plan, 58 axes, 8 operands, cutting as deep as it goes", plan_deep},
        {"plan by value, the same", plan_value},
        {"gougelily_plan, a transpose of 1,000", plan_transposed},
        {"gougelily_plan, 64 axes, 8 operands", plan_wide},
        {"gougelily_check_layout", check},
        {"gougelily_window", window},
        {"gougelily_original_index", find},
        {"gougelily_plan_index", find_back},
        {"gougelily_begin", begin},
        {"gougelily_step", step},
        {"gougelily_visit", visit},
        {"gougelily_engineer", engineer},
        {"gougelily_student", student},
        {"step by value", step_value},
        {"step_lent", step_lent},
        {"gougelily_step_many", many},
        {"gougelily_repeat_mark", mark},
        {"gougelily_walklist", list},
        {"gougelily_judge", judged},
        {"gougelily_from_numpy", described},
        {"gougelily_to_numpy", description},
        {"gougelily_copy, 64 by 64 cells, the exact mark", copied},
        {"gougelily_copy, 64 axes", copied_deep},
        {"gougelily_summary", summarized},
        {"gougelily_begin_session, 58 axes, 7 operands, cutting as deep as it goes", session_begins},
        {"gougelily_join_session, an eighth operand", session_joined},
        {"gougelily_leave_session", session_left},
    };
    int status = 0;

    stack = mmap(NULL, STACK, PROT_READ | PROT_WRITE, MAP_PRIVATE | MAP_ANONYMOUS, -1, 0);
    if (stack == MAP_FAILED)
        end("no memory");
    make_layouts();
    const size_t idle = used(nothing);
    printf("| entry | KiB of stack |\n|---|---|\n");
    for (size_t i = 0; i < sizeof calls / sizeof calls[0]; i++) {
        const size_t bytes = used(calls[i].call) - idle;
        if (answer < 0) {
            fprintf(stderr, "stack: %s is refused with %" PRId64 "\n", calls[i].name, -answer);
            return 2;
        }
        printf("| %s | %zu |\n", calls[i].name, (bytes + 1023) / 1024);
        if (bytes > LIMIT) {
            fprintf(stderr, "stack: %s takes more than 256 KiB\n", calls[i].name);
            status = 1;
        }
    }
    return status;
}
