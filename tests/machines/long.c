/*
 * The library's plans for drawn layouts and records against the planner beside this file: the answer, and every place of every lent array. The
 * arrays hold other numbers before each call; on a refusal they hold them still, and what a call only reads is as it was.
 *
 *     long COUNT SEED [FIRST]    compares so many cases, from number FIRST on (0)
 *     long draw COUNT SEED       prints them, a line each
 *     long answer                prints the answer of this planner to each line of standard input
 *
 * The status is 1 if an answer differs, or if a branch of planning was never met in a run of 100,000 or more.
 */
#include "gougelily.h"

#include <inttypes.h>
#include <stdlib.h>
#include <string.h>

#include "text.h"

enum { STANDARD = 100000, PATTERNS = 16 };

/* The arrays that are lent, with a word between any two. */
typedef struct lent_t {
    uint64_t before;
    size_t rank[1];
    uint64_t after_rank;
    size_t operands[1];
    uint64_t after_operands, extents[GOUGELILY_MAX_RANK];
    uint64_t after_extents, blocks[GOUGELILY_MAX_RANK];
    uint64_t after_blocks;
    int64_t strides[GOUGELILY_PLAN_STRIDES];
    uint64_t after;
} lent_t;

#define WORDS (sizeof(lent_t) / sizeof(uint64_t))

static lent_t patterns[PATTERNS];

/* What the arrays hold before a call: any numbers, none of them 0. */
static void make_patterns(void)
{
    begin_draw(PATTERNS, 0);
    for (size_t j = 0; j < PATTERNS; j++) {
        uint64_t words[WORDS];
        for (size_t i = 0; i < WORDS; i++)
            words[i] = any() | 1;
        memcpy(&patterns[j], words, sizeof words);
    }
}

/* The lent arrays after a call that is served: the plan, and zeros behind its counts. */
static void put_plan(lent_t *lent, const axes_t *axes)
{
    lent->rank[0] = axes->rank;
    lent->operands[0] = axes->operands;
    memset(lent->extents, 0, sizeof lent->extents);
    memset(lent->blocks, 0, sizeof lent->blocks);
    memset(lent->strides, 0, sizeof lent->strides);
    for (size_t i = 0; i < axes->rank; i++) {
        lent->extents[i] = axes->extents[i];
        lent->blocks[i] = axes->blocks[i];
        for (size_t k = 0; k < axes->operands; k++)
            lent->strides[k * GOUGELILY_MAX_RANK + i] = axes->strides[k][i];
    }
}

static uint64_t sum_of(const void *words, size_t count, uint64_t sum)
{
    for (size_t i = 0; i < count; i++) {
        uint64_t word;
        memcpy(&word, (const char *)words + i * sizeof word, sizeof word);
        sum = (sum ^ word) * 0x100000001b3 + i;
    }
    return sum;
}

/* A sum over what a call reads, to see that it is left as it was. */
static uint64_t inputs_sum(const case_t *drawn)
{
    const uint64_t sum = sum_of(drawn->extents, drawn->rank, sum_of(drawn->sizes, drawn->operands, 0));
    return sum_of(drawn->strides, drawn->stride_count, sum);
}

static int64_t call(const case_t *drawn, lent_t *lent)
{
    const record_t *record = &drawn->record;
    return gougelily_plan(drawn->extents, drawn->rank, drawn->sizes, drawn->operands, drawn->strides, drawn->stride_count, drawn->purpose,
                          drawn->chosen, record->line, record->cache, record->way, record->live, lent->rank, lent->operands, lent->extents,
                          lent->blocks, lent->strides);
}

/* The first word of the lent memory that is not as due. */
static void show_word(const lent_t *lent, const lent_t *due, const lent_t *before)
{
    uint64_t words[3][WORDS];
    memcpy(words[0], lent, sizeof *lent);
    memcpy(words[1], due, sizeof *due);
    memcpy(words[2], before, sizeof *before);
    for (size_t i = 0; i < WORDS; i++)
        if (words[0][i] != words[1][i]) {
            printf("word %zu of the lent memory is %" PRIu64 ", not %" PRIu64 "; before the call it was %" PRIu64 "\n", i, words[0][i], words[1][i],
                   words[2][i]);
            return;
        }
}

/* The plan in the lent arrays, as far as its counts may be true. */
static void show_lent(const lent_t *lent)
{
    axes_t axes;
    axes.rank = lent->rank[0] < MOST_RANK ? lent->rank[0] : MOST_RANK;
    axes.operands = lent->operands[0] < MOST_OPERANDS ? lent->operands[0] : MOST_OPERANDS;
    for (size_t i = 0; i < axes.rank; i++) {
        axes.extents[i] = lent->extents[i];
        axes.blocks[i] = lent->blocks[i];
        for (size_t k = 0; k < axes.operands; k++)
            axes.strides[k][i] = lent->strides[k * GOUGELILY_MAX_RANK + i];
    }
    write_answer(stdout, 0, &axes);
}

/* One case; whether the library answers as this planner does. */
static int compare(const case_t *drawn, uint64_t seed, uint64_t number)
{
    axes_t axes;
    const layout_t layout = layout_of(drawn);
    const lent_t *pattern = &patterns[number % PATTERNS];
    lent_t lent = *pattern, due = *pattern;
    const int row = plan(&layout, &drawn->record, &axes);
    if (row == 0)
        put_plan(&due, &axes);
    const uint64_t inputs = inputs_sum(drawn);
    const int64_t answer = call(drawn, &lent);
    if (inputs != inputs_sum(drawn))
        printf("the library wrote to its inputs\n");
    else if (answer == -row && memcmp(&lent, &due, sizeof lent) == 0)
        return 1;
    printf("seed %" PRIu64 ", case %" PRIu64 ": the answers differ\n", seed, number);
    write_case(stdout, drawn);
    printf("the library answers %" PRId64 ":\n", answer);
    if (answer == 0)
        show_lent(&lent);
    printf("the reference answers:\n");
    write_answer(stdout, row, &axes);
    show_word(&lent, &due, pattern);
    return 0;
}

/* Prints the counts on one line; whether one is 0. */
static int report(uint64_t count, uint64_t seed)
{
#define BRANCH_WORDS(name, words) words,
    static const char *const names[] = {BRANCHES(BRANCH_WORDS)};
#undef BRANCH_WORDS
    int missing = 0;
    printf("tests/machines: %" PRIu64 " plans, seed %" PRIu64 ", 0 differences;", count, seed);
    for (size_t i = 0; i < BRANCH_COUNT; i++)
        printf(" %s %" PRIu64 "%s", names[i], met_counts[i], i + 1 < BRANCH_COUNT ? ";" : "\n");
    for (size_t i = 0; i < BRANCH_COUNT; i++)
        if (met_counts[i] == 0 && count >= STANDARD) {
            printf("never met: %s\n", names[i]);
            missing = 1;
        }
    return missing;
}

static int run(uint64_t count, uint64_t seed, uint64_t first)
{
    static case_t drawn;
    make_patterns();
    for (uint64_t i = 0; i < count; i++) {
        draw_case(&drawn, seed, first + i);
        if (!compare(&drawn, seed, first + i))
            return 1;
    }
    return report(count, seed);
}

static int print_cases(uint64_t count, uint64_t seed)
{
    static case_t drawn;
    for (uint64_t i = 0; i < count; i++) {
        draw_case(&drawn, seed, i);
        write_case(stdout, &drawn);
    }
    return 0;
}

static int print_answers(void)
{
    static case_t drawn;
    int more;
    while ((more = read_case(stdin, &drawn)) == 1) {
        axes_t axes;
        const layout_t layout = layout_of(&drawn);
        write_answer(stdout, plan(&layout, &drawn.record, &axes), &axes);
    }
    return more == 0 ? 0 : 1;
}

static uint64_t argument(int argc, char **argv, int at, uint64_t otherwise) { return at < argc ? strtoull(argv[at], NULL, 10) : otherwise; }

int main(int argc, char **argv)
{
    if (argc > 1 && strcmp(argv[1], "answer") == 0)
        return print_answers();
    if (argc > 1 && strcmp(argv[1], "draw") == 0)
        return print_cases(argument(argc, argv, 2, 1), argument(argc, argv, 3, 0));
    return run(argument(argc, argv, 1, STANDARD), argument(argc, argv, 2, 0), argument(argc, argv, 3, 0));
}
