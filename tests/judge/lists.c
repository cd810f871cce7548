/*
 * The judge of walks on every short list: each list of at most 3 runs over each layout of rank 1 to 3 with extents up to 4 and at most 4 cells.
 * The runs are all those with an index up to the extent on each axis and a length up to one more than the extent, so that every way to leave the
 * layout by one is among them. Verdict and marks are worked out here from document 02's sentences: which indices lie in each run.
 */
#include "gougelily.h"

#include <inttypes.h>
#include <stdio.h>
#include <stdlib.h>
#include <string.h>

enum { RANK = 3, EXTENT = 4, CELLS = 4, RUNS = 3, MOST = 512, LINE = 16, GUARD = 7 };

typedef struct run_t {
    char line[LINE];
    size_t len;
    int leaves;    /* some cell of it is no index of the layout */
    unsigned lies; /* the indices that lie in it, bit n for number n */
} run_t;

static size_t rank;
static uint64_t extents[RANK], indices[CELLS][RANK];
static size_t cells;
static run_t runs[MOST];
static size_t run_count;
static uint64_t layout_count, met[4];

/* The indices of the layout, "Axis 0 quickest". */
static void list_indices(void)
{
    uint64_t index[RANK] = {0};
    cells = 0;
    for (size_t i = 0; i < rank; i++)
        if (extents[i] == 0)
            return;
    for (;;) {
        size_t i = 0;
        memcpy(indices[cells++], index, sizeof index);
        while (i < rank && ++index[i] == extents[i])
            index[i++] = 0;
        if (i == rank)
            return;
    }
}

/* "naming a run of length 1 or more along an original axis from that index" */
static void add_run(size_t axis, uint64_t length, const uint64_t *index)
{
    run_t *run = &runs[run_count++];
    run->len = (size_t)sprintf(run->line, "V,%zu,%" PRIu64, axis, length);
    for (size_t i = 0; i < rank; i++)
        run->len += (size_t)sprintf(run->line + run->len, ",%" PRIu64, index[i]);
    run->line[run->len++] = '\n';
    run->leaves = 0;
    run->lies = 0;
    for (uint64_t k = 0; k < length; k++) {
        uint64_t cell[RANK] = {0};
        unsigned bit = 0;
        memcpy(cell, index, rank * sizeof *cell);
        cell[axis] += k;
        for (size_t n = 0; n < cells; n++)
            if (memcmp(cell, indices[n], rank * sizeof *cell) == 0)
                bit = 1u << n;
        run->leaves |= bit == 0;
        run->lies |= bit;
    }
}

static void list_runs(size_t axis, uint64_t *index)
{
    if (axis < rank) {
        for (index[axis] = 0; index[axis] <= extents[axis]; index[axis]++)
            list_runs(axis + 1, index);
        return;
    }
    for (size_t along = 0; along < rank; along++)
        for (uint64_t length = 1; length <= extents[along] + 1; length++)
            add_run(along, length, index);
}

/* "outside if any run leaves the layout, else double if an index comes again, else short"; the marks as bits */
static int judged(const run_t *const *list, size_t count, unsigned *marks)
{
    unsigned again = 0, lies = 0;
    *marks = 0;
    for (size_t i = 0; i < count; i++)
        if (list[i]->leaves)
            return GOUGELILY_OUTSIDE;
    for (size_t i = 0; i < count; i++) {
        again |= lies & list[i]->lies;
        lies |= list[i]->lies;
    }
    *marks = lies;
    if (again != 0)
        return GOUGELILY_DOUBLE;
    return lies == (1u << cells) - 1 ? GOUGELILY_ACCEPTED : GOUGELILY_SHORT;
}

static void compare(const run_t *const *list, size_t count, const char *text, size_t len)
{
    unsigned bits;
    const int due = judged(list, count, &bits);
    uint8_t marks[CELLS + 2], due_marks[CELLS + 2];
    memset(marks, GUARD, sizeof marks);
    memset(due_marks, GUARD, sizeof due_marks);
    for (size_t n = 0; n < cells; n++)
        due_marks[n + 1] = bits >> n & 1;
    const int64_t answer = gougelily_judge(extents, rank, (const uint8_t *)text, len, marks + 1, cells);
    if (answer != due || memcmp(marks, due_marks, sizeof marks) != 0) {
        printf("extents");
        for (size_t i = 0; i < rank; i++)
            printf(" %" PRIu64, extents[i]);
        printf(": the answer is %" PRId64 ", not %d, or a mark is wrong, at\n%.*s", answer, due, (int)len, text);
        exit(1);
    }
    met[due]++;
}

/* The list so far, and it with each run behind it. */
static void all_lists(const run_t **list, size_t count, char *text, size_t len)
{
    compare(list, count, text, len);
    if (count == RUNS)
        return;
    for (size_t i = 0; i < run_count; i++) {
        list[count] = &runs[i];
        memcpy(text + len, runs[i].line, runs[i].len);
        all_lists(list, count + 1, text, len + runs[i].len);
    }
}

static void all_layouts(size_t axis, uint64_t total)
{
    if (axis < rank) {
        for (uint64_t extent = 0; extent <= EXTENT; extent++) {
            extents[axis] = extent;
            all_layouts(axis + 1, total * extent);
        }
        return;
    }
    if (total > CELLS)
        return;
    uint64_t index[RANK];
    const run_t *list[RUNS];
    char text[RUNS * LINE];
    run_count = 0;
    list_indices();
    list_runs(0, index);
    all_lists(list, 0, text, 0);
    layout_count++;
}

int main(void)
{
    for (rank = 1; rank <= RANK; rank++)
        all_layouts(0, 1);
    printf("%" PRIu64 " lists of at most %d runs over %" PRIu64 " layouts: %" PRIu64 " accepted, %" PRIu64 " short, %" PRIu64 " double, %" PRIu64 " outside\n",
           met[0] + met[1] + met[2] + met[3], RUNS, layout_count, met[0], met[1], met[2], met[3]);
    for (int i = 0; i < 4; i++)
        if (met[i] == 0) {
            printf("some verdict was not met\n");
            return 1;
        }
    return 0;
}
