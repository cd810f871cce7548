/*
 * Plans one copy for the processor named on the command line and lists the plan
 * and its blocks, in the lines that walklist prints:
 *
 *     machine [LINE CACHE WAY LIVE]       without them the machine of the text
 *
 * The copy is examples/layouts/fit_copy.txt: 36 x 36 cells of 32 bytes, and the
 * source's rows lie 4,096 bytes apart. docs/TOUR.md shows two of its plans.
 */
#include <inttypes.h>
#include <stdio.h>
#include <stdlib.h>

#include "gougelily.h"

static const uint64_t extents[2] = {36, 36};
static const uint64_t sizes[2] = {32, 32};
static const int64_t strides[4] = {
    1, 36, /* operand 0: the destination */
    128, 1, /* operand 1: the source */
};

static int refused(const char *what, int64_t answer)
{
    fprintf(stderr, "machine: %s is refused with %" PRId64 ", %s\n", what, -answer, gougelily_refusal_text(answer));
    return 1;
}

int main(int count, char **words)
{
    const gougelily_layout_t layout = {extents, 2, sizes, 2, strides, 4, GOUGELILY_POINTWISE_INTO, 0};
    const int64_t starts[2] = {0, 0};
    gougelily_machine_t machine = GOUGELILY_FIXED_MACHINE;
    gougelily_plan_t plan;
    gougelily_walk_t walk;
    gougelily_block_t block;
    uint64_t blocks = 0, cells = 0;
    int64_t answer;

    if (count != 1 && count != 5) {
        fprintf(stderr, "usage: machine [LINE CACHE WAY LIVE]\n");
        return 2;
    }
    if (count == 5) {
        machine.line = strtoull(words[1], NULL, 10);
        machine.cache = strtoull(words[2], NULL, 10);
        machine.way = strtoull(words[3], NULL, 10);
        machine.live = strtoull(words[4], NULL, 10);
    }

    answer = gougelily_plan_layout(&layout, &machine, &plan);
    if (answer < 0)
        return refused("the plan", answer);
    printf("K,%zu\n", plan.rank);
    for (size_t i = 0; i < plan.rank; i++)
        printf("A,%zu,%" PRIu64 ",%" PRIu64 ",%" PRId64 ",%" PRId64 "\n", i, plan.extents[i], plan.blocks[i],
               plan.strides[i], plan.strides[GOUGELILY_MAX_RANK + i]);

    answer = gougelily_begin_walk(&plan, starts, 2, &walk);
    if (answer < 0)
        return refused("the walk's beginning", answer);
    while ((answer = gougelily_step_walk(&plan, &walk, &block)) == 1) {
        printf("B,%" PRIu64 ",%" PRIu64 ",%" PRId64 ",%" PRId64 "\n", blocks, block.length, block.offsets[0],
               block.offsets[1]);
        blocks++;
        cells += block.length;
    }
    if (answer < 0)
        return refused("a step", answer);
    printf("Z,%" PRIu64 ",%" PRIu64 "\n", blocks, cells);
    return 0;
}
