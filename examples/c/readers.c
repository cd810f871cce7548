/*
 * Two readers of a walk, side by side: what an export engineer sees of each block
 * in two laboratories, and what a student sees.
 *
 *     readers
 *
 * A capture of 4 x 3 samples is copied from rows to columns in blocks of 2 x 2.
 * The laboratories hold the same arrays at different places, so the walk starts
 * elsewhere: the engineers' offsets differ. The student's lines are the same, and
 * the index on them gives, by the layout's strides, each engineer's offsets less
 * the starts. The program sees to both, and its status is 1 if one fails.
 */
#include <inttypes.h>
#include <stdio.h>
#include <string.h>

#include "gougelily.h"

enum { LABS = 2, RANK = 2, OPERANDS = 2 };

static const uint64_t extents[RANK] = { 4, 3 }, sizes[OPERANDS] = { 8, 8 };
/* the destination, then the source */
static const int64_t strides[OPERANDS * RANK] = { 1, 4, 3, 1 };
static const int64_t starts[LABS][OPERANDS] = { { 0, 0 }, { 5000, 900 } };

static int refused(int64_t answer)
{
    fprintf(stderr, "readers: refused with %" PRId64 ", %s\n", -answer, gougelily_refusal_text(answer));
    return 1;
}

/* The index gives the offsets, less the starts. */
static int told(const gougelily_student_t *student, const gougelily_block_t *block, const int64_t *from)
{
    for (size_t k = 0; k < OPERANDS; k++) {
        int64_t offset = from[k];
        for (size_t i = 0; i < student->first.count; i++)
            offset += (int64_t)student->first.places[i] * strides[k * RANK + i];
        if (offset != block->offsets[k])
            return 0;
    }
    return 1;
}

int main(void)
{
    const gougelily_layout_t layout = { extents, RANK, sizes, OPERANDS, strides, OPERANDS * RANK, GOUGELILY_POINTWISE_INTO, 0 };
    const gougelily_machine_t machine = GOUGELILY_FIXED_MACHINE;
    gougelily_plan_t plan;
    gougelily_walk_t walk[LABS];
    int64_t answer = gougelily_plan_layout(&layout, &machine, &plan);
    if (answer < 0)
        return refused(answer);
    /* so few cells are not cut: the block sizes are ours */
    plan.blocks[0] = plan.blocks[1] = 2;
    for (int lab = 0; lab < LABS; lab++)
        if ((answer = gougelily_begin_walk(&plan, starts[lab], OPERANDS, &walk[lab])) < 0)
            return refused(answer);

    printf("engineer, laboratory 1    engineer, laboratory 2    student\n");
    for (;;) {
        gougelily_student_t first, student;
        for (int lab = 0; lab < LABS; lab++) {
            gougelily_visit_t visit;
            gougelily_block_t block;
            answer = gougelily_next_visit(&layout, &plan, &walk[lab], &visit);
            if (answer < 0)
                return refused(answer);
            if (answer == 0) {
                printf("the end\n");
                return 0;
            }
            gougelily_engineer_view(&visit, &block);
            gougelily_student_view(&visit, &student);
            printf("%" PRIu64 " cells at %4" PRId64 ",%4" PRId64 "      ", block.length, block.offsets[0], block.offsets[1]);
            if (lab == 0)
                first = student;
            if (memcmp(&first, &student, sizeof first) != 0 || !told(&student, &block, starts[lab])) {
                fprintf(stderr, "readers: the views differ\n");
                return 1;
            }
        }
        printf("block %" PRIu64 ": %" PRIu64 " cells from (%" PRIu64 ",%" PRIu64 ")\n", student.number, student.length,
               student.first.places[0], student.first.places[1]);
    }
}
