/*
 * Cuts a capture to a window and copies it out with its samples backwards.
 *
 * The capture has 12 samples of 4 channels, channels quickest. The window takes
 * channels 1 and 2, and of the samples every second one from 10 down to 2. It is
 * a layout of its own, which goes straight into planning; the shift says where
 * in the capture its walk starts.
 */
#include <inttypes.h>
#include <stdio.h>

#include "gougelily.h"

enum { SAMPLES = 12, CHANNELS = 4 };

static int refused(const char *what, int64_t answer)
{
    fprintf(stderr, "window: %s is refused with %" PRId64 ", %s\n", what, -answer, gougelily_refusal_text(answer));
    return 1;
}

int main(void)
{
    /* the capture: axis 0 is the sample, axis 1 the channel */
    const uint64_t extents[2] = {SAMPLES, CHANNELS}, sizes[1] = {sizeof(double)};
    const int64_t strides[2] = {CHANNELS, 1};
    const gougelily_layout_t capture = {extents, 2, sizes, 1, strides, 2, GOUGELILY_POINTWISE, 0};

    const uint64_t firsts[2] = {10, 1}, counts[2] = {5, 2};
    const int64_t steps[2] = {-2, 1};
    const gougelily_window_t window = {firsts, counts, steps, 2};
    gougelily_windowed_t cut;

    double cells[SAMPLES * CHANNELS], out[10];
    gougelily_machine_t machine = GOUGELILY_FIXED_MACHINE;
    gougelily_plan_t plan;
    gougelily_walk_t walk;
    gougelily_block_t block;
    int64_t answer;

    /* sample 10 of channel 1 is 10.1 */
    for (int i = 0; i < SAMPLES * CHANNELS; i++)
        cells[i] = i / CHANNELS + i % CHANNELS / 10.0;

    answer = gougelily_window_layout(&capture, &window, &cut);
    if (answer < 0)
        return refused("the window", answer);
    printf("extents %" PRIu64 ", %" PRIu64 ", strides %" PRId64 ", %" PRId64 ", shift %" PRId64 "\n", cut.extents[0],
           cut.extents[1], cut.strides[0], cut.strides[1], cut.shifts[0]);

    /* the copy: a packed destination with samples quickest, and the window as its source */
    const uint64_t copy_sizes[2] = {sizeof(double), sizeof(double)};
    const int64_t copy_strides[4] = {1, 5, cut.strides[0], cut.strides[1]};
    const gougelily_layout_t copy = {cut.extents, 2, copy_sizes, 2, copy_strides, 4, GOUGELILY_POINTWISE_INTO, 0};
    const int64_t starts[2] = {0, cut.shifts[0]};
    answer = gougelily_plan_layout(&copy, &machine, &plan);
    if (answer < 0)
        return refused("the plan", answer);
    answer = gougelily_begin_walk(&plan, starts, 2, &walk);
    if (answer < 0)
        return refused("the walk's beginning", answer);
    while ((answer = gougelily_step_walk(&plan, &walk, &block)) == 1)
        for (uint64_t k = 0; k < block.length; k++)
            out[block.offsets[0] + (int64_t)k * block.strides[0]] = cells[block.offsets[1] + (int64_t)k * block.strides[1]];
    if (answer < 0)
        return refused("a step", answer);

    for (int channel = 0; channel < 2; channel++)
        for (int sample = 0; sample < 5; sample++)
            printf("%.1f%c", out[channel * 5 + sample], sample < 4 ? ' ' : '\n');
    return 0;
}
