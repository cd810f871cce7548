/*
 * A journal of a capture: for each channel the sum, the least and the greatest
 * sample, how many there are, and how many of them are not a number.
 *
 *     journal CHANNELS CAPTURE          as in  journal 3 capture.f64
 *
 * A capture is a file of doubles as this processor has them, sample by sample,
 * each with a double for every channel. The last row is that of all channels
 * together. A sum has 17 digits, which fix its bits: it is added in the order of
 * the plan, so two journals of one capture agree to the last digit, wherever
 * they are made. The status is 0, or 2 if there is no journal.
 */
#include <errno.h>
#include <inttypes.h>
#include <stdio.h>
#include <stdlib.h>

#include "gougelily.h"

static double *cells;
static size_t count;

static int wrong(const char *what)
{
    fprintf(stderr, "journal: %s\n", what);
    return 2;
}

/* All doubles of a file. 0 if it could be read; what is left behind the last whole double is not looked at. */
static int read_capture(const char *name)
{
    FILE *file = fopen(name, "rb");
    size_t room = 1 << 12, got;
    if (file == NULL)
        return -1;
    cells = malloc(room * sizeof *cells);
    while (cells != NULL && (got = fread(cells + count, sizeof *cells, room - count, file)) > 0) {
        count += got;
        if (count == room) {
            double *more = realloc(cells, (room *= 2) * sizeof *cells);
            if (more == NULL)
                free(cells);
            cells = more;
        }
    }
    const int failed = ferror(file);
    fclose(file);
    return cells == NULL || failed ? -1 : 0;
}

/* One row of the table; the refusal if there is none. */
static int64_t row(const char *name, const uint64_t *extents, size_t rank, const int64_t *strides, int64_t start)
{
    const gougelily_machine_t machine = GOUGELILY_FIXED_MACHINE;
    gougelily_summary_t summary;
    const int64_t answer = gougelily_summarize(extents, rank, strides, rank, &machine, start, cells, count, &summary);
    if (answer < 0)
        return answer;
    /* of a sum that is not a number the bits are open, and the sign is one of them */
    if (summary.sum != summary.sum)
        printf("%-8s %24s", name, "nan");
    else
        printf("%-8s %24.17g", name, summary.sum);
    /* without extremes both are +0.0, which is no sample */
    if (summary.extremes)
        printf(" %12.6g %12.6g", summary.least, summary.greatest);
    else
        printf(" %12s %12s", "-", "-");
    printf(" %8" PRIu64 " %6" PRIu64 "\n", summary.count, summary.nans);
    return 0;
}

int main(int argc, char **argv)
{
    if (argc != 3)
        return wrong("journal CHANNELS CAPTURE");
    char *end;
    errno = 0;
    const uint64_t channels = strtoull(argv[1], &end, 10);
    if (argv[1][0] < '1' || argv[1][0] > '9' || *end != '\0' || errno != 0)
        return wrong("CHANNELS is a number from 1 on");
    if (read_capture(argv[2]) != 0)
        return wrong("the capture cannot be read");
    if (count % channels != 0)
        return wrong("the last sample is not whole");

    const uint64_t samples = count / channels;
    const uint64_t all[2] = { channels, samples };
    const int64_t steps[2] = { 1, (int64_t)channels };
    printf("%-8s %24s %12s %12s %8s %6s\n", "channel", "sum", "least", "greatest", "count", "nan");
    for (uint64_t channel = 0; channel < channels; channel++) {
        char name[24];
        snprintf(name, sizeof name, "%" PRIu64, channel);
        const int64_t answer = row(name, &samples, 1, steps + 1, (int64_t)channel);
        if (answer < 0)
            return wrong(gougelily_refusal_text(answer));
    }
    const int64_t answer = row("all", all, 2, steps, 0);
    if (answer < 0)
        return wrong(gougelily_refusal_text(answer));
    free(cells);
    return ferror(stdout) || fflush(stdout) != 0 ? wrong("the journal cannot be written") : 0;
}
