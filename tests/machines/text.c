#include "text.h"

#include <inttypes.h>

static void write_numbers(FILE *out, const uint64_t *numbers, size_t count)
{
    for (size_t i = 0; i < count; i++)
        fprintf(out, " %" PRIu64, numbers[i]);
}

static void write_signed(FILE *out, const int64_t *numbers, size_t count)
{
    for (size_t i = 0; i < count; i++)
        fprintf(out, " %" PRId64, numbers[i]);
}

void write_case(FILE *out, const case_t *drawn)
{
    const record_t *record = &drawn->record;
    fprintf(out, "%" PRIu64 " %" PRIu64 " %" PRIu64 " %" PRIu64 " %" PRIu64 " %" PRIu64, drawn->purpose, drawn->chosen, record->line, record->cache,
            record->way, record->live);
    fprintf(out, " %zu", drawn->rank);
    write_numbers(out, drawn->extents, drawn->rank);
    fprintf(out, " %zu", drawn->operands);
    write_numbers(out, drawn->sizes, drawn->operands);
    fprintf(out, " %zu", drawn->stride_count);
    write_signed(out, drawn->strides, drawn->stride_count);
    fputc('\n', out);
}

static int read_numbers(FILE *in, uint64_t *numbers, size_t count)
{
    for (size_t i = 0; i < count; i++)
        if (fscanf(in, "%" SCNu64, &numbers[i]) != 1)
            return 0;
    return 1;
}

static int read_signed(FILE *in, int64_t *numbers, size_t count)
{
    for (size_t i = 0; i < count; i++)
        if (fscanf(in, "%" SCNd64, &numbers[i]) != 1)
            return 0;
    return 1;
}

static int read_count(FILE *in, size_t *count, size_t most) { return fscanf(in, "%zu", count) == 1 && *count <= most; }

int read_case(FILE *in, case_t *drawn)
{
    record_t *record = &drawn->record;
    if (fscanf(in, "%" SCNu64, &drawn->purpose) != 1)
        return feof(in) ? 0 : -1;
    const int is = fscanf(in, "%" SCNu64 "%" SCNu64 "%" SCNu64 "%" SCNu64 "%" SCNu64, &drawn->chosen, &record->line, &record->cache, &record->way,
                          &record->live) == 5
        && read_count(in, &drawn->rank, ROOM_AXES) && read_numbers(in, drawn->extents, drawn->rank)
        && read_count(in, &drawn->operands, ROOM_OPERANDS) && read_numbers(in, drawn->sizes, drawn->operands)
        && read_count(in, &drawn->stride_count, ROOM_STRIDES) && read_signed(in, drawn->strides, drawn->stride_count);
    return is ? 1 : -1;
}

void write_answer(FILE *out, int row, const axes_t *axes)
{
    fprintf(out, "%d", row);
    if (row == 0) {
        fprintf(out, " %zu %zu", axes->rank, axes->operands);
        write_numbers(out, axes->extents, axes->rank);
        write_numbers(out, axes->blocks, axes->rank);
        for (size_t k = 0; k < axes->operands; k++)
            write_signed(out, axes->strides[k], axes->rank);
    }
    fputc('\n', out);
}
