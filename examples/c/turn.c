/*
 * Turns a capture: from channel by sample, as a recorder writes it, to sample by
 * channel, as a sound program reads it.
 *
 *     turn CHANNELS SIZE CAPTURE TURNED          as in  turn 8 2 capture.raw turned.raw
 *
 * SIZE is that of a sample in bytes, 1 to 16. The status is 0 if the file TURNED
 * was written.
 */
#include <inttypes.h>
#include <stdio.h>
#include <stdlib.h>

#include "gougelily.h"

static uint8_t *capture, *turned;

static int wrong(const char *what)
{
    fprintf(stderr, "turn: %s\n", what);
    return 1;
}

/* The bytes of a file; NULL if they cannot be read. */
static uint8_t *read_file(const char *name, size_t *length)
{
    FILE *file = fopen(name, "rb");
    size_t room = 1 << 16, got = 0;
    uint8_t *bytes = file == NULL ? NULL : malloc(room);
    *length = 0;
    while (bytes != NULL && (got = fread(bytes + *length, 1, room - *length, file)) > 0) {
        *length += got;
        if (*length == room) {
            uint8_t *more = realloc(bytes, room *= 2);
            if (more == NULL)
                free(bytes);
            bytes = more;
        }
    }
    if (file != NULL && (ferror(file) | fclose(file)) != 0)
        free(bytes), bytes = NULL;
    return bytes;
}

int main(int count, char **words)
{
    if (count != 5)
        return wrong("usage: turn CHANNELS SIZE CAPTURE TURNED");
    const uint64_t channels = strtoull(words[1], NULL, 10), size = strtoull(words[2], NULL, 10);
    size_t length;
    capture = read_file(words[3], &length);
    if (capture == NULL)
        return wrong("the capture cannot be read");
    if (channels == 0 || size == 0 || length / size % channels != 0 || length % size != 0)
        return wrong("the capture has not the same number of samples for each channel");
    turned = malloc(length + 1);
    if (turned == NULL)
        return wrong("there is no memory for the turned capture");

    /* axis 0 goes through the samples, axis 1 through the channels; operand 0 is the destination */
    const uint64_t samples = length / size / channels;
    const uint64_t extents[2] = {samples, channels}, sizes[2] = {size, size};
    const int64_t strides[4] = {(int64_t)channels, 1, 1, (int64_t)samples}, starts[2] = {0, 0};
    const gougelily_layout_t layout = {extents, 2, sizes, 2, strides, 4, GOUGELILY_POINTWISE_INTO, 0};
    const gougelily_machine_t machine = GOUGELILY_FIXED_MACHINE;
    const int64_t answer = gougelily_copy_cells(&layout, &machine, starts, 2, turned, length, capture, length);
    if (answer < 0) {
        fprintf(stderr, "turn: refused with %" PRId64 ", %s\n", -answer, gougelily_refusal_text(answer));
        return 1;
    }

    FILE *file = fopen(words[4], "wb");
    if (file == NULL || (fwrite(turned, 1, length, file) != length) | (fclose(file) != 0))
        return wrong("the turned capture cannot be written");
    printf("%" PRIu64 " samples of %" PRIu64 " channels\n", samples, channels);
    free(capture), free(turned);
    return 0;
}
