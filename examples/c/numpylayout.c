/*
 * Turns a description of an array into the text of a layout, a sum over its
 * cells: what walklist reads.
 *
 *     numpylayout < view.txt | walklist
 *
 * The description is that of the NumPy array interface, as lines N,size,rank,
 * S,shape and perhaps T,byte strides. It prints the lines L, E and O of a fold
 * with this one operand. With -b it reads the description and prints it again
 * from the numbers, which gives a packed one its T line. The status is 0, or 2
 * if the description cannot be taken.
 */
#include <inttypes.h>
#include <stdio.h>
#include <string.h>

#include "gougelily.h"

static int refused(int64_t answer)
{
    fprintf(stderr, "numpylayout: refused with %d: %s\n", (int)gougelily_refused(answer), gougelily_refusal_text(answer));
    return 2;
}

int main(int count, char **words)
{
    /* one byte more than a description has */
    static uint8_t text[16385], room[2720];
    uint64_t size[1], extents[GOUGELILY_MAX_RANK];
    int64_t strides[GOUGELILY_MAX_RANK];
    size_t rank[1];
    const int back = count == 2 && strcmp(words[1], "-b") == 0;
    if (count > 1 && !back) {
        fprintf(stderr, "numpylayout: usage: numpylayout [-b] < description\n");
        return 2;
    }
    const size_t length = fread(text, 1, sizeof text, stdin);
    int64_t answer = gougelily_from_numpy(text, length, size, rank, extents, strides);
    if (answer < 0)
        return refused(answer);
    if (back) {
        answer = gougelily_to_numpy(size[0], extents, rank[0], strides, rank[0], room, sizeof room);
        if (answer < 0)
            return refused(answer);
        fwrite(room, 1, (size_t)answer, stdout);
        return 0;
    }
    printf("L,F,%zu,1,0\nE", rank[0]);
    for (size_t i = 0; i < rank[0]; i++)
        printf(",%" PRIu64, extents[i]);
    printf("\nO,%" PRIu64, size[0]);
    for (size_t i = 0; i < rank[0]; i++)
        printf(",%" PRId64, strides[i]);
    printf("\n");
    return 0;
}
