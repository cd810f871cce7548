/*
 * Judges the walk of another tool: whether the visits on standard input meet each
 * index of a layout exactly once.
 *
 *     judgewalk EXTENTS < visits          as in  judgewalk 3,2 < visits
 *
 * A visit is a line V,axis,length,index: a run along an axis from an index on,
 * with one number per axis. It prints accepted, short, double or outside, and
 * where: the first index that is missing, the first line that meets an index
 * again and that index, the first line whose run leaves the layout. The status is
 * 0 if the visits are accepted, 1 if not, 2 if they cannot be judged.
 */
#include <errno.h>
#include <inttypes.h>
#include <stdio.h>
#include <stdlib.h>
#include <string.h>

#include "gougelily.h"

static uint64_t extents[GOUGELILY_MAX_RANK + 1];
static size_t rank;
static uint8_t *text, *marks, *others;
static size_t length, cells = 1;

static int wrong(const char *what)
{
    fprintf(stderr, "judgewalk: %s\n", what);
    return 2;
}

/* EXTENTS: numbers with commas between them. 0 if they are that; a rank of 65 stands for any above 64. */
static int read_extents(const char *word)
{
    for (;;) {
        char *end;
        errno = 0;
        const uint64_t extent = strtoull(word, &end, 10);
        if (word[0] < '0' || word[0] > '9' || errno != 0 || (*end != ',' && *end != '\0'))
            return -1;
        if (rank <= GOUGELILY_MAX_RANK)
            extents[rank++] = extent;
        if (*end == '\0')
            return 0;
        word = end + 1;
    }
}

static int read_text(void)
{
    size_t room = 1 << 16, got;
    text = malloc(room);
    while (text != NULL && (got = fread(text + length, 1, room - length, stdin)) > 0) {
        length += got;
        if (length == room) {
            uint8_t *more = realloc(text, room *= 2);
            if (more == NULL)
                free(text);
            text = more;
        }
    }
    return text == NULL || ferror(stdin) ? -1 : 0;
}

static int64_t judge(const uint8_t *from, const uint8_t *to, uint8_t *into)
{
    return gougelily_judge(extents, rank, from, (size_t)(to - from), into, cells);
}

/* The end of the line that a place lies in. */
static const uint8_t *line_end(const uint8_t *at)
{
    return (const uint8_t *)memchr(at, '\n', (size_t)(text + length - at)) + 1;
}

static const uint8_t *line_start(const uint8_t *at)
{
    while (at > text && at[-1] != '\n')
        at--;
    return at;
}

/* The first line with which the visits are called so: with a line more they stay so. */
static const uint8_t *first_line(int64_t verdict)
{
    const uint8_t *low = text, *high = text + length;
    while (low < high) {
        const uint8_t *line = line_start(low + (high - low) / 2), *end = line_end(line);
        if (judge(text, end, marks) == verdict)
            high = line;
        else
            low = end;
    }
    return low;
}

static size_t line_number(const uint8_t *line)
{
    size_t number = 1;
    for (const uint8_t *at = text; at < line; at++)
        number += *at == '\n';
    return number;
}

/* The index of a place of the mark buffer, axis 0 quickest. */
static void print_index(size_t place)
{
    for (size_t i = 0; i < rank; i++) {
        printf("%s%" PRIu64, i > 0 ? "," : "", place % extents[i]);
        place /= extents[i];
    }
}

int main(int count, char **words)
{
    if (count != 2 || read_extents(words[1]) != 0)
        return wrong("usage: judgewalk EXTENTS < visits, the extents as in 3,2");
    if (read_text() != 0)
        return wrong("standard input cannot be read");
    for (size_t i = 0; i < rank; i++)
        if (extents[i] == 0)
            cells = 0;
    for (size_t i = 0; i < rank && cells > 0; i++)
        cells = extents[i] > 65536 || cells * extents[i] > 65536 ? 65537 : cells * extents[i];
    marks = malloc(cells + 1), others = malloc(cells + 1);
    if (marks == NULL || others == NULL)
        return wrong("there is no memory for the marks");

    const int64_t verdict = judge(text, text + length, marks);
    if (verdict < 0) {
        fprintf(stderr, "judgewalk: refused with %" PRId64 ", %s\n", -verdict, gougelily_refusal_text(verdict));
        return 2;
    }
    if (verdict == GOUGELILY_ACCEPTED) {
        puts("accepted");
    } else if (verdict == GOUGELILY_SHORT) {
        size_t place = 0;
        while (marks[place] == 1)
            place++;
        printf("short: index ");
        print_index(place);
        printf(" is missing\n");
    } else if (verdict == GOUGELILY_DOUBLE) {
        /* the marks of the lines before it and its own: the first place that both have */
        const uint8_t *line = first_line(verdict);
        size_t place = 0;
        judge(text, line, marks);
        judge(line, line_end(line), others);
        while (marks[place] != 1 || others[place] != 1)
            place++;
        printf("double: line %zu meets index ", line_number(line));
        print_index(place);
        printf(" again\n");
    } else {
        printf("outside: the run of line %zu leaves the layout\n", line_number(first_line(verdict)));
    }
    free(text), free(marks), free(others);
    return verdict == GOUGELILY_ACCEPTED ? 0 : 1;
}
