/* The cases of a run: a layout and a record, drawn by a seed and a number. */
#ifndef DRAW_H
#define DRAW_H

#include "planner.h"

enum { ROOM_AXES = 320, ROOM_OPERANDS = 128, ROOM_STRIDES = 4096 };

/* A layout with its record; its arrays are longer than any that is served. */
typedef struct case_t {
    uint64_t extents[ROOM_AXES], sizes[ROOM_OPERANDS];
    int64_t strides[ROOM_STRIDES];
    size_t rank, operands, stride_count;
    uint64_t purpose, chosen;
    record_t record;
} case_t;

layout_t layout_of(const case_t *drawn);

/* numbers.c: numbers from the state that `begin_draw` sets. */
void begin_draw(uint64_t seed, uint64_t number);
uint64_t any(void);
uint64_t below(uint64_t n);
uint64_t between(uint64_t least, uint64_t most);
int chance(unsigned percent);
/* A number whose length in bits is drawn, so that small ones are as many as large ones. */
uint64_t spread(uint64_t least, uint64_t most);
/* One of a list. At most one number of the list is drawn itself: C leaves open which of two would come first, and a seed is to tell a case. */
uint64_t one_of(const uint64_t *list, size_t count);
#define ONE_OF(...) one_of((const uint64_t[]){__VA_ARGS__}, sizeof((const uint64_t[]){__VA_ARGS__}) / sizeof(uint64_t))
void shuffle(size_t *list, size_t count);

/* records.c */
record_t allowed_record(void);
record_t refused_record(record_t record);

/* layouts.c: fills everything but the record. */
void draw_layout(case_t *drawn, const record_t *record);

/* cases.c */
void draw_case(case_t *drawn, uint64_t seed, uint64_t number);

#endif
