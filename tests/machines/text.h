/*
 * Cases and answers as lines of numbers, for the comparison with the reference in Python and for what a run prints at a difference.
 *
 * A case is purpose, chosen, the record's four, then extents, sizes and strides, each behind its count. An answer is the row that refuses, or 0,
 * rank, operands, extents, blocks, and the strides operand by operand.
 */
#ifndef TEXT_H
#define TEXT_H

#include <stdio.h>

#include "draw.h"

void write_case(FILE *out, const case_t *drawn);
/* 1, 0 at the end, or -1 where a line is not in the form. */
int read_case(FILE *in, case_t *drawn);
void write_answer(FILE *out, int row, const axes_t *axes);

#endif
