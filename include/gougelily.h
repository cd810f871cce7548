/*
 * Gougelily plans loops over strided arrays and walks their blocks. This header
 * declares the library that programs link, libgougelily. C99, and C++11.
 *
 * A layout is its extents, one per axis; 1 to 8 operands, each with an element
 * size in bytes; and a signed stride per axis, in elements, for each operand. A
 * plan says in which order the axes are run through and how they are cut into
 * blocks. A walk hands out the blocks one by one: a block is a run of cells
 * along axis 0 of the plan, with an offset and a stride for each operand.
 *
 *     gougelily_layout_t layout = { extents, 2, sizes, 2, strides, 4, GOUGELILY_POINTWISE_INTO, 0 };
 *     gougelily_machine_t machine = GOUGELILY_FIXED_MACHINE;
 *     gougelily_plan_t plan;
 *     gougelily_walk_t walk;
 *     gougelily_block_t block;
 *     int64_t answer = gougelily_plan_layout(&layout, &machine, &plan);
 *     if (answer >= 0)
 *         answer = gougelily_begin_walk(&plan, starts, 2, &walk);
 *     while (answer >= 0 && (answer = gougelily_step_walk(&plan, &walk, &block)) == 1)
 *         ...
 *     if (answer < 0)
 *         fprintf(stderr, "%s\n", gougelily_refusal_text(answer));
 *
 * Answers. Every function answers one number. Below 0 the call is refused: the
 * number is that of a refusal below, negated, and every byte of the memory lent
 * is as it was. 0 or more, it is served, and every place of an array handed out
 * that lies behind its count is 0.
 *
 * Arguments. A call has its answer whatever its numbers are and whatever its
 * arrays hold, and the answer is proved to be the one that the definitions of
 * the planner give. What is left to the caller is what C does not check: a
 * pointer leads to as many elements as its length or its array type tells,
 * aligned for their type (to no element it may be NULL).
 *
 * Aliasing. Memory that a call writes is no part of another argument, and no
 * other thread touches it during the call. Memory that a call only reads may be
 * lent twice, and to several threads at a time.
 *
 * Threads. Every function is reentrant: it keeps nothing between calls, takes no
 * lock and allocates nothing. Planning takes 7 to 13 KB of stack, and up to 125
 * where some 50 axes are kept whole one after another; a summary some 9 more
 * than that, a session's calls some 15 more; walklist some 30, up to 55; the
 * repeat mark some 65, a copy some 75; the others less than 12.
 *
 * First come the structs and the functions on them, which are what a C program
 * uses. Behind them stand the raw functions, which take a bare array for each
 * part: they are the symbols of the library, and what other languages call.
 */
#ifndef GOUGELILY_H
#define GOUGELILY_H

#include <stddef.h>
#include <stdint.h>

#ifdef __cplusplus
extern "C" {
#endif

/* The version of this header. A program can be run with another library: gougelily_version() tells that one's. */
#define GOUGELILY_VERSION_MAJOR 1
#define GOUGELILY_VERSION_MINOR 0
#define GOUGELILY_VERSION_PATCH 3
#define GOUGELILY_VERSION (GOUGELILY_VERSION_MAJOR * 1000000 + GOUGELILY_VERSION_MINOR * 1000 + GOUGELILY_VERSION_PATCH)

#define GOUGELILY_MAX_RANK 64
#define GOUGELILY_MAX_OPERANDS 8
/* The strides of a plan: operand k's on axis i stands at k * 64 + i. */
#define GOUGELILY_PLAN_STRIDES (GOUGELILY_MAX_OPERANDS * GOUGELILY_MAX_RANK)

/* ------------------------------------------------------------ refusals */

/*
 * Why a call is refused. Of several reasons the least number is answered, but
 * that of a text 12 comes first, then 19, that of a session 10 comes first and 20
 * and 21 before 3, and that 24 follows 4. Total is the product of
 * the extents, reach the sum over the axes of (extent - 1) * size of the stride.
 * If an extent is 0, the rows 6 and 9 pass. 7 is given no longer. A window is
 * refused with 15 if a list has not one entry per axis, a step is 0, an index
 * lies outside its axis, a count is 0 and its first above the extent, or a new
 * stride is outside 64-bit signed. Judging gives 23 for a rank of 0, a line that
 * is not in the V form, a length of 0, an axis that is not there, or a mark
 * buffer of another length. NumPy's descriptions give 19, after 12 and before
 * all others, for a size of 0, a byte stride that is no multiple of the size, or
 * a computed one outside 64-bit signed. 16, 17 and 18 are told of a copy alone;
 * with a zero extent 17 and 18 pass.
 *
 * The numbers here are positive, and a refused call answers them negated:
 * compare gougelily_refused(answer) with them, not the answer.
 */
#define GOUGELILY_REFUSALS(ROW)                                                                      \
    ROW(GOUGELILY_RANK, 1, "the rank is above 64")                                                   \
    ROW(GOUGELILY_OPERANDS, 2, "there is no operand, or there are more than 8")                      \
    ROW(GOUGELILY_STRIDE_COUNT, 3, "the number of strides is not rank times operands")               \
    ROW(GOUGELILY_CHOSEN, 4, "the chosen operand is not there")                                      \
    ROW(GOUGELILY_TOTAL, 5, "the product of the extents is above 2^64 - 1")                          \
    ROW(GOUGELILY_REACH, 6, "an operand's reach is above 2^63 - 1")                                  \
    ROW(GOUGELILY_START_COUNT, 8, "the number of starts is not the number of operands")              \
    ROW(GOUGELILY_OFFSETS, 9, "some offset from the start is outside 64-bit signed")                 \
    ROW(GOUGELILY_STATE, 10, "no walk begun on this plan, or no session, comes to this state")       \
    ROW(GOUGELILY_INDEX, 11, "the counters or the index are wrong in number or out of range")        \
    ROW(GOUGELILY_FORM, 12, "the text is not in the form")                                           \
    ROW(GOUGELILY_TEXT_TOTAL, 13, "more than 1,048,576 cells in a text, or 65,536 in judging")       \
    ROW(GOUGELILY_ROOM, 14, "the output is longer than the room lent for it")                        \
    ROW(GOUGELILY_WINDOW, 15, "a window's list, step, index or new stride is wrong")                 \
    ROW(GOUGELILY_COPY_SIZES, 16, "a copy has two operands of one size, of 1 to 16 bytes")           \
    ROW(GOUGELILY_BUFFER, 17, "some cell lies outside its buffer")                                   \
    ROW(GOUGELILY_REPEATS, 18, "the destination's mark is not no: two indices may share a cell")     \
    ROW(GOUGELILY_BYTE_STRIDES, 19, "size 0, or a byte stride that is no multiple of it or too big") \
    ROW(GOUGELILY_NINTH, 20, "a ninth operand is to join a session")                                 \
    ROW(GOUGELILY_LEAVING, 21, "the operand that is to leave is not there, or the only one")         \
    ROW(GOUGELILY_SLICE, 22, "a cell lies outside the slice of cells that is lent")                  \
    ROW(GOUGELILY_VISITS, 23, "visits not in the form, rank 0, or a mark buffer of another length")  \
    ROW(GOUGELILY_RECORD, 24, "the machine record is outside its bounds")

#define GOUGELILY_ROW(name, number, sentence) name = number,
typedef enum gougelily_refusal_t {
    GOUGELILY_SERVED = 0, /* not refused */
    GOUGELILY_REFUSALS(GOUGELILY_ROW)
} gougelily_refusal_t;
#undef GOUGELILY_ROW

/* The refusal in an answer as it comes (-6 is GOUGELILY_REACH); GOUGELILY_SERVED if the answer is 0 or more. */
static inline gougelily_refusal_t gougelily_refused(int64_t answer);

/* The sentence of an answer as it comes (-6 is that of row 6), without a full stop; "not refused" if it is 0 or more. */
static inline const char *gougelily_refusal_text(int64_t answer);

/* ------------------------------------------------------------ the structs */

/* What a plan is for. Any other number is a fold, too: it is not refused. */
typedef enum gougelily_purpose_t {
    GOUGELILY_POINTWISE = 0,      /* pointwise; `chosen` is not looked at */
    GOUGELILY_POINTWISE_INTO = 1, /* pointwise into the chosen operand */
    GOUGELILY_FOLD = 2            /* a fold, ordered by the chosen operand */
} gougelily_purpose_t;

/* A layout with its purpose. The arrays stay the caller's. */
typedef struct gougelily_layout_t {
    const uint64_t *extents; /* axis 0 first */
    size_t rank;
    const uint64_t *sizes; /* in bytes, one per operand */
    size_t operands;
    const int64_t *strides; /* in elements, operand by operand, each with one per axis */
    size_t stride_count;    /* rank * operands */
    uint64_t purpose;       /* a gougelily_purpose_t; above 2 it is a fold */
    uint64_t chosen;        /* an operand, unless the purpose has none */
} gougelily_layout_t;

/*
 * The machine that a plan is made for. On a real processor these are numbers of
 * its L1 data cache:
 *   line    the bytes of a cache line: 32, 64, 128 or 256
 *   cache   the bytes that blocks may take, 4,096 to 1,048,576: the cache's size
 *   way     the bytes of a way: the cache's size divided by its ways. A multiple
 *           of the line, from the line up to the cache. Lines whose addresses
 *           differ by a multiple of it share a set
 *   live    the lines of one set that may be in use at a time, 1 to 16: its ways
 *           less a quarter, which replacement and prefetching take
 * `lscpu -C` prints them, in the row L1d: COHERENCY-SIZE is the line, ONE-SIZE
 * the cache, and ONE-SIZE divided by WAYS the way. The kernel has the same in
 * sysfs, in devices/system/cpu/cpu0/cache/index0: coherency_line_size, size,
 * ways_of_associativity. An Intel L1 of 48 KiB with 12 ways is
 * { 64, 49152, 4096, 9 }, one of 32 KiB with 8 ways the machine below.
 */
typedef struct gougelily_machine_t {
    uint64_t line, cache, way, live;
} gougelily_machine_t;

/* 32 KiB with 8 ways: the machine of the text, and that of the original. */
#define GOUGELILY_FIXED_MACHINE { 64, 32768, 4096, 6 }

/* A plan: the first `rank` places of extents and blocks, the innermost axis first, and operand k's strides from place k * 64 on. */
typedef struct gougelily_plan_t {
    size_t rank;
    size_t operands;
    uint64_t extents[GOUGELILY_MAX_RANK];
    uint64_t blocks[GOUGELILY_MAX_RANK];
    int64_t strides[GOUGELILY_PLAN_STRIDES];
} gougelily_plan_t;

/* An index: its first `count` places. */
typedef struct gougelily_index_t {
    size_t count;
    uint64_t places[GOUGELILY_MAX_RANK];
} gougelily_index_t;

/* Where a walk's next block starts; or, with `ended` not 0, that there is none. */
typedef struct gougelily_walk_t {
    uint64_t ended;
    uint64_t counters[GOUGELILY_MAX_RANK];
    int64_t offsets[GOUGELILY_MAX_OPERANDS];
} gougelily_walk_t;

/*
 * A block: cell k of operand j is at offsets[j] + k * strides[j], for k below
 * length. The counters are the plan index of its first cell; cell k has k more
 * on axis 0.
 */
typedef struct gougelily_block_t {
    uint64_t counters[GOUGELILY_MAX_RANK];
    uint64_t length;
    int64_t offsets[GOUGELILY_MAX_OPERANDS];
    int64_t strides[GOUGELILY_MAX_OPERANDS];
} gougelily_block_t;

/*
 * A window of a layout: for each axis the first index, how many there are, and
 * the step to the next one, which is not 0 and goes backwards if it is negative.
 * Index i of the window is index firsts + steps * i of the layout. The arrays
 * stay the caller's.
 */
typedef struct gougelily_window_t {
    const uint64_t *firsts;
    const uint64_t *counts;
    const int64_t *steps;
    size_t rank; /* of each list */
} gougelily_window_t;

/*
 * What a window yields: a layout of its own, with the rank, the operands and the
 * sizes of the layout that it was cut from. The strides stand operand by operand
 * with `rank` of them each, as a layout has them. A walk of the window starts,
 * for operand k, at the start that the layout's walk has, plus shifts[k].
 */
typedef struct gougelily_windowed_t {
    uint64_t extents[GOUGELILY_MAX_RANK];
    int64_t strides[GOUGELILY_MAX_OPERANDS * GOUGELILY_MAX_RANK];
    int64_t shifts[GOUGELILY_MAX_OPERANDS];
} gougelily_windowed_t;

/*
 * The record of a visit, from which both views are taken: the block's number,
 * the block, and the original index of its first cell.
 */
typedef struct gougelily_visit_t {
    uint64_t number;
    gougelily_block_t block;
    gougelily_index_t first;
} gougelily_visit_t;

/* What a student sees of a visit. There is no offset, no stride and no counter in it. */
typedef struct gougelily_student_t {
    uint64_t number;
    uint64_t length;
    gougelily_index_t first;
} gougelily_student_t;

/*
 * A session: a layout with its purpose and machine, to which an operand joins or
 * from which one leaves, and what it gives. The purpose is 0, 1 or 2, `chosen` 0
 * where there is none; strides as a layout has them; operand k's rank on axis i
 * at k * 64 + i; a cost of 0 says that the plan's axis has none.
 */
typedef struct gougelily_session_t {
    uint64_t purpose, chosen;
    gougelily_machine_t machine;
    size_t rank, operands;
    uint64_t extents[GOUGELILY_MAX_RANK], sizes[GOUGELILY_MAX_OPERANDS];
    int64_t strides[GOUGELILY_PLAN_STRIDES];
    uint64_t ranks[GOUGELILY_PLAN_STRIDES], weights[GOUGELILY_MAX_RANK], costs[GOUGELILY_MAX_RANK];
    gougelily_plan_t plan;
} gougelily_session_t;

/* ------------------------------------------------------------ functions on the structs */

/*
 * The plan of a layout for its purpose on a machine. These alone fix it.
 *
 * Answers 0, and the plan: its rank, at most that of the layout, and its
 * operands; for each of its axes, the innermost first, the extent and the block
 * size; and for each operand k and axis i the stride, at k * 64 + i.
 * Refuses 1, 2, 3, 4, 24, 5, 6, in this order.
 */
static inline int64_t gougelily_plan_layout(const gougelily_layout_t *layout, const gougelily_machine_t *machine,
                                            gougelily_plan_t *plan);

/*
 * Whether a layout can be planned for its purpose, without planning it.
 *
 * Answers 0 if there is a plan, on any machine within its bounds.
 * Refuses 1, 2, 3, 4, 5, 6: what planning refuses on such a machine.
 */
static inline int64_t gougelily_check(const gougelily_layout_t *layout);

/*
 * A window of a layout. Purpose and chosen operand are not looked at.
 *
 * Answers 0, and the window's extents, which are its counts; its strides, step *
 * stride where the count is 2 or more and else the layout's; and the shifts, the
 * sums of first * stride. A count of 0 on any axis makes the window empty, and
 * then every shift is 0. What planning takes of the layout it takes of its
 * windows, and starts that its walk takes are taken, shifted, by theirs.
 * Refuses 1, 2, 3, 5, 6, 15, in this order.
 */
static inline int64_t gougelily_window_layout(const gougelily_layout_t *layout, const gougelily_window_t *window,
                                              gougelily_windowed_t *windowed);

/* The layout of a window, to be planned: it has the arrays of `windowed`, and the sizes and the purpose of the one it was cut from. */
static inline gougelily_layout_t gougelily_windowed_layout(const gougelily_layout_t *layout,
                                                           const gougelily_windowed_t *windowed);

/*
 * The original index of a plan index: which cell of the layout a walk is at.
 * (No machine is asked for: axes and indices do not depend on it.)
 *
 * Takes a plan index: a block's counters, with k added on axis 0 for the block's
 * cell k.
 * Answers 0, and the index with its count, the layout's rank.
 * Refuses 1, 2, 3, 4, 5, 6, 11.
 */
static inline int64_t gougelily_original_index_of(const gougelily_layout_t *layout, const uint64_t *counters,
                                                  size_t counter_count, gougelily_index_t *original);

/*
 * The plan index of an original index, the reverse of gougelily_original_index_of.
 *
 * Answers 0, and the plan index with its count, the plan's rank.
 * Refuses 1, 2, 3, 4, 5, 6, 11.
 */
static inline int64_t gougelily_plan_index_of(const gougelily_layout_t *layout, const uint64_t *original,
                                              size_t original_count, gougelily_index_t *index);

/*
 * A walk's beginning.
 *
 * Takes a plan, made by gougelily_plan_layout or by hand, and a start for each
 * operand: the offset of its cell with index 0 on every axis. What lies behind
 * the plan's counts is not looked at.
 * Answers 0, and the state before the first block. With a zero extent the walk
 * has ended at once, and `ended` is 1; else it is 0.
 * Refuses 1, 2, 5, 6, 8, 9, judged on the plan's own extents and strides.
 */
static inline int64_t gougelily_begin_walk(const gougelily_plan_t *plan, const int64_t *starts, size_t start_count,
                                           gougelily_walk_t *walk);

/*
 * One step of a walk: its next block.
 *
 * Takes the plan that the walk began on, and the walk, which the call moves on.
 * Answers 1, the block and the walk's state after it. The block is its counters,
 * its length, the number of its cells; and for each operand the offset of its
 * first cell and the stride to the next cell.
 * Answers 0 after the last block, as often as it is asked: then walk and block
 * are as they were.
 * Refuses 1, 2, 10: also any state that no walk begun on this plan comes to.
 */
static inline int64_t gougelily_step_walk(const gougelily_plan_t *plan, gougelily_walk_t *walk,
                                          gougelily_block_t *block);

/*
 * Many steps of a walk in one call: as many of its next blocks as there is room
 * for. What a call costs, and the check of the state, is paid once for them all.
 *
 * Takes two arrays to write: lengths with a place for each block, and offsets
 * with plan->operands places for each. The smaller of the two is the room.
 * Answers how many blocks it wrote, and the state after them. Block j has
 * lengths[j] cells, and operand k's offset of its first cell is
 * offsets[j * plan->operands + k]; the stride to the next cell is the plan's on
 * axis 0, plan->strides[k * 64]. Every place behind these is as it was. Fewer
 * blocks than there is room for are the last ones.
 * Answers 0 after the last block, as often as it is asked, and also where there
 * is no room for a block, which walk->ended tells apart: then all is as it was.
 * Refuses 1, 2, 10, as gougelily_step_walk does.
 */
static inline int64_t gougelily_step_walk_many(const gougelily_plan_t *plan, gougelily_walk_t *walk, uint64_t *lengths,
                                               size_t length_count, int64_t *offsets, size_t offset_count);

/*
 * The copy of the cells of operand 1, the source, to those of operand 0, the
 * destination, each in a buffer of bytes of its own. Purpose and chosen operand
 * are not looked at: the copy follows the plan for writing operand 0.
 *
 * Takes a layout of two operands of one size, 1 to 16 bytes; a start for each,
 * as a walk's beginning has them: a cell's bytes start at offset * size in its
 * buffer; and the buffers with their lengths, which share no byte.
 * Answers 0. Each cell of the destination then holds the source cell of its
 * index, and every byte outside the destination's cells is as it was. With a
 * zero extent nothing is copied.
 * Refuses 1, 2, 3, 24, 5, 6, 8, 9, 16, 17, 18, in this order.
 */
static inline int64_t gougelily_copy_cells(const gougelily_layout_t *layout, const gougelily_machine_t *machine,
                                           const int64_t *starts, size_t start_count, uint8_t *destination,
                                           size_t destination_len, const uint8_t *source, size_t source_len);

/*
 * A visit: one step of a walk, with its record.
 *
 * Takes the layout with its purpose, a plan of it, and the walk, which the call
 * moves on. The plan's block sizes may be any.
 * Answers 1, the record and the walk's state after the block. The number is that
 * of a B line: how many blocks come before this one. It is worked out from the
 * walk's counters, so steps and visits may be mixed.
 * Answers 0 after the last block, as often as it is asked: then walk and record
 * are as they were.
 * Refuses 1, 2, 3, 4, 5, 6, 10, 11. Rows 1 and 2 are judged on the layout and on
 * the plan. 11 says that the block's first cell is no cell of the layout's plan,
 * which happens only with a plan that is not the layout's.
 */
static inline int64_t gougelily_next_visit(const gougelily_layout_t *layout, const gougelily_plan_t *plan,
                                           gougelily_walk_t *walk, gougelily_visit_t *visit);

/* What an engineer sees of a visit: the block, as gougelily_step_walk hands it out. Answers 0. */
static inline int64_t gougelily_engineer_view(const gougelily_visit_t *visit, gougelily_block_t *block);

/*
 * What a student sees of a visit: its number, its length and the original index
 * of its first cell. Walks of one plan from other starts show the student the
 * same. By the layout's strides the index gives the engineer's offsets, less the
 * starts, of the block of that number.
 *
 * Answers 0, whatever the record holds: a count above 64 is read as 64.
 */
static inline int64_t gougelily_student_view(const gougelily_visit_t *visit, gougelily_student_t *student);

/*
 * A session's beginning, with any layout that planning accepts.
 * Answers 0, and the session. Refuses 1, 2, 3, 4, 24, 5, 6, in this order.
 */
static inline int64_t gougelily_session_begin(const gougelily_layout_t *layout, const gougelily_machine_t *machine,
                                              gougelily_session_t *session);

/*
 * An operand joins a session at the end, with its size and a stride per axis.
 * Everything that the session keeps is then what its present layout gives.
 * Answers 0. Refuses 10, 20, 3, 6, in this order: 10 a session that no beginning
 * and accepted calls lead to.
 */
static inline int64_t gougelily_session_join(gougelily_session_t *session, uint64_t size, const int64_t *strides,
                                             size_t stride_count);

/*
 * An operand leaves a session, and the later ones move up. The chosen operand
 * moves with its data; if it is the one that leaves there is none for a pointwise
 * purpose, and operand 0 for a fold.
 * Answers 0. Refuses 10, 21, in this order.
 */
static inline int64_t gougelily_session_leave(gougelily_session_t *session, uint64_t operand);

/* ------------------------------------------------------------ functions on texts and one operand */

/* Whether two indices of an operand share an offset. */
typedef enum gougelily_mark_t {
    GOUGELILY_MARK_NO = 0,
    GOUGELILY_MARK_YES = 1,
    GOUGELILY_MARK_UNDECIDED = 2
} gougelily_mark_t;

/*
 * The repeat mark of an operand: whether two indices of the layout share an
 * offset.
 *
 * Takes the extents and the strides of the one operand.
 * Answers a gougelily_mark_t. Up to 4,096 cells it is no or yes, exactly. Above
 * that it is yes if an axis of extent above 1 has stride 0; else no if, by rising
 * stride size over the axes of extent above 1, each stride size exceeds the reach
 * of those before it; else undecided. With a zero extent it is no. At any total
 * no says that no two indices share an offset, and yes that two do.
 * Refuses 1, 3, 5, 6.
 */
int64_t gougelily_repeat_mark(const uint64_t *extents, size_t extent_count, const int64_t *strides,
                              size_t stride_count);

/*
 * The plan and the blocks of a layout given as text: the lines that the program
 * walklist prints.
 *
 * Takes the text, at most 16,384 bytes: a line L,purpose,rank,operands,chosen
 * (P or F; `-` for no chosen operand), a line E,extents and for each operand a
 * line O,size,strides. And room for the output.
 * Answers the output's length: K,plan rank; a line A,axis,extent,block,strides
 * for each axis; a line B,number,length,offsets for each block, from starts 0;
 * Z,blocks,cells. It stands at the front of the room, and bytes behind it are as
 * they were.
 * Refuses 12, 1, 2, 4, 5, 6, 13, 14, in this order.
 */
int64_t gougelily_walklist(const uint8_t *text, size_t text_len, uint8_t *room, size_t room_len);

/* What is said of a list of visits. */
typedef enum gougelily_verdict_t {
    GOUGELILY_ACCEPTED = 0, /* each index of the layout is met exactly once */
    GOUGELILY_SHORT = 1,    /* some index is not met */
    GOUGELILY_DOUBLE = 2,   /* some index is met twice */
    GOUGELILY_OUTSIDE = 3   /* some run leaves the layout */
} gougelily_verdict_t;

/*
 * Judges the walk of another tool: whether the runs that it lists meet each
 * index of a layout exactly once.
 *
 * Takes the extents, rank 1 to 64; the visits as text of any length, perhaps
 * empty, each a line V,axis,length,index with one number per axis: a run of that
 * length, 1 or more, along the axis from the index on; and a mark buffer of one
 * byte per index of the layout.
 * Answers a gougelily_verdict_t: outside if a run leaves the layout, else double
 * if an index comes again, else short if one does not come, else accepted. The
 * marks are then 1 at each index met and 0 elsewhere, axis 0 quickest; outside
 * they are all 0. Our own walks, as runs of single cells, are accepted.
 * Refuses 1, 5, 13, 23, in this order; 13 from 65,537 cells on.
 */
int64_t gougelily_judge(const uint64_t *extents, size_t extent_count, const uint8_t *text, size_t text_len,
                        uint8_t *marks, size_t mark_count);

/*
 * What a description of an array says, in the words of the NumPy array interface
 * (a.__array_interface__), as text: our extents and element strides.
 *
 * Takes the text, at most 16,384 bytes: a line N,size,rank with the size of an
 * element in bytes, a line S,shape, and perhaps a line T,byte strides. At rank 0
 * S and T stand alone on their lines. Without T the array is packed: an axis's
 * byte stride is the size times the extents after it.
 * Answers 0, the size, the rank, and extents and strides with the axes reversed:
 * NumPy's last axis is our axis 0. The strides are in elements.
 * Refuses 12, 19, 1, in this order; a text may tell a rank above 64.
 */
int64_t gougelily_from_numpy(const uint8_t *text, size_t text_len, uint64_t size[1], size_t rank[1],
                             uint64_t extents[GOUGELILY_MAX_RANK], int64_t strides[GOUGELILY_MAX_RANK]);

/*
 * The description of one operand as text, always with its T line: the way back.
 * What gougelily_from_numpy makes of a text with its T line gives that text
 * again, and what it makes of this text are the numbers again.
 *
 * Answers the text's length. It stands at the front of the room, and bytes
 * behind it are as they were. 2,720 bytes have room for any.
 * Refuses 19, 1, 3, 14, in this order; 19 on every stride handed over.
 */
int64_t gougelily_to_numpy(uint64_t size, const uint64_t *extents, size_t extent_count, const int64_t *strides,
                           size_t stride_count, uint8_t *room, size_t room_len);

/*
 * A summary of cells: `count` cells, of which `nans` are not a number. With
 * `extremes` 1 there is a cell that is a number, and least and greatest are the
 * extremes; with 0 there is none, and both are +0.0.
 */
typedef struct gougelily_summary_t {
    double sum;
    double least;
    double greatest;
    uint64_t count;
    uint64_t nans;
    uint64_t extremes;
} gougelily_summary_t;

/*
 * The summary of an operand's cells, in the order of its plan: that of the
 * layout with this operand alone, of size 8, for a fold that it orders. So layout
 * and machine record alone fix the bits of the sum, on whatever processor it is
 * made.
 *
 * Takes the extents and the strides of the one operand, the machine, and the
 * cells: the cell with index 0 on every axis is cells[start].
 * Answers 0, and the summary. The sum starts at +0.0 and each cell is added with
 * one rounding; a cell that several indices name is added and counted at each.
 * Cells that are not a number enter the sum, and neither extreme. The first other
 * cell sets both extremes, later only a strictly smaller one replaces the least
 * and a strictly greater one the greatest. Of a sum that is not a number the bits
 * are left open. With a zero extent nothing is met: the count is 0. If all cells
 * are whole numbers whose sizes, added at each visit, total at most 2^53, the sum
 * is exact.
 * Refuses 1, 3, 24, 5, 6, 9, 22, in this order.
 */
static inline int64_t gougelily_summarize(const uint64_t *extents, size_t rank, const int64_t *strides,
                                          size_t stride_count, const gougelily_machine_t *machine, int64_t start,
                                          const double *cells, size_t cell_count, gougelily_summary_t *summary);

/* The version of the library that the program runs with, as GOUGELILY_VERSION has it: 1.2.3 is 1,002,003. */
int64_t gougelily_version(void);

/* ------------------------------------------------------------ the raw functions */

/*
 * Each answers and refuses what the function on structs answers that is named
 * above it. A layout comes as its arrays with their lengths, purpose and chosen
 * operand; a plan, a walk, a block as the places of its struct. A number that is
 * handed out goes into an array of one place. An `ended` that is not 0 says that
 * the walk has ended; a call writes 0 or 1.
 */

/* gougelily_plan_layout */
int64_t gougelily_plan(const uint64_t *extents, size_t extent_count, const uint64_t *sizes, size_t size_count,
                       const int64_t *strides, size_t stride_count, uint64_t purpose, uint64_t chosen,
                       uint64_t line, uint64_t cache, uint64_t way, uint64_t live, size_t rank[1],
                       size_t operands[1], uint64_t plan_extents[GOUGELILY_MAX_RANK],
                       uint64_t blocks[GOUGELILY_MAX_RANK], int64_t plan_strides[GOUGELILY_PLAN_STRIDES]);

/* gougelily_check */
int64_t gougelily_check_layout(const uint64_t *extents, size_t extent_count, const uint64_t *sizes, size_t size_count,
                               const int64_t *strides, size_t stride_count, uint64_t purpose, uint64_t chosen);

/* gougelily_window_layout */
int64_t gougelily_window(const uint64_t *extents, size_t extent_count, const uint64_t *sizes, size_t size_count,
                         const int64_t *strides, size_t stride_count, const uint64_t *firsts, size_t first_count,
                         const uint64_t *counts, size_t count_count, const int64_t *steps, size_t step_count,
                         uint64_t window_extents[GOUGELILY_MAX_RANK],
                         int64_t window_strides[GOUGELILY_MAX_OPERANDS * GOUGELILY_MAX_RANK],
                         int64_t shifts[GOUGELILY_MAX_OPERANDS]);

/* gougelily_copy_cells */
int64_t gougelily_copy(const uint64_t *extents, size_t extent_count, const uint64_t *sizes, size_t size_count,
                       const int64_t *strides, size_t stride_count, uint64_t line, uint64_t cache, uint64_t way,
                       uint64_t live, const int64_t *starts, size_t start_count, uint8_t *destination,
                       size_t destination_len, const uint8_t *source, size_t source_len);

/* gougelily_original_index_of */
int64_t gougelily_original_index(const uint64_t *extents, size_t extent_count, const uint64_t *sizes,
                                 size_t size_count, const int64_t *strides, size_t stride_count, uint64_t purpose,
                                 uint64_t chosen, const uint64_t *counters, size_t counter_count, size_t count[1],
                                 uint64_t index[GOUGELILY_MAX_RANK]);

/* gougelily_plan_index_of */
int64_t gougelily_plan_index(const uint64_t *extents, size_t extent_count, const uint64_t *sizes, size_t size_count,
                             const int64_t *strides, size_t stride_count, uint64_t purpose, uint64_t chosen,
                             const uint64_t *original, size_t original_count, size_t count[1],
                             uint64_t index[GOUGELILY_MAX_RANK]);

/* gougelily_begin_walk */
int64_t gougelily_begin(size_t rank, size_t operands, const uint64_t extents[GOUGELILY_MAX_RANK],
                        const uint64_t blocks[GOUGELILY_MAX_RANK], const int64_t strides[GOUGELILY_PLAN_STRIDES],
                        const int64_t *starts, size_t start_count, uint64_t ended[1],
                        uint64_t counters[GOUGELILY_MAX_RANK], int64_t offsets[GOUGELILY_MAX_OPERANDS]);

/* gougelily_step_walk */
int64_t gougelily_step(size_t rank, size_t operands, const uint64_t extents[GOUGELILY_MAX_RANK],
                       const uint64_t blocks[GOUGELILY_MAX_RANK], const int64_t strides[GOUGELILY_PLAN_STRIDES],
                       uint64_t ended[1], uint64_t counters[GOUGELILY_MAX_RANK],
                       int64_t offsets[GOUGELILY_MAX_OPERANDS], uint64_t block_counters[GOUGELILY_MAX_RANK],
                       uint64_t length[1], int64_t block_offsets[GOUGELILY_MAX_OPERANDS],
                       int64_t block_strides[GOUGELILY_MAX_OPERANDS]);

/* gougelily_step_walk_many */
int64_t gougelily_step_many(size_t rank, size_t operands, const uint64_t extents[GOUGELILY_MAX_RANK],
                            const uint64_t blocks[GOUGELILY_MAX_RANK], const int64_t strides[GOUGELILY_PLAN_STRIDES],
                            uint64_t ended[1], uint64_t counters[GOUGELILY_MAX_RANK],
                            int64_t offsets[GOUGELILY_MAX_OPERANDS], uint64_t *block_lengths, size_t length_count,
                            int64_t *block_offsets, size_t offset_count);

/* gougelily_summarize */
int64_t gougelily_summary(const uint64_t *extents, size_t extent_count, const int64_t *strides, size_t stride_count,
                          uint64_t line, uint64_t cache, uint64_t way, uint64_t live, int64_t start,
                          const double *cells, size_t cell_count, double sum[1], double least[1], double greatest[1],
                          uint64_t count[1], uint64_t nans[1], uint64_t extremes[1]);

/* gougelily_next_visit */
int64_t gougelily_visit(const uint64_t *extents, size_t extent_count, const uint64_t *sizes, size_t size_count,
                        const int64_t *strides, size_t stride_count, uint64_t purpose, uint64_t chosen, size_t rank,
                        size_t operands, const uint64_t plan_extents[GOUGELILY_MAX_RANK],
                        const uint64_t blocks[GOUGELILY_MAX_RANK], const int64_t plan_strides[GOUGELILY_PLAN_STRIDES],
                        uint64_t ended[1], uint64_t counters[GOUGELILY_MAX_RANK],
                        int64_t offsets[GOUGELILY_MAX_OPERANDS], uint64_t number[1],
                        uint64_t block_counters[GOUGELILY_MAX_RANK], uint64_t length[1],
                        int64_t block_offsets[GOUGELILY_MAX_OPERANDS], int64_t block_strides[GOUGELILY_MAX_OPERANDS],
                        size_t count[1], uint64_t index[GOUGELILY_MAX_RANK]);

/* gougelily_engineer_view */
int64_t gougelily_engineer(uint64_t number, const uint64_t counters[GOUGELILY_MAX_RANK], uint64_t length,
                           const int64_t offsets[GOUGELILY_MAX_OPERANDS], const int64_t strides[GOUGELILY_MAX_OPERANDS],
                           size_t count, const uint64_t index[GOUGELILY_MAX_RANK],
                           uint64_t engineer_counters[GOUGELILY_MAX_RANK], uint64_t engineer_length[1],
                           int64_t engineer_offsets[GOUGELILY_MAX_OPERANDS],
                           int64_t engineer_strides[GOUGELILY_MAX_OPERANDS]);

/* gougelily_student_view */
int64_t gougelily_student(uint64_t number, const uint64_t counters[GOUGELILY_MAX_RANK], uint64_t length,
                          const int64_t offsets[GOUGELILY_MAX_OPERANDS], const int64_t strides[GOUGELILY_MAX_OPERANDS],
                          size_t count, const uint64_t index[GOUGELILY_MAX_RANK], uint64_t student_number[1],
                          uint64_t student_length[1], size_t student_count[1],
                          uint64_t student_index[GOUGELILY_MAX_RANK]);

/* gougelily_session_begin; the machine's four numbers in one array, the plan's rank and operands in one */
int64_t gougelily_begin_session(const uint64_t *layout_extents, size_t extent_count, const uint64_t *layout_sizes,
                                size_t size_count, const int64_t *layout_strides, size_t stride_count,
                                uint64_t wanted, uint64_t leading, uint64_t line, uint64_t cache, uint64_t way,
                                uint64_t live, uint64_t purpose[1], uint64_t chosen[1], uint64_t machine[4],
                                size_t rank[1], size_t operands[1], uint64_t extents[GOUGELILY_MAX_RANK],
                                uint64_t sizes[GOUGELILY_MAX_OPERANDS], int64_t strides[GOUGELILY_PLAN_STRIDES],
                                uint64_t ranks[GOUGELILY_PLAN_STRIDES], uint64_t weights[GOUGELILY_MAX_RANK],
                                uint64_t costs[GOUGELILY_MAX_RANK], size_t plan_counts[2],
                                uint64_t plan_extents[GOUGELILY_MAX_RANK], uint64_t blocks[GOUGELILY_MAX_RANK],
                                int64_t plan_strides[GOUGELILY_PLAN_STRIDES]);

/* gougelily_session_join */
int64_t gougelily_join_session(uint64_t purpose[1], uint64_t chosen[1], uint64_t machine[4], size_t rank[1],
                               size_t operands[1], const uint64_t extents[GOUGELILY_MAX_RANK],
                               uint64_t sizes[GOUGELILY_MAX_OPERANDS], int64_t strides[GOUGELILY_PLAN_STRIDES],
                               uint64_t ranks[GOUGELILY_PLAN_STRIDES], uint64_t weights[GOUGELILY_MAX_RANK],
                               uint64_t costs[GOUGELILY_MAX_RANK], size_t plan_counts[2],
                               uint64_t plan_extents[GOUGELILY_MAX_RANK], uint64_t blocks[GOUGELILY_MAX_RANK],
                               int64_t plan_strides[GOUGELILY_PLAN_STRIDES], uint64_t size, const int64_t *joining,
                               size_t joining_count);

/* gougelily_session_leave */
int64_t gougelily_leave_session(uint64_t purpose[1], uint64_t chosen[1], uint64_t machine[4], size_t rank[1],
                                size_t operands[1], const uint64_t extents[GOUGELILY_MAX_RANK],
                                uint64_t sizes[GOUGELILY_MAX_OPERANDS], int64_t strides[GOUGELILY_PLAN_STRIDES],
                                uint64_t ranks[GOUGELILY_PLAN_STRIDES], uint64_t weights[GOUGELILY_MAX_RANK],
                                uint64_t costs[GOUGELILY_MAX_RANK], size_t plan_counts[2],
                                uint64_t plan_extents[GOUGELILY_MAX_RANK], uint64_t blocks[GOUGELILY_MAX_RANK],
                                int64_t plan_strides[GOUGELILY_PLAN_STRIDES], uint64_t operand);

/* ------------------------------------------------------------ older names */

/* They stay; new programs take the names on the right, which are those of the raw functions. */
#define gougelily_find_original gougelily_original_index_of
#define gougelily_find_in_plan gougelily_plan_index_of
#define gougelily_next_block gougelily_step_walk
#define gougelily_next_blocks gougelily_step_walk_many

/* ------------------------------------------------------------ what the functions on structs do */

static inline gougelily_refusal_t gougelily_refused(int64_t answer)
{
    return answer < 0 ? (gougelily_refusal_t)-answer : GOUGELILY_SERVED;
}

static inline const char *gougelily_refusal_text(int64_t answer)
{
    if (answer >= 0)
        return "not refused";
#define GOUGELILY_ROW(name, number, sentence) \
    if (answer == -number)                    \
        return sentence;
    GOUGELILY_REFUSALS(GOUGELILY_ROW)
#undef GOUGELILY_ROW
    return "no refusal has this number";
}

static inline int64_t gougelily_plan_layout(const gougelily_layout_t *layout, const gougelily_machine_t *machine,
                                            gougelily_plan_t *plan)
{
    return gougelily_plan(layout->extents, layout->rank, layout->sizes, layout->operands, layout->strides,
                          layout->stride_count, layout->purpose, layout->chosen, machine->line, machine->cache,
                          machine->way, machine->live, &plan->rank, &plan->operands, plan->extents, plan->blocks,
                          plan->strides);
}

static inline int64_t gougelily_check(const gougelily_layout_t *layout)
{
    return gougelily_check_layout(layout->extents, layout->rank, layout->sizes, layout->operands, layout->strides,
                                  layout->stride_count, layout->purpose, layout->chosen);
}

static inline int64_t gougelily_window_layout(const gougelily_layout_t *layout, const gougelily_window_t *window,
                                              gougelily_windowed_t *windowed)
{
    return gougelily_window(layout->extents, layout->rank, layout->sizes, layout->operands, layout->strides,
                            layout->stride_count, window->firsts, window->rank, window->counts, window->rank,
                            window->steps, window->rank, windowed->extents, windowed->strides, windowed->shifts);
}

static inline int64_t gougelily_copy_cells(const gougelily_layout_t *layout, const gougelily_machine_t *machine,
                                           const int64_t *starts, size_t start_count, uint8_t *destination,
                                           size_t destination_len, const uint8_t *source, size_t source_len)
{
    return gougelily_copy(layout->extents, layout->rank, layout->sizes, layout->operands, layout->strides,
                          layout->stride_count, machine->line, machine->cache, machine->way, machine->live, starts,
                          start_count, destination, destination_len, source, source_len);
}

static inline gougelily_layout_t gougelily_windowed_layout(const gougelily_layout_t *layout,
                                                           const gougelily_windowed_t *windowed)
{
    gougelily_layout_t cut = *layout;
    cut.extents = windowed->extents;
    cut.strides = windowed->strides;
    return cut;
}

static inline int64_t gougelily_original_index_of(const gougelily_layout_t *layout, const uint64_t *counters,
                                                  size_t counter_count, gougelily_index_t *original)
{
    return gougelily_original_index(layout->extents, layout->rank, layout->sizes, layout->operands, layout->strides,
                                    layout->stride_count, layout->purpose, layout->chosen, counters, counter_count,
                                    &original->count, original->places);
}

static inline int64_t gougelily_plan_index_of(const gougelily_layout_t *layout, const uint64_t *original,
                                              size_t original_count, gougelily_index_t *index)
{
    return gougelily_plan_index(layout->extents, layout->rank, layout->sizes, layout->operands, layout->strides,
                                layout->stride_count, layout->purpose, layout->chosen, original, original_count,
                                &index->count, index->places);
}

static inline int64_t gougelily_begin_walk(const gougelily_plan_t *plan, const int64_t *starts, size_t start_count,
                                           gougelily_walk_t *walk)
{
    return gougelily_begin(plan->rank, plan->operands, plan->extents, plan->blocks, plan->strides, starts, start_count,
                           &walk->ended, walk->counters, walk->offsets);
}

static inline int64_t gougelily_step_walk(const gougelily_plan_t *plan, gougelily_walk_t *walk,
                                          gougelily_block_t *block)
{
    return gougelily_step(plan->rank, plan->operands, plan->extents, plan->blocks, plan->strides, &walk->ended,
                          walk->counters, walk->offsets, block->counters, &block->length, block->offsets,
                          block->strides);
}

static inline int64_t gougelily_step_walk_many(const gougelily_plan_t *plan, gougelily_walk_t *walk, uint64_t *lengths,
                                               size_t length_count, int64_t *offsets, size_t offset_count)
{
    return gougelily_step_many(plan->rank, plan->operands, plan->extents, plan->blocks, plan->strides, &walk->ended,
                               walk->counters, walk->offsets, lengths, length_count, offsets, offset_count);
}

static inline int64_t gougelily_summarize(const uint64_t *extents, size_t rank, const int64_t *strides,
                                          size_t stride_count, const gougelily_machine_t *machine, int64_t start,
                                          const double *cells, size_t cell_count, gougelily_summary_t *summary)
{
    return gougelily_summary(extents, rank, strides, stride_count, machine->line, machine->cache, machine->way,
                             machine->live, start, cells, cell_count, &summary->sum, &summary->least,
                             &summary->greatest, &summary->count, &summary->nans, &summary->extremes);
}

static inline int64_t gougelily_next_visit(const gougelily_layout_t *layout, const gougelily_plan_t *plan,
                                           gougelily_walk_t *walk, gougelily_visit_t *visit)
{
    return gougelily_visit(layout->extents, layout->rank, layout->sizes, layout->operands, layout->strides,
                           layout->stride_count, layout->purpose, layout->chosen, plan->rank, plan->operands,
                           plan->extents, plan->blocks, plan->strides, &walk->ended, walk->counters, walk->offsets,
                           &visit->number, visit->block.counters, &visit->block.length, visit->block.offsets,
                           visit->block.strides, &visit->first.count, visit->first.places);
}

static inline int64_t gougelily_engineer_view(const gougelily_visit_t *visit, gougelily_block_t *block)
{
    return gougelily_engineer(visit->number, visit->block.counters, visit->block.length, visit->block.offsets,
                              visit->block.strides, visit->first.count, visit->first.places, block->counters,
                              &block->length, block->offsets, block->strides);
}

static inline int64_t gougelily_student_view(const gougelily_visit_t *visit, gougelily_student_t *student)
{
    return gougelily_student(visit->number, visit->block.counters, visit->block.length, visit->block.offsets,
                             visit->block.strides, visit->first.count, visit->first.places, &student->number,
                             &student->length, &student->first.count, student->first.places);
}

static inline int64_t gougelily_session_begin(const gougelily_layout_t *layout, const gougelily_machine_t *machine,
                                              gougelily_session_t *session)
{
    uint64_t record[4] = { 0, 0, 0, 0 };
    size_t counts[2] = { 0, 0 };
    int64_t answer = gougelily_begin_session(
        layout->extents, layout->rank, layout->sizes, layout->operands, layout->strides, layout->stride_count,
        layout->purpose, layout->chosen, machine->line, machine->cache, machine->way, machine->live, &session->purpose,
        &session->chosen, record, &session->rank, &session->operands, session->extents, session->sizes,
        session->strides, session->ranks, session->weights, session->costs, counts, session->plan.extents,
        session->plan.blocks, session->plan.strides);
    if (answer >= 0) {
        session->machine = *machine;
        session->plan.rank = counts[0];
        session->plan.operands = counts[1];
    }
    return answer;
}

static inline int64_t gougelily_session_join(gougelily_session_t *session, uint64_t size, const int64_t *strides,
                                             size_t stride_count)
{
    uint64_t record[4] = { session->machine.line, session->machine.cache, session->machine.way, session->machine.live };
    size_t counts[2] = { session->plan.rank, session->plan.operands };
    int64_t answer = gougelily_join_session(
        &session->purpose, &session->chosen, record, &session->rank, &session->operands, session->extents,
        session->sizes, session->strides, session->ranks, session->weights, session->costs, counts,
        session->plan.extents, session->plan.blocks, session->plan.strides, size, strides, stride_count);
    if (answer >= 0) {
        session->plan.rank = counts[0];
        session->plan.operands = counts[1];
    }
    return answer;
}

static inline int64_t gougelily_session_leave(gougelily_session_t *session, uint64_t operand)
{
    uint64_t record[4] = { session->machine.line, session->machine.cache, session->machine.way, session->machine.live };
    size_t counts[2] = { session->plan.rank, session->plan.operands };
    int64_t answer = gougelily_leave_session(
        &session->purpose, &session->chosen, record, &session->rank, &session->operands, session->extents,
        session->sizes, session->strides, session->ranks, session->weights, session->costs, counts,
        session->plan.extents, session->plan.blocks, session->plan.strides, operand);
    if (answer >= 0) {
        session->plan.rank = counts[0];
        session->plan.operands = counts[1];
    }
    return answer;
}

#ifdef __cplusplus
}
#endif

#endif
