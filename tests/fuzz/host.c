/*
 * Calls of the library that an input's bytes say, for a fuzzer and for the replay
 * of what it found. The subject, told by the variable SUBJECT, says how the bytes
 * are read: `text`, `judge` and `numpy` have them as a text (judge behind the
 * extents), `calls` as the numbers of any of the other functions. Every call is
 * one of ../c/calls.h, which tests what holds of any call; and calls that must
 * agree are compared.
 *
 * Built with REPLAY it is a program that takes inputs on standard input, one line
 * of hexadecimal digits for each, and prints every call with its answer and what
 * it handed out, as a line of JSON, for tests/fuzz/check to judge.
 */
#include "../c/calls.h"

/* ------------------------------------------------------------ what was called */

static int loud;

static void tell_words(const char *name, const uint64_t *words, size_t count)
{
    if (!loud)
        return;
    printf(",\"%s\":[", name);
    for (size_t i = 0; i < count; i++)
        printf("%s%" PRIu64, i ? "," : "", words[i]);
    printf("]");
}

static void tell_signed(const char *name, const int64_t *words, size_t count)
{
    if (!loud)
        return;
    printf(",\"%s\":[", name);
    for (size_t i = 0; i < count; i++)
        printf("%s%" PRId64, i ? "," : "", words[i]);
    printf("]");
}

static void tell_bytes(const char *name, const void *bytes, size_t count)
{
    if (!loud)
        return;
    printf(",\"%s\":\"", name);
    for (size_t i = 0; i < count; i++)
        printf("%02x", ((const uint8_t *)bytes)[i]);
    printf("\"");
}

static void tell(const char *name, uint64_t word)
{
    if (loud)
        printf(",\"%s\":%" PRIu64, name, word);
}

static void tell_call(const char *name, int64_t answer)
{
    if (loud)
        printf("{\"call\":\"%s\",\"answer\":%" PRId64, name, answer);
}

static void told(void)
{
    if (loud)
        printf("}\n");
}

static void tell_layout(const struct layout *l)
{
    tell_words("extents", l->extents, l->rank), tell_words("sizes", l->sizes, l->operands);
    tell_signed("strides", l->strides, l->stride_count);
    tell("purpose", l->purpose), tell("chosen", l->chosen);
}

static void tell_machine(gougelily_machine_t m)
{
    const uint64_t record[4] = {m.line, m.cache, m.way, m.live};
    tell_words("machine", record, 4);
}

/* The arrays whole: every place is judged. */
static void tell_plan(const gougelily_plan_t *p)
{
    tell("plan_rank", p->rank), tell("plan_operands", p->operands);
    tell_words("plan_extents", p->extents, GOUGELILY_MAX_RANK), tell_words("blocks", p->blocks, GOUGELILY_MAX_RANK);
    tell_signed("plan_strides", p->strides, GOUGELILY_PLAN_STRIDES);
}

static void tell_walk(const char *ended, const char *counters, const char *offsets, const gougelily_walk_t *w)
{
    tell(ended, w->ended), tell_words(counters, w->counters, GOUGELILY_MAX_RANK);
    tell_signed(offsets, w->offsets, GOUGELILY_MAX_OPERANDS);
}

static void tell_block(const gougelily_block_t *b)
{
    tell_words("block_counters", b->counters, GOUGELILY_MAX_RANK), tell("length", b->length);
    tell_signed("block_offsets", b->offsets, GOUGELILY_MAX_OPERANDS);
    tell_signed("block_strides", b->strides, GOUGELILY_MAX_OPERANDS);
}

static void tell_session(const char *name, const gougelily_session_t *s)
{
    uint64_t words[sizeof *s / 8];
    memcpy(words, s, sizeof *s);
    tell_words(name, words, sizeof *s / 8);
}

/* ------------------------------------------------------------ numbers of an input */

static const uint8_t *input;
static size_t input_size, at;

/* The next byte; behind the last one the first again. */
static uint8_t byte(void) { return input_size == 0 ? 0 : input[at++ % input_size]; }

static int64_t signed64(uint64_t bits)
{
    int64_t z;
    memcpy(&z, &bits, sizeof z);
    return z;
}

/* Small in one byte, near a power of 2 in two, else in nine. */
static uint64_t number(void)
{
    const uint8_t first = byte();
    uint64_t z = 0;
    if (first < 192)
        return first;
    if (first < 248) {
        const uint8_t power = byte();
        z = ((uint64_t)1 << (power & 63)) + first % 3 - 1;
        return power & 64 ? 0 - z : z;
    }
    for (int i = 0; i < 8; i++)
        z = z << 8 | byte();
    return z;
}

static int64_t any_signed(void)
{
    const uint64_t z = number();
    return z >= 192 ? signed64(z) : z & 1 ? -(int64_t)(z / 2) - 1 : (int64_t)(z / 2);
}

/* Mostly below 5, else up to `most`. */
static size_t count(size_t most)
{
    const uint8_t z = byte();
    return z < 192 ? z % 5 : z % (most + 1);
}

static void numbers(uint64_t *words, size_t many, uint64_t modulus)
{
    for (size_t i = 0; i < many; i++)
        words[i] = modulus ? number() % modulus : number();
}

static void any_strides(int64_t *words, size_t many)
{
    for (size_t i = 0; i < many; i++)
        words[i] = any_signed();
}

/* Strides of a dense array, so that axes join, sort and fit; then some are any. */
static void dense_strides(struct layout *l, uint8_t how)
{
    for (size_t k = 0; k < l->operands; k++) {
        uint64_t next = 1;
        for (size_t j = 0; j < l->rank; j++) {
            const size_t i = (how >> k & 1) ? l->rank - 1 - j : j;
            l->strides[k * l->rank + i] = signed64(next);
            next *= l->extents[i];
        }
    }
    for (uint8_t change = byte() % 4; change > 0 && l->rank * l->operands > 0; change--)
        l->strides[byte() % (l->rank * l->operands)] = any_signed();
}

/* The product of the extents, at most 2^64 - 1. */
static uint64_t total_of(const uint64_t *extents, size_t rank)
{
    uint64_t total = 1;
    for (size_t i = 0; i < rank; i++)
        total = extents[i] && total > UINT64_MAX / extents[i] ? UINT64_MAX : total * extents[i];
    return total;
}

static struct layout any_layout(void)
{
    struct layout l = {0};
    const uint8_t how = byte();
    l.rank = count(66), l.operands = how & 1 ? 2 : count(9);
    l.purpose = byte() % 4, l.chosen = byte() % 10;
    if (how & 2 && l.operands > 0)
        l.chosen %= l.operands;
    l.stride_count = l.rank * l.operands;
    numbers(l.extents, l.rank, how & 4 ? 4 : 0);
    numbers(l.sizes, l.operands, how & 8 ? 17 : 0);
    if (how & 16)
        dense_strides(&l, byte());
    else
        any_strides(l.strides, l.stride_count);
    if ((how & 224) == 224)
        l.stride_count = byte() % 8;
    return l;
}

static gougelily_machine_t any_machine(void)
{
    const uint8_t how = byte();
    gougelily_machine_t m = GOUGELILY_FIXED_MACHINE;
    if (how < 128)
        return m;
    m.line = (uint64_t)32 << how % 4, m.cache = 4096 + number() % 1044481, m.live = 1 + byte() % 16;
    m.way = m.line * (1 + number() % (m.cache / m.line));
    switch (how / 4 % 16) {
    case 0:
        m.line = number();
        break;
    case 1:
        m.cache = number();
        break;
    case 2:
        m.way = number();
        break;
    case 3:
        m.live = number();
        break;
    }
    return m;
}

/* ------------------------------------------------------------ the subjects */

enum { MOST_BYTES = 16384 }; /* of a buffer of a copy */

/* The whole room, then just enough of it, then a byte too little. */
static void subject_text(void)
{
    static char room[ROOM], again[ROOM];
    memset(room, '#', sizeof room), memset(again, '#', sizeof again);
    const int64_t answer = text_of(input, input_size, room, ROOM);
    tell_call("walklist", answer), tell_bytes("text", input, input_size);
    tell_bytes("output", room, answer > 0 ? (size_t)answer : 0), told();
    if (answer > 0) {
        const size_t length = (size_t)answer;
        CHECK(text_of(input, input_size, again, length - 1) == -GOUGELILY_ROOM && again[0] == '#');
        CHECK(text_of(input, input_size, again, length) == answer && memcmp(room, again, sizeof room) == 0);
    }
}

/* A byte for the rank, the extents; the rest is the text. */
static void subject_judge(void)
{
    static uint8_t marks[ROOM + 1];
    uint64_t extents[66];
    const uint8_t how = byte();
    const size_t rank = how < 250 ? how % 6 : (size_t)61 + how % 5;
    numbers(extents, rank, how & 128 ? 4 : 0);
    const uint64_t total = total_of(extents, rank);
    const size_t room = total > ROOM ? 1 : (size_t)total - (how % 64 == 63 && total > 0);
    const size_t from = at < input_size ? at : input_size;
    memset(marks, 7, sizeof marks);
    const int64_t answer = judge_of(extents, rank, input + from, input_size - from, marks, room);
    tell_call("judge", answer), tell_words("extents", extents, rank);
    tell_bytes("text", input + from, input_size - from), tell_bytes("marks", marks, room), told();
}

/* A description that is read is written, and read again: the same numbers. */
static void subject_numpy(void)
{
    struct described d, again;
    char room[2721];
    memset(&d, 7, sizeof d), memset(&again, 7, sizeof again), memset(room, '#', sizeof room);
    const int64_t answer = described_of(input, input_size, &d);
    tell_call("from_numpy", answer), tell_bytes("text", input, input_size), tell_words("size", d.size, 1);
    tell_words("rank", d.rank, 1), tell_words("extents", d.extents, 64), tell_signed("strides", d.strides, 64), told();
    if (answer < 0)
        return;
    const int64_t length = description_of(d.size[0], d.extents, d.rank[0], d.strides, d.rank[0], room, 2720);
    CHECK(length > 0 && described_of(room, (size_t)length, &again) == 0 && memcmp(&d, &again, sizeof d) == 0);
}

static void call_step(const gougelily_plan_t *p, gougelily_walk_t *w)
{
    gougelily_block_t b;
    const gougelily_walk_t before = *w;
    memset(&b, 7, sizeof b);
    const int64_t answer = step_of(p, w, &b);
    tell_call("step", answer), tell_plan(p), tell_walk("ended", "counters", "offsets", &before);
    tell_walk("ended_after", "counters_after", "offsets_after", w), tell_block(&b), told();
}

/* Many steps are as many single ones. */
static void call_many(const gougelily_plan_t *p, gougelily_walk_t w)
{
    struct many m = {0};
    gougelily_walk_t single = w;
    gougelily_block_t b = {0};
    const int64_t answer = many_of(p, &w, &m, byte() % (MOST_BLOCKS + 1), byte() % (MOST_OFFSETS + 1));
    for (int64_t j = 0; j < answer; j++)
        CHECK(step_of(p, &single, &b) == 1 && b.length == m.lengths[j] &&
              memcmp(b.offsets, m.offsets + (size_t)j * p->operands, 8 * p->operands) == 0);
    CHECK(memcmp(&single, &w, sizeof w) == 0);
}

static void call_visit(const struct layout *l, const gougelily_plan_t *p, gougelily_walk_t w)
{
    const gougelily_walk_t before = w;
    gougelily_visit_t v;
    gougelily_student_t s;
    memset(&v, 7, sizeof v);
    const int64_t answer = visit_of(l, p, &w, &v);
    tell_call("visit", answer), tell_layout(l), tell_plan(p), tell_walk("ended", "counters", "offsets", &before);
    tell_walk("ended_after", "counters_after", "offsets_after", &w), tell_block(&v.block);
    tell("number", v.number), tell("first_count", v.first.count), tell_words("first", v.first.places, 64), told();
    see(&v, &s);
}

static int64_t call_begin(const gougelily_plan_t *p, const int64_t *starts, size_t many, gougelily_walk_t *w)
{
    memset(w, 7, sizeof *w);
    const int64_t answer = begin_of(p, starts, many, w);
    tell_call("begin", answer), tell_plan(p), tell_signed("starts", starts, many);
    tell_walk("ended", "counters", "offsets", w), told();
    return answer;
}

static int64_t call_index(const struct layout *l, int original, const uint64_t *counters, size_t many,
                          gougelily_index_t *x)
{
    memset(x, 7, sizeof *x);
    const int64_t answer = index_of(l, original, counters, many, x);
    tell_call(original ? "original_index" : "plan_index", answer), tell_layout(l);
    tell_words("counters", counters, many), tell("count", x->count), tell_words("index", x->places, 64), told();
    return answer;
}

/* A plan, which is that of a session; its walk's first blocks; and where they are. */
static void subject_plan(void)
{
    static gougelily_session_t session;
    const struct layout l = any_layout();
    const gougelily_machine_t m = any_machine();
    gougelily_plan_t p;
    gougelily_walk_t w;
    gougelily_index_t original, back;
    int64_t starts[10];
    memset(&p, 7, sizeof p);
    const int64_t answer = plan_on(&l, m, &p), checked = check_of(&l);
    tell_call("plan", answer), tell_layout(&l), tell_machine(m), tell_plan(&p), told();
    CHECK(answer == checked || answer == -GOUGELILY_RECORD);
    memset(&session, 7, sizeof session);
    CHECK(session_of(&l, m, &session) == answer && (answer < 0 || memcmp(&session.plan, &p, sizeof p) == 0));
    if (answer < 0)
        return;
    const size_t many = byte() < 250 ? p.operands : count(9);
    any_strides(starts, many);
    if (call_begin(&p, starts, many, &w) < 0)
        return;
    for (uint8_t turns = 1 + byte() % 4; turns > 0 && !w.ended; turns--) {
        call_many(&p, w);
        call_visit(&l, &p, w);
        CHECK(call_index(&l, 1, w.counters, p.rank, &original) == 0);
        CHECK(call_index(&l, 0, original.places, l.rank, &back) == 0 && memcmp(back.places, w.counters, 8 * p.rank) == 0);
        call_step(&p, &w);
    }
}

static void subject_index(void)
{
    const struct layout l = any_layout();
    uint64_t counters[10];
    gougelily_index_t x;
    const size_t many = count(10);
    numbers(counters, many, 0);
    call_index(&l, 0, counters, many, &x);
    call_index(&l, 1, counters, many, &x);
}

static void subject_window(void)
{
    const struct layout l = any_layout();
    struct window n = {0};
    gougelily_windowed_t made;
    const uint8_t how = byte();
    n.first_count = n.count_count = n.step_count = l.rank;
    if (how < 3)
        *(how == 0 ? &n.first_count : how == 1 ? &n.count_count : &n.step_count) = count(66);
    numbers(n.firsts, n.first_count, how & 8 ? 4 : 0);
    numbers(n.counts, n.count_count, how & 16 ? 4 : 0);
    any_strides(n.steps, n.step_count);
    memset(&made, 7, sizeof made);
    const int64_t answer = window_of(&l, &n, &made);
    tell_call("window", answer), tell_layout(&l), tell_words("firsts", n.firsts, n.first_count);
    tell_words("counts", n.counts, n.count_count), tell_signed("steps", n.steps, n.step_count);
    tell_words("window_extents", made.extents, 64), tell_signed("window_strides", made.strides, 512);
    tell_signed("shifts", made.shifts, 8), told();
}

/* A plan and a state of any numbers. */
static void subject_walk(void)
{
    const struct layout l = any_layout();
    gougelily_plan_t p = {0};
    gougelily_walk_t w = {0}, begun;
    int64_t starts[10];
    const uint8_t how = byte();
    p.rank = count(66), p.operands = count(9);
    if (how == 0)
        p.rank = number();
    if (how == 1)
        p.operands = number();
    numbers(p.extents, how & 2 ? 64 : p.rank % 65, how & 4 ? 4 : 0);
    numbers(p.blocks, how & 2 ? 64 : p.rank % 65, how & 8 ? 4 : 0);
    for (size_t k = 0; k < p.operands && k < 8; k++)
        any_strides(p.strides + 64 * k, p.rank % 65);
    const size_t many = how & 16 ? count(9) : p.operands % 10;
    any_strides(starts, many);
    if (call_begin(&p, starts, many, &begun) == 0)
        call_step(&p, &begun), call_many(&p, begun);
    w.ended = how & 32 ? number() : 0;
    numbers(w.counters, how & 64 ? 64 : p.rank % 65, how & 4 ? 4 : 0);
    any_strides(w.offsets, how & 64 ? 8 : p.operands % 9);
    call_visit(&l, &p, w);
    call_many(&p, w);
    call_step(&p, &w);
}

/* One size for both operands, starts and lengths that leave room for every cell; the numbers of the layout have to be small. */
static void fit_buffers(struct layout *l, int64_t *starts, size_t *lengths)
{
    l->operands = 2, l->stride_count = 2 * l->rank;
    l->sizes[0] = l->sizes[1] = 1 + byte() % 16;
    for (size_t k = 0; k < 2; k++) {
        int64_t low = 0, high = 0;
        for (size_t i = 0; i < l->rank; i++) {
            l->extents[i] %= 4096, l->strides[k * l->rank + i] %= 4096;
            const int64_t way = l->strides[k * l->rank + i] * ((int64_t)l->extents[i] - (l->extents[i] > 0));
            *(way < 0 ? &low : &high) += way;
        }
        starts[k] = -low;
        lengths[k] = (size_t)(high - low + 1) * (size_t)l->sizes[k];
        if (lengths[k] > MOST_BYTES)
            lengths[k] = MOST_BYTES;
    }
}

static void subject_copy(void)
{
    static uint8_t from[MOST_BYTES], to[MOST_BYTES], before[MOST_BYTES];
    struct layout l = any_layout();
    int64_t starts[10];
    size_t lengths[2];
    const gougelily_machine_t m = any_machine();
    const uint8_t how = byte();
    const size_t many = how & 1 ? 2 : count(9);
    if (how & 1)
        fit_buffers(&l, starts, lengths);
    else
        any_strides(starts, many), lengths[0] = number() % 513, lengths[1] = number() % 513;
    if (how & 2 && lengths[how / 4 % 2] > 0) /* a byte too short */
        lengths[how / 4 % 2]--;
    for (size_t i = 0; i < MOST_BYTES; i++)
        from[i] = (uint8_t)(i * 37 + i / 256 + 11), to[i] = (uint8_t)(i * 91 + 5);
    memcpy(before, to, sizeof to);
    const int64_t answer = copy_of(&l, m, starts, many, to, lengths[0], from, lengths[1]);
    tell_call("copy", answer), tell_layout(&l), tell_machine(m), tell_signed("starts", starts, many);
    tell_bytes("before", before, lengths[0]), tell_bytes("source", from, lengths[1]);
    tell_bytes("after", to, lengths[0]), told();
}

static void subject_summary(void)
{
    static const double values[] = {0.0, -0.0, 1.0, -1.0, 0.1, 1e16, -1e16, 5e-324, 1e308, -1e308, 3.0, 1e-300};
    struct layout l = any_layout();
    double cells[256];
    gougelily_summary_t y;
    const gougelily_machine_t m = any_machine();
    const uint8_t how = byte();
    int64_t start = any_signed();
    const size_t many = number() % 257;
    if (how & 1)
        l.stride_count = l.rank;
    if (total_of(l.extents, l.rank) > ROOM) /* a sum of so many visits takes its time: it is refused */
        start = -1;
    for (size_t i = 0; i < many; i++) {
        const uint8_t z = byte();
        cells[i] = z < 120 ? values[z % 12] : z < 250 ? (double)z / 7.0 : strtod(z % 3 == 0 ? "nan" : z % 3 == 1 ? "inf" : "-inf", NULL);
    }
    memset(&y, 7, sizeof y);
    const int64_t answer = summary_of(&l, m, start, cells, many, &y);
    tell_call("summary", answer), tell_layout(&l), tell_machine(m), tell_signed("start", &start, 1);
    tell_bytes("cells", cells, many * 8), tell_bytes("doubles", &y, 24), tell("count", y.count), tell("nans", y.nans);
    tell("extremes", y.extremes), told();
}

/* Operands join and leave, and words of the session are changed. */
static void subject_session(void)
{
    static gougelily_session_t s, before;
    const struct layout l = any_layout();
    const gougelily_machine_t m = any_machine();
    memset(&s, 7, sizeof s), before = s;
    int64_t answer = session_of(&l, m, &s);
    tell_call("session_begin", answer), tell_layout(&l), tell_machine(m), tell_session("after", &s), told();
    for (uint8_t turns = 1 + byte() % 4; turns > 0; turns--) {
        const uint8_t how = byte();
        if (how < 64) {
            const size_t place = (how & 1 ? number() : byte()) % (sizeof s / 8);
            const uint64_t word = number();
            memcpy((uint8_t *)&s + 8 * place, &word, sizeof word);
        }
        before = s;
        if (how & 1) {
            int64_t strides[66];
            const uint64_t size = number();
            const size_t many = how & 2 ? count(66) : s.rank <= 64 ? s.rank : 0;
            any_strides(strides, many);
            answer = join_of(&s, size, strides, many);
            tell_call("session_join", answer), tell("size", size), tell_signed("strides", strides, many);
        } else {
            const uint64_t operand = how & 2 ? number() : byte() % 8;
            answer = leave_of(&s, operand);
            tell_call("session_leave", answer), tell("operand", operand);
        }
        tell_session("before", &before), tell_session("after", &s), told();
    }
}

static void subject_mark(void)
{
    const struct layout l = any_layout();
    const size_t many = l.stride_count < l.rank || byte() == 0 ? l.stride_count : l.rank;
    const int64_t answer = mark_of(l.extents, l.rank, l.strides, many);
    tell_call("mark", answer), tell_words("extents", l.extents, l.rank), tell_signed("strides", l.strides, many), told();
}

static void subject_describe(void)
{
    const struct layout l = any_layout();
    char room[2721];
    const uint64_t size = number();
    const size_t many = l.stride_count < l.rank || byte() == 0 ? l.stride_count : l.rank;
    const size_t length = byte() < 200 ? 2720 : number() % 100;
    memset(room, '#', sizeof room);
    const int64_t answer = description_of(size, l.extents, l.rank, l.strides, many, room, length);
    tell_call("to_numpy", answer), tell("size", size), tell_words("extents", l.extents, l.rank);
    tell_signed("strides", l.strides, many), tell("room", length);
    tell_bytes("text", room, answer > 0 ? (size_t)answer : 0), told();
}

static void subject_calls(void)
{
    static void (*const subjects[])(void) = {subject_plan,    subject_index,   subject_window, subject_walk,    subject_copy,
                                             subject_summary, subject_session, subject_mark,   subject_describe};
    subjects[byte() % (sizeof subjects / sizeof *subjects)]();
}

/* ------------------------------------------------------------ the doors */

static void (*subject)(void);

static int choose(const char *name)
{
    static const struct {
        const char *name;
        void (*subject)(void);
    } known[] = {{"text", subject_text}, {"judge", subject_judge}, {"numpy", subject_numpy}, {"calls", subject_calls}};
    for (size_t i = 0; name && i < sizeof known / sizeof *known; i++)
        if (strcmp(known[i].name, name) == 0)
            subject = known[i].subject;
    make_areas();
    return subject != NULL;
}

static void run(const uint8_t *bytes, size_t size)
{
    input = bytes, input_size = size, at = 0, at_end = 0, round_number++;
    subject();
}

#ifdef REPLAY
static int digit(int c) { return c >= '0' && c <= '9' ? c - '0' : c >= 'a' && c <= 'f' ? c - 'a' + 10 : -1; }

#ifdef EDGES
/* With the library that has counters: the addresses of the edges that were met, and of the others. */
static const uint8_t *counters, *counters_end;
static const uintptr_t *edges;

void __sanitizer_cov_8bit_counters_init(uint8_t *from, uint8_t *to);
void __sanitizer_cov_pcs_init(const uintptr_t *from, const uintptr_t *to);
void __sanitizer_cov_8bit_counters_init(uint8_t *from, uint8_t *to) { counters = from, counters_end = to; }
void __sanitizer_cov_pcs_init(const uintptr_t *from, const uintptr_t *to) { edges = from, (void)to; }

static void tell_edges(void)
{
    for (const uint8_t *c = counters; c < counters_end; c++)
        printf("%s %" PRIxPTR "\n", *c ? "met" : "left", edges[2 * (c - counters)]);
}
#else
static void tell_edges(void) {}
#endif

int main(void)
{
    static uint8_t bytes[65536];
    size_t size = 0;
    loud = 1;
    if (!choose(getenv("SUBJECT")))
        return fprintf(stderr, "SUBJECT is text, judge, numpy or calls\n"), 2;
    for (int c; (c = getchar()) != EOF;)
        if (c == '\n') {
            printf("{\"input\":%llu}\n", round_number), fflush(stdout);
            run(bytes, size), size = 0;
        } else {
            const int high = digit(c), low = digit(getchar());
            if (high < 0 || low < 0 || size == sizeof bytes)
                return fprintf(stderr, "an input is lines of hexadecimal digits\n"), 2;
            bytes[size++] = (uint8_t)(high << 4 | low);
        }
    tell_edges();
    return 0;
}
#else
int LLVMFuzzerInitialize(int *argc, char ***argv);
int LLVMFuzzerTestOneInput(const uint8_t *bytes, size_t size);

int LLVMFuzzerInitialize(int *argc, char ***argv)
{
    (void)argc, (void)argv;
    if (!choose(getenv("SUBJECT")))
        fprintf(stderr, "SUBJECT is text, judge, numpy or calls\n"), exit(2);
    return 0;
}

int LLVMFuzzerTestOneInput(const uint8_t *bytes, size_t size)
{
    run(bytes, size);
    return 0;
}
#endif
