/* Drawn records: allowed ones over the whole range, refused ones at each bound and past it. */
#include "draw.h"

enum { LEAST = 4096, MOST = 1048576, LIVE = 16 };

#define WIDE (uint64_t)1 << 63, UINT64_MAX

static const record_t fixed = {64, 32768, 4096, 6};

/* Small ways often: the fit looks at byte strides that are multiples of the way. */
static uint64_t draw_way(uint64_t line, uint64_t cache)
{
    const uint64_t most = cache / line, some = between(1, most), few = spread(1, most);
    const uint64_t many = ONE_OF(1, 1, 2, 3, 4, 5, 8, 16, 64, most, some, few);
    return line * (many < most ? many : most);
}

/* The fixed four but for one number. */
static record_t one_other(void)
{
    record_t record = fixed;
    switch (below(4)) {
    case 0: record.line = ONE_OF(32, 128, 256); break;
    case 1: record.cache = spread(LEAST, MOST); break;
    case 2: record.way = draw_way(record.line, record.cache); break;
    default: record.live = between(1, LIVE);
    }
    return record;
}

record_t allowed_record(void)
{
    record_t record;
    if (chance(5))
        return fixed;
    if (chance(35))
        return one_other();
    record.line = (uint64_t)32 << below(4);
    record.cache = chance(10) ? ONE_OF(LEAST, MOST, LEAST + 1, MOST - 1) : spread(LEAST, MOST);
    if (chance(20))
        record.cache = record.cache / record.line * record.line;
    record.live = chance(15) ? ONE_OF(1, LIVE) : between(1, LIVE);
    record.way = draw_way(record.line, record.cache);
    return record;
}

/* An allowed record with one number outside its bounds; its way stays a multiple of the line, within the cache, where that is possible. */
record_t refused_record(record_t record)
{
    const uint64_t line = record.line, above = record.cache / line * line + line;
    switch (below(5)) {
    case 0:
        record.line = ONE_OF(0, 1, 2, 8, 16, 31, 33, 48, 63, 65, 96, 127, 129, 192, 255, 257, 320, 512, 1024, WIDE);
        if (record.line == 0 || record.line > record.cache)
            record.way = record.line;
        else
            record.way = record.cache / record.line * record.line;
        break;
    case 1:
        record.cache = ONE_OF(0, 1, 256, 2048, LEAST - 1, MOST + 1, 2 * (uint64_t)MOST, (uint64_t)1 << 32, WIDE);
        if (record.way > record.cache)
            record.way = record.cache / line == 0 ? line : record.cache / line * line;
        break;
    case 2:
        record.way = ONE_OF(0, 1, line / 2, line - 1, line + 1, record.way + 1, record.way - 1, above, above + line, -line, WIDE);
        break;
    case 3: record.live = ONE_OF(0, LIVE + 1, LIVE + 2, 32, 256, WIDE); break;
    default:
        record.line = any();
        record.cache = any();
        record.way = any();
        record.live = any();
    }
    return record;
}
