/* What a damaged trace still has: which cause a refusal with 12 has, what a copy that was cut short is filled with, and what comes before the first hole. */
#include "holes.h"

#include <stdio.h>
#include <string.h>

static size_t get(const uint8_t *bytes)
{
    return bytes[0] | (size_t)bytes[1] << 8;
}

static void put(uint8_t *bytes, size_t value)
{
    bytes[0] = (uint8_t)value;
    bytes[1] = (uint8_t)(value >> 8);
}

static size_t blocks_of(const uint8_t *trace)
{
    return get(trace + PCH_PIC_TRACE_BLOCKS);
}

static size_t contents_len(size_t blocks)
{
    return PCH_PIC_TRACE_ENTRIES + PCH_PIC_BLOCK_LEN * blocks;
}

static const uint8_t *entry_of(const uint8_t *trace, size_t block)
{
    return trace + contents_len(block);
}

size_t pic_trace_records(const uint8_t *trace)
{
    size_t records = 0;
    for (size_t block = 0; block < blocks_of(trace); block++) {
        records += get(entry_of(trace, block) + PCH_PIC_BLOCK_RECORDS);
    }
    return records;
}

/* The first block whose entry is wrong; the number of blocks where none is. */
static size_t wrong_entry(const uint8_t *trace)
{
    size_t block = 0, at = contents_len(blocks_of(trace));
    for (; block < blocks_of(trace); block++) {
        size_t records = get(entry_of(trace, block) + PCH_PIC_BLOCK_RECORDS);
        if (records == 0 || get(entry_of(trace, block) + PCH_PIC_BLOCK_OFFSET) != at) {
            break;
        }
        at += PCH_PIC_RECORD_LEN * records;
    }
    return block;
}

/* What is wrong with the contents; false where they are right. */
static bool contents_wrong(const uint8_t *trace, size_t len, char text[PIC_TEXT_LEN])
{
    size_t blocks = len < PCH_PIC_TRACE_ENTRIES ? 0 : blocks_of(trace);
    if (len < PCH_PIC_TRACE_ENTRIES) {
        snprintf(text, PIC_TEXT_LEN, "its contents are wrong: it has only %zu bytes", len);
    } else if (blocks < 1 || blocks > PCH_PIC_BLOCKS_MAX) {
        snprintf(text, PIC_TEXT_LEN, "its contents are wrong: they say %zu blocks, and a trace has 1 to %d", blocks, PCH_PIC_BLOCKS_MAX);
    } else if (len < contents_len(blocks)) {
        snprintf(text, PIC_TEXT_LEN, "its contents are wrong: the file ends within them");
    } else if (wrong_entry(trace) < blocks) {
        snprintf(text, PIC_TEXT_LEN, "its contents are wrong: block %zu has no record, or does not begin where it should", wrong_entry(trace));
    } else {
        return false;
    }
    return true;
}

bool pic_trace_cause(const uint8_t *trace, size_t len, char text[PIC_TEXT_LEN])
{
    if (contents_wrong(trace, len, text)) {
        return true;
    }
    size_t records = pic_trace_records(trace), said = contents_len(blocks_of(trace)) + PCH_PIC_RECORD_LEN * records;
    if (records > PCH_PIC_RECORDS_MAX) {
        snprintf(text, PIC_TEXT_LEN, "it has %zu records, and a trace has at most %d", records, PCH_PIC_RECORDS_MAX);
    } else if (len < said) {
        snprintf(text, PIC_TEXT_LEN, "it is cut short: it has %zu bytes, and its contents say %zu", len, said);
    } else if (len > said) {
        const char *more = len >= PCH_PIC_TRACE_MAX ? " or more" : "";
        snprintf(text, PIC_TEXT_LEN, "it is too long: it has %zu bytes%s, and its contents say %zu", len >= PCH_PIC_TRACE_MAX ? (size_t)PCH_PIC_TRACE_MAX : len, more, said);
    } else {
        return false;
    }
    return true;
}

size_t pic_trace_fill(uint8_t trace[PCH_PIC_TRACE_MAX], size_t len)
{
    char text[PIC_TEXT_LEN];
    if (contents_wrong(trace, len, text) || pic_trace_records(trace) > PCH_PIC_RECORDS_MAX) {
        return len;
    }
    size_t first = contents_len(blocks_of(trace)), said = first + PCH_PIC_RECORD_LEN * pic_trace_records(trace);
    if (len >= said) {
        return len;
    }
    size_t whole = first + (len - first) / PCH_PIC_RECORD_LEN * PCH_PIC_RECORD_LEN;
    memset(trace + whole, 0, said - whole);
    return said;
}

size_t pic_day_records(const uint8_t *trace, const struct pic_holes *holes)
{
    size_t records = pic_trace_records(trace);
    for (size_t hole = 0; hole < holes->count; hole++) {
        records += holes->of[hole].last - holes->of[hole].first + 1;
    }
    return records;
}

/* The block that a record is in; within gets its number there. */
static size_t block_of(const uint8_t *trace, size_t record, size_t *within)
{
    size_t block = 0;
    for (; block + 1 < blocks_of(trace); block++) {
        size_t records = get(entry_of(trace, block) + PCH_PIC_BLOCK_RECORDS);
        if (record < records) {
            break;
        }
        record -= records;
    }
    *within = record;
    return block;
}

/* The leading records as a trace, in the blocks that they were in; of the last block those that are left. */
static void keep(const uint8_t *trace, size_t records, struct pic_salvaged *kept)
{
    size_t within, last = block_of(trace, records - 1, &within), at = contents_len(last + 1);
    put(kept->trace + PCH_PIC_TRACE_BLOCKS, last + 1);
    for (size_t block = 0; block <= last; block++) {
        uint8_t *entry = kept->trace + contents_len(block);
        size_t in_it = block < last ? get(entry_of(trace, block) + PCH_PIC_BLOCK_RECORDS) : within + 1;
        put(entry + PCH_PIC_BLOCK_OFFSET, at);
        put(entry + PCH_PIC_BLOCK_RECORDS, in_it);
        at += PCH_PIC_RECORD_LEN * in_it;
    }
    memcpy(kept->trace + contents_len(last + 1), trace + contents_len(blocks_of(trace)), PCH_PIC_RECORD_LEN * records);
    kept->len = at;
    kept->dropped = 0;
}

int pic_trace_lead(const uint8_t *trace, size_t len, struct pic_salvaged *kept, struct pic_holes *holes)
{
    uint64_t bad = 0;
    int number = pic_trace_test(trace, len, &bad);
    if (number != PCH_PIC_DONE && number != PCH_PIC_RECORD) {
        return number;
    }
    size_t records = pic_trace_records(trace), end = pic_day_records(trace, holes), first = number == PCH_PIC_RECORD ? (size_t)bad : records;
    struct pic_hole hole = {first, first, end - 1, ""};
    if (holes->count > 0 && holes->of[0].at <= first) {
        hole = holes->of[0];
        hole.last = end - 1;
        first = hole.at;
    } else if (number == PCH_PIC_RECORD) {
        size_t within, block = block_of(trace, first, &within);
        snprintf(hole.why, sizeof hole.why, "from record %zu of block %zu on", within, block);
    }
    if (first == 0) {
        return PCH_PIC_EMPTY;
    }
    keep(trace, first, kept);
    holes->count = first < end;
    holes->of[0] = hole;
    return PCH_PIC_DONE;
}

int pic_trace_whole(const uint8_t *trace, size_t len, struct pic_salvaged *kept, struct pic_holes *holes)
{
    struct pic_dropped dropped;
    int number = pic_trace_salvage(trace, len, kept);
    if (number != PCH_PIC_DONE || kept->dropped == 0) {
        return number;
    }
    size_t place = 0, day = 0, lost = 0;
    for (size_t block = 0; block < blocks_of(trace); block++) {
        size_t records = get(entry_of(trace, block) + PCH_PIC_BLOCK_RECORDS);
        if (pic_trace_dropped(kept, place, &dropped) && dropped.block == block) {
            holes->of[place] = (struct pic_hole){day - lost, day, day + records - 1, ""};
            snprintf(holes->of[place].why, PIC_TEXT_LEN, "block %zu, whose record %u is bad", block, dropped.record);
            lost += records;
            place++;
        }
        day += records;
    }
    holes->count = place;
    return PCH_PIC_DONE;
}
