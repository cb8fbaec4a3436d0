/* What is left of a damaged day: all that comes before the first damage, as a day of its own. It is the day, exactly, as far as it goes. */
#define _XOPEN_SOURCE 700
#include "days_list.h"

#include <errno.h>
#include <stdlib.h>
#include <string.h>
#include <sys/stat.h>

enum { TIME_LEN = 8 };

static bool same_folder(const char *path, const struct stat *as)
{
    struct stat found;
    return stat(path, &found) == 0 && found.st_dev == as->st_dev && found.st_ino == as->st_ino;
}

/* Whether a path is that folder or in it, be it there or not: its folder and those above are looked at, up to the root. */
static bool inside(const char *path, const struct stat *folder)
{
    char up[PIC_DAY_PATH];
    struct stat here, above;
    size_t len = strlen(path);
    if (same_folder(path, folder)) {
        return true;
    }
    while (len > 0 && path[len - 1] == '/') {
        len--;
    }
    while (len > 0 && path[len - 1] != '/') {
        len--;
    }
    snprintf(up, sizeof up, "%.*s", (int)len, path);
    if (len == 0) {
        strcpy(up, ".");
    }
    for (size_t end = strlen(up); end + 4 < sizeof up && stat(up, &here) == 0; end += 3) {
        if (here.st_dev == folder->st_dev && here.st_ino == folder->st_ino) {
            return true;
        }
        strcpy(up + end, "/..");
        if (stat(up, &above) != 0 || (above.st_dev == here.st_dev && above.st_ino == here.st_ino)) {
            break;
        }
    }
    return false;
}

/* How many of the first records of the trace that was read stand in blocks that are full. Those are on the disk, with their times. */
static size_t in_full_blocks(const uint8_t *trace, size_t records)
{
    size_t full = 0;
    const uint8_t *entry = trace + PCH_PIC_TRACE_ENTRIES, *end = entry + PCH_PIC_BLOCK_LEN * (trace[PCH_PIC_TRACE_BLOCKS] | (size_t)trace[PCH_PIC_TRACE_BLOCKS + 1] << 8);
    for (; entry < end; entry += PCH_PIC_BLOCK_LEN) {
        size_t here = entry[PCH_PIC_BLOCK_RECORDS] | (size_t)entry[PCH_PIC_BLOCK_RECORDS + 1] << 8;
        if (full + here > records) {
            break;
        }
        full += here;
    }
    return full;
}

/* Whether so many times go on from those before. Lost power may leave zeros in the place of times, so in the open block of a trace none is taken for a time; before that
 * a clock may begin with one. */
static bool times_go_on(struct pic_day_kept *kept, size_t records, bool open)
{
    uint64_t last = kept->time;
    size_t safe = open ? in_full_blocks(kept->trace, records) : records;
    for (size_t record = 0; record < records; record++) {
        uint64_t time = 0;
        for (size_t i = TIME_LEN; i > 0; i--) {
            time = time << 8 | kept->times[TIME_LEN * record + i - 1];
        }
        if (time < last || (record >= safe && time == 0)) {
            return false;
        }
        last = time;
    }
    kept->time = last;
    return true;
}

/* The times beside a trace, for so many records of it; NULL where there are none. A trace that is good has just as many, and one that was open at least. */
static const uint8_t *times_of(struct pic_day_kept *kept, const char *trace, size_t records, bool open)
{
    char name[PIC_DAY_PATH + 8];
    snprintf(name, sizeof name, "%s.times", trace);
    FILE *file = fopen(name, "rb");
    if (file == NULL) {
        kept->untimed += errno != ENOENT;
        return NULL;
    }
    size_t len = fread(kept->times, 1, sizeof kept->times, file);
    bool more = getc(file) != EOF, right = open ? len >= TIME_LEN * records : len == TIME_LEN * records && !more;
    fclose(file);
    right = right && times_go_on(kept, records, open);
    kept->untimed += !right;
    return right ? kept->times : NULL;
}

/* Takes the last trace that was kept to the new day. What is missing behind it stands beside it first. */
static int add(struct pic_day_kept *kept, const uint8_t *times)
{
    uint64_t records = kept->day.records;
    char path[PIC_DAY_PATH];
    int number = pic_day_place(&kept->day, path);
    if (number == PCH_PIC_DONE && kept->holes.count > 0) {
        number = pic_holes_save(path, &kept->last, &kept->holes);
    }
    number = number == PCH_PIC_DONE ? pic_day_put(&kept->day, path, kept->last.trace, kept->last.len, times) : number;
    kept->before = number == PCH_PIC_DONE ? records : kept->before;
    return number;
}

/* A planned trace has zeros for all that was not taken. Where the open one has nothing else from its first bad record on, nothing shows that the day went on: at most the
 * block of that record was lost with the power. */
static void only_the_open_block(const uint8_t *trace, size_t len, struct pic_hole *hole)
{
    size_t from = len - PCH_PIC_RECORD_LEN * (pic_trace_records(trace) - hole->first), end = hole->first + 1;
    while (from < len && trace[from] == 0) {
        from++;
    }
    while (in_full_blocks(trace, end) <= hole->first) {
        end++;
    }
    if (from == len) {
        hole->last = end - 1;
        snprintf(hole->why, sizeof hole->why, "%s", PIC_DAY_AT_MOST "the day was not ended, and lost power takes the open block");
    }
}

/* Of a trace what comes before its first hole, known or found; nothing is added where there is nothing. */
static int add_lead(struct pic_day_kept *kept, const char *folder, unsigned number, size_t len, bool open)
{
    char path[PIC_DAY_PATH], cause[PIC_TEXT_LEN];
    struct pic_holes holes;
    pic_day_name(folder, number, path);
    int got = pic_holes_load(path, kept->trace, len, &holes);
    if (got != PCH_PIC_DONE) {
        pic_day_wrong(kept->text, "%05u.trace.holes: %s", number, pic_holes_why(got));
        return PCH_PIC_DONE;
    }
    bool known_hole = holes.count > 0;
    size_t filled = open ? pic_trace_fill(kept->trace, len) : len;
    got = pic_trace_lead(kept->trace, filled, &kept->last, &holes);
    if (got != PCH_PIC_DONE) {
        bool known = got == PCH_PIC_TRACE && pic_trace_cause(kept->trace, len, cause);
        pic_day_wrong(kept->text, "%05u.trace has no whole record%s%s", number, known ? ": " : "", known ? cause : "");
        return PCH_PIC_DONE;
    }
    if (open && filled == len && holes.count > 0 && !known_hole && !kept->more) {
        only_the_open_block(kept->trace, len, &holes.of[0]);
    }
    kept->holes = holes;
    if (holes.count > 0) {
        pic_day_wrong(kept->text, "%05u.trace has %zu whole records before its first hole", number, pic_trace_records(kept->last.trace));
    }
    return add(kept, times_of(kept, path, pic_trace_records(kept->last.trace), open));
}

/* What the list names, up to the first trace that is not as it says; lost gets the records of those from there on. */
static int add_listed(struct pic_day_kept *kept, const char *folder, FILE *list, uint64_t *lost)
{
    struct pic_day_line line;
    unsigned traces = 0;
    uint64_t records = 0;
    size_t len = 0;
    int number = PCH_PIC_DONE;
    enum pic_day_met met = pic_day_list_next(list, traces, records, &line);
    for (; number == PCH_PIC_DONE && met == PIC_DAY_TRACE_LINE; met = pic_day_list_next(list, traces, records, &line)) {
        traces++;
        records += line.records;
        if (kept->text[0] == 0 && pic_day_listed(folder, traces, &line, kept->trace, &len, kept->text) == PCH_PIC_DONE) {
            number = add_lead(kept, folder, traces, len, false);
        }
    }
    if (number == PCH_PIC_DONE && met == PIC_DAY_BAD_LINE && kept->text[0] == 0) {
        pic_day_wrong(kept->text, "day.list, line %u: it is not the line of trace %u, nor the right end of the list", traces + 2, traces + 1);
    }
    kept->ended = met == PIC_DAY_END_LINE;
    kept->more = !kept->ended && kept->text[0] != 0;
    *lost = records - kept->day.records + (met == PIC_DAY_BAD_LINE);
    return number;
}

/* A trace behind the open one: lines of the list are lost, and how many records the day had is not known. */
static void more_behind(struct pic_day_kept *kept, const char *text, uint64_t *lost)
{
    if (kept->text[0] == 0) {
        pic_day_wrong(kept->text, "%s", text);
    }
    *lost = *lost == 0 ? 1 : *lost;
}

/* How many records are missing of an open trace of which none is kept; where it has only zeros that is told as of any other. */
static uint64_t lost_of_open(struct pic_day_kept *kept, size_t len)
{
    char cause[PIC_TEXT_LEN];
    size_t filled = pic_trace_fill(kept->trace, len);
    if (pic_trace_cause(kept->trace, filled, cause)) {
        return 1;
    }
    struct pic_hole hole = {0, 0, pic_trace_records(kept->trace) - 1, ""};
    if (filled == len && !kept->more && kept->day.traces > 0) {
        only_the_open_block(kept->trace, len, &hole);
    }
    if (hole.why[0] != 0) {
        pic_day_wrong(kept->text, "%s", hole.why);
    }
    return hole.last + 1;
}

/* The trace that was open when a day was not ended. Where something before it is damaged already, its records are lost. */
static int add_open(struct pic_day_kept *kept, const char *folder, uint64_t *lost)
{
    char path[PIC_DAY_PATH], text[PIC_DAY_TEXT];
    bool open = false;
    size_t len = 0;
    unsigned traces = kept->day.traces;
    int number = PCH_PIC_DONE, scanned = pic_day_scan(folder, traces, false, &open, text);
    if (scanned == PIC_FILE) {
        return PIC_FILE;
    }
    kept->more = scanned == PIC_NO_DAY;
    if (open && (!pic_day_name(folder, traces + 1, path) || pic_trace_load(path, kept->trace, &len) == PIC_FILE)) {
        pic_day_wrong(kept->text, "%05u.trace: %s", traces + 1, strerror(errno));
        *lost = 1;
    } else if (open) {
        number = add_lead(kept, folder, traces + 1, len, true);
        if (number == PCH_PIC_DONE && kept->text[0] != 0 && kept->holes.count == 0) {
            *lost = lost_of_open(kept, len);
        }
    }
    if (number == PCH_PIC_DONE && scanned == PIC_NO_DAY) {
        more_behind(kept, text, lost);
    }
    return number;
}

/* What was lost behind a trace that was kept whole stands beside it too. */
static int tell_lost(struct pic_day_kept *kept, uint64_t lost)
{
    char path[PIC_DAY_PATH];
    if (lost == 0 || kept->holes.count > 0) {
        return PCH_PIC_DONE;
    }
    size_t records = pic_trace_records(kept->last.trace);
    struct pic_hole hole = {records, records, records + (size_t)lost - 1, ""};
    snprintf(hole.why, sizeof hole.why, "%s%.*s", kept->more ? "or more; " : "", PIC_TEXT_LEN - 10, kept->text);
    kept->holes.count = 1;
    kept->holes.of[0] = hole;
    return pic_day_name(kept->day.folder, kept->day.traces, path) ? pic_holes_save(path, &kept->last, &kept->holes) : PIC_FILE;
}

static int keep(struct pic_day_kept *kept, const char *folder, FILE *list)
{
    uint64_t lost = 0;
    int number = add_listed(kept, folder, list, &lost);
    if (number == PCH_PIC_DONE && kept->text[0] == 0 && !kept->ended) {
        number = add_open(kept, folder, &lost);
    }
    if (number == PCH_PIC_DONE && kept->day.traces == 0) {
        return kept->text[0] != 0 ? PIC_NO_DAY : pic_day_wrong(kept->text, "there is no trace in it yet");
    }
    number = number == PCH_PIC_DONE ? tell_lost(kept, lost) : number;
    kept->ended = kept->ended && kept->text[0] == 0;
    return number == PCH_PIC_DONE && kept->ended ? pic_day_end(&kept->day) : number;
}

int pic_day_salvage(const char *folder, const char *to, struct pic_day_kept *kept)
{
    struct stat from;
    FILE *list;
    memset(kept, 0, sizeof *kept);
    int number = pic_day_list_open(folder, &list, kept->text);
    if (number != PCH_PIC_DONE) {
        return number == PIC_FILE ? pic_day_wrong(kept->text, "%s", strerror(errno)) : number;
    }
    char *whole = realpath(to, NULL); /* a link leads elsewhere than to the folder that it stands in */
    number = stat(folder, &from) == 0 && inside(whole != NULL ? whole : to, &from) ? PIC_INSIDE : pic_day_begin(&kept->day, to, 0);
    free(whole);
    if (number == PCH_PIC_DONE) {
        number = keep(kept, folder, list);
        int why = errno;
        if (number == PCH_PIC_DONE) {
            pic_day_leave(&kept->day);
        } else {
            pic_day_undo(&kept->day);
        }
        errno = why;
    }
    fclose(list);
    return number;
}
