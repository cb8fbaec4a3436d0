/* A day is read from its folder: first all of it is tested, then it goes by trace by trace. What is wrong is told in one line, and nothing is written. */
#define _POSIX_C_SOURCE 200809L
#include "days_list.h"

#include <errno.h>
#include <inttypes.h>
#include <string.h>
#include <sys/stat.h>

enum { TIME_LEN = 8 };

/* Whether so many times of a trace go on from last, which gets the last of them; text says at which record they do not. before counts the day's records before the trace. */
static int times_rise(FILE *file, const char *name, size_t records, uint64_t before, uint64_t *last, char text[PIC_DAY_TEXT])
{
    uint8_t bytes[TIME_LEN];
    for (size_t record = 0; record < records; record++) {
        uint64_t time = 0;
        if (fread(bytes, 1, TIME_LEN, file) != TIME_LEN) {
            return pic_day_wrong(text, "%s: it has changed while it was read", name);
        }
        for (size_t i = TIME_LEN; i > 0; i--) {
            time = time << 8 | bytes[i - 1];
        }
        if (time < *last) {
            return record != 0 ? pic_day_wrong(text, "%s: its clock goes back at record %zu", name, record)
                               : pic_day_wrong(text, "%s: its clock goes back at record %" PRIu64 ", where the trace begins", name, before);
        }
        *last = time;
    }
    return PCH_PIC_DONE;
}

/* Whether the times beside the trace that was read last are as many as its records, and none is before the one in front of it; or there are none. */
static int test_times(struct pic_day_read *day, uint64_t *last)
{
    char name[PIC_DAY_PATH], path[PIC_DAY_PATH + 8], times[32];
    struct stat found;
    size_t records = day->of_trace;
    pic_day_name(day->folder, day->number, name);
    snprintf(path, sizeof path, "%s.times", name);
    snprintf(times, sizeof times, "%05u.trace.times", day->number);
    if (stat(path, &found) != 0) {
        return errno == ENOENT ? PCH_PIC_DONE : pic_day_wrong(day->text, "%s: %s", times, strerror(errno));
    }
    if (!S_ISREG(found.st_mode) || (uint64_t)found.st_size != TIME_LEN * (uint64_t)records) {
        return pic_day_wrong(day->text, "%s: it has %" PRIu64 " bytes, and the times of %zu records are %zu", times, (uint64_t)found.st_size, records, TIME_LEN * records);
    }
    FILE *file = fopen(path, "rb");
    if (file == NULL) {
        return pic_day_wrong(day->text, "%s: %s", times, strerror(errno));
    }
    int number = times_rise(file, times, records, day->before, last, day->text);
    fclose(file);
    return number;
}

/* The trace of a day that has holes is its last. */
static int test_holes(const char *folder, unsigned number, const uint8_t *trace, size_t len, bool last, char text[PIC_DAY_TEXT])
{
    struct pic_holes holes;
    char name[PIC_DAY_PATH];
    pic_day_name(folder, number, name);
    int found = pic_holes_load(name, trace, len, &holes);
    if (found != PCH_PIC_DONE) {
        return pic_day_wrong(text, "%05u.trace.holes: %s", number, pic_holes_why(found));
    }
    return holes.count == 0 || last ? PCH_PIC_DONE : pic_day_wrong(text, "%05u.trace has a hole, and is not the last trace: behind a hole nothing is the day's", number);
}

/* All lines of the list: how many traces and records it names, and whether the day was ended. */
static int read_list(struct pic_day_read *day)
{
    struct pic_day_line line;
    for (;;) {
        switch (pic_day_list_next(day->list, day->listed, day->records, &line)) {
        case PIC_DAY_TRACE_LINE:
            day->listed++;
            day->records += line.records;
            break;
        case PIC_DAY_END_LINE:
            day->ended = true;
            return PCH_PIC_DONE;
        case PIC_DAY_BAD_LINE: return pic_day_wrong(day->text, "day.list, line %u: it is not the line of trace %u, nor the right end of the list", day->listed + 2, day->listed + 1);
        default: return ferror(day->list) ? PIC_FILE : PCH_PIC_DONE;
        }
    }
}

/* The trace that was open when a day was not ended: good as it stands, or it has to be salvaged. */
static int open_trace(struct pic_day_read *day)
{
    char name[PIC_DAY_PATH];
    uint64_t bad = 0;
    int number = pic_day_name(day->folder, day->listed + 1, name) ? pic_trace_load(name, day->trace, &day->len) : PIC_FILE;
    if (number == PIC_FILE) {
        return pic_day_wrong(day->text, "%05u.trace: %s", day->listed + 1, strerror(errno));
    }
    number = number == PCH_PIC_DONE ? pic_trace_test(day->trace, day->len, &bad) : number;
    if (number == PCH_PIC_DONE) {
        return PCH_PIC_DONE;
    }
    size_t filled = number == PCH_PIC_TRACE ? pic_trace_fill(day->trace, day->len) : day->len;
    bool counted = number == PCH_PIC_RECORD || pic_trace_test(day->trace, filled, &bad) == PCH_PIC_RECORD;
    return pic_day_wrong(day->text, "the day was not ended: %05u.trace has %" PRIu64 " whole records; ./run --salvage DAY TO keeps them", day->listed + 1, counted ? bad : 0);
}

int pic_day_trace(struct pic_day_read *day)
{
    struct pic_day_line line = {0};
    unsigned next = day->number + 1;
    int number;
    if (day->list == NULL) {
        return day->text[0] != 0 ? PIC_NO_DAY : pic_day_wrong(day->text, "it is not open");
    }
    if (next > day->traces) {
        return PIC_EMPTY;
    }
    if (next <= day->listed) {
        if (pic_day_list_next(day->list, day->number, day->before + day->of_trace, &line) != PIC_DAY_TRACE_LINE) {
            return pic_day_wrong(day->text, "day.list, line %u: it has changed while it was read", next + 1);
        }
        number = pic_day_listed(day->folder, next, &line, day->trace, &day->len, day->text);
    } else {
        number = open_trace(day);
    }
    if (number == PCH_PIC_DONE) {
        day->before += day->of_trace;
        day->of_trace = pic_trace_records(day->trace);
        day->number = next;
    }
    return number;
}

/* Each trace with what stands beside it. */
static int test_all(struct pic_day_read *day)
{
    uint64_t last = 0;
    int number = pic_day_trace(day);
    while (number == PCH_PIC_DONE) {
        number = test_times(day, &last);
        number = number == PCH_PIC_DONE ? test_holes(day->folder, day->number, day->trace, day->len, day->number == day->traces, day->text) : number;
        number = number == PCH_PIC_DONE ? pic_day_trace(day) : number;
    }
    day->records = day->before + day->of_trace;
    return number == PIC_EMPTY ? PCH_PIC_DONE : number;
}

int pic_day_open(struct pic_day_read *day, const char *folder)
{
    bool open = false;
    size_t len = strlen(folder);
    memset(day, 0, sizeof *day);
    if (len >= PIC_DAY_PATH) {
        errno = ENAMETOOLONG;
        return PIC_FILE;
    }
    memcpy(day->folder, folder, len);
    int number = pic_day_list_open(folder, &day->list, day->text);
    if (number != PCH_PIC_DONE) {
        day->list = NULL;
        return number;
    }
    number = read_list(day);
    number = number == PCH_PIC_DONE ? pic_day_scan(folder, day->listed, day->ended, &open, day->text) : number;
    day->traces = day->listed + open;
    if (number == PCH_PIC_DONE && day->traces == 0) {
        number = pic_day_wrong(day->text, "there is no trace in it yet");
    }
    pic_day_rewind(day);
    number = number == PCH_PIC_DONE ? test_all(day) : number;
    if (number != PCH_PIC_DONE) {
        int why = errno;
        pic_day_close(day);
        errno = why;
        return number;
    }
    pic_day_rewind(day);
    return PCH_PIC_DONE;
}

void pic_day_rewind(struct pic_day_read *day)
{
    if (day->list != NULL) {
        pic_day_list_rewind(day->list);
    }
    day->number = 0;
    day->before = day->of_trace = 0;
}

void pic_day_close(struct pic_day_read *day)
{
    if (day->list != NULL) {
        fclose(day->list);
        day->list = NULL;
    }
}
