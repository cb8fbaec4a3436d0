/* A day as a trace, or as a folder of them: session lines recorded; a day played and printed, each record with its number and its answer; its numbers; a damaged one salvaged.
 *     day --record FILE [LINES]   makes the trace FILE of the lines, which docs/DEVICE.md tells; - or no word is standard input
 *     day --record DAY/ [LINES]   makes the folder of a day of them, however many there are (days.h)
 *     day --play FILE..           prints each record of the trace and what it gave, and how many events were dropped; - is standard input
 *     day --sheet FILE..          prints the day's numbers, input by input, as a table
 *     day --csv FILE..            the same for a program, with commas
 *     day --salvage FILE TO       makes the trace TO of what comes before the first hole of FILE: the day, exactly, as far as it goes
 *     day --salvage FILE TO --all makes it of all blocks of FILE that have no bad record; behind a hole it does not play as the day did
 * Several FILEs are traces of one day, one after another; a folder is a day of its own. Where something is missing, TO.holes says what (holes.h), and the others find it there.
 * It ends with 0; with 1 where something cannot be read or written, a line is no record or a trace is refused; and with 2 where its words are wrong. */
#define _POSIX_C_SOURCE 200809L
#include "days.h"
#include "sheet.h"

#include <errno.h>
#include <inttypes.h>
#include <stdio.h>
#include <stdlib.h>
#include <string.h>
#include <sys/stat.h>
#include <time.h>
#include <unistd.h>

/* The longest line of a session has 25 bytes. A block of 64 records has 1 KiB, and 63 blocks take the longest trace. How far a long work is goes to file 3, where that is a
 * terminal, since ./run keeps standard error for what is wrong. */
enum { LINE_LEN = 64, LIST_LEN = 4096, BLOCK = 64, PROGRESS = 3, PROGRESS_SECONDS = 2 };

static uint8_t trace[PCH_PIC_TRACE_MAX];
static struct pic_day_read reading;
static struct pic_played played;

/* A day that is being made. It is taken away again where it cannot be made to its end. */
static struct pic_day recording;
static bool begun;

static void leave(void)
{
    if (begun) {
        pic_day_undo(&recording);
    }
    exit(1);
}

static void fail(const char *what, const char *why)
{
    fprintf(stderr, "day: %s: %s\n", what, why);
    leave();
}

/* How far it is, every now and then. */
static void progress(const char *doing, unsigned trace_number, unsigned traces)
{
    static time_t told;
    time_t now = time(NULL);
    if (told == 0) {
        told = now;
    }
    if (now - told >= PROGRESS_SECONDS && isatty(PROGRESS)) {
        dprintf(PROGRESS, traces == 0 ? "run: %s trace %u\n" : "run: %s trace %u of %u\n", doing, trace_number, traces);
        told = now;
    }
}

static bool is_folder(const char *name)
{
    struct stat found;
    return strcmp(name, "-") != 0 && stat(name, &found) == 0 && S_ISDIR(found.st_mode);
}

/* A name as it is to be told and opened. */
static const char *told(const char *name)
{
    return strcmp(name, "-") == 0 ? "standard input" : name;
}

static const char *opened(const char *name)
{
    return strcmp(name, "-") == 0 ? "/dev/stdin" : name;
}

static int digit(char c)
{
    return c >= '0' && c <= '9' ? c - '0' : c >= 'a' && c <= 'f' ? c - 'a' + 10 : -1;
}

/* A line of a session as a call: its form has a letter X for each hex digit, which go to the fields one after another, a field for each run of them. */
static bool matches(const char *line, size_t len, const char *form, uint64_t fields[3])
{
    size_t field = 0;
    if (len != strlen(form)) {
        return false;
    }
    memset(fields, 0, 3 * sizeof fields[0]);
    for (size_t i = 0; i < len; i++) {
        if (form[i] != 'X') {
            if (line[i] != form[i]) {
                return false;
            }
            field += i > 0 && form[i - 1] == 'X';
        } else if (digit(line[i]) >= 0) {
            fields[field] = fields[field] << 4 | (uint64_t)digit(line[i]);
        } else {
            return false;
        }
    }
    return true;
}

/* A session has base 0 and 0x400 bytes. -1 where the line is no call. */
static int record_line(struct pic_recorder *recorder, const char *line, size_t len)
{
    uint64_t f[3];
    if (matches(line, len, "l XX 1", f)) {
        return pic_recorder_raise(recorder, f[0]);
    }
    if (matches(line, len, "l XX 0", f)) {
        return pic_recorder_lower(recorder, f[0]);
    }
    if (matches(line, len, "p XX", f)) {
        return pic_recorder_poll(recorder, f[0]);
    }
    if (matches(line, len, "r X XXXX", f)) {
        return pic_recorder_read(recorder, 0, PCH_PIC_WINDOW_LEN, f[1], f[0]);
    }
    if (matches(line, len, "w X XXXX XXXXXXXXXXXXXXXX", f)) {
        return pic_recorder_write(recorder, 0, PCH_PIC_WINDOW_LEN, f[1], f[0], f[2]);
    }
    return matches(line, len, "d", f) ? pic_recorder_drain(recorder, PCH_PIC_DRAIN_ROOM) : -1;
}

/* The next line without its ending; false at the end. Of a line that is longer than any call the rest is passed over. */
static bool next_line(FILE *lines, char line[LINE_LEN], size_t *len)
{
    int c = getc(lines);
    *len = 0;
    if (c == EOF) {
        return false;
    }
    for (; c != EOF && c != '\n'; c = getc(lines)) {
        if (*len < LINE_LEN) {
            line[*len] = (char)c;
            ++*len;
        }
    }
    return true;
}

/* A line that no record can say. Bytes that would not print are shown as ?. */
static void refuse(const char *name, unsigned long number, const char *line, size_t len, const char *why)
{
    char shown[LINE_LEN + 1];
    for (size_t i = 0; i < len; i++) {
        shown[i] = line[i] >= ' ' && line[i] <= '~' ? line[i] : '?';
    }
    shown[len] = 0;
    fprintf(stderr, "day: %s, line %lu: '%s': %s\n", told(name), number, shown, why);
    leave();
}

/* Why a line is not taken; where a trace is full, what takes more. */
static const char *why_not(int number)
{
    static char text[PIC_TEXT_LEN];
    if (number != PIC_FULL) {
        return number < 0 ? "it is no call" : pic_recorder_why(number);
    }
    snprintf(text, sizeof text, "%s; a folder takes more, as --record DAY/", pic_recorder_why(number));
    return text;
}

static void record_lines(struct pic_recorder *recorder, const char *name)
{
    char line[LINE_LEN];
    size_t len;
    FILE *lines = fopen(opened(name), "rb");
    if (lines == NULL) {
        fail(told(name), strerror(errno));
    }
    for (unsigned long number = 1; next_line(lines, line, &len); number++) {
        int refused = record_line(recorder, line, len);
        if (refused != PCH_PIC_DONE) {
            refuse(name, number, line, len, why_not(refused));
        }
        if (number % BLOCK == 0) {
            pic_recorder_close(recorder);
            progress("recording,", recording.traces + 1, 0);
        }
    }
    if (ferror(lines)) {
        fail(told(name), strerror(errno));
    }
    fclose(lines);
}

/* Whether a file was written. A folder says so itself; of anything else that is no plain file errno has no word. */
static void saved(const char *file, int number)
{
    if (number != PCH_PIC_DONE) {
        fail(file, number == PIC_FILE && errno == EINVAL ? "it is no plain file, and is not replaced" : pic_recorder_why(number));
    }
}

/* What is read is not to be lost by what is written: one file cannot be both. */
static void apart(const char *name, const char *file)
{
    struct stat from, to;
    if (stat(opened(name), &from) == 0 && stat(file, &to) == 0 && from.st_dev == to.st_dev && from.st_ino == to.st_ino && S_ISREG(to.st_mode)) {
        fail(file, "it is what is read, and is not overwritten");
    }
}

static void no_call(const char *name, int number)
{
    if (number == PIC_EMPTY) {
        fail(told(name), "there is no call in it, and a trace has one at least");
    }
}

static void record(const char *file, const char *name)
{
    static struct pic_recorder recorder;
    apart(name, file);
    pic_recorder_begin(&recorder);
    record_lines(&recorder, name);
    int number = pic_recorder_save(&recorder, file);
    no_call(name, number);
    saved(file, number);
}

/* The folder of a day: each trace is written when it is full. */
static void record_day(const char *folder, const char *name)
{
    int number = pic_day_begin(&recording, folder, 0);
    if (number != PCH_PIC_DONE) {
        fail(folder, pic_day_why(number));
    }
    begun = true;
    record_lines(&recording.recorder, name);
    number = pic_day_end(&recording);
    no_call(name, number);
    saved(folder, number);
}

static uint64_t number_at(const uint8_t *bytes, size_t len)
{
    uint64_t value = 0;
    while (len > 0) {
        len--;
        value = value << 8 | bytes[len];
    }
    return value;
}

/* A record in words, its input in decimal, so that nobody takes it for the line of a session, which has hex digits. */
static void print_line(const uint8_t *record, char line[LINE_LEN])
{
    unsigned byte = record[PCH_PIC_RECORD_BYTE], offset = (unsigned)number_at(record + PCH_PIC_RECORD_OFFSET, 2);
    uint64_t value = number_at(record + PCH_PIC_RECORD_VALUE, 8);
    switch (record[PCH_PIC_RECORD_KIND]) {
    case PCH_PIC_RAISE: snprintf(line, LINE_LEN, "raise %u", byte); break;
    case PCH_PIC_LOWER: snprintf(line, LINE_LEN, "lower %u", byte); break;
    case PCH_PIC_POLL: snprintf(line, LINE_LEN, "poll %u", byte); break;
    case PCH_PIC_READ: snprintf(line, LINE_LEN, "read %u %04x", byte, offset); break;
    case PCH_PIC_WRITE: snprintf(line, LINE_LEN, "write %u %04x %016" PRIx64, byte, offset, value); break;
    default: snprintf(line, LINE_LEN, "drain"); break;
    }
}

/* What it gave, as a session answers: a refusal, an event, a value, or that it is done. */
static void print_answer(const struct pic_step *step)
{
    unsigned kind = step->record[PCH_PIC_RECORD_KIND], number = step->answer[PCH_PIC_ANSWER_NUMBER];
    if (number != PCH_PIC_DONE) {
        printf("e%u\n", number);
    } else if (kind == PCH_PIC_READ) {
        printf("= %016" PRIx64 "\n", number_at(step->answer + PCH_PIC_ANSWER_VALUE, 8));
    } else if (kind == PCH_PIC_WRITE) {
        printf("ok\n");
    } else if (kind == PCH_PIC_DRAIN) {
        printf("d");
        for (size_t i = 0; i < step->drained; i++) {
            const uint8_t *event = step->events + PCH_PIC_EVENT_LEN * i;
            printf(" %c%02x", event[PCH_PIC_EVENT_FLAG] == 1 ? '+' : '-', event[PCH_PIC_EVENT_VECTOR]);
        }
        printf("\n");
    } else if (step->answer[PCH_PIC_ANSWER_PRESENT] == 1) {
        printf("v %02x\n", step->answer[PCH_PIC_ANSWER_VECTOR]);
    } else {
        printf("-\n");
    }
}

/* How many events were dropped is in the image. */
static unsigned long drops_of(const uint8_t *image, size_t len)
{
    struct pic pic;
    return pic_init(&pic, 0) == PCH_PIC_DONE && pic_take(&pic, image, len, NULL) == PCH_PIC_DONE ? pic_drops(&pic) : 0;
}

/* Ends where a trace is refused, or its file cannot be read. Of refusal 12 it tells the cause. */
static void refused(const char *name, size_t len, int number)
{
    char cause[PIC_TEXT_LEN];
    if (number == PIC_FILE) {
        fail(told(name), pic_why(number));
    }
    if (number != PCH_PIC_DONE) {
        bool known = number == PCH_PIC_TRACE && pic_trace_cause(trace, len, cause);
        fprintf(stderr, "day: %s: refused with %d: %s\n", told(name), number, known ? cause : pic_why(number));
        exit(1);
    }
}

/* The length of the trace in a file. */
static size_t load(const char *name)
{
    size_t len = 0;
    refused(name, len, pic_trace_load(opened(name), trace, &len) == PIC_FILE ? PIC_FILE : PCH_PIC_DONE);
    return len;
}

/* Ends where the library has refused the trace. */
static void taken(const char *name, size_t len, int number, uint64_t bad)
{
    if (number == PCH_PIC_RECORD) {
        fprintf(stderr, "day: %s: refused with %d: %s, number %" PRIu64 " from 0 on\n", told(name), number, pic_why(number), bad);
        exit(1);
    }
    refused(name, len, number);
}

/* The holes of a trace, by the list beside its file. What comes by a pipe has none beside it. */
static void find_holes(const char *name, size_t len, struct pic_holes *holes)
{
    char list[LIST_LEN];
    holes->count = 0;
    if (strcmp(name, "-") == 0) {
        return;
    }
    int number = pic_holes_load(name, trace, len, holes);
    if (number != PCH_PIC_DONE) {
        snprintf(list, sizeof list, "%s.holes", name);
        fail(list, pic_holes_why(number));
    }
}

/* What is read: traces of one day, one after another, or the folder of a day. All of it is tested before anything is printed. */
struct source {
    char **names;          /* of traces, or of one folder */
    unsigned count;        /* how many traces these are */
    bool folder;
    unsigned at;           /* the trace that is in memory, counted from 1; 0 before the first */
    size_t len, records;   /* its bytes and its records */
    uint64_t before;       /* the records before it */
    struct pic_holes last; /* the holes of the last one, in records of the whole day */
};

/* The name of the trace that is in memory. */
static const char *name_of(const struct source *source)
{
    static char name[PIC_DAY_PATH];
    if (!source->folder) {
        return source->names[source->at - 1];
    }
    pic_day_name(source->names[0], source->at, name);
    return name;
}

static void day_read(const struct source *source, int number)
{
    if (number != PCH_PIC_DONE) {
        fail(source->names[0], number == PIC_NO_DAY ? reading.text : pic_day_why(number));
    }
}

/* Loads the next trace, which is good; false where there is none. One that comes alone, perhaps by a pipe, is loaded once. */
static bool next_trace(struct source *source)
{
    uint64_t bad = 0;
    if (source->at == source->count) {
        return false;
    }
    source->at++;
    source->before += source->records;
    if (source->folder) {
        day_read(source, pic_day_trace(&reading));
        memcpy(trace, reading.trace, reading.len);
        source->len = reading.len;
    } else if (source->count > 1 || source->len == 0) {
        source->len = load(name_of(source));
        int number = pic_trace_test(trace, source->len, &bad);
        taken(name_of(source), source->len, number, bad);
    }
    source->records = pic_trace_records(trace);
    return true;
}

static void from_the_start(struct source *source)
{
    source->at = 0;
    source->before = source->records = 0;
    if (source->folder) {
        pic_day_rewind(&reading);
    }
}

/* Several traces are files that can be read twice, and no two are one. */
static void test_names(char **names, unsigned count)
{
    struct stat one, other;
    for (unsigned i = 0; i < count; i++) {
        if (strcmp(names[i], "-") == 0) {
            fail(told(names[i]), "it is one trace, and stands alone");
        }
        if (is_folder(names[i])) {
            fail(names[i], "a folder is a day of its own, and stands alone");
        }
        for (unsigned j = 0; j < i && stat(names[i], &one) == 0; j++) {
            if (stat(names[j], &other) == 0 && one.st_dev == other.st_dev && one.st_ino == other.st_ino) {
                fail(names[i], "it is there twice, and a day has each trace once");
            }
        }
    }
}

static void open_source(struct source *source, char **names, unsigned count)
{
    memset(source, 0, sizeof *source);
    source->names = names;
    source->count = count;
    source->folder = count == 1 && is_folder(names[0]);
    if (source->folder) {
        day_read(source, pic_day_open(&reading, names[0]));
        source->count = reading.traces;
    } else if (count > 1) {
        test_names(names, count);
    }
    while (next_trace(source)) {
        find_holes(name_of(source), source->len, &source->last);
        if (source->last.count > 0 && source->at < source->count) {
            fail(name_of(source), "it has a hole, and is not the last trace: behind a hole nothing is the day's");
        }
        progress("testing", source->at, source->count);
    }
    for (size_t hole = 0; hole < source->last.count; hole++) {
        source->last.of[hole].at += source->before;
        source->last.of[hole].first += source->before;
        source->last.of[hole].last += source->before;
    }
    from_the_start(source);
}

/* Plays the trace that is in memory on what the ones before left. */
static void play_next(const struct source *source)
{
    uint64_t bad = 0;
    int number = source->at == 1 ? pic_trace_play(trace, source->len, &played, &bad) : pic_trace_play_on(trace, source->len, &played, &bad);
    taken(name_of(source), source->len, number, bad);
}

/* Whether perhaps nothing is missing there. */
static bool at_most(const struct pic_hole *hole)
{
    return strncmp(hole->why, PIC_DAY_AT_MOST, strlen(PIC_DAY_AT_MOST)) == 0;
}

/* A hole, and what it means for what comes behind it. */
static void print_hole(const struct pic_hole *hole, bool last)
{
    char text[2 * PIC_TEXT_LEN];
    const char *end = at_most(hole) ? "the trace ends there" : "the trace ends there, and the day went on";
    pic_hole_text(hole, text);
    printf("hole %s; %s\n", text, last ? end : "what follows is not the day's");
}

/* The holes that stand before a record, from the first that was not printed yet. */
static size_t print_holes(const struct pic_holes *holes, size_t from, uint64_t record, uint64_t records)
{
    while (from < holes->count && holes->of[from].at <= record) {
        print_hole(&holes->of[from], holes->of[from].at == records);
        from++;
    }
    return from;
}

/* A day whose list has no end, with all that its recorder left; where a hole is told, that says it. */
static bool not_ended(const struct source *source)
{
    return source->folder && !reading.ended && source->last.count == 0;
}

static void print_not_ended(const struct source *source)
{
    if (not_ended(source)) {
        printf("the day was not ended: its recorder stopped without a word, and the open block may be lost; what is here is the day as far as it goes\n");
    }
}

/* All of standard output is written, or it is told. */
static void written(void)
{
    if (fflush(stdout) != 0 || ferror(stdout)) {
        fail("standard output", strerror(errno));
    }
}

static void play(char **names, unsigned count)
{
    struct source source;
    char line[LINE_LEN];
    size_t hole = 0;
    open_source(&source, names, count);
    while (next_trace(&source)) {
        struct pic_step step = {0};
        uint64_t end = source.before + source.records;
        play_next(&source);
        while (pic_trace_step(trace, &played, &step)) {
            hole = print_holes(&source.last, hole, source.before + step.number, end);
            print_line(step.record, line);
            printf("%7" PRIu64 "  %-30s  ", source.before + step.number, line);
            print_answer(&step);
        }
        progress("playing", source.at, source.count);
    }
    print_holes(&source.last, hole, source.before + source.records, source.before + source.records);
    print_not_ended(&source);
    printf("%7s  %-30s  drops %lu\n", "end", "", drops_of(played.image, sizeof played.image));
    written();
}

/* The device as a reset leaves it, and nothing counted. */
static void begin_count(struct pic_tally *tally)
{
    uint8_t answer[PCH_PIC_ANSWER_LEN];
    pch_pic_reset(played.image, sizeof played.image, answer, sizeof answer);
    pic_tally_begin(tally);
}

static void count_next(const struct source *source, struct pic_tally *tally, struct pic_long_sheet *sheet)
{
    uint64_t bad = 0;
    int number = pic_tally_add(tally, trace, source->len, played.image, sizeof played.image, &bad);
    taken(name_of(source), source->len, number, bad);
    taken(name_of(source), source->len, pic_tally_sheet(tally, sheet), 0);
    play_next(source);
    progress("counting", source->at, source->count);
}

/* Counts the day; reached has the trace in which each row's greatest wait ended, the first of several that are as long. */
static void count_day(struct source *source, struct pic_long_sheet *sheet, unsigned reached[PCH_PIC_SHEET_ROWS])
{
    static struct pic_tally tally;
    uint64_t waits[PCH_PIC_SHEET_ROWS] = {0};
    begin_count(&tally);
    while (next_trace(source)) {
        count_next(source, &tally, sheet);
        for (size_t row = 0; row < PCH_PIC_SHEET_ROWS; row++) {
            if (sheet->of[row][PCH_PIC_SHEET_WAIT] > waits[row]) {
                waits[row] = sheet->of[row][PCH_PIC_SHEET_WAIT];
                reached[row] = source->at;
            }
        }
    }
    from_the_start(source);
}

/* Where each row's greatest wait began: the traces in which they ended are looked through as the day goes by again. */
static void find_began(struct source *source, const struct pic_long_sheet *sheet, const unsigned reached[PCH_PIC_SHEET_ROWS], uint64_t began[PCH_PIC_SHEET_ROWS])
{
    static struct pic_tally tally;
    static struct pic_long_sheet here;
    begin_count(&tally);
    while (next_trace(source)) {
        for (size_t row = 0; row < PCH_PIC_SHEET_ROWS; row++) {
            if (reached[row] == source->at) {
                int number = pic_tally_began(&tally, trace, source->len, played.image, sizeof played.image, row, sheet->of[row][PCH_PIC_SHEET_WAIT], &began[row]);
                taken(name_of(source), source->len, number, 0);
            }
        }
        count_next(source, &tally, &here);
    }
}

static void sheet(char **names, unsigned count)
{
    static struct pic_long_sheet sheet;
    struct source source;
    unsigned reached[PCH_PIC_SHEET_ROWS] = {0};
    uint64_t began[PCH_PIC_SHEET_ROWS];
    for (size_t row = 0; row < PCH_PIC_SHEET_ROWS; row++) {
        began[row] = PIC_NO_WAIT;
    }
    open_source(&source, names, count);
    count_day(&source, &sheet, reached);
    if (sheet.of[PCH_PIC_SHEET_TOTAL][PCH_PIC_SHEET_WAIT] != 0) {
        find_began(&source, &sheet, reached, began);
    }
    print_holes(&source.last, 0, sheet.records, sheet.records);
    pic_long_sheet_print(&sheet, began, stdout);
    if (source.last.count > 0 && source.last.of[0].at < sheet.records) {
        printf("NOT THE DAY'S: these numbers go over a hole; only what comes before record %zu is the day's\n", source.last.of[0].at);
    }
    print_not_ended(&source);
    written();
}

/* Behind the numbers a row of its own for each hole, and for a day that nobody ended, as wide as the others. */
static void csv(char **names, unsigned count)
{
    static struct pic_long_sheet sheet;
    struct source source;
    unsigned reached[PCH_PIC_SHEET_ROWS] = {0};
    open_source(&source, names, count);
    count_day(&source, &sheet, reached);
    pic_long_sheet_csv(&sheet, stdout);
    for (size_t hole = 0; hole < source.last.count; hole++) {
        const struct pic_hole *of = &source.last.of[hole];
        printf("hole at record %zu: records %zu to %zu are missing,,,,,,,,,,\n", of->at, of->first, of->last);
    }
    if (not_ended(&source)) {
        printf("the day was not ended: the open block may be lost,,,,,,,,,,\n");
    }
    written();
}

static unsigned blocks_of(const uint8_t *bytes)
{
    return (unsigned)number_at(bytes + PCH_PIC_TRACE_BLOCKS, 2);
}

/* What is kept of a damaged trace, and what that is worth. */
static void print_lead(const struct pic_salvaged *kept, const struct pic_holes *holes)
{
    size_t records = pic_trace_records(kept->trace);
    if (holes->count == 0) {
        printf("kept all %zu records in %u blocks: nothing is missing\n", records, blocks_of(kept->trace));
        return;
    }
    print_hole(&holes->of[0], true);
    printf("kept %zu of %zu records, those before the hole: they are the day's, exactly\n", records, pic_day_records(kept->trace, holes));
}

static void print_whole(const struct pic_salvaged *kept, const struct pic_holes *holes)
{
    struct pic_dropped dropped;
    size_t records = pic_trace_records(kept->trace);
    for (size_t place = 0; pic_trace_dropped(kept, place, &dropped); place++) {
        printf("block %u: record %u is bad\n", dropped.block, dropped.record);
    }
    printf("kept %u of %u blocks, %zu records\n", blocks_of(kept->trace), blocks_of(kept->trace) + (unsigned)kept->dropped, records);
    if (holes->count > 0 && holes->of[0].at < records) {
        printf("NOT THE DAY'S: from record %zu on it plays on another state than the day did, and no number there is the day's\n", holes->of[0].at);
    } else if (holes->count > 0) {
        printf("the trace ends there, and the day went on\n");
    }
}

/* The trace to be salvaged: one that was cut short gets zeros for what is missing, which are bad records, and cut says so. */
static size_t load_damaged(const char *name, char cut[PIC_TEXT_LEN])
{
    size_t len = load(name);
    if (!pic_trace_cause(trace, len, cut)) {
        cut[0] = 0;
    }
    size_t filled = pic_trace_fill(trace, len);
    if (filled == len) {
        cut[0] = 0;
    }
    return filled;
}

/* Where nothing stands before the first hole, --all may still find something. */
static void nothing_leads(const char *name, size_t len, struct pic_salvaged *kept, struct pic_holes *holes)
{
    if (pic_trace_whole(trace, len, kept, holes) != PCH_PIC_DONE) {
        refused(name, len, PCH_PIC_EMPTY);
    }
    fail(told(name), "its first record is bad, so nothing comes before the first hole (--all keeps the whole blocks behind it)");
}

/* The new trace and the list of its holes, or a line that says why not. */
static void save_kept(const char *file, const char *list, const struct pic_salvaged *kept, const struct pic_holes *holes)
{
    int number = pic_holes_save(file, kept, holes);
    if (number == PIC_NO_LIST) {
        fail(list, "it is no list of holes, and is not replaced");
    }
    saved(file, number);
}

/* Both are there before anything is printed, whoever reads that. */
static void salvage(const char *name, const char *file, bool all)
{
    static struct pic_salvaged kept;
    struct pic_holes holes;
    char list[LIST_LEN], cut[PIC_TEXT_LEN];
    snprintf(list, sizeof list, "%s.holes", file);
    apart(name, file);
    apart(name, list);
    size_t len = load_damaged(name, cut);
    find_holes(name, len, &holes);
    int number = all ? pic_trace_whole(trace, len, &kept, &holes) : pic_trace_lead(trace, len, &kept, &holes);
    if (number == PCH_PIC_EMPTY && !all) {
        nothing_leads(name, len, &kept, &holes);
    }
    refused(name, len, number);
    save_kept(file, list, &kept, &holes);
    if (cut[0] != 0) {
        printf("%s\n", cut);
    }
    if (all) {
        print_whole(&kept, &holes);
    } else {
        print_lead(&kept, &holes);
    }
    if (holes.count > 0) {
        printf("%s says what is missing\n", list);
    }
    written();
}

/* What is kept of a damaged day, in records of the whole day. */
static void print_day(const struct pic_day_kept *kept, const char *to)
{
    size_t len = strlen(to);
    const struct pic_day *day = &kept->day;
    const char *traces = day->traces == 1 ? "trace" : "traces";
    if (kept->untimed > 0) {
        printf("traces whose times are not as many as their records, or go back, so that they are left out: %u\n", kept->untimed);
    }
    if (kept->holes.count == 0) {
        printf("kept all %" PRIu64 " records in %u %s: nothing is missing%s\n", day->records, day->traces, traces, kept->ended ? "" : ", and the day was not ended");
        return;
    }
    struct pic_hole hole = kept->holes.of[0];
    uint64_t lost = hole.last - hole.first + 1;
    hole.at += kept->before;
    hole.first += kept->before;
    hole.last += kept->before;
    print_hole(&hole, true);
    printf("kept %" PRIu64 " of %s%" PRIu64 "%s records in %u %s, those before the hole: they are the day's, exactly\n", day->records, at_most(&hole) ? "at most " : "", day->records + lost,
           kept->more ? " or more" : "", day->traces, traces);
    while (len > 1 && to[len - 1] == '/') {
        len--;
    }
    printf("%.*s/%05u.trace.holes says what is missing\n", (int)len, to, day->traces);
}

static void salvage_day(const char *folder, const char *to, bool all)
{
    static struct pic_day_kept kept;
    if (all) {
        fail(folder, "it is a day, and --all is for one trace: without it all that comes before the first damage is kept");
    }
    int number = pic_day_salvage(folder, to, &kept);
    if (number == PIC_NO_DAY) {
        char text[PIC_DAY_TEXT + 32];
        snprintf(text, sizeof text, "nothing of it can be kept: %s", kept.text);
        fail(folder, text);
    }
    if (number != PCH_PIC_DONE) {
        fail(to, pic_day_why(number));
    }
    print_day(&kept, to);
    written();
}

/* The words of a salvage, and of a recording. A name that ends with a slash is a folder, be it there or not. */
static bool salvaged(int argc, char **argv)
{
    bool all = argc == 5 && strcmp(argv[4], "--all") == 0;
    if (argc != 4 && !all) {
        return false;
    }
    if (is_folder(argv[2])) {
        salvage_day(argv[2], argv[3], all);
    } else {
        salvage(argv[2], argv[3], all);
    }
    return true;
}

static bool recorded(int argc, char **argv)
{
    const char *name = argc == 4 ? argv[3] : "-";
    if (argc > 4 || argv[2][0] == 0) {
        return false;
    }
    if (argv[2][strlen(argv[2]) - 1] == '/' || is_folder(argv[2])) {
        record_day(argv[2], name);
    } else {
        record(argv[2], name);
    }
    return true;
}

/* Whether the words were understood, and done. */
static bool done(int argc, char **argv)
{
    const char *word = argc >= 3 ? argv[1] : "";
    unsigned count = argc >= 3 ? (unsigned)argc - 2 : 0;
    if (strcmp(word, "--play") == 0) {
        play(argv + 2, count);
    } else if (strcmp(word, "--sheet") == 0) {
        sheet(argv + 2, count);
    } else if (strcmp(word, "--csv") == 0) {
        csv(argv + 2, count);
    } else if (strcmp(word, "--record") == 0) {
        return recorded(argc, argv);
    } else {
        return strcmp(word, "--salvage") == 0 && salvaged(argc, argv);
    }
    return true;
}

int main(int argc, char **argv)
{
    if (!pic_fits()) {
        fprintf(stderr, "day: compiled for version %s of pch_pic, and linked with %s\n", PCH_PIC_VERSION, pch_pic_version());
        return 1;
    }
    if (!done(argc, argv)) {
        fprintf(stderr, "usage: day --play FILE.. | day --sheet FILE.. | day --csv FILE.. | day --record FILE [LINES] | day --record DAY/ [LINES] | day --salvage FILE TO [--all]\n");
        return 2;
    }
    return 0;
}
