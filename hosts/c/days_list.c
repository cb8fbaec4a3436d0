/* The list of a day is text, and read line by line: whatever its length, one line of it is in memory. */
#define _POSIX_C_SOURCE 200809L
#include "days_list.h"

#include <dirent.h>
#include <errno.h>
#include <stdarg.h>
#include <stdlib.h>
#include <string.h>
#include <sys/stat.h>

enum { NAME_DIGITS = 5, LINE_LEN = 128 };

/* What is wrong with a day, in its text. */
int pic_day_wrong(char text[PIC_DAY_TEXT], const char *form, ...)
{
    va_list words;
    va_start(words, form);
    vsnprintf(text, PIC_DAY_TEXT, form, words);
    va_end(words);
    return PIC_NO_DAY;
}

/* A number of decimal digits without a zero in front, and what stands behind it. */
static bool decimal(const char **text, uint64_t *value)
{
    const char *from = *text;
    *value = 0;
    for (; **text >= '0' && **text <= '9' && *text - from < 18; ++*text) {
        *value = 10 * *value + (uint64_t)(**text - '0');
    }
    return *text != from && (*from != '0' || *text - from == 1);
}

static bool behind(const char **text, const char *word)
{
    size_t len = strlen(word);
    bool there = strncmp(*text, word, len) == 0;
    *text += there ? len : 0;
    return there;
}

/* The line of the trace with that number. */
static bool trace_line(const char *line, unsigned number, struct pic_day_line *found)
{
    char name[16];
    uint64_t records;
    snprintf(name, sizeof name, "%05u ", number);
    if (!behind(&line, name) || !decimal(&line, &records) || records < 1 || records > PCH_PIC_RECORDS_MAX || !behind(&line, " ")) {
        return false;
    }
    found->records = (size_t)records;
    if (strlen(line) != PIC_DIGEST_LEN || strspn(line, "0123456789abcdef") != PIC_DIGEST_LEN) {
        return false;
    }
    memcpy(found->digest, line, PIC_DIGEST_LEN + 1);
    return true;
}

static bool end_line(const char *line, unsigned traces, uint64_t records)
{
    uint64_t first, second;
    return behind(&line, "end ") && decimal(&line, &first) && behind(&line, " ") && decimal(&line, &second) && *line == 0 && first == traces && second == records;
}

/* The next whole line of the list, without its end; false where there is none. One that is longer than any, or has a zero in it, is no line of a list: '?'. */
static bool next_line(FILE *list, char line[LINE_LEN])
{
    size_t len = 0;
    bool right = true;
    int c = getc(list);
    for (; c != EOF && c != '\n'; c = getc(list)) {
        right = right && c != 0 && len + 1 < LINE_LEN;
        if (right) {
            line[len] = (char)c;
            len++;
        }
    }
    line[len] = 0;
    if (!right) {
        strcpy(line, "?");
    }
    return c == '\n';
}

int pic_day_list_open(const char *folder, FILE **list, char text[PIC_DAY_TEXT])
{
    char name[PIC_DAY_PATH + 16], line[LINE_LEN];
    struct stat found;
    snprintf(name, sizeof name, "%s/day.list", folder);
    if (stat(folder, &found) == 0 && S_ISDIR(found.st_mode) && stat(name, &found) != 0 && errno == ENOENT) {
        return pic_day_wrong(text, "there is no day.list in it, so it is no day");
    }
    *list = fopen(name, "rb");
    if (*list == NULL) {
        return PIC_FILE;
    }
    if (!next_line(*list, line) || strcmp(line, "pch-pic day 1") != 0) {
        int why = errno;
        bool failed = ferror(*list) != 0;
        fclose(*list);
        errno = why;
        return failed ? PIC_FILE : pic_day_wrong(text, "day.list, line 1: it is not 'pch-pic day 1'");
    }
    return PCH_PIC_DONE;
}

void pic_day_list_rewind(FILE *list)
{
    char line[LINE_LEN];
    rewind(list);
    next_line(list, line);
}

enum pic_day_met pic_day_list_next(FILE *list, unsigned traces, uint64_t records, struct pic_day_line *found)
{
    char line[LINE_LEN];
    if (!next_line(list, line)) {
        return PIC_DAY_NO_LINE;
    }
    if (end_line(line, traces, records)) {
        return next_line(list, line) ? PIC_DAY_BAD_LINE : PIC_DAY_END_LINE;
    }
    return traces < PIC_DAY_TRACES_MAX && trace_line(line, traces + 1, found) ? PIC_DAY_TRACE_LINE : PIC_DAY_BAD_LINE;
}

/* Which listed trace has that digest; 0 where none has. */
static unsigned listed_as(const char *folder, const char *digest)
{
    struct pic_day_line line;
    char text[PIC_DAY_TEXT];
    FILE *list;
    unsigned traces = 0, found = 0;
    uint64_t records = 0;
    if (pic_day_list_open(folder, &list, text) != PCH_PIC_DONE) {
        return 0;
    }
    while (found == 0 && pic_day_list_next(list, traces, records, &line) == PIC_DAY_TRACE_LINE) {
        traces++;
        records += line.records;
        found = strcmp(line.digest, digest) == 0 ? traces : 0;
    }
    fclose(list);
    return found;
}

int pic_day_listed(const char *folder, unsigned number, const struct pic_day_line *line, uint8_t trace[PCH_PIC_TRACE_MAX], size_t *len, char text[PIC_DAY_TEXT])
{
    char name[PIC_DAY_PATH], digest[PIC_DIGEST_LEN + 1];
    int loaded = pic_day_name(folder, number, name) ? pic_trace_load(name, trace, len) : PIC_FILE;
    if (loaded == PIC_FILE) {
        return errno == ENOENT ? pic_day_wrong(text, "%05u.trace is missing", number) : pic_day_wrong(text, "%05u.trace: %s", number, strerror(errno));
    }
    pic_digest(trace, *len, digest);
    if (loaded != PCH_PIC_DONE || strcmp(digest, line->digest) != 0) {
        unsigned other = loaded == PCH_PIC_DONE ? listed_as(folder, digest) : 0;
        return other != 0 ? pic_day_wrong(text, "%05u.trace is trace %u of this day: its files are out of order, or one is there twice", number, other)
                          : pic_day_wrong(text, "%05u.trace is not the trace that day.list names: it has changed, or it is of another day", number);
    }
    if (pic_trace_test(trace, *len, NULL) != PCH_PIC_DONE) {
        return pic_day_wrong(text, "%05u.trace is as it was listed, and no good trace", number);
    }
    size_t records = pic_trace_records(trace);
    return records == line->records ? PCH_PIC_DONE : pic_day_wrong(text, "day.list, line %u: it says %zu records, and %05u.trace has %zu", number + 1, line->records, number, records);
}

/* The number that a file's name has as a trace of a day; -1 where it is none. */
static long number_of(const char *name)
{
    return strspn(name, "0123456789") == NAME_DIGITS && strcmp(name + NAME_DIGITS, ".trace") == 0 ? strtol(name, NULL, 10) : -1;
}

int pic_day_scan(const char *folder, unsigned listed, bool ended, bool *open, char text[PIC_DAY_TEXT])
{
    DIR *dir = opendir(folder);
    long foreign = -1;
    *open = false;
    if (dir == NULL) {
        return PIC_FILE;
    }
    for (struct dirent *entry = readdir(dir); entry != NULL; entry = readdir(dir)) {
        long number = number_of(entry->d_name);
        bool next = !ended && number == (long)listed + 1;
        *open = *open || next;
        if (number >= 0 && !next && (number == 0 || number > (long)listed) && (foreign < 0 || number < foreign)) {
            foreign = number;
        }
    }
    closedir(dir);
    return foreign < 0 ? PCH_PIC_DONE : pic_day_wrong(text, "%05ld.trace is not of this day: day.list ends with trace %u", foreign, listed);
}
