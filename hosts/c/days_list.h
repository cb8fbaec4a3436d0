/* What days.c, days_read.c and days_salvage.c share: a line of the list of a day, a trace as it is listed, and the place of the next one. */
#ifndef DAYS_LIST_H
#define DAYS_LIST_H

#include "days.h"

#ifdef __cplusplus
extern "C" {
#endif

struct pic_day_line {
    size_t records;
    char digest[PIC_DIGEST_LEN + 1];
};

/* What the next line of a list is. A last line without its end is none: power was lost while it was written. */
enum pic_day_met { PIC_DAY_TRACE_LINE, PIC_DAY_END_LINE, PIC_DAY_BAD_LINE, PIC_DAY_NO_LINE };

/* Opens the list of a day, behind its first line: 0, PIC_FILE, or PIC_NO_DAY with a text. */
int pic_day_list_open(const char *folder, FILE **list, char text[PIC_DAY_TEXT]);

/* Goes back to behind its first line. */
void pic_day_list_rewind(FILE *list);

/* The next line, where so many traces with so many records were met before it. */
enum pic_day_met pic_day_list_next(FILE *list, unsigned traces, uint64_t records, struct pic_day_line *found);

/* Loads the trace with that number, and tests whether it is the one of the line: 0, or PIC_NO_DAY with a text. */
int pic_day_listed(const char *folder, unsigned number, const struct pic_day_line *line, uint8_t trace[PCH_PIC_TRACE_MAX], size_t *len, char text[PIC_DAY_TEXT]);

/* Looks through the folder of a day: whether there is a trace behind the last listed one, and PIC_NO_DAY with a text where there is a trace that is not the day's. */
int pic_day_scan(const char *folder, unsigned listed, bool ended, bool *open, char text[PIC_DAY_TEXT]);

/* The name of the next trace of a day that is recorded, whose place is the day's own from here on: 0, PIC_FILE, or PIC_OCCUPIED where something else stands there. */
int pic_day_place(struct pic_day *day, char path[PIC_DAY_PATH]);

/* Puts a good trace and its times in that place, and lists it: 0 or PIC_FILE. */
int pic_day_put(struct pic_day *day, const char *path, const uint8_t *trace, size_t len, const uint8_t *times);

/* Writes the text, and hands back PIC_NO_DAY. */
int pic_day_wrong(char text[PIC_DAY_TEXT], const char *form, ...);

#ifdef __cplusplus
}
#endif

#endif
