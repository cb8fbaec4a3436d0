/* The sheet of a day (pch_pic.h, "The sheet"): ten numbers for each input and the total, counted by the library from a trace, and printed; and the same of a day
 * of several traces, by a tally that is carried from one to the next. Copy it and change it. */
#ifndef SHEET_H
#define SHEET_H

#include "pic.h"

#include <stdio.h>

#ifdef __cplusplus
extern "C" {
#endif

struct pic_sheet {
    size_t records;                                        /* how many the day has */
    uint32_t of[PCH_PIC_SHEET_ROWS][PCH_PIC_SHEET_COLUMNS]; /* of[5][PCH_PIC_SHEET_WAIT] is the greatest wait of input 5 */
};

/* Counts the day of a trace: 0, 12, or 13 with the number of the first bad record, where bad is not NULL. A refusal leaves the sheet. */
int pic_trace_sheet(const uint8_t *trace, size_t len, struct pic_sheet *sheet, uint64_t *bad);

/* Whether a row is all zeros: the input did nothing. */
bool pic_sheet_idle(const struct pic_sheet *sheet, size_t row);

/* A column as the table names it. */
const char *pic_sheet_column(size_t column);

/* Where the greatest wait of each row began: the number of the raise's record, of several that are as long the first; PIC_NO_WAIT where there was none. The library's own
 * sheets of the day's beginnings tell it. */
#define PIC_NO_WAIT ((size_t)-1)
int pic_sheet_began(const uint8_t *trace, size_t len, const struct pic_sheet *sheet, size_t began[PCH_PIC_SHEET_ROWS]);

/* A table for people: inputs that did nothing are left out, and the total comes last. With began it has a column more. */
void pic_sheet_print(const struct pic_sheet *sheet, FILE *out);
void pic_sheet_print_began(const struct pic_sheet *sheet, const size_t *began, FILE *out);

/* Lines for a program, with commas between: names first, then every input and the total. */
void pic_sheet_csv(const struct pic_sheet *sheet, FILE *out);

/* What was counted of a day so far; 5 KB. */
struct pic_tally {
    uint8_t bytes[PCH_PIC_TALLY_LEN];
};

/* The same numbers, of a day of any length: records are counted over all its traces, and so are waits. */
struct pic_long_sheet {
    uint64_t records;
    uint64_t of[PCH_PIC_SHEET_ROWS][PCH_PIC_SHEET_COLUMNS];
};

/* Nothing is counted yet. */
int pic_tally_begin(struct pic_tally *tally);

/* Counts one trace more. image is the device as it was before its first record, so this comes before the trace is played on it, and leaves it. A refusal is 12, 13 with the
 * number of the first bad record where bad is not NULL, 17, or 4, 5 or 8 to 11 where the image is none; it leaves the tally. */
int pic_tally_add(struct pic_tally *tally, const uint8_t *trace, size_t len, const uint8_t *image, size_t image_len, uint64_t *bad);

/* The sheet of all that was counted; the tally may go on. 17 leaves the sheet. */
int pic_tally_sheet(const struct pic_tally *tally, struct pic_long_sheet *sheet);

/* Where a row's wait of that length began, which ended in this trace: the number of the raise's record over the whole day. tally and image are those from before the
 * trace, and wait is the row's greatest one after it, and greater than before. */
int pic_tally_began(const struct pic_tally *tally, const uint8_t *trace, size_t len, const uint8_t *image, size_t image_len, size_t row, uint64_t wait, uint64_t *began);

/* As a table, and with commas. began has a number for each row, and PIC_NO_WAIT where there was no wait. */
void pic_long_sheet_print(const struct pic_long_sheet *sheet, const uint64_t *began, FILE *out);
void pic_long_sheet_csv(const struct pic_long_sheet *sheet, FILE *out);

#ifdef __cplusplus
}
#endif

#endif
