/* What a damaged trace still has, and what it lacks (pch_pic.h, "Traces"). Copy it and change it.
 * A hole is a stretch of the day that is lost. What comes before the first one is the day, exactly. Behind it every call is played on the state that the missing
 * calls would have changed, so no number there is the day's: it may show asserts that never were, and none of those that were. A list of the holes goes with such a
 * trace, in a file beside it of the same name and .holes. */
#ifndef HOLES_H
#define HOLES_H

#include "recorder.h"

#ifdef __cplusplus
extern "C" {
#endif

enum {
    PIC_TEXT_LEN = 160,    /* room for a text of one line */
    PIC_DIGEST_LEN = 64,   /* hex digits of a SHA-256 */
    PIC_NO_LIST = 130,     /* what is there is no list of holes */
    PIC_OTHER_TRACE = 131, /* the list is of another trace */
};

/* One hole: where it stands in the trace that is left, and which records of the day are lost. It stands before record at; where at is the number of records,
 * at the trace's end, and nothing comes behind it. */
struct pic_hole {
    size_t at, first, last;
    char why[PIC_TEXT_LEN]; /* in words, or empty */
};

struct pic_holes {
    struct pic_hole of[PCH_PIC_BLOCKS_MAX];
    size_t count;
};

/* Which of the three causes of refusal 12 it is, in words; false where there is none. len of PCH_PIC_TRACE_MAX stands for that and more. */
bool pic_trace_cause(const uint8_t *trace, size_t len, char text[PIC_TEXT_LEN]);

/* A trace that was cut short in copying, its contents whole: what is missing becomes zeros, which are bad records, and so does a record that is there in part.
 * The length after that; of any other trace len as it is. */
size_t pic_trace_fill(uint8_t trace[PCH_PIC_TRACE_MAX], size_t len);

/* How many records a trace has whose contents are right, and of how many the day was, the lost ones among them. */
size_t pic_trace_records(const uint8_t *trace);
size_t pic_day_records(const uint8_t *trace, const struct pic_holes *holes);

/* Keeps what comes before the first hole, known or found, record for record: 0, 12, or 16 where nothing does. holes goes in with those that are known of the trace,
 * and comes out with those of what is kept: none, or one at its end. A refusal leaves both. */
int pic_trace_lead(const uint8_t *trace, size_t len, struct pic_salvaged *kept, struct pic_holes *holes);

/* Keeps every whole block, as pic_trace_salvage. holes comes out with a hole for each block that was dropped; where none was, as it went in. */
int pic_trace_whole(const uint8_t *trace, size_t len, struct pic_salvaged *kept, struct pic_holes *holes);

/* The SHA-256 of bytes, as hex digits. */
void pic_digest(const uint8_t *bytes, size_t len, char text[PIC_DIGEST_LEN + 1]);

/* The list of a trace's holes, beside its file: none where there is no such file. 0, PIC_FILE, PIC_NO_LIST or PIC_OTHER_TRACE. */
int pic_holes_load(const char *path, const uint8_t *trace, size_t len, struct pic_holes *holes);

/* Saves a trace to a file and the list of its holes beside it, each replaced whole or not at all: 0, PIC_FILE or PIC_NO_LIST. At no time does a trace with holes stand
 * there without its list. Where there is no hole, a list that was there is taken away; what is there and no list is left, and nothing is saved. */
int pic_holes_save(const char *path, const struct pic_salvaged *kept, const struct pic_holes *holes);

/* A hole as a line of the list, without its end. */
void pic_hole_text(const struct pic_hole *hole, char text[2 * PIC_TEXT_LEN]);

const char *pic_holes_why(int number);

#ifdef __cplusplus
}
#endif

#endif
