/* A day of any length: traces one after another in a folder, with a list of them (docs/BENCH-DAY.md, "A day longer than a trace"). The first is played from a reset, and each
 * other on what the one before left. It is recorded, read, and salvaged where it is damaged; however long it is, one trace of it is in memory. Copy it and change it.
 *     DAY/00001.trace, DAY/00002.trace ..   plain traces, counted from 1
 *     DAY/00001.trace.times                 the times of its records, where a clock was kept
 *     DAY/00003.trace.holes                 what is missing behind the last one, in a day that was salvaged
 *     DAY/day.list                          'pch-pic day 1', a line '00001 4000 SHA-256' for each trace that has ended, and 'end 3 8123' where the day has
 * Each function that can fail hands back 0, a number of recorder.h or holes.h, or one of these; pic_day_why says in words what it means. */
#ifndef DAYS_H
#define DAYS_H

#include "holes.h"

#include <stdio.h>

#ifdef __cplusplus
extern "C" {
#endif

enum {
    PIC_OCCUPIED = 140, /* the folder has something in it, or something came into the place of the next trace: nothing is ever written over */
    PIC_NO_DAY = 141,   /* the folder has no day, or a damaged one; a text says what is wrong */
    PIC_INSIDE = 142,   /* what is salvaged cannot go into the folder that it is salvaged from */
    PIC_DAY_OVER = 143, /* the day was ended, and takes no more */
};

enum {
    PIC_DAY_BLOCK = 64,         /* a good size for blocks: 62 of them are 3968 records a trace */
    PIC_DAY_TRACES_MAX = 99999, /* names have five digits */
    PIC_DAY_PATH = 4096,        /* room for a name with its folders */
    PIC_DAY_TEXT = 320          /* room for a line that says what is wrong */
};

/* A day that is recorded; 100 KB, so not for a small stack, and it stays where it is; a call that begins the next trace takes some 128 KB of stack. Calls go to the recorder, by pic_recorder_watch or pic_recorder_raise and so on,
 * and a clock before the first of them by pic_recorder_clock. Where its trace is full it goes on with the next one by itself. */
struct pic_day {
    struct pic_recorder recorder;
    char folder[PIC_DAY_PATH]; /* from the root on */
    int list;         /* the list, open for more lines; or -1 */
    unsigned traces;  /* how many are listed */
    uint64_t records; /* how many records these have */
    bool open;        /* there is a trace that is not listed yet */
    bool made;        /* the folder was made for this day */
    bool ours;        /* what stands in the place of the next trace is the day's own */
    int failed;       /* why the day did not begin, or 0 */
    int error;        /* errno of that */
};

/* Begins a day in a folder, which is made, or is there and empty.
 * Where power may be lost, block says how many records a block is to have (1 to 4000): as many blocks as fit are planned for each trace, each record is written as it is
 * taken, with its time, and each full block is put on the disk. Then a killed process loses no record, and lost power loses the open block at most.
 * With 0 for block a trace stands in memory, and is written whole when it is full, or at pic_day_next or pic_day_end: a lost process then loses the open trace.
 * Where it fails nothing is recorded: the recorder takes no record, and the functions below hand back the same number. */
int pic_day_begin(struct pic_day *day, const char *folder, size_t block);

/* Ends the open trace: it is on the disk and listed, and the next record begins another. Where there is no record in it, nothing is done. */
int pic_day_next(struct pic_day *day);

/* Ends the day, also one whose recording has stopped: the open trace is ended, and the list says that this is all. PIC_EMPTY where there is no record at all. One that fails
 * may be called again. */
int pic_day_end(struct pic_day *day);

/* Adds a trace that is there already as it is, in place of recorded calls: it plays on what the ones before leave. times has eight bytes for each record, or is NULL.
 * Where it fails nothing of it stays; behind pic_day_end it is PIC_DAY_OVER. */
int pic_day_add(struct pic_day *day, const uint8_t *trace, size_t len, const uint8_t *times);

/* Closes the list of a day that goes no further, without a word that it was ended. */
void pic_day_leave(struct pic_day *day);

/* Takes a day away that was begun and is not to be: its files, and the folder where it was made for it. */
void pic_day_undo(struct pic_day *day);

/* A day that is read, trace by trace; 64 KiB, so not for a small stack. */
struct pic_day_read {
    char folder[PIC_DAY_PATH];
    FILE *list;
    unsigned listed;                  /* traces that the list has */
    unsigned traces;                  /* those, and the open one of a day that was not ended, where it is good as it stands */
    uint64_t records;                 /* how many all these have */
    bool ended;                       /* the list says that this is all */
    unsigned number;                  /* the trace that was read last, counted from 1 */
    size_t of_trace;                  /* its records */
    uint64_t before;                  /* the records before it */
    uint8_t trace[PCH_PIC_TRACE_MAX]; /* its bytes */
    size_t len;                       /* how many these are */
    char text[PIC_DAY_TEXT];          /* after PIC_NO_DAY: what is wrong, in a line */
};

/* Opens a day and tests all of it: each trace is there, is the one that is listed, and is good; there are no others; and times are as many as records, and do not go back. 0, PIC_FILE or
 * PIC_NO_DAY; where it fails nothing stays open. */
int pic_day_open(struct pic_day_read *day, const char *folder);

/* Reads the next trace, from the first on: 0, PIC_EMPTY where there is none, PIC_FILE, or PIC_NO_DAY where it is not any more what it was, or the day is not open. */
int pic_day_trace(struct pic_day_read *day);

/* Goes back to before the first one. */
void pic_day_rewind(struct pic_day_read *day);
void pic_day_close(struct pic_day_read *day);

/* The name of a trace of a day, by its number. */
bool pic_day_name(const char *folder, unsigned number, char name[PIC_DAY_PATH]);

/* A hole whose text begins so is that of a day that was not ended: no more than these records are missing, and perhaps none. */
#define PIC_DAY_AT_MOST "at most: "

/* What was kept of a damaged day; 270 KB, so not for a stack. */
struct pic_day_kept {
    struct pic_day day;               /* where it goes to: how many traces and records it has */
    struct pic_salvaged last;         /* its last trace, perhaps a part of one */
    uint64_t before;                  /* the records before that */
    struct pic_holes holes;           /* none, or one at the end of the last trace, in that trace's own count */
    unsigned untimed;                 /* traces whose times were not as many as their records, or went back, and are left out */
    uint64_t time;                    /* the last one that was kept */
    bool ended;                       /* the list of what is salvaged says that this was all */
    bool more;                        /* more may be missing than the hole says: where the day ended is not known */
    uint8_t trace[PCH_PIC_TRACE_MAX]; /* what is read */
    uint8_t times[8 * PCH_PIC_RECORDS_MAX];
    char text[PIC_DAY_TEXT];          /* what ends it, in a line, or empty; after PIC_NO_DAY why nothing is kept */
};

/* Makes the day to, a folder that is not there or empty, of what comes before the first damage of a day: traces as they are, with their times, and the leading whole
 * records of an open one. Of a listed trace that has changed nothing is kept, since any record may be wrong. 0, PIC_FILE, PIC_OCCUPIED, PIC_INSIDE or PIC_NO_DAY; then nothing
 * is made. What is missing stands in the list of holes beside its last trace. */
int pic_day_salvage(const char *folder, const char *to, struct pic_day_kept *kept);

const char *pic_day_why(int number);

#ifdef __cplusplus
}
#endif

#endif
