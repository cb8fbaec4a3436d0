/* A day of a device recorded as a trace (pch_pic.h, "Traces"), kept in a file, played back, and salvaged where it is damaged. Copy it and change it.
 * A trace has the calls and not their answers, and playing it from a reset gives every byte again. So a recorder takes what a record can say and refuses all
 * else: what it finishes plays to the same bytes as the day. Each function that can fail hands back 0, a number of pch_pic.h or pic.h, or one of these;
 * pic_recorder_why says in words what it means. */
#ifndef RECORDER_H
#define RECORDER_H

#include "pic.h"

#ifdef __cplusplus
extern "C" {
#endif

/* Why a recorder takes no more, or not this. It is left as it was. */
enum {
    PIC_FULL = 110,      /* there are 4000 records, or as many as are planned */
    PIC_BLOCKS = 111,    /* there are 64 blocks, and the last is closed */
    PIC_EMPTY = 112,     /* a block, or the whole trace, would have no record */
    PIC_PLAN = 113,      /* a plan has no block or more than 64, a block of none, or more than 4000 records; or there is no plan */
    PIC_PLANNED = 114,   /* the blocks are planned, and end where the plan says */
    /* No record can say it, or none that would play to the same bytes. */
    PIC_BYTE = 115,      /* the input or the width is over 255 */
    PIC_OFFSET = 116,    /* the address is below the window's base, or more than 65535 above it */
    PIC_REFUSED = 117,   /* the access is refused by this window, and answered otherwise by the one that a trace is played in */
    PIC_SOME = 118,      /* a drain with room for some events only */
    PIC_AGAIN = 119,     /* a reset: a trace has one, at its start */
    PIC_LOADED = 120,    /* a load */
    PIC_STARTED = 121,   /* there are records already, or the device is not as a reset leaves it: a trace begins there */
    /* A recording is of one device, from its start on. */
    PIC_COPIED = 122,    /* a copy of the device was called or put in its place, or calls were made while nobody watched */
    PIC_SET_UP = 123     /* the device was set up anew (pic_init), or another watches it */
};

/* 96 KiB, so not for a small stack. All of it belongs to the functions below, but for stopped, which a host reads. */
struct pic_recorder {
    uint8_t records[PCH_PIC_RECORDS_MAX * PCH_PIC_RECORD_LEN];
    uint16_t blocks[PCH_PIC_BLOCKS_MAX];  /* how many records each closed block has */
    uint16_t plan[PCH_PIC_BLOCKS_MAX];    /* how many each is to have, where that is planned */
    size_t closed, planned;               /* blocks closed; blocks planned, 0 where they are closed as the day goes */
    size_t count, open, most;             /* records; those behind the last closed block; and how many there may be */
    uint64_t before;                      /* records of the day's traces before this one (days.h) */
    int file, times_file;                 /* where the day is kept as it goes, and its times; or -1 */
    int stopped;                          /* 0 while a watched device is recorded; else why it is no longer */
    int error;                            /* errno of a PIC_FILE that stopped it */
    uint64_t (*clock)(void *of);          /* tells the time of a record in nanoseconds, or NULL */
    void *clock_of;
    uint64_t times[PCH_PIC_RECORDS_MAX];  /* what it told of each record */
    int (*more)(void *of);                /* asked where there is no room for a record: it begins the next trace; or NULL */
    void *more_of;
    const struct pic *device;             /* the one that is watched, or NULL */
    uint64_t changes;                     /* that device's, as they have to be */
};

/* Begins a day whose blocks are closed as it goes: at most 4000 records in at most 64 blocks. */
void pic_recorder_begin(struct pic_recorder *recorder);

/* Begins a day with its blocks planned: blocks[n] is how many records block n is to have. Each is closed when it has them. */
int pic_recorder_plan(struct pic_recorder *recorder, const uint16_t *blocks, size_t count);

/* Keeps the time of each record too, from before its first one on: clock(of) is asked as each is taken, and tells nanoseconds from any beginning; it is not to go back.
 * pic_recorder_monotonic is the system's own. PIC_STARTED where there are records already. */
int pic_recorder_clock(struct pic_recorder *recorder, uint64_t clock(void *of), void *of);
uint64_t pic_recorder_monotonic(void *unused);

/* The times to a file beside the trace at path, of the same name and .times: eight bytes for each record, little end first. tools/day then tells waits in milliseconds.
 * PIC_EMPTY where there is no record, or no clock. */
int pic_recorder_save_times(const struct pic_recorder *recorder, const char *path);

/* Keeps a planned day in a file, from before its first record on. The file has the planned contents from the start and zeros for its records, which are
 * bad ones; each record is written at its place as it is taken, and each full block is then put on the disk. So a day that is cut short leaves a
 * trace whose contents are right: pch_pic_play refuses it with 13 and the number of the first record that is not there, and every block that was full is
 * whole. The file is made whole or not at all, and one that was there is replaced. */
int pic_recorder_keep(struct pic_recorder *recorder, const char *path);

/* Keeps the times of such a day too, where there is a clock: to path.times, each as its record is taken, just before it. So a day that is cut short has at least as
 * many times as records. */
int pic_recorder_keep_times(struct pic_recorder *recorder, const char *path);

/* Takes one call. A read's and a write's window is that of the call itself: what is recorded is the offset, and a call that this window refuses is
 * taken only where playing gives the same refusal. room says how many bytes a drain's buffer has from its place on: 64 are a drain of all. */
int pic_recorder_raise(struct pic_recorder *recorder, uint64_t input);
int pic_recorder_lower(struct pic_recorder *recorder, uint64_t input);
int pic_recorder_poll(struct pic_recorder *recorder, uint64_t input);
int pic_recorder_read(struct pic_recorder *recorder, uint64_t base, uint64_t size, uint64_t address, uint64_t width);
int pic_recorder_write(struct pic_recorder *recorder, uint64_t base, uint64_t size, uint64_t address, uint64_t width, uint64_t value);
int pic_recorder_drain(struct pic_recorder *recorder, size_t room);

/* Ends the block that is open; the next record begins another. Where the blocks are planned this is not asked for. */
int pic_recorder_close(struct pic_recorder *recorder);

/* Records every call of a device from here on; it has to be as a reset leaves it. The calls are made as ever: what the recorder cannot take stops the
 * recording, and never the device. Then stopped says why, and what was recorded is the day up to there. NULL for pic->watch ends it too. A call of a copy of the
 * device stops it, and so does a copy that was put in its place. Where a recording has stopped before its first record, as by a reset, it may be watched again. */
int pic_recorder_watch(struct pic_recorder *recorder, struct pic *pic);

/* Why the recording has stopped, or 0. A device that is set up anew forgets who watches it, so nobody is told of that: this looks at the device, which has to be
 * there still, and it is PIC_SET_UP. Ask it at the end of a day. */
int pic_recorder_stopped(struct pic_recorder *recorder);

/* Takes a call as a watch is told of it: 0, or why it cannot. */
int pic_recorder_call(struct pic_recorder *recorder, const struct pic *pic, const struct pic_call *call);

/* Begins the next trace of a day: plan, clock and device stay, and so does what stopped it. It is played on what the one before left (pic_trace_play_on). What was not
 * saved of that one is gone; its file has to be ended. days.h does all this. */
void pic_recorder_next(struct pic_recorder *recorder);

/* The trace of what was taken so far. A block that is open ends with its last record, and blocks that are planned and not begun are left out, so this is a
 * good trace at any time from the first record on; the recorder may go on. */
int pic_recorder_finish(const struct pic_recorder *recorder, uint8_t trace[PCH_PIC_TRACE_MAX], size_t *len);

/* The same to a file, which is replaced whole or not at all. */
int pic_recorder_save(const struct pic_recorder *recorder, const char *path);

/* Ends a day that is kept in a file: all of it is on the disk then. Where fewer records came than were planned, the file stays as planned, with bad
 * records at its end; pic_recorder_save makes a good trace of it. Not needed where no file is kept. */
int pic_recorder_end(struct pic_recorder *recorder);

/* A trace from a file. One that is longer than any is 12. */
int pic_trace_load(const char *path, uint8_t trace[PCH_PIC_TRACE_MAX], size_t *len);

/* Whether a trace is good: 0, 12, or 13 with the number of the first bad record, where bad is not NULL. */
int pic_trace_test(const uint8_t *trace, size_t len, uint64_t *bad);

/* What playing a trace gave; 320 KB, so not for a stack. */
struct pic_played {
    uint8_t image[PCH_PIC_IMAGE2_NUMBERED_LEN];                        /* the device after the last record */
    size_t records;                                                    /* how many there are */
    uint8_t answers[PCH_PIC_RECORDS_MAX * PCH_PIC_ANSWER_LEN];         /* 16 bytes of each */
    uint8_t events[(size_t)PCH_PIC_RECORDS_MAX * PCH_PIC_DRAIN_ROOM];  /* those of all drains, four bytes each */
};

/* Plays a trace from a reset. A refusal is as of pic_trace_test, and leaves played. */
int pic_trace_play(const uint8_t *trace, size_t len, struct pic_played *played, uint64_t *bad);

/* Plays a trace on from played->image, with no reset: that is the image that the last play left, or one that a host put there. So a day that is longer than a
 * trace is played trace by trace. Answers and events are those of this trace alone. A refusal is as of pic_trace_test, or 5 or 8 to 11 where the image is none,
 * and leaves played. */
int pic_trace_play_on(const uint8_t *trace, size_t len, struct pic_played *played, uint64_t *bad);

/* One record of a played trace, and what it gave. */
struct pic_step {
    size_t number;         /* counted from 0 over the trace */
    const uint8_t *record; /* its 16 bytes */
    const uint8_t *answer; /* its 16 answer bytes */
    const uint8_t *events; /* what it drained, four bytes each */
    size_t drained;        /* how many these are */
};

/* Goes to the first record where the step is all zeros, and else to the next; false where there is none. */
bool pic_trace_step(const uint8_t *trace, const struct pic_played *played, struct pic_step *step);

/* What is left of a damaged trace; 64 KiB, so not for a small stack. */
struct pic_salvaged {
    uint8_t trace[PCH_PIC_TRACE_MAX];  /* the blocks that have no bad record, as a good trace */
    size_t len;                        /* how many bytes it has */
    uint8_t list[PCH_PIC_DROPPED_MAX]; /* the blocks that have one, four bytes each */
    size_t dropped;                    /* how many these are */
};

/* Salvages a trace whose contents are right: 0, 12 where they are not, or 16 where no block is left. A refusal leaves salvaged. Behind a block that was dropped it
 * plays on another state than the day had, and no number there is the day's; holes.h keeps what comes before the first one. */
int pic_trace_salvage(const uint8_t *trace, size_t len, struct pic_salvaged *salvaged);

/* A dropped block and the first bad record in it, both counted from 0, the record within its block. */
struct pic_dropped {
    unsigned block, record;
};

/* The dropped block of this place in the list, which is in rising order from 0 on; false where there is none. */
bool pic_trace_dropped(const struct pic_salvaged *salvaged, size_t place, struct pic_dropped *dropped);

/* The new trace to a file, which is replaced whole or not at all. */
int pic_salvaged_save(const struct pic_salvaged *salvaged, const char *path);

const char *pic_recorder_why(int number);

#ifdef __cplusplus
}
#endif

#endif
