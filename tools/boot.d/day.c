/* A host that settles after each write polls 64 inputs and drains, and QEMU's devices lower lines that are low: mostly nothing comes of it. A day has room for 4000
 * calls, so all that change nothing are left out of it. That the rest is the same day is tested at its end: played, it has to come to the device's bytes. */
#include "day.h"

#include <stdlib.h>
#include <string.h>

struct day {
    struct pic_recorder recorder;
    int stopped;                              /* why no more is taken */
    uint8_t end[PCH_PIC_IMAGE2_NUMBERED_LEN]; /* the device before the first call that was not taken */
};

struct day *day_new(void)
{
    return calloc(1, sizeof(struct day));
}

void day_begin(struct day *day)
{
    pic_recorder_begin(&day->recorder);
    day->stopped = PCH_PIC_DONE;
}

/* What a call that moves no register does: it is made on a copy. Its number is the device's business. */
static void try_call(uint8_t image[PCH_PIC_IMAGE2_NUMBERED_LEN], const struct pic_call *call, uint8_t answer[PCH_PIC_ANSWER_LEN])
{
    uint8_t events[PCH_PIC_DRAIN_ROOM];
    if (call->kind == PCH_PIC_DRAIN) {
        pch_pic_drain(image, PCH_PIC_IMAGE2_NUMBERED_LEN, events, sizeof events, 0, answer, PCH_PIC_ANSWER_LEN);
    } else if (call->kind == PCH_PIC_POLL) {
        pch_pic_poll(image, PCH_PIC_IMAGE2_NUMBERED_LEN, call->of, answer, PCH_PIC_ANSWER_LEN);
    } else {
        pch_pic_level(image, PCH_PIC_IMAGE2_NUMBERED_LEN, call->of, call->kind == PCH_PIC_RAISE, answer, PCH_PIC_ANSWER_LEN);
    }
}

/* Whether a call belongs to the day: an access always, and another where it changes a byte of the device. An event that is made changes its number. */
static bool matters(const struct pic *pic, const struct pic_call *call)
{
    uint8_t image[PCH_PIC_IMAGE2_NUMBERED_LEN], answer[PCH_PIC_ANSWER_LEN];
    if (call->kind == PCH_PIC_READ || call->kind == PCH_PIC_WRITE) {
        return true;
    }
    memcpy(image, pic->image, sizeof image);
    try_call(image, call, answer);
    return memcmp(image, pic->image, sizeof image) != 0;
}

static int take(struct pic_recorder *recorder, const struct pic *pic, const struct pic_call *call)
{
    switch (call->kind) {
    case PCH_PIC_RAISE: return pic_recorder_raise(recorder, call->of);
    case PCH_PIC_LOWER: return pic_recorder_lower(recorder, call->of);
    case PCH_PIC_POLL: return pic_recorder_poll(recorder, call->of);
    case PCH_PIC_READ: return pic_recorder_read(recorder, pic->base, pic->size, call->address, call->of);
    case PCH_PIC_WRITE: return pic_recorder_write(recorder, pic->base, pic->size, call->address, call->of, call->value);
    case PCH_PIC_DRAIN: return pic_recorder_drain(recorder, PCH_PIC_DRAIN_ROOM);
    default: return PCH_PIC_DONE; /* a reset: day_begin follows it */
    }
}

void day_call(struct day *day, const struct pic *pic, const struct pic_call *call)
{
    if (day->stopped == PCH_PIC_DONE && matters(pic, call)) {
        day->stopped = take(&day->recorder, pic, call);
        if (day->stopped != PCH_PIC_DONE) {
            memcpy(day->end, pic->image, sizeof day->end);
        }
    }
}

const char *day_save(struct day *day, const struct pic *pic, const char *path)
{
    static struct pic_played played;
    static uint8_t trace[PCH_PIC_TRACE_MAX];
    size_t len;
    if (day->stopped == PCH_PIC_DONE) {
        memcpy(day->end, pic->image, sizeof day->end);
    }
    if (pic_recorder_save(&day->recorder, path) != PCH_PIC_DONE || pic_recorder_finish(&day->recorder, trace, &len) != PCH_PIC_DONE) {
        return "unsaved";
    }
    if (pic_trace_play(trace, len, &played, NULL) != PCH_PIC_DONE || memcmp(played.image, day->end, sizeof day->end) != 0) {
        return "other";
    }
    return "ok";
}
