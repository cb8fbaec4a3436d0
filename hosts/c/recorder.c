/* The recorder keeps records and the lengths of closed blocks; contents are made of them only at the end, since they stand in front and grow with the
 * blocks. A planned day knows its contents from the start, and so each of its records has a place in the file. */
#define _POSIX_C_SOURCE 200809L
#include "recorder.h"

#include <errno.h>
#include <stdio.h>
#include <string.h>
#include <time.h>
#include <unistd.h>

enum { NO_FILE = -1, MOST_BYTE = 0xff, MOST_OFFSET = 0xffff, TIME_LEN = 8, PATH_LEN = 4096 };

static void put(uint8_t *bytes, size_t len, uint64_t value)
{
    for (size_t i = 0; i < len; i++) {
        bytes[i] = (uint8_t)(value >> 8 * i);
    }
}

static uint64_t get(const uint8_t *bytes, size_t len)
{
    uint64_t value = 0;
    while (len > 0) {
        len--;
        value = value << 8 | bytes[len];
    }
    return value;
}

static size_t contents_len(size_t blocks)
{
    return PCH_PIC_TRACE_ENTRIES + PCH_PIC_BLOCK_LEN * blocks;
}

/* The contents of blocks with so many records each; how many bytes they are. */
static size_t put_contents(uint8_t *trace, const uint16_t *blocks, size_t count)
{
    size_t at = contents_len(count);
    put(trace + PCH_PIC_TRACE_BLOCKS, 2, count);
    for (size_t block = 0; block < count; block++) {
        uint8_t *entry = trace + contents_len(block);
        put(entry + PCH_PIC_BLOCK_OFFSET, 2, at);
        put(entry + PCH_PIC_BLOCK_RECORDS, 2, blocks[block]);
        at += (size_t)PCH_PIC_RECORD_LEN * blocks[block];
    }
    return contents_len(count);
}

void pic_recorder_begin(struct pic_recorder *recorder)
{
    memset(recorder, 0, sizeof *recorder);
    recorder->most = PCH_PIC_RECORDS_MAX;
    recorder->file = recorder->times_file = NO_FILE;
}

static size_t planned_records(const struct pic_recorder *recorder)
{
    size_t records = 0;
    for (size_t block = 0; block < recorder->planned; block++) {
        records += recorder->plan[block];
    }
    return records;
}

void pic_recorder_next(struct pic_recorder *recorder)
{
    recorder->before += recorder->count;
    recorder->count = recorder->open = recorder->closed = 0;
    recorder->most = recorder->planned != 0 ? planned_records(recorder) : PCH_PIC_RECORDS_MAX;
}

int pic_recorder_plan(struct pic_recorder *recorder, const uint16_t *blocks, size_t count)
{
    size_t records = 0;
    if (count < 1 || count > PCH_PIC_BLOCKS_MAX) {
        return PIC_PLAN;
    }
    for (size_t block = 0; block < count; block++) {
        records += blocks[block];
        if (blocks[block] == 0 || records > PCH_PIC_RECORDS_MAX) {
            return PIC_PLAN;
        }
    }
    pic_recorder_begin(recorder);
    memcpy(recorder->plan, blocks, count * sizeof blocks[0]);
    recorder->planned = count;
    recorder->most = records;
    return PCH_PIC_DONE;
}

static bool started(const struct pic_recorder *recorder)
{
    return recorder->count != 0 || recorder->before != 0;
}

int pic_recorder_clock(struct pic_recorder *recorder, uint64_t clock(void *of), void *of)
{
    if (started(recorder)) {
        return PIC_STARTED;
    }
    recorder->clock = clock;
    recorder->clock_of = of;
    return PCH_PIC_DONE;
}

uint64_t pic_recorder_monotonic(void *unused)
{
    struct timespec now = {0};
    (void)unused;
    clock_gettime(CLOCK_MONOTONIC, &now);
    return (uint64_t)now.tv_sec * 1000000000 + (uint64_t)now.tv_nsec;
}

/* The name of the file that the times go to. */
static bool times_name(const char *path, char name[PATH_LEN])
{
    int len = snprintf(name, PATH_LEN, "%s.times", path);
    errno = ENAMETOOLONG;
    return len > 0 && len < PATH_LEN;
}

int pic_recorder_save_times(const struct pic_recorder *recorder, const char *path)
{
    uint8_t bytes[TIME_LEN * PCH_PIC_RECORDS_MAX];
    char name[PATH_LEN];
    if (recorder->count == 0 || recorder->clock == NULL) {
        return PIC_EMPTY;
    }
    if (!times_name(path, name)) {
        return PIC_FILE;
    }
    for (size_t record = 0; record < recorder->count; record++) {
        put(bytes + TIME_LEN * record, TIME_LEN, recorder->times[record]);
    }
    return pic_replace(name, bytes, TIME_LEN * recorder->count);
}

int pic_recorder_keep(struct pic_recorder *recorder, const char *path)
{
    uint8_t trace[PCH_PIC_TRACE_MAX] = {0};
    if (recorder->planned == 0) {
        return PIC_PLAN;
    }
    if (recorder->count != 0 || recorder->file != NO_FILE) {
        return PIC_STARTED;
    }
    size_t len = put_contents(trace, recorder->plan, recorder->planned) + PCH_PIC_RECORD_LEN * recorder->most;
    int file = pic_replace_open(path, trace, len);
    if (file < 0) {
        return PIC_FILE;
    }
    recorder->file = file;
    return PCH_PIC_DONE;
}

int pic_recorder_keep_times(struct pic_recorder *recorder, const char *path)
{
    char name[PATH_LEN];
    if (recorder->file == NO_FILE || recorder->clock == NULL) {
        return PIC_PLAN;
    }
    if (recorder->count != 0 || recorder->times_file != NO_FILE) {
        return PIC_STARTED;
    }
    recorder->times_file = times_name(path, name) ? pic_replace_open(name, NULL, 0) : NO_FILE;
    return recorder->times_file != NO_FILE ? PCH_PIC_DONE : PIC_FILE;
}

static bool write_at(int file, const uint8_t *bytes, size_t len, size_t place)
{
    for (size_t done = 0; done < len;) {
        ssize_t more = pwrite(file, bytes + done, len - done, (off_t)(place + done));
        if (more == 0 || (more < 0 && errno != EINTR)) {
            return false;
        }
        done += more > 0 ? (size_t)more : 0;
    }
    return true;
}

/* Writes a record at its place in the file, and its time before it; a full block goes to the disk, so that it outlasts a lost power. */
static bool keep(const struct pic_recorder *recorder, const uint8_t *record, uint64_t time, bool full)
{
    uint8_t bytes[TIME_LEN];
    bool timed = recorder->times_file != NO_FILE;
    put(bytes, TIME_LEN, time);
    if (timed && (!write_at(recorder->times_file, bytes, TIME_LEN, TIME_LEN * recorder->count) || (full && fdatasync(recorder->times_file) != 0))) {
        return false;
    }
    size_t place = contents_len(recorder->planned) + PCH_PIC_RECORD_LEN * recorder->count;
    return write_at(recorder->file, record, PCH_PIC_RECORD_LEN, place) && (!full || fdatasync(recorder->file) == 0);
}

static void close_block(struct pic_recorder *recorder)
{
    recorder->blocks[recorder->closed] = (uint16_t)recorder->open;
    recorder->closed++;
    recorder->open = 0;
}

/* Whether there is room for a record: 0, or why not. In a planned day the plan has room for most records, each in its block. */
static int room(const struct pic_recorder *recorder)
{
    return recorder->count == recorder->most ? PIC_FULL : recorder->closed == PCH_PIC_BLOCKS_MAX ? PIC_BLOCKS : PCH_PIC_DONE;
}

/* Room is made or missed before anything is taken. */
static int take(struct pic_recorder *recorder, const uint8_t record[PCH_PIC_RECORD_LEN])
{
    int number = room(recorder);
    if (number != PCH_PIC_DONE && recorder->more != NULL) {
        number = recorder->more(recorder->more_of);
    }
    if (number != PCH_PIC_DONE) {
        return number;
    }
    bool full = recorder->planned != 0 && recorder->open + 1 == recorder->plan[recorder->closed];
    uint64_t time = recorder->clock != NULL ? recorder->clock(recorder->clock_of) : 0;
    if (recorder->file != NO_FILE && !keep(recorder, record, time, full)) {
        return PIC_FILE;
    }
    memcpy(recorder->records + PCH_PIC_RECORD_LEN * recorder->count, record, PCH_PIC_RECORD_LEN);
    recorder->times[recorder->count] = time;
    recorder->count++;
    recorder->open++;
    if (full) {
        close_block(recorder);
    }
    return PCH_PIC_DONE;
}

static int take_call(struct pic_recorder *recorder, int kind, uint64_t of, uint64_t offset, uint64_t value)
{
    uint8_t record[PCH_PIC_RECORD_LEN] = {0};
    if (of > MOST_BYTE) {
        return PIC_BYTE;
    }
    record[PCH_PIC_RECORD_KIND] = (uint8_t)kind;
    record[PCH_PIC_RECORD_BYTE] = (uint8_t)of;
    put(record + PCH_PIC_RECORD_OFFSET, 2, offset);
    put(record + PCH_PIC_RECORD_VALUE, 8, value);
    return take(recorder, record);
}

static bool known_width(uint64_t width)
{
    return width == 1 || width == 2 || width == 4 || width == 8;
}

/* Whether width bytes at address, which is not below base, are inside the window; none is that reaches address 2^64 - 1. */
static bool inside(uint64_t base, uint64_t size, uint64_t address, uint64_t width)
{
    uint64_t offset = address - base;
    return offset <= size && width <= size - offset && width <= UINT64_MAX - address;
}

/* An access of an unknown width is refused by every window alike. One that is outside is refused with its address, which is the offset only where
 * the base is 0; and it may be inside the larger window that a trace is played in. */
static int access_of(uint64_t base, uint64_t size, uint64_t address, uint64_t width)
{
    if (address < base || address - base > MOST_OFFSET) {
        return PIC_OFFSET;
    }
    if (width > MOST_BYTE) {
        return PIC_BYTE;
    }
    bool here = inside(base, size, address, width), there = inside(0, PCH_PIC_PLAY_SIZE, address - base, width);
    bool alike = !known_width(width) || (here && there) || (!here && !there && base == 0);
    return alike ? PCH_PIC_DONE : PIC_REFUSED;
}

int pic_recorder_raise(struct pic_recorder *recorder, uint64_t input)
{
    return take_call(recorder, PCH_PIC_RAISE, input, 0, 0);
}

int pic_recorder_lower(struct pic_recorder *recorder, uint64_t input)
{
    return take_call(recorder, PCH_PIC_LOWER, input, 0, 0);
}

int pic_recorder_poll(struct pic_recorder *recorder, uint64_t input)
{
    return take_call(recorder, PCH_PIC_POLL, input, 0, 0);
}

int pic_recorder_read(struct pic_recorder *recorder, uint64_t base, uint64_t size, uint64_t address, uint64_t width)
{
    int number = access_of(base, size, address, width);
    return number == PCH_PIC_DONE ? take_call(recorder, PCH_PIC_READ, width, address - base, 0) : number;
}

int pic_recorder_write(struct pic_recorder *recorder, uint64_t base, uint64_t size, uint64_t address, uint64_t width, uint64_t value)
{
    int number = access_of(base, size, address, width);
    return number == PCH_PIC_DONE ? take_call(recorder, PCH_PIC_WRITE, width, address - base, value) : number;
}

int pic_recorder_drain(struct pic_recorder *recorder, size_t room)
{
    return room < PCH_PIC_DRAIN_ROOM ? PIC_SOME : take_call(recorder, PCH_PIC_DRAIN, 0, 0, 0);
}

int pic_recorder_close(struct pic_recorder *recorder)
{
    if (recorder->planned != 0) {
        return PIC_PLANNED;
    }
    if (recorder->open == 0) {
        return PIC_EMPTY;
    }
    close_block(recorder);
    return PCH_PIC_DONE;
}

int pic_recorder_call(struct pic_recorder *recorder, const struct pic *pic, const struct pic_call *call)
{
    switch (call->kind) {
    case PCH_PIC_RAISE: return pic_recorder_raise(recorder, call->of);
    case PCH_PIC_LOWER: return pic_recorder_lower(recorder, call->of);
    case PCH_PIC_POLL: return pic_recorder_poll(recorder, call->of);
    case PCH_PIC_READ: return pic_recorder_read(recorder, pic->base, pic->size, call->address, call->of);
    case PCH_PIC_WRITE: return pic_recorder_write(recorder, pic->base, pic->size, call->address, call->of, call->value);
    case PCH_PIC_DRAIN: return pic_recorder_drain(recorder, PCH_PIC_DRAIN_ROOM);
    case PIC_CALL_RESET: return PIC_AGAIN;
    default: return PIC_LOADED;
    }
}

/* A call that is left out would make all that follows play otherwise, so the first that is not taken is the end; so is one of another device than the one that is
 * watched, or of that one as it was before. A recorder that was begun anew hears nothing until it watches. */
static void watched(void *watcher, const struct pic *pic, const struct pic_call *call)
{
    struct pic_recorder *recorder = watcher;
    if (recorder->stopped == PCH_PIC_DONE && recorder->device != NULL) {
        bool same = pic == recorder->device && pic->changes == recorder->changes;
        recorder->stopped = same ? pic_recorder_call(recorder, pic, call) : PIC_COPIED;
        recorder->error = recorder->stopped == PIC_FILE ? errno : 0;
        recorder->changes += call->kind != PCH_PIC_READ;
    }
}

int pic_recorder_watch(struct pic_recorder *recorder, struct pic *pic)
{
    uint8_t fresh[PCH_PIC_IMAGE2_NUMBERED_LEN], answer[PCH_PIC_ANSWER_LEN];
    int number = pch_pic_reset(fresh, sizeof fresh, answer, sizeof answer);
    if (number != PCH_PIC_DONE) {
        return number;
    }
    if (started(recorder) || memcmp(fresh, pic->image, sizeof fresh) != 0) {
        return PIC_STARTED;
    }
    pic->watch = watched;
    pic->watcher = recorder;
    recorder->device = pic;
    recorder->changes = pic->changes;
    recorder->stopped = PCH_PIC_DONE;
    return PCH_PIC_DONE;
}

/* A host that ends it by NULL for watch leaves the watcher; a device that is set up anew has neither. */
int pic_recorder_stopped(struct pic_recorder *recorder)
{
    if (recorder->stopped == PCH_PIC_DONE && recorder->device != NULL && recorder->device->watcher != recorder) {
        recorder->stopped = PIC_SET_UP;
    }
    return recorder->stopped;
}

int pic_recorder_finish(const struct pic_recorder *recorder, uint8_t trace[PCH_PIC_TRACE_MAX], size_t *len)
{
    uint16_t blocks[PCH_PIC_BLOCKS_MAX];
    size_t count = recorder->closed, records = PCH_PIC_RECORD_LEN * recorder->count;
    if (recorder->count == 0) {
        return PIC_EMPTY;
    }
    memcpy(blocks, recorder->blocks, sizeof blocks);
    if (recorder->open != 0) {
        blocks[count] = (uint16_t)recorder->open;
        count++;
    }
    size_t first = put_contents(trace, blocks, count);
    memcpy(trace + first, recorder->records, records);
    *len = first + records;
    return PCH_PIC_DONE;
}

int pic_recorder_save(const struct pic_recorder *recorder, const char *path)
{
    uint8_t trace[PCH_PIC_TRACE_MAX];
    size_t len;
    int number = pic_recorder_finish(recorder, trace, &len);
    return number == PCH_PIC_DONE ? pic_replace(path, trace, len) : number;
}

/* Whether a file is on the disk; it is closed whatever comes. */
static bool sync_and_close(int file)
{
    bool synced = fsync(file) == 0;
    int why = errno;
    bool closed = close(file) == 0;
    if (!synced) {
        errno = why;
    }
    return synced && closed;
}

int pic_recorder_end(struct pic_recorder *recorder)
{
    int file = recorder->file, times = recorder->times_file;
    if (file == NO_FILE) {
        return PCH_PIC_DONE;
    }
    recorder->file = recorder->times_file = NO_FILE;
    recorder->most = recorder->count;
    bool timed = times == NO_FILE || sync_and_close(times);
    int why = errno;
    bool ended = sync_and_close(file);
    if (!timed) {
        errno = why;
    }
    return timed && ended ? PCH_PIC_DONE : PIC_FILE;
}

int pic_trace_load(const char *path, uint8_t trace[PCH_PIC_TRACE_MAX], size_t *len)
{
    FILE *file = fopen(path, "rb");
    if (file == NULL) {
        return PIC_FILE;
    }
    *len = fread(trace, 1, PCH_PIC_TRACE_MAX, file);
    bool longer = *len == PCH_PIC_TRACE_MAX && fgetc(file) != EOF, failed = ferror(file) != 0;
    int why = errno;
    fclose(file);
    errno = why;
    return failed ? PIC_FILE : longer ? PCH_PIC_TRACE : PCH_PIC_DONE;
}

static int refused(int number, const uint8_t answer[PCH_PIC_ANSWER_LEN], uint64_t *bad)
{
    if (number == PCH_PIC_RECORD && bad != NULL) {
        *bad = get(answer + PCH_PIC_ANSWER_VALUE, 8);
    }
    return number;
}

/* With no room for answers a good trace, which has a record, is refused with 7, and that last. */
int pic_trace_test(const uint8_t *trace, size_t len, uint64_t *bad)
{
    uint8_t image[PCH_PIC_IMAGE2_NUMBERED_LEN] = {0}, answer[PCH_PIC_ANSWER_LEN];
    int number = pch_pic_play(trace, len, image, sizeof image, NULL, 0, NULL, 0, answer, sizeof answer);
    return number == PCH_PIC_ROOM ? PCH_PIC_DONE : refused(number, answer, bad);
}

static int records_played(int number, const uint8_t answer[PCH_PIC_ANSWER_LEN], struct pic_played *played, uint64_t *bad)
{
    if (number == PCH_PIC_DONE) {
        played->records = (size_t)get(answer + PCH_PIC_ANSWER_VALUE, 8);
    }
    return refused(number, answer, bad);
}

int pic_trace_play(const uint8_t *trace, size_t len, struct pic_played *played, uint64_t *bad)
{
    uint8_t answer[PCH_PIC_ANSWER_LEN];
    int number = pch_pic_play(trace, len, played->image, sizeof played->image, played->answers, sizeof played->answers, played->events,
                              sizeof played->events, answer, sizeof answer);
    return records_played(number, answer, played, bad);
}

int pic_trace_play_on(const uint8_t *trace, size_t len, struct pic_played *played, uint64_t *bad)
{
    uint8_t answer[PCH_PIC_ANSWER_LEN];
    int number = pch_pic_play_on(trace, len, played->image, sizeof played->image, played->answers, sizeof played->answers, played->events,
                                 sizeof played->events, answer, sizeof answer);
    return records_played(number, answer, played, bad);
}

bool pic_trace_step(const uint8_t *trace, const struct pic_played *played, struct pic_step *step)
{
    if (step->record == NULL) {
        step->events = played->events;
    } else {
        step->number++;
        step->events += PCH_PIC_EVENT_LEN * step->drained;
    }
    if (step->number >= played->records) {
        return false;
    }
    step->record = trace + contents_len((size_t)get(trace + PCH_PIC_TRACE_BLOCKS, 2)) + PCH_PIC_RECORD_LEN * step->number;
    step->answer = played->answers + PCH_PIC_ANSWER_LEN * step->number;
    step->drained = step->record[PCH_PIC_RECORD_KIND] == PCH_PIC_DRAIN ? (size_t)get(step->answer + PCH_PIC_ANSWER_VALUE, 8) : 0;
    return true;
}

/* The number of blocks says how many were dropped: those of the old contents less those of the new. */
int pic_trace_salvage(const uint8_t *trace, size_t len, struct pic_salvaged *salvaged)
{
    uint8_t answer[PCH_PIC_ANSWER_LEN];
    int number = pch_pic_salvage(trace, len, salvaged->trace, sizeof salvaged->trace, salvaged->list, sizeof salvaged->list, answer, sizeof answer);
    if (number == PCH_PIC_DONE) {
        salvaged->len = (size_t)get(answer + PCH_PIC_ANSWER_VALUE, 8);
        salvaged->dropped = (size_t)(get(trace + PCH_PIC_TRACE_BLOCKS, 2) - get(salvaged->trace + PCH_PIC_TRACE_BLOCKS, 2));
    }
    return number;
}

bool pic_trace_dropped(const struct pic_salvaged *salvaged, size_t place, struct pic_dropped *dropped)
{
    const uint8_t *entry = salvaged->list + PCH_PIC_DROPPED_LEN * place;
    if (place >= salvaged->dropped) {
        return false;
    }
    dropped->block = (unsigned)get(entry + PCH_PIC_DROPPED_BLOCK, 2);
    dropped->record = (unsigned)get(entry + PCH_PIC_DROPPED_RECORD, 2);
    return true;
}

int pic_salvaged_save(const struct pic_salvaged *salvaged, const char *path)
{
    return pic_replace(path, salvaged->trace, salvaged->len);
}

const char *pic_recorder_why(int number)
{
    switch (number) {
    case PIC_FULL: return "the trace has all the records that it can have";
    case PIC_BLOCKS: return "the trace has 64 blocks, and takes no more";
    case PIC_EMPTY: return "a block or a trace without a record is none";
    case PIC_PLAN: return "there is no plan of 1 to 64 blocks with at most 4000 records, none empty";
    case PIC_PLANNED: return "the blocks are planned, and end where the plan says";
    case PIC_BYTE: return "no record can say it: the input or the width is over 255";
    case PIC_OFFSET: return "no record can say it: the address is not 0 to 65535 above the window's base";
    case PIC_REFUSED: return "no record can say it: the window refuses the access, and a trace plays it otherwise";
    case PIC_SOME: return "no record can say it: the drain has room for some events only";
    case PIC_AGAIN: return "no record can say it: a reset";
    case PIC_LOADED: return "no record can say it: a load";
    case PIC_STARTED: return "the device or the recorder is not at its start, and a trace begins with a reset";
    case PIC_COPIED: return "the device was copied, or is not as its last recorded call left it: a recording is of one device";
    case PIC_SET_UP: return "the device was set up anew while it was watched, or another watches it";
    default: return pic_why(number);
    }
}
