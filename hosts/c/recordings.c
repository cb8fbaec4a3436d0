/* Days recorded and played back: every byte that the live calls gave comes again. Also what a recorder refuses, days that are cut short and salvaged,
 * and files.
 *     recordings FOLDER   plays them, with its files in FOLDER; the last line is 'N passed, M failed' */
#define _POSIX_C_SOURCE 200809L
#include "hoist.h"
#include "holes.h"
#include "sheet.h"

#include <errno.h>
#include <signal.h>
#include <stdio.h>
#include <stdlib.h>
#include <string.h>
#include <sys/stat.h>
#include <sys/wait.h>
#include <unistd.h>

enum { BASE = 0x10000000, IMAGE_LEN = PCH_PIC_IMAGE2_NUMBERED_LEN, ANSWER_LEN = PCH_PIC_ANSWER_LEN, PATH_LEN = 4096 };

static int passed, failed;

static void expect(const char *what, bool ok)
{
    if (ok) {
        passed++;
    } else {
        failed++;
        printf("FAILED: %s\n", what);
    }
}

static struct pic_recorder recorder;
static struct pic_played played;
static struct pic_salvaged salvaged;
static uint8_t trace[PCH_PIC_TRACE_MAX], again[PCH_PIC_TRACE_MAX];
static char path[PATH_LEN];

/* What the live calls gave, as a play gives it. */
static struct {
    uint8_t image[IMAGE_LEN];
    uint8_t answers[PCH_PIC_RECORDS_MAX * ANSWER_LEN];
    uint8_t events[(size_t)PCH_PIC_RECORDS_MAX * PCH_PIC_DRAIN_ROOM];
    size_t calls, drained;
} live;

static void start_live(void)
{
    uint8_t answer[ANSWER_LEN];
    memset(&live, 0, sizeof live);
    expect("a live device", pch_pic_reset(live.image, IMAGE_LEN, answer, ANSWER_LEN) == PCH_PIC_DONE);
}

/* One call, of the library itself and with the window of a host, and its record. */
static int both(int kind, uint64_t of, uint64_t offset, uint64_t value)
{
    uint8_t *image = live.image, *answer = live.answers + ANSWER_LEN * live.calls, *events = live.events + live.drained;
    uint64_t at = BASE + offset, size = PCH_PIC_WINDOW_LEN;
    live.calls++;
    switch (kind) {
    case PCH_PIC_RAISE: pch_pic_level(image, IMAGE_LEN, of, 1, answer, ANSWER_LEN); return pic_recorder_raise(&recorder, of);
    case PCH_PIC_LOWER: pch_pic_level(image, IMAGE_LEN, of, 0, answer, ANSWER_LEN); return pic_recorder_lower(&recorder, of);
    case PCH_PIC_POLL: pch_pic_poll(image, IMAGE_LEN, of, answer, ANSWER_LEN); return pic_recorder_poll(&recorder, of);
    case PCH_PIC_READ: pch_pic_read(image, IMAGE_LEN, BASE, size, at, of, answer, ANSWER_LEN); return pic_recorder_read(&recorder, BASE, size, at, of);
    case PCH_PIC_WRITE:
        pch_pic_write(image, IMAGE_LEN, BASE, size, at, of, value, answer, ANSWER_LEN);
        return pic_recorder_write(&recorder, BASE, size, at, of, value);
    default:
        pch_pic_drain(image, IMAGE_LEN, events, PCH_PIC_DRAIN_ROOM, 0, answer, ANSWER_LEN);
        live.drained += PCH_PIC_EVENT_LEN * answer[PCH_PIC_ANSWER_VALUE];
        return pic_recorder_drain(&recorder, PCH_PIC_DRAIN_ROOM);
    }
}

static void does(int kind, uint64_t of, uint64_t offset, uint64_t value)
{
    int number = both(kind, of, offset, value);
    if (number != PCH_PIC_DONE) {
        expect(pic_recorder_why(number), false);
    }
}

/* Whether the trace plays to every byte that the live calls gave, and to no other: what is behind them stays. */
static bool plays_alike(size_t len)
{
    memset(&played, 0xa5, sizeof played);
    if (pic_trace_test(trace, len, NULL) != PCH_PIC_DONE || pic_trace_play(trace, len, &played, NULL) != PCH_PIC_DONE) {
        return false;
    }
    size_t answers = ANSWER_LEN * live.calls;
    bool alike = played.records == live.calls && memcmp(played.image, live.image, IMAGE_LEN) == 0;
    alike = alike && memcmp(played.answers, live.answers, answers) == 0 && memcmp(played.events, live.events, live.drained) == 0;
    alike = alike && (answers == sizeof played.answers || played.answers[answers] == 0xa5);
    return alike && (live.drained == sizeof played.events || played.events[live.drained] == 0xa5);
}

/* The records of the trace from one on, as a trace of one block; its length. */
static size_t part_of(size_t from, size_t count, uint8_t *part)
{
    const uint8_t *records = trace + 2 + 4 * (size_t)trace[0];
    memcpy(part, (const uint8_t[]){1, 0, 6, 0, (uint8_t)count, (uint8_t)(count >> 8)}, 6);
    memcpy(part + 6, records + PCH_PIC_RECORD_LEN * from, PCH_PIC_RECORD_LEN * count);
    return 6 + PCH_PIC_RECORD_LEN * count;
}

/* Whether the day, cut in two behind so many records, plays to every byte that the live calls gave: the second on the image that the first left. */
static bool plays_in_two(size_t first)
{
    static uint8_t part[PCH_PIC_TRACE_MAX];
    size_t events = 0;
    size_t len = part_of(0, first, part);
    if (pic_trace_play(part, len, &played, NULL) != PCH_PIC_DONE) {
        return false;
    }
    for (struct pic_step step = {0}; pic_trace_step(part, &played, &step);) {
        events += PCH_PIC_EVENT_LEN * step.drained;
    }
    bool alike = memcmp(played.answers, live.answers, ANSWER_LEN * first) == 0 && memcmp(played.events, live.events, events) == 0;
    len = part_of(first, live.calls - first, part);
    alike = alike && pic_trace_play_on(part, len, &played, NULL) == PCH_PIC_DONE && played.records == live.calls - first;
    alike = alike && memcmp(played.answers, live.answers + ANSWER_LEN * first, ANSWER_LEN * (live.calls - first)) == 0;
    return alike && memcmp(played.events, live.events + events, live.drained - events) == 0 && memcmp(played.image, live.image, IMAGE_LEN) == 0;
}

/* Whether the records of a played trace are met one by one, each with its own answer and events. */
static bool steps_through(void)
{
    struct pic_step step = {0};
    size_t met = 0, events = 0;
    while (pic_trace_step(trace, &played, &step)) {
        bool own = step.number == met && step.answer == played.answers + ANSWER_LEN * met && step.events == played.events + events;
        if (!own || (step.drained != 0 && step.record[0] != PCH_PIC_DRAIN) || memcmp(step.record, recorder.records + PCH_PIC_RECORD_LEN * met, 16) != 0) {
            return false;
        }
        events += PCH_PIC_EVENT_LEN * step.drained;
        met++;
    }
    return met == live.calls && events == live.drained;
}

/* Vectors and routes as a driver sets them, and everything masked and cleared. */
static void start_up(void)
{
    for (uint64_t input = 0; input < PCH_PIC_INPUTS; input++) {
        does(PCH_PIC_WRITE, 1, PCH_PIC_REG_VECTORS + input, 0x40 + input);
    }
    does(PCH_PIC_WRITE, 8, PCH_PIC_REG_MASK, UINT64_MAX);
    does(PCH_PIC_WRITE, 8, PCH_PIC_REG_CLEAR, UINT64_MAX);
    does(PCH_PIC_READ, 8, PCH_PIC_REG_ID, 0);
}

/* Seventeen lines go up, and are masked at once: sixteen events wait, and one is dropped. */
static void seventeen(void)
{
    does(PCH_PIC_WRITE, 4, PCH_PIC_REG_MASK, 0);
    for (uint64_t input = 0; input <= PCH_PIC_EVENTS; input++) {
        does(PCH_PIC_RAISE, input, 0, 0);
    }
    does(PCH_PIC_WRITE, 4, PCH_PIC_REG_MASK, 0xffffffff);
    expect("one event was dropped", live.answers[ANSWER_LEN * (live.calls - 1) + PCH_PIC_ANSWER_VALUE] == 1);
    does(PCH_PIC_DRAIN, 0, 0, 0);
    expect("sixteen were drained", live.drained == (size_t)PCH_PIC_DRAIN_ROOM);
}

static void refused_calls(void)
{
    size_t from = ANSWER_LEN * live.calls;
    does(PCH_PIC_RAISE, 64, 0, 0);
    does(PCH_PIC_LOWER, 255, 0, 0);
    does(PCH_PIC_POLL, 64, 0, 0);
    does(PCH_PIC_READ, 3, PCH_PIC_REG_ID, 0);
    does(PCH_PIC_WRITE, 0, PCH_PIC_REG_MASK, 0);
    does(PCH_PIC_READ, 255, 0xffff, 0);
    expect("refused calls have answers", live.answers[from] == PCH_PIC_INPUT && live.answers[ANSWER_LEN * (live.calls - 1)] == PCH_PIC_WIDTH);
}

static void a_day(void)
{
    size_t len = 0;
    start_live();
    pic_recorder_begin(&recorder);
    start_up();
    expect("the start-up is a block", pic_recorder_close(&recorder) == PCH_PIC_DONE);
    seventeen();
    refused_calls();
    expect("another", pic_recorder_close(&recorder) == PCH_PIC_DONE);
    does(PCH_PIC_LOWER, 3, 0, 0);
    does(PCH_PIC_WRITE, 4, PCH_PIC_REG_MASK, 0xfffffff0);
    does(PCH_PIC_POLL, 1, 0, 0);
    does(PCH_PIC_READ, 4, PCH_PIC_WINDOW_LEN - 4, 0);
    does(PCH_PIC_DRAIN, 0, 0, 0);
    does(PCH_PIC_DRAIN, 0, 0, 0);
    expect("a day is finished", pic_recorder_finish(&recorder, trace, &len) == PCH_PIC_DONE);
    expect("three blocks", trace[0] == 3 && trace[1] == 0 && len == 14 + 16 * live.calls);
    expect("67 records in the first, right behind the contents", trace[2] == 14 && trace[3] == 0 && trace[4] == 67 && trace[5] == 0);
    expect("a day plays to the same bytes", plays_alike(len));
    expect("and is gone through record by record", steps_through());
    for (size_t first = 1; first < live.calls; first += 16) {
        expect("cut in two it plays to the same bytes", plays_in_two(first));
    }
    trace[14 + 16 * 70 + 4] = 1;
    uint64_t bad = 0;
    expect("a changed byte is found, with its record", pic_trace_test(trace, len, &bad) == PCH_PIC_RECORD && bad == 70);
    memset(&played, 0x77, sizeof played);
    expect("and nothing is played", pic_trace_play(trace, len, &played, &bad) == PCH_PIC_RECORD && played.answers[0] == 0x77 && played.image[0] == 0x77);
}

static uint64_t chance(void)
{
    static uint64_t state = 0x9e3779b97f4a7c15;
    state ^= state << 13;
    state ^= state >> 7;
    state ^= state << 17;
    return state;
}

/* Few drains, so that events are dropped too. */
static int any_kind(uint64_t dice)
{
    dice %= 256;
    return dice < 80    ? PCH_PIC_RAISE
           : dice < 100 ? PCH_PIC_LOWER
           : dice < 120 ? PCH_PIC_POLL
           : dice < 140 ? PCH_PIC_READ
           : dice < 255 ? PCH_PIC_WRITE
                        : PCH_PIC_DRAIN;
}

static void any_call(void)
{
    static const uint16_t offsets[] = {PCH_PIC_REG_MASK, PCH_PIC_REG_MASK + 4, PCH_PIC_REG_CLEAR, PCH_PIC_REG_ISR, PCH_PIC_REG_VECTORS, PCH_PIC_REG_POL};
    uint64_t dice = chance(), offset = offsets[(dice >> 16) % 6] + (dice >> 24 & 7), width = UINT64_C(1) << (dice >> 12 & 3);
    int kind = any_kind(dice);
    if (kind == PCH_PIC_READ || kind == PCH_PIC_WRITE) {
        does(kind, width, offset, kind == PCH_PIC_WRITE ? chance() & chance() : 0);
    } else {
        does(kind, kind == PCH_PIC_DRAIN ? 0 : dice >> 32 & 31, 0, 0);
    }
}

/* As long as a day can be: 4000 records in 64 blocks. */
static void the_longest_day(void)
{
    size_t len = 0;
    start_live();
    pic_recorder_begin(&recorder);
    while (live.calls < PCH_PIC_RECORDS_MAX) {
        any_call();
        if (live.calls % 62 == 0 && live.calls / 62 < PCH_PIC_BLOCKS_MAX && pic_recorder_close(&recorder) != PCH_PIC_DONE) {
            expect("a block of 62 is closed", false);
        }
    }
    expect("record 4001 is refused", pic_recorder_raise(&recorder, 1) == PIC_FULL);
    expect("4000 records are finished", pic_recorder_finish(&recorder, trace, &len) == PCH_PIC_DONE && len == 64258 && trace[0] == 64);
    expect("they play to the same bytes", plays_alike(len));
    expect("and are gone through", steps_through());
    struct pic pic;
    expect("some events were dropped", pic_init(&pic, 0) == 0 && pic_take(&pic, played.image, IMAGE_LEN, NULL) == 0 && pic_drops(&pic) > 0);
}

static void limits(void)
{
    size_t len = 7;
    int number = PCH_PIC_DONE;
    pic_recorder_begin(&recorder);
    expect("no record is no trace", pic_recorder_finish(&recorder, trace, &len) == PIC_EMPTY && len == 7);
    expect("no record is no block", pic_recorder_close(&recorder) == PIC_EMPTY);
    for (int block = 0; block < PCH_PIC_BLOCKS_MAX && number == PCH_PIC_DONE; block++) {
        number = pic_recorder_poll(&recorder, 1);
        number = number == PCH_PIC_DONE ? pic_recorder_close(&recorder) : number;
    }
    expect("64 blocks of one", number == PCH_PIC_DONE);
    expect("a closed block is not closed again", pic_recorder_close(&recorder) == PIC_EMPTY);
    expect("block 65 is refused", pic_recorder_drain(&recorder, 64) == PIC_BLOCKS);
    expect("64 blocks are a trace", pic_recorder_finish(&recorder, trace, &len) == PCH_PIC_DONE && len == 258 + 64 * 16);
    expect("a good one", pic_trace_test(trace, len, NULL) == PCH_PIC_DONE);
}

static void plans(void)
{
    uint16_t blocks[PCH_PIC_BLOCKS_MAX + 1];
    size_t len = 0;
    for (size_t i = 0; i <= PCH_PIC_BLOCKS_MAX; i++) {
        blocks[i] = 1;
    }
    expect("a plan of no block", pic_recorder_plan(&recorder, blocks, 0) == PIC_PLAN);
    expect("a plan of 65", pic_recorder_plan(&recorder, blocks, PCH_PIC_BLOCKS_MAX + 1) == PIC_PLAN);
    expect("a plan of 64", pic_recorder_plan(&recorder, blocks, PCH_PIC_BLOCKS_MAX) == PCH_PIC_DONE);
    blocks[1] = 0;
    expect("a plan with an empty block", pic_recorder_plan(&recorder, blocks, 2) == PIC_PLAN);
    blocks[0] = 3999;
    blocks[1] = 2;
    expect("a plan of 4001 records", pic_recorder_plan(&recorder, blocks, 2) == PIC_PLAN);
    blocks[0] = 2;
    expect("a plan of 2 and 2", pic_recorder_plan(&recorder, blocks, 2) == PCH_PIC_DONE);
    expect("its blocks close themselves", pic_recorder_raise(&recorder, 1) == PCH_PIC_DONE && pic_recorder_close(&recorder) == PIC_PLANNED);
    expect("three of four", pic_recorder_raise(&recorder, 2) == PCH_PIC_DONE && pic_recorder_raise(&recorder, 3) == PCH_PIC_DONE);
    expect("are a good trace", pic_recorder_finish(&recorder, trace, &len) == PCH_PIC_DONE && pic_trace_test(trace, len, NULL) == PCH_PIC_DONE);
    expect("of 2 and 1", trace[0] == 2 && trace[4] == 2 && trace[8] == 1 && len == 10 + 3 * 16);
    expect("the fourth is the last", pic_recorder_raise(&recorder, 4) == PCH_PIC_DONE && pic_recorder_raise(&recorder, 5) == PIC_FULL);
}

/* Each leaves the recorder as it was. */
static void what_no_record_can_say(void)
{
    const uint64_t window = PCH_PIC_WINDOW_LEN, large = UINT64_C(1) << 32;
    pic_recorder_begin(&recorder);
    expect("input 256", pic_recorder_raise(&recorder, 256) == PIC_BYTE && pic_recorder_lower(&recorder, UINT64_MAX) == PIC_BYTE);
    expect("a poll of input 256", pic_recorder_poll(&recorder, 256) == PIC_BYTE);
    expect("width 256", pic_recorder_read(&recorder, 0, window, 0, 256) == PIC_BYTE);
    expect("a write of width 2^32 + 4", pic_recorder_write(&recorder, 0, window, 0, large + 4, 0) == PIC_BYTE);
    expect("an address below the base", pic_recorder_read(&recorder, BASE, window, BASE - 1, 4) == PIC_OFFSET);
    expect("an offset of 65536", pic_recorder_write(&recorder, BASE, large, BASE + 65536, 4, 0) == PIC_OFFSET);
    expect("outside the window, inside that of a trace", pic_recorder_read(&recorder, 0, window, window, 4) == PIC_REFUSED);
    expect("over the window's end", pic_recorder_write(&recorder, BASE, window, BASE + window - 4, 8, 0) == PIC_REFUSED);
    expect("outside both, with another address", pic_recorder_read(&recorder, BASE, window, BASE + 65535, 2) == PIC_REFUSED);
    expect("inside a large window, outside that of a trace", pic_recorder_read(&recorder, 0, large, 65535, 2) == PIC_REFUSED);
    expect("at the end of all addresses", pic_recorder_read(&recorder, UINT64_MAX - 3, window, UINT64_MAX - 3, 4) == PIC_REFUSED);
    expect("a drain of some", pic_recorder_drain(&recorder, PCH_PIC_DRAIN_ROOM - 1) == PIC_SOME);
    expect("none of them was taken", recorder.count == 0 && recorder.open == 0);
}

/* Refused by the window and by that of a trace alike, with the same address. */
static void what_it_can_say_though_it_is_refused(void)
{
    size_t len = 0;
    uint8_t answer[ANSWER_LEN];
    start_live();
    pic_recorder_begin(&recorder);
    pch_pic_read(live.image, IMAGE_LEN, 0, PCH_PIC_WINDOW_LEN, 65535, 2, live.answers, ANSWER_LEN);
    live.calls++;
    expect("outside both windows", pic_recorder_read(&recorder, 0, PCH_PIC_WINDOW_LEN, 65535, 2) == PCH_PIC_DONE);
    pch_pic_write(live.image, IMAGE_LEN, UINT64_MAX - 3, 4, UINT64_MAX - 3, 2, 5, live.answers + ANSWER_LEN, ANSWER_LEN);
    live.calls++;
    expect("inside, near the end of all addresses", pic_recorder_write(&recorder, UINT64_MAX - 3, 4, UINT64_MAX - 3, 2, 5) == PCH_PIC_DONE);
    expect("a trace of both", pic_recorder_finish(&recorder, trace, &len) == PCH_PIC_DONE);
    expect("plays alike", plays_alike(len) && played.answers[0] == PCH_PIC_OUTSIDE && played.answers[8] == 0xff && played.answers[16] == PCH_PIC_DONE);
    expect("in a form without numbers too", pch_pic_play(trace, len, played.image, PCH_PIC_IMAGE_LEN, played.answers, 32, NULL, 0, answer, ANSWER_LEN) == 0);
}

/* A child that records so many calls and is killed. */
static bool cut_short(const uint16_t *blocks, size_t count, unsigned calls)
{
    int status = 0;
    fflush(stdout);
    pid_t child = fork();
    if (child == 0) {
        int number = pic_recorder_plan(&recorder, blocks, count);
        number = number == PCH_PIC_DONE ? pic_recorder_keep(&recorder, path) : number;
        for (unsigned call = 0; call < calls && number == PCH_PIC_DONE; call++) {
            number = pic_recorder_write(&recorder, BASE, PCH_PIC_WINDOW_LEN, BASE + PCH_PIC_REG_POL, 8, 0x0101010101010101 * (call + 1));
        }
        if (number != PCH_PIC_DONE) {
            _exit(1);
        }
        raise(SIGKILL);
    }
    return child > 0 && waitpid(child, &status, 0) == child && WIFSIGNALED(status) && WTERMSIG(status) == SIGKILL;
}

/* The contents of a plan of 3, 1 and 4. */
static const uint8_t contents_314[14] = {3, 0, 14, 0, 3, 0, 62, 0, 1, 0, 78, 0, 4, 0};

/* What is salvaged of a day of 3, 1 and 4 that was cut short are the blocks that were full; where none was, nothing is written. */
static void what_was_full(size_t len, unsigned calls)
{
    unsigned full = calls < 3 ? 0 : calls < 4 ? 1 : calls < 8 ? 2 : 3;
    static const unsigned records[] = {0, 3, 4, 8};
    struct pic_dropped dropped = {99, 99};
    memset(&salvaged, 0x5a, sizeof salvaged);
    int number = pic_trace_salvage(trace, len, &salvaged);
    if (full == 0) {
        expect("no full block is 16", number == PCH_PIC_EMPTY && salvaged.trace[0] == 0x5a && salvaged.list[0] == 0x5a);
        return;
    }
    size_t contents = 2 + 4 * full, bytes = 16 * records[full];
    expect("full blocks are salvaged", number == PCH_PIC_DONE && salvaged.trace[0] == full && salvaged.len == contents + bytes);
    expect("byte for byte", memcmp(salvaged.trace + contents, trace + 14, bytes) == 0 && salvaged.trace[salvaged.len] == 0x5a);
    expect("as a good trace", pic_trace_test(salvaged.trace, salvaged.len, NULL) == PCH_PIC_DONE);
    for (unsigned block = full; block < 3; block++) {
        unsigned first = block == 2 && calls > 4 ? calls - 4 : 0;
        expect("the others are listed, with their first bad record",
               pic_trace_dropped(&salvaged, block - full, &dropped) && dropped.block == block && dropped.record == first);
    }
    expect("and no more", salvaged.dropped == 3 - full && !pic_trace_dropped(&salvaged, salvaged.dropped, &dropped));
    expect("a file cut short is 12", pic_trace_salvage(trace, len - 1, &salvaged) == PCH_PIC_TRACE);
}

static void killed_at_any_record(void)
{
    static const uint16_t blocks[] = {3, 1, 4};
    for (unsigned calls = 0; calls <= 8; calls++) {
        size_t len = 0;
        uint64_t bad = 99;
        expect("it was killed", cut_short(blocks, 3, calls));
        expect("the file is there, as long as planned", pic_trace_load(path, trace, &len) == PCH_PIC_DONE && len == 14 + 8 * 16);
        expect("its contents are right", memcmp(trace, contents_314, sizeof contents_314) == 0);
        int number = pic_trace_test(trace, len, &bad);
        expect("the first record that is not there is bad", calls < 8 ? number == PCH_PIC_RECORD && bad == calls : number == PCH_PIC_DONE);
        bool there = true;
        for (unsigned call = 0; call < 8; call++) {
            there = there && trace[14 + 16 * call + 15] == (call < calls ? call + 1 : 0);
        }
        expect("those that were taken are there", there);
        what_was_full(len, calls);
    }
}

static void files(void)
{
    static const uint16_t blocks[] = {3, 1, 4};
    size_t len = 0, kept_len = 0;
    char folder[PATH_LEN + 8];
    snprintf(folder, sizeof folder, "%s.folder", path);
    mkdir(folder, 0777);
    expect("a missing file", (errno = 0, pic_trace_load("nosuch/file", trace, &len)) == PIC_FILE && errno == ENOENT);
    expect("a folder", (errno = 0, pic_trace_load(folder, trace, &len)) == PIC_FILE && errno == EISDIR);
    expect("endless zeros are no trace", pic_trace_load("/dev/zero", trace, &len) == PCH_PIC_TRACE);
    expect("no file is kept without a plan", (pic_recorder_begin(&recorder), pic_recorder_keep(&recorder, path)) == PIC_PLAN);
    expect("a day of 3, 1 and 4", pic_recorder_plan(&recorder, blocks, 3) == PCH_PIC_DONE);
    expect("a folder is not replaced", (errno = 0, pic_recorder_keep(&recorder, folder)) == PIC_FILE && errno == EISDIR);
    expect("it is kept", pic_recorder_keep(&recorder, path) == PCH_PIC_DONE);
    expect("once", pic_recorder_keep(&recorder, path) == PIC_STARTED);
    expect("five calls", pic_recorder_raise(&recorder, 1) == 0 && pic_recorder_poll(&recorder, 2) == 0 && pic_recorder_drain(&recorder, 64) == 0 &&
                             pic_recorder_lower(&recorder, 1) == 0 && pic_recorder_raise(&recorder, 5) == 0);
    expect("the day ends", pic_recorder_end(&recorder) == PCH_PIC_DONE && pic_recorder_raise(&recorder, 1) == PIC_FULL);
    uint64_t bad = 0;
    expect("the file has a bad record", pic_trace_load(path, trace, &len) == 0 && pic_trace_test(trace, len, &bad) == PCH_PIC_RECORD && bad == 5);
    expect("saved, it has none", pic_recorder_save(&recorder, path) == PCH_PIC_DONE && pic_trace_load(path, trace, &len) == PCH_PIC_DONE);
    expect("and is what is finished",
           pic_recorder_finish(&recorder, again, &kept_len) == 0 && kept_len == len && memcmp(trace, again, len) == 0 && len == 14 + 5 * 16);
    expect("it plays", pic_trace_play(trace, len, &played, NULL) == PCH_PIC_DONE && played.records == 5);
    expect("salvaged it is the same", pic_trace_salvage(trace, len, &salvaged) == 0 && salvaged.dropped == 0 && salvaged.len == len &&
                                          memcmp(salvaged.trace, trace, len) == 0);
    expect("and saved", pic_salvaged_save(&salvaged, path) == PCH_PIC_DONE && pic_trace_load(path, again, &kept_len) == 0 && kept_len == len &&
                            memcmp(trace, again, len) == 0);
    expect("but not over a folder", (errno = 0, pic_salvaged_save(&salvaged, folder)) == PIC_FILE && errno == EISDIR);
    expect("no save over a folder", pic_recorder_save(&recorder, folder) == PIC_FILE);
    rmdir(folder);
    remove(path);
}

/* A file that takes no more: the record is not taken, and the error is told. */
static void a_full_disk(void)
{
    static const uint16_t blocks[] = {4};
    if (access("/dev/full", W_OK) != 0) {
        return;
    }
    expect("a plan of 4", pic_recorder_plan(&recorder, blocks, 1) == PCH_PIC_DONE && pic_recorder_keep(&recorder, path) == PCH_PIC_DONE);
    FILE *full = fopen("/dev/full", "w");
    expect("a full disk in its place", full != NULL && dup2(fileno(full), recorder.file) == recorder.file);
    expect("is told", (errno = 0, pic_recorder_raise(&recorder, 1)) == PIC_FILE && errno == ENOSPC && recorder.count == 0);
    if (full != NULL) {
        fclose(full);
    }
    pic_recorder_end(&recorder);
    remove(path);
}

static void no_route(void *above, struct pic_event event)
{
    (void)above;
    (void)event;
}

static void watched_write(struct pic *pic, struct pic_wires *wires, uint64_t offset, uint64_t width, uint64_t value)
{
    expect("a watched write is done", pic_write(pic, BASE + offset, width, value, NULL) == 0 && pic_settle(pic, wires) == 0);
}

/* All that a host does by pic.c is recorded, its sweeps and drains too, and comes out the same. */
static void a_watched_device(void)
{
    static struct pic pic, plain;
    static struct pic_wires wires, other;
    uint64_t value = 0, offset = PCH_PIC_REG_ISR;
    struct pic_event event;
    size_t len = 0;
    wires.route = other.route = no_route;
    pic_recorder_begin(&recorder);
    expect("a device", pic_init(&pic, BASE) == PCH_PIC_DONE && pic_init(&plain, BASE) == PCH_PIC_DONE);
    expect("is watched", pic_recorder_watch(&recorder, &pic) == PCH_PIC_DONE);
    watched_write(&pic, &wires, PCH_PIC_REG_VECTORS + 5, 1, 0x55);
    watched_write(&pic, &wires, PCH_PIC_REG_MASK, 8, 0);
    expect("a line", pic_line(&pic, &wires, 5, true) == 0 && wires.on[0x55] && pic_line(&pic, &wires, 5, false) == 0);
    expect("a read", pic_read(&pic, BASE + offset, 4, &value) == 0 && pic_table_read(&pic, BASE + offset, 4, &value) == 0);
    expect("no such width", pic_read(&pic, BASE, 3, &value) == PCH_PIC_WIDTH);
    expect("the same unwatched", pic_write(&plain, BASE + PCH_PIC_REG_VECTORS + 5, 1, 0x55, NULL) == 0 && pic_settle(&plain, &other) == 0 &&
                                     pic_write(&plain, BASE + PCH_PIC_REG_MASK, 8, 0, NULL) == 0 && pic_settle(&plain, &other) == 0 &&
                                     pic_line(&plain, &other, 5, true) == 0 && pic_line(&plain, &other, 5, false) == 0);
    expect("watching changes nothing", memcmp(pic.image, plain.image, IMAGE_LEN) == 0);
    expect("two writes, each with a drain, two lines of two calls, three reads", recorder.stopped == 0 && recorder.count == 2 * 2 + 4 + 3);
    expect("three lines go up", pic_level(&pic, 6, true, &event) == 0 && pic_level(&pic, 7, true, &event) == 0 && pic_level(&pic, 8, true, &event) == 0);
    watched_write(&pic, &wires, PCH_PIC_REG_ISR, 8, 0);
    expect("out of service all three wait, and a settle polls them and no other", recorder.count == 11 + 3 + 2 + 3);
    wires.high = 1 << 6 | 1 << 7;
    watched_write(&pic, &wires, PCH_PIC_REG_CLEAR, 4, 1 << 7 | 1 << 8);
    expect("of lines that are high the one is raised whose latch is gone", recorder.count == 19 + 2 + 1);
    expect("a trace", pic_recorder_finish(&recorder, trace, &len) == 0 && pic_trace_play(trace, len, &played, NULL) == 0);
    expect("plays to the same device", memcmp(played.image, pic.image, IMAGE_LEN) == 0);
}

/* A hoist guest's day is recorded as the full device's calls that it is: what the profile refuses is no call, and leaves no record. */
static void a_watched_hoist(void)
{
    static struct hoist hoist;
    uint64_t value, dropped = 9;
    size_t len;
    expect("a device for a hoist guest", hoist_init(&hoist, BASE) == PCH_PIC_DONE && !hoist_running(&hoist));
    pic_recorder_begin(&recorder);
    pic_recorder_watch(&recorder, &hoist.pic);
    expect("vectors are written in start-up", hoist_write(&hoist, BASE + PCH_PIC_REG_VECTORS, 4, 0x43424140, &dropped) == PCH_PIC_DONE && dropped == 0);
    expect("no Byte is read", hoist_read(&hoist, BASE + PCH_PIC_REG_ID, 1, &value) == PCH_PIC_ALIGN && value == 0);
    expect("an aligned Dword is", hoist_read(&hoist, BASE + PCH_PIC_REG_ID, 4, &value) == PCH_PIC_DONE && value == 0x07000000);
    expect("start-up ends", hoist_end_startup(&hoist) == PCH_PIC_DONE && hoist_running(&hoist));
    expect("no vector is written after it", hoist_write(&hoist, BASE + PCH_PIC_REG_VECTORS, 4, 0x43424140, &dropped) == PCH_PIC_PROFILE);
    expect("nor ISR", hoist_write(&hoist, BASE + PCH_PIC_REG_ISR, 4, 0, NULL) == PCH_PIC_PROFILE);
    expect("MASK is", hoist_write(&hoist, BASE + PCH_PIC_REG_MASK, 4, 0, NULL) == PCH_PIC_DONE);
    bool kept = pic_recorder_finish(&recorder, trace, &len) == PCH_PIC_DONE && pic_trace_play(trace, len, &played, NULL) == PCH_PIC_DONE;
    expect("three records play to its image", kept && played.records == 3 && memcmp(played.image, hoist.pic.image, IMAGE_LEN) == 0);
    expect("a reset starts over", hoist_reset(&hoist) == PCH_PIC_DONE && !hoist_running(&hoist));
}

/* What cannot be recorded ends the recording, and the device goes on. */
static void a_recording_that_stops(void)
{
    struct pic pic;
    uint8_t before[IMAGE_LEN], image[IMAGE_LEN];
    uint64_t value = 0;
    size_t len = 0;
    static const int why[] = {PIC_AGAIN, PIC_LOADED, PIC_REFUSED, PIC_BYTE};
    for (int way = 0; way < 4; way++) {
        struct pic_event event;
        pic_recorder_begin(&recorder);
        expect("watched", pic_init(&pic, BASE) == 0 && pic_recorder_watch(&recorder, &pic) == 0);
        expect("two calls", pic_write(&pic, BASE + PCH_PIC_REG_MASK, 4, 0, NULL) == 0 && pic_level(&pic, 7, true, &event) == 0);
        memset(image, 0, sizeof image);
        expect("a load that is refused is none", pic_take(&pic, image, sizeof image, NULL) == PCH_PIC_CONTENTS && recorder.stopped == 0);
        memcpy(before, pic.image, sizeof before);
        pic_image(&pic, PIC_FORM_NUMBERED, image);
        expect("what no record can say is done all the same",
               way == 0   ? pic_reset(&pic) == PCH_PIC_DONE
               : way == 1 ? pic_take(&pic, image, sizeof image, NULL) == PCH_PIC_DONE
               : way == 2 ? pic_read(&pic, BASE + PCH_PIC_WINDOW_LEN, 4, &value) == PCH_PIC_OUTSIDE
                          : pic_poll(&pic, 256, &event) == PCH_PIC_INPUT);
        expect("and stops the recording", recorder.stopped == why[way]);
        expect("the device goes on", pic_level(&pic, 9, true, &event) == PCH_PIC_DONE && recorder.count == 2);
        expect("the day up to there", pic_recorder_finish(&recorder, trace, &len) == 0 && pic_trace_play(trace, len, &played, NULL) == 0);
        expect("plays", played.records == 2 && memcmp(played.image, before, sizeof before) == 0);
        expect("a device that is not at its start is not watched", (pic_recorder_begin(&recorder), pic_recorder_watch(&recorder, &pic)) == PIC_STARTED);
    }
}

/* A recording is of one device: a call of a copy ends it, and so does a copy that is put back; the device's own calls do not. */
static void a_device_that_is_copied(void)
{
    struct pic pic, copy;
    struct pic_event event;
    uint64_t value;
    for (int way = 0; way < 4; way++) {
        pic_recorder_begin(&recorder);
        expect("watched", pic_init(&pic, BASE) == 0 && pic_recorder_watch(&recorder, &pic) == 0 && pic_level(&pic, 7, true, &event) == 0);
        copy = pic;
        expect("a copy that is not called changes nothing", pic_level(&pic, 9, true, &event) == 0 && recorder.count == 2 && pic_recorder_stopped(&recorder) == 0);
        if (way == 0) {
            copy = pic;
            expect("a copy goes on", pic_level(&copy, 8, true, &event) == 0);
        } else if (way == 1) {
            expect("by itself, with a read", pic_read(&copy, BASE, 4, &value) == 0);
        } else if (way == 2) {
            pic = copy;
            expect("one that is put back is the device", pic_poll(&pic, 7, &event) == 0);
        } else {
            pic.watch = NULL;
            expect("calls that nobody is told of", pic_level(&pic, 3, true, &event) == 0);
            pic.watch = copy.watch;
            expect("are not gone on from", pic_level(&pic, 4, true, &event) == 0);
        }
        expect("the recording has ended, and says why", recorder.stopped == PIC_COPIED && recorder.count == 2 && pic_recorder_stopped(&recorder) == PIC_COPIED);
    }
    pic_recorder_begin(&recorder);
    expect("a copy put back behind reads alone", pic_init(&pic, BASE) == 0 && pic_recorder_watch(&recorder, &pic) == 0 && pic_level(&pic, 7, true, &event) == 0);
    copy = pic;
    expect("is as the device was", pic_read(&pic, BASE, 4, &value) == 0 && (pic = copy, pic_level(&pic, 8, true, &event)) == 0 && recorder.stopped == 0 && recorder.count == 3);
}

/* A device that is set up anew forgets who watched it, and the recorder sees that when it is asked. */
static void a_device_that_is_set_up(void)
{
    static struct pic_recorder other;
    struct pic pic;
    struct pic_event event;
    pic_recorder_begin(&recorder);
    expect("watched", pic_init(&pic, BASE) == 0 && pic_recorder_watch(&recorder, &pic) == 0 && pic_level(&pic, 7, true, &event) == 0 && pic_recorder_stopped(&recorder) == 0);
    expect("set up anew", pic_init(&pic, BASE) == 0 && pic_level(&pic, 8, true, &event) == 0);
    expect("is told", pic_recorder_stopped(&recorder) == PIC_SET_UP && recorder.stopped == PIC_SET_UP && recorder.count == 1);
    pic_recorder_begin(&recorder);
    pic_recorder_begin(&other);
    expect("another that watches it", pic_init(&pic, BASE) == 0 && pic_recorder_watch(&recorder, &pic) == 0 && pic_recorder_watch(&other, &pic) == 0);
    expect("is told too", pic_recorder_stopped(&recorder) == PIC_SET_UP && pic_recorder_stopped(&other) == 0);
    pic.watch = NULL;
    expect("NULL ends it, and is no fault", pic_level(&pic, 8, true, &event) == 0 && pic_recorder_stopped(&other) == 0 && other.count == 0);
    pic_recorder_begin(&recorder);
    expect("without a device there is nothing to see", pic_recorder_stopped(&recorder) == 0);
}

/* Behind a reset a day may begin anew, whatever ended the one before. */
static void watched_again(void)
{
    struct pic pic;
    struct pic_event event;
    size_t len = 0;
    pic_recorder_begin(&recorder);
    expect("watched", pic_init(&pic, BASE) == 0 && pic_recorder_watch(&recorder, &pic) == 0);
    expect("a reset before the first record ends it", pic_reset(&pic) == 0 && recorder.stopped == PIC_AGAIN);
    expect("and it may be watched again", pic_recorder_watch(&recorder, &pic) == 0 && recorder.stopped == 0 && pic_level(&pic, 5, true, &event) == 0 && recorder.count == 1);
    expect("with records it is not", pic_reset(&pic) == 0 && recorder.stopped == PIC_AGAIN && pic_recorder_watch(&recorder, &pic) == PIC_STARTED);
    pic_recorder_begin(&recorder);
    expect("begun anew it hears nothing", pic_level(&pic, 5, true, &event) == 0 && recorder.count == 0 && pic_reset(&pic) == 0);
    expect("until it watches", pic_recorder_watch(&recorder, &pic) == 0 && pic_level(&pic, 6, true, &event) == 0 && recorder.count == 1 && recorder.stopped == 0);
    expect("and that is the day", pic_recorder_finish(&recorder, trace, &len) == 0 && pic_trace_play(trace, len, &played, NULL) == 0 && memcmp(played.image, pic.image, IMAGE_LEN) == 0);
}

/* The numbers of a recorded day: one input that waits for its unmask and one that is lowered before. */
static void a_sheet(void)
{
    static struct pic_sheet sheet, kept;
    size_t len = 0;
    uint64_t bad = 0;
    start_live();
    pic_recorder_begin(&recorder);
    does(PCH_PIC_RAISE, 5, 0, 0);
    does(PCH_PIC_RAISE, 40, 0, 0);
    does(PCH_PIC_LOWER, 40, 0, 0);
    does(PCH_PIC_WRITE, 8, PCH_PIC_REG_MASK, 0);
    does(PCH_PIC_RAISE, 64, 0, 0);
    expect("a day to count", pic_recorder_finish(&recorder, trace, &len) == PCH_PIC_DONE);
    expect("is counted", pic_trace_sheet(trace, len, &sheet, &bad) == PCH_PIC_DONE && sheet.records == 5);
    expect("a wait of 3", sheet.of[5][PCH_PIC_SHEET_WAIT] == 3 && sheet.of[5][PCH_PIC_SHEET_OFFERED] == 1 && sheet.of[5][PCH_PIC_SHEET_RAISES] == 1);
    expect("one withdrawn", sheet.of[40][PCH_PIC_SHEET_WITHDRAWN] == 1 && sheet.of[40][PCH_PIC_SHEET_ASSERTS] == 0);
    expect("the total", sheet.of[PCH_PIC_SHEET_TOTAL][PCH_PIC_SHEET_RAISES] == 2 && sheet.of[PCH_PIC_SHEET_TOTAL][PCH_PIC_SHEET_WAIT] == 3);
    expect("who did nothing", pic_sheet_idle(&sheet, 4) && !pic_sheet_idle(&sheet, 5) && !pic_sheet_idle(&sheet, PCH_PIC_SHEET_TOTAL));
    kept = sheet;
    trace[6 + 16 * 3 + 5] = 1;
    expect("a bad record is told", pic_trace_sheet(trace, len, &sheet, &bad) == PCH_PIC_RECORD && bad == 3);
    expect("or is not asked for", pic_trace_sheet(trace, len, &sheet, NULL) == PCH_PIC_RECORD);
    expect("as are wrong contents", pic_trace_sheet(trace, len - 1, &sheet, &bad) == PCH_PIC_TRACE);
    expect("and the sheet stays", memcmp(&sheet, &kept, sizeof sheet) == 0);
}

static uint64_t ticks(void *of)
{
    uint64_t *now = of;
    *now += 1000000007;
    return *now;
}

/* Each record has the time that the clock told as it was taken, and a file of them stands beside the trace. */
static void times(void)
{
    char name[sizeof path + 8];
    uint8_t bytes[24] = {0};
    uint64_t now = 0xfffffffff0;
    pic_recorder_begin(&recorder);
    expect("a day without a clock has no times", pic_recorder_drain(&recorder, 64) == 0 && pic_recorder_save_times(&recorder, path) == PIC_EMPTY);
    expect("nor does one get it later", pic_recorder_clock(&recorder, ticks, &now) == PIC_STARTED);
    pic_recorder_begin(&recorder);
    expect("a clock", pic_recorder_clock(&recorder, ticks, &now) == PCH_PIC_DONE && pic_recorder_save_times(&recorder, path) == PIC_EMPTY);
    expect("two records", pic_recorder_raise(&recorder, 5) == 0 && pic_recorder_drain(&recorder, 64) == 0 && pic_recorder_raise(&recorder, 256) == PIC_BYTE);
    expect("two times", pic_recorder_save_times(&recorder, path) == PCH_PIC_DONE && now == 0xfffffffff0 + 2 * 1000000007ull);
    snprintf(name, sizeof name, "%s.times", path);
    FILE *file = fopen(name, "rb");
    expect("of eight bytes each", file != NULL && fread(bytes, 1, sizeof bytes, file) == 16 && bytes[8] == (uint8_t)now && bytes[13] == (uint8_t)(now >> 40));
    if (file != NULL) {
        fclose(file);
    }
    remove(name);
    uint64_t first = pic_recorder_monotonic(NULL);
    expect("the system's clock does not go back", pic_recorder_monotonic(NULL) >= first);
}

/* A day of 3, 1 and 4 raises, and these of them bad. */
static size_t torn_day(unsigned long bad)
{
    static const uint16_t blocks[] = {3, 1, 4};
    size_t len = 0;
    pic_recorder_plan(&recorder, blocks, 3);
    for (unsigned record = 0; record < 8; record++) {
        pic_recorder_raise(&recorder, record);
    }
    pic_recorder_finish(&recorder, trace, &len);
    for (unsigned record = 0; record < 8; record++) {
        if (bad >> record & 1) {
            memset(trace + 14 + 16 * record, 0, 16);
        }
    }
    return len;
}

/* What comes before the first hole is kept record for record; of whole blocks each that is missing is told. */
static void holes(void)
{
    struct pic_holes holes = {.count = 0};
    char text[2 * PIC_TEXT_LEN], digest[PIC_DIGEST_LEN + 1];
    size_t len = torn_day(1 << 5);
    expect("what leads is kept", pic_trace_lead(trace, len, &salvaged, &holes) == 0 && pic_trace_records(salvaged.trace) == 5 && salvaged.len == 14 + 5 * 16 &&
                                     memcmp(salvaged.trace + 14, trace + 14, 5 * 16) == 0 && pic_trace_test(salvaged.trace, salvaged.len, NULL) == 0);
    expect("with a hole at its end", holes.count == 1 && holes.of[0].at == 5 && holes.of[0].first == 5 && holes.of[0].last == 7 && pic_day_records(salvaged.trace, &holes) == 8);
    len = torn_day(1 << 3);
    holes.count = 0;
    expect("whole blocks", pic_trace_whole(trace, len, &salvaged, &holes) == 0 && pic_trace_records(salvaged.trace) == 7 && holes.count == 1 && holes.of[0].at == 3 && holes.of[0].last == 3);
    pic_hole_text(&holes.of[0], text);
    expect("and a line for it", strcmp(text, "at record 3: records 3 to 3 of the day are missing (block 1, whose record 0 is bad)") == 0);
    expect("they are saved", pic_holes_save(path, &salvaged, &holes) == 0 && pic_trace_load(path, again, &len) == 0 && len == salvaged.len);
    struct pic_holes found = {.count = 9};
    expect("and found", pic_holes_load(path, again, len, &found) == 0 && found.count == 1 && found.of[0].at == 3 && strcmp(found.of[0].why, holes.of[0].why) == 0);
    again[len - 15] ^= 1;
    expect("but not of another trace", pic_holes_load(path, again, len, &found) == PIC_OTHER_TRACE);
    len = torn_day(1);
    holes.count = 0;
    expect("nothing leads", pic_trace_lead(trace, len, &salvaged, &holes) == PCH_PIC_EMPTY && holes.count == 0);
    len = torn_day(0);
    expect("a whole day has none", pic_trace_lead(trace, len, &salvaged, &holes) == 0 && holes.count == 0 && memcmp(salvaged.trace, trace, len) == 0);
    expect("and takes the list away", pic_holes_save(path, &salvaged, &holes) == 0 && pic_holes_load(path, trace, len, &found) == 0 && found.count == 0);
    expect("a copy cut short is filled", pic_trace_cause(trace, len - 20, text) && pic_trace_fill(trace, len - 20) == len && trace[len - 32] == 0 && trace[len - 33 - 14] == 5);
    pic_digest((const uint8_t *)"abc", 3, digest);
    expect("a digest", strcmp(digest, "ba7816bf8f01cfea414140de5dae2223b00361a396177a9cb410ff61f20015ad") == 0);
    remove(path);
}

static void texts(void)
{
    for (int number = PIC_FULL; number <= PIC_SET_UP; number++) {
        expect("each number has its text", strcmp(pic_recorder_why(number), "unknown number") != 0);
    }
    expect("so have those of the library", strcmp(pic_recorder_why(PCH_PIC_RECORD), pch_pic_why(13)) == 0);
    expect("and no other", strcmp(pic_recorder_why(PIC_SET_UP + 1), "unknown number") == 0 && strcmp(pch_pic_why(99), "unknown number") == 0);
}

int main(int argc, char **argv)
{
    if (argc != 2 || snprintf(path, sizeof path, "%s/recordings.trace", argv[1]) >= (int)sizeof path) {
        fprintf(stderr, "usage: recordings FOLDER\n");
        return 2;
    }
    a_day();
    the_longest_day();
    limits();
    plans();
    what_no_record_can_say();
    what_it_can_say_though_it_is_refused();
    killed_at_any_record();
    files();
    a_full_disk();
    a_watched_device();
    a_watched_hoist();
    a_recording_that_stops();
    a_device_that_is_copied();
    a_device_that_is_set_up();
    watched_again();
    a_sheet();
    times();
    holes();
    texts();
    printf("%d passed, %d failed\n", passed, failed);
    return failed != 0;
}
