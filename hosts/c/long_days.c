/* Days longer than a trace: a guest's long day that plays to the same bytes and is counted by hand; recorders that are killed, lose their power or get no room at any call of
 * the system; and folders that are damaged in every way that the format names.
 *     long_days FOLDER [INTERRUPTS KILLS]   with its files in FOLDER, 5,000 interrupts and 200 kills where nothing is said; the last line is 'N passed, M failed'
 * The linker leads calls of the library and of the system through here (--wrap; tools/try-hosts has the list): those of the library are counted by hand, and of the system's
 * any can be the last. */
#define _GNU_SOURCE
#include "days_list.h"
#include "sheet.h"

#include <dirent.h>
#include <errno.h>
#include <fcntl.h>
#include <signal.h>
#include <stdlib.h>
#include <string.h>
#include <sys/mman.h>
#include <sys/stat.h>
#include <sys/wait.h>
#include <unistd.h>

enum { BASE = 0x10000000, PATH_LEN = 1024, BLOCK = 4, FIRST_VECTOR = 0x40, TIME_LEN = 8, MOST_RANGES = 64 };

static int passed, failed;
static char base_folder[PATH_LEN];
static struct pic_day day;
static struct pic_day_read reader;
static struct pic_day_kept kept;
static struct pic_played played;

static void expect(const char *what, bool ok)
{
    if (ok) {
        passed++;
    } else {
        failed++;
        printf("FAILED: %s\n", what);
    }
}

static uint64_t chance(void)
{
    static uint64_t state = 0x9e3779b97f4a7c15;
    state ^= state << 13;
    state ^= state >> 7;
    state ^= state << 17;
    return state;
}

static uint64_t get(const uint8_t *bytes, size_t len)
{
    uint64_t value = 0;
    while (len > 0) {
        len--;
        value = value << 8 | bytes[len];
    }
    return value;
}

static void in_folder(const char *name, char path[PATH_LEN])
{
    snprintf(path, PATH_LEN, "%.*s/%.200s", PATH_LEN - 202, base_folder, name);
}

/* Takes a folder away, with its files. */
static void clear(const char *folder)
{
    char path[2 * PATH_LEN];
    DIR *dir = opendir(folder);
    for (struct dirent *entry = dir != NULL ? readdir(dir) : NULL; entry != NULL; entry = readdir(dir)) {
        snprintf(path, sizeof path, "%s/%s", folder, entry->d_name);
        if (entry->d_name[0] != '.' || entry->d_name[1] == 'p') {
            unlink(path);
        }
    }
    if (dir != NULL) {
        closedir(dir);
    }
    rmdir(folder);
}

/* --- Calls of the library, counted by hand ------------------------------------------------------------------------------------------------------------- */

static struct {
    bool on;
    const struct pic *device;
    uint64_t calls, last_write;
    uint64_t of[PCH_PIC_SHEET_ROWS][PCH_PIC_SHEET_COLUMNS];
    uint64_t raised[PCH_PIC_INPUTS]; /* 1 + the number of the raise whose wait is open */
} hand;

static void made(unsigned input, bool assert, bool returned, uint64_t record)
{
    uint64_t *row = hand.of[input];
    row[assert ? PCH_PIC_SHEET_ASSERTS : PCH_PIC_SHEET_DEASSERTS]++;
    row[returned ? PCH_PIC_SHEET_RETURNED : PCH_PIC_SHEET_OFFERED]++;
    if (assert && hand.raised[input] != 0) {
        uint64_t wait = record + 1 - hand.raised[input];
        row[PCH_PIC_SHEET_WAIT] = wait > row[PCH_PIC_SHEET_WAIT] ? wait : row[PCH_PIC_SHEET_WAIT];
        hand.raised[input] = 0;
    }
}

static void withdrawn(unsigned input)
{
    hand.of[input][PCH_PIC_SHEET_WITHDRAWN] += hand.raised[input] != 0;
    hand.raised[input] = 0;
}

static unsigned input_of(const uint8_t *answer)
{
    return (answer[PCH_PIC_ANSWER_VECTOR] - FIRST_VECTOR) % PCH_PIC_INPUTS;
}

uint8_t __real_pch_pic_board_level(uint8_t *, size_t, uint8_t *, size_t, uint64_t, uint64_t, uint8_t *, size_t);
uint8_t __wrap_pch_pic_board_level(uint8_t *image, size_t image_len, uint8_t *board, size_t board_len, uint64_t input, uint64_t level, uint8_t *answer, size_t answer_len);
uint8_t __wrap_pch_pic_board_level(uint8_t *image, size_t image_len, uint8_t *board, size_t board_len, uint64_t input, uint64_t level, uint8_t *answer, size_t answer_len)
{
    bool idle = hand.on && ((pic_latched(hand.device) | pic_service(hand.device)) >> input & 1) == 0;
    uint8_t number = __real_pch_pic_board_level(image, image_len, board, board_len, input, level, answer, answer_len);
    uint64_t record = hand.calls;
    if (!hand.on) {
        return number;
    }
    hand.calls++;
    hand.of[input][level ? PCH_PIC_SHEET_RAISES : PCH_PIC_SHEET_LOWERS]++;
    if (level && idle) {
        hand.raised[input] = record + 1;
    } else if (!level) {
        withdrawn((unsigned)input);
    }
    if (answer[PCH_PIC_ANSWER_PRESENT] == 1) {
        made(input_of(answer), level != 0, true, record);
    }
    return number;
}

uint8_t __real_pch_pic_board_poll(uint8_t *, size_t, uint8_t *, size_t, uint64_t, uint8_t *, size_t);
uint8_t __wrap_pch_pic_board_poll(uint8_t *image, size_t image_len, uint8_t *board, size_t board_len, uint64_t input, uint8_t *answer, size_t answer_len);
uint8_t __wrap_pch_pic_board_poll(uint8_t *image, size_t image_len, uint8_t *board, size_t board_len, uint64_t input, uint8_t *answer, size_t answer_len)
{
    uint8_t number = __real_pch_pic_board_poll(image, image_len, board, board_len, input, answer, answer_len);
    if (hand.on && answer[PCH_PIC_ANSWER_PRESENT] == 1) {
        made(input_of(answer), true, true, hand.calls);
    }
    hand.calls += hand.on;
    return number;
}

uint8_t __real_pch_pic_board_drain(uint8_t *, size_t, uint8_t *, size_t, uint8_t *, size_t, size_t, uint8_t *, size_t);
uint8_t __wrap_pch_pic_board_drain(uint8_t *image, size_t image_len, uint8_t *board, size_t board_len, uint8_t *events, size_t events_len, size_t place, uint8_t *answer,
                                   size_t answer_len);
uint8_t __wrap_pch_pic_board_drain(uint8_t *image, size_t image_len, uint8_t *board, size_t board_len, uint8_t *events, size_t events_len, size_t place, uint8_t *answer,
                                   size_t answer_len)
{
    uint8_t number = __real_pch_pic_board_drain(image, image_len, board, board_len, events, events_len, place, answer, answer_len);
    for (size_t i = 0; hand.on && i < get(answer + PCH_PIC_ANSWER_VALUE, 8); i++) {
        const uint8_t *event = events + place + PCH_PIC_EVENT_LEN * i;
        made((event[PCH_PIC_EVENT_VECTOR] - FIRST_VECTOR) % PCH_PIC_INPUTS, event[PCH_PIC_EVENT_FLAG] == 1, false, hand.last_write);
    }
    hand.calls += hand.on;
    return number;
}

uint8_t __real_pch_pic_board_write(uint8_t *, size_t, uint8_t *, size_t, uint64_t, uint64_t, uint64_t, uint64_t, uint64_t, uint8_t *, size_t);
uint8_t __wrap_pch_pic_board_write(uint8_t *image, size_t image_len, uint8_t *board, size_t board_len, uint64_t base, uint64_t size, uint64_t address, uint64_t width,
                                   uint64_t value, uint8_t *answer, size_t answer_len);
uint8_t __wrap_pch_pic_board_write(uint8_t *image, size_t image_len, uint8_t *board, size_t board_len, uint64_t base, uint64_t size, uint64_t address, uint64_t width,
                                   uint64_t value, uint8_t *answer, size_t answer_len)
{
    for (unsigned input = 0; hand.on && address - base == PCH_PIC_REG_CLEAR && width == 8 && input < PCH_PIC_INPUTS; input++) {
        if (value >> input & 1) {
            withdrawn(input);
        }
    }
    hand.last_write = hand.calls;
    hand.calls += hand.on;
    return __real_pch_pic_board_write(image, image_len, board, board_len, base, size, address, width, value, answer, answer_len);
}

/* A host's own look at EDGE has base 0, and is no record. */
uint8_t __real_pch_pic_read(const uint8_t *, size_t, uint64_t, uint64_t, uint64_t, uint64_t, uint8_t *, size_t);
uint8_t __wrap_pch_pic_read(const uint8_t *image, size_t image_len, uint64_t base, uint64_t size, uint64_t address, uint64_t width, uint8_t *answer, size_t answer_len);
uint8_t __wrap_pch_pic_read(const uint8_t *image, size_t image_len, uint64_t base, uint64_t size, uint64_t address, uint64_t width, uint8_t *answer, size_t answer_len)
{
    hand.calls += hand.on && base == BASE;
    return __real_pch_pic_read(image, image_len, base, size, address, width, answer, answer_len);
}

/* --- Calls of the system, any of which can be the last ------------------------------------------------------------------------------------------------- */

enum what { GOES_ON, DIES_BEFORE, DIES_AFTER, FAILS };

/* What was written and is not on the disk yet: bytes of a file. */
struct range {
    ino_t file;
    off_t from;
    size_t len;
};

/* A child's, and seen by its parent when it is dead. */
struct seen {
    unsigned long calls;  /* of the system, so far */
    uint64_t taken;       /* records that were taken */
    uint64_t open;        /* of them those in the block that is open */
    size_t ranges;        /* what may be lost */
    struct range lost[MOST_RANGES];
    char renamed[PATH_LEN]; /* a name that is not on the disk yet, or empty */
};

static struct seen *seen;
static enum what fate;
static unsigned long fate_at;

/* Counts a call; true where it is to fail. */
static bool fails(void)
{
    if (seen == NULL) {
        return false;
    }
    seen->calls++;
    if (fate == DIES_BEFORE && seen->calls == fate_at) {
        raise(SIGKILL);
    }
    errno = ENOSPC;
    return fate == FAILS && seen->calls == fate_at;
}

static void done(void)
{
    if (seen != NULL && fate == DIES_AFTER && seen->calls == fate_at) {
        raise(SIGKILL);
    }
}

static struct stat status_of(int file)
{
    struct stat found = {0};
    fstat(file, &found);
    return found;
}

static void may_be_lost(int file, off_t from, size_t len)
{
    if (seen != NULL && seen->ranges < MOST_RANGES) {
        seen->lost[seen->ranges] = (struct range){status_of(file).st_ino, from, len};
        seen->ranges++;
    }
}

/* What is on the disk now; of a folder that are its names. The system itself is not asked to sync: who is killed loses nothing that is written. */
static void safe(int file)
{
    struct stat found = status_of(file);
    size_t left = 0;
    for (size_t i = 0; seen != NULL && i < seen->ranges; i++) {
        if (seen->lost[i].file != found.st_ino) {
            seen->lost[left] = seen->lost[i];
            left++;
        }
    }
    if (seen != NULL) {
        seen->ranges = left;
        seen->renamed[0] = S_ISDIR(found.st_mode) ? 0 : seen->renamed[0];
    }
}

ssize_t __real_pwrite(int, const void *, size_t, off_t);
ssize_t __wrap_pwrite(int file, const void *bytes, size_t len, off_t at);
ssize_t __wrap_pwrite(int file, const void *bytes, size_t len, off_t at)
{
    if (fails()) {
        return -1;
    }
    ssize_t wrote = __real_pwrite(file, bytes, len, at);
    may_be_lost(file, at, len);
    done();
    return wrote;
}

ssize_t __real_write(int, const void *, size_t);
ssize_t __wrap_write(int file, const void *bytes, size_t len);
ssize_t __wrap_write(int file, const void *bytes, size_t len)
{
    if (fails()) {
        return -1;
    }
    off_t at = status_of(file).st_size;
    ssize_t wrote = __real_write(file, bytes, len);
    may_be_lost(file, at, len);
    done();
    return wrote;
}

static int synced(int file)
{
    if (fails()) {
        return -1;
    }
    safe(file);
    done();
    return 0;
}

int __wrap_fsync(int file);
int __wrap_fsync(int file)
{
    return synced(file);
}

int __wrap_fdatasync(int file);
int __wrap_fdatasync(int file)
{
    return synced(file);
}

int __real_rename(const char *, const char *);
int __wrap_rename(const char *from, const char *to);
int __wrap_rename(const char *from, const char *to)
{
    struct stat there;
    bool is_new = stat(to, &there) != 0;
    if (fails()) {
        return -1;
    }
    int number = __real_rename(from, to);
    if (seen != NULL && is_new) {
        snprintf(seen->renamed, PATH_LEN, "%s", to);
    }
    done();
    return number;
}

/* --- A guest's long day -------------------------------------------------------------------------------------------------------------------------------- */

static void write_register(struct pic *pic, struct pic_wires *wires, uint64_t offset, uint64_t width, uint64_t value)
{
    if (pic_write(pic, BASE + offset, width, value, NULL) != PCH_PIC_DONE || pic_settle(pic, wires) != PCH_PIC_DONE) {
        expect("a write of the guest", false);
    }
}

/* A device's line goes up, the guest sees it, serves it and clears it, and the line goes down: now and then masked meanwhile, withdrawn, or cleared while the line is up. */
static void interrupt(struct pic *pic, struct pic_wires *wires)
{
    uint64_t dice = chance(), input = dice >> 8 & 63, bit = UINT64_C(1) << input, value;
    bool masked = dice % 8 == 0, withdraws = dice % 16 == 0, early = dice % 8 == 1;
    if (masked) {
        write_register(pic, wires, PCH_PIC_REG_MASK, 8, bit);
    }
    pic_line(pic, wires, input, true);
    pic_read(pic, BASE + PCH_PIC_REG_ISR, 8, &value);
    if (withdraws) {
        pic_line(pic, wires, input, false);
    }
    if (masked) {
        write_register(pic, wires, PCH_PIC_REG_MASK, 8, 0);
    }
    if (early) {
        write_register(pic, wires, PCH_PIC_REG_CLEAR, 8, bit);
    }
    pic_line(pic, wires, input, false);
    write_register(pic, wires, PCH_PIC_REG_CLEAR, 8, bit);
}

/* The count by hand as a sheet. */
static void total(void)
{
    for (unsigned input = 0; input < PCH_PIC_INPUTS; input++) {
        hand.of[input][PCH_PIC_SHEET_OPEN] = hand.raised[input] != 0;
        for (unsigned column = 0; column < PCH_PIC_SHEET_COLUMNS; column++) {
            uint64_t *sum = &hand.of[PCH_PIC_SHEET_TOTAL][column], value = hand.of[input][column];
            *sum = column != PCH_PIC_SHEET_WAIT ? *sum + value : value > *sum ? value : *sum;
        }
    }
}

static uint64_t by_calls(void *unused)
{
    (void)unused;
    return 1000 * (day.recorder.before + day.recorder.count);
}

/* Whether each record of the trace that was read last has its time. */
static bool timed(const char *folder)
{
    char name[PIC_DAY_PATH], times[PIC_DAY_PATH + 8];
    uint8_t bytes[TIME_LEN];
    pic_day_name(folder, reader.number, name);
    snprintf(times, sizeof times, "%s.times", name);
    FILE *file = fopen(times, "rb");
    bool right = file != NULL;
    for (size_t i = 0; right && i < reader.of_trace; i++) {
        right = fread(bytes, 1, TIME_LEN, file) == TIME_LEN && get(bytes, TIME_LEN) == 1000 * (reader.before + i);
    }
    if (file != NULL) {
        fclose(file);
    }
    return right;
}

/* The day is played trace by trace to the device that lived it, and counted as by hand. */
static void plays_and_counts(const char *folder, const struct pic *pic)
{
    static struct pic_tally tally;
    static struct pic_long_sheet sheet;
    uint8_t answer[PCH_PIC_ANSWER_LEN];
    int number = pic_day_open(&reader, folder);
    expect(reader.text[0] != 0 ? reader.text : "a long day is read", number == PCH_PIC_DONE && reader.ended && reader.records == hand.calls);
    pch_pic_reset(played.image, sizeof played.image, answer, sizeof answer);
    number = pic_tally_begin(&tally);
    while (number == PCH_PIC_DONE && pic_day_trace(&reader) == PCH_PIC_DONE) {
        expect("times go on from trace to trace", timed(folder));
        number = pic_tally_add(&tally, reader.trace, reader.len, played.image, sizeof played.image, NULL);
        if (number == PCH_PIC_DONE) {
            number = reader.number == 1 ? pic_trace_play(reader.trace, reader.len, &played, NULL) : pic_trace_play_on(reader.trace, reader.len, &played, NULL);
        }
    }
    expect("it plays and counts", number == PCH_PIC_DONE && reader.number == reader.traces);
    expect("to the device that lived it", memcmp(played.image, pic->image, sizeof pic->image) == 0);
    expect("and has its sheet", pic_tally_sheet(&tally, &sheet) == PCH_PIC_DONE && sheet.records == hand.calls);
    expect("which is the one that was counted by hand", memcmp(sheet.of, hand.of, sizeof sheet.of) == 0);
    expect("with waits and withdrawals in it", sheet.of[PCH_PIC_SHEET_TOTAL][PCH_PIC_SHEET_WAIT] > 0 && sheet.of[PCH_PIC_SHEET_TOTAL][PCH_PIC_SHEET_WITHDRAWN] > 0);
    pic_day_close(&reader);
}

static void a_long_day(unsigned long interrupts, size_t block)
{
    static struct pic pic;
    static struct pic_wires wires;
    char folder[PATH_LEN];
    in_folder("long", folder);
    clear(folder);
    memset(&hand, 0, sizeof hand);
    memset(&wires, 0, sizeof wires);
    expect("a day begins", pic_init(&pic, BASE) == PCH_PIC_DONE && pic_day_begin(&day, folder, block) == PCH_PIC_DONE);
    expect("with a clock", pic_recorder_clock(&day.recorder, by_calls, NULL) == PCH_PIC_DONE && pic_recorder_watch(&day.recorder, &pic) == PCH_PIC_DONE);
    hand.device = &pic;
    hand.on = true;
    for (unsigned input = 0; input < PCH_PIC_INPUTS; input++) {
        pic_write(&pic, BASE + PCH_PIC_REG_VECTORS + input, 1, FIRST_VECTOR + input, NULL);
    }
    write_register(&pic, &wires, PCH_PIC_REG_MASK, 8, 0);
    for (unsigned long i = 0; i < interrupts; i++) {
        interrupt(&pic, &wires);
        if (chance() % 4096 == 0 && pic_day_next(&day) != PCH_PIC_DONE) {
            expect("the next trace is asked for", false);
        }
    }
    pic_line(&pic, &wires, 5, true);
    hand.on = false;
    total();
    expect("it is recorded to its end", pic_recorder_stopped(&day.recorder) == PCH_PIC_DONE && day.recorder.clock != NULL);
    expect("and ends", pic_day_end(&day) == PCH_PIC_DONE && pic_day_end(&day) == PCH_PIC_DONE && day.records == hand.calls);
    plays_and_counts(folder, &pic);
    printf("%lu interrupts are %llu records in %u traces, in blocks of %zu\n", interrupts, (unsigned long long)day.records, day.traces, block);
    clear(folder);
}

/* --- Killed, without power, without room ---------------------------------------------------------------------------------------------------------------- */

static uint64_t value_of(uint64_t record)
{
    return record * UINT64_C(0x9e3779b97f4a7c15) + 1;
}

static uint64_t by_taken(void *unused)
{
    (void)unused;
    return 1000 * seen->taken + 7;
}

/* One record of the day that is known before: 0, or why it was not taken. */
static int take(void)
{
    int number = pic_recorder_write(&day.recorder, BASE, PCH_PIC_WINDOW_LEN, BASE + PCH_PIC_REG_POL, 8, value_of(seen->taken));
    if (number == PCH_PIC_DONE) {
        seen->taken++;
        seen->open = day.recorder.open;
    }
    return number;
}

/* Records so many calls, and asks for the next trace now and then; where something fails it is asked for again. */
static void record_some(const char *folder, unsigned long calls, uint64_t next_each)
{
    int again = 0, number = pic_day_begin(&day, folder, BLOCK);
    for (; number != PCH_PIC_DONE && again < 2; again++) {
        number = pic_day_begin(&day, folder, BLOCK);
    }
    pic_recorder_clock(&day.recorder, by_taken, NULL);
    while (seen->taken < calls && again < 2) {
        again += take() != PCH_PIC_DONE;
        if (seen->taken % next_each == next_each - 1) {
            again += pic_day_next(&day) != PCH_PIC_DONE;
            again += pic_day_next(&day) != PCH_PIC_DONE;
        }
    }
    if (pic_day_end(&day) != PCH_PIC_DONE && (again >= 2 || pic_day_end(&day) != PCH_PIC_DONE)) {
        _exit(3);
    }
}

/* A child that ends, or is ended at a call of the system. */
static bool child_ends(const char *folder, unsigned long calls, uint64_t next_each, enum what how, unsigned long at)
{
    int status = 0;
    memset(seen, 0, sizeof *seen);
    fflush(stdout);
    pid_t child = fork();
    if (child == 0) {
        fate = how;
        fate_at = at;
        record_some(folder, calls, next_each);
        _exit(0);
    }
    if (child < 0 || waitpid(child, &status, 0) != child) {
        return false;
    }
    return WIFSIGNALED(status) ? WTERMSIG(status) == SIGKILL : WIFEXITED(status) && WEXITSTATUS(status) == 0;
}

/* Of what was not on the disk some is zeros now, and a name that was not is gone; at the end of a list that is a line in part. */
static void lose_power(const char *folder)
{
    char path[2 * PATH_LEN];
    static const uint8_t zeros[PCH_PIC_TRACE_MAX];
    DIR *dir = opendir(folder);
    for (struct dirent *entry = dir != NULL ? readdir(dir) : NULL; entry != NULL; entry = readdir(dir)) {
        struct stat found;
        snprintf(path, sizeof path, "%s/%s", folder, entry->d_name);
        for (size_t i = 0; i < seen->ranges && stat(path, &found) == 0; i++) {
            const struct range *lost = &seen->lost[i];
            int file = lost->file == found.st_ino && S_ISREG(found.st_mode) && chance() % 2 == 0 ? open(path, O_WRONLY) : -1;
            if (file >= 0) {
                bool text = strstr(entry->d_name, "list") != NULL;
                bool cut = text ? ftruncate(file, lost->from + (off_t)(chance() % lost->len)) == 0
                                : __real_pwrite(file, zeros, lost->len < sizeof zeros ? lost->len : sizeof zeros, lost->from) > 0;
                expect("what was not on the disk is gone", cut);
                close(file);
            }
        }
    }
    if (dir != NULL) {
        closedir(dir);
    }
    if (seen->renamed[0] != 0 && chance() % 2 == 0) {
        unlink(seen->renamed);
    }
}

/* Whether a day has just the first records of the one that is known before, so many at least, and the times of each trace that has any are right. */
static bool is_the_beginning(const char *folder, uint64_t least, uint64_t most)
{
    uint64_t record = 0;
    char name[PIC_DAY_PATH], times[PIC_DAY_PATH + 8];
    uint8_t bytes[TIME_LEN];
    if (pic_day_open(&reader, folder) != PCH_PIC_DONE) {
        printf("%s\n", reader.text);
        return false;
    }
    bool same = reader.records >= least && reader.records <= most;
    while (same && pic_day_trace(&reader) == PCH_PIC_DONE) {
        pic_day_name(folder, reader.number, name);
        snprintf(times, sizeof times, "%s.times", name);
        FILE *file = fopen(times, "rb");
        for (size_t i = 0; i < reader.of_trace; i++, record++) {
            const uint8_t *here = reader.trace + reader.len - PCH_PIC_RECORD_LEN * (reader.of_trace - i);
            same = same && here[0] == PCH_PIC_WRITE && here[1] == 8 && get(here + 2, 2) == PCH_PIC_REG_POL && get(here + 8, 8) == value_of(record);
            same = same && (file == NULL || (fread(bytes, 1, TIME_LEN, file) == TIME_LEN && get(bytes, TIME_LEN) == 1000 * record + 7));
        }
        if (file != NULL) {
            fclose(file);
        }
    }
    same = same && record == reader.records;
    pic_day_close(&reader);
    return same;
}

/* Whether the times of the trace that was open are on the disk as far as its records are. */
static bool times_are_safe(const char *folder, uint64_t safe)
{
    struct pic_day_line line;
    char name[PIC_DAY_PATH], times[PIC_DAY_PATH + 8];
    uint8_t bytes[TIME_LEN];
    FILE *list;
    unsigned traces = 0;
    uint64_t record = 0;
    if (pic_day_list_open(folder, &list, reader.text) != PCH_PIC_DONE) {
        return safe == 0;
    }
    for (; pic_day_list_next(list, traces, record, &line) == PIC_DAY_TRACE_LINE; traces++) {
        record += line.records;
    }
    fclose(list);
    pic_day_name(folder, traces + 1, name);
    snprintf(times, sizeof times, "%s.times", name);
    FILE *file = record < safe ? fopen(times, "rb") : NULL;
    bool right = file != NULL || record >= safe;
    for (; right && record < safe; record++) {
        right = fread(bytes, 1, TIME_LEN, file) == TIME_LEN && get(bytes, TIME_LEN) == 1000 * record + 7;
    }
    if (file != NULL) {
        fclose(file);
    }
    return right;
}

/* What is left of a recorder that has ended anyhow: at least so many records, and none that was not. It is read as it stands, or told that it has to be salvaged. */
static void what_is_left(const char *folder, uint64_t least)
{
    char to[PATH_LEN];
    in_folder("kept", to);
    clear(to);
    struct stat there;
    uint64_t most = seen->taken + 1;
    bool reads = pic_day_open(&reader, folder) == PCH_PIC_DONE;
    pic_day_close(&reader);
    if (reads) {
        expect("a day that reads has what was taken", is_the_beginning(folder, least, most));
    }
    int number = pic_day_salvage(folder, to, &kept);
    if (number == PIC_NO_DAY) {
        expect("nothing is left only where nothing was safe", least == 0 && stat(to, &there) != 0);
    } else {
        expect("the rest is salvaged", number == PCH_PIC_DONE);
        expect("and is what was taken", is_the_beginning(to, least, most));
    }
    clear(to);
}

static void killed(unsigned long kills)
{
    char folder[PATH_LEN];
    unsigned long died = 0;
    in_folder("killed", folder);
    for (unsigned long i = 0; died < kills && i < 4 * kills; i++) {
        enum what how = chance() % 2 == 0 ? DIES_BEFORE : DIES_AFTER;
        uint64_t next_each = chance() % 3 == 0 ? 5 + chance() % 300 : UINT64_MAX;
        unsigned long calls = 1 + chance() % 700, at = 1 + chance() % (4 * calls + 16);
        /* One in four near a trace's end: 256 records, each with its time and each fourth with two syncs, and a few calls around. */
        at = chance() % 4 == 0 ? 640 + chance() % 40 : at;
        clear(folder);
        expect("a recorder is killed", child_ends(folder, calls, next_each, how, at));
        died += seen->calls == at;
        if (i % 2 == 0) {
            what_is_left(folder, seen->taken);
        } else {
            lose_power(folder);
            expect("the times of full blocks are there", times_are_safe(folder, seen->taken - seen->open));
            what_is_left(folder, seen->taken - seen->open);
        }
    }
    printf("%lu recorders were killed, every second one without power too\n", died);
    expect("so many were killed on their way", died == kills);
    clear(folder);
}

/* A call of the system that fails once: what it was for is told, may be asked for again, and then nothing is missing. */
static void without_room(unsigned long times)
{
    char folder[PATH_LEN];
    in_folder("full", folder);
    for (unsigned long i = 0; i < times; i++) {
        clear(folder);
        unsigned long calls = i % 2 == 0 ? 600 : 40;
        expect("a recorder goes on behind a full disk", child_ends(folder, calls, i % 2 == 0 ? 5 + chance() % 400 : 3, FAILS, 1 + chance() % (i % 2 == 0 ? 1600 : 240)));
        expect("and has every record", seen->taken == calls && is_the_beginning(folder, calls, calls));
    }
    clear(folder);
}

/* A record that is not taken since a call of the system fails, and nothing is asked for again: the day ends with the records before it, and is good. */
static void ends_at_once(void)
{
    char folder[PATH_LEN];
    in_folder("full", folder);
    for (unsigned long at = 1; at <= 24; at++) {
        clear(folder);
        memset(seen, 0, sizeof *seen);
        expect("a day that gets no room", pic_day_begin(&day, folder, BLOCK) == PCH_PIC_DONE && pic_recorder_clock(&day.recorder, by_taken, NULL) == PCH_PIC_DONE && take() == PCH_PIC_DONE);
        fate = FAILS;
        fate_at = seen->calls + at;
        int number = PCH_PIC_DONE;
        while (number == PCH_PIC_DONE && seen->taken < 40) {
            number = take();
        }
        fate = GOES_ON;
        expect("misses a record", number == PIC_FILE);
        int ended = at % 2 == 0 ? pic_day_next(&day) : PCH_PIC_DONE;
        expect("ends as it is", ended == PCH_PIC_DONE && pic_day_end(&day) == PCH_PIC_DONE && day.records == seen->taken);
        expect("and has the records before", is_the_beginning(folder, seen->taken, seen->taken));
    }
    clear(folder);
}

/* --- Folders that are damaged ---------------------------------------------------------------------------------------------------------------------------- */

/* A digest of all names and bytes in a folder, in no order. */
static void folder_digest(const char *folder, char digest[PIC_DIGEST_LEN + 1])
{
    static uint8_t bytes[2 * PCH_PIC_TRACE_MAX];
    char path[2 * PATH_LEN], one[PIC_DIGEST_LEN + 1], sum[PIC_DIGEST_LEN] = {0};
    DIR *dir = opendir(folder);
    for (struct dirent *entry = dir != NULL ? readdir(dir) : NULL; entry != NULL; entry = readdir(dir)) {
        snprintf(path, sizeof path, "%s/%s", folder, entry->d_name);
        FILE *file = fopen(path, "rb");
        size_t named = strlen(entry->d_name), len = file != NULL && entry->d_name[0] != '.' ? fread(bytes, 1, PCH_PIC_TRACE_MAX, file) : 0;
        memcpy(bytes + len, entry->d_name, named);
        pic_digest(bytes, len + named, one);
        for (size_t i = 0; i < PIC_DIGEST_LEN; i++) {
            sum[i] = (char)(sum[i] + one[i]);
        }
        if (file != NULL) {
            fclose(file);
        }
    }
    if (dir != NULL) {
        closedir(dir);
    }
    pic_digest((const uint8_t *)sum, sizeof sum, digest);
}

/* A day of three traces, of 300 records each, with times; other makes another day of the same shape. */
static void make_day(const char *folder, uint64_t other)
{
    clear(folder);
    memset(seen, 0, sizeof *seen);
    expect("a day of three traces", pic_day_begin(&day, folder, 0) == PCH_PIC_DONE && pic_recorder_clock(&day.recorder, by_taken, NULL) == PCH_PIC_DONE);
    for (; seen->taken < 900; seen->taken++) {
        if (pic_recorder_write(&day.recorder, BASE, PCH_PIC_WINDOW_LEN, BASE + PCH_PIC_REG_POL, 8, value_of(seen->taken) + other) != PCH_PIC_DONE ||
            (seen->taken % 300 == 299 && pic_day_next(&day) != PCH_PIC_DONE)) {
            expect("a record of a day", false);
        }
    }
    expect("ends", pic_day_end(&day) == PCH_PIC_DONE && day.traces == 3);
}

static void put_file(const char *folder, const char *name, const char *text)
{
    char path[2 * PATH_LEN];
    snprintf(path, sizeof path, "%s/%s", folder, name);
    expect("a file is put there", pic_replace(path, (const uint8_t *)text, strlen(text)) == PCH_PIC_DONE);
}

static void move_file(const char *folder, const char *from, const char *to)
{
    char old[2 * PATH_LEN], new[2 * PATH_LEN];
    snprintf(old, sizeof old, "%s/%s", folder, from);
    snprintf(new, sizeof new, "%s/%s", folder, to);
    expect("a file is moved", rename(old, new) == 0);
}

static void copy_file(const char *from_folder, const char *from, const char *folder, const char *to)
{
    static uint8_t bytes[PCH_PIC_TRACE_MAX];
    char path[2 * PATH_LEN];
    snprintf(path, sizeof path, "%s/%s", from_folder, from);
    FILE *file = fopen(path, "rb");
    size_t len = file != NULL ? fread(bytes, 1, sizeof bytes, file) : 0;
    snprintf(path, sizeof path, "%s/%s", folder, to);
    expect("a file is copied", file != NULL && pic_replace(path, bytes, len) == PCH_PIC_DONE);
    if (file != NULL) {
        fclose(file);
    }
}

/* Cuts a file to a length, or by so many bytes where that is below 0; or changes its byte there. */
static void damage(const char *folder, const char *name, long cut, long change)
{
    char path[2 * PATH_LEN];
    struct stat found;
    uint8_t byte = 0;
    snprintf(path, sizeof path, "%s/%s", folder, name);
    int file = open(path, O_RDWR);
    bool ok = file >= 0 && fstat(file, &found) == 0;
    if (change >= 0) {
        ok = ok && pread(file, &byte, 1, change) == 1;
        byte ^= 1;
        ok = ok && __real_pwrite(file, &byte, 1, change) == 1;
    } else {
        ok = ok && ftruncate(file, cut < 0 ? found.st_size + cut : cut) == 0;
    }
    expect("a file is damaged", ok);
    if (file >= 0) {
        close(file);
    }
}

static char damaged[PATH_LEN], another[PATH_LEN];

/* A damaged day is refused with this text, and with all else it stays as it is; so many records of it are salvaged. */
static void refused(const char *text, uint64_t left)
{
    char before[PIC_DIGEST_LEN + 1], after[PIC_DIGEST_LEN + 1], to[PATH_LEN];
    in_folder("kept", to);
    clear(to);
    folder_digest(damaged, before);
    int number = pic_day_open(&reader, damaged);
    if (number != PIC_NO_DAY || strcmp(reader.text, text) != 0) {
        printf("%d: '%s' and not '%s'\n", number, reader.text, text);
    }
    expect(text, number == PIC_NO_DAY && strcmp(reader.text, text) == 0 && reader.list == NULL);
    pic_day_rewind(&reader);
    expect("a day that is not open has no trace", pic_day_trace(&reader) == PIC_NO_DAY && strcmp(reader.text, text) == 0);
    number = pic_day_salvage(damaged, to, &kept);
    struct stat there;
    bool salvaged = left == 0 ? number == PIC_NO_DAY && stat(to, &there) != 0 : number == PCH_PIC_DONE && is_the_beginning(to, left, left);
    if (!salvaged) {
        printf("%s: salvaged with %d: %s\n", text, number, kept.text);
    }
    expect("what comes before the damage is salvaged", salvaged && (left == 0 || kept.day.records == left));
    folder_digest(damaged, after);
    expect("and nothing there was touched", strcmp(before, after) == 0);
    clear(to);
}

static void damaged_traces(void)
{
    make_day(damaged, 0);
    move_file(damaged, "00002.trace", "gone");
    refused("00002.trace is missing", 300);
    make_day(damaged, 0);
    damage(damaged, "00003.trace", -5, -1);
    refused("00003.trace is not the trace that day.list names: it has changed, or it is of another day", 600);
    for (long place = 0; place < 4800; place += 1597) {
        make_day(damaged, 0);
        damage(damaged, "00001.trace", 0, place);
        refused("00001.trace is not the trace that day.list names: it has changed, or it is of another day", 0);
    }
    make_day(another, 5);
    make_day(damaged, 0);
    copy_file(another, "00002.trace", damaged, "00002.trace");
    refused("00002.trace is not the trace that day.list names: it has changed, or it is of another day", 300);
    make_day(damaged, 0);
    move_file(damaged, "00002.trace", "aside");
    move_file(damaged, "00003.trace", "00002.trace");
    move_file(damaged, "aside", "00003.trace");
    refused("00002.trace is trace 3 of this day: its files are out of order, or one is there twice", 300);
    make_day(damaged, 0);
    copy_file(damaged, "00002.trace", damaged, "00003.trace");
    refused("00003.trace is trace 2 of this day: its files are out of order, or one is there twice", 600);
    make_day(damaged, 0);
    copy_file(another, "00001.trace", damaged, "00007.trace");
    refused("00007.trace is not of this day: day.list ends with trace 3", 900);
}

static void damaged_beside(void)
{
    make_day(damaged, 0);
    damage(damaged, "00002.trace.times", -8, -1);
    refused("00002.trace.times: it has 2392 bytes, and the times of 300 records are 2400", 900);
    expect("whose times are left out", kept.untimed == 1);
    make_day(damaged, 0);
    copy_file(damaged, "00001.trace.times", damaged, "00003.trace.times");
    refused("00003.trace.times: its clock goes back at record 600, where the trace begins", 900);
    expect("whose third trace has none then", kept.untimed == 1);
    make_day(damaged, 0);
    damage(damaged, "00002.trace.times", 0, 8 * 5 + 7);
    refused("00002.trace.times: its clock goes back at record 6", 900);
    expect("whose second has none then", kept.untimed == 1);
    make_day(damaged, 0);
    put_file(damaged, "00003.trace.holes", "mine\n");
    refused("00003.trace.holes: it is no list of holes", 600);
}

/* The last salvage tells that at least a record is missing behind what it kept, with this text, and the list of that stands beside the last trace. */
static void more_is_told(const char *text, const char *list)
{
    char to[PATH_LEN], path[2 * PATH_LEN];
    struct stat there;
    in_folder("kept", to);
    expect("a day whose list lost lines", pic_day_salvage(damaged, to, &kept) == PCH_PIC_DONE && strcmp(kept.text, text) == 0);
    expect("may have had more", kept.more && !kept.ended && kept.holes.count == 1 && kept.holes.of[0].at == 300 && kept.holes.of[0].last == 300);
    snprintf(path, sizeof path, "%s/%s", to, list);
    expect("and its holes say so", stat(path, &there) == 0);
    clear(to);
}

/* A day whose list has a zero at a place, and with a length of 2 the end of a line behind it. */
static void zero_in_list(long place, size_t len)
{
    char path[2 * PATH_LEN];
    make_day(damaged, 0);
    snprintf(path, sizeof path, "%s/day.list", damaged);
    int file = open(path, O_WRONLY);
    expect("a zero in a list", file >= 0 && __real_pwrite(file, "\0\n", len, place) == (ssize_t)len && close(file) == 0);
}

/* The list, whose first line has 14 bytes, and each other one 75: the end's is shorter. */
static void damaged_lists(void)
{
    make_day(damaged, 0);
    move_file(damaged, "day.list", "gone");
    refused("there is no day.list in it, so it is no day", 0);
    make_day(damaged, 0);
    damage(damaged, "day.list", 0, 12);
    refused("day.list, line 1: it is not 'pch-pic day 1'", 0);
    make_day(damaged, 0);
    damage(damaged, "day.list", 0, 14 + 75 + 4);
    refused("day.list, line 3: it is not the line of trace 2, nor the right end of the list", 300);
    make_day(damaged, 0);
    damage(damaged, "day.list", 0, 14 + 75 + 6);
    damage(damaged, "day.list", -10, -1);
    refused("day.list, line 3: it says 200 records, and 00002.trace has 300", 300);
    make_day(damaged, 0);
    damage(damaged, "day.list", 0, 14 + 3 * 75 + 4);
    refused("day.list, line 5: it is not the line of trace 4, nor the right end of the list", 900);
    make_day(damaged, 0);
    damage(damaged, "day.list", 0, 14 + 3 * 75 + 6);
    refused("day.list, line 5: it is not the line of trace 4, nor the right end of the list", 900);
    make_day(damaged, 0);
    damage(damaged, "day.list", 14 + 75, -1);
    refused("00003.trace is not of this day: day.list ends with trace 1", 600);
    more_is_told("00003.trace is not of this day: day.list ends with trace 1", "00002.trace.holes");
    move_file(damaged, "00002.trace", "gone");
    refused("00003.trace is not of this day: day.list ends with trace 1", 300);
    more_is_told("00003.trace is not of this day: day.list ends with trace 1", "00001.trace.holes");
    make_day(damaged, 0);
    damage(damaged, "day.list", 14 + 75, -1);
    damage(damaged, "00002.trace", 6 + 16 * 20 + 3, -1);
    refused("00003.trace is not of this day: day.list ends with trace 1", 320);
    expect("more than the open trace had is missing", kept.more && !kept.ended && kept.holes.count == 1 && kept.holes.of[0].last == 299);
    make_day(damaged, 0);
    damage(damaged, "day.list", 14, -1);
    move_file(damaged, "00003.trace", "a");
    move_file(damaged, "00002.trace", "b");
    move_file(damaged, "00001.trace", "c");
    refused("there is no trace in it yet", 0);
}

/* In a trace's line, in the end's and behind it, and in the place of a line's end. */
static void zeros_in_lists(void)
{
    zero_in_list(14 + 75 + 20, 1);
    refused("day.list, line 3: it is not the line of trace 2, nor the right end of the list", 300);
    zero_in_list(14 + 3 * 75 + 7, 1);
    refused("day.list, line 5: it is not the line of trace 4, nor the right end of the list", 900);
    zero_in_list(14 + 3 * 75 + 9, 2);
    refused("day.list, line 5: it is not the line of trace 4, nor the right end of the list", 900);
    zero_in_list(14 + 75 - 1, 1);
    refused("day.list, line 2: it is not the line of trace 1, nor the right end of the list", 0);
}

/* A line in part is none: the last trace is the open one then, and good as it stands. */
static void torn_lists(void)
{
    for (long cut = 1; cut < 11 + 75; cut += 6) {
        make_day(damaged, 0);
        damage(damaged, "day.list", -cut, -1);
        bool good = pic_day_open(&reader, damaged) == PCH_PIC_DONE;
        expect("a list that was torn", good && !reader.ended && reader.traces == 3 && reader.records == 900 && reader.listed == (cut < 12 ? 3 : 2));
        pic_day_close(&reader);
        expect("leaves all records", is_the_beginning(damaged, 900, 900));
    }
    make_day(damaged, 0);
    damage(damaged, "day.list", 14 + 2 * 75, -1);
    damage(damaged, "00003.trace", 6 + 16 * 20 + 3, -1);
    refused("the day was not ended: 00003.trace has 20 whole records; ./run --salvage DAY TO keeps them", 620);
    expect("and its hole is told", kept.holes.count == 1 && kept.holes.of[0].at == 20 && kept.holes.of[0].last == 299 && kept.before == 600 && !kept.ended);
}

/* A planned trace that was open: records that were never taken are not missing, and so at most its open block is. Where anything stands behind the zeros more is. */
static void not_taken(unsigned records)
{
    char to[PATH_LEN], path[2 * PATH_LEN];
    in_folder("kept", to);
    for (int beyond = 0; beyond < 2; beyond++) {
        clear(to);
        clear(damaged);
        memset(seen, 0, sizeof *seen);
        expect("a day that was left", pic_day_begin(&day, damaged, BLOCK) == PCH_PIC_DONE);
        while (seen->taken < records && take() == PCH_PIC_DONE) {
        }
        pic_day_leave(&day);
        if (beyond == 1) {
            damage(damaged, "00001.trace", 0, PCH_PIC_TRACE_ENTRIES + PCH_PIC_BLOCK_LEN * PCH_PIC_BLOCKS_MAX + PCH_PIC_RECORD_LEN * 255);
        }
        expect("keeps what was taken", pic_day_salvage(damaged, to, &kept) == PCH_PIC_DONE && is_the_beginning(to, records, records));
        const struct pic_hole *hole = &kept.holes.of[0];
        expect("with a hole", kept.holes.count == 1 && hole->at == records && hole->first == records && hole->last == (beyond == 1 ? 255 : records / BLOCK * BLOCK + BLOCK - 1));
        expect("that says what it is", (strncmp(hole->why, PIC_DAY_AT_MOST, strlen(PIC_DAY_AT_MOST)) == 0) == (beyond == 0));
        struct pic_holes loaded;
        snprintf(path, sizeof path, "%s/00001.trace", to);
        expect("also in its list", pic_holes_load(path, kept.last.trace, kept.last.len, &loaded) == PCH_PIC_DONE && strcmp(loaded.of[0].why, hole->why) == 0);
    }
    clear(to);
}

/* The same of a trace that was begun, and got no record. */
static void none_taken(void)
{
    char to[PATH_LEN];
    in_folder("kept", to);
    clear(to);
    clear(damaged);
    memset(seen, 0, sizeof *seen);
    expect("a day of full traces", pic_day_begin(&day, damaged, BLOCK) == PCH_PIC_DONE);
    while (seen->taken < BLOCK * PCH_PIC_BLOCKS_MAX && take() == PCH_PIC_DONE) {
    }
    expect("whose next has begun", day.recorder.more(day.recorder.more_of) == PCH_PIC_DONE && day.traces == 1 && day.open);
    pic_day_leave(&day);
    expect("keeps what was taken", pic_day_salvage(damaged, to, &kept) == PCH_PIC_DONE && is_the_beginning(to, seen->taken, seen->taken));
    const struct pic_hole *hole = &kept.holes.of[0];
    expect("with an open block behind it", kept.holes.count == 1 && hole->at == seen->taken && hole->last == seen->taken + BLOCK - 1 && !kept.more);
    expect("that says what it is", strncmp(hole->why, PIC_DAY_AT_MOST, strlen(PIC_DAY_AT_MOST)) == 0);
    clear(to);
}

/* A clock that begins with 0 keeps its times, unless the block of that 0 was open: lost power leaves the same. */
static void from_zero(unsigned records, unsigned untimed)
{
    char to[PATH_LEN], path[2 * PATH_LEN];
    struct stat there;
    in_folder("kept", to);
    clear(to);
    clear(damaged);
    memset(seen, 0, sizeof *seen);
    expect("a clock from 0", pic_day_begin(&day, damaged, BLOCK) == PCH_PIC_DONE && pic_recorder_clock(&day.recorder, by_calls, NULL) == PCH_PIC_DONE);
    while (seen->taken < records && take() == PCH_PIC_DONE) {
    }
    pic_day_leave(&day);
    expect("of a day that was not ended", pic_day_salvage(damaged, to, &kept) == PCH_PIC_DONE && kept.day.records == records && kept.untimed == untimed);
    snprintf(path, sizeof path, "%s/00001.trace.times", to);
    expect("is salvaged with it", stat(path, &there) == 0 ? untimed == 0 && there.st_size == TIME_LEN * (off_t)records : untimed == 1);
    clear(to);
}

/* What a salvage leaves can be salvaged again, and a trace with a hole is the last. */
static void salvaged_days(void)
{
    char to[PATH_LEN], again[PATH_LEN], inside[PATH_LEN];
    in_folder("kept", to);
    in_folder("again", again);
    in_folder("damaged/in", inside);
    clear(to);
    clear(again);
    make_day(damaged, 0);
    expect("nothing is salvaged into itself", pic_day_salvage(damaged, damaged, &kept) == PIC_INSIDE && pic_day_salvage(damaged, inside, &kept) == PIC_INSIDE);
    mkdir(inside, 0777);
    in_folder("link", again);
    expect("nor by a link into it", symlink("damaged/in", again) == 0 && pic_day_salvage(damaged, again, &kept) == PIC_INSIDE);
    expect("which is taken away", unlink(again) == 0 && rmdir(inside) == 0);
    in_folder("again", again);
    expect("nor over another day", pic_day_salvage(damaged, another, &kept) == PIC_OCCUPIED);
    expect("a good day is salvaged whole", pic_day_salvage(damaged, to, &kept) == PCH_PIC_DONE && kept.ended && kept.holes.count == 0 && is_the_beginning(to, 900, 900));
    char one[PIC_DIGEST_LEN + 1], two[PIC_DIGEST_LEN + 1];
    folder_digest(damaged, one);
    folder_digest(to, two);
    expect("to the same bytes", strcmp(one, two) == 0);
    clear(to);
    move_file(damaged, "00003.trace", "gone");
    expect("a day with a hole", pic_day_salvage(damaged, to, &kept) == PCH_PIC_DONE && kept.holes.count == 1 && kept.holes.of[0].first == 300 && kept.holes.of[0].last == 599);
    expect("is salvaged again", pic_day_salvage(to, again, &kept) == PCH_PIC_DONE && kept.holes.count == 1 && kept.holes.of[0].last == 599 && is_the_beginning(again, 600, 600));
    clear(damaged);
    rename(again, damaged);
    copy_file(damaged, "00002.trace", damaged, "00003.trace");
    refused("00002.trace has a hole, and is not the last trace: behind a hole nothing is the day's", 600);
    clear(to);
}

/* What a day does not begin in, and what its recorder refuses. */
static void beginnings(void)
{
    char before[PIC_DIGEST_LEN + 1], after[PIC_DIGEST_LEN + 1], path[PATH_LEN + 32];
    struct stat there;
    make_day(damaged, 0);
    folder_digest(damaged, before);
    expect("no day over another", pic_day_begin(&day, damaged, 64) == PIC_OCCUPIED);
    folder_digest(damaged, after);
    expect("which stays as it is", strcmp(before, after) == 0);
    snprintf(path, sizeof path, "%s/day.list", damaged);
    expect("a day that is closed is not read", pic_day_open(&reader, damaged) == PCH_PIC_DONE);
    pic_day_close(&reader);
    expect("and says so", pic_day_trace(&reader) == PIC_NO_DAY && strcmp(reader.text, "it is not open") == 0);
    expect("none in a file", pic_day_begin(&day, path, 0) == PIC_FILE && errno == ENOTDIR);
    snprintf(path, sizeof path, "%s/no/such", base_folder);
    expect("none below a folder that is not there", pic_day_begin(&day, path, 0) == PIC_FILE && errno == ENOENT);
    clear(another);
    expect("no block of 4001", pic_day_begin(&day, another, 4001) == PIC_PLAN && stat(another, &there) != 0);
    expect("one of 4000", pic_day_begin(&day, another, 4000) == PCH_PIC_DONE && day.recorder.planned == 1);
    expect("nothing ends as nothing", pic_day_next(&day) == PCH_PIC_DONE && pic_day_end(&day) == PIC_EMPTY);
    pic_day_undo(&day);
    expect("and leaves nothing", stat(another, &there) != 0);
    mkdir(another, 0777);
    expect("an empty folder", pic_day_begin(&day, another, 1) == PCH_PIC_DONE && day.recorder.planned == 64 && pic_recorder_raise(&day.recorder, 1) == PCH_PIC_DONE);
    expect("has a clock from the start or never", pic_recorder_clock(&day.recorder, by_taken, NULL) == PIC_STARTED);
    pic_day_undo(&day);
    expect("stays, empty again", stat(another, &there) == 0 && rmdir(another) == 0);
    for (int number = PIC_OCCUPIED; number <= PIC_DAY_OVER; number++) {
        expect("each number has its text", strcmp(pic_day_why(number), "unknown number") != 0);
    }
    expect("and so have others", strcmp(pic_day_why(PIC_NO_LIST), pic_holes_why(PIC_NO_LIST)) == 0 && strcmp(pic_day_why(PIC_DAY_OVER + 1), "unknown number") == 0);
}

/* A day that did not begin records nothing, and whoever asks is told why. */
static void without_a_beginning(void)
{
    static struct pic pic;
    struct pic_wires wires = {0};
    char before[PIC_DIGEST_LEN + 1], after[PIC_DIGEST_LEN + 1];
    static const uint8_t trace[PCH_PIC_TRACE_MAX] = {1, 0, 6, 0, 1, 0, PCH_PIC_RAISE};
    make_day(damaged, 0);
    folder_digest(damaged, before);
    for (size_t block = 0; block <= PIC_DAY_BLOCK; block += PIC_DAY_BLOCK) {
        expect("a day over another", pic_day_begin(&day, damaged, block) == PIC_OCCUPIED);
        expect("is watched", pic_init(&pic, BASE) == PCH_PIC_DONE && pic_recorder_watch(&day.recorder, &pic) == PCH_PIC_DONE);
        pic_line(&pic, &wires, 5, true);
        expect("and stops with its first call", pic_recorder_stopped(&day.recorder) == PIC_OCCUPIED && day.recorder.count == 0);
        expect("has no next trace", pic_day_next(&day) == PIC_OCCUPIED);
        expect("takes none", pic_day_add(&day, trace, 6 + PCH_PIC_RECORD_LEN, NULL) == PIC_OCCUPIED);
        expect("and does not end", pic_day_end(&day) == PIC_OCCUPIED && pic_day_end(&day) == PIC_OCCUPIED);
    }
    folder_digest(damaged, after);
    expect("the other stays as it is", strcmp(before, after) == 0);
    expect("nor does a day without a plan", pic_day_begin(&day, another, 4001) == PIC_PLAN && pic_recorder_raise(&day.recorder, 1) == PIC_PLAN && pic_day_end(&day) == PIC_PLAN);
}

static void take_file_away(const char *folder, const char *name)
{
    char path[2 * PATH_LEN];
    snprintf(path, sizeof path, "%s/%s", folder, name);
    expect("a file is taken away", unlink(path) == 0);
}

static bool has_link(const char *folder, const char *name)
{
    char path[2 * PATH_LEN];
    struct stat found;
    snprintf(path, sizeof path, "%s/%s", folder, name);
    return lstat(path, &found) == 0 && S_ISLNK(found.st_mode);
}

/* What comes into the place of a day's next trace is never replaced nor taken away, and where it is gone the day goes on. */
static void in_the_way(size_t block)
{
    static const char *const names[] = {"00002.trace", "00002.trace.times"};
    static const uint8_t trace[PCH_PIC_TRACE_MAX] = {1, 0, 6, 0, 1, 0, PCH_PIC_RAISE};
    char before[PIC_DIGEST_LEN + 1], after[PIC_DIGEST_LEN + 1], link[PATH_LEN + 32];
    clear(another);
    memset(seen, 0, sizeof *seen);
    expect("a day with others around", pic_day_begin(&day, another, block) == PCH_PIC_DONE && pic_recorder_clock(&day.recorder, by_taken, NULL) == PCH_PIC_DONE);
    expect("has a trace", take() == PCH_PIC_DONE && pic_day_next(&day) == PCH_PIC_DONE);
    for (size_t i = 0; i < 2; i++) {
        put_file(another, names[i], "mine\n");
        folder_digest(another, before);
        expect("takes no record over a file", take() == PIC_OCCUPIED && take() == PIC_OCCUPIED);
        expect("nor a trace", pic_day_add(&day, trace, 6 + PCH_PIC_RECORD_LEN, NULL) == PIC_OCCUPIED);
        folder_digest(another, after);
        expect("which stays as it is", strcmp(before, after) == 0);
        take_file_away(another, names[i]);
    }
    snprintf(link, sizeof link, "%s/00002.trace", another);
    expect("nor over a link", symlink("no such file", link) == 0 && take() == PIC_OCCUPIED && has_link(another, "00002.trace"));
    take_file_away(another, "00002.trace");
    expect("and goes on then", take() == PCH_PIC_DONE);
    if (block == 0) {
        put_file(another, "00002.trace", "mine\n");
        expect("a trace in memory is not written over a file", pic_day_next(&day) == PIC_OCCUPIED && pic_day_end(&day) == PIC_OCCUPIED);
        take_file_away(another, "00002.trace");
    }
    expect("to its end", pic_day_end(&day) == PCH_PIC_DONE && is_the_beginning(another, 2, 2));
    expect("behind which it takes nothing", pic_day_add(&day, trace, 6 + PCH_PIC_RECORD_LEN, NULL) == PIC_DAY_OVER && take() == PIC_FULL && is_the_beginning(another, 2, 2));
    clear(another);
    expect("a day that is taken away", pic_day_begin(&day, another, block) == PCH_PIC_DONE);
    put_file(another, "00001.trace", "mine\n");
    pic_day_undo(&day);
    take_file_away(another, "00001.trace");
}

/* A day whose folder has a relative name stays in it where the process goes elsewhere. */
static void elsewhere(size_t block)
{
    struct stat there;
    char here[PATH_LEN];
    clear(another);
    memset(seen, 0, sizeof *seen);
    expect("a relative name", getcwd(here, sizeof here) != NULL && chdir(base_folder) == 0 && pic_day_begin(&day, "another//", block) == PCH_PIC_DONE && take() == PCH_PIC_DONE);
    expect("and another folder", chdir("/") == 0 && pic_day_next(&day) == PCH_PIC_DONE && take() == PCH_PIC_DONE && pic_day_end(&day) == PCH_PIC_DONE);
    expect("are one day", chdir(here) == 0 && is_the_beginning(another, 2, 2));
    clear(another);
    expect("which is taken away from there too", chdir(base_folder) == 0 && pic_day_begin(&day, "another", block) == PCH_PIC_DONE && chdir("/") == 0);
    pic_day_undo(&day);
    expect("with its folder", chdir(here) == 0 && stat(another, &there) != 0);
}

int main(int argc, char **argv)
{
    unsigned long interrupts = argc == 4 ? strtoul(argv[2], NULL, 10) : 5000, kills = argc == 4 ? strtoul(argv[3], NULL, 10) : 200;
    if ((argc != 2 && argc != 4) || strlen(argv[1]) > PATH_LEN / 2 || interrupts == 0 || kills == 0) {
        fprintf(stderr, "usage: long_days FOLDER [INTERRUPTS KILLS]\n");
        return 2;
    }
    strcpy(base_folder, argv[1]);
    a_long_day(interrupts, PIC_DAY_BLOCK);
    a_long_day(interrupts / 4 + 1, 0);
    in_folder("damaged", damaged);
    in_folder("another", another);
    seen = mmap(NULL, sizeof *seen, PROT_READ | PROT_WRITE, MAP_SHARED | MAP_ANONYMOUS, -1, 0);
    if (seen == MAP_FAILED) {
        perror("long_days");
        return 2;
    }
    killed(kills);
    without_room(kills / 4 + 1);
    ends_at_once();
    damaged_traces();
    damaged_beside();
    damaged_lists();
    zeros_in_lists();
    torn_lists();
    not_taken(10);
    not_taken(2 * BLOCK);
    not_taken(254);
    none_taken();
    from_zero(BLOCK - 1, 1);
    from_zero(BLOCK, 0);
    from_zero(2 * BLOCK + 1, 0);
    salvaged_days();
    beginnings();
    without_a_beginning();
    in_the_way(0);
    in_the_way(BLOCK);
    elsewhere(0);
    elsewhere(BLOCK);
    clear(damaged);
    clear(another);
    printf("%d passed, %d failed\n", passed, failed);
    return failed != 0;
}
