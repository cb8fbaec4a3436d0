/* A day is recorded into a folder: the recorder asks for more where its trace is full, and gets the next one. A line of the list is written only when its trace is on the disk,
 * so that what is listed is there; what is there and not listed is the trace that was open. */
#define _XOPEN_SOURCE 700
#include "days_list.h"

#include <dirent.h>
#include <errno.h>
#include <fcntl.h>
#include <inttypes.h>
#include <stdlib.h>
#include <string.h>
#include <sys/stat.h>
#include <unistd.h>

enum { NO_FILE = -1, TIME_LEN = 8, BESIDE = 3 };

/* A trace, and what stands beside it. */
static const char *const beside[BESIDE] = {"", ".times", ".holes"};

static bool name_in(const char *folder, const char *file, char name[PIC_DAY_PATH])
{
    int len = snprintf(name, PIC_DAY_PATH, "%s/%s", folder, file);
    errno = ENAMETOOLONG;
    return len > 0 && len < PIC_DAY_PATH;
}

bool pic_day_name(const char *folder, unsigned number, char name[PIC_DAY_PATH])
{
    char file[24];
    snprintf(file, sizeof file, "%05u.trace", number);
    return name_in(folder, file, name);
}

/* Whether a folder has nothing in it: 0, PIC_OCCUPIED or PIC_FILE. */
static int vacant(const char *folder)
{
    DIR *dir = opendir(folder);
    int number = PCH_PIC_DONE;
    if (dir == NULL) {
        return PIC_FILE;
    }
    for (struct dirent *entry = readdir(dir); entry != NULL && number == PCH_PIC_DONE; entry = readdir(dir)) {
        number = strcmp(entry->d_name, ".") == 0 || strcmp(entry->d_name, "..") == 0 ? PCH_PIC_DONE : PIC_OCCUPIED;
    }
    closedir(dir);
    return number;
}

/* A name in a folder is on the disk only when the folder is. Some file systems cannot sync one, and say so. */
static bool sync_folder(const char *folder)
{
    int opened = open(folder, O_RDONLY | O_DIRECTORY | O_CLOEXEC);
    if (opened < 0) {
        return false;
    }
    bool synced = fsync(opened) == 0 || errno == EINVAL;
    int why = errno;
    close(opened);
    errno = why;
    return synced;
}

/* One more piece of the list, on the disk, or the list as it was. */
static int append(const struct pic_day *day, const char *text)
{
    off_t end = lseek(day->list, 0, SEEK_END);
    size_t len = strlen(text), done = 0;
    while (end >= 0 && done < len) {
        ssize_t more = write(day->list, text + done, len - done);
        if (more == 0 || (more < 0 && errno != EINTR)) {
            break;
        }
        done += more > 0 ? (size_t)more : 0;
    }
    if (end >= 0 && done == len && fdatasync(day->list) == 0) {
        return PCH_PIC_DONE;
    }
    int why = errno;
    if (end >= 0 && ftruncate(day->list, end) != 0) {
        why = errno;
    }
    errno = why;
    return PIC_FILE;
}

/* The folder's name from the root on, so that the day stays in it wherever the process goes. */
static bool whole_name(char folder[PIC_DAY_PATH])
{
    char *whole = realpath(folder, NULL);
    size_t len = whole != NULL ? strlen(whole) : 0;
    bool fits = whole != NULL && len < PIC_DAY_PATH;
    if (fits) {
        memcpy(folder, whole, len + 1);
    } else if (whole != NULL) {
        errno = ENAMETOOLONG;
    }
    free(whole);
    return fits;
}

/* The folder and its list. Who else begins a day there at the same time finds the list. */
static int make_list(struct pic_day *day)
{
    char list[PIC_DAY_PATH], parent[PIC_DAY_PATH];
    day->made = mkdir(day->folder, 0777) == 0;
    if (!day->made && errno != EEXIST) {
        return PIC_FILE;
    }
    if (!whole_name(day->folder) || !name_in(day->folder, "day.list", list) || !name_in(day->folder, "..", parent)) {
        return PIC_FILE;
    }
    int number = vacant(day->folder);
    if (number != PCH_PIC_DONE) {
        return number;
    }
    day->list = open(list, O_WRONLY | O_CREAT | O_EXCL | O_APPEND | O_CLOEXEC, 0666);
    if (day->list < 0) {
        return errno == EEXIST ? PIC_OCCUPIED : PIC_FILE;
    }
    number = append(day, "pch-pic day 1\n");
    return number == PCH_PIC_DONE && (!sync_folder(day->folder) || (day->made && !sync_folder(parent))) ? PIC_FILE : number;
}

/* The trace that is open, at its place in the folder: one that was kept as it went and is as long as planned is there already. Where it is written anew its times are
 * too, since there may be one of a record that was not taken. */
static int put_open(struct pic_day *day, const char *path, const uint8_t *trace, size_t len)
{
    struct pic_recorder *recorder = &day->recorder;
    bool whole = recorder->closed == recorder->planned && recorder->open == 0;
    bool kept = recorder->file != NO_FILE && pic_recorder_end(recorder) == PCH_PIC_DONE;
    if (kept && whole) {
        return PCH_PIC_DONE;
    }
    int number = recorder->clock != NULL ? pic_recorder_save_times(recorder, path) : PCH_PIC_DONE;
    return number == PCH_PIC_DONE ? pic_replace(path, trace, len) : number;
}

/* Whoever has put a file there may want it, and a link would lead out of the folder. */
int pic_day_place(struct pic_day *day, char path[PIC_DAY_PATH])
{
    char file[PIC_DAY_PATH + 8];
    struct stat found;
    if (!pic_day_name(day->folder, day->traces + 1, path)) {
        return PIC_FILE;
    }
    for (size_t i = 0; !day->ours && i < BESIDE; i++) {
        snprintf(file, sizeof file, "%s%s", path, beside[i]);
        bool there = lstat(file, &found) == 0;
        if (there || errno != ENOENT) {
            return there ? PIC_OCCUPIED : PIC_FILE;
        }
    }
    day->ours = true;
    return PCH_PIC_DONE;
}

/* Its line, once it is on the disk. */
static int list_trace(struct pic_day *day, const uint8_t *trace, size_t len)
{
    char line[PIC_DIGEST_LEN + 32], digest[PIC_DIGEST_LEN + 1];
    size_t records = pic_trace_records(trace);
    pic_digest(trace, len, digest);
    snprintf(line, sizeof line, "%05u %zu %s\n", day->traces + 1, records, digest);
    int number = append(day, line);
    if (number == PCH_PIC_DONE) {
        day->traces++;
        day->records += records;
        day->ours = false;
    }
    return number;
}

int pic_day_put(struct pic_day *day, const char *path, const uint8_t *trace, size_t len, const uint8_t *times)
{
    char file[PIC_DAY_PATH + 8];
    snprintf(file, sizeof file, "%s.times", path);
    int number = times != NULL ? pic_replace(file, times, TIME_LEN * pic_trace_records(trace)) : PCH_PIC_DONE;
    number = number == PCH_PIC_DONE ? pic_replace(path, trace, len) : number;
    return number == PCH_PIC_DONE ? list_trace(day, trace, len) : number;
}

/* The files of a trace that got no record, or could not be put there; errno stays where they are gone. */
static int take_away(struct pic_day *day, const char *path)
{
    char times[PIC_DAY_PATH + 8];
    int why = errno;
    snprintf(times, sizeof times, "%s.times", path);
    pic_recorder_end(&day->recorder);
    if (day->ours && ((unlink(path) != 0 && errno != ENOENT) || (unlink(times) != 0 && errno != ENOENT))) {
        return PIC_FILE;
    }
    day->ours = false;
    errno = why;
    return PCH_PIC_DONE;
}

/* Ends the open trace; the recorder then has no room, and asks for more. */
static int end_trace(struct pic_day *day)
{
    uint8_t trace[PCH_PIC_TRACE_MAX];
    char path[PIC_DAY_PATH];
    size_t len = 0;
    int number;
    if (day->failed != PCH_PIC_DONE) {
        errno = day->error;
        return day->failed;
    }
    if (!day->open) {
        return PCH_PIC_DONE;
    }
    if (!pic_day_name(day->folder, day->traces + 1, path)) {
        return PIC_FILE;
    }
    if (day->recorder.count == 0) {
        number = take_away(day, path);
    } else {
        number = pic_day_place(day, path);
        number = number == PCH_PIC_DONE ? pic_recorder_finish(&day->recorder, trace, &len) : number;
        number = number == PCH_PIC_DONE ? put_open(day, path, trace, len) : number;
        number = number == PCH_PIC_DONE ? list_trace(day, trace, len) : number;
    }
    if (number == PCH_PIC_DONE) {
        day->open = false;
        day->recorder.most = day->recorder.count;
    }
    return number;
}

/* Begins a trace; where that fails the recorder has no room, and may ask again. */
static int begin_trace(void *of)
{
    struct pic_day *day = of;
    struct pic_recorder *recorder = &day->recorder;
    char path[PIC_DAY_PATH];
    int number = end_trace(day);
    if (number != PCH_PIC_DONE || day->traces == PIC_DAY_TRACES_MAX) {
        return number != PCH_PIC_DONE ? number : PIC_FULL;
    }
    number = pic_day_place(day, path);
    if (number != PCH_PIC_DONE) {
        return number;
    }
    pic_recorder_next(recorder);
    if (recorder->planned != 0) {
        number = pic_recorder_keep(recorder, path);
        number = number == PCH_PIC_DONE && recorder->clock != NULL ? pic_recorder_keep_times(recorder, path) : number;
    } else {
        day->ours = false; /* nothing stands there until the trace is written, and it is looked at again */
    }
    day->open = number == PCH_PIC_DONE;
    if (!day->open) {
        int why = errno;
        take_away(day, path);
        recorder->most = 0;
        errno = why;
    }
    return number;
}

/* The folder's name without the slashes behind it, and the folder itself. */
static int begin_folder(struct pic_day *day, const char *folder)
{
    size_t len = strlen(folder);
    if (len >= PIC_DAY_PATH) {
        errno = ENAMETOOLONG;
        return PIC_FILE;
    }
    while (len > 1 && folder[len - 1] == '/') {
        len--;
    }
    memcpy(day->folder, folder, len);
    int number = make_list(day);
    if (number != PCH_PIC_DONE) {
        int why = errno;
        pic_day_undo(day);
        errno = why;
    }
    return number;
}

/* A day that did not begin has no room for a record, and tells why whenever it is asked. */
int pic_day_begin(struct pic_day *day, const char *folder, size_t block)
{
    uint16_t plan[PCH_PIC_BLOCKS_MAX];
    size_t blocks = block == 0 ? 0 : PCH_PIC_RECORDS_MAX / block < PCH_PIC_BLOCKS_MAX ? PCH_PIC_RECORDS_MAX / block : PCH_PIC_BLOCKS_MAX;
    memset(day, 0, sizeof *day);
    day->list = NO_FILE;
    for (size_t i = 0; i < blocks; i++) {
        plan[i] = (uint16_t)block;
    }
    pic_recorder_begin(&day->recorder);
    int number = block == 0 ? PCH_PIC_DONE : pic_recorder_plan(&day->recorder, plan, blocks);
    number = number == PCH_PIC_DONE ? begin_folder(day, folder) : number;
    day->failed = number;
    day->error = errno;
    day->recorder.more = begin_trace;
    day->recorder.more_of = day;
    day->recorder.most = 0;
    return number;
}

int pic_day_next(struct pic_day *day)
{
    return end_trace(day);
}

int pic_day_end(struct pic_day *day)
{
    char line[64];
    int number = end_trace(day);
    if (number != PCH_PIC_DONE || day->list == NO_FILE) {
        return number;
    }
    if (day->traces == 0) {
        return PIC_EMPTY;
    }
    snprintf(line, sizeof line, "end %u %" PRIu64 "\n", day->traces, day->records);
    number = append(day, line);
    if (number != PCH_PIC_DONE) {
        return number;
    }
    day->recorder.more = NULL;
    int list = day->list;
    day->list = NO_FILE;
    return close(list) == 0 ? PCH_PIC_DONE : PIC_FILE;
}

int pic_day_add(struct pic_day *day, const uint8_t *trace, size_t len, const uint8_t *times)
{
    char path[PIC_DAY_PATH];
    bool over = day->failed == PCH_PIC_DONE && day->list == NO_FILE;
    int number = over ? PIC_DAY_OVER : pic_trace_test(trace, len, NULL);
    number = number == PCH_PIC_DONE ? end_trace(day) : number;
    if (number != PCH_PIC_DONE || day->traces == PIC_DAY_TRACES_MAX) {
        return number != PCH_PIC_DONE ? number : PIC_FULL;
    }
    number = pic_day_place(day, path);
    if (number != PCH_PIC_DONE) {
        return number;
    }
    number = pic_day_put(day, path, trace, len, times);
    if (number != PCH_PIC_DONE) {
        take_away(day, path);
    }
    return number;
}

void pic_day_leave(struct pic_day *day)
{
    pic_recorder_end(&day->recorder);
    if (day->list != NO_FILE) {
        close(day->list);
    }
    day->list = NO_FILE;
    day->recorder.more = NULL;
}

void pic_day_undo(struct pic_day *day)
{
    char path[PIC_DAY_PATH], file[PIC_DAY_PATH + 8];
    for (unsigned number = 1; day->list != NO_FILE && number <= day->traces + day->ours; number++) {
        for (size_t i = 0; i < BESIDE && pic_day_name(day->folder, number, path); i++) {
            snprintf(file, sizeof file, "%s%s", path, beside[i]);
            unlink(file);
        }
    }
    if (day->list != NO_FILE && name_in(day->folder, "day.list", path)) {
        unlink(path);
    }
    pic_day_leave(day);
    if (day->made) {
        rmdir(day->folder);
        day->made = false;
    }
}

const char *pic_day_why(int number)
{
    switch (number) {
    case PIC_OCCUPIED: return "there is something in the folder already, and a day is never written over";
    case PIC_NO_DAY: return "the folder has no day, or a damaged one";
    case PIC_INSIDE: return "it is the folder that is read, or inside it";
    case PIC_DAY_OVER: return "the day was ended, and takes no more";
    default: return pic_holes_why(number);
    }
}
