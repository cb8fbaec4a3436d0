/* What stands in a file when several save it, when a save is killed, and what a save leaves alone.
 *     savers FOLDER               the tests of the gate, with its files in FOLDER, which is empty; the last line is 'N passed, M failed'
 *     savers --kill COUNT FOLDER [PROGRAM]  four savers and a reader, and so many of the savers killed as they save; with PROGRAM, the path of an example
 *                                 load_sample, two of them are that program
 *     savers --bytes FOLDER       a saved device with every other value at every byte, and of every other length
 *     savers --threads FOLDER     32 threads that load one file while two save it */
#define _XOPEN_SOURCE 700
#include "hoist.h"
#include "recorder.h"

#include <dirent.h>
#include <errno.h>
#include <fcntl.h>
#include <pthread.h>
#include <signal.h>
#include <stdio.h>
#include <stdlib.h>
#include <string.h>
#include <sys/stat.h>
#include <sys/wait.h>
#include <time.h>
#include <unistd.h>

enum { BASE = 0x10000000, PATH_LEN = 4096, SAVERS = 4, SAVES = 25, READERS = 32, SAVED_LEN = 12 + PCH_PIC_IMAGE2_NUMBERED_LEN + 4 };

static int passed, failed;
static const char *folder;

static void expect(const char *what, bool ok)
{
    if (ok) {
        passed++;
    } else {
        failed++;
        printf("FAILED: %s\n", what);
    }
}

/* A path in the folder, good until the fourth one after it. */
static const char *in_folder(const char *name)
{
    static char paths[4][PATH_LEN];
    static unsigned at;
    at = (at + 1) % 4;
    snprintf(paths[at], PATH_LEN, "%s/%s", folder, name);
    return paths[at];
}

/* A device that says who saved it: input 0 has that vector. */
static bool save(const char *path, unsigned who)
{
    struct pic pic;
    return pic_init(&pic, BASE) == PCH_PIC_DONE && pic_write(&pic, BASE + PCH_PIC_REG_VECTORS, 1, who, NULL) == PCH_PIC_DONE &&
           pic_save(&pic, PIC_FORM_NUMBERED, path) == PCH_PIC_DONE;
}

/* Who saved it last; -1 where it cannot be loaded. */
static int saver_of(const char *path)
{
    struct pic pic;
    return pic_init(&pic, BASE) == PCH_PIC_DONE && pic_load(&pic, path, NULL) == PCH_PIC_DONE ? pic_vector(&pic, 0) : -1;
}

static bool has_text(const char *path, const char *text)
{
    char got[64] = {0};
    FILE *file = fopen(path, "rb");
    return file && fread(got, 1, sizeof got - 1, file) == strlen(text) && fclose(file) == 0 && strcmp(got, text) == 0;
}

static void put_bytes(const char *path, const void *bytes, size_t len)
{
    FILE *file = fopen(path, "wb");
    if (!file || fwrite(bytes, 1, len, file) != len || fclose(file) != 0) {
        perror(path);
        exit(2);
    }
}

static unsigned mode_of(const char *path)
{
    struct stat found;
    return lstat(path, &found) == 0 ? found.st_mode & 07777 : 0;
}

/* How many files of saves that did not end stand in the folder; take takes them away. */
static unsigned left_over(bool take)
{
    unsigned count = 0;
    DIR *all = opendir(folder);
    for (struct dirent *one; all && (one = readdir(all));) {
        if (strncmp(one->d_name, ".pch-pic-", 9) == 0) {
            count++;
            char path[PATH_LEN];
            snprintf(path, sizeof path, "%s/%s", folder, one->d_name);
            if (take) {
                unlink(path);
            }
        }
    }
    if (all) {
        closedir(all);
    }
    return count;
}

static void what_stays(void)
{
    const char *path = in_folder("device"), *beside = in_folder("device.new");
    put_bytes(beside, "mine", 4);
    expect("a file of the user's beside it stays", save(path, 1) && has_text(beside, "mine") && saver_of(path) == 1);
    expect("so does a folder", unlink(beside) == 0 && mkdir(beside, 0700) == 0 && save(path, 2) && rmdir(beside) == 0 && saver_of(path) == 2);
    umask(027);
    expect("a new file has the mode that is usual here", unlink(path) == 0 && save(path, 3) && mode_of(path) == 0640);
    umask(022);
    expect("an old one keeps its own", chmod(path, 0604) == 0 && save(path, 4) && mode_of(path) == 0604);
    expect("also a narrow one", chmod(path, 0400) == 0 && save(path, 5) && mode_of(path) == 0400);
    if (geteuid() == 0) {
        struct stat found;
        expect("and its owner", chown(path, 7, 8) == 0 && save(path, 6) && stat(path, &found) == 0 && found.st_uid == 7 && found.st_gid == 8);
    }
    expect("nothing is left beside it", unlink(path) == 0 && left_over(false) == 0);
}

static bool links_to(const char *path, const char *target)
{
    char got[PATH_LEN] = {0};
    return readlink(path, got, sizeof got - 1) > 0 && strcmp(got, target) == 0;
}

static void links(void)
{
    const char *path = in_folder("apart/device"), *link = in_folder("link"), *second = in_folder("second");
    mkdir(in_folder("apart"), 0700);
    expect("a link is followed", symlink("apart/device", link) == 0 && save(link, 1) && links_to(link, "apart/device") && saver_of(path) == 1);
    expect("and so a link to a link", symlink("link", second) == 0 && save(second, 2) && links_to(second, "link") && saver_of(path) == 2);
    path = in_folder("apart/device");
    expect("what it names is made", unlink(path) == 0 && save(link, 3) && saver_of(path) == 3 && links_to(link, "apart/device"));
    unlink(path);
    unlink(link);
    unlink(second);
    expect("links that go round are refused", symlink("round", in_folder("round")) == 0 && !save(in_folder("round"), 4) && errno == ELOOP);
    unlink(in_folder("round"));
    expect("nothing else is left", rmdir(in_folder("apart")) == 0 && left_over(false) == 0);
}

/* A hoist in one phase and then in the other; and what has no phase is not taken for what has one. */
static void phases(void)
{
    const char *path = in_folder("hoist");
    struct hoist hoist, loaded;
    struct pic pic;
    bool done = hoist_init(&hoist, BASE) == PCH_PIC_DONE && hoist_init(&loaded, BASE) == PCH_PIC_DONE && pic_init(&pic, BASE) == PCH_PIC_DONE;
    expect("a hoist in start-up is saved", done && hoist_save(&hoist, PIC_FORM_NUMBERED, path) == PCH_PIC_DONE);
    loaded.phase = 1;
    expect("and is in start-up again", hoist_load(&loaded, path, NULL) == PCH_PIC_DONE && !hoist_running(&loaded));
    expect("so is one that runs", hoist_end_startup(&hoist) == PCH_PIC_DONE && hoist_save(&hoist, PIC_FORM_2, path) == PCH_PIC_DONE &&
                                      hoist_load(&loaded, path, NULL) == PCH_PIC_DONE && hoist_running(&loaded) &&
                                      memcmp(loaded.pic.image, hoist.pic.image, sizeof hoist.pic.image) == 0);
    expect("its file is no device's", pic_load(&pic, path, NULL) == PCH_PIC_LENGTH);
    for (unsigned asked = 2; asked <= PIC_KEPT_MAX; asked++) {
        uint8_t kept[PIC_KEPT_MAX] = {0};
        int number = pic_load_with(&pic, kept, asked, path, NULL);
        done = done && (number == PCH_PIC_LENGTH || number == PCH_PIC_CONTENTS) && kept[0] == 0;
    }
    expect("nor is it loaded with more", done);
    loaded.phase = 0;
    expect("nor is a device's file a hoist's", save(path, 1) && hoist_load(&loaded, path, NULL) == PCH_PIC_LENGTH && !hoist_running(&loaded) && unlink(path) == 0);
}

/* A load that does not come back is ended by its alarm, and so the program. */
static void no_plain_file(void)
{
    const char *path = in_folder("fifo");
    char name[256];
    memset(name, 'n', 255);
    name[255] = 0;
    alarm(20);
    expect("a pipe is not loaded", mkfifo(path, 0600) == 0 && saver_of(path) == -1 && errno == EINVAL);
    expect("nor replaced", !save(path, 1) && errno == EINVAL && unlink(path) == 0);
    expect("nor is a device loaded", saver_of("/dev/null") == -1 && errno == EINVAL && saver_of("/dev/zero") == -1 && errno == EINVAL);
    /* Of the system's own devices none is saved over: where that is broken, root would lose it. A socket is no plain file either. */
    path = in_folder("socket");
    expect("nor is a socket replaced", mknod(path, S_IFSOCK | 0600, 0) == 0 && !save(path, 1) && errno == EINVAL && unlink(path) == 0);
    expect("nor a folder", saver_of(folder) == -1 && errno == EISDIR && !save(folder, 1) && errno == EISDIR);
    expect("a name of 255 bytes is saved", save(in_folder(name), 1) && saver_of(in_folder(name)) == 1 && unlink(in_folder(name)) == 0);
    alarm(0);
}

static pid_t begin_saver(const char *path, unsigned who, unsigned saves)
{
    pid_t child = fork();
    if (child == 0) {
        bool done = true;
        for (unsigned i = 0; saves == 0 || i < saves; i++) {
            done = save(path, who) && done;
        }
        _exit(!done);
    }
    return child;
}

static void side_by_side(void)
{
    const char *path = in_folder("device");
    bool saved = save(path, 0), whole = true;
    unsigned running = SAVERS;
    for (unsigned who = 1; who <= SAVERS; who++) {
        begin_saver(path, who, SAVES);
    }
    while (running > 0) {
        int status = 0, who = saver_of(path);
        whole = whole && who >= 0 && who <= SAVERS;
        if (waitpid(-1, &status, WNOHANG) > 0) {
            running--;
            saved = saved && WIFEXITED(status) && WEXITSTATUS(status) == 0;
        }
    }
    expect("of four that save one file, each save is done", saved);
    expect("and at any time the file is whole", whole && saver_of(path) > 0);
    expect("and nothing is left beside it", unlink(path) == 0 && left_over(false) == 0);
}

/* Whether the day of two records that stands at the path, if one does, is as long as planned and of one recorder alone. A load that is held up between the two
 * records may find the second without the first. Read before the first, the second never is without it, since it was written after it. */
static bool of_one_recorder(const char *path)
{
    enum { AT = PCH_PIC_TRACE_ENTRIES + PCH_PIC_BLOCK_LEN, LEN = AT + 2 * PCH_PIC_RECORD_LEN, FIRST = AT + PCH_PIC_RECORD_BYTE, SECOND = FIRST + PCH_PIC_RECORD_LEN };
    static uint8_t trace[PCH_PIC_TRACE_MAX];
    uint8_t first = 0, second = 0;
    size_t len = 0;
    bool one = pic_trace_load(path, trace, &len) != PCH_PIC_DONE ||
               (len == LEN && (trace[FIRST] == trace[SECOND] || trace[FIRST] == 0 || trace[SECOND] == 0));
    int file = open(path, O_RDONLY);
    if (file >= 0) {
        one = one && pread(file, &second, 1, SECOND) == 1 && pread(file, &first, 1, FIRST) == 1 && (first == second || second == 0);
        close(file);
    }
    return one;
}

/* Two that keep a day of two records under one name, each with an input of its own: no file ever has a record of both. */
static void keepers(void)
{
    const char *path = in_folder("day");
    bool right = true, apart = true;
    unsigned running = 2;
    for (unsigned who = 1; who <= 2; who++) {
        if (fork() == 0) {
            static struct pic_recorder recorder;
            const uint16_t plan[1] = {2};
            for (unsigned day = 0; day < 4 * SAVES; day++) {
                pic_recorder_begin(&recorder);
                right = pic_recorder_plan(&recorder, plan, 1) == PCH_PIC_DONE && pic_recorder_keep(&recorder, path) == PCH_PIC_DONE && right;
                right = pic_recorder_raise(&recorder, who) == PCH_PIC_DONE && pic_recorder_raise(&recorder, who) == PCH_PIC_DONE && right;
                right = pic_recorder_end(&recorder) == PCH_PIC_DONE && right;
            }
            _exit(!right);
        }
    }
    while (running > 0) {
        int status = 0;
        apart = apart && of_one_recorder(path);
        if (waitpid(-1, &status, WNOHANG) > 0) {
            running--;
            right = right && WIFEXITED(status) && WEXITSTATUS(status) == 0;
        }
    }
    expect("of two recorders that keep one file, each keeps its day", right);
    expect("and writes in no other's", apart && unlink(path) == 0 && left_over(false) == 0);
}

/* One that saves for ever, or a program that saves once what another file holds. */
static pid_t begin_any(const char *path, unsigned who, const char *from, const char *program)
{
    if (program == NULL || who % 2 == 0) {
        return begin_saver(path, who, 0);
    }
    pid_t child = fork();
    if (child == 0) {
        execl(program, program, "--form", "numbered", from, path, (char *)NULL);
        _exit(1);
    }
    return child;
}

/* Each is killed at some moment of its saves, and another begins. One that had ended by itself does not count. */
static void killed(unsigned kills, const char *program)
{
    const char *path = in_folder("device"), *from = in_folder("from");
    pid_t savers[SAVERS];
    unsigned lost = 0, failures = 0, done = 0;
    bool begun = save(path, 9) && save(from, 8);
    for (unsigned who = 0; who < SAVERS; who++) {
        savers[who] = begin_any(path, who, from, program);
    }
    while (done < kills) {
        struct timespec while_saving = {0, 100000 + rand() % 3000000};
        unsigned who = (unsigned)rand() % SAVERS;
        int status = 0;
        nanosleep(&while_saving, NULL);
        kill(savers[who], SIGKILL);
        waitpid(savers[who], &status, 0);
        done += WIFSIGNALED(status);
        failures += WIFEXITED(status) && WEXITSTATUS(status) != 0;
        lost += saver_of(path) < 0;
        savers[who] = begin_any(path, who, from, program);
    }
    for (unsigned who = 0; who < SAVERS; who++) {
        kill(savers[who], SIGKILL);
        waitpid(savers[who], NULL, 0);
    }
    lost += saver_of(path) < 0;
    unsigned left = left_over(true);
    expect("a save that is killed loses nothing", begun && lost == 0);
    expect("and hinders no other", failures == 0);
    expect("and leaves one file at most", left <= kills + SAVERS && left_over(false) == 0);
    expect("the next save is done", save(path, 1) && saver_of(path) == 1 && unlink(path) == 0 && unlink(from) == 0);
    if (kills >= 100) {
        printf("%u savers killed, %u files lost, %u left beside it\n", kills, lost, left);
    }
}

static void every_byte(void)
{
    const char *path = in_folder("device");
    uint8_t saved[SAVED_LEN + 1] = {0};
    unsigned taken = 0, tried = 0;
    save(path, 1);
    FILE *file = fopen(path, "rb");
    expect("a device is saved", file && fread(saved, 1, sizeof saved, file) == SAVED_LEN && fclose(file) == 0);
    for (size_t place = 0; place < SAVED_LEN; place++) {
        uint8_t right = saved[place];
        for (unsigned other = 1; other < 256; other++, tried++) {
            saved[place] = (uint8_t)(right ^ other);
            put_bytes(path, saved, SAVED_LEN);
            taken += saver_of(path) >= 0;
        }
        saved[place] = right;
    }
    for (size_t len = 0; len <= sizeof saved; len++, tried++) {
        put_bytes(path, saved, len);
        taken += len != SAVED_LEN && saver_of(path) >= 0;
    }
    printf("%u damaged files, %u of them loaded\n", tried, taken);
    expect("no damaged file is loaded", taken == 0 && unlink(path) == 0);
}

static volatile bool over;

static void *load_on(void *path)
{
    unsigned long loads = 0, bad = 0;
    while (!over) {
        bad += saver_of(path) < 0;
        loads++;
    }
    return (void *)(bad == 0 ? loads : 0);
}

static void *save_on(void *path)
{
    unsigned long saves = 0, bad = 0;
    while (saves < 500) {
        bad += !save(path, (unsigned)saves % 256);
        saves++;
    }
    return (void *)(bad == 0 ? saves : 0);
}

static void threads(void)
{
    char path[PATH_LEN];
    pthread_t readers[READERS], savers[2];
    void *count;
    bool right = true;
    unsigned long loads = 0;
    snprintf(path, sizeof path, "%s/device", folder);
    right = save(path, 1);
    for (unsigned i = 0; i < READERS; i++) {
        right = pthread_create(&readers[i], NULL, load_on, path) == 0 && right;
    }
    for (unsigned i = 0; i < 2; i++) {
        right = pthread_create(&savers[i], NULL, save_on, path) == 0 && right;
    }
    for (unsigned i = 0; i < 2; i++) {
        right = pthread_join(savers[i], &count) == 0 && count != NULL && right;
    }
    over = true;
    for (unsigned i = 0; i < READERS; i++) {
        right = pthread_join(readers[i], &count) == 0 && count != NULL && right;
        loads += (unsigned long)count;
    }
    printf("%d threads loaded it %lu times while two saved it\n", READERS, loads);
    expect("every load and every save is done", right && unlink(path) == 0 && left_over(false) == 0);
}

int main(int argc, char **argv)
{
    folder = argc > 3 ? argv[3] : argv[argc - 1];
    if (argc == 2 && argv[1][0] != '-') {
        what_stays();
        links();
        phases();
        no_plain_file();
        side_by_side();
        keepers();
        killed(20, NULL);
    } else if ((argc == 4 || argc == 5) && strcmp(argv[1], "--kill") == 0) {
        killed((unsigned)strtoul(argv[2], NULL, 10), argc == 5 ? argv[4] : NULL);
    } else if (argc == 3 && strcmp(argv[1], "--bytes") == 0) {
        every_byte();
    } else if (argc == 3 && strcmp(argv[1], "--threads") == 0) {
        threads();
    } else {
        fprintf(stderr, "usage: savers FOLDER | savers --kill COUNT FOLDER [PROGRAM] | savers --bytes FOLDER | savers --threads FOLDER\n");
        return 2;
    }
    printf("%d passed, %d failed\n", passed, failed);
    return failed != 0;
}
