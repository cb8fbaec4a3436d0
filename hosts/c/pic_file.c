/* A device in a file: 8 bytes of magic, the image's length (4 bytes), the image, and a checksum of all before it (4 bytes); numbers have the
 * little end first. What a host keeps with it stands behind the image and counts in the length: of a hoist that is its phase, one byte. The checksum is the usual CRC-32, as in gzip. hosts/rust writes and reads the same files. */
#define _POSIX_C_SOURCE 200809L
#include "pic.h"

#include <errno.h>
#include <fcntl.h>
#include <stdio.h>
#include <string.h>
#include <sys/stat.h>
#include <time.h>
#include <unistd.h>

enum { MAGIC_LEN = 8, HEAD_LEN = MAGIC_LEN + 4, SUM_LEN = 4, MOST_LEN = HEAD_LEN + PCH_PIC_IMAGE2_NUMBERED_LEN + PIC_KEPT_MAX + SUM_LEN, PATH_LEN = 4096 };
enum { MOST_LINKS = 40, MOST_NAMES = 100 };

static const uint8_t magic[MAGIC_LEN] = {'P', 'C', 'H', '-', 'P', 'I', 'C', '\n'};

static uint32_t checksum(const uint8_t *bytes, size_t len)
{
    uint32_t sum = 0xffffffff;
    for (size_t i = 0; i < len; i++) {
        sum ^= bytes[i];
        for (int bit = 0; bit < 8; bit++) {
            sum = sum >> 1 ^ (sum & 1 ? 0xedb88320 : 0);
        }
    }
    return ~sum;
}

static void put(uint8_t *bytes, uint32_t value)
{
    for (int i = 0; i < 4; i++) {
        bytes[i] = (uint8_t)(value >> 8 * i);
    }
}

static uint32_t get(const uint8_t *bytes)
{
    return bytes[0] | (uint32_t)bytes[1] << 8 | (uint32_t)bytes[2] << 16 | (uint32_t)bytes[3] << 24;
}

/* How much of a path is its folder, with the slash behind it. */
static size_t folder_len(const char *path)
{
    const char *slash = strrchr(path, '/');
    return slash ? (size_t)(slash - path) + 1 : 0;
}

/* Where a symbolic link leads, link by link: it stays, and what it names is replaced or made. */
static bool follow(const char *path, char to[PATH_LEN])
{
    char named[PATH_LEN];
    struct stat found;
    size_t len = strlen(path), folder = 0;
    for (int links = 0; links < MOST_LINKS; links++) {
        if (folder + len >= PATH_LEN) {
            errno = ENAMETOOLONG;
            return false;
        }
        memcpy(to + folder, links == 0 ? path : named, len);
        to[folder + len] = 0;
        if (lstat(to, &found) != 0 || !S_ISLNK(found.st_mode)) {
            return true;
        }
        ssize_t got = readlink(to, named, sizeof named);
        if (got <= 0) {
            return false;
        }
        len = (size_t)got;
        folder = named[0] == '/' ? 0 : folder_len(to);
    }
    errno = ELOOP;
    return false;
}

/* A new file beside the path, under a name that no other save has: whatever is there already stays. */
static int open_beside(const char *path, mode_t mode, char beside[PATH_LEN])
{
    for (unsigned turn = 0; turn < MOST_NAMES; turn++) {
        struct timespec now = {0};
        clock_gettime(CLOCK_REALTIME, &now);
        int named = snprintf(beside, PATH_LEN, "%.*s.pch-pic-%ld-%09ld-%u.new", (int)folder_len(path), path, (long)getpid(), now.tv_nsec, turn);
        if (named < 0 || named >= PATH_LEN) {
            errno = ENAMETOOLONG;
            return -1;
        }
        int file = open(beside, O_WRONLY | O_CREAT | O_EXCL | O_CLOEXEC, mode);
        if (file >= 0 || errno != EEXIST) {
            return file;
        }
    }
    return -1;
}

/* Owner and mode are those of the old file. Another's file keeps its owner only where the system lets this process give it away. */
static bool dress(int file, const struct stat *old)
{
    bool given = (old->st_uid == geteuid() && old->st_gid == getegid()) || fchown(file, old->st_uid, old->st_gid) == 0;
    (void)given;
    return fchmod(file, old->st_mode & 0777) == 0;
}

/* These bytes, on the disk. */
static bool write_and_sync(int file, const uint8_t *bytes, size_t len, const struct stat *old)
{
    for (size_t done = 0; done < len;) {
        ssize_t more = write(file, bytes + done, len - done);
        if (more == 0 || (more < 0 && errno != EINTR)) {
            return false;
        }
        done += more > 0 ? (size_t)more : 0;
    }
    return (!old || dress(file, old)) && fsync(file) == 0;
}

/* The new name is on the disk only when the folder is. Some file systems cannot sync a folder, and say so. */
static bool sync_folder(const char *path)
{
    char folder[PATH_LEN] = ".";
    size_t len = folder_len(path);
    if (len != 0) {
        memcpy(folder, path, len);
        folder[len] = 0;
    }
    int opened = open(folder, O_RDONLY | O_DIRECTORY | O_CLOEXEC);
    if (opened < 0) {
        return false;
    }
    bool synced = fsync(opened) == 0 || errno == EINVAL;
    int why = errno;
    close(opened);
    errno = why;
    return synced;
}

/* What failed is taken away; errno stays. */
static int undone(int file, const char *beside)
{
    int why = errno;
    close(file);
    unlink(beside);
    errno = why;
    return -1;
}

/* The bytes go to a file beside the old one, which takes its name only when it is whole and on the disk. Of several saves the last one wins. */
int pic_replace_open(const char *path, const uint8_t *bytes, size_t len)
{
    char whole[PATH_LEN], beside[PATH_LEN];
    struct stat old;
    if (!follow(path, whole)) {
        return -1;
    }
    bool there = stat(whole, &old) == 0;
    /* A device file or a folder is not to be replaced. */
    if (there && !S_ISREG(old.st_mode)) {
        errno = S_ISDIR(old.st_mode) ? EISDIR : EINVAL;
        return -1;
    }
    int file = open_beside(whole, there ? 0600 : 0666, beside);
    if (file < 0) {
        return -1;
    }
    if (!write_and_sync(file, bytes, len, there ? &old : NULL) || rename(beside, whole) != 0) {
        return undone(file, beside);
    }
    if (!sync_folder(whole)) {
        int why = errno;
        close(file);
        errno = why;
        return -1;
    }
    return file;
}

int pic_replace(const char *path, const uint8_t *bytes, size_t len)
{
    int file = pic_replace_open(path, bytes, len);
    return file >= 0 && close(file) == 0 ? PCH_PIC_DONE : PIC_FILE;
}

int pic_save_with(const struct pic *pic, enum pic_form form, const uint8_t *kept, size_t kept_len, const char *path)
{
    uint8_t bytes[MOST_LEN];
    size_t image_len = pic_image(pic, form, bytes + HEAD_LEN), summed = HEAD_LEN + image_len + kept_len;
    if (image_len == 0 || kept_len > PIC_KEPT_MAX) {
        errno = EINVAL;
        return PIC_FILE;
    }
    memcpy(bytes, magic, MAGIC_LEN);
    put(bytes + MAGIC_LEN, (uint32_t)(image_len + kept_len));
    if (kept_len != 0) {
        memcpy(bytes + HEAD_LEN + image_len, kept, kept_len);
    }
    put(bytes + summed, checksum(bytes, summed));
    return pic_replace(path, bytes, summed + SUM_LEN);
}

int pic_save(const struct pic *pic, enum pic_form form, const char *path)
{
    return pic_save_with(pic, form, NULL, 0, path);
}

/* Whether len bytes are a saved device of any length: 0, or what is wrong. */
static int test(const uint8_t *bytes, size_t len)
{
    if (len < MAGIC_LEN || memcmp(bytes, magic, MAGIC_LEN) != 0) {
        return PIC_FOREIGN;
    }
    if (len < HEAD_LEN + SUM_LEN || get(bytes + MAGIC_LEN) != len - HEAD_LEN - SUM_LEN) {
        return PIC_TORN;
    }
    return get(bytes + len - SUM_LEN) == checksum(bytes, len - SUM_LEN) ? PCH_PIC_DONE : PIC_DAMAGED;
}

/* A device stands in a plain file: nothing else is waited for. */
static int open_plain(const char *path)
{
    struct stat found = {0};
    int file = open(path, O_RDONLY | O_NONBLOCK | O_CLOEXEC);
    if (file < 0 || (fstat(file, &found) == 0 && S_ISREG(found.st_mode))) {
        return file;
    }
    close(file);
    errno = S_ISDIR(found.st_mode) ? EISDIR : EINVAL;
    return -1;
}

/* More is asked for than a device has, so that a longer file is seen. */
int pic_load_with(struct pic *pic, uint8_t *kept, size_t kept_len, const char *path, uint64_t *place)
{
    uint8_t bytes[4096];
    size_t len = 0;
    ssize_t more = 1;
    int file = open_plain(path);
    if (file < 0) {
        return PIC_FILE;
    }
    while (len < sizeof bytes && (more > 0 || (more < 0 && errno == EINTR))) {
        more = read(file, bytes + len, sizeof bytes - len);
        len += more > 0 ? (size_t)more : 0;
    }
    int why = errno;
    close(file);
    if (more < 0) {
        errno = why;
        return PIC_FILE;
    }
    int number = test(bytes, len);
    if (number != PCH_PIC_DONE) {
        return number;
    }
    size_t all = len - HEAD_LEN - SUM_LEN, image_len = all > kept_len ? all - kept_len : 0;
    number = pic_take(pic, bytes + HEAD_LEN, image_len, place);
    if (number == PCH_PIC_DONE && kept_len != 0) {
        memcpy(kept, bytes + HEAD_LEN + image_len, kept_len);
    }
    return number;
}

int pic_load(struct pic *pic, const char *path, uint64_t *place)
{
    return pic_load_with(pic, NULL, 0, path, place);
}
