/* The list of a trace's holes, a text beside it:
 *     Holes of a salvaged trace. Behind the first of them no number is the day's.
 *     SHA-256 of the trace: ..
 *     at record 64: records 64 to 75 of the day are missing (block 1, whose record 0 is bad)
 * The digest ties it to its trace. hosts/rust writes and reads the same. */
#define _POSIX_C_SOURCE 200809L
#include "holes.h"

#include <errno.h>
#include <stdio.h>
#include <string.h>
#include <unistd.h>

enum { PATH_LEN = 4096, LINE_MOST = 2 * PIC_TEXT_LEN, LIST_MAX = (PCH_PIC_BLOCKS_MAX + 2) * LINE_MOST };

static const char head[] = "Holes of a salvaged trace. Behind the first of them no number is the day's.\n";
static const char of_trace[] = "SHA-256 of the trace: ";

/* The 64 round constants of SHA-256. */
static const uint32_t rounds[64] = {
    0x428a2f98, 0x71374491, 0xb5c0fbcf, 0xe9b5dba5, 0x3956c25b, 0x59f111f1, 0x923f82a4, 0xab1c5ed5, 0xd807aa98, 0x12835b01, 0x243185be, 0x550c7dc3, 0x72be5d74,
    0x80deb1fe, 0x9bdc06a7, 0xc19bf174, 0xe49b69c1, 0xefbe4786, 0x0fc19dc6, 0x240ca1cc, 0x2de92c6f, 0x4a7484aa, 0x5cb0a9dc, 0x76f988da, 0x983e5152, 0xa831c66d,
    0xb00327c8, 0xbf597fc7, 0xc6e00bf3, 0xd5a79147, 0x06ca6351, 0x14292967, 0x27b70a85, 0x2e1b2138, 0x4d2c6dfc, 0x53380d13, 0x650a7354, 0x766a0abb, 0x81c2c92e,
    0x92722c85, 0xa2bfe8a1, 0xa81a664b, 0xc24b8b70, 0xc76c51a3, 0xd192e819, 0xd6990624, 0xf40e3585, 0x106aa070, 0x19a4c116, 0x1e376c08, 0x2748774c, 0x34b0bcb5,
    0x391c0cb3, 0x4ed8aa4a, 0x5b9cca4f, 0x682e6ff3, 0x748f82ee, 0x78a5636f, 0x84c87814, 0x8cc70208, 0x90befffa, 0xa4506ceb, 0xbef9a3f7, 0xc67178f2};

static uint32_t turned(uint32_t word, int by)
{
    return word >> by | word << (32 - by);
}

/* The words of a block of 64 bytes, and the 48 that follow from them. */
static void spread(const uint8_t *bytes, uint32_t words[64])
{
    for (int i = 0; i < 64; i++) {
        if (i < 16) {
            words[i] = (uint32_t)bytes[4 * i] << 24 | (uint32_t)bytes[4 * i + 1] << 16 | (uint32_t)bytes[4 * i + 2] << 8 | bytes[4 * i + 3];
        } else {
            uint32_t a = words[i - 15], b = words[i - 2];
            words[i] = words[i - 16] + (turned(a, 7) ^ turned(a, 18) ^ a >> 3) + words[i - 7] + (turned(b, 17) ^ turned(b, 19) ^ b >> 10);
        }
    }
}

static void mix(uint32_t sum[8], const uint8_t *bytes)
{
    uint32_t words[64], s[8];
    spread(bytes, words);
    memcpy(s, sum, sizeof s);
    for (int i = 0; i < 64; i++) {
        uint32_t one = s[7] + (turned(s[4], 6) ^ turned(s[4], 11) ^ turned(s[4], 25)) + ((s[4] & s[5]) ^ (~s[4] & s[6])) + rounds[i] + words[i];
        uint32_t two = (turned(s[0], 2) ^ turned(s[0], 13) ^ turned(s[0], 22)) + ((s[0] & s[1]) ^ (s[0] & s[2]) ^ (s[1] & s[2]));
        memmove(s + 1, s, 7 * sizeof s[0]);
        s[4] += one;
        s[0] = one + two;
    }
    for (int i = 0; i < 8; i++) {
        sum[i] += s[i];
    }
}

/* The last bytes, a one, zeros, and the length in bits make one block or two. */
static void finish(uint32_t sum[8], const uint8_t *bytes, size_t left, uint64_t len)
{
    uint8_t last[128] = {0};
    size_t end = left < 56 ? 64 : 128;
    memcpy(last, bytes, left);
    last[left] = 0x80;
    for (size_t i = 0; i < 8; i++) {
        last[end - 1 - i] = (uint8_t)(8 * len >> 8 * i);
    }
    mix(sum, last);
    if (end == 128) {
        mix(sum, last + 64);
    }
}

void pic_digest(const uint8_t *bytes, size_t len, char text[PIC_DIGEST_LEN + 1])
{
    uint32_t sum[8] = {0x6a09e667, 0xbb67ae85, 0x3c6ef372, 0xa54ff53a, 0x510e527f, 0x9b05688c, 0x1f83d9ab, 0x5be0cd19};
    size_t at = 0;
    for (; len - at >= 64; at += 64) {
        mix(sum, bytes + at);
    }
    finish(sum, bytes + at, len - at, len);
    for (int i = 0; i < 8; i++) {
        snprintf(text + 8 * i, 9, "%08lx", (unsigned long)sum[i]);
    }
}

void pic_hole_text(const struct pic_hole *hole, char text[2 * PIC_TEXT_LEN])
{
    int len = snprintf(text, LINE_MOST, "at record %zu: records %zu to %zu of the day are missing", hole->at, hole->first, hole->last);
    if (hole->why[0] != 0) {
        snprintf(text + len, (size_t)(LINE_MOST - len), " (%s)", hole->why);
    }
}

/* A line of the list; false where it is none. */
static bool read_hole(const char *line, struct pic_hole *hole)
{
    char text[LINE_MOST];
    memset(hole, 0, sizeof *hole);
    int got = sscanf(line, "at record %9zu: records %9zu to %9zu of the day are missing (%159[^)\n])", &hole->at, &hole->first, &hole->last, hole->why);
    if (got < 3 || hole->last < hole->first || hole->last > 1000000000) {
        return false;
    }
    pic_hole_text(hole, text);
    return strcmp(text, line) == 0;
}

/* The name of the list. */
static bool beside(const char *path, char list[PATH_LEN])
{
    int len = snprintf(list, PATH_LEN, "%s.holes", path);
    errno = ENAMETOOLONG;
    return len > 0 && len < PATH_LEN;
}

/* The text of a list; PIC_FILE, with ENOENT in errno, where there is none. A file that is longer than any list is none. */
static int read_list(const char *list, char text[LIST_MAX + 1])
{
    FILE *file = fopen(list, "rb");
    if (file == NULL) {
        return PIC_FILE;
    }
    size_t len = fread(text, 1, LIST_MAX, file);
    bool failed = ferror(file) != 0;
    int why = errno;
    fclose(file);
    errno = why;
    text[len] = 0;
    bool ours = strlen(text) == len && strncmp(text, head, sizeof head - 1) == 0;
    return failed ? PIC_FILE : ours ? PCH_PIC_DONE : PIC_NO_LIST;
}

/* The holes of a list come one after another, in the trace and in the day. */
static bool read_holes(char *lines, size_t records, struct pic_holes *holes)
{
    size_t before = 0, lost = 0;
    for (char *line = strtok(lines, "\n"); line != NULL; line = strtok(NULL, "\n")) {
        struct pic_hole *hole = &holes->of[holes->count];
        if (holes->count == PCH_PIC_BLOCKS_MAX || !read_hole(line, hole) || hole->at < before || hole->at > records || hole->first != hole->at + lost) {
            return false;
        }
        before = hole->at;
        lost += hole->last - hole->first + 1;
        holes->count++;
    }
    return holes->count > 0;
}

int pic_holes_load(const char *path, const uint8_t *trace, size_t len, struct pic_holes *holes)
{
    static char text[LIST_MAX + 1];
    char list[PATH_LEN], digest[PIC_DIGEST_LEN + 1];
    holes->count = 0;
    if (!beside(path, list)) {
        return PIC_FILE;
    }
    int number = read_list(list, text);
    if (number == PIC_FILE && (errno == ENOENT || errno == ENOTDIR)) {
        return PCH_PIC_DONE;
    }
    if (number != PCH_PIC_DONE) {
        return number;
    }
    char *second = text + sizeof head - 1, *lines = second + sizeof of_trace - 1 + PIC_DIGEST_LEN;
    if (strncmp(second, of_trace, sizeof of_trace - 1) != 0 || strlen(second) < sizeof of_trace + PIC_DIGEST_LEN || lines[0] != '\n') {
        return PIC_NO_LIST;
    }
    pic_digest(trace, len, digest);
    if (strncmp(second + sizeof of_trace - 1, digest, PIC_DIGEST_LEN) != 0) {
        return PIC_OTHER_TRACE;
    }
    return read_holes(lines, pic_trace_records(trace), holes) ? PCH_PIC_DONE : PIC_NO_LIST;
}

static size_t write_list(const struct pic_salvaged *kept, const struct pic_holes *holes, char text[LIST_MAX])
{
    char line[LINE_MOST], digest[PIC_DIGEST_LEN + 1];
    pic_digest(kept->trace, kept->len, digest);
    int len = snprintf(text, LIST_MAX, "%s%s%s\n", head, of_trace, digest);
    for (size_t hole = 0; hole < holes->count; hole++) {
        pic_hole_text(&holes->of[hole], line);
        len += snprintf(text + len, (size_t)(LIST_MAX - len), "%s\n", line);
    }
    return (size_t)len;
}

/* Puts an old list back, or takes the new one away; errno stays. */
static int put_back(const char *list, const char *old)
{
    int why = errno;
    if (old[0] == 0) {
        unlink(list);
    } else {
        pic_replace(list, (const uint8_t *)old, strlen(old));
    }
    errno = why;
    return PIC_FILE;
}

/* The list goes first: a trace that has holes never stands without one. */
int pic_holes_save(const char *path, const struct pic_salvaged *kept, const struct pic_holes *holes)
{
    static char old[LIST_MAX + 1], text[LIST_MAX];
    char list[PATH_LEN];
    if (!beside(path, list)) {
        return PIC_FILE;
    }
    old[0] = 0;
    int number = read_list(list, old);
    if (number == PIC_NO_LIST || (number == PIC_FILE && errno != ENOENT)) {
        return number == PIC_FILE && errno == ENOTDIR ? pic_salvaged_save(kept, path) : number;
    }
    if (holes->count == 0) {
        int saved = pic_salvaged_save(kept, path);
        return saved == PCH_PIC_DONE && number == PCH_PIC_DONE && unlink(list) != 0 ? PIC_FILE : saved;
    }
    if (pic_replace(list, (const uint8_t *)text, write_list(kept, holes, text)) != PCH_PIC_DONE) {
        return PIC_FILE;
    }
    return pic_salvaged_save(kept, path) == PCH_PIC_DONE ? PCH_PIC_DONE : put_back(list, old);
}

const char *pic_holes_why(int number)
{
    switch (number) {
    case PIC_NO_LIST: return "it is no list of holes";
    case PIC_OTHER_TRACE: return "it is the list of another trace, so where this one has holes is not known";
    default: return pic_recorder_why(number);
    }
}
