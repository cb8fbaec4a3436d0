/* Each call, and each refusal, once, from C, on images of all forms: what is handed back, and which bytes change. Prints
 * 'N passed, M failed' last. */
#include "pch_pic.h"

#include <stdio.h>
#include <string.h>

enum {
    ANSWER = PCH_PIC_ANSWER_LEN,
    GUARD = 8,
    IMAGE = PCH_PIC_IMAGE_LEN,
    IMAGE2 = PCH_PIC_IMAGE2_LEN,
    NUMBERED = PCH_PIC_IMAGE2_NUMBERED_LEN,
    EVENTS = PCH_PIC_EVENTS * PCH_PIC_EVENT_LEN
};

/* The kind of archive that this is built against: the proved one where nothing else is said. */
#ifndef BUILT
#define BUILT PCH_PIC_BUILT_PROVED
#endif

/* What an archive of the header's version says of itself. */
static const char linked[PCH_PIC_LINKED_LEN] = "pch_pic " PCH_PIC_VERSION;

static int passed, failed;

static void expect(const char *what, int ok)
{
    if (ok) {
        passed++;
    } else {
        failed++;
        printf("FAILED: %s\n", what);
    }
}

/* Buffers with a guard behind each: a byte written past the end shows. Of image and events these are lent. */
static uint8_t image[NUMBERED + GUARD], answer[ANSWER + GUARD], events[EVENTS + GUARD];
static size_t image_len = IMAGE, events_len = 8;

static void guard(void)
{
    memset(image + image_len, 0xa5, GUARD);
    memset(answer, 0x5a, sizeof answer);
    memset(events, 0xc3, sizeof events);
}

static int guarded(void)
{
    for (int i = 0; i < GUARD; i++) {
        if (image[image_len + i] != 0xa5 || answer[ANSWER + i] != 0x5a || events[events_len + i] != 0xc3) {
            return 0;
        }
    }
    return 1;
}

/* Whether the answer area says so, and nothing else of it was written. */
static int answers(uint8_t number, uint8_t present, uint64_t value)
{
    uint8_t want[ANSWER] = {0};
    want[0] = number;
    want[1] = present;
    for (int i = 0; i < 8; i++) {
        want[8 + i] = (uint8_t)(value >> (8 * i));
    }
    return memcmp(answer, want, ANSWER) == 0 && guarded();
}

static int untouched(void)
{
    for (size_t i = 0; i < sizeof answer; i++) {
        if (answer[i] != 0x5a) {
            return 0;
        }
    }
    return guarded();
}

/* Whether the number in two bytes of the image is so. */
static int number_at(size_t at, unsigned number)
{
    return image[at] == (number & 0xff) && image[at + 1] == number >> 8;
}

/* A drained event, four bytes. */
static int event_at(size_t at, uint8_t vector, uint8_t flag, unsigned number)
{
    return events[at] == vector && events[at + 1] == flag && events[at + 2] == (number & 0xff) && events[at + 3] == number >> 8;
}

/* Form 2: the same device in 251 bytes. The eight bytes behind them are guarded like the rest. */
static void form_2(void)
{
    uint8_t one[IMAGE], n;

    memset(image, 0x77, sizeof image);
    guard();
    n = pch_pic_reset(image, IMAGE2, answer, ANSWER);
    expect("reset takes any 251 bytes", n == 0 && answers(0, 0, 0) && image[IMAGE2] == 0x77 && image[IMAGE - 1] == 0x77);
    expect("the image says form 2, four bodies", image[0] == 2 && image[1] == 4 && image[3] == 22 && image[5] == 64);
    expect("vector 63 is 63, 8 lower", image[150 + 63] == 63);
    guard();
    n = pch_pic_level(image, IMAGE2, 5, 1, answer, ANSWER);
    expect("a masked input is latched", n == 0 && answers(0, 0, 0) && image[46] == 0x20 && image[54] == 0);
    guard();
    n = pch_pic_write(image, IMAGE2, 0, 0x400, 0x20, 4, 0xffffffdf, answer, ANSWER);
    expect("an unmask puts it into service", n == 0 && answers(0, 1, 0) && image[54] == 0x20 && image[214] == 1 && image[219] == 5 && image[220] == 1);
    guard();
    n = pch_pic_read(image, IMAGE2, 0, 0x400, 0x3a0, 8, answer, ANSWER);
    expect("ISR is read", n == 0 && answers(0, 1, 0x20));
    guard();
    n = pch_pic_table_read(image, IMAGE2, 0, 0x400, 0x3a0, 8, answer, ANSWER);
    expect("by the table too", n == 0 && answers(0, 1, 0x20));
    guard();
    n = pch_pic_table_write(image, IMAGE2, 0, 0x400, 0x23f, 1, 0x2a, answer, ANSWER);
    expect("by the table vector 63 is written, 8 lower", n == 0 && answers(0, 1, 0) && image[150 + 63] == 0x2a);
    guard();
    n = pch_pic_poll(image, IMAGE2, 5, answer, ANSWER);
    expect("a poll of it returns nothing", n == 0 && answers(0, 0, 0));
    expect("it is still form 2, and no byte behind it was written", image[0] == 2 && image[IMAGE2] == 0x77 && image[IMAGE - 1] == 0x77);

    guard();
    memset(one, 0x66, sizeof one);
    n = pch_pic_convert(image, IMAGE2, one, IMAGE, answer, ANSWER);
    expect("form 2 to form 1", n == 0 && answers(0, 0, 0) && one[0] == 1 && one[46] == 0x20 && one[54] == 0x20 && one[62] == 0x20 && one[222] == 1);
    guard();
    n = pch_pic_drain(one, IMAGE, events, 8, 0, answer, ANSWER);
    expect("what waits is drained there", n == 0 && answers(0, 1, 1) && event_at(0, 5, 1, 0) && one[0] == 1);
    guard();
    n = pch_pic_drain(image, IMAGE2, events, 8, 0, answer, ANSWER);
    expect("and here alike", n == 0 && answers(0, 1, 1) && event_at(0, 5, 1, 0) && image[214] == 0 && image[219] == 0);
    memset(image, 0x77, IMAGE);
    guard();
    n = pch_pic_convert(one, IMAGE, image, IMAGE2, answer, ANSWER);
    expect("form 1 to form 2", n == 0 && answers(0, 0, 0) && image[0] == 2 && image[46] == 0x20 && image[54] == 0x20 && image[IMAGE2] == 0x77);
    guard();
    n = pch_pic_convert(image, IMAGE2, one, IMAGE - 1, answer, ANSWER);
    expect("4: the target's length", n == 4 && answers(4, 0, 0) && one[0] == 1);
    guard();
    n = pch_pic_convert(image, IMAGE, one, IMAGE, answer, ANSWER);
    expect("5: form 2 in form 1's length", n == 5 && answers(5, 0, 0) && one[0] == 1);
    image[0] = 9;
    guard();
    n = pch_pic_convert(image, IMAGE2, NULL, 0, answer, ANSWER);
    expect("4 before 5: an empty target", n == 4 && answers(4, 0, 0));
    guard();
    n = pch_pic_convert(image, IMAGE2, one, 0, answer, ANSWER - 1);
    expect("7 before 4, and nothing is written", n == 7 && untouched());
    image[0] = 2;
    image[46] ^= 1;
    guard();
    n = pch_pic_read(image, IMAGE2, 0, 0x400, 0x380, 4, answer, ANSWER);
    expect("there is no 8 in form 2: IRR is what it says", n == 0 && answers(0, 1, 0x21));
    image[214] = 17;
    guard();
    n = pch_pic_poll(image, IMAGE2, 64, answer, ANSWER);
    expect("9 before 3: at the count of form 2", n == 9 && answers(9, 1, 214));
    image[214] = 3;
    image[220 + 2] = 2;
    guard();
    n = pch_pic_convert(image, IMAGE2, one, IMAGE, answer, ANSWER);
    expect("10: the first bad flag, by a conversion too", n == 10 && answers(10, 1, 222) && one[222] == 0);
    image[220 + 2] = 1;
    image[IMAGE2 - 1] = 1;
    guard();
    n = pch_pic_drain(image, IMAGE2, events, 8, 0, answer, ANSWER);
    expect("11: a byte behind those that wait", n == 11 && answers(11, 1, 250));
}

/* Form 2 with numbers, 290 bytes: each event made takes the next number, returned, kept or dropped. */
static void numbered(void)
{
    uint8_t other[NUMBERED], before[NUMBERED], n;
    int same;

    image_len = NUMBERED;
    events_len = EVENTS;
    memset(image, 0x77, sizeof image);
    guard();
    n = pch_pic_reset(image, NUMBERED, answer, ANSWER);
    expect("reset takes any 290 bytes", n == 0 && answers(0, 0, 0));
    expect("the image says form 2, five bodies", image[0] == 2 && image[1] == 5 && image[3] == 27 && image[5] == 64);
    expect("the fifth has 34 bytes at 256", image[22] == 5 && image[23] == 0 && image[24] == 1 && image[25] == 34 && image[26] == 0);
    same = 1;
    for (int i = 256; i < NUMBERED; i++) {
        same = same && image[i] == 0;
    }
    expect("all of them 0", same);
    guard();
    n = pch_pic_level(image, NUMBERED, 5, 1, answer, ANSWER);
    expect("a masked input makes no event", n == 0 && answers(0, 0, 0) && number_at(256, 0));
    guard();
    n = pch_pic_write(image, NUMBERED, 0, 0x400, 0x20, 4, 0xffffffdf, answer, ANSWER);
    expect("the event of an unmask waits with number 0",
           n == 0 && answers(0, 1, 0) && image[219] == 1 && image[224] == 5 && number_at(256, 1) && number_at(258, 0));
    guard();
    n = pch_pic_level(image, NUMBERED, 5, 0, answer, ANSWER);
    expect("the event that is returned has number 1, in bits 16 to 31", n == 0 && answers(0, 1, 0x10005) && number_at(256, 2));
    expect("the vector is the low byte", answer[PCH_PIC_ANSWER_VECTOR] == 5 && answer[PCH_PIC_ANSWER_EVENT_NUMBER] == 1);
    guard();
    n = pch_pic_drain(image, NUMBERED, events, 8, 5, answer, ANSWER);
    expect("three bytes are no room", n == 0 && answers(0, 1, 0) && events[5] == 0xc3 && image[219] == 1);
    guard();
    n = pch_pic_drain(image, NUMBERED, events, 8, 3, answer, ANSWER);
    expect("four are", n == 0 && answers(0, 1, 1) && events[2] == 0xc3 && event_at(3, 5, 1, 0) && events[7] == 0xc3 && image[219] == 0);

    image[256] = image[257] = 0xff;
    guard();
    n = pch_pic_level(image, NUMBERED, 5, 1, answer, ANSWER);
    expect("number 65535", n == 0 && answers(0, 1, 0xffff0005) && number_at(256, 0));
    guard();
    n = pch_pic_level(image, NUMBERED, 5, 0, answer, ANSWER);
    expect("and then 0", n == 0 && answers(0, 1, 5) && number_at(256, 1));
    guard();
    n = pch_pic_table_write(image, NUMBERED, 0, 0x400, 0x20, 4, 0, answer, ANSWER);
    expect("by the table all are unmasked", n == 0 && answers(0, 1, 0));
    guard();
    n = pch_pic_table_read(image, NUMBERED, 0, 0x400, 0x20, 8, answer, ANSWER);
    expect("and MASK is read", n == 0 && answers(0, 1, 0xffffffff00000000));
    same = 1;
    for (uint64_t input = 0; input < 17; input++) {
        guard();
        n = pch_pic_level(image, NUMBERED, input, 1, answer, ANSWER);
        same = same && n == 0 && answers(0, 1, input + ((input + 1) << 16));
    }
    expect("seventeen are raised, numbers 1 to 17", same);
    guard();
    n = pch_pic_write(image, NUMBERED, 0, 0x400, 0x20, 4, 0xffffffff, answer, ANSWER);
    expect("masked at once, one event is dropped, and it has a number too",
           n == 0 && answers(0, 1, 1) && image[219] == 16 && image[220] == 1 && number_at(256, 35));
    expect("18 to 33 wait", number_at(258, 18) && number_at(288, 33));
    guard();
    n = pch_pic_level(image, NUMBERED, 16, 1, answer, ANSWER);
    expect("nothing is returned, and no number is taken", n == 0 && answers(0, 0, 0) && number_at(256, 35));

    memcpy(before, image, NUMBERED);
    guard();
    memset(other, 0x66, sizeof other);
    n = pch_pic_convert(image, NUMBERED, other, NUMBERED, answer, ANSWER);
    expect("290 bytes to 290 is a copy", n == 0 && answers(0, 0, 0) && memcmp(other, image, NUMBERED) == 0);
    guard();
    n = pch_pic_convert(image, NUMBERED, other, IMAGE2, answer, ANSWER);
    expect("to 251 the numbers are lost and nothing else", n == 0 && answers(0, 0, 0) && other[1] == 4 && memcmp(other + 22, image + 27, 229) == 0);
    guard();
    n = pch_pic_convert(other, IMAGE2, image, NUMBERED, answer, ANSWER);
    expect("back they begin with 0",
           n == 0 && answers(0, 0, 0) && number_at(256, 16) && number_at(258, 0) && number_at(288, 15) && memcmp(image, before, 256) == 0);
    guard();
    n = pch_pic_convert(before, NUMBERED, other, IMAGE, answer, ANSWER);
    expect("to 259 too", n == 0 && answers(0, 0, 0) && other[0] == 1 && memcmp(other + 54, before + 51, 205) == 0);
    guard();
    n = pch_pic_drain(other, IMAGE, events, EVENTS, 60, answer, ANSWER);
    expect("there the oldest is 0", n == 0 && answers(0, 1, 1) && event_at(60, 0, 0, 0));
    guard();
    n = pch_pic_drain(other, IMAGE, events, EVENTS, 60, answer, ANSWER);
    expect("and in the next call again", n == 0 && answers(0, 1, 1) && event_at(60, 1, 0, 0));
    other[22] = 0;
    guard();
    n = pch_pic_level(other, IMAGE, 0, 1, answer, ANSWER);
    expect("what is returned comes after the fourteen that wait", n == 0 && answers(0, 1, 14 << 16));

    memcpy(image, before, NUMBERED);
    guard();
    n = pch_pic_drain(image, NUMBERED, events, 32, 0, answer, ANSWER);
    expect("32 bytes take eight", n == 0 && answers(0, 1, 8) && event_at(0, 0, 0, 18) && event_at(28, 7, 0, 25) && events[32] == 0xc3);
    expect("eight wait on with their numbers", image[219] == 8 && number_at(258, 26) && number_at(272, 33) && number_at(274, 0) && number_at(288, 0));
    guard();
    n = pch_pic_drain(image, NUMBERED, events, EVENTS, 0, answer, ANSWER);
    expect("64 bytes take all", n == 0 && answers(0, 1, 8) && event_at(28, 15, 0, 33) && image[219] == 0 && number_at(258, 0) && number_at(256, 35));
    memcpy(image, before, NUMBERED);
    guard();
    n = pch_pic_drain(image, NUMBERED, events, EVENTS, 0, answer, ANSWER);
    expect("sixteen in one drain", n == 0 && answers(0, 1, 16) && event_at(0, 0, 0, 18) && event_at(60, 15, 0, 33));

    image[NUMBERED - 1] = 1;
    guard();
    n = pch_pic_poll(image, NUMBERED, 64, answer, ANSWER);
    expect("11 before 3: an unused number, at its first byte that is not 0", n == 11 && answers(11, 1, 289));
    image[255] = 1;
    guard();
    n = pch_pic_read(image, NUMBERED, 0, 0x400, 0, 3, answer, ANSWER);
    expect("11 before 2: an unused pair comes first", n == 11 && answers(11, 1, 255));
    image[255] = image[NUMBERED - 1] = 0;
    image[219] = 1;
    image[258] = image[259] = 0xff;
    guard();
    n = pch_pic_drain(image, NUMBERED, events, EVENTS, 0, answer, ANSWER);
    expect("a waiting event may have any number", n == 0 && answers(0, 1, 1) && event_at(0, 0, 0, 65535));
    guard();
    n = pch_pic_poll(image, NUMBERED - 1, 0, answer, ANSWER);
    expect("4: 289 bytes", n == 4 && answers(4, 0, 0));
    image[26] = 1;
    guard();
    n = pch_pic_poll(image, NUMBERED, 0, answer, ANSWER);
    expect("5: the last byte of the contents", n == 5 && answers(5, 0, 0));

    expect("a difference", pch_pic_difference(7, 4) == 3 && pch_pic_difference(4, 7) == -3 && pch_pic_difference(9, 9) == 0);
    expect("past 65535", pch_pic_difference(3, 65534) == 5 && pch_pic_difference(65534, 3) == -5);
    expect("at most 32767", pch_pic_difference(32767, 0) == 32767 && pch_pic_difference(32768, 0) == -32768 && pch_pic_difference(0, 32768) == -32768);
}

/* A trace and what it is played to, with a guard behind each. Of the answers and of the events these are lent. */
enum { TRACE = 2 + 4 * PCH_PIC_BLOCKS_MAX + PCH_PIC_RECORDS_MAX * PCH_PIC_RECORD_LEN };
static uint8_t trace[TRACE + PCH_PIC_RECORD_LEN], told[PCH_PIC_RECORDS_MAX * ANSWER + GUARD], drained[PCH_PIC_RECORDS_MAX * EVENTS + GUARD];
static size_t trace_len, told_len, drained_len;

/* The image is set to bytes that are none, since it is reset. */
static uint8_t play(size_t answer_len)
{
    memset(image, 0x77, image_len);
    guard();
    memset(told, 0x3c, sizeof told);
    memset(drained, 0x96, sizeof drained);
    return pch_pic_play(trace, trace_len, image, image_len, told, told_len, drained, drained_len, answer, answer_len);
}

/* Whether so many bytes of the answers and the events were written at most, and those behind them stayed. */
static int written(size_t answers_written, size_t events_written)
{
    for (size_t i = answers_written; i < sizeof told; i++) {
        if (told[i] != 0x3c) {
            return 0;
        }
    }
    for (size_t i = events_written; i < sizeof drained; i++) {
        if (drained[i] != 0x96) {
            return 0;
        }
    }
    return guarded();
}

/* Whether nothing but the answer area was written. */
static int nothing_played(void)
{
    for (size_t i = 0; i < image_len; i++) {
        if (image[i] != 0x77) {
            return 0;
        }
    }
    return written(0, 0);
}

/* The contents of so many blocks of so many records each, and room for the records. */
static void contents(unsigned blocks, unsigned records)
{
    memset(trace, 0, sizeof trace);
    trace[0] = (uint8_t)blocks;
    for (unsigned block = 0; block < blocks; block++) {
        unsigned at = 2 + 4 * blocks + 16 * records * block;
        trace[2 + 4 * block] = (uint8_t)at;
        trace[3 + 4 * block] = (uint8_t)(at >> 8);
        trace[4 + 4 * block] = (uint8_t)records;
        trace[5 + 4 * block] = (uint8_t)(records >> 8);
    }
    trace_len = 2 + 4 * blocks + 16 * records * blocks;
}

static void record(size_t number, uint8_t kind, uint8_t byte, unsigned offset, uint64_t value)
{
    uint8_t *at = trace + 2 + 4 * trace[0] + 16 * number;
    memset(at, 0, 16);
    at[0] = kind;
    at[1] = byte;
    at[2] = (uint8_t)offset;
    at[3] = (uint8_t)(offset >> 8);
    for (int i = 0; i < 8; i++) {
        at[8 + i] = (uint8_t)(value >> (8 * i));
    }
}

/* Whether the answer of a played record says so. */
static int told_at(size_t number, uint8_t is, uint8_t present, uint64_t value)
{
    memcpy(answer, told + ANSWER * number, ANSWER);
    return answers(is, present, value);
}

/* Ten calls in two blocks: an input raised, unmasked, read in ISR, lowered and drained, refused calls, a drain of nothing, and the input raised again. */
static void small_day(void)
{
    contents(2, 5);
    record(0, PCH_PIC_RAISE, 5, 0, 0);
    record(1, PCH_PIC_WRITE, 4, 0x20, 0xffffffdf);
    record(2, PCH_PIC_READ, 8, 0x3a0, 0);
    record(3, PCH_PIC_LOWER, 5, 0, 0);
    record(4, PCH_PIC_DRAIN, 0, 0, 0);
    record(5, PCH_PIC_POLL, 64, 0, 0);
    record(6, PCH_PIC_READ, 3, 0, 0);
    record(7, PCH_PIC_WRITE, 2, 0xffff, 7);
    record(8, PCH_PIC_DRAIN, 0, 0, 0);
    record(9, PCH_PIC_RAISE, 5, 0, 0);
    told_len = 10 * ANSWER;
    drained_len = 2 * EVENTS;
}

/* In each form; the last event's number runs on only where there is room for it. */
static void played(size_t len, uint64_t last)
{
    uint8_t want[NUMBERED], other[ANSWER];
    image_len = len;
    small_day();
    expect("a day is played", play(ANSWER) == 0 && answers(0, 1, 10) && written(10 * ANSWER, 4));
    expect("drained is the assert, number 0", drained[0] == 5 && drained[1] == 1 && drained[2] == 0 && drained[3] == 0);
    expect("the first answers", told_at(0, 0, 0, 0) && told_at(1, 0, 1, 0) && told_at(2, 0, 1, 0x20) && told_at(3, 0, 1, 0x10005) && told_at(4, 0, 1, 1));
    expect("refused ones too", told_at(5, 3, 0, 0) && told_at(6, 2, 0, 0) && told_at(7, 1, 1, 0xffff));
    expect("and the play goes on", told_at(8, 0, 1, 0) && told_at(9, 0, 1, last));
    pch_pic_reset(want, len, other, ANSWER);
    pch_pic_level(want, len, 5, 1, other, ANSWER);
    pch_pic_write(want, len, 0, 0x10000, 0x20, 4, 0xffffffdf, other, ANSWER);
    pch_pic_level(want, len, 5, 0, other, ANSWER);
    pch_pic_drain(want, len, events, EVENTS, 0, other, ANSWER);
    pch_pic_level(want, len, 5, 1, other, ANSWER);
    expect("the image is what the calls leave", memcmp(want, image, len) == 0);
}

/* Refusals in their order: each stands before those behind it, which hold too. */
static void play_refusals(void)
{
    image_len = NUMBERED - 1;
    small_day();
    told_len = 10 * ANSWER - 1;
    trace[10 + 16 * 4] = 7;
    trace[0] = 3;
    expect("7: a short answer area, before all others", play(ANSWER - 1) == 7 && untouched() && nothing_played());
    expect("4: 289 bytes, before 12", play(ANSWER) == 4 && answers(4, 0, 0) && nothing_played());
    image_len = NUMBERED;
    expect("12: contents, before 13", play(ANSWER) == 12 && answers(12, 0, 0) && nothing_played());
    trace[0] = 2;
    expect("13: the fifth record, before 7", play(ANSWER) == 13 && answers(13, 1, 4) && nothing_played());
    trace[10 + 16 * 2 + 15] = 1;
    expect("13: the first bad one", play(ANSWER) == 13 && answers(13, 1, 2) && nothing_played());
    small_day();
    told_len = 10 * ANSWER - 1;
    expect("7: a byte less for the answers, and nothing is written", play(ANSWER) == 7 && untouched() && nothing_played());
    told_len = 10 * ANSWER;
    drained_len = 2 * EVENTS - 1;
    expect("7: a byte less for the events, and nothing is written", play(ANSWER) == 7 && untouched() && nothing_played());
    expect("7: no room at all", pch_pic_play(trace, trace_len, image, image_len, NULL, 0, NULL, 0, answer, ANSWER) == 7 && untouched());
    expect("12: no trace at all", pch_pic_play(NULL, 0, image, image_len, NULL, 0, NULL, 0, answer, ANSWER) == 12 && nothing_played());
}

/* An image that is played on: the bytes before the call, and what they became where it was done. */
static uint8_t begun[NUMBERED];

/* Played on from the image that begun has, for as long as image_len says. */
static uint8_t play_on(size_t answer_len)
{
    memcpy(image, begun, image_len);
    guard();
    memset(told, 0x3c, sizeof told);
    memset(drained, 0x96, sizeof drained);
    return pch_pic_play_on(trace, trace_len, image, image_len, told, told_len, drained, drained_len, answer, answer_len);
}

static int nothing_played_on(void)
{
    return memcmp(image, begun, image_len) == 0 && written(0, 0);
}

/* In each form: the day that was played is played on, and no reset comes between; then the same in one trace. */
static void played_on(size_t len, uint64_t first, uint64_t last)
{
    uint8_t want[NUMBERED], other[ANSWER];
    image_len = len;
    small_day();
    expect("a day", play(ANSWER) == 0);
    memcpy(begun, image, len);
    memcpy(want, image, len);
    expect("is played on", play_on(ANSWER) == 0 && answers(0, 1, 10) && written(10 * ANSWER, 0));
    expect("5 is in service and not raised again; lowered, it is told", told_at(0, 0, 0, 0) && told_at(2, 0, 1, 0x20) && told_at(3, 0, 1, first) && told_at(9, 0, 1, last));
    pch_pic_level(want, len, 5, 1, other, ANSWER);
    pch_pic_write(want, len, 0, 0x10000, 0x20, 4, 0xffffffdf, other, ANSWER);
    pch_pic_level(want, len, 5, 0, other, ANSWER);
    pch_pic_drain(want, len, events, EVENTS, 0, other, ANSWER);
    pch_pic_level(want, len, 5, 1, other, ANSWER);
    expect("the image is what the calls leave", memcmp(want, image, len) == 0);
}

/* Refusals in their order: each stands before those behind it, which hold too. */
static void play_on_refusals(void)
{
    uint8_t other[ANSWER];
    pch_pic_reset(begun, NUMBERED, other, ANSWER);
    image_len = NUMBERED - 1;
    small_day();
    told_len = 10 * ANSWER - 1;
    trace[10 + 16 * 4] = 7;
    trace[0] = 3;
    expect("7: a short answer area, before all others", play_on(ANSWER - 1) == 7 && untouched() && nothing_played_on());
    expect("4: 289 bytes, before 12", play_on(ANSWER) == 4 && answers(4, 0, 0) && nothing_played_on());
    image_len = NUMBERED;
    begun[0] = 1;
    expect("5: contents of the image, before 12", play_on(ANSWER) == 5 && answers(5, 0, 0) && nothing_played_on());
    begun[0] = 2;
    begun[NUMBERED - 1] = 1;
    expect("11: an unused number, with its place, before 12", play_on(ANSWER) == 11 && answers(11, 1, NUMBERED - 1) && nothing_played_on());
    begun[NUMBERED - 1] = 0;
    expect("12: contents, before 13", play_on(ANSWER) == 12 && answers(12, 0, 0) && nothing_played_on());
    trace[0] = 2;
    expect("13: the fifth record, before 7", play_on(ANSWER) == 13 && answers(13, 1, 4) && nothing_played_on());
    small_day();
    told_len = 10 * ANSWER - 1;
    expect("7: a byte less for the answers, and nothing is written", play_on(ANSWER) == 7 && untouched() && nothing_played_on());
    told_len = 10 * ANSWER;
    drained_len = 2 * EVENTS - 1;
    expect("7: a byte less for the events, and nothing is written", play_on(ANSWER) == 7 && untouched() && nothing_played_on());
    expect("12: no trace at all", pch_pic_play_on(NULL, 0, image, image_len, NULL, 0, NULL, 0, answer, ANSWER) == 12);
    expect("4: no image at all", pch_pic_play_on(trace, trace_len, NULL, 0, NULL, 0, NULL, 0, answer, ANSWER) == 4);
}

/* What makes contents wrong: each byte of them, a length, no block, an empty one, 65 blocks, 4,001 records. */
static void wrong_contents(void)
{
    int refused = 1;
    small_day();
    for (int place = 0; place < 10; place++) {
        trace[place] ^= 1;
        refused = refused && play(ANSWER) == 12 && answers(12, 0, 0) && nothing_played();
        trace[place] ^= 1;
    }
    expect("12: any byte of the contents", refused);
    trace_len--;
    expect("12: a byte less", play(ANSWER) == 12 && nothing_played());
    trace_len += 2;
    expect("12: a byte more", play(ANSWER) == 12 && nothing_played());
    contents(0, 0);
    expect("12: no block", play(ANSWER) == 12 && nothing_played());
    contents(1, 0);
    expect("12: an empty block", play(ANSWER) == 12 && nothing_played());
    contents(65, 1);
    expect("12: 65 blocks", play(ANSWER) == 12 && nothing_played());
    contents(1, PCH_PIC_RECORDS_MAX + 1);
    expect("12: 4,001 records, before a bad one", play(ANSWER) == 12 && nothing_played());
    contents(1, PCH_PIC_RECORDS_MAX);
    expect("13: 4,000 are not too many", play(ANSWER) == 13 && answers(13, 1, 0) && nothing_played());
}

/* A record with every field set, and those that a kind does not use. */
static void bad_records(void)
{
    static const uint8_t unused[7][6] = {{1, 1, 1, 1, 1, 1}, {0, 1, 1, 1, 1, 1}, {0, 1, 1, 1, 1, 1}, {0, 1, 1, 1, 1, 1},
                                         {0, 0, 0, 1, 1, 1}, {0, 0, 0, 1, 0, 0}, {1, 1, 1, 1, 1, 1}};
    static const int places[6] = {1, 2, 3, 7, 8, 15};
    int right = 1;
    contents(1, 1);
    told_len = ANSWER;
    drained_len = EVENTS;
    for (uint8_t kind = 1; kind <= 6; kind++) {
        for (int i = 0; i < 6; i++) {
            record(0, kind, 0, 0, 0);
            trace[6 + places[i]] = 1;
            right = right && play(ANSWER) == (unused[kind][i] ? 13 : 0) && (unused[kind][i] == 0 || (answers(13, 1, 0) && nothing_played()));
        }
    }
    expect("13: just where a byte is not 0 that has to be", right);
    right = 1;
    for (unsigned kind = 0; kind < 256; kind++) {
        record(0, (uint8_t)kind, 0, 0, 0);
        right = right && play(ANSWER) == (kind >= 1 && kind <= 6 ? 0 : 13);
    }
    expect("13: just where the kind is not 1 to 6", right);
}

/* 4,000 drains in 64 blocks, the longest trace but for the last block: 63 of 62 and one of 94. */
static void longest(void)
{
    contents(64, 62);
    trace[2 + 4 * 63 + 2] = 94;
    trace_len = TRACE;
    for (size_t i = 0; i < PCH_PIC_RECORDS_MAX; i++) {
        record(i, PCH_PIC_DRAIN, 0, 0, 0);
    }
    told_len = sizeof told - GUARD;
    drained_len = sizeof drained - GUARD;
    expect("the longest trace is played", play(ANSWER) == 0 && answers(0, 1, 4000) && written(told_len, 0) && told_at(3999, 0, 1, 0));
    trace[TRACE - 16 + 4] = 1;
    expect("13: its last record", play(ANSWER) == 13 && answers(13, 1, 3999) && nothing_played());
}

/* What is salvaged of a trace, with a guard behind each. Of both so many bytes are lent. */
static uint8_t kept[TRACE + GUARD], list[PCH_PIC_DROPPED_MAX + GUARD];
static size_t kept_len, list_len;

static uint8_t salvage(size_t answer_len)
{
    guard();
    memset(kept, 0x3c, sizeof kept);
    memset(list, 0x96, sizeof list);
    return pch_pic_salvage(trace, trace_len, kept, kept_len, list, list_len, answer, answer_len);
}

/* Whether the bytes behind so many of both stayed. */
static int salvaged_only(size_t kept_written, size_t list_written)
{
    for (size_t i = kept_written; i < sizeof kept; i++) {
        if (kept[i] != 0x3c) {
            return 0;
        }
    }
    for (size_t i = list_written; i < sizeof list; i++) {
        if (list[i] != 0x96) {
            return 0;
        }
    }
    return guarded();
}

/* Four blocks of three drains each. */
static void four_blocks(void)
{
    contents(4, 3);
    for (size_t i = 0; i < 12; i++) {
        record(i, PCH_PIC_DRAIN, 0, 0, 0);
    }
    kept_len = trace_len;
    list_len = 16;
}

static void salvages(void)
{
    uint8_t good[TRACE];
    four_blocks();
    memcpy(good, trace, trace_len);
    expect("a good trace is salvaged", salvage(ANSWER) == 0 && answers(0, 1, trace_len) && salvaged_only(trace_len, 0));
    expect("unchanged", memcmp(kept, good, trace_len) == 0);
    /* The second block's last two records are torn, and the fourth's first. */
    trace[18 + 16 * 4 + 4] = 1;
    trace[18 + 16 * 5] = 0;
    trace[18 + 16 * 9 + 1] = 9;
    trace[18 + 16 * 0] = PCH_PIC_RAISE;
    trace[18 + 16 * 6 + 1] = 0;
    trace[18 + 16 * 6] = PCH_PIC_POLL;
    size_t len = 10 + 6 * 16;
    kept_len = len;
    list_len = 8;
    expect("two blocks are kept", salvage(ANSWER) == 0 && answers(0, 1, len) && salvaged_only(len, 8));
    expect("with contents of their own", kept[0] == 2 && kept[1] == 0 && kept[2] == 10 && kept[3] == 0 && kept[4] == 3 && kept[6] == 58 && kept[8] == 3);
    expect("byte for byte", memcmp(kept + 10, trace + 18, 48) == 0 && memcmp(kept + 58, trace + 18 + 96, 48) == 0);
    static const uint8_t listed[8] = {1, 0, 1, 0, 3, 0, 0, 0};
    expect("the others are listed", memcmp(list, listed, sizeof listed) == 0);
    kept_len = len - 1;
    expect("7: a byte less for the new trace", salvage(ANSWER) == 7 && untouched() && salvaged_only(0, 0));
    kept_len = len;
    list_len = 7;
    expect("7: a byte less for the list", salvage(ANSWER) == 7 && untouched() && salvaged_only(0, 0));
    list_len = 8;
    expect("7: a short answer area", salvage(ANSWER - 1) == 7 && untouched() && salvaged_only(0, 0));
    trace[18] = trace[18 + 16 * 8] = 0;
    kept_len = list_len = 0;
    expect("16 before 7: no block is left", salvage(ANSWER) == 16 && answers(16, 0, 0) && salvaged_only(0, 0));
    trace[2]++;
    expect("12 before 16: the contents", salvage(ANSWER) == 12 && answers(12, 0, 0) && salvaged_only(0, 0));
    trace[2]--;
    trace_len--;
    expect("12: a byte less", salvage(ANSWER) == 12 && answers(12, 0, 0) && salvaged_only(0, 0));
    expect("12: no trace at all", pch_pic_salvage(NULL, 0, NULL, 0, NULL, 0, answer, ANSWER) == 12);
}

/* The longest trace with each but the last of its 64 blocks torn: 63 entries, which are all that a list can have. */
static void longest_list(void)
{
    contents(64, 62);
    trace[2 + 4 * 63 + 2] = 94;
    trace_len = TRACE;
    for (size_t i = 0; i < PCH_PIC_RECORDS_MAX; i++) {
        record(i, i < 63 * 62 && i % 62 == 61 ? 9 : PCH_PIC_DRAIN, 0, 0, 0);
    }
    kept_len = 6 + 94 * 16;
    list_len = PCH_PIC_DROPPED_MAX;
    int right = salvage(ANSWER) == 0 && answers(0, 1, kept_len) && salvaged_only(kept_len, list_len);
    for (unsigned block = 0; block < 63; block++) {
        right = right && list[4 * block] == block && list[4 * block + 1] == 0 && list[4 * block + 2] == 61 && list[4 * block + 3] == 0;
    }
    expect("one block of 64 is kept", right && kept[0] == 1 && kept[2] == 6 && kept[4] == 94 && kept[6] == PCH_PIC_DRAIN);
}

/* A sheet with a guard behind it: this much of it is lent. */
static uint8_t sheet[PCH_PIC_SHEET_LEN + GUARD];
static size_t sheet_len;

static uint8_t count(size_t answer_len)
{
    guard();
    memset(sheet, 0x69, sizeof sheet);
    return pch_pic_sheet(trace, trace_len, sheet, sheet_len, answer, answer_len);
}

/* Whether the bytes of the sheet from here on stayed. */
static int stays(size_t from)
{
    for (size_t i = from; i < sizeof sheet; i++) {
        if (sheet[i] != 0x69) {
            return 0;
        }
    }
    return 1;
}

/* Whether a row has these numbers. */
static int row_is(size_t row, const uint32_t numbers[PCH_PIC_SHEET_COLUMNS])
{
    for (size_t i = 0; i < PCH_PIC_SHEET_ROW_LEN; i++) {
        if (sheet[PCH_PIC_SHEET_ROW_LEN * row + i] != (uint8_t)(numbers[i / 4] >> (8 * (i % 4)))) {
            return 0;
        }
    }
    return 1;
}

/* The small day: input 5 is raised, waits for the unmask, is lowered, and raised again. */
static void counted(void)
{
    static const uint32_t five[PCH_PIC_SHEET_COLUMNS] = {2, 1, 2, 1, 2, 1, 0, 1, 0, 0}, idle[PCH_PIC_SHEET_COLUMNS] = {0};
    int right = 1;
    small_day();
    sheet_len = PCH_PIC_SHEET_LEN;
    expect("a day is counted", count(ANSWER) == 0 && answers(0, 1, 10) && stays(PCH_PIC_SHEET_LEN));
    expect("input 5 and the total", row_is(5, five) && row_is(PCH_PIC_SHEET_TOTAL, five));
    for (size_t row = 0; row < PCH_PIC_INPUTS; row++) {
        right = right && (row == 5 || row_is(row, idle));
    }
    expect("the other inputs did nothing", right);
    sheet_len = PCH_PIC_SHEET_LEN + GUARD;
    expect("bytes past 2,600 stay", count(ANSWER + GUARD) == 0 && answers(0, 1, 10) && stays(PCH_PIC_SHEET_LEN));
}

/* One wait withdrawn by a lowering, one by CLEAR, one open; and a wait of 1,000 records, which takes two bytes. */
static void counted_waits(void)
{
    static const uint32_t one[PCH_PIC_SHEET_COLUMNS] = {1, 1, 0, 0, 0, 0, 0, 0, 1, 0}, two[PCH_PIC_SHEET_COLUMNS] = {2, 0, 0, 0, 0, 0, 0, 0, 1, 1};
    static const uint32_t last[PCH_PIC_SHEET_COLUMNS] = {1, 0, 1, 0, 1, 0, 0, 1000, 0, 0};
    static const uint32_t total[PCH_PIC_SHEET_COLUMNS] = {4, 1, 1, 0, 1, 0, 0, 1000, 2, 1};
    contents(1, 1007);
    record(0, PCH_PIC_RAISE, 1, 0, 0);
    record(1, PCH_PIC_LOWER, 1, 0, 0);
    record(2, PCH_PIC_RAISE, 2, 0, 0);
    record(3, PCH_PIC_WRITE, 1, PCH_PIC_REG_CLEAR, 4);
    record(4, PCH_PIC_RAISE, 2, 0, 0);
    record(5, PCH_PIC_RAISE, 63, 0, 0);
    for (size_t i = 6; i < 1007; i++) {
        record(i, PCH_PIC_DRAIN, 0, 0, 0);
    }
    /* An ISR bit keeps the unmask from announcing 63; without it the poll does. */
    record(6, PCH_PIC_WRITE, 4, PCH_PIC_REG_ISR + 4, 0x80000000);
    record(7, PCH_PIC_WRITE, 4, PCH_PIC_REG_MASK + 4, 0x7fffffff);
    record(8, PCH_PIC_WRITE, 4, PCH_PIC_REG_ISR + 4, 0);
    record(1005, PCH_PIC_POLL, 63, 0, 0);
    expect("waits are counted", count(ANSWER) == 0 && answers(0, 1, 1007));
    expect("one withdrawn by a lowering", row_is(1, one));
    expect("one by CLEAR, and one open", row_is(2, two));
    expect("one of 1,000 records", row_is(63, last));
    expect("their total", row_is(PCH_PIC_SHEET_TOTAL, total));
}

/* Refusals in their order: each stands before those behind it, which hold too. */
static void sheet_refusals(void)
{
    small_day();
    trace[0] = 3;
    trace[10 + 16 * 4] = 7;
    sheet_len = PCH_PIC_SHEET_LEN;
    expect("7: a short answer area, before 12", count(ANSWER - 1) == 7 && untouched() && stays(0));
    sheet_len = PCH_PIC_SHEET_LEN - 1;
    expect("7: a short sheet, before 12", count(ANSWER) == 7 && untouched() && stays(0));
    expect("7: no sheet", pch_pic_sheet(trace, trace_len, NULL, 0, answer, ANSWER) == 7 && untouched());
    sheet_len = PCH_PIC_SHEET_LEN;
    expect("12: contents, before 13", count(ANSWER) == 12 && answers(12, 0, 0) && stays(0));
    trace[0] = 2;
    expect("13: the fifth record", count(ANSWER) == 13 && answers(13, 1, 4) && stays(0));
    trace[10 + 16 * 2 + 15] = 1;
    expect("13: the first bad one", count(ANSWER) == 13 && answers(13, 1, 2) && stays(0));
    guard();
    expect("12: no trace at all", pch_pic_sheet(NULL, 0, sheet, sheet_len, answer, ANSWER) == 12 && answers(12, 0, 0));
    longest();
    record(PCH_PIC_RECORDS_MAX - 1, PCH_PIC_RAISE, 0, 0, 0);
    expect("the longest trace is counted", count(ANSWER) == 0 && answers(0, 1, 4000) && sheet[0] == 1 && sheet[36] == 1);
}

/* A tally with a guard behind it, and the sheet of one: this much of each is lent. */
static uint8_t tally[PCH_PIC_TALLY_LEN + GUARD], long_sheet[PCH_PIC_LONG_SHEET_LEN + GUARD];
static size_t tally_len, long_len;

/* Whether these bytes stayed as they were filled. */
static int filled(const uint8_t *bytes, size_t from, size_t to, uint8_t with)
{
    for (size_t i = from; i < to; i++) {
        if (bytes[i] != with) {
            return 0;
        }
    }
    return 1;
}

static void fresh_tally(void)
{
    memset(tally, 0, PCH_PIC_TALLY_LEN);
    memset(tally + PCH_PIC_TALLY_LEN, 0x96, GUARD);
    tally_len = PCH_PIC_TALLY_LEN;
    long_len = PCH_PIC_LONG_SHEET_LEN;
}

static uint8_t add(size_t answer_len)
{
    guard();
    return pch_pic_tally_add(trace, trace_len, image, image_len, tally, tally_len, answer, answer_len);
}

static uint8_t sum(size_t answer_len)
{
    guard();
    memset(long_sheet, 0x69, sizeof long_sheet);
    return pch_pic_tally_sheet(tally, tally_len, long_sheet, long_len, answer, answer_len);
}

/* A number of a tally or its sheet. */
static uint64_t cell(const uint8_t *bytes, size_t row, size_t column)
{
    uint64_t number = 0;
    for (size_t i = 8; i-- > 0;) {
        number = number << 8 | bytes[PCH_PIC_LONG_ROW_LEN * row + 8 * column + i];
    }
    return number;
}

static void put_cell(size_t row, size_t column, uint64_t number)
{
    for (size_t i = 0; i < 8; i++) {
        tally[PCH_PIC_LONG_ROW_LEN * row + 8 * column + i] = (uint8_t)(number >> (8 * i));
    }
}

static int long_row_is(size_t row, const uint32_t numbers[PCH_PIC_SHEET_COLUMNS])
{
    for (size_t column = 0; column < PCH_PIC_SHEET_COLUMNS; column++) {
        if (cell(long_sheet, row, column) != numbers[column]) {
            return 0;
        }
    }
    return 1;
}

/* One day in two traces on an image of this length: input 9 is raised by record 1, and the unmask of record 4 asserts it. */
static void tallied(size_t length)
{
    static const uint32_t waits[PCH_PIC_SHEET_COLUMNS] = {1, 0, 0, 0, 0, 0, 0, 0, 0, 1}, over[PCH_PIC_SHEET_COLUMNS] = {1, 1, 1, 1, 1, 1, 0, 3, 0, 0};
    static uint8_t before[NUMBERED];
    image_len = length;
    pch_pic_reset(image, image_len, answer, ANSWER);
    memset(tally, 0x96, sizeof tally);
    tally_len = PCH_PIC_TALLY_LEN;
    long_len = PCH_PIC_LONG_SHEET_LEN;
    guard();
    expect("a tally begins", pch_pic_tally_begin(tally, tally_len, answer, ANSWER) == 0 && answers(0, 0, 0) && filled(tally, 0, PCH_PIC_TALLY_LEN, 0) &&
                                 filled(tally, PCH_PIC_TALLY_LEN, sizeof tally, 0x96));
    contents(1, 3);
    record(0, PCH_PIC_DRAIN, 0, 0, 0);
    record(1, PCH_PIC_RAISE, 9, 0, 0);
    record(2, PCH_PIC_DRAIN, 0, 0, 0);
    memcpy(before, image, length);
    expect("the first trace is counted", add(ANSWER) == 0 && answers(0, 0, 0) && memcmp(before, image, length) == 0);
    expect("its wait is not over", cell(tally, 9, PCH_PIC_SHEET_RAISES) == 1 && cell(tally, 9, PCH_PIC_SHEET_OPEN) == 2 && cell(tally, 64, 0) == 3);
    expect("it is open on the sheet", sum(ANSWER) == 0 && answers(0, 0, 0) && long_row_is(9, waits) && long_row_is(PCH_PIC_SHEET_TOTAL, waits) &&
                                          filled(long_sheet, PCH_PIC_LONG_SHEET_LEN, sizeof long_sheet, 0x69));
    pch_pic_level(image, image_len, 9, 1, answer, ANSWER);
    contents(1, 3);
    record(0, PCH_PIC_RAISE, 64, 0, 0);
    record(1, PCH_PIC_WRITE, 8, PCH_PIC_REG_MASK, 0);
    record(2, PCH_PIC_LOWER, 9, 0, 0);
    expect("the second trace goes on", add(ANSWER) == 0 && answers(0, 0, 0) && cell(tally, 64, 0) == 6 && cell(tally, 9, PCH_PIC_SHEET_OPEN) == 0);
    expect("a wait over both is counted", sum(ANSWER) == 0 && long_row_is(9, over) && long_row_is(PCH_PIC_SHEET_TOTAL, over));
    expect("bytes past the tally stay", filled(tally, PCH_PIC_TALLY_LEN, sizeof tally, 0x96));
}

/* What no tally can have: a number of 2^63, and a wait that began behind all records. */
static void no_tallies(void)
{
    small_day();
    image_len = NUMBERED;
    pch_pic_reset(image, image_len, answer, ANSWER);
    fresh_tally();
    put_cell(64, 9, UINT64_C(1) << 63);
    expect("17: the last number", add(ANSWER) == 17 && answers(17, 1, 5192) && sum(ANSWER) == 17 && answers(17, 1, 5192));
    put_cell(63, 9, 1);
    expect("17: an open wait above the records", sum(ANSWER) == 17 && answers(17, 1, 5112) && filled(long_sheet, 0, sizeof long_sheet, 0x69));
    put_cell(0, 0, UINT64_MAX);
    expect("17: the first wrong number", add(ANSWER) == 17 && answers(17, 1, 0));
    fresh_tally();
    put_cell(64, 0, 1);
    put_cell(63, 9, 1);
    put_cell(5, 0, (UINT64_C(1) << 63) - 1);
    expect("the greatest numbers pass", sum(ANSWER) == 0 && cell(long_sheet, 5, 0) == (UINT64_C(1) << 63) - 1 && cell(long_sheet, 63, 9) == 1);
    expect("and are counted on", add(ANSWER) == 0 && cell(tally, 5, 0) == (UINT64_C(1) << 63) + 1 && sum(ANSWER) == 17 && answers(17, 1, 400));
}

/* Refusals in their order: each stands before those behind it, which hold too. */
static void tally_refusals(void)
{
    small_day();
    trace[0] = 3;
    trace[10 + 16 * 4] = 7;
    image_len = NUMBERED;
    pch_pic_reset(image, image_len, answer, ANSWER);
    image[0] ^= 1;
    image_len = NUMBERED - 1;
    fresh_tally();
    put_cell(0, 0, UINT64_MAX);
    expect("7: a short answer area", add(ANSWER - 1) == 7 && untouched() && sum(ANSWER - 1) == 7 && untouched());
    tally_len = PCH_PIC_TALLY_LEN - 1;
    expect("7: a short tally", add(ANSWER) == 7 && untouched() && sum(ANSWER) == 7 && untouched() && filled(long_sheet, 0, sizeof long_sheet, 0x69));
    guard();
    expect("7: none begins", pch_pic_tally_begin(tally, tally_len, answer, ANSWER) == 7 && untouched() && cell(tally, 0, 0) == UINT64_MAX);
    expect("7: no tally", pch_pic_tally_begin(NULL, 0, answer, ANSWER) == 7 && untouched());
    tally_len = PCH_PIC_TALLY_LEN;
    long_len = PCH_PIC_LONG_SHEET_LEN - 1;
    expect("7: a short sheet", sum(ANSWER) == 7 && untouched() && filled(long_sheet, 0, sizeof long_sheet, 0x69));
    expect("4: the image's length, before 5", add(ANSWER) == 4 && answers(4, 0, 0));
    image_len = NUMBERED;
    expect("5: its contents, before 12", add(ANSWER) == 5 && answers(5, 0, 0));
    pch_pic_reset(image, image_len, answer, ANSWER);
    expect("12: the trace's contents, before 13", add(ANSWER) == 12 && answers(12, 0, 0));
    trace[0] = 2;
    expect("13: a bad record, before 17", add(ANSWER) == 13 && answers(13, 1, 4));
    trace[10 + 16 * 4] = PCH_PIC_DRAIN;
    expect("17: the tally, last", add(ANSWER) == 17 && answers(17, 1, 0));
    expect("17 has its text", strcmp(pch_pic_why(17), pch_pic_why(99)) != 0);
}

static void traces(void)
{
    played(NUMBERED, 0x20005);
    played(IMAGE, 5);
    played(IMAGE2, 5);
    play_refusals();
    played_on(NUMBERED, 0x30005, 0x40005);
    played_on(IMAGE, 5, 5);
    played_on(IMAGE2, 5, 5);
    play_on_refusals();
    wrong_contents();
    bad_records();
    longest();
    salvages();
    longest_list();
    counted();
    counted_waits();
    sheet_refusals();
    tallied(NUMBERED);
    tallied(IMAGE);
    tallied(IMAGE2);
    no_tallies();
    tally_refusals();
    expect("12 and 13 have their texts", strcmp(pch_pic_why(12), pch_pic_why(99)) != 0 && strcmp(pch_pic_why(13), pch_pic_why(99)) != 0);
    expect("so has 16", strcmp(pch_pic_why(16), pch_pic_why(99)) != 0);
}

/* ---- boards */

enum { BOARD = PCH_PIC_BOARD_LEN };

static uint8_t board[BOARD + GUARD], plain[NUMBERED], plain_answer[ANSWER], plain_events[EVENTS];

/* The image, and what a board says before the call: anything. */
static void lend(void)
{
    memcpy(plain, image, image_len);
    guard();
    memset(board, 0xee, sizeof board);
    memset(plain_answer, 0x5a, sizeof plain_answer);
    memset(plain_events, 0xc3, sizeof plain_events);
}

/* The call with board left what the call without did, and the board counts the inputs in service, found by the image's contents: registers and vectors are the
 * first and third body. */
static int as_plain(uint8_t n, uint8_t without)
{
    uint8_t want[BOARD] = {0};
    size_t registers = image[3], isr = registers + image[5] - PCH_PIC_REGISTERS_ISR_BACK, vectors = image[13];
    for (unsigned input = 0; input < PCH_PIC_INPUTS; input++) {
        want[image[vectors + input]] += image[isr + input / 8] >> input % 8 & 1;
    }
    for (int i = 0; i < GUARD; i++) {
        if (board[BOARD + i] != 0xee) {
            return 0;
        }
    }
    return n == 0 && without == 0 && guarded() && memcmp(board, want, BOARD) == 0 && memcmp(image, plain, image_len) == 0 &&
           memcmp(answer, plain_answer, ANSWER) == 0 && memcmp(events, plain_events, EVENTS) == 0;
}

/* Refused as the call without board: the board stays too. */
static int board_stays(uint8_t n, uint8_t number)
{
    for (size_t i = 0; i < sizeof board; i++) {
        if (board[i] != 0xee) {
            return 0;
        }
    }
    return n == number && guarded() && memcmp(image, plain, image_len) == 0 && memcmp(events, plain_events, EVENTS) == 0;
}

static uint8_t board_write(uint64_t address, uint64_t width, uint64_t value)
{
    lend();
    return pch_pic_board_write(image, image_len, board, sizeof board, 0, 0x400, address, width, value, answer, ANSWER);
}

static uint8_t plain_write(uint64_t address, uint64_t width, uint64_t value)
{
    return pch_pic_write(plain, image_len, 0, 0x400, address, width, value, plain_answer, ANSWER);
}

static void boards_of(size_t len)
{
    uint8_t n, without;

    image_len = len;
    events_len = EVENTS;
    memset(image, 0x77, sizeof image);
    lend();
    n = pch_pic_board_reset(image, len, board, sizeof board, answer, ANSWER);
    without = pch_pic_reset(plain, len, plain_answer, ANSWER);
    expect("a reset with a board: no vector is on", as_plain(n, without) && board[0] == 0 && board[255] == 0);
    n = board_write(0x209, 1, 5);
    without = plain_write(0x209, 1, 5);
    expect("a write with a board", as_plain(n, without));
    lend();
    n = pch_pic_board_level(image, len, board, sizeof board, 5, 1, answer, ANSWER);
    without = pch_pic_level(plain, len, 5, 1, plain_answer, ANSWER);
    expect("a raise of a masked input", as_plain(n, without) && board[5] == 0);
    n = board_write(0x20, 4, 0);
    without = plain_write(0x20, 4, 0);
    expect("an unmask: vector 5 is on", as_plain(n, without) && board[5] == 1);
    lend();
    n = pch_pic_board_level(image, len, board, sizeof board, 9, 1, answer, ANSWER);
    without = pch_pic_level(plain, len, 9, 1, plain_answer, ANSWER);
    expect("a raise of an input with the same vector", as_plain(n, without) && board[5] == 2 && board[9] == 0);
    n = board_write(0x205, 1, 255);
    without = plain_write(0x205, 1, 255);
    expect("a vector changed in service moves both counts", as_plain(n, without) && board[5] == 1 && board[255] == 1);
    n = board_write(0x3a0, 8, 0x8000000000000220u);
    without = plain_write(0x3a0, 8, 0x8000000000000220u);
    expect("a write of ISR: a masked input in service counts", as_plain(n, without) && board[63] == 1);
    lend();
    n = pch_pic_board_read(image, len, board, sizeof board, 0, 0x400, 0x3a0, 8, answer, ANSWER);
    without = pch_pic_read(plain, len, 0, 0x400, 0x3a0, 8, plain_answer, ANSWER);
    expect("a read counts too", as_plain(n, without) && board[63] == 1);
    lend();
    n = pch_pic_board_poll(image, len, board, sizeof board, 9, answer, ANSWER);
    without = pch_pic_poll(plain, len, 9, plain_answer, ANSWER);
    expect("a poll", as_plain(n, without));
    lend();
    n = pch_pic_board_level(image, len, board, sizeof board, 9, 0, answer, ANSWER);
    without = pch_pic_level(plain, len, 9, 0, plain_answer, ANSWER);
    expect("a lower takes its vector away", as_plain(n, without) && board[5] == 0 && answer[PCH_PIC_ANSWER_VECTOR] == 5);
    lend();
    n = pch_pic_board_drain(image, len, board, sizeof board, events, EVENTS, 4, answer, ANSWER);
    without = pch_pic_drain(plain, len, plain_events, EVENTS, 4, plain_answer, ANSWER);
    expect("a drain from a place on", as_plain(n, without) && event_at(4, 5, 1, 0));

    expect("1: outside", board_stays(board_write(0x400, 1, 0), 1) && answers(1, 1, 0x400));
    expect("2: the width", board_stays(board_write(0x400, 3, 0), 2) && answers(2, 0, 0));
    lend();
    n = pch_pic_board_level(image, len, board, sizeof board, 64, 1, answer, ANSWER);
    expect("3: the input", board_stays(n, 3) && answers(3, 0, 0));
    lend();
    n = pch_pic_board_reset(image, len - 1, board, sizeof board, answer, ANSWER);
    expect("4: the length", board_stays(n, 4) && answers(4, 0, 0));
    lend();
    n = pch_pic_board_poll(image, len, board, BOARD - 1, 64, answer, ANSWER);
    expect("7 before 3: a board of 255 bytes, and nothing is written", board_stays(n, 7) && untouched());
    n = pch_pic_board_reset(image, 0, board, BOARD - 1, answer, ANSWER);
    expect("7 before 4", board_stays(n, 7) && untouched());
    n = pch_pic_board_read(image, len, NULL, 0, 0, 0x400, 0, 3, answer, ANSWER);
    expect("7 before 2: no board", board_stays(n, 7) && untouched());
    n = pch_pic_board_write(image, len, board, BOARD - 1, 0, 0x400, 0x20, 4, 0, answer, ANSWER);
    expect("7 of a write", board_stays(n, 7) && untouched());
    n = pch_pic_board_level(image, len, board, BOARD, 5, 1, answer, ANSWER - 1);
    expect("7: the answer area is short", board_stays(n, 7) && untouched());
    n = pch_pic_board_drain(image, len, board, BOARD, events, 8, 9, answer, ANSWER);
    expect("7: the place is past the end", board_stays(n, 7) && untouched());
    n = pch_pic_board_drain(image, len, board, BOARD - 1, events, 8, 0, answer, ANSWER);
    expect("7: a drain with a short board", board_stays(n, 7) && untouched());
    image[0] = 9;
    lend();
    n = pch_pic_board_poll(image, len, board, BOARD, 64, answer, ANSWER);
    expect("5 before 3", board_stays(n, 5) && answers(5, 0, 0));
}

/* A second board: one count goes up or down, within 0 and 255. */
static void second_board(void)
{
    guard();
    memset(board, 0, BOARD);
    memset(board + BOARD, 0xee, GUARD);
    expect("not below 0", pch_pic_board_event(board, sizeof board, 255, 0, answer, ANSWER) == 0 && answers(0, 1, 0) && board[255] == 0);
    guard();
    expect("an assert", pch_pic_board_event(board, sizeof board, 255, 1, answer, ANSWER) == 0 && answers(0, 1, 1) && board[255] == 1 && board[254] == 0);
    guard();
    expect("any flag but 0", pch_pic_board_event(board, sizeof board, 255, 0x80, answer, ANSWER) == 0 && answers(0, 1, 2) && board[255] == 2);
    guard();
    expect("a deassert", pch_pic_board_event(board, sizeof board, 255, 0, answer, ANSWER) == 0 && answers(0, 1, 1) && board[255] == 1);
    board[0] = 255;
    guard();
    expect("not past 255", pch_pic_board_event(board, BOARD, 0, 1, answer, ANSWER) == 0 && answers(0, 1, 255) && board[0] == 255);
    guard();
    expect("7: 255 bytes", pch_pic_board_event(board, BOARD - 1, 0, 0, answer, ANSWER) == 7 && untouched() && board[0] == 255);
    expect("7: the answer area", pch_pic_board_event(board, BOARD, 0, 0, answer, ANSWER - 1) == 7 && untouched() && board[0] == 255);
    expect("no byte past the board is written", board[BOARD] == 0xee && board[BOARD + GUARD - 1] == 0xee);
}

static void boards(void)
{
    boards_of(IMAGE);
    boards_of(IMAGE2);
    boards_of(NUMBERED);
    second_board();
}

/* The hoist profile, in the form of the image's length, with window 0x400 at base 0x1002, which 4 does not divide: the offset has to be aligned, not the
 * address. The phase has two bytes, of which the second stays. */
static uint8_t phase[2];

static uint8_t hoist_write(size_t len, uint64_t offset, uint64_t width, uint64_t value)
{
    guard();
    return pch_pic_hoist_write(image, len, phase, sizeof phase, 0x1002, 0x400, 0x1002 + offset, width, value, answer, ANSWER);
}

static uint8_t hoist_read(size_t len, uint64_t offset, uint64_t width)
{
    guard();
    return pch_pic_hoist_read(image, len, 0x1002, 0x400, 0x1002 + offset, width, answer, ANSWER);
}

static uint8_t end_startup(size_t len)
{
    guard();
    return pch_pic_hoist_end_startup(image, len, phase, sizeof phase, answer, ANSWER);
}

/* What a refusal leaves, but for the answer area. */
static uint8_t hoist_before[NUMBERED];

static int hoist_kept(size_t len, uint8_t of)
{
    return memcmp(hoist_before, image, len) == 0 && phase[0] == of && phase[1] == 0x99;
}

static void hoist_start(size_t len)
{
    image_len = NUMBERED;
    memset(image, 0x77, sizeof image);
    phase[0] = 7;
    phase[1] = 0x99;
    guard();
    expect("hoist: a reset starts the first phase",
           pch_pic_hoist_reset(image, len, phase, sizeof phase, answer, ANSWER) == 0 && answers(0, 0, 0) && phase[0] == 0 && phase[1] == 0x99);
    expect("hoist: an aligned Dword is read", hoist_read(len, 0x20, 4) == 0 && answers(0, 1, 0xffffffff));
    expect("hoist: and written", hoist_write(len, 0x20, 4, 0xffffffdf) == 0 && answers(0, 1, 0));
    expect("hoist: vectors are written in start-up", hoist_write(len, 0x204, 4, 0x47464544) == 0 && answers(0, 1, 0));
    guard();
    expect("hoist: the vector that was written is asserted", pch_pic_level(image, len, 5, 1, answer, ANSWER) == 0 && answers(0, 1, 0x45));
}

static void hoist_refusals(size_t len)
{
    memcpy(hoist_before, image, len);
    expect("14: a Byte", hoist_write(len, 0x40, 1, 1) == 14 && answers(14, 0, 0) && hoist_kept(len, 0));
    expect("14: a Word", hoist_read(len, 0x40, 2) == 14 && answers(14, 0, 0));
    expect("14: a Qword", hoist_read(len, 0x3f0, 8) == 14 && answers(14, 0, 0));
    expect("14: offset 2", hoist_write(len, 0x22, 4, 0) == 14 && answers(14, 0, 0) && hoist_kept(len, 0));
    expect("14 before 15: a Byte of ISR", hoist_write(len, 0x3a0, 1, 0) == 14 && answers(14, 0, 0) && hoist_kept(len, 0));
    expect("1 before 14: over the window's end", hoist_read(len, 0x3fc, 8) == 1 && answers(1, 1, 0x1002 + 0x3fc));
    expect("2 before 14: no such width", hoist_write(len, 0x41, 3, 0) == 2 && answers(2, 0, 0) && hoist_kept(len, 0));
    expect("15: ISR, as it stands", hoist_write(len, 0x3a0, 4, 0x20) == 15 && answers(15, 0, 0) && hoist_kept(len, 0));
    expect("15: ISR's high half", hoist_write(len, 0x3a4, 4, 0) == 15 && answers(15, 0, 0) && hoist_kept(len, 0));
    expect("15: the vector of an input in service", hoist_write(len, 0x204, 4, 0x47469944) == 15 && answers(15, 0, 0) && hoist_kept(len, 0));
    expect("15: start-up does not end while an input is in service", end_startup(len) == 15 && answers(15, 0, 0) && hoist_kept(len, 0));
    expect("4 before 14", hoist_write(len - 1, 0x41, 1, 0) == 4 && answers(4, 0, 0) && hoist_kept(len, 0));
    expect("4 of the end of start-up", end_startup(0) == 4 && answers(4, 0, 0) && hoist_kept(len, 0));
    guard();
    expect("7: no phase is lent to a write", pch_pic_hoist_write(image, len, NULL, 0, 0, 0x400, 0x20, 4, 0, answer, ANSWER) == 7 && untouched());
    expect("7: nor to a reset", pch_pic_hoist_reset(image, len, NULL, 0, answer, ANSWER) == 7 && untouched());
    expect("7: nor to the end of start-up", pch_pic_hoist_end_startup(image, len, NULL, 0, answer, ANSWER) == 7 && untouched());
    expect("7: the answer area of a read is short", pch_pic_hoist_read(image, len, 0, 0x400, 0x20, 4, answer, ANSWER - 1) == 7 && untouched());
    expect("7: that of a reset is", pch_pic_hoist_reset(image, len, phase, 1, answer, ANSWER - 1) == 7 && untouched() && hoist_kept(len, 0));
    guard();
    expect("4: a refused reset leaves the phase", pch_pic_hoist_reset(image, len - 1, phase, 1, answer, ANSWER) == 4 && answers(4, 0, 0) && hoist_kept(len, 0));
}

static void hoist_runs(size_t len)
{
    expect("hoist: the vector of an input in service, as it stands", hoist_write(len, 0x204, 4, 0x99994599) == 0 && answers(0, 1, 0));
    guard();
    expect("hoist: it is deasserted", pch_pic_level(image, len, 5, 0, answer, ANSWER) == 0 && answer[1] == 1 && answer[8] == 0x45);
    memcpy(hoist_before, image, len);
    expect("hoist: start-up ends", end_startup(len) == 0 && answers(0, 0, 0) && hoist_kept(len, 1));
    expect("15: and not again", end_startup(len) == 15 && answers(15, 0, 0) && hoist_kept(len, 1));
    expect("15: no vector is written after it, as it stands neither", hoist_write(len, 0x23c, 4, 0x3f3e3d3c) == 15 && answers(15, 0, 0) && hoist_kept(len, 1));
    expect("hoist: routes are", hoist_write(len, 0x13c, 4, 0) == 0 && answers(0, 1, 0));
    phase[0] = 0xff;
    memcpy(hoist_before, image, len);
    expect("15: any byte but 0 is after start-up", hoist_write(len, 0x200, 4, 0x03020100) == 15 && answers(15, 0, 0) && hoist_kept(len, 0xff));
    guard();
    expect("hoist: a reset starts over", pch_pic_hoist_reset(image, len, phase, 1, answer, ANSWER) == 0 && answers(0, 0, 0) && phase[0] == 0 && phase[1] == 0x99);
}

static void hoists(void)
{
    static const size_t lengths[] = {IMAGE, IMAGE2, NUMBERED};
    for (int i = 0; i < 3; i++) {
        hoist_start(lengths[i]);
        hoist_refusals(lengths[i]);
        hoist_runs(lengths[i]);
    }
    image_len = IMAGE;
}

/* Asks who waits in an image of that length; the image stays. */
static int waits(size_t len, uint64_t set)
{
    uint8_t before[NUMBERED];
    memcpy(before, image, len);
    guard();
    return pch_pic_waiting(image, len, answer, ANSWER) == 0 && answers(0, 1, set) && memcmp(before, image, len) == 0;
}

/* Inputs 3, 9 and 63 are raised while masked. An unmask announces the lowest alone, and the others wait until they are polled. */
static void who_waits_of(size_t len, size_t count)
{
    uint8_t n;

    image_len = len;
    memset(image, 0x77, sizeof image);
    guard();
    n = pch_pic_reset(image, len, answer, ANSWER);
    expect("after a reset nobody waits", n == 0 && waits(len, 0));
    guard();
    pch_pic_level(image, len, 3, 1, answer, ANSWER);
    pch_pic_level(image, len, 9, 1, answer, ANSWER);
    pch_pic_level(image, len, 63, 1, answer, ANSWER);
    expect("masked inputs do not wait", waits(len, 0));
    pch_pic_write(image, len, 0, 0x400, 0x20, 4, 0, answer, ANSWER);
    expect("one in service does not, one beside it does, a masked one does not", waits(len, 0x200));
    pch_pic_write(image, len, 0, 0x400, 0x24, 4, 0, answer, ANSWER);
    pch_pic_write(image, len, 0, 0x400, 0x3a0, 8, 0, answer, ANSWER);
    expect("out of service all three do, 63 too", waits(len, 0x8000000000000208u));
    guard();
    n = pch_pic_poll(image, len, 63, answer, ANSWER);
    expect("one that waits is polled into service", n == 0 && answer[1] == 1 && answer[8] == 63 && waits(len, 0x208));
    guard();
    n = pch_pic_poll(image, len, 5, answer, ANSWER);
    expect("a poll of another returns nothing", n == 0 && answers(0, 0, 0) && waits(len, 0x208));
    guard();
    n = pch_pic_waiting(image, len, answer, ANSWER - 1);
    expect("7: who waits, with 15 bytes for the answer", n == 7 && untouched());
    guard();
    n = pch_pic_waiting(image, len - 1, answer, ANSWER);
    expect("4: who waits, with a byte less", n == 4 && answers(4, 0, 0));
    image[0] ^= 4;
    guard();
    n = pch_pic_waiting(image, len, answer, ANSWER);
    expect("5: who waits, of no form", n == 5 && answers(5, 0, 0));
    image[0] ^= 4;
    image[count] = 17;
    guard();
    n = pch_pic_waiting(image, len, answer, ANSWER);
    expect("9: who waits, where 17 events do", n == 9 && answers(9, 1, count));
}

static void who_waits(void)
{
    who_waits_of(IMAGE, 222);
    who_waits_of(IMAGE2, 214);
    who_waits_of(NUMBERED, 219);
    image_len = IMAGE;
}

int main(void)
{
    uint8_t before[IMAGE];
    uint8_t n;

    memset(image, 0x77, sizeof image);
    guard();
    n = pch_pic_reset(image, IMAGE, answer, ANSWER);
    expect("reset takes any 259 bytes", n == 0 && answers(0, 0, 0));
    expect("the image says form 1, four bodies", image[0] == 1 && image[1] == 4 && image[3] == 22 && image[5] == 72);
    expect("vector 63 is 63", image[158 + 63] == 63);

    guard();
    n = pch_pic_read(image, IMAGE, 0x10000000, 0x400, 0x10000020, 4, answer, ANSWER);
    expect("MASK reads all ones", n == 0 && answers(0, 1, 0xffffffff));

    guard();
    n = pch_pic_level(image, IMAGE, 5, 1, answer, ANSWER);
    expect("a masked input that is raised returns nothing", n == 0 && answers(0, 0, 0));

    guard();
    n = pch_pic_write(image, IMAGE, 0x10000000, 0x400, 0x10000020, 4, 0xffffffdf, answer, ANSWER);
    expect("MASK is written, and says that no event was dropped", n == 0 && answers(0, 1, 0));

    guard();
    n = pch_pic_poll(image, IMAGE, 5, answer, ANSWER);
    expect("an input in service returns nothing to a poll", n == 0 && answers(0, 0, 0));

    guard();
    n = pch_pic_drain(image, IMAGE, events, 8, 3, answer, ANSWER);
    expect("the assert is drained at its place", n == 0 && answers(0, 1, 1) && events[2] == 0xc3 && event_at(3, 5, 1, 0) && events[7] == 0xc3);

    guard();
    n = pch_pic_level(image, IMAGE, 5, 0, answer, ANSWER);
    expect("lowering it returns its vector", n == 0 && answers(0, 1, 5));

    guard();
    n = pch_pic_table_write(image, IMAGE, 0x10000000, 0x400, 0x1000013e, 4, 0x04030201, answer, ANSWER);
    expect("by the table the last two route bytes are written", n == 0 && answers(0, 1, 0) && image[94 + 62] == 1 && image[94 + 63] == 2);
    guard();
    n = pch_pic_table_read(image, IMAGE, 0x10000000, 0x400, 0x1000013e, 4, answer, ANSWER);
    expect("and read", n == 0 && answers(0, 1, 0x0201));

    memcpy(before, image, IMAGE);
    guard();
    n = pch_pic_table_read(image, IMAGE, 0x10000000, 0x400, 0x100003fc, 8, answer, ANSWER);
    expect("1 by the table: over the window's end, with the address", n == 1 && answers(1, 1, 0x100003fc));
    guard();
    n = pch_pic_table_write(image, IMAGE, 0x10000000, 0x400, 0x10000400, 3, 0, answer, ANSWER);
    expect("2 before 1 by the table", n == 2 && answers(2, 0, 0));
    guard();
    n = pch_pic_read(image, IMAGE, 0x10000000, 0x400, 0x10000400, 4, answer, ANSWER);
    expect("1: outside the window, with the address", n == 1 && answers(1, 1, 0x10000400));
    guard();
    n = pch_pic_read(image, IMAGE, 0x10000000, 0x400, 0x100003fc, 8, answer, ANSWER);
    expect("1: over the window's end, with the address", n == 1 && answers(1, 1, 0x100003fc));
    guard();
    n = pch_pic_write(image, IMAGE, 0x10000000, 0x400, 0x10000400, 3, 0, answer, ANSWER);
    expect("2 before 1: no such width", n == 2 && answers(2, 0, 0));
    guard();
    n = pch_pic_poll(image, IMAGE, 64, answer, ANSWER);
    expect("3: no such input", n == 3 && answers(3, 0, 0));
    guard();
    n = pch_pic_level(image, IMAGE - 1, 64, 1, answer, ANSWER);
    expect("4 before 3: 258 bytes", n == 4 && answers(4, 0, 0));
    guard();
    n = pch_pic_level(image, IMAGE2, 64, 1, answer, ANSWER);
    expect("5 before 3: form 1 in form 2's length", n == 5 && answers(5, 0, 0));
    guard();
    n = pch_pic_reset(NULL, 0, answer, ANSWER);
    expect("4: an empty image", n == 4 && answers(4, 0, 0));
    guard();
    n = pch_pic_drain(image, IMAGE, events, 8, 9, answer, ANSWER);
    expect("7: the place is past the end, and nothing is written", n == 7 && untouched());
    guard();
    n = pch_pic_reset(image, IMAGE, answer, ANSWER - 1);
    expect("7: the answer area is short, and nothing is written", n == 7 && untouched());
    guard();
    n = pch_pic_drain(image, IMAGE, NULL, 0, 0, answer, ANSWER);
    expect("no room moves none", n == 0 && answers(0, 1, 0));
    expect("no refusal changed the image", memcmp(before, image, IMAGE) == 0);

    /* Seventeen inputs in service are masked at once: sixteen deasserts wait, and one is dropped. */
    pch_pic_write(image, IMAGE, 0, 0x400, 0x20, 4, 0, answer, ANSWER);
    for (uint64_t input = 0; input < 17; input++) {
        pch_pic_level(image, IMAGE, input, 1, answer, ANSWER);
    }
    guard();
    n = pch_pic_write(image, IMAGE, 0, 0x400, 0x20, 8, 0xffffffffffffffff, answer, ANSWER);
    expect("a write says how many events it dropped", n == 0 && answers(0, 1, 1) && image[222] == 16 && image[223] == 1);
    memset(image + 223, 0xff, 4);
    for (uint64_t input = 0; input < 17; input++) {
        pch_pic_level(image, IMAGE, input, 0, answer, ANSWER);
        pch_pic_level(image, IMAGE, input, 1, answer, ANSWER);
    }
    guard();
    n = pch_pic_write(image, IMAGE, 0, 0x400, 0x20, 4, 0, answer, ANSWER);
    expect("and does so where the count has stopped", n == 0 && answers(0, 1, 1) && image[223] == 0xff && image[226] == 0xff);

    image[0] = 2;
    guard();
    n = pch_pic_poll(image, IMAGE, 0, answer, ANSWER);
    expect("5: other contents", n == 5 && answers(5, 0, 0));
    image[0] = 1;
    image[222] = 17;
    guard();
    n = pch_pic_read(image, IMAGE, 0, 0x400, 0, 3, answer, ANSWER);
    expect("9 before 2: seventeen waiting, at the count", n == 9 && answers(9, 1, 222));
    image[46] ^= 1;
    guard();
    n = pch_pic_read(image, IMAGE, 0, 0x400, 0, 3, answer, ANSWER);
    expect("8 before 9: the copy of IRR, at its first byte", n == 8 && answers(8, 1, 46));
    image[46] ^= 1;
    image[222] = 3;
    image[228 + 2] = 2;
    guard();
    n = pch_pic_poll(image, IMAGE, 64, answer, ANSWER);
    expect("10 before 11 and 3: the first bad flag", n == 10 && answers(10, 1, 230));
    image[228 + 2] = 1;
    guard();
    n = pch_pic_poll(image, IMAGE, 64, answer, ANSWER);
    expect("11 before 3: the first byte behind those that wait", n == 11 && answers(11, 1, 233));

    form_2();
    numbered();
    traces();
    boards();
    hoists();
    who_waits();
    expect("the archive says which kind it is", pch_pic_built == BUILT);
    expect("and its version, which is the header's", strcmp(pch_pic_version(), PCH_PIC_VERSION) == 0);
    expect("with its name before it, and zeros behind", memcmp(pch_pic_linked, linked, sizeof linked) == 0);

    printf("%d passed, %d failed\n", passed, failed);
    return failed != 0;
}
