/* Guests that no driver would write, and what a host makes of them: after each step the board counts the inputs in service, and the vectors that are on
 * above are theirs. Also a second board, files that are damaged, and reads of an image that cannot be written.
 *     guests FOLDER   plays them, with its files in FOLDER; the last line is 'N passed, M failed' */
#define _DEFAULT_SOURCE
#include "pic.h"

#include <stdio.h>
#include <stdlib.h>
#include <string.h>
#include <sys/mman.h>
#include <sys/stat.h>
#include <unistd.h>

enum {
    BASE = 0x10000000,
    HEAD_LEN = 12,
    SUM_LEN = 4,
    IMAGE_LEN = PCH_PIC_IMAGE2_NUMBERED_LEN,
    SAVED_LEN = HEAD_LEN + IMAGE_LEN + SUM_LEN,
    SAVED1_LEN = HEAD_LEN + PCH_PIC_IMAGE_LEN + SUM_LEN
};

static int passed, failed;

static void expect(const char *what, bool ok)
{
    if (ok) {
        passed++;
    } else {
        failed++;
        printf("FAILED: %s\n", what);
    }
}

/* The controller above: what it was told, how often, how often by no event, and the last event's number. */
struct above {
    bool on[PIC_VECTORS];
    unsigned told, again, counted;
    int32_t number;
};

struct host {
    struct pic pic;
    struct pic_wires wires;
    struct above above;
};

static void route(void *whom, struct pic_event event)
{
    struct above *above = whom;
    bool on = event.change == PIC_ASSERT;
    above->told++;
    above->again += above->on[event.vector] == on;
    above->on[event.vector] = on;
    if (event.number == PIC_NO_NUMBER) {
        above->counted++;
    } else {
        above->number = event.number;
    }
}

static void start(struct host *host)
{
    memset(host, 0, sizeof *host);
    host->wires.route = route;
    host->wires.above = &host->above;
    expect("a device is made", pic_init(&host->pic, BASE) == PCH_PIC_DONE);
}

static void writes(struct host *host, uint64_t offset, uint64_t width, uint64_t value)
{
    int number = pic_write(&host->pic, BASE + offset, width, value, NULL);
    if (number == PCH_PIC_DONE) {
        number = pic_settle(&host->pic, &host->wires);
    }
    if (number != PCH_PIC_DONE) {
        expect(pic_why(number), false);
    }
}

static void line(struct host *host, uint64_t input, bool high)
{
    int number = pic_line(&host->pic, &host->wires, input, high);
    if (number != PCH_PIC_DONE) {
        expect(pic_why(number), false);
    }
}

/* The counts that a board ought to have, found out by calls alone: on a copy, lowering an input returns its vector if it was in service. */
static bool counted(const struct pic *pic, uint8_t counts[PIC_VECTORS])
{
    struct pic copy = *pic;
    copy.watch = NULL;
    memset(counts, 0, PIC_VECTORS);
    for (unsigned input = 0; input < PCH_PIC_INPUTS; input++) {
        struct pic_event event;
        if (pic_level(&copy, input, false, &event) != PCH_PIC_DONE) {
            return false;
        }
        counts[event.vector] += event.change == PIC_DEASSERT;
    }
    return memcmp(counts, pic->board, PIC_VECTORS) == 0;
}

/* The board has these counts, and their vectors are on above. */
static bool in_line(const struct host *host)
{
    uint8_t counts[PIC_VECTORS];
    bool want[PIC_VECTORS] = {0};
    if (!counted(&host->pic, counts)) {
        return false;
    }
    for (unsigned vector = 0; vector < PIC_VECTORS; vector++) {
        want[vector] = counts[vector] != 0;
    }
    return memcmp(want, host->above.on, sizeof want) == 0 && memcmp(want, host->wires.on, sizeof want) == 0;
}

/* Whether exactly the vectors of the list, ended by -1, are on. */
static bool only(const struct host *host, const int *list)
{
    bool want[PIC_VECTORS] = {0};
    for (; *list >= 0; list++) {
        want[*list] = true;
    }
    return memcmp(want, host->above.on, sizeof want) == 0 && in_line(host);
}

#define ONLY(host, ...) only(host, (const int[]){__VA_ARGS__, -1})
#define NONE(host) only(host, (const int[]){-1})

static void a_vector_changed_in_service(void)
{
    struct host host;
    start(&host);
    writes(&host, PCH_PIC_REG_MASK, 8, 0);
    line(&host, 0, true);
    expect("vector 0 is on", ONLY(&host, 0));
    writes(&host, PCH_PIC_REG_VECTORS, 1, 0x77);
    expect("the new vector is on in its place", ONLY(&host, 0x77));
    line(&host, 0, false);
    expect("no vector is left on", NONE(&host));
    expect("four things were told", host.above.told == 4 && host.above.again == 0);
    expect("two of them by events, 0 and 1", host.above.counted == 2 && host.above.number == 1 && pic_next(&host.pic) == 2);
}

static void a_write_of_isr(void)
{
    struct host host;
    uint64_t shown = 1;
    start(&host);
    writes(&host, PCH_PIC_REG_ISR, 8, 0x8000000000000020);
    expect("masked inputs are in service", pic_read(&host.pic, BASE + PCH_PIC_REG_ISR, 8, &shown) == PCH_PIC_DONE && shown == 0);
    expect("the stored ISR has them", pic_service(&host.pic) == 0x8000000000000020);
    expect("their vectors are on", ONLY(&host, 5, 63));
    line(&host, 5, false);
    expect("lowered, one is off", ONLY(&host, 63));
    writes(&host, PCH_PIC_REG_ISR, 8, 0);
    expect("written away, the other is off", NONE(&host));
    writes(&host, PCH_PIC_REG_MASK, 8, 0);
    line(&host, 9, true);
    host.above.told = 0;
    writes(&host, PCH_PIC_REG_ISR, 8, 0);
    expect("a line that is still high goes off and on", ONLY(&host, 9) && host.above.told == 2 && host.above.again == 0);
    line(&host, 9, false);
    expect("and then off", NONE(&host));
}

static void a_shared_vector(void)
{
    struct host host;
    start(&host);
    writes(&host, PCH_PIC_REG_VECTORS + 1, 1, 0);
    writes(&host, PCH_PIC_REG_MASK, 8, 0);
    line(&host, 0, true);
    line(&host, 1, true);
    expect("the second input asks again", ONLY(&host, 0) && host.above.told == 2 && host.above.again == 1);
    line(&host, 0, false);
    expect("one of the two holds it on", ONLY(&host, 0) && host.above.told == 2);
    line(&host, 0, true);
    writes(&host, PCH_PIC_REG_VECTORS + 1, 1, 1);
    expect("they part", ONLY(&host, 0, 1));
    writes(&host, PCH_PIC_REG_VECTORS + 1, 1, 0);
    expect("they meet", ONLY(&host, 0));
    host.wires.high = 0;
    writes(&host, PCH_PIC_REG_CLEAR, 8, 3);
    expect("cleared together, it is off", NONE(&host));
}

/* Inputs that are latched, though no line of the wires is high: the unmask announces one of each half, and the sweep wakes the others. */
static void one_sweep(void)
{
    static const uint64_t inputs[] = {3, 5, 40, 63};
    struct host host;
    struct pic_event event;
    start(&host);
    for (size_t i = 0; i < sizeof inputs / sizeof *inputs; i++) {
        expect("masked, it is only latched", pic_level(&host.pic, inputs[i], true, &event) == PCH_PIC_DONE && event.change == PIC_NOTHING);
    }
    writes(&host, PCH_PIC_REG_MASK, 8, 0);
    expect("all that was latched is on, each told once", ONLY(&host, 3, 5, 40, 63) && host.above.told == 4 && host.above.again == 0);
    host.above.told = 0;
    writes(&host, PCH_PIC_REG_ISR, 8, 0);
    expect("taken out by a write of ISR, all go off and on", ONLY(&host, 3, 5, 40, 63) && host.above.told == 8 && host.above.again == 0);
    host.above.told = 0;
    expect("another sweep tells nothing", pic_settle(&host.pic, &host.wires) == PCH_PIC_DONE && host.above.told == 0);
    writes(&host, PCH_PIC_REG_MASK, 8, UINT64_MAX);
    expect("masked, all are off, and no sweep wakes them", NONE(&host) && host.above.told == 4);
}

static void dropped_events(void)
{
    struct host host;
    start(&host);
    writes(&host, PCH_PIC_REG_MASK, 4, 0);
    for (unsigned input = 0; input < 32; input++) {
        line(&host, input, true);
    }
    writes(&host, PCH_PIC_REG_MASK, 4, 0xffffffff);
    expect("sixteen were dropped by one write", pic_drops(&host.pic) == 16 && pic_waiting(&host.pic) == 0);
    uint64_t dropped = 99;
    expect("a write outside drops none", pic_write(&host.pic, BASE + 0x3fc, 8, 0, &dropped) == PCH_PIC_OUTSIDE && dropped == 0);
    expect("all are off", NONE(&host) && host.above.told == 64);
    writes(&host, PCH_PIC_REG_MASK, 4, 0);
    host.above.told = 0;
    writes(&host, PCH_PIC_REG_CLEAR, 4, 0xffffffff);
    expect("cleared lines go off and on, dropped ones too", pic_drops(&host.pic) == 32 && host.above.told == 64 && host.above.again == 0);
    expect("all are on", in_line(&host) && pic_service(&host.pic) == 0xffffffff);
    expect("a reset while the guest runs", pic_reset(&host.pic) == PCH_PIC_DONE && pic_settle(&host.pic, &host.wires) == PCH_PIC_DONE);
    expect("turns all off, and the lines wait", NONE(&host) && pic_latched(&host.pic) == 0xffffffff);
}

/* Saved: 2 in service, its line falls before the load; 3 too, its line stays; 40 in service and masked; 7 unmasked, its event waits. */
static void a_restore(const char *path)
{
    struct host old, fresh;
    start(&old);
    writes(&old, PCH_PIC_REG_MASK, 8, 0xffffffffffffff80);
    line(&old, 2, true);
    line(&old, 3, true);
    line(&old, 7, true);
    writes(&old, PCH_PIC_REG_ISR + PCH_PIC_REG_HIGH, 4, 0x100);
    expect("a write whose event waits", pic_write(&old.pic, BASE + PCH_PIC_REG_MASK, 4, 0xffffff00, NULL) == PCH_PIC_DONE && pic_waiting(&old.pic) == 1);
    for (int form = PIC_FORM_1; form <= PIC_FORM_NUMBERED; form++) {
        uint8_t saved[IMAGE_LEN], again[IMAGE_LEN];
        expect("the device is saved", pic_save(&old.pic, (enum pic_form)form, path) == PCH_PIC_DONE);
        start(&fresh);
        expect("and loaded", pic_load(&fresh.pic, path, NULL) == PCH_PIC_DONE);
        expect("whole, but for numbers", pic_image(&old.pic, PIC_FORM_1, saved) == 259 && pic_image(&fresh.pic, PIC_FORM_1, again) == 259 &&
                                             memcmp(saved, again, 259) == 0);
        expect("which forms 1 and 2 lose", pic_next(&fresh.pic) == (form == PIC_FORM_NUMBERED ? 3 : 1));
    }
    expect("whole, with numbers", memcmp(old.pic.image, fresh.pic.image, sizeof old.pic.image) == 0);
    expect("the fresh host goes on", pic_resume(&fresh.pic, &fresh.wires, 1 << 3 | 1 << 7) == PCH_PIC_DONE);
    expect("with what is in service, and no more", ONLY(&fresh, 3, 7, 40) && fresh.above.told == 3);
    expect("a line that fell is not latched", pic_latched(&fresh.pic) == (1 << 3 | 1 << 7));
    /* A controller above that was restored too has its vectors on already. */
    start(&fresh);
    expect("loaded once more", pic_load(&fresh.pic, path, NULL) == PCH_PIC_DONE);
    fresh.above.on[2] = fresh.wires.on[2] = fresh.above.on[40] = fresh.wires.on[40] = true;
    expect("the host goes on", pic_resume(&fresh.pic, &fresh.wires, 1 << 3 | 1 << 7) == PCH_PIC_DONE);
    expect("and tells the difference", ONLY(&fresh, 3, 7, 40) && fresh.above.told == 3 && fresh.above.again == 0);
    remove(path);
}

/* An unmasked input 7, edge-triggered. */
static void start_edge(struct host *host)
{
    start(host);
    writes(host, PCH_PIC_REG_EDGE, 8, 1 << 7);
    writes(host, PCH_PIC_REG_MASK, 8, 0);
}

static void pulse(struct host *host, uint64_t input)
{
    line(host, input, true);
    line(host, input, false);
}

static void edges_are_told_once(void)
{
    struct host host;
    bool each = true;
    start_edge(&host);
    for (unsigned count = 0; count < 100; count++) {
        pulse(&host, 7);
        each = each && ONLY(&host, 7) && host.above.told == 2 * count + 1;
        writes(&host, PCH_PIC_REG_CLEAR, 4, 1 << 7);
        each = each && NONE(&host) && host.above.told == 2 * count + 2;
    }
    expect("100 pulses, 100 announced, each until the guest clears it", each && host.above.told == 200 && host.above.again == 0);
    line(&host, 7, true);
    line(&host, 7, true);
    expect("a held edge is announced once", ONLY(&host, 7) && host.above.told == 201);
    for (unsigned count = 0; count < 100; count++) {
        writes(&host, PCH_PIC_REG_CLEAR, 4, 1 << 7);
        writes(&host, PCH_PIC_REG_MASK, 4, 1 << 7);
        writes(&host, PCH_PIC_REG_MASK, 4, 0);
    }
    expect("and never again, whatever the guest writes", NONE(&host) && host.above.told == 202 && pic_latched(&host.pic) == 0);
    line(&host, 7, false);
    expect("its fall is not told", NONE(&host) && host.above.told == 202);
    pulse(&host, 7);
    pulse(&host, 7);
    expect("a second edge before the guest clears the first adds nothing", ONLY(&host, 7) && host.above.told == 203);
    writes(&host, PCH_PIC_REG_CLEAR, 4, 1 << 7);
    writes(&host, PCH_PIC_REG_MASK, 4, 1 << 7);
    pulse(&host, 7);
    expect("masked, a pulse waits", NONE(&host) && pic_latched(&host.pic) == 1 << 7);
    writes(&host, PCH_PIC_REG_MASK, 4, 0);
    expect("and comes with the unmask", ONLY(&host, 7) && host.above.told == 205);
    expect("a reset makes levels of all", pic_reset(&host.pic) == PCH_PIC_DONE && pic_settle(&host.pic, &host.wires) == PCH_PIC_DONE && NONE(&host));
}

static void level_to_edge_and_back(void)
{
    struct host host;
    start(&host);
    writes(&host, PCH_PIC_REG_MASK, 8, 0);
    line(&host, 7, true);
    writes(&host, PCH_PIC_REG_EDGE, 8, 1 << 7);
    expect("a level in service that becomes an edge stays", ONLY(&host, 7) && host.above.told == 1);
    line(&host, 7, false);
    expect("though its line falls", ONLY(&host, 7) && host.above.told == 1);
    writes(&host, PCH_PIC_REG_EDGE, 8, 0);
    expect("as a level it follows its line, and goes off", NONE(&host) && host.above.told == 2 && pic_latched(&host.pic) == 0);
    writes(&host, PCH_PIC_REG_EDGE, 8, 1 << 7);
    line(&host, 7, true);
    writes(&host, PCH_PIC_REG_CLEAR, 8, 1 << 7);
    expect("an edge that was served, its line held", NONE(&host) && host.above.told == 4);
    writes(&host, PCH_PIC_REG_EDGE, 8, 0);
    expect("as a level it is high, and comes", ONLY(&host, 7) && host.above.told == 5);
    writes(&host, PCH_PIC_REG_CLEAR, 8, 1 << 7);
    expect("a level that is cleared comes again", ONLY(&host, 7) && host.above.told == 7);
    line(&host, 7, false);
    writes(&host, PCH_PIC_REG_MASK, 8, UINT64_MAX);
    writes(&host, PCH_PIC_REG_EDGE, 8, 1 << 7);
    pulse(&host, 7);
    writes(&host, PCH_PIC_REG_EDGE, 8, 0);
    writes(&host, PCH_PIC_REG_MASK, 8, 0);
    expect("a masked edge that becomes a level is gone with its line", NONE(&host) && host.above.told == 8);
}

/* Saved: 3 latched and masked, its line fell; 4 in service, its line fell; 5 served, its line held; 6 not yet risen. */
static void edges_across_a_load(void)
{
    for (int form = PIC_FORM_1; form <= PIC_FORM_NUMBERED; form++) {
        struct host old, fresh;
        uint8_t image[IMAGE_LEN];
        start(&old);
        writes(&old, PCH_PIC_REG_EDGE, 8, 0x78);
        writes(&old, PCH_PIC_REG_MASK, 8, ~UINT64_C(0x70));
        pulse(&old, 3);
        pulse(&old, 4);
        line(&old, 5, true);
        writes(&old, PCH_PIC_REG_CLEAR, 8, 1 << 5);
        size_t len = pic_image(&old.pic, (enum pic_form)form, image);
        start(&fresh);
        expect("edges are loaded", pic_take(&fresh.pic, image, len, NULL) == PCH_PIC_DONE && pic_resume(&fresh.pic, &fresh.wires, old.wires.high) == PCH_PIC_DONE);
        expect("what was in service is on, though its line is low", ONLY(&fresh, 4) && fresh.above.told == 1 && pic_latched(&fresh.pic) == 0x18);
        line(&fresh, 6, true);
        expect("an edge that rose since is told", ONLY(&fresh, 4, 6) && fresh.above.told == 2);
        writes(&fresh, PCH_PIC_REG_MASK, 8, ~UINT64_C(0x78));
        expect("one that was masked comes with its unmask", ONLY(&fresh, 3, 4, 6) && fresh.above.told == 3);
        writes(&fresh, PCH_PIC_REG_CLEAR, 8, 0x78);
        expect("each is cleared, and the held one does not come again", NONE(&fresh) && fresh.above.told == 6);
        writes(&fresh, PCH_PIC_REG_EDGE, 8, 0);
        expect("as levels the held ones come", ONLY(&fresh, 5, 6));
    }
}

static uint64_t chance(void)
{
    static uint64_t state = 0x9e3779b97f4a7c15;
    state ^= state << 13;
    state ^= state >> 7;
    state ^= state << 17;
    return state;
}

/* The same device below a new controller. */
static void any_load(struct host *host)
{
    struct pic saved = host->pic;
    uint64_t high = host->wires.high;
    start(host);
    passed--;
    host->pic = saved;
    if (pic_resume(&host->pic, &host->wires, high) != PCH_PIC_DONE) {
        expect("a load at any time", false);
    }
}

static void any_step(struct host *host)
{
    static const uint16_t places[] = {PCH_PIC_REG_MASK, PCH_PIC_REG_CLEAR, PCH_PIC_REG_ISR, PCH_PIC_REG_VECTORS, PCH_PIC_REG_EDGE};
    uint64_t what = chance() % 16;
    if (what < 8) {
        line(host, chance() % PCH_PIC_INPUTS, chance() % 2 == 0);
    } else if (what < 15) {
        uint64_t place = places[chance() % 5];
        uint64_t offset = place + (place == PCH_PIC_REG_VECTORS ? chance() % 64 : chance() % 8);
        writes(host, offset, UINT64_C(1) << chance() % 4, chance() & chance() & chance());
    } else {
        any_load(host);
    }
}

static void any_guest(void)
{
    struct host host;
    bool right = true;
    unsigned most = 0;
    start(&host);
    for (int step = 0; step < 20000 && right; step++) {
        uint64_t masked = 0, edges = 0;
        host.above.told = 0;
        any_step(&host);
        right = in_line(&host) && pic_read(&host.pic, BASE + PCH_PIC_REG_MASK, 8, &masked) == PCH_PIC_DONE &&
                pic_read(&host.pic, BASE + PCH_PIC_REG_EDGE, 8, &edges) == PCH_PIC_DONE;
        right = right && (((host.wires.high & ~edges) | pic_latched(&host.pic)) & ~masked & ~pic_service(&host.pic)) == 0;
        most = host.above.told > most ? host.above.told : most;
    }
    expect("any guest: what is on is in service, and what is high and no edge, or latched, and unmasked, is on", right);
    expect("no step tells more than the events, the vectors and the lines there are", most <= PCH_PIC_EVENTS + PIC_VECTORS + PCH_PIC_INPUTS);
}

/* Guests that flip EDGE at any time, among lines, masks, clears, loads and resets. What is latched is worked out beside the device: a level's latch is its line; an
 * edge's comes with a rise, and goes with a CLEAR or as it becomes a level while its line is low. */
static void any_flip_of_edge(void)
{
    struct host host;
    uint64_t edges = 0, latched = 0;
    bool right = true;
    start(&host);
    for (int step = 0; step < 20000 && right; step++) {
        uint64_t half = chance() % 2 * 32, bits = (chance() & chance() & chance() & 0xffffffff) << half, masked = 0;
        unsigned input = chance() % PCH_PIC_INPUTS;
        bool high = chance() % 2 == 0, was = host.wires.high >> input & 1;
        switch (chance() % 16) {
        case 0: case 1:
            edges = (edges & ~(UINT64_C(0xffffffff) << half)) | bits;
            writes(&host, PCH_PIC_REG_EDGE + half / 8, 4, bits >> half);
            break;
        case 2: case 3:
            latched &= ~bits;
            writes(&host, PCH_PIC_REG_CLEAR + half / 8, 4, bits >> half);
            break;
        case 4: case 5:
            writes(&host, PCH_PIC_REG_MASK + half / 8, 4, bits >> half);
            break;
        case 6:
            any_load(&host);
            break;
        case 7:
            if (chance() % 8 == 0) {
                edges = latched = 0;
                right = pic_reset(&host.pic) == PCH_PIC_DONE && pic_settle(&host.pic, &host.wires) == PCH_PIC_DONE;
            }
            break;
        default:
            latched |= high && !was ? UINT64_C(1) << input : 0;
            line(&host, input, high);
        }
        latched = (latched & edges) | (host.wires.high & ~edges);
        right = right && in_line(&host) && pic_latched(&host.pic) == latched && pic_read(&host.pic, BASE + PCH_PIC_REG_MASK, 8, &masked) == PCH_PIC_DONE;
        right = right && pic_service(&host.pic) == (latched & ~masked);
    }
    expect("any flip of EDGE: a level's latch is its line, an edge's stays until it is cleared, and what is latched and unmasked is in service", right);
}

static uint32_t checksum(const uint8_t *bytes, size_t len)
{
    uint32_t sum = 0xffffffff;
    for (size_t i = 0; i < 8 * len; i++) {
        uint32_t low = (sum ^ bytes[i / 8] >> i % 8) & 1;
        sum = sum >> 1 ^ (low ? 0xedb88320 : 0);
    }
    return ~sum;
}

static void put_file(const char *path, const uint8_t *bytes, size_t len)
{
    FILE *file = fopen(path, "wb");
    if (!file || fwrite(bytes, 1, len, file) != len || fclose(file) != 0) {
        perror(path);
        exit(2);
    }
}

/* A load that hands back number and leaves the device as it was. */
static bool refused(const char *path, int number)
{
    struct pic pic, before;
    pic_init(&pic, BASE);
    before = pic;
    return pic_load(&pic, path, NULL) == number && memcmp(pic.image, before.image, sizeof pic.image) == 0;
}

/* With the checksum made anew, so that the library has to find it. */
static bool forged(const char *path, const uint8_t *saved, size_t len, size_t place, uint8_t byte, int number)
{
    uint8_t bytes[SAVED_LEN];
    memcpy(bytes, saved, len);
    bytes[HEAD_LEN + place] = byte;
    uint32_t sum = checksum(bytes, len - SUM_LEN);
    for (size_t i = 0; i < SUM_LEN; i++) {
        bytes[len - SUM_LEN + i] = (uint8_t)(sum >> 8 * i);
    }
    put_file(path, bytes, len);
    return refused(path, number);
}

static void files(const char *path)
{
    struct pic pic;
    uint8_t saved[SAVED_LEN + 1] = {0}, bytes[SAVED_LEN + 1];
    char beside[5000];
    pic_init(&pic, BASE);
    expect("a device is saved", pic_save(&pic, PIC_FORM_NUMBERED, path) == PCH_PIC_DONE && pic_load(&pic, path, NULL) == PCH_PIC_DONE);
    FILE *file = fopen(path, "rb");
    expect("in as many bytes as the form says", file && fread(saved, 1, sizeof saved, file) == SAVED_LEN && fclose(file) == 0);
    snprintf(beside, sizeof beside, "%s.new", path);
    expect("and nothing is left beside it", access(beside, F_OK) != 0);
    bool found = true;
    for (size_t place = 0; place < SAVED_LEN; place++) {
        memcpy(bytes, saved, sizeof bytes);
        bytes[place] ^= 1 << place % 8;
        put_file(path, bytes, SAVED_LEN);
        found = found && refused(path, place < 8 ? PIC_FOREIGN : place < HEAD_LEN ? PIC_TORN : PIC_DAMAGED);
    }
    expect("a changed byte is found, wherever it is", found);
    for (size_t len = 0; len <= sizeof saved; len++) {
        put_file(path, saved, len);
        found = found && (len == SAVED_LEN || refused(path, len < 8 ? PIC_FOREIGN : PIC_TORN));
    }
    expect("so is a file that is cut short or too long", found);
    put_file(path, pic.image, sizeof pic.image);
    expect("a bare image is no saved device", refused(path, PIC_FOREIGN));
    expect("another form is refused by the library", forged(path, saved, SAVED_LEN, PCH_PIC_IMAGE_FORM, 1, PCH_PIC_CONTENTS));
    expect("so is a broken rule", forged(path, saved, SAVED_LEN, IMAGE_LEN - 1, 1, PCH_PIC_UNUSED));
    remove(path);
    expect("no file, no load", refused(path, PIC_FILE));
    expect("what stands beside it stays", mkfifo(beside, 0600) == 0 && pic_save(&pic, PIC_FORM_2, path) == PCH_PIC_DONE && remove(beside) == 0);
    remove(path);
    expect("what is no plain file is not replaced", mkfifo(path, 0600) == 0 && pic_save(&pic, PIC_FORM_2, path) == PIC_FILE);
    remove(path);
    snprintf(beside, sizeof beside, "%s/device", path);
    expect("no folder, no save", pic_save(&pic, PIC_FORM_2, beside) == PIC_FILE);
}

/* The device in each form: there and back, in a file and in memory, and what is no image of a form. */
static void forms(const char *path)
{
    struct host host;
    struct pic other;
    uint8_t one[IMAGE_LEN], two[IMAGE_LEN], numbered[IMAGE_LEN], again[IMAGE_LEN], saved[SAVED1_LEN + 1];
    uint64_t place = 0;
    start(&host);
    writes(&host, PCH_PIC_REG_MASK, 8, 0xfffffffffffffff0);
    line(&host, 2, true);
    line(&host, 40, true);
    expect("form 1 has 259 bytes and form 2 has 251", pic_image(&host.pic, PIC_FORM_1, one) == 259 && pic_image(&host.pic, PIC_FORM_2, two) == 251);
    expect("with numbers it has 290", pic_image(&host.pic, PIC_FORM_NUMBERED, numbered) == 290 && memcmp(numbered, host.pic.image, 290) == 0);
    expect("each says which it is", one[PCH_PIC_IMAGE_FORM] == 1 && two[PCH_PIC_IMAGE_FORM] == 2 && two[PCH_PIC_IMAGE_BODIES] == 4);
    expect("numbers are a fifth body of form 2", numbered[PCH_PIC_IMAGE_FORM] == 2 && numbered[PCH_PIC_IMAGE_BODIES] == 5 &&
                                                     memcmp(numbered + 27, two + 22, 229) == 0);
    expect("there is no other", pic_image(&host.pic, (enum pic_form)4, again) == 0 && pic_image(&host.pic, (enum pic_form)0, again) == 0);
    pic_init(&other, BASE);
    expect("form 1 is taken", pic_take(&other, one, 259, &place) == PCH_PIC_DONE && memcmp(other.image, host.pic.image, 256) == 0);
    expect("and its numbers begin anew", pic_next(&host.pic) == 1 && pic_next(&other) == 0);
    expect("and given back with the same bytes", pic_image(&other, PIC_FORM_1, again) == 259 && memcmp(again, one, 259) == 0 && place == 0);
    expect("so is form 2", pic_take(&other, two, 251, &place) == PCH_PIC_DONE && pic_image(&other, PIC_FORM_2, again) == 251 &&
                               memcmp(again, two, 251) == 0);
    expect("and numbers", pic_take(&other, numbered, 290, &place) == PCH_PIC_DONE && memcmp(other.image, host.pic.image, 290) == 0);
    expect("lengths between them are refused", pic_take(&other, one, 258, &place) == PCH_PIC_LENGTH && pic_take(&other, one, 252, NULL) == PCH_PIC_LENGTH &&
                                                   pic_take(&other, numbered, 289, NULL) == PCH_PIC_LENGTH);
    expect("so is one form in another's length", pic_take(&other, one, 251, &place) == PCH_PIC_CONTENTS && place == 0 &&
                                                     pic_take(&other, numbered, 251, &place) == PCH_PIC_CONTENTS && place == 0);
    one[46] ^= 1;
    expect("form 1 has a copy of IRR to break", pic_take(&other, one, 259, &place) == PCH_PIC_COPY && place == 46);
    one[46] ^= 1;
    one[222] = two[214] = numbered[219] = 17;
    expect("a count stands elsewhere in each form", pic_take(&other, one, 259, &place) == PCH_PIC_COUNT && place == 222 &&
                                                        pic_take(&other, two, 251, &place) == PCH_PIC_COUNT && place == 214 &&
                                                        pic_take(&other, numbered, 290, &place) == PCH_PIC_COUNT && place == 219);
    numbered[219] = 1;
    numbered[258] = 9;
    numbered[261] = 1;
    expect("an unused number is not zero", pic_take(&other, numbered, 290, &place) == PCH_PIC_UNUSED && place == 261);
    expect("no refusal changed the device", memcmp(other.image, host.pic.image, 290) == 0);
    expect("a file of form 1", pic_save(&host.pic, PIC_FORM_1, path) == PCH_PIC_DONE);
    FILE *file = fopen(path, "rb");
    expect("has the length of older hosts' files", file && fread(saved, 1, sizeof saved, file) == SAVED1_LEN && fclose(file) == 0);
    expect("and is loaded", pic_init(&other, BASE) == PCH_PIC_DONE && pic_load(&other, path, NULL) == PCH_PIC_DONE &&
                                memcmp(other.image, host.pic.image, 256) == 0);
    expect("the copy of IRR in it is tested", forged(path, saved, SAVED1_LEN, 46, (uint8_t)(saved[HEAD_LEN + 46] ^ 1), PCH_PIC_COPY));
    remove(path);
    expect("what is no form is not saved", pic_save(&host.pic, (enum pic_form)0, path) == PIC_FILE && access(path, F_OK) != 0);
}

/* Events that come to a recorder in another order than they were made in, with numbers that go round on the way. */
static void in_order(void)
{
    struct pic pic;
    struct pic_event events[7 + PCH_PIC_EVENTS], none = {PIC_ASSERT, 7, 9};
    size_t count = 0, drained;
    bool got = pic_init(&pic, BASE) == PCH_PIC_DONE && pic_write(&pic, BASE + PCH_PIC_REG_MASK, 4, 0, NULL) == PCH_PIC_DONE;
    pic.image[256] = 0xfa;
    pic.image[257] = 0xff;
    for (unsigned input = 0; input < 4; input++) {
        got = got && pic_level(&pic, input, true, &events[count++]) == PCH_PIC_DONE;
    }
    /* three deasserts wait, then an assert and a deassert are returned */
    got = got && pic_write(&pic, BASE + PCH_PIC_REG_CLEAR, 4, 7, NULL) == PCH_PIC_DONE;
    got = got && pic_level(&pic, 9, true, &events[count++]) == PCH_PIC_DONE && pic_level(&pic, 3, false, &events[count++]) == PCH_PIC_DONE;
    got = got && pic_drain(&pic, events + count, &drained) == PCH_PIC_DONE && drained == 3;
    expect("a returned event has its number", got && events[0].number == 65530 && events[4].number == 1 && events[5].number == 2);
    expect("a drained one too", events[6].number == 65534 && events[7].number == 65535 && events[8].number == 0 && events[8].vector == 2);
    pic_in_order(events, count + drained);
    bool order = true;
    for (size_t i = 0; i < count + drained; i++) {
        order = order && events[i].number == (int32_t)((65530 + i) % 65536);
    }
    expect("by their numbers they are in order", order && events[8].vector == 3 && events[8].change == PIC_DEASSERT && events[3].vector == 3);
    expect("the next number comes after them", pic_next(&pic) == 3);
    pic_in_order(&none, 1);
    pic_in_order(&none, 0);
    expect("one and none are in order", none.number == 9);
    struct pic_event far[3] = {{.number = 40000}, {.number = 65535}, {.number = 0}};
    pic_by_number(far, 3);
    expect("since a reset a whole round is in order by number", far[0].number == 0 && far[1].number == 40000 && far[2].number == 65535);
}

static int by_number(const void *one, const void *two)
{
    return (int)((const struct pic_event *)one)->number - (int)((const struct pic_event *)two)->number;
}

/* A second board hears the events of 40,000 steps from a reset, by rising number: more than 32,768 events, so that their difference would turn round. The guest
 * drains in time, and keeps ISR and the vectors of inputs in service as they are. */
static void a_second_board(void)
{
    static struct pic_event events[65536];
    struct pic pic;
    uint8_t second[PCH_PIC_BOARD_LEN] = {0}, early[PCH_PIC_BOARD_LEN] = {0}, counts[PIC_VECTORS];
    uint64_t state = 88172645463325252u, high = 0;
    size_t count = 0, drained;
    bool done = pic_init(&pic, BASE) == PCH_PIC_DONE, right = true;
    for (unsigned input = 0; input < PCH_PIC_INPUTS; input++) {
        done = done && pic_write(&pic, BASE + PCH_PIC_REG_VECTORS + input, 1, input / 3, NULL) == PCH_PIC_DONE;
    }
    for (int step = 0; step < 40000 && done; step++) {
        unsigned input;
        state ^= state << 13;
        state ^= state >> 7;
        state ^= state << 17;
        input = state >> 32 & 63;
        if (state % 16 == 0) {
            done = pic_write(&pic, BASE + PCH_PIC_REG_MASK + (input & 4), 4, UINT64_C(1) << (input & 31), NULL) == PCH_PIC_DONE;
        } else if (state % 16 == 1) {
            done = pic_write(&pic, BASE + PCH_PIC_REG_CLEAR + (input & 4), 4, UINT64_C(3) << (input & 15), NULL) == PCH_PIC_DONE;
        } else if (state % 16 == 2) {
            done = pic_poll(&pic, input, &events[count]) == PCH_PIC_DONE;
            count += events[count].change != PIC_NOTHING;
        } else {
            high ^= UINT64_C(1) << input;
            done = pic_level(&pic, input, high >> input & 1, &events[count]) == PCH_PIC_DONE;
            count += events[count].change != PIC_NOTHING;
        }
        if (step % 4 == 3) {
            done = done && pic_drain(&pic, events + count, &drained) == PCH_PIC_DONE;
            count += drained;
        }
        right = right && (step % 64 != 0 || counted(&pic, counts));
    }
    expect("a long day is done, and the board is right all along", done && right && pic_drops(&pic) == 0 && pic_waiting(&pic) == 0);
    expect("it has more than 32,768 events, and at most 65,536", count > 32768 && count <= 65536 && pic_next(&pic) == count % 65536);
    for (size_t i = 0; i < count; i++) {
        done = done && pic_hear(early, events[i]) == PCH_PIC_DONE;
    }
    qsort(events, count, sizeof *events, by_number);
    for (size_t i = 0; i < count; i++) {
        done = done && events[i].number == (int32_t)i && pic_hear(second, events[i]) == PCH_PIC_DONE;
    }
    expect("heard by rising number the second board is the first", done && memcmp(second, pic.board, sizeof second) == 0);
    expect("as they came it is not", memcmp(early, pic.board, sizeof early) != 0);
}

/* A board is right after each call, whatever the guest did: a vector changed in service, a write of ISR, the table, a reset, a load and a refusal. */
static void a_board(void)
{
    struct pic pic, other;
    struct pic_event event;
    uint8_t counts[PIC_VECTORS], before[PIC_VECTORS];
    bool done = pic_init(&pic, BASE) == PCH_PIC_DONE && pic_init(&other, BASE) == PCH_PIC_DONE;
    done = done && pic_write(&pic, BASE + PCH_PIC_REG_ISR, 8, 0x8000000000000021u, NULL) == PCH_PIC_DONE;
    expect("masked inputs in service count", done && counted(&pic, counts) && pic_on(&pic, 0) && pic_on(&pic, 5) && pic_on(&pic, 63) && !pic_on(&pic, 1));
    done = pic_write(&pic, BASE + PCH_PIC_REG_VECTORS + 5, 1, 63, NULL) == PCH_PIC_DONE;
    expect("a vector changed in service moves both counts", done && counted(&pic, counts) && pic.board[5] == 0 && pic.board[63] == 2);
    done = pic_table_write(&pic, BASE + PCH_PIC_REG_VECTORS, 1, 63, NULL) == PCH_PIC_DONE;
    expect("by the table too", done && counted(&pic, counts) && pic.board[63] == 3);
    done = pic_level(&pic, 5, false, &event) == PCH_PIC_DONE;
    expect("a lower takes one away", done && event.vector == 63 && counted(&pic, counts) && pic.board[63] == 2);
    memcpy(before, pic.board, sizeof before);
    expect("a refused call leaves it", pic_poll(&pic, 64, &event) == PCH_PIC_INPUT && pic_write(&pic, BASE - 1, 1, 0, NULL) == PCH_PIC_OUTSIDE &&
                                           memcmp(before, pic.board, sizeof before) == 0);
    memset(other.board, 0xee, sizeof other.board);
    expect("a load counts anew", pic_take(&other, pic.image, sizeof pic.image, NULL) == PCH_PIC_DONE && memcmp(other.board, pic.board, sizeof pic.board) == 0);
    memset(counts, 0, sizeof counts);
    expect("after a reset no vector is on", pic_reset(&pic) == PCH_PIC_DONE && memcmp(pic.board, counts, sizeof counts) == 0);
    event.change = PIC_NOTHING;
    expect("nothing is no event", pic_hear(counts, event) == PCH_PIC_DONE && memcmp(pic.board, counts, sizeof counts) == 0);
}

/* Why reads may run side by side: on pages that cannot be written, a read that stored anything would end this program. */
static void reads_only_load(void)
{
    static const size_t lens[] = {PCH_PIC_IMAGE_LEN, PCH_PIC_IMAGE2_LEN, PCH_PIC_IMAGE2_NUMBERED_LEN};
    uint8_t *page = mmap(NULL, 4096, PROT_READ | PROT_WRITE, MAP_PRIVATE | MAP_ANONYMOUS, -1, 0), answer[PCH_PIC_ANSWER_LEN];
    int numbers = 0;
    if (page == MAP_FAILED) {
        perror("mmap");
        exit(2);
    }
    for (size_t form = 0; form < sizeof lens / sizeof *lens; form++) {
        uint8_t target[IMAGE_LEN], board[PCH_PIC_BOARD_LEN];
        size_t len = lens[form];
        mprotect(page, 4096, PROT_READ | PROT_WRITE);
        pch_pic_reset(page, len, answer, sizeof answer);
        mprotect(page, 4096, PROT_READ);
        for (uint64_t address = 0; address <= PCH_PIC_WINDOW_LEN; address++) {
            for (uint64_t width = 0; width <= 8; width++) {
                numbers |= 1 << pch_pic_table_read(page, len, 0, PCH_PIC_WINDOW_LEN, address, width, answer, sizeof answer);
                numbers |= 1 << pch_pic_board_read(page, len, board, sizeof board, 0, PCH_PIC_WINDOW_LEN, address, width, answer, sizeof answer);
                numbers |= 1 << pch_pic_read(page, len, 0, PCH_PIC_WINDOW_LEN, address, width, answer, sizeof answer);
            }
        }
        for (size_t to = 0; to < sizeof lens / sizeof *lens; to++) {
            expect("a conversion only loads from the image", pch_pic_convert(page, len, target, lens[to], answer, sizeof answer) == PCH_PIC_DONE);
        }
    }
    expect("a read only loads from the image", numbers == (1 << PCH_PIC_DONE | 1 << PCH_PIC_OUTSIDE | 1 << PCH_PIC_WIDTH));
    munmap(page, 4096);
}

/* Every offset by every width: by the table nothing is different. */
static void by_the_table(void)
{
    struct pic plain, table;
    uint64_t value, other, dropped, lost;
    bool same = pic_init(&plain, BASE) == PCH_PIC_DONE && pic_init(&table, BASE) == PCH_PIC_DONE;
    for (uint64_t offset = 0; offset <= PCH_PIC_WINDOW_LEN; offset++) {
        for (uint64_t width = 1; width <= 8; width++) {
            uint64_t written = (offset + 1) * 0x9e3779b97f4a7c15u;
            same = same && pic_table_read(&table, BASE + offset, width, &other) == pic_read(&plain, BASE + offset, width, &value) && other == value &&
                   pic_table_write(&table, BASE + offset, width, written, &lost) == pic_write(&plain, BASE + offset, width, written, &dropped) &&
                   lost == dropped && memcmp(table.image, plain.image, sizeof plain.image) == 0;
        }
    }
    expect("by the table nothing is different", same);
}

static void what_is_no_device(void)
{
    struct pic pic = {0};
    struct pic_wires wires = {0};
    struct pic_event event;
    memset(pic.image, 0xff, sizeof pic.image);
    expect("of no image, all is 0", pic_latched(&pic) == 0 && pic_service(&pic) == 0 && pic_vector(&pic, 63) == 0);
    expect("the events' counts and numbers too", pic_waiting(&pic) == 0 && pic_drops(&pic) == 0 && pic_next(&pic) == 0);
    expect("and all is refused", pic_settle(&pic, &wires) == PCH_PIC_CONTENTS && pic_line(&pic, &wires, 0, true) == PCH_PIC_CONTENTS &&
                                     pic_resume(&pic, &wires, 1) == PCH_PIC_CONTENTS);
    pic_init(&pic, BASE);
    expect("a poll of nothing", pic_poll(&pic, 63, &event) == PCH_PIC_DONE && event.change == PIC_NOTHING);
    expect("there is no input 64", pic_poll(&pic, 64, &event) == PCH_PIC_INPUT && pic_line(&pic, &wires, 64, true) == PCH_PIC_INPUT &&
                                       pic_line(&pic, &wires, UINT64_MAX, false) == PCH_PIC_INPUT);
    expect("each input has its vector", pic_vector(&pic, 0) == 0 && pic_vector(&pic, 63) == 63 && pic_vector(&pic, 64) == 0);
    expect("numbers in words", strcmp(pic_why(PCH_PIC_COUNT), "the image says that more than 16 events wait") == 0 && strcmp(pic_why(99), "unknown number") == 0);
}

/* What an image holds is found by its contents, so a form with other places is read as well: here the routes are left out. */
static void another_form(void)
{
    static const uint8_t contents[] = {3, 3, 1, 17, 0, 64, 0, 3, 81, 0, 64, 0, 4, 145, 0, 37, 0};
    struct pic pic = {0};
    memcpy(pic.image, contents, sizeof contents);
    pic.image[17 + 24] = 0x21;
    pic.image[17 + 32] = 0x23;
    pic.image[81 + 5] = 0x99;
    pic.image[145] = 3;
    pic.image[145 + 4] = 0x80;
    expect("IRR, ISR and a vector in another form", pic_latched(&pic) == 0x21 && pic_service(&pic) == 0x23 && pic_vector(&pic, 5) == 0x99);
    expect("how many wait and were dropped in it", pic_waiting(&pic) == 3 && pic_drops(&pic) == 0x80000000);
    expect("it has no numbers", pic_next(&pic) == 0);
}

int main(int argc, char **argv)
{
    char path[4096];
    if (argc != 2 || snprintf(path, sizeof path, "%s/guests.device", argv[1]) >= (int)sizeof path) {
        fprintf(stderr, "usage: guests FOLDER\n");
        return 2;
    }
    a_vector_changed_in_service();
    a_write_of_isr();
    a_shared_vector();
    one_sweep();
    dropped_events();
    a_restore(path);
    edges_are_told_once();
    level_to_edge_and_back();
    edges_across_a_load();
    any_guest();
    any_flip_of_edge();
    files(path);
    forms(path);
    in_order();
    a_board();
    a_second_board();
    reads_only_load();
    by_the_table();
    what_is_no_device();
    another_form();
    printf("%d passed, %d failed\n", passed, failed);
    return failed != 0;
}
