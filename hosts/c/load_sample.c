/* A guest's day with a PCH-PIC, told in plain words: start-up as Linux's driver does it, a load sample's line up and down, the device saved to a
 * file and loaded into a fresh host, what comes after sixteen events, a guest that is unkind, a button that is an edge, a recorder that puts events in
 * order, and its own board.
 *     load_sample FILE              plays it; the device goes to FILE, with the numbers of its events
 *     load_sample --show FILE       tells what a saved device holds
 *     load_sample --form F FROM TO  saves what FROM holds to TO, in form 1, 2 or numbered: a host of before version 0.8.0 does not load numbered, and
 *                                   one of before 0.6.0 loads form 1 alone */
#include "pic.h"

#include <errno.h>
#include <inttypes.h>
#include <stdio.h>
#include <stdlib.h>
#include <string.h>

enum { BASE = 0x10000000, SAMPLE = 21, BUTTON = 7, FIRST_VECTOR = 0x40, OTHER_VECTOR = 0x77 };

/* The host's side: the device and its wires. */
struct host {
    struct pic pic;
    struct pic_wires wires;
};

/* The calls of this program are right, so a refusal is a fault of the program. */
static void must(int number)
{
    if (number != PCH_PIC_DONE) {
        fprintf(stderr, "load_sample: refused with %d: %s\n", number, pic_why(number));
        exit(1);
    }
}

/* A file may be anything. */
static void saved(const char *path, int number)
{
    if (number != PCH_PIC_DONE) {
        fprintf(stderr, "load_sample: cannot save %s: %s\n", path, pic_why(number));
        exit(1);
    }
}

static void load(struct pic *pic, const char *path)
{
    uint64_t place = 0;
    int number = pic_load(pic, path, &place);
    if (number == PCH_PIC_DONE) {
        return;
    }
    fprintf(stderr, "load_sample: cannot load %s: %s", path, pic_why(number));
    if (place != 0) {
        fprintf(stderr, ", at byte %" PRIu64, place);
    }
    fprintf(stderr, "\n");
    exit(1);
}

/* A real host asserts or deasserts the vector at its CPUs here. */
static void route(void *above, struct pic_event event)
{
    (void)above;
    printf("  %s vector 0x%02x\n", event.change == PIC_ASSERT ? "assert" : "deassert", event.vector);
}

static struct host new_host(void)
{
    struct host host = {0};
    must(pic_init(&host.pic, BASE));
    host.wires.route = route;
    return host;
}

static void line(struct host *host, uint64_t input, bool high)
{
    must(pic_line(&host->pic, &host->wires, input, high));
}

static uint64_t guest_reads(const struct host *host, uint64_t offset, uint64_t width)
{
    uint64_t value;
    must(pic_read(&host->pic, BASE + offset, width, &value));
    return value;
}

/* After each write of its guest the host settles. A drop is no harm then, but worth a word. */
static void guest_writes(struct host *host, uint64_t offset, uint64_t width, uint64_t value)
{
    uint64_t dropped;
    must(pic_write(&host->pic, BASE + offset, width, value, &dropped));
    must(pic_settle(&host->pic, &host->wires));
    if (dropped != 0) {
        printf("Dropped: %" PRIu64 ". What no event told is read from the board.\n", dropped);
    }
}

/* The order of Linux's driver: vectors and routes byte by byte, then everything masked and cleared, half by half. */
static void start_up(struct host *host)
{
    unsigned inputs = (unsigned)(guest_reads(host, PCH_PIC_REG_ID, 8) >> 48 & 0xff) + 1;
    printf("The guest starts up and finds %u inputs.\n", inputs);
    for (unsigned input = 0; input < inputs; input++) {
        guest_writes(host, PCH_PIC_REG_VECTORS + input, 1, FIRST_VECTOR + input);
        guest_writes(host, PCH_PIC_REG_ROUTES + input, 1, 1);
    }
    for (uint64_t half = 0; half <= PCH_PIC_REG_HIGH; half += PCH_PIC_REG_HIGH) {
        guest_writes(host, PCH_PIC_REG_MASK + half, 4, 0xffffffff);
        guest_writes(host, PCH_PIC_REG_CLEAR + half, 4, 0xffffffff);
        guest_writes(host, PCH_PIC_REG_AUTO0 + half, 4, 0);
        guest_writes(host, PCH_PIC_REG_AUTO1 + half, 4, 0);
        guest_writes(host, PCH_PIC_REG_HTMSI_EN + half, 4, 0xffffffff);
    }
    printf("Input n has vector 0x%02x + n; all inputs are masked.\n", FIRST_VECTOR);
}

static uint64_t mask_without(const struct host *host, unsigned input)
{
    return guest_reads(host, PCH_PIC_REG_MASK, 4) & ~(UINT64_C(1) << input);
}

/* The driver sets the trigger to level, and clears an input before it unmasks it. */
static void one_sample(struct host *host)
{
    printf("The guest unmasks input %d.\n", SAMPLE);
    guest_writes(host, PCH_PIC_REG_EDGE, 4, 0);
    guest_writes(host, PCH_PIC_REG_CLEAR, 4, UINT64_C(1) << SAMPLE);
    guest_writes(host, PCH_PIC_REG_MASK, 4, mask_without(host, SAMPLE));
    printf("A load sample is ready: line %d goes up.\n", SAMPLE);
    line(host, SAMPLE, true);
    printf("The guest reads ISR 0x%08" PRIx64 " and takes the sample; the line goes down.\n", guest_reads(host, PCH_PIC_REG_ISR, 4));
    line(host, SAMPLE, false);
}

/* A sample comes while its input is masked. The unmask announces it, and that event waits in the image while it is saved. */
static void save_and_load(struct host *host, const char *path)
{
    printf("The guest masks input %d, and the next sample comes: the line goes up.\n", SAMPLE);
    guest_writes(host, PCH_PIC_REG_MASK, 4, 0xffffffff);
    line(host, SAMPLE, true);
    printf("The guest clears and unmasks it. The event waits, and the device is saved.\n");
    guest_writes(host, PCH_PIC_REG_CLEAR, 4, UINT64_C(1) << SAMPLE);
    must(pic_write(&host->pic, BASE + PCH_PIC_REG_MASK, 4, mask_without(host, SAMPLE), NULL));
    saved(path, pic_save(&host->pic, PIC_FORM_NUMBERED, path));
    printf("A fresh host loads it; line %d is still high there.\n", SAMPLE);
    *host = new_host();
    load(&host->pic, path);
    must(pic_resume(&host->pic, &host->wires, UINT64_C(1) << SAMPLE));
    printf("The line goes down.\n");
    line(host, SAMPLE, false);
}

static void after_sixteen(struct host *host)
{
    printf("The guest masks everything, and seventeen lines go up.\n");
    guest_writes(host, PCH_PIC_REG_MASK, 4, 0xffffffff);
    for (unsigned input = 0; input <= 16; input++) {
        line(host, input, true);
    }
    printf("The guest unmasks them with one write: the device announces the lowest, one sweep wakes the others.\n");
    guest_writes(host, PCH_PIC_REG_MASK, 4, 0xfffe0000);
    printf("The guest masks them with one write: seventeen events, and sixteen can wait.\n");
    guest_writes(host, PCH_PIC_REG_MASK, 4, 0xffffffff);
    for (unsigned input = 0; input <= 16; input++) {
        line(host, input, false);
    }
}

/* Here events do not tell the whole story: a deassert comes for a vector that was never asserted, or none comes at all. */
static void unkind(struct host *host)
{
    printf("The guest unmasks everything, and line 0 goes up.\n");
    guest_writes(host, PCH_PIC_REG_MASK, 8, 0);
    line(host, 0, true);
    printf("The guest gives input 0 another vector while it is in service.\n");
    guest_writes(host, PCH_PIC_REG_VECTORS, 1, OTHER_VECTOR);
    printf("The guest takes input 0 out of service by a write to ISR; its line is still high.\n");
    guest_writes(host, PCH_PIC_REG_ISR, 8, 0);
    printf("Input 1 gets the same vector, its line goes up, and line 0 goes down.\n");
    guest_writes(host, PCH_PIC_REG_VECTORS + 1, 1, OTHER_VECTOR);
    line(host, 1, true);
    line(host, 0, false);
    printf("Line 1 goes down.\n");
    line(host, 1, false);
}

/* The button is an edge: pressed and let go before the guest looks, it has come all the same, and held down it comes once. */
static void button(struct host *host)
{
    printf("The guest makes input %d an edge, for a button, and unmasks it alone.\n", BUTTON);
    guest_writes(host, PCH_PIC_REG_MASK, 8, ~(UINT64_C(1) << BUTTON));
    guest_writes(host, PCH_PIC_REG_EDGE, 4, UINT64_C(1) << BUTTON);
    printf("The button is pressed and let go: the line goes up and down.\n");
    line(host, BUTTON, true);
    line(host, BUTTON, false);
    printf("The guest clears the edge and takes the press.\n");
    guest_writes(host, PCH_PIC_REG_CLEAR, 4, UINT64_C(1) << BUTTON);
    printf("The button is held down: the line goes up and stays.\n");
    line(host, BUTTON, true);
    printf("The guest clears the edge; the line is still up, and no second edge.\n");
    guest_writes(host, PCH_PIC_REG_CLEAR, 4, UINT64_C(1) << BUTTON);
    line(host, BUTTON, false);
    guest_writes(host, PCH_PIC_REG_EDGE, 4, 0);
}

static void print_events(const struct pic_event *events, size_t count)
{
    for (size_t i = 0; i < count; i++) {
        printf("  number %" PRId32 ": %s vector 0x%02x\n", events[i].number, events[i].change == PIC_ASSERT ? "assert" : "deassert", events[i].vector);
    }
}

/* A recorder keeps every event. One that is returned comes to it at once, one that waits only when the host drains; the numbers say in which order the
 * device made them. This host drains late, and so the order is another. */
static void recorded(struct host *host)
{
    struct pic_event events[2 + PCH_PIC_EVENTS];
    size_t drained;
    printf("The guest masks everything, and line 3 goes up. It unmasks inputs 3 and 5, line 3 goes down, line 5 up, and it clears input 5.\n");
    guest_writes(host, PCH_PIC_REG_MASK, 4, 0xffffffff);
    line(host, 3, true);
    must(pic_write(&host->pic, BASE + PCH_PIC_REG_MASK, 4, ~UINT64_C(0x28), NULL));
    must(pic_level(&host->pic, 3, false, &events[0]));
    must(pic_level(&host->pic, 5, true, &events[1]));
    must(pic_write(&host->pic, BASE + PCH_PIC_REG_CLEAR, 4, 0x28, NULL));
    must(pic_drain(&host->pic, events + 2, &drained));
    printf("The recorder gets what is returned at once, and the rest from a drain at the end:\n");
    print_events(events, 2 + drained);
    printf("By their numbers it puts them in the order in which they were made:\n");
    pic_in_order(events, 2 + drained);
    print_events(events, 2 + drained);
    line(host, 3, false);
    line(host, 5, false);
}

static void print_on(const char *whose, const uint8_t board[PCH_PIC_BOARD_LEN])
{
    printf("%s", whose);
    for (unsigned vector = 0; vector < PIC_VECTORS; vector++) {
        if (board[vector] != 0) {
            printf(" 0x%02x", vector);
        }
    }
    printf("\n");
}

/* A recorder that has the events of a device since its reset, and not the device, knows which vectors are on all the same. */
static void second_board(void)
{
    struct pic pic;
    struct pic_event none, events[2 + PCH_PIC_EVENTS];
    uint8_t heard[PCH_PIC_BOARD_LEN] = {0};
    size_t drained;
    printf("A fresh device: line 5 goes up, the guest unmasks everything, line 5 goes down and line 9 up. A recorder hears the events in the order of making.\n");
    must(pic_init(&pic, BASE));
    must(pic_level(&pic, 5, true, &none));
    must(pic_write(&pic, BASE + PCH_PIC_REG_MASK, 4, 0, NULL));
    must(pic_level(&pic, 5, false, &events[0]));
    must(pic_level(&pic, 9, true, &events[1]));
    must(pic_drain(&pic, events + 2, &drained));
    pic_by_number(events, 2 + drained);
    for (size_t i = 0; i < 2 + drained; i++) {
        must(pic_hear(heard, events[i]));
    }
    print_on("On by the device's board:", pic.board);
    print_on("On by the recorder's:", heard);
}

/* All of standard output is written, or it is told. */
static int written(int status)
{
    if (fflush(stdout) != 0 || ferror(stdout)) {
        fprintf(stderr, "load_sample: standard output: %s\n", strerror(errno));
        return 1;
    }
    return status;
}

static int play(const char *path)
{
    struct host host = new_host();
    int left = 0;
    start_up(&host);
    one_sample(&host);
    save_and_load(&host, path);
    after_sixteen(&host);
    unkind(&host);
    button(&host);
    recorded(&host);
    second_board();
    for (unsigned vector = 0; vector < PIC_VECTORS; vector++) {
        left += host.wires.on[vector];
    }
    printf("Vectors left on: %d.\n", left);
    return left != 0;
}

static void show(const char *path)
{
    struct host host = new_host();
    load(&host.pic, path);
    printf("Latched 0x%016" PRIx64 ", in service 0x%016" PRIx64 ", masked 0x%016" PRIx64 ".\n", pic_latched(&host.pic), pic_service(&host.pic),
           guest_reads(&host, PCH_PIC_REG_MASK, 8));
    printf("Waiting events: %u. Dropped: %" PRIu32 ".\n", pic_waiting(&host.pic), pic_drops(&host.pic));
    printf("The next event gets number %u.\n", (unsigned)pic_next(&host.pic));
}

static void convert(enum pic_form form, const char *from, const char *to)
{
    struct host host = new_host();
    load(&host.pic, from);
    saved(to, pic_save(&host.pic, form, to));
}

/* A form by the word for it; 0 for none. */
static int form_of(const char *word)
{
    return strcmp(word, "1") == 0 ? PIC_FORM_1 : strcmp(word, "2") == 0 ? PIC_FORM_2 : strcmp(word, "numbered") == 0 ? PIC_FORM_NUMBERED : 0;
}

int main(int argc, char **argv)
{
    if (!pic_fits()) {
        fprintf(stderr, "load_sample: compiled for version %s of pch_pic, and linked with %s\n", PCH_PIC_VERSION, pch_pic_version());
        return 1;
    }
    if (argc == 2 && argv[1][0] != '-') {
        return written(play(argv[1]));
    }
    if (argc == 3 && strcmp(argv[1], "--show") == 0) {
        show(argv[2]);
        return written(0);
    }
    if (argc == 5 && strcmp(argv[1], "--form") == 0 && form_of(argv[2]) != 0) {
        convert((enum pic_form)form_of(argv[2]), argv[3], argv[4]);
        return 0;
    }
    fprintf(stderr, "usage: load_sample FILE | load_sample --show FILE | load_sample --form 1|2|numbered FROM TO\n");
    return 2;
}
