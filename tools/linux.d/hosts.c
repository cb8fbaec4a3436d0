#include "hosts.h"
#include "pic.h"

#include <stdio.h>
#include <stdlib.h>
#include <string.h>

static struct pic pic;
static struct pic_wires wires;
static uint64_t lines;
unsigned duties = DUTY_ALL;

/* The calls of these hosts are right, so a refusal is a fault of theirs. */
static void must(int number)
{
    if (number != PCH_PIC_DONE) {
        fflush(stdout);
        fprintf(stderr, "the host: refused with %d: %s\n", number, pic_why(number));
        abort();
    }
}

static void route(void *above, struct pic_event event)
{
    (void)above;
    board_told(event.vector, event.change == PIC_ASSERT);
}

static uint64_t reads(uint64_t offset, unsigned width)
{
    uint64_t value;
    must(pic_read(&pic, BOARD_BASE + offset, width, &value));
    return value;
}
static uint64_t latched(void) { return pic_latched(&pic); }
static uint64_t service(void) { return pic_service(&pic); }

/* The device in each form in turn, into bytes that held something else. */
static void load_again(void)
{
    static unsigned times;
    uint8_t image[PCH_PIC_IMAGE2_NUMBERED_LEN];
    size_t len = pic_image(&pic, (enum pic_form)(PIC_FORM_1 + times++ % 3), image);
    memset(pic.image, 0xa5, sizeof pic.image);
    must(pic_take(&pic, image, len, NULL));
}

static void reset_device(void)
{
    static bool made;
    must(made ? pic_reset(&pic) : pic_init(&pic, BOARD_BASE));
    made = true;
}

/* The host in C. */
static void c_reset(uint64_t high)
{
    reset_device();
    wires.route = route;
    wires.high = high;
    must(pic_settle(&pic, &wires));
}
static void c_write(uint64_t offset, unsigned width, uint64_t value)
{
    must(pic_write(&pic, BOARD_BASE + offset, width, value, NULL));
    must(pic_settle(&pic, &wires));
}
static void c_line(unsigned input, bool high) { must(pic_line(&pic, &wires, input, high)); }
static void c_move(uint64_t high)
{
    load_again();
    wires.high = wires.edges = 0;
    must(pic_resume(&pic, &wires, high));
}
static bool c_on(unsigned vector) { return wires.on[vector]; }
const struct host host_c = {"hosts/c", c_reset, reads, c_write, c_line, c_move, latched, service, c_on};

int hoist_verdict(bool is_write, bool after_startup, uint64_t offset, unsigned width, uint64_t value)
{
    struct pic copy = pic;
    uint8_t answer[PCH_PIC_ANSWER_LEN], phase = after_startup;
    return is_write ? pch_pic_hoist_write(copy.image, sizeof copy.image, &phase, 1, 0, BOARD_SIZE, offset, width, value, answer, sizeof answer)
                    : pch_pic_hoist_read(copy.image, sizeof copy.image, 0, BOARD_SIZE, offset, width, answer, sizeof answer);
}

/* The host of single duties: plain, and apart from hosts/c. Without DUTY_HOLD it passes every event on as it comes. */
static bool on[BOARD_VECTORS];
static uint64_t edges_before;
static bool does(unsigned duty) { return (duties & duty) != 0; }

static void tell(unsigned vector, bool now)
{
    on[vector] = now;
    board_told(vector, now);
}

static void pass_on(struct pic_event event)
{
    bool asserted = event.change == PIC_ASSERT;
    if (event.change != PIC_NOTHING && (!does(DUTY_HOLD) || (asserted == pic_on(&pic, event.vector) && (asserted || on[event.vector])))) {
        tell(event.vector, asserted);
    }
}

static void move_level(unsigned input, bool high)
{
    struct pic_event event;
    must(pic_level(&pic, input, high, &event));
    pass_on(event);
}

static void drain(void)
{
    struct pic_event events[PCH_PIC_EVENTS];
    size_t count;
    must(pic_drain(&pic, events, &count));
    for (size_t i = 0; i < count; i++) {
        pass_on(events[i]);
    }
}

static void count_afresh(void)
{
    for (unsigned vector = 0; vector < BOARD_VECTORS; vector++) {
        if (on[vector] != pic_on(&pic, (uint8_t)vector)) {
            tell(vector, !on[vector]);
        }
    }
}

static void after_a_write(void)
{
    uint64_t edges = does(DUTY_EDGES) ? reads(PCH_PIC_REG_EDGE, 8) : 0, was_latched;
    if (does(DUTY_DRAIN)) {
        drain();
    }
    if (does(DUTY_COUNT)) {
        count_afresh();
    }
    was_latched = pic_latched(&pic);
    for (unsigned input = 0; input < PCH_PIC_INPUTS; input++) {
        uint64_t bit = UINT64_C(1) << input;
        struct pic_event event;
        if (does(DUTY_LEVELS) && (edges_before & ~edges & was_latched & ~lines & bit) != 0) {
            move_level(input, false);
        }
        if (does(DUTY_SWEEP)) {
            must(pic_poll(&pic, input, &event));
            pass_on(event);
        }
        if (does(DUTY_RAISE) && (lines & ~edges & bit) != 0) {
            move_level(input, true);
        }
    }
    edges_before = edges;
}

static void duties_reset(uint64_t high)
{
    reset_device();
    lines = high;
    edges_before = 0;
    if (does(DUTY_RESET)) {
        after_a_write();
    }
}
static void duties_write(uint64_t offset, unsigned width, uint64_t value)
{
    must(pic_write(&pic, BOARD_BASE + offset, width, value, NULL));
    after_a_write();
}
static void duties_line(unsigned input, bool high)
{
    uint64_t bit = UINT64_C(1) << input;
    bool edge = does(DUTY_EDGES) && (reads(PCH_PIC_REG_EDGE, 8) & bit) != 0, rises = high && (lines & bit) == 0;
    lines = high ? lines | bit : lines & ~bit;
    if (!edge || rises) {
        move_level(input, high);
    }
}
static void duties_move(uint64_t high)
{
    uint64_t edges = does(DUTY_EDGES) ? reads(PCH_PIC_REG_EDGE, 8) : 0, fallen = pic_latched(&pic) & ~high & ~edges;
    struct pic_event event;
    load_again();
    lines = high;
    for (unsigned input = 0; input < PCH_PIC_INPUTS && does(DUTY_LOWER); input++) {
        if (fallen >> input & 1) {
            must(pic_level(&pic, input, false, &event));
        }
    }
    if (does(DUTY_RESUME)) {
        after_a_write();
    }
}
static bool duties_on(unsigned vector) { return on[vector]; }
const struct host host_duties = {"single duties", duties_reset, reads, duties_write, duties_line, duties_move, latched, service, duties_on};

#ifdef WITH_RUST
void rust_reset(uint64_t lines);
uint64_t rust_read(uint64_t offset, unsigned width);
void rust_write(uint64_t offset, unsigned width, uint64_t value);
void rust_line(unsigned input, bool high);
void rust_move(uint64_t lines);
uint64_t rust_latched(void);
uint64_t rust_service(void);
bool rust_on(unsigned vector);
const struct host host_rust = {"hosts/rust", rust_reset, rust_read, rust_write, rust_line, rust_move, rust_latched, rust_service, rust_on};
#endif
