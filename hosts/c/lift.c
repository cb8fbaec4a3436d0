/* A lift of a hoist guest under the hoist profile, told in plain words: start-up by aligned Dwords, the end of start-up, a lift with load samples, and what the
 * profile refuses on the way.
 *     lift    plays it */
#include "hoist.h"

#include <errno.h>
#include <inttypes.h>
#include <stdio.h>
#include <stdlib.h>
#include <string.h>

enum { BASE = 0x10000000, SAMPLE = 21, FIRST_VECTOR = 0x40, SAMPLES = 3 };

/* The host's side: the device, its phase and its wires. */
struct host {
    struct hoist hoist;
    struct pic_wires wires;
};

static void must(int number)
{
    if (number != PCH_PIC_DONE) {
        fprintf(stderr, "lift: refused with %d: %s\n", number, pic_why(number));
        exit(1);
    }
}

/* A real host asserts or deasserts the vector at its CPUs here. */
static void route(void *above, struct pic_event event)
{
    (void)above;
    printf("  %s vector 0x%02x\n", event.change == PIC_ASSERT ? "assert" : "deassert", event.vector);
}

static uint32_t guest_reads(const struct host *host, uint64_t offset)
{
    uint64_t value;
    must(hoist_read(&host->hoist, BASE + offset, 4, &value));
    return (uint32_t)value;
}

static void guest_writes(struct host *host, uint64_t offset, uint32_t value)
{
    must(hoist_write(&host->hoist, BASE + offset, 4, value, NULL));
    must(pic_settle(&host->hoist.pic, &host->wires));
}

/* What the profile refuses changes nothing, so the host has nothing to settle: it tells the guest, or stops it. */
static void tries(struct host *host, const char *what, uint64_t offset, uint64_t width, uint64_t value)
{
    int number = hoist_write(&host->hoist, BASE + offset, width, value, NULL);
    printf("The guest tries %s: refused with %d, %s.\n", what, number, pic_why(number));
}

static void ends_startup(struct host *host)
{
    int number = hoist_end_startup(&host->hoist);
    if (number == PCH_PIC_DONE) {
        printf("The guest says that start-up is over.\n");
    } else {
        printf("The guest says that start-up is over: refused with %d, %s.\n", number, pic_why(number));
    }
}

static void line(struct host *host, bool high)
{
    must(pic_line(&host->hoist.pic, &host->wires, SAMPLE, high));
}

/* Four vectors a write, low input first, then everything masked and cleared. */
static void start_up(struct host *host)
{
    printf("The guest starts up: vectors and routes four at a time, all inputs masked and cleared.\n");
    for (uint32_t input = 0; input < PCH_PIC_INPUTS; input += 4) {
        uint32_t first = FIRST_VECTOR + input;
        guest_writes(host, PCH_PIC_REG_VECTORS + input, first | (first + 1) << 8 | (first + 2) << 16 | (first + 3) << 24);
        guest_writes(host, PCH_PIC_REG_ROUTES + input, 0x01010101);
    }
    for (uint64_t half = 0; half <= PCH_PIC_REG_HIGH; half += PCH_PIC_REG_HIGH) {
        guest_writes(host, PCH_PIC_REG_MASK + half, 0xffffffff);
        guest_writes(host, PCH_PIC_REG_CLEAR + half, 0xffffffff);
        guest_writes(host, PCH_PIC_REG_HTMSI_EN + half, 0xffffffff);
    }
}

/* A sample that comes too early: its input is in service, and so start-up cannot end, nor can its vector change. */
static void early_sample(struct host *host)
{
    printf("It unmasks input %d, and a load sample is ready at once: line %d goes up.\n", SAMPLE, SAMPLE);
    guest_writes(host, PCH_PIC_REG_MASK, ~(UINT32_C(1) << SAMPLE));
    line(host, true);
    ends_startup(host);
    tries(host, "to change its vector", PCH_PIC_REG_VECTORS + SAMPLE - SAMPLE % 4, 4, 0);
    tries(host, "to write a Byte", PCH_PIC_REG_EDGE, 1, 0);
    printf("It takes the sample; the line goes down.\n");
    line(host, false);
}

static void lift(struct host *host)
{
    printf("The hook goes up.\n");
    for (unsigned sample = 1; sample <= SAMPLES; sample++) {
        printf("Load sample %u: line %d goes up.\n", sample, SAMPLE);
        line(host, true);
        printf("The guest reads ISR 0x%08" PRIx32 " and takes it; the line goes down.\n", guest_reads(host, PCH_PIC_REG_ISR));
        line(host, false);
    }
}

int main(void)
{
    struct host host = {0};
    int left = 0;
    must(hoist_init(&host.hoist, BASE));
    host.wires.route = route;
    start_up(&host);
    early_sample(&host);
    ends_startup(&host);
    ends_startup(&host);
    tries(&host, "to write a vector as it stands", PCH_PIC_REG_VECTORS, 4, 0x43424140);
    tries(&host, "to write ISR", PCH_PIC_REG_ISR, 4, 0);
    lift(&host);
    for (unsigned vector = 0; vector < PIC_VECTORS; vector++) {
        left += host.wires.on[vector];
    }
    printf("Vectors left on: %d. The next event gets number %u.\n", left, (unsigned)pic_next(&host.hoist.pic));
    if (fflush(stdout) != 0 || ferror(stdout)) {
        fprintf(stderr, "lift: standard output: %s\n", strerror(errno));
        return 1;
    }
    return 0;
}
