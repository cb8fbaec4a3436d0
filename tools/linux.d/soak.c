/* Steps by chance. Lines move between the guest's accesses too. From time to time everything is let come to rest, and then nothing may be left. */
#include "scenarios.h"
#include "board.h"
#include "devices.h"
#include "guest.h"

#include <stdio.h>
#include <unistd.h>

typedef unsigned long long ull;
uint64_t soak_steps = 1000000, soak_seed = 1;
_Bool soak_keeps;

static uint64_t chance(uint64_t below)
{
    static uint64_t state;
    if (state == 0) {
        state = soak_seed * 2 + 1;
    }
    state ^= state << 13;
    state ^= state >> 7;
    state ^= state << 17;
    return (state * UINT64_C(2685821657736338717) >> 11) % below;
}

static unsigned off[DEVICES_MOST]; /* how often each is disabled */
static bool pulses;
static ull between_accesses, interrupts, moves, sleeps, rests, withdrawn;

static void moves_a_line(void)
{
    static bool inside;
    if (!inside && chance(8) == 0) {
        inside = true;
        work(&devices[chance(devices_count)]);
        between_accesses++;
        inside = false;
    }
}

static void fickle(struct device *device)
{
    if (device->manner != LEVEL) {
        return;
    }
    if (chance(2) == 0) {
        withdrawn += device->made - device->taken;
        withdraw(device);
    } else {
        device->take = (unsigned)chance(3);
    }
}

static void enables_some(void)
{
    for (unsigned i = 0; i < devices_count; i++) {
        if (off[i] > 0 && chance(4) == 0) {
            off[i]--;
            guest_enable(devices[i].virq);
        }
    }
}

static void moves_or_sleeps(void)
{
    if (chance(64) == 0) {
        board_move();
        moves++;
    } else if (chance(64) == 0 && guest_can_suspend() && !pulses) { /* the driver's own resume clears every edge that waits */
        guest_suspend();
        if (chance(2) == 0) {
            board_reset();
        }
        guest_resume();
        sleeps++;
    }
}

static void step(void)
{
    unsigned i = (unsigned)chance(devices_count);
    uint64_t what = chance(16);
    if (what < 5) {
        work(&devices[i]);
    } else if (what < 11) {
        interrupts += run(1);
    } else if (what < 12) {
        fickle(&devices[i]);
    } else if (what < 13 && off[i] < 3) {
        off[i]++;
        guest_disable(devices[i].virq);
    } else if (what < 15) {
        enables_some();
    } else {
        moves_or_sleeps();
    }
}

static void rest(void)
{
    board_between = NULL;
    for (unsigned i = 0; i < devices_count; i++) {
        for (; off[i] > 0; off[i]--) {
            guest_enable(devices[i].virq);
        }
        devices[i].take = 0;
    }
    interrupts += run(100000);
    at_rest();
    rests++;
    board_between = moves_a_line;
}

static void soak_of(bool with_edges)
{
    ull made = 0, taken = 0, calls = 0;
    pulses = with_edges;
    if (!start_guest(false)) {
        return;
    }
    for (unsigned input = 0; input < guest_inputs(); input++) {
        add_and_ask(input, with_edges && input % 4 == 3 && input / 4 != 4 ? EDGE_PULSE : LEVEL, 0);
    }
    for (unsigned i = 0; i < 8; i++) {
        add_and_ask(16 + i % 4, LEVEL, 0); /* lines 16 to 19 are shared, as PCI's are */
    }
    board_between = moves_a_line;
    for (uint64_t done = 0; done < soak_steps && failures() == 0; done++) {
        step();
        if (chance(256) == 0) {
            rest();
            expect(failures() == 0, "that was at step %llu", (ull)done);
        }
        if (done % 100000 == 0 && isatty(2)) {
            fprintf(stderr, "\r    step %llu of %llu\r", (ull)done, (ull)soak_steps);
        }
    }
    rest();
    /* Two pulses before one call are one call too many, and a bit that is not taken back calls for nothing: both are right. */
    expect(with_edges || soak_keeps || idle_calls(true) == 0, "%llu calls for nothing on lines of one device", (ull)idle_calls(true));
    for (unsigned i = 0; i < devices_count; i++) {
        made += devices[i].made;
        taken += devices[i].taken;
        calls += devices[i].calls;
    }
    printf("    %llu jobs, %llu of them made between two accesses; %llu taken, %llu of them taken back; %llu interrupts, %llu handler calls, %llu for nothing; %llu rests, "
           "%llu moves, %llu suspends; seen %016llx\n",
           made, between_accesses, taken, withdrawn, interrupts, calls, (ull)idle_calls(true), rests, moves, sleeps, (ull)board_sight());
}

void soak(void) { soak_of(false); }
void soak_with_edges(void) { soak_of(true); }

void announced_once(void)
{
    ull rises = 0, calls = 0;
    if (!start_guest(false)) {
        return;
    }
    for (unsigned input = 0; input < guest_inputs(); input++) {
        add_and_ask(input, LEVEL, 0);
    }
    for (uint64_t done = 0; done < soak_steps / 4 && failures() == 0; done++) {
        struct device *device = &devices[chance(devices_count)];
        if (chance(3) == 0) {
            run(1);
        } else {
            rises += device->made == device->taken;
            work(device);
        }
    }
    run(100000);
    for (unsigned i = 0; i < devices_count; i++) {
        calls += devices[i].calls;
    }
    expect(calls == rises && (soak_keeps || idle_calls(false) == 0), "%llu rises, %llu handler calls, %llu for nothing", rises, calls, (ull)idle_calls(false));
    at_rest();
    printf("    %llu rises, %llu handler calls; seen %016llx\n", rises, calls, (ull)board_sight());
}
