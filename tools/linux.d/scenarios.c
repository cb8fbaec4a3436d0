/* What a guest with Linux's driver lives through, each from a fresh start. */
#include "scenarios.h"
#include "board.h"
#include "devices.h"
#include "guest.h"

#include <stdio.h>

typedef unsigned long long ull;
_Bool accesses_told;

static void boots(void)
{
    board_count_accesses();
    if (!start_guest(false)) {
        return;
    }
    expect(guest_inputs() == BOARD_INPUTS, "the driver counts %u inputs", guest_inputs());
    expect(board_peek(0x020, 8) == UINT64_MAX, "MASK is %#llx", (ull)board_peek(0x020, 8));
    expect(board_peek(0x040, 8) == UINT64_MAX, "HTMSI_EN is %#llx", (ull)board_peek(0x040, 8));
    expect(board_peek(0x0c0, 8) == 0 && board_peek(0x0e0, 8) == 0, "AUTO0 or AUTO1 is not 0");
    board_startup_ends();
    for (unsigned input = 0; input < guest_inputs(); input++) {
        struct device *device = add_and_ask(input, input % 3 == 0 ? EDGE_HELD : LEVEL, 0);
        expect(board_peek(0x100 + input, 1) == 1, "the route of input %u is %llu", input, (ull)board_peek(0x100 + input, 1));
        expect(board_peek(0x200 + input, 1) == guest_vector(device->virq), "input %u has vector %llu, and the guest waits for %u", input,
               (ull)board_peek(0x200 + input, 1), guest_vector(device->virq));
        work(device);
        run(10);
        guest_disable(device->virq);
        guest_enable(device->virq);
    }
    if (guest_can_suspend()) {
        guest_suspend();
        guest_resume();
    }
    run(100);
    all_called(1);
    at_rest();
    if (accesses_told) {
        board_print_accesses();
    }
}

static void levels(void)
{
    if (!start_guest(false)) {
        return;
    }
    for (unsigned input = 0; input < guest_inputs(); input++) {
        add_and_ask(input, LEVEL, input % 2 == 0 ? GUEST_LEVEL_HIGH : GUEST_LEVEL_LOW);
    }
    for (unsigned i = 0; i < 5 * devices_count; i++) {
        work(&devices[i / 5]);
        expect(run(10) == 1, "input %u: not one interrupt", i / 5);
    }
    all_called(5);
    at_rest();
}

static void half_served(void)
{
    if (!start_guest(false)) {
        return;
    }
    for (unsigned input = 0; input < guest_inputs(); input++) {
        add_and_ask(input, LEVEL, 0)->take = 1;
    }
    for (unsigned times = 0; times < 5; times++) {
        all_work();
    }
    run(1000);
    all_called(5);
    at_rest();
}

static void high_before(void)
{
    for (unsigned input = 0; input < BOARD_INPUTS; input += 5) {
        board_line(input, true);
    }
    board_reset();
    if (!start_guest(false)) {
        return;
    }
    for (unsigned input = 0; input < guest_inputs(); input++) {
        work(add_device(input, LEVEL, 0));
    }
    for (unsigned i = 0; i < devices_count; i++) {
        ask(&devices[i]);
    }
    run(1000);
    all_called(1);
    at_rest();
}

static void raised_while_off(void)
{
    if (!start_guest(false)) {
        return;
    }
    for (unsigned input = 0; input < guest_inputs(); input++) {
        guest_disable(add_and_ask(input, LEVEL, 0)->virq);
    }
    all_work();
    run(1000);
    all_called(0);
    for (unsigned i = 0; i < devices_count; i++) {
        expect(guest_masked(devices[i].virq), "input %u was not masked by its interrupt", devices[i].input);
    }
    for (unsigned i = 0; i < devices_count; i++) {
        guest_enable(devices[i].virq);
    }
    run(1000);
    all_called(1);
    at_rest();
}

static void all_at_once(void)
{
    if (!start_guest(false)) {
        return;
    }
    for (unsigned input = 0; input < guest_inputs(); input++) {
        add_and_ask(input, LEVEL, 0);
    }
    for (unsigned times = 0; times < 10; times++) {
        all_work();
        run(1000);
    }
    all_called(10);
    at_rest();
}

/* Up and down again before the guest looks: a level that nobody holds any more calls nobody. */
static void taken_back(void)
{
    if (!start_guest(false)) {
        return;
    }
    for (unsigned input = 0; input < guest_inputs(); input++) {
        add_and_ask(input, LEVEL, 0);
    }
    for (unsigned i = 0; i < 20 * devices_count; i++) {
        work(&devices[i % devices_count]);
        withdraw(&devices[i % devices_count]);
        run(10);
    }
    all_called(0);
    at_rest();
}

static void shared_line(void)
{
    if (!start_guest(false)) {
        return;
    }
    for (unsigned i = 0; i < 3; i++) {
        add_and_ask(16, LEVEL, 0);
    }
    for (unsigned times = 0; times < 100; times++) {
        work(&devices[times % 3]);
        if (times % 2 == 1) {
            work(&devices[(times + 1) % 3]);
        }
        run(10);
        expect(jobs_left() == 0, "round %u: %llu jobs are left", times, (ull)jobs_left());
    }
    at_rest();
}

static void storm(void)
{
    if (!start_guest(false)) {
        return;
    }
    struct device *deaf = add_and_ask(3, LEVEL, 0), *other = add_and_ask(4, LEVEL, 0);
    deaf->deaf = true;
    work(deaf);
    for (unsigned times = 0; times < 10000; times++) {
        work(other);
        run(1);
    }
    expect(deaf->calls == 10000, "a level that nobody serves came %llu times in 10000 turns", (ull)deaf->calls);
    expect(other->taken == other->made, "the other input starves: %llu of %llu", (ull)other->taken, (ull)other->made);
    deaf->deaf = false;
    run(10);
    at_rest();
}

static void edges_held(void)
{
    if (!start_guest(false)) {
        return;
    }
    for (unsigned input = 0; input < guest_inputs(); input++) {
        add_and_ask(input, EDGE_HELD, input % 2 == 0 ? GUEST_EDGE_RISING : GUEST_EDGE_FALLING);
    }
    for (unsigned times = 0; times < 5; times++) {
        all_work();
        run(1000);
    }
    all_called(5);
    at_rest();
}

static void edges_pulsed(void)
{
    if (!start_guest(false)) {
        return;
    }
    struct device *device = add_and_ask(7, EDGE_PULSE, 0);
    for (unsigned times = 0; times < 100; times++) {
        work(device);
        run(10);
    }
    expect(device->calls == 100 && device->idle == 0, "of 100 pulses %llu arrived", (ull)(device->calls - device->idle));
    at_rest();
}

static void edge_stuck(void)
{
    if (!start_guest(false)) {
        return;
    }
    struct device *device = add_and_ask(7, EDGE_HELD, 0);
    device->stuck = true;
    work(device);
    run(1000);
    expect(device->calls == 1, "one edge whose line stays high made %llu interrupts", (ull)device->calls);
}

static void retyped(void)
{
    static const unsigned types[] = {GUEST_EDGE_RISING, GUEST_LEVEL_LOW, GUEST_EDGE_FALLING, GUEST_LEVEL_HIGH};
    if (!start_guest(false)) {
        return;
    }
    struct device *device = add_and_ask(9, LEVEL, 0);
    for (unsigned times = 0; times < 40; times++) {
        unsigned type = types[times % 4];
        expect(guest_set_type(device->virq, type) == 0, "type %u is refused", type);
        device->manner = type >= GUEST_LEVEL_HIGH ? LEVEL : EDGE_HELD;
        work(device);
        /* Half of them are retyped with the interrupt under way. */
        if (times % 8 < 4) {
            run(10);
        }
    }
    run(100);
    /* A pulse that the guest has not looked at when it makes a level of it, its line low: there is nothing to come. */
    guest_set_type(device->virq, GUEST_EDGE_RISING);
    board_line(device->input, true);
    board_line(device->input, false);
    guest_set_type(device->virq, GUEST_LEVEL_HIGH);
    run(100);
    expect(device->idle == 0, "%llu calls for nothing", (ull)device->idle);
    expect(device->taken == 40, "%llu of 40 jobs were announced", (ull)device->taken);
    expect(guest_set_type(device->virq, 0) < 0, "the driver takes no trigger for a trigger");
    at_rest();
}

/* Some of the inputs are disabled as it goes to sleep, some are raised before, some while it sleeps. */
static void sleeps(bool power_off)
{
    if (!start_guest(false) || !guest_can_suspend()) {
        nothing_to_try();
        return;
    }
    for (unsigned input = 0; input < guest_inputs(); input++) {
        add_and_ask(input, LEVEL, 0);
    }
    for (unsigned round = 0; round < 50; round++) {
        for (unsigned i = 0; i < devices_count; i++) {
            if (i % 7 == round % 7) {
                guest_disable(devices[i].virq);
            }
            if (i % 5 == round % 5 && round % 2 == 1) {
                work(&devices[i]);
            }
        }
        guest_suspend();
        if (power_off) {
            board_reset();
        }
        for (unsigned i = round % 3; i < devices_count; i += 3) {
            work(&devices[i]);
        }
        guest_resume();
        run(1000);
        for (unsigned i = round % 7; i < devices_count; i += 7) {
            guest_enable(devices[i].virq);
        }
        run(1000);
        expect(jobs_left() == 0, "round %u: %llu jobs were never announced", round, (ull)jobs_left());
    }
    at_rest();
}
static void sleeps_powered(void) { sleeps(false); }
static void sleeps_unpowered(void) { sleeps(true); }

static void by_acpi(void)
{
    if (!start_guest(true)) {
        return;
    }
    for (unsigned i = 0; i < guest_inputs(); i++) {
        add_and_ask(guest_inputs() - 1 - i, LEVEL, 0);
    }
    for (unsigned times = 0; times < 3; times++) {
        all_work();
        run(1000);
    }
    all_called(3);
    at_rest();
}

/* Levels and edges, moved with interrupts under way. A pulse is latched as the machine moves, and its line is low. */
static void moved(void)
{
    if (!start_guest(false)) {
        return;
    }
    for (unsigned input = 0; input < guest_inputs(); input++) {
        add_and_ask(input, input % 4 == 3 ? EDGE_PULSE : LEVEL, 0)->take = input % 4 == 3 ? 0 : 1;
    }
    for (unsigned times = 0; times < 200; times++) {
        for (unsigned i = times % 9; i < devices_count; i += 9) {
            work(&devices[i]);
        }
        if (times % 3 != 0) {
            run(1);
        }
        /* On the way two levels move, one up and one down. */
        withdraw_unseen(&devices[4 * (times % 16)]);
        work_unseen(&devices[4 * (times * 5 % 16) + 1]);
        board_move();
    }
    run(10000);
    expect(idle_calls(false) == 0, "%llu calls for nothing", (ull)idle_calls(false));
    at_rest();
}

const struct scenario scenarios[] = {
    {"boot", "start-up, registers, every access", boots},
    {"levels", "64 levels, high and low, five times each", levels},
    {"half", "levels that stay high until five jobs are done", half_served},
    {"early", "lines that are high before anybody asks", high_before},
    {"disabled", "raised while disabled, then enabled", raised_while_off},
    {"all", "all lines at once, ten times", all_at_once},
    {"withdrawn", "levels that fall before the guest looks", taken_back},
    {"shared", "three devices on one line", shared_line},
    {"storm", "a level that nobody serves, beside one that is served", storm},
    {"edge-held", "edges whose handler lowers the line", edges_held},
    {"edge-pulse", "100 edges, up and down before the guest looks", edges_pulsed},
    {"edge-stuck", "one edge whose line stays high", edge_stuck},
    {"retype", "level to edge and back, in use", retyped},
    {"suspend", "suspended and resumed, the device powered", sleeps_powered},
    {"power-off", "suspended, reset, resumed", sleeps_unpowered},
    {"acpi", "started by ACPI, inputs in reverse", by_acpi},
    {"move", "saved and loaded 200 times, in use", moved},
    {"once", "each rise announced once, no call for nothing", announced_once},
    {"soak", "steps by chance", soak},
    {"soak-edges", "steps by chance, a quarter of the devices pulse", soak_with_edges},
};
const unsigned scenarios_count = sizeof scenarios / sizeof *scenarios;
