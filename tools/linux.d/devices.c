#include "devices.h"
#include "board.h"
#include "guest.h"

#include <stdarg.h>
#include <stdio.h>

struct device devices[DEVICES_MOST];
unsigned devices_count;
static uint64_t failed;

void expect(bool holds, const char *format, ...)
{
    va_list values;
    if (holds) {
        return;
    }
    failed++;
    if (failed <= 4) {
        va_start(values, format);
        printf("    ");
        vprintf(format, values);
        printf("\n");
        va_end(values);
    }
}
uint64_t failures(void) { return failed; }

static bool untried;
void nothing_to_try(void) { untried = true; }
bool tried(void) { return !untried; }

/* A line is high while any device on it holds it. A pulse holds none. */
static void set_line(unsigned input)
{
    bool high = false;
    for (unsigned i = 0; i < devices_count; i++) {
        struct device *device = &devices[i];
        high = high || (device->input == input && device->manner != EDGE_PULSE && (device->stuck || device->made != device->taken));
    }
    if (high != (board_lines() >> input & 1)) {
        board_line(input, high);
    }
}

void work(struct device *device)
{
    device->made++;
    if (device->manner == EDGE_PULSE) {
        board_line(device->input, true);
        board_line(device->input, false);
    } else {
        set_line(device->input);
    }
}

void withdraw(struct device *device)
{
    device->taken = device->made;
    set_line(device->input);
}

void work_unseen(struct device *device)
{
    device->made++;
    board_line_unseen(device->input, true);
}

void withdraw_unseen(struct device *device)
{
    device->taken = device->made;
    board_line_unseen(device->input, false);
}

void all_work(void)
{
    for (unsigned i = 0; i < devices_count; i++) {
        work(&devices[i]);
    }
}

static bool handler(void *of)
{
    struct device *device = of;
    uint64_t jobs = device->made - device->taken;
    device->calls++;
    device->idle += jobs == 0;
    board_seen((uint64_t)(device - devices) * 2 + (jobs != 0));
    if (!device->deaf) {
        device->taken += device->take != 0 && jobs > device->take ? device->take : jobs;
    }
    set_line(device->input);
    return jobs != 0;
}

unsigned run(unsigned at_most)
{
    unsigned count = 0;
    while (count < at_most && (board_wants() || guest_resends())) {
        if (board_wants()) {
            guest_interrupt();
        }
        count++;
    }
    return count;
}

bool start_guest(bool acpi)
{
    int error = guest_start(BOARD_BASE, BOARD_SIZE, acpi);
    expect(error == 0, "the driver does not start: error %d", error);
    return error == 0;
}

struct device *add_device(unsigned input, enum manner manner, unsigned type)
{
    struct device *device = &devices[devices_count++];
    *device = (struct device){.input = input, .manner = manner};
    device->virq = guest_map(input, type != 0 ? type : manner == LEVEL ? GUEST_LEVEL_HIGH : GUEST_EDGE_RISING);
    expect(device->virq > 0, "input %u cannot be mapped: error %d", input, device->virq);
    return device;
}

void ask(struct device *device)
{
    int error = device->virq > 0 ? guest_request(device->virq, handler, device) : 0;
    expect(error == 0, "input %u cannot be requested: error %d", device->input, error);
}

struct device *add_and_ask(unsigned input, enum manner manner, unsigned type)
{
    struct device *device = add_device(input, manner, type);
    ask(device);
    return device;
}

uint64_t jobs_left(void)
{
    uint64_t left = 0;
    for (unsigned i = 0; i < devices_count; i++) {
        left += devices[i].made - devices[i].taken;
    }
    return left;
}

uint64_t idle_calls(bool lone)
{
    uint64_t calls = 0;
    for (unsigned i = 0; i < devices_count; i++) {
        unsigned on_line = 0;
        for (unsigned k = 0; k < devices_count; k++) {
            on_line += devices[k].input == devices[i].input;
        }
        calls += lone && on_line > 1 ? 0 : devices[i].idle;
    }
    return calls;
}

void all_called(uint64_t times)
{
    for (unsigned i = 0; i < devices_count; i++) {
        expect(devices[i].calls == times && devices[i].idle == 0, "input %u: %llu calls of its handler, %llu for nothing, and not %llu", devices[i].input,
               (unsigned long long)devices[i].calls, (unsigned long long)devices[i].idle, (unsigned long long)times);
    }
}

void at_rest(void)
{
    expect(jobs_left() == 0, "%llu jobs were never announced", (unsigned long long)jobs_left());
    expect(board_lines() == 0, "lines %#llx are high", (unsigned long long)board_lines());
    expect(!board_wants(), "the EIOINTC has something left");
    expect(board_latched() == 0, "IRR is %#llx", (unsigned long long)board_latched());
    expect(board_service() == 0, "ISR is %#llx", (unsigned long long)board_service());
    for (unsigned vector = 0; vector < BOARD_VECTORS; vector++) {
        expect(!board_on(vector), "vector %u is left on", vector);
    }
    expect(guest_unmapped() == 0, "%llu interrupts by vectors that nobody has", (unsigned long long)guest_unmapped());
}
