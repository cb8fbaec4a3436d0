#include "board.h"
#include "hosts.h"
#include "kernel_shim.h"

static const struct host *host;
static enum wire wire;
static bool keeps;
static uint64_t lines, pending[BOARD_VECTORS / 64], sight = 1;
void (*board_between)(void);

void board_start(const struct host *chosen, enum wire broken, bool keeping)
{
    host = chosen;
    wire = broken;
    keeps = keeping;
    host->reset(lines);
}

void board_reset(void) { host->reset(lines); }
void board_move(void) { host->move(lines); }
uint64_t board_lines(void) { return lines; }
uint64_t board_latched(void) { return host->latched(); }
uint64_t board_service(void) { return host->service(); }
bool board_on(unsigned vector) { return host->on(vector); }
uint64_t board_peek(uint64_t offset, unsigned width) { return host->read(offset, width); }

/* Whether this is one of those that a broken wire gets wrong. */
static bool breaks(enum wire kind)
{
    static uint64_t count;
    return wire == kind && ++count % WIRE_EVERY == 0;
}

void board_line(unsigned input, bool high)
{
    uint64_t bit = UINT64_C(1) << input;
    lines = high ? lines | bit : lines & ~bit;
    if (!breaks(high ? WIRE_LOSES_RISE : WIRE_LOSES_FALL)) {
        host->line(input, high);
    }
}

void board_line_unseen(unsigned input, bool high)
{
    uint64_t bit = UINT64_C(1) << input;
    lines = high ? lines | bit : lines & ~bit;
}

/* An EIOINTC as QEMU and KVM have it: an assert sets the vector's bit and a deassert takes it. All vectors are enabled. */
void board_told(unsigned vector, bool on)
{
    if (breaks(on ? WIRE_LOSES_ASSERT : WIRE_LOSES_DEASSERT)) {
        return;
    }
    if (breaks(WIRE_NEXT_VECTOR)) {
        vector = (vector + 1) % BOARD_VECTORS;
    }
    uint64_t bit = UINT64_C(1) << vector % 64;
    if (on || (!on && breaks(WIRE_ASSERTS_ONLY))) {
        pending[vector / 64] |= bit;
    } else if (!keeps) {
        pending[vector / 64] &= ~bit;
    }
}

bool board_wants(void) { return (pending[0] | pending[1] | pending[2] | pending[3]) != 0; }

/* The guest's accesses to the EIOINTC. */
u64 board_pending(unsigned word)
{
    board_seen(pending[word]);
    return pending[word];
}
void board_ack(unsigned word, u64 bits) { pending[word] &= ~bits; }

void board_seen(uint64_t value)
{
    sight = (sight ^ value) * UINT64_C(0x9e3779b97f4a7c15);
    sight ^= sight >> 32;
}
uint64_t board_sight(void) { return sight; }

/* Accesses, by register, width and phase. */
struct kind {
    const char *name;
    bool is_write, late;
    unsigned width;
    uint64_t times, align, profile;
};
static struct kind kinds[64];
static unsigned kinds_found;
static bool counting, late;

static const char *register_at(uint64_t offset)
{
    static const struct { uint64_t first, last; const char *name; } map[] = {
        {0x000, 0x007, "ID"}, {0x020, 0x027, "MASK"}, {0x040, 0x047, "HTMSI_EN"}, {0x060, 0x067, "EDGE"}, {0x080, 0x087, "CLEAR"}, {0x0c0, 0x0c7, "AUTO0"},
        {0x0e0, 0x0e7, "AUTO1"}, {0x100, 0x13f, "routes"}, {0x200, 0x23f, "vectors"}, {0x380, 0x387, "IRR"}, {0x3a0, 0x3a7, "ISR"}, {0x3e0, 0x3e7, "POL"}};
    for (size_t i = 0; i < sizeof map / sizeof *map; i++) {
        if (offset >= map[i].first && offset <= map[i].last) {
            return map[i].name;
        }
    }
    return "none";
}

static void count(bool is_write, uint64_t offset, unsigned width, uint64_t value)
{
    const char *name = register_at(offset);
    unsigned i = 0;
    if (!counting) {
        return;
    }
    while (i < kinds_found && !(kinds[i].name == name && kinds[i].is_write == is_write && kinds[i].late == late && kinds[i].width == width)) {
        i++;
    }
    if (i == sizeof kinds / sizeof *kinds) {
        kernel_bug("more kinds of accesses than there is room for");
    }
    if (i == kinds_found) {
        kinds[kinds_found++] = (struct kind){name, is_write, late, width, 0, 0, 0};
    }
    int verdict = hoist_verdict(is_write, late, offset, width, value);
    kinds[i].times++;
    kinds[i].align += verdict == 14;
    kinds[i].profile += verdict == 15;
}

void board_count_accesses(void) { counting = true; }
void board_startup_ends(void) { late = true; }

void board_print_accesses(void)
{
    printf("    %-9s %-6s %-6s %-9s %8s %16s %16s\n", "phase", "access", "bytes", "register", "times", "refused with 14", "refused with 15");
    for (unsigned i = 0; i < kinds_found; i++) {
        printf("    %-9s %-6s %-6u %-9s %8llu %16llu %16llu\n", kinds[i].late ? "after it" : "start-up", kinds[i].is_write ? "write" : "read", kinds[i].width, kinds[i].name,
               (unsigned long long)kinds[i].times, (unsigned long long)kinds[i].align, (unsigned long long)kinds[i].profile);
    }
}

static void between(void)
{
    if (board_between != NULL) {
        board_between();
    }
}

u64 board_read(u64 address, unsigned width)
{
    between();
    count(false, address - BOARD_BASE, width, 0);
    u64 value = host->read(address - BOARD_BASE, width);
    board_seen(value);
    return value;
}

void board_write(u64 address, unsigned width, u64 value)
{
    between();
    count(true, address - BOARD_BASE, width, value);
    host->write(address - BOARD_BASE, width, value);
    between();
}
