/* SPDX-License-Identifier: GPL-2.0-or-later */
/* Both models in lockstep. The peer is QEMU's own text, which tools/boot-linux puts beside this file when it builds: peer_names.h and peer_model.c.inc are QEMU's
 * header and model, unchanged but for the type's name. The guest sees the library's device alone. What differs is counted by its entry in docs/DIFFERENCES.md;
 * what no entry there explains is unexpected, and told. */
#include "qemu/osdep.h"
#include "exec/memory.h"
#include "hw/irq.h"
#include "hw/qdev-properties.h"
#include "pch-pic/beside.h"
#include "peer_names.h"
#include "peer_model.c.inc"

enum { MOST_LINES = 64, MOST_TOLD = 20, BYTES_BEGIN = PCH_PIC_ROUTE_ENTRY_OFFSET, BYTES_END = PCH_PIC_INT_STATUS_LO };

enum entry { INPUTS_IN_ID, RESET_VECTORS, IRR_SILENT, AUTO_NOT_KEPT, NARROW_ACCESS, MASKED_IN_SERVICE, IN_SERVICE_AGAIN, RESET_LINE_HIGH, UNEXPECTED, ENTRIES };

static const char *const entry_names[ENTRIES] = {"inputs-in-id", "reset-vectors", "irr-silent", "auto-not-kept", "narrow-access", "masked-in-service",
    "in-service-again", "reset-line-high", "unexpected"};

struct beside {
    const struct pic *pic;
    const struct pic_wires *wires;
    LoongArchPICCommonState *peer;
    DeviceReset reset;
    unsigned lines;
    bool on[MOST_LINES];       /* what the peer has told above */
    uint64_t forgotten;        /* inputs whose line was high at a reset, and has not moved since */
    uint64_t points, reads, reads_differ, counts[ENTRIES];
    char told[MOST_TOLD][160]; /* the first that nothing explains */
};

static void count(struct beside *beside, enum entry entry, const char *what, uint64_t ours, uint64_t theirs)
{
    if (entry == UNEXPECTED && beside->counts[entry] < MOST_TOLD) {
        snprintf(beside->told[beside->counts[entry]], sizeof beside->told[0], "point %" PRIu64 ": %s: here 0x%" PRIx64 ", QEMU 0x%" PRIx64, beside->points, what,
                 ours, theirs);
    }
    beside->counts[entry]++;
}

static uint64_t kept(const struct beside *beside, uint64_t offset)
{
    uint8_t answer[PCH_PIC_ANSWER_LEN];
    const struct pic *pic = beside->pic;
    pch_pic_read(pic->image, sizeof pic->image, 0, PCH_PIC_WINDOW_LEN, offset, 8, answer, sizeof answer);
    return ldq_le_p(answer + PCH_PIC_ANSWER_VALUE);
}

/* What differs in inputs that a reset made the peer forget is explained by that, and all else by nothing. */
static void compare_inputs(struct beside *beside, const char *what, uint64_t ours, uint64_t theirs)
{
    uint64_t differ = ours ^ theirs;
    if (differ != 0) {
        count(beside, differ & ~beside->forgotten ? UNEXPECTED : RESET_LINE_HIGH, what, ours, theirs);
    }
}

/* The inputs that carry a vector, of those given. */
static uint64_t carriers(const struct beside *beside, uint64_t inputs, unsigned vector)
{
    uint64_t carry = 0;
    for (unsigned input = 0; input < beside->lines; input++) {
        carry |= beside->peer->htmsi_vector[input] == vector ? inputs & UINT64_C(1) << input : 0;
    }
    return carry;
}

/* The peer holds the vector of an input that is masked in service until its line falls; here a mask takes it off. */
static void compare_vector(struct beside *beside, unsigned vector)
{
    const LoongArchPICCommonState *peer = beside->peer;
    bool ours = beside->wires->on[vector], theirs = beside->on[vector];
    if (ours == theirs) {
        return;
    }
    uint64_t served = carriers(beside, peer->intisr, vector);
    bool masked = theirs && served != 0 && (served & ~peer->int_mask) == 0;
    bool forgotten = ours && carriers(beside, beside->forgotten, vector) != 0;
    char what[32];
    snprintf(what, sizeof what, "vector %u", vector);
    count(beside, masked ? MASKED_IN_SERVICE : forgotten ? RESET_LINE_HIGH : UNEXPECTED, what, ours, theirs);
}

static void compare(struct beside *beside)
{
    const LoongArchPICCommonState *peer = beside->peer;
    uint64_t mask = kept(beside, PCH_PIC_REG_MASK);
    beside->points++;
    compare_inputs(beside, "IRR", pic_latched(beside->pic), peer->intirr);
    compare_inputs(beside, "ISR", pic_service(beside->pic) & ~mask, peer->intisr & ~peer->int_mask);
    if (mask != peer->int_mask) {
        count(beside, UNEXPECTED, "MASK", mask, peer->int_mask);
    }
    if (kept(beside, PCH_PIC_REG_EDGE) != peer->intedge) {
        count(beside, UNEXPECTED, "EDGE", kept(beside, PCH_PIC_REG_EDGE), peer->intedge);
    }
    for (unsigned vector = 0; vector < beside->lines; vector++) {
        compare_vector(beside, vector);
    }
}

/* The part of the peer that has an offset, which is then taken within it. */
static MemoryRegion *part_of(struct beside *beside, uint64_t *offset)
{
    if (*offset < BYTES_BEGIN) {
        return &beside->peer->iomem32_low;
    }
    if (*offset < BYTES_END) {
        *offset -= BYTES_BEGIN;
        return &beside->peer->iomem8;
    }
    *offset -= BYTES_END;
    return &beside->peer->iomem32_high;
}

/* Which entry explains that a read differs. */
static enum entry explained(const struct beside *beside, uint64_t offset, unsigned size, uint64_t ours, uint64_t theirs)
{
    bool bytes = offset >= BYTES_BEGIN && offset < BYTES_END;
    if (offset >= PCH_PIC_REG_IRR && offset < PCH_PIC_REG_IRR + 8) {
        return theirs == 0 ? IRR_SILENT : UNEXPECTED;
    }
    if (size < 4 && !bytes) {
        return theirs == 0 ? NARROW_ACCESS : UNEXPECTED;
    }
    if (offset < 8 && offset + size == 8) {
        return INPUTS_IN_ID;
    }
    if (offset >= PCH_PIC_REG_AUTO0 && offset < PCH_PIC_REG_ROUTES) {
        return theirs == 0 ? AUTO_NOT_KEPT : UNEXPECTED;
    }
    if (size == 1 && offset >= PCH_PIC_REG_VECTORS && ours == offset - PCH_PIC_REG_VECTORS && theirs == 0) {
        return RESET_VECTORS;
    }
    bool isr = offset >= PCH_PIC_REG_ISR && offset < PCH_PIC_REG_ISR + 8;
    return isr && ((ours ^ theirs) << 8 * (offset - PCH_PIC_REG_ISR) & ~beside->forgotten) == 0 ? RESET_LINE_HIGH : UNEXPECTED;
}

void beside_read(struct beside *beside, uint64_t offset, unsigned size, uint64_t value)
{
    uint64_t theirs = 0, at = offset;
    char what[32];
    MemoryRegion *part = part_of(beside, &at);
    memory_region_dispatch_read(part, at, &theirs, size_memop(size) | MO_LE, MEMTXATTRS_UNSPECIFIED);
    beside->reads++;
    if (theirs != value) {
        snprintf(what, sizeof what, "read %u 0x%03x", size, (unsigned)offset);
        beside->reads_differ++;
        count(beside, explained(beside, offset, size, value, theirs), what, value, theirs);
    }
    compare(beside);
}

void beside_write(struct beside *beside, uint64_t offset, unsigned size, uint64_t value)
{
    uint64_t at = offset;
    MemoryRegion *part = part_of(beside, &at);
    memory_region_dispatch_write(part, at, value, size_memop(size) | MO_LE, MEMTXATTRS_UNSPECIFIED);
    compare(beside);
}

void beside_line(struct beside *beside, int input, int level)
{
    beside->forgotten &= ~(UINT64_C(1) << input);
    qemu_set_irq(qdev_get_gpio_in(DEVICE(beside->peer), input), level);
    compare(beside);
}

/* The peer's reset tells nobody above: that controller is reset as well. */
void beside_reset(struct beside *beside)
{
    beside->reset(DEVICE(beside->peer));
    memset(beside->on, 0, sizeof beside->on);
    beside->forgotten = beside->wires->high;
    compare(beside);
}

static void peer_tells(void *opaque, int vector, int level)
{
    struct beside *beside = opaque;
    if (beside->on[vector] && level != 0) {
        count(beside, IN_SERVICE_AGAIN, "again", 0, 1);
    }
    beside->on[vector] = level != 0;
}

static void not_by_itself(DeviceState *dev)
{
}

/* QEMU would reset the peer in an order of its own; here it is reset just when the device is. */
struct beside *beside_new(const struct pic *pic, const struct pic_wires *wires, unsigned lines)
{
    struct beside *beside = g_new0(struct beside, 1);
    DeviceState *dev = qdev_new(TYPE_LOONGARCH_PIC);
    DeviceClass *klass = DEVICE_GET_CLASS(dev);
    beside->pic = pic;
    beside->wires = wires;
    beside->lines = lines;
    beside->reset = klass->legacy_reset;
    klass->legacy_reset = not_by_itself;
    qdev_prop_set_uint32(dev, "pch_pic_irq_num", lines);
    sysbus_realize_and_unref(SYS_BUS_DEVICE(dev), &error_fatal);
    beside->peer = LOONGARCH_PIC_COMMON(dev);
    for (unsigned vector = 0; vector < lines; vector++) {
        qdev_connect_gpio_out(dev, (int)vector, qemu_allocate_irq(peer_tells, beside, (int)vector));
    }
    beside->reset(dev);
    return beside;
}

void beside_tell(const struct beside *beside, FILE *file)
{
    fprintf(file, "points %" PRIu64 "\nreads %" PRIu64 "\nreads-differ %" PRIu64 "\n", beside->points, beside->reads, beside->reads_differ);
    for (int entry = 0; entry < ENTRIES; entry++) {
        fprintf(file, "%s %" PRIu64 "\n", entry_names[entry], beside->counts[entry]);
    }
    for (uint64_t i = 0; i < MOST_TOLD && i < beside->counts[UNEXPECTED]; i++) {
        fprintf(file, "told %s\n", beside->told[i]);
    }
}
