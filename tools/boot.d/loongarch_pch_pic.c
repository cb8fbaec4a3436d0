/* SPDX-License-Identifier: GPL-2.0-or-later */
/* QEMU's device loongarch_pic over this library, in place of QEMU's own model: hw/intc/loongarch_pch_pic.c of a QEMU that tools/boot-linux builds.
 *
 * It has the type, the property, the lines and the three regions that the machine 'virt' asks for, and does no more than carry: an access goes to pic_read or
 * pic_write, a line to pic_line, and what is routed to the controller above. QEMU calls a device under its big lock, which is the lock of the image. */
#include "qemu/osdep.h"
#include "hw/intc/loongarch_pch_pic.h"
#include "hw/irq.h"
#include "hw/qdev-properties.h"
#include "migration/vmstate.h"
#include "qapi/error.h"
#include "qemu/error-report.h"
#include "qemu/notify.h"
#include "system/system.h"
#include "pch-pic/beside.h"
#include "pch-pic/day.h"

/* The machine's window is a page; past the registers it reads 0. */
enum { PARTS = 3, MOST_LINES = 64, WINDOW = 0x1000, ID_COUNT_AT = 48 };

/* One of the regions, and where in the window it begins. */
struct part {
    struct Carrier *carrier;
    hwaddr begins;
    MemoryRegion region;
};

typedef struct Carrier {
    SysBusDevice parent_obj;
    struct pic pic;
    struct pic_wires wires;
    struct part parts[PARTS];
    qemu_irq above[MOST_LINES];
    struct beside *beside;
    struct day *day;
    Notifier at_exit;
    uint64_t calls, dropped, far;
    uint32_t lines;   /* how many the machine has, in and out */
    uint32_t told;    /* how many ID says; 0: what the library says */
    bool unsettled;   /* a broken host, which leaves the settling out */
    char *report;     /* the file for the counts, with QEMU's model beside where it is named */
    char *record;     /* the file for the day */
    bool with_peer;
} Carrier;

DECLARE_INSTANCE_CHECKER(Carrier, CARRIER, TYPE_LOONGARCH_PIC)

static void must(int number)
{
    if (number != PCH_PIC_DONE) {
        error_report("PCH-PIC: refused with %d: %s", number, pic_why(number));
        exit(1);
    }
}

static void count_call(void *watcher, const struct pic *pic, const struct pic_call *call)
{
    Carrier *carrier = watcher;
    carrier->calls++;
    if (carrier->day != NULL) {
        day_call(carrier->day, pic, call);
    }
}

/* The machine has as many lines above as below. A vector past them goes nowhere, as in QEMU's model. */
static void carry_up(void *above, struct pic_event event)
{
    Carrier *carrier = above;
    if (event.vector < carrier->lines) {
        qemu_set_irq(carrier->above[event.vector], event.change == PIC_ASSERT);
    } else {
        carrier->far++;
    }
}

static void settle(Carrier *carrier)
{
    if (!carrier->unsettled) {
        must(pic_settle(&carrier->pic, &carrier->wires));
    }
}

static void carry_line(void *opaque, int input, int level)
{
    Carrier *carrier = opaque;
    must(pic_line(&carrier->pic, &carrier->wires, input, level != 0));
    if (carrier->beside != NULL) {
        beside_line(carrier->beside, input, level);
    }
}

/* ID with as many inputs as the machine has, where that is asked for: a Dword of its high half, or the whole of it. */
static uint64_t id_as_told(const Carrier *carrier, hwaddr offset, unsigned size, uint64_t value)
{
    if (carrier->told == 0 || offset + size != 8) {
        return value;
    }
    unsigned at = ID_COUNT_AT - 8 * (unsigned)offset;
    return (value & ~(UINT64_C(0xffff) << at)) | (uint64_t)(carrier->told - 1) << at;
}

static uint64_t carry_read(void *opaque, hwaddr address, unsigned size)
{
    struct part *part = opaque;
    Carrier *carrier = part->carrier;
    hwaddr offset = part->begins + address;
    uint64_t value;
    must(pic_read(&carrier->pic, offset, size, &value));
    value = id_as_told(carrier, offset, size, value);
    if (carrier->beside != NULL) {
        beside_read(carrier->beside, offset, size, value);
    }
    return value;
}

static void carry_write(void *opaque, hwaddr address, uint64_t value, unsigned size)
{
    struct part *part = opaque;
    Carrier *carrier = part->carrier;
    hwaddr offset = part->begins + address;
    uint64_t dropped;
    must(pic_write(&carrier->pic, offset, size, value, &dropped));
    carrier->dropped += dropped;
    settle(carrier);
    if (carrier->beside != NULL) {
        beside_write(carrier->beside, offset, size, value);
    }
}

static const MemoryRegionOps carry_ops = {
    .read = carry_read,
    .write = carry_write,
    .valid = {.min_access_size = 1, .max_access_size = 8},
    .impl = {.min_access_size = 1, .max_access_size = 8},
    .endianness = DEVICE_LITTLE_ENDIAN,
};

/* A day begins with a reset, so each reset begins another; the last one is kept. */
static void carry_reset(DeviceState *dev)
{
    Carrier *carrier = CARRIER(dev);
    must(pic_reset(&carrier->pic));
    if (carrier->day != NULL) {
        day_begin(carrier->day);
    }
    settle(carrier);
    if (carrier->beside != NULL) {
        beside_reset(carrier->beside);
    }
}

static void tell(Notifier *at_exit, void *data)
{
    Carrier *carrier = container_of(at_exit, Carrier, at_exit);
    FILE *file = carrier->report != NULL ? fopen(carrier->report, "w") : NULL;
    if (file != NULL) {
        fprintf(file, "calls %" PRIu64 "\ndropped %" PRIu64 "\nfar %" PRIu64 "\n", carrier->calls, carrier->dropped, carrier->far);
        if (carrier->beside != NULL) {
            beside_tell(carrier->beside, file);
        }
        if (carrier->day != NULL) {
            fprintf(file, "day %s\n", day_save(carrier->day, &carrier->pic, carrier->record));
        }
        fclose(file);
    }
}

static void make_parts(Carrier *carrier)
{
    static const hwaddr begins[PARTS + 1] = {0, PCH_PIC_ROUTE_ENTRY_OFFSET, PCH_PIC_INT_STATUS_LO, WINDOW};
    for (int i = 0; i < PARTS; i++) {
        struct part *part = &carrier->parts[i];
        part->carrier = carrier;
        part->begins = begins[i];
        memory_region_init_io(&part->region, OBJECT(carrier), &carry_ops, part, TYPE_LOONGARCH_PIC, begins[i + 1] - begins[i]);
        sysbus_init_mmio(SYS_BUS_DEVICE(carrier), &part->region);
    }
}

static void carry_realize(DeviceState *dev, Error **errp)
{
    Carrier *carrier = CARRIER(dev);
    if (carrier->lines == 0 || carrier->lines > MOST_LINES || carrier->told > MOST_LINES) {
        error_setg(errp, "the PCH-PIC has 1 to %d lines", MOST_LINES);
        return;
    }
    make_parts(carrier);
    qdev_init_gpio_in(dev, carry_line, (int)carrier->lines);
    qdev_init_gpio_out(dev, carrier->above, (int)carrier->lines);
    must(pic_init(&carrier->pic, 0));
    carrier->pic.size = WINDOW;
    carrier->wires.route = carry_up;
    carrier->wires.above = carrier;
    carrier->day = carrier->record != NULL ? day_new() : NULL;
    carrier->beside = carrier->with_peer ? beside_new(&carrier->pic, &carrier->wires, carrier->lines) : NULL;
    carrier->pic.watch = count_call;
    carrier->pic.watcher = carrier;
    carrier->at_exit.notify = tell;
    qemu_add_exit_notifier(&carrier->at_exit);
}

static const Property carry_properties[] = {
    DEFINE_PROP_UINT32("pch_pic_irq_num", Carrier, lines, 0),
    DEFINE_PROP_UINT32("told", Carrier, told, 0),
    DEFINE_PROP_BOOL("unsettled", Carrier, unsettled, false),
    DEFINE_PROP_BOOL("beside", Carrier, with_peer, false),
    DEFINE_PROP_STRING("report", Carrier, report),
    DEFINE_PROP_STRING("record", Carrier, record),
};

/* Saving a machine is not tried here: hosts/c has how a device is saved. */
static const VMStateDescription carry_state = {.name = TYPE_LOONGARCH_PIC, .unmigratable = 1};

static void carry_class(ObjectClass *klass, void *data)
{
    DeviceClass *device = DEVICE_CLASS(klass);
    device->realize = carry_realize;
    device->vmsd = &carry_state;
    device_class_set_legacy_reset(device, carry_reset);
    device_class_set_props(device, carry_properties);
}

static const TypeInfo carry_types[] = {{
    .name = TYPE_LOONGARCH_PIC,
    .parent = TYPE_SYS_BUS_DEVICE,
    .instance_size = sizeof(Carrier),
    .class_size = sizeof(SysBusDeviceClass),
    .class_init = carry_class,
}};

DEFINE_TYPES(carry_types)
