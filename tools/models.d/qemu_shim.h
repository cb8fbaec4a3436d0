/* What hw/intc/loongarch_pch_pic.c of QEMU 7.2 and 10.0 asks for, in a program: objects, regions of memory and lines, with QEMU's names. The text is ours. */
#ifndef QEMU_SHIM_H
#define QEMU_SHIM_H

#include <assert.h>
#include <stdbool.h>
#include <stddef.h>
#include <stdint.h>
#include <stdlib.h>

typedef uint64_t hwaddr;
typedef struct Error Error;
typedef struct { int unused; } Object, ObjectClass, SysBusDevice, SysBusDeviceClass, VMStateField;
typedef struct { Object object; } DeviceState;
typedef struct {
    void (*reset)(DeviceState *);
    const void *vmsd;
} DeviceClass;
typedef void (*DeviceRealize)(DeviceState *, Error **);
typedef struct {
    const char *name, *parent;
    size_t instance_size, class_size;
    void (*instance_init)(Object *);
    void (*class_init)(ObjectClass *, void *);
} TypeInfo;
typedef struct {
    const char *name;
    int version_id, minimum_version_id;
    const VMStateField *fields;
} VMStateDescription;
#define VMSTATE_UINT64(field, state) {0}
#define VMSTATE_UINT8_ARRAY(field, state, count) {0}
#define VMSTATE_END_OF_LIST() {0}
#define TYPE_SYS_BUS_DEVICE "sys-bus-device"

/* Objects are what they are: each cast is the pointer itself. */
#define OBJECT(object) ((Object *)(object))
#define DEVICE(object) ((DeviceState *)(object))
#define SYS_BUS_DEVICE(object) ((SysBusDevice *)(object))
#define DEVICE_CLASS(klass) ((DeviceClass *)(void *)&shim_device_class)
static DeviceClass shim_device_class;
static void *shim_class __attribute__((unused));
#define OBJECT_DECLARE_SIMPLE_TYPE(state, NAME) \
    typedef struct state state;                 \
    static inline state *NAME(void *object) { return object; }
#define OBJECT_DECLARE_TYPE(state, klass, NAME)                                           \
    typedef struct state state;                                                           \
    typedef struct klass klass;                                                           \
    static inline state *NAME(void *object) { return object; }                            \
    static inline klass *NAME##_CLASS(void *object) { return (void)object, shim_class; }  \
    static inline klass *NAME##_GET_CLASS(void *object) { return (void)object, shim_class; }
#define type_init(function) static void (*const shim_types)(void) __attribute__((unused)) = function;
#define type_register_static(info) ((void)(info))
#define DEFINE_TYPES(types) static const TypeInfo *const shim_types __attribute__((unused)) = types;
static DeviceRealize shim_realize __attribute__((unused));
#define device_class_set_legacy_reset(klass, function) ((klass)->reset = (function))
#define device_class_set_parent_realize(klass, function, parent) ((void)(klass), shim_realize = (function), *(parent) = shim_no_parent)
static inline void shim_no_parent(DeviceState *device, Error **error) { (void)device, (void)error; }
#define error_propagate(to, from) ((void)(to), (void)(from))

/* Memory. */
#define DEVICE_LITTLE_ENDIAN 0
typedef struct {
    uint64_t (*read)(void *, hwaddr, unsigned);
    void (*write)(void *, hwaddr, uint64_t, unsigned);
    struct { unsigned min_access_size, max_access_size; } valid, impl;
    int endianness;
} MemoryRegionOps;
typedef struct {
    const MemoryRegionOps *ops;
    void *opaque;
} MemoryRegion;
#define memory_region_init_io(region, owner, operations, of, name, size) ((region)->ops = (operations), (region)->opaque = (of))
#define sysbus_init_mmio(device, region) ((void)(device), (void)(region))

/* Lines. */
typedef int *qemu_irq;
static void (*shim_line)(void *, int, int);
static inline void shim_outputs(qemu_irq *lines, int count)
{
    static int numbers[64];
    for (int i = 0; i < count; i++) {
        numbers[i] = i;
        lines[i] = &numbers[i];
    }
}
#define qdev_init_gpio_out(device, lines, count) shim_outputs(lines, (int)(count))
#define qdev_init_gpio_in(device, handler, count) (shim_line = (handler))
static void qemu_set_irq(qemu_irq line, int level);

/* Bits, traces and logs. */
#define MAKE_64BIT_MASK(shift, length) (((~UINT64_C(0)) >> (64 - (length))) << (shift))
static inline int ctz64(uint64_t value) { return value == 0 ? 64 : __builtin_ctzll(value); }
static inline uint32_t deposit32(uint32_t value, int start, int length, uint32_t field)
{
    uint32_t mask = (~UINT32_C(0) >> (32 - length)) << start;
    return (value & ~mask) | (field << start & mask);
}
#define qemu_log_mask(...) ((void)0)
#define trace_loongarch_pch_pic_irq_handler(...) ((void)0)
#define trace_loongarch_pch_pic_low_readw(...) ((void)0)
#define trace_loongarch_pch_pic_low_writew(...) ((void)0)
#define trace_loongarch_pch_pic_high_readw(...) ((void)0)
#define trace_loongarch_pch_pic_high_writew(...) ((void)0)
#define trace_loongarch_pch_pic_readb(...) ((void)0)
#define trace_loongarch_pch_pic_writeb(...) ((void)0)

#endif
