/* QEMU's model: its text, unchanged, and the bus before it. Built once for each version: QEMU_TEXT names the file, QEMU_MODEL the model, and QEMU_MAJOR the version. */
#include "qemu_shim.h"
#include QEMU_TEXT
#include "models.h"

#if QEMU_MAJOR < 10
static LoongArchPCHPIC state;
static void make(void)
{
    loongarch_pch_pic_class_init(NULL, NULL);
    loongarch_pch_pic_init(OBJECT(&state));
}
#else
static LoongArchPICCommonState state;
static LoongarchPICClass class_of_it;
static void make(void)
{
    shim_class = &class_of_it;
    loongarch_pic_class_init(NULL, NULL);
    state.irq_num = 32; /* as machine 'virt' has it */
    shim_realize(DEVICE(&state), NULL);
}
#endif

static void qemu_set_irq(qemu_irq line, int level) { model_told((unsigned)*line, level != 0); }

static void start(void)
{
    make();
    shim_device_class.reset(DEVICE(&state));
}

/* Three regions: Dwords below 0x100 and from 0x3a0 on, Bytes between. The bus splits an access into the size that a region has, and refuses a narrower one. */
static MemoryRegion *region(uint64_t *offset)
{
    uint64_t first = *offset < 0x100 ? 0 : *offset < 0x3a0 ? 0x100 : 0x3a0;
    *offset -= first;
    return first == 0 ? &state.iomem32_low : first == 0x100 ? &state.iomem8 : &state.iomem32_high;
}

static uint64_t reads(uint64_t offset, unsigned width)
{
    MemoryRegion *of = region(&offset);
    unsigned size = of->ops->impl.max_access_size;
    uint64_t value = 0;
    for (unsigned at = 0; width >= of->ops->valid.min_access_size && at < width; at += size) {
        value |= of->ops->read(of->opaque, offset + at, size) << 8 * at;
    }
    return value;
}

static void writes(uint64_t offset, unsigned width, uint64_t value)
{
    MemoryRegion *of = region(&offset);
    unsigned size = of->ops->impl.max_access_size;
    for (unsigned at = 0; width >= of->ops->valid.min_access_size && at < width; at += size) {
        of->ops->write(of->opaque, offset + at, value >> 8 * at & (UINT64_MAX >> (64 - 8 * size)), size);
    }
}

static void line(unsigned input, bool high) { shim_line(&state, (int)input, high); }

const struct model QEMU_MODEL = {QEMU_NAME, start, reads, writes, line};
