/* KVM's model in the kernel, held as a virtual machine holds it. Its text is built by itself, unchanged. */
#include "kvm_shim.h"
#include "asm/kvm_pch_pic.h"
#include "models.h"

static const struct kvm_device_ops *operations;
static struct kvm machine;
static struct kvm_vcpu processor = {.kvm = &machine};
static struct kvm_device device = {.kvm = &machine};

int kvm_register_device_ops(const struct kvm_device_ops *of, u32 type)
{
    (void)type;
    operations = of;
    return 0;
}

void eiointc_set_irq(struct loongarch_eiointc *above, int irq, int level)
{
    (void)above;
    model_told((unsigned)irq, level != 0);
}

_Noreturn void kernel_bug(const char *what)
{
    fprintf(stderr, "models: KVM: %s\n", what);
    exit(2);
}

static void start(void)
{
    u64 base = MODEL_BASE;
    struct kvm_device_attr init = {.group = KVM_DEV_LOONGARCH_PCH_PIC_GRP_CTRL, .attr = KVM_DEV_LOONGARCH_PCH_PIC_CTRL_INIT, .addr = (u64)(uintptr_t)&base};
    kvm_loongarch_register_pch_pic_device();
    if (operations->create(&device, 0) != 0 || operations->set_attr(&device, &init) != 0) {
        kernel_bug("no device");
    }
}

static u64 reads(u64 offset, unsigned width)
{
    u64 value = 0;
    machine.arch.pch_pic->device.ops->read(&processor, &machine.arch.pch_pic->device, MODEL_BASE + offset, (int)width, &value);
    return value;
}

static void writes(u64 offset, unsigned width, u64 value)
{
    machine.arch.pch_pic->device.ops->write(&processor, &machine.arch.pch_pic->device, MODEL_BASE + offset, (int)width, &value);
}

static void line(unsigned input, bool high) { pch_pic_set_irq(machine.arch.pch_pic, (int)input, high); }

const struct model model_kvm = {"KVM", start, reads, writes, line};
