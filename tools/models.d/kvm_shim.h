/* What arch/loongarch/kvm/intc/pch_pic.c of Linux asks for besides kernel_shim.h. Names are the kernel's, the text is ours. */
#ifndef KVM_SHIM_H
#define KVM_SHIM_H

#include "kernel_shim.h"

#include <limits.h>

typedef unsigned long long gpa_t;
typedef raw_spinlock_t spinlock_t;
#define spin_lock_init raw_spin_lock_init
#define spin_lock raw_spin_lock
#define spin_unlock raw_spin_unlock
struct mutex { int unused; };
#define mutex_lock(mutex) ((void)(mutex))
#define mutex_unlock(mutex) ((void)(mutex))
#define kvm_err(...) fprintf(stderr, __VA_ARGS__)
#define cpu_has_msgint 0
#define DECLARE_BITMAP(name, bits) u64 name[1]
#define BITMAP_FROM_U64(value) (value)
#define for_each_set_bit(bit, map, size) for (bit = 0; bit < (size); bit++) if ((map)[0] >> bit & 1)
#define copy_from_user(to, from, count) (memcpy(to, from, count), 0)
#define copy_to_user(to, from, count) (memcpy(to, from, count), 0)

struct loongarch_pch_pic;
struct loongarch_eiointc;
struct kvm_io_device;
struct kvm_vcpu;
struct loongarch_dmsintc { u64 msg_addr_base, msg_addr_size; };
struct kvm {
    struct {
        struct loongarch_pch_pic *pch_pic;
        struct loongarch_eiointc *eiointc;
        struct loongarch_dmsintc *dmsintc;
    } arch;
    struct mutex slots_lock;
};
struct kvm_vcpu {
    struct kvm *kvm;
    struct { u64 pch_pic_read_exits, pch_pic_write_exits; } stat;
};
struct kvm_io_device_ops {
    int (*read)(struct kvm_vcpu *, struct kvm_io_device *, gpa_t, int, void *);
    int (*write)(struct kvm_vcpu *, struct kvm_io_device *, gpa_t, int, const void *);
};
struct kvm_io_device { const struct kvm_io_device_ops *ops; };
struct kvm_device { struct kvm *kvm; };
struct kvm_device_attr {
    u32 flags, group;
    u64 attr, addr;
};
struct kvm_device_ops {
    const char *name;
    int (*create)(struct kvm_device *, u32);
    void (*destroy)(struct kvm_device *);
    int (*set_attr)(struct kvm_device *, struct kvm_device_attr *);
    int (*get_attr)(struct kvm_device *, struct kvm_device_attr *);
};
struct kvm_kernel_irq_routing_entry { struct { u32 address_lo, address_hi, data; } msi; };
struct kvm_irq_routing_entry {
    u32 gsi, type;
    union { struct { u32 irqchip, pin; } irqchip; } u;
};
enum { KVM_MMIO_BUS, KVM_IRQCHIP_NUM_PINS = 64, KVM_IRQ_ROUTING_IRQCHIP = 1, EIOINTC_IRQS = 256, KVM_DEV_TYPE_LOONGARCH_PCHPIC = 1 };
enum { KVM_DEV_LOONGARCH_PCH_PIC_GRP_CTRL = 1, KVM_DEV_LOONGARCH_PCH_PIC_GRP_REGS = 2, KVM_DEV_LOONGARCH_PCH_PIC_CTRL_INIT = 0 };
#define kvm_iodevice_init(device, operations) ((device)->ops = (operations))
#define kvm_io_bus_register_dev(kvm, bus, address, size, device) ((void)(kvm), (void)(device), 0)
#define kvm_io_bus_unregister_dev(kvm, bus, device) ((void)(kvm), (void)(device))
#define kvm_set_irq_routing(kvm, entries, count, flags) ((void)(kvm), (void)(entries), 0)
#define kvm_unregister_device_ops(type) ((void)(type))
#define dmsintc_set_irq(kvm, address, data, level) ((void)(address), 0)
int kvm_register_device_ops(const struct kvm_device_ops *, u32 type);
void eiointc_set_irq(struct loongarch_eiointc *, int irq, int level);

#endif
