/* What Linux's text stands on in a program: the part of the kernel that irq-loongson-pch-pic.c, and the functions that tools/try-linux takes out of kernel/irq, ask for.
 * One processor and no threads, so a lock tests only that it is taken and given in turn. Names and meanings are the kernel's; the text is ours. */
#ifndef KERNEL_SHIM_H
#define KERNEL_SHIM_H

#include <errno.h>
#include <stdbool.h>
#include <stddef.h>
#include <stdint.h>
#include <stdio.h>
#include <stdlib.h>
#include <string.h>

typedef uint8_t u8;
typedef uint16_t u16;
typedef uint32_t u32;
typedef uint64_t u64;
typedef u64 phys_addr_t;

#define __init
#define __iomem
#define __user
#define unlikely(x) (x)
#define likely(x) (x)
#define BIT(n) (1UL << (n))
#define CONFIG_OF 1
#define CONFIG_ACPI 1
#define IS_ENABLED(option) 0
#define MAX_IO_PICS 8
#ifndef pr_fmt
#define pr_fmt(format) format
#endif
#define pr_err(format, ...) fprintf(stderr, pr_fmt(format), ##__VA_ARGS__)
#define WARN_ONCE(condition, ...) (condition)
#define container_of(pointer, type, member) ((type *)((char *)(pointer) - offsetof(type, member)))
#define GFP_KERNEL 0
#define GFP_KERNEL_ACCOUNT 0
#define kzalloc(size, flags) calloc(1, size)
#define kzalloc_obj(object, ...) calloc(1, sizeof(object))
#define kzalloc_objs(object, count, ...) calloc(count, sizeof(object))
#define kfree(pointer) free(pointer)

static inline unsigned long __ffs(unsigned long word) { return (unsigned long)__builtin_ctzl(word); }

/* Ends the program: the guest has done what no kernel does. */
_Noreturn void kernel_bug(const char *what);

typedef struct { bool taken; } raw_spinlock_t;
static inline void raw_spin_lock_init(raw_spinlock_t *lock) { lock->taken = false; }
static inline void raw_spin_lock(raw_spinlock_t *lock)
{
    if (lock->taken) {
        kernel_bug("a lock is taken twice");
    }
    lock->taken = true;
}
static inline void raw_spin_unlock(raw_spinlock_t *lock)
{
    if (!lock->taken) {
        kernel_bug("a lock is given that was not taken");
    }
    lock->taken = false;
}
#define raw_spin_lock_irqsave(lock, flags) ((flags) = 0, raw_spin_lock(lock))
#define raw_spin_unlock_irqrestore(lock, flags) ((void)(flags), raw_spin_unlock(lock))
/* guard(raw_spinlock)(&lock): taken here, given where the block ends. */
static inline raw_spinlock_t *guard_begins(raw_spinlock_t *lock)
{
    raw_spin_lock(lock);
    return lock;
}
static inline void guard_ends(raw_spinlock_t **lock) { raw_spin_unlock(*lock); }
#define guard(kind) guard_of_
#define guard_of_(lock) raw_spinlock_t *guarded __attribute__((cleanup(guard_ends), unused)) = guard_begins(lock)

/* Accesses go to the board, which has the device under test. */
u64 board_read(u64 address, unsigned width);
void board_write(u64 address, unsigned width, u64 value);
u64 board_pending(unsigned word);
void board_ack(unsigned word, u64 bits);
#define at(address) ((u64)(uintptr_t)(address))
#define readl(address) ((u32)board_read(at(address), 4))
#define readq(address) board_read(at(address), 8)
#define writeb(value, address) board_write(at(address), 1, (u8)(value))
#define writel(value, address) board_write(at(address), 4, (u32)(value))
#define writel_relaxed writel
#define ioremap(address, size) ((void *)(uintptr_t)(address))
#define iounmap(address) ((void)(address))

/* Interrupts. */
enum {
    IRQ_TYPE_NONE = 0, IRQ_TYPE_EDGE_RISING = 1, IRQ_TYPE_EDGE_FALLING = 2, IRQ_TYPE_LEVEL_HIGH = 4, IRQ_TYPE_LEVEL_LOW = 8,
    IRQ_TYPE_LEVEL_MASK = IRQ_TYPE_LEVEL_HIGH | IRQ_TYPE_LEVEL_LOW, IRQ_TYPE_SENSE_MASK = 15
};
enum { IRQD_IRQ_DISABLED = 1, IRQD_IRQ_MASKED = 2, IRQD_IRQ_INPROGRESS = 4, IRQD_WAKEUP_ARMED = 8 };
enum { IRQS_PENDING = 1, IRQS_REPLAY = 2, IRQS_WAITING = 4, IRQS_POLL_INPROGRESS = 8 };
enum { IRQCHIP_SKIP_SET_WAKE = 16 };
typedef enum { IRQ_NONE = 0, IRQ_HANDLED = 1 } irqreturn_t;

struct cpumask { u64 bits; };
struct irq_data;
struct irq_desc;
struct irq_domain;
typedef void (*irq_flow_handler_t)(struct irq_desc *);

struct irq_chip {
    const char *name;
    void (*irq_enable)(struct irq_data *);
    void (*irq_disable)(struct irq_data *);
    void (*irq_ack)(struct irq_data *);
    void (*irq_mask)(struct irq_data *);
    void (*irq_mask_ack)(struct irq_data *);
    void (*irq_unmask)(struct irq_data *);
    int (*irq_set_affinity)(struct irq_data *, const struct cpumask *, bool);
    int (*irq_set_type)(struct irq_data *, unsigned);
    unsigned long flags;
};

struct irq_data {
    unsigned irq;
    unsigned long hwirq;
    struct irq_chip *chip;
    struct irq_domain *domain;
    struct irq_data *parent_data;
    void *chip_data;
    unsigned *state; /* one for an interrupt, in all its domains */
};

struct irqaction {
    irqreturn_t (*handler)(int, void *);
    void *dev_id;
    struct irqaction *next;
};

struct irq_desc {
    struct irq_data irq_data; /* the PCH-PIC's */
    struct irq_data above;    /* the EIOINTC's */
    irq_flow_handler_t handle_irq;
    struct irqaction *action;
    void *handler_data;
    raw_spinlock_t lock;
    unsigned state, istate, depth, type, threads_oneshot;
    bool resend;
};

static inline bool irqd_has_set(struct irq_data *d, unsigned bits) { return (*d->state & bits) != 0; }
static inline void irqd_set(struct irq_data *d, unsigned bits) { *d->state |= bits; }
static inline void irqd_clear(struct irq_data *d, unsigned bits) { *d->state &= ~bits; }
static inline bool irqd_irq_disabled(struct irq_data *d) { return irqd_has_set(d, IRQD_IRQ_DISABLED); }
static inline bool irqd_irq_masked(struct irq_data *d) { return irqd_has_set(d, IRQD_IRQ_MASKED); }
static inline void *irq_data_get_irq_chip_data(struct irq_data *d) { return d->chip_data; }
static inline struct irq_chip *irq_desc_get_chip(struct irq_desc *desc) { return desc->irq_data.chip; }
static inline void *irq_desc_get_handler_data(struct irq_desc *desc) { return desc->handler_data; }
static inline void irq_set_handler_locked(struct irq_data *d, irq_flow_handler_t handler) { container_of(d, struct irq_desc, irq_data)->handle_irq = handler; }
static inline bool irq_settings_is_level(struct irq_desc *desc) { return (desc->type & IRQ_TYPE_LEVEL_MASK) != 0; }
#define irq_settings_disable_unlazy(desc) false
#define irq_set_probe(virq) ((void)(virq))
void handle_level_irq(struct irq_desc *);
void handle_edge_irq(struct irq_desc *);
void irq_chip_ack_parent(struct irq_data *);
void irq_chip_mask_parent(struct irq_data *);
void irq_chip_unmask_parent(struct irq_data *);
int irq_chip_set_affinity_parent(struct irq_data *, const struct cpumask *, bool);

/* Domains, and how firmware names an interrupt. */
struct fwnode_handle { bool of_tree; };
struct irq_fwspec {
    struct fwnode_handle *fwnode;
    int param_count;
    u32 param[16];
};
struct irq_domain_ops {
    int (*translate)(struct irq_domain *, struct irq_fwspec *, unsigned long *, unsigned *);
    int (*alloc)(struct irq_domain *, unsigned, unsigned, void *);
    void (*free)(struct irq_domain *, unsigned, unsigned);
};
enum { HWIRQS = 256 };
struct irq_domain {
    const struct irq_domain_ops *ops;
    void *host_data;
    struct irq_domain *parent;
    struct fwnode_handle *fwnode;
    unsigned size;
    unsigned virq[HWIRQS]; /* 0 where none is mapped */
};
struct irq_domain *irq_domain_create_hierarchy(struct irq_domain *parent, unsigned flags, unsigned size, struct fwnode_handle *, const struct irq_domain_ops *,
                                               void *host_data);
int irq_domain_alloc_irqs_parent(struct irq_domain *, unsigned virq, unsigned count, void *spec);
void irq_domain_free_irqs_parent(struct irq_domain *, unsigned virq, unsigned count);
void irq_domain_set_info(struct irq_domain *, unsigned virq, unsigned long hwirq, struct irq_chip *, void *chip_data, irq_flow_handler_t, void *handler_data,
                         const char *name);
struct fwnode_handle *irq_domain_alloc_fwnode(phys_addr_t *address);
void irq_domain_free_fwnode(struct fwnode_handle *);

/* The device tree. */
struct resource { u64 start, end; };
struct device_node {
    struct fwnode_handle fwnode;
    struct resource window;
    u32 first_vector;
    struct irq_domain *domain;
};
#define resource_size(resource) ((resource)->end - (resource)->start + 1)
#define of_node_to_fwnode(node) (&(node)->fwnode)
#define of_fwnode_handle(node) (&(node)->fwnode)
static inline struct device_node *to_of_node(struct fwnode_handle *fwnode) { return fwnode->of_tree ? container_of(fwnode, struct device_node, fwnode) : NULL; }
static inline int of_address_to_resource(struct device_node *node, int index, struct resource *into)
{
    *into = node->window;
    return index == 0 ? 0 : -EINVAL;
}
static inline struct irq_domain *irq_find_host(struct device_node *node) { return node->domain; }
static inline int of_property_read_u32(struct device_node *node, const char *name, void *into)
{
    memcpy(into, &node->first_vector, sizeof node->first_vector);
    return strcmp(name, "loongson,pic-base-vec") == 0 ? 0 : -EINVAL;
}
/* The driver's start, which the kernel would find in a table. */
#define IRQCHIP_DECLARE(name, compatible, start) int (*const driver_start)(struct device_node *, struct device_node *) = start

/* ACPI. */
struct acpi_madt_bio_pic {
    u64 address;
    u16 size, id, gsi_base;
};
struct acpi_madt_lpc_pic { u64 address; };
union acpi_subtable_headers { int unused; };
#define ACPI_MADT_TYPE_LPC_PIC 1
/* This board has no LPC controller, so there is none to be parsed. */
#define acpi_table_parse_madt(type, parse, most) ((void)(parse), 0)
#define pch_lpc_acpi_init(parent, entry) ((void)(parent), (void)(entry), 0)
int find_pch_pic(u32 gsi);
int pch_pic_acpi_init(struct irq_domain *parent, struct acpi_madt_bio_pic *entry);

/* Suspend and resume. Before struct syscore came, the calls had no data. */
#if defined SYSCORE_HAS_DATA && SYSCORE_HAS_DATA
struct syscore_ops {
    int (*suspend)(void *);
    void (*resume)(void *);
};
struct syscore {
    const struct syscore_ops *ops;
    void *data;
};
void register_syscore(struct syscore *);
#else
struct syscore_ops {
    int (*suspend)(void);
    void (*resume)(void);
};
void register_syscore_ops(struct syscore_ops *);
#endif

#endif
