/* The kernel around Linux's own text: domains and descriptors, request and enable, and the EIOINTC as a parent. taken.h has the functions of kernel/irq and of the
 * EIOINTC's driver, word for word; tools/try-linux takes them out of the package when it builds this. */
#include "kernel_shim.h"
#include "guest.h"

_Noreturn void kernel_bug(const char *what)
{
    fflush(stdout);
    fprintf(stderr, "the guest: %s\n", what);
    abort();
}

/* What taken.h asks for besides kernel_shim.h. */
#define EIOINTC_REG_ISR 0x1800
#define VEC_REG_COUNT 4
#define VEC_COUNT_PER_REG 64
#define EXPORT_SYMBOL_GPL(name)
#define smp_processor_id() 0
#define cpumask_first(mask) ((void)(mask), 0)
#define irq_data_get_effective_affinity_mask(d) ((const struct cpumask *)NULL)
#define irqd_is_single_target(d) false
#define irq_pm_check_wakeup(desc) false
#define irq_pm_handle_wakeup(desc) ((void)(desc))
#define irq_wait_for_poll(desc) false
#define irq_wait_on_inprogress(desc) false
#define irq_poll_cpu (-1)
#define kstat_incr_irqs_this_cpu(desc) ((void)(desc))
#define chained_irq_enter(chip, desc) ((void)(chip), (void)(desc))
#define chained_irq_exit(chip, desc) ((void)(chip), (void)(desc))
#define iocsr_read64(reg) board_pending(((reg) - EIOINTC_REG_ISR) / 8)
#define iocsr_write64(value, reg) board_ack(((reg) - EIOINTC_REG_ISR) / 8, value)
#define read_isr(word) board_pending(word)
#define write_isr(word, value) board_ack(word, value)
struct eiointc_priv {
    struct irq_domain *eiointc_domain;
    u32 vec_count;
};
static struct eiointc_priv eiointc = {.vec_count = VEC_REG_COUNT * VEC_COUNT_PER_REG}, *eiointc_priv[1] __attribute__((unused)) = {&eiointc};
struct eiointc_ip_route {
    struct eiointc_priv *priv;
    unsigned long start, end;
};

enum { VIRQS = 128 };
static struct irq_desc descs[VIRQS]; /* 0 is none */
static unsigned virqs = 1;
static uint64_t unmapped;

static void irq_state_set_disabled(struct irq_desc *desc) { irqd_set(&desc->irq_data, IRQD_IRQ_DISABLED); }
static void irq_state_set_masked(struct irq_desc *desc) { irqd_set(&desc->irq_data, IRQD_IRQ_MASKED); }
/* Neither chip can send an interrupt again by itself, so the tasklet does. */
static bool try_retrigger(struct irq_desc *desc)
{
    (void)desc;
    return false;
}
static int irq_sw_resend(struct irq_desc *desc)
{
    desc->resend = true;
    return 0;
}
/* An EIOINTC that has nothing is no harm to a kernel. */
static void spurious_interrupt(void) {}
static int generic_handle_domain_irq(struct irq_domain *domain, unsigned hwirq)
{
    unsigned virq = hwirq < HWIRQS ? domain->virq[hwirq] : 0;
    unmapped += virq == 0;
    if (virq == 0) {
        return -EINVAL;
    }
    descs[virq].handle_irq(&descs[virq]);
    return 0;
}
static irqreturn_t handle_irq_event_percpu(struct irq_desc *desc)
{
    int all = IRQ_NONE;
    for (struct irqaction *action = desc->action; action != NULL; action = action->next) {
        all |= action->handler((int)desc->irq_data.irq, action->dev_id);
    }
    return (irqreturn_t)all;
}
irqreturn_t handle_irq_event(struct irq_desc *);
void mask_irq(struct irq_desc *);
void unmask_irq(struct irq_desc *);

#include "taken.h"

/* Domains. */
static struct irq_domain *last_made;
struct irq_domain *irq_domain_create_hierarchy(struct irq_domain *parent, unsigned flags, unsigned size, struct fwnode_handle *fwnode,
                                               const struct irq_domain_ops *ops, void *host_data)
{
    struct irq_domain *domain = calloc(1, sizeof *domain);
    (void)flags;
    if (domain == NULL) {
        kernel_bug("no memory");
    }
    *domain = (struct irq_domain){.ops = ops, .host_data = host_data, .parent = parent, .fwnode = fwnode, .size = size};
    return last_made = domain;
}

struct fwnode_handle *irq_domain_alloc_fwnode(phys_addr_t *address)
{
    (void)address;
    return calloc(1, sizeof(struct fwnode_handle));
}

void irq_domain_free_fwnode(struct fwnode_handle *fwnode) { free(fwnode); }

int irq_domain_alloc_irqs_parent(struct irq_domain *domain, unsigned virq, unsigned count, void *spec)
{
    return domain->parent->ops->alloc(domain->parent, virq, count, spec);
}

void irq_domain_free_irqs_parent(struct irq_domain *domain, unsigned virq, unsigned count) { (void)domain, (void)virq, (void)count; }

void irq_domain_set_info(struct irq_domain *domain, unsigned virq, unsigned long hwirq, struct irq_chip *chip, void *chip_data, irq_flow_handler_t handler,
                         void *handler_data, const char *name)
{
    struct irq_desc *desc = &descs[virq];
    struct irq_data *d = desc->irq_data.domain == domain ? &desc->irq_data : &desc->above;
    (void)name;
    if (d->domain != domain || hwirq >= HWIRQS) {
        kernel_bug("an interrupt of another domain");
    }
    d->hwirq = hwirq;
    d->chip = chip;
    d->chip_data = chip_data;
    desc->handle_irq = handler;
    desc->handler_data = handler_data;
    domain->virq[hwirq] = virq;
}

/* The EIOINTC: nothing of it is masked, and its driver acks a vector by the write in its dispatch. */
static void nothing(struct irq_data *d) { (void)d; }
static struct irq_chip eiointc_chip = {.name = "EIOINTC", .irq_ack = nothing, .irq_mask = nothing, .irq_unmask = nothing};
static int eiointc_alloc(struct irq_domain *domain, unsigned virq, unsigned count, void *arg)
{
    struct irq_fwspec *spec = arg;
    (void)count;
    irq_domain_set_info(domain, virq, spec->param[0], &eiointc_chip, NULL, handle_edge_irq, NULL, NULL);
    return 0;
}
static const struct irq_domain_ops eiointc_ops = {.alloc = eiointc_alloc};
static struct eiointc_ip_route all_vectors = {&eiointc, 0, VEC_REG_COUNT};
static struct irq_desc cascade; /* the processor's line that the EIOINTC has */

extern int (*const driver_start)(struct device_node *, struct device_node *);
extern struct fwnode_handle *pch_pic_handle[MAX_IO_PICS];
static struct irq_domain *pic;
static struct irq_fwspec spec;
static u32 gsi_base;

static int start_by_acpi(uint64_t base, uint64_t size)
{
    struct acpi_madt_bio_pic entry = {.address = base, .size = (u16)size, .id = 0, .gsi_base = 64};
    int error = pch_pic_acpi_init(eiointc.eiointc_domain, &entry);
    gsi_base = entry.gsi_base;
    spec.fwnode = pch_pic_handle[0];
    return error != 0 ? error : find_pch_pic(gsi_base); /* the first of them, 0 */
}

int guest_start(uint64_t base, uint64_t size, bool acpi)
{
    static struct device_node node, parent;
    static struct fwnode_handle above;
    int error;
    eiointc.eiointc_domain = irq_domain_create_hierarchy(NULL, 0, HWIRQS, &above, &eiointc_ops, NULL);
    cascade.handler_data = BY_ROUTE ? (void *)&all_vectors : (void *)&eiointc;
    spec.param_count = 2;
    if (acpi) {
        error = start_by_acpi(base, size);
    } else {
        parent = (struct device_node){.fwnode.of_tree = true, .domain = eiointc.eiointc_domain};
        node = (struct device_node){.fwnode.of_tree = true, .window = {base, base + size - 1}};
        spec.fwnode = &node.fwnode;
        error = driver_start(&node, &parent);
    }
    pic = last_made;
    return error;
}

unsigned guest_inputs(void) { return pic->size; }

/* Translated, and allocated where it is not mapped yet. */
int guest_map(unsigned input, unsigned type)
{
    unsigned long hwirq = 0;
    unsigned got = type, virq = virqs;
    spec.param[0] = gsi_base + input;
    spec.param[1] = type;
    int error = pic->ops->translate(pic, &spec, &hwirq, &got);
    if (error != 0) {
        return error;
    }
    if (hwirq >= pic->size || virq >= VIRQS) {
        return -EINVAL;
    }
    if (pic->virq[hwirq] != 0) {
        return (int)pic->virq[hwirq];
    }
    struct irq_desc *desc = &descs[virqs++];
    *desc = (struct irq_desc){.state = IRQD_IRQ_DISABLED | IRQD_IRQ_MASKED, .depth = 1, .type = got != 0 ? got : type};
    desc->irq_data = (struct irq_data){.irq = virq, .state = &desc->state, .domain = pic, .parent_data = &desc->above};
    desc->above = (struct irq_data){.irq = virq, .state = &desc->state, .domain = pic->parent};
    error = pic->ops->alloc(pic, virq, 1, &spec);
    return error != 0 ? error : (int)virq;
}

int guest_set_type(int virq, unsigned type)
{
    struct irq_desc *desc = &descs[virq];
    raw_spin_lock(&desc->lock);
    int error = desc->irq_data.chip->irq_set_type(&desc->irq_data, type);
    raw_spin_unlock(&desc->lock);
    if (error == 0) {
        desc->type = type;
    }
    return error;
}

struct asked {
    struct irqaction action;
    bool (*handler)(void *);
    void *device;
};
static irqreturn_t call(int irq, void *dev_id)
{
    struct asked *asked = dev_id;
    (void)irq;
    return asked->handler(asked->device) ? IRQ_HANDLED : IRQ_NONE;
}

/* The first who asks sets the trigger and starts the interrupt; the others share it. */
int guest_request(int virq, bool (*handler)(void *), void *device)
{
    struct irq_desc *desc = &descs[virq];
    struct asked *asked = calloc(1, sizeof *asked);
    struct irqaction **end = &desc->action;
    bool first = desc->action == NULL;
    int error = first && desc->type != IRQ_TYPE_NONE ? guest_set_type(virq, desc->type) : 0;
    if (asked == NULL || error != 0) {
        free(asked);
        return error != 0 ? error : -ENOMEM;
    }
    *asked = (struct asked){{call, asked, NULL}, handler, device};
    while (*end != NULL) {
        end = &(*end)->next;
    }
    *end = &asked->action;
    if (first) {
        desc->depth = 1;
        guest_enable(virq);
    }
    return 0;
}

void guest_disable(int virq)
{
    struct irq_desc *desc = &descs[virq];
    raw_spin_lock(&desc->lock);
    if (desc->depth++ == 0) {
        irq_disable(desc);
    }
    raw_spin_unlock(&desc->lock);
}

void guest_enable(int virq)
{
    struct irq_desc *desc = &descs[virq];
    raw_spin_lock(&desc->lock);
    if (desc->depth == 0) {
        kernel_bug("enabled once too often");
    }
    if (--desc->depth == 0) {
        irq_enable(desc);
        check_irq_resend(desc, false);
    }
    raw_spin_unlock(&desc->lock);
}

bool guest_masked(int virq) { return irqd_irq_masked(&descs[virq].irq_data); }
unsigned guest_vector(int virq) { return (unsigned)descs[virq].above.hwirq; }
uint64_t guest_unmapped(void) { return unmapped; }
void guest_interrupt(void) { eiointc_irq_dispatch(&cascade); }

bool guest_resends(void)
{
    bool any = false;
    for (unsigned virq = 1; virq < virqs; virq++) {
        if (descs[virq].resend) {
            descs[virq].resend = false;
            descs[virq].handle_irq(&descs[virq]);
            any = true;
        }
    }
    return any;
}

#if defined SYSCORE_HAS_DATA && SYSCORE_HAS_DATA
static struct syscore *sleeper;
void register_syscore(struct syscore *syscore) { sleeper = syscore; }
static int go_to_sleep(void) { return sleeper->ops->suspend(sleeper->data); }
void guest_resume(void) { sleeper->ops->resume(sleeper->data); }
#else
static struct syscore_ops *sleeper;
void register_syscore_ops(struct syscore_ops *ops) { sleeper = ops; }
static int go_to_sleep(void) { return sleeper->suspend(); }
void guest_resume(void) { sleeper->resume(); }
#endif

bool guest_can_suspend(void) { return sleeper != NULL; }
void guest_suspend(void)
{
    if (go_to_sleep() != 0) {
        kernel_bug("no suspend");
    }
}
