/* The guest, as the board sees it: Linux's PCH-PIC driver, the flow handlers of its interrupt core and the EIOINTC driver's dispatch, on one processor.
 * An interrupt is named by its virq, as in Linux; numbers below 0 are errors of the kernel. */
#ifndef GUEST_H
#define GUEST_H

#include <stdbool.h>
#include <stdint.h>

enum { GUEST_EDGE_RISING = 1, GUEST_EDGE_FALLING = 2, GUEST_LEVEL_HIGH = 4, GUEST_LEVEL_LOW = 8 };

int guest_start(uint64_t base, uint64_t size, bool acpi); /* the driver's start, by device tree or by ACPI */
unsigned guest_inputs(void);                              /* as the driver has read them out of ID */
int guest_map(unsigned input, unsigned type);
int guest_request(int virq, bool (*handler)(void *device), void *device);
int guest_set_type(int virq, unsigned type);
void guest_disable(int virq); /* lazily, as Linux does it: masked only by the next interrupt */
void guest_enable(int virq);
bool guest_masked(int virq);
unsigned guest_vector(int virq); /* which one the guest waits for */
void guest_interrupt(void);      /* the processor takes what the EIOINTC has */
bool guest_resends(void);        /* the tasklet that sends edges again; whether there was one */
bool guest_can_suspend(void);
void guest_suspend(void);
void guest_resume(void);
uint64_t guest_unmapped(void); /* interrupts by vectors that nobody has */

#endif
