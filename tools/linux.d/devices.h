/* Devices of the host with work for the guest, which they say by their lines; and whether all of it was done. */
#ifndef DEVICES_H
#define DEVICES_H

#include <stdbool.h>
#include <stdint.h>

enum manner { LEVEL, EDGE_HELD, EDGE_PULSE };

struct device {
    unsigned input;
    int virq;
    enum manner manner;
    uint64_t made, taken; /* jobs */
    uint64_t calls, idle; /* of its handler, and those that found no job */
    unsigned take;        /* how many jobs a call takes; 0: all */
    bool deaf;            /* the handler takes none */
    bool stuck;           /* the line stays high when all is done */
};
enum { DEVICES_MOST = 80 };
extern struct device devices[DEVICES_MOST];
extern unsigned devices_count;

/* A check that does not hold is told, the first few of them in words. */
void expect(bool holds, const char *format, ...) __attribute__((format(printf, 2, 3)));
uint64_t failures(void);
void nothing_to_try(void); /* this version of Linux has none of it */
bool tried(void);

bool start_guest(bool acpi);                                    /* and say how many inputs it has, by guest_inputs */
struct device *add_device(unsigned input, enum manner manner, unsigned type); /* type 0: what goes with the manner */
void ask(struct device *device);                                /* its driver requests the interrupt */
struct device *add_and_ask(unsigned input, enum manner manner, unsigned type);
void work(struct device *device);                               /* one more job */
void withdraw(struct device *device);                           /* the device takes its jobs back, and its line falls */
void work_unseen(struct device *device);                        /* one more job while the machine is on its way */
void withdraw_unseen(struct device *device);
void all_work(void);
unsigned run(unsigned at_most);                                 /* the processor, until nothing is pending; how many interrupts */
uint64_t jobs_left(void);
uint64_t idle_calls(bool lone);                                 /* lone: of devices alone on their line */
void all_called(uint64_t times);                                /* each handler, and never for nothing */
void at_rest(void);

#endif
