/* The hosts under test. */
#ifndef HOSTS_H
#define HOSTS_H

#include "board.h"

extern const struct host host_c;      /* hosts/c/pic.c */
extern const struct host host_rust;   /* Wires of hosts/rust, by host.rs */
extern const struct host host_duties; /* a host that does one duty after the other, each by itself */

/* What include/pch_pic.h asks of a host; host_duties does those of 'duties' alone. */
enum {
    DUTY_DRAIN = 1,    /* drain after each write */
    DUTY_SWEEP = 2,    /* then poll all inputs */
    DUTY_RAISE = 4,    /* then raise each level again whose line is high */
    DUTY_EDGES = 8,    /* of an edge tell the rise alone */
    DUTY_LEVELS = 16,  /* lower an edge that has become a level, its line low */
    DUTY_HOLD = 32,    /* hold a vector while any input in service carries it */
    DUTY_COUNT = 64,   /* tell what no event told */
    DUTY_LOWER = 128,  /* after a load lower the levels that fell meanwhile */
    DUTY_RESUME = 256, /* after a load settle */
    DUTY_RESET = 512,  /* after a reset settle */
    DUTY_ALL = 1023
};
extern unsigned duties;

/* What the hoist profile says of an access to host_c's device: 0, 14 or 15. */
int hoist_verdict(bool is_write, bool after_startup, uint64_t offset, unsigned width, uint64_t value);

#endif
