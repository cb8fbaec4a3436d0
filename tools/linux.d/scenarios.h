#ifndef SCENARIOS_H
#define SCENARIOS_H

#include <stdint.h>

struct scenario {
    const char *name, *what;
    void (*play)(void);
};
extern const struct scenario scenarios[];
extern const unsigned scenarios_count;

/* Whether the accesses of the driver are printed. */
extern _Bool accesses_told;

/* The soak's own words. */
extern uint64_t soak_steps, soak_seed;
extern _Bool soak_keeps; /* the EIOINTC keeps bits, so handlers may be called for nothing */
void soak(void);
void soak_with_edges(void);
void announced_once(void);

#endif
