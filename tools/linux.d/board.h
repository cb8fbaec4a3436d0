/* The board: lines of devices, a PCH-PIC held by a host under test, the wire from it to an EIOINTC, and the guest's accesses. */
#ifndef BOARD_H
#define BOARD_H

#include <stdbool.h>
#include <stdint.h>

enum { BOARD_BASE = 0x10000000, BOARD_SIZE = 0x400, BOARD_INPUTS = 64, BOARD_VECTORS = 256 };

/* A host that holds a PCH-PIC. It tells of a vector by board_told. */
struct host {
    const char *name;
    void (*reset)(uint64_t lines); /* the device after reset, these lines high */
    uint64_t (*read)(uint64_t offset, unsigned width);
    void (*write)(uint64_t offset, unsigned width, uint64_t value);
    void (*line)(unsigned input, bool high);
    void (*move)(uint64_t lines); /* saved and loaded into a host that knows the lines alone */
    uint64_t (*latched)(void);
    uint64_t (*service)(void);
    bool (*on)(unsigned vector); /* what the EIOINTC was told last */
};

/* What may be wrong with the wire, so that the tests can be tested: each happens once in WIRE_EVERY times. tools/try-linux has the same in words. */
enum wire { WIRE_WHOLE, WIRE_LOSES_ASSERT, WIRE_LOSES_DEASSERT, WIRE_NEXT_VECTOR, WIRE_ASSERTS_ONLY, WIRE_LOSES_RISE, WIRE_LOSES_FALL, WIRES };
enum { WIRE_EVERY = 500 };

void board_start(const struct host *host, enum wire wire, bool keeps); /* keeps: an EIOINTC that does not let a deassert take a bit back */
void board_reset(void);                                                /* the power goes off and on; the lines stay */
void board_move(void);                                                 /* the machine is moved to another host */
void board_line(unsigned input, bool high);
void board_line_unseen(unsigned input, bool high); /* a line that moves while the machine is on its way: board_move tells it */
uint64_t board_lines(void);
void board_told(unsigned vector, bool on);
bool board_wants(void); /* the EIOINTC has something for the processor */
uint64_t board_latched(void);
uint64_t board_service(void);
bool board_on(unsigned vector);
uint64_t board_peek(uint64_t offset, unsigned width); /* a read that nobody counts */

/* Called around each access of the guest, where it is not NULL. */
extern void (*board_between)(void);

/* All that the guest can see, as one number: two hosts with the same one cannot be told apart by it. */
void board_seen(uint64_t value);
uint64_t board_sight(void);

/* The accesses by kind, and which of them the hoist profile would refuse: counted from a start on, in and after start-up. */
void board_count_accesses(void);
void board_startup_ends(void);
void board_print_accesses(void);

#endif
