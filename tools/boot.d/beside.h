/* QEMU's own model beside the device of tools/boot.d: it gets every access and every line as well, and after each both are compared. */
#ifndef BESIDE_H
#define BESIDE_H

#include "pic.h"

#include <stdio.h>

struct beside;

struct beside *beside_new(const struct pic *pic, const struct pic_wires *wires, unsigned lines);

/* Each is called when the library's device has done the same. */
void beside_reset(struct beside *beside);
void beside_line(struct beside *beside, int input, int level);
void beside_read(struct beside *beside, uint64_t offset, unsigned size, uint64_t value);
void beside_write(struct beside *beside, uint64_t offset, unsigned size, uint64_t value);

/* A line for each count. */
void beside_tell(const struct beside *beside, FILE *file);

#endif
