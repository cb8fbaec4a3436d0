/* Models of the controller side by side: this library, by itself and behind hosts/c, QEMU's of two versions, and KVM's. */
#ifndef MODELS_H
#define MODELS_H

#include <stdbool.h>
#include <stdint.h>

enum { MODEL_BASE = 0x10000000, MODEL_WINDOW = 0x400 };

struct model {
    const char *name;
    void (*start)(void); /* the device after reset, every line low */
    uint64_t (*read)(uint64_t offset, unsigned width);
    void (*write)(uint64_t offset, unsigned width, uint64_t value);
    void (*line)(unsigned input, bool high);
};
extern const struct model model_library, model_host, model_qemu7, model_qemu10, model_kvm;

/* A model tells the controller above of a vector. */
void model_told(unsigned vector, bool on);

#endif
