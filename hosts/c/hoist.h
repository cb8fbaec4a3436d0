/* A PCH-PIC under the hoist profile of pch_pic.h: for a guest whose driver uses aligned Dwords alone, and leaves ISR and, once it runs, the vectors alone. The
 * guest's accesses and resets go by the calls here, and never by those of pic.h; lines, polls, drains and wires go by pic.h on the struct's pic.
 * Each call hands back what those of pic.h do; PCH_PIC_ALIGN and PCH_PIC_PROFILE are the profile's own refusals, and a refused call changes nothing. */
#ifndef HOIST_H
#define HOIST_H

#include "pic.h"

#ifdef __cplusplus
extern "C" {
#endif

/* The phase is kept beside the device: who saves the device saves this byte too, and sets it after a load. hoist_save and hoist_load do that. */
struct hoist {
    struct pic pic;
    uint8_t phase; /* 0 in start-up, any other value after it */
};

/* hoist_init sets the window too, as pic_init does. Both start the first phase. */
int hoist_init(struct hoist *hoist, uint64_t base);
int hoist_reset(struct hoist *hoist);

/* The guest's accesses. One that is done answers as pic_read and pic_write do, and is watched as they are; one that the profile refuses is not. */
int hoist_read(const struct hoist *hoist, uint64_t address, uint64_t width, uint64_t *value);
int hoist_write(struct hoist *hoist, uint64_t address, uint64_t width, uint64_t value, uint64_t *dropped);

/* The guest's driver is ready. PCH_PIC_PROFILE while an input is in service, and the second time. */
int hoist_end_startup(struct hoist *hoist);
bool hoist_running(const struct hoist *hoist);

/* The device and its phase to a file and back, as pic_save and pic_load do it for a device alone (hoist_file.c, which needs pic_file.c). A file without a
 * phase is not loaded here, nor one with a phase by pic_load: PCH_PIC_LENGTH says so. hoist_init comes before a load, and pic_resume after it. */
int hoist_save(const struct hoist *hoist, enum pic_form form, const char *path);
int hoist_load(struct hoist *hoist, const char *path, uint64_t *place);

#ifdef __cplusplus
}
#endif

#endif
