/* A hoist's device and its phase in one file. hosts/rust writes and reads the same. */
#include "hoist.h"

int hoist_save(const struct hoist *hoist, enum pic_form form, const char *path)
{
    uint8_t phase = hoist->phase != 0;
    return pic_save_with(&hoist->pic, form, &phase, 1, path);
}

int hoist_load(struct hoist *hoist, const char *path, uint64_t *place)
{
    return pic_load_with(&hoist->pic, &hoist->phase, 1, path, place);
}
