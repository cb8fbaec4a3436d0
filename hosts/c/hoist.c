/* The calls of the hoist profile on a struct hoist. What passes is the plain call in every byte: so once the profile has said its word on a copy, the plain call
 * is made, and who watches the device is told of it and of no other. */
#include "hoist.h"

int hoist_init(struct hoist *hoist, uint64_t base)
{
    hoist->phase = 0;
    return pic_init(&hoist->pic, base);
}

int hoist_reset(struct hoist *hoist)
{
    int number = pic_reset(&hoist->pic);
    if (number == PCH_PIC_DONE) {
        hoist->phase = 0;
    }
    return number;
}

static bool refused(int number)
{
    return number == PCH_PIC_ALIGN || number == PCH_PIC_PROFILE;
}

int hoist_read(const struct hoist *hoist, uint64_t address, uint64_t width, uint64_t *value)
{
    const struct pic *pic = &hoist->pic;
    uint8_t answer[PCH_PIC_ANSWER_LEN];
    int number = pch_pic_hoist_read(pic->image, sizeof pic->image, pic->base, pic->size, address, width, answer, sizeof answer);
    *value = 0;
    return refused(number) ? number : pic_read(pic, address, width, value);
}

int hoist_write(struct hoist *hoist, uint64_t address, uint64_t width, uint64_t value, uint64_t *dropped)
{
    struct pic *pic = &hoist->pic, asked = *pic;
    uint8_t answer[PCH_PIC_ANSWER_LEN];
    int number = pch_pic_hoist_write(asked.image, sizeof asked.image, &hoist->phase, 1, pic->base, pic->size, address, width, value, answer, sizeof answer);
    if (dropped != NULL) {
        *dropped = 0;
    }
    return refused(number) ? number : pic_write(pic, address, width, value, dropped);
}

int hoist_end_startup(struct hoist *hoist)
{
    uint8_t answer[PCH_PIC_ANSWER_LEN];
    return pch_pic_hoist_end_startup(hoist->pic.image, sizeof hoist->pic.image, &hoist->phase, 1, answer, sizeof answer);
}

bool hoist_running(const struct hoist *hoist)
{
    return hoist->phase != 0;
}
