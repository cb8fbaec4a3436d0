/* A host that knows only what tools/install puts in place: built through pkg-config by tools/try-tools. */
#include <pch_pic.h>
#include <stdio.h>
#include <string.h>

int main(void)
{
    uint8_t image[PCH_PIC_IMAGE2_NUMBERED_LEN], answer[PCH_PIC_ANSWER_LEN];
    const uint64_t base = 0x10000000;

    if (strcmp(pch_pic_version(), PCH_PIC_VERSION) != 0) {
        printf("the header is of version %s, and what is linked of %s\n", PCH_PIC_VERSION, pch_pic_version());
        return 1;
    }
    if (pch_pic_reset(image, sizeof image, answer, sizeof answer) != PCH_PIC_DONE ||
        pch_pic_write(image, sizeof image, base, PCH_PIC_WINDOW_LEN, base + PCH_PIC_REG_MASK, 4, 0, answer, sizeof answer) != PCH_PIC_DONE ||
        pch_pic_level(image, sizeof image, 5, 1, answer, sizeof answer) != PCH_PIC_DONE || answer[PCH_PIC_ANSWER_PRESENT] != 1)
        return 1;
    printf("assert vector 0x%02x\n", answer[PCH_PIC_ANSWER_VECTOR]);
    return 0;
}
