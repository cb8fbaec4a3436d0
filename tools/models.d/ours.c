/* This library: its events as they come, and behind hosts/c. */
#include "models.h"
#include "pic.h"

#include <stdio.h>
#include <stdlib.h>

static struct pic pic;
static struct pic_wires wires;

static void must(int number)
{
    if (number != PCH_PIC_DONE) {
        fprintf(stderr, "models: refused with %d: %s\n", number, pic_why(number));
        exit(2);
    }
}

static void told(void *above, struct pic_event event)
{
    (void)above;
    if (event.change != PIC_NOTHING) {
        model_told(event.vector, event.change == PIC_ASSERT);
    }
}

static void start(void)
{
    must(pic_init(&pic, MODEL_BASE));
    wires = (struct pic_wires){.route = told};
}

static uint64_t reads(uint64_t offset, unsigned width)
{
    uint64_t value;
    must(pic_read(&pic, MODEL_BASE + offset, width, &value));
    return value;
}

static void library_write(uint64_t offset, unsigned width, uint64_t value)
{
    struct pic_event events[PCH_PIC_EVENTS];
    size_t count;
    must(pic_write(&pic, MODEL_BASE + offset, width, value, NULL));
    must(pic_drain(&pic, events, &count));
    for (size_t i = 0; i < count; i++) {
        told(NULL, events[i]);
    }
}

static void library_line(unsigned input, bool high)
{
    struct pic_event event;
    must(pic_level(&pic, input, high, &event));
    told(NULL, event);
}

static void host_write(uint64_t offset, unsigned width, uint64_t value)
{
    must(pic_write(&pic, MODEL_BASE + offset, width, value, NULL));
    must(pic_settle(&pic, &wires));
}

static void host_line(unsigned input, bool high) { must(pic_line(&pic, &wires, input, high)); }

const struct model model_library = {"library", start, reads, library_write, library_line};
const struct model model_host = {"hosts/c", start, reads, host_write, host_line};
