/* The calls of pch_pic.h on a struct pic, and its wires. Image and board stand in the struct and the answer area on the stack, so they never overlap. */
#include "pic.h"

#include <errno.h>
#include <string.h>

static uint64_t number_at(const uint8_t *bytes, size_t len)
{
    uint64_t value = 0;
    while (len > 0) {
        len--;
        value = value << 8 | bytes[len];
    }
    return value;
}

static uint64_t value_of(const uint8_t answer[PCH_PIC_ANSWER_LEN])
{
    return number_at(answer + PCH_PIC_ANSWER_VALUE, 8);
}

/* The event that a done call returned. */
static struct pic_event event_of(int number, const uint8_t answer[PCH_PIC_ANSWER_LEN], enum pic_change change)
{
    struct pic_event event = {PIC_NOTHING, 0, PIC_NO_NUMBER};
    if (number == PCH_PIC_DONE && answer[PCH_PIC_ANSWER_PRESENT] == 1) {
        event.change = change;
        event.vector = answer[PCH_PIC_ANSWER_VECTOR];
        event.number = (int32_t)number_at(answer + PCH_PIC_ANSWER_EVENT_NUMBER, 2);
    }
    return event;
}

/* Before the call: what is then in a file says what a host was at when it ended. */
static void announce(const struct pic *pic, int kind, uint64_t of, uint64_t address, uint64_t value)
{
    if (pic->watch != NULL) {
        struct pic_call call = {kind, of, address, value};
        pic->watch(pic->watcher, pic, &call);
    }
}

/* The same of a call that may change the device, and it is counted. */
static void announce_change(struct pic *pic, int kind, uint64_t of, uint64_t address, uint64_t value)
{
    announce(pic, kind, of, address, value);
    pic->changes++;
}

int pic_init(struct pic *pic, uint64_t base)
{
    pic->base = base;
    pic->size = PCH_PIC_WINDOW_LEN;
    pic->changes = 0;
    pic->watch = NULL;
    pic->watcher = NULL;
    return pic_reset(pic);
}

int pic_reset(struct pic *pic)
{
    uint8_t answer[PCH_PIC_ANSWER_LEN];
    announce_change(pic, PIC_CALL_RESET, 0, 0, 0);
    return pch_pic_board_reset(pic->image, sizeof pic->image, pic->board, sizeof pic->board, answer, sizeof answer);
}

/* Brings the board up to date after a call that was not lent it: a read of ID changes nothing, and counts. */
static void recount(struct pic *pic)
{
    uint8_t answer[PCH_PIC_ANSWER_LEN];
    pch_pic_board_read(pic->image, sizeof pic->image, pic->board, sizeof pic->board, 0, PCH_PIC_WINDOW_LEN, PCH_PIC_REG_ID, 4, answer, sizeof answer);
}

/* A read leaves the image, and so the board. */
int pic_read(const struct pic *pic, uint64_t address, uint64_t width, uint64_t *value)
{
    uint8_t answer[PCH_PIC_ANSWER_LEN];
    announce(pic, PCH_PIC_READ, width, address, 0);
    int number = pch_pic_read(pic->image, sizeof pic->image, pic->base, pic->size, address, width, answer, sizeof answer);
    *value = number == PCH_PIC_DONE ? value_of(answer) : 0;
    return number;
}

int pic_write(struct pic *pic, uint64_t address, uint64_t width, uint64_t value, uint64_t *dropped)
{
    uint8_t answer[PCH_PIC_ANSWER_LEN];
    announce_change(pic, PCH_PIC_WRITE, width, address, value);
    int number = pch_pic_board_write(pic->image, sizeof pic->image, pic->board, sizeof pic->board, pic->base, pic->size, address, width, value,
                                     answer, sizeof answer);
    if (dropped != NULL)
        *dropped = number == PCH_PIC_DONE ? value_of(answer) : 0;
    return number;
}

int pic_table_read(const struct pic *pic, uint64_t address, uint64_t width, uint64_t *value)
{
    uint8_t answer[PCH_PIC_ANSWER_LEN];
    announce(pic, PCH_PIC_READ, width, address, 0);
    int number = pch_pic_table_read(pic->image, sizeof pic->image, pic->base, pic->size, address, width, answer, sizeof answer);
    *value = number == PCH_PIC_DONE ? value_of(answer) : 0;
    return number;
}

int pic_table_write(struct pic *pic, uint64_t address, uint64_t width, uint64_t value, uint64_t *dropped)
{
    uint8_t answer[PCH_PIC_ANSWER_LEN];
    announce_change(pic, PCH_PIC_WRITE, width, address, value);
    int number = pch_pic_table_write(pic->image, sizeof pic->image, pic->base, pic->size, address, width, value, answer, sizeof answer);
    recount(pic);
    if (dropped != NULL)
        *dropped = number == PCH_PIC_DONE ? value_of(answer) : 0;
    return number;
}

int pic_level(struct pic *pic, uint64_t input, bool high, struct pic_event *event)
{
    uint8_t answer[PCH_PIC_ANSWER_LEN];
    announce_change(pic, high ? PCH_PIC_RAISE : PCH_PIC_LOWER, input, 0, 0);
    int number = pch_pic_board_level(pic->image, sizeof pic->image, pic->board, sizeof pic->board, input, high, answer, sizeof answer);
    *event = event_of(number, answer, high ? PIC_ASSERT : PIC_DEASSERT);
    return number;
}

int pic_poll(struct pic *pic, uint64_t input, struct pic_event *event)
{
    uint8_t answer[PCH_PIC_ANSWER_LEN];
    announce_change(pic, PCH_PIC_POLL, input, 0, 0);
    int number = pch_pic_board_poll(pic->image, sizeof pic->image, pic->board, sizeof pic->board, input, answer, sizeof answer);
    *event = event_of(number, answer, PIC_ASSERT);
    return number;
}

int pic_waiting_inputs(const struct pic *pic, uint64_t *inputs)
{
    uint8_t answer[PCH_PIC_ANSWER_LEN];
    int number = pch_pic_waiting(pic->image, sizeof pic->image, answer, sizeof answer);
    *inputs = number == PCH_PIC_DONE ? value_of(answer) : 0;
    return number;
}

int pic_drain(struct pic *pic, struct pic_event events[PCH_PIC_EVENTS], size_t *count)
{
    uint8_t answer[PCH_PIC_ANSWER_LEN], drained[PCH_PIC_EVENTS * PCH_PIC_EVENT_LEN];
    announce_change(pic, PCH_PIC_DRAIN, 0, 0, 0);
    int number = pch_pic_board_drain(pic->image, sizeof pic->image, pic->board, sizeof pic->board, drained, sizeof drained, 0, answer, sizeof answer);
    *count = number == PCH_PIC_DONE ? (size_t)value_of(answer) : 0;
    for (size_t i = 0; i < *count; i++) {
        const uint8_t *event = drained + PCH_PIC_EVENT_LEN * i;
        events[i].vector = event[PCH_PIC_EVENT_VECTOR];
        events[i].change = event[PCH_PIC_EVENT_FLAG] == 1 ? PIC_ASSERT : PIC_DEASSERT;
        events[i].number = (int32_t)number_at(event + PCH_PIC_EVENT_NUMBER, 2);
    }
    return number;
}

/* Numbers go round, so they are compared by how far they are from one of them. Events come nearly in order, and then little is moved. */
void pic_in_order(struct pic_event *events, size_t count)
{
    uint16_t from = count > 0 ? (uint16_t)events[0].number : 0;
    for (size_t i = 1; i < count; i++) {
        struct pic_event event = events[i];
        int16_t far = pch_pic_difference((uint16_t)event.number, from);
        size_t to = i;
        for (; to > 0 && pch_pic_difference((uint16_t)events[to - 1].number, from) > far; to--) {
            events[to] = events[to - 1];
        }
        events[to] = event;
    }
}

/* From a reset the first event has number 0, so that for one round of them the numbers themselves are the order. */
void pic_by_number(struct pic_event *events, size_t count)
{
    for (size_t i = 1; i < count; i++) {
        struct pic_event event = events[i];
        size_t to = i;
        for (; to > 0 && events[to - 1].number > event.number; to--) {
            events[to] = events[to - 1];
        }
        events[to] = event;
    }
}

static size_t image_len(enum pic_form form)
{
    switch (form) {
    case PIC_FORM_1: return PCH_PIC_IMAGE_LEN;
    case PIC_FORM_2: return PCH_PIC_IMAGE2_LEN;
    case PIC_FORM_NUMBERED: return PCH_PIC_IMAGE2_NUMBERED_LEN;
    }
    return 0;
}

size_t pic_image(const struct pic *pic, enum pic_form form, uint8_t image[PCH_PIC_IMAGE2_NUMBERED_LEN])
{
    uint8_t answer[PCH_PIC_ANSWER_LEN];
    size_t len = image_len(form);
    return pch_pic_convert(pic->image, sizeof pic->image, image, len, answer, sizeof answer) == PCH_PIC_DONE ? len : 0;
}

/* The conversion tests the image, and leaves the device where it refuses. */
int pic_take(struct pic *pic, const uint8_t *image, size_t image_len, uint64_t *place)
{
    uint8_t answer[PCH_PIC_ANSWER_LEN];
    int number = pch_pic_convert(image, image_len, pic->image, sizeof pic->image, answer, sizeof answer);
    if (number == PCH_PIC_DONE) {
        recount(pic);
        announce_change(pic, PIC_CALL_LOAD, 0, 0, 0);
    }
    if (place != NULL && number >= PCH_PIC_COPY && number <= PCH_PIC_UNUSED) {
        *place = value_of(answer);
    }
    return number;
}

/* The len bytes at place of the body of that kind, as a number; counted back from the body's end if place is below 0. The body is found by the
 * contents, since it stands elsewhere in other forms. 0 where the image has no such bytes. */
static uint64_t in_body(const struct pic *pic, unsigned kind, long place, size_t len)
{
    const uint8_t *image = pic->image;
    for (size_t body = 0; body < image[PCH_PIC_IMAGE_BODIES]; body++) {
        size_t at = PCH_PIC_IMAGE_ENTRIES + PCH_PIC_ENTRY_LEN * body;
        if (at + PCH_PIC_ENTRY_LEN > sizeof pic->image) {
            break;
        }
        if (image[at + PCH_PIC_ENTRY_KIND] == kind) {
            size_t offset = (size_t)number_at(image + at + PCH_PIC_ENTRY_OFFSET, 2);
            size_t length = (size_t)number_at(image + at + PCH_PIC_ENTRY_LENGTH, 2);
            size_t from = place < 0 ? length - (size_t)-place : (size_t)place;
            bool inside = offset + length <= sizeof pic->image && from <= length && len <= length - from;
            return inside ? number_at(image + offset + from, len) : 0;
        }
    }
    return 0;
}

uint64_t pic_latched(const struct pic *pic)
{
    return in_body(pic, PCH_PIC_KIND_REGISTERS, -PCH_PIC_REGISTERS_IRR_BACK, 8);
}

uint64_t pic_service(const struct pic *pic)
{
    return in_body(pic, PCH_PIC_KIND_REGISTERS, -PCH_PIC_REGISTERS_ISR_BACK, 8);
}

uint8_t pic_vector(const struct pic *pic, unsigned input)
{
    return (uint8_t)in_body(pic, PCH_PIC_KIND_VECTORS, (long)input, 1);
}

unsigned pic_waiting(const struct pic *pic)
{
    return (unsigned)in_body(pic, PCH_PIC_KIND_EVENTS, PCH_PIC_EVENTS_WAITING, 1);
}

uint32_t pic_drops(const struct pic *pic)
{
    return (uint32_t)in_body(pic, PCH_PIC_KIND_EVENTS, PCH_PIC_EVENTS_DROPS, 4);
}

uint16_t pic_next(const struct pic *pic)
{
    return (uint16_t)in_body(pic, PCH_PIC_KIND_NUMBERS, PCH_PIC_NUMBERS_NEXT, 2);
}

bool pic_on(const struct pic *pic, uint8_t vector)
{
    return pic->board[vector] != 0;
}

int pic_hear(uint8_t board[PCH_PIC_BOARD_LEN], struct pic_event event)
{
    uint8_t answer[PCH_PIC_ANSWER_LEN];
    if (event.change == PIC_NOTHING) {
        return PCH_PIC_DONE;
    }
    return pch_pic_board_event(board, PCH_PIC_BOARD_LEN, event.vector, event.change == PIC_ASSERT, answer, sizeof answer);
}

static void tell(struct pic_wires *wires, uint8_t vector, bool on, int32_t number)
{
    struct pic_event event = {on ? PIC_ASSERT : PIC_DEASSERT, vector, number};
    wires->on[vector] = on;
    if (wires->route) {
        wires->route(wires->above, event);
    }
}

/* An event is passed on where the device, as it stands now, agrees with it. A deassert is not where another input still carries the vector; an
 * assert is not where the input has left service since. */
static void pass_on(const struct pic *pic, struct pic_wires *wires, struct pic_event event)
{
    bool on = pic_on(pic, event.vector);
    if ((event.change == PIC_ASSERT && on) || (event.change == PIC_DEASSERT && !on && wires->on[event.vector])) {
        tell(wires, event.vector, on, event.number);
    }
}

/* Passes on what waits, and then what no event told: a drop, a vector changed in service, a write of ISR, a load. */
static int catch_up(struct pic *pic, struct pic_wires *wires)
{
    struct pic_event events[PCH_PIC_EVENTS];
    size_t drained;
    int number = pic_drain(pic, events, &drained);
    if (number != PCH_PIC_DONE) {
        return number;
    }
    for (size_t i = 0; i < drained; i++) {
        pass_on(pic, wires, events[i]);
    }
    for (unsigned vector = 0; vector < PIC_VECTORS; vector++) {
        bool on = pic_on(pic, (uint8_t)vector);
        if (wires->on[vector] != on) {
            tell(wires, (uint8_t)vector, on, PIC_NO_NUMBER);
        }
    }
    return PCH_PIC_DONE;
}

static int move(struct pic *pic, struct pic_wires *wires, uint64_t input, bool high)
{
    struct pic_event event;
    int number = pic_level(pic, input, high, &event);
    pass_on(pic, wires, event);
    return number;
}

/* One sweep: each input that waits is polled, lowest first. Whatever the guest did, every latched and unmasked input is in service then, and each was asserted at
 * most once; polls of all 64 would come to the same. */
static int sweep(struct pic *pic, struct pic_wires *wires)
{
    struct pic_event event;
    uint64_t waiting;
    int number = pic_waiting_inputs(pic, &waiting);
    for (unsigned input = 0; waiting != 0 && number == PCH_PIC_DONE; input++, waiting >>= 1) {
        if (waiting & 1) {
            number = pic_poll(pic, input, &event);
            pass_on(pic, wires, event);
        }
    }
    return number;
}

static int move_all(struct pic *pic, struct pic_wires *wires, uint64_t inputs, bool high)
{
    int number = PCH_PIC_DONE;
    for (unsigned input = 0; inputs != 0 && number == PCH_PIC_DONE; input++, inputs >>= 1) {
        if (inputs & 1) {
            number = move(pic, wires, input, high);
        }
    }
    return number;
}

/* The inputs that the guest has made edge-triggered. The device keeps EDGE and knows levels alone, so what an edge is, is made of them here. No watcher is told of
 * this read: it is the host's, and no record of a day. */
static uint64_t edge_inputs(const struct pic *pic)
{
    uint8_t answer[PCH_PIC_ANSWER_LEN];
    int number = pch_pic_read(pic->image, sizeof pic->image, 0, PCH_PIC_WINDOW_LEN, PCH_PIC_REG_EDGE, 8, answer, sizeof answer);
    return number == PCH_PIC_DONE ? value_of(answer) : 0;
}

/* Waiting events are older than those of the inputs, so they go first; and a line that a CLEAR took goes off above before it goes on again. An edge whose line has
 * fallen, and that is a level now, is lowered before the sweep would wake it. */
int pic_settle(struct pic *pic, struct pic_wires *wires)
{
    uint64_t edges = edge_inputs(pic);
    int number = catch_up(pic, wires);
    if (number == PCH_PIC_DONE) {
        uint64_t levels_again = wires->edges & ~edges;
        wires->edges = edges;
        number = move_all(pic, wires, levels_again & pic_latched(pic) & ~wires->high, false);
    }
    if (number == PCH_PIC_DONE) {
        number = sweep(pic, wires);
    }
    /* A raise of one that is latched would do nothing now: it is in service, or masked. */
    return number == PCH_PIC_DONE ? move_all(pic, wires, wires->high & ~edges & ~pic_latched(pic), true) : number;
}

/* Of an edge only the rise is told: its latch stays though the line falls, and a line that is high already makes no second edge. */
int pic_line(struct pic *pic, struct pic_wires *wires, uint64_t input, bool high)
{
    if (input >= PCH_PIC_INPUTS) {
        return PCH_PIC_INPUT;
    }
    uint64_t bit = UINT64_C(1) << input;
    bool told = (edge_inputs(pic) & bit) == 0 || (high && (wires->high & bit) == 0);
    wires->high = high ? wires->high | bit : wires->high & ~bit;
    int number = catch_up(pic, wires);
    return number == PCH_PIC_DONE && told ? move(pic, wires, input, high) : number;
}

/* A line that was high when the device was saved may have gone low since: then its input is still latched, and nothing else would lower it. Not so
 * an edge: it stays until the guest clears it. What a lowering returns is left to the count. */
int pic_resume(struct pic *pic, struct pic_wires *wires, uint64_t high)
{
    uint64_t fallen = pic_latched(pic) & ~high & ~edge_inputs(pic);
    struct pic_event event;
    int number = PCH_PIC_DONE;
    for (unsigned input = 0; input < PCH_PIC_INPUTS && number == PCH_PIC_DONE; input++) {
        if (fallen >> input & 1) {
            number = pic_level(pic, input, false, &event);
        }
    }
    wires->high = high;
    return number == PCH_PIC_DONE ? pic_settle(pic, wires) : number;
}

const char *pic_why(int number)
{
    switch (number) {
    case PIC_FILE: return strerror(errno);
    case PIC_FOREIGN: return "the file is no saved PCH-PIC";
    case PIC_TORN: return "the file is damaged: it is shorter or longer than it says";
    case PIC_DAMAGED: return "the file is damaged: its checksum is not that of its bytes";
    default: return pch_pic_why(number);
    }
}

/* The version's last dot is compared too, so that 0.1 is not taken for 0.15. */
bool pic_fits(void)
{
    static const char own[] = PCH_PIC_VERSION;
    return strncmp(pch_pic_version(), own, (size_t)(strrchr(own, '.') + 1 - own)) == 0;
}
