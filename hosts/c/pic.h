/* A PCH-PIC as a C host holds it: its image, its window, the calls of pch_pic.h on them, and its wires. Copy it and change it.
 * Each function that can fail hands back 0, a refusal's number of pch_pic.h, or a number from PIC_FILE on; pic_why says in words what it means. */
#ifndef PIC_H
#define PIC_H

#include "pch_pic.h"

#include <stdbool.h>

#ifdef __cplusplus
extern "C" {
#endif

/* What can be wrong with a file. */
enum {
    PIC_FILE = 100,    /* it cannot be read or written; errno says why */
    PIC_FOREIGN = 101, /* it is no saved PCH-PIC */
    PIC_TORN = 102,    /* it is shorter or longer than it says */
    PIC_DAMAGED = 103  /* its checksum is not that of its bytes */
};

/* The vectors of the controller above, and so the counts of a board. */
enum { PIC_VECTORS = PCH_PIC_BOARD_LEN };

/* The forms that a device is saved in; the last is form 2 with the numbers of events. Hosts of before version 0.8.0 do not load that one, and those of
 * before 0.6.0 load form 1 alone. The others lose the numbers and nothing else. */
enum pic_form { PIC_FORM_1 = 1, PIC_FORM_2 = 2, PIC_FORM_NUMBERED = 3 };

/* A call that is about to be made on a device: a kind of record of pch_pic.h, or one that no record can say. A drain is always one of all. */
enum { PIC_CALL_RESET = 100, PIC_CALL_LOAD = 101 };

struct pic_call {
    int kind;
    uint64_t of;      /* the input of a raise, lower or poll; the width of a read or write */
    uint64_t address; /* of a read or write */
    uint64_t value;   /* of a write */
};

/* The image is kept with numbers; forms matter where a device comes and goes (pic_image, pic_take, pic_save, pic_load). The board is kept beside it: for each
 * vector how many inputs in service carry it, after every call here, a load too.
 * watch, where it is not NULL, is told of each call before it is made, of those of pic_settle, pic_line and pic_resume too; of a load, once it is done.
 * recorder.h records a day by it. So a struct pic is all zeros or made by pic_init before anything is called on it. A copy of one is watched as well,
 * until its watch is set to NULL, and its first call ends a recording; and watched reads do not run side by side. */
struct pic {
    uint8_t image[PCH_PIC_IMAGE2_NUMBERED_LEN];
    uint8_t board[PCH_PIC_BOARD_LEN];
    uint64_t base, size;
    uint64_t changes; /* how many calls that may change it were made since pic_init: a copy that is put back is seen by it */
    void (*watch)(void *watcher, const struct pic *pic, const struct pic_call *call);
    void *watcher;
};

/* What is to be passed on to the interrupt controller above. */
enum pic_change { PIC_NOTHING, PIC_ASSERT, PIC_DEASSERT };

/* The number says when the device made the event, one after another; after 65535 comes 0. A route is also told of changes that no event told: those have
 * PIC_NO_NUMBER. */
enum { PIC_NO_NUMBER = -1 };

struct pic_event {
    enum pic_change change;
    uint8_t vector;
    int32_t number;
};

/* The wires of a device. All zero is a start: every line low, every vector off, nobody told. One of these goes with one device: it knows which lines were high and
 * which inputs were edge-triggered.
 * route is called for each vector that is to be asserted or deasserted above. It must not call back into the same device. An assert may come
 * for a vector that is on: another input that carries it wants service. A deassert comes only when no input carries it any more. */
struct pic_wires {
    uint64_t high;        /* in: bit n is set while a device of the host holds line n up */
    uint64_t edges;       /* pic_settle's own: the inputs that EDGE had when it last looked */
    bool on[PIC_VECTORS]; /* out: what the controller above was told last */
    void (*route)(void *above, struct pic_event event);
    void *above;
};

/* The calls of pch_pic.h.
 * pic_init sets the window too: the registers stand at base; nobody watches. A line that is high already may be raised again: it is latched and asked for, and
 * asserted at most once. pic_write says how many events the write dropped, where dropped is not NULL. pic_drain takes all waiting events, oldest
 * first, and says how many. pic_table_read and pic_table_write are pic_read and pic_write decoded by the table, and answer the same. */
int pic_init(struct pic *pic, uint64_t base);
int pic_reset(struct pic *pic);
int pic_read(const struct pic *pic, uint64_t address, uint64_t width, uint64_t *value);
int pic_write(struct pic *pic, uint64_t address, uint64_t width, uint64_t value, uint64_t *dropped);
int pic_table_read(const struct pic *pic, uint64_t address, uint64_t width, uint64_t *value);
int pic_table_write(struct pic *pic, uint64_t address, uint64_t width, uint64_t value, uint64_t *dropped);
int pic_level(struct pic *pic, uint64_t input, bool high, struct pic_event *event);
int pic_poll(struct pic *pic, uint64_t input, struct pic_event *event);
int pic_drain(struct pic *pic, struct pic_event events[PCH_PIC_EVENTS], size_t *count);

/* Who waits: the inputs that a poll would bring into service, bit n for input n. A poll of any other gives nothing and changes nothing. No watcher is told of it,
 * since it changes nothing: it is no record of a day. */
int pic_waiting_inputs(const struct pic *pic, uint64_t *inputs);

/* Puts events that pic_level, pic_poll and pic_drain gave into the order in which the device made them: a returned one is there at once, a drained one
 * comes late. At most 32768 events may have been made from the oldest of them to the newest, dropped ones counted. */
void pic_in_order(struct pic_event *events, size_t count);

/* The same of events since a reset, of which at most 65536 were made, dropped ones counted: by rising number. */
void pic_by_number(struct pic_event *events, size_t count);

/* What the image holds: the inputs that are latched and those in service, masked ones too (bit n for input n), an input's vector, how many events
 * wait, how many were dropped since reset, and the number of the next event. All are 0 where the image is none. */
uint64_t pic_latched(const struct pic *pic);
uint64_t pic_service(const struct pic *pic);
uint8_t pic_vector(const struct pic *pic, unsigned input);
unsigned pic_waiting(const struct pic *pic);
uint32_t pic_drops(const struct pic *pic);
uint16_t pic_next(const struct pic *pic);

/* Whether a vector is on: some input in service carries it. */
bool pic_on(const struct pic *pic, uint8_t vector);

/* A second board, for who has the events and not the device: it begins as zeros and hears each event that pic_level, pic_poll and pic_drain gave. It is
 * the device's board in the end if it heard all events since a reset in the order in which they were made (pic_by_number), none was dropped or
 * waits, nothing was loaded, no write reached ISR, and no vector byte changed while its input was in service. */
int pic_hear(uint8_t board[PCH_PIC_BOARD_LEN], struct pic_event event);

/* Brings the wires in line with the device, whatever the guest did: drains and passes on, counts afresh which vectors are on and passes on what no
 * event told, polls each input that waits, and raises each line again that is still high, no edge, and no longer latched. Then every latched and unmasked input
 * is in service. Where nobody waits and no line lacks its latch it is a drain, a look at who waits and a read of EDGE, of which the drain alone is a record of a day. Call it after each write and each reset. Once it has been called a level is latched while its line is high, and an edge from its rise until the guest clears it; an edge
 * that the guest makes a level follows its line from then on. */
int pic_settle(struct pic *pic, struct pic_wires *wires);

/* A device of the host moves a line, and what comes of it is passed on. Where the guest has the input in EDGE, only a rise from low to high is told to the device:
 * neither a fall nor a line that is high already. So a pulse is two calls, high and low, and one interrupt. */
int pic_line(struct pic *pic, struct pic_wires *wires, uint64_t input, bool high);

/* After a load: the lines are as high says, and the rest follows. wires->on says what the controller above has on: nothing where it is new. An edge that was
 * latched stays so, whatever its line; one that is high makes no new edge. So give the lines as they were at the save, and then move by pic_line those that
 * moved since: a rise in between is told then, and else lost. */
int pic_resume(struct pic *pic, struct pic_wires *wires, uint64_t high);

/* The device as an image of that form, and back from an image of any; its length says which. pic_image says how many bytes it wrote, 0 where pic
 * or form is none. The window is not in an image: pic_init sets that, before a pic_take too. One that fails leaves pic as it was, and where the image
 * breaks a rule of its form (8 to 11) *place, if place is not NULL, is the byte of the image that does; after one that is done, pic_resume. */
size_t pic_image(const struct pic *pic, enum pic_form form, uint8_t image[PCH_PIC_IMAGE2_NUMBERED_LEN]);
int pic_take(struct pic *pic, const uint8_t *image, size_t image_len, uint64_t *place);

/* The same to a file and back (pic_file.c). The file has a magic, a length and a checksum, and is replaced whole or not at all. A file of any form
 * is loaded, as pic_take takes its image; what is no plain file is not: it is PIC_FILE, and nothing waits for a writer. */
int pic_save(const struct pic *pic, enum pic_form form, const char *path);
int pic_load(struct pic *pic, const char *path, uint64_t *place);

/* The same with some bytes that the host keeps beside the image, at most PIC_KEPT_MAX, in one file. Such a file and one without them are not taken for one
 * another: a load that asks for another number of bytes than were saved hands back PCH_PIC_LENGTH or PCH_PIC_CONTENTS. One that fails leaves pic and kept
 * as they were. */
enum { PIC_KEPT_MAX = 16 };
int pic_save_with(const struct pic *pic, enum pic_form form, const uint8_t *kept, size_t kept_len, const char *path);
int pic_load_with(struct pic *pic, uint8_t *kept, size_t kept_len, const char *path, uint64_t *place);

/* Makes a file of these bytes, or replaces one, whole or not at all: they go to a file of their own beside it, which takes
 * its name only when it is on the disk. Several may save at once, and the last one wins. Owner and mode of the old file stay, a symbolic link is followed, and
 * what is no plain file is not replaced. Who is killed on the way leaves a file .pch-pic-*.new there, which nobody needs. 0 or PIC_FILE. pic_replace_open hands
 * back the new file itself, open for writing, or -1: who writes on in it writes in no other's, whoever takes the name next. */
int pic_replace(const char *path, const uint8_t *bytes, size_t len);
int pic_replace_open(const char *path, const uint8_t *bytes, size_t len);

const char *pic_why(int number);

/* Whether the library that is linked is of the major and minor version of the header that this was compiled with: one of another may have other calls.
 * Ask it when a host starts; pch_pic_version() says what is linked. */
bool pic_fits(void);

#ifdef __cplusplus
}
#endif

#endif
