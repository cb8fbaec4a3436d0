/* A LoongArch PCH-PIC interrupt controller as a library: calls over bytes. This header is all that a host needs to read.
 *
 * Link with libpch_pic.a and with no other library. There are two kinds of it, and this header is for both:
 *     - the proved one, which tools/archive writes to target/archive: machine code of what is proved. It is for x86-64 Linux in user space, and for
 *       nothing else. It uses the SSE registers and the red zone below the stack pointer, which a kernel must not. It has no .eh_frame, so nothing can
 *       be unwound through its frames;
 *     - those that rustc makes of the proved text, which tools/archive --target writes to a folder of target/archive each: for LoongArch, AArch64 and
 *       RISC-V of 64 bits, and for x86-64 kernels. docs/BOARD.md says what is assumed of these. A kernel on x86-64 defines PCH_PIC_BARE
 *       before it includes this header, and so says that it links the one for x86_64-unknown-none.
 * The constant pch_pic_built says which kind is linked, and pch_pic_version() of which version it is. They are tested to leave the same bytes
 * (docs/BOARD.md).
 *
 * THE IMAGE. The device is an image of 290, 259 or 251 bytes, which the host owns and lends to each call. Nothing is allocated, and nothing is kept
 * from one call to the next. So to save a device is to copy its image, and to load it is to lend the copy. pch_pic_reset makes an image of any bytes of
 * such a length. The other calls test theirs and refuse one that breaks a rule of the form (4, 5, 8 to 11). To test an image and change nothing, read
 * ID from it: 0 says that it is accepted. What a done call leaves is always accepted. The test finds no other damage: most images with one byte
 * changed break no rule, and are the images of another device. So keep a checksum beside a saved image, as hosts/c/pic_file.c does.
 *
 * THE FORM. The length is the form: 259 bytes are form 1; 251 are form 2, which has no copy of IRR and all else; 290 are form 2 with a fifth body, the
 * numbers of events. A new host takes 290. Every call takes all three and leaves an image in the form in which it was lent; pch_pic_reset too goes by the
 * length. All forms of a device answer every call alike, but for the numbers of events. pch_pic_convert moves an image from one form to another.
 * Between 259 and 251 nothing is lost, and back it has the same bytes; from 290 to one of these the numbers are lost and nothing else. Libraries before
 * version 0.8.0 do not know 290 bytes, and those before 0.6.0 know form 1 alone: move an image to a form that they know before it is sent to one of
 * them. What they saved is lent as it is.
 *
 * THE CONTENTS. An image begins with a list: byte 0 is the form, byte 1 the number of bodies, and then come five bytes for each body: its kind,
 * its offset in the image and its length, two bytes each, little end first. Offsets and lengths differ from form to form, so a host that looks into
 * an image finds each body by its kind in this list:
 *
 *     kind 1    registers, eight bytes each, little end first; the last five are IRR, ISR, POL, AUTO0 and AUTO1. In form 1 a copy of IRR stands
 *               before them
 *     kind 2    the route bytes, that of input n at n
 *     kind 3    the vector bytes, that of input n at n
 *     kind 4    the events: how many wait (one byte, 0 to 16), how many were dropped since reset (four bytes, little end first; it stops at
 *               4294967295), and those that wait, two bytes each: vector and flag
 *     kind 5    the numbers, in an image of 290 bytes: that of the next event (two bytes, little end first), and those of the events that wait,
 *               oldest first, 16 in all, unused ones 0
 *
 * THE ANSWER. Each call hands back a number: 0 where it was done, else why it was refused. The number and the value, where there is one, are
 * also written to the answer area. It has at least 16 bytes; the first 16 are written, and those past them stay. (pch_pic_difference alone is lent
 * nothing, refuses nothing and hands back a difference.)
 *
 *     byte 0        the number
 *     byte 1        1 if a value is present, else 0
 *     bytes 2..7    0
 *     bytes 8..15   the value, little end first; 0 if absent
 *
 * REFUSALS. A refused call changes no byte of the image, of the board, of the phase, of the event buffer, of a conversion's target, of a play's answers, of
 * a salvage's two buffers and of a sheet. Every refusal but 7 writes the answer area; refusal 7 writes nothing at all, so after a 7 the answer area is not
 * this call's. Every call ends with a number, whatever the bytes, numbers and lengths are.
 *
 * EVENTS. An event is a vector to assert or to deassert at the interrupt controller above this one. Where the host moves a line (pch_pic_level,
 * pch_pic_poll) the event is returned at once, as the value. Where the guest writes MASK or CLEAR there can be many: they wait in the image, 16
 * at most, until pch_pic_drain moves them out; one that finds 16 waiting is dropped and counted.
 *
 * NUMBERS. Each event gets a number of 16 bits when it is made, whether it is then returned, waits or is dropped: the first after a reset gets 0, and after
 * 65535 comes 0 again. A host that was written for a version before 0.8.0 has to know three things:
 *     - a drained event is four bytes: the vector, the flag, and the number, little end first. They were two;
 *     - 64 bytes have room for all events that can wait. A buffer of 32 bytes, which had, now takes eight, and the others wait on;
 *     - the vector is the low byte of a returned value, (uint8_t)value, and not the whole of it: bits 16 to 31 are the number, so value is vector
 *       + 65536 * number.
 * All other values are what they were: that of a write is how many events it dropped, that of a drain how many it moved.
 *
 * THE ORDER OF EVENTS. One that is returned is there at once, one that waits only when it is drained: so they come to a host in another order than they
 * were made. A recorder that wants that order keeps each event with its number, and sorts them by pch_pic_difference(number, that of one of them), the
 * same one for all (pic_in_order of hosts/c/pic.c, Event::sort of hosts/rust). This is right where at most 32768 events were made from the oldest of them
 * to the newest, dropped ones counted; numbers go round, so of more it cannot tell. A number that is missing was a dropped event's, or that event waits
 * still. Numbers run on from call to call in an image of 290 bytes alone. In one of 259 or 251 each call begins with those of the waiting events, which
 * are 0, 1 and so on, and the next comes after them: there they put the events of one call in order, and no more.
 *
 * BOARDS. A board says which vectors are on: 256 bytes, one for each vector, which count the inputs in service that carry it, masked or not. A vector is on
 * while its count is not 0. The host owns the board as it owns the image, and keeps one beside each image. pch_pic_board_reset, _read, _write, _level, _poll and
 * _drain are the calls without board, in the number and in every other byte, and leave the board right for the image that they leave:
 *     - where such a call is done the board has the fresh counts of the image after it, whatever it held before. So a board needs no start, and a load
 *       needs nothing more: the first done call on the loaded image counts it. To count an image and change nothing, read ID from it;
 *     - where it is refused the board stays. A board under 256 bytes is refused with 7, as is a short answer area, before anything else; bytes past the
 *       first 256 stay;
 *     - a call that is not lent the board leaves it behind: after pch_pic_write, a call by the table or of the hoist profile, a play or a conversion it is
 *       right again only after the next done call that is lent it.
 * A call that is given the image that the last one left changes only counts of vectors that an input with a changed ISR bit or vector byte carried before
 * or carries after.
 * A recorder that has no image can keep a second board from the events alone: it begins as 256 zeros, and pch_pic_board_event counts one event at a
 * time, each vector returned by a raise or a poll as an assert, by a lower as a deassert, and each drained one by its flag. At the end it is equal to
 * the first board if it heard all events since a reset in the order in which they were made, none was dropped and none waits, no other image was
 * lent, no write reached ISR, and no vector byte changed while its input was in service. The numbers give that order: of the events since a reset of 290
 * bytes, while they are at most 65536, it is that of rising number, unsigned. pch_pic_difference is for a stretch of a longer day, and turns round
 * at 32768.
 *
 * TRACES. A trace is a day of calls as bytes, from a reset on: what was asked, and not what was answered, which pch_pic_play works out again. It has at
 * most 4000 records in 1 to 64 blocks, and so at most 64258 bytes, which fit into 64 KiB. A longer day is several traces, each but the first played by
 * pch_pic_play_on on the image that the one before left. All numbers have their little end first. First come its contents:
 *
 *     bytes 0..1    the number of blocks, 1 to 64
 *     then          for each block four bytes: where in the trace it begins (two bytes), and how many records it has (two bytes), none 0
 *
 * Then come the blocks, back to back in that order: the first right behind the contents, and the trace ends with the last. A record has 16 bytes:
 *
 *     byte 0        the kind: 1 raise, 2 lower, 3 poll, 4 read, 5 write, 6 drain of all
 *     byte 1        the input of a raise, lower or poll; the width of a read or write; 0 of a drain
 *     bytes 2..3    the offset of a read or write; 0 of all others
 *     bytes 4..7    0
 *     bytes 8..15   the value of a write; 0 of all others
 *
 * A record is bad where its kind is another or a byte is not 0 that has to be. An input of 64 or a width of 3 is not bad: that call is refused, and its
 * answer says so. So 16 zeros are a bad record, and a recorder that lost power can be seen in its file: hosts/c/recorder.c and module trace of hosts/rust
 * record, keep a planned day in a file, load and play. A trace whose contents are right and some of whose records are bad is damaged: pch_pic_salvage makes
 * a good trace of its blocks that have no bad record, and lists the others. Each block that is missing is a hole. Up to the first hole such a trace is the
 * day. Behind it the calls are played on another state than the day had, and nothing that comes of them is the day's: a day with no assert and three waits
 * withdrawn may come out with three asserts and none withdrawn. hosts/c/holes.h and module holes of hosts/rust keep what comes before the first hole, and
 * keep a list of the holes beside a trace.
 *
 * THE HOIST PROFILE. A guest whose driver uses aligned Dwords alone, and touches neither ISR nor the vectors once it runs, can be held to that: the host
 * makes its accesses by pch_pic_hoist_read and pch_pic_hoist_write, and all else, lines, polls and drains, by the plain calls on the same image. There are
 * two phases. The phase is a byte that the host keeps beside the image and lends with it, 0 in start-up and any other value after it; it is not in the
 * image, so who saves a device saves it too.
 *     - pch_pic_hoist_reset starts the first phase; a plain pch_pic_reset leaves the phase as it is. In both phases a Dword at an offset that 4 divides
 *       passes, and no other access (14), and ISR is not written, whatever the value (15). In the first the vectors are written, but not where a byte
 *       would change whose input is in service, masked or not (15); a byte that is written as it stands does not change.
 *     - pch_pic_hoist_end_startup starts the second, in which the vectors are not written at all, not even as they stand (15). It is refused while an input
 *       is in service, and when start-up has ended (15).
 * What passes is the plain call in its number and in every byte; 14 and 15 are given only where the plain call would be done, and change nothing but the
 * answer area. What a guest gains by it: of its calls since a reset, with no other image lent in between, the asserts of each vector are as many as its
 * deasserts and the inputs in service that carry it, dropped events counted; an input that is latched and unmasked, and then not lowered, cleared or
 * masked, is in service from the first poll or raise on; and no vector byte changes while its input is in service, nor any once start-up has ended.
 *
 * LINUX AND THE PROFILE. No version of Linux's driver (irq-loongson-pch-pic.c) fits it: Linux gets the plain calls. Of 6.1, 6.12 and 7.2 these are refused
 * with 14:
 *     - the Byte writes of all routes at start-up, and in 6.12 and 7.2 after a suspend too;
 *     - the Byte writes of vectors: in 6.1 of all at start-up; in 6.12 and 7.2 of one whenever a device's driver asks for an input, so also once start-up has
 *       ended, and of all after a suspend. For a vector that has no input yet these write a Byte at 0x2ff, where no register stands;
 *     - the Qword read of ID in 6.1 and 6.12; 7.2 reads a Dword.
 * All else that they do passes. A driver for the profile reads ID's high half by a Dword, and sets all vectors and routes, four at a time, before it unmasks
 * anything. Then it ends start-up, and from there on it writes MASK, CLEAR, EDGE and POL by Dwords, as Linux's does.
 *
 * THE SHEET. pch_pic_sheet counts a trace's day: 65 rows of ten numbers, those of inputs 0 to 63 and the total, each a u32 with its little end first, 2600
 * bytes in all. Refused records count as none, and keep their number. Columns 0 to 9:
 *
 *     0, 1          raises and lowers of the input that were done
 *     2, 3          asserts and deasserts made, whatever became of them
 *     4, 5          how many of both together were returned by a raise, a lower or a poll, and how many a write offered to the ring
 *     6             how many of the offered found 16 waiting, and were dropped
 *     7             the greatest wait
 *     8, 9          waits that were withdrawn, and those still open at the end
 *
 * A wait begins at a raise that finds the input neither latched nor in service, and ends at the next assert of that input, returned, kept or dropped: it is the
 * number of that record less the number of the raise, and 0 where the raise itself made the assert. A lowering, or a write to CLEAR that has a 1 for the
 * input, withdraws it. Masking does not end it, nor does a write to ISR, which makes no event. The total has the sum of each column, and of the waits
 * the greatest. hosts/c/sheet.c and Trace::sheet of hosts/rust name the columns, './run --sheet FILE' prints them, and tools/day draws the day.
 *
 * A DAY OF SEVERAL TRACES. A trace has at most 4000 records. A longer day is several traces: the first is played by pch_pic_play, and each further one by
 * pch_pic_play_on, on the image that the one before it left. A tally carries a sheet from trace to trace: PCH_PIC_TALLY_LEN bytes, which the host owns, 65 rows
 * of ten numbers, each a u64 with its little end first; number c of row r stands at byte PCH_PIC_LONG_ROW_LEN * r + 8 * c.
 *     - Rows 0 to 63 have the columns of a sheet, but for the last: that is 0, or 1 + the number of the raise whose wait is not over. Records are counted from
 *       0 over the whole day, so a wait may begin in one trace and end in another.
 *     - Of row 64 the first number is how many records were counted so far. The other nine are 0 after pch_pic_tally_begin, and no call changes them.
 * pch_pic_tally_add counts the records of one trace. It wants the image as it was before the first of them, so it comes before the play, and it leaves the image:
 *
 *     uint8_t tally[PCH_PIC_TALLY_LEN], sheet[PCH_PIC_LONG_SHEET_LEN];
 *     pch_pic_tally_begin(tally, sizeof tally, answer, sizeof answer);
 *     pch_pic_reset(image, sizeof image, answer, sizeof answer);
 *     pch_pic_tally_add(first, first_len, image, sizeof image, tally, sizeof tally, answer, sizeof answer);
 *     pch_pic_play(first, first_len, image, sizeof image, answers, sizeof answers, events, sizeof events, answer, sizeof answer);
 *     // and for each further trace, in the order of the day:
 *     pch_pic_tally_add(next, next_len, image, sizeof image, tally, sizeof tally, answer, sizeof answer);
 *     pch_pic_play_on(next, next_len, image, sizeof image, answers, sizeof answers, events, sizeof events, answer, sizeof answer);
 *     // at any time, and again later:
 *     pch_pic_tally_sheet(tally, sizeof tally, sheet, sizeof sheet, answer, sizeof answer);
 *
 * pch_pic_tally_sheet writes the sheet of all records so far, PCH_PIC_LONG_SHEET_LEN bytes: the rows and columns of a sheet in numbers of eight bytes, waits that are
 * not over as open ones, and the total. Of one trace from a reset these are the numbers of pch_pic_sheet. Waits are in records of the whole day. A host that keeps a
 * day in files keeps the tally and the image beside them; hosts/c/days.h records a day of any length as a folder of traces. Any bytes get an answer: 17 says that
 * they cannot be counted on from, and other bytes that are no tally are not found out.
 *
 * THE STACK. Nothing is on the heap. Below its caller a call of the proved archive uses so many bytes of stack, the return address included, as tools/bench
 * --stack measured them (docs/PERFORMANCE.md says on what; leave some room above them); a difference uses the return address alone:
 *     pch_pic_reset 8, pch_pic_read 184, pch_pic_write 256, pch_pic_level 104, pch_pic_poll 96, pch_pic_drain 208, pch_pic_waiting 80,
 *     pch_pic_convert 469, pch_pic_play 448, pch_pic_play_on 528, pch_pic_salvage 224, pch_pic_sheet 128,
 *     pch_pic_tally_begin 8, pch_pic_tally_add 184, pch_pic_tally_sheet 40,
 *     pch_pic_board_reset 40, pch_pic_board_read 136, pch_pic_board_write 192, pch_pic_board_level 121, pch_pic_board_poll 128, pch_pic_board_drain 226,
 *     pch_pic_board_event 8,
 *     pch_pic_hoist_reset 40, pch_pic_hoist_read 104, pch_pic_hoist_write 176, pch_pic_hoist_end_startup 80,
 *     pch_pic_table_read 232, pch_pic_table_write 232
 *
 * WHAT A HOST MUST DO. hosts/c/pic.c and crate pch-pic in hosts/rust do all of this (pic_settle, pic_line, pic_resume):
 *     - After each write of the guest, drain, and pass the events on in their order. Then ask who waits (pch_pic_waiting), poll each of these inputs, in any
 *       order, and pass on what they return: an unmask announces only the lowest input that waits, and this sweep wakes the others. Once each of them is
 *       polled, with no MASK, CLEAR or ISR written, no line lowered, no reset and no other image lent in between, every latched and unmasked input is in
 *       service, and each was asserted at most once. Polls of all 64 leave the same image and return the same events, and take longer. And raise each level
 *       again whose line is still high and whose latch (IRR) is gone: a CLEAR takes the latch of a line though it is high.
 *     - Make edges of the inputs that the guest has in EDGE: the device stores that register and knows levels alone. Raise such an input once, when its line goes
 *       from low to high. Do not lower it when the line falls, and do not raise it again while the line stays high. So it is latched from its rise until the
 *       guest's CLEAR; a second rise before that adds nothing. After a write, an input that has left EDGE is a level again: lower it where it is latched and its
 *       line is low. Treated as a level, a pulse is taken back before the guest looks, and a line that is held comes again after each CLEAR. POL is only stored:
 *       to raise is to make active, whichever way the wire turns.
 *     - Hold a vector on while any input in service carries it. Inputs may share a vector: then it is asserted once for each of them, and is off
 *       only after as many deasserts.
 *     - Do not trust that each deassert had an assert. Where the guest changes the vector byte of an input in service, the deassert names the
 *       new vector, and none ever comes for the old one. Where the guest writes ISR, inputs enter or leave service and no event tells it. A count
 *       that goes up and down with the events goes wrong then, below 0 even.
 *     - So count afresh: the vectors that are on are those of the inputs in the stored ISR, and no others. A board beside the image has these counts after
 *       each call. (A read of register 0x3a0 leaves out masked inputs, and those can be in service too, after a write of ISR or a load.) What it says
 *       must be passed on when a write's value is not 0, since a dropped event is never told, and after a write to ISR or to a vector byte. It may be
 *       passed on at any time when no event waits, so the simplest host does it after each call.
 *     - After a load, rebuild what is not in the image. Lower each level that is latched (IRR) while its line is low now, drain, count afresh
 *       against what the controller above has on, poll each input that waits, and raise each level whose line is high. The same goes for a reset while the guest
 *       runs. An edge that is latched stays so, whatever its line. The image does not say which lines were high: keep them beside it, or an edge that rose
 *       between save and load is lost.
 *     - Pass the events of one call on before the next call is made on that image: who holds the image's lock keeps it until then.
 *
 * THE HOST'S DUTIES. No call can test these:
 *     - each pointer is good for as many bytes as the length beside it says; a null pointer with length 0 is an empty buffer;
 *     - the image, the board, the phase, the answer area and the event buffer or the target of one call do not overlap, nor do the five areas of a play, nor
 *       the four of a salvage, nor the three of a sheet, nor those of a call on a tally;
 *     - while a call other than a read, pch_pic_waiting, a conversion or what is added to a tally runs on an image, no other call runs on it. These may run
 *       side by side on one image, each with its own answer area, board, target and tally: they only load from it. Calls on different images may always run
 *       side by side.
 */
#ifndef PCH_PIC_H
#define PCH_PIC_H

#if defined(__ILP32__) || (defined(__BYTE_ORDER__) && __BYTE_ORDER__ != __ORDER_LITTLE_ENDIAN__) || \
    (!defined(__x86_64__) && !defined(__aarch64__) && !defined(__loongarch64) && !(defined(__riscv) && __riscv_xlen == 64))
#error "pch_pic.h: no libpch_pic.a is for this target; tools/archive --list-targets tells which there are"
#elif defined(__x86_64__) && !defined(__linux__) && !defined(PCH_PIC_BARE)
#error "pch_pic.h: libpch_pic.a is for x86-64 Linux only; define PCH_PIC_BARE where the one for x86_64-unknown-none is linked"
#elif defined(__x86_64__) && (!defined(__SSE2__) || defined(__KERNEL__)) && !defined(PCH_PIC_BARE)
#error "pch_pic.h: libpch_pic.a is for user space only, it uses SSE and the red zone; define PCH_PIC_BARE where the one for x86_64-unknown-none is linked"
#endif

#include <stddef.h>
#include <stdint.h>

/* The version of the header and of what it says about the library. That of the library itself is pch_pic_version(). */
#define PCH_PIC_VERSION_MAJOR 0
#define PCH_PIC_VERSION_MINOR 16
#define PCH_PIC_VERSION_PATCH 1
#define PCH_PIC_VERSION "0.16.1"

#ifdef __cplusplus
extern "C" {
#endif

/* Which kind of archive is linked. The constant stands in the archive itself, so it is that of no other. */
enum {
    PCH_PIC_BUILT_PROVED = 1,  /* machine code of what is proved, from tools/archive */
    PCH_PIC_BUILT_BY_RUSTC = 2 /* rustc's code of the proved text, from tools/archive --target */
};
extern const uint8_t pch_pic_built;

/* The version of what is linked, as that says itself: "pch_pic ", the version, and then zeros. It has the same length in every version, so that a program may
 * meet another shared library than it was linked with. It can be read from a file too: strings libpch_pic.a | grep '^pch_pic [0-9]'. */
enum { PCH_PIC_LINKED_LEN = 24, PCH_PIC_LINKED_VERSION = 8 };
extern const char pch_pic_linked[PCH_PIC_LINKED_LEN];

/* The same without the name. A host compares it with PCH_PIC_VERSION when it starts: where they differ, it was compiled with the header of another version than
 * the library's. Two versions that differ in the patch alone have the same calls, which leave the same bytes. */
static inline const char *pch_pic_version(void)
{
    return pch_pic_linked + PCH_PIC_LINKED_VERSION;
}

/* Sizes. */
enum {
    PCH_PIC_IMAGE_LEN = 259,           /* bytes of an image of form 1 */
    PCH_PIC_IMAGE2_LEN = 251,          /* bytes of an image of form 2 */
    PCH_PIC_IMAGE2_NUMBERED_LEN = 290, /* bytes of an image of form 2 with numbers, the longest */
    PCH_PIC_ANSWER_LEN = 16,           /* bytes of an answer */
    PCH_PIC_INPUTS = 64,               /* input lines, 0 to 63 */
    PCH_PIC_BOARD_LEN = 256,           /* bytes of a board, one for each vector */
    PCH_PIC_EVENTS = 16,               /* events that wait at most */
    PCH_PIC_EVENT_LEN = 4,             /* bytes of a drained event; of all 16 they are 64 */
    PCH_PIC_DRAIN_ROOM = 64,           /* bytes that have room for all events that can wait */
    PCH_PIC_TRACE_MAX = 65536,         /* bytes that have room for every trace */
    PCH_PIC_RECORD_LEN = 16,           /* bytes of a record */
    PCH_PIC_RECORDS_MAX = 4000,        /* records of a trace at most */
    PCH_PIC_BLOCKS_MAX = 64,           /* blocks of a trace at most */
    PCH_PIC_DROPPED_LEN = 4,           /* bytes of an entry of a salvage's list */
    PCH_PIC_DROPPED_MAX = 252,         /* bytes that have room for every list: 63 blocks dropped, and one kept */
    PCH_PIC_SHEET_LEN = 2600,          /* bytes of a sheet */
    PCH_PIC_SHEET_ROWS = 65,           /* rows of a sheet: inputs 0 to 63, and the total */
    PCH_PIC_SHEET_ROW_LEN = 40,        /* bytes of a row: ten numbers of four bytes */
    PCH_PIC_TALLY_LEN = 5200,          /* bytes of a tally, which carries a sheet over several traces */
    PCH_PIC_LONG_SHEET_LEN = 5200,     /* bytes of the sheet of a tally */
    PCH_PIC_LONG_ROW_LEN = 80          /* bytes of a row of both: ten numbers of eight bytes */
};

/* The window of the calls that a trace is played by: base 0, and so many bytes. */
enum { PCH_PIC_PLAY_SIZE = 0x10000 };

/* Places in a drained event. */
enum {
    PCH_PIC_EVENT_VECTOR = 0, /* the vector */
    PCH_PIC_EVENT_FLAG = 1,   /* 1 for an assert, 0 for a deassert */
    PCH_PIC_EVENT_NUMBER = 2  /* the number, 2 bytes */
};

/* Places in an answer. */
enum {
    PCH_PIC_ANSWER_NUMBER = 0,  /* the number handed back */
    PCH_PIC_ANSWER_PRESENT = 1, /* 1 if a value is present */
    PCH_PIC_ANSWER_VALUE = 8,   /* the value, 8 bytes */
    /* Of a level and a poll the value, if present, is a returned event. */
    PCH_PIC_ANSWER_VECTOR = 8,       /* its vector */
    PCH_PIC_ANSWER_EVENT_NUMBER = 10 /* its number, 2 bytes */
};

/* The contents that an image begins with, and what a host may want to read in its bodies. All other places belong to the library. */
enum {
    PCH_PIC_IMAGE_FORM = 0,           /* the form */
    PCH_PIC_IMAGE_BODIES = 1,         /* the number of bodies */
    PCH_PIC_IMAGE_ENTRIES = 2,        /* the first body's entry; the others follow */
    PCH_PIC_ENTRY_LEN = 5,            /* bytes of an entry */
    PCH_PIC_ENTRY_KIND = 0,           /* in an entry: the body's kind */
    PCH_PIC_ENTRY_OFFSET = 1,         /* in an entry: where the body begins, 2 bytes */
    PCH_PIC_ENTRY_LENGTH = 3,         /* in an entry: how long it is, 2 bytes */
    PCH_PIC_KIND_REGISTERS = 1,       /* the body that ends with IRR, ISR, POL, AUTO0 and AUTO1 */
    PCH_PIC_KIND_ROUTES = 2,          /* the body of the route bytes */
    PCH_PIC_KIND_VECTORS = 3,         /* the body of the vector bytes */
    PCH_PIC_KIND_EVENTS = 4,          /* the body of the waiting events */
    PCH_PIC_KIND_NUMBERS = 5,         /* the body of the numbers */
    PCH_PIC_REGISTERS_IRR_BACK = 40,  /* IRR is the 8 bytes from here on, counted back from the body's end */
    PCH_PIC_REGISTERS_ISR_BACK = 32,  /* ISR likewise */
    PCH_PIC_EVENTS_WAITING = 0,       /* in the body of the events: how many wait */
    PCH_PIC_EVENTS_DROPS = 1,         /* in the body of the events: how many were dropped, 4 bytes */
    PCH_PIC_NUMBERS_NEXT = 0          /* in the body of the numbers: that of the next event, 2 bytes */
};

/* The contents that a trace begins with, and places in a record. */
enum {
    PCH_PIC_TRACE_BLOCKS = 0,  /* the number of blocks, 2 bytes */
    PCH_PIC_TRACE_ENTRIES = 2, /* the first block's entry; the others follow */
    PCH_PIC_BLOCK_LEN = 4,     /* bytes of an entry */
    PCH_PIC_BLOCK_OFFSET = 0,  /* in an entry: where the block begins, 2 bytes */
    PCH_PIC_BLOCK_RECORDS = 2, /* in an entry: how many records it has, 2 bytes */
    PCH_PIC_RECORD_KIND = 0,   /* in a record: the kind */
    PCH_PIC_RECORD_BYTE = 1,   /* in a record: the input or the width */
    PCH_PIC_RECORD_OFFSET = 2, /* in a record: the offset, 2 bytes */
    PCH_PIC_RECORD_VALUE = 8   /* in a record: the value, 8 bytes */
};

/* Places in an entry of a salvage's list. */
enum {
    PCH_PIC_DROPPED_BLOCK = 0, /* the number of the dropped block, 2 bytes */
    PCH_PIC_DROPPED_RECORD = 2 /* that of the first bad record in it, 2 bytes */
};

/* The kinds of records. */
enum {
    PCH_PIC_RAISE = 1, /* pch_pic_level with level 1 */
    PCH_PIC_LOWER = 2, /* pch_pic_level with level 0 */
    PCH_PIC_POLL = 3,  /* pch_pic_poll */
    PCH_PIC_READ = 4,  /* pch_pic_read */
    PCH_PIC_WRITE = 5, /* pch_pic_write */
    PCH_PIC_DRAIN = 6  /* pch_pic_drain with room for all */
};

/* The rows of a sheet are the inputs, and then the total; its columns are these: number c of row r stands at byte PCH_PIC_SHEET_ROW_LEN * r + 4 * c. */
enum {
    PCH_PIC_SHEET_TOTAL = 64,    /* the row of the total */
    PCH_PIC_SHEET_RAISES = 0,    /* raises done */
    PCH_PIC_SHEET_LOWERS = 1,    /* lowers done */
    PCH_PIC_SHEET_ASSERTS = 2,   /* asserts made */
    PCH_PIC_SHEET_DEASSERTS = 3, /* deasserts made */
    PCH_PIC_SHEET_RETURNED = 4,  /* of both: returned */
    PCH_PIC_SHEET_OFFERED = 5,   /* of both: offered, the dropped among them */
    PCH_PIC_SHEET_DROPPED = 6,   /* of both: dropped */
    PCH_PIC_SHEET_WAIT = 7,      /* the greatest wait, in records */
    PCH_PIC_SHEET_WITHDRAWN = 8, /* waits withdrawn */
    PCH_PIC_SHEET_OPEN = 9,      /* waits open at the end */
    PCH_PIC_SHEET_COLUMNS = 10   /* how many columns there are */
};

/* The numbers handed back. A call tests for them in the order 7, 4, 5, 8, 9, 10, 11, then 3, or 2 before 1, and hands back the first
 * that holds; pch_pic_play in the order 7, 4, 12, 13, 7, pch_pic_play_on 7, 4, 5, 8 to 11, 12, 13, 7, pch_pic_salvage 7, 12, 16, 7, and pch_pic_sheet
 * 7, 12, 13; the calls of the hoist profile end with 14 before 15. pch_pic_tally_add tests in the order 7, 4, 5, 8 to 11, 12, 13, 17, and
 * pch_pic_tally_sheet 7, 17. There is no 6 any more. */
enum pch_pic_number {
    PCH_PIC_DONE = 0,     /* the call was done */
    PCH_PIC_OUTSIDE = 1,  /* not all bytes of the access are inside the window; the value is the address */
    PCH_PIC_WIDTH = 2,    /* the width is not 1, 2, 4 or 8 */
    PCH_PIC_INPUT = 3,    /* the input is 64 or more */
    PCH_PIC_LENGTH = 4,   /* an image, or a conversion's target, is not 290, 259 or 251 bytes long */
    PCH_PIC_CONTENTS = 5, /* the image's first bytes, 27 of 290 or else 22, are not those of the form that its length says */
    PCH_PIC_ROOM = 7,     /* the answer area is under 16 bytes, a board under 256, a sheet under 2600, a tally or the sheet of one under 5200, no
                             phase is lent, a drain's place is past its buffer's end, or a play's answers or events or a salvage's second buffer or list are short */
    /* A rule of the form is broken; the value is the place in the image of the byte that breaks it, the first where there are several. */
    PCH_PIC_COPY = 8,     /* of form 1 alone: the copy of IRR differs from IRR; the place of its first byte */
    PCH_PIC_COUNT = 9,    /* more than 16 events wait */
    PCH_PIC_FLAG = 10,    /* the flag of a waiting event is neither 0 nor 1 */
    PCH_PIC_UNUSED = 11,  /* a byte behind the waiting events is not 0, or then one behind their numbers */
    /* Of a trace. */
    PCH_PIC_TRACE = 12,   /* its contents are wrong, it has another length than they say, or more than 4000 records */
    PCH_PIC_RECORD = 13,  /* a record is bad; the value is the number of the first, counted from 0 over the trace */
    /* Of the hoist profile. */
    PCH_PIC_ALIGN = 14,   /* the access is no Dword at an offset that 4 divides */
    PCH_PIC_PROFILE = 15, /* the write is not for this guest, or start-up cannot end */
    PCH_PIC_EMPTY = 16,   /* of a salvage: every block has a bad record, so that none is left */
    PCH_PIC_TALLY = 17    /* the tally has a number of 2^63 or more, or an open wait above its number of records; the value is the place of the first such
                             number's first byte */
};

/* A number in words. */
static inline const char *pch_pic_why(int number)
{
    switch (number) {
    case PCH_PIC_DONE: return "done";
    case PCH_PIC_OUTSIDE: return "the access is not wholly inside the window";
    case PCH_PIC_WIDTH: return "the width is not 1, 2, 4 or 8";
    case PCH_PIC_INPUT: return "the input is 64 or more";
    case PCH_PIC_LENGTH: return "an image is not 290, 259 or 251 bytes long";
    case PCH_PIC_CONTENTS: return "the image does not begin as one of its length does";
    case PCH_PIC_ROOM: return "a buffer is too short";
    case PCH_PIC_COPY: return "the image's copy of IRR differs from IRR";
    case PCH_PIC_COUNT: return "the image says that more than 16 events wait";
    case PCH_PIC_FLAG: return "the flag of a waiting event in the image is neither 0 nor 1";
    case PCH_PIC_UNUSED: return "the image has a byte that is not 0 behind its waiting events or their numbers";
    case PCH_PIC_TRACE: return "the trace's contents or length are wrong, or it has more than 4000 records";
    case PCH_PIC_RECORD: return "the trace has a bad record";
    case PCH_PIC_ALIGN: return "the access is no aligned Dword";
    case PCH_PIC_PROFILE: return "the profile does not allow the write, or start-up cannot end";
    case PCH_PIC_EMPTY: return "the trace has no block without a bad record";
    case PCH_PIC_TALLY: return "the tally has a number that none can have";
    default: return "unknown number";
    }
}

/* Register offsets, each of the low half: inputs 0 to 31. The high half, inputs 32 to 63, is PCH_PIC_REG_HIGH above. */
enum {
    PCH_PIC_REG_ID = 0x000,       /* 0x07000000, high half 0x003f0001; writes are ignored */
    PCH_PIC_REG_MASK = 0x020,     /* 1: the input is masked; all ones after reset. A write can make events */
    PCH_PIC_REG_HTMSI_EN = 0x040, /* stored, changes nothing else */
    PCH_PIC_REG_EDGE = 0x060,     /* stored, changes nothing else: edges are the host's to make */
    PCH_PIC_REG_CLEAR = 0x080,    /* a 1 takes the input's latch and service away, until it is raised again; can make events; reads 0 */
    PCH_PIC_REG_AUTO0 = 0x0c0,    /* stored, changes nothing else */
    PCH_PIC_REG_AUTO1 = 0x0e0,    /* stored, changes nothing else */
    PCH_PIC_REG_ROUTES = 0x100,   /* 64 bytes, one for each input, 1 after reset; stored, changes nothing else */
    PCH_PIC_REG_VECTORS = 0x200,  /* 64 bytes, the vector of each input; that of input n is n after reset */
    PCH_PIC_REG_IRR = 0x380,      /* the latched inputs; writes are ignored, and bytes and words read 0 */
    PCH_PIC_REG_ISR = 0x3a0,      /* the inputs in service; reads without the masked ones. A write replaces it and makes no event */
    PCH_PIC_REG_POL = 0x3e0,      /* stored, changes nothing else */
    PCH_PIC_REG_HIGH = 4,         /* from a low half to its high half */
    PCH_PIC_WINDOW_LEN = 0x400    /* the bytes that the registers take */
};

/* Makes image the device after reset, whatever its bytes were, in the form that its length says. No value. Refusals: 7, 4. */
uint8_t pch_pic_reset(uint8_t *image, size_t image_len, uint8_t *answer, size_t answer_len);

/* The guest reads width bytes (1, 2, 4 or 8) at address. The window is the size bytes from base on, and ends before address 2^64 - 1; all
 * bytes of an access have to lie inside. The value is what was read: 0 where no register stands. A read changes nothing in the image.
 * Refusals: 7, 4, 5, 8 to 11, 2, 1. */
uint8_t pch_pic_read(const uint8_t *image, size_t image_len, uint64_t base, uint64_t size, uint64_t address, uint64_t width,
                     uint8_t *answer, size_t answer_len);

/* The guest writes the low width bytes of value at address; the window is as for a read. Where no register stands, nothing changes. Events
 * that the write makes wait to be drained. The value is how many of them were dropped, and is always present: 0 where none was. It is no
 * vector: a host that takes a present value for one must ask which call gave it. It goes on telling where the drop count has reached its stop.
 * Refusals: 7, 4, 5, 8 to 11, 2, 1. */
uint8_t pch_pic_write(uint8_t *image, size_t image_len, uint64_t base, uint64_t size, uint64_t address, uint64_t width, uint64_t value,
                      uint8_t *answer, size_t answer_len);

/* The host lowers an input's line (level 0) or raises it (any other level). The value, if present, is a vector, in its low byte, and the event's
 * number, in bits 16 to 31: to assert where the line was raised, to deassert where it was lowered. Absent: nothing to pass on. Refusals: 7, 4, 5,
 * 8 to 11, 3. */
uint8_t pch_pic_level(uint8_t *image, size_t image_len, uint64_t input, uint64_t level, uint8_t *answer, size_t answer_len);

/* The host asks for an input whose line was raised before. If it is latched, unmasked and not in service, it goes into service, and the value
 * is the vector to assert and the number, as above. An unmask announces only the lowest input that waits: poll the others. Refusals: 7, 4, 5,
 * 8 to 11, 3. */
uint8_t pch_pic_poll(uint8_t *image, size_t image_len, uint64_t input, uint8_t *answer, size_t answer_len);

/* Who waits: the value is the set of the inputs that a poll would bring into service, those that are latched, unmasked and not in service, bit n for
 * input n; it is always present. Nothing changes in the image. A poll of any other input is done, returns nothing and changes nothing. Refusals: 7, 4, 5,
 * 8 to 11. */
uint8_t pch_pic_waiting(const uint8_t *image, size_t image_len, uint8_t *answer, size_t answer_len);

/* Moves waiting events to the event buffer, oldest first, from byte place on: four bytes each, the vector, then 1 for an assert or 0 for a
 * deassert, then the number, little end first. It moves as many as wait or as fit, whichever is fewer; the rest wait on, and all other bytes of the
 * buffer stay. The value is how many were moved, and is always present; 64 bytes have room for all, 32 for eight. Refusals: 7, 4, 5, 8 to 11. */
uint8_t pch_pic_drain(uint8_t *image, size_t image_len, uint8_t *events, size_t events_len, size_t place,
                      uint8_t *answer, size_t answer_len);

/* Makes target the same device in the form that the target's length says, whatever its bytes were. The image stays as it is; where both have one
 * form the target is a copy of it. There and back gives the same bytes, but for numbers, which only 290 bytes have: a target that gets them where the
 * image has none has waiting events from 0 on, and the next after them. No value. A refusal leaves the target; 4 is told of the image or of the target.
 * Refusals: 7, 4, 5, 8 to 11. */
uint8_t pch_pic_convert(const uint8_t *image, size_t image_len, uint8_t *target, size_t target_len, uint8_t *answer, size_t answer_len);

/* As pch_pic_read and pch_pic_write, in the number and in every byte, but decoded by a table of 1,024 entries, one for each byte offset, the one that
 * './run --map' prints. They take more time (docs/PERFORMANCE.md), and may be mixed with the other calls on one image. Refusals: 7, 4, 5, 8 to 11, 2, 1. */
uint8_t pch_pic_table_read(const uint8_t *image, size_t image_len, uint64_t base, uint64_t size, uint64_t address, uint64_t width,
                           uint8_t *answer, size_t answer_len);
uint8_t pch_pic_table_write(uint8_t *image, size_t image_len, uint64_t base, uint64_t size, uint64_t address, uint64_t width, uint64_t value,
                            uint8_t *answer, size_t answer_len);

/* As the calls without board, in the number and in every byte of image, answer area and event buffer; and where they are done the first 256 bytes of board
 * are the fresh counts of the image after it, one for each vector. Refused, the board stays. Refusals: 7 for a board under 256 bytes too, and then as there. */
uint8_t pch_pic_board_reset(uint8_t *image, size_t image_len, uint8_t *board, size_t board_len, uint8_t *answer, size_t answer_len);
uint8_t pch_pic_board_read(const uint8_t *image, size_t image_len, uint8_t *board, size_t board_len, uint64_t base, uint64_t size,
                           uint64_t address, uint64_t width, uint8_t *answer, size_t answer_len);
uint8_t pch_pic_board_write(uint8_t *image, size_t image_len, uint8_t *board, size_t board_len, uint64_t base, uint64_t size,
                            uint64_t address, uint64_t width, uint64_t value, uint8_t *answer, size_t answer_len);
uint8_t pch_pic_board_level(uint8_t *image, size_t image_len, uint8_t *board, size_t board_len, uint64_t input, uint64_t level,
                            uint8_t *answer, size_t answer_len);
uint8_t pch_pic_board_poll(uint8_t *image, size_t image_len, uint8_t *board, size_t board_len, uint64_t input,
                           uint8_t *answer, size_t answer_len);
uint8_t pch_pic_board_drain(uint8_t *image, size_t image_len, uint8_t *board, size_t board_len, uint8_t *events, size_t events_len, size_t place,
                            uint8_t *answer, size_t answer_len);

/* A second board hears one event: the count of vector goes down by one, not below 0, where flag is 0, and up by one, not past 255, where it is any other.
 * The value is the count after. Refusals: 7, for the answer area or the board. */
uint8_t pch_pic_board_event(uint8_t *board, size_t board_len, uint8_t vector, uint8_t flag, uint8_t *answer, size_t answer_len);

/* Plays a trace from a reset: makes image the device after reset in the form that its length says, whatever its bytes were, and then makes the call of
 * each record on it, one after another, with base 0 and size 65536. Every byte is what those calls leave, made one by one:
 *     - image is that of the device after the last;
 *     - answers gets the 16 answer bytes of each record, back to back: those of record n from byte 16 * n on. A refused call, as the raise of input 64, is
 *       answered by its number, changes nothing, and the play goes on. The address that goes with a refusal 1 is the offset;
 *     - events gets the drained events of all drains, back to back, four bytes each; the value of each drain's answer says how many are its own.
 * Bytes past them stay. The numbers of events run through the whole trace in an image of 290 bytes; in one of 259 or 251 they hold within one record.
 * The value is the number of records. A refusal comes before anything is played, and leaves image, answers and events. Refusals: 7 (the answer area), 4,
 * 12, 13 with the number of the first bad record, and then 7 where answers has under 16 bytes for each record, or events under 64 for each drain:
 * 64000 and 256000 have room for every trace. So to test a trace and play nothing, lend an answer area and an image as ever, and no answers: a 7 then says that
 * it is good. */
uint8_t pch_pic_play(const uint8_t *trace, size_t trace_len, uint8_t *image, size_t image_len, uint8_t *answers, size_t answers_len,
                     uint8_t *events, size_t events_len, uint8_t *answer, size_t answer_len);

/* Plays a trace on from image as it is, with no reset: in all else as pch_pic_play. Every byte is what the calls of its records leave, made one by one on that
 * image, which stays in its form. So a day longer than a trace is played trace by trace, the first by pch_pic_play and each other by this on the image that the one
 * before left: that is all their records played in order. Numbers of events run on in an image of 290 bytes.
 * Refusals: 7 (the answer area), 4, 5 and 8 to 11 with the place, as the other calls test an image, and then 12, 13 and 7 as of pch_pic_play. All come before
 * anything is played, and leave image, answers and events. */
uint8_t pch_pic_play_on(const uint8_t *trace, size_t trace_len, uint8_t *image, size_t image_len, uint8_t *answers, size_t answers_len,
                        uint8_t *events, size_t events_len, uint8_t *answer, size_t answer_len);

/* Salvages a damaged trace, whose contents are right: kept gets the trace of the blocks whose records are all good, byte for byte and in their order, with
 * contents of their own; list gets for each block that is dropped its number and that of the first bad record in it, both counted from 0, the record
 * within its block, two bytes each, little end first, in rising order. Bytes past them stay. What comes out is a good trace, no longer than the one lent;
 * a good trace comes out as it is, with an empty list. The value is the new trace's length. How many blocks were dropped is the number of blocks in the
 * old contents less that in the new. Refusals: 7 (the answer area), 12 as of a play, 16 where no block is left, and then 7 where kept is too short for the
 * new trace or list for its entries; none of them writes a byte of kept and list. As many bytes as the trace has are enough for kept, and
 * PCH_PIC_DROPPED_MAX for every list. What comes behind a block that was dropped plays on another state than the day had: only the blocks before the first
 * one in the list are the day's. */
uint8_t pch_pic_salvage(const uint8_t *trace, size_t trace_len, uint8_t *kept, size_t kept_len, uint8_t *list, size_t list_len, uint8_t *answer,
                        size_t answer_len);

/* The hoist profile's calls. Each is a plain call on the same image, or is refused with 14 or 15, as said above under THE HOIST PROFILE. phase is one byte,
 * longer areas are taken by their first byte, and none lent gets 7. Lines, polls and drains are the plain calls.
 *
 * As pch_pic_reset, and start-up begins: the phase becomes 0. No value. A refusal leaves the phase. Refusals: 7, 4. */
uint8_t pch_pic_hoist_reset(uint8_t *image, size_t image_len, uint8_t *phase, size_t phase_len, uint8_t *answer, size_t answer_len);

/* As pch_pic_read, of an aligned Dword alone; it needs no phase. Refusals: 7, 4, 5, 8 to 11, 2, 1, 14. */
uint8_t pch_pic_hoist_read(const uint8_t *image, size_t image_len, uint64_t base, uint64_t size, uint64_t address, uint64_t width,
                           uint8_t *answer, size_t answer_len);

/* As pch_pic_write, of an aligned Dword alone, not to ISR, and to the vectors in start-up alone, where no byte changes whose input is in service. 2 and 1
 * are tested with the access's own width, and it is the offset that 4 has to divide, not the address. Refusals: 7, 4, 5, 8 to 11, 2, 1, 14, 15. */
uint8_t pch_pic_hoist_write(uint8_t *image, size_t image_len, const uint8_t *phase, size_t phase_len, uint64_t base, uint64_t size, uint64_t address,
                            uint64_t width, uint64_t value, uint8_t *answer, size_t answer_len);

/* Ends start-up: the phase becomes 1. No value; the image is only read. Refused with 15 while an input is in service, and where the phase is not 0. A refusal
 * leaves the phase. Refusals: 7, 4, 5, 8 to 11, 15. */
uint8_t pch_pic_hoist_end_startup(const uint8_t *image, size_t image_len, uint8_t *phase, size_t phase_len, uint8_t *answer, size_t answer_len);

/* Counts the day of a trace into a sheet, as told above: what a play of it from a reset makes, and nothing is played for the host. The first 2600 bytes of
 * sheet are written, and those past them stay. The value is the number of records. A refusal leaves the sheet. Refusals: 7 (the answer area, or a sheet
 * under 2600 bytes), 12, 13 with the number of the first bad record. */
uint8_t pch_pic_sheet(const uint8_t *trace, size_t trace_len, uint8_t *sheet, size_t sheet_len, uint8_t *answer, size_t answer_len);

/* Makes the first 5200 bytes of tally a tally that has counted nothing: zeros. Those past them stay. No value. Refusals: 7 (the answer area, or a tally under
 * 5200 bytes). */
uint8_t pch_pic_tally_begin(uint8_t *tally, size_t tally_len, uint8_t *answer, size_t answer_len);

/* Counts the records of a trace into the tally, as told above under A DAY OF SEVERAL TRACES: what they make, played one after another on the device that image
 * holds. The image, of any form, is only read, and nothing is played for the host. Of the tally the numbers of the inputs and that of the records change, and
 * bytes past the first 5200 stay. No value. A refusal leaves the tally. Refusals: 7 (the answer area, or a tally under 5200 bytes), 4, 5, 8 to 11, 12, 13 with the number of
 * the first bad record in this trace, 17. */
uint8_t pch_pic_tally_add(const uint8_t *trace, size_t trace_len, const uint8_t *image, size_t image_len, uint8_t *tally, size_t tally_len,
                          uint8_t *answer, size_t answer_len);

/* Writes the sheet of all records that a tally has counted to the first 5200 bytes of sheet; those past them stay, and the tally is only read. Sums of the
 * total that pass 2^64 leave their low 64 bits; no day comes near. No value. A refusal leaves the sheet. Refusals: 7 (the answer area, or tally or sheet under 5200 bytes),
 * 17. */
uint8_t pch_pic_tally_sheet(const uint8_t *tally, size_t tally_len, uint8_t *sheet, size_t sheet_len, uint8_t *answer, size_t answer_len);

/* How far one event's number is ahead of another's: later minus earlier, below 0 where it is the older. Numbers go round, so it is the one from -32768 to
 * 32767 that differs from later - earlier by a multiple of 65536: 3 is 5 ahead of 65534, and 32768 ahead reads as -32768. It refuses nothing. */
int16_t pch_pic_difference(uint16_t later, uint16_t earlier);

#ifdef __cplusplus
}
#endif

#endif
