/* The calls of a machine's device recorded as a day (hosts/c/recorder.h), for the device of tools/boot.d. */
#ifndef DAY_H
#define DAY_H

#include "recorder.h"

struct day;

struct day *day_new(void);
void day_begin(struct day *day); /* after a reset */
void day_call(struct day *day, const struct pic *pic, const struct pic_call *call);

/* Saves what was taken, and says in a word how that went: "ok" where the trace plays to the bytes that the device had at the day's end. */
const char *day_save(struct day *day, const struct pic *pic, const char *path);

#endif
