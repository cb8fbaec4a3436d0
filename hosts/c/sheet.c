/* The library counts; here its bytes become numbers with names. */
#include "sheet.h"

#include <inttypes.h>
#include <string.h>

/* Each column is as wide as its name, and at least so wide. */
enum { LEAST = 6 };

static uint64_t get(const uint8_t *bytes, size_t len)
{
    uint64_t value = 0;
    while (len > 0) {
        len--;
        value = value << 8 | bytes[len];
    }
    return value;
}

int pic_trace_sheet(const uint8_t *trace, size_t len, struct pic_sheet *sheet, uint64_t *bad)
{
    uint8_t bytes[PCH_PIC_SHEET_LEN], answer[PCH_PIC_ANSWER_LEN];
    int number = pch_pic_sheet(trace, len, bytes, sizeof bytes, answer, sizeof answer);
    if (number == PCH_PIC_RECORD && bad != NULL) {
        *bad = get(answer + PCH_PIC_ANSWER_VALUE, 8);
    }
    if (number != PCH_PIC_DONE) {
        return number;
    }
    sheet->records = (size_t)get(answer + PCH_PIC_ANSWER_VALUE, 8);
    for (size_t row = 0; row < PCH_PIC_SHEET_ROWS; row++) {
        for (size_t column = 0; column < PCH_PIC_SHEET_COLUMNS; column++) {
            sheet->of[row][column] = (uint32_t)get(bytes + PCH_PIC_SHEET_ROW_LEN * row + 4 * column, 4);
        }
    }
    return PCH_PIC_DONE;
}

/* The first so many records as a trace of one block; its length. */
static size_t first_records(const uint8_t *records, size_t count, uint8_t part[PCH_PIC_TRACE_MAX])
{
    const uint8_t contents[] = {1, 0, PCH_PIC_TRACE_ENTRIES + PCH_PIC_BLOCK_LEN, 0, (uint8_t)count, (uint8_t)(count >> 8)};
    memcpy(part, contents, sizeof contents);
    memcpy(part + sizeof contents, records, PCH_PIC_RECORD_LEN * count);
    return sizeof contents + PCH_PIC_RECORD_LEN * count;
}

static int sheet_of_first(const uint8_t *records, size_t count, struct pic_sheet *sheet)
{
    uint8_t part[PCH_PIC_TRACE_MAX];
    return pic_trace_sheet(part, first_records(records, count, part), sheet, NULL);
}

/* After how many records a row's greatest wait is what it is at the day's end: it only grows, so halves tell. */
static int reached(const uint8_t *records, const struct pic_sheet *sheet, size_t row, size_t *count)
{
    size_t low = 0, high = sheet->records;
    struct pic_sheet part;
    while (high - low > 1) {
        size_t middle = low + (high - low) / 2;
        int number = sheet_of_first(records, middle, &part);
        if (number != PCH_PIC_DONE) {
            return number;
        }
        if (part.of[row][PCH_PIC_SHEET_WAIT] < sheet->of[row][PCH_PIC_SHEET_WAIT]) {
            low = middle;
        } else {
            high = middle;
        }
    }
    *count = high;
    return PCH_PIC_DONE;
}

int pic_sheet_began(const uint8_t *trace, size_t len, const struct pic_sheet *sheet, size_t began[PCH_PIC_SHEET_ROWS])
{
    const uint8_t *records = trace + len - PCH_PIC_RECORD_LEN * sheet->records;
    for (size_t row = 0; row < PCH_PIC_SHEET_ROWS; row++) {
        size_t wait = sheet->of[row][PCH_PIC_SHEET_WAIT], count = 0;
        began[row] = PIC_NO_WAIT;
        if (wait != 0) {
            int number = reached(records, sheet, row, &count);
            if (number != PCH_PIC_DONE) {
                return number;
            }
            began[row] = count - 1 - wait;
        }
    }
    return PCH_PIC_DONE;
}

/* Whether a row is all zeros. */
static bool idle(const uint64_t of[PCH_PIC_SHEET_COLUMNS])
{
    for (size_t column = 0; column < PCH_PIC_SHEET_COLUMNS; column++) {
        if (of[column] != 0) {
            return false;
        }
    }
    return true;
}

/* A sheet in numbers of eight bytes. */
static void widen(const struct pic_sheet *sheet, struct pic_long_sheet *wide)
{
    wide->records = sheet->records;
    for (size_t row = 0; row < PCH_PIC_SHEET_ROWS; row++) {
        for (size_t column = 0; column < PCH_PIC_SHEET_COLUMNS; column++) {
            wide->of[row][column] = sheet->of[row][column];
        }
    }
}

bool pic_sheet_idle(const struct pic_sheet *sheet, size_t row)
{
    struct pic_long_sheet wide;
    widen(sheet, &wide);
    return idle(wide.of[row]);
}

int pic_tally_begin(struct pic_tally *tally)
{
    uint8_t answer[PCH_PIC_ANSWER_LEN];
    return pch_pic_tally_begin(tally->bytes, sizeof tally->bytes, answer, sizeof answer);
}

int pic_tally_add(struct pic_tally *tally, const uint8_t *trace, size_t len, const uint8_t *image, size_t image_len, uint64_t *bad)
{
    uint8_t answer[PCH_PIC_ANSWER_LEN];
    int number = pch_pic_tally_add(trace, len, image, image_len, tally->bytes, sizeof tally->bytes, answer, sizeof answer);
    if (number == PCH_PIC_RECORD && bad != NULL) {
        *bad = get(answer + PCH_PIC_ANSWER_VALUE, 8);
    }
    return number;
}

/* How many records a tally has counted. */
static uint64_t counted(const struct pic_tally *tally)
{
    return get(tally->bytes + PCH_PIC_LONG_ROW_LEN * PCH_PIC_SHEET_TOTAL, 8);
}

int pic_tally_sheet(const struct pic_tally *tally, struct pic_long_sheet *sheet)
{
    uint8_t bytes[PCH_PIC_LONG_SHEET_LEN], answer[PCH_PIC_ANSWER_LEN];
    int number = pch_pic_tally_sheet(tally->bytes, sizeof tally->bytes, bytes, sizeof bytes, answer, sizeof answer);
    if (number != PCH_PIC_DONE) {
        return number;
    }
    sheet->records = counted(tally);
    for (size_t row = 0; row < PCH_PIC_SHEET_ROWS; row++) {
        for (size_t column = 0; column < PCH_PIC_SHEET_COLUMNS; column++) {
            sheet->of[row][column] = get(bytes + PCH_PIC_LONG_ROW_LEN * row + 8 * column, 8);
        }
    }
    return PCH_PIC_DONE;
}

/* A row's greatest wait after the first so many records of a trace, in wait. */
static int wait_after(const struct pic_tally *tally, const uint8_t *records, size_t count, const uint8_t *image, size_t image_len, size_t row, uint64_t *wait)
{
    uint8_t part[PCH_PIC_TRACE_MAX];
    struct pic_tally here = *tally;
    struct pic_long_sheet sheet;
    int number = pic_tally_add(&here, part, first_records(records, count, part), image, image_len, NULL);
    number = number == PCH_PIC_DONE ? pic_tally_sheet(&here, &sheet) : number;
    *wait = number == PCH_PIC_DONE ? sheet.of[row][PCH_PIC_SHEET_WAIT] : 0;
    return number;
}

/* The wait ended with the record after which the row has it: halves tell which. */
int pic_tally_began(const struct pic_tally *tally, const uint8_t *trace, size_t len, const uint8_t *image, size_t image_len, size_t row, uint64_t wait, uint64_t *began)
{
    size_t first = PCH_PIC_TRACE_ENTRIES + PCH_PIC_BLOCK_LEN * (size_t)get(trace + PCH_PIC_TRACE_BLOCKS, 2);
    size_t low = 0, high = (len - first) / PCH_PIC_RECORD_LEN;
    while (high - low > 1) {
        size_t middle = low + (high - low) / 2;
        uint64_t there;
        int number = wait_after(tally, trace + first, middle, image, image_len, row, &there);
        if (number != PCH_PIC_DONE) {
            return number;
        }
        if (there < wait) {
            low = middle;
        } else {
            high = middle;
        }
    }
    *began = counted(tally) + high - 1 - wait;
    return PCH_PIC_DONE;
}

const char *pic_sheet_column(size_t column)
{
    static const char *const names[PCH_PIC_SHEET_COLUMNS] = {
        [PCH_PIC_SHEET_RAISES] = "raises",       [PCH_PIC_SHEET_LOWERS] = "lowers",        [PCH_PIC_SHEET_ASSERTS] = "asserts",
        [PCH_PIC_SHEET_DEASSERTS] = "deasserts", [PCH_PIC_SHEET_RETURNED] = "returned",    [PCH_PIC_SHEET_OFFERED] = "offered",
        [PCH_PIC_SHEET_DROPPED] = "dropped",     [PCH_PIC_SHEET_WAIT] = "greatest wait",   [PCH_PIC_SHEET_WITHDRAWN] = "withdrawn",
        [PCH_PIC_SHEET_OPEN] = "open",
    };
    return names[column];
}

static int width(size_t column)
{
    int len = (int)strlen(pic_sheet_column(column));
    return len < LEAST ? LEAST : len;
}

static void label(char text[8], size_t row)
{
    if (row == PCH_PIC_SHEET_TOTAL) {
        strcpy(text, "total");
    } else {
        snprintf(text, 8, "%u", (unsigned)row & 0xff);
    }
}

/* The column that stands behind the greatest wait. */
static void print_began(const char *text, FILE *out)
{
    fprintf(out, "  %8s", text);
}

static void print_row(const struct pic_long_sheet *sheet, size_t row, const uint64_t *began, FILE *out)
{
    char text[24];
    label(text, row);
    fprintf(out, "%5s", text);
    for (size_t column = 0; column < PCH_PIC_SHEET_COLUMNS; column++) {
        fprintf(out, "  %*" PRIu64, width(column), sheet->of[row][column]);
        if (column == PCH_PIC_SHEET_WAIT && began != NULL) {
            if (began[row] == PIC_NO_WAIT) {
                strcpy(text, "-");
            } else {
                snprintf(text, sizeof text, "%" PRIu64, began[row]);
            }
            print_began(text, out);
        }
    }
    fprintf(out, "\n");
}

static void print_names(const uint64_t *began, FILE *out)
{
    fprintf(out, "input");
    for (size_t column = 0; column < PCH_PIC_SHEET_COLUMNS; column++) {
        fprintf(out, "  %*s", width(column), pic_sheet_column(column));
        if (column == PCH_PIC_SHEET_WAIT && began != NULL) {
            print_began("began at", out);
        }
    }
    fprintf(out, "\n");
}

void pic_long_sheet_print(const struct pic_long_sheet *sheet, const uint64_t *began, FILE *out)
{
    size_t left_out = 0;
    print_names(began, out);
    for (size_t row = 0; row < PCH_PIC_SHEET_ROWS; row++) {
        if (row != PCH_PIC_SHEET_TOTAL && idle(sheet->of[row])) {
            left_out++;
        } else {
            print_row(sheet, row, began, out);
        }
    }
    fprintf(out, "records: %" PRIu64 "; inputs that did nothing and are left out: %zu\n", sheet->records, left_out);
}

void pic_sheet_print(const struct pic_sheet *sheet, FILE *out)
{
    pic_sheet_print_began(sheet, NULL, out);
}

void pic_sheet_print_began(const struct pic_sheet *sheet, const size_t *began, FILE *out)
{
    struct pic_long_sheet wide;
    uint64_t numbers[PCH_PIC_SHEET_ROWS];
    widen(sheet, &wide);
    for (size_t row = 0; began != NULL && row < PCH_PIC_SHEET_ROWS; row++) {
        numbers[row] = began[row];
    }
    pic_long_sheet_print(&wide, began != NULL ? numbers : NULL, out);
}

void pic_long_sheet_csv(const struct pic_long_sheet *sheet, FILE *out)
{
    fprintf(out, "input");
    for (size_t column = 0; column < PCH_PIC_SHEET_COLUMNS; column++) {
        fputc(',', out);
        for (const char *name = pic_sheet_column(column); *name != 0; name++) {
            fputc(*name == ' ' ? '_' : *name, out);
        }
    }
    fprintf(out, "\n");
    for (size_t row = 0; row < PCH_PIC_SHEET_ROWS; row++) {
        char text[8];
        label(text, row);
        fprintf(out, "%s", text);
        for (size_t column = 0; column < PCH_PIC_SHEET_COLUMNS; column++) {
            fprintf(out, ",%" PRIu64, sheet->of[row][column]);
        }
        fprintf(out, "\n");
    }
}

void pic_sheet_csv(const struct pic_sheet *sheet, FILE *out)
{
    struct pic_long_sheet wide;
    widen(sheet, &wide);
    pic_long_sheet_csv(&wide, out);
}
