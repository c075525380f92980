/*
 * stack: measures how much stack each call of the libraries uses, and holds it to BOUND.
 *
 * A thread runs the call on a stack of our own that was painted before; the lowest word that changed tells how deep it
 * went, and the same with a call of nothing is subtracted. The stores are sound and not empty, and the files have lines
 * that are done and lines that are turned away, or a fault in the last byte of the last line; a Version 1 load file is
 * written, or refused for the last byte of its last entry that Version 1 has no place for; a register is converted, or
 * refused for its last slot; a tagged text has every label, as long as they can be, and is read, or refused for the
 * last field that has a label; its record is written, or refused for the last label that can be without a form: a call
 * goes as deep as it can. The caller's arguments and result are counted; what is set aside below the lowest word that
 * was written is not seen.
 *
 * Prints `stack NAME BYTES` for each call. Exit status: 0 all are within BOUND and answered as is due, 1 one is not,
 * 3 no thread can be run or the output cannot be written.
 */
#define _POSIX_C_SOURCE 200809L
#include <pthread.h>
#include <stdio.h>
#include <stdlib.h>
#include <string.h>

#include "hakkiyolu.h"

enum { BOUND = 4096, SLOTS = 8, ROWS = 3, RECORDS = 5, PAD = 4096, WORDS = 32768 };

/* Old days are counted from 010100, day 10957 now. The last of them that has a reading now becomes the last day. */
enum { OLD_FIRST_DAY = 10957, OLD_LAST_DAY = 25567, LAST_DAY = 36524 };

/*
 * The lines of a file. Each width is that of a text's field and the blank ones behind it; a record's ESN is blank. The
 * widths in which the versions differ are given: a frame's number; a record's street, state and company.
 */
#define FRAME_WITH(number) "%-5s101026%-50s%-" #number "s*"
#define FRAME FRAME_WITH(138)
#define V1_FRAME FRAME_WITH(98)
#define FRAME_OF(mark, number) mark, "MILL COUNTY", number
#define ROW "  %-66s%-10s%-10s%-32sOR%s%-75s%s*"
#define ROW_OF(code, low, high, parity) "MILL", low, high, "MILLBROOK", parity, "84", code
#define RECORD_WITH(street, state, company) \
    "%s%-10s%-16s%-" #street "s%-32s%-" #state "s%-31s%-10s%-" #company "s*"
#define RECORD RECORD_WITH(66, 94, 251)
#define V1_RECORD RECORD_WITH(46, 54, 39)
#define RECORD_OF(code, number, date) code, number, "104", "MILL", "MILLBROOK", "OR", "10", date, "OLDCO"

/* A tagged text with every field full. A width is that of a value of zeros; the last byte of TAR is given. */
#define TEXT \
    "DAT|FOCI|CPN5035550100|HNO12345678|HNSHALF|PRDNW|STN%060d|STSROAD|PODSE|MCN%032d|STAOR|LOC%060d|NAM%032d|CLS1" \
    "|TYS0|EXCSALM|ESN00084|MTN5035550199|ORD%010d|CPD1999-12-31|COI0047|CPFOLDCO|ZIP97301-1234|CUSABC|CMT%030d" \
    "|TAR%05d%c|GU1%011d|CEL%06d|SEC2\n"
#define TEXT_OF(tar_end) 0, 0, 0, 0, 0, 0, 0, tar_end, 0, 0

/* The longest text has two bytes less than are always enough, as House Number has at most 8 digits in its 10 bytes. */
enum { TEXT_BYTES = HAKKIYOLU_TAGGED_BYTES - 2, TAR_AT = 350, ZIP_END_AT = 275 };

/* The last byte of a record for which Version 1 has no place, and the entry that gets it, the last one of two. */
enum { RESERVED_END_AT = 511, LAST_ENTRY = 1 };

/*
 * A call on a file, a number, a register, a text or a record, and what is due of it: lines checked, lines done, or the
 * fault's position; entries, or the refusal and the slot added up; slots looked at; the day in the last slot, or the
 * refusal and the slot added up; bytes written, or the refusal and the position added up.
 */
struct call {
    const char *name;
    uint32_t (*run)(const void *given);
    const void *given;
    uint32_t due;
};

static const uint64_t PAINT = 0xA5A5A5A5A5A5A5A5;
static _Alignas(4096) uint64_t stack[WORDS];
static uint8_t reg[SLOTS * HAKKIYOLU_REGISTER_SLOT_BYTES], guide[SLOTS * HAKKIYOLU_GUIDE_SLOT_BYTES], answers[RECORDS],
    load[HAKKIYOLU_DATA_FILE_BYTES(SLOTS)], old_reg[sizeof reg], late_reg[sizeof reg];
static uint8_t *const last_slot = reg + sizeof reg - HAKKIYOLU_REGISTER_SLOT_BYTES;
static uint8_t rec[HAKKIYOLU_RECORD_BYTES], bad_rec[sizeof rec], written[HAKKIYOLU_TAGGED_BYTES];
static char text[TEXT_BYTES + 1], bad_text[sizeof text];
static char rows[HAKKIYOLU_GUIDE_FILE_BYTES(ROWS) + 1], bad_rows[sizeof rows],
    records[HAKKIYOLU_DATA_FILE_BYTES(RECORDS) + 1], first_records[sizeof records], bad_records[sizeof records],
    v1_records[HAKKIYOLU_V1_DATA_FILE_BYTES(RECORDS) + 1], bad_v1_records[sizeof v1_records];
static uint32_t answered;

/* The rows and the first records fill the stores; the rows then come again, and the records with a new number. */
static void write_files(void)
{
    snprintf(rows, sizeof rows, FRAME ROW ROW ROW FRAME, FRAME_OF("UHL", "1"), ROW_OF("I", "100", "198", "E"),
        ROW_OF("I", "300", "300", "B"), ROW_OF("D", "300", "300", "B"), FRAME_OF("UTL", "        3"));
    snprintf(records, sizeof records, FRAME RECORD RECORD RECORD RECORD RECORD FRAME, FRAME_OF("UHL", "1"),
        RECORD_OF("I", "5035550100", "100126"), RECORD_OF("I", "5035550101", "100126"),
        RECORD_OF("C", "5035550101", "100226"), RECORD_OF("U", "5035550102", "100326"),
        RECORD_OF("D", "5035550199", "100326"), FRAME_OF("UTL", "        5"));
    memcpy(first_records, records, sizeof records);
    records[HAKKIYOLU_HEADER_BYTES + HAKKIYOLU_NUMBER_BYTES] = '2';
    memcpy(bad_records, records, sizeof records);
    bad_records[sizeof records - 1 - HAKKIYOLU_TRAILER_BYTES - 1] = ' ';
    memcpy(bad_rows, rows, sizeof rows);
    bad_rows[sizeof rows - 1 - HAKKIYOLU_TRAILER_BYTES - 1] = ' ';
}

/* The records once more in Version 1, which has no U: the new number is deleted instead. */
static void write_v1_files(void)
{
    snprintf(v1_records, sizeof v1_records, V1_FRAME V1_RECORD V1_RECORD V1_RECORD V1_RECORD V1_RECORD V1_FRAME,
        FRAME_OF("UHL", "1"), RECORD_OF("I", "5035550102", "100126"), RECORD_OF("I", "5035550101", "100126"),
        RECORD_OF("C", "5035550101", "100226"), RECORD_OF("D", "5035550102", "100326"),
        RECORD_OF("D", "5035550199", "100326"), FRAME_OF("UTL", "        5"));
    memcpy(bad_v1_records, v1_records, sizeof v1_records);
    bad_v1_records[sizeof v1_records - 1 - HAKKIYOLU_V1_TRAILER_BYTES - 1] = ' ';
}

static uint32_t check_data(const void *file)
{
    const struct hakkiyolu_taken checked = hakkiyolu_check_data(
        reg, sizeof reg, guide, sizeof guide, file, sizeof records - 1, answers, sizeof answers, 0);
    return checked.records + checked.position;
}

static uint32_t apply_data(const void *file)
{
    const struct hakkiyolu_taken applied = hakkiyolu_apply_data(
        reg, sizeof reg, guide, sizeof guide, file, sizeof records - 1, answers, sizeof answers, 0);
    return applied.done + applied.position;
}

static uint32_t check_data_v1(const void *file)
{
    const struct hakkiyolu_taken checked = hakkiyolu_check_data_v1(
        reg, sizeof reg, guide, sizeof guide, file, sizeof v1_records - 1, answers, sizeof answers, 0);
    return checked.records + checked.position;
}

static uint32_t apply_data_v1(const void *file)
{
    const struct hakkiyolu_taken applied = hakkiyolu_apply_data_v1(
        reg, sizeof reg, guide, sizeof guide, file, sizeof v1_records - 1, answers, sizeof answers, 0);
    return applied.done + applied.position;
}

static uint32_t check_guide(const void *file)
{
    const struct hakkiyolu_taken checked = hakkiyolu_check_guide(
        reg, sizeof reg, guide, sizeof guide, file, sizeof rows - 1, answers, sizeof answers, 0);
    return checked.records + checked.position;
}

static uint32_t apply_guide(const void *file)
{
    const struct hakkiyolu_taken applied = hakkiyolu_apply_guide(
        reg, sizeof reg, guide, sizeof guide, file, sizeof rows - 1, answers, sizeof answers, 0);
    return applied.done + applied.position;
}

/* The stores as each call finds them, sound and not empty; a conversion gets a register of its own. */
static void fill_stores(void)
{
    memset(reg, 0, sizeof reg);
    memset(guide, 0, sizeof guide);
    apply_guide(rows);
    apply_data(first_records);
}

/* The day number in bytes 1 to 4 of a slot, high byte first. */
static uint32_t slot_day(const uint8_t *slot)
{
    return (uint32_t)slot[1] << 24 | (uint32_t)slot[2] << 16 | (uint32_t)slot[3] << 8 | slot[4];
}

static void put_slot_day(uint8_t *slot, uint32_t day)
{
    slot[1] = (uint8_t)(day >> 24);
    slot[2] = (uint8_t)(day >> 16);
    slot[3] = (uint8_t)(day >> 8);
    slot[4] = (uint8_t)day;
}

/*
 * The register with old days, and its first entry once more in the last slot: resting since the last day that has a
 * reading now, and since the day after, which has none.
 */
static void write_registers(void)
{
    fill_stores();
    memcpy(last_slot, reg, HAKKIYOLU_REGISTER_SLOT_BYTES);
    for (uint8_t *slot = reg; slot <= last_slot; slot += HAKKIYOLU_REGISTER_SLOT_BYTES) {
        if (slot[0] != HAKKIYOLU_STATE_ABSENT) {
            put_slot_day(slot, slot_day(slot) - OLD_FIRST_DAY);
        }
    }
    last_slot[0] = HAKKIYOLU_STATE_RESTING;
    put_slot_day(last_slot, OLD_LAST_DAY);
    memcpy(old_reg, reg, sizeof reg);
    put_slot_day(last_slot, OLD_LAST_DAY + 1);
    memcpy(late_reg, reg, sizeof reg);
}

/* The name and the date of a header are those of the load file. */
static uint32_t write_load(const void *header)
{
    const uint8_t *date = (const uint8_t *)header + 5, *name = date + HAKKIYOLU_DATE_BYTES;
    const struct hakkiyolu_loaded loaded = hakkiyolu_write_load(reg, sizeof reg, date, HAKKIYOLU_DATE_BYTES, name,
        HAKKIYOLU_NAME_BYTES, HAKKIYOLU_CYCLE_MOST, load, sizeof load);
    return loaded.entries;
}

/* The same in Version 1, with this byte at the end of Reserved in the last entry. */
static uint32_t write_load_v1(const void *reserved_end)
{
    const uint8_t *date = (const uint8_t *)rows + 5, *name = date + HAKKIYOLU_DATE_BYTES;
    uint8_t *last_record = reg + HAKKIYOLU_REGISTER_SLOT_BYTES * LAST_ENTRY + HAKKIYOLU_SLOT_LINE_AT;
    last_record[RESERVED_END_AT - 1] = *(const uint8_t *)reserved_end;
    const struct hakkiyolu_loaded loaded = hakkiyolu_write_load_v1(reg, sizeof reg, date, HAKKIYOLU_DATE_BYTES, name,
        HAKKIYOLU_NAME_BYTES, HAKKIYOLU_CYCLE_MOST, load, sizeof load);
    return loaded.refusal == HAKKIYOLU_NOT_REFUSED ? loaded.entries : loaded.refusal + loaded.slot;
}

static uint32_t lookup(const void *number)
{
    return hakkiyolu_seen_looked(hakkiyolu_lookup(reg, sizeof reg, number, HAKKIYOLU_NUMBER_BYTES));
}

static uint32_t convert_register(const void *old)
{
    memcpy(reg, old, sizeof reg);
    const struct hakkiyolu_converted converted = hakkiyolu_convert_register(reg, sizeof reg);
    return converted.refusal == HAKKIYOLU_NOT_REFUSED ? slot_day(last_slot) : converted.refusal + converted.slot;
}

/* TAR is the last field that has a label, and Zip+4 the last that must have digits for its label. */
static void write_texts(void)
{
    snprintf(text, sizeof text, TEXT, TEXT_OF('A'));
    snprintf(bad_text, sizeof bad_text, TEXT, TEXT_OF('\x7f'));
    hakkiyolu_read_tagged((const uint8_t *)text, TEXT_BYTES, bad_rec, sizeof bad_rec);
    memcpy(rec, bad_rec, sizeof rec);
    bad_rec[ZIP_END_AT - 1] = ' ';
}

static uint32_t tagged_due(struct hakkiyolu_tagged tagged)
{
    return tagged.refusal == HAKKIYOLU_NOT_REFUSED ? tagged.bytes : tagged.refusal + tagged.position;
}

static uint32_t read_tagged(const void *given)
{
    return tagged_due(hakkiyolu_read_tagged(given, TEXT_BYTES, rec, sizeof rec));
}

static uint32_t write_tagged(const void *given)
{
    return tagged_due(hakkiyolu_write_tagged(given, HAKKIYOLU_RECORD_BYTES, written, sizeof written));
}

static uint32_t nothing(const void *given)
{
    return given != NULL;
}

/* What the thread itself needs at its start and its end lies above the pad, and the call below. */
static void *run_below(void *call)
{
    uint8_t pad[PAD];
    uint8_t *volatile low = pad; /* so that the pad is not left out */
    const struct call *c = call;
    low[0] = 0;
    answered = c->run(c->given);
    return low[0] == 0 ? NULL : call;
}

/* How much of the stack a call changes, on stores that are filled anew. */
static size_t depth(struct call *call)
{
    pthread_attr_t own;
    pthread_t thread;
    size_t free_words = 0;
    fill_stores();
    memset(stack, (int)(PAINT & 0xFF), sizeof stack);
    if (pthread_attr_init(&own) != 0 || pthread_attr_setstack(&own, stack, sizeof stack) != 0
        || pthread_create(&thread, &own, run_below, call) != 0 || pthread_join(thread, NULL) != 0) {
        fputs("stack: no thread can be run\n", stderr);
        exit(3);
    }
    while (free_words < WORDS && stack[free_words] == PAINT) {
        free_words++;
    }
    return (WORDS - free_words) * sizeof stack[0];
}

int main(void)
{
    struct call none = {"nothing", nothing, NULL, 0};
    struct call calls[] = {
        {"check_data", check_data, records, RECORDS},
        {"check_data_refused", check_data, bad_records, HAKKIYOLU_RECORD_BYTES},
        {"apply_data", apply_data, records, 3},
        {"apply_data_refused", apply_data, bad_records, HAKKIYOLU_RECORD_BYTES},
        {"check_data_v1", check_data_v1, v1_records, RECORDS},
        {"check_data_v1_refused", check_data_v1, bad_v1_records, HAKKIYOLU_V1_RECORD_BYTES},
        {"apply_data_v1", apply_data_v1, v1_records, 3},
        {"apply_data_v1_refused", apply_data_v1, bad_v1_records, HAKKIYOLU_V1_RECORD_BYTES},
        {"check_guide", check_guide, rows, ROWS}, {"check_guide_refused", check_guide, bad_rows, HAKKIYOLU_ROW_BYTES},
        {"apply_guide", apply_guide, rows, 2}, {"apply_guide_refused", apply_guide, bad_rows, HAKKIYOLU_ROW_BYTES},
        {"write_load", write_load, rows, 2}, {"write_load_v1", write_load_v1, " ", 2},
        {"write_load_v1_refused", write_load_v1, "R", HAKKIYOLU_REFUSED_NO_V1 + LAST_ENTRY},
        {"convert_register", convert_register, old_reg, LAST_DAY},
        {"convert_register_refused", convert_register, late_reg, HAKKIYOLU_REFUSED_DAY + SLOTS - 1},
        {"read_tagged", read_tagged, text, HAKKIYOLU_RECORD_BYTES},
        {"read_tagged_refused", read_tagged, bad_text, HAKKIYOLU_REFUSED_RECORD + TAR_AT},
        {"write_tagged", write_tagged, rec, TEXT_BYTES},
        {"write_tagged_refused", write_tagged, bad_rec, HAKKIYOLU_REFUSED_NO_TEXT},
        {"lookup_hit", lookup, "5035550101", 2}, {"lookup_miss", lookup, "5035550199", SLOTS},
    };
    int status = 0;
    write_files();
    write_v1_files();
    write_registers();
    write_texts();
    const size_t before = depth(&none);
    for (size_t i = 0; i < sizeof calls / sizeof calls[0]; i++) {
        const size_t bytes = depth(&calls[i]) - before;
        const int good = bytes <= BOUND && answered == calls[i].due;
        printf("stack %s %zu%s\n", calls[i].name, bytes, good ? "" : ": over the bound, or not answered as is due");
        status = good ? status : 1;
    }
    return fflush(stdout) == 0 ? status : 3;
}
