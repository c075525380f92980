/*
 * hakkiyolu.h: the C face of the Hakkiyolu location register.
 *
 * Telephone companies send data files: who has which number, and where. Counties send guide files: street ranges with
 * their emergency zone (ESN). Such a file is checked, which changes nothing, and applied to a register and a guide, at
 * once or later; a load file carries the register to a dispatch centre; a lookup finds a number for the dispatcher's
 * screen. A register that was written when days counted from 010100 is converted once. A tagged data record (Version
 * 3.1) is read into a record of a data file, and written from one.
 *
 * Data files and load files have 512-byte records (Version 2), or the 240-byte records that some private switches still
 * file (Version 1); one register takes both. The calls on Version 1 files have names that end in `_v1`, those without
 * are on Version 2 files. The caller says which version; nothing is guessed from lengths: 2960 bytes are 5 records of
 * Version 2 or 11 of Version 1.
 *
 * The register and the guide are plain bytes that the caller owns and lends to each call. Every call answers every
 * input, however damaged: it has no error besides the numbers below.
 *
 * Libraries: hakkiyolu_lookup is in liblookup.a; hakkiyolu_check_data, hakkiyolu_apply_data, hakkiyolu_check_guide,
 * hakkiyolu_apply_guide, hakkiyolu_write_load, hakkiyolu_check_data_v1, hakkiyolu_apply_data_v1,
 * hakkiyolu_write_load_v1, hakkiyolu_convert_register, hakkiyolu_read_tagged and hakkiyolu_write_tagged are in
 * libboundary.a. Neither needs the other, and both may be linked into one program in either order.
 *
 * RULES FOR BUFFERS, the same for every call. Each buffer is a pointer and, right behind it, its length in bytes.
 *
 *   - Buffers of one call do not overlap.
 *   - A pointer is NULL only if its length is 0.
 *   - A call reads and writes only within the lengths it is given, writes only to what is not const here, and keeps no
 *     pointer once it has returned. The bytes need no alignment.
 *   - A call uses no heap and no global state, only a few kilobytes of stack. So calls on different buffers may run in
 *     parallel, and so may calls that only read the same buffer, as checks and lookups do. While a call writes to a
 *     buffer, no other call may read it: locking is the caller's.
 *   - A refused call changes no lent byte. A record that is turned away changes only its own answer byte.
 *
 * Nothing but the caller's care keeps these declarations in step with the libraries: use the header and the libraries
 * of one and the same build.
 */
#ifndef HAKKIYOLU_H
#define HAKKIYOLU_H

#include <stddef.h>
#include <stdint.h>

#ifdef __cplusplus
extern "C" {
#endif

/* ---- Sizes ---------------------------------------------------------------------------------------------------- */

/*
 * One register slot. Byte 0 is the state, 1 to 4 the day number (high byte first, counted from 010170 as 0), 5 to 7 are
 * zero (a later version keeps a cycle there), 8 to 519 the record.
 */
#define HAKKIYOLU_REGISTER_SLOT_BYTES 520u
/* One guide slot. Byte 0 is 0 (free) or 1 (used), 1 to 7 are zero, 8 to 207 the row. */
#define HAKKIYOLU_GUIDE_SLOT_BYTES 208u
/* Where the record or the row begins in its slot, counted from 0. */
#define HAKKIYOLU_SLOT_LINE_AT 8u
/* A register has 1 to this many slots, and so has a guide. A slot of zero bytes is free: zero them all to begin. */
#define HAKKIYOLU_SLOTS_MOST 4096u

/* One record of a data file or a load file. */
#define HAKKIYOLU_RECORD_BYTES 512u
/* One row of a guide file. */
#define HAKKIYOLU_ROW_BYTES 200u
/* The header of every file but those of Version 1, its first line. */
#define HAKKIYOLU_HEADER_BYTES 200u
/* The trailer of every file but those of Version 1, its last line. */
#define HAKKIYOLU_TRAILER_BYTES 200u
/* A file has 0 to this many records or rows. */
#define HAKKIYOLU_RECORDS_MOST 9999u

/* One record of a Version 1 data file or load file. */
#define HAKKIYOLU_V1_RECORD_BYTES 240u
/* The header of such a file: as the longer one, but its free part is from 68 to 159, and its `*` is 160. */
#define HAKKIYOLU_V1_HEADER_BYTES 160u
/* The trailer of such a file: as the longer one, but its free part is from 71 to 159, and its `*` is 160. */
#define HAKKIYOLU_V1_TRAILER_BYTES 160u

/* The length of a data file, or a load file, of n records. */
#define HAKKIYOLU_DATA_FILE_BYTES(n) (HAKKIYOLU_HEADER_BYTES + HAKKIYOLU_RECORD_BYTES * (n) + HAKKIYOLU_TRAILER_BYTES)
/* The length of a Version 1 data file, or a Version 1 load file, of n records. */
#define HAKKIYOLU_V1_DATA_FILE_BYTES(n) \
    (HAKKIYOLU_V1_HEADER_BYTES + HAKKIYOLU_V1_RECORD_BYTES * (n) + HAKKIYOLU_V1_TRAILER_BYTES)
/* The length of a guide file of n rows. */
#define HAKKIYOLU_GUIDE_FILE_BYTES(n) (HAKKIYOLU_HEADER_BYTES + HAKKIYOLU_ROW_BYTES * (n) + HAKKIYOLU_TRAILER_BYTES)

/* A telephone number: area code and calling number, all digits, nothing between. */
#define HAKKIYOLU_NUMBER_BYTES 10u
/* A date: MMDDYY, a real day of 1970 to 2069 (YY 70 to 99 is 19YY, 00 to 69 is 20YY). */
#define HAKKIYOLU_DATE_BYTES 6u
/* A company name as the header has it: not blank, its first byte no space, filled up with spaces. */
#define HAKKIYOLU_NAME_BYTES 50u
/* Cycles count from 1 to this and then begin again with 1. */
#define HAKKIYOLU_CYCLE_MOST 999999u

/* So many bytes are enough for the tagged text of every record. A text to be read may have any length. */
#define HAKKIYOLU_TAGGED_BYTES 452u

/* ---- States, refusals, answers -------------------------------------------------------------------------------- */

/* The state of a number, as a lookup tells it and as byte 0 of its slot holds it. */
enum hakkiyolu_state {
    HAKKIYOLU_STATE_ABSENT = 0, /* no slot has the number (in byte 0 of a slot: the slot is free) */
    HAKKIYOLU_STATE_HELD = 1,   /* a company holds the number: the entry is current */
    HAKKIYOLU_STATE_OPEN = 2,   /* its company has unlocked the number and no company has migrated it yet */
    HAKKIYOLU_STATE_RESTING = 3 /* the number was deleted; its slot may go to another number after 90 days */
};

/*
 * Why a call was refused. The refusals of checking a file, and of applying it, are tried in the order of their numbers,
 * and the first that holds is told. Those of a load file are tried in the order 1, 26, 25, in Version 1 in the order 1,
 * 26, 27, 25; those of a conversion in the order 1, 28; those of a lookup in the order 1, 10; those of reading a tagged
 * text in the order 33, 34, 35, 36, 9, 25, each over the whole text; those of writing one in the order 9, 37, 25.
 */
enum hakkiyolu_refusal {
    HAKKIYOLU_NOT_REFUSED = 0,          /* the call was done */
    HAKKIYOLU_REFUSED_REGISTER = 1,     /* not 1 to 4096 whole register slots, or one unsound (a lookup tests none) */
    HAKKIYOLU_REFUSED_GUIDE = 2,        /* not 1 to 4096 whole guide slots, or one unsound */
    HAKKIYOLU_REFUSED_LENGTH = 3,       /* the file is not a header, 0 to 9999 whole records (or rows) and a trailer */
    HAKKIYOLU_REFUSED_ANSWERS = 4,      /* the answers buffer is shorter than the number of records */
    HAKKIYOLU_REFUSED_HEADER = 5,       /* the header is wrong: its mark, date, name, cycle, free part or final `*` */
    HAKKIYOLU_REFUSED_CYCLE = 6,        /* the header's cycle does not follow `last`, or `last` is above 999999 */
    HAKKIYOLU_REFUSED_TRAILER = 7,      /* the trailer is wrong, or its date or name is not the header's */
    HAKKIYOLU_REFUSED_COUNT = 8,        /* the trailer's record count is not the number of records in the file */
    HAKKIYOLU_REFUSED_RECORD = 9,       /* a record or row breaks a field rule: `place` and `position` tell where */
                                        /* (reading or writing a tagged text is of one record: `position` alone) */
    HAKKIYOLU_REFUSED_NUMBER = 10,      /* the number looked up is not ten digits */
    HAKKIYOLU_REFUSED_OUTPUT = 25,      /* the output is too short for the load file, the record or the tagged text */
    HAKKIYOLU_REFUSED_LOAD_HEADER = 26, /* date, name or cycle wrong for a header, or the date before an entry's day */
    HAKKIYOLU_REFUSED_NO_V1 = 27,       /* a Version 1 load file: an entry has no Version 1 form, `slot` tells which */
    HAKKIYOLU_REFUSED_DAY = 28,         /* a conversion: a stored day has no reading now, `slot` tells which */
    HAKKIYOLU_REFUSED_TEXT = 33,        /* a tagged text has no `DAT` at its start, or no newline at its end */
    HAKKIYOLU_REFUSED_LABEL = 34,       /* a label that is not taken, or is cut short */
    HAKKIYOLU_REFUSED_LABEL_TWICE = 35, /* a label that stands twice */
    HAKKIYOLU_REFUSED_VALUE = 36,       /* a value that is too long, or has no Version 2 form */
    HAKKIYOLU_REFUSED_NO_TEXT = 37      /* a record to be written has no tagged form */
};

/*
 * What became of one record or row of a file that was applied: its answer byte. The first that holds is told. A check
 * foretells no answer. 11 to 20 are answers to data records, 21 to 24 to guide rows. I inserts, C changes, D deletes,
 * U unlocks, M migrates.
 */
enum hakkiyolu_answer {
    HAKKIYOLU_ANSWER_DONE = 0,            /* accepted and applied */
    HAKKIYOLU_ANSWER_DATE_AHEAD = 11,     /* the record is dated after the file's header */
    HAKKIYOLU_ANSWER_NUMBER_PRESENT = 12, /* I: the number is held or open already */
    HAKKIYOLU_ANSWER_NUMBER_ABSENT = 13,  /* C, D, U, M: the number is absent or resting */
    HAKKIYOLU_ANSWER_NUMBER_HELD = 14,    /* M: the number is held, its company has not unlocked it */
    HAKKIYOLU_ANSWER_NUMBER_OPEN = 15,    /* C, D, U: the number is open, only M may come now */
    HAKKIYOLU_ANSWER_OTHER_COMPANY = 16,  /* C, D, U: another company holds the number */
    HAKKIYOLU_ANSWER_DATE_BEHIND = 17,    /* dated before the slot's day; I on a resting number: not after it */
    HAKKIYOLU_ANSWER_NO_ROW = 18,         /* I, C, M: no guide row covers the address */
    HAKKIYOLU_ANSWER_OTHER_ESN = 19,      /* I, C, M: the ESN is not blank and not that of the lowest covering row */
    HAKKIYOLU_ANSWER_REGISTER_FULL = 20,  /* I: no free slot, and none has rested for 90 days by the header's date */
    HAKKIYOLU_ANSWER_ROW_CLASHES = 21,    /* I: a present row of the same street covers one of its house numbers */
    HAKKIYOLU_ANSWER_GUIDE_FULL = 22,     /* I: the guide has no free slot */
    HAKKIYOLU_ANSWER_ROW_ABSENT = 23,     /* D: no row with these street fields, range, parity and ESN */
    HAKKIYOLU_ANSWER_ROW_IN_USE = 24      /* D: the row covers a held or open entry */
};

/* ---- What calls return ---------------------------------------------------------------------------------------- */

/*
 * What checking and applying a file return. If it was refused, `records`, `done` and `undone` are 0 and `last` is as it
 * was given. After a good check `records` counts the file's, `done` and `undone` are 0, and `last` is as it was given,
 * for nothing was applied.
 */
struct hakkiyolu_taken {
    uint32_t refusal;  /* 0, or the refusal 1 to 9 (enum hakkiyolu_refusal) */
    uint32_t place;    /* refusal 9: the first bad record or row, from 1; otherwise 0 */
    uint32_t position; /* refusal 9: the first byte of its first bad field, from 1; otherwise 0 */
    uint32_t records;  /* how many records or rows the file has */
    uint32_t done;     /* applied: how many answers are 0 */
    uint32_t undone;   /* applied: how many answers are not 0; `done` and `undone` add up to `records` */
    uint32_t last;     /* the last cycle after the call: keep it, and give it to the next call on a file of this kind */
                       /* (data files of both versions are one kind) */
};

/* What writing a load file returns. If it was refused, `bytes` and `entries` are 0. */
struct hakkiyolu_loaded {
    uint32_t refusal; /* 0, or the refusal 1, 25, 26 or, in Version 1 alone, 27 (enum hakkiyolu_refusal) */
    uint32_t bytes;   /* how many bytes were written: the load file is that many bytes at the start of the output */
    uint32_t entries; /* how many entries, held or open, the load file has */
    uint32_t slot;    /* refusal 27: the lowest slot whose entry has no Version 1 form, from 0; otherwise 0 */
};

/* What converting a register returns. */
struct hakkiyolu_converted {
    uint32_t refusal; /* 0, or the refusal 1 or 28 (enum hakkiyolu_refusal) */
    uint32_t slot;    /* refusal 28: the lowest slot whose day was after 2069, from 0; otherwise 0 */
};

/* What reading or writing a tagged text returns. If it was refused, `bytes` is 0. */
struct hakkiyolu_tagged {
    uint32_t refusal;  /* 0, or the refusal 9, 25 or 33 to 37 (enum hakkiyolu_refusal) */
    uint32_t position; /* refusal 9: the first byte of the record's first bad field, from 1; otherwise 0 */
    uint32_t bytes;    /* how many bytes were written at the start of the output: reading writes 512, or none */
};

/* ---- Calls ---------------------------------------------------------------------------------------------------- */

/*
 * Checks a data file: tests all that applying it tests, the refusals 1 to 9, and changes nothing. If it is refused, the
 * call returns what applying returns on the same bytes. If it is good, `records` is the number of its records, `done`
 * and `undone` are 0, and `last` is as it was given.
 *
 * A CHECK IS NO PERMIT: applying tests again, and nothing is handed over. If another data file is applied in between,
 * a good file is refused by 6 afterwards; other files do not get it refused, but what damages register, guide or file
 * may. No answer is foretold: an I whose address no guide row covers is checked good, and answered 18 when it is
 * applied.
 *
 *   reg, reg_length          the register, read: 1 to 4096 slots of 520 bytes
 *   guide, guide_length      the guide, read: 1 to 4096 slots of 208 bytes
 *   file, file_length        the data file: header, records of 512 bytes, trailer
 *   answers, answers_length  the answers as they will be lent to applying. Only the length counts (refusal 4), no byte
 *                            is read or written: so the same list of arguments may be written twice
 *   last                     the cycle of the last data file applied to this register, of either version, 0 if none
 *                            yet. A second file of the same evening is checked with the cycle in the first one's
 *                            header, since the first is not applied yet
 */
struct hakkiyolu_taken hakkiyolu_check_data(
    const uint8_t *reg, size_t reg_length,
    const uint8_t *guide, size_t guide_length,
    const uint8_t *file, size_t file_length,
    const uint8_t *answers, size_t answers_length,
    uint32_t last);

/*
 * Applies a data file: refuses it, or applies its records in turn, each to what the earlier ones left. All that a check
 * tests is tested here, whether or not there was one.
 *
 *   reg, reg_length          the register, read and written: 1 to 4096 slots of 520 bytes
 *   guide, guide_length      the guide, read: 1 to 4096 slots of 208 bytes
 *   file, file_length        the data file: header, records of 512 bytes, trailer
 *   answers, answers_length  one byte for each record, written; bytes past the last record stay as they are, and in a
 *                            file that is refused all do
 *   last                     the cycle of the last data file applied to this register, of either version, 0 if none yet
 */
struct hakkiyolu_taken hakkiyolu_apply_data(
    uint8_t *reg, size_t reg_length,
    const uint8_t *guide, size_t guide_length,
    const uint8_t *file, size_t file_length,
    uint8_t *answers, size_t answers_length,
    uint32_t last);

/*
 * Checks a guide file, as hakkiyolu_check_data checks a data file: tests all that applying it tests, changes nothing,
 * and is no permit. `records` is the number of its rows.
 *
 *   reg, reg_length          the register, read, and so it stays in later versions: 1 to 4096 slots of 520 bytes
 *   guide, guide_length      the guide, read: 1 to 4096 slots of 208 bytes
 *   file, file_length        the guide file: header, rows of 200 bytes, trailer
 *   answers, answers_length  the answers as they will be lent to applying; only the length counts
 *   last                     the cycle of the last guide file applied to this guide, 0 if none yet; for a second file
 *                            of the same evening, the cycle in the first one's header
 */
struct hakkiyolu_taken hakkiyolu_check_guide(
    const uint8_t *reg, size_t reg_length,
    const uint8_t *guide, size_t guide_length,
    const uint8_t *file, size_t file_length,
    const uint8_t *answers, size_t answers_length,
    uint32_t last);

/*
 * Applies a guide file: refuses it, or applies its rows in turn, each to what the earlier ones left. All that a check
 * tests is tested here, whether or not there was one.
 *
 *   reg, reg_length          the register: 1 to 4096 slots of 520 bytes. Today it is only read. It WILL BE WRITTEN TO
 *                            in a later version, when a county can change the ESN of a row and of the entries under it.
 *                            So lend the register that belongs to this guide, in memory that can be written to, and let
 *                            no other call use it meanwhile
 *   guide, guide_length      the guide, read and written: 1 to 4096 slots of 208 bytes
 *   file, file_length        the guide file: header, rows of 200 bytes, trailer
 *   answers, answers_length  one byte for each row, written; bytes past the last row stay as they are, and in a file
 *                            that is refused all do
 *   last                     the cycle of the last guide file applied to this guide, 0 if none yet. Guide files and
 *                            data files count their cycles apart
 */
struct hakkiyolu_taken hakkiyolu_apply_guide(
    const uint8_t *reg, size_t reg_length,
    uint8_t *guide, size_t guide_length,
    const uint8_t *file, size_t file_length,
    uint8_t *answers, size_t answers_length,
    uint32_t last);

/*
 * Writes a load file: a header, every held or open record in the order of the slots, with Function `I` and Source `C`,
 * and a trailer. HAKKIYOLU_DATA_FILE_BYTES(slots of the register) bytes of output are always enough.
 *
 *   reg, reg_length    the register, read: 1 to 4096 slots of 520 bytes
 *   date, date_length  the date of the load file, 6 bytes MMDDYY, no earlier than the day of any held or open entry
 *   name, name_length  the company name, 50 bytes, filled up with spaces
 *   cycle              the cycle of the load file, 1 to 999999
 *   out, out_length    the output, written; bytes past the load file stay as they are, and if refused all do
 */
struct hakkiyolu_loaded hakkiyolu_write_load(
    const uint8_t *reg, size_t reg_length,
    const uint8_t *date, size_t date_length,
    const uint8_t *name, size_t name_length,
    uint32_t cycle,
    uint8_t *out, size_t out_length);

/*
 * Checks a Version 1 data file, as hakkiyolu_check_data checks one of Version 2: with the same parameters, in the same
 * sequence of cycles, changing nothing and no permit.
 *
 *   file, file_length  the data file: header of 160 bytes, records of 240 bytes, trailer of 160 bytes
 *   the others         as in hakkiyolu_check_data; `last` is the one cycle that is kept for data files of both versions
 *
 * Each record is taken as if it had come in Version 2: the same fields, each with blanks behind it.
 *
 *   Version 1   Version 2   fields
 *     1- 27       1- 27     Function to Prefix Directional
 *    28- 67      28- 87     Street Name
 *    68-107      88-127     Street Suffix to State
 *   108-127     128-187     Location
 *   128-226     188-286     Customer Name to General Use
 *      -        287-355     Customer Code to TAR: blank
 *   227-239     356-511     Reserved
 *     240         512       `*`
 *
 * The refusals differ in two things. 3 goes by 240 and 160 bytes. In 9 `position` is one of the 240 bytes (a bad class
 * is at 160, not at 220), and Function is C, D or I: Version 1 has no U and no M, they are refused at 1. A file lent to
 * the call of the other version is refused by 3 unless its length fits both, and then, as a rule, by 4 or 5.
 */
struct hakkiyolu_taken hakkiyolu_check_data_v1(
    const uint8_t *reg, size_t reg_length,
    const uint8_t *guide, size_t guide_length,
    const uint8_t *file, size_t file_length,
    const uint8_t *answers, size_t answers_length,
    uint32_t last);

/*
 * Applies a Version 1 data file, as hakkiyolu_apply_data applies one of Version 2: with the same parameters and the
 * same answers. What is stored is the record in Version 2, so a lookup, a load file or a later record of either version
 * finds the number as if it had come so.
 *
 *   file, file_length  the data file: header of 160 bytes, records of 240 bytes, trailer of 160 bytes
 *   the others         as in hakkiyolu_apply_data; `last` is the one cycle that is kept for data files of both versions
 */
struct hakkiyolu_taken hakkiyolu_apply_data_v1(
    uint8_t *reg, size_t reg_length,
    const uint8_t *guide, size_t guide_length,
    const uint8_t *file, size_t file_length,
    uint8_t *answers, size_t answers_length,
    uint32_t last);

/*
 * Writes a Version 1 load file, as hakkiyolu_write_load writes one of Version 2: with the same parameters, the same
 * entries, Function `I` and Source `C`. HAKKIYOLU_V1_DATA_FILE_BYTES(slots of the register) bytes of output are always
 * enough.
 *
 * Refusal 27 is for a held or open entry that Version 1 cannot say whole: something stands in a field that only Version
 * 2 has (Customer Code to TAR, positions 287 to 355 of its record), or behind what Version 1 has of a longer field
 * (Street Name from 68, its 41st byte; Location from 148, its 21st; Reserved from 369, its 14th). Nothing is cut off:
 * write the load file by hakkiyolu_write_load, or have the entry's company change it. `slot` is the lowest such slot.
 * 27 comes after 26 and before 25, so it is told where no output is lent, too.
 */
struct hakkiyolu_loaded hakkiyolu_write_load_v1(
    const uint8_t *reg, size_t reg_length,
    const uint8_t *date, size_t date_length,
    const uint8_t *name, size_t name_length,
    uint32_t cycle,
    uint8_t *out, size_t out_length);

/*
 * Converts a register that was written before, when each year was 20YY and 010100 was day 0: adds 10957 to the day of
 * every used slot (held, open or resting) and changes no other byte. Each such register is to be converted once, before
 * any other call uses it. A guide has no days and stays as it is.
 *
 *   reg, reg_length  the register, read and written: 1 to 4096 slots of 520 bytes
 *
 * Refusal 1 is for the length, or a slot that is unsound by the old reading; every slot is tested before 28 is tried.
 * Refusal 28 is for a used slot whose day was after 2069 (its number above 25567): such a day has no number now, and
 * `slot` is the lowest such slot. Otherwise `slot` is 0. A refusal changes nothing.
 *
 * TWO WARNINGS. Nothing in a register tells how its days are counted. The day of a held slot is its record's date, and
 * no date has the same number in both readings, so a register with a held slot is sound by one reading at most. But:
 *
 *   - A SECOND CONVERSION IS NOT ALWAYS REFUSED. With a held slot it is refused by 1. A register whose used slots are
 *     all open or resting is sound by the old reading afterwards too: a second conversion moves its days again, or is
 *     refused by 28 if one of them is above 25567 by then. So keep track of which registers were converted, and which
 *     were begun since.
 *   - A REGISTER THAT WAS NOT CONVERTED IS NOT ALWAYS REFUSED by the other calls. With a held slot checking, applying
 *     and the load file refuse it by 1. One whose used slots are all open or resting may be sound by both readings: it
 *     is then used as it stands, the day of each used slot 10957 days too early. A lookup tests no slot and reads no
 *     day.
 */
struct hakkiyolu_converted hakkiyolu_convert_register(uint8_t *reg, size_t reg_length);

/*
 * Reads one tagged data record (Version 3.1) into a record of 512 bytes that keeps every field rule. Framed between a
 * header and a trailer, such records are a data file; there is no tagged file, header or trailer.
 *
 *   text, text_length  the tagged text, read: `DAT`, then for each field `|`, its label and its value, and one newline
 *                      byte, 0a hex. The labels may stand in any order
 *   rec, rec_length    the record, written: 512 bytes or more; bytes past the record stay as they are, and if refused
 *                      all do
 *
 * Taken are these labels, here in the order in which they are written. Where no form is said, the value is the bytes of
 * the field: spaces at its end may be left out, and count where they stand. The lengths are those of the 512 bytes: the
 * Version 3.1 format itself has more for COI, GU1 and SEC.
 *
 *   label  field                        bytes, at most   form of the value
 *   FOC    Function                      1
 *   CPN    NPA and Calling Number       10               exactly ten digits
 *   HNO    House Number                 10
 *   HNS    House Suffix                  4
 *   PRD    Prefix Directional            2
 *   STN    Street Name                  60
 *   STS    Street Suffix                 4
 *   POD    Post Directional              2
 *   MCN    Community                    32
 *   STA    State                         2
 *   LOC    Location                     60
 *   NAM    Customer Name                32
 *   CLS    Class                         1
 *   TYS    Type                          1
 *   EXC    Exchange                      4
 *   ESN    ESN                           5
 *   MTN    Main NPA and Main Number     10               exactly ten digits
 *   ORD    Order                        10
 *   CPD    Date                         10               CCYY-MM-DD, of the years 1970 to 2069
 *   COI    County                        4
 *   CPF    Company ID                    5
 *   ZIP    Zip and Zip+4                10               NNNNN or NNNNN-NNNN, all digits
 *   CUS    Customer Code                 3
 *   CMT    Comments                     30
 *   TAR    TAR                           6
 *   GU1    General Use                  11
 *   CEL    Cell                          6
 *   SEC    Sector                        1
 *
 * A label that does not stand in the text leaves its field blank, and so does one with an empty value where no form is
 * said. Source, X, Y, Z and Reserved have no label and are blank. The refusals, in this order, each over the whole
 * text:
 *
 *   33  what stands before the first `|` (before the newline, if there is none) is not `DAT`, or the last byte is not a
 *       newline
 *   34  a label is none of these (capitals only), or is cut short: fewer than three bytes stand between its `|` and the
 *       next `|` or the newline, so also where a `|` is the last byte before the newline
 *   35  a label stands twice, with the same value or another
 *   36  a value is longer than said above, or has not the form said there (nor has an empty one of CPN, MTN, CPD, ZIP)
 *   9   the record so read breaks a field rule, and `position` tells its first bad field, as in a data file: because
 *       a needed label does not stand in the text (CPN: at 2), a day does not exist (2001-02-29: at 251), a byte of a
 *       value is not 20 to 7e hex (a newline inside it), and so on
 *   25  the output is shorter than 512 bytes
 *
 * What was read has a tagged form, which hakkiyolu_write_tagged writes.
 */
struct hakkiyolu_tagged hakkiyolu_read_tagged(
    const uint8_t *text, size_t text_length,
    uint8_t *rec, size_t rec_length);

/*
 * Writes the one tagged form of a record: `DAT`, then for each label whose field is not blank `|`, the label and the
 * value without spaces at its end, in the order of the table above, then one newline. Read again, it gives the same
 * record. HAKKIYOLU_TAGGED_BYTES of output are always enough.
 *
 *   rec, rec_length    the record, read: 512 bytes
 *   text, text_length  the tagged text, written; bytes past it stay as they are, and if refused all do
 *
 * The refusals, in this order:
 *
 *   9   the record breaks a field rule, `position` tells where; or it has not 512 bytes, and `position` is 0
 *   37  the record has no tagged form, for one of these reasons:
 *         - a value contains `|`;
 *         - a field without a label is not blank: Source, X, Y, Z or Reserved (the `*` apart). So A RECORD OF A LOAD
 *           FILE IS ALWAYS REFUSED, as its Source is `C`: clear Source, byte 266, to a space in a copy first;
 *         - Zip with Zip+4 is not blank, five digits, or five and four;
 *         - the main number, Main NPA with Main Number, is not blank or ten digits
 *   25  the output is shorter than the text
 */
struct hakkiyolu_tagged hakkiyolu_write_tagged(
    const uint8_t *rec, size_t rec_length,
    uint8_t *text, size_t text_length);

/*
 * Looks a number up: the lowest used slot that has it. Only the register's length and the number's form are tested, so
 * that a damaged slot hides no other; a slot whose state is above 3 is passed over.
 *
 *   reg, reg_length        the register, read: 1 to 4096 slots of 520 bytes
 *   number, number_length  the number, 10 digits
 *
 * Returns one number that the four functions below take apart. All parts are 0 if the lookup was refused, but for the
 * refusal.
 *
 *   bits 0 to 15    how many slots were looked at: slot + 1 if found, all slots if not
 *   bits 16 to 31   the slot, from 0; 0 if absent
 *   bits 32 to 35   the state (enum hakkiyolu_state)
 *   bits 36 to 39   the refusal: 0, 1 or 10 (enum hakkiyolu_refusal)
 *   bits 40 to 63   0 today, kept for three bytes that a later version adds: do not test that they are 0
 */
uint64_t hakkiyolu_lookup(
    const uint8_t *reg, size_t reg_length,
    const uint8_t *number, size_t number_length);

/* How many slots the lookup looked at. `seen` is what hakkiyolu_lookup returned, here and in the next three. */
static inline uint32_t hakkiyolu_seen_looked(uint64_t seen)
{
    return seen & 0xFFFFu;
}

/* The slot, from 0, of a number that is not absent. Its record begins 8 bytes into the slot. */
static inline uint32_t hakkiyolu_seen_slot(uint64_t seen)
{
    return (seen >> 16) & 0xFFFFu;
}

/* The state of the number (enum hakkiyolu_state). */
static inline uint32_t hakkiyolu_seen_state(uint64_t seen)
{
    return (seen >> 32) & 0xFu;
}

/* Why the lookup was refused, 0 if it was not (enum hakkiyolu_refusal). Ask this before the others. */
static inline uint32_t hakkiyolu_seen_refusal(uint64_t seen)
{
    return (seen >> 36) & 0xFu;
}

/* ---- The layout that the libraries were compiled for ---------------------------------------------------------- */

#if defined(__cplusplus) && __cplusplus >= 201103L
#define HAKKIYOLU_ASSERT(test, words) static_assert(test, words)
#elif defined(__STDC_VERSION__) && __STDC_VERSION__ >= 201112L
#define HAKKIYOLU_ASSERT(test, words) _Static_assert(test, words)
#endif

#ifdef HAKKIYOLU_ASSERT
HAKKIYOLU_ASSERT(sizeof(size_t) == 8, "the libraries are for x86-64: lengths have 8 bytes");
HAKKIYOLU_ASSERT(sizeof(struct hakkiyolu_taken) == 28, "hakkiyolu_taken has 28 bytes");
HAKKIYOLU_ASSERT(offsetof(struct hakkiyolu_taken, refusal) == 0, "refusal is at 0");
HAKKIYOLU_ASSERT(offsetof(struct hakkiyolu_taken, place) == 4, "place is at 4");
HAKKIYOLU_ASSERT(offsetof(struct hakkiyolu_taken, position) == 8, "position is at 8");
HAKKIYOLU_ASSERT(offsetof(struct hakkiyolu_taken, records) == 12, "records is at 12");
HAKKIYOLU_ASSERT(offsetof(struct hakkiyolu_taken, done) == 16, "done is at 16");
HAKKIYOLU_ASSERT(offsetof(struct hakkiyolu_taken, undone) == 20, "undone is at 20");
HAKKIYOLU_ASSERT(offsetof(struct hakkiyolu_taken, last) == 24, "last is at 24");
HAKKIYOLU_ASSERT(sizeof(struct hakkiyolu_loaded) == 16, "hakkiyolu_loaded has 16 bytes");
HAKKIYOLU_ASSERT(offsetof(struct hakkiyolu_loaded, refusal) == 0, "refusal is at 0");
HAKKIYOLU_ASSERT(offsetof(struct hakkiyolu_loaded, bytes) == 4, "bytes is at 4");
HAKKIYOLU_ASSERT(offsetof(struct hakkiyolu_loaded, entries) == 8, "entries is at 8");
HAKKIYOLU_ASSERT(offsetof(struct hakkiyolu_loaded, slot) == 12, "slot is at 12");
HAKKIYOLU_ASSERT(sizeof(struct hakkiyolu_converted) == 8, "hakkiyolu_converted has 8 bytes");
HAKKIYOLU_ASSERT(offsetof(struct hakkiyolu_converted, refusal) == 0, "refusal is at 0");
HAKKIYOLU_ASSERT(offsetof(struct hakkiyolu_converted, slot) == 4, "slot is at 4");
HAKKIYOLU_ASSERT(sizeof(struct hakkiyolu_tagged) == 12, "hakkiyolu_tagged has 12 bytes");
HAKKIYOLU_ASSERT(offsetof(struct hakkiyolu_tagged, refusal) == 0, "refusal is at 0");
HAKKIYOLU_ASSERT(offsetof(struct hakkiyolu_tagged, position) == 4, "position is at 4");
HAKKIYOLU_ASSERT(offsetof(struct hakkiyolu_tagged, bytes) == 8, "bytes is at 8");
#undef HAKKIYOLU_ASSERT
#endif

#ifdef __cplusplus
}
#endif

#endif
