/*
 * delivery: an example of the way from a tagged delivery (Version 3.1) to a file that is checked and applied.
 *
 *   delivery DELIVERY            reads the lines of the file DELIVERY, applies what is good, and tells each line
 *   delivery DELIVERY REGISTER   also writes the register to the file REGISTER, for `console` to look at
 *
 * A line is the bytes up to and with each newline, 0a hex; bytes behind the last newline are a last line without one.
 * Each line that is read becomes a record of a data file, which is checked, and then applied to a register of 4096
 * slots, empty at first, under the guide below. A data file has at most 9999 records, so a longer delivery becomes
 * several, one cycle each.
 *
 * Exit status: 0 every line was read and done, 1 a line was refused or turned away, 2 bad usage, 3 no memory, a file
 * cannot be read or written, or the output cannot be written.
 *
 * Whether a line is good, and by what it is refused, is decided by hakkiyolu_read_tagged alone. That call names no
 * label: which pair of label and value is at fault is found by asking it again, about parts of the line. Of a field
 * rule it tells the field's position, and the table below says which label and which words belong to that.
 */
#define _POSIX_C_SOURCE 200809L /* for getline */
#include <errno.h>
#include <sys/types.h>

#include "frames.h"

/* A label, where its first field begins in the record, the name of that field, and what may be given for it. */
struct tag {
    const char *label;
    uint32_t position;
    const char *field, *give;
};

#define PLAIN(most) "at most " #most " printable bytes, the first no space"
#define NEEDED(most) "1 to " #most " printable bytes, the first no space (only D and U go without)"
#define DIRECTION "N, S, E, W, NE, NW, SE or SW"

/* The words say what is good, so they serve for a value that does not fit and for one that breaks a field rule. */
static const struct tag TAGS[] = {
    {"FOC", 1, "Function", "I, C, D, U or M"},
    {"CPN", 2, "NPA and Calling Number", "ten digits"},
    {"HNO", 12, "House Number", "1 to 8 digits"},
    {"HNS", 22, "House Suffix", PLAIN(4)},
    {"PRD", 26, "Prefix Directional", DIRECTION},
    {"STN", 28, "Street Name", NEEDED(60)},
    {"STS", 88, "Street Suffix", PLAIN(4)},
    {"POD", 92, "Post Directional", DIRECTION},
    {"MCN", 94, "Community", NEEDED(32)},
    {"STA", 126, "State", "two capitals (only D and U go without)"},
    {"LOC", 128, "Location", PLAIN(60)},
    {"NAM", 188, "Customer Name", PLAIN(32)},
    {"CLS", 220, "Class", "one digit (only D and U go without)"},
    {"TYS", 221, "Type", "one digit, 0 to 5 (only D and U go without)"},
    {"EXC", 222, "Exchange", PLAIN(4)},
    {"ESN", 226, "ESN", "1 to 5 digits"},
    {"MTN", 231, "Main NPA and Main Number", "ten digits"},
    {"ORD", 241, "Order", PLAIN(10)},
    {"CPD", 251, "Date", "CCYY-MM-DD, a real day of 1970 to 2069"},
    {"COI", 257, "County", PLAIN(4)},
    {"CPF", 261, "Company ID", "1 to 5 capitals and digits"},
    {"ZIP", 267, "Zip and Zip+4", "NNNNN or NNNNN-NNNN"},
    {"CUS", 287, "Customer Code", PLAIN(3)},
    {"CMT", 290, "Comments", PLAIN(30)},
    {"TAR", 350, "TAR", PLAIN(6)},
    {"GU1", 276, "General Use", "at most 11 printable bytes"},
    {"CEL", 343, "Cell", PLAIN(6)},
    {"SEC", 349, "Sector", "one printable byte"},
};

/* For a label or a position that is not in the table; the library tells none such. */
static const struct tag NO_TAG = {"(none)", 0, "this field", "what hakkiyolu.h says"};

/* A line of the delivery: its number, from 1, and its bytes, the newline too. */
struct line {
    size_t number;
    struct lent text;
};

/* A label and its value, as they stand behind a `|` of a line: from this byte, counted from 0, to before that. */
struct pair {
    size_t from, end;
};

enum { LABEL_BYTES = 3 };
static const char START[] = "DAT|";

/* The records of the data file that is being filled, and the line that each came from. */
struct batch {
    struct lent records;
    size_t lines[HAKKIYOLU_RECORDS_MOST], count;
};

static const struct heading GUIDE_HEADING = {"111526", "MARION COUNTY", "1"};

static const struct street MAIN = {"", "MAIN", "ST", "", "SALEM", "OR"},
                           RIVER = {"NW", "RIVER", "RD", "SE", "SALEM", "OR"};

static const struct row ROWS[] = {
    {"I", "100", "198", "E", &MAIN, "83", HAKKIYOLU_ANSWER_DONE},
    {"I", "101", "199", "O", &MAIN, "84", HAKKIYOLU_ANSWER_DONE},
    {"I", "1", "99", "B", &RIVER, "85", HAKKIYOLU_ANSWER_DONE},
};

/* ---- The pairs of a line --------------------------------------------------------------------------------------- */

/* The pair that begins at this byte. */
static struct pair pair_from(const struct line *line, size_t from)
{
    const size_t newline = line->text.length - 1;
    const uint8_t *bar = memchr(line->text.bytes + from, '|', newline - from);
    return (struct pair){from, bar == NULL ? newline : (size_t)(bar - line->text.bytes)};
}

/* A line that has `DAT` and newline has a pair behind each `|`; the last of them ends at the newline. */
static bool is_last(const struct line *line, struct pair pair)
{
    return pair.end == line->text.length - 1;
}

static bool has_label(const struct line *line, struct pair pair, const char *label)
{
    return pair.end - pair.from >= LABEL_BYTES && memcmp(line->text.bytes + pair.from, label, LABEL_BYTES) == 0;
}

/* Asks whether these bytes of the line, one pair or some in a row, are refused by this number if they come alone. */
static bool is_refused_alone(const struct line *line, size_t from, size_t end, uint32_t refusal)
{
    const size_t start = strlen(START);
    uint8_t record[HAKKIYOLU_RECORD_BYTES];
    struct lent text = lend(start + (end - from) + 1);
    memcpy(text.bytes, START, start);
    memcpy(text.bytes + start, line->text.bytes + from, end - from);
    text.bytes[text.length - 1] = '\n';
    const struct hakkiyolu_tagged read = hakkiyolu_read_tagged(text.bytes, text.length, record, sizeof record);
    free(text.bytes);
    return read.refusal == refusal;
}

/*
 * The pair for which the line was refused by 34, 35 or 36. A label that is not taken and a value that does not fit are
 * refused alone too; a label that stands twice is the last of the fewest first pairs that are refused.
 */
static struct pair pair_at_fault(const struct line *line, uint32_t refusal)
{
    const size_t first = strlen(START);
    const bool twice = refusal == HAKKIYOLU_REFUSED_LABEL_TWICE;
    struct pair pair = pair_from(line, first);
    while (!is_last(line, pair) && !is_refused_alone(line, twice ? first : pair.from, pair.end, refusal)) {
        pair = pair_from(line, pair.end + 1);
    }
    return pair;
}

/* Whether the label stands in the line, which has `DAT` and newline, and perhaps no pair. */
static bool stands_in(const struct line *line, const char *label)
{
    const size_t first = strlen(START);
    if (line->text.length <= first) {
        return false;
    }
    struct pair pair = pair_from(line, first);
    while (!is_last(line, pair) && !has_label(line, pair, label)) {
        pair = pair_from(line, pair.end + 1);
    }
    return has_label(line, pair, label);
}

/* ---- Telling a refusal ----------------------------------------------------------------------------------------- */

static const struct tag *tag_at(uint32_t position)
{
    for (size_t i = 0; i < COUNT(TAGS); i++) {
        if (TAGS[i].position == position) {
            return &TAGS[i];
        }
    }
    return &NO_TAG;
}

static const struct tag *tag_of(const struct line *line, struct pair pair)
{
    for (size_t i = 0; i < COUNT(TAGS); i++) {
        if (has_label(line, pair, TAGS[i].label)) {
            return &TAGS[i];
        }
    }
    return &NO_TAG;
}

/* A label as far as it goes. It came from outside, and a screen must not be led astray by what it may contain. */
static void print_label(const struct line *line, struct pair pair)
{
    const size_t end = pair.end - pair.from < LABEL_BYTES ? pair.end : pair.from + LABEL_BYTES;
    if (pair.from == end) {
        printf("(none)");
    }
    for (size_t i = pair.from; i < end; i++) {
        const uint8_t byte = line->text.bytes[i];
        printf("%c", byte >= 0x20 && byte <= 0x7e ? byte : '?');
    }
}

/* Ends a line that was refused by 34, 35 or 36. */
static void tell_pair(const struct line *line, uint32_t refusal)
{
    const struct pair pair = pair_at_fault(line, refusal);
    printf("), label ");
    print_label(line, pair);
    if (refusal == HAKKIYOLU_REFUSED_LABEL_TWICE) {
        printf(": it stands twice; give it once");
    } else if (refusal == HAKKIYOLU_REFUSED_VALUE) {
        const struct tag *tag = tag_of(line, pair);
        printf(": its value does not fit; for %s give %s", tag->field, tag->give);
    } else if (pair.end - pair.from < LABEL_BYTES) {
        printf(": it is cut short; give three capitals behind each |, and no | in a value or at the end");
    } else {
        printf(": it is not taken; mend the label, or leave it out with its value");
    }
}

/* Ends a line whose record breaks a field rule. */
static void tell_field(const struct line *line, uint32_t position)
{
    const struct tag *tag = tag_at(position);
    const char *wrong = stands_in(line, tag->label) ? "its value is bad" : "it is missing";
    printf(" at %u), label %s: %s; for %s give %s", (unsigned)position, tag->label, wrong, tag->field, tag->give);
}

/* A line that ends in 0d and 0a hex: the first of them belongs to the last value, where nobody sees it. */
static bool has_return(const struct line *line)
{
    return line->text.length >= 2 && memcmp(line->text.bytes + line->text.length - 2, "\r\n", 2) == 0;
}

static void tell_refused(const struct line *line, const struct hakkiyolu_tagged *read)
{
    printf("line %zu: refused (%u", line->number, (unsigned)read->refusal);
    switch (read->refusal) {
    case HAKKIYOLU_REFUSED_TEXT:
        printf("): begin it with DAT and |, and end it with a newline, 0a hex");
        break;
    case HAKKIYOLU_REFUSED_LABEL:
    case HAKKIYOLU_REFUSED_LABEL_TWICE:
    case HAKKIYOLU_REFUSED_VALUE:
        tell_pair(line, read->refusal);
        break;
    default: /* 9, for a record always has its room here */
        tell_field(line, read->position);
    }
    printf("%s\n", has_return(line) ? "; take out the carriage return, 0d hex, before the newline" : "");
}

/* ---- From lines to files --------------------------------------------------------------------------------------- */

/* Reads a line: its record joins the batch, or its refusal is told; false if it was refused. */
static bool read_line(const struct line *line, struct batch *batch)
{
    uint8_t *record = batch->records.bytes + HAKKIYOLU_RECORD_BYTES * batch->count;
    const struct hakkiyolu_tagged read =
        hakkiyolu_read_tagged(line->text.bytes, line->text.length, record, HAKKIYOLU_RECORD_BYTES);
    if (read.refusal != HAKKIYOLU_NOT_REFUSED) {
        tell_refused(line, &read);
        return false;
    }
    printf("line %zu: read,", line->number);
    print_part(record, RECORD_FUNCTION);
    print_part(record, RECORD_NUMBER);
    printf("\n");
    batch->lines[batch->count] = line->number;
    batch->count++;
    return true;
}

/* Takes the batch as the next data file, and empties it; false if it was refused, or a record was turned away. */
static bool take_batch(struct office *office, struct batch *batch)
{
    char cycle[sizeof "4294967295"];
    snprintf(cycle, sizeof cycle, "%u", (unsigned)(office->last_data % HAKKIYOLU_CYCLE_MOST + 1));
    const struct heading heading = {"111526", "ALPHA TELEPHONE", cycle};
    const struct file file = frame(&DATA_FILE, &heading, batch->count);
    struct hakkiyolu_taken taken;
    memcpy(line_at(&file, 0), batch->records.bytes, HAKKIYOLU_RECORD_BYTES * batch->count);
    bool good = take_file(office, &file, &taken);
    for (size_t i = 0; i < taken.records; i++) {
        printf("line %zu", batch->lines[i]);
        tell_answer(file.answers.bytes[i]);
        printf("\n");
    }
    good = taken.done == batch->count && good;
    batch->count = 0;
    free_file(&file);
    return good;
}

/* Reads the next line; false at the end of the file, or where it cannot be read. The caller frees the text. */
static bool next_line(FILE *file, struct line *line)
{
    char *bytes = NULL;
    size_t room = 0;
    const ssize_t length = getline(&bytes, &room, file);
    const int error = errno;
    if (length > 0) {
        line->number++;
        line->text = lend_copy(bytes, (size_t)length);
    }
    free(bytes);
    errno = error;
    return length > 0;
}

/* Takes the lines of the open file. Where it cannot be read to its end, what was read last is not taken. */
static enum status take_lines(struct office *office, FILE *file, const char *path)
{
    struct batch batch = {.records = lend(HAKKIYOLU_RECORD_BYTES * HAKKIYOLU_RECORDS_MOST), .count = 0};
    struct line line = {0, {NULL, 0}};
    bool good = true;
    while (next_line(file, &line)) {
        good = read_line(&line, &batch) && good;
        free(line.text.bytes);
        if (batch.count == HAKKIYOLU_RECORDS_MOST) {
            good = take_batch(office, &batch) && good;
        }
    }
    enum status status = NO_ROOM;
    if (feof(file) && !ferror(file)) {
        good = (batch.count == 0 || take_batch(office, &batch)) && good;
        status = good ? GOOD : NOT_GOOD;
    } else {
        perror(path);
    }
    free(batch.records.bytes);
    return status;
}

static enum status take_delivery(struct office *office, const char *path)
{
    FILE *file = fopen(path, "rb");
    if (file == NULL) {
        perror(path);
        return NO_ROOM;
    }
    const bool good = take_rows(office, &GUIDE_HEADING, ROWS, COUNT(ROWS));
    const enum status status = take_lines(office, file, path);
    fclose(file); /* nothing was written to it */
    return status == GOOD && !good ? NOT_GOOD : status;
}

int main(int argc, char **argv)
{
    if (argc != 2 && argc != 3) {
        return fputs("Usage: delivery DELIVERY [REGISTER]\n", stderr) < 0 ? NO_ROOM : BAD_USAGE;
    }
    struct office office = {lend((size_t)HAKKIYOLU_SLOTS_MOST * HAKKIYOLU_REGISTER_SLOT_BYTES),
        lend(COUNT(ROWS) * HAKKIYOLU_GUIDE_SLOT_BYTES), NONE_YET, NONE_YET};
    enum status status = take_delivery(&office, argv[1]);
    if (argc == 3 && status != NO_ROOM && !write_register(&office.reg, argv[2])) {
        status = NO_ROOM;
    }
    free(office.guide.bytes);
    free(office.reg.bytes);
    return (int)ended("delivery", status);
}
