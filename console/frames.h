/*
 * frames.h: what the examples circle and delivery share: to frame a file, to check it and apply it, and to tell what
 * became of it.
 *
 * How a file is framed. It has a header of 200 bytes, lines of one length (512 bytes for a data record, 200 for a guide
 * row) and a trailer of 200 bytes, with nothing between them. In Version 1 header and trailer have 160 bytes, and a
 * data record has 240. Each of these begins as spaces and ends in `*`; a field's text stands at the field's first
 * position, and only the trailer's count stands at its end. Header and trailer have the same date and name; the
 * header's cycle is the next after the last file of this kind, data files of both versions being one kind.
 */
#ifndef FRAMES_H
#define FRAMES_H

#include <assert.h>
#include <stdbool.h>
#include <stdio.h>
#include <stdlib.h>
#include <string.h>

#include "hakkiyolu.h"

/* How the examples end; what is good, and what is not, each says for itself. */
enum status { GOOD = 0, NOT_GOOD = 1, BAD_USAGE = 2, NO_ROOM = 3 };

/* The last cycle where no file was applied before. */
enum { NONE_YET = 0 };

/* A part of a line, by its first and last position, counted from 1 as the description counts them. */
struct part {
    size_t first, last;
};

/* In both versions. */
static const struct part RECORD_FUNCTION = {1, 1}, RECORD_NUMBER = {2, 11};

static const struct part ROW_PREFIX = {1, 2}, ROW_STREET = {3, 62}, ROW_SUFFIX = {63, 66}, ROW_POST = {67, 68},
                         ROW_LOW = {69, 78}, ROW_HIGH = {79, 88}, ROW_COMMUNITY = {89, 120}, ROW_STATE = {121, 122},
                         ROW_PARITY = {123, 123}, ROW_ESN = {124, 128}, ROW_FUNCTION = {199, 199};

/* Header and trailer have the same parts but for the last: the header's cycle, the trailer's count. */
static const struct part FRAME_MARK = {1, 5}, FRAME_DATE = {6, 11}, FRAME_NAME = {12, 61}, FRAME_CYCLE = {62, 67},
                         FRAME_COUNT = {62, 70};

/* What a header says. */
struct heading {
    const char *date, *name, *cycle;
};

/* A street as a guide names it. Community and state belong to it, and are told nowhere: an example has but one. */
struct street {
    const char *prefix, *name, *suffix, *post, *community, *state;
};

/* A guide row, and the answer it should get. */
struct row {
    const char *function, *low, *high, *parity;
    const struct street *street;
    const char *esn;
    unsigned answer;
};

/* Bytes to lend. They come from the heap in their exact length, so that a memory checker sees any step past the end. */
struct lent {
    uint8_t *bytes;
    size_t length;
};

/* What a register office keeps: the two stores and the last cycle of each kind of file. */
struct office {
    struct lent reg, guide;
    uint32_t last_data, last_guide;
};

struct file;

/* Data files and load files come in both, guide files in Version 2 alone. */
enum version { VERSION_1 = 1, VERSION_2 = 2 };

/*
 * A kind of file: what it is called, its version, the length of its header and of its trailer, that of its lines, and
 * its two calls on what an office keeps.
 */
struct kind {
    const char *name;
    enum version version;
    size_t frame_length, line_length;
    struct hakkiyolu_taken (*check)(const struct office *office, const struct file *file);
    struct hakkiyolu_taken (*apply)(struct office *office, const struct file *file);
};

/* A file: its kind, what its header says, all its bytes, and a byte for the answer to each of its lines. */
struct file {
    const struct kind *kind;
    const struct heading *heading;
    struct lent whole, answers;
};

#define COUNT(list) (sizeof(list) / sizeof((list)[0]))

/* ---- Framing a file -------------------------------------------------------------------------------------------- */

/* So many zero bytes, which as slots are free ones. Nothing useful can be shown without memory, so it ends there. */
static struct lent lend(size_t length)
{
    struct lent lent = {calloc(length, 1), length};
    if (lent.bytes == NULL) {
        perror("memory to lend");
        exit(NO_ROOM);
    }
    return lent;
}

static struct lent lend_copy(const void *bytes, size_t length)
{
    struct lent lent = lend(length);
    memcpy(lent.bytes, bytes, length);
    return lent;
}

/* Makes a line of spaces that ends in `*`. */
static void clear(uint8_t *line, size_t length)
{
    memset(line, ' ', length);
    line[length - 1] = '*';
}

/* Puts the text at the start of its part; what follows in the part stays blank. */
static void put(uint8_t *line, struct part part, const char *text)
{
    const size_t length = strlen(text);
    assert(length <= part.last - part.first + 1);
    memcpy(line + part.first - 1, text, length);
}

/* Puts the number at the end of its part, its last digit first; zero is one `0`. */
static void put_count(uint8_t *line, struct part part, size_t count)
{
    size_t at = part.last;
    do {
        assert(at >= part.first);
        line[at - 1] = (uint8_t)('0' + count % 10);
        count /= 10;
        at--;
    } while (count > 0);
}

/* The room for a file of so many lines and for their answers. */
static struct file lend_file(const struct kind *kind, const struct heading *heading, size_t count)
{
    const size_t length = kind->frame_length + kind->line_length * count + kind->frame_length;
    return (struct file){kind, heading, lend(length), lend(count)};
}

/* Line i, from 0, of a file; the one behind its last is the trailer. */
static uint8_t *line_at(const struct file *file, size_t i)
{
    return file->whole.bytes + file->kind->frame_length + file->kind->line_length * i;
}

/* Writes what header and trailer have in common. */
static void write_frame(uint8_t *line, const struct file *file, const char *mark)
{
    clear(line, file->kind->frame_length);
    put(line, FRAME_MARK, mark);
    put(line, FRAME_DATE, file->heading->date);
    put(line, FRAME_NAME, file->heading->name);
}

/* A file with so many empty lines between its header and its trailer. */
static struct file frame(const struct kind *kind, const struct heading *heading, size_t count)
{
    const struct file file = lend_file(kind, heading, count);
    write_frame(file.whole.bytes, &file, "UHL");
    put(file.whole.bytes, FRAME_CYCLE, heading->cycle);
    for (size_t i = 0; i < count; i++) {
        clear(line_at(&file, i), kind->line_length);
    }
    write_frame(line_at(&file, count), &file, "UTL");
    put_count(line_at(&file, count), FRAME_COUNT, count);
    return file;
}

static void free_file(const struct file *file)
{
    free(file->answers.bytes);
    free(file->whole.bytes);
}

static void write_row(uint8_t *line, const struct row *row)
{
    put(line, ROW_PREFIX, row->street->prefix);
    put(line, ROW_STREET, row->street->name);
    put(line, ROW_SUFFIX, row->street->suffix);
    put(line, ROW_POST, row->street->post);
    put(line, ROW_LOW, row->low);
    put(line, ROW_HIGH, row->high);
    put(line, ROW_COMMUNITY, row->street->community);
    put(line, ROW_STATE, row->street->state);
    put(line, ROW_PARITY, row->parity);
    put(line, ROW_ESN, row->esn);
    put(line, ROW_FUNCTION, row->function);
}

/* ---- Telling --------------------------------------------------------------------------------------------------- */

/* The length of a part without the spaces at its end. */
static int text_length(const uint8_t *line, struct part part)
{
    size_t last = part.last;
    while (last >= part.first && line[last - 1] == ' ') {
        last--;
    }
    return (int)(last - part.first + 1);
}

static void print_part(const uint8_t *line, struct part part)
{
    printf(" %.*s", text_length(line, part), (const char *)line + part.first - 1);
}

static const char *answer_words(unsigned answer)
{
    static const char *const WORDS[] = {
        "dated after its file", "the number is present already", "the number is not present",
        "the number is still held", "the number is open", "another company holds the number",
        "dated before the entry", "no guide row covers the address", "not the ESN of the guide row",
        "the register is full", "clashes with a present row", "the guide is full",
        "no such row", "an entry still lies under the row",
    };
    const unsigned first = HAKKIYOLU_ANSWER_DATE_AHEAD;
    return answer >= first && answer - first < COUNT(WORDS) ? WORDS[answer - first] : "an unknown answer";
}

/* Tells what became of one record or row, behind what names it. */
static void tell_answer(unsigned answer)
{
    if (answer == HAKKIYOLU_ANSWER_DONE) {
        printf(": done");
    } else {
        printf(": turned away (%u), %s", answer, answer_words(answer));
    }
}

/* Ends the line of one record or row with its answer; false if another was due. */
static bool tell_due(unsigned answer, unsigned due)
{
    tell_answer(answer);
    printf(answer == due ? "\n" : " -- NOT AS EXPECTED\n");
    return answer == due;
}

/* Begins the line of a file that was checked or applied. If it was refused, ends it with that; false then. */
static bool tell_file(const struct file *file, const struct hakkiyolu_taken *taken)
{
    printf("%s of %s, cycle %s: ", file->kind->name, file->heading->name, file->heading->cycle);
    if (taken->refusal == HAKKIYOLU_NOT_REFUSED) {
        return true;
    }
    printf("refused (%u), record %u, position %u\n", (unsigned)taken->refusal, (unsigned)taken->place,
        (unsigned)taken->position);
    return false;
}

/* ---- Checking and applying ------------------------------------------------------------------------------------- */

static bool is_v1(const struct file *file)
{
    return file->kind->version == VERSION_1;
}

/* The caller says which version, by the call; all that is given is the same, the last cycle too. */
static struct hakkiyolu_taken check_data(const struct office *office, const struct file *file)
{
    return (is_v1(file) ? hakkiyolu_check_data_v1 : hakkiyolu_check_data)(office->reg.bytes, office->reg.length,
        office->guide.bytes, office->guide.length, file->whole.bytes, file->whole.length, file->answers.bytes,
        file->answers.length, office->last_data);
}

/* Applying alone moves the last cycle on: after a check that did, the file itself would be refused by 6. */
static struct hakkiyolu_taken apply_data(struct office *office, const struct file *file)
{
    const struct hakkiyolu_taken applied = (is_v1(file) ? hakkiyolu_apply_data_v1 : hakkiyolu_apply_data)(
        office->reg.bytes, office->reg.length, office->guide.bytes, office->guide.length, file->whole.bytes,
        file->whole.length, file->answers.bytes, file->answers.length, office->last_data);
    office->last_data = applied.last;
    return applied;
}

static struct hakkiyolu_taken check_guide(const struct office *office, const struct file *file)
{
    return hakkiyolu_check_guide(office->reg.bytes, office->reg.length, office->guide.bytes, office->guide.length,
        file->whole.bytes, file->whole.length, file->answers.bytes, file->answers.length, office->last_guide);
}

static struct hakkiyolu_taken apply_guide(struct office *office, const struct file *file)
{
    const struct hakkiyolu_taken applied = hakkiyolu_apply_guide(office->reg.bytes, office->reg.length,
        office->guide.bytes, office->guide.length, file->whole.bytes, file->whole.length, file->answers.bytes,
        file->answers.length, office->last_guide);
    office->last_guide = applied.last;
    return applied;
}

static const struct kind DATA_FILE = {"data file", VERSION_2, HAKKIYOLU_HEADER_BYTES, HAKKIYOLU_RECORD_BYTES,
                             check_data, apply_data},
                         V1_DATA_FILE = {"Version 1 data file", VERSION_1, HAKKIYOLU_V1_HEADER_BYTES,
                             HAKKIYOLU_V1_RECORD_BYTES, check_data, apply_data},
                         GUIDE_FILE = {"guide file", VERSION_2, HAKKIYOLU_HEADER_BYTES, HAKKIYOLU_ROW_BYTES,
                             check_guide, apply_guide};

/* Checks the file and tells it: nothing is changed, and applying tests again. */
static struct hakkiyolu_taken check_file(const struct office *office, const struct file *file)
{
    const struct hakkiyolu_taken checked = file->kind->check(office, file);
    if (tell_file(file, &checked)) {
        printf("checked, %u record%s\n", (unsigned)checked.records, checked.records == 1 ? "" : "s");
    }
    return checked;
}

/* Applies the file and tells it; the caller tells its answers. */
static struct hakkiyolu_taken apply_file(struct office *office, const struct file *file)
{
    const struct hakkiyolu_taken applied = file->kind->apply(office, file);
    if (tell_file(file, &applied)) {
        printf("%u done, %u not done\n", (unsigned)applied.done, (unsigned)applied.undone);
    }
    return applied;
}

/*
 * Takes the file: checks it and, if it is good, applies it at once. False if it was refused, or if the two calls do not
 * tell the same number of records. What the later of them returned is left in `taken`.
 */
static bool take_file(struct office *office, const struct file *file, struct hakkiyolu_taken *taken)
{
    const struct hakkiyolu_taken checked = check_file(office, file);
    *taken = checked;
    if (checked.refusal != HAKKIYOLU_NOT_REFUSED) {
        return false;
    }
    *taken = apply_file(office, file);
    if (taken->records != checked.records) {
        printf("  records checked: %u, applied: %u -- NOT AS EXPECTED\n", (unsigned)checked.records,
            (unsigned)taken->records);
        return false;
    }
    return taken->refusal == HAKKIYOLU_NOT_REFUSED;
}

/* Directionals are mostly blank, and then no gap is left for them. */
static void print_row(const struct row *row)
{
    const char *const words[] = {row->street->prefix, row->street->name, row->street->suffix, row->street->post};
    printf("  %s %s to %s", row->function, row->low, row->high);
    for (size_t i = 0; i < COUNT(words); i++) {
        printf("%s%s", words[i][0] == '\0' ? "" : " ", words[i]);
    }
    printf(", %s, ESN %s", row->parity, row->esn);
}

/* Takes the rows as one guide file; false if it was refused, or a row was not answered as is due. */
static bool take_rows(struct office *office, const struct heading *heading, const struct row *rows, size_t count)
{
    const struct file file = frame(&GUIDE_FILE, heading, count);
    struct hakkiyolu_taken taken;
    for (size_t i = 0; i < count; i++) {
        write_row(line_at(&file, i), &rows[i]);
    }
    bool good = take_file(office, &file, &taken);
    for (size_t i = 0; i < taken.records; i++) {
        print_row(&rows[i]);
        good = tell_due(file.answers.bytes[i], rows[i].answer) && good;
    }
    free_file(&file);
    return good;
}

/* ---- Ending ---------------------------------------------------------------------------------------------------- */

/* Writes the register to a file; false, with the reason on the standard error, if that fails. */
static bool write_register(const struct lent *reg, const char *path)
{
    FILE *file = fopen(path, "wb");
    if (file == NULL) {
        perror(path);
        return false;
    }
    bool good = fwrite(reg->bytes, 1, reg->length, file) == reg->length;
    good = fclose(file) == 0 && good; /* buffered bytes may fail only here */
    if (!good) {
        perror(path);
    }
    return good;
}

/* The status to end with. A print that failed has marked the stream, so asking once at the end is enough. */
static enum status ended(const char *program, enum status status)
{
    if (fflush(stdout) == 0 && !ferror(stdout)) {
        return status;
    }
    /* The status tells it in any case. */
    (void)fprintf(stderr, "%s: the standard output cannot be written\n", program);
    return NO_ROOM;
}

#endif
