/*
 * circle: an example of the whole circle, from a guide file and data files through a load file back to a register,
 * each file checked and then applied; of the same circle in Version 1, and of an entry that Version 1 cannot say; of a
 * file that is checked in the evening and refused in the morning; of a tagged record (Version 3.1) that is read, framed
 * and taken, and written back as the same text; and of converting a register that was written before, when days counted
 * from 010100.
 *
 *   circle            runs the circle and tells each step
 *   circle REGISTER   also writes the register to the file REGISTER, for `console` to look at
 *
 * Exit status: 0 the circle closes, 1 something came out otherwise, 2 bad usage, 3 no memory, or the output or the file
 * cannot be written. How a file is framed is said in frames.h.
 */
#include "frames.h"

enum { SLOTS = 8 };

/* Where the fields of a record stand, beside those that frames.h has for both versions. */
struct fields {
    struct part house, street, suffix, community, state, class, type, esn, date, company, source;
};

/* A register keeps Version 2. The fields of Version 1 are the same, some of them shorter; it has none for comments. */
static const struct fields
    RECORD = {.house = {12, 21}, .street = {28, 87}, .suffix = {88, 91}, .community = {94, 125}, .state = {126, 127},
        .class = {220, 220}, .type = {221, 221}, .esn = {226, 230}, .date = {251, 256}, .company = {261, 265},
        .source = {266, 266}},
    V1_RECORD = {.house = {12, 21}, .street = {28, 67}, .suffix = {68, 71}, .community = {74, 105},
        .state = {106, 107}, .class = {160, 160}, .type = {161, 161}, .esn = {166, 170}, .date = {191, 196},
        .company = {201, 205}, .source = {206, 206}};
static const struct part RECORD_COMMENTS = {290, 319};

/* A data record, and the answer it should get. Deletes and unlocks need no address. */
struct entry {
    const char *function, *number, *company, *date, *house, *street, *suffix, *esn;
    unsigned answer;
};

static const char COMMUNITY[] = "MILLBROOK", STATE[] = "OR";

static const struct heading GUIDE_HEADING = {"100126", "MILL COUNTY", "1"};

static const struct street MAIN = {"", "MAIN", "ST", "", COMMUNITY, STATE},
                           MILL = {"", "MILL", "RD", "", COMMUNITY, STATE};

static const struct row ROWS[] = {
    {"I", "1", "99", "B", &MAIN, "83", HAKKIYOLU_ANSWER_DONE},
    {"I", "100", "198", "E", &MILL, "84", HAKKIYOLU_ANSWER_DONE},
    {"I", "101", "199", "O", &MILL, "85", HAKKIYOLU_ANSWER_DONE},
    {"I", "150", "150", "B", &MILL, "86", HAKKIYOLU_ANSWER_ROW_CLASHES},
};

static const struct heading FIRST_HEADING = {"101026", "OLDCO TELEPHONE", "1"};

/* The first company files four numbers, deletes one and unlocks two; Elm Street is not in the guide. */
static const struct entry FIRST[] = {
    {"I", "5035550100", "OLDCO", "100526", "12", "MAIN", "ST", "83", HAKKIYOLU_ANSWER_DONE},
    {"I", "5035550101", "OLDCO", "100526", "104", "MILL", "RD", "", HAKKIYOLU_ANSWER_DONE},
    {"I", "5035550102", "OLDCO", "100526", "105", "MILL", "RD", "85", HAKKIYOLU_ANSWER_DONE},
    {"I", "5035550103", "OLDCO", "100626", "40", "MAIN", "ST", "83", HAKKIYOLU_ANSWER_DONE},
    {"I", "5035550104", "OLDCO", "100626", "7", "ELM", "ST", "83", HAKKIYOLU_ANSWER_NO_ROW},
    {"D", "5035550102", "OLDCO", "100826", "", "", "", "", HAKKIYOLU_ANSWER_DONE},
    {"U", "5035550100", "OLDCO", "101026", "", "", "", "", HAKKIYOLU_ANSWER_DONE},
    {"U", "5035550103", "OLDCO", "101026", "", "", "", "", HAKKIYOLU_ANSWER_DONE},
};

static const struct heading SECOND_HEADING = {"101226", "NEWCO TELEPHONE", "2"};

/* The second company takes one of the unlocked numbers over, for a subscriber in another street. */
static const struct entry SECOND[] = {
    {"M", "5035550100", "NEWCO", "101226", "109", "MILL", "RD", "", HAKKIYOLU_ANSWER_DONE},
};

static const struct heading LATE_HEADING = {"101526", "OLDCO TELEPHONE", "3"};

/* The changes that must not be taken: the first company's, of a number that has passed on and of one it has let go. */
static const struct entry LATE[] = {
    {"C", "5035550100", "OLDCO", "101426", "14", "MAIN", "ST", "83", HAKKIYOLU_ANSWER_OTHER_COMPANY},
    {"C", "5035550103", "OLDCO", "101426", "42", "MAIN", "ST", "83", HAKKIYOLU_ANSWER_NUMBER_OPEN},
};

static const struct heading HOTEL_HEADING = {"101726", "GRAND HOTELS", "4"};

/* A hotel's switch files Version 1, with the three codes that it has: I, C and D. */
static const struct entry HOTEL[] = {
    {"I", "5035550106", "HOTEL", "101626", "50", "MAIN", "ST", "", HAKKIYOLU_ANSWER_DONE},
    {"I", "5035550107", "HOTEL", "101626", "50", "MAIN", "ST", "83", HAKKIYOLU_ANSWER_DONE},
    {"C", "5035550106", "HOTEL", "101726", "52", "MAIN", "ST", "", HAKKIYOLU_ANSWER_DONE},
    {"D", "5035550107", "HOTEL", "101726", "", "", "", "", HAKKIYOLU_ANSWER_DONE},
};

static const struct heading EVENING_HEADING = {"101826", "NEWCO TELEPHONE", "5"};

/*
 * The second company would take over the other unlocked number. Its file is checked in the evening, but before the
 * morning the first company's comes, of the same cycle.
 */
static const struct entry EVENING[] = {
    {"M", "5035550103", "NEWCO", "101726", "40", "MAIN", "ST", "83", HAKKIYOLU_ANSWER_DONE},
};

/* No answer has this number, so an answer byte that holds it was not written to. */
enum { UNANSWERED = 0x77 };

static const struct heading TAGGED_HEADING = {"101826", "OLDCO TELEPHONE", "5"};

/*
 * One more number of the first company, which comes tagged. Its labels stand in the order in which they are written,
 * and its ESN is given, so that the register keeps the record as it was read: it comes back as this very text. Its
 * comments have no place in Version 1.
 */
static const char TEXT[] =
    "DAT|FOCI|CPN5035550105|HNO44|STNMAIN|STSST|MCNMILLBROOK|STAOR|CLS1|TYS0|ESN83|CPD2026-10-16|CPFOLDCO"
    "|CMTDOOR IS IN MILL RD\n";
static const char TEXT_NUMBER[] = "5035550105";

/* A load file is a data file. The dispatch centre has applied none yet, so it is cycle 1 there. */
static const struct kind LOAD_FILE = {"load file", VERSION_2, HAKKIYOLU_HEADER_BYTES, HAKKIYOLU_RECORD_BYTES,
                             check_data, apply_data},
                         V1_LOAD_FILE = {"Version 1 load file", VERSION_1, HAKKIYOLU_V1_HEADER_BYTES,
                             HAKKIYOLU_V1_RECORD_BYTES, check_data, apply_data};
static const struct heading LOAD_HEADING = {"102026", "REGISTER OFFICE", "1"};
enum { LOAD_CYCLE = 1 };

/*
 * Days counted from 010100 before, which is day 10957 now. The day that was numbered 25568 is the first after 123169,
 * the last date that can be written now. The slot to get it is that of the deleted number: a resting slot may
 * have any day from its record's date on.
 */
enum { OLD_FIRST_DAY = 10957, OLD_LATE_DAY = 25568, LATE_SLOT = 2 };

/* ---- Data files ------------------------------------------------------------------------------------------------ */

static void write_record(uint8_t *line, const struct fields *at, const struct entry *entry)
{
    put(line, RECORD_FUNCTION, entry->function);
    put(line, RECORD_NUMBER, entry->number);
    put(line, at->house, entry->house);
    put(line, at->street, entry->street);
    put(line, at->suffix, entry->suffix);
    put(line, at->community, COMMUNITY);
    put(line, at->state, STATE);
    put(line, at->class, "1");
    put(line, at->type, "0");
    put(line, at->esn, entry->esn);
    put(line, at->date, entry->date);
    put(line, at->company, entry->company);
}

/* The entries as one data file, of either version. */
static struct file frame_entries(const struct kind *kind, const struct heading *heading, const struct entry *entries,
    size_t count)
{
    const struct file file = frame(kind, heading, count);
    for (size_t i = 0; i < count; i++) {
        write_record(line_at(&file, i), is_v1(&file) ? &V1_RECORD : &RECORD, &entries[i]);
    }
    return file;
}

/* Tells the answers to the entries of a file that was applied; false if another was due. */
static bool tell_entries(const struct file *file, const struct entry *entries, size_t count)
{
    bool good = true;
    for (size_t i = 0; i < count; i++) {
        printf("  %s %s of %s", entries[i].function, entries[i].number, entries[i].company);
        good = tell_due(file->answers.bytes[i], entries[i].answer) && good;
    }
    return good;
}

static bool take_entries(struct office *office, const struct heading *heading, const struct entry *entries,
    size_t count)
{
    const struct file file = frame_entries(&DATA_FILE, heading, entries, count);
    struct hakkiyolu_taken taken;
    bool good = take_file(office, &file, &taken);
    good = tell_entries(&file, entries, taken.records) && good;
    free_file(&file);
    return good;
}

/* ---- Looking --------------------------------------------------------------------------------------------------- */

/* Where the record of a slot begins in its register. */
static size_t record_at(size_t slot)
{
    return slot * HAKKIYOLU_REGISTER_SLOT_BYTES + HAKKIYOLU_SLOT_LINE_AT;
}

/* The record of a number that is held, as it stands in its slot; NULL if the number is not held. */
static const uint8_t *held_record(const struct lent *reg, const char *number)
{
    const uint64_t seen = hakkiyolu_lookup(reg->bytes, reg->length, (const uint8_t *)number, strlen(number));
    if (hakkiyolu_seen_state(seen) != HAKKIYOLU_STATE_HELD) {
        printf("%s is not held\n", number);
        return NULL;
    }
    return reg->bytes + record_at(hakkiyolu_seen_slot(seen));
}

/* Shows where the dispatcher would send the crew; false if the number is not held by the company. */
static bool show_street(const struct lent *reg, const char *number, const char *company)
{
    const uint8_t *line = held_record(reg, number);
    if (line == NULL) {
        return false;
    }
    printf("%s shows", number);
    print_part(line, RECORD.house);
    print_part(line, RECORD.street);
    print_part(line, RECORD.suffix);
    printf(", ESN");
    print_part(line, RECORD.esn);
    printf(", of");
    print_part(line, RECORD.company);
    printf("\n");
    return memcmp(line + RECORD.company.first - 1, company, strlen(company)) == 0;
}

/* ---- A tagged record ------------------------------------------------------------------------------------------- */

/* Writes the record tagged: it must be refused by what is due, or else be the text that came. */
static bool write_text(const uint8_t *record, uint32_t due)
{
    struct lent text = lend(HAKKIYOLU_TAGGED_BYTES);
    const struct hakkiyolu_tagged written =
        hakkiyolu_write_tagged(record, HAKKIYOLU_RECORD_BYTES, text.bytes, text.length);
    const bool refused = written.refusal != HAKKIYOLU_NOT_REFUSED;
    const bool same = written.bytes == strlen(TEXT) && memcmp(text.bytes, TEXT, written.bytes) == 0;
    const bool good = written.refusal == due && (refused || same);
    if (refused) {
        printf("refused (%u)", (unsigned)written.refusal);
    } else {
        printf("%u bytes, %s", (unsigned)written.bytes, same ? "the text that came" : "another text");
    }
    printf(good ? "\n" : " -- NOT AS EXPECTED\n");
    free(text.bytes);
    return good;
}

/* Takes a data file of one record that came tagged, which must be done. */
static bool take_record(struct office *office, const struct file *file)
{
    const uint8_t *record = line_at(file, 0);
    struct hakkiyolu_taken taken;
    if (!take_file(office, file, &taken) || taken.records != 1) {
        return false;
    }
    printf(" ");
    print_part(record, RECORD_FUNCTION);
    print_part(record, RECORD_NUMBER);
    printf(" of");
    print_part(record, RECORD.company);
    return tell_due(file->answers.bytes[0], HAKKIYOLU_ANSWER_DONE);
}

/* Reads the text into its place in a data file of one record, and takes that. */
static bool take_text(struct office *office)
{
    struct lent text = lend_copy(TEXT, strlen(TEXT));
    const struct file file = frame(&DATA_FILE, &TAGGED_HEADING, 1);
    const struct hakkiyolu_tagged read =
        hakkiyolu_read_tagged(text.bytes, text.length, line_at(&file, 0), HAKKIYOLU_RECORD_BYTES);
    bool good = read.refusal == HAKKIYOLU_NOT_REFUSED;
    if (good) {
        printf("tagged record of %zu bytes: read\n", text.length);
        good = take_record(office, &file);
    } else {
        printf("tagged record: refused (%u), position %u\n", (unsigned)read.refusal, (unsigned)read.position);
    }
    free_file(&file);
    free(text.bytes);
    return good;
}

/* The text becomes an entry, and the entry the text again. */
static bool text_and_back(struct office *office)
{
    const uint8_t *record = take_text(office) ? held_record(&office->reg, TEXT_NUMBER) : NULL;
    if (record == NULL) {
        return false;
    }
    printf("%s, written tagged: ", TEXT_NUMBER);
    return write_text(record, HAKKIYOLU_NOT_REFUSED);
}

/*
 * A record of the load file has no tagged form, for its Source is `C`. In a copy that is cleared, and the last entry,
 * the one that came tagged, is its text again.
 */
static bool load_to_text(const struct file *load, uint32_t entries)
{
    if (entries == 0) {
        return false;
    }
    struct lent record = lend_copy(line_at(load, entries - 1), HAKKIYOLU_RECORD_BYTES);
    printf("%s in the load file, written tagged: ", TEXT_NUMBER);
    bool good = write_text(record.bytes, HAKKIYOLU_REFUSED_NO_TEXT);
    put(record.bytes, RECORD.source, " ");
    printf("%s with Source cleared, written tagged: ", TEXT_NUMBER);
    good = write_text(record.bytes, HAKKIYOLU_NOT_REFUSED) && good;
    free(record.bytes);
    return good;
}

/* ---- Evening and morning --------------------------------------------------------------------------------------- */

/* Applies the file that was checked in the evening: it must be refused for its cycle, and no byte may change. */
static bool apply_in_morning(struct office *office, const struct file *file)
{
    memset(file->answers.bytes, UNANSWERED, file->answers.length);
    struct lent reg = lend_copy(office->reg.bytes, office->reg.length);
    struct lent answers = lend_copy(file->answers.bytes, file->answers.length);
    const struct hakkiyolu_taken applied = apply_file(office, file);
    const bool kept = memcmp(office->reg.bytes, reg.bytes, reg.length) == 0
        && memcmp(file->answers.bytes, answers.bytes, answers.length) == 0;
    const bool good = applied.refusal == HAKKIYOLU_REFUSED_CYCLE && kept;
    printf("its cycle went to the other file since the check; register and answers are %s",
        kept ? "unchanged" : "changed");
    printf(good ? "\n" : " -- NOT AS EXPECTED\n");
    free(answers.bytes);
    free(reg.bytes);
    return good;
}

/*
 * No other data file comes in this night, so what was checked is applied. Its cycle is the next after the last file of
 * Version 2, and the next file of Version 2 follows it.
 */
static bool quiet_night(struct office *office)
{
    const struct file file = frame_entries(&V1_DATA_FILE, &HOTEL_HEADING, HOTEL, COUNT(HOTEL));
    printf("in the evening a file of Version 1 is checked:\n");
    const struct hakkiyolu_taken checked = check_file(office, &file);
    printf("in the morning it is applied:\n");
    const struct hakkiyolu_taken applied = apply_file(office, &file);
    bool good = checked.refusal == HAKKIYOLU_NOT_REFUSED && applied.refusal == HAKKIYOLU_NOT_REFUSED
        && checked.records == applied.records;
    good = tell_entries(&file, HOTEL, applied.records) && good;
    free_file(&file);
    return good;
}

/* A check is no permit for the morning: here another file gets the cycle in between, and applying tests again. */
static bool evening_and_morning(struct office *office)
{
    const struct file file = frame_entries(&DATA_FILE, &EVENING_HEADING, EVENING, COUNT(EVENING));
    printf("in the evening a file is checked, to be applied in the morning:\n");
    const struct hakkiyolu_taken checked = check_file(office, &file);
    bool good = checked.refusal == HAKKIYOLU_NOT_REFUSED && checked.last == office->last_data;
    printf("before the morning another file of that cycle comes, and is taken:\n");
    good = text_and_back(office) && good;
    printf("in the morning the file that was checked is applied:\n");
    good = apply_in_morning(office, &file) && good;
    free_file(&file);
    return good;
}

/* ---- Back again ------------------------------------------------------------------------------------------------ */

static uint32_t two_digits(const uint8_t *text)
{
    return (uint32_t)(text[0] - '0') * 10 + (uint32_t)(text[1] - '0');
}

/*
 * The day number of MMDDYY, 010170 being day 0: YY 70 to 99 is 19YY, 00 to 69 is 20YY. From 1970 to 2069 every fourth
 * year has a leap day, the first of them 1972, and these are the years whose YY has no remainder by 4. The days before
 * a month are worked out as if February had 30, of which it is one or two short.
 */
static uint32_t day_number(const uint8_t *date)
{
    const uint32_t month = two_digits(date), day = two_digits(date + 2), year = two_digits(date + 4);
    const uint32_t years = year >= 70 ? year - 70 : year + 30; /* since 1970 */
    const uint32_t short_by = month <= 2 ? 0 : year % 4 == 0 ? 1 : 2;
    return years * 365 + (years + 1) / 4 + (367 * month - 362) / 12 - short_by + day - 1;
}

/* The day number in bytes 1 to 4 of a slot, high byte first. */
static uint32_t slot_day(const uint8_t *slot)
{
    return (uint32_t)slot[1] << 24 | (uint32_t)slot[2] << 16 | (uint32_t)slot[3] << 8 | slot[4];
}

/* Two records are the same but for Function and Source. */
static bool same_record(const uint8_t *a, const uint8_t *b)
{
    const size_t from = RECORD_FUNCTION.last, source = RECORD.source.first - 1, behind = RECORD.source.last;
    return memcmp(a + from, b + from, source - from) == 0
        && memcmp(a + behind, b + behind, HAKKIYOLU_RECORD_BYTES - behind) == 0;
}

/*
 * An entry came back: held, the record the same but for Function and Source, and every other byte of a held entry's
 * slot too. An open entry comes back held under the date in its record, for its slot's day was that of the unlock.
 */
static bool came_back(const uint8_t *before, const uint8_t *after)
{
    const uint8_t *line = before + HAKKIYOLU_SLOT_LINE_AT;
    const bool was_open = before[0] == HAKKIYOLU_STATE_OPEN;
    const uint32_t day = was_open ? day_number(line + RECORD.date.first - 1) : slot_day(before);
    return after[0] == HAKKIYOLU_STATE_HELD && slot_day(after) == day && memcmp(before + 5, after + 5, 3) == 0
        && same_record(line, after + HAKKIYOLU_SLOT_LINE_AT);
}

static bool all_zero(const uint8_t *bytes, size_t length)
{
    for (size_t i = 0; i < length; i++) {
        if (bytes[i] != 0) {
            return false;
        }
    }
    return true;
}

/* The held and open entries of one register fill the other from its lowest slot, and its other slots are free. */
static bool compare(const struct lent *before, const struct lent *after)
{
    const size_t slot_bytes = HAKKIYOLU_REGISTER_SLOT_BYTES;
    bool good = true;
    size_t back = 0;
    for (size_t i = 0; i < SLOTS; i++) {
        const uint8_t *slot = before->bytes + slot_bytes * i;
        if (slot[0] != HAKKIYOLU_STATE_HELD && slot[0] != HAKKIYOLU_STATE_OPEN) {
            continue;
        }
        const bool same = came_back(slot, after->bytes + slot_bytes * back);
        printf("  slot %zu,", i);
        print_part(slot + HAKKIYOLU_SLOT_LINE_AT, RECORD_NUMBER);
        printf(": %s slot %zu\n", same ? "came back to" : "DID NOT COME BACK TO", back);
        good = good && same;
        back++;
    }
    const bool rest_free = all_zero(after->bytes + slot_bytes * back, slot_bytes * (SLOTS - back));
    printf("  the other %zu slots: %s\n", SLOTS - back, rest_free ? "free" : "NOT FREE");
    return good && rest_free;
}

/* Takes the load file into an empty register under the same guide, where no file was applied before, and compares. */
static bool take_back(const struct office *office, const struct file *load, uint32_t entries)
{
    struct office centre = {lend(office->reg.length), office->guide, NONE_YET, NONE_YET};
    struct hakkiyolu_taken taken;
    const bool good = take_file(&centre, load, &taken) && taken.done == entries && taken.undone == 0
        && compare(&office->reg, &centre.reg);
    free(centre.reg.bytes);
    return good;
}

/* Writes the load file into its room, which is for all slots, and tells it. */
static struct hakkiyolu_loaded write_load(const struct office *office, const struct file *load)
{
    uint8_t name[HAKKIYOLU_NAME_BYTES];
    memset(name, ' ', sizeof name);
    memcpy(name, LOAD_HEADING.name, strlen(LOAD_HEADING.name));
    const struct hakkiyolu_loaded loaded = (is_v1(load) ? hakkiyolu_write_load_v1 : hakkiyolu_write_load)(
        office->reg.bytes, office->reg.length, (const uint8_t *)LOAD_HEADING.date, HAKKIYOLU_DATE_BYTES, name,
        sizeof name, LOAD_CYCLE, load->whole.bytes, load->whole.length);
    if (loaded.refusal == HAKKIYOLU_NOT_REFUSED) {
        printf("%s written: %u entries, %u bytes\n", load->kind->name, (unsigned)loaded.entries,
            (unsigned)loaded.bytes);
    } else {
        printf("%s refused (%u), slot %u\n", load->kind->name, (unsigned)loaded.refusal, (unsigned)loaded.slot);
    }
    return loaded;
}

/* Writes a load file of this kind and takes it back; records of Version 2 have a tagged form, so that is tried too. */
static bool load_and_back(const struct office *office, const struct kind *kind)
{
    struct file load = lend_file(kind, &LOAD_HEADING, SLOTS);
    const struct hakkiyolu_loaded loaded = write_load(office, &load);
    bool good = loaded.refusal == HAKKIYOLU_NOT_REFUSED && loaded.slot == 0;
    if (good) {
        load.whole.length = loaded.bytes;
        good = take_back(office, &load, loaded.entries);
        good = (is_v1(&load) || load_to_text(&load, loaded.entries)) && good;
    }
    free_file(&load);
    return good;
}

/*
 * Version 1 has no field for the comments of the entry that came tagged, so no Version 1 load file is written, and the
 * entry's slot is told. The caller then writes one of Version 2.
 */
static bool load_refused(const struct office *office)
{
    const struct file load = lend_file(&V1_LOAD_FILE, &LOAD_HEADING, SLOTS);
    const struct hakkiyolu_loaded loaded = write_load(office, &load);
    const uint8_t *record = held_record(&office->reg, TEXT_NUMBER);
    const bool named = record != NULL && (size_t)(record - office->reg.bytes) == record_at(loaded.slot);
    const bool good = loaded.refusal == HAKKIYOLU_REFUSED_NO_V1 && named
        && all_zero(load.whole.bytes, load.whole.length);
    if (named) {
        printf("%s stands there, with comments:", TEXT_NUMBER);
        print_part(record, RECORD_COMMENTS);
    }
    printf(good ? "\n" : " -- NOT AS EXPECTED\n");
    free_file(&load);
    return good;
}

/* ---- An old register ------------------------------------------------------------------------------------------- */

static void put_slot_day(uint8_t *slot, uint32_t day)
{
    slot[1] = (uint8_t)(day >> 24);
    slot[2] = (uint8_t)(day >> 16);
    slot[3] = (uint8_t)(day >> 8);
    slot[4] = (uint8_t)day;
}

/* The register as it was written before: the same but for the days of its used slots. */
static struct lent as_before(const struct lent *reg)
{
    struct lent old = lend_copy(reg->bytes, reg->length);
    for (size_t i = 0; i < SLOTS; i++) {
        uint8_t *slot = old.bytes + HAKKIYOLU_REGISTER_SLOT_BYTES * i;
        if (slot[0] != HAKKIYOLU_STATE_ABSENT) {
            put_slot_day(slot, slot_day(slot) - OLD_FIRST_DAY);
        }
    }
    return old;
}

/* Converts the old register, which must then be today's in every byte. */
static bool convert_old(const struct lent *reg)
{
    struct lent old = as_before(reg);
    const struct hakkiyolu_converted converted = hakkiyolu_convert_register(old.bytes, old.length);
    bool good = converted.refusal == HAKKIYOLU_NOT_REFUSED;
    if (good) {
        good = memcmp(old.bytes, reg->bytes, reg->length) == 0;
        printf("converted an old register of %d slots: %s\n", SLOTS, good ? "same as today's" : "NOT AS TODAY'S");
    } else {
        printf("an old register: refused (%u), slot %u\n", (unsigned)converted.refusal, (unsigned)converted.slot);
    }
    free(old.bytes);
    return good;
}

/* Converts the old register with a day that has no reading now: it must be refused by its slot, and stay as it was. */
static bool convert_late(const struct lent *reg)
{
    struct lent old = as_before(reg);
    put_slot_day(old.bytes + HAKKIYOLU_REGISTER_SLOT_BYTES * LATE_SLOT, OLD_LATE_DAY);
    struct lent before = lend_copy(old.bytes, old.length);
    const struct hakkiyolu_converted converted = hakkiyolu_convert_register(old.bytes, old.length);
    const bool kept = memcmp(old.bytes, before.bytes, before.length) == 0;
    const bool good = converted.refusal == HAKKIYOLU_REFUSED_DAY && converted.slot == LATE_SLOT && kept;
    printf("a day after 2069 in slot %u: refused (%u), %s", (unsigned)converted.slot, (unsigned)converted.refusal,
        kept ? "nothing changed" : "something changed");
    printf(good ? "\n" : " -- NOT AS EXPECTED\n");
    free(before.bytes);
    free(old.bytes);
    return good;
}

/* ---- The whole ------------------------------------------------------------------------------------------------- */

/* Every step is run and told, also after one that came out otherwise: what follows helps to see why. */
static bool run_circle(struct office *office)
{
    bool good = take_rows(office, &GUIDE_HEADING, ROWS, COUNT(ROWS));
    good = take_entries(office, &FIRST_HEADING, FIRST, COUNT(FIRST)) && good;
    good = take_entries(office, &SECOND_HEADING, SECOND, COUNT(SECOND)) && good;
    good = show_street(&office->reg, "5035550100", "NEWCO") && good;
    good = take_entries(office, &LATE_HEADING, LATE, COUNT(LATE)) && good;
    good = show_street(&office->reg, "5035550100", "NEWCO") && good;
    good = quiet_night(office) && good;
    good = show_street(&office->reg, "5035550106", "HOTEL") && good;
    good = load_and_back(office, &V1_LOAD_FILE) && good;
    good = evening_and_morning(office) && good;
    good = load_refused(office) && good;
    good = load_and_back(office, &LOAD_FILE) && good;
    good = convert_old(&office->reg) && good;
    good = convert_late(&office->reg) && good;
    printf(good ? "the circle closes\n" : "THE CIRCLE DOES NOT CLOSE\n");
    return good;
}

int main(int argc, char **argv)
{
    if (argc > 2) {
        return fputs("Usage: circle [REGISTER]\n", stderr) < 0 ? NO_ROOM : BAD_USAGE;
    }
    struct office office = {
        lend(SLOTS * HAKKIYOLU_REGISTER_SLOT_BYTES), lend(SLOTS * HAKKIYOLU_GUIDE_SLOT_BYTES), NONE_YET, NONE_YET};
    enum status status = run_circle(&office) ? GOOD : NOT_GOOD;
    if (argc == 2 && !write_register(&office.reg, argv[1])) {
        status = NO_ROOM;
    }
    free(office.guide.bytes);
    free(office.reg.bytes);
    return (int)ended("circle", status);
}
