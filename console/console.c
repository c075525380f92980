/*
 * console: the dispatch console's lookup. It reads a register from a file and tells, for each number given, its state,
 * its slot and how many slots were looked at. `console --help` says how it is used.
 */
#include <errno.h>
#include <stdio.h>
#include <stdlib.h>
#include <string.h>

#include "hakkiyolu.h"

/* Exit statuses, from the least to the worst: of several the highest is told. */
enum status {
    ALL_ANSWERED = 0,
    BAD_NUMBER = 1,
    BAD_USAGE = 2,
    UNREADABLE = 3,
    BAD_REGISTER = 4,
    NO_OUTPUT = 5
};

/*
 * One byte more than the longest register: a file that fills this is too long, whatever follows, and its length is
 * refused by the lookup like every other wrong length. So the program need not know the rule, nor read on.
 */
#define ROOM ((size_t)HAKKIYOLU_SLOTS_MOST * HAKKIYOLU_REGISTER_SLOT_BYTES + 1)

static const char HELP[] =
    "Usage: console REGISTER NUMBER...\n"
    "       console --help\n"
    "\n"
    "Looks each NUMBER (ten digits) up in the register that the file REGISTER holds (1 to 4096 slots of 520 bytes).\n"
    "Prints a line a number, in the order given:\n"
    "\n"
    "  5035550100: held, slot 0, 1 slot looked at\n"
    "\n"
    "  held      a company holds the number\n"
    "  open      its company has unlocked it, and none has migrated it yet\n"
    "  resting   it was deleted\n"
    "  absent    no slot has it\n"
    "\n"
    "Slots are counted from 0. All numbers are looked up: one that is not ten digits is named on the standard error,\n"
    "and the others are still answered. Of several exit statuses the highest is told:\n"
    "\n"
    "  0   every number was answered, absent ones too\n"
    "  1   a number is not ten digits (refusal 10)\n"
    "  2   bad usage\n"
    "  3   the file cannot be opened or read\n"
    "  4   the file is no register: not 1 to 4096 whole slots (refusal 1); no number is answered\n"
    "  5   the output cannot be written\n";

static enum status worse(enum status a, enum status b)
{
    return a > b ? a : b;
}

/* Says on the standard error what is wrong with what, and hands the status on; a complaint nobody can read is worse. */
static enum status complain(enum status status, const char *what, const char *wrong)
{
    return fprintf(stderr, "console: %s: %s\n", what, wrong) < 0 ? worse(status, NO_OUTPUT) : status;
}

/* Reads up to ROOM bytes of the open file. */
static enum status read_bytes(FILE *file, const char *path, uint8_t *bytes, size_t *length)
{
    errno = 0;
    *length = fread(bytes, 1, ROOM, file);
    if (ferror(file)) {
        return complain(UNREADABLE, path, strerror(errno));
    }
    return ALL_ANSWERED;
}

/* Reads the file into memory that the caller frees, whatever the status. */
static enum status read_file(const char *path, uint8_t **bytes, size_t *length)
{
    *length = 0;
    *bytes = malloc(ROOM);
    if (*bytes == NULL) {
        return complain(UNREADABLE, path, "not enough memory to read it");
    }
    FILE *file = fopen(path, "rb");
    if (file == NULL) {
        return complain(UNREADABLE, path, strerror(errno));
    }
    enum status status = read_bytes(file, path, *bytes, length);
    if (fclose(file) != 0 && status == ALL_ANSWERED) {
        status = complain(UNREADABLE, path, strerror(errno));
    }
    return status;
}

static const char *state_word(uint32_t state)
{
    switch (state) {
    case HAKKIYOLU_STATE_HELD:
        return "held";
    case HAKKIYOLU_STATE_OPEN:
        return "open";
    case HAKKIYOLU_STATE_RESTING:
        return "resting";
    default:
        return "absent";
    }
}

/* Prints the line of a number that was answered. An absent number has no slot, though the packed slot is then 0. */
static enum status print_seen(const char *number, uint64_t seen)
{
    const uint32_t state = hakkiyolu_seen_state(seen);
    const unsigned looked = hakkiyolu_seen_looked(seen);
    const char *slots = looked == 1 ? "slot" : "slots";
    int printed;
    if (state == HAKKIYOLU_STATE_ABSENT) {
        printed = printf("%s: absent, no slot, %u %s looked at\n", number, looked, slots);
    } else {
        const unsigned slot = hakkiyolu_seen_slot(seen);
        printed = printf("%s: %s, slot %u, %u %s looked at\n", number, state_word(state), slot, looked, slots);
    }
    return printed < 0 ? NO_OUTPUT : ALL_ANSWERED;
}

/* Looks one number up, and prints its line or complains. A lookup is refused by 10 or by 1, and by nothing else. */
static enum status show(const uint8_t *reg, size_t reg_length, const char *path, const char *number)
{
    const uint64_t seen = hakkiyolu_lookup(reg, reg_length, (const uint8_t *)number, strlen(number));
    switch (hakkiyolu_seen_refusal(seen)) {
    case HAKKIYOLU_NOT_REFUSED:
        return print_seen(number, seen);
    case HAKKIYOLU_REFUSED_NUMBER:
        return complain(BAD_NUMBER, number, "refused (10): not ten digits");
    default:
        return complain(BAD_REGISTER, path, "refused (1): not 1 to 4096 whole slots of 520 bytes");
    }
}

/* Looks all numbers up. A refused register is refused for every number: it is named once, and ends the walk. */
static enum status show_all(const uint8_t *reg, size_t reg_length, const char *path, char *const *numbers, int count)
{
    enum status status = ALL_ANSWERED;
    for (int i = 0; i < count && status < BAD_REGISTER; i++) {
        status = worse(status, show(reg, reg_length, path, numbers[i]));
    }
    return status;
}

static enum status run(const char *path, char *const *numbers, int count)
{
    uint8_t *reg;
    size_t reg_length;
    enum status status = read_file(path, &reg, &reg_length);
    if (status == ALL_ANSWERED) {
        status = show_all(reg, reg_length, path, numbers, count);
    }
    free(reg);
    return status;
}

int main(int argc, char **argv)
{
    enum status status;
    if (argc == 2 && strcmp(argv[1], "--help") == 0) {
        status = fputs(HELP, stdout) < 0 ? NO_OUTPUT : ALL_ANSWERED;
    } else if (argc < 3) {
        status = complain(BAD_USAGE, "bad usage", "give a register and a number (console --help tells more)");
    } else {
        status = run(argv[1], argv + 2, argc - 2);
    }
    /* What printf accepted may still be lost here: a dispatcher must not take half an output for the whole. */
    if (fflush(stdout) != 0 || ferror(stdout)) {
        status = complain(NO_OUTPUT, "standard output", "cannot be written");
    }
    return (int)status;
}
