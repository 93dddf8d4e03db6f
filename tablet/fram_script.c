/* Runs one script on the model of an FRAM chip at its pins, of the memory board over such a chip, or on a dump, and tells each
 * step and its answer in words. Usage and examples are in README.md; scripts, samples and answers are in docs/FORMATS.md; the
 * refusals are in docs/REFUSALS.md.
 *
 * All work is done by libfram.a. What it answers is taken apart here with a check before every byte that is read, so that
 * an answer which does not fit its script ends the program with an error and nothing worse.
 */
#include "fram.h"

#include <ctype.h>
#include <errno.h>
#include <inttypes.h>
#include <stdbool.h>
#include <stdint.h>
#include <stdio.h>
#include <stdlib.h>
#include <string.h>

/* How the program ends. */
enum status {
    STATUS_RAN = 0,
    STATUS_BAD_CALL = 1,   /* an argument or a file was not good */
    STATUS_REFUSED = 2,    /* the run was refused */
    STATUS_BAD_ANSWER = 3  /* the library's answer does not fit the script */
};

/* The runs. Each is one bit, so that a number can stand for several. */
enum run { RUN_CHIP = 0x01, RUN_BOARD = 0x02, RUN_DUMP = 0x04 };

/* The kinds of steps. */
enum kind {
    KIND_SAMPLE = 0x01,
    KIND_POWER_CYCLE = 0x02,
    KIND_SIZE = 0x03,
    KIND_FENCE = 0x04,
    KIND_READ_EIGHT = 0x05,
    KIND_WRITE_EIGHT = 0x06,
    KIND_WRITE_ONE = 0x07
};

/* The first byte of an answer. */
enum answer_code {
    ANSWER_REFUSED = 0x7F,
    ANSWER_SO = 0x81,
    ANSWER_POWER_CYCLE = 0x82,
    ANSWER_SIZE = 0x83,
    ANSWER_FENCE = 0x84,
    ANSWER_CELLS = 0x85,
    ANSWER_WRITTEN = 0x86
};

/* The refusals of a step. Those of a run are in fram.h. */
enum step_refusal { STEP_NOT_A_SAMPLE = 3, STEP_OUT_OF_RANGE = 4, STEP_FENCED = 5 };

/* What SO shows. */
enum level { LEVEL_LOW = 0, LEVEL_HIGH = 1, LEVEL_HIGH_Z = 2 };

/* The pins in a sample. */
enum pin { PIN_CS = 0x01, PIN_SCK = 0x02, PIN_SI = 0x04, PIN_WP = 0x08, PIN_HOLD = 0x10, PIN_NONE = 0xE0 };

/* The stored status bits that do something. */
enum stored_bit { STORED_BP0 = 0x04, STORED_BP1 = 0x08, STORED_WPEN = 0x80 };

/* Lengths in bytes. */
enum {
    CODE_BYTES = 1,
    SAMPLE_BYTES = 1,
    LEVEL_BYTES = 1,
    REFUSAL_BYTES = 1,
    START_BYTES = 3,
    NUMBER_BYTES = 3,
    ONE_CELL = 1,
    EIGHT_CELLS = 8,
    MOST_ANSWER_BYTES = 9 /* for each step */
};

/* What a fence question answers where there is no fence. */
enum { NO_PLACE = 0xFFFFFF };

/* Room for the text of a step or of an answer, and for eight bytes in hexadecimal, each with the 0 at its end. */
enum { TEXT_ROOM = 80, CELLS_ROOM = 3 * EIGHT_CELLS };

/* The room of the first read from a file; it is doubled as long as the file goes on. */
enum { FIRST_ROOM = 4096 };

static const char usage[] = "usage: fram_script (chip|board) PART STORED MEMORY SCRIPT [MEMORY-AFTER]\n"
                            "       fram_script dump MEMORY SCRIPT";

struct run_name {
    const char *name;
    enum run run;
};

static const struct run_name run_names[] = {
    {"chip", RUN_CHIP},
    {"board", RUN_BOARD},
    {"dump", RUN_DUMP},
};

/* A kind of step: the runs that know it, the bytes behind its kind byte, and its answer when it is not refused. */
struct shape {
    enum kind kind;
    unsigned runs;
    size_t body;
    enum answer_code answer;
    size_t answer_body;
};

static const struct shape shapes[] = {
    {KIND_SAMPLE, RUN_CHIP, SAMPLE_BYTES, ANSWER_SO, LEVEL_BYTES},
    {KIND_POWER_CYCLE, RUN_CHIP, 0, ANSWER_POWER_CYCLE, 0},
    {KIND_SIZE, RUN_BOARD | RUN_DUMP, 0, ANSWER_SIZE, NUMBER_BYTES},
    {KIND_FENCE, RUN_BOARD, START_BYTES, ANSWER_FENCE, NUMBER_BYTES},
    {KIND_READ_EIGHT, RUN_BOARD | RUN_DUMP, START_BYTES, ANSWER_CELLS, EIGHT_CELLS},
    {KIND_WRITE_EIGHT, RUN_BOARD, START_BYTES + EIGHT_CELLS, ANSWER_WRITTEN, 0},
    {KIND_WRITE_ONE, RUN_BOARD, START_BYTES + ONE_CELL, ANSWER_WRITTEN, 0},
};

/* A chip, as the library takes it. */
struct chip {
    uint8_t t;
    uint8_t f;
    bool drop;
    bool sleep;
    bool fast;
};

struct part {
    const char *name;
    struct chip chip;
};

static const struct part parts[] = {
    {"MB85RS64VY", {.t = 0x03, .f = 0x02, .sleep = true}},
    {"MB85RS128TY", {.t = 0x04, .f = 0x02, .sleep = true}},
    {"MB85RS256B", {.t = 0x05, .f = 0x09, .drop = true, .fast = true}},
};

/* What the arguments ask for. A dump has no chip, no stored bits and no memory afterwards. */
struct order {
    enum run run;
    struct chip chip;
    uint8_t stored;
    const char *memory_name;
    const char *script_name;
    const char *after_name; /* NULL: the memory afterwards is not kept */
};

/* Bytes on the heap: exactly `length` of them, or one where the length is 0. */
struct buffer {
    uint8_t *bytes;
    size_t length;
};

/* Bytes that are taken from the front. */
struct row {
    const uint8_t *next;
    size_t left;
};

struct step {
    const struct shape *shape;
    size_t place; /* of its kind byte in the script, from 0 */
    const uint8_t *body;
};

struct answer {
    uint8_t code;
    const uint8_t *body;
};

/* ---- errors ---- */

/* Why the C library could not do the last thing, in its words. */
static const char *reason(void)
{
    return errno != 0 ? strerror(errno) : "no reason given";
}

static enum status bad_usage(void)
{
    (void)fprintf(stderr, "%s\n", usage);
    return STATUS_BAD_CALL;
}

static enum status bad_call(const char *what, const char *which)
{
    (void)fprintf(stderr, "fram_script: %s: %s\n", what, which);
    return STATUS_BAD_CALL;
}

static bool bad_file(const char *what, const char *name)
{
    (void)fprintf(stderr, "fram_script: cannot %s %s: %s\n", what, name, reason());
    return false;
}

/* ---- arguments ---- */

static bool parse_digit(char digit, unsigned *value)
{
    static const char digits[] = "0123456789ABCDEF";
    const char *found = digit != '\0' ? strchr(digits, toupper((unsigned char)digit)) : NULL;
    if (found == NULL) {
        return false;
    }
    *value = (unsigned)(found - digits);
    return true;
}

/* One byte, in one or two hexadecimal digits. */
static bool parse_byte(const char *text, size_t length, uint8_t *byte)
{
    unsigned value = 0;
    if (length < 1 || length > 2) {
        return false;
    }
    for (size_t i = 0; i < length; i++) {
        unsigned digit = 0;
        if (!parse_digit(text[i], &digit)) {
            return false;
        }
        value = 16 * value + digit;
    }
    *byte = (uint8_t)value;
    return true;
}

/* Sets a mark that is not set yet. */
static bool set_mark(bool *mark)
{
    bool fresh = !*mark;
    *mark = true;
    return fresh;
}

/* A word of the letters d, s and f, each at most once, or - for no marks. */
static bool parse_marks(const char *word, struct chip *chip)
{
    if (strcmp(word, "-") == 0) {
        return true;
    }
    for (const char *letter = word; *letter != '\0'; letter++) {
        bool good = false;
        switch (*letter) {
        case 'd':
            good = set_mark(&chip->drop);
            break;
        case 's':
            good = set_mark(&chip->sleep);
            break;
        case 'f':
            good = set_mark(&chip->fast);
            break;
        default:
            break;
        }
        if (!good) {
            return false;
        }
    }
    return *word != '\0';
}

/* A chip as t,f,MARKS. */
static bool parse_chip(const char *text, struct chip *chip)
{
    const char *first = strchr(text, ',');
    const char *second = first != NULL ? strchr(first + 1, ',') : NULL;
    if (second == NULL) {
        return false;
    }
    *chip = (struct chip){.t = 0};
    return parse_byte(text, (size_t)(first - text), &chip->t) &&
           parse_byte(first + 1, (size_t)(second - (first + 1)), &chip->f) && parse_marks(second + 1, chip);
}

/* A chip by the name of a part, or as t,f,MARKS. */
static bool parse_part(const char *text, struct chip *chip)
{
    for (size_t i = 0; i < sizeof parts / sizeof parts[0]; i++) {
        if (strcmp(text, parts[i].name) == 0) {
            *chip = parts[i].chip;
            return true;
        }
    }
    return parse_chip(text, chip);
}

static bool parse_run(const char *text, enum run *run)
{
    for (size_t i = 0; i < sizeof run_names / sizeof run_names[0]; i++) {
        if (strcmp(text, run_names[i].name) == 0) {
            *run = run_names[i].run;
            return true;
        }
    }
    return false;
}

/* The arguments behind `chip` or `board`. */
static enum status parse_chip_order(int argc, char **argv, struct order *order)
{
    enum { PART = 2, STORED, MEMORY, SCRIPT, AFTER };
    if (argc <= SCRIPT || argc > AFTER + 1) {
        return bad_usage();
    }
    if (!parse_part(argv[PART], &order->chip)) {
        return bad_call("PART must be MB85RS64VY, MB85RS128TY, MB85RS256B, or t,f,MARKS as in 23,02,s", argv[PART]);
    }
    if (!parse_byte(argv[STORED], strlen(argv[STORED]), &order->stored)) {
        return bad_call("STORED must be one byte in hexadecimal, as in 04", argv[STORED]);
    }
    order->memory_name = argv[MEMORY];
    order->script_name = argv[SCRIPT];
    order->after_name = argc > AFTER ? argv[AFTER] : NULL;
    return STATUS_RAN;
}

/* The arguments behind `dump`. */
static enum status parse_dump_order(int argc, char **argv, struct order *order)
{
    enum { MEMORY = 2, SCRIPT };
    if (argc != SCRIPT + 1) {
        return bad_usage();
    }
    order->memory_name = argv[MEMORY];
    order->script_name = argv[SCRIPT];
    return STATUS_RAN;
}

static enum status parse_order(int argc, char **argv, struct order *order)
{
    enum { RUN = 1 };
    if (argc <= RUN) {
        return bad_usage();
    }
    if (!parse_run(argv[RUN], &order->run)) {
        return bad_call("the run must be chip, board or dump", argv[RUN]);
    }
    return order->run == RUN_DUMP ? parse_dump_order(argc, argv, order) : parse_chip_order(argc, argv, order);
}

/* ---- files ---- */

/* Gives a buffer this room; its bytes stay. No pointer is NULL, also where the room is 0. */
static bool set_room(struct buffer *buffer, size_t room)
{
    uint8_t *bytes = realloc(buffer->bytes, room > 0 ? room : 1);
    if (bytes == NULL) {
        return false;
    }
    buffer->bytes = bytes;
    return true;
}

/* Reads all of an open file into an empty buffer, and gives back the room that was not needed. */
static bool read_open(FILE *file, struct buffer *into)
{
    size_t room = FIRST_ROOM;
    for (;;) {
        if (!set_room(into, room)) {
            return false;
        }
        into->length += fread(into->bytes + into->length, 1, room - into->length, file);
        if (into->length < room) {
            break;
        }
        if (room > SIZE_MAX / 2) {
            errno = ENOMEM;
            return false;
        }
        room *= 2;
    }
    return ferror(file) == 0 && set_room(into, into->length);
}

static bool read_file(const char *name, struct buffer *into)
{
    errno = 0;
    FILE *file = fopen(name, "rb");
    if (file == NULL) {
        return bad_file("open", name);
    }
    bool good = read_open(file, into) || bad_file("read", name);
    if (fclose(file) != 0 && good) {
        good = bad_file("close", name);
    }
    return good;
}

/* The script: a file, or standard input where the name is -. */
static bool read_script(const char *name, struct buffer *into)
{
    if (strcmp(name, "-") != 0) {
        return read_file(name, into);
    }
    errno = 0;
    return read_open(stdin, into) || bad_file("read", "standard input");
}

static bool write_file(const char *name, const struct buffer *from)
{
    errno = 0;
    FILE *file = fopen(name, "wb");
    if (file == NULL) {
        return bad_file("open", name);
    }
    bool good = fwrite(from->bytes, 1, from->length, file) == from->length || bad_file("write", name);
    if (fclose(file) != 0 && good) {
        good = bad_file("write", name);
    }
    return good;
}

/* Room for the answers to any script of this length, since each step has one byte at least. */
static bool make_answers(size_t script_length, struct buffer *answers)
{
    if (script_length > SIZE_MAX / MOST_ANSWER_BYTES) {
        errno = ENOMEM;
        return bad_file("hold", "the answers");
    }
    answers->length = script_length * MOST_ANSWER_BYTES;
    errno = 0;
    answers->bytes = calloc(answers->length > 0 ? answers->length : 1, 1);
    return answers->bytes != NULL || bad_file("hold", "the answers");
}

/* ---- steps and answers ---- */

/* Takes so many bytes; NULL where there are not so many left. */
static const uint8_t *take(struct row *row, size_t count)
{
    if (count > row->left) {
        return NULL;
    }
    const uint8_t *taken = row->next;
    row->next += count;
    row->left -= count;
    return taken;
}

/* A number in three bytes, the highest first. */
static uint32_t number_in(const uint8_t bytes[NUMBER_BYTES])
{
    return (uint32_t)bytes[0] << 16 | (uint32_t)bytes[1] << 8 | (uint32_t)bytes[2];
}

/* The shape of the steps of this kind in this run; NULL where the run does not know it. */
static const struct shape *find_shape(enum run run, uint8_t kind)
{
    for (size_t i = 0; i < sizeof shapes / sizeof shapes[0]; i++) {
        if ((shapes[i].runs & (unsigned)run) != 0 && shapes[i].kind == kind) {
            return &shapes[i];
        }
    }
    return NULL;
}

/* Takes the next step of a script that the library accepted; `place` is the place of its kind byte. */
static bool next_step(struct row *script, enum run run, size_t place, struct step *step)
{
    const uint8_t *kind = take(script, CODE_BYTES);
    const struct shape *shape = kind != NULL ? find_shape(run, *kind) : NULL;
    if (shape == NULL) {
        return false;
    }
    *step = (struct step){.shape = shape, .place = place, .body = take(script, shape->body)};
    return step->body != NULL;
}

/* Whether a step of this kind can be refused by this number. */
static bool can_be_refused(enum kind kind, uint8_t number)
{
    switch (kind) {
    case KIND_SAMPLE:
        return number == STEP_NOT_A_SAMPLE;
    case KIND_FENCE:
    case KIND_READ_EIGHT:
        return number == STEP_OUT_OF_RANGE;
    case KIND_WRITE_EIGHT:
    case KIND_WRITE_ONE:
        return number == STEP_OUT_OF_RANGE || number == STEP_FENCED;
    case KIND_POWER_CYCLE:
    case KIND_SIZE:
        return false;
    }
    return false;
}

/* Takes the answer to a step. It must be one that a step of this kind can get. */
static bool next_answer(struct row *answers, const struct shape *to, struct answer *answer)
{
    const uint8_t *code = take(answers, CODE_BYTES);
    if (code == NULL) {
        return false;
    }
    size_t body = *code == ANSWER_REFUSED ? (size_t)REFUSAL_BYTES : to->answer_body;
    *answer = (struct answer){.code = *code, .body = take(answers, body)};
    if (answer->body == NULL) {
        return false;
    }
    switch (answer->code) {
    case ANSWER_REFUSED:
        return can_be_refused(to->kind, answer->body[0]);
    case ANSWER_SO:
        return to->answer == ANSWER_SO && answer->body[0] <= LEVEL_HIGH_Z;
    default:
        return answer->code == to->answer;
    }
}

/* ---- words ---- */

static const char *step_refusal_words(uint8_t number)
{
    switch (number) {
    case STEP_NOT_A_SAMPLE:
        return "a sample has a bit 5, 6 or 7";
    case STEP_OUT_OF_RANGE:
        return "start + count above the size";
    case STEP_FENCED:
        return "the range of a write holds a fenced cell";
    default:
        return "no refusal of a step";
    }
}

/* NULL where such a run is not refused by this number. */
static const char *run_refusal_words(enum run run, uint32_t number)
{
    switch (number) {
    case FRAM_NO_SHEET:
        return run != RUN_DUMP ? "no sheet: d, the low five bits of t, is not from 1 to 5" : NULL;
    case FRAM_MEMORY_LENGTH:
        return run != RUN_DUMP ? "the memory has not exactly 2^(10 + d) bytes" : NULL;
    case FRAM_UNKNOWN_KIND:
        return run != RUN_DUMP ? "the kind of a step is not known to this run"
                               : "a dump has steps of size and of reading eight cells alone";
    case FRAM_SHORT_STEP:
        return "the script ends inside a step";
    case FRAM_SHORT_BUFFER:
        return "the answer buffer has fewer than 9 bytes for each step";
    default:
        return NULL;
    }
}

static const char *level_words(uint8_t level)
{
    switch (level) {
    case LEVEL_LOW:
        return "0";
    case LEVEL_HIGH:
        return "1";
    case LEVEL_HIGH_Z:
        return "high-Z";
    default:
        return "unknown";
    }
}

static unsigned is_set(uint8_t byte, unsigned bit)
{
    return (byte & bit) != 0 ? 1U : 0U;
}

static void tell_cells(const uint8_t cells[EIGHT_CELLS], char text[CELLS_ROOM])
{
    (void)snprintf(text, CELLS_ROOM, "%02X %02X %02X %02X %02X %02X %02X %02X", (unsigned)cells[0], (unsigned)cells[1],
                   (unsigned)cells[2], (unsigned)cells[3], (unsigned)cells[4], (unsigned)cells[5], (unsigned)cells[6],
                   (unsigned)cells[7]);
}

static void tell_sample(uint8_t sample, char text[TEXT_ROOM])
{
    if (is_set(sample, PIN_NONE)) {
        (void)snprintf(text, TEXT_ROOM, "sample %02X  no sample", (unsigned)sample);
        return;
    }
    (void)snprintf(text, TEXT_ROOM, "sample %02X  CS %u SCK %u SI %u WP %u HOLD %u", (unsigned)sample,
                   is_set(sample, PIN_CS), is_set(sample, PIN_SCK), is_set(sample, PIN_SI), is_set(sample, PIN_WP),
                   is_set(sample, PIN_HOLD));
}

static void tell_step(const struct step *step, char text[TEXT_ROOM])
{
    char cells[CELLS_ROOM] = "";
    switch (step->shape->kind) {
    case KIND_SAMPLE:
        tell_sample(step->body[0], text);
        break;
    case KIND_POWER_CYCLE:
        (void)snprintf(text, TEXT_ROOM, "power cycle");
        break;
    case KIND_SIZE:
        (void)snprintf(text, TEXT_ROOM, "size");
        break;
    case KIND_FENCE:
        (void)snprintf(text, TEXT_ROOM, "fences in 8 from %06" PRIX32, number_in(step->body));
        break;
    case KIND_READ_EIGHT:
        (void)snprintf(text, TEXT_ROOM, "read 8 from %06" PRIX32, number_in(step->body));
        break;
    case KIND_WRITE_EIGHT:
        tell_cells(step->body + START_BYTES, cells);
        (void)snprintf(text, TEXT_ROOM, "write 8 at %06" PRIX32 ": %s", number_in(step->body), cells);
        break;
    case KIND_WRITE_ONE:
        (void)snprintf(text, TEXT_ROOM, "write 1 at %06" PRIX32 ": %02X", number_in(step->body),
                       (unsigned)step->body[START_BYTES]);
        break;
    }
}

static void tell_fence(uint32_t place, char text[TEXT_ROOM])
{
    if (place == NO_PLACE) {
        (void)snprintf(text, TEXT_ROOM, "no fence");
    } else {
        (void)snprintf(text, TEXT_ROOM, "first fence at %06" PRIX32, place);
    }
}

static void tell_answer(const struct answer *answer, char text[TEXT_ROOM])
{
    switch (answer->code) {
    case ANSWER_REFUSED:
        (void)snprintf(text, TEXT_ROOM, "refused by %u: %s", (unsigned)answer->body[0], step_refusal_words(answer->body[0]));
        break;
    case ANSWER_SO:
        (void)snprintf(text, TEXT_ROOM, "SO %s", level_words(answer->body[0]));
        break;
    case ANSWER_POWER_CYCLE:
        (void)snprintf(text, TEXT_ROOM, "done");
        break;
    case ANSWER_SIZE:
        (void)snprintf(text, TEXT_ROOM, "%" PRIu32 " cells", number_in(answer->body));
        break;
    case ANSWER_FENCE:
        tell_fence(number_in(answer->body), text);
        break;
    case ANSWER_CELLS:
        tell_cells(answer->body, text);
        break;
    case ANSWER_WRITTEN:
        (void)snprintf(text, TEXT_ROOM, "written");
        break;
    default:
        (void)snprintf(text, TEXT_ROOM, "unknown");
        break;
    }
}

/* ---- telling a run ---- */

static enum status bad_report(const char *what)
{
    (void)fflush(stdout);
    (void)fprintf(stderr, "fram_script: the library's answer does not fit the script: %s\n", what);
    return STATUS_BAD_ANSWER;
}

static enum status bad_step(uint64_t number, const char *what)
{
    (void)fflush(stdout);
    (void)fprintf(stderr, "fram_script: the library's answer does not fit the script: step %" PRIu64 ": %s\n", number, what);
    return STATUS_BAD_ANSWER;
}

/* A run that was refused: its number and words, and for 8 and 9 the place of the kind byte. */
static enum status tell_refusal(enum run run, size_t script_length, const fram_report *report)
{
    const char *words = run_refusal_words(run, report->refusal);
    if (words == NULL) {
        return bad_report("no such run is refused by this number");
    }
    if (report->refusal != FRAM_UNKNOWN_KIND && report->refusal != FRAM_SHORT_STEP) {
        (void)fprintf(stderr, "refused by %" PRIu32 ": %s\n", report->refusal, words);
        return STATUS_REFUSED;
    }
    if (report->place >= script_length) {
        return bad_report("the place of the fault is not in the script");
    }
    (void)fprintf(stderr, "refused by %" PRIu32 ": %s, place %" PRIu64 "\n", report->refusal, words, report->place);
    return STATUS_REFUSED;
}

/* One line: the number of the step from 1, the place of its kind byte from 0, the step, the answer. An error in writing
 * stays marked in stdout, and is looked for when all lines are written. */
static void tell_line(uint64_t number, const struct step *step, const struct answer *answer)
{
    char step_text[TEXT_ROOM] = "";
    char answer_text[TEXT_ROOM] = "";
    tell_step(step, step_text);
    tell_answer(answer, answer_text);
    (void)printf("step %4" PRIu64 "  place %5zu  %-42s  %s\n", number, step->place, step_text, answer_text);
}

static void tell_stored(uint8_t stored)
{
    (void)printf("stored bits %02X: WPEN %u BP1 %u BP0 %u\n", (unsigned)stored, is_set(stored, STORED_WPEN),
                 is_set(stored, STORED_BP1), is_set(stored, STORED_BP0));
}

/* How many cells the dump in a file of this length has, and how many bytes of the file are none. */
static void tell_dump(size_t length)
{
    if (length == 0) {
        (void)printf("cells of the dump 0: the file is empty\n");
    } else if (length <= FRAM_MOST_CELLS) {
        (void)printf("cells of the dump %zu\n", length);
    } else {
        (void)printf("cells of the dump %d; further bytes of the file, which are no cells, %zu\n", FRAM_MOST_CELLS,
                     length - FRAM_MOST_CELLS);
    }
}

/* The last line: what was run, and the stored bits afterwards, or what the dump is. All lines must have been written. */
static enum status tell_end(enum run run, size_t memory_length, const fram_report *report)
{
    (void)printf("steps %" PRIu64 ", answer bytes %" PRIu64 ", ", report->steps, report->answer_bytes);
    if (run == RUN_DUMP) {
        tell_dump(memory_length);
    } else {
        tell_stored(report->stored);
    }
    if (fflush(stdout) != 0 || ferror(stdout) != 0) {
        (void)bad_file("write", "standard output");
        return STATUS_BAD_CALL;
    }
    return STATUS_RAN;
}

/* A run that was not refused: every step with its answer. All steps and all answer bytes must have been told at the end. */
static enum status tell_steps(enum run run, const struct buffer *script, const struct buffer *answers,
                              const fram_report *report)
{
    if (report->answer_bytes > answers->length) {
        return bad_report("more answer bytes than there is room for");
    }
    struct row steps = {.next = script->bytes, .left = script->length};
    struct row replies = {.next = answers->bytes, .left = (size_t)report->answer_bytes};
    uint64_t number = 0;
    while (steps.left > 0) {
        struct step step;
        struct answer answer;
        number++;
        if (!next_step(&steps, run, script->length - steps.left, &step)) {
            return bad_step(number, "no whole step of this run");
        }
        if (!next_answer(&replies, step.shape, &answer)) {
            return bad_step(number, "no whole answer to such a step");
        }
        tell_line(number, &step, &answer);
    }
    if (number != report->steps) {
        return bad_report("another count of steps");
    }
    if (replies.left > 0) {
        return bad_report("more answer bytes than the steps have");
    }
    return STATUS_RAN;
}

/* ---- the run ---- */

/* The chip run or the board run. */
typedef fram_report run_function(uint8_t t, uint8_t f, uint8_t drop, uint8_t sleep, uint8_t fast, uint8_t stored,
                                 uint8_t *memory, size_t memory_len, const uint8_t *script, size_t script_len,
                                 uint8_t *answers, size_t answers_len);

static fram_report run_script(const struct order *order, struct buffer *memory, const struct buffer *script,
                              struct buffer *answers)
{
    if (order->run == RUN_DUMP) {
        return fram_dump_run(memory->bytes, memory->length, script->bytes, script->length, answers->bytes, answers->length);
    }
    const struct chip *chip = &order->chip;
    run_function *run = order->run == RUN_CHIP ? fram_chip_run : fram_board_run;
    return run(chip->t, chip->f, chip->drop, chip->sleep, chip->fast, order->stored, memory->bytes, memory->length,
               script->bytes, script->length, answers->bytes, answers->length);
}

/* Carries out an order in these buffers, which are empty and are the caller's to free. The memory afterwards is written when
 * all else went well. */
static enum status carry_out(const struct order *order, struct buffer *memory, struct buffer *script,
                             struct buffer *answers)
{
    if (!read_file(order->memory_name, memory) || !read_script(order->script_name, script) ||
        !make_answers(script->length, answers)) {
        return STATUS_BAD_CALL;
    }
    fram_report report = run_script(order, memory, script, answers);
    if (report.refusal != 0) {
        return tell_refusal(order->run, script->length, &report);
    }
    enum status status = tell_steps(order->run, script, answers, &report);
    if (status == STATUS_RAN) {
        status = tell_end(order->run, memory->length, &report);
    }
    if (status == STATUS_RAN && order->after_name != NULL && !write_file(order->after_name, memory)) {
        return STATUS_BAD_CALL;
    }
    return status;
}

int main(int argc, char **argv)
{
    struct order order = {.run = RUN_CHIP};
    enum status status = parse_order(argc, argv, &order);
    if (status != STATUS_RAN) {
        return (int)status;
    }
    struct buffer memory = {.bytes = NULL};
    struct buffer script = {.bytes = NULL};
    struct buffer answers = {.bytes = NULL};
    status = carry_out(&order, &memory, &script, &answers);
    free(answers.bytes);
    free(script.bytes);
    free(memory.bytes);
    return (int)status;
}
