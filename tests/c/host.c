/* A host: takes a guest's program, copies it, checks it, and prints instances and the whole run as lists of gates; first with
 * the paper's adder, then with the Fourier transform, then with a multiplier, which hands on slices, then with one that takes
 * its adder as an argument, and two adders. After the check the guest changes its own bytes, and the lists stay what they are.
 * Run it from the repository's root; it compares the lists with those in examples. */
#include "answers.h"
#include "expect.h"
#include "load.h"
#include <metaqasm.h>
#include <string.h>

#define MOST_RECORDS 1024

/* What is asked: a family at sizes, or the whole run where the name is null; and the listing that is due, or null. */
typedef struct {
    const char *name;
    uint32_t family;
    uint8_t sizes[METAQASM_SIZE_BYTES];
    size_t sizes_len;
    uint64_t records;
    const char *listing;
} question;

/* The families of the adder: 0 toffoli, 1 maj, 2 add with the index variable n. */
static const question adder[] = {
    {"toffoli", 0, {0}, 0, 16, NULL},
    {"add at n = 0", 2, {0, 0, 0, 0}, 4, 18, "examples/adder.n0.list"},
    {"add at n = 1", 2, {1, 0, 0, 0}, 4, 55, "examples/adder.n1.list"},
    {NULL, 0, {0}, 0, 92, "examples/adder.list"},
};

/* The families of the Fourier transform: 0 qft, 1 unqft, 2 add and 3 sub with the index variable n. */
static const question fourier[] = {
    {"qft at n = 3", 0, {3, 0, 0, 0}, 4, 6, "examples/qft.n3.list"},
    {"unqft at n = 3", 1, {3, 0, 0, 0}, 4, 6, "examples/qft.unqft.n3.list"},
    {"sub at n = 2", 3, {2, 0, 0, 0}, 4, 9, "examples/qft.sub.n2.list"},
    {NULL, 0, {0}, 0, 15, "examples/qft.list"},
};

/* The families of the multiplier: 2 qft, 5 mult, 6 unmult and 7 mult_printed with the index variable n. */
static const question multiplier[] = {
    {"qft by slices at n = 3", 2, {3, 0, 0, 0}, 4, 6, NULL},
    {"mult at n = 0", 5, {0, 0, 0, 0}, 4, 0, "examples/multiplier.n0.list"},
    {"mult at n = 1", 5, {1, 0, 0, 0}, 4, 16, "examples/multiplier.n1.list"},
    {"mult at n = 2", 5, {2, 0, 0, 0}, 4, 74, "examples/multiplier.n2.list"},
    {"unmult at n = 1", 6, {1, 0, 0, 0}, 4, 16, "examples/multiplier.unmult.n1.list"},
    {"mult_printed at n = 2", 7, {2, 0, 0, 0}, 4, 42, "examples/multiplier.printed.n2.list"},
    {NULL, 0, {0}, 0, 86, "examples/multiplier.list"},
};

/* The families that pass an adder to the multiplier, with the index variable n: 9 mult_ripple, 10 mult_fourier,
 * 11 unmult_ripple and 12 unmult_fourier. */
static const question multiplier_of[] = {
    {"mult_ripple at n = 0", 9, {0, 0, 0, 0}, 4, 0, "examples/multiplier-of.ripple.n0.list"},
    {"mult_ripple at n = 1", 9, {1, 0, 0, 0}, 4, 82, "examples/multiplier-of.ripple.n1.list"},
    {"mult_ripple at n = 2", 9, {2, 0, 0, 0}, 4, 296, "examples/multiplier-of.ripple.n2.list"},
    {"mult_fourier at n = 1", 10, {1, 0, 0, 0}, 4, 16, "examples/multiplier-of.fourier.n1.list"},
    {"mult_fourier at n = 2", 10, {2, 0, 0, 0}, 4, 74, "examples/multiplier-of.fourier.n2.list"},
    {"unmult_ripple at n = 1", 11, {1, 0, 0, 0}, 4, 82, "examples/multiplier-of.unmult-ripple.n1.list"},
    {"unmult_fourier at n = 1", 12, {1, 0, 0, 0}, 4, 16, "examples/multiplier-of.unmult-fourier.n1.list"},
    {NULL, 0, {0}, 0, 382, "examples/multiplier-of.list"},
};

#define COUNT(list) (sizeof(list) / sizeof((list)[0]))

/* The two-byte number at a place, low byte first. */
static unsigned two(const uint8_t *bytes)
{
    return bytes[0] | (unsigned)bytes[1] << 8;
}

/* An operation's word in a list, whether it has a k, and whether it has a second number. */
typedef struct {
    const char *word;
    int has_k;
    int has_second;
} operation;

static const operation operations[] = {
    [METAQASM_OP_H] = {"h", 0, 0},
    [METAQASM_OP_T] = {"t", 0, 0},
    [METAQASM_OP_TDG] = {"tdg", 0, 0},
    [METAQASM_OP_CX] = {"cx", 0, 1},
    [METAQASM_OP_MEASURE] = {"measure", 0, 1},
    [METAQASM_OP_RESET] = {"reset", 0, 0},
    [METAQASM_OP_PHASE] = {"phase", 1, 0},
    [METAQASM_OP_PHASEDG] = {"phasedg", 1, 0},
    [METAQASM_OP_CPHASE] = {"cphase", 1, 1},
    [METAQASM_OP_CPHASEDG] = {"cphasedg", 1, 1},
};

/* Writes the line of one record. */
static int line(char *text, size_t room, const uint8_t *record)
{
    static const operation unknown = {"?", 0, 0};
    const operation *op = record[0] > 0 && record[0] < COUNT(operations) ? &operations[record[0]] : &unknown;
    char condition[32] = "", k[8] = "", second[8] = "";

    if (record[1] != METAQASM_ALWAYS) {
        snprintf(condition, sizeof condition, "if %u %d ", two(record + 6), record[1] - METAQASM_IF_0);
    }
    if (op->has_k) {
        snprintf(k, sizeof k, " %u", two(record + 8));
    }
    if (op->has_second) {
        snprintf(second, sizeof second, " %u", two(record + 4));
    }
    return snprintf(text, room, "%s%s%s %u%s\n", condition, op->word, k, two(record + 2), second);
}

/* Writes a line for each record, then the line of the result. */
static void list(char *text, size_t room, const uint8_t *output, metaqasm_result result)
{
    size_t used = 0;
    uint64_t i;

    for (i = 0; i < result.records && used < room; i++) {
        used += (size_t)line(text + used, room - used, output + METAQASM_RECORD_BYTES * i);
    }
    if (used < room) {
        snprintf(text + used, room - used, "end %u %u %llu %llu\n", result.number, result.place,
                 (unsigned long long)result.records, (unsigned long long)result.steps);
    }
}

/* Compares a list with the listing in a file, whose first line says how it was made. */
static void compare(const char *name, const char *path, const char *text)
{
    static uint8_t bytes[65536];
    long length = load(path, bytes, sizeof bytes - 1);
    const char *due;

    if (!expect(length >= 0 && (size_t)length < sizeof bytes, path, "a listing that can be read")) {
        return;
    }
    bytes[length] = 0;
    due = strchr((const char *)bytes, '\n');
    expect(due != NULL && strcmp(due + 1, text) == 0, name, path);
}

/* Asks one question, prints the list and compares it. */
static void answer(const question *asked, const uint8_t *program, size_t length)
{
    static uint8_t output[METAQASM_RECORD_BYTES * MOST_RECORDS];
    static char text[64 * MOST_RECORDS];
    const char *name = asked->name != NULL ? asked->name : "the whole run";
    metaqasm_result result;

    if (asked->name != NULL) {
        result = metaqasm_instance(program, length, asked->family, asked->sizes, asked->sizes_len, 1000000, output,
                                   sizeof output);
    } else {
        result = metaqasm_run(program, length, 1000000, output, sizeof output);
    }
    if (!expect(result.records <= MOST_RECORDS, name, "no more records than the output holds")) {
        return;
    }
    list(text, sizeof text, output, result);
    printf("%s: %s\n%s\n", name, metaqasm_message(result.number), text);
    expect(result.number == METAQASM_DONE && result.records == asked->records, name, "a complete list of known length");
    if (asked->listing != NULL) {
        compare(name, asked->listing, text);
    }
}

/* Whether all bytes are the same one. */
static int all(const uint8_t *bytes, size_t length, uint8_t byte)
{
    size_t i;

    for (i = 0; i < length; i++) {
        if (bytes[i] != byte) {
            return 0;
        }
    }
    return 1;
}

/* Asks for what cannot be had: no such family, no sizes, and an output that is too small. */
static void refusals(const uint8_t *program, size_t length)
{
    static const uint8_t zero[4] = {0};
    static const uint8_t first_two[][METAQASM_RECORD_BYTES] = {{METAQASM_OP_CX, 0, 0, 0, 2}, {METAQASM_OP_CX, 0, 1, 0, 2}};
    uint8_t output[sizeof first_two + 16];
    metaqasm_result result;

    memset(output, 0xA5, sizeof output);
    result = metaqasm_instance(program, length, 3, zero, 4, 1000000, output, sizeof output);
    expect(is(result, METAQASM_NO_SUCH_FAMILY, 0, 0, 0) && all(output, sizeof output, 0xA5), "family 3",
           "20 and an untouched output");
    result = metaqasm_instance(program, length, 2, zero, 0, 1000000, output, sizeof output);
    expect(is(result, METAQASM_WRONG_SIZES_LENGTH, 0, 0, 0) && all(output, sizeof output, 0xA5), "add without n",
           "21 and an untouched output");
    /* 30 bytes hold two records: both cx of add; the third is due at the h of toffoli, whose tag is at 14. */
    result = metaqasm_instance(program, length, 2, zero, 4, 1000000, output, 30);
    expect(is(result, METAQASM_OUTPUT_FULL, 14, 2, 4), "add into 30 bytes", "27 at place 14 with 2 records and 4 steps");
    expect(memcmp(output, first_two, sizeof first_two) == 0, "add into 30 bytes", "the first two records");
    expect(all(output + sizeof first_two, sizeof output - sizeof first_two, 0xA5), "add into 30 bytes",
           "untouched bytes past the records");
}

/* Asks for the multiplier without an adder: families 7 and 8, mult and unmult, take one. */
static void without_adder(const uint8_t *program, size_t length)
{
    static const uint8_t two_cells[METAQASM_SIZE_BYTES] = {2};
    uint8_t output[METAQASM_RECORD_BYTES];
    metaqasm_result result;
    uint32_t family;

    memset(output, 0xA5, sizeof output);
    for (family = 7; family <= 8; family++) {
        result = metaqasm_instance(program, length, family, two_cells, sizeof two_cells, 1000000, output, sizeof output);
        expect(is(result, METAQASM_HAS_FAMILY_PARAMETER, 0, 0, 0) && all(output, sizeof output, 0xA5), "no adder",
               "34 and an untouched output");
    }
}

/* A guest's bytes, which the guest may change at any time, and the host's own copy of them. */
typedef struct {
    uint8_t guests[METAQASM_MOST_PROGRAM_BYTES + 1];
    uint8_t own[METAQASM_MOST_PROGRAM_BYTES + 1];
    size_t length;
} arrival;

/* Takes a guest's bytes: they are copied, and only the copy is handed to the library. */
static int take(arrival *program, const char *path)
{
    long length = load(path, program->guests, sizeof program->guests);

    if (!expect(length >= 0 && (size_t)length <= sizeof program->guests, path, "a program that can be read")) {
        return 0;
    }
    program->length = (size_t)length;
    memcpy(program->own, program->guests, program->length);
    return 1;
}

/* What a guest may do after the check: fields that end past the program's end. */
static void guest_changes(arrival *program)
{
    memset(program->guests, 0xFF, program->length);
}

/* Serves a guest: takes the program, checks it, and answers the questions; the answer is 0 for one that is not accepted. */
static int serve(arrival *program, const char *path, const question *questions, size_t count)
{
    metaqasm_result result;
    size_t i;

    if (!take(program, path)) {
        return 0;
    }
    result = metaqasm_check(program->own, program->length);
    printf("%s: the check: %s\n\n", path, metaqasm_message(result.number));
    if (!expect(is(result, METAQASM_DONE, 0, 0, 0), path, "a program that is accepted")) {
        return 0;
    }
    guest_changes(program);
    for (i = 0; i < count; i++) {
        answer(&questions[i], program->own, program->length);
    }
    return 1;
}

int main(void)
{
    static arrival program;

    if (serve(&program, "examples/adder.bytes", adder, COUNT(adder))) {
        refusals(program.own, program.length);
    }
    serve(&program, "examples/qft.bytes", fourier, COUNT(fourier));
    serve(&program, "examples/multiplier.bytes", multiplier, COUNT(multiplier));
    if (serve(&program, "examples/multiplier-of.bytes", multiplier_of, COUNT(multiplier_of))) {
        without_adder(program.own, program.length);
    }
    return closed();
}
