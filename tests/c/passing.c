/* Families as arguments: what a parameter's call lists with one family passed and with another, forward and reversed, in a loop
 * and under a condition; what the check says of passed families, family types and such calls, and where; and an instance of a
 * family that takes a family. */
#include "answers.h"
#include "build.h"
#include "expect.h"
#include "tags.h"
#include <metaqasm.h>

#define LIMIT 1000
#define MARK 0xA5
#define CELLS 3 /* of the register at the top */
#define MOST_RECORDS 16

#define COUNT(list) (sizeof(list) / sizeof((list)[0]))

/* The families that are built, and how many there are. */
enum { TURN, EACH, LAST_CELL, WIDE, ON, WITH_EACH, WITH_LAST, FAMILIES };

/* The parameters of on: two that take a family, and a register. */
enum { FOR_CELLS, FOR_ONE, CELLS_OF_ON };

#define ZERO 64, 2, 0, 0, 0
#define N 65, 1, 0, 0 /* the family's index variable */
#define N_PLUS(number) SUM, 9, 0, N, 64, 2, 0, number, 0

/* Puts the bytes that are named. */
#define PUT(...) put((const uint8_t[]){__VA_ARGS__}, sizeof((const uint8_t[]){__VA_ARGS__}))

/* Puts turn: a: Qbit, and t on a. */
static void put_turn(void)
{
    size_t family = begin(FAMILY);

    PUT(0, 1, QBIT, 0, 0, T, 4, 0, WHOLE, 1, 0, 0);
    finish(family);
}

/* Puts each: x: Qbit[n], and h on x[i] for i = 0..n-1. */
static void put_each(void)
{
    size_t family = begin(FAMILY);

    PUT(1, 1, QBITS, 4, 0, N, FOR, 28, 0, ZERO, DIFFERENCE, 9, 0, N, 64, 2, 0, 1, 0);
    PUT(H, 8, 0, ELEMENT, 5, 0, 0, 65, 1, 0, 1);
    finish(family);
}

/* Puts last_cell: x: Qbit[n+1], and h on x[n]. */
static void put_last_cell(void)
{
    size_t family = begin(FAMILY);

    PUT(1, 1, QBITS, 12, 0, N_PLUS(1), H, 8, 0, ELEMENT, 5, 0, 0, N);
    finish(family);
}

/* Puts wide: x: Qbit[n+2]. */
static void put_wide(void)
{
    size_t family = begin(FAMILY);

    PUT(1, 1, QBITS, 12, 0, N_PLUS(2));
    finish(family);
}

/* Puts on: f: family(m)(Qbit[m+1]), g: family()(Qbit), x: Qbit[n+1]; f(n) on x, g on x[0], and reversed g on x[n]. */
static void put_on(void)
{
    size_t family = begin(FAMILY);

    PUT(1, 3, FAMILY_TYPE, 17, 0, 1, 1, QBITS, 12, 0, N_PLUS(1), FAMILY_TYPE, 5, 0, 0, 1, QBIT, 0, 0, QBITS, 12, 0, N_PLUS(1));
    PUT(PARAMETER_CALL, 9, 0, FOR_CELLS, N, WHOLE, 1, 0, CELLS_OF_ON);
    PUT(PARAMETER_CALL, 10, 0, FOR_ONE, ELEMENT, 6, 0, CELLS_OF_ON, ZERO);
    PUT(REVERSE, 12, 0, PARAMETER_CALL, 9, 0, FOR_ONE, ELEMENT, 5, 0, CELLS_OF_ON, N);
    finish(family);
}

/* Puts a call of on, with an index as its size, a family and turn passed, and the whole of an operand; the answer is where the
 * family is passed. */
static size_t put_call(const uint8_t *size, size_t length, unsigned passed, unsigned operand)
{
    size_t call = begin(CALL), place;

    put_byte(ON);
    put(size, length);
    place = begin(PASSED);
    put_two(passed);
    finish(place);
    PUT(PASSED, 2, 0, TURN, 0, WHOLE, 1, 0, (uint8_t)operand);
    finish(call);
    return place;
}

/* Puts a family of x: Qbit[n+1] that calls on about x with a family passed, forward or reversed. */
static void put_with(unsigned passed, int reversed)
{
    static const uint8_t n[] = {N};
    size_t family = begin(FAMILY), reversal = 0;

    PUT(1, 1, QBITS, 12, 0, N_PLUS(1));
    if (reversed) {
        reversal = begin(REVERSE);
    }
    put_call(n, sizeof n, passed, 0);
    if (reversed) {
        finish(reversal);
    }
    finish(family);
}

/* Begins a program anew with all families, a qreg and a creg; the answer is where the next field will be. */
static size_t begin_program(void)
{
    built.length = 0;
    put_turn();
    put_each();
    put_last_cell();
    put_wide();
    put_on();
    put_with(EACH, 0);
    put_with(LAST_CELL, 1);
    PUT(QREG, 2, 0, CELLS, 0, CREG, 2, 0, 1, 0);
    return built.length;
}

/* A record of an operation on a wire, with a condition on bit 0. */
typedef struct {
    uint8_t op;
    uint8_t wire;
    uint8_t condition;
} gate;

/* Whether an output holds these records, and the byte past them is as it was. */
static int holds(const uint8_t *output, const gate *gates, size_t count)
{
    size_t i;

    for (i = 0; i < count; i++) {
        const uint8_t due[METAQASM_RECORD_BYTES] = {gates[i].op, gates[i].condition, gates[i].wire};

        if (memcmp(output + METAQASM_RECORD_BYTES * i, due, sizeof due) != 0) {
            return 0;
        }
    }
    return output[METAQASM_RECORD_BYTES * count] == MARK;
}

/* Lists a family at a size. */
static metaqasm_result listed(uint32_t family, uint32_t n, uint8_t *output, size_t length)
{
    const uint8_t sizes[METAQASM_SIZE_BYTES] = {(uint8_t)n, (uint8_t)(n >> 8), (uint8_t)(n >> 16)};

    return metaqasm_instance(built.bytes, built.length, family, sizes, sizeof sizes, LIMIT, output, length);
}

/* The families that pass one: h on each of n cells, t on the first and tdg on the last; and backward t on the last, tdg on the
 * first and h on the last. */
static void instances(void)
{
    uint8_t output[METAQASM_RECORD_BYTES * MOST_RECORDS];
    gate gates[MOST_RECORDS];
    uint8_t n, i;

    begin_program();
    expect(is(metaqasm_check(built.bytes, built.length), METAQASM_DONE, 0, 0, 0), "passed families", "to be accepted");
    for (n = 0; n <= 4; n++) {
        for (i = 0; i < n; i++) {
            gates[i] = (gate){METAQASM_OP_H, i, METAQASM_ALWAYS};
        }
        gates[n] = (gate){METAQASM_OP_T, 0, METAQASM_ALWAYS};
        gates[n + 1] = (gate){METAQASM_OP_TDG, n, METAQASM_ALWAYS};
        memset(output, MARK, sizeof output);
        expect(is(listed(WITH_EACH, n, output, sizeof output), METAQASM_DONE, 0, n + 2u, 8 + 2u * n) &&
                   holds(output, gates, n + 2u),
               "each passed", "h on n cells, t on the first and tdg on the last");
        gates[0] = (gate){METAQASM_OP_T, n, METAQASM_ALWAYS};
        gates[1] = (gate){METAQASM_OP_TDG, 0, METAQASM_ALWAYS};
        gates[2] = (gate){METAQASM_OP_H, n, METAQASM_ALWAYS};
        memset(output, MARK, sizeof output);
        expect(is(listed(WITH_LAST, n, output, sizeof output), METAQASM_DONE, 0, 3, 9) && holds(output, gates, 3),
               "last_cell passed, reversed", "t on the last, tdg on the first, h on the last");
    }
}

/* A whole run: a loop whose variable is the size, and a condition. */
static void runs(void)
{
    static const gate due[] = {
        {METAQASM_OP_H, 0, METAQASM_ALWAYS}, {METAQASM_OP_T, 0, METAQASM_ALWAYS}, {METAQASM_OP_TDG, 0, METAQASM_ALWAYS},
        {METAQASM_OP_H, 1, METAQASM_ALWAYS}, {METAQASM_OP_T, 0, METAQASM_ALWAYS}, {METAQASM_OP_TDG, 1, METAQASM_ALWAYS},
        {METAQASM_OP_H, 0, METAQASM_IF_1},   {METAQASM_OP_T, 0, METAQASM_IF_1},   {METAQASM_OP_TDG, 1, METAQASM_IF_1},
    };
    static const uint8_t variable[] = {65, 1, 0, 0}, one[] = {64, 2, 0, 1, 0};
    uint8_t output[METAQASM_RECORD_BYTES * MOST_RECORDS];
    size_t loop, condition;

    begin_program();
    loop = begin(FOR);
    PUT(ZERO, 64, 2, 0, 1, 0);
    put_call(variable, sizeof variable, LAST_CELL, 0);
    finish(loop);
    condition = begin(IF);
    PUT(1, ELEMENT, 6, 0, 1, ZERO);
    put_call(one, sizeof one, EACH, 0);
    finish(condition);
    memset(output, MARK, sizeof output);
    expect(is(metaqasm_run(built.bytes, built.length, LIMIT, output, sizeof output), METAQASM_DONE, 0, COUNT(due), 30) &&
               holds(output, due, COUNT(due)),
           "families passed in a loop and under a condition", "nine records in 30 steps");
    expect(is(metaqasm_run(built.bytes, built.length, 2, output, sizeof output), METAQASM_OUT_OF_STEPS,
              (uint32_t)(loop + 3 + 5 + 5), 0, 2),
           "two steps for a loop and a round", "26 at the call");
}

/* What is built is refused with one number at one place, by every call, and the output stays as it was. */
static void refused(const char *name, uint32_t number, size_t place)
{
    uint8_t output[METAQASM_RECORD_BYTES] = {MARK};
    metaqasm_result result = metaqasm_check(built.bytes, built.length);

    if (!expect(is(result, number, (uint32_t)place, 0, 0), name, metaqasm_message(number))) {
        printf("    at %zu, got %u at %u\n", place, result.number, result.place);
    }
    expect(is(metaqasm_run(built.bytes, built.length, LIMIT, output, sizeof output), number, (uint32_t)place, 0, 0) &&
               is(listed(EACH, 1, output, sizeof output), number, (uint32_t)place, 0, 0) &&
               is(listed(ON, 1, output, sizeof output), number, (uint32_t)place, 0, 0) && output[0] == MARK,
           name, "the check's answer from every call, and an untouched output");
}

/* Each family that there is and some that are not, passed to on for f: what it is answered with. */
static void each_family(void)
{
    static const uint8_t zero[] = {ZERO};
    static const uint32_t due[] = {METAQASM_WRONG_KIND, METAQASM_DONE,           METAQASM_DONE,           METAQASM_NOT_SHOWN,
                                   METAQASM_PASSED_TOO_LATE, METAQASM_PASSED_TOO_LATE, METAQASM_PASSED_TOO_LATE};
    static const unsigned others[] = {FAMILIES, 255, 256, 256 + EACH, 65535};
    unsigned family;
    size_t i, place;

    for (family = 0; family < FAMILIES; family++) {
        begin_program();
        place = put_call(zero, sizeof zero, family, 0);
        if (due[family] == METAQASM_DONE) {
            expect(is(metaqasm_check(built.bytes, built.length), METAQASM_DONE, 0, 0, 0), "a family passed", "to be accepted");
        } else {
            refused("a family passed", due[family], place);
        }
    }
    for (i = 0; i < COUNT(others); i++) {
        begin_program();
        refused("a family that is not there", METAQASM_NOT_IN_SCOPE, put_call(zero, sizeof zero, others[i], 0));
    }
}

/* Fields behind the families and registers. */
static const refusal refusals[] = {
    {"a family passed for a size", {CALL, 6, 0, EACH, PASSED, 2, 0, TURN, 0}, 9, METAQASM_BAD_TAG, 4},
    {"a family passed for a register", {CALL, 11, 0, EACH, ZERO, PASSED, 2, 0, TURN, 0}, 14, METAQASM_WRONG_KIND, 9},
    {"a family passed to itself for a wire", {CALL, 6, 0, TURN, PASSED, 2, 0, TURN, 0}, 9, METAQASM_PASSED_TOO_LATE, 4},
    {"a later family for a wire", {CALL, 6, 0, TURN, PASSED, 2, 0, EACH, 0}, 9, METAQASM_PASSED_TOO_LATE, 4},
    {"a later family and a byte", {CALL, 7, 0, TURN, PASSED, 3, 0, EACH, 0, 0}, 10, METAQASM_PASSED_TOO_LATE, 4},
    {"no family and a byte", {CALL, 7, 0, TURN, PASSED, 3, 0, FAMILIES, 0, 0}, 10, METAQASM_NOT_IN_SCOPE, 4},
    {"an earlier family and a byte", {CALL, 12, 0, EACH, ZERO, PASSED, 3, 0, TURN, 0, 0}, 15, METAQASM_BAD_CONTENT, 9},
    {"no number", {CALL, 4, 0, TURN, PASSED, 0, 0}, 7, METAQASM_BAD_CONTENT, 4},
    {"half a number", {CALL, 5, 0, TURN, PASSED, 1, 0, FAMILIES}, 8, METAQASM_BAD_CONTENT, 4},
    {"a family as a wire", {H, 5, 0, PASSED, 2, 0, ON, 0}, 8, METAQASM_WRONG_KIND, 3},
    {"no family as a wire", {H, 5, 0, PASSED, 2, 0, FAMILIES, 0}, 8, METAQASM_NOT_IN_SCOPE, 3},
    {"a family and a byte as a wire", {H, 6, 0, PASSED, 3, 0, ON, 0, 0}, 9, METAQASM_BAD_CONTENT, 3},
    {"a register where a family is due", {CALL, 10, 0, ON, ZERO, WHOLE, 1, 0, 0}, 13, METAQASM_WRONG_KIND, 9},
    {"a wire where a family is due", {CALL, 15, 0, ON, ZERO, ELEMENT, 6, 0, 0, ZERO}, 18, METAQASM_WRONG_KIND, 9},
    {"operand tag 52", {CALL, 4, 0, TURN, PASSED + 1, 0, 0}, 7, METAQASM_BAD_TAG, 4},
    {"a parameter's call without its number", {PARAMETER_CALL, 0, 0}, 3, METAQASM_BAD_CONTENT, 0},
    {"a parameter's call of the qreg", {PARAMETER_CALL, 1, 0, 0}, 4, METAQASM_WRONG_KIND, 0},
    {"a parameter's call of register 2 of two", {PARAMETER_CALL, 1, 0, 2}, 4, METAQASM_NOT_IN_SCOPE, 0},
    {"statement tag 43", {PARAMETER_CALL + 1, 0, 0}, 3, METAQASM_BAD_TAG, 0},
};

/* Each of these. */
static void each_refusal(void)
{
    size_t i, place;

    for (i = 0; i < COUNT(refusals); i++) {
        place = begin_program() + refusals[i].within;
        put(refusals[i].bytes, refusals[i].length);
        refused(refusals[i].name, refusals[i].number, place);
    }
}

/* The start of a family of no index variables: f: family(m)(Qbit[m]), x: Qbit[3]. */
#define INSIDE(length) FAMILY, length, 0, 0, 2, FAMILY_TYPE, 9, 0, 1, 1, QBITS, 4, 0, N, QBITS, 5, 0, 64, 2, 0, 3, 0

static const refusal in_bodies[] = {
    {"a call of x", {INSIDE(26), PARAMETER_CALL, 1, 0, 1}, 29, METAQASM_WRONG_KIND, 25},
    {"a call of parameter 2 of two", {INSIDE(26), PARAMETER_CALL, 1, 0, 2}, 29, METAQASM_NOT_IN_SCOPE, 25},
    {"no size", {INSIDE(26), PARAMETER_CALL, 1, 0, 0}, 29, METAQASM_BAD_CONTENT, 25},
    {"an operand for a size", {INSIDE(30), PARAMETER_CALL, 5, 0, 0, WHOLE, 1, 0, 1}, 33, METAQASM_BAD_TAG, 29},
    {"no operand", {INSIDE(31), PARAMETER_CALL, 6, 0, 0, ZERO}, 34, METAQASM_BAD_CONTENT, 25},
    {"4 cells of 3", {INSIDE(35), PARAMETER_CALL, 10, 0, 0, 64, 2, 0, 4, 0, WHOLE, 1, 0, 1}, 38, METAQASM_NOT_SHOWN, 34},
    {"a byte behind it", {INSIDE(36), PARAMETER_CALL, 11, 0, 0, ZERO, WHOLE, 1, 0, 1, 0}, 39, METAQASM_BAD_CONTENT, 25},
    {"a family passed on", {INSIDE(36), PARAMETER_CALL, 11, 0, 0, ZERO, PASSED, 2, 0, ON, 0}, 39, METAQASM_WRONG_KIND, 34},
    {"f handed to itself", {INSIDE(35), PARAMETER_CALL, 10, 0, 0, ZERO, WHOLE, 1, 0, 0}, 38, METAQASM_WRONG_KIND, 34},
    {"f handed on", {INSIDE(35), CALL, 10, 0, ON, ZERO, WHOLE, 1, 0, 0}, 38, METAQASM_WRONG_KIND, 34},
    {"an element of f", {INSIDE(34), H, 9, 0, ELEMENT, 6, 0, 0, ZERO}, 37, METAQASM_WRONG_KIND, 28},
    {"the family itself, in its body", {INSIDE(30), H, 5, 0, PASSED, 2, 0, FAMILIES, 0}, 33, METAQASM_NOT_IN_SCOPE, 28},
};

static const refusal types[] = {
    {"a type without m", {FAMILY, 5, 0, 0, 1, FAMILY_TYPE, 0, 0}, 8, METAQASM_BAD_CONTENT, 5},
    {"m = 5", {FAMILY, 6, 0, 0, 1, FAMILY_TYPE, 1, 0, 5}, 9, METAQASM_TOO_MANY, 5},
    {"a type without p", {FAMILY, 6, 0, 0, 1, FAMILY_TYPE, 1, 0, 4}, 9, METAQASM_BAD_CONTENT, 5},
    {"p = 0", {FAMILY, 7, 0, 0, 1, FAMILY_TYPE, 2, 0, 0, 0}, 10, METAQASM_TOO_MANY, 5},
    {"p = 9", {FAMILY, 7, 0, 0, 1, FAMILY_TYPE, 2, 0, 0, 9}, 10, METAQASM_TOO_MANY, 5},
    {"no inner type", {FAMILY, 7, 0, 0, 1, FAMILY_TYPE, 2, 0, 0, 8}, 10, METAQASM_BAD_CONTENT, 5},
    {"two bytes of an inner type", {FAMILY, 9, 0, 0, 1, FAMILY_TYPE, 4, 0, 0, 1, QBIT, 0}, 12, METAQASM_BAD_HEADER, 10},
    {"a family type in one", {FAMILY, 10, 0, 0, 1, FAMILY_TYPE, 5, 0, 0, 1, FAMILY_TYPE, 0, 0}, 13, METAQASM_BAD_TAG, 10},
    {"an inner Qbit with a byte", {FAMILY, 11, 0, 0, 1, FAMILY_TYPE, 6, 0, 0, 1, QBIT, 1, 0, 0}, 14, METAQASM_BAD_CONTENT, 10},
    {"the family's n in a type", {FAMILY, 14, 0, 1, 1, FAMILY_TYPE, 9, 0, 0, 1, QBITS, 4, 0, N}, 17, METAQASM_NOT_IN_SCOPE, 13},
    {"a byte behind the types", {FAMILY, 11, 0, 0, 1, FAMILY_TYPE, 6, 0, 0, 1, QBIT, 0, 0, 0}, 14, METAQASM_BAD_CONTENT, 5},
    {"type tag 19", {FAMILY, 5, 0, 0, 1, FAMILY_TYPE + 1, 0, 0}, 8, METAQASM_BAD_TAG, 5},
};

/* Bodies of a family that takes one, and family types, behind all families. */
static void in_families(void)
{
    size_t i, place;

    for (i = 0; i < COUNT(in_bodies); i++) {
        place = begin_program() + in_bodies[i].within;
        put(in_bodies[i].bytes, in_bodies[i].length);
        refused(in_bodies[i].name, in_bodies[i].number, place);
    }
    for (i = 0; i < COUNT(types); i++) {
        place = begin_program() + types[i].within;
        put(types[i].bytes, types[i].length);
        refused(types[i].name, types[i].number, place);
    }
}

/* A size of a family type that may be below 0: family(m)(Qbit, Qbit[m-1]). */
static void size_below_zero(void)
{
    size_t place = begin_program();

    PUT(FAMILY, 25, 0, 0, 1, FAMILY_TYPE, 20, 0, 1, 2, QBIT, 0, 0, QBITS, 12, 0, DIFFERENCE, 9, 0, N, 64, 2, 0, 1, 0);
    refused("Qbit[m-1] in a type", METAQASM_NOT_SHOWN, place + 13);
}

/* Asks for a family with sizes of some length, and a text: each call must answer so, and write nothing. */
static void answered(uint32_t family, const uint8_t *sizes, size_t length, uint32_t number, const char *name)
{
    uint8_t output[METAQASM_RECORD_BYTES] = {MARK}, text[128] = {MARK};
    metaqasm_result result =
        metaqasm_instance(built.bytes, built.length, family, sizes, length, LIMIT, output, sizeof output);
    metaqasm_text_result printed = metaqasm_instance_text(built.bytes, built.length, family, sizes, length, LIMIT, output,
                                                          sizeof output, text, sizeof text);

    if (!expect(is(result, number, 0, 0, 0) && output[0] == MARK, name, metaqasm_message(number))) {
        printf("    got %u at %u\n", result.number, result.place);
    }
    expect(printed.number == number && printed.place == 0 && printed.records == 0 && printed.steps == 0 &&
               printed.length == 0 && text[0] == MARK,
           name, "the same from the call that prints, and an untouched text");
}

/* An instance of on, which takes families: 34 with any sizes, after 20 and before 21 and 22. */
static void without_families(void)
{
    static const uint8_t two[2 * METAQASM_SIZE_BYTES] = {2};
    static const uint8_t large[METAQASM_SIZE_BYTES] = {0, 0, 1, 0};
    size_t length;

    begin_program();
    for (length = 0; length <= sizeof two; length++) {
        answered(ON, two, length, METAQASM_HAS_FAMILY_PARAMETER, "on");
    }
    answered(ON, NULL, 0, METAQASM_HAS_FAMILY_PARAMETER, "on, without sizes");
    answered(ON, large, sizeof large, METAQASM_HAS_FAMILY_PARAMETER, "on, with a size above 65,535");
    answered(FAMILIES, two, 0, METAQASM_NO_SUCH_FAMILY, "a family that is not there");
    answered(WITH_EACH, two, 0, METAQASM_WRONG_SIZES_LENGTH, "with_each, without sizes");
    answered(WITH_EACH, large, sizeof large, METAQASM_SIZE_TOO_LARGE, "with_each, with a size above 65,535");
}

/* Puts a family of one wire with one gate on it. */
static void put_one(unsigned tag)
{
    size_t family = begin(FAMILY);

    PUT(0, 1, QBIT, 0, 0, (uint8_t)tag, 4, 0, WHOLE, 1, 0, 0);
    finish(family);
}

/* Families from 256 on are passed by the same two bytes: h is family 1, t is family 257, and 258 calls what it is passed. */
static void two_bytes(void)
{
    static const gate due[] = {{METAQASM_OP_H, 0, METAQASM_ALWAYS}, {METAQASM_OP_T, 0, METAQASM_ALWAYS}};
    uint8_t output[METAQASM_RECORD_BYTES * 3];
    unsigned i;

    built.length = 0;
    for (i = 0; i < 258; i++) {
        put_one(i == 257 ? T : H);
    }
    PUT(FAMILY, 21, 0, 0, 2, FAMILY_TYPE, 5, 0, 0, 1, QBIT, 0, 0, QBIT, 0, 0, PARAMETER_CALL, 5, 0, 0, WHOLE, 1, 0, 1);
    PUT(QREG, 2, 0, 1, 0);
    PUT(LONG_CALL, 16, 0, 2, 1, PASSED, 2, 0, 1, 0, ELEMENT, 6, 0, 0, ZERO);
    PUT(LONG_CALL, 16, 0, 2, 1, PASSED, 2, 0, 1, 1, ELEMENT, 6, 0, 0, ZERO);
    memset(output, MARK, sizeof output);
    expect(is(metaqasm_run(built.bytes, built.length, LIMIT, output, sizeof output), METAQASM_DONE, 0, COUNT(due), 6) &&
               holds(output, due, COUNT(due)),
           "families 1 and 257 passed", "h and t");
    i = (unsigned)built.length;
    PUT(LONG_CALL, 16, 0, 2, 1, PASSED, 2, 0, 2, 1, ELEMENT, 6, 0, 0, ZERO);
    refused("family 258 passed to itself", METAQASM_PASSED_TOO_LATE, i + 5);
}

int main(void)
{
    instances();
    runs();
    each_family();
    each_refusal();
    in_families();
    size_below_zero();
    without_families();
    two_bytes();
    return closed();
}
