/* Slices as arguments: every slice of a register, with the cells that it stands for; slices with a loop variable, and slices of
 * slices, in instances at several sizes, forward and reversed; and what the check says of a slice, and where. */
#include "answers.h"
#include "build.h"
#include "expect.h"
#include "tags.h"
#include <metaqasm.h>

#define LIMIT 1000
#define MARK 0xA5
#define MOST_RECORDS 64
#define CELLS 4 /* of the register at the top */

#define COUNT(list) (sizeof(list) / sizeof((list)[0]))

/* The families that are built, and one that a test puts behind them. */
enum { EACH, INNER, SHIFTED, STEEP };

/* Puts a number as an index: a literal, or below 0 the difference of two. */
static void put_number(int number)
{
    if (number < 0) {
        put((const uint8_t[]){DIFFERENCE, 10, 0, 64, 2, 0, 0, 0}, 8);
    }
    put((const uint8_t[]){64, 2, 0}, 3);
    put_two((unsigned)(number < 0 ? -number : number));
}

/* Puts an index variable. */
static void put_variable(unsigned number)
{
    put((const uint8_t[]){65, 1, 0, (uint8_t)number}, 4);
}

/* Puts an index variable plus or minus a number. */
static void put_shifted(unsigned tag, unsigned variable, int number)
{
    size_t index = begin(tag);

    put_variable(variable);
    put_number(number);
    finish(index);
}

/* Puts the start of a family with index variable n and one parameter; its type is put next. */
static size_t begin_family(void)
{
    size_t family = begin(1);

    put((const uint8_t[]){1, 1}, 2);
    return family;
}

/* Puts each: x: Qbit[n], and h on x[i] for i = 0..n-1. */
static void put_each(void)
{
    size_t family = begin_family(), type = begin(17), loop;

    put_variable(0);
    finish(type);
    loop = begin(FOR);
    put_number(0);
    put_shifted(DIFFERENCE, 0, 1);
    put((const uint8_t[]){H, 8, 0, ELEMENT, 5, 0, 0}, 7);
    put_variable(1);
    finish(loop);
    finish(family);
}

/* Puts inner: x: Qbit[n+2], and each(n) on x[1..n], then on x[n+2..n+1] with size 0. */
static void put_inner(void)
{
    size_t family = begin_family(), type = begin(17), call, slice;

    put_shifted(SUM, 0, 2);
    finish(type);
    call = begin(CALL);
    put_byte(EACH);
    put_variable(0);
    slice = begin(SLICE);
    put_byte(0);
    put_number(1);
    put_variable(0);
    finish(slice);
    finish(call);
    call = begin(CALL);
    put_byte(EACH);
    put_number(0);
    slice = begin(SLICE);
    put_byte(0);
    put_shifted(SUM, 0, 2);
    put_shifted(SUM, 0, 1);
    finish(slice);
    finish(call);
    finish(family);
}

/* Puts the slice z[i..i+n+1] as the operand of inner, which takes n + 2 cells. */
static void put_moving_slice(void)
{
    size_t slice = begin(SLICE), last;

    put_byte(0);
    put_variable(1);
    last = begin(SUM);
    put_variable(1);
    put_shifted(SUM, 0, 1);
    finish(last);
    finish(slice);
}

/* Puts shifted: z: Qbit[2*n+2], and inner(n) on z[i..i+n+1] for i = 0..n, so that each gets z[i+1..i+n]. */
static void put_shifted_family(void)
{
    size_t family = begin_family(), type = begin(17), index = begin(SUM), loop, call;

    put((const uint8_t[]){PRODUCT, 9, 0, 64, 2, 0, 2, 0}, 8);
    put_variable(0);
    put_number(2);
    finish(index);
    finish(type);
    loop = begin(FOR);
    put_number(0);
    put_variable(0);
    call = begin(CALL);
    put_byte(INNER);
    put_variable(0);
    put_moving_slice();
    finish(call);
    finish(loop);
    finish(family);
}

/* Begins a program anew with the three families and a qreg; the answer is where the next field will be. */
static size_t begin_program(void)
{
    built.length = 0;
    put_each();
    put_inner();
    put_shifted_family();
    put((const uint8_t[]){QREG, 2, 0, CELLS, 0}, 5);
    return built.length;
}

/* Puts a call of each with a size, about a slice of the qreg; the answer is where the slice is. */
static size_t put_call(int size, int first, int last)
{
    size_t call = begin(CALL), slice;

    put_byte(EACH);
    put_number(size);
    slice = begin(SLICE);
    put_byte(0);
    put_number(first);
    put_number(last);
    finish(slice);
    finish(call);
    return slice;
}

/* Whether records are h on so many wires from one on. */
static int are_h(const uint8_t *records, unsigned first, unsigned count)
{
    unsigned i;

    for (i = 0; i < count; i++) {
        if (!is_h(records + METAQASM_RECORD_BYTES * i, first + i)) {
            return 0;
        }
    }
    return 1;
}

/* Runs what is built. */
static metaqasm_result run(uint8_t *output, size_t length)
{
    return metaqasm_run(built.bytes, built.length, LIMIT, output, length);
}

/* What is built is refused with one number at one place, by every call, and the output stays as it was. */
static void refused(const char *name, uint32_t number, size_t place)
{
    static const uint8_t size[METAQASM_SIZE_BYTES] = {1};
    uint8_t output[METAQASM_RECORD_BYTES] = {MARK};
    metaqasm_result result = metaqasm_check(built.bytes, built.length);

    if (!expect(is(result, number, place, 0, 0), name, metaqasm_message(number))) {
        printf("    at %zu, got %u at %u\n", place, result.number, result.place);
    }
    expect(is(run(output, sizeof output), number, place, 0, 0) &&
               is(metaqasm_instance(built.bytes, built.length, EACH, size, sizeof size, LIMIT, output, sizeof output), number,
                  place, 0, 0) &&
               output[0] == MARK,
           name, "the check's answer from every call, and an untouched output");
}

/* A slice of the register that is within it: the run has h on each of its cells, and one byte past the records stays. */
static void within(int first, int last)
{
    uint8_t output[METAQASM_RECORD_BYTES * CELLS + 1];
    unsigned count = (unsigned)(last - first + 1);

    begin_program();
    put_call((int)count, first, last);
    memset(output, MARK, sizeof output);
    expect(is(metaqasm_check(built.bytes, built.length), METAQASM_DONE, 0, 0, 0), "a slice", "to be accepted");
    expect(is(run(output, sizeof output), METAQASM_DONE, 0, count, 2 + 2 * count) && are_h(output, (unsigned)first, count) &&
               output[METAQASM_RECORD_BYTES * count] == MARK,
           "a slice", "h on its cells, from the first to the last");
    begin_program();
    refused("a slice that is too small", METAQASM_NOT_SHOWN, put_call((int)count + 1, first, last));
}

/* Every slice that starts and ends from one cell before the register to one past it, or is one cell short of empty. */
static void every_slice(void)
{
    int first, last, accepted = 0;

    for (first = -1; first <= CELLS + 1; first++) {
        for (last = -2; last <= CELLS + 1; last++) {
            if (first >= 0 && last < CELLS && last - first + 1 >= 0) {
                within(first, last);
                accepted++;
            } else {
                begin_program();
                refused("a slice that is not within the register", METAQASM_NOT_SHOWN, put_call(0, first, last));
            }
        }
    }
    expect(accepted == (CELLS + 1) * (CELLS + 2) / 2, "the slices of 4 cells", "15, of which 5 are empty");
}

/* Lists a family at a size. */
static metaqasm_result listed(uint32_t family, unsigned n, uint8_t *output, size_t length)
{
    const uint8_t sizes[METAQASM_SIZE_BYTES] = {(uint8_t)n, (uint8_t)(n >> 8)};

    return metaqasm_instance(built.bytes, built.length, family, sizes, sizeof sizes, LIMIT, output, length);
}

/* Slices of parameters, with a loop variable, and slices of slices: shifted has h on wires i + 1 to i + n for i = 0..n. */
static void instances(void)
{
    static const unsigned sizes[] = {0, 1, 2, 3, 6};
    uint8_t output[METAQASM_RECORD_BYTES * MOST_RECORDS];
    size_t i;

    begin_program();
    for (i = 0; i < COUNT(sizes); i++) {
        const unsigned n = sizes[i];
        metaqasm_result result = listed(INNER, n, output, sizeof output);
        unsigned round;

        expect(is(result, METAQASM_DONE, 0, n, 4 + 2 * n) && are_h(output, 1, n), "inner", "h on wires 1 to n");
        result = listed(SHIFTED, n, output, sizeof output);
        expect(is(result, METAQASM_DONE, 0, (n + 1) * n, 1 + (n + 1) * (6 + 2 * n)), "shifted", "n + 1 rounds of n records");
        for (round = 0; round <= n; round++) {
            expect(are_h(output + METAQASM_RECORD_BYTES * n * round, round + 1, n), "shifted", "h on wires i + 1 to i + n");
        }
    }
    expect(listed(SHIFTED, 32766, output, 0).number == METAQASM_OUTPUT_FULL, "shifted on 65,534 wires", "27");
    expect(listed(SHIFTED, 32767, output, 0).number == METAQASM_TOO_MANY_WIRES, "shifted on 65,536 wires", "23");
}

/* A slice inside a reversal stands for the same cells; its family's records come backward. */
static void reversed(void)
{
    uint8_t output[METAQASM_RECORD_BYTES * 2];
    size_t reversal;

    begin_program();
    reversal = begin(REVERSE);
    put_call(2, 1, 2);
    finish(reversal);
    expect(is(run(output, sizeof output), METAQASM_DONE, 0, 2, 7) && is_h(output, 2) &&
               is_h(output + METAQASM_RECORD_BYTES, 1),
           "a slice in a reversal", "h 2, h 1");
}

/* A call of each with size 1, and the literals 0 and 1. */
#define EACH_1(length) CALL, length, 0, EACH, 64, 2, 0, 1, 0
#define ZERO 64, 2, 0, 0, 0
#define ONE 64, 2, 0, 1, 0

/* Fields behind the families and the qreg. */
static const refusal refusals[] = {
    {"a slice as a wire", {H, 14, 0, SLICE, 11, 0, 0, ZERO, ZERO}, 17, METAQASM_WRONG_KIND, 3},
    {"a slice past the register as a wire", {H, 14, 0, SLICE, 11, 0, 0, ONE, 64, 2, 0, 9, 0}, 17, METAQASM_WRONG_KIND, 3},
    {"no number", {EACH_1(9), SLICE, 0, 0}, 12, METAQASM_BAD_CONTENT, 9},
    {"no indexes", {EACH_1(10), SLICE, 1, 0, 0}, 13, METAQASM_BAD_CONTENT, 9},
    {"no last index", {EACH_1(15), SLICE, 6, 0, 0, ZERO}, 18, METAQASM_BAD_CONTENT, 9},
    {"a byte behind the last index", {EACH_1(21), SLICE, 12, 0, 0, ZERO, ZERO, 0}, 24, METAQASM_BAD_CONTENT, 9},
    {"register 1 of one", {EACH_1(20), SLICE, 11, 0, 1, ZERO, ZERO}, 23, METAQASM_NOT_IN_SCOPE, 9},
    {"register 1 of one, before its indexes", {EACH_1(10), SLICE, 1, 0, 1}, 13, METAQASM_NOT_IN_SCOPE, 9},
    {"a variable as the first index", {EACH_1(19), SLICE, 10, 0, 0, 65, 1, 0, 0, ZERO}, 22, METAQASM_NOT_IN_SCOPE, 13},
    {"a variable as the last index", {EACH_1(19), SLICE, 10, 0, 0, ZERO, 65, 1, 0, 0}, 22, METAQASM_NOT_IN_SCOPE, 18},
    {"an operand as the last index", {EACH_1(19), SLICE, 10, 0, 0, ZERO, WHOLE, 1, 0, 0}, 22, METAQASM_BAD_TAG, 18},
    {"tag 52", {EACH_1(20), SLICE + 2, 11, 0, 0, ZERO, ZERO}, 23, METAQASM_BAD_TAG, 9},
    {"a slice where a size is due", {CALL, 15, 0, EACH, SLICE, 11, 0, 0, ZERO, ZERO}, 18, METAQASM_BAD_TAG, 4},
};

/* Each of these, and slices of a creg and of one qubit, and for a Qbit. */
static void each_refusal(void)
{
    static const uint8_t of_a_bit[] = {CREG, 2, 0, 1, 0, EACH_1(20), SLICE, 11, 0, 1, ZERO, ZERO};
    static const uint8_t of_a_qubit[] = {1, 28, 0, 0, 1, 16, 0, 0, EACH_1(20), SLICE, 11, 0, 0, ZERO, ZERO};
    static const uint8_t for_a_qubit[] = {1, 5, 0, 0, 1, 16, 0, 0, CALL, 15, 0, 3, SLICE, 11, 0, 0, ZERO, ZERO};
    size_t i, place;

    for (i = 0; i < COUNT(refusals); i++) {
        place = begin_program() + refusals[i].within;
        put(refusals[i].bytes, refusals[i].length);
        refused(refusals[i].name, refusals[i].number, place);
    }
    place = begin_program();
    put(of_a_bit, sizeof of_a_bit);
    refused("a slice of a creg", METAQASM_WRONG_KIND, place + 14);
    place = begin_program();
    put(of_a_qubit, sizeof of_a_qubit);
    refused("a slice of a Qbit", METAQASM_WRONG_KIND, place + 17);
    place = begin_program();
    put(for_a_qubit, sizeof for_a_qubit);
    refused("a slice for a Qbit", METAQASM_WRONG_KIND, place + 12);
}

/* Numbers beyond 2,000,000,000: of a form of a slice at the slice, and of an index's value at the call. */
static void out_of_range(void)
{
    /* each(1) on a slice of the qreg that ends at 0 - 40000 * 50000 */
    static const uint8_t huge[] = {
        EACH_1(36), SLICE, 27, 0, 0, ZERO, DIFFERENCE, 18, 0, ZERO, PRODUCT, 10, 0, 64, 2, 0, 0x40, 0x9C, 64, 2, 0, 0x50, 0xC3,
    };
    /* a family of n with x: Qbit[1], and each(1) on x[40000 * n - 40000 * n..0] */
    static const uint8_t steep[] = {
        1, 55, 0, 1, 1, 17, 5, 0, 64, 2, 0, 1, 0,                     /* n; x: Qbit[1] */
        CALL, 42, 0, EACH, ONE, SLICE, 33, 0, 0, DIFFERENCE, 24, 0,   /* each(1) on a slice of x */
        PRODUCT, 9, 0, 64, 2, 0, 0x40, 0x9C, 65, 1, 0, 0,             /* 40000 * n */
        PRODUCT, 9, 0, 64, 2, 0, 0x40, 0x9C, 65, 1, 0, 0,             /* 40000 * n */
        ZERO,                                                         /* the last index */
    };
    uint8_t output[METAQASM_RECORD_BYTES];
    size_t place = begin_program();

    put(huge, sizeof huge);
    refused("a slice whose form is out of range", METAQASM_FORM_OUT_OF_RANGE, place + 9);
    place = begin_program();
    put(steep, sizeof steep);
    expect(is(listed(STEEP, 50000, output, sizeof output), METAQASM_DONE, 0, 1, 4) && is_h(output, 0), "40,000 times 50,000",
           "h 0");
    expect(is(listed(STEEP, 50001, output, sizeof output), METAQASM_INDEX_OUT_OF_RANGE, place + 13, 0, 1),
           "40,000 times 50,001", "24 at the call");
}

int main(void)
{
    every_slice();
    instances();
    reversed();
    each_refusal();
    out_of_range();
    return closed();
}
