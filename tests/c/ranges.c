/* Loops, whose bodies run only where their ranges are not empty: which cells a range shows to be there, what such a family
 * lists at sizes with and without rounds, and what is still refused, and where. */
#include "answers.h"
#include "build.h"
#include "expect.h"
#include "tags.h"
#include <metaqasm.h>

#define LITERAL 64
#define VARIABLE 65
#define LIMIT 100
#define MARK 0xA5
#define N 0 /* the number of the family's index variable */
#define I 1 /* and of its outer loop's */
#define J 2 /* and of its inner loop's */

/* 40000 * 50000, which is 2,000,000,000, and as much below 0 */
#define FAR PRODUCT, 10, 0, LITERAL, 2, 0, 0x40, 0x9C, LITERAL, 2, 0, 0x50, 0xC3
#define FAR_BELOW DIFFERENCE, 18, 0, LITERAL, 2, 0, 0, 0, FAR

/* Puts a literal. */
static void put_literal(unsigned number)
{
    put((const uint8_t[]){LITERAL, 2, 0}, 3);
    put_two(number);
}

/* Puts n less a number. */
static void put_n_less(unsigned number)
{
    size_t difference = begin(DIFFERENCE);

    put((const uint8_t[]){VARIABLE, 1, 0, N}, 4);
    put_literal(number);
    finish(difference);
}

/* Begins a program anew with the start of a family of n with x: Qbit[n]. */
static size_t begin_family(void)
{
    size_t family;

    built.length = 0;
    family = begin(1);
    put((const uint8_t[]){1, 1, 17, 4, 0, VARIABLE, 1, 0, N}, 9);
    return family;
}

/* Puts the start of a loop from 1 to n - 1. */
static size_t begin_rounds(void)
{
    size_t loop = begin(FOR);

    put_literal(1);
    put_n_less(1);
    return loop;
}

/* Puts the start of a loop from 2,000,000,000 to -2,000,000,000, whose range is out of range. */
static size_t begin_far(void)
{
    size_t loop = begin(FOR);

    put((const uint8_t[]){FAR, FAR_BELOW}, 34);
    return loop;
}

/* Puts h on x[cell]; the answer is where the operand is. */
static size_t put_h(unsigned cell)
{
    size_t gate = begin(H), element = begin(ELEMENT);

    put_byte(0);
    put_literal(cell);
    finish(element);
    finish(gate);
    return element;
}

/* Puts h on x[n - back]; the answer is where the operand is. */
static size_t put_h_back(unsigned back)
{
    size_t gate = begin(H), element = begin(ELEMENT);

    put_byte(0);
    put_n_less(back);
    finish(element);
    finish(gate);
    return element;
}

/* Lists the family at a size. */
static metaqasm_result listed(unsigned n, uint8_t *output, size_t length)
{
    const uint8_t sizes[METAQASM_SIZE_BYTES] = {(uint8_t)n};

    return metaqasm_instance(built.bytes, built.length, 0, sizes, sizeof sizes, LIMIT, output, length);
}

/* What is built is accepted. */
static void accepted(const char *name)
{
    metaqasm_result result = metaqasm_check(built.bytes, built.length);

    if (!expect(is(result, METAQASM_DONE, 0, 0, 0), name, "to be accepted")) {
        printf("    got %u at %u\n", result.number, result.place);
    }
}

/* What is built is refused with one number at one place, by every call, and the output stays as it was. */
static void refused(const char *name, uint32_t number, size_t place)
{
    uint8_t output[METAQASM_RECORD_BYTES] = {MARK};
    metaqasm_result result = metaqasm_check(built.bytes, built.length);

    if (!expect(is(result, number, (uint32_t)place, 0, 0), name, metaqasm_message(number))) {
        printf("    at %zu, got %u at %u\n", place, result.number, result.place);
    }
    expect(is(listed(2, output, sizeof output), number, (uint32_t)place, 0, 0) &&
               is(metaqasm_run(built.bytes, built.length, LIMIT, output, sizeof output), number, (uint32_t)place, 0, 0) &&
               output[0] == MARK,
           name, "the check's answer from every call, and an untouched output");
}

/* The family lists so many h on one wire at a size, in so many steps; the bytes past them stay. */
static void lists(const char *name, unsigned n, unsigned count, unsigned wire, uint64_t steps)
{
    const uint8_t h[METAQASM_RECORD_BYTES] = {1, 0, (uint8_t)wire, 0, 0, 0, 0, 0, 0, 0, 0, 0};
    uint8_t output[METAQASM_RECORD_BYTES * 4], due[sizeof output];
    metaqasm_result result;
    unsigned i;

    memset(due, MARK, sizeof due);
    for (i = 0; i < count; i++) {
        memcpy(due + METAQASM_RECORD_BYTES * i, h, sizeof h);
    }
    memset(output, MARK, sizeof output);
    result = listed(n, output, sizeof output);
    if (!expect(is(result, METAQASM_DONE, 0, count, steps), name, "its records and steps")) {
        printf("    at n = %u, got %u with %u records\n", n, result.number, (unsigned)result.records);
    }
    expect(memcmp(output, due, sizeof due) == 0, name, "the bytes of its records, and no others");
}

/* x[0] and x[1] in a loop from 1 to n - 1: no round at n = 0 and n = 1, then n - 1 rounds. */
static void first_cells(void)
{
    unsigned cell;

    for (cell = 0; cell < 2; cell++) {
        size_t family = begin_family(), loop = begin_rounds();

        put_h(cell);
        finish(loop);
        finish(family);
        accepted("x[0] and x[1] in 1..n-1");
        lists("no cell", 0, 0, cell, 1);
        lists("one cell", 1, 0, cell, 1);
        lists("two cells", 2, 1, cell, 3);
        lists("three cells", 3, 2, cell, 5);
    }
}

/* x[n-1] and x[n-2] in that loop. */
static void last_cells(void)
{
    unsigned back;

    for (back = 1; back < 3; back++) {
        size_t family = begin_family(), loop = begin_rounds();

        put_h_back(back);
        finish(loop);
        finish(family);
        accepted("x[n-1] and x[n-2] in 1..n-1");
        lists("no cell, from the end", 0, 0, 0, 1);
        lists("one cell, from the end", 1, 0, 0, 1);
        lists("two cells, from the end", 2, 1, 2 - back, 3);
        lists("three cells, from the end", 3, 2, 3 - back, 5);
    }
}

/* x[0] in two loops that together have one round where n is 2 or more: the range of the outer one shows it. */
static void one_round(void)
{
    size_t family = begin_family(), outer = begin_rounds(), inner = begin(FOR);

    put((const uint8_t[]){VARIABLE, 1, 0, I}, 4);
    put_literal(1);
    put_h(0);
    finish(inner);
    finish(outer);
    finish(family);
    accepted("x[0] in i = 1..n-1 and j = i..1");
    lists("no cell in two loops", 0, 0, 0, 1);
    lists("one cell in two loops", 1, 0, 0, 1);
    lists("two cells in two loops", 2, 1, 0, 5);
    lists("three cells in two loops", 3, 1, 0, 7);
}

/* x[2] and x[n-3], which are not there at n = 2; and x[0] behind the loop. */
static void refusals(void)
{
    size_t family = begin_family(), loop = begin_rounds(), place = put_h(2);

    finish(loop);
    finish(family);
    expect(place == 35, "x[2] in 1..n-1", "its place 35");
    refused("x[2] in 1..n-1", METAQASM_NOT_SHOWN, place);
    family = begin_family();
    loop = begin_rounds();
    place = put_h_back(3);
    finish(loop);
    finish(family);
    refused("x[n-3] in 1..n-1", METAQASM_NOT_SHOWN, place);
    family = begin_family();
    loop = begin_rounds();
    put_h(0);
    finish(loop);
    place = put_h(0);
    finish(family);
    refused("x[0] behind 1..n-1", METAQASM_NOT_SHOWN, place);
}

/* A range that is out of range shows nothing and refuses nothing: another loop may show x[0]. */
static void far_ranges(void)
{
    size_t family = begin_family(), outer = begin_far(), inner, place = put_h(0);

    finish(outer);
    finish(family);
    refused("x[0] in a loop whose range is out of range", METAQASM_NOT_SHOWN, place);
    family = begin_family();
    outer = begin_rounds();
    inner = begin_far();
    put_h(0);
    finish(inner);
    finish(outer);
    finish(family);
    accepted("x[0] in 1..n-1 and that loop");
    lists("three cells in 1..n-1 and that loop", 3, 0, 0, 5);
    family = begin_family();
    outer = begin_far();
    inner = begin_rounds();
    put_h(0);
    finish(inner);
    finish(outer);
    finish(family);
    accepted("x[0] in that loop and 1..n-1");
    lists("three cells in that loop and 1..n-1", 3, 0, 0, 1);
}

/* Twice j, with j from 2,000,000,000 on, is out of range before any loop is tried: 11 at the operand. */
static void form_out_of_range(void)
{
    static const uint8_t twice_j[] = {ELEMENT, 13, 0, 0, PRODUCT, 9, 0, LITERAL, 2, 0, 2, 0, VARIABLE, 1, 0, J};
    size_t family = begin_family(), outer = begin_rounds(), inner = begin_far(), gate = begin(H), place = built.length;

    put(twice_j, sizeof twice_j);
    finish(gate);
    finish(inner);
    finish(outer);
    finish(family);
    refused("x[2*j] with j from 2,000,000,000 on", METAQASM_FORM_OUT_OF_RANGE, place);
}

int main(void)
{
    first_cells();
    last_cells();
    one_round();
    refusals();
    far_ranges();
    form_out_of_range();
    return closed();
}
