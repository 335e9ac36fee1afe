/* Libraries past 255 families. A call by a two-byte number (tag 39) enters the family of that number and no other, beside
 * calls by one byte (tag 36); instances go by number; what such a call is refused with, and where; and a full library. */
#include "answers.h"
#include "build.h"
#include "expect.h"
#include <metaqasm.h>

#define FAMILIES 300
#define LAST (FAMILIES - 1)
#define FIRST_BY_TWO 256 /* the first family that is called by a two-byte number */

/* The families that the last one calls, in order; 256 + n beside n. */
static const unsigned called[] = {298, 10, FIRST_BY_TWO + 10, 255, FIRST_BY_TWO, 0};

#define COUNT(list) (sizeof(list) / sizeof((list)[0]))
#define LASTS_RECORDS (COUNT(called) + 1)

/* Puts h on an element of operand 0. */
static void put_h(unsigned index)
{
    put((const uint8_t[]){32, 9, 0, 49, 6, 0, 0, 64, 2, 0}, 10);
    put_two(index);
}

/* Puts a call about the whole of operand 0: by one byte where that holds the number, and by two where it does not. */
static void put_call(unsigned family)
{
    size_t call = begin(family < FIRST_BY_TWO ? 36 : 39);

    if (family < FIRST_BY_TWO) {
        put_byte(family);
    } else {
        put_two(family);
    }
    put((const uint8_t[]){48, 1, 0, 0}, 4);
    finish(call);
}

/* Puts a family with x: Qbit[300]: calls of other families, then h on the element that has the family's own number. */
static void put_family(unsigned number, const unsigned *calls, size_t count)
{
    size_t i, family = begin(1);

    put((const uint8_t[]){0, 1, 17, 5, 0, 64, 2, 0}, 8);
    put_two(FAMILIES);
    for (i = 0; i < count; i++) {
        put_call(calls[i]);
    }
    put_h(number);
    finish(family);
}

/* 300 families, each with h on a wire of its own; the last one calls others before. The answer is where the last one is. */
static size_t build_library(const unsigned *calls, size_t count)
{
    size_t last;
    unsigned i;

    built.length = 0;
    for (i = 0; i < LAST; i++) {
        put_family(i, NULL, 0);
    }
    last = built.length;
    put_family(LAST, calls, count);
    return last;
}

/* Whether records are those of the last family, read forward or backward. */
static int are_lasts(const uint8_t *records, int backward)
{
    size_t i;

    for (i = 0; i < LASTS_RECORDS; i++) {
        size_t at = backward ? LASTS_RECORDS - 1 - i : i;

        if (!is_h(records + METAQASM_RECORD_BYTES * at, i < COUNT(called) ? called[i] : LAST)) {
            return 0;
        }
    }
    return 1;
}

/* An instance of one family of the library; none has index variables. */
static metaqasm_result listed(uint32_t family, uint8_t *output, size_t length)
{
    return metaqasm_instance(built.bytes, built.length, family, NULL, 0, 100, output, length);
}

/* Instances on both sides of 256, of the last family, and of those that there are not. */
static void instances(void)
{
    static const uint32_t own[] = {0, 43, 255, FIRST_BY_TWO, 298};
    static const uint32_t none[] = {FAMILIES, METAQASM_MOST_FAMILIES, 65536 + 255, 0xFFFFFFFFu};
    uint8_t output[METAQASM_RECORD_BYTES * LASTS_RECORDS];
    size_t i;

    build_library(called, COUNT(called));
    expect(metaqasm_check(built.bytes, built.length).number == METAQASM_DONE, "300 families", "to be accepted");
    for (i = 0; i < COUNT(own); i++) {
        expect(is(listed(own[i], output, sizeof output), METAQASM_DONE, 0, 1, 1) && is_h(output, own[i]), "an instance",
               "h on the wire of its number");
    }
    expect(is(listed(LAST, output, sizeof output), METAQASM_DONE, 0, LASTS_RECORDS, 2 * COUNT(called) + 1) &&
               are_lasts(output, 0),
           "family 299", "the records of the families that it calls, and its own");
    for (i = 0; i < COUNT(none); i++) {
        expect(is(listed(none[i], output, sizeof output), METAQASM_NO_SUCH_FAMILY, 0, 0, 0), "a number past 299", "20");
    }
}

/* A whole run that calls the last family, and again inside a reversal. */
static void runs(void)
{
    const uint64_t steps = 2 * COUNT(called) + 2;
    uint8_t output[METAQASM_RECORD_BYTES * 2 * LASTS_RECORDS];
    metaqasm_result result;
    size_t reversal;

    build_library(called, COUNT(called));
    put((const uint8_t[]){2, 2, 0}, 3);
    put_two(FAMILIES);
    put_call(LAST);
    reversal = begin(37);
    put_call(LAST);
    finish(reversal);
    result = metaqasm_run(built.bytes, built.length, 100, output, sizeof output);
    expect(is(result, METAQASM_DONE, 0, 2 * LASTS_RECORDS, 2 * steps + 1), "a run of 300 families", "a complete list");
    expect(are_lasts(output, 0), "family 299 in a run", "its records");
    expect(are_lasts(output + METAQASM_RECORD_BYTES * LASTS_RECORDS, 1), "family 299 reversed", "its records, backward");
}

/* Calls by a two-byte number at the top of a program without families. */
static const refusal alone[] = {
    {"family 0 by two bytes, of none", {39, 2, 0, 0, 0}, 5, METAQASM_LOW_NUMBER, 0},
    {"family 256 of none", {39, 2, 0, 0, 1}, 5, METAQASM_NOT_IN_SCOPE, 0},
};

/* Calls behind 300 families. */
static const refusal behind[] = {
    {"no byte of a number", {39, 0, 0}, 3, METAQASM_BAD_CONTENT, 0},
    {"one byte of a number", {39, 1, 0, 44}, 4, METAQASM_BAD_CONTENT, 0},
    {"family 0 by two bytes", {39, 2, 0, 0, 0}, 5, METAQASM_LOW_NUMBER, 0},
    {"family 1 by two bytes", {39, 2, 0, 1, 0}, 5, METAQASM_LOW_NUMBER, 0},
    {"family 255 by two bytes", {39, 2, 0, 255, 0}, 5, METAQASM_LOW_NUMBER, 0},
    {"family 255 by two bytes, before a bad part", {39, 3, 0, 255, 0, 99}, 6, METAQASM_LOW_NUMBER, 0},
    {"family 256 without its operand", {39, 2, 0, 0, 1}, 5, METAQASM_BAD_CONTENT, 0},
    {"family 300", {39, 2, 0, FAMILIES & 255, FAMILIES >> 8}, 5, METAQASM_NOT_IN_SCOPE, 0},
    {"family 65,535", {39, 2, 0, 255, 255}, 5, METAQASM_NOT_IN_SCOPE, 0},
};

/* What is built is refused with one number at one place, by every call, and the output stays as it was. */
static void refused(const char *name, uint32_t number, size_t place)
{
    const uint32_t at = (uint32_t)place;
    uint8_t output[METAQASM_RECORD_BYTES] = {0xA5}, text[1] = {0xA5};
    metaqasm_text_result printed =
        metaqasm_run_text(built.bytes, built.length, 100, output, sizeof output, text, sizeof text);

    expect(is(metaqasm_check(built.bytes, built.length), number, at, 0, 0), name, metaqasm_message(number));
    expect(is(metaqasm_run(built.bytes, built.length, 100, output, sizeof output), number, at, 0, 0) &&
               is(listed(0, output, sizeof output), number, at, 0, 0) && printed.number == number && printed.place == at &&
               printed.length == 0 && output[0] == 0xA5 && text[0] == 0xA5,
           name, "the check's answer from every call, and untouched buffers");
}

/* Each call that is refused, and a family that calls itself. */
static void refusals(void)
{
    static const unsigned itself[] = {LAST};
    size_t i, place;

    for (i = 0; i < COUNT(alone); i++) {
        built.length = 0;
        put(alone[i].bytes, alone[i].length);
        refused(alone[i].name, alone[i].number, 0);
    }
    for (i = 0; i < COUNT(behind); i++) {
        build_library(called, COUNT(called));
        place = built.length;
        put(behind[i].bytes, behind[i].length);
        refused(behind[i].name, behind[i].number, place);
    }
    place = build_library(itself, COUNT(itself)) + 13; /* behind the last one's header, counts and type */
    refused("a family that calls itself", METAQASM_NOT_IN_SCOPE, place);
}

/* As many families as there may be, all of one wire, whose last one has h; and one more. */
static void full(void)
{
    static const uint8_t empty[] = {1, 5, 0, 0, 1, 16, 0, 0};
    static const uint8_t with_h[] = {1, 12, 0, 0, 1, 16, 0, 0, 32, 4, 0, 48, 1, 0, 0};
    uint8_t output[METAQASM_RECORD_BYTES];
    unsigned i;

    built.length = 0;
    for (i = 0; i + 1 < METAQASM_MOST_FAMILIES; i++) {
        put(empty, sizeof empty);
    }
    put(with_h, sizeof with_h);
    expect(is(listed(METAQASM_MOST_FAMILIES - 1, output, sizeof output), METAQASM_DONE, 0, 1, 1) && is_h(output, 0),
           "the last of 4,096 families", "h 0");
    expect(is(listed(METAQASM_MOST_FAMILIES - 2, output, sizeof output), METAQASM_DONE, 0, 0, 0), "the one before it",
           "an empty list");
    expect(is(listed(METAQASM_MOST_FAMILIES, output, sizeof output), METAQASM_NO_SUCH_FAMILY, 0, 0, 0), "family 4,096", "20");
    put(empty, sizeof empty);
    refused("4,097 families", METAQASM_TOO_MANY, built.length - sizeof empty);
}

int main(void)
{
    instances();
    runs();
    refusals();
    full();
    return closed();
}
