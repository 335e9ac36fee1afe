/* NULL with length 0, at each pointer of each call and at all of them; by name and through a pointer to the function. */
#include "answers.h"
#include "expect.h"
#include <metaqasm.h>
#include <string.h>

/* a family with one wire x, whose body is h on x; a qreg of 1; and h on its wire */
static const uint8_t plain[] = {
    1, 12, 0, 0, 1, 16, 0, 0, 32, 4, 0, 48, 1, 0, 0, 2, 2, 0, 1, 0, 32, 9, 0, 49, 6, 0, 0, 64, 2, 0, 0, 0,
};
/* a family of n with x: Qbit[n] and an empty body */
static const uint8_t sized[] = {1, 9, 0, 1, 1, 17, 4, 0, 65, 1, 0, 0};
static const uint8_t h_0[METAQASM_RECORD_BYTES] = {METAQASM_OP_H, METAQASM_ALWAYS, 0, 0, 0, 0, 0, 0};
static const uint8_t zero[METAQASM_SIZE_BYTES] = {0};

/* The calls as a host may hold them. */
typedef metaqasm_result check_call(const uint8_t *, size_t);
typedef metaqasm_result instance_call(const uint8_t *, size_t, uint32_t, const uint8_t *, size_t, uint64_t, uint8_t *, size_t);
typedef metaqasm_result run_call(const uint8_t *, size_t, uint64_t, uint8_t *, size_t);
typedef metaqasm_text_result instance_text_call(const uint8_t *, size_t, uint32_t, const uint8_t *, size_t, uint64_t,
                                                uint8_t *, size_t, uint8_t *, size_t);
typedef metaqasm_text_result run_text_call(const uint8_t *, size_t, uint64_t, uint8_t *, size_t, uint8_t *, size_t);

/* Whether the result of a call that prints a text is the one that is due. */
static int is_text(metaqasm_text_result result, uint32_t number, uint32_t place, uint64_t records, uint64_t steps,
                   uint64_t length)
{
    return is((metaqasm_result){result.number, result.place, result.records, result.steps}, number, place, records, steps) &&
           result.length == length;
}

/* A program without bytes: it is accepted, has no family, and its list is empty. */
static void no_program(check_call *check, instance_call *instance, run_call *run)
{
    uint8_t output[METAQASM_RECORD_BYTES];

    memset(output, 0xA5, sizeof output);
    expect(is(check(NULL, 0), METAQASM_DONE, 0, 0, 0), "check of NULL", "0");
    expect(is(instance(NULL, 0, 0, zero, sizeof zero, 9, output, sizeof output), METAQASM_NO_SUCH_FAMILY, 0, 0, 0),
           "instance of NULL", "20");
    expect(is(run(NULL, 0, 9, output, sizeof output), METAQASM_DONE, 0, 0, 0), "run of NULL", "0");
    expect(output[0] == 0xA5 && memcmp(output, output + 1, sizeof output - 1) == 0, "calls about NULL", "an untouched output");
}

/* No sizes: right for a family without index variables, and 21 for one with them. */
static void no_sizes(instance_call *instance)
{
    uint8_t output[METAQASM_RECORD_BYTES] = {0};

    expect(is(instance(plain, sizeof plain, 0, NULL, 0, 9, output, sizeof output), METAQASM_DONE, 0, 1, 1),
           "sizes NULL", "0 with one record");
    expect(memcmp(output, h_0, sizeof h_0) == 0, "sizes NULL", "h 0");
    expect(is(instance(sized, sizeof sized, 0, NULL, 0, 9, output, sizeof output), METAQASM_WRONG_SIZES_LENGTH, 0, 0, 0),
           "sizes NULL for n", "21");
}

/* No output: enough for an empty list, and 27 where a record is due. */
static void no_output(instance_call *instance, run_call *run)
{
    expect(is(instance(sized, sizeof sized, 0, zero, sizeof zero, 9, NULL, 0), METAQASM_DONE, 0, 0, 0),
           "instance into NULL", "0 for an empty list");
    expect(is(instance(plain, sizeof plain, 0, zero, 0, 9, NULL, 0), METAQASM_OUTPUT_FULL, 8, 0, 1),
           "instance into NULL", "27 at the gate");
    expect(is(run(sized, sizeof sized, 9, NULL, 0), METAQASM_DONE, 0, 0, 0), "run into NULL", "0 for an empty list");
    expect(is(run(plain, sizeof plain, 9, NULL, 0), METAQASM_OUTPUT_FULL, 20, 0, 1), "run into NULL", "27 at the gate");
    expect(is(run(plain, sizeof plain, 0, NULL, 0), METAQASM_OUT_OF_STEPS, 20, 0, 0), "run into NULL", "26 before 27");
}

/* NULL at all places. */
static void nothing(instance_call *instance, run_call *run)
{
    expect(is(instance(NULL, 0, 0, NULL, 0, 0, NULL, 0), METAQASM_NO_SUCH_FAMILY, 0, 0, 0), "instance of NULLs", "20");
    expect(is(instance(plain, sizeof plain, 0, NULL, 0, 9, NULL, 0), METAQASM_OUTPUT_FULL, 8, 0, 1),
           "instance with NULLs", "27 at the gate");
    expect(is(run(NULL, 0, 0, NULL, 0), METAQASM_DONE, 0, 0, 0), "run of NULLs", "0");
}

/* No text: 30 where the list is complete, and any other number first. */
static void no_text(instance_text_call *instance, run_text_call *run)
{
    uint8_t output[METAQASM_RECORD_BYTES] = {0};

    expect(is_text(instance(plain, sizeof plain, 0, zero, 0, 9, output, sizeof output, NULL, 0), METAQASM_TEXT_FULL, 0, 1, 1, 0),
           "an instance's text into NULL", "30");
    expect(memcmp(output, h_0, sizeof h_0) == 0, "an instance's text into NULL", "h 0 in the output");
    memset(output, 0, sizeof output);
    expect(is_text(run(plain, sizeof plain, 9, output, sizeof output, NULL, 0), METAQASM_TEXT_FULL, 0, 1, 1, 0),
           "a run's text into NULL", "30");
    expect(memcmp(output, h_0, sizeof h_0) == 0, "a run's text into NULL", "h 0 in the output");
    expect(is_text(run(plain, sizeof plain, 0, output, sizeof output, NULL, 0), METAQASM_OUT_OF_STEPS, 20, 0, 0, 0),
           "a run's text into NULL", "26 before 30");
}

/* NULL at the other places of the calls that print a text, one by one. */
static void no_more_than_text(instance_text_call *instance, run_text_call *run)
{
    static const char head[] = "OPENQASM 2.0;\ninclude \"qelib1.inc\";\n";
    const uint64_t length = sizeof head - 1;
    uint8_t output[METAQASM_RECORD_BYTES], text[METAQASM_TEXT_BYTES(1, 0)];

    expect(is_text(run(NULL, 0, 9, output, sizeof output, text, sizeof text), METAQASM_DONE, 0, 0, 0, length) &&
               memcmp(text, head, length) == 0,
           "the text of a run of NULL", "two lines");
    memset(text, 0, sizeof text);
    expect(is_text(instance(sized, sizeof sized, 0, zero, sizeof zero, 9, NULL, 0, text, sizeof text), METAQASM_DONE, 0, 0, 0,
                   length) &&
               memcmp(text, head, length) == 0,
           "the text of an instance into NULL", "two lines");
    expect(is_text(instance(plain, sizeof plain, 0, NULL, 0, 9, output, sizeof output, text, sizeof text), METAQASM_DONE, 0, 1, 1,
                   length + strlen("qreg q[1];\nh q[0];\n")),
           "the text of an instance with sizes NULL", "four lines");
    expect(is_text(run(plain, sizeof plain, 9, NULL, 0, text, sizeof text), METAQASM_OUTPUT_FULL, 20, 0, 1, 0),
           "the text of a run into NULL", "27 at the gate");
}

/* NULL at all places of the calls that print a text. */
static void nothing_at_all(instance_text_call *instance, run_text_call *run)
{
    expect(is_text(run(NULL, 0, 0, NULL, 0, NULL, 0), METAQASM_TEXT_FULL, 0, 0, 0, 0), "the text of a run of NULLs", "30");
    expect(is_text(instance(NULL, 0, 0, NULL, 0, 0, NULL, 0, NULL, 0), METAQASM_NO_SUCH_FAMILY, 0, 0, 0, 0),
           "the text of an instance of NULLs", "20");
}

/* Calls by name, where the compiler sees the NULL. */
static void by_name(void)
{
    uint8_t output[METAQASM_RECORD_BYTES] = {0};

    expect(is(metaqasm_check(NULL, 0), METAQASM_DONE, 0, 0, 0), "metaqasm_check(NULL, 0)", "0");
    expect(is(metaqasm_instance(plain, sizeof plain, 0, NULL, 0, 9, output, sizeof output), METAQASM_DONE, 0, 1, 1),
           "metaqasm_instance with sizes NULL", "0 with one record");
    expect(is(metaqasm_run(plain, sizeof plain, 9, NULL, 0), METAQASM_OUTPUT_FULL, 20, 0, 1), "metaqasm_run into NULL",
           "27 at the gate");
    expect(is_text(metaqasm_run_text(NULL, 0, 9, NULL, 0, NULL, 0), METAQASM_TEXT_FULL, 0, 0, 0, 0), "metaqasm_run_text of NULLs",
           "30");
    expect(is_text(metaqasm_instance_text(plain, sizeof plain, 0, NULL, 0, 9, output, sizeof output, NULL, 0), METAQASM_TEXT_FULL,
                   0, 1, 1, 0),
           "metaqasm_instance_text into NULL", "30 with one record");
}

int main(void)
{
    no_program(metaqasm_check, metaqasm_instance, metaqasm_run);
    no_sizes(metaqasm_instance);
    no_output(metaqasm_instance, metaqasm_run);
    nothing(metaqasm_instance, metaqasm_run);
    no_text(metaqasm_instance_text, metaqasm_run_text);
    no_more_than_text(metaqasm_instance_text, metaqasm_run_text);
    nothing_at_all(metaqasm_instance_text, metaqasm_run_text);
    by_name();
    return closed();
}
