/* Nothing is read or written past the lengths: each buffer ends at a page that can be neither read nor written, and a length
 * of 0 comes with a pointer to that page. Run it from the repository's root. */
#define _DEFAULT_SOURCE
#include "edge.h"
#include "expect.h"
#include "load.h"
#include <metaqasm.h>
#include <string.h>

#define ADD 2 /* the number of the family add, behind toffoli and maj */
#define ADDS_OUTPUT (18 * METAQASM_RECORD_BYTES) /* what add takes at n = 0 */

static uint8_t program[METAQASM_MOST_PROGRAM_BYTES];
static size_t length;
static const uint8_t zero[METAQASM_SIZE_BYTES] = {0};

/* The ends of the room for each buffer. */
static uint8_t *programs_end, *sizes_end, *outputs_end, *texts_end;

/* Bytes that end at an edge. */
static const uint8_t *before(uint8_t *end, const uint8_t *bytes, size_t count)
{
    memcpy(end - count, bytes, count);
    return end - count;
}

/* The same bytes end at the edge as where there is more room: same answers for every beginning of a program. */
static void beginnings(void)
{
    size_t i, same = 0;

    for (i = 0; i <= length; i++) {
        metaqasm_result there = metaqasm_check(before(programs_end, program, i), i);
        metaqasm_result here = metaqasm_check(program, i);

        same += there.number == here.number && there.place == here.place;
    }
    expect(same == length + 1, "every beginning of the adder", "the same answer at the edge");
}

/* An instance whose program, sizes and output all end at edges, for every length of the output. */
static void instances(void)
{
    const uint8_t *bytes = before(programs_end, program, length);
    const uint8_t *sizes = before(sizes_end, zero, sizeof zero);
    size_t room, right = 0;

    for (room = 0; room <= ADDS_OUTPUT; room++) {
        metaqasm_result result = metaqasm_instance(bytes, length, ADD, sizes, sizeof zero, 1000, outputs_end - room, room);
        uint32_t due = room < ADDS_OUTPUT ? METAQASM_OUTPUT_FULL : METAQASM_DONE;

        right += result.number == due && result.records == room / METAQASM_RECORD_BYTES;
    }
    expect(right == ADDS_OUTPUT + 1, "add at n = 0", "as many records as there is room for at the edge");
}

/* The same instance with a text that ends at an edge too, for every length of the text. */
static void texts(void)
{
    static uint8_t due[1024];
    long due_len = load("examples/adder.n0.qasm", due, sizeof due);
    const uint8_t *bytes = before(programs_end, program, length);
    const uint8_t *sizes = before(sizes_end, zero, sizeof zero);
    long room, right = 0;

    if (!expect(due_len > 0 && (size_t)due_len <= sizeof due, "examples/adder.n0.qasm", "a text that can be read")) {
        return;
    }
    for (room = 0; room <= due_len; room++) {
        metaqasm_text_result result =
            metaqasm_instance_text(bytes, length, ADD, sizes, sizeof zero, 1000, outputs_end - ADDS_OUTPUT, ADDS_OUTPUT,
                                   texts_end - room, (size_t)room);

        right += result.number == (room < due_len ? METAQASM_TEXT_FULL : METAQASM_DONE);
    }
    expect(right == due_len + 1, "add at n = 0", "30 until there is room for the text at the edge");
    expect(memcmp(texts_end - due_len, due, (size_t)due_len) == 0, "add at n = 0", "examples/adder.n0.qasm at the edge");
}

/* Pointers that cannot be read, with length 0. */
static void nothing(uint8_t *end)
{
    expect(metaqasm_check(end, 0).number == METAQASM_DONE, "a check of no bytes at the edge", "0");
    expect(metaqasm_run(end, 0, 9, end, 0).number == METAQASM_DONE, "a run of no bytes at the edge", "0");
    expect(metaqasm_instance(end, 0, 0, end, 0, 9, end, 0).number == METAQASM_NO_SUCH_FAMILY,
           "an instance of no bytes at the edge", "20");
    expect(metaqasm_run_text(end, 0, 9, end, 0, end, 0).number == METAQASM_TEXT_FULL, "a run of no bytes into no text", "30");
    expect(metaqasm_instance_text(end, 0, 0, end, 0, 9, end, 0, end, 0).number == METAQASM_NO_SUCH_FAMILY,
           "an instance of no bytes into no text", "20");
}

int main(void)
{
    long loaded = load("examples/adder.bytes", program, sizeof program);

    programs_end = edge();
    sizes_end = edge();
    outputs_end = edge();
    texts_end = edge();
    if (expect(loaded > 0 && (size_t)loaded <= sizeof program, "examples/adder.bytes", "a program that can be read") &&
        expect(programs_end != NULL && sizes_end != NULL && outputs_end != NULL && texts_end != NULL, "four edges", "memory")) {
        length = (size_t)loaded;
        beginnings();
        instances();
        texts();
        nothing(programs_end);
    }
    return closed();
}
