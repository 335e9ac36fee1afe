/* Phases: what their records are, forward and reversed; the largest k and those above it; which end of a run comes first; and
 * what the check says of a k. */
#include "answers.h"
#include "build.h"
#include "expect.h"
#include "tags.h"
#include <metaqasm.h>

#define QUBITS 2
#define LIMIT 100
#define MARK 0xA5
#define FIRST 5       /* where the first statement is, behind the qreg */
#define K (FIRST + 3) /* and where its k is */

#define COUNT(list) (sizeof(list) / sizeof((list)[0]))

/* Begins a program anew with a qreg. */
static void begin_program(void)
{
    built.length = 0;
    put((const uint8_t[]){2, 2, 0, QUBITS, 0}, FIRST);
}

/* Puts a literal. */
static void put_literal(unsigned number)
{
    put((const uint8_t[]){64, 2, 0}, 3);
    put_two(number);
}

/* Puts a wire of the qreg. */
static void put_wire(unsigned wire)
{
    size_t element = begin(49);

    put_byte(0);
    put_literal(wire);
    finish(element);
}

/* Puts a phase. */
static void put_phase(unsigned k, unsigned wire)
{
    size_t phase = begin(PHASE);

    put_literal(k);
    put_wire(wire);
    finish(phase);
}

/* Puts a cphase. */
static void put_cphase(unsigned k, unsigned first, unsigned second)
{
    size_t cphase = begin(CPHASE);

    put_literal(k);
    put_wire(first);
    put_wire(second);
    finish(cphase);
}

/* Puts a loop over i from 1 to 1 around a cphase on the wires i and 1; the answer is where the cphase is. */
static size_t put_wire_twice(unsigned k)
{
    size_t loop = begin(FOR), cphase;

    put_literal(1);
    put_literal(1);
    cphase = begin(CPHASE);
    put_literal(k);
    put((const uint8_t[]){49, 5, 0, 0, 65, 1, 0, 0}, 8);
    put_wire(1);
    finish(cphase);
    finish(loop);
    return cphase;
}

/* Runs what is built. */
static metaqasm_result run(uint64_t limit, uint8_t *output, size_t length)
{
    return metaqasm_run(built.bytes, built.length, limit, output, length);
}

/* All four operations, byte by byte; a byte past the records stays. */
static void records(void)
{
    static const uint8_t due[][METAQASM_RECORD_BYTES] = {
        {METAQASM_OP_PHASE, METAQASM_ALWAYS, 1, 0, 0, 0, 0, 0, 3, 0, 0, 0},
        {METAQASM_OP_CPHASE, METAQASM_ALWAYS, 1, 0, 0, 0, 0, 0, 2, 0, 0, 0},
        {METAQASM_OP_CPHASEDG, METAQASM_ALWAYS, 0, 0, 1, 0, 0, 0, 0, 0, 0, 0},
        {METAQASM_OP_PHASEDG, METAQASM_ALWAYS, 0, 0, 0, 0, 0, 0, 63, 0, 0, 0},
    };
    uint8_t output[sizeof due + 1];
    size_t reversed;

    begin_program();
    put_phase(3, 1);
    put_cphase(2, 1, 0);
    reversed = begin(REVERSE);
    put_phase(63, 0);
    put_cphase(0, 0, 1);
    finish(reversed);
    memset(output, MARK, sizeof output);
    expect(is(run(LIMIT, output, sizeof output), METAQASM_DONE, 0, COUNT(due), COUNT(due) + 1), "phases", "four records");
    expect(memcmp(output, due, sizeof due) == 0, "phases", "their bytes");
    expect(output[sizeof due] == MARK, "phases", "an untouched byte past the records");
    expect(METAQASM_OP_PHASE == 7 && METAQASM_OP_PHASEDG == 8 && METAQASM_OP_CPHASE == 9 && METAQASM_OP_CPHASEDG == 10,
           "the operations of phases", "7 to 10");
}

/* Every k that there can be, and some above, for one wire and for two. */
static void every_k(void)
{
    static const unsigned above[] = {METAQASM_MOST_K + 1, 127, 255, 256, 256 + 3, 32768, 65535};
    uint8_t output[METAQASM_RECORD_BYTES * 2];
    size_t i, right = 0;
    unsigned k;

    for (k = 0; k <= METAQASM_MOST_K; k++) {
        begin_program();
        put_phase(k, 0);
        put_cphase(k, 0, 1);
        right += is(run(LIMIT, output, sizeof output), METAQASM_DONE, 0, 2, 2) && output[8] == k &&
                 output[METAQASM_RECORD_BYTES + 8] == k;
    }
    expect(right == METAQASM_MOST_K + 1 && METAQASM_MOST_K == 63, "k from 0 to 63", "records with this k");
    for (i = 0; i < COUNT(above); i++) {
        begin_program();
        put_phase(above[i], 0);
        expect(metaqasm_check(built.bytes, built.length).number == METAQASM_DONE, "k above 63", "to be accepted");
        expect(is(run(LIMIT, output, sizeof output), METAQASM_K_TOO_LARGE, FIRST, 0, 1), "phase, k above 63", "32");
        begin_program();
        put_cphase(above[i], 1, 0);
        expect(is(run(LIMIT, output, sizeof output), METAQASM_K_TOO_LARGE, FIRST, 0, 1), "cphase, k above 63", "32");
    }
}

/* One wire twice comes before a k above 63, this before an output that is full, and a step before all of them. */
static void first_end(void)
{
    uint8_t output[METAQASM_RECORD_BYTES];
    uint32_t place;

    begin_program();
    place = (uint32_t)put_wire_twice(64);
    expect(is(run(2, output, 0), METAQASM_OUT_OF_STEPS, place, 0, 2), "no step for a cphase", "26");
    expect(is(run(3, output, 0), METAQASM_ONE_WIRE_TWICE, place, 0, 3), "one wire, k = 64, no output", "25");
    begin_program();
    put_cphase(64, 1, 0);
    expect(is(run(1, output, 0), METAQASM_K_TOO_LARGE, FIRST, 0, 1), "k = 64, no output", "32");
    begin_program();
    put_cphase(63, 1, 0);
    expect(is(run(1, output, sizeof output - 1), METAQASM_OUTPUT_FULL, FIRST, 0, 1), "k = 63 into 11 bytes", "27");
    expect(is(run(1, output, sizeof output), METAQASM_DONE, 0, 1, 1), "k = 63 into 12 bytes", "0");
}

/* What the check says of what is built, at a place. */
static void refused(const char *name, uint32_t number, size_t place)
{
    metaqasm_result result = metaqasm_check(built.bytes, built.length);

    if (!expect(is(result, number, (uint32_t)place, 0, 0), name, metaqasm_message(number))) {
        printf("    at %zu, got %u at %u\n", place, result.number, result.place);
    }
}

/* A phase whose k is the difference of two numbers. */
static void put_difference(unsigned left, unsigned right)
{
    size_t phase = begin(PHASE), difference = begin(DIFFERENCE);

    put_literal(left);
    put_literal(right);
    finish(difference);
    put_wire(0);
    finish(phase);
}

/* A k below 0, and one of 0; then phases that lack parts, have too many or name what is not there. */
static void refusals(void)
{
    uint8_t output[METAQASM_RECORD_BYTES];
    unsigned tag;

    begin_program();
    put_difference(2, 3);
    refused("k = 2 - 3", METAQASM_NOT_SHOWN, K);
    begin_program();
    put_difference(3, 3);
    expect(is(run(LIMIT, output, sizeof output), METAQASM_DONE, 0, 1, 1) && output[8] == 0, "k = 3 - 3", "k = 0");
    for (tag = PHASE; tag <= CPHASE; tag++) {
        begin_program();
        put((const uint8_t[]){(uint8_t)tag, 0, 0}, 3);
        refused("no k", METAQASM_BAD_CONTENT, FIRST);
        begin_program();
        put((const uint8_t[]){(uint8_t)tag, 5, 0, 64, 2, 0, 1, 0}, 8);
        refused("no wire", METAQASM_BAD_CONTENT, FIRST);
        begin_program();
        put((const uint8_t[]){(uint8_t)tag, 4, 0, 48, 1, 0, 0}, 7);
        refused("a wire where k is due", METAQASM_BAD_TAG, K);
    }
    begin_program();
    put_phase(1, QUBITS);
    refused("a wire past the register", METAQASM_NOT_SHOWN, K + 5);
    begin_program();
    put_phase(1, 0);
    put_byte(0);
    built.bytes[FIRST + 1]++;
    refused("a byte behind the wire", METAQASM_BAD_CONTENT, FIRST);
    begin_program();
    put((const uint8_t[]){CPHASE + 2, 0, 0}, 3);
    refused("tag 43", METAQASM_BAD_TAG, FIRST);
}

int main(void)
{
    records();
    every_k();
    first_end();
    refusals();
    return closed();
}
