/* One wire twice. A cx or cphase whose operands are the same wire as they stand in the program is refused with 35 by every call,
 * at the gate, wherever it stands, and nothing is written. Operands that come to be one wire only in a run end it with 25. */
#include "answers.h"
#include "build.h"
#include "expect.h"
#include "tags.h"
#include <metaqasm.h>

#define LIMIT 1000
#define MARK 0xA5
#define CELLS 3       /* of the qreg at the top */
#define MOST_INDEX 32 /* the most bytes of an index */
#define NO_FAMILY 9   /* a number that no program here has a family for */

#define COUNT(list) (sizeof(list) / sizeof((list)[0]))

#define LITERAL(number) 64, 2, 0, number, 0
#define N 65, 1, 0, 0 /* the family's index variable */
#define I 65, 1, 0, 1 /* the variable of the loop in its body */
#define TWICE_I PRODUCT, 9, 0, LITERAL(2), I
#define ZERO_N PRODUCT, 9, 0, LITERAL(0), N

/* Puts the bytes that are named. */
#define PUT(...) put((const uint8_t[]){__VA_ARGS__}, sizeof((const uint8_t[]){__VA_ARGS__}))

/* An index, which a whole operand has none of. */
typedef struct {
    uint8_t bytes[MOST_INDEX];
    size_t length;
} index_field;

#define INDEX(...) {{__VA_ARGS__}, sizeof((const uint8_t[]){__VA_ARGS__})}
#define NO_INDEX {{0}, 0}

/* An operand: a number, and an index where it is an element. */
typedef struct {
    uint8_t number;
    index_field at;
} operand;

/* Two operands of a gate. */
typedef struct {
    const char *name;
    operand first, second;
} two;

/* The parameters of the family that the pairs below stand in: a: Qbit, b: Qbit, x: Qbit[n+3], y: Qbit[n+3]. */
enum { A, B, X, Y };

/* Pairs that are the same wire whatever n and i are. */
static const two alike[] = {
    {"a, a", {A, NO_INDEX}, {A, NO_INDEX}},
    {"b, b", {B, NO_INDEX}, {B, NO_INDEX}},
    {"x[0], x[0]", {X, INDEX(LITERAL(0))}, {X, INDEX(LITERAL(0))}},
    {"y[2], y[2]", {Y, INDEX(LITERAL(2))}, {Y, INDEX(LITERAL(2))}},
    {"x[n], x[n]", {X, INDEX(N)}, {X, INDEX(N)}},
    {"x[i], x[i]", {X, INDEX(I)}, {X, INDEX(I)}},
    {"x[1], x[2-1]", {X, INDEX(LITERAL(1))}, {X, INDEX(DIFFERENCE, 10, 0, LITERAL(2), LITERAL(1))}},
    {"x[n+1], x[1+n]", {X, INDEX(SUM, 9, 0, N, LITERAL(1))}, {X, INDEX(SUM, 9, 0, LITERAL(1), N)}},
    {"x[i], x[i+0*n]", {X, INDEX(I)}, {X, INDEX(SUM, 16, 0, I, ZERO_N)}},
    {"x[2*i-i], x[i]", {X, INDEX(DIFFERENCE, 16, 0, TWICE_I, I)}, {X, INDEX(I)}},
    {"x[n-n], x[0]", {X, INDEX(DIFFERENCE, 8, 0, N, N)}, {X, INDEX(LITERAL(0))}},
};

/* Pairs that differ: in the operand, or in the constant, a coefficient or the variable of their forms. */
static const two different[] = {
    {"a, b", {A, NO_INDEX}, {B, NO_INDEX}},
    {"a, x[0]", {A, NO_INDEX}, {X, INDEX(LITERAL(0))}},
    {"y[0], b", {Y, INDEX(LITERAL(0))}, {B, NO_INDEX}},
    {"x[0], y[0]", {X, INDEX(LITERAL(0))}, {Y, INDEX(LITERAL(0))}},
    {"x[0], x[1]", {X, INDEX(LITERAL(0))}, {X, INDEX(LITERAL(1))}},
    {"x[n], x[n+1]", {X, INDEX(N)}, {X, INDEX(SUM, 9, 0, N, LITERAL(1))}},
    {"x[0], x[n]", {X, INDEX(LITERAL(0))}, {X, INDEX(N)}},
    {"x[i], x[n]", {X, INDEX(I)}, {X, INDEX(N)}},
    {"x[i], x[0]", {X, INDEX(I)}, {X, INDEX(LITERAL(0))}},
    {"x[i], x[n-i]", {X, INDEX(I)}, {X, INDEX(DIFFERENCE, 8, 0, N, I)}},
};

/* Puts an operand. */
static void put_operand(const operand *named)
{
    size_t field = begin(named->at.length == 0 ? WHOLE : ELEMENT);

    put_byte(named->number);
    put(named->at.bytes, named->at.length);
    finish(field);
}

/* Puts a cx, or a cphase with a k; the answer is where it is. */
static size_t put_gate(unsigned tag, uint8_t k, const two *wires)
{
    size_t gate = begin(tag);

    if (tag == CPHASE) {
        PUT(LITERAL(k));
    }
    put_operand(&wires->first);
    put_operand(&wires->second);
    finish(gate);
    return gate;
}

/* Begins a program anew with a family of a, b, x and y that has a gate in a loop over i from 0 to n; the answer is where the
 * gate is. */
static size_t put_in_family(unsigned tag, const two *wires)
{
    size_t family, loop, gate;

    built.length = 0;
    family = begin(FAMILY);
    PUT(1, 4, QBIT, 0, 0, QBIT, 0, 0);
    PUT(QBITS, 12, 0, SUM, 9, 0, N, LITERAL(3), QBITS, 12, 0, SUM, 9, 0, N, LITERAL(3));
    loop = begin(FOR);
    PUT(LITERAL(0), N);
    gate = put_gate(tag, 1, wires);
    finish(loop);
    finish(family);
    return gate;
}

/* Whether all bytes are as they were. */
static int untouched(const uint8_t *bytes, size_t length)
{
    size_t i;

    for (i = 0; i < length && bytes[i] == MARK; i++) {
    }
    return i == length;
}

/* Whether the result of a call that prints is a refusal with this number and place. */
static int is_printed(metaqasm_text_result result, uint32_t number, uint32_t place)
{
    return result.number == number && result.place == place && result.records == 0 && result.steps == 0 && result.length == 0;
}

/* Where calls write. */
static uint8_t output[4 * METAQASM_RECORD_BYTES], text[METAQASM_TEXT_BYTES(4, 1)];

/* Whether the calls about a family, which need not be there, refuse what is built so. */
static int instance_refused(uint32_t family, uint32_t number, uint32_t place)
{
    static const uint8_t one[METAQASM_SIZE_BYTES] = {1};
    const uint8_t *bytes = built.bytes;
    size_t length = built.length;

    return is(metaqasm_instance(bytes, length, family, one, sizeof one, LIMIT, output, sizeof output), number, place, 0, 0) &&
           is_printed(metaqasm_instance_text(bytes, length, family, one, sizeof one, LIMIT, output, sizeof output, text,
                                             sizeof text),
                      number, place);
}

/* Whether the calls about the whole program refuse what is built so; a limit of 0 and no output make no difference. */
static int run_refused(uint32_t number, uint32_t place)
{
    const uint8_t *bytes = built.bytes;
    size_t length = built.length;

    return is(metaqasm_run(bytes, length, LIMIT, output, sizeof output), number, place, 0, 0) &&
           is(metaqasm_run(bytes, length, 0, output, 0), number, place, 0, 0) &&
           is_printed(metaqasm_run_text(bytes, length, LIMIT, output, sizeof output, text, sizeof text), number, place);
}

/* What is built is refused with one number at one place by every call, and nothing is written. */
static void refused(const char *name, uint32_t number, size_t at)
{
    uint32_t place = (uint32_t)at;
    metaqasm_result checked = metaqasm_check(built.bytes, built.length);

    memset(output, MARK, sizeof output);
    memset(text, MARK, sizeof text);
    if (!expect(is(checked, number, place, 0, 0), name, metaqasm_message(number))) {
        printf("    at %u, got %u at %u\n", place, checked.number, checked.place);
    }
    expect(run_refused(number, place) && instance_refused(0, number, place) && instance_refused(NO_FAMILY, number, place), name,
           "the check's answer from every call");
    expect(untouched(output, sizeof output) && untouched(text, sizeof text), name, "an untouched output and text");
}

/* Each pair in a loop of a family, for cx and cphase. */
static void pairs(void)
{
    static const unsigned tags[] = {CX, CPHASE};
    size_t i, k;

    for (k = 0; k < COUNT(tags); k++) {
        for (i = 0; i < COUNT(alike); i++) {
            refused(alike[i].name, METAQASM_SAME_WIRE, put_in_family(tags[k], &alike[i]));
        }
        for (i = 0; i < COUNT(different); i++) {
            put_in_family(tags[k], &different[i]);
            expect(is(metaqasm_check(built.bytes, built.length), METAQASM_DONE, 0, 0, 0), different[i].name, "to be accepted");
        }
    }
}

/* The wire of a number in the qreg. */
#define WIRE(number) {0, INDEX(LITERAL(number))}

static const two one_wire = {"q[0], q[0]", WIRE(0), WIRE(0)};

/* Begins a program anew with a qreg and a creg of 1. */
static void begin_program(void)
{
    built.length = 0;
    PUT(QREG, 2, 0, CELLS, 0, CREG, 2, 0, 1, 0);
}

/* Where a gate stands at the top: by itself, or in a field that opens with these bytes. */
typedef struct {
    const char *name;
    uint8_t head[12];
    size_t length;
    unsigned tag;
} surrounding;

static const surrounding surroundings[] = {
    {"at the top", {0}, 0, 0},
    {"in a reversal", {0}, 0, REVERSE},
    {"in a loop", {LITERAL(0), LITERAL(1)}, 10, FOR},
    {"in a loop without rounds", {LITERAL(1), LITERAL(0)}, 10, FOR},
    {"under a condition", {0, ELEMENT, 6, 0, 1, LITERAL(0)}, 10, IF},
};

/* The same gate in each surrounding; a gate on two wires before it changes nothing. */
static void surrounded(void)
{
    static const two others = {"q[1], q[2]", WIRE(1), WIRE(2)};
    size_t i, outer = 0, gate;

    for (i = 0; i < COUNT(surroundings); i++) {
        const surrounding *around = &surroundings[i];

        begin_program();
        if (around->tag != 0) {
            outer = begin(around->tag);
            put(around->head, around->length);
        }
        put_gate(CX, 0, &others);
        gate = put_gate(CPHASE, METAQASM_MOST_K + 1, &one_wire);
        if (around->tag != 0) {
            finish(outer);
        }
        refused(around->name, METAQASM_SAME_WIRE, gate);
    }
}

#define CELL(number) ELEMENT, 6, 0, 0, LITERAL(number) /* 9 bytes */

/* Fields behind the registers. */
static const refusal faults[] = {
    {"a first cell past the register", {CX, 18, 0, CELL(CELLS), CELL(CELLS)}, 21, METAQASM_NOT_SHOWN, 3},
    {"a second cell past the register", {CX, 18, 0, CELL(0), CELL(CELLS)}, 21, METAQASM_NOT_SHOWN, 12},
    {"no second operand", {CX, 9, 0, CELL(0)}, 12, METAQASM_BAD_CONTENT, 0},
    {"a byte behind the operands", {CX, 19, 0, CELL(0), CELL(0), 0}, 22, METAQASM_BAD_CONTENT, 0},
    {"a byte in the second operand", {CX, 19, 0, CELL(0), ELEMENT, 7, 0, 0, LITERAL(0), 0}, 22, METAQASM_BAD_CONTENT, 12},
    {"the whole qreg twice", {CX, 8, 0, WHOLE, 1, 0, 0, WHOLE, 1, 0, 0}, 11, METAQASM_WRONG_KIND, 3},
    {"a cell and the whole qreg", {CX, 13, 0, CELL(0), WHOLE, 1, 0, 0}, 16, METAQASM_WRONG_KIND, 12},
    {"one bit twice", {CX, 18, 0, ELEMENT, 6, 0, 1, LITERAL(0), ELEMENT, 6, 0, 1, LITERAL(0)}, 21, METAQASM_WRONG_KIND, 3},
    {"no such register twice", {CX, 8, 0, WHOLE, 1, 0, 2, WHOLE, 1, 0, 2}, 11, METAQASM_NOT_IN_SCOPE, 3},
    {"k = 0-1", {CPHASE, 31, 0, DIFFERENCE, 10, 0, LITERAL(0), LITERAL(1), CELL(0), CELL(0)}, 34, METAQASM_NOT_SHOWN, 3},
    {"no k", {CPHASE, 18, 0, CELL(0), CELL(0)}, 21, METAQASM_BAD_TAG, 3},
    {"k above 63", {CPHASE, 23, 0, LITERAL(64), CELL(1), CELL(1)}, 26, METAQASM_SAME_WIRE, 0},
    {"the gate itself", {CX, 18, 0, CELL(2), CELL(2)}, 21, METAQASM_SAME_WIRE, 0},
};

/* What is tested before in a gate stays; so does a fault before the gate, and one behind it is no longer seen. */
static void reading_order(void)
{
    static const uint8_t h_past_register[] = {H, 9, 0, CELL(CELLS)};
    size_t i, place;

    for (i = 0; i < COUNT(faults); i++) {
        begin_program();
        place = built.length + faults[i].within;
        put(faults[i].bytes, faults[i].length);
        refused(faults[i].name, faults[i].number, place);
    }
    begin_program();
    place = built.length + 3;
    put(h_past_register, sizeof h_past_register);
    put_gate(CX, 0, &one_wire);
    refused("a fault before the gate", METAQASM_NOT_SHOWN, place);
    begin_program();
    place = put_gate(CX, 0, &one_wire);
    put(h_past_register, sizeof h_past_register);
    put_byte(0);
    refused("faults behind the gate", METAQASM_SAME_WIRE, place);
}

/* What is built is accepted, and its run ends with 25 at a place, after so many records and steps. */
static void ends(const char *name, size_t place, uint64_t records, uint64_t steps)
{
    metaqasm_result result;
    metaqasm_text_result printed;
    size_t written = METAQASM_RECORD_BYTES * (size_t)records;

    memset(output, MARK, sizeof output);
    memset(text, MARK, sizeof text);
    expect(is(metaqasm_check(built.bytes, built.length), METAQASM_DONE, 0, 0, 0), name, "to be accepted");
    result = metaqasm_run(built.bytes, built.length, LIMIT, output, sizeof output);
    if (!expect(is(result, METAQASM_ONE_WIRE_TWICE, (uint32_t)place, records, steps), name, "25 from a run")) {
        printf("    got %u at %u\n", result.number, result.place);
    }
    expect(untouched(output + written, sizeof output - written), name, "no record of the gate");
    printed = metaqasm_run_text(built.bytes, built.length, LIMIT, output, sizeof output, text, sizeof text);
    expect(printed.number == METAQASM_ONE_WIRE_TWICE && printed.place == place && printed.length == 0 &&
               untouched(text, sizeof text),
           name, "25 and no text from the call that prints");
}

/* Repeats by the values of indexes: q[i] and q[0] in the round with i = 0, and q[i] and q[j] where j goes from i to i. */
static void by_values(void)
{
    static const two first = {"q[i], q[0]", {0, INDEX(N)}, WIRE(0)}, inner = {"q[i], q[j]", {0, INDEX(N)}, {0, INDEX(I)}};
    size_t loop, nested, gate;

    begin_program();
    loop = begin(FOR);
    PUT(LITERAL(0), LITERAL(2));
    gate = put_gate(CX, 0, &first);
    finish(loop);
    ends("q[i], q[0] from 0 on", gate, 0, 3);
    begin_program();
    nested = begin(REVERSE);
    loop = begin(FOR);
    PUT(LITERAL(0), LITERAL(2));
    gate = put_gate(CPHASE, 3, &first);
    finish(loop);
    finish(nested);
    ends("q[i], q[0] down to 0", gate, 2, 8);
    begin_program();
    loop = begin(FOR);
    PUT(LITERAL(1), LITERAL(2));
    nested = begin(FOR);
    PUT(N, N);
    gate = put_gate(CX, 0, &inner);
    finish(nested);
    finish(loop);
    ends("q[i], q[j] with j from i to i", gate, 0, 5);
}

/* Begins a program anew with a family of two wires, h on the first and cx on both, and one of two registers of 1, cx on their
 * cells; then the qreg and creg. The answer is where the cx of each is. */
static void begin_with_families(size_t *of_wires, size_t *of_registers)
{
    static const two wires = {"a, b", {0, NO_INDEX}, {1, NO_INDEX}}, cells = {"x[0], y[0]", WIRE(0), {1, INDEX(LITERAL(0))}};
    size_t family;

    built.length = 0;
    family = begin(FAMILY);
    PUT(0, 2, QBIT, 0, 0, QBIT, 0, 0, H, 4, 0, WHOLE, 1, 0, 0);
    *of_wires = put_gate(CX, 0, &wires);
    finish(family);
    family = begin(FAMILY);
    PUT(0, 2, QBITS, 5, 0, LITERAL(1), QBITS, 5, 0, LITERAL(1));
    *of_registers = put_gate(CX, 0, &cells);
    finish(family);
    PUT(QREG, 2, 0, CELLS, 0, CREG, 2, 0, 1, 0);
}

/* Repeats by a call: one wire for two parameters, one register for two, and slices that overlap. */
static void by_calls(void)
{
    size_t of_wires, of_registers;

    begin_with_families(&of_wires, &of_registers);
    PUT(CALL, 19, 0, 0, CELL(0), CELL(1));
    PUT(CALL, 19, 0, 0, CELL(1), CELL(1));
    ends("one wire for two parameters", of_wires, 3, 6);
    begin_with_families(&of_wires, &of_registers);
    PUT(CALL, 9, 0, 1, WHOLE, 1, 0, 0, WHOLE, 1, 0, 0);
    ends("one register for two", of_registers, 0, 2);
    begin_with_families(&of_wires, &of_registers);
    PUT(CALL, 29, 0, 1, SLICE, 11, 0, 0, LITERAL(0), LITERAL(1), SLICE, 11, 0, 0, LITERAL(1), LITERAL(2));
    PUT(CALL, 29, 0, 1, SLICE, 11, 0, 0, LITERAL(1), LITERAL(1), SLICE, 11, 0, 0, LITERAL(1), LITERAL(2));
    ends("slices that begin with one wire", of_registers, 1, 4);
}

int main(void)
{
    pairs();
    surrounded();
    reading_order();
    by_values();
    by_calls();
    return closed();
}
