/* Loading the library's lists into a simulator that was not written here, libquantum. */
#ifndef PLAY_H
#define PLAY_H

#include "../expect.h"
#include "../load.h"
#include <complex.h>
#include <metaqasm.h>
#include <quantum.h>

#define MOST_RECORDS 1024
#define FULL_TURN 6.2831853f

/* A list of gates. */
typedef struct {
    uint8_t output[METAQASM_RECORD_BYTES * MOST_RECORDS];
    uint64_t records;
} gates;

/* A program from a file. */
typedef struct {
    uint8_t bytes[METAQASM_MOST_PROGRAM_BYTES];
    size_t length;
} program;

/* Reads a program; the answer is 0 where it cannot be read. */
static inline int read_program(program *into, const char *path)
{
    long length = load(path, into->bytes, sizeof into->bytes);

    into->length = length > 0 ? (size_t)length : 0;
    return expect(length > 0 && (size_t)length <= sizeof into->bytes, path, "a program that can be read");
}

/* Asks the library for a family at one n. */
static inline int ask(gates *list, const program *from, uint32_t family, uint8_t n)
{
    const uint8_t sizes[METAQASM_SIZE_BYTES] = {n, 0, 0, 0};
    metaqasm_result result = metaqasm_instance(from->bytes, from->length, family, sizes, sizeof sizes, 10000, list->output,
                                               sizeof list->output);

    list->records = result.records;
    return expect(result.number == METAQASM_DONE, "a family", metaqasm_message(METAQASM_DONE));
}

/* The two-byte number at a place, low byte first. */
static inline int two(const uint8_t *bytes)
{
    return bytes[0] | bytes[1] << 8;
}

/* One turn divided by 2 to the k. */
static inline float part(int k)
{
    return FULL_TURN / (float)((uint64_t)1 << k);
}

/* Does one gate; the answer is 0 for a record that no family's list can have. */
static inline int gate(const uint8_t *record, quantum_reg *state)
{
    int first = two(record + 2), second = two(record + 4), k = two(record + 8);

    if (record[1] != METAQASM_ALWAYS || first >= state->width || second >= state->width || k > METAQASM_MOST_K) {
        return 0;
    }
    switch (record[0]) {
    case METAQASM_OP_H:
        quantum_hadamard(first, state);
        return 1;
    case METAQASM_OP_T:
        quantum_phase_kick(first, part(3), state);
        return 1;
    case METAQASM_OP_TDG:
        quantum_phase_kick(first, -part(3), state);
        return 1;
    case METAQASM_OP_CX:
        quantum_cnot(first, second, state);
        return 1;
    case METAQASM_OP_PHASE:
        quantum_phase_kick(first, part(k), state);
        return 1;
    case METAQASM_OP_PHASEDG:
        quantum_phase_kick(first, -part(k), state);
        return 1;
    case METAQASM_OP_CPHASE:
        quantum_cond_phase_kick(first, second, part(k), state);
        return 1;
    case METAQASM_OP_CPHASEDG:
        quantum_cond_phase_kick(first, second, -part(k), state);
        return 1;
    default:
        return 0;
    }
}

/* Does all gates of a list; the answer is 0 where a record could not be done. */
static inline int play(const gates *list, quantum_reg *state)
{
    uint64_t i;

    for (i = 0; i < list->records; i++) {
        if (!gate(list->output + METAQASM_RECORD_BYTES * i, state)) {
            return 0;
        }
    }
    return 1;
}

/* The amplitude of a setting of all wires. */
static inline float complex amplitude(const quantum_reg *state, unsigned long long setting)
{
    float complex found = 0;
    int i;

    for (i = 0; i < state->size; i++) {
        if (state->state[i] == setting) {
            found += state->amplitude[i];
        }
    }
    return found;
}

/* Whether two amplitudes are nearly the same. */
static inline int near(float complex one, float complex other)
{
    return cabsf(one - other) < 0.001f;
}

/* Whether a list takes one setting to another, with amplitude 1. */
static inline int takes(const gates *list, int wires, unsigned long long from, unsigned long long to)
{
    quantum_reg state = quantum_new_qureg(from, wires);
    int right = play(list, &state) && near(amplitude(&state, to), 1);

    quantum_delete_qureg(&state);
    return right;
}

/* How many pairs of inputs are multiplied, or taken back: the wires are those of x, of y and of the product, which has twice as
 * many, and perhaps one more, which starts at 0 and ends there. */
static inline unsigned products_done(const gates *list, unsigned cells, int wires, int is_back)
{
    unsigned x, y, right = 0, mask = (1u << cells) - 1;

    for (x = 0; x <= mask; x++) {
        for (y = 0; y <= mask; y++) {
            unsigned before = x | y << cells, after = before | x * y << 2 * cells;

            right += (unsigned)takes(list, wires, is_back ? after : before, is_back ? before : after);
        }
    }
    return right;
}

/* The same list with the first record of an operation turned into another one, which is a wrong list. */
static inline gates broken(const gates *list, uint8_t op, uint8_t other)
{
    gates wrong = *list;
    uint64_t i = 0;

    while (i < wrong.records && wrong.output[METAQASM_RECORD_BYTES * i] != op) {
        i++;
    }
    if (expect(i < wrong.records, "a list", "the operation to be broken")) {
        wrong.output[METAQASM_RECORD_BYTES * i] = other;
    }
    return wrong;
}

/* The same list without its last record. */
static inline gates cut(const gates *list)
{
    gates wrong = *list;

    wrong.records--;
    return wrong;
}

#endif
