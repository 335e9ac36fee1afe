/* The Fourier transform in libquantum: at n = 1 to 6 it does what libquantum's own transform does, and its reverse takes every
 * number back; the adder that is built on it adds and subtracts every input at n = 1 to 4.
 * Run it from the repository's root. */
#include "play.h"

/* The numbers of the families. */
enum { QFT, UNQFT, ADD, SUB };

#define MOST_QUBITS 6
#define MOST_CELLS 4

/* Whether a number is transformed as libquantum does it, in all amplitudes. */
static int transforms(const gates *list, int wires, unsigned x)
{
    quantum_reg ours = quantum_new_qureg(x, wires), theirs = quantum_new_qureg(x, wires);
    int right = play(list, &ours);
    unsigned y;

    quantum_qft(wires, &theirs);
    for (y = 0; y < 1u << wires; y++) {
        right = right && near(amplitude(&ours, y), amplitude(&theirs, y));
    }
    quantum_delete_qureg(&ours);
    quantum_delete_qureg(&theirs);
    return right;
}

/* How many numbers are transformed as libquantum does it. */
static unsigned transformed(const gates *list, int wires)
{
    unsigned x, right = 0;

    for (x = 0; x < 1u << wires; x++) {
        right += (unsigned)transforms(list, wires, x);
    }
    return right;
}

/* Whether a number comes back. */
static int comes_back(const gates *there, const gates *back, int wires, unsigned x)
{
    quantum_reg state = quantum_new_qureg(x, wires);
    int right = play(there, &state) && play(back, &state) && near(amplitude(&state, x), 1);

    quantum_delete_qureg(&state);
    return right;
}

/* How many numbers come back. */
static unsigned back_again(const gates *there, const gates *back, int wires)
{
    unsigned x, right = 0;

    for (x = 0; x < 1u << wires; x++) {
        right += (unsigned)comes_back(there, back, wires, x);
    }
    return right;
}

/* Holds the transform of so many qubits, and its reverse, to all numbers, and notices lists that are wrong. */
static void transform(const program *from, uint8_t n)
{
    static gates there, back, wrong;
    unsigned numbers = 1u << n;
    char name[32];

    snprintf(name, sizeof name, "qft at n = %u", n);
    if (!ask(&there, from, QFT, n) || !ask(&back, from, UNQFT, n)) {
        return;
    }
    expect(transformed(&there, n) == numbers, name, "every number to be transformed");
    expect(back_again(&there, &back, n) == numbers, name, "every number to come back");
    if (n > 1) {
        wrong = broken(&there, METAQASM_OP_CPHASE, METAQASM_OP_CPHASEDG);
        expect(transformed(&wrong, n) < numbers, name, "a wrong gate to be noticed");
        expect(back_again(&wrong, &back, n) < numbers, name, "a wrong gate to be noticed on the way back");
    }
    wrong = cut(&there);
    expect(transformed(&wrong, n) < numbers, name, "a missing gate to be noticed");
    printf("%s: %u numbers, %llu gates\n", name, numbers, (unsigned long long)there.records);
}

/* How many pairs of inputs are added, or subtracted: the wires are those of a, then those of b, which becomes b + a, or
 * b - a. */
static unsigned pairs_done(const gates *list, unsigned cells, int is_sub)
{
    unsigned a, b, right = 0, mask = (1u << cells) - 1;

    for (a = 0; a <= mask; a++) {
        for (b = 0; b <= mask; b++) {
            unsigned due = (is_sub ? b - a : b + a) & mask;

            right += (unsigned)takes(list, (int)(2 * cells), a | b << cells, a | due << cells);
        }
    }
    return right;
}

/* Holds the adder of so many cells, and its reverse, to all inputs. */
static void add(const program *from, uint8_t n)
{
    static gates sum, difference, wrong;
    unsigned pairs = 1u << 2 * n;
    char name[64];

    snprintf(name, sizeof name, "add in Fourier space at n = %u", n);
    if (!ask(&sum, from, ADD, n) || !ask(&difference, from, SUB, n)) {
        return;
    }
    expect(pairs_done(&sum, n, 0) == pairs, name, "every pair of inputs to be added");
    expect(pairs_done(&difference, n, 1) == pairs, name, "every pair of inputs to be subtracted by its reverse");
    wrong = cut(&sum);
    expect(pairs_done(&wrong, n, 0) < pairs, name, "a missing gate to be noticed");
    printf("%s: %u pairs of inputs, %llu gates\n", name, pairs, (unsigned long long)sum.records);
}

int main(void)
{
    static program from;
    uint8_t n;

    if (!read_program(&from, "examples/qft.bytes")) {
        return closed();
    }
    for (n = 1; n <= MOST_QUBITS; n++) {
        transform(&from, n);
    }
    for (n = 1; n <= MOST_CELLS; n++) {
        add(&from, n);
    }
    return closed();
}
