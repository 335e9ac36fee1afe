/* The paper's adder in libquantum: at n = 0 to 3 it adds every input, one by one and all at once.
 * Run it from the repository's root. */
#include "play.h"

#define ADD 2 /* the number of the family add, behind toffoli and maj */
#define MOST_CELLS 4

/* The setting of all wires in which c is a + b and anc has the carries; the wires are those of a, b, c and anc in turn. */
static unsigned long long added(unsigned a, unsigned b, unsigned cells)
{
    unsigned long long sum = (a + b) & ((1u << cells) - 1);
    unsigned long long carries = ((a + b) ^ a ^ b) >> 1;

    return a | b << cells | sum << (2 * cells) | carries << (3 * cells);
}

/* How many pairs of inputs are added. */
static unsigned added_pairs(const gates *list, unsigned cells)
{
    unsigned a, b, right = 0;

    for (a = 0; a < 1u << cells; a++) {
        for (b = 0; b < 1u << cells; b++) {
            right += (unsigned)takes(list, (int)(4 * cells), a | b << cells, added(a, b, cells));
        }
    }
    return right;
}

/* Whether all pairs are added at once, from all of them with equal amplitudes. */
static int adds_at_once(const gates *list, unsigned cells)
{
    quantum_reg state = quantum_new_qureg(0, (int)(4 * cells));
    unsigned wire, a, b;
    int right;

    for (wire = 0; wire < 2 * cells; wire++) {
        quantum_hadamard((int)wire, &state);
    }
    right = play(list, &state);
    for (a = 0; a < 1u << cells; a++) {
        for (b = 0; b < 1u << cells; b++) {
            right = right && near(amplitude(&state, added(a, b, cells)), 1.0f / (float)(1u << cells));
        }
    }
    quantum_delete_qureg(&state);
    return right;
}

/* Holds add at one n to all its inputs, and notices lists that are wrong. */
static void add(const program *from, uint8_t n)
{
    static gates list, wrong;
    unsigned cells = n + 1u, pairs = 1u << 2 * cells;
    char name[32];

    snprintf(name, sizeof name, "add at n = %u", n);
    if (!ask(&list, from, ADD, n)) {
        return;
    }
    expect(added_pairs(&list, cells) == pairs, name, "every pair of inputs to be added");
    expect(adds_at_once(&list, cells), name, "all pairs to be added at once");
    wrong = broken(&list, METAQASM_OP_TDG, METAQASM_OP_T);
    expect(added_pairs(&wrong, cells) < pairs, name, "a wrong gate to be noticed");
    wrong = cut(&list);
    expect(added_pairs(&wrong, cells) < pairs, name, "a missing gate to be noticed");
    printf("%s: %u pairs of inputs, %llu gates\n", name, pairs, (unsigned long long)list.records);
}

int main(void)
{
    static program from;
    uint8_t n;

    if (read_program(&from, "examples/adder.bytes")) {
        for (n = 0; n < MOST_CELLS; n++) {
            add(&from, n);
        }
    }
    return closed();
}
