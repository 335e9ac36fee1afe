/* The multiplier that takes its adder as an argument, in libquantum, with each of two adders: every pair of inputs is
 * multiplied at n = 1 to 3 and stays, the qubit for carries ends at 0, and the reverse takes every product back to 0.
 * Run it from the repository's root. */
#include "play.h"

#define MOST_CELLS 3

/* The families that pass an adder, to multiply and to take that back, and an operation of the adder with its inverse. */
typedef struct {
    const char *name;
    uint32_t forward;
    uint32_t backward;
    uint8_t op;
    uint8_t inverse;
} passed;

static const passed adders[] = {
    {"mult_ripple", 9, 11, METAQASM_OP_TDG, METAQASM_OP_T},
    {"mult_fourier", 10, 12, METAQASM_OP_CPHASEDG, METAQASM_OP_CPHASE},
};

/* Holds the multiplier of so many cells with one adder, and its reverse, to all inputs, and notices lists that are wrong. */
static void multiply(const program *from, const passed *adder, uint8_t n)
{
    static gates product, back, wrong;
    unsigned pairs = 1u << 2 * n;
    int wires = 4 * n + 1;
    char name[32];

    snprintf(name, sizeof name, "%s at n = %u", adder->name, n);
    if (!ask(&product, from, adder->forward, n) || !ask(&back, from, adder->backward, n)) {
        return;
    }
    expect(products_done(&product, n, wires, 0) == pairs, name, "every pair of inputs to be multiplied");
    expect(products_done(&back, n, wires, 1) == pairs, name, "every product to be taken back by its reverse");
    wrong = cut(&product);
    expect(products_done(&wrong, n, wires, 0) < pairs, name, "a missing gate to be noticed");
    wrong = broken(&product, adder->op, adder->inverse);
    expect(products_done(&wrong, n, wires, 0) < pairs, name, "a wrong gate to be noticed");
    printf("%s: %u pairs of inputs, %llu gates\n", name, pairs, (unsigned long long)product.records);
}

int main(void)
{
    static program from;
    uint8_t n;

    if (!read_program(&from, "examples/multiplier-of.bytes")) {
        return closed();
    }
    for (n = 1; n <= MOST_CELLS; n++) {
        multiply(&from, &adders[0], n);
        multiply(&from, &adders[1], n);
    }
    return closed();
}
