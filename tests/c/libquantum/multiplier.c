/* The multiplier, which adds to slices, in libquantum: every pair of inputs is multiplied at n = 1 to 3 and stays, and the
 * reverse takes every product back to 0; as the slides print it, products from n = 2 on lose their carries.
 * Run it from the repository's root. */
#include "play.h"

/* The numbers of the families. */
enum { MULT = 5, UNMULT = 6, MULT_PRINTED = 7 };

#define MOST_CELLS 3

/* Holds the multiplier of so many cells, and its reverse, to all inputs, and notices lists that are wrong. */
static void multiply(const program *from, uint8_t n)
{
    static gates product, back, printed, wrong;
    unsigned pairs = 1u << 2 * n;
    int wires = 4 * n;
    char name[32];

    snprintf(name, sizeof name, "mult at n = %u", n);
    if (!ask(&product, from, MULT, n) || !ask(&back, from, UNMULT, n) || !ask(&printed, from, MULT_PRINTED, n)) {
        return;
    }
    expect(products_done(&product, n, wires, 0) == pairs, name, "every pair of inputs to be multiplied");
    expect(products_done(&back, n, wires, 1) == pairs, name, "every product to be taken back by its reverse");
    expect((products_done(&printed, n, wires, 0) == pairs) == (n == 1), name, "lost carries where the slices are a cell shorter");
    wrong = cut(&product);
    expect(products_done(&wrong, n, wires, 0) < pairs, name, "a missing gate to be noticed");
    wrong = broken(&product, METAQASM_OP_CPHASEDG, METAQASM_OP_CPHASE);
    expect(products_done(&wrong, n, wires, 0) < pairs, name, "a wrong gate to be noticed");
    printf("%s: %u pairs of inputs, %llu gates\n", name, pairs, (unsigned long long)product.records);
}

int main(void)
{
    static program from;
    uint8_t n;

    if (!read_program(&from, "examples/multiplier.bytes")) {
        return closed();
    }
    for (n = 1; n <= MOST_CELLS; n++) {
        multiply(&from, n);
    }
    return closed();
}
