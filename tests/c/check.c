/* Checks four programs through the C interface: one accepted, one refused by a typing rule, one too long, one empty. */
#include "expect.h"
#include <metaqasm.h>

/* Holds a check's answer to a number and a place; nothing is run. */
static void is(const char *name, metaqasm_result got, uint32_t number, uint32_t place)
{
    int met = got.number == number && got.place == place && got.records == 0 && got.steps == 0;

    if (!expect(met, name, metaqasm_message(number))) {
        printf("    at %u, got %u (%s) at %u\n", place, got.number, metaqasm_message(got.number), got.place);
    }
}

int main(void)
{
    /* qreg of 2; h on wire 0; cx from wire 0 to wire 1 */
    static const uint8_t bell[] = {
        0x02, 0x02, 0x00, 0x02, 0x00, 0x20, 0x09, 0x00, 0x31, 0x06, 0x00, 0x00, 0x40, 0x02, 0x00, 0x00, 0x00, 0x23, 0x12,
        0x00, 0x31, 0x06, 0x00, 0x00, 0x40, 0x02, 0x00, 0x00, 0x00, 0x31, 0x06, 0x00, 0x00, 0x40, 0x02, 0x00, 0x01, 0x00,
    };
    /* a family of n with x: Qbit[n], whose body is h on x[0]: n may be 0 */
    static const uint8_t unshown[] = {
        0x01, 0x15, 0x00, 0x01, 0x01, 0x11, 0x04, 0x00, 0x41, 0x01, 0x00, 0x00,
        0x20, 0x09, 0x00, 0x31, 0x06, 0x00, 0x00, 0x40, 0x02, 0x00, 0x00, 0x00,
    };
    static const uint8_t long_program[METAQASM_MOST_PROGRAM_BYTES + 1];

    is("Bell", metaqasm_check(bell, sizeof bell), METAQASM_DONE, 0);
    is("x[0] of Qbit[n]", metaqasm_check(unshown, sizeof unshown), METAQASM_NOT_SHOWN, 15);
    is("65,536 bytes", metaqasm_check(long_program, sizeof long_program), METAQASM_TOO_LONG, 0);
    is("no bytes", metaqasm_check(bell, 0), METAQASM_DONE, 0);
    return closed();
}
