/* Every limit by its name: a program at the limit is accepted, and one past it is refused with the limit's number. */
#include "build.h"
#include "expect.h"
#include <metaqasm.h>

/* So many bytes of empty reversals, three to each; what is left over is a header cut short. */
static void build_bytes(unsigned count)
{
    while (built.length + 3 <= count) {
        put((const uint8_t[]){37, 0, 0}, 3);
    }
    while (built.length < count) {
        put_byte(37);
    }
}

/* So many families with one wire each. */
static void build_families(unsigned count)
{
    while (count-- > 0) {
        put((const uint8_t[]){1, 5, 0, 0, 1, 16, 0, 0}, 8);
    }
}

/* So many registers, quantum and classical in turn. */
static void build_registers(unsigned count)
{
    while (count-- > 0) {
        put((const uint8_t[]){count % 2 == 0 ? 2 : 3, 2, 0, 0, 0}, 5);
    }
}

/* Two registers of one kind with so many locations in all. */
static void build_locations(unsigned tag, unsigned count)
{
    put((const uint8_t[]){(uint8_t)tag, 2, 0, 1, 0}, 5);
    put((const uint8_t[]){(uint8_t)tag, 2, 0}, 3);
    put_two(count - 1);
}

static void build_qubits(unsigned count)
{
    build_locations(2, count);
}

static void build_bits(unsigned count)
{
    build_locations(3, count);
}

/* A family with so many index variables. */
static void build_index_variables(unsigned count)
{
    put((const uint8_t[]){1, 5, 0, (uint8_t)count, 1, 16, 0, 0}, 8);
}

/* A family with so many parameters. */
static void build_parameters(unsigned count)
{
    unsigned i;

    for (i = 0; i < count; i++) {
        put((const uint8_t[]){16, 0, 0}, 3);
    }
    surround(1, (const uint8_t[]){0, (uint8_t)count}, 2);
}

/* So many loops inside each other. */
static void build_loops(unsigned count)
{
    while (count-- > 0) {
        surround(38, (const uint8_t[]){64, 2, 0, 0, 0, 64, 2, 0, 1, 0}, 10);
    }
}

/* So many reversals inside each other. */
static void build_reversals(unsigned count)
{
    while (count-- > 0) {
        surround(37, NULL, 0);
    }
}

/* A family with a parameter Qbit[0 + (0 + .. 0)] whose index has so many levels. */
static void build_indexes(unsigned count)
{
    static const uint8_t zero[] = {64, 2, 0, 0, 0};

    put(zero, sizeof zero);
    while (count-- > 1) {
        surround(66, zero, sizeof zero);
    }
    surround(17, NULL, 0);
    surround(1, (const uint8_t[]){0, 1}, 2);
}

/* A family with a parameter Qbit[40000 * 50000 + a small number]. */
static void build_index(unsigned number)
{
    put((const uint8_t[]){68, 10, 0, 64, 2, 0, 0x40, 0x9C, 64, 2, 0, 0x50, 0xC3, 64, 2, 0}, 16);
    put_two(number - 40000u * 50000u);
    surround(66, NULL, 0);
    surround(17, NULL, 0);
    surround(1, (const uint8_t[]){0, 1}, 2);
}

/* A limit, how a program with so many is built, and the number that one more is refused with. */
typedef struct {
    const char *name;
    unsigned most;
    void (*build)(unsigned);
    uint32_t past;
} limit;

static const limit limits[] = {
    {"bytes", METAQASM_MOST_PROGRAM_BYTES, build_bytes, METAQASM_TOO_LONG},
    {"families", METAQASM_MOST_FAMILIES, build_families, METAQASM_TOO_MANY},
    {"registers", METAQASM_MOST_REGISTERS, build_registers, METAQASM_TOO_MANY},
    {"qubits", METAQASM_MOST_QUBITS, build_qubits, METAQASM_TOO_LARGE},
    {"bits", METAQASM_MOST_BITS, build_bits, METAQASM_TOO_LARGE},
    {"index variables", METAQASM_MOST_INDEX_VARIABLES, build_index_variables, METAQASM_TOO_MANY},
    {"parameters", METAQASM_MOST_PARAMETERS, build_parameters, METAQASM_TOO_MANY},
    {"open loops", METAQASM_MOST_OPEN_LOOPS, build_loops, METAQASM_TOO_MANY},
    {"nested statements", METAQASM_MOST_NESTING, build_reversals, METAQASM_TOO_DEEP},
    {"nested indexes", METAQASM_MOST_NESTING, build_indexes, METAQASM_TOO_DEEP},
    {"an index", METAQASM_MOST_INDEX, build_index, METAQASM_FORM_OUT_OF_RANGE},
};

/* The check's number for a program with so many. */
static uint32_t checked(void (*build)(unsigned), unsigned count)
{
    built.length = 0;
    build(count);
    return metaqasm_check(built.bytes, built.length).number;
}

/* Each limit of a program, and one more. */
static void programs(void)
{
    size_t i;

    for (i = 0; i < sizeof limits / sizeof limits[0]; i++) {
        const limit *one = &limits[i];
        expect(checked(one->build, one->most) == METAQASM_DONE, one->name, "a program at the limit to be accepted");
        expect(checked(one->build, one->most + 1) == one->past, one->name, "a program past the limit to be refused");
    }
}

/* The largest size, and one more. */
static void sizes(void)
{
    /* a family of n with a parameter Qbit[n] */
    static const uint8_t family[] = {1, 9, 0, 1, 1, 17, 4, 0, 65, 1, 0, 0};
    static const uint8_t most[] = {METAQASM_MOST_SIZE & 255, METAQASM_MOST_SIZE >> 8, 0, 0};
    static const uint8_t past[] = {(METAQASM_MOST_SIZE + 1) & 255, ((METAQASM_MOST_SIZE + 1) >> 8) & 255,
                                   (METAQASM_MOST_SIZE + 1) >> 16, 0};
    metaqasm_result result;

    result = metaqasm_instance(family, sizeof family, 0, most, sizeof most, 0, NULL, 0);
    expect(result.number == METAQASM_DONE, "a size", "the largest to be laid out");
    result = metaqasm_instance(family, sizeof family, 0, past, sizeof past, 0, NULL, 0);
    expect(result.number == METAQASM_SIZE_TOO_LARGE, "a size", "one more to be refused");
    expect(sizeof most == METAQASM_SIZE_BYTES, "a size", "four bytes");
}

int main(void)
{
    programs();
    sizes();
    return closed();
}
