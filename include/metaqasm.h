/* The calls of the metaQASM library, for C and C++ on x86-64 Linux.
 *
 * Build the archive with `bash tools/build.sh metaqasm` (it writes target/staticlib/libmetaqasm.a) and link it:
 *
 *     cc -I include host.c target/staticlib/libmetaqasm.a -o host
 *
 * A host needs this file, metaqasm_numbers.def beside it and the archive. C99 and C++11 and what came after will do.
 *
 * What a caller owes:
 *   - Each pointer is valid for the length given with it: so many bytes can be read there, and in the output and the text
 *     written. Where the length is 0, any pointer will do, NULL too: it is neither read nor written.
 *   - During the call, nobody else changes a byte of the program, the sizes, the output or the text: no other thread, no
 *     process that shares the memory, no signal handler, no device. So bytes that a guest can still reach are copied first,
 *     and it is the copy that is handed over. (The program is checked and then run; one that is changed in between may be
 *     read past its end.)
 *   - Output and text overlap neither each other, nor the program, nor the sizes, and no buffer of another call that is made
 *     at the same time. Calls at the same time may share a program and sizes.
 *   - The thread has the stack that is said at METAQASM_STACK_KIB.
 * Nothing else is asked. Every byte string, number and length has an answer and every call ends. The library keeps no state
 * between calls, and uses no heap, no files and no globals, so calls may run on any number of threads at once.
 *
 * Time. The figures are of common machines of two cores, with archives that an older kit built (rattle-kit-5b-plain). A check
 * takes at most some 25 to 40 ns for each byte of the program, 1.5 to 2.5 ms for the longest, unless it is written to be slow:
 * 8 loops in each other, and indexes that are there only because the outermost has a round, take up to 450 ns a byte, 30 ms for
 * the longest. (metaqasm_showing.h has a call that says of one index form how far a check goes for it.)
 * The step limit bounds steps, not seconds: a step takes time in proportion to the indexes and operands of its own statement
 * (and, where a list begins to run backward, to the fields of the list). Most take 0.1 microseconds or less. The slowest found
 * are gates in a loop with an index of 60,000 bytes, which each round evaluates: 0.07 ms a step, or 1 ns for each byte of the
 * program, and twice that while the machine was busy. Reckon with at most 0.2 ms, or 3 ns a byte.
 * The calls that print a text go through the list twice more, to measure the text and to print it: some 5 to 20 ns a record,
 * and 10 ns for each declared bit.
 * A call cannot be cancelled: give it a limit that may be waited for, or make it in a process that may be ended. (A later
 * version may bring runs that can be left.)
 *
 * How to choose the limit and the lengths of output and text:
 *   - Output: METAQASM_RECORD_BYTES for each gate that you are ready to load; a list that is longer ends with 27.
 *   - Text: METAQASM_TEXT_BYTES of the records that the output holds and the bits that the program may declare; a text that
 *     is longer than its buffer ends with 30.
 *   - Limit, for programs that you trust: each record takes a step, and so does each call, loop, round, reversal and condition
 *     around it. Four steps for each record that the output holds are enough for most families.
 *   - Limit, for programs that may be written to be slow: the longest that you would wait, divided by 0.1 microseconds and
 *     3 ns more for each byte of the program. For 1 s these are some 300,000 steps at 1,000 bytes and 5,000 at 65,535.
 *     (1,000,000 steps may take 200 s there.)
 *
 * Coming from 1.6: a cx or cphase whose operands are the same wire as they stand in the program, as cx q[0], q[0], is refused
 * with the number 35, at the gate. The check passed it before, and a run that came to it ended with 25. Be ready for 35 from
 * every call, also about programs whose runs never come to such a gate. Operands that come to be one wire only in a run still
 * end it with 25. A program without such a gate is answered as it was, and records, steps and texts are what they were.
 * Coming from 1.5: a family may take families. The type of such a parameter (tag 18) says how many sizes and which wires and
 * registers a family has that is passed there; a call passes a declared family by its two-byte number (operand tag 51), and the
 * body calls its parameter (statement tag 42). These tags were refused with 3 before. Be ready for two more numbers: 33, where
 * a program passes a family that is not declared before the one it calls, and 34 from an instance, where it is asked of a
 * family that takes families. A program without the new tags is answered as it was, and records, steps and texts are what they
 * were.
 * Coming from 1.4: an index inside a loop may be there because the loop has a round, as x[0] inside `for i = 1..n-1` where x has
 * n cells. It was refused with 12 before. Only programs that were refused with 12 are answered otherwise: they are accepted, or
 * refused for what comes later. Numbers, records, steps and texts are what they were, and a host needs no change.
 * Coming from 1.3: a program may hand a part of a register to a parameter that takes a register, by a slice (operand tag 50: a
 * number byte, the first index and the last one, which is in the slice). It was refused with 3 before. Numbers, records, steps
 * and texts are what they were, and a host needs no change.
 * Coming from 1.2: a record takes 12 bytes and no longer 8, whatever its operation, and so an output holds two thirds of the
 * records that it held. Build the host anew with this header, go through lists by METAQASM_RECORD_BYTES, and be ready for four
 * more operations and for the number 32. The line of a record takes up to 64 bytes of a text and no longer 45. Bytes 0 to 7 of
 * a record are what they were, and so are the texts of programs without phases.
 */
#ifndef METAQASM_H
#define METAQASM_H

#include <stddef.h>
#include <stdint.h>

#ifdef __cplusplus
extern "C" {
#endif

/* The version of this header and of the archive that is built beside it. */
#define METAQASM_VERSION "1.7.0"

/* The stack that a call needs at most, in KiB, for every program within the limits and beside what the host has in use there;
 * and what a check alone needs. On less, a deep program may end the process at the guard page below the stack. (The first
 * thread of a process usually has 8,192 KiB, as `ulimit -s` says; where that is not enough, calls are made on a thread that
 * is given more.) Both are measured with the deepest programs, which need 8,232 KiB, and 400 KiB for a check (`cargo run
 * --release -p compare --bin stack` in tests prints the need beside these figures, and a test holds the library to them). The
 * check's tables lie there, too: 350 KiB, or 48 KiB for a program of at most 4,096 bytes. */
#define METAQASM_STACK_KIB 8704
#define METAQASM_CHECK_STACK_KIB 432

/* Limits of a program; what goes past one is refused. A call names families 0 to 255 by one byte, and all others by two. */
#define METAQASM_MOST_PROGRAM_BYTES 65535
#define METAQASM_MOST_FAMILIES 4096
#define METAQASM_MOST_REGISTERS 255      /* qregs and cregs together */
#define METAQASM_MOST_QUBITS 65535       /* of all qregs, or of an instance's parameters */
#define METAQASM_MOST_BITS 65535         /* of all cregs */
#define METAQASM_MOST_INDEX_VARIABLES 4  /* of a family, and of a family type */
#define METAQASM_MOST_PARAMETERS 8       /* of a family, and of a family type, which have 1 at least */
#define METAQASM_MOST_OPEN_LOOPS 8
#define METAQASM_MOST_NESTING 16         /* of statements, and of indexes */
#define METAQASM_MOST_INDEX 2000000000   /* of an index, above 0 and below */
#define METAQASM_MOST_SIZE 65535         /* of an index variable that an instance is asked for */

/* The largest k of a phase, whose angle is one turn divided by 2 to the k. A program with a larger one is accepted, and a run
 * that comes to it ends with 32. */
#define METAQASM_MOST_K 63

/* How many bytes a size takes, and how many a record. */
#define METAQASM_SIZE_BYTES 4
#define METAQASM_RECORD_BYTES 12

/* How many bytes a text takes at most: the lines before the bits and records, the line of a bit, and that of a record. So many
 * are always enough, and that is proved. */
#define METAQASM_MOST_HEAD_BYTES 51
#define METAQASM_MOST_BIT_LINE_BYTES 16
#define METAQASM_MOST_RECORD_LINE_BYTES 64
#define METAQASM_TEXT_BYTES(records, bits) \
    (METAQASM_MOST_HEAD_BYTES + METAQASM_MOST_BIT_LINE_BYTES * (size_t)(bits) + \
     METAQASM_MOST_RECORD_LINE_BYTES * (size_t)(records))

/* The numbers that a call answers: METAQASM_DONE = 0, METAQASM_TOO_LONG = 1, .. METAQASM_NOT_SHOWN = 12, ..
 * metaqasm_numbers.def has each of them, one to a line, with its name and what it means; programs in other languages can
 * read it too.
 *
 *    0        done: the program is accepted, or the list is complete
 *    1 to 13  from every call: the program is refused. Records and steps are 0, and the output is as it was.
 *   20 to 23  from an instance: what is asked for cannot be had. Records and steps are 0, and the output is as it was.
 *   24 to 27  from an instance or a run: it has ended early. The output holds the records so far, and records and steps
 *             count what was written and taken so far.
 *   30        from a call that prints a text: the list is complete, and its text does not fit. The output holds the list,
 *             and records and steps count it.
 *   31        from every call: the program is refused, as with 1 to 13
 *   32        from an instance or a run: it has ended early, as with 24 to 27
 *   33        from every call: the program is refused, as with 1 to 13
 *   34        from an instance: what is asked for cannot be had, as with 20 to 23
 *   35        from every call: the program is refused, as with 1 to 13
 *
 * 25 and 35 are both about a cx or cphase with one wire twice. With 35 the program says so itself: both operands are the same
 * Qbit parameter, or elements of the same register or parameter at indexes of the same form, however these are spelled, as q[1]
 * and q[2-1] or x[n+i] and x[i+n]. Such a gate can never run, and it is refused wherever it stands, also in a loop without
 * rounds or in a family that is never called. With 25 the operands come to be one wire in this run: by the values of their
 * indexes, as q[i] and q[0] in the round with i = 0, or by a call, as two parameters that get the same wire or registers that
 * overlap.
 *
 * A call that prints a text answers as an instance or a run does, and with 30 after all else. Where its number is not 0, the
 * text is as it was. */
enum metaqasm_number {
#define METAQASM_NUMBER(value, name, message) METAQASM_##name = value,
#include "metaqasm_numbers.def"
#undef METAQASM_NUMBER
};

/* A plain sentence for a number. It is never null: a number that no call answers has a sentence that says so. */
static inline const char *metaqasm_message(uint32_t number)
{
    switch (number) {
#define METAQASM_NUMBER(value, name, message) \
    case value: \
        return message;
#include "metaqasm_numbers.def"
#undef METAQASM_NUMBER
    default:
        return "no call of this version answers with this number";
    }
}

/* The answer of a call.
 *
 * number   0: done. Otherwise the program or the call is turned down, or the run has ended early (see above)
 * place    the offset in the program of the tag that the number is about: for 24 to 27 and 32 that of the statement (or, where
 *          a parameter's size is out of range, of its type), for 23 that of the type, for 35 that of the cx or cphase; 0 where
 *          the number is 0, 20 to 22, 30 or 34
 * records  how many 12-byte records are written
 * steps    how many steps are taken
 */
typedef struct {
    uint32_t number;
    uint32_t place;
    uint64_t records;
    uint64_t steps;
} metaqasm_result;

/* Checks a program. Number 0 says that it is accepted: then every run of it, and every instance of every family of it at
 * every sizes, comes to one of the ends above and never to anything else. (For a family that takes families that is 34: only
 * a call can pass one.) Records and steps are 0, as nothing is run.
 *
 * program  the program's bytes; NULL is allowed where program_len is 0 (the empty program, which is accepted) */
metaqasm_result metaqasm_check(const uint8_t *program, size_t program_len);

/* The gate list that instance and run write is a row of records of 12 bytes each, from the output's first byte on. Two-byte
 * numbers have their low byte first, and what an operation does not use is 0:
 *
 *   byte 0         the operation: one of METAQASM_OP_H to METAQASM_OP_CPHASEDG
 *   byte 1         the condition: one of METAQASM_ALWAYS to METAQASM_IF_1
 *   bytes 2, 3     the first number: the wire, or the first of two (for cx the control)
 *   bytes 4, 5     the second number: the second of two wires (for cx the target), or for measure the bit that is written
 *   bytes 6, 7     the condition bit, where there is a condition
 *   bytes 8, 9     k, for the four operations from METAQASM_OP_PHASE on: 0 to METAQASM_MOST_K
 *   bytes 10, 11   0
 *
 * A phase multiplies by exp(2 pi i / 2^k) where its wire is 1, a cphase where both its wires are; an inverse multiplies by
 * exp(-2 pi i / 2^k). Wires and bits are numbered separately, each from 0. The result says how many records there are; the
 * output's bytes past them are left as they were. Each statement entered takes one step, and each round of a loop one more. */
enum metaqasm_op {
    METAQASM_OP_H = 1,
    METAQASM_OP_T = 2,
    METAQASM_OP_TDG = 3,
    METAQASM_OP_CX = 4,
    METAQASM_OP_MEASURE = 5,
    METAQASM_OP_RESET = 6,
    METAQASM_OP_PHASE = 7,
    METAQASM_OP_PHASEDG = 8, /* the inverse of phase */
    METAQASM_OP_CPHASE = 9,
    METAQASM_OP_CPHASEDG = 10 /* the inverse of cphase */
};

enum metaqasm_condition {
    METAQASM_ALWAYS = 0, /* no condition */
    METAQASM_IF_0 = 1,   /* if the condition bit is 0 */
    METAQASM_IF_1 = 2    /* if the condition bit is 1 */
};

/* Checks a program and lists one of its families at given sizes.
 *
 * program  the program's bytes; NULL is allowed where program_len is 0 (it has no family: 20)
 * family   the number of the family; families are numbered from 0 as declared, and so up to METAQASM_MOST_FAMILIES - 1
 * sizes    the values of the family's index variables in order, four bytes for each, unsigned, low byte first; NULL is
 *          allowed where sizes_len is 0 (as it is for a family without index variables)
 * limit    the most steps that may be taken
 * output   where the list is written; NULL is allowed where output_len is 0 (27 where a record is due)
 *
 * The parameters are laid out in order from wire 0 on: a Qbit takes one wire, a Qbit[I] as many as I's value at the sizes. A
 * family with a parameter that takes a family has no list of its own: 34, whatever the sizes are, and before 21 to 23.
 * Number 0 says that the list is complete. */
metaqasm_result metaqasm_instance(const uint8_t *program, size_t program_len, uint32_t family, const uint8_t *sizes,
                                  size_t sizes_len, uint64_t limit, uint8_t *output, size_t output_len);

/* Checks a program and lists its whole run. Wires are numbered as the program's qregs declare them, bits as its cregs do.
 * Number 0 says that the list is complete.
 *
 * program  the program's bytes; NULL is allowed where program_len is 0 (the empty program, whose list is empty)
 * limit    the most steps that may be taken
 * output   where the list is written; NULL is allowed where output_len is 0 (27 where a record is due) */
metaqasm_result metaqasm_run(const uint8_t *program, size_t program_len, uint64_t limit, uint8_t *output,
                             size_t output_len);

/* The text that instance_text and run_text print is the list in OpenQASM 2.0, for other programs to load. Each line ends in a
 * line feed:
 *
 *   OPENQASM 2.0;
 *   include "qelib1.inc";
 *   qreg q[3];              the number of wires that are laid out; the line is left out where it is 0
 *   creg c0[1];             then so for each bit, rising
 *   h q[2];                 then a line for each record, in order; likewise t and tdg
 *   cx q[0],q[1];           the control, then the target
 *   measure q[0] -> c1[0];
 *   reset q[0];
 *   u1(2*pi/8) q[0];        a phase with k = 3; its inverse is u1(-2*pi/8) q[0];
 *   cu1(2*pi/4) q[1],q[0];  a cphase with k = 2; its inverse is cu1(-2*pi/4) q[1],q[0];
 *   if(c1==1) h q[2];       a record with a condition
 *
 * An instance lays out the wires of its parameters and no bits, and a run all qubits and bits that the program declares.
 * Different lists on the same wires and bits have different texts.
 *
 * The text is not ended by a zero byte: the result says how long it is, and the bytes past it are left as they were. */

/* The answer of a call that prints a text.
 *
 * number, place, records, steps   as in metaqasm_result
 * length                          how many bytes the text has; 0 where the number is not 0
 */
typedef struct {
    uint32_t number;
    uint32_t place;
    uint64_t records;
    uint64_t steps;
    uint64_t length;
} metaqasm_text_result;

/* Lists one family at given sizes as metaqasm_instance does, and prints the list where it is complete.
 *
 * program .. output   as for metaqasm_instance
 * text                where the text is printed; NULL is allowed where text_len is 0 (no text fits there: 30 for a complete
 *                     list) */
metaqasm_text_result metaqasm_instance_text(const uint8_t *program, size_t program_len, uint32_t family,
                                            const uint8_t *sizes, size_t sizes_len, uint64_t limit, uint8_t *output,
                                            size_t output_len, uint8_t *text, size_t text_len);

/* Lists a whole run as metaqasm_run does, and prints the list where it is complete.
 *
 * program .. output   as for metaqasm_run
 * text                as for metaqasm_instance_text */
metaqasm_text_result metaqasm_run_text(const uint8_t *program, size_t program_len, uint64_t limit, uint8_t *output,
                                       size_t output_len, uint8_t *text, size_t text_len);

#ifdef __cplusplus
}
#endif

#endif
