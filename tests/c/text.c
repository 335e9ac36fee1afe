/* Lists printed as OpenQASM 2.0: what is printed and how long it is, what happens where it does not fit, and what is left
 * untouched by any other number. Output and text end at pages that cannot be touched, and marked bytes stand before them.
 * Run it from the repository's root. */
#define _DEFAULT_SOURCE
#include "edge.h"
#include "expect.h"
#include "load.h"
#include <metaqasm.h>
#include <string.h>

#define MARK 0xA5
#define MARKED_BEFORE 64 /* bytes before each lent buffer that must stay marked */
#define MORE 70          /* bytes past a text that are tried one by one */
#define FAR_MORE 100000

/* A call, and what is due: the number, place, records and steps, and the text where the number is 0. */
typedef struct {
    const char *name;
    enum { RUN, INSTANCE } call;
    const uint8_t *program;
    size_t program_len;
    uint32_t family;
    const uint8_t *sizes;
    size_t sizes_len;
    uint64_t limit;
    size_t output_len;
    metaqasm_result due;
    const char *text;
} question;

/* a qreg of 2; h on wire 0; cx from wire 0 to wire 1 */
static const uint8_t bell[] = {
    2, 2, 0, 2, 0, 32, 9, 0, 49, 6, 0, 0, 64, 2, 0, 0, 0, 35, 18, 0, 49, 6, 0, 0, 64, 2, 0, 0, 0, 49, 6, 0, 0, 64, 2, 0, 1, 0,
};
/* a qreg of 11 and a creg of 11; tdg on wire 9; reset 10; if bit 10 is 0, cx from wire 0 to wire 10 */
static const uint8_t eleven[] = {
    2, 2, 0, 11, 0, 3, 2, 0, 11, 0, 34, 9, 0, 49, 6, 0, 0, 64, 2, 0, 9, 0, 5, 9, 0, 49, 6, 0, 0, 64, 2, 0, 10, 0, 6, 31, 0, 0,
    49, 6, 0, 1, 64, 2, 0, 10, 0, 35, 18, 0, 49, 6, 0, 0, 64, 2, 0, 0, 0, 49, 6, 0, 0, 64, 2, 0, 10, 0,
};
/* a creg of 2 and no wire */
static const uint8_t bits[] = {3, 2, 0, 2, 0};
/* a family with two wires, whose body is t on the second; a qreg of 3; h on wire 2; a creg of 1; a qreg of 1 */
static const uint8_t mixed[] = {
    1, 15, 0, 0, 2, 16, 0, 0, 16, 0, 0, 33, 4, 0, 48, 1, 0, 1, 2, 2, 0, 3, 0,
    32, 9, 0, 49, 6, 0, 0, 64, 2, 0, 2, 0, 3, 2, 0, 1, 0, 2, 2, 0, 1, 0,
};
/* a family of n with x: Qbit[n], whose body is for i = 1..n h(x[i-1]) */
static const uint8_t loop[] = {
    1,  40, 0, 1, 1,  17, 4, 0, 65, 1, 0, 0, 38, 28, 0, 64, 2, 0, 1,  0, 65, 1,
    0, 0,  32, 16, 0, 49, 13, 0, 0, 67, 9, 0, 65, 1, 0, 1, 64, 2, 0, 1, 0,
};
/* a family of n with x: Qbit[n], whose body is h on x[0] */
static const uint8_t unshown[] = {1, 21, 0, 1, 1, 17, 4, 0, 65, 1, 0, 0, 32, 9, 0, 49, 6, 0, 0, 64, 2, 0, 0, 0};

/* a qreg of 2 and a creg of 1; phase 0 on wire 1; cphase 63 on wires 1 and 0; reversed: phase 63 on wire 0, cphase 10 on wires
 * 0 and 1; if bit 0 is 1, phase 3 on wire 0 */
static const uint8_t phases[] = {
    2,  2,  0, 2,  0,  3, 2,  0, 1, 0,                                                     /* registers */
    40, 14, 0, 64, 2,  0, 0,  0, 49, 6, 0, 0, 64, 2, 0, 1, 0,                              /* phase */
    41, 23, 0, 64, 2,  0, 63, 0, 49, 6, 0, 0, 64, 2, 0, 1, 0, 49, 6, 0, 0, 64, 2, 0, 0, 0, /* cphase */
    37, 43, 0,                                                                             /* reversed: */
    40, 14, 0, 64, 2,  0, 63, 0, 49, 6, 0, 0, 64, 2, 0, 0, 0,                              /* phase */
    41, 23, 0, 64, 2,  0, 10, 0, 49, 6, 0, 0, 64, 2, 0, 0, 0, 49, 6, 0, 0, 64, 2, 0, 1, 0, /* cphase */
    6,  27, 0, 1,  49, 6, 0,  1, 64, 2, 0, 0, 0,                                           /* if: */
    40, 14, 0, 64, 2,  0, 3,  0, 49, 6, 0, 0, 64, 2, 0, 0, 0,                              /* phase */
};
/* a qreg of 1; phase 1 on its wire; phase 64 on it */
static const uint8_t k_64[] = {
    2,  2,  0, 1,  0,                                         /* register */
    40, 14, 0, 64, 2, 0, 1,  0, 49, 6, 0, 0, 64, 2, 0, 0, 0,  /* phase 1 */
    40, 14, 0, 64, 2, 0, 64, 0, 49, 6, 0, 0, 64, 2, 0, 0, 0,  /* phase 64 */
};

static const uint8_t zero[METAQASM_SIZE_BYTES] = {0};
static const uint8_t three[METAQASM_SIZE_BYTES] = {3};
static const uint8_t past_largest[METAQASM_SIZE_BYTES] = {0, 0, 1, 0};

#define RUNS(name, bytes, limit, records, due, text) \
    {name, RUN, bytes, sizeof bytes, 0, NULL, 0, limit, METAQASM_RECORD_BYTES * records, due, text}
#define LISTS(name, bytes, family, sizes, sizes_len, limit, records, due, text) \
    {name, INSTANCE, bytes, sizeof bytes, family, sizes, sizes_len, limit, METAQASM_RECORD_BYTES * records, due, text}
#define ENDS(number, place, records, steps) {METAQASM_##number, place, records, steps}

#define HEAD "OPENQASM 2.0;\ninclude \"qelib1.inc\";\n"
#define ELEVEN_BITS \
    "creg c0[1];\ncreg c1[1];\ncreg c2[1];\ncreg c3[1];\ncreg c4[1];\ncreg c5[1];\n" \
    "creg c6[1];\ncreg c7[1];\ncreg c8[1];\ncreg c9[1];\ncreg c10[1];\n"

/* Lists that are complete, with the texts that are due, written by hand. */
static const question complete[] = {
    RUNS("Bell", bell, 2, 2, ENDS(DONE, 0, 2, 2),
         "OPENQASM 2.0;\n"
         "include \"qelib1.inc\";\n"
         "qreg q[2];\n"
         "h q[0];\n"
         "cx q[0],q[1];\n"),
    RUNS("numbers of two digits", eleven, 4, 3, ENDS(DONE, 0, 3, 4),
         HEAD "qreg q[11];\n" ELEVEN_BITS "tdg q[9];\nreset q[10];\nif(c10==0) cx q[0],q[10];\n"),
    RUNS("phases", phases, 7, 5, ENDS(DONE, 0, 5, 7),
         HEAD "qreg q[2];\n"
              "creg c0[1];\n"
              "u1(2*pi/1) q[1];\n"
              "cu1(2*pi/9223372036854775808) q[1],q[0];\n"
              "cu1(-2*pi/1024) q[0],q[1];\n"
              "u1(-2*pi/9223372036854775808) q[0];\n"
              "if(c0==1) u1(2*pi/8) q[0];\n"),
    RUNS("bits and no wire", bits, 0, 0, ENDS(DONE, 0, 0, 0), HEAD "creg c0[1];\ncreg c1[1];\n"),
    RUNS("registers declared late", mixed, 1, 1, ENDS(DONE, 0, 1, 1), HEAD "qreg q[4];\ncreg c0[1];\nh q[2];\n"),
    LISTS("a family beside registers", mixed, 0, NULL, 0, 1, 1, ENDS(DONE, 0, 1, 1), HEAD "qreg q[2];\nt q[1];\n"),
    LISTS("L at n = 3", loop, 0, three, sizeof three, 7, 3, ENDS(DONE, 0, 3, 7),
          HEAD "qreg q[3];\nh q[0];\nh q[1];\nh q[2];\n"),
    LISTS("L at n = 0", loop, 0, zero, sizeof zero, 1, 0, ENDS(DONE, 0, 0, 1), HEAD),
    RUNS("a family that is not called", loop, 0, 0, ENDS(DONE, 0, 0, 0), HEAD),
};

/* What is turned down, and lists that are not complete. */
static const question others[] = {
    RUNS("the run of what is refused", unshown, 9, 2, ENDS(NOT_SHOWN, 15, 0, 0), NULL),
    LISTS("an instance of what is refused", unshown, 0, three, sizeof three, 9, 2, ENDS(NOT_SHOWN, 15, 0, 0), NULL),
    LISTS("no such family", loop, 1, three, sizeof three, 9, 3, ENDS(NO_SUCH_FAMILY, 0, 0, 0), NULL),
    LISTS("no sizes", loop, 0, NULL, 0, 9, 3, ENDS(WRONG_SIZES_LENGTH, 0, 0, 0), NULL),
    LISTS("a size too large", loop, 0, past_largest, sizeof past_largest, 9, 3, ENDS(SIZE_TOO_LARGE, 0, 0, 0), NULL),
    LISTS("L at n = 3 in 6 steps", loop, 0, three, sizeof three, 6, 3, ENDS(OUT_OF_STEPS, 24, 2, 6), NULL),
    LISTS("L at n = 3 in 2 records", loop, 0, three, sizeof three, 7, 2, ENDS(OUTPUT_FULL, 24, 2, 7), NULL),
    RUNS("Bell in 1 step", bell, 1, 2, ENDS(OUT_OF_STEPS, 17, 1, 1), NULL),
    RUNS("Bell in 1 record", bell, 2, 1, ENDS(OUTPUT_FULL, 17, 1, 2), NULL),
    RUNS("a k of 64", k_64, 2, 2, ENDS(K_TOO_LARGE, 22, 1, 2), NULL),
};

#define COUNT(list) (sizeof(list) / sizeof((list)[0]))

/* The ends of the room for the output, for the text, and for the output of the plain call. */
static uint8_t *output_end, *text_end, *plain_end;

/* Marks so many bytes before an end, and some before them; the answer is where the bytes begin. */
static uint8_t *lend(uint8_t *end, size_t length)
{
    memset(end - length - MARKED_BEFORE, MARK, length + MARKED_BEFORE);
    return end - length;
}

/* Whether all bytes from one place to another are marked. */
static int marked(const uint8_t *from, const uint8_t *to)
{
    while (from < to && *from == MARK) {
        from++;
    }
    return from == to;
}

/* Makes the call of a question with a text of some length. */
static metaqasm_text_result ask(const question *asked, size_t text_len)
{
    uint8_t *output = lend(output_end, asked->output_len);
    uint8_t *text = lend(text_end, text_len);

    if (asked->call == RUN) {
        return metaqasm_run_text(asked->program, asked->program_len, asked->limit, output, asked->output_len, text, text_len);
    }
    return metaqasm_instance_text(asked->program, asked->program_len, asked->family, asked->sizes, asked->sizes_len,
                                  asked->limit, output, asked->output_len, text, text_len);
}

/* Makes the plain call of a question. */
static metaqasm_result ask_plainly(const question *asked)
{
    uint8_t *output = lend(plain_end, asked->output_len);

    if (asked->call == RUN) {
        return metaqasm_run(asked->program, asked->program_len, asked->limit, output, asked->output_len);
    }
    return metaqasm_instance(asked->program, asked->program_len, asked->family, asked->sizes, asked->sizes_len, asked->limit,
                             output, asked->output_len);
}

/* Whether a result has this number, the place and counts that are due, and this length. */
static int is(metaqasm_text_result got, uint32_t number, metaqasm_result due, uint64_t length)
{
    return got.number == number && got.place == due.place && got.records == due.records && got.steps == due.steps &&
           got.length == length;
}

/* Whether the text that was lent begins with these bytes, and all else around them is still marked. */
static int printed(size_t text_len, const char *text, size_t length)
{
    const uint8_t *lent = text_end - text_len;

    return marked(lent - MARKED_BEFORE, lent) && memcmp(lent, text, length) == 0 && marked(lent + length, text_end);
}

/* Whether the output and what stands before it is what the plain call made of it. */
static int listed(const question *asked)
{
    size_t length = asked->output_len + MARKED_BEFORE;

    return memcmp(output_end - length, plain_end - length, length) == 0;
}

/* Whether the answer is right with a text of some length: the text, or 30 and nothing where it does not fit. */
static int right(const question *asked, size_t text_len)
{
    size_t length = strlen(asked->text);
    metaqasm_text_result got = ask(asked, text_len);
    int met;

    if (text_len < length) {
        met = is(got, METAQASM_TEXT_FULL, asked->due, 0) && printed(text_len, "", 0) && listed(asked);
    } else {
        met = is(got, METAQASM_DONE, asked->due, length) && printed(text_len, asked->text, length) && listed(asked);
    }
    if (!met) {
        printf("    into %zu bytes, for a text of %zu: got %u at %u, length %llu\n", text_len, length, got.number, got.place,
               (unsigned long long)got.length);
    }
    return met;
}

/* How many bits a text declares. */
static size_t declared(const char *text)
{
    size_t count = 0;

    while ((text = strstr(text, "creg ")) != NULL) {
        text++;
        count++;
    }
    return count;
}

/* A complete list: its text for every length from none to some more than it takes, and for a length far above. */
static void prints(const question *asked)
{
    size_t length = strlen(asked->text), text_len = 0;
    metaqasm_result plain = ask_plainly(asked);

    expect(plain.number == METAQASM_DONE && plain.place == 0 && plain.records == asked->due.records &&
               plain.steps == asked->due.steps && plain.records * METAQASM_RECORD_BYTES == asked->output_len,
           asked->name, "a complete list that fills the output");
    while (text_len < length + MORE && right(asked, text_len)) {
        text_len++;
    }
    expect(text_len == length + MORE, asked->name, "30 below the text's length, and from there on the text");
    expect(right(asked, FAR_MORE), asked->name, "the text in far more room");
    expect(length <= METAQASM_TEXT_BYTES(plain.records, declared(asked->text)), asked->name, "at most METAQASM_TEXT_BYTES");
}

/* Any other number: the run's own result, whatever the text's length, and an untouched text. */
static void prints_nothing(const question *asked)
{
    static const size_t lengths[] = {0, 1, FAR_MORE};
    metaqasm_result plain = ask_plainly(asked);
    size_t i;

    for (i = 0; i < COUNT(lengths); i++) {
        metaqasm_text_result got = ask(asked, lengths[i]);

        expect(is(got, asked->due.number, asked->due, 0) && is(got, plain.number, plain, 0), asked->name,
               metaqasm_message(asked->due.number));
        expect(printed(lengths[i], "", 0), asked->name, "an untouched text");
        expect(listed(asked), asked->name, "the records so far");
    }
}

/* Teleportation, from its file. */
static void teleports(void)
{
    static uint8_t program[1024];
    long length = load("examples/teleport.bytes", program, sizeof program);
    question asked = {"teleportation", RUN, program, 0, 0, NULL, 0, 21, METAQASM_RECORD_BYTES * 16, ENDS(DONE, 0, 16, 21),
                      "OPENQASM 2.0;\n"
                      "include \"qelib1.inc\";\n"
                      "qreg q[3];\n"
                      "creg c0[1];\n"
                      "creg c1[1];\n"
                      "h q[1];\n"
                      "cx q[1],q[2];\n"
                      "cx q[0],q[1];\n"
                      "h q[0];\n"
                      "measure q[0] -> c0[0];\n"
                      "measure q[1] -> c1[0];\n"
                      "if(c0==1) t q[2];\n"
                      "if(c0==1) t q[2];\n"
                      "if(c0==1) t q[2];\n"
                      "if(c0==1) t q[2];\n"
                      "if(c1==1) h q[2];\n"
                      "if(c1==1) t q[2];\n"
                      "if(c1==1) t q[2];\n"
                      "if(c1==1) t q[2];\n"
                      "if(c1==1) t q[2];\n"
                      "if(c1==1) h q[2];\n"};

    if (expect(length > 0 && (size_t)length <= sizeof program, "examples/teleport.bytes", "a program that can be read")) {
        asked.program_len = (size_t)length;
        prints(&asked);
    }
}

/* The most wires and bits that there can be, and the last of each in a line. */
static void largest(void)
{
    /* a qreg and a creg of 65,535, and measure wire 65,534 into bit 65,534 */
    static const uint8_t program[] = {2,  2, 0, 255, 255, 3,   2,   0,  255, 255, 4, 18, 0,   49, 6,
                                      0,  0, 64, 2,  0,   254, 255, 49, 6,   0,   1, 64, 2,   0,  254, 255};
    static char text[METAQASM_TEXT_BYTES(1, METAQASM_MOST_BITS) + 1];
    question asked = RUNS("65,535 wires and bits", program, 1, 1, ENDS(DONE, 0, 1, 1), text);
    char *end = text + sprintf(text, HEAD "qreg q[65535];\n");
    unsigned bit;

    expect(end - text == METAQASM_MOST_HEAD_BYTES, asked.name, "the longest head");
    expect(strlen("creg c65534[1];\n") == METAQASM_MOST_BIT_LINE_BYTES, asked.name, "the longest line of a bit");
    for (bit = 0; bit < METAQASM_MOST_BITS; bit++) {
        end += sprintf(end, "creg c%u[1];\n", bit);
    }
    end += sprintf(end, "measure q[65534] -> c65534[0];\n");
    ask_plainly(&asked);
    expect(right(&asked, (size_t)(end - text) - 1), asked.name, "30 one byte below");
    expect(right(&asked, (size_t)(end - text)), asked.name, "the text");
    expect(right(&asked, METAQASM_TEXT_BYTES(1, METAQASM_MOST_BITS)), asked.name, "the text in METAQASM_TEXT_BYTES");
}

/* The longest line of a record: the last wires and the last bit that there can be, and the smallest part of a turn. */
static void longest_line(void)
{
    static const char line[] = "if(c65534==1) cu1(-2*pi/9223372036854775808) q[65534],q[65533];\n";
    /* a qreg and a creg of 65,535; if bit 65,534 is 1, reversed: cphase 63 on wires 65,534 and 65,533 */
    static const uint8_t program[] = {
        2,  2,  0, 255, 255, 3, 2,  0, 255, 255, 6, 39, 0,  1, 49, 6,   0,   1,  64, 2, 0, 254, 255, 37, 26, 0,
        41, 23, 0, 64,  2,   0, 63, 0, 49,  6,   0, 0,  64, 2, 0,  254, 255, 49, 6,  0, 0, 64,  2,   0,  253, 255,
    };
    static uint8_t text[METAQASM_TEXT_BYTES(1, METAQASM_MOST_BITS)];
    uint8_t output[METAQASM_RECORD_BYTES];
    metaqasm_text_result got =
        metaqasm_run_text(program, sizeof program, 3, output, sizeof output, text, sizeof text);
    size_t length = strlen(line);

    expect(length == METAQASM_MOST_RECORD_LINE_BYTES, line, "to be as long as a line can be");
    expect(got.number == METAQASM_DONE && got.length >= length && memcmp(text + got.length - length, line, length) == 0, line,
           "to be the last line");
}

int main(void)
{
    size_t i;

    output_end = edge();
    text_end = edge();
    plain_end = edge();
    if (!expect(output_end != NULL && text_end != NULL && plain_end != NULL, "three edges", "memory")) {
        return closed();
    }
    for (i = 0; i < COUNT(complete); i++) {
        prints(&complete[i]);
    }
    teleports();
    largest();
    longest_line();
    for (i = 0; i < COUNT(others); i++) {
        prints_nothing(&others[i]);
    }
    return closed();
}
