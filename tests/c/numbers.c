/* Every number by its name: a question that is answered with it, its message, and what the constants are. */
#include "expect.h"
#include <metaqasm.h>
#include <string.h>

#define ROOM (2 * METAQASM_RECORD_BYTES) /* the output of a call: two records */

/* Which call is made. */
enum call { CHECK, INSTANCE, RUN, RUN_TEXT };

/* A call about some bytes, and the number and place that are due. */
typedef struct {
    enum call call;
    const uint8_t *program;
    size_t program_len;
    const uint8_t *sizes;
    size_t sizes_len;
    uint64_t limit;
    size_t output_len;
    size_t text_len;
    uint32_t number;
    uint32_t value;
    uint32_t place;
} question;

static const uint8_t too_long[METAQASM_MOST_PROGRAM_BYTES + 1];
/* one byte where a header is due */
static const uint8_t one_byte[] = {32};
/* a field with the tag 0 */
static const uint8_t tag_0[] = {0, 0, 0};
/* a qreg with one byte of its two-byte size */
static const uint8_t half_size[] = {2, 1, 0, 0};
/* 17 reversals inside each other */
static const uint8_t deep[] = {
    37, 48, 0, 37, 45, 0, 37, 42, 0, 37, 39, 0, 37, 36, 0, 37, 33, 0, 37, 30, 0, 37, 27, 0, 37, 24, 0,
    37, 21, 0, 37, 18, 0, 37, 15, 0, 37, 12, 0, 37, 9,  0, 37, 6,  0, 37, 3,  0, 37, 0,  0,
};
/* a family without parameters */
static const uint8_t no_parameter[] = {1, 2, 0, 0, 0};
/* a qreg of 65,535 and one of 1 */
static const uint8_t qubits[] = {2, 2, 0, 255, 255, 2, 2, 0, 1, 0};
/* h on operand 0, which is not declared */
static const uint8_t undeclared[] = {32, 4, 0, 48, 1, 0, 0};
/* a qreg of 1, and h on the whole of it */
static const uint8_t whole[] = {2, 2, 0, 1, 0, 32, 4, 0, 48, 1, 0, 0};
/* a family of n with a parameter Qbit[n * n] */
static const uint8_t square[] = {1, 16, 0, 1, 1, 17, 11, 0, 68, 8, 0, 65, 1, 0, 0, 65, 1, 0, 0};
/* a family with a parameter Qbit[50000 * 50000] */
static const uint8_t huge[] = {1, 18, 0, 0, 1, 17, 13, 0, 68, 10, 0, 64, 2, 0, 0x50, 0xC3, 64, 2, 0, 0x50, 0xC3};
/* a family of n with x: Qbit[n], whose body is h on x[0] */
static const uint8_t unshown[] = {1, 21, 0, 1, 1, 17, 4, 0, 65, 1, 0, 0, 32, 9, 0, 49, 6, 0, 0, 64, 2, 0, 0, 0};
/* a creg of 1, and a condition that it is 2 */
static const uint8_t is_2[] = {3, 2, 0, 1, 0, 6, 10, 0, 2, 49, 6, 0, 0, 64, 2, 0, 0, 0};
/* a call of family 255 by a two-byte number */
static const uint8_t low_number[] = {39, 2, 0, 255, 0};
/* a qreg of 1, and a phase on its wire whose k is 64 */
static const uint8_t k_64[] = {2, 2, 0, 1, 0, 40, 14, 0, 64, 2, 0, 64, 0, 49, 6, 0, 0, 64, 2, 0, 0, 0};
/* a family with a parameter that takes a family of one wire */
static const uint8_t takes_family[] = {1, 10, 0, 0, 1, 18, 5, 0, 0, 1, 16, 0, 0};
/* the same, and a call that passes it to itself */
static const uint8_t to_itself[] = {1, 10, 0, 0, 1, 18, 5, 0, 0, 1, 16, 0, 0, 36, 6, 0, 0, 51, 2, 0, 0, 0};
/* a family of n with two parameters Qbit[n] */
static const uint8_t pair[] = {1, 16, 0, 1, 2, 17, 4, 0, 65, 1, 0, 0, 17, 4, 0, 65, 1, 0, 0};
/* a family of n with a parameter Qbit[n * 40000] */
static const uint8_t steep[] = {1, 17, 0, 1, 1, 17, 12, 0, 68, 9, 0, 65, 1, 0, 0, 64, 2, 0, 0x40, 0x9C};
/* a qreg of 1, and cx from its wire to the same wire */
static const uint8_t same[] = {2, 2,  0, 1, 0, 35, 18, 0, 49, 6, 0, 0, 64,
                               2, 0,  0, 0, 49, 6, 0,  0, 64, 2, 0, 0, 0};
/* a family of two wires with cx on them, a qreg of 1, and a call with its wire for both */
static const uint8_t same_by_call[] = {
    1,  19, 0, 0, 2, 16, 0, 0, 16, 0,  0, 35, 8, 0,  48, 1, 0, 0, 48, 1, 0, 1, /* the family */
    2,  2,  0, 1, 0,                                                           /* the qreg */
    36, 19, 0, 0, 49, 6, 0, 0, 64, 2,  0, 0,  0, 49, 6,  0, 0, 64, 2, 0, 0, 0, /* the call */
};
/* a qreg of 2; h on wire 0; cx from wire 0 to wire 1 */
static const uint8_t bell[] = {
    2, 2, 0, 2, 0, 32, 9, 0, 49, 6, 0, 0, 64, 2, 0, 0, 0, 35, 18, 0, 49, 6, 0, 0, 64, 2, 0, 0, 0, 49, 6, 0, 0, 64, 2, 0, 1, 0,
};

/* what its list is printed as, with the zero byte that C puts behind it */
#define BELLS_TEXT "OPENQASM 2.0;\ninclude \"qelib1.inc\";\nqreg q[2];\nh q[0];\ncx q[0],q[1];\n"

static const uint8_t largest[] = {0xFF, 0xFF, 0, 0};
static const uint8_t past_largest[] = {0, 0, 1, 0};

#define CHECKED(bytes, name, value, place) \
    {CHECK, bytes, sizeof bytes, NULL, 0, 0, 0, 0, METAQASM_##name, value, place}
#define ASKED(bytes, sizes, sizes_len, name, value, place) \
    {INSTANCE, bytes, sizeof bytes, sizes, sizes_len, 9, ROOM, 0, METAQASM_##name, value, place}
#define LISTED(bytes, limit, length, name, value, place) \
    {RUN, bytes, sizeof bytes, NULL, 0, limit, length, 0, METAQASM_##name, value, place}
#define PRINTED(bytes, text_len, name, value, place) \
    {RUN_TEXT, bytes, sizeof bytes, NULL, 0, 9, ROOM, text_len, METAQASM_##name, value, place}

/* A question for every number there is, in their order. */
static const question questions[] = {
    LISTED(bell, 2, ROOM, DONE, 0, 0),
    CHECKED(too_long, TOO_LONG, 1, 0),
    CHECKED(one_byte, BAD_HEADER, 2, 0),
    CHECKED(tag_0, BAD_TAG, 3, 0),
    CHECKED(half_size, BAD_CONTENT, 4, 0),
    CHECKED(deep, TOO_DEEP, 5, 48),
    CHECKED(no_parameter, TOO_MANY, 6, 0),
    CHECKED(qubits, TOO_LARGE, 7, 5),
    CHECKED(undeclared, NOT_IN_SCOPE, 8, 3),
    CHECKED(whole, WRONG_KIND, 9, 8),
    CHECKED(square, PRODUCT_OF_VARIABLES, 10, 8),
    CHECKED(huge, FORM_OUT_OF_RANGE, 11, 8),
    CHECKED(unshown, NOT_SHOWN, 12, 15),
    CHECKED(is_2, BAD_CONDITION, 13, 5),
    ASKED(bell, NULL, 0, NO_SUCH_FAMILY, 20, 0),
    ASKED(pair, NULL, 0, WRONG_SIZES_LENGTH, 21, 0),
    ASKED(pair, past_largest, METAQASM_SIZE_BYTES, SIZE_TOO_LARGE, 22, 0),
    ASKED(pair, largest, METAQASM_SIZE_BYTES, TOO_MANY_WIRES, 23, 12),
    ASKED(steep, largest, METAQASM_SIZE_BYTES, INDEX_OUT_OF_RANGE, 24, 5),
    LISTED(same_by_call, 9, ROOM, ONE_WIRE_TWICE, 25, 11),
    LISTED(bell, 1, ROOM, OUT_OF_STEPS, 26, 17),
    LISTED(bell, 2, ROOM - 1, OUTPUT_FULL, 27, 17),
    PRINTED(bell, sizeof BELLS_TEXT - 2, TEXT_FULL, 30, 0),
    CHECKED(low_number, LOW_NUMBER, 31, 0),
    LISTED(k_64, 9, ROOM, K_TOO_LARGE, 32, 5),
    CHECKED(to_itself, PASSED_TOO_LATE, 33, 17),
    ASKED(takes_family, NULL, 0, HAS_FAMILY_PARAMETER, 34, 0),
    CHECKED(same, SAME_WIRE, 35, 5),
};

/* Numbers that no call answers. */
static const uint32_t unknown[] = {14,  15,  16,  17,  18,    19,          28,         29, 36,
                                   100, 255, 256, 268, 65536, 0x80000000u, 0xFFFFFFFFu};

#define COUNT(list) (sizeof(list) / sizeof((list)[0]))

/* What the result of a call that prints a text shares with the others. */
static metaqasm_result shared(metaqasm_text_result result)
{
    return (metaqasm_result){result.number, result.place, result.records, result.steps};
}

/* Makes the call of a question. */
static metaqasm_result answer(const question *asked, uint8_t *output)
{
    uint8_t text[sizeof BELLS_TEXT];

    switch (asked->call) {
    case CHECK:
        return metaqasm_check(asked->program, asked->program_len);
    case INSTANCE:
        return metaqasm_instance(asked->program, asked->program_len, 0, asked->sizes, asked->sizes_len, asked->limit, output,
                                 asked->output_len);
    case RUN:
        return metaqasm_run(asked->program, asked->program_len, asked->limit, output, asked->output_len);
    default:
        return shared(metaqasm_run_text(asked->program, asked->program_len, asked->limit, output, asked->output_len, text,
                                        asked->text_len));
    }
}

/* Each question is answered with its number, whose name has its value. */
static void answers(void)
{
    size_t i;

    for (i = 0; i < COUNT(questions); i++) {
        const question *asked = &questions[i];
        uint8_t output[ROOM];
        metaqasm_result result = answer(asked, output);

        expect(asked->number == asked->value, metaqasm_message(asked->number), "the constant's value");
        if (!expect(result.number == asked->number && result.place == asked->place, metaqasm_message(asked->number),
                    "the number and place that are due")) {
            printf("    got %u at %u\n", result.number, result.place);
        }
    }
}

/* Whether a call that prints a text answered as the plain one did, or with 30 in place of 0, and left its one byte alone. */
static int as_plain(metaqasm_text_result got, metaqasm_result plain, uint8_t byte)
{
    uint32_t due = plain.number == METAQASM_DONE ? METAQASM_TEXT_FULL : plain.number;

    return got.number == due && got.place == plain.place && got.records == plain.records && got.steps == plain.steps &&
           got.length == 0 && byte == 0xA5;
}

/* About every question, the calls that print a text into one byte answer as the plain ones do, and write the same records. */
static void with_text(void)
{
    size_t i;

    for (i = 0; i < COUNT(questions); i++) {
        const question *q = &questions[i];
        uint8_t plainly[ROOM] = {0}, beside[ROOM] = {0}, byte = 0xA5;
        metaqasm_result plain = metaqasm_run(q->program, q->program_len, q->limit, plainly, q->output_len);
        metaqasm_text_result got =
            metaqasm_run_text(q->program, q->program_len, q->limit, beside, q->output_len, &byte, 1);

        expect(as_plain(got, plain, byte) && memcmp(plainly, beside, sizeof beside) == 0, metaqasm_message(q->number),
               "run_text to answer as run does");
        plain = metaqasm_instance(q->program, q->program_len, 0, q->sizes, q->sizes_len, q->limit, plainly, q->output_len);
        got = metaqasm_instance_text(q->program, q->program_len, 0, q->sizes, q->sizes_len, q->limit, beside, q->output_len,
                                     &byte, 1);
        expect(as_plain(got, plain, byte) && memcmp(plainly, beside, sizeof beside) == 0, metaqasm_message(q->number),
               "instance_text to answer as instance does");
    }
}

/* Each number has a sentence of its own; the others share one that says that they are unknown. */
static void messages(void)
{
    const char *stranger = metaqasm_message(unknown[0]);
    size_t i, k;

    for (i = 0; i < COUNT(unknown); i++) {
        const char *message = metaqasm_message(unknown[i]);
        expect(message != NULL && strcmp(message, stranger) == 0, "an unknown number", "the sentence of unknown numbers");
    }
    for (i = 0; i < COUNT(questions); i++) {
        const char *message = metaqasm_message(questions[i].value);
        int own = message != NULL && strlen(message) >= 4 && strcmp(message, stranger) != 0;
        for (k = 0; own && k < i; k++) {
            own = strcmp(message, metaqasm_message(questions[k].value)) != 0;
        }
        expect(own, own ? message : "a number", "a sentence of its own");
    }
    expect(strstr(stranger, "number") != NULL, stranger, "a sentence about numbers");
    expect(strstr(metaqasm_message(METAQASM_NOT_SHOWN), "not shown") != NULL, "12", "a sentence with `not shown`");
    expect(strstr(metaqasm_message(METAQASM_OUT_OF_STEPS), "step limit") != NULL, "26", "a sentence with `step limit`");
}

/* The list of numbers has these numbers and no other. */
static void entries(void)
{
    static const uint32_t listed[] = {
#define METAQASM_NUMBER(value, name, message) value,
#include <metaqasm_numbers.def>
#undef METAQASM_NUMBER
    };
    size_t i;

    expect(COUNT(listed) == COUNT(questions), "metaqasm_numbers.def", "28 entries");
    for (i = 0; i < COUNT(listed) && i < COUNT(questions); i++) {
        expect(listed[i] == questions[i].value, metaqasm_message(listed[i]), "entries in order");
    }
}

/* What the records of the Bell pair and of a conditional run have at each place, by name. */
static void records(void)
{
    /* a qreg of 2 and a creg of 2; t on 1; tdg on 1; measure 1 into 1; reset 0; if bit 1 is 0, h on 1; if it is 1, the same */
    static const uint8_t all[] = {
        2,  2, 0, 2, 0, 3,  2, 0, 2, 0,                                                          /* registers */
        33, 9, 0, 49, 6, 0, 0, 64, 2, 0, 1, 0,                                                   /* t */
        34, 9, 0, 49, 6, 0, 0, 64, 2, 0, 1, 0,                                                   /* tdg */
        4,  18, 0, 49, 6, 0, 0, 64, 2, 0, 1, 0, 49, 6, 0, 1, 64, 2, 0, 1, 0,                     /* measure */
        5,  9, 0, 49, 6, 0, 0, 64, 2, 0, 0, 0,                                                   /* reset */
        6,  22, 0, 0, 49, 6, 0, 1, 64, 2, 0, 1, 0, 32, 9, 0, 49, 6, 0, 0, 64, 2, 0, 1, 0,        /* if 0 */
        6,  22, 0, 1, 49, 6, 0, 1, 64, 2, 0, 1, 0, 32, 9, 0, 49, 6, 0, 0, 64, 2, 0, 1, 0,        /* if 1 */
    };
    static const uint8_t due[][METAQASM_RECORD_BYTES] = {
        {METAQASM_OP_T, METAQASM_ALWAYS, 1, 0, 0, 0, 0, 0, 0, 0, 0, 0},
        {METAQASM_OP_TDG, METAQASM_ALWAYS, 1, 0, 0, 0, 0, 0, 0, 0, 0, 0},
        {METAQASM_OP_MEASURE, METAQASM_ALWAYS, 1, 0, 1, 0, 0, 0, 0, 0, 0, 0},
        {METAQASM_OP_RESET, METAQASM_ALWAYS, 0, 0, 0, 0, 0, 0, 0, 0, 0, 0},
        {METAQASM_OP_H, METAQASM_IF_0, 1, 0, 0, 0, 1, 0, 0, 0, 0, 0},
        {METAQASM_OP_H, METAQASM_IF_1, 1, 0, 0, 0, 1, 0, 0, 0, 0, 0},
    };
    static const uint8_t pair_due[][METAQASM_RECORD_BYTES] = {
        {METAQASM_OP_H, METAQASM_ALWAYS, 0, 0, 0, 0, 0, 0, 0, 0, 0, 0},
        {METAQASM_OP_CX, METAQASM_ALWAYS, 0, 0, 1, 0, 0, 0, 0, 0, 0, 0},
    };
    uint8_t output[sizeof due];
    metaqasm_result result;

    memset(output, 0xA5, sizeof output);
    result = metaqasm_run(all, sizeof all, 8, output, sizeof output);
    expect(result.number == METAQASM_DONE && result.records * METAQASM_RECORD_BYTES == sizeof due &&
               memcmp(output, due, sizeof due) == 0,
           "t, tdg, measure, reset, if 0, if 1", "records of these operations and conditions");
    result = metaqasm_run(bell, sizeof bell, 2, output, sizeof output);
    expect(result.number == METAQASM_DONE && result.records * METAQASM_RECORD_BYTES == sizeof pair_due &&
               memcmp(output, pair_due, sizeof pair_due) == 0,
           "h, cx", "records of these operations");
}

int main(void)
{
    answers();
    with_text();
    messages();
    entries();
    records();
    expect(METAQASM_RECORD_BYTES == 12, "a record", "12 bytes");
    expect(strcmp(METAQASM_VERSION, "1.7.0") == 0, "the version", "1.7.0");
    return closed();
}
