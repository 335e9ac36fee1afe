/* The showing of one form, over metaqasm_showing.h and its archive: the number, how many loop variables the scan goes through,
 * and how many trials are made. What is due was worked out by hand. The forms of the questions are constant, so that a call that
 * wrote one would end the program. */
#define _DEFAULT_SOURCE
#include "edge.h"
#include "expect.h"
#include <metaqasm.h>
#include <metaqasm_showing.h>
#include <string.h>

#define MOST METAQASM_MOST_INDEX
#define HALF (MOST / 2)
#define MOST_LOOPS METAQASM_FORM_VARIABLES

#define COUNT(list) (sizeof(list) / sizeof((list)[0]))

/* The loops that are open, outermost first, behind so many variables of a family. */
typedef struct {
    const char *name;
    uint32_t variables, loops;
    metaqasm_form lows[MOST_LOOPS], highs[MOST_LOOPS];
} scope;

/* A form, and what its showing answers in a scope. */
typedef struct {
    const char *name;
    const scope *in;
    metaqasm_form form;
    metaqasm_showing_result due;
} question;

/* Forms of one family variable n and of the loop variables a, b and c. */
#define FORM(constant, n, a, b, c) {constant, {n, a, b, c}}
#define NUMBER(constant) {constant, {0}}
#define N_LESS(number) {-(number), {1}}

/* n and no loops */
static const scope no_loops = {"no loops", 1, 0, {NUMBER(0)}, {NUMBER(0)}};

/* a, b and c, each from 0 to n - 1 */
static const scope cube = {
    "a, b, c = 0..n-1", 1, 3, {NUMBER(0), NUMBER(0), NUMBER(0)}, {N_LESS(1), N_LESS(1), N_LESS(1)}};

/* a from 0 to n - 1, b from a to n - 1 and c from 0 to b */
static const scope chain = {"a = 0..n-1, b = a..n-1, c = 0..b",
                            1,
                            3,
                            {NUMBER(0), FORM(0, 0, 1, 0, 0), NUMBER(0)},
                            {N_LESS(1), N_LESS(1), FORM(0, 0, 0, 1, 0)}};

/* high - low is n - 2 for a, n - 3 for b and 0 for c */
static const scope shrinking = {
    "a = 1..n-1, b = 2..n-1, c = 0..0", 1, 3, {NUMBER(1), NUMBER(2), NUMBER(0)}, {N_LESS(1), N_LESS(1), NUMBER(0)}};

/* high - low is n - 3 for a, n - 2 for b and 0 for c */
static const scope growing = {
    "a = 2..n-1, b = 1..n-1, c = 0..0", 1, 3, {NUMBER(2), NUMBER(1), NUMBER(0)}, {N_LESS(1), N_LESS(1), NUMBER(0)}};

/* the loop of the controlled adder */
static const scope rounds = {"a = 1..n-1", 1, 1, {NUMBER(1)}, {N_LESS(1)}};

/* two family variables n and k, which are variables 0 and 1, and two loops */
static const scope two_sizes = {"i = 1..n, j = 1..k", 2, 2, {NUMBER(1), NUMBER(1)}, {{0, {1}}, {0, {0, 1}}}};

/* bounds so large that twice b is in range, and twice a is not */
static const scope large = {
    "a, b", 1, 2, {NUMBER(HALF + 1), NUMBER(HALF)}, {NUMBER(-HALF - 1), NUMBER(-HALF)}};

/* high - low is out of range for b, and n - 2 for a; and the other way round */
static const scope far_inside = {
    "a = 1..n-1, b = 2000000000..-2000000000", 1, 2, {NUMBER(1), NUMBER(MOST)}, {N_LESS(1), NUMBER(-MOST)}};
static const scope far_outside = {
    "a = 2000000000..-2000000000, b = 1..n-1", 1, 2, {NUMBER(MOST), NUMBER(1)}, {NUMBER(-MOST), N_LESS(1)}};

/* as many loops as there can be variables: the outermost from 0 to -5, all others from 0 to 0 */
static const scope deepest = {"12 loops", 0, MOST_LOOPS, {NUMBER(0)}, {NUMBER(-5)}};

/* so many family variables and no loops */
static const scope widest = {"12 family variables", MOST_LOOPS, 0, {NUMBER(0)}, {NUMBER(0)}};

static const question questions[] = {
    /* without loops only the form itself counts */
    {"0", &no_loops, NUMBER(0), {0, 0, 0}},
    {"n", &no_loops, FORM(0, 1, 0, 0, 0), {0, 0, 0}},
    {"-1", &no_loops, NUMBER(-1), {12, 0, 0}},
    {"n - 1", &no_loops, N_LESS(1), {12, 0, 0}},
    {"1 - n", &no_loops, FORM(1, -1, 0, 0, 0), {12, 0, 0}},
    {"2000000000", &no_loops, NUMBER(MOST), {0, 0, 0}},
    {"-2000000000", &no_loops, NUMBER(-MOST), {12, 0, 0}},

    /* settled forms: the scan goes through no loop variable */
    {"5", &cube, NUMBER(5), {0, 0, 0}},
    {"n + 5", &cube, FORM(5, 1, 0, 0, 0), {0, 0, 0}},

    /* one loop variable: counted from the innermost out to it */
    {"c", &cube, FORM(0, 0, 0, 0, 1), {0, 1, 0}},
    {"b", &cube, FORM(0, 0, 0, 1, 0), {0, 2, 0}},
    {"a", &cube, FORM(0, 0, 1, 0, 0), {0, 3, 0}},
    {"n - 1 - c", &cube, FORM(-1, 1, 0, 0, -1), {0, 1, 0}},
    {"n - 1 - b", &cube, FORM(-1, 1, 0, -1, 0), {0, 2, 0}},
    {"n - 1 - a", &cube, FORM(-1, 1, -1, 0, 0), {0, 3, 0}},

    /* two and three: out to the last, and one between them whose coefficient is 0 is counted too */
    {"b + c", &cube, FORM(0, 0, 0, 1, 1), {0, 2, 0}},
    {"a + c", &cube, FORM(0, 0, 1, 0, 1), {0, 3, 0}},
    {"2 * n - 2 - a - c", &cube, FORM(-2, 2, -1, 0, -1), {0, 3, 0}},
    {"a + b + c", &cube, FORM(0, 0, 1, 1, 1), {0, 3, 0}},

    /* b brings in a, and -c brings in b; the a of b - a is gone once b is replaced */
    {"c", &chain, FORM(0, 0, 0, 0, 1), {0, 1, 0}},
    {"b", &chain, FORM(0, 0, 0, 1, 0), {0, 3, 0}},
    {"n - 1 - c", &chain, FORM(-1, 1, 0, 0, -1), {0, 2, 0}},
    {"b - a", &chain, FORM(0, 0, -1, 1, 0), {0, 2, 0}},
    {"n - 1 - b", &chain, FORM(-1, 1, 0, -1, 0), {0, 2, 0}},

    /* not shown: n - 2 - c becomes -1, c - b becomes 1 - n, and no trial makes up for it */
    {"n - 2 - c", &cube, FORM(-2, 1, 0, 0, -1), {12, 1, 3}},
    {"c - b", &chain, FORM(0, 0, 0, -1, 1), {12, 2, 3}},
    {"-1", &cube, NUMBER(-1), {12, 0, 3}},
    {"n - 2", &cube, N_LESS(2), {12, 0, 3}},

    /* by a trial: the first one, from the inside out, that shows it is the last one made */
    {"n - 1", &cube, N_LESS(1), {0, 0, 1}},
    {"n - 2", &shrinking, N_LESS(2), {0, 0, 2}},
    {"n - 3", &shrinking, N_LESS(3), {0, 0, 2}},
    {"n - 4", &shrinking, N_LESS(4), {12, 0, 3}},
    {"n - 2", &growing, N_LESS(2), {0, 0, 2}},
    {"n - 3", &growing, N_LESS(3), {0, 0, 3}},
    {"n - 4", &growing, N_LESS(4), {12, 0, 3}},

    /* x[0] and x[1] of n cells are there, x[2] is not */
    {"n - 1", &rounds, N_LESS(1), {0, 0, 1}},
    {"n - 2", &rounds, N_LESS(2), {0, 0, 1}},
    {"n - 3", &rounds, N_LESS(3), {12, 0, 1}},

    /* the count is that of the scan which does not show it: n - 3 + a becomes n - 2; the trial's form, a - 1, becomes 0 */
    {"n - 3 + a", &rounds, FORM(-3, 1, 1, 0, 0), {0, 1, 1}},
    {"n - 4 + a", &rounds, FORM(-4, 1, 1, 0, 0), {12, 1, 1}},

    /* and so where only the trial's form has loop variables: n - 1 less b, the range of c; b - 1 becomes a - 1 and then -1 */
    {"n - 1", &chain, N_LESS(1), {0, 0, 1}},
    {"b - 1", &chain, FORM(-1, 0, 0, 1, 0), {12, 3, 3}},

    /* n + k - 2 would need the ranges of both loops together */
    {"n + k - 1", &two_sizes, {-1, {1, 1}}, {0, 0, 1}},
    {"n + k - 2", &two_sizes, {-2, {1, 1}}, {12, 0, 2}},

    /* out of range: at the first variable and at the second, and no trial is made; the product is tested before the sum */
    {"2 * b", &large, FORM(0, 0, 0, 2, 0), {0, 1, 0}},
    {"3 * b", &large, FORM(0, 0, 0, 3, 0), {11, 1, 0}},
    {"-2 * b", &large, FORM(0, 0, 0, -2, 0), {0, 1, 0}},
    {"2 * a", &large, FORM(0, 0, 2, 0, 0), {11, 2, 0}},
    {"-2 * a", &large, FORM(0, 0, -2, 0, 0), {11, 2, 0}},
    {"2 * a - 2", &large, FORM(-2, 0, 2, 0, 0), {11, 2, 0}},
    {"2 * b + 1", &large, FORM(1, 0, 0, 2, 0), {11, 1, 0}},
    {"2000000000 * a + b", &chain, FORM(0, 0, MOST, 1, 0), {11, 2, 0}},

    /* a range that is out of range fails its own trial, and no other */
    {"n - 1", &far_inside, N_LESS(1), {0, 0, 2}},
    {"n - 3", &far_inside, N_LESS(3), {12, 0, 2}},
    {"n - 1", &far_outside, N_LESS(1), {0, 0, 1}},
    {"n - 3", &far_outside, N_LESS(3), {12, 0, 2}},

    /* the most loops, the outermost without a round; and the most variables of a family */
    {"the innermost", &deepest, {0, {0, 0, 0, 0, 0, 0, 0, 0, 0, 0, 0, 1}}, {0, 1, 0}},
    {"the outermost", &deepest, {0, {1}}, {0, 12, 0}},
    {"-1", &deepest, NUMBER(-1), {0, 0, 12}},
    {"-6", &deepest, NUMBER(-6), {12, 0, 12}},
    {"the last variable", &widest, {0, {0, 0, 0, 0, 0, 0, 0, 0, 0, 0, 0, 1}}, {0, 0, 0}},
    {"the last variable below 0", &widest, {0, {0, 0, 0, 0, 0, 0, 0, 0, 0, 0, 0, -1}}, {12, 0, 0}},
};

/* Whether an answer is the one that is due. */
static int is_due(metaqasm_showing_result got, metaqasm_showing_result due)
{
    return got.number == due.number && got.through == due.through && got.trials == due.trials;
}

/* The answer to a question is the one that is due. */
static int expect_due(metaqasm_showing_result got, metaqasm_showing_result due, const char *name)
{
    int met = expect(is_due(got, due), name, "the number and counts that are due");

    if (!met) {
        printf("    %u, %u, %u, got %u, %u, %u\n", due.number, due.through, due.trials, got.number, got.through, got.trials);
    }
    return met;
}

/* What the showing of a form answers in a scope. */
static metaqasm_showing_result in_scope(const scope *in, const metaqasm_form *form)
{
    return metaqasm_showing(form, in->variables, in->loops, in->lows, in->loops, in->highs, in->loops);
}

/* Each question has its answer. */
static void answers(void)
{
    size_t i;

    for (i = 0; i < COUNT(questions); i++) {
        const question *asked = &questions[i];

        if (!expect_due(in_scope(asked->in, &asked->form), asked->due, asked->name)) {
            printf("    with %s\n", asked->in->name);
        }
    }
}

/* Forms that end at an edge. */
static const metaqasm_form *before(uint8_t *end, const metaqasm_form *forms, size_t count)
{
    memcpy(end - count * sizeof *forms, forms, count * sizeof *forms);
    return (const metaqasm_form *)(void *)(end - count * sizeof *forms);
}

/* Each question has the same answer where the form and the loops' forms end at pages that cannot be read. */
static void at_edges(void)
{
    uint8_t *forms_end = edge(), *lows_end = edge(), *highs_end = edge();
    size_t i, same = 0;

    if (!expect(forms_end != NULL && lows_end != NULL && highs_end != NULL, "pages", "to be had")) {
        return;
    }
    for (i = 0; i < COUNT(questions); i++) {
        const question *asked = &questions[i];
        const scope *in = asked->in;

        same += is_due(metaqasm_showing(before(forms_end, &asked->form, 1), in->variables, in->loops,
                                        before(lows_end, in->lows, in->loops), in->loops,
                                        before(highs_end, in->highs, in->loops), in->loops),
                       asked->due);
    }
    expect(same == COUNT(questions), "forms that end at an edge", "the same answers");
}

static const metaqasm_showing_result none = {METAQASM_NO_FORMS, 0, 0};
static const metaqasm_showing_result shown = {METAQASM_DONE, 0, 0};

/* Numbers out of range, of variables that are in scope and of others. */
static void numbers(void)
{
    unsigned v;

    for (v = 0; v < METAQASM_FORM_VARIABLES; v++) {
        metaqasm_form form = NUMBER(0);
        scope low = cube, high = cube;

        form.coefficients[v] = MOST + INT64_C(1);
        expect_due(in_scope(&cube, &form), none, "a coefficient above the range");
        form.coefficients[v] = -MOST - INT64_C(1);
        expect_due(in_scope(&cube, &form), none, "a coefficient below the range");
        form.coefficients[v] = 0;
        low.lows[v % cube.loops].coefficients[v] = INT64_MAX;
        expect_due(in_scope(&low, &form), none, "a coefficient of a low form above the range");
        high.highs[v % cube.loops].coefficients[v] = INT64_MIN;
        expect_due(in_scope(&high, &form), none, "a coefficient of a high form below the range");
    }
}

/* Constants out of range. */
static void constants(void)
{
    static const metaqasm_form above = {MOST + INT64_C(1), {0}}, below = {-MOST - INT64_C(1), {0}};
    uint32_t i;

    expect_due(in_scope(&cube, &above), none, "a constant above the range");
    expect_due(in_scope(&cube, &below), none, "a constant below the range");
    for (i = 0; i < cube.loops; i++) {
        static const metaqasm_form n = {0, {1}};
        scope low = cube, high = cube;

        low.lows[i] = below;
        expect_due(in_scope(&low, &n), none, "a low form below the range");
        high.highs[i] = above;
        expect_due(in_scope(&high, &n), none, "a high form above the range");
    }
}

/* Too many variables, and fewer low or high forms than loops; forms past the loops are not looked at. */
static void counts(void)
{
    static const metaqasm_form n = {0, {1}};
    static const metaqasm_form lows[] = {NUMBER(0), NUMBER(0), NUMBER(INT64_MIN)};
    static const metaqasm_form highs[] = {N_LESS(1), N_LESS(1), NUMBER(INT64_MAX)};
    const metaqasm_form *zeros = deepest.lows;

    expect_due(metaqasm_showing(&n, 4, 8, zeros, 8, zeros, 8), shown, "4 variables and 8 loops");
    expect_due(metaqasm_showing(&n, 4, 9, zeros, 9, zeros, 9), none, "4 variables and 9 loops");
    expect_due(metaqasm_showing(&n, 5, 8, zeros, 8, zeros, 8), none, "5 variables and 8 loops");
    expect_due(metaqasm_showing(&n, 13, 0, zeros, 0, zeros, 0), none, "13 variables");
    expect_due(metaqasm_showing(&n, UINT32_MAX, 0, zeros, 0, zeros, 0), none, "4294967295 variables");
    expect_due(metaqasm_showing(&n, UINT32_MAX, 1, zeros, 1, zeros, 1), none, "4294967295 variables and a loop");
    expect_due(metaqasm_showing(&n, 1, UINT32_MAX, zeros, 1, zeros, 1), none, "4294967295 loops");
    expect_due(metaqasm_showing(&n, 1, 2, lows, 1, highs, 2), none, "a low form less than loops");
    expect_due(metaqasm_showing(&n, 1, 2, lows, 2, highs, 1), none, "a high form less than loops");
    expect_due(metaqasm_showing(&n, 1, 2, lows, 3, highs, 3), shown, "two loops and three forms");
    expect_due(metaqasm_showing(&n, 1, 3, lows, 3, highs, 3), none, "three loops, the third out of range");
}

/* NULL with length 0, which is right without loops and too few with them. */
static void nulls(void)
{
    static const metaqasm_form five = NUMBER(5), below = NUMBER(-1);
    static const metaqasm_showing_result not_shown = {METAQASM_NOT_SHOWN, 0, 0};

    expect_due(metaqasm_showing(&five, 0, 0, NULL, 0, NULL, 0), shown, "5 at the top");
    expect_due(metaqasm_showing(&below, 0, 0, NULL, 0, NULL, 0), not_shown, "-1 at the top");
    expect_due(metaqasm_showing(&five, 1, 1, NULL, 0, NULL, 0), none, "a loop without forms");
    expect_due(metaqasm_showing(&five, 1, 1, &five, 1, NULL, 0), none, "a loop without a high form");
    expect_due(metaqasm_showing(&five, 1, 1, NULL, 0, &five, 1), none, "a loop without a low form");
}

int main(void)
{
    expect(sizeof(metaqasm_form) == 13 * sizeof(int64_t), "a form", "13 numbers");
    expect(METAQASM_FORM_OUT_OF_RANGE == 11 && METAQASM_NOT_SHOWN == 12, "11 and 12", "their names");
    answers();
    at_edges();
    numbers();
    constants();
    counts();
    nulls();
    return closed();
}
