/* The showing of one form, for C and C++ on x86-64 Linux: whether a check finds it to be 0 or more, and how far it has to go.
 *
 * Build the archive with `bash tools/build.sh showing` (it writes target/staticlib/libshowing.a) and link it:
 *
 *     cc -I include host.c target/staticlib/libshowing.a -o host
 *
 * A host needs this file and the archive, and metaqasm.h does not need them. Both headers and both archives go together in one
 * program. C99 and C++11 and what came after will do.
 *
 * What it is for. A check accepts an element, a slice, a size, an index of a call or a k only where a form, or one after
 * another, is shown to be 0 or more. The more loop variables a showing goes through and the more trials it makes, the longer it
 * takes. So who wonders why the check of a large library takes long can ask here about its indexes, one form at a time. The
 * answer is that of the showing that the check makes: both use the same proved code.
 *
 * How e >= 0 is shown. The scan goes from the innermost loop's variable out. A term c * v of a loop variable is replaced, by c
 * times the low form of its loop where c is above 0, and by c times the high form where c is below 0; where c is 0, the scan
 * goes on. It ends as soon as no loop variable that is left has a coefficient other than 0. Then the constant and all
 * coefficients must be 0 or more. Where one is not, there is a trial for each loop, from the inside out, up to the first that
 * shows e: whether e - (high - low) is shown by such a scan, as a loop's body runs only where low <= high.
 *
 * What a caller owes: each pointer is valid for the forms given with it, and during the call nobody changes them. A call reads
 * nothing else and writes nothing, takes less than 8 KiB of stack and ends, whatever the forms are. Any number of threads may
 * make calls at once. */
#ifndef METAQASM_SHOWING_H
#define METAQASM_SHOWING_H

#include <stddef.h>
#include <stdint.h>

#ifdef __cplusplus
extern "C" {
#endif

/* How many index variables a form has a coefficient for: up to 4 of a family, and of up to 8 open loops. */
#define METAQASM_FORM_VARIABLES 12

/* The number where the arguments are no forms. No other call answers with it. */
#define METAQASM_NO_FORMS 255

/* A form: a constant, and for each index variable its coefficient, by number. A family's variables come first, as declared,
 * and then those of the open loops, the outermost first. Each number lies from -METAQASM_MOST_INDEX (see metaqasm.h) to
 * METAQASM_MOST_INDEX, that is 2,000,000,000. */
typedef struct {
    int64_t constant;
    int64_t coefficients[METAQASM_FORM_VARIABLES];
} metaqasm_form;

/* The answer of a showing.
 *
 * number   0: the form is shown to be 0 or more. 11: a number leaves the range during the scan (one that leaves it during a
 *          trial fails that trial only). 12: it is not shown. METAQASM_NO_FORMS: the arguments are no forms; then both counts
 *          are 0
 * through  how many loop variables the scan of the form went through: from the innermost out to the last whose term is
 *          replaced, one whose replacement leaves the range included; 0 where none is. Scans of trials are not counted here
 * trials   how many trials were made after it: 0 where the scan answers 0 or 11; where the k-th loop from the inside is the
 *          first whose trial shows the form, k; as many as there are loops where none does
 */
typedef struct {
    uint32_t number;
    uint32_t through;
    uint32_t trials;
} metaqasm_showing_result;

/* Shows a form to be 0 or more, inside so many loops.
 *
 * form       the form e, never NULL
 * variables  how many index variables the family has; 0 for indexes at the top of a program
 * loops      how many loops are open around the index
 * lows       the low form of each loop, the outermost first; NULL is allowed where lows_len is 0
 * lows_len   how many forms there are, at least as many as loops; more are not looked at
 * highs      the high form of each loop in the same order, with highs_len as lows_len
 *
 * The arguments are no forms where variables and loops are more than METAQASM_FORM_VARIABLES together, where there are fewer
 * low or high forms than loops, or where a number of the form or of one of these loops is out of range.
 *
 * For example, x[i] of an x of n cells asks in `for i = 1..n-1` for i >= 0 and then for n - 1 - i >= 0. The second is
 *
 *     const metaqasm_form e = {-1, {1, -1}}, low = {1, {0}}, high = {-1, {1}};
 *     metaqasm_showing(&e, 1, 1, &low, 1, &high, 1);
 *
 * with number 0, 1 loop variable gone through and no trials. */
metaqasm_showing_result metaqasm_showing(const metaqasm_form *form, uint32_t variables, uint32_t loops,
                                         const metaqasm_form *lows, size_t lows_len, const metaqasm_form *highs,
                                         size_t highs_len);

#ifdef __cplusplus
}
#endif

#endif
