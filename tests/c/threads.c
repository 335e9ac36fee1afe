/* Calls at the same time: threads that share one program and its sizes, each with its own output and text and with the stack
 * that the header names, write the lists and print the texts that one call alone does. Threads beside each other ask for
 * different sizes, so that anything shared by their calls would show. Run it from the repository's root. */
#include "expect.h"
#include "load.h"
#include <metaqasm.h>
#include <pthread.h>
#include <string.h>

#define THREADS 4
#define ROUNDS 50
#define RECORDS 4096
#define THREADS_OWN_KIB 64 /* what a thread has in use beside the call */

/* What the threads share: a program, and the sizes for the adder on 101 and on 91 cells. */
static uint8_t program[METAQASM_MOST_PROGRAM_BYTES];
static size_t length;
static const uint8_t sizes[][METAQASM_SIZE_BYTES] = {{100, 0, 0, 0}, {90, 0, 0, 0}};

#define KINDS (sizeof sizes / sizeof sizes[0])

/* What is written at one size: a list, and the same list again with its text. */
typedef struct {
    uint8_t plain[METAQASM_RECORD_BYTES * RECORDS];
    uint8_t output[METAQASM_RECORD_BYTES * RECORDS];
    uint8_t text[METAQASM_TEXT_BYTES(RECORDS, 0)];
    metaqasm_result listed;
    metaqasm_text_result printed;
} written;

static written due[KINDS];

/* What a thread has for itself: which size it asks for, what it writes, and how often that was right. */
typedef struct {
    pthread_t thread;
    int started;
    size_t kind;
    written own;
    int right;
} caller;

/* Lists the adder at a size, and lists and prints it. */
static void list(written *into, size_t kind)
{
    memset(into, 0, sizeof *into);
    into->listed = metaqasm_instance(program, length, 2, sizes[kind], sizeof sizes[kind], 100000, into->plain,
                                     sizeof into->plain);
    into->printed = metaqasm_instance_text(program, length, 2, sizes[kind], sizeof sizes[kind], 100000, into->output,
                                           sizeof into->output, into->text, sizeof into->text);
}

/* Lists it again and again, and compares. */
static void *calls(void *given)
{
    caller *own = given;
    int i;

    for (i = 0; i < ROUNDS; i++) {
        list(&own->own, own->kind);
        own->right += memcmp(&own->own, &due[own->kind], sizeof own->own) == 0;
    }
    return NULL;
}

/* What one call alone gives at a size: a complete list, and a text with a line for each gate. */
static void alone(size_t kind)
{
    uint64_t gates = 18 + 37 * (uint64_t)sizes[kind][0];

    list(&due[kind], kind);
    expect(due[kind].listed.number == METAQASM_DONE && due[kind].listed.records == gates, "add", "18 gates, and 37 for each n");
    expect(due[kind].printed.number == METAQASM_DONE && due[kind].printed.records == gates &&
               due[kind].printed.length > gates * strlen("h q[0];\n") &&
               memcmp(due[kind].plain, due[kind].output, sizeof due[kind].output) == 0,
           "add with its text", "the same gates, and a line for each");
}

/* Starts a thread with the stack that the header names. */
static int start(caller *own)
{
    pthread_attr_t with_stack;

    return pthread_attr_init(&with_stack) == 0 &&
           pthread_attr_setstacksize(&with_stack, (size_t)(METAQASM_STACK_KIB + THREADS_OWN_KIB) << 10) == 0 &&
           pthread_create(&own->thread, &with_stack, calls, own) == 0;
}

int main(void)
{
    static caller callers[THREADS];
    long loaded = load("examples/adder.bytes", program, sizeof program);
    size_t i;

    if (!expect(loaded > 0 && (size_t)loaded <= sizeof program, "examples/adder.bytes", "a program that can be read")) {
        return closed();
    }
    length = (size_t)loaded;
    for (i = 0; i < KINDS; i++) {
        alone(i);
    }
    for (i = 0; i < THREADS; i++) {
        callers[i].kind = i % KINDS;
        callers[i].started = expect(start(&callers[i]), "a thread", "to be started");
    }
    for (i = 0; i < THREADS; i++) {
        int ended = callers[i].started && pthread_join(callers[i].thread, NULL) == 0;

        expect(ended && callers[i].right == ROUNDS, "a thread", "the same list and text every time");
    }
    return closed();
}
