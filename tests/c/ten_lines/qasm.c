#include <metaqasm.h>
#include <stdio.h>
int main(void) {
    static uint8_t program[METAQASM_MOST_PROGRAM_BYTES + 1], list[10000 * METAQASM_RECORD_BYTES];
    size_t length = fread(program, 1, sizeof program, stdin);
    static uint8_t text[METAQASM_TEXT_BYTES(10000, METAQASM_MOST_BITS)];
    metaqasm_text_result end = metaqasm_run_text(program, length, 100000, list, sizeof list, text, sizeof text);
    fwrite(text, 1, end.length, stdout);
    return end.number != METAQASM_DONE && fprintf(stderr, "%s\n", metaqasm_message(end.number));
}
