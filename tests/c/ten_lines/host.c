#include <metaqasm.h>
#include <stdio.h>
int main(void) {
    static uint8_t program[METAQASM_MOST_PROGRAM_BYTES + 1], list[10000 * METAQASM_RECORD_BYTES];
    size_t length = fread(program, 1, sizeof program, stdin);
    metaqasm_result end = metaqasm_run(program, length, 100000, list, sizeof list);
    for (const uint8_t *gate = list; gate < list + end.records * METAQASM_RECORD_BYTES; gate += METAQASM_RECORD_BYTES)
        printf("op %d on %d %d\n", gate[0], gate[2] | gate[3] << 8, gate[4] | gate[5] << 8);
    return puts(metaqasm_message(end.number)) < 0 || end.number != METAQASM_DONE;
}
