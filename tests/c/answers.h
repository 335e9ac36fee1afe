/* Whether a result or a record is the one that is due. */
#ifndef ANSWERS_H
#define ANSWERS_H

#include <metaqasm.h>
#include <string.h>

/* Whether a result is the one that is due. */
static inline int is(metaqasm_result result, uint32_t number, uint32_t place, uint64_t records, uint64_t steps)
{
    return result.number == number && result.place == place && result.records == records && result.steps == steps;
}

/* Whether a record is h on a wire. */
static inline int is_h(const uint8_t *record, unsigned wire)
{
    const uint8_t due[METAQASM_RECORD_BYTES] = {METAQASM_OP_H, METAQASM_ALWAYS, (uint8_t)wire, (uint8_t)(wire >> 8)};

    return memcmp(record, due, sizeof due) == 0;
}

#endif
