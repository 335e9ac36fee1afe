/* A program that is built field by field. */
#ifndef BUILD_H
#define BUILD_H

#include <metaqasm.h>
#include <string.h>

/* The bytes of a program so far. */
typedef struct {
    uint8_t bytes[METAQASM_MOST_PROGRAM_BYTES + 1];
    size_t length;
} program;

static program built;

/* A field that is put at the end, and what it is refused with at how many bytes past its start. */
typedef struct {
    const char *name;
    uint8_t bytes[40];
    size_t length;
    uint32_t number;
    size_t within;
} refusal;

/* Puts bytes at the end. */
static inline void put(const uint8_t *bytes, size_t length)
{
    memcpy(built.bytes + built.length, bytes, length);
    built.length += length;
}

/* Puts one byte at the end. */
static inline void put_byte(unsigned byte)
{
    built.bytes[built.length++] = (uint8_t)byte;
}

/* Puts a two-byte number at the end, low byte first. */
static inline void put_two(unsigned number)
{
    put_byte(number & 255);
    put_byte(number >> 8);
}

/* Puts the start of a field at the end; the answer is where it starts. */
static inline size_t begin(unsigned tag)
{
    size_t start = built.length;

    put((const uint8_t[]){(uint8_t)tag, 0, 0}, 3);
    return start;
}

/* Gives a field its length: all bytes put since it began. */
static inline void finish(size_t start)
{
    size_t content = built.length - start - 3;

    built.bytes[start + 1] = (uint8_t)(content & 255);
    built.bytes[start + 2] = (uint8_t)(content >> 8);
}

/* Puts a field around all that there is, with a head before it. */
static inline void surround(unsigned tag, const uint8_t *head, size_t head_len)
{
    memmove(built.bytes + 3 + head_len, built.bytes, built.length);
    built.bytes[0] = (uint8_t)tag;
    if (head_len > 0) {
        memcpy(built.bytes + 3, head, head_len);
    }
    built.length += 3 + head_len;
    finish(0);
}

#endif
