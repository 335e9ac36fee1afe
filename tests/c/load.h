/* Reading a file of the repository. */
#ifndef LOAD_H
#define LOAD_H

#include <stddef.h>
#include <stdint.h>
#include <stdio.h>

/* Reads a file whole; a length over the room says that it does not fit, and -1 that it cannot be read. */
static inline long load(const char *path, uint8_t *bytes, size_t room)
{
    FILE *file = fopen(path, "rb");
    size_t length;
    int bad;

    if (file == NULL) {
        printf("%s: cannot be opened; run this from the repository's root\n", path);
        return -1;
    }
    length = fread(bytes, 1, room, file);
    bad = ferror(file);
    if (!bad && length == room && fgetc(file) != EOF) {
        length++;
    }
    fclose(file);
    if (bad) {
        printf("%s: cannot be read\n", path);
        return -1;
    }
    return (long)length;
}

#endif
