/* What the programs here share: files, numbers, bytes and refusals. */
#ifndef COMMON_H
#define COMMON_H

#include "lapyndo.h"

#include <errno.h>
#include <inttypes.h>
#include <stdbool.h>
#include <stdio.h>
#include <stdlib.h>

/* Fills a memory from a file as far as it goes. */
static inline bool load(const char *name, uint8_t *memory, size_t room, size_t *length) {
    FILE *file = fopen(name, "rb");
    if (file == NULL) {
        perror(name);
        return false;
    }
    *length = fread(memory, 1, room, file);
    bool whole = !ferror(file);
    if (!whole) {
        perror(name);
    }
    fclose(file);
    return whole;
}

/* The number that an argument stands for. */
static inline bool number_of(const char *text, uint64_t *value) {
    char *end;
    errno = 0;
    *value = strtoull(text, &end, 10);
    bool whole = text[0] >= '0' && text[0] <= '9' && *end == '\0' && errno == 0;
    if (!whole) {
        fprintf(stderr, "%s: not a number\n", text);
    }
    return whole;
}

/* A length to lend, within the memory that there is. */
static inline bool length_of(const char *text, size_t room, size_t *length) {
    uint64_t value;
    if (!number_of(text, &value)) {
        return false;
    }
    *length = (size_t)value;
    if (value > room) {
        fprintf(stderr, "%s: there are %zu only\n", text, room);
    }
    return value <= room;
}

/* Shows bytes in hexadecimal, on a line. */
static inline void show_bytes(const uint8_t *bytes, size_t length) {
    for (size_t i = 0; i < length; i++) {
        printf("%02x", (unsigned)bytes[i]);
    }
    putchar('\n');
}

/* Whether a memory holds one byte only, from an offset on. */
static inline bool holds_only(uint8_t byte, const uint8_t *memory, size_t offset, size_t room) {
    while (offset < room && memory[offset] == byte) {
        offset++;
    }
    return offset == room;
}

/* Shows a refusal; false if there is none. */
static inline bool refused(const char *call, uint64_t answer) {
    if (lapyndo_refusal(answer) == 0) {
        return false;
    }
    printf("%s: refusal %" PRIu32 " place %" PRIu32 "\n", call, lapyndo_refusal(answer), lapyndo_refusal_place(answer));
    return true;
}

#endif
