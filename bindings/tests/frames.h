/* A file of frames: a length in eight bytes, a time in microseconds in eight, both big-endian, and the bytes. */
#ifndef FRAMES_H
#define FRAMES_H
#include <stdint.h>
#include <stdio.h>
#include <stdlib.h>

static uint64_t big_endian(const uint8_t *at) {
    uint64_t n = 0;
    for (int i = 0; i < 8; i++) n = n << 8 | at[i];
    return n;
}

/* The next frame's body, with its length and time; NULL at the end. */
static const uint8_t *next_frame(FILE *from, uint64_t *now, size_t *n) {
    static uint8_t head[16], body[65535];
    if (fread(head, 1, sizeof head, from) != sizeof head) return NULL;
    *n = big_endian(head);
    *now = big_endian(head + 8);
    if (*n > sizeof body || fread(body, 1, *n, from) != *n) {
        fprintf(stderr, "a broken frame\n");
        exit(2);
    }
    return body;
}
#endif
