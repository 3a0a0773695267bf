/* Carries calls of the reader's exported functions: commands come in on standard input, answers go out on standard output.
   It is linked with the archive that ships, so that a program for another machine can reach that archive. All numbers are
   little-endian, as on the one machine that the archive is for. */
#include "../c/owlgantry.h"

#include <stdio.h>
#include <stdlib.h>
#include <string.h>

/* As in the program that asks: guard bytes on either side of the canvas, and the fill pattern that a call writes over. */
enum { GUARD = 64, UNWRITTEN = 0xa5 };

static struct {
    uint64_t framed, w, h, r, m, stride, p1, p2, size;
} opening;
static uint32_t palette[OWLGANTRY_REGISTERS], registers[OWLGANTRY_REGISTERS];
static uint64_t session[OWLGANTRY_SESSION_NUMBERS + 16], answer[14]; /* the last 16 are a guard: nobody is lent them */
static uint8_t *buffer, *bytes;
static size_t room_of_bytes;

static void take(void *to, size_t size) {
    if (fread(to, 1, size, stdin) != size) exit(0); /* whoever asks has ended */
}

static void give(const void *from, size_t size) {
    if (fwrite(from, 1, size, stdout) != size) exit(1);
}

static size_t take_bytes(void) {
    uint64_t size;
    take(&size, sizeof size);
    if (size + 1 > room_of_bytes) {
        room_of_bytes = size + 1;
        bytes = realloc(bytes, room_of_bytes);
        if (!bytes) exit(1);
    }
    take(bytes, size);
    return size;
}

static void take_opening(void) {
    take(&opening, sizeof opening);
    take(palette, sizeof palette);
    buffer = realloc(buffer, opening.size);
    if (!buffer) exit(1);
    take(buffer, opening.size);
    memset(session, UNWRITTEN, sizeof session);
    memset(registers, UNWRITTEN, sizeof registers);
}

static uint64_t open_session(void) {
    take_opening();
    size_t len = opening.size - 2 * GUARD;
    if (opening.framed)
        return owlgantry_raw_dcs_open(opening.w, opening.h, opening.r, opening.m, opening.stride, len, palette, session, registers);
    return owlgantry_raw_payload_open(opening.w, opening.h, opening.r, opening.m, opening.stride, (uint32_t)opening.p1,
                                      (uint32_t)opening.p2, buffer + GUARD, len, palette, session, registers);
}

static uint64_t feed(void) {
    uint64_t allowance, shorter;
    take(&allowance, sizeof allowance);
    take(&shorter, sizeof shorter);
    size_t size = take_bytes(), len = opening.size - 2 * GUARD - shorter;
    return (opening.framed ? owlgantry_raw_dcs_feed : owlgantry_raw_payload_feed)(
        session, registers, buffer + GUARD, len, bytes, size, allowance, answer + 1);
}

static uint64_t finish(void) {
    size_t len = opening.size - 2 * GUARD;
    return (opening.framed ? owlgantry_raw_dcs_finish : owlgantry_raw_payload_finish)(
        session, registers, buffer + GUARD, len, palette, answer + 1);
}

static uint64_t read_all(void) {
    take_opening();
    size_t size = take_bytes();
    return owlgantry_raw_read(opening.w, opening.h, opening.r, opening.m, opening.stride, buffer + GUARD,
                              opening.size - 2 * GUARD, bytes, size, palette, answer + 1);
}

/* The buffer that was copied to goes out behind the number. */
static void copy(void) {
    uint64_t width, height;
    take(&width, sizeof width);
    take(&height, sizeof height);
    size_t size = take_bytes();
    answer[0] = owlgantry_raw_copy(buffer + GUARD, opening.size - 2 * GUARD, opening.stride, width, height, bytes, size);
    give(answer, sizeof *answer);
    give(bytes, size);
}

static void standard_palette(void) {
    uint32_t out[OWLGANTRY_REGISTERS];
    memset(out, UNWRITTEN, sizeof out);
    owlgantry_raw_standard_palette(out);
    give(out, sizeof out);
}

static void give_memory(void) {
    give(palette, sizeof palette);
    give(session, sizeof session);
    give(registers, sizeof registers);
    give(buffer, opening.size);
}

int main(void) {
    for (;;) {
        int command = getchar();
        size_t numbers = 1;
        memset(answer, UNWRITTEN, sizeof answer);
        switch (command) {
        case 'o': answer[0] = open_session(); break;
        case 'f': answer[0] = feed(); numbers = 5; break;
        case 'x': answer[0] = finish(); numbers = 12; break;
        case 'r': answer[0] = read_all(); numbers = 14; break;
        case 'c': copy(); numbers = 0; break;
        case 'p': standard_palette(); numbers = 0; break;
        case 'm': give_memory(); numbers = 0; break;
        default: return 0;
        }
        give(answer, numbers * sizeof *answer);
        fflush(stdout);
    }
}
