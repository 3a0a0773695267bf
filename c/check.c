#define _DEFAULT_SOURCE
#include "check.h"

#include <inttypes.h>
#include <stdio.h>
#include <stdlib.h>
#include <string.h>
#include <sys/mman.h>
#include <unistd.h>

static unsigned long checks, differences;

void same(const char *name, const char *what, uint64_t got, uint64_t wanted) {
    checks++;
    if (got != wanted) {
        differences++;
        printf("DIFFERS: %s: %s is %" PRIu64 ", not %" PRIu64 "\n", name, what, got, wanted);
    }
}

void holds(const char *name, const char *what, int truth) {
    checks++;
    if (!truth) {
        differences++;
        printf("DIFFERS: %s: not so: %s\n", name, what);
    }
}

void summary(void) { printf("%lu checks, %lu differences\n", checks, differences); }

int found_differences(void) { return differences != 0; }

void *lend(size_t size) {
    size_t page = (size_t)sysconf(_SC_PAGESIZE);
    size_t whole = (size + page - 1) / page * page;
    uint8_t *start = mmap(NULL, whole + 2 * page, PROT_NONE, MAP_PRIVATE | MAP_ANONYMOUS, -1, 0);
    if (start == MAP_FAILED || mprotect(start + page, whole, PROT_READ | PROT_WRITE) != 0) {
        perror("lend");
        exit(1);
    }
    return start + page + whole - size;
}

uint64_t any_of(uint64_t *seed) {
    uint64_t z = *seed += 0x9e3779b97f4a7c15;
    z = (z ^ (z >> 30)) * 0xbf58476d1ce4e5b9;
    z = (z ^ (z >> 27)) * 0x94d049bb133111eb;
    return z ^ (z >> 31);
}

uint8_t before(size_t place) { return (uint8_t)(place * 7 + 3); }

/* One canvas at a time, in the last bytes of one memory, before its guard page. */
owlgantry_canvas fresh_canvas(size_t stride, size_t rows) {
    static const size_t most = (size_t)4 * 1024 * 768;
    static uint8_t *memory;
    size_t length = 4 * stride * rows;
    if (memory == NULL) {
        memory = lend(most);
    }
    if (length > most) {
        printf("no room for a canvas of %zu bytes\n", length);
        exit(1);
    }
    uint8_t *bytes = memory + (most - length);
    for (size_t place = 0; place < length; place++) {
        bytes[place] = before(place);
    }
    return owlgantry_canvas_of(bytes, length, stride);
}

int untouched_outside(owlgantry_canvas canvas, size_t width, size_t height) {
    for (size_t place = 0; place < canvas.length; place++) {
        size_t pixel = place / 4;
        int inside = pixel % canvas.stride < width && pixel / canvas.stride < height;
        if (!inside && canvas.bytes[place] != before(place)) {
            return 0;
        }
    }
    return 1;
}

uint64_t open_session(kind which, owlgantry_session *session, owlgantry_limits limits, owlgantry_canvas canvas,
                      const uint32_t palette[OWLGANTRY_REGISTERS]) {
    return which == PAYLOAD ? owlgantry_payload_open(session, limits, canvas, OWLGANTRY_NO_PARAMETER,
                                                     OWLGANTRY_NO_PARAMETER, palette)
                            : owlgantry_dcs_open(session, limits, canvas, palette);
}

uint64_t feed_session(kind which, owlgantry_session *session, owlgantry_canvas canvas, const void *bytes, size_t count,
                      size_t allowance, owlgantry_fed *fed) {
    return which == PAYLOAD ? owlgantry_payload_feed(session, canvas, bytes, count, allowance, fed)
                            : owlgantry_dcs_feed(session, canvas, bytes, count, allowance, fed);
}

uint64_t finish_session(kind which, owlgantry_session *session, owlgantry_canvas canvas,
                        uint32_t palette[OWLGANTRY_REGISTERS], owlgantry_picture *picture) {
    return which == PAYLOAD ? owlgantry_payload_finish(session, canvas, palette, picture)
                            : owlgantry_dcs_finish(session, canvas, palette, picture);
}

uint64_t explain_feed(kind which, const owlgantry_session *session, owlgantry_canvas canvas, const void *bytes,
                      size_t count, size_t allowance, owlgantry_telling *telling) {
    return which == PAYLOAD ? owlgantry_payload_explain(session, canvas, bytes, count, allowance, telling)
                            : owlgantry_dcs_explain(session, canvas, bytes, count, allowance, telling);
}

uint64_t explain_finish(kind which, const owlgantry_session *session, owlgantry_canvas canvas,
                        owlgantry_telling *telling) {
    return which == PAYLOAD ? owlgantry_payload_explain_finish(session, canvas, telling)
                            : owlgantry_dcs_explain_finish(session, canvas, telling);
}

progress feed_in_pieces(kind which, owlgantry_session *session, owlgantry_canvas canvas, const char *bytes,
                        size_t count, size_t piece, size_t allowance) {
    progress sums;
    memset(&sums, 0, sizeof sums);
    size_t at = 0;
    while (at < count && sums.refusal == 0 && sums.last.how <= OWLGANTRY_PAYLOAD_STOPPED) {
        size_t size = piece == 0 || piece > count - at ? count - at : piece;
        sums.refusal = feed_session(which, session, canvas, bytes + at, size, allowance, &sums.last);
        at += sums.last.consumed;
        sums.consumed += sums.last.consumed;
        sums.ink += sums.last.ink;
        if (sums.refusal == 0 && sums.last.how == OWLGANTRY_PAYLOAD_ALL_READ && sums.last.consumed != size) {
            printf("a call that read all consumed %" PRIu64 " of %zu bytes\n", sums.last.consumed, size);
            exit(1);
        }
        if (sums.last.how == OWLGANTRY_PAYLOAD_STOPPED && sums.last.consumed == 0) {
            printf("a call stopped and consumed nothing\n");
            exit(1);
        }
    }
    return sums;
}
