/* Standard input as a terminal meets it: text with pictures in it, cut anywhere. The text is passed on, and each
 * picture is read while its bytes arrive. */
#define _POSIX_C_SOURCE 200809L
#include <stdbool.h>
#include <stdio.h>
#include <unistd.h>
#include "owlgantry.h"

/* c/test takes smaller ones, to try every cut. */
#ifndef READ_SIZE
#define READ_SIZE 4096
#endif

#define ESCAPE 0x1B

static uint8_t pixels[4 * 1024 * 768];
static const owlgantry_canvas canvas = {pixels, sizeof pixels, 1024};
static owlgantry_session session;
static uint32_t palette[OWLGANTRY_REGISTERS];

/* What the next byte belongs to. */
static enum { TEXT, PICTURE, REFUSED } place = TEXT;

/* How many bytes of the picture were consumed, with its introducer. */
static size_t consumed_before;

/* In text and in what was refused: the byte before was 1B, and the next one tells what it begins. In a picture the
 * session keeps track of that. */
static bool after_escape = false;

static const char *const ends[] = {
    [OWLGANTRY_DCS_COMPLETE] = "complete",
    [OWLGANTRY_DCS_CANCELLED] = "cancelled",
    [OWLGANTRY_DCS_INTERRUPTED] = "interrupted",
};

/* Each picture gets the standard palette, so that the colours of one do not reach the background of the next. The
 * introducer is fed from here, since its 1B may have come with an earlier read. Neither call can be refused; if one
 * were, the session would have failed, and the next feed would say so. */
static void open_picture(void) {
    owlgantry_limits limits = owlgantry_house_limits();
    owlgantry_fed fed;
    owlgantry_standard_palette(palette);
    owlgantry_dcs_open(&session, limits, canvas, palette);
    owlgantry_dcs_feed(&session, canvas, "\033P", 2, owlgantry_least_allowance(limits), &fed);
    place = PICTURE;
    consumed_before = 2;
    after_escape = false;
}

/* Where in the picture, and why, the session before a call says that the call was refused. */
static void print_refusal(const owlgantry_session *before, const uint8_t *bytes, size_t count, size_t allowance) {
    owlgantry_telling telling;
    char line[OWLGANTRY_LINE];
    owlgantry_dcs_explain(before, canvas, bytes, count, allowance, &telling);
    telling.place += consumed_before;
    owlgantry_words(&telling, line, sizeof line);
    printf("[%s]\n", line);
}

/* Feeds what has been read to the session until all of it is consumed or the picture ends, and answers how many bytes
 * were consumed. With the least allowance every call is short, and a terminal could do other work between two. */
static size_t feed_picture(const uint8_t *bytes, size_t count) {
    size_t allowance = owlgantry_least_allowance(owlgantry_house_limits()), consumed = 0;
    owlgantry_fed fed;
    do {
        owlgantry_session before = session;
        uint64_t refusal = owlgantry_dcs_feed(&session, canvas, bytes + consumed, count - consumed, allowance, &fed);
        if (refusal != OWLGANTRY_DONE) {
            print_refusal(&before, bytes + consumed, count - consumed, allowance);
            place = REFUSED;
            return consumed;
        }
        consumed += fed.consumed;
        consumed_before += fed.consumed;
    } while (fed.how == OWLGANTRY_DCS_STOPPED);
    if (fed.how != OWLGANTRY_DCS_ALL_READ) {
        owlgantry_picture picture;
        owlgantry_dcs_finish(&session, canvas, palette, &picture);
        /* A terminal would show it now: it stands in the upper left corner of the canvas. */
        printf("[picture %d x %d, %s]\n", (int)picture.width, (int)picture.height, ends[fed.how]);
        place = TEXT;
        after_escape = fed.byte == ESCAPE; /* consumed, but it begins what comes after the picture */
    }
    return consumed;
}

/* A picture begins at 1B `P`. The introducer of one byte, 90, is not looked for: in UTF-8 it is a part of letters. */
static void pass_text(uint8_t byte) {
    if (after_escape && byte == 'P') {
        open_picture();
        return;
    }
    if (after_escape) {
        putchar(ESCAPE);
    }
    after_escape = byte == ESCAPE;
    if (!after_escape) {
        putchar(byte);
    }
}

/* A refusal counts no bytes, so all that the refused call was given is looked through for the end of the sequence. No
 * byte before the refused one looks like an end: the session would have ended there. Nor is half of 1B `\` in an
 * earlier call: once a session has consumed 1B, it refuses nothing. As in a picture, 1B with another byte after it ends
 * the sequence too, and begins what comes next. */
static void skip_refused(uint8_t byte) {
    if (after_escape && byte != '\\') {
        place = TEXT;
        pass_text(byte);
        return;
    }
    if (after_escape || byte == 0x9C || byte == 0x18 || byte == 0x1A) {
        place = TEXT;
    }
    after_escape = byte == ESCAPE;
}

static void take(const uint8_t *bytes, size_t count) {
    size_t at = 0;
    while (at < count) {
        if (place == PICTURE) {
            at += feed_picture(bytes + at, count - at);
        } else if (place == REFUSED) {
            skip_refused(bytes[at++]);
        } else {
            pass_text(bytes[at++]);
        }
    }
    fflush(stdout); /* what has arrived is shown, however long the next read waits */
}

int main(void) {
    static uint8_t buffer[READ_SIZE];
    ssize_t count;
    while ((count = read(STDIN_FILENO, buffer, sizeof buffer)) > 0) {
        take(buffer, (size_t)count);
    }
    if (place == PICTURE) {
        puts("[unfinished]"); /* a finish would answer 8 */
    } else if (place == TEXT && after_escape) {
        putchar(ESCAPE);
    }
    return count < 0; /* the last read failed */
}
