/* Openings in and out of their range, readings all at once that are refused, and copies. */
#include "check.h"

#include <string.h>

static void check_opening(owlgantry_limits limits, size_t stride, size_t length, uint64_t answer) {
    const char *name = answer == 0 ? "an opening in range" : "an opening out of range";
    uint32_t palette[OWLGANTRY_REGISTERS];
    owlgantry_session session;
    owlgantry_fed fed;
    owlgantry_picture picture;
    owlgantry_part part;
    owlgantry_canvas canvas = fresh_canvas(100, 7);
    canvas.stride = stride;
    canvas.length = length;
    owlgantry_standard_palette(palette);
    same(name, "the DCS opening", owlgantry_dcs_open(&session, limits, canvas, palette), answer);
    same(name, "the DCS feed", owlgantry_dcs_feed(&session, canvas, "", 0, SIZE_MAX, &fed),
         answer == 0 ? 0 : OWLGANTRY_FAILED);
    same(name, "the opening", open_session(PAYLOAD, &session, limits, canvas, palette), answer);
    same(name, "the feed", owlgantry_payload_feed(&session, canvas, "", 0, SIZE_MAX, &fed),
         answer == 0 ? 0 : OWLGANTRY_FAILED);
    same(name, "reading at once", owlgantry_read(limits, canvas, "", 0, palette, &picture, &part), answer);
    canvas.stride = 100;
    canvas.length = 2800;
    holds(name, "only pixel (0, 0) is written, if any", untouched_outside(canvas, answer == 0, answer == 0));
}

static void check_openings(void) {
    static const size_t most = 1000000, trillion = 1000000000000;
    owlgantry_limits house = owlgantry_house_limits();
    check_opening(owlgantry_limits_of(1, 1, 1, 1), 1, 4, 0);
    check_opening(owlgantry_limits_of(most, most, trillion, trillion), 700, 2800, 0);
    check_opening(house, 3, 13, 0);
    check_opening(house, 0, 2800, OWLGANTRY_OPENING);
    check_opening(house, most + 1, 2800, OWLGANTRY_OPENING);
    check_opening(house, most, 2800, OWLGANTRY_OPENING);
    check_opening(house, SIZE_MAX / 4 + 1, 2800, OWLGANTRY_OPENING);
    check_opening(house, 100, 399, OWLGANTRY_OPENING);
    check_opening(house, 1, 0, OWLGANTRY_OPENING);
    for (int at = 0; at < 3; at++) {
        static const size_t sides[] = {0, 1000001, SIZE_MAX}, counts[] = {0, 1000000000001, SIZE_MAX};
        check_opening(owlgantry_limits_of(sides[at], 768, 1024, 786432), 100, 2800, OWLGANTRY_OPENING);
        check_opening(owlgantry_limits_of(1024, sides[at], 1024, 786432), 100, 2800, OWLGANTRY_OPENING);
        check_opening(owlgantry_limits_of(1024, 768, counts[at], 786432), 100, 2800, OWLGANTRY_OPENING);
        check_opening(owlgantry_limits_of(1024, 768, 1024, counts[at]), 100, 2800, OWLGANTRY_OPENING);
    }
}

/* NULL with a length of 0 is an empty memory. */
static void check_nulls(void) {
    const char *name = "NULL and 0";
    uint32_t palette[OWLGANTRY_REGISTERS];
    owlgantry_session session;
    owlgantry_picture picture;
    owlgantry_part part;
    owlgantry_limits house = owlgantry_house_limits();
    owlgantry_canvas none = owlgantry_canvas_of(NULL, 0, 1), canvas = fresh_canvas(1, 6);
    owlgantry_standard_palette(palette);
    same(name, "the size of a session", sizeof session, 1408);
    same(name, "an opening", open_session(PAYLOAD, &session, house, none, palette), OWLGANTRY_OPENING);
    same(name, "no canvas to read on", owlgantry_read(house, none, "~", 1, palette, &picture, &part),
         OWLGANTRY_OPENING);
    same(name, "nothing to read", owlgantry_read(house, canvas, NULL, 0, palette, &picture, &part), 0);
    same(name, "the picture of nothing", picture.width * picture.height, 1);
    same(name, "its right and bottom", picture.right | picture.bottom, 0);
}

static void check_reading(const char *bytes, uint64_t answer, size_t place) {
    uint32_t palette[OWLGANTRY_REGISTERS], owner[OWLGANTRY_REGISTERS];
    owlgantry_picture picture, none;
    owlgantry_part part;
    owlgantry_canvas canvas = fresh_canvas(6, 13);
    memset(&none, 0, sizeof none);
    owlgantry_standard_palette(palette);
    owlgantry_standard_palette(owner);
    same(bytes, "reading at once",
         owlgantry_read(owlgantry_limits_of(8, 12, 8, 48), canvas, bytes, strlen(bytes), palette, &picture, &part),
         answer);
    same(bytes, "the payload's place", part.place, place);
    same(bytes, "the payload's length", part.length, strlen(bytes) - place);
    holds(bytes, "the report of a refused reading is zeros", memcmp(&picture, &none, sizeof none) == 0);
    holds(bytes, "the palette is the owner's", memcmp(palette, owner, sizeof owner) == 0);
    if (place == strlen(bytes)) {
        holds(bytes, "nothing is written", untouched_outside(canvas, 0, 0));
    }
}

static void check_readings(void) {
    check_reading("~\033P\x18", OWLGANTRY_HEADER_ENDED, 4);
    check_reading("\x90r", OWLGANTRY_HEADER_BYTE, 2);
    check_reading("text \033P1;2", OWLGANTRY_UNFINISHED, 10);
    check_reading("\x90q#1;2;100;0;0!9~", OWLGANTRY_REPEAT, 2);
    check_reading("--~", OWLGANTRY_SIZE, 0);
    check_reading("!5~-~", OWLGANTRY_PIXELS, 0);
    check_reading("\x90q!7~", OWLGANTRY_ROOM, 2);
    check_reading("\x90q~!9", OWLGANTRY_REPEAT, 2);
}

static void check_copies(void) {
    const char *name = "copying";
    uint8_t out[100];
    owlgantry_canvas canvas = fresh_canvas(4, 6), odd = canvas;
    memset(out, 0xa5, sizeof out);
    odd.length -= 1;
    same(name, "a buffer too short", owlgantry_copy(canvas, 4, 6, out, 95), OWLGANTRY_BUFFER);
    same(name, "no buffer", owlgantry_copy(canvas, 1, 1, NULL, 0), OWLGANTRY_BUFFER);
    same(name, "a width above the stride", owlgantry_copy(canvas, 5, 1, out, 100), OWLGANTRY_CANVAS);
    same(name, "a height above the rows", owlgantry_copy(canvas, 1, 7, out, 100), OWLGANTRY_CANVAS);
    same(name, "a last row that is not whole", owlgantry_copy(odd, 4, 6, out, 100), OWLGANTRY_CANVAS);
    same(name, "no width", owlgantry_copy(canvas, 0, 1, out, 100), OWLGANTRY_CANVAS);
    same(name, "no height", owlgantry_copy(canvas, 1, 0, out, 100), OWLGANTRY_CANVAS);
    same(name, "no stride", owlgantry_copy(owlgantry_canvas_of(canvas.bytes, 96, 0), 1, 1, out, 100), OWLGANTRY_CANVAS);
    same(name, "no canvas", owlgantry_copy(owlgantry_canvas_of(NULL, 0, 4), 1, 1, out, 100), OWLGANTRY_CANVAS);
    same(name, "sizes that wrap", owlgantry_copy(canvas, SIZE_MAX, SIZE_MAX, out, 100), OWLGANTRY_CANVAS);
    for (size_t at = 0; at < sizeof out; at++) {
        same(name, "a byte after refusals", out[at], 0xa5);
    }
    same(name, "3 x 2", owlgantry_copy(canvas, 3, 2, out, 24), 0);
    for (size_t at = 0; at < sizeof out; at++) {
        size_t from = at / 12 * 16 + at % 12;
        same(name, "a byte of 3 x 2", out[at], at < 24 ? before(from) : 0xa5);
    }
}

void test_calls(void) {
    check_openings();
    check_nulls();
    check_readings();
    check_copies();
}
