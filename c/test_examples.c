/* The bench examples (docs/RULES.md, section 12) and some more, each read all at once, as a payload and as a DCS sequence, in pieces. */
#include "check.h"

#include <stdio.h>
#include <string.h>

#define HOUSE {1024, 768, 1024, 786432}
#define HOUSE_CANVAS 1024, 768
#define SIX(row) row row row row row row
#define FORTY(pixel) SIX(pixel) SIX(pixel) SIX(pixel) SIX(pixel) SIX(pixel) SIX(pixel) pixel pixel pixel pixel

/* A payload and its outcome: the refusal, or size, extent, ink, ratio, declared size and every pixel (a letter of `colour_of` each). */
typedef struct {
    const char *payload;
    owlgantry_limits limits;
    size_t stride, rows;
    uint64_t refusal, width, height, right, bottom, ink, ratio_kind, ratio, declared_width, declared_height;
    const char *pixels;
} example;

static const example examples[] = {
    {"", HOUSE, HOUSE_CANVAS, 0, 1, 1, 0, 0, 0, 0, 0, 0, 0, "k"},
    {"~-?", HOUSE, HOUSE_CANVAS, 0, 1, 12, 1, 6, 6, 0, 0, 0, 0, "kkkkkkkkkkkk"},
    {"!5#1~", HOUSE, HOUSE_CANVAS, 0, 5, 6, 5, 6, 30, 0, 0, 0, 0, SIX("ddddd")},
    {"!0~", HOUSE, HOUSE_CANVAS, 0, 1, 6, 1, 6, 6, 0, 0, 0, 0, SIX("k")},
    {"!1\n2~", HOUSE, HOUSE_CANVAS, 0, 12, 6, 12, 6, 72, 0, 0, 0, 0, SIX("kkkkkkkkkkkk")},
    {"#1;2;100;0~", HOUSE, HOUSE_CANVAS, 0, 1, 6, 1, 6, 6, 0, 0, 0, 0, SIX("d")},
    {"#1;2;100;0;~", HOUSE, HOUSE_CANVAS, 0, 1, 6, 1, 6, 6, 0, 0, 0, 0, SIX("r")},
    {"#300~", HOUSE, HOUSE_CANVAS, 0, 1, 6, 1, 6, 6, 0, 0, 0, 0, SIX("w")},
    {"~#0;2;100;100;100-~", HOUSE, HOUSE_CANVAS, 0, 1, 12, 1, 12, 12, 0, 0, 0, 0, SIX("k") SIX("w")},
    {"\"2;1\"1;2", HOUSE, HOUSE_CANVAS, 0, 1, 1, 0, 0, 0, 0, 0, 0, 0, "k"},
    {"!8~", {8, 768, 8, 786432}, HOUSE_CANVAS, 0, 8, 6, 8, 6, 48, 0, 0, 0, 0, SIX("kkkkkkkk")},
    {"!9~", {8, 768, 8, 786432}, HOUSE_CANVAS, 4, 0, 0, 0, 0, 0, 0, 0, 0, 0, ""},
    {"!9~", {8, 768, 1024, 786432}, HOUSE_CANVAS, 5, 0, 0, 0, 0, 0, 0, 0, 0, 0, ""},
    {"--~", {1024, 12, 1024, 786432}, HOUSE_CANVAS, 5, 0, 0, 0, 0, 0, 0, 0, 0, 0, ""},
    {"--", {1024, 12, 1024, 786432}, HOUSE_CANVAS, 0, 1, 1, 0, 0, 0, 0, 0, 0, 0, "k"},
    {"!8~", {8, 12, 1024, 48}, HOUSE_CANVAS, 0, 8, 6, 8, 6, 48, 0, 0, 0, 0, SIX("kkkkkkkk")},
    {"!8~-?", {8, 12, 1024, 48}, HOUSE_CANVAS, 6, 0, 0, 0, 0, 0, 0, 0, 0, 0, ""},
    {"!5~", HOUSE, 4, 6, 7, 0, 0, 0, 0, 0, 0, 0, 0, 0, ""},
    {"!8~$!8~", {8, 768, 1024, 786432}, HOUSE_CANVAS, 0, 8, 6, 8, 6, 96, 0, 0, 0, 0, SIX("kkkkkkkk")},
    {"#1;1;120;50;100~", HOUSE, HOUSE_CANVAS, 0, 1, 6, 1, 6, 6, 0, 0, 0, 0, SIX("r")},
    {"#1;1;0;50;100~", HOUSE, HOUSE_CANVAS, 0, 1, 6, 1, 6, 6, 0, 0, 0, 0, SIX("b")},
    {"#1;2;100;0;0!2B", {128, 128, 128, 16384}, 128, 128, 0, 2, 6, 2, 2, 4, 0, 0, 0, 0, "rr" "rr" "kk" "kk" "kk" "kk"},
    /* A sixel on another, a raster larger than the ink, and a ratio that stays. */
    {"\"4;2;4;3#1!3@$#255A", HOUSE, 5, 7, 0, 4, 6, 3, 2, 4, 2, 2, 4, 3, "ddd" "k" "w" "kkk" "kkkk" "kkkk" "kkkk" "kkkk"},
    /* Every sixel of the first band is one column further, and stops come between. */
    {"#1~#255~#1~#255~-#1!4~", {4, 12, 9, 48}, 4, 12, 0, 4, 12, 4, 12, 48, 0, 0, 0, 0, SIX("dwdw") SIX("dddd")},
    {"\"3;1;2;2-\"5;1", HOUSE, 2, 2, 0, 2, 2, 0, 0, 0, 2, 5, 2, 2, "kkkk"},
    /* The extent: no blank column, no blank row of a band, and nothing of what has only grown. */
    {"@!40?", HOUSE, HOUSE_CANVAS, 0, 41, 6, 1, 1, 1, 0, 0, 0, 0, SIX("k" FORTY("k"))},
    {"_", HOUSE, HOUSE_CANVAS, 0, 1, 6, 1, 6, 1, 0, 0, 0, 0, SIX("k")},
    {"!7?", HOUSE, HOUSE_CANVAS, 0, 7, 6, 0, 0, 0, 0, 0, 0, 0, SIX("kkkkkkk")},
    {"\"1;1;4;3", HOUSE, HOUSE_CANVAS, 0, 4, 3, 0, 0, 0, 2, 1, 4, 3, "kkkk" "kkkk" "kkkk"},
    {"!3@", HOUSE, HOUSE_CANVAS, 0, 3, 6, 3, 1, 3, 0, 0, 0, 0, SIX("kkk")},
    {"C", HOUSE, HOUSE_CANVAS, 0, 1, 6, 1, 3, 1, 0, 0, 0, 0, SIX("k")},
    {"#1?@G?A??", HOUSE, HOUSE_CANVAS, 0, 7, 6, 5, 4, 3, 0, 0, 0, 0, "kdkkkkk" "kkkkdkk" "kkkkkkk" "kkdkkkk" "kkkkkkk" "kkkkkkk"},
    {"!3@-O$-", HOUSE, HOUSE_CANVAS, 0, 3, 12, 3, 11, 4, 0, 0, 0, 0, SIX("kkk") SIX("kkk")},
    /* In the background's own colour, and covered by it later. */
    {"#0!2A", HOUSE, HOUSE_CANVAS, 0, 2, 6, 2, 2, 2, 0, 0, 0, 0, SIX("kk")},
    {"#1!4B$#0!4B", HOUSE, HOUSE_CANVAS, 0, 4, 6, 4, 2, 16, 0, 0, 0, 0, SIX("kkkk")},
    /* The last sixel waits for a second call, and counts when that reads it. */
    {"!8~-!8N", {8, 12, 8, 96}, 8, 12, 0, 8, 12, 8, 10, 80, 0, 0, 0, 0, SIX("kkkkkkkk") SIX("kkkkkkkk")},
    /* The declared size: one side, a raster that is pending at the end, more drawn than was declared, a second raster
     * that keeps one side or none, and one that is refused. */
    {"\"1;1;3;2~", HOUSE, HOUSE_CANVAS, 0, 3, 6, 1, 6, 6, 2, 1, 3, 2, SIX("kkk")},
    {"\"1;1;3", HOUSE, HOUSE_CANVAS, 0, 3, 1, 0, 0, 0, 2, 1, 3, 0, "kkk"},
    {"\"1;1;;2", HOUSE, HOUSE_CANVAS, 0, 1, 2, 0, 0, 0, 2, 1, 0, 2, "kk"},
    {"~\"1;1;3;2", HOUSE, HOUSE_CANVAS, 0, 3, 6, 1, 6, 6, 2, 1, 3, 2, SIX("kkk")},
    {"\"1;1;2;2!5~", HOUSE, HOUSE_CANVAS, 0, 5, 6, 5, 6, 30, 2, 1, 2, 2, SIX("kkkkk")},
    {"\"1;1;3;4\"1;1;2", HOUSE, HOUSE_CANVAS, 0, 3, 4, 0, 0, 0, 2, 1, 2, 4, "kkk" "kkk" "kkk" "kkk"},
    {"\"1;1;3;2\"2;1", HOUSE, HOUSE_CANVAS, 0, 3, 2, 0, 0, 0, 2, 2, 3, 2, "kkk" "kkk"},
    {"\"1;1;3;2\"1;1;9;2~", {8, 768, 8, 786432}, HOUSE_CANVAS, 5, 0, 0, 0, 0, 0, 0, 0, 0, 0, ""},
};

static uint32_t colour_of(char letter) {
    switch (letter) {
    case 'd': return 0x3333cc;
    case 'r': return 0xff0000;
    case 'b': return 0x0000ff;
    case 'w': return 0xffffff;
    default: return 0;
    }
}

/* The picture on the canvas, copied without gaps, is the example's; around it nothing changed. */
static void check_pixels(const example *it, const char *name, owlgantry_canvas canvas) {
    static uint8_t out[4 * 1024];
    memset(out, 0xa5, sizeof out);
    size_t pixels = it->width * it->height;
    same(name, "the copy's answer", owlgantry_copy(canvas, it->width, it->height, out, 4 * pixels), 0);
    for (size_t at = 0; at < pixels; at++) {
        const uint8_t *pixel = out + 4 * at;
        uint32_t colour = (uint32_t)pixel[0] << 16 | (uint32_t)pixel[1] << 8 | pixel[2];
        same(name, "a pixel's colour", colour, colour_of(it->pixels[at]));
        same(name, "a pixel's alpha", pixel[3], 255);
    }
    holds(name, "the copy ends with the picture", out[4 * pixels] == 0xa5);
    holds(name, "nothing changed outside the picture", untouched_outside(canvas, it->width, it->height));
}

static void check_picture(const example *it, const char *name, owlgantry_canvas canvas, owlgantry_picture picture) {
    same(name, "width", picture.width, it->width);
    same(name, "height", picture.height, it->height);
    same(name, "right", picture.right, it->right);
    same(name, "bottom", picture.bottom, it->bottom);
    same(name, "the ratio's kind", picture.ratio_kind, it->ratio_kind);
    same(name, "the ratio", picture.ratio, it->ratio);
    same(name, "transparent", picture.transparent, 0);
    same(name, "the declared width", picture.declared_width, it->declared_width);
    same(name, "the declared height", picture.declared_height, it->declared_height);
    same(name, "held", picture.held, 0); /* every value is a percent, or a hue */
    if (it->refusal == 0) {
        check_pixels(it, name, canvas);
    }
}

static void check_all_at_once(const example *it, const char *bytes, size_t place) {
    char name[80];
    uint32_t palette[OWLGANTRY_REGISTERS];
    owlgantry_picture picture;
    owlgantry_part part;
    owlgantry_canvas canvas = fresh_canvas(it->stride, it->rows);
    snprintf(name, sizeof name, "%s, all at once", it->payload);
    owlgantry_standard_palette(palette);
    same(name, "the answer", owlgantry_read(it->limits, canvas, bytes, strlen(bytes), palette, &picture, &part),
         it->refusal);
    same(name, "the payload's place", part.place, place);
    same(name, "the payload's length", part.length, strlen(bytes) - place);
    check_picture(it, name, canvas, picture);
}

static void check_in_pieces(const example *it, kind which, const char *bytes, size_t piece) {
    char name[80];
    uint32_t palette[OWLGANTRY_REGISTERS];
    owlgantry_session session;
    owlgantry_picture picture;
    owlgantry_canvas canvas = fresh_canvas(it->stride, it->rows);
    snprintf(name, sizeof name, "%s, %s in pieces of %zu", it->payload, which == DCS ? "DCS" : "payload", piece);
    owlgantry_standard_palette(palette);
    same(name, "the opening's answer", open_session(which, &session, it->limits, canvas, palette), 0);
    progress fed =
        feed_in_pieces(which, &session, canvas, bytes, strlen(bytes), piece, owlgantry_least_allowance(it->limits));
    same(name, "the last feed's answer", fed.refusal, it->refusal);
    if (it->refusal == 0) {
        same(name, "consumed", fed.consumed, strlen(bytes));
        same(name, "ink", fed.ink, it->ink);
        same(name, "how it ended", fed.last.how, which == DCS ? OWLGANTRY_DCS_COMPLETE : OWLGANTRY_PAYLOAD_ALL_READ);
    }
    uint64_t finish = finish_session(which, &session, canvas, palette, &picture);
    same(name, "the finish's answer", finish, it->refusal == 0 ? OWLGANTRY_DONE : OWLGANTRY_FAILED);
    check_picture(it, name, canvas, picture);
}

static void test_example(const example *it) {
    static const size_t pieces[] = {0, 1, 2, 7};
    char sequence[80];
    snprintf(sequence, sizeof sequence, "\033Pq%s\033\\", it->payload);
    check_all_at_once(it, it->payload, 0);
    check_all_at_once(it, sequence, 3);
    for (size_t at = 0; at < sizeof pieces / sizeof *pieces; at++) {
        check_in_pieces(it, PAYLOAD, it->payload, pieces[at]);
        check_in_pieces(it, DCS, sequence, pieces[at]);
    }
}

/* W 8, allowance 48: 6 consumed with ink 48, then 1 with ink 48. */
static void test_stop(void) {
    const char *name = "a stop for ink";
    uint32_t palette[OWLGANTRY_REGISTERS];
    owlgantry_session session;
    owlgantry_fed fed;
    owlgantry_canvas canvas = fresh_canvas(1024, 768);
    owlgantry_standard_palette(palette);
    same(name, "the opening",
         open_session(PAYLOAD, &session, owlgantry_limits_of(8, 768, 1024, 786432), canvas, palette), 0);
    same(name, "allowance 47", owlgantry_payload_feed(&session, canvas, "!8~$!8~", 7, 47, &fed), OWLGANTRY_ALLOWANCE);
    same(name, "the first call", owlgantry_payload_feed(&session, canvas, "!8~$!8~", 7, 48, &fed), 0);
    same(name, "how", fed.how, OWLGANTRY_PAYLOAD_STOPPED);
    same(name, "consumed", fed.consumed, 6);
    same(name, "ink", fed.ink, 48);
    same(name, "the second call", owlgantry_payload_feed(&session, canvas, "~", 1, 48, &fed), 0);
    same(name, "how", fed.how, OWLGANTRY_PAYLOAD_ALL_READ);
    same(name, "consumed", fed.consumed, 1);
    same(name, "ink", fed.ink, 48);
}

/* What a stop leaves unread is not painted: two finishes of one session, before and after its waiting sixel is read. */
static void test_stopped_extent(void) {
    const char *name = "the extent at a stop";
    uint32_t palette[OWLGANTRY_REGISTERS];
    owlgantry_session session, stopped;
    owlgantry_fed fed;
    owlgantry_picture picture;
    owlgantry_canvas canvas = fresh_canvas(8, 12);
    owlgantry_standard_palette(palette);
    same(name, "the opening", open_session(PAYLOAD, &session, owlgantry_limits_of(8, 12, 8, 96), canvas, palette), 0);
    same(name, "the first call", owlgantry_payload_feed(&session, canvas, "!7~-!8N", 7, 48, &fed), 0);
    same(name, "how", fed.how, OWLGANTRY_PAYLOAD_STOPPED);
    same(name, "consumed", fed.consumed, 6);
    stopped = session;
    same(name, "a finish", owlgantry_payload_finish(&stopped, canvas, palette, &picture), 0);
    same(name, "right", picture.right, 7);
    same(name, "bottom", picture.bottom, 6);
    same(name, "the second call", owlgantry_payload_feed(&session, canvas, "N", 1, 48, &fed), 0);
    same(name, "the other finish", owlgantry_payload_finish(&session, canvas, palette, &picture), 0);
    same(name, "right", picture.right, 8);
    same(name, "bottom", picture.bottom, 10);
}

/* Every end of a DCS sequence, and that it is repeated. */
static void test_ends(void) {
    static const struct {
        const char *bytes;
        uint64_t how, consumed, byte;
    } ends[] = {
        {"\033Pq~\033\\x", OWLGANTRY_DCS_COMPLETE, 6, 0},       {"\x90q~\x9cx", OWLGANTRY_DCS_COMPLETE, 4, 0},
        {"\x90q~\x18x", OWLGANTRY_DCS_CANCELLED, 4, 0x18},      {"\x90q~\x1ax", OWLGANTRY_DCS_CANCELLED, 4, 0x1a},
        {"\x90q~\033[x", OWLGANTRY_DCS_INTERRUPTED, 4, 0x1b},   {"\x90q~\x85x", OWLGANTRY_DCS_INTERRUPTED, 3, 0x85},
    };
    uint32_t palette[OWLGANTRY_REGISTERS];
    owlgantry_session session;
    owlgantry_fed fed;
    owlgantry_picture picture;
    owlgantry_standard_palette(palette);
    for (size_t at = 0; at < sizeof ends / sizeof *ends; at++) {
        owlgantry_canvas canvas = fresh_canvas(8, 6);
        const char *name = ends[at].bytes;
        same(name, "the opening", owlgantry_dcs_open(&session, owlgantry_house_limits(), canvas, palette), 0);
        holds(name, "nothing is written before `q`", untouched_outside(canvas, 0, 0));
        for (int turn = 0; turn < 2; turn++) {
            same(name, "the feed", owlgantry_dcs_feed(&session, canvas, name, strlen(name), 6144, &fed), 0);
            same(name, "how", fed.how, ends[at].how);
            same(name, "the byte", fed.byte, ends[at].byte);
            same(name, "consumed", fed.consumed, turn == 0 ? ends[at].consumed : 0);
            same(name, "ink", fed.ink, turn == 0 ? 6 : 0);
        }
        same(name, "the finish", owlgantry_dcs_finish(&session, canvas, palette, &picture), 0);
        same(name, "width", picture.width, 1);
        same(name, "right", picture.right, 1); /* what comes after the end paints nothing */
    }
}

/* P1 and P2 of a payload session, no bytes at all, and an end that stays unread. */
static void test_parameters(void) {
    uint32_t palette[OWLGANTRY_REGISTERS];
    owlgantry_session session;
    owlgantry_fed fed;
    owlgantry_picture picture;
    owlgantry_canvas canvas = fresh_canvas(8, 6);
    owlgantry_standard_palette(palette);
    same("P1 2, P2 1", "the opening", owlgantry_payload_open(&session, owlgantry_house_limits(), canvas, 2, 1, palette),
         0);
    holds("P1 2, P2 1", "pixel (0, 0) is clear", memcmp(canvas.bytes, "\0\0\0\0", 4) == 0);
    holds("P1 2, P2 1", "no other is written", untouched_outside(canvas, 1, 1));
    same("P1 2, P2 1", "no bytes", owlgantry_payload_feed(&session, canvas, NULL, 0, 6144, &fed), 0);
    same("P1 2, P2 1", "the feed", owlgantry_payload_feed(&session, canvas, "?\033\\", 3, 6144, &fed), 0);
    same("P1 2, P2 1", "how", fed.how, OWLGANTRY_PAYLOAD_ENDED);
    same("P1 2, P2 1", "consumed", fed.consumed, 1);
    same("P1 2, P2 1", "the byte", fed.byte, 0x1b);
    same("P1 2, P2 1", "the finish", owlgantry_payload_finish(&session, canvas, palette, &picture), 0);
    same("P1 2, P2 1", "the ratio's kind", picture.ratio_kind, OWLGANTRY_RATIO_P1);
    same("P1 2, P2 1", "the ratio", picture.ratio, 2);
    same("P1 2, P2 1", "transparent", picture.transparent, 1);
    same("P1 2, P2 1", "right and bottom", picture.right | picture.bottom, 0);
    holds("P1 2, P2 1", "a blank sixel is clear", memcmp(canvas.bytes + 32, "\0\0\0\0", 4) == 0);
}

void test_examples(void) {
    for (size_t at = 0; at < sizeof examples / sizeof *examples; at++) {
        test_example(&examples[at]);
    }
    test_stop();
    test_stopped_extent();
    test_ends();
    test_parameters();
}
