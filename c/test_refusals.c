/* Every refusal that a session can give, and what is left afterwards. */
#include "check.h"

#include <string.h>

/* Small limits, so that one stream can pass any of them, and a canvas that has room for 6 of the 8 columns. */
static owlgantry_limits small(void) { return owlgantry_limits_of(8, 12, 8, 48); }

typedef struct {
    kind which;
    const char *bytes;
    uint64_t feed, finish;
} refused;

static const refused refusals[] = {
    {DCS, "x", 1, 9},
    {DCS, "\033X", 1, 9},
    {DCS, "\033\033P", 1, 9},
    {DCS, "\033P\x18", 2, 9},
    {DCS, "\033P1\x1a", 2, 9},
    {DCS, "\x90\033\\", 2, 9},
    {DCS, "\x90;\x9c", 2, 9},
    {DCS, "\x90 q", 3, 9},
    {DCS, "\x90" "1p", 3, 9},
    {DCS, "\x90q~!9~", 4, 9},
    {DCS, "\x90q~!9\x9c", 4, 9},
    {DCS, "\x90q--~", 5, 9},
    {DCS, "\x90q\"1;1;5;10@", 6, 9},
    {DCS, "\x90q!7~", 7, 9},
    {DCS, "", 0, 8},
    {DCS, "\033", 0, 8},
    {DCS, "\x90" "1", 0, 8},
    {DCS, "\x90q~", 0, 8},
    {DCS, "\x90q~!9", 0, 8},
    {DCS, "\x90q~\033", 0, 8},
    {PAYLOAD, "~!9~", 4, 9},
    {PAYLOAD, "!8~!2~", 7, 9},
    {PAYLOAD, "!6~!3~", 5, 9},
    {PAYLOAD, "\"1;1;9;1~", 5, 9},
    {PAYLOAD, "\"1;1;1;13~", 5, 9},
    {PAYLOAD, "!5~-~", 6, 9},
    {PAYLOAD, "\"1;1;7;6~", 7, 9},
    {PAYLOAD, "~!9", 0, 4},
    {PAYLOAD, "~\"1;1;9", 0, 5},
    {PAYLOAD, "~\"1;1;5;10", 0, 6},
    {PAYLOAD, "~\"1;1;7", 0, 7},
};

/* A refused call reports zeros, and the palette is the owner's, whatever the stream defined before. */
static void check_refused(const refused *it) {
    uint32_t palette[OWLGANTRY_REGISTERS], owner[OWLGANTRY_REGISTERS];
    owlgantry_session session;
    owlgantry_picture picture, none;
    owlgantry_canvas canvas = fresh_canvas(6, 13);
    memset(&none, 0, sizeof none);
    owlgantry_standard_palette(palette);
    owlgantry_standard_palette(owner);
    same(it->bytes, "the opening", open_session(it->which, &session, small(), canvas, palette), 0);
    if (it->which == PAYLOAD) {
        progress defined = feed_in_pieces(PAYLOAD, &session, canvas, "#1;2;100;0;0", 12, 0, 48);
        same(it->bytes, "the colour's feed", defined.refusal, 0);
    }
    progress fed = feed_in_pieces(it->which, &session, canvas, it->bytes, strlen(it->bytes), 0, 48);
    same(it->bytes, "the feed", fed.refusal, it->feed);
    if (it->feed != 0) {
        same(it->bytes, "the report of a refused feed", fed.last.how + fed.last.consumed + fed.last.ink + fed.last.byte, 0);
        fed = feed_in_pieces(it->which, &session, canvas, "~", 1, 0, 48);
        same(it->bytes, "a feed after the refusal", fed.refusal, OWLGANTRY_FAILED);
    }
    same(it->bytes, "the finish", finish_session(it->which, &session, canvas, palette, &picture), it->finish);
    holds(it->bytes, "the report of a refused finish is zeros", memcmp(&picture, &none, sizeof none) == 0);
    holds(it->bytes, "the palette is the owner's", memcmp(palette, owner, sizeof owner) == 0);
    same(it->bytes, "a second finish", finish_session(it->which, &session, canvas, palette, &picture),
         OWLGANTRY_FAILED);
}

/* The canvas at a refusal holds what came before the refused byte or command. */
static void check_canvas_before(void) {
    const char *name = "the canvas at a refusal";
    uint32_t palette[OWLGANTRY_REGISTERS];
    owlgantry_session session;
    owlgantry_fed fed;
    owlgantry_canvas canvas = fresh_canvas(6, 13);
    owlgantry_standard_palette(palette);
    same(name, "the opening", open_session(PAYLOAD, &session, small(), canvas, palette), 0);
    same(name, "the feed", owlgantry_payload_feed(&session, canvas, "#1!2~!9~", 8, 48, &fed), OWLGANTRY_REPEAT);
    holds(name, "two columns were painted", memcmp(canvas.bytes, "\x33\x33\xcc\xff\x33\x33\xcc\xff", 8) == 0);
    holds(name, "nothing else was", untouched_outside(canvas, 2, 6));
}

/* 9, 12 and 13 leave session and canvas as they were. */
static void check_kept(kind which) {
    const char *name = which == DCS ? "a DCS session kept" : "a payload session kept";
    uint32_t palette[OWLGANTRY_REGISTERS];
    owlgantry_session session, kept;
    owlgantry_fed fed;
    owlgantry_picture picture;
    owlgantry_canvas canvas = fresh_canvas(8, 12), shorter = canvas, longer = canvas;
    static uint8_t shown[4 * 8 * 12];
    shorter.length -= 1;
    longer.bytes -= 4;
    longer.length += 4;
    owlgantry_standard_palette(palette);
    same(name, "the opening", open_session(which, &session, small(), canvas, palette), 0);
    same(name, "a first feed", feed_session(which, &session, canvas, "\x90q#1~!3", which == DCS ? 7 : 0, 48, &fed), 0);
    kept = session;
    memcpy(shown, canvas.bytes, sizeof shown);
    same(name, "a shorter canvas", feed_session(which, &session, shorter, "~", 1, 48, &fed), OWLGANTRY_CANVAS);
    same(name, "a longer canvas", feed_session(which, &session, longer, "~", 1, 48, &fed), OWLGANTRY_CANVAS);
    same(name, "no canvas", feed_session(which, &session, owlgantry_canvas_of(NULL, 0, 8), "~", 1, 48, &fed),
         OWLGANTRY_CANVAS);
    same(name, "a small allowance", feed_session(which, &session, canvas, "~", 1, 47, &fed), OWLGANTRY_ALLOWANCE);
    same(name, "no allowance", feed_session(which, &session, canvas, NULL, 0, 0, &fed), OWLGANTRY_ALLOWANCE);
    holds(name, "the session is as it was", memcmp(&session, &kept, sizeof kept) == 0);
    holds(name, "the canvas is as it was", memcmp(shown, canvas.bytes, sizeof shown) == 0);
    same(name, "a finish on a shorter canvas", finish_session(which, &session, shorter, palette, &picture),
         OWLGANTRY_CANVAS);
    memset(&session, 0, sizeof session);
    same(name, "zeros fed", feed_session(which, &session, canvas, "~", 1, 48, &fed), OWLGANTRY_FAILED);
    same(name, "zeros finished", finish_session(which, &session, canvas, palette, &picture), OWLGANTRY_FAILED);
    holds(name, "the canvas is as it was", memcmp(shown, canvas.bytes, sizeof shown) == 0);
}

/* A success, and what it does to the palette; an abort is a session dropped. */
static void check_committed(kind which) {
    const char *name = "the palette";
    const char *bytes = which == DCS ? "\x90q#1;2;100;0;0~\x9c" : "#1;2;100;0;0~";
    uint32_t palette[OWLGANTRY_REGISTERS], owner[OWLGANTRY_REGISTERS];
    owlgantry_session session;
    owlgantry_picture picture;
    owlgantry_canvas canvas = fresh_canvas(8, 12);
    owlgantry_standard_palette(palette);
    owlgantry_standard_palette(owner);
    same(name, "register 1", owner[1], 0x3333cc);
    same(name, "register 255", owner[255], 0xffffff);
    same(name, "the opening", open_session(which, &session, small(), canvas, palette), 0);
    progress fed = feed_in_pieces(which, &session, canvas, bytes, strlen(bytes), 0, 48);
    same(name, "the feed", fed.refusal, 0);
    holds(name, "is the owner's before the finish", memcmp(palette, owner, sizeof owner) == 0);
    same(name, "the finish", finish_session(which, &session, canvas, palette, &picture), 0);
    owner[1] = 0xff0000 + OWLGANTRY_MARK;
    holds(name, "is the session's after the finish", memcmp(palette, owner, sizeof owner) == 0);
    for (size_t at = 0; at < OWLGANTRY_SESSION_NUMBERS; at++) {
        same(name, "a number of a finished session", session.numbers[at], 0);
    }
    same(name, "a finished session", finish_session(which, &session, canvas, palette, &picture), OWLGANTRY_FAILED);
}

void test_refusals(void) {
    for (size_t at = 0; at < sizeof refusals / sizeof *refusals; at++) {
        check_refused(&refusals[at]);
    }
    check_canvas_before();
    check_kept(PAYLOAD);
    check_kept(DCS);
    check_committed(PAYLOAD);
    check_committed(DCS);
}
