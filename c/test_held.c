/* Held values (docs/RULES.md, 9.10): how many definitions of a picture had a value outside 0 to 100. */
#include "check.h"

#include <stdio.h>
#include <string.h>

/* A payload, and how many of its definitions were held. */
typedef struct {
    const char *payload;
    uint64_t held;
} holding;

static const holding payloads[] = {
    {"", 0},
    {"~", 0},
    /* 0 and 100 are within. */
    {"#1;2;0;0;0~", 0},
    {"#1;2;;;~", 0},
    {"#1;2;100;100;100~", 0},
    {"#1;2;000100;0;0~", 0},
    {"#1;1;0;0;0~", 0},
    {"#1;1;0;100;100~", 0},
    /* Red, green or blue. */
    {"#1;2;101;0;0~", 1},
    {"#1;2;0;101;0~", 1},
    {"#1;2;0;0;101~", 1},
    {"#1;2;100;100;101~", 1},
    {"#1;2;255;255;255~", 1},
    {"#1;2;2147483647;0;0~", 1},
    {"#1;2;0;0;99999999999999999999~", 1},
    {"#1;2;10\n1;0;0~", 1}, /* a skipped byte inside the number */
    /* Lightness or saturation, also of a grey, and never the hue. */
    {"#1;1;361;50;50~", 0},
    {"#1;1;2147483648;50;50~", 0},
    {"#1;1;0;101;50~", 1},
    {"#1;1;0;101;0~", 1},
    {"#1;1;0;50;101~", 1},
    {"#1;1;361;101;50~", 1},
    /* A definition counts once, however many of its values are held. */
    {"#1;2;101;101;0~", 1},
    {"#1;2;101;101;101~", 1},
    {"#1;1;101;101;101~", 1},
    /* The same register counts again. Above 255 it is 255. */
    {"#1;2;101;0;0#1;2;101;0;0~", 2},
    {"#1;2;101;0;0#1;2;100;0;0#1;1;0;101;0~", 2},
    {"#1;2;101;0;0#1~$#1~", 1},
    {"#;2;0;0;200#255;2;0;0;200#256;2;0;0;200~", 3},
    {"#300;1;0;0;255~#0;2;255;0;0-~#7;1;9;9;9", 2},
    /* No definition: fewer than five values, another space, another command. */
    {"#101~", 0},
    {"#101;2~", 0},
    {"#1;2;101~", 0},
    {"#1;2;101;101~", 0},
    {"#1;1;101;101~", 0},
    {"#1;0;101;101;101~", 0},
    {"#1;3;101;101;101~", 0},
    {"#1;;101;101;101~", 0},
    {"#1;2147483647;101;101;101~", 0},
    {"\"1;2;8;8;101~", 0},
    /* A `;` at the end adds a 0; what comes after five values is dropped. */
    {"#1;2;101;0;~", 1},
    {"#1;2;0;0;0;101~", 0},
    {"#1;2;1;2;3;101;101;101~", 0},
    {"#1;2;1;2;101;3;4~", 1},
    {"#1;1;1;101;2;;~", 1},
    /* Pending at the finish. */
    {"#1;2;101;0;0", 1},
    {"~#1;1;0;50;101", 1},
    {"~#1;1;0;50;100", 0},
    {"~#1;2;101;0", 0},
    {"~#1;2;101;0;", 1},
    {"#1;2;101;0;0~#2;2;0;0;101", 2},
    /* Before a sixel that waits for ink, and between other commands. */
    {"!8~$!8#1;2;101;0;0~", 1},
    {"!3#1;2;101;0;0~\"1;1;4;4#2;2;0;0;255-!2#1@$~", 2},
};

static owlgantry_limits small(void) { return owlgantry_limits_of(8, 12, 8, 96); }

static void check_at_once(const holding *it, const char *bytes) {
    char name[120];
    uint32_t palette[OWLGANTRY_REGISTERS];
    owlgantry_picture picture;
    owlgantry_part part;
    snprintf(name, sizeof name, "held of %s, all at once", it->payload);
    owlgantry_standard_palette(palette);
    same(name, "the answer",
         owlgantry_read(small(), fresh_canvas(8, 12), bytes, strlen(bytes), palette, &picture, &part), 0);
    same(name, "held", picture.held, it->held);
    same(name, "the payload's end", part.place + part.length, strlen(bytes));
}

static void check_session(const holding *it, kind which, const char *bytes, size_t piece) {
    char name[120];
    uint32_t palette[OWLGANTRY_REGISTERS];
    owlgantry_session session;
    owlgantry_picture picture;
    owlgantry_canvas canvas = fresh_canvas(8, 12);
    snprintf(name, sizeof name, "held of %s, %s in pieces of %zu", it->payload, which == DCS ? "DCS" : "payload", piece);
    owlgantry_standard_palette(palette);
    same(name, "the opening", open_session(which, &session, small(), canvas, palette), 0);
    same(name, "the feeds", feed_in_pieces(which, &session, canvas, bytes, strlen(bytes), piece, 48).refusal, 0);
    same(name, "the finish", finish_session(which, &session, canvas, palette, &picture), 0);
    same(name, "held", picture.held, it->held);
}

/* Two pieces, the first of them so long. */
static void check_cut(const holding *it, kind which, const char *bytes, size_t cut) {
    char name[120];
    uint32_t palette[OWLGANTRY_REGISTERS];
    owlgantry_session session;
    owlgantry_picture picture;
    owlgantry_canvas canvas = fresh_canvas(8, 12);
    snprintf(name, sizeof name, "held of %s, %s cut at %zu", it->payload, which == DCS ? "DCS" : "payload", cut);
    owlgantry_standard_palette(palette);
    same(name, "the opening", open_session(which, &session, small(), canvas, palette), 0);
    same(name, "the first piece", feed_in_pieces(which, &session, canvas, bytes, cut, 0, SIZE_MAX).refusal, 0);
    same(name, "the second piece",
         feed_in_pieces(which, &session, canvas, bytes + cut, strlen(bytes) - cut, 0, SIZE_MAX).refusal, 0);
    same(name, "the finish", finish_session(which, &session, canvas, palette, &picture), 0);
    same(name, "held", picture.held, it->held);
}

/* Every way to read, every place to cut, and every end of a sequence, after which nothing counts. */
static void check_holding(const holding *it) {
    static const char *const ends[] = {"\033\\#1;2;101;0;0", "\x9c#1;2;101;0;0", "\x18#1;2;101;0;0",
                                       "\x1a#1;2;101;0;0",   "\033#1;2;101;0;0", "\x84#1;2;101;0;0"};
    char sequence[120];
    check_at_once(it, it->payload);
    for (size_t piece = 0; piece < 4; piece++) {
        check_session(it, PAYLOAD, it->payload, piece);
    }
    for (size_t cut = 0; cut <= strlen(it->payload); cut++) {
        check_cut(it, PAYLOAD, it->payload, cut);
    }
    snprintf(sequence, sizeof sequence, "%s\x9c#1;2;101;0;0", it->payload);
    check_session(it, PAYLOAD, sequence, 0);
    for (size_t at = 0; at < sizeof ends / sizeof *ends; at++) {
        snprintf(sequence, sizeof sequence, "\033Pq%s%s", it->payload, ends[at]);
        check_at_once(it, sequence);
        for (size_t piece = 0; piece < 4; piece++) {
            check_session(it, DCS, sequence, piece);
        }
    }
    snprintf(sequence, sizeof sequence, "\x90" "101;1;101q%s\033\\", it->payload);
    for (size_t cut = 0; cut <= strlen(sequence); cut++) {
        check_cut(it, DCS, sequence, cut);
    }
}

/* What is refused, by the feed or by the finish, reports zeros, whatever was held before. */
static void check_refused(kind which, const char *bytes, uint64_t feed, uint64_t finish) {
    uint32_t palette[OWLGANTRY_REGISTERS];
    owlgantry_session session;
    owlgantry_picture picture, none;
    owlgantry_part part;
    owlgantry_canvas canvas = fresh_canvas(8, 12);
    memset(&none, 0, sizeof none);
    owlgantry_standard_palette(palette);
    for (size_t piece = 0; piece < 2; piece++) {
        same(bytes, "the opening", open_session(which, &session, small(), canvas, palette), 0);
        same(bytes, "the feed", feed_in_pieces(which, &session, canvas, bytes, strlen(bytes), piece, 48).refusal, feed);
        memset(&picture, 0xa5, sizeof picture);
        same(bytes, "the finish", finish_session(which, &session, canvas, palette, &picture), finish);
        same(bytes, "held", picture.held, 0);
        holds(bytes, "the report is zeros", memcmp(&picture, &none, sizeof none) == 0);
    }
    if (finish != OWLGANTRY_UNFINISHED) {
        memset(&picture, 0xa5, sizeof picture);
        same(bytes, "all at once", owlgantry_read(small(), canvas, bytes, strlen(bytes), palette, &picture, &part),
             feed == 0 ? finish : feed);
        same(bytes, "held, all at once", picture.held, 0);
        holds(bytes, "the report is zeros, all at once", memcmp(&picture, &none, sizeof none) == 0);
    }
}

static void check_refusals(void) {
    check_refused(PAYLOAD, "#1;2;101;0;0~!9~", OWLGANTRY_REPEAT, OWLGANTRY_FAILED);
    check_refused(PAYLOAD, "#1;2;101;0;0!8~~", OWLGANTRY_SIZE, OWLGANTRY_FAILED);
    check_refused(PAYLOAD, "#1;2;101;0;0~!9", OWLGANTRY_DONE, OWLGANTRY_REPEAT);
    check_refused(PAYLOAD, "#1;2;101;0;0~\"1;1;9", OWLGANTRY_DONE, OWLGANTRY_SIZE);
    check_refused(DCS, "\x90q#1;2;101;0;0~--~\x9c", OWLGANTRY_SIZE, OWLGANTRY_FAILED);
    check_refused(DCS, "\x90q#1;2;101;0;0~!9\x9c", OWLGANTRY_REPEAT, OWLGANTRY_FAILED);
    check_refused(DCS, "\x90q#1;2;101;0;0~", OWLGANTRY_DONE, OWLGANTRY_UNFINISHED);
    check_refused(DCS, "\x90#1;2;101;0;0~", OWLGANTRY_HEADER_BYTE, OWLGANTRY_FAILED);
}

/* A finish on a shorter canvas is 12 and reports zeros, as the others do. */
static void check_shorter(void) {
    const char *name = "held on a shorter canvas";
    uint32_t palette[OWLGANTRY_REGISTERS];
    owlgantry_session session;
    owlgantry_fed fed;
    owlgantry_picture picture;
    owlgantry_canvas canvas = fresh_canvas(8, 12), shorter = canvas;
    shorter.length -= 1;
    owlgantry_standard_palette(palette);
    same(name, "the opening", open_session(PAYLOAD, &session, small(), canvas, palette), 0);
    same(name, "the feed", owlgantry_payload_feed(&session, canvas, "#1;2;101;0;0~", 13, 48, &fed), 0);
    same(name, "the finish", owlgantry_payload_finish(&session, shorter, palette, &picture), OWLGANTRY_CANVAS);
    same(name, "held", picture.held, 0);
}

/* Two finishes of one session: a pending definition counts as it stands, and once more digits have come, as those say. At a
 * stop for ink the command before the sixel that waits is carried out. */
static void check_pending(void) {
    static const struct {
        const char *first, *second;
        uint64_t before, after;
    } cases[] = {
        {"#1;2;0;0;10", "1~", 0, 1},
        {"#1;2;0;0;101", "~", 1, 1},
        {"#1;2;101;0", ";0~", 0, 1},
        {"#1;2;101;0;0", ";7;8~", 1, 1},
        {"#1;1;0;101;0", "#1~", 1, 1},
        {"~#1;2;101;0;0", "#1;2;0;0;101", 1, 2},
        {"!8~$!8#1;2;0;0;101~", "~", 1, 1},
        {"!8~$!8~#1;2;0;0;101", "~#1;2;0;0;101", 0, 1},
    };
    for (size_t at = 0; at < sizeof cases / sizeof *cases; at++) {
        const char *name = cases[at].first;
        uint32_t palette[OWLGANTRY_REGISTERS];
        owlgantry_session session, earlier;
        owlgantry_fed fed;
        owlgantry_picture picture;
        owlgantry_canvas canvas = fresh_canvas(8, 12);
        owlgantry_standard_palette(palette);
        same(name, "the opening", open_session(PAYLOAD, &session, small(), canvas, palette), 0);
        same(name, "the first call", owlgantry_payload_feed(&session, canvas, name, strlen(name), 48, &fed), 0);
        earlier = session;
        same(name, "a finish", owlgantry_payload_finish(&earlier, canvas, palette, &picture), 0);
        same(name, "held", picture.held, cases[at].before);
        same(name, "the second call",
             owlgantry_payload_feed(&session, canvas, cases[at].second, strlen(cases[at].second), 48, &fed), 0);
        same(name, "the other finish", owlgantry_payload_finish(&session, canvas, palette, &picture), 0);
        same(name, "held", picture.held, cases[at].after);
    }
}

/* Each picture counts its own, and what was held before has no part in it. */
static void check_pictures(void) {
    static const holding pictures[] = {
        {"#1;2;255;0;0#2;2;0;0;255~", 2}, {"#1~#2~", 0}, {"#1;2;100;0;0~", 0}, {"#1;1;0;0;200~", 1}, {"", 0},
    };
    uint32_t palette[OWLGANTRY_REGISTERS];
    owlgantry_picture picture;
    owlgantry_part part;
    owlgantry_standard_palette(palette);
    for (size_t at = 0; at < sizeof pictures / sizeof *pictures; at++) {
        const char *bytes = pictures[at].payload;
        same(bytes, "reading",
             owlgantry_read(small(), fresh_canvas(8, 12), bytes, strlen(bytes), palette, &picture, &part), 0);
        same(bytes, "held", picture.held, pictures[at].held);
    }
}

/* A held value is 100: the registers are the same as by that. */
static void check_colours(void) {
    const char *held = "#1;2;101;255;0#2;1;120;50;101#3;1;0;101;0", *within = "#1;2;100;100;0#2;1;120;50;100#3;1;0;100;0";
    uint32_t palette[OWLGANTRY_REGISTERS], other[OWLGANTRY_REGISTERS];
    owlgantry_picture picture;
    owlgantry_part part;
    owlgantry_standard_palette(palette);
    owlgantry_standard_palette(other);
    same(held, "reading", owlgantry_read(small(), fresh_canvas(8, 12), held, strlen(held), palette, &picture, &part), 0);
    same(held, "held", picture.held, 3);
    same(held, "defined", picture.defined, 3);
    same(within, "reading",
         owlgantry_read(small(), fresh_canvas(8, 12), within, strlen(within), other, &picture, &part), 0);
    same(within, "held", picture.held, 0);
    same(within, "defined", picture.defined, 3);
    holds(held, "the same registers", memcmp(palette, other, sizeof other) == 0);
}

/* Many definitions: 1,000 of them in one payload, two out of three held. */
static void check_many(void) {
    static char bytes[1000 * 12 + 1];
    const char *name = "many definitions";
    size_t length = 0;
    holding many = {"many definitions", 0};
    for (int at = 0; at < 1000; at++) {
        length += (size_t)sprintf(bytes + length, "#%d;2;0;0;%d", at % 5, 100 + at % 3);
        many.held += at % 3 != 0;
    }
    same(name, "two out of three", many.held, 666);
    check_at_once(&many, bytes);
    for (size_t piece = 0; piece < 4; piece++) {
        check_session(&many, PAYLOAD, bytes, piece);
    }
}

/* The raw functions' reports, at the end of their memory: 13 numbers of a reading, 11 of a finish. */
static void check_reports(void) {
    static const uint64_t wanted[13] = {1, 6, 1, 6, 1, 101, 1, 2, 0, 0, 3, 7, 38};
    const char *name = "reports", *bytes = "\x90" "101;1q#1;2;101;0;0#2;1;0;0;101#1;2;0;0;300~\x9c";
    uint64_t *report = lend(8 * 13), *finish = lend(8 * 11), fed[4];
    uint32_t palette[OWLGANTRY_REGISTERS];
    owlgantry_session session;
    owlgantry_canvas canvas = fresh_canvas(8, 12);
    const uint8_t *given = (const uint8_t *)bytes;
    size_t count = strlen(bytes);
    owlgantry_standard_palette(palette);
    same(name, "reading",
         owlgantry_raw_read(8, 12, 8, 96, 8, canvas.bytes, canvas.length, given, count, palette, report), 0);
    same(name, "the opening",
         owlgantry_raw_dcs_open(8, 12, 8, 96, 8, canvas.length, palette, session.numbers, session.registers), 0);
    same(name, "the feed",
         owlgantry_raw_dcs_feed(session.numbers, session.registers, canvas.bytes, canvas.length, given, count, 48, fed), 0);
    same(name, "the finish",
         owlgantry_raw_dcs_finish(session.numbers, session.registers, canvas.bytes, canvas.length, palette, finish), 0);
    for (size_t at = 0; at < 13; at++) {
        same(name, "a number of a reading", report[at], wanted[at]);
        if (at < 11) {
            same(name, "a number of a finish", finish[at], wanted[at]);
        }
    }
}

void test_held(void) {
    for (size_t at = 0; at < sizeof payloads / sizeof *payloads; at++) {
        check_holding(&payloads[at]);
    }
    check_refusals();
    check_shorter();
    check_pending();
    check_pictures();
    check_colours();
    check_many();
    check_reports();
}
