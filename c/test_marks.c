/* Marks: which registers a picture defines, how many, and what becomes of the numbers of its owner's palette. */
#include "check.h"

#include <stdio.h>
#include <string.h>

#define NONE (-1)

/* A payload, and the registers that it defines, up to NONE. */
typedef struct {
    const char *payload;
    int defined[4];
} defining;

static const defining payloads[] = {
    {"", {NONE}},
    {"#1~", {NONE}},
    {"#1;2;100;0~", {NONE}},
    {"#1;2;100;0;~", {1, NONE}},
    {"#1;2;100;0;0~", {1, NONE}},
    {"#1;2;100;0;0;7;8~", {1, NONE}},
    {"#1;3;100;0;0~", {NONE}},
    {"#1;;100;0;0~", {NONE}},
    {"#1;1;120;50;100~", {1, NONE}},
    {"#255;2;1;2;3~", {255, NONE}},
    {"#256;2;1;2;3#300;1;4;5;6~", {255, NONE}},
    {"#;2;1;2;3~", {0, NONE}},
    {"#0;2;1;2;3#255;2;1;2;3#1;2;1;2;3", {0, 1, 255, NONE}},
    {"#7;2;1;2;3#7;1;4;5;6~#7;2;1;2;3-~", {7, NONE}},
    {"#1;2;20;20;80~", {1, NONE}}, /* as it was already */
    {"#9;2;1;2;3~", {9, NONE}},    /* marked already */
    {"~#1;2;100;0;0", {1, NONE}},  /* pending at the finish */
    {"!8~$!8#1;2;100;0;0~", {1, NONE}},
};

static int defines(const defining *it, size_t at) {
    for (const int *place = it->defined; *place != NONE; place++) {
        if ((size_t)*place == at) {
            return 1;
        }
    }
    return 0;
}

static uint64_t how_many(const defining *it) {
    uint64_t count = 0;
    while (it->defined[count] != NONE) {
        count++;
    }
    return count;
}

/* The standard palette, of which register 9 is marked; each number has noise above its mark. */
static void noisy_palette(uint32_t out[OWLGANTRY_REGISTERS]) {
    owlgantry_standard_palette(out);
    out[9] += OWLGANTRY_MARK;
    for (uint32_t at = 0; at < OWLGANTRY_REGISTERS; at++) {
        out[at] += (at * 37 + 1) % 128 * 2 * OWLGANTRY_MARK;
    }
}

static void check_marks(const defining *it, const char *name, const uint32_t palette[OWLGANTRY_REGISTERS],
                        owlgantry_picture picture) {
    uint32_t owner[OWLGANTRY_REGISTERS];
    noisy_palette(owner);
    same(name, "defined", picture.defined, how_many(it));
    for (size_t at = 0; at < OWLGANTRY_REGISTERS; at++) {
        int was = at == 9, is = defines(it, at);
        same(name, "a mark", (uint64_t)owlgantry_is_marked(palette, at), was || is);
        holds(name, "a number is a colour and a mark", palette[at] < 2 * OWLGANTRY_MARK);
        if (!is) {
            same(name, "a register that was not defined", palette[at], owner[at] % (2 * OWLGANTRY_MARK));
        }
    }
}

static void check_at_once(const defining *it, const char *bytes) {
    char name[80];
    uint32_t palette[OWLGANTRY_REGISTERS];
    owlgantry_picture picture;
    owlgantry_part part;
    snprintf(name, sizeof name, "marks of %s, all at once", it->payload);
    noisy_palette(palette);
    same(name, "the answer",
         owlgantry_read(owlgantry_limits_of(8, 12, 8, 96), fresh_canvas(8, 12), bytes, strlen(bytes), palette, &picture,
                        &part),
         0);
    same(name, "the payload's end", part.place + part.length, strlen(bytes));
    check_marks(it, name, palette, picture);
}

static void check_session(const defining *it, kind which, const char *bytes, size_t piece) {
    char name[80];
    uint32_t palette[OWLGANTRY_REGISTERS], owner[OWLGANTRY_REGISTERS];
    owlgantry_session session;
    owlgantry_picture picture;
    owlgantry_limits limits = owlgantry_limits_of(8, 12, 8, 96);
    owlgantry_canvas canvas = fresh_canvas(8, 12);
    snprintf(name, sizeof name, "marks of %s, %s in pieces of %zu", it->payload, which == DCS ? "DCS" : "payload", piece);
    noisy_palette(palette);
    noisy_palette(owner);
    same(name, "the opening", open_session(which, &session, limits, canvas, palette), 0);
    for (size_t at = 0; at < OWLGANTRY_REGISTERS; at++) {
        same(name, "a register of an open session", session.registers[at], owner[at] % (2 * OWLGANTRY_MARK));
    }
    same(name, "the feeds", feed_in_pieces(which, &session, canvas, bytes, strlen(bytes), piece, 48).refusal, 0);
    holds(name, "nothing shows before the finish", memcmp(palette, owner, sizeof owner) == 0);
    same(name, "the finish", finish_session(which, &session, canvas, palette, &picture), 0);
    check_marks(it, name, palette, picture);
}

/* Every way to read, and every end of a sequence. */
static void check_defining(const defining *it) {
    static const char *const ends[] = {"\033\\", "\x9c", "\x18", "\x1a", "\033[", "\x84"};
    char sequence[80];
    check_at_once(it, it->payload);
    for (size_t piece = 0; piece < 4; piece++) {
        check_session(it, PAYLOAD, it->payload, piece);
    }
    for (size_t at = 0; at < sizeof ends / sizeof *ends; at++) {
        snprintf(sequence, sizeof sequence, "\033Pq%s%s", it->payload, ends[at]);
        check_at_once(it, sequence);
        for (size_t piece = 0; piece < 4; piece++) {
            check_session(it, DCS, sequence, piece);
        }
    }
}

/* What is refused, by the feed or by the finish, leaves each number of the owner's palette. */
static void check_refused(kind which, const char *bytes, uint64_t feed, uint64_t finish) {
    uint32_t palette[OWLGANTRY_REGISTERS], owner[OWLGANTRY_REGISTERS];
    owlgantry_session session;
    owlgantry_picture picture;
    owlgantry_part part;
    owlgantry_limits limits = owlgantry_limits_of(8, 12, 8, 96);
    owlgantry_canvas canvas = fresh_canvas(8, 12);
    noisy_palette(palette);
    noisy_palette(owner);
    same(bytes, "the opening", open_session(which, &session, limits, canvas, palette), 0);
    same(bytes, "the feed", feed_in_pieces(which, &session, canvas, bytes, strlen(bytes), 0, 48).refusal, feed);
    same(bytes, "the finish", finish_session(which, &session, canvas, palette, &picture), finish);
    same(bytes, "defined", picture.defined, 0);
    holds(bytes, "the palette's numbers stay", memcmp(palette, owner, sizeof owner) == 0);
    if (finish != OWLGANTRY_UNFINISHED) {
        uint64_t answer = owlgantry_read(limits, canvas, bytes, strlen(bytes), palette, &picture, &part);
        same(bytes, "all at once", answer, feed == 0 ? finish : feed);
        same(bytes, "defined, all at once", picture.defined, 0);
        holds(bytes, "the palette's numbers stay, all at once", memcmp(palette, owner, sizeof owner) == 0);
    }
}

static void check_refusals(void) {
    check_refused(PAYLOAD, "#1;2;1;2;3~!9~", OWLGANTRY_REPEAT, OWLGANTRY_FAILED);
    check_refused(PAYLOAD, "#1;2;1;2;3!8~~", OWLGANTRY_SIZE, OWLGANTRY_FAILED);
    check_refused(PAYLOAD, "#1;2;1;2;3~!9", OWLGANTRY_DONE, OWLGANTRY_REPEAT);
    check_refused(PAYLOAD, "#1;2;1;2;3~\"1;1;9", OWLGANTRY_DONE, OWLGANTRY_SIZE);
    check_refused(DCS, "\x90q#1;2;1;2;3~--~\x9c", OWLGANTRY_SIZE, OWLGANTRY_FAILED);
    check_refused(DCS, "\x90q#1;2;1;2;3~", OWLGANTRY_DONE, OWLGANTRY_UNFINISHED);
    check_refused(DCS, "\x90#1;2;1;2;3~", OWLGANTRY_HEADER_BYTE, OWLGANTRY_FAILED);
}

/* Marks stay from picture to picture; what a picture defines is counted whatever was marked. */
static void check_pictures(void) {
    static const struct {
        const char *bytes;
        uint64_t defined, marked;
    } pictures[] = {
        {"#1;2;1;2;3~", 1, 1}, {"#2;2;1;2;3#3;1;1;2;3~", 2, 3}, {"#1;2;4;5;6~", 1, 3}, {"#1~#4~", 0, 3}, {"#4;2;1;1;1", 1, 4},
    };
    uint32_t palette[OWLGANTRY_REGISTERS];
    owlgantry_picture picture;
    owlgantry_part part;
    owlgantry_standard_palette(palette);
    for (size_t at = 0; at < sizeof pictures / sizeof *pictures; at++) {
        const char *bytes = pictures[at].bytes;
        uint64_t marked = 0;
        same(bytes, "reading",
             owlgantry_read(owlgantry_house_limits(), fresh_canvas(8, 12), bytes, strlen(bytes), palette, &picture, &part), 0);
        same(bytes, "defined", picture.defined, pictures[at].defined);
        for (size_t place = 0; place < OWLGANTRY_REGISTERS; place++) {
            marked += (uint64_t)owlgantry_is_marked(palette, place);
        }
        same(bytes, "marked", marked, pictures[at].marked);
    }
}

/* All registers at once, and again. */
static void check_all_registers(void) {
    static char bytes[256 * 12];
    const char *name = "all registers";
    uint32_t palette[OWLGANTRY_REGISTERS];
    owlgantry_picture picture;
    owlgantry_part part;
    size_t length = 0;
    for (int at = 0; at < OWLGANTRY_REGISTERS; at++) {
        length += (size_t)sprintf(bytes + length, "#%d;2;9;9;9", at);
    }
    owlgantry_standard_palette(palette);
    for (int turn = 0; turn < 2; turn++) {
        same(name, "reading",
             owlgantry_read(owlgantry_house_limits(), fresh_canvas(8, 12), bytes, length, palette, &picture, &part), 0);
        same(name, "defined", picture.defined, OWLGANTRY_REGISTERS);
        for (size_t at = 0; at < OWLGANTRY_REGISTERS; at++) {
            same(name, "a number", palette[at], 0x171717 + OWLGANTRY_MARK);
        }
    }
}

/* The header's own functions on a palette. */
static void check_helpers(void) {
    const char *name = "a palette's helpers";
    uint32_t palette[OWLGANTRY_REGISTERS];
    owlgantry_standard_palette(palette);
    for (size_t at = 0; at < OWLGANTRY_REGISTERS; at++) {
        holds(name, "none is marked in the standard palette", !owlgantry_is_marked(palette, at));
        same(name, "a standard colour", owlgantry_color(palette, at), palette[at]);
    }
    palette[1] = 0x123456 + OWLGANTRY_MARK;
    palette[2] = 0xfe123456;
    palette[3] = 0xff123456;
    palette[255] = 0xabcdef + OWLGANTRY_MARK;
    for (size_t at = 1; at < 4; at++) {
        same(name, "a colour", owlgantry_color(palette, at), 0x123456);
        same(name, "a mark", (uint64_t)owlgantry_is_marked(palette, at), at != 2);
        owlgantry_set_color(palette, at, 0x654321);
        same(name, "another colour", palette[at], at != 2 ? 0x654321 + OWLGANTRY_MARK : 0x654321);
    }
    owlgantry_set_color(palette, 4, 0xffffffff);
    same(name, "a colour's 24 bits", palette[4], 0xffffff);
    owlgantry_set_color(palette, 256, 0);
    owlgantry_set_color(palette, SIZE_MAX, 0);
    for (size_t at = 254; at < 259; at++) {
        same(name, "a number at the end", owlgantry_register(palette, at), at == 254 ? 0xf2f2f2 : 0xabcdef + OWLGANTRY_MARK);
    }
    same(name, "a colour above 255", owlgantry_color(palette, SIZE_MAX), 0xabcdef);
    holds(name, "a mark above 255", owlgantry_is_marked(palette, 256) && owlgantry_is_marked(palette, SIZE_MAX));
}

void test_marks(void) {
    for (size_t at = 0; at < sizeof payloads / sizeof *payloads; at++) {
        check_defining(&payloads[at]);
    }
    check_refusals();
    check_pictures();
    check_all_registers();
    check_helpers();
}
