/* Damaged sessions: every call answers a stated number and keeps to the memory that it is lent. Each memory ends where a
 * guard page begins, so a step outside ends the program. */
#include "check.h"

#include <stdio.h>
#include <string.h>

#define STRIDE 24
#define ROWS 20
#define LENGTH (4 * STRIDE * ROWS)

static uint64_t *numbers, *report, *telling;
static uint32_t *registers, *palette;
static uint8_t *canvas, *stream;
static const char *const streams[] = {
    "",
    "~",
    "5;2~-!3?#9;2;1;2;3$~",
    "\033Pq\"1;1;9;9!5~-#300@\033\\",
    "\x90" "9;1q!7~-----~\x9c",
    "q--------------------------------!99999999999999~",
};
static const size_t allowances[] = {0, 144, SIZE_MAX};

static uint64_t any(void) {
    static uint64_t seed = 2;
    return any_of(&seed);
}

static void open_one(kind which) {
    owlgantry_limits limits = owlgantry_limits_of(STRIDE, ROWS, 99, STRIDE * ROWS);
    uint64_t answer = which == PAYLOAD
                          ? owlgantry_raw_payload_open(limits.width, limits.height, limits.repeats, limits.pixels,
                                                       STRIDE, 1, 1, canvas, LENGTH, palette, numbers, registers)
                          : owlgantry_raw_dcs_open(limits.width, limits.height, limits.repeats, limits.pixels, STRIDE,
                                                   LENGTH, palette, numbers, registers);
    same("a session to damage", "the opening", answer, 0);
}

/* The stream's bytes at the very end of their memory. */
static uint64_t feed_one(kind which, const char *text, size_t allowance) {
    size_t count = strlen(text);
    uint8_t *bytes = memcpy(stream + 64 - count, text, count);
    return which == PAYLOAD
               ? owlgantry_raw_payload_feed(numbers, registers, canvas, LENGTH, bytes, count, allowance, report)
               : owlgantry_raw_dcs_feed(numbers, registers, canvas, LENGTH, bytes, count, allowance, report);
}

static uint64_t finish_one(kind which) {
    return which == PAYLOAD ? owlgantry_raw_payload_finish(numbers, registers, canvas, LENGTH, palette, report)
                            : owlgantry_raw_dcs_finish(numbers, registers, canvas, LENGTH, palette, report);
}

/* What is told of a feed, and of a finish where there is no text. */
static uint64_t explain_one(kind which, const char *text, size_t allowance) {
    if (text == NULL) {
        return which == PAYLOAD ? owlgantry_raw_payload_explain_finish(numbers, registers, LENGTH, telling)
                                : owlgantry_raw_dcs_explain_finish(numbers, registers, LENGTH, telling);
    }
    size_t count = strlen(text);
    uint8_t *bytes = memcpy(stream + 64 - count, text, count);
    return which == PAYLOAD
               ? owlgantry_raw_payload_explain(numbers, registers, LENGTH, bytes, count, allowance, telling)
               : owlgantry_raw_dcs_explain(numbers, registers, LENGTH, bytes, count, allowance, telling);
}

/* Seven zeros where nothing is refused, else the number and a place among the bytes, if there is one. */
static int is_telling(uint64_t answer, size_t count) {
    static const uint64_t nothing[7];
    return answer == 0 ? memcmp(telling, nothing, sizeof nothing) == 0
                       : telling[0] == answer && telling[1] <= 1 && telling[2] <= count && telling[3] <= 4;
}

/* Every number of a palette that a picture hands on is a colour and a mark. */
static int has_colours_and_marks_alone(void) {
    for (size_t at = 0; at < OWLGANTRY_REGISTERS; at++) {
        if (palette[at] >= 2 * OWLGANTRY_MARK) {
            return 0;
        }
    }
    return 1;
}

/* Feeds whatever lies in the session's memory. */
static void check_feeds(const char *name, kind which) {
    for (size_t at = 0; at < sizeof streams / sizeof *streams; at++) {
        const char *text = streams[at];
        uint64_t told = explain_one(which, text, allowances[at % 3]);
        uint64_t answer = feed_one(which, text, allowances[at % 3]);
        same(name, "what is told of a feed", told, answer);
        holds(name, "a feed's telling", is_telling(told, strlen(text)));
        holds(name, "a feed answers 0 to 7, 9, 12 or 13", answer <= 7 || answer == 9 || answer == 12 || answer == 13);
        holds(name, "a feed has a known end",
              report[0] <= (which == DCS ? OWLGANTRY_DCS_INTERRUPTED : OWLGANTRY_PAYLOAD_ENDED));
        holds(name, "no more is consumed than given", report[1] <= strlen(text));
        holds(name, "a byte is a byte", report[3] <= 255);
        holds(name, "a refused feed reports zeros", answer == 0 || (report[0] | report[1] | report[2] | report[3]) == 0);
    }
}

static void check_finish(const char *name, kind which) {
    static const uint64_t nothing[11];
    uint32_t owner[OWLGANTRY_REGISTERS];
    memcpy(owner, palette, sizeof owner);
    uint64_t told = explain_one(which, NULL, 0);
    holds(name, "a finish's telling", is_telling(told, 0));
    uint64_t answer = finish_one(which);
    same(name, "what is told of a finish", told, answer);
    holds(name, "a finish answers 0, 4 to 9 or 12", answer == 0 || (answer >= 4 && answer <= 9) || answer == 12);
    holds(name, "a refused finish reports zeros", answer == 0 || memcmp(report, nothing, sizeof nothing) == 0);
    holds(name, "no more than all registers are defined", report[7] <= OWLGANTRY_REGISTERS);
    holds(name, "a refused finish leaves the palette", answer == 0 || memcmp(palette, owner, sizeof owner) == 0);
    holds(name, "a picture hands on colours and marks", answer != 0 || has_colours_and_marks_alone());
    for (size_t at = 0; at < OWLGANTRY_SESSION_NUMBERS; at++) {
        same(name, "a number after a finish", numbers[at], 0);
    }
    same(name, "a feed after a finish", feed_one(which, "~", SIZE_MAX), OWLGANTRY_FAILED);
}

static void check_answers(const char *name, kind which) {
    check_feeds(name, which);
    check_finish(name, which);
}

/* A session that was fed something, then one bit of it is flipped; it is finished at once, and again after more feeds. */
static void flip_each_bit(kind which, const char *fed) {
    char name[80];
    for (unsigned turn = 0; turn < 2 * 64 * OWLGANTRY_SESSION_NUMBERS; turn++) {
        unsigned bit = turn / 2;
        snprintf(name, sizeof name, "%s session, bit %u of number %u", which == DCS ? "DCS" : "payload", bit % 64, bit / 64);
        open_one(which);
        same(name, "the feed before", feed_one(which, fed, SIZE_MAX), 0);
        numbers[bit / 64] ^= (uint64_t)1 << bit % 64;
        if (turn % 2 == 1) {
            check_feeds(name, which);
        }
        check_finish(name, which);
    }
}

/* One to four numbers of a session get a small number, a huge one, or any. */
static void change_numbers(kind which, int turns) {
    for (int turn = 0; turn < turns; turn++) {
        open_one(which);
        for (uint64_t more = any() % 4 + 1; more > 0; more--) {
            uint64_t place = any() % OWLGANTRY_SESSION_NUMBERS, width = any() % 64;
            numbers[place] = any() % 5 == 0 ? UINT64_MAX - any() % 9 : any() >> width;
        }
        if (turn % 2 == 1) {
            check_feeds("a session with other numbers", which);
        }
        check_finish("a session with other numbers", which);
    }
}

static void fill_with(kind which, int turns) {
    memset(numbers, 0xff, 8 * OWLGANTRY_SESSION_NUMBERS);
    memset(registers, 0xff, 4 * OWLGANTRY_REGISTERS);
    check_answers("a session of FF bytes", which);
    memset(numbers, 0, 8 * OWLGANTRY_SESSION_NUMBERS);
    check_answers("a session of zeros", which);
    for (int turn = 0; turn < turns; turn++) {
        for (size_t at = 0; at < OWLGANTRY_SESSION_NUMBERS; at++) {
            numbers[at] = any();
        }
        for (size_t at = 0; at < OWLGANTRY_REGISTERS; at++) {
            registers[at] = (uint32_t)any();
        }
        check_answers("a session of random bytes", which);
    }
}

/* A session of one kind lent to the other's functions. */
static void mistake_the_kind(void) {
    open_one(PAYLOAD);
    check_answers("a payload session as a DCS one", DCS);
    open_one(DCS);
    check_answers("a DCS session as a payload one", PAYLOAD);
}

/* A sixel is judged when it is read, and a finish judges no size. Eight columns are read, then number 0, the limit of
 * width, becomes 4: the finish reports all eight. */
static void lower_the_limit(kind which, const char *text) {
    const char *name = which == DCS ? "a DCS session with a lowered limit" : "a payload session with a lowered limit";
    owlgantry_session *session = lend(sizeof *session);
    owlgantry_canvas eight = fresh_canvas(8, 12);
    owlgantry_fed fed;
    owlgantry_picture picture;
    owlgantry_standard_palette(palette);
    same(name, "the opening", open_session(which, session, owlgantry_limits_of(8, 12, 1024, 768), eight, palette), 0);
    same(name, "the feed", feed_session(which, session, eight, text, strlen(text), SIZE_MAX, &fed), 0);
    same(name, "the limit of width", session->numbers[0], 8);
    session->numbers[0] = 4;
    same(name, "the finish", finish_session(which, session, eight, palette, &picture), 0);
    same(name, "width", picture.width, 8);
    same(name, "height", picture.height, 6);
    same(name, "register 1", palette[1], 0xff0000 + OWLGANTRY_MARK);
    same(name, "defined", picture.defined, 1);
    for (size_t pixel = 0; pixel < 8 * 6; pixel++) {
        holds(name, "the picture is red", memcmp(eight.bytes + 4 * pixel, "\xff\0\0\xff", 4) == 0);
    }
    holds(name, "nothing else is written", untouched_outside(eight, 8, 6));
}

/* Number 44 is the count of definitions that had a held value. It stays at the largest number of 64 bits. */
static void count_to_the_largest(kind which, const char *start, const char *end) {
    const char *name = which == DCS ? "a DCS session's held values" : "a payload session's held values";
    owlgantry_session *session = lend(sizeof *session);
    owlgantry_canvas eight = fresh_canvas(8, 12);
    owlgantry_limits limits = owlgantry_limits_of(8, 12, 1024, 768);
    owlgantry_fed fed;
    owlgantry_picture picture;
    for (uint64_t below = 0; below < 4; below++) {
        same(name, "the opening", open_session(which, session, limits, eight, palette), 0);
        same(name, "a first feed", feed_session(which, session, eight, start, strlen(start), SIZE_MAX, &fed), 0);
        same(name, "the count", session->numbers[44], 1);
        session->numbers[44] = UINT64_MAX - below;
        same(name, "a second feed", feed_session(which, session, eight, end, strlen(end), SIZE_MAX, &fed), 0);
        same(name, "the finish", finish_session(which, session, eight, palette, &picture), 0);
        same(name, "held", picture.held, below < 2 ? UINT64_MAX : UINT64_MAX - below + 2);
        same(name, "width", picture.width, 1);
        same(name, "defined", picture.defined, 2);
    }
}

void test_damage(void) {
    numbers = lend(8 * OWLGANTRY_SESSION_NUMBERS);
    registers = lend(4 * OWLGANTRY_REGISTERS);
    palette = lend(4 * OWLGANTRY_REGISTERS);
    report = lend(8 * 11);
    telling = lend(8 * 7);
    canvas = lend(LENGTH);
    stream = lend(64);
    owlgantry_standard_palette(palette);
    flip_each_bit(PAYLOAD, "");
    flip_each_bit(PAYLOAD, "#1;2;3~-!4");
    flip_each_bit(PAYLOAD, "!20~-!20~-\"1;1;21");
    flip_each_bit(PAYLOAD, "#1;2;101;0;0~#2;1;0;50;101");
    flip_each_bit(DCS, "");
    flip_each_bit(DCS, "\033P1;");
    flip_each_bit(DCS, "\x90q\"1;1;3~#2;");
    flip_each_bit(DCS, "\x90q!20~-!20~\x9c");
    change_numbers(PAYLOAD, 4000);
    change_numbers(DCS, 4000);
    fill_with(PAYLOAD, 1000);
    fill_with(DCS, 1000);
    mistake_the_kind();
    lower_the_limit(PAYLOAD, "#1;2;100;0;0!8~");
    lower_the_limit(DCS, "\x90q#1;2;100;0;0!8~\x9c");
    count_to_the_largest(PAYLOAD, "#1;2;101;0;0~", "#1;1;0;0;101$#2;2;0;0;255");
    count_to_the_largest(DCS, "\x90q#1;2;101;0;0~", "#1;1;0;0;101$#2;2;0;0;255\x9c");
}
