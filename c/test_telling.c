/* Where and why a call is refused: the place, the need and the words of every refusal, and on random streams that what is
 * told is what the call does. */
#include "check.h"

#include <stdio.h>
#include <string.h>

/* As in test_refusals.c: small limits, and a canvas that has room for 6 of the 8 columns. */
static owlgantry_limits small(void) { return owlgantry_limits_of(8, 12, 8, 48); }

static void same_words(const char *name, const owlgantry_telling *telling, const char *wanted) {
    char line[OWLGANTRY_LINE];
    same(name, "the line's length", owlgantry_words(telling, line, sizeof line), strlen(wanted));
    if (strcmp(line, wanted) != 0) {
        printf("%s: %s\n", wanted, line);
    }
    holds(name, "the line", strcmp(line, wanted) == 0);
}

static int is_zeros(const owlgantry_telling *telling) {
    static const owlgantry_telling none;
    return memcmp(telling, &none, sizeof none) == 0;
}

/* ---- A feed: what was fed before, the bytes, and the line. The place is of the second bytes. */

typedef struct {
    kind which;
    const char *first, *bytes, *line;
} refused_feed;

static const refused_feed feeds[] = {
    {DCS, "", "x", "refused 1 at byte 0: no DCS introducer"},
    {DCS, "", "\033X", "refused 1 at byte 1: no DCS introducer"},
    {DCS, "\033", "X", "refused 1 at byte 0: no DCS introducer"},
    {DCS, "", "\033P1\x1a", "refused 2 at byte 3: the header is cut off before its q"},
    {DCS, "\033P", "1;\x9c", "refused 2 at byte 2: the header is cut off before its q"},
    {DCS, "", "\x90 q", "refused 3 at byte 1: a byte that no header has"},
    {DCS, "\x90" "1;", "2;p", "refused 3 at byte 2: a byte that no header has"},
    /* The byte that ends a repeat. */
    {PAYLOAD, "", "~!9~", "refused 4 at byte 3: a repeat of 9, 8 allowed"},
    {PAYLOAD, "~!", "9~~~", "refused 4 at byte 1: a repeat of 9, 8 allowed"},
    {PAYLOAD, "~!9", "~", "refused 4 at byte 0: a repeat of 9, 8 allowed"},
    {PAYLOAD, "~!9", "\033", "refused 4 at byte 0: a repeat of 9, 8 allowed"},
    {PAYLOAD, "", "!1000000000000~", "refused 4 at byte 14: a repeat of 1000000000000, 8 allowed"},
    {PAYLOAD, "", "!1000000000001~", "refused 4 at byte 14: a repeat of more than 1000000000000, 8 allowed"},
    {PAYLOAD, "", "!99999999999999999999999~", "refused 4 at byte 24: a repeat of more than 1000000000000, 8 allowed"},
    /* Behind a header in the same bytes. */
    {DCS, "", "\033P7;1q~!9\x9c", "refused 4 at byte 9: a repeat of 9, 8 allowed"},
    {DCS, "\033P7", ";1q~!9\x18", "refused 4 at byte 6: a repeat of 9, 8 allowed"},
    {DCS, "\x90q~!9", "\033\\", "refused 4 at byte 0: a repeat of 9, 8 allowed"},
    {PAYLOAD, "!6~", "!3~", "refused 5 at byte 2: 9 columns are needed, 8 allowed"},
    {PAYLOAD, "", "~\"1;1;9;1-", "refused 5 at byte 9: 9 columns are needed, 8 allowed"},
    {PAYLOAD, "", "\"1;1;1;13~", "refused 5 at byte 9: 13 rows are needed, 12 allowed"},
    {DCS, "", "\x90q--~", "refused 5 at byte 4: 18 rows are needed, 12 allowed"},
    {PAYLOAD, "", "\"1;1;1000000#", "refused 5 at byte 12: 1000000 columns are needed, 8 allowed"},
    {PAYLOAD, "", "\"1;1;1000001#", "refused 5 at byte 12: more than 1000000 columns are needed, 8 allowed"},
    {PAYLOAD, "", "\"1;1;1;9999999999#", "refused 5 at byte 17: more than 1000000 rows are needed, 12 allowed"},
    {PAYLOAD, "!5~", "-~", "refused 6 at byte 1: 60 pixels are needed, 48 allowed"},
    {DCS, "", "\x90q\"1;1;5;10@", "refused 6 at byte 11: 50 pixels are needed, 48 allowed"},
    {PAYLOAD, "", "!7~", "refused 7 at byte 2: 7 columns are needed, the canvas has 6"},
    {DCS, "\x90q~", "\"1;1;7;6\x9c", "refused 7 at byte 8: 7 columns are needed, the canvas has 6"},
};

/* The answers of both, and that a copy of the session and its bytes up to the place are fed as was told. */
static void check_feed(const refused_feed *it) {
    uint32_t palette[OWLGANTRY_REGISTERS];
    owlgantry_session session, copy;
    owlgantry_fed fed;
    owlgantry_telling telling;
    owlgantry_canvas canvas = fresh_canvas(6, 13);
    size_t count = strlen(it->bytes);
    owlgantry_standard_palette(palette);
    same(it->line, "the opening", open_session(it->which, &session, small(), canvas, palette), 0);
    same(it->line, "the first feed", feed_session(it->which, &session, canvas, it->first, strlen(it->first), 48, &fed), 0);
    copy = session;
    uint64_t told = explain_feed(it->which, &session, canvas, it->bytes, count, 48, &telling);
    same_words(it->line, &telling, it->line);
    same(it->line, "the number", telling.number, told);
    holds(it->line, "the session is as it was", memcmp(&session, &copy, sizeof copy) == 0);
    same(it->line, "the feed", feed_session(it->which, &session, canvas, it->bytes, count, 48, &fed), told);
    session = copy;
    same(it->line, "the bytes before", feed_session(it->which, &session, canvas, it->bytes, telling.place, 48, &fed), 0);
    same(it->line, "how many are read", fed.consumed, telling.place);
}

/* Rows of a canvas, which are fewer than the limit allows. */
static void check_rows(void) {
    const char *line = "refused 7 at byte 2: 12 rows are needed, the canvas has 7";
    uint32_t palette[OWLGANTRY_REGISTERS];
    owlgantry_session session;
    owlgantry_telling telling;
    owlgantry_canvas canvas = fresh_canvas(8, 7);
    owlgantry_standard_palette(palette);
    same(line, "the opening", open_session(PAYLOAD, &session, small(), canvas, palette), 0);
    same(line, "the answer", owlgantry_payload_explain(&session, canvas, "~-~", 3, 48, &telling), OWLGANTRY_ROOM);
    same_words(line, &telling, line);
    same(line, "the thing", telling.thing, OWLGANTRY_THING_ROWS);
    same(line, "the rows", telling.needed, 12);
    same(line, "the canvas's", telling.allowed, 7);
}

/* A call that stops before the byte is not refused. */
static void check_stop(void) {
    const char *name = "a stop before the refused byte", *bytes = "!6~$!6~!9~";
    uint32_t palette[OWLGANTRY_REGISTERS];
    owlgantry_session session;
    owlgantry_fed fed;
    owlgantry_telling telling;
    owlgantry_canvas canvas = fresh_canvas(6, 13);
    owlgantry_standard_palette(palette);
    same(name, "the opening", open_session(PAYLOAD, &session, small(), canvas, palette), 0);
    memset(&telling, 0xff, sizeof telling);
    same(name, "the answer", owlgantry_payload_explain(&session, canvas, bytes, 10, 48, &telling), 0);
    holds(name, "nothing is told", is_zeros(&telling));
    same(name, "a larger allowance", owlgantry_payload_explain(&session, canvas, bytes, 10, 72, &telling),
         OWLGANTRY_REPEAT);
    same(name, "the place", telling.place, 9);
    same(name, "the feed", owlgantry_payload_feed(&session, canvas, bytes, 10, 48, &fed), 0);
    same(name, "how", fed.how, OWLGANTRY_PAYLOAD_STOPPED);
    same(name, "the rest", owlgantry_payload_explain(&session, canvas, bytes + 6, 4, 48, &telling), OWLGANTRY_REPEAT);
    same(name, "the place in the rest", telling.place, 3);
}

/* ---- A finish: what was fed before. */

typedef struct {
    kind which;
    const char *bytes, *line;
} refused_finish;

static const refused_finish finishes[] = {
    {PAYLOAD, "~!9", "refused 4 at byte 0: a repeat of 9, 8 allowed"},
    {PAYLOAD, "~\"1;1;9", "refused 5 at byte 0: 9 columns are needed, 8 allowed"},
    {PAYLOAD, "~\"1;1;5;10", "refused 6 at byte 0: 50 pixels are needed, 48 allowed"},
    {PAYLOAD, "~\"1;1;7", "refused 7 at byte 0: 7 columns are needed, the canvas has 6"},
    {PAYLOAD, "~!8", ""},
    {PAYLOAD, "~\033", ""},
    {DCS, "", "refused 8 at byte 0: the sequence has not come to its end"},
    {DCS, "\x90" "1;", "refused 8 at byte 0: the sequence has not come to its end"},
    {DCS, "\x90q~!9", "refused 8 at byte 0: the sequence has not come to its end"},
    {DCS, "\x90q~\033", "refused 8 at byte 0: the sequence has not come to its end"},
    {DCS, "\x90q~\x9c", ""},
};

static void check_finish(const refused_finish *it) {
    uint32_t palette[OWLGANTRY_REGISTERS];
    owlgantry_session session;
    owlgantry_fed fed;
    owlgantry_picture picture;
    owlgantry_telling telling;
    owlgantry_canvas canvas = fresh_canvas(6, 13);
    owlgantry_standard_palette(palette);
    same(it->bytes, "the opening", open_session(it->which, &session, small(), canvas, palette), 0);
    same(it->bytes, "the feed", feed_session(it->which, &session, canvas, it->bytes, strlen(it->bytes), 48, &fed), 0);
    uint64_t told = explain_finish(it->which, &session, canvas, &telling);
    same_words(it->bytes, &telling, it->line);
    same(it->bytes, "the number", telling.number, told);
    holds(it->bytes, "zeros where nothing is refused", told != 0 || is_zeros(&telling));
    same(it->bytes, "the finish", finish_session(it->which, &session, canvas, palette, &picture), told);
}

/* ---- 9, 12 and 13, of a call and no byte. */

static void check_placeless(kind which) {
    const char *name = which == DCS ? "a DCS call" : "a payload call";
    const char *failed = "refused 9: the session was refused before, or there is none";
    const char *other = "refused 12: not the canvas of the opening, or no such picture on it";
    uint32_t palette[OWLGANTRY_REGISTERS];
    owlgantry_session session;
    owlgantry_telling telling;
    owlgantry_canvas canvas = fresh_canvas(6, 13), none = owlgantry_canvas_of(NULL, 0, 6);
    owlgantry_standard_palette(palette);
    same(name, "the opening", open_session(which, &session, small(), canvas, palette), 0);
    same(name, "another canvas", explain_feed(which, &session, none, "x", 1, 48, &telling), OWLGANTRY_CANVAS);
    same_words(name, &telling, other);
    same(name, "another canvas's finish", explain_finish(which, &session, none, &telling), OWLGANTRY_CANVAS);
    same_words(name, &telling, other);
    same(name, "the allowance", explain_feed(which, &session, canvas, "x", 1, 47, &telling), OWLGANTRY_ALLOWANCE);
    same_words(name, &telling, "refused 13: the allowance is below six times the width limit");
    same(name, "no place", telling.has_place + telling.place, 0);
    memset(&session, 0, sizeof session);
    same(name, "no session", explain_feed(which, &session, canvas, NULL, 0, 48, &telling), OWLGANTRY_FAILED);
    same_words(name, &telling, failed);
    same(name, "no session's finish", explain_finish(which, &session, canvas, &telling), OWLGANTRY_FAILED);
    same_words(name, &telling, failed);
}

/* ---- Reading all at once: the place counts what stands before the introducer. */

typedef struct {
    const char *bytes, *line;
} refused_read;

static const refused_read reads[] = {
    {"\x90" "1\x18", "refused 2 at byte 2: the header is cut off before its q"},
    {"text \033P1$q~", "refused 3 at byte 8: a byte that no header has"},
    {"some text \033Pq~!9~", "refused 4 at byte 16: a repeat of 9, 8 allowed"},
    {"!9", "refused 4 at byte 2: a repeat of 9, 8 allowed"},
    {"text \033Pq!9", "refused 4 at byte 10: a repeat of 9, 8 allowed"},
    {"text \033Pq!9\033\\ text", "refused 4 at byte 10: a repeat of 9, 8 allowed"},
    {"\x90q!6~!3~", "refused 5 at byte 7: 9 columns are needed, 8 allowed"},
    {"\x90q!5~-~", "refused 6 at byte 6: 60 pixels are needed, 48 allowed"},
    {"--~", "refused 5 at byte 2: 18 rows are needed, 12 allowed"},
    {"!7~", "refused 7 at byte 2: 7 columns are needed, the canvas has 6"},
    {"text \033P1;", "refused 8 at byte 9: the sequence has not come to its end"},
    {"\x90q~", ""},
};

static void check_read(const refused_read *it) {
    uint32_t palette[OWLGANTRY_REGISTERS];
    owlgantry_picture picture;
    owlgantry_part part;
    owlgantry_telling telling;
    owlgantry_canvas canvas = fresh_canvas(6, 13);
    size_t count = strlen(it->bytes);
    owlgantry_standard_palette(palette);
    uint64_t told = owlgantry_read_explain(small(), canvas, it->bytes, count, palette, &telling);
    same_words(it->bytes, &telling, it->line);
    same(it->bytes, "the number", telling.number, told);
    same(it->bytes, "the reading", owlgantry_read(small(), canvas, it->bytes, count, palette, &picture, &part), told);
}

static void check_opening(void) {
    const char *line = "refused 11: a limit or the stride is out of range, or the canvas has no whole row";
    uint32_t palette[OWLGANTRY_REGISTERS];
    owlgantry_telling telling;
    owlgantry_standard_palette(palette);
    same(line, "the answer",
         owlgantry_read_explain(small(), owlgantry_canvas_of(NULL, 0, 6), "!9~", 3, palette, &telling),
         OWLGANTRY_OPENING);
    same_words(line, &telling, line);
}

/* ---- Words: of a number alone, and in any room. */

static const char *const plain[] = {
    "",
    "refused 1: no DCS introducer",
    "refused 2: the header is cut off before its q",
    "refused 3: a byte that no header has",
    "refused 4: a repeat above the limit",
    "refused 5: a width or height above the limit",
    "refused 6: more pixels than the limit",
    "refused 7: a size above the canvas",
    "refused 8: the sequence has not come to its end",
    "refused 9: the session was refused before, or there is none",
    "refused 10: retired, nothing gives this number",
    "refused 11: a limit or the stride is out of range, or the canvas has no whole row",
    "refused 12: not the canvas of the opening, or no such picture on it",
    "refused 13: the allowance is below six times the width limit",
    "refused 14: the buffer is shorter than the picture",
    "",
};

static void check_words(void) {
    const char *line = "refused 5 at byte 4711: 1037 columns are needed, 1024 allowed";
    const uint64_t told[7] = {OWLGANTRY_SIZE, 1, 4711, OWLGANTRY_THING_COLUMNS, 1037, 0, 1024};
    owlgantry_telling telling;
    for (size_t number = 0; number < sizeof plain / sizeof *plain; number++) {
        memset(&telling, 0, sizeof telling);
        telling.number = number;
        same_words(plain[number], &telling, plain[number]);
    }
    telling = owlgantry_telling_of(told);
    for (size_t size = 1; size <= strlen(line) + 1; size++) {
        char *room = lend(size);
        same(line, "a truncated line's length", owlgantry_words(&telling, room, size), size - 1);
        holds(line, "its front", memcmp(room, line, size - 1) == 0 && room[size - 1] == '\0');
    }
    same(line, "no room", owlgantry_words(&telling, NULL, 0), 0);
    memset(&telling, 0xff, sizeof telling);
    same("no refusal", "has no words", owlgantry_words(&telling, (char[OWLGANTRY_LINE]){0}, OWLGANTRY_LINE), 0);
}

/* No numbers have a longer line than there is room for. */
static void check_longest(void) {
    size_t most = 0;
    for (uint64_t number = 1; number <= 14; number++) {
        for (uint64_t thing = 0; thing <= 4; thing++) {
            owlgantry_telling telling = {number, 1, UINT64_MAX, thing, UINT64_MAX, 1, UINT64_MAX};
            char line[2 * OWLGANTRY_LINE];
            size_t length = owlgantry_words(&telling, line, sizeof line);
            most = length > most ? length : most;
        }
    }
    holds("the longest line", "it has room", most < OWLGANTRY_LINE);
}

/* ---- A host with a heap: 7 says how large a canvas has to be. */

static void check_growth(void) {
    const char *name = "a canvas that grows", *bytes = "\033Pq\"1;1;9;3~!20~-!40~-!3~$-!11~-~\033\\";
    uint32_t palette[OWLGANTRY_REGISTERS];
    owlgantry_limits limits = owlgantry_limits_of(100, 100, 100, 10000);
    owlgantry_picture picture;
    owlgantry_part part;
    owlgantry_telling telling;
    size_t width = 1, height = 1, turns = 0;
    owlgantry_standard_palette(palette);
    while (owlgantry_read(limits, fresh_canvas(width, height), bytes, strlen(bytes), palette, &picture, &part) != 0 &&
           turns++ < 20) {
        same(name, "the answer",
             owlgantry_read_explain(limits, fresh_canvas(width, height), bytes, strlen(bytes), palette, &telling),
             OWLGANTRY_ROOM);
        size_t *side = telling.thing == OWLGANTRY_THING_COLUMNS ? &width : &height;
        same(name, "what there is", telling.allowed, *side);
        holds(name, "more is needed", telling.needed > *side && telling.more == 0);
        *side = (size_t)telling.needed;
    }
    same(name, "the picture's width", picture.width, width);
    same(name, "the picture's height", picture.height, height);
    same(name, "that", width * 100 + height, 4030);
}

/* ---- Random streams in random pieces. */

#define STREAMS 100000
#define LONGEST 40

/* How often each number was told of a feed. */
static size_t told_of[15];

static uint64_t any(void) {
    static uint64_t seed = 41;
    return any_of(&seed);
}

static const char *const words[] = {"~", "?", "@", "-", "$", "!", "!2", "!6~", "!9", "\"1;1;", "\"", ";", "#", "0",
                                    "1", "3", "5", "7", " ", "q", "#1;2;9;9;9", "\033", "\033\\", "\x18", "\x9c", "\x85"};

/* A sequence has a header that is mostly right. */
static size_t random_stream(kind which, char *out) {
    static const char *const heads[] = {"\033Pq", "\x90q", "\033P0;1q", "\x90" "7;;3q", "\033P", "\x90", ""};
    size_t wanted = any() % (LONGEST - 16), count = 0;
    if (which == DCS) {
        const char *head = heads[any() % (sizeof heads / sizeof *heads)];
        count = strlen(head);
        memcpy(out, head, count);
    }
    while (count < wanted) {
        const char *word = words[any() % 8 != 0 ? any() % 20 : any() % (sizeof words / sizeof *words)];
        memcpy(out + count, word, strlen(word));
        count += strlen(word);
    }
    return count;
}

/* Up to the told place nothing is refused and all is read, and with one byte more it is refused alike. */
static void check_place(kind which, const owlgantry_session *session, owlgantry_canvas canvas, const char *bytes,
                        size_t allowance, const owlgantry_telling *telling) {
    const char *name = "a random stream's place";
    owlgantry_session copy = *session;
    owlgantry_fed fed;
    same(name, "the bytes before", feed_session(which, &copy, canvas, bytes, telling->place, allowance, &fed), 0);
    same(name, "how many are read", fed.consumed, telling->place);
    copy = *session;
    same(name, "one byte more", feed_session(which, &copy, canvas, bytes, telling->place + 1, allowance, &fed),
         telling->number);
}

/* A feed of some bytes: what is told before is what comes. Answers 1 where the session goes on. */
static int check_piece(kind which, owlgantry_session *session, owlgantry_canvas canvas, owlgantry_canvas other,
                       const char *bytes, size_t count, owlgantry_fed *fed) {
    const char *name = "a random stream";
    owlgantry_session asked = *session;
    owlgantry_telling telling;
    size_t allowance = 47 + any() % 60;
    memset(&telling, 0xff, sizeof telling);
    uint64_t told = explain_feed(which, &asked, canvas, bytes, count, allowance, &telling);
    uint64_t refusal = feed_session(which, session, canvas, bytes, count, allowance, fed);
    told_of[told]++;
    same(name, "what is told", told, refusal);
    same(name, "the telling's number", telling.number, told);
    holds(name, "zeros where nothing is refused", told != 0 || is_zeros(&telling));
    same(name, "a place", telling.has_place, told >= 1 && told <= 7);
    same(name, "a need", telling.thing != OWLGANTRY_THING_NONE, told >= 4 && told <= 7);
    holds(name, "more than there is", told < 4 || told > 7 || telling.needed > telling.allowed);
    if (telling.has_place == 1) {
        holds(name, "a place among the bytes", telling.place < count);
        check_place(which, &asked, other, bytes, allowance, &telling);
    }
    return refusal == 0 || refusal == OWLGANTRY_ALLOWANCE;
}

static void check_random_read(owlgantry_canvas canvas, const char *bytes, size_t count) {
    const char *name = "a random reading";
    uint32_t palette[OWLGANTRY_REGISTERS];
    owlgantry_picture picture;
    owlgantry_part part;
    owlgantry_telling telling;
    owlgantry_standard_palette(palette);
    uint64_t told = owlgantry_read_explain(small(), canvas, bytes, count, palette, &telling);
    same(name, "what is told", told, owlgantry_read(small(), canvas, bytes, count, palette, &picture, &part));
    holds(name, "a place among the bytes or at their end", telling.place <= count);
    if (told != 0 && telling.place < count) {
        same(name, "one byte more",
             owlgantry_read(small(), canvas, bytes, telling.place + 1, palette, &picture, &part), told);
    }
}

static void check_random(kind which) {
    const char *name = "a random stream";
    static uint8_t second[4 * 6 * 13];
    uint32_t palette[OWLGANTRY_REGISTERS];
    owlgantry_canvas canvas = fresh_canvas(6, 13), other = owlgantry_canvas_of(second, sizeof second, 6);
    owlgantry_standard_palette(palette);
    for (size_t turn = 0; turn < STREAMS / 2; turn++) {
        char bytes[LONGEST];
        size_t count = random_stream(which, bytes), at = 0;
        owlgantry_session session, asked;
        owlgantry_fed fed;
        owlgantry_picture picture;
        owlgantry_telling telling;
        check_random_read(canvas, bytes, count);
        open_session(which, &session, small(), canvas, palette);
        for (int going = 1, turns = 0; going && at < count && turns < 100; turns++) {
            size_t piece = 1 + any() % (count - at);
            going = check_piece(which, &session, canvas, other, bytes + at, piece, &fed);
            at += fed.consumed;
        }
        asked = session;
        uint64_t told = explain_finish(which, &asked, canvas, &telling);
        same(name, "a finish", told, finish_session(which, &session, canvas, palette, &picture));
        same(name, "a finish's place", telling.has_place + telling.place, told >= 1 && told <= 8);
    }
}

void test_tellings(void) {
    for (size_t at = 0; at < sizeof feeds / sizeof *feeds; at++) {
        check_feed(&feeds[at]);
    }
    check_rows();
    check_stop();
    for (size_t at = 0; at < sizeof finishes / sizeof *finishes; at++) {
        check_finish(&finishes[at]);
    }
    check_placeless(PAYLOAD);
    check_placeless(DCS);
    for (size_t at = 0; at < sizeof reads / sizeof *reads; at++) {
        check_read(&reads[at]);
    }
    check_opening();
    check_words();
    check_longest();
    check_growth();
    check_random(PAYLOAD);
    check_random(DCS);
    for (size_t number = 0; number <= OWLGANTRY_ROOM; number++) {
        holds(plain[number], "random streams come to it often", told_of[number] > 100);
    }
}
