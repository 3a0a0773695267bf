/* A SIXEL reader that can be relied on, for C99 and C++. Link it with libowlgantry.a, which is for x86-64.
 *
 * The archive's functions, under `extern "C"`, take arrays of numbers and are proved: what each answers, and what it
 * leaves in every byte that it is lent, is stated for every input. They are named `owlgantry_raw_..`. The functions
 * below them, without the `raw`, take structs, are what a program calls, and only pack and unpack their arguments.
 * Rules are those of docs/RULES.md.
 *
 * The caller's side:
 * - Memory is as long as its length says, aligned for its type, and nobody else's during a call.
 * - What a call writes to overlaps (aliases) nothing else that it is lent.
 * - A pointer whose length is 0 is not dereferenced, and may be NULL. No other pointer may be NULL.
 * Nothing is allocated and nothing is kept between calls: the functions are reentrant, and any thread may call.
 *
 * A canvas (rule 1.3) has four bytes a pixel: red, green, blue, alpha. Its stride is in pixels; its rows are its
 * length divided by 4 x stride, rounded down. A picture stands in its upper left corner, and the bytes outside the
 * picture stay as they were.
 *
 * A register of a palette is a number: its colour, red x 65,536 + green x 256 + blue, and OWLGANTRY_MARK, 2^24, more
 * where it is marked. A mark says that a colour command defined the register, in this picture or an earlier one (rule
 * 9.8). Whoever stores a number stores colour and mark together; owlgantry_set_color keeps the mark. An opening and a
 * reading all at once take each number modulo 2^25, so that whatever a caller had above the mark is dropped, and a
 * picture leaves colours and marks alone. A refusal, a session that is still open and one that is dropped leave the
 * palette's numbers as they are, whatever they are. */
#ifndef OWLGANTRY_H
#define OWLGANTRY_H

#include <stddef.h>
#include <stdint.h>

/* The version that the file VERSION names; CHANGELOG.md says what it brings. */
#define OWLGANTRY_VERSION "0.9.0"

#if SIZE_MAX != UINT64_MAX
#error "the reader is made for machines whose size_t has 64 bits"
#endif

#ifdef __cplusplus
extern "C" {
#endif

#define OWLGANTRY_REGISTERS 256
#define OWLGANTRY_MARK 0x1000000u
#define OWLGANTRY_SESSION_NUMBERS 48
#define OWLGANTRY_LINE 128 /* room for every line of owlgantry_words, and its NUL */

/* What every function answers but the palette's and the words' (rule 5.1; in which order, rules 5.2 and 5.3). A feed that
 * is refused by 1 to 7 fails the session, by 9, 12 or 13 it leaves the session as it was. The palette stays as it was,
 * and the canvas shows what was read before the refused byte or command (rule 5.6). */
enum owlgantry_refusal {
    OWLGANTRY_DONE = 0,          /* no refusal */
    OWLGANTRY_INTRODUCER = 1,    /* DCS: does not begin with 90, or with 1B and `P` */
    OWLGANTRY_HEADER_ENDED = 2,  /* 18, 1A, 1B or 80-9F in the header */
    OWLGANTRY_HEADER_BYTE = 3,   /* another byte in the header that does not belong there */
    OWLGANTRY_REPEAT = 4,        /* a repeat above the limit */
    OWLGANTRY_SIZE = 5,          /* a sixel or raster needs more than the limit of width or height */
    OWLGANTRY_PIXELS = 6,        /* the visible area would have more pixels than the limit */
    OWLGANTRY_ROOM = 7,          /* a sixel or raster needs more than the canvas's stride or rows */
    OWLGANTRY_UNFINISHED = 8,    /* DCS: no end yet; all at once: an introducer, but no `q` */
    OWLGANTRY_FAILED = 9,        /* 1 to 7 refused this session before, or there is none */
    OWLGANTRY_FINAL_SIZE = 10,   /* retired: nothing answers it */
    OWLGANTRY_OPENING = 11,      /* a limit or the stride is out of range, or no whole row on the canvas */
    OWLGANTRY_CANVAS = 12,       /* a canvas of another length than at the opening, or no such picture on it */
    OWLGANTRY_ALLOWANCE = 13,    /* the allowance is below 6 x the limit of width */
    OWLGANTRY_BUFFER = 14        /* the copy's buffer is shorter than 4 x width x height */
};

/* How a feed that was not refused ended (rules 6.3, 6.4, and 7.3 to 7.5). */
enum owlgantry_payload_how {
    OWLGANTRY_PAYLOAD_ALL_READ = 0,
    OWLGANTRY_PAYLOAD_STOPPED = 1,  /* for ink: present the unread bytes again */
    OWLGANTRY_PAYLOAD_ENDED = 2     /* by a byte that stays unread */
};
enum owlgantry_dcs_how {
    OWLGANTRY_DCS_ALL_READ = 0,
    OWLGANTRY_DCS_STOPPED = 1,     /* for ink: present the unread bytes again */
    OWLGANTRY_DCS_COMPLETE = 2,    /* by 9C, or 1B and `\` */
    OWLGANTRY_DCS_CANCELLED = 3,   /* by 18 or 1A, which is consumed */
    OWLGANTRY_DCS_INTERRUPTED = 4  /* by 1B, which is consumed, with another byte after it; or by a C1 byte, which is not */
};

/* Which number says how tall a pixel is (rule 4.5). */
enum owlgantry_ratio_kind {
    OWLGANTRY_RATIO_NONE = 0,   /* left to P1, which is missing */
    OWLGANTRY_RATIO_P1 = 1,     /* left to P1, the number is P1's */
    OWLGANTRY_RATIO_RASTER = 2  /* the raster's, number : 1, vertical to horizontal */
};

/* What a refused byte needed more of than there is (rule 5.10). */
enum owlgantry_thing {
    OWLGANTRY_THING_NONE = 0,
    OWLGANTRY_THING_REPEATS = 1,
    OWLGANTRY_THING_COLUMNS = 2,
    OWLGANTRY_THING_ROWS = 3,
    OWLGANTRY_THING_PIXELS = 4
};

/* P1 or P2 of a payload session where there is none: any number above 65,535. */
#define OWLGANTRY_NO_PARAMETER UINT32_MAX

/* A session lies in the caller's memory, in 1,408 bytes. All zeros are a failed session, and any content has a stated
 * answer. Dropping it is an abort. Its registers are its own until the finish: a number there has 2^25 more where this
 * picture has defined the register (rule 9.9). */
typedef struct {
    uint64_t numbers[OWLGANTRY_SESSION_NUMBERS];
    uint32_t registers[OWLGANTRY_REGISTERS];
} owlgantry_session;

/* Width and height are 1 to 1,000,000 each, repeats and pixels 1 to 10^12. The stride is 1 to 1,000,000 (rule 1.1). */

/* The standard palette's 256 registers, none of them marked (rule 9.6). */
void owlgantry_raw_standard_palette(uint32_t out[OWLGANTRY_REGISTERS]);

/* Reads all at once (docs/RULES.md, section 8): the part after the first introducer and its header, or the whole where
 * there is no introducer. The palette becomes the picture's where there is one. Reports width, height, right, bottom,
 * the ratio's kind and number, 1 for a transparent background, how many registers the picture defined, the declared
 * width and height, how many definitions had a held value, and the place and the length of the payload among the bytes.
 * On a refusal the first eleven are 0; on 2, 3, 8 and 11 the payload is empty, at the end of the bytes. */
uint64_t owlgantry_raw_read(size_t width, size_t height, size_t repeats, size_t pixels, size_t stride, uint8_t *canvas,
                            size_t canvas_length, const uint8_t *bytes, size_t bytes_length,
                            uint32_t palette[OWLGANTRY_REGISTERS], uint64_t report[13]);

/* Copies a picture's rows, tightly packed, to the front of `out`, whose later bytes stay. Answers 0, 12 or 14
 * (docs/RULES.md, section 10). */
uint64_t owlgantry_raw_copy(const uint8_t *canvas, size_t canvas_length, size_t stride, size_t width, size_t height,
                            uint8_t *out, size_t out_length);

/* Opens a session for a payload, and gives pixel (0, 0) the background. The palette's colours and marks are copied into
 * the session. Answers 0 or 11; on 11 the session is a failed one and nothing of the canvas is written. */
uint64_t owlgantry_raw_payload_open(size_t width, size_t height, size_t repeats, size_t pixels, size_t stride,
                                    uint32_t p1, uint32_t p2, uint8_t *canvas, size_t canvas_length,
                                    const uint32_t palette[OWLGANTRY_REGISTERS],
                                    uint64_t session[OWLGANTRY_SESSION_NUMBERS],
                                    uint32_t registers[OWLGANTRY_REGISTERS]);

/* Reads bytes until all are read, the next sixel's ink exceeds what is left of the allowance, the payload ends, or a
 * refusal. Reports how (owlgantry_payload_how), the bytes consumed, the ink, and the byte that ended the payload and
 * stays unread, else 0. An ended session repeats its end. On a refusal the report is four zeros. */
uint64_t owlgantry_raw_payload_feed(uint64_t session[OWLGANTRY_SESSION_NUMBERS],
                                    uint32_t registers[OWLGANTRY_REGISTERS], uint8_t *canvas, size_t canvas_length,
                                    const uint8_t *bytes, size_t bytes_length, size_t allowance, uint64_t report[4]);

/* Carries a pending command out and reports the eleven numbers that owlgantry_raw_read reports first. The palette gets
 * the session's colours and marks; on a refusal it stays as it was, the canvas too, and the report is eleven zeros. The
 * session's numbers are zeros afterwards. */
uint64_t owlgantry_raw_payload_finish(uint64_t session[OWLGANTRY_SESSION_NUMBERS],
                                      const uint32_t registers[OWLGANTRY_REGISTERS], uint8_t *canvas,
                                      size_t canvas_length, uint32_t palette[OWLGANTRY_REGISTERS], uint64_t report[11]);

/* The same for a whole DCS sequence: introducer, header, payload and its end. Opening takes the length of the canvas
 * and writes nothing to it; pixel (0, 0) gets the background at `q`. Before an end, a finish answers 8. */
uint64_t owlgantry_raw_dcs_open(size_t width, size_t height, size_t repeats, size_t pixels, size_t stride,
                                size_t canvas_length, const uint32_t palette[OWLGANTRY_REGISTERS],
                                uint64_t session[OWLGANTRY_SESSION_NUMBERS], uint32_t registers[OWLGANTRY_REGISTERS]);

/* As owlgantry_raw_payload_feed, with the ends of owlgantry_dcs_how; the last number is the byte that cancelled or
 * interrupted. */
uint64_t owlgantry_raw_dcs_feed(uint64_t session[OWLGANTRY_SESSION_NUMBERS], uint32_t registers[OWLGANTRY_REGISTERS],
                                uint8_t *canvas, size_t canvas_length, const uint8_t *bytes, size_t bytes_length,
                                size_t allowance, uint64_t report[4]);

uint64_t owlgantry_raw_dcs_finish(uint64_t session[OWLGANTRY_SESSION_NUMBERS],
                                  const uint32_t registers[OWLGANTRY_REGISTERS], uint8_t *canvas, size_t canvas_length,
                                  uint32_t palette[OWLGANTRY_REGISTERS], uint64_t report[11]);

/* What a call is refused with (rules 5.9 and 5.10): each answers what the call answers that it is named after, on a
 * canvas of that length, and tells seven numbers, those of owlgantry_telling. They are zeros where the answer is 0. No
 * other memory is written, and none of the canvas is needed: the bytes are read again without painting. The session is
 * the one from before the refused call. */
uint64_t owlgantry_raw_payload_explain(const uint64_t session[OWLGANTRY_SESSION_NUMBERS],
                                       const uint32_t registers[OWLGANTRY_REGISTERS], size_t canvas_length,
                                       const uint8_t *bytes, size_t bytes_length, size_t allowance,
                                       uint64_t telling[7]);

uint64_t owlgantry_raw_payload_explain_finish(const uint64_t session[OWLGANTRY_SESSION_NUMBERS],
                                              const uint32_t registers[OWLGANTRY_REGISTERS], size_t canvas_length,
                                              uint64_t telling[7]);

uint64_t owlgantry_raw_dcs_explain(const uint64_t session[OWLGANTRY_SESSION_NUMBERS],
                                   const uint32_t registers[OWLGANTRY_REGISTERS], size_t canvas_length,
                                   const uint8_t *bytes, size_t bytes_length, size_t allowance, uint64_t telling[7]);

uint64_t owlgantry_raw_dcs_explain_finish(const uint64_t session[OWLGANTRY_SESSION_NUMBERS],
                                          const uint32_t registers[OWLGANTRY_REGISTERS], size_t canvas_length,
                                          uint64_t telling[7]);

uint64_t owlgantry_raw_read_explain(size_t width, size_t height, size_t repeats, size_t pixels, size_t stride,
                                    size_t canvas_length, const uint32_t palette[OWLGANTRY_REGISTERS],
                                    const uint8_t *bytes, size_t bytes_length, uint64_t telling[7]);

/* Writes the line of English that seven numbers tell to the front of `out`, without a newline or a NUL, as much of it as
 * there is room for, and answers how many bytes that is: 127 at most, and 0 where no refusal has the first number (rule
 * 5.11). */
uint64_t owlgantry_raw_words(const uint64_t telling[7], uint8_t *out, size_t out_length);

#ifdef __cplusplus
}
#endif

/* The same calls with structs. Each is one call of the raw function that it is named after. */

typedef struct {
    size_t width, height, repeats, pixels;
} owlgantry_limits;

typedef struct {
    uint8_t *bytes;
    size_t length;
    size_t stride;
} owlgantry_canvas;

typedef struct {
    uint64_t how, consumed, ink, byte;
} owlgantry_fed;

/* Right and bottom are the extent (rule 4.4): one past the last column and one past the last row that hold a painted
 * pixel, or 0 and 0 where nothing was painted. A crop to them loses no ink. Defined is how many registers the picture's
 * colour commands defined, each counted once, 0 to 256, whichever were marked before (rule 9.9).
 *
 * Declared width and height are the size that the sender declared, by raster commands, each 0 where it declared none
 * (rule 4.7). A sixel is six rows, so that a picture may be up to five rows taller than it was drawn: these say how
 * tall it was meant to be. They are below width and height also where more was drawn than was declared, and never above
 * them, unless a caller has changed a session's numbers.
 *
 * Held is how many of the picture's colour definitions had at least one value outside 0 to 100, which was held to 0 or
 * 100 (rule 9.10). A sender that takes bytes for percents is told by it. Nothing is refused for it. */
typedef struct {
    uint64_t width, height, right, bottom, ratio_kind, ratio, transparent, defined, declared_width, declared_height,
        held;
} owlgantry_picture;

/* The payload among the bytes. */
typedef struct {
    uint64_t place, length;
} owlgantry_part;

/* Where and why a call is refused (rules 5.9 and 5.10).
 *
 * Number is the refusal's. Has_place is 1 for 1 to 8, else 0: 9 and 11 to 14 judge the call and no byte. Place is the
 * offset of the refused byte among the bytes that the call was given: those before it are read, and it is the first
 * that is not. A command is refused at the byte that ends it, or else at the end of the bytes. A finish is given no
 * bytes and its place is 0, the end of what was fed before. Where a stream comes in pieces, a host adds what was
 * consumed before.
 *
 * Thing is one of owlgantry_thing, and a need is told for 4 to 7: so much of it was needed (more is 1: more than that),
 * and so much is allowed, or for 7 is on the canvas. So a host with a heap learns from 5 and 7 how wide or how high a
 * canvas the refused byte needs. */
typedef struct {
    uint64_t number, has_place, place, thing, needed, more, allowed;
} owlgantry_telling;

static inline owlgantry_limits owlgantry_limits_of(size_t width, size_t height, size_t repeats, size_t pixels) {
    owlgantry_limits limits;
    limits.width = width;
    limits.height = height;
    limits.repeats = repeats;
    limits.pixels = pixels;
    return limits;
}

static inline owlgantry_limits owlgantry_house_limits(void) { return owlgantry_limits_of(1024, 768, 1024, 786432); }

/* Those that icy_sixel 0.7.0 has built in. */
static inline owlgantry_limits owlgantry_crate_limits(void) {
    return owlgantry_limits_of(1000000, 1000000, 65535, 67108864);
}

/* The smallest allowance under these limits: 6 x width. */
static inline size_t owlgantry_least_allowance(owlgantry_limits limits) { return 6 * limits.width; }

static inline owlgantry_canvas owlgantry_canvas_of(uint8_t *bytes, size_t length, size_t stride) {
    owlgantry_canvas canvas;
    canvas.bytes = bytes;
    canvas.length = length;
    canvas.stride = stride;
    return canvas;
}

static inline owlgantry_fed owlgantry_fed_of(const uint64_t report[4]) {
    owlgantry_fed fed;
    fed.how = report[0];
    fed.consumed = report[1];
    fed.ink = report[2];
    fed.byte = report[3];
    return fed;
}

static inline owlgantry_picture owlgantry_picture_of(const uint64_t report[11]) {
    owlgantry_picture picture;
    picture.width = report[0];
    picture.height = report[1];
    picture.right = report[2];
    picture.bottom = report[3];
    picture.ratio_kind = report[4];
    picture.ratio = report[5];
    picture.transparent = report[6];
    picture.defined = report[7];
    picture.declared_width = report[8];
    picture.declared_height = report[9];
    picture.held = report[10];
    return picture;
}

static inline owlgantry_telling owlgantry_telling_of(const uint64_t told[7]) {
    owlgantry_telling telling;
    telling.number = told[0];
    telling.has_place = told[1];
    telling.place = told[2];
    telling.thing = told[3];
    telling.needed = told[4];
    telling.more = told[5];
    telling.allowed = told[6];
    return telling;
}

static inline void owlgantry_standard_palette(uint32_t out[OWLGANTRY_REGISTERS]) {
    owlgantry_raw_standard_palette(out);
}

/* A register's number; 255's above 255. */
static inline uint32_t owlgantry_register(const uint32_t palette[OWLGANTRY_REGISTERS], size_t index) {
    return palette[index < OWLGANTRY_REGISTERS ? index : OWLGANTRY_REGISTERS - 1];
}

/* A register's colour, red x 65,536 + green x 256 + blue. */
static inline uint32_t owlgantry_color(const uint32_t palette[OWLGANTRY_REGISTERS], size_t index) {
    return owlgantry_register(palette, index) % OWLGANTRY_MARK;
}

/* 1 where a register is marked, else 0. */
static inline int owlgantry_is_marked(const uint32_t palette[OWLGANTRY_REGISTERS], size_t index) {
    return owlgantry_register(palette, index) / OWLGANTRY_MARK % 2 == 1;
}

/* Gives a register another colour. Its mark stays, and nothing is left above it. There is no register above 255, and
 * nothing changes then. */
static inline void owlgantry_set_color(uint32_t palette[OWLGANTRY_REGISTERS], size_t index, uint32_t color) {
    if (index < OWLGANTRY_REGISTERS) {
        palette[index] = palette[index] / OWLGANTRY_MARK % 2 * OWLGANTRY_MARK + color % OWLGANTRY_MARK;
    }
}

static inline uint64_t owlgantry_read(owlgantry_limits limits, owlgantry_canvas canvas, const void *bytes, size_t count,
                                      uint32_t palette[OWLGANTRY_REGISTERS], owlgantry_picture *picture,
                                      owlgantry_part *part) {
    uint64_t report[13];
    uint64_t refusal = owlgantry_raw_read(limits.width, limits.height, limits.repeats, limits.pixels, canvas.stride,
                                          canvas.bytes, canvas.length, (const uint8_t *)bytes, count, palette, report);
    *picture = owlgantry_picture_of(report);
    part->place = report[11];
    part->length = report[12];
    return refusal;
}

static inline uint64_t owlgantry_copy(owlgantry_canvas canvas, size_t width, size_t height, uint8_t *out,
                                      size_t length) {
    return owlgantry_raw_copy(canvas.bytes, canvas.length, canvas.stride, width, height, out, length);
}

static inline uint64_t owlgantry_payload_open(owlgantry_session *session, owlgantry_limits limits,
                                              owlgantry_canvas canvas, uint32_t p1, uint32_t p2,
                                              const uint32_t palette[OWLGANTRY_REGISTERS]) {
    return owlgantry_raw_payload_open(limits.width, limits.height, limits.repeats, limits.pixels, canvas.stride, p1, p2,
                                      canvas.bytes, canvas.length, palette, session->numbers, session->registers);
}

static inline uint64_t owlgantry_payload_feed(owlgantry_session *session, owlgantry_canvas canvas, const void *bytes,
                                              size_t count, size_t allowance, owlgantry_fed *fed) {
    uint64_t report[4];
    uint64_t refusal = owlgantry_raw_payload_feed(session->numbers, session->registers, canvas.bytes, canvas.length,
                                                  (const uint8_t *)bytes, count, allowance, report);
    *fed = owlgantry_fed_of(report);
    return refusal;
}

static inline uint64_t owlgantry_payload_finish(owlgantry_session *session, owlgantry_canvas canvas,
                                                uint32_t palette[OWLGANTRY_REGISTERS], owlgantry_picture *picture) {
    uint64_t report[11];
    uint64_t refusal = owlgantry_raw_payload_finish(session->numbers, session->registers, canvas.bytes, canvas.length,
                                                    palette, report);
    *picture = owlgantry_picture_of(report);
    return refusal;
}

static inline uint64_t owlgantry_dcs_open(owlgantry_session *session, owlgantry_limits limits, owlgantry_canvas canvas,
                                          const uint32_t palette[OWLGANTRY_REGISTERS]) {
    return owlgantry_raw_dcs_open(limits.width, limits.height, limits.repeats, limits.pixels, canvas.stride,
                                  canvas.length, palette, session->numbers, session->registers);
}

static inline uint64_t owlgantry_dcs_feed(owlgantry_session *session, owlgantry_canvas canvas, const void *bytes,
                                          size_t count, size_t allowance, owlgantry_fed *fed) {
    uint64_t report[4];
    uint64_t refusal = owlgantry_raw_dcs_feed(session->numbers, session->registers, canvas.bytes, canvas.length,
                                              (const uint8_t *)bytes, count, allowance, report);
    *fed = owlgantry_fed_of(report);
    return refusal;
}

static inline uint64_t owlgantry_dcs_finish(owlgantry_session *session, owlgantry_canvas canvas,
                                            uint32_t palette[OWLGANTRY_REGISTERS], owlgantry_picture *picture) {
    uint64_t report[11];
    uint64_t refusal =
        owlgantry_raw_dcs_finish(session->numbers, session->registers, canvas.bytes, canvas.length, palette, report);
    *picture = owlgantry_picture_of(report);
    return refusal;
}

/* Where and why a call is refused. Each of these takes what the call takes, answers what the call would answer, and
 * changes nothing. The session must be the one from BEFORE the refused call, since a refusal fails it: a session may
 * be copied, so a host that wants its refusals explained copies it before a call, and asks the copy where the call was
 * refused. Of the canvas only the length counts. Explaining goes byte by byte and takes many times as long as reading,
 * so it is for the one call that was refused. */
static inline uint64_t owlgantry_payload_explain(const owlgantry_session *session, owlgantry_canvas canvas,
                                                 const void *bytes, size_t count, size_t allowance,
                                                 owlgantry_telling *telling) {
    uint64_t told[7];
    uint64_t refusal = owlgantry_raw_payload_explain(session->numbers, session->registers, canvas.length,
                                                     (const uint8_t *)bytes, count, allowance, told);
    *telling = owlgantry_telling_of(told);
    return refusal;
}

static inline uint64_t owlgantry_payload_explain_finish(const owlgantry_session *session, owlgantry_canvas canvas,
                                                        owlgantry_telling *telling) {
    uint64_t told[7];
    uint64_t refusal =
        owlgantry_raw_payload_explain_finish(session->numbers, session->registers, canvas.length, told);
    *telling = owlgantry_telling_of(told);
    return refusal;
}

static inline uint64_t owlgantry_dcs_explain(const owlgantry_session *session, owlgantry_canvas canvas,
                                             const void *bytes, size_t count, size_t allowance,
                                             owlgantry_telling *telling) {
    uint64_t told[7];
    uint64_t refusal = owlgantry_raw_dcs_explain(session->numbers, session->registers, canvas.length,
                                                 (const uint8_t *)bytes, count, allowance, told);
    *telling = owlgantry_telling_of(told);
    return refusal;
}

static inline uint64_t owlgantry_dcs_explain_finish(const owlgantry_session *session, owlgantry_canvas canvas,
                                                    owlgantry_telling *telling) {
    uint64_t told[7];
    uint64_t refusal = owlgantry_raw_dcs_explain_finish(session->numbers, session->registers, canvas.length, told);
    *telling = owlgantry_telling_of(told);
    return refusal;
}

/* Reading leaves the palette as it was where it is refused, so the same arguments can be asked afterwards. Places count
 * whatever stands before the introducer. */
static inline uint64_t owlgantry_read_explain(owlgantry_limits limits, owlgantry_canvas canvas, const void *bytes,
                                              size_t count, const uint32_t palette[OWLGANTRY_REGISTERS],
                                              owlgantry_telling *telling) {
    uint64_t told[7];
    uint64_t refusal =
        owlgantry_raw_read_explain(limits.width, limits.height, limits.repeats, limits.pixels, canvas.stride,
                                   canvas.length, palette, (const uint8_t *)bytes, count, told);
    *telling = owlgantry_telling_of(told);
    return refusal;
}

/* Writes a telling's line of English with a NUL, such as `refused 5 at byte 4711: 1037 columns are needed, 1024
 * allowed`, and answers its length without the NUL. OWLGANTRY_LINE bytes have room for every line; in fewer it is
 * truncated, and in none nothing is written. A telling of the number alone has a line too. */
static inline size_t owlgantry_words(const owlgantry_telling *telling, char *out, size_t size) {
    uint64_t told[7];
    size_t length;
    if (size == 0) {
        return 0;
    }
    told[0] = telling->number;
    told[1] = telling->has_place;
    told[2] = telling->place;
    told[3] = telling->thing;
    told[4] = telling->needed;
    told[5] = telling->more;
    told[6] = telling->allowed;
    length = (size_t)owlgantry_raw_words(told, (uint8_t *)out, size - 1);
    out[length] = '\0';
    return length;
}

#endif
