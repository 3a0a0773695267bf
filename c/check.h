/* What the tests share: counting, lent memory, and reading in pieces. */
#ifndef CHECK_H
#define CHECK_H

#include "owlgantry.h"

/* Counts a check; a difference is printed with the name of its case. */
void same(const char *name, const char *what, uint64_t got, uint64_t wanted);
void holds(const char *name, const char *what, int truth);
void summary(void);
int found_differences(void);

/* Memory of a size that ends where a guard page begins. */
void *lend(size_t size);

/* SplitMix64: the next number of a seed. */
uint64_t any_of(uint64_t *seed);

/* The fill pattern: each byte of a canvas before a reading, by its place. */
uint8_t before(size_t place);
owlgantry_canvas fresh_canvas(size_t stride, size_t rows);
/* The canvas is as fresh_canvas made it, outside an area of this size. */
int untouched_outside(owlgantry_canvas canvas, size_t width, size_t height);

/* Both kinds of session. */
typedef enum { PAYLOAD, DCS } kind;
uint64_t open_session(kind which, owlgantry_session *session, owlgantry_limits limits, owlgantry_canvas canvas,
                      const uint32_t palette[OWLGANTRY_REGISTERS]);
uint64_t feed_session(kind which, owlgantry_session *session, owlgantry_canvas canvas, const void *bytes, size_t count,
                      size_t allowance, owlgantry_fed *fed);
uint64_t finish_session(kind which, owlgantry_session *session, owlgantry_canvas canvas,
                        uint32_t palette[OWLGANTRY_REGISTERS], owlgantry_picture *picture);
uint64_t explain_feed(kind which, const owlgantry_session *session, owlgantry_canvas canvas, const void *bytes,
                      size_t count, size_t allowance, owlgantry_telling *telling);
uint64_t explain_finish(kind which, const owlgantry_session *session, owlgantry_canvas canvas,
                        owlgantry_telling *telling);

/* What the calls of one session came to: the last one's answer, and the sums of those that were not refused. */
typedef struct {
    uint64_t refusal;
    owlgantry_fed last;
    uint64_t consumed, ink;
} progress;

/* Feeds pieces of `piece` bytes (0: all at once), the unread ones first, until all are read, an end or a refusal. */
progress feed_in_pieces(kind which, owlgantry_session *session, owlgantry_canvas canvas, const char *bytes,
                        size_t count, size_t piece, size_t allowance);

void test_examples(void);
void test_refusals(void);
void test_calls(void);
void test_marks(void);
void test_held(void);
void test_damage(void);
void test_tellings(void);

#endif
