/*
 * Tests of memory words in slices, for a caller that makes the accesses.
 *
 * The library never touches the memory under test. It says which access comes next, and the caller passes on what a read
 * answered. It allocates nothing and keeps nothing between two calls: the whole test is in the caller's `struct mt_test`.
 *
 *     struct mt_access access;
 *     uint32_t reply = mt_due(&test, &access);
 *     while (reply == MT_READ || reply == MT_WRITE) {
 *         uint64_t answer = 0;
 *         if (reply == MT_READ)
 *             answer = ram[access.address];
 *         else
 *             ram[access.address] = (uint32_t)access.word;
 *         reply = mt_next(&test, answer, &access);
 *     }
 *
 * The caller locks interrupts from the first access to the end of the test, or to its last write if it is broken off: between
 * two accesses no one else may touch the words. Each access is to be one volatile access of the memory, and no copy of it.
 *
 * The caller has to see to it that pointers are good, do not overlap, and point to values that were written; that `length` is
 * that of the text; and that a test is in one call at a time. The values may be any numbers: bad ones are refused.
 */
#ifndef MT_H
#define MT_H

#include <stddef.h>
#include <stdint.h>

/* Checks a fact about the target when it is compiled. */
#if defined(__cplusplus)
#define MT_ASSERT(fact, text) static_assert(fact, text)
#elif defined(__STDC_VERSION__) && __STDC_VERSION__ >= 201112L
#define MT_ASSERT(fact, text) _Static_assert(fact, text)
#else
#define MT_ASSERT(fact, text) extern const char mt_assert[(fact) ? 1 : -1]
#endif

/* The most words that a slice has, and the most bytes of an algorithm's text. */
#define MT_WORDS 64
#define MT_TEXT 448

/* How many bytes a test has. */
#define MT_TEST_SIZE 1008

/* The version of the project that this header is of. It is the one in the file VERSION. */
#define MT_VERSION_MAJOR 1U
#define MT_VERSION_MINOR 0U
#define MT_VERSION_PATCH 0U

/* The policies: the words are as they were after the test, or hold the fill. */
#define MT_KEEP_WORDS UINT32_C(0)
#define MT_FILL_WORDS UINT32_C(1)

/* What a test is to be. */
struct mt_settings {
    uint32_t width;      /* bits of a word: 8, 16, 32 or 64 */
    uint32_t policy;     /* MT_KEEP_WORDS or MT_FILL_WORDS */
    uint32_t first;      /* the address of the first word, counted in words */
    uint32_t count;      /* how many words, 1 to MT_WORDS; first + count is below 2^32 */
    uint64_t background; /* the word that is written beside its complement; 0 is usual */
    uint64_t fill;       /* the word that MT_FILL_WORDS leaves */
};

/* A test under way. Its fields are the library's: a caller copies or drops the whole, and changes none of them. */
struct mt_test {
    struct mt_settings settings;
    uint32_t length;
    uint32_t made;
    uint32_t differs;
    uint32_t broken;
    uint8_t text[MT_TEXT];
    uint64_t saved[MT_WORDS];
};

/* An access. `word` is that of a write; at a read it has no meaning. */
struct mt_access {
    uint64_t word;
    uint32_t address;
};

/* Why no test was set up: the number of the rule, and of a march the place in its text, counted in bytes from 1. */
struct mt_refusal {
    uint32_t rule;
    size_t place;
};

MT_ASSERT(sizeof(size_t) == 8, "the length of a text has 64 bits");
MT_ASSERT(sizeof(struct mt_settings) == 32, "the layout of mt_settings");
MT_ASSERT(sizeof(struct mt_test) == MT_TEST_SIZE, "the layout of mt_test");
MT_ASSERT(offsetof(struct mt_test, text) == 48, "the layout of mt_test");
MT_ASSERT(offsetof(struct mt_test, saved) == 496, "the layout of mt_test");
MT_ASSERT(sizeof(struct mt_access) == 16, "the layout of mt_access");
MT_ASSERT(sizeof(struct mt_refusal) == 16, "the layout of mt_refusal");

/* The rules of a set-up. If several are broken, the one with the least number is reported. */
#define MT_SET_UP UINT32_C(0)             /* none is broken */
#define MT_BAD_WIDTH UINT32_C(1)          /* the width is none of 8, 16, 32 and 64 */
#define MT_BAD_POLICY UINT32_C(2)         /* the policy is none of the two */
#define MT_BAD_COUNT UINT32_C(3)          /* no word, or more than MT_WORDS */
#define MT_BAD_ADDRESSES UINT32_C(4)      /* first + count is 2^32 or more */
#define MT_BAD_BACKGROUND UINT32_C(5)     /* the background is no word of the width */
#define MT_BAD_FILL UINT32_C(6)           /* the fill is no word of the width, whatever the policy is */
#define MT_LONG_TEXT UINT32_C(7)          /* the text has more than MT_TEXT bytes */
#define MT_TRANSPARENT_FILL UINT32_C(8)   /* transparent-galpat with MT_FILL_WORDS */
#define MT_MARCH_SPELLING UINT32_C(9)     /* the text is no name, and no march */
#define MT_MARCH_TOO_LONG UINT32_C(10)    /* more than 16 elements, or 8 operations in one */
#define MT_MARCH_READS_FIRST UINT32_C(11) /* a read comes before the first write */
#define MT_MARCH_EXPECTATION UINT32_C(12) /* a read expects what the last write did not write */
#define MT_MARCH_ONE_VALUE UINT32_C(13)   /* no read expects 0, or none expects 1 */

/* What the calls reply. Replies, rules and policies are of one type, uint32_t. */
#define MT_READ UINT32_C(1)       /* read the word at access.address, and pass it on */
#define MT_WRITE UINT32_C(2)      /* write access.word to access.address; the answer is not looked at */
#define MT_PASS UINT32_C(3)       /* it has ended: each checked read answered its word */
#define MT_FAIL UINT32_C(4)       /* it has ended, or was broken off: a checked read answered another word */
#define MT_BROKEN_OFF UINT32_C(5) /* it was broken off: no checked read before had answered another word */
#define MT_NO_WORD UINT32_C(6)    /* the answer is no word of the width; the access is still due */
#define MT_TOO_LATE UINT32_C(7)   /* it cannot be broken off; it goes on as it was */
#define MT_SPOILT UINT32_C(8)     /* the state is none of a test; it was left as it was */

#ifdef __cplusplus
extern "C" {
#endif

/*
 * Sets a test up. `text` is a name (checkerboard, walk-path, galpat, transparent-galpat, march-c-minus, mats-plus) or a march,
 * as "{*(w0); u(r0,w1); d(r1,w0)}". If a rule is broken, `test` is left as it was.
 */
struct mt_refusal mt_set_up(struct mt_test *test, const struct mt_settings *settings, const char *text, size_t length);

/* Gives the access that is due, or says how the test has ended. The test stays as it is. */
uint32_t mt_due(const struct mt_test *test, struct mt_access *access);

/* Takes what the access that was due answered, and gives the next one, or says how the test has ended. */
uint32_t mt_next(struct mt_test *test, uint64_t answer, struct mt_access *access);

/* Whether the test may be broken off now: 1, or 0. It may while it keeps the words, up to the writes that end it. */
uint32_t mt_may_break_off(const struct mt_test *test);

/*
 * Breaks the test off, and gives the first of the writes of the saved words, or MT_BROKEN_OFF if nothing was written yet.
 * `mt_next` gives the others, and then MT_FAIL if a checked read had answered another word, else MT_BROKEN_OFF. The caller
 * makes these writes: no reply says that the memory took them. To try a test that was broken off again, set it up anew.
 */
uint32_t mt_break_off(struct mt_test *test, struct mt_access *access);

/* How many accesses the whole test has, or 0 for a spoilt state. A lock lasts for as many accesses. */
uint32_t mt_accesses(const struct mt_test *test);

#ifdef __cplusplus
}
#endif

#endif
