/* Set-ups and calls that are refused, each with its number. */
#include "../../include/mt.h"

#include <stdio.h>
#include <string.h>

struct row {
    const char *title;
    struct mt_settings settings;
    const char *text;
    uint32_t rule;
    size_t place;
};

static const struct row rows[] = {
    {"a march", {32, 0, 0, 8, 0, 0}, "{*(w0); u(r0,w1); d(r1,w0)}", MT_SET_UP, 0},
    {"words of 8 bits", {8, MT_KEEP_WORDS, 0, 8, 255, 0}, "checkerboard", MT_SET_UP, 0},
    {"words of 16 bits", {16, MT_KEEP_WORDS, 0, 8, 65535, 0}, "walk-path", MT_SET_UP, 0},
    {"words of 32 bits", {32, MT_FILL_WORDS, 0, 8, 4294967295u, 0}, "march-c-minus", MT_SET_UP, 0},
    {"words of 64 bits", {64, MT_FILL_WORDS, 0, 8, UINT64_MAX, 0}, "mats-plus", MT_SET_UP, 0},
    {"transparent Galpat", {32, MT_KEEP_WORDS, 0, 8, 0, 0}, "transparent-galpat", MT_SET_UP, 0},
    {"one word", {8, 0, 0, 1, 255, 255}, "checkerboard", MT_SET_UP, 0},
    {"64 words up to the last address", {64, 1, 4294967231u, 64, UINT64_MAX, UINT64_MAX}, "galpat", MT_SET_UP, 0},
    {"a width of 24", {24, 0, 0, 8, 0, 0}, "galpat", MT_BAD_WIDTH, 0},
    {"a policy of 2", {32, 2, 0, 8, 0, 0}, "galpat", MT_BAD_POLICY, 0},
    {"no word", {32, 0, 0, 0, 0, 0}, "galpat", MT_BAD_COUNT, 0},
    {"65 words", {32, 0, 0, 65, 0, 0}, "galpat", MT_BAD_COUNT, 0},
    {"past the addresses", {32, 0, 4294967232u, 64, 0, 0}, "galpat", MT_BAD_ADDRESSES, 0},
    {"a background too large", {8, 0, 0, 8, 256, 0}, "galpat", MT_BAD_BACKGROUND, 0},
    {"a fill too large", {16, 0, 0, 8, 0, 65536}, "galpat", MT_BAD_FILL, 0},
    {"the width comes before the count", {24, 0, 0, 65, 0, 0}, "galpat", MT_BAD_WIDTH, 0},
    {"transparent, and filled", {32, 1, 0, 8, 0, 0}, "transparent-galpat", MT_TRANSPARENT_FILL, 0},
    {"an unknown name", {32, 0, 0, 8, 0, 0}, "march-b", MT_MARCH_SPELLING, 1},
    {"no closing brace", {32, 0, 0, 8, 0, 0}, "{*(w0)", MT_MARCH_SPELLING, 7},
    {"a read first", {32, 0, 0, 8, 0, 0}, "{*(r0,w0,r0,w1,r1)}", MT_MARCH_READS_FIRST, 4},
    {"a wrong expectation", {32, 0, 0, 8, 0, 0}, "{*(w0,r1,w1,r1)}", MT_MARCH_EXPECTATION, 7},
    {"one value only", {32, 0, 0, 8, 0, 0}, "{*(w0,r0)}", MT_MARCH_ONE_VALUE, 10},
    {"nine operations", {32, 0, 0, 8, 0, 0}, "{*(w0,r0,r0,r0,r0,r0,r0,w1,r1)}", MT_MARCH_TOO_LONG, 28},
};

static int failures;

static void expect(const char *title, int holds) {
    if (!holds) failures++, printf("%s: not as expected\n", title);
}

static void set_ups(void) {
    for (size_t i = 0; i < sizeof rows / sizeof rows[0]; i++) {
        const struct row *row = &rows[i];
        struct mt_test test, before;
        memset(&test, 0xa5, sizeof test);
        before = test;
        struct mt_refusal refusal = mt_set_up(&test, &row->settings, row->text, strlen(row->text));
        expect(row->title, refusal.rule == row->rule && refusal.place == row->place);
        if (row->rule != MT_SET_UP) expect(row->title, !memcmp(&test, &before, sizeof test));
    }
}

static void long_text(void) {
    static char text[MT_TEXT + 1];
    struct mt_settings settings = {.width = 32, .count = 8};
    struct mt_test test = {0};
    memset(text, ' ', sizeof text);
    memcpy(text, "{*(w0,r0,w1,r1)}", 16);
    expect("448 bytes", mt_set_up(&test, &settings, text, MT_TEXT).rule == MT_SET_UP);
    expect("449 bytes", mt_set_up(&test, &settings, text, MT_TEXT + 1).rule == MT_LONG_TEXT);
}

/* Each number of a state that no test has. */
static void spoilt(void) {
    struct mt_settings settings = {.width = 8, .first = 4, .count = 2};
    struct mt_test good = {0}, test;
    struct mt_access access = {.word = 7, .address = 9};
    expect("set up", mt_set_up(&good, &settings, "checkerboard", 12).rule == MT_SET_UP);
    test = good, test.settings.width = 9;
    expect("a spoilt width", mt_due(&test, &access) == MT_SPOILT);
    test = good, test.settings.count = 65;
    expect("a spoilt count", mt_next(&test, 0, &access) == MT_SPOILT);
    test = good, test.length = MT_TEXT + 1;
    expect("a spoilt length", mt_break_off(&test, &access) == MT_SPOILT);
    test = good, test.text[0] = 'C';
    expect("a spoilt text", mt_due(&test, &access) == MT_SPOILT);
    test = good, test.made = mt_accesses(&good) + 1;
    expect("a spoilt count of accesses", mt_due(&test, &access) == MT_SPOILT);
    test = good, test.differs = 2;
    expect("a spoilt verdict", mt_due(&test, &access) == MT_SPOILT);
    test = good, test.made = 3, test.broken = 1;
    expect("broken off when it cannot be", mt_due(&test, &access) == MT_SPOILT);
    test = good, test.made = 1, test.saved[0] = 256;
    expect("a spoilt word", mt_due(&test, &access) == MT_SPOILT && mt_accesses(&test) == 0 && !mt_may_break_off(&test));
    expect("the access stays", access.word == 7 && access.address == 9);
}

static void answers(void) {
    struct mt_settings settings = {.width = 8, .first = 4, .count = 2};
    struct mt_test test = {0};
    struct mt_access access = {0};
    expect("set up", mt_set_up(&test, &settings, "checkerboard", 12).rule == MT_SET_UP);
    expect("12 accesses", mt_accesses(&test) == 12);
    expect("the first access", mt_due(&test, &access) == MT_READ && access.address == 4);
    expect("no word", mt_next(&test, 256, &access) == MT_NO_WORD);
    expect("still due", mt_due(&test, &access) == MT_READ && access.address == 4);
    expect("nothing is written yet", mt_may_break_off(&test) == 1 && mt_break_off(&test, &access) == MT_BROKEN_OFF);
    expect("broken off once", mt_break_off(&test, &access) == MT_TOO_LATE && mt_due(&test, &access) == MT_BROKEN_OFF);
}

/* A difference that was seen is reported, though the test is then broken off. */
static void seen_difference(void) {
    struct mt_settings settings = {.width = 8, .first = 4, .count = 2};
    struct mt_test test = {0};
    struct mt_access access = {0};
    expect("set up", mt_set_up(&test, &settings, "checkerboard", 12).rule == MT_SET_UP);
    expect("the words are saved", mt_next(&test, 7, &access) == MT_READ && mt_next(&test, 9, &access) == MT_WRITE);
    expect("0 and ff are written", mt_next(&test, 0, &access) == MT_WRITE && mt_next(&test, 0, &access) == MT_READ);
    expect("1 is read, and not 0", mt_next(&test, 1, &access) == MT_READ && access.address == 5);
    expect("broken off", mt_break_off(&test, &access) == MT_WRITE && access.address == 4 && access.word == 7);
    expect("the second word", mt_next(&test, 0, &access) == MT_WRITE && access.address == 5 && access.word == 9);
    expect("the difference", mt_next(&test, 0, &access) == MT_FAIL && mt_due(&test, &access) == MT_FAIL);
}

int main(void) {
    set_ups();
    long_text();
    spoilt();
    answers();
    seen_difference();
    printf("%zu set-ups, %d not as expected\n", sizeof rows / sizeof rows[0], failures);
    return failures != 0;
}
