/* Measures how much stack each call of the library takes, over texts, frames, lines, states and tariffs that take the most, with the
 * limits of the desk and with those of the board: each call runs on a stack of its own that was painted before, and the lowest byte
 * that lost its paint is looked up after. Fails where a call takes more than the header says to count on. */
#define _XOPEN_SOURCE 700
#include <stdio.h>
#include <string.h>
#include <ucontext.h>

#include "dillplatter.h"

#define ROOM (2 << 20)
#define PAINT 0xA5
#define WIDTH profile->width
#define WORDS DILLPLATTER_WINDOW_WORDS(WIDTH)

/* The desk and the board: the opening, the largest W, and a rule of the most references, so many times `+t(a[3*i+9])` in its sum. */
static const struct {
    const char *name;
    dillplatter_result (*open)(const uint8_t *, size_t, uint32_t, int32_t *, size_t);
    dillplatter_told (*open_at)(dillplatter_state *, const uint8_t *, size_t, uint32_t, int32_t *, size_t);
    uint32_t width;
    const char *begin;
    size_t times;
    uint32_t frames;
} profiles[] = {
    {"desk", dillplatter_open, dillplatter_open_at, DILLPLATTER_WIDTH_MOST, "events a; notes t; t(a[i])", 30, 63},
    {"board", dillplatter_open_board, dillplatter_open_board_at, DILLPLATTER_BOARD_WIDTH_MOST, "events a; notes t; !t(a[i])", 6,
     DILLPLATTER_BOARD_FRAMES_MOST},
}, *profile = profiles;

static uint8_t stack[ROOM];
static ucontext_t here, there;

/* The arguments and results of the calls, away from the stack that is measured. */
static uint8_t text[DILLPLATTER_TEXT_MOST], frames[DILLPLATTER_FRAME_BUFFER], report[DILLPLATTER_REPORT_BYTES];
static uint8_t line[DILLPLATTER_LINE_BYTES];
static const uint8_t *given;
static size_t text_len, frames_len, given_len;
static int32_t window[DILLPLATTER_WINDOW_WORDS(DILLPLATTER_WIDTH_MOST)];
static dillplatter_reading reading;
static dillplatter_result result;
static dillplatter_told told;
static dillplatter_part part;
static dillplatter_raised raised;
static dillplatter_lowered lowered;
static dillplatter_tariff tariff;
static dillplatter_charged charged;

static void nothing(void) {}
static void do_read(void) { reading = dillplatter_read(text, text_len, frames, sizeof frames); }
static void do_open(void) { result = profile->open(frames, frames_len, WIDTH, window, WORDS); }
static void do_feed(void) { result = dillplatter_feed(result.state, window, WORDS, line, sizeof line); }
static void do_pull(void) { result = dillplatter_pull(result.state, window, WORDS, report, sizeof report); }
static void do_open_at(void) { told = profile->open_at(&result.state, frames, frames_len, WIDTH, window, WORDS); }
static void do_feed_at(void) { told = dillplatter_feed_at(&result.state, window, WORDS, line, sizeof line); }
static void do_pull_at(void) { told = dillplatter_pull_at(&result.state, window, WORDS, report, sizeof report); }
static void do_view(void) { dillplatter_view(&part); }
static void do_raise(void) { raised = dillplatter_raise(given, given_len); }
static void do_lower(void) { lowered = dillplatter_lower(given, given_len); }
static void do_charge(void) { charged = dillplatter_charge(result.state, tariff); }

/* The bytes of stack that a function takes. */
static size_t taken(void (*call)(void)) {
    size_t low = 0;
    memset(stack, PAINT, sizeof stack);
    getcontext(&there);
    there.uc_stack.ss_sp = stack;
    there.uc_stack.ss_size = sizeof stack;
    there.uc_link = &here;
    makecontext(&there, call, 0);
    swapcontext(&here, &there);
    while (low < sizeof stack && stack[low] == PAINT)
        low++;
    return sizeof stack - low;
}

/* The same without what a function that does nothing takes. */
static size_t cost(void (*call)(void)) { return taken(call) - taken(nothing); }

static void more(size_t *most, size_t now) {
    if (*most < now)
        *most = now;
}

static void put(const char *part, size_t times) {
    size_t len = strlen(part);
    for (; times > 0 && text_len + len <= sizeof text; times--) {
        memcpy(text + text_len, part, len);
        text_len += len;
    }
}

/* A rule's text with `times` groups, as many as fit. */
static void nest(const char *open, const char *inner, const char *close, const char *back, size_t times) {
    text_len = 0;
    put("events a; notes t; ", 1);
    put(open, times);
    put(inner, 1);
    put(close, times);
    put(back, 1);
}

/* Groups, and how deep each makes the rest. */
static const struct {
    const char *open, *inner, *close, *back;
    size_t depth;
} groups[] = {
    {"{", "t(a[i])=0", "}", "", 1},
    {"!", "t(a[i])=0", "", "", 1},
    {"(", "t(a[i])", ")", "=0", 1},
    {"abs(", "t(a[i])", ")", "=0", 1},
    {"0+(", "t(a[i])", ")", "=0", 1},
    {"0*(", "t(a[i])", ")", "=0", 1},
    {"0=0->", "t(a[i])=0", "", "", 1},
    {"0=0||{", "t(a[i])=0", "}", "", 1},
    {"0=0&&!", "t(a[i])=0", "", "", 1},
    {"!{", "t(a[i])=0", "}", "", 2},
    {"0=0->{", "t(a[i])=0", "}", "", 2},
    {"0=0->!", "t(a[i])=0", "", "", 2},
    {"0=0||0=0&&{", "t(a[i])=0", "}", "", 1},
    {"0+0*(", "t(a[i])", ")", "=0", 1},
    {"0=0||0=0&&!", "t(a[i])=0", "", "", 1},
};

/* Reading, with groups to a depth. */
static size_t reading_most(size_t depth) {
    size_t most = 0;
    for (size_t k = 0; k < sizeof groups / sizeof *groups; k++) {
        nest(groups[k].open, groups[k].inner, groups[k].close, groups[k].back, depth / groups[k].depth);
        more(&most, cost(do_read));
    }
    return most;
}

/* The rule with the most references: 32 in 63 frames, on the board 8 in 16. */
static int widest(void) {
    text_len = 0;
    put(profile->begin, 1);
    put("+t(a[3*i+9])", profile->times);
    put(">t(a[i])", 1);
    do_read();
    frames_len = DILLPLATTER_FRAME_BYTES * (size_t)reading.frames;
    return reading.answer == DILLPLATTER_READ && reading.frames == profile->frames;
}

/* Feeding and pulling, with verdicts both true and false; by a state, and by a pointer to it. */
static void running_most(size_t feeding[2], size_t pulling[2]) {
    for (int k = 0; k < 400; k++) {
        const int at = k / 2 % 2;
        const int32_t notes[4] = {k % 2 == 0 ? -1 : 1, 0, 0, 0};
        dillplatter_line(line, 0, notes);
        more(&feeding[at], cost(at ? do_feed_at : do_feed));
        more(&pulling[at], cost(at ? do_pull_at : do_pull));
    }
}

/* Viewing a buffer of so many bytes. */
static size_t viewing(size_t len) {
    part.bytes = report;
    part.len = len;
    return cost(do_view);
}

/* Raising or lowering a line. */
static size_t converting(void (*call)(void), const char *one) {
    given = (const uint8_t *)one;
    given_len = strlen(one);
    return cost(call);
}

/* Old lines that are raised or refused with 23, lines that are lowered or refused with 15, 24 and 25. */
static void converting_most(size_t *raising, size_t *lowering) {
    static const char *const old_lines[] = {"ab80007FFFffff", "ab80007FFFfff", "ab80007FFFfffg"};
    static const char *const lines[] = {"abffff800000007FFFffffffff00000000", "abffff800000007FFFffffffff0000000",
                                        "abffff800000007FFFffffffff0000000g", "abffff800000007FFFffffffff00000001",
                                        "abffff7FFF00007FFFffffffff00000000", "abffff800000007FFF0000800000000000"};
    for (size_t k = 0; k < sizeof old_lines / sizeof *old_lines; k++)
        more(raising, converting(do_raise, old_lines[k]));
    for (size_t k = 0; k < sizeof lines / sizeof *lines; k++)
        more(lowering, converting(do_lower, lines[k]));
}

/* Charging what was pulled, and with 28, 29 and 12. Whether each answers so. */
static int charging_most(size_t *charging) {
    static const dillplatter_tariff good = {4, {1, 2, 3, 4}, {10000, 1, 9999, 0}, 10000, 100};
    static const uint32_t numbers[] = {DILLPLATTER_NO_REFUSAL, DILLPLATTER_TARIFF_BANDS, DILLPLATTER_TARIFF_PRICES,
                                       DILLPLATTER_BAD_STATE};
    int as_wanted = 1;
    for (size_t k = 0; k < sizeof numbers / sizeof *numbers; k++) {
        tariff = good;
        if (numbers[k] == DILLPLATTER_TARIFF_BANDS)
            tariff.lasts[3] = 3;
        if (numbers[k] == DILLPLATTER_TARIFF_PRICES)
            tariff.surcharge = 101;
        if (numbers[k] == DILLPLATTER_BAD_STATE)
            result.state.next++;
        more(charging, cost(do_charge));
        as_wanted &= charged.number == numbers[k];
    }
    return as_wanted;
}

static int within(const char *name, size_t bytes, size_t limit) {
    printf("%s, %s: %zu bytes, at most %zu\n", profile->name, name, bytes, limit);
    return bytes <= limit;
}

/* Reading, to the depth that a rule may have and to any. */
static int readings(void) {
    return within("read, any text", reading_most(sizeof text), DILLPLATTER_STACK_READ_ANY) &
           within("read, depth at most 16", reading_most(16), DILLPLATTER_STACK_READ);
}

/* Opening, feeding and pulling. */
static int runs(void) {
    size_t feeding[2] = {0, 0}, pulling[2] = {0, 0};
    int good = widest();
    good &= within("open, by a pointer", cost(do_open_at), DILLPLATTER_STACK_OPEN);
    good &= within("open", cost(do_open), DILLPLATTER_STACK_OPEN);
    running_most(feeding, pulling);
    good &= within("feed", feeding[0], DILLPLATTER_STACK_FEED);
    good &= within("feed, by a pointer", feeding[1], DILLPLATTER_STACK_FEED);
    good &= within("pull", pulling[0], DILLPLATTER_STACK_PULL);
    good &= within("pull, by a pointer", pulling[1], DILLPLATTER_STACK_PULL);
    good &= result.state.profile == (uint32_t)(profile - profiles);
    return good & (told.number == 0) & (result.state.totals.held > 0) & (result.state.totals.failed > 0);
}

/* Viewing, raising, lowering and charging. */
static int others(void) {
    size_t raising = 0, lowering = 0, charging = 0;
    int good = within("view", viewing(sizeof report), DILLPLATTER_STACK_VIEW);
    good &= within("view, refused", viewing(0), DILLPLATTER_STACK_VIEW);
    converting_most(&raising, &lowering);
    good &= within("raise", raising, DILLPLATTER_STACK_RAISE);
    good &= within("lower", lowering, DILLPLATTER_STACK_LOWER);
    good &= charging_most(&charging);
    return good & within("charge", charging, DILLPLATTER_STACK_CHARGE);
}

int main(void) {
    const size_t count = sizeof profiles / sizeof *profiles;
    int good = readings();
    for (profile = profiles; profile < profiles + count; profile++) {
        good &= runs();
        good &= others();
    }
    return !good;
}
