/* Counts the bytes that each call of the library copies by memcpy, whatever it answers. The library is linked with its memcpy
 * renamed, so that copies of the caller's own do not count. Fails where a call copies more than docs/DECISIONS.md says. */
#include <inttypes.h>
#include <stdio.h>
#include <string.h>

#include "dillplatter.h"

#define WIDTH 4
#define WORDS DILLPLATTER_WINDOW_WORDS(WIDTH)

/* The frames, once to be lent and once into the result. */
#define MOST (2 * DILLPLATTER_FRAME_BUFFER)

/* Charging gives no state back: the frames, once to be lent. */
#define MOST_CHARGING DILLPLATTER_FRAME_BUFFER

/* What takes the place of the library's memcpy. */
void *__wrap_memcpy(void *to, const void *from, size_t len);

static size_t copied, most_copied;
static int seen[9];

/* An opening, the desk's or the board's. */
typedef dillplatter_result opener(const uint8_t *, size_t, uint32_t, int32_t *, size_t);

void *__wrap_memcpy(void *to, const void *from, size_t len) {
    copied += len;
    return memcpy(to, from, len);
}

static uint8_t report[DILLPLATTER_REPORT_BYTES];
static int32_t window[WORDS];
static dillplatter_result result;
static dillplatter_raised raised;
static dillplatter_lowered lowered;
static dillplatter_charged charged;

static void note(void) {
    if (most_copied < copied)
        most_copied = copied;
    copied = 0;
    seen[result.answer] = 1;
}

static void feed(size_t words, uint8_t event, int32_t value) {
    uint8_t line[DILLPLATTER_LINE_BYTES];
    const int32_t notes[4] = {value, 0, 0, 0};
    dillplatter_line(line, event, notes);
    result = dillplatter_feed(result.state, window, words, line, sizeof line);
    note();
}

static void pull(size_t room) {
    result = dillplatter_pull(result.state, window, WORDS, report, room);
    note();
}

/* A checker of a rule. */
static int opened(opener *open, const char *text) {
    uint8_t frames[DILLPLATTER_FRAME_BUFFER];
    dillplatter_reading reading = dillplatter_read((const uint8_t *)text, strlen(text), frames, sizeof frames);
    copied = 0;
    result = open(frames, DILLPLATTER_FRAME_BYTES * (size_t)reading.frames, WIDTH, window, WORDS);
    note();
    return result.answer == DILLPLATTER_OPENED;
}

/* Views, taken and refused: no byte is copied. */
static int views_copy(void) {
    dillplatter_part whole = {report, sizeof report}, none = {report, 0};
    copied = 0;
    dillplatter_view(&whole);
    dillplatter_view(&none);
    return copied != 0 || whole.bytes != report || none.bytes != report;
}

/* Lines raised and lowered, done and refused. Whether one of these calls copies: their digits are put into the result one by one. */
static int conversions_copy(void) {
    static const char *const lines[] = {"ab80007FFFffff", "abffff800000007FFFffffffff00000000", "abffff800000007FFFffffffff00000001",
                                        "abffff800000007FFF0000800000000000"};
    copied = 0;
    for (size_t k = 0; k < sizeof lines / sizeof *lines; k++) {
        raised = dillplatter_raise((const uint8_t *)lines[k], strlen(lines[k]));
        lowered = dillplatter_lower((const uint8_t *)lines[k], strlen(lines[k]));
    }
    printf("raise, lower: %zu bytes copied, none is allowed\n", copied);
    return copied != 0;
}

/* A charge by a tariff of so many bands and this surcharge: whether it answers otherwise, or copies more than it may. */
static int charge_copies(dillplatter_state state, uint32_t bands, uint32_t surcharge, uint32_t want) {
    const dillplatter_tariff tariff = {bands, {1, 2, 3, 4}, {45, 30, 12, 0}, 1, surcharge};
    copied = 0;
    charged = dillplatter_charge(state, tariff);
    printf("charge, number %" PRIu32 ": %zu bytes copied, at most %d\n", charged.number, copied, MOST_CHARGING);
    return charged.number != want || copied > MOST_CHARGING;
}

/* Charges, done and refused with 28, 29 and 12. */
static int charges_copy(void) {
    dillplatter_state bad = result.state;
    bad.next++;
    return charge_copies(result.state, 4, 7, DILLPLATTER_NO_REFUSAL) || charge_copies(bad, 4, 7, DILLPLATTER_BAD_STATE) ||
           charge_copies(bad, 5, 101, DILLPLATTER_TARIFF_BANDS) || charge_copies(bad, 4, 101, DILLPLATTER_TARIFF_PRICES);
}

/* Lines and pulls of every answer; the first pull of each rule is of an instance that is not settled. A stray word is refused with 27
 * and taken back. */
static void run(void) {
    pull(sizeof report);
    pull(0);
    window[0]++;
    pull(sizeof report);
    feed(WORDS, 0, 0);
    window[0]--;
    feed(0, 0, 0);
    feed(WORDS, 7, 0);
    for (int k = 0; k < 40; k++) {
        feed(WORDS, 0, k % 3);
        feed(WORDS, 1, 0);
        if (k % 8 < 7)
            pull(sizeof report);
    }
}

/* Opening, feeding and pulling, with every answer: whether one is missing, or a call copies more than it may. */
static int runs_copy(const char *name, opener *open) {
    int good;
    most_copied = 0;
    memset(seen, 0, sizeof seen);
    good = opened(open, "events a; notes t; t(a[i])+1+1+1+1+1+1+1 > 0") == (open == dillplatter_open); /* 17 frames: the board's 26 */
    good &= opened(open, "events a b; notes t; t(a[i])+t(b[i]) <= 1");
    run();
    good &= opened(open, "events a b; notes t; t(a[i])+t(b[i-1]) <= 1");
    run();
    for (int answer = DILLPLATTER_REFUSED; answer <= DILLPLATTER_UNKNOWN; answer++)
        good &= answer == DILLPLATTER_READ || seen[answer];
    printf("%s, feed, pull: %zu bytes copied, at most %d\n", name, most_copied, MOST);
    return !(good && most_copied <= MOST);
}

int main(void) {
    return runs_copy("open", dillplatter_open) || runs_copy("open_board", dillplatter_open_board) || views_copy() ||
           conversions_copy() || charges_copy();
}
