/* A controller's loop over the library: reads a rule, opens a checker with a lent window, feeds each line as it comes, pulls
 * until the checker waits, says each violation in words, hands the operator panel its view, and charges rework before it lets a
 * checker go. docs/MAKERS.md explains it. */
#include <inttypes.h>
#include <stdio.h>
#include <string.h>

#include "dillplatter.h"

/* The knife's way down and up again takes at most 25 units of time. */
static const char rule[] = "events down up; notes t; t(up[i]) - t(down[i]) <= 25";
static const char *const events[] = {"down", "up"};
static const char *const notes[] = {"t"};

/* The service contract's rework tariff: 45 cents for each violation to the 10th, 30 to the 100th, 12 beyond, and 7 percent. */
static const dillplatter_tariff tariff = {.bands = 2, .lasts = {10, 100}, .prices = {45, 30}, .beyond = 12, .surcharge = 7};

/* How many lines of an event may come before the next instance's other lines do. */
#define WIDTH 4

/* All memory is the controller's own. */
static uint8_t frames[DILLPLATTER_FRAME_BUFFER];
static size_t frames_len;
static int32_t window[DILLPLATTER_WINDOW_WORDS(WIDTH)];
static uint8_t report[DILLPLATTER_REPORT_BYTES];
static dillplatter_state state;

/* The operator panel, which gets views of reports and not the notes in them. */
static void panel(dillplatter_part view) {
    if (view.len == DILLPLATTER_VIEW_BYTES && view.bytes[4] == 0)
        printf("panel: instance %" PRIu32 " is false\n", dillplatter_report_instance(view.bytes));
}

/* After a report: its view for the panel. */
static void show_view(void) {
    dillplatter_part part = {report, sizeof report};
    uint32_t number = dillplatter_view(&part);
    if (number == DILLPLATTER_NO_REFUSAL)
        panel(part);
    else
        printf("view refused with %" PRIu32 "\n", number);
}

/* For those who may see the notes. The references stand in the report in the order of the rule's frames, which the state has. */
static void say_violation(void) {
    uint32_t instance = dillplatter_report_instance(report);
    uint32_t k = 0;
    printf("instance %" PRIu32 " violates the rule:", instance);
    for (uint32_t at = 0; at < state.len; at++) {
        const uint8_t *frame = state.frames + DILLPLATTER_FRAME_BYTES * at;
        if (frame[DILLPLATTER_FRAME_KIND] != DILLPLATTER_KIND_REFERENCE)
            continue;
        int64_t line = (int64_t)frame[DILLPLATTER_FRAME_FACTOR] * instance + dillplatter_signed(frame + DILLPLATTER_FRAME_VALUE);
        printf("%s %s of %s %" PRId64, k == 0 ? "" : ",", notes[frame[DILLPLATTER_FRAME_NOTE]],
               events[frame[DILLPLATTER_FRAME_EVENT]], line);
        switch (dillplatter_report_mark(report, k)) {
        case DILLPLATTER_PRESENT: printf(" is %" PRId32, dillplatter_report_value(report, k)); break;
        case DILLPLATTER_PENDING: printf(" has not come"); break;
        default: printf(" is before the first"); break;
        }
        k++;
    }
    printf("\n");
}

/* Pulls every verdict that is there. */
static void pull_all(void) {
    for (;;) {
        dillplatter_told told = dillplatter_pull_at(&state, window, DILLPLATTER_WINDOW_WORDS(WIDTH), report, sizeof report);
        switch (told.answer) {
        case DILLPLATTER_TRUE: break;
        case DILLPLATTER_UNKNOWN: break;
        case DILLPLATTER_FALSE: say_violation(); show_view(); break;
        case DILLPLATTER_WAITING: return;
        default: printf("pull refused with %" PRIu32 "\n", told.number); return;
        }
    }
}

static void say_totals(void) {
    printf("true %" PRIu32 ", false %" PRIu32 ", unknown %" PRIu32 "; next instance %" PRIu32 "\n", state.totals.held,
           state.totals.failed, state.totals.unknown, state.next);
}

/* What the violations cost that this checker has found. */
static void say_charge(void) {
    dillplatter_charged charged = dillplatter_charge(state, tariff);
    if (charged.number == DILLPLATTER_NO_REFUSAL)
        printf("rework, violations %" PRIu32 ": %" PRIu64 " cents\n", state.totals.failed, charged.cents);
    else
        printf("charge refused with %" PRIu32 "\n", charged.number);
}

/* Before a checker is let go: a fresh one counts from 0 again, and begins with the first band. */
static void finish(void) {
    say_totals();
    say_charge();
}

/* Opens a fresh checker for the rule that was read. */
static int begin(void) {
    dillplatter_told told = dillplatter_open_at(&state, frames, frames_len, WIDTH, window, DILLPLATTER_WINDOW_WORDS(WIDTH));
    if (told.answer != DILLPLATTER_OPENED) {
        printf("opening refused with %" PRIu32 " at %" PRIu32 "\n", told.number, told.place);
        return 0;
    }
    return 1;
}

/* Feeds a line and pulls. A line that is refused is not counted, and the next one of its event would take its number: so this
 * controller says so and begins a fresh checker with the lines that follow, rather than go on as if it had been taken. It does the
 * same where somebody wrote into the window, which refuses every line and every pull with 27 until the window is cleared. */
static void take(const uint8_t *line, size_t len) {
    dillplatter_told told = dillplatter_feed_at(&state, window, DILLPLATTER_WINDOW_WORDS(WIDTH), line, len);
    if (told.answer == DILLPLATTER_ACCEPTED) {
        pull_all();
    } else if (told.answer == DILLPLATTER_REFUSED) {
        printf("line refused with %" PRIu32 " at %" PRIu32 ", %s %" PRIu32 ", %s %" PRIu32 "; beginning anew\n", told.number, told.place,
               events[0], state.counts[0], events[1], state.counts[1]);
        finish();
        begin();
    }
}

/* An event as the controller has it. */
static void happened(uint8_t event, int32_t time) {
    const int32_t values[4] = {time, 0, 0, 0};
    uint8_t line[DILLPLATTER_LINE_BYTES];
    dillplatter_line(line, event, values);
    take(line, sizeof line);
}

/* An event n times, at times that are `apart` units apart. */
static void happened_often(int n, uint8_t event, int32_t time, int32_t apart) {
    for (int k = 0; k < n; k++)
        happened(event, time + k * apart);
}

int main(void) {
    dillplatter_reading reading = dillplatter_read((const uint8_t *)rule, strlen(rule), frames, sizeof frames);
    if (reading.answer != DILLPLATTER_READ) {
        printf("rule refused with %" PRIu32 " at %" PRIu32 "\n", reading.number, reading.place);
        return 1;
    }
    printf("rule read, %" PRIu32 " frames\n", reading.frames);
    frames_len = DILLPLATTER_FRAME_BYTES * (size_t)reading.frames;
    if (!begin())
        return 1;
    happened(0, 10);
    happened(1, 35); /* 25 units: true */
    happened(0, 50);
    happened(1, 90); /* 40 units: false */
    happened(7, 95); /* an event that the rule does not reference: ignored */
    take((const uint8_t *)"00 bad line", 11);
    happened(0, INT32_MIN);
    happened(1, INT32_MAX);       /* arithmetic is exact: false */
    happened_often(5, 0, 100, 1); /* the fifth down with no up finds the window full: 17 */
    happened_often(4, 0, 200, 1);
    happened_often(4, 1, 200, 10); /* the last of these is 27 units after its down: false */
    window[0]++;                   /* a driver writes into the window: the next line is refused with 27 */
    happened(0, 300);
    happened(0, 310);
    happened(1, 320); /* 10 units: true */
    finish();
    return 0;
}
