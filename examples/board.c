/* The board inside the plotter: opens a checker with the board's limits for a rule that was read at the desk, feeds it each line as it
 * comes, pulls until it waits, and shows the operator panel each violation's view. docs/MAKERS.md, "On the board inside the plotter",
 * explains it. */
#include <inttypes.h>
#include <stdio.h>

#include "dillplatter.h"

/* Reading takes more stack than a board has. From here on the compiler refuses the name. */
#pragma GCC poison dillplatter_read

/* The frames of `events down up; notes t; t(up[i]) - t(down[i]) <= 25`, as reading gave them at the desk. */
static const uint8_t frames[] = {
    0x03, 1, 0, 1, 0, 0, 0, 0,  /* t(up[i]) */
    0x03, 0, 0, 1, 0, 0, 0, 0,  /* t(down[i]) */
    0x12, 0, 0, 0, 0, 0, 0, 0,  /* - */
    0x01, 0, 0, 0, 0, 0, 0, 25, /* 25 */
    0x24, 0, 0, 0, 0, 0, 0, 0,  /* <= */
};

/* All memory is the board's own. */
#define WIDTH DILLPLATTER_BOARD_WIDTH_MOST
static dillplatter_state state;
static int32_t window[DILLPLATTER_WINDOW_WORDS(WIDTH)];
static uint8_t report[DILLPLATTER_REPORT_BYTES];

/* Opens a fresh checker. The frames are checked here, whatever they are. */
static int begin(void) {
    dillplatter_told told = dillplatter_open_board_at(&state, frames, sizeof frames, WIDTH, window, DILLPLATTER_WINDOW_WORDS(WIDTH));
    if (told.answer != DILLPLATTER_OPENED)
        printf("opening refused with %" PRIu32 " at %" PRIu32 "\n", told.number, told.place);
    return told.answer == DILLPLATTER_OPENED;
}

/* The panel sees which instance failed, and no note. */
static void show_view(void) {
    dillplatter_part view = {report, sizeof report};
    if (dillplatter_view(&view) == DILLPLATTER_NO_REFUSAL)
        printf("panel: instance %" PRIu32 " is false\n", dillplatter_report_instance(view.bytes));
}

/* Pulls every verdict that is there. Whether the last pull was not refused. */
static int pull_all(void) {
    uint32_t answer;
    do {
        answer = dillplatter_pull_at(&state, window, DILLPLATTER_WINDOW_WORDS(WIDTH), report, sizeof report).answer;
        if (answer == DILLPLATTER_FALSE)
            show_view();
    } while (answer > DILLPLATTER_WAITING);
    return answer == DILLPLATTER_WAITING;
}

/* An event as the board has it: 0 is down, 1 is up. A refused line is not counted: whoever goes on opens anew. */
static int happened(uint8_t event, int32_t time) {
    const int32_t notes[4] = {time, 0, 0, 0};
    uint8_t line[DILLPLATTER_LINE_BYTES];
    dillplatter_line(line, event, notes);
    dillplatter_told told = dillplatter_feed_at(&state, window, DILLPLATTER_WINDOW_WORDS(WIDTH), line, sizeof line);
    if (told.answer == DILLPLATTER_REFUSED)
        printf("line refused with %" PRIu32 " at %" PRIu32 "\n", told.number, told.place);
    return told.answer != DILLPLATTER_REFUSED && pull_all();
}

int main(void) {
    printf("state %zu bytes, window %zu, report %zu, frames %zu\n", sizeof state, sizeof window, sizeof report, sizeof frames);
    if (!begin())
        return 1;
    printf("opened with profile %" PRIu32 ", W %" PRIu32 ", %" PRIu32 " frames\n", state.profile, state.width, state.len);
    /* 25 units: true; 40 units: false. */
    if (!happened(0, 10) || !happened(1, 35) || !happened(0, 50) || !happened(1, 90))
        return 1;
    printf("true %" PRIu32 ", false %" PRIu32 ", unknown %" PRIu32 "\n", state.totals.held, state.totals.failed, state.totals.unknown);
    return 0;
}
