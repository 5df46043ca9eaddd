/* Every refusal of the library once, by its name in the header: what provokes it, its number and its place; the limits of the board
 * from both sides; stray words in the window, refused and not; and each call with NULL and length 0. Fails where a refused call wrote
 * to lent memory or handed back another state, line or price than it should. Then what some violations cost. */
#include <inttypes.h>
#include <stdio.h>
#include <string.h>

#include "dillplatter.h"

#define WIDTH 4
#define WORDS DILLPLATTER_WINDOW_WORDS(WIDTH)

static const char good_rule[] = "events a b; notes t; t(a[i]) > t(b[i])";
static const char one_event[] = "events a; notes t; t(a[i]) > 0";
static const char half[] = "events a; notes t; scale 1; t(a[i]) > 0.5";
static const char sixteen_frames[] = "events a; notes t; abs(t(a[i])+1+1+1+1+1+1) > 0";
static const char seventeen_frames[] = "events a; notes t; t(a[i])+1+1+1+1+1+1+1 > 0";

/* 45 cents to 10, 30 to 100, 12 beyond and 7 percent. */
static const dillplatter_tariff good_tariff = {2, {10, 100, 0, 0}, {45, 30, 0, 0}, 12, 7};

/* An opening, by a state and by a pointer to it. */
typedef struct opener {
    dillplatter_result (*open)(const uint8_t *, size_t, uint32_t, int32_t *, size_t);
    dillplatter_told (*open_at)(dillplatter_state *, const uint8_t *, size_t, uint32_t, int32_t *, size_t);
} opener;

static const opener desk = {dillplatter_open, dillplatter_open_at}, board = {dillplatter_open_board, dillplatter_open_board_at};

/* Lent memory: at the start of each call it is filled with 7, or is what the call before left. The window has room for W 257, and a
 * call gets the words that it needs. */
#define WIDEST (DILLPLATTER_WIDTH_MOST + 1)
static uint8_t frames[DILLPLATTER_FRAME_BUFFER], report[DILLPLATTER_REPORT_BYTES], text[DILLPLATTER_TEXT_MOST + 1];
static int32_t window[DILLPLATTER_WINDOW_WORDS(WIDEST)], before[DILLPLATTER_WINDOW_WORDS(WIDEST)];
static dillplatter_state state, zero;
static size_t frames_len;
static int wrong;

static void expect(int fact, const char *what) {
    if (!fact) {
        printf("wrong: %s\n", what);
        wrong = 1;
    }
}

/* Of a call with no field `answer`. */
static void say_number(const char *what, uint32_t want, uint32_t number, uint32_t place) {
    printf("%2" PRIu32 " at %" PRIu32 ": %s\n", number, place, what);
    expect(number == want, what);
}

static void say(const char *what, uint32_t want, uint32_t answer, uint32_t number, uint32_t place) {
    say_number(what, want, number, place);
    expect(answer == DILLPLATTER_REFUSED, what);
}

/* The same call by a pointer to the state answers the same. */
static void expect_same(dillplatter_told told, dillplatter_result r) {
    expect(told.answer == r.answer && told.number == r.number && told.place == r.place, "by a pointer to the state the same");
}

static int all_are(uint8_t value, const uint8_t *bytes, size_t len) {
    for (size_t k = 0; k < len; k++)
        if (bytes[k] != value)
            return 0;
    return 1;
}

static int all_seven(const uint8_t *bytes, size_t len) { return all_are(7, bytes, len); }

static size_t length(const char *text) { return text ? strlen(text) : 0; }

/* The memory; NULL where the length is 0. */
static uint8_t *bytes_or_null(uint8_t *bytes, size_t len) { return len ? bytes : NULL; }
static int32_t *words_or_null(int32_t *words, size_t len) { return len ? words : NULL; }

/* A text that is refused, or a buffer. */
static void refuse_read(const char *what, uint32_t want, const char *rule, size_t len, size_t buffer) {
    memset(frames, 7, sizeof frames);
    dillplatter_reading r = dillplatter_read((const uint8_t *)rule, len, bytes_or_null(frames, buffer), buffer);
    say(what, want, r.answer, r.number, r.place);
    expect(r.frames == 0 && all_seven(frames, sizeof frames), "a refused reading leaves the buffer");
}

static void refuse_text(const char *what, uint32_t want, const char *rule) {
    refuse_read(what, want, rule, length(rule), sizeof frames);
}

/* Frames that are refused, or a window; by a pointer to the state too. */
static void refuse_open(opener by, const char *what, uint32_t want, size_t len, uint32_t width, size_t words) {
    const uint8_t *from = bytes_or_null(frames, len);
    int32_t *to = words_or_null(window, words);
    dillplatter_state kept;
    memset(&kept, 7, sizeof kept);
    memset(window, 7, sizeof window);
    memcpy(before, window, sizeof window);
    dillplatter_result r = by.open(from, len, width, to, words);
    say(what, want, r.answer, r.number, r.place);
    expect_same(by.open_at(&kept, from, len, width, to, words), r);
    expect(memcmp(window, before, sizeof window) == 0, "a refused opening leaves the window");
    expect(memcmp(&r.state, &zero, sizeof zero) == 0, "a refused opening gives the zero state");
    expect(memcmp(&kept, &zero, sizeof zero) == 0, "by a pointer too");
}

static void refuse_feed(const char *what, uint32_t want, dillplatter_state s, size_t words, const char *line) {
    int32_t *to = words_or_null(window, words);
    dillplatter_state kept = s;
    memcpy(before, window, sizeof window);
    dillplatter_result r = dillplatter_feed(s, to, words, (const uint8_t *)line, length(line));
    say(what, want, r.answer, r.number, r.place);
    expect_same(dillplatter_feed_at(&kept, to, words, (const uint8_t *)line, length(line)), r);
    expect(memcmp(window, before, sizeof window) == 0, "a refused line leaves the window");
    expect(memcmp(&r.state, &s, sizeof s) == 0, "a refused line leaves the state");
    expect(memcmp(&kept, &s, sizeof s) == 0, "by a pointer too");
}

static void refuse_pull(const char *what, uint32_t want, dillplatter_state s, size_t words, size_t buffer) {
    const int32_t *from = words_or_null(window, words);
    uint8_t *to = bytes_or_null(report, buffer);
    dillplatter_state kept = s;
    memset(report, 7, sizeof report);
    memcpy(before, window, sizeof window);
    dillplatter_result r = dillplatter_pull(s, from, words, to, buffer);
    say(what, want, r.answer, r.number, r.place);
    expect_same(dillplatter_pull_at(&kept, from, words, to, buffer), r);
    expect(all_seven(report, sizeof report), "a refused pull leaves the report");
    expect(memcmp(window, before, sizeof window) == 0, "a refused pull leaves the window");
    expect(memcmp(&r.state, &s, sizeof s) == 0, "a refused pull leaves the state");
    expect(memcmp(&kept, &s, sizeof s) == 0, "by a pointer too");
}

static void refuse_view(const char *what, uint32_t want, size_t buffer) {
    const uint8_t *from = bytes_or_null(report, buffer);
    memset(report, 7, sizeof report);
    dillplatter_part part = {from, buffer};
    say_number(what, want, dillplatter_view(&part), 0);
    expect(part.bytes == from && part.len == 0, "a refused view is empty, and begins where the buffer does");
    expect(all_seven(report, sizeof report), "a refused view leaves the report");
}

static void refuse_raise(const char *what, uint32_t want, const char *old_line) {
    dillplatter_raised r = dillplatter_raise((const uint8_t *)old_line, length(old_line));
    say_number(what, want, r.number, r.place);
    expect(all_are(0, r.line, sizeof r.line), "a refused old line gives zero bytes");
}

static void refuse_lower(const char *what, uint32_t want, const char *line) {
    dillplatter_lowered r = dillplatter_lower((const uint8_t *)line, length(line));
    say_number(what, want, r.number, r.place);
    expect(all_are(0, r.line, sizeof r.line), "a refused line gives zero bytes");
}

static void refuse_charge(const char *what, uint32_t want, dillplatter_state s, dillplatter_tariff tariff) {
    dillplatter_charged r = dillplatter_charge(s, tariff);
    say_number(what, want, r.number, r.place);
    expect(r.cents == 0, "a refused charge has 0 cents");
}

/* A charge that is not refused. */
static void costs(dillplatter_state s, dillplatter_tariff tariff, uint64_t cents) {
    dillplatter_charged r = dillplatter_charge(s, tariff);
    printf("%" PRIu32 " violations cost %" PRIu64 " cents\n", s.totals.failed, r.cents);
    expect(r.number == DILLPLATTER_NO_REFUSAL && r.place == 0, "violations are charged");
    expect(r.cents == cents, "violations cost what the tariff says");
}

/* Old lines and log lines that are not refused: up and then down, and down and then up. */
static void up_and_down(const char *old_line, const char *up, const char *down) {
    dillplatter_raised raised = dillplatter_raise((const uint8_t *)old_line, strlen(old_line));
    dillplatter_lowered lowered = dillplatter_lower(raised.line, sizeof raised.line);
    expect(raised.number == DILLPLATTER_NO_REFUSAL && raised.place == 0, "an old line is raised");
    expect(lowered.number == DILLPLATTER_NO_REFUSAL && lowered.place == 0, "a raised line is lowered");
    expect(memcmp(raised.line, up, sizeof raised.line) == 0, "raised, the fourth note is 0 and the others keep");
    expect(memcmp(lowered.line, down, sizeof lowered.line) == 0, "up and then down gives the old line in capitals");
}

static void down_and_up(const char *line, const char *down, const char *up) {
    dillplatter_lowered lowered = dillplatter_lower((const uint8_t *)line, strlen(line));
    dillplatter_raised raised = dillplatter_raise(lowered.line, sizeof lowered.line);
    expect(lowered.number == DILLPLATTER_NO_REFUSAL && lowered.place == 0, "a line that 16 bits hold is lowered");
    expect(raised.number == DILLPLATTER_NO_REFUSAL && raised.place == 0, "a lowered line is raised");
    expect(memcmp(lowered.line, down, sizeof lowered.line) == 0, "lowered, the notes keep");
    expect(memcmp(raised.line, up, sizeof raised.line) == 0, "down and then up gives the line in capitals");
}

static void read_good(const char *rule) {
    dillplatter_reading r = dillplatter_read((const uint8_t *)rule, strlen(rule), frames, sizeof frames);
    expect(r.answer == DILLPLATTER_READ, "the rule is read");
    frames_len = DILLPLATTER_FRAME_BYTES * (size_t)r.frames;
}

static void open_by(opener by, const char *rule, uint32_t width) {
    const size_t words = DILLPLATTER_WINDOW_WORDS(width);
    read_good(rule);
    expect(by.open_at(&state, frames, frames_len, width, window, words).answer == DILLPLATTER_OPENED, "opened");
}

static void open_good(const char *rule) { open_by(desk, rule, WIDTH); }

/* Lines of event 0 with this note, and a pull after each. */
static void feed_many(int n, int32_t note) {
    const int32_t notes[4] = {note, 0, 0, 0};
    uint8_t line[DILLPLATTER_LINE_BYTES];
    dillplatter_line(line, 0, notes);
    for (int k = 0; k < n; k++) {
        expect(dillplatter_feed_at(&state, window, WORDS, line, sizeof line).answer == DILLPLATTER_ACCEPTED, "accepted");
        dillplatter_pull_at(&state, window, WORDS, report, sizeof report);
    }
}

static void reading(void) {
    memset(text, ' ', sizeof text);
    refuse_read("a buffer of 511 bytes", DILLPLATTER_BUFFER_SIZE, good_rule, strlen(good_rule), 511);
    refuse_text("an empty text", DILLPLATTER_TEXT_SIZE, "");
    refuse_read("a text of 1,025 bytes", DILLPLATTER_TEXT_SIZE, (const char *)text, sizeof text, sizeof frames);
    refuse_text("two relations", DILLPLATTER_GRAMMAR, "events a; notes t; t(a[i]) > 0 > 1");
    refuse_text("an event that is not declared", DILLPLATTER_NAME, "events a; notes t; t(b[i]) > 0");
    refuse_text("the factor 10", DILLPLATTER_NUMBER, "events a; notes t; t(a[10*i]) > 0");
    refuse_text("a literal of 214,748,364.8", DILLPLATTER_NUMBER, "events a; notes t; scale 1; t(a[i]) > 214748364.8");
    refuse_text("a scale of 7", DILLPLATTER_DECIMALS, "events a; notes t; scale 7; t(a[i]) > 0");
    refuse_text("a literal with seven decimals", DILLPLATTER_DECIMALS, "events a; notes t; scale 1; t(a[i]) > 0.0000000");
    refuse_text("a literal with decimals and no scale", DILLPLATTER_GRAMMAR, "events a; notes t; t(a[i]) > 0.5");
    refuse_text("seventeen times not", DILLPLATTER_DEPTH, "events a; notes t; !!!!!!!!!!!!!!!!! t(a[i]) > 0");
    refuse_text("no reference", DILLPLATTER_NO_REFERENCE, "events a; notes t; 1 = 1");
    refuse_text("a product of two notes and 1", DILLPLATTER_MAGNITUDE, "events a; notes t; t(a[i]) * t(a[i]) + 1 > 0");
    refuse_text("a product of two notes, brought to three decimals", DILLPLATTER_MAGNITUDE,
                "events a; notes t; scale 1; t(a[i]) * t(a[i]) > 0.125");
}

static void opening(void) {
    read_good(good_rule);
    refuse_open(desk, "12 bytes of frames", DILLPLATTER_FRAMES_SIZE, 12, WIDTH, WORDS);
    refuse_open(desk, "two of three frames", DILLPLATTER_FRAMES_ORDER, 16, WIDTH, WORDS);
    refuse_open(desk, "W 257", DILLPLATTER_WINDOW_WIDTH, frames_len, 257, DILLPLATTER_WINDOW_WORDS(257));
    refuse_open(desk, "a window one word short", DILLPLATTER_WINDOW_WIDTH, frames_len, WIDTH, WORDS - 1);
}

/* Decimals in frames: a scale stands first and nowhere else, has at most 6, as a literal has, and a literal has none without it. */
static void opening_decimals(void) {
    enum { scale = DILLPLATTER_FRAME_DECIMALS, literal = 2 * DILLPLATTER_FRAME_BYTES + DILLPLATTER_FRAME_DECIMALS };
    read_good(half); /* scale, reference, literal, more */
    frames[scale] = 7;
    refuse_open(desk, "a frame with a scale of 7", DILLPLATTER_FRAMES_ORDER, frames_len, WIDTH, WORDS);
    frames[scale] = 6;
    frames[literal] = 7;
    refuse_open(desk, "a frame of a literal with seven decimals", DILLPLATTER_FRAMES_ORDER, frames_len, WIDTH, WORDS);
    read_good(half);
    refuse_open(desk, "a scale and nothing after it", DILLPLATTER_FRAMES_ORDER, DILLPLATTER_FRAME_BYTES, WIDTH, WORDS);
    memmove(frames, frames + DILLPLATTER_FRAME_BYTES, frames_len - DILLPLATTER_FRAME_BYTES);
    refuse_open(desk, "a rule without its scale", DILLPLATTER_FRAMES_ORDER, frames_len - DILLPLATTER_FRAME_BYTES, WIDTH, WORDS);
    read_good(half);
    memmove(frames + DILLPLATTER_FRAME_BYTES, frames, frames_len);
    refuse_open(desk, "a second scale", DILLPLATTER_FRAMES_ORDER, frames_len + DILLPLATTER_FRAME_BYTES, WIDTH, WORDS);
}

/* The board's opening has the desk's refusals first, 11 too, and then 26. */
static void opening_board(void) {
    enum { most = DILLPLATTER_BOARD_WIDTH_MOST };
    const size_t words = DILLPLATTER_WINDOW_WORDS(most), more = DILLPLATTER_WINDOW_WORDS(most + 1);
    read_good(sixteen_frames);
    refuse_open(board, "W 33 on the board", DILLPLATTER_BOARD_LIMITS, frames_len, most + 1, more);
    refuse_open(board, "W 33 and a window one word short", DILLPLATTER_WINDOW_WIDTH, frames_len, most + 1, more - 1);
    refuse_open(board, "W 257 on the board", DILLPLATTER_WINDOW_WIDTH, frames_len, 257, DILLPLATTER_WINDOW_WORDS(257));
    read_good(seventeen_frames);
    refuse_open(board, "17 frames on the board", DILLPLATTER_BOARD_LIMITS, frames_len, most, words);
    refuse_open(board, "17 frames and a window one word short", DILLPLATTER_WINDOW_WIDTH, frames_len, most, words - 1);
    refuse_open(board, "16 of 17 frames, and W 33", DILLPLATTER_FRAMES_ORDER, frames_len - 8, most + 1, more);
    refuse_open(board, "four bytes less, and W 33", DILLPLATTER_FRAMES_SIZE, frames_len - 4, most + 1, more);
}

/* A rule and a W that the board takes: its state is the desk's but for the profile, and is fed, pulled and charged. */
static void taken_on_board(const char *rule, uint32_t width) {
    const size_t words = DILLPLATTER_WINDOW_WORDS(width);
    const uint8_t *line = (const uint8_t *)"0000000001000000000000000000000000";
    open_by(desk, rule, width);
    dillplatter_state other = state;
    other.profile = DILLPLATTER_BOARD;
    open_by(board, rule, width);
    printf("opened on the board: W %" PRIu32 ", %" PRIu32 " frames\n", state.width, state.len);
    expect(memcmp(&state, &other, sizeof state) == 0, "the board's state is the desk's but for the profile");
    expect(dillplatter_feed_at(&state, window, words, line, 34).answer == DILLPLATTER_ACCEPTED, "the board's checker is fed");
    expect(dillplatter_pull_at(&state, window, words, report, sizeof report).answer == DILLPLATTER_TRUE, "and pulled");
    expect(dillplatter_charge(state, good_tariff).number == DILLPLATTER_NO_REFUSAL, "and charged");
    expect(state.profile == DILLPLATTER_BOARD, "its profile stays");
}

/* A state of the desk with another profile. */
static void refuse_profile(const char *what, const char *rule, uint32_t width, uint32_t profile) {
    const size_t words = DILLPLATTER_WINDOW_WORDS(width);
    open_by(desk, rule, width);
    state.profile = profile;
    refuse_feed(what, DILLPLATTER_BAD_STATE, state, words, "0000000001000000000000000000000000");
    refuse_pull(what, DILLPLATTER_BAD_STATE, state, words, sizeof report);
    refuse_charge(what, DILLPLATTER_BAD_STATE, state, good_tariff);
}

/* Profiles in the state: the limits of the board, and a number that is none. */
static void profiles(void) {
    enum { most = DILLPLATTER_BOARD_WIDTH_MOST };
    taken_on_board(sixteen_frames, most);
    refuse_profile("a board state with W 33", sixteen_frames, most + 1, DILLPLATTER_BOARD);
    refuse_profile("a board state with 17 frames", seventeen_frames, most, DILLPLATTER_BOARD);
    refuse_profile("a state with profile 2", sixteen_frames, most, 2);
}

static void running(void) {
    const char *line = "0000000001000000000000000000000000";
    open_good(good_rule);
    refuse_feed("a state that is zero throughout", DILLPLATTER_BAD_STATE, zero, WORDS, line);
    refuse_pull("a state that is zero throughout", DILLPLATTER_BAD_STATE, zero, WORDS, sizeof report);
    refuse_feed("a window one word short", DILLPLATTER_WINDOW_SIZE, state, WORDS - 1, line);
    refuse_pull("a window one word short", DILLPLATTER_WINDOW_SIZE, state, WORDS - 1, sizeof report);
    refuse_pull("a report buffer of 165 bytes", DILLPLATTER_REPORT_SIZE, state, WORDS, 165);
    refuse_view("a view of a report buffer of 165 bytes", DILLPLATTER_REPORT_SIZE, 165);
    refuse_feed("a line with a letter past f", DILLPLATTER_BAD_LINE, state, WORDS, "00000000fg000000000000000000000000");
    refuse_feed("a line of 33 digits", DILLPLATTER_BAD_LINE, state, WORDS, line + 1);
    feed_many(WIDTH, 1);
    refuse_feed("a fifth line with W 4 and no partner", DILLPLATTER_WINDOW_FULL, state, WORDS, line);
    open_good(one_event);
    feed_many(1000000, 1);
    refuse_feed("line 1,000,000 of an event", DILLPLATTER_LINES_MOST, state, WORDS, line);
}

/* One word of the window is changed: no feed and no pull goes by it. Then it is put back. */
static void refuse_stray(const char *what, size_t at, int32_t value) {
    const int32_t was = window[at];
    window[at] = value;
    refuse_feed(what, DILLPLATTER_WINDOW_SUM, state, WORDS, "0000000001000000000000000000000000");
    refuse_pull(what, DILLPLATTER_WINDOW_SUM, state, WORDS, sizeof report);
    window[at] = was;
}

/* Another state with the window as it is: fed and pulled with 27. Charging has no window, and does not compare. */
static void refuse_other_sum(const char *what, dillplatter_state other) {
    refuse_feed(what, DILLPLATTER_WINDOW_SUM, other, WORDS, "0000000001000000000000000000000000");
    refuse_pull(what, DILLPLATTER_WINDOW_SUM, other, WORDS, sizeof report);
    expect(dillplatter_charge(other, good_tariff).number == DILLPLATTER_NO_REFUSAL, "a state is charged whatever its sum");
}

/* 12 and 13 come before 27; 15, an event that is ignored and 14 after it. */
static void stray_in_order(void) {
    const char *line = "0000000001000000000000000000000000";
    window[0]--;
    refuse_feed("a stray word, and a state that is zero throughout", DILLPLATTER_BAD_STATE, zero, WORDS, line);
    refuse_feed("a stray word, and a window one word short", DILLPLATTER_WINDOW_SIZE, state, WORDS - 1, line);
    refuse_feed("a stray word, and a line of 33 digits", DILLPLATTER_WINDOW_SUM, state, WORDS, line + 1);
    refuse_feed("a stray word, and event 255", DILLPLATTER_WINDOW_SUM, state, WORDS, "FF00000001000000000000000000000000");
    refuse_pull("a stray word, and a state that is zero throughout", DILLPLATTER_BAD_STATE, zero, WORDS, sizeof report);
    refuse_pull("a stray word, and a window one word short", DILLPLATTER_WINDOW_SIZE, state, WORDS - 1, sizeof report);
    refuse_pull("a stray word, and a report buffer of 165 bytes", DILLPLATTER_WINDOW_SUM, state, WORDS, 165);
    window[0]++;
}

/* A line a with note 1 and a line b with note 0 make instance 0 true; with a stray word in the place of a note it could be false. */
static void strays(void) {
    const uint8_t *a = (const uint8_t *)"0000000001000000000000000000000000";
    const uint8_t *b = (const uint8_t *)"0100000000000000000000000000000000";
    dillplatter_state older, other;
    open_good(good_rule);
    refuse_stray("a stray word in a fresh window", 0, 1);
    older = state;
    expect(dillplatter_feed_at(&state, window, WORDS, a, 34).answer == DILLPLATTER_ACCEPTED, "a is accepted");
    expect(dillplatter_feed_at(&state, window, WORDS, b, 34).answer == DILLPLATTER_ACCEPTED, "b is accepted");
    expect(older.sum == 0 && state.sum == 1, "the sum is that of the notes");
    refuse_stray("a stray word in the place of a note", 0, -1);
    refuse_stray("a stray word where no line stands", WORDS - 1, INT32_MIN);
    stray_in_order();
    refuse_other_sum("a state from before the lines", older);
    other = state;
    other.sum++;
    refuse_other_sum("a state with another sum", other);
    window[0] -= 2;
    window[4 * WIDTH] += 2;
    other = state;
    expect(dillplatter_pull_at(&other, window, WORDS, report, sizeof report).answer == DILLPLATTER_FALSE, "two stray words may pass");
    printf("not refused: two stray words that cancel out, and the verdict is false\n");
    window[0] += 2;
    window[4 * WIDTH] -= 2;
    expect(dillplatter_pull_at(&state, window, WORDS, report, sizeof report).answer == DILLPLATTER_TRUE, "put back, it goes on");
    printf("put back: the verdict is true\n");
}

static void converting(void) {
    refuse_raise("an old line with a letter past f", DILLPLATTER_BAD_OLD_LINE, "01000fg0000000");
    refuse_raise("an old line of 13 digits", DILLPLATTER_BAD_OLD_LINE, "0100010002000");
    refuse_lower("a line of 33 digits, to be lowered", DILLPLATTER_BAD_LINE, "010000000100000002000000030000000");
    refuse_lower("a fourth note of 1", DILLPLATTER_FOURTH_NOTE, "0100008000000000020000000300000001");
    refuse_lower("a first note of 32,768", DILLPLATTER_WIDE_NOTE, "0100008000000000020001000000000000");
    refuse_lower("a third note of -32,769", DILLPLATTER_WIDE_NOTE, "0100007FFFFFFF8000FFFF7FFF00000000");
    up_and_down("fe7Fff8000fFfE", "FE00007FFFFFFF8000FFFFFFFE00000000", "FE7FFF8000FFFE");
    down_and_up("fe00007fFFffff8000FfffffFe00000000", "FE7FFF8000FFFE", "FE00007FFFFFFF8000FFFFFFFE00000000");
}

/* NULL with length 0 for each memory that a call takes, and for all that it takes. Charging takes none. */
static void nothing_lent(void) {
    const char *line = "0000000001000000000000000000000000";
    const size_t len = strlen(good_rule);
    refuse_read("no text", DILLPLATTER_TEXT_SIZE, NULL, 0, sizeof frames);
    refuse_read("no buffer", DILLPLATTER_BUFFER_SIZE, good_rule, len, 0);
    refuse_read("neither text nor buffer", DILLPLATTER_BUFFER_SIZE, NULL, 0, 0);
    read_good(good_rule);
    for (size_t k = 0; k < 2; k++) {
        const opener by = k == 0 ? desk : board;
        refuse_open(by, "no frames", DILLPLATTER_FRAMES_SIZE, 0, WIDTH, WORDS);
        refuse_open(by, "no window", DILLPLATTER_WINDOW_WIDTH, frames_len, WIDTH, 0);
        refuse_open(by, "no window and W 0", DILLPLATTER_WINDOW_WIDTH, frames_len, 0, 0);
        refuse_open(by, "neither frames nor window", DILLPLATTER_FRAMES_SIZE, 0, WIDTH, 0);
    }
    open_good(good_rule);
    feed_many(1, 1);
    refuse_feed("no window, fed", DILLPLATTER_WINDOW_SIZE, state, 0, line);
    refuse_feed("no line", DILLPLATTER_BAD_LINE, state, WORDS, NULL);
    refuse_feed("neither window nor line", DILLPLATTER_WINDOW_SIZE, state, 0, NULL);
    refuse_feed("neither, and a state that is zero throughout", DILLPLATTER_BAD_STATE, zero, 0, NULL);
    refuse_pull("no window, pulled", DILLPLATTER_WINDOW_SIZE, state, 0, sizeof report);
    refuse_pull("no report buffer", DILLPLATTER_REPORT_SIZE, state, WORDS, 0);
    refuse_pull("neither window nor report buffer", DILLPLATTER_WINDOW_SIZE, state, 0, 0);
    refuse_pull("neither, and a state that is zero throughout", DILLPLATTER_BAD_STATE, zero, 0, 0);
    refuse_view("a view of no report buffer", DILLPLATTER_REPORT_SIZE, 0);
    refuse_raise("no old line", DILLPLATTER_BAD_OLD_LINE, NULL);
    refuse_lower("no line, to be lowered", DILLPLATTER_BAD_LINE, NULL);
}

/* Each way of 28 and of 29. */
static void bad_tariffs(void) {
    enum { dear = DILLPLATTER_PRICE_MOST + 1, much = DILLPLATTER_SURCHARGE_MOST + 1 };
    static const struct {
        const char *what;
        uint32_t want;
        dillplatter_tariff tariff;
    } bad[] = {
        {"five bands", DILLPLATTER_TARIFF_BANDS, {DILLPLATTER_BANDS_MOST + 1, {1, 2, 3, 4}, {45, 30, 0, 0}, 12, 7}},
        {"a first band to 0", DILLPLATTER_TARIFF_BANDS, {2, {0, 100, 0, 0}, {45, 30, 0, 0}, 12, 7}},
        {"two bands to 100", DILLPLATTER_TARIFF_BANDS, {4, {1, 10, 100, 100}, {45, 30, 0, 0}, 12, 7}},
        {"a band to 100, then one to 10", DILLPLATTER_TARIFF_BANDS, {2, {100, 10, 0, 0}, {45, 30, 0, 0}, 12, 7}},
        {"a band to 1,010,001", DILLPLATTER_TARIFF_BANDS, {2, {10, DILLPLATTER_LAST_MOST + 1, 0, 0}, {45, 30, 0, 0}, 12, 7}},
        {"a price of 10,001 cents", DILLPLATTER_TARIFF_PRICES, {4, {1, 2, 3, 4}, {45, 30, 0, dear}, 12, 7}},
        {"a price beyond of 10,001 cents", DILLPLATTER_TARIFF_PRICES, {2, {10, 100, 0, 0}, {45, 30, 0, 0}, dear, 7}},
        {"a surcharge of 101 percent", DILLPLATTER_TARIFF_PRICES, {2, {10, 100, 0, 0}, {45, 30, 0, 0}, 12, much}},
    };
    for (size_t k = 0; k < sizeof bad / sizeof *bad; k++)
        refuse_charge(bad[k].what, bad[k].want, state, bad[k].tariff);
}

/* 28 comes before 29, and both before 12. */
static void charging(void) {
    dillplatter_tariff tariff = good_tariff;
    dillplatter_state changed;
    open_good(one_event);
    bad_tariffs();
    refuse_charge("a state that is zero throughout, charged", DILLPLATTER_BAD_STATE, zero, tariff);
    changed = state;
    changed.totals.failed++;
    refuse_charge("a false total of 1 before the first verdict", DILLPLATTER_BAD_STATE, changed, tariff);
    tariff.surcharge = 101;
    refuse_charge("that surcharge, with a state that is zero throughout", DILLPLATTER_TARIFF_PRICES, zero, tariff);
    tariff.bands = 5;
    refuse_charge("five bands too", DILLPLATTER_TARIFF_BANDS, zero, tariff);
}

/* Violations to the end of a band and beyond it, with halves of a cent; then the most that 12 lets pass. */
static void costing(void) {
    enum { most = DILLPLATTER_PRICE_MOST };
    const dillplatter_tariff no_band = {0, {1010001, 1010001, 0, 0}, {10001, 10001, 0, 0}, most, 0};
    const dillplatter_tariff dearest = {
        DILLPLATTER_BANDS_MOST, {1, 2, 3, DILLPLATTER_LAST_MOST}, {most, most, most, most}, most, DILLPLATTER_SURCHARGE_MOST};
    open_good(one_event);
    feed_many(3, 1);
    costs(state, good_tariff, 0);
    feed_many(10, 0);
    costs(state, good_tariff, 482); /* 481.5, rounded half up */
    feed_many(2, 0);
    costs(state, good_tariff, 546); /* 545.7 */
    feed_many(88, 0);
    costs(state, good_tariff, 3371); /* 3,370.5 */
    feed_many(1, 0);
    costs(state, good_tariff, 3383); /* 3,383.34, rounded once: a sum for each band, rounded, would make 3,384 */
    costs(state, no_band, 1010000);
    state.next = state.totals.failed = 1009999;
    state.totals.held = 0;
    costs(state, dearest, 20199980000);
    state.next = state.totals.failed = 1010000;
    refuse_charge("1,010,000 violations", DILLPLATTER_BAD_STATE, state, dearest);
}

int main(void) {
    reading();
    opening();
    opening_decimals();
    opening_board();
    profiles();
    running();
    strays();
    converting();
    nothing_lent();
    charging();
    costing();
    return wrong;
}
