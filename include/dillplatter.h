/* Dillplatter: a proved log checker for Logic of Constraints, as a library for controllers.
 *
 * A rule's text is read into frames (dillplatter_read), frames open a checker (dillplatter_open; on the board inside the plotter
 * dillplatter_open_board), log lines are fed to it (dillplatter_feed) and verdicts are pulled from it (dillplatter_pull). Of a
 * violation's report an operator panel gets the view (dillplatter_view). Lines of the earlier edition, with 14 digits, are raised to
 * log lines (dillplatter_raise), and log lines are lowered to them where nothing is lost (dillplatter_lower). Rework is charged by
 * the number of violations and the tariff of a service contract (dillplatter_charge). docs/RULES.md teaches rules, docs/MAKERS.md
 * shows how to link, how much memory to lend and what to do on each refusal.
 *
 * For every argument each call ends, and answers as its proved contract says; a refusal changes nothing, but that a refused view
 * is an empty part. The library has no memory of its own and allocates none: what a checker carries from call to call is the state,
 * by value, and the window, which the caller lends. So calls on different checkers may run at the same time. Raising and lowering
 * take no checker, and nothing is kept between them. Of a checker charging takes the state only, and changes nothing.
 *
 * What the caller keeps to, and nobody checks:
 * - a pointer and a length stand for that many elements that may be read, and written where the pointer is not to const; the
 *   elements are aligned as their type asks; with length 0 any pointer will do, NULL too;
 * - during a call, nobody else writes to memory lent to that call, and what the call may write overlaps no other memory lent to it
 *   and is used by nobody else;
 * - the stack has room for the call: "stack" below says how much.
 *
 * And what is checked in part: between the calls on a checker nobody changes its window. Feed and pull refuse with 27 every window in
 * which one word was changed, but not every one in which several were: "a window that somebody wrote into", below.
 *
 * The library is for x86-64 with the System V calling convention, as on Linux. It needs memcpy and memset, nothing else.
 */
#ifndef DILLPLATTER_H
#define DILLPLATTER_H

#include <stddef.h>
#include <stdint.h>

#ifdef __cplusplus
extern "C" {
#endif

/* ---- sizes ---- */

/* Bytes of the buffer that dillplatter_read fills: exactly so many. */
#define DILLPLATTER_FRAME_BUFFER 512

/* Bytes of a frame: an opening takes the first DILLPLATTER_FRAME_BYTES * reading.frames bytes of that buffer. */
#define DILLPLATTER_FRAME_BYTES 8

/* A rule's text has 1 to so many bytes. */
#define DILLPLATTER_TEXT_MOST 1024

/* The width W, how many lines of each event the window holds, is 1 to so many. */
#define DILLPLATTER_WIDTH_MOST 256

/* The same of a checker that dillplatter_open_board opened. */
#define DILLPLATTER_BOARD_WIDTH_MOST 32

/* The frames of a rule that dillplatter_open_board takes are 1 to so many. */
#define DILLPLATTER_BOARD_FRAMES_MOST 16

/* 32-bit words of a window of width w: exactly so many. */
#define DILLPLATTER_WINDOW_WORDS(w) ((size_t)32 * (size_t)(w))

/* Bytes of a log line, without its line feed. */
#define DILLPLATTER_LINE_BYTES 34

/* Bytes of an old line, one of the earlier edition's logs, without its line feed. */
#define DILLPLATTER_OLD_LINE_BYTES 14

/* Bytes of a report buffer: at least so many, which is what the longest report has. */
#define DILLPLATTER_REPORT_BYTES 166

/* Bytes of a view: the first so many of a report. */
#define DILLPLATTER_VIEW_BYTES 5

/* A tariff has 0 to so many bands. */
#define DILLPLATTER_BANDS_MOST 4

/* The last number of a band is 1 to so many. */
#define DILLPLATTER_LAST_MOST 1010000

/* A price is 0 to so many cents. */
#define DILLPLATTER_PRICE_MOST 10000

/* A surcharge is 0 to so many percent. */
#define DILLPLATTER_SURCHARGE_MOST 100

/* ---- stack ----
 *
 * Bytes of stack to count on for each call, its arguments and its result by value included. They are measured, with room to spare,
 * and not part of what is proved: examples/stack.c measures every call, on rules of the desk and of the board, and fails above its
 * figure. docs/MAKERS.md has what was measured, and how. DILLPLATTER_STACK_OPEN is for both openings. */

#define DILLPLATTER_STACK_OPEN 4096
#define DILLPLATTER_STACK_FEED 8192
#define DILLPLATTER_STACK_PULL 8192
#define DILLPLATTER_STACK_VIEW 256
#define DILLPLATTER_STACK_RAISE 512
#define DILLPLATTER_STACK_LOWER 512
#define DILLPLATTER_STACK_CHARGE 4096

/* Reading a text of depth at most 16. A deeper one is no rule. Depth is how many groups, `!` and `->` stand around a point of the
 * text; docs/RULES.md has it exactly. */
#define DILLPLATTER_STACK_READ 8192

/* Reading any text. One with 1,000 opening braces takes a thousand levels: a text that is too deep is still read to its end. */
#define DILLPLATTER_STACK_READ_ANY 204800

/* ---- answers and refusals ---- */

/* The field `answer` of what read, open, open_board, feed and pull give. View, raise, lower and charge have none: they are refused
 * where their number is not 0. */
enum dillplatter_answer {
    DILLPLATTER_REFUSED = 0,  /* any of them: `number` and `place` say why and where; lent memory is unchanged */
    DILLPLATTER_READ = 1,     /* read: the buffer holds the frames */
    DILLPLATTER_OPENED = 2,   /* open, open_board: the state is that of a fresh checker, the window is cleared */
    DILLPLATTER_ACCEPTED = 3, /* feed: the line is counted */
    DILLPLATTER_IGNORED = 4,  /* feed: the rule does not reference the line's event; nothing has changed */
    DILLPLATTER_WAITING = 5,  /* pull: the next instance is not settled yet; nothing has changed */
    DILLPLATTER_TRUE = 6,     /* pull: the verdict of the next instance is true */
    DILLPLATTER_FALSE = 7,    /* pull: it is false, and the report says by which notes */
    DILLPLATTER_UNKNOWN = 8   /* pull: it is unknown */
};

/* The field `number` of every result, which dillplatter_view returns: the calls that give it, what is wrong, and what `place` is.
 * Places count from 0: bytes of a text or a line, where a token's place is its first byte, and frames at opening. Where no place is
 * named it is 0. Each call gives the first number that holds, in the order that stands with the call. docs/REFUSALS.md has the same
 * as one table. */
enum dillplatter_refusal {
    DILLPLATTER_NO_REFUSAL = 0,
    DILLPLATTER_BUFFER_SIZE = 1,   /* read: the frame buffer isn't 512 bytes */
    DILLPLATTER_TEXT_SIZE = 2,     /* read: the text has 0 or over 1,024 bytes */
    DILLPLATTER_GRAMMAR = 3,       /* read: outside the grammar; place: the first token that with those before it begins no rule,
                                      the length if the text ends early */
    DILLPLATTER_NAME = 4,          /* read: a name over 12 letters, twice in its list, a 9th event, a 5th note, or undeclared in its
                                      role; place: the first such name */
    DILLPLATTER_NUMBER = 5,        /* read: a number beyond its limit; place: the first such number */
    DILLPLATTER_DEPTH = 6,         /* read: depth over 16 or over 64 frames */
    DILLPLATTER_NO_REFERENCE = 7,  /* read, open, open_board: the rule has no reference */
    DILLPLATTER_MAGNITUDE = 8,     /* read, open, open_board: a sum or a side of a relation whose magnitude is over 2^62. A magnitude
                                      is a bound on its value, after both sides are brought to one count of decimals */
    DILLPLATTER_FRAMES_SIZE = 9,   /* open, open_board: the frames' length isn't 8 to 512 in steps of 8 */
    DILLPLATTER_FRAMES_ORDER = 10, /* open, open_board: not a rule in postfix order with fields within the limits; place: the first
                                      frame that with those before it begins no such rule of any length, their count if only the
                                      end is wrong. A scale may stand first only, with at most 6 decimals; a literal has at most
                                      6, and none in a rule without a scale */
    DILLPLATTER_WINDOW_WIDTH = 11, /* open, open_board: W outside 1 to 256, or a window not 32 * W words */
    DILLPLATTER_BAD_STATE = 12,    /* feed, pull, charge: a state whose profile is neither 0 nor 1, whose frames or W an opening with
                                      that profile would refuse, a count over 1,000,000, p over 1,009,999 or below the start,
                                      totals not summing to p less the start, a count other than 0 of an event that the rule
                                      doesn't reference, or a count above base plus W. p is the field `next`, the start what it
                                      was in the opened state */
    DILLPLATTER_WINDOW_SIZE = 13,  /* feed, pull: a window not 32 * W words, with the W of the state */
    DILLPLATTER_REPORT_SIZE = 14,  /* pull, view: a report buffer under 166 bytes */
    DILLPLATTER_BAD_LINE = 15,     /* feed, lower: a line that isn't 34 digits 0-9, A-F or a-f; place: the lower of the first byte
                                      that is none and the shorter of the length and 34 */
    DILLPLATTER_LINES_MOST = 16,   /* feed: that event has 1,000,000 lines already */
    DILLPLATTER_WINDOW_FULL = 17,  /* feed: the count of that event has reached base plus W ('window full'). There is no room for
                                      another line of it until more verdicts are pulled. An event's base is the smallest line number
                                      of it that instance `next` refers to, 0 where that is negative */
    DILLPLATTER_DECIMALS = 18,     /* read: more than 6 decimals in the clause `scale k;` or in a literal; place: the first such
                                      number. In the clause by the number's value, in a literal by its digits after the point */
    DILLPLATTER_BAD_OLD_LINE = 23, /* raise: an old line that isn't 14 digits 0-9, A-F or a-f; place: the lower of the first byte
                                      that is none and the shorter of the length and 14 */
    DILLPLATTER_FOURTH_NOTE = 24,  /* lower: a fourth note other than 0 */
    DILLPLATTER_WIDE_NOTE = 25,    /* lower: one of the first three notes that 16 bits can't hold; place: the first such note's
                                      first digit. So one below -32,768 or above 32,767; the place is 2, 10 or 18 */
    DILLPLATTER_BOARD_LIMITS = 26, /* open_board: W over 32 or over 16 frames, at a board opening */
    DILLPLATTER_WINDOW_SUM = 27,   /* feed, pull: the sum of the window's words, modulo 2^32, differs from the state's. So the
                                      window is not the one that the last call that was not refused left with this state:
                                      somebody wrote into it, or the state is that of another moment */
    DILLPLATTER_TARIFF_BANDS = 28, /* charge: more than four bands, or last numbers that don't rise strictly from above 0 or exceed
                                      1,010,000 */
    DILLPLATTER_TARIFF_PRICES = 29 /* charge: a price over 10,000 cents or a surcharge over 100 percent */
};

/* ---- frames ----
 *
 * A rule as dillplatter_read writes it and a state has it: at most 64 frames of 8 bytes, in postfix order, left operand first. So
 * what an operator joins stands before it. Of a rule with the clause `scale k;` the first frame has the scale, and counts among the
 * 64. docs/RULES.md has the frames of a rule, byte by byte. */

/* The places of a frame's bytes. Those that a kind does not use are 0. */
enum dillplatter_frame_byte {
    DILLPLATTER_FRAME_KIND = 0,     /* enum dillplatter_kind */
    DILLPLATTER_FRAME_EVENT = 1,    /* of a reference: the event's number, 0 to 7 */
    DILLPLATTER_FRAME_DECIMALS = 1, /* the same byte. Of a scale: how many decimals each note has, 0 to 6; of a literal: how many it
                                       has itself, 0 to 6, and 0 in a rule without a scale */
    DILLPLATTER_FRAME_NOTE = 2,     /* of a reference: the note's number, 0 to 3 */
    DILLPLATTER_FRAME_FACTOR = 3,   /* of a reference: the factor of i, 1 to 9 */
    DILLPLATTER_FRAME_VALUE = 4     /* 4 to 7, signed, the most significant first, as dillplatter_signed reads them: of a reference
                                       its offset, -9,999 to 9,999, of a literal its digits without the point, 0 to 2,147,483,647 */
};

/* The kinds of frames. */
enum dillplatter_kind {
    DILLPLATTER_KIND_LITERAL = 0x01,
    DILLPLATTER_KIND_INSTANCE = 0x02, /* i */
    DILLPLATTER_KIND_REFERENCE = 0x03,
    DILLPLATTER_KIND_SCALE = 0x04, /* the clause `scale k;`: the first frame of a rule that has it, and no other */
    DILLPLATTER_KIND_ADD = 0x11,   /* of two sums, as the next two */
    DILLPLATTER_KIND_SUBTRACT = 0x12,
    DILLPLATTER_KIND_MULTIPLY = 0x13,
    DILLPLATTER_KIND_ABSOLUTE = 0x14, /* abs, of one sum */
    DILLPLATTER_KIND_EQUAL = 0x21,    /* of two sums, as the other relations */
    DILLPLATTER_KIND_UNEQUAL = 0x22,
    DILLPLATTER_KIND_LESS = 0x23,
    DILLPLATTER_KIND_AT_MOST = 0x24,
    DILLPLATTER_KIND_MORE = 0x25,
    DILLPLATTER_KIND_AT_LEAST = 0x26,
    DILLPLATTER_KIND_NOT = 0x31, /* of one condition */
    DILLPLATTER_KIND_AND = 0x32, /* of two conditions, as the next two */
    DILLPLATTER_KIND_OR = 0x33,
    DILLPLATTER_KIND_IMPLIES = 0x34
};

/* ---- what calls take and give ---- */

/* A profile: to which limits of W and frames a checker keeps. It is chosen at opening and stays in the state. */
enum dillplatter_profile {
    DILLPLATTER_DESK = 0, /* from dillplatter_open: W at most 256, at most 64 frames */
    DILLPLATTER_BOARD = 1 /* from dillplatter_open_board: W at most 32, at most 16 frames */
};

/* The verdicts pulled so far: how many were true, false, unknown. Their sum is `next` of the state less the rule's start, the
 * instance that `next` was in the opened state. */
typedef struct dillplatter_totals {
    uint32_t held, failed, unknown;
} dillplatter_totals;

/* What a checker carries from call to call, beside the window: hand on what the last call gave back. A caller may read it and
 * copy it; a copy of the state together with a copy of the window, both made between the same two calls, is a second checker. */
typedef struct dillplatter_state {
    uint8_t frames[DILLPLATTER_FRAME_BUFFER]; /* the rule, zero after its last frame */
    uint32_t len;                             /* its number of frames, 1 to 64; 0 in the state of a refused opening */
    uint32_t width;                           /* W */
    uint32_t profile;                         /* enum dillplatter_profile; 0 in the state of a refused opening too */
    uint32_t counts[8];                       /* accepted lines of each event */
    uint32_t next;                            /* the instance that the next pull is about; opening sets it to the start */
    dillplatter_totals totals;
    uint32_t sum;                             /* of the window's words, each as its 32 bits, modulo 2^32; 0 in an opened state, where
                                                 all words are 0, and in the state of a refused opening */
} dillplatter_state;

/* What dillplatter_read gives. */
typedef struct dillplatter_reading {
    uint32_t answer; /* DILLPLATTER_READ or DILLPLATTER_REFUSED */
    uint32_t number; /* the refusal's, else 0 */
    uint32_t place;  /* the refusal's, else 0 */
    uint32_t frames; /* how many frames the rule has, 1 to 64; 0 if refused */
} dillplatter_reading;

/* What dillplatter_open, dillplatter_open_board, dillplatter_feed and dillplatter_pull give. */
typedef struct dillplatter_result {
    dillplatter_state state; /* to hand to the next call */
    uint32_t answer;         /* enum dillplatter_answer */
    uint32_t number;         /* the refusal's, else 0 */
    uint32_t place;          /* the refusal's, else 0 */
} dillplatter_result;

/* A part of lent memory, which dillplatter_view takes and gives: so many bytes, from the first on. */
typedef struct dillplatter_part {
    const uint8_t *bytes;
    size_t len;
} dillplatter_part;

/* What dillplatter_raise gives. */
typedef struct dillplatter_raised {
    uint32_t number;                      /* the refusal's, else 0 */
    uint32_t place;                       /* the refusal's, else 0 */
    uint8_t line[DILLPLATTER_LINE_BYTES]; /* the log line, in capitals; bytes of value 0 if refused */
} dillplatter_raised;

/* What dillplatter_lower gives. */
typedef struct dillplatter_lowered {
    uint32_t number;                          /* the refusal's, else 0 */
    uint32_t place;                           /* the refusal's, else 0 */
    uint8_t line[DILLPLATTER_OLD_LINE_BYTES]; /* the old line, in capitals; bytes of value 0 if refused */
} dillplatter_lowered;

/* The rework tariff of a service contract, which dillplatter_charge takes. Of `lasts` and `prices` the first `bands` entries count;
 * the others are not looked at. */
typedef struct dillplatter_tariff {
    uint32_t bands;                          /* how many bands there are, 0 to 4 */
    uint32_t lasts[DILLPLATTER_BANDS_MOST];  /* the last number of each band, rising strictly, 1 to 1,010,000 */
    uint32_t prices[DILLPLATTER_BANDS_MOST]; /* the price of each violation in the band, in cents, 0 to 10,000 */
    uint32_t beyond;                         /* the price of each violation after the last band, in cents, 0 to 10,000 */
    uint32_t surcharge;                      /* in percent, 0 to 100 */
} dillplatter_tariff;

/* What dillplatter_charge gives. */
typedef struct dillplatter_charged {
    uint32_t number; /* the refusal's, else 0 */
    uint32_t place;  /* 0: none of its refusals names one */
    uint64_t cents;  /* what the violations cost; 0 if refused */
} dillplatter_charged;

/* ---- the calls ---- */

/* Reads a rule's text.
 * Answers: read, with the number of frames; or refused with 1, 2, 3, 4, 5, 18, 6, 7 or 8, in this order: the first of them
 * that holds of the whole text.
 * Writes: where read, all 512 bytes of `frames`: the rule's frames, and zero after the last. Where refused, none.
 * Memory: `text` is only read. Both are the caller's, before and after. They must not overlap.
 * Stack: count on DILLPLATTER_STACK_READ bytes for a text of depth at most 16, and on DILLPLATTER_STACK_READ_ANY, about 200 KB, for any
 * text. Where the stack is small, read rules elsewhere, as on another machine or when the controller is built: keep the frames, and
 * call only dillplatter_open or dillplatter_open_board, which check them again, whatever they are. */
dillplatter_reading dillplatter_read(const uint8_t *text, size_t text_len, uint8_t *frames, size_t frames_len);

/* Opens a checker for a rule, with window width W and the desk's limits: W at most 256, at most 64 frames.
 * `frames` is exactly the rule's frames: of a buffer that dillplatter_read filled, the first 8 * reading.frames bytes. They are
 * copied into the state, and are checked whether or not they come from dillplatter_read.
 * Answers: opened; or refused with 9, 10, 7, 8 or 11, checked in this order.
 * Gives: where opened, the state of a fresh checker: `profile` 0, no line, no verdict, `sum` 0, and `next` at the rule's start, its
 * first instance with a reference whose line number is not below 0. It is 0 for a rule with a reference whose offset is 0 or more, 2
 * for t(a[i-2]) > 0, at most 9,999. Where refused, the state that is zero throughout, which feed, pull and charge refuse with 12.
 * Writes: where opened, all words of `window`, to 0. Where refused, none.
 * Memory: `frames` is only read, and not needed after the call. The window stays the caller's; between the calls on this checker
 * nobody may change it, though feed and pull see a change of one word (27). They must not overlap.
 * Stack: count on DILLPLATTER_STACK_OPEN bytes. */
dillplatter_result dillplatter_open(const uint8_t *frames, size_t frames_len, uint32_t width, int32_t *window, size_t window_len);

/* Opens a checker on the board inside the plotter: as dillplatter_open, with the board's limits, W at most 32 and at most 16 frames.
 * Answers: opened; or refused with 9, 10, 7, 8, 11 or 26, checked in this order. 11 is the desk's: with W 257, or with W 33 and a
 * window that is not of 1,056 words, it comes before 26. 26 names no place.
 * Gives: where opened, the state that dillplatter_open gives for the same frames and W, but that `profile` is 1. Where refused, the
 * state that is zero throughout, `profile` too, which feed, pull and charge refuse with 12.
 * Writes: where opened, all words of `window`, to 0. Where refused, none.
 * Memory: as with dillplatter_open.
 * Stack: count on DILLPLATTER_STACK_OPEN bytes.
 *
 * All other calls are the same for both: a board's checker answers as a desk's with the same frames, W and lines. Every feed and pull
 * hands `profile` on as it was given, and with charging they refuse a state of the board above its limits with 12. */
dillplatter_result dillplatter_open_board(const uint8_t *frames, size_t frames_len, uint32_t width, int32_t *window,
                                          size_t window_len);

/* Feeds one log line: 34 digits 0-9, A-F or a-f, the event (2 digits) and four notes (8 digits each, signed, the most
 * significant first). The case of a letter never counts. The line feed is not part of it. A rule with the clause `scale k;` takes
 * each note as a number with k decimals: with `scale 1;` the note 125 is 12.5.
 * Answers: accepted; ignored; or refused with 12, 13, 27, 15, 16 or 17, checked in this order, an event that the rule does not
 * reference being ignored after 15. Ignored and refused lines change neither state nor window. After 17, pull, then feed the
 * same line again. After 27, open anew ("a window that somebody wrote into", below).
 * Gives: where accepted, the state with that event's count one higher and the sum of the window as it is now; else the state that
 * it was given.
 * Writes: where accepted, at most the four words of that line in `window`. Else none.
 * Memory: `line` is only read, and not needed after the call. `window` must not overlap it.
 * Stack: count on DILLPLATTER_STACK_FEED bytes. */
dillplatter_result dillplatter_feed(dillplatter_state state, int32_t *window, size_t window_len, const uint8_t *line, size_t line_len);

/* Pulls the verdict of the next instance, number `state.next`.
 * Answers: true, false or unknown, where that instance is settled; waiting, where it isn't yet; or refused with 12, 13, 27 or 14,
 * checked in this order. Waiting and refused pulls change nothing. After 27, open anew.
 * Gives: with a verdict, the state with `next` and that verdict's total one higher; else the state that it was given. The sum stays.
 * Writes: where false, the first 6 + 5 * references bytes of `report`, at most 166; its later bytes keep. Else none.
 * Memory: `window` is only read. The report buffer is the caller's. They must not overlap.
 * Stack: count on DILLPLATTER_STACK_PULL bytes.
 *
 * A report: the instance (4 bytes, the most significant first), 00, the number of the rule's references (1 byte), then for each
 * reference in the order of the frames a mark (00 present, 01 pending, 02 void) and the note's value (4 bytes, signed, 0 unless
 * present). The value is the note as the line has it, whatever the rule's scale. */
dillplatter_result dillplatter_pull(dillplatter_state state, const int32_t *window, size_t window_len, uint8_t *report, size_t report_len);

/* Makes a report buffer its view: what machine hands may see of a report, its instance and its verdict, and none of the notes'
 * values. `*part` is the report buffer, whole, before the call, and the view after it: a part of the same memory, no copy.
 * Answers: DILLPLATTER_NO_REFUSAL, and the view is the buffer's first 5 bytes; or refused with 14, DILLPLATTER_REPORT_SIZE, and the
 * view is empty: it begins where the buffer does and has length 0. The refusal has no place.
 * Writes: `*part`, and no byte of the buffer.
 * Memory: `*part` must not overlap the buffer. The call looks at no byte of the buffer, so only after a pull into it that answered
 * false does the view show a report; and with the next such pull it shows the next one.
 * Stack: count on DILLPLATTER_STACK_VIEW bytes.
 *
 * What an operator panel does with it: after each pull that answers false, the controller makes a part of its report buffer, calls
 * dillplatter_view on it, and hands the panel the view in place of the report. The panel reads the instance from the first 4 bytes
 * (dillplatter_report_instance) and the verdict, 00 for false, from the fifth, and shows that this instance failed. It learns nothing
 * else of the log: for one rule, two logs give the same views in the same order exactly where the same instances were reported with
 * the same verdicts. C does not hold a panel to the length: to one that is not trusted, send a copy of the 5 bytes. */
uint32_t dillplatter_view(dillplatter_part *part);

/* Raises an old line to a log line. An old line is 14 digits 0-9, A-F or a-f, the event (2 digits) and three notes (4 digits each,
 * signed, the most significant first). The case of a letter never counts. The line feed is not part of it.
 * Answers: `number` DILLPLATTER_NO_REFUSAL; or refused with 23.
 * Gives: where not refused, the 34 digits of the log line with the same event, the same three notes, signed, and the fourth note 0,
 * in capitals. Where refused, 34 bytes of value 0, which are no line. Lowered again, a raised line gives the old line in capitals.
 * Writes: no lent byte.
 * Memory: `old_line` is only read, and not needed after the call.
 * Stack: count on DILLPLATTER_STACK_RAISE bytes. */
dillplatter_raised dillplatter_raise(const uint8_t *old_line, size_t old_len);

/* Lowers a log line, as dillplatter_feed takes it, to an old line, where nothing is lost.
 * Answers: `number` DILLPLATTER_NO_REFUSAL; or refused with 15, 24 or 25, checked in this order.
 * Gives: where not refused, the 14 digits of the old line with the same event and the same first three notes, in capitals. Where
 * refused, 14 bytes of value 0, which are no line. Raised again, a lowered line gives the log line in capitals.
 * Writes: no lent byte.
 * Memory: `line` is only read, and not needed after the call.
 * Stack: count on DILLPLATTER_STACK_LOWER bytes. */
dillplatter_lowered dillplatter_lower(const uint8_t *line, size_t line_len);

/* Charges rework: tells what the violations that a checker has found cost by a tariff. Their count is `state.totals.failed`.
 * The price of violation k, from 1, is that of the first band whose last number is at least k, else the price beyond. With no band
 * at all, each has the price beyond. The prices of all violations are summed, the surcharge is added, which makes
 * sum * (100 + surcharge) / 100, and this is rounded half up to the cent, once. With 45 cents to 10, 30 to 100, 12 beyond and
 * 7 percent, 12 violations cost 546 cents. More violations never cost less.
 * Answers: `number` DILLPLATTER_NO_REFUSAL; or refused with 28, 29 or 12, checked in this order. None of these has a place.
 * Gives: where not refused, the cents, at most 20,199,980,000, which 32 bits do not hold. Where refused, 0 cents; violations may
 * cost 0 cents too, so look at `number`.
 * Writes: no lent byte.
 * Memory: none is lent. The state is only read, and serves the next call.
 * Stack: count on DILLPLATTER_STACK_CHARGE bytes.
 *
 * What a controller has to see to: the count is that of all violations since the checker was opened, so one that charges twice
 * charges the earlier violations twice. A fresh checker, such as one opened after a refused line, begins at 0 again: charge each
 * checker before it is let go; the bands begin anew with each. Where a contract has bands that go on over several checkers, the
 * controller adds their counts and computes the price itself. */
dillplatter_charged dillplatter_charge(dillplatter_state state, dillplatter_tariff tariff);

/* ---- a window that somebody wrote into ----
 *
 * For makers who share memory with drivers. A stray word, one that a driver wrote into the window between two calls, could make a
 * verdict wrong in silence. The state keeps the sum of the window's words, and every feed and every pull that 12 and 13 let through
 * compares it with the window's before it goes by any word; where they differ it is refused, whatever line or report buffer it was
 * given. Charging and viewing take no window and do not compare.
 * - What is sure: a window that differs in one word from the one that the last call that was not refused left with this state is
 *   always refused. So one stray word is seen by the next feed or pull, before it can make a verdict wrong.
 * - What is not: changes of several words may pass, as their differences may cancel out: one word 1 higher and another 1 lower, or two
 *   words exchanged. A word that is written during a call may pass too. To keep others off the window stays the caller's duty; 27 is
 *   for where that has failed.
 * - What it costs: each feed and pull adds up all 32 * W words, 32 additions for each unit of W. So choose W no larger than the rule
 *   and the lines need (docs/MAKERS.md).
 * - What to do on 27: the refused call changed nothing and counted no line, but the note whose place the stray word took is gone.
 *   Open anew. Where the log is kept, feed it again; the fresh checker finds the same violations once more, so charge only that one.
 *   Else charge the old state first, which 27 does not hinder, and go on with the lines that follow. Or put back a copy of the window
 *   that was made when this state was given: then the same call may be made again.
 * - A state and a window of different moments do not go together. An older copy of the state with a newer window is refused with 27
 *   unless their sums agree, as they do where no line was stored between the two. */

/* ---- the same with a pointer to the state ----
 * Each replaces *state by the state that the call gives back, and returns the rest. After a refused opening *state is zero
 * throughout. *state must not overlap the lent memory. Stack: as with the call itself. */

typedef struct dillplatter_told {
    uint32_t answer, number, place;
} dillplatter_told;

static inline dillplatter_told dillplatter_kept(dillplatter_state *state, const dillplatter_result *result) {
    dillplatter_told told;
    told.answer = result->answer;
    told.number = result->number;
    told.place = result->place;
    *state = result->state;
    return told;
}

static inline dillplatter_told dillplatter_open_at(dillplatter_state *state, const uint8_t *frames, size_t frames_len, uint32_t width,
                                                   int32_t *window, size_t window_len) {
    dillplatter_result result = dillplatter_open(frames, frames_len, width, window, window_len);
    return dillplatter_kept(state, &result);
}

static inline dillplatter_told dillplatter_open_board_at(dillplatter_state *state, const uint8_t *frames, size_t frames_len,
                                                         uint32_t width, int32_t *window, size_t window_len) {
    dillplatter_result result = dillplatter_open_board(frames, frames_len, width, window, window_len);
    return dillplatter_kept(state, &result);
}

static inline dillplatter_told dillplatter_feed_at(dillplatter_state *state, int32_t *window, size_t window_len, const uint8_t *line,
                                                   size_t line_len) {
    dillplatter_result result = dillplatter_feed(*state, window, window_len, line, line_len);
    return dillplatter_kept(state, &result);
}

static inline dillplatter_told dillplatter_pull_at(dillplatter_state *state, const int32_t *window, size_t window_len, uint8_t *report,
                                                   size_t report_len) {
    dillplatter_result result = dillplatter_pull(*state, window, window_len, report, report_len);
    return dillplatter_kept(state, &result);
}

/* ---- lines and reports ----
 * Plain C, not part of what is proved. */

/* Marks of a report's references. */
enum dillplatter_mark { DILLPLATTER_PRESENT = 0, DILLPLATTER_PENDING = 1, DILLPLATTER_VOID = 2 };

/* Writes the 34 digits of a log line, in capitals. */
static inline void dillplatter_line(uint8_t line[DILLPLATTER_LINE_BYTES], uint8_t event, const int32_t notes[4]) {
    static const char digits[] = "0123456789ABCDEF";
    int note, digit;
    line[0] = (uint8_t)digits[event / 16];
    line[1] = (uint8_t)digits[event % 16];
    for (note = 0; note < 4; note++)
        for (digit = 0; digit < 8; digit++)
            line[2 + 8 * note + digit] = (uint8_t)digits[((uint32_t)notes[note] >> (28 - 4 * digit)) & 15];
}

/* Four bytes, the most significant first. */
static inline uint32_t dillplatter_word(const uint8_t *bytes) {
    return (uint32_t)bytes[0] << 24 | (uint32_t)bytes[1] << 16 | (uint32_t)bytes[2] << 8 | (uint32_t)bytes[3];
}

/* The same as a signed number, as values and offsets are. */
static inline int32_t dillplatter_signed(const uint8_t *bytes) {
    uint32_t word = dillplatter_word(bytes);
    return word <= (uint32_t)INT32_MAX ? (int32_t)word : (int32_t)(word - (uint32_t)INT32_MAX - 1) + INT32_MIN;
}

/* The instance that a report, or its view, is about. */
static inline uint32_t dillplatter_report_instance(const uint8_t *report) { return dillplatter_word(report); }

/* How many references it has, 1 to 32. */
static inline uint32_t dillplatter_report_references(const uint8_t *report) { return report[5]; }

/* The mark of reference k, from 0. */
static inline uint32_t dillplatter_report_mark(const uint8_t *report, uint32_t k) { return report[6 + 5 * k]; }

/* The value of reference k. */
static inline int32_t dillplatter_report_value(const uint8_t *report, uint32_t k) { return dillplatter_signed(report + 7 + 5 * k); }

/* ---- the layout that the library expects ---- */

#if defined(__cplusplus)
#define DILLPLATTER_HOLDS(fact) static_assert(fact, #fact)
#elif defined(__STDC_VERSION__) && __STDC_VERSION__ >= 201112L
#define DILLPLATTER_HOLDS(fact) _Static_assert(fact, #fact)
#else
#error "dillplatter.h needs C11 or C++11"
#endif

DILLPLATTER_HOLDS(sizeof(dillplatter_totals) == 12);
DILLPLATTER_HOLDS(sizeof(dillplatter_state) == 576);
DILLPLATTER_HOLDS(offsetof(dillplatter_state, frames) == 0);
DILLPLATTER_HOLDS(offsetof(dillplatter_state, len) == 512);
DILLPLATTER_HOLDS(offsetof(dillplatter_state, width) == 516);
DILLPLATTER_HOLDS(offsetof(dillplatter_state, profile) == 520);
DILLPLATTER_HOLDS(offsetof(dillplatter_state, counts) == 524);
DILLPLATTER_HOLDS(offsetof(dillplatter_state, next) == 556);
DILLPLATTER_HOLDS(offsetof(dillplatter_state, totals) == 560);
DILLPLATTER_HOLDS(offsetof(dillplatter_state, sum) == 572);
DILLPLATTER_HOLDS(sizeof(dillplatter_reading) == 16);
DILLPLATTER_HOLDS(offsetof(dillplatter_reading, frames) == 12);
DILLPLATTER_HOLDS(sizeof(dillplatter_result) == 588);
DILLPLATTER_HOLDS(offsetof(dillplatter_result, answer) == 576);
DILLPLATTER_HOLDS(offsetof(dillplatter_result, number) == 580);
DILLPLATTER_HOLDS(offsetof(dillplatter_result, place) == 584);
DILLPLATTER_HOLDS(sizeof(dillplatter_part) == 16);
DILLPLATTER_HOLDS(offsetof(dillplatter_part, bytes) == 0);
DILLPLATTER_HOLDS(offsetof(dillplatter_part, len) == 8);
DILLPLATTER_HOLDS(sizeof(dillplatter_raised) == 44);
DILLPLATTER_HOLDS(offsetof(dillplatter_raised, number) == 0);
DILLPLATTER_HOLDS(offsetof(dillplatter_raised, place) == 4);
DILLPLATTER_HOLDS(offsetof(dillplatter_raised, line) == 8);
DILLPLATTER_HOLDS(sizeof(dillplatter_lowered) == 24);
DILLPLATTER_HOLDS(offsetof(dillplatter_lowered, number) == 0);
DILLPLATTER_HOLDS(offsetof(dillplatter_lowered, place) == 4);
DILLPLATTER_HOLDS(offsetof(dillplatter_lowered, line) == 8);
DILLPLATTER_HOLDS(sizeof(dillplatter_tariff) == 44);
DILLPLATTER_HOLDS(offsetof(dillplatter_tariff, bands) == 0);
DILLPLATTER_HOLDS(offsetof(dillplatter_tariff, lasts) == 4);
DILLPLATTER_HOLDS(offsetof(dillplatter_tariff, prices) == 20);
DILLPLATTER_HOLDS(offsetof(dillplatter_tariff, beyond) == 36);
DILLPLATTER_HOLDS(offsetof(dillplatter_tariff, surcharge) == 40);
DILLPLATTER_HOLDS(sizeof(dillplatter_charged) == 16);
DILLPLATTER_HOLDS(offsetof(dillplatter_charged, number) == 0);
DILLPLATTER_HOLDS(offsetof(dillplatter_charged, place) == 4);
DILLPLATTER_HOLDS(offsetof(dillplatter_charged, cents) == 8);
DILLPLATTER_HOLDS(sizeof(size_t) == 8 && sizeof(void *) == 8);

#undef DILLPLATTER_HOLDS

#ifdef __cplusplus
}
#endif

#endif
