/* Turns a log of the earlier edition, with lines of 14 digits, on standard input into a new one, with lines of 34 digits, on
 * standard output: one line for each. LF ends a line of the old log, and the last may lack it; nothing after the last LF is no
 * line. A line that is not 14 digits becomes an empty line, which dillplatter_feed refuses with 15, so that the others keep their
 * places; standard error tells its number, from 1, and the refusal. A CR is no digit: where lines end in CR LF, each is refused.
 * Status: 0 where every line was raised, 1 where some line was refused, 2 where reading or writing failed. */
#include <inttypes.h>
#include <stdio.h>

#include "dillplatter.h"

/* How many bytes of a line are kept. A line of so many or more is refused, and no byte after them changes the place. */
#define KEPT (DILLPLATTER_OLD_LINE_BYTES + 1)

enum { RAISED = 0, REFUSED = 1, FAILED = 2 };

/* Reads a line, its LF too, and keeps its first bytes, without the LF. Answers 0 where no line is left, or reading failed. */
static int next_line(uint8_t line[KEPT], size_t *len) {
    int byte = getchar();
    if (byte == EOF)
        return 0;
    for (*len = 0; byte != EOF && byte != '\n'; byte = getchar())
        if (*len < KEPT)
            line[(*len)++] = (uint8_t)byte;
    return !ferror(stdin);
}

/* Writes the new line for the old line of this number, an empty one where it is refused. */
static int raise_line(const uint8_t *line, size_t len, uintmax_t number) {
    dillplatter_raised raised = dillplatter_raise(line, len);
    int status = raised.number == DILLPLATTER_NO_REFUSAL ? RAISED : REFUSED;
    if (status == RAISED)
        fwrite(raised.line, 1, sizeof raised.line, stdout);
    else
        fprintf(stderr, "line %" PRIuMAX ": refused with %" PRIu32 " at %" PRIu32 "\n", number, raised.number, raised.place);
    putchar('\n');
    return status;
}

/* Raises line after line, until none is left or writing fails. */
static int raise_log(void) {
    uint8_t line[KEPT];
    size_t len;
    int status = RAISED;
    for (uintmax_t number = 1; !ferror(stdout) && next_line(line, &len); number++)
        if (raise_line(line, len, number) == REFUSED)
            status = REFUSED;
    return status;
}

int main(void) {
    int status = raise_log();
    int failed = ferror(stdin) || ferror(stdout);
    if (fclose(stdout) != 0 || failed) {
        fprintf(stderr, "reading or writing failed\n");
        status = FAILED;
    }
    return status;
}
