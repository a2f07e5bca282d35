/* The work of `relayd pass` on well-formed lines, as plainly as C does it.
 *
 * Reads standard input in large blocks, splits it at newlines and each line at
 * white space, checks the name and parses value and time, writes name, value
 * and time in one form, in large blocks, and counts bad lines. A value is
 * rounded to ten decimals, the even one of two that are as near, by whole
 * numbers of 128 bits. Left out, and so a bad line here: names beyond ASCII,
 * exponents, and more than 38 digits. */
#include <stdint.h>
#include <stdio.h>
#include <string.h>
#include <unistd.h>

enum { BLOCK = 65536, LONGEST = 16384, LONGEST_OUT = LONGEST + 50, MOST_DIGITS = 38, DECIMALS = 10 };

typedef unsigned __int128 wide;

static const uint64_t ONE = 10000000000u; /* ten-billionths, of which a value is a whole number */


static char in[BLOCK + LONGEST + 1], out[BLOCK + LONGEST_OUT];
static size_t filled, bad_lines;

static int is_white(unsigned char c) { return c == ' ' || (c >= 9 && c <= 13 && c != 10); }

static void flush(void) {
    for (size_t done = 0; done < filled;) {
        ssize_t n = write(1, out + done, filled - done);
        if (n <= 0) { fputs("output\n", stderr); _exit(3); }
        done += (size_t)n;
    }
    filled = 0;
}

/* The digits of a number, how many of them follow its point, and its sign. */
struct number { wide digits; int places, negative; };

static int number(const char *p, const char *end, struct number *n) {
    n->negative = p < end && *p == '-';
    if (p < end && (*p == '-' || *p == '+')) p++;
    const char *point = NULL, *from = p;
    uint64_t few = 0; /* up to 18 digits fit 64 bits */
    n->digits = 0;
    for (; p < end; p++) {
        unsigned char digit = (unsigned char)(*p - '0');
        if (*p == '.' && point == NULL) point = p;
        else if (digit >= 10) return 0;
        else if (p - from < 18) few = few * 10 + digit, n->digits = few;
        else n->digits = n->digits * 10 + digit;
        if (p - from > MOST_DIGITS) return 0;
    }
    n->places = point == NULL ? 0 : (int)(end - point) - 1;
    int digits = (int)(end - from) - (point != NULL);
    return digits > 0 && digits <= MOST_DIGITS;
}

static wide power_of_ten(int places) {
    wide power = 1;
    while (places-- > 0) power *= 10;
    return power;
}

/* The nearest number of ten-billionths; whether it is at most 2^63 in size. */
static int units_of(const struct number *n, wide *units) {
    wide most = ((wide)1 << 63) * ONE;
    if (n->places <= DECIMALS) {
        wide power = power_of_ten(DECIMALS - n->places);
        if (n->digits > most / power) return 0;
        *units = n->digits * power;
        return 1;
    }
    wide power = power_of_ten(n->places - DECIMALS), quotient = n->digits / power, rest = n->digits % power;
    wide other = power - rest;
    *units = quotient + (rest > other || (rest == other && quotient % 2 == 1));
    return *units <= most;
}

static char *decimal(char *to, uint64_t u) {
    char digits[20];
    size_t n = 0;
    do digits[n++] = (char)('0' + u % 10); while ((u /= 10) != 0);
    while (n) *to++ = digits[--n];
    return to;
}

/* The value with a sign, and its fraction without zeros at the end. */
static char *value_text(char *to, wide units, int negative) {
    uint64_t whole, part;
    if (units >> 64) whole = (uint64_t)(units / ONE), part = (uint64_t)(units % ONE);
    else whole = (uint64_t)units / ONE, part = (uint64_t)units % ONE;
    if (negative && units) *to++ = '-';
    to = decimal(to, whole);
    if (part == 0) return to;
    *to++ = '.';
    for (int place = DECIMALS; place > 0; place--, part /= 10) to[place - 1] = (char)('0' + part % 10);
    for (to += DECIMALS; to[-1] == '0';) to--;
    return to;
}

static void line(const char *p, const char *end) {
    const char *from[3], *to[3];
    int fields = 0;
    for (;;) {
        while (p < end && is_white((unsigned char)*p)) p++;
        if (p == end) break;
        if (fields == 3) { bad_lines++; return; }
        from[fields] = p;
        while (p < end && !is_white((unsigned char)*p)) p++;
        to[fields++] = p;
    }
    if (fields == 0) return;
    struct number value, time;
    wide units = 0, seconds = 0;
    int good = fields == 3;
    for (const char *c = from[0]; good && c < to[0]; c++) good = *c > 32 && *c < 127;
    good = good && number(from[1], to[1], &value) && units_of(&value, &units) && number(from[2], to[2], &time);
    if (good) seconds = time.places == 0 ? time.digits : time.digits / power_of_ten(time.places);
    if (!good || seconds > (time.negative ? 1 : (wide)1 << 53)) { bad_lines++; return; }
    size_t length = (size_t)(to[0] - from[0]);
    memcpy(out + filled, from[0], length);
    char *o = out + filled + length;
    *o++ = ' ';
    o = value_text(o, units, value.negative);
    *o++ = ' ';
    o = decimal(o, time.negative ? 0 : (uint64_t)seconds);
    *o++ = '\n';
    filled = (size_t)(o - out);
    if (filled >= BLOCK) flush();
}

int main(void) {
    size_t held = 0;
    int too_long = 0;
    for (;;) {
        ssize_t n = read(0, in + held, BLOCK);
        if (n < 0) { fputs("input\n", stderr); return 3; }
        if (n == 0) break;
        const char *p = in, *end = in + held + n, *newline;
        while ((newline = memchr(p, '\n', (size_t)(end - p))) != NULL && newline - p <= LONGEST) {
            line(p, newline);
            p = newline + 1;
        }
        flush(); /* what was read is written before the next read, which may wait */
        held = (size_t)(end - p);
        if ((too_long = held > LONGEST)) break;
        memmove(in, p, held);
    }
    if (too_long) fputs("line too long\n", stderr);
    if (bad_lines) fprintf(stderr, "bad lines %zu\n", bad_lines);
    return 0;
}
