/* The smallest host: it keeps one sign, puts pictures on it with the fewest bytes, prints what the glass
   then shows, and looks at every answer. A host that survives a loss of power is station.c.

   Build it after `make lib`:  cc -Iinclude -o host examples/host.c target/staticlib/libsign.a          */

#include <stdio.h>
#include <string.h>
#include "sign.h"

enum { BYTE_US = 573 }; /* a byte on the wire at 19,200 baud, with its parity */

/* All that the host keeps of a sign: its condition, and the count of what was sent. */
static uint8_t block[SIGN_BLOCK];
static uint8_t tally[SIGN_TALLY];

/* Here the wire would be reserved for so many microseconds: others use it too. Answers 0, or -1 where it is
   not to be had now. */
static int reserve(unsigned long us) { return printf("reserved %lu us, ", us) < 0 ? -1 : 0; }

/* Here the bytes would go to the wire. Answers 0, or -1 where they could not be sent. */
static int to_the_wire(const uint8_t *bytes, size_t n) {
    printf("sent %zu bytes:", n);
    for (size_t i = 0; i < n; i++) printf(" %02X", bytes[i]);
    return printf("\n") < 0 ? -1 : 0;
}

static unsigned long worst(const uint8_t *t) { return sign_tally_number(t, SIGN_NUMBER_WORST); }

/* Runs bytes on copies and sends them, in this order: bytes that are refused must not reach the module,
   which would carry them out. In between the wire is reserved: for the bytes' own time there, and for what the
   run adds to the worst number, which is how long the module may be busy with them, flickerless or not.
   Answers NULL, or what went wrong. */
static const char *run_and_send(const uint8_t *bytes, size_t n) {
    uint8_t next_block[SIGN_BLOCK], next_tally[SIGN_TALLY];
    memcpy(next_block, block, sizeof block);
    memcpy(next_tally, tally, sizeof tally);
    uint32_t refusal = sign_run(next_block, sizeof next_block, next_tally, sizeof next_tally, bytes, n);
    if (refusal != SIGN_ACCEPTED) return sign_refusal_text(refusal);
    unsigned long us = BYTE_US * (unsigned long)n + worst(next_tally) - worst(tally);
    if (reserve(us) != 0) return "the wire is not free";
    if (to_the_wire(bytes, n) != 0) return "the wire failed: the glass is in doubt (docs/HOST.md, Recovery)";
    memcpy(block, next_block, sizeof block);
    memcpy(tally, next_tally, sizeof tally);
    return NULL;
}

/* Puts two lines of text on the sign and the cursor to a place. Answers NULL, or what went wrong. */
static const char *put(const char *top, const char *bottom, uint32_t cursor) {
    /* the wanted picture: 40 codes, blanks where the text ends */
    uint8_t codes[SIGN_CELLS];
    memset(codes, ' ', sizeof codes);
    for (int i = 0; i < 20 && top[i] != 0; i++) codes[i] = (uint8_t)top[i];
    for (int i = 0; i < 20 && bottom[i] != 0; i++) codes[20 + i] = (uint8_t)bottom[i];

    /* plan it; the answer is a length, or 256 and a refusal */
    uint8_t plan[SIGN_ROOM];
    uint32_t n = sign_plan(block, sizeof block, codes, sizeof codes, cursor, plan, sizeof plan);
    if (n >= SIGN_REFUSED) return sign_refusal_text(n - SIGN_REFUSED);
    return run_and_send(plan, n);
}

/* What one cell of the glass shows, as far as a terminal can. */
static int drawn(uint32_t position) {
    uint32_t shows = sign_view(block, sizeof block, position);
    if (shows >= SIGN_ASKED_REFUSED) return '!';
    if (shows == SIGN_BLANK) return ' ';
    if (shows == SIGN_EURO) return 'E';
    if (shows < SIGN_EURO) return '#'; /* a user character: sign_dot has its dots */
    int code = (int)(shows & 0xFF);
    return code <= 0x7E ? code : '?';
}

static void print_sign(void) {
    for (uint32_t line = 0; line < 2; line++) {
        printf("|");
        for (uint32_t column = 0; column < 20; column++) putchar(drawn(20 * line + column));
        printf("|\n");
    }
}

static int failed(const char *what) {
    if (what != NULL) printf("refused: %s\n", what);
    return what != NULL;
}

int main(void) {
    /* a sign that was just switched on, link J6 open; the tally is 0 */
    if (sign_power_up(0, block, sizeof block) != SIGN_ACCEPTED) return 1;

    if (failed(put("Welcome aboard", "Gate 4 opens 10:30", 0))) return 1;
    print_sign();

    /* only what differs is written */
    if (failed(put("Welcome aboard", "Gate 4 opens 10:45", 0))) return 1;
    print_sign();

    /* there is no place 40: the plan is refused, nothing changed, and nothing was sent */
    if (!failed(put("Welcome aboard", "Gate 7 opens 10:45", 40))) return 1;
    print_sign();

    /* an arrow as a user character on 01h (docs/HOST.md draws it), then a picture that shows it */
    static const uint8_t arrow[] = {0x1B, 0x43, 0x01, 0x80, 0xA0, 0x8F, 0x08, 0x00};
    if (failed(run_and_send(arrow, sizeof arrow))) return 1;
    if (failed(put("Welcome aboard", "Gate 4 \x01\x01\x01", 0))) return 1;
    print_sign();

    /* flickerless writing: from now on the module may be busy with each byte for 200 us more */
    static const uint8_t flickerless[] = {0x1B, 0x53};
    if (failed(run_and_send(flickerless, sizeof flickerless))) return 1;
    if (failed(put("Welcome aboard", "Gate 5 \x01\x01\x01", 0))) return 1;
    print_sign();

    /* from a full sign to a short notice: the plan clears it first (0E) */
    if (failed(put("Southport 10:45  R 1", "Northgate 11:10  R 2", 0))) return 1;
    print_sign();
    if (failed(put("Boat drill", "", 0))) return 1;
    print_sign();

    printf("bytes %lu, busy %lu us, at the worst %lu us\n",
           (unsigned long)sign_tally_number(tally, SIGN_NUMBER_BYTES),
           (unsigned long)sign_tally_number(tally, SIGN_NUMBER_BUSY), worst(tally));
    return 0;
}
