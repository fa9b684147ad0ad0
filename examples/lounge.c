/* The lounge's loop: pictures that come in turn, again and again. One call of sign_reel plans a whole round, each
   picture from where the one before leaves the sign; then each is run and sent when its turn comes. A picture that
   cannot be shown is left out. A notice may break in: what is still to come is then planned anew. Not done here: how
   long a picture stands; the reserving of the wire (host.c); a full tally; the file and its mark, and recovery, with
   which a host begins whose sign was not switched on this moment, and which comes after a failed wire (station.c,
   docs/HOST.md).

   Build it after `make lib`:  cc -Iinclude -o lounge examples/lounge.c target/staticlib/libsign.a          */

#include <stdio.h>
#include <string.h>
#include "sign.h"

/* All that the host keeps of a sign: its condition, and the count of what was sent. */
static uint8_t block[SIGN_BLOCK];
static uint8_t tally[SIGN_TALLY];

/* The round: 40 codes and a cursor for each picture, and how many pictures there are. */
static uint8_t codes[SIGN_REEL * SIGN_CELLS], cursors[SIGN_REEL];
static size_t pictures;

/* What is planned of it: the plans end to end, and the length of each. */
static uint8_t plans[SIGN_REEL * SIGN_ROOM], lengths[SIGN_REEL];

/* Two lines of text as 40 codes, blanks where the text ends. */
static void set_lines(uint8_t *picture, const char *top, const char *bottom) {
    memset(picture, ' ', SIGN_CELLS);
    for (int i = 0; i < 20 && top[i] != 0; i++) picture[i] = (uint8_t)top[i];
    for (int i = 0; i < 20 && bottom[i] != 0; i++) picture[20 + i] = (uint8_t)bottom[i];
}

/* One picture more, with the cursor at 0; where there are 64 already it is not taken. */
static void add_picture(const char *top, const char *bottom) {
    if (pictures == SIGN_REEL) return;
    set_lines(codes + pictures * SIGN_CELLS, top, bottom);
    cursors[pictures++] = 0;
}

/* One picture less: the later ones move down. */
static void leave_out(size_t k) {
    pictures--;
    memmove(codes + k * SIGN_CELLS, codes + (k + 1) * SIGN_CELLS, (pictures - k) * SIGN_CELLS);
    memmove(cursors + k, cursors + k + 1, pictures - k);
}

/* Here the bytes would go to the wire. Answers 0, or -1 where they could not be sent. */
static int to_the_wire(const uint8_t *bytes, size_t n) {
    printf("%3zu bytes:", n);
    for (size_t i = 0; i < n && i < 16; i++) printf(" %02X", bytes[i]);
    printf(n > 16 ? " ..\n" : "\n");
    return fflush(stdout) != 0 ? -1 : 0;
}

/* Runs bytes on copies and sends them, in this order. Answers NULL, or what went wrong. */
static const char *run_and_send(const uint8_t *bytes, size_t n) {
    uint8_t next_block[SIGN_BLOCK], next_tally[SIGN_TALLY];
    memcpy(next_block, block, sizeof block);
    memcpy(next_tally, tally, sizeof tally);
    uint32_t refusal = sign_run(next_block, sizeof next_block, next_tally, sizeof next_tally, bytes, n);
    if (refusal != SIGN_ACCEPTED) return sign_refusal_text(refusal);
    if (to_the_wire(bytes, n) != 0) return "the wire failed: the glass is in doubt (docs/HOST.md, Recovery)";
    memcpy(block, next_block, sizeof block);
    memcpy(tally, next_tally, sizeof tally);
    return NULL;
}

/* Plans the round from picture k on, from what the sign shows now: the lengths passed are those of so many pictures,
   and not sizeof. A picture that cannot be shown is left out. Answers NULL, or what went wrong: then it is the call,
   or how the sign stands, and no picture could be planned. */
static const char *plan_from(size_t k) {
    for (;;) {
        size_t n = pictures - k;
        uint32_t answer = sign_reel(block, sizeof block, codes + k * SIGN_CELLS, n * SIGN_CELLS, cursors + k, n,
                                    lengths, sizeof lengths, plans, sizeof plans);
        uint32_t refusal = sign_reel_refusal(answer);
        if (refusal == SIGN_ACCEPTED) return NULL;
        size_t picture = k + sign_reel_picture(answer);
        if (sign_reel_picture(answer) == SIGN_REEL || (refusal != SIGN_OUT_OF_RANGE && refusal != SIGN_NO_CHARACTER))
            return sign_reel_text(answer);
        printf("picture %zu of the %zu that are left is taken out: %s\n", picture + 1, pictures,
               sign_reel_text(answer));
        leave_out(picture);
    }
}

/* Puts a notice on the sign; one that cannot be shown is left out. Answers NULL, or what went wrong. */
static const char *put_notice(const char *top, const char *bottom) {
    uint8_t wanted[SIGN_CELLS], plan[SIGN_ROOM];
    set_lines(wanted, top, bottom);
    uint32_t n = sign_plan(block, sizeof block, wanted, sizeof wanted, 0, plan, sizeof plan);
    if (n >= SIGN_REFUSED) { /* nothing changed: the round goes on */
        printf("the notice is left out: %s\n", sign_refusal_text(n - SIGN_REFUSED));
        return NULL;
    }
    return run_and_send(plan, n);
}

static uint32_t sent(void) { return sign_tally_number(tally, SIGN_NUMBER_BYTES); }

/* One round, from what the sign shows now; behind picture `notice`, from 0, a notice breaks in. Answers NULL, or what
   went wrong; after that nothing more of the round is sent, because its plans start from pictures that did not come. */
static const char *play(size_t notice) {
    uint32_t before = sent();
    const char *wrong = plan_from(0);
    if (wrong == NULL && pictures == 0) wrong = "there is no picture to show";
    const uint8_t *plan = plans, *length = lengths; /* of the picture whose turn it is */
    for (size_t k = 0; wrong == NULL && k < pictures; k++) {
        wrong = run_and_send(plan, *length);
        plan += *length++;
        /* here the picture stands for its time */
        if (wrong == NULL && k == notice) {
            wrong = put_notice("Lounge closes at 23", "");
            /* here the notice stands for its time */
            if (wrong == NULL) wrong = plan_from(k + 1); /* what was planned would start from a picture that is gone */
            plan = plans, length = lengths;
        }
    }
    if (wrong == NULL) printf("%u bytes in this round\n", (unsigned)(sent() - before));
    return wrong;
}

static int failed(const char *what) {
    if (what != NULL) printf("stopped: %s\n", what);
    return what != NULL;
}

int main(void) {
    enum { NO_NOTICE = SIGN_REEL };
    /* a sign that was just switched on (otherwise recovery first), link J6 open; the tally is 0 */
    if (sign_power_up(0, block, sizeof block) != SIGN_ACCEPTED) return 1;
    add_picture("Streaming lounge", "Deck 7, aft");
    add_picture("Tonight 20:00", "The long voyage");
    add_picture("Tonight 22:30", "The long voyage");
    add_picture("Boat drill 10:15", "Deck 7, all guests");

    /* The first round starts from a blank sign, the others from the last picture: from the second round on the bytes
       are the same, as long as nothing else is sent. */
    for (int round = 0; round < 3; round++)
        if (failed(play(NO_NOTICE))) return 1;

    /* 01h has no user character: this picture is left out, and the others come */
    add_picture("To the boats \x01", "");
    if (failed(play(NO_NOTICE))) return 1;

    /* an arrow on 01h (docs/HOST.md draws it) is run and sent between two rounds; then the picture can come */
    static const uint8_t arrow[] = {0x1B, 0x43, 0x01, 0x80, 0xA0, 0x8F, 0x08, 0x00};
    if (failed(run_and_send(arrow, sizeof arrow))) return 1;
    add_picture("To the boats \x01", "");
    if (failed(play(NO_NOTICE))) return 1;

    /* a notice behind the second picture: the other three are planned anew, from the notice */
    return failed(play(1));
}
