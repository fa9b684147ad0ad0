/* The fifteen cases of the bench sheet (document 01 and request W3), pictures of two fonts (request W1), a reel
   (request W5), strings vetted (request W11), one refusal of each number, a wrong length that is refused unread,
   the places and names of sign.h, and what docs/HOST.md advises (what ends half a command, recovery), through the
   C functions. Prints ok, or what failed. */

#include <stdio.h>
#include <stdlib.h>
#include <string.h>
#include "sign.h"

static uint8_t block[SIGN_BLOCK], tally[SIGN_TALLY], out[SIGN_FONTS_ROOM], want[SIGN_CELLS], fonts[SIGN_CELLS];
static int failures;

static void check(const char *what, int holds) {
    if (!holds) {
        printf("FAILED: %s\n", what);
        failures++;
    }
}

static uint32_t run(const uint8_t *bytes, size_t n) {
    return sign_run(block, sizeof block, tally, sizeof tally, bytes, n);
}

/* From power-up font 0 with a zero tally, these bytes. */
static void after(const uint8_t *bytes, size_t n) {
    memset(tally, 0, sizeof tally);
    check("power-up", sign_power_up(0, block, sizeof block) == 0);
    check("run", run(bytes, n) == 0);
}
#define AFTER(...) do { const uint8_t b_[] = {__VA_ARGS__}; after(b_, sizeof b_); } while (0)

static uint32_t number(int i) { return sign_tally_number(tally, (enum sign_number)i); }
static uint32_t busy(void) { return number(SIGN_NUMBER_BUSY); }
static int cell(int i) { return block[SIGN_CODES_AT + i]; }
static int cursor(void) { return block[SIGN_CURSOR_AT]; }
static uint32_t view(uint32_t position) { return sign_view(block, sizeof block, position); }

/* How many cells are not blank. */
static int written(void) {
    int n = 0;
    for (int i = 0; i < 40; i++) n += cell(i) != 0x20;
    return n;
}

static uint32_t plan(uint32_t asked) {
    memset(out, 0xEE, sizeof out);
    return sign_plan(block, sizeof block, want, sizeof want, asked, out, SIGN_ROOM);
}
static uint32_t plan_fonts(uint32_t asked) {
    memset(out, 0xEE, sizeof out);
    return sign_plan_fonts(block, sizeof block, want, sizeof want, fonts, sizeof fonts, asked, out, sizeof out);
}
static int planned(uint32_t n, const uint8_t *bytes, size_t length) {
    int rest = 1;
    for (size_t i = length; i < sizeof out; i++) rest &= out[i] == 0xEE;
    return n == length && memcmp(out, bytes, length) == 0 && rest;
}

/* Dot Pk of the user character on 21h. */
static uint32_t dot(uint32_t k) { return sign_dot(block, sizeof block, 0x21, k); }

static void bench_sheet(void) {
    uint8_t start[SIGN_BLOCK];

    after(want, 0);
    memcpy(start, block, sizeof start);
    check("1: power-up", written() == 0 && cursor() == 0 && block[SIGN_MODE_AT] == 1 && block[SIGN_LUMINANCE_AT] == 3 && block[SIGN_SPEED_AT] == 0x14);
    check("1", run(want, 0) == 0 && memcmp(block, start, sizeof start) == 0 && number(0) == 0 && busy() == 0);

    AFTER(0x41);
    check("2", cell(0) == 0x41 && written() == 1 && cursor() == 1 && busy() == 7);

    AFTER(0x1B, 0x48, 0x27, 0x42);
    check("3", cell(39) == 0x42 && written() == 1 && cursor() == 0 && busy() == 21);

    AFTER(0x12, 0x1B, 0x48, 0x27, 0x42);
    check("4", cell(19) == 0x42 && written() == 1 && cursor() == 20 && busy() == 40);

    AFTER(0x13, 0x1B, 0x48, 0x13, 0x41, 0x42);
    check("5", cell(18) == 0x41 && cell(19) == 0x42 && written() == 2 && cursor() == 19 && busy() == 47);

    AFTER(0x1B, 0x48, 0x28);
    check("6", memcmp(block, start, sizeof start) == 0 && busy() == 14);

    AFTER(0x1B, 0x43, 0x21, 0x84, 0x10, 0x02, 0x00, 0x01);
    uint32_t lit = 0;
    for (uint32_t k = 1; k <= 35; k++) lit += dot(k);
    check("7", dot(3) == 1 && dot(8) == 1 && dot(13) == 1 && dot(18) == 1 && dot(33) == 1 && lit == 5 && busy() == 55);
    check("7: asked", sign_lit(block, sizeof block, 0x21) == 5 && sign_underline(block, sizeof block, 0x21) == 0);

    AFTER(0x1B, 0x48, 0x14, 0x08);
    check("8", cursor() == 20);

    AFTER(0x1A, 0xAD);
    check("9: Euro", view(0) == SIGN_EURO && cell(0) == 0xAD);
    check("9: then 18", run((const uint8_t[]){0x18}, 1) == 0 && view(0) == SIGN_BLANK && cell(0) == 0xAD);

    AFTER(0x1B, 0x43, 0x09, 0, 0, 0, 0, 0, 0x09);
    memset(want, 0x20, sizeof want);
    check("10", cell(0) == 0x09 && written() == 1 && cursor() == 1 && plan(0) == SIGN_REFUSED + SIGN_USER_ON_MOVE);

    after(want, 0);
    want[0] = 0x41;
    want[21] = 0x42;
    const uint8_t eleven[] = {0x41, 0x0A, 0x42, 0x0C};
    check("11", planned(plan(0), eleven, sizeof eleven));
    check("12: run", run(eleven, sizeof eleven) == 0 && memcmp(block + SIGN_CODES_AT, want, 40) == 0 && number(0) == 4 && busy() == 26 && number(2) == 0);
    check("12", planned(plan(0), eleven, 0));

    AFTER(0x1B, 0x48, 0x05);
    memset(want, 0x41, sizeof want);
    uint8_t thirteen[44] = {0x0C};
    memset(thirteen + 1, 0x41, 40);
    memcpy(thirteen + 41, "\x1B\x48\x27", 3);
    check("13", planned(plan(39), thirteen, sizeof thirteen));

    AFTER(0x1B, 0x48, 0x14);
    memset(want, 0x20, sizeof want);
    const uint8_t fourteen[] = {0x1B, 0x48, 0x13};
    check("14", planned(plan(19), fourteen, sizeof fourteen));

    uint8_t bytes[18 * 8] = {0};
    for (int i = 0; i < 18; i++) {
        const uint8_t define[] = {0x1B, 0x43, (uint8_t)(i < 16 ? 0x80 + i : i == 16 ? 0x80 : 0x90)};
        memcpy(bytes + 8 * i, define, sizeof define);
        if (i == 16) memset(bytes + 8 * i + 3, 5, 5);
    }
    after(bytes, sizeof bytes);
    const uint8_t *users = block + SIGN_USERS_AT;
    int held = block[SIGN_USER_COUNT_AT] == 16;
    for (int i = 0; i < 14; i++) held &= users[SIGN_USER_BYTES * i] == 0x82 + i;
    check("15", held && memcmp(users + 14 * SIGN_USER_BYTES, "\x80\5\5\5\5\5\x90\0\0\0\0", 2 * SIGN_USER_BYTES) == 0 && busy() == 990);
    check("15: 80h is there, 81h is not", sign_dot(block, sizeof block, 0x80, 1) == 1 && sign_lit(block, sizeof block, 0x81) == SIGN_ASKED_REFUSED + SIGN_OUT_OF_RANGE);
}

/* A blank picture but for the first four cells: 41h to 44h, the first and third in Katakana. */
static void four_cells(void) {
    memset(want, 0x20, sizeof want);
    memset(fonts, 0, sizeof fonts);
    memcpy(want, "\x41\x42\x43\x44", 4);
    fonts[0] = fonts[2] = 1;
}

static void two_fonts(void) {
    four_cells();
    const uint8_t with_euro[] = {0x19, 0x41, 0x18, 0x1A, 0x42, 0x19, 0x43, 0x18, 0x1A, 0x44};
    AFTER(0x1A);
    check("fonts: there and back with Euro on", planned(plan_fonts(4), with_euro, sizeof with_euro));
    check("fonts: run", run(with_euro, sizeof with_euro) == 0 && memcmp(block + SIGN_CODES_AT, want, 40) == 0);
    check("fonts: shown", memcmp(block + SIGN_FONTS_AT, fonts, 40) == 0 && cursor() == 4 && block[SIGN_FONT_AT] == 0 && block[SIGN_EURO_AT] == 1);
    check("fonts: planned again", planned(plan_fonts(4), with_euro, 0));

    const uint8_t without[] = {0x19, 0x41, 0x18, 0x42, 0x19, 0x43, 0x18, 0x44};
    after(want, 0);
    check("fonts: there and back with Euro off", planned(plan_fonts(4), without, sizeof without));

    /* Katakana is selected and the cells are International: nothing is wrong */
    AFTER(0x19, 0x1B, 0x48, 0x14);
    memset(want, 0x20, sizeof want);
    memset(fonts, 0, sizeof fonts);
    const uint8_t moves[] = {0x1B, 0x48, 0x13};
    check("fonts: only moves", planned(plan_fonts(19), moves, sizeof moves));
    want[20] = 0x41;
    const uint8_t back[] = {0x18, 0x41};
    check("fonts: the first switch goes back", planned(plan_fonts(21), back, sizeof back));

    /* the longest: every cell needs a switch */
    AFTER(0x1A, 0x1B, 0x48, 0x05);
    uint8_t longest[104] = {0x0C};
    memset(want, 0x41, sizeof want);
    for (int i = 0; i < 20; i++) {
        fonts[2 * i] = 1;
        memcpy(longest + 1 + 5 * i, "\x19\x41\x18\x1A\x41", 5);
    }
    memcpy(longest + 101, "\x1B\x48\x27", 3);
    check("fonts: 104 bytes", planned(plan_fonts(39), longest, sizeof longest));

    /* the selected font everywhere: the bytes of sign_plan */
    uint8_t one_font[SIGN_ROOM];
    memset(fonts, 0, sizeof fonts);
    uint32_t n = plan(39);
    memcpy(one_font, out, sizeof one_font);
    check("fonts: one font", n == 44 && planned(plan_fonts(39), one_font, n));
}

/* From a full glass to 42h at 0, else blank, cursor 0. */
static void from_a_clear(void) {
    uint8_t full[48] = {0x1B, 0x43, 0x0E}; /* a user character on 0Eh, and 40 characters */
    memset(full + 8, 0x41, 40);
    memset(want, 0x20, sizeof want);
    memset(fonts, 0, sizeof fonts);
    want[0] = 0x42;
    const uint8_t cleared[] = {0x0E, 0x42, 0x08};
    after(full + 8, 40);
    check("clear: one font", planned(plan(0), cleared, sizeof cleared));
    check("clear: two fonts", planned(plan_fonts(0), cleared, sizeof cleared));
    check("clear: run", run(cleared, sizeof cleared) == 0 && memcmp(block + SIGN_CODES_AT, want, 40) == 0 && cursor() == 0);

    uint8_t written_over[40] = {0x42};
    memset(written_over + 1, 0x20, 39);
    after(full, sizeof full);
    check("clear: not with a user character on 0Eh", planned(plan(0), written_over, 40));
    want[0] = written_over[0] = 0x0E;
    check("clear: 0Eh is wanted", planned(plan(0), written_over, 40) && planned(plan_fonts(0), written_over, 40));

    /* Katakana is selected: blanks in it are there after the clear, others are written */
    const uint8_t in_selected[] = {0x0E, 0x18, 0x42, 0x08};
    AFTER(0x19);
    check("clear: a full glass", run(full + 8, 40) == 0);
    want[0] = 0x42;
    check("clear: blanks in the other font", plan_fonts(0) == 41 && out[0] == 0x18);
    memset(fonts + 1, 1, 39);
    check("clear: blanks in the selected font", planned(plan_fonts(0), in_selected, sizeof in_selected));

    const uint8_t tie[] = {0x20, 0x1B, 0x48, 0x05};
    AFTER(0x41, 0x0C);
    want[0] = 0x20;
    check("clear: not in a tie", planned(plan(5), tie, sizeof tie));
}

/* The refusal of sign_plan_fonts with one byte too little room. */
static uint32_t refused(size_t block_len, size_t codes_len, size_t fonts_len, uint32_t asked) {
    return sign_plan_fonts(block, block_len, want, codes_len, fonts, fonts_len, asked, out, SIGN_FONTS_ROOM - 1) - SIGN_REFUSED;
}

/* Each number where much that has a higher one is wrong too. */
static void fonts_refusals(void) {
    uint8_t kept[SIGN_BLOCK];
    four_cells();
    want[7] = 0x1F;
    fonts[8] = 2;
    memset(out, 0xEE, sizeof out);
    AFTER(0x1B, 0x43, 0x19, 0, 0, 0, 0, 0, 0x12, 0x1B);
    block[500] = 1;
    check("fonts 1: fonts", refused(512, 40, 39, 40) == SIGN_WRONG_LENGTH && refused(512, 40, 41, 40) == SIGN_WRONG_LENGTH && refused(512, 40, 0, 40) == SIGN_WRONG_LENGTH);
    check("fonts 1", refused(511, 40, 40, 40) == SIGN_WRONG_LENGTH && refused(512, 39, 40, 40) == SIGN_WRONG_LENGTH);
    check("fonts 2", refused(512, 40, 40, 40) == SIGN_DAMAGED);
    block[500] = 0;
    memcpy(kept, block, sizeof kept);
    check("fonts 3: font", refused(512, 40, 40, 0) == SIGN_OUT_OF_RANGE);
    fonts[8] = 0;
    check("fonts 3: cursor", refused(512, 40, 40, 40) == SIGN_OUT_OF_RANGE);
    check("fonts 6", refused(512, 40, 40, 0) == SIGN_HALF_RECEIVED);
    check("fonts: the block stays", memcmp(block, kept, sizeof kept) == 0);
    AFTER(0x1B, 0x43, 0x19, 0, 0, 0, 0, 0, 0x12);
    check("fonts 7", refused(512, 40, 40, 0) == SIGN_WRONG_MODE);
    for (uint8_t code = 0x17; code <= 0x1A; code++) {
        AFTER(0x1B, 0x43, code, 0, 0, 0, 0, 0);
        check("fonts 8 for 18h, 19h and 1Ah", refused(512, 40, 40, 0) == (code == 0x17 ? SIGN_NO_CHARACTER : SIGN_USER_ON_MOVE));
    }
    after(want, 0);
    check("fonts 9", refused(512, 40, 40, 0) == SIGN_NO_CHARACTER);
    want[7] = 0x20;
    check("fonts 10", refused(512, 40, 40, 0) == SIGN_NO_ROOM);
    check("fonts: out stays", planned(0, out, 0));
    check("fonts: enough room", plan_fonts(0) < 256);
}

/* Three pictures in turn: case 11 of the bench sheet, the same with the cursor at 21, and a blank one. */
static void reels(void) {
    static const uint8_t plans[] = {0x41, 0x0A, 0x42, 0x0C, 0x09, 0x0A, 0x0E};
    uint8_t codes[3 * SIGN_CELLS], cursors[3] = {0, 21, 21}, lengths[SIGN_REEL], room[3 * SIGN_ROOM + 1], zero[SIGN_REEL] = {0};
    uint8_t kept[SIGN_BLOCK];
#define REEL(pictures, block_len, codes_len, lengths_len, out_len) (memset(lengths, 7, sizeof lengths), memset(room, 0xEE, sizeof room), \
    sign_reel(block, block_len, codes, codes_len, cursors, pictures, lengths, lengths_len, room, out_len))
    memset(codes, 0x20, sizeof codes);
    codes[0] = codes[SIGN_CELLS] = 0x41;
    codes[21] = codes[SIGN_CELLS + 21] = 0x42;
    after(want, 0);
    memcpy(kept, block, sizeof kept);
    uint32_t all = REEL(3, 512, 120, 64, 132);
    check("reel", all == sizeof plans && memcmp(room, plans, sizeof plans) == 0 && room[all] == 0xEE);
    check("reel: its answer, taken apart", sign_reel_picture(all) == SIGN_REEL && sign_reel_refusal(all) == SIGN_ACCEPTED
        && strcmp(sign_reel_text(all), "accepted") == 0);
    check("reel: lengths", lengths[0] == 4 && lengths[1] == 2 && lengths[2] == 1 && memcmp(lengths + 3, zero, 61) == 0);
    check("reel: the block stays", memcmp(block, kept, sizeof kept) == 0);
    size_t at = 0;
    for (int k = 0; k < 3; k++) { /* by the lengths, each picture comes in its turn */
        check("reel: run", run(room + at, lengths[k]) == 0);
        at += lengths[k];
        check("reel: shown", memcmp(block + SIGN_CODES_AT, codes + k * SIGN_CELLS, SIGN_CELLS) == 0 && cursor() == cursors[k]);
    }
    after(want, 0);
    check("reel: no pictures", REEL(0, 512, 0, 64, 0) == 0 && memcmp(lengths, zero, 64) == 0);
    /* each number where much that comes behind it is wrong too; the lengths are 0 whatever it is, as long as there are 64 */
    cursors[0] = 40;
    codes[SIGN_CELLS] = 0x1F;
    block[500] = 1;
    all = REEL(3, 512, 119, 64, 131);
    check("reel 1", sign_reel_picture(all) == SIGN_REEL && sign_reel_refusal(all) == SIGN_WRONG_LENGTH && memcmp(lengths, zero, 64) == 0);
    check("reel 1: block", REEL(3, 511, 120, 64, 131) == all && memcmp(lengths, zero, 64) == 0);
    check("reel 1: lengths", REEL(3, 512, 120, 63, 131) == all && lengths[0] == 7 && REEL(3, 512, 120, 65, 131) == all && lengths[0] == 7);
    check("reel 2", REEL(3, 512, 120, 64, 131) == all - 1 + SIGN_DAMAGED && memcmp(lengths, zero, 64) == 0);
    block[500] = 0;
    check("reel 10", REEL(3, 512, 120, 64, 131) == all - 1 + SIGN_NO_ROOM && memcmp(lengths, zero, 64) == 0);
    all = REEL(3, 512, 120, 64, 132);
    check("reel 3", sign_reel_picture(all) == 0 && sign_reel_refusal(all) == SIGN_OUT_OF_RANGE && memcmp(lengths, zero, 64) == 0);
    check("reel 3: in words", strcmp(sign_reel_text(all), "the asked cursor is above 39") == 0);
    cursors[0] = 0;
    all = REEL(3, 512, 120, 64, 132);
    check("reel 9", sign_reel_picture(all) == 1 && sign_reel_refusal(all) == SIGN_NO_CHARACTER && memcmp(lengths, zero, 64) == 0);
    check("reel 9: in words", strcmp(sign_reel_text(all), sign_refusal_text(SIGN_NO_CHARACTER)) == 0);
    check("reel: out and block stay", room[0] == 0xEE && memcmp(block, kept, sizeof kept) == 0);
    static uint8_t many[(SIGN_REEL + 1) * SIGN_CELLS], places[SIGN_REEL + 1];
    all = sign_reel(block, SIGN_BLOCK, many, sizeof many, places, sizeof places, lengths, sizeof lengths, room, sizeof room);
    check("reel of 65", sign_reel_picture(all) == SIGN_REEL && sign_reel_refusal(all) == SIGN_OUT_OF_RANGE
        && strncmp(sign_reel_text(all), "more than 64 pictures", 21) == 0);
    AFTER(0x12);
    check("reel 7", REEL(3, 512, 120, 64, 132) == SIGN_REEL_REFUSED + SIGN_WRONG_MODE);
    AFTER(0x12, 0x1B);
    check("reel 6", REEL(3, 512, 120, 64, 132) == SIGN_REEL_REFUSED + SIGN_HALF_RECEIVED && REEL(0, 512, 0, 64, 0) == 0);
    AFTER(0x1B, 0x43, 0x09, 0, 0, 0, 0, 0);
    check("reel 8", REEL(3, 512, 120, 64, 132) == SIGN_REEL_REFUSED + SIGN_USER_ON_MOVE);
}

/* The bytes of recovery, as docs/HOST.md has them: the test's arguments, in hex. */
static uint8_t recovery[SIGN_BACK];

/* What sign_recover answers, with so much room. */
static uint32_t recover(size_t room) {
    memset(out, 0xEE, sizeof out);
    return sign_recover(block, sizeof block, out, room);
}

static int recovered(void) {
    return recover(SIGN_BACK) == SIGN_BACK && memcmp(out, recovery, SIGN_BACK) == 0 && out[SIGN_BACK] == 0xEE;
}

/* Each number where much that comes behind it is wrong too: 1, 2, 3, 11, 10. */
static void recoveries(void) {
    uint8_t kept[SIGN_BLOCK];
    AFTER(0x12, 0x41, 0x1B);
    memcpy(kept, block, sizeof kept);
    check("recovery", recovered() && memcmp(block, kept, sizeof kept) == 0);
    check("recovery: more room", recover(sizeof out) == SIGN_BACK && out[SIGN_BACK] == 0xEE);
    check("recovery 10", recover(SIGN_BACK - 1) == SIGN_REFUSED + SIGN_NO_ROOM && recover(0) == SIGN_REFUSED + SIGN_NO_ROOM);
    AFTER(0x1B, 0x43, 0x1B, 1, 2, 3, 4, 5);
    check("recovery 11", recover(SIGN_BACK) == SIGN_REFUSED + SIGN_LOST);
    check("recovery 11 before 10", recover(0) == SIGN_REFUSED + SIGN_LOST && out[0] == 0xEE);
    block[4] = 4; /* no mode; the check fits again */
    block[510] += 15;
    check("recovery 3", recover(0) == SIGN_REFUSED + SIGN_OUT_OF_RANGE);
    block[500] = 1;
    check("recovery 2", recover(0) == SIGN_REFUSED + SIGN_DAMAGED);
    check("recovery 1", sign_recover(block, 511, out, 0) == SIGN_REFUSED + SIGN_WRONG_LENGTH);
    check("recovery: out stays", out[0] == 0xEE);
    check("recovery: in words", strcmp(sign_refusal_text(SIGN_LOST), "no bytes bring the module back: switch it off and on") == 0);
}

/* What is said of this string, for the block and `want`. */
static uint32_t vet(uint32_t asked, const uint8_t *bytes, size_t n) {
    return sign_vet(block, sizeof block, want, sizeof want, asked, bytes, n);
}
#define VET(asked, ...) vet(asked, (const uint8_t[]){__VA_ARGS__}, sizeof (const uint8_t[]){__VA_ARGS__})

/* Strings for case 11 of the bench sheet, which has a plan of four bytes; a full glass; and each refusal where much that
   has a higher number is wrong too. */
static void vettings(void) {
    static uint8_t longest[SIGN_MOST + 1];
    uint8_t kept[SIGN_BLOCK], full[SIGN_CELLS];
    memset(full, 0x42, sizeof full);
    after(want, 0);
    memcpy(kept, block, sizeof kept);
    want[0] = 0x41;
    want[21] = 0x42;
    check("vet: the plan", VET(0, 0x41, 0x0A, 0x42, 0x0C) == 1);
    check("vet: longer", VET(0, 0x41, 0x0A, 0x42, 0x1B, 0x48, 0x00) == 1 + 2 && VET(0, 0x0E, 0x41, 0x20, 0x0D, 0x0A, 0x20, 0x42, 0x0C) == 1 + 4);
    check("vet: no, a byte", VET(0, 0x18, 0x41, 0x0A, 0x42, 0x0C) == 0 && VET(0, 0x41, 0x0E, 0x0A, 0x42, 0x0C) == 0);
    check("vet: no, a jump", VET(22, 0x41, 0x0A, 0x42, 0x1B) == 0 && VET(22, 0x41, 0x0A, 0x42, 0x1B, 0x48) == 0
        && VET(22, 0x41, 0x0A, 0x42, 0x1B, 0x48, 0x28) == 0 && VET(22, 0x41, 0x0A, 0x42) == 1);
    check("vet: no, the order", VET(0, 0x43, 0x08, 0x41, 0x0A, 0x42, 0x0C) == 0 && VET(1, 0x09, 0x0A, 0x42, 0x0C, 0x41) == 0);
    check("vet: no, a cell", VET(0, 0x41, 0x0A, 0x43, 0x0C) == 0 && vet(0, want, 0) == 0);
    check("vet: no, the cursor", VET(1, 0x41, 0x0A, 0x42, 0x0C) == 0);
    memset(longest, 0x0C, SIGN_MOST);
    memcpy(longest + SIGN_MOST - 4, "\x41\x0A\x42\x0C", 4);
    check("vet: the longest", vet(0, longest, SIGN_MOST) == 1 + SIGN_MOST - 4);
    check("vet: the block stays", memcmp(block, kept, sizeof kept) == 0);

    /* a full glass in Katakana: the clear leaves blanks in the selected font; and a user character on 0Eh */
    AFTER(0x19);
    check("vet: a full glass", run(full, sizeof full) == 0);
    memset(want, 0x20, sizeof want);
    check("vet: the clear", VET(0, 0x0E) == 1 && vet(0, want, sizeof want) == 1 + 39 && VET(0, 0x0E, 0x0E) == 0 && VET(0, 0x0F) == 0);
    check("vet: the other font", run((const uint8_t[]){0x0E, 0x18}, 2) == 0 && VET(0, 0x0C) == 0 && VET(0, 0x0E) == 1);
    AFTER(0x1B, 0x43, 0x0E, 1, 2, 3, 4, 5);
    want[0] = want[1] = 0x0E;
    check("vet: 0Eh is a character", VET(2, 0x0E, 0x0E) == 1 && VET(2, 0x0E) == 0);

    want[7] = 0x1F;
    AFTER(0x1B, 0x43, 0x09, 0, 0, 0, 0, 0, 0x12, 0x1B);
    block[500] = 1;
    check("vet 1", sign_vet(block, 511, want, 40, 40, longest, sizeof longest) == SIGN_VET_REFUSED + SIGN_WRONG_LENGTH
        && sign_vet(block, 512, want, 39, 40, longest, sizeof longest) == SIGN_VET_REFUSED + SIGN_WRONG_LENGTH);
    check("vet 2", vet(40, longest, sizeof longest) == SIGN_VET_REFUSED + SIGN_DAMAGED);
    block[500] = 0;
    check("vet 3", vet(40, longest, sizeof longest) == SIGN_VET_REFUSED + SIGN_OUT_OF_RANGE && VET(256, 0) == SIGN_VET_REFUSED + SIGN_OUT_OF_RANGE);
    check("vet 4", vet(0, longest, sizeof longest) == SIGN_VET_REFUSED + SIGN_TOO_LONG);
    check("vet 6", vet(0, longest, SIGN_MOST) == SIGN_VET_REFUSED + SIGN_HALF_RECEIVED);
    AFTER(0x1B, 0x43, 0x09, 0, 0, 0, 0, 0, 0x12);
    check("vet 7", VET(0, 0) == SIGN_VET_REFUSED + SIGN_WRONG_MODE);
    AFTER(0x1B, 0x43, 0x09, 0, 0, 0, 0, 0);
    check("vet 8", VET(0, 0) == SIGN_VET_REFUSED + SIGN_USER_ON_MOVE);
    after(want, 0);
    check("vet 9", VET(0, 0) == SIGN_VET_REFUSED + SIGN_NO_CHARACTER);
    memset(want, 0x20, sizeof want);
}

static void refusals(void) {
    static uint8_t longest[SIGN_MOST + 1];
    uint8_t kept[SIGN_BLOCK], zero[SIGN_TALLY] = {0};
    after(want, 0);
    memcpy(kept, block, sizeof kept);
    check("run 1", sign_run(block, 511, tally, SIGN_TALLY, want, 1) == SIGN_WRONG_LENGTH
        && sign_run(block, 512, tally, SIGN_TALLY - 1, want, 1) == SIGN_WRONG_LENGTH
        && sign_run(block, 512, tally, 12, want, 1) == SIGN_WRONG_LENGTH);
    check("run 4", run(longest, sizeof longest) == SIGN_TOO_LONG);
    tally[3] = 0xFF;
    check("run 3", run(want, 0) == SIGN_OUT_OF_RANGE);
    memcpy(tally, "\x00\x28\x6B\xEE", 4); /* 4,000,000,000 */
    check("run at the limit", run(want, 0) == 0);
    check("run 5", run(want, 1) == SIGN_TALLY_FULL);
    memset(tally, 0, sizeof tally);
    memcpy(tally + 12, "\xF9\x27\x6B\xEE", 4); /* 3,999,999,993 at the worst: a character more takes 7 */
    check("worst: run at the limit", run(want, 1) == 0 && number(SIGN_NUMBER_WORST) == 4000000000u);
    check("worst: run 5", run(want, 1) == SIGN_TALLY_FULL);
    tally[12] = 1;
    check("worst: run 3", run(want, 0) == SIGN_OUT_OF_RANGE);
    after(want, 0);
    block[100] ^= 1;
    check("run 2", run(want, 1) == SIGN_DAMAGED && plan(0) == SIGN_REFUSED + SIGN_DAMAGED);
    block[100] ^= 1;
    check("nothing changed", memcmp(block, kept, sizeof kept) == 0 && memcmp(tally, zero, sizeof zero) == 0);
    check("plan 1", sign_plan(block, 512, want, 39, 0, out, 44) == SIGN_REFUSED + SIGN_WRONG_LENGTH);
    check("plan 3", plan(40) == SIGN_REFUSED + SIGN_OUT_OF_RANGE && plan(256 + 5) == SIGN_REFUSED + SIGN_OUT_OF_RANGE);
    AFTER(0x1B);
    check("plan 6", plan(0) == SIGN_REFUSED + SIGN_HALF_RECEIVED);
    AFTER(0x12);
    check("plan 7", plan(0) == SIGN_REFUSED + SIGN_WRONG_MODE);
    after(want, 0);
    want[7] = 0x1F;
    check("plan 9", plan(0) == SIGN_REFUSED + SIGN_NO_CHARACTER);
    want[7] = 0x20;
    check("plan 10", sign_plan(block, 512, want, 40, 0, out, 43) == SIGN_REFUSED + SIGN_NO_ROOM);
    check("longest run", run(longest, SIGN_MOST) == 0 && number(0) == SIGN_MOST && busy() == 6 * SIGN_MOST);
    check("power-up 3", sign_power_up(2, block, 511) == SIGN_OUT_OF_RANGE);
    check("power-up 10", sign_power_up(1, block, 511) == SIGN_NO_ROOM);
}

/* After these bytes, from power-up font 0, one byte of the block's first 510 is another, here, and is this. */
static void only(size_t at, int value, const char *bytes) {
    uint8_t start[SIGN_BLOCK];
    int differ = 0;
    after(want, 0);
    memcpy(start, block, sizeof start);
    check("run", run((const uint8_t *)bytes, strlen(bytes)) == SIGN_ACCEPTED);
    for (int i = 0; i < SIGN_BLOCK - 2; i++) differ += block[i] != start[i];
    check("a place of the header", differ == 1 && block[at] == value);
}

/* The header's places in a block. */
static void places(void) {
    only(SIGN_CURSOR_AT, 5, "\x1BH\x05");
    only(SIGN_MODE_AT, 2, "\x12");
    only(SIGN_SHOWN_AT, 1, "\x15");
    only(SIGN_FONT_AT, 1, "\x19");
    only(SIGN_EURO_AT, 1, "\x1A");
    only(SIGN_LUMINANCE_AT, 1, "\x1BL\x40");
    only(SIGN_SPEED_AT, 7, "\x1BT\x07");
    only(SIGN_FLICKERLESS_AT, 1, "\x1BS");
    only(SIGN_HALF_AT, SIGN_HALF_ESC, "\x1B");
    only(SIGN_HALF_AT, SIGN_HALF_POSITION, "\x1BH");
    only(SIGN_HALF_AT, SIGN_HALF_LUMINANCE, "\x1BL");
    only(SIGN_HALF_AT, SIGN_HALF_SPEED, "\x1BT");
    only(SIGN_HALF_AT, SIGN_HALF_USER_CODE, "\x1B" "C");
    only(SIGN_CODES_AT + 39, 'A', "\x1BH\x27" "A");
    AFTER(0x13, 0x1B, 0x48, 0x13, 0x19, 'A');
    check("scroll-on", block[SIGN_SCROLL_ON_AT] == 1 && block[SIGN_FONTS_AT + 19] == 1 && block[SIGN_FONTS_AT + 18] == 0);
    AFTER(0x1B, 0x43, 0x81, 0x11, 0x12, 0x13, 0x14, 0x05, 0x1B, 0x43, 0x82, 0xA1, 0xA2, 0xA3);
    check("user characters", block[SIGN_USER_COUNT_AT] == 1 && memcmp(block + SIGN_USERS_AT, "\x81\x11\x12\x13\x14\x05", SIGN_USER_BYTES) == 0);
    check("user data", block[SIGN_HALF_AT] == SIGN_HALF_USER_DATA && block[SIGN_HALF_CODE_AT] == 0x82
        && block[SIGN_HELD_COUNT_AT] == 3 && memcmp(block + SIGN_HELD_AT, "\xA1\xA2\xA3", 4) == 0);
    check("default font", sign_power_up(1, block, sizeof block) == SIGN_ACCEPTED && block[SIGN_DEFAULT_FONT_AT] == 1);
    check("then 18h", run((const uint8_t[]){0x18}, 1) == SIGN_ACCEPTED && block[SIGN_DEFAULT_FONT_AT] == 1 && block[SIGN_FONT_AT] == 0);
}

/* Worst busy time: 200 more for each byte that came while flickerless was on. */
static void worst(void) {
    AFTER(0x1B, 0x53, 0x41, 0x0B, 0x1B, 0x49);
    check("worst", number(SIGN_NUMBER_BYTES) == 6 && busy() == 71 && number(SIGN_NUMBER_FLICKERLESS) == 4
        && number(SIGN_NUMBER_WORST) == 871);
}

static void questions(void) {
    AFTER(0x41, 0x19, 0x42, 0x18, 0x1B, 0x43, 0x01, 0, 0, 0, 0, 0x08, 0x01, 0x02);
    check("view: both fonts", view(0) == SIGN_INTERNATIONAL + 0x41 && view(1) == SIGN_KATAKANA + 0x42);
    check("view: user character, blank space", view(2) == SIGN_USER + 0x01 && view(3) == SIGN_INTERNATIONAL + 0x20);
    check("underline", sign_underline(block, 512, 1) == 1 && sign_lit(block, 512, 1) == 0 && sign_dot(block, 512, 1, 35) == 0);
    check("view 3", view(40) == SIGN_ASKED_REFUSED + SIGN_OUT_OF_RANGE && view(256) == SIGN_ASKED_REFUSED + SIGN_OUT_OF_RANGE);
    check("dot 3", sign_dot(block, 512, 1, 0) == SIGN_ASKED_REFUSED + SIGN_OUT_OF_RANGE && sign_dot(block, 512, 1, 36) == SIGN_ASKED_REFUSED + SIGN_OUT_OF_RANGE);
    check("asked 3", sign_lit(block, 512, 257) == SIGN_ASKED_REFUSED + SIGN_OUT_OF_RANGE && sign_underline(block, 512, 2) == SIGN_ASKED_REFUSED + SIGN_OUT_OF_RANGE);
    check("asked 1", sign_view(block, 511, 0) == SIGN_ASKED_REFUSED + SIGN_WRONG_LENGTH && sign_lit(block, 513, 1) == SIGN_ASKED_REFUSED + SIGN_WRONG_LENGTH);
    block[100] ^= 1;
    check("asked 2", view(0) == SIGN_ASKED_REFUSED + SIGN_DAMAGED && sign_dot(block, 512, 1, 1) == SIGN_ASKED_REFUSED + SIGN_DAMAGED);
    for (uint32_t n = SIGN_ACCEPTED; n <= SIGN_NO_ROOM; n++)
        check("each refusal in words", strcmp(sign_refusal_text(n), sign_refusal_text(SIGN_NO_ROOM + 1)) != 0);
}

/* docs/HOST.md, 262: the bytes that end what is half received, by byte 13; how many. */
static size_t ending(uint8_t *end) {
    int held = block[SIGN_HELD_COUNT_AT], users = block[SIGN_USER_COUNT_AT];
    memset(end, 0, 6);
    switch (block[SIGN_HALF_AT]) {
    case SIGN_HALF_ESC: return 1;
    case SIGN_HALF_POSITION: end[0] = 0xFF; return 1;
    case SIGN_HALF_LUMINANCE: end[0] = (uint8_t)(block[SIGN_LUMINANCE_AT] * 64); return 1;
    case SIGN_HALF_SPEED: end[0] = block[SIGN_SPEED_AT]; return 1;
    case SIGN_HALF_USER_CODE:
        if (users > 0) memcpy(end, block + SIGN_USERS_AT + SIGN_USER_BYTES * (users - 1), SIGN_USER_BYTES);
        return 6;
    case SIGN_HALF_USER_DATA: return (size_t)(5 - held);
    default: return 0;
    }
}

/* Each half-received command, with 0, 1 and 16 user characters: the advised bytes end it and change nothing
   else, but for the user character that is defined; and recovery leads back to power-up, 1Bh 49h alone does
   not. */
static void half_received(void) {
    static const char *const halves[] = {"\x1B", "\x1BH", "\x1BL", "\x1BT", "\x1B" "C", "\x1B" "CA", "\x1B" "CA1234"};
    uint8_t before[SIGN_BLOCK], power_up[SIGN_BLOCK], end[6];
    check("power-up for font 1", sign_power_up(1, power_up, sizeof power_up) == 0);
    for (int users = 0; users <= 16; users += users == 0 ? 1 : 15) {
        for (size_t i = 0; i < sizeof halves / sizeof *halves; i++) {
            memset(tally, 0, sizeof tally);
            memcpy(block, power_up, sizeof block);
            check("some settings", run((const uint8_t *)"\x1BL\x40\x1BT\x07\x15Gate\x13", 12) == 0);
            for (int u = 0; u < users; u++) {
                const uint8_t define[] = {0x1B, 0x43, (uint8_t)(0x80 + u), 1, 2, 3, 4, (uint8_t)(u % 16)};
                check("a user character", run(define, sizeof define) == 0);
            }
            memcpy(before, block, sizeof before);
            check("half a command", run((const uint8_t *)halves[i], strlen(halves[i])) == 0 && plan(0) == SIGN_REFUSED + SIGN_HALF_RECEIVED);
            int defines = block[SIGN_HALF_AT] == SIGN_HALF_USER_DATA || (block[SIGN_HALF_AT] == SIGN_HALF_USER_CODE && users == 0);
            check("its end", run(end, ending(end)) == 0 && block[SIGN_HALF_AT] == SIGN_HALF_NONE);
            if (defines) check("a user character more", block[SIGN_USER_COUNT_AT] == (users == 16 ? 16 : users + 1));
            else check("nothing else changed", memcmp(block, before, sizeof before) == 0);

            memcpy(block, before, sizeof block);
            check("half a command again", run((const uint8_t *)halves[i], strlen(halves[i])) == 0);
            memcpy(before, block, sizeof before);
            check("sign_recover", recovered());
            check("1Bh 49h alone", run(recovery + 6, 2) == 0 && memcmp(block, power_up, sizeof block) != 0);
            memcpy(block, before, sizeof block);
            check("recovery", run(recovery, sizeof recovery) == 0 && memcmp(block, power_up, sizeof block) == 0);
        }
    }
}

/* What else docs/HOST.md advises: 263, 264, 5, and where only the power switch helps. */
static void advice(void) {
    memset(want, 0x20, sizeof want);
    AFTER(0x13);
    check("263: 11h", plan(0) == SIGN_REFUSED + SIGN_WRONG_MODE && run((const uint8_t[]){0x11}, 1) == 0 && plan(0) < 256);
    AFTER(0x1B, 0x43, 0x11, 0, 0, 0, 0, 0, 0x12);
    check("263: a user character on 11h", run((const uint8_t[]){0x11}, 1) == 0 && plan(0) == SIGN_REFUSED + SIGN_WRONG_MODE);
    check("263: recovery", run(recovery, sizeof recovery) == 0 && plan(0) < 256);
    AFTER(0x1B, 0x43, 0x0A, 0, 0, 0, 0, 0);
    check("264: recovery", plan(0) == SIGN_REFUSED + SIGN_USER_ON_MOVE && run(recovery, sizeof recovery) == 0 && plan(0) < 256);
    AFTER(0x1B, 0x43, 0x1B, 0, 0, 0, 0, 0);
    check("267", recover(SIGN_BACK) == SIGN_REFUSED + SIGN_LOST);
    check("264: a user character on 1Bh", run(recovery, sizeof recovery) == 0 && plan(0) == SIGN_REFUSED + SIGN_USER_ON_MOVE);
    check("267: it is not blank, and ends in I", memcmp(block + SIGN_CODES_AT, "\x1BI", 2) == 0);
    AFTER(0x1B, 0x43, 0x1B);
    check("267: 1Bh is just becoming one", recover(SIGN_BACK) == SIGN_REFUSED + SIGN_LOST);
    check("1Bh is just becoming one", run(recovery, sizeof recovery) == 0 && plan(0) == SIGN_REFUSED + SIGN_USER_ON_MOVE);
    AFTER(0x1B, 0x43);
    check("a user code is awaited", recovered());
    check("1Bh 49h makes it one", run(recovery + 6, 2) == 0 && block[SIGN_HALF_CODE_AT] == 0x1B);
    after(want, 0);
    memcpy(tally, "\x00\x28\x6B\xEE", 4); /* 4,000,000,000 */
    check("5: a tally of 0", run(want, 1) == SIGN_TALLY_FULL && memset(tally, 0, sizeof tally) != NULL && run(want, 1) == 0);
}

/* A block of another length is refused before a byte of it is read. The pointer is one that sign.h forbids: a
   read would end the test. */
static void unread(void) {
    uint8_t *nowhere = (uint8_t *)1;
    check("run unread", sign_run(nowhere, 511, tally, sizeof tally, want, 1) == SIGN_WRONG_LENGTH);
    check("plan unread", sign_plan(nowhere, 513, want, sizeof want, 0, out, sizeof out) == SIGN_REFUSED + SIGN_WRONG_LENGTH);
    check("fonts unread", sign_plan_fonts(nowhere, 4096, want, sizeof want, fonts, sizeof fonts, 0, out, sizeof out)
        == SIGN_REFUSED + SIGN_WRONG_LENGTH);
    check("reel unread", sign_reel(nowhere, 511, want, sizeof want, fonts, 1, out, SIGN_REEL, out + SIGN_REEL, 0)
        == SIGN_REEL_REFUSED + 256 * SIGN_REEL + SIGN_WRONG_LENGTH);
    check("recovery unread", sign_recover(nowhere, 511, out, sizeof out) == SIGN_REFUSED + SIGN_WRONG_LENGTH);
    check("vet unread", sign_vet(nowhere, 511, want, sizeof want, 0, out, 1) == SIGN_VET_REFUSED + SIGN_WRONG_LENGTH);
    check("questions unread", sign_view(nowhere, 200, 0) == SIGN_ASKED_REFUSED + SIGN_WRONG_LENGTH
        && sign_dot(nowhere, 511, 0x41, 1) == SIGN_ASKED_REFUSED + SIGN_WRONG_LENGTH
        && sign_underline(nowhere, 513, 0x41) == SIGN_ASKED_REFUSED + SIGN_WRONG_LENGTH
        && sign_lit(nowhere, 1024, 0x41) == SIGN_ASKED_REFUSED + SIGN_WRONG_LENGTH);
}

int main(int argc, char **argv) {
    check("eight bytes of recovery", argc == 1 + (int)sizeof recovery);
    for (int i = 0; i + 1 < argc && i < (int)sizeof recovery; i++) recovery[i] = (uint8_t)strtoul(argv[i + 1], NULL, 16);
    memset(want, 0x20, sizeof want);
    bench_sheet();
    two_fonts();
    from_a_clear();
    fonts_refusals();
    memset(want, 0x20, sizeof want);
    reels();
    recoveries();
    vettings();
    refusals();
    unread();
    places();
    worst();
    questions();
    half_received();
    advice();
    if (failures) return 1;
    printf("ok\n");
    return 0;
}
