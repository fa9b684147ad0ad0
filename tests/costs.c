/* Makes one call so many times: costs KIND TIMES. For counting instructions; see run.sh, `costs`.
   KIND, from power-up font 0, cursor 0, a plan in one font: 0 nothing is wrong, 1 every cell, 2 every second cell,
   3 every fifth cell. In two fonts, every cell wrong: 4 the lower line Katakana, 5 the longest plan (fonts in turn,
   Katakana selected, Euro on). With 16 user characters: 6 sign_view of a cell with the youngest, of which
   7 sign_dot, 8 sign_underline, 9 sign_lit. Runs from power-up font 0: 10 of no byte, 11 of one character, 12 of 26
   bytes: 0Ch and 25 characters. 13 a plan in one font from a full glass to one character. Reels from power-up font 0:
   14 of no picture, 15 of 64 pictures (all 41h, cursor 39, and all 42h in turn), 16 of 64 that are those of 2, in turn
   with a blank one, 17 the pictures of 16 by sign_plan and sign_run, one at a time. Recovery: 18 from power-up font 0, 19
   with 16 user characters, the youngest on 1Bh. sign_vet from power-up font 0, every cell wrong: 20 of the plan, 40
   bytes, 21 of 32,768 bytes, moves and then the plan, 22 of these with 00h as the first. Prints what it called and the
   last answer. */
#include <stdio.h>
#include <stdlib.h>
#include <string.h>
#include "sign.h"

enum { KINDS = 23 };
static uint8_t block[SIGN_BLOCK], tally[SIGN_TALLY], codes[SIGN_CELLS], fonts[SIGN_CELLS], out[SIGN_FONTS_ROOM];
static uint8_t reel[SIGN_REEL * SIGN_CELLS], cursors[SIGN_REEL], lengths[SIGN_REEL], plans[SIGN_REEL * SIGN_ROOM];
static uint8_t string[SIGN_MOST];

static const char *const called[] = {
    "sign_plan, nothing wrong", "sign_plan, every cell wrong", "sign_plan, every second cell", "sign_plan, every fifth cell",
    "sign_plan_fonts, lower line Katakana", "sign_plan_fonts, the longest", "sign_view", "sign_dot", "sign_underline", "sign_lit",
    "sign_run, no byte", "sign_run, one character", "sign_run, 26 bytes", "sign_plan, from a full glass to one character",
    "sign_reel, no picture", "sign_reel, 64 pictures, every cell wrong", "sign_reel, 64 pictures, every second cell and blank",
    "sign_plan and sign_run, the same 64 one at a time", "sign_recover", "sign_recover, lost",
    "sign_vet, a plan of 40 bytes", "sign_vet, 32,768 bytes", "sign_vet, 32,768 bytes, the first no step",
};

static uint32_t run(const uint8_t *bytes, size_t n) { return sign_run(block, sizeof block, tally, sizeof tally, bytes, n); }

static uint32_t question(int kind) {
    switch (kind) {
    case 6: return sign_view(block, sizeof block, 0);
    case 7: return sign_dot(block, sizeof block, 0x8F, 35);
    case 8: return sign_underline(block, sizeof block, 0x8F);
    default: return sign_lit(block, sizeof block, 0x8F);
    }
}

/* The pictures of a reel: two in turn. */
static void turns(int kind) {
    for (int k = 0; k < SIGN_REEL; k++) {
        for (int i = 0; i < SIGN_CELLS; i++)
            reel[k * SIGN_CELLS + i] = kind == 15 ? (k % 2 ? 'B' : 'A') : k % 2 || i % 2 ? ' ' : 'A';
        cursors[k] = kind == 15 ? SIGN_CELLS - 1 : 0;
    }
}

/* The reel's pictures one at a time, from where they were left; answers all bytes together. */
static uint32_t one_at_a_time(void) {
    uint8_t copy[SIGN_BLOCK], count[SIGN_TALLY] = {0};
    uint32_t all = 0;
    memcpy(copy, block, sizeof copy);
    for (int k = 0; k < SIGN_REEL; k++) {
        uint32_t n = sign_plan(copy, sizeof copy, reel + k * SIGN_CELLS, SIGN_CELLS, cursors[k], out, sizeof out);
        if (n >= SIGN_REFUSED || sign_run(copy, sizeof copy, count, sizeof count, out, n) != SIGN_ACCEPTED) return UINT32_MAX;
        all += n;
    }
    return all;
}

static uint32_t reeled(int kind) {
    size_t n = kind == 14 ? 0 : SIGN_REEL;
    if (kind == 17) return one_at_a_time();
    return sign_reel(block, sizeof block, reel, n * SIGN_CELLS, cursors, n, lengths, sizeof lengths, plans, sizeof plans);
}

/* The plan stands at the string's end, and home right before it. */
static void moves_and_plan(int kind) {
    memset(string, 0x09, sizeof string);
    string[SIGN_MOST - SIGN_CELLS - 1] = 0x0C;
    memset(string + SIGN_MOST - SIGN_CELLS, 'A', SIGN_CELLS);
    if (kind == 22) string[0] = 0;
}

static uint32_t vetted(int kind) {
    size_t n = kind == 20 ? SIGN_CELLS : SIGN_MOST;
    return sign_vet(block, sizeof block, codes, sizeof codes, 0, string + SIGN_MOST - n, n);
}

static uint32_t call(int kind) {
    static const uint8_t bytes[] = "\x0CGANGWAY 2   EMBARK RAMP B";
    static const size_t counts[] = {0, 1, 26};
    if (kind >= 20) return vetted(kind);
    if (kind >= 18) return sign_recover(block, sizeof block, out, sizeof out);
    if (kind >= 14) return reeled(kind);
    if (kind >= 10 && kind < 13) return run(bytes + (kind == 11), counts[kind - 10]);
    if (kind < 4 || kind == 13) return sign_plan(block, sizeof block, codes, sizeof codes, 0, out, sizeof out);
    if (kind >= 6) return question(kind);
    return sign_plan_fonts(block, sizeof block, codes, sizeof codes, fonts, sizeof fonts, kind == 5 ? 39 : 0, out, sizeof out);
}

int main(int argc, char **argv) {
    static const int gap[KINDS] = {SIGN_CELLS, 1, 2, 5, 1, 1, 1, 1, 1, 1, 1, 1, 1, SIGN_CELLS, 1, 1, 1, 1, 1, 1, 1, 1, 1};
    static const uint8_t longest[] = {0x19, 0x1A, 0x1B, 0x48, 0x05};
    if (argc != 3) return 2;
    int kind = atoi(argv[1]) % KINDS, times = atoi(argv[2]);
    if (sign_power_up(0, block, sizeof block) != SIGN_ACCEPTED) return 1;
    if (kind == 5 && run(longest, sizeof longest) != SIGN_ACCEPTED) return 1;
    for (uint8_t code = 0x80; ((kind >= 6 && kind < 10) || kind == 19) && code < 0x90; code++) {
        const uint8_t define[] = {0x0C, 0x1B, 0x43, kind == 19 && code == 0x8F ? 0x1B : code, 1, 2, 3, 4, 5, code};
        if (run(define, sizeof define) != SIGN_ACCEPTED) return 1;
    }
    turns(kind);
    moves_and_plan(kind);
    memset(codes, 'B', sizeof codes);
    if (kind == 13 && run(codes, sizeof codes) != SIGN_ACCEPTED) return 1;
    memset(codes, ' ', sizeof codes);
    for (int i = kind == 0 ? SIGN_CELLS : 0; i < SIGN_CELLS; i += gap[kind]) codes[i] = 'A';
    for (int i = 0; i < SIGN_CELLS; i++) fonts[i] = kind == 4 ? i >= SIGN_CELLS / 2 : i % 2;
    uint32_t answer = 0;
    for (int i = 0; i < times; i++) answer = call(kind);
    printf("%s answers %u\n", called[kind], (unsigned)answer);
    return 0;
}
