/* sign.h: a 20x2 VFD sign (module CU20029-KTW220A) for a C or C++ host. Link with libsign.a, which
   is x86-64 code. examples/host.c is the smallest host, examples/lounge.c one with a loop of
   pictures, examples/station.c one that survives a loss of power; docs/HOST.md says what to do in
   which order, and what to do about each refusal.

   The sign is a block of 512 bytes that the host keeps and lends. sign_power_up makes one, sign_run
   does to it what the module does with bytes that are sent to it, and sign_plan works out the
   fewest bytes that change what it shows into a wanted picture; sign_plan_fonts takes a font for
   each cell as well, and sign_reel takes up to 64 pictures that come in turn. sign_recover gives
   the bytes that bring a module back to power-up, whatever half a command it got, unless it is lost.
   sign_vet says of other people's bytes whether they bring a wanted picture onto the sign.
   sign_view, sign_dot, sign_underline and sign_lit say what the glass shows.

   Run first, send afterwards: bytes that sign_run refuses must not go to the wire, because the
   module would carry them out and the block would not follow.

   Every call takes any bytes: nothing in a buffer can make it fail otherwise than by a refusal, and
   a refused call changes nothing that was lent to it (but for the 64 lengths of sign_reel, which
   are part of its answer and are then all 0). It looks at a buffer only within the length given.
   What the host has to see to: each pointer is to that many bytes of its own memory (no NULL, not
   even with length 0), and the buffers of one call do not overlap.

   There is no state outside the buffers and no allocation: calls on different buffers may run at
   the same time on any threads. A buffer that is only read (bytes, codes, fonts, cursors, the block
   of a plan, of a reel, of a recovery, of a vetting or of a question) may be shared by such
   calls. */

#ifndef SIGN_H
#define SIGN_H

#include <stddef.h>
#include <stdint.h>

#ifdef __cplusplus
extern "C" {
#endif

/* The version of the library that this header belongs to. */
#define SIGN_VERSION_MAJOR 2
#define SIGN_VERSION_MINOR 10

#define SIGN_BLOCK      512   /* bytes of a block */
#define SIGN_TALLY      16    /* bytes of a tally */
#define SIGN_CELLS      40    /* cells: 0 to 19 top line, 20 to 39 bottom line */
#define SIGN_ROOM       44    /* bytes that sign_plan wants room for */
#define SIGN_FONTS_ROOM 104   /* bytes that sign_plan_fonts wants room for */
#define SIGN_REEL       64    /* most pictures in one reel, and the bytes of its lengths; the output
                                 of a reel wants SIGN_ROOM for each picture */
#define SIGN_BACK       8     /* bytes that sign_recover writes, and wants room for */
#define SIGN_MOST       32768 /* most bytes in one run, and of a string that is vetted */

/* Stack that a call needs on x86-64, in bytes, from its return address down, with all that it calls
   (the C library's memcpy and memset by their return address alone). The test `stack` compares
   these lines with the compiled code.
     sign_power_up   1,464
     sign_run        4,760
     sign_plan       2,568
     sign_plan_fonts 2,536
     sign_reel       3,848
     sign_vet        2,680
     sign_recover    2,456
     sign_view       2,440
     sign_dot        2,456
     sign_underline  2,456
     sign_lit        2,456
   A host that makes one call after the other needs the largest of those that it makes.
   The code also uses the red zone, the 128 bytes below the stack pointer that the x86-64 ABI leaves
   to a function. A signal handler on the same stack needs its own frame and those 128 bytes
   besides. In a kernel or on bare metal the processor itself would write an interrupt's frame into
   the red zone: give interrupts a stack of their own (IST), or keep them off during a call. */

/* Refusals: the lowest that holds is given (but sign_reel looks at the whole call before any
   picture, and sign_recover gives 11 before 10). sign_run and sign_power_up answer the number
   itself, a plan and a recovery 256 plus the number, a question and a vetting 65,536 plus the number,
   a reel 65,536 plus 256 times the picture plus the number. "Plan" below is a vetting too, but for
   10, which it never gives. */
enum sign_refusal {
    SIGN_ACCEPTED      = 0,
    SIGN_WRONG_LENGTH  = 1,  /* block not 512 bytes, tally not 16, codes not 40, fonts not 40; reel:
                                codes not 40 for each cursor, lengths not 64 */
    SIGN_DAMAGED       = 2,  /* the block's bytes 0-2 or its check differ: no block, or damaged */
    SIGN_OUT_OF_RANGE  = 3,  /* the block is no condition that a sign can be in; a tally number is
                                above 4,000,000,000; the asked cursor or position is above 39; a
                                font is above 1; a dot is not 1 to 35; no user character has the
                                code; a reel has more than 64 pictures */
    SIGN_TOO_LONG      = 4,  /* more than 32,768 bytes in one run, or of a string that is vetted */
    SIGN_TALLY_FULL    = 5,  /* a tally number would pass 4,000,000,000 */
    SIGN_HALF_RECEIVED = 6,  /* plan, reel: a command is half received */
    SIGN_WRONG_MODE    = 7,  /* plan, reel: the mode is not 1 */
    SIGN_USER_ON_MOVE  = 8,  /* plan, reel: a user character stands on 08h, 09h, 0Ah, 0Ch, 0Dh or
                                1Bh; sign_plan_fonts: or on 18h, 19h or 1Ah */
    SIGN_NO_CHARACTER  = 9,  /* plan, reel: a wanted code below 20h has no user character */
    SIGN_NO_ROOM       = 10, /* the output is under 44 bytes for sign_plan, 104 for sign_plan_fonts,
                                44 for each picture of sign_reel, 8 for sign_recover, 512 for a
                                block */
    SIGN_LOST          = 11  /* sign_recover: 1Bh is a user character, or is just being made one;
                                no bytes at all help, only the module's power switch */
};
#define SIGN_REFUSED       256   /* the refusal of a plan or of a recovery is answered as this plus
                                    its number */
#define SIGN_ASKED_REFUSED 65536 /* a question's refusal is answered as this plus its number */
#define SIGN_REEL_REFUSED  65536 /* a reel that answers this or more is refused: sign_reel_picture
                                    and sign_reel_refusal take the answer apart */
#define SIGN_VET_REFUSED   65536 /* a vetting's refusal is answered as this plus its number */

/* Places in a block that a host may read (never write: the check would no longer fit). */
#define SIGN_CURSOR_AT       3   /* the cursor, 0 to 39 */
#define SIGN_MODE_AT         4   /* 1 DC1, 2 DC2, 3 DC3 */
#define SIGN_SCROLL_ON_AT    5   /* 1: in mode 3 the next write at column 19 shifts the line */
#define SIGN_SHOWN_AT        6   /* 1: the cursor is shown */
#define SIGN_FONT_AT         7   /* the selected font, 0 International or 1 Katakana */
#define SIGN_DEFAULT_FONT_AT 8   /* the default font, by link J6 */
#define SIGN_EURO_AT         9   /* 1: ADh in font 0 is the Euro mark */
#define SIGN_LUMINANCE_AT    10  /* 0 to 3: 25, 50, 75, 100 %; 1Bh 4Ch n sets n / 64 */
#define SIGN_SPEED_AT        11  /* the blink speed, 0 to 255, in 30 ms */
#define SIGN_FLICKERLESS_AT  12  /* 1: flickerless writing is on */
#define SIGN_HALF_AT         13  /* the half-received command: enum sign_half */
#define SIGN_HALF_CODE_AT    14  /* the code that user data is for */
#define SIGN_HELD_COUNT_AT   15  /* how many bytes of user data are held, 0 to 4 */
#define SIGN_HELD_AT         16  /* those bytes */
#define SIGN_USER_COUNT_AT   20  /* how many user characters are held, 0 to 16 */
#define SIGN_CODES_AT        24  /* the codes of the 40 cells */
#define SIGN_FONTS_AT        64  /* their fonts, 0 International or 1 Katakana */
#define SIGN_USERS_AT        104 /* the user characters, oldest first: code, d1 to d5; a code that is
                                    defined again becomes the youngest */
#define SIGN_USER_BYTES      6   /* bytes of each */

/* What is half received (SIGN_HALF_AT). docs/HOST.md says which bytes end each. */
enum sign_half {
    SIGN_HALF_NONE = 0, SIGN_HALF_ESC = 1, SIGN_HALF_POSITION = 2, SIGN_HALF_LUMINANCE = 3,
    SIGN_HALF_SPEED = 4, SIGN_HALF_USER_CODE = 5, SIGN_HALF_USER_DATA = 6
};

/* Writes the block of a sign that was just switched on; font 0 is link J6 open, 1 is J6 linked.
   Answers 0; or 3 for another font, then 10 for less than 512 bytes. Only the first 512 bytes
   change. */
uint32_t sign_power_up(uint32_t font, uint8_t *block, size_t block_len);

/* Does to the block what the module does with these bytes in turn, and adds to the tally: four
   numbers of four bytes, low byte first: the bytes received, the microseconds that the sign is busy
   at the quickest, the bytes received while flickerless writing was already on, and the microseconds
   that the sign is busy at the worst, which is 200 more for each byte that the third counts
   (sign_tally_number reads one). A scheduler reserves the bytes' own time on the wire and what the
   run adds to the fourth: docs/HOST.md, Busy time and sharing the wire.
   Answers 0, and then block and tally are up to date, and the bytes are to be sent; or 1, 2, 3, 4
   or 5, and then neither changed, and the bytes must not be sent. */
uint32_t sign_run(uint8_t *block, size_t block_len,
                  uint8_t *tally, size_t tally_len,
                  const uint8_t *bytes, size_t bytes_len);

/* Writes to out the bytes that bring the 40 wanted codes onto the sign, each in the selected
   font, and the cursor to the asked place: at most 44, and no string of cursor moves and writes
   in reading order does it with fewer, not even with a clear ahead of it. A clear is 0Eh while no
   user character stands there: it is the first byte where the bytes are fewer so; the sign is then
   blank, and the picture is there when the last one is through (docs/HOST.md, A plan that clears).
   The block stays as it is: give the bytes to sign_run, and send them where it answers 0.
   Answers how many bytes were written (0: all is there already), and nothing else of out changes;
   or 256 plus 1, 2, 3, 6, 7, 8, 9 or 10, and then out did not change. */
uint32_t sign_plan(const uint8_t *block, size_t block_len,
                   const uint8_t *codes, size_t codes_len, uint32_t cursor,
                   uint8_t *out, size_t out_len);

/* The same with a wanted font for each cell, 0 International or 1 Katakana. The bytes may also
   switch the selected font: 19h to Katakana; 18h to International, or 18h 1Ah while Euro is on,
   so that it stays on. At most 104, and no string of cursor moves, such switches and writes in
   reading order, with a clear ahead of it or without, does it with fewer. A clear leaves blanks in
   the font that is selected before the first byte. Either font may be selected afterwards; nothing
   but it, the cells and the cursor changes.
   Answers how many bytes were written (0: all is there already), and nothing else of out changes;
   or 256 plus 1, 2, 3, 6, 7, 8, 9 or 10, and then out did not change. */
uint32_t sign_plan_fonts(const uint8_t *block, size_t block_len,
                         const uint8_t *codes, size_t codes_len,
                         const uint8_t *fonts, size_t fonts_len, uint32_t cursor,
                         uint8_t *out, size_t out_len);

/* Plans up to 64 pictures that come in turn, each in the selected font and from where the one
   before leaves the sign (since 2.3). cursors_len says how many they are, and codes_len is 40 times
   as many: give these numbers, not sizeof of arrays that are not full. Picture k, from 0, is the 40
   codes from 40 * k on, and its asked cursor is cursors[k]. Writes their plans to out, end to end:
   the same bytes that sign_plan gives one at a time, each plan run before the next is asked for.
   lengths, of 64 bytes, gets the length of each plan, and 0 beyond the pictures. The block stays
   as it is: when a picture's turn comes give its bytes to sign_run and send them where it answers
   0, every picture in this order, and run and send nothing else in between (docs/HOST.md, A loop
   of pictures).
   Answers how many bytes were written, all together (0: nothing is to be sent), and nothing else
   of out changes; or 65,536 plus 256 times the picture plus the refusal, and then out did not
   change and the lengths are all 0, as long as there are 64 (else they stay as they were). (256 is
   no refusal here: compare with SIGN_REEL_REFUSED.) First, with 64 for the picture, what is refused
   of the whole call: 1, 2, 3 or 10. Then the first picture that would be refused, and what
   sign_plan refuses it by: 3, 6, 7, 8 or 9. No pictures give no bytes (and no pointer may be NULL
   then either: the data() of an empty std::vector may be). */
uint32_t sign_reel(const uint8_t *block, size_t block_len,
                   const uint8_t *codes, size_t codes_len,
                   const uint8_t *cursors, size_t cursors_len,
                   uint8_t *lengths, size_t lengths_len,
                   uint8_t *out, size_t out_len);

/* Writes to out the eight bytes that bring the module to power-up for its default font (since 2.5):
   00 00 00 00 00 00 1B 49. Six 00h end any command that is half received, then comes Initialise.
   They are the same for every block, and serve whatever the module is in the middle of, unless it
   is lost. So where the block may not be what the module holds, as after a cable swap, make one by
   sign_power_up, ask for that one, run the bytes on it and send them (docs/HOST.md, Recovery).
   Answers 8, and nothing else of out changes; or 256 plus 1, 2, 3, 11 or 10, in this order, and
   then out did not change. 11 says that a module in the block's condition is lost, and is given
   exactly when no bytes at all, however many, bring it to power-up: 1Bh is a user character, or user
   data for 1Bh is awaited, so no ESC command can begin any more (those of one byte go on working).
   Switch the module off and on then, and recover. */
uint32_t sign_recover(const uint8_t *block, size_t block_len,
                      uint8_t *out, size_t out_len);

/* Says whether bytes that came from elsewhere bring the 40 wanted codes onto the sign, each in the
   selected font, and the cursor to the asked place, by the steps that sign_plan knows and no others
   (since 2.7): 08h, 09h, 0Ah, 0Ch, 0Dh, a whole 1Bh 48h p with p at most 27h, characters, each in a
   cell above the last one that was written, and 0Eh that clears as the first byte. Right cells may
   be written again. Anything else is a no, even if it would change nothing: 00h, a font byte, a cell
   written twice, half a command at the end. Nothing is changed.
   Answers 0 for no; 1 plus the excess for yes, the excess being how many bytes the string has more
   than sign_plan's; or 65,536 plus 1, 2, 3, 4, 6, 7, 8 or 9. So what is not 0 may be a refusal:
   ask sign_vet_yes. A yes is for this block and no other: run the bytes on it and send them before
   anything else is run or sent (docs/HOST.md, Other people's bytes). */
uint32_t sign_vet(const uint8_t *block, size_t block_len,
                  const uint8_t *codes, size_t codes_len, uint32_t cursor,
                  const uint8_t *bytes, size_t bytes_len);

/* Of sign_vet's answer: 1 for a yes, 0 for a no and for a refusal. */
static inline int sign_vet_yes(uint32_t answer) {
    return answer > 0 && answer < SIGN_VET_REFUSED;
}

/* Of a reel's answer: the first picture that would be refused, 64 for none of them (the reel is
   accepted, or the whole call is refused); and the refusal, 0 where it is accepted. */
static inline uint32_t sign_reel_picture(uint32_t answer) {
    return answer < SIGN_REEL_REFUSED ? SIGN_REEL : (answer - SIGN_REEL_REFUSED) / 256;
}
static inline uint32_t sign_reel_refusal(uint32_t answer) {
    return answer < SIGN_REEL_REFUSED ? 0 : (answer - SIGN_REEL_REFUSED) % 256;
}

/* What a cell shows (sign_view): one of these, plus the code (0 to 255) for a user character and
   for a built-in one. A blank cell and the Euro mark carry no code. */
enum sign_shows {
    SIGN_BLANK         = 0,
    SIGN_USER          = 256,
    SIGN_EURO          = 512,
    SIGN_INTERNATIONAL = 768,
    SIGN_KATAKANA      = 1024
};

/* What the glass shows at a position, 0 to 39: enum sign_shows. A space (20h) is a built-in one.
   Answers 65,536 plus 1, 2 or 3 where it is refused. */
uint32_t sign_view(const uint8_t *block, size_t block_len, uint32_t position);

/* Dot k, 1 to 35 by rows of five, of the user character on a code: 1 lit, 0 dark.
   Answers 65,536 plus 1, 2 or 3 where it is refused; no code above 255 has a user character. */
uint32_t sign_dot(const uint8_t *block, size_t block_len, uint32_t code, uint32_t k);

/* The underline of the user character on a code: 1 lit, 0 dark. Refused as sign_dot. */
uint32_t sign_underline(const uint8_t *block, size_t block_len, uint32_t code);

/* How many of its 35 dots the user character on a code lights, the underline not counted. Refused
   as sign_dot. */
uint32_t sign_lit(const uint8_t *block, size_t block_len, uint32_t code);

/* The numbers of a tally. */
enum sign_number {
    SIGN_NUMBER_BYTES = 0, SIGN_NUMBER_BUSY = 1, SIGN_NUMBER_FLICKERLESS = 2, SIGN_NUMBER_WORST = 3
};

static inline uint32_t sign_tally_number(const uint8_t *tally, enum sign_number which) {
    const uint8_t *p = tally + 4 * which;
    return p[0] + 0x100u * p[1] + 0x10000u * p[2] + 0x1000000u * p[3];
}

/* A refusal in words: the number itself, without the 256 or 65,536 (of a reel, sign_reel_text). */
static inline const char *sign_refusal_text(uint32_t refusal) {
    switch (refusal) {
    case SIGN_ACCEPTED:      return "accepted";
    case SIGN_WRONG_LENGTH:  return "a buffer has the wrong length";
    case SIGN_DAMAGED:       return "the block is damaged";
    case SIGN_OUT_OF_RANGE:  return "a value is out of range, or a user character is not defined";
    case SIGN_TOO_LONG:      return "more than 32,768 bytes in one run";
    case SIGN_TALLY_FULL:    return "a number of the tally would pass 4,000,000,000";
    case SIGN_HALF_RECEIVED: return "a command is half received";
    case SIGN_WRONG_MODE:    return "the mode is not DC1";
    case SIGN_USER_ON_MOVE:  return "a user character stands on a code that the plan needs";
    case SIGN_NO_CHARACTER:  return "a wanted code below 20h has no user character";
    case SIGN_NO_ROOM:       return "the output buffer is too small";
    case SIGN_LOST:          return "no bytes bring the module back: switch it off and on";
    default:                 return "not a refusal number";
    }
}

/* A reel's answer in words: by 3 it is the picture's cursor, or the call. */
static inline const char *sign_reel_text(uint32_t answer) {
    uint32_t refusal = sign_reel_refusal(answer);
    if (refusal != SIGN_OUT_OF_RANGE) return sign_refusal_text(refusal);
    return sign_reel_picture(answer) < SIGN_REEL
        ? "the asked cursor is above 39"
        : "more than 64 pictures, or the block is no condition that a sign can be in";
}

#ifdef __cplusplus
}
#endif

#endif
