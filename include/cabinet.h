/* The controller of a lock's gate in a cabinet, for C. One controller is CABINET_WORDS words of 32 bits that the
 * caller owns and lends; the library allocates nothing and has no globals, so any number of them may stand in one
 * program, each used by one thread at a time.
 *
 * Every call answers 0, or the number of the first question that was answered "no" (they stand below;
 * CABINET_OTHER_CARD is this library's own). What is refused changes nothing: neither the state nor a lent
 * buffer. Questions 1 to 3 are first asked of the state: is it CABINET_WORDS long, does it begin with the mark and
 * this version, and is every word as the library wrote it (cabinet_begin asks its length alone). Any change of one
 * word, a turned bit among them, is refused with 2 or 3. A telegram that is passed over (of another order, n or f,
 * for another controller, at a wrong stage, or where the controller is stopped or stands by) is answered 0 and
 * changes nothing; so is one of an order that was not called here yet: sending again brings it. A call takes less
 * than 8 KB of stack.
 *
 * Buffers: a pointer and a length. They stay the caller's; nothing is kept of them after the call. No two buffers of
 * one call may overlap, and a length must be that of the memory behind its pointer. Pointers are never null, also
 * where the length is 0.
 *
 * An order, in a cabinet:
 *
 *     uint32_t s[CABINET_WORDS], d[CABINET_SHOWN];
 *     cabinet_begin(s, CABINET_WORDS, n, f, me, 0, position);                   // once, when the program starts
 *     if (read_card(card) && cabinet_wake(s, CABINET_WORDS, card, CABINET_CARD)) exit(1); // it was here: it stands by
 *     cabinet_order(s, CABINET_WORDS, number);                                  // the keeper has called this order
 *     cabinet_save(s, CABINET_WORDS, card, CABINET_CARD); write_card(card);     // before any telegram leaves
 *     cabinet_vote(s, CABINET_WORDS, willing, target);
 *     for (k = 0; (len = cabinet_telegram_length(s, CABINET_WORDS, k)) != 0; k++) // now, and again
 *         if (cabinet_telegram(s, CABINET_WORDS, k, t, len) == 0) send_to(t[6], t, len); // until the outcome
 *     cabinet_receive(s, CABINET_WORDS, in, length);                            // whenever a telegram comes
 *     cabinet_show(s, CABINET_WORDS, d, CABINET_SHOWN);                         // for the display, and for the bell
 *     if (waited(d[CABINET_STAGE])) cabinet_timeout(s, CABINET_WORDS);          // once at stage 1, once at stage 2
 *
 * When to ring: controllers 1 to f + 1 go from stage 0 to stage 1 at their vote, those above to stage 2. So go by
 * the stage: a wait begins when the stage becomes 1 or 2 and ends with one cabinet_timeout. A wait should be as long
 * as a telegram takes when nothing is late; too short costs telegrams, never agreement.
 *
 * What to send, and again: all of cabinet_telegram, after each call that may add to it (a vote, a timeout, a
 * telegram that comes in, an opened ballot), and every few waits, until the display shows an outcome, and for some
 * time after: others may still need them. A new order empties the list. Each of them is what was sent before, byte
 * for byte, and a repeated one changes nothing where it comes in. Of ballots these are the last own one, and the
 * last promise and taken for another's.
 *
 * The word put (CABINET_PUT) goes to the arbiter, whose answer comes in by cabinet_decide. At a lock without arbiter
 * (own = 1) a cabinet that has put a word and has no outcome opens a ballot of its own: the least b above
 * CABINET_HIGHEST with (b - 1) % n + 1 == number, at most 255; after a while, at random, another. When the display
 * shows a settled word (CABINET_SETTLED), this cabinet decides by it and tells the others, which decide by it too.
 * The library has no telegram for the word put, nor for the word given: these are messages of your own.
 *
 * cabinet_decide cannot know whose word it is given. Let every such message carry its order's number, and call it
 * only where that is CABINET_ORDER. The arbiter must give only a word that was put in this order, and never two in
 * one order: agreement rests on both.
 *
 * A cabinet that was ended and comes back: begin, with where its gate stands now, then wake with its card. It stands
 * by (stage 9) in the card's order, or in the state's where that is later, sends nothing and moves nothing, and runs
 * in the next; cabinet_decide tells it the order's word for its display. Without cabinet_wake it would run in an
 * order in which it may have voted before: so write the card after cabinet_order, before anything is sent, and again
 * at the outcome; to a temporary file, fsync, rename, so that a torn write is noticed. A card that is refused is no
 * reason to begin as new: end the program, and let a keeper see to it. Without a card only one that was never in the
 * order that is called may go into it.
 *
 * The questions, by their numbers (13 looks at this controller alone; docs/QUESTIONS.md says more):
 *
 *      1 Is the record as long as it should be?
 *      2 Does it begin with its mark?
 *      3 Are the kind and the flags listed values, and unused fields 0?
 *      4 Are n and f in range?
 *      7 Are the controllers' numbers in 1 to n, sender and receiver different?
 *      8 Is the order number at least 1?
 *      9 Does the sheet suit the kind?
 *     10 May this kind go from the one to the other?
 *     11 Is the position from -20,000 to 20,000 mm?
 *     12 Is the order number above the last one?
 *     13 Has every running controller an outcome, or was no order opened yet?
 *     14 Is an order open?
 *     15 Is the controller in the right condition?
 *     16 Is its stage right?
 *     17 Was that telegram sent in this order?
 *     24 Does the delivered sheet contradict none that the controller holds?
 *     28 Is it a ballot from 1 to 255, and may the controller open it?
 *     29 Has the lock no arbiter, and has the controller put a word?
 *     30 Is the card this controller's own?
 */
#ifndef CABINET_H
#define CABINET_H

#include <stddef.h>
#include <stdint.h>

#ifdef __cplusplus
extern "C" {
#endif

#define CABINET_WORDS 114     /* a state, in words of 32 bits */
#define CABINET_CARD 14       /* a card, in bytes */
#define CABINET_TELEGRAM 24   /* the longest telegram, in bytes: 16, 20 or 24 */
#define CABINET_OTHER_CARD 30 /* the card is another controller's, or of another n or f */

/* What cabinet_show writes. Outcomes and words: 0 none, 1 Stay, 2 Move. */
enum {
    CABINET_ORDER,    /* 0 before the first */
    CABINET_STAGE,    /* 0 to 3; 8 stopped, 9 standing by */
    CABINET_OUTCOME,
    CABINET_POSITION, /* in mm, two's complement */
    CABINET_PUT,      /* the word that it puts to the arbiter, or by ballots */
    CABINET_SETTLED,  /* the word that its own ballot has settled */
    CABINET_HIGHEST,  /* its highest promise, 0 for none */
    CABINET_SHOWN     /* how many words these are */
};

/* n and f of the lock, the controller's number, 1 if the lock has no arbiter or 0, and where the gate stands, in mm,
 * two's complement: refused with 1, 3, 4, 7, 11 */
uint8_t cabinet_begin(uint32_t *state, size_t words, uint8_t n, uint8_t f, uint8_t number, uint8_t own,
    uint32_t position);

/* 8, 12; 13 if it runs and has no outcome of the order before */
uint8_t cabinet_order(uint32_t *state, size_t words, uint32_t number);

/* 1 willing or 0, and where the gate is to go, in mm, two's complement: 3, 11, 14, 15, 16 */
uint8_t cabinet_vote(uint32_t *state, size_t words, uint8_t willing, uint32_t target);

/* a telegram of any form and kind: what reading one asks (1, 2, 3, 4, 7, 8, 9, 10, 28), 24 */
uint8_t cabinet_receive(uint32_t *state, size_t words, const uint8_t *telegram, size_t length);

/* a wait is over: 14, 15, 16 */
uint8_t cabinet_timeout(uint32_t *state, size_t words);

/* the arbiter's word, or the settled one: 1 Move or 0 Stay: 3, 14, 15, 16 */
uint8_t cabinet_decide(uint32_t *state, size_t words, uint8_t to_move);

/* it stays stopped, through new orders too, until cabinet_wake; what it sent stays in the list: 14, 15 */
uint8_t cabinet_stop(uint32_t *state, size_t words);

/* the card into a buffer of CABINET_CARD bytes: 14, 15, 1 */
uint8_t cabinet_save(const uint32_t *state, size_t words, uint8_t *card, size_t room);

/* stopped and restored in one: what reading a card asks (1, 2, 3, 4, 7, 8, 11), CABINET_OTHER_CARD */
uint8_t cabinet_wake(uint32_t *state, size_t words, const uint8_t *card, size_t length);

/* ballot 1 to 255: 14, 15, 28, 29 */
uint8_t cabinet_open(uint32_t *state, size_t words, uint8_t ballot);

/* the k-th telegram, from 0 on (k below 256 reaches every one), of all that it has sent in this order, into a buffer of
 * just its length; its receiver is byte 6: 17 if there are not so many, 1 */
uint8_t cabinet_telegram(const uint32_t *state, size_t words, uint8_t k, uint8_t *out, size_t room);

/* how long that one is: 16, 20 or 24; 0 if there are not so many, or the state is refused */
uint8_t cabinet_telegram_length(const uint32_t *state, size_t words, uint8_t k);

/* CABINET_SHOWN words for a display: 1 */
uint8_t cabinet_show(const uint32_t *state, size_t words, uint32_t *shown, size_t room);

#ifdef __cplusplus
}
#endif

#endif
