/* Every single turned bit of a state is refused by every call, a state of another length or version too, and what
 * is refused stays as it was; the numbers of calls that fail a question of their own; and how much stack the calls
 * take. The states are those of a lock of 3 and of 32 through an order, with and without an arbiter.
 *
 *     cabinet_tests [STEP]
 *
 * With STEP just one bit of so many is turned, and no stack is measured: for valgrind, to which a painted stack is
 * foreign. */
#define _GNU_SOURCE
#include "cabinet.h"
#include <stdio.h>
#include <stdlib.h>
#include <string.h>
#include <ucontext.h>

static long refusals, states;
static int step = 1;

static void check(int right, const char *what) {
    if (!right) { fprintf(stderr, "cabinet tests: FAILED: %s\n", what); exit(1); }
}

/* every call, on a state that each must refuse with one of the two numbers */
static void all_refuse(uint32_t *s, size_t words, uint8_t a, uint8_t b) {
    uint32_t before[CABINET_WORDS + 1], shown[CABINET_SHOWN], kept[CABINET_SHOWN];
    uint8_t card[CABINET_CARD], t[CABINET_TELEGRAM], same[CABINET_TELEGRAM], r[12];
    memcpy(before, s, words * sizeof *s);
    memset(card, 0xA5, sizeof card);
    memset(t, 0xA5, sizeof t);
    memset(same, 0xA5, sizeof same);
    memset(shown, 0xA5, sizeof shown);
    memset(kept, 0xA5, sizeof kept);
    r[0] = cabinet_order(s, words, 4000000000u);
    r[1] = cabinet_vote(s, words, 1, 0);
    r[2] = cabinet_receive(s, words, t, 16);
    r[3] = cabinet_timeout(s, words);
    r[4] = cabinet_decide(s, words, 1);
    r[5] = cabinet_stop(s, words);
    r[6] = cabinet_save(s, words, card, sizeof card);
    r[7] = cabinet_wake(s, words, card, sizeof card);
    r[8] = cabinet_open(s, words, 1);
    r[9] = cabinet_telegram(s, words, 0, t, 16);
    r[10] = cabinet_show(s, words, shown, CABINET_SHOWN);
    check(cabinet_telegram_length(s, words, 0) == 0, "a length of a refused state");
    for (int k = 0; k < 11; k++) { check(r[k] == a || r[k] == b, "a damaged state is taken"); refusals++; }
    check(memcmp(before, s, words * sizeof *s) == 0, "a refused state was changed");
    check(memcmp(t, same, sizeof t) == 0 && memcmp(card, same, sizeof card) == 0, "a buffer was changed");
    check(memcmp(shown, kept, sizeof shown) == 0, "the display's words were changed");
}

static void turn_every_bit(const uint32_t *state) {
    uint32_t s[CABINET_WORDS + 1];
    memcpy(s, state, CABINET_WORDS * sizeof *s);
    s[CABINET_WORDS] = 0;
    states++;
    for (int at = 0; at < CABINET_WORDS * 32; at += step) {
        s[at / 32] ^= (uint32_t)1 << at % 32;
        all_refuse(s, CABINET_WORDS, 2, 3);
        s[at / 32] ^= (uint32_t)1 << at % 32;
    }
    all_refuse(s, CABINET_WORDS - 1, 1, 1);
    all_refuse(s, CABINET_WORDS + 1, 1, 1);
    all_refuse(s, 0, 1, 1);
}

/* what one has sent comes to the others */
static void deliver(uint32_t lock[][CABINET_WORDS], unsigned n, unsigned from) {
    uint8_t t[CABINET_TELEGRAM], length;
    for (unsigned k = 0; (length = cabinet_telegram_length(lock[from], CABINET_WORDS, (uint8_t)k)) != 0; k++) {
        check(cabinet_telegram(lock[from], CABINET_WORDS, (uint8_t)k, t, length) == 0, "a telegram");
        check(t[6] >= 1 && t[6] <= n, "its receiver");
        check(cabinet_receive(lock[t[6]], CABINET_WORDS, t, length) == 0, "a telegram is received");
    }
}

static void order(unsigned n, unsigned f, unsigned own) {
    static uint32_t lock[33][CABINET_WORDS];
    uint32_t d[CABINET_SHOWN];
    for (unsigned i = 1; i <= n; i++) {
        check(cabinet_begin(lock[i], CABINET_WORDS, (uint8_t)n, (uint8_t)f, (uint8_t)i, (uint8_t)own, 0) == 0, "begin");
        check(cabinet_order(lock[i], CABINET_WORDS, 7) == 0, "order");
        check(cabinet_vote(lock[i], CABINET_WORDS, i != 2, 100) == 0, "vote");
    }
    turn_every_bit(lock[1]);
    for (int bell = 1; bell <= 2; bell++) /* no telegram comes before the bells: all put a word */
        for (unsigned i = 1; i <= n; i++) {
            cabinet_show(lock[i], CABINET_WORDS, d, CABINET_SHOWN);
            if (d[CABINET_STAGE] == (unsigned)bell) check(cabinet_timeout(lock[i], CABINET_WORDS) == 0, "timeout");
        }
    for (int round = 0; round < 3; round++) for (unsigned i = 1; i <= n; i++) deliver(lock, n, i);
    if (own) {
        check(cabinet_open(lock[1], CABINET_WORDS, 1) == 0, "open");
        for (int round = 0; round < 3; round++) for (unsigned i = 1; i <= n; i++) deliver(lock, n, i);
        cabinet_show(lock[1], CABINET_WORDS, d, CABINET_SHOWN);
        check(d[CABINET_SETTLED] == 1, "a ballot settles Stay");
    }
    turn_every_bit(lock[1]);
    turn_every_bit(lock[n]);
    for (unsigned i = 1; i <= n; i++) {
        cabinet_decide(lock[i], CABINET_WORDS, 0);
        cabinet_show(lock[i], CABINET_WORDS, d, CABINET_SHOWN);
        check(d[CABINET_OUTCOME] == 1, "the outcome");
    }
    turn_every_bit(lock[n]);
}

/* the questions of the calls' own arguments: a refused call leaves the state as it was */
static void refused(uint8_t answer, uint8_t number, const uint32_t *s, const uint32_t *before, const char *what) {
    check(answer == number, what);
    check(memcmp(s, before, CABINET_WORDS * sizeof *s) == 0, "a refused call changed the state");
}

static void own_questions(void) {
    uint32_t s[CABINET_WORDS], b[CABINET_WORDS], d[CABINET_SHOWN + 1];
    uint8_t c[CABINET_CARD + 1], t[CABINET_TELEGRAM + 1], same[CABINET_TELEGRAM + 1];
    memset(c, 0xA5, sizeof c);
    memset(t, 0xA5, sizeof t);
    memset(same, 0xA5, sizeof same);
    memset(s, 0x5A, sizeof s);
    memcpy(b, s, sizeof s);
    refused(cabinet_begin(s, CABINET_WORDS - 1, 3, 1, 1, 0, 0), 1, s, b, "begin, 1");
    refused(cabinet_begin(s, CABINET_WORDS, 3, 1, 1, 2, 0), 3, s, b, "begin, 3");
    refused(cabinet_begin(s, CABINET_WORDS, 33, 1, 1, 0, 0), 4, s, b, "begin, 4 of n");
    refused(cabinet_begin(s, CABINET_WORDS, 3, 3, 1, 0, 0), 4, s, b, "begin, 4 of f");
    refused(cabinet_begin(s, CABINET_WORDS, 3, 1, 4, 0, 0), 7, s, b, "begin, 7");
    refused(cabinet_begin(s, CABINET_WORDS, 3, 1, 0, 0, 0), 7, s, b, "begin, 7 of 0");
    refused(cabinet_begin(s, CABINET_WORDS, 3, 1, 1, 0, 0x7FFFFFFF), 11, s, b, "begin, 11");
    /* of two faults the question that comes first */
    refused(cabinet_begin(s, CABINET_WORDS - 1, 3, 1, 1, 2, 0), 1, s, b, "begin, 1 before 3");
    refused(cabinet_begin(s, CABINET_WORDS, 33, 1, 1, 2, 0), 3, s, b, "begin, 3 before 4");
    refused(cabinet_begin(s, CABINET_WORDS, 33, 1, 0, 0, 0), 4, s, b, "begin, 4 before 7");
    refused(cabinet_begin(s, CABINET_WORDS, 3, 1, 0, 0, 0x7FFFFFFF), 7, s, b, "begin, 7 before 11");
    check(cabinet_begin(s, CABINET_WORDS, 3, 1, 1, 0, 77) == 0, "begin");
    check(s[0] == 0x4C430001, "the mark and the version");
    check(cabinet_show(s, CABINET_WORDS, d, CABINET_SHOWN) == 0 && d[CABINET_POSITION] == 77, "where the gate stands");
    memcpy(b, s, sizeof s);
    refused(cabinet_vote(s, CABINET_WORDS, 2, 0x7FFFFFFF), 3, s, b, "vote, 3 before 11");
    refused(cabinet_vote(s, CABINET_WORDS, 1, 0x7FFFFFFF), 11, s, b, "vote, 11 before 14");
    refused(cabinet_decide(s, CABINET_WORDS, 2), 3, s, b, "decide, 3 before 14");
    refused(cabinet_decide(s, CABINET_WORDS, 1), 14, s, b, "decide, 14");
    refused(cabinet_stop(s, CABINET_WORDS), 14, s, b, "stop, 14");
    refused(cabinet_open(s, CABINET_WORDS, 2), 14, s, b, "open, 14 before 28");
    refused(cabinet_save(s, CABINET_WORDS, c, CABINET_CARD + 1), 14, s, b, "save, 14 before 1");
    refused(cabinet_vote(s, CABINET_WORDS, 1, 0), 14, s, b, "vote, 14");
    refused(cabinet_timeout(s, CABINET_WORDS), 14, s, b, "timeout, 14");
    refused(cabinet_order(s, CABINET_WORDS, 0), 8, s, b, "order, 8");
    check(cabinet_order(s, CABINET_WORDS, 5) == 0, "order");
    memcpy(b, s, sizeof s);
    refused(cabinet_order(s, CABINET_WORDS, 5), 12, s, b, "order, 12");
    refused(cabinet_order(s, CABINET_WORDS, 6), 13, s, b, "order, 13");
    refused(cabinet_vote(s, CABINET_WORDS, 2, 0), 3, s, b, "vote, 3");
    refused(cabinet_vote(s, CABINET_WORDS, 1, 0x7FFFFFFF), 11, s, b, "vote, 11");
    refused(cabinet_decide(s, CABINET_WORDS, 2), 3, s, b, "decide, 3");
    refused(cabinet_decide(s, CABINET_WORDS, 1), 16, s, b, "decide, 16");
    refused(cabinet_timeout(s, CABINET_WORDS), 16, s, b, "timeout, 16");
    refused(cabinet_open(s, CABINET_WORDS, 2), 28, s, b, "open, 28");
    refused(cabinet_open(s, CABINET_WORDS, 1), 29, s, b, "open, 29");
    refused(cabinet_save(s, CABINET_WORDS, c, CABINET_CARD + 1), 1, s, b, "save, 1");
    refused(cabinet_show(s, CABINET_WORDS, d, CABINET_SHOWN + 1), 1, s, b, "show, 1");
    refused(cabinet_telegram(s, CABINET_WORDS, 0, t, 16), 17, s, b, "telegram, 17");
    refused(cabinet_receive(s, CABINET_WORDS, t, CABINET_TELEGRAM + 1), 1, s, b, "receive, 1");
    refused(cabinet_wake(s, CABINET_WORDS, c, CABINET_CARD + 1), 1, s, b, "wake, 1");
    check(cabinet_vote(s, CABINET_WORDS, 1, 0) == 0, "vote");
    memcpy(b, s, sizeof s);
    refused(cabinet_telegram(s, CABINET_WORDS, 0, t, 20), 1, s, b, "telegram, 1");
    refused(cabinet_telegram(s, CABINET_WORDS, 255, t, 16), 17, s, b, "telegram, 17 of the last k");
    check(memcmp(c, same, sizeof c) == 0 && memcmp(t, same, sizeof t) == 0, "a refused call changed a buffer");
}

/* what a restart may do: stopped it answers 15; awake it stands by in the later of the two orders, and runs in the
 * next */
static void restarts(void) {
    uint32_t s[CABINET_WORDS], b[CABINET_WORDS], d[CABINET_SHOWN];
    uint8_t older[CABINET_CARD], others[3][CABINET_CARD], other[CABINET_CARD];
    static const uint8_t who[3][3] = { { 3, 1, 2 }, { 4, 1, 1 }, { 3, 2, 1 } }; /* another number, n, f */
    for (int k = 0; k < 3; k++) {
        check(cabinet_begin(s, CABINET_WORDS, who[k][0], who[k][1], who[k][2], 0, 0) == 0, "another controller");
        check(cabinet_order(s, CABINET_WORDS, 5) == 0, "order 5");
        check(cabinet_save(s, CABINET_WORDS, others[k], CABINET_CARD) == 0, "another controller's card");
    }
    check(cabinet_begin(s, CABINET_WORDS, 3, 1, 1, 0, 9) == 0 && cabinet_order(s, CABINET_WORDS, 5) == 0, "order 5");
    check(cabinet_save(s, CABINET_WORDS, older, CABINET_CARD) == 0, "save");
    check(cabinet_vote(s, CABINET_WORDS, 1, 7) == 0 && cabinet_telegram_length(s, CABINET_WORDS, 0) == 16, "vote");
    memcpy(b, s, sizeof s);
    for (int k = 0; k < 3; k++)
        refused(cabinet_wake(s, CABINET_WORDS, others[k], CABINET_CARD), CABINET_OTHER_CARD, s, b, "wake, another's card");
    check(cabinet_stop(s, CABINET_WORDS) == 0, "stop");
    check(cabinet_telegram_length(s, CABINET_WORDS, 0) == 16, "what was sent stays in the list");
    memcpy(b, s, sizeof s);
    refused(cabinet_vote(s, CABINET_WORDS, 1, 0), 15, s, b, "vote, 15");
    refused(cabinet_timeout(s, CABINET_WORDS), 15, s, b, "timeout, 15");
    refused(cabinet_decide(s, CABINET_WORDS, 1), 15, s, b, "decide, 15");
    refused(cabinet_stop(s, CABINET_WORDS), 15, s, b, "stop, 15");
    refused(cabinet_open(s, CABINET_WORDS, 1), 15, s, b, "open, 15");
    refused(cabinet_save(s, CABINET_WORDS, other, CABINET_CARD), 15, s, b, "save, 15");
    for (size_t length = 0; length < CABINET_CARD; length++) /* what a torn write leaves of a card */
        refused(cabinet_wake(s, CABINET_WORDS, older, length), 1, s, b, "wake, a part of a card");
    check(cabinet_order(s, CABINET_WORDS, 6) == 0 && cabinet_wake(s, CABINET_WORDS, older, CABINET_CARD) == 0, "wake");
    check(cabinet_show(s, CABINET_WORDS, d, CABINET_SHOWN) == 0, "show");
    check(d[CABINET_ORDER] == 6 && d[CABINET_STAGE] == 9, "it stands by, in the later order");
    check(d[CABINET_POSITION] == 9, "its gate is where it stood");
    check(cabinet_telegram_length(s, CABINET_WORDS, 0) == 0, "it has nothing to send");
    memcpy(b, s, sizeof s);
    refused(cabinet_vote(s, CABINET_WORDS, 1, 0), 15, s, b, "vote, 15 of one standing by");
    check(cabinet_order(s, CABINET_WORDS, 7) == 0 && cabinet_vote(s, CABINET_WORDS, 1, 0) == 0, "it runs in the next");
}

/* how deep each call goes, by a painted stack; each is accepted */
static ucontext_t here, there;
static uint32_t state[CABINET_WORDS], display[CABINET_SHOWN];
static uint8_t card[CABINET_CARD], out[20];
static uint8_t ack[20] = { 0x4C, 0x4C, 2, 32, 5, 2, 1, 0, 0, 0, 0, 5, 0xFF, 0xFF, 0xFF, 0xFF, 0xFF, 0xFF, 0xFF, 0xFF };
static uint8_t ask[24] = { 0x4C, 0x4C, 5, 32, 5, 2, 1, 0, 0, 0, 0, 5, 0, 0, 0, 0, 0, 0, 0, 0, 34, 0, 0, 0 };
static int which, answer;
enum { MEASURED = 15 };

static void call(void) {
    switch (which) {
    case 0: answer = cabinet_begin(state, CABINET_WORDS, 32, 5, 1, 1, 0); break;
    case 1: answer = cabinet_order(state, CABINET_WORDS, 5); break;
    case 2: answer = cabinet_vote(state, CABINET_WORDS, 1, 7); break;
    case 3: answer = cabinet_receive(state, CABINET_WORDS, ack, sizeof ack); break;
    case 4: answer = cabinet_timeout(state, CABINET_WORDS); break;
    case 5: answer = cabinet_telegram_length(state, CABINET_WORDS, 0) != sizeof out; break;
    case 6: answer = cabinet_telegram(state, CABINET_WORDS, 0, out, sizeof out); break;
    case 7: answer = cabinet_timeout(state, CABINET_WORDS); break;
    case 8: answer = cabinet_open(state, CABINET_WORDS, 1); break;
    case 9: answer = cabinet_receive(state, CABINET_WORDS, ask, sizeof ask); break;
    case 10: answer = cabinet_show(state, CABINET_WORDS, display, CABINET_SHOWN); break;
    case 11: answer = cabinet_decide(state, CABINET_WORDS, 0); break;
    case 12: answer = cabinet_save(state, CABINET_WORDS, card, sizeof card); break;
    case 13: answer = cabinet_wake(state, CABINET_WORDS, card, sizeof card); break;
    case 14: answer = cabinet_stop(state, CABINET_WORDS); break;
    }
}

static int deepest(void) {
    enum { ROOM = 1 << 17 };
    unsigned char *stack = malloc(ROOM);
    static int most;
    for (which = 0; which < MEASURED; which++) {
        memset(stack, 0xA5, ROOM);
        getcontext(&there);
        there.uc_stack.ss_sp = stack;
        there.uc_stack.ss_size = ROOM;
        there.uc_link = &here;
        makecontext(&there, call, 0);
        swapcontext(&here, &there);
        check(answer == 0, "a call whose stack is measured is accepted");
        int k = 0;
        while (stack[k] == 0xA5) k++;
        if (ROOM - k > most) most = ROOM - k;
    }
    free(stack);
    return most;
}

int main(int argc, char **argv) {
    if (argc == 2) step = atoi(argv[1]);
    check(step > 0, "STEP is a number from 1 on");
    for (unsigned own = 0; own < 2; own++) { order(3, 1, own); order(32, 5, own); }
    own_questions();
    restarts();
    printf("cabinet tests: %ld states, each of their %d bits turned", states, CABINET_WORDS * 32);
    if (step > 1) printf(", of %d one", step);
    printf(": %ld refusals, nothing changed", refusals);
    if (argc == 1) {
        int stack = deepest();
        check(stack < 8192, "a call takes less than 8 KB of stack");
        printf("; at most %d bytes of stack a call", stack);
    }
    printf("\n");
    return 0;
}
