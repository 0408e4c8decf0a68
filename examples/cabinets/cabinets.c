/* Cabinets that run: n processes, each with one controller of the library, telegrams by UDP on the loopback
 * address, over a line that loses, repeats, delays and so reorders by a seed; an arbiter process, or none
 * (ballots); cabinets killed at any moment, and started again from their cards.
 *
 *     cabinets SEED DIR N F OWN ORDERS LOSS KILLS AGAIN [SLOW]
 *
 * LOSS is in percent (of lost, of repeated and of late telegrams each), KILLS at most how many are killed in the
 * run, AGAIN 0 to send nothing twice; SLOW makes every wait so many times longer, for a slow machine. Leaves in
 * DIR `schedule` (what the cabinets accepted, in an order that the causes allow, for the bench) and `lines` (the C
 * line of each). Prints one line of counts. Exit status 0: every order ended; 3: a running cabinet was left open. */
#define _GNU_SOURCE
#include "cabinet.h"
#include <arpa/inet.h>
#include <errno.h>
#include <fcntl.h>
#include <poll.h>
#include <signal.h>
#include <stdio.h>
#include <stdlib.h>
#include <string.h>
#include <sys/mman.h>
#include <sys/prctl.h>
#include <sys/socket.h>
#include <sys/wait.h>
#include <time.h>
#include <unistd.h>

enum { MOST = 32, ARBITER = 0, QUEUE = 4096, RECORDS = 200000 };
/* an order is left open after ORDER_MS, or after LONE_MS where nothing is sent twice: long on a slow machine,
 * since else all end */
enum { WAIT_MS = 10, AGAIN_MS = 5, LATE_MS = 15, ORDER_MS = 20000, LONE_MS = 1500 };
/* kinds of events, as the bench has them */
enum { LOCK, ORDER, VOTE, DELIVER, BELL, WORD, STOP, SAVE, RESTORE, OPEN = 10 };

/* one accepted event of a cabinet, as its file has it */
struct record { uint64_t at; uint32_t order, position; uint8_t event[10], outcome, unused[5]; };

/* what the processes count together */
struct counts { long sent, lost, repeated, late, refused; };

static unsigned n, f, own, orders, loss, kills, again, slow = 1;
static const char *dir;
static int line[MOST + 1];
static struct sockaddr_in address[MOST + 1];
static struct counts *total;
static uint32_t draws;
static volatile sig_atomic_t ended;

static void count(long *of) { __atomic_add_fetch(of, 1, __ATOMIC_RELAXED); }

static void end(int signal) { (void)signal; ended = 1; }

static void fail(const char *what) { perror(what); _exit(9); }

static uint64_t now_ns(void) {
    struct timespec t;
    clock_gettime(CLOCK_MONOTONIC, &t);
    return (uint64_t)t.tv_sec * 1000000000u + (uint64_t)t.tv_nsec;
}

static uint64_t ms(unsigned k) { return (uint64_t)k * slow * 1000000u; }

static unsigned draw(unsigned below) {
    draws ^= draws << 13;
    draws ^= draws >> 17;
    draws ^= draws << 5;
    return draws % below;
}

/* THE LINE: each datagram is lost, or sent once or twice, each time at once or later. */
static struct late { uint64_t at; unsigned to; size_t length; uint8_t bytes[32]; } queue[QUEUE];
static unsigned queued;

static void carry(unsigned me, unsigned to, const uint8_t *bytes, size_t length) {
    sendto(line[me], bytes, length, 0, (struct sockaddr *)&address[to], sizeof address[to]);
}

static void put(unsigned me, unsigned to, const uint8_t *bytes, size_t length) {
    count(&total->sent);
    if (draw(100) < loss) { count(&total->lost); return; }
    unsigned times = 1;
    if (draw(100) < loss) { times = 2; count(&total->repeated); }
    while (times--) {
        if (draw(100) < loss && queued < QUEUE) {
            struct late *l = &queue[queued++];
            l->at = now_ns() + ms(1 + draw(LATE_MS));
            l->to = to;
            l->length = length;
            memcpy(l->bytes, bytes, length);
            count(&total->late);
        } else {
            carry(me, to, bytes, length);
        }
    }
}

static void carry_late(unsigned me) {
    uint64_t now = now_ns();
    for (unsigned k = 0; k < queued;) {
        if (queue[k].at > now) { k++; continue; }
        carry(me, queue[k].to, queue[k].bytes, queue[k].length);
        queue[k] = queue[--queued];
    }
}

/* Datagrams beside the telegrams, which begin with 4C: a letter, the order, a word. O: an order is called. P: a word is
 * put. W: the word of the order. D: done. */
static void big_endian(uint8_t *b, uint32_t v) {
    for (int k = 0; k < 4; k++) b[k] = (uint8_t)(v >> (24 - 8 * k));
}

static void tell(unsigned me, unsigned to, char letter, uint32_t order, uint8_t word) {
    uint8_t b[7] = { (uint8_t)letter, 0, 0, 0, 0, word, (uint8_t)me };
    big_endian(b + 1, order);
    put(me, to, b, sizeof b);
}

static uint32_t order_in(const uint8_t *b) {
    return (uint32_t)b[1] << 24 | (uint32_t)b[2] << 16 | (uint32_t)b[3] << 8 | b[4];
}

static ssize_t next(unsigned me, uint8_t *in, size_t room, int wait) {
    struct pollfd p = { line[me], POLLIN, 0 };
    if (poll(&p, 1, wait) <= 0) return -1;
    return recv(line[me], in, room, MSG_DONTWAIT);
}

/* ON DISK: the card, so that a torn write is noticed; and what was accepted. */
static void path_of(char *path, const char *name, unsigned id) { snprintf(path, 300, "%s/%s.%u", dir, name, id); }

static void store(unsigned id, const uint8_t *card) {
    char path[300], made[310];
    path_of(path, "card", id);
    snprintf(made, sizeof made, "%s.new", path);
    int file = open(made, O_WRONLY | O_CREAT | O_TRUNC, 0600);
    if (file < 0 || write(file, card, CABINET_CARD) != CABINET_CARD || fsync(file) || close(file)) fail(made);
    if (rename(made, path)) fail(path);
    int folder = open(dir, O_RDONLY | O_DIRECTORY); /* the new name is on disk too */
    if (folder < 0 || fsync(folder) || close(folder)) fail(dir);
}

/* how many bytes of it there are, one too many among them; -1 if there is none */
static ssize_t load(unsigned id, uint8_t *card) {
    char path[300];
    path_of(path, "card", id);
    int file = open(path, O_RDONLY);
    if (file < 0 && errno == ENOENT) return -1;
    ssize_t length = file < 0 ? -1 : read(file, card, CABINET_CARD + 1);
    if (length < 0 || close(file)) fail(path);
    return length;
}

struct cabinet {
    unsigned id;
    int file;
    uint32_t state[CABINET_WORDS], shown[CABINET_SHOWN];
};

static void look(struct cabinet *c) {
    if (cabinet_show(c->state, CABINET_WORDS, c->shown, CABINET_SHOWN)) fail("show");
}

/* an event's ten bytes */
static void event_bytes(uint8_t *r, uint8_t kind, uint8_t a, uint8_t b, uint8_t e, uint32_t v) {
    uint8_t head[6] = { 0x4C, 0x45, kind, a, b, e };
    memcpy(r, head, sizeof head);
    big_endian(r + 6, v);
}

static void note(struct cabinet *c, uint8_t kind, uint8_t a, uint8_t b, uint8_t e, uint32_t v) {
    look(c);
    struct record r = { .at = now_ns(), .order = c->shown[CABINET_ORDER], .position = c->shown[CABINET_POSITION],
        .outcome = (uint8_t)c->shown[CABINET_OUTCOME] };
    event_bytes(r.event, kind, a, b, e, v);
    if (write(c->file, &r, sizeof r) != sizeof r) fail("record");
}

static void save(struct cabinet *c) {
    uint8_t card[CABINET_CARD];
    if (cabinet_save(c->state, CABINET_WORDS, card, sizeof card)) fail("save");
    store(c->id, card);
    note(c, SAVE, (uint8_t)c->id, 0, 0, 0);
}

/* the last event on file, and the last save */
static int recorded(unsigned id, struct record *last, struct record *saved) {
    char path[300];
    path_of(path, "record", id);
    int file = open(path, O_RDONLY), any = 0;
    struct record r;
    memset(last, 0, sizeof *last);
    memset(saved, 0, sizeof *saved);
    while (file >= 0 && read(file, &r, sizeof r) == sizeof r) {
        *last = r;
        any = 1;
        if (r.event[2] == SAVE) *saved = r;
    }
    if (file >= 0) close(file);
    return any;
}

static void begin(struct cabinet *c, uint32_t position) {
    uint8_t id = (uint8_t)c->id;
    if (cabinet_begin(c->state, CABINET_WORDS, (uint8_t)n, (uint8_t)f, id, (uint8_t)own, position)) fail("begin");
}

/* One starts: where its gate stands; and if it has a card it was here before, and wakes from it. A card that is
 * refused ends it: begun as new it could run in an order in which it has voted. Killed between card and record, it
 * records the save first. */
static void set_up(struct cabinet *c) {
    struct record last, saved;
    uint8_t card[CABINET_CARD + 1];
    recorded(c->id, &last, &saved);
    begin(c, last.position);
    ssize_t length = load(c->id, card);
    if (length < 0) { look(c); return; } /* it was in no order yet */
    if (cabinet_wake(c->state, CABINET_WORDS, card, (size_t)length)) fail("the card is refused");
    look(c);
    if (saved.order != c->shown[CABINET_ORDER] || saved.outcome != c->shown[CABINET_OUTCOME])
        note(c, SAVE, (uint8_t)c->id, 0, 0, 0);
    note(c, STOP, (uint8_t)c->id, 0, 0, 0);
    note(c, RESTORE, (uint8_t)c->id, 0, 0, 0);
}

static void order_called(struct cabinet *c, uint32_t order) {
    if (order <= c->shown[CABINET_ORDER] || cabinet_order(c->state, CABINET_WORDS, order)) return;
    save(c);
    uint8_t willing = draw(8) != 0;
    uint32_t target = draw(20001);
    if (cabinet_vote(c->state, CABINET_WORDS, willing, target)) fail("vote");
    note(c, VOTE, (uint8_t)c->id, willing, 0, target);
}

static void word_came(struct cabinet *c, uint32_t order, uint8_t word) {
    if (order != c->shown[CABINET_ORDER] || word == 0 || c->shown[CABINET_OUTCOME]) return;
    if (cabinet_decide(c->state, CABINET_WORDS, word == 2) == 0) note(c, WORD, (uint8_t)c->id, word == 2, 0, 0);
}

static void telegram_came(struct cabinet *c, const uint8_t *in, size_t length) {
    uint32_t before[CABINET_WORDS];
    memcpy(before, c->state, sizeof before);
    if (cabinet_receive(c->state, CABINET_WORDS, in, length)) { count(&total->refused); return; }
    if (memcmp(before, c->state, sizeof before) == 0) return; /* passed over, or known */
    uint32_t ballot = in[2] >= 5 ? in[length - 4] : 0;
    note(c, DELIVER, in[5], (uint8_t)c->id, in[2], ballot);
}

static void came(struct cabinet *c, const uint8_t *in, size_t length) {
    if (in[0] == 'O' && length == 7) order_called(c, order_in(in));
    else if (in[0] == 'W' && length == 7) word_came(c, order_in(in), in[5]);
    else telegram_came(c, in, length);
}

/* all that it has sent in this order; with AGAIN 0 each telegram once */
static void send_all(struct cabinet *c) {
    static uint32_t of;
    static unsigned char gone[9][MOST + 1][256];
    uint8_t t[CABINET_TELEGRAM];
    if (of != c->shown[CABINET_ORDER]) { memset(gone, 0, sizeof gone); of = c->shown[CABINET_ORDER]; }
    for (unsigned k = 0; k < 256; k++) {
        uint8_t length = cabinet_telegram_length(c->state, CABINET_WORDS, (uint8_t)k);
        if (length == 0) break;
        if (cabinet_telegram(c->state, CABINET_WORDS, (uint8_t)k, t, length)) fail("telegram");
        unsigned char *once = &gone[t[2]][t[6]][t[2] >= 5 ? t[length - 4] : 0];
        if (!again && *once) continue;
        *once = 1;
        put(c->id, t[6], t, length);
    }
}

static void open_ballot(struct cabinet *c) {
    unsigned b = c->shown[CABINET_HIGHEST] + 1;
    while (b <= 255 && (b - 1) % n + 1 != c->id) b++;
    if (b <= 255 && cabinet_open(c->state, CABINET_WORDS, (uint8_t)b) == 0) note(c, OPEN, (uint8_t)c->id, 0, 0, b);
}

static void settle(struct cabinet *c) {
    uint32_t order = c->shown[CABINET_ORDER];
    unsigned stage = c->shown[CABINET_STAGE];
    uint8_t word = (uint8_t)c->shown[CABINET_PUT], settled = (uint8_t)c->shown[CABINET_SETTLED];
    if (!own && !c->shown[CABINET_OUTCOME] && (word || stage == 9)) tell(c->id, ARBITER, 'P', order, word);
    if (own && settled)
        for (unsigned i = 1; i <= n; i++) if (i != c->id) tell(c->id, i, 'W', order, settled);
}

/* its C line */
static void write_line(unsigned id, unsigned stage, char outcome, uint32_t position) {
    char path[300];
    path_of(path, "line", id);
    FILE *out = fopen(path, "w");
    if (!out) fail(path);
    fprintf(out, "C %u %u %c %d\n", id, stage, outcome, (int32_t)position);
    fclose(out);
}

static void cabinet(unsigned id, unsigned seed, int back) {
    static struct cabinet c;
    char path[300];
    uint8_t in[64];
    prctl(PR_SET_PDEATHSIG, SIGKILL);
    draws = seed * 2654435761u + id * 40503u + (back ? 77u : 1u);
    if (!draws) draws = 1;
    c.id = id;
    path_of(path, "record", id);
    c.file = open(path, O_WRONLY | O_CREAT | O_APPEND, 0600);
    if (c.file < 0) fail(path);
    set_up(&c);
    uint64_t again_at = 0, bell_at = 0, open_at = 0;
    uint32_t stage = 99, order = 0, had = c.shown[CABINET_OUTCOME];
    while (!ended) {
        ssize_t length = next(id, in, sizeof in, 1);
        if (length > 0) { came(&c, in, (size_t)length); look(&c); }
        carry_late(id);
        uint64_t now = now_ns();
        if (c.shown[CABINET_ORDER] != order || c.shown[CABINET_STAGE] != stage) {
            bell_at = now + ms(WAIT_MS);
            open_at = now + ms(1 + draw(10));
            again_at = now;
        }
        order = c.shown[CABINET_ORDER];
        stage = c.shown[CABINET_STAGE];
        if ((stage == 1 || stage == 2) && now >= bell_at) {
            if (cabinet_timeout(c.state, CABINET_WORDS)) fail("timeout");
            note(&c, BELL, (uint8_t)id, 0, 0, 0);
            continue;
        }
        if (own && stage == 3 && c.shown[CABINET_PUT] && !c.shown[CABINET_OUTCOME] && now >= open_at) {
            open_ballot(&c);
            look(&c);
            open_at = now + ms(15 + draw(10 * n));
            again_at = now;
        }
        if (own && c.shown[CABINET_SETTLED]) { word_came(&c, order, (uint8_t)c.shown[CABINET_SETTLED]); look(&c); }
        if (c.shown[CABINET_OUTCOME] != had) { had = c.shown[CABINET_OUTCOME]; if (had) save(&c); }
        if (now >= again_at && order) {
            again_at = now + ms(AGAIN_MS);
            send_all(&c);
            settle(&c);
            if (had || stage == 9) tell(id, ARBITER, 'D', order, (uint8_t)had);
        }
    }
    write_line(id, c.shown[CABINET_STAGE], "-SM"[c.shown[CABINET_OUTCOME]], c.shown[CABINET_POSITION]);
    _exit(0);
}

/* THE KEEPER, who is the arbiter too: it calls the orders, gives the first word put in an order, kills and starts
 * again. */
static pid_t process[MOST + 1];
static uint32_t killed_in[MOST + 1];

static void start(unsigned id, unsigned seed, int back) {
    sigset_t term, before;
    sigemptyset(&term);
    sigaddset(&term, SIGTERM);
    fflush(stdout);
    sigprocmask(SIG_BLOCK, &term, &before); /* until the new process has its handler: it may be ended at once */
    process[id] = fork();
    if (process[id] < 0) fail("fork");
    if (process[id] == 0) signal(SIGTERM, end);
    sigprocmask(SIG_SETMASK, &before, NULL);
    if (process[id] == 0) cabinet(id, seed, back);
}

static struct record all[RECORDS];

static int earlier(const void *x, const void *y) {
    const struct record *a = x, *b = y;
    if (a->order != b->order) return a->order < b->order ? -1 : 1;
    return a->at < b->at ? -1 : a->at > b->at;
}

static void event(FILE *out, uint8_t kind, uint8_t a, uint8_t b, uint8_t e, uint32_t v) {
    uint8_t r[10];
    event_bytes(r, kind, a, b, e, v);
    fwrite(r, 1, sizeof r, out);
}

/* the records of all, order by order and by time: a telegram came after it was sent, on one clock */
static void write_schedule(void) {
    char path[300];
    size_t count = 0;
    struct record r;
    for (unsigned id = 1; id <= n; id++) {
        path_of(path, "record", id);
        int file = open(path, O_RDONLY);
        while (file >= 0 && count < RECORDS && read(file, &r, sizeof r) == sizeof r) all[count++] = r;
        if (file >= 0) close(file);
    }
    qsort(all, count, sizeof all[0], earlier);
    snprintf(path, sizeof path, "%s/schedule", dir);
    FILE *out = fopen(path, "wb");
    if (!out) fail(path);
    event(out, LOCK, (uint8_t)n, (uint8_t)f, (uint8_t)own, 0);
    uint32_t order = 0;
    for (size_t k = 0; k < count; k++) {
        if (all[k].order != order) { order = all[k].order; event(out, ORDER, 0, 0, 0, order); }
        fwrite(all[k].event, 1, 10, out);
    }
    fclose(out);
    snprintf(path, sizeof path, "%s/lines", dir);
    if (!(out = fopen(path, "w"))) fail(path);
    for (unsigned id = 1; id <= n; id++) {
        char text[100];
        path_of(path, "line", id);
        FILE *in = fopen(path, "r");
        if (in && fgets(text, sizeof text, in)) fputs(text, out);
        if (in) fclose(in);
    }
    fclose(out);
}

/* one that was killed and is not started again is stopped, in the order of its last record, or in the one in which
 * it was killed if it has none */
static void stopped(unsigned id, uint32_t order) {
    char path[300];
    struct record last, saved;
    if (recorded(id, &last, &saved)) order = last.order;
    write_line(id, 8, '-', last.position);
    struct record r = { .at = now_ns(), .order = order, .position = last.position };
    event_bytes(r.event, STOP, (uint8_t)id, 0, 0, 0);
    path_of(path, "record", id);
    int file = open(path, O_WRONLY | O_CREAT | O_APPEND, 0600);
    if (file < 0 || write(file, &r, sizeof r) != sizeof r) fail(path);
    close(file);
}

int main(int argc, char **argv) {
    if (argc != 10 && argc != 11) {
        fprintf(stderr, "usage: cabinets SEED DIR N F OWN ORDERS LOSS KILLS AGAIN [SLOW]\n");
        return 2;
    }
    unsigned seed = (unsigned)atoi(argv[1]);
    dir = argv[2];
    unsigned *numbers[] = { &n, &f, &own, &orders, &loss, &kills, &again, &slow };
    for (int k = 3; k < argc; k++) *numbers[k - 3] = (unsigned)atoi(argv[k]);
    total = mmap(NULL, sizeof *total, PROT_READ | PROT_WRITE, MAP_SHARED | MAP_ANONYMOUS, -1, 0);
    if (total == MAP_FAILED) fail("mmap");
    for (unsigned i = 0; i <= n; i++) {
        socklen_t size = sizeof address[i];
        int room = 1 << 20;
        line[i] = socket(AF_INET, SOCK_DGRAM, 0);
        setsockopt(line[i], SOL_SOCKET, SO_RCVBUF, &room, sizeof room);
        address[i].sin_family = AF_INET;
        address[i].sin_addr.s_addr = htonl(INADDR_LOOPBACK);
        struct sockaddr *at = (struct sockaddr *)&address[i];
        if (line[i] < 0 || bind(line[i], at, sizeof address[i]) || getsockname(line[i], at, &size)) fail("line");
    }
    draws = seed * 69069u + 1234567u;
    if (!draws) draws = 1;
    for (unsigned id = 1; id <= n; id++) start(id, seed, 0);
    unsigned killed = 0, back = 0, open_left = 0, ended_orders = 0;
    uint64_t began = now_ns();
    for (uint32_t order = 1; order <= orders; order++) {
        uint8_t word = 0, outcome = 0, in[64], done[MOST + 1] = { 0 };
        uint64_t call_at = 0, from = now_ns(), until = from + ms(again ? ORDER_MS : LONE_MS);
        uint64_t kill_at = kills > killed ? from + ms(draw(60)) : until + 1, back_at = until + 1;
        unsigned victim = 0;
        for (;;) {
            uint64_t now = now_ns();
            unsigned open_now = 0;
            for (unsigned i = 1; i <= n; i++) if (process[i] > 0 && !done[i]) open_now++;
            if (open_now == 0 && kill_at > until && back_at > until) { ended_orders++; break; }
            if (now > until) { open_left += open_now; break; }
            if (now >= kill_at) { /* at any moment: during a call, a write, a send */
                victim = 1 + draw(n);
                kill_at = until + 1;
                if (process[victim] > 0) {
                    kill(process[victim], SIGKILL);
                    waitpid(process[victim], NULL, 0);
                    process[victim] = 0;
                    killed_in[victim] = order;
                    killed++;
                    if (draw(3)) back_at = now + ms(draw(40)); /* of three two come back */
                }
            }
            if (now >= back_at) { back_at = until + 1; start(victim, seed + order, 1); back++; done[victim] = 0; }
            if (now >= call_at) {
                call_at = now + ms(AGAIN_MS);
                for (unsigned i = 1; i <= n; i++) if (!done[i]) tell(ARBITER, i, 'O', order, 0);
            }
            carry_late(ARBITER);
            ssize_t length = next(ARBITER, in, sizeof in, 1);
            if (length != 7 || order_in(in) != order) continue;
            if (in[0] == 'D') {
                done[in[6]] = 1;
                if (in[5] && outcome && in[5] != outcome) {
                    fprintf(stderr, "order %u: two outcomes\n", order);
                    return 9;
                }
                if (in[5]) outcome = in[5];
            }
            if (in[0] == 'P') { if (!word) word = in[5]; if (word) tell(ARBITER, in[6], 'W', order, word); }
        }
        if (open_left) break;
    }
    double seconds = (double)(now_ns() - began) / 1e9;
    for (unsigned id = 1; id <= n; id++) if (process[id] > 0) kill(process[id], SIGTERM);
    for (unsigned id = 1; id <= n; id++) {
        int status = 0;
        if (process[id] > 0) waitpid(process[id], &status, 0);
        else stopped(id, killed_in[id]);
        if (status) { fprintf(stderr, "cabinet %u ended with %x\n", id, status); return 9; }
    }
    write_schedule();
    printf("orders %u of %u in %.3f s, open %u, killed %u, back %u; ",
        ended_orders, orders, seconds, open_left, killed, back);
    printf("datagrams %ld, lost %ld, repeated %ld, late %ld, refused %ld\n",
        total->sent, total->lost, total->repeated, total->late, total->refused);
    return open_left ? 3 : 0;
}
