/* Measures the library's five calls beside the same calls in plain C, on filled memories of three settings. */
#define _POSIX_C_SOURCE 199309L
#include "mail.h"
#include "plain.h"

#include <stdio.h>
#include <stdlib.h>
#include <string.h>
#include <time.h>

enum {
    NODES = 6,
    FILLERS = 41, /* of the tasks on each node, those that fill it with letters */
    WRITERS = 4,  /* of these, those that write within their node */
    FRESH = 41,   /* the task that writes the letter measured and no other */
    TABLE_WORDS = 512,
    GREATEST_MEMORY = 512180,
    GREATEST_OUT = 36 * 1024,
    GREATEST_BODY = 1019,
    ROUNDS = 7,
    ENOUGH = 4000000 /* nanoseconds of plain C in a round */
};

/* The settings, most words of a filling letter's body, and the words of the body that is measured. */
typedef struct {
    uint32_t b, m, s, a, t, most, body;
} setting;

static const setting SETTINGS[] = {
    {8, 4, 2, 2, 2, 2, 2},
    {8, 64, 32, 32, 32, 9, 30},
    {64, 1024, 255, 255, 255, 121, 500},
};

typedef enum { SET_UP, SEND, RECEIVE, TURN, LIST } kind;

/* A call: its two tasks and the length of its body or out. */
typedef struct {
    kind what;
    uint32_t first, second;
    size_t length;
} call;

typedef struct {
    uint32_t number, first, second, third;
} answer;

typedef struct {
    double plain, mail;
} times;

/* The two sides. They work on the same words in turn, so that neither has the better place. */
enum { PLAIN, MAIL, BOTH };

/* A memory and an out, of which a setting uses the front. */
typedef struct {
    _Alignas(64) uint32_t memory[GREATEST_MEMORY];
    _Alignas(64) uint32_t out[GREATEST_OUT];
} words;

static words work, other, before, calm, busy, sent;
static size_t memory_len, out_len;
static uint32_t table[TABLE_WORDS], body[GREATEST_BODY];
static const setting *now_set;

/* ---- calls, played by both sides and compared */

static answer play_plain(const call *c) {
    const setting *s = now_set;
    uint32_t *m = work.memory, *o = work.out;
    plain_answer x;
    switch (c->what) {
    case SET_UP: x = plain_set_up(s->b, s->m, s->s, s->a, s->t, table, TABLE_WORDS, m, memory_len); break;
    case SEND: x = plain_send(m, memory_len, c->first, c->second, body, c->length); break;
    case RECEIVE: x = plain_receive(m, memory_len, c->first, c->second, o, c->length); break;
    case TURN: x = plain_turn(m, memory_len); break;
    default: x = plain_list(m, memory_len, o, c->length); break;
    }
    return (answer){x.number, x.first, x.second, x.third};
}

static answer play_mail(const call *c) {
    const setting *s = now_set;
    uint32_t *m = work.memory, *o = work.out;
    mail_answer x;
    switch (c->what) {
    case SET_UP: x = mail_set_up(s->b, s->m, s->s, s->a, s->t, table, TABLE_WORDS, m, memory_len); break;
    case SEND: x = mail_send(m, memory_len, c->first, c->second, body, c->length); break;
    case RECEIVE: x = mail_receive(m, memory_len, c->first, c->second, o, c->length); break;
    case TURN: x = mail_turn(m, memory_len); break;
    default: x = mail_list(m, memory_len, o, c->length); break;
    }
    return (answer){x.number, x.first, x.second, x.third};
}

static answer play_for(int who, const call *c) { return who == PLAIN ? play_plain(c) : play_mail(c); }

static void copy(words *to, const words *from) {
    memcpy(to->out, from->out, out_len * sizeof *to->out);
    memcpy(to->memory, from->memory, memory_len * sizeof *to->memory);
}

static _Noreturn void fail(const char *why, const call *c) {
    printf("bench: %s: call %d, tasks %u and %u\n", why, (int)c->what, c->first, c->second);
    exit(1);
}

/* Ends the run if what the other side left differs from what is in work. */
static void compare(const call *c, const answer *got) {
    if (memcmp(got + PLAIN, got + MAIL, sizeof *got)) fail("the answers differ", c);
    if (memcmp(work.memory, other.memory, memory_len * sizeof *work.memory)) fail("the memories differ", c);
    if (memcmp(work.out, other.out, out_len * sizeof *work.out)) fail("the outs differ", c);
}

/* Plays a call with both sides. */
static answer play(call c) {
    answer got[BOTH];
    copy(&before, &work);
    got[PLAIN] = play_plain(&c);
    copy(&other, &work);
    copy(&work, &before);
    got[MAIL] = play_mail(&c);
    compare(&c, got);
    return got[PLAIN];
}

/* ---- filled memories */

static uint32_t drawn = 1;

/* A number below a limit, the same ones in every run. */
static uint32_t draw(uint32_t limit) {
    drawn ^= drawn << 13, drawn ^= drawn >> 17, drawn ^= drawn << 5;
    return drawn % limit;
}

static uint32_t task_on(uint32_t node, uint32_t k) { return 1 + node + NODES * k; }

static uint32_t node_of(uint32_t task) { return (task - 1) % NODES; }

static uint32_t stretch_words(void) {
    const setting *s = now_set;
    return 2 + NODES * (3 + s->s) + NODES * (3 + s->a) + 64 * (5 + s->t) + s->m * s->b;
}

/* Counts the free list of a node. */
static uint32_t free_blocks(uint32_t node) {
    uint32_t n = 0, b = now_set->b, size = stretch_words();
    const uint32_t *stretch = work.memory + 536 + (size_t)node * size, *blocks = stretch + size - now_set->m * b;
    for (uint32_t block = *stretch; block; block = blocks[block * b - 1]) n++;
    return n;
}

/* The items of a task's queue. */
static uint32_t items(uint32_t task) {
    const setting *s = now_set;
    uint32_t queue = table[2 * task + 1], at = 2 + NODES * (6 + s->s + s->a) + queue * (5 + s->t);
    return work.memory[536 + (size_t)node_of(task) * stretch_words() + at + 1];
}

static answer send_filling(uint32_t from, uint32_t to) {
    return play((call){SEND, from, to, draw(now_set->most + 1)});
}

/* Calls of all kinds, so that blocks and slots are used in no order. */
static void stir(uint32_t calls) {
    while (calls--) {
        uint32_t task = task_on(draw(NODES), draw(FILLERS)), what = draw(8);
        if (what < 4) send_filling(task_on(draw(NODES), draw(FILLERS)), task);
        else if (what == 4) play((call){TURN, 0, 0, 0});
        else if (items(task)) play((call){RECEIVE, task, 0, out_len});
    }
}

/* Receives where blocks or slots are scarce and lets the postmen go round, until nothing is on its way. */
static void quieten(void) {
    for (int tour = 0; tour < 12; tour++) {
        for (uint32_t task = 1; task < 256; task++) {
            int scarce = items(task) == now_set->t || free_blocks(node_of(task)) * 4 < now_set->m * 3;
            if (scarce && items(task)) play((call){RECEIVE, task, 0, out_len});
        }
        for (int node = 0; node < NODES; node++) play((call){TURN, 0, 0, 0});
    }
}

/* Letters within each node until only about so many of eight parts of its blocks are free. */
static void fill_within(uint32_t eighths) {
    for (uint32_t node = 0; node < NODES; node++) {
        for (int tries = 0; free_blocks(node) * 8 > eighths * now_set->m && tries < 1000; tries++) {
            uint32_t reader = WRITERS + draw(FILLERS - WRITERS);
            send_filling(task_on(node, draw(WRITERS)), task_on(node, reader));
        }
    }
}

/* Letters to the other nodes by turns, until only about so many of eight parts of the blocks are free. */
static void fill_between(uint32_t eighths) {
    for (uint32_t node = 0; node < NODES; node++) {
        for (uint32_t n = 0; free_blocks(node) * 8 > eighths * now_set->m && n < 1000; n++) {
            uint32_t to = (node + 1 + n % (NODES - 1)) % NODES;
            send_filling(task_on(node, draw(FILLERS)), task_on(to, draw(FILLERS)));
        }
    }
}

/* Takes letters out of the midst of task queues. */
static void make_gaps(void) {
    for (uint32_t task = 1; task < 256; task++) {
        if (items(task) > 2) play((call){RECEIVE, task, task_on(node_of(task), draw(WRITERS)), out_len});
    }
}

/* Binds each task but 0 and makes a memory in work with no letter between nodes, the turn being node 0's. */
static void begin(const setting *s) {
    now_set = s;
    memory_len = 536 + (size_t)NODES * stretch_words();
    out_len = 6 * (size_t)NODES * s->m;
    for (uint32_t i = 0; i < out_len; i++) work.out[i] = i;
    table[0] = 255;
    for (uint32_t task = 1; task < 256; task++) {
        table[2 * task] = node_of(task);
        table[2 * task + 1] = (task - 1) / NODES;
    }
    play((call){SET_UP, 0, 0, 0});
    stir(2000);
    quieten();
    while (work.memory[5]) play((call){TURN, 0, 0, 0});
}

/* Makes the two memories: in calm all letters have arrived, in busy there are letters and acknowledgements for node 0. */
static void fill(const setting *s) {
    begin(s);
    copy(&busy, &work);
    fill_within(3);
    make_gaps();
    copy(&calm, &work);
    copy(&work, &busy);
    fill_within(6);
    make_gaps();
    fill_between(4);
    for (int node = 0; node < NODES; node++) play((call){TURN, 0, 0, 0});
    fill_between(2);
    copy(&busy, &work);
}

/* ---- measuring */

static uint64_t nanoseconds(void) {
    struct timespec t;
    clock_gettime(CLOCK_MONOTONIC, &t);
    return (uint64_t)t.tv_sec * 1000000000u + (uint64_t)t.tv_nsec;
}

/* What reading the clock costs by itself. */
static uint64_t clock_cost(void) {
    uint64_t least = UINT32_MAX;
    for (int i = 0; i < 1000; i++) {
        uint64_t start = nanoseconds(), cost = nanoseconds() - start;
        if (cost < least) least = cost;
    }
    return least;
}

/* Plays a call on words restored before, and only the call is timed. */
static uint64_t timed(int who, const call *c, const words *from, answer *got) {
    copy(&work, from);
    uint64_t start = nanoseconds();
    *got = play_for(who, c);
    return nanoseconds() - start;
}

/* How many calls take plain C long enough. */
static uint64_t repetitions(const call *c, const words *from) {
    answer got;
    uint64_t n = 0;
    for (uint64_t spent = 0; spent < ENOUGH; n++) spent += timed(PLAIN, c, from, &got);
    return n;
}

/* The best round's time of one call: the sides take turns in going first, and all that each call leaves is compared. */
static times measure(call c, const words *from) {
    uint64_t n = repetitions(&c, from), cost = clock_cost();
    double best[BOTH] = {1e30, 1e30};
    for (int round = 0; round < ROUNDS; round++) {
        uint64_t spent[BOTH] = {0, 0};
        for (uint64_t i = 0; i < n; i++) {
            answer got[BOTH];
            int first = (int)(i % BOTH), second = 1 - first;
            spent[first] += timed(first, &c, from, got + first) - cost;
            copy(&other, &work);
            spent[second] += timed(second, &c, from, got + second) - cost;
            compare(&c, got);
        }
        for (int who = PLAIN; who < BOTH; who++) {
            double mean = (double)spent[who] / (double)n;
            if (mean < best[who]) best[who] = mean;
        }
    }
    return (times){best[PLAIN], best[MAIL]};
}

/* Prints one row, after seeing that the call answers what it is meant to. */
static times row(const char *name, uint32_t number, call c, const words *from) {
    const setting *s = now_set;
    copy(&work, from);
    if (play(c).number != number) fail("not the answer that was to be measured", &c);
    times x = measure(c, from);
    printf("%-34s %2u %4u %3u %3u %3u %11.0f %11.0f %7.2f\n", name, s->b, s->m, s->s, s->a, s->t, x.plain, x.mail,
           x.mail / x.plain);
    return x;
}

/* A send within a node with room, and the receive that finds its letter behind the others. */
static void send_and_receive(void) {
    uint32_t node = 0, reader = WRITERS;
    copy(&work, &busy);
    for (uint32_t i = 1; i < NODES; i++) node = free_blocks(i) > free_blocks(node) ? i : node;
    for (uint32_t k = WRITERS; k < FILLERS; k++) {
        uint32_t n = items(task_on(node, k));
        if (n < now_set->t && n > items(task_on(node, reader))) reader = k;
    }
    uint32_t from = task_on(node, FRESH), to = task_on(node, reader);
    call send = {SEND, from, to, now_set->body}, receive = {RECEIVE, to, from, now_set->body};
    row("send", 0, send, &busy);
    copy(&work, &busy);
    play(send);
    copy(&sent, &work);
    if (play(receive).second != now_set->body) fail("not the letter that was sent", &receive);
    row("receive", 0, receive, &sent);
}

/* A turn of node 0 on a memory; ends the run if it carries nothing and was to, or the other way round. */
static void turn_row(const char *name, int carries, const words *from) {
    call turn = {TURN, 0, 0, 0};
    copy(&work, from);
    answer x = play(turn);
    if (carries != (x.second != 0) || (!carries && x.third != 0)) fail("not the turn that was to be measured", &turn);
    row(name, 0, turn, from);
}

/* Measures all calls of one setting; gives the time of the test of a memory alone. */
static times measure_setting(const setting *s) {
    fill(s);
    row("set up", 0, (call){SET_UP, 0, 0, 0}, &busy);
    send_and_receive();
    turn_row("turn, letters to carry", 1, &busy);
    turn_row("turn, none", 0, &calm);
    row("list", 0, (call){LIST, 0, 0, out_len}, &busy);
    return row("send refused by 2: the test alone", 2, (call){SEND, 256, 1, 0}, &busy);
}

/* Says how full the busy memory is and what its turn does. */
static void describe(void) {
    uint32_t left = 0;
    copy(&work, &busy);
    for (uint32_t node = 0; node < NODES; node++) left += free_blocks(node);
    answer list = play((call){LIST, 0, 0, out_len}), turn = play((call){TURN, 0, 0, 0});
    printf("  %zu words, %u letters listed, %u of %u blocks free; the turn carries letters: %u, gives blocks back: %u\n",
           memory_len, list.first, left, NODES * now_set->m, turn.second, turn.third);
}

int main(void) {
    enum { COUNT = sizeof SETTINGS / sizeof *SETTINGS };
    times test[COUNT];
    double size[COUNT];
    for (uint32_t i = 0; i < GREATEST_BODY; i++) body[i] = 7 * i;
    printf("%-34s %2s %4s %3s %3s %3s %11s %11s %7s\n", "call", "B", "M", "S", "A", "T", "plain ns", "mail ns", "ratio");
    for (int i = 0; i < COUNT; i++) {
        test[i] = measure_setting(SETTINGS + i);
        size[i] = (double)memory_len;
        describe();
    }
    printf("\nthe test of a memory alone (the send refused by 2), million words a second: plain, mail\n");
    for (int i = 0; i < COUNT; i++) {
        printf("%9.0f words %9.1f %9.1f\n", size[i], size[i] / test[i].plain * 1e3, size[i] / test[i].mail * 1e3);
    }
    return 0;
}
