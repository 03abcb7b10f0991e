/* Measures the stack of the library's five calls: the most bytes that a call takes, on memories full of long letters. */
#include "mail.h"

#include <stdio.h>
#include <string.h>

enum {
    NODES = 6,
    TABLE_WORDS = 512,
    GREATEST_MEMORY = 512180,
    GREATEST_OUT = 40000,
    GREATEST_BODY = 1019,
    CALLS_PLAYED = 4000,
    ANSWERS = 16, /* one more than the greatest number that a call answers */
    STACK = 1 << 20,
    GOAL = 8192,
    PAINT = 0xa5
};

typedef enum { SET_UP, SEND, RECEIVE, TURN, LIST, CALLS } kind;

static const char *const NAMES[CALLS] = {"set up", "send", "receive", "turn", "list"};

static const uint32_t SETTINGS[][5] = {
    {8, 4, 2, 2, 2},
    {8, 64, 32, 32, 32},
    {64, 1024, 255, 255, 255},
    {4, 1024, 255, 255, 255},
};

static _Alignas(64) unsigned char stack[STACK];
static uint32_t table[TABLE_WORDS], memory[GREATEST_MEMORY], out[GREATEST_OUT], body[GREATEST_BODY];
static size_t memory_len;
static const uint32_t *now_set;
static size_t most[CALLS];
static uint32_t answered[ANSWERS], longest; /* how often each number came back, and the longest body received */

/* The call that the other stack plays, its tasks and length, and its answer. */
static kind what;
static uint32_t first, second;
static size_t length;
static mail_answer answer;

static void play_here(void) {
    const uint32_t *s = now_set;
    switch (what) {
    case SET_UP: answer = mail_set_up(s[0], s[1], s[2], s[3], s[4], table, TABLE_WORDS, memory, memory_len); break;
    case SEND: answer = mail_send(memory, memory_len, first, second, body, length); break;
    case RECEIVE: answer = mail_receive(memory, memory_len, first, second, out, GREATEST_BODY); break;
    case TURN: answer = mail_turn(memory, memory_len); break;
    default: answer = mail_list(memory, memory_len, out, GREATEST_OUT); break;
    }
}

/* Plays the call on a painted stack, and notes how deep the paint is gone. */
static void play(kind k, uint32_t a, uint32_t b, size_t n) {
    what = k, first = a, second = b, length = n;
    memset(stack, PAINT, sizeof stack);
    __asm__ volatile("movq %%rsp, %%rbx\n\tmovq %0, %%rsp\n\tcall *%1\n\tmovq %%rbx, %%rsp"
                     :
                     : "r"(stack + STACK), "r"(play_here)
                     : "rax", "rbx", "rcx", "rdx", "rsi", "rdi", "r8", "r9", "r10", "r11", "xmm0", "xmm1", "xmm2",
                       "xmm3", "xmm4", "xmm5", "xmm6", "xmm7", "xmm8", "xmm9", "xmm10", "xmm11", "xmm12", "xmm13",
                       "xmm14", "xmm15", "memory", "cc");
    size_t low = 0;
    while (low < STACK && stack[low] == PAINT) low++;
    if (STACK - low > most[k]) most[k] = STACK - low;
    answered[answer.number]++;
    if (k == RECEIVE && answer.number == 0 && answer.second > longest) longest = answer.second;
}

static uint32_t drawn = 1;

/* A number below a limit, the same ones in every run. */
static uint32_t draw(uint32_t limit) {
    drawn ^= drawn << 13, drawn ^= drawn >> 17, drawn ^= drawn << 5;
    return drawn % limit;
}

/* Binds each task but 0, the six nodes taking turns. */
static void bind_tasks(void) {
    table[0] = 255;
    for (uint32_t id = 1; id < 256; id++) table[2 * id] = (id - 1) % NODES, table[2 * id + 1] = (id - 1) / NODES;
}

static size_t memory_words(const uint32_t *s) {
    return 536 + NODES * (size_t)(2 + NODES * (3 + s[2]) + NODES * (3 + s[3]) + 64 * (5 + s[4]) + s[1] * s[0]);
}

/* The longest body that a node has blocks for. */
static uint32_t longest_body(const uint32_t *s) {
    uint32_t words = s[1] * (s[0] - 1) - 5;
    return words < GREATEST_BODY ? words : GREATEST_BODY;
}

static uint32_t letter_length(void) {
    uint32_t most_words = longest_body(now_set);
    return draw(3) ? draw(4) : draw(4) ? most_words : draw(most_words + 1);
}

/* Plays calls of all kinds between a few tasks of each node, so that queues fill, gaps close and turns stop and go on. */
static void play_many(uint32_t calls) {
    while (calls--) {
        uint32_t to = 1 + draw(18), from = 1 + draw(18), k = draw(16);
        if (k < 9) play(SEND, from, to, letter_length());
        else if (k < 12) play(TURN, 0, 0, 0);
        else if (k < 15) play(RECEIVE, to, draw(2) ? from : 0, 0);
        else play(LIST, 0, 0, 0);
    }
}

/* A task queue at its length with a gap, closed by a send; then again, closed by a turn (where T is 2 the turn stops: the queue is full). */
static void close_gaps(void) {
    uint32_t to = 1, one = to + NODES, other = one + NODES, away = to + 1;
    for (uint32_t k = 0; k < now_set[4]; k++) play(SEND, k % 2 ? other : one, to, 0);
    play(RECEIVE, to, other, 0);
    play(SEND, one, to, 0);
    play(RECEIVE, to, other, 0);
    play(SEND, away, to, 0);
    for (int k = 0; k < NODES; k++) play(TURN, 0, 0, 0);
}

/* Plays one setting's calls and prints its row; tells whether no call took more than the goal. */
static int measure(const uint32_t *s) {
    int small = 1;
    now_set = s;
    memory_len = memory_words(s);
    memset(most, 0, sizeof most);
    memset(answered, 0, sizeof answered);
    longest = 0;
    play(SET_UP, 0, 0, 0);
    close_gaps();
    play(SET_UP, 0, 0, 0);
    play_many(CALLS_PLAYED);
    printf("%2u %4u %3u %3u %3u", s[0], s[1], s[2], s[3], s[4]);
    for (int k = 0; k < CALLS; k++) {
        printf(" %8zu", most[k]);
        if (most[k] > GOAL) small = 0;
    }
    printf("   longest body %u; answers", longest);
    for (int n = 0; n < ANSWERS; n++) {
        if (answered[n]) printf(" %d: %u", n, answered[n]);
    }
    printf("\n");
    return small;
}

int main(void) {
    int small = 1;
    bind_tasks();
    for (uint32_t i = 0; i < GREATEST_BODY; i++) body[i] = 7 * i;
    printf("%2s %4s %3s %3s %3s", "B", "M", "S", "A", "T");
    for (int k = 0; k < CALLS; k++) printf(" %8s", NAMES[k]);
    printf("\n");
    for (size_t i = 0; i < sizeof SETTINGS / sizeof *SETTINGS; i++) small &= measure(SETTINGS[i]);
    printf(small ? "no call takes over %d bytes\n" : "a call takes over %d bytes\n", GOAL);
    return 0;
}
