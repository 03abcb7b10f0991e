/* Plays a script of calls on standard input with the plain C functions, and prints a line for each call as mailplay does. */
/* cc -O3 -o play bench/plain.c bench/play.c && ./play < script */
#include "plain.h"

#include <stdio.h>

enum { MEMORY_LIMIT = 512180, TABLE_LIMIT = 1024, BODY_LIMIT = 2048, LIST_LIMIT = 40000, LONGEST_ARGUMENTS = 5 };

static uint32_t memory[MEMORY_LIMIT], table[TABLE_LIMIT], body[BODY_LIMIT], out[LIST_LIMIT];
static size_t memory_len, table_len;

/* Reads a word, low byte first: 1 if there is one, 0 at the end, -1 if the end is in its midst. */
static int word(uint32_t *w) {
    unsigned char bytes[4] = {0};
    size_t n = fread(bytes, 1, 4, stdin);
    *w = bytes[0] | (uint32_t)bytes[1] << 8 | (uint32_t)bytes[2] << 16 | (uint32_t)bytes[3] << 24;
    return n == 4 ? 1 : n == 0 ? 0 : -1;
}

/* Fills n words with f, f + 1 and so on. */
static void count_from(uint32_t *words, size_t n, uint32_t f) {
    for (size_t i = 0; i < n; i++) words[i] = f + (uint32_t)i;
}

static uint64_t sum(const uint32_t *words, size_t n) {
    uint64_t h = 7;
    for (size_t i = 0; i < n; i++) h = (h * 31 + words[i]) % 4294967291u;
    return h;
}

static int print(plain_answer x, uint64_t out_sum) {
    printf("%u %u %u %u %llu %llu\n", x.number, x.first, x.second, x.third, (unsigned long long)sum(memory, memory_len),
           (unsigned long long)out_sum);
    return 1;
}

/* Reads the table for the next set-ups. */
static int read_table(size_t n) {
    for (size_t i = 0; i < n; i++) {
        if (word(table + i) != 1) return 0;
    }
    table_len = n;
    return 1;
}

/* Plays a call that has an out of n words from f. */
static int play_out(const uint32_t *x, uint32_t kind, size_t n, uint32_t f) {
    count_from(out, n, f);
    plain_answer got =
        kind == 3 ? plain_receive(memory, memory_len, x[0], x[1], out, n) : plain_list(memory, memory_len, out, n);
    return print(got, sum(out, n));
}

/* Plays one step; 0 if it is bad. */
static int play(uint32_t kind, const uint32_t *x) {
    switch (kind) {
    case 1: return print(plain_set_up(x[0], x[1], x[2], x[3], x[4], table, table_len, memory, memory_len), 0);
    case 2:
        if (x[2] > BODY_LIMIT) return 0;
        count_from(body, x[2], x[3]);
        return print(plain_send(memory, memory_len, x[0], x[1], body, x[2]), 0);
    case 3: return x[2] <= BODY_LIMIT && play_out(x, kind, x[2], x[3]);
    case 4: return print(plain_turn(memory, memory_len), 0);
    case 5: return x[0] <= LIST_LIMIT && play_out(x, kind, x[0], x[1]);
    case 6:
        if (x[0] > MEMORY_LIMIT) return 0;
        memory_len = x[0];
        return count_from(memory, memory_len, x[1]), 1;
    case 7: return x[0] <= TABLE_LIMIT && read_table(x[0]);
    default:
        if (x[0] >= memory_len) return 0;
        memory[x[0]] = x[1];
        return 1;
    }
}

int main(void) {
    static const int arguments[] = {0, 5, 4, 4, 0, 2, 2, 1, 2};
    uint32_t kind, x[LONGEST_ARGUMENTS];
    int got;
    while ((got = word(&kind)) == 1) {
        int good = kind >= 1 && kind <= 8;
        for (int i = 0; good && i < arguments[kind]; i++) good = word(x + i) == 1;
        if (good) good = play(kind, x);
        if (!good) got = -1;
        if (!good) break;
    }
    if (got < 0) printf("bad\n");
    return 0;
}
