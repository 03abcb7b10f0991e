/* The five calls in plain C, made to be fast: one pass tests the memory, nothing is allocated. */
#include "plain.h"

#include <string.h>

enum {
    NODES = 6,
    IDS = 256,
    TASK_QUEUES = 64,
    GREATEST_M = 1024,
    GREATEST_LENGTH = 1024,
    HEADER = 5,
    GREATEST_BODY = GREATEST_LENGTH - HEADER,
    RECORD = 6,
    UNBOUND = 255,
    ANY = 6 /* no node's number: any source node will do */
};

/* Where the words before the stretches stand. */
enum { TURN = 5, POSITIONS = 6, TABLE = 24, TABLE_WORDS = 2 * IDS, STRETCHES = TABLE + TABLE_WORDS };

/* Words of a header. */
enum { SOURCE, SOURCE_NODE, DESTINATION, DESTINATION_NODE, LENGTH };

/* Words of a stretch, of a queue, of a task queue. */
enum { FIRST_FREE, ROOM_COUNT, SENDS };
enum { START, ITEMS, FULL, SLOTS };
enum { GAP = 2, TASK_FULL, TASK_EMPTY, TASK_SLOTS };

/* The settings, and where they put things in a stretch; block k starts at blocks + k * b. */
typedef struct {
    uint32_t b, m, s, a, t;
    uint32_t acks, tasks, blocks, stretch;
    uint32_t inverse; /* of b - 1, as a part of 2^20 */
} plan;

/* What the test of a memory finds out on its way. */
typedef struct {
    plan p;
    const uint32_t *memory;
    uint32_t free[NODES];                 /* free blocks of each node */
    uint16_t next[NODES][GREATEST_M + 2]; /* links; m + 1 where a chain has been, and behind the end */
    uint8_t seat[NODES * TASK_QUEUES];    /* the task of each task queue, 0 for none */
} scan;

/* Keeps what is rarer out of a loop, so that the loop keeps its numbers in registers. */
#ifdef __GNUC__
#define SLOW __attribute__((noinline))
#else
#define SLOW
#endif

static const plain_answer DONE = {0, 0, 0, 0};

static inline plain_answer refused(uint32_t number) { return (plain_answer){number, 0, 0, 0}; }

/* ---- places */

/* Lays out a stretch by five settings; 0 if one is out of range. */
static inline int plan_of(plan *p, const uint32_t *five) {
    uint32_t b = five[0], m = five[1], s = five[2], a = five[3], t = five[4];
    if (b - 4 > 60 || m - 1 > GREATEST_M - 1 || s - 2 > 253 || a - 2 > 253 || t - 2 > 253) return 0;
    p->b = b, p->m = m, p->s = s, p->a = a, p->t = t;
    p->acks = SENDS + NODES * (SLOTS + s);
    p->tasks = p->acks + NODES * (SLOTS + a);
    uint32_t block_1 = p->tasks + TASK_QUEUES * (TASK_SLOTS + t);
    p->blocks = block_1 - b;
    p->stretch = block_1 + m * b;
    p->inverse = (1u << 20) / (b - 1) + 1;
    return 1;
}

static inline size_t size_of(const plan *p) { return STRETCHES + (size_t)NODES * p->stretch; }

static inline size_t stretch_at(const plan *p, uint32_t node) { return STRETCHES + (size_t)node * p->stretch; }

static inline size_t send_at(const plan *p, uint32_t node, uint32_t to) {
    return stretch_at(p, node) + SENDS + to * (SLOTS + p->s);
}

static inline size_t ack_at(const plan *p, uint32_t node, uint32_t of) {
    return stretch_at(p, node) + p->acks + of * (SLOTS + p->a);
}

static inline size_t task_at(const plan *p, uint32_t node, uint32_t queue) {
    return stretch_at(p, node) + p->tasks + queue * (TASK_SLOTS + p->t);
}

static inline uint32_t slot_after(uint32_t slot, uint32_t length) { return slot + 1 == length ? 0 : slot + 1; }

/* Blocks for so many words: exact up to 1,024, since 1,086 * 63 is below 2^20. */
static inline uint32_t blocks_for(const plan *p, uint32_t words) { return (words + p->b - 2) * p->inverse >> 20; }

static inline const uint32_t *block_of(const plan *p, const uint32_t *stretch, uint32_t block) {
    return stretch + p->blocks + block * p->b;
}

/* From where a header's words behind the first block's are counted; with b over 5 there are none. */
static inline const uint32_t *header_end(const plan *p, const uint32_t *stretch, const uint32_t *block) {
    return p->b > HEADER ? block : block_of(p, stretch, block[p->b - 1]) - (p->b - 1);
}

static inline uint32_t length_of(const plan *p, const uint32_t *stretch, uint32_t first) {
    return header_end(p, stretch, block_of(p, stretch, first))[LENGTH];
}

/* ---- the test of a memory */

static inline uint64_t two_words(const uint32_t *words) {
    uint64_t two;
    memcpy(&two, words, sizeof two);
    return two;
}

/* The bits set in any of eight or more words; the last eight are read for themselves. */
static uint64_t bits_of_many(const uint32_t *words, uint32_t n) {
    const uint32_t *last = words + n - 8;
    uint64_t a = two_words(last), b = two_words(last + 2), c = two_words(last + 4), d = two_words(last + 6);
    for (; words < last; words += 8) {
        a |= two_words(words), b |= two_words(words + 2);
        c |= two_words(words + 4), d |= two_words(words + 6);
    }
    return a | b | c | d;
}

/* The bits set in any of n words. */
static inline uint64_t bits_of(const uint32_t *words, uint32_t n) {
    if (n >= 8) return bits_of_many(words, n);
    uint64_t bits = 0;
    if (n & 4) bits |= two_words(words) | two_words(words + 2), words += 4;
    if (n & 2) bits |= two_words(words), words += 2;
    if (n & 1) bits |= *words;
    return bits;
}

/* Start and items in range, slots outside the items 0; for a queue that has items. */
static inline int queue_fits(const uint32_t *queue, const uint32_t *slots, uint32_t length) {
    uint32_t start = queue[START], items = queue[ITEMS], end = start + items;
    if (start >= length || items > length) return 0;
    if (end > length) return !bits_of(slots + (end - length), length - items);
    return !(bits_of(slots, start) | bits_of(slots + end, length - end));
}

/* Task 0 unbound, a bound id on a node and a queue of its own; notes who sits where. */
static int table_sound(const uint32_t *table, uint8_t *seat) {
    memset(seat, 0, NODES * TASK_QUEUES);
    if ((table[0] ^ UNBOUND) | table[1]) return 0;
    for (uint32_t id = 1; id < IDS; id++) {
        uint32_t node = table[2 * id], queue = table[2 * id + 1];
        if (!((node ^ UNBOUND) | queue)) continue;
        if (node >= NODES || queue >= TASK_QUEUES) return 0;
        uint8_t *place = seat + node * TASK_QUEUES + queue;
        if (*place) return 0;
        *place = (uint8_t)id;
    }
    return 1;
}

/* Reads a node's links to where they stand close together; each must be a block or 0. */
static inline int read_links(scan *s, uint32_t node) {
    uint32_t b = s->p.b, m = s->p.m;
    const uint32_t *link = s->memory + stretch_at(&s->p, node) + s->p.blocks + b - 1;
    uint16_t *next = s->next[node];
    uint64_t over = 0;
    for (uint32_t k = 1; k <= m; k++) {
        link += b;
        over |= (uint64_t)m - *link;
        next[k] = (uint16_t)*link;
    }
    next[0] = next[m + 1] = (uint16_t)(m + 1);
    return !(over >> 63);
}

/* A letter begun at a block in 1 to M: its header, its place, its length, and a chain of its own of the blocks it needs. */
static inline int letter_sound(scan *s, uint32_t node, uint32_t first, uint32_t from, uint32_t to, uint32_t task) {
    const plan *p = &s->p;
    const uint32_t *stretch = s->memory + stretch_at(p, node), *table = s->memory + TABLE;
    const uint32_t *head = block_of(p, stretch, first), *end = header_end(p, stretch, head);
    uint32_t source = head[SOURCE], source_node = head[SOURCE_NODE], destination = head[DESTINATION];
    uint32_t destination_node = (p->b > DESTINATION_NODE + 1 ? head : end)[DESTINATION_NODE], length = end[LENGTH];
    uint32_t bad = (source | destination) >> 8;
    bad |= table[2 * (source & 255)] ^ source_node;
    bad |= table[2 * (destination & 255)] ^ destination_node;
    bad |= from == ANY ? source_node >= NODES : source_node ^ from;
    bad |= destination_node ^ to;
    bad |= task ? destination ^ task : 0;
    bad |= length - HEADER > GREATEST_BODY;
    if (bad) return 0;
    uint32_t need = blocks_for(p, length), at = first;
    uint16_t *next = s->next[node];
    s->free[node] -= need;
    for (; need; need--) {
        uint32_t after = next[at];
        next[at] = (uint16_t)(p->m + 1);
        at = after;
    }
    return at == 0;
}

/* A send or acknowledge queue with letters of node for another; for itself it has none. */
static SLOW int posts_sound(scan *s, const uint32_t *queue, uint32_t length, uint32_t node, uint32_t to) {
    const uint32_t *slots = queue + SLOTS;
    if (node == to || !queue_fits(queue, slots, length)) return 0;
    uint32_t at = queue[START];
    for (uint32_t n = queue[ITEMS]; n; n--, at = slot_after(at, length)) {
        if (slots[at] - 1 >= s->p.m || !letter_sound(s, node, slots[at], node, to, 0)) return 0;
    }
    return 1;
}

/* A task queue with items, of no task if task is 0: its first item is no gap, the flag tells if there is one. */
static SLOW int task_queue_sound(scan *s, const uint32_t *queue, uint32_t node, uint32_t task) {
    const uint32_t *slots = queue + TASK_SLOTS;
    uint32_t length = s->p.t, at = queue[START], gaps = 0;
    if (!task || !queue_fits(queue, slots, length) || !slots[at]) return 0;
    for (uint32_t n = queue[ITEMS]; n; n--, at = slot_after(at, length)) {
        uint32_t item = slots[at];
        if (item == 0) gaps = 1;
        else if (item > s->p.m || !letter_sound(s, node, item, ANY, node, task)) return 0;
    }
    return queue[GAP] == gaps;
}

/* A postman's position, and the letter in his hand but for what it says. */
static inline int position_sound(scan *s, uint32_t node) {
    const uint32_t *position = s->memory + POSITIONS + 3 * node;
    uint32_t stage = position[0], other = position[1], held = position[2];
    if (stage == 0) return !(other | held);
    if (stage > 3 || other >= NODES || other == node) return 0;
    if (s->memory[send_at(&s->p, other, node) + ITEMS] == 0) return 0;
    if (stage != 2) return held == 0;
    return held - 1 < s->p.m && letter_sound(s, node, held, other, node, 0);
}

/* The send queues on a node and the acknowledge queues for it; those with no items have only zeroes. */
static inline int all_posts_sound(scan *s, uint32_t node) {
    const plan *p = &s->p;
    uint64_t bad = 0;
    for (uint32_t other = 0; other < NODES; other++) {
        const uint32_t *send = s->memory + send_at(p, node, other), *ack = s->memory + ack_at(p, other, node);
        if (send[ITEMS] == 0) bad |= (send[START] >= p->s) | bits_of(send + SLOTS, p->s);
        else if (!posts_sound(s, send, p->s, node, other)) return 0;
        if (ack[ITEMS] == 0) bad |= (ack[START] >= p->a) | bits_of(ack + SLOTS, p->a);
        else if (!posts_sound(s, ack, p->a, node, other)) return 0;
    }
    return !bad;
}

/* The task queues on a node; those with no items have only zeroes. */
static inline int all_task_queues_sound(scan *s, uint32_t node) {
    uint32_t t = s->p.t;
    const uint32_t *queue = s->memory + task_at(&s->p, node, 0);
    const uint8_t *seat = s->seat + node * TASK_QUEUES;
    uint64_t bad = 0;
    for (uint32_t k = 0; k < TASK_QUEUES; k++, queue += TASK_SLOTS + t) {
        if (queue[ITEMS] == 0) bad |= (queue[START] >= t) | queue[GAP] | bits_of(queue + TASK_SLOTS, t);
        else if (!task_queue_sound(s, queue, node, seat[k])) return 0;
    }
    return !bad;
}

/* All that is begun in a node's blocks but the free list. */
static int node_sound(scan *s, uint32_t node) {
    s->free[node] = s->p.m;
    return read_links(s, node) && all_posts_sound(s, node) && all_task_queues_sound(s, node) && position_sound(s, node);
}

/* Each free list is as long as there are blocks in no letter; a list that ends comes to no block twice. */
static int free_lists_sound(const scan *s) {
    uint32_t at[NODES], together = GREATEST_M, astray = 0;
    for (uint32_t i = 0; i < NODES; i++) {
        at[i] = s->memory[stretch_at(&s->p, i) + FIRST_FREE];
        if (at[i] > s->p.m) return 0;
        if (s->free[i] < together) together = s->free[i];
    }
    /* Six lists at a time: no step waits for another list's. */
    for (uint32_t n = together; n; n--) {
        for (uint32_t i = 0; i < NODES; i++) at[i] = s->next[i][at[i]];
    }
    for (uint32_t i = 0; i < NODES; i++) {
        for (uint32_t n = s->free[i] - together; n; n--) at[i] = s->next[i][at[i]];
        astray |= at[i];
    }
    return !astray;
}

/* If two sound letters have the same words; their chains' blocks carry as many. */
static int same_letter(const plan *p, const uint32_t *stretch, uint32_t first, const uint32_t *other, uint32_t other_first) {
    uint32_t carry = p->b - 1, left = length_of(p, stretch, first);
    const uint32_t *x = block_of(p, stretch, first), *y = block_of(p, other, other_first);
    for (; left > carry; left -= carry) {
        if (memcmp(x, y, carry * sizeof *x)) return 0;
        x = block_of(p, stretch, x[carry]), y = block_of(p, other, y[carry]);
    }
    return !memcmp(x, y, left * sizeof *x);
}

/* The letter in each postman's hand is the first of the queue that he stands at. */
static int hands_sound(const scan *s) {
    const plan *p = &s->p;
    for (uint32_t node = 0; node < NODES; node++) {
        const uint32_t *position = s->memory + POSITIONS + 3 * node;
        if (position[0] != 2) continue;
        const uint32_t *queue = s->memory + send_at(p, position[1], node), *own = s->memory + stretch_at(p, node);
        const uint32_t *sender = s->memory + stretch_at(p, position[1]);
        if (!same_letter(p, own, position[2], sender, queue[SLOTS + queue[START]])) return 0;
    }
    return 1;
}

/* If a memory is sound. */
static int sound(scan *s, const uint32_t *memory, size_t memory_len) {
    if (memory_len < STRETCHES || !plan_of(&s->p, memory) || memory_len != size_of(&s->p)) return 0;
    if (memory[TURN] >= NODES || !table_sound(memory + TABLE, s->seat)) return 0;
    s->memory = memory;
    for (uint32_t node = 0; node < NODES; node++) {
        if (!node_sound(s, node)) return 0;
    }
    return free_lists_sound(s) && hands_sound(s);
}

/* ---- changes of a sound memory */

static inline void count_up(uint32_t *count) { *count += *count != UINT32_MAX; }

static inline uint32_t *block_in(const plan *p, uint32_t *stretch, uint32_t block) {
    return stretch + p->blocks + block * p->b;
}

/* Writes to a queue that has room. */
static inline void push(uint32_t *queue, uint32_t *slots, uint32_t length, uint32_t item) {
    uint32_t at = queue[START] + queue[ITEMS]++;
    slots[at < length ? at : at - length] = item;
}

/* Drops the first item of a queue that has one. */
static inline uint32_t drop(uint32_t *queue, uint32_t *slots, uint32_t length) {
    uint32_t at = queue[START], item = slots[at];
    slots[at] = 0;
    queue[START] = slot_after(at, length);
    queue[ITEMS]--;
    return item;
}

/* Moves the live items of a full task queue together, from the start slot on. */
static void close_gaps(uint32_t *queue, uint32_t length) {
    uint32_t *slots = queue + TASK_SLOTS, from = queue[START], to = from, live = 0;
    for (uint32_t n = queue[ITEMS]; n; n--, from = slot_after(from, length)) {
        uint32_t item = slots[from];
        if (item == 0) continue;
        slots[from] = 0;
        slots[to] = item;
        to = slot_after(to, length), live++;
    }
    queue[ITEMS] = live, queue[GAP] = 0;
}

/* Appends to a task queue, or counts that it is full. */
static inline int append_task(uint32_t *queue, uint32_t length, uint32_t item) {
    if (queue[ITEMS] == length) {
        if (!queue[GAP]) return count_up(queue + TASK_FULL), 0;
        close_gaps(queue, length);
    }
    push(queue, queue + TASK_SLOTS, length, item);
    return 1;
}

/* Appends to a send or acknowledge queue, or counts that it is full. */
static inline int append(uint32_t *queue, uint32_t length, uint32_t item) {
    if (queue[ITEMS] == length) return count_up(queue + FULL), 0;
    push(queue, queue + SLOTS, length, item);
    return 1;
}

/* Puts the chain from first to the block last before the free list. */
static inline void give_back(const plan *p, uint32_t *stretch, uint32_t first, uint32_t *last) {
    last[p->b - 1] = stretch[FIRST_FREE];
    stretch[FIRST_FREE] = first;
}

/* A place in a letter: its block, and how many of that block's words are behind it. */
typedef struct {
    uint32_t *block;
    uint32_t at;
} mark;

/* Goes on over n words of a letter: writes them from a source, else reads them to a target. */
static inline void pass(const plan *p, uint32_t *stretch, mark *k, const uint32_t *source, uint32_t *target, uint32_t n) {
    uint32_t carry = p->b - 1;
    while (n) {
        if (k->at == carry) *k = (mark){block_in(p, stretch, k->block[carry]), 0};
        uint32_t part = carry - k->at < n ? carry - k->at : n;
        if (source) memcpy(k->block + k->at, source, part * sizeof *source), source += part;
        else if (target) memcpy(target, k->block + k->at, part * sizeof *target), target += part;
        k->at += part, n -= part;
    }
}

/* Cuts the free list behind a block, which becomes the last of its letter. */
static inline void cut_free(const plan *p, uint32_t *stretch, uint32_t *last) {
    stretch[FIRST_FREE] = last[p->b - 1];
    last[p->b - 1] = 0;
}

/* Copies a letter from one stretch to the first free blocks of another. */
static void copy(const plan *p, const uint32_t *from, uint32_t first, uint32_t *to, uint32_t length) {
    uint32_t carry = p->b - 1;
    const uint32_t *source = block_of(p, from, first);
    uint32_t *target = block_in(p, to, to[FIRST_FREE]);
    for (; length > carry; length -= carry) {
        memcpy(target, source, carry * sizeof *target);
        source = block_of(p, from, source[carry]);
        target = block_in(p, to, target[carry]);
    }
    memcpy(target, source, length * sizeof *target);
    cut_free(p, to, target);
}

/* A task's pair in the table, none if it is not bound. */
static inline const uint32_t *seat_of(const uint32_t *memory, uint32_t task) {
    const uint32_t *pair = memory + TABLE + 2 * (task & 255);
    return task < IDS && *pair != UNBOUND ? pair : NULL;
}

/* ---- the calls */

plain_answer plain_set_up(uint32_t b, uint32_t m, uint32_t s, uint32_t a, uint32_t t, const uint32_t *table,
                          size_t table_len, uint32_t *memory, size_t memory_len) {
    const uint32_t five[] = {b, m, s, a, t};
    uint8_t seat[NODES * TASK_QUEUES];
    plan p;
    if (!plan_of(&p, five)) return refused(13);
    if (table_len != TABLE_WORDS || !table_sound(table, seat)) return refused(14);
    if (memory_len != size_of(&p)) return refused(15);
    memset(memory, 0, memory_len * sizeof *memory);
    memcpy(memory, five, sizeof five);
    memcpy(memory + TABLE, table, TABLE_WORDS * sizeof *table);
    for (uint32_t node = 0; node < NODES; node++) {
        uint32_t *stretch = memory + stretch_at(&p, node), *link = stretch + p.blocks + b - 1;
        stretch[FIRST_FREE] = 1;
        for (uint32_t k = 1; k < m; k++) link[k * b] = k + 1;
    }
    return DONE;
}

plain_answer plain_send(uint32_t *memory, size_t memory_len, uint32_t source, uint32_t destination, const uint32_t *body,
                        size_t body_len) {
    scan s;
    const plan *p = &s.p;
    if (!sound(&s, memory, memory_len)) return refused(1);
    const uint32_t *from = seat_of(memory, source), *to = seat_of(memory, destination);
    if (!from) return refused(2);
    if (!to) return refused(3);
    if (body_len > GREATEST_BODY) return refused(4);
    uint32_t length = HEADER + (uint32_t)body_len, need = blocks_for(p, length);
    if (need > p->m) return refused(4);
    uint32_t *stretch = memory + stretch_at(p, *from), first = stretch[FIRST_FREE];
    if (need > s.free[*from]) return count_up(stretch + ROOM_COUNT), refused(5);
    int appended = *from == *to ? append_task(memory + task_at(p, *to, to[1]), p->t, first)
                                : append(memory + send_at(p, *from, *to), p->s, first);
    if (!appended) return refused(6);
    const uint32_t header[HEADER] = {source, *from, destination, *to, length};
    mark k = {block_in(p, stretch, first), 0};
    pass(p, stretch, &k, header, NULL, HEADER);
    pass(p, stretch, &k, body, NULL, (uint32_t)body_len);
    cut_free(p, stretch, k.block);
    return (plain_answer){0, need, 0, 0};
}

/* Takes the item at a slot out of a task queue: the first with the gaps behind it, another becomes a gap. */
static inline void take_out(uint32_t *queue, uint32_t length, uint32_t slot) {
    uint32_t *slots = queue + TASK_SLOTS;
    if (slot != queue[START]) {
        slots[slot] = 0, queue[GAP] = 1;
        return;
    }
    drop(queue, slots, length);
    if (!queue[GAP]) return;
    while (queue[ITEMS] && !slots[queue[START]]) drop(queue, slots, length);
    uint32_t gaps = 0, at = queue[START];
    for (uint32_t n = queue[ITEMS]; n && !gaps; n--, at = slot_after(at, length)) gaps = slots[at] == 0;
    queue[GAP] = gaps;
}

/* The slot of the first letter in a task queue, or of the first from a source that is not 0; the length if none. */
static inline uint32_t find(const plan *p, const uint32_t *stretch, const uint32_t *queue, uint32_t source) {
    const uint32_t *slots = queue + TASK_SLOTS;
    uint32_t at = queue[START];
    for (uint32_t n = queue[ITEMS]; n; n--, at = slot_after(at, p->t)) {
        if (slots[at] && (source == 0 || block_of(p, stretch, slots[at])[SOURCE] == source)) return at;
    }
    return p->t;
}

plain_answer plain_receive(uint32_t *memory, size_t memory_len, uint32_t destination, uint32_t source, uint32_t *out,
                           size_t out_len) {
    scan s;
    const plan *p = &s.p;
    if (!sound(&s, memory, memory_len)) return refused(1);
    const uint32_t *to = seat_of(memory, destination);
    if (!to) return refused(2);
    if (source != 0 && !seat_of(memory, source)) return refused(3);
    uint32_t *stretch = memory + stretch_at(p, *to), *queue = memory + task_at(p, *to, to[1]);
    uint32_t slot = find(p, stretch, queue, source);
    if (slot == p->t) {
        count_up(queue + TASK_EMPTY);
        return refused(source != 0 && queue[ITEMS] == p->t ? 8 : 7);
    }
    uint32_t first = queue[TASK_SLOTS + slot], length = length_of(p, stretch, first) - HEADER;
    if (out_len < length) return refused(9);
    mark k = {block_in(p, stretch, first), 0};
    uint32_t sender = k.block[SOURCE];
    pass(p, stretch, &k, NULL, NULL, HEADER);
    pass(p, stretch, &k, NULL, out, length);
    take_out(queue, p->t, slot);
    give_back(p, stretch, first, k.block);
    return (plain_answer){0, sender, length, 0};
}

/* A turn under way: whose it is, what it has done, and how it stopped: a number, 0 while it has not, and a position. */
typedef struct {
    scan s;
    uint32_t *memory, *stretch;
    uint32_t node, letters, back;
    uint32_t number, position[3];
} errand;

static int stop(errand *r, uint32_t number, uint32_t stage, uint32_t other, uint32_t held) {
    r->number = number;
    r->position[0] = stage, r->position[1] = other, r->position[2] = held;
    return 0;
}

/* Step 1: gives the acknowledged chains back. */
static void collect(errand *r) {
    const plan *p = &r->s.p;
    for (uint32_t other = 0; other < NODES; other++) {
        uint32_t *queue = r->memory + ack_at(p, other, r->node);
        while (queue[ITEMS]) {
            uint32_t first = drop(queue, queue + SLOTS, p->a), blocks = 1;
            uint32_t *last = block_in(p, r->stretch, first);
            for (; last[p->b - 1]; blocks++) last = block_in(p, r->stretch, last[p->b - 1]);
            give_back(p, r->stretch, first, last);
            r->back += blocks, r->s.free[r->node] += blocks;
        }
    }
}

/* Acknowledges the first letter of the queue on another node and drops it there. */
static inline int acknowledge(errand *r, uint32_t other) {
    const plan *p = &r->s.p;
    uint32_t *queue = r->memory + send_at(p, other, r->node);
    uint32_t first = queue[SLOTS + queue[START]];
    if (!append(r->memory + ack_at(p, r->node, other), p->a, first)) return stop(r, 10, 3, other, 0);
    drop(queue, queue + SLOTS, p->s);
    return 1;
}

/* Appends the copy in hand to its task queue. */
static inline int hand_over(errand *r, uint32_t other, uint32_t held) {
    const plan *p = &r->s.p;
    uint32_t task = block_of(p, r->stretch, held)[DESTINATION];
    uint32_t *queue = r->memory + task_at(p, r->node, r->memory[TABLE + 2 * task + 1]);
    if (!append_task(queue, p->t, held)) return stop(r, 6, 2, other, held);
    r->letters++;
    return acknowledge(r, other);
}

/* Copies the first letter of the queue on another node. */
static inline int fetch(errand *r, uint32_t other) {
    const plan *p = &r->s.p;
    const uint32_t *queue = r->memory + send_at(p, other, r->node), *sender = r->memory + stretch_at(p, other);
    uint32_t first = queue[SLOTS + queue[START]], length = length_of(p, sender, first), need = blocks_for(p, length);
    if (need > r->s.free[r->node]) return count_up(r->stretch + ROOM_COUNT), stop(r, 5, 1, other, 0);
    uint32_t held = r->stretch[FIRST_FREE];
    copy(p, sender, first, r->stretch, length);
    r->s.free[r->node] -= need;
    return hand_over(r, other, held);
}

/* Takes up where the postman stands, then goes on through that queue and higher nodes. */
static int go(errand *r, const uint32_t *position) {
    uint32_t stage = position[0], other = position[1];
    if (stage < 2) collect(r);
    if (stage == 2 && !hand_over(r, other, position[2])) return 0;
    if (stage == 3 && !acknowledge(r, other)) return 0;
    for (; other < NODES; other++) {
        if (other == r->node) continue;
        const uint32_t *queue = r->memory + send_at(&r->s.p, other, r->node);
        while (queue[ITEMS]) {
            if (!fetch(r, other)) return 0;
        }
    }
    return 1;
}

plain_answer plain_turn(uint32_t *memory, size_t memory_len) {
    errand r;
    if (!sound(&r.s, memory, memory_len)) return refused(1);
    r.memory = memory, r.node = memory[TURN], r.stretch = memory + stretch_at(&r.s.p, r.node);
    r.letters = r.back = 0;
    uint32_t *position = memory + POSITIONS + 3 * r.node;
    if (go(&r, position)) stop(&r, 0, 0, 0, 0);
    memcpy(position, r.position, sizeof r.position);
    memory[TURN] = slot_after(r.node, NODES);
    return (plain_answer){r.number, r.node, r.letters, r.back};
}

/* The items of the send queue on node to another that are still to be carried: the first may have been handed over. */
static inline uint32_t waiting(const plan *p, const uint32_t *memory, uint32_t node, uint32_t to, uint32_t *at) {
    const uint32_t *queue = memory + send_at(p, node, to), *position = memory + POSITIONS + 3 * to;
    uint32_t handed = position[0] == 3 && position[1] == node;
    *at = handed ? slot_after(queue[START], p->s) : queue[START];
    return queue[ITEMS] - handed;
}

/* The task queues that have items, by node and queue, and how many they are. */
typedef struct {
    uint32_t n;
    uint16_t place[NODES * TASK_QUEUES];
} filled;

/* Counts each task's letters and notes the task queues that have some. */
static void count_letters(const scan *s, uint32_t *count, filled *f) {
    const plan *p = &s->p;
    f->n = 0;
    for (uint32_t place = 0; place < NODES * TASK_QUEUES; place++) {
        const uint32_t *queue = s->memory + task_at(p, place / TASK_QUEUES, place % TASK_QUEUES);
        uint32_t letters = queue[ITEMS], at = queue[START];
        if (letters == 0) continue;
        for (uint32_t n = queue[GAP] ? letters : 0; n; n--, at = slot_after(at, p->t)) letters -= !queue[TASK_SLOTS + at];
        count[s->seat[place]] = letters;
        f->place[f->n++] = (uint16_t)place;
    }
    for (uint32_t node = 0; node < NODES; node++) {
        const uint32_t *stretch = s->memory + stretch_at(p, node);
        for (uint32_t to = 0; to < NODES; to++) {
            const uint32_t *slots = s->memory + send_at(p, node, to) + SLOTS;
            uint32_t at, n = waiting(p, s->memory, node, to, &at);
            for (; n; n--, at = slot_after(at, p->s)) count[block_of(p, stretch, slots[at])[DESTINATION]]++;
        }
    }
}

/* Writes the record of one letter. */
static inline void record(const scan *s, uint32_t *out, uint32_t place, uint32_t node, uint32_t first) {
    const uint32_t *stretch = s->memory + stretch_at(&s->p, node), *head = block_of(&s->p, stretch, first);
    out[0] = head[DESTINATION], out[1] = head[SOURCE], out[2] = place, out[3] = node, out[4] = first;
    out[5] = length_of(&s->p, stretch, first) - HEADER;
}

/* Writes each task's records from its place in the list on: its task queue's, then those on their way by node. */
static void write_letters(const scan *s, const filled *f, uint32_t *rank, uint32_t *out) {
    const plan *p = &s->p;
    for (uint32_t i = 0; i < f->n; i++) {
        uint32_t node = f->place[i] / TASK_QUEUES, task = s->seat[f->place[i]];
        const uint32_t *queue = s->memory + task_at(p, node, f->place[i] % TASK_QUEUES);
        uint32_t at = queue[START];
        for (uint32_t n = queue[ITEMS]; n; n--, at = slot_after(at, p->t)) {
            if (queue[TASK_SLOTS + at]) record(s, out + RECORD * rank[task]++, 1, node, queue[TASK_SLOTS + at]);
        }
    }
    for (uint32_t node = 0; node < NODES; node++) {
        const uint32_t *stretch = s->memory + stretch_at(p, node);
        for (uint32_t to = 0; to < NODES; to++) {
            const uint32_t *slots = s->memory + send_at(p, node, to) + SLOTS;
            uint32_t at, n = waiting(p, s->memory, node, to, &at);
            for (; n; n--, at = slot_after(at, p->s)) {
                uint32_t task = block_of(p, stretch, slots[at])[DESTINATION];
                record(s, out + RECORD * rank[task]++, 2, node, slots[at]);
            }
        }
    }
}

plain_answer plain_list(const uint32_t *memory, size_t memory_len, uint32_t *out, size_t out_len) {
    scan s;
    filled f;
    uint32_t rank[IDS] = {0}, total = 0;
    if (!sound(&s, memory, memory_len)) return refused(1);
    count_letters(&s, rank, &f);
    for (uint32_t task = 1; task < IDS; task++) {
        uint32_t letters = rank[task];
        rank[task] = total;
        total += letters;
    }
    if (out_len < (size_t)RECORD * total) return (plain_answer){11, total, 0, 0};
    write_letters(&s, &f, rank, out);
    return (plain_answer){0, total, 0, 0};
}
