/* Sends a letter from task 27 on node 2 to task 52 on node 3, lets the postmen go round, and receives it. */
/* On x86-64, after tools/archive: cc -Iinclude -o example examples/example.c target/staticlib/libmail.a && ./example */
#include <stdio.h>

#include "mail.h"

enum { WORDS = 3788 }; /* the size for the settings 8, 4, 2, 2, 2 */

int main(void) {
    static uint32_t memory[WORDS], table[512], out[8];
    const uint32_t body[] = {100, 101, 102};
    for (int id = 0; id < 256; id++) table[2 * id] = 255;    /* no task is bound */
    table[2 * 27] = 2, table[2 * 27 + 1] = 4;                /* task 27: node 2, queue 4 */
    table[2 * 52] = 3, table[2 * 52 + 1] = 16;               /* task 52: node 3, queue 16 */
    mail_answer x = mail_set_up(8, 4, 2, 2, 2, table, 512, memory, WORDS);
    printf("set up: %u\n", x.number);
    x = mail_send(memory, WORDS, 27, 52, body, 3);
    printf("send: %u, %u blocks\n", x.number, x.first);
    for (int i = 0; i < 4; i++) {
        x = mail_turn(memory, WORDS);
        printf("turn: %u, node %u, %u letters, %u blocks back\n", x.number, x.first, x.second, x.third);
    }
    x = mail_receive(memory, WORDS, 52, 0, out, 8);
    printf("receive: %u, from task %u, %u words: %u %u %u\n", x.number, x.first, x.second, out[0], out[1], out[2]);
    return x.number != 0;
}
