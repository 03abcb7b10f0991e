/* The C functions of the mail library: six nodes' message memories in one slice of 32-bit words, and five calls. */
#ifndef MAIL_H
#define MAIL_H

#include <stddef.h>
#include <stdint.h>

#ifdef __cplusplus
extern "C" {
#endif

/*
 * What comes back: a number, and the call's values, zeroes where a refusal tells none.
 *
 *   0  done
 *   1  the memory is not sound                                  all but set up
 *   2  the first task is not bound                              send (source), receive (destination)
 *   3  the other task is not bound (receive: and not 0)         send, receive
 *   4  a body over 1,019 words, or one that needs over M blocks send
 *   5  too few free blocks                                      send, turn
 *   6  append to a queue at its length, gaps closed             send, turn
 *   7  no such letter                                           receive
 *   8  as 7, a source was named, and the queue's items reach T  receive
 *   9  out is shorter than the body                             receive
 *  10  the acknowledge queue is full                            turn
 *  11  out is shorter than the list                             list
 *  13  a setting is out of range                                set up
 *  14  the table breaks its rule, or is not 512 words           set up
 *  15  a memory of another size                                 set up
 */
typedef struct {
    uint32_t number, first, second, third;
} mail_answer;

/* Lays out a memory with no letters, by five settings and a table of 256 pairs of node and queue; no values. */
mail_answer mail_set_up(uint32_t b, uint32_t m, uint32_t s, uint32_t a, uint32_t t, const uint32_t *table, size_t table_len,
                        uint32_t *memory, size_t memory_len);

/* Sends a letter from one task to another; values: blocks taken. */
mail_answer mail_send(uint32_t *memory, size_t memory_len, uint32_t source, uint32_t destination, const uint32_t *body,
                      size_t body_len);

/* Receives a task's first letter, or its first from a source that is not 0; values: source, body length. */
mail_answer mail_receive(uint32_t *memory, size_t memory_len, uint32_t destination, uint32_t source, uint32_t *out,
                         size_t out_len);

/* Lets the node whose turn it is fetch its mail; values, also when it stops: node, letters, blocks given back. */
mail_answer mail_turn(uint32_t *memory, size_t memory_len);

/* Lists all letters on their way, six words each; values, also with 11: the number of letters. */
mail_answer mail_list(const uint32_t *memory, size_t memory_len, uint32_t *out, size_t out_len);

#ifdef __cplusplus
}
#endif

#endif
