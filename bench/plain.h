/* The five calls in plain C, with the signatures of include/mail.h: what the library is measured against. */
#ifndef PLAIN_H
#define PLAIN_H

#include <stddef.h>
#include <stdint.h>

typedef struct {
    uint32_t number, first, second, third;
} plain_answer;

plain_answer plain_set_up(uint32_t b, uint32_t m, uint32_t s, uint32_t a, uint32_t t, const uint32_t *table,
                          size_t table_len, uint32_t *memory, size_t memory_len);
plain_answer plain_send(uint32_t *memory, size_t memory_len, uint32_t source, uint32_t destination, const uint32_t *body,
                        size_t body_len);
plain_answer plain_receive(uint32_t *memory, size_t memory_len, uint32_t destination, uint32_t source, uint32_t *out,
                           size_t out_len);
plain_answer plain_turn(uint32_t *memory, size_t memory_len);
plain_answer plain_list(const uint32_t *memory, size_t memory_len, uint32_t *out, size_t out_len);

#endif
