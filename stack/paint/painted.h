/* The calls of the landing index, each made on a stack of its own whose words were painted before. */
#ifndef PAINTED_H
#define PAINTED_H

#include <stdbool.h>
#include <stdint.h>

enum call { FORMAT, PUT, DROP, ASK, WHY, LIST, CHECK, STORE_WORDS, WORK_WORDS, CALLS };

/* Paints every stack. */
void paint(void);

/* Makes a call with its arguments in order, and gives its result. */
uint32_t make(enum call call, const uint64_t arguments[9]);

/* Whether each call gave each of its replies; says which it did not give. */
bool all_replies_seen(void);

/* Prints each call and the bytes of its stack that lost their paint, its return address included. */
void print_depths(void);

#endif
