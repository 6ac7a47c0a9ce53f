/* One index, whose calls are made on painted stacks. */
#ifndef INDEX_H
#define INDEX_H

#include "painted.h"

#include <stddef.h>

/* The words of the largest store and work area, and of a list of the pairs of the largest index. */
enum { MOST_STORE = 123088, MOST_WORK = 99904, MOST_LIST = 2 * 32768 };

/* The words, with one more of each than any call needs. */
extern uint32_t store[MOST_STORE + 1];
extern uint32_t work[MOST_WORK + 1];

/* How many of them the calls are told to take. */
extern size_t store_words, work_words;

/* Pairs have numbers, and each number has a badge of its own. Those from first to before end are held. */
extern uint32_t first, end;

/* Makes the empty store of a geometry. Gives false if there is no such geometry, after a call that is refused. */
bool format(uint32_t h, uint32_t k, uint32_t l);

/* Puts or drops a pair by its number. Gives the level merged into, 0 for no merge, or -1 where the call is refused. */
int update(enum call call, uint32_t number);

/* Makes each reading call: asks for pairs held and not held, the least and the greatest; lists of all and some pairs, with room for all, for
   some and for none. */
void read_all(void);

/* Asks for a pair by its number. */
void ask(uint32_t number);

#endif
