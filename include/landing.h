/*
 * The landing index: may this badge call this floor?
 *
 * An index of pairs (badge, floor), kept as an FD-tree in the words of a flash chip. Each call is proved, for every content of the memory
 * that it is handed and for every number, to give the reply and to leave the words that crates/landing_c/src/lib.rt states of it. This file
 * says the same in words; docs/RULES.md has the rules in full, and docs/ARCHITECTURE.md explains the terms (level, page, merge, sound) on a
 * small store.
 *
 *
 * PAIRS. A badge and a floor are any unsigned 32-bit numbers. Pairs are ordered by badge, then by floor.
 *
 * GEOMETRY. Three numbers fix the size of an index: h, the head's capacity, 1 to 64; k, the ratio from level to level, 2 to 8; l, the number
 * of levels, 2 to 4. The index holds at most M = h * k^(l-1) pairs. Level 0 is the head, level l - 1 the bottom.
 *
 *      h, k, l     pairs   store words   work words
 *      4, 2, 3        16           152           64
 *     21, 2, 2        42           206          128
 *     10, 4, 3       160           752          512
 *     64, 8, 4     32768        123088        99904
 *
 * STORE. All of an index is in one array of words, the store; there is nothing else to keep. Its words have fixed places and values, whatever
 * the machine: a host that stores them as bytes chooses an order of the bytes and keeps to it, and reads the same index back on any machine.
 * A new index begins with landing_format. Afterwards only landing_put and landing_drop change its words. Between calls a host may copy a
 * store, move it and save it. Any words at all may be handed over as a store: what is no store is refused.
 *
 * POWER CUTS. Power-cut recovery is no part of the index. A put or drop changes the words of the store where they stand, one after the
 * other; after a cut inside a call the controller reloads the store as it was last saved. How a save outlives a cut is the host's matter.
 *
 * WORK AREA. landing_put and landing_drop need a second array of words for the time of the call. Its contents do not matter and need not be
 * kept. After a call that merged levels every word of it is 0xffffffff; after every other call it is as it was before.
 *
 *
 * WHAT THE CALLER HAS TO SEE TO. Everything else is tested, and refused by a reply.
 *   - Each pointer is to as many words as the length after it says, and out to as many as its declaration says. It is aligned for uint32_t,
 *     and is not a null pointer, even where the length is 0. Lengths count words, not bytes.
 *   - Store, work, list and out of one call do not overlap.
 *   - During a call nobody else (a thread, an interrupt, a DMA channel) writes to any of them, or reads those that are not const.
 *
 * WHAT THE CALLER MAY RELY ON.
 *   - Every call returns. It reads and writes the memory that it is handed and its own stack, and nothing else.
 *   - There is no heap, no global variable and no system call. Of the C library it may call memcpy, memmove and memset, and nothing else.
 *   - Calls are reentrant. Calls on different stores may run at once, in threads or in interrupts, and so may calls that only read one store.
 *   - A call takes no more of the stack than STACK says, whatever the store and the numbers.
 *   - A call that replies other than 0 has changed no word of store, work and list.
 *   - The same words and the same numbers give the same result, word for word.
 *
 *
 * REPLIES. The result of a call is the number of its reply. Each call tests in this order:
 *
 *      0   LANDING_DONE        done
 *      1   LANDING_RANGE       h, k or l is outside its range: as given, to landing_format, or as the store has them
 *      5   LANDING_LENGTH      the store has fewer than 9 words (tested before 1, but not by landing_format); or the store or the work area
 *                              does not have just the words that its geometry asks for
 *     10   LANDING_DIRECTORY   the store is damaged, as far as this call looks: the directory is wrong
 *     11   LANDING_HEAD        damaged likewise: the head is wrong
 *     12   LANDING_PAGE        damaged likewise: a page does not have the form of a page
 *     13   LANDING_LEVEL       damaged likewise: a level is not the writing of its entries
 *     14   LANDING_KINDS       damaged likewise: the entries of a pair are not of the right kinds, or the number of pairs is wrong
 *      2   LANDING_HELD        put of a pair that is held
 *      3   LANDING_MISSING     drop of a pair that is not held
 *      4   LANDING_FULL        put into an index that holds M pairs
 *
 * Two tests come after 2, 3 and 4: first a drop of a held pair where the store counts no pairs at all, which is reply 14, and then the test of
 * the whole store before a merge.
 *
 * OUT. Each call writes every word of out, whatever its reply. With reply 0 they are the values named below; with replies 10 to 14 out[0] is
 * the level, out[1] the page and out[2] the slot of the damage, and the rest are 0; with every other reply all are 0.
 *
 * WHAT IS TESTED. A store is sound if every word of it is as the rules of writing have it. What landing_format makes is sound, and landing_put
 * and landing_drop keep a sound store sound. landing_check and landing_list test all of the store; landing_ask, landing_why, landing_put and
 * landing_drop test the directory, the head and the pages on the way to the pair, at most one in each lower level; and landing_put and
 * landing_drop test all of it before they merge. So a fault in a page keeps no other page's badges from being answered, and no merge spreads it. A changed
 * word can leave a store sound, as another index: no test here replaces a checksum.
 *
 * DAMAGE. Replies 10 to 14 tell which rule the store breaks and where: the first place, from the top, left to right, that breaks a rule of
 * that number. Levels, pages and slots count from 0, the head is page 0 of level 0, and a number that has no meaning is 0.
 *
 *     10   The directory counts more than M pairs, or a page count is out of its range, or word 7 is not 0. The place is 0, 0, 0.
 *     11   The head's slot count is out of its range, which is told as slot 0, before all slots. Or a slot stands out of order, does not have a
 *          legal tag, is a fence out of turn, or is index entry number h; or slot 0 is not the fence with badge 0 and floor 0. Or there are
 *          fewer fences than level 1 has pages, which is told as slot 0, after all slots.
 *     12   A page's slot count is out of its range, which is told as slot 0, before all slots. Or a slot stands out of order or does not have a
 *          legal tag.
 *     13   A word of a level, the head included, is not as the level's own index entries are written: the pair of a fence, an unused slot, an
 *          unused page, or a slot count, which is told as slot 0. Or an entry is one too many for the level, or is not above the entry before
 *          it. If all of these are right and only the page count is not, the place is slot 0 of the first page past that count. On the way to
 *          a pair it is slot 0 of a page above the bottom that does not begin with a fence at or below the pair.
 *     14   The next entry of an entry's pair, in a level below, is of the same kind; or a filter has no entry of its pair below. Or the number
 *          of pairs is not what the entries give: then the place is 0, 0, 0, where no entry stands.
 *
 * Of two slots out of order the right one is told. A test of the whole store tells the lowest number that it finds anywhere: a 12 in level 2
 * before a 13 in the head. On the way to a pair the directory comes first, then the head, then each page in turn, its 12 before its 13.
 *
 *
 * STACK. landing_ask and landing_why take at most 512 bytes below the caller's frame, and every other call at most 2048. This holds for
 * x86-64 as `.ci/library` builds the library. It is not proved. A test holds each call to its bound twice: by the machine code of the
 * library, and by what calls on painted stacks reached. Of these bytes the library takes, the return address of the call included:
 *
 *     landing_put, landing_drop                 1736     in a merge from level 0 down to level 3; without one about half of it
 *     landing_list                              1184
 *     landing_check                              864
 *     landing_ask                                232
 *     landing_why                                240
 *     landing_format                             104
 *     landing_store_words, landing_work_words      8
 *
 * landing_format, landing_put and landing_drop call memset, the only function of the C library that this build calls. What memset takes below
 * its own return address is not in the bounds. That of glibc takes nothing; but a dynamic linker that binds it at its first call, and not when
 * the program starts, takes some 3 KiB of the stack for that.
 */
#ifndef LANDING_H
#define LANDING_H

#include <stddef.h>
#include <stdint.h>

#ifdef __cplusplus
extern "C" {
#endif

enum {
    LANDING_DONE = 0,
    LANDING_RANGE = 1,
    LANDING_HELD = 2,
    LANDING_MISSING = 3,
    LANDING_FULL = 4,
    LANDING_LENGTH = 5,
    LANDING_DIRECTORY = 10,
    LANDING_HEAD = 11,
    LANDING_PAGE = 12,
    LANDING_LEVEL = 13,
    LANDING_KINDS = 14
};

/*
 * Makes the store of the empty index: writes every word of it, whatever stood there.
 *
 * store, n     n words, which must be landing_store_words(h, k, l)
 *
 * Replies 0, 1, 5. Reply 1 is tested before the length.
 */
uint32_t landing_format(uint32_t *store, size_t n, uint32_t h, uint32_t k, uint32_t l);

/*
 * From now on this badge may call this floor.
 *
 * store, n     the store
 * work, m      the work area, m words, which must be landing_work_words of the store's geometry
 * out          out[0] the pairs held now, as the store counts them; out[1] the deepest level merged into, 0 for no merge; out[2] the pages
 *              written; out[3] to out[6] the index entries in levels 0 to 3, 0 for a level that does not exist
 *
 * Replies 0, 1, 5, 10 to 14, 2, 4. A put that does not merge writes the head's slots, its slot count and the number of pairs, and no page.
 */
uint32_t landing_put(uint32_t *store, size_t n, uint32_t *work, size_t m, uint32_t badge, uint32_t floor, uint32_t out[7]);

/*
 * From now on this badge may not call this floor. As landing_put, but replies 0, 1, 5, 10 to 14, 3.
 */
uint32_t landing_drop(uint32_t *store, size_t n, uint32_t *work, size_t m, uint32_t badge, uint32_t floor, uint32_t out[7]);

/*
 * May this badge call this floor?
 *
 * out          out[0] 1 for yes, 0 for no; out[1] the level that decided, or l where none did, which is a no; out[2] 0
 *
 * Replies 0, 1, 5, 10 to 13. Look at the reply before out[0], which with replies 10 to 13 is a level.
 */
uint32_t landing_ask(const uint32_t *store, size_t n, uint32_t badge, uint32_t floor, uint32_t out[3]);

/*
 * Why may this badge call this floor, or why not? The walk of landing_ask, told level by level from the head down.
 *
 * out          out[0] and out[1] as landing_ask gives them; then five words for each level i from 0 to 3, out[2 + 5 * i] and on, all 0 for a
 *              level that was not read: 1; the page read, 0 for the head; the slot where the walk stopped there, counted from 1: the last one
 *              at or below the pair, 0 where a page of the bottom has none; the entry of this very pair in that slot: 0 none, 1 normal, which
 *              is a yes, 2 a filter, which is a no; and the page of the next level that is followed, counted from 1, 0 on the last level read
 *
 * Replies 0, 1, 5, 10 to 13, as landing_ask replies: with reply 0 the first two words of out are the same, with every other the first three. It
 * reads what landing_ask reads.
 */
uint32_t landing_why(const uint32_t *store, size_t n, uint32_t badge, uint32_t floor, uint32_t out[22]);

/*
 * Which pairs does the index hold, from (badge1, floor1) to (badge2, floor2), both included?
 *
 * list, m      m words, any number: the pairs are written here, ascending, two words each, badge then floor, as many as there is room for;
 *              the words after them stay as they were. If the first pair is above the second none is written.
 * out          out[0] the pairs written; out[1] the mark: 1 if list has no room for another pair after them, else 0; out[2] 0
 *
 * Replies 0, 1, 5, 10 to 14. If the mark is 1 there may be more: go on from the pair after the last one written.
 */
uint32_t landing_list(const uint32_t *store, size_t n, uint32_t badge1, uint32_t floor1, uint32_t badge2, uint32_t floor2, uint32_t *list,
                      size_t m, uint32_t out[3]);

/*
 * Is the store sound?
 *
 * out          all 0 where it is
 *
 * Replies 0, 1, 5, 10 to 14.
 */
uint32_t landing_check(const uint32_t *store, size_t n, uint32_t out[3]);

/*
 * How many words a store and a work area of this geometry have; 0 where h, k or l is outside its range. The first is at most 123088, the
 * second at most 99904.
 */
uint32_t landing_store_words(uint32_t h, uint32_t k, uint32_t l);
uint32_t landing_work_words(uint32_t h, uint32_t k, uint32_t l);

#ifdef __cplusplus
}
#endif

#endif
