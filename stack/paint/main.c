/*
 * Makes the calls of the landing index on painted stacks, by ways that lead each of them to its deepest, and prints how deep each went.
 *
 *   - Stores of every geometry, and of three numbers just outside the ranges, are formatted, read, changed and read again.
 *   - Stores of many geometries are filled and emptied, with merges down to level 3.
 *   - In small stores each word is changed at many moments of that, and every call is made on what comes of it.
 *   - Every call is made with wrong lengths.
 */
#include "index.h"

#include <stdio.h>
#include <string.h>

/* The most pairs of an index that is filled up; a larger one is filled until its bottom has been merged into twice. */
enum { FILLED = 300 };

/* The store as it was before a word of it was changed. */
static uint32_t saved[MOST_STORE];

/* The deepest levels that puts and drops merged into. */
static int put_depth, drop_depth;

static int deeper(int depth, int merged)
{
    return merged > depth ? merged : depth;
}

/* Makes every call on the saved words with one of them changed. */
static void call_damaged(size_t at, uint32_t word)
{
    static const enum call calls[] = {PUT, PUT, DROP, DROP, DROP};
    const uint32_t numbers[] = {end, first, first, end - 1, end};
    store[at] = word;
    read_all();
    for (int i = 0; i < 5; i++) {
        update(calls[i], numbers[i]);
        memcpy(store, saved, store_words * sizeof *store);
        store[at] = word;
    }
    store[at] = saved[at];
}

/* Changes each word of the store in turn to some others: near ones, far ones, and those around it. */
static void damage(void)
{
    memcpy(saved, store, store_words * sizeof *store);
    for (size_t at = 0; at < store_words; at++) {
        const uint32_t word = saved[at];
        const uint32_t around[] = {saved[at < 3 ? 0 : at - 3], saved[at + 3 < store_words ? at + 3 : at]};
        const uint32_t words[] = {0, 1, word + 1, word - 1, word ^ 2, word ^ 1u << 31, UINT32_MAX, around[0], around[1]};
        for (size_t i = 0; i < sizeof words / sizeof *words; i++)
            call_damaged(at, words[i]);
    }
}

/* Makes every call with a wrong length of the store or of the work area. */
static void call_wrong_lengths(void)
{
    const size_t n = store_words, m = work_words;
    const size_t lengths[] = {0, 8, 9, n - 1, n + 1};
    for (size_t i = 0; i < sizeof lengths / sizeof *lengths; i++) {
        store_words = lengths[i];
        read_all();
        update(PUT, end);
        update(DROP, first);
    }
    store_words = n;
    for (work_words = m - 1; work_words <= m + 1; work_words += 2) {
        update(PUT, end);
        update(DROP, first);
    }
    work_words = m;
}

/* What follows an update that merged into a level: an ask of its pair, and at the bottom every reading call. */
static void look(int merged, uint32_t number, uint32_t l)
{
    ask(number);
    if (merged == (int)l - 1)
        read_all();
}

/* Fills the store of a geometry and empties it again. At each moment that is a multiple of a number, its words are damaged; 0 for never. */
static void fill_and_empty(uint32_t h, uint32_t k, uint32_t l, uint32_t every)
{
    uint32_t upper = h;
    for (uint32_t i = 2; i < l; i++)
        upper *= k;
    const uint32_t most = k * upper, pairs = most <= FILLED ? most : 2 * upper;
    format(h, k, l);
    for (uint32_t moment = 0; moment < 2 * pairs; moment++) {
        if (every != 0 && moment % every == 0)
            damage();
        const enum call call = moment < pairs ? PUT : DROP;
        const uint32_t number = call == PUT ? end++ : first++;
        const int merged = update(call, number);
        look(merged, number, l);
        if (call == PUT)
            put_depth = deeper(put_depth, merged);
        else
            drop_depth = deeper(drop_depth, merged);
        if (moment + 1 == pairs) {
            update(PUT, first);
            update(PUT, end);
            call_wrong_lengths();
        }
    }
    update(DROP, end);
}

/* The store of each geometry, and of three numbers outside the ranges, before and after a put and a drop. */
static void call_every_geometry(void)
{
    for (uint32_t h = 0; h <= 65; h++)
        for (uint32_t k = 1; k <= 9; k++)
            for (uint32_t l = 1; l <= 5; l++)
                if (format(h, k, l)) {
                    read_all();
                    update(PUT, end++);
                    read_all();
                    update(DROP, first++);
                }
}

int main(void)
{
    static const uint32_t heads[] = {1, 2, 3, 8, 16, 21, 22, 64}, ratios[] = {2, 3, 4, 8};
    static const uint32_t damaged[][4] = {{1, 2, 2, 1}, {2, 2, 2, 1}, {1, 2, 3, 1}, {1, 2, 4, 1}, {8, 2, 2, 5}, {4, 2, 3, 3}, {21, 2, 2, 7}};
    paint();
    call_every_geometry();
    for (size_t i = 0; i < sizeof heads / sizeof *heads; i++)
        for (size_t j = 0; j < sizeof ratios / sizeof *ratios; j++)
            for (uint32_t l = 2; l <= 4; l++)
                fill_and_empty(heads[i], ratios[j], l, 0);
    for (size_t i = 0; i < sizeof damaged / sizeof *damaged; i++)
        fill_and_empty(damaged[i][0], damaged[i][1], damaged[i][2], damaged[i][3]);
    if (put_depth != 3 || drop_depth != 3) {
        fprintf(stderr, "paint: merged down to level %d by a put and %d by a drop, not 3\n", put_depth, drop_depth);
        return 1;
    }
    print_depths();
    return all_replies_seen() ? 0 : 1;
}
