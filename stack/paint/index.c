#include "index.h"

#include "landing.h"

uint32_t store[MOST_STORE + 1];
uint32_t work[MOST_WORK + 1];
size_t store_words, work_words;
uint32_t first, end;

static uint32_t list[MOST_LIST];
static uint32_t out[22];

static uint32_t badge_of(uint32_t number)
{
    return number * 2654435761u;
}

static uint32_t floor_of(uint32_t number)
{
    return number % 64;
}

static uint64_t at(const uint32_t *words)
{
    return (uint64_t)(uintptr_t)words;
}

bool format(uint32_t h, uint32_t k, uint32_t l)
{
    const uint64_t geometry[9] = {h, k, l};
    store_words = make(STORE_WORDS, geometry);
    work_words = make(WORK_WORDS, geometry);
    first = end = 0;
    make(FORMAT, (const uint64_t[9]){at(store), store_words + 1, h, k, l});
    return make(FORMAT, (const uint64_t[9]){at(store), store_words, h, k, l}) == LANDING_DONE;
}

int update(enum call call, uint32_t number)
{
    const uint64_t arguments[9] = {at(store), store_words, at(work), work_words, badge_of(number), floor_of(number), at(out)};
    return make(call, arguments) == LANDING_DONE ? (int)out[1] : -1;
}

static void ask_pair(uint32_t badge, uint32_t floor)
{
    make(ASK, (const uint64_t[9]){at(store), store_words, badge, floor, at(out)});
    make(WHY, (const uint64_t[9]){at(store), store_words, badge, floor, at(out)});
}

void ask(uint32_t number)
{
    ask_pair(badge_of(number), floor_of(number));
}

static void list_badges(uint32_t badge1, uint32_t badge2, size_t m)
{
    make(LIST, (const uint64_t[9]){at(store), store_words, badge1, 0, badge2, UINT32_MAX, at(list), m, at(out)});
}

void read_all(void)
{
    make(CHECK, (const uint64_t[9]){at(store), store_words, at(out)});
    ask(first);
    ask(end - 1);
    ask(end);
    ask_pair(badge_of(first), floor_of(first) + 1);
    ask_pair(0, 0);
    ask_pair(UINT32_MAX, UINT32_MAX);
    list_badges(0, UINT32_MAX, MOST_LIST);
    list_badges(0, UINT32_MAX, 5);
    list_badges(1u << 30, 3u << 30, MOST_LIST);
    list_badges(1u << 30, 3u << 30, 0);
    list_badges(UINT32_MAX, 0, MOST_LIST);
}
