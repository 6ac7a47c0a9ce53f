#include "painted.h"

#include "landing.h"

#include <stdio.h>

/* A stack of 64 KiB; the words above the return address hold arguments (on_stack.S). */
enum { STACK_WORDS = 8192, ARGUMENT_WORDS = 4 };

static const uint64_t PAINT = 0x5aa5c33c0ff09669;

static uint64_t stacks[CALLS][STACK_WORDS] __attribute__((aligned(16)));

/* The replies that each call gave, a bit for each. */
static uint32_t seen[CALLS];

/* A bit for each reply that a call may give; none for one whose result is not a reply. */
#define REPLY(number) (1u << (number))
#define OPENED (REPLY(LANDING_DONE) | REPLY(LANDING_RANGE) | REPLY(LANDING_LENGTH))
#define WALKED (OPENED | REPLY(LANDING_DIRECTORY) | REPLY(LANDING_HEAD) | REPLY(LANDING_PAGE) | REPLY(LANDING_LEVEL))
#define TESTED (WALKED | REPLY(LANDING_KINDS))

static const struct {
    const char *name;
    void (*address)(void);
    uint32_t replies;
} calls[CALLS] = {
    [FORMAT] = {"format", (void (*)(void))landing_format, OPENED},
    [PUT] = {"put", (void (*)(void))landing_put, TESTED | REPLY(LANDING_HELD) | REPLY(LANDING_FULL)},
    [DROP] = {"drop", (void (*)(void))landing_drop, TESTED | REPLY(LANDING_MISSING)},
    [ASK] = {"ask", (void (*)(void))landing_ask, WALKED},
    [WHY] = {"why", (void (*)(void))landing_why, WALKED},
    [LIST] = {"list", (void (*)(void))landing_list, TESTED},
    [CHECK] = {"check", (void (*)(void))landing_check, TESTED},
    [STORE_WORDS] = {"store_words", (void (*)(void))landing_store_words, 0},
    [WORK_WORDS] = {"work_words", (void (*)(void))landing_work_words, 0},
};

/* In on_stack.S. */
uint32_t on_stack(void (*call)(void), const uint64_t arguments[9], uint64_t *top);

void paint(void)
{
    for (int call = 0; call < CALLS; call++)
        for (int i = 0; i < STACK_WORDS; i++)
            stacks[call][i] = PAINT;
}

uint32_t make(enum call call, const uint64_t arguments[9])
{
    uint32_t result = on_stack(calls[call].address, arguments, stacks[call] + STACK_WORDS);
    if (calls[call].replies != 0)
        seen[call] |= REPLY(result);
    return result;
}

bool all_replies_seen(void)
{
    bool all = true;
    for (int call = 0; call < CALLS; call++)
        for (uint32_t reply = 0; reply <= LANDING_KINDS; reply++)
            if (((calls[call].replies ^ seen[call]) & REPLY(reply)) != 0) {
                fprintf(stderr, "paint: %s and reply %u: not as include/landing.h says\n", calls[call].name, reply);
                all = false;
            }
    return all;
}

void print_depths(void)
{
    for (int call = 0; call < CALLS; call++) {
        int unused = 0;
        while (unused < STACK_WORDS && stacks[call][unused] == PAINT)
            unused++;
        printf("%s %d\n", calls[call].name, 8 * (STACK_WORDS - ARGUMENT_WORDS - unused));
    }
}
