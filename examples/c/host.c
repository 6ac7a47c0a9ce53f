/*
 * A host of the landing index: a call button whose flash chip is a file.
 *
 * The chip keeps each word of the store as four bytes, lowest byte first. The host writes the whole store to it after each accepted put or
 * drop, and reads it back after a restart. Power-cut recovery is no part of the index: after a cut inside a call the chip still holds the
 * store as it was last written, and the controller reloads that. A cut while the chip is being written is not dealt with here. At the end a
 * bit of the store is flipped in one place after the other, and each call that looks there tells what is wrong, and where. An ask that is
 * answered no is followed by a why, which shows the way to the entry that decided, or that there is none.
 */
#include "landing.h"

#include <stdbool.h>
#include <stdio.h>
#include <stdlib.h>
#include <string.h>

enum { H = 4, K = 2, L = 3, STORE_WORDS = 152, WORK_WORDS = 64, LIST_WORDS = 8 };

static const char *chip;
static uint32_t store[STORE_WORDS];
static uint32_t work[WORK_WORDS];

static void fail(void)
{
    perror(chip);
    exit(1);
}

static void write_chip(void)
{
    uint8_t bytes[4 * STORE_WORDS];
    for (size_t i = 0; i < sizeof bytes; i++)
        bytes[i] = (uint8_t)(store[i / 4] >> 8 * (i % 4));
    FILE *file = fopen(chip, "wb");
    if (!file || fwrite(bytes, 1, sizeof bytes, file) != sizeof bytes || fclose(file) != 0)
        fail();
}

static void read_chip(void)
{
    uint8_t bytes[4 * STORE_WORDS];
    FILE *file = fopen(chip, "rb");
    if (!file || fread(bytes, 1, sizeof bytes, file) != sizeof bytes || fclose(file) != 0)
        fail();
    memset(store, 0, sizeof store);
    for (size_t i = 0; i < sizeof bytes; i++)
        store[i / 4] |= (uint32_t)bytes[i] << 8 * (i % 4);
}

/* Prints what is wrong with a damaged store, and where. */
static void print_damage(uint32_t reply, uint32_t level, uint32_t page, uint32_t slot)
{
    switch (reply) {
    case LANDING_DIRECTORY:
        printf("the directory is wrong");
        break;
    case LANDING_HEAD:
        printf("the head is wrong at slot %u", slot);
        break;
    case LANDING_PAGE:
        printf("page %u of level %u is wrong at slot %u", page, level, slot);
        break;
    case LANDING_LEVEL:
        printf("level %u is not as it is written, at slot %u of page %u", level, slot, page);
        break;
    case LANDING_KINDS:
        if (level == 0 && page == 0 && slot == 0)
            printf("the number of pairs is wrong");
        else
            printf("an entry in level %u, page %u, slot %u does not fit the levels below", level, page, slot);
    }
}

/* Prints a reply, and a refusal's meaning. Only where the call is done does out hold the call's own values. */
static bool done(uint32_t reply, const uint32_t *out)
{
    static const char *const meanings[] = {"", "no geometry in its ranges", "held already", "not held", "full", "a wrong length"};
    printf("reply %u", reply);
    if (reply == LANDING_DONE)
        return true;
    printf(", ");
    if (reply >= LANDING_DIRECTORY)
        print_damage(reply, out[0], out[1], out[2]);
    else
        printf("%s", meanings[reply]);
    puts("");
    return false;
}

static void changed(uint32_t reply, const uint32_t out[7])
{
    if (!done(reply, out))
        return;
    printf(", %u held; entries %u %u %u", out[0], out[3], out[4], out[5]);
    if (out[1] != 0)
        printf("; merged into level %u, pages written: %u", out[1], out[2]);
    puts("");
    write_chip();
}

static void put(uint32_t badge, uint32_t floor)
{
    uint32_t out[7];
    printf("put %u %u: ", badge, floor);
    changed(landing_put(store, STORE_WORDS, work, WORK_WORDS, badge, floor, out), out);
}

static void drop(uint32_t badge, uint32_t floor)
{
    uint32_t out[7];
    printf("drop %u %u: ", badge, floor);
    changed(landing_drop(store, STORE_WORDS, work, WORK_WORDS, badge, floor, out), out);
}

/* Prints the way of a walk, a line for each level that it read. */
static void why(uint32_t badge, uint32_t floor)
{
    static const char *const entries[] = {"no entry of the pair", "a normal entry", "a filter"};
    uint32_t out[22];
    if (landing_why(store, STORE_WORDS, badge, floor, out) != LANDING_DONE)
        return;
    for (uint32_t level = 0; level < L; level++) {
        const uint32_t *line = out + 2 + 5 * level;
        if (line[0] == 0)
            break;
        printf("  level %u, page %u: ", level, line[1]);
        if (line[2] == 0)
            printf("no slot at or below the pair");
        else
            printf("slot %u, %s", line[2] - 1, entries[line[3]]);
        if (line[4] != 0)
            printf(", on to page %u", line[4] - 1);
        puts("");
    }
}

static void ask(uint32_t badge, uint32_t floor)
{
    uint32_t out[3];
    printf("ask %u %u: ", badge, floor);
    if (!done(landing_ask(store, STORE_WORDS, badge, floor, out), out))
        return;
    printf(", %s", out[0] == 1 ? "yes" : "no");
    if (out[1] < L)
        printf(", decided by level %u", out[1]);
    puts("");
    if (out[0] == 0)
        why(badge, floor);
}

static void list(void)
{
    uint32_t words[LIST_WORDS], out[3];
    printf("list: ");
    if (!done(landing_list(store, STORE_WORDS, 0, 0, UINT32_MAX, UINT32_MAX, words, LIST_WORDS, out), out))
        return;
    for (uint32_t i = 0; i < out[0]; i++)
        printf(", %u %u", words[2 * i], words[2 * i + 1]);
    puts(out[1] == 1 ? ", no room for more" : "");
}

static void check(void)
{
    uint32_t out[3];
    printf("check: ");
    if (done(landing_check(store, STORE_WORDS, out), out))
        puts(", sound");
}

/* Flips a bit of a word of the store, makes calls, and reads the store back from the chip. None of these calls changes it. */
static void flip(const char *where, size_t word, uint32_t bit)
{
    printf("-- a bit turns over in %s\n", where);
    store[word] ^= 1u << bit;
    check();
    list();
    ask(7, 1);
    drop(7, 3);
    read_chip();
}

int main(int argc, char **argv)
{
    if (argc != 2) {
        fprintf(stderr, "usage: %s CHIP\n", argv[0]);
        return 2;
    }
    chip = argv[1];

    printf("a store of %u words, a work area of %u\n", landing_store_words(H, K, L), landing_work_words(H, K, L));
    printf("format: reply %u\n", landing_format(store, STORE_WORDS, H, K, L));
    put(7, 1);
    put(7, 2);
    put(9, 1);
    put(7, 1);
    put(8, 1);
    ask(7, 1);
    ask(7, 3);
    drop(7, 2);
    drop(7, 2);
    ask(7, 2);
    list();
    check();

    puts("-- power off");
    memset(store, 0, sizeof store);
    ask(7, 1);
    puts("-- power on");
    read_chip();
    ask(7, 1);
    ask(7, 2);
    check();

    flip("the directory: word 7", 7, 0);
    flip("the head: the tag of slot 1", 14, 2);
    flip("level 1: the badge of slot 1", 28, 31);
    flip("level 1: slot 5, which is not used", 40, 0);
    flip("the head: the kind of slot 1", 14, 0);
    flip("the directory: the number of pairs", 3, 0);
    return 0;
}
