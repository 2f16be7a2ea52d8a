/* One test of the first words of a simulated RAM: engine ALGORITHM WORDS. It writes how many accesses were made. */
#include "../include/mt.h"

#include <inttypes.h>
#include <stdio.h>
#include <stdlib.h>
#include <string.h>

static volatile uint32_t ram[MT_WORDS];

int main(int count, char **words) {
    struct mt_settings settings = {.width = 32};
    struct mt_test test = {0};
    struct mt_access access = {0};
    uint32_t accesses = 0;
    if (count != 3) return 2;
    settings.count = (uint32_t)atoi(words[2]);
    if (mt_set_up(&test, &settings, words[1], strlen(words[1])).rule != MT_SET_UP) return 3;
    uint32_t reply = mt_due(&test, &access);
    while (reply == MT_READ || reply == MT_WRITE) {
        uint64_t answer = 0;
        if (reply == MT_READ)
            answer = ram[access.address];
        else
            ram[access.address] = (uint32_t)access.word;
        accesses++;
        reply = mt_next(&test, answer, &access);
    }
    printf("%" PRIu32 "\n", accesses);
    return reply != MT_PASS;
}
