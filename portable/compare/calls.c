/*
 * Seeded calls of every entry of a library. Of each entry a line is printed: how often each answer was given, and a
 * digest of every argument's buffer and every field of every answer. Two libraries that print the same answered all
 * calls alike. Built for a processor with the library to compare and its calls, and run on it.
 *
 *     calls              the rounds that the comparison takes
 *     calls ROUNDS       so many
 *     calls ROUNDS ENTRY a line for each call of one entry, to find the first one that differs
 */
#include "calls.h"

#include <stdio.h>
#include <stdlib.h>
#include <string.h>

#ifndef ROUNDS
#define ROUNDS 3000
#endif
#define NUMBERS 32

/* FNV-1a over the bytes of each number, the lowest first, whatever the processor's order. */
static uint64_t digest;

static void add_byte(uint64_t byte) { digest = (digest ^ byte) * 0x100000001B3u; }

void add(uint64_t number) {
    for (int k = 0; k < 8; k++) add_byte(number >> 8 * k & 0xFF);
}

void add_numbers(const uint16_t *numbers, size_t n) {
    for (size_t k = 0; k < n; k++) add_byte(numbers[k]);
}

void add_bytes(const uint8_t *bytes, size_t n) {
    for (size_t k = 0; k < n; k++) add_byte(bytes[k]);
}

uint32_t add_answer(ism_answer answer) {
    add(answer.number);
    add(answer.place);
    add(answer.count);
    add(answer.used);
    add(answer.holds);
    add(answer.clearance);
    return answer.number;
}

static void print_digest(void) {
    printf(" %08lx%08lx\n", (unsigned long)(digest >> 32), (unsigned long)(digest & 0xFFFFFFFFu));
}

/* All calls of an entry. Whether every answer that it has was met, and no other. */
static int compare_entry(const entry *e, unsigned long seed, unsigned rounds, int each) {
    unsigned long seen[NUMBERS] = {0};
    uint32_t met = 0;
    digest = 0xCBF29CE484222325u;
    for (unsigned k = 0; k < rounds; k++) {
        source s = {1000003u * (uint64_t)seed + k};
        uint32_t answered = e->call(&s);
        if (answered >= NUMBERS) return 0;
        seen[answered]++;
        met |= BIT(answered);
        if (each) printf("%s call %u answer %lu", e->name, k, (unsigned long)answered);
        if (each) print_digest();
    }
    printf("%-24s", e->name);
    for (unsigned number = 0; number < NUMBERS; number++) {
        if (seen[number]) printf(" %u:%lu", number, seen[number]);
    }
    print_digest();
    return met == e->answers;
}

int main(int argc, char **argv) {
    unsigned rounds = argc > 1 ? (unsigned)atoi(argv[1]) : ROUNDS;
    int all_met = 1;
    unsigned long calls = 0;
    for (const entry *e = entries; e->name; e++) {
        int chosen = argc > 2 && strcmp(argv[2], e->name) == 0;
        if (argc > 2 && !chosen) continue;
        if (!compare_entry(e, (unsigned long)(e - entries), rounds, chosen)) {
            printf("%s: not every answer that it has was met, or another one\n", e->name);
            all_met = 0;
        }
        calls += rounds;
    }
    printf("%lu calls\n", calls);
    return all_met ? 0 : 1;
}
