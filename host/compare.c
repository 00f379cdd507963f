/* Prints one line by which installations compare: the fold counts of the test sweep of a seed, as their crc32.
 *
 * usage: compare [SEED [RAYS GATES]], whole numbers in decimal; 1, 360 and 1000 if not given. Splits are 3, both skips 100, centred and wrapped. */
#include "calls.h"

#include <stdio.h>

const char program[] = "compare";

/* zlib's crc32 of the counts as 32-bit numbers, low byte first. */
static uint32_t crc32(const int32_t *counts, size_t n)
{
    uint32_t crc = UINT32_MAX;
    for (size_t g = 0; g < n; g++)
        for (int shift = 0; shift < 32; shift += 8) {
            crc ^= (uint32_t)counts[g] >> shift & 0xFF;
            for (int bit = 0; bit < 8; bit++)
                crc = crc >> 1 ^ (crc & 1 ? 0xEDB88320u : 0);
        }
    return ~crc;
}

/* The number that a word stands for. Answers 0, with a message, where it is none of 32 bits. */
static int read_number(const char *word, uint32_t *number)
{
    uint64_t value = 0;
    const char *digit = word;
    for (; *digit >= '0' && *digit <= '9' && value <= UINT32_MAX; digit++)
        value = 10 * value + (uint64_t)(*digit - '0');
    if (digit == word || *digit || value > UINT32_MAX) {
        fprintf(stderr, "%s: '%s' is no whole number from 0 to 4294967295\n", program, word);
        return 0;
    }
    *number = (uint32_t)value;
    return 1;
}

/* Prints the line of a sweep that has memory for its velocities and mask. Answers 0 where the library refused. */
static int print_line(const sweep *s, uint32_t seed, size_t n)
{
    uint32_t state = seed;
    uint32_t answer = jivakkol_test_sweep(s->rays, s->gates, &state, 1, s->velocity, n, s->valid, n);
    if (answer != 0)
        return refused(s->name, answer);
    work_memory work = lent_work(n);
    findings f = lent_findings(n);
    int found = sweep_folds(s, work, &f);
    if (found)
        printf("seed %u, %u x %u: %u regions, %u merges, state after the last gate %u, crc32 of the fold counts %08x\n", seed, s->rays, s->gates,
               f.regions, f.merges, state, crc32(f.folds, n));
    free_work(&work);
    free_findings(&f);
    return found;
}

int main(int count, char **word)
{
    uint32_t number[3] = {1, 360, 1000};
    if (count == 3 || count > 4) {
        fprintf(stderr, "usage: compare [SEED [RAYS GATES]]\n");
        return 2;
    }
    for (int i = 1; i < count; i++)
        if (!read_number(word[i], &number[i - 1]))
            return 2;
    sweep s = {.name = "the test sweep", .rays = number[1], .gates = number[2], .splits = 3, .skip_rays = 100, .skip_gates = 100,
               .centered = 1, .wrap = 1, .nyquist = JIVAKKOL_TEST_NYQUIST};
    /* A size that is not permitted gets no memory: the library refuses it first. */
    size_t n = s.rays <= JIVAKKOL_MOST_RAYS && s.gates <= JIVAKKOL_MOST_GATES ? (size_t)s.rays * s.gates : 0;
    s.velocity = lent(n, sizeof *s.velocity);
    s.valid = lent(n, 1);
    int done = print_line(&s, number[0], n);
    free_sweep(&s);
    return done ? 0 : 2;
}
