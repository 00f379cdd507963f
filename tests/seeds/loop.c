/* Holds jivakkol_test_sweep to a loop in C's own unsigned arithmetic: the answer's number, every bit of state, velocities and mask, and the memory
 * on both sides of each slice. Each sweep is filled at once and in parts; a refusal must change nothing. Ends at the first difference. A program is
 * caught here that takes other bits or the state from before the gate, leaves out a masked gate's velocity, writes at a refusal or beside a slice,
 * does not ask how long the state is, or asks its questions in another order.
 *
 * usage: seeds COUNT, the number of seeds. */
#include "jivakkol.h"

#include <stdio.h>
#include <stdlib.h>
#include <string.h>

/* Elements on each side of a slice that no call may write; the gates of a sweep with a ray and a gate too many, the largest that slices fit; and the
 * most elements that a slice is lent, two more than fit. */
enum { edge = 16, fitting = (JIVAKKOL_MOST_RAYS + 1) * (JIVAKKOL_MOST_GATES + 1), most = fitting + 2 };

/* The memory of the three slices, each between its edges. */
typedef struct {
    uint32_t state[edge + 2 + edge];
    float velocity[edge + most + edge];
    uint8_t valid[edge + most + edge];
} memory;

static memory lent, expected, whole;

/* A call: a sweep's size, the state that it begins with, and how many elements each slice has. */
typedef struct {
    uint32_t rays, gates, seed;
    size_t states, velocities, masks;
} call;

static struct {
    unsigned long sweeps, largest, gates, masked, parts, empty_parts, answers[3];
    float least, greatest;
} tally;

/* xorshift64*, high half. */
static uint32_t any(void)
{
    static uint64_t x = 0x9E3779B97F4A7C15u;
    x ^= x >> 12;
    x ^= x << 25;
    x ^= x >> 27;
    return (uint32_t)(x * 0x2545F4914F6CDD1Du >> 32);
}

static uint32_t below(uint32_t end)
{
    return any() % end;
}

static void make_noise(void *at, size_t bytes)
{
    unsigned char *to = at;
    for (size_t done = 0, part; done < bytes; done += part) {
        uint32_t word = any();
        part = bytes - done < sizeof word ? bytes - done : sizeof word;
        memcpy(to + done, &word, part);
    }
}

static void copy(const call *c, memory *to, const memory *from)
{
    memcpy(to->state, from->state, sizeof to->state);
    memcpy(to->velocity, from->velocity, (c->velocities + 2 * edge) * sizeof *to->velocity);
    memcpy(to->valid, from->valid, c->masks + 2 * edge);
}

/* Lends memory that holds any bits, but for the state; what is expected of it begins as a copy. */
static void lend(const call *c)
{
    make_noise(lent.state, sizeof lent.state);
    make_noise(lent.velocity, (c->velocities + 2 * edge) * sizeof *lent.velocity);
    make_noise(lent.valid, c->masks + 2 * edge);
    lent.state[edge] = c->seed;
    copy(c, &expected, &lent);
}

/* The loop: the state goes on by one step a gate, modulo 2^32 as C's unsigned numbers do. */
static void fill(uint32_t *state, float *velocity, uint8_t *valid, size_t gates)
{
    for (; gates > 0; gates--) {
        *state = *state * 1664525u + 1013904223u;
        *valid++ = *state >> 29 ? 1 : 0;
        *velocity++ = (float)((int)(*state >> 8 & 0xFFF) - 2048) * 0x1p-7f;
    }
}

static uint32_t expected_answer(const call *c)
{
    if (c->rays > JIVAKKOL_MOST_RAYS || c->gates > JIVAKKOL_MOST_GATES)
        return 1;
    size_t n = (size_t)c->rays * c->gates;
    return c->velocities == n && c->masks == n && c->states == 1 ? 0 : 2;
}

/* Begins the line that says a difference. */
static void different(const call *c)
{
    printf("DIFFERENT: seed %u, %u x %u, lent %zu state, %zu velocities, %zu mask bytes: ", c->seed, c->rays, c->gates, c->states, c->velocities,
           c->masks);
}

/* One slice with its edges, of so many elements, against another. */
static void compare_slice(const call *c, const char *when, const char *name, const void *got, const void *wanted, size_t length, size_t size)
{
    const unsigned char *a = got, *b = wanted;
    size_t i = 0;
    if (memcmp(a, b, (length + 2 * edge) * size) == 0)
        return;
    while (memcmp(a + i * size, b + i * size, size) == 0)
        i++;
    uint32_t x = 0, y = 0;
    memcpy(&x, a + i * size, size);
    memcpy(&y, b + i * size, size);
    different(c);
    printf("%s, %s %ld%s has the bits %x, expected %x\n", when, name, (long)i - edge, i < edge || i >= edge + length ? ", outside the slice," : "", x, y);
    exit(1);
}

static void compare(const call *c, const char *when, const memory *wanted)
{
    compare_slice(c, when, "state", lent.state, wanted->state, c->states, sizeof *lent.state);
    compare_slice(c, when, "velocity", lent.velocity, wanted->velocity, c->velocities, sizeof *lent.velocity);
    compare_slice(c, when, "mask byte", lent.valid, wanted->valid, c->masks, sizeof *lent.valid);
}

/* Calls the entry with slices that begin `from` gates on; it must answer this number. */
static void answer(const call *c, size_t from, uint32_t number)
{
    uint32_t given = jivakkol_test_sweep(c->rays, c->gates, lent.state + edge, c->states, lent.velocity + edge + from, c->velocities,
                                         lent.valid + edge + from, c->masks);
    if (given != number) {
        different(c);
        printf("answer %u, expected %u\n", given, number);
        exit(1);
    }
    tally.answers[number]++;
}

/* One call, with all that is lent. */
static void hold(const call *c)
{
    static const char *const when[] = {"answer 0", "answer 1", "answer 2"};
    uint32_t number = expected_answer(c);
    lend(c);
    answer(c, 0, number);
    if (number == 0)
        fill(expected.state + edge, expected.velocity + edge, expected.valid + edge, c->velocities);
    compare(c, when[number], &expected);
}

/* The sweep of an accepted call once more in two to six parts, one after another from the state that came back: as the one call left it. */
static void hold_parts(const call *c)
{
    uint32_t done = 0, parts = 2 + below(5);
    copy(c, &whole, &lent);
    make_noise(lent.velocity + edge, c->velocities * sizeof *lent.velocity);
    make_noise(lent.valid + edge, c->masks);
    lent.state[edge] = c->seed;
    copy(c, &expected, &lent);
    for (uint32_t p = 1; p <= parts; p++) {
        uint32_t rays = p == parts ? c->rays - done : below(c->rays - done + 1);
        size_t from = (size_t)done * c->gates, gates = (size_t)rays * c->gates;
        call part = {rays, c->gates, lent.state[edge], 1, gates, gates};
        answer(&part, from, 0);
        fill(expected.state + edge, expected.velocity + edge + from, expected.valid + edge + from, gates);
        compare(c, "after a part", &expected);
        done += rays;
        tally.parts++;
        tally.empty_parts += gates == 0;
    }
    compare(c, "after all parts", &whole);
}

/* Slices one shorter and one longer, a state of none and of two, and some of these at once. */
static void hold_lengths(const call *c)
{
    for (int change = -1; change <= 1; change += 2) {
        call one = *c, other = *c, third = *c;
        third.states += change;
        hold(&third);
        if (change < 0 && (c->velocities == 0 || c->masks == 0))
            continue;
        one.velocities += change;
        other.masks += change;
        hold(&one);
        hold(&other);
    }
    call some = *c;
    some.states = below(3);
    some.velocities += below(3);
    some.masks += below(3);
    hold(&some);
}

/* A number of rays or gates beyond its greatest, often the first. */
static uint32_t beyond(uint32_t greatest)
{
    uint32_t random = greatest + 1 + below(UINT32_MAX - greatest);
    const uint32_t numbers[] = {greatest + 1, greatest + 1, greatest + 2, 65536, 0x80000000u, UINT32_MAX, random};
    return numbers[below(sizeof numbers / sizeof *numbers)];
}

/* A call on slices as long as the size asks for, or, where that is too much, asks for modulo 2^32, or else of any few elements. */
static call sized(uint32_t rays, uint32_t gates, uint32_t seed)
{
    uint64_t asked = (uint64_t)rays * gates;
    size_t n = asked <= fitting ? (size_t)asked : (uint32_t)asked <= fitting ? (uint32_t)asked : below(200);
    return (call){rays, gates, seed, 1, n, n};
}

/* Sizes beyond the largest, and a small one, each with slices that fit and with slices that do not. */
static void hold_refusals(uint32_t seed)
{
    uint32_t rays = below(6), gates = below(6), many_rays = beyond(JIVAKKOL_MOST_RAYS), many_gates = beyond(JIVAKKOL_MOST_GATES);
    const uint32_t sizes[][2] = {{many_rays, gates}, {rays, many_gates}, {many_rays, many_gates}, {rays, gates}};
    for (int i = 0; i < 4; i++) {
        call c = sized(sizes[i][0], sizes[i][1], seed);
        hold(&c);
        hold_lengths(&c);
    }
}

/* The refusals next to the largest sweep. */
static void hold_largest(uint32_t seed)
{
    call wide = sized(JIVAKKOL_MOST_RAYS + 1, JIVAKKOL_MOST_GATES, seed), deep = sized(JIVAKKOL_MOST_RAYS, JIVAKKOL_MOST_GATES + 1, seed);
    call largest = sized(JIVAKKOL_MOST_RAYS, JIVAKKOL_MOST_GATES, seed);
    hold(&wide);
    hold(&deep);
    hold_lengths(&largest);
    tally.largest++;
}

/* A permitted size: no gate, one side as long as it may be and the other short, any, or most often a small one. */
static call permitted(uint32_t seed)
{
    uint32_t few = below(4), rays = below(JIVAKKOL_MOST_RAYS + 1), gates = below(JIVAKKOL_MOST_GATES + 1);
    switch (below(10)) {
    case 0: return sized(0, gates, seed);
    case 1: return sized(rays, 0, seed);
    case 2: return sized(JIVAKKOL_MOST_RAYS - below(2), few, seed);
    case 3: return sized(few, JIVAKKOL_MOST_GATES - below(2), seed);
    case 4: return sized(rays, gates, seed);
    default: return sized(1 + rays % 40, 1 + gates % 60, seed);
    }
}

static void count_gates(const call *c)
{
    for (size_t g = edge; g < edge + c->velocities; g++) {
        float v = lent.velocity[g];
        tally.masked += lent.valid[g] == 0;
        tally.least = v < tally.least ? v : tally.least;
        tally.greatest = v > tally.greatest ? v : tally.greatest;
    }
    tally.sweeps++;
    tally.gates += c->velocities;
}

int main(int count, char **word)
{
    static const uint32_t first[] = {0, 1, UINT32_MAX, 0x80000000u};
    if (count != 2) {
        fprintf(stderr, "usage: seeds COUNT\n");
        return 2;
    }
    unsigned long seeds = strtoul(word[1], NULL, 10);
    for (unsigned long turn = 0; turn < seeds; turn++) {
        int largest = turn < 4 || turn % 100 == 0;
        uint32_t seed = turn < 4 ? first[turn] : any();
        call c = largest ? sized(JIVAKKOL_MOST_RAYS, JIVAKKOL_MOST_GATES, seed) : permitted(seed);
        hold(&c);
        count_gates(&c);
        hold_parts(&c);
        hold_refusals(seed);
        if (largest)
            hold_largest(seed);
    }
    printf("seeds: %lu, their sweeps have %lu gates, %lu of them masked; of 720 x 1,200: %lu\n", tally.sweeps, tally.gates, tally.masked, tally.largest);
    printf("least velocity %.7f, greatest %.7f\n", tally.least, tally.greatest);
    printf("parts: %lu, of them without a gate %lu\n", tally.parts, tally.empty_parts);
    printf("calls by answer: 0 %lu, 1 %lu, 2 %lu; all equal\n", tally.answers[0], tally.answers[1], tally.answers[2]);
    return 0;
}
