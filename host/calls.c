/* Memory for the calls, sweeps from files, the calls that find winds, and the words of a refusal. */
#include "calls.h"

#include <math.h>
#include <stdio.h>
#include <stdlib.h>
#include <string.h>

void *lent(size_t count, size_t size)
{
    void *memory = calloc(count ? count : 1, size);
    if (!memory) {
        fprintf(stderr, "%s: out of memory\n", program);
        exit(1);
    }
    return memory;
}

work_memory lent_work(size_t gates)
{
    size_t words = JIVAKKOL_WORK_WORDS(gates), floats = JIVAKKOL_WORK_FLOATS(gates);
    return (work_memory){lent(words, sizeof(uint32_t)), lent(floats, sizeof(double)), words, floats};
}

findings lent_findings(size_t gates)
{
    return (findings){lent(gates, sizeof(int32_t)), lent(gates, 1), lent(gates, sizeof(uint32_t)), 0, 0, lent(gates, sizeof(double))};
}

void free_work(work_memory *work)
{
    free(work->words);
    free(work->floats);
}

void free_findings(findings *f)
{
    free(f->folds);
    free(f->doubtful);
    free(f->labels);
    free(f->unfolded);
}

void free_sweep(sweep *s)
{
    free(s->velocity);
    free(s->valid);
}

size_t sweep_gates(const sweep *s)
{
    return (size_t)s->rays * s->gates;
}

/* What a refusal's number says. */
static const char *refusal(uint32_t answer)
{
    static const char *const words[] = {
        "none", "rays above 720 or gates above 1,200", "a slice of another length", "a mask byte other than 0 and 1",
        "too little work memory", "Nyquist not 0.125 to 1,024", "an option out of its range", "a valid velocity not -16,384 to 16,384",
        "more than 10,000 limits", "a merge or a count beyond 1,000 folds", "a count beyond 2,000 folds",
        "a field missing, cut short or of the wrong length", "a wrong tag, a set spare bit, or bytes after the last ray",
        "a merge book of fewer entries than regions less one", "other rays or gates than the window's",
    };
    return answer < sizeof words / sizeof *words ? words[answer] : "no number of this library";
}

int refused(const char *what, uint32_t answer)
{
    fprintf(stderr, "%s: %s is refused, answer %u: %s\n", program, what, answer, refusal(answer));
    return 0;
}

/* The bytes of a file, at most one more than the largest sweep has: a longer file is refused by these as by all. Null where it cannot be
 * read. */
static uint8_t *read_bytes(const char *path, size_t *length)
{
    const size_t most = JIVAKKOL_FILE_BYTES(JIVAKKOL_MOST_RAYS, JIVAKKOL_MOST_GATES) + 1;
    FILE *file = fopen(path, "rb");
    if (!file)
        return NULL;
    uint8_t *bytes = lent(most, 1);
    *length = fread(bytes, 1, most, file);
    int failed = ferror(file);
    fclose(file);
    if (!failed)
        return bytes;
    free(bytes);
    return NULL;
}

/* The sweep that a file's bytes hold; its memory is lent also where the answer is a refusal's. */
static uint32_t sweep_of(const uint8_t *file, size_t length, sweep *s)
{
    uint32_t size[2] = {0, 0}, header[8] = {0};
    uint32_t answer = jivakkol_sweep_size(file, length, size, 2);
    size_t n = (size_t)size[0] * size[1];
    uint32_t *bits = lent(n, sizeof *bits);
    s->velocity = lent(n, sizeof *s->velocity);
    s->valid = lent(n, 1);
    if (answer == 0)
        answer = jivakkol_read_sweep(file, length, bits, n, s->valid, n, header, 8);
    memcpy(s->velocity, bits, n * sizeof *bits);
    memcpy(&s->nyquist, &header[2], sizeof s->nyquist);
    free(bits);
    s->rays = header[0], s->gates = header[1], s->splits = header[3];
    s->skip_rays = header[4], s->skip_gates = header[5], s->centered = header[6], s->wrap = header[7];
    return answer;
}

int read_sweep(const char *path, sweep *s)
{
    size_t length = 0;
    uint8_t *file = read_bytes(path, &length);
    if (!file) {
        fprintf(stderr, "%s: %s cannot be read\n", program, path);
        return 0;
    }
    s->name = path;
    uint32_t answer = sweep_of(file, length, s);
    free(file);
    if (answer == 0)
        return 1;
    free_sweep(s);
    return refused(path, answer);
}

int sweep_folds(const sweep *s, work_memory work, findings *f)
{
    size_t n = sweep_gates(s);
    uint32_t pair[2] = {0, 0};
    uint32_t answer = jivakkol_dealias_sweep(s->rays, s->gates, s->nyquist, s->splits, s->skip_rays, s->skip_gates, s->centered, s->wrap,
                                             s->velocity, n, s->valid, n, f->folds, n, f->doubtful, n, pair, 2, work.words, work.words_len,
                                             work.floats, work.floats_len);
    f->regions = pair[0], f->merges = pair[1];
    return answer == 0 || refused(s->name, answer);
}

int map_regions(const sweep *s, work_memory work, findings *f)
{
    size_t n = sweep_gates(s);
    uint32_t regions = 0;
    uint32_t answer = jivakkol_region_map(s->rays, s->gates, s->nyquist, s->splits, s->skip_rays, s->skip_gates, s->centered, s->wrap,
                                          s->velocity, n, s->valid, n, f->labels, n, &regions, 1, work.words, work.words_len,
                                          work.floats, work.floats_len);
    if (answer != 0)
        return refused(s->name, answer);
    if (regions == f->regions)
        return 1;
    fprintf(stderr, "%s: the region map of %s has %u regions, the fold counts have %u\n", program, s->name, regions, f->regions);
    return 0;
}

int unfold(const sweep *s, findings *f)
{
    size_t n = sweep_gates(s);
    uint32_t answer = jivakkol_unfold_velocity(s->rays, s->gates, s->nyquist, s->velocity, n, s->valid, n, f->folds, n, f->labels, n,
                                               f->unfolded, n);
    return answer == 0 || refused(s->name, answer);
}

int find_winds(const sweep *s, findings *f)
{
    work_memory work = lent_work(sweep_gates(s));
    int found = sweep_folds(s, work, f) && map_regions(s, work, f) && unfold(s, f);
    free_work(&work);
    return found;
}

size_t count_winds(const sweep *s, const findings *f)
{
    size_t count = 0;
    for (size_t g = 0; g < sweep_gates(s); g++)
        count += s->valid[g] && f->labels[g];
    return count;
}

double *measured_winds(const sweep *s)
{
    double *measured = lent(sweep_gates(s), sizeof *measured);
    for (size_t g = 0; g < sweep_gates(s); g++)
        measured[g] = s->valid[g] ? s->velocity[g] : 0.0;
    return measured;
}

double fastest(const double *wind, size_t n)
{
    double most = 0.0;
    for (size_t g = 0; g < n; g++)
        if (fabs(wind[g]) > most)
            most = fabs(wind[g]);
    return most;
}
