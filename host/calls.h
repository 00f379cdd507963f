/* What the hosts share: memory to lend, sweeps and their files, the calls that find a sweep's winds, and the words of a refusal. */
#ifndef HOST_CALLS_H
#define HOST_CALLS_H

#include "jivakkol.h"

/* The host's own name, which stands before what it says on standard error. */
extern const char program[];

/* velocity and valid have rays * gates elements, ray by ray; name is what a refusal calls the sweep. */
typedef struct {
    const char *name;
    uint32_t rays, gates, splits, skip_rays, skip_gates, centered, wrap;
    float nyquist;
    float *velocity;
    uint8_t *valid;
} sweep;

/* What the calls find of a sweep. */
typedef struct {
    int32_t *folds;
    uint8_t *doubtful;
    uint32_t *labels, regions, merges;
    double *unfolded;
} findings;

/* The memory that a call works in; all calls that need it ask for the same. */
typedef struct {
    uint32_t *words;
    double *floats;
    size_t words_len, floats_len;
} work_memory;

/* Zeroed memory; where there is none the program ends with a message. */
void *lent(size_t count, size_t size);

/* The work memory for so many gates, and the memory of what is found of them. */
work_memory lent_work(size_t gates);
findings lent_findings(size_t gates);

void free_work(work_memory *work);
void free_findings(findings *f);
void free_sweep(sweep *s);

size_t sweep_gates(const sweep *s);

/* Says on standard error what was refused and why; answers 0. */
int refused(const char *what, uint32_t answer);

/* The sweep of a file, in memory for free_sweep. Answers 0, with a message and without memory, where the file cannot be read or is refused. */
int read_sweep(const char *path, sweep *s);

/* Finds each gate's fold count and mark, and the number of regions and of merges. Answers 0 where the library refused. */
int sweep_folds(const sweep *s, work_memory work, findings *f);

/* Labels each gate with its region. Answers 0 where the library refused, or found another number of regions than the fold counts have. */
int map_regions(const sweep *s, work_memory work, findings *f);

/* Unfolds the wind by fold counts and labels. Answers 0 where the library refused. */
int unfold(const sweep *s, findings *f);

/* The three calls in this order. Answers 0 where the library refused one. */
int find_winds(const sweep *s, findings *f);

/* How many gates show a wind: valid ones that lie in a region. */
size_t count_winds(const sweep *s, const findings *f);

/* The measured velocities as a picture takes them, in memory for free; 0 at masked gates. */
double *measured_winds(const sweep *s);

/* The fastest of n winds, towards the radar or away from it. */
double fastest(const double *wind, size_t n);

#endif
