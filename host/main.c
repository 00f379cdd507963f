/* Finds a sweep's fold counts and regions from a file, unfolds its wind by them, and draws the wind before and after, what of it is doubtful,
 * and the regions as a PPM picture.
 *
 * usage: host SWEEP PICTURE. The form of a sweep file stands at jivakkol_read_sweep in jivakkol.h. Speeds are printed in m/s. */
#include "calls.h"
#include "picture.h"

#include <math.h>
#include <stdio.h>
#include <stdlib.h>

const char program[] = "host";

/* Finds fold counts, regions and winds, and prints how many regions and merges there are. Answers 0 where the library refused. */
static int find(const sweep *s, findings *f)
{
    if (!find_winds(s, f))
        return 0;
    printf("answer 0, regions %u, merges %u\n", f->regions, f->merges);
    printf("region map: regions %u, as for the fold counts\n", f->regions);
    return 1;
}

/* Prints how many gates show a wind, and how many are doubtful. */
static void print_gates(const sweep *s, const findings *f)
{
    size_t valid = 0, marked = 0;
    for (size_t g = 0; g < sweep_gates(s); g++) {
        valid += s->valid[g];
        marked += f->doubtful[g];
    }
    printf("gates with a wind: %zu, doubtful: %zu, of %zu valid\n", count_winds(s, f), marked, valid);
}

/* Prints the gates' numbers and the fastest winds and draws the picture. Answers 0 where it cannot be written. */
static int draw(const sweep *s, const findings *f, const char *path)
{
    double *measured = measured_winds(s);
    print_gates(s, f);
    double before = fastest(measured, sweep_gates(s)), after = fastest(f->unfolded, sweep_gates(s));
    printf("fastest wind towards or from the radar: measured %.2f m/s, unfolded %.2f m/s\n", before, after);
    sweep_view view = {.rays = s->rays, .gates = s->gates, .regions = f->regions, .valid = s->valid, .measured = measured, .unfolded = f->unfolded,
                       .doubtful = f->doubtful, .labels = f->labels, .most = fmax(before, after)};
    int written = write_picture(path, &view);
    free(measured);
    return written;
}

int main(int count, char **word)
{
    sweep s;
    if (count != 3) {
        fprintf(stderr, "usage: host SWEEP PICTURE\n");
        return 2;
    }
    if (!read_sweep(word[1], &s))
        return 2;
    findings f = lent_findings(sweep_gates(&s));
    int done = find(&s, &f) && draw(&s, &f, word[2]);
    free_findings(&f);
    free_sweep(&s);
    return done ? 0 : 1;
}
