/* Takes sweeps from files into a window of the last eight, and draws the last one as measured and as unfolded, and the window's medians, as a PPM
 * picture.
 *
 * usage: window PICTURE SWEEP.. The form of a sweep file stands at jivakkol_read_sweep in jivakkol.h. The first accepted sweep's size is the window's. A
 * refused file is told on standard error, leaves the window as it was, and the next goes on. Ends with 0; with 1 where a file was refused or the picture
 * cannot be written; with 2 where no sweep was accepted. */
#include "calls.h"
#include "picture.h"

#include <math.h>
#include <stdio.h>
#include <stdlib.h>

const char program[] = "window";

enum { places = JIVAKKOL_WINDOW_PLACES };

/* What jivakkol_window_add writes; winds and shown have `places` times the gates of the picture and its marks. */
typedef struct {
    uint32_t words[4]; /* rays, gates, sweeps held, next place */
    double *winds, *picture;
    uint8_t *shown, *marks;
} window;

static size_t window_gates(const window *w)
{
    return (size_t)w->words[0] * w->words[1];
}

static window lent_window(uint32_t rays, uint32_t gates)
{
    size_t m = (size_t)rays * gates;
    return (window){{rays, gates, 0, 0}, lent(places * m, sizeof(double)), lent(m, sizeof(double)), lent(places * m, 1), lent(m, 1)};
}

static void free_window(window *w)
{
    free(w->winds);
    free(w->picture);
    free(w->shown);
    free(w->marks);
}

/* Takes a sweep into the window. Answers 0 where the library refused. */
static int add(const sweep *s, const findings *f, window *w)
{
    size_t n = sweep_gates(s), m = window_gates(w);
    uint32_t answer = jivakkol_window_add(s->rays, s->gates, s->nyquist, s->velocity, n, s->valid, n, f->folds, n, f->labels, n, w->words, 4,
                                          w->winds, places * m, w->shown, places * m, w->picture, m, w->marks, m);
    return answer == 0 || refused(s->name, answer);
}

/* Prints how much the sweep shows, and how much the window with it. */
static void print_sweep(const sweep *s, const findings *f, const window *w)
{
    size_t shown = 0;
    for (size_t g = 0; g < window_gates(w); g++)
        shown += !w->marks[g];
    printf("%s: regions %u, gates with a wind %zu; window: sweeps held %u, gates with a wind %zu\n", s->name, f->regions, count_winds(s, f),
           w->words[2], shown);
    fflush(stdout); /* refusals, on standard error, stand in order among these lines */
}

/* Finds a file's winds and takes them into the window; the sweep is then the last. Answers 0, with window and last sweep as they were, where the
 * file is refused. */
static int take(const char *path, window *w, sweep *last, findings *found)
{
    sweep s;
    if (!read_sweep(path, &s))
        return 0;
    findings f = lent_findings(sweep_gates(&s));
    if (w->words[2] == 0) { /* no sweep is held, so the size may still be another */
        free_window(w);
        *w = lent_window(s.rays, s.gates);
    }
    if (!find_winds(&s, &f) || !add(&s, &f, w)) {
        free_findings(&f);
        free_sweep(&s);
        return 0;
    }
    print_sweep(&s, &f, w);
    free_findings(found);
    free_sweep(last);
    *last = s, *found = f;
    return 1;
}

/* Prints the mean change of the wind from a gate to the next of its ray, in the last sweep and in the picture, over the pairs that both show. */
static void print_change(const sweep *s, const findings *f, const window *w)
{
    double single = 0.0, median = 0.0;
    size_t pairs = 0;
    for (size_t g = 1; g < sweep_gates(s); g++) {
        if (g % s->gates == 0 || !s->valid[g] || !f->labels[g] || !s->valid[g - 1] || !f->labels[g - 1])
            continue;
        single += fabs(f->unfolded[g] - f->unfolded[g - 1]);
        median += fabs(w->picture[g] - w->picture[g - 1]);
        pairs++;
    }
    if (pairs == 0)
        printf("the last sweep shows no wind at two gates next to each other along a ray\n");
    else
        printf("mean change from a gate to the next along a ray: last sweep %.2f m/s, median %.2f m/s, over %zu pairs that both show\n",
               single / (double)pairs, median / (double)pairs, pairs);
}

/* Draws the last sweep and the window. Answers 0 where the picture cannot be written. */
static int draw(const sweep *s, const findings *f, const window *w, const char *path)
{
    size_t n = sweep_gates(s);
    double *measured = measured_winds(s);
    sweep_view view = {.rays = s->rays, .gates = s->gates, .valid = s->valid, .measured = measured, .unfolded = f->unfolded, .labels = f->labels,
                       .median = w->picture, .marks = w->marks, .held = w->words[2], .most = fmax(fastest(f->unfolded, n), fastest(w->picture, n))};
    int written = write_picture(path, &view);
    free(measured);
    return written;
}

int main(int count, char **word)
{
    window w = {{0}, NULL, NULL, NULL, NULL};
    sweep last = {.name = NULL};
    findings found = {.folds = NULL};
    int refusals = 0;
    if (count < 3) {
        fprintf(stderr, "usage: window PICTURE SWEEP..\n");
        return 2;
    }
    for (int i = 2; i < count; i++)
        refusals += !take(word[i], &w, &last, &found);
    int accepted = w.words[2] > 0, done = 0;
    if (accepted) {
        print_change(&last, &found, &w);
        done = draw(&last, &found, &w, word[1]) && refusals == 0;
    }
    free_window(&w);
    free_findings(&found);
    free_sweep(&last);
    return !accepted ? 2 : done ? 0 : 1;
}
