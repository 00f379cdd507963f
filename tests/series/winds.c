/* Takes sweep files into a window, and writes what compare.py looks at: the last sweep's winds and whether each gate shows one, then the window's picture and
 * marks; f64 and bytes as they lie in memory.
 *
 * usage: winds OUT SWEEP.. */
#include "calls.h"

#include <stdio.h>
#include <stdlib.h>

const char program[] = "winds";

enum { places = JIVAKKOL_WINDOW_PLACES };

int main(int count, char **word)
{
    uint32_t words[4] = {0};
    double *winds = NULL, *picture = NULL;
    uint8_t *shown = NULL, *marks = NULL;
    FILE *out = count > 2 ? fopen(word[1], "wb") : NULL;
    for (int i = 2; out && i < count; i++) {
        sweep s;
        if (!read_sweep(word[i], &s))
            return 1;
        size_t n = sweep_gates(&s);
        findings f = lent_findings(n);
        if (!winds) {
            words[0] = s.rays, words[1] = s.gates;
            winds = lent(places * n, sizeof *winds), shown = lent(places * n, 1);
            picture = lent(n, sizeof *picture), marks = lent(n, 1);
        }
        if (!find_winds(&s, &f))
            return 1;
        uint32_t answer = jivakkol_window_add(s.rays, s.gates, s.nyquist, s.velocity, n, s.valid, n, f.folds, n, f.labels, n, words, 4, winds, places * n,
                                              shown, places * n, picture, n, marks, n);
        if (answer != 0) {
            refused(s.name, answer);
            return 1;
        }
        if (i == count - 1) {
            for (size_t g = 0; g < n; g++)
                s.valid[g] = s.valid[g] && f.labels[g];
            fwrite(f.unfolded, sizeof *f.unfolded, n, out);
            fwrite(s.valid, 1, n, out);
            fwrite(picture, sizeof *picture, n, out);
            fwrite(marks, 1, n, out);
        }
        free_findings(&f);
        free_sweep(&s);
    }
    free(winds), free(shown), free(picture), free(marks);
    return out && fclose(out) == 0 ? 0 : 2;
}
