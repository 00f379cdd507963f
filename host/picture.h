/* Draws three discs: the wind as measured, the wind unfolded, and either the regions or the median of the last sweeps. Beside the regions, the
 * unfolded wind is hatched where its fold is doubtful, and a valid gate in no region has a grey of its own; beside the median it has that of no wind. */
#ifndef HOST_PICTURE_H
#define HOST_PICTURE_H

#include <stddef.h>
#include <stdint.h>

/* What is drawn. Each array has rays * gates elements, ray by ray; regions are drawn where median is null. */
typedef struct {
    uint32_t rays, gates, regions;
    const uint8_t *valid;              /* 0 where a gate is masked */
    const double *measured, *unfolded; /* m/s, above 0 away from the radar */
    const uint8_t *doubtful;           /* 1 where the fold of the gate's region hung on a near tie, else 0; null where none is hatched */
    const uint32_t *labels;            /* the gate's region, 1 to regions, or 0 where it has none */
    const double *median;              /* m/s, of the winds that the gate shows in the sweeps held */
    const uint8_t *marks;              /* 1 where it shows none, else 0 */
    uint32_t held;                     /* how many sweeps those are */
    double most;                       /* the m/s that get full colour */
} sweep_view;

/* Writes the picture as a PPM file. Answers 0, with a message, where the file cannot be written. */
int write_picture(const char *path, const sweep_view *view);

#endif
