/* The picture of a calibration: the crosses before and after it, and the error from sheet to sheet. */
#ifndef SVG_H
#define SVG_H

#include "plotter.h"

#include <stdbool.h>
#include <stddef.h>

struct picture {
    const struct drawing *before;
    const struct drawing *after;
    double error_before;  /* this and the following are root mean squares in millimetres */
    double error_after;
    double noise;         /* what the scanner alone gives */
    const double *errors; /* one a drawing */
    const bool *probes;   /* one a drawing: made only to find a slope */
    size_t drawings;
};

/* False where the file cannot be written. */
bool svg_write(const char *path, const struct picture *picture);

#endif
