/* A simulated pen plotter with two belts: it draws a grid of crosses with its own errors, under a correction, and scans them with noise. */
#ifndef PLOTTER_H
#define PLOTTER_H

#include <stdint.h>

enum { COLUMNS = 9, ROWS = 7, CROSSES = COLUMNS * ROWS, PARAMETERS = 5 };

/* Half the width and height of the grid, in millimetres. The origin is the middle of the sheet. */
#define HALF_WIDTH 280.0
#define HALF_HEIGHT 210.0

/* The scanner's error on each coordinate of a cross, in millimetres (standard deviation). */
#define SCAN_NOISE 0.02

struct spot {
    double x;
    double y;
};

/* How a machine turns the place it is sent to into the place where the pen draws:
 * x is scale_x times the x sent, plus skew times the y sent, plus pen_x; y is scale_y times the y sent, plus pen_y. */
struct machine {
    double scale_x;
    double scale_y;
    double skew;
    double pen_x; /* millimetres */
    double pen_y;
};

struct plotter {
    struct machine truth;
    uint64_t random; /* the generator's state */
};

/* Where the crosses of one sheet are. */
struct drawing {
    struct spot crosses[CROSSES];
};

/* A plotter whose errors, all within the limits, and whose scan noise follow from the seed. */
void plotter_make(struct plotter *plotter, uint64_t seed);

/* Where the crosses should be. */
void drawing_wanted(struct drawing *drawing);

/* Draws the crosses, the correction taking the machine to be `believed`. */
void plotter_draw(const struct plotter *plotter, const struct machine *believed, struct drawing *drawing);

/* Adds the scanner's noise to a drawing. */
void plotter_scan(struct plotter *plotter, struct drawing *drawing);

/* The mean of the squared distances between the crosses and where they should be, in square millimetres. */
double drawing_error(const struct drawing *drawing);

/* The fit's coordinates of a machine: every parameter as the millimetres by which it moves a cross at the edge of the grid. One step of differences
 * and one tolerance then suit all of them. */
void machine_to_point(const struct machine *machine, double point[PARAMETERS]);
struct machine machine_from_point(const double point[PARAMETERS]);

/* A machine without errors, and the mechanical limits. */
struct machine machine_nominal(void);
struct machine machine_lowest(void);
struct machine machine_highest(void);

#endif
