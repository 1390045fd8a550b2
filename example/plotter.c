#include "plotter.h"

/* The mechanical limits: how far each parameter can be from that of a machine without errors. */
static const struct machine LIMIT = {.scale_x = 0.01, .scale_y = 0.01, .skew = 0.01, .pen_x = 3, .pen_y = 3};

/* splitmix64: the same numbers on every machine. */
static uint64_t next_random(uint64_t *state)
{
    uint64_t z = *state += 0x9E3779B97F4A7C15;
    z = (z ^ z >> 30) * 0xBF58476D1CE4E5B9;
    z = (z ^ z >> 27) * 0x94D049BB133111EB;
    return z ^ z >> 31;
}

/* From 0 up to 1, by the top 53 bits. */
static double uniform(uint64_t *state)
{
    return (double)(next_random(state) >> 11) * 0x1p-53;
}

/* Nearly normal with standard deviation 1: twelve uniform numbers have a variance of 1 in all. No library function is needed for it. */
static double normal(uint64_t *state)
{
    double sum = -6;
    for (int i = 0; i < 12; i++)
        sum += uniform(state);
    return sum;
}

/* An error between 25 and 85 percent of the limit, of either sign: never too small to be seen, never at the limit. */
static double error_within(uint64_t *state, double limit)
{
    double size = limit * (0.25 + 0.6 * uniform(state));
    return uniform(state) < 0.5 ? -size : size;
}

struct machine machine_nominal(void)
{
    return (struct machine){.scale_x = 1, .scale_y = 1, .skew = 0, .pen_x = 0, .pen_y = 0};
}

struct machine machine_lowest(void)
{
    return (struct machine){1 - LIMIT.scale_x, 1 - LIMIT.scale_y, -LIMIT.skew, -LIMIT.pen_x, -LIMIT.pen_y};
}

struct machine machine_highest(void)
{
    return (struct machine){1 + LIMIT.scale_x, 1 + LIMIT.scale_y, LIMIT.skew, LIMIT.pen_x, LIMIT.pen_y};
}

void plotter_make(struct plotter *plotter, uint64_t seed)
{
    uint64_t *random = &plotter->random;
    *random = seed;
    plotter->truth = machine_nominal();
    plotter->truth.scale_x += error_within(random, LIMIT.scale_x);
    plotter->truth.scale_y += error_within(random, LIMIT.scale_y);
    plotter->truth.skew += error_within(random, LIMIT.skew);
    plotter->truth.pen_x += error_within(random, LIMIT.pen_x);
    plotter->truth.pen_y += error_within(random, LIMIT.pen_y);
}

/* Where the pen of a machine draws when it is sent to a place. */
static struct spot drawn_at(const struct machine *machine, struct spot sent)
{
    struct spot drawn;
    drawn.x = machine->scale_x * sent.x + machine->skew * sent.y + machine->pen_x;
    drawn.y = machine->scale_y * sent.y + machine->pen_y;
    return drawn;
}

/* The correction: where to send the machine, were it the one believed, for the pen to draw at a place. The inverse of drawn_at. */
static struct spot sent_for(const struct machine *believed, struct spot wanted)
{
    struct spot sent;
    sent.y = (wanted.y - believed->pen_y) / believed->scale_y;
    sent.x = (wanted.x - believed->pen_x - believed->skew * sent.y) / believed->scale_x;
    return sent;
}

void drawing_wanted(struct drawing *drawing)
{
    for (int i = 0; i < CROSSES; i++) {
        drawing->crosses[i].x = HALF_WIDTH * (2.0 * (i % COLUMNS) / (COLUMNS - 1) - 1);
        drawing->crosses[i].y = HALF_HEIGHT * (2.0 * (i / COLUMNS) / (ROWS - 1) - 1);
    }
}

void plotter_draw(const struct plotter *plotter, const struct machine *believed, struct drawing *drawing)
{
    drawing_wanted(drawing);
    for (int i = 0; i < CROSSES; i++)
        drawing->crosses[i] = drawn_at(&plotter->truth, sent_for(believed, drawing->crosses[i]));
}

void plotter_scan(struct plotter *plotter, struct drawing *drawing)
{
    for (int i = 0; i < CROSSES; i++) {
        drawing->crosses[i].x += SCAN_NOISE * normal(&plotter->random);
        drawing->crosses[i].y += SCAN_NOISE * normal(&plotter->random);
    }
}

double drawing_error(const struct drawing *drawing)
{
    struct drawing wanted;
    double sum = 0;
    drawing_wanted(&wanted);
    for (int i = 0; i < CROSSES; i++) {
        double dx = drawing->crosses[i].x - wanted.crosses[i].x;
        double dy = drawing->crosses[i].y - wanted.crosses[i].y;
        sum += dx * dx + dy * dy;
    }
    return sum / CROSSES;
}

void machine_to_point(const struct machine *machine, double point[PARAMETERS])
{
    point[0] = (machine->scale_x - 1) * HALF_WIDTH;
    point[1] = (machine->scale_y - 1) * HALF_HEIGHT;
    point[2] = machine->skew * HALF_HEIGHT;
    point[3] = machine->pen_x;
    point[4] = machine->pen_y;
}

struct machine machine_from_point(const double point[PARAMETERS])
{
    return (struct machine){
        .scale_x = 1 + point[0] / HALF_WIDTH,
        .scale_y = 1 + point[1] / HALF_HEIGHT,
        .skew = point[2] / HALF_HEIGHT,
        .pen_x = point[3],
        .pen_y = point[4],
    };
}
