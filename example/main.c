/* Calibrates a simulated pen plotter through the C entry. Every value of the objective is a sheet that is drawn and scanned.
 *
 *     plotter [SEED [FOLDER]]
 *
 * The picture and the record of the fit are written to the folder; the report program reads that record and says how the fit ended. */
#include "../include/lbfgsb.h"
#include "plotter.h"
#include "record.h"
#include "svg.h"

#include <errno.h>
#include <inttypes.h>
#include <math.h>
#include <stdio.h>
#include <stdlib.h>
#include <string.h>

/* What the entry returns, besides refusals. */
enum answer { ANSWER_ENDED = 0, ANSWER_VALUE = 1, ANSWER_GRADIENT = 2, ANSWER_NOTICE = 3, ANSWER_REFUSED = 100 };

enum { MOST_DRAWINGS = 300 };

/* The step of the differences, in millimetres at the edge. It is far above the scan noise, and the error is nearly a parabola in each parameter, for
 * which central differences are exact at any step. It is shorter than the way from the machine's errors to the limits: where a limit cuts one of
 * the two steps short, the difference is off by the parabola's bend, and the fit ends later and farther from the truth. */
static const double DIFFERENCE_STEP = 0.3;

/* Slopes below this, in square millimetres a millimetre, leave a parameter within some hundredths of a millimetre at the edge. The noise of a
 * slope is about a fifth of it. */
static const double SLOPE_TOLERANCE = 0.02;

/* An iteration that gains less, in square millimetres, gains no more than two sheets of the same machine differ by. */
static const double GAIN_TOLERANCE = 0.0002;

struct scan {
    double point[PARAMETERS];
    double error; /* root mean square, millimetres */
    bool probe;   /* drawn only to find a slope */
};

struct calibration {
    struct plotter plotter;
    struct record record;
    struct scan scans[MOST_DRAWINGS];
    size_t drawn;
    size_t iterations;
    double point[PARAMETERS];     /* the one that the entry wrote last */
    double slopes_at[PARAMETERS]; /* the one at which slopes were asked last */
};

static const char *refusal_meaning(uint64_t answer)
{
    switch (answer) {
    case ANSWER_REFUSED + 1: return "no coordinates";
    case ANSWER_REFUSED + 2: return "a start coordinate is not finite";
    case ANSWER_REFUSED + 4: return "a bound is NaN";
    case ANSWER_REFUSED + 5: return "a lower bound is above its upper bound";
    case ANSWER_REFUSED + 6: return "a lower bound is +infinity or an upper bound -infinity";
    case ANSWER_REFUSED + 8: return "tol or eps is not finite and positive";
    case ANSWER_REFUSED + 9: return "ftol or gtol is not finite and at least 0";
    case ANSWER_REFUSED + 10: return "too many coordinates or pairs, or too large a budget";
    case ANSWER_REFUSED + 17: return "the record is malformed, too long, or has an entry that was not due";
    case ANSWER_REFUSED + 18: return "the record's sums do not hold";
    case ANSWER_REFUSED + 19: return "the output is too short for the point";
    default: return "a number that the entry does not return";
    }
}

/* Seals the record and calls the entry. No reply of this program is a failure, so that every answer but a refusal comes with a point. */
static uint64_t ask(struct record *record, double point[PARAMETERS])
{
    uint8_t out[8 * PARAMETERS];
    size_t length = record_seal(record);
    uint64_t answer = lbfgsb_entry(record->bytes, length, out, sizeof out);
    if (answer <= ANSWER_NOTICE)
        for (size_t i = 0; i < PARAMETERS; i++)
            point[i] = record_coordinate(out, i);
    return answer;
}

static bool begin(struct calibration *calibration, uint64_t seed)
{
    double start[PARAMETERS], lower[PARAMETERS], upper[PARAMETERS];
    struct machine nominal = machine_nominal(), lowest = machine_lowest(), highest = machine_highest();
    machine_to_point(&nominal, start);
    machine_to_point(&lowest, lower);
    machine_to_point(&highest, upper);
    struct setup setup = {
        .n = PARAMETERS,
        .central = true,
        .maxfev = MOST_DRAWINGS,
        .tol = NAN,
        .ftol = GAIN_TOLERANCE,
        .gtol = SLOPE_TOLERANCE,
        .eps = DIFFERENCE_STEP,
        .start = start,
        .lower = lower,
        .upper = upper,
    };
    memset(calibration, 0, sizeof *calibration);
    plotter_make(&calibration->plotter, seed);
    return record_begin(&calibration->record, &setup);
}

static void print_scan(size_t number, const struct scan *scan)
{
    struct machine tried = machine_from_point(scan->point);
    printf("sheet %3zu   scale %.5f %.5f   skew %+.5f   pen %+.3f %+.3f mm   error %.4f mm\n", number, tried.scale_x, tried.scale_y, tried.skew,
           tried.pen_x, tried.pen_y, scan->error);
}

/* Whether one parameter alone differs from the point at which slopes were asked last: for the picture only. */
static bool is_probe(const struct calibration *calibration)
{
    int differing = 0;
    for (size_t i = 0; i < PARAMETERS; i++)
        differing += calibration->point[i] != calibration->slopes_at[i];
    return calibration->drawn > 0 && differing == 1;
}

/* Draws and scans a sheet with the correction under test; its mean square error is the value asked. */
static bool reply_value(struct calibration *calibration)
{
    if (calibration->drawn == MOST_DRAWINGS)
        return false;
    struct machine tried = machine_from_point(calibration->point);
    struct drawing drawing;
    plotter_draw(&calibration->plotter, &tried, &drawing);
    plotter_scan(&calibration->plotter, &drawing);
    double value = drawing_error(&drawing);

    struct scan *scan = &calibration->scans[calibration->drawn];
    scan->probe = is_probe(calibration);
    calibration->drawn++;
    memcpy(scan->point, calibration->point, sizeof scan->point);
    scan->error = sqrt(value);
    print_scan(calibration->drawn, scan);
    return record_add_value(&calibration->record, value);
}

/* A scan gives no slopes: the engine is left to find them by values on both sides. */
static bool reply_gradient(struct calibration *calibration)
{
    memcpy(calibration->slopes_at, calibration->point, sizeof calibration->slopes_at);
    printf("  slopes asked: none from a scan, so each parameter is moved a little to both sides\n");
    return record_add(&calibration->record, REPLY_NOT_SUPPLIED);
}

/* The last scan of a drawing made at the point; NULL if there is none. */
static const struct scan *scan_at(const struct calibration *calibration)
{
    for (size_t i = calibration->drawn; i > 0; i--)
        if (memcmp(calibration->scans[i - 1].point, calibration->point, sizeof calibration->point) == 0)
            return &calibration->scans[i - 1];
    return NULL;
}

static bool reply_notice(struct calibration *calibration)
{
    const struct scan *scan = scan_at(calibration);
    calibration->iterations++;
    printf("iteration %zu done after %zu sheets", calibration->iterations, calibration->drawn);
    if (scan)
        printf(", error %.4f mm", scan->error);
    printf("\n");
    return record_add(&calibration->record, REPLY_GO_ON);
}

/* Replies to one question; false where there is no room for the reply. */
static bool reply(struct calibration *calibration, uint64_t question)
{
    if (question == ANSWER_VALUE)
        return reply_value(calibration);
    if (question == ANSWER_GRADIENT)
        return reply_gradient(calibration);
    return reply_notice(calibration);
}

/* Asks and replies until the fit has ended; its point is then the fitted one. */
static bool calibrate(struct calibration *calibration)
{
    for (;;) {
        uint64_t answer = ask(&calibration->record, calibration->point);
        if (answer == ANSWER_ENDED)
            return true;
        if (answer > ANSWER_NOTICE) {
            fprintf(stderr, "the entry returned %" PRIu64 ": %s\n", answer, refusal_meaning(answer));
            return false;
        }
        if (!reply(calibration, answer)) {
            fprintf(stderr, "no room for another reply\n");
            return false;
        }
    }
}

static void print_row(const char *name, double truth, double fitted, double off, double lowest, double highest)
{
    printf("%-8s   %10.6f   %10.6f   %+8.4f mm   %6.2f to %5.2f\n", name, truth, fitted, off, lowest, highest);
}

/* The last column but one is the millimetres by which a cross at the edge of the grid is off for that parameter's sake. */
static void print_table(const struct machine *truth, const struct machine *fitted)
{
    struct machine lowest = machine_lowest(), highest = machine_highest();
    double t[PARAMETERS], f[PARAMETERS];
    machine_to_point(truth, t);
    machine_to_point(fitted, f);
    printf("\n                 true       fitted   off at edge   limits\n");
    print_row("scale x", truth->scale_x, fitted->scale_x, f[0] - t[0], lowest.scale_x, highest.scale_x);
    print_row("scale y", truth->scale_y, fitted->scale_y, f[1] - t[1], lowest.scale_y, highest.scale_y);
    print_row("skew", truth->skew, fitted->skew, f[2] - t[2], lowest.skew, highest.skew);
    print_row("pen x", truth->pen_x, fitted->pen_x, f[3] - t[3], lowest.pen_x, highest.pen_x);
    print_row("pen y", truth->pen_y, fitted->pen_y, f[4] - t[4], lowest.pen_y, highest.pen_y);
}

static void print_results(const struct calibration *calibration, const struct picture *picture)
{
    struct machine fitted = machine_from_point(calibration->point);
    struct drawing exact;
    plotter_draw(&calibration->plotter, &fitted, &exact);
    print_table(&calibration->plotter.truth, &fitted);
    printf("\nerror of the crosses: %.4f mm before, %.4f mm after (%.4f mm without the scanner's noise)\n", picture->error_before,
           picture->error_after, sqrt(drawing_error(&exact)));
    printf("drawn: %zu sheets in %zu iterations\n", calibration->drawn, calibration->iterations);
}

/* A sheet besides those of the fit. Gives the error as scanned. */
static double draw_extra(struct calibration *calibration, const struct machine *believed, struct drawing *drawing)
{
    plotter_draw(&calibration->plotter, believed, drawing);
    plotter_scan(&calibration->plotter, drawing);
    return sqrt(drawing_error(drawing));
}

/* The record of the fit, for the report program or to go on from. */
static bool write_record(struct calibration *calibration, const char *path)
{
    size_t length = record_seal(&calibration->record);
    FILE *file = fopen(path, "wb");
    if (!file)
        return false;
    bool written = fwrite(calibration->record.bytes, 1, length, file) == length;
    return fclose(file) == 0 && written;
}

/* Prints the results and writes the picture, with two sheets more: one with no correction, one with the fitted. */
static bool show(struct calibration *calibration, const char *path)
{
    struct machine nominal = machine_nominal(), fitted = machine_from_point(calibration->point);
    struct drawing before, after;
    double errors[MOST_DRAWINGS];
    bool probes[MOST_DRAWINGS];
    for (size_t i = 0; i < calibration->drawn; i++) {
        errors[i] = calibration->scans[i].error;
        probes[i] = calibration->scans[i].probe;
    }
    struct picture picture = {
        .before = &before,
        .after = &after,
        .noise = sqrt(2) * SCAN_NOISE,
        .errors = errors,
        .probes = probes,
        .drawings = calibration->drawn,
    };
    picture.error_before = draw_extra(calibration, &nominal, &before);
    picture.error_after = draw_extra(calibration, &fitted, &after);
    print_results(calibration, &picture);
    return svg_write(path, &picture);
}

/* Says which file was written, or why it was not. */
static bool wrote(bool written, const char *what, const char *path)
{
    if (written)
        printf("%s: %s\n", what, path);
    else
        fprintf(stderr, "%s cannot be written: %s\n", path, strerror(errno));
    return written;
}

static bool read_seed(const char *text, uint64_t *seed)
{
    char *end;
    errno = 0;
    *seed = strtoull(text, &end, 10);
    return errno == 0 && end != text && *end == '\0' && text[0] != '-';
}

int main(int argc, char **argv)
{
    static struct calibration calibration;
    char picture[4096], record[4096];
    uint64_t seed = 1;
    if (argc > 3 || (argc > 1 && !read_seed(argv[1], &seed))) {
        fprintf(stderr, "usage: %s [SEED [FOLDER]]\n", argv[0]);
        return 2;
    }
    const char *folder = argc > 2 ? argv[2] : ".";
    snprintf(picture, sizeof picture, "%s/plotter.svg", folder);
    snprintf(record, sizeof record, "%s/plotter.record", folder);
    if (!begin(&calibration, seed) || !calibrate(&calibration))
        return 1;
    bool shown = wrote(show(&calibration, picture), "picture", picture);
    return wrote(write_record(&calibration, record), "record", record) && shown ? 0 : 1;
}
