/* The record that a caller of lbfgsb_entry keeps: setup, one entry a reply, trailer (docs/RECORD.md). */
#ifndef RECORD_H
#define RECORD_H

#include <stdbool.h>
#include <stddef.h>
#include <stdint.h>

/* The entry refuses longer inputs and more coordinates. */
enum { RECORD_MOST_BYTES = 65536, RECORD_MOST_COORDINATES = 64 };

/* Replies that are a kind alone. A value and a gradient have functions of their own. */
enum reply { REPLY_NOT_SUPPLIED = 3, REPLY_GO_ON = 4, REPLY_STOP = 5, REPLY_FAILURE = 6 };

/* What a fit starts from. A count of 0 and a tolerance or eps that is NaN are absent: the engine's default applies. */
struct setup {
    size_t n;
    unsigned maxcor;
    bool central;
    uint64_t maxiter;
    uint64_t maxfev;
    double tol;
    double ftol;
    double gtol;
    double eps;
    const double *start;
    const double *lower; /* both NULL: no box */
    const double *upper;
};

struct record {
    size_t n;
    size_t words; /* of setup and entries; the trailer stands past them */
    uint8_t bytes[RECORD_MOST_BYTES];
};

/* record_begin is false where n or maxcor is over 255, the others where there is no room for the words and a trailer. The record is then as it was. */
bool record_begin(struct record *record, const struct setup *setup);
bool record_add_value(struct record *record, double value);
bool record_add_gradient(struct record *record, const double *gradient);
bool record_add(struct record *record, enum reply reply);

/* Writes the trailer behind the last entry and gives the length in bytes. The next entry overwrites the trailer. */
size_t record_seal(struct record *record);

/* Coordinate i of a point that the entry wrote. */
double record_coordinate(const uint8_t *out, size_t i);

#endif
