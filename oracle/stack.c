/* The stack that one call of lbfgsb_entry uses: each call runs on a thread whose stack was filled with a pattern, and the lowest byte that changed
 * is looked for. Inputs: records in hexadecimal on standard input, one a line, and after each reply those of two large fits made here. */
#include "../include/lbfgsb.h"
#include "../example/record.h"

#include <math.h>
#include <pthread.h>
#include <stdio.h>
#include <stdlib.h>
#include <string.h>
#include <sys/mman.h>

enum { STACK_BYTES = 1 << 20, PATTERN = 0xA5, MOST_COORDINATES = RECORD_MOST_COORDINATES };

static uint8_t *stack;

struct call {
    const uint8_t *record;
    size_t length;
    uint8_t out[8 * MOST_COORDINATES];
    uint64_t returned;
    const uint8_t *frame;
};

static size_t calls, most, most_length;

static void fail(const char *what)
{
    fprintf(stderr, "stack: %s\n", what);
    exit(1);
}

static void *run_call(void *argument)
{
    struct call *call = argument;
    call->frame = __builtin_frame_address(0);
    call->returned = lbfgsb_entry(call->record, call->length, call->out, sizeof call->out);
    return NULL;
}

/* Runs the call on a freshly filled stack and notes how far below the caller's frame it reached. */
static void measure(struct call *call)
{
    pthread_attr_t attributes;
    pthread_t thread;
    memset(stack, PATTERN, STACK_BYTES);
    if (pthread_attr_init(&attributes) || pthread_attr_setstack(&attributes, stack, STACK_BYTES)
        || pthread_create(&thread, &attributes, run_call, call) || pthread_join(thread, NULL))
        fail("no thread");
    pthread_attr_destroy(&attributes);
    const uint8_t *lowest = stack;
    while (*lowest == PATTERN)
        lowest++;
    size_t used = (size_t)(call->frame - lowest);
    calls++;
    if (used > most) {
        most = used;
        most_length = call->length;
    }
}

static void measure_lines(void)
{
    static char line[2 * (RECORD_MOST_BYTES + 4096) + 2];
    static uint8_t bytes[RECORD_MOST_BYTES + 4096];
    while (fgets(line, sizeof line, stdin)) {
        struct call call = {.record = bytes};
        unsigned byte;
        while (sscanf(line + 2 * call.length, "%2x", &byte) == 1)
            bytes[call.length++] = (uint8_t)byte;
        measure(&call);
    }
}

/* A valley that takes many iterations: neighbours are bound to each other, more stiffly towards the end. */
static double valley(const double *x, double *gradient)
{
    double value = 0;
    for (size_t i = 0; i < MOST_COORDINATES; i++)
        gradient[i] = 0;
    for (size_t i = 0; i + 1 < MOST_COORDINATES; i++) {
        double bend = x[i + 1] - x[i] * x[i], rest = 1 - x[i], weight = 1.0 + (double)i;
        value += weight * bend * bend + rest * rest;
        gradient[i] += -4 * weight * bend * x[i] - 2 * rest;
        gradient[i + 1] += 2 * weight * bend;
    }
    return value;
}

/* The reply to one question; false where the fit has ended or the record is full. */
static bool reply(struct record *record, const struct call *call, bool supplied)
{
    double x[MOST_COORDINATES], gradient[MOST_COORDINATES];
    for (size_t i = 0; i < MOST_COORDINATES; i++)
        x[i] = record_coordinate(call->out, i);
    double value = valley(x, gradient);
    if (call->returned == 1)
        return record_add_value(record, value);
    if (call->returned == 2)
        return supplied ? record_add_gradient(record, gradient) : record_add(record, REPLY_NOT_SUPPLIED);
    if (call->returned == 3)
        return record_add(record, REPLY_GO_ON);
    return false;
}

/* 64 coordinates in a box, 16 pairs, until the record is full or the fit ends. */
static void measure_fit(bool supplied)
{
    static struct record record;
    double start[MOST_COORDINATES], lower[MOST_COORDINATES], upper[MOST_COORDINATES];
    for (size_t i = 0; i < MOST_COORDINATES; i++) {
        start[i] = i % 2 ? 0.5 : -1.2;
        lower[i] = -2;
        upper[i] = i % 5 ? 3 : 0.75;
    }
    struct setup setup = {.n = MOST_COORDINATES, .maxcor = 16, .central = true, .tol = NAN, .ftol = 0, .gtol = 0, .eps = NAN,
                          .start = start, .lower = lower, .upper = upper};
    if (!record_begin(&record, &setup))
        fail("no record");
    struct call call = {.record = record.bytes};
    do {
        call.length = record_seal(&record);
        measure(&call);
    } while (reply(&record, &call, supplied));
    printf("a fit of 64 coordinates and 16 pairs, gradients %s: %zu bytes of record, last answer %llu\n", supplied ? "supplied" : "by differences",
           call.length, (unsigned long long)call.returned);
}

int main(void)
{
    stack = mmap(NULL, STACK_BYTES, PROT_READ | PROT_WRITE, MAP_PRIVATE | MAP_ANONYMOUS | MAP_STACK, -1, 0);
    if (stack == MAP_FAILED)
        fail("no memory");
    measure_fit(true);
    measure_fit(false);
    measure_lines();
    printf("%zu calls, most stack used by one: %zu bytes (a record of %zu bytes)\n", calls, most, most_length);
    return 0;
}
