#include "record.h"

#include <math.h>
#include <string.h>

enum { TRAILER_WORDS = 4, VERSION = 1 };

enum { KIND_VALUE = 1, KIND_GRADIENT = 2 };

static const uint64_t ABSENT = 0x7FF8000000000000;

/* Byte by byte, so that the record is the same on every machine. */
static void put_word(uint8_t *bytes, uint64_t word)
{
    for (int i = 0; i < 8; i++)
        bytes[i] = (uint8_t)(word >> (8 * i));
}

static uint64_t get_word(const uint8_t *bytes)
{
    uint64_t word = 0;
    for (int i = 0; i < 8; i++)
        word |= (uint64_t)bytes[i] << (8 * i);
    return word;
}

static uint64_t bits_of(double value)
{
    uint64_t bits;
    memcpy(&bits, &value, sizeof bits);
    return bits;
}

/* NaN stands for "absent" in a setup, whatever its bits are here. */
static uint64_t option_bits(double value)
{
    return isnan(value) ? ABSENT : bits_of(value);
}

static void set_word(struct record *record, size_t index, uint64_t word)
{
    put_word(record->bytes + 8 * index, word);
}

static void push(struct record *record, uint64_t word)
{
    set_word(record, record->words, word);
    record->words++;
}

static void push_all(struct record *record, const double *values)
{
    for (size_t i = 0; i < record->n; i++)
        push(record, bits_of(values[i]));
}

static bool has_room(const struct record *record, size_t words)
{
    return 8 * (record->words + words + TRAILER_WORDS) <= RECORD_MOST_BYTES;
}

static uint64_t shape_word(const struct setup *setup)
{
    uint64_t flags = (setup->lower ? 1u : 0u) | (setup->central ? 2u : 0u);
    return setup->n | (uint64_t)setup->maxcor << 8 | flags << 16;
}

bool record_begin(struct record *record, const struct setup *setup)
{
    /* Each number has one byte in word 0. Smaller ones out of range are left to the entry to refuse. */
    if (setup->n > 255 || setup->maxcor > 255)
        return false;
    record->n = setup->n;
    record->words = 0;
    push(record, shape_word(setup));
    push(record, setup->maxiter);
    push(record, setup->maxfev);
    push(record, option_bits(setup->tol));
    push(record, option_bits(setup->ftol));
    push(record, option_bits(setup->gtol));
    push(record, option_bits(setup->eps));
    push_all(record, setup->start);
    if (setup->lower) {
        push_all(record, setup->lower);
        push_all(record, setup->upper);
    }
    return true;
}

bool record_add_value(struct record *record, double value)
{
    if (!has_room(record, 2))
        return false;
    push(record, KIND_VALUE);
    push(record, bits_of(value));
    return true;
}

bool record_add_gradient(struct record *record, const double *gradient)
{
    if (!has_room(record, 1 + record->n))
        return false;
    push(record, KIND_GRADIENT);
    push_all(record, gradient);
    return true;
}

bool record_add(struct record *record, enum reply reply)
{
    if (!has_room(record, 1))
        return false;
    push(record, (uint64_t)reply);
    return true;
}

size_t record_seal(struct record *record)
{
    uint64_t sum = 0, sum_of_sums = 0;
    for (size_t i = 0; i < record->words; i++) {
        sum += get_word(record->bytes + 8 * i);
        sum_of_sums += sum;
    }
    set_word(record, record->words, sum);
    set_word(record, record->words + 1, sum_of_sums);
    set_word(record, record->words + 2, VERSION);
    set_word(record, record->words + 3, record->words);
    return 8 * (record->words + TRAILER_WORDS);
}

double record_coordinate(const uint8_t *out, size_t i)
{
    uint64_t bits = get_word(out + 8 * i);
    double value;
    memcpy(&value, &bits, sizeof value);
    return value;
}
