/* A bounded fit (L-BFGS-B) as one function: a record's bytes in, the next question out.
 *
 * The function keeps nothing between calls. The caller keeps the record: the setup, and one entry for each reply
 * given so far. A call replays the record and answers what is asked next; the caller adds the reply's entry, seals
 * the record again and calls again, until the fit has ended. docs/RECORD.md has every word of the record;
 * example/record.c builds one.
 *
 *   returns   asked                      reply: one entry added to the record
 *   1         the value at a point       1 and the value; 6 failure
 *   2         the gradient at a point    2 and n components; 6 failure; 3 not supplied, and the values that
 *                                        differences need are then asked
 *   3         iteration notice           4 go on; 5 stop; 6 failure
 *   0         nothing: ended             none; any further entry is refused by 117
 *   100 + r   nothing: refusal r         none; the record is at fault, or `out` is too short
 *
 * Written to `out`, as n doubles of 8 bytes each, lowest byte first, in the front of it:
 *   on 1, 2   the point at which the value or the gradient is asked
 *   on 3      the point that the iteration has moved to
 *   on 0      the point held: the start, or where the last iteration moved to; nothing if the fit ended by a
 *             failure reply (entry 6)
 *   else      nothing
 * Whatever is returned, no other byte of `out` changes. An `out` of 512 bytes is enough for every record.
 *
 * The return value 0 does not say how the fit ended; the report program does, for the same record.
 *
 * Refusals, in the order in which they are checked; 105 and 106 are checked together, coordinate by coordinate.
 * The numbers 103, 107 and 111 to 116 belong to other operations and are never returned.
 *
 *   117   more than 65,536 bytes; fewer than 32; a version other than 1; a length word (L) above what is there
 *   118   a sum in the trailer is not that of the words
 *   117   a setup that is cut; a spare bit of word 0 set
 *   101   no coordinates (n is 0)
 *   102   a start coordinate that is not finite
 *   104   a bound that is NaN
 *   105   a lower bound above its upper bound
 *   106   a lower bound of +infinity or an upper bound of -infinity
 *   108   tol not finite and positive
 *   109   ftol or gtol not finite and at least 0
 *   108   eps not finite and positive
 *   110   n over 64, maxcor over 16, maxiter or maxfev over 1,000,000
 *   117   an entry that is unknown, is cut, or does not suit the question open before it
 *   119   `out_len` is below 8n where a point is to be written
 *
 * What the caller owes: `record` is readable for `record_len` bytes and `out` writable for `out_len`, neither is
 * NULL, they do not overlap, and nothing else writes them during the call. They need no alignment. The
 * floating-point environment is the default one: round to nearest, and no flushing of subnormals to zero (a
 * program linked by gcc -ffast-math starts with such flushing on).
 *
 * Threads: there is no global state, no allocation and no lock. Calls may run at the same time on any threads,
 * also on the same record, as long as each has its own `out`.
 *
 * Stack: 132,536 bytes were the most that a call used (x86-64, glibc), in 9,362 calls each on a thread whose stack
 * had been filled with a pattern: two fits of 64 coordinates and 16 pairs with records that grew to 65,152 and
 * 65,536 bytes, and 5,000 generated records. No call is recursive and no frame depends on the input. A thread with
 * 256 KiB of stack is ample. `oracle/stack` measures it again.
 *
 * Time: a call replays every entry, so a fit of k replies costs on the order of k * k steps in all.
 *
 * `tools/build entry` proves and builds the archive, target/staticlib/libentry.a. Link it with a C library for
 * memcpy, memmove and memset; nothing else is needed. x86-64, with the instructions of x86-64-v2. */
#ifndef LBFGSB_H
#define LBFGSB_H

#include <stddef.h>
#include <stdint.h>

#ifdef __cplusplus
extern "C" {
#endif

uint64_t lbfgsb_entry(const uint8_t *record, size_t record_len, uint8_t *out, size_t out_len);

#ifdef __cplusplus
}
#endif

#endif
