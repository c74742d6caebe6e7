/* Strumblay: the retired list, for C on x86-64. Link crates/capi/out/libcapi.a (`rt lib` in crates/capi).
 *
 * A filter is a lent buffer and a record that travels by value. No call allocates, keeps
 * a pointer, or reads or writes outside the bytes lent to it, whatever they and the numbers hold;
 * a buffer that a call writes must not overlap another one lent to it.
 *
 * Every answer but select's begins with a number: 0, or why the call was refused. A refused call
 * has changed nothing, its other values are 0, its record is the one given (of a fresh filter, the
 * widths and the family asked for and len 0; of a merge, the first's), and the place of a refused
 * step is the one given. One exception: a quick remove on a buffer that is not sound may have altered
 * blocks, and then refuse.
 *
 *    1  qbits outside 6 to 59, rbits 0, or their sum above 64
 *    2  the buffer's length is not that of the widths
 *    3  len above the slots
 *    4  max_qbits below qbits, above 59, or above qbits + rbits - 1
 *    5  len above capacity
 *    6  the buffer is not sound
 *    7  no room
 *    8  the other filter's fingerprints are narrower
 *    9  planned widths above 64 bits
 *   10  planned capacity above 547637714688252314
 *   11  planned maximum below the initial capacity
 *   12  the destination has the wrong length
 *   19  the two filters are of two families
 *
 * The capacity is 19/20 of the slots, rounded up; no call that writes makes a fuller filter.
 *
 * First comes the lowest of 1 to 6, then 19, 8, 7, 12; planning gives 11, 10, 9. A call checks 1 to 6
 * before it works. One that ends in `_quick`, and a step of a listing, asks 1 to 5: on a buffer that
 * is not sound it ends and stays inside, but its answer may be anything, 6 included, and a quick
 * writer may alter the blocks; the last eight bytes stay, and of the record only len is open, which
 * is at most capacity. A quick insert with max_count 0 leaves nothing open: it answers 0 and changes
 * nothing. */
#ifndef STRUMBLAY_H
#define STRUMBLAY_H

#include <stddef.h>
#include <stdint.h>

#ifdef __cplusplus
extern "C" {
#endif

/* The sizes of a filter: how many fingerprints it holds, the widths of quotient and remainder, and
 * the largest qbits it may grow to, 0 for none. Of a hash only the low qbits + rbits bits count; they
 * are its fingerprint. (The buffer's length goes with the buffer.) */
typedef struct {
    uint64_t len;
    uint8_t qbits;
    uint8_t rbits;
    uint8_t max_qbits;
} strumblay_sizes;

/* The record of a filter: its sizes, and the family, a number of yours that says which hash made the
 * fingerprints. A fresh filter takes it, every record given back has the one that was given, and
 * filters of two families are not merged. No other call asks for it, and the bytes of a sound filter
 * don't depend on it; so calls that only read take the sizes alone, and no check notices a family
 * that is wrong. */
typedef struct {
    strumblay_sizes sizes;
    uint64_t family;
} strumblay_numbers;

/* A value. */
typedef struct {
    uint64_t number;
    uint64_t value;
} strumblay_outcome;

/* What a writer answers, and the record from now on. */
typedef struct {
    uint64_t number;
    uint64_t answer;
    strumblay_numbers numbers;
} strumblay_changed;

/* Planning: nothing is read or written. */

/* The position of the n-th one of x, counted from 0, or 64 if there is none. */
uint64_t strumblay_select(uint64_t x, uint64_t n);

/* The smallest power of two of slots, 64 or more, whose capacity suffices. Refuses 10. */
strumblay_outcome strumblay_slots_for(uint64_t capacity);

typedef struct {
    uint64_t number;
    uint64_t max_capacity;
    double max_error_ratio;
    double bits_per_item;
    uint64_t memory_bytes_min;
    uint64_t memory_bytes_max;
    uint64_t fingerprint_bits;
} strumblay_specs;

/* What a filter for a capacity and a rate of false positives takes. Refuses 10, 9. */
strumblay_specs strumblay_filter_specs(uint64_t capacity, double rate);

typedef struct {
    uint64_t number;
    uint8_t qbits;
    uint8_t rbits;
    uint8_t max_qbits;
} strumblay_planned;

/* The widths of a filter that may grow from one capacity to another. Refuses 11, 10, 9. */
strumblay_planned strumblay_plan(uint64_t initial, uint64_t max, double rate);

/* The bytes of a buffer of these widths. Refuses 1. */
strumblay_outcome strumblay_buffer_len(uint8_t qbits, uint8_t rbits);

/* Makes the buffer an empty filter of these widths and this family; answers 0. Refuses 1, 4, 12. */
strumblay_changed strumblay_fresh(uint8_t qbits, uint8_t rbits, uint8_t max_qbits, uint64_t family,
                                  uint8_t *buf, size_t buf_len);

/* Check, lookup and count. */

/* 0 if the filter is sound, else the lowest of 1 to 6 that is due. */
uint64_t strumblay_check(const uint8_t *buf, size_t buf_len, strumblay_sizes n);

/* Whether it is held (1 or 0), and the remainders compared to find out. */
typedef struct {
    uint64_t number;
    uint64_t held;
    uint64_t compared;
} strumblay_looked;

strumblay_looked strumblay_contains(const uint8_t *buf, size_t buf_len, strumblay_sizes n,
                                    uint64_t hash);
strumblay_looked strumblay_contains_quick(const uint8_t *buf, size_t buf_len, strumblay_sizes n,
                                          uint64_t hash);

/* How often it is held. */
strumblay_outcome strumblay_count(const uint8_t *buf, size_t buf_len, strumblay_sizes n,
                                  uint64_t hash);
strumblay_outcome strumblay_count_quick(const uint8_t *buf, size_t buf_len, strumblay_sizes n,
                                        uint64_t hash);

/* Listing: ascending fingerprints, each as often as held. */

/* How far a listing is: quotient and slot of the fingerprint to come, and how many are to come; three zeros at the end. */
typedef struct {
    uint64_t quotient;
    uint64_t slot;
    uint64_t remaining;
} strumblay_place;

typedef struct {
    uint64_t number;
    strumblay_place place;
} strumblay_first;

/* Where the listing begins. Refuses 1 to 6. */
strumblay_first strumblay_list_begin(const uint8_t *buf, size_t buf_len, strumblay_sizes n);

/* Whether there was a fingerprint (1 or 0: done), it, and the place after it. A refused step
 * gives back the place it was given. */
typedef struct {
    uint64_t number;
    uint64_t found;
    uint64_t fingerprint;
    strumblay_place place;
} strumblay_next;

/* One step. Refuses 1 to 5. At a place that is not the listing's own, or after the buffer changed,
 * it ends and stays inside, but gives anything. */
strumblay_next strumblay_list_step(const uint8_t *buf, size_t buf_len, strumblay_sizes n,
                                   strumblay_place place);

/* Insert and remove. */

/* One copy more if fewer than max_count are held. Answers the smaller of the two, the copies held
 * before and max_count. Refuses 7 where a copy is due and the filter is at its capacity. With
 * max_count 0 no copy is ever due: it answers 0, whatever is held, and changes nothing. A quick
 * insert that is refused, or has max_count 0, has changed nothing on any buffer. */
strumblay_changed strumblay_insert(uint8_t *buf, size_t buf_len, strumblay_numbers n,
                                   uint64_t hash, uint64_t max_count);
strumblay_changed strumblay_insert_quick(uint8_t *buf, size_t buf_len, strumblay_numbers n,
                                         uint64_t hash, uint64_t max_count);

/* One copy fewer: answers 1, or 0 if none is held. On a buffer that is not sound a quick remove may
 * refuse 6, and may have altered blocks by then. */
strumblay_changed strumblay_remove(uint8_t *buf, size_t buf_len, strumblay_numbers n,
                                   uint64_t hash);
strumblay_changed strumblay_remove_quick(uint8_t *buf, size_t buf_len, strumblay_numbers n,
                                         uint64_t hash);

/* Growth and merge, into a destination; a further 12 if its length is not the result's. */

/* The same holding at qbits + 1 and rbits - 1; answers 0. Refuses 7 where max_qbits is none or
 * not above qbits. */
strumblay_changed strumblay_grow(const uint8_t *buf, size_t buf_len, strumblay_numbers n,
                                 uint8_t *dest, size_t dest_len);

/* Both holdings together; answers 0. The result keeps the first's qbits + rbits and max_qbits, and
 * the family, which is the other's too.
 *
 * Fingerprints of equal width: with keep_duplicates copies add up, with 0 each is held once, so the
 * first's own repeats go too. qbits is the smallest, from the first's on, that has room: it may grow,
 * up to max_qbits.
 *
 * The other's wider: they are cut to the first's width. With keep_duplicates all are added, with 0
 * only absent ones, once each, and the first's repeats stay. qbits stays.
 *
 * Refuses the other's 1 to 6 after its own, then 19 if the families differ, then 8, then 7 where
 * there is no room. */
strumblay_changed strumblay_merge(const uint8_t *buf, size_t buf_len, strumblay_numbers n,
                                  const uint8_t *other, size_t other_len,
                                  strumblay_numbers other_n, uint64_t keep_duplicates,
                                  uint8_t *dest, size_t dest_len);

/* As strumblay_changed, and whether the spare holds the filter from now on (1 or 0). */
typedef struct {
    uint64_t number;
    uint64_t answer;
    uint64_t in_spare;
    strumblay_numbers numbers;
} strumblay_spare_answer;

/* Insert that, where it would refuse 7, grows into the spare and inserts there; the old buffer is
 * then as it was. Refuses 7 where it may not grow, then 12 where the spare's length is not that of
 * qbits + 1; a spare that is not needed is not looked at, so with max_count 0 it never is. On a
 * buffer that is not sound the quick form leaves the spare as it was. */
strumblay_spare_answer strumblay_insert_spare(uint8_t *buf, size_t buf_len, strumblay_numbers n,
                                              uint64_t hash, uint64_t max_count,
                                              uint8_t *spare, size_t spare_len);
strumblay_spare_answer strumblay_insert_spare_quick(uint8_t *buf, size_t buf_len,
                                                    strumblay_numbers n, uint64_t hash,
                                                    uint64_t max_count, uint8_t *spare,
                                                    size_t spare_len);

#ifdef __cplusplus
}
#endif

#endif
