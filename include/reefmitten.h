/* Reefmitten: is the record of an execution a valid execution of x86-CC, and if not, which rule is broken first, and by what evidence?

   Every function is proved to meet its contract, for every byte string and every lent buffer: it returns, and reads and writes nothing
   but what it is lent. What the numbers mean is in docs/RULES.md and in the specification that it cites.

   Of the caller, C asks what it asks of any pointer and length: the pointer is not null (also for a length of 0; any non-null pointer
   will do) and is aligned for its type; so many entries stand there; and what a function writes to overlaps nothing else that it is
   lent. Nothing else is asked. No function keeps a pointer, allocates, or holds state; calls from several threads do not touch.

   A function returns the answer: 0, or the number of the first rule that is broken. */
#ifndef REEFMITTEN_H
#define REEFMITTEN_H

#include <stddef.h>
#include <stdint.h>

#ifdef __cplusplus
extern "C" {
#endif

/* Entries that an evidence buffer needs. */
#define REEFMITTEN_EVIDENCE 65
/* Bytes that the buffer of a read-off needs: the length of the longest record. */
#define REEFMITTEN_RECORD 2346
/* Words that an order table needs at most: one for each event. */
#define REEFMITTEN_EVENTS 64

/* The check: 1, 2 to 5, 10 to 14, 20 to 27, or 0. The evidence stands in the first *written entries; all others are untouched. Where
   evidence_len is below REEFMITTEN_EVIDENCE the answer is 1, and nothing is written into the buffer. */
uint16_t reefmitten_check(const uint8_t *record, size_t record_len, uint16_t *evidence, size_t evidence_len, size_t *written);

/* The replay of the record's events in the order of the list: 1, 2 to 5, 10 to 14, 28 to 33, or 0. Evidence as for the check. */
uint16_t reefmitten_replay(const uint8_t *record, size_t record_len, const uint16_t *list, size_t list_len, uint16_t *evidence,
                           size_t evidence_len, size_t *written);

/* The read-off: the record whose witness follows the list. 1, 2 to 5, 10 to 14, 28 to 31, or 0. On 0 the record stands in the first
   *written bytes and all others are untouched; on a refusal *written is 0 and no byte is touched. Where out_len is below
   REEFMITTEN_RECORD the answer is 1. */
uint16_t reefmitten_read_off(const uint8_t *record, size_t record_len, const uint16_t *list, size_t list_len, uint8_t *out,
                             size_t out_len, size_t *written);

/* The order table: 2 to 5, 1 where table_len is below the number of events, 10 to 14, 20 to 23, or 0. On 0 word e has bit k set exactly
   if event e happens directly before event k, for each event e; words past the events, and all words on a refusal, are untouched. */
uint16_t reefmitten_order_table(const uint8_t *record, size_t record_len, uint64_t *table, size_t table_len);

/* The view question: 2 to 5, 4 for a processor that the record does not have, or 0. On 0 the event numbers of the processor's view are
   the *length bytes of the record from *start on; on a refusal both are 0. */
uint16_t reefmitten_view(const uint8_t *record, size_t record_len, uint8_t processor, size_t *start, size_t *length);

/* Opens a reader: 2 to 5, or 0. *bytes is how many bytes of the record a reader goes over: record_len on 0, and 0 on a refusal. */
uint16_t reefmitten_open(const uint8_t *record, size_t record_len, size_t *bytes);

/* The first entry of sections 2 to 9 that stands at `at` or behind: returns its section, and where it stands and how many bytes it has;
   or 0, 0 and 0 where there is none. A view with its count is one entry. Called with the record and with the *bytes that
   reefmitten_open gave, beginning with `at` 0 and going on at *start + *length, it gives each entry once, in order. */
uint16_t reefmitten_next(const uint8_t *record, size_t bytes, size_t at, size_t *start, size_t *length);

#ifdef __cplusplus
}
#endif

#endif
