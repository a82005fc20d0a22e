/* The proved functions for programs in C, in the archive libboundary.a. Their contracts are in src/,
 * what the words mean in specs/.
 *
 * Any bytes and any numbers may be given; each call comes back with an answer. A lent place passes as
 * a pointer and how many places it has. What no proof can see is for the caller to keep:
 *   - a pointer is not null, and has the places that are said of it, also if these are 0;
 *   - places that a call may write (those that are not const) overlap neither with each other nor
 *     with the file, and nobody else reads or writes them during the call.
 *
 * Numbers from 10 on are refusals. A refused call changes nothing lent, and returns nothing more
 * but for the record of 15. Of several that hold, the lowest is given, but for wac_append. */
#ifndef AMURGOSA_BOUNDARY_H
#define AMURGOSA_BOUNDARY_H

#include <stddef.h>
#include <stdint.h>

#ifdef __cplusplus
extern "C" {
#endif

/* Numbers that are fixed. */
#define WAC_KEYS 16                       /* keys are 0 to 15 */
#define WAC_MOST 128                      /* certificates of a file, at most */
#define WAC_HEAD 6                        /* bytes before the first certificate */
#define WAC_RECORD 18                     /* bytes of a certificate */
#define WAC_FIELDS 12                     /* places lent for the fields of a certificate */
#define WAC_NOTHING 255                   /* in a byte that holds no identifier and no mark */
#define WAC_WITHOUT_END UINT32_C(4294967295)
#define DECISION_ENTRIES 2592             /* places lent for minutes, and as many for steps */
#define DECISION_CHAIN 200                /* places lent for the chain */
#define DECISION_NO_STEPS 201             /* steps: none, or more than 200 */

/* What a question that is not refused comes back with. */
#define DECISION_GRANTED 0                /* a shortest best chain has at most 200 steps */
#define DECISION_NO_CHAIN 1
#define DECISION_GRANTED_LONG 2           /* every best chain has more than 200 steps */

/* Why a call is refused. */
#define REFUSED_SHORT 10                  /* file under 6 bytes */
#define REFUSED_NOT_WAC 11                /* mark is not WAC */
#define REFUSED_VERSION 12                /* version is not 1 */
#define REFUSED_TOO_MANY 13               /* count above 128; appending to 128 */
#define REFUSED_LENGTH 14                 /* length is not 6 + 18 x count */
#define REFUSED_AGAINST 15                /* a record against the table: the lowest such record's number */
#define REFUSED_ROOM 16                   /* used length past the buffer, or under 18 bytes after it */
#define REFUSED_KEYS 20                   /* owner or asker above 15 */
#define REFUSED_RIGHTS 21                 /* rights 0 or above 15 */
#define REFUSED_MINUTE 22                 /* the minute asked about is 0 */
#define REFUSED_PLACES 23                 /* a lent place shorter than named above */
#define REFUSED_NO_SUCH 24                /* number not below the count */

/* An answer in 32 bits: number x 65,536 + value. The number is 0 if the call is not refused. */
#define ANSWER_NUMBER(answer) ((uint32_t)(answer) >> 16)
#define ANSWER_VALUE(answer) ((uint32_t)(answer) & UINT32_C(0xFFFF))

/* A verdict in 64 bits: number x 2^56 + steps x 2^48 + passes x 2^32 + minute. A part that the number
 * does not return is 0; with 15 the record stands in the minute's place. */
#define VERDICT_NUMBER(verdict) ((uint32_t)((uint64_t)(verdict) >> 56))
#define VERDICT_STEPS(verdict) ((uint32_t)((uint64_t)(verdict) >> 48 & 0xFF))
#define VERDICT_PASSES(verdict) ((uint32_t)((uint64_t)(verdict) >> 32 & 0xFFFF))
#define VERDICT_MINUTE(verdict) ((uint32_t)((uint64_t)(verdict) & UINT32_C(0xFFFFFFFF)))

/* A settling in 64 bits: number x 2^56 + passes, or with 15 the record. */
#define SETTLING_NUMBER(settling) ((uint32_t)((uint64_t)(settling) >> 56))
#define SETTLING_VALUE(settling) ((uint64_t)(settling) & UINT64_C(0xFFFFFFFFFFFFFF))

/* The certificate file. Both give the count of a lawful file as the value, or 10 to 15: wac_check by
 * the check, wac_count as a view of the file counts. */
uint32_t wac_check(const uint8_t *file, size_t length);
uint32_t wac_count(const uint8_t *file, size_t length);

/* Certificate number n: kind, issuer, left symbol, subject, number of identifiers, the three
 * identifiers, closing mark, rights, not-before, not-after, in the first 12 lent places; those beyond
 * stay. Value 0, or 10 to 15, 23, 24. */
uint32_t wac_fetch(const uint8_t *file, size_t length, size_t n, uint32_t *fields, size_t places);

/* Appends a certificate to the file in the first used bytes of the buffer: raises byte 5 by 1, writes
 * the next 18 bytes, no others. The new used length is the value, or, in this order: 16 (used length
 * past the buffer), 10 to 15, 13 (full), 15 (the new certificate, numbered by the count), 16 (room). */
uint32_t wac_append(uint8_t *buffer, size_t length, size_t used, uint8_t kind, uint8_t issuer, uint8_t left,
                    uint8_t subject, uint8_t count, uint8_t first, uint8_t second, uint8_t third, uint8_t mark,
                    uint8_t rights, uint32_t not_before, uint32_t not_after);

/* The question: has the asker these rights of the owner at this minute, and until when? A verdict: 0
 * with minute, steps, passes; 1 with passes; 2 with minute, passes; or 10 to 15, 20 to 23. After 0, 1
 * and 2 the first 2,592 minutes are those of the last pass, the first 2,592 steps the fewest of each
 * entry (all 201 after 1); after 0 a shortest best chain fills as many chain places as it has steps.
 * All other places stay. */
uint64_t decision_ask(const uint8_t *file, size_t length, uint8_t owner, uint8_t asker, uint8_t rights, uint32_t at,
                      uint32_t *minutes, size_t minutes_places, uint32_t *steps, size_t steps_places, uint8_t *chain,
                      size_t chain_places);

/* The short form: the same for rights 2. */
uint64_t decision_short(const uint8_t *file, size_t length, uint8_t owner, uint8_t asker, uint32_t at,
                        uint32_t *minutes, size_t minutes_places, uint32_t *steps, size_t steps_places,
                        uint8_t *chain, size_t chain_places);

/* The read screen: value 1 for yes, 0 for no; or the number alone, 10 to 15, 20, 22. */
uint32_t decision_may(const uint8_t *file, size_t length, uint8_t owner, uint8_t asker, uint32_t at);

/* The stock list: the value is the sum of 2^k over the keys k that get yes; or the number alone, 10 to
 * 15, 20, 22. */
uint32_t decision_stock(const uint8_t *file, size_t length, uint8_t owner, uint32_t at);

/* Passes over the first 2,592 of a given table until one changes nothing, which is counted too. A
 * settling: the passes, or 10 to 15, 20 to 23. Places beyond stay. */
uint64_t decision_settle(const uint8_t *file, size_t length, uint8_t owner, uint8_t asker, uint8_t rights,
                         uint32_t at, uint32_t *minutes, size_t minutes_places);

#ifdef __cplusplus
}
#endif

#endif
