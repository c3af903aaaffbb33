/* Argilosco: passes expanded into jobs, job tables normalised and scheduled on one core.
 *
 * Every table is a run of 12-byte records, as docs/FORMAT.md lays them. A table and an output are a
 * pointer, never null even where the length is 0, and a length in bytes. The table and the output of
 * a call may not overlap. A refused call leaves the output as it was; a call that is done writes the
 * first `written` bytes of it and no other.
 */
#ifndef ARGILOSCO_H
#define ARGILOSCO_H

#include <stddef.h>
#include <stdint.h>

#ifdef __cplusplus
extern "C" {
#endif

/* The numbers that a call can give back. */
enum {
    ARGILOSCO_DONE = 0,
    ARGILOSCO_LENGTH = 1,      /* length no multiple of 12, or over 49,152 bytes */
    ARGILOSCO_RECORD = 2,      /* kind not of this table, or a z byte that is not zero */
    ARGILOSCO_NUMBER = 3,      /* a P number over 23, a J number over 47, or one given twice */
    ARGILOSCO_VALUE = 4,       /* cost 0; period 0; phase plus finish within over period;
                                  deadline or latency over 48,000 */
    ARGILOSCO_NAME = 5,        /* a flow or link that names itself, or a pass or job not there */
    ARGILOSCO_SIZE = 6,        /* cycle over 48,000 ticks, over 48 jobs, or over 64 F records */
    ARGILOSCO_RING = 7,        /* the links form a ring */
    ARGILOSCO_WINDOW = 8,      /* no start times meet windows and links, even with overlap */
    ARGILOSCO_ROOM = 9,        /* output too short */
    ARGILOSCO_NO_SCHEDULE = 10, /* no schedule on one core */
    ARGILOSCO_SPENT = 11       /* budget spent */
};

/* One of the numbers above and the bytes written, 0 where refused. */
typedef struct {
    uint32_t number;
    uint32_t written;
} argilosco_written;

/* The same, with the openings of the search. */
typedef struct {
    uint32_t number;
    uint32_t written;
    uint32_t openings;
} argilosco_scheduled;

/* Expands a pass table into a job table; gives 0 to 6 and 9. */
argilosco_written argilosco_expand(const uint8_t *passes, size_t passes_length,
                                   uint8_t *out, size_t out_length);

/* Writes the normal form of a job table; gives 0 to 5 and 7 to 9. */
argilosco_written argilosco_normalise(const uint8_t *jobs, size_t jobs_length,
                                      uint8_t *out, size_t out_length);

/* Schedules a job table under a budget of openings; gives 0 to 5 and 7 to 11. */
argilosco_scheduled argilosco_schedule(const uint8_t *jobs, size_t jobs_length, uint32_t budget,
                                       uint8_t *out, size_t out_length);

#ifdef __cplusplus
}
#endif

#endif
