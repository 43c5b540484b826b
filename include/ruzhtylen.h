/* Ruzhtylen's entries for callers in C: link crates/capi/out/libcapi.a, which `rt lib` in crates/capi writes, or an installed
   libruzhtylen.a.
   A slice is a pointer and its length. Blocks are those of the scope document, two-byte numbers with the high byte first; the second
   byte of a job record is the job's delay.
   low and high are the range of the quanta, from 1 to at most 64, and to at most 16 at the start gate. lowest and highest are the
   priorities that the kernel has, any bytes.
   Any input gets an answer. Byte 0 of a 32-bit answer, its lowest, is the refusal's number, 0 for none; a refusal changes nothing lent.
   Bytes of an output past the need stay. With length 0 a pointer may be anything, null too.
   The proofs take it that a pointer has as many bytes as its length says, and that an output overlaps neither an input nor the other
   output; for a call that does otherwise nothing is promised.
   Calls keep nothing between them, so any number of them may run at once in several threads, each with outputs of its own. */
#ifndef RUZHTYLEN_H
#define RUZHTYLEN_H

#include <stddef.h>
#include <stdint.h>

#ifdef __cplusplus
extern "C" {
#endif

/* Byte 0 of an answer: the first refusal that applies, or none. They are sought in the order of their numbers, but that 13 and 15 come
   after 6, 14 after 8, and 12 is the last; each through all records before the next. 4 is met at the exam desk alone. */
enum ruzhtylen_refusal {
    RUZHTYLEN_ACCEPTED = 0,
    RUZHTYLEN_JOB_COUNT = 1,          /* the job block is empty, over 64 bytes or no multiple of 8 */
    RUZHTYLEN_JOB_ID = 2,             /* an id is 0 */
    RUZHTYLEN_ID_ORDER = 3,           /* an id is not above the one before it */
    RUZHTYLEN_PLACE = 4,              /* there is no job at that place */
    RUZHTYLEN_JOB_TIMES = 5,          /* a cost is 0 or above its deadline or period, or a period or deadline is above 60000 */
    RUZHTYLEN_QUANTUM_RANGE = 6,      /* the lowest quantum is 0 or above the highest, or the highest is above 64 */
    RUZHTYLEN_CONFIGURATION_SIZE = 7, /* the configuration or kernel block has not one record of four bytes for each job */
    RUZHTYLEN_CONFIGURATION_IDS = 8,  /* the ids of its records are not the jobs' ids in order */
    RUZHTYLEN_RECORD_SHAPE = 9,       /* numbers that no record may have together; every kernel record of policy 0 */
    RUZHTYLEN_LEVEL_SHARING = 10,     /* a policy 1 job shares its level or priority, or a policy 2 job is alone on it */
    RUZHTYLEN_NOT_PLACED = 11,        /* a job is not placed, where all have to be */
    RUZHTYLEN_OUTPUT_LENGTH = 12,     /* an output is shorter than what is to be written */
    RUZHTYLEN_PRIORITY_RANGE = 13,    /* the lowest priority is above the highest, or the two span fewer values than there are jobs */
    RUZHTYLEN_KERNEL_PRIORITY = 14,   /* a kernel record with a policy other than 0 whose priority is not among as many of the highest as
                                         there are jobs */
    RUZHTYLEN_GATE_LIMITS = 15        /* the start gate got more than 4 jobs, or a highest quantum above 16 */
};

/* Byte 1: the number of jobs. */
uint32_t ruzhtylen_read_jobs(const uint8_t *jobs, size_t jobs_length);

/* Writes the bounds of a configuration, full or not: two bytes for each job. */
uint32_t ruzhtylen_bounds(const uint8_t *jobs, size_t jobs_length, uint8_t low, uint8_t high,
                          const uint8_t *configuration, size_t configuration_length,
                          uint8_t *bounds, size_t bounds_length);

/* The same for a full configuration. Byte 1: 1 passes, 0 fails. */
uint32_t ruzhtylen_mark(const uint8_t *jobs, size_t jobs_length, uint8_t low, uint8_t high,
                        const uint8_t *configuration, size_t configuration_length,
                        uint8_t *bounds, size_t bounds_length);

/* Writes where the ticks of the bounds go, of a configuration full or not: 22 bytes for each job, all 0 where its bound is 0. An amount has
   four bytes, the high byte first.
     0       the instance that reaches the bound first, counted from 0
     1       which of the two bounds it is: 1 by quanta, for policy 1 and where both are equal; 2 with the layer's other jobs as if above
     2..5    the own work: that of this instance and of those before it
     6..9    what the other jobs of the layer add in that bound
     10..13  the work of the jobs above, those not placed too
     14..17  the job's delay
     18..21  when the instance is released, which is taken off
   The bound is the sum of the first four amounts less the fifth. */
uint32_t ruzhtylen_breakdown(const uint8_t *jobs, size_t jobs_length, uint8_t low, uint8_t high,
                             const uint8_t *configuration, size_t configuration_length,
                             uint8_t *output, size_t output_length);

/* Writes a configuration, four bytes for each job, and its bounds, two bytes for each job.
   Levels are filled from the lowest up, each by the first set of the jobs not yet placed that can be served with the rest of these above:
   smaller sets first, among those of one size that with the larger sum of periods, among those of one sum that with the smaller number
   (the first job is 1, the second 2, the third 4 and so on).
   Byte 1: the placed set; bytes 2 and 3: the count of sets considered, the low byte first. */
uint32_t ruzhtylen_plan(const uint8_t *jobs, size_t jobs_length, uint8_t low, uint8_t high,
                        uint8_t *configuration, size_t configuration_length,
                        uint8_t *bounds, size_t bounds_length);

/* The planner and the marker at the start gate, whose box takes at most 4 jobs and a highest quantum of 16. A call within these limits has
   the word and the outputs that ruzhtylen_plan or ruzhtylen_mark has for it, refusals too. Any other gets the first of refusals 1 to 6
   that applies, as there, and where none does 15. */
uint32_t ruzhtylen_gate_plan(const uint8_t *jobs, size_t jobs_length, uint8_t low, uint8_t high,
                             uint8_t *configuration, size_t configuration_length,
                             uint8_t *bounds, size_t bounds_length);

uint32_t ruzhtylen_gate_mark(const uint8_t *jobs, size_t jobs_length, uint8_t low, uint8_t high,
                             const uint8_t *configuration, size_t configuration_length,
                             uint8_t *bounds, size_t bounds_length);

/* Writes a full configuration as kernel records, four bytes for each job: id, policy, priority, quantum. Level 1 becomes the highest
   priority, level 2 the one below it, and so on: a smaller level is a larger priority. Bounds are not asked: mark it first. */
uint32_t ruzhtylen_to_kernel(const uint8_t *jobs, size_t jobs_length, uint8_t low, uint8_t high,
                             uint8_t lowest, uint8_t highest,
                             const uint8_t *configuration, size_t configuration_length,
                             uint8_t *output, size_t output_length);

/* The way back: writes kernel records as a configuration, four bytes for each job. With the same jobs, range and priorities each gives
   what the other was given. */
uint32_t ruzhtylen_from_kernel(const uint8_t *jobs, size_t jobs_length, uint8_t low, uint8_t high,
                               uint8_t lowest, uint8_t highest,
                               const uint8_t *kernel, size_t kernel_length,
                               uint8_t *output, size_t output_length);

/* 1: the same bytes, 0: not. It has no refusal. */
uint8_t ruzhtylen_same_bytes(const uint8_t *a, size_t a_length, const uint8_t *b, size_t b_length);

#ifdef __cplusplus
}
#endif

#endif
