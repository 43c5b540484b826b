/* The header as C99, C11 and C++ have it: each function with slices of length 0, whose pointers are null, and some further refusals.
   Status 1: an answer is another one than the refusal that stands beside it, or than 1 for two empty blocks that are the same. */
#include "ruzhtylen.h"

int main(void) {
    const uint8_t jobs[] = {1, 0, 0, 3, 0, 10, 0, 5};
    const uint8_t kernel[] = {1, 1, 98, 0};
    const uint8_t not_placed[] = {1, 0, 0, 0};
    return !(ruzhtylen_read_jobs(0, 0) == RUZHTYLEN_JOB_COUNT && ruzhtylen_bounds(0, 0, 1, 4, 0, 0, 0, 0) == RUZHTYLEN_JOB_COUNT
             && ruzhtylen_breakdown(0, 0, 1, 4, 0, 0, 0, 0) == RUZHTYLEN_JOB_COUNT
             && ruzhtylen_breakdown(jobs, sizeof jobs, 1, 4, not_placed, sizeof not_placed, 0, 0) == RUZHTYLEN_OUTPUT_LENGTH
             && ruzhtylen_mark(0, 0, 1, 4, 0, 0, 0, 0) == RUZHTYLEN_JOB_COUNT
             && ruzhtylen_plan(0, 0, 1, 4, 0, 0, 0, 0) == RUZHTYLEN_JOB_COUNT
             && ruzhtylen_gate_plan(0, 0, 1, 4, 0, 0, 0, 0) == RUZHTYLEN_JOB_COUNT
             && ruzhtylen_gate_plan(jobs, sizeof jobs, 1, 17, 0, 0, 0, 0) == RUZHTYLEN_GATE_LIMITS
             && ruzhtylen_gate_plan(jobs, sizeof jobs, 1, 16, 0, 0, 0, 0) == RUZHTYLEN_OUTPUT_LENGTH
             && ruzhtylen_gate_mark(0, 0, 1, 4, 0, 0, 0, 0) == RUZHTYLEN_JOB_COUNT
             && ruzhtylen_gate_mark(jobs, sizeof jobs, 1, 17, 0, 0, 0, 0) == RUZHTYLEN_GATE_LIMITS
             && ruzhtylen_gate_mark(jobs, sizeof jobs, 1, 16, 0, 0, 0, 0) == RUZHTYLEN_CONFIGURATION_SIZE
             && ruzhtylen_to_kernel(0, 0, 1, 4, 1, 99, 0, 0, 0, 0) == RUZHTYLEN_JOB_COUNT
             && ruzhtylen_from_kernel(0, 0, 1, 4, 1, 99, 0, 0, 0, 0) == RUZHTYLEN_JOB_COUNT
             && ruzhtylen_to_kernel(jobs, sizeof jobs, 1, 4, 2, 1, 0, 0, 0, 0) == RUZHTYLEN_PRIORITY_RANGE
             && ruzhtylen_from_kernel(jobs, sizeof jobs, 1, 4, 1, 99, kernel, sizeof kernel, 0, 0) == RUZHTYLEN_KERNEL_PRIORITY
             && ruzhtylen_plan(jobs, sizeof jobs, 1, 4, 0, 0, 0, 0) == RUZHTYLEN_OUTPUT_LENGTH
             && ruzhtylen_mark(jobs, sizeof jobs, 1, 4, 0, 0, 0, 0) == RUZHTYLEN_CONFIGURATION_SIZE
             && ruzhtylen_same_bytes(0, 0, 0, 0) == 1);
}
