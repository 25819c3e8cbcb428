/* The same operations as include/bienguloc.h, in plain C: what the library is measured beside. */
#ifndef PEER_H
#define PEER_H

#include <stddef.h>
#include <stdint.h>

uint32_t peer_look(const uint8_t *sheet, size_t size, uint32_t *head, size_t head_count);

uint32_t peer_read(const uint8_t *sheet, size_t size, uint32_t *head, size_t head_count, uint32_t *angles, size_t angle_count,
    uint8_t *rounds, size_t round_count, uint32_t *fixed, size_t fixed_count, uint32_t *log_sines, size_t log_sine_count,
    int32_t *differences, size_t difference_count, uint32_t *log_sides, size_t log_side_count);

uint32_t peer_write(uint32_t kind, uint32_t code, uint32_t n, uint32_t limit_or_tolerance, const uint32_t *angles, size_t angle_count,
    const uint8_t *rounds, size_t round_count, const uint32_t *fixed, size_t fixed_count, const uint32_t *log_sines,
    size_t log_sine_count, const int32_t *differences, size_t difference_count, const uint32_t *log_sides, size_t log_side_count,
    uint8_t *sheet, size_t size);

uint32_t peer_first_pass(uint32_t code, uint32_t n, uint32_t limit, const uint32_t *angles, size_t angle_count, const uint8_t *rounds,
    size_t round_count, const uint32_t *fixed, size_t fixed_count, int32_t *misclosures, size_t misclosure_count, int32_t *numerators,
    size_t numerator_count, int32_t *rounded, size_t rounded_count, uint32_t *corrected, size_t corrected_count,
    uint8_t *corrected_rounds, size_t corrected_round_count, int32_t *rests, size_t rest_count);

uint32_t peer_closing(uint32_t code, uint32_t n, uint32_t limit, const uint32_t *angles, size_t angle_count, const uint8_t *rounds,
    size_t round_count, const uint32_t *fixed, size_t fixed_count, int32_t *corrections, size_t correction_count);

uint32_t peer_check_closing(uint32_t code, uint32_t n, uint32_t limit, const uint32_t *angles, size_t angle_count, const uint8_t *rounds,
    size_t round_count, const uint32_t *fixed, size_t fixed_count, const int32_t *offered, size_t offered_count);

uint32_t peer_second_pass(uint32_t code, uint32_t n, uint32_t tolerance, const uint32_t *angles, size_t angle_count,
    const uint8_t *rounds, size_t round_count, const uint32_t *log_sines, size_t log_sine_count, const int32_t *differences,
    size_t difference_count, const uint32_t *log_sides, size_t log_side_count, int64_t *sine_misclosures, size_t sine_misclosure_count,
    uint64_t *divisor, size_t divisor_count, int64_t *reduced, size_t reduced_count, int64_t *side_reduced, size_t side_reduced_count,
    int64_t *numerators_high, size_t high_count, uint64_t *numerators_low, size_t low_count, int32_t *rounded, size_t rounded_count,
    uint32_t *adjusted, size_t adjusted_count, uint8_t *adjusted_rounds, size_t adjusted_round_count, int32_t *rests, size_t rest_count);

uint32_t peer_report(const uint8_t *sheet, size_t size, uint8_t *text, size_t room, uint64_t *written, size_t written_count);

#endif
