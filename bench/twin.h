/*
 * The C twin of the library: the same calls, written by hand for speed, as the
 * opponent of the benchmark. The names carry another prefix, so that several
 * builds of the twin can stand in one program.
 */
#ifndef TWIN_H
#define TWIN_H

#include "../include/surface_network.h"

#define TWIN_DECLARE(prefix)                                                   \
    sn_sheet prefix##_settings(const uint8_t *, size_t, uint8_t *, size_t);    \
    sn_counts prefix##_survey(const uint8_t *, size_t, uint32_t, uint32_t,     \
                              const int32_t *, size_t, uint8_t *, size_t);     \
    sn_answer prefix##_reshoot(const uint8_t *, size_t, uint32_t, uint32_t,    \
                               int32_t *, size_t, uint8_t *, size_t, uint32_t, \
                               int32_t);                                       \
    sn_trial_counts prefix##_trial(const uint8_t *, size_t, uint32_t,          \
                                   uint32_t, const int32_t *, size_t,          \
                                   uint32_t, int32_t);                         \
    sn_ring_mark prefix##_ring(const uint8_t *, size_t, uint32_t, uint32_t,    \
                               const int32_t *, size_t, uint32_t, uint8_t *,   \
                               size_t);                                        \
    sn_next prefix##_next_down(const uint8_t *, size_t, uint32_t, uint32_t,    \
                               uint32_t, uint32_t, const int32_t *, size_t,    \
                               uint32_t);                                      \
    sn_next prefix##_next_up(const uint8_t *, size_t, uint32_t, uint32_t,      \
                             uint32_t, uint32_t, const int32_t *, size_t,      \
                             uint32_t);                                        \
    sn_entries prefix##_thalweg(const uint8_t *, size_t, uint32_t, uint32_t,   \
                                uint32_t, uint32_t, const int32_t *, size_t,   \
                                uint32_t, uint32_t, uint16_t *, size_t);       \
    sn_entries prefix##_ridge(const uint8_t *, size_t, uint32_t, uint32_t,     \
                              uint32_t, uint32_t, const int32_t *, size_t,     \
                              uint32_t, uint32_t, uint16_t *, size_t);         \
    sn_answer prefix##_dales_and_hills(                                        \
        const uint8_t *, size_t, uint32_t, uint32_t, uint32_t, uint32_t,       \
        const int32_t *, size_t, uint16_t *, size_t, uint16_t *, size_t);      \
    sn_answer prefix##_joins_and_splits(const uint8_t *, size_t, uint32_t,     \
                                        uint32_t, const int32_t *, size_t,     \
                                        uint8_t *, size_t, uint8_t *, size_t); \
    sn_size prefix##_read_survey(const uint8_t *, size_t, int32_t *, size_t);  \
    sn_answer prefix##_write_survey(uint32_t, uint32_t, uint32_t, uint32_t,    \
                                    const int32_t *, size_t, uint8_t *,        \
                                    size_t)

#endif
