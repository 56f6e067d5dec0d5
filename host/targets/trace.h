/*
 * The file between record.c and replay.c. A number is seven bits to a byte, the lowest first, and all bytes but its
 * last have the highest bit. A call is the number of its function, from 1 on in the header's order; its parameters in
 * their order; its answer; and for each buffer that is not const a hash of what it has after the call. A parameter
 * that is a buffer is the number of its elements and then runs: how often an element comes, and the element; or
 * SAME_BUFFER alone where it is the buffer that was written last. Of a workspace, in which any words may be, it is
 * the number of words alone: both programs fill it.
 */
#include <stdint.h>

#define SAME_BUFFER UINT64_MAX

#define HASH_START 14695981039346656037u

/* FNV-1a with an element in place of a byte. */
static inline uint64_t hash_with(uint64_t hash, uint64_t element) { return (hash ^ element) * 1099511628211u; }

static inline uint64_t element_of(const void *buffer, uint64_t at, int size) {
    return size == 4 ? ((const uint32_t *)buffer)[at] : ((const uint8_t *)buffer)[at];
}

static inline uint64_t hash_of(const void *buffer, uint64_t length, int size) {
    uint64_t hash = HASH_START;
    for (uint64_t at = 0; at < length; at++) hash = hash_with(hash, element_of(buffer, at, size));
    return hash;
}

static inline void fill_work(uint32_t *work, uint64_t length) {
    static uint32_t word;
    for (uint64_t at = 0; at < length; at++) work[at] = word = word * 1664525 + 1013904223;
}
