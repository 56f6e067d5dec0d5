/*
 * Stands in front of the library, whose functions have here the names plain_ostrubel_..: writes each call, its answer
 * and a hash of what it left in its buffers to the file that OSTRUBEL_TRACE names. For programs with one thread at a
 * time.
 */
#include <stdio.h>
#include <stdlib.h>
#include <string.h>

#include "ostrubel.h"
#include "trace.h"

static FILE *file;

static void fail(const char *text) {
    fprintf(stderr, "record: %s\n", text);
    _Exit(1);
}

static void finish(void) {
    if (fclose(file) != 0) fail("the calls could not be written");
}

static void put_number(uint64_t number) {
    if (file == NULL) {
        const char *name = getenv("OSTRUBEL_TRACE");
        file = name == NULL ? NULL : fopen(name, "wb");
        if (file == NULL) fail("OSTRUBEL_TRACE names no file that can be written");
        atexit(finish);
    }
    for (; number > 127; number >>= 7) putc((int)(number & 127) | 128, file);
    if (putc((int)number, file) == EOF) fail("the calls could not be written");
}

static void put_buffer(const void *buffer, uint64_t length, int size) {
    static void *last;
    static uint64_t last_length;
    static int last_size;
    const size_t bytes = (size_t)length * (size_t)size;
    if (last != NULL && last_length == length && last_size == size && memcmp(last, buffer, bytes) == 0) {
        put_number(SAME_BUFFER);
        return;
    }
    last = realloc(last, bytes + 1);
    if (last == NULL) fail("no memory");
    memcpy(last, buffer, bytes);
    last_length = length;
    last_size = size;
    put_number(length);
    for (uint64_t at = 0, next; at < length; at = next) {
        const uint64_t element = element_of(buffer, at, size);
        for (next = at + 1; next < length && element_of(buffer, next, size) == element;) next++;
        put_number(next - at);
        put_number(element);
    }
}

static void put_work(uint32_t *work, uint64_t length) {
    put_number(length);
    fill_work(work, length);
}

static void put_hash(const void *buffer, uint64_t length, int size) { put_number(hash_of(buffer, length, size)); }

#include "record_calls.h"
