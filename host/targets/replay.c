/*
 * Makes the calls that record.c wrote, given on standard input, and compares each answer and what is left in each
 * buffer. Prints how many calls of each function were the same, the hash of all answers and buffers, and the most
 * bytes of stack that were seen to be written. Ends with 1 at the first difference.
 */
#include <stdio.h>
#include <stdlib.h>
#include <string.h>

#include "ostrubel.h"
#include "trace.h"

enum { BUFFERS = 8, GUARDS = 8, PAINTED = 2 * OSTRUBEL_STACK_BYTES };
#define GUARD 0xA5u

static struct {
    uint8_t *bytes;      /* with guards before and after */
    uint64_t length, hash;
    int size, written;
} buffers[BUFFERS];
static int used;
static size_t deepest;

static void fail(const char *text) {
    printf("replay: %s\n", text);
    exit(1);
}

/* 0 where the file has ended. */
static int take(uint64_t *number) {
    int byte = getc(stdin);
    if (byte == EOF) return 0;
    *number = (uint64_t)byte & 127;
    for (int bits = 7; byte > 127; bits += 7) {
        byte = getc(stdin);
        if (byte == EOF || bits > 63) fail("the file ends within a number, or has no such number");
        *number |= ((uint64_t)byte & 127) << bits;
    }
    return 1;
}

static uint64_t take_number(void) {
    uint64_t number;
    if (!take(&number)) fail("the file ends within a call");
    return number;
}

/* A buffer of a call, between guards. */
static uint8_t *new_buffer(uint64_t length, int size, int written) {
    if (used == BUFFERS) fail("a call has too many buffers");
    if (length > 1000000) fail("a buffer is too long");
    const size_t bytes = (size_t)length * (size_t)size;
    uint8_t *const whole = malloc(bytes + 2 * GUARDS);
    if (whole == NULL) fail("no memory");
    for (size_t k = 0; k < GUARDS; k++) whole[k] = whole[GUARDS + bytes + k] = GUARD;
    buffers[used].bytes = whole;
    buffers[used].length = length;
    buffers[used].size = size;
    buffers[used].written = written;
    used++;
    return whole + GUARDS;
}

/* The buffer that was read last; a call may have written into its own copy of it. */
static void *last;
static uint64_t last_length;

static void take_last(uint64_t length, int size) {
    last_length = length;
    last = realloc(last, (size_t)length * (size_t)size + 1);
    if (last == NULL) fail("no memory");
    for (uint64_t at = 0; at < length;) {
        uint64_t count = take_number();
        const uint64_t element = take_number();
        if (count == 0 || count > length - at) fail("a run is too long");
        for (; count > 0; count--, at++) {
            if (size == 4) ((uint32_t *)last)[at] = (uint32_t)element;
            else ((uint8_t *)last)[at] = (uint8_t)element;
        }
    }
}

static void *take_buffer(ostrubel_size *length, int size, int written) {
    const uint64_t first = take_number();
    if (first != SAME_BUFFER) take_last(first, size);
    *length = last_length;
    uint8_t *const front = new_buffer(*length, size, written);
    memcpy(front, last, (size_t)*length * (size_t)size);
    buffers[used - 1].hash = hash_of(front, *length, size);
    return front;
}

static void *take_work(ostrubel_size *length) {
    *length = take_number();
    uint8_t *const front = new_buffer(*length, 4, 1);
    fill_work((uint32_t *)(void *)front, *length);
    return front;
}

/* The stack below the caller is painted before a call; what is no longer painted after it was written. */
static uintptr_t painted;

__attribute__((noinline)) static void paint(void) {
    volatile uint8_t area[PAINTED];
    for (size_t k = 0; k < PAINTED; k++) area[k] = GUARD;
    painted = (uintptr_t)&area[0];
}

__attribute__((noinline)) static void look(void) {
    const volatile uint8_t *area = (const volatile uint8_t *)painted;
    size_t k = 0;
    while (k < PAINTED && area[k] == GUARD) k++;
    if (PAINTED - k > deepest) deepest = PAINTED - k;
}

#define measured(call) (paint(), seen(call))
static uint64_t seen(uint64_t answer) {
    look();
    return answer;
}

#include "replay_calls.h"

static uint64_t check_call(uint64_t function, uint64_t hash) {
    used = 0;
    const uint64_t answer = functions[function - 1].replay();
    const uint64_t expected = take_number();
    int same = answer == expected;
    hash = hash_with(hash, answer);
    for (int k = 0; k < used; k++) {
        const uint8_t *front = buffers[k].bytes + GUARDS;
        const size_t size = (size_t)buffers[k].length * (size_t)buffers[k].size;
        const uint64_t left = hash_of(front, buffers[k].length, buffers[k].size);
        same = same && left == (buffers[k].written ? take_number() : buffers[k].hash);
        hash = hash_with(hash, left);
        for (int g = 0; g < GUARDS; g++) {
            same = same && buffers[k].bytes[g] == GUARD && front[size + (size_t)g] == GUARD;
        }
        free(buffers[k].bytes);
    }
    if (!same) {
        printf("replay: a call of %s differs: answer %llx, and %llx on x86-64\n", functions[function - 1].name,
               (unsigned long long)answer, (unsigned long long)expected);
        exit(1);
    }
    return hash;
}

int main(void) {
    static uint64_t counts[FUNCTIONS];
    uint64_t calls = 0, hash = HASH_START, function;
    while (take(&function)) {
        if (function < 1 || function > FUNCTIONS) fail("no such function");
        hash = check_call(function, hash);
        counts[function - 1]++;
        calls++;
    }
    int called = 0;
    for (int k = 0; k < FUNCTIONS; k++) {
        if (counts[k] > 0) called++;
        else printf("not called: %s\n", functions[k].name);
    }
    printf("calls %llu of %d functions, hash %016llx, stack %lu\n", (unsigned long long)calls, called,
           (unsigned long long)hash, (unsigned long)deepest);
    return 0;
}
