/*
 * Tells how much stack each call took on inputs that make its recursion deep: each call runs on a stack of its own, whose
 * bytes are painted before and looked at after.
 */
#define _DEFAULT_SOURCE
#include <pthread.h>
#include <stdio.h>
#include <stdlib.h>
#include <string.h>
#include <sys/mman.h>

#include "cehmoli.h"

enum { STACK = 64 << 20, PAINT = 0xa5 };

/* The inputs of the calls, and what was lent to them. */
static uint8_t first[CEHMOLI_RECORD_BYTES], second[CEHMOLI_RECORD_BYTES], entries[4096];
static size_t first_length, second_length, entries_length;
static uint8_t out[CEHMOLI_SESSION_BYTES];
static uint16_t list[CEHMOLI_WITNESS_ENTRIES];

/* Puts a packed number. */
static void put(uint8_t *bytes, size_t *length, unsigned number) {
    while (number >= 128) {
        bytes[(*length)++] = (uint8_t)(number % 128 + 128);
        number /= 128;
    }
    bytes[(*length)++] = (uint8_t)number;
}

/*
 * A record of 16 literals: p1(X0), p1(X1) .., or p1 of as many constants from this number on. The last has instead so many symbols
 * over a constant: p1(f1(f1(.. a))).
 */
static size_t many(uint8_t *bytes, int variables, unsigned from, int depth, unsigned constant) {
    size_t length = 0;
    put(bytes, &length, 16);
    for (unsigned k = 0; k < 16; k++) {
        put(bytes, &length, 2);
        put(bytes, &length, 1);
        for (int d = 0; k == 15 && d < depth; d++) {
            put(bytes, &length, 3);
            put(bytes, &length, 1);
        }
        if (k == 15 && depth > 0) {
            put(bytes, &length, 2 * constant + 1);
            put(bytes, &length, 0);
        } else if (variables) {
            put(bytes, &length, 2 * k);
        } else {
            put(bytes, &length, 2 * (from + k) + 1);
            put(bytes, &length, 0);
        }
    }
    return length;
}

/* A record of one literal p1(f1(f1(.. this constant))) of 256 nodes. */
static size_t deep(uint8_t *bytes, unsigned constant) {
    size_t length = 0;
    put(bytes, &length, 1);
    put(bytes, &length, 2);
    put(bytes, &length, 1);
    for (int k = 0; k < 254; k++) {
        put(bytes, &length, 3);
        put(bytes, &length, 1);
    }
    put(bytes, &length, 2 * constant + 1);
    put(bytes, &length, 0);
    return length;
}

/* Two records as entries. */
static void enter(void) {
    entries_length = 0;
    put(entries, &entries_length, (unsigned)first_length);
    memcpy(entries + entries_length, first, first_length);
    entries_length += first_length;
    put(entries, &entries_length, (unsigned)second_length);
    memcpy(entries + entries_length, second, second_length);
    entries_length += second_length;
}

static void *nothing(void *unused) {
    return unused;
}

static void *session(void *unused) {
    if (cehmoli_session(entries, entries_length, out, sizeof out).kind != CEHMOLI_ANSWERED) {
        abort();
    }
    return unused;
}

static void *read_first(void *unused) {
    if (cehmoli_read(first, first_length).question != 0) {
        abort();
    }
    return unused;
}

static void *covers(void *unused) {
    if (cehmoli_covers(first, first_length, second, second_length).kind > CEHMOLI_NONE) {
        abort();
    }
    return unused;
}

static void *witness(void *unused) {
    if (cehmoli_witness(first, first_length, second, second_length, list, CEHMOLI_WITNESS_ENTRIES).kind > CEHMOLI_NONE) {
        abort();
    }
    return unused;
}

static void *join(void *unused) {
    if (cehmoli_join(first, first_length, second, second_length, out, sizeof out).kind > CEHMOLI_REFUSED) {
        abort();
    }
    return unused;
}

/* How many bytes of the stack a thread that runs this wrote to, from the top to the lowest. */
static size_t taken(void *(*run)(void *)) {
    uint8_t *stack = mmap(NULL, STACK, PROT_READ | PROT_WRITE, MAP_PRIVATE | MAP_ANONYMOUS | MAP_NORESERVE, -1, 0);
    if (stack == MAP_FAILED) {
        abort();
    }
    memset(stack, PAINT, STACK);
    pthread_attr_t attributes;
    pthread_t thread;
    pthread_attr_init(&attributes);
    if (pthread_attr_setstack(&attributes, stack, STACK) != 0 || pthread_create(&thread, &attributes, run, NULL) != 0 ||
        pthread_join(thread, NULL) != 0) {
        abort();
    }
    size_t low = 0;
    while (stack[low] == PAINT) {
        low++;
    }
    munmap(stack, STACK);
    return STACK - low;
}

/* What each call took beyond what a thread takes that does nothing. */
static void show(const char *inputs) {
    size_t none = taken(nothing);
    printf("%s: read %zu, covers %zu, witness %zu, join %zu, session %zu bytes\n", inputs, taken(read_first) - none,
           taken(covers) - none, taken(witness) - none, taken(join) - none, taken(session) - none);
}

/* Two records of 256 nodes at most, and what the calls took of them. */
static void try_many(const char *inputs, int variables, int depth, unsigned constant, unsigned other) {
    first_length = many(first, variables, 16, depth, constant);
    second_length = many(second, 0, 0, depth, other);
    enter();
    show(inputs);
}

int main(void) {
    try_many("16 variables and 16 constants", 1, 0, 0, 0);
    try_many("16 constants and 16 others", 0, 0, 0, 0);
    try_many("15 variables and 15 constants, beside the same deep word", 1, 224, 99, 99);
    try_many("15 constants and 15 others, beside deep words", 0, 224, 98, 99);
    first_length = deep(first, 1);
    second_length = deep(second, 2);
    enter();
    show("two deep words");
    second_length = deep(second, 1);
    enter();
    show("the same deep word");
    return 0;
}
