/*
 * Calls the library so that each kind of answer, each refusal and each part of a fault comes once, and sees that the header says
 * them as they are: nothing else compares the header with the library.
 */
#undef NDEBUG
#include <assert.h>
#include <stdio.h>
#include <string.h>

#include "cehmoli.h"

/* {p1(X0), q2(X0)}, {p1(a2), p1(a1), q2(a1)}, {p1(a1)}, and no record: a literal with 9 places. */
static const uint8_t rule[] = {0x02, 0x02, 0x01, 0x00, 0x04, 0x01, 0x00};
static const uint8_t mount[] = {0x03, 0x02, 0x01, 0x05, 0x00, 0x02, 0x01, 0x03, 0x00, 0x04, 0x01, 0x03, 0x00};
static const uint8_t other[] = {0x01, 0x02, 0x01, 0x03, 0x00};
static const uint8_t damaged[] = {0x01, 0x02, 0x09};

static void is(struct cehmoli_answer answer, uint8_t kind, size_t value) {
    assert(answer.kind == kind);
    assert(answer.value == value);
}

/* Whether all bytes are 7. */
static bool untouched(const void *bytes, size_t length) {
    const uint8_t *at = bytes;
    for (size_t i = 0; i < length; i++) {
        if (at[i] != 7) {
            return false;
        }
    }
    return true;
}

/* A ring of so many literals: p1(X0, X1), p1(X1, X2) .. p1(Xn, X0). */
static size_t ring(uint8_t *bytes, uint8_t n) {
    size_t length = 0;
    bytes[length++] = n;
    for (uint8_t k = 0; k < n; k++) {
        bytes[length++] = 2;
        bytes[length++] = 2;
        bytes[length++] = (uint8_t)(2 * k);
        bytes[length++] = (uint8_t)(2 * ((k + 1) % n));
    }
    return length;
}

static void read_calls(void) {
    struct cehmoli_fault fault = cehmoli_read(rule, sizeof rule);
    assert(fault.question == 0 && fault.byte == 0 && !fault.has_literal && fault.literal == 0);
    assert(!fault.in_number && !fault.in_word && !fault.in_literal && !fault.in_record);
    fault = cehmoli_read(damaged, sizeof damaged);
    assert(fault.question == 5 && fault.byte == 2 && fault.has_literal && fault.literal == 0);
    assert(!fault.in_number && !fault.in_word && fault.in_literal && fault.in_record);
    fault = cehmoli_read(rule, 5);
    assert(fault.question == 1 && fault.byte == 5 && fault.has_literal && fault.literal == 1);
    assert(fault.in_number && !fault.in_word && fault.in_literal && fault.in_record);
    fault = cehmoli_read(rule, 3);
    assert(fault.question == 1 && fault.byte == 3 && fault.has_literal && fault.literal == 0);
    assert(fault.in_number && fault.in_word && fault.in_literal && fault.in_record);
    fault = cehmoli_read(rule, 0);
    assert(fault.question == 1 && fault.byte == 0 && !fault.has_literal);
    assert(fault.in_number && !fault.in_word && !fault.in_literal && fault.in_record);
}

static void covers_calls(void) {
    is(cehmoli_covers(rule, sizeof rule, mount, sizeof mount), CEHMOLI_ANSWERED, 1);
    is(cehmoli_covers(rule, sizeof rule, other, sizeof other), CEHMOLI_NONE, 0);
    is(cehmoli_covers(damaged, sizeof damaged, mount, 0), CEHMOLI_FIRST_UNREAD, 5);
    is(cehmoli_covers(rule, sizeof rule, mount, 0), CEHMOLI_SECOND_UNREAD, 1);
}

static void witness_calls(void) {
    uint16_t list[3];
    memset(list, 7, sizeof list);
    is(cehmoli_witness(rule, sizeof rule, other, sizeof other, list, 3), CEHMOLI_NONE, 0);
    is(cehmoli_witness(rule, sizeof rule, mount, sizeof mount, list, 0), CEHMOLI_REFUSED, CEHMOLI_TOO_FEW_ENTRIES);
    is(cehmoli_witness(damaged, sizeof damaged, mount, sizeof mount, list, 3), CEHMOLI_FIRST_UNREAD, 5);
    is(cehmoli_witness(rule, sizeof rule, damaged, sizeof damaged, list, 3), CEHMOLI_SECOND_UNREAD, 5);
    assert(untouched(list, sizeof list));
    is(cehmoli_witness(rule, sizeof rule, mount, sizeof mount, list, 3), CEHMOLI_ANSWERED, 1);
    assert(list[0] == 3 && untouched(list + 1, sizeof list - sizeof list[0]));
}

static void join_calls(void) {
    static const uint8_t join[] = {0x01, 0x02, 0x01, 0x00};
    uint8_t out[CEHMOLI_RECORD_BYTES], ring_16[80], ring_15[80];
    memset(out, 7, sizeof out);
    size_t length_16 = ring(ring_16, 16), length_15 = ring(ring_15, 15);
    is(cehmoli_join(ring_16, length_16, ring_15, length_15, out, sizeof out), CEHMOLI_REFUSED, CEHMOLI_NO_JOIN);
    is(cehmoli_join(rule, sizeof rule, other, sizeof other, out, 3), CEHMOLI_REFUSED, CEHMOLI_NO_ROOM);
    is(cehmoli_join(damaged, sizeof damaged, other, sizeof other, out, sizeof out), CEHMOLI_FIRST_UNREAD, 5);
    is(cehmoli_join(rule, sizeof rule, damaged, sizeof damaged, out, sizeof out), CEHMOLI_SECOND_UNREAD, 5);
    assert(untouched(out, sizeof out));
    is(cehmoli_join(rule, sizeof rule, other, sizeof other, out, sizeof out), CEHMOLI_ANSWERED, sizeof join);
    assert(memcmp(out, join, sizeof join) == 0 && untouched(out + sizeof join, sizeof out - sizeof join));
}

static void session_calls(void) {
    static const char text[] = "no rule\n";
    static uint8_t out[CEHMOLI_SESSION_BYTES];
    memset(out, 7, sizeof out);
    is(cehmoli_session(rule, 0, out, sizeof out - 1), CEHMOLI_REFUSED, CEHMOLI_NO_BUFFER);
    assert(untouched(out, sizeof out));
    is(cehmoli_session(rule, 0, out, sizeof out), CEHMOLI_ANSWERED, strlen(text));
    assert(memcmp(out, text, strlen(text)) == 0 && untouched(out + strlen(text), sizeof out - strlen(text)));
}

int main(void) {
    read_calls();
    covers_calls();
    witness_calls();
    join_calls();
    session_calls();
    printf("each kind of answer is as the header says\n");
    return 0;
}
