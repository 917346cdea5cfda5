/*
 * A small mount planner: makes a rule of the records of spoiled mounts, and says which planned mounts it holds back, and why.
 *
 *     planner SPOILED MOUNT..
 *
 * SPOILED holds entries, each a packed length and a packed record; each MOUNT is a packed record.
 */
#include <stdio.h>
#include <stdlib.h>
#include <string.h>

#include "cehmoli.h"

/* The longest input that a session takes, and a byte more, so that it sees that one is too long. */
#define INPUT_BYTES 4097

/* Reads at most size bytes of a file, and returns how many there were. */
static size_t read_file(const char *name, uint8_t *bytes, size_t size) {
    FILE *file = fopen(name, "rb");
    if (file == NULL) {
        perror(name);
        exit(1);
    }
    size_t length = fread(bytes, 1, size, file);
    if (ferror(file)) {
        perror(name);
        exit(1);
    }
    fclose(file);
    return length;
}

/* The value of a hexadecimal digit, as a session writes it. */
static int digit(uint8_t c) {
    return c <= '9' ? c - '0' : c - 'a' + 10;
}

/* Takes the rule from the last line of a session's text, and returns its length; 0 where there is none. */
static size_t find_rule(const uint8_t *text, size_t length, uint8_t *rule) {
    static const char word[] = "rule ";
    size_t start = length - 1;
    while (start > 0 && text[start - 1] != '\n') {
        start--;
    }
    if (length - start < sizeof word || memcmp(text + start, word, sizeof word - 1) != 0) {
        return 0;
    }
    size_t n = 0;
    for (size_t at = start + sizeof word - 1; at + 1 < length; at += 2) {
        rule[n++] = (uint8_t)(16 * digit(text[at]) + digit(text[at + 1]));
    }
    return n;
}

/* Says why an input is no record. */
static void show_fault(const uint8_t *input, size_t length) {
    struct cehmoli_fault fault = cehmoli_read(input, length);
    printf("no record: question %u at byte %zu", fault.question, fault.byte);
    if (fault.has_literal) {
        printf(" of literal %zu", fault.literal);
    }
    printf(", in%s%s%s%s\n", fault.in_number ? " number" : "", fault.in_word ? " word" : "", fault.in_literal ? " literal" : "",
           fault.in_record ? " record" : "");
}

/* Says whether the rule holds a mount back, and where the mount meets each variable of the rule. */
static void plan(const uint8_t *rule, size_t rule_length, const uint8_t *mount, size_t mount_length) {
    struct cehmoli_answer covers = cehmoli_covers(rule, rule_length, mount, mount_length);
    if (covers.kind == CEHMOLI_SECOND_UNREAD) {
        show_fault(mount, mount_length);
        return;
    }
    if (covers.kind == CEHMOLI_NONE) {
        printf("may go\n");
        return;
    }
    if (covers.kind != CEHMOLI_ANSWERED) {
        printf("the rule is no record\n");
        return;
    }
    uint16_t list[CEHMOLI_WITNESS_ENTRIES];
    struct cehmoli_answer witness = cehmoli_witness(rule, rule_length, mount, mount_length, list, CEHMOLI_WITNESS_ENTRIES);
    printf("held back:");
    for (size_t x = 0; witness.kind == CEHMOLI_ANSWERED && x < witness.value; x++) {
        printf(" X%zu at node %u", x, list[x]);
    }
    printf("\n");
}

/* Shows the join of two records, or why there is none. */
static void show_join(const uint8_t *first, size_t first_length, const uint8_t *second, size_t second_length) {
    uint8_t join[CEHMOLI_RECORD_BYTES];
    struct cehmoli_answer answer = cehmoli_join(first, first_length, second, second_length, join, sizeof join);
    switch (answer.kind) {
    case CEHMOLI_ANSWERED:
        for (size_t i = 0; i < answer.value; i++) {
            printf("%02x", join[i]);
        }
        printf("\n");
        break;
    case CEHMOLI_REFUSED:
        printf("refused %zu\n", answer.value);
        break;
    default:
        printf("no record\n");
    }
}

int main(int count, char **words) {
    if (count < 2) {
        fprintf(stderr, "usage: planner SPOILED MOUNT..\n");
        return 1;
    }
    static uint8_t input[INPUT_BYTES];
    static uint8_t text[CEHMOLI_SESSION_BYTES];
    size_t input_length = read_file(words[1], input, sizeof input);
    struct cehmoli_answer session = cehmoli_session(input, input_length, text, sizeof text);
    if (session.kind != CEHMOLI_ANSWERED) {
        fprintf(stderr, "refused %zu\n", session.value);
        return 1;
    }
    fwrite(text, 1, session.value, stdout);

    uint8_t rule[CEHMOLI_RECORD_BYTES];
    size_t rule_length = find_rule(text, session.value, rule);
    if (rule_length == 0) {
        return 0;
    }
    uint8_t before[CEHMOLI_RECORD_BYTES + 1];
    size_t before_length = 0;
    for (int k = 2; k < count; k++) {
        uint8_t mount[CEHMOLI_RECORD_BYTES + 1];
        size_t mount_length = read_file(words[k], mount, sizeof mount);
        printf("%s: ", words[k]);
        plan(rule, rule_length, mount, mount_length);
        if (k == 3) {
            printf("the join of the first two mounts: ");
            show_join(before, before_length, mount, mount_length);
        }
        memcpy(before, mount, mount_length);
        before_length = mount_length;
    }
    return 0;
}
