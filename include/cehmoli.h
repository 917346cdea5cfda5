/*
 * The library cehmoli: a generaliser for tape library controllers, and the test of a mount planner.
 * docs/SERVING.md says how it is built, linked and used.
 *
 * A record is a clause in packed form (docs/FORMAT.md); a rule and a mount are records. Each call takes any bytes and
 * returns. It allocates nothing, keeps nothing, and may be called from several threads at once.
 *
 * A pointer stands before the count of the elements that it leads to. No pointer is null, also where that count is 0. A
 * buffer that a call may write to (its pointer is not const) overlaps no other argument.
 */
#ifndef CEHMOLI_H
#define CEHMOLI_H

#include <stdbool.h>
#include <stddef.h>
#include <stdint.h>

#ifdef __cplusplus
extern "C" {
#endif

/* The kinds of answers. */
enum {
    CEHMOLI_ANSWERED = 0,      /* value: what was asked for */
    CEHMOLI_NONE = 1,          /* there is none: the rule does not cover the mount; value: 0 */
    CEHMOLI_REFUSED = 2,       /* value: the number of the refusal */
    CEHMOLI_FIRST_UNREAD = 3,  /* the first input is no record; value: the question of its fault */
    CEHMOLI_SECOND_UNREAD = 4  /* the first input is a record, and the second is none; value: the question of its fault */
};

/* The refusals. docs/REFUSALS.md has these and the questions of faults. */
enum {
    CEHMOLI_NO_ROOM = 10,         /* the buffer does not hold the packed form */
    CEHMOLI_NO_JOIN = 11,         /* no record of at most 16 literals and 256 nodes is least over both */
    CEHMOLI_TOO_FEW_ENTRIES = 12, /* the list has not an entry for each variable of the rule */
    CEHMOLI_NO_BUFFER = 13        /* the buffer has fewer than 61,440 bytes */
};

/* Sizes that are always enough: bytes for a packed record, entries for a witness, and bytes for a session's text. */
enum {
    CEHMOLI_RECORD_BYTES = 1539,
    CEHMOLI_WITNESS_ENTRIES = 256,
    CEHMOLI_SESSION_BYTES = 61440
};

/* How a call ended: a kind, and a number with it. */
struct cehmoli_answer {
    uint8_t kind;
    size_t value;
};

/* Why an input is no record. */
struct cehmoli_fault {
    uint8_t question; /* the number of the question that was answered with no; 0: the input is a record */
    size_t byte;      /* the byte that the fault is about, counted from 0 */
    bool has_literal; /* whether a literal was in hand */
    size_t literal;   /* that literal, counted from 0; else 0 */
    bool in_number;   /* what was being read */
    bool in_word;
    bool in_literal;
    bool in_record;
};

/*
 * Takes the records of an input into a class, writes at the start of out a line for each and last the rule, in hexadecimal,
 * and leaves out beyond that text as it was (docs/SESSION.md).
 * input: entries, each a packed length and that many bytes of a record.
 * out: at least CEHMOLI_SESSION_BYTES bytes.
 * Answered: the length of the text. Refused 13: out has fewer bytes, and stays as it was.
 */
struct cehmoli_answer cehmoli_session(const uint8_t *input, size_t input_length, uint8_t *out, size_t out_length);

/*
 * Reads a packed record and checks it.
 * input: the bytes of the record, and no more.
 * The fault: its question is 0 where the input is a record, and then all else is 0 and false.
 */
struct cehmoli_fault cehmoli_read(const uint8_t *input, size_t input_length);

/*
 * Whether a rule covers a mount, which is then to be held back.
 * rule, mount: packed records.
 * Answered 1: it does. None: it does not. First unread: the rule is no record. Second unread: the mount is none.
 */
struct cehmoli_answer cehmoli_covers(const uint8_t *rule, size_t rule_length, const uint8_t *mount, size_t mount_length);

/*
 * Why a rule covers a mount: where the mount meets each variable of the rule.
 * rule, mount: packed records.
 * list: an entry for each variable of the rule; CEHMOLI_WITNESS_ENTRIES are always enough.
 * Answered: the count of the rule's variables, and entry X is the node of the mount, counted from 0 in written order, that
 * variable X becomes where it first stands; the entries beyond stay as they were. After any other answer the whole list stays.
 * None: the rule does not cover the mount. Refused 12: the list has too few entries. First unread, second unread: as above.
 */
struct cehmoli_answer cehmoli_witness(const uint8_t *rule, size_t rule_length, const uint8_t *mount, size_t mount_length,
                                      uint16_t *list, size_t list_length);

/*
 * The join of two records: the least rule that covers both, with no idle literal.
 * first, second: packed records.
 * out: room for the packed form of the join; CEHMOLI_RECORD_BYTES are always enough.
 * Answered: the length of the packed form, which stands at the start of out; the bytes beyond stay as they were. After any
 * other answer all of out stays. Refused 10: out does not hold the form. Refused 11: there is no join within the limit.
 * First unread, second unread: as above.
 */
struct cehmoli_answer cehmoli_join(const uint8_t *first, size_t first_length, const uint8_t *second, size_t second_length,
                                   uint8_t *out, size_t out_length);

#ifdef __cplusplus
}
#endif

#endif
