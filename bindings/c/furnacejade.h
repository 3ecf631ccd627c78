/* The calls of the engine, for C and C++ on x86-64 Linux. Link target/staticlib/libengine.a, which `tools/build engine`
 * builds. What each call answers and leaves is the definition that its contract in crates/engine/src/lib.rt names, for
 * every value of its arguments; docs/RULES.md says the same in words.
 *
 * One table holds the whole machine: all controllers, their logs and their panels. Its owner keeps it and lends it to
 * each call. The library keeps nothing between calls, so calls on different tables may run at the same time. Two calls on
 * one table, one scratch area, one listing or one answer may not.
 *
 * What is asked of the caller:
 *   - A slice of bytes is passed as its first byte and its length. Pointers are not null, for a slice of length 0 too.
 *   - Tables and answers are aligned as their types are, to 8 bytes at most (malloc does so). Bytes, scratch and listings
 *     may stand anywhere.
 *   - What is lent to be written (a table, scratch, a listing, an answer) overlaps nothing else lent to the same call.
 *   - Nothing need be cleared. A call overwrites every field of its answer and reads nothing of it, and it reads no scratch
 *     byte that it has not written. The proofs speak of memory in which every byte has been set once, no matter to what.
 * Nothing else is asked: every pattern of bytes is a table, and a call answers it.
 *
 * At the start, see that header and library are of one state:
 *
 *     if (furnacejade_interface() != FURNACEJADE_INTERFACE) return EXIT_FAILURE;
 *
 * Reading a table. Its fields may be read, and so may those of answers; "OVER A TABLE" below has functions for what a caller
 * asks most. Only the calls should write to a table. They refuse one that is not well formed (question 4), but that is a test
 * of form and no checksum.
 *
 * Comparing by bytes. A table has no padding: its size is the sum of the sizes of its fields, which is asserted below. So
 * two tables have the same fields exactly if memcmp finds them equal, equal calls make equal tables byte for byte, and a
 * table may be copied, saved, sent and hashed as sizeof(furnacejade_table) bytes, between x86-64 programs that were built
 * with one FURNACEJADE_INTERFACE. Answers and records are not to be compared by bytes. Answers have padding, which a call may
 * leave as anything, old bytes of the stack among them: furnacejade_answer at bytes 2, 3 and 12 to 15,
 * furnacejade_dispatch_answer, which holds one from byte 16 on, at 18, 19 and 28 to 31, furnacejade_look_answer at 1 to 3,
 * furnacejade_ask_answer, furnacejade_fresh_answer, furnacejade_run_answer and furnacejade_count_answer at 1 to 7. Compare, save
 * and send answers field by field. */
#ifndef FURNACEJADE_H
#define FURNACEJADE_H

#include <stddef.h>
#include <stdint.h>

#ifdef __cplusplus
extern "C" {
#define FURNACEJADE_ASSERT static_assert
#else
#define FURNACEJADE_ASSERT _Static_assert
#endif

enum {
    FURNACEJADE_INTERFACE = 4,      /* the state of this header; furnacejade_interface() answers that of the library */
    FURNACEJADE_CONTROLLERS = 7,    /* the most controllers that a run can have */
    FURNACEJADE_MESSAGES = 64,      /* the most messages that a run can have */
    FURNACEJADE_CLASSES = 5,        /* the classes of which a panel shows sums, FURNACEJADE_CLASS_NONE among them */
    FURNACEJADE_REGISTERS = 8,      /* the registers that a panel shows */
    FURNACEJADE_SCRATCH = 64,       /* the bytes of scratch that an event, a dispatched handover, an ask or a commit needs: one
                                       for each message that can be pending */
    FURNACEJADE_LISTING = 16384,    /* more bytes of listing than any run file fills */
    FURNACEJADE_HEAD = 2,           /* the bytes that a run file begins with: its version and the number of controllers */
    FURNACEJADE_LONGEST_RECORD = 8, /* the bytes of the longest record, a write */
    FURNACEJADE_ABSENT = 255        /* the mark of a controller that is not known to have forwarded a message */
};

/* Weight classes. A report of version 2 names one of the four; a report of version 1, and every sync and write, has none. */
enum {
    FURNACEJADE_CLASS_NONE = 0,
    FURNACEJADE_CLASS_XL = 1,
    FURNACEJADE_CLASS_L = 2,
    FURNACEJADE_CLASS_M = 3,
    FURNACEJADE_CLASS_S = 4
};

/* Refusal numbers, each with its name (FURNACEJADE_REFUSED_ stands before it) and the question that was the first to be
 * answered no. Number 0, FURNACEJADE_ACCEPTED, is no refusal. What a caller does after each stands in docs/API.md,
 * "Refusal numbers". Question 4 is a test of form and no checksum: a table in which a report of 30 eggs was changed to 31
 * passes. */
#define FURNACEJADE_REFUSALS(X)                                                                   \
    X(1, FILE_LENGTH, "Has the file 2 to 65,535 bytes?")                                          \
    X(2, VERSION, "Is the version 1 or 2?")                                                       \
    X(3, CONTROLLER_COUNT, "Is the number of controllers from 1 to 7?")                           \
    X(4, TABLE, "Is the table well formed?")                                                      \
    X(5, RECORD, "Are the length byte and all the bytes it counts there?")                        \
    X(6, KIND, "Is there a kind, from 1 to 6?")                                                   \
    X(7, RECORD_LENGTH, "Is the length that of the kind?")                                        \
    X(8, CONTROLLER, "Is every controller named from 1 to n?")                                    \
    X(9, AMOUNT, "Is a report's amount from -360 to 360 and not 0?")                              \
    X(10, STOPPED, "Is the sender, receiver, or controller to be stopped or read still running?") \
    X(11, OWN_PENDING, "Has the sender of a sync or write no message of its own pending?")        \
    X(12, FULL, "Has the run fewer than 64 messages?")                                            \
    X(13, NO_ENTRY, "Does the log have an entry that the receiver has not read?")                 \
    X(14, KEPT, "Is the length kept at most the log's, and at least every read position in it?")  \
    X(15, SCRATCH, "Has the scratch area 64 bytes or more?")                                      \
    X(16, LISTING, "Does the line fit in what is left of the listing?")                           \
    X(17, CLASS, "Is the class of a report of version 2 from 1 to 4?")                            \
    X(18, READ_PENDING, "Has the controller of a local read no message of its own pending?")      \
    X(19, REGISTER, "Is the register of a write from 1 to 8?")                                    \
    X(20, NOT_SYNCED, "Is the latest message of a write's sender a sync that it has applied?")    \
    X(21, ACT_COUNT, "Is the act count of a commit its receiver's?")

enum {
    FURNACEJADE_ACCEPTED = 0,
#define FURNACEJADE_NUMBER(number, name, question) FURNACEJADE_REFUSED_##name = number,
    FURNACEJADE_REFUSALS(FURNACEJADE_NUMBER)
#undef FURNACEJADE_NUMBER
};

/* The question of a refusal number:
 *
 *     if (answer.refusal != FURNACEJADE_ACCEPTED)
 *         fprintf(stderr, "refused by question %d: %s\n", answer.refusal, furnacejade_question(answer.refusal));
 */
static inline const char *furnacejade_question(unsigned refusal) {
    switch (refusal) {
    case FURNACEJADE_ACCEPTED: return "none: accepted";
#define FURNACEJADE_CASE(number, name, question) \
    case number: return question;
        FURNACEJADE_REFUSALS(FURNACEJADE_CASE)
#undef FURNACEJADE_CASE
    default: return "no such number";
    }
}

/* A place in a log, 1 to 64; FURNACEJADE_ABSENT is absent. */
typedef struct { uint8_t value; } furnacejade_forward_number;

/* The number that a sender gives its message, 1 to 64; 0 is none. */
typedef struct { uint8_t value; } furnacejade_message_number;

/* What a message says. (The rules say class, which is a word of C++, and register, which is one of C.) */
typedef struct {
    uint8_t kind;         /* 1 report, 2 sync, 6 write */
    uint8_t weight_class; /* of a report of version 2: FURNACEJADE_CLASS_XL to _S; else FURNACEJADE_CLASS_NONE */
    uint16_t added;       /* the amount if positive, else 0 */
    uint16_t withdrawn;   /* its magnitude if negative, else 0 */
    uint16_t reg;         /* the register that a write sets, 1 to 8; else 0 */
    uint32_t value;       /* what it sets it to; else 0 */
} furnacejade_payload;

/* A message; its index in the table is its slot. */
typedef struct {
    uint8_t sender;                    /* 1 to n */
    furnacejade_message_number number; /* its place in its sender's log */
    uint16_t date;                     /* of a write: one more than its register's date at its sender; else 0 */
    furnacejade_payload payload;
} furnacejade_message;

/* A message's name outside the table, sender.number. */
typedef struct {
    uint8_t sender;
    furnacejade_message_number number;
} furnacejade_name;

/* What a controller knows of a message that is not applied there. */
typedef struct {
    uint8_t held;                                              /* pending there: 0 no, else yes */
    furnacejade_forward_number marks[FURNACEJADE_CONTROLLERS]; /* each controller's forward number for it */
} furnacejade_pending;

/* One controller. */
typedef struct {
    size_t length;                                               /* how many entries its log has */
    uint8_t log[FURNACEJADE_MESSAGES];                           /* the slots that it forwarded, in order */
    size_t read[FURNACEJADE_CONTROLLERS];                        /* how many entries of each log it has read */
    furnacejade_pending pending[FURNACEJADE_MESSAGES];           /* by slot */
    uint8_t applied[FURNACEJADE_MESSAGES];                       /* by slot: 0 no, else yes */
    furnacejade_message_number highest[FURNACEJADE_CONTROLLERS]; /* the highest number applied, of each sender */
    uint8_t running;                                             /* 0 stopped, else running */
} furnacejade_controller;

/* The table of a run, which its owner keeps and lends to each call. */
typedef struct {
    size_t version;                                              /* in which its records are read, 1 or 2 */
    size_t n;                                                    /* how many controllers */
    size_t count;                                                /* how many messages were sent */
    furnacejade_message messages[FURNACEJADE_MESSAGES];          /* in the order sent */
    furnacejade_controller controllers[FURNACEJADE_CONTROLLERS]; /* controller c at c - 1 */
} furnacejade_table;

/* Two sums of amounts, each from 0 to 23,040 and at most that together. */
typedef struct {
    uint32_t added;     /* of those above 0 */
    uint32_t withdrawn; /* of those below 0, with the sign dropped */
} furnacejade_sums;

/* The stamp of a write. Of two writes of a register the one with the greater date wins, and of two with one date that of
 * the greater writer. */
typedef struct {
    uint16_t date;   /* 1 or more; 0 if the register was not written */
    uint16_t writer; /* the controller that sent it; 0 if the register was not written */
} furnacejade_stamp;

/* A register as a panel shows it: the write with the greatest stamp among those that its controller has applied. */
typedef struct {
    uint32_t value;          /* 0 if the register was not written */
    furnacejade_stamp stamp; /* that of the write */
} furnacejade_register;

/* What a panel shows. */
typedef struct {
    furnacejade_sums sums;                                 /* over what its controller has applied */
    furnacejade_sums classes[FURNACEJADE_CLASSES];         /* those of each class, from FURNACEJADE_CLASS_NONE on; they add up to sums */
    furnacejade_register registers[FURNACEJADE_REGISTERS]; /* register r at r - 1 */
} furnacejade_panel;

/* What furnacejade_event answers, and what furnacejade_dispatch and furnacejade_commit answer of the handover that they made. */
typedef struct {
    uint8_t refusal;                              /* the refusal number, 0 if accepted */
    uint8_t finished;                             /* 1 if a sync of the receiver's own is in the set applied, else 0 */
    furnacejade_sums sums;                        /* then that sync's answer, the sums after the set; what an accepted local
                                                     read gives, with finished 0; else zeros */
    size_t size;                                  /* how many messages the set has */
    furnacejade_name names[FURNACEJADE_MESSAGES]; /* their names, by sender and then number; zeros after them */
} furnacejade_answer;

/* A handover by its numbers. */
typedef struct {
    size_t receiver; /* the controller that reads */
    size_t owner;    /* the owner of the log that it reads */
} furnacejade_pair;

/* What furnacejade_dispatch answers. Where it says "none" every field is 0, and where it is refused every field but
 * answer.refusal. */
typedef struct {
    furnacejade_pair pair;     /* the handover that was made, which the next call names; 0 and 0 if none was */
    furnacejade_answer answer; /* what furnacejade_event answers of that handover */
} furnacejade_dispatch_answer;

/* What furnacejade_ask answers. Where it is refused every field but refusal is 0. */
typedef struct {
    uint8_t refusal;                              /* the refusal number, 0 if accepted */
    size_t acts;                                  /* the receiver's act count, which furnacejade_commit is given */
    size_t size;                                  /* how many messages the set has that the handover would apply */
    furnacejade_name names[FURNACEJADE_MESSAGES]; /* their names, by sender and then number; zeros after them */
} furnacejade_ask_answer;

/* What furnacejade_fresh answers. */
typedef struct {
    uint8_t refusal;         /* the refusal number, 0 if accepted */
    furnacejade_table table; /* the fresh table; all zero if refused */
} furnacejade_fresh_answer;

/* What furnacejade_look answers. */
typedef struct {
    uint8_t refusal;         /* the refusal number, 0 if accepted */
    furnacejade_panel panel; /* what the panel shows; zero if refused */
} furnacejade_look_answer;

/* What furnacejade_count_before answers. */
typedef struct {
    uint8_t refusal; /* the refusal number, 0 if accepted */
    size_t count;    /* how many controllers put the first message before the second, 0 to n; 0 if refused */
} furnacejade_count_answer;

/* What furnacejade_run answers. */
typedef struct {
    uint8_t refusal;         /* the refusal number, 0 if the whole file was accepted */
    size_t events;           /* how many events were accepted */
    size_t written;          /* how many bytes of the listing were written */
    furnacejade_table table; /* the last table; all zero after refusals 1 to 3 */
} furnacejade_run_answer;

/* The layouts that the library was compiled with. */
#define FURNACEJADE_BYTES(type, bytes) FURNACEJADE_ASSERT(sizeof(type) == (bytes), "size of " #type)
#define FURNACEJADE_AT(type, field, place) FURNACEJADE_ASSERT(offsetof(type, field) == (place), "place of " #type "." #field)
#define FURNACEJADE_OF(type, field) sizeof(((type *)0)->field)
#define FURNACEJADE_FULLY(type, sum) FURNACEJADE_ASSERT(sizeof(type) == (sum), "padding in " #type)
FURNACEJADE_BYTES(furnacejade_forward_number, 1);
FURNACEJADE_BYTES(furnacejade_message_number, 1);
FURNACEJADE_BYTES(furnacejade_payload, 12);
FURNACEJADE_AT(furnacejade_payload, kind, 0);
FURNACEJADE_AT(furnacejade_payload, weight_class, 1);
FURNACEJADE_AT(furnacejade_payload, added, 2);
FURNACEJADE_AT(furnacejade_payload, withdrawn, 4);
FURNACEJADE_AT(furnacejade_payload, reg, 6);
FURNACEJADE_AT(furnacejade_payload, value, 8);
FURNACEJADE_BYTES(furnacejade_message, 16);
FURNACEJADE_AT(furnacejade_message, sender, 0);
FURNACEJADE_AT(furnacejade_message, number, 1);
FURNACEJADE_AT(furnacejade_message, date, 2);
FURNACEJADE_AT(furnacejade_message, payload, 4);
FURNACEJADE_BYTES(furnacejade_name, 2);
FURNACEJADE_AT(furnacejade_name, sender, 0);
FURNACEJADE_AT(furnacejade_name, number, 1);
FURNACEJADE_BYTES(furnacejade_pending, 8);
FURNACEJADE_AT(furnacejade_pending, held, 0);
FURNACEJADE_AT(furnacejade_pending, marks, 1);
FURNACEJADE_BYTES(furnacejade_controller, 712);
FURNACEJADE_AT(furnacejade_controller, length, 0);
FURNACEJADE_AT(furnacejade_controller, log, 8);
FURNACEJADE_AT(furnacejade_controller, read, 72);
FURNACEJADE_AT(furnacejade_controller, pending, 128);
FURNACEJADE_AT(furnacejade_controller, applied, 640);
FURNACEJADE_AT(furnacejade_controller, highest, 704);
FURNACEJADE_AT(furnacejade_controller, running, 711);
FURNACEJADE_BYTES(furnacejade_table, 6032);
FURNACEJADE_AT(furnacejade_table, version, 0);
FURNACEJADE_AT(furnacejade_table, n, 8);
FURNACEJADE_AT(furnacejade_table, count, 16);
FURNACEJADE_AT(furnacejade_table, messages, 24);
FURNACEJADE_AT(furnacejade_table, controllers, 1048);
FURNACEJADE_BYTES(furnacejade_sums, 8);
FURNACEJADE_AT(furnacejade_sums, added, 0);
FURNACEJADE_AT(furnacejade_sums, withdrawn, 4);
FURNACEJADE_BYTES(furnacejade_stamp, 4);
FURNACEJADE_AT(furnacejade_stamp, date, 0);
FURNACEJADE_AT(furnacejade_stamp, writer, 2);
FURNACEJADE_BYTES(furnacejade_register, 8);
FURNACEJADE_AT(furnacejade_register, value, 0);
FURNACEJADE_AT(furnacejade_register, stamp, 4);
FURNACEJADE_BYTES(furnacejade_panel, 112);
FURNACEJADE_AT(furnacejade_panel, sums, 0);
FURNACEJADE_AT(furnacejade_panel, classes, 8);
FURNACEJADE_AT(furnacejade_panel, registers, 48);
FURNACEJADE_BYTES(furnacejade_answer, 152);
FURNACEJADE_AT(furnacejade_answer, refusal, 0);
FURNACEJADE_AT(furnacejade_answer, finished, 1);
FURNACEJADE_AT(furnacejade_answer, sums, 4);
FURNACEJADE_AT(furnacejade_answer, size, 16);
FURNACEJADE_AT(furnacejade_answer, names, 24);
FURNACEJADE_BYTES(furnacejade_pair, 16);
FURNACEJADE_AT(furnacejade_pair, receiver, 0);
FURNACEJADE_AT(furnacejade_pair, owner, 8);
FURNACEJADE_BYTES(furnacejade_dispatch_answer, 168);
FURNACEJADE_AT(furnacejade_dispatch_answer, pair, 0);
FURNACEJADE_AT(furnacejade_dispatch_answer, answer, 16);
FURNACEJADE_BYTES(furnacejade_ask_answer, 152);
FURNACEJADE_AT(furnacejade_ask_answer, refusal, 0);
FURNACEJADE_AT(furnacejade_ask_answer, acts, 8);
FURNACEJADE_AT(furnacejade_ask_answer, size, 16);
FURNACEJADE_AT(furnacejade_ask_answer, names, 24);
FURNACEJADE_BYTES(furnacejade_fresh_answer, 6040);
FURNACEJADE_AT(furnacejade_fresh_answer, refusal, 0);
FURNACEJADE_AT(furnacejade_fresh_answer, table, 8);
FURNACEJADE_BYTES(furnacejade_look_answer, 116);
FURNACEJADE_AT(furnacejade_look_answer, refusal, 0);
FURNACEJADE_AT(furnacejade_look_answer, panel, 4);
FURNACEJADE_BYTES(furnacejade_count_answer, 16);
FURNACEJADE_AT(furnacejade_count_answer, refusal, 0);
FURNACEJADE_AT(furnacejade_count_answer, count, 8);
FURNACEJADE_BYTES(furnacejade_run_answer, 6056);
FURNACEJADE_AT(furnacejade_run_answer, refusal, 0);
FURNACEJADE_AT(furnacejade_run_answer, events, 8);
FURNACEJADE_AT(furnacejade_run_answer, written, 16);
FURNACEJADE_AT(furnacejade_run_answer, table, 24);

/* No padding, so that a table's bytes are its fields and nothing else. */
FURNACEJADE_FULLY(furnacejade_payload,
                  FURNACEJADE_OF(furnacejade_payload, kind) + FURNACEJADE_OF(furnacejade_payload, weight_class)
                      + FURNACEJADE_OF(furnacejade_payload, added) + FURNACEJADE_OF(furnacejade_payload, withdrawn)
                      + FURNACEJADE_OF(furnacejade_payload, reg) + FURNACEJADE_OF(furnacejade_payload, value));
FURNACEJADE_FULLY(furnacejade_message,
                  FURNACEJADE_OF(furnacejade_message, sender) + FURNACEJADE_OF(furnacejade_message, number)
                      + FURNACEJADE_OF(furnacejade_message, date) + FURNACEJADE_OF(furnacejade_message, payload));
FURNACEJADE_FULLY(furnacejade_pending, FURNACEJADE_OF(furnacejade_pending, held) + FURNACEJADE_OF(furnacejade_pending, marks));
FURNACEJADE_FULLY(furnacejade_controller,
                  FURNACEJADE_OF(furnacejade_controller, length) + FURNACEJADE_OF(furnacejade_controller, log)
                      + FURNACEJADE_OF(furnacejade_controller, read) + FURNACEJADE_OF(furnacejade_controller, pending)
                      + FURNACEJADE_OF(furnacejade_controller, applied) + FURNACEJADE_OF(furnacejade_controller, highest)
                      + FURNACEJADE_OF(furnacejade_controller, running));
FURNACEJADE_FULLY(furnacejade_table,
                  FURNACEJADE_OF(furnacejade_table, version) + FURNACEJADE_OF(furnacejade_table, n)
                      + FURNACEJADE_OF(furnacejade_table, count) + FURNACEJADE_OF(furnacejade_table, messages)
                      + FURNACEJADE_OF(furnacejade_table, controllers));
#undef FURNACEJADE_FULLY
#undef FURNACEJADE_OF
#undef FURNACEJADE_AT
#undef FURNACEJADE_BYTES
#undef FURNACEJADE_ASSERT

/* RECORDS. Each is made by value, so that no place can be too small for it. A field may hold anything: the event that is made
 * of the record answers what is wrong with it. A number that its bytes cannot hold becomes the greatest (or least) that they
 * can, which no question lets pass: lane 257 is not taken for lane 1. Only a register's value has no such number; it has 32
 * bits. A report is written for tables and files of one version; the other records are the same in both.
 *
 *     furnacejade_play(table, furnacejade_record_handover(2, 1), scratch, sizeof scratch, &answer);
 */
typedef struct {
    size_t length; /* how many bytes the record has, its length byte among them */
    uint8_t bytes[FURNACEJADE_LONGEST_RECORD];
} furnacejade_record;

/* A number as one byte: 255 if it is greater. */
static inline uint8_t furnacejade_byte(size_t number) { return number < 255 ? (uint8_t)number : 255; }

/* A length as two bytes: 65,535 if it is greater. */
static inline uint16_t furnacejade_length(size_t length) { return length < 65535 ? (uint16_t)length : 65535; }

/* An amount as two bytes: -32,768 or 32,767 if it is beyond. */
static inline uint16_t furnacejade_amount(long amount) {
    return (uint16_t)(amount < -32768 ? -32768 : amount > 32767 ? 32767 : amount);
}

/* Kind 1 in version 1: a report of an amount by its sender. Any number of a sender's reports may be pending. */
static inline furnacejade_record furnacejade_record_report(size_t sender, long amount) {
    uint16_t two = furnacejade_amount(amount);
    furnacejade_record record = {5, {4, 1, furnacejade_byte(sender), (uint8_t)(two >> 8), (uint8_t)(two & 255)}};
    return record;
}

/* Kind 1 in version 2: a report of an amount of one weight class by its sender. */
static inline furnacejade_record furnacejade_record_classed_report(size_t sender, long amount, size_t weight_class) {
    uint16_t two = furnacejade_amount(amount);
    furnacejade_record record = {
        6, {5, 1, furnacejade_byte(sender), (uint8_t)(two >> 8), (uint8_t)(two & 255), furnacejade_byte(weight_class)}};
    return record;
}

/* Kind 2: a sync by its sender. The handover with which the sender applies it answers finished 1 and the sums; the next call
 * overwrites that answer. A message is finished when its own sender has applied it: every message of any controller that was
 * finished before the sync was sent is in these sums. A sync is refused (11) while a message of the sender's own is pending. */
static inline furnacejade_record furnacejade_record_sync(size_t sender) {
    furnacejade_record record = {3, {2, 2, furnacejade_byte(sender)}};
    return record;
}

/* Kind 3: a handover to a receiver of the next entry of an owner's log. */
static inline furnacejade_record furnacejade_record_handover(size_t receiver, size_t owner) {
    furnacejade_record record = {4, {3, 3, furnacejade_byte(receiver), furnacejade_byte(owner)}};
    return record;
}

/* Kind 4: a stop of a controller, whose log is cut to the length kept. */
static inline furnacejade_record furnacejade_record_stop(size_t controller, size_t kept) {
    uint16_t two = furnacejade_length(kept);
    furnacejade_record record = {5, {4, 4, furnacejade_byte(controller), (uint8_t)(two >> 8), (uint8_t)(two & 255)}};
    return record;
}

/* Kind 5: a local read of a controller's sums. It sends no message and leaves the table as it is. The sums stand in the
 * answer, and may lack what is finished elsewhere. It is refused (18) while a message of the controller's own is pending. */
static inline furnacejade_record furnacejade_record_local_read(size_t controller) {
    furnacejade_record record = {3, {2, 5, furnacejade_byte(controller)}};
    return record;
}

/* Kind 6: a write of a register, 1 to 8, by its sender. Its sender sends a sync first, applies it, and then writes before it
 * sends anything else. A write is refused (20) if the sender's latest message is no sync, and (11) while a message of the
 * sender's own is pending. */
static inline furnacejade_record furnacejade_record_write(size_t sender, size_t reg, uint32_t value) {
    furnacejade_record record = {
        8, {7, 6, furnacejade_byte(sender), furnacejade_byte(reg), (uint8_t)(value >> 24), (uint8_t)(value >> 16 & 255),
            (uint8_t)(value >> 8 & 255), (uint8_t)(value & 255)}};
    return record;
}

/* RUN FILES. A file is written from its head on into a place with room for a given number of bytes, and *length counts what
 * has been written. Each function returns 1 if its bytes fit. Otherwise it writes nothing and returns 0, and *length becomes 0
 * and stays that: no record is put while *length is below 2, and furnacejade_run refuses the file by question 1. The compiler
 * warns where the result is not looked at.
 *
 *     size_t length;
 *     if (!furnacejade_put_head(file, sizeof file, &length, 1, 3)
 *         || !furnacejade_put_record(file, sizeof file, &length, furnacejade_record_report(1, 30))
 *         || !furnacejade_put_record(file, sizeof file, &length, furnacejade_record_handover(2, 1))) return EXIT_FAILURE;
 */
#if defined(__GNUC__)
#define FURNACEJADE_USE_RESULT __attribute__((warn_unused_result))
#else
#define FURNACEJADE_USE_RESULT
#endif

/* The two bytes that a run file begins with: its version, 1 or 2, and the number of controllers. It sets *length. */
FURNACEJADE_USE_RESULT static inline int furnacejade_put_head(uint8_t *file, size_t room, size_t *length, size_t version, size_t n) {
    *length = 0;
    if (room < FURNACEJADE_HEAD) return 0;
    file[0] = furnacejade_byte(version);
    file[1] = furnacejade_byte(n);
    *length = FURNACEJADE_HEAD;
    return 1;
}

/* One more record at the end of the file. */
FURNACEJADE_USE_RESULT static inline int furnacejade_put_record(uint8_t *file, size_t room, size_t *length, furnacejade_record record) {
    size_t end = *length;
    *length = 0;
    if (end < FURNACEJADE_HEAD || end > room || record.length > sizeof record.bytes || room - end < record.length) return 0;
    for (size_t i = 0; i < record.length; i++) file[end + i] = record.bytes[i];
    *length = end + record.length;
    return 1;
}
#undef FURNACEJADE_USE_RESULT

/* OVER A TABLE. What a caller asks most of a table, read from its fields. These functions are tested, and not proved as the
 * calls are. They change nothing and take any table, also one that is not well formed. A controller outside 1 to n has no
 * log, has sent nothing and does not run. */

/* n, and at most 7. */
static inline size_t furnacejade_controllers(const furnacejade_table *t) {
    if (t->n > FURNACEJADE_CONTROLLERS) return FURNACEJADE_CONTROLLERS;
    return t->n;
}

/* How many messages were sent, and at most 64. */
static inline size_t furnacejade_messages(const furnacejade_table *t) {
    if (t->count > FURNACEJADE_MESSAGES) return FURNACEJADE_MESSAGES;
    return t->count;
}

/* A controller by its number; NULL outside 1 to n. */
static inline const furnacejade_controller *furnacejade_controller_of(const furnacejade_table *t, size_t c) {
    return c == 0 || c > furnacejade_controllers(t) ? NULL : &t->controllers[c - 1];
}

/* Whether a controller runs. Question 10 asks this of the controller that acts. */
static inline int furnacejade_runs(const furnacejade_table *t, size_t c) {
    const furnacejade_controller *controller = furnacejade_controller_of(t, c);
    return controller && controller->running;
}

/* The name of the latest message of a sender, which is the one with the greatest number; 0.0 if it has sent none. After an
 * accepted report, sync or write of the sender it is the message just sent. Question 20 asks whether it is an applied sync.
 *
 *     furnacejade_name sent = furnacejade_latest(table, 1);
 *     printf("sent %d.%d\n", sent.sender, sent.number.value);
 */
static inline furnacejade_name furnacejade_latest(const furnacejade_table *t, size_t sender) {
    furnacejade_name latest = {0, {0}};
    if (!furnacejade_controller_of(t, sender)) return latest;
    for (size_t slot = 0; slot < furnacejade_messages(t); slot++) {
        const furnacejade_message *message = &t->messages[slot];
        if (message->sender != sender || message->number.value < latest.number.value) continue;
        latest.sender = message->sender;
        latest.number = message->number;
    }
    return latest;
}

/* The states of a message at a controller (docs/RULES.md, section 3). */
enum {
    FURNACEJADE_UNKNOWN = 0, /* the controller has not heard of it, or no message has this name */
    FURNACEJADE_PENDING = 1, /* the controller has heard of it, and has not applied it */
    FURNACEJADE_APPLIED = 2, /* the controller has applied it */
    FURNACEJADE_CUT_OFF = 3  /* its sender stopped, and its entry in the sender's log went with the cut: nobody will apply it */
};

/* The state of a message at a controller. A message that was cut off has that state wherever it is not applied, at its
 * stopped sender too, where it stays pending for good. (It can be applied only where its sender is the only controller.) */
static inline unsigned furnacejade_state(const furnacejade_table *t, size_t c, furnacejade_name message) {
    const furnacejade_controller *controller = furnacejade_controller_of(t, c);
    const furnacejade_controller *sender = furnacejade_controller_of(t, message.sender);
    size_t slot = 0;
    while (slot < furnacejade_messages(t)
           && (t->messages[slot].sender != message.sender || t->messages[slot].number.value != message.number.value)) slot++;
    if (!controller || !sender || slot == furnacejade_messages(t)) return FURNACEJADE_UNKNOWN;
    if (controller->applied[slot]) return FURNACEJADE_APPLIED;
    if (!sender->running && message.number.value > sender->length) return FURNACEJADE_CUT_OFF;
    return controller->pending[slot].held ? FURNACEJADE_PENDING : FURNACEJADE_UNKNOWN;
}

/* How many entries of an owner's log a receiver has not read. Question 13 asks whether there is one. A receiver that has
 * stopped keeps its unread entries for good: a loop that hands over asks furnacejade_runs too, or lets furnacejade_dispatch
 * choose. */
static inline size_t furnacejade_unread(const furnacejade_table *t, size_t receiver, size_t owner) {
    const furnacejade_controller *reader = furnacejade_controller_of(t, receiver), *log = furnacejade_controller_of(t, owner);
    if (!reader || !log || log->length < reader->read[owner - 1]) return 0;
    return log->length - reader->read[owner - 1];
}

/* The least length that a stop of a controller may keep, which is the greatest read position that anybody has in its log, and
 * the greatest, which is the log's length. Question 14 asks whether the length kept is one from the least to the greatest. (A
 * controller that has stopped is not stopped again: question 10 comes first.) A length is given as a stop's record has it, which
 * is 65,535 if it is greater; no well-formed table has such a length. */
static inline size_t furnacejade_least_kept(const furnacejade_table *t, size_t c) {
    size_t least = 0;
    if (!furnacejade_controller_of(t, c)) return 0;
    for (size_t reader = 0; reader < furnacejade_controllers(t); reader++)
        if (least < t->controllers[reader].read[c - 1]) least = t->controllers[reader].read[c - 1];
    return furnacejade_length(least);
}
static inline size_t furnacejade_most_kept(const furnacejade_table *t, size_t c) {
    const furnacejade_controller *controller = furnacejade_controller_of(t, c);
    return controller ? furnacejade_length(controller->length) : 0;
}

/* THE CALLS. */

/* The number of the interface that the library was built with. It is FURNACEJADE_INTERFACE, or header and library do not
 * belong together. The number goes up whenever a struct, a constant, a refusal or a call changes. */
size_t furnacejade_interface(void);

/* A fresh table of n controllers, 1 to 7: all run, nothing was sent. Its version, 1 or 2, says whether its reports name a
 * class, and stays. Questions 2 and 3 are put. Takes 31 KB of stack.
 *
 *     static furnacejade_fresh_answer start;
 *     furnacejade_fresh(2, 5, &start);
 *     furnacejade_table *table = &start.table;
 */
void furnacejade_fresh(size_t version, size_t n, furnacejade_fresh_answer *answer);

/* One event: bytes is the rest of a file from a record on, and the record with which it begins is carried out. The table's
 * version says how long a report is. Questions 4 to 8, 10 and 15 are put to every record; besides them 9 and 12 to a report,
 * and 17 after 9 in version 2; 11 and 12 to a sync; 13 to a handover; 14 to a stop; 18 to a local read; 19, 11, 12 and 20 to a
 * write. Returns how many bytes are left: the unread rest is that many bytes at the end of bytes. An accepted event leaves the
 * table as the rules say, the first 64 scratch bytes zero and later ones as they were. A refused one leaves table and scratch as
 * they were, and the record in the rest: a loop that goes on must step over it, by 1 + its length byte. Takes 19 KB of stack.
 *
 *     while (size > 0) {
 *         size_t left = furnacejade_event(table, bytes, size, scratch, sizeof scratch, &answer);
 *         if (answer.refusal != FURNACEJADE_ACCEPTED) break;
 *         bytes += size - left;
 *         size = left;
 *     }
 */
size_t furnacejade_event(furnacejade_table *t, const uint8_t *bytes, size_t bytes_length, uint8_t *scratch, size_t scratch_length, furnacejade_answer *answer);

/* One event, of a record. Returns its refusal number, 0 if accepted. Of a record with more than its 8 bytes, 8 are read.
 *
 *     furnacejade_play(table, furnacejade_record_classed_report(1, 30, FURNACEJADE_CLASS_XL), scratch, sizeof scratch, &answer);
 *     if (furnacejade_play(table, furnacejade_record_local_read(2), scratch, sizeof scratch, &answer) == FURNACEJADE_ACCEPTED)
 *         printf("2 reads %u %u\n", answer.sums.added, answer.sums.withdrawn);
 */
static inline unsigned furnacejade_play(furnacejade_table *t, furnacejade_record record, uint8_t *scratch, size_t scratch_length, furnacejade_answer *answer) {
    size_t length = record.length < sizeof record.bytes ? record.length : sizeof record.bytes;
    furnacejade_event(t, record.bytes, length, scratch, scratch_length, answer);
    return answer->refusal;
}

/* The dispatcher: the next handover, where every pair of a receiver and a log owner gets its turn. The pair named, receiver
 * and owner, is the one that the dispatcher served last, and n and n at first. The dispatcher goes round all n x n pairs, by
 * receiver and then owner, from the pair after the one named, which comes last. It passes over stopped receivers and over
 * pairs without an unread entry. (A log owner may have stopped.) The first handover that is left is carried out, and the
 * answer has its pair and what furnacejade_event answers of it. If no handover is left it says "none": refusal 0 and the pair
 * 0 and 0. Questions 4 and 8 are put, 8 to both numbers of the pair named; then it may say "none"; then 15 is put. A handover
 * leaves table and scratch as the same event does. "None" and a refusal leave them as they were. Takes 19 KB of stack.
 *
 * Where each call names the pair that the call before it served, and nobody stops, an entry that is next for a running receiver
 * is read within n x n handovers of the dispatcher, whatever other calls are made in between. A run has at most 3,136 accepted
 * handovers in all, so this loop comes to an end. If it ends with "none", every running controller has read every log to its
 * end.
 *
 *     furnacejade_dispatch_answer next;
 *     next.pair.receiver = next.pair.owner = table->n;
 *     do furnacejade_dispatch(table, next.pair.receiver, next.pair.owner, scratch, sizeof scratch, &next);
 *     while (next.pair.receiver > 0);
 *     if (next.answer.refusal != FURNACEJADE_ACCEPTED) return EXIT_FAILURE;
 */
void furnacejade_dispatch(furnacejade_table *t, size_t receiver, size_t owner, uint8_t *scratch, size_t scratch_length, furnacejade_dispatch_answer *answer);

/* An ask: the set that the handover to a receiver from the log of an owner would apply, without that handover, and the
 * receiver's act count. The act count is how often the receiver has acted in the run: how many messages it has sent, those that
 * were cut off among them, and how many handovers it was the receiver of. Local reads, looks, counts and asks are no acts.
 * Questions 4, 8, 10, 13 and 15 are put, 8 to receiver and owner. The table stays as it is. An accepted ask leaves scratch as an
 * event does, a refused one as it was. Takes 7 KB of stack. */
void furnacejade_ask(const furnacejade_table *t, size_t receiver, size_t owner, uint8_t *scratch, size_t scratch_length, furnacejade_ask_answer *answer);

/* A commit: the handover to a receiver from the log of an owner, made only if the receiver has acted as often as acts says.
 * It is given what an ask of the same receiver and owner answered as acts. Questions 4, 8, 10, 21, 13 and 15 are put, in this
 * order, 8 to receiver and owner; 21 is no if acts is not the receiver's act count. An accepted commit answers and leaves, table
 * and scratch, what the handover's record does. A refused one leaves both as they were. Takes 20 KB of stack.
 *
 * The set applied is the one that the ask showed, whatever other controllers did in between. As long as the receiver has not
 * acted since the ask, the commit is accepted, unless a stop of the owner has cut the entry away, and then 13 refuses it.
 *
 *     furnacejade_ask_answer shown;
 *     furnacejade_ask(table, 2, 1, scratch, sizeof scratch, &shown);
 *     if (shown.refusal != FURNACEJADE_ACCEPTED) return EXIT_FAILURE;
 *     printf("panel 2 would apply %zu messages\n", shown.size);
 *     furnacejade_commit(table, 2, 1, shown.acts, scratch, sizeof scratch, &answer);
 *     if (answer.refusal == FURNACEJADE_REFUSED_ACT_COUNT) printf("2 has acted since: ask again\n");
 */
void furnacejade_commit(furnacejade_table *t, size_t receiver, size_t owner, size_t acts, uint8_t *scratch, size_t scratch_length, furnacejade_answer *answer);

/* A panel look at controller c, 1 to n, running or stopped. Questions 4 and 8 are put. Nothing but the answer is written.
 * Takes 6 KB of stack.
 *
 *     furnacejade_look_answer look;
 *     furnacejade_look(table, 2, &look);
 *     const furnacejade_sums *whole = &look.panel.sums, *xl = &look.panel.classes[FURNACEJADE_CLASS_XL];
 *     if (look.refusal == FURNACEJADE_ACCEPTED)
 *         printf("panel 2 shows %u %u, of XL %u %u\n", whole->added, whole->withdrawn, xl->added, xl->withdrawn);
 *     const furnacejade_register *belt = &look.panel.registers[0];
 *     printf("register 1 is %u, set by %d\n", belt->value, belt->stamp.writer);
 */
void furnacejade_look(const furnacejade_table *t, size_t c, furnacejade_look_answer *answer);

/* How many of the controllers 1 to n put the first message before the second at controller c, 1 to n, running or stopped: of the
 * marks that c keeps, those are counted that are smaller for the first than for the second. An absent mark is greater than
 * every number, and not less than another absent one. If the count is at least the majority, n / 2 + 1, the first goes before
 * the second. A message that is not pending at c, or is not of the run, has every mark absent there. So a pending message
 * counts all its marks before a message that is not pending, and a message that is not pending counts 0 before every other. A
 * message counts 0 before itself. Questions 4 and 8 are put, 8 to c alone: a name may hold anything. Nothing but the answer is
 * written. Takes 6 KB of stack.
 *
 *     const furnacejade_name first = {3, {1}}, second = {1, {1}};
 *     furnacejade_count_answer before;
 *     furnacejade_count_before(table, 3, &first, &second, &before);
 *     if (before.refusal == FURNACEJADE_ACCEPTED)
 *         printf("%zu put 3.1 before 1.1, %zu needed\n", before.count, table->n / 2 + 1);
 */
void furnacejade_count_before(const furnacejade_table *t, size_t c, const furnacejade_name *first, const furnacejade_name *second, furnacejade_count_answer *answer);

/* A whole run file, from a fresh table of its own, which has the file's version, up to the first refusal. Its lines, one for
 * each set applied, are written into the listing from the start on; the bytes after them stay. A local read counts as an
 * event and has no line. Where a record is refused, the listing keeps the lines of the events before it, the answer has the
 * table that they left, and the first 64 scratch bytes are zero if any event was accepted; later ones are as they were. A file
 * refused by questions 1 to 3 changes neither listing nor scratch. Takes 27 KB of stack.
 *
 *     static uint8_t listing[FURNACEJADE_LISTING];
 *     furnacejade_run(file, size, listing, sizeof listing, scratch, sizeof scratch, &run);
 *     fwrite(listing, 1, run.written, stdout);
 */
void furnacejade_run(const uint8_t *bytes, size_t bytes_length, uint8_t *listing, size_t listing_length, uint8_t *scratch, size_t scratch_length, furnacejade_run_answer *answer);

#ifdef __cplusplus
}
#endif

#endif
