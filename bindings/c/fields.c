/* Writes every field of a table from C, one at a time, and sees through the calls that the engine reads it there, and that it
 * reads nothing else; sees that equal calls make equal tables byte for byte, whatever stood in their memory before; writes
 * every record, and files into places that are too small; sees that the dispatcher makes the handover that is next, as the event
 * would, that an ask shows the set of a handover and its receiver's act count, and that a commit with that count makes it; lends
 * every call too little scratch, enough and more, and looks at each byte of it and around it; and lends random bytes as a table,
 * which the engine answers like any other. */
#include <limits.h>
#include <stdio.h>
#include <stdlib.h>
#include <string.h>

#include "furnacejade.h"

static furnacejade_table good;
static uint8_t scratch[FURNACEJADE_SCRATCH];
static unsigned tests;

/* One event, of a record. */
static uint8_t play(furnacejade_table *table, furnacejade_record record, furnacejade_answer *answer) {
    memset(answer, 0xA5, sizeof *answer);
    unsigned refusal = furnacejade_play(table, record, scratch, sizeof scratch, answer);
    if (refusal != answer->refusal) {
        printf("furnacejade_play returned another refusal than it answered\n");
        exit(EXIT_FAILURE);
    }
    return answer->refusal;
}

static uint8_t look(const furnacejade_table *table, size_t controller) {
    furnacejade_look_answer answer;
    memset(&answer, 0xA5, sizeof answer);
    furnacejade_look(table, controller, &answer);
    return answer.refusal;
}

static uint8_t event(furnacejade_table *table, const uint8_t *bytes, size_t length, furnacejade_answer *answer) {
    memset(answer, 0xA5, sizeof *answer);
    size_t left = furnacejade_event(table, bytes, length, scratch, sizeof scratch, answer);
    if (answer->refusal != 0 && left != length) {
        printf("a refused event used bytes\n");
        exit(EXIT_FAILURE);
    }
    return answer->refusal;
}

static void expect(uint8_t got, uint8_t wanted, const char *field, size_t i, size_t j) {
    tests++;
    if (got == wanted) return;
    printf("%s, %zu %zu: %d, not %d\n", field, i, j, got, wanted);
    exit(EXIT_FAILURE);
}

static void expect_register(furnacejade_register got, furnacejade_register wanted, const char *field, size_t i, size_t j) {
    int same = got.stamp.date == wanted.stamp.date && got.stamp.writer == wanted.stamp.writer;
    expect((uint8_t)(same && got.value == wanted.value), 1, field, i, j);
}

static void expect_sums(furnacejade_sums got, furnacejade_sums wanted, const char *field, size_t i, size_t j) {
    expect((uint8_t)(got.added == wanted.added && got.withdrawn == wanted.withdrawn), 1, field, i, j);
}

/* With this field changed, a look answers this refusal number. */
#define CHANGED(field, value, wanted, i, j)              \
    do {                                                 \
        furnacejade_table t = good;                      \
        t.field = (value);                               \
        expect(look(&t, 1), (wanted), #field, (i), (j)); \
    } while (0)

/* With this field changed the table is not well formed; with that one it still is. */
#define BREAKS(field, value, i, j) CHANGED(field, value, FURNACEJADE_REFUSED_TABLE, i, j)
#define FREE(field, value, i, j) CHANGED(field, value, FURNACEJADE_ACCEPTED, i, j)

/* The class of controller c's report in a table of version 2: each class comes. */
static uint8_t class_of(size_t c) { return (uint8_t)(1 + c % FURNACEJADE_CLASS_S); }

/* A table of this version with seven controllers; each has sent one report and read nothing. */
static void start(uint8_t version) {
    static furnacejade_fresh_answer fresh;
    static furnacejade_answer answer;
    furnacejade_fresh(version, FURNACEJADE_CONTROLLERS, &fresh);
    expect(fresh.refusal, 0, "fresh", version, 0);
    expect((uint8_t)fresh.table.version, version, "version", version, 0);
    good = fresh.table;
    for (uint8_t c = 1; c <= FURNACEJADE_CONTROLLERS; c++) {
        const uint8_t report[] = {4, 1, c, 0, c}, classed[] = {5, 1, c, 0, c, class_of(c)};
        uint8_t refusal = version == 2 ? event(&good, classed, sizeof classed, &answer) : event(&good, report, sizeof report, &answer);
        expect(refusal, 0, "report", c, version);
    }
    expect(look(&good, 1), 0, "good table", version, 0);
}

/* Whether a report may have a class is the version's to say. */
static void classes(uint8_t version) {
    BREAKS(version, 0, version, 0);
    BREAKS(version, 3, version, 0);
    BREAKS(version, 3u - version, version, 0);
    for (size_t s = 0; s < FURNACEJADE_CONTROLLERS; s++) {
        expect(good.messages[s].payload.weight_class, version == 2 ? class_of(s + 1) : 0, "weight_class", s, version);
        for (unsigned k = 0; k < 256; k++) {
            int fair = version == 2 ? k >= FURNACEJADE_CLASS_XL && k <= FURNACEJADE_CLASS_S : k == FURNACEJADE_CLASS_NONE;
            CHANGED(messages[s].payload.weight_class, (uint8_t)k, fair ? FURNACEJADE_ACCEPTED : FURNACEJADE_REFUSED_TABLE, s, k);
        }
    }
}

static void messages(void) {
    BREAKS(n, 0, 0, 0);
    BREAKS(n, 8, 0, 0);
    BREAKS(count, 65, 0, 0);
    for (size_t s = 0; s < FURNACEJADE_CONTROLLERS; s++) {
        BREAKS(messages[s].sender, 8, s, 0);
        BREAKS(messages[s].number.value, 65, s, 0);
        BREAKS(messages[s].payload.kind, 3, s, 0);
        BREAKS(messages[s].payload.added, 361, s, 0);
        BREAKS(messages[s].payload.withdrawn, 1, s, 0);
        BREAKS(messages[s].payload.reg, 1, s, 0);
        BREAKS(messages[s].payload.value, 1, s, 0);
        BREAKS(messages[s].date, 1, s, 0);
    }
}

static void controllers(void) {
    for (size_t c = 0; c < FURNACEJADE_CONTROLLERS; c++) {
        BREAKS(controllers[c].length, 65, c, 0);
        BREAKS(controllers[c].log[0], 64, c, 0);
        BREAKS(controllers[c].pending[c].held, 0, c, 0);
        for (size_t o = 0; o < FURNACEJADE_CONTROLLERS; o++) {
            BREAKS(controllers[c].read[o], 2, c, o);
            BREAKS(controllers[c].highest[o].value, 1, c, o);
            BREAKS(controllers[c].pending[c].marks[o].value, 65, c, o);
        }
        for (size_t s = 0; s < FURNACEJADE_MESSAGES; s++) {
            BREAKS(controllers[c].applied[s], 1, c, s);
            if (s != c) BREAKS(controllers[c].pending[s].held, 1, c, s);
        }
        furnacejade_table t = good;
        furnacejade_answer answer;
        const uint8_t sync[] = {2, 2, (uint8_t)(c + 1)}, local_read[] = {2, 5, (uint8_t)(c + 1)};
        expect(event(&t, sync, sizeof sync, &answer), 11, "running", c, 1);
        expect(event(&t, local_read, sizeof local_read, &answer), 18, "running", c, 1);
        t.controllers[c].running = 0;
        expect(event(&t, sync, sizeof sync, &answer), 10, "running", c, 0);
        expect(event(&t, local_read, sizeof local_read, &answer), 10, "running", c, 0);
    }
}

/* A table with 64 syncs of controller 1, all of them in every log, and applied or pending everywhere. */
static furnacejade_table full(int applied) {
    furnacejade_table t = good;
    for (size_t s = 0; s < FURNACEJADE_MESSAGES; s++) {
        furnacejade_message *m = &t.messages[s];
        m->sender = 1;
        m->number.value = (uint8_t)(s + 1);
        m->payload.kind = 2;
        m->payload.weight_class = FURNACEJADE_CLASS_NONE;
        m->payload.added = m->payload.withdrawn = m->payload.reg = 0;
        m->payload.value = 0;
        m->date = 0;
    }
    t.count = FURNACEJADE_MESSAGES;
    for (size_t c = 0; c < FURNACEJADE_CONTROLLERS; c++) {
        furnacejade_controller *x = &t.controllers[c];
        x->length = FURNACEJADE_MESSAGES;
        x->highest[0].value = applied ? FURNACEJADE_MESSAGES : 0;
        for (size_t s = 0; s < FURNACEJADE_MESSAGES; s++) {
            x->log[s] = (uint8_t)s;
            x->pending[s].held = !applied;
            x->applied[s] = (uint8_t)applied;
        }
    }
    expect(look(&t, 1), 0, "full table", (size_t)applied, 0);
    return t;
}

/* Every place of every array is read where it stands. */
static void arrays(void) {
    good = full(1);
    FREE(version, 1, 0, 0);
    FREE(version, 2, 0, 0);
    for (size_t s = 0; s < FURNACEJADE_MESSAGES; s++) {
        BREAKS(messages[s].sender, 8, s, 0);
        BREAKS(messages[s].number.value, 65, s, 0);
        BREAKS(messages[s].payload.kind, 3, s, 0);
        BREAKS(messages[s].payload.weight_class, FURNACEJADE_CLASS_XL, s, 0);
        BREAKS(messages[s].payload.added, 1, s, 0);
        BREAKS(messages[s].payload.withdrawn, 1, s, 0);
        BREAKS(messages[s].payload.reg, 1, s, 0);
        BREAKS(messages[s].payload.value, 1, s, 0);
        BREAKS(messages[s].date, 1, s, 0);
    }
    for (size_t c = 0; c < FURNACEJADE_CONTROLLERS; c++)
        for (size_t s = 0; s < FURNACEJADE_MESSAGES; s++) {
            BREAKS(controllers[c].log[s], FURNACEJADE_MESSAGES, c, s);
            BREAKS(controllers[c].applied[s], 0, c, s);
        }
    good = full(0);
    for (size_t c = 0; c < FURNACEJADE_CONTROLLERS; c++)
        for (size_t s = 0; s < FURNACEJADE_MESSAGES; s++)
            for (size_t f = 0; f < FURNACEJADE_CONTROLLERS; f++) BREAKS(controllers[c].pending[s].marks[f].value, 65, c * 64 + s, f);
}

/* 64 applied writes, eight of each register, with dates from 1: register, value and date are read where they stand, and what a
 * panel shows is the last of each register. */
static void writes(void) {
    enum { EACH = FURNACEJADE_MESSAGES / FURNACEJADE_REGISTERS };
    furnacejade_look_answer shown;
    good = full(1);
    for (size_t s = 0; s < FURNACEJADE_MESSAGES; s++) {
        furnacejade_message *m = &good.messages[s];
        m->payload.kind = 6;
        m->payload.reg = (uint16_t)(1 + s % FURNACEJADE_REGISTERS);
        m->payload.value = 0x01020300u + (uint32_t)s;
        m->date = (uint16_t)(1 + s / FURNACEJADE_REGISTERS);
    }
    FREE(version, 1, 0, 0);
    FREE(version, 2, 0, 0);
    for (size_t s = 0; s < FURNACEJADE_MESSAGES; s++) {
        FREE(messages[s].payload.value, UINT32_MAX, s, 0);
        FREE(messages[s].date, (uint16_t)(EACH + 1), s, 0);
        FREE(messages[s].date, FURNACEJADE_MESSAGES, s, 0);
        BREAKS(messages[s].date, 0, s, 0);
        BREAKS(messages[s].date, FURNACEJADE_MESSAGES + 1, s, 0);
        BREAKS(messages[s].date, (uint16_t)(good.messages[s].date + 256), s, 0);
        BREAKS(messages[s].date, (uint16_t)(1 + good.messages[s].date % EACH), s, 0);
        BREAKS(messages[s].payload.reg, (uint16_t)(1 + good.messages[s].payload.reg % FURNACEJADE_REGISTERS), s, 0);
        BREAKS(messages[s].payload.reg, 0, s, 0);
        BREAKS(messages[s].payload.reg, FURNACEJADE_REGISTERS + 1, s, 0);
        BREAKS(messages[s].payload.reg, (uint16_t)(good.messages[s].payload.reg + 256), s, 0);
        BREAKS(messages[s].payload.weight_class, FURNACEJADE_CLASS_XL, s, 0);
        BREAKS(messages[s].payload.added, 1, s, 0);
        BREAKS(messages[s].payload.withdrawn, 1, s, 0);
        furnacejade_table t = good;
        t.controllers[0].applied[s] = 0;
        t.controllers[0].highest[0].value = (uint8_t)(s == FURNACEJADE_MESSAGES - 1 ? s : FURNACEJADE_MESSAGES);
        t.controllers[0].running = 0;
        expect(look(&t, 1), 0, "a write unknown at its stopped sender", s, 0);
    }
    furnacejade_look(&good, 1, &shown);
    for (size_t r = 1; r <= FURNACEJADE_REGISTERS; r++) {
        uint32_t last = good.messages[FURNACEJADE_MESSAGES - FURNACEJADE_REGISTERS + r - 1].payload.value;
        expect_register(shown.panel.registers[r - 1], (furnacejade_register){last, {EACH, 1}}, "look.registers", r, 0);
    }
}

/* Of two controllers: what stands above n, after the last message and after a log's end is neither tested nor used. */
static void unused(void) {
    static furnacejade_fresh_answer fresh;
    static furnacejade_answer answer;
    const uint8_t report[] = {4, 1, 1, 0, 5}, to_1[] = {3, 3, 1, 2}, to_2[] = {3, 3, 2, 1};
    furnacejade_fresh(1, 2, &fresh);
    expect(event(&fresh.table, report, sizeof report, &answer), 0, "report", 0, 0);
    good = fresh.table;
    for (size_t c = 0; c < 2; c++) {
        BREAKS(controllers[0].pending[0].marks[c].value, 65, 0, c);
        BREAKS(controllers[c].read[0], 2, c, 0);
        BREAKS(controllers[c].highest[0].value, 1, c, 0);
        for (size_t f = 2; f < FURNACEJADE_CONTROLLERS; f++) {
            FREE(controllers[c].pending[0].marks[f].value, 65, c, f);
            FREE(controllers[c].read[f], 65, c, f);
            FREE(controllers[c].highest[f].value, 65, c, f);
            good.controllers[c].pending[0].marks[f].value = 1;
            good.controllers[c].read[f] = good.controllers[c].highest[f].value = 65;
        }
        memset(good.controllers[c].log + good.controllers[c].length, 0xA5, FURNACEJADE_MESSAGES - good.controllers[c].length);
    }
    memset(good.messages + good.count, 0xA5, sizeof good.messages - good.count * sizeof good.messages[0]);
    memset(good.controllers + 2, 0xA5, sizeof good.controllers - 2 * sizeof good.controllers[0]);
    expect(event(&good, to_2, sizeof to_2, &answer), 0, "handover above n", 2, 1);
    expect((uint8_t)answer.size, 0, "one of two", 0, 0);
    expect(event(&good, to_1, sizeof to_1, &answer), 0, "handover above n", 1, 2);
    expect((uint8_t)answer.size, 1, "two of two", 0, 0);
}

/* The same run in both versions. */
static const uint8_t plain[] = {1, 3, 4, 1, 1, 0xFE, 0x98, 3, 3, 2, 1, 3, 3, 2, 2, 2, 2, 3, 3, 3, 1, 2, 4, 4, 2, 0, 1, 3, 3, 1, 3, 2, 5, 1,
                                3, 3, 3, 1, 3, 3, 3, 1, 3, 3, 3, 3, 3, 3, 3, 3, 7, 6, 3, 8, 0xA1, 0xB2, 0xC3, 0xD4};
static const uint8_t classed[] = {2, 3, 5, 1, 1, 0xFE, 0x98, 4, 3, 3, 2, 1, 3, 3, 2, 2, 2, 2, 3, 3, 3, 1, 2, 4, 4, 2, 0, 1, 3, 3, 1, 3, 2, 5, 1,
                                  3, 3, 3, 1, 3, 3, 3, 1, 3, 3, 3, 3, 3, 3, 3, 3, 7, 6, 3, 8, 0xA1, 0xB2, 0xC3, 0xD4};

/* The records of that run, one after the other; one of 0 bytes after the last. */
static furnacejade_record record_at(uint8_t version, size_t i) {
    switch (i) {
    case 0: return version == 2 ? furnacejade_record_classed_report(1, -360, FURNACEJADE_CLASS_S) : furnacejade_record_report(1, -360);
    case 1: return furnacejade_record_handover(2, 1);
    case 2: return furnacejade_record_handover(2, 2);
    case 3: return furnacejade_record_sync(3);
    case 4: return furnacejade_record_handover(1, 2);
    case 5: return furnacejade_record_stop(2, 1);
    case 6: return furnacejade_record_handover(1, 3);
    case 7: return furnacejade_record_local_read(1);
    case 8: case 9: return furnacejade_record_handover(3, 1);
    case 10: case 11: return furnacejade_record_handover(3, 3);
    case 12: return furnacejade_record_write(3, 8, 0xA1B2C3D4);
    default: return (furnacejade_record){0, {0}};
    }
}

/* Writes that file into a place with this room, and looks at each result. Whether all of it fitted. */
static int written(uint8_t version, uint8_t *out, size_t room, size_t *length) {
    int fits = furnacejade_put_head(out, room, length, version, 3);
    expect((uint8_t)fits, room >= 2, "head fits", version, room);
    for (size_t i = 0; record_at(version, i).length > 0; i++) {
        size_t before = *length, bytes = record_at(version, i).length;
        int expected = fits && room - before >= bytes;
        fits = furnacejade_put_record(out, room, length, record_at(version, i));
        expect((uint8_t)fits, (uint8_t)expected, "record fits", i, room);
        expect((uint8_t)(*length == (fits ? before + bytes : 0)), 1, "length", i, room);
    }
    return fits;
}

/* The records and the two functions that put them into a file give that file, byte for byte. Into a place that is too small
 * they write what fits and nothing after it, and leave length 0, which the run of a file refuses. */
static void files(uint8_t version, const uint8_t *file, size_t size) {
    static furnacejade_run_answer run;
    uint8_t out[sizeof classed + 1];
    size_t length;
    for (size_t room = 0; room <= size; room++) {
        memset(out, 0xA5, sizeof out);
        expect((uint8_t)written(version, out, room, &length), room == size, "file fits", version, room);
        expect((uint8_t)(length == (room == size ? size : 0)), 1, "file's length", version, room);
        for (size_t i = room; i < sizeof out; i++) expect(out[i], 0xA5, "bytes after the room", room, i);
    }
    expect((uint8_t)(memcmp(out, file, size) == 0), 1, "written", version, 0);
    expect((uint8_t)written(version, out, size - 1, &length), 0, "a file that does not fit", version, 0);
    furnacejade_run(out, length, scratch, 0, scratch, 0, &run);
    expect(run.refusal, FURNACEJADE_REFUSED_FILE_LENGTH, "a file that did not fit", version, 0);
}

/* This record has these bytes, and no others. */
#define IS(record, ...)                                                                                        \
    do {                                                                                                       \
        const uint8_t wanted[] = {__VA_ARGS__};                                                                \
        expect((uint8_t)record.length, sizeof wanted, #record, 0, 0);                                          \
        expect((uint8_t)(memcmp(record.bytes, wanted, sizeof wanted) == 0), 1, #record, 0, 1);                 \
    } while (0)

/* A number that its bytes cannot hold becomes the greatest or least that they can: nothing is cut to a number that passes. */
static void beyond(void) {
    uint8_t file[FURNACEJADE_HEAD];
    size_t length;
    IS(furnacejade_record_report(255, 32767), 4, 1, 255, 0x7F, 0xFF);
    IS(furnacejade_record_report(257, 65566), 4, 1, 255, 0x7F, 0xFF);
    IS(furnacejade_record_report(0, -32768), 4, 1, 0, 0x80, 0);
    IS(furnacejade_record_report(SIZE_MAX, LONG_MIN), 4, 1, 255, 0x80, 0);
    IS(furnacejade_record_classed_report(256, LONG_MAX, 258), 5, 1, 255, 0x7F, 0xFF, 255);
    IS(furnacejade_record_sync(513), 2, 2, 255);
    IS(furnacejade_record_handover(258, 257), 3, 3, 255, 255);
    IS(furnacejade_record_stop(261, 65536), 4, 4, 255, 0xFF, 0xFF);
    IS(furnacejade_record_stop(254, 65534), 4, 4, 254, 0xFF, 0xFE);
    IS(furnacejade_record_local_read(300), 2, 5, 255);
    IS(furnacejade_record_write(257, 264, 0xA1B2C3D4), 7, 6, 255, 255, 0xA1, 0xB2, 0xC3, 0xD4);
    expect((uint8_t)furnacejade_put_head(file, sizeof file, &length, 258, 263), 1, "head", 258, 263);
    expect(file[0], 255, "head", 258, 0);
    expect(file[1], 255, "head", 263, 1);
}

/* A record is not put before the head, after the end of the room, or with a length that none has. Header and library are of
 * one state, and the words of a number can be had. */
static void words(void) {
    uint8_t out[16];
    furnacejade_record odd = furnacejade_record_sync(1);
    memset(out, 0xA5, sizeof out);
    for (size_t at = 0; at <= sizeof out + 1; at++) {
        size_t length = at;
        int fits = at >= FURNACEJADE_HEAD && at + 3 <= sizeof out;
        expect((uint8_t)furnacejade_put_record(out, sizeof out, &length, furnacejade_record_sync(1)), (uint8_t)fits, "record at", at, 0);
        expect((uint8_t)(length == (fits ? at + 3 : 0)), 1, "record at", at, 1);
    }
    size_t length = FURNACEJADE_HEAD;
    odd.length = FURNACEJADE_LONGEST_RECORD + 1;
    expect((uint8_t)furnacejade_put_record(out, sizeof out, &length, odd), 0, "odd record", 0, 0);
    expect(out[0], 0xA5, "odd record", 0, 1);
    furnacejade_answer answer;
    furnacejade_table table = good;
    odd = furnacejade_record_write(1, 1, 1);
    odd.bytes[0] = 8; /* one byte more than a record has room for */
    odd.length = (size_t)-1;
    expect(play(&table, odd, &answer), FURNACEJADE_REFUSED_RECORD, "odd record", 0, 2);
    expect((uint8_t)(furnacejade_interface() == FURNACEJADE_INTERFACE), 1, "interface", 0, 0);
    expect((uint8_t)strcmp(furnacejade_question(FURNACEJADE_REFUSED_FULL), "Has the run fewer than 64 messages?"), 0, "question", 12, 0);
    expect((uint8_t)strcmp(furnacejade_question(FURNACEJADE_ACCEPTED), "none: accepted"), 0, "question", 0, 0);
    expect((uint8_t)strcmp(furnacejade_question(255), "no such number"), 0, "question", 255, 0);
}

/* One table in memory that was all 0 and one in memory that was all 255, through the same calls, refused ones among them:
 * equal byte for byte after each, and in the end equal to the table of the file run. */
static void bytes(const uint8_t *file, size_t size) {
    static furnacejade_fresh_answer fresh[2];
    static furnacejade_answer answer[2];
    static furnacejade_run_answer run[2];
    static uint8_t area[2][FURNACEJADE_SCRATCH], listing[2][64];
    const uint8_t refused[] = {2, 2, 2};
    for (int d = 0; d < 2; d++) {
        memset(&fresh[d], -d, sizeof fresh[d]);
        memset(&answer[d], -d, sizeof answer[d]);
        memset(&run[d], -d, sizeof run[d]);
        memset(area[d], -d, sizeof area[d]);
        furnacejade_fresh(file[0], file[1], &fresh[d]);
    }
    expect((uint8_t)(memcmp(&fresh[0].table, &fresh[1].table, sizeof good) == 0), 1, "fresh table's bytes", 0, 0);
    size_t left = size - 2;
    for (size_t e = 1; left > 0; e++) {
        const uint8_t *record = file + size - left;
        size_t after[2];
        for (int d = 0; d < 2; d++) {
            after[d] = furnacejade_event(&fresh[d].table, record, left, area[d], sizeof area[d], &answer[d]);
            expect(answer[d].refusal, 0, "event", e, (size_t)d);
            memset(area[d], -d, sizeof area[d]);
        }
        expect((uint8_t)(memcmp(&fresh[0].table, &fresh[1].table, sizeof good) == 0), 1, "table's bytes", e, 0);
        expect((uint8_t)(memcmp(answer[0].names, answer[1].names, sizeof answer[0].names) == 0), 1, "names' bytes", e, 0);
        left = after[0];
    }
    for (int d = 0; d < 2; d++) {
        furnacejade_event(&fresh[d].table, refused, sizeof refused, area[d], sizeof area[d], &answer[d]);
        expect(answer[d].refusal, FURNACEJADE_REFUSED_STOPPED, "refused", 0, (size_t)d);
        furnacejade_run(file, size, listing[d], sizeof listing[d], area[d], sizeof area[d], &run[d]);
        expect(run[d].refusal, 0, "run", 0, (size_t)d);
        expect((uint8_t)(memcmp(&run[d].table, &fresh[1 - d].table, sizeof good) == 0), 1, "run's table's bytes", 0, (size_t)d);
    }
}

/* A refused request for a fresh table, and a refused file, give a table in which every byte is 0. */
static void zeros(void) {
    static const furnacejade_table zero;
    static const uint8_t later[] = {3, 3};
    static furnacejade_fresh_answer fresh;
    static furnacejade_run_answer run;
    const struct { size_t version, n; uint8_t refusal; } refused[] = {
        {0, 3, FURNACEJADE_REFUSED_VERSION}, {3, 3, FURNACEJADE_REFUSED_VERSION},          {257, 3, FURNACEJADE_REFUSED_VERSION},
        {0, 0, FURNACEJADE_REFUSED_VERSION}, {1, 0, FURNACEJADE_REFUSED_CONTROLLER_COUNT}, {2, 8, FURNACEJADE_REFUSED_CONTROLLER_COUNT},
    };
    for (size_t i = 0; i < sizeof refused / sizeof refused[0]; i++) {
        memset(&fresh, 0xA5, sizeof fresh);
        furnacejade_fresh(refused[i].version, refused[i].n, &fresh);
        expect(fresh.refusal, refused[i].refusal, "refused fresh", refused[i].version, refused[i].n);
        expect((uint8_t)(memcmp(&fresh.table, &zero, sizeof zero) == 0), 1, "refused table's bytes", i, 0);
    }
    memset(&run, 0xA5, sizeof run);
    furnacejade_run(later, sizeof later, scratch, 0, scratch, 0, &run);
    expect(run.refusal, FURNACEJADE_REFUSED_VERSION, "refused file", 0, 0);
    expect((uint8_t)(memcmp(&run.table, &zero, sizeof zero) == 0), 1, "refused file's table's bytes", 0, 0);
}

/* The sums where the only controller has applied its reports of 30 and -7; and zeros. */
static const furnacejade_sums reported = {30, 7}, zero_sums;

/* The answers: a sync of that controller, by events and as a file. No event before the last, which finishes it, gives sums. */
static void answers(void) {
    static const uint8_t synced[] = {1, 1, 4, 1, 1, 0, 30, 4, 1, 1, 0xFF, 0xF9, 3, 3, 1, 1, 2, 2, 1, 3, 3, 1, 1};
    static furnacejade_fresh_answer fresh;
    static furnacejade_run_answer run;
    static furnacejade_answer answer;
    static uint8_t listing[64];
    furnacejade_fresh(1, 1, &fresh);
    for (size_t at = 2; at < sizeof synced; at += 1u + synced[at]) {
        int last = at + 1u + synced[at] == sizeof synced;
        expect(event(&fresh.table, synced + at, sizeof synced - at, &answer), 0, "answer", at, 0);
        expect(answer.finished, (uint8_t)last, "finished", at, 0);
        expect_sums(answer.sums, last ? reported : zero_sums, "sums", at, 0);
    }
    expect((uint8_t)answer.size, 1, "size", 0, 0);
    expect(answer.names[0].sender, 1, "names.sender", 0, 0);
    expect(answer.names[0].number.value, 3, "names.number", 0, 0);
    expect(answer.names[63].sender, 0, "names.sender", 63, 0);
    memset(&run, 0xA5, sizeof run);
    furnacejade_run(synced, sizeof synced, listing, sizeof listing, scratch, sizeof scratch, &run);
    expect(run.refusal, 0, "run.refusal", 0, 0);
    expect((uint8_t)run.events, 5, "run.events", 0, 0);
    static const char lines[] = "3 1 30 7 1.1 1.2\n5 1 30 7 1.3\n";
    expect((uint8_t)run.written, sizeof lines - 1, "run.written", 0, 0);
    expect((uint8_t)(memcmp(listing, lines, sizeof lines - 1) == 0), 1, "listing", 0, 0);
    expect((uint8_t)run.table.count, 3, "run.table", 0, 0);
    furnacejade_look_answer shown;
    furnacejade_look(&run.table, 1, &shown);
    expect_sums(shown.panel.sums, reported, "look.sums", 0, 0);
    expect_sums(shown.panel.classes[FURNACEJADE_CLASS_NONE], reported, "look.classes", 0, 0);
}

/* A local read of the only controller, in a table of this version: refused while its reports are pending, and then answered with
 * their sums and nothing else. The table stays as it is, byte for byte. */
static void local_reads(uint8_t version) {
    static const int16_t amounts[] = {30, -7};
    static const uint8_t handover[] = {3, 3, 1, 1}, read[] = {2, 5, 1, 0xA5};
    static const furnacejade_name none[FURNACEJADE_MESSAGES];
    static furnacejade_fresh_answer fresh;
    static furnacejade_answer answer;
    furnacejade_fresh(version, 1, &fresh);
    for (size_t i = 0; i < 2; i++) {
        furnacejade_record in_class = furnacejade_record_classed_report(1, amounts[i], FURNACEJADE_CLASS_M);
        furnacejade_record report = version == 2 ? in_class : furnacejade_record_report(1, amounts[i]);
        expect(play(&fresh.table, report, &answer), 0, "report before a local read", version, i);
    }
    expect(event(&fresh.table, read, sizeof read, &answer), FURNACEJADE_REFUSED_READ_PENDING, "local read", version, 0);
    expect(event(&fresh.table, handover, sizeof handover, &answer), 0, "handover before a local read", version, 0);
    furnacejade_table before = fresh.table;
    memset(&answer, 0xA5, sizeof answer);
    memset(scratch, 0xA5, sizeof scratch);
    size_t left = furnacejade_event(&fresh.table, read, sizeof read, scratch, sizeof scratch, &answer);
    expect((uint8_t)left, 1, "local read's rest", version, 0);
    expect(answer.refusal, 0, "local read", version, 1);
    expect(answer.finished, 0, "local read's finished", version, 0);
    expect_sums(answer.sums, reported, "local read's sums", version, 0);
    expect((uint8_t)answer.size, 0, "local read's size", version, 0);
    expect((uint8_t)(memcmp(answer.names, none, sizeof none) == 0), 1, "local read's names", version, 0);
    expect((uint8_t)(memcmp(&fresh.table, &before, sizeof before) == 0), 1, "local read's table", version, 0);
    uint8_t dirt = 0;
    for (size_t i = 0; i < sizeof scratch; i++) dirt |= scratch[i];
    expect(dirt, 0, "local read's scratch", version, 0);
}

/* What a look shows of each class: controller 1, alone, reports 1 of XL, -20 of L, 300 of M, -4 of S and -5 of XL. A refused
 * look shows nothing of any. */
static void class_sums(void) {
    static const int16_t amounts[] = {1, -20, 300, -4, -5};
    static const furnacejade_sums whole = {301, 29}, classes[FURNACEJADE_CLASSES] = {{0, 0}, {1, 5}, {0, 20}, {300, 0}, {0, 4}};
    static const uint8_t handover[] = {3, 3, 1, 1};
    static furnacejade_fresh_answer fresh;
    static furnacejade_answer answer;
    furnacejade_look_answer shown;
    furnacejade_fresh(2, 1, &fresh);
    for (uint8_t i = 0; i < 5; i++) {
        expect(play(&fresh.table, furnacejade_record_classed_report(1, amounts[i], class_of(i)), &answer), 0, "classed report", i, 0);
        expect(event(&fresh.table, handover, sizeof handover, &answer), 0, "classed handover", i, 0);
    }
    for (size_t c = 1; c <= 2; c++) {
        memset(&shown, 0xA5, sizeof shown);
        furnacejade_look(&fresh.table, c, &shown);
        expect(shown.refusal, c == 1 ? FURNACEJADE_ACCEPTED : FURNACEJADE_REFUSED_CONTROLLER, "look", c, 0);
        expect_sums(shown.panel.sums, c == 1 ? whole : zero_sums, "look.sums", c, 0);
        for (size_t k = 0; k < FURNACEJADE_CLASSES; k++) expect_sums(shown.panel.classes[k], c == 1 ? classes[k] : zero_sums, "look.classes", c, k);
    }
}

/* How many put the one before the other, and the refusal, of an answer that was dirty before. */
static furnacejade_count_answer count(const furnacejade_table *table, size_t controller, furnacejade_name first, furnacejade_name second) {
    furnacejade_count_answer answer;
    memset(&answer, 0xA5, sizeof answer);
    furnacejade_count_before(table, controller, &first, &second, &answer);
    return answer;
}

static void expect_count(furnacejade_count_answer got, uint8_t refusal, size_t wanted, const char *field, size_t i, size_t j) {
    expect(got.refusal, refusal, field, i, j);
    expect((uint8_t)(got.count == wanted), 1, field, i, j);
}

/* With 64 messages pending everywhere and every mark absent but for one of two slots, each mark of each slot at each controller
 * is read where it stands, and the message is found by sender and number. */
static void counts(void) {
    static const furnacejade_name odd[] = {{0, {1}}, {255, {1}}, {1, {0}}, {1, {65}}, {1, {255}}, {2, {1}}, {0, {0}}, {255, {255}}};
    furnacejade_table t = full(0);
    for (size_t c = 0; c < FURNACEJADE_CONTROLLERS; c++)
        for (size_t s = 0; s < FURNACEJADE_MESSAGES; s++) memset(t.controllers[c].pending[s].marks, FURNACEJADE_ABSENT, FURNACEJADE_CONTROLLERS);
    for (size_t c = 1; c <= FURNACEJADE_CONTROLLERS; c++)
        for (size_t s = 0; s < FURNACEJADE_MESSAGES; s++) {
            size_t other = (s + 1) % FURNACEJADE_MESSAGES;
            furnacejade_pending *first = &t.controllers[c - 1].pending[s], *second = &t.controllers[c - 1].pending[other];
            furnacejade_name one = {1, t.messages[s].number}, two = {1, t.messages[other].number};
            for (size_t f = 0; f < FURNACEJADE_CONTROLLERS; f++) {
                first->marks[f].value = FURNACEJADE_MESSAGES;
                expect_count(count(&t, c, one, two), 0, f + 1, "marks before absent ones", s, f);
                expect_count(count(&t, c, two, one), 0, 0, "absent marks before others", s, f);
                second->marks[f].value = FURNACEJADE_MESSAGES;
                expect_count(count(&t, c, one, two), 0, f, "equal marks", s, f);
                second->marks[f].value = FURNACEJADE_ABSENT;
            }
            expect_count(count(&t, c, one, one), 0, 0, "a message before itself", c, s);
            expect_count(count(&t, c % FURNACEJADE_CONTROLLERS + 1, one, two), 0, 0, "marks of another controller", c, s);
            for (size_t i = 0; i < sizeof odd / sizeof odd[0]; i++) {
                expect_count(count(&t, c, one, odd[i]), 0, FURNACEJADE_CONTROLLERS, "a message before none", s, i);
                expect_count(count(&t, c, odd[i], one), 0, 0, "none before a message", s, i);
            }
            furnacejade_table stopped = t;
            stopped.controllers[c - 1].running = 0;
            expect_count(count(&stopped, c, one, two), 0, FURNACEJADE_CONTROLLERS, "a stopped controller", c, s);
            stopped.controllers[c - 1].pending[s].held = 0;
            expect_count(count(&stopped, c, one, two), 0, 0, "marks of what is not pending", c, s);
            memset(first->marks, FURNACEJADE_ABSENT, sizeof first->marks);
        }
    const furnacejade_name one = {1, {1}}, none = {0, {0}};
    memset(t.controllers[0].pending[0].marks, 1, FURNACEJADE_CONTROLLERS);
    furnacejade_table before = t;
    expect_count(count(&t, 0, one, none), FURNACEJADE_REFUSED_CONTROLLER, 0, "count at", 0, 0);
    expect_count(count(&t, 1, one, none), 0, FURNACEJADE_CONTROLLERS, "count at", 1, 0);
    expect_count(count(&t, 8, one, none), FURNACEJADE_REFUSED_CONTROLLER, 0, "count at", 8, 0);
    expect_count(count(&t, 257, one, none), FURNACEJADE_REFUSED_CONTROLLER, 0, "count at", 257, 0);
    expect((uint8_t)(memcmp(&t, &before, sizeof t) == 0), 1, "count's table", 0, 0);
    t.version = 3;
    expect_count(count(&t, 1, one, none), FURNACEJADE_REFUSED_TABLE, 0, "count in a table of version 3", 1, 0);
    expect_count(count(&t, 0, one, none), FURNACEJADE_REFUSED_TABLE, 0, "count in a table of version 3", 0, 0);
}

/* What a look shows of each register: controller 1, alone, sets each to its own value and then register 8 once more. A write
 * without a sync right before it is refused, and a refused look shows no register. */
static void registers(void) {
    static const uint8_t handover[] = {3, 3, 1, 1}, sync[] = {2, 2, 1};
    static furnacejade_fresh_answer fresh;
    static furnacejade_answer answer;
    furnacejade_look_answer shown;
    furnacejade_fresh(1, 1, &fresh);
    for (uint8_t i = 0; i <= FURNACEJADE_REGISTERS; i++) {
        uint8_t r = i < FURNACEJADE_REGISTERS ? (uint8_t)(i + 1) : FURNACEJADE_REGISTERS;
        furnacejade_record write = furnacejade_record_write(1, r, UINT32_MAX - i);
        expect(play(&fresh.table, write, &answer), FURNACEJADE_REFUSED_NOT_SYNCED, "write without a sync", i, 0);
        expect(event(&fresh.table, sync, sizeof sync, &answer), 0, "sync before a write", i, 0);
        expect(play(&fresh.table, write, &answer), FURNACEJADE_REFUSED_OWN_PENDING, "write before the sync is applied", i, 0);
        expect(event(&fresh.table, handover, sizeof handover, &answer), 0, "handover before a write", i, 0);
        expect(play(&fresh.table, write, &answer), 0, "write", i, 0);
        expect((uint8_t)answer.size, 0, "write's size", i, 0);
        expect(event(&fresh.table, handover, sizeof handover, &answer), 0, "handover after a write", i, 0);
        expect(answer.finished, 0, "write's finished", i, 0);
    }
    for (uint8_t r = 0; r <= FURNACEJADE_REGISTERS + 1; r += FURNACEJADE_REGISTERS + 1)
        expect(play(&fresh.table, furnacejade_record_write(1, r, 1), &answer), FURNACEJADE_REFUSED_REGISTER, "register", r, 0);
    for (size_t c = 1; c <= 2; c++) {
        memset(&shown, 0xA5, sizeof shown);
        furnacejade_look(&fresh.table, c, &shown);
        expect(shown.refusal, c == 1 ? FURNACEJADE_ACCEPTED : FURNACEJADE_REFUSED_CONTROLLER, "look", c, 0);
        expect_sums(shown.panel.sums, zero_sums, "look.sums", c, 0);
        for (uint8_t r = 1; r <= FURNACEJADE_REGISTERS; r++) {
            furnacejade_register first = {UINT32_MAX - (r - 1u), {1, 1}}, second = {UINT32_MAX - r, {2, 1}}, none = {0, {0, 0}};
            furnacejade_register held = r < FURNACEJADE_REGISTERS ? first : second;
            expect_register(shown.panel.registers[r - 1], c == 1 ? held : none, "look.registers", c, r);
        }
    }
}

/* One call of the dispatcher, lent this scratch, with an answer that was dirty before. */
static furnacejade_dispatch_answer dispatch(furnacejade_table *table, size_t receiver, size_t owner, uint8_t *area, size_t length) {
    furnacejade_dispatch_answer next;
    memset(&next, 0xA5, sizeof next);
    furnacejade_dispatch(table, receiver, owner, area, length, &next);
    return next;
}

/* Every field of the one answer is that of the other. */
static void expect_answer(const furnacejade_answer *got, const furnacejade_answer *wanted, const char *field, size_t i, size_t j) {
    expect(got->refusal, wanted->refusal, field, i, j);
    expect(got->finished, wanted->finished, field, i, j);
    expect_sums(got->sums, wanted->sums, field, i, j);
    expect((uint8_t)(got->size == wanted->size), 1, field, i, j);
    expect((uint8_t)(memcmp(got->names, wanted->names, sizeof wanted->names) == 0), 1, field, i, j);
}

/* The answer has this pair, and after it every field of that answer. */
static void expect_served(furnacejade_dispatch_answer got, size_t receiver, size_t owner, const furnacejade_answer *wanted, const char *field, size_t i, size_t j) {
    expect((uint8_t)(got.pair.receiver == receiver), 1, field, i, j);
    expect((uint8_t)(got.pair.owner == owner), 1, field, i, j);
    expect_answer(&got.answer, wanted, field, i, j);
}

/* The dispatcher makes no handover, answers this number and zeros, and changes neither table nor scratch, of which it is lent this
 * many bytes. */
static void expect_unserved(furnacejade_table *table, size_t receiver, size_t owner, size_t length, uint8_t refusal, const char *field, size_t i) {
    static furnacejade_answer zero;
    furnacejade_table before = *table;
    memset(scratch, 0xA5, sizeof scratch);
    zero.refusal = refusal;
    expect_served(dispatch(table, receiver, owner, scratch, length), 0, 0, &zero, field, i, length);
    expect((uint8_t)(memcmp(table, &before, sizeof before) == 0), 1, field, i, length);
    for (size_t k = 0; k < sizeof scratch; k++) expect(scratch[k], 0xA5, field, i, k);
}

/* The dispatcher hands over to this receiver from this owner: answer, table and scratch are those of the same event. */
static void expect_handover(const furnacejade_table *table, size_t after_receiver, size_t after_owner, size_t receiver, size_t owner, const char *field) {
    static uint8_t areas[2][FURNACEJADE_SCRATCH + 1];
    furnacejade_table dispatched = *table, played = *table;
    furnacejade_answer answer;
    memset(areas, 0xA5, sizeof areas);
    memset(&answer, 0xA5, sizeof answer);
    furnacejade_play(&played, furnacejade_record_handover(receiver, owner), areas[0], sizeof areas[0], &answer);
    expect(answer.refusal, 0, field, receiver, owner);
    furnacejade_dispatch_answer next = dispatch(&dispatched, after_receiver, after_owner, areas[1], sizeof areas[1]);
    expect_served(next, receiver, owner, &answer, field, receiver, owner);
    expect((uint8_t)(memcmp(&dispatched, &played, sizeof played) == 0), 1, field, receiver, owner);
    expect((uint8_t)(memcmp(areas[0], areas[1], sizeof areas[0]) == 0), 1, field, receiver, owner);
}

/* Of seven controllers one stops, with the entry of its log kept or not: it is passed over as a receiver, and as an owner only if
 * its log is empty. */
static void dispatches_past(size_t stopped, size_t kept) {
    enum { N = FURNACEJADE_CONTROLLERS };
    furnacejade_answer answer;
    furnacejade_table t = good;
    expect(play(&t, furnacejade_record_stop(stopped, kept), &answer), 0, "stop for the dispatcher", stopped, kept);
    for (size_t named = 0; named < N * N; named++) {
        size_t next = (named + 1) % (N * N);
        while (next / N + 1 == stopped || (next % N + 1 == stopped && kept == 0)) next = (next + 1) % (N * N);
        expect_handover(&t, named / N + 1, named % N + 1, next / N + 1, next % N + 1, "dispatch past a stopped controller");
    }
}

/* The dispatcher reads who runs, how long each log is and how far it is read, where each stands, in a table of seven controllers
 * that have sent a report each. Both numbers of the pair named are read, and both of the pair served are written. */
static void dispatches(void) {
    enum { N = FURNACEJADE_CONTROLLERS };
    static const size_t strangers[] = {0, N + 1, 255, 256, 257, SIZE_MAX};
    start(1);
    furnacejade_table read = good;
    for (size_t r = 0; r < N; r++)
        for (size_t o = 0; o < N; o++) read.controllers[r].read[o] = 1;
    for (size_t k = 0; k < N * N; k++) {
        size_t r = k / N + 1, o = k % N + 1, after = (k + N * N - 1) % (N * N);
        expect_handover(&good, after / N + 1, after % N + 1, r, o, "the next pair");
        /* where one entry waits it is found from every pair, and from none once its receiver has stopped */
        furnacejade_table one = read;
        one.controllers[r - 1].read[o - 1] = 0;
        for (size_t named = 0; named < N * N; named++) expect_handover(&one, named / N + 1, named % N + 1, r, o, "the only pair");
        expect_unserved(&one, r, o, FURNACEJADE_SCRATCH - 1, FURNACEJADE_REFUSED_SCRATCH, "dispatch with little scratch", k);
        expect_unserved(&one, r, o, 0, FURNACEJADE_REFUSED_SCRATCH, "dispatch without scratch", k);
        one.controllers[r - 1].running = 0;
        expect_unserved(&one, r, o, 0, FURNACEJADE_ACCEPTED, "dispatch to a stopped receiver", k);
        expect_unserved(&read, r, o, 0, FURNACEJADE_ACCEPTED, "none without scratch", k);
        expect_unserved(&read, r, o, sizeof scratch, FURNACEJADE_ACCEPTED, "none", k);
    }
    for (size_t i = 0; i < sizeof strangers / sizeof strangers[0]; i++) {
        expect_unserved(&good, strangers[i], 1, sizeof scratch, FURNACEJADE_REFUSED_CONTROLLER, "dispatch after receiver", i);
        expect_unserved(&good, 1, strangers[i], 0, FURNACEJADE_REFUSED_CONTROLLER, "dispatch after owner", i);
        expect_unserved(&read, strangers[i], N, 0, FURNACEJADE_REFUSED_CONTROLLER, "none after receiver", i);
        expect_unserved(&read, N, strangers[i], 0, FURNACEJADE_REFUSED_CONTROLLER, "none after owner", i);
    }
    for (size_t c = 1; c <= N; c++)
        for (size_t kept = 0; kept <= 1; kept++) dispatches_past(c, kept);
    read.version = 3;
    expect_unserved(&read, 0, 0, 0, FURNACEJADE_REFUSED_TABLE, "dispatch in a table of version 3", 0);
    expect_unserved(&read, N, N, sizeof scratch, FURNACEJADE_REFUSED_TABLE, "dispatch in a table of version 3", 1);
}

/* The sync of the only controller, which a dispatched handover finishes, and then "none". */
static void dispatched_sync(void) {
    static furnacejade_fresh_answer fresh;
    static furnacejade_answer answer;
    furnacejade_fresh(1, 1, &fresh);
    play(&fresh.table, furnacejade_record_report(1, 30), &answer);
    play(&fresh.table, furnacejade_record_report(1, -7), &answer);
    for (size_t i = 0; i < 2; i++) {
        expect_handover(&fresh.table, 1, 1, 1, 1, "dispatched report");
        expect(dispatch(&fresh.table, 1, 1, scratch, sizeof scratch).answer.finished, 0, "dispatched report", i, 0);
    }
    expect(play(&fresh.table, furnacejade_record_sync(1), &answer), 0, "sync for the dispatcher", 0, 0);
    expect_handover(&fresh.table, 1, 1, 1, 1, "dispatched sync");
    furnacejade_dispatch_answer next = dispatch(&fresh.table, 1, 1, scratch, sizeof scratch);
    expect(next.answer.finished, 1, "dispatched sync's finished", 0, 0);
    expect_sums(next.answer.sums, reported, "dispatched sync's sums", 0, 0);
    expect((uint8_t)next.answer.size, 1, "dispatched sync's size", 0, 0);
    expect(next.answer.names[0].number.value, 3, "dispatched sync's name", 0, 0);
    expect_unserved(&fresh.table, 1, 1, 0, FURNACEJADE_ACCEPTED, "none after the sync", 0);
}

/* An ask and a commit, lent this scratch, with an answer that was dirty before. */
static furnacejade_ask_answer ask(const furnacejade_table *table, size_t receiver, size_t owner, uint8_t *area, size_t length) {
    furnacejade_ask_answer shown;
    memset(&shown, 0xA5, sizeof shown);
    furnacejade_ask(table, receiver, owner, area, length, &shown);
    return shown;
}
static furnacejade_answer commit(furnacejade_table *table, size_t receiver, size_t owner, size_t acts, uint8_t *area, size_t length) {
    furnacejade_answer answer;
    memset(&answer, 0xA5, sizeof answer);
    furnacejade_commit(table, receiver, owner, acts, area, length, &answer);
    return answer;
}

/* The ask has this number, this count and this set, and nothing else. */
static void expect_shown(furnacejade_ask_answer got, uint8_t refusal, size_t acts, const furnacejade_answer *set, const char *field, size_t i, size_t j) {
    expect(got.refusal, refusal, field, i, j);
    expect((uint8_t)(got.acts == acts), 1, field, i, j);
    expect((uint8_t)(got.size == set->size), 1, field, i, j);
    expect((uint8_t)(memcmp(got.names, set->names, sizeof set->names) == 0), 1, field, i, j);
}

/* The ask, lent this much scratch, is refused by this number with all else zero. It changes nothing. */
static void expect_not_shown(const furnacejade_table *table, size_t receiver, size_t owner, size_t length, uint8_t refusal, const char *field, size_t i) {
    static const furnacejade_answer zero;
    furnacejade_table before = *table;
    memset(scratch, 0xA5, sizeof scratch);
    expect_shown(ask(table, receiver, owner, scratch, length), refusal, 0, &zero, field, i, length);
    expect((uint8_t)(memcmp(table, &before, sizeof before) == 0), 1, field, i, length);
    for (size_t k = 0; k < sizeof scratch; k++) expect(scratch[k], 0xA5, field, i, k);
}

/* So is the commit with this count. */
static void expect_not_taken(furnacejade_table *table, size_t receiver, size_t owner, size_t acts, size_t length, uint8_t refusal, const char *field, size_t i) {
    static furnacejade_answer zero;
    furnacejade_table before = *table;
    memset(scratch, 0xA5, sizeof scratch);
    zero.refusal = refusal;
    furnacejade_answer answer = commit(table, receiver, owner, acts, scratch, length);
    expect_answer(&answer, &zero, field, i, length);
    expect((uint8_t)(memcmp(table, &before, sizeof before) == 0), 1, field, i, length);
    for (size_t k = 0; k < sizeof scratch; k++) expect(scratch[k], 0xA5, field, i, k);
}

/* This is the receiver's act count. The ask shows it and the set of the handover, and changes no table. The commit with it answers
 * and leaves what the handover does, and so does the scratch of both. With every other count question 21 refuses the commit. */
static void expect_taken(const furnacejade_table *table, size_t receiver, size_t owner, size_t acts, const char *field) {
    static uint8_t areas[3][FURNACEJADE_SCRATCH + 1];
    const size_t others[] = {acts + 1, acts - 1, acts + 256, acts + 65536, acts + ((size_t)1 << 32), acts + ((size_t)1 << 63), SIZE_MAX};
    furnacejade_table asked = *table, committed = *table, played = *table;
    furnacejade_answer answer;
    memset(areas, 0xA5, sizeof areas);
    memset(&answer, 0xA5, sizeof answer);
    furnacejade_play(&played, furnacejade_record_handover(receiver, owner), areas[0], sizeof areas[0], &answer);
    expect(answer.refusal, 0, field, receiver, owner);
    expect_shown(ask(&asked, receiver, owner, areas[1], sizeof areas[1]), 0, acts, &answer, field, receiver, owner);
    expect((uint8_t)(memcmp(&asked, table, sizeof asked) == 0), 1, field, receiver, owner);
    furnacejade_answer taken = commit(&committed, receiver, owner, acts, areas[2], sizeof areas[2]);
    expect_answer(&taken, &answer, field, receiver, owner);
    expect((uint8_t)(memcmp(&committed, &played, sizeof played) == 0), 1, field, receiver, owner);
    for (size_t k = 1; k < 3; k++) expect((uint8_t)(memcmp(areas[0], areas[k], sizeof areas[0]) == 0), 1, field, receiver, owner);
    for (size_t i = 0; i < sizeof others / sizeof others[0]; i++)
        expect_not_taken(&asked, receiver, owner, others[i], i % 2 ? sizeof scratch : 0, FURNACEJADE_REFUSED_ACT_COUNT, field, i);
    expect_not_shown(&asked, receiver, owner, FURNACEJADE_SCRATCH - 1, FURNACEJADE_REFUSED_SCRATCH, field, 0);
    expect_not_taken(&asked, receiver, owner, acts, FURNACEJADE_SCRATCH - 1, FURNACEJADE_REFUSED_SCRATCH, field, 0);
}

/* Every read position of the receiver and the sender of every message are counted where they stand, and what stands above n or
 * after the last message is not. */
static void acts(void) {
    enum { N = FURNACEJADE_CONTROLLERS };
    const furnacejade_table pending = full(0);
    for (size_t s = 0; s < FURNACEJADE_MESSAGES; s++) {
        size_t sender = 2 + s % (N - 1);
        furnacejade_table t = pending;
        t.messages[s].sender = (uint8_t)sender;
        expect_taken(&t, sender, 1, 1, "messages.sender");
        expect_taken(&t, 1, sender, FURNACEJADE_MESSAGES - 1, "messages.sender");
    }
    for (size_t r = 1; r <= N; r++)
        for (size_t o = 1; o <= N; o++) {
            size_t sent = r == 1 ? FURNACEJADE_MESSAGES : 0, other = o % N + 1;
            furnacejade_table t = pending;
            t.controllers[r - 1].read[o - 1] = 1 + o;
            expect_taken(&t, r, o, sent + 1 + o, "controllers.read");
            t.controllers[r - 1].read[o - 1] = FURNACEJADE_MESSAGES;
            expect_taken(&t, r, other, sent + FURNACEJADE_MESSAGES, "controllers.read");
            expect_taken(&t, r % N + 1, o, r == N ? FURNACEJADE_MESSAGES : 0, "read positions of another controller");
            expect_not_shown(&t, r, o, sizeof scratch, FURNACEJADE_REFUSED_NO_ENTRY, "ask without an entry", o);
            expect_not_taken(&t, r, o, sent + FURNACEJADE_MESSAGES, 0, FURNACEJADE_REFUSED_NO_ENTRY, "commit without an entry", o);
            expect_not_taken(&t, r, o, sent, 0, FURNACEJADE_REFUSED_ACT_COUNT, "21 before 13", o);
        }
    static furnacejade_fresh_answer fresh;
    furnacejade_answer answer;
    furnacejade_fresh(1, 2, &fresh);
    expect(play(&fresh.table, furnacejade_record_report(1, 5), &answer), 0, "report before an ask", 0, 0);
    for (size_t c = 0; c < 2; c++)
        for (size_t above = 2; above < N; above++) fresh.table.controllers[c].read[above] = SIZE_MAX;
    memset(fresh.table.messages + 1, 1, sizeof fresh.table.messages - sizeof fresh.table.messages[0]);
    memset(fresh.table.controllers + 2, 0xA5, sizeof fresh.table.controllers - 2 * sizeof fresh.table.controllers[0]);
    expect_taken(&fresh.table, 1, 1, 1, "acts above n");
    expect_taken(&fresh.table, 2, 1, 0, "acts above n");
}

/* What is asked and what is committed of seven controllers that have sent a report each: every pair, in every place a number that
 * is no controller, and a controller that stops. A stop that cuts the owner's entry away leaves the receiver's count as it was. */
static void commits(void) {
    enum { N = FURNACEJADE_CONTROLLERS };
    static const size_t strangers[] = {0, N + 1, 255, 256, 257, SIZE_MAX};
    furnacejade_answer answer;
    start(1);
    for (size_t r = 1; r <= N; r++)
        for (size_t o = 1; o <= N; o++) {
            furnacejade_table t = good;
            expect_taken(&t, r, o, 1, "every pair");
            /* two asks answer one count, and of two commits with it the second is refused */
            expect(commit(&t, r, o % N + 1, 1, scratch, sizeof scratch).refusal, 0, "first commit", r, o);
            expect_not_taken(&t, r, o, 1, sizeof scratch, FURNACEJADE_REFUSED_ACT_COUNT, "second commit", o);
            for (size_t kept = 0; kept <= 1; kept++) {
                t = good;
                expect(play(&t, furnacejade_record_stop(o, kept), &answer), 0, "stop before a commit", o, kept);
                if (r == o) {
                    expect_not_shown(&t, r, o, 0, FURNACEJADE_REFUSED_STOPPED, "ask of a stopped receiver", r);
                    for (size_t count = 0; count < 4; count++)
                        expect_not_taken(&t, r, o, count, 0, FURNACEJADE_REFUSED_STOPPED, "10 before 21", count);
                } else if (kept == 1) {
                    expect_taken(&t, r, o, 1, "an entry that was kept");
                } else {
                    expect_not_shown(&t, r, o, 0, FURNACEJADE_REFUSED_NO_ENTRY, "an entry that was cut away", r);
                    expect_not_taken(&t, r, o, 1, 0, FURNACEJADE_REFUSED_NO_ENTRY, "an entry that was cut away", r);
                    expect_not_taken(&t, r, o, 2, 0, FURNACEJADE_REFUSED_ACT_COUNT, "21 before 13", r);
                }
            }
        }
    furnacejade_table broken = good;
    broken.version = 3;
    for (size_t i = 0; i < sizeof strangers / sizeof strangers[0]; i++)
        for (size_t count = 0; count < 3; count++) {
            expect_not_shown(&good, strangers[i], 1, 0, FURNACEJADE_REFUSED_CONTROLLER, "ask of receiver", i);
            expect_not_shown(&good, 1, strangers[i], sizeof scratch, FURNACEJADE_REFUSED_CONTROLLER, "ask of owner", i);
            expect_not_taken(&good, strangers[i], 1, count, 0, FURNACEJADE_REFUSED_CONTROLLER, "commit of receiver", i);
            expect_not_taken(&good, 1, strangers[i], count, sizeof scratch, FURNACEJADE_REFUSED_CONTROLLER, "commit of owner", i);
            expect_not_shown(&broken, strangers[i], 1, 0, FURNACEJADE_REFUSED_TABLE, "ask in a table of version 3", i);
            expect_not_taken(&broken, 1, strangers[i], count, 0, FURNACEJADE_REFUSED_TABLE, "commit in a table of version 3", i);
        }
}

/* The sync of the only controller, which a commit finishes. Local reads, looks and counts are no acts. */
static void committed_sync(void) {
    static furnacejade_fresh_answer fresh;
    furnacejade_answer answer;
    furnacejade_fresh(1, 1, &fresh);
    play(&fresh.table, furnacejade_record_report(1, 30), &answer);
    play(&fresh.table, furnacejade_record_report(1, -7), &answer);
    for (size_t i = 0; i < 2; i++) {
        expect_taken(&fresh.table, 1, 1, 2 + i, "committed report");
        expect(commit(&fresh.table, 1, 1, 2 + i, scratch, sizeof scratch).finished, 0, "committed report", i, 0);
    }
    expect(play(&fresh.table, furnacejade_record_local_read(1), &answer), 0, "local read before an ask", 0, 0);
    expect(look(&fresh.table, 1), 0, "look before an ask", 0, 0);
    expect(count(&fresh.table, 1, (furnacejade_name){1, {1}}, (furnacejade_name){1, {2}}).refusal, 0, "count before an ask", 0, 0);
    expect(play(&fresh.table, furnacejade_record_sync(1), &answer), 0, "sync before an ask", 0, 0);
    expect_taken(&fresh.table, 1, 1, 5, "committed sync");
    answer = commit(&fresh.table, 1, 1, 5, scratch, sizeof scratch);
    expect(answer.finished, 1, "committed sync's finished", 0, 0);
    expect_sums(answer.sums, reported, "committed sync's sums", 0, 0);
    expect((uint8_t)answer.size, 1, "committed sync's size", 0, 0);
    expect(answer.names[0].number.value, 3, "committed sync's name", 0, 0);
    expect_not_shown(&fresh.table, 1, 1, 0, FURNACEJADE_REFUSED_NO_ENTRY, "ask after the sync", 0);
}

/* A call that is lent scratch, and what it does where scratch is long enough: this number refuses it, or none, its set has this many
 * messages, and it clears the first 64 bytes or leaves all as they were. */
typedef struct {
    const char *name;
    enum { EVENT, DISPATCH, ASK, COMMIT, RUN } call;
    const furnacejade_table *before; /* the table that is lent, or the one that a run begins with */
    furnacejade_record record;       /* of an event */
    furnacejade_pair pair;           /* of a dispatch the pair named, of an ask or a commit the handover */
    size_t acts;                     /* of a commit */
    const uint8_t *file;             /* of a run, and the two below */
    size_t size, listing_length;
    uint8_t refusal, set;
    int clears;
} lent_call;

/* What comes of a call: its number, its set (of a run the number of bytes written), and the table that it leaves. */
typedef struct {
    uint8_t refusal;
    size_t size;
    furnacejade_name names[FURNACEJADE_MESSAGES];
    furnacejade_table table;
} outcome;

static outcome outcome_of(const lent_call *lent, uint8_t *area, size_t length) {
    static uint8_t listing[64];
    outcome got = {0, 0, {{0, {0}}}, *lent->before};
    furnacejade_answer answer;
    furnacejade_run_answer run;
    memset(&answer, 0xA5, sizeof answer);
    memset(&run, 0xA5, sizeof run);
    switch (lent->call) {
    case EVENT: furnacejade_play(&got.table, lent->record, area, length, &answer); break;
    case DISPATCH: answer = dispatch(&got.table, lent->pair.receiver, lent->pair.owner, area, length).answer; break;
    case COMMIT: answer = commit(&got.table, lent->pair.receiver, lent->pair.owner, lent->acts, area, length); break;
    case ASK: {
        furnacejade_ask_answer shown = ask(&got.table, lent->pair.receiver, lent->pair.owner, area, length);
        answer.refusal = shown.refusal;
        answer.size = shown.size;
        memcpy(answer.names, shown.names, sizeof answer.names);
        break;
    }
    case RUN:
        furnacejade_run(lent->file, lent->size, listing, lent->listing_length, area, length, &run);
        answer.refusal = run.refusal;
        answer.size = run.written;
        memset(answer.names, 0, sizeof answer.names);
        got.table = run.table;
    }
    got.refusal = answer.refusal;
    got.size = answer.size;
    memcpy(got.names, answer.names, sizeof got.names);
    return got;
}

static void expect_outcome(const outcome *got, const outcome *wanted, const char *field, size_t room) {
    expect(got->refusal, wanted->refusal, field, room, 0);
    expect((uint8_t)(got->size == wanted->size), 1, field, room, 1);
    expect((uint8_t)(memcmp(got->names, wanted->names, sizeof got->names) == 0), 1, field, room, 2);
    expect((uint8_t)(memcmp(&got->table, &wanted->table, sizeof got->table) == 0), 1, field, room, 3);
}

/* Lends the call scratch of each length, dirty and in the middle of dirty memory. With less than 64 bytes question 15 refuses a
 * call that would clear them. With 64 or more the same comes of the call, whatever they hold, and it clears the first 64 or none.
 * All other bytes stay, those of scratch and those around it. */
static void expect_lent(const lent_call *lent) {
    enum { GUARD = 61, MOST = 4096 };
    static const size_t rooms[] = {0, 1, FURNACEJADE_SCRATCH - 1, FURNACEJADE_SCRATCH, FURNACEJADE_SCRATCH + 1, MOST};
    static uint8_t memory[GUARD + MOST + GUARD];
    const outcome refused = {FURNACEJADE_REFUSED_SCRATCH, 0, {{0, {0}}}, *lent->before};
    memset(scratch, 0, sizeof scratch);
    const outcome enough = outcome_of(lent, scratch, sizeof scratch);
    expect(enough.refusal, lent->refusal, lent->name, sizeof scratch, 0);
    if (lent->call != RUN) expect((uint8_t)enough.size, lent->set, lent->name, sizeof scratch, 1);
    for (size_t i = 0; i < sizeof rooms / sizeof rooms[0]; i++) {
        int little = lent->clears && rooms[i] < FURNACEJADE_SCRATCH;
        size_t cleared = lent->clears && !little ? FURNACEJADE_SCRATCH : 0, k = 0;
        for (size_t j = 0; j < sizeof memory; j++) memory[j] = (uint8_t)(1 + j % 255);
        const outcome got = outcome_of(lent, memory + GUARD, rooms[i]);
        expect_outcome(&got, little ? &refused : &enough, lent->name, rooms[i]);
        while (k < sizeof memory && memory[k] == (k >= GUARD && k < GUARD + cleared ? 0 : 1 + k % 255)) k++;
        if (k < sizeof memory) printf("byte %ld of scratch: ", (long)k - GUARD);
        expect((uint8_t)(k == sizeof memory), 1, lent->name, rooms[i], 4);
    }
}

/* Seven controllers have 64 reports under way, and read the logs in a circle, so that the logs have them in seven orders. Answers
 * the first handover that applies something, which applies all 64, and the table before it. The handover before that one is of
 * the same pair, and the table before it is answered too. There 63 reports have the marks of a majority, and all 63 are taken out
 * of the set. */
static furnacejade_pair circle(furnacejade_table *none, furnacejade_table *all) {
    enum { N = FURNACEJADE_CONTROLLERS };
    static furnacejade_fresh_answer fresh;
    furnacejade_answer answer;
    furnacejade_pair pair = {0, 0};
    furnacejade_fresh(1, N, &fresh);
    for (size_t s = 0; s < FURNACEJADE_MESSAGES; s++)
        expect(play(&fresh.table, furnacejade_record_report(1 + s % N, 1), &answer), 0, "report in a circle", s, 0);
    for (size_t turn = 0; answer.size == 0; turn++) { /* each reads its own log, then that of the next, and so on */
        pair.receiver = 1 + turn % N;
        pair.owner = 1 + (turn % N + turn / N) % N;
        do {
            *none = *all;
            *all = fresh.table;
        } while (play(&fresh.table, furnacejade_record_handover(pair.receiver, pair.owner), &answer) == 0 && answer.size == 0);
    }
    expect((uint8_t)answer.size, FURNACEJADE_MESSAGES, "handover in a circle", pair.receiver, pair.owner);
    expect((uint8_t)(none->controllers[pair.receiver - 1].read[pair.owner - 1]), FURNACEJADE_MESSAGES - 2, "handover before it", 0, 0);
    return pair;
}

/* 64 messages are pending at the receiver, and all but slots 5 and 63 go before both of these. Slot 63 lacks marks, and so takes
 * slot 5 out, which has the marks of a majority. */
static void take_one_out(furnacejade_table *table, size_t receiver) {
    furnacejade_pending *pending = table->controllers[receiver - 1].pending;
    for (size_t s = 0; s < FURNACEJADE_MESSAGES; s++) memset(pending[s].marks, (int)s + 1, sizeof pending[s].marks);
    memset(pending[5].marks, FURNACEJADE_MESSAGES, 4);
    memset(pending[5].marks + 4, FURNACEJADE_ABSENT, 3);
    memset(pending[63].marks, 1, 3);
    memset(pending[63].marks + 3, FURNACEJADE_ABSENT, 4);
}

/* The tables of the calls that are lent scratch. */
typedef struct {
    furnacejade_table one, two;        /* fresh ones of three controllers, of versions 1 and 2 */
    furnacejade_table some;            /* 3 has applied its sync, 1 has a report pending, and 2 applies 3.1 when it reads its own log */
    furnacejade_table none, most, all; /* 64 messages are pending at a receiver, and a handover applies none, 62 or all of them */
    furnacejade_pair last;             /* that handover */
} tables_to_lend;

#define CLEARS .clears = 1
#define REFUSED(name) .refusal = FURNACEJADE_REFUSED_##name
#define EXPECT_LENT(calls) \
    for (size_t i = 0; i < sizeof calls / sizeof calls[0]; i++) expect_lent(&calls[i])

/* Every kind of event. */
static void lent_to_events(const tables_to_lend *on) {
    static const furnacejade_table zero;
    const furnacejade_record last = furnacejade_record_handover(on->last.receiver, on->last.owner);
    const lent_call calls[] = {
        {"report", EVENT, &on->some, furnacejade_record_report(1, 5), CLEARS},
        {"report of 361", EVENT, &on->some, furnacejade_record_report(1, 361), REFUSED(AMOUNT)},
        {"report with a class", EVENT, &on->two, furnacejade_record_classed_report(1, 5, FURNACEJADE_CLASS_S), CLEARS},
        {"report of class 5", EVENT, &on->two, furnacejade_record_classed_report(1, 5, 5), REFUSED(CLASS)},
        {"sync", EVENT, &on->some, furnacejade_record_sync(2), CLEARS},
        {"sync while a report is pending", EVENT, &on->some, furnacejade_record_sync(1), REFUSED(OWN_PENDING)},
        {"handover", EVENT, &on->some, furnacejade_record_handover(2, 2), .set = 1, CLEARS},
        {"handover of 64 pending, none applied", EVENT, &on->none, last, CLEARS},
        {"handover of 64 pending, 62 applied", EVENT, &on->most, last, .set = 62, CLEARS},
        {"handover of 64 pending, all applied", EVENT, &on->all, last, .set = 64, CLEARS},
        {"handover without an entry", EVENT, &on->some, furnacejade_record_handover(2, 1), REFUSED(NO_ENTRY)},
        {"stop", EVENT, &on->some, furnacejade_record_stop(1, 1), CLEARS},
        {"stop that keeps too little", EVENT, &on->some, furnacejade_record_stop(1, 0), REFUSED(KEPT)},
        {"local read", EVENT, &on->some, furnacejade_record_local_read(2), CLEARS},
        {"local read while a report is pending", EVENT, &on->some, furnacejade_record_local_read(1), REFUSED(READ_PENDING)},
        {"write", EVENT, &on->some, furnacejade_record_write(3, 8, 1500), CLEARS},
        {"write without a sync", EVENT, &on->some, furnacejade_record_write(2, 8, 1500), REFUSED(NOT_SYNCED)},
        {"event in a table of zeros", EVENT, &zero, furnacejade_record_report(1, 5), REFUSED(TABLE)},
        {"event of no bytes", EVENT, &on->some, REFUSED(RECORD)},
    };
    EXPECT_LENT(calls);
}

/* The dispatcher, ask and commit. */
static void lent_to_calls(const tables_to_lend *on) {
    const furnacejade_pair before = {on->last.receiver, on->last.owner - 1};
    const size_t acts = ask(&on->most, on->last.receiver, on->last.owner, scratch, sizeof scratch).acts;
    const lent_call calls[] = {
        {"dispatch", DISPATCH, &on->some, .pair = {2, 1}, .set = 1, CLEARS},
        {"dispatch of 64 pending", DISPATCH, &on->most, .pair = before, .set = 62, CLEARS},
        {"none", DISPATCH, &on->one, .pair = {3, 3}},
        {"dispatch after no controller", DISPATCH, &on->some, .pair = {3, 4}, REFUSED(CONTROLLER)},
        {"ask", ASK, &on->some, .pair = {2, 2}, .set = 1, CLEARS},
        {"ask of 64 pending, none shown", ASK, &on->none, .pair = on->last, CLEARS},
        {"ask of 64 pending, 62 shown", ASK, &on->most, .pair = on->last, .set = 62, CLEARS},
        {"ask without an entry", ASK, &on->some, .pair = {2, 1}, REFUSED(NO_ENTRY)},
        {"commit", COMMIT, &on->some, .pair = {2, 2}, .acts = 2, .set = 1, CLEARS},
        {"commit of 64 pending", COMMIT, &on->most, .pair = on->last, .acts = acts, .set = 62, CLEARS},
        {"commit with another count", COMMIT, &on->some, .pair = {2, 2}, .acts = 3, REFUSED(ACT_COUNT)},
    };
    EXPECT_LENT(calls);
}

/* The run of a file. */
static void lent_to_runs(const tables_to_lend *on) {
    static const uint8_t reads[] = {1, 3, 2, 5, 1, 2, 5, 2}, stranger[] = {1, 3, 2, 2, 4}, version_3[] = {3, 3}, eight[] = {1, 8};
    const lent_call calls[] = {
        {"run", RUN, &on->one, .file = plain, .size = sizeof plain, .listing_length = 64, CLEARS},
        {"run of version 2", RUN, &on->two, .file = classed, .size = sizeof classed, .listing_length = 64, CLEARS},
        {"run of local reads", RUN, &on->one, .file = reads, .size = sizeof reads, CLEARS},
        {"run that is cut", RUN, &on->one, .file = plain, .size = sizeof plain - 1, .listing_length = 64, REFUSED(RECORD), CLEARS},
        {"run without a listing", RUN, &on->one, .file = plain, .size = sizeof plain, REFUSED(LISTING), CLEARS},
        {"run whose first record is refused", RUN, &on->one, .file = stranger, .size = sizeof stranger, REFUSED(CONTROLLER)},
        {"run of no records", RUN, &on->one, .file = plain, .size = FURNACEJADE_HEAD},
        {"run of one byte", RUN, &on->one, .file = plain, .size = 1, REFUSED(FILE_LENGTH)},
        {"run of version 3", RUN, &on->one, .file = version_3, .size = sizeof version_3, REFUSED(VERSION)},
        {"run of eight controllers", RUN, &on->one, .file = eight, .size = sizeof eight, REFUSED(CONTROLLER_COUNT)},
    };
    EXPECT_LENT(calls);
}

/* What each call leaves of scratch, accepted and refused. */
static void scratches(void) {
    static tables_to_lend on;
    static furnacejade_fresh_answer fresh;
    furnacejade_answer answer;
    const furnacejade_record played[] = {
        furnacejade_record_sync(3),      furnacejade_record_handover(2, 3), furnacejade_record_handover(3, 2),
        furnacejade_record_report(1, 5), furnacejade_record_handover(2, 1),
    };
    furnacejade_fresh(2, 3, &fresh);
    on.two = fresh.table;
    furnacejade_fresh(1, 3, &fresh);
    on.one = on.some = fresh.table;
    for (size_t i = 0; i < sizeof played / sizeof played[0]; i++) expect(play(&on.some, played[i], &answer), 0, "before a call", i, 0);
    on.last = circle(&on.none, &on.all);
    on.most = on.all;
    take_one_out(&on.most, on.last.receiver);
    lent_to_events(&on);
    lent_to_calls(&on);
    lent_to_runs(&on);
}

static void random_tables(void) {
    uint64_t state = 1;
    for (int i = 0; i < 20000; i++) {
        furnacejade_table t;
        uint8_t *bytes = (uint8_t *)&t;
        for (size_t k = 0; k < sizeof t; k++) {
            state = state * 6364136223846793005u + 1442695040888963407u;
            bytes[k] = (uint8_t)(state >> 56);
        }
        furnacejade_table before = t;
        furnacejade_answer answer;
        const uint8_t handover[] = {3, 3, 1, 1};
        expect(event(&t, handover, sizeof handover, &answer), 4, "random table", (size_t)i, 0);
        expect(look(&t, bytes[0]), 4, "random table", (size_t)i, 1);
        expect_count(count(&t, bytes[0], (furnacejade_name){bytes[1], {bytes[2]}}, (furnacejade_name){1, {1}}), 4, 0, "random table", (size_t)i, 2);
        expect(dispatch(&t, bytes[0], bytes[1], scratch, sizeof scratch).answer.refusal, 4, "random table", (size_t)i, 3);
        expect(ask(&t, bytes[0], bytes[1], scratch, sizeof scratch).refusal, 4, "random table", (size_t)i, 4);
        expect(commit(&t, bytes[0], bytes[1], bytes[2], scratch, sizeof scratch).refusal, 4, "random table", (size_t)i, 5);
        tests++;
        if (memcmp(&t, &before, sizeof t) != 0) {
            printf("a refused call changed a random table\n");
            exit(EXIT_FAILURE);
        }
    }
}

int main(void) {
    for (uint8_t version = 1; version <= 2; version++) {
        start(version);
        classes(version);
        messages();
        controllers();
        local_reads(version);
    }
    arrays();
    writes();
    counts();
    unused();
    files(1, plain, sizeof plain);
    files(2, classed, sizeof classed);
    beyond();
    words();
    bytes(plain, sizeof plain);
    bytes(classed, sizeof classed);
    zeros();
    answers();
    class_sums();
    registers();
    dispatches();
    dispatched_sync();
    acts();
    commits();
    committed_sync();
    scratches();
    random_tables();
    printf("%u fields and tables as expected\n", tests);
    return EXIT_SUCCESS;
}
