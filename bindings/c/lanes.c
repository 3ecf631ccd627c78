/* Five lanes of one machine: trays, two of one lane under way at once, eggs taken back, local reads, a sync, a set point, a lane
 * that stops, and what is left when no majority runs. The dispatcher hands over what waits, and refusals are printed in words. */
#include <stdio.h>
#include <stdlib.h>

#include "furnacejade.h"

enum { LANES = 5, BELT_SPEED = 1 /* its register */ };

static furnacejade_fresh_answer start;
static furnacejade_table *const table = &start.table;
static furnacejade_answer answer;

/* Carries out one record. */
static unsigned play(furnacejade_record record) {
    static uint8_t scratch[FURNACEJADE_SCRATCH];
    return furnacejade_play(table, record, scratch, sizeof scratch, &answer);
}

static void print_refusal(uint8_t refusal) { printf("refused, %d: %s\n", refusal, furnacejade_question(refusal)); }

static furnacejade_sums shown(size_t lane) {
    furnacejade_look_answer look;
    furnacejade_look(table, lane, &look);
    return look.panel.sums;
}

/* What was added, and what was withdrawn. */
static void print_sums(furnacejade_sums sums, const char *end) { printf("%u %u%s", sums.added, sums.withdrawn, end); }

/* Sends a report, sync or write of a lane, and prints the name of the message. */
static void send(uint8_t lane, furnacejade_record record) {
    if (play(record) != FURNACEJADE_ACCEPTED) {
        print_refusal(answer.refusal);
        return;
    }
    furnacejade_name sent = furnacejade_latest(table, lane);
    printf("sent as %d.%d\n", sent.sender, sent.number.value);
}

static void report(uint8_t lane, int16_t amount) {
    printf("lane %d reports %d: ", lane, amount);
    send(lane, furnacejade_record_report(lane, amount));
}

static void sync(uint8_t lane) {
    printf("lane %d syncs: ", lane);
    send(lane, furnacejade_record_sync(lane));
}

static void set_belt_speed(uint8_t lane, uint32_t value) {
    printf("lane %d sets the belt speed to %u: ", lane, value);
    send(lane, furnacejade_record_write(lane, BELT_SPEED, value));
}

static void print_belt_speed(size_t lane) {
    furnacejade_look_answer look;
    furnacejade_look(table, lane, &look);
    const furnacejade_register *speed = &look.panel.registers[BELT_SPEED - 1];
    if (speed->stamp.date == 0) printf("panel %zu shows no belt speed yet\n", lane);
    else printf("panel %zu shows the belt speed %u, set by lane %d\n", lane, speed->value, speed->stamp.writer);
}

static void local_read(uint8_t lane) {
    printf("lane %d reads its own sums: ", lane);
    if (play(furnacejade_record_local_read(lane)) == FURNACEJADE_ACCEPTED) print_sums(answer.sums, "\n");
    else print_refusal(answer.refusal);
}

static void stop(uint8_t lane, size_t kept) {
    printf("lane %d stops, %zu of %zu entries kept: ", lane, kept, furnacejade_most_kept(table, lane));
    if (play(furnacejade_record_stop(lane, kept)) == FURNACEJADE_ACCEPTED) printf("done\n");
    else print_refusal(answer.refusal);
}

static void print_set(size_t receiver, const furnacejade_answer *set) {
    if (set->size == 0) return;
    printf("  panel %zu applies", receiver);
    for (size_t i = 0; i < set->size; i++) printf(" %d.%d", set->names[i].sender, set->names[i].number.value);
    printf(" and shows ");
    print_sums(shown(receiver), "\n");
    if (!set->finished) return;
    printf("  lane %zu's sync is answered: ", receiver);
    print_sums(set->sums, "\n");
}

/* The next handover, after that of the pair served last. Whether there was one. */
static int hand_over(void) {
    static furnacejade_pair served = {LANES, LANES};
    static uint8_t scratch[FURNACEJADE_SCRATCH];
    static furnacejade_dispatch_answer next;
    furnacejade_dispatch(table, served.receiver, served.owner, scratch, sizeof scratch, &next);
    if (next.answer.refusal != FURNACEJADE_ACCEPTED) {
        print_refusal(next.answer.refusal);
        exit(EXIT_FAILURE);
    }
    if (next.pair.receiver == 0) return 0;
    served = next.pair;
    print_set(served.receiver, &next.answer);
    return 1;
}

/* Hands over until nothing waits. */
static void hand_over_all(void) {
    unsigned all = 0;
    while (hand_over()) all++;
    printf("handed over %u entries; panels show ", all);
    for (size_t lane = 1; lane <= LANES; lane++) print_sums(shown(lane), lane < LANES ? ", " : "\n");
}

int main(void) {
    if (furnacejade_interface() != FURNACEJADE_INTERFACE) return EXIT_FAILURE;
    furnacejade_fresh(1, LANES, &start);
    if (start.refusal != FURNACEJADE_ACCEPTED) return EXIT_FAILURE;
    report(1, 30);
    report(1, 12); /* the next tray does not wait for the first */
    local_read(1); /* 18: hand over and try again */
    sync(1);       /* 11: likewise */
    hand_over_all();
    local_read(1);
    report(1, -12); /* the second tray is taken back */
    report(5, 24);  /* 5.3: lane 5 has forwarded 1.1 and 1.2 before it */
    stop(5, 1);     /* 14: lanes have read its second entry */
    stop(5, 2);     /* 5.3, which nobody has read, vanishes */
    sync(5);        /* 10: a stop is final */
    local_read(5);  /* 10: its panel can still be looked at */
    report(2, 400);
    hand_over_all();
    set_belt_speed(3, 1500); /* 20: a sync first */
    sync(3);
    hand_over_all();
    set_belt_speed(3, 1500);
    print_belt_speed(1);
    hand_over_all();
    print_belt_speed(1);
    stop(1, furnacejade_most_kept(table, 1));
    stop(2, furnacejade_most_kept(table, 2));
    report(3, 6); /* sent, but two of five are no majority */
    hand_over_all();
    return EXIT_SUCCESS;
}
