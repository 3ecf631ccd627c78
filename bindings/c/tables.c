/* Prints what the header's functions over a table say of tables, which are read from standard input as they lie in memory, one
 * after the other. `compare tables` (compare/README.md) compares it with an implementation of its own.
 *
 * Each table has these lines, with one column for each of the controllers 0 to 8 and 255:
 *
 *     table 1                          its place in the input, from 1
 *     latest 0.0 1.3 2.1 ...           the latest message of the controller
 *     runs 0 1 0 ...                   1 if the controller runs
 *     kept 0-0 2-3 0-1 ...             the least and the greatest length that a stop of it may keep
 *     unread 1: 0 2 0 ...              how many entries of its log controller 1 has not read; one line for each controller
 *     state 1.3: u p c ...             the state of a message there: unknown, pending, applied or cut off
 *
 * A line `state` stands for each of the 64 slots, and then for names that few tables have. */
#include <stdio.h>
#include <stdlib.h>

#include "furnacejade.h"

static const uint8_t controllers[] = {0, 1, 2, 3, 4, 5, 6, 7, 8, 255};
static const uint8_t odd_numbers[] = {0, 1, 64, 65, 255};
#define FOR_EACH(item, list) for (const uint8_t *item = list; item < list + sizeof list; item++)

static char letter_of(unsigned state) {
    switch (state) {
    case FURNACEJADE_UNKNOWN: return 'u';
    case FURNACEJADE_PENDING: return 'p';
    case FURNACEJADE_APPLIED: return 'a';
    case FURNACEJADE_CUT_OFF: return 'c';
    default: return '?';
    }
}

static void print_state(const furnacejade_table *table, uint8_t sender, uint8_t number) {
    const furnacejade_name message = {sender, {number}};
    printf("state %d.%d:", sender, number);
    FOR_EACH(c, controllers) printf(" %c", letter_of(furnacejade_state(table, *c, message)));
    printf("\n");
}

static void print_table(const furnacejade_table *table) {
    printf("latest");
    FOR_EACH(c, controllers) {
        furnacejade_name latest = furnacejade_latest(table, *c);
        printf(" %d.%d", latest.sender, latest.number.value);
    }
    printf("\nruns");
    FOR_EACH(c, controllers) printf(" %d", furnacejade_runs(table, *c) != 0);
    printf("\nkept");
    FOR_EACH(c, controllers) printf(" %zu-%zu", furnacejade_least_kept(table, *c), furnacejade_most_kept(table, *c));
    printf("\n");
    FOR_EACH(receiver, controllers) {
        printf("unread %d:", *receiver);
        FOR_EACH(owner, controllers) printf(" %zu", furnacejade_unread(table, *receiver, *owner));
        printf("\n");
    }
    for (size_t slot = 0; slot < FURNACEJADE_MESSAGES; slot++)
        print_state(table, table->messages[slot].sender, table->messages[slot].number.value);
    FOR_EACH(sender, controllers) FOR_EACH(number, odd_numbers) print_state(table, *sender, *number);
}

int main(void) {
    static furnacejade_table table;
    size_t size = fread(&table, 1, sizeof table, stdin);
    for (unsigned place = 1; size == sizeof table; place++) {
        printf("table %u\n", place);
        print_table(&table);
        size = fread(&table, 1, sizeof table, stdin);
    }
    return size == 0 && !ferror(stdin) && fflush(stdout) == 0 ? EXIT_SUCCESS : EXIT_FAILURE;
}
