/* Plays a run file, read from standard input, event by event: the set applied, what a finished sync or a local read gives, and
 * then a look at every panel. In the end it prints what each panel shows of each class, if the file is of version 2, and of the
 * registers that were written. bindings/worked.run, bindings/classes.run, bindings/underway.run, bindings/settings.run and
 * bindings/reading.run are the runs of docs/RULES.md, sections 19, 25, 26, 28 and 29.
 *
 * With a controller and two messages as arguments, as in `worked 3 3.1 1.1`, each line ends in what service staff ask where
 * something waits: how many controllers put the first message before the second there, how many the second before the first,
 * and how many are needed. bindings/before.txt is what that prints for bindings/worked.run. */
#include <stdio.h>
#include <stdlib.h>

#include "furnacejade.h"

enum { LOCAL_READ = 5 /* its kind */ };

static furnacejade_panel shown(const furnacejade_table *table, size_t controller) {
    static furnacejade_look_answer look;
    furnacejade_look(table, controller, &look);
    return look.panel;
}

/* What was added, and what was withdrawn. */
static void print_sums(furnacejade_sums sums) { printf(" %u %u", sums.added, sums.withdrawn); }

static void print_classes(const furnacejade_table *table) {
    static const char *const names[FURNACEJADE_CLASSES] = {"none", "XL", "L", "M", "S"};
    for (size_t c = 1; c <= table->n; c++) {
        furnacejade_panel panel = shown(table, c);
        printf("panel %zu:", c);
        print_sums(panel.sums);
        for (size_t k = FURNACEJADE_CLASS_XL; k <= FURNACEJADE_CLASS_S; k++) {
            printf(", %s", names[k]);
            print_sums(panel.classes[k]);
        }
        printf("\n");
    }
}

static void print_registers(const furnacejade_table *table) {
    for (size_t c = 1; c <= table->n; c++)
        for (size_t r = 1; r <= FURNACEJADE_REGISTERS; r++) {
            furnacejade_register shows = shown(table, c).registers[r - 1];
            if (shows.stamp.date == 0) continue;
            printf("panel %zu: register %zu is %u, stamp %d, %d\n", c, r, shows.value, shows.stamp.date, shows.stamp.writer);
        }
}

/* A message's name from its text. */
static furnacejade_name name_of(const char *text) {
    unsigned char sender = 0, number = 0;
    if (sscanf(text, "%hhu.%hhu", &sender, &number) != 2) exit(EXIT_FAILURE);
    return (furnacejade_name){sender, {number}};
}

static size_t count_before(const furnacejade_table *table, size_t controller, furnacejade_name first, furnacejade_name second) {
    furnacejade_count_answer answer;
    furnacejade_count_before(table, controller, &first, &second, &answer);
    if (answer.refusal != FURNACEJADE_ACCEPTED) exit(EXIT_FAILURE);
    return answer.count;
}

/* Of the arguments: a controller, and two messages. */
static void print_before(const furnacejade_table *table, char **asked) {
    size_t controller = strtoul(asked[0], NULL, 10);
    furnacejade_name one = name_of(asked[1]), other = name_of(asked[2]);
    size_t first = count_before(table, controller, one, other), second = count_before(table, controller, other, one);
    printf(" | at %zu: %zu put %s before %s, %zu put %s before %s", controller, first, asked[1], asked[2], second, asked[2], asked[1]);
    printf(", %zu needed", table->n / 2 + 1);
}

int main(int arguments, char **argument) {
    static uint8_t run[65535], scratch[FURNACEJADE_SCRATCH];
    size_t length = fread(run, 1, sizeof run, stdin);
    if (length < 2) return EXIT_FAILURE;
    static furnacejade_fresh_answer start;
    furnacejade_fresh(run[0], run[1], &start);
    if (start.refusal != FURNACEJADE_ACCEPTED) return EXIT_FAILURE;
    furnacejade_table *table = &start.table;
    size_t at = 2;
    for (unsigned number = 1; at < length; number++) {
        static furnacejade_answer answer;
        const uint8_t *record = run + at;
        size_t left = furnacejade_event(table, record, length - at, scratch, sizeof scratch, &answer);
        if (answer.refusal != FURNACEJADE_ACCEPTED) return EXIT_FAILURE;
        at = length - left;
        printf("%u:", number);
        for (size_t i = 0; i < answer.size; i++) printf(" %d.%d", answer.names[i].sender, answer.names[i].number.value);
        if (record[1] == LOCAL_READ) printf(" %d reads", record[2]);
        if (answer.finished) printf(" finished");
        if (record[1] == LOCAL_READ || answer.finished) print_sums(answer.sums);
        for (size_t c = 1; c <= table->n; c++) {
            printf(" |");
            print_sums(shown(table, c).sums);
        }
        if (arguments == 4) print_before(table, argument + 1);
        printf("\n");
    }
    if (table->version == 2) print_classes(table);
    print_registers(table);
    return EXIT_SUCCESS;
}
