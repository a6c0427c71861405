/* Who used the machine: two lists of events are run one after the other with the same counts, and after each the table
   is printed: what each task used under each heading, its share of all ticks, and the idle ticks. */
#include <inttypes.h>
#include <stdio.h>
#include <stdlib.h>

#include "kernel.h"

#define COUNT(array) (sizeof(array) / sizeof((array)[0]))
#define TICK KERNEL_TICK, 0, 0
#define EIGHT_TICKS TICK, TICK, TICK, TICK, TICK, TICK, TICK, TICK
#define INPUT(device, character) KERNEL_INPUT, device, character

enum { TASKS = 2, PERCENT = 100 };

/* Two tasks, slice 2, buffers of one word; two segments of 3 words, which the programs fill. The first task divides by
   zero: load r4 0, quotient r3 r4. The second takes characters for ever: input, jump 0. */
static const uint16_t plan[] = {TASKS, 2, 1, 1, 1, 3, 3, 3, 3, 320, 0, 2100, 4656, 3584, 0};

static const uint16_t first_list[] = {EIGHT_TICKS};
static const uint16_t second_list[] = {INPUT(1, 65), EIGHT_TICKS};

static const char *const headings[KERNEL_HEADINGS] = {
    [KERNEL_COUNT_ORDERS] = "orders",
    [KERNEL_COUNT_SERVICES] = "services",
    [KERNEL_COUNT_WAITS] = "waits",
    [KERNEL_COUNT_FAULTS] = "faults",
    [KERNEL_COUNT_ERROR_STOPS] = "error stops",
    [KERNEL_COUNT_PASSED_TURNS] = "passed turns",
};

static uint16_t image[KERNEL_MOST_WORDS];
static uint32_t counts[KERNEL_COUNTS];

/* Ends the program, and says why, where a call was refused. */
static void expect(const char *call, uint16_t number)
{
    if (number == KERNEL_NOT_REFUSED)
        return;
    fprintf(stderr, "%s: refused %u: %s\n", call, (unsigned)number, kernel_number_text(number));
    exit(EXIT_FAILURE);
}

/* Prints a task's share of all ticks. */
static void print_share(uint16_t task)
{
    double share;
    if (kernel_share(counts, KERNEL_COUNTS, task, &share))
        printf(" %.2f percent\n", PERCENT * share);
    else
        printf(" no ticks were counted\n");
}

/* Prints a line a task, and the idle ticks. */
static void print_table(void)
{
    for (uint16_t task = 0; task < TASKS; task++) {
        printf("task %u:", (unsigned)task);
        for (size_t k = 0; k < KERNEL_HEADINGS; k++)
            printf(" %s %" PRIu32 ",", headings[k], counts[KERNEL_HEADINGS * task + k]);
        print_share(task);
    }
    printf("idle %" PRIu32 "\n", counts[KERNEL_AT_IDLE_COUNT]);
}

/* Runs a list, and prints how many of its events were taken and the table as it is then. */
static void report(size_t words, const uint16_t *events, size_t event_words)
{
    struct kernel_ran ran = kernel_report(image, words, events, event_words, counts, KERNEL_COUNTS);
    printf("events taken: %" PRIu64 "\n", ran.taken);
    expect("kernel_report", ran.number);
    print_table();
}

int main(void)
{
    struct kernel_size size = kernel_size(plan, COUNT(plan));
    expect("kernel_size", size.number);
    expect("kernel_build", kernel_build(plan, COUNT(plan), image, size.words));
    print_table();
    report(size.words, first_list, COUNT(first_list));
    report(size.words, second_list, COUNT(second_list));
    return EXIT_SUCCESS;
}
