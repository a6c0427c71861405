/* The paper's example: its plan is built, its eleven events are sent one by one, then all of them in one run. */
#include <inttypes.h>
#include <stdio.h>
#include <stdlib.h>

#include "kernel.h"

#define COUNT(array) (sizeof(array) / sizeof((array)[0]))
#define TICK KERNEL_TICK, 0, 0
#define INPUT(device, character) KERNEL_INPUT, device, character
#define OUTPUT_DONE(device) KERNEL_OUTPUT_DONE, device, 0

/* One task, slice 2, buffers of one word; a segment of 4 words with a program of 2: input, output. */
static const uint16_t plan[] = {1, 2, 1, 1, 1, 4, 2, 4656, 4672};

static const uint16_t events[] = {
    TICK, TICK, TICK, INPUT(0, 65), TICK, TICK, TICK, TICK, TICK, OUTPUT_DONE(0), OUTPUT_DONE(0),
};

/* Sends the events one by one, and prints a line for each, up to the first that is refused. */
static void print_events(uint16_t *image, size_t words)
{
    for (size_t k = 0; k < COUNT(events) / KERNEL_EVENT_WORDS; k++) {
        const uint16_t *event = &events[k * KERNEL_EVENT_WORDS];
        struct kernel_told told = kernel_event(image, words, event[0], event[1], event[2]);
        if (told.number != KERNEL_NOT_REFUSED) {
            printf("%zu refused %u\n", k + 1, told.number);
            return;
        }
        printf("%zu %u %u\n", k + 1, told.kind, told.task);
    }
}

/* Sends all events in one run, and prints how it ended. */
static void print_run(uint16_t *image, size_t words)
{
    struct kernel_ran ran = kernel_run(image, words, events, COUNT(events));
    printf("taken %" PRIu64 ", number %u\n", ran.taken, ran.number);
}

/* Builds the plan's image and hands it to what is to be shown; answers the number of the plan's verdict. */
static uint16_t with_image(void (*show)(uint16_t *, size_t))
{
    struct kernel_size size = kernel_size(plan, COUNT(plan));
    if (size.number != KERNEL_NOT_REFUSED)
        return size.number;
    uint16_t *image = calloc(size.words, sizeof *image);
    if (image == NULL)
        abort();
    uint16_t number = kernel_build(plan, COUNT(plan), image, size.words);
    if (number == KERNEL_NOT_REFUSED)
        show(image, size.words);
    free(image);
    return number;
}

int main(void)
{
    uint16_t number = with_image(print_events);
    if (number == KERNEL_NOT_REFUSED)
        number = with_image(print_run);
    if (number == KERNEL_NOT_REFUSED)
        return EXIT_SUCCESS;
    fprintf(stderr, "plan: refused %u: %s\n", number, kernel_number_text(number));
    return EXIT_FAILURE;
}
