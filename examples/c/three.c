/* Three tasks: one sends two characters and a newline and then divides by zero, one puts out what it is sent, and one
   loops for ever. Prints the characters that come to the second one's port, and then how each task stands. */
#include <stdio.h>
#include <stdlib.h>
#include <string.h>

#include "kernel.h"

enum { SENDER, WRITER, LOOPER, TASKS };
enum { SLICE = 4, INPUT_CAPACITY = 1, OUTPUT_CAPACITY = 1, MESSAGE_CAPACITY = 2 };
enum { LEADING_WORDS = 5, PAIR_WORDS = 2, MOST_PLAN = 64, TICKS = 200 };

/* The names that the scripts share: the tasks' numbers. */
static const char names[] = "sender = 0\n"
                            "writer = 1\n";

static const char *const scripts[TASKS] = {
    "      load r2 writer    ; to whom it sends\n"
    "      load r3 72        ; H\n"
    "      send\n"
    "      load r3 105       ; i\n"
    "      send\n"
    "      load r3 10        ; the newline\n"
    "      send\n"
    "      load r4 0\n"
    "      quotient r3 r4    ; a fault: the task is stopped\n",

    "      load r2 sender    ; from whom it receives\n"
    "next: receive           ; the word comes in r3 ..\n"
    "      output            ; .. and goes to the device from there\n"
    "      jump next\n",

    "loop: jump loop\n",
};

static uint16_t plan[MOST_PLAN] = {TASKS, SLICE, INPUT_CAPACITY, OUTPUT_CAPACITY, MESSAGE_CAPACITY};
static uint16_t image[KERNEL_MOST_WORDS];

/* Ends the program, and says why, where a call was refused. */
static void expect(const char *call, uint16_t number)
{
    if (number == KERNEL_NOT_REFUSED)
        return;
    fprintf(stderr, "%s: refused %u: %s\n", call, (unsigned)number, kernel_number_text(number));
    exit(EXIT_FAILURE);
}

/* The bytes of a text, as the library is lent them. */
static const uint8_t *bytes(const char *text)
{
    return (const uint8_t *)text;
}

/* Translates the scripts into the plan, a segment of its own length for each; answers the plan's count of words. */
static size_t make_plan(void)
{
    size_t words = LEADING_WORDS + PAIR_WORDS * TASKS;
    for (size_t task = 0; task < TASKS; task++) {
        const char *script = scripts[task];
        struct kernel_translated told = kernel_translate(bytes(names), strlen(names), bytes(script), strlen(script),
                                                         plan + words, MOST_PLAN - words);
        uint16_t *pair = plan + LEADING_WORDS + PAIR_WORDS * task;
        expect("kernel_translate", told.number);
        pair[0] = pair[1] = (uint16_t)told.words;
        words += told.words;
    }
    return words;
}

/* Builds the plan's image; answers its count of words. */
static size_t build_image(void)
{
    size_t plan_words = make_plan();
    struct kernel_size size = kernel_size(plan, plan_words);
    expect("kernel_size", size.number);
    expect("kernel_build", kernel_build(plan, plan_words, image, size.words));
    return size.words;
}

/* Prints the character that a device puts out, if it does, and tells the kernel that it is out. */
static void put_out(size_t words, uint16_t device)
{
    struct kernel_port port = kernel_port(image, words, device);
    expect("kernel_port", port.number);
    if (!port.busy)
        return;
    putchar(port.character);
    expect("kernel_event", kernel_event(image, words, KERNEL_OUTPUT_DONE, device, 0).number);
}

/* Prints how a task stands: of one that waits for another, for which, and of a stopped one, its R0 and why. */
static void print_task(size_t words, uint16_t number)
{
    struct kernel_task task = kernel_task(image, words, number);
    struct kernel_word next = kernel_register(image, words, number, 0);
    expect("kernel_task", task.number);
    expect("kernel_register", next.number);
    printf("task %u: %s", (unsigned)number, kernel_status_text(task.status));
    if (task.status == KERNEL_STATUS_WAITS_TO_SEND)
        printf(" to task %u", (unsigned)task.peer);
    if (task.status == KERNEL_STATUS_WAITS_TO_RECEIVE)
        printf(" from task %u", (unsigned)task.peer);
    if (task.status == KERNEL_STATUS_STOPPED)
        printf(", R0 = %u: %s", (unsigned)next.word, kernel_error_text(task.error));
    printf("\n");
}

int main(void)
{
    size_t words = build_image();
    for (int k = 0; k < TICKS; k++) {
        expect("kernel_event", kernel_event(image, words, KERNEL_TICK, 0, 0).number);
        put_out(words, WRITER);
    }
    for (uint16_t task = 0; task < TASKS; task++)
        print_task(words, task);
    return EXIT_SUCCESS;
}
