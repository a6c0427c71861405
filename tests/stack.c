/* What each call takes of the stack, printed: at most what include/kernel.h says. Each is made on a stack of its own
   whose bytes are known before, so that the lowest one that it wrote is seen. */
#include <stdio.h>
#include <stdlib.h>
#include <string.h>
#include <ucontext.h>

#include "kernel.h"

#define COUNT(array) (sizeof(array) / sizeof((array)[0]))

enum { ROOM = 1 << 20, UNTOUCHED = 0xA5, LITTLE = 4 << 10, MORE = 80 << 10, MUCH = 256 << 10 };

/* The words of the image, and where it has its task's peer. */
enum { IMAGE_WORDS = 57, PEER_AT = 33 };

static const uint16_t plan[] = {1, 2, 1, 1, 1, 4, 2, 4656, 4672};
static const uint16_t events[] = {KERNEL_TICK, 0, 0, KERNEL_INPUT, 0, 65, KERNEL_TICK, 0, 0, KERNEL_TICK, 0, 0};
static const uint8_t names[] = "size = 4\nlast = size * (2 + 3) - 1\n";
static const uint8_t script[] = "loop: load r5 ((((((((last + size))))))))\njumplt loop\nother\n";

static uint16_t image[IMAGE_WORDS];
static uint16_t broken[IMAGE_WORDS];
static uint16_t target[IMAGE_WORDS];
static uint8_t text[16 * IMAGE_WORDS];
static uint32_t counts[KERNEL_COUNTS];
static uint32_t full[KERNEL_COUNTS];
static double part;
static unsigned char stack[ROOM];
static ucontext_t caller, callee;

static void build(void) { (void)kernel_build(plan, COUNT(plan), target, IMAGE_WORDS); }
static void size(void) { (void)kernel_size(plan, COUNT(plan)); }
static void check(void) { (void)kernel_check(image, IMAGE_WORDS); }
static void event(void) { (void)kernel_event(image, IMAGE_WORDS, KERNEL_TICK, 0, 0); }
static void run(void) { (void)kernel_run(image, IMAGE_WORDS, events, COUNT(events)); }
static void report(void) { (void)kernel_report(image, IMAGE_WORDS, events, COUNT(events), counts, KERNEL_COUNTS); }
static void report_full(void) { (void)kernel_report(image, IMAGE_WORDS, events, COUNT(events), full, KERNEL_COUNTS); }
static void share(void) { (void)kernel_share(counts, KERNEL_COUNTS, 0, &part); }
static void print(void) { (void)kernel_print(image, IMAGE_WORDS, text, sizeof text); }
static void print_size(void) { (void)kernel_print_size(image, IMAGE_WORDS); }
static void task(void) { (void)kernel_task(image, IMAGE_WORDS, 0); }
static void port(void) { (void)kernel_port(image, IMAGE_WORDS, 0); }
static void one_register(void) { (void)kernel_register(image, IMAGE_WORDS, 0, 7); }
static void queue_length(void) { (void)kernel_queue_length(image, IMAGE_WORDS, KERNEL_QUEUE_READY, 0, 0); }
static void queue_word(void) { (void)kernel_queue_word(image, IMAGE_WORDS, KERNEL_QUEUE_READY, 0, 0, 0); }
static void broken_rule(void) { (void)kernel_broken_rule(broken, IMAGE_WORDS); }

/* The script without its last line, whose name is not given. */
static void translate(void)
{
    (void)kernel_translate(names, sizeof names - 1, script, sizeof script - 7, target, IMAGE_WORDS);
}

static void refused_line(void)
{
    (void)kernel_refused_line(names, sizeof names - 1, script, sizeof script - 1, IMAGE_WORDS);
}

/* A call, and the most that the header allows it. */
struct call {
    const char *name;
    void (*make)(void);
    size_t most;
};

static const struct call calls[] = {
    {"kernel_size", size, LITTLE},
    {"kernel_build", build, LITTLE},
    {"kernel_check", check, LITTLE},
    {"kernel_event", event, LITTLE},
    {"kernel_run", run, LITTLE},
    {"kernel_report", report, MORE},
    {"kernel_report, a count almost full", report_full, MORE},
    {"kernel_share", share, LITTLE},
    {"kernel_translate", translate, MUCH},
    {"kernel_refused_line", refused_line, MUCH},
    {"kernel_print", print, LITTLE},
    {"kernel_print_size", print_size, LITTLE},
    {"kernel_task", task, LITTLE},
    {"kernel_port", port, LITTLE},
    {"kernel_register", one_register, LITTLE},
    {"kernel_queue_length", queue_length, LITTLE},
    {"kernel_queue_word", queue_word, LITTLE},
    {"kernel_broken_rule", broken_rule, LITTLE},
};

/* How many bytes of its stack a call wrote, from the stack's top to the lowest. */
static size_t taken(void (*make)(void))
{
    size_t low = 0;
    memset(stack, UNTOUCHED, ROOM);
    getcontext(&callee);
    callee.uc_stack.ss_sp = stack;
    callee.uc_stack.ss_size = ROOM;
    callee.uc_link = &caller;
    makecontext(&callee, make, 0);
    swapcontext(&caller, &callee);
    while (low < ROOM && stack[low] == UNTOUCHED)
        low++;
    return ROOM - low;
}

int main(void)
{
    int good = kernel_build(plan, COUNT(plan), image, IMAGE_WORDS) == KERNEL_NOT_REFUSED;
    memcpy(broken, image, sizeof broken);
    broken[PEER_AT] = 1;
    full[KERNEL_COUNT_ORDERS] = KERNEL_MOST_COUNT - 1;
    good = good && kernel_broken_rule(broken, IMAGE_WORDS).rule == KERNEL_RULE_PEERLESS;
    for (size_t k = 0; k < COUNT(calls); k++) {
        size_t bytes = taken(calls[k].make);
        printf("%s %zu\n", calls[k].name, bytes);
        if (bytes > calls[k].most) {
            fprintf(stderr, "stack.c: %s took %zu bytes, more than %zu\n", calls[k].name, bytes, calls[k].most);
            good = 0;
        }
    }
    return good ? EXIT_SUCCESS : EXIT_FAILURE;
}
