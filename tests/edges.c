/* What include/kernel.h says of each call and of each field of its answer, of NULL, of refused answers and of words that
   are not lent, tried on the archive. No two arguments of a call are the same, and no two fields of an accepted answer,
   where it has room for that: of a task's fields each two differ in one of three tasks. */
#include <stdio.h>
#include <stdlib.h>
#include <string.h>

#include "kernel.h"

#define COUNT(array) (sizeof(array) / sizeof((array)[0]))
#define EXPECT(truth) expect(truth, #truth, __LINE__)

enum { IMAGE_WORDS = 57, CROWD_WORDS = 184, GUARD_WORDS = 64, GUARD_BYTE = 0xA5, GUARD_WORD = 0xA5A5 };

/* What the fields hold where there is nothing to tell. */
enum { NONE = 65535 };

/* Where the parts of the image of three tasks stand, worked by hand. */
enum { TASK_TABLE = 18, READY_QUEUE = 45, STATUS_TABLE = 52, INPUT_OF_1 = 64, OUTPUT_OF_1 = 81, PORTS = 163 };
enum { FROM_0_TO_1 = 99, FROM_1_TO_0 = 115, FROM_1_TO_2 = 131, TASK_WORDS = 9 };

/* Where the slot of the input buffer stands in the example's image. */
enum { INPUT_SLOT = 38 };

/* The plan of the paper's example. */
static const uint16_t plan[] = {1, 2, 1, 1, 1, 4, 2, 4656, 4672};

/* A plan of three tasks, and one of seventeen. */
static const uint16_t crowd[] = {3, 5, 2, 1, 4, 4, 2, 2, 1, 3, 0, 4656, 4672, 4656};
static const uint16_t out_of_range[] = {17, 5, 2, 1, 4};

/* Words that are lent, from image on, between words that are not. */
static uint16_t memory[GUARD_WORDS + CROWD_WORDS + GUARD_WORDS];
static uint16_t *const image = memory + GUARD_WORDS;

/* Counts that are lent, from counts on, between some that are not. */
enum { GUARD_COUNTS = 3 };
static uint32_t count_memory[GUARD_COUNTS + KERNEL_COUNTS + GUARD_COUNTS];
static uint32_t *const counts = count_memory + GUARD_COUNTS;

/* A number that no share is. */
static const double UNTOLD = -1.5;

static void expect(int truth, const char *text, int line)
{
    if (!truth) {
        fprintf(stderr, "edges.c:%d: not so: %s\n", line, text);
        exit(EXIT_FAILURE);
    }
}

/* Nothing is written yet. */
static void clear(void)
{
    memset(memory, GUARD_BYTE, sizeof memory);
}

/* Whether no word was written but the first few of the image. */
static int guarded(size_t lent)
{
    for (size_t k = 0; k < COUNT(memory); k++) {
        int is_lent = k >= GUARD_WORDS && k < GUARD_WORDS + lent;
        if (!is_lent && memory[k] != GUARD_WORD)
            return 0;
    }
    return 1;
}

static int is_size(struct kernel_size size, uint64_t words, uint16_t number)
{
    return size.words == words && size.number == number;
}

static int is_told(struct kernel_told told, uint16_t number, uint16_t kind, uint16_t task)
{
    return told.number == number && told.kind == kind && told.task == task;
}

/* Whether a call that was refused answered this number, and neither a kind nor a task. */
static int refused(struct kernel_told told, uint16_t number)
{
    return is_told(told, number, KERNEL_NO_ANSWER, KERNEL_NO_ANSWER);
}

static int is_ran(struct kernel_ran ran, uint64_t taken, uint16_t number)
{
    return ran.taken == taken && ran.number == number;
}

static int is_translated(struct kernel_translated told, uint64_t words, uint16_t number, uint16_t text)
{
    return told.words == words && told.number == number && told.text == text;
}

static int is_line(struct kernel_line line, uint64_t start, uint64_t bytes)
{
    return line.start == start && line.bytes == bytes;
}

static int is_printed(struct kernel_printed told, uint64_t bytes, uint16_t number)
{
    return told.bytes == bytes && told.number == number;
}

static int is_task(struct kernel_task told, uint16_t status, uint16_t peer, uint16_t cc, uint16_t error,
                   uint16_t pending)
{
    return told.number == 0 && told.status == status && told.peer == peer && told.cc == cc && told.error == error &&
           told.pending == pending;
}

/* Whether a task was not seen, for this number. */
static int no_task(struct kernel_task told, uint16_t number)
{
    return told.number == number && told.status == NONE && told.peer == NONE && told.cc == NONE && told.error == NONE &&
           told.pending == NONE;
}

static int is_port(struct kernel_port told, uint16_t number, uint16_t busy, uint16_t character)
{
    return told.number == number && told.busy == busy && told.character == character;
}

static int is_word(struct kernel_word told, uint16_t number, uint16_t word)
{
    return told.number == number && told.word == word;
}

static int is_broken(struct kernel_broken told, uint16_t rule, uint16_t queue, uint16_t i, uint16_t j)
{
    return told.number == KERNEL_REFUSED_RULE_BROKEN && told.rule == rule && told.queue == queue && told.i == i &&
           told.j == j;
}

/* Whether the check answered this number, and so no rule is told. */
static int no_rule(struct kernel_broken told, uint16_t number)
{
    return told.number == number && told.rule == NONE && told.queue == NONE && told.i == NONE && told.j == NONE;
}

static const uint8_t *bytes(const char *text)
{
    return (const uint8_t *)text;
}

/* No words, at NULL. */
static void try_no_words(void)
{
    EXPECT(kernel_check(NULL, 0) == 1);
    EXPECT(is_size(kernel_size(NULL, 0), 0, 11));
    EXPECT(kernel_build(NULL, 0, NULL, 0) == 11);
    EXPECT(kernel_build(plan, COUNT(plan), NULL, 0) == 12);
    EXPECT(refused(kernel_event(NULL, 0, KERNEL_TICK, 0, 0), 1));
    EXPECT(is_ran(kernel_run(NULL, 0, NULL, 0), 0, 1));
    EXPECT(is_ran(kernel_report(NULL, 0, NULL, 0, NULL, 0), 0, 12));
    EXPECT(is_ran(kernel_report(NULL, 0, NULL, 0, counts, KERNEL_COUNTS), 0, 1));
}

/* Accepted and refused calls on the example's image. */
static void try_the_example(void)
{
    clear();
    EXPECT(kernel_build(plan, COUNT(plan), image, IMAGE_WORDS) == 0);
    EXPECT(kernel_check(image, IMAGE_WORDS) == 0);
    EXPECT(kernel_check(image, IMAGE_WORDS - 1) == 5);
    EXPECT(refused(kernel_event(image, IMAGE_WORDS, KERNEL_OUTPUT_DONE, 0, 0), 9));
    EXPECT(refused(kernel_event(image, IMAGE_WORDS, KERNEL_INPUT, 1, 65), 7));
    EXPECT(is_told(kernel_event(image, IMAGE_WORDS, KERNEL_INPUT, 0, 65), 0, 8, 0));
    EXPECT(is_ran(kernel_run(image, IMAGE_WORDS, NULL, 0), 0, 0));
    EXPECT(guarded(IMAGE_WORDS));
}

/* The example from its fresh image: the input, then the order for it and the service. The character's slot is 0 then, and
   the image with the character there is refused. */
static void try_a_taken_slot(void)
{
    static const uint16_t events[] = {KERNEL_INPUT, 0, 65, KERNEL_TICK, 0, 0, KERNEL_TICK, 0, 0};
    clear();
    EXPECT(kernel_build(plan, COUNT(plan), image, IMAGE_WORDS) == 0);
    EXPECT(is_ran(kernel_run(image, IMAGE_WORDS, events, KERNEL_EVENT_WORDS), 1, 0) && image[INPUT_SLOT] == 65);
    EXPECT(is_ran(kernel_run(image, IMAGE_WORDS, events + KERNEL_EVENT_WORDS, 2 * KERNEL_EVENT_WORDS), 2, 0));
    EXPECT(is_word(kernel_register(image, IMAGE_WORDS, 0, 3), 0, 65) && image[INPUT_SLOT] == 0);
    image[INPUT_SLOT] = 65;
    EXPECT(kernel_check(image, IMAGE_WORDS) == KERNEL_REFUSED_RULE_BROKEN);
    EXPECT(refused(kernel_event(image, IMAGE_WORDS, KERNEL_TICK, 0, 0), 6) && image[INPUT_SLOT] == 65);
    EXPECT(guarded(IMAGE_WORDS));
}

/* Three tasks: the third one's input, and then two ticks of the first, input for the second and a refused event. */
static void try_a_crowd(void)
{
    static const uint16_t events[] = {
        KERNEL_TICK, 0, 0, KERNEL_TICK, 0, 0, KERNEL_INPUT, 1, 66, KERNEL_OUTPUT_DONE, 2, 0, KERNEL_TICK, 0, 0,
    };
    clear();
    EXPECT(is_size(kernel_size(crowd, COUNT(crowd)), CROWD_WORDS, 0));
    EXPECT(is_size(kernel_size(out_of_range, COUNT(out_of_range)), 0, 3));
    EXPECT(kernel_build(crowd, COUNT(crowd), image, CROWD_WORDS - 1) == 12);
    EXPECT(guarded(0));
    EXPECT(kernel_build(crowd, COUNT(crowd), image, CROWD_WORDS) == 0);
    EXPECT(kernel_check(image, CROWD_WORDS) == 0);
    EXPECT(is_told(kernel_event(image, CROWD_WORDS, KERNEL_INPUT, 2, 65), 0, 8, 2));
    EXPECT(is_ran(kernel_run(image, CROWD_WORDS, events, COUNT(events)), 3, 9));
    EXPECT(refused(kernel_event(image, CROWD_WORDS, KERNEL_INPUT, 3, 65), 7));
    EXPECT(guarded(CROWD_WORDS));
}

/* Puts another number into each count, and into those beside them. */
static void number_counts(void)
{
    for (uint32_t k = 0; k < COUNT(count_memory); k++)
        count_memory[k] = 100 + k;
}

/* Whether each count is as number_counts put it, but for some that have grown, each by a number beside its place. */
static int grown(const uint32_t *growth, size_t places)
{
    uint32_t expected[COUNT(count_memory)];
    for (uint32_t k = 0; k < COUNT(count_memory); k++)
        expected[k] = 100 + k;
    for (size_t k = 0; k < places; k++)
        expected[GUARD_COUNTS + growth[2 * k]] += growth[2 * k + 1];
    return memcmp(count_memory, expected, sizeof expected) == 0;
}

#define GROWN(...) grown((const uint32_t[]){__VA_ARGS__}, COUNT(((const uint32_t[]){__VA_ARGS__})) / 2)

/* Where a task has a heading's count. */
#define AT(task, heading) (KERNEL_HEADINGS * (task) + KERNEL_COUNT_##heading)

/* Counts the events above: the first task asks for input and waits. Then the second one asks for it, has it and comes
   to a word that is no order, as the third does at once; and nobody is ready. Each is stopped, and no turn is passed. */
static void try_counts(void)
{
    static const uint16_t events[] = {
        KERNEL_TICK, 0, 0, KERNEL_TICK, 0, 0, KERNEL_INPUT, 1, 66, KERNEL_OUTPUT_DONE, 2, 0, KERNEL_TICK, 0, 0,
    };
    static const uint16_t ticks[3 * 9];
    clear();
    number_counts();
    EXPECT(kernel_build(crowd, COUNT(crowd), image, CROWD_WORDS) == 0);
    EXPECT(is_ran(kernel_report(image, CROWD_WORDS, events, COUNT(events), counts, KERNEL_COUNTS), 3, 9));
    EXPECT(GROWN(AT(0, ORDERS), 1, AT(0, WAITS), 1));
    EXPECT(is_ran(kernel_report(image, CROWD_WORDS - 1, ticks, COUNT(ticks), counts, KERNEL_COUNTS), 0, 5));
    EXPECT(is_ran(kernel_report(image, CROWD_WORDS, ticks, COUNT(ticks) - 1, counts, KERNEL_COUNTS), 0, 7));
    EXPECT(is_ran(kernel_report(image, CROWD_WORDS, ticks, 0, counts, KERNEL_COUNTS), 0, 0));
    EXPECT(GROWN(AT(0, ORDERS), 1, AT(0, WAITS), 1));
    EXPECT(is_ran(kernel_report(image, CROWD_WORDS, ticks, COUNT(ticks), counts, KERNEL_COUNTS), 9, 0));
    EXPECT(GROWN(AT(0, ORDERS), 1, AT(0, WAITS), 1, AT(1, ORDERS), 1, AT(1, SERVICES), 1, AT(1, FAULTS), 1,
                 AT(1, ERROR_STOPS), 1, AT(2, FAULTS), 1, AT(2, ERROR_STOPS), 1, KERNEL_AT_IDLE_COUNT, 3));
    EXPECT(guarded(CROWD_WORDS));
}

/* A service that faults, an output of 256, is counted under faults. */
static void try_a_faulted_service(void)
{
    static const uint16_t output_256[] = {1, 5, 1, 1, 1, 3, 3, 304, 256, 4672};
    static const uint16_t ticks[3 * 4];
    clear();
    number_counts();
    EXPECT(kernel_build(output_256, COUNT(output_256), image, IMAGE_WORDS - 1) == 0);
    EXPECT(is_ran(kernel_report(image, IMAGE_WORDS - 1, ticks, COUNT(ticks), counts, KERNEL_COUNTS), 4, 0));
    EXPECT(GROWN(AT(0, ORDERS), 2, AT(0, FAULTS), 1, AT(0, ERROR_STOPS), 1));
    EXPECT(guarded(IMAGE_WORDS - 1));
}

/* Counts of another length, and a count at its end: nothing changes, but for what was taken before. */
static void try_refused_counts(void)
{
    static const uint16_t ticks[3 * 2];
    static uint16_t before[CROWD_WORDS];
    clear();
    number_counts();
    EXPECT(kernel_build(crowd, COUNT(crowd), image, CROWD_WORDS) == 0);
    memcpy(before, image, sizeof before);
    EXPECT(is_ran(kernel_report(image, CROWD_WORDS, ticks, COUNT(ticks), counts, KERNEL_COUNTS - 1), 0, 12));
    EXPECT(is_ran(kernel_report(image, CROWD_WORDS, ticks, COUNT(ticks), counts, KERNEL_COUNTS + 1), 0, 12));
    EXPECT(is_ran(kernel_report(image, 0, ticks, 1, counts, 1), 0, 12));
    EXPECT(memcmp(image, before, sizeof before) == 0 && grown(NULL, 0));
    counts[AT(0, WAITS)] = KERNEL_MOST_COUNT;
    EXPECT(is_told(kernel_event(before, CROWD_WORDS, KERNEL_TICK, 0, 0), 0, KERNEL_KIND_ORDER_DONE, 0));
    EXPECT(is_ran(kernel_report(image, CROWD_WORDS, ticks, COUNT(ticks), counts, KERNEL_COUNTS), 1, 17));
    EXPECT(is_ran(kernel_report(image, CROWD_WORDS, ticks, COUNT(ticks), counts, KERNEL_COUNTS), 0, 17));
    EXPECT(memcmp(image, before, sizeof before) == 0 && counts[AT(0, WAITS)] == KERNEL_MOST_COUNT);
    counts[AT(0, WAITS)] = 100 + GUARD_COUNTS + AT(0, WAITS);
    EXPECT(GROWN(AT(0, ORDERS), 1) && guarded(CROWD_WORDS));
}

/* Whether a share is told, and is this one. */
static int is_share(uint16_t task, double expected)
{
    double share = UNTOLD;
    return kernel_share(counts, KERNEL_COUNTS, task, &share) == 1 && share == expected;
}

/* Whether none is told, and the cell is as it was. */
static int no_share(const uint32_t *lent, size_t entries, uint16_t task)
{
    double share = UNTOLD;
    return kernel_share(lent, entries, task, &share) == 0 && share == UNTOLD;
}

/* Shares of 256 ticks, which are exact; of all counts at their end, six ninety-sevenths; and none. */
static void try_shares(void)
{
    EXPECT(no_share(NULL, 0, 1));
    memset(count_memory, 0, sizeof count_memory);
    EXPECT(no_share(counts, KERNEL_COUNTS, 1) && no_share(counts, KERNEL_COUNTS, 16));
    for (size_t k = 0; k < KERNEL_HEADINGS; k++)
        counts[KERNEL_HEADINGS + k] = (uint32_t)1 << k;
    counts[AT(15, PASSED_TURNS)] = 128;
    counts[KERNEL_AT_IDLE_COUNT] = 65;
    EXPECT(is_share(1, 63.0 / 256) && is_share(15, 0.5) && is_share(0, 0) && is_share(16, 0) && is_share(65535, 0));
    EXPECT(no_share(counts, KERNEL_COUNTS - 1, 1) && no_share(counts, KERNEL_COUNTS + 1, 1));
    for (size_t k = 0; k < KERNEL_COUNTS; k++)
        counts[k] = KERNEL_MOST_COUNT;
    EXPECT(is_share(0, 6.0 / 97) && is_share(15, 6.0 / 97) && is_share(16, 0));
}

/* No bytes and no words, at NULL. */
static void try_no_texts(void)
{
    EXPECT(is_translated(kernel_translate(NULL, 0, NULL, 0, NULL, 0), 0, 0, KERNEL_NO_TEXT));
    EXPECT(is_line(kernel_refused_line(NULL, 0, NULL, 0, 0), 0, 0));
}

/* A script of three words in room enough and in too little, and a refused line of each text. */
static void try_texts(void)
{
    static const char names[] = "size = 4\n", script[] = "size\nsize + 1\n  size * 2\n";
    static const char wrong_names[] = "size = 4\nb = \n", wrong_script[] = "size\nother\n";
    clear();
    EXPECT(is_translated(kernel_translate(bytes(names), 9, bytes(script), 25, image, 2), 0, 16, KERNEL_SCRIPT));
    EXPECT(is_line(kernel_refused_line(bytes(names), 9, bytes(script), 25, 2), 14, 10));
    EXPECT(is_translated(kernel_translate(bytes(names), 9, bytes(wrong_script), 11, image, 4), 0, 14, KERNEL_SCRIPT));
    EXPECT(is_line(kernel_refused_line(bytes(names), 9, bytes(wrong_script), 11, 4), 5, 5));
    EXPECT(is_translated(kernel_translate(bytes(wrong_names), 14, bytes(script), 25, image, 4), 0, 13, KERNEL_NAMES));
    EXPECT(is_line(kernel_refused_line(bytes(wrong_names), 14, bytes(script), 25, 4), 9, 4));
    EXPECT(guarded(0));
    EXPECT(is_translated(kernel_translate(bytes(names), 9, bytes(script), 25, image, 4), 3, 0, KERNEL_NO_TEXT));
    EXPECT(is_line(kernel_refused_line(bytes(names), 9, bytes(script), 25, 4), 0, 0));
    EXPECT(image[0] == 4 && image[1] == 5 && image[2] == 8 && guarded(3));
}

/* No words and no bytes, at NULL; a word at NULL has no room. */
static void try_no_prints(void)
{
    static const uint16_t word[] = {0};
    EXPECT(is_printed(kernel_print(NULL, 0, NULL, 0), 0, 0));
    EXPECT(is_printed(kernel_print_size(NULL, 0), 0, 0));
    EXPECT(is_printed(kernel_print(word, 1, NULL, 0), 0, 16));
}

/* A list of four words in a byte too little, in room enough and in more, and a list of a word too many. */
static void try_prints(void)
{
    static const uint16_t words[] = {4656, 256, 7, 256}, zeros[KERNEL_MOST_PRINTED + 1];
    static const char printed[] = "input\nload r0 7\n256\n";
    enum { PRINTED = sizeof printed - 1 };
    uint8_t *text = (uint8_t *)image;
    clear();
    EXPECT(is_printed(kernel_print_size(words, COUNT(words)), PRINTED, 0));
    EXPECT(is_printed(kernel_print_size(zeros, KERNEL_MOST_PRINTED), 2 * KERNEL_MOST_PRINTED, 0));
    EXPECT(is_printed(kernel_print_size(zeros, COUNT(zeros)), 0, 16));
    EXPECT(is_printed(kernel_print(words, COUNT(words), text, PRINTED - 1), 0, 16));
    EXPECT(is_printed(kernel_print(zeros, COUNT(zeros), text, 2 * CROWD_WORDS), 0, 16));
    EXPECT(guarded(0));
    EXPECT(is_printed(kernel_print(words, COUNT(words), text, PRINTED), PRINTED, 0));
    EXPECT(memcmp(text, printed, PRINTED) == 0 && guarded(PRINTED / 2));
    clear();
    EXPECT(is_printed(kernel_print(words, COUNT(words), text, 2 * CROWD_WORDS), PRINTED, 0));
    EXPECT(memcmp(text, printed, PRINTED) == 0 && guarded(PRINTED / 2));
}

/* No image, at NULL. */
static void try_no_image(void)
{
    EXPECT(no_task(kernel_task(NULL, 0, 0), 1));
    EXPECT(is_port(kernel_port(NULL, 0, 0), 1, NONE, NONE));
    EXPECT(is_word(kernel_register(NULL, 0, 0, 0), 1, NONE));
    EXPECT(is_word(kernel_queue_length(NULL, 0, KERNEL_QUEUE_READY, 0, 0), 1, NONE));
    EXPECT(is_word(kernel_queue_word(NULL, 0, KERNEL_QUEUE_READY, 0, 0, 0), 1, NONE));
    EXPECT(no_rule(kernel_broken_rule(NULL, 0), 1));
}

/* Puts words into the image from a place on. */
static void put(size_t at, const uint16_t *words, size_t count)
{
    memcpy(image + at, words, count * sizeof *words);
}

#define PUT(at, ...) put(at, (const uint16_t[]){__VA_ARGS__}, COUNT(((const uint16_t[]){__VA_ARGS__})))

/* Makes the image of three tasks: task 0 is ready with an output pending, task 1 is stopped by its output, and task 2 waits
   to receive from task 1. Some queues go round their end. */
static void people(void)
{
    clear();
    EXPECT(kernel_build(crowd, COUNT(crowd), image, CROWD_WORDS) == KERNEL_NOT_REFUSED);
    PUT(TASK_TABLE, 100, 101, 102, 103, 104, 105, 106, 107, 2 + 32 * 4);
    PUT(TASK_TABLE + TASK_WORDS, 110, 111, 112, 113, 114, 115, 116, 117, 1 + 4 * 6);
    PUT(TASK_TABLE + 2 * TASK_WORDS, 120, 121, 1, 123, 124, 125, 126, 127, 32 * 2);
    PUT(READY_QUEUE, 2, 0, 1, 3, 0, 0, 0);
    PUT(STATUS_TABLE, 0, 0, 5, 0, 2, 1);
    PUT(INPUT_OF_1, 1, 1, 2, 2, 67, 66);
    PUT(OUTPUT_OF_1, 0, 0, 1, 1, 68);
    PUT(FROM_0_TO_1, 3, 1, 2, 4, 800, 0, 0, 700);
    PUT(FROM_1_TO_0, 0, 1, 1, 4, 65535, 0, 0, 0);
    PUT(PORTS, 0, 0, 1, 69);
    EXPECT(kernel_check(image, CROWD_WORDS) == KERNEL_NOT_REFUSED);
}

/* What is there. */
static void try_looking(void)
{
    people();
    EXPECT(is_task(kernel_task(image, CROWD_WORDS, 0), 0, 0, 2, 0, 4));
    EXPECT(is_task(kernel_task(image, CROWD_WORDS, 1), 5, 0, 1, 6, 0));
    EXPECT(is_task(kernel_task(image, CROWD_WORDS, 2), 2, 1, 0, 0, 2));
    EXPECT(is_port(kernel_port(image, CROWD_WORDS, 0), 0, 0, 0));
    EXPECT(is_port(kernel_port(image, CROWD_WORDS, 1), 0, 1, 69));
    EXPECT(is_word(kernel_register(image, CROWD_WORDS, 1, 0), 0, 110));
    EXPECT(is_word(kernel_register(image, CROWD_WORDS, 2, 7), 0, 127));
    EXPECT(is_word(kernel_queue_length(image, CROWD_WORDS, KERNEL_QUEUE_READY, 0, 0), 0, 1));
    EXPECT(is_word(kernel_queue_length(image, CROWD_WORDS, KERNEL_QUEUE_INPUT, 1, 0), 0, 2));
    EXPECT(is_word(kernel_queue_length(image, CROWD_WORDS, KERNEL_QUEUE_OUTPUT, 1, 0), 0, 1));
    EXPECT(is_word(kernel_queue_length(image, CROWD_WORDS, KERNEL_QUEUE_MESSAGES, 0, 1), 0, 2));
    EXPECT(is_word(kernel_queue_length(image, CROWD_WORDS, KERNEL_QUEUE_MESSAGES, 1, 2), 0, 0));
    EXPECT(is_word(kernel_queue_word(image, CROWD_WORDS, KERNEL_QUEUE_READY, 0, 0, 0), 0, 0));
    EXPECT(is_word(kernel_queue_word(image, CROWD_WORDS, KERNEL_QUEUE_INPUT, 1, 0, 0), 0, 66));
    EXPECT(is_word(kernel_queue_word(image, CROWD_WORDS, KERNEL_QUEUE_OUTPUT, 1, 0, 0), 0, 68));
    EXPECT(is_word(kernel_queue_word(image, CROWD_WORDS, KERNEL_QUEUE_MESSAGES, 0, 1, 0), 0, 700));
    EXPECT(is_word(kernel_queue_word(image, CROWD_WORDS, KERNEL_QUEUE_MESSAGES, 0, 1, 1), 0, 800));
    EXPECT(is_word(kernel_queue_word(image, CROWD_WORDS, KERNEL_QUEUE_MESSAGES, 1, 0, 0), 0, 65535));
    EXPECT(guarded(CROWD_WORDS));
}

/* What is not there, and an image without its last word. */
static void try_not_there(void)
{
    people();
    EXPECT(no_task(kernel_task(image, CROWD_WORDS, 3), KERNEL_NOT_THERE));
    EXPECT(is_port(kernel_port(image, CROWD_WORDS, 3), KERNEL_NOT_THERE, NONE, NONE));
    EXPECT(is_word(kernel_register(image, CROWD_WORDS, 3, 0), KERNEL_NOT_THERE, NONE));
    EXPECT(is_word(kernel_register(image, CROWD_WORDS, 0, KERNEL_REGISTERS), KERNEL_NOT_THERE, NONE));
    EXPECT(is_word(kernel_queue_length(image, CROWD_WORDS, 4, 0, 0), KERNEL_NOT_THERE, NONE));
    EXPECT(is_word(kernel_queue_length(image, CROWD_WORDS, KERNEL_QUEUE_READY, 1, 0), KERNEL_NOT_THERE, NONE));
    EXPECT(is_word(kernel_queue_length(image, CROWD_WORDS, KERNEL_QUEUE_INPUT, 3, 0), KERNEL_NOT_THERE, NONE));
    EXPECT(is_word(kernel_queue_length(image, CROWD_WORDS, KERNEL_QUEUE_OUTPUT, 0, 1), KERNEL_NOT_THERE, NONE));
    EXPECT(is_word(kernel_queue_length(image, CROWD_WORDS, KERNEL_QUEUE_MESSAGES, 0, 3), KERNEL_NOT_THERE, NONE));
    EXPECT(is_word(kernel_queue_word(image, CROWD_WORDS, KERNEL_QUEUE_INPUT, 1, 0, 2), KERNEL_NOT_THERE, NONE));
    EXPECT(no_task(kernel_task(image, CROWD_WORDS - 1, 3), 5));
    EXPECT(is_port(kernel_port(image, CROWD_WORDS - 1, 0), 5, NONE, NONE));
    EXPECT(is_word(kernel_register(image, CROWD_WORDS - 1, 2, 7), 5, NONE));
    EXPECT(is_word(kernel_queue_length(image, CROWD_WORDS - 1, KERNEL_QUEUE_READY, 0, 0), 5, NONE));
    EXPECT(is_word(kernel_queue_word(image, CROWD_WORDS - 1, KERNEL_QUEUE_READY, 0, 0, 0), 5, NONE));
    EXPECT(guarded(CROWD_WORDS));
}

/* A good image, a cut one, and a broken rule of a queue, of a queue before it, of a task, of the clock and of a queue again,
   each told before the last. */
static void try_broken_rules(void)
{
    people();
    EXPECT(no_rule(kernel_broken_rule(image, CROWD_WORDS), 0));
    EXPECT(no_rule(kernel_broken_rule(image, CROWD_WORDS - 1), 5));
    image[FROM_1_TO_2 + 7] = 9;
    EXPECT(is_broken(kernel_broken_rule(image, CROWD_WORDS), KERNEL_RULE_FREE_SLOTS, KERNEL_QUEUE_MESSAGES, 1, 2));
    image[READY_QUEUE + 4] = 2;
    EXPECT(is_broken(kernel_broken_rule(image, CROWD_WORDS), KERNEL_RULE_FREE_SLOTS, KERNEL_QUEUE_READY, 0, 0));
    image[STATUS_TABLE + 3] = 1;
    EXPECT(is_broken(kernel_broken_rule(image, CROWD_WORDS), KERNEL_RULE_PEERLESS, NONE, 1, NONE));
    image[KERNEL_AT_CLOCK] = 6;
    EXPECT(is_broken(kernel_broken_rule(image, CROWD_WORDS), KERNEL_RULE_CLOCK_RANGE, NONE, NONE, NONE));
    image[FROM_1_TO_2] = 4;
    EXPECT(is_broken(kernel_broken_rule(image, CROWD_WORDS), KERNEL_RULE_HEAD_TAIL, KERNEL_QUEUE_MESSAGES, 1, 2));
    EXPECT(no_task(kernel_task(image, CROWD_WORDS, 0), KERNEL_REFUSED_RULE_BROKEN));
    EXPECT(guarded(CROWD_WORDS));
}

static int same(const char *text, const char *other)
{
    return strcmp(text, other) == 0;
}

/* The first and the last text of each kind, and the values beside them. */
static void try_words(void)
{
    EXPECT(same(kernel_number_text(KERNEL_NOT_REFUSED), "nothing is refused"));
    EXPECT(same(kernel_number_text(1), "image under 18 words") && same(kernel_number_text(18), "unknown"));
    EXPECT(same(kernel_number_text(17), "a count of ticks is at its end") && same(kernel_number_text(10), "unknown"));
    EXPECT(same(kernel_number_text(KERNEL_NOT_THERE), "not there"));
    EXPECT(same(kernel_kind_text(0), "idle") && same(kernel_kind_text(9), "output done"));
    EXPECT(same(kernel_kind_text(10), "unknown") && same(kernel_kind_text(KERNEL_NO_ANSWER), "unknown"));
    EXPECT(same(kernel_status_text(0), "ready") && same(kernel_status_text(5), "stopped by error"));
    EXPECT(same(kernel_error_text(0), "no error") && same(kernel_error_text(6), "output of more than 255"));
    EXPECT(same(kernel_service_text(1), "send") && same(kernel_service_text(4), "output"));
    EXPECT(same(kernel_rule_text(1), "cc, error or pending out of range") && same(kernel_rule_text(0), "unknown"));
    EXPECT(same(kernel_rule_text(20), "a peer though it waits for no task"));
    EXPECT(same(kernel_rule_text(21), "old words in free slots") && same(kernel_rule_text(22), "unknown"));
    EXPECT(same(kernel_status_text(6), "unknown") && same(kernel_error_text(7), "unknown"));
    EXPECT(same(kernel_service_text(5), "unknown") && same(kernel_service_text(65535), "unknown"));
}

int main(void)
{
    try_no_words();
    try_the_example();
    try_a_taken_slot();
    try_a_crowd();
    try_counts();
    try_a_faulted_service();
    try_refused_counts();
    try_shares();
    try_no_texts();
    try_texts();
    try_no_prints();
    try_prints();
    try_no_image();
    try_looking();
    try_not_there();
    try_broken_rules();
    try_words();
    return EXIT_SUCCESS;
}
