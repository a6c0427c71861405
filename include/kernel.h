/*
 * The kernel, for programs in C and C++. Link with libkernel_c.a; docs/LIBRARY.md says how it is made. What images,
 * plans, events and orders are, docs/MACHINE.md says: "the paper" wherever a page of the repository names it.
 *
 * Nothing is required of the words and bytes: any of them, in any number, may be lent, and every call ends. A call
 * either does what it says, or it refuses, answers the number of the refusal and changes no word or byte.
 *
 * Lent means: the pointer leads to as many words, bytes or counts as the length beside it says, and nobody else writes
 * them during the call. A buffer that is lent for writing shares no byte with another that is lent to the same call.
 * With length 0 the pointer may be NULL. A call reads and writes nothing but what it is lent. No call allocates, keeps
 * a pointer, or has a memory of earlier calls; calls on different buffers may be made at the same time.
 *
 * Files. An image in memory is an array of the machine's own uint16_t. A saved image, plan or list of events is two
 * bytes a word, the low one first, on every machine. No call reads or writes a file.
 *
 * Stack. The most that a call takes of it, with what it calls:
 *    kernel_translate, kernel_refused_line   256 KiB
 *    kernel_report                            80 KiB
 *    every other call                          4 KiB
 *
 * A kill in the middle of a call. The calls that are lent a buffer for writing (build, event, run, report, share,
 * translate, print) write it word by word, or byte by byte. Where one is cut short, by a signal that ends the program,
 * by longjmp or by the power, the buffer may hold a part of the change, and a part of a change may even pass the check.
 * So never go on with such an image, nor with the counts lent beside it: keep the last image that was saved whole, the
 * counts of that time and the events since, and run them again, which gives the same image and counts. Save beside the
 * old file and rename. The other calls write nothing, and leave nothing.
 *
 * Versions. KERNEL_VERSION_MAJOR and KERNEL_VERSION_MINOR are those of this header and the archive made with it: use
 * the two of one clone together. Within one version only what this header is silent on may change, and the words of
 * the texts that the last functions give. A step of MINOR may add calls, names and numbers, so let a switch have a
 * default; while MAJOR is 0 it may also change or take away what is declared, or what a call does, and CHANGELOG.md
 * says so each time. An image has an edition in its second word, KERNEL_EDITION today. No word of an edition ever gets
 * another place: what needs that is a new edition. An edition that the library does not know is refused with
 * KERNEL_REFUSED_NOT_MARKED.
 *
 * Images saved before 0.5. Once it had run, nearly every one is refused with KERNEL_REFUSED_RULE_BROKEN, though its
 * edition is the same: words that were taken from its queues are in their slots still, where there must be 0 now. It
 * is not converted: build the image anew from its plan, and run its events again.
 */
#ifndef KERNEL_H
#define KERNEL_H

#include <stddef.h>
#include <stdint.h>

#ifdef __cplusplus
extern "C" {
#endif

/* The version of this header and of the archive, and the edition of the images that are built. */
#define KERNEL_VERSION_MAJOR 0
#define KERNEL_VERSION_MINOR 5
#define KERNEL_EDITION 1

/* The numbers that come back. kernel_number_text says each in words. */
#define KERNEL_NOT_REFUSED 0                 /* nothing is refused */
#define KERNEL_REFUSED_TOO_SHORT 1           /* an image of under 18 words */
#define KERNEL_REFUSED_NOT_MARKED 2          /* its mark or edition is wrong */
#define KERNEL_REFUSED_OUT_OF_RANGE 3        /* the number of tasks, the slice or a capacity, of an image or a plan */
#define KERNEL_REFUSED_NOT_PACKED 4          /* an offset is not the packed one */
#define KERNEL_REFUSED_WRONG_SEGMENTS 5      /* a segment or the total is wrong, or the image has another length */
#define KERNEL_REFUSED_RULE_BROKEN 6         /* another rule of the image is broken: kernel_broken_rule says which */
#define KERNEL_REFUSED_MALFORMED_EVENT 7     /* also a list of events that is not a multiple of three words */
#define KERNEL_REFUSED_INPUT_FULL 8          /* input for a full input buffer */
#define KERNEL_REFUSED_PORT_IDLE 9           /* output done on an idle port */
#define KERNEL_REFUSED_BAD_PLAN 11           /* the plan is malformed, or its image would have over 32768 words */
#define KERNEL_REFUSED_WRONG_TARGET 12       /* a target of another length than the plan's image; not 97 counts */
#define KERNEL_REFUSED_OUTSIDE_GRAMMAR 13    /* a line is, or gives one name or label over KERNEL_MOST_NAMES */
#define KERNEL_REFUSED_NAME_FAULT 14         /* a name or label is given twice, or one that is used is not given */
#define KERNEL_REFUSED_VALUE_OUT_OF_RANGE 15 /* a value in a text */
#define KERNEL_REFUSED_NO_ROOM 16            /* a script of more words than the target; a list or its text too long */
#define KERNEL_REFUSED_COUNT_FULL 17         /* a tick whose count is KERNEL_MOST_COUNT already */

/* The number where the task, device, register, queue or place asked for is not there; and what the other fields of
   a look into an image hold where its number is not 0. 0 is a good value of each of them and never means none. */
#define KERNEL_NOT_THERE 65535

/* The kinds of events. */
#define KERNEL_TICK 0        /* device 0, character 0 */
#define KERNEL_INPUT 1       /* a device and its character, at most 255 */
#define KERNEL_OUTPUT_DONE 2 /* a device, character 0 */

/* The words of an event in a list: kind, device, character. */
#define KERNEL_EVENT_WORDS 3

/* The kinds of answers. */
#define KERNEL_KIND_IDLE 0
#define KERNEL_KIND_ERROR_STOP 1
#define KERNEL_KIND_TURN_PASSED 2
#define KERNEL_KIND_SERVICE_DONE 3
#define KERNEL_KIND_SERVICE_WAITS 4
#define KERNEL_KIND_SERVICE_FAULTED 5
#define KERNEL_KIND_ORDER_DONE 6
#define KERNEL_KIND_ORDER_FAULTED 7
#define KERNEL_KIND_INPUT 8
#define KERNEL_KIND_OUTPUT_DONE 9

/* The kind and the task of a refused event: no answer has them, while 0 is a good kind and a good task. */
#define KERNEL_NO_ANSWER 65535

/* The statuses of a task. */
#define KERNEL_STATUS_READY 0
#define KERNEL_STATUS_WAITS_TO_SEND 1
#define KERNEL_STATUS_WAITS_TO_RECEIVE 2
#define KERNEL_STATUS_WAITS_FOR_INPUT 3
#define KERNEL_STATUS_WAITS_FOR_OUTPUT 4
#define KERNEL_STATUS_STOPPED 5

/* The errors of a task: what its last order, or the service that it asked for, was at fault for. */
#define KERNEL_ERROR_NONE 0
#define KERNEL_ERROR_OUTSIDE 1
#define KERNEL_ERROR_BAD_ORDER 2
#define KERNEL_ERROR_BAD_SERVICE 3
#define KERNEL_ERROR_ZERO_DIVISOR 4
#define KERNEL_ERROR_NO_SUCH_TASK 5
#define KERNEL_ERROR_NO_CHARACTER 6

/* The services, as they are pending. */
#define KERNEL_SERVICE_NONE 0
#define KERNEL_SERVICE_SEND 1
#define KERNEL_SERVICE_RECEIVE 2
#define KERNEL_SERVICE_INPUT 3
#define KERNEL_SERVICE_OUTPUT 4

/* What a task's last compare found (cc). */
#define KERNEL_CC_EQUAL 0
#define KERNEL_CC_LESS 1
#define KERNEL_CC_GREATER 2

/* The queues of an image, each with its i and j. */
#define KERNEL_QUEUE_READY 0    /* i and j are 0 */
#define KERNEL_QUEUE_INPUT 1    /* of task i; j is 0 */
#define KERNEL_QUEUE_OUTPUT 2   /* of task i; j is 0 */
#define KERNEL_QUEUE_MESSAGES 3 /* from task i to task j */

/* The rules of number 6, in the order in which they are tested. kernel_rule_text says how each is broken. */
#define KERNEL_RULE_FLAGS 1
#define KERNEL_RULE_BOTH 2
#define KERNEL_RULE_STATUS 3
#define KERNEL_RULE_CAPACITY 4
#define KERNEL_RULE_HEAD_TAIL 5
#define KERNEL_RULE_LENGTH 6
#define KERNEL_RULE_ROUND 7
#define KERNEL_RULE_CHARACTERS 8
#define KERNEL_RULE_TASKS 9
#define KERNEL_RULE_READIED 10
#define KERNEL_RULE_CLOCK_RANGE 11
#define KERNEL_RULE_CLOCK_IDLE 12
#define KERNEL_RULE_PORT 13
#define KERNEL_RULE_IDLE_PORT 14
#define KERNEL_RULE_SENDS 15
#define KERNEL_RULE_RECEIVES 16
#define KERNEL_RULE_INPUTS 17
#define KERNEL_RULE_OUTPUTS 18
#define KERNEL_RULE_STOPPED 19
#define KERNEL_RULE_PEERLESS 20
#define KERNEL_RULE_FREE_SLOTS 21

/* Words of an image that passes the check, which a program may read itself. The segment table begins at the place that
   stands at KERNEL_AT_SEGMENTS: for each task in turn the place of its segment's first word, and its count of words. */
#define KERNEL_AT_EDITION 1
#define KERNEL_AT_TASKS 2
#define KERNEL_AT_SLICE 3
#define KERNEL_AT_INPUT_CAPACITY 4
#define KERNEL_AT_OUTPUT_CAPACITY 5
#define KERNEL_AT_MESSAGE_CAPACITY 6
#define KERNEL_AT_SEGMENTS 14
#define KERNEL_AT_CLOCK 17

/* The most tasks and words of an image, and the registers of a task. */
#define KERNEL_MOST_TASKS 16
#define KERNEL_MOST_WORDS 32768
#define KERNEL_REGISTERS 8

/* The counts of who used the machine: for each of sixteen tasks, however many the image has, a row of six headings;
   then the idle ticks of the whole. The count of a task's heading stands at KERNEL_HEADINGS * task + the heading. A
   tick is counted once: kind 6 under orders, 3 under services, 4 under waits, 5 and 7 under faults, 1 under error
   stops, 2 under passed turns, 0 as idle. An event of a device is not counted. */
#define KERNEL_COUNTS 97
#define KERNEL_HEADINGS 6
#define KERNEL_COUNT_ORDERS 0
#define KERNEL_COUNT_SERVICES 1 /* finished ones */
#define KERNEL_COUNT_WAITS 2
#define KERNEL_COUNT_FAULTS 3 /* of orders and of services */
#define KERNEL_COUNT_ERROR_STOPS 4
#define KERNEL_COUNT_PASSED_TURNS 5
#define KERNEL_AT_IDLE_COUNT 96

/* What a count ends at. */
#define KERNEL_MOST_COUNT 4294967295

/* The text of a refused line: the list of names, or the script; the last where no line is refused. */
#define KERNEL_NAMES 0
#define KERNEL_SCRIPT 1
#define KERNEL_NO_TEXT 65535

/* The most names and labels that two texts may give together. */
#define KERNEL_MOST_NAMES 8192

/* The most words of a list that is printed: those of the longest segment. */
#define KERNEL_MOST_PRINTED 32715

/* How many words a plan's image has. */
struct kernel_size {
    uint64_t words;  /* 0 where the plan is refused */
    uint16_t number; /* 0, 3 or 11 */
};

/* What an event comes to. */
struct kernel_told {
    uint16_t number; /* 0 where the event is accepted, else 1 to 9 */
    uint16_t kind;   /* one of KERNEL_KIND_..; refused: KERNEL_NO_ANSWER */
    uint16_t task;   /* the task that the answer is about, 0 where it is idle; refused: KERNEL_NO_ANSWER */
};

/* How a run ended, or one that counts. */
struct kernel_ran {
    uint64_t taken;  /* how many events were taken; the image holds exactly these, and so do the counts */
    uint16_t number; /* 0 where all were, else the number of the refusal that stopped it */
};

/* What a script with its list of names is translated to. */
struct kernel_translated {
    uint64_t words;  /* how many words the script has, from the target's first on; 0 where a line is refused */
    uint16_t number; /* 0 where no line is refused, else 13 to 16 */
    uint16_t text;   /* the text of the refused line: KERNEL_NAMES or KERNEL_SCRIPT; else KERNEL_NO_TEXT */
};

/* A refused line, as a part of its text. */
struct kernel_line {
    uint64_t start; /* how many bytes of the text stand before it */
    uint64_t bytes; /* how many bytes it has, without the byte 10 that ends it; both are 0 where no line is refused */
};

/* What a list of words is printed to. */
struct kernel_printed {
    uint64_t bytes;  /* how many bytes the text has, from the buffer's first on; 0 where the list is refused */
    uint16_t number; /* 0 or 16 */
};

/* What stands in an image of a task. */
struct kernel_task {
    uint16_t number;  /* 0; or 1 to 6, as the image is refused, or KERNEL_NOT_THERE: then all below are 65535 */
    uint16_t status;  /* one of KERNEL_STATUS_.. */
    uint16_t peer;    /* the task that it waits for where it waits to send or to receive; else 0, which says nothing */
    uint16_t cc;      /* one of KERNEL_CC_.. */
    uint16_t error;   /* one of KERNEL_ERROR_.. */
    uint16_t pending; /* one of KERNEL_SERVICE_.. */
};

/* What stands in an image of a device's port. */
struct kernel_port {
    uint16_t number;    /* 0; or 1 to 6, as the image is refused, or KERNEL_NOT_THERE: then all below are 65535 */
    uint16_t busy;      /* 0 or 1 */
    uint16_t character; /* the character that it puts out, at most 255; 0 where it is idle */
};

/* A word of an image, or how many a queue holds. */
struct kernel_word {
    uint16_t number; /* 0; or 1 to 6, as the image is refused, or KERNEL_NOT_THERE: then the word is 65535 */
    uint16_t word;   /* 65535 may be a good one: the number tells */
};

/* The first broken rule of an image, and the first task or queue that breaks it. */
struct kernel_broken {
    uint16_t number; /* as kernel_check answers, 0 to 6; where it is not 6, all below are 65535 */
    uint16_t rule;   /* one of KERNEL_RULE_.. */
    uint16_t queue;  /* of a rule of queues, one of KERNEL_QUEUE_..; else 65535 */
    uint16_t i;      /* the task, or the queue's i; of a rule of the clock 65535 */
    uint16_t j;      /* the queue's j; else 65535 */
};

/* Checks an image, which is lent for reading. Answers 0, or 1 to 6. */
uint16_t kernel_check(const uint16_t *image, size_t words);

/* The size of the image that a plan describes. The plan is lent for reading. */
struct kernel_size kernel_size(const uint16_t *plan, size_t plan_words);

/* Builds the image of a plan in the target, whose length must be the plan's size; whatever the target held is written
   over. The plan is lent for reading, the target for writing. Answers 0, or 3, 11 or 12. */
uint16_t kernel_build(const uint16_t *plan, size_t plan_words, uint16_t *target, size_t target_words);

/* One event on an image, which is lent for writing. */
struct kernel_told kernel_event(uint16_t *image, size_t words, uint16_t kind, uint16_t device, uint16_t character);

/* A list of events, one after another, up to the first that is refused. The image is lent for writing, the list for
   reading. A bad image, or a list that is not a multiple of three words, is refused before any event is taken. */
struct kernel_ran kernel_run(uint16_t *image, size_t words, const uint16_t *events, size_t event_words);

/* A run that counts: does to the image what kernel_run does, and adds each tick that is taken to its count. Of 97 zeros
   it makes the counts of one run; those that a run left go on with the next, of the same image or of another. A tick
   whose count is at its end is refused with 17, after the tests for 7 to 9, and stops the run: what was taken and
   counted before it stays. The image and the counts are lent for writing, the list for reading. Another number of
   entries than KERNEL_COUNTS is refused with 12 before all else. */
struct kernel_ran kernel_report(uint16_t *image, size_t words, const uint16_t *events, size_t event_words,
                                uint32_t *counts, size_t entries);

/* A task's share of all ticks that were counted, the idle ones among them: its six headings together, divided by the
   sum of all counts, and rounded once. Answers 1 and writes the share, 0 to 1; a task without ticks, and one of 16 or
   more, has share 0. Answers 0 and writes nothing where no ticks were counted, and where the number of entries is not
   KERNEL_COUNTS. The counts are lent for reading; share leads to one double, which is lent for writing. */
uint16_t kernel_share(const uint32_t *counts, size_t entries, uint16_t task, double *share);

/* Translates a script with its list of names to words in the target, from its first on; the words past them stay as
   they are. The names and the script are lent for reading, the target for writing. Of all refused lines the one with
   the lowest number is told, and of those with that number the first, the names before the script; with number 16 it
   is the script's last line. */
struct kernel_translated kernel_translate(const uint8_t *names, size_t names_bytes, const uint8_t *script,
                                          size_t script_bytes, uint16_t *target, size_t target_words);

/* The line that kernel_translate refuses with a target of so many words. The names and the script are lent for
   reading. Which of the two texts it stands in, kernel_translate answers. */
struct kernel_line kernel_refused_line(const uint8_t *names, size_t names_bytes, const uint8_t *script,
                                       size_t script_bytes, uint64_t room);

/* Prints a list of words in the buffer, from its first byte on, as the script that kernel_translate gives these words
   for, without names; the bytes past it stay as they are. The words are lent for reading, the buffer for writing.
   Refused with 16: a list of over KERNEL_MOST_PRINTED words, and a text that is longer than the buffer. 16 bytes for
   each word always suffice. */
struct kernel_printed kernel_print(const uint16_t *words, size_t count, uint8_t *text, size_t text_bytes);

/* How many bytes kernel_print needs for a list of words, exactly; 0 and 16 for a list of over KERNEL_MOST_PRINTED
   words. The words are lent for reading. */
struct kernel_printed kernel_print_size(const uint16_t *words, size_t count);

/* A task of an image: it is there where it is below the image's number of tasks. The image is lent for reading. */
struct kernel_task kernel_task(const uint16_t *image, size_t words, uint16_t task);

/* The port of a device: it is there where the device, which has its task's number, is below the number of tasks.
   The image is lent for reading. */
struct kernel_port kernel_port(const uint16_t *image, size_t words, uint16_t device);

/* A register of a task, as it stands in an image: there are R0 to R7, of which R0 is the next order's address. The
   image is lent for reading. */
struct kernel_word kernel_register(const uint16_t *image, size_t words, uint16_t task, uint16_t r);

/* How many words a queue holds. Not there: another queue than the four, a task i or j that is not there, and
   another i or j than 0 where the queue has none. The image is lent for reading. */
struct kernel_word kernel_queue_length(const uint16_t *image, size_t words, uint16_t queue, uint16_t i, uint16_t j);

/* A word that a queue holds, counted from its head: 0 is the one that is taken next. Not there: what
   kernel_queue_length says, and a place past the last word held. The image is lent for reading. */
struct kernel_word kernel_queue_word(const uint16_t *image, size_t words, uint16_t queue, uint16_t i, uint16_t j,
                                     uint16_t at);

/* Why an image is refused with 6: of the rules that it breaks the first, and of the tasks or queues that break that
   rule the first; tasks from 0 on, queues as they are numbered, each by i and then by j. The image is lent for
   reading. */
struct kernel_broken kernel_broken_rule(const uint16_t *image, size_t words);

/* What the numbers mean, in words; "unknown" for a value that none has. */

/* The text of a number that comes back. */
static inline const char *kernel_number_text(uint16_t number)
{
    switch (number) {
    case KERNEL_NOT_REFUSED: return "nothing is refused";
    case KERNEL_REFUSED_TOO_SHORT: return "image under 18 words";
    case KERNEL_REFUSED_NOT_MARKED: return "mark or edition wrong";
    case KERNEL_REFUSED_OUT_OF_RANGE: return "the number of tasks, the slice or a capacity out of range";
    case KERNEL_REFUSED_NOT_PACKED: return "an offset is not the packed one";
    case KERNEL_REFUSED_WRONG_SEGMENTS: return "a segment or the total is wrong, or the image has another length";
    case KERNEL_REFUSED_RULE_BROKEN: return "another rule of the image is broken";
    case KERNEL_REFUSED_MALFORMED_EVENT: return "event malformed, or a list not a multiple of three words";
    case KERNEL_REFUSED_INPUT_FULL: return "input for a full input buffer";
    case KERNEL_REFUSED_PORT_IDLE: return "output done on an idle port";
    case KERNEL_REFUSED_BAD_PLAN: return "the plan is malformed, or its image has more than 32768 words";
    case KERNEL_REFUSED_WRONG_TARGET: return "the target has another length than the plan's image, or not 97 counts";
    case KERNEL_REFUSED_OUTSIDE_GRAMMAR: return "a line outside the grammar, or a name too many";
    case KERNEL_REFUSED_NAME_FAULT: return "a name given twice or not at all";
    case KERNEL_REFUSED_VALUE_OUT_OF_RANGE: return "a value out of range";
    case KERNEL_REFUSED_NO_ROOM: return "more words or bytes than there is room for";
    case KERNEL_REFUSED_COUNT_FULL: return "a count of ticks is at its end";
    case KERNEL_NOT_THERE: return "not there";
    default: return "unknown";
    }
}

/* The text of an answer's kind. */
static inline const char *kernel_kind_text(uint16_t kind)
{
    switch (kind) {
    case KERNEL_KIND_IDLE: return "idle";
    case KERNEL_KIND_ERROR_STOP: return "error stop";
    case KERNEL_KIND_TURN_PASSED: return "turn passed";
    case KERNEL_KIND_SERVICE_DONE: return "service done";
    case KERNEL_KIND_SERVICE_WAITS: return "service waits";
    case KERNEL_KIND_SERVICE_FAULTED: return "service faulted";
    case KERNEL_KIND_ORDER_DONE: return "order done";
    case KERNEL_KIND_ORDER_FAULTED: return "order faulted";
    case KERNEL_KIND_INPUT: return "input";
    case KERNEL_KIND_OUTPUT_DONE: return "output done";
    default: return "unknown";
    }
}

/* The text of a task's status. */
static inline const char *kernel_status_text(uint16_t status)
{
    switch (status) {
    case KERNEL_STATUS_READY: return "ready";
    case KERNEL_STATUS_WAITS_TO_SEND: return "waits to send";
    case KERNEL_STATUS_WAITS_TO_RECEIVE: return "waits to receive";
    case KERNEL_STATUS_WAITS_FOR_INPUT: return "waits for input";
    case KERNEL_STATUS_WAITS_FOR_OUTPUT: return "waits for output";
    case KERNEL_STATUS_STOPPED: return "stopped by error";
    default: return "unknown";
    }
}

/* The text of a task's error. */
static inline const char *kernel_error_text(uint16_t error)
{
    switch (error) {
    case KERNEL_ERROR_NONE: return "no error";
    case KERNEL_ERROR_OUTSIDE: return "address outside the segment";
    case KERNEL_ERROR_BAD_ORDER: return "unknown op or bad field";
    case KERNEL_ERROR_BAD_SERVICE: return "unknown service";
    case KERNEL_ERROR_ZERO_DIVISOR: return "zero divisor";
    case KERNEL_ERROR_NO_SUCH_TASK: return "no such task";
    case KERNEL_ERROR_NO_CHARACTER: return "output of more than 255";
    default: return "unknown";
    }
}

/* The text of a service. */
static inline const char *kernel_service_text(uint16_t service)
{
    switch (service) {
    case KERNEL_SERVICE_NONE: return "nothing";
    case KERNEL_SERVICE_SEND: return "send";
    case KERNEL_SERVICE_RECEIVE: return "receive";
    case KERNEL_SERVICE_INPUT: return "input";
    case KERNEL_SERVICE_OUTPUT: return "output";
    default: return "unknown";
    }
}

/* The text of a broken rule, as it is said of the task, the queue or the clock that breaks it. */
static inline const char *kernel_rule_text(uint16_t rule)
{
    switch (rule) {
    case KERNEL_RULE_FLAGS: return "cc, error or pending out of range";
    case KERNEL_RULE_BOTH: return "error and pending both set";
    case KERNEL_RULE_STATUS: return "status over 5";
    case KERNEL_RULE_CAPACITY: return "capacity is not the header's";
    case KERNEL_RULE_HEAD_TAIL: return "head or tail not below the capacity";
    case KERNEL_RULE_LENGTH: return "length over the capacity";
    case KERNEL_RULE_ROUND: return "tail is not where head and length lead";
    case KERNEL_RULE_CHARACTERS: return "holds a word over 255";
    case KERNEL_RULE_TASKS: return "holds a word that is no task";
    case KERNEL_RULE_READIED: return "not in the ready queue as its status asks";
    case KERNEL_RULE_CLOCK_RANGE: return "clock over the slice";
    case KERNEL_RULE_CLOCK_IDLE: return "clock not 0 though no task is ready";
    case KERNEL_RULE_PORT: return "busy over 1 or character over 255";
    case KERNEL_RULE_IDLE_PORT: return "idle port with a character or output waiting";
    case KERNEL_RULE_SENDS: return "does not stand as one that waits to send";
    case KERNEL_RULE_RECEIVES: return "does not stand as one that waits to receive";
    case KERNEL_RULE_INPUTS: return "does not stand as one that waits for input";
    case KERNEL_RULE_OUTPUTS: return "does not stand as one that waits for output";
    case KERNEL_RULE_STOPPED: return "stopped without an error";
    case KERNEL_RULE_PEERLESS: return "a peer though it waits for no task";
    case KERNEL_RULE_FREE_SLOTS: return "old words in free slots";
    default: return "unknown";
    }
}

#ifdef __cplusplus
}
#endif

#endif
