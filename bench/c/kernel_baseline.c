/* The baseline in C. The image is the only state, and is as the paper says whenever a call returns. */
#include "kernel_baseline.h"

#include <stdbool.h>
#include <string.h>

#define unlikely(x) __builtin_expect(!!(x), 0)
#define always_inline inline __attribute__((always_inline))

typedef uint16_t word;

/* Words of the header. */
enum { MARK, EDITION, TASKS, SLICE, OFFSETS = 7, TOTAL = 16, CLOCK, HEADER_WORDS };

/* Words of a queue. */
enum { HEAD, TAIL, LENGTH, CAPACITY, SLOTS };

/* Words of a task's row. */
enum { NEXT, STACK, PEER, WORD, FLAGS = 8, ROW_WORDS };

enum { READY, WAITS_TO_SEND, WAITS_TO_RECEIVE, WAITS_FOR_INPUT, WAITS_FOR_OUTPUT, STOPPED };

enum { SEND = 1, RECEIVE, INPUT, OUTPUT };

enum { INPUT_EVENT = 1, OUTPUT_DONE_EVENT };

enum {
    UNDER_HEADER = 1,
    MARK_OR_EDITION,
    OUT_OF_RANGE,
    OFFSET,
    SEGMENT_OR_TOTAL,
    OTHER_RULE,
    MALFORMED_EVENT,
    INPUT_FULL,
    PORT_IDLE,
    PLAN = 11,
    TARGET
};

enum {
    IDLE,
    ERROR_STOP,
    TURN_PASSED,
    SERVICE_DONE,
    SERVICE_WAITS,
    SERVICE_FAULTED,
    ORDER_DONE,
    ORDER_FAULTED,
    INPUT_TAKEN,
    OUTPUT_DONE
};

enum { ADDRESS_ERROR = 1, ORDER_ERROR, SERVICE_ERROR, DIVISOR_ERROR, TASK_ERROR, CHARACTER_ERROR };

enum { GOOD_MARK = 19284, GOOD_EDITION = 1, MOST_TASKS = 16, MOST_CAPACITY = 32 };
enum { LARGEST_TOTAL = 32768, LARGEST_CHARACTER = 255, ERROR_UNIT = 4, PENDING_UNIT = 32 };
enum { EVENT_WORDS = 3, PLAN_WORDS = 5, NO_ANSWER = 65535 };

/* Counts, capacities and the places of the parts. */
struct layout {
    uint32_t tasks, slice, input_capacity, output_capacity, message_capacity;
    uint32_t rows, ready, status, inputs, outputs, messages, ports, segments, first_segment;
};

/* Where the parts stand for the five words N, S, CI, CO, CM, if each is in its range. */
static inline bool lay_out(const word *frame, struct layout *l) {
    uint32_t n = frame[0], s = frame[1], ci = frame[2], co = frame[3], cm = frame[4];
    if (n - 1 >= MOST_TASKS || s == 0 || ci - 1 >= MOST_CAPACITY || co - 1 >= MOST_CAPACITY || cm - 1 >= MOST_CAPACITY)
        return false;
    l->tasks = n;
    l->slice = s;
    l->input_capacity = ci;
    l->output_capacity = co;
    l->message_capacity = cm;
    l->rows = HEADER_WORDS;
    l->ready = l->rows + ROW_WORDS * n;
    l->status = l->ready + SLOTS + n;
    l->inputs = l->status + 2 * n;
    l->outputs = l->inputs + n * (SLOTS + ci);
    l->messages = l->outputs + n * (SLOTS + co);
    l->ports = l->messages + n * n * (SLOTS + cm);
    l->segments = l->ports + 2 * n;
    l->first_segment = l->segments + 2 * n;
    return true;
}

static inline bool offsets_packed(const word *o, const struct layout *l) {
    return o[0] == l->rows && o[1] == l->ready && o[2] == l->status && o[3] == l->inputs && o[4] == l->outputs &&
           o[5] == l->messages && o[6] == l->ports && o[7] == l->segments && o[8] == l->first_segment;
}

/* Whether the segments follow one another to T, and the image ends there. */
static inline bool segments_packed(const word *im, size_t words, const struct layout *l) {
    uint32_t total = im[TOTAL], end = l->first_segment;
    if (total > LARGEST_TOTAL || words != total || total < end)
        return false;
    const word *pair = im + l->segments;
    for (uint32_t i = 0; i < l->tasks; i++, pair += 2) {
        if (pair[0] != end || pair[1] == 0)
            return false;
        end += pair[1];
    }
    return end == total;
}

/* The header's capacity, head and tail below it, length at most it, and head + length the tail, once round or not. */
static inline bool queue_stands(const word *q, uint32_t capacity) {
    uint32_t head = q[HEAD], tail = q[TAIL], length = q[LENGTH], distance = head + length - tail;
    return head < capacity && tail < capacity && length <= capacity && q[CAPACITY] == capacity &&
           (distance == 0 || distance == capacity);
}

/* The leading words of a queue as one number, the head lowest. */
_Static_assert(__BYTE_ORDER__ == __ORDER_LITTLE_ENDIAN__, "the low byte comes first");
static inline uint64_t leading(const word *q) {
    uint64_t words;
    memcpy(&words, q, sizeof words);
    return words;
}

/* Eight words, looked at together. */
typedef word lanes __attribute__((vector_size(16)));
typedef uint64_t halves __attribute__((vector_size(16)));
enum { LANES = 8 };

static inline lanes look(const word *w) {
    lanes words;
    memcpy(&words, w, sizeof words);
    return words;
}

/*
 * Whether queues of so many looks of slots stand, with 0 in free slots and no bits but these in words held.
 * The last look may overlap the one before. As many marks are 0 as there are slots: those from MOST_CAPACITY less the
 * head on, and those from there past the free slots on, differ where a slot is free.
 */
static always_inline bool looks_stand(const word *q, uint32_t count, uint32_t capacity, uint32_t looks, word bits) {
    word marks[3 * MOST_CAPACITY];
    memset(marks, 0xFF, MOST_CAPACITY * sizeof(word));
    memset(marks + MOST_CAPACITY, 0, MOST_CAPACITY * sizeof(word));
    memset(marks + MOST_CAPACITY + capacity, 0xFF, MOST_CAPACITY * sizeof(word));
    const uint64_t unused = (uint64_t)capacity << 48;
    size_t width = SLOTS + capacity;
    lanes faults = {0};
    for (const word *end = q + count * width; q < end; q += width) {
        const word *slots = q + SLOTS;
        if (leading(q) == unused) {
            for (uint32_t k = 0; k < looks; k++)
                faults |= look(slots + (k + 1 < looks ? LANES * k : capacity - LANES));
            continue;
        }
        if (!queue_stands(q, capacity))
            return false;
        const word *heads = marks + MOST_CAPACITY - q[HEAD], *tails = heads + capacity - q[LENGTH];
        for (uint32_t k = 0; k < looks; k++) {
            uint32_t at = k + 1 < looks ? LANES * k : capacity - LANES;
            faults |= look(slots + at) & ((look(heads + at) ^ look(tails + at)) | (word)~bits);
        }
    }
    halves found = (halves)faults;
    return (found[0] | found[1]) == 0;
}

/* The same for queues of fewer slots than a look has. */
static always_inline bool few_stand(const word *q, uint32_t count, uint32_t capacity, word bits) {
    const uint64_t unused = (uint64_t)capacity << 48;
    size_t width = SLOTS + capacity;
    uint32_t faults = 0;
    for (const word *end = q + count * width; q < end; q += width) {
        if (leading(q) == unused) {
            for (uint32_t k = 0; k < capacity; k++)
                faults |= q[SLOTS + k];
            continue;
        }
        if (!queue_stands(q, capacity))
            return false;
        for (uint32_t k = 0, at = q[HEAD]; k < capacity; k++) {
            faults |= q[SLOTS + at] & (k < q[LENGTH] ? (word)~bits : UINT16_MAX);
            at = at + 1 == capacity ? 0 : at + 1;
        }
    }
    return faults == 0;
}

static bool many_stand(const word *q, uint32_t count, uint32_t capacity, word bits) {
    switch ((capacity - 1) / LANES) {
    case 0:
        return looks_stand(q, count, capacity, 1, bits);
    case 1:
        return looks_stand(q, count, capacity, 2, bits);
    case 2:
        return looks_stand(q, count, capacity, 3, bits);
    default:
        return looks_stand(q, count, capacity, 4, bits);
    }
}

/* Whether the queues of a part stand, with 0 in free slots and no bits but these in words held. */
static inline bool queues_stand(const word *q, uint32_t count, uint32_t capacity, word bits) {
    return capacity < LANES ? few_stand(q, count, capacity, bits) : many_stand(q, count, capacity, bits);
}

/* The tasks that a sound ready queue holds, a bit for each; ~0 where one is no task. */
static inline uint64_t held_tasks(const word *q, uint32_t tasks) {
    uint32_t at = q[HEAD], numbers = 0;
    uint64_t held = 0;
    for (uint32_t k = q[LENGTH]; k > 0; k--) {
        uint32_t task = q[SLOTS + at];
        numbers |= task;
        held |= UINT64_C(1) << (task & 63);
        at = at + 1 == tasks ? 0 : at + 1;
    }
    return numbers < 64 ? held : ~UINT64_C(0);
}

/* Whether a sound ready queue has 0 in its free slots. */
static inline bool ready_clear(const word *q, uint32_t tasks) {
    uint32_t bits = 0;
    for (uint32_t k = q[LENGTH], at = q[TAIL]; k < tasks; k++) {
        bits |= q[SLOTS + at];
        at = at + 1 == tasks ? 0 : at + 1;
    }
    return bits == 0;
}

/* cc, error and pending in range, and not both of the last two. */
static inline bool flags_stand(uint32_t flags) {
    uint32_t cc = flags % 4, error = flags / ERROR_UNIT % 8, pending = flags / PENDING_UNIT;
    return (cc != 3) & (error != 7) & (pending <= OUTPUT) & ((error == 0) | (pending == 0));
}

/* Where the message buffer between two tasks stands. */
static inline uint32_t message_at(const struct layout *l, uint32_t from, uint32_t to) {
    return l->messages + (from * l->tasks + to) * (SLOTS + l->message_capacity);
}

static inline uint32_t input_at(const struct layout *l, uint32_t task) {
    return l->inputs + task * (SLOTS + l->input_capacity);
}

static inline uint32_t output_at(const struct layout *l, uint32_t task) {
    return l->outputs + task * (SLOTS + l->output_capacity);
}

/* The rule of a status that is not ready. */
static bool wait_stands(const struct layout *l, const word *im, uint32_t task) {
    const word *row = im + l->rows + ROW_WORDS * task;
    uint32_t status = im[l->status + 2 * task], peer = im[l->status + 2 * task + 1];
    uint32_t pending = row[FLAGS] / PENDING_UNIT;
    bool named = row[PEER] == peer && peer < l->tasks;
    switch (status) {
    case WAITS_TO_SEND:
        return pending == SEND && named && im[message_at(l, task, peer) + LENGTH] == l->message_capacity;
    case WAITS_TO_RECEIVE:
        return pending == RECEIVE && named && im[message_at(l, peer, task) + LENGTH] == 0;
    case WAITS_FOR_INPUT:
        return peer == 0 && pending == INPUT && im[input_at(l, task) + LENGTH] == 0;
    case WAITS_FOR_OUTPUT:
        return peer == 0 && pending == OUTPUT && row[WORD] <= LARGEST_CHARACTER &&
               im[output_at(l, task) + LENGTH] == l->output_capacity;
    case STOPPED:
        return peer == 0 && row[FLAGS] / ERROR_UNIT % 8 != 0;
    default:
        return false;
    }
}

/* A busy port has a character; an idle one has 0 and nothing left. */
static inline bool port_stands(const word *port, uint32_t left) {
    return (port[0] <= 1) & (port[1] <= LARGEST_CHARACTER) & ((port[0] == 1) | ((port[1] | left) == 0));
}

/* The rules of every task, and that the tasks of status 0 are those held, of which there are so many. */
static inline bool tasks_stand(const struct layout *l, const word *im, uint64_t held, uint32_t length) {
    uint64_t ready = 0;
    uint32_t count = 0;
    const word *entry = im + l->status;
    for (uint32_t task = 0; task < l->tasks; task++, entry += 2) {
        if (!flags_stand(im[l->rows + ROW_WORDS * task + FLAGS]) ||
            !port_stands(im + l->ports + 2 * task, im[output_at(l, task) + LENGTH]))
            return false;
        if (entry[0] != READY) {
            if (!wait_stands(l, im, task))
                return false;
        } else {
            if (entry[1] != 0)
                return false;
            ready |= UINT64_C(1) << task;
            count++;
        }
    }
    return ready == held && count == length;
}

/* The rules behind number 6. */
static inline bool rules_hold(const struct layout *l, const word *im) {
    const word *ready = im + l->ready;
    uint32_t n = l->tasks;
    return queue_stands(ready, n) && im[CLOCK] <= (ready[LENGTH] == 0 ? 0 : l->slice) &&
           queues_stand(im + l->inputs, n, l->input_capacity, LARGEST_CHARACTER) &&
           queues_stand(im + l->outputs, n, l->output_capacity, LARGEST_CHARACTER) &&
           queues_stand(im + l->messages, n * n, l->message_capacity, UINT16_MAX) && ready_clear(ready, n) &&
           tasks_stand(l, im, held_tasks(ready, n), ready[LENGTH]);
}

/* The number of any words, and the layout of a good image. */
static inline word inspect(const word *im, size_t words, struct layout *l) {
    if (words < HEADER_WORDS)
        return UNDER_HEADER;
    if (im[MARK] != GOOD_MARK || im[EDITION] != GOOD_EDITION)
        return MARK_OR_EDITION;
    if (!lay_out(im + TASKS, l))
        return OUT_OF_RANGE;
    if (!offsets_packed(im + OFFSETS, l))
        return OFFSET;
    if (!segments_packed(im, words, l))
        return SEGMENT_OR_TOTAL;
    return rules_hold(l, im) ? 0 : OTHER_RULE;
}

uint16_t c_check(const uint16_t *image, size_t words) {
    struct layout l;
    return inspect(image, words, &l);
}

/* The number of a plan, its layout and its T. */
static inline word accept_plan(const word *plan, size_t words, struct layout *l, uint32_t *total) {
    if (words < PLAN_WORDS)
        return PLAN;
    if (!lay_out(plan, l))
        return OUT_OF_RANGE;
    size_t used = PLAN_WORDS + 2 * l->tasks;
    if (words < used)
        return PLAN;
    uint32_t end = l->first_segment;
    for (const word *pair = plan + PLAN_WORDS; pair < plan + PLAN_WORDS + 2 * l->tasks; pair += 2) {
        if (pair[0] == 0 || pair[1] > pair[0])
            return PLAN;
        end += pair[0];
        used += pair[1];
    }
    *total = end;
    return words == used && end <= LARGEST_TOTAL ? 0 : PLAN;
}

struct measured c_size(const uint16_t *plan, size_t words) {
    struct layout l;
    uint32_t total;
    word number = accept_plan(plan, words, &l, &total);
    return (struct measured){number == 0 ? total : 0, number};
}

static inline void write_header(word *im, const word *plan, const struct layout *l, uint32_t total) {
    const uint32_t offsets[] = {l->rows,     l->ready, l->status,   l->inputs,       l->outputs,
                                l->messages, l->ports, l->segments, l->first_segment};
    im[MARK] = GOOD_MARK;
    im[EDITION] = GOOD_EDITION;
    memcpy(im + TASKS, plan, PLAN_WORDS * sizeof(word));
    for (uint32_t k = 0; k < 9; k++)
        im[OFFSETS + k] = (word)offsets[k];
    im[TOTAL] = (word)total;
    im[CLOCK] = plan[1];
}

static inline void write_capacities(word *q, uint32_t count, uint32_t capacity) {
    for (uint32_t k = 0; k < count; k++, q += SLOTS + capacity)
        q[CAPACITY] = (word)capacity;
}

/* All tasks ready in order. */
static inline void write_ready(word *q, uint32_t tasks) {
    q[LENGTH] = q[CAPACITY] = (word)tasks;
    for (uint32_t task = 0; task < tasks; task++)
        q[SLOTS + task] = (word)task;
}

/* Stack pointers, segment table and segments. */
static inline void write_tasks(word *im, const word *plan, const struct layout *l) {
    const word *pair = plan + PLAN_WORDS, *program = pair + 2 * l->tasks;
    uint32_t base = l->first_segment;
    for (uint32_t task = 0; task < l->tasks; task++, pair += 2) {
        uint32_t length = pair[0], words = pair[1];
        im[l->rows + ROW_WORDS * task + STACK] = (word)length;
        im[l->segments + 2 * task] = (word)base;
        im[l->segments + 2 * task + 1] = (word)length;
        memcpy(im + base, program, words * sizeof(word));
        memset(im + base + words, 0, (length - words) * sizeof(word));
        base += length;
        program += words;
    }
}

uint16_t c_build(const uint16_t *plan, size_t plan_words, uint16_t *target, size_t words) {
    struct layout l;
    uint32_t total;
    word number = accept_plan(plan, plan_words, &l, &total);
    if (number != 0)
        return number;
    if (words != total)
        return TARGET;
    memset(target + HEADER_WORDS, 0, (l.first_segment - HEADER_WORDS) * sizeof(word));
    write_header(target, plan, &l, total);
    write_ready(target + l.ready, l.tasks);
    write_capacities(target + l.inputs, l.tasks, l.input_capacity);
    write_capacities(target + l.outputs, l.tasks, l.output_capacity);
    write_capacities(target + l.messages, l.tasks * l.tasks, l.message_capacity);
    write_tasks(target, plan, &l);
    return 0;
}

static inline uint32_t step(uint32_t at, uint32_t capacity) {
    return at + 1 == capacity ? 0 : at + 1;
}

static inline void append(word *q, uint32_t capacity, word w) {
    uint32_t tail = q[TAIL];
    q[SLOTS + tail] = w;
    q[TAIL] = (word)step(tail, capacity);
    q[LENGTH]++;
}

/* The slot of a taken word becomes 0. */
static inline word take(word *q, uint32_t capacity) {
    uint32_t head = q[HEAD];
    word taken = q[SLOTS + head];
    q[SLOTS + head] = 0;
    q[HEAD] = (word)step(head, capacity);
    q[LENGTH]--;
    return taken;
}

static inline struct told refused(word number) {
    return (struct told){number, NO_ANSWER, NO_ANSWER};
}

static inline struct told answered(word kind, uint32_t task) {
    return (struct told){0, kind, (word)task};
}

static inline void wake(const struct layout *l, word *im, uint32_t task) {
    word *status = im + l->status + 2 * task, *ready = im + l->ready;
    status[0] = READY;
    status[1] = 0;
    if (ready[LENGTH] == 0)
        im[CLOCK] = (word)l->slice;
    append(ready, l->tasks, (word)task);
}

/* The first task leaves the ready queue with a status and a peer; dispatch. */
static inline void leave(const struct layout *l, word *im, uint32_t first, word status, word peer) {
    word *entry = im + l->status + 2 * first, *ready = im + l->ready;
    entry[0] = status;
    entry[1] = peer;
    take(ready, l->tasks);
    im[CLOCK] = (word)(ready[LENGTH] == 0 ? 0 : l->slice);
}

/* The first task is taken and appended, so that the length stays. In a full queue both slots are one. */
static inline void pass_turn(const struct layout *l, word *im, uint32_t first) {
    word *ready = im + l->ready;
    uint32_t head = ready[HEAD], tail = ready[TAIL];
    ready[SLOTS + head] = 0;
    ready[HEAD] = (word)step(head, l->tasks);
    ready[SLOTS + tail] = (word)first;
    ready[TAIL] = (word)step(tail, l->tasks);
    im[CLOCK] = (word)l->slice;
}

/* A service that is done or faults leaves cc and an error, 0 where it is done, and uses the clock. */
static inline struct told finished(word *im, word *row, uint32_t task, uint32_t error) {
    im[CLOCK]--;
    row[FLAGS] = (word)(row[FLAGS] % ERROR_UNIT + ERROR_UNIT * error);
    return answered(error == 0 ? SERVICE_DONE : SERVICE_FAULTED, task);
}

static inline struct told waits(const struct layout *l, word *im, uint32_t task, word status, word peer) {
    leave(l, im, task, status, peer);
    return answered(SERVICE_WAITS, task);
}

/* Whether a task has this status for this peer. */
static inline bool waits_for(const struct layout *l, const word *im, uint32_t task, word status, uint32_t peer) {
    const word *entry = im + l->status + 2 * task;
    return entry[0] == status && entry[1] == peer;
}

static inline struct told do_send(const struct layout *l, word *im, word *row, uint32_t me) {
    uint32_t peer = row[PEER];
    if (unlikely(peer >= l->tasks))
        return finished(im, row, me, TASK_ERROR);
    word *q = im + message_at(l, me, peer);
    if (q[LENGTH] == l->message_capacity)
        return waits(l, im, me, WAITS_TO_SEND, (word)peer);
    append(q, l->message_capacity, row[WORD]);
    if (waits_for(l, im, peer, WAITS_TO_RECEIVE, me))
        wake(l, im, peer);
    return finished(im, row, me, 0);
}

static inline struct told do_receive(const struct layout *l, word *im, word *row, uint32_t me) {
    uint32_t source = row[PEER];
    if (unlikely(source >= l->tasks))
        return finished(im, row, me, TASK_ERROR);
    word *q = im + message_at(l, source, me);
    if (q[LENGTH] == 0)
        return waits(l, im, me, WAITS_TO_RECEIVE, (word)source);
    row[WORD] = take(q, l->message_capacity);
    if (waits_for(l, im, source, WAITS_TO_SEND, me))
        wake(l, im, source);
    return finished(im, row, me, 0);
}

static inline struct told do_input(const struct layout *l, word *im, word *row, uint32_t me) {
    word *q = im + input_at(l, me);
    if (q[LENGTH] == 0)
        return waits(l, im, me, WAITS_FOR_INPUT, 0);
    row[WORD] = take(q, l->input_capacity);
    return finished(im, row, me, 0);
}

static inline struct told do_output(const struct layout *l, word *im, word *row, uint32_t me) {
    word *q = im + output_at(l, me), *port = im + l->ports + 2 * me;
    if (unlikely(row[WORD] > LARGEST_CHARACTER))
        return finished(im, row, me, CHARACTER_ERROR);
    if (q[LENGTH] == l->output_capacity)
        return waits(l, im, me, WAITS_FOR_OUTPUT, 0);
    append(q, l->output_capacity, row[WORD]);
    if (port[0] == 0) {
        port[0] = 1;
        port[1] = take(q, l->output_capacity);
    }
    return finished(im, row, me, 0);
}

static inline struct told serve(const struct layout *l, word *im, word *row, uint32_t me) {
    switch (row[FLAGS] / PENDING_UNIT) {
    case SEND:
        return do_send(l, im, row, me);
    case RECEIVE:
        return do_receive(l, im, row, me);
    case INPUT:
        return do_input(l, im, row, me);
    default:
        return do_output(l, im, row, me);
    }
}

/* A tick by rules 2 to 4, for the first task. */
static always_inline struct told other_tick(const struct layout *l, word *im, word *row, uint32_t first) {
    if (unlikely(row[FLAGS] / ERROR_UNIT % 8 != 0)) {
        leave(l, im, first, STOPPED, 0);
        return answered(ERROR_STOP, first);
    }
    if (im[CLOCK] == 0) {
        pass_turn(l, im, first);
        return answered(TURN_PASSED, first);
    }
    return serve(l, im, row, first);
}

static inline struct told input(const struct layout *l, word *im, uint32_t device, word character) {
    word *q = im + input_at(l, device);
    if (q[LENGTH] == l->input_capacity)
        return refused(INPUT_FULL);
    append(q, l->input_capacity, character);
    if (im[l->status + 2 * device] == WAITS_FOR_INPUT)
        wake(l, im, device);
    return answered(INPUT_TAKEN, device);
}

static inline struct told output_done(const struct layout *l, word *im, uint32_t device) {
    word *q = im + output_at(l, device), *port = im + l->ports + 2 * device;
    if (port[0] == 0)
        return refused(PORT_IDLE);
    port[0] = q[LENGTH] != 0;
    port[1] = port[0] ? take(q, l->output_capacity) : 0;
    if (im[l->status + 2 * device] == WAITS_FOR_OUTPUT)
        wake(l, im, device);
    return answered(OUTPUT_DONE, device);
}

/* Any event but a tick. */
static always_inline struct told report(const struct layout *l, word *im, word kind, word device, word character) {
    if (kind == INPUT_EVENT && device < l->tasks && character <= LARGEST_CHARACTER)
        return input(l, im, device, character);
    if (kind == OUTPUT_DONE_EVENT && device < l->tasks && character == 0)
        return output_done(l, im, device);
    return refused(MALFORMED_EVENT);
}

/* Carries on at the next order, unless the ticks are used up. */
#define GO_ON()                                                                                                        \
    do {                                                                                                               \
        if (unlikely(taken == most))                                                                                   \
            return taken;                                                                                              \
        taken++;                                                                                                       \
        if (unlikely(pc >= length))                                                                                    \
            goto bad_address;                                                                                          \
        order = segment[pc];                                                                                           \
        a = order >> 4 & 7;                                                                                            \
        b = order & 7;                                                                                                 \
        next = pc + 1;                                                                                                 \
        DISPATCH();                                                                                                    \
    } while (0)

/* Goes to the code of an order: from each order by itself, or in the switch form from one place for all. */
#ifdef SWITCH_FORM
#define DISPATCH() goto dispatch
#else
#define DISPATCH() goto *SHAPES[order >> 8]
#endif

/* Refuses an order in which any of these bits of the low byte is set. */
#define UNUSED(bits)                                                                                                   \
    do {                                                                                                               \
        if (unlikely((order & (bits)) != 0))                                                                           \
            goto bad_order;                                                                                            \
    } while (0)

/* Refuses an address outside the segment. */
#define INSIDE(address)                                                                                                \
    do {                                                                                                               \
        if (unlikely((address) >= length))                                                                             \
            goto bad_address;                                                                                          \
    } while (0)

/* Sets Ra and carries on, at Ra where it is R0. */
#define RESULT(value)                                                                                                  \
    do {                                                                                                               \
        row[a] = (word)(value);                                                                                        \
        if (unlikely(a == NEXT))                                                                                       \
            goto jumped;                                                                                               \
        pc = next;                                                                                                     \
        GO_ON();                                                                                                       \
    } while (0)

/* Tests an order of two registers and moves R0 past it. */
#define TWO_REGISTERS()                                                                                                \
    do {                                                                                                               \
        UNUSED(0x88);                                                                                                  \
        row[NEXT] = (word)next;                                                                                        \
    } while (0)

/*
 * The orders of the first task, one a tick, for at most so many ticks.
 * It must have no error and nothing pending. Gives how many ticks were taken.
 */
static size_t orders(word *restrict row, word *restrict segment, uint32_t length, size_t most) {
#ifndef SWITCH_FORM
    static const void *const SHAPES[256] = {
        &&bad_order, &&load,     &&copy,      &&fetch,   &&store,
        &&add,       &&subtract, &&multiply,  &&divide,  &&remainder,
        &&and_,      &&or_,      &&xor_,      &&compare, &&jump,
        &&jump_if,   &&call,     &&give_back, &&service, [19 ... 255] = &&bad_order,
    };
#endif
    uint32_t pc = row[NEXT], cc = row[FLAGS], error, order, a, b, next, address, n;
    size_t taken = 0;
    GO_ON();
#ifdef SWITCH_FORM
dispatch:
    switch (order >> 8) {
    case 1: goto load;
    case 2: goto copy;
    case 3: goto fetch;
    case 4: goto store;
    case 5: goto add;
    case 6: goto subtract;
    case 7: goto multiply;
    case 8: goto divide;
    case 9: goto remainder;
    case 10: goto and_;
    case 11: goto or_;
    case 12: goto xor_;
    case 13: goto compare;
    case 14: goto jump;
    case 15: goto jump_if;
    case 16: goto call;
    case 17: goto give_back;
    case 18: goto service;
    default: goto bad_order;
    }
#endif
load:
    UNUSED(0x8F);
    INSIDE(next);
    n = segment[next];
    next++;
    row[NEXT] = (word)next;
    RESULT(n);
copy:
    TWO_REGISTERS();
    RESULT(row[b]);
fetch:
    TWO_REGISTERS();
    address = row[b];
    INSIDE(address);
    RESULT(segment[address]);
store:
    TWO_REGISTERS();
    address = row[b];
    INSIDE(address);
    segment[address] = row[a];
    pc = next;
    GO_ON();
add:
    TWO_REGISTERS();
    RESULT((uint32_t)row[a] + row[b]);
subtract:
    TWO_REGISTERS();
    RESULT((uint32_t)row[a] - row[b]);
multiply:
    TWO_REGISTERS();
    RESULT((uint32_t)row[a] * row[b]);
divide:
    TWO_REGISTERS();
    if (unlikely(row[b] == 0))
        goto bad_divisor;
    RESULT(row[a] / row[b]);
remainder:
    TWO_REGISTERS();
    if (unlikely(row[b] == 0))
        goto bad_divisor;
    RESULT(row[a] % row[b]);
and_:
    TWO_REGISTERS();
    RESULT(row[a] & row[b]);
or_:
    TWO_REGISTERS();
    RESULT(row[a] | row[b]);
xor_:
    TWO_REGISTERS();
    RESULT(row[a] ^ row[b]);
compare:
    TWO_REGISTERS();
    cc = (uint32_t)(row[a] != row[b]) + (row[a] > row[b]);
    row[FLAGS] = (word)cc;
    pc = next;
    GO_ON();
jump:
    UNUSED(0xFF);
    INSIDE(next);
    pc = segment[next];
    row[NEXT] = (word)pc;
    GO_ON();
jump_if:
    UNUSED(0xCF);
    if (unlikely(a == 3))
        goto bad_order;
    INSIDE(next);
    if (cc == a) {
        pc = segment[next];
        row[NEXT] = (word)pc;
        GO_ON();
    }
    pc = next + 1;
    row[NEXT] = (word)pc;
    GO_ON();
call:
    UNUSED(0xFF);
    INSIDE(next);
    address = (word)(row[STACK] - 1u);
    INSIDE(address);
    pc = segment[next];
    segment[address] = (word)(next + 1);
    row[STACK] = (word)address;
    row[NEXT] = (word)pc;
    GO_ON();
give_back:
    UNUSED(0xFF);
    address = row[STACK];
    INSIDE(address);
    pc = segment[address];
    row[STACK] = (word)(address + 1);
    row[NEXT] = (word)pc;
    GO_ON();
service:
    UNUSED(0x0F);
    n = order >> 4 & 15;
    error = SERVICE_ERROR;
    if (unlikely(n - SEND > OUTPUT - SEND))
        goto faulted;
    row[NEXT] = (word)next;
    row[FLAGS] = (word)(cc + PENDING_UNIT * n);
    return taken;
jumped:
    pc = row[NEXT];
    GO_ON();
bad_address:
    error = ADDRESS_ERROR;
    goto faulted;
bad_order:
    error = ORDER_ERROR;
    goto faulted;
bad_divisor:
    error = DIVISOR_ERROR;
faulted:
    row[NEXT] = (word)pc;
    row[FLAGS] = (word)(cc + ERROR_UNIT * error);
    return taken;
}

/* The first task, which there must be. */
static inline uint32_t first_of(const struct layout *l, const word *im) {
    const word *ready = im + l->ready;
    return ready[SLOTS + ready[HEAD]];
}

/* Orders of the first task for at most so many ticks. Gives how many, 0 where another rule applies. */
static inline size_t take_orders(const struct layout *l, word *im, word *row, uint32_t first, size_t most) {
    if (row[FLAGS] >= ERROR_UNIT)
        return 0;
    const word *pair = im + l->segments + 2 * first;
    size_t clock = im[CLOCK];
    size_t taken = orders(row, im + pair[0], pair[1], most < clock ? most : clock);
    im[CLOCK] = (word)(clock - taken);
    return taken;
}

static inline struct told one_tick(const struct layout *l, word *im) {
    if (im[l->ready + LENGTH] == 0)
        return answered(IDLE, 0);
    uint32_t first = first_of(l, im);
    word *row = im + l->rows + ROW_WORDS * first;
    if (take_orders(l, im, row, first, 1) == 0)
        return other_tick(l, im, row, first);
    return answered(row[FLAGS] / ERROR_UNIT % 8 != 0 ? ORDER_FAULTED : ORDER_DONE, first);
}

struct told c_event(uint16_t *image, size_t words, uint16_t kind, uint16_t device, uint16_t character) {
    struct layout l;
    word number = inspect(image, words, &l);
    if (number != 0)
        return refused(number);
    if ((kind | device | character) == 0)
        return one_tick(&l, image);
    return report(&l, image, kind, device, character);
}

/* So many ticks; none is refused. A task whose service is done is still the first. */
static always_inline void take_ticks(const struct layout *l, word *im, size_t left) {
    while (im[l->ready + LENGTH] != 0) {
        uint32_t first = first_of(l, im);
        word *row = im + l->rows + ROW_WORDS * first;
        struct told told;
        do {
            left -= take_orders(l, im, row, first, left);
            if (left == 0)
                return;
            told = other_tick(l, im, row, first);
            left--;
        } while (told.kind == SERVICE_DONE);
    }
}

/* How many events at the head of a list are ticks. */
static inline size_t ticks_ahead(const word *list, size_t count) {
    size_t ticks = 0;
    for (uint64_t four[EVENT_WORDS]; ticks + 4 <= count; ticks += 4) {
        memcpy(four, list + EVENT_WORDS * ticks, sizeof four);
        if ((four[0] | four[1] | four[2]) != 0)
            break;
    }
    for (const word *event = list + EVENT_WORDS * ticks; ticks < count; ticks++, event += EVENT_WORDS)
        if ((event[0] | event[1] | event[2]) != 0)
            break;
    return ticks;
}

struct ran c_run(uint16_t *image, size_t words, const uint16_t *list, size_t list_words) {
    struct layout l;
    word number = inspect(image, words, &l);
    if (number != 0)
        return (struct ran){0, number};
    if (list_words % EVENT_WORDS != 0)
        return (struct ran){0, MALFORMED_EVENT};
    size_t taken = 0, count = list_words / EVENT_WORDS;
    for (;;) {
        size_t ticks = ticks_ahead(list + EVENT_WORDS * taken, count - taken);
        take_ticks(&l, image, ticks);
        taken += ticks;
        if (taken == count)
            return (struct ran){taken, 0};
        const word *event = list + EVENT_WORDS * taken;
        number = report(&l, image, event[0], event[1], event[2]).number;
        if (number != 0)
            return (struct ran){taken, number};
        taken++;
    }
}
