/*
 * Two builds of libflic.a against each other in one process: what each piece of work takes in the
 * one and in the other, and the ratio. bench/compare builds this program, and a shared object of
 * each library. usage: compare ROUNDS OLD.so NEW.so
 *
 * The builds may lay out a controller in different ways. Each has memory of its own, long enough
 * for either layout, and nothing but its own calls looks into a controller.
 */
#define _POSIX_C_SOURCE 200809L

#include "flic.h"

#include <dlfcn.h>
#include <stdio.h>
#include <stdlib.h>
#include <string.h>
#include <time.h>

#define BUILDS 2
#define BATCHES 5      /* a round takes the fastest of so many batches of each build */
#define BATCH 150000.0 /* nanoseconds of a batch, at least */
#define MEMORY 32768   /* bytes for a controller of either layout */
#define PAGE 4096

_Static_assert(sizeof(struct flic_controller) <= MEMORY, "memory for a controller");

/* The calls of one build. */
struct build {
    __typeof__(flic_make) *make;
    __typeof__(flic_set) *set;
    __typeof__(flic_get) *get;
    __typeof__(flic_take) *take;
    __typeof__(flic_write_list) *write_list;
    __typeof__(flic_play_list) *play_list;
};

/*
 * A controller of one build, records to give to it and a buffer for what it writes. Each lies at
 * the same place of a page in every machine, so that no build gains by where its memory is.
 */
struct machine {
    _Alignas(PAGE) uint8_t controller[MEMORY];
    _Alignas(PAGE) uint8_t records[FLIC_ROOM][FLIC_RECORD];
    _Alignas(PAGE) uint8_t buffer[FLIC_LONGEST_LIST];
    _Alignas(PAGE) struct flic_place table[FLIC_PLACES];
    struct flic_device device;
    const struct build *build;
};

/* The codes of all calls of a batch, as bits, and their counts together. */
struct answers {
    uint32_t codes;
    uint64_t counts;
};

/*
 * A piece of work. It runs as often as asked on a machine that was brought to its state before, and
 * leaves it as it found it. A batch whose calls answer otherwise than said here ends the program.
 */
struct work {
    const char *name;
    void (*prepare)(struct machine *m, const struct work *work);
    struct answers (*run)(struct machine *m, const struct work *work, size_t times);
    unsigned pending;   /* records, with the one that comes where one comes and goes */
    bool eight;         /* they are spread over eight subclasses, else all of subclass 3 */
    uint8_t subclasses; /* allowed at a take */
    uint32_t group;     /* of the request, where it is one; and what goes with it */
    uint64_t attribute;
    const uint8_t *payload;
    size_t length;
    uint32_t code;  /* of every call */
    uint64_t count; /* of all calls of one piece of work together */
};

/* Calls. */

static void fail(const char *where, const char *what)
{
    fprintf(stderr, "compare: %s: %s\n", where, what);
    exit(1);
}

static struct flic_controller *controller_of(struct machine *m)
{
    return (struct flic_controller *)(void *)m->controller;
}

static struct flic_answer set(struct machine *m, uint32_t group, uint64_t attribute,
                              const uint8_t *payload, size_t length)
{
    return m->build->set(controller_of(m), &m->device, m->table, FLIC_PLACES, group, attribute,
                         payload, length);
}

static struct flic_answer take(struct machine *m, uint8_t subclasses)
{
    return m->build->take(controller_of(m), subclasses, true, true, m->buffer, FLIC_RECORD);
}

static struct flic_answer write_list(struct machine *m)
{
    return m->build->write_list(controller_of(m), &m->device, m->table, FLIC_PLACES, m->buffer,
                                sizeof m->buffer);
}

static void add(struct answers *answers, struct flic_answer answer)
{
    answers->codes |= answer.code;
    answers->counts += answer.count;
}

/* Machines before the work. */

static const uint8_t adapter_5[8] = {0, 0, 0, 5, 3, 1, 0, 1};
static const uint8_t mask_5[16] = {0, 0, 0, 5, 1, 1};
static const uint8_t single_3[2] = {0x10, 0x10}; /* subclass 3 in mode SINGLE, its nimm bit set */
static const uint8_t absent[4] = {0, 1, 2, 3};   /* a subchannel that no record is for */
static const uint8_t empty[1];

/* A request that has to be accepted. */
static void accepted(struct machine *m, const struct work *work, uint32_t group, uint64_t attribute,
                     const uint8_t *payload, size_t length)
{
    if (set(m, group, attribute, payload, length).code != 0)
        fail(work->name, "a request before the work is refused");
}

/* Nothing is pending or registered. The records are there to be given. */
static void fresh(struct machine *m, const struct work *work)
{
    if (m->build->make(controller_of(m), &m->device, m->table, FLIC_PLACES, true).code != 0)
        fail(work->name, "no controller is made");
    for (unsigned number = 0; number < FLIC_ROOM; number++) {
        uint8_t *record = m->records[number];
        unsigned isc = work->eight ? number % 8 : 3;
        record[9] = 1;
        record[11] = (uint8_t)number;
        record[16] = (uint8_t)(isc << 3);
        record[FLIC_RECORD - 1] = (uint8_t)number;
    }
}

static void fill(struct machine *m, const struct work *work, unsigned pending)
{
    fresh(m, work);
    for (unsigned i = 0; i < pending; i++)
        accepted(m, work, KVM_DEV_FLIC_ENQUEUE, FLIC_RECORD, m->records[i], FLIC_RECORD);
}

static void all_pending(struct machine *m, const struct work *work)
{
    fill(m, work, work->pending);
}

static void one_to_come(struct machine *m, const struct work *work)
{
    fill(m, work, work->pending - 1);
}

/* Adapter 5 of subclass 3, which can be masked and suppressed, in mode ALL. */
static void adapter(struct machine *m, const struct work *work)
{
    fresh(m, work);
    accepted(m, work, KVM_DEV_FLIC_ADAPTER_REGISTER, 0, adapter_5, sizeof adapter_5);
}

static void suppressed(struct machine *m, const struct work *work)
{
    adapter(m, work);
    accepted(m, work, KVM_DEV_FLIC_AISM_ALL, 0, single_3, sizeof single_3);
}

static void masked(struct machine *m, const struct work *work)
{
    adapter(m, work);
    accepted(m, work, KVM_DEV_FLIC_ADAPTER_MODIFY, 0, mask_5, sizeof mask_5);
}

/* 64 adapters, all masked, and as many records as there is room for: the longest list. */
static void full(struct machine *m, const struct work *work)
{
    static const uint8_t service[FLIC_RECORD] = {0, 0, 0, 0, 0xff, 0xff, 0x24, 0x01};
    static const uint8_t machine_check[FLIC_RECORD] = {0, 0, 0, 0, 0xff, 0xfe, 0x10, 0x00};
    fill(m, work, FLIC_ROOM);
    for (uint8_t id = 0; id < FLIC_PLACES; id++) {
        const uint8_t place[8] = {0, 0, 0, id, id % 8, 1, 0, 1};
        const uint8_t mask[16] = {0, 0, 0, id, 1, 1};
        accepted(m, work, KVM_DEV_FLIC_ADAPTER_REGISTER, 0, place, sizeof place);
        accepted(m, work, KVM_DEV_FLIC_ADAPTER_MODIFY, 0, mask, sizeof mask);
    }
    accepted(m, work, KVM_DEV_FLIC_ENQUEUE, FLIC_RECORD, service, FLIC_RECORD);
    accepted(m, work, KVM_DEV_FLIC_ENQUEUE, FLIC_RECORD, machine_check, FLIC_RECORD);
    accepted(m, work, KVM_DEV_FLIC_AISM_ALL, 0, single_3, sizeof single_3);
    accepted(m, work, KVM_DEV_FLIC_APF_ENABLE, 0, empty, 0);
    if (write_list(m).count != FLIC_LONGEST_LIST)
        fail(work->name, "the list before the work is not the longest");
}

/* Work. */

/* The last of the pending records comes, and the first of its subclass goes. */
static struct answers enqueue_take(struct machine *m, const struct work *work, size_t times)
{
    struct answers answers = {0, 0};
    for (size_t i = 0; i < times; i++) {
        uint8_t subclasses = work->eight ? (uint8_t)(0x80 >> i % 8) : 0xff;
        const uint8_t *record = m->records[i % 8];
        add(&answers, set(m, KVM_DEV_FLIC_ENQUEUE, FLIC_RECORD, record, FLIC_RECORD));
        add(&answers, take(m, subclasses));
    }
    return answers;
}

static struct answers inject_take(struct machine *m, const struct work *work, size_t times)
{
    struct answers answers = {0, 0};
    for (size_t i = 0; i < times; i++) {
        add(&answers, set(m, KVM_DEV_FLIC_AIRQ_INJECT, 5, empty, 0));
        add(&answers, take(m, work->subclasses));
    }
    return answers;
}

static struct answers request(struct machine *m, const struct work *work, size_t times)
{
    struct answers answers = {0, 0};
    for (size_t i = 0; i < times; i++)
        add(&answers, set(m, work->group, work->attribute, work->payload, work->length));
    return answers;
}

static struct answers take_none(struct machine *m, const struct work *work, size_t times)
{
    struct answers answers = {0, 0};
    for (size_t i = 0; i < times; i++)
        add(&answers, take(m, work->subclasses));
    return answers;
}

static struct answers get_all(struct machine *m, const struct work *work, size_t times)
{
    struct answers answers = {0, 0};
    size_t size = work->pending * (size_t)FLIC_RECORD;
    for (size_t i = 0; i < times; i++)
        add(&answers, m->build->get(controller_of(m), &m->device, m->table, FLIC_PLACES,
                                    KVM_DEV_FLIC_GET_ALL_IRQS, size, m->buffer, size));
    return answers;
}

/* As many records as there is room for come in one request, and all go. */
static struct answers enqueue_clear(struct machine *m, const struct work *work, size_t times)
{
    struct answers answers = {0, 0};
    (void)work;
    for (size_t i = 0; i < times; i++) {
        add(&answers, set(m, KVM_DEV_FLIC_ENQUEUE, sizeof m->records, m->records[0],
                          sizeof m->records));
        add(&answers, set(m, KVM_DEV_FLIC_CLEAR_IRQS, 0, empty, 0));
    }
    return answers;
}

static struct answers writes(struct machine *m, const struct work *work, size_t times)
{
    struct answers answers = {0, 0};
    (void)work;
    for (size_t i = 0; i < times; i++)
        add(&answers, write_list(m));
    return answers;
}

/* The machine's own list, which leaves it as it was. */
static struct answers plays(struct machine *m, const struct work *work, size_t times)
{
    struct answers answers = {0, 0};
    (void)work;
    for (size_t i = 0; i < times; i++)
        add(&answers, m->build->play_list(controller_of(m), &m->device, m->table, FLIC_PLACES,
                                          m->buffer, FLIC_LONGEST_LIST));
    return answers;
}

#define WORK(before, what) .prepare = before, .run = what
#define PAIR(n, spread) WORK(one_to_come, enqueue_take), .pending = n, .eight = spread, .count = 2
#define REQUEST(before, number, attr, bytes, size) \
    WORK(before, request), .group = number, .attribute = attr, .payload = bytes, .length = size
#define CLEAR_NONE(n) \
    REQUEST(all_pending, KVM_DEV_FLIC_CLEAR_IO_IRQ, 4, absent, 4), .pending = n, .eight = true

static const struct work works[] = {
    {"enqueue + take, 1 pending, one subclass", PAIR(1, false)},
    {"enqueue + take, 1 pending, eight subclasses", PAIR(1, true)},
    {"enqueue + take, 16 pending, one subclass", PAIR(16, false)},
    {"enqueue + take, 16 pending, eight subclasses", PAIR(16, true)},
    {"enqueue + take, 256 pending, one subclass", PAIR(256, false)},
    {"enqueue + take, 256 pending, eight subclasses", PAIR(256, true)},
    {"CLEAR_IO of none, 1 pending", CLEAR_NONE(1)},
    {"CLEAR_IO of none, 16 pending", CLEAR_NONE(16)},
    {"CLEAR_IO of none, 256 pending", CLEAR_NONE(256)},
    {"INJECT, suppressed", REQUEST(suppressed, KVM_DEV_FLIC_AIRQ_INJECT, 5, empty, 0)},
    {"INJECT, masked", REQUEST(masked, KVM_DEV_FLIC_AIRQ_INJECT, 5, empty, 0)},
    {"inject + take, mode ALL", WORK(adapter, inject_take), .subclasses = 0xff, .count = 2},
    {"APF_ENABLE, fresh machine", REQUEST(fresh, KVM_DEV_FLIC_APF_ENABLE, 0, empty, 0)},
    {"MODIFY, mask", REQUEST(adapter, KVM_DEV_FLIC_ADAPTER_MODIFY, 0, mask_5, 16)},
    {"AISM_ALL, set", REQUEST(fresh, KVM_DEV_FLIC_AISM_ALL, 0, single_3, 2)},
    {"take of none, 0 pending", WORK(fresh, take_none), .subclasses = 0xff},
    {"take of none, 16 pending, none allowed", WORK(all_pending, take_none), .pending = 16,
     .eight = true},
    {"unknown group", REQUEST(fresh, 99, 0, empty, 0), .code = EINVAL},
    {"CLEAR_IRQS of none", REQUEST(fresh, KVM_DEV_FLIC_CLEAR_IRQS, 0, empty, 0)},
    {"GET_ALL of 256", WORK(all_pending, get_all), .pending = 256, .eight = true, .count = 256},
    {"ENQUEUE of 256 + CLEAR_IRQS", WORK(fresh, enqueue_clear), .eight = true, .count = 2 * 256},
    {"write, full machine", WORK(full, writes), .eight = true, .count = FLIC_LONGEST_LIST},
    {"play, full machine", WORK(full, plays), .eight = true, .count = FLIC_MOST_REQUESTS},
};

#define WORKS (sizeof works / sizeof works[0])

/* Measuring. */

static void find(void *library, const char *name, void *call)
{
    void *at = dlsym(library, name);
    if (at == NULL)
        fail(name, dlerror());
    memcpy(call, &at, sizeof at);
}

static struct build load(const char *path)
{
    struct build b;
    void *library = dlopen(path, RTLD_NOW | RTLD_LOCAL);
    if (library == NULL)
        fail(path, dlerror());
    find(library, "flic_make", &b.make);
    find(library, "flic_set", &b.set);
    find(library, "flic_get", &b.get);
    find(library, "flic_take", &b.take);
    find(library, "flic_write_list", &b.write_list);
    find(library, "flic_play_list", &b.play_list);
    return b;
}

static struct machine *machine_of(const struct build *build, const struct work *work)
{
    struct machine *m = aligned_alloc(PAGE, sizeof *m);
    if (m == NULL)
        fail(work->name, "no memory");
    memset(m, 0, sizeof *m);
    m->build = build;
    work->prepare(m, work);
    return m;
}

/* Nanoseconds of a batch. */
static double batch(struct machine *m, const struct work *work, size_t times)
{
    struct timespec start, end;
    clock_gettime(CLOCK_MONOTONIC, &start);
    struct answers answers = work->run(m, work, times);
    clock_gettime(CLOCK_MONOTONIC, &end);
    if (answers.codes != work->code || answers.counts != times * work->count)
        fail(work->name, "the calls answer otherwise");
    return (double)(end.tv_sec - start.tv_sec) * 1e9 + (double)(end.tv_nsec - start.tv_nsec);
}

static int compare(const void *a, const void *b)
{
    double x = *(const double *)a, y = *(const double *)b;
    return (x > y) - (x < y);
}

static double median(double *values, size_t count)
{
    qsort(values, count, sizeof *values, compare);
    return values[count / 2];
}

int main(int argc, char **argv)
{
    static struct machine *machines[WORKS][BUILDS];
    static size_t times[WORKS];
    static double *taken[WORKS][BUILDS], *ratios[WORKS];
    size_t rounds = argc == 2 + BUILDS ? strtoul(argv[1], NULL, 10) : 0;
    if (rounds == 0) {
        fprintf(stderr, "usage: compare ROUNDS OLD.so NEW.so\n");
        return 2;
    }
    struct build builds[BUILDS];
    for (size_t who = 0; who < BUILDS; who++)
        builds[who] = load(argv[2 + who]);
    for (size_t at = 0; at < WORKS; at++) {
        times[at] = 1;
        ratios[at] = calloc(rounds, sizeof(double));
        for (size_t who = 0; who < BUILDS; who++) {
            machines[at][who] = machine_of(&builds[who], &works[at]);
            taken[at][who] = calloc(rounds, sizeof(double));
            if (ratios[at] == NULL || taken[at][who] == NULL)
                fail(works[at].name, "no memory");
        }
        for (size_t who = 0; who < BUILDS; who++)
            while (batch(machines[at][who], &works[at], times[at]) < BATCH)
                times[at] *= 2;
    }
    /* Each round goes over all work, so that a busy spell of the machine is spread over it. */
    for (size_t round = 0; round < rounds; round++)
        for (size_t at = 0; at < WORKS; at++) {
            for (size_t turn = 0; turn < BUILDS * BATCHES; turn++) {
                size_t who = (turn + round) % BUILDS;
                double *best = &taken[at][who][round];
                double now = batch(machines[at][who], &works[at], times[at]) / (double)times[at];
                if (turn < BUILDS || now < *best)
                    *best = now;
            }
            ratios[at][round] = taken[at][1][round] / taken[at][0][round];
        }
    printf("# nanoseconds of one piece of work, medians of %zu rounds;\n", rounds);
    printf("# ratio of the new build to the old one in each round, median\n");
    printf("%-46s %8s %8s %6s\n", "# work", "old", "new", "ratio");
    for (size_t at = 0; at < WORKS; at++)
        printf("%-46s %8.1f %8.1f %6.2f\n", works[at].name, median(taken[at][0], rounds),
               median(taken[at][1], rounds), median(ratios[at], rounds));
    return 0;
}
