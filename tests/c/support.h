/* Calls of the FLIC in lent memory of exact size, each held to a code, a count and every byte. */
#ifndef SUPPORT_H
#define SUPPORT_H

#include "flic.h"
#include "lent.h"

/* A controller, its device record and its own table. */
struct host {
    struct lent controller, device, table;
};

/* Memory set to zero: nothing made yet. */
struct host new_host(void);
void free_host(struct host *h);
const struct flic_controller *controller_of(const struct host *h);
const struct flic_device *device_of(const struct host *h);
const struct flic_place *table_of(const struct host *h);

enum kind { MAKE, SET, GET, TAKE, WRITE, PLAY };

/* A table that is not the controller's own: of random bytes; in a page that cannot be touched; or a null pointer. */
enum other { RANDOM_BYTES, UNTOUCHABLE, NO_TABLE };

struct call {
    enum kind kind;
    size_t places; /* FLIC_PLACES: the controller's own table; else another one of so many places */
    enum other other;
    bool refused; /* expected: nothing that is lent can be written while the call runs */
    bool ais;
    uint32_t group;
    uint64_t attribute;
    uint8_t subclasses;
    bool external, machine_check;
    const uint8_t *bytes; /* what the payload or buffer holds before the call; NULL: a null pointer is lent */
    size_t length;
};

/*
 * One call; the bytes of its buffer afterwards go to 'after', if that is not NULL. Ends the program where something
 * changed that no call of this kind, or no call with this answer, may change.
 */
struct flic_answer run(int line, struct host *h, const struct call *call, uint8_t *after);

/*
 * The same, held to an answer; the buffer starts with these bytes afterwards, and the rest of it is as it was. A call
 * that is to be refused is lent read-only memory, but for a list, which may be refused part-way.
 */
void expect(int line, struct host *h, struct call call, uint32_t code, uint64_t count, const uint8_t *written,
            size_t size);

/* Before the first call. */
void begin(const char *name);

/* Bytes that an output buffer holds before a call. */
#define MOST 65536
extern uint8_t unwritten[MOST];

void expect_listing(int line, struct host *h, const uint8_t *records, size_t count);
void expect_device(int line, struct host *h, uint8_t simm, uint8_t nimm, bool apf);
void expect_place(int line, struct host *h, unsigned id, struct flic_place place);
void expect_fresh(int line, struct host *h, bool ais);
void expect_wrong_makes(int line, struct host *h);
void expect_wrong_tables(int line, struct host *h);

#define make(h, cap, code, count) \
    expect(__LINE__, h, (struct call){.kind = MAKE, .places = FLIC_PLACES, .ais = cap}, code, count, NULL, 0)
#define set(h, g, attr, payload, size, code, count)                                                               \
    expect(__LINE__, h,                                                                                           \
           (struct call){.kind = SET, .places = FLIC_PLACES, .group = g, .attribute = attr, .bytes = payload,     \
                         .length = size},                                                                         \
           code, count, NULL, 0)
#define get(h, g, attr, size, code, count, written, many)                                                         \
    expect(__LINE__, h,                                                                                           \
           (struct call){.kind = GET, .places = FLIC_PLACES, .group = g, .attribute = attr, .bytes = unwritten,   \
                         .length = size},                                                                         \
           code, count, written, many)
#define take(h, mask, ext, mc, size, code, count, record)                                                         \
    expect(__LINE__, h,                                                                                           \
           (struct call){.kind = TAKE, .subclasses = mask, .external = ext, .machine_check = mc,                  \
                         .bytes = unwritten, .length = size},                                                     \
           code, count, record, (count) * FLIC_RECORD)
#define write_list(h, size, code, count, list)                                                                    \
    expect(__LINE__, h, (struct call){.kind = WRITE, .places = FLIC_PLACES, .bytes = unwritten, .length = size},  \
           code, count, list, count)
#define play(h, list, size, code, count)                                                                          \
    expect(__LINE__, h, (struct call){.kind = PLAY, .places = FLIC_PLACES, .bytes = list, .length = size}, code,  \
           count, NULL, 0)
/* a list that is refused by its form */
#define malformed(h, list, size, code)                                                                            \
    expect(__LINE__, h,                                                                                           \
           (struct call){.kind = PLAY, .places = FLIC_PLACES, .refused = true, .bytes = list, .length = size},    \
           code, 0, NULL, 0)
#define holds(h, records, count) expect_listing(__LINE__, h, records, count)
#define device_is(h, simm, nimm, apf) expect_device(__LINE__, h, simm, nimm, apf)
#define place_is(h, id, ...) expect_place(__LINE__, h, id, (struct flic_place){__VA_ARGS__})
#define is_fresh(h, ais) expect_fresh(__LINE__, h, ais)
#define wrong_makes(h) expect_wrong_makes(__LINE__, h)
#define wrong_tables(h) expect_wrong_tables(__LINE__, h)

/* An I/O record, or with the same fields any other type; the bytes after them are 0. */
void io_record(uint8_t *at, uint64_t type, uint16_t id, uint16_t nr, uint32_t parm, uint32_t word);

#endif
