/* Lent memory of exact size, numbers in bytes, and how a test ends where something is not as expected. */
#ifndef LENT_H
#define LENT_H

#include <stdbool.h>
#include <stddef.h>
#include <stdint.h>

/*
 * Lent memory of exactly so many bytes: at the end of a page or at the start of one, between pages that cannot be
 * touched, or on the heap. The rest of its own pages holds a filler that must stay.
 */
enum placement { PAGE_END, PAGE_START, HEAP, PLACEMENTS };
extern enum placement placement;

struct lent {
    uint8_t *at;
    size_t size;
    uint8_t *map; /* NULL on the heap */
    size_t span;
};

struct lent lend(size_t size);
void give_back(struct lent *m);

/* From now on it can be written, or not; memory on the heap always can. */
void writable(const struct lent *m, bool yes);

/* An address in a page that cannot be touched. */
uint8_t *untouchable(void);

/* The filler around the lent bytes is as it was. */
void check_filler(int line, const struct lent *m);

/* Before the first call: the program's name, and what tells a failure's call. */
void begin_test(const char *name, void (*tell)(void));

/* The line whose call runs just now, or 0: an access that is not allowed is told with it. */
extern volatile int line_now;

/* What is tried just now, for the message of a failure; or NULL. */
extern const char *subject;

_Noreturn void fail(int line, const char *what, uint64_t got, uint64_t wanted);
void same_bytes(int line, const char *what, const uint8_t *got, const uint8_t *wanted, size_t size);

/* Bytes of any value, no two runs of them alike. */
void random_bytes(struct lent *m);

/* Big-endian numbers. */
void put(uint8_t *at, unsigned bytes, uint64_t n);
uint64_t number(const uint8_t *at, unsigned bytes);

#endif
