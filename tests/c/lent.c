#define _DEFAULT_SOURCE
#include "lent.h"

#include <inttypes.h>
#include <signal.h>
#include <stdio.h>
#include <stdlib.h>
#include <string.h>
#include <sys/mman.h>
#include <unistd.h>

#define FILLER 0xa5

enum placement placement;
volatile int line_now;
const char *subject;

static const char *program;
static void (*tell_call)(void);

static void say(int line)
{
    static const char *const names[] = {"page end", "page start", "heap"};
    fprintf(stderr, "%s: line %d (%s%s%s): ", program, line, names[placement], subject == NULL ? "" : ", ",
            subject == NULL ? "" : subject);
    tell_call();
    fprintf(stderr, ": ");
}

void fail(int line, const char *what, uint64_t got, uint64_t wanted)
{
    say(line);
    fprintf(stderr, "%s: %" PRIu64 " (0x%" PRIx64 "), expected %" PRIu64 " (0x%" PRIx64 ")\n", what, got, got, wanted,
            wanted);
    exit(1);
}

void same_bytes(int line, const char *what, const uint8_t *got, const uint8_t *wanted, size_t size)
{
    if (size == 0 || memcmp(got, wanted, size) == 0)
        return;
    size_t i = 0;
    while (got[i] == wanted[i])
        i++;
    fprintf(stderr, "%s: at byte %zu:\n", program, i);
    fail(line, what, got[i], wanted[i]);
}

/* The signal comes from an access of the call itself, so that no function of the C library is interrupted. */
static void fault(int signal)
{
    say(line_now);
    fprintf(stderr, "an access outside the lent memory, or a write where none may be\n");
    _exit(128 + signal);
}

void begin_test(const char *name, void (*tell)(void))
{
    program = name;
    tell_call = tell;
    struct sigaction action = {.sa_handler = fault};
    sigaction(SIGSEGV, &action, NULL);
    sigaction(SIGBUS, &action, NULL);
}

void put(uint8_t *at, unsigned bytes, uint64_t n)
{
    while (bytes-- > 0) {
        at[bytes] = (uint8_t)n;
        n >>= 8;
    }
}

uint64_t number(const uint8_t *at, unsigned bytes)
{
    uint64_t n = 0;
    for (unsigned i = 0; i < bytes; i++)
        n = n << 8 | at[i];
    return n;
}

void random_bytes(struct lent *m)
{
    static uint64_t state = 1;
    for (size_t i = 0; i < m->size; i++) {
        state = state * 6364136223846793005u + 1442695040888963407u;
        m->at[i] = (uint8_t)(state >> 56);
    }
}

/* Lent memory. */

static size_t page(void)
{
    static size_t bytes;
    if (bytes == 0)
        bytes = (size_t)sysconf(_SC_PAGESIZE);
    return bytes;
}

/* The pages between the two that cannot be touched. */
static uint8_t *inner(const struct lent *m)
{
    return m->map + page();
}

static size_t inner_size(const struct lent *m)
{
    return m->span - 2 * page();
}

struct lent lend(size_t size)
{
    struct lent m = {.size = size};
    if (placement == HEAP) {
        m.at = malloc(size);
        if (m.at == NULL)
            fail(0, "malloc", 0, size);
        return m;
    }
    size_t pages = (size + page() - 1) / page();
    m.span = (pages == 0 ? 3 : pages + 2) * page();
    m.map = mmap(NULL, m.span, PROT_NONE, MAP_PRIVATE | MAP_ANONYMOUS, -1, 0);
    if (m.map == MAP_FAILED || mprotect(inner(&m), inner_size(&m), PROT_READ | PROT_WRITE) != 0)
        fail(0, "mmap", 0, size);
    memset(inner(&m), FILLER, inner_size(&m));
    m.at = placement == PAGE_END ? inner(&m) + inner_size(&m) - size : inner(&m);
    return m;
}

void give_back(struct lent *m)
{
    if (m->map == NULL)
        free(m->at);
    else
        munmap(m->map, m->span);
    m->at = NULL;
}

void writable(const struct lent *m, bool yes)
{
    if (m->map != NULL && mprotect(inner(m), inner_size(m), yes ? PROT_READ | PROT_WRITE : PROT_READ) != 0)
        fail(0, "mprotect", 0, m->size);
}

uint8_t *untouchable(void)
{
    static uint8_t *map;
    if (map == NULL) {
        map = mmap(NULL, page(), PROT_NONE, MAP_PRIVATE | MAP_ANONYMOUS, -1, 0);
        if (map == MAP_FAILED)
            fail(0, "mmap", 0, page());
    }
    return map + page() / 2;
}

static void all_filler(int line, const uint8_t *at, size_t size)
{
    if (size > 0 && (*at != FILLER || memcmp(at, at + 1, size - 1) != 0))
        fail(line, "a byte beside lent memory was written", 1, 0);
}

void check_filler(int line, const struct lent *m)
{
    if (m->map == NULL)
        return;
    size_t before = (size_t)(m->at - inner(m));
    all_filler(line, inner(m), before);
    all_filler(line, m->at + m->size, inner_size(m) - before - m->size);
}
