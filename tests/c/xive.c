/*
 * The sources of POWER9's XIVE by the public calls from C: each boundary and refusal, with the bit layouts of source
 * document 002. Sources and payloads are lent at their exact size. usage: xive [STEP]
 * STEP: of memory that no call has left only every so many sources are tried (1)
 */
#include "lent.h"
#include "xive.h"

#include <inttypes.h>
#include <stdio.h>
#include <stdlib.h>
#include <string.h>

#define COUNT(array) (sizeof(array) / sizeof((array)[0]))

#define BYTES(...) (const uint8_t[]){__VA_ARGS__}

#define MSI 0
#define LSI 1
#define ASSERTED 2 /* .. with the level bit */

enum kind { MAKE, INITIALISE, TARGET, SYNC, READ };

struct call {
    enum kind kind;
    uint64_t number;
    const uint8_t *bytes; /* what the payload holds before the call; NULL: a null pointer is lent */
    size_t length;
    size_t claimed; /* the length that is told, where it is not the true one; else 0 */
};

static struct call last; /* the call that runs, or the last one that did */

static void tell(void)
{
    static const char *const kinds[] = {"make", "initialise", "target", "sync", "read"};
    fprintf(stderr, "%s", kinds[last.kind]);
    if (last.kind != MAKE)
        fprintf(stderr, " %" PRIu64 " (0x%" PRIx64 ")", last.number, last.number);
    if (last.kind == INITIALISE || last.kind == TARGET)
        fprintf(stderr, ", %zu bytes%s", last.length, last.bytes == NULL ? " (null)" : "");
    if (last.length >= XIVE_WORD)
        fprintf(stderr, ", word 0x%016" PRIx64, number(last.bytes, XIVE_WORD));
}

/* The bytes of this word, until the next one's. */
static const uint8_t *payload(uint64_t word)
{
    static uint8_t bytes[XIVE_WORD];
    put(bytes, XIVE_WORD, word);
    return bytes;
}

/* An answer, as a reading of nothing. */
static struct xive_reading as_reading(struct xive_answer r)
{
    return (struct xive_reading){.code = r.code, .count = r.count};
}

static struct xive_reading call_now(struct xive_sources *s, const struct call *call, const uint8_t *bytes)
{
    size_t length = call->claimed != 0 ? call->claimed : call->length;
    switch (call->kind) {
    case MAKE:
        xive_make(s);
        break;
    case INITIALISE:
        return as_reading(xive_initialise(s, call->number, bytes, length));
    case TARGET:
        return as_reading(xive_target(s, call->number, bytes, length));
    case SYNC:
        return as_reading(xive_sync(s, call->number));
    case READ:
        return xive_read(s, call->number);
    }
    return (struct xive_reading){.code = 0};
}

/* The bytes that a call had to leave: all of them, or those of every other source. */
static void check_sources(int line, const struct lent *c, const uint8_t *before, const struct call *call, bool kept)
{
    size_t own = (size_t)call->number * sizeof(uint64_t);
    if (kept) {
        same_bytes(line, "sources", c->at, before, c->size);
    } else if (call->kind != MAKE) {
        same_bytes(line, "sources below", c->at, before, own);
        own += sizeof(uint64_t);
        same_bytes(line, "sources above", c->at + own, before + own, c->size - own);
    }
}

/*
 * One call, which is accepted or not. Ends the program where a byte changed that may not: a payload, the sources by a
 * refusal, a sync or a reading, any other source. Where pages guard them they cannot be written while the call runs.
 */
static struct xive_reading run(int line, struct lent *c, const struct call *call, bool accepted)
{
    static uint8_t before[sizeof(struct xive_sources)];
    bool kept = !accepted || call->kind == SYNC || call->kind == READ;
    struct lent lent = {.at = NULL};
    if (call->bytes != NULL)
        lent = lend(call->length);
    if (call->length > 0)
        memcpy(lent.at, call->bytes, call->length);
    memcpy(before, c->at, sizeof before);
    writable(&lent, false);
    writable(c, !kept);

    last = *call;
    line_now = line;
    struct xive_reading r = call_now((struct xive_sources *)(void *)c->at, call, lent.at);
    line_now = 0;

    writable(c, true);
    check_filler(line, c);
    check_filler(line, &lent);
    same_bytes(line, "payload", lent.at, call->bytes, lent.size);
    check_sources(line, c, before, call, kept);
    give_back(&lent);
    return r;
}

/* The same, held to an answer or a reading. */
static void expect(int line, struct lent *c, struct call call, struct xive_reading wanted)
{
    struct xive_reading r = run(line, c, &call, wanted.code == 0);
    uint8_t masked;
    memcpy(&masked, (const uint8_t *)&r + 6, 1);
    if (r.code != wanted.code)
        fail(line, "code", r.code, wanted.code);
    if (r.count != 0)
        fail(line, "count", r.count, 0);
    if (r.level != wanted.level)
        fail(line, "level", r.level, wanted.level);
    if (r.type != wanted.type)
        fail(line, "type", r.type, wanted.type);
    if (masked != (wanted.masked ? 1 : 0))
        fail(line, "masked", masked, wanted.masked);
    if (r.word != wanted.word)
        fail(line, "word", r.word, wanted.word);
}

#define make(c) expect(__LINE__, c, (struct call){.kind = MAKE}, (struct xive_reading){.code = 0})
#define initialise(c, n, lent, size, refusal)                                                                     \
    expect(__LINE__, c, (struct call){.kind = INITIALISE, .number = n, .bytes = lent, .length = size},            \
           (struct xive_reading){.code = refusal})
#define target(c, n, lent, size, refusal)                                                                         \
    expect(__LINE__, c, (struct call){.kind = TARGET, .number = n, .bytes = lent, .length = size},                \
           (struct xive_reading){.code = refusal})
#define synced(c, n, refusal) \
    expect(__LINE__, c, (struct call){.kind = SYNC, .number = n}, (struct xive_reading){.code = refusal})
#define no_reading(c, n, refusal) \
    expect(__LINE__, c, (struct call){.kind = READ, .number = n}, (struct xive_reading){.code = refusal})
/* a reading of a source that is masked, or targeted with a word */
#define is_masked(c, n, t, l)                                                                                     \
    expect(__LINE__, c, (struct call){.kind = READ, .number = n},                                                 \
           (struct xive_reading){.type = t, .level = l, .masked = true, .word = 0})
#define is_targeted(c, n, t, l, w)                                                                                \
    expect(__LINE__, c, (struct call){.kind = READ, .number = n},                                                 \
           (struct xive_reading){.type = t, .level = l, .masked = false, .word = w})

/* No source is initialised. */
static void expect_fresh(int line, struct lent *c)
{
    for (uint64_t n = 0; n < XIVE_SOURCES; n++)
        expect(line, c, (struct call){.kind = READ, .number = n}, (struct xive_reading){.code = EINVAL});
}

static struct lent filled(int byte)
{
    struct lent c = lend(sizeof(struct xive_sources));
    memset(c.at, byte, c.size);
    return c;
}

static struct lent made(void)
{
    struct lent c = filled(0xff);
    make(&c);
    return c;
}

/* Fresh controllers. */

static void fresh(void)
{
    static const uint8_t zeros[sizeof(struct xive_sources)];
    struct lent c = made(), other = filled(0);
    expect_fresh(__LINE__, &c);
    expect_fresh(__LINE__, &other);
    same_bytes(__LINE__, "a fresh controller", c.at, zeros, c.size);
    random_bytes(&c);
    make(&c);
    expect_fresh(__LINE__, &c);
    same_bytes(__LINE__, "a fresh controller", c.at, zeros, c.size);
    /* zeros and a made one: the same calls, the same bytes */
    struct lent *both[] = {&c, &other};
    for (unsigned i = 0; i < 2; i++) {
        target(both[i], 7, payload(0), 8, EINVAL);
        synced(both[i], 7, EINVAL);
        no_reading(both[i], 7, EINVAL);
        initialise(both[i], 7, payload(LSI + ASSERTED), 8, 0);
        is_masked(both[i], 7, LSI, 1);
        target(both[i], 7, payload(0x123456780000002b), 8, 0);
        is_targeted(both[i], 7, LSI, 1, 0x123456780000002b);
    }
    same_bytes(__LINE__, "the controller that was not made", other.at, c.at, c.size);
    /* made again: nothing is left */
    make(&c);
    expect_fresh(__LINE__, &c);
    give_back(&c);
    give_back(&other);
}

/* Source numbers. */

static const uint64_t too_large[] = {
    1024, 1025, 1029, 2047, 5000, 65536, 65541, 1ull << 31, 1ull << 32, (1ull << 32) + 5, (1ull << 32) + 1023,
    1ull << 63, (1ull << 63) + 5, UINT64_MAX - 1023, UINT64_MAX - 1, UINT64_MAX,
};

static void numbers(void)
{
    static const uint64_t good[] = {0, 1, 5, 255, 256, 511, 512, 1022, 1023};
    struct lent c = made();
    for (unsigned turn = 0; turn < 2; turn++) {
        for (size_t i = 0; i < COUNT(too_large); i++) {
            initialise(&c, too_large[i], payload(LSI), 8, E2BIG);
            target(&c, too_large[i], payload(0), 8, ENOENT);
            synced(&c, too_large[i], ENOENT);
            no_reading(&c, too_large[i], ENOENT);
        }
        for (size_t i = 0; turn == 0 && i < COUNT(good); i++) {
            target(&c, good[i], payload(0), 8, EINVAL);
            synced(&c, good[i], EINVAL);
            no_reading(&c, good[i], EINVAL);
            initialise(&c, good[i], payload(LSI), 8, 0);
            is_masked(&c, good[i], LSI, 0);
            synced(&c, good[i], 0);
            target(&c, good[i], payload(good[i] << 33), 8, 0);
            is_targeted(&c, good[i], LSI, 0, good[i] << 33);
            synced(&c, good[i], 0);
        }
    }
    for (size_t i = 0; i < COUNT(good); i++)
        is_targeted(&c, good[i], LSI, 0, good[i] << 33);
    no_reading(&c, 2, EINVAL);
    no_reading(&c, 1021, EINVAL);
    give_back(&c);
}

/* The word of an initialising. */

static void types_and_levels(void)
{
    struct lent c = made();
    initialise(&c, 3, BYTES(0, 0, 0, 0, 0, 0, 0, 0), 8, 0);
    is_masked(&c, 3, MSI, 0);
    initialise(&c, 3, BYTES(0, 0, 0, 0, 0, 0, 0, 1), 8, 0);
    is_masked(&c, 3, LSI, 0);
    initialise(&c, 3, BYTES(0, 0, 0, 0, 0, 0, 0, 2), 8, 0); /* the level of an MSI */
    is_masked(&c, 3, MSI, 0);
    initialise(&c, 3, BYTES(0, 0, 0, 0, 0, 0, 0, 3), 8, 0);
    is_masked(&c, 3, LSI, 1);
    /* the same word by the kernel's names */
    initialise(&c, 3, payload(KVM_XIVE_LEVEL_SENSITIVE), 8, 0);
    is_masked(&c, 3, LSI, 0);
    initialise(&c, 3, payload(KVM_XIVE_LEVEL_SENSITIVE | KVM_XIVE_LEVEL_ASSERTED), 8, 0);
    is_masked(&c, 3, LSI, 1);
    /* little-endian it would be an LSI */
    initialise(&c, 3, BYTES(3, 0, 0, 0, 0, 0, 0, 0), 8, 0);
    is_masked(&c, 3, MSI, 0);
    initialise(&c, 3, BYTES(0, 0, 0, 3, 0, 0, 0, 0), 8, 0);
    is_masked(&c, 3, MSI, 0);
    give_back(&c);
}

static void unused_bits(void)
{
    struct lent c = made();
    for (unsigned bit = 2; bit < 64; bit++) {
        uint64_t unused = 1ull << bit;
        initialise(&c, bit, payload(unused), 8, 0);
        is_masked(&c, bit, MSI, 0);
        initialise(&c, bit, payload(unused + ASSERTED), 8, 0);
        is_masked(&c, bit, MSI, 0);
        initialise(&c, bit, payload(unused + LSI), 8, 0);
        is_masked(&c, bit, LSI, 0);
        initialise(&c, bit, payload(unused + LSI + ASSERTED), 8, 0);
        is_masked(&c, bit, LSI, 1);
    }
    initialise(&c, 1, BYTES(0xff, 0xff, 0xff, 0xff, 0xff, 0xff, 0xff, 0xfc), 8, 0);
    is_masked(&c, 1, MSI, 0);
    initialise(&c, 1, BYTES(0xff, 0xff, 0xff, 0xff, 0xff, 0xff, 0xff, 0xfd), 8, 0);
    is_masked(&c, 1, LSI, 0);
    initialise(&c, 1, BYTES(0xff, 0xff, 0xff, 0xff, 0xff, 0xff, 0xff, 0xfe), 8, 0);
    is_masked(&c, 1, MSI, 0);
    initialise(&c, 1, BYTES(0xff, 0xff, 0xff, 0xff, 0xff, 0xff, 0xff, 0xff), 8, 0);
    is_masked(&c, 1, LSI, 1);
    give_back(&c);
}

/* The word of a targeting. */

static void servers(void)
{
    static const uint32_t others[] = {17, 31, 32, 255, 256 + 5, 65536 + 5, (1 << 24) + 5, (1 << 28) + 15,
                                      (1 << 29) - 16, (1 << 29) - 1};
    const uint64_t kept = 0x6000000000000042; /* server 8, priority 2 */
    struct lent c = made();
    initialise(&c, 9, payload(LSI + ASSERTED), 8, 0);
    for (uint64_t server = 0; server < 16; server++)
        for (uint64_t priority = 0; priority < 8; priority++) {
            target(&c, 9, payload(server << 3 | priority), 8, 0);
            is_targeted(&c, 9, LSI, 1, server << 3 | priority);
        }
    target(&c, 9, payload(kept), 8, 0);
    for (uint64_t priority = 0; priority < 8; priority++) {
        target(&c, 9, payload(0x80 | priority), 8, EINVAL);                /* server 16 */
        target(&c, 9, payload(0xfffffffe00000080 | priority), 8, EINVAL);  /* .. with eisn */
        target(&c, 9, payload(1ull << 32 | 0x80 | priority), 8, EINVAL);   /* .. and the mask bit */
        target(&c, 9, payload(0x80000000 | priority), 8, EINVAL);          /* server 2^28 */
        target(&c, 9, payload(0xfffffff8 | priority), 8, EINVAL);          /* server 2^29 - 1 */
    }
    for (unsigned bit = 4; bit < 29; bit++) {
        target(&c, 9, payload((1ull << bit) << 3), 8, EINVAL);
        target(&c, 9, payload(((1ull << bit) + 8) << 3), 8, EINVAL);
    }
    for (size_t i = 0; i < COUNT(others); i++)
        target(&c, 9, payload((uint64_t)others[i] << 3), 8, EINVAL);
    is_targeted(&c, 9, LSI, 1, kept);
    give_back(&c);
}

static void every_bit_comes_back(void)
{
    struct lent c = made();
    initialise(&c, 4, payload(LSI), 8, 0);
    initialise(&c, 5, payload(MSI), 8, 0);
    for (unsigned bit = 0; bit < 64; bit++) {
        uint64_t word = 1ull << bit;
        uint32_t code = bit >= 7 && bit < 32 ? EINVAL : 0;
        target(&c, 4, payload(word), 8, code);
        target(&c, 5, payload(word), 8, code);
        if (code == 0) {
            is_targeted(&c, 4, LSI, 0, word);
            is_targeted(&c, 5, MSI, 0, word);
            target(&c, 4, payload(0xffffffff0000007f - word), 8, 0);
            is_targeted(&c, 4, LSI, 0, 0xffffffff0000007f - word);
        }
    }
    /* eisn all ones; the mask bit; server 15 and priority 7; all of them */
    target(&c, 5, BYTES(0xff, 0xff, 0xff, 0xfe, 0, 0, 0, 0), 8, 0);
    is_targeted(&c, 5, MSI, 0, 0xfffffffe00000000);
    target(&c, 5, BYTES(0, 0, 0, 1, 0, 0, 0, 0), 8, 0);
    is_targeted(&c, 5, MSI, 0, 0x0000000100000000);
    target(&c, 5, BYTES(0, 0, 0, 0, 0, 0, 0, 0x7f), 8, 0);
    is_targeted(&c, 5, MSI, 0, 0x000000000000007f);
    target(&c, 5, BYTES(0xff, 0xff, 0xff, 0xff, 0, 0, 0, 0x7f), 8, 0);
    is_targeted(&c, 5, MSI, 0, 0xffffffff0000007f);
    /* each byte in its place */
    target(&c, 5, BYTES(0x12, 0x34, 0x56, 0x78, 0, 0, 0, 0x2b), 8, 0);
    is_targeted(&c, 5, MSI, 0, 0x123456780000002b);
    target(&c, 5, BYTES(0x2b, 0, 0, 0, 0x78, 0x56, 0x34, 0x12), 8, EINVAL); /* .. little-endian */
    is_targeted(&c, 5, MSI, 0, 0x123456780000002b);
    give_back(&c);
}

/* The kernel's names: server 5, priority 3, effective number 0x93c4d5e. */
static void kernel_names(void)
{
    uint64_t word = (uint64_t)0x093c4d5e << KVM_XIVE_SOURCE_EISN_SHIFT | (uint64_t)5 << KVM_XIVE_SOURCE_SERVER_SHIFT |
                    (uint64_t)3 << KVM_XIVE_SOURCE_PRIORITY_SHIFT;
    struct lent c = made();
    initialise(&c, 1023, payload(MSI), 8, 0);
    target(&c, 1023, payload(word), 8, 0);
    is_targeted(&c, 1023, MSI, 0, 0x12789abc0000002b);
    word |= (uint64_t)1 << KVM_XIVE_SOURCE_MASKED_SHIFT;
    target(&c, 1023, payload(word), 8, 0);
    is_targeted(&c, 1023, MSI, 0, 0x12789abd0000002b);
    word = 0xa5a5a5a5ffffffff;
    if ((word & KVM_XIVE_SOURCE_EISN_MASK) >> KVM_XIVE_SOURCE_EISN_SHIFT != 0x52d2d2d2)
        fail(__LINE__, "eisn", word, 0);
    if ((word & KVM_XIVE_SOURCE_MASKED_MASK) >> KVM_XIVE_SOURCE_MASKED_SHIFT != 1)
        fail(__LINE__, "mask", word, 0);
    if ((word & KVM_XIVE_SOURCE_SERVER_MASK) >> KVM_XIVE_SOURCE_SERVER_SHIFT != 0x1fffffff)
        fail(__LINE__, "server", word, 0);
    if ((word & KVM_XIVE_SOURCE_PRIORITY_MASK) >> KVM_XIVE_SOURCE_PRIORITY_SHIFT != 7)
        fail(__LINE__, "priority", word, 0);
    give_back(&c);
}

/* Word 0 is a targeting like any other: it replaces an earlier one, and the source is not masked. */
static void word_zero(void)
{
    struct lent c = made();
    target(&c, 0, payload(0), 8, EINVAL);
    initialise(&c, 0, payload(LSI), 8, 0);
    is_masked(&c, 0, LSI, 0);
    target(&c, 0, payload(0), 8, 0);
    is_targeted(&c, 0, LSI, 0, 0);
    synced(&c, 0, 0);
    target(&c, 0, payload(0x13), 8, 0);
    is_targeted(&c, 0, LSI, 0, 0x13);
    target(&c, 0, payload(0), 8, 0);
    is_targeted(&c, 0, LSI, 0, 0);
    initialise(&c, 0, payload(LSI), 8, 0);
    is_masked(&c, 0, LSI, 0);
    give_back(&c);
}

/* Initialising again, in each state and from each type to each: the targeting is gone and the source masked. */
static void again(void)
{
    static const uint8_t types[] = {MSI, LSI, MSI, LSI}, levels[] = {0, 0, 0, 1}; /* by the word */
    struct lent c = made();
    for (uint64_t from = 0; from < 4; from++)
        for (uint64_t to = 0; to < 4; to++) {
            initialise(&c, 600, payload(from), 8, 0);
            initialise(&c, 600, payload(to), 8, 0);
            is_masked(&c, 600, types[to], levels[to]);
            initialise(&c, 600, payload(from), 8, 0);
            target(&c, 600, payload(0xfedcba980000005a + from), 8, 0);
            is_targeted(&c, 600, types[from], levels[from], 0xfedcba980000005a + from);
            initialise(&c, 600, payload(to), 8, 0);
            is_masked(&c, 600, types[to], levels[to]);
            synced(&c, 600, 0);
            target(&c, 600, payload(to), 8, 0);
            is_targeted(&c, 600, types[to], levels[to], to);
        }
    give_back(&c);
}

/* Payloads. */

static void lengths(void)
{
    const uint8_t long_one[12] = {0, 0, 0, 2, 0, 0, 0, 1, 0xff, 0xff, 0xff, 0xff};
    struct lent c = made();
    initialise(&c, 8, NULL, 0, EFAULT);
    for (size_t size = 0; size < 8; size++)
        initialise(&c, 8, long_one, size, EFAULT);
    no_reading(&c, 8, EINVAL);
    for (size_t size = 8; size <= 12; size++) {
        initialise(&c, size, long_one, size, 0);
        is_masked(&c, size, LSI, 0);
    }
    target(&c, 8, NULL, 0, EFAULT);
    for (size_t size = 0; size < 8; size++)
        target(&c, 8, long_one, size, EFAULT);
    is_masked(&c, 8, LSI, 0);
    for (size_t size = 8; size <= 12; size++) {
        target(&c, size, long_one, size, 0);
        is_targeted(&c, size, LSI, 0, 0x0000000200000001);
    }
    target(&c, 8, NULL, 0, EFAULT);
    initialise(&c, 8, NULL, 0, EFAULT);
    for (size_t size = 0; size < 8; size++) {
        target(&c, 8, long_one, size, EFAULT);
        initialise(&c, 8, long_one, size, EFAULT);
    }
    is_targeted(&c, 8, LSI, 0, 0x0000000200000001);
    give_back(&c);
}

/* The junk after the word would make it another: none of it is read, also where it cannot be, whatever the length. */
static void only_the_word_is_read(void)
{
    static const size_t lengths[] = {9, 16, 4096, 1ull << 32, (1ull << 32) + 7, PTRDIFF_MAX};
    const uint8_t junk[9] = {0, 0, 0, 0, 0, 0, 0, 0x7f, 0xff};
    struct lent c = made();
    initialise(&c, 70, BYTES(0, 0, 0, 0, 0, 0, 0, 0, 3), 9, 0);
    is_masked(&c, 70, MSI, 0);
    target(&c, 70, junk, 9, 0);
    is_targeted(&c, 70, MSI, 0, 0x7f);
    for (size_t i = 0; i < COUNT(lengths); i++) {
        struct call call = {.kind = INITIALISE, .number = i, .bytes = payload(LSI), .length = 8, .claimed = lengths[i]};
        expect(__LINE__, &c, call, (struct xive_reading){.code = 0});
        is_masked(&c, i, LSI, 0);
        call.kind = TARGET;
        expect(__LINE__, &c, call, (struct xive_reading){.code = 0});
        is_targeted(&c, i, LSI, 0, 1);
        call.number = 1024;
        expect(__LINE__, &c, call, (struct xive_reading){.code = ENOENT});
        call.kind = INITIALISE;
        expect(__LINE__, &c, call, (struct xive_reading){.code = E2BIG});
    }
    give_back(&c);
}

/* Refusals. */

/* Where two faults stand together the first decides: payload, source number, not initialised, server. */
static void order_of_refusals(void)
{
    struct lent c = made();
    initialise(&c, 5, payload(LSI), 8, 0);
    for (size_t i = 0; i < COUNT(too_large); i++) {
        initialise(&c, too_large[i], payload(0), 7, EFAULT);
        initialise(&c, too_large[i], NULL, 0, EFAULT);
        target(&c, too_large[i], payload(0), 7, EFAULT);
        target(&c, too_large[i], NULL, 0, EFAULT);
        target(&c, too_large[i], payload(0x80), 8, ENOENT); /* server 16 */
        target(&c, too_large[i], payload(0xfffffff8), 8, ENOENT);
        target(&c, too_large[i], payload(0xfffffff8), 7, EFAULT);
    }
    target(&c, 6, payload(0), 7, EFAULT); /* not initialised */
    target(&c, 6, NULL, 0, EFAULT);
    target(&c, 6, payload(0x80), 8, EINVAL);
    target(&c, 6, payload(0x80), 7, EFAULT);
    target(&c, 5, BYTES(0, 0, 0, 0, 0xff, 0xff, 0xff), 7, EFAULT); /* a server that is too large in what is there */
    no_reading(&c, 6, EINVAL);
    is_masked(&c, 5, LSI, 0);
    give_back(&c);
}

static void refusals_keep_the_targeting(void)
{
    struct lent c = made();
    initialise(&c, 1023, payload(LSI + ASSERTED), 8, 0);
    target(&c, 1023, payload(0x0000246900000079), 8, 0); /* server 15, priority 1, the mask bit */
    target(&c, 1023, payload(0x80), 8, EINVAL);
    is_targeted(&c, 1023, LSI, 1, 0x0000246900000079);
    target(&c, 1023, payload(0), 7, EFAULT);
    is_targeted(&c, 1023, LSI, 1, 0x0000246900000079);
    initialise(&c, 1023, payload(0), 7, EFAULT);
    is_targeted(&c, 1023, LSI, 1, 0x0000246900000079);
    initialise(&c, 1024, payload(0), 8, E2BIG);
    target(&c, 1024, payload(0), 8, ENOENT);
    is_targeted(&c, 1023, LSI, 1, 0x0000246900000079);
    /* masked, and refused: it stays masked */
    initialise(&c, 1022, payload(MSI), 8, 0);
    target(&c, 1022, payload(0x80), 8, EINVAL);
    target(&c, 1022, payload(0xfffffffe80000000), 8, EINVAL);
    is_masked(&c, 1022, MSI, 0);
    give_back(&c);
}

/* Many sources. */

/* What source n is given here: type, level and unused bits; then server, priority, mask bit and an eisn of its own. */
static uint64_t first_word(uint64_t n)
{
    return n % 4 + (n % 3 << 40);
}

static uint64_t second_word(uint64_t n)
{
    return n % 128 + (n % 5 / 4 << 32) + ((n * 2097151 & 0x7fffffff) << 33);
}

static void all_sources(void)
{
    struct lent c = made();
    for (uint64_t n = 0; n < XIVE_SOURCES; n++)
        initialise(&c, n, payload(first_word(n)), 8, 0);
    for (uint64_t n = 0; n < XIVE_SOURCES; n += 2)
        target(&c, n, payload(second_word(n)), 8, 0);
    for (uint64_t n = 0; n < XIVE_SOURCES; n++)
        synced(&c, n, 0);
    for (uint64_t n = 0; n < XIVE_SOURCES; n++) {
        uint8_t type = n % 2, level = n % 4 == 3;
        if (n % 2 == 0)
            is_targeted(&c, n, type, level, second_word(n));
        else
            is_masked(&c, n, type, level);
    }
    /* the others get a targeting, these lose theirs */
    for (uint64_t n = 0; n < XIVE_SOURCES; n++)
        if (n % 2 == 0)
            initialise(&c, n, payload(LSI), 8, 0);
        else
            target(&c, n, payload(second_word(n)), 8, 0);
    for (uint64_t n = 0; n < XIVE_SOURCES; n++)
        if (n % 2 == 0)
            is_masked(&c, n, LSI, 0);
        else
            is_targeted(&c, n, LSI, n % 4 == 3, second_word(n));
    give_back(&c);
}

/* Two controllers do not know of each other; two sources may have the same targeting. */
static void apart(void)
{
    struct lent a = made(), b = made();
    initialise(&a, 40, payload(LSI), 8, 0);
    no_reading(&b, 40, EINVAL);
    initialise(&b, 40, payload(MSI), 8, 0);
    target(&b, 40, payload(0x2a), 8, 0);
    is_masked(&a, 40, LSI, 0);
    initialise(&b, 41, payload(LSI), 8, 0);
    target(&b, 41, payload(0x2a), 8, 0);
    is_targeted(&b, 40, MSI, 0, 0x2a);
    is_targeted(&b, 41, LSI, 0, 0x2a);
    make(&b);
    is_masked(&a, 40, LSI, 0);
    expect_fresh(__LINE__, &b);
    give_back(&a);
    give_back(&b);
}

/* Memory that no call has left. */

/* A reading that some controller gives. */
static struct xive_reading reading_of(struct lent *c, uint64_t n)
{
    struct call call = {.kind = READ, .number = n};
    struct xive_reading r = run(__LINE__, c, &call, false);
    if (r.code != 0 && r.code != EINVAL)
        fail(__LINE__, "code", r.code, EINVAL);
    if (r.code != 0)
        r = (struct xive_reading){.code = EINVAL};
    if (r.type > 1)
        fail(__LINE__, "type", r.type, 1);
    if (r.level > r.type)
        fail(__LINE__, r.type == MSI ? "level of an MSI" : "level", r.level, r.type);
    if (r.masked && r.word != 0)
        fail(__LINE__, "word of a masked source", r.word, 0);
    if (r.word >> 7 & 0x1ffffff)
        fail(__LINE__, "server that was accepted", r.word >> 3 & 0x1fffffff, 15);
    expect(__LINE__, c, call, r);
    return r;
}

/* Each call on source n, which reads so. */
static void calls_on(struct lent *c, uint64_t n, struct xive_reading r)
{
    const struct call reading = {.kind = READ, .number = n};
    expect(__LINE__, c, reading, r);
    synced(c, n, r.code);
    initialise(c, n, payload(LSI), 7, EFAULT);
    target(c, n, payload(0), 7, EFAULT);
    target(c, n, payload(0xfffffff8), 8, EINVAL);
    target(c, n, payload(0x80), 8, EINVAL);
    expect(__LINE__, c, reading, r);
    target(c, n, payload(second_word(n)), 8, r.code);
    if (r.code == 0)
        is_targeted(c, n, r.type, r.level, second_word(n));
    initialise(c, n, payload(first_word(n)), 8, 0);
    is_masked(c, n, n % 2, n % 4 == 3);
    target(c, n, payload(~second_word(n) & 0xffffffff0000007f), 8, 0);
    is_targeted(c, n, n % 2, n % 4 == 3, ~second_word(n) & 0xffffffff0000007f);
}

/* Any contents are those of some controller: one with the same sources is built by calls, and answers alike. */
static void built_again(struct lent *c, uint64_t step)
{
    struct lent other = made();
    for (size_t i = 0; i < COUNT(too_large); i++) {
        initialise(c, too_large[i], payload(LSI), 8, E2BIG);
        target(c, too_large[i], payload(0), 8, ENOENT);
        synced(c, too_large[i], ENOENT);
        no_reading(c, too_large[i], ENOENT);
    }
    for (uint64_t n = 0; n < XIVE_SOURCES; n += step) {
        struct xive_reading r = reading_of(c, n);
        if (r.code == 0)
            initialise(&other, n, payload(r.type + 2 * r.level), 8, 0);
        if (r.code == 0 && !r.masked)
            target(&other, n, payload(r.word), 8, 0);
        calls_on(c, n, r);
        calls_on(&other, n, r);
    }
    make(c);
    expect_fresh(__LINE__, c);
    give_back(&other);
}

static void store(struct lent *c, uint64_t n, uint64_t stored)
{
    memcpy(c->at + n * sizeof stored, &stored, sizeof stored);
}

static void any_contents(uint64_t step)
{
    struct lent c = filled(0xff);
    subject = "all ones";
    built_again(&c, step);
    subject = "random bytes";
    random_bytes(&c);
    built_again(&c, step);
    subject = "one bit and all but one";
    for (unsigned n = 0; n < 128; n++)
        store(&c, n, n < 64 ? 1ull << n : ~(1ull << (n - 64)));
    built_again(&c, step);
    subject = "two bits";
    uint64_t n = 0;
    for (unsigned high = 1; high < 46; high++)
        for (unsigned low = 0; low < high && n < XIVE_SOURCES; low++)
            store(&c, n++, 1ull << high | 1ull << low);
    built_again(&c, step);
    subject = NULL;
    give_back(&c);
}

int main(int argc, char **argv)
{
    uint64_t step = argc > 1 ? strtoull(argv[1], NULL, 10) : 1;
    begin_test("xive", tell);
    for (int n = 0; n < PLACEMENTS; n++) {
        placement = (enum placement)n;
        fresh();
        numbers();
        types_and_levels();
        unused_bits();
        servers();
        every_bit_comes_back();
        kernel_names();
        word_zero();
        again();
        lengths();
        only_the_word_is_read();
        order_of_refusals();
        refusals_keep_the_targeting();
        all_sources();
        apart();
        any_contents(step);
    }
    return 0;
}
