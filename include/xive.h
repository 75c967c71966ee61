/*
 * The interrupt sources of one POWER9 guest: which there are, and where the interrupts of each one go,
 * after the document of Linux's KVM XIVE device. Link libxive.a (x86-64), which needs memset of the C
 * library and nothing else. C11 or C++11. Goes together with flic.h and libflic.a, included and linked
 * in either order.
 *
 * Sources
 *   A source has a number, 0 to 1,023. It is initialised as an MSI (message-signalled) or an LSI
 *   (level-sensitive) and is masked from then on until it is targeted. A targeting is one word: the
 *   server (processor) 0 to 15 and the priority 0 to 7 that the interrupts go to, and the effective
 *   number (EISN) that the guest gets. Targeting again replaces the word. Initialising again, as the
 *   same type or the other, is never refused for that: it drops the targeting and masks the source.
 *   All this is kept and read back. No interrupt is delivered, triggered or held back here.
 *
 * Memory
 *   All memory is the caller's: the library has none of its own, allocates nothing and keeps no
 *   pointer after a call returns. A controller is one struct xive_sources, which holds no pointers.
 *   Zeros are a fresh controller, and so is what xive_make leaves. Any other contents are those of some
 *   controller, too: no call on them goes wrong, whoever wrote them.
 *   But what the stored numbers mean may change with a version of the library: they are no format for
 *   a file or the network. To move a controller read each source; on a fresh one initialise each that
 *   was there with the word type + 2 * level, and target it with its word if it was not masked, each
 *   word as 8 big-endian bytes.
 *
 * Arguments
 *   A payload is a pointer, then its length in bytes. The pointer may be null where the length is 0; no
 *   other pointer is null. The length is true: so many bytes are there. They need no alignment and do
 *   not overlap the sources. The first XIVE_WORD bytes are read, no other, and none is written.
 *   These bytes are one word of 64 bits, big-endian: the most significant byte is first. In Linux it is
 *   a __u64 in the machine's own order, so a monitor on x86-64 puts its bytes in the reverse order.
 *   Source numbers, and the word of a reading, are plain numbers in the machine's own order.
 *
 * Threads
 *   No locks: one call at a time for one controller, and nobody else writes what it is lent until it
 *   returns. Different controllers do not know of each other. No call waits.
 *
 * Answers
 *   code is 0 (accepted) or a number of <errno.h>, positive. The first of these that is so decides:
 *     EFAULT 14   payload below XIVE_WORD bytes (xive_initialise, xive_target)
 *     E2BIG   7   source number above 1,023, by all its 64 bits (xive_initialise)
 *     ENOENT  2   the same (xive_target, xive_sync, xive_read)
 *     EINVAL 22   source not initialised (xive_target, xive_sync, xive_read)
 *     EINVAL 22   server above 15, by all its 29 bits (xive_target)
 *   count is 0 in every answer. A refusal leaves every byte of the sources as it was.
 */
#ifndef XIVE_H
#define XIVE_H

#include <errno.h>
#include <stdbool.h>
#include <stddef.h>
#include <stdint.h>

/*
 * The word of xive_initialise, as in kvm.h of powerpc:
 *
 *   bits:     | 63   ....  2 |   1   |   0
 *   values:   |    unused    | level | type
 *
 * type: 0 MSI, 1 LSI. level: whether an LSI is asserted. It is kept for an LSI; an MSI has level 0,
 * whatever its word says. Unused bits are ignored.
 */
#ifndef KVM_XIVE_LEVEL_SENSITIVE
#define KVM_XIVE_LEVEL_SENSITIVE (1ULL << 0) /* type */
#endif
#ifndef KVM_XIVE_LEVEL_ASSERTED
#define KVM_XIVE_LEVEL_ASSERTED (1ULL << 1) /* level */
#endif

/*
 * The word of xive_target and of a reading, as in kvm.h of powerpc. A value is (word & MASK) >> SHIFT.
 *
 *   bits:     | 63   ....  33 |  32  | 31 .. 3 |  2 .. 0
 *   values:   |    eisn       | mask |  server | priority
 *
 * mask has no effect: it is stored and read back, and a source that is targeted with it is not masked.
 */
#ifndef KVM_XIVE_SOURCE_PRIORITY_SHIFT
#define KVM_XIVE_SOURCE_PRIORITY_SHIFT 0
#endif
#ifndef KVM_XIVE_SOURCE_PRIORITY_MASK
#define KVM_XIVE_SOURCE_PRIORITY_MASK 0x7
#endif
#ifndef KVM_XIVE_SOURCE_SERVER_SHIFT
#define KVM_XIVE_SOURCE_SERVER_SHIFT 3
#endif
#ifndef KVM_XIVE_SOURCE_SERVER_MASK
#define KVM_XIVE_SOURCE_SERVER_MASK 0xfffffff8ULL
#endif
#ifndef KVM_XIVE_SOURCE_MASKED_SHIFT
#define KVM_XIVE_SOURCE_MASKED_SHIFT 32
#endif
#ifndef KVM_XIVE_SOURCE_MASKED_MASK
#define KVM_XIVE_SOURCE_MASKED_MASK 0x100000000ULL
#endif
#ifndef KVM_XIVE_SOURCE_EISN_SHIFT
#define KVM_XIVE_SOURCE_EISN_SHIFT 33
#endif
#ifndef KVM_XIVE_SOURCE_EISN_MASK
#define KVM_XIVE_SOURCE_EISN_MASK 0xfffffffe00000000ULL
#endif

#define XIVE_SOURCES 1024 /* sources, numbers 0 to 1,023 */
#define XIVE_SERVERS 16   /* servers that a source can be targeted at, 0 to 15 */
#define XIVE_WORD 8       /* bytes of a payload that are read */

#ifdef __cplusplus
#define XIVE_ASSERT(what) static_assert(what, #what)
extern "C" {
#else
#define XIVE_ASSERT(what) _Static_assert(what, #what)
#endif

#ifdef __GNUC__
#define XIVE_NONNULL(...) __attribute__((nonnull(__VA_ARGS__))) /* parameters, from 1 */
#else
#define XIVE_NONNULL(...)
#endif

/* A code, 0 if accepted, and a count, which is 0. */
struct xive_answer {
    uint32_t code;
    uint64_t count;
};

/* One source; or the code of a refusal, and then all else is 0 and false. */
struct xive_reading {
    uint32_t code;
    uint8_t level;  /* 0 or 1; 0 for an MSI */
    uint8_t type;   /* 0 MSI, 1 LSI */
    bool masked;    /* not targeted since it was initialised */
    uint64_t count; /* 0 */
    uint64_t word;  /* of its targeting, which may be 0; 0 where it is masked */
};

/* All sources, a stored number for each. Declared for its size: read and write it by the calls alone. */
struct xive_sources {
    uint64_t stored[XIVE_SOURCES];
};

XIVE_ASSERT(sizeof(bool) == 1);
XIVE_ASSERT(sizeof(size_t) == 8);
XIVE_ASSERT(sizeof(struct xive_answer) == 16);
XIVE_ASSERT(offsetof(struct xive_answer, code) == 0);
XIVE_ASSERT(offsetof(struct xive_answer, count) == 8);
XIVE_ASSERT(sizeof(struct xive_reading) == 24);
XIVE_ASSERT(offsetof(struct xive_reading, code) == 0);
XIVE_ASSERT(offsetof(struct xive_reading, level) == 4);
XIVE_ASSERT(offsetof(struct xive_reading, type) == 5);
XIVE_ASSERT(offsetof(struct xive_reading, masked) == 6);
XIVE_ASSERT(offsetof(struct xive_reading, count) == 8);
XIVE_ASSERT(offsetof(struct xive_reading, word) == 16);
XIVE_ASSERT(sizeof(struct xive_sources) == 8192);
XIVE_ASSERT(offsetof(struct xive_sources, stored) == 0);
XIVE_ASSERT(XIVE_SOURCES == 1024 && XIVE_SERVERS == 16 && XIVE_WORD == 8);
XIVE_ASSERT(KVM_XIVE_LEVEL_SENSITIVE == 1 && KVM_XIVE_LEVEL_ASSERTED == 2);
XIVE_ASSERT(KVM_XIVE_SOURCE_PRIORITY_SHIFT == 0 && KVM_XIVE_SOURCE_PRIORITY_MASK == 7);
XIVE_ASSERT(KVM_XIVE_SOURCE_SERVER_SHIFT == 3 && KVM_XIVE_SOURCE_SERVER_MASK == 0xfffffff8);
XIVE_ASSERT(KVM_XIVE_SOURCE_MASKED_SHIFT == 32 && KVM_XIVE_SOURCE_MASKED_MASK == 0x100000000);
XIVE_ASSERT(KVM_XIVE_SOURCE_EISN_SHIFT == 33);
XIVE_ASSERT(KVM_XIVE_SOURCE_EISN_MASK == 0xfffffffe00000000);
XIVE_ASSERT(EFAULT == 14 && E2BIG == 7 && ENOENT == 2 && EINVAL == 22);

/* Makes a fresh controller: no source is initialised. Whatever it held before is lost. */
XIVE_NONNULL(1)
void xive_make(struct xive_sources *sources);

/*
 * Initialises a source, or initialises it again: it has the type and level of the payload's word and no
 * targeting, and is masked. In Linux this is group KVM_DEV_XIVE_GRP_SOURCE, 2.
 * EFAULT: payload. E2BIG: source number.
 */
XIVE_NONNULL(1)
struct xive_answer xive_initialise(struct xive_sources *sources, uint64_t number,
                                   const uint8_t *payload, size_t length);

/*
 * Targets a source, or targets it again: the payload's word is kept whole, and the source is not masked.
 * Word 0 is a targeting like any other: server 0, priority 0, effective number 0. Type and level stay.
 * Where it is refused an earlier targeting stays. In Linux this is group
 * KVM_DEV_XIVE_GRP_SOURCE_CONFIG, 3.
 * EFAULT: payload. ENOENT: source number. EINVAL: not initialised, or server.
 */
XIVE_NONNULL(1)
struct xive_answer xive_target(struct xive_sources *sources, uint64_t number,
                               const uint8_t *payload, size_t length);

/*
 * Syncs a source. It changes nothing: no event is under way here that it could wait for. In Linux this
 * is group KVM_DEV_XIVE_GRP_SOURCE_SYNC, 5.
 * ENOENT: source number. EINVAL: not initialised.
 */
XIVE_NONNULL(1)
struct xive_answer xive_sync(const struct xive_sources *sources, uint64_t number);

/*
 * Reads a source; it changes nothing. A targeting with word 0 and none at all differ in masked alone.
 * ENOENT: source number. EINVAL: not initialised.
 */
XIVE_NONNULL(1)
struct xive_reading xive_read(const struct xive_sources *sources, uint64_t number);

#ifdef __cplusplus
}
#endif

#undef XIVE_ASSERT
#undef XIVE_NONNULL

#endif
