/*
 * The floating interrupt controller of one s390 guest: floating interrupts, I/O adapters and
 * adapter-interruption suppression (AIS), as in Linux's KVM FLIC device. Link libflic.a (x86-64),
 * which needs memset of the C library and nothing else. What each request means is in paper 01; this
 * file says how it is called. C11 or C++11.
 *
 * Memory
 *   All memory is the caller's: the library has none of its own, allocates nothing and keeps no
 *   pointer after a call returns. A controller is three pieces that belong together: a struct
 *   flic_controller, a struct flic_device and a table of FLIC_PLACES struct flic_place. They hold no
 *   pointers. Between calls they stay as the last call left them: only the calls below write them.
 *   The first call is flic_make. Memory of zeros is no fresh controller: a call on one that was not
 *   made may be accepted and lose records.
 *   Before flic_make the three pieces hold any values of their types, a bool 0 or 1: zeros do.
 *   Never load the three pieces from a file or the network, and never write their fields: on values
 *   that no call has left, a call may answer anything or access other memory. To store or send a
 *   controller write its move list, and play that: flic_play_list accepts or refuses any bytes.
 *
 * Arguments
 *   A table or a buffer is a pointer, then its length: of a table in places, of a buffer in bytes.
 *   That length is what is lent; the claimed length of a request is its attribute. The pointer of a
 *   table or a buffer may be null where its length is 0, as for a payload that is not used; no other
 *   pointer is null. What one call is lent does not overlap.
 *   A length is true: so many places or bytes are there. A buffer that is written is set before, to any
 *   bytes: bytes that a call does not write stay as they were. Of a table that has not FLIC_PLACES
 *   places no byte is read or written, whatever it holds.
 *   All numbers in payloads, records and lists are big-endian, without padding or alignment.
 *
 * Threads
 *   No locks: one call at a time for one controller, and nobody else writes what it is lent until it
 *   returns. Different controllers do not know of each other. No call waits.
 *
 * Answers
 *   code is 0 (accepted) or a number of <errno.h>, positive: EINVAL 22, EOPNOTSUPP 95, EFAULT 14,
 *   ENOMEM 12, EBUSY 16, E2BIG 7. count is the number of records, requests or bytes named at each call
 *   or group, and 0 in a refusal, but for a list that is refused part-way (flic_play_list).
 *   A refusal leaves the controller, its device record, every lent table and every buffer as they
 *   were, but for that one case. A table that has not FLIC_PLACES places is EFAULT at each call that is
 *   lent one, whatever else is wrong with the call, and nothing changes.
 */
#ifndef FLIC_H
#define FLIC_H

#include <errno.h>
#include <stdbool.h>
#include <stddef.h>
#include <stdint.h>

/* Groups, as in kvm.h of s390. Set, unless marked. In brackets the attribute, the payload, the count. */
#ifndef KVM_DEV_FLIC_GET_ALL_IRQS
#define KVM_DEV_FLIC_GET_ALL_IRQS 1 /* get [claimed length; listing out; records written] */
#endif
#ifndef KVM_DEV_FLIC_ENQUEUE
#define KVM_DEV_FLIC_ENQUEUE 2 /* [claimed length; records; records given] */
#endif
#ifndef KVM_DEV_FLIC_CLEAR_IRQS
#define KVM_DEV_FLIC_CLEAR_IRQS 3 /* [0; unused; records removed] */
#endif
#ifndef KVM_DEV_FLIC_APF_ENABLE
#define KVM_DEV_FLIC_APF_ENABLE 4 /* [0; unused; 0] */
#endif
#ifndef KVM_DEV_FLIC_APF_DISABLE_WAIT
#define KVM_DEV_FLIC_APF_DISABLE_WAIT 5 /* [0; unused; 0] */
#endif
#ifndef KVM_DEV_FLIC_ADAPTER_REGISTER
#define KVM_DEV_FLIC_ADAPTER_REGISTER 6 /* [0; 8 bytes: id (4), isc, maskable, swap, flags; 0] */
#endif
#ifndef KVM_DEV_FLIC_ADAPTER_MODIFY
#define KVM_DEV_FLIC_ADAPTER_MODIFY 7 /* [0; 16 bytes: id (4), type, mask, 10 unread; 0] */
#endif
#ifndef KVM_DEV_FLIC_CLEAR_IO_IRQ
#define KVM_DEV_FLIC_CLEAR_IO_IRQ 8 /* [claimed length; 4 bytes: subchannel id, number; removed] */
#endif
#ifndef KVM_DEV_FLIC_AISM
#define KVM_DEV_FLIC_AISM 9 /* [0; 4 bytes: isc, 1 unread, mode (2); 0] */
#endif
#ifndef KVM_DEV_FLIC_AIRQ_INJECT
#define KVM_DEV_FLIC_AIRQ_INJECT 10 /* [adapter id; unused; 0 or 1 injected] */
#endif
#ifndef KVM_DEV_FLIC_AISM_ALL
#define KVM_DEV_FLIC_AISM_ALL 11 /* set and get [0; 2 bytes: simm, nimm; 0] */
#endif

/* Types of pending records, as in kvm.h. I/O is every type from the first of these to the second. */
#ifndef KVM_S390_INT_IO_MIN
#define KVM_S390_INT_IO_MIN 0x00000000u
#endif
#ifndef KVM_S390_INT_IO_MAX
#define KVM_S390_INT_IO_MAX 0xfffdffffu
#endif
#ifndef KVM_S390_INT_PFAULT_DONE
#define KVM_S390_INT_PFAULT_DONE 0xfffe0005u
#endif
#ifndef KVM_S390_MCHK
#define KVM_S390_MCHK 0xfffe1000u
#endif
#ifndef KVM_S390_INT_SERVICE
#define KVM_S390_INT_SERVICE 0xffff2401u
#endif

#define FLIC_PLACES 64             /* adapter places, ids 0 to 63 */
#define FLIC_ROOM 256              /* records in the eight I/O queues and the page-fault queue together */
#define FLIC_RECORD 72             /* bytes of a pending record: type (8), then 64 */
#define FLIC_LONGEST_ENQUEUE 18576 /* bytes: 258 records; every listing fits so many, too */
#define FLIC_LONGEST_LIST 23278    /* bytes of the longest move list that is written */
#define FLIC_MOST_REQUESTS 131     /* requests of a move list that is played */
#define FLIC_LIST_HEADER 20        /* bytes of a move list's header */
#define FLIC_LIST_ENTRY 24         /* bytes of an entry of its table */

#ifdef __cplusplus
#define FLIC_ASSERT(what) static_assert(what, #what)
extern "C" {
#else
#define FLIC_ASSERT(what) _Static_assert(what, #what)
#endif

#ifdef __GNUC__
#define FLIC_NONNULL(...) __attribute__((nonnull(__VA_ARGS__))) /* parameters, from 1 */
#else
#define FLIC_NONNULL(...)
#endif

/* A code, 0 if accepted, and a count. */
struct flic_answer {
    uint32_t code;
    uint64_t count;
};

/* The masks (subclass n is the bit 0x80 >> n) and the page-fault flag. May be read between calls. */
struct flic_device {
    uint8_t simm;
    uint8_t nimm;
    bool apf;
};

/* An adapter place. Where it is not used the other fields are 0 and false. May be read between calls. */
struct flic_place {
    bool used;
    uint8_t isc;
    bool maskable;
    bool swap;
    bool suppressible;
    bool masked;
};

/*
 * The pending records and the AIS capability. Declared for its size: read it by the calls alone.
 * There are nine queues, of subclasses 0 to 7 and of finished page faults, and a mask of the
 * subclasses that have records: subclass n is the bit 0x80 >> n.
 */
struct flic_controller {
    uint8_t slots[FLIC_ROOM * FLIC_RECORD]; /* records; a free slot keeps what it held last */
    uint8_t order[FLIC_ROOM * 10];          /* slot numbers: a row for each queue, then of free slots */
    size_t counts[11];                      /* records of each queue, and of all; then the mask */
    uint8_t singles[2 * FLIC_RECORD + 2];   /* service, machine check, then whether each is there */
    bool ais;
};

FLIC_ASSERT(sizeof(bool) == 1);
FLIC_ASSERT(sizeof(size_t) == 8);
FLIC_ASSERT(sizeof(struct flic_answer) == 16);
FLIC_ASSERT(offsetof(struct flic_answer, code) == 0);
FLIC_ASSERT(offsetof(struct flic_answer, count) == 8);
FLIC_ASSERT(sizeof(struct flic_device) == 3);
FLIC_ASSERT(offsetof(struct flic_device, simm) == 0);
FLIC_ASSERT(offsetof(struct flic_device, nimm) == 1);
FLIC_ASSERT(offsetof(struct flic_device, apf) == 2);
FLIC_ASSERT(sizeof(struct flic_place) == 6);
FLIC_ASSERT(offsetof(struct flic_place, used) == 0);
FLIC_ASSERT(offsetof(struct flic_place, isc) == 1);
FLIC_ASSERT(offsetof(struct flic_place, maskable) == 2);
FLIC_ASSERT(offsetof(struct flic_place, swap) == 3);
FLIC_ASSERT(offsetof(struct flic_place, suppressible) == 4);
FLIC_ASSERT(offsetof(struct flic_place, masked) == 5);
FLIC_ASSERT(sizeof(struct flic_controller) == 21232);
FLIC_ASSERT(offsetof(struct flic_controller, slots) == 0);
FLIC_ASSERT(offsetof(struct flic_controller, order) == 18432);
FLIC_ASSERT(offsetof(struct flic_controller, counts) == 20992);
FLIC_ASSERT(offsetof(struct flic_controller, singles) == 21080);
FLIC_ASSERT(offsetof(struct flic_controller, ais) == 21226);
FLIC_ASSERT(FLIC_LONGEST_ENQUEUE == 258 * FLIC_RECORD);
FLIC_ASSERT(KVM_DEV_FLIC_GET_ALL_IRQS == 1 && KVM_DEV_FLIC_ENQUEUE == 2);
FLIC_ASSERT(KVM_DEV_FLIC_CLEAR_IRQS == 3 && KVM_DEV_FLIC_APF_ENABLE == 4);
FLIC_ASSERT(KVM_DEV_FLIC_APF_DISABLE_WAIT == 5 && KVM_DEV_FLIC_ADAPTER_REGISTER == 6);
FLIC_ASSERT(KVM_DEV_FLIC_ADAPTER_MODIFY == 7 && KVM_DEV_FLIC_CLEAR_IO_IRQ == 8);
FLIC_ASSERT(KVM_DEV_FLIC_AISM == 9 && KVM_DEV_FLIC_AIRQ_INJECT == 10 && KVM_DEV_FLIC_AISM_ALL == 11);
FLIC_ASSERT(EINVAL == 22 && EOPNOTSUPP == 95 && EFAULT == 14);
FLIC_ASSERT(ENOMEM == 12 && EBUSY == 16 && E2BIG == 7);

/*
 * Makes a fresh controller, with or without the AIS capability, which is fixed from then on: nothing
 * registered or pending, masks 0, flag off. Whatever the three pieces held before is lost.
 * Code 0, count 0; or EFAULT (table).
 */
FLIC_NONNULL(1, 2)
struct flic_answer flic_make(struct flic_controller *controller, struct flic_device *device,
                             struct flic_place *table, size_t places, bool ais);

/*
 * A request that sets. The payload is read and never written; of it no more is read than the
 * structure or, for ENQUEUE, the claimed length. Groups 3, 4, 5 and 10 read none of it.
 * All of an ENQUEUE is added, or nothing.
 * EINVAL: group unknown or only a get, attribute, claimed length or contents. EOPNOTSUPP: group 9 or
 * 11 without the AIS capability. EFAULT: table, or payload too short. EBUSY: more than FLIC_ROOM.
 */
FLIC_NONNULL(1, 2)
struct flic_answer flic_set(struct flic_controller *controller, struct flic_device *device,
                            struct flic_place *table, size_t places, uint32_t group,
                            uint64_t attribute, const uint8_t *payload, size_t length);

/*
 * A request that gets; it changes no state. GET_ALL_IRQS writes the records pending, which stay
 * pending, to the buffer's start: FLIC_LONGEST_ENQUEUE bytes always hold them. AISM_ALL writes 2 bytes.
 * Bytes after those written stay.
 * EINVAL: group unknown or only a set, attribute. EOPNOTSUPP: group 11 without the AIS capability.
 * EFAULT: table, or buffer shorter than the claimed length or 2 bytes. ENOMEM: listing longer than the
 * claimed length.
 */
FLIC_NONNULL(1, 2)
struct flic_answer flic_get(const struct flic_controller *controller,
                            const struct flic_device *device, const struct flic_place *table,
                            size_t places, uint32_t group, uint64_t attribute, uint8_t *buffer,
                            size_t length);

/*
 * The guest takes an interrupt: the first allowed of machine check, service, oldest page fault done,
 * I/O by subclass 0 to 7, oldest first. It is removed and its FLIC_RECORD bytes are written to the
 * buffer's start. subclasses has a bit for each that is allowed, 0x80 for subclass 0; external allows
 * service and page fault done.
 * Count 1; or 0 where nothing allowed is pending, with the buffer as it was. EFAULT: buffer below
 * FLIC_RECORD bytes, also where there is nothing to take.
 */
FLIC_NONNULL(1)
struct flic_answer flic_take(struct flic_controller *controller, uint8_t subclasses, bool external,
                             bool machine_check, uint8_t *buffer, size_t length);

/*
 * Writes the controller's move list to the buffer's start; it changes no state. Count: bytes of the
 * list, at most FLIC_LONGEST_LIST; bytes after them stay.
 * EFAULT: table. ENOMEM: buffer shorter than the list, and nothing is written.
 */
FLIC_NONNULL(1, 2)
struct flic_answer flic_write_list(const struct flic_controller *controller,
                                   const struct flic_device *device,
                                   const struct flic_place *table, size_t places, uint8_t *buffer,
                                   size_t length);

/*
 * Plays a move list of exactly so many bytes on a controller that was made with the capability that the
 * list names: it is made fresh, whatever it held, and the list's requests are applied. The list is
 * read and never written. Count: requests applied.
 * Refused by its form, nothing changes and the count is 0. EFAULT: table, or list below
 * FLIC_LIST_HEADER bytes. EINVAL: form. E2BIG: more than FLIC_MOST_REQUESTS. EOPNOTSUPP: capability.
 * Refused part-way, the controller is fresh, the code is that of the refused request (those of
 * flic_set) and the count its place from 0. At place 0 the answer alone does not tell the two apart.
 */
FLIC_NONNULL(1, 2)
struct flic_answer flic_play_list(struct flic_controller *controller, struct flic_device *device,
                                  struct flic_place *table, size_t places, const uint8_t *list,
                                  size_t length);

#ifdef __cplusplus
}
#endif

#undef FLIC_ASSERT
#undef FLIC_NONNULL

#endif
