/*
 * The public calls from C: paper 01's examples, its boundaries, lists written, played and refused, and moves between two
 * controllers. Every buffer is lent at its exact size. usage: calls [MOVES]
 */
#include "support.h"

#include <stdio.h>
#include <stdlib.h>
#include <string.h>

#define GET_ALL KVM_DEV_FLIC_GET_ALL_IRQS
#define ENQUEUE KVM_DEV_FLIC_ENQUEUE
#define CLEAR KVM_DEV_FLIC_CLEAR_IRQS
#define APF_ON KVM_DEV_FLIC_APF_ENABLE
#define APF_OFF KVM_DEV_FLIC_APF_DISABLE_WAIT
#define REGISTER KVM_DEV_FLIC_ADAPTER_REGISTER
#define MODIFY KVM_DEV_FLIC_ADAPTER_MODIFY
#define CLEAR_IO KVM_DEV_FLIC_CLEAR_IO_IRQ
#define AISM KVM_DEV_FLIC_AISM
#define INJECT KVM_DEV_FLIC_AIRQ_INJECT
#define AISM_ALL KVM_DEV_FLIC_AISM_ALL
#define RECORD FLIC_RECORD

#define BYTES(...) (const uint8_t[]){__VA_ARGS__}
#define CAPABLE true
#define INCAPABLE false

static const uint8_t zeros[259 * RECORD];
static const uint8_t adapter_5[8] = {0, 0, 0, 5, 3, 1, 0, 1};
static const uint8_t single_3[4] = {3, 0, 0, 1};

static struct host made(bool ais)
{
    struct host h = new_host();
    make(&h, ais, 0, 0);
    is_fresh(&h, ais);
    return h;
}

/* The record that an injection appends. */
static void interrupt(uint8_t *at, unsigned isc)
{
    io_record(at, 0x04000000, 0, 0, 0, 0x80000000 + ((uint32_t)isc << 27));
}

static void plain(uint8_t *at, uint64_t type)
{
    io_record(at, type, 0, 0, 0, 0);
}

/* Adapter 5 of subclass 3, maskable, no swap, suppressible; SINGLE; one inject. */
static struct host after_p9(void)
{
    struct host h = made(CAPABLE);
    set(&h, REGISTER, 0, adapter_5, 8, 0, 0);
    set(&h, AISM, 0, single_3, 4, 0, 0);
    set(&h, INJECT, 5, zeros, 0, 0, 1);
    return h;
}

/* Lists. */

struct list {
    uint8_t bytes[MOST];
    size_t size;
};

struct request {
    uint32_t group;
    uint64_t attribute;
    const uint8_t *payload;
    size_t length;
};

static void list_of(struct list *l, uint32_t flag, const struct request *requests, unsigned count)
{
    size_t at = FLIC_LIST_HEADER + (size_t)FLIC_LIST_ENTRY * count;
    for (unsigned i = 0; i < count; i++) {
        uint8_t *entry = l->bytes + FLIC_LIST_HEADER + (size_t)FLIC_LIST_ENTRY * i;
        put(entry, 4, at);
        put(entry + 4, 4, requests[i].group);
        put(entry + 8, 4, requests[i].length);
        put(entry + 12, 4, 0);
        put(entry + 16, 8, requests[i].attribute);
        if (requests[i].length > 0)
            memcpy(l->bytes + at, requests[i].payload, requests[i].length);
        at += requests[i].length;
    }
    put(l->bytes, 4, at);
    put(l->bytes + 4, 4, count);
    put(l->bytes + 8, 4, FLIC_LIST_HEADER);
    put(l->bytes + 12, 4, FLIC_LIST_HEADER + FLIC_LIST_ENTRY * count);
    put(l->bytes + 16, 4, flag);
    l->size = at;
}

/* After P9 the list is 174 bytes, with payloads at 92, 100 and 172. */
static const uint8_t list_p9[174] = {
    0, 0, 0, 174, 0, 0, 0, 3, 0, 0, 0, 20, 0, 0, 0, 92, 0, 0, 0, 1,              /* header */
    0, 0, 0, 92, 0, 0, 0, 6, 0, 0, 0, 8, 0, 0, 0, 0, 0, 0, 0, 0, 0, 0, 0, 0,     /* REGISTER */
    0, 0, 0, 100, 0, 0, 0, 2, 0, 0, 0, 72, 0, 0, 0, 0, 0, 0, 0, 0, 0, 0, 0, 72,  /* ENQUEUE */
    0, 0, 0, 172, 0, 0, 0, 11, 0, 0, 0, 2, 0, 0, 0, 0, 0, 0, 0, 0, 0, 0, 0, 0,   /* AISM_ALL */
    0, 0, 0, 5, 3, 1, 0, 1,                                                      /* adapter 5 */
    0, 0, 0, 0, 4, 0, 0, 0, 0, 0, 0, 0, 0, 0, 0, 0, 0x98, 0, 0, 0, 0, 0, 0, 0,   /* its interrupt */
    0, 0, 0, 0, 0, 0, 0, 0, 0, 0, 0, 0, 0, 0, 0, 0, 0, 0, 0, 0, 0, 0, 0, 0,
    0, 0, 0, 0, 0, 0, 0, 0, 0, 0, 0, 0, 0, 0, 0, 0, 0, 0, 0, 0, 0, 0, 0, 0,
    0x10, 0x10,                                                                  /* simm, nimm */
};

/* The paper's examples. */

static void p1_to_p3(void)
{
    struct host h = made(INCAPABLE);
    set(&h, ENQUEUE, 0, zeros, 0, EINVAL, 0); /* P1 */
    set(&h, ENQUEUE, 0, zeros, 72, EINVAL, 0);
    set(&h, ENQUEUE, 71, zeros, 71, EINVAL, 0); /* P2 */
    set(&h, ENQUEUE, 71, zeros, 72, EINVAL, 0);
    set(&h, ENQUEUE, 72, zeros, 71, EFAULT, 0); /* P3 */
    is_fresh(&h, INCAPABLE);
    set(&h, ENQUEUE, 72, zeros, 72, 0, 1); /* P2 */
    holds(&h, zeros, 1);
    set(&h, ENQUEUE, 72, zeros, 71, EFAULT, 0);
    holds(&h, zeros, 1);
    device_is(&h, 0, 0, false);
    free_host(&h);
}

static void p4(void)
{
    static uint8_t all[258 * RECORD];
    uint8_t record[RECORD];
    struct host h = made(INCAPABLE);
    set(&h, ENQUEUE, 256 * RECORD, zeros, 256 * RECORD, 0, 256);
    holds(&h, zeros, 256);
    set(&h, ENQUEUE, RECORD, zeros, RECORD, EBUSY, 0);
    holds(&h, zeros, 256);
    plain(record, KVM_S390_INT_SERVICE);
    set(&h, ENQUEUE, RECORD, record, RECORD, 0, 1);
    memcpy(all + 256 * RECORD, record, RECORD);
    holds(&h, all, 257);
    /* a machine check fits too; an I/O record and a finished page fault do not */
    plain(record, KVM_S390_MCHK);
    set(&h, ENQUEUE, RECORD, record, RECORD, 0, 1);
    memcpy(all + 257 * RECORD, record, RECORD);
    plain(record, KVM_S390_INT_PFAULT_DONE);
    set(&h, ENQUEUE, RECORD, record, RECORD, EBUSY, 0);
    set(&h, REGISTER, 0, BYTES(0, 0, 0, 1, 0, 0, 0, 0), 8, 0, 0);
    set(&h, INJECT, 1, zeros, 0, EBUSY, 0);
    holds(&h, all, 258);
    /* room freed by a take is usable at once */
    take(&h, 0x80, false, false, RECORD, 0, 1, zeros);
    holds(&h, all + RECORD, 257);
    set(&h, ENQUEUE, RECORD, zeros, RECORD, 0, 1);
    holds(&h, all, 258);
    set(&h, CLEAR, 0, zeros, 0, 0, 258);
    holds(&h, NULL, 0);
    /* 258 records at once; more are too long */
    set(&h, ENQUEUE, 259 * RECORD, zeros, 259 * RECORD, EINVAL, 0);
    set(&h, ENQUEUE, FLIC_LONGEST_ENQUEUE, zeros, FLIC_LONGEST_ENQUEUE, EBUSY, 0);
    set(&h, ENQUEUE, FLIC_LONGEST_ENQUEUE, all, FLIC_LONGEST_ENQUEUE, 0, 258);
    holds(&h, all, 258);
    free_host(&h);
}

static void p5(void)
{
    struct host h = made(CAPABLE);
    get(&h, GET_ALL, 1, 1, 0, 0, NULL, 0);
    get(&h, GET_ALL, 0, 72, EINVAL, 0, NULL, 0);
    get(&h, GET_ALL, 2, 1, EFAULT, 0, NULL, 0);
    set(&h, ENQUEUE, 72, zeros, 72, 0, 1);
    get(&h, GET_ALL, 71, 72, ENOMEM, 0, NULL, 0);
    get(&h, GET_ALL, 71, 71, ENOMEM, 0, NULL, 0);
    get(&h, GET_ALL, 71, 70, EFAULT, 0, NULL, 0);
    get(&h, GET_ALL, 72, 71, EFAULT, 0, NULL, 0);
    get(&h, GET_ALL, 72, 72, 0, 1, zeros, 72);
    get(&h, GET_ALL, 143, 200, 0, 1, zeros, 72);
    get(&h, GET_ALL, (1ull << 32) + 72, 72, EFAULT, 0, NULL, 0);
    free_host(&h);
}

static void p6(void)
{
    struct host h = made(INCAPABLE);
    set(&h, REGISTER, 0, BYTES(0, 0, 0, 63, 0, 0, 0, 0), 8, 0, 0);
    place_is(&h, 63, .used = true);
    set(&h, REGISTER, 0, BYTES(0, 0, 0, 64, 0, 0, 0, 0), 8, EINVAL, 0);
    set(&h, REGISTER, 0, BYTES(0, 0, 0, 63, 1, 1, 1, 1), 8, EINVAL, 0);
    set(&h, REGISTER, 0, BYTES(1, 0, 0, 62, 0, 0, 0, 0), 8, EINVAL, 0);
    set(&h, REGISTER, 0, BYTES(0, 0, 0, 62, 8, 0, 0, 0), 8, EINVAL, 0);
    set(&h, REGISTER, 0, BYTES(0, 0, 0, 62, 7, 0, 0), 7, EFAULT, 0);
    set(&h, REGISTER, 1, BYTES(0, 0, 0, 62, 7, 0, 0, 0), 8, EINVAL, 0);
    place_is(&h, 62, .used = false);
    /* each field in its own byte */
    set(&h, REGISTER, 0, BYTES(0, 0, 0, 62, 7, 0, 0, 0xfe), 8, 0, 0);
    place_is(&h, 62, .used = true, .isc = 7);
    set(&h, REGISTER, 0, BYTES(0, 0, 0, 0, 6, 0x80, 0, 2), 8, 0, 0);
    place_is(&h, 0, .used = true, .isc = 6, .maskable = true);
    set(&h, REGISTER, 0, BYTES(0, 0, 0, 1, 5, 0, 2, 4), 8, 0, 0);
    place_is(&h, 1, .used = true, .isc = 5, .swap = true);
    set(&h, REGISTER, 0, BYTES(0, 0, 0, 2, 4, 0, 0, 0xff), 8, 0, 0);
    place_is(&h, 2, .used = true, .isc = 4, .suppressible = true);
    set(&h, MODIFY, 0, BYTES(0, 0, 0, 0, 1, 2, 9, 9, 9, 9, 9, 9, 9, 9, 9, 9), 16, 0, 0);
    place_is(&h, 0, .used = true, .isc = 6, .maskable = true, .masked = true);
    set(&h, MODIFY, 0, BYTES(0, 0, 0, 0, 2, 0, 0, 0, 0, 0, 0, 0, 0, 0, 0, 0), 16, 0, 0);
    set(&h, MODIFY, 0, BYTES(0, 0, 0, 0, 3, 0, 0, 0, 0, 0, 0, 0, 0, 0, 0, 0), 16, 0, 0);
    set(&h, MODIFY, 0, BYTES(0, 0, 0, 0, 0, 0, 0, 0, 0, 0, 0, 0, 0, 0, 0, 0), 16, EINVAL, 0);
    set(&h, MODIFY, 0, BYTES(0, 0, 0, 0, 4, 0, 0, 0, 0, 0, 0, 0, 0, 0, 0, 0), 16, EINVAL, 0);
    set(&h, MODIFY, 0, BYTES(0, 0, 0, 0, 1, 0, 0, 0, 0, 0, 0, 0, 0, 0, 0), 15, EFAULT, 0);
    set(&h, MODIFY, 0, BYTES(0, 0, 0, 1, 1, 0, 0, 0, 0, 0, 0, 0, 0, 0, 0, 0), 16, EINVAL, 0);
    set(&h, MODIFY, 0, BYTES(0, 0, 0, 3, 2, 0, 0, 0, 0, 0, 0, 0, 0, 0, 0, 0), 16, EINVAL, 0);
    place_is(&h, 0, .used = true, .isc = 6, .maskable = true, .masked = true);
    set(&h, INJECT, 0, zeros, 0, 0, 0);
    holds(&h, NULL, 0);
    set(&h, MODIFY, 0, BYTES(0, 0, 0, 0, 1, 0, 0, 0, 0, 0, 0, 0, 0, 0, 0, 0), 16, 0, 0);
    place_is(&h, 0, .used = true, .isc = 6, .maskable = true);
    place_is(&h, 61, .used = false);
    place_is(&h, 3, .used = false);
    free_host(&h);
}

static void p7(void)
{
    struct host h = made(CAPABLE);
    set(&h, AISM, 0, BYTES(7, 0, 0, 1), 4, 0, 0);
    device_is(&h, 0x01, 0, false);
    set(&h, AISM, 0, BYTES(8, 0, 0, 1), 4, EINVAL, 0);
    set(&h, AISM, 0, BYTES(0, 0, 0, 2), 4, EINVAL, 0);
    set(&h, AISM, 0, BYTES(0, 0, 1, 0), 4, EINVAL, 0);
    set(&h, AISM, 0, BYTES(0, 0, 0), 3, EFAULT, 0);
    set(&h, AISM, 4, BYTES(0, 0, 0, 1), 4, EINVAL, 0);
    set(&h, AISM, 0, BYTES(0, 0xff, 0, 1), 4, 0, 0);
    device_is(&h, 0x81, 0, false);
    set(&h, AISM_ALL, 0, BYTES(0xc3, 0x42), 2, 0, 0);
    device_is(&h, 0xc3, 0x42, false);
    set(&h, AISM_ALL, 0, BYTES(1), 1, EFAULT, 0);
    set(&h, AISM_ALL, 2, BYTES(1, 1), 2, EINVAL, 0);
    get(&h, AISM_ALL, 2, 2, EINVAL, 0, NULL, 0);
    get(&h, AISM_ALL, 0, 7, 0, 0, BYTES(0xc3, 0x42), 2);
    set(&h, AISM, 0, BYTES(1, 0, 0, 1), 4, 0, 0);
    device_is(&h, 0xc3, 0x02, false);
    set(&h, AISM, 0, BYTES(6, 0, 0, 0), 4, 0, 0);
    device_is(&h, 0xc1, 0, false);
    set(&h, APF_ON, 0, zeros, 0, 0, 0);
    device_is(&h, 0xc1, 0, true);
    set(&h, APF_ON, 1, zeros, 0, EINVAL, 0);
    set(&h, APF_OFF, 1, zeros, 0, EINVAL, 0);
    set(&h, CLEAR, 1, zeros, 0, EINVAL, 0);
    device_is(&h, 0xc1, 0, true);
    set(&h, APF_OFF, 0, zeros, 3, 0, 0);
    device_is(&h, 0xc1, 0, false);
    free_host(&h);
}

static void p8(void)
{
    uint8_t records[4 * RECORD];
    struct host h = after_p9();
    set(&h, CLEAR_IO, 4, zeros, 4, EINVAL, 0);
    interrupt(records, 3);
    holds(&h, records, 1);
    /* the first in listing order; a long claim and four bytes lent */
    io_record(records + 2 * RECORD, 1, 0xfe09, 0x11, 2, 0x38000000);
    io_record(records + 3 * RECORD, 1, 0xfe09, 0x12, 3, 0x38000000);
    set(&h, ENQUEUE, 2 * RECORD, records + 2 * RECORD, 2 * RECORD, 0, 2);
    io_record(records + RECORD, 1, 0xfe09, 0x11, 1, 0x20000000);
    set(&h, ENQUEUE, RECORD, records + RECORD, RECORD, 0, 1);
    holds(&h, records, 4);
    set(&h, CLEAR_IO, 3, BYTES(0xfe, 9, 0, 0x11), 4, EINVAL, 0);
    set(&h, CLEAR_IO, 4, BYTES(0xfe, 9, 0), 3, EFAULT, 0);
    set(&h, CLEAR_IO, 4, BYTES(0xfe, 9, 0, 0x10), 4, 0, 0);
    holds(&h, records, 4);
    set(&h, CLEAR_IO, 1ull << 40, BYTES(0xfe, 9, 0, 0x11), 4, 0, 1);
    memmove(records + RECORD, records + 2 * RECORD, 2 * RECORD);
    holds(&h, records, 3);
    set(&h, CLEAR_IO, 4, BYTES(0xfe, 9, 0, 0x11, 0xff), 5, 0, 1);
    memmove(records + RECORD, records + 2 * RECORD, RECORD);
    holds(&h, records, 2);
    set(&h, CLEAR_IO, 4, BYTES(0xfe, 9, 0, 0x11), 4, 0, 0);
    holds(&h, records, 2);
    free_host(&h);
}

static void p9(void)
{
    uint8_t record[2 * RECORD];
    struct host h = made(CAPABLE);
    set(&h, REGISTER, 0, adapter_5, 8, 0, 0);
    place_is(&h, 5, .used = true, .isc = 3, .maskable = true, .suppressible = true);
    set(&h, AISM, 0, single_3, 4, 0, 0);
    device_is(&h, 0x10, 0, false);
    set(&h, INJECT, (1ull << 32) + 5, zeros, 0, EINVAL, 0);
    set(&h, INJECT, 64, zeros, 0, EINVAL, 0);
    set(&h, INJECT, 4, zeros, 0, EINVAL, 0);
    set(&h, INJECT, 5, zeros, 0, 0, 1);
    interrupt(record, 3);
    if (number(record + 16, 4) != 0x98000000)
        fail(__LINE__, "word", number(record + 16, 4), 0x98000000);
    holds(&h, record, 1);
    device_is(&h, 0x10, 0x10, false);
    set(&h, INJECT, 5, zeros, 0, 0, 0);
    holds(&h, record, 1);
    device_is(&h, 0x10, 0x10, false);
    place_is(&h, 5, .used = true, .isc = 3, .maskable = true, .suppressible = true);
    /* the list: exact, longer, and one byte short */
    write_list(&h, 174, 0, 174, list_p9);
    write_list(&h, 180, 0, 174, list_p9);
    write_list(&h, 173, ENOMEM, 0, NULL);
    write_list(&h, 0, ENOMEM, 0, NULL);
    /* an adapter that is not suppressible is not silenced */
    set(&h, REGISTER, 0, BYTES(0, 0, 0, 6, 3, 0, 0, 0), 8, 0, 0);
    set(&h, INJECT, 6, zeros, 0, 0, 1);
    interrupt(record + RECORD, 3);
    holds(&h, record, 2);
    free_host(&h);
}

static void p10_and_p11(void)
{
    uint8_t two[2 * RECORD];
    struct host h = made(INCAPABLE);
    set(&h, AISM, 0, BYTES(9, 0, 0, 0), 4, EOPNOTSUPP, 0); /* P10 */
    set(&h, AISM, 0, zeros, 0, EOPNOTSUPP, 0);
    set(&h, AISM, 1, zeros, 0, EINVAL, 0);
    set(&h, AISM_ALL, 0, zeros, 2, EOPNOTSUPP, 0);
    get(&h, AISM_ALL, 0, 0, EOPNOTSUPP, 0, NULL, 0);
    plain(two, 0);
    plain(two + RECORD, 0xffff2603);
    set(&h, ENQUEUE, 2 * RECORD, two, 2 * RECORD, EINVAL, 0); /* P11 */
    is_fresh(&h, INCAPABLE);
    /* bytes past the claimed length are not read */
    set(&h, ENQUEUE, RECORD, two, 2 * RECORD, 0, 1);
    holds(&h, two, 1);
    free_host(&h);
}

static void p12(void)
{
    struct list empty;
    struct host h = after_p9();
    set(&h, APF_ON, 0, zeros, 0, 0, 0);
    list_of(&empty, 1, NULL, 0);
    play(&h, empty.bytes, 20, 0, 0);
    is_fresh(&h, CAPABLE);
    free_host(&h);
    h = made(INCAPABLE);
    set(&h, REGISTER, 0, adapter_5, 8, 0, 0);
    malformed(&h, empty.bytes, 20, EOPNOTSUPP);
    place_is(&h, 5, .used = true, .isc = 3, .maskable = true, .suppressible = true);
    list_of(&empty, 0, NULL, 0);
    play(&h, empty.bytes, 20, 0, 0);
    is_fresh(&h, INCAPABLE);
    free_host(&h);
}

/* More of the rules. */

static void groups_and_directions(void)
{
    static const uint32_t unknown[] = {0, 12, 0x102, 0x80000002, 0xffffffff};
    struct host h = after_p9();
    for (size_t i = 0; i < sizeof unknown / sizeof unknown[0]; i++) {
        set(&h, unknown[i], 0, zeros, 72, EINVAL, 0);
        get(&h, unknown[i], 72, 72, EINVAL, 0, NULL, 0);
    }
    set(&h, GET_ALL, 72, zeros, 72, EINVAL, 0);
    for (uint32_t group = ENQUEUE; group <= INJECT; group++) {
        get(&h, group, 0, 72, EINVAL, 0, NULL, 0);
        get(&h, group, 72, 72, EINVAL, 0, NULL, 0);
    }
    write_list(&h, 174, 0, 174, list_p9);
    free_host(&h);
}

static void record_types(void)
{
    static const uint64_t taken[] = {0, 1, 0x03f80001, 0xfffdffff, 0xfffe0005, 0xfffe1000, 0xffff2401};
    static const uint64_t others[] = {0xfffe0000,  0xfffe0004,         0xfffe0006,  0xfffe0fff, 0xfffe1001,
                                      0xffff2400,  0xffff2402,         0xffff2603,  0xffffffff, 0x100000000,
                                      0x1fffe0005, 0x8000000000000000, 0xfffffffffffe1000};
    uint8_t record[RECORD];
    for (size_t i = 0; i < sizeof taken / sizeof taken[0]; i++) {
        struct host h = made(INCAPABLE);
        memcpy(record, unwritten + 100, RECORD);
        put(record, 8, taken[i]);
        set(&h, ENQUEUE, RECORD, record, RECORD, 0, 1);
        holds(&h, record, 1);
        take(&h, 0xff, true, true, RECORD, 0, 1, record);
        is_fresh(&h, INCAPABLE);
        free_host(&h);
    }
    struct host h = made(INCAPABLE);
    for (size_t i = 0; i < sizeof others / sizeof others[0]; i++) {
        plain(record, others[i]);
        set(&h, ENQUEUE, RECORD, record, RECORD, EINVAL, 0);
    }
    set(&h, ENQUEUE, (1ull << 32) + 72, zeros, RECORD, EINVAL, 0);
    is_fresh(&h, INCAPABLE);
    free_host(&h);
}

/* Eight I/O records, finished page faults, service and machine check: the listing's order and the take's. */
static void orders(void)
{
    uint8_t given[12 * RECORD], listed[12 * RECORD];
    for (unsigned i = 0; i < 8; i++)
        io_record(given + i * RECORD, 7 - i, 1, (uint16_t)i, 0xffffffff, (7 - i) << 27 | 0xc7ffffff);
    io_record(given + 8 * RECORD, KVM_S390_MCHK, 1, 2, 3, 4);
    io_record(given + 9 * RECORD, KVM_S390_INT_SERVICE, 5, 6, 7, 8);
    io_record(given + 10 * RECORD, KVM_S390_INT_PFAULT_DONE, 9, 10, 11, 12);
    io_record(given + 11 * RECORD, KVM_S390_INT_PFAULT_DONE, 13, 14, 15, 16);
    for (unsigned i = 0; i < 8; i++)
        memcpy(listed + i * RECORD, given + (7 - i) * RECORD, RECORD);
    memcpy(listed + 8 * RECORD, given + 10 * RECORD, RECORD);
    memcpy(listed + 9 * RECORD, given + 11 * RECORD, RECORD);
    memcpy(listed + 10 * RECORD, given + 9 * RECORD, RECORD);
    memcpy(listed + 11 * RECORD, given + 8 * RECORD, RECORD);
    struct host h = made(INCAPABLE);
    set(&h, ENQUEUE, sizeof given, given, sizeof given, 0, 12);
    holds(&h, listed, 12);

    /* a second service record is dropped; a second machine check adds cr14 and mcic by OR */
    uint8_t more[2 * RECORD];
    memset(more, 0x30, sizeof more);
    put(more, 8, KVM_S390_INT_SERVICE);
    put(more + RECORD, 8, KVM_S390_MCHK);
    set(&h, ENQUEUE, sizeof more, more, sizeof more, 0, 2);
    for (unsigned i = 8; i < 24; i++)
        listed[11 * RECORD + i] |= 0x30;
    holds(&h, listed, 12);

    take(&h, 0xff, true, true, 71, EFAULT, 0, NULL);
    take(&h, 0, false, false, 71, EFAULT, 0, NULL);
    take(&h, 0, false, false, 72, 0, 0, NULL);
    take(&h, 0x01, false, false, 72, 0, 1, listed + 7 * RECORD);
    take(&h, 0x01, false, false, 72, 0, 0, NULL);
    take(&h, 0xff, true, true, 72, 0, 1, listed + 11 * RECORD);
    take(&h, 0xff, true, true, 80, 0, 1, listed + 10 * RECORD);
    take(&h, 0xff, false, true, 72, 0, 1, listed);
    take(&h, 0xff, true, false, 72, 0, 1, listed + 8 * RECORD);
    take(&h, 0xff, true, false, 72, 0, 1, listed + 9 * RECORD);
    holds(&h, listed + RECORD, 6);
    for (unsigned i = 1; i < 7; i++)
        take(&h, 0xff, true, true, 72, 0, 1, listed + i * RECORD);
    take(&h, 0xff, true, true, 72, 0, 0, NULL);
    is_fresh(&h, INCAPABLE);
    free_host(&h);
}

static void wrong_table(void)
{
    struct host h = new_host();
    wrong_tables(&h); /* before anything is made */
    make(&h, CAPABLE, 0, 0);
    is_fresh(&h, CAPABLE);
    wrong_tables(&h);
    free_host(&h);
    h = after_p9();
    wrong_tables(&h);
    write_list(&h, 174, 0, 174, list_p9);
    set(&h, INJECT, 5, zeros, 0, 0, 0);
    /* made again, with the other capability */
    make(&h, INCAPABLE, 0, 0);
    is_fresh(&h, INCAPABLE);
    free_host(&h);
}

#define get_null(h, g, attr, code)                                                                                \
    expect(__LINE__, h, (struct call){.kind = GET, .places = FLIC_PLACES, .group = g, .attribute = attr}, code, 0, \
           NULL, 0)

/* A null pointer, where nothing is lent: the answer is that to a payload or buffer of no bytes. */
static void nothing_lent(void)
{
    const struct call all_allowed = {.kind = TAKE, .subclasses = 0xff, .external = true, .machine_check = true};
    uint8_t record[RECORD];
    for (unsigned ais = 0; ais < 2; ais++) {
        struct host h = made(ais);
        uint32_t masks = ais ? EFAULT : EOPNOTSUPP;
        set(&h, REGISTER, 0, adapter_5, 8, 0, 0);
        interrupt(record, 3);

        /* no byte is asked for */
        set(&h, INJECT, 5, NULL, 0, 0, 1);
        holds(&h, record, 1);
        set(&h, APF_ON, 0, NULL, 0, 0, 0);
        device_is(&h, 0, 0, true);
        set(&h, APF_OFF, 0, NULL, 0, 0, 0);
        device_is(&h, 0, 0, false);
        set(&h, CLEAR, 0, NULL, 0, 0, 1);
        set(&h, CLEAR, 0, NULL, 0, 0, 0);
        holds(&h, NULL, 0);

        /* too short, or refused before that */
        for (unsigned pending = 0; pending < 2; pending++) {
            set(&h, ENQUEUE, 0, NULL, 0, EINVAL, 0);
            set(&h, ENQUEUE, RECORD, NULL, 0, EFAULT, 0);
            set(&h, REGISTER, 0, NULL, 0, EFAULT, 0);
            set(&h, MODIFY, 0, NULL, 0, EFAULT, 0);
            set(&h, CLEAR_IO, 3, NULL, 0, EINVAL, 0);
            set(&h, CLEAR_IO, 4, NULL, 0, EFAULT, 0);
            set(&h, AISM, 0, NULL, 0, masks, 0);
            set(&h, AISM_ALL, 0, NULL, 0, masks, 0);
            set(&h, INJECT, 6, NULL, 0, EINVAL, 0);
            for (uint32_t group = 0; group <= 12; group++) {
                if (group != CLEAR_IO && group != INJECT)
                    set(&h, group, 5, NULL, 0, EINVAL, 0);
                if (group != GET_ALL && group != AISM_ALL)
                    get_null(&h, group, 0, EINVAL);
            }
            set(&h, 0, 0, NULL, 0, EINVAL, 0);
            set(&h, GET_ALL, 0, NULL, 0, EINVAL, 0);
            set(&h, 12, 0, NULL, 0, EINVAL, 0);
            get_null(&h, GET_ALL, 0, EINVAL);
            get_null(&h, GET_ALL, 1, EFAULT);
            get_null(&h, GET_ALL, RECORD, EFAULT);
            get_null(&h, AISM_ALL, 0, masks);
            get_null(&h, AISM_ALL, 1, EINVAL);
            expect(__LINE__, &h, (struct call){.kind = TAKE}, EFAULT, 0, NULL, 0);
            expect(__LINE__, &h, all_allowed, EFAULT, 0, NULL, 0);
            expect(__LINE__, &h, (struct call){.kind = WRITE, .places = FLIC_PLACES}, ENOMEM, 0, NULL, 0);
            malformed(&h, NULL, 0, EFAULT);
            if (pending == 0)
                set(&h, INJECT, 5, NULL, 0, 0, 1);
        }
        holds(&h, record, 1);
        place_is(&h, 5, .used = true, .isc = 3, .maskable = true, .suppressible = true);
        free_host(&h);
    }
}

/* Before the controller is made: random bytes where a wrong table is lent; else values of their types other than zero. */
static void made_over_other_values(void)
{
    struct host h = new_host();
    random_bytes(&h.controller);
    random_bytes(&h.device);
    random_bytes(&h.table);
    wrong_makes(&h);
    memset(h.controller.at, 0xff, offsetof(struct flic_controller, ais));
    h.controller.at[offsetof(struct flic_controller, ais)] = 1;
    memset(h.device.at, 1, h.device.size);
    memset(h.table.at, 1, h.table.size);
    wrong_tables(&h);
    make(&h, INCAPABLE, 0, 0);
    is_fresh(&h, INCAPABLE);
    set(&h, ENQUEUE, 256 * RECORD, zeros, 256 * RECORD, 0, 256);
    holds(&h, zeros, 256);
    free_host(&h);
}

/* Lists. */

static struct list changed(const uint8_t *list, size_t size)
{
    struct list l = {.size = size};
    memcpy(l.bytes, list, size);
    return l;
}

/* The list after P9 with one number changed: refused by its form, and nothing changes. */
static void form_refused(int line, struct host *h, size_t at, uint32_t n, uint32_t code)
{
    struct list l = changed(list_p9, sizeof list_p9);
    put(l.bytes + at, 4, n);
    struct call call = {.kind = PLAY, .places = FLIC_PLACES, .refused = true, .bytes = l.bytes, .length = l.size};
    expect(line, h, call, code, 0, NULL, 0);
}

#define refused_form(h, at, n, code) form_refused(__LINE__, h, at, n, code)

static void refused_forms(void)
{
    struct list l;
    struct host h = made(CAPABLE);
    uint8_t records[2 * RECORD];
    plain(records, KVM_S390_INT_PFAULT_DONE);
    plain(records + RECORD, KVM_S390_MCHK);
    set(&h, ENQUEUE, 2 * RECORD, records, 2 * RECORD, 0, 2);
    set(&h, REGISTER, 0, BYTES(0, 0, 0, 9, 2, 1, 1, 1), 8, 0, 0);
    set(&h, APF_ON, 0, zeros, 0, 0, 0);
    for (size_t size = 0; size < 20; size++)
        malformed(&h, list_p9, size, EFAULT);
    for (size_t size = 20; size < 174; size++)
        malformed(&h, list_p9, size, EINVAL);
    l = changed(list_p9, 174);
    malformed(&h, l.bytes, 175, EINVAL);
    refused_form(&h, 0, 173, EINVAL);
    refused_form(&h, 16, 2, EINVAL);          /* flag */
    refused_form(&h, 16, 0x01000000, EINVAL); /* .. little-endian */
    refused_form(&h, 16, 0, EOPNOTSUPP);      /* .. of the other capability */
    refused_form(&h, 4, 132, E2BIG);          /* count */
    refused_form(&h, 4, 0xffffffff, E2BIG);
    refused_form(&h, 4, 131, EINVAL);
    refused_form(&h, 4, 2, EINVAL);
    refused_form(&h, 8, 24, EINVAL); /* offsets */
    refused_form(&h, 12, 93, EINVAL);
    for (size_t entry = 20; entry < 92; entry += 24) {
        uint32_t place = (uint32_t)number(list_p9 + entry, 4), length = (uint32_t)number(list_p9 + entry + 8, 4);
        refused_form(&h, entry, place + 1, EINVAL);
        refused_form(&h, entry, place - 1, EINVAL);
        for (uint32_t group = 0; group < 13; group++)
            if (group != 2 && group != 4 && group != 6 && group != 7 && group != 11)
                refused_form(&h, entry + 4, group, EINVAL);
        refused_form(&h, entry + 4, 0x102, EINVAL);
        refused_form(&h, entry + 8, length + 1, EINVAL);
        refused_form(&h, entry + 8, length - 1, EINVAL);
        refused_form(&h, entry + 8, 0xffffffff, EINVAL);
        refused_form(&h, entry + 12, 1, EINVAL);
        refused_form(&h, entry + 12, 0x01000000, EINVAL);
    }
    /* two lengths whose sum with the place is the total only at 32 bits */
    l = changed(list_p9, 174);
    put(l.bytes + 28, 4, 0x80000000);
    put(l.bytes + 44, 4, 92 + 0x80000000);
    put(l.bytes + 52, 4, 0x80000000);
    put(l.bytes + 68, 4, 92);
    put(l.bytes + 76, 4, 82);
    malformed(&h, l.bytes, 174, EINVAL);
    /* the payload offset above the total */
    list_of(&l, 1, NULL, 0);
    put(l.bytes + 4, 4, 1);
    put(l.bytes + 12, 4, 44);
    malformed(&h, l.bytes, 20, EINVAL);
    put(l.bytes + 4, 4, 131);
    put(l.bytes + 12, 4, 20 + 24 * 131);
    malformed(&h, l.bytes, 20, EINVAL);
    /* the first fault found decides: flag, count, offsets, entries, capability */
    l = changed(list_p9, 174);
    put(l.bytes + 16, 4, 0);
    put(l.bytes + 24, 4, 3);
    malformed(&h, l.bytes, 174, EINVAL);
    put(l.bytes + 4, 4, 132);
    put(l.bytes + 8, 4, 0);
    malformed(&h, l.bytes, 174, E2BIG);
    put(l.bytes + 16, 4, 2);
    malformed(&h, l.bytes, 174, EINVAL);
    /* after all that the controller holds what it held */
    holds(&h, records, 2);
    place_is(&h, 9, .used = true, .isc = 2, .maskable = true, .swap = true, .suppressible = true);
    device_is(&h, 0, 0, true);
    free_host(&h);
}

/* A list of good form: the request at this place is refused, and the controller is fresh. */
static void part_way_refused(int line, bool ais, const struct request *requests, unsigned count, uint32_t code,
                             unsigned place)
{
    static struct list l;
    struct host h = made(ais);
    set(&h, REGISTER, 0, adapter_5, 8, 0, 0);
    set(&h, ENQUEUE, RECORD, zeros, RECORD, 0, 1);
    set(&h, APF_ON, 0, zeros, 0, 0, 0);
    list_of(&l, ais, requests, count);
    struct call call = {.kind = PLAY, .places = FLIC_PLACES, .bytes = l.bytes, .length = l.size};
    expect(line, &h, call, code, place, NULL, 0);
    expect_fresh(line, &h, ais);
    free_host(&h);
}

#define refused_at(ais, requests, count, code, place) part_way_refused(__LINE__, ais, requests, count, code, place)

static void refused_part_way(void)
{
    struct request r[131];
    uint8_t bad[RECORD];
    const struct request reg = {REGISTER, 0, adapter_5, 8}, on = {APF_ON, 0, NULL, 0};
    const struct request one = {ENQUEUE, RECORD, zeros, RECORD}, masks = {AISM_ALL, 0, zeros, 2};

    r[0] = reg, r[1] = reg, r[2] = on; /* in use */
    refused_at(CAPABLE, r, 3, EINVAL, 1);
    r[0] = (struct request){MODIFY, 0, zeros, 16}; /* a free id, at place 0 */
    refused_at(INCAPABLE, r, 3, EINVAL, 0);
    r[0] = one, r[1] = on, r[2] = masks; /* no capability */
    refused_at(INCAPABLE, r, 3, EOPNOTSUPP, 2);
    r[0] = reg, r[1] = one, r[2] = (struct request){ENQUEUE, 2 * RECORD, zeros, RECORD}; /* shorter than claimed */
    refused_at(CAPABLE, r, 3, EFAULT, 2);
    r[0] = (struct request){REGISTER, 0, zeros, 7};
    refused_at(CAPABLE, r, 1, EFAULT, 0);
    r[0] = (struct request){ENQUEUE, 256 * RECORD, zeros, 256 * RECORD}, r[1] = masks, r[2] = one, r[3] = reg;
    refused_at(CAPABLE, r, 4, EBUSY, 2);
    plain(bad, 0xffff2603);
    r[0] = one, r[1] = (struct request){ENQUEUE, RECORD, bad, RECORD};
    refused_at(INCAPABLE, r, 2, EINVAL, 1);
    r[0] = one, r[1] = (struct request){APF_ON, 1, NULL, 0};
    refused_at(INCAPABLE, r, 2, EINVAL, 1);
    for (unsigned i = 0; i < 130; i++)
        r[i] = on;
    r[130] = (struct request){ENQUEUE, 0, NULL, 0};
    refused_at(CAPABLE, r, 131, EINVAL, 130);
}

/* Lists that nobody here wrote, of good form and with good requests. */
static void other_lists(void)
{
    static struct list l;
    struct request r[131];
    uint8_t records[3 * RECORD];
    struct host h = after_p9();
    io_record(records, 0, 1, 1, 1, 0x38000000);
    io_record(records + RECORD, 0, 2, 2, 2, 0);
    plain(records + 2 * RECORD, KVM_S390_INT_PFAULT_DONE);
    r[0] = (struct request){APF_ON, 0, zeros, 5};
    r[1] = (struct request){ENQUEUE, RECORD, records, 2 * RECORD}; /* the second is not claimed */
    r[2] = (struct request){AISM_ALL, 0, BYTES(0x0f, 0xf0, 9, 9), 4};
    r[3] = (struct request){REGISTER, 0, BYTES(0, 0, 0, 63, 7, 2, 0, 0xfe, 1, 2), 10};
    r[4] = (struct request){MODIFY, 0, BYTES(0, 0, 0, 63, 1, 9, 1, 1, 1, 1, 1, 1, 1, 1, 1, 1), 16};
    r[5] = (struct request){ENQUEUE, 2 * RECORD, records + RECORD, 2 * RECORD};
    r[6] = (struct request){MODIFY, 0, BYTES(0, 0, 0, 63, 2, 0, 1, 1, 1, 1, 1, 1, 1, 1, 1, 1), 16};
    r[7] = (struct request){MODIFY, 0, BYTES(0, 0, 0, 63, 3, 0, 1, 1, 1, 1, 1, 1, 1, 1, 1, 1), 16};
    list_of(&l, 1, r, 8);
    play(&h, l.bytes, l.size, 0, 8);
    uint8_t listed[3 * RECORD];
    memcpy(listed, records + RECORD, RECORD);
    memcpy(listed + RECORD, records, RECORD);
    memcpy(listed + 2 * RECORD, records + 2 * RECORD, RECORD);
    holds(&h, listed, 3);
    device_is(&h, 0x0f, 0xf0, true);
    place_is(&h, 5, .used = false);
    place_is(&h, 63, .used = true, .isc = 7, .maskable = true, .masked = true);
    r[8] = (struct request){MODIFY, 0, BYTES(0, 0, 0, 63, 1, 0, 0, 0, 0, 0, 0, 0, 0, 0, 0, 0), 16};
    list_of(&l, 1, r, 9);
    play(&h, l.bytes, l.size, 0, 9);
    place_is(&h, 63, .used = true, .isc = 7, .maskable = true);
    for (unsigned i = 0; i < 131; i++)
        r[i] = (struct request){APF_ON, 0, NULL, 0};
    list_of(&l, 1, r, 131);
    play(&h, l.bytes, l.size, 0, 131);
    holds(&h, NULL, 0);
    device_is(&h, 0, 0, true);
    free_host(&h);
}

static void longest_list(void)
{
    static uint8_t all[258 * RECORD];
    static struct list l;
    struct host a = made(CAPABLE), b = after_p9();
    struct request r[131];
    uint8_t adapters[64][8], masks[64][16];
    memset(masks, 0, sizeof masks);
    for (uint8_t id = 0; id < 64; id++) {
        memcpy(adapters[id], BYTES(0, 0, 0, id, id % 8, 1, id / 32, id % 2), 8);
        memcpy(masks[id], BYTES(0, 0, 0, id, 1, 1), 6);
        set(&a, REGISTER, 0, adapters[id], 8, 0, 0);
        set(&a, MODIFY, 0, masks[id], 16, 0, 0);
        r[id] = (struct request){REGISTER, 0, adapters[id], 8};
        r[64 + id] = (struct request){MODIFY, 0, masks[id], 16};
    }
    for (unsigned i = 0; i < 256; i++)
        io_record(all + i * RECORD, i, 7, (uint16_t)i, i, i / 32 << 27);
    plain(all + 256 * RECORD, KVM_S390_INT_SERVICE);
    plain(all + 257 * RECORD, KVM_S390_MCHK);
    set(&a, ENQUEUE, sizeof all, all, sizeof all, 0, 258);
    set(&a, AISM_ALL, 0, BYTES(0, 1), 2, 0, 0);
    set(&a, APF_ON, 0, zeros, 0, 0, 0);
    r[128] = (struct request){ENQUEUE, sizeof all, all, sizeof all};
    r[129] = (struct request){AISM_ALL, 0, BYTES(0, 1), 2};
    r[130] = (struct request){APF_ON, 0, NULL, 0};
    list_of(&l, 1, r, 131);
    write_list(&a, FLIC_LONGEST_LIST, 0, FLIC_LONGEST_LIST, l.bytes);
    write_list(&a, FLIC_LONGEST_LIST - 1, ENOMEM, 0, NULL);
    play(&b, l.bytes, FLIC_LONGEST_LIST, 0, 131);
    write_list(&b, FLIC_LONGEST_LIST + 9, 0, FLIC_LONGEST_LIST, l.bytes);
    same_bytes(__LINE__, "device record", b.device.at, a.device.at, a.device.size);
    same_bytes(__LINE__, "table", b.table.at, a.table.at, a.table.size);
    free_host(&a);
    free_host(&b);
}

/* Moves: random calls on one controller, its list played on another that held something else, then equal calls on both. */

static uint64_t state;

static uint32_t below(uint32_t n)
{
    state = state * 6364136223846793005u + 1442695040888963407u;
    return (uint32_t)((state >> 33) % n);
}

static bool one_in(uint32_t n)
{
    return below(n) == 0;
}

static void random_record(uint8_t *at)
{
    static const uint64_t types[] = {0,          1,          0x03f80001, 0x04000000, 0xfffdffff, 0xfffe0005,
                                     0xfffe0005, 0xfffe1000, 0xffff2401, 0xffff2603};
    for (unsigned i = 0; i < RECORD; i++)
        at[i] = (uint8_t)below(256);
    put(at, 8, types[below(one_in(8) ? 10 : 9)]);
    put(at + 8, 4, below(2) << 16 | below(3));
    put(at + 16, 4, one_in(2) ? 0x98000000 : below(8) << 27);
}

/* A call, with its bytes in a buffer that lasts until the next one. */
static struct call random_call(void)
{
    static uint8_t bytes[258 * RECORD];
    struct call call = {.places = one_in(40) ? 63 + 2 * below(2) : FLIC_PLACES, .bytes = bytes};
    for (unsigned i = 0; i < 16; i++)
        bytes[i] = (uint8_t)below(256);
    switch (below(20)) {
    case 0:
    case 1:
        call.kind = TAKE;
        call.subclasses = (uint8_t)below(256);
        call.external = one_in(2);
        call.machine_check = one_in(2);
        call.length = one_in(8) ? 71 : RECORD + below(2);
        call.bytes = unwritten;
        return call;
    case 2:
        call.kind = GET;
        call.group = one_in(3) ? AISM_ALL : GET_ALL;
        call.attribute = call.group == AISM_ALL ? one_in(9) : one_in(2) ? 258 * RECORD : below(40 * RECORD);
        call.length = call.group == AISM_ALL ? 1 + below(3) : (size_t)call.attribute - (call.attribute > 0 && one_in(9));
        call.bytes = unwritten;
        return call;
    case 3:
        call.kind = WRITE;
        call.bytes = unwritten;
        call.length = one_in(2) ? FLIC_LONGEST_LIST : below(3000);
        return call;
    default:
        break;
    }
    call.kind = SET;
    call.group = one_in(30) ? below(14) : 2;
    call.attribute = one_in(50);
    switch (below(14)) {
    case 0:
    case 1:
        call.group = one_in(3) ? APF_OFF : APF_ON;
        break;
    case 2:
    case 3:
    case 4:
        call.group = REGISTER;
        put(bytes, 4, one_in(9) ? 64 : below(64));
        bytes[4] = (uint8_t)below(one_in(9) ? 9 : 8);
        bytes[5] = one_in(3) ? 0 : 1;
        bytes[7] = one_in(4) ? 0 : 3;
        call.length = one_in(20) ? 7 : 8;
        break;
    case 5:
    case 6:
        call.group = MODIFY;
        put(bytes, 4, below(64));
        bytes[4] = one_in(9) ? (uint8_t)below(5) : 1;
        bytes[5] = (uint8_t)below(2);
        call.length = one_in(20) ? 15 : 16;
        break;
    case 7:
        call.group = AISM;
        bytes[0] = (uint8_t)below(9);
        put(bytes + 2, 2, one_in(9) ? 2 : below(2));
        call.length = 4;
        break;
    case 8:
    case 9:
        call.group = INJECT;
        call.attribute = below(65);
        break;
    case 10:
        call.group = one_in(8) ? CLEAR : AISM_ALL;
        call.length = 2;
        break;
    case 11:
        call.group = CLEAR_IO;
        call.attribute = 3 + below(4);
        put(bytes, 4, below(2) << 16 | below(3));
        call.length = one_in(9) ? 3 : 4;
        break;
    default: {
        unsigned count = one_in(8) ? 1 + below(258) : 1 + below(4);
        for (unsigned i = 0; i < count; i++)
            random_record(bytes + (size_t)i * RECORD);
        call.attribute = (uint64_t)count * RECORD;
        call.length = (size_t)call.attribute - one_in(20);
        break;
    }
    }
    return call;
}

/* How often each code was seen from two controllers at once. */
static unsigned codes[128];

static void equal_call(struct host *a, struct host *b, const struct call *call)
{
    static uint8_t left[MOST], right[MOST];
    struct flic_answer x = run(__LINE__, a, call, left), y = run(__LINE__, b, call, right);
    if (x.code != y.code)
        fail(__LINE__, "code of the second controller", y.code, x.code);
    if (x.count != y.count)
        fail(__LINE__, "count of the second controller", y.count, x.count);
    same_bytes(__LINE__, "buffer of the second controller", right, left, call->length);
    same_bytes(__LINE__, "device record of the second controller", b->device.at, a->device.at, a->device.size);
    same_bytes(__LINE__, "table of the second controller", b->table.at, a->table.at, a->table.size);
    codes[x.code < 128 ? x.code : 127]++;
}

static void move(uint64_t seed)
{
    static uint8_t list[FLIC_LONGEST_LIST], again[FLIC_LONGEST_LIST];
    static char name[32];
    snprintf(name, sizeof name, "move %llu", (unsigned long long)seed);
    subject = name;
    state = seed;
    bool ais = !one_in(3);
    struct host a = made(ais), b = made(ais), other = made(!ais);
    struct call call;
    for (unsigned n = below(120); n > 0; n--) {
        call = random_call();
        run(__LINE__, &a, &call, NULL);
    }
    for (unsigned n = below(60); n > 0; n--) {
        call = random_call();
        run(__LINE__, &b, &call, NULL);
    }
    call = (struct call){.kind = WRITE, .places = FLIC_PLACES, .bytes = unwritten, .length = FLIC_LONGEST_LIST};
    struct flic_answer r = run(__LINE__, &a, &call, list);
    if (r.code != 0 || r.count < FLIC_LIST_HEADER || r.count > FLIC_LONGEST_LIST || r.count != number(list, 4))
        fail(__LINE__, "bytes of the list", r.count, number(list, 4));
    size_t size = (size_t)r.count;
    write_list(&a, size, 0, size, list);
    write_list(&a, size - 1, ENOMEM, 0, NULL);
    malformed(&other, list, size, EOPNOTSUPP);
    is_fresh(&other, !ais);
    play(&b, list, size, 0, number(list + 4, 4));
    write_list(&b, size, 0, size, list);
    for (unsigned n = 60; n > 0; n--) {
        call = random_call();
        equal_call(&a, &b, &call);
    }
    call = (struct call){.kind = WRITE, .places = FLIC_PLACES, .bytes = unwritten, .length = FLIC_LONGEST_LIST};
    equal_call(&a, &b, &call);
    /* and back: the second one's list on the first gives the same list */
    r = run(__LINE__, &b, &call, again);
    play(&a, again, (size_t)r.count, 0, number(again + 4, 4));
    write_list(&a, (size_t)r.count, 0, r.count, again);
    free_host(&a);
    free_host(&b);
    free_host(&other);
    subject = NULL;
}

int main(int argc, char **argv)
{
    unsigned moves = argc > 1 ? (unsigned)strtoul(argv[1], NULL, 10) : 200;
    begin("calls");
    for (int n = 0; n < PLACEMENTS; n++) {
        placement = (enum placement)n;
        p1_to_p3();
        p4();
        p5();
        p6();
        p7();
        p8();
        p9();
        p10_and_p11();
        p12();
        groups_and_directions();
        record_types();
        orders();
        wrong_table();
        nothing_lent();
        made_over_other_values();
        refused_forms();
        refused_part_way();
        other_lists();
        longest_list();
        for (unsigned i = 0; i < moves; i++)
            move(n * 1000003u + i);
    }
    static const unsigned each[] = {0, ENOMEM, EFAULT, EBUSY, EINVAL, EOPNOTSUPP};
    for (size_t i = 0; i < sizeof each / sizeof each[0]; i++)
        if (moves >= 100 && codes[each[i]] == 0)
            fail(__LINE__, "calls after a move with this code: none", 0, each[i]);
    return 0;
}
