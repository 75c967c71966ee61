/*
 * Payloads that were made with the kernel's own structs on s390x, run through the public calls. Each file is first
 * compared with the bytes that its fields, by tests/vectors/INDEX.txt, come to. usage: vectors DIRECTORY
 */
#include "support.h"

#include <dirent.h>
#include <stdio.h>
#include <stdlib.h>
#include <string.h>

#define RECORD FLIC_RECORD

struct vector {
    const char *name;
    uint32_t group;
    uint64_t attribute;
    size_t size;
    void (*fields)(uint8_t *at);    /* writes the bytes that the file has to have */
    void (*before)(struct host *h); /* what is done to a fresh controller first, or NULL */
    uint32_t code;
    uint64_t count;
    void (*after)(struct host *h); /* what the controller has to hold then */
    bool incapable;                /* made without the AIS capability */
};

static const char *directory;
static uint8_t file[MOST];

static size_t read_file(const char *name)
{
    char path[4096];
    snprintf(path, sizeof path, "%s/%s.bin", directory, name);
    FILE *f = fopen(path, "rb");
    if (f == NULL) {
        perror(path);
        exit(1);
    }
    size_t size = fread(file, 1, sizeof file, f);
    fclose(f);
    return size;
}

/* Fields, as INDEX.txt gives them. */

static void external(uint8_t *at, uint64_t type, uint32_t parameters, uint64_t parameters2)
{
    memset(at, 0, RECORD);
    put(at, 8, type);
    put(at + 8, 4, parameters);
    put(at + 16, 8, parameters2);
}

static void adapter_interrupt(uint8_t *at, uint32_t isc)
{
    io_record(at, 0x04000000, 0, 0, 0, 0x80000000 + (isc << 27));
}

static void f_io_virtio(uint8_t *at)
{
    io_record(at, 0x03f80001, 0xfe09, 1, 0x11223344, 0x18000000);
}

static void f_io_css0(uint8_t *at)
{
    io_record(at, 5, 1, 5, 0xdeadbeef, 0x38000000);
}

static void f_io_max(uint8_t *at)
{
    io_record(at, 0x03fbffff, 0xfe0f, 0xffff, 0xffffffff, 0);
}

static void f_stop(uint8_t *at)
{
    io_record(at, 0xfffe0000, 0xfe09, 2, 0, 0);
}

static void f_adapter(uint8_t *at)
{
    adapter_interrupt(at, 3);
}

static void f_adapters(uint8_t *at)
{
    for (uint32_t isc = 0; isc < 8; isc++)
        adapter_interrupt(at + isc * RECORD, isc);
}

static void f_sccb(uint8_t *at)
{
    external(at, 0xffff2401, 0x12345678, 0);
}

static void f_event(uint8_t *at)
{
    external(at, 0xffff2401, 1, 0);
}

static void f_event_sccb(uint8_t *at)
{
    f_event(at);
    f_sccb(at + RECORD);
}

static void f_sccb_event(uint8_t *at)
{
    f_sccb(at);
    f_event(at + RECORD);
}

static void f_mchk(uint8_t *at)
{
    memset(at, 0, RECORD);
    put(at, 8, 0xfffe1000);
    put(at + 8, 8, 0x10000000);
    put(at + 16, 8, 0x00400f1d40330000);
}

static void f_done(uint8_t *at)
{
    external(at, 0xfffe0005, 0, 0xcafebabe00112233);
}

static void f_init(uint8_t *at)
{
    external(at, 0xfffe0004, 0, 0);
}

static void f_full(uint8_t *at)
{
    for (uint32_t i = 0; i < 256; i++)
        io_record(at + i * RECORD, 0x03f80000 + i, 0xfe09, (uint16_t)i, i, i % 8 << 27);
}

#define REGISTER(name, id, isc, maskable, swap, flags)                              \
    static void name(uint8_t *at)                                                   \
    {                                                                               \
        put(at, 4, id);                                                             \
        memcpy(at + 4, (const uint8_t[]){isc, maskable, swap, flags}, 4);           \
    }
#define MODIFY(name, id, type, mask, address)                                       \
    static void name(uint8_t *at)                                                   \
    {                                                                               \
        put(at, 4, id);                                                             \
        memcpy(at + 4, (const uint8_t[]){type, mask, 0, 0}, 4);                     \
        put(at + 8, 8, address);                                                    \
    }
#define NUMBERS(name, first, second)                                                \
    static void name(uint8_t *at)                                                   \
    {                                                                               \
        put(at, 2, first);                                                          \
        put(at + 2, 2, second);                                                     \
    }

REGISTER(f_register_5, 5, 3, 1, 0, 1)
REGISTER(f_register_63, 63, 7, 0, 1, 0)
REGISTER(f_register_64, 64, 0, 0, 0, 0)
REGISTER(f_register_isc8, 6, 8, 0xff, 0x80, 0xfe)
MODIFY(f_mask, 5, 1, 1, 0)
MODIFY(f_unmask, 5, 1, 0, 0)
MODIFY(f_map, 5, 2, 0, 0x8000000012345000)
MODIFY(f_unmap, 5, 3, 0, 0x8000000012345000)
NUMBERS(f_single, 3 << 8, 1) /* isc, a hole, mode */
NUMBERS(f_isc8, 8 << 8, 1)
NUMBERS(f_all_isc3, 0x10 << 8 | 0x10, 0) /* simm, nimm */
NUMBERS(f_all_0_7, 0x81 << 8 | 0x01, 0)
NUMBERS(f_clear_io, 0xfe09, 0x0011) /* subchannel id, number */
NUMBERS(f_clear_io_zero, 0, 0)

/* What is done before, and what is held after. */

static void fresh(struct host *h)
{
    is_fresh(h, true);
}

static void fresh_incapable(struct host *h)
{
    is_fresh(h, false);
}

/* The file's eight records, which are in listing order. */
static void listed(struct host *h)
{
    holds(h, file, 8);
}

/* One record is pending, and the guest takes it if it is allowed. */
static void taken(struct host *h)
{
    uint64_t type = number(file, 8);
    bool external = type == 0xfffe0005 || type == 0xffff2401, mchk = type == 0xfffe1000;
    uint8_t bit = external || mchk ? 0 : (uint8_t)(0x80 >> (number(file + 16, 4) >> 27 & 7));
    holds(h, file, 1);
    device_is(h, 0, 0, false);
    take(h, (uint8_t)~bit, !external, !mchk, RECORD, 0, 0, NULL);
    take(h, bit, external, mchk, RECORD, 0, 1, file);
    is_fresh(h, true);
}

static void sorted(struct host *h)
{
    static uint8_t all[256 * RECORD];
    for (unsigned isc = 0; isc < 8; isc++)
        for (unsigned n = 0; n < 32; n++)
            memcpy(all + (isc * 32 + n) * RECORD, file + (n * 8 + isc) * RECORD, RECORD);
    holds(h, all, 256);
    set(h, KVM_DEV_FLIC_ENQUEUE, RECORD, file, RECORD, EBUSY, 0);
    holds(h, all, 256);
}

static void has_5(struct host *h)
{
    set(h, KVM_DEV_FLIC_ADAPTER_REGISTER, 0, ((const uint8_t[]){0, 0, 0, 5, 3, 1, 0, 1}), 8, 0, 0);
}

static void has_5_masked(struct host *h)
{
    has_5(h);
    set(h, KVM_DEV_FLIC_ADAPTER_MODIFY, 0, ((const uint8_t[16]){0, 0, 0, 5, 1, 1}), 16, 0, 0);
}

static void is_5(struct host *h)
{
    place_is(h, 5, .used = true, .isc = 3, .maskable = true, .suppressible = true);
    set(h, KVM_DEV_FLIC_AIRQ_INJECT, 5, file, 0, 0, 1);
}

static void is_5_masked(struct host *h)
{
    place_is(h, 5, .used = true, .isc = 3, .maskable = true, .suppressible = true, .masked = true);
    set(h, KVM_DEV_FLIC_AIRQ_INJECT, 5, file, 0, 0, 0);
}

static void is_63(struct host *h)
{
    place_is(h, 63, .used = true, .isc = 7, .swap = true);
    place_is(h, 62, .used = false);
}

/* P9: adapter 5 of subclass 3 in mode SINGLE. */
static void injects_once(struct host *h)
{
    uint8_t record[RECORD];
    device_is(h, 0x10, 0, false);
    set(h, KVM_DEV_FLIC_AIRQ_INJECT, 5, file, 0, 0, 1);
    device_is(h, 0x10, 0x10, false);
    set(h, KVM_DEV_FLIC_AIRQ_INJECT, 5, file, 0, 0, 0);
    adapter_interrupt(record, 3);
    holds(h, record, 1);
}

static void injects_never(struct host *h)
{
    device_is(h, 0x10, 0x10, false);
    set(h, KVM_DEV_FLIC_AIRQ_INJECT, 5, file, 0, 0, 0);
    holds(h, NULL, 0);
}

static void masks_0_7(struct host *h)
{
    device_is(h, 0x81, 0x01, false);
}

static void has_256(struct host *h)
{
    static uint8_t all[256 * RECORD];
    f_full(all);
    set(h, KVM_DEV_FLIC_ENQUEUE, sizeof all, all, sizeof all, 0, 256);
}

/* Record 17 (0x11) is gone, and no other. */
static void without_17(struct host *h)
{
    static uint8_t all[256 * RECORD], left[256 * RECORD];
    size_t count = 0;
    f_full(all);
    for (unsigned isc = 0; isc < 8; isc++)
        for (unsigned i = isc; i < 256; i += 8)
            if (i != 17)
                memcpy(left + count++ * RECORD, all + i * RECORD, RECORD);
    holds(h, left, 255);
    set(h, KVM_DEV_FLIC_CLEAR_IO_IRQ, 4, file, 4, 0, 0);
    holds(h, left, 255);
}

static void has_adapter_interrupt(struct host *h)
{
    has_5(h);
    set(h, KVM_DEV_FLIC_AIRQ_INJECT, 5, file, 0, 0, 1);
}

static void is_adapter_interrupt(struct host *h)
{
    uint8_t record[RECORD];
    adapter_interrupt(record, 3);
    holds(h, record, 1);
}

static const struct vector vectors[] = {
    {"enqueue_io_virtio_isc3", 2, 72, 72, f_io_virtio, NULL, 0, 1, taken, false},
    {"enqueue_io_css0_isc7", 2, 72, 72, f_io_css0, NULL, 0, 1, taken, false},
    {"enqueue_io_max_nr_isc0", 2, 72, 72, f_io_max, NULL, 0, 1, taken, false},
    {"enqueue_bad_type_max_plus_1", 2, 72, 72, f_stop, NULL, EINVAL, 0, fresh, false},
    {"enqueue_adapter_isc3", 2, 72, 72, f_adapter, NULL, 0, 1, taken, false},
    {"enqueue_adapter_all_iscs", 2, 576, 576, f_adapters, NULL, 0, 8, listed, false},
    {"enqueue_service_sccb", 2, 72, 72, f_sccb, NULL, 0, 1, taken, false},
    {"enqueue_service_event", 2, 72, 72, f_event, NULL, 0, 1, taken, false},
    /* the second service record is accepted and dropped */
    {"enqueue_service_event_then_sccb", 2, 144, 144, f_event_sccb, NULL, 0, 2, taken, false},
    {"enqueue_service_sccb_then_event", 2, 144, 144, f_sccb_event, NULL, 0, 2, taken, false},
    {"enqueue_mchk_crw", 2, 72, 72, f_mchk, NULL, 0, 1, taken, false},
    {"enqueue_pfault_done", 2, 72, 72, f_done, NULL, 0, 1, taken, false},
    {"enqueue_bad_pfault_init", 2, 72, 72, f_init, NULL, EINVAL, 0, fresh, false},
    {"enqueue_full_256_io", 2, 18432, 18432, f_full, NULL, 0, 256, sorted, false},
    {"register_5_isc3", 6, 0, 8, f_register_5, NULL, 0, 0, is_5, false},
    {"register_63_isc7_swap", 6, 0, 8, f_register_63, NULL, 0, 0, is_63, false},
    {"register_bad_64", 6, 0, 8, f_register_64, NULL, EINVAL, 0, fresh, false},
    {"register_bad_isc8", 6, 0, 8, f_register_isc8, NULL, EINVAL, 0, fresh, false},
    {"modify_mask_5", 7, 0, 16, f_mask, has_5, 0, 0, is_5_masked, false},
    {"modify_unmask_5", 7, 0, 16, f_unmask, has_5_masked, 0, 0, is_5, false},
    {"modify_map_5", 7, 0, 16, f_map, has_5, 0, 0, is_5, false},
    {"modify_unmap_5", 7, 0, 16, f_unmap, has_5_masked, 0, 0, is_5_masked, false},
    {"aism_isc3_single", 9, 0, 4, f_single, has_5, 0, 0, injects_once, false},
    {"aism_bad_isc8", 9, 0, 4, f_isc8, NULL, EINVAL, 0, fresh, false},
    {"aism_all_isc3", 11, 0, 2, f_all_isc3, has_5, 0, 0, injects_never, false},
    {"aism_all_0_and_7", 11, 0, 2, f_all_0_7, NULL, 0, 0, masks_0_7, false},
    {"clear_io_fe09_0011", 8, 4, 4, f_clear_io, has_256, 0, 1, without_17, false},
    {"clear_io_zero", 8, 4, 4, f_clear_io_zero, has_adapter_interrupt, EINVAL, 0, is_adapter_interrupt, false},
    /* again, where the rest of the answer depends on the controller */
    {"modify_mask_5", 7, 0, 16, f_mask, NULL, EINVAL, 0, fresh, false},
    {"register_5_isc3", 6, 0, 8, f_register_5, has_5, EINVAL, 0, is_5, false},
    {"aism_isc3_single", 9, 0, 4, f_single, NULL, EOPNOTSUPP, 0, fresh_incapable, true},
    {"aism_bad_isc8", 9, 0, 4, f_isc8, NULL, EOPNOTSUPP, 0, fresh_incapable, true},
    {"aism_all_isc3", 11, 0, 2, f_all_isc3, NULL, EOPNOTSUPP, 0, fresh_incapable, true},
    {"clear_io_fe09_0011", 8, 4, 4, f_clear_io, NULL, 0, 0, fresh, false},
};

#define VECTORS (sizeof vectors / sizeof vectors[0])

static void run_vector(const struct vector *v)
{
    static uint8_t wanted[MOST];
    subject = v->name;
    struct host h = new_host();
    size_t size = read_file(v->name);
    if (size != v->size)
        fail(__LINE__, "bytes of the file", size, v->size);
    v->fields(wanted);
    same_bytes(__LINE__, "the file", file, wanted, size);
    make(&h, !v->incapable, 0, 0);
    if (v->before != NULL)
        v->before(&h);
    /* one byte less is not enough, and the answer is the same with more bytes */
    if (!v->incapable)
        set(&h, v->group, v->attribute, file, size - 1, EFAULT, 0);
    memset(file + size, 0xff, RECORD);
    struct host twin = new_host();
    make(&twin, !v->incapable, 0, 0);
    if (v->before != NULL)
        v->before(&twin);
    set(&twin, v->group, v->attribute, file, size + RECORD, v->code, v->count);
    v->after(&twin);
    free_host(&twin);
    set(&h, v->group, v->attribute, file, size, v->code, v->count);
    v->after(&h);
    free_host(&h);
}

/* Every file of the directory is in the table. */
static void all_listed(void)
{
    DIR *d = opendir(directory);
    if (d == NULL) {
        perror(directory);
        exit(1);
    }
    size_t files = 0;
    for (struct dirent *e; (e = readdir(d)) != NULL;) {
        size_t length = strlen(e->d_name);
        if (length < 5 || strcmp(e->d_name + length - 4, ".bin") != 0)
            continue;
        bool found = false;
        for (size_t i = 0; i < VECTORS; i++)
            found = found || (strlen(vectors[i].name) == length - 4 && strncmp(vectors[i].name, e->d_name, length - 4) == 0);
        subject = e->d_name;
        if (!found)
            fail(__LINE__, "entries in the table", 0, 1);
        files++;
    }
    subject = NULL;
    closedir(d);
    if (files != 28)
        fail(__LINE__, "files", files, 28);
}

int main(int argc, char **argv)
{
    begin("vectors");
    if (argc != 2) {
        fputs("usage: vectors DIRECTORY\n", stderr);
        return 2;
    }
    directory = argv[1];
    all_listed();
    for (int n = 0; n < PLACEMENTS; n++) {
        placement = (enum placement)n;
        for (size_t i = 0; i < VECTORS; i++)
            run_vector(vectors + i);
    }
    return 0;
}
