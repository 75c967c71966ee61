#include "support.h"

#include <inttypes.h>
#include <stdio.h>
#include <string.h>

uint8_t unwritten[MOST];

static struct call last; /* the call that runs, or the last one that did */

static void tell(void)
{
    static const char *const kinds[] = {"make", "set", "get", "take", "write list", "play list"};
    static const char *const others[] = {"random bytes", "cannot be touched", "null"};
    fprintf(stderr, "%s", kinds[last.kind]);
    if (last.kind == SET || last.kind == GET)
        fprintf(stderr, ", group %" PRIu32 ", attribute %" PRIu64, last.group, last.attribute);
    if (last.kind != MAKE)
        fprintf(stderr, ", %zu bytes%s", last.length, last.bytes == NULL ? " (null)" : "");
    if (last.kind != TAKE && last.places != FLIC_PLACES)
        fprintf(stderr, ", %zu places (%s)", last.places, others[last.other]);
}

void begin(const char *name)
{
    begin_test(name, tell);
    for (size_t i = 0; i < MOST; i++)
        unwritten[i] = (uint8_t)(0x80 + 37 * i + i / 256);
}

void io_record(uint8_t *at, uint64_t type, uint16_t id, uint16_t nr, uint32_t parm, uint32_t word)
{
    memset(at, 0, FLIC_RECORD);
    put(at, 8, type);
    put(at + 8, 2, id);
    put(at + 10, 2, nr);
    put(at + 12, 4, parm);
    put(at + 16, 4, word);
}

/* Hosts and calls. */

struct host new_host(void)
{
    struct host h = {
        .controller = lend(sizeof(struct flic_controller)),
        .device = lend(sizeof(struct flic_device)),
        .table = lend(FLIC_PLACES * sizeof(struct flic_place)),
    };
    memset(h.controller.at, 0, h.controller.size);
    memset(h.device.at, 0, h.device.size);
    memset(h.table.at, 0, h.table.size);
    return h;
}

void free_host(struct host *h)
{
    give_back(&h->controller);
    give_back(&h->device);
    give_back(&h->table);
}

const struct flic_controller *controller_of(const struct host *h)
{
    return (const struct flic_controller *)(const void *)h->controller.at;
}

const struct flic_device *device_of(const struct host *h)
{
    return (const struct flic_device *)h->device.at;
}

const struct flic_place *table_of(const struct host *h)
{
    return (const struct flic_place *)h->table.at;
}

/* The table that is not the controller's own. In a page that cannot be touched its length need not be true. */
static struct lent other_table(const struct call *call)
{
    if (call->other == UNTOUCHABLE)
        return (struct lent){.at = untouchable()};
    if (call->other == NO_TABLE)
        return (struct lent){.at = NULL};
    struct lent m = lend(call->places * sizeof(struct flic_place));
    random_bytes(&m);
    return m;
}

struct flic_answer run(int line, struct host *h, const struct call *call, uint8_t *after)
{
    static uint8_t controller[sizeof(struct flic_controller)], device[sizeof(struct flic_device)];
    static uint8_t table[FLIC_PLACES * sizeof(struct flic_place)], other[MOST];
    struct flic_controller *c = (struct flic_controller *)(void *)h->controller.at;
    struct flic_device *d = (struct flic_device *)h->device.at;
    bool another = call->kind != TAKE && call->places != FLIC_PLACES;
    bool reads = call->kind == GET || call->kind == WRITE;
    bool sets = call->kind == SET || call->kind == PLAY;
    bool still = call->refused || another;

    struct lent buffer = {.at = NULL};
    if (call->bytes != NULL)
        buffer = lend(call->length);
    else if (call->length > 0)
        fail(line, "bytes of a null pointer", call->length, 0);
    if (call->length > 0)
        memcpy(buffer.at, call->bytes, call->length);
    struct lent lent_table = h->table;
    if (another)
        lent_table = other_table(call);
    if (another && lent_table.size > 0)
        memcpy(other, lent_table.at, lent_table.size);
    struct flic_place *t = (struct flic_place *)lent_table.at;
    memcpy(controller, h->controller.at, sizeof controller);
    memcpy(device, h->device.at, sizeof device);
    memcpy(table, h->table.at, sizeof table);

    /* What this call may not write cannot be written while it runs. */
    if (sets || still)
        writable(&buffer, false);
    if (reads || still) {
        writable(&h->controller, false);
        writable(&lent_table, false);
    }
    if (reads || still || call->kind == TAKE)
        writable(&h->device, false);
    if (still || call->kind == TAKE)
        writable(&h->table, false);

    last = *call;
    line_now = line;
    struct flic_answer r = {0, 0};
    switch (call->kind) {
    case MAKE:
        r = flic_make(c, d, t, call->places, call->ais);
        break;
    case SET:
        r = flic_set(c, d, t, call->places, call->group, call->attribute, buffer.at, call->length);
        break;
    case GET:
        r = flic_get(c, d, t, call->places, call->group, call->attribute, buffer.at, call->length);
        break;
    case TAKE:
        r = flic_take(c, call->subclasses, call->external, call->machine_check, buffer.at, call->length);
        break;
    case WRITE:
        r = flic_write_list(c, d, t, call->places, buffer.at, call->length);
        break;
    case PLAY:
        r = flic_play_list(c, d, t, call->places, buffer.at, call->length);
        break;
    }
    line_now = 0;

    writable(&h->controller, true);
    writable(&h->device, true);
    writable(&h->table, true);
    check_filler(line, &h->controller);
    check_filler(line, &h->device);
    check_filler(line, &h->table);
    check_filler(line, &buffer);
    bool refused = call->refused || (r.code != 0 && call->kind != PLAY);
    if (another) {
        check_filler(line, &lent_table);
        same_bytes(line, "wrong table", lent_table.at, other, lent_table.size);
        if (call->other == RANDOM_BYTES)
            give_back(&lent_table);
        if (r.code != EFAULT || r.count != 0)
            fail(line, "code for a wrong table", r.code, EFAULT);
    }
    if (refused && r.count != 0)
        fail(line, "count of a refusal", r.count, 0);
    if (refused || reads || another)
        same_bytes(line, "controller", h->controller.at, controller, sizeof controller);
    if (refused || reads || another || call->kind == TAKE) {
        same_bytes(line, "device record", h->device.at, device, sizeof device);
        same_bytes(line, "table", h->table.at, table, sizeof table);
    }
    if (refused || sets || another)
        same_bytes(line, "buffer", buffer.at, call->bytes, buffer.size);
    if (after != NULL && buffer.size > 0)
        memcpy(after, buffer.at, buffer.size);
    give_back(&buffer);
    return r;
}

void expect(int line, struct host *h, struct call call, uint32_t code, uint64_t count, const uint8_t *written,
            size_t size)
{
    static uint8_t after[MOST];
    call.refused |= code != 0 && call.kind != PLAY;
    struct flic_answer r = run(line, h, &call, after);
    if (r.code != code)
        fail(line, "code", r.code, code);
    if (r.count != count)
        fail(line, "count", r.count, count);
    if (size > call.length)
        fail(line, "bytes lent", call.length, size);
    if (size > 0)
        same_bytes(line, "bytes written", after, written, size);
    if (call.length > size)
        same_bytes(line, "bytes not written", after + size, call.bytes + size, call.length - size);
}

void expect_listing(int line, struct host *h, const uint8_t *records, size_t count)
{
    size_t size = count * FLIC_RECORD;
    struct call call = {.kind = GET, .places = FLIC_PLACES, .group = KVM_DEV_FLIC_GET_ALL_IRQS, .bytes = unwritten};
    /* a buffer of exact size, a longer one, and a claim of one byte too few */
    call.attribute = call.length = size == 0 ? 1 : size;
    expect(line, h, call, 0, count, records, size);
    call.attribute = call.length = size + 1;
    expect(line, h, call, 0, count, records, size);
    if (size > 0) {
        call.attribute = size - 1;
        expect(line, h, call, ENOMEM, 0, NULL, 0);
        call.attribute = size;
        call.length = size - 1;
        expect(line, h, call, EFAULT, 0, NULL, 0);
    }
    /* the header's fields are where the library has them: the same records, read from the controller */
    const struct flic_controller *c = controller_of(h);
    unsigned named[FLIC_ROOM] = {0}; /* how often the rows name each slot */
    size_t at = 0, waiting = 0;
    for (unsigned queue = 0; queue < 9; queue++) {
        if (queue < 8 && c->counts[queue] > 0)
            waiting |= 0x80 >> queue;
        for (size_t i = 0; i < c->counts[queue]; i++, at++) {
            if (at >= count)
                fail(line, "records in the queues", at + 1, count);
            size_t slot = c->order[queue * FLIC_ROOM + i];
            same_bytes(line, "record in its slot", c->slots + slot * FLIC_RECORD, records + at * FLIC_RECORD, FLIC_RECORD);
            named[slot]++;
        }
    }
    if (c->counts[9] != at)
        fail(line, "records of the queues together", c->counts[9], at);
    if (c->counts[10] != waiting)
        fail(line, "subclasses that have records", c->counts[10], waiting);
    for (size_t i = 0; at + i < FLIC_ROOM; i++)
        named[c->order[9 * FLIC_ROOM + i]]++;
    for (unsigned slot = 0; slot < FLIC_ROOM; slot++)
        if (named[slot] != 1)
            fail(line, "times that a slot is named", named[slot], 1);
    for (unsigned single = 0; single < 2; single++)
        if (c->singles[2 * FLIC_RECORD + single] != 0) {
            if (at >= count)
                fail(line, "records with the single ones", at + 1, count);
            same_bytes(line, "single record", c->singles + single * (size_t)FLIC_RECORD, records + at * FLIC_RECORD,
                       FLIC_RECORD);
            at++;
        }
    if (at != count)
        fail(line, "records in the controller", at, count);
}

void expect_device(int line, struct host *h, uint8_t simm, uint8_t nimm, bool apf)
{
    const struct flic_device *d = device_of(h);
    if (d->simm != simm)
        fail(line, "simm", d->simm, simm);
    if (d->nimm != nimm)
        fail(line, "nimm", d->nimm, nimm);
    if (d->apf != apf)
        fail(line, "page-fault flag", d->apf, apf);
    struct call call = {.kind = GET, .places = FLIC_PLACES, .group = KVM_DEV_FLIC_AISM_ALL, .bytes = unwritten, .length = 2};
    uint8_t masks[2] = {simm, nimm};
    if (controller_of(h)->ais) {
        expect(line, h, call, 0, 0, masks, 2);
        call.length = 1;
        expect(line, h, call, EFAULT, 0, NULL, 0);
    } else {
        expect(line, h, call, EOPNOTSUPP, 0, NULL, 0);
    }
}

void expect_place(int line, struct host *h, unsigned id, struct flic_place place)
{
    const struct flic_place *p = table_of(h) + id;
    if (p->used != place.used)
        fail(line, "used", p->used, place.used);
    if (p->isc != place.isc)
        fail(line, "isc", p->isc, place.isc);
    if (p->maskable != place.maskable)
        fail(line, "maskable", p->maskable, place.maskable);
    if (p->swap != place.swap)
        fail(line, "swap", p->swap, place.swap);
    if (p->suppressible != place.suppressible)
        fail(line, "suppressible", p->suppressible, place.suppressible);
    if (p->masked != place.masked)
        fail(line, "masked", p->masked, place.masked);
}

void expect_fresh(int line, struct host *h, bool ais)
{
    static const uint8_t free_places[FLIC_PLACES * sizeof(struct flic_place)];
    uint8_t list[FLIC_LIST_HEADER];
    if (controller_of(h)->ais != ais)
        fail(line, "capability", controller_of(h)->ais, ais);
    expect_listing(line, h, NULL, 0);
    expect_device(line, h, 0, 0, false);
    same_bytes(line, "fresh table", h->table.at, free_places, sizeof free_places);
    put(list, 4, 20);
    put(list + 4, 4, 0);
    put(list + 8, 4, 20);
    put(list + 12, 4, 20);
    put(list + 16, 4, ais);
    struct call call = {.kind = WRITE, .places = FLIC_PLACES, .bytes = unwritten, .length = 20};
    expect(line, h, call, 0, 20, list, 20);
    call.length = 19;
    expect(line, h, call, ENOMEM, 0, NULL, 0);
}

/* Tables of a wrong length: of random bytes, in a page that cannot be touched, and a null pointer. */
static const struct {
    enum other other;
    size_t places;
} wrong[] = {
    {RANDOM_BYTES, 0},
    {RANDOM_BYTES, 1},
    {RANDOM_BYTES, 63},
    {RANDOM_BYTES, 65},
    {RANDOM_BYTES, 128},
    {UNTOUCHABLE, 0},
    {UNTOUCHABLE, 1},
    {UNTOUCHABLE, 63},
    {UNTOUCHABLE, 65},
    {UNTOUCHABLE, 128},
    {UNTOUCHABLE, (1ull << 32) + FLIC_PLACES}, /* the right one only at 32 bits */
    {UNTOUCHABLE, PTRDIFF_MAX / sizeof(struct flic_place)},
    {NO_TABLE, 0},
};

#define WRONG (sizeof wrong / sizeof wrong[0])

void expect_wrong_makes(int line, struct host *h)
{
    for (size_t i = 0; i < WRONG; i++)
        for (unsigned ais = 0; ais < 2; ais++) {
            struct call call = {.kind = MAKE, .places = wrong[i].places, .other = wrong[i].other, .ais = ais};
            expect(line, h, call, EFAULT, 0, NULL, 0);
        }
}

void expect_wrong_tables(int line, struct host *h)
{
    static const uint8_t empty_list[20] = {0, 0, 0, 20, 0, 0, 0, 0, 0, 0, 0, 20, 0, 0, 0, 20, 0, 0, 0, 1};
    static const uint8_t ids[] = {0, 5, 62, 63, 64};
    expect_wrong_makes(line, h);
    for (size_t i = 0; i < WRONG; i++) {
        struct call call = {.places = wrong[i].places, .other = wrong[i].other};
        for (uint32_t group = 0; group <= 12; group++) {
            call.group = group;
            for (size_t n = 0; n < sizeof ids; n++) {
                /* a good REGISTER or MODIFY of this id, or a record; also with another attribute, and cut short */
                uint8_t payload[FLIC_RECORD] = {0, 0, 0, ids[n], 1, (uint8_t)(n % 2), 1, 1};
                const uint64_t attributes[] = {0, ids[n], FLIC_RECORD};
                call.kind = SET;
                call.bytes = payload;
                for (unsigned a = 0; a < 3; a++) {
                    call.attribute = attributes[a];
                    call.length = a == 1 ? 16 : sizeof payload;
                    expect(line, h, call, EFAULT, 0, NULL, 0);
                }
                call.bytes = n == 0 ? NULL : payload;
                call.length = n;
                expect(line, h, call, EFAULT, 0, NULL, 0);
            }
            for (unsigned n = 0; n < 3; n++) {
                static const uint64_t attributes[] = {0, 3, FLIC_RECORD};
                call.kind = GET;
                call.bytes = n == 1 ? NULL : unwritten;
                call.attribute = attributes[n];
                call.length = n == 1 ? 0 : FLIC_RECORD;
                expect(line, h, call, EFAULT, 0, NULL, 0);
            }
        }
        call.kind = WRITE;
        call.bytes = NULL;
        call.length = 0;
        expect(line, h, call, EFAULT, 0, NULL, 0);
        call.bytes = unwritten;
        call.length = FLIC_LONGEST_LIST;
        expect(line, h, call, EFAULT, 0, NULL, 0);
        call.kind = PLAY;
        call.bytes = empty_list;
        call.length = sizeof empty_list;
        expect(line, h, call, EFAULT, 0, NULL, 0);
        call.length = 19;
        expect(line, h, call, EFAULT, 0, NULL, 0);
    }
}
