// The calls of both libraries from C++, in one program.
#include "xive.h"
#include "flic.h"

static flic_controller c;
static flic_device d;
static flic_place t[FLIC_PLACES];
static xive_sources s;

static bool flic_calls()
{
    const uint8_t adapter[8] = {0, 0, 0, 5, 3, 1, 0, 1};
    uint8_t record[FLIC_RECORD], list[FLIC_LONGEST_LIST];
    if (flic_make(&c, &d, t, FLIC_PLACES, true).code != 0 || !c.ais)
        return false;
    if (flic_set(&c, &d, t, FLIC_PLACES, KVM_DEV_FLIC_ADAPTER_REGISTER, 0, adapter, 8).code != 0)
        return false;
    if (!t[5].used || t[5].isc != 3 || !t[5].maskable || t[5].swap || !t[5].suppressible || t[5].masked)
        return false;
    if (flic_set(&c, &d, t, FLIC_PLACES, KVM_DEV_FLIC_AIRQ_INJECT, 5, nullptr, 0).count != 1)
        return false;
    if (flic_get(&c, &d, t, FLIC_PLACES, KVM_DEV_FLIC_GET_ALL_IRQS, sizeof record, record, sizeof record).count != 1)
        return false;
    const flic_answer written = flic_write_list(&c, &d, t, FLIC_PLACES, list, sizeof list);
    if (written.code != 0 || written.count != 20 + 2 * 24 + 8 + 72)
        return false;
    if (flic_play_list(&c, &d, t, FLIC_PLACES, list, written.count).count != 2)
        return false;
    return flic_take(&c, 0xff, false, false, record, sizeof record).count == 1 && record[16] == 0x98;
}

// a null pointer where the length is 0
static bool flic_lent_nothing()
{
    if (flic_get(&c, &d, t, FLIC_PLACES, KVM_DEV_FLIC_GET_ALL_IRQS, 1, nullptr, 0).code != EFAULT)
        return false;
    if (flic_take(&c, 0xff, true, true, nullptr, 0).code != EFAULT)
        return false;
    if (flic_write_list(&c, &d, t, FLIC_PLACES, nullptr, 0).code != ENOMEM)
        return false;
    if (flic_play_list(&c, &d, t, FLIC_PLACES, nullptr, 0).code != EFAULT)
        return false;
    if (flic_make(&c, &d, nullptr, 0, true).code != EFAULT)
        return false;
    return flic_make(&c, &d, t, FLIC_PLACES - 1, true).code == EFAULT;
}

static bool xive_calls()
{
    const uint8_t lsi[XIVE_WORD] = {0, 0, 0, 0, 0, 0, 0, KVM_XIVE_LEVEL_SENSITIVE | KVM_XIVE_LEVEL_ASSERTED};
    const uint8_t good[XIVE_WORD] = {0x12, 0x34, 0x56, 0x79, 0, 0, 0, 15 << KVM_XIVE_SOURCE_SERVER_SHIFT | 3};
    const uint8_t wrong[XIVE_WORD] = {0, 0, 0, 0, 0, 0, 0, 16 << KVM_XIVE_SOURCE_SERVER_SHIFT};
    xive_make(&s);
    if (xive_sync(&s, 5).code != EINVAL || xive_sync(&s, XIVE_SOURCES).code != ENOENT)
        return false;
    if (xive_initialise(&s, XIVE_SOURCES, lsi, sizeof lsi).code != E2BIG)
        return false;
    if (xive_initialise(&s, 5, lsi, sizeof lsi).code != 0 || xive_sync(&s, 5).code != 0)
        return false;
    xive_reading r = xive_read(&s, 5);
    if (r.code != 0 || r.level != 1 || r.type != 1 || !r.masked || r.count != 0 || r.word != 0)
        return false;
    if (xive_target(&s, 5, wrong, sizeof wrong).code != EINVAL || xive_target(&s, 5, good, sizeof good).code != 0)
        return false;
    r = xive_read(&s, 5);
    if (r.code != 0 || r.level != 1 || r.type != 1 || r.masked || r.count != 0 || r.word != 0x123456790000007b)
        return false;
    // a null pointer where the length is 0
    const xive_answer nothing = xive_initialise(&s, 5, nullptr, 0);
    return nothing.code == EFAULT && nothing.count == 0 && xive_target(&s, 5, nullptr, 0).code == EFAULT;
}

int main()
{
    if (!flic_calls() || !xive_calls())
        return 1;
    // each leaves the other as it was
    return flic_lent_nothing() && xive_read(&s, 5).word == 0x123456790000007b && t[5].used ? 0 : 1;
}
