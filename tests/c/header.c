/* The headers beside kvm.h, included before it or after it: the same numbers, and the record's size is that of kvm.h. */
#ifndef KVM_FIRST
#include "flic.h"
#include "xive.h"
#endif
#include <linux/kvm.h>

/* As kvm.h of s390 has them; the one on other machines has not. A different number in flic.h does not build. */
#define KVM_DEV_FLIC_GET_ALL_IRQS 1
#define KVM_DEV_FLIC_ENQUEUE 2
#define KVM_DEV_FLIC_CLEAR_IRQS 3
#define KVM_DEV_FLIC_APF_ENABLE 4
#define KVM_DEV_FLIC_APF_DISABLE_WAIT 5
#define KVM_DEV_FLIC_ADAPTER_REGISTER 6
#define KVM_DEV_FLIC_ADAPTER_MODIFY 7
#define KVM_DEV_FLIC_CLEAR_IO_IRQ 8
#define KVM_DEV_FLIC_AISM 9
#define KVM_DEV_FLIC_AIRQ_INJECT 10
#define KVM_DEV_FLIC_AISM_ALL 11

/* As kvm.h of powerpc has them, and likewise xive.h. */
#define KVM_XIVE_LEVEL_SENSITIVE (1ULL << 0)
#define KVM_XIVE_LEVEL_ASSERTED (1ULL << 1)
#define KVM_XIVE_SOURCE_PRIORITY_SHIFT 0
#define KVM_XIVE_SOURCE_PRIORITY_MASK 0x7
#define KVM_XIVE_SOURCE_SERVER_SHIFT 3
#define KVM_XIVE_SOURCE_SERVER_MASK 0xfffffff8ULL
#define KVM_XIVE_SOURCE_MASKED_SHIFT 32
#define KVM_XIVE_SOURCE_MASKED_MASK 0x100000000ULL
#define KVM_XIVE_SOURCE_EISN_SHIFT 33
#define KVM_XIVE_SOURCE_EISN_MASK 0xfffffffe00000000ULL

#include "flic.h"
#include "xive.h"

_Static_assert(sizeof(struct kvm_s390_irq) == FLIC_RECORD, "size of a record");
_Static_assert(KVM_S390_INT_IO_MIN == 0 && KVM_S390_INT_IO_MAX == 0xfffdffff, "I/O types");
_Static_assert(KVM_S390_INT_PFAULT_DONE == 0xfffe0005 && KVM_S390_MCHK == 0xfffe1000, "types");
_Static_assert(KVM_S390_INT_SERVICE == 0xffff2401, "type");
_Static_assert(KVM_S390_INT_VIRTIO == 0xffff2603, "a type that is refused");
_Static_assert(FLIC_LIST_HEADER + 131 * FLIC_LIST_ENTRY + 64 * (8 + 16) + FLIC_LONGEST_ENQUEUE + 2 == FLIC_LONGEST_LIST,
               "longest list");

#define WIDTH(type, field) sizeof(((struct type *)0)->field)
_Static_assert(XIVE_SOURCES == 1024 && XIVE_SERVERS == 16, "sources and servers");
_Static_assert(WIDTH(xive_answer, code) == 4 && WIDTH(xive_answer, count) == 8, "an answer");
_Static_assert(WIDTH(xive_reading, code) == 4 && WIDTH(xive_reading, count) == 8 && WIDTH(xive_reading, word) == 8,
               "a reading");
_Static_assert(sizeof(__u64) == XIVE_WORD, "the word that an attribute of kvm.h points to");
_Static_assert((KVM_XIVE_SOURCE_EISN_MASK ^ KVM_XIVE_SOURCE_MASKED_MASK ^ KVM_XIVE_SOURCE_SERVER_MASK ^
                KVM_XIVE_SOURCE_PRIORITY_MASK) == UINT64_MAX,
               "each bit of a targeting in one of its four fields");
