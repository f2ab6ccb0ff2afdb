/* The numbers of the three system calls, by the architecture of the program that makes them. */
#ifndef CALLS_OF_H
#define CALLS_OF_H

#include <linux/audit.h>
#include <stdbool.h>
#include <stdint.h>
#include <sys/syscall.h>

/* This machine's own programs, and those of 32 bits that it runs besides. The numbers of the three calls follow one another. */
#if defined(__x86_64__)
enum { WIDE_CALLS = SYS_add_key, NARROW_CALLS = 286 };
#define WIDE_ARCHITECTURE AUDIT_ARCH_X86_64
#define NARROW_ARCHITECTURE AUDIT_ARCH_I386
#define CALL_MASK 0xbfffffffU /* x32: the same calls, with a bit */
#elif defined(__aarch64__)
enum { WIDE_CALLS = SYS_add_key, NARROW_CALLS = 309 };
#define WIDE_ARCHITECTURE AUDIT_ARCH_AARCH64
#define NARROW_ARCHITECTURE AUDIT_ARCH_ARM
#define CALL_MASK 0xffffffffU
#else
#error "reqkey-trap knows the system calls of x86_64 and aarch64"
#endif

_Static_assert(SYS_request_key == SYS_add_key + 1 && SYS_keyctl == SYS_add_key + 2, "the three calls follow one another");

enum call { CALL_ADD_KEY, CALL_REQUEST_KEY, CALL_KEYCTL, CALL_OTHER };

static inline bool is_narrow(uint32_t architecture)
{
    return architecture == NARROW_ARCHITECTURE;
}

static inline enum call call_of(uint32_t architecture, uint32_t number)
{
    uint32_t call = (number & CALL_MASK) - (uint32_t)(is_narrow(architecture) ? NARROW_CALLS : WIDE_CALLS);
    return call < CALL_OTHER ? (enum call)call : CALL_OTHER;
}

#endif
