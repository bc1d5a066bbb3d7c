/* The C interface of the granule protection library: docs/ABI.md. Link target/staticlib/libabi.a, which `compare/archive` makes.
 * A slice passes as a pointer and a length in words of 64 bits. No two of the slices that one call is lent may overlap, as far as one of them is
 * written. Every function is proved for every input: none has a precondition besides that the slices are there. */
#ifndef ANSEDGUL_H
#define ANSEDGUL_H

#include <stddef.h>
#include <stdint.h>

#ifdef __cplusplus
extern "C" {
#endif

/* bits of `flags` */
enum {
    GPT_GPC = 1,
    GPT_SA = 2,
    GPT_NSP = 4,
    GPT_NA6 = 8,
    GPT_NA7 = 16,
    GPT_NSO = 32,
    GPT_GDI = 64,
    GPT_GPC2 = 128
};

/* answers: the low byte of what is handed back */
enum {
    GPT_OK = 0,
    GPT_INVALID_CONFIGURATION = 1,
    GPT_NOT_INITIALIZED = 2,
    GPT_FEW_L0_WORDS = 3,
    GPT_BAD_ARENA = 4,
    GPT_SHORT_LOG = 5,
    GPT_INVALID_REQUEST = 6,
    GPT_INVALID_L0_ENTRY = 7,
    GPT_OUTSIDE_ARENA = 8,
    GPT_INVALID_L1_ENTRY = 9,
    GPT_INVALID_L1_ENTRY_IN_FUSE = 10
};

/* the least words of a log, and the kinds of its records of four words */
enum {
    GPT_LOG_WORDS = 52,
    GPT_FILL = 1,
    GPT_DSB_OSHST = 2,
    GPT_TLBI_RANGE = 3,
    GPT_DSB_OSH = 4,
    GPT_GRANULE_STORE = 5
};

/* answer + 2^8 * gpi                          (gpi 0 where refused) */
uint64_t gpt_lookup(uint8_t pps, uint8_t pgs, uint8_t l0gptsz, uint8_t flags,
                    const uint64_t *l0, size_t l0_len,
                    const uint64_t *arena, size_t arena_len, uint64_t base,
                    uint64_t address);

/* answer + 2^8 * records + 2^16 * stores */
uint64_t gpt_set(uint8_t pps, uint8_t pgs, uint8_t l0gptsz, uint8_t flags,
                 const uint64_t *l0, size_t l0_len,
                 uint64_t *arena, size_t arena_len, uint64_t base,
                 uint64_t *log, size_t log_len,
                 uint64_t address, uint64_t gpi);

/* answer + 2^16 * stores */
uint64_t gpt_mend(uint8_t pps, uint8_t pgs, uint8_t l0gptsz, uint8_t flags,
                  const uint64_t *l0, size_t l0_len,
                  uint64_t *arena, size_t arena_len, uint64_t base,
                  uint64_t address, uint64_t limit);

/* answer + 2^8 * (1 if normal; 0 if not, or refused) */
uint64_t gpt_check(uint8_t pps, uint8_t pgs, uint8_t l0gptsz, uint8_t flags,
                   const uint64_t *l0, size_t l0_len,
                   const uint64_t *arena, size_t arena_len, uint64_t base,
                   uint64_t address);

#ifdef __cplusplus
}
#endif

#endif
