// The two exports in plain C: no proofs, written to be fast in the natural way.
#ifndef PLAIN_H
#define PLAIN_H

#include <stddef.h>
#include <stdint.h>

uint32_t plain_check(const uint8_t *form, size_t form_len);
uint64_t plain_run(const uint8_t *form, size_t form_len, const uint8_t *words, size_t words_len, const uint8_t *ends, size_t ends_len,
                   const uint8_t *masks, size_t masks_len, uint8_t *trace, size_t trace_len);

#endif
