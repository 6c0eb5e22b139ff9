// Document 01's two exports in plain C, to compare the library with. Made from the document alone.
#ifndef MODEL_H
#define MODEL_H

#include <stddef.h>
#include <stdint.h>

// The form's refusal, 1 to 11, or 0.
uint32_t model_check(const uint8_t *form, size_t form_len);

// Refusal 8 bits, ending 1, cycles 26, records 29.
uint64_t model_run(const uint8_t *form, size_t form_len, const uint8_t *words, size_t words_len, const uint8_t *ends, size_t ends_len,
                   const uint8_t *masks, size_t masks_len, uint8_t *trace, size_t trace_len);

#endif
