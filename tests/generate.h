// Random nets that are accepted by the way they are made, their stored forms, and streams and masks that keep them busy.
#ifndef GENERATE_H
#define GENERATE_H

#include <stddef.h>
#include <stdint.h>

enum { SOURCE, SINK, OPERATOR, CONSTANT, FORK, MUX, DEMUX, MERGE, DATA, FULL_DATA, CONTROL, KINDS };

// Room beyond the 64 blocks and 128 channels of a net, for growing past them and for nets that are too big on purpose.
enum { BLOCK_ROOM = 128, CHANNEL_ROOM = 256, PORT_ROOM = 10, FORM_ROOM = 4096 };

// A row of random numbers: where it is now, and where it began.
struct random { uint64_t state, first; };

// The next 32 random bits; a number below n; one chance in n; the numbers below count in some order.
uint32_t random_bits(struct random *r);
uint32_t below(struct random *r, uint32_t n);
int chance(struct random *r, uint32_t n);
void shuffle(struct random *r, unsigned count, unsigned *order);

// A net being drawn; ports hold channel numbers, inputs first; from and to say which port a channel leaves and enters.
struct place { unsigned block, port; };
struct drawn { unsigned kind, m, value, port[PORT_ROOM]; };
struct draft {
    unsigned blocks, channels;
    struct drawn block[BLOCK_ROOM];
    struct place from[CHANNEL_ROOM], to[CHANNEL_ROOM];
};

// How far a draft may grow.
struct limits { unsigned blocks, channels, sources, sinks; };

// What a generated net should be like: its size limits, how many channel ends to swap, whether loops get their buffers, which patterns.
struct wish { struct limits limits; unsigned swaps; int repaired; uint32_t patterns; };

unsigned inputs_of(unsigned kind, unsigned m);
unsigned outputs_of(unsigned kind, unsigned m);
unsigned count_kind(const struct draft *d, unsigned kind);

// Draws a net by a wish; one that fits the limits.
void draw(struct random *r, const struct wish *wish, struct draft *d);
// Patterns that add many sources, many sinks, or many channels for their blocks; patterns that add no merge.
uint32_t patterns_of_sources(void);
uint32_t patterns_of_sinks(void);
uint32_t patterns_of_channels(void);
uint32_t patterns_without_merges(void);

// Adds a block with its ports as given.
void add_drawn(struct draft *d, unsigned kind, unsigned m, unsigned value, const unsigned *ports);

// The refusal that a draft's loops earn: 10, 11 or 0.
uint32_t refusal_of_loops(const struct draft *d);

// A stored form, with the bit where each field lies.
struct form {
    size_t len, end;
    size_t kind_at[BLOCK_ROOM], m_at[BLOCK_ROOM], value_at[BLOCK_ROOM], port_at[BLOCK_ROOM][PORT_ROOM];
    uint8_t bytes[FORM_ROOM];
};
void write_form(const struct draft *d, struct form *form);
void set_bits(uint8_t *bytes, size_t at, unsigned width, uint32_t field);

// Streams for a draft's sources, each up to longest words; answers the number of words. Ends are one per source.
size_t draw_streams(struct random *r, const struct draft *d, unsigned longest, uint32_t *words, uint32_t *ends);

// Ways of setting masks, and masks for some cycles, offer then ready.
enum { MASKS_FULL, MASKS_HALF, MASKS_SPARSE, MASKS_BURSTS, MASKS_SLOW_SINKS, MASKS_SLOW_SOURCES, MASKS_DENSE, MASK_WAYS };
void draw_masks(struct random *r, unsigned way, size_t cycles, uint32_t *masks);

#endif
