// Two traces of one net under other stalls: on each of 128 channels the same words, delivered in another order of channels, so that one list begins the other.
// usage: traces FIRST SECOND RECORDS
#include <stdint.h>
#include <stdio.h>
#include <stdlib.h>

enum { CHANNELS = 128, RECORD_BYTES = 8 };

static uint64_t next_random(uint64_t *state)
{
    *state = *state * 6364136223846793005u + 1442695040888963407u;
    return *state >> 33;
}

// Word k of a channel: the same in both traces.
static uint32_t word_of(uint32_t channel, uint32_t k)
{
    return (k * CHANNELS + channel) * 2654435761u;
}

static void write_trace(const char *path, uint64_t seed, unsigned long records)
{
    uint32_t next[CHANNELS] = {0};
    FILE *file = fopen(path, "wb");
    if (!file) {
        perror(path);
        exit(2);
    }
    for (unsigned long i = 0; i < records; i++) {
        uint32_t channel = (uint32_t)next_random(&seed) % CHANNELS, head = (uint32_t)(i / 16 << 7) | channel, word = word_of(channel, next[channel]++);
        uint8_t record[RECORD_BYTES];
        for (unsigned k = 0; k < 4; k++) {
            record[k] = (uint8_t)(head >> 8 * (3 - k));
            record[4 + k] = (uint8_t)(word >> 8 * (3 - k));
        }
        fwrite(record, 1, sizeof record, file);
    }
    if (fclose(file) != 0) {
        perror(path);
        exit(2);
    }
}

int main(int count, char **arguments)
{
    if (count != 4) {
        fprintf(stderr, "usage: traces FIRST SECOND RECORDS\n");
        return 2;
    }
    unsigned long records = strtoul(arguments[3], NULL, 10);
    write_trace(arguments[1], 1, records);
    write_trace(arguments[2], 2, records);
    return 0;
}
