// netdiff as a C programmer writes it: both files whole in memory, the words of every channel gathered in one pass over each.
// usage: diff FIRST SECOND [CHANNEL]
#include <stdint.h>
#include <stdio.h>
#include <stdlib.h>

enum { CHANNELS = 128, RECORD_BYTES = 8 };

struct words { uint32_t *word; size_t count; };

static uint8_t *read_file(const char *path, size_t *len)
{
    FILE *file = fopen(path, "rb");
    if (!file || fseek(file, 0, SEEK_END) != 0) {
        perror(path);
        exit(2);
    }
    *len = (size_t)ftell(file);
    rewind(file);
    uint8_t *bytes = malloc(*len + 1);
    if (!bytes || fread(bytes, 1, *len, file) != *len) {
        perror(path);
        exit(2);
    }
    fclose(file);
    return bytes;
}

static uint32_t number_at(const uint8_t *at)
{
    return (uint32_t)at[0] << 24 | (uint32_t)at[1] << 16 | (uint32_t)at[2] << 8 | at[3];
}

// The words of the channels from `from` to `to`.
static void gather(const char *path, unsigned from, unsigned to, struct words *list)
{
    size_t len, counts[CHANNELS] = {0};
    uint8_t *bytes = read_file(path, &len);
    for (size_t i = 0; i < len; i += RECORD_BYTES) counts[bytes[i + 3] & (CHANNELS - 1)]++;
    for (unsigned c = from; c < to; c++) list[c].word = malloc(4 * counts[c] + 1);
    for (size_t i = 0; i < len; i += RECORD_BYTES) {
        unsigned c = bytes[i + 3] & (CHANNELS - 1);
        if (from <= c && c < to) list[c].word[list[c].count++] = number_at(bytes + i + 4);
    }
    free(bytes);
}

static void print_count(const char *text, size_t count)
{
    if (count == 0) printf("%sno words\n", text);
    else printf("%s%zu word%s\n", text, count, count == 1 ? "" : "s");
}

static void print_line(unsigned channel, const struct words *a, const struct words *b)
{
    size_t least = a->count < b->count ? a->count : b->count, i = 0;
    while (i < least && a->word[i] == b->word[i]) i++;
    printf("channel %u: ", channel);
    if (i < least) printf("differ at %zu: %u %u\n", i, a->word[i], b->word[i]);
    else if (a->count < b->count) print_count("first begins second by ", b->count - i);
    else if (b->count < a->count) print_count("second begins first by ", a->count - i);
    else print_count("equal, ", i);
}

int main(int count, char **arguments)
{
    static struct words first[CHANNELS], second[CHANNELS];
    if (count < 3 || count > 4) {
        fprintf(stderr, "usage: diff FIRST SECOND [CHANNEL]\n");
        return 2;
    }
    unsigned from = count > 3 ? (unsigned)strtoul(arguments[3], NULL, 10) : 0, to = count > 3 ? from + 1 : CHANNELS;
    gather(arguments[1], from, to, first);
    gather(arguments[2], from, to, second);
    for (unsigned c = from; c < to; c++) print_line(c, &first[c], &second[c]);
    return 0;
}
