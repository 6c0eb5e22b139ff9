// How an editor uses the library: checks a stored net, runs it over streams, and prints each delivery.
// usage: example [-o TRACE] [-r READY] FORM CYCLES STREAM..
// A stream for each source, in block order: words with commas between them, as 1,2,3. Nothing stalls but by READY: the ready masks of the first cycles likewise, as 3,1,3, where bit k is
// sink k's. The records of the run are also written to the file TRACE.
#include "../include/whemdrosk.h"
#include <stdio.h>
#include <stdlib.h>
#include <string.h>

// Longer than any form that can be read through, so that a byte too many is seen.
enum { FORM_ROOM = 1024, WORD_ROOM = 4096, STREAM_ROOM = 32, MOST_CHANNELS = 128 };

static uint8_t form[FORM_ROOM], words[4 * WORD_ROOM], ends[4 * STREAM_ROOM];

static void give_up(const char *path)
{
    perror(path);
    exit(2);
}

static size_t read_form(const char *path)
{
    FILE *file = fopen(path, "rb");
    if (!file) give_up(path);
    size_t len = fread(form, 1, sizeof form, file);
    fclose(file);
    return len;
}

// Adds a stream's words behind the first count words; answers how many there are then.
static size_t add_words(const char *stream, size_t count)
{
    char *at = (char *)stream;
    while (*at && count < WORD_ROOM) {
        whemdrosk_put(words + 4 * count++, (uint32_t)strtoul(at, &at, 10));
        if (*at != ',') break;
        at++;
    }
    return count;
}

// All masks set, but for the ready masks that are given.
static void set_masks(uint8_t *masks, size_t cycles, const char *ready)
{
    char *at = (char *)ready;
    memset(masks, 0xff, 8 * cycles);
    for (size_t i = 0; i < cycles && *at; i++) {
        whemdrosk_put(masks + 8 * i + 4, (uint32_t)strtoul(at, &at, 10));
        if (*at != ',') break;
        at++;
    }
}

static void print_deliveries(uint64_t answer, const uint8_t *trace)
{
    for (size_t i = 0; i < WHEMDROSK_RECORDS(answer); i++)
        printf("%u %u %u\n", whemdrosk_cycle_of(trace, i), whemdrosk_channel_of(trace, i), whemdrosk_word_of(trace, i));
    printf("end %u\n", WHEMDROSK_CYCLES(answer));
}

// Writes the records of a run, and nothing of the trace behind them.
static void write_records(const char *path, uint64_t answer, const uint8_t *trace)
{
    size_t len = (size_t)WHEMDROSK_RECORDS(answer) * WHEMDROSK_RECORD_BYTES;
    FILE *file = fopen(path, "wb");
    if (!file) give_up(path);
    size_t written = fwrite(trace, 1, len, file);
    if (fclose(file) != 0 || written != len) give_up(path);
}

// What stands behind an option at the front of the arguments, which both are then passed over; or nothing.
static const char *take_option(int *count, char ***arguments, const char *option)
{
    if (*count < 3 || strcmp((*arguments)[1], option) != 0) return NULL;
    *arguments += 2;
    *count -= 2;
    return (*arguments)[0];
}

int main(int count, char **arguments)
{
    const char *trace_file = take_option(&count, &arguments, "-o"), *ready = take_option(&count, &arguments, "-r");
    if (count < 3 || count > 3 + STREAM_ROOM) {
        fprintf(stderr, "usage: example [-o TRACE] [-r READY] FORM CYCLES STREAM..\n");
        return 2;
    }
    size_t form_len = read_form(arguments[1]), cycles = strtoul(arguments[2], NULL, 10), streams = (size_t)count - 3, word_count = 0;
    uint32_t refusal = whemdrosk_check(form, form_len);
    if (refusal != WHEMDROSK_ACCEPTED) {
        printf("refused %u\n", refusal);
        return 1;
    }
    for (size_t k = 0; k < streams; k++) {
        word_count = add_words(arguments[3 + k], word_count);
        whemdrosk_put(ends + 4 * k, (uint32_t)word_count);
    }
    size_t masks_len = 8 * cycles, trace_len = cycles * MOST_CHANNELS * WHEMDROSK_RECORD_BYTES;
    uint8_t *masks = malloc(masks_len + 1), *trace = malloc(trace_len + 1);
    if (!masks || !trace) return 2;
    set_masks(masks, cycles, ready ? ready : "");
    uint64_t answer = whemdrosk_run(form, form_len, words, 4 * word_count, ends, 4 * streams, masks, masks_len, trace, trace_len);
    if (WHEMDROSK_REFUSAL(answer)) printf("refused %u\n", WHEMDROSK_REFUSAL(answer));
    else print_deliveries(answer, trace);
    if (trace_file && !WHEMDROSK_REFUSAL(answer)) write_records(trace_file, answer, trace);
    free(masks);
    free(trace);
    return WHEMDROSK_REFUSAL(answer) != 0;
}
