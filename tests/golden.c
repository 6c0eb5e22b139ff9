// Cases worked out by hand from document 01, as request 1 leaves it: its example, its trial runs, and the rules on which an error is plausible.
#include "golden.h"
#include "generate.h"
#include "harness.h"
#include "model.h"
#include "../include/whemdrosk.h"
#include <ctype.h>
#include <stdio.h>
#include <stdlib.h>
#include <string.h>

// Blocks as kind.m=value and their ports; a stream for each source ("-" where there is none); masks in hexadecimal; the deliveries.
struct golden { const char *name, *net, *streams, *masks, *want; };

#define ALL3 "f/f f/f f/f"

static const struct golden goldens[] = {
    {"document 01's example", "0.0 0|8.0 0 1|3.0=5 1 2|1.0 2", "1 2 3", ALL3 " " ALL3,
     "0 0 1|1 0 2|1 1 1|1 2 6|2 0 3|2 1 2|2 2 7|3 1 3|3 2 8|end 6"},
    {"adding goes round", "0.0 0|3.0=1 0 1|1.0 1", "4294967295", "1/1", "0 0 4294967295|0 1 0|end 1"},
    {"subtracting goes round", "0.0 0|3.1=1 0 1|1.0 1", "0", "1/1", "0 0 0|0 1 4294967295|end 1"},
    {"less is strict", "0.0 0|3.3=3 0 1|1.0 1", "3 2 4", ALL3, "0 0 3|0 1 0|1 0 2|1 1 1|2 0 4|2 1 0|end 3"},
    {"less is unsigned", "0.0 0|3.3=2147483648 0 1|1.0 1", "1 4294967295", "1/1 1/1", "0 0 1|0 1 1|1 0 4294967295|1 1 0|end 2"},
    {"equal gives 1 or 0", "0.0 0|3.2=3 0 1|1.0 1", "3 4", "1/1 1/1", "0 0 3|0 1 1|1 0 4|1 1 0|end 2"},
    {"the first operand is port 0's", "0.0 0|0.0 1|2.1 0 1 2|1.0 2", "7,9", "3/1", "0 0 7|0 1 9|0 2 4294967294|end 1"},
    {"an operator waits for both", "0.0 0|0.0 1|2.0 0 1 2|1.0 2", "7,9", "1/1 2/1", "1 0 7|1 1 9|1 2 16|end 2"},
    {"demux of 2, select 1", "0.0 0|0.0 1|6.2 0 1 2 3|1.0 2|1.0 3", "1,9", "3/3", "0 0 1|0 1 9|0 3 9|end 1"},
    {"demux of 2, select 2", "0.0 0|0.0 1|6.2 0 1 2 3|1.0 2|1.0 3", "2,9", "3/3", "0 0 2|0 1 9|0 3 9|end 1"},
    {"demux of 2, select 2, only output 0 ready", "0.0 0|0.0 1|6.2 0 1 2 3|1.0 2|1.0 3", "2,9", "3/1 3/2", "1 0 2|1 1 9|1 3 9|end 2"},
    {"demux of 3, the greatest select", "0.0 0|0.0 1|6.3 0 1 2 3 4|1.0 2|1.0 3|1.0 4", "4294967295 3 2 0,5 6 7 8", ALL3 " f/f",
     "0 0 4294967295|0 1 5|0 4 5|1 0 3|1 1 6|1 4 6|2 0 2|2 1 7|2 4 7|3 0 0|3 1 8|3 2 8|end 4"},
    {"mux of 2, select 1, then 0", "0.0 0|0.0 1|0.0 2|5.2 0 1 2 3|1.0 3", "1 0,5,6", "7/1 7/1", "0 0 1|0 2 6|0 3 6|1 0 0|1 1 5|1 3 5|end 2"},
    {"mux of 2, select 2", "0.0 0|0.0 1|0.0 2|5.2 0 1 2 3|1.0 3", "2,5,6", "7/1 7/1", "0 0 2|0 2 6|0 3 6|end 2"},
    {"mux of 2, the greatest select", "0.0 0|0.0 1|0.0 2|5.2 0 1 2 3|1.0 3", "4294967295,5,6", "3/1 7/0 7/1", "2 0 4294967295|2 2 6|2 3 6|end 3"},
    {"full data buffer, output ready", "0.0 0|9.0=4 0 1|1.0 1", "5", "1/1 1/1", "0 0 5|0 1 4|1 1 5|end 2"},
    {"full data buffer, output not ready", "0.0 0|9.0=4 0 1|1.0 1", "5", "1/0 0/1", "1 0 5|1 1 4|end 2"},
    {"data buffer whose first word is 0", "0.0 0|9.0=0 0 1|1.0 1", "5", "0/1 0/1", "0 1 0|end 2"},
    {"control buffer holds a word not taken", "0.0 0|10.0 0 1|1.0 1", "7 8", "1/0 1/0 1/1 1/1", "0 0 7|2 1 7|3 0 8|3 1 8|end 4"},
    {"control buffer passes in the same cycle", "0.0 0|10.0 0 1|1.0 1", "7", "1/1", "0 0 7|0 1 7|end 1"},
    {"fork whose copies go one by one", "0.0 0|4.2 0 1 2|1.0 1|1.0 2", "7 8", "1/1 1/2 1/3", "0 1 7|1 0 7|1 2 7|2 0 8|2 1 8|2 2 8|end 3"},
    {"fork that waits with one copy gone", "0.0 0|4.2 0 1 2|1.0 1|1.0 2", "7 8", "1/1 1/1 1/3", "0 1 7|2 0 7|2 2 7|end 3"},
    {"merge keeps an untaken winner", "0.0 0|0.0 1|7.2 0 1 2 3|1.0 2|1.0 3", "5,6", "2/0 3/3 3/3", "1 1 6|1 2 6|1 3 1|2 0 5|2 2 5|2 3 0|end 3"},
    {"merge prefers the lowest", "0.0 0|0.0 1|7.2 0 1 2 3|1.0 2|1.0 3", "5,6", "3/3 3/3", "0 0 5|0 2 5|0 3 0|1 1 6|1 2 6|1 3 1|end 2"},
    {"merge whose data goes first", "0.0 0|0.0 1|7.2 0 1 2 3|1.0 2|1.0 3", "5,6", "2/1 3/2", "0 2 6|1 1 6|1 3 1|end 2"},
    {"merge whose report goes first", "0.0 0|0.0 1|7.2 0 1 2 3|1.0 2|1.0 3", "5,6", "2/2 3/1", "0 3 1|1 1 6|1 2 6|end 2"},
    {"source holds what it offered", "0.0 0|1.0 0", "1 2", "1/0 0/1 0/1", "1 0 1|end 3"},
    {"source that is not let", "0.0 0|1.0 0", "1", "0/1 fffffffe/1 1/1", "2 0 1|end 3"},
    {"bits beyond are ignored", "0.0 0|1.0 0", "1", "fffffffe/ffffffff ffffffff/fffffffe", "end 2"},
    {"sources by block order", "1.0 1|0.0 1|1.0 0|0.0 0", "5,6", "1/1 2/2", "0 1 5|1 0 6|end 2"},
    {"ring without sources or sinks", "9.0=3 0 1|10.0 1 0", "-", "0/0 0/0", "0 0 3|0 1 3|1 0 3|1 1 3|end 2"},
    {"data buffer on itself", "0.0 0|1.0 0|8.0 1 1", "1", "1/1", "refused 11"},
    {"full data buffer on itself", "0.0 0|1.0 0|9.0=1 1 1", "1", "1/1", "refused 11"},
    {"control buffer on itself", "0.0 0|1.0 0|10.0 1 1", "1", "1/1", "refused 10"},
    {"10 is judged before 11", "8.0 0 0|10.0 1 1", "-", "", "refused 10"},
    {"constant on itself", "0.0 0|1.0 0|3.0=1 1 1", "1", "1/1", "refused 10"},
    {"one loop of a fork bare, one buffered", "4.2 0 1 2|10.0 1 3|8.0 3 4|2.0 4 2 0", "-", "", "refused 10"},
    {"channel with two readers", "0.0 0|1.0 0|1.0 0", "1", "1/1", "refused 8"},
    {"channel with two writers", "0.0 0|0.0 0|1.0 0", "1,1", "1/1", "refused 8"},
};

// Reads a net: each block is kind.m, =value where it has one, and its ports.
static void parse_net(const char *text, struct draft *d)
{
    d->blocks = d->channels = 0;
    for (char *at = (char *)text; *at; at += *at == '|') {
        unsigned ports[PORT_ROOM], value = 0, count = 0;
        unsigned kind = (unsigned)strtoul(at, &at, 10), m = (unsigned)strtoul(at + 1, &at, 10);
        if (*at == '=') value = (unsigned)strtoul(at + 1, &at, 10);
        while (*at == ' ') ports[count++] = (unsigned)strtoul(at, &at, 10);
        for (unsigned i = 0; i < count; i++)
            if (ports[i] >= d->channels) d->channels = ports[i] + 1;
        add_drawn(d, kind, m, value, ports);
    }
}

// Reads streams, each ended by a comma or the text's end; answers their number.
static size_t parse_streams(const char *text, uint32_t *words, uint32_t *ends, size_t *count)
{
    size_t streams = 0;
    *count = 0;
    if (*text == '-') return 0;
    for (char *at = (char *)text;; at++) {
        while (isdigit((unsigned char)*at) || *at == ' ') words[(*count)++] = (uint32_t)strtoul(at, &at, 10);
        ends[streams++] = (uint32_t)*count;
        if (*at == 0) return streams;
    }
}

static size_t parse_masks(const char *text, uint32_t *masks)
{
    size_t count = 0;
    for (char *at = (char *)text; *at; at += *at == '/' || *at == ' ') masks[count++] = (uint32_t)strtoul(at, &at, 16);
    return count;
}

void deliveries_as_text(uint64_t answer, const uint8_t *trace, char *text, size_t room)
{
    size_t at = 0;
    if (refusal_in(answer)) {
        snprintf(text, room, "refused %u", refusal_in(answer));
        return;
    }
    for (size_t i = 0; i < records_in(answer) && at + 64 < room; i++) {
        const uint8_t *r = trace + 8 * i;
        unsigned head = (unsigned)r[0] << 24 | (unsigned)r[1] << 16 | (unsigned)r[2] << 8 | r[3];
        unsigned word = (unsigned)r[4] << 24 | (unsigned)r[5] << 16 | (unsigned)r[6] << 8 | r[7];
        at += (size_t)snprintf(text + at, room - at, "%u %u %u|", head >> 7, head & 127, word);
    }
    snprintf(text + at, room - at, "end %u", cycles_in(answer));
}

static void expect(const struct job *job, const char *who, run_call *run, const char *want)
{
    char text[4096], why[9000];
    uint8_t trace[4096];
    watch(job);
    uint64_t answer = run(job->form.bytes, job->form.len, job->words.bytes, job->words.len, job->ends.bytes, job->ends.len, job->masks.bytes,
                          job->masks.len, trace, sizeof trace);
    deliveries_as_text(answer, trace, text, sizeof text);
    snprintf(why, sizeof why, "%s says %s, by hand it is %s", who, text, want);
    if (strcmp(text, want) != 0) fail(job, why);
    count_passed("worked out by hand");
}

static void try_golden(const struct golden *golden)
{
    struct draft d;
    struct form form;
    uint32_t numbers[3][64];
    uint8_t bytes[3][256];
    size_t words, streams = parse_streams(golden->streams, numbers[0], numbers[1], &words), masks = parse_masks(golden->masks, numbers[2]);
    parse_net(golden->net, &d);
    write_form(&d, &form);
    struct job job = {.name = golden->name, .form = {form.bytes, form.len}, .trace_len = 1000, .want = ANY};
    job.words = as_bytes(numbers[0], words, bytes[0]);
    job.ends = as_bytes(numbers[1], streams, bytes[1]);
    job.masks = as_bytes(numbers[2], masks, bytes[2]);
    expect(&job, "the model", model_run, golden->want);
    expect(&job, "the library", whemdrosk_run, golden->want);
    job.name = "worked out by hand";
    compare(&job, NULL);
}

// Document 01's form, byte by byte as it is printed there.
static void try_printed_form(void)
{
    static const uint8_t form[18] = {0x10, 0, 4, 3, 0, 1, 0, 0, 9, 0x80, 0, 0, 0, 0x28, 0x10, 0x42, 0, 0x80};
    static const uint8_t words[12] = {0, 0, 0, 1, 0, 0, 0, 2, 0, 0, 0, 3}, ends[4] = {0, 0, 0, 3};
    uint8_t masks[48];
    memset(masks, 0xff, sizeof masks);
    struct job job = {.name = "document 01's form", .form = {form, 18}, .words = {words, 12}, .ends = {ends, 4}, .masks = {masks, 48},
                      .trace_len = 72, .want = 0};
    expect(&job, "the model", model_run, goldens[0].want);
    expect(&job, "the library", whemdrosk_run, goldens[0].want);
    if (compare(&job, NULL) != ((uint64_t)6 << 29 | 9)) fail(&job, "the packed answer is not ending 0, cycles 6, records 9");
    struct draft d;
    struct form written;
    parse_net(goldens[0].net, &d);
    write_form(&d, &written);
    if (written.len != 18 || memcmp(written.bytes, form, 18) != 0) fail(&job, "the tests write this form in another way");
}

// Short forms of which document 01 or its readings name the refusal.
static void try_short_forms(void)
{
    static const struct { uint8_t bytes[6]; size_t len; int want; } forms[] = {
        {{0}, 0, 1}, {{0x10}, 1, 1}, {{0x20}, 1, 2}, {{0x00}, 1, 2}, {{0x1f}, 1, 1}, {{0x10, 0x01}, 2, 2}, {{0x18, 0x00}, 2, 2}, {{0x10, 0}, 2, 1},
        {{0x10, 0, 1}, 3, 3}, {{0x10, 0, 2}, 3, 1}, {{0x10, 0, 65}, 3, 3}, {{0x10, 0, 2, 0}, 4, 3}, {{0x10, 0, 2, 129}, 4, 3}, {{0x10, 0, 2, 1}, 4, 1},
        {{0x10, 0, 2, 1, 0xb0}, 5, 4}, {{0x10, 0, 2, 1, 0x01}, 5, 5}, {{0x10, 0, 2, 1, 0x00, 0x02}, 6, 6}, {{0x10, 0, 2, 1, 0x00, 0x00}, 6, 1},
    };
    for (size_t i = 0; i < sizeof forms / sizeof forms[0]; i++) {
        struct job job = {.name = "short forms worked out by hand", .form = {forms[i].bytes, forms[i].len}, .want = forms[i].want};
        watch(&job);
        if (model_check(job.form.bytes, job.form.len) != (uint32_t)job.want) fail(&job, "the model refuses by another number");
        if (whemdrosk_check(job.form.bytes, job.form.len) != (uint32_t)job.want) fail(&job, "the library refuses by another number");
        compare(&job, NULL);
    }
}

void try_goldens(void)
{
    try_printed_form();
    try_short_forms();
    for (size_t i = 0; i < sizeof goldens / sizeof goldens[0]; i++) try_golden(&goldens[i]);
}
