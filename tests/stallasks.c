#define _POSIX_C_SOURCE 200809L
#include "stallasks.h"
#include "programs.h"
#include <stdarg.h>
#include <stdlib.h>
#include <string.h>

enum { NAME_ROOM = 4096 };

static char *netstall, *stalltry, *case_file;
static char form_file[NAME_ROOM], missing_file[NAME_ROOM], beneath_a_file[NAME_ROOM], errors_to[NAME_ROOM];

void begin_asking(char *netstall_name, char *stalltry_name, char *scratch)
{
    netstall = netstall_name;
    stalltry = stalltry_name;
    case_file = scratch;
    snprintf(form_file, NAME_ROOM, "%s.form", scratch);
    snprintf(missing_file, NAME_ROOM, "%s.missing", scratch);
    snprintf(beneath_a_file, NAME_ROOM, "%s.form/form", scratch);
    snprintf(errors_to, NAME_ROOM, "%s.errors", scratch);
    errors_file = errors_to;
    remove(missing_file);
}

// A program that is left out has this name.
static int is_left_out(const char *program)
{
    return strcmp(program, "-") == 0;
}

int both_are_asked(void)
{
    return !is_left_out(netstall) && !is_left_out(stalltry);
}

void end_asking(void)
{
    remove(form_file);
    remove(case_file);
    remove(errors_to);
}

// ---- What the model's lines say

enum { BY_NETSTALL, BY_STALLTRY, PROGRAMS, REFUSALS = 25, LONG_CHAIN = 10, MANY_CHANNELS = 60 };
static const char *const programs[PROGRAMS] = {"netstall", "stalltry"};
static const char *const endings[ENDINGS] = {"empty", "idle source", "unready sink", "empty data buffer", "full control buffer", "circle", "no rule"};

// How often each program gave each ending and each refusal; chains of one channel and long ones, and the longest.
static struct { unsigned long ended[ENDINGS], refused[REFUSALS], of_one, of_many, longest; } met[PROGRAMS];

// The kinds of blocks at which no rule named a further channel; steps; fresh states refused; files that are no case; complaints.
static unsigned long no_rule_at[KINDS], steps, fresh_refused, no_cases, complaints;

// What is on trial, and how many channels of its chain were printed so far.
static const struct scene *on_trial;
static struct trial trial;
static unsigned chain_length;

static int may_end_at(unsigned ending, unsigned kind)
{
    switch (ending) {
    case IDLE_SOURCE: return kind == SOURCE;
    case UNREADY_SINK: return kind == SINK;
    case EMPTY_DATA: return kind == DATA || kind == FULL_DATA;
    case FULL_CONTROL: return kind == CONTROL;
    case NO_RULE: return kind == FORK || kind == MUX || kind == DEMUX || kind == MERGE;
    default: return 1;
    }
}

static void note_ending(unsigned program, unsigned ending, unsigned at, unsigned length)
{
    unsigned kind = on_trial->draft.block[at].kind;
    if (!may_end_at(ending, kind)) fail_trial(&trial, "a chain ends at a block of no such kind");
    met[program].ended[ending]++;
    met[program].of_one += length == 1;
    met[program].of_many += length >= LONG_CHAIN;
    if (length > met[program].longest) met[program].longest = length;
    if (ending == NO_RULE) no_rule_at[kind]++;
}

static void note_refusal(unsigned program, unsigned refusal)
{
    count_refused(refusal);
    met[program].refused[refusal]++;
}

// The channels of a chain in stalltry's line, each a number with a letter.
static unsigned length_in(const char *line)
{
    unsigned count = 0;
    for (; *line != '\n'; line++) count += *line >= '0' && *line <= '9' && (line[1] == 'v' || line[1] == 'r');
    return count;
}

static void note_stalltry(const char *line, size_t len)
{
    unsigned refusal, ending, at;
    (void)len;
    if (sscanf(line, "ask %*u: refusal %u", &refusal) == 1) {
        note_refusal(BY_STALLTRY, refusal);
        if (refusal == 0 && sscanf(strstr(line, " ending "), " ending %u at %u", &ending, &at) == 2) note_ending(BY_STALLTRY, ending, at, length_in(line));
    } else if (sscanf(line, "step: refusal %u", &refusal) == 1) {
        steps += refusal == 0;
        count_refused(refusal);
    } else if (sscanf(line, "load %u", &refusal) == 1) count_refused(refusal);
    else if (sscanf(line, "fresh %u", &refusal) == 1) fresh_refused += refusal != 0;
    else no_cases++;
}

// The ending that a last line of netstall's tells, by what it says of the block.
static unsigned ending_told(const char *line)
{
    static const char *const told[ENDINGS] = {
        [IDLE_SOURCE] = "a source", [UNREADY_SINK] = "a sink", [EMPTY_DATA] = "an empty data", [FULL_CONTROL] = "a full control"};
    const char *text = strchr(line, ':') + 2;
    for (unsigned e = IDLE_SOURCE; e <= FULL_CONTROL; e++)
        if (strncmp(text, told[e], strlen(told[e])) == 0) return e;
    return NO_RULE;
}

static void note_netstall(const char *line, size_t len)
{
    unsigned number;
    char behind;
    (void)len;
    if (sscanf(line, "refused %u", &number) == 1) note_refusal(BY_NETSTALL, number);
    else if (sscanf(line, "ends at block %u", &number) == 1) note_ending(BY_NETSTALL, ending_told(line), number, chain_length);
    else if (sscanf(line, "ends in a circle: channel %u", &number) == 1) note_ending(BY_NETSTALL, CIRCLE, 0, chain_length);
    else if (sscanf(line, "channel %u%c", &number, &behind) == 2 && behind == ':') chain_length++;
    else note_ending(BY_NETSTALL, EMPTY_CHAIN, 0, 0);
}

// What the model printed is sound; what is compared now is about this scene.
static void begin_trial(const struct scene *s)
{
    const char *fault = fault_of_chains();
    on_trial = s;
    chain_length = 0;
    if (fault) fail_trial(&trial, fault);
}

// ---- stalltry

static void try_file(const struct scene *s, const uint8_t *bytes, size_t len)
{
    if (is_left_out(stalltry)) return;
    FILE *out = begin_model();
    trial = (struct trial){s->class, s->seed, "case", bytes, len};
    snprintf(call, sizeof call, "stalltry %s", case_file);
    print_stalltry(out, bytes, len < CASE_ROOM ? len : CASE_ROOM);
    begin_trial(s);
    write_trial(&trial, case_file);
    wanted_errors = "";
    finish_trial(&trial, out, (char *[]){stalltry, case_file, NULL}, NULL, note_stalltry);
}

void try_case(const struct scene *s)
{
    try_file(s, s->bytes, s->len);
}

void try_longer_case(const struct scene *s, size_t more)
{
    static uint8_t bytes[2 * CASE_ROOM];
    memcpy(bytes, s->bytes, s->len);
    memcpy(bytes + s->len, s->bytes + s->len - more, more);
    try_file(s, bytes, s->len + more);
}

// ---- netstall

void begin_question(struct question *q)
{
    q->count = 0;
    q->used = 0;
    q->can_be_read = 0;
}

void next_argument(struct question *q)
{
    q->argument[q->count++] = q->text + q->used;
    q->text[q->used++] = 0;
}

// The text goes on where the zero byte of the last argument stands.
void type(struct question *q, const char *format, ...)
{
    va_list given;
    va_start(given, format);
    int len = vsnprintf(q->text + q->used - 1, TYPED_ROOM - q->used, format, given);
    va_end(given);
    q->used += (size_t)len;
    if (q->used >= TYPED_ROOM) exit(2);
}

void name_form(struct question *q, unsigned sort)
{
    const char *const names[FILE_SORTS] = {form_file, missing_file, ".", beneath_a_file, ""};
    next_argument(q);
    type(q, "%s", names[sort]);
    q->can_be_read = sort == GOOD_FILE;
}

// The question as it is typed, as far as it has room in a report.
static void name_call(const struct question *q)
{
    size_t at = (size_t)snprintf(call, sizeof call, "netstall");
    for (unsigned i = 0; i < q->count && at + 1100 < sizeof call; i++) at += (size_t)snprintf(call + at, 1100, " '%.1000s'", q->argument[i]);
}

void ask(const struct scene *s, const struct question *q)
{
    char *arguments[ARGUMENT_ROOM + 2] = {netstall};
    char text[64] = "";
    if (is_left_out(netstall)) return;
    FILE *out = begin_model(), *errors = fmemopen(text, sizeof text, "w");
    struct typed typed = {q->count, q->argument, q->can_be_read, s->form.bytes, s->form.len};
    trial = (struct trial){s->class, s->seed, "form", s->form.bytes, s->form.len};
    name_call(q);
    print_netstall(out, errors, &typed);
    fclose(errors);
    begin_trial(s);
    write_trial(&trial, form_file);
    memcpy(arguments + 1, q->argument, q->count * sizeof q->argument[0]);
    wanted_errors = text;
    finish_trial(&trial, out, arguments, NULL, note_netstall);
    complaints += *text != 0;
}

// ---- What was met

void print_asked(void)
{
    for (unsigned p = 0; p < PROGRAMS; p++) {
        printf("%s:", programs[p]);
        for (unsigned e = 0; e < ENDINGS; e++) printf(" %s %lu%s", endings[e], met[p].ended[e], e + 1 < ENDINGS ? "," : "");
        printf("; chains of one channel: %lu, of %d or more: %lu, the longest: %lu; refused", met[p].of_one, LONG_CHAIN, met[p].of_many, met[p].longest);
        for (unsigned n = 1; n < REFUSALS; n++)
            if (met[p].refused[n]) printf(" %u: %lu", n, met[p].refused[n]);
        printf("\n");
    }
    printf("no rule at forks: %lu, muxes: %lu, demuxes: %lu, merges: %lu, others: 0; ", no_rule_at[FORK], no_rule_at[MUX], no_rule_at[DEMUX], no_rule_at[MERGE]);
    printf("steps: %lu, fresh states refused: %lu, files that are no case: %lu, complaints: %lu\n", steps, fresh_refused, no_cases, complaints);
}

static void require_endings(unsigned program)
{
    char what[80];
    for (unsigned e = 0; e < ENDINGS; e++) {
        snprintf(what, sizeof what, "%s by %s", endings[e], programs[program]);
        require(met[program].ended[e] > 0, what);
    }
    require(met[program].of_one > 0, "a chain of one channel");
    require(met[program].of_many > 0, "a chain of ten channels or more");
    require(met[program].longest >= MANY_CHANNELS, "a chain of sixty channels or more");
}

static void require_refusals(unsigned program, const unsigned *wanted, unsigned count)
{
    char what[80];
    for (unsigned i = 0; i < count; i++) {
        snprintf(what, sizeof what, "refusal %u by %s", wanted[i], programs[program]);
        require(met[program].refused[wanted[i]] > 0, what);
    }
}

void require_asked(void)
{
    static const unsigned of_asking[] = {BAD_NET, BAD_STATE, BAD_ENDS, NO_CHANNEL};
    static const unsigned of_netstall[] = {1, 2, 3, 4, 5, 6, 7, 8, 9, 10, 11, BAD_ENDS, ALLOWANCE_USED, NO_CHANNEL};
    static const unsigned branching[] = {FORK, MUX, DEMUX, MERGE};
    for (unsigned p = 0; p < PROGRAMS; p++) require_endings(p);
    require_refusals(BY_STALLTRY, of_asking, sizeof of_asking / sizeof of_asking[0]);
    require_refusals(BY_NETSTALL, of_netstall, sizeof of_netstall / sizeof of_netstall[0]);
    for (unsigned i = 0; i < sizeof branching / sizeof branching[0]; i++) require(no_rule_at[branching[i]] > 0, "no rule at each kind that branches");
    require(met[BY_STALLTRY].refused[ALLOWANCE_USED] == 0, "no question that is refused for its count");
    require(times_refused(ALLOWANCE_USED) > met[BY_NETSTALL].refused[ALLOWANCE_USED], "a step that is refused for its count");
    require(steps > 0, "a step");
    require(fresh_refused > 0, "a fresh state that is refused");
    require(no_cases > 0, "a file that is no case");
    require(complaints > 0, "a complaint");
}
