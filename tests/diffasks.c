#define _POSIX_C_SOURCE 200809L
#include "diffasks.h"
#include "programs.h"
#include <string.h>

static char *netdiff, *difftry, *case_file;
static char trace_files[2][NAME_ROOM], missing_file[NAME_ROOM], beneath_a_file[NAME_ROOM], errors_to[NAME_ROOM];

struct bytes on_trial;

void begin_asking(char *netdiff_name, char *difftry_name, char *scratch)
{
    netdiff = netdiff_name;
    difftry = difftry_name;
    case_file = scratch;
    snprintf(trace_files[0], NAME_ROOM, "%s.first", scratch);
    snprintf(trace_files[1], NAME_ROOM, "%s.second", scratch);
    snprintf(missing_file, NAME_ROOM, "%s.missing", scratch);
    snprintf(beneath_a_file, NAME_ROOM, "%s.first/trace", scratch);
    snprintf(errors_to, NAME_ROOM, "%s.errors", scratch);
    errors_file = errors_to;
    remove(missing_file);
}

void end_asking(void)
{
    for (unsigned k = 0; k < 2; k++) remove(trace_files[k]);
    remove(case_file);
    remove(errors_to);
}

// ---- What the model's lines say

enum { NO_WORDS, EQUAL, FIRST_BEGINS, SECOND_BEGINS, DIFFER, VERDICTS };
static const char *const verdicts[VERDICTS] = {"equal, no words", "equal", "first begins second", "second begins first", "differ"};

enum { BY_NETDIFF, BY_DIFFTRY, PROGRAMS };

// How often each was said by each program; how often netdiff was started, by the number of arguments, and complained; files that are no case.
static unsigned long said[PROGRAMS][VERDICTS], starts[MOST_ARGUMENTS + 1], complaints, no_cases;

static void note_verdict(unsigned program, const char *text)
{
    unsigned v = 0;
    while (v < DIFFER && strncmp(text, verdicts[v], strlen(verdicts[v])) != 0) v++;
    said[program][v]++;
}

static void note_netdiff(const char *line, size_t len)
{
    const char *colon = memchr(line, ':', len);
    if (colon) note_verdict(BY_NETDIFF, colon + 2);
}

static void note_difftry(const char *line, size_t len)
{
    unsigned refusal;
    (void)len;
    if (sscanf(line, "%*[a-z]: refusal %u", &refusal) == 1) count_refused(refusal);
    else if (strncmp(line, "compare: ", 9) == 0) note_verdict(BY_DIFFTRY, line + 9);
    else no_cases += *line == 'n';
}

// ---- netdiff

struct trial trial_of(const struct pair *p)
{
    return (struct trial){p->class, p->seed, "first trace", p->trace[0].bytes, p->trace[0].len};
}

void write_traces(const struct pair *p)
{
    for (unsigned k = 0; k < 2; k++) {
        struct trial trial = {p->class, p->seed, "trace", p->trace[k].bytes, p->trace[k].len};
        write_trial(&trial, trace_files[k]);
    }
}

// The question about both traces, or about a channel of them where one is typed.
struct question question_of(const struct pair *p, const char *channel)
{
    struct question q = {.arguments = channel ? 3 : 2, .channel = channel};
    for (unsigned k = 0; k < 2; k++) q.trace[k] = (struct trace){trace_files[k], 1, p->trace[k].bytes, p->trace[k].len};
    return q;
}

void give_file(struct question *q, unsigned k, unsigned sort)
{
    const char *const names[] = {trace_files[k], trace_files[k], missing_file, ".", beneath_a_file, ""};
    q->trace[k].name = names[sort];
    q->trace[k].can_be_read = sort <= BROKEN_TRACE;
}

// The question as it is typed; arguments of no meaning stand behind the channel.
static void name_call(char *const *arguments)
{
    int at = snprintf(call, sizeof call, "netdiff");
    for (unsigned n = 1; arguments[n]; n++) at += snprintf(call + at, sizeof call - (size_t)at, " '%.1000s'", arguments[n]);
}

void ask(const struct pair *p, const struct question *q)
{
    static char text[TEXT_ROOM];
    char *arguments[MOST_ARGUMENTS + 2] = {netdiff, (char *)q->trace[0].name, (char *)q->trace[1].name, (char *)q->channel, "1", "2"};
    struct trial trial = trial_of(p);
    FILE *out = begin_model(), *errors = fmemopen(text, sizeof text, "w");
    *text = 0;
    print_netdiff(out, errors, q);
    fclose(errors);
    wanted_errors = text;
    arguments[1 + q->arguments] = NULL;
    name_call(arguments);
    finish_trial(&trial, out, arguments, NULL, note_netdiff);
    starts[q->arguments]++;
    complaints += *text != 0;
    if (strstr(text, "(refusal 22)")) count_refused(NO_RECORDS);
}

void ask_channel(const struct pair *p, unsigned channel)
{
    char typed[16];
    snprintf(typed, sizeof typed, "%u", channel);
    struct question q = question_of(p, typed);
    ask(p, &q);
}

void ask_all(const struct pair *p)
{
    struct question q = question_of(p, NULL);
    ask(p, &q);
}

// ---- difftry

void set_number(unsigned n, uint32_t number)
{
    set_bits(on_trial.at, 32 * n, 32, number);
}

int have_room(const struct pair *p)
{
    return CASE_HEADER + p->trace[0].len + p->trace[1].len <= CASE_ROOM;
}

// Channels and rooms are 0 as yet.
void begin_case(const struct pair *p)
{
    memset(on_trial.at, 0, CASE_HEADER);
    on_trial.len = CASE_HEADER;
    for (unsigned k = 0; k < 2; k++) {
        set_number(NUMBERS * k + BYTES_NUMBER, (uint32_t)p->trace[k].len);
        memcpy(on_trial.at + on_trial.len, p->trace[k].bytes, p->trace[k].len);
        on_trial.len += p->trace[k].len;
    }
}

void set_list(unsigned k, uint32_t channel, uint32_t room)
{
    set_number(NUMBERS * k + CHANNEL_NUMBER, channel);
    set_number(NUMBERS * k + ROOM_NUMBER, room);
}

void try_case(const struct pair *p)
{
    struct trial trial = {p->class, p->seed, "case", on_trial.at, on_trial.len};
    FILE *out = begin_model();
    print_difftry(out, on_trial.at, on_trial.len);
    write_trial(&trial, case_file);
    snprintf(call, sizeof call, "difftry %s", case_file);
    wanted_errors = "";
    finish_trial(&trial, out, (char *[]){difftry, case_file, NULL}, NULL, note_difftry);
}

// ---- What was asked and said

unsigned long times_different(void)
{
    return said[BY_NETDIFF][DIFFER] + said[BY_DIFFTRY][DIFFER];
}

void print_asked(void)
{
    static const char *const programs[PROGRAMS] = {"netdiff", "difftry"};
    printf("netdiff was started with a channel: %lu times, without: %lu, and complained: %lu; files that are no case: %lu\n", starts[3], starts[2], complaints,
           no_cases);
    for (unsigned program = 0; program < PROGRAMS; program++) {
        printf("%s said", programs[program]);
        for (unsigned v = 0; v < VERDICTS; v++) printf(" %s: %lu%s", verdicts[v], said[program][v], v + 1 < VERDICTS ? ";" : "\n");
    }
}

void require_asked(void)
{
    for (unsigned v = 0; v < VERDICTS; v++) require(said[BY_NETDIFF][v] > 0 && (said[BY_DIFFTRY][v] > 0 || v == NO_WORDS), verdicts[v]);
    for (unsigned n = 0; n <= MOST_ARGUMENTS; n++) require(starts[n] > 0, "a number of arguments");
    require(times_refused(NO_RECORDS) > 0, "refusal 22");
    require(times_refused(SHORT_LIST) > 0, "refusal 23");
    require(no_cases > 0, "a file that is no case");
}
