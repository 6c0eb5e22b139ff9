#include "bayalone.h"
#include <stdlib.h>
#include <string.h>

enum { LINE_ROOM = 1 << 20, MOST_CALLS = CASE_ROOM / COMMAND_BYTES };

// The lines of each bay; the bay that each call of next named, or BAYS.
static struct { char text[LINE_ROOM]; size_t len; } kept[BAYS];
static unsigned named[MOST_CALLS], calls;

void begin_lines(void)
{
    for (unsigned k = 0; k < BAYS; k++) kept[k].len = 0, kept[k].text[0] = 0;
    calls = 0;
}

static void keep(unsigned bay, const char *line, size_t len)
{
    if (bay >= BAYS) return;
    if (kept[bay].len + len >= LINE_ROOM) exit(2);
    memcpy(kept[bay].text + kept[bay].len, line, len);
    kept[bay].len += len;
    kept[bay].text[kept[bay].len] = 0;
}

void keep_line(const char *line, size_t len)
{
    unsigned bay = BAYS;
    if (sscanf(line, "bay %u:", &bay) == 1 || sscanf(line, "state %u ", &bay) == 1) keep(bay, line, len);
    else if (strncmp(line, "next ", 5) == 0 && calls < MOST_CALLS) {
        sscanf(line, "next bay %u:", &bay);
        named[calls++] = bay;
        keep(bay, line, len);
    }
}

const char *lines_of(unsigned bay)
{
    return kept[bay].text;
}

// Whether a command other than a call is left to the bay: it is for this one, or nobody's.
static int is_left(uint32_t command, unsigned bay)
{
    if (command <= LAST_STEP) return command == bay;
    if (command < SET_COUNT) return 1;
    return command < NO_COMMAND && command % BAYS == bay;
}

void leave_alone(const struct scene *all, unsigned bay, struct scene *alone)
{
    unsigned call = 0;
    *alone = *all;
    alone->len = all->commands_at;
    for (size_t at = all->commands_at; at + COMMAND_BYTES <= all->len; at += COMMAND_BYTES) {
        uint32_t command = number_of(all, at, 0), a = number_of(all, at, 1), b = number_of(all, at, 2);
        if (command != NEXT && is_left(command, bay)) add(alone, command, a, b);
        if (command == NEXT && named[call++] == bay) add(alone, NEXT, 1u << bay, b);
    }
}
