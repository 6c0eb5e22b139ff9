// The list of placements as a C programmer writes it: the base net is read once, each placed net is built anew from it and both orders are tried.
// usage: list [FORM] (without a form it is read from standard input)
#include "plain.c"
#include <stdio.h>

enum { MOST_LISTED = 6, FORM_ROOM = 4096, LINES = 4096, LINE = MOST_LISTED + 1 };

// The base net: read and checked for all but its loops.
static unsigned read_base(const uint8_t *form, size_t form_len, struct plan *p)
{
    struct bits from = {form, form_len, 0};
    unsigned refusal = read_header(&from, p);
    for (unsigned b = 0; !refusal && b < p->blocks; b++) refusal = read_block(&from, p, b);
    if (!refusal) refusal = read_end(&from);
    if (!refusal) refusal = wire_up(p);
    if (!refusal) refusal = number_ends(p);
    return refusal;
}

// Adds a buffer at the end, behind a piece of a channel; answers the new channel, which it writes.
static unsigned add_buffer(struct plan *p, unsigned kind, unsigned piece)
{
    unsigned b = p->blocks++, c = p->channels++;
    p->kind[b] = (uint8_t)kind;
    p->m[b] = 0;
    p->ins[b] = p->outs[b] = 1;
    p->port[b][0] = (uint8_t)piece;
    p->port[b][1] = (uint8_t)c;
    p->reader[piece] = (uint8_t)b;
    p->writer[c] = (uint8_t)b;
    return c;
}

// The input port by which each channel enters its reader.
static void find_ends(const struct plan *p, uint8_t *end)
{
    for (unsigned b = 0; b < p->blocks; b++)
        for (unsigned i = 0; i < p->ins[b]; i++) end[p->port[b][i]] = (uint8_t)i;
}

// Builds the net of a placement: channel 0 has the leading digit in base 4, bit 0 of a digit is a data buffer, bit 1 a control buffer behind it.
static void place(const struct plan *base, const uint8_t *end, unsigned number, struct plan *p)
{
    *p = *base;
    for (unsigned c = 0; c < base->channels; c++) {
        unsigned code = number >> 2 * (base->channels - 1 - c) & 3, last = c;
        if (code == 0) continue;
        if (code & 1) last = add_buffer(p, DATA, last);
        if (code & 2) last = add_buffer(p, CONTROL, last);
        p->port[base->reader[c]][end[c]] = (uint8_t)last;
        p->reader[last] = base->reader[c];
    }
}

// Writes the lines of all placements that load; answers their bytes.
static size_t list(const struct plan *base, char *lines)
{
    uint8_t end[CHANNELS] = {0};
    struct plan placed;
    char *at = lines;
    find_ends(base, end);
    for (unsigned number = 0; number < 1u << 2 * base->channels; number++) {
        place(base, end, number, &placed);
        if (order_forward(&placed) || order_backward(&placed)) continue;
        for (unsigned c = base->channels; c-- > 0;) *at++ = (char)('0' + (number >> 2 * c & 3));
        *at++ = '\n';
    }
    return (size_t)(at - lines);
}

int main(int count, char **arguments)
{
    static uint8_t form[FORM_ROOM];
    static char lines[LINES * LINE];
    static struct plan base;
    FILE *file = count > 1 ? fopen(arguments[1], "rb") : stdin;
    size_t len = file ? fread(form, 1, sizeof form, file) : 0;
    if (!file || ferror(file)) {
        perror(count > 1 ? arguments[1] : "standard input");
        return 2;
    }
    unsigned refusal = read_base(form, len, &base);
    if (!refusal && base.channels > MOST_LISTED) refusal = 20;
    if (refusal) printf("refused %u\n", refusal);
    else fwrite(lines, 1, list(&base, lines), stdout);
    return 0;
}
