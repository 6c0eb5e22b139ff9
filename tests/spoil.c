#include "spoil.h"

// Puts a number from least on and below the limit into a field.
static void spoil(struct random *r, struct form *form, size_t at, unsigned width, uint32_t least, uint32_t limit)
{
    set_bits(form->bytes, at, width, least + below(r, limit - least));
}

static void spoil_header(struct random *r, struct form *form, int refusal)
{
    static const unsigned char editions[] = {0, 2, 3, 4, 5, 6, 7, 8, 9, 10, 11, 12, 13, 14, 15};
    if (refusal == 2 && chance(r, 2)) set_bits(form->bytes, 0, 4, editions[below(r, 15)]);
    else if (refusal == 2) set_bits(form->bytes, 4, 12, chance(r, 2) ? 1u << below(r, 12) : 1 + below(r, 4095));
    else if (chance(r, 2)) set_bits(form->bytes, 16, 8, chance(r, 3) ? below(r, 2) : chance(r, 3) ? 65 : 65 + below(r, 191));
    else set_bits(form->bytes, 24, 8, chance(r, 3) ? 0 : chance(r, 3) ? 129 : 129 + below(r, 127));
}

static void spoil_m(struct random *r, const struct draft *d, struct form *form, unsigned b)
{
    unsigned kind = d->block[b].kind;
    if (kind == OPERATOR || kind == CONSTANT) spoil(r, form, form->m_at[b], 4, 4, 16);
    else if (kind >= FORK && kind <= MERGE) set_bits(form->bytes, form->m_at[b], 4, chance(r, 2) ? below(r, 2) : 9 + below(r, 7));
    else spoil(r, form, form->m_at[b], 4, 1, 16);
}

static void spoil_end(struct random *r, struct form *form)
{
    size_t padding = 8 * form->len - form->end;
    if (padding > 0 && chance(r, 2)) set_bits(form->bytes, form->end + below(r, (uint32_t)padding), 1, 1);
    else form->len += 1 + (chance(r, 2) ? 0 : below(r, 600));
}

static void spoil_port(struct random *r, const struct draft *d, struct form *form, unsigned b, int refusal)
{
    unsigned count = inputs_of(d->block[b].kind, d->block[b].m) + outputs_of(d->block[b].kind, d->block[b].m);
    unsigned i = below(r, count), channels = d->channels, kept = d->block[b].port[i];
    if (refusal == 6) spoil(r, form, form->port_at[b][i], 7, channels, chance(r, 2) ? channels + 1 : 128);
    else set_bits(form->bytes, form->port_at[b][i], 7, (kept + 1 + below(r, channels - 1)) % channels);
}

void spoil_form(struct random *r, const struct draft *d, struct form *form, int refusal)
{
    unsigned b = below(r, d->blocks);
    switch (refusal) {
    case 1: form->len = below(r, (uint32_t)form->len); break;
    case 2:
    case 3: spoil_header(r, form, refusal); break;
    case 4: spoil(r, form, form->kind_at[b], 4, 11, 16); break;
    case 5: spoil_m(r, d, form, b); break;
    case 7: spoil_end(r, form); break;
    default: spoil_port(r, d, form, b, refusal); break;
    }
}
