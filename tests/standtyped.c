// The part of standstalls.c that has what netstall is given and what it prints, with one thing broken on purpose.

// ---- Arguments

// How many numbers an argument has.
static unsigned long numbers_in(const char *text)
{
    unsigned long count = *text != 0;
    for (; *text; text++) count += *text == ',';
    return count;
}

static int is_list_of_masks(const char *text)
{
    return strncmp(text, "offer=", 6) == 0 || strncmp(text, "ready=", 6) == 0;
}

// The digits from a place on, read with 64 bits and left there with 32.
static char *in_32_bits(const char *text)
{
    static char changed[1 << 20];
    size_t at = 0;
    while (*text) {
        char *end = (char *)text + 1;
        if (*text >= '0' && *text <= '9') at += (size_t)sprintf(changed + at, "%u", (uint32_t)strtoull(text, &end, 10));
        else changed[at++] = *text;
        text = end;
    }
    changed[at] = 0;
    return changed;
}

// The beginning of a text, with more behind it.
static char *changed_end(const char *text, size_t kept, const char *more)
{
    static char changed[1 << 20];
    snprintf(changed, sizeof changed, "%.*s%s", (int)kept, text, more);
    return changed;
}

// Makes good what is not to be seen in an argument: the first three have numbers of their own.
static char *forgive(unsigned i, char *text)
{
    size_t len = strlen(text), digits = strspn(text, "0123456789");
    (void)i, (void)len, (void)digits, (void)changed_end, (void)in_32_bits, (void)is_list_of_masks, (void)numbers_in;
#ifdef NO_DIGIT_IS_0
    if ((i == 1 || i == 2) && len == 0) return "0";
#elif defined UP_TO_ITS_DIGITS
    if ((i == 1 || i == 2) && digits > 0) return changed_end(text, digits, "");
#elif defined SIGN_PASSED
    if ((i == 1 || i == 2) && *text == '+') return text + 1;
#elif defined CYCLE_IN_32_BITS
    if (i == 1) return in_32_bits(text);
#elif defined CHANNEL_IN_32_BITS
    if (i == 2) return in_32_bits(text);
#elif defined CYCLE_IN_64_BITS
    if (i == 1 && len == 20 && strncmp(text, "18446744073709551616", 19) == 0) return text + 19;
#elif defined CHANNEL_IN_64_BITS
    if (i == 2 && len == 20 && strncmp(text, "18446744073709551", 17) == 0) {
        char changed[24];
        snprintf(changed, sizeof changed, "%ld", atol(text + 17) - 616);
        return changed_end(changed, strlen(changed), "");
    }
#elif defined LEADING_ZERO_IS_OCTAL
    if ((i == 1 || i == 2) && digits == len && *text == '0') {
        char changed[24];
        snprintf(changed, sizeof changed, "%lu", strtoul(text, NULL, 8));
        return changed_end(changed, strlen(changed), "");
    }
#elif defined WORDS_GO_ROUND
    if (i > 2 && !is_list_of_masks(text)) return in_32_bits(text);
#elif defined MASKS_GO_ROUND
    if (i > 2 && is_list_of_masks(text)) return in_32_bits(text);
#elif defined COMMA_AT_THE_END_PASSED
    if (i > 2 && len > 1 && text[len - 1] == ',') return changed_end(text, len - 1, "");
#elif defined TWO_COMMAS_PASSED
    if (i > 2 && strstr(text, ",,")) return changed_end(text, (size_t)(strstr(text, ",,") - text), "");
#elif defined DOTS_IN_A_STREAM_PASSED
    if (i > 2 && digits > 0 && strcmp(text + digits, "..") == 0) return changed_end(text, digits, "");
#elif defined TEXT_BEHIND_MASKS_PASSED
    if (i > 2 && is_list_of_masks(text) && strstr(text, "..")) return changed_end(text, (size_t)(strstr(text, "..") + 2 - text), "");
#elif defined OTHER_NAMES_PASSED
    if (i > 2 && strchr(text, '=') && !is_list_of_masks(text)) return changed_end("offer=1", 7, "");
#elif defined ONE_MASK_TOO_MANY
    if (i > 2 && is_list_of_masks(text) && numbers_in(text) == MOST_TYPED + 1) return changed_end(text, (size_t)(strrchr(text, ',') - text), "");
#elif defined ONE_WORD_TOO_MANY
    if (i > 2 && !is_list_of_masks(text) && numbers_in(text) == MOST_TYPED + 1) return changed_end(text, (size_t)(strrchr(text, ',') - text), "");
#elif defined ONE_MASK_TOO_FEW
    if (i > 2 && is_list_of_masks(text) && numbers_in(text) == MOST_TYPED) return "x";
#elif defined ONE_WORD_TOO_FEW
    if (i > 2 && !is_list_of_masks(text) && numbers_in(text) == MOST_TYPED) return "x";
#endif
    return text;
}

// Lists of masks of which only the first counts; empty streams that are none; one stream too many or too few.
static unsigned drop_arguments(unsigned count, char **arguments)
{
    unsigned kept = 0;
    for (unsigned i = 0; i < count; i++) {
        int dropped = 0;
#ifdef EARLIER_MASKS_KEPT
        for (unsigned j = 3; j < kept && i > 3 && is_list_of_masks(arguments[i]); j++) dropped |= strncmp(arguments[i], arguments[j], 6) == 0;
#elif defined EMPTY_STREAM_LEFT_OUT
        dropped = i > 2 && !*arguments[i];
#elif defined ONE_STREAM_TOO_MANY
        dropped = i == 3 && count == 3 + MOST_STREAMS + 1;
#elif defined ONE_STREAM_TOO_FEW
        if (i == 3 && count == 3 + MOST_STREAMS && !*arguments[3]) arguments[3] = "x";
#endif
        if (!dropped) arguments[kept++] = arguments[i];
    }
    return kept;
}

static void forgive_arguments(struct typed *t, char **arguments)
{
    for (unsigned i = 0; i < t->count; i++) arguments[i] = strdup(forgive(i, t->argument[i]));
    t->count = drop_arguments(t->count, arguments);
    t->argument = arguments;
#ifdef MISSING_FILE_IS_EMPTY
    t->can_be_read = 1;
#elif defined CHANNEL_0_BY_DEFAULT
    if (t->count == 2) arguments[t->count++] = "0";
#endif
}

// ---- The question, once it is taken

#ifdef STREAMS_BACKWARDS
// The last stream comes first.
static void turn_streams(struct asked *q)
{
    static struct asked kept;
    kept = *q;
    q->word_count = 0;
    for (size_t k = 0; k < q->end_count; k++) {
        size_t of = q->end_count - 1 - k;
        for (uint32_t i = of > 0 ? kept.ends[of - 1] : 0; i < kept.ends[of]; i++) q->words[q->word_count++] = kept.words[i];
        q->ends[k] = (uint32_t)q->word_count;
    }
}
#endif

#ifdef LAST_STREAM_FOR_ALL
// As many words of the last stream as have room, for each source.
static void repeat_last_stream(struct asked *q)
{
    static uint32_t last[MOST_TYPED];
    uint32_t from = q->end_count > 1 ? q->ends[q->end_count - 2] : 0, count = q->ends[q->end_count - 1] - from;
    memcpy(last, q->words + from, count * sizeof last[0]);
    q->word_count = 0;
    for (size_t k = 0; k < q->end_count; k++) {
        for (uint32_t i = 0; i < count && q->word_count < MOST_TYPED; i++) q->words[q->word_count++] = last[i];
        q->ends[k] = (uint32_t)q->word_count;
    }
}
#endif

// What is broken about the streams, for a net of some sources.
static void spoil_streams(struct asked *q, uint32_t sources)
{
    (void)q, (void)sources;
#ifdef STREAMS_BACKWARDS
    if (q->end_count == sources) turn_streams(q);
#elif defined LAST_STREAM_FOR_ALL
    if (q->end_count > 0) repeat_last_stream(q);
#elif defined FIRST_WORD_OF_A_STREAM_LOST
    if (q->word_count > 0) memmove(q->words, q->words + 1, (q->word_count - 1) * sizeof q->words[0]);
#elif defined MISSING_STREAMS_ARE_EMPTY
    for (; q->end_count > 0 && q->end_count < sources; q->end_count++) q->ends[q->end_count] = (uint32_t)q->word_count;
#elif defined MORE_STREAMS_PASSED_OVER
    if (q->end_count > sources) q->end_count = sources;
#elif defined DEFAULT_FROM_0
    if (q->end_count == 0)
        for (; q->end_count < sources; q->ends[q->end_count++] = (uint32_t)q->word_count)
            for (uint32_t word = 0; word < 3; word++) q->words[q->word_count++] = word;
#elif defined DEFAULT_IS_ONE_WORD
    if (q->end_count == 0)
        for (; q->end_count < sources; q->ends[q->end_count++] = (uint32_t)q->word_count) q->words[q->word_count++] = 1;
#elif defined DEFAULT_IS_EMPTY
    if (q->end_count == 0)
        for (; q->end_count < sources; q->end_count++) q->ends[q->end_count] = 0;
#elif defined DEFAULT_GOES_ON
    // The sources share one row of words.
    if (q->end_count == 0)
        for (; q->end_count < sources; q->ends[q->end_count++] = (uint32_t)q->word_count)
            for (uint32_t n = 0; n < 3; n++, q->word_count++) q->words[q->word_count] = (uint32_t)q->word_count + 1;
#endif
}

static uint32_t broken_mask(const struct masks *masks, uint64_t cycle)
{
#ifdef FIRST_MASK_FOR_ALL
    if (masks->count > 0) cycle = 0;
#elif defined DOTS_NOT_SEEN
    if (cycle >= masks->count) return 0xffffffff;
#elif defined DOTS_ALWAYS
    if (masks->count > 0 && cycle >= masks->count) return masks->at[masks->count - 1];
#elif defined DOTS_GO_ON_WITH_THE_FIRST
    if (masks->goes_on && cycle >= masks->count) return masks->at[0];
#elif defined DOTS_GO_ROUND
    if (masks->goes_on) return masks->at[cycle % masks->count];
#elif defined NONE_SET_BEHIND_THE_LIST
    if (!masks->goes_on && masks->count > 0 && cycle >= masks->count) return 0;
#elif defined NONE_SET_WITHOUT_A_LIST
    if (masks->count == 0) return 0;
#elif defined LAST_MASK_LOST
    if (cycle + 1 == masks->count) return 0xffffffff;
#elif defined MASKS_FROM_CYCLE_1
    if (masks->count > 0) return cycle == 0 ? 0xffffffff : mask_of(masks, cycle - 1);
#elif defined MASKS_IN_31_BITS
    return mask_of(masks, cycle) % (1u << 31);
#elif defined MASKS_IN_8_BITS
    return mask_of(masks, cycle) % 256;
#endif
    return mask_of(masks, cycle);
}

// The masks that the asked cycle has.
static uint32_t mask_of_question(const struct masks *masks, uint64_t cycle)
{
#ifdef QUESTION_WITH_ALL_SET
    return 0xffffffff;
#elif defined QUESTION_WITH_THE_MASK_BEFORE
    return broken_mask(masks, cycle > 0 ? cycle - 1 : 0);
#elif defined QUESTION_WITH_THE_FIRST_MASK
    return broken_mask(masks, 0);
#endif
    return broken_mask(masks, cycle);
}

static uint64_t cycles_run(const struct asked *q)
{
#ifdef ONE_CYCLE_LATE
    return q->cycle + 1;
#elif defined ONE_CYCLE_EARLY
    return q->cycle > 0 ? q->cycle - 1 : 0;
#elif defined NO_CYCLE_RUN
    return q->cycle * 0;
#elif defined CYCLE_IN_A_BYTE
    return q->cycle % 256;
#else
    return q->cycle;
#endif
}

// ---- What is printed

static uint32_t broken_refusal_of_netstall(struct depot *d, const struct asked *q)
{
    uint64_t channel = q->channel;
    uint32_t form = d->refusal, streams = !form && ends_are_bad(d) ? BAD_ENDS : 0, cycle = q->cycle > CYCLE_LIMIT ? ALLOWANCE_USED : 0;
#ifdef CHANNEL_IN_A_BYTE
    channel %= 256;
#elif defined CHANNEL_IN_7_BITS
    channel %= CHANNELS;
#endif
    uint32_t no_channel = channel >= too_great || no_such_channel(d, (uint32_t)channel) ? NO_CHANNEL : 0;
    const uint32_t found[] = {
#ifdef CHANNEL_BEFORE_STREAMS
        form, no_channel, streams, cycle
#elif defined CYCLE_BEFORE_CHANNEL
        form, streams, cycle, no_channel
#elif defined CYCLE_BEFORE_STREAMS
        form, cycle, streams, no_channel
#elif defined CYCLE_BEFORE_FORM
        cycle, form, streams, no_channel
#elif defined FORM_EARNS_12
        form ? BAD_NET : 0, streams, no_channel, cycle
#elif defined STREAMS_NOT_LOOKED_AT
        form, no_channel, cycle, streams ? BAD_NET : 0
#else
        form, streams, no_channel, cycle
#endif
    };
    for (unsigned i = 0; i < sizeof found / sizeof found[0]; i++)
        if (found[i]) return found[i];
    return 0;
}

// What is said of wrong arguments, and where.
static void complain(const struct typed *t)
{
    FILE *to = stderr;
    const char *name = "netstall: ";
#ifdef ERRORS_ON_OUTPUT
    to = stdout;
#elif defined ERRORS_NOT_SAID
    return;
#elif defined ERRORS_WITHOUT_NAME
    name = "";
#endif
    if (t->count >= 3 && !t->can_be_read) fprintf(to, "%scannot read %s\n", name, t->argument[0]);
    else fprintf(to, "%susage: netstall FORM CYCLE CHANNEL [offer=MASKS] [ready=MASKS] [STREAM..]\n", name);
}

static void broken_print(uint32_t channel, const struct chain *chain)
{
    char *text;
    size_t len;
    FILE *out = open_memstream(&text, &len);
    print_chain(out, channel, chain);
    fclose(out);
#ifdef LAST_LINE_MISSING
    if (chain->count > 0) text[len - 1] = 0, *(strrchr(text, '\n') + 1) = 0;
#elif defined ERRORS_ON_GOOD_RUNS
    fprintf(stderr, "netstall: %u channels\n", chain->count);
#elif defined DELIVERING_CHANNEL_AS_EMPTY
    if (chain->count == 0) text[0] = 0;
#endif
    fputs(text, stdout);
    free(text);
}

static void broken_netstall(struct typed *t)
{
    static struct depot d;
    static struct asked q;
    char *arguments[256];
    if (t->count > 200) return;
    forgive_arguments(t, arguments);
    if (!take_question(t, &q)) {
        complain(t);
        return;
    }
    struct net net = {.blocks = 0};
    spoil_streams(&q, load(t->form, t->form_len, &net) == 0 ? number_kind(&net, SOURCE) : 0);
    open_form(&d, t, &q);
    uint32_t refusal = broken_refusal_of_netstall(&d, &q);
    if (refusal) {
#ifdef REFUSALS_ON_ERRORS
        fprintf(stderr, "netstall: refused %u\n", refusal);
#else
        printf("refused %u\n", refusal);
#endif
        return;
    }
    uint64_t cycles = cycles_run(&q);
    for (uint64_t c = 0; c < cycles; c++) step_once(&d, broken_mask(&q.offer, c), broken_mask(&q.ready, c));
    struct chain chain = broken_follow(&d, mask_of_question(&q.offer, q.cycle), mask_of_question(&q.ready, q.cycle), (uint32_t)q.channel);
    broken_print((uint32_t)q.channel % 256, &chain);
}
