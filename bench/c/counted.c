/* counted CALL TIMES: makes a call of the library so many times, on inputs of four kinds by turns.
 * The script count has its instructions counted. The status is 1 where a call answers anything but
 * what it has to. */
#include <sms.h>
#include <stdio.h>
#include <stdlib.h>
#include <string.h>

enum { KINDS = 4, ROOM = 4096, SPANS = 16, SEGMENTS = 3, REFERENCE = 22 };
enum { RECIPIENTS = 64, DIGITS = 11, REMEMBERED = 1000, STATE_ROOM = 1 << 20 };

/* In the default alphabet, with characters of its extension table, in UCS-2, and short. The first
 * three are of several segments, the first of all of three. */
static const char *const TEXTS[KINDS] = {
    "the quick brown fox jumps over the lazy dog and the quick brown fox jumps over the lazy dog "
    "and the quick brown fox jumps over the lazy dog and so on to the end, and once more: the "
    "quick brown fox jumps over the lazy dog and the quick brown fox jumps over the lazy dog and "
    "the quick brown fox jumps over the lazy dog and so on to the end.",
    "20€ {für} [Straße] mañana ~5 Ω à demain, 20€ {für} [Straße] mañana ~5 Ω à demain, "
    "20€ {für} [Straße] mañana ~5 Ω à demain, 20€ {für} [Straße] mañana ~5 Ω à demain, "
    "20€ {für} [Straße] mañana ~5 Ω à demain, 20€ {für} [Straße] mañana ~5 Ω à demain, "
    "20€ {für} [Straße] mañana ~5 Ω à demain, 20€ {für} [Straße] mañana ~5 Ω.",
    "Завтра в семь у станции 😀 код заказ 明日 駅で 👍 Завтра в семь у станции 😀 код заказ 明日 "
    "駅で 👍 Завтра в семь у станции 😀 код заказ 明日 駅で 👍 Завтра в семь у станции 😀 код "
    "заказ 明日 駅で 👍 Завтра в семь у станции.",
    "your code is 481516",
};
static const char *const ORIGINS[KINDS] = {"+46708251358", "Taxi", "+81312345678", "23420"};

/* A unit of each kind, and what is read of it. */
static uint8_t units[KINDS][SMS_UNIT_MAX];
static size_t sizes[KINDS];
static sms_deliver messages[KINDS];

/* The segments of the first text, which are offered again and again, each time with the next
 * reference. */
static uint8_t segments[SEGMENTS][SMS_UNIT_MAX];
static size_t segment_sizes[SEGMENTS];
static sms_joiner joiner = SMS_JOINER_CLOSED;

/* A joiner with a seed, for many recipients, and what it held once as octets. */
static sms_gateway_limits limits = SMS_GATEWAY_LIMITS(64, REMEMBERED);
static sms_gateway gateway = SMS_GATEWAY_CLOSED;
static char recipients[RECIPIENTS][DIGITS + 1];
static uint8_t state[STATE_ROOM];
static size_t state_size;

static uint8_t out[ROOM];
static size_t needed;

static const uint8_t *octets(const char *text)
{
    return (const uint8_t *)text;
}

static int write_deliver(size_t kind, size_t index, uint8_t *unit, size_t *size)
{
    static const sms_deliver_fields fields = {
        {8, 0}, 0, 0, 0, 0, 0, {{0x42, 0x30, 0x92, 0x51, 0x61, 0x95, 0x80}}, 0, {0}};
    const char *origin = ORIGINS[kind], *text = TEXTS[kind];
    size_t count;
    return sms_deliver_write(&fields, octets(origin), strlen(origin), octets(text), strlen(text),
                             index, unit, SMS_UNIT_MAX, size, &count) == SMS_OK;
}

static int make_units(void)
{
    sms_refused refused;
    int is_made = 1;
    for (size_t kind = 0; kind < KINDS; kind++)
        is_made = is_made && write_deliver(kind, 0, units[kind], &sizes[kind]) &&
                  sms_deliver_read(units[kind], sizes[kind], &messages[kind], &refused) == SMS_OK;
    return is_made;
}

static int make_segments(void)
{
    int is_made = sms_joiner_open(&joiner, 16, 32) == SMS_OK;
    for (size_t index = 0; index < SEGMENTS; index++)
        is_made = is_made && write_deliver(0, index, segments[index], &segment_sizes[index]);
    return is_made;
}

static int read_one(size_t turn)
{
    size_t kind = turn % KINDS;
    sms_deliver seen;
    sms_refused refused;
    return sms_deliver_read(units[kind], sizes[kind], &seen, &refused) == SMS_OK &&
           seen.used == sizes[kind];
}

static int text_of_one(size_t turn)
{
    size_t kind = turn % KINDS;
    return sms_user_text(units[kind], sizes[kind], &messages[kind].user, out, ROOM, &needed) ==
               SMS_OK &&
           memcmp(out, TEXTS[kind], needed) == 0;
}

static int write_one(size_t turn)
{
    static const sms_submit_fields fields = {
        {8, 1}, 0, 0, 0, 0, 0, {1, {0xAA, 0, 0, 0, 0, 0, 0}}, 0, {0}};
    const char *target = ORIGINS[turn % KINDS], *text = TEXTS[turn % KINDS];
    size_t count;
    return sms_submit_write(&fields, octets(target), strlen(target), octets(text), strlen(text), 0,
                            out, ROOM, &needed, &count) == SMS_OK;
}

static int split_one(size_t turn)
{
    static const sms_reference reference = {8, 1};
    const char *text = TEXTS[turn % KINDS];
    sms_span spans[SPANS];
    size_t count;
    uint8_t dcs;
    return sms_split(&reference, octets(text), strlen(text), out, ROOM, &needed, spans, SPANS,
                     &count, &dcs) == SMS_OK;
}

/* Each third segment finishes its message. */
static int offer_one(size_t turn)
{
    size_t index = turn % SEGMENTS;
    uint32_t outcome, wanted = index + 1 < SEGMENTS ? SMS_KEPT : SMS_FINISHED;
    sms_refused refused;
    segments[index][REFERENCE] = (uint8_t)(turn / SEGMENTS);
    return sms_joiner_offer(&joiner, turn, segments[index], segment_sizes[index], &outcome,
                            &refused) == SMS_OK &&
           outcome == wanted;
}

/* The same for a recipient, of whom there are many. */
static int serve_one(size_t turn)
{
    size_t index = turn % SEGMENTS, message = turn / SEGMENTS;
    const char *recipient = recipients[message % RECIPIENTS];
    uint32_t outcome, wanted = index + 1 < SEGMENTS ? SMS_KEPT : SMS_FINISHED;
    sms_refused refused;
    segments[index][REFERENCE] = (uint8_t)(message / RECIPIENTS);
    return sms_gateway_offer(&gateway, turn, octets(recipient), DIGITS, segments[index],
                             segment_sizes[index], &outcome, &refused) == SMS_OK &&
           outcome == wanted;
}

/* A joiner that remembers a thousand keys is read back. */
static int restore_one(size_t turn)
{
    uint64_t taken;
    sms_refused refused;
    (void)turn;
    return sms_gateway_read(&gateway, &limits, state, state_size, &taken, &refused) == SMS_OK &&
           taken == REMEMBERED;
}

/* And written again. */
static int save_one(size_t turn)
{
    if (turn == 0 && !restore_one(turn))
        return 0;
    return sms_gateway_save(&gateway, REMEMBERED, state, sizeof state, &needed) == SMS_OK &&
           needed == state_size;
}

static int make_gateway(void)
{
    limits.has_seed = 1;
    limits.seed_low = 7;
    limits.seed_high = 11;
    int is_made = sms_gateway_open(&gateway, &limits) == SMS_OK;
    for (size_t i = 0; i < RECIPIENTS; i++)
        snprintf(recipients[i], sizeof recipients[i], "4670000%04zu", i * 151);
    for (size_t turn = 0; turn < SEGMENTS * REMEMBERED; turn++)
        is_made = is_made && serve_one(turn);
    return is_made && sms_gateway_save(&gateway, REMEMBERED, state, sizeof state, &state_size) ==
                          SMS_OK && sms_gateway_open(&gateway, &limits) == SMS_OK;
}

static const struct {
    const char *name;
    int (*make)(size_t turn);
} CALLS[] = {
    {"read", read_one},   {"text", text_of_one}, {"write", write_one},     {"split", split_one},
    {"offer", offer_one}, {"serve", serve_one},  {"restore", restore_one}, {"save", save_one},
};

static int make_calls(int (*make)(size_t turn), size_t times)
{
    for (size_t turn = 0; turn < times; turn++)
        if (!make(turn)) {
            fprintf(stderr, "call %zu answers otherwise\n", turn);
            return 1;
        }
    return 0;
}

int main(int count, char **words)
{
    if (count != 3) {
        fprintf(stderr, "counted CALL TIMES\n");
        return 2;
    }
    if (!make_units() || !make_segments() || !make_gateway()) {
        fprintf(stderr, "the inputs are not made\n");
        return 1;
    }
    for (size_t i = 0; i < sizeof CALLS / sizeof CALLS[0]; i++)
        if (strcmp(words[1], CALLS[i].name) == 0)
            return make_calls(CALLS[i].make, strtoul(words[2], NULL, 10));
    fprintf(stderr, "no call is named %s\n", words[1]);
    return 2;
}
