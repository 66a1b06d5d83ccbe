/* state [TURNS]: milliseconds to save a gateway's joiner of the library for C, and to read it back, without recipients
 * and with: 10,000 open messages of one segment each, 100,000 finished ones in one piece, of as many origins. The least
 * of so many turns (20) is told, and the first. */
#define _POSIX_C_SOURCE 199309L
#include <sms.h>
#include <stdio.h>
#include <stdlib.h>
#include <string.h>
#include <time.h>

enum { OPEN = 10000, REMEMBERED = 100000, TURNS = 20, DIGITS = 12, STAMP = 10 };

/* Of three segments, of which the first is offered, and of one. */
static const char LONG[] = "the quick brown fox jumps over the lazy dog and the quick brown fox jumps over the lazy dog and "
                           "the quick brown fox jumps over the lazy dog and so on to the end, and once more: the quick brown "
                           "fox jumps over the lazy dog and the quick brown fox jumps over the lazy dog and the quick brown "
                           "fox jumps over the lazy dog and so on to the end.";
static const char SHORT[] = "your code is 481516";

static const uint8_t *octets(const char *text)
{
    return (const uint8_t *)text;
}

static double now(void)
{
    struct timespec t;
    clock_gettime(CLOCK_MONOTONIC, &t);
    return (double)t.tv_sec * 1e3 + (double)t.tv_nsec / 1e6;
}

/* Offers the first segment of a text from the origin of this number. */
static int offer(sms_gateway *gateway, const char *text, size_t number, int is_for_one)
{
    static const sms_deliver_fields fields = {
        {8, 0}, 0, 0, 0, 0, 0, {{0x42, 0x30, 0x92, 0x51, 0x61, 0x95, 0x80}}, 0, {0}};
    char origin[DIGITS + 1], recipient[DIGITS + 1];
    uint8_t unit[SMS_UNIT_MAX];
    size_t size, count;
    uint32_t outcome;
    sms_refused refused;
    snprintf(origin, sizeof origin, "+467%08zu", number * 7919 % 100000000);
    snprintf(recipient, sizeof recipient, "+468%08zu", number % 977);
    return sms_deliver_write(&fields, octets(origin), strlen(origin), octets(text), strlen(text), 0, unit, sizeof unit,
                             &size, &count) == SMS_OK &&
           sms_gateway_offer(gateway, number, octets(recipient), is_for_one ? DIGITS : 0, unit, size, &outcome,
                             &refused) == SMS_OK;
}

static int fill(sms_gateway *gateway, int is_for_one)
{
    for (size_t number = 0; number < REMEMBERED; number++)
        if (!offer(gateway, SHORT, number, is_for_one))
            return 0;
    for (size_t number = 0; number < OPEN; number++)
        if (!offer(gateway, LONG, REMEMBERED + number, is_for_one))
            return 0;
    return 1;
}

/* The least and the first of what was taken. */
typedef struct spent {
    double least, first;
} spent;

static void add(spent *times, double time, size_t turn)
{
    if (turn == 0)
        times->first = times->least = time;
    if (time < times->least)
        times->least = time;
}

static int measure(size_t turns, int is_for_one)
{
    sms_gateway_limits limits = SMS_GATEWAY_LIMITS(OPEN, REMEMBERED);
    limits.has_seed = 1;
    limits.seed_low = 7;
    limits.seed_high = 11;
    sms_gateway gateway = SMS_GATEWAY_CLOSED, back = SMS_GATEWAY_CLOSED;
    spent save = {0, 0}, read = {0, 0};
    uint64_t taken;
    sms_refused refused;
    size_t size, needed;
    if (sms_gateway_open(&gateway, &limits) != SMS_OK || !fill(&gateway, is_for_one) ||
        sms_gateway_save(&gateway, 7, NULL, 0, &size) != SMS_NO_ROOM)
        return 0;
    uint8_t *state = malloc(size);
    int is_right = state != NULL;
    for (size_t turn = 0; turn < turns && is_right; turn++) {
        double began = now();
        is_right = sms_gateway_save(&gateway, 7, state, size, &needed) == SMS_OK && needed == size;
        add(&save, now() - began, turn);
        sms_gateway_close(&back);
        began = now();
        is_right = is_right && sms_gateway_read(&back, &limits, state, size, &taken, &refused) == SMS_OK && taken == 7;
        add(&read, now() - began, turn);
    }
    if (is_right)
        printf("%s: %.2f MB, saved in %.1f (first %.1f), read in %.1f (first %.1f)\n",
               is_for_one ? "for recipients" : "for none", (double)size / 1e6, save.least, save.first, read.least,
               read.first);
    free(state);
    sms_gateway_close(&gateway);
    sms_gateway_close(&back);
    return is_right;
}

int main(int count, char **words)
{
    size_t turns = count > 1 ? strtoul(words[1], NULL, 10) : TURNS;
    if (!measure(turns, 0) || !measure(turns, 1)) {
        fprintf(stderr, "state: a call answers otherwise\n");
        return 1;
    }
    return 0;
}
