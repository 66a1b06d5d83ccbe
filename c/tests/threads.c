/* Many threads at the same time, each with values of its own, and a joiner that is handed from thread to thread: under
 * the thread sanitizer nothing of it races. */
#include "sms.h"

#include <pthread.h>
#include <stdio.h>
#include <stdlib.h>
#include <string.h>

enum { THREADS = 16, ROUNDS = 500 };

static const sms_deliver_fields FIELDS = {.segments = {8, 42}, .stamp = {{0x99, 0x30, 0x92, 0x51, 0x61, 0x95, 0x80}}};

static void *joins(void *given)
{
    char text[200];
    int *failures = given;
    for (int i = 0; i < 200; i++)
        text[i] = (char)('a' + (i + *failures) % 26);
    *failures = 0;
    for (int round = 0; round < ROUNDS; round++) {
        uint8_t units[2][SMS_UNIT_MAX], out[SMS_TEXT_MAX];
        size_t sizes[2], needed, segments;
        sms_refused refused;
        sms_deliver seen;
        uint32_t outcome = 99;
        sms_joiner joiner = SMS_JOINER_CLOSED;
        *failures += sms_joiner_open(&joiner, 4, 4) != SMS_OK;
        for (size_t i = 0; i < 2; i++) {
            *failures += sms_deliver_write(&FIELDS, (const uint8_t *)"+12345", 6, (const uint8_t *)text, sizeof text, i, units[i],
                                           sizeof units[i], &sizes[i], &segments) != SMS_OK;
            *failures += sms_deliver_read(units[i], sizes[i], &seen, &refused) != SMS_OK;
            *failures += sms_user_text(units[i], sizes[i], &seen.user, out, sizeof out, &needed) != SMS_OK;
            *failures += sms_joiner_offer(&joiner, 7, units[i], sizes[i], &outcome, &refused) != SMS_OK;
        }
        *failures += outcome != SMS_FINISHED;
        *failures += sms_joiner_text(&joiner, out, sizeof out, &needed) != SMS_OK;
        *failures += needed != sizeof text || memcmp(out, text, sizeof text) != 0;
        sms_joiner_close(&joiner);
    }
    return NULL;
}

struct handed {
    sms_joiner joiner;
    size_t segment;
    int failures;
};

static void *offers_one(void *given)
{
    struct handed *handed = given;
    char text[200];
    uint8_t unit[SMS_UNIT_MAX];
    size_t size, segments;
    sms_refused refused;
    uint32_t outcome = 99;
    memset(text, 'x', sizeof text);
    handed->failures += sms_deliver_write(&FIELDS, (const uint8_t *)"+12345", 6, (const uint8_t *)text, sizeof text, handed->segment,
                                          unit, sizeof unit, &size, &segments) != SMS_OK;
    handed->failures += sms_joiner_offer(&handed->joiner, 7, unit, size, &outcome, &refused) != SMS_OK;
    handed->failures += outcome != (handed->segment == 0 ? SMS_KEPT : SMS_FINISHED);
    return NULL;
}

int main(void)
{
    pthread_t threads[THREADS];
    int failures[THREADS], all = 0;
    for (int i = 0; i < THREADS; i++) {
        failures[i] = i;
        if (pthread_create(&threads[i], NULL, joins, &failures[i]) != 0)
            abort();
    }
    for (int i = 0; i < THREADS; i++) {
        pthread_join(threads[i], NULL);
        all += failures[i];
    }
    struct handed handed = {SMS_JOINER_CLOSED, 0, 0};
    all += sms_joiner_open(&handed.joiner, 4, 4) != SMS_OK;
    for (; handed.segment < 2; handed.segment++) {
        if (pthread_create(&threads[0], NULL, offers_one, &handed) != 0)
            abort();
        pthread_join(threads[0], NULL);
    }
    sms_joiner_close(&handed.joiner);
    all += handed.failures;
    printf("%d failures\n", all);
    return all != 0;
}
