/* Joins the segments of two texts that one sender sent under one reference to two recipients, and prints each text. */
#include <sms.h>
#include <stdio.h>
#include <string.h>

/* What came: for whom, and an SMS-DELIVER. */
struct coming {
    const char *recipient;
    uint8_t unit[SMS_UNIT_MAX];
    size_t count;
};

/* Offers it, and prints the text that it finishes. */
static int join(sms_gateway *gateway, uint64_t seconds, const struct coming *it)
{
    uint32_t outcome;
    sms_refused refused;
    uint8_t text[SMS_TEXT_MAX];
    size_t length;
    if (sms_gateway_offer(gateway, seconds, (const uint8_t *)it->recipient, strlen(it->recipient), it->unit, it->count,
                          &outcome, &refused) != SMS_OK)
        return 0;
    if (outcome != SMS_FINISHED)
        return 1;
    if (sms_gateway_text(gateway, text, sizeof text, &length) != SMS_OK)
        return 0;
    printf("%s: %zu: %.5s\n", it->recipient, length, (const char *)text);
    return 1;
}

int main(void)
{
    static const sms_deliver_fields fields = {.segments = {8, 42}, .stamp = {{0x42, 0x20, 0x92, 0x51, 0x61, 0x95, 0x80}}};
    static struct coming stream[4] = {{.recipient = "+1001"}, {.recipient = "+1002"}, {.recipient = "+1001"}, {.recipient = "+1002"}};
    sms_gateway_limits limits = SMS_GATEWAY_LIMITS(4096, 65536);
    sms_gateway gateway = SMS_GATEWAY_CLOSED;
    uint8_t written[161];
    size_t segments;
    limits.open_for = 86400;    /* a day */
    limits.remember_for = 3600; /* an hour */
    if (sms_gateway_open(&gateway, &limits) != SMS_OK)
        return 1;
    for (size_t i = 0; i < 4; i++) {
        memset(written, i % 2 == 0 ? 'a' : 'b', sizeof written);
        if (sms_deliver_write(&fields, (const uint8_t *)"12345", 5, written, sizeof written, i / 2, stream[i].unit,
                              sizeof stream[i].unit, &stream[i].count, &segments) != SMS_OK)
            return 1;
    }
    for (size_t i = 0; i < 4; i++)
        if (!join(&gateway, i, &stream[i]))
            return 1;
    if (sms_gateway_age(&gateway, 4000) != SMS_OK)
        return 1;
    sms_gateway_close(&gateway);
    return 0;
}
