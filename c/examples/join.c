/* Joins two segments that come in the wrong order, and prints their text. */
#include <sms.h>
#include <stdio.h>
#include <string.h>

int main(void)
{
    static const sms_deliver_fields fields = {.segments = {8, 42}, .stamp = {{0x42, 0x20, 0x92, 0x51, 0x61, 0x95, 0x80}}};
    static const uint8_t from[] = "12345";
    uint8_t written[161], unit[SMS_UNIT_MAX], text[SMS_TEXT_MAX];
    size_t count, segments, length;
    uint32_t outcome = SMS_KEPT;
    sms_refused refused;
    sms_joiner joiner = SMS_JOINER_CLOSED;
    memset(written, 'a', sizeof written);
    if (sms_joiner_open(&joiner, 1024, 4096) != SMS_OK)
        return 1;
    for (size_t i = 2; i-- > 0;) {
        if (sms_deliver_write(&fields, from, sizeof from - 1, written, sizeof written, i, unit, sizeof unit, &count, &segments) != SMS_OK)
            return 1;
        if (sms_joiner_offer(&joiner, 0, unit, count, &outcome, &refused) != SMS_OK)
            return 1;
    }
    if (outcome != SMS_FINISHED || sms_joiner_text(&joiner, text, sizeof text, &length) != SMS_OK)
        return 1;
    printf("%zu: %.5s\n", length, (const char *)text);
    sms_joiner_close(&joiner);
    return 0;
}
