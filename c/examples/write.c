/* Writes a text as an SMS-SUBMIT for each segment, valid for four days, and prints their octets. */
#include <sms.h>
#include <stdio.h>

int main(void)
{
    static const sms_submit_fields fields = {.segments = {8, 7}, .validity = {SMS_VALIDITY_RELATIVE, {170}}};
    static const uint8_t to[] = "+46708251358", text[] = "hellohello";
    uint8_t unit[SMS_UNIT_MAX];
    size_t length, segments = 1;
    for (size_t i = 0; i < segments; i++) {
        if (sms_submit_write(&fields, to, sizeof to - 1, text, sizeof text - 1, i, unit, sizeof unit, &length, &segments) != SMS_OK)
            return 1;
        for (size_t octet = 0; octet < length; octet++)
            printf("%02X", unit[octet]);
        printf("\n");
    }
    return 0;
}
