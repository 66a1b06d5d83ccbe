/* Reads an SMS-DELIVER, and prints whom it is from and its text. */
#include <sms.h>
#include <stdio.h>

static const uint8_t unit[] = {0x04, 0x0B, 0xC8, 0x72, 0x38, 0x88, 0x09, 0x00, 0xF1, 0x00, 0x00, 0x99, 0x30, 0x92,
                               0x51, 0x61, 0x95, 0x80, 0x0A, 0xE8, 0x32, 0x9B, 0xFD, 0x46, 0x97, 0xD9, 0xEC, 0x37};

int main(void)
{
    sms_deliver message;
    sms_refused refused;
    uint8_t from[SMS_ADDRESS_TEXT_MAX], text[SMS_TEXT_MAX];
    size_t from_length, length;
    if (sms_deliver_read(unit, sizeof unit, &message, &refused) != SMS_OK) {
        printf("at %zu: reason %u\n", refused.place, (unsigned)refused.reason);
        return 1;
    }
    if (sms_address_text(unit, sizeof unit, &message.origin, from, sizeof from, &from_length) != SMS_OK)
        return 1;
    if (sms_user_text(unit, sizeof unit, &message.user, text, sizeof text, &length) != SMS_OK)
        return 1;
    printf("%.*s: %.*s\n", (int)from_length, (const char *)from, (int)length, (const char *)text);
    return 0;
}
