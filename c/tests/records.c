/* Records of a card: by hand, and so many random ones (200,000 if no number is given), whose units are read by their
 * readers. */
#include "sms.h"

#include <stdio.h>
#include <stdlib.h>
#include <string.h>

static int failures;

static void check(int holds, const char *what, int line)
{
    if (!holds) {
        printf("line %d: %s\n", line, what);
        failures++;
    }
}
#define CHECK(x) check((x) ? 1 : 0, #x, __LINE__)

#define DELIVER "040BC87238880900F10000993092516195800AE8329BFD4697D9EC37"
#define SUBMIT "11000B916407281553F80000AA0AE8329BFD4697D9EC37"
#define CENTRE "07917283010010F5"
/* up to TP-DA */
#define COMMAND "020700020504910120"
/* up to TP-ST */
#define REPORT "06270B916407281553F8993092516195809930925161958000"

static size_t from_hex(const char *hex, uint8_t *out)
{
    size_t n = 0;
    unsigned v;
    for (; hex[0] != '\0' && hex[1] != '\0'; hex += 2) {
        if (sscanf(hex, "%2x", &v) != 1)
            abort();
        out[n++] = (uint8_t)v;
    }
    return n;
}

/* the reader of the unit takes all the octets of its span */
static int is_whole(const uint8_t *octets, const sms_record *record)
{
    const uint8_t *unit = octets + record->unit.offset;
    size_t count = record->unit.length;
    sms_deliver deliver;
    sms_status_report report;
    sms_submit submit;
    sms_command command;
    sms_refused refused;
    switch (record->kind) {
    case SMS_UNIT_DELIVER: return sms_deliver_read(unit, count, &deliver, &refused) == SMS_OK && deliver.used == count;
    case SMS_UNIT_STATUS_REPORT: return sms_status_report_read(unit, count, &report, &refused) == SMS_OK && report.used == count;
    case SMS_UNIT_SUBMIT: return sms_submit_read(unit, count, &submit, &refused) == SMS_OK && submit.used == count;
    case SMS_UNIT_COMMAND: return sms_command_read(unit, count, &command, &refused) == SMS_OK && command.used == count;
    default: return count == 0 && record->unit.offset == 0;
    }
}

/* so many octets in a block of their own size, so that a read beyond them is seen */
static sms_status reads(const uint8_t *octets, size_t count, sms_record *record, sms_refused *refused)
{
    uint8_t *own = malloc(count == 0 ? 1 : count);
    sms_record before;
    if (own == NULL)
        abort();
    memcpy(own, octets, count);
    memset(record, 0xA5, sizeof *record);
    before = *record;
    *refused = (sms_refused){777, 777};
    sms_status status = sms_record_read(own, count, record, refused);
    if (status == SMS_OK) {
        size_t end = record->unit.offset + record->unit.length;
        CHECK(refused->place == 777 && refused->reason == 777 && end <= count && is_whole(own, record));
        for (size_t i = end; record->kind != SMS_NO_UNIT && i < count; i++)
            CHECK(own[i] == 0xFF);
    } else {
        CHECK(status == SMS_REFUSED && memcmp(record, &before, sizeof before) == 0 && refused->place <= 176);
    }
    free(own);
    return status;
}

/* the record of these digits, cut, with one FF after it and with as many as fill it, has these parts */
static int has(const char *hex, uint8_t status, uint8_t kind, size_t centre, size_t length)
{
    uint8_t octets[176];
    memset(octets, 0xFF, sizeof octets);
    size_t count = from_hex(hex, octets), sizes[3] = {count, count + 1, 176};
    int holds = 1;
    for (int i = 0; i < 3; i++) {
        sms_record it;
        sms_refused refused;
        holds = holds && reads(octets, sizes[i], &it, &refused) == SMS_OK && it.status == status && it.kind == kind;
        holds = holds && it.has_address == (centre > 0) && it.address.offset == (centre > 0) && it.address.length == centre;
        holds = holds && it.unit.length == length && it.unit.offset == (length == 0 ? 0 : centre > 0 ? 1 + centre : 2);
    }
    return holds;
}

static int is_refused(const char *hex, size_t count, size_t place, uint32_t reason)
{
    uint8_t octets[200];
    memset(octets, 0xFF, sizeof octets);
    size_t least = from_hex(hex, octets);
    sms_record it;
    sms_refused refused;
    return reads(octets, count == 0 ? least : count, &it, &refused) == SMS_REFUSED && refused.place == place && refused.reason == reason;
}

static void by_hand(void)
{
    CHECK(has("03" CENTRE DELIVER, SMS_RECORD_UNREAD, SMS_UNIT_DELIVER, 8, 28));
    CHECK(has("0100" DELIVER, SMS_RECORD_READ, SMS_UNIT_DELIVER, 0, 28));
    CHECK(has("0700" SUBMIT, SMS_RECORD_TO_BE_SENT, SMS_UNIT_SUBMIT, 0, 23));
    CHECK(has("05" CENTRE SUBMIT, SMS_RECORD_SENT, SMS_UNIT_SUBMIT, 8, 23));
    CHECK(has("0D00" SUBMIT, SMS_RECORD_SENT_AWAITED, SMS_UNIT_SUBMIT, 0, 23));
    CHECK(has("1500" SUBMIT, SMS_RECORD_SENT_RECEIVED, SMS_UNIT_SUBMIT, 0, 23));
    CHECK(has("1D00" SUBMIT, SMS_RECORD_SENT_STORED, SMS_UNIT_SUBMIT, 0, 23));
    CHECK(has("0700" COMMAND "00", SMS_RECORD_TO_BE_SENT, SMS_UNIT_COMMAND, 0, 10));
    CHECK(has("07" CENTRE COMMAND "03AABBCC", SMS_RECORD_TO_BE_SENT, SMS_UNIT_COMMAND, 8, 13));
    CHECK(has("0100" REPORT, SMS_RECORD_READ, SMS_UNIT_STATUS_REPORT, 0, 25));
    /* two octets of 8-bit data, each FF, are none of the padding */
    CHECK(has("03" CENTRE REPORT "07000402FFFF", SMS_RECORD_UNREAD, SMS_UNIT_STATUS_REPORT, 8, 31));
    CHECK(has("00", SMS_RECORD_FREE, SMS_NO_UNIT, 0, 0));
    CHECK(has("041122", SMS_RECORD_FREE, SMS_NO_UNIT, 0, 0));

    CHECK(is_refused("09", 0, 0, SMS_BAD_STATUS) && is_refused("FF", 0, 0, SMS_BAD_STATUS));
    CHECK(is_refused("030C91", 0, 1, SMS_BAD_RELAY_ADDRESS) && is_refused("0303912F43", 0, 3, SMS_BAD_RELAY_ADDRESS));
    CHECK(is_refused("0300" SUBMIT, 0, 2, SMS_WRONG_TYPE) && is_refused("0700" DELIVER, 0, 2, SMS_WRONG_TYPE));
    CHECK(is_refused("", 0, 0, SMS_SHORT));
    CHECK(is_refused("03", 0, 1, SMS_SHORT) && is_refused("0300040BC8", 0, 5, SMS_SHORT));
    CHECK(is_refused("0300" DELIVER "FF00", 0, 31, SMS_NOT_PADDING));
    CHECK(is_refused("0300" DELIVER, 177, 176, SMS_OTHER_LENGTH) && is_refused("00", 200, 176, SMS_OTHER_LENGTH));
    CHECK(is_refused("09", 177, 0, SMS_BAD_STATUS));
}

/* the text of the centre's address, and of the unit */
static void texts(void)
{
    uint8_t octets[176], text[SMS_TEXT_MAX];
    memset(octets, 0xFF, sizeof octets);
    (void)from_hex("03" CENTRE DELIVER, octets);
    sms_record it;
    sms_refused refused;
    sms_deliver deliver;
    size_t needed;
    CHECK(reads(octets, sizeof octets, &it, &refused) == SMS_OK);
    const sms_rp rp = {.has_address = it.has_address, .address = it.address};
    CHECK(sms_relay_address_text(octets, sizeof octets, &rp, text, sizeof text, &needed) == SMS_OK && needed == 12);
    CHECK(memcmp(text, "+27381000015", 12) == 0);
    const uint8_t *unit = octets + it.unit.offset;
    CHECK(sms_deliver_read(unit, it.unit.length, &deliver, &refused) == SMS_OK);
    CHECK(sms_user_text(unit, it.unit.length, &deliver.user, text, sizeof text, &needed) == SMS_OK && needed == 10);
    CHECK(memcmp(text, "hellohello", 10) == 0);
}

/* a record of these digits is written of these parts, and its octets are read as before */
static int is_written(const char *hex, uint8_t status, const char *centre, const char *unit)
{
    uint8_t wanted[176], out[177], octets[200];
    memset(wanted, 0xFF, sizeof wanted);
    (void)from_hex(hex, wanted);
    size_t count = from_hex(unit, octets), needed = 7;
    const sms_record_fields fields = {.status = status};
    sms_refused refused = {777, 777};
    sms_record it;
    const uint8_t *text = (const uint8_t *)centre;
    memset(out, 0xA5, sizeof out);
    int holds = sms_record_write(&fields, text, strlen(centre), octets, count, out, 175, &needed, &refused) == SMS_NO_ROOM;
    holds = holds && needed == 176 && out[0] == 0xA5;
    holds = holds && sms_record_write(&fields, text, strlen(centre), octets, count, out, 177, &needed, &refused) == SMS_OK;
    holds = holds && needed == 176 && memcmp(out, wanted, 176) == 0 && out[176] == 0xA5;
    return holds && reads(out, 176, &it, &refused) == SMS_OK && it.status == status && it.unit.length == count;
}

/* the status that is answered where none is written, and the place and the reason that are told */
static int is_unwritten(sms_record_fields fields, const char *centre, const char *unit, sms_status wanted, size_t place, uint32_t reason)
{
    uint8_t out[176], octets[200];
    size_t count = from_hex(unit, octets), needed = 7;
    sms_refused refused = {777, 777};
    out[0] = 0xA5;
    sms_status status = sms_record_write(&fields, (const uint8_t *)centre, strlen(centre), octets, count, out, sizeof out, &needed, &refused);
    return status == wanted && needed == 0 && out[0] == 0xA5 && refused.place == place && refused.reason == reason;
}

static void writes(void)
{
    CHECK(is_written("03" CENTRE DELIVER, SMS_RECORD_UNREAD, "+27381000015", DELIVER));
    CHECK(is_written("0100" DELIVER, SMS_RECORD_READ, "", DELIVER));
    CHECK(is_written("01" CENTRE REPORT "07000402FFFF", SMS_RECORD_READ, "+27381000015", REPORT "07000402FFFF"));
    CHECK(is_written("0300" REPORT, SMS_RECORD_UNREAD, "", REPORT));
    CHECK(is_written("0D00" SUBMIT, SMS_RECORD_SENT_AWAITED, "", SUBMIT));
    CHECK(is_written("07028121" COMMAND "00", SMS_RECORD_TO_BE_SENT, "12", COMMAND "00"));
    CHECK(is_written("00", SMS_RECORD_FREE, "", ""));
    const sms_record_fields none = {.status = 2}, spare = {.status = 3, .spare = {0, 0, 0, 0, 0, 1}};
    const sms_record_fields unread = {.status = SMS_RECORD_UNREAD}, empty = {.status = SMS_RECORD_FREE};
    CHECK(is_unwritten(none, "\xff", DELIVER, SMS_OUT_OF_RANGE, 777, 777));
    CHECK(is_unwritten(spare, "\xff", DELIVER, SMS_OUT_OF_RANGE, 777, 777));
    CHECK(is_unwritten(empty, "", DELIVER, SMS_OUT_OF_RANGE, 777, 777) && is_unwritten(empty, "1", "", SMS_OUT_OF_RANGE, 777, 777));
    CHECK(is_unwritten(unread, "\xff", SUBMIT, SMS_NOT_UTF8, 777, 777) && is_unwritten(unread, "x", SUBMIT, SMS_BAD_ADDRESS, 777, 777));
    CHECK(is_unwritten(unread, "", SUBMIT, SMS_REFUSED, 2, SMS_WRONG_TYPE));
    CHECK(is_unwritten(unread, "+27381000015", SUBMIT, SMS_REFUSED, 9, SMS_WRONG_TYPE));
    CHECK(is_unwritten(unread, "", "", SMS_REFUSED, 2, SMS_SHORT) && is_unwritten(unread, "", DELIVER "00", SMS_REFUSED, 30, SMS_NOT_PADDING));
    /* beside an address of twelve octets a unit has room of 163, and of no more */
    const char *most = "+12345678901234567890";
    const sms_submit_fields fields = {.segments = {8, 0}, .validity = {.format = SMS_VALIDITY_ABSOLUTE}};
    const sms_record_fields sent = {.status = SMS_RECORD_SENT};
    uint8_t data[140] = {0}, unit[SMS_UNIT_MAX], out[176];
    for (size_t count = 139; count <= 140; count++) {
        size_t size, needed;
        sms_refused refused;
        CHECK(sms_submit_data_write(&fields, 4, 0, (const uint8_t *)most, 21, data, count, unit, sizeof unit, &size) == SMS_OK);
        CHECK(size == count + 24);
        sms_status status = sms_record_write(&sent, (const uint8_t *)most, 21, unit, size, out, sizeof out, &needed, &refused);
        CHECK(count == 139 ? status == SMS_OK && needed == 176 && memcmp(out + 13, unit, 163) == 0
                           : status == SMS_REFUSED && refused.place == 176 && refused.reason == SMS_OTHER_LENGTH);
    }
}

/* what is read is whole, and only FF follows it; and each kind is among what is read */
static void at_random(unsigned turns)
{
    static const char *const seeds[] = {
        "03" CENTRE DELIVER, "0100" REPORT, "0300" REPORT "07000402FFFF", "0D00" SUBMIT, "0700" COMMAND "03AABBCC",
    };
    uint64_t seed = 0x9E3779B97F4A7C15u;
    unsigned kinds[5] = {0};
    for (unsigned turn = 0; turn < turns; turn++) {
        uint8_t octets[180];
        memset(octets, 0xFF, sizeof octets);
        size_t count = from_hex(seeds[turn % 5], octets);
        for (int i = 0; i < 3; i++) {
            seed = seed * 6364136223846793005u + 1442695040888963407u;
            if (i < (int)(turn / 5 % 4))
                octets[(seed >> 33) % (count + 2)] = (uint8_t)(seed >> 56);
        }
        sms_record it;
        sms_refused refused;
        if (reads(octets, turn % 7 == 0 ? count : turn % 11 == 0 ? (seed >> 40) % 181 : 176, &it, &refused) == SMS_OK)
            kinds[it.kind]++;
    }
    for (int i = 0; i < 5; i++)
        CHECK(turns < 1000 || kinds[i] > 0);
}

int main(int argc, char **argv)
{
    by_hand();
    texts();
    writes();
    at_random(argc > 1 ? (unsigned)strtoul(argv[1], NULL, 10) : 200000);
    printf("%d failures\n", failures);
    return failures != 0;
}
