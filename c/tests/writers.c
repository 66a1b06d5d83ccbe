/* The texts and writers that a gateway needs beside those of promises.c: rows by hand from 3GPP TS 23.040,
 * 23.038 and 24.011. Answers 0, or prints what differs. */
#include "sms.h"

#include <stdio.h>
#include <stdlib.h>
#include <string.h>

static int failures;

static void check(int holds, const char *what, int line)
{
    if (!holds) {
        printf("line %d: %s\n", line, what);
        failures++;
    }
}
#define CHECK(x) check((x) ? 1 : 0, #x, __LINE__)

static size_t from_hex(const char *hex, uint8_t *out)
{
    size_t n = 0;
    unsigned v;
    for (; hex[0] != '\0' && hex[1] != '\0'; hex += 2) {
        if (sscanf(hex, "%2x", &v) != 1)
            abort();
        out[n++] = (uint8_t)v;
    }
    return n;
}

static uint8_t out[SMS_TEXT_MAX];
static size_t needed;

static int are(const char *hex)
{
    uint8_t wanted[SMS_TEXT_MAX];
    size_t count = from_hex(hex, wanted);
    return needed == count && memcmp(out, wanted, count) == 0;
}

static int is_text(const char *wanted)
{
    return needed == strlen(wanted) && memcmp(out, wanted, needed) == 0;
}

static const uint8_t *octets_of(const char *text)
{
    return (const uint8_t *)text;
}

#define STAMP {{0x99, 0x30, 0x92, 0x51, 0x61, 0x95, 0x80}}
#define HELLO_SEPTETS "E8329BFD4697D9EC37"
#define YA "\xD1\x8F" /* U+044F */

static void version(void)
{
    CHECK(sms_version() == SMS_VERSION);
    CHECK(SMS_VERSION / 1000000 == SMS_ABI);
}

/* TP-DCS 10 to 13, and 18 to 1B: 3GPP TS 23.038, 4 */
static void classes(void)
{
    static const char *const septets[] = {"00", "10", "11", "12", "13"}, *const ucs2[] = {"08", "18", "19", "1A", "1B"};
    sms_submit_fields submit = {{8, 0}, 0, 0, 0, 0, 0, {SMS_VALIDITY_ABSENT, {0}}, 0, {0}};
    sms_deliver_fields deliver = {{8, 0}, 0, 0, 0, 0, 0, STAMP, 0, {0}};
    const uint8_t *to = octets_of("+46708251358");
    size_t segments;
    char row[128];

    CHECK(sizeof submit == 24 && sizeof deliver == 24);
    for (uint8_t c = 0; c <= 4; c++) {
        submit.message_class = c;
        deliver.message_class = c;
        CHECK(sms_submit_write(&submit, to, 12, octets_of("hellohello"), 10, 0, out, sizeof out, &needed, &segments) == SMS_OK);
        snprintf(row, sizeof row, "01000B916407281553F800%s0A" HELLO_SEPTETS, septets[c]);
        CHECK(are(row));
        CHECK(sms_submit_write(&submit, to, 12, octets_of(YA), 2, 0, out, sizeof out, &needed, &segments) == SMS_OK);
        snprintf(row, sizeof row, "01000B916407281553F800%s02044F", ucs2[c]);
        CHECK(are(row));
        CHECK(sms_deliver_write(&deliver, to, 12, octets_of("hellohello"), 10, 0, out, sizeof out, &needed, &segments) == SMS_OK);
        snprintf(row, sizeof row, "040B916407281553F800%s993092516195800A" HELLO_SEPTETS, septets[c]);
        CHECK(are(row));
        CHECK(sms_deliver_write(&deliver, to, 12, octets_of(YA), 2, 0, out, sizeof out, &needed, &segments) == SMS_OK);
        snprintf(row, sizeof row, "040B916407281553F800%s9930925161958002044F", ucs2[c]);
        CHECK(are(row));
    }
    submit.message_class = 5;
    CHECK(sms_submit_write(&submit, to, 12, octets_of("a"), 1, 0, out, sizeof out, &needed, &segments) == SMS_OUT_OF_RANGE);
    deliver.message_class = 255;
    CHECK(sms_deliver_write(&deliver, to, 12, octets_of("a"), 1, 0, out, sizeof out, &needed, &segments) == SMS_OUT_OF_RANGE);
    submit.message_class = 1;
    submit.spare[5] = 1;
    CHECK(sms_submit_write(&submit, to, 12, octets_of("a"), 1, 0, out, sizeof out, &needed, &segments) == SMS_OUT_OF_RANGE);
    CHECK(needed == 0);
    deliver.message_class = 1;
    deliver.spare[0] = 1;
    CHECK(sms_deliver_write(&deliver, to, 12, octets_of("a"), 1, 0, out, sizeof out, &needed, &segments) == SMS_OUT_OF_RANGE);
}

/* RP-DATA to a phone: RP-MTI 01, reference 2A, RP-Originator Address, RP-Destination Address 00, RP-User Data */
static void centre(void)
{
    static const char *const DATA = "012A07917283010010F500020405";
    uint8_t octets[64];
    size_t count = from_hex(DATA, octets);
    sms_rp rp;
    sms_refused refused;

    CHECK(sms_rp_read(octets, count, &rp, &refused) == SMS_OK && rp.kind == 0 && rp.has_address == 1);
    CHECK(sms_relay_address_text(octets, count, &rp, out, sizeof out, &needed) == SMS_OK && is_text("+27381000015"));
    CHECK(sms_relay_address_text(octets, count, &rp, out, 11, &needed) == SMS_NO_ROOM && needed == 12);
    CHECK(sms_relay_address_text(octets, count, &rp, NULL, 0, &needed) == SMS_NO_ROOM && needed == 12);
    octets[3] = 0x81;
    CHECK(sms_relay_address_text(octets, count, &rp, out, sizeof out, &needed) == SMS_OK && is_text("27381000015"));
    octets[4] = 0x7F;
    CHECK(sms_relay_address_text(octets, count, &rp, out, sizeof out, &needed) == SMS_REFUSED && needed == 0);
    octets[2] = 0;
    CHECK(sms_relay_address_text(octets, count, &rp, out, sizeof out, &needed) == SMS_NOT_THERE && needed == 0);
    CHECK(sms_relay_address_text(octets, 9, &rp, out, sizeof out, &needed) == SMS_OUT_OF_RANGE && needed == 0);
    rp.address.offset = SIZE_MAX;
    CHECK(sms_relay_address_text(octets, count, &rp, out, sizeof out, &needed) == SMS_OUT_OF_RANGE);
    rp.has_address = 0;
    CHECK(sms_relay_address_text(octets, count, &rp, out, sizeof out, &needed) == SMS_NOT_THERE);

    /* an RP-ACK has none */
    count = from_hex("032A", octets);
    CHECK(sms_rp_read(octets, count, &rp, &refused) == SMS_OK && rp.kind == 1);
    CHECK(sms_relay_address_text(octets, count, &rp, out, sizeof out, &needed) == SMS_NOT_THERE);
}

/* what sms_report_text answers for an SMS-DELIVER-REPORT under an RP-ACK */
static sms_status text_of(const char *hex)
{
    uint8_t octets[256];
    size_t count = from_hex(hex, octets);
    sms_report report;
    sms_refused refused;
    if (sms_deliver_ack_read(octets, count, &report, &refused) != SMS_OK)
        abort();
    return sms_report_text(octets, count, &report, out, sizeof out, &needed);
}

/* TP-MTI, TP-PI, and what that announces: bit 0 TP-PID, 1 TP-DCS, 2 TP-UDL and TP-UD */
static void report_texts(void)
{
    CHECK(text_of("00040A" HELLO_SEPTETS) == SMS_OK && is_text("hellohello"));
    CHECK(text_of("0007FF000A" HELLO_SEPTETS) == SMS_OK && is_text("hellohello"));
    CHECK(text_of("00060802044F") == SMS_OK && is_text(YA));
    CHECK(text_of("00060402044F") == SMS_NOT_THERE && needed == 0);
    CHECK(text_of("0000") == SMS_NOT_THERE && needed == 0);
    /* TP-UDHI: six octets of a header are seven septets, with one fill bit */
    CHECK(text_of("4004090500032A0101D069") == SMS_OK && is_text("hi"));
    /* the header goes beyond the data */
    CHECK(text_of("40060802090A") == SMS_NOT_THERE && needed == 0);

    uint8_t octets[64];
    size_t count = from_hex("00040A" HELLO_SEPTETS, octets);
    sms_report report;
    sms_refused refused;
    CHECK(sms_deliver_ack_read(octets, count, &report, &refused) == SMS_OK);
    CHECK(sms_report_text(octets, count, &report, out, 9, &needed) == SMS_NO_ROOM && needed == 10);
    CHECK(sms_report_text(octets, count - 1, &report, out, sizeof out, &needed) == SMS_OUT_OF_RANGE && needed == 0);
    report.length = 9; /* eight octets */
    CHECK(sms_report_text(octets, count, &report, out, sizeof out, &needed) == SMS_OUT_OF_RANGE);
    memset(&report, 0xFF, sizeof report);
    CHECK(sms_report_text(octets, count, &report, out, sizeof out, &needed) == SMS_OUT_OF_RANGE);

    sms_status_report status;
    count = from_hex("062A0B917238880900F1993092516195809930925161958000040A" HELLO_SEPTETS, octets);
    CHECK(sms_status_report_read(octets, count, &status, &refused) == SMS_OK && status.has_data == 1);
    CHECK(sms_status_report_text(octets, count, &status, out, sizeof out, &needed) == SMS_OK && is_text("hellohello"));
    CHECK(sms_status_report_text(octets, count, &status, out, 0, &needed) == SMS_NO_ROOM && needed == 10);
    status.has_dcs = 1;
    status.dcs = 4;
    CHECK(sms_status_report_text(octets, count, &status, out, sizeof out, &needed) == SMS_OUT_OF_RANGE);
    status.length = 9;
    CHECK(sms_status_report_text(octets, count, &status, out, sizeof out, &needed) == SMS_NOT_THERE);
    status.has_data = 0;
    CHECK(sms_status_report_text(octets, count, &status, out, sizeof out, &needed) == SMS_NOT_THERE);
}

/* the four of a struct, against what stands after the first octet (and TP-FCS) */
static int reports_are(const sms_report_fields *fields, const char *data, const char *const rows[4])
{
    uint8_t octets[SMS_TEXT_MAX];
    size_t count = from_hex(data, octets);
    int same = 1;
    same &= sms_deliver_ack_write(fields, octets, count, out, sizeof out, &needed) == SMS_OK && are(rows[0]);
    same &= sms_deliver_error_write(fields, octets, count, out, sizeof out, &needed) == SMS_OK && are(rows[1]);
    same &= sms_submit_ack_write(fields, octets, count, out, sizeof out, &needed) == SMS_OK && are(rows[2]);
    same &= sms_submit_error_write(fields, octets, count, out, sizeof out, &needed) == SMS_OK && are(rows[3]);
    return same;
}

/* what all four answer */
static sms_status refuses(const sms_report_fields *fields, size_t count)
{
    static const uint8_t octets[200];
    sms_status status = sms_deliver_ack_write(fields, octets, count, out, sizeof out, &needed);
    if (sms_deliver_error_write(fields, octets, count, out, sizeof out, &needed) != status
        || sms_submit_ack_write(fields, octets, count, out, sizeof out, &needed) != status
        || sms_submit_error_write(fields, octets, count, out, sizeof out, &needed) != status || needed != 0)
        return 99;
    return status;
}

/* first octet: TP-MTI 00 or 01, bit 6 TP-UDHI; TP-FCS; TP-PI; TP-SCTS; the parts that TP-PI announces */
static void reports(void)
{
    static const char *const bare[] = {"0000", "00D300", "010099309251619580", "01D30099309251619580"},
        *const pid[] = {"00017F", "00D3017F", "0101993092516195807F", "01D301993092516195807F"},
        *const whole[] = {"00077F000A" HELLO_SEPTETS, "00D3077F000A" HELLO_SEPTETS,
                          "0107993092516195807F000A" HELLO_SEPTETS, "01D307993092516195807F000A" HELLO_SEPTETS},
        *const headed[] = {"4004090500032A0101D069", "40D304090500032A0101D069",
                           "41049930925161958009" "0500032A0101D069", "41D3049930925161958009" "0500032A0101D069"},
        *const eight[] = {"0006F503010203", "00D306F503010203", "01069930" "9251619580F503010203", "01D306993092516195" "80F503010203"};
    sms_report_fields fields = {STAMP, 0xD3, 0, 0x7F, 0, 0, 0, 0, 0, {0}};

    CHECK(sizeof fields == 21);
    CHECK(reports_are(&fields, "", bare));
    fields.has_pid = 1;
    CHECK(reports_are(&fields, "", pid));
    fields.has_dcs = 1;
    fields.has_data = 1;
    fields.length = 10;
    CHECK(reports_are(&fields, HELLO_SEPTETS, whole));
    CHECK(sms_deliver_ack_write(&fields, out, 9, out + 100, 13, &needed) == SMS_NO_ROOM && needed == 14);
    fields.has_pid = 0;
    fields.dcs = 0xF5;
    fields.length = 3;
    CHECK(reports_are(&fields, "010203", eight));
    fields.has_dcs = 0;
    fields.has_header = 1;
    fields.length = 9;
    CHECK(reports_are(&fields, "0500032A0101D069", headed));

    /* more octets than TP-UDL counts; a header that goes beyond them */
    fields.length = 1;
    CHECK(refuses(&fields, 2) == SMS_OUT_OF_RANGE);
    static const uint8_t beyond[] = {5, 0, 3, 1, 1};
    fields.length = 5;
    CHECK(sms_deliver_ack_write(&fields, beyond, 5, out, sizeof out, &needed) == SMS_OUT_OF_RANGE && needed == 0);
    fields.has_header = 0;
    CHECK(sms_deliver_ack_write(&fields, beyond, 5, out, sizeof out, &needed) == SMS_OK);
    fields.length = 10; /* nine octets */
    CHECK(refuses(&fields, 8) == SMS_OUT_OF_RANGE && refuses(&fields, 10) == SMS_OUT_OF_RANGE);
    fields.length = 181; /* 159 octets */
    CHECK(sms_deliver_ack_write(&fields, out, 159, out + 200, 200, &needed) == SMS_OK && needed == 162);
    CHECK(refuses(&fields, 160) == SMS_TOO_LONG);
    fields.has_data = 0;
    CHECK(refuses(&fields, 0) == SMS_OUT_OF_RANGE);
    fields.length = 0;
    CHECK(refuses(&fields, 1) == SMS_OUT_OF_RANGE);
    fields.has_header = 1;
    CHECK(refuses(&fields, 0) == SMS_OUT_OF_RANGE);
    fields.has_header = 0;
    fields.spare[5] = 1;
    CHECK(refuses(&fields, 0) == SMS_OUT_OF_RANGE);
}

/* first octet: TP-MTI 10, bit 2 TP-MMS (0: more wait), 3 TP-LP, 5 TP-SRQ, 6 TP-UDHI; TP-MR, TP-RA, TP-SCTS, TP-DT,
 * TP-ST, and TP-PI where a part follows */
static void status_reports(void)
{
    sms_status_report_fields fields = {STAMP, {{0x99, 0x30, 0x92, 0x51, 0x61, 0x05, 0x80}}, 0, 0, 0, 0x2A, 0x30, 0, 0, 0, 0, 0, 0, 0, {0}};
    const uint8_t *to = octets_of("+27838890001");
    static const uint8_t hello[] = {0xE8, 0x32, 0x9B, 0xFD, 0x46, 0x97, 0xD9, 0xEC, 0x37},
        headed[] = {0x05, 0x00, 0x03, 0x2A, 0x01, 0x01, 0xD0, 0x69};

    CHECK(sizeof fields == 32);
    CHECK(sms_status_report_write(&fields, to, 12, NULL, 0, out, sizeof out, &needed) == SMS_OK);
    CHECK(are("062A0B917238880900F1993092516195809930925161058030"));
    fields.has_data = 1;
    fields.length = 10;
    fields.has_pid = 1;
    fields.pid = 0x7F;
    CHECK(sms_status_report_write(&fields, to, 12, hello, 9, out, sizeof out, &needed) == SMS_OK);
    CHECK(are("062A0B917238880900F1993092516195809930925161058030057F0A" HELLO_SEPTETS));
    fields.more = fields.looped = fields.qualifier = fields.has_header = 1;
    fields.length = 9;
    fields.has_pid = 0;
    CHECK(sms_status_report_write(&fields, to, 12, headed, 8, out, sizeof out, &needed) == SMS_OK);
    CHECK(are("6A2A0B917238880900F19930925161958099309251610580300409" "0500032A0101D069"));
    CHECK(sms_status_report_write(&fields, to, 12, headed, 8, out, 34, &needed) == SMS_NO_ROOM && needed == 35);

    /* the longest: 20 digits, and 159 octets of data */
    fields.has_header = 0;
    fields.has_pid = fields.has_dcs = 1;
    fields.dcs = 0xF5;
    fields.length = 159;
    CHECK(sms_status_report_write(&fields, octets_of("+12345678901234567890"), 21, out + 200, 159, out, 192, &needed) == SMS_OK);
    CHECK(needed == SMS_UNIT_MAX);
    fields.has_header = 1;
    fields.has_pid = fields.has_dcs = 0;
    fields.length = 9;

    CHECK(sms_status_report_write(&fields, to, 12, headed, 7, out, sizeof out, &needed) == SMS_OUT_OF_RANGE && needed == 0);
    CHECK(sms_status_report_write(&fields, octets_of("+x"), 2, headed, 8, out, sizeof out, &needed) == SMS_BAD_ADDRESS);
    CHECK(sms_status_report_write(&fields, octets_of("\xFF"), 1, headed, 8, out, sizeof out, &needed) == SMS_NOT_UTF8);
    CHECK(sms_status_report_write(&fields, to, 12, out, 160, out + 200, 200, &needed) == SMS_TOO_LONG);
    fields.spare[0] = 1;
    CHECK(sms_status_report_write(&fields, to, 12, headed, 8, out, sizeof out, &needed) == SMS_OUT_OF_RANGE);
}

static sms_submit_fields submit = {{0, 0}, 0, 0, 0, 7, 0, {SMS_VALIDITY_RELATIVE, {0xAA, 0, 0, 0, 0, 0, 0}}, 0, {0}};
static sms_deliver_fields deliver = {{0, 0}, 0, 0, 0, 0, 0, STAMP, 0, {0}};

/* both answer so; where they are written, what stands in them from TP-PID on is this */
static int data_are(uint8_t dcs, uint8_t has_header, const char *data, sms_status status, const char *submitted, const char *delivered)
{
    uint8_t octets[SMS_TEXT_MAX];
    size_t count = from_hex(data, octets);
    const uint8_t *to = octets_of("+46708251358");
    int same = 1;
    same &= sms_submit_data_write(&submit, dcs, has_header, to, 12, octets, count, out, sizeof out, &needed) == status;
    same &= status == SMS_OK ? are(submitted) : needed == 0;
    same &= sms_deliver_data_write(&deliver, dcs, has_header, to, 12, octets, count, out, sizeof out, &needed) == status;
    same &= status == SMS_OK ? are(delivered) : needed == 0;
    return same;
}

#define TO "0B916407281553F8"

/* TP-DCS F5 is 8-bit data of class 1, 04 without a class, 08 UCS-2, 20 compressed: 3GPP TS 23.038, 4 */
static void data(void)
{
    char long_row[2 * 142 + 1];

    CHECK(data_are(0xF5, 0, "01020304", SMS_OK, "1107" TO "00F5AA0401020304", "04" TO "00F5993092516195800401020304"));
    CHECK(data_are(0x04, 0, "", SMS_OK, "1107" TO "0004AA00", "04" TO "00049930925161958000"));
    CHECK(data_are(0x08, 0, "044F", SMS_OK, "1107" TO "0008AA02044F", "04" TO "00089930925161958002044F"));
    CHECK(data_are(0x20, 0, "80", SMS_OK, "1107" TO "0020AA0180", "04" TO "0020993092516195800180"));
    CHECK(data_are(0xF5, 1, "0605040B8423F0AABB", SMS_OK, "5107" TO "00F5AA090605040B8423F0AABB",
                   "44" TO "00F599309251619580090605040B8423F0AABB"));
    CHECK(data_are(0xF5, 1, "00", SMS_OK, "5107" TO "00F5AA0100", "44" TO "00F5993092516195800100"));

    CHECK(data_are(0x00, 0, "01", SMS_OUT_OF_RANGE, "", "") && data_are(0xF1, 0, "01", SMS_OUT_OF_RANGE, "", ""));
    CHECK(data_are(0xF5, 1, "", SMS_OUT_OF_RANGE, "", "") && data_are(0xF5, 1, "0201", SMS_OUT_OF_RANGE, "", ""));
    memset(long_row, '0', sizeof long_row);
    long_row[2 * 141] = 0;
    CHECK(data_are(0xF5, 0, long_row, SMS_TOO_LONG, "", "") && data_are(0xF5, 1, long_row, SMS_TOO_LONG, "", ""));
    CHECK(sms_deliver_data_write(&deliver, 0xF5, 0, octets_of("1"), 1, out, 140, out + 200, 100, &needed) == SMS_NO_ROOM && needed == 154);
    CHECK(sms_submit_data_write(&submit, 0xF5, 0, octets_of("+x"), 2, out, 0, out, sizeof out, &needed) == SMS_BAD_ADDRESS);
    CHECK(sms_deliver_data_write(&deliver, 0xF5, 0, octets_of("\xFF"), 1, out, 0, out, sizeof out, &needed) == SMS_NOT_UTF8);
    submit.validity.format = 4;
    CHECK(sms_submit_data_write(&submit, 0xF5, 0, octets_of("1"), 1, out, 0, out, sizeof out, &needed) == SMS_OUT_OF_RANGE);
    submit.validity.format = SMS_VALIDITY_RELATIVE;
    submit.message_class = deliver.message_class = 1;
    CHECK(data_are(0xF5, 0, "01", SMS_OUT_OF_RANGE, "", ""));
    submit.message_class = deliver.message_class = 0;
    submit.spare[3] = deliver.spare[3] = 1;
    CHECK(data_are(0xF5, 0, "01", SMS_OUT_OF_RANGE, "", ""));
}

int main(void)
{
    version();
    classes();
    centre();
    report_texts();
    reports();
    status_reports();
    data();
    return failures != 0;
}
