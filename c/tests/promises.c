/* What sms.h promises, tried: readers, texts, times, packets, writers, split, joiner, and what is refused. With a number,
 * so many random units are read after that (200,000 if none is given). */
#include "sms.h"

#include <stdio.h>
#include <stdlib.h>
#include <string.h>

static int failures;

static void check(int holds, const char *what, int line)
{
    if (!holds) {
        printf("line %d: %s\n", line, what);
        failures++;
    }
}
#define CHECK(x) check((x) ? 1 : 0, #x, __LINE__)

static size_t from_hex(const char *hex, uint8_t *out)
{
    size_t n = 0;
    unsigned v;
    for (; hex[0] != '\0' && hex[1] != '\0'; hex += 2) {
        if (sscanf(hex, "%2x", &v) != 1)
            abort();
        out[n++] = (uint8_t)v;
    }
    return n;
}

/* octets in a block of their own size, so that a read beyond them is seen */
static uint8_t *block(const char *hex, size_t *count)
{
    uint8_t buffer[512];
    *count = from_hex(hex, buffer);
    uint8_t *own = malloc(*count == 0 ? 1 : *count);
    if (own == NULL)
        abort();
    memcpy(own, buffer, *count);
    return own;
}

static int is_text(const uint8_t *text, size_t length, const char *wanted)
{
    return length == strlen(wanted) && memcmp(text, wanted, length) == 0;
}

static const char *const HELLO = "040BC87238880900F10000993092516195800AE8329BFD4697D9EC37";

static void reads(void)
{
    size_t count, needed;
    uint8_t *octets = block(HELLO, &count);
    sms_deliver d;
    sms_refused refused = {77, 77};
    uint8_t text[SMS_TEXT_MAX], address[SMS_ADDRESS_TEXT_MAX];

    memset(&d, 0xA5, sizeof d);
    CHECK(sms_deliver_read(octets, count, &d, &refused) == SMS_OK);
    CHECK(refused.place == 77 && refused.reason == 77);
    CHECK(d.used == count && d.more == 0 && d.looped == 0 && d.report == 0 && d.reply == 0);
    CHECK(d.pid == 0 && d.dcs == 0);
    CHECK(d.origin.type_of_number == 4 && d.origin.plan == 8);
    CHECK(d.origin.octets.offset == 1 && d.origin.octets.length == 8);
    CHECK(d.user.alphabet == SMS_GSM7 && d.user.has_header == 0 && d.user.length == 10);
    CHECK(d.user.count == 10 && d.user.fill == 0 && d.user.body.offset == 19 && d.user.body.length == 9);
    CHECK(d.user.place.width == 0);
    CHECK(memcmp(d.stamp.octets, octets + 11, 7) == 0);

    CHECK(sms_user_text(octets, count, &d.user, NULL, 0, &needed) == SMS_NO_ROOM && needed == 10);
    CHECK(sms_user_text(octets, count, &d.user, text, 9, &needed) == SMS_NO_ROOM && needed == 10);
    CHECK(sms_user_text(octets, count, &d.user, text, sizeof text, &needed) == SMS_OK);
    CHECK(is_text(text, needed, "hellohello"));
    CHECK(sms_address_text(octets, count, &d.origin, address, sizeof address, &needed) == SMS_OK);
    CHECK(is_text(address, needed, "27838890001"));

    sms_date date;
    uint64_t moment;
    CHECK(sms_stamp_date(&d.stamp, &date) == SMS_OK);
    CHECK(date.year == 2099 && date.month == 3 && date.day == 29 && date.hour == 15 && date.minute == 16);
    CHECK(date.second == 59 && date.quarters == 8);
    CHECK(sms_stamp_moment(&d.stamp, &moment) == SMS_OK);
    sms_stamp again;
    CHECK(sms_stamp_at(moment, 8, &again) == SMS_OK && memcmp(&again, &d.stamp, 7) == 0);
    CHECK(sms_stamp_at(moment, 80, &again) == SMS_OUT_OF_RANGE);

    /* each front is refused at its end, and nothing is written */
    for (size_t front = 0; front < count; front++) {
        uint8_t *own = malloc(front == 0 ? 1 : front);
        sms_deliver same = d;
        if (own == NULL)
            abort();
        memcpy(own, octets, front);
        CHECK(sms_deliver_read(own, front, &d, &refused) == SMS_REFUSED);
        CHECK(refused.place == front && refused.reason == SMS_SHORT);
        CHECK(memcmp(&same, &d, sizeof d) == 0);
        free(own);
    }
    CHECK(sms_deliver_read(NULL, 0, &d, &refused) == SMS_REFUSED && refused.place == 0);
    octets[0] = 1; /* an SMS-SUBMIT */
    CHECK(sms_deliver_read(octets, count, &d, &refused) == SMS_REFUSED);
    CHECK(refused.place == 0 && refused.reason == SMS_WRONG_TYPE);
    octets[0] = 4;
    octets[1] = 21;
    CHECK(sms_deliver_read(octets, count, &d, &refused) == SMS_REFUSED);
    CHECK(refused.place == 1 && refused.reason == SMS_ADDRESS_TOO_LONG);
    octets[1] = 11;

    /* structs that no reader made */
    sms_user user;
    memset(&user, 0xFF, sizeof user);
    CHECK(sms_user_text(octets, count, &user, text, sizeof text, &needed) == SMS_OUT_OF_RANGE && needed == 0);
    user.body.offset = 0;
    user.body.length = count;
    user.alphabet = SMS_GSM7;
    CHECK(sms_user_text(octets, count, &user, text, sizeof text, &needed) == SMS_OUT_OF_RANGE);
    user.fill = 6;
    CHECK(sms_user_text(octets, count, &user, text, sizeof text, &needed) == SMS_OUT_OF_RANGE);
    user.alphabet = SMS_EIGHT_BIT;
    CHECK(sms_user_text(octets, count, &user, text, sizeof text, &needed) == SMS_NOT_THERE);
    user.alphabet = SMS_UCS2;
    CHECK(sms_user_text(octets, count, &user, text, sizeof text, &needed) == SMS_OK);
    sms_address wild = {{SIZE_MAX, SIZE_MAX}, 255, 255};
    CHECK(sms_address_text(octets, count, &wild, text, sizeof text, &needed) == SMS_OUT_OF_RANGE);
    free(octets);
}

static void writes(void)
{
    uint8_t out[SMS_UNIT_MAX], text[SMS_TEXT_MAX];
    size_t needed, segments;
    sms_refused refused;
    sms_submit_fields fields = {
        .segments = {8, 42}, .report = 1, .reference = 7, .validity = {SMS_VALIDITY_RELATIVE, {0xAA}}};
    const uint8_t *to = (const uint8_t *)"+46708251358", *hello = (const uint8_t *)"hellohello";

    CHECK(sms_submit_write(&fields, to, 12, hello, 10, 0, out, sizeof out, &needed, &segments) == SMS_OK);
    CHECK(segments == 1);
    sms_submit s;
    CHECK(sms_submit_read(out, needed, &s, &refused) == SMS_OK && s.used == needed);
    CHECK(s.reference == 7 && s.report == 1 && s.reject == 0 && s.reply == 0 && s.dcs == 0);
    CHECK(s.validity.format == SMS_VALIDITY_RELATIVE && s.validity.octets[0] == 0xAA);
    uint64_t end;
    CHECK(sms_validity_end(&s.validity, 1000, &end) == SMS_OK && end == 1000 + 4 * 86400);
    CHECK(sms_validity_end(&s.validity, UINT64_MAX, &end) == SMS_OUT_OF_RANGE);
    CHECK(sms_address_text(out, needed, &s.target, text, sizeof text, &segments) == SMS_OK);
    CHECK(is_text(text, segments, "+46708251358"));
    CHECK(sms_user_text(out, s.used, &s.user, text, sizeof text, &segments) == SMS_OK);
    CHECK(is_text(text, segments, "hellohello"));

    CHECK(sms_submit_write(&fields, to, 12, hello, 10, 1, out, sizeof out, &needed, &segments) == SMS_NOT_THERE);
    CHECK(segments == 1 && needed == 0);
    CHECK(sms_submit_write(&fields, (const uint8_t *)"+12x", 4, hello, 10, 0, out, sizeof out, &needed, &segments) == SMS_BAD_ADDRESS);
    CHECK(sms_submit_write(&fields, to, 12, (const uint8_t *)"\xff", 1, 0, out, sizeof out, &needed, &segments) == SMS_NOT_UTF8);
    fields.segments.reference = 256;
    CHECK(sms_submit_write(&fields, to, 12, hello, 10, 0, out, sizeof out, &needed, &segments) == SMS_OUT_OF_RANGE);
    fields.segments.reference = 42;
    fields.validity.format = 9;
    CHECK(sms_submit_write(&fields, to, 12, hello, 10, 0, out, sizeof out, &needed, &segments) == SMS_OUT_OF_RANGE);

    /* UCS-2, in two segments */
    char cyrillic[2 * 100 + 1];
    for (size_t i = 0; i < 100; i++)
        memcpy(cyrillic + 2 * i, "\xd0\x96", 2);
    uint8_t all[512];
    sms_span spans[2];
    uint8_t dcs;
    sms_reference reference = {16, 0x1234};
    CHECK(sms_split(&reference, (const uint8_t *)cyrillic, 200, all, sizeof all, &needed, spans, 2, &segments, &dcs) == SMS_OK);
    CHECK(segments == 2 && dcs == 8 && spans[0].offset == 0 && spans[1].offset == spans[0].length);
    CHECK(spans[0].length + spans[1].length == needed && all[0] == spans[0].length - 1);
    sms_span one = {77, 77};
    CHECK(sms_split(&reference, (const uint8_t *)cyrillic, 200, all, sizeof all, &needed, &one, 1, &segments, &dcs) == SMS_NO_ROOM);
    CHECK(segments == 2 && one.offset == 77 && one.length == 77);
    CHECK(sms_split(&reference, (const uint8_t *)cyrillic, 200, NULL, 0, &needed, NULL, 0, &segments, &dcs) == SMS_NO_ROOM);
    CHECK(segments == 2 && needed == spans[0].length + spans[1].length);
}

static void packets(void)
{
    uint8_t unit[SMS_UNIT_MAX], packet[SMS_PACKET_MAX], big[234] = {0};
    size_t count = from_hex(HELLO, unit), needed;
    sms_envelope envelope = {0, 3, 1, 9};
    sms_refused refused;
    sms_cp cp;
    sms_rp rp;

    CHECK(sms_wrap_data(&envelope, (const uint8_t *)"+1234", 5, unit, count, packet, sizeof packet, &needed) == SMS_OK);
    CHECK(sms_cp_read(packet, needed, &cp, &refused) == SMS_OK);
    CHECK(cp.used == needed && cp.flag == 0 && cp.value == 3 && cp.kind == 0);
    CHECK(cp.user.offset == 3 && cp.user.offset + cp.user.length == needed);
    const uint8_t *inner = packet + cp.user.offset;
    CHECK(sms_rp_read(inner, cp.user.length, &rp, &refused) == SMS_OK);
    CHECK(rp.side == 1 && rp.reference == 9 && rp.kind == 0 && rp.has_address == 1 && rp.has_user == 1);
    CHECK(rp.address.offset == 2 && inner[2] + 1u == rp.address.length);
    CHECK(rp.user.length == count && memcmp(inner + rp.user.offset, unit, count) == 0);

    CHECK(sms_wrap_data(&envelope, NULL, 0, big, 234, packet, sizeof packet, &needed) == SMS_TOO_LONG);
    CHECK(sms_wrap_data(&envelope, NULL, 0, big, 233, packet, sizeof packet, &needed) == SMS_OK);
    CHECK(sms_wrap_error(&envelope, 128, NULL, 0, packet, sizeof packet, &needed) == SMS_OUT_OF_RANGE);
    CHECK(sms_wrap_error(&envelope, 22, NULL, 0, packet, sizeof packet, &needed) == SMS_OK);
    CHECK(sms_cp_read(packet, needed, &cp, &refused) == SMS_OK);
    CHECK(sms_rp_read(packet + cp.user.offset, cp.user.length, &rp, &refused) == SMS_OK);
    CHECK(rp.kind == 2 && rp.cause == 22 && rp.has_diagnostic == 0 && rp.has_user == 0);
    CHECK(sms_wrap_ack(&envelope, NULL, 0, packet, sizeof packet, &needed) == SMS_OK);
    CHECK(sms_cp_ack(&envelope, packet, sizeof packet, &needed) == SMS_OK && needed == 2);
    CHECK(sms_cp_error(&envelope, 97, packet, sizeof packet, &needed) == SMS_OK && needed == 3);
    envelope.value = 7;
    CHECK(sms_cp_ack(&envelope, packet, sizeof packet, &needed) == SMS_OUT_OF_RANGE);
    CHECK(sms_cp_read((const uint8_t *)"\x79\x01", 2, &cp, &refused) == SMS_REFUSED);
    CHECK(refused.place == 0 && refused.reason == SMS_BAD_TRANSACTION);
}

static void reports(void)
{
    size_t count;
    sms_report r;
    sms_refused refused;
    uint8_t *octets = block("0007000003616263", &count);
    CHECK(sms_deliver_ack_read(octets, count, &r, &refused) == SMS_OK);
    CHECK(r.has_pid && r.has_dcs && r.has_data && r.length == 3 && !r.has_stamp && !r.has_cause);
    CHECK(r.data.offset == 5 && r.data.length == 3 && r.header.offset == 0 && r.used == count);
    free(octets);
    /* TP-UDHI, without TP-PID: a header of three octets in TP-UD, then one that would go beyond it */
    octets = block("400604050370010041", &count);
    CHECK(sms_deliver_ack_read(octets, count, &r, &refused) == SMS_OK && r.has_header);
    CHECK(r.data.offset == 4 && r.data.length == 5 && r.header.offset == 5 && r.header.length == 3);
    octets[4] = 5;
    CHECK(sms_deliver_ack_read(octets, count, &r, &refused) == SMS_OK && r.has_header && r.header.offset == 0);
    free(octets);
    octets = block("01D60030217251409080", &count);
    CHECK(sms_submit_error_read(octets, count, &r, &refused) == SMS_OK);
    CHECK(r.has_cause && r.cause == 0xD6 && r.has_stamp && r.stamp.octets[0] == 0x30 && !r.has_data);
    free(octets);
}

static int is_date(const sms_stamp *stamp, const char *wanted)
{
    sms_date date;
    char told[64];
    if (sms_stamp_date(stamp, &date) != SMS_OK)
        return wanted == NULL;
    snprintf(told, sizeof told, "%04d-%02d-%02d %02d:%02d:%02d %d", date.year, date.month, date.day, date.hour, date.minute,
             date.second, date.quarters);
    return wanted != NULL && strcmp(told, wanted) == 0;
}

/* Status reports that other tools read: the unit tests of oFono 1.31, and a modem's listing among the tests of Gammu 1.42.
 * The zone of the third has the digit 10, so neither of its stamps is a date. */
static const struct {
    const char *hex;
    uint8_t reference;
    const char *recipient;
    uint8_t type_of_number;
    const char *stamp;
    const char *discharged;
} STATUS_REPORTS[] = {
    {"06040D91945152991136F00160124130340A0160124130940A00", 0x04, "+4915259911630", 1, "2010-06-21 14:03:43 -20",
     "2010-06-21 14:03:49 -20"},
    {"06050D91945152991136F00160124130640A0160124130450A00", 0x05, "+4915259911630", 1, "2010-06-21 14:03:46 -20",
     "2010-06-21 14:03:54 -20"},
    {"0606098121436587F9019012413064A0019012413045A000", 0x06, "123456789", 0, NULL, NULL},
    {"06E80C91666666666666909070618422809090706184628000", 0xE8, "+666666666666", 1, "2009-09-07 16:48:22 8",
     "2009-09-07 16:48:26 8"},
};

static void status_reports(void)
{
    sms_status_report r;
    sms_refused refused;
    uint8_t text[SMS_ADDRESS_TEXT_MAX];
    size_t count, needed;
    for (size_t i = 0; i < sizeof STATUS_REPORTS / sizeof STATUS_REPORTS[0]; i++) {
        uint8_t *octets = block(STATUS_REPORTS[i].hex, &count);
        memset(&r, 0xA5, sizeof r);
        CHECK(sms_status_report_read(octets, count, &r, &refused) == SMS_OK && r.used == count);
        CHECK(!r.more && !r.looped && !r.qualifier && !r.has_header && r.reference == STATUS_REPORTS[i].reference);
        CHECK(r.recipient.type_of_number == STATUS_REPORTS[i].type_of_number && r.recipient.plan == 1);
        CHECK(r.recipient.octets.offset == 2 && r.recipient.octets.length == 2 + (octets[2] + 1u) / 2);
        CHECK(sms_address_text(octets, count, &r.recipient, text, sizeof text, &needed) == SMS_OK);
        CHECK(is_text(text, needed, STATUS_REPORTS[i].recipient));
        CHECK(is_date(&r.stamp, STATUS_REPORTS[i].stamp) && is_date(&r.discharged, STATUS_REPORTS[i].discharged));
        CHECK(memcmp(r.stamp.octets, octets + count - 15, 7) == 0 && memcmp(r.discharged.octets, octets + count - 8, 7) == 0);
        CHECK(r.status == 0 && !r.has_pid && !r.has_dcs && !r.has_data && r.length == 0 && r.alphabet == SMS_GSM7);
        for (size_t front = 0; front < count; front++) {
            sms_status_report same = r;
            CHECK(sms_status_report_read(octets, front, &r, &refused) == SMS_REFUSED && memcmp(&same, &r, sizeof r) == 0);
        }
        free(octets);
    }
    /* all flags, and all parts after TP-ST */
    uint8_t *octets = block("FA0702812199309251619580993092516195804687007F0402AABB", &count);
    CHECK(sms_status_report_read(octets, count, &r, &refused) == SMS_OK && r.used == count);
    CHECK(r.more == 1 && r.looped == 1 && r.qualifier == 1 && r.has_header == 1 && r.status == 0x46);
    CHECK(r.has_pid == 1 && r.pid == 0x7F && r.has_dcs == 1 && r.dcs == 4 && r.alphabet == SMS_EIGHT_BIT);
    CHECK(r.has_data == 1 && r.length == 2 && r.data.offset == 25 && r.data.length == 2);
    /* it ends at TP-ST where no octet follows, and else there are TP-PI and what it says */
    CHECK(sms_status_report_read(octets, 20, &r, &refused) == SMS_OK && r.used == 20 && !r.has_pid && !r.has_data);
    CHECK(sms_status_report_read(octets, 26, &r, &refused) == SMS_REFUSED && refused.place == 26 && refused.reason == SMS_SHORT);
    octets[24] = 160;
    CHECK(sms_status_report_read(octets, count, &r, &refused) == SMS_REFUSED);
    CHECK(refused.place == 24 && refused.reason == SMS_DATA_TOO_LONG);
    free(octets);
}

static void commands(void)
{
    sms_command c;
    sms_refused refused;
    uint8_t text[SMS_ADDRESS_TEXT_MAX];
    size_t count, needed;
    uint8_t *octets = block("02070002050491012000", &count);
    CHECK(sms_command_read(octets, count, &c, &refused) == SMS_OK && c.used == count);
    CHECK(!c.has_header && !c.report && c.reference == 7 && c.pid == 0 && c.kind == 2 && c.message == 5);
    CHECK(c.target.octets.offset == 5 && c.target.octets.length == 4 && c.target.type_of_number == 1 && c.target.plan == 1);
    CHECK(sms_address_text(octets, count, &c.target, text, sizeof text, &needed) == SMS_OK && is_text(text, needed, "+1002"));
    CHECK(c.data.offset == 10 && c.data.length == 0);
    free(octets);
    octets = block("FE0841000602812103AABBCC00", &count);
    CHECK(sms_command_read(octets, count, &c, &refused) == SMS_OK && c.used == 12);
    CHECK(c.has_header == 1 && c.report == 1 && c.reference == 8 && c.pid == 0x41 && c.kind == 0 && c.message == 6);
    CHECK(c.data.offset == 9 && c.data.length == 3 && c.header.offset == 0);
    octets[9] = 2;
    CHECK(sms_command_read(octets, count, &c, &refused) == SMS_OK && c.header.offset == 10 && c.header.length == 2);
    octets[8] = 158;
    sms_command same = c;
    CHECK(sms_command_read(octets, count, &c, &refused) == SMS_REFUSED && memcmp(&same, &c, sizeof c) == 0);
    CHECK(refused.place == 8 && refused.reason == SMS_DATA_TOO_LONG);
    octets[0] = 1;
    CHECK(sms_command_read(octets, count, &c, &refused) == SMS_REFUSED);
    CHECK(refused.place == 0 && refused.reason == SMS_WRONG_TYPE);
    free(octets);
}

static void joins(void)
{
    char text[200];
    uint8_t out[512], units[2][SMS_UNIT_MAX];
    size_t sizes[2], needed, segments;
    sms_joiner joiner = SMS_JOINER_CLOSED;
    sms_refused refused;
    uint32_t outcome = 99;
    uint8_t finishes = 99;
    sms_deliver_fields fields = {.segments = {8, 42}, .stamp = {{0x99, 0x30, 0x92, 0x51, 0x61, 0x95, 0x80}}};

    for (int i = 0; i < 200; i++)
        text[i] = (char)('a' + i % 26);
    for (size_t i = 0; i < 2; i++) {
        CHECK(sms_deliver_write(&fields, (const uint8_t *)"12345", 5, (const uint8_t *)text, 200, i, units[i],
                                sizeof units[i], &sizes[i], &segments) == SMS_OK);
        CHECK(segments == 2);
        sms_deliver d;
        CHECK(sms_deliver_read(units[i], sizes[i], &d, &refused) == SMS_OK);
        CHECK(d.user.has_header == 1 && d.user.place.width == 8 && d.user.place.reference == 42);
        CHECK(d.user.place.maximum == 2 && d.user.place.sequence == i + 1);
        CHECK(d.user.header.length == 5 && units[i][d.user.header.offset] == 0 && d.user.fill == 1);
    }
    /* closed */
    CHECK(sms_joiner_offer(&joiner, 0, units[0], sizes[0], &outcome, &refused) == SMS_CLOSED && outcome == 99);
    CHECK(sms_joiner_text(&joiner, out, sizeof out, &needed) == SMS_CLOSED);
    CHECK(sms_joiner_age(&joiner, 0) == SMS_CLOSED);
    sms_joiner_close(&joiner);
    CHECK(sms_joiner_open(&joiner, 0, 8) == SMS_OUT_OF_RANGE);
    CHECK(sms_joiner_open(&joiner, 1, SIZE_MAX) == SMS_NO_MEMORY);

    CHECK(sms_joiner_open(&joiner, 1, 8) == SMS_OK);
    CHECK(sms_joiner_open(&joiner, 1, 8) == SMS_OK); /* an open one is closed first */
    CHECK(sms_joiner_offer(&joiner, 5, units[1], sizes[1], &outcome, &refused) == SMS_OK && outcome == SMS_KEPT);
    CHECK(sms_joiner_text(&joiner, out, sizeof out, &needed) == SMS_OK && needed == 0);
    CHECK(sms_joiner_offer(&joiner, 5, units[1], sizes[1], &outcome, &refused) == SMS_OK && outcome == SMS_REPEAT);
    CHECK(sms_joiner_would_finish(&joiner, units[0], sizes[0], &finishes, &refused) == SMS_OK && finishes == 1);
    CHECK(sms_joiner_would_finish(&joiner, units[1], sizes[1], &finishes, &refused) == SMS_OK && finishes == 0);
    fields.segments.reference = 43;
    uint8_t other[SMS_UNIT_MAX];
    size_t size;
    CHECK(sms_deliver_write(&fields, (const uint8_t *)"12345", 5, (const uint8_t *)text, 200, 0, other, sizeof other, &size, &segments) == SMS_OK);
    CHECK(sms_joiner_offer(&joiner, 5, other, size, &outcome, &refused) == SMS_TOO_MANY_OPEN);
    CHECK(sms_joiner_offer(&joiner, 6, units[0], sizes[0], &outcome, &refused) == SMS_OK && outcome == SMS_FINISHED);
    CHECK(sms_joiner_text(&joiner, out, 10, &needed) == SMS_NO_ROOM && needed == 200);
    CHECK(sms_joiner_text(&joiner, out, sizeof out, &needed) == SMS_OK && needed == 200);
    CHECK(memcmp(out, text, 200) == 0);
    CHECK(sms_joiner_offer(&joiner, 6, units[0], sizes[0], &outcome, &refused) == SMS_OK && outcome == SMS_REPEAT);
    CHECK(sms_joiner_offer(&joiner, 7, other, size, &outcome, &refused) == SMS_OK && outcome == SMS_KEPT);
    CHECK(sms_joiner_age(&joiner, 7 + 604800) == SMS_OK);
    CHECK(sms_joiner_offer(&joiner, 8, other, size, &outcome, &refused) == SMS_OK && outcome == SMS_KEPT);
    CHECK(sms_joiner_offer(&joiner, 8, other, 3, &outcome, &refused) == SMS_REFUSED);
    CHECK(refused.place == 3 && refused.reason == SMS_SHORT);
    sms_joiner_close(&joiner);
    sms_joiner_close(&joiner);
    CHECK(joiner.open == 0);
}

/* a limit that is 0 is told before an open joiner is closed, which goes on with what it holds */
static void limits(void)
{
    static const sms_deliver_fields fields = {.segments = {8, 42}, .stamp = {{0x99, 0x30, 0x92, 0x51, 0x61, 0x95, 0x80}}};
    uint8_t text[200], units[2][SMS_UNIT_MAX], out[SMS_TEXT_MAX];
    size_t sizes[2], needed, segments;
    sms_joiner joiner = SMS_JOINER_CLOSED;
    sms_refused refused;
    uint32_t outcome;
    memset(text, 'a', sizeof text);
    for (size_t i = 0; i < 2; i++)
        CHECK(sms_deliver_write(&fields, (const uint8_t *)"12345", 5, text, sizeof text, i, units[i], SMS_UNIT_MAX, &sizes[i],
                                &segments) == SMS_OK);
    CHECK(sms_joiner_open(&joiner, 1, 0) == SMS_OUT_OF_RANGE && sms_joiner_age(&joiner, 0) == SMS_CLOSED);
    CHECK(sms_joiner_open(&joiner, 1, 8) == SMS_OK);
    CHECK(sms_joiner_offer(&joiner, 5, units[1], sizes[1], &outcome, &refused) == SMS_OK && outcome == SMS_KEPT);
    CHECK(sms_joiner_open(&joiner, 0, 8) == SMS_OUT_OF_RANGE);
    CHECK(sms_joiner_open(&joiner, 1, 0) == SMS_OUT_OF_RANGE);
    CHECK(sms_joiner_open(&joiner, 0, 0) == SMS_OUT_OF_RANGE);
    CHECK(sms_joiner_offer(&joiner, 5, units[1], sizes[1], &outcome, &refused) == SMS_OK && outcome == SMS_REPEAT);
    CHECK(sms_joiner_offer(&joiner, 5, units[0], sizes[0], &outcome, &refused) == SMS_OK && outcome == SMS_FINISHED);
    CHECK(sms_joiner_text(&joiner, out, sizeof out, &needed) == SMS_OK && needed == sizeof text);
    CHECK(sms_joiner_open(&joiner, 1, SIZE_MAX) == SMS_NO_MEMORY && sms_joiner_age(&joiner, 0) == SMS_CLOSED);
}

/* a text that is not cut leaves how many segments there are, and their TP-DCS, as they were */
static void uncut(void)
{
    static uint8_t text[153 * 255 + 1];
    sms_reference reference = {8, 42}, wide = {9, 42};
    sms_span span;
    size_t needed, segments = 77;
    uint8_t out[1], dcs = 77;
    CHECK(sms_split(&reference, (const uint8_t *)"\xff", 1, out, 1, &needed, &span, 1, &segments, &dcs) == SMS_NOT_UTF8);
    CHECK(segments == 77 && dcs == 77 && needed == 0);
    CHECK(sms_split(&wide, (const uint8_t *)"a", 1, out, 1, &needed, &span, 1, &segments, &dcs) == SMS_OUT_OF_RANGE);
    CHECK(segments == 77 && dcs == 77 && needed == 0);
    memset(text, 'a', sizeof text);
    CHECK(sms_split(&reference, text, sizeof text, out, 1, &needed, &span, 1, &segments, &dcs) == SMS_TOO_LONG);
    CHECK(segments == 77 && dcs == 77 && needed == 0);
    CHECK(sms_split(&reference, text, sizeof text - 1, out, 1, &needed, &span, 1, &segments, &dcs) == SMS_NO_ROOM);
    CHECK(segments == 255 && dcs == 0 && needed == 255 * 141);
}

/* data that are no text (8-bit, compressed) finish nothing: both calls say so */
static void no_text(void)
{
    size_t count;
    uint8_t *octets = block("040BC87238880900F100049930925161958003AABBCC", &count);
    static const uint8_t schemes[] = {0x04, 0x20, 0xF4};
    sms_joiner joiner = SMS_JOINER_CLOSED;
    sms_refused refused;
    uint32_t outcome = 99;
    uint8_t finishes = 99;
    CHECK(sms_joiner_open(&joiner, 1, 8) == SMS_OK);
    for (size_t i = 0; i < sizeof schemes; i++) {
        octets[10] = schemes[i];
        CHECK(sms_joiner_would_finish(&joiner, octets, count, &finishes, &refused) == SMS_NOT_THERE && finishes == 99);
        CHECK(sms_joiner_offer(&joiner, 5, octets, count, &outcome, &refused) == SMS_NOT_THERE && outcome == 99);
    }
    octets[10] = 0x00; /* three septets, in 21 bits */
    CHECK(sms_joiner_would_finish(&joiner, octets, count, &finishes, &refused) == SMS_OK && finishes == 1);
    CHECK(sms_joiner_offer(&joiner, 5, octets, count, &outcome, &refused) == SMS_OK && outcome == SMS_FINISHED);
    sms_joiner_close(&joiner);
    free(octets);
}

/* ---- the open messages of a joiner */

/* offers the segment of an index, from 0, of a text of 1,683 letters: it has eleven under a reference of 8 bits, and
 * twelve under one of 16 */
static uint32_t offer_segment(sms_joiner *joiner, uint64_t seconds, const char *origin, sms_reference reference, size_t index)
{
    static uint8_t text[11 * 153];
    sms_deliver_fields fields = {.segments = reference, .stamp = {{0x99, 0x30, 0x92, 0x51, 0x61, 0x95, 0x80}}};
    uint8_t unit[SMS_UNIT_MAX];
    size_t size, segments;
    uint32_t outcome = 99;
    sms_refused refused;
    memset(text, 'a', sizeof text);
    CHECK(sms_deliver_write(&fields, (const uint8_t *)origin, strlen(origin), text, sizeof text, index, unit, sizeof unit,
                            &size, &segments) == SMS_OK);
    CHECK(sms_joiner_offer(joiner, seconds, unit, size, &outcome, &refused) == SMS_OK);
    return outcome;
}

static int same_cursor(sms_cursor one, sms_cursor other)
{
    return one.change == other.change && one.opening == other.opening;
}

static const sms_reference NARROW = {8, 200}, WIDE = {16, 40000};

/* none, then two, each as it was offered, in order of opening */
static void opens(void)
{
    static const uint8_t none[32] = {0};
    sms_joiner joiner = SMS_JOINER_CLOSED;
    sms_cursor cursor = {0, 0}, before;
    sms_open_message first, second, message, same;
    uint8_t out[8] = {0xA5};
    size_t open_count = 77, needed = 77;
    memset(&message, 0xA5, sizeof message);
    same = message;
    CHECK(sms_joiner_count(&joiner, &open_count) == SMS_CLOSED && open_count == 77);
    CHECK(sms_joiner_each(&joiner, &cursor, &message) == SMS_CLOSED);
    CHECK(sms_joiner_origin(&joiner, 0, out, sizeof out, &needed) == SMS_CLOSED && needed == 0);
    CHECK(sms_joiner_open_seeded(&joiner, 0, 4, 1, 2) == SMS_OUT_OF_RANGE);
    CHECK(sms_joiner_open_seeded(&joiner, 4, 0, 1, 2) == SMS_OUT_OF_RANGE);
    CHECK(sms_joiner_open_seeded(&joiner, 4, SIZE_MAX, 1, 2) == SMS_NO_MEMORY);
    CHECK(sms_joiner_open_seeded(&joiner, 4, 4, UINT64_MAX, 2) == SMS_OK);
    CHECK(sms_joiner_count(&joiner, &open_count) == SMS_OK && open_count == 0);
    CHECK(sms_joiner_each(&joiner, &cursor, &message) == SMS_NOT_THERE);
    CHECK(sms_joiner_origin(&joiner, 0, out, sizeof out, &needed) == SMS_NOT_THERE && needed == 0);
    CHECK(cursor.change == 0 && cursor.opening == 0 && memcmp(&message, &same, sizeof same) == 0 && out[0] == 0xA5);

    CHECK(offer_segment(&joiner, 7, "+12345", NARROW, 10) == SMS_KEPT);
    CHECK(offer_segment(&joiner, 5, "Carrier", WIDE, 0) == SMS_KEPT);
    CHECK(offer_segment(&joiner, 9, "+12345", NARROW, 7) == SMS_KEPT);
    CHECK(sms_joiner_count(&joiner, &open_count) == SMS_OK && open_count == 2);
    CHECK(sms_joiner_each(&joiner, &cursor, &first) == SMS_OK);
    CHECK(first.seconds == 7 && first.width == 8 && first.reference == 200 && first.maximum == 11 && first.count == 2);
    CHECK(first.type_of_number == 1 && first.plan == 1);
    CHECK(first.come[0] == 0 && first.come[1] == 0x09 && memcmp(first.come + 2, none, 30) == 0);
    CHECK(sms_joiner_each(&joiner, &cursor, &second) == SMS_OK);
    CHECK(second.seconds == 5 && second.width == 16 && second.reference == 40000 && second.maximum == 12 && second.count == 1);
    CHECK(second.type_of_number == 5 && second.opening > first.opening);
    CHECK(second.come[0] == 0x02 && memcmp(second.come + 1, none, 31) == 0);
    before = cursor;
    CHECK(sms_joiner_each(&joiner, &cursor, &message) == SMS_NOT_THERE && same_cursor(cursor, before));
    CHECK(sms_joiner_each(&joiner, &cursor, &message) == SMS_NOT_THERE && memcmp(&message, &same, sizeof same) == 0);

    CHECK(sms_joiner_origin(&joiner, first.opening, NULL, 0, &needed) == SMS_NO_ROOM && needed == 6);
    CHECK(sms_joiner_origin(&joiner, first.opening, out, 5, &needed) == SMS_NO_ROOM && needed == 6 && out[0] == 0xA5);
    CHECK(sms_joiner_origin(&joiner, first.opening, out, 6, &needed) == SMS_OK && is_text(out, needed, "+12345"));
    CHECK(sms_joiner_origin(&joiner, second.opening, out, 8, &needed) == SMS_OK && is_text(out, needed, "Carrier"));
    CHECK(sms_joiner_origin(&joiner, second.opening + 1, out, 8, &needed) == SMS_NOT_THERE && needed == 0);
    sms_joiner_close(&joiner);
    CHECK(sms_joiner_each(&joiner, &cursor, &message) == SMS_CLOSED && same_cursor(cursor, before));
}

/* a cursor is stale after an offer, a repeat too, and after an age, and after no other call */
static void changes(void)
{
    sms_joiner joiner = SMS_JOINER_CLOSED;
    sms_cursor begin = {0, 0}, cursor = begin, before;
    sms_open_message first, second, message;
    sms_refused refused;
    uint32_t outcome;
    uint8_t finishes, out[8];
    size_t needed, count, open_count;
    uint8_t *whole = block("040BC87238880900F10000993092516195800141", &count);
    CHECK(sms_joiner_open(&joiner, 2, 4) == SMS_OK);
    CHECK(offer_segment(&joiner, 7, "+12345", NARROW, 10) == SMS_KEPT);
    CHECK(offer_segment(&joiner, 8, "Carrier", WIDE, 0) == SMS_KEPT);

    CHECK(sms_joiner_each(&joiner, &cursor, &first) == SMS_OK && first.seconds == 7);
    CHECK(sms_joiner_would_finish(&joiner, whole, count, &finishes, &refused) == SMS_OK && finishes == 1);
    CHECK(sms_joiner_offer(&joiner, 9, whole, 3, &outcome, &refused) == SMS_REFUSED);
    CHECK(sms_joiner_text(&joiner, out, sizeof out, &needed) == SMS_OK && needed == 0);
    CHECK(sms_joiner_count(&joiner, &open_count) == SMS_OK && open_count == 2);
    CHECK(sms_joiner_origin(&joiner, first.opening, out, sizeof out, &needed) == SMS_OK);
    CHECK(sms_joiner_open(&joiner, 0, 4) == SMS_OUT_OF_RANGE);
    CHECK(sms_joiner_each(&joiner, &cursor, &second) == SMS_OK && second.seconds == 8);

    cursor = begin;
    CHECK(sms_joiner_each(&joiner, &cursor, &message) == SMS_OK);
    before = cursor;
    CHECK(offer_segment(&joiner, 9, "+12345", NARROW, 10) == SMS_REPEAT);
    CHECK(sms_joiner_each(&joiner, &cursor, &message) == SMS_CHANGED && same_cursor(cursor, before));
    CHECK(memcmp(&message, &first, sizeof first) == 0);
    cursor.change = 0; /* it goes on where it stands */
    CHECK(sms_joiner_each(&joiner, &cursor, &message) == SMS_OK && memcmp(&message, &second, sizeof second) == 0);

    cursor = begin;
    CHECK(sms_joiner_each(&joiner, &cursor, &message) == SMS_OK && memcmp(&message, &first, sizeof first) == 0);
    CHECK(sms_joiner_offer(&joiner, 9, whole, count, &outcome, &refused) == SMS_OK && outcome == SMS_FINISHED);
    CHECK(sms_joiner_each(&joiner, &cursor, &message) == SMS_CHANGED);
    cursor = begin;
    CHECK(sms_joiner_each(&joiner, &cursor, &message) == SMS_OK);
    CHECK(sms_joiner_age(&joiner, 0) == SMS_OK); /* it drops none */
    CHECK(sms_joiner_each(&joiner, &cursor, &message) == SMS_CHANGED);

    CHECK(sms_joiner_age(&joiner, 7 + 604800) == SMS_OK);
    cursor = begin;
    CHECK(sms_joiner_each(&joiner, &cursor, &message) == SMS_OK && memcmp(&message, &second, sizeof second) == 0);
    CHECK(sms_joiner_each(&joiner, &cursor, &message) == SMS_NOT_THERE);
    CHECK(sms_joiner_origin(&joiner, first.opening, out, sizeof out, &needed) == SMS_NOT_THERE);
    CHECK(sms_joiner_count(&joiner, &open_count) == SMS_OK && open_count == 1);
    sms_joiner_close(&joiner);
    free(whole);
}

/* ---- each status of each call, where sms.h says that it comes; SMS_NO_MEMORY is tried in memory.c */

#define ANY SIZE_MAX /* a length that is not told here */

static void statuses_of_texts(void)
{
    size_t count, needed;
    uint8_t text[SMS_TEXT_MAX], *octets = block("0491214315912143", &count);
    static const struct {
        sms_span octets;
        size_t room;
        sms_status status;
        size_t needed;
    } addresses[] = {
        {{0, 4}, 33, SMS_OK, 5},
        {{0, 8}, 5, SMS_OK, 5},
        {{0, 4}, 4, SMS_NO_ROOM, 5},
        {{0, 4}, 0, SMS_NO_ROOM, 5},
        {{0, 3}, 33, SMS_REFUSED, 0}, /* short */
        {{4, 4}, 33, SMS_REFUSED, 0}, /* 21 digits */
        {{8, 0}, 33, SMS_REFUSED, 0},
        {{0, 9}, 33, SMS_OUT_OF_RANGE, 0},
        {{9, 0}, 33, SMS_OUT_OF_RANGE, 0},
        {{SIZE_MAX, 2}, 33, SMS_OUT_OF_RANGE, 0},
        {{2, SIZE_MAX}, 33, SMS_OUT_OF_RANGE, 0},
    };
    for (size_t i = 0; i < sizeof addresses / sizeof addresses[0]; i++) {
        sms_address address = {addresses[i].octets, 1, 1};
        memset(text, 0xA5, sizeof text);
        CHECK(sms_address_text(octets, count, &address, text, addresses[i].room, &needed) == addresses[i].status);
        CHECK(needed == addresses[i].needed && (addresses[i].status == SMS_OK || text[0] == 0xA5));
    }
    free(octets);
    octets = block("E8329BFD4697D9EC37", &count);
    static const struct {
        sms_span body;
        uint8_t alphabet, fill, count;
        size_t room;
        sms_status status;
        size_t needed;
    } users[] = {
        {{0, 9}, SMS_GSM7, 0, 10, 10, SMS_OK, 10},
        {{0, 9}, SMS_GSM7, 0, 10, 9, SMS_NO_ROOM, 10},
        {{0, 8}, SMS_GSM7, 0, 9, 480, SMS_OK, 9},
        {{0, 8}, SMS_GSM7, 1, 9, 480, SMS_OK, ANY},
        {{0, 8}, SMS_GSM7, 2, 9, 480, SMS_OUT_OF_RANGE, 0},
        {{0, 8}, SMS_GSM7, 0, 10, 480, SMS_OUT_OF_RANGE, 0},
        {{0, 8}, SMS_GSM7, 6, 0, 0, SMS_OK, 0},
        {{0, 8}, SMS_GSM7, 7, 0, 480, SMS_OUT_OF_RANGE, 0},
        {{1, 9}, SMS_GSM7, 0, 1, 480, SMS_OUT_OF_RANGE, 0},
        {{0, 4}, SMS_UCS2, 99, 99, 6, SMS_OK, 6},
        {{0, 4}, SMS_UCS2, 0, 0, 5, SMS_NO_ROOM, 6},
        {{6, 4}, SMS_UCS2, 0, 0, 480, SMS_OUT_OF_RANGE, 0},
        {{0, 9}, SMS_EIGHT_BIT, 0, 9, 480, SMS_NOT_THERE, 0},
        {{0, 9}, SMS_COMPRESSED, 0, 9, 480, SMS_NOT_THERE, 0},
        {{0, 9}, 4, 0, 9, 480, SMS_NOT_THERE, 0},
        {{0, 9}, 255, 7, 99, 480, SMS_NOT_THERE, 0},
        {{1, 9}, SMS_EIGHT_BIT, 0, 9, 480, SMS_OUT_OF_RANGE, 0},
    };
    for (size_t i = 0; i < sizeof users / sizeof users[0]; i++) {
        sms_user user = {{0, 0}, users[i].body, {0, 0, 0, 0}, 0, users[i].alphabet, 0, users[i].fill, users[i].count};
        memset(text, 0xA5, sizeof text);
        CHECK(sms_user_text(octets, count, &user, text, users[i].room, &needed) == users[i].status);
        CHECK((users[i].needed == ANY || needed == users[i].needed) && (users[i].status == SMS_OK || text[0] == 0xA5));
    }
    free(octets);
}

static void statuses_of_times(void)
{
    static const sms_stamp no_date = {{0x99, 0x30, 0x92, 0x51, 0x61, 0xA5, 0x80}};
    static const sms_stamp before = {{0x00, 0x10, 0x10, 0x00, 0x00, 0x00, 0x40}}; /* 2000-01-01, an hour east */
    static const sms_stamp date = {{0x10, 0x10, 0x10, 0x00, 0x00, 0x00, 0x00}};
    sms_date out;
    uint64_t seconds = 77;
    sms_stamp stamp = date;
    CHECK(sms_stamp_date(&date, &out) == SMS_OK && sms_stamp_date(&before, &out) == SMS_OK);
    CHECK(sms_stamp_date(&no_date, &out) == SMS_NOT_THERE && out.year == 2000);
    CHECK(sms_stamp_moment(&no_date, &seconds) == SMS_NOT_THERE && sms_stamp_moment(&before, &seconds) == SMS_NOT_THERE);
    CHECK(seconds == 77 && sms_stamp_moment(&date, &seconds) == SMS_OK && seconds == 366 * 86400u);
    CHECK(sms_stamp_at(0, -1, &stamp) == SMS_OUT_OF_RANGE && sms_stamp_at(0, 80, &stamp) == SMS_OUT_OF_RANGE);
    CHECK(sms_stamp_at(0, -80, &stamp) == SMS_OUT_OF_RANGE && sms_stamp_at(UINT64_MAX, 0, &stamp) == SMS_OUT_OF_RANGE);
    CHECK(memcmp(&stamp, &date, 7) == 0 && sms_stamp_at(0, 79, &stamp) == SMS_OK);
    static const struct {
        sms_validity validity;
        uint64_t accepted;
        sms_status status;
    } ends[] = {
        {{SMS_VALIDITY_ABSENT, {0}}, 5, SMS_OK},
        {{SMS_VALIDITY_RELATIVE, {255}}, 5, SMS_OK},
        {{SMS_VALIDITY_ABSOLUTE, {0x10, 0x10, 0x10, 0, 0, 0, 0}}, 5, SMS_OK},
        {{SMS_VALIDITY_ENHANCED, {0}}, 5, SMS_NOT_THERE},
        {{SMS_VALIDITY_ABSOLUTE, {0x00, 0x10, 0x10, 0, 0, 0, 0x40}}, 5, SMS_NOT_THERE},
        {{4, {0}}, 5, SMS_OUT_OF_RANGE},
        {{SMS_VALIDITY_ENHANCED, {0}}, UINT64_C(1) << 63, SMS_OUT_OF_RANGE},
    };
    for (size_t i = 0; i < sizeof ends / sizeof ends[0]; i++) {
        seconds = 77;
        CHECK(sms_validity_end(&ends[i].validity, ends[i].accepted, &seconds) == ends[i].status);
        CHECK((seconds == 77) == (ends[i].status != SMS_OK));
    }
}

/* a text of one segment more than there may be, where a row has none */
static uint8_t too_long[153 * 255 + 1];

static void statuses_of_writers(void)
{
    static const struct {
        sms_reference segments;
        uint8_t format;
        const char *address, *text;
        size_t index, room;
        sms_status status;
        size_t cut;
    } rows[] = {
        {{8, 255}, SMS_VALIDITY_ABSENT, "+46708251358", "hello", 0, 184, SMS_OK, 1},
        {{16, 65535}, SMS_VALIDITY_ENHANCED, "46708251358", "", 0, 184, SMS_OK, 1},
        {{8, 0}, SMS_VALIDITY_ABSOLUTE, "eleven char", "hello", 0, 184, SMS_OK, 1},
        {{8, 255}, SMS_VALIDITY_RELATIVE, "+12345678901234567890", "hello", 0, 0, SMS_NO_ROOM, 1},
        {{8, 256}, SMS_VALIDITY_ABSENT, "+1", "hello", 0, 184, SMS_OUT_OF_RANGE, 0},
        {{0, 0}, SMS_VALIDITY_ABSENT, "\xff", "hello", 0, 184, SMS_OUT_OF_RANGE, 0},
        {{9, 0}, SMS_VALIDITY_ABSENT, "+1", NULL, 0, 184, SMS_OUT_OF_RANGE, 0},
        {{8, 0}, SMS_VALIDITY_ABSENT, "\xff", "hello", 0, 184, SMS_NOT_UTF8, 0},
        {{8, 0}, SMS_VALIDITY_ABSENT, "+1", "\xed\xa0\x80", 0, 184, SMS_NOT_UTF8, 0},
        {{8, 0}, SMS_VALIDITY_ABSENT, "+1x", "\xff", 0, 184, SMS_NOT_UTF8, 0},
        {{8, 0}, SMS_VALIDITY_ABSENT, "+1x", NULL, 0, 184, SMS_BAD_ADDRESS, 0},
        {{8, 0}, SMS_VALIDITY_ABSENT, "+123456789012345678901", "hello", 0, 184, SMS_BAD_ADDRESS, 0},
        {{8, 0}, SMS_VALIDITY_ABSENT, "twelve chars", "hello", 9, 184, SMS_BAD_ADDRESS, 0},
        {{8, 0}, SMS_VALIDITY_ABSENT, "\xd0\x96", "hello", 0, 184, SMS_BAD_ADDRESS, 0},
        {{8, 0}, SMS_VALIDITY_ABSENT, "+1", NULL, 300, 184, SMS_TOO_LONG, 0},
        {{8, 0}, SMS_VALIDITY_ABSENT, "+1", "hello", 1, 184, SMS_NOT_THERE, 1},
        {{8, 0}, SMS_VALIDITY_ABSENT, "+1", "hello", SIZE_MAX, 0, SMS_NOT_THERE, 1},
    };
    memset(too_long, 'a', sizeof too_long);
    for (size_t i = 0; i < sizeof rows / sizeof rows[0]; i++) {
        sms_submit_fields submit = {rows[i].segments, 0, 0, 0, 0, 0, {rows[i].format, {0}}};
        sms_deliver_fields deliver = {rows[i].segments, 0, 0, 0, 0, 0, {{0}}};
        const uint8_t *text = rows[i].text == NULL ? too_long : (const uint8_t *)rows[i].text;
        size_t size = rows[i].text == NULL ? sizeof too_long : strlen(rows[i].text), needed, segments;
        const uint8_t *address = (const uint8_t *)rows[i].address;
        uint8_t out[SMS_UNIT_MAX];
        memset(out, 0xA5, sizeof out);
        CHECK(sms_submit_write(&submit, address, strlen(rows[i].address), text, size, rows[i].index, out, rows[i].room, &needed,
                               &segments) == rows[i].status);
        CHECK(segments == rows[i].cut && (needed != 0) == (rows[i].status == SMS_OK || rows[i].status == SMS_NO_ROOM));
        CHECK((out[0] != 0xA5) == (rows[i].status == SMS_OK));
        memset(out, 0xA5, sizeof out);
        CHECK(sms_deliver_write(&deliver, address, strlen(rows[i].address), text, size, rows[i].index, out, rows[i].room, &needed,
                                &segments) == rows[i].status);
        CHECK(segments == rows[i].cut && (needed != 0) == (rows[i].status == SMS_OK || rows[i].status == SMS_NO_ROOM));
        CHECK((out[0] != 0xA5) == (rows[i].status == SMS_OK));
    }
    sms_submit_fields submit = {{8, 0}, 0, 0, 0, 0, 0, {4, {0}}};
    size_t needed, segments;
    CHECK(sms_submit_write(&submit, (const uint8_t *)"\xff", 1, too_long, 1, 0, NULL, 0, &needed, &segments) == SMS_OUT_OF_RANGE);
    static const struct {
        sms_reference reference;
        const char *text;
        size_t room, spans;
        sms_status status;
    } splits[] = {
        {{8, 255}, "hello", 6, 1, SMS_OK},
        {{16, 256}, "hello", 5, 1, SMS_NO_ROOM},
        {{16, 256}, "hello", 6, 0, SMS_NO_ROOM},
        {{8, 256}, "\xff", 6, 1, SMS_OUT_OF_RANGE},
        {{15, 0}, NULL, 6, 1, SMS_OUT_OF_RANGE},
        {{8, 0}, "\xff", 6, 1, SMS_NOT_UTF8},
        {{8, 0}, NULL, 6, 1, SMS_TOO_LONG},
    };
    for (size_t i = 0; i < sizeof splits / sizeof splits[0]; i++) {
        const uint8_t *text = splits[i].text == NULL ? too_long : (const uint8_t *)splits[i].text;
        size_t size = splits[i].text == NULL ? sizeof too_long : strlen(splits[i].text);
        int cut = splits[i].status == SMS_OK || splits[i].status == SMS_NO_ROOM;
        uint8_t out[6] = {0xA5}, dcs = 77;
        sms_span span = {77, 77};
        segments = 77;
        CHECK(sms_split(&splits[i].reference, text, size, out, splits[i].room, &needed, &span, splits[i].spans, &segments, &dcs)
              == splits[i].status);
        CHECK(segments == (cut ? 1 : 77) && dcs == (cut ? 0 : 77) && needed == (cut ? 6 : 0));
        CHECK((out[0] == 5 && span.offset == 0 && span.length == 6) == (splits[i].status == SMS_OK));
        CHECK((out[0] == 0xA5 && span.offset == 77 && span.length == 77) == (splits[i].status != SMS_OK));
    }
}

static void statuses_of_packets(void)
{
    enum { DATA, ACK, ERROR, CP_ACK, CP_ERROR };
    static const uint8_t unit[234] = {0};
    static const struct {
        int call;
        sms_envelope envelope;
        uint8_t cause;
        const char *address;
        size_t unit, room;
        sms_status status;
    } rows[] = {
        {DATA, {1, 6, 1, 9}, 0, "+12345678901234567890", 233, 258, SMS_OK},
        {DATA, {0, 0, 0, 9}, 0, "", 0, 7, SMS_NO_ROOM},
        {DATA, {2, 6, 1, 9}, 0, "\xff", 234, 258, SMS_OUT_OF_RANGE},
        {DATA, {0, 7, 1, 9}, 0, "+1", 1, 258, SMS_OUT_OF_RANGE},
        {DATA, {0, 0, 2, 9}, 0, "+1", 1, 258, SMS_OUT_OF_RANGE},
        {DATA, {0, 0, 0, 9}, 0, "\xff", 234, 258, SMS_NOT_UTF8},
        {DATA, {0, 0, 0, 9}, 0, "name", 234, 258, SMS_BAD_ADDRESS},
        {DATA, {0, 0, 0, 9}, 0, "123456789012345678901", 1, 258, SMS_BAD_ADDRESS},
        {DATA, {0, 0, 0, 9}, 0, "+1", 234, 258, SMS_TOO_LONG},
        {ACK, {1, 6, 1, 9}, 0, "", 233, 258, SMS_OK},
        {ACK, {1, 6, 1, 9}, 0, "", 0, 4, SMS_NO_ROOM},
        {ACK, {2, 0, 0, 9}, 0, "", 234, 258, SMS_OUT_OF_RANGE},
        {ACK, {0, 7, 0, 9}, 0, "", 0, 258, SMS_OUT_OF_RANGE},
        {ACK, {0, 0, 2, 9}, 0, "", 0, 258, SMS_OUT_OF_RANGE},
        {ACK, {0, 0, 0, 9}, 0, "", 234, 258, SMS_TOO_LONG},
        {ERROR, {1, 6, 1, 9}, 127, "", 233, 258, SMS_OK},
        {ERROR, {1, 6, 1, 9}, 0, "", 0, 6, SMS_NO_ROOM},
        {ERROR, {0, 0, 0, 9}, 128, "", 234, 258, SMS_OUT_OF_RANGE},
        {ERROR, {2, 0, 0, 9}, 0, "", 0, 258, SMS_OUT_OF_RANGE},
        {ERROR, {0, 7, 0, 9}, 0, "", 0, 258, SMS_OUT_OF_RANGE},
        {ERROR, {0, 0, 2, 9}, 0, "", 0, 258, SMS_OUT_OF_RANGE},
        {ERROR, {0, 0, 0, 9}, 0, "", 234, 258, SMS_TOO_LONG},
        {CP_ACK, {1, 6, 99, 9}, 0, "", 0, 2, SMS_OK},
        {CP_ACK, {1, 6, 99, 9}, 0, "", 0, 1, SMS_NO_ROOM},
        {CP_ACK, {2, 6, 0, 9}, 0, "", 0, 2, SMS_OUT_OF_RANGE},
        {CP_ACK, {0, 7, 0, 9}, 0, "", 0, 2, SMS_OUT_OF_RANGE},
        {CP_ERROR, {1, 6, 99, 9}, 255, "", 0, 3, SMS_OK},
        {CP_ERROR, {1, 6, 99, 9}, 255, "", 0, 2, SMS_NO_ROOM},
        {CP_ERROR, {2, 6, 0, 9}, 0, "", 0, 3, SMS_OUT_OF_RANGE},
        {CP_ERROR, {0, 7, 0, 9}, 0, "", 0, 3, SMS_OUT_OF_RANGE},
    };
    for (size_t i = 0; i < sizeof rows / sizeof rows[0]; i++) {
        const sms_envelope *envelope = &rows[i].envelope;
        const uint8_t *address = (const uint8_t *)rows[i].address;
        uint8_t out[SMS_PACKET_MAX], cause = rows[i].cause;
        size_t needed = 77, size = strlen(rows[i].address), room = rows[i].room;
        sms_status status = SMS_CLOSED;
        memset(out, 0xA5, sizeof out);
        switch (rows[i].call) {
        case DATA: status = sms_wrap_data(envelope, address, size, unit, rows[i].unit, out, room, &needed); break;
        case ACK: status = sms_wrap_ack(envelope, unit, rows[i].unit, out, room, &needed); break;
        case ERROR: status = sms_wrap_error(envelope, cause, unit, rows[i].unit, out, room, &needed); break;
        case CP_ACK: status = sms_cp_ack(envelope, out, room, &needed); break;
        case CP_ERROR: status = sms_cp_error(envelope, cause, out, room, &needed); break;
        }
        if (status != rows[i].status) {
            printf("packet %zu: status %u\n", i, (unsigned)status);
            failures++;
        }
        CHECK((needed == 0) == (rows[i].status != SMS_OK && rows[i].status != SMS_NO_ROOM));
        CHECK((needed > room) == (rows[i].status == SMS_NO_ROOM));
        CHECK((out[0] == 0xA5) == (rows[i].status != SMS_OK));
    }
}

/* a joiner that is closed, then open for one message, then full, then closed */
static void statuses_of_joiner(void)
{
    size_t count, needed = 77;
    /* the first of two segments under a reference of 8 bits */
    uint8_t *octets = block("440BC87238880900F100009930925161958008050003090201C2", &count);
    sms_joiner joiner = SMS_JOINER_CLOSED;
    sms_refused refused = {77, 77};
    uint32_t outcome = 77;
    uint8_t finishes = 77, text[1];
    CHECK(sms_joiner_offer(&joiner, 0, octets, 3, &outcome, &refused) == SMS_CLOSED);
    CHECK(sms_joiner_would_finish(&joiner, octets, 3, &finishes, &refused) == SMS_CLOSED);
    CHECK(sms_joiner_text(&joiner, text, 1, &needed) == SMS_CLOSED && needed == 0);
    CHECK(sms_joiner_age(&joiner, 0) == SMS_CLOSED);
    CHECK(sms_joiner_open(&joiner, 0, SIZE_MAX) == SMS_OUT_OF_RANGE && sms_joiner_open(&joiner, 1, SIZE_MAX) == SMS_NO_MEMORY);
    CHECK(sms_joiner_open(&joiner, 1, 1) == SMS_OK);
    CHECK(sms_joiner_would_finish(&joiner, octets, count, &finishes, &refused) == SMS_OK && finishes == 0);
    CHECK(sms_joiner_offer(&joiner, 0, octets, count, &outcome, &refused) == SMS_OK && outcome == SMS_KEPT);
    octets[22] = 0x0A; /* another reference */
    CHECK(sms_joiner_would_finish(&joiner, octets, count, &finishes, &refused) == SMS_OK && finishes == 0);
    CHECK(sms_joiner_offer(&joiner, 0, octets, count, &outcome, &refused) == SMS_TOO_MANY_OPEN);
    octets[10] = 0x04; /* 8-bit data, 7 octets of them */
    octets[18] = 7;
    CHECK(sms_joiner_would_finish(&joiner, octets, count, &finishes, &refused) == SMS_NOT_THERE);
    CHECK(sms_joiner_offer(&joiner, 0, octets, count, &outcome, &refused) == SMS_NOT_THERE);
    CHECK(outcome == SMS_KEPT && finishes == 0 && refused.place == 77 && refused.reason == 77);
    CHECK(sms_joiner_would_finish(&joiner, octets, 3, &finishes, &refused) == SMS_REFUSED && refused.place == 3);
    CHECK(sms_joiner_offer(&joiner, 0, octets, 2, &outcome, &refused) == SMS_REFUSED && refused.place == 2);
    CHECK(outcome == SMS_KEPT && finishes == 0);
    CHECK(sms_joiner_text(&joiner, NULL, 0, &needed) == SMS_OK && needed == 0 && sms_joiner_age(&joiner, 0) == SMS_OK);
    free(octets);
    octets = block("040BC87238880900F10000993092516195800141", &count);
    CHECK(sms_joiner_would_finish(&joiner, octets, count, &finishes, &refused) == SMS_OK && finishes == 1);
    CHECK(sms_joiner_offer(&joiner, 0, octets, count, &outcome, &refused) == SMS_OK && outcome == SMS_FINISHED);
    CHECK(sms_joiner_text(&joiner, text, 0, &needed) == SMS_NO_ROOM && needed == 1);
    CHECK(sms_joiner_age(&joiner, 604800) == SMS_OK); /* the text stays */
    CHECK(sms_joiner_text(&joiner, text, 1, &needed) == SMS_OK && needed == 1 && text[0] == 'A');
    CHECK(sms_joiner_offer(&joiner, 0, octets, count, &outcome, &refused) == SMS_OK && outcome == SMS_REPEAT);
    CHECK(sms_joiner_open(&joiner, 1, 1) == SMS_OK); /* nothing is left of it */
    CHECK(sms_joiner_text(&joiner, text, 1, &needed) == SMS_OK && needed == 0);
    CHECK(sms_joiner_offer(&joiner, 0, octets, count, &outcome, &refused) == SMS_OK && outcome == SMS_FINISHED);
    sms_joiner_close(&joiner);
    CHECK(sms_joiner_age(&joiner, 0) == SMS_CLOSED);
    free(octets);
}

typedef sms_status (*reader)(const uint8_t *, size_t, sms_refused *);
static sms_status deliver(const uint8_t *octets, size_t count, sms_refused *refused)
{
    sms_deliver seen;
    return sms_deliver_read(octets, count, &seen, refused);
}
static sms_status submit(const uint8_t *octets, size_t count, sms_refused *refused)
{
    sms_submit seen;
    return sms_submit_read(octets, count, &seen, refused);
}
static sms_status deliver_ack(const uint8_t *octets, size_t count, sms_refused *refused)
{
    sms_report seen;
    return sms_deliver_ack_read(octets, count, &seen, refused);
}
static sms_status deliver_error(const uint8_t *octets, size_t count, sms_refused *refused)
{
    sms_report seen;
    return sms_deliver_error_read(octets, count, &seen, refused);
}
static sms_status submit_ack(const uint8_t *octets, size_t count, sms_refused *refused)
{
    sms_report seen;
    return sms_submit_ack_read(octets, count, &seen, refused);
}
static sms_status submit_error(const uint8_t *octets, size_t count, sms_refused *refused)
{
    sms_report seen;
    return sms_submit_error_read(octets, count, &seen, refused);
}
static sms_status status_report(const uint8_t *octets, size_t count, sms_refused *refused)
{
    sms_status_report seen;
    return sms_status_report_read(octets, count, &seen, refused);
}
static sms_status command(const uint8_t *octets, size_t count, sms_refused *refused)
{
    sms_command seen;
    return sms_command_read(octets, count, &seen, refused);
}
static sms_status cp(const uint8_t *octets, size_t count, sms_refused *refused)
{
    sms_cp seen;
    return sms_cp_read(octets, count, &seen, refused);
}
static sms_status rp(const uint8_t *octets, size_t count, sms_refused *refused)
{
    sms_rp seen;
    return sms_rp_read(octets, count, &seen, refused);
}

/* each worked unit is read whole, and each front of it is refused at its end */
static void cuts(void)
{
    const struct {
        reader read;
        const char *hex;
    } units[] = {
        {deliver, "040BC87238880900F10000993092516195800AE8329BFD4697D9EC37"},
        {submit, "11000B916407281553F80000AA0AE8329BFD4697D9EC37"},
        {deliver_ack, "0007000003616263"},
        {deliver_error, "00C10700040302F0A1"},
        {submit_ack, "010030217251409080"},
        {submit_error, "01D60030217251409080"},
        {status_report, STATUS_REPORTS[0].hex},
        {status_report, STATUS_REPORTS[1].hex},
        {status_report, STATUS_REPORTS[2].hex},
        {status_report, STATUS_REPORTS[3].hex},
        {command, "02070002050491012000"},
        {command, "FE0841000602812103AABBCC"},
        {cp, "390107020900050003C9"},
        {cp, "3904"},
        {cp, "391061"},
        {rp, "0109039112340002AABB"},
        {rp, "0009000391123402AABB"},
        {rp, "0205"},
        {rp, "0405015F"},
    };
    for (size_t i = 0; i < sizeof units / sizeof units[0]; i++) {
        size_t count;
        uint8_t *octets = block(units[i].hex, &count);
        sms_refused refused = {99, 99};
        CHECK(units[i].read(octets, count, &refused) == SMS_OK);
        for (size_t front = 0; front < count; front++) {
            uint8_t *own = malloc(front == 0 ? 1 : front);
            if (own == NULL)
                abort();
            memcpy(own, octets, front);
            if (units[i].read(own, front, &refused) != SMS_REFUSED || refused.place != front || refused.reason != SMS_SHORT) {
                printf("%s cut at %zu: place %zu, reason %u\n", units[i].hex, front, refused.place, (unsigned)refused.reason);
                failures++;
            }
            free(own);
        }
        free(octets);
    }
}

/* octets as they come: no answer but a status, and no octet read or written beyond what is given */
static void rubbish(unsigned turns)
{
    uint64_t seed = 0x9E3779B97F4A7C15u;
    for (unsigned turn = 0; turn < turns; turn++) {
        size_t count = 0;
        uint8_t draft[192];
        for (size_t i = 0; i < sizeof draft; i++) {
            seed = seed * 6364136223846793005u + 1442695040888963407u;
            draft[i] = (uint8_t)(seed >> 56);
            if (i == 1)
                count = (size_t)(seed >> 33) % sizeof draft;
        }
        draft[0] &= 0xC5;
        draft[1] %= 12;
        uint8_t *own = malloc(count == 0 ? 1 : count), text[SMS_TEXT_MAX];
        if (own == NULL)
            abort();
        memcpy(own, draft, count);
        sms_deliver d;
        sms_submit s;
        sms_report r;
        sms_cp cp;
        sms_rp rp;
        sms_refused refused;
        size_t needed;
        if (sms_deliver_read(own, count, &d, &refused) == SMS_OK) {
            CHECK(d.used <= count && d.user.body.offset + d.user.body.length == d.used);
            int has_text = d.user.alphabet == SMS_GSM7 || d.user.alphabet == SMS_UCS2;
            CHECK(sms_user_text(own, count, &d.user, text, sizeof text, &needed) == (has_text ? SMS_OK : SMS_NOT_THERE));
            CHECK(needed <= sizeof text);
            CHECK(sms_address_text(own, count, &d.origin, text, SMS_ADDRESS_TEXT_MAX, &needed) == SMS_OK);
        } else
            CHECK(refused.place <= count);
        CHECK(sms_submit_read(own, count, &s, &refused) <= SMS_REFUSED);
        CHECK(sms_deliver_ack_read(own, count, &r, &refused) <= SMS_REFUSED);
        CHECK(sms_deliver_error_read(own, count, &r, &refused) <= SMS_REFUSED);
        CHECK(sms_submit_ack_read(own, count, &r, &refused) <= SMS_REFUSED);
        CHECK(sms_submit_error_read(own, count, &r, &refused) <= SMS_REFUSED);
        CHECK(sms_cp_read(own, count, &cp, &refused) <= SMS_REFUSED);
        CHECK(sms_rp_read(own, count, &rp, &refused) <= SMS_REFUSED);
        if (count > 5) {
            own[0] = (uint8_t)((own[0] & 0xFC) | 2);
            own[2] %= 12;
            own[5] %= 12;
        }
        sms_status_report report;
        sms_command command;
        if (sms_status_report_read(own, count, &report, &refused) == SMS_OK) {
            CHECK(report.used <= count && (!report.has_data || report.data.offset + report.data.length == report.used));
            CHECK(sms_address_text(own, count, &report.recipient, text, SMS_ADDRESS_TEXT_MAX, &needed) == SMS_OK);
        } else
            CHECK(refused.place <= count);
        if (sms_command_read(own, count, &command, &refused) == SMS_OK) {
            CHECK(command.used <= count && command.data.offset + command.data.length == command.used);
            CHECK(sms_address_text(own, count, &command.target, text, SMS_ADDRESS_TEXT_MAX, &needed) == SMS_OK);
        } else
            CHECK(refused.place <= count);
        free(own);
    }
}

int main(int argc, char **argv)
{
    reads();
    writes();
    packets();
    reports();
    status_reports();
    commands();
    joins();
    limits();
    uncut();
    no_text();
    opens();
    changes();
    statuses_of_texts();
    statuses_of_times();
    statuses_of_writers();
    statuses_of_packets();
    statuses_of_joiner();
    cuts();
    rubbish(argc > 1 ? (unsigned)strtoul(argv[1], NULL, 10) : 200000);
    printf("%d failures\n", failures);
    return failures != 0;
}
