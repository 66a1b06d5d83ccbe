/* User data alone: by hand, beside the segments of a text, split from texts, offered to joiners, and, of so many random
 * ones (200,000 if no number is given), beside the SMS-DELIVER around the same. */
#include "sms.h"

#include <stdio.h>
#include <stdlib.h>
#include <string.h>

static int failures;

static void check(int holds, const char *what, int line)
{
    if (!holds) {
        printf("line %d: %s\n", line, what);
        failures++;
    }
}
#define CHECK(x) check((x) ? 1 : 0, #x, __LINE__)

static size_t from_hex(const char *hex, uint8_t *out)
{
    size_t n = 0;
    unsigned v;
    for (; hex[0] != '\0' && hex[1] != '\0'; hex += 2) {
        if (sscanf(hex, "%2x", &v) != 1)
            abort();
        out[n++] = (uint8_t)v;
    }
    return n;
}

/* in a block of their own size, so that a read beyond them is seen */
static uint8_t *own(const uint8_t *octets, size_t count)
{
    uint8_t *block = malloc(count == 0 ? 1 : count);
    if (block == NULL)
        abort();
    memcpy(block, octets, count);
    return block;
}

/* these octets under this form have this text, which takes all of them */
static int says(const char *hex, sms_data_form form, const char *wanted)
{
    uint8_t draft[512], text[SMS_TEXT_MAX];
    size_t count = from_hex(hex, draft), needed, length = strlen(wanted);
    uint8_t *octets = own(draft, count);
    sms_data data;
    sms_refused refused;
    int holds = sms_data_read(octets, count, &form, &data, &refused) == SMS_OK && data.used == count;
    holds = holds && sms_data_text(octets, count, &form, text, sizeof text, &needed) == SMS_OK;
    holds = holds && needed == length && memcmp(text, wanted, length) == 0;
    if (length > 0)
        holds = holds && sms_data_text(octets, count, &form, NULL, 0, &needed) == SMS_NO_ROOM && needed == length;
    free(octets);
    return holds;
}

/* both calls refuse them, at a place and for a reason, and the struct is as it was */
static int refuses(const char *hex, sms_data_form form, size_t place, uint32_t reason)
{
    uint8_t draft[512], text[SMS_TEXT_MAX];
    size_t count = from_hex(hex, draft), needed = 7;
    uint8_t *octets = own(draft, count);
    sms_data data, before;
    sms_refused refused = {77, 77};
    memset(&data, 0xA5, sizeof data);
    before = data;
    int holds = sms_data_read(octets, count, &form, &data, &refused) == SMS_REFUSED;
    holds = holds && refused.place == place && refused.reason == reason && memcmp(&data, &before, sizeof data) == 0;
    holds = holds && sms_data_text(octets, count, &form, text, sizeof text, &needed) == SMS_REFUSED && needed == 0;
    free(octets);
    return holds;
}

/* no data stand so */
static int is_no_form(sms_data_form form)
{
    uint8_t octets[] = {0xE8, 0x32, 0x9B, 0xFD, 0x06}, text[SMS_TEXT_MAX];
    size_t needed = 7;
    sms_data data, before;
    sms_refused refused = {77, 77};
    memset(&data, 0xA5, sizeof data);
    before = data;
    int holds = sms_data_read(octets, sizeof octets, &form, &data, &refused) == SMS_OUT_OF_RANGE;
    holds = holds && refused.place == 77 && refused.reason == 77 && memcmp(&data, &before, sizeof data) == 0;
    return holds && sms_data_text(octets, sizeof octets, &form, text, sizeof text, &needed) == SMS_OUT_OF_RANGE && needed == 0;
}

static void by_hand(void)
{
    const sms_data_form whole = {.standing = SMS_WHOLE}, single = {.standing = SMS_SINGLE};
    const sms_data_form five = {.standing = SMS_COUNTED, .length = 5};
    const sms_data_form headed = {.standing = SMS_SINGLE, .has_header = 1};
    CHECK(says("E8329BFD06", five, "hello"));
    CHECK(says("E8329BFD4697D9EC37", whole, "hellohello"));
    CHECK(says("68656C6C6F", single, "hello"));
    CHECK(says("0500032A020168656C6C6F", headed, "hello"));
    CHECK(says("", whole, ""));
    CHECK(says("00480069", (sms_data_form){.dcs = 8}, "Hi"));
    CHECK(says("00480069", (sms_data_form){.dcs = 8, .standing = SMS_SINGLE}, "Hi"));
    CHECK(says("0500032A020100480069", (sms_data_form){.dcs = 8, .has_header = 9}, "Hi"));
    CHECK(says("00480069", (sms_data_form){.dcs = 8, .standing = SMS_COUNTED, .length = 4}, "Hi"));
    /* the Turkish single shift table: a dotless i; without it the escape is passed over */
    CHECK(says("032401011B69", headed, "i"));
    CHECK(says("032401011B69", (sms_data_form){.standing = SMS_SINGLE, .has_header = 1, .languages = 1}, "\xC4\xB1"));
    CHECK(says("1B65", (sms_data_form){.standing = SMS_SINGLE, .languages = 1}, "\xE2\x82\xAC"));

    CHECK(refuses("E832", five, 2, SMS_SHORT));
    CHECK(refuses("68658C6C6F", single, 2, SMS_BAD_SEPTET));
    CHECK(refuses("050003", headed, 0, SMS_HEADER_TOO_LONG));
    CHECK(refuses("", headed, 0, SMS_HEADER_TOO_LONG));
    CHECK(refuses("", (sms_data_form){.standing = SMS_COUNTED, .length = 161}, 0, SMS_DATA_TOO_LONG));
    CHECK(refuses("", (sms_data_form){.dcs = 4, .standing = SMS_COUNTED, .length = 141}, 0, SMS_DATA_TOO_LONG));

    CHECK(is_no_form((sms_data_form){.standing = 3}));
    CHECK(is_no_form((sms_data_form){.standing = SMS_WHOLE, .length = 5}));
    CHECK(is_no_form((sms_data_form){.standing = SMS_SINGLE, .length = 5}));
    CHECK(is_no_form((sms_data_form){.spare = {0, 0, 0, 0, 0, 1}}));
}

/* what is told of parts, and data that are no text */
static void parts(void)
{
    uint8_t octets[64], text[SMS_TEXT_MAX];
    size_t count = from_hex("0500032A020168656C6C6F", octets), needed;
    sms_data_form form = {.standing = SMS_SINGLE, .has_header = 1};
    sms_data data;
    sms_refused refused = {77, 77};
    CHECK(sms_data_read(octets, count, &form, &data, &refused) == SMS_OK);
    CHECK(refused.place == 77 && refused.reason == 77);
    CHECK(data.header.offset == 1 && data.header.length == 5 && data.body.offset == 6 && data.body.length == 5);
    CHECK(data.used == 11 && data.count == 5 && data.alphabet == SMS_GSM7 && data.has_header == 1);
    CHECK(data.single == 1 && data.fill == 0);
    CHECK(data.place.width == 8 && data.place.reference == 0x2A && data.place.maximum == 2 && data.place.sequence == 1);
    form = (sms_data_form){.dcs = 4, .has_header = 1};
    CHECK(sms_data_read(octets, count, &form, &data, &refused) == SMS_OK);
    CHECK(data.alphabet == SMS_EIGHT_BIT && data.count == 5 && data.single == 0 && data.body.offset == 6);
    CHECK(sms_data_text(octets, count, &form, text, sizeof text, &needed) == SMS_NOT_THERE && needed == 0);
    form = (sms_data_form){.dcs = 0};
    CHECK(sms_data_read(octets, count, &form, &data, &refused) == SMS_OK);
    CHECK(data.has_header == 0 && data.header.length == 0 && data.body.offset == 0 && data.count == 12);
    CHECK(data.place.width == 0 && data.single == 0);
}

/* the segments of a text, each by its own TP-UDL, have its text */
static void segments(void)
{
    char text[400], joined[SMS_TEXT_MAX];
    for (int i = 0; i < 400; i++)
        text[i] = (char)('a' + i % 26);
    uint8_t out[1024], part[SMS_TEXT_MAX];
    size_t needed, count, at = 0, length;
    sms_span spans[255];
    uint8_t dcs;
    sms_reference reference = {16, 4660};
    CHECK(sms_split(&reference, (const uint8_t *)text, 400, out, sizeof out, &needed, spans, 255, &count, &dcs) == SMS_OK);
    CHECK(count == 3);
    for (size_t i = 0; i < count; i++) {
        uint8_t *user = out + spans[i].offset;
        sms_data_form form = {.dcs = dcs, .has_header = 1, .standing = SMS_COUNTED, .length = user[0]};
        sms_data data;
        sms_refused refused;
        CHECK(sms_data_read(user + 1, spans[i].length - 1, &form, &data, &refused) == SMS_OK);
        CHECK(data.place.width == 16 && data.place.reference == 4660 && data.place.maximum == 3);
        CHECK(data.place.sequence == i + 1 && data.used == spans[i].length - 1);
        CHECK(sms_data_text(user + 1, spans[i].length - 1, &form, part, sizeof part, &length) == SMS_OK);
        if (at + length <= sizeof joined)
            memcpy(joined + at, part, length);
        at += length;
    }
    CHECK(at == 400 && memcmp(joined, text, 400) == 0);
}

/* ---- texts split as user data alone */

typedef struct parts_of {
    uint8_t out[4096];
    size_t needed, count;
    sms_data_segment parts[255];
} parts_of;

static sms_status split(const char *text, sms_data_fields fields, parts_of *of)
{
    return sms_data_split(&fields, (const uint8_t *)text, strlen(text), of->out, sizeof of->out, &of->needed, of->parts, 255,
                          &of->count);
}

/* the segment of an index has these octets, in hexadecimal digits, from the front on, and these fields */
static int has(const parts_of *of, size_t index, const char *hex, size_t length, uint8_t dcs, uint8_t has_header, uint8_t udl)
{
    uint8_t wanted[256];
    size_t count = from_hex(hex, wanted);
    const sms_data_segment *it = &of->parts[index];
    return it->octets.length == length && it->dcs == dcs && it->has_header == has_header && it->length == udl
        && count <= length && memcmp(of->out + it->octets.offset, wanted, count) == 0;
}

static void split_by_hand(void)
{
    static parts_of of;
    char long_text[162];
    const sms_data_fields packed = {.segments = {8, 7}}, single = {.segments = {8, 7}, .single = 1};
    CHECK(split("hello", packed, &of) == SMS_OK && of.count == 1 && of.needed == 5);
    CHECK(has(&of, 0, "E8329BFD06", 5, 0, 0, 5));
    CHECK(split("hello", single, &of) == SMS_OK && of.count == 1 && has(&of, 0, "68656C6C6F", 5, 0, 0, 5));
    /* the euro sign is two septets; a letter that the 7-bit alphabet lacks takes UCS-2, however septets would stand */
    CHECK(split("\xE2\x82\xAC", single, &of) == SMS_OK && has(&of, 0, "1B65", 2, 0, 0, 2));
    CHECK(split("\xD0\x9F", single, &of) == SMS_OK && has(&of, 0, "041F", 2, 8, 0, 2));
    CHECK(split("\xD0\x9F", packed, &of) == SMS_OK && has(&of, 0, "041F", 2, 8, 0, 2));
    CHECK(split("", packed, &of) == SMS_OK && of.count == 1 && of.needed == 0 && has(&of, 0, "", 0, 0, 0, 0));

    memset(long_text, 'a', 161);
    long_text[161] = '\0';
    CHECK(split(long_text, single, &of) == SMS_OK && of.count == 2 && of.needed == 159 + 14);
    CHECK(has(&of, 0, "0500030702016161", 159, 0, 1, 160));
    CHECK(has(&of, 1, "0500030702026161616161616161", 14, 0, 1, 15));
    CHECK(split(long_text, packed, &of) == SMS_OK && of.count == 2 && of.needed == 140 + 14);
    CHECK(has(&of, 0, "050003070201C2E170381C0E", 140, 0, 1, 160));
    CHECK(has(&of, 1, "050003070202C2E170381C0E8701", 14, 0, 1, 15));
    CHECK(split(long_text, (sms_data_fields){.segments = {16, 0x1234}, .single = 9}, &of) == SMS_OK && of.count == 2);
    CHECK(has(&of, 0, "0608041234020161", 159, 0, 1, 160));
}

/* why there are none; then only *needed is written */
static void split_statuses(void)
{
    static uint8_t text[39016];
    uint8_t out[8], before[8];
    sms_data_segment part, was;
    size_t needed = 77, segments = 77;
    const uint8_t *a = (const uint8_t *)"a";
    sms_data_fields fields = {.segments = {8, 256}};
    memset(text, 'a', sizeof text);
    memset(out, 0xA5, sizeof out);
    memcpy(before, out, sizeof out);
    memset(&part, 0xA5, sizeof part);
    was = part;
    CHECK(sms_data_split(&fields, a, 1, out, 8, &needed, &part, 1, &segments) == SMS_OUT_OF_RANGE && needed == 0);
    fields.segments = (sms_reference){9, 0};
    CHECK(sms_data_split(&fields, a, 1, out, 8, &needed, &part, 1, &segments) == SMS_OUT_OF_RANGE && needed == 0);
    fields = (sms_data_fields){.segments = {8, 0}, .spare = {0, 0, 0, 0, 0, 1}};
    CHECK(sms_data_split(&fields, (const uint8_t *)"\xff", 1, out, 8, &needed, &part, 1, &segments) == SMS_OUT_OF_RANGE);
    fields = (sms_data_fields){.segments = {8, 255}};
    needed = 77;
    CHECK(sms_data_split(&fields, (const uint8_t *)"\xff", 1, out, 8, &needed, &part, 1, &segments) == SMS_NOT_UTF8 && needed == 0);
    needed = 77;
    CHECK(sms_data_split(&fields, text, sizeof text, out, 8, &needed, &part, 1, &segments) == SMS_TOO_LONG && needed == 0);
    CHECK(segments == 77 && memcmp(out, before, sizeof out) == 0 && memcmp(&part, &was, sizeof part) == 0);
    CHECK(sms_data_split(&fields, text, sizeof text - 1, out, 8, &needed, &part, 1, &segments) == SMS_NO_ROOM);
    CHECK(segments == 255 && needed == 255 * 140);
    CHECK(sms_data_split(&fields, text, 160, out, 8, &needed, &part, 1, &segments) == SMS_NO_ROOM && segments == 1 && needed == 140);
    CHECK(sms_data_split(&fields, text, 8, out, 8, &needed, &part, 0, &segments) == SMS_NO_ROOM && segments == 1 && needed == 7);
    CHECK(sms_data_split(&fields, text, 8, NULL, 0, &needed, NULL, 0, &segments) == SMS_NO_ROOM && needed == 7);
    CHECK(memcmp(out, before, sizeof out) == 0 && memcmp(&part, &was, sizeof part) == 0);
    CHECK(sms_data_split(&fields, text, 8, out, 7, &needed, &part, 1, &segments) == SMS_OK && needed == 7 && out[7] == 0xA5);
}

/* the segments alone are those of sms_split after TP-UDL, and are read as what they are told to be */
static void split_beside(const char *text)
{
    static parts_of packed, single;
    uint8_t all[4096], dcs;
    sms_span spans[255];
    size_t needed, count;
    const sms_reference reference = {16, 4660};
    CHECK(sms_split(&reference, (const uint8_t *)text, strlen(text), all, sizeof all, &needed, spans, 255, &count, &dcs) == SMS_OK);
    CHECK(split(text, (sms_data_fields){.segments = reference}, &packed) == SMS_OK && packed.count == count);
    CHECK(split(text, (sms_data_fields){.segments = reference, .single = 1}, &single) == SMS_OK && single.count == count);
    CHECK(packed.needed + count == needed);
    for (size_t i = 0; i < count; i++) {
        const uint8_t *user = all + spans[i].offset;
        const sms_data_segment one = packed.parts[i], other = single.parts[i];
        CHECK(one.octets.length + 1 == spans[i].length && one.length == user[0] && one.dcs == dcs);
        CHECK(memcmp(packed.out + one.octets.offset, user + 1, one.octets.length) == 0);
        CHECK(other.length == user[0] && other.dcs == dcs && one.has_header == (count > 1) && other.has_header == (count > 1));
        const sms_data_form counted = {.dcs = dcs, .has_header = one.has_header, .standing = SMS_COUNTED, .length = one.length};
        const sms_data_form alone = {.dcs = dcs, .has_header = other.has_header, .standing = SMS_SINGLE};
        uint8_t texts[2][SMS_TEXT_MAX];
        size_t lengths[2];
        sms_data data[2];
        sms_refused refused;
        CHECK(sms_data_read(packed.out + one.octets.offset, one.octets.length, &counted, &data[0], &refused) == SMS_OK);
        CHECK(sms_data_read(single.out + other.octets.offset, other.octets.length, &alone, &data[1], &refused) == SMS_OK);
        CHECK(data[0].used == one.octets.length && data[1].used == other.octets.length && data[0].count == data[1].count);
        CHECK(memcmp(&data[0].place, &data[1].place, sizeof data[0].place) == 0);
        CHECK(sms_data_text(packed.out + one.octets.offset, one.octets.length, &counted, texts[0], SMS_TEXT_MAX, &lengths[0]) == SMS_OK);
        CHECK(sms_data_text(single.out + other.octets.offset, other.octets.length, &alone, texts[1], SMS_TEXT_MAX, &lengths[1]) == SMS_OK);
        CHECK(lengths[0] == lengths[1] && memcmp(texts[0], texts[1], lengths[0]) == 0);
    }
}

static void splits(void)
{
    static char text[1201];
    split_by_hand();
    split_statuses();
    for (size_t length = 0; length <= 1200; length += length < 330 ? 1 : 61) {
        for (size_t i = 0; i < length; i++)
            text[i] = i % 41 == 40 ? '[' : (char)('a' + i % 26);
        text[length] = '\0';
        split_beside(text);
        if (length >= 2) {
            memcpy(text + length - 2, "\xD0\x9F", 2);
            split_beside(text);
        }
    }
}

/* ---- offered to a joiner */

static sms_status offer(sms_joiner *joiner, const char *origin, sms_data_offer how, const char *hex, uint32_t *outcome)
{
    uint8_t draft[512];
    size_t count = from_hex(hex, draft), length = strlen(origin);
    uint8_t *octets = own(draft, count), *from = own((const uint8_t *)origin, length), finishes = 9;
    sms_refused refused = {77, 77}, told = {77, 77};
    sms_status would = sms_joiner_would_finish_data(joiner, &how, from, length, octets, count, &finishes, &told);
    *outcome = 77;
    sms_status status = sms_joiner_offer_data(joiner, 5, &how, from, length, octets, count, outcome, &refused);
    CHECK(would == (status == SMS_TOO_MANY_OPEN ? SMS_OK : status));
    CHECK(refused.place == told.place && refused.reason == told.reason && (refused.place == 77) == (status != SMS_REFUSED));
    CHECK(finishes == (would != SMS_OK ? 9 : status == SMS_OK && *outcome == SMS_FINISHED));
    CHECK((*outcome == 77) == (status != SMS_OK));
    free(octets);
    free(from);
    return status;
}

static int becomes(sms_joiner *joiner, const char *origin, sms_data_offer how, const char *hex, uint32_t wanted)
{
    uint32_t outcome;
    return offer(joiner, origin, how, hex, &outcome) == SMS_OK && outcome == wanted;
}

static int has_text(sms_joiner *joiner, const char *wanted)
{
    uint8_t text[SMS_TEXT_MAX];
    size_t needed;
    return sms_joiner_text(joiner, text, sizeof text, &needed) == SMS_OK && needed == strlen(wanted)
        && memcmp(text, wanted, needed) == 0;
}

static size_t open_count(sms_joiner *joiner)
{
    size_t count = 77;
    CHECK(sms_joiner_count(joiner, &count) == SMS_OK);
    return count;
}

static void joins(void)
{
    sms_joiner joiner = SMS_JOINER_CLOSED;
    uint32_t outcome;
    const sms_data_offer single = {.form = {.standing = SMS_SINGLE, .has_header = 1}}, bare = {.form = {.standing = SMS_SINGLE}};
    const sms_data_offer wide = {.form = {.dcs = 8, .has_header = 1}};
    CHECK(sms_joiner_open(&joiner, 2, 8) == SMS_OK);
    /* "one two", by two alphabets too, and by the reference of its origin alone */
    CHECK(becomes(&joiner, "+1001", single, "05000308020274776F", SMS_KEPT) && open_count(&joiner) == 1);
    CHECK(becomes(&joiner, "+1001", single, "05000308020274776F", SMS_REPEAT));
    CHECK(becomes(&joiner, "1001", single, "0500030802016F6E6520", SMS_KEPT) && open_count(&joiner) == 2);
    CHECK(becomes(&joiner, "+1001", single, "0500030802016F6E6520", SMS_FINISHED) && has_text(&joiner, "one two"));
    CHECK(becomes(&joiner, "+1001", single, "0500030802016F6E6520", SMS_REPEAT) && open_count(&joiner) == 1);
    CHECK(becomes(&joiner, "1001", wide, "0500030802020416", SMS_FINISHED) && has_text(&joiner, "one \xD0\x96"));
    /* a message in one piece is known by its stamp, if it has one; the origin may be a name */
    CHECK(becomes(&joiner, "a name", bare, "6869", SMS_FINISHED) && has_text(&joiner, "hi"));
    CHECK(becomes(&joiner, "a name", bare, "6869", SMS_FINISHED) && becomes(&joiner, "+1", bare, "", SMS_FINISHED));
    CHECK(has_text(&joiner, "") && open_count(&joiner) == 0);
    sms_data_offer stamped = {.has_stamp = 9, .stamp = {{0x99, 0x30, 0x92, 0x51, 0x61, 0x95, 0x80}}};
    CHECK(becomes(&joiner, "+1", stamped, "E8329BFD06", SMS_FINISHED) && has_text(&joiner, "hello"));
    CHECK(becomes(&joiner, "+1", stamped, "E8329BFD06", SMS_REPEAT));
    stamped.stamp.octets[6] = 0x81;
    CHECK(becomes(&joiner, "+1", stamped, "E8329BFD06", SMS_FINISHED));
    /* a segment is known by its place, whatever its stamp is */
    stamped.form = single.form;
    CHECK(becomes(&joiner, "+1", stamped, "05000309020161", SMS_KEPT) && becomes(&joiner, "+1", single, "05000309020262", SMS_FINISHED));
    CHECK(has_text(&joiner, "ab"));
    /* by the Turkish single shift table, which each header tells */
    sms_data_offer turkish = {.form = {.standing = SMS_SINGLE, .has_header = 1, .languages = 1}};
    CHECK(becomes(&joiner, "+1", turkish, "080003090201240101611B73", SMS_REPEAT));
    CHECK(becomes(&joiner, "+1", turkish, "0800030A0201240101611B73", SMS_KEPT));
    CHECK(becomes(&joiner, "+1", turkish, "0800030A02022401011B6761", SMS_FINISHED) && has_text(&joiner, "a\xC5\x9F\xC4\x9F" "a"));
    turkish.form.languages = 0;
    CHECK(becomes(&joiner, "+1", turkish, "032401011B73", SMS_FINISHED) && has_text(&joiner, "s"));
    /* why none is taken, of several the first; the joiner stays as it was */
    CHECK(becomes(&joiner, "+1", single, "0500030B020161", SMS_KEPT) && becomes(&joiner, "+1", single, "0500030C020161", SMS_KEPT));
    CHECK(offer(&joiner, "+1", single, "0500030D020161", &outcome) == SMS_TOO_MANY_OPEN);
    sms_data_offer wrong = {.form = {.standing = 3}};
    CHECK(offer(&joiner, "\xff", wrong, "05", &outcome) == SMS_OUT_OF_RANGE);
    wrong.form = (sms_data_form){.spare = {1}};
    CHECK(offer(&joiner, "\xff", wrong, "05", &outcome) == SMS_OUT_OF_RANGE);
    wrong.form = (sms_data_form){.dcs = 4, .has_header = 1};
    CHECK(offer(&joiner, "\xff", wrong, "0500", &outcome) == SMS_REFUSED);
    CHECK(offer(&joiner, "\xff", wrong, "0100", &outcome) == SMS_NOT_THERE);
    CHECK(offer(&joiner, "\xff", single, "0500030D020161", &outcome) == SMS_NOT_UTF8);
    CHECK(offer(&joiner, "+x", single, "0500030D020161", &outcome) == SMS_BAD_ADDRESS);
    CHECK(open_count(&joiner) == 2 && has_text(&joiner, "s"));
    /* offers are changes; what is told of an open message is as of a unit */
    sms_cursor cursor = {0, 0};
    sms_open_message message;
    uint8_t from[SMS_ADDRESS_TEXT_MAX];
    size_t length;
    CHECK(sms_joiner_each(&joiner, &cursor, &message) == SMS_OK && message.reference == 11 && message.seconds == 5);
    CHECK(sms_joiner_origin(&joiner, message.opening, from, sizeof from, &length) == SMS_OK && length == 2 && memcmp(from, "+1", 2) == 0);
    CHECK(becomes(&joiner, "+1", bare, "6869", SMS_FINISHED) && sms_joiner_each(&joiner, &cursor, &message) == SMS_CHANGED);
    sms_joiner_close(&joiner);
    CHECK(offer(&joiner, "\xff", wrong, "05", &outcome) == SMS_CLOSED);
}

/* segments that are split are joined, last first, also where some come in units */
static void joins_what_is_split(void)
{
    static char text[1000];
    static parts_of of;
    sms_joiner joiner = SMS_JOINER_CLOSED;
    const uint8_t *from = (const uint8_t *)"+1234";
    uint32_t outcome = 77;
    sms_refused refused;
    CHECK(sms_joiner_open(&joiner, 4, 4) == SMS_OK);
    for (int turn = 0; turn < 200; turn++) {
        const size_t length = (size_t)(400 + turn);
        for (size_t i = 0; i < length; i++)
            text[i] = i % 29 == 7 ? '~' : (char)('a' + (i + (size_t)turn) % 26);
        text[length] = '\0';
        if (turn % 3 == 0)
            memcpy(text, "\xD0\x96", 2);
        const sms_data_fields fields = {.segments = {16, (uint16_t)turn}, .single = (uint8_t)(turn % 2)};
        CHECK(split(text, fields, &of) == SMS_OK && of.count > 1);
        for (size_t i = of.count; i-- > 0;) {
            const sms_data_segment *it = &of.parts[i];
            sms_status status;
            if (turn % 5 == 4 && i % 2 == 1) {
                const sms_deliver_fields unit_fields = {.segments = {16, (uint16_t)turn}};
                uint8_t unit[SMS_UNIT_MAX];
                size_t size, segments;
                CHECK(sms_deliver_write(&unit_fields, from, 5, (const uint8_t *)text, length, i, unit, sizeof unit, &size, &segments) == SMS_OK);
                status = sms_joiner_offer(&joiner, 0, unit, size, &outcome, &refused);
            } else {
                const sms_data_offer how = {.form = {
                    .dcs = it->dcs,
                    .has_header = it->has_header,
                    .standing = turn % 2 == 1 ? SMS_SINGLE : SMS_COUNTED,
                    .length = turn % 2 == 1 ? 0 : it->length,
                }};
                status = sms_joiner_offer_data(&joiner, 0, &how, from, 5, of.out + it->octets.offset, it->octets.length, &outcome, &refused);
            }
            CHECK(status == SMS_OK && outcome == (i == 0 ? SMS_FINISHED : SMS_KEPT));
        }
        uint8_t joined[2048];
        size_t needed;
        CHECK(sms_joiner_text(&joiner, joined, sizeof joined, &needed) == SMS_OK && needed == length && memcmp(joined, text, length) == 0);
    }
    sms_joiner_close(&joiner);
}

static int same_span(sms_span alone, sms_span seen, size_t front)
{
    return alone.length == seen.length && (seen.length == 0 || alone.offset + front == seen.offset);
}

/* what is read alone is what a unit has, and is refused as a unit is */
static void beside_units(unsigned turns)
{
    const size_t front = 19;
    uint64_t seed = 0x9E3779B97F4A7C15u;
    for (unsigned turn = 0; turn < turns; turn++) {
        uint8_t draft[192];
        size_t count = from_hex("040BC87238880900F1000099309251619580", draft), size = 0;
        for (size_t i = count; i < sizeof draft; i++) {
            seed = seed * 6364136223846793005u + 1442695040888963407u;
            draft[i] = (uint8_t)(seed >> 56);
            if (i == count)
                size = front + (size_t)(seed >> 33) % (sizeof draft - front);
        }
        if (turn % 2 == 0)
            draft[0] |= 0x40; /* TP-UDHI */
        if (turn % 4 < 2)
            draft[front] %= 16;
        draft[10] = (uint8_t)(turn % 5 == 0 ? 8 : turn % 5 == 1 ? 4 : 0);
        uint8_t *unit = own(draft, size), *octets = own(draft + front, size - front);
        sms_data_form form = {.dcs = draft[10], .has_header = draft[0] & 0x40, .standing = SMS_COUNTED, .length = draft[18]};
        sms_deliver seen;
        sms_data data;
        sms_refused of_unit, of_data;
        sms_status status = sms_deliver_read(unit, size, &seen, &of_unit);
        CHECK(sms_data_read(octets, size - front, &form, &data, &of_data) == status);
        if (status == SMS_OK) {
            uint8_t one[SMS_TEXT_MAX], other[SMS_TEXT_MAX];
            size_t length, needed;
            CHECK(data.used + front == seen.used && data.count == seen.user.count && data.fill == seen.user.fill);
            CHECK(data.alphabet == seen.user.alphabet && data.has_header == seen.user.has_header && data.single == 0);
            CHECK(same_span(data.header, seen.user.header, front) && same_span(data.body, seen.user.body, front));
            CHECK(memcmp(&data.place, &seen.user.place, sizeof data.place) == 0);
            status = sms_user_text(unit, size, &seen.user, one, sizeof one, &length);
            CHECK(sms_data_text(octets, size - front, &form, other, sizeof other, &needed) == status);
            CHECK(needed == length && (status != SMS_OK || memcmp(one, other, length) == 0));
        } else {
            CHECK(of_data.reason == of_unit.reason);
            CHECK(of_data.place == (of_unit.place == front - 1 ? 0 : of_unit.place - front));
        }
        free(unit);
        free(octets);
    }
}

int main(int argc, char **argv)
{
    by_hand();
    parts();
    segments();
    splits();
    joins();
    joins_what_is_split();
    beside_units(argc > 1 ? (unsigned)strtoul(argv[1], NULL, 10) : 200000);
    printf("%d failures\n", failures);
    return failures != 0;
}
