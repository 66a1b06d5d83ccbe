/* A gateway's joiner, by hand: recipients apart, limits, ages, messages in one piece, cursors, and each status. SMS_NO_MEMORY
 * is tried in memory.c. */
#include "sms.h"

#include <stdio.h>
#include <stdlib.h>
#include <string.h>

static int failures;

static void check(int holds, const char *what, int line)
{
    if (!holds) {
        printf("line %d: %s\n", line, what);
        failures++;
    }
}
#define CHECK(x) check((x) ? 1 : 0, #x, __LINE__)

static const sms_data_offer HEADED = {.form = {.standing = SMS_SINGLE, .has_header = 1}}; /* septets one an octet */
static const sms_data_offer BARE = {.form = {.standing = SMS_SINGLE}};

/* in a block of its own size, so that a read beyond it is seen; none at all where it is empty */
static uint8_t *own(const char *text, size_t count)
{
    if (count == 0)
        return NULL;
    uint8_t *block = malloc(count);
    if (block == NULL)
        abort();
    memcpy(block, text, count);
    return block;
}

static sms_status offer_from(sms_gateway *gateway, uint64_t seconds, sms_data_offer how, const char *recipient, const char *origin,
                             const char *octets, size_t count, uint32_t *outcome)
{
    sms_refused refused;
    uint8_t *to = own(recipient, strlen(recipient)), *from = own(origin, strlen(origin)), *data = own(octets, count);
    sms_status status = sms_gateway_offer_data(gateway, seconds, &how, to, strlen(recipient), from, strlen(origin), data, count,
                                               outcome, &refused);
    free(to);
    free(from);
    free(data);
    return status;
}

/* what becomes of a segment, of one letter, of a message of two, from +9 */
static uint32_t piece(sms_gateway *gateway, uint64_t seconds, const char *recipient, char reference, char sequence, char letter)
{
    const char octets[] = {5, 0, 3, reference, 2, sequence, letter};
    uint32_t outcome = 77;
    sms_status status = offer_from(gateway, seconds, HEADED, recipient, "+9", octets, sizeof octets, &outcome);
    return status == SMS_OK ? outcome : 1000 + status;
}

static int would_finish(sms_gateway *gateway, const char *recipient, char reference, char sequence)
{
    const uint8_t octets[] = {5, 0, 3, (uint8_t)reference, 2, (uint8_t)sequence, 'x'};
    uint8_t finishes = 77;
    sms_refused refused;
    sms_status status = sms_gateway_would_finish_data(gateway, &HEADED, (const uint8_t *)recipient, strlen(recipient),
                                                      (const uint8_t *)"+9", 2, octets, sizeof octets, &finishes, &refused);
    return status == SMS_OK ? finishes : 1000 + (int)status;
}

static int has_text(sms_gateway *gateway, const char *wanted)
{
    uint8_t text[SMS_TEXT_MAX];
    size_t needed, length = strlen(wanted);
    return sms_gateway_text(gateway, text, sizeof text, &needed) == SMS_OK && needed == length && memcmp(text, wanted, length) == 0;
}

static size_t open_count(sms_gateway *gateway)
{
    size_t count = 77;
    return sms_gateway_count(gateway, &count) == SMS_OK ? count : 1000;
}

/* two recipients, one sender, one reference: two texts, and none is joined into or is a repeat of the other */
static void apart(void)
{
    const sms_gateway_limits limits = SMS_GATEWAY_LIMITS(3, 4);
    sms_gateway gateway = SMS_GATEWAY_CLOSED;
    CHECK(limits.open_for == 604800 && limits.remember_for == 0 && limits.has_seed == 0 && limits.pass_alone == 0);
    CHECK(sms_gateway_open(&gateway, &limits) == SMS_OK && has_text(&gateway, ""));
    CHECK(piece(&gateway, 5, "+1001", 7, 1, 'a') == SMS_KEPT);
    CHECK(piece(&gateway, 5, "+1002", 7, 1, 'c') == SMS_KEPT && open_count(&gateway) == 2);
    CHECK(piece(&gateway, 5, "+1002", 7, 1, 'c') == SMS_REPEAT);
    CHECK(would_finish(&gateway, "+1001", 7, 2) == 1 && would_finish(&gateway, "+1001", 7, 1) == 0);
    CHECK(would_finish(&gateway, "+1003", 7, 2) == 0 && would_finish(&gateway, "", 7, 2) == 0);
    CHECK(piece(&gateway, 6, "+1002", 7, 2, 'd') == SMS_FINISHED && has_text(&gateway, "cd"));
    CHECK(piece(&gateway, 6, "", 7, 2, 'f') == SMS_KEPT);
    CHECK(piece(&gateway, 6, "+1001", 7, 2, 'b') == SMS_FINISHED && has_text(&gateway, "ab"));
    CHECK(piece(&gateway, 6, "+1001", 7, 2, 'b') == SMS_REPEAT && piece(&gateway, 6, "+1002", 7, 1, 'c') == SMS_REPEAT);
    CHECK(piece(&gateway, 7, "", 7, 1, 'e') == SMS_FINISHED && has_text(&gateway, "ef") && open_count(&gateway) == 0);
    CHECK(piece(&gateway, 7, "1001", 7, 1, 'a') == SMS_KEPT); /* another type of number is another recipient */
    sms_gateway_close(&gateway);
    sms_gateway_close(&gateway);
    CHECK(gateway.open == 0);
}

/* the same with whole units */
static void units(void)
{
    const sms_gateway_limits limits = {.open_max = 2, .remembered = 2, .open_for = 9, .has_seed = 1, .seed_low = UINT64_MAX, .seed_high = 1};
    static const sms_deliver_fields fields = {.segments = {8, 42}};
    static const char *const to[2] = {"+1001", "Hotel"};
    uint8_t text[2][200], unit[2][2][SMS_UNIT_MAX], out[SMS_TEXT_MAX], finishes;
    size_t size[2][2], segments, needed;
    sms_gateway gateway = SMS_GATEWAY_CLOSED;
    sms_refused refused = {99, 99};
    uint32_t outcome;
    CHECK(sms_gateway_open(&gateway, &limits) == SMS_OK);
    for (int who = 0; who < 2; who++) {
        memset(text[who], 'a' + who, sizeof text[who]);
        for (size_t i = 0; i < 2; i++)
            CHECK(sms_deliver_write(&fields, (const uint8_t *)"+9", 2, text[who], sizeof text[who], i, unit[who][i], SMS_UNIT_MAX,
                                    &size[who][i], &segments) == SMS_OK && segments == 2);
        CHECK(sms_gateway_offer(&gateway, 5, (const uint8_t *)to[who], 5, unit[who][0], size[who][0], &outcome, &refused) == SMS_OK);
        CHECK(outcome == SMS_KEPT);
    }
    CHECK(sms_gateway_offer(&gateway, 5, NULL, 0, unit[0][0], size[0][0], &outcome, &refused) == SMS_TOO_MANY_OPEN);
    for (int who = 0; who < 2; who++) {
        CHECK(sms_gateway_would_finish(&gateway, (const uint8_t *)to[who], 5, unit[who][1], size[who][1], &finishes, &refused) == SMS_OK);
        CHECK(finishes == 1);
        CHECK(sms_gateway_offer(&gateway, 6, (const uint8_t *)to[who], 5, unit[who][1], size[who][1], &outcome, &refused) == SMS_OK);
        CHECK(outcome == SMS_FINISHED && refused.place == 99);
        CHECK(sms_gateway_text(&gateway, out, 10, &needed) == SMS_NO_ROOM && needed == 200);
        CHECK(sms_gateway_text(&gateway, out, sizeof out, &needed) == SMS_OK && needed == 200 && memcmp(out, text[who], 200) == 0);
    }
    CHECK(sms_gateway_would_finish(&gateway, NULL, 0, unit[0][1], size[0][1], &finishes, &refused) == SMS_OK && finishes == 0);
    /* why none is taken, of several the first */
    static const uint8_t eight[] = {0x04, 0x0B, 0xC8, 0x72, 0x38, 0x88, 0x09, 0x00, 0xF1, 0x00, 0x04, 0, 0, 0, 0, 0, 0, 0, 0x01, 0xAA};
    outcome = 99;
    finishes = 99;
    static const struct {
        const char *to;
        sms_status status;
    } rows[] = {{"\xff\xff", SMS_NOT_UTF8}, {"+x", SMS_BAD_ADDRESS}};
    for (size_t i = 0; i < 2; i++) {
        const uint8_t *who = (const uint8_t *)rows[i].to;
        CHECK(sms_gateway_offer(&gateway, 5, who, 2, unit[0][0], 3, &outcome, &refused) == SMS_REFUSED);
        CHECK(refused.place == 3 && refused.reason == SMS_SHORT);
        CHECK(sms_gateway_offer(&gateway, 5, who, 2, eight, sizeof eight, &outcome, &refused) == SMS_NOT_THERE);
        CHECK(sms_gateway_offer(&gateway, 5, who, 2, unit[0][0], size[0][0], &outcome, &refused) == rows[i].status);
        CHECK(sms_gateway_would_finish(&gateway, who, 2, unit[0][0], 3, &finishes, &refused) == SMS_REFUSED);
        CHECK(sms_gateway_would_finish(&gateway, who, 2, eight, sizeof eight, &finishes, &refused) == SMS_NOT_THERE);
        CHECK(sms_gateway_would_finish(&gateway, who, 2, unit[0][0], size[0][0], &finishes, &refused) == rows[i].status);
    }
    CHECK(outcome == 99 && finishes == 99 && open_count(&gateway) == 0);
    sms_gateway_close(&gateway);
}

/* why user data alone are not taken, of several the first; the joiner stays as it was */
static void refused_data(void)
{
    const sms_gateway_limits limits = SMS_GATEWAY_LIMITS(1, 1);
    sms_gateway gateway = SMS_GATEWAY_CLOSED;
    uint32_t outcome = 99;
    CHECK(sms_gateway_open(&gateway, &limits) == SMS_OK && piece(&gateway, 0, "+1001", 7, 1, 'a') == SMS_KEPT);
    static const struct {
        sms_data_offer how;
        const char *to, *from, *octets;
        size_t count;
        sms_status status;
    } rows[] = {
        {{.form = {.standing = 3}}, "\xff", "\xff", "\1", 1, SMS_OUT_OF_RANGE},
        {{.form = {.spare = {1}}}, "\xff", "\xff", "\1", 1, SMS_OUT_OF_RANGE},
        {{.form = {.dcs = 4, .has_header = 1}}, "\xff", "\xff", "\5", 1, SMS_REFUSED},
        {{.form = {.dcs = 4}}, "\xff", "\xff", "\5", 1, SMS_NOT_THERE},
        {{.form = {.standing = SMS_SINGLE}}, "\xff", "+x", "x", 1, SMS_NOT_UTF8},
        {{.form = {.standing = SMS_SINGLE}}, "+x", "\xff", "x", 1, SMS_NOT_UTF8},
        {{.form = {.standing = SMS_SINGLE}}, "", "\xff", "x", 1, SMS_NOT_UTF8},
        {{.form = {.standing = SMS_SINGLE}}, "+x", "+1", "x", 1, SMS_BAD_ADDRESS},
        {{.form = {.standing = SMS_SINGLE}}, "+1", "+x", "x", 1, SMS_BAD_ADDRESS},
        {{.form = {.standing = SMS_SINGLE, .has_header = 1}}, "+1", "+1", "\5\0\3\7\2\1x", 7, SMS_TOO_MANY_OPEN},
    };
    for (size_t i = 0; i < sizeof rows / sizeof *rows; i++) {
        sms_refused refused;
        uint8_t finishes = 99;
        sms_status wanted = rows[i].status == SMS_TOO_MANY_OPEN ? SMS_OK : rows[i].status;
        CHECK(offer_from(&gateway, 0, rows[i].how, rows[i].to, rows[i].from, rows[i].octets, rows[i].count, &outcome) == rows[i].status);
        CHECK(sms_gateway_would_finish_data(&gateway, &rows[i].how, (const uint8_t *)rows[i].to, strlen(rows[i].to),
                                            (const uint8_t *)rows[i].from, strlen(rows[i].from),
                                            (const uint8_t *)rows[i].octets, rows[i].count, &finishes, &refused) == wanted);
        CHECK(finishes == (wanted == SMS_OK ? 0 : 99));
    }
    CHECK(outcome == 99 && open_count(&gateway) == 1 && piece(&gateway, 0, "+1001", 7, 2, 'b') == SMS_FINISHED);
    CHECK(has_text(&gateway, "ab"));
    sms_gateway_close(&gateway);
}

/* messages and keys go as the limits say, to the second */
static void ages(void)
{
    sms_gateway_limits limits = SMS_GATEWAY_LIMITS(4, 4);
    sms_gateway gateway = SMS_GATEWAY_CLOSED;
    limits.open_for = 100;
    limits.remember_for = 50;
    CHECK(sms_gateway_open(&gateway, &limits) == SMS_OK);
    CHECK(piece(&gateway, 10, "+1001", 7, 1, 'a') == SMS_KEPT && piece(&gateway, 20, "+1002", 7, 1, 'a') == SMS_KEPT);
    CHECK(piece(&gateway, 30, "+1002", 7, 2, 'b') == SMS_FINISHED);
    CHECK(sms_gateway_age(&gateway, 79) == SMS_OK && open_count(&gateway) == 1);
    CHECK(piece(&gateway, 79, "+1002", 7, 2, 'b') == SMS_REPEAT); /* it does not make it last longer */
    CHECK(sms_gateway_age(&gateway, 80) == SMS_OK && has_text(&gateway, "ab"));
    CHECK(piece(&gateway, 80, "+1002", 7, 2, 'd') == SMS_KEPT && open_count(&gateway) == 2);
    CHECK(sms_gateway_age(&gateway, 109) == SMS_OK && open_count(&gateway) == 2);
    CHECK(sms_gateway_age(&gateway, 110) == SMS_OK && open_count(&gateway) == 1);
    CHECK(piece(&gateway, 110, "+1002", 7, 1, 'c') == SMS_FINISHED && has_text(&gateway, "cd"));
    /* without a number of seconds they are remembered as the last four */
    limits.remember_for = 0;
    CHECK(sms_gateway_open(&gateway, &limits) == SMS_OK && has_text(&gateway, "") && open_count(&gateway) == 0);
    for (char reference = 1; reference <= 5; reference++)
        CHECK(piece(&gateway, 0, "+1001", reference, 1, 'a') == SMS_KEPT && piece(&gateway, 0, "+1001", reference, 2, 'b') == SMS_FINISHED);
    CHECK(sms_gateway_age(&gateway, UINT64_MAX) == SMS_OK);
    CHECK(piece(&gateway, 0, "+1001", 2, 1, 'a') == SMS_REPEAT && piece(&gateway, 0, "+1001", 1, 1, 'a') == SMS_KEPT);
    sms_gateway_close(&gateway);
}

/* a message in one piece: known by its stamp, passed by the limits, or known by nothing */
static void alone(void)
{
    const sms_data_offer stamped = {.has_stamp = 1, .form = {.standing = SMS_SINGLE}};
    sms_gateway_limits limits = SMS_GATEWAY_LIMITS(1, 1);
    sms_gateway gateway = SMS_GATEWAY_CLOSED;
    for (int passes = 0; passes < 2; passes++) {
        uint32_t outcome = 99;
        limits.pass_alone = (uint8_t)(passes * 7);
        CHECK(sms_gateway_open(&gateway, &limits) == SMS_OK);
        CHECK(offer_from(&gateway, 0, stamped, "+1001", "+9", "hi", 2, &outcome) == SMS_OK && outcome == SMS_FINISHED);
        CHECK(offer_from(&gateway, 0, stamped, "+1001", "+9", "ho", 2, &outcome) == SMS_OK);
        CHECK(outcome == (passes ? SMS_FINISHED : SMS_REPEAT) && has_text(&gateway, passes ? "ho" : "hi"));
        CHECK(offer_from(&gateway, 0, stamped, "+1002", "+9", "ha", 2, &outcome) == SMS_OK && outcome == SMS_FINISHED);
        CHECK(offer_from(&gateway, 0, BARE, "+1001", "+9", "he", 2, &outcome) == SMS_OK && outcome == SMS_FINISHED);
        CHECK(offer_from(&gateway, 0, BARE, "+1001", "+9", "he", 2, &outcome) == SMS_OK && outcome == SMS_FINISHED);
        CHECK(has_text(&gateway, "he") && open_count(&gateway) == 0);
        /* segments are remembered all the same */
        CHECK(piece(&gateway, 0, "+1001", 7, 1, 'a') == SMS_KEPT && piece(&gateway, 0, "+1001", 7, 2, 'b') == SMS_FINISHED);
        CHECK(offer_from(&gateway, 0, stamped, "+1001", "+9", "hi", 2, &outcome) == SMS_OK && outcome == SMS_FINISHED);
        CHECK(piece(&gateway, 0, "+1001", 7, 1, 'a') == (passes ? SMS_REPEAT : SMS_KEPT));
    }
    sms_gateway_close(&gateway);
}

static int is_told(sms_gateway *gateway, uint64_t opening, const char *origin, const char *recipient)
{
    uint8_t out[SMS_ADDRESS_TEXT_MAX];
    size_t needed, length = strlen(origin);
    int holds = sms_gateway_origin(gateway, opening, out, sizeof out, &needed) == SMS_OK && needed == length && memcmp(out, origin, length) == 0;
    length = strlen(recipient);
    if (length == 0)
        return holds && sms_gateway_recipient(gateway, opening, out, sizeof out, &needed) == SMS_NOT_THERE && needed == 0;
    holds = holds && sms_gateway_recipient(gateway, opening, out, length - 1, &needed) == SMS_NO_ROOM && needed == length;
    return holds && sms_gateway_recipient(gateway, opening, out, length, &needed) == SMS_OK && needed == length && memcmp(out, recipient, length) == 0;
}

/* each open message, for whom it is, and a cursor that is stale */
static void cursors(void)
{
    const sms_gateway_limits limits = SMS_GATEWAY_LIMITS(4, 4);
    sms_gateway gateway = SMS_GATEWAY_CLOSED;
    sms_cursor cursor = {0, 0}, before;
    sms_gateway_message first, second, message, same;
    uint8_t out[8] = {0xA5};
    size_t needed = 77;
    CHECK(sms_gateway_open(&gateway, &limits) == SMS_OK && sms_gateway_each(&gateway, &cursor, &message) == SMS_NOT_THERE);
    CHECK(piece(&gateway, 7, "Hotel", 11, 2, 'b') == SMS_KEPT && piece(&gateway, 5, "", 11, 1, 'a') == SMS_KEPT);
    CHECK(sms_gateway_each(&gateway, &cursor, &first) == SMS_OK && first.has_recipient == 1);
    CHECK(first.message.seconds == 7 && first.message.width == 8 && first.message.reference == 11 && first.message.maximum == 2);
    CHECK(first.message.count == 1 && first.message.come[0] == 4 && first.message.type_of_number == 1 && first.message.plan == 1);
    CHECK(sms_gateway_each(&gateway, &cursor, &second) == SMS_OK && second.has_recipient == 0);
    CHECK(second.message.seconds == 5 && second.message.come[0] == 2 && second.message.opening > first.message.opening);
    memset(&message, 0xA5, sizeof message);
    same = message;
    before = cursor;
    CHECK(sms_gateway_each(&gateway, &cursor, &message) == SMS_NOT_THERE && memcmp(&message, &same, sizeof same) == 0);
    CHECK(is_told(&gateway, first.message.opening, "+9", "Hotel") && is_told(&gateway, second.message.opening, "+9", ""));
    CHECK(sms_gateway_recipient(&gateway, second.message.opening + 1, out, sizeof out, &needed) == SMS_NOT_THERE && needed == 0);
    CHECK(sms_gateway_origin(&gateway, second.message.opening + 1, out, sizeof out, &needed) == SMS_NOT_THERE && out[0] == 0xA5);

    cursor = (sms_cursor){0, 0};
    CHECK(sms_gateway_each(&gateway, &cursor, &message) == SMS_OK);
    before = cursor;
    CHECK(piece(&gateway, 9, "Hotel", 11, 2, 'b') == SMS_REPEAT);
    CHECK(sms_gateway_each(&gateway, &cursor, &message) == SMS_CHANGED);
    CHECK(cursor.change == before.change && cursor.opening == before.opening);
    cursor.change = 0; /* it goes on where it stands */
    CHECK(sms_gateway_each(&gateway, &cursor, &message) == SMS_OK && message.has_recipient == 0);
    CHECK(sms_gateway_age(&gateway, 0) == SMS_OK && sms_gateway_each(&gateway, &cursor, &message) == SMS_CHANGED);
    cursor.change = 0;
    CHECK(would_finish(&gateway, "Hotel", 11, 1) == 1 && sms_gateway_each(&gateway, &cursor, &message) == SMS_NOT_THERE);
    sms_gateway_close(&gateway);
}

/* limits that cannot be leave an open joiner as it is; a closed one answers so */
static void limits_and_closed(void)
{
    static const sms_gateway_limits wrong[] = {
        SMS_GATEWAY_LIMITS(0, 4),
        SMS_GATEWAY_LIMITS(4, 0),
        {.open_max = 4, .remembered = 4, .spare = {[5] = 1}},
    };
    sms_gateway_limits limits = SMS_GATEWAY_LIMITS(1, 4);
    static const uint8_t none[1] = {0};
    sms_gateway gateway = SMS_GATEWAY_CLOSED;
    sms_cursor cursor = {0, 0};
    sms_gateway_message message;
    sms_refused refused = {99, 99};
    uint32_t outcome = 99;
    uint8_t finishes = 99, out[1];
    size_t needed = 77, count = 77;
    for (size_t i = 0; i < 3; i++)
        CHECK(sms_gateway_open(&gateway, &wrong[i]) == SMS_OUT_OF_RANGE && gateway.open == 0);
    for (int turn = 0; turn < 2; turn++) {
        CHECK(sms_gateway_offer(&gateway, 0, none, 1, none, 1, &outcome, &refused) == SMS_CLOSED);
        CHECK(sms_gateway_would_finish(&gateway, none, 1, none, 1, &finishes, &refused) == SMS_CLOSED);
        CHECK(sms_gateway_offer_data(&gateway, 0, &HEADED, none, 1, none, 1, none, 1, &outcome, &refused) == SMS_CLOSED);
        CHECK(sms_gateway_would_finish_data(&gateway, &HEADED, none, 1, none, 1, none, 1, &finishes, &refused) == SMS_CLOSED);
        CHECK(sms_gateway_text(&gateway, out, 1, &needed) == SMS_CLOSED && needed == 0);
        CHECK(sms_gateway_age(&gateway, 0) == SMS_CLOSED && sms_gateway_count(&gateway, &count) == SMS_CLOSED && count == 77);
        CHECK(sms_gateway_each(&gateway, &cursor, &message) == SMS_CLOSED && cursor.change == 0);
        CHECK(sms_gateway_origin(&gateway, 0, out, 1, &needed) == SMS_CLOSED && sms_gateway_recipient(&gateway, 0, out, 1, &needed) == SMS_CLOSED);
        CHECK(outcome == 99 && finishes == 99 && refused.place == 99 && needed == 0);
        if (turn == 0) {
            CHECK(sms_gateway_open(&gateway, &limits) == SMS_OK && piece(&gateway, 0, "+1001", 7, 1, 'a') == SMS_KEPT);
            for (size_t i = 0; i < 3; i++)
                CHECK(sms_gateway_open(&gateway, &wrong[i]) == SMS_OUT_OF_RANGE && open_count(&gateway) == 1);
            CHECK(piece(&gateway, 0, "+1001", 7, 2, 'b') == SMS_FINISHED && has_text(&gateway, "ab"));
            limits.remembered = SIZE_MAX;
            CHECK(sms_gateway_open(&gateway, &limits) == SMS_NO_MEMORY); /* it is closed */
        }
    }
}

int main(void)
{
    apart();
    units();
    refused_data();
    ages();
    alone();
    cursors();
    limits_and_closed();
    printf("%d failures\n", failures);
    return failures != 0;
}
