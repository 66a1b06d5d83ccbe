/* A gateway's joiner saved and read back: what is written, by hand from docs/SAVED.md, with checksums by another library;
 * in another process; and each way in which octets are no state. `state read FILE` is the other process. SMS_NO_MEMORY is
 * tried in memory.c. */
#define _POSIX_C_SOURCE 200809L
#include "sms.h"

#include <stdio.h>
#include <stdlib.h>
#include <string.h>
#include <sys/wait.h>
#include <unistd.h>

static int failures;

static void check(int holds, const char *what, int line)
{
    if (!holds) {
        printf("line %d: %s\n", line, what);
        failures++;
    }
}
#define CHECK(x) check((x) ? 1 : 0, #x, __LINE__)

static const sms_gateway_limits LIMITS = {.open_max = 2, .remembered = 3, .open_for = 100, .remember_for = 50, .has_seed = 1};

#define EIGHT(two) "00000000000000" two
#define HEAD "534D535354415445" "01"
#define OWN EIGHT("02") EIGHT("03") EIGHT("64") "01" EIGHT("32") "00"
#define FRONT HEAD OWN EIGHT("07") EIGHT("01") /* seven were taken, and the next opening is 1 */
/* from +9 to +1001, reference 7 of 8 bits, two segments; at 5, opening 0; of the segments the first is there, an a */
#define KEY "030191F9" "01" "0404910110" "01000702"
#define SET KEY EIGHT("05") EIGHT("00") "01" EIGHT("01") "61" "00"
/* from +9 to none, reference 8, at 6 */
#define FINISHED "030191F9" "00" "01000802" EIGHT("06")
#define STATE FRONT EIGHT("01") SET EIGHT("01") FINISHED
#define SUM "10F09A67A2C84C72BA1BCE2CD2B3295C416A6F1EE6B57384098A6D323A80E42D"
enum { SIZE = 165 };

static size_t octets_of(const char *digits, uint8_t *out)
{
    size_t count = 0;
    for (; digits[2 * count] != 0; count++) {
        const char two[3] = {digits[2 * count], digits[2 * count + 1], 0};
        out[count] = (uint8_t)strtoul(two, NULL, 16);
    }
    return count;
}

/* what becomes of a segment, of one letter, of a message of two, from +9 */
static uint32_t piece(sms_gateway *gateway, uint64_t seconds, const char *recipient, char reference, char sequence, char letter)
{
    static const sms_data_offer headed = {.form = {.standing = SMS_SINGLE, .has_header = 1}};
    const char octets[] = {5, 0, 3, reference, 2, sequence, letter};
    sms_refused refused;
    uint32_t outcome = 77;
    sms_status status = sms_gateway_offer_data(gateway, seconds, &headed, (const uint8_t *)recipient, strlen(recipient),
                                               (const uint8_t *)"+9", 2, (const uint8_t *)octets, sizeof octets, &outcome, &refused);
    return status == SMS_OK ? outcome : 1000 + status;
}

static int has_text(sms_gateway *gateway, const char *wanted)
{
    uint8_t text[SMS_TEXT_MAX];
    size_t needed, length = strlen(wanted);
    return sms_gateway_text(gateway, text, sizeof text, &needed) == SMS_OK && needed == length && memcmp(text, wanted, length) == 0;
}

static size_t open_count(sms_gateway *gateway)
{
    size_t count = 77;
    return sms_gateway_count(gateway, &count) == SMS_OK ? count : 1000;
}

/* a joiner that holds what STATE says */
static void fill(sms_gateway *gateway)
{
    CHECK(sms_gateway_open(gateway, &LIMITS) == SMS_OK);
    CHECK(piece(gateway, 5, "+1001", 7, 1, 'a') == SMS_KEPT);
    CHECK(piece(gateway, 6, "", 8, 1, 'x') == SMS_KEPT && piece(gateway, 6, "", 8, 2, 'y') == SMS_FINISHED);
}

/* it answers as the one that was saved */
static void goes_on(sms_gateway *gateway)
{
    CHECK(open_count(gateway) == 1 && has_text(gateway, ""));
    CHECK(piece(gateway, 7, "", 8, 1, 'x') == SMS_REPEAT && piece(gateway, 7, "+1001", 7, 1, 'a') == SMS_REPEAT);
    CHECK(piece(gateway, 7, "+1002", 7, 1, 'a') == SMS_KEPT && piece(gateway, 7, "+1003", 7, 1, 'a') == 1000 + SMS_TOO_MANY_OPEN);
    CHECK(sms_gateway_age(gateway, 56) == SMS_OK && piece(gateway, 56, "+1001", 7, 2, 'b') == SMS_FINISHED && has_text(gateway, "ab"));
    CHECK(piece(gateway, 56, "", 8, 1, 'z') == SMS_KEPT); /* it was forgotten 50 seconds after it finished */
    CHECK(sms_gateway_age(gateway, 106) == SMS_OK && open_count(gateway) == 2);
}

/* the very octets, and a room that is one too small */
static void is_written(void)
{
    sms_gateway gateway = SMS_GATEWAY_CLOSED;
    uint8_t wanted[SIZE], out[SIZE + 1];
    size_t needed = 77;
    CHECK(sms_gateway_save(&gateway, 7, out, sizeof out, &needed) == SMS_CLOSED && needed == 0);
    CHECK(octets_of(STATE SUM, wanted) == SIZE);
    fill(&gateway);
    CHECK(sms_gateway_save(&gateway, 7, NULL, 0, &needed) == SMS_NO_ROOM && needed == SIZE);
    memset(out, 0xA5, sizeof out);
    CHECK(sms_gateway_save(&gateway, 7, out, SIZE - 1, &needed) == SMS_NO_ROOM && needed == SIZE && out[0] == 0xA5);
    CHECK(sms_gateway_save(&gateway, 7, out, SIZE, &needed) == SMS_OK && needed == SIZE && out[SIZE] == 0xA5);
    CHECK(memcmp(out, wanted, SIZE) == 0);
    CHECK(has_text(&gateway, "xy") && piece(&gateway, 7, "+1001", 7, 2, 'b') == SMS_FINISHED && has_text(&gateway, "ab"));
    sms_gateway_close(&gateway);
}

static void is_read(void)
{
    sms_gateway gateway = SMS_GATEWAY_CLOSED;
    sms_gateway_limits limits = LIMITS;
    sms_refused refused = {99, 99};
    uint8_t octets[SIZE];
    uint64_t taken = 77;
    size_t count = octets_of(STATE SUM, octets);
    CHECK(sms_gateway_read(&gateway, &LIMITS, octets, count, &taken, &refused) == SMS_OK && taken == 7 && refused.place == 99);
    goes_on(&gateway);
    /* into an open one, which lets go what it held; the seed may be another */
    limits.seed_low = 5;
    CHECK(sms_gateway_read(&gateway, &limits, octets, count, &taken, &refused) == SMS_OK);
    goes_on(&gateway);
    limits.has_seed = 0;
    CHECK(sms_gateway_read(&gateway, &limits, octets, count, &taken, &refused) == SMS_OK);
    goes_on(&gateway);
    sms_gateway_close(&gateway);
}

/* no cursor of the joiner that was held before goes on by itself in one that was read back, from its first number */
static void cursors_end(void)
{
    sms_gateway gateway = SMS_GATEWAY_CLOSED;
    sms_cursor cursor = {0, 0};
    sms_gateway_message message;
    sms_refused refused;
    uint8_t octets[SIZE];
    uint64_t taken;
    size_t count = octets_of(STATE SUM, octets);
    fill(&gateway);
    CHECK(sms_gateway_each(&gateway, &cursor, &message) == SMS_OK);
    CHECK(sms_gateway_read(&gateway, &LIMITS, octets, count, &taken, &refused) == SMS_OK);
    CHECK(sms_gateway_each(&gateway, &cursor, &message) == SMS_CHANGED);
    cursor = (sms_cursor){0, 0};
    CHECK(sms_gateway_each(&gateway, &cursor, &message) == SMS_OK && message.has_recipient == 1);
    CHECK(message.message.seconds == 5 && message.message.reference == 7 && message.message.come[0] == 2);
    CHECK(sms_gateway_each(&gateway, &cursor, &message) == SMS_NOT_THERE);
    sms_gateway_close(&gateway);
}

/* Octets are refused, in a block of their own, and an open joiner and all else is as it was. */
static int is_refused(const uint8_t *octets, size_t count, sms_refused *refused)
{
    static sms_gateway gateway = SMS_GATEWAY_CLOSED;
    uint8_t *own = malloc(count + (count == 0));
    uint64_t taken = 77;
    sms_status status;
    int same;
    if (own == NULL)
        abort();
    memcpy(own, octets, count);
    CHECK(gateway.open == 1 || sms_gateway_open(&gateway, &LIMITS) == SMS_OK);
    CHECK(piece(&gateway, 0, "+1001", 9, 1, 'p') == SMS_KEPT);
    *refused = (sms_refused){99, 99};
    status = sms_gateway_read(&gateway, &LIMITS, own, count, &taken, refused);
    same = open_count(&gateway) == 1 && piece(&gateway, 0, "+1001", 9, 2, 'q') == SMS_FINISHED && has_text(&gateway, "pq");
    CHECK(same && taken == 77);
    sms_gateway_close(&gateway);
    free(own);
    return status == SMS_REFUSED;
}

static void faults(void)
{
    static const struct {
        const char *digits;
        size_t place;
        uint32_t reason;
    } rows[] = {
        {"", 0, SMS_NO_STATE},
        {"534D5353544154", 0, SMS_NO_STATE},
        {"534D53535441544401" OWN, 0, SMS_NO_STATE},
        {"534D53535441544500", 8, SMS_NO_STATE},
        {"534D535354415445", 8, SMS_SHORT},
        {"534D53535441544502", 8, SMS_NEWER},
        {HEAD EIGHT("03") EIGHT("03") EIGHT("64") "01" EIGHT("32") "00", 9, SMS_OTHER_LIMITS},
        {HEAD EIGHT("02") EIGHT("04") EIGHT("64") "01" EIGHT("32") "00", 9, SMS_OTHER_LIMITS},
        {HEAD EIGHT("02") EIGHT("03") EIGHT("65") "01" EIGHT("32") "00", 9, SMS_OTHER_LIMITS},
        {HEAD EIGHT("02") EIGHT("03") EIGHT("64") "01" EIGHT("33") "00", 9, SMS_OTHER_LIMITS},
        {HEAD EIGHT("02") EIGHT("03") EIGHT("64") "00" "00", 9, SMS_OTHER_LIMITS},
        {HEAD EIGHT("02") EIGHT("03") EIGHT("64") "01" EIGHT("32") "01", 9, SMS_OTHER_LIMITS},
        {HEAD "00000000000000", 9, SMS_SHORT},
        {HEAD EIGHT("02") EIGHT("03") EIGHT("64") "02", 33, SMS_BAD_FLAG},
        {HEAD EIGHT("02") EIGHT("03") EIGHT("64") "01" EIGHT("32") "02", 42, SMS_BAD_FLAG},
        {FRONT EIGHT("03"), 59, SMS_TOO_MANY},
        {FRONT EIGHT("01") "0D" "00000000000000000000000000", 67, SMS_ADDRESS_TOO_LONG},
        {FRONT EIGHT("01") "0C", 67, SMS_SHORT},
        {FRONT EIGHT("01") KEY EIGHT("05") EIGHT("00") "01" EIGHT("01") "80", 98, SMS_BAD_SEPTET},
        {FRONT EIGHT("01") KEY EIGHT("05") EIGHT("00") "03", 97, SMS_BAD_FLAG},
        {FRONT EIGHT("01") KEY EIGHT("05") EIGHT("00") "0000", 67, SMS_NOT_OPEN},
        {FRONT EIGHT("01") KEY EIGHT("05") EIGHT("00") "01" EIGHT("01") "61" "01" EIGHT("01") "61", 67, SMS_NOT_OPEN},
        {FRONT EIGHT("01") KEY EIGHT("05") EIGHT("01") "01" EIGHT("01") "61" "00", 67, SMS_OUT_OF_ORDER},
        {FRONT EIGHT("01") SET EIGHT("04"), 108, SMS_TOO_MANY},
        {FRONT EIGHT("01") SET EIGHT("01") KEY EIGHT("06"), 116, SMS_REPEATED},
        {STATE SUM "00", 133, SMS_TRAILING},
        {STATE "10F09A", 133, SMS_SHORT},
        {STATE "11F09A67A2C84C72BA1BCE2CD2B3295C416A6F1EE6B57384098A6D323A80E42D", 133, SMS_BAD_CHECKSUM},
        /* the origin's type with its highest bit at 0 */
        {FRONT EIGHT("01") "030111F9" "01" "0404910110" "01000702" EIGHT("05") EIGHT("00") "01" EIGHT("01") "61" "00" EIGHT("01")
             FINISHED "5F3D43B681651575AFDE7FABB3C8A3BF421FB0C3E4B4FDCBA47FFEAFE24C0583",
         67, SMS_BAD_KEY},
        {FRONT EIGHT("01") SET EIGHT("02") FINISHED "030191F9" "00" "01000902" EIGHT("05")
             "636DC0401C875C6294DC17D5EED29FD6ADAF12929B362A557AC13F44C8A59229",
         133, SMS_MOMENTS_FALL},
    };
    for (size_t i = 0; i < sizeof rows / sizeof *rows; i++) {
        uint8_t octets[256];
        sms_refused refused;
        size_t count = octets_of(rows[i].digits, octets);
        if (!is_refused(octets, count, &refused) || refused.place != rows[i].place || refused.reason != rows[i].reason) {
            printf("row %zu: at %zu: reason %u\n", i, refused.place, (unsigned)refused.reason);
            failures++;
        }
    }
}

/* no bit flipped, no octet put in, and no front of it is a state */
static void damage(void)
{
    uint8_t octets[SIZE + 1];
    sms_refused refused;
    CHECK(octets_of(STATE SUM, octets) == SIZE);
    for (size_t i = 0; i < 8 * SIZE; i++) {
        octets[i / 8] ^= (uint8_t)(1u << i % 8);
        CHECK(is_refused(octets, SIZE, &refused) && refused.place <= SIZE && refused.reason >= 1);
        octets[i / 8] ^= (uint8_t)(1u << i % 8);
    }
    for (size_t count = 0; count < SIZE; count++)
        CHECK(is_refused(octets, count, &refused) && refused.place <= count);
    for (size_t at = 0; at <= SIZE; at++) {
        CHECK(octets_of(STATE SUM, octets) == SIZE);
        memmove(octets + at + 1, octets + at, SIZE - at);
        octets[at] = 0x5A;
        CHECK(is_refused(octets, SIZE + 1, &refused));
    }
}

/* limits that cannot be leave an open joiner, and a closed one, as it was */
static void limits_that_cannot_be(void)
{
    static const sms_gateway_limits wrong[] = {
        SMS_GATEWAY_LIMITS(0, 4),
        SMS_GATEWAY_LIMITS(4, 0),
        {.open_max = 4, .remembered = 4, .spare = {[5] = 1}},
    };
    sms_gateway gateway = SMS_GATEWAY_CLOSED;
    sms_refused refused = {99, 99};
    uint64_t taken = 77;
    uint8_t octets[SIZE];
    size_t count = octets_of(STATE SUM, octets);
    for (int turn = 0; turn < 2; turn++) {
        for (size_t i = 0; i < 3; i++)
            CHECK(sms_gateway_read(&gateway, &wrong[i], octets, count, &taken, &refused) == SMS_OUT_OF_RANGE);
        CHECK(sms_gateway_read(&gateway, &LIMITS, octets, 8, &taken, &refused) == SMS_REFUSED && refused.place == 8);
        CHECK(taken == 77 && gateway.open == (turn == 0 ? 0u : 1u));
        if (turn == 0)
            fill(&gateway);
    }
    CHECK(open_count(&gateway) == 1 && has_text(&gateway, "xy"));
    sms_gateway_close(&gateway);
}

/* ---- in another process */

static int read_there(const char *path)
{
    sms_gateway gateway = SMS_GATEWAY_CLOSED;
    sms_refused refused;
    uint8_t octets[SIZE + 1];
    uint64_t taken = 77;
    FILE *file = fopen(path, "rb");
    size_t count;
    if (file == NULL)
        return 2;
    count = fread(octets, 1, sizeof octets, file);
    fclose(file);
    CHECK(sms_gateway_read(&gateway, &LIMITS, octets, count, &taken, &refused) == SMS_OK && taken == UINT64_MAX);
    goes_on(&gateway);
    sms_gateway_close(&gateway);
    return failures != 0;
}

static void elsewhere(char *program)
{
    sms_gateway gateway = SMS_GATEWAY_CLOSED;
    char path[] = "/tmp/sms-state-XXXXXX", word[] = "read";
    char *words[] = {program, word, path, NULL};
    uint8_t octets[SIZE];
    size_t count;
    int file = mkstemp(path), status = -1;
    pid_t child;
    fill(&gateway);
    CHECK(sms_gateway_save(&gateway, UINT64_MAX, octets, sizeof octets, &count) == SMS_OK);
    sms_gateway_close(&gateway);
    CHECK(file >= 0 && write(file, octets, count) == (ssize_t)count && close(file) == 0);
    child = fork();
    if (child == 0) {
        execv(program, words);
        _exit(3);
    }
    CHECK(child > 0 && waitpid(child, &status, 0) == child && WIFEXITED(status) && WEXITSTATUS(status) == 0);
    unlink(path);
}

int main(int argc, char **argv)
{
    if (argc == 3 && strcmp(argv[1], "read") == 0)
        return read_there(argv[2]);
    is_written();
    is_read();
    cursors_end();
    faults();
    damage();
    limits_that_cannot_be();
    elsewhere(argv[0]);
    printf("%d failures\n", failures);
    return failures != 0;
}
