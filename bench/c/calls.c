/* Nanoseconds a call: the library for C, and beside it the same work by the library's own calls, which bench/library has
 * as exports, by oFono and by libosmogsm, where c.sh found them. The least of many turns is told. */
#define _POSIX_C_SOURCE 199309L
#include <sms.h>
#include <stdio.h>
#include <string.h>
#include <time.h>
#ifdef OSMOGSM
#include <osmocom/gsm/gsm_utils.h>
#endif

size_t sms_glance(const uint8_t *octets, size_t count, uint8_t *out, size_t room);
size_t sms_see(const uint8_t *octets, size_t count, uint8_t *out, size_t room);
/* sms.h has a struct of that name */
size_t library_submit(const uint8_t *target, size_t target_count, const uint8_t *text, size_t text_count, uint8_t *out,
                      size_t room) __asm__("sms_submit");
size_t ofono_parse(const uint8_t *unit, size_t length, uint8_t *out, size_t room);
size_t ofono_deliver(const uint8_t *unit, size_t length, uint8_t *out, size_t room);
size_t ofono_submit(const char *text, uint8_t *out, size_t room);

static const char TEXT[] = "the quick brown fox jumps over the lazy dog and the quick brown fox jumps over the lazy dog and "
                           "the quick brown fox jumps over the lazy dog and so on to the end";
static const uint8_t TO[] = "+46708251358";
/* led by the zero octet of an absent centre address, which oFono wants */
static uint8_t led[1 + SMS_UNIT_MAX], *const unit = led + 1, out[SMS_TEXT_MAX];
static size_t size;
static sms_deliver message;
static volatile size_t sink;

static double now(void)
{
    struct timespec t;
    clock_gettime(CLOCK_MONOTONIC, &t);
    return (double)t.tv_sec * 1e9 + (double)t.tv_nsec;
}

static void read_of_c(void)
{
    sms_deliver seen;
    sms_refused refused;
    sink += sms_deliver_read(unit, size, &seen, &refused) + seen.used;
}
static void read_of_library(void)
{
    sink += sms_glance(unit, size, out, sizeof out);
}
static void both_of_c(void)
{
    sms_deliver seen;
    sms_refused refused;
    size_t needed = 0;
    if (sms_deliver_read(unit, size, &seen, &refused) == SMS_OK)
        sink += sms_user_text(unit, size, &seen.user, out, sizeof out, &needed) + needed;
}
static void both_of_library(void)
{
    sink += sms_see(unit, size, out, sizeof out);
}
static void text_of_c(void)
{
    size_t needed = 0;
    sink += sms_user_text(unit, size, &message.user, out, sizeof out, &needed) + needed;
}
static void submit_of_c(void)
{
    static const sms_submit_fields fields = {{8, 1}, 0, 0, 0, 0, 0, {1, {0xAA, 0, 0, 0, 0, 0, 0}}, 0, {0}};
    size_t needed = 0, segments;
    sink += sms_submit_write(&fields, TO, sizeof TO - 1, (const uint8_t *)TEXT, 160, 0, out, sizeof out, &needed, &segments) + needed;
}
static void submit_of_library(void)
{
    sink += library_submit(TO, sizeof TO - 1, (const uint8_t *)TEXT, 160, out, sizeof out);
}
#ifdef OFONO
static void read_of_ofono(void)
{
    sink += ofono_parse(led, 1 + size, out, sizeof out);
}
static void both_of_ofono(void)
{
    sink += ofono_deliver(led, 1 + size, out, sizeof out);
}
static void submit_of_ofono(void)
{
    static char text[161];
    if (text[0] == 0)
        memcpy(text, TEXT, 160);
    sink += ofono_submit(text, out, sizeof out);
}
#else
#define read_of_ofono NULL
#define both_of_ofono NULL
#define submit_of_ofono NULL
#endif
#ifdef OSMOGSM
static void text_of_osmogsm(void)
{
    sink += (size_t)gsm_7bit_decode_n((char *)out, sizeof out, unit + message.user.body.offset, message.user.count);
}
#else
#define text_of_osmogsm NULL
#endif

static double least_of(void (*call)(void), double least)
{
    enum { CALLS = 500 };
    double start = now();
    for (int i = 0; i < CALLS; i++)
        call();
    double each = (now() - start) / CALLS;
    return each < least ? each : least;
}

enum { SIDES = 4 };

static const struct {
    const char *name;
    void (*sides[SIDES])(void);
} TASKS[] = {
    {"DELIVER of 160 septets, read", {read_of_c, read_of_library, read_of_ofono, NULL}},
    {"DELIVER of 160 septets, read and text", {both_of_c, both_of_library, both_of_ofono, NULL}},
    {"160 septets, text", {text_of_c, NULL, NULL, text_of_osmogsm}},
    {"SUBMIT of 160, written from text", {submit_of_c, submit_of_library, submit_of_ofono, NULL}},
};

/* The unit that is read, and whether each side finds the text in it. */
static int is_ready(void)
{
    sms_deliver_fields fields = {{8, 42}, 0, 0, 0, 0, 0, {{0x42, 0x30, 0x92, 0x51, 0x61, 0x95, 0x80}}, 0, {0}};
    size_t segments;
    sms_refused refused;
    if (sizeof TEXT < 161 || sms_deliver_write(&fields, TO, sizeof TO - 1, (const uint8_t *)TEXT, 160, 0, unit, SMS_UNIT_MAX, &size, &segments) != SMS_OK)
        return 0;
    if (sms_deliver_read(unit, size, &message, &refused) != SMS_OK)
        return 0;
    void (*texts[])(void) = {both_of_c, both_of_library, both_of_ofono, text_of_c, text_of_osmogsm};
    for (size_t i = 0; i < sizeof texts / sizeof texts[0]; i++) {
        memset(out, 0, sizeof out);
        if (texts[i])
            texts[i]();
        if (texts[i] && memcmp(out, TEXT, 160) != 0)
            return 0;
    }
    return 1;
}

int main(void)
{
    if (!is_ready()) {
        fprintf(stderr, "a side finds another text\n");
        return 1;
    }
    printf("%-40s %8s %8s %8s %8s\n", "ns", "C", "library", "oFono", "osmogsm");
    for (size_t i = 0; i < sizeof TASKS / sizeof TASKS[0]; i++) {
        double least[SIDES] = {1e18, 1e18, 1e18, 1e18};
        for (int turn = 0; turn < 4000; turn++)
            for (int side = 0; side < SIDES; side++)
                if (TASKS[i].sides[side])
                    least[side] = least_of(TASKS[i].sides[side], least[side]);
        printf("%-40s", TASKS[i].name);
        for (int side = 0; side < SIDES; side++)
            TASKS[i].sides[side] ? printf(" %8.1f", least[side]) : printf(" %8s", "-");
        printf("\n");
    }
    return 0;
}
