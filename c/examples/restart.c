/* Joins segments for many recipients, and keeps what it holds in a file: it stops at any moment, begins again where the
 * file says, and loses no text. A text that finished after the file was written is printed again. */
#define _POSIX_C_SOURCE 200809L
#include <errno.h>
#include <fcntl.h>
#include <sms.h>
#include <stdio.h>
#include <stdlib.h>
#include <string.h>
#include <sys/stat.h>
#include <unistd.h>

static const sms_gateway_limits limits = {.open_max = 4096, .remembered = 65536, .open_for = 86400, .remember_for = 3600};

/* What came: for whom, and an SMS-DELIVER. */
static struct coming {
    const char *recipient;
    uint8_t unit[SMS_UNIT_MAX];
    size_t count;
} stream[4] = {{.recipient = "+1001"}, {.recipient = "+1002"}, {.recipient = "+1001"}, {.recipient = "+1002"}};

/* The octets stand in "state" whole or not at all: they are written beside, are on the disk, and get the name. */
static int replace(int folder, const uint8_t *octets, size_t count)
{
    int file = openat(folder, "state.new", O_WRONLY | O_CREAT | O_TRUNC, 0600);
    size_t done = 0;
    ssize_t some = 1;
    if (file < 0)
        return 0;
    for (; done < count && some > 0; done += some > 0 ? (size_t)some : 0)
        some = write(file, octets + done, count - done);
    int synced = done == count && fsync(file) == 0;
    return close(file) == 0 && synced && renameat(folder, "state.new", folder, "state") == 0 && fsync(folder) == 0;
}

static int save(sms_gateway *gateway, uint64_t taken, int folder)
{
    size_t count;
    if (sms_gateway_save(gateway, taken, NULL, 0, &count) != SMS_NO_ROOM)
        return 0;
    uint8_t *octets = malloc(count);
    int saved = octets != NULL && sms_gateway_save(gateway, taken, octets, count, &count) == SMS_OK && replace(folder, octets, count);
    free(octets);
    return saved;
}

/* Opens the joiner with what the file says, or with nothing where there is none. */
static int begin(sms_gateway *gateway, uint64_t *taken, int folder)
{
    int file = openat(folder, "state", O_RDONLY);
    struct stat about;
    sms_refused refused;
    *taken = 0;
    if (file < 0)
        return errno == ENOENT && sms_gateway_open(gateway, &limits) == SMS_OK;
    size_t count = fstat(file, &about) == 0 ? (size_t)about.st_size : 0;
    uint8_t *octets = malloc(count + 1);
    int begun = octets != NULL && read(file, octets, count) == (ssize_t)count &&
                sms_gateway_read(gateway, &limits, octets, count, taken, &refused) == SMS_OK;
    free(octets);
    close(file);
    return begun;
}

/* Offers one, and prints the text that it finishes. */
static int join(sms_gateway *gateway, uint64_t seconds, const struct coming *it)
{
    uint32_t outcome;
    sms_refused refused;
    uint8_t text[SMS_TEXT_MAX];
    size_t length;
    if (sms_gateway_offer(gateway, seconds, (const uint8_t *)it->recipient, strlen(it->recipient), it->unit, it->count,
                          &outcome, &refused) != SMS_OK)
        return 0;
    if (outcome != SMS_FINISHED)
        return 1;
    if (sms_gateway_text(gateway, text, sizeof text, &length) != SMS_OK)
        return 0;
    printf("%s: %zu: %.5s\n", it->recipient, length, (const char *)text);
    return 1;
}

/* Goes through the stream up to here, and saves after each second unit. */
static int run(int folder, size_t end)
{
    sms_gateway gateway = SMS_GATEWAY_CLOSED;
    uint64_t taken;
    int works = begin(&gateway, &taken, folder);
    printf("from %u\n", (unsigned)taken);
    for (; works && taken < end; taken++)
        works = join(&gateway, taken, &stream[taken]) && (taken % 2 == 0 || save(&gateway, taken + 1, folder));
    sms_gateway_close(&gateway);
    return works;
}

int main(void)
{
    static const sms_deliver_fields fields = {.segments = {8, 42}, .stamp = {{0x42, 0x20, 0x92, 0x51, 0x61, 0x95, 0x80}}};
    char path[] = "/tmp/sms-restart-XXXXXX";
    uint8_t written[161];
    size_t segments;
    for (size_t i = 0; i < 4; i++) {
        memset(written, i % 2 == 0 ? 'a' : 'b', sizeof written);
        if (sms_deliver_write(&fields, (const uint8_t *)"12345", 5, written, sizeof written, i / 2, stream[i].unit,
                              sizeof stream[i].unit, &stream[i].count, &segments) != SMS_OK)
            return 1;
    }
    int folder = mkdtemp(path) == NULL ? -1 : open(path, O_RDONLY | O_DIRECTORY);
    int works = folder >= 0 && run(folder, 3) && run(folder, 4); /* it stops after three, and begins again */
    unlinkat(folder, "state", 0);
    rmdir(path);
    return works ? 0 : 1;
}
