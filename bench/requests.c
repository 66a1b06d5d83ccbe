/* How often calls of the library ask for memory, and whether each of them fails where one request is refused. Octets are
 * those of messages with all kinds of bits; requests.sh builds it with malloc and realloc wrapped. */
#include <stddef.h>
#include <stdio.h>
#include <string.h>

typedef unsigned char octet;
size_t sms_parse(const octet *, size_t, octet *, size_t);
size_t sms_deliver(const octet *, size_t, octet *, size_t);
size_t sms_see(const octet *, size_t, octet *, size_t);
size_t sms_submit(const octet *, size_t, const octet *, size_t, octet *, size_t);
size_t sms_pack(const octet *, size_t, octet *, size_t);
size_t sms_unpack(const octet *, size_t, size_t, octet *, size_t);
size_t sms_text(const octet *, size_t, octet *, size_t);
size_t sms_septets(const octet *, size_t, octet *, size_t);

void *__real_malloc(size_t);
void *__real_realloc(void *, size_t);
static long blocks, growths, refused;

static int refuse(void) { return blocks + growths == refused; }
void *__wrap_malloc(size_t n) { blocks++; return refuse() ? NULL : __real_malloc(n); }
void *__wrap_realloc(void *p, size_t n)
{
	if (p) growths++; else blocks++;
	return refuse() ? NULL : __real_realloc(p, n);
}

static octet deliver[256], headed[256], wide[256], septets[160], text[160], answer[1024];
static const octet number[] = "+31641600986";

static size_t message(octet *unit, octet flags, octet dcs, octet length, const octet *header, size_t many, size_t data)
{
	static const octet front[] = {0x0B, 0x91, 0x13, 0x46, 0x61, 0x00, 0x89, 0xF6, 0x00};
	static const octet stamp[] = {0x62, 0x11, 0x22, 0x10, 0x00, 0x00, 0x00};
	size_t at = 0;
	unit[at++] = flags;
	memcpy(unit + at, front, sizeof front), at += sizeof front;
	unit[at++] = dcs;
	memcpy(unit + at, stamp, sizeof stamp), at += sizeof stamp;
	unit[at++] = length;
	memcpy(unit + at, header, many), at += many;
	for (size_t i = 0; i < data; i++) unit[at++] = dcs ? (i % 2 ? 'a' + i % 26 : 0) : 73 * i % 251;
	return at;
}

enum { TASKS = 10 };
static size_t task(int which)
{
	static const octet header[] = {5, 0, 3, 7, 2, 1};
	size_t plain = message(deliver, 0x04, 0, 160, header, 0, 140);
	size_t more = message(headed, 0x44, 0, 160, header, sizeof header, 134);
	size_t units = message(wide, 0x04, 8, 140, header, 0, 140);
	memset(septets, 'a', sizeof septets), memset(text, 'a', sizeof text);
	switch (which) {
	case 0: return sms_pack(septets, sizeof septets, answer, sizeof answer);
	case 1: return sms_text(septets, sizeof septets, answer, sizeof answer);
	case 2: return sms_septets(text, sizeof text, answer, sizeof answer);
	case 3: return sms_parse(deliver, plain, answer, sizeof answer);
	case 4: return sms_parse(headed, more, answer, sizeof answer);
	case 5: return sms_parse(wide, units, answer, sizeof answer);
	case 6: return sms_deliver(deliver, plain, answer, sizeof answer);
	case 7: return sms_see(deliver, plain, answer, sizeof answer);
	case 8: return sms_unpack(deliver + plain - 140, 140, 160, answer, sizeof answer);
	default: return sms_submit(number, sizeof number - 1, text, sizeof text, answer, sizeof answer);
	}
}

int main(void)
{
	static const char *names[TASKS] = {"pack, 160 septets", "text of 160 septets", "septets of 160 letters",
		"SMS-DELIVER of 160 septets read", "with a header and 153", "in UCS-2, 70", "SMS-DELIVER of 160 read, to text",
		"SMS-DELIVER of 160 seen, to text", "unpack, 160 septets", "SMS-SUBMIT of 160 letters written"};
	for (int which = 0; which < TASKS; which++) {
		blocks = growths = refused = 0;
		size_t length = task(which);
		long asked = blocks + growths, failed = 0;
		printf("%s: %ld blocks, %ld growths, %zu octets", names[which], blocks, growths, length);
		for (long n = 1; n <= asked; n++) {
			blocks = growths = 0, refused = n;
			failed += task(which) == 0;
		}
		printf("; fails with each of %ld refused\n", failed);
	}
	return 0;
}
