/* oFono's tasks behind plain calls. Each hands its answer out where there is room for it, and returns its length, or 0
 * where the task failed. Texts end with a zero; units are led by the zero octet of an absent centre address. */
#include <glib.h>
#include <ell/ell.h>
#include <stdint.h>
#include <string.h>
#include "util.h"
#include "smsutil.h"

#define TARGET "+46708251358"
#define REFERENCE 42

static size_t hand_out(const void *answer, size_t length, uint8_t *out, size_t room)
{
	if (length <= room)
		memcpy(out, answer, length);
	return length;
}

/* hands a text out and frees it */
static size_t hand_text_out(char *text, uint8_t *out, size_t room)
{
	size_t length = text ? hand_out(text, strlen(text), out, room) : 0;

	l_free(text);
	return length;
}

size_t ofono_pack(const uint8_t *septets, size_t count, uint8_t *out, size_t room)
{
	unsigned char octets[140];
	long written;

	if (!pack_7bit_own_buf(septets, count, 0, false, &written, 0, octets))
		return 0;
	return hand_out(octets, written, out, room);
}

size_t ofono_unpack(const uint8_t *octets, size_t length, size_t count, uint8_t *out, size_t room)
{
	unsigned char septets[160];
	long written;

	if (!unpack_7bit_own_buf(octets, length, 0, false, count, &written, 0, septets))
		return 0;
	return hand_out(septets, written, out, room);
}

size_t ofono_text(const uint8_t *septets, size_t count, uint8_t *out, size_t room)
{
	return hand_text_out(convert_gsm_to_utf8(septets, count, NULL, NULL, 0), out, room);
}

size_t ofono_septets(const char *text, uint8_t *out, size_t room)
{
	long written;
	unsigned char *septets = convert_utf8_to_gsm(text, -1, NULL, &written, 0);
	size_t length = septets ? hand_out(septets, written, out, room) : 0;

	l_free(septets);
	return length;
}

/* a bare parse: the length of the user data */
size_t ofono_parse(const uint8_t *unit, size_t length, uint8_t *out, size_t room)
{
	struct sms sms;

	if (!sms_decode(unit, length, FALSE, length - 1, &sms))
		return 0;
	return hand_out(&sms.deliver.udl, 1, out, room);
}

size_t ofono_deliver(const uint8_t *unit, size_t length, uint8_t *out, size_t room)
{
	struct sms sms;
	GSList list = { &sms, NULL };

	if (!sms_decode(unit, length, FALSE, length - 1, &sms))
		return 0;
	return hand_text_out(sms_decode_text(&list), out, room);
}

size_t ofono_submit(const char *text, uint8_t *out, size_t room)
{
	GSList *list = sms_text_prepare(TARGET, text, 0, FALSE, FALSE);
	unsigned char octets[200];
	int length, unit_length;
	struct sms *sms = list->data;

	sms->submit.vpf = SMS_VALIDITY_PERIOD_FORMAT_RELATIVE;
	sms->submit.vp.relative = 0xAA;
	if (!sms_encode(sms, &length, &unit_length, octets))
		unit_length = 0;
	g_slist_free_full(list, g_free);
	return hand_out(octets + length - unit_length, unit_length, out, room);
}

/* the user data of the segment at a place, after their length, or with no such segment the number of segments */
size_t ofono_split(const char *text, size_t index, uint8_t *out, size_t room)
{
	GSList *list = sms_text_prepare(TARGET, text, REFERENCE, FALSE, FALSE);
	size_t count = 0, length = 0;
	GSList *it;

	for (it = list; it; it = it->next, count++) {
		const struct sms *sms = it->data;
		unsigned char octets[200], data[141];
		int all, unit_length;

		if (!sms_encode(sms, &all, &unit_length, octets))
			break;
		if (count != index)
			continue;
		length = (sms->submit.udl * 7 + 7) / 8;
		data[0] = sms->submit.udl;
		memcpy(data + 1, sms->submit.ud, length);
		length = hand_out(data, 1 + length, out, room);
	}
	g_slist_free_full(list, g_free);
	return length ? length : count;
}

/* the text of units of one size that stand one after another */
size_t ofono_join(const uint8_t *units, size_t all, size_t size, uint8_t *out, size_t room)
{
	struct sms_assembly *assembly = sms_assembly_new(NULL);
	GSList *done = NULL;
	size_t place, length;

	for (place = 0; place + size <= all; place += size) {
		struct sms sms;
		guint16 reference;
		guint8 maximum, sequence;

		if (!sms_decode(units + place, size, FALSE, size - 1, &sms) ||
				!sms_extract_concatenation(&sms, &reference, &maximum, &sequence))
			break;
		done = sms_assembly_add_fragment(assembly, &sms, 0, &sms.deliver.oaddr, reference, maximum, sequence);
	}
	length = hand_text_out(done ? sms_decode_text(done) : NULL, out, room);
	g_slist_free_full(done, g_free);
	sms_assembly_free(assembly);
	return length;
}
