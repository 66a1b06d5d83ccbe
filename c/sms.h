/* sms.h: short messages (3GPP TS 23.038, 23.040, 24.011) read and written in C.
 *
 * Octets in, values out. Every call checks what it is given and answers with a status; none aborts,
 * waits, prints, reads a clock or keeps a global.
 *
 * What a caller owes is said of pointers, joiners, memory and threads below, and nothing else: each value
 * that it gives is checked.
 * Pointers:
 *  - a pointer that goes with a count points to that many values; where the count is 0 it may be NULL;
 *  - every other pointer points to one value and is never NULL; what is written only need not be set;
 *  - while a call runs, nothing else reads or writes what it may write, nothing else writes what it
 *    reads, and what it writes overlaps with nothing else that it was given.
 * Ownership. The library keeps no pointer after a call and gives none out. Structs that are filled
 * hold numbers, and places in the caller's own octets (sms_span); nothing is to be freed, but for a
 * joiner, which sms_joiner_close frees.
 * Joiners. An sms_joiner begins as SMS_JOINER_CLOSED; calls alone change it, and of an open one no copy is
 * used.
 * Memory. sms_*_read, sms_stamp_*, sms_validity_end, sms_joiner_text, _would_finish, _age, _count, _each and
 * _close, and sms_gateway_text, _age, _count, _each and _close take none. The others call malloc, realloc and free
 * of the program: these are of one allocator, and align a block to each power of two up to 16 that divides its
 * size. SMS_NO_MEMORY: they refused; what the call had taken is free again (a joiner may keep room that it made),
 * and it may be made again.
 * Threads. Any number of threads may call at the same time on values of their own. A joiner is one
 * value: one call at a time, from whichever thread. A lock, the start or join of a thread, or a sequentially
 * consistent atomic orders them; threads that share one hold a lock over sms_joiner_offer and the
 * sms_joiner_text that takes its text. Not from a signal handler, nor in the forked child of a process with
 * threads.
 * Text is UTF-8 and has no NUL at its end; its length is told.
 * Answers of unknown length ("out, room, needed"): where the answer has at most `room` octets they are
 * written to `out` and the call answers SMS_OK; else nothing is written and the call answers
 * SMS_NO_ROOM. *needed is the length of the answer in both cases (0 after another status). So a call
 * with room 0 asks. SMS_TEXT_MAX and SMS_UNIT_MAX are always enough for one unit.
 * After a status other than SMS_OK what else a call may write is as it was, unless it says more. A call
 * answers with SMS_OK or a status that its comment names, of several that are so with the first.
 */
#ifndef SMS_H
#define SMS_H

#include <stddef.h>
#include <stdint.h>

#ifdef __cplusplus
extern "C" {
#endif

/* The number of this interface. Structs, calls and numbers that there are change only with it; calls,
 * statuses and reasons may be added without. */
#define SMS_ABI 2

/* Enough octets for any text of one unit, any unit that is written, any packet, any text of an address. */
#define SMS_TEXT_MAX 480
#define SMS_UNIT_MAX 192
#define SMS_PACKET_MAX 258
#define SMS_ADDRESS_TEXT_MAX 33

/* ---- what a call answers */

typedef uint32_t sms_status;
/* A status that a call answers: a compiler warns where it is not looked at. */
#if defined(__GNUC__)
#define SMS_STATUS __attribute__((warn_unused_result)) sms_status
#elif defined(__STDC_VERSION__) && __STDC_VERSION__ >= 202311L
#define SMS_STATUS [[nodiscard]] sms_status
#else
#define SMS_STATUS sms_status
#endif
enum {
    SMS_OK = 0,
    SMS_REFUSED = 1,       /* the octets are refused; an sms_refused says where and why */
    SMS_NO_MEMORY = 2,
    SMS_NO_ROOM = 3,       /* *needed says how much is wanted */
    SMS_NOT_UTF8 = 4,
    SMS_BAD_ADDRESS = 5,   /* the text is no address */
    SMS_TOO_LONG = 6,      /* more than 255 segments, or than the 233 octets that a message of the relay carries */
    SMS_OUT_OF_RANGE = 7,  /* a value is none of those that its comment allows */
    SMS_NOT_THERE = 8,     /* no such date, moment, end, text or segment */
    SMS_TOO_MANY_OPEN = 9, /* joiner: a segment of one more message than may be open */
    SMS_CLOSED = 10,       /* joiner: it is not open */
    SMS_CHANGED = 11       /* joiner: it has changed since the cursor began */
};

/* Why octets are refused. */
enum {
    SMS_SHORT = 1,            /* octets are missing at the end */
    SMS_WRONG_TYPE = 2,       /* of another type of unit */
    SMS_ADDRESS_TOO_LONG = 3, /* more than 20 digits, or 11 septets */
    SMS_BAD_DIGIT = 4,
    SMS_DATA_TOO_LONG = 5,
    SMS_HEADER_TOO_LONG = 6,
    SMS_NOT_SMS = 7,          /* CP: another protocol */
    SMS_BAD_TRANSACTION = 8,  /* CP: the reserved transaction value */
    SMS_UNKNOWN_TYPE = 9,     /* CP, RP */
    SMS_BAD_RELAY_ADDRESS = 10,
    SMS_BAD_CAUSE = 11,
    SMS_BAD_SEPTET = 12,      /* 128 and more, where septets stand one an octet */
    SMS_BAD_STATUS = 13,      /* record: the first octet */
    SMS_NOT_PADDING = 14,     /* record: another octet than FF after the unit */
    SMS_OTHER_LENGTH = 15,    /* record: more than 176 octets */
    SMS_NO_STATE = 16,        /* state, as all below: it begins as none */
    SMS_NEWER = 17,           /* of a higher version */
    SMS_BAD_FLAG = 18,        /* an octet that says none of the forms that may follow it */
    SMS_OTHER_LIMITS = 19,    /* of a joiner with other limits */
    SMS_TOO_MANY = 20,        /* more messages than the limits say */
    SMS_NOT_OPEN = 21,        /* an open message with no segment, or each */
    SMS_OUT_OF_ORDER = 22,    /* openings that do not rise */
    SMS_REPEATED = 23,        /* a message that stands before */
    SMS_TRAILING = 24,        /* octets after the end */
    SMS_BAD_CHECKSUM = 25,
    SMS_BAD_KEY = 26,         /* an address that is none, or that is written otherwise */
    SMS_MOMENTS_FALL = 27     /* a finished message that finished before the one ahead of it */
};

/* The first octet that cannot stand where it does: with the octets before it some unit goes on, with
 * it none. Under SMS_SHORT the place is the number of octets. Of a state it is the first octet of what is wrong, or
 * passes the end (docs/SAVED.md). */
typedef struct sms_refused {
    size_t place;
    uint32_t reason;
} sms_refused;

/* ---- parts */

/* octets[offset] to octets[offset + length - 1] of the octets that a call was given. */
typedef struct sms_span {
    size_t offset;
    size_t length;
} sms_span;

typedef struct sms_address {
    sms_span octets;        /* with the length octet */
    uint8_t type_of_number; /* 0 to 7: 1 international, 5 a name */
    uint8_t plan;           /* 0 to 15: 1 telephone */
} sms_address;

/* A segment's place in its message: information element 00 (width 8) or 08 (width 16). */
typedef struct sms_place {
    uint16_t width; /* 0: there is no place */
    uint16_t reference;
    uint8_t maximum;
    uint8_t sequence; /* 1 to maximum */
} sms_place;

enum { SMS_GSM7 = 0, SMS_EIGHT_BIT = 1, SMS_UCS2 = 2, SMS_COMPRESSED = 3 };

typedef struct sms_user {
    sms_span header; /* after its length octet */
    sms_span body;   /* after the header */
    sms_place place;
    uint8_t length;     /* TP-UDL */
    uint8_t alphabet;   /* SMS_GSM7 to SMS_COMPRESSED */
    uint8_t has_header; /* 0 or 1 */
    uint8_t fill;       /* SMS_GSM7: the bits of the body before its first septet, 0 to 6; else 0 */
    uint8_t count;      /* the septets of the body, or its octets */
} sms_user;

/* TP-SCTS, as it came. */
typedef struct sms_stamp {
    uint8_t octets[7];
} sms_stamp;

enum { SMS_VALIDITY_ABSENT = 0, SMS_VALIDITY_RELATIVE = 1, SMS_VALIDITY_ENHANCED = 2, SMS_VALIDITY_ABSOLUTE = 3 };

/* TP-VP: one octet (relative), seven (enhanced, absolute) or none; the others are 0. */
typedef struct sms_validity {
    uint8_t format;
    uint8_t octets[7];
} sms_validity;

typedef struct sms_date {
    uint16_t year; /* 2000 to 2099 */
    uint8_t month; /* 1 to 12 */
    uint8_t day;
    uint8_t hour;
    uint8_t minute;
    uint8_t second;
    int8_t quarters; /* local time less UTC, in quarters of an hour: -79 to 79 */
} sms_date;

/* ---- units: octets in, a struct out */

typedef struct sms_deliver {
    sms_address origin; /* TP-OA */
    sms_user user;
    size_t used;    /* how many octets the unit takes; what follows them is not looked at */
    uint8_t more;   /* TP-MMS as its meaning: 1 where more messages wait */
    uint8_t looped; /* TP-LP */
    uint8_t report; /* TP-SRI */
    uint8_t reply;  /* TP-RP */
    uint8_t pid;
    uint8_t dcs;
    sms_stamp stamp;
} sms_deliver;

typedef struct sms_submit {
    sms_address target; /* TP-DA */
    sms_user user;
    size_t used;
    uint8_t reject;    /* TP-RD */
    uint8_t report;    /* TP-SRR */
    uint8_t reply;     /* TP-RP */
    uint8_t reference; /* TP-MR */
    uint8_t pid;
    uint8_t dcs;
    sms_validity validity;
} sms_submit;

typedef struct sms_report {
    sms_span data;   /* TP-UD */
    sms_span header; /* TP-UDH in it, after its length octet; offset 0 where none lies within it */
    size_t used;
    uint8_t has_header; /* TP-UDHI: a header is announced, which may go beyond the data (header.offset is 0 then) */
    uint8_t has_cause;
    uint8_t cause; /* TP-FCS */
    uint8_t has_stamp;
    sms_stamp stamp; /* TP-SCTS */
    uint8_t has_pid;
    uint8_t pid;
    uint8_t has_dcs;
    uint8_t dcs;
    uint8_t has_data;
    uint8_t length;   /* TP-UDL */
    uint8_t alphabet; /* by which TP-UDL counts */
} sms_report;

typedef struct sms_status_report {
    sms_address recipient; /* TP-RA */
    sms_span data;         /* TP-UD */
    sms_span header;       /* TP-UDH in it, after its length octet; offset 0 where none lies within it */
    size_t used;
    uint8_t more;         /* TP-MMS as its meaning: 1 where more messages wait */
    uint8_t looped;       /* TP-LP */
    uint8_t qualifier;    /* TP-SRQ: 1 where it is the result of an SMS-COMMAND, 0 of an SMS-SUBMIT */
    uint8_t has_header;   /* TP-UDHI: a header is announced, which may go beyond the data (header.offset is 0 then) */
    uint8_t reference;    /* TP-MR of the submission, or of the command */
    sms_stamp stamp;      /* TP-SCTS: when the centre took the message */
    sms_stamp discharged; /* TP-DT: when it came to its recipient, or when the centre last tried */
    uint8_t status;       /* TP-ST, the octet as it came: 3GPP TS 23.040, 9.2.3.15. A reserved one (03 to 0F, 26 to
                           * 2F, 4A to 4F, 66 to 6F, 80 to FF) counts as 63: temporary error, no more attempts */
    uint8_t has_pid;
    uint8_t pid;
    uint8_t has_dcs;
    uint8_t dcs;
    uint8_t has_data;
    uint8_t length;   /* TP-UDL */
    uint8_t alphabet; /* by which TP-UDL counts */
} sms_status_report;

typedef struct sms_command {
    sms_address target; /* TP-DA of the message in question */
    sms_span data;      /* TP-CD; its length is TP-CDL */
    sms_span header;    /* TP-UDH in it, after its length octet; offset 0 where none lies within it */
    size_t used;
    uint8_t has_header; /* TP-UDHI: a header is announced, which may go beyond the data (header.offset is 0 then) */
    uint8_t report;     /* TP-SRR */
    uint8_t reference;  /* TP-MR of the command */
    uint8_t pid;
    uint8_t kind;    /* TP-CT, the octet as it came: 3GPP TS 23.040, 9.2.3.19 */
    uint8_t message; /* TP-MN: TP-MR of the message in question */
} sms_command;

/* Reads the unit at the front of the octets. SMS_REFUSED: *refused says where and why, *out is as it was.
 * Else SMS_OK: *out is the unit, *refused as it was. What follows the unit is not looked at, but where an
 * optional part might stand: after TP-ST of an SMS-STATUS-REPORT. */
SMS_STATUS sms_deliver_read(const uint8_t *octets, size_t count, sms_deliver *out, sms_refused *refused);
SMS_STATUS sms_submit_read(const uint8_t *octets, size_t count, sms_submit *out, sms_refused *refused);
/* SMS-DELIVER-REPORT and SMS-SUBMIT-REPORT, in an RP-ACK and in an RP-ERROR. */
SMS_STATUS sms_deliver_ack_read(const uint8_t *octets, size_t count, sms_report *out, sms_refused *refused);
SMS_STATUS sms_deliver_error_read(const uint8_t *octets, size_t count, sms_report *out, sms_refused *refused);
SMS_STATUS sms_submit_ack_read(const uint8_t *octets, size_t count, sms_report *out, sms_refused *refused);
SMS_STATUS sms_submit_error_read(const uint8_t *octets, size_t count, sms_report *out, sms_refused *refused);
/* SMS-STATUS-REPORT. TP-PI is read where another octet follows TP-ST, so give the octets of the unit alone. */
SMS_STATUS sms_status_report_read(const uint8_t *octets, size_t count, sms_status_report *out, sms_refused *refused);
SMS_STATUS sms_command_read(const uint8_t *octets, size_t count, sms_command *out, sms_refused *refused);

/* The text of an address that a call above found in these same octets: its digits (after a + where the type
 * is 1) or its name. SMS_OUT_OF_RANGE: its span ends beyond the octets. SMS_REFUSED: no address begins it.
 * Else SMS_OK, SMS_NO_ROOM or SMS_NO_MEMORY. */
SMS_STATUS sms_address_text(const uint8_t *octets, size_t count, const sms_address *address,
                            uint8_t *out, size_t room, size_t *needed);
/* The text of user data likewise: septets or UCS-2, where an unpaired surrogate becomes U+FFFD.
 * SMS_OUT_OF_RANGE: the body ends beyond the octets; or, of SMS_GSM7, fill is above 6, or body.length octets
 * are too few for count septets after fill bits. SMS_NOT_THERE: the user data are no text (8-bit, compressed:
 * neither SMS_GSM7 nor SMS_UCS2). Else SMS_OK, SMS_NO_ROOM or SMS_NO_MEMORY. */
SMS_STATUS sms_user_text(const uint8_t *octets, size_t count, const sms_user *user,
                         uint8_t *out, size_t room, size_t *needed);

/* ---- time: seconds count from 2000-01-01 00:00:00 UTC (Unix time less 946684800) */

/* The date that a stamp says; SMS_NOT_THERE where it says none. */
SMS_STATUS sms_stamp_date(const sms_stamp *stamp, sms_date *out);
/* Its moment; SMS_NOT_THERE where it is no date or lies before 2000. */
SMS_STATUS sms_stamp_moment(const sms_stamp *stamp, uint64_t *seconds);
/* The stamp of a moment, told in a zone; SMS_OUT_OF_RANGE where the local time lies outside 2000 to
 * 2099 or the zone outside -79 to 79. */
SMS_STATUS sms_stamp_at(uint64_t seconds, int8_t quarters, sms_stamp *out);
/* When a validity period ends of a message that was accepted at a moment: absent is two days.
 * SMS_OUT_OF_RANGE: the moment is not below 2^63, or there is no such format. SMS_NOT_THERE: enhanced, or
 * absolute with no moment. */
SMS_STATUS sms_validity_end(const sms_validity *validity, uint64_t accepted, uint64_t *seconds);

/* ---- packets */

typedef struct sms_cp {
    sms_span user; /* kind 0: an RP message */
    size_t used;
    uint8_t flag;  /* TI flag: 1 where it goes to the side that opened the transaction */
    uint8_t value; /* TI value, 0 to 6 */
    uint8_t kind;  /* 0 CP-DATA, 1 CP-ACK, 2 CP-ERROR */
    uint8_t cause; /* kind 2 */
} sms_cp;

typedef struct sms_rp {
    sms_span address; /* kind 0: the centre's, with its length octet */
    sms_span user;    /* a unit */
    size_t used;
    uint8_t side; /* 0 from the phone, 1 to it */
    uint8_t reference;
    uint8_t kind; /* 0 RP-DATA, 1 RP-ACK, 2 RP-ERROR */
    uint8_t has_address;
    uint8_t has_user;
    uint8_t cause; /* kind 2 */
    uint8_t has_diagnostic;
    uint8_t diagnostic;
} sms_rp;

/* As the readers of units. Places in an RP message count from its first octet:
 * sms_rp_read(octets + cp.user.offset, cp.user.length, ..). What follows an RP-ACK or RP-ERROR without user
 * data is looked at: an octet 41 (hexadecimal) begins them. */
SMS_STATUS sms_cp_read(const uint8_t *octets, size_t count, sms_cp *out, sms_refused *refused);
SMS_STATUS sms_rp_read(const uint8_t *octets, size_t count, sms_rp *out, sms_refused *refused);

typedef struct sms_envelope {
    uint8_t flag;  /* 0 or 1 */
    uint8_t value; /* 0 to 6 */
    uint8_t side;  /* 0 from the phone, 1 to it */
    uint8_t reference;
} sms_envelope;

/* CP-DATA around RP-DATA (address: the centre's, as text, none where it is empty), RP-ACK or RP-ERROR
 * (cause 0 to 127) around the octets of a unit, at most 233, which are not looked at; none for an
 * answer where they are empty. CP-ACK and CP-ERROR alone, where side and reference do not count.
 * SMS_OUT_OF_RANGE: the cause of an RP-ERROR, or what counts of the envelope. SMS_NOT_UTF8, SMS_BAD_ADDRESS:
 * the address. SMS_TOO_LONG: a unit of more than 233 octets. Else SMS_OK, SMS_NO_ROOM or SMS_NO_MEMORY. */
SMS_STATUS sms_wrap_data(const sms_envelope *envelope, const uint8_t *address, size_t address_count,
                         const uint8_t *unit, size_t unit_count, uint8_t *out, size_t room, size_t *needed);
SMS_STATUS sms_wrap_ack(const sms_envelope *envelope, const uint8_t *unit, size_t unit_count,
                        uint8_t *out, size_t room, size_t *needed);
SMS_STATUS sms_wrap_error(const sms_envelope *envelope, uint8_t cause, const uint8_t *unit, size_t unit_count,
                          uint8_t *out, size_t room, size_t *needed);
SMS_STATUS sms_cp_ack(const sms_envelope *envelope, uint8_t *out, size_t room, size_t *needed);
SMS_STATUS sms_cp_error(const sms_envelope *envelope, uint8_t cause, uint8_t *out, size_t room, size_t *needed);

/* ---- texts written. A text is cut into at most 255 segments, of septets where the 7-bit alphabet has
 * all its letters, else of UCS-2; one that fits a message is one segment, without a place. */

typedef struct sms_reference {
    uint16_t width;     /* 8 or 16 */
    uint16_t reference; /* below 256 under 8 */
} sms_reference;

typedef struct sms_submit_fields {
    sms_reference segments;
    uint8_t reject; /* 0 is no, all else yes; so below */
    uint8_t report;
    uint8_t reply;
    uint8_t reference; /* TP-MR */
    uint8_t pid;
    sms_validity validity;
    uint8_t message_class; /* 0: none; 1 to 4: class 0 to 3 (TP-DCS, 3GPP TS 23.038, 4) */
    uint8_t spare[6];      /* must be 0 */
} sms_submit_fields;

typedef struct sms_deliver_fields {
    sms_reference segments;
    uint8_t more;
    uint8_t looped;
    uint8_t report;
    uint8_t reply;
    uint8_t pid;
    sms_stamp stamp;
    uint8_t message_class; /* as above */
    uint8_t spare[6];      /* must be 0 */
} sms_deliver_fields;

/* The segment of an index, from 0, of a text as a whole unit. target, origin: + and at most 20 digits, such
 * digits, or a name of at most 11 septets. SMS_OUT_OF_RANGE: the message class, a spare octet, the reference or
 * its width, or no format of TP-VP. SMS_NOT_UTF8: the address or the text. SMS_BAD_ADDRESS. SMS_TOO_LONG: more
 * than 255 segments. SMS_NOT_THERE: the index is not below their number. SMS_NO_ROOM, SMS_OK. From
 * SMS_BAD_ADDRESS on SMS_NO_MEMORY may come in place of each. *segments is how many segments there are under
 * SMS_OK, SMS_NO_ROOM and SMS_NOT_THERE, 0 or that under SMS_NO_MEMORY, and else 0. */
SMS_STATUS sms_submit_write(const sms_submit_fields *fields, const uint8_t *target, size_t target_count,
                            const uint8_t *text, size_t text_count, size_t index,
                            uint8_t *out, size_t room, size_t *needed, size_t *segments);
SMS_STATUS sms_deliver_write(const sms_deliver_fields *fields, const uint8_t *origin, size_t origin_count,
                             const uint8_t *text, size_t text_count, size_t index,
                             uint8_t *out, size_t room, size_t *needed, size_t *segments);

/* The user data of all segments, each from its TP-UDL on, one after another, and where each lies in
 * out. *segments is how many there are, and *dcs the TP-DCS of all. SMS_OUT_OF_RANGE: the reference or its
 * width. SMS_NOT_UTF8: the text. SMS_TOO_LONG: more than 255 segments. SMS_NO_ROOM: there is too little room
 * for the octets or for the spans; neither is written, but *segments and *dcs, and *needed: so much is
 * wanted. SMS_OK. From SMS_TOO_LONG on SMS_NO_MEMORY may come in place of each. */
SMS_STATUS sms_split(const sms_reference *reference, const uint8_t *text, size_t text_count,
                     uint8_t *out, size_t room, size_t *needed,
                     sms_span *spans, size_t span_count, size_t *segments, uint8_t *dcs);

/* ---- the version of the library: 1,000,000 for a major number, 1,000 for a minor one, 1 for a patch */

#define SMS_VERSION 2004000

/* That of the library that is loaded, to be compared with SMS_VERSION at run time. */
uint32_t sms_version(void);

/* ---- more texts, as sms_address_text and sms_user_text */

/* The text of the centre's address in an RP-DATA that sms_rp_read found in these octets: its digits,
 * after a + where the type of number is 1. SMS_NOT_THERE: there is none. SMS_OUT_OF_RANGE or
 * SMS_REFUSED: the struct does not fit these octets. Also SMS_NO_ROOM, SMS_NO_MEMORY. */
SMS_STATUS sms_relay_address_text(const uint8_t *octets, size_t count, const sms_rp *rp,
                                  uint8_t *out, size_t room, size_t *needed);
/* The text of the user data of a report, or of a status report, after their header, that a call above
 * found in these octets: septets or UCS-2 as its TP-DCS tells, septets where there is none.
 * SMS_NOT_THERE: there are none, or they are no text (8-bit, compressed), or the header goes beyond
 * them. SMS_OUT_OF_RANGE: the struct does not fit these octets, or has another length than its TP-UDL
 * counts, or more than 159 octets. Also SMS_NO_ROOM, SMS_NO_MEMORY. */
SMS_STATUS sms_report_text(const uint8_t *octets, size_t count, const sms_report *report,
                           uint8_t *out, size_t room, size_t *needed);
SMS_STATUS sms_status_report_text(const uint8_t *octets, size_t count, const sms_status_report *report,
                                  uint8_t *out, size_t room, size_t *needed);

/* ---- reports written, as a gateway answers with them or sends them. Without has_pid and has_dcs what
 * they speak of is not looked at; without has_data there are no octets, and length and has_header are 0. */

typedef struct sms_report_fields {
    sms_stamp stamp;    /* TP-SCTS, of an SMS-SUBMIT-REPORT alone */
    uint8_t cause;      /* TP-FCS, under an RP-ERROR alone */
    uint8_t has_pid;    /* 0 is no, all else yes; so below */
    uint8_t pid;
    uint8_t has_dcs;
    uint8_t dcs;
    uint8_t has_data;
    uint8_t has_header; /* TP-UDHI: the data begin with a header, its length octet first */
    uint8_t length;     /* TP-UDL: septets under the 7-bit alphabet, and where there is no dcs; else octets */
    uint8_t spare[6];   /* must be 0 */
} sms_report_fields;

typedef struct sms_status_report_fields {
    sms_stamp stamp;      /* TP-SCTS: when the centre took the message */
    sms_stamp discharged; /* TP-DT: when it came to its recipient, or when the centre last tried */
    uint8_t more;         /* TP-MMS as its meaning: 1 where more messages wait */
    uint8_t looped;       /* TP-LP */
    uint8_t qualifier;    /* TP-SRQ: 1 where it is the result of an SMS-COMMAND, 0 of an SMS-SUBMIT */
    uint8_t reference;    /* TP-MR of the submission, or of the command */
    uint8_t status;       /* TP-ST */
    uint8_t has_pid;
    uint8_t pid;
    uint8_t has_dcs;
    uint8_t dcs;
    uint8_t has_data;
    uint8_t has_header; /* as above */
    uint8_t length;     /* as above */
    uint8_t spare[6];   /* must be 0 */
} sms_status_report_fields;

/* A report with these octets as its TP-UD, at most 159: SMS-DELIVER-REPORT and SMS-SUBMIT-REPORT, for an
 * RP-ACK and for an RP-ERROR, and SMS-STATUS-REPORT (recipient: as target above). SMS_TOO_LONG: more than
 * 159. SMS_OUT_OF_RANGE: not as many octets as length counts, a header that does not lie in them, octets
 * or what speaks of them without has_data, or a spare octet. Also SMS_NOT_UTF8, SMS_BAD_ADDRESS,
 * SMS_NO_ROOM, SMS_NO_MEMORY. */
SMS_STATUS sms_deliver_ack_write(const sms_report_fields *fields, const uint8_t *octets, size_t count,
                                 uint8_t *out, size_t room, size_t *needed);
SMS_STATUS sms_deliver_error_write(const sms_report_fields *fields, const uint8_t *octets, size_t count,
                                   uint8_t *out, size_t room, size_t *needed);
SMS_STATUS sms_submit_ack_write(const sms_report_fields *fields, const uint8_t *octets, size_t count,
                                uint8_t *out, size_t room, size_t *needed);
SMS_STATUS sms_submit_error_write(const sms_report_fields *fields, const uint8_t *octets, size_t count,
                                  uint8_t *out, size_t room, size_t *needed);
SMS_STATUS sms_status_report_write(const sms_status_report_fields *fields, const uint8_t *recipient,
                                   size_t recipient_count, const uint8_t *octets, size_t count,
                                   uint8_t *out, size_t room, size_t *needed);

/* ---- data written. The octets are TP-UD, at most 140 (SMS_TOO_LONG); with has_header (0 is no, all else
 * yes) they begin with a header, its length octet first. The alphabet of dcs counts in octets: 8-bit, UCS-2
 * or compressed. In the fields message_class is 0, and segments do not count. SMS_OUT_OF_RANGE: one of this
 * is not so, or a header does not lie in the octets. Also SMS_NOT_UTF8, SMS_BAD_ADDRESS, SMS_NO_ROOM,
 * SMS_NO_MEMORY. */

SMS_STATUS sms_submit_data_write(const sms_submit_fields *fields, uint8_t dcs, uint8_t has_header,
                                 const uint8_t *target, size_t target_count, const uint8_t *octets, size_t count,
                                 uint8_t *out, size_t room, size_t *needed);
SMS_STATUS sms_deliver_data_write(const sms_deliver_fields *fields, uint8_t dcs, uint8_t has_header,
                                  const uint8_t *origin, size_t origin_count, const uint8_t *octets, size_t count,
                                  uint8_t *out, size_t room, size_t *needed);

/* ---- user data alone, with no unit around them, as SMPP and other gateways hand them over */

/* How septets stand: packed, all that fit whole; packed, as many as are counted; or one an octet. */
enum { SMS_WHOLE = 0, SMS_COUNTED = 1, SMS_SINGLE = 2 };

typedef struct sms_data_form {
    uint8_t dcs;        /* TP-DCS: its alphabet alone is looked at */
    uint8_t has_header; /* 0 is no, all else yes: a header stands in front, its length octet first */
    uint8_t standing;   /* SMS_WHOLE to SMS_SINGLE; under the other alphabets SMS_SINGLE is as SMS_WHOLE */
    uint8_t length;     /* TP-UDL under SMS_COUNTED, else 0 */
    uint8_t languages;  /* of sms_data_text and sms_joiner_offer_data, 0 is no, all else yes: septets by the national
                         * language tables that the header tells */
    uint8_t spare[6];   /* must be 0 */
} sms_data_form;

typedef struct sms_data {
    sms_span header; /* after its length octet */
    sms_span body;   /* after the header */
    size_t used;     /* how many octets they take; what follows them, under SMS_COUNTED, is not looked at */
    size_t count;    /* the septets of the body, or its octets */
    sms_place place;
    uint8_t alphabet;   /* SMS_GSM7 to SMS_COMPRESSED */
    uint8_t has_header; /* 0 or 1 */
    uint8_t single;     /* 1 where septets stand one an octet */
    uint8_t fill;       /* SMS_GSM7, packed: the bits of the body before its first septet, 0 to 6; else 0 */
} sms_data;

/* Reads user data that stand so. SMS_OUT_OF_RANGE: there is no such standing, a length but under SMS_COUNTED, or a
 * spare octet. SMS_REFUSED: as the readers of units, and at place 0 where the data are too long (160 septets, or 140
 * octets, those of a header among them) or too short for a header. Else SMS_OK. */
SMS_STATUS sms_data_read(const uint8_t *octets, size_t count, const sms_data_form *form, sms_data *out,
                         sms_refused *refused);
/* Their text. SMS_OUT_OF_RANGE, SMS_REFUSED: as sms_data_read. SMS_NOT_THERE: they are no text (8-bit, compressed).
 * Else SMS_OK, SMS_NO_ROOM or SMS_NO_MEMORY. */
SMS_STATUS sms_data_text(const uint8_t *octets, size_t count, const sms_data_form *form,
                         uint8_t *out, size_t room, size_t *needed);

/* ---- texts split as user data alone, as SMPP and other gateways take them. They are cut as above. */

typedef struct sms_data_fields {
    sms_reference segments;
    uint8_t single;   /* 0 is no, all else yes: septets stand one an octet; else they are packed */
    uint8_t spare[6]; /* must be 0 */
} sms_data_fields;

typedef struct sms_data_segment {
    sms_span octets;    /* in out: the header, where there is one, and the text (SMPP: short_message, sm_length) */
    uint8_t dcs;        /* TP-DCS (SMPP: data_coding): 00 septets, 08 UCS-2 */
    uint8_t has_header; /* TP-UDHI (SMPP: bit 6 of esm_class): 0 or 1 */
    uint8_t length;     /* TP-UDL: the septets, those that the header takes among them, or the octets */
} sms_data_segment;

/* The segments of a text as user data alone, their octets one after another, and what goes beside each. *segments is
 * how many there are. SMS_OUT_OF_RANGE: a spare octet, the reference or its width. SMS_NOT_UTF8: the text.
 * SMS_TOO_LONG: more than 255 segments. SMS_NO_ROOM: there is too little room for the octets or for the parts; neither
 * is written, but *segments, and *needed: so much is wanted. SMS_OK. From SMS_TOO_LONG on SMS_NO_MEMORY may come in
 * place of each. */
SMS_STATUS sms_data_split(const sms_data_fields *fields, const uint8_t *text, size_t text_count,
                          uint8_t *out, size_t room, size_t *needed,
                          sms_data_segment *parts, size_t part_count, size_t *segments);

/* ---- records of a card: EF-SMS (3GPP TS 51.011, 10.5.3; TS 31.102, 4.2.25) */

/* How it stands with a record: its first octet. */
enum {
    SMS_RECORD_FREE = 0,
    SMS_RECORD_READ = 1,           /* it came from the network, and was read */
    SMS_RECORD_UNREAD = 3,         /* it came from the network, and is to be read */
    SMS_RECORD_SENT = 5,           /* the phone sent it, and asked for no status report; so below */
    SMS_RECORD_TO_BE_SENT = 7,     /* the phone is to send it */
    SMS_RECORD_SENT_AWAITED = 13,  /* a status report was asked for, and has not come */
    SMS_RECORD_SENT_RECEIVED = 21, /* it has come, and does not stand in EF-SMSR */
    SMS_RECORD_SENT_STORED = 29    /* it has come, and stands in EF-SMSR */
};

/* Which unit a record has: none where it is free; the first two from the network, the other two of the phone. */
enum {
    SMS_NO_UNIT = 0,
    SMS_UNIT_DELIVER = 1,
    SMS_UNIT_STATUS_REPORT = 2,
    SMS_UNIT_SUBMIT = 3,
    SMS_UNIT_COMMAND = 4
};

typedef struct sms_record {
    sms_span address;    /* TS-Service-Centre-Address, with its length octet */
    sms_span unit;       /* without the FF after it */
    uint8_t status;      /* SMS_RECORD_FREE to SMS_RECORD_SENT_STORED; an even octet is SMS_RECORD_FREE */
    uint8_t has_address; /* 0 or 1 */
    uint8_t kind;        /* SMS_NO_UNIT to SMS_UNIT_COMMAND */
} sms_record;

/* Reads the record that all the octets are: 176, or fewer where FF were cut from its end. SMS_REFUSED: as the readers
 * of units, and where another octet than FF follows the unit; SMS_BAD_RELAY_ADDRESS is of the centre's address. Else
 * SMS_OK. The unit's octets are read by its reader, as sms_deliver_read(octets + record.unit.offset,
 * record.unit.length, ..), which takes all of them. The text of the address is that of an sms_rp with this has_address
 * and address, and all else 0 (sms_relay_address_text). */
SMS_STATUS sms_record_read(const uint8_t *octets, size_t count, sms_record *out, sms_refused *refused);

typedef struct sms_record_fields {
    uint8_t status;   /* SMS_RECORD_FREE to SMS_RECORD_SENT_STORED */
    uint8_t spare[6]; /* must be 0 */
} sms_record_fields;

/* A record, always of 176 octets: the status, the centre's address (as text, none where it is empty), the octets of a
 * unit, as they are, and FF to the end; of SMS_RECORD_FREE the status alone. SMS_OUT_OF_RANGE: there is no such status, a
 * spare octet, or an address or a unit of SMS_RECORD_FREE. SMS_NOT_UTF8, SMS_BAD_ADDRESS: the address. SMS_REFUSED: it
 * would be no record, as sms_record_read says; the place counts in the record. Else SMS_OK, SMS_NO_ROOM or
 * SMS_NO_MEMORY. */
SMS_STATUS sms_record_write(const sms_record_fields *fields, const uint8_t *centre, size_t centre_count,
                            const uint8_t *unit, size_t unit_count, uint8_t *out, size_t room, size_t *needed,
                            sms_refused *refused);

/* ---- joining segments. A joiner lies in the caller's memory and holds memory of the library. */

typedef struct sms_joiner {
    uint32_t open;
    void *inside;
} sms_joiner;
/* A closed one; so is one of which all octets are 0 (static, calloc). */
#if defined(__cplusplus) && __cplusplus >= 201103L
#define SMS_JOINER_CLOSED { 0, nullptr }
#else
#define SMS_JOINER_CLOSED { 0, NULL }
#endif

enum { SMS_REPEAT = 0, SMS_KEPT = 1, SMS_FINISHED = 2 };

/* Opens it for at most so many messages at a time that are not whole, and so many finished ones that
 * are remembered, so that none finishes twice: they are forgotten by number, never by time. Both are
 * from 1 on. SMS_OUT_OF_RANGE: one is 0, and the joiner is as it was. Else an open one is closed first, and
 * what it held is gone. SMS_NO_MEMORY: it is closed. SMS_OK: it is open, and holds nothing. */
SMS_STATUS sms_joiner_open(sms_joiner *joiner, size_t open_max, size_t remembered);
/* The same with a seed of 128 bits. A joiner answers as one without, but who does not know the seed cannot pick origins,
 * references and maxima that it is slow to find: draw one, as by getentropy, for a joiner that strangers send to. */
SMS_STATUS sms_joiner_open_seeded(sms_joiner *joiner, size_t open_max, size_t remembered, uint64_t seed_low,
                                  uint64_t seed_high);
/* Frees what it holds. On a closed one it does nothing. */
void sms_joiner_close(sms_joiner *joiner);
/* Offers an SMS-DELIVER, at the front of the octets, that came at a moment. SMS_CLOSED. SMS_REFUSED: as
 * sms_deliver_read. SMS_NOT_THERE: the user data are no text (8-bit, compressed). SMS_TOO_MANY_OPEN: it would
 * open one message more than may be open, and the same unit may be offered again. SMS_OK: *outcome is
 * SMS_REPEAT (it is there, or its message is a finished one that is remembered), SMS_KEPT or SMS_FINISHED. From
 * SMS_TOO_MANY_OPEN on SMS_NO_MEMORY may come in place of each. After another status than SMS_OK the joiner is as it
 * was. */
SMS_STATUS sms_joiner_offer(sms_joiner *joiner, uint64_t seconds, const uint8_t *octets, size_t count,
                            uint32_t *outcome, sms_refused *refused);
/* The text that finished last since the joiner was opened, as often as one asks; empty before one did.
 * SMS_CLOSED. Else SMS_OK or SMS_NO_ROOM. */
SMS_STATUS sms_joiner_text(sms_joiner *joiner, uint8_t *out, size_t room, size_t *needed);
/* Whether an SMS-DELIVER would finish its message: nothing changes. SMS_CLOSED, SMS_REFUSED, SMS_NOT_THERE: as
 * sms_joiner_offer. Else SMS_OK: *finishes is 0 or 1. */
SMS_STATUS sms_joiner_would_finish(sms_joiner *joiner, const uint8_t *octets, size_t count,
                                   uint8_t *finishes, sms_refused *refused);
/* Drops the messages of which the segment that came first came 604,800 seconds before the moment, or earlier;
 * the text that finished last stays. SMS_CLOSED. Else SMS_OK. */
SMS_STATUS sms_joiner_age(sms_joiner *joiner, uint64_t seconds);

/* ---- user data alone offered to a joiner, as SMPP and other gateways hand them over */

typedef struct sms_data_offer {
    uint8_t has_stamp; /* 0 is no, all else yes */
    sms_stamp stamp;   /* TP-SCTS or the like, by which a message in one piece is known; a segment is known by its place */
    sms_data_form form;
} sms_data_offer;

/* Offers user data that stand so, as sms_data_read and sms_data_text take them, from an origin (as target of
 * sms_submit_write), and that came at a moment. A message in one piece with no stamp is known by nothing: it is
 * finished each time, and no repeat. SMS_CLOSED. SMS_OUT_OF_RANGE, SMS_REFUSED: as sms_data_read. SMS_NOT_THERE: they
 * are no text (8-bit, compressed). SMS_NOT_UTF8, SMS_BAD_ADDRESS: the origin. SMS_TOO_MANY_OPEN, SMS_OK and *outcome:
 * as sms_joiner_offer. From SMS_BAD_ADDRESS on SMS_NO_MEMORY may come in place of each. After another status than SMS_OK
 * the joiner is as it was. */
SMS_STATUS sms_joiner_offer_data(sms_joiner *joiner, uint64_t seconds, const sms_data_offer *offer,
                                 const uint8_t *origin, size_t origin_count, const uint8_t *octets, size_t count,
                                 uint32_t *outcome, sms_refused *refused);
/* Whether they would finish their message: nothing changes. SMS_CLOSED to SMS_BAD_ADDRESS as sms_joiner_offer_data; in
 * place of SMS_BAD_ADDRESS and SMS_OK SMS_NO_MEMORY may come. Else SMS_OK: *finishes is 0 or 1. */
SMS_STATUS sms_joiner_would_finish_data(sms_joiner *joiner, const sms_data_offer *offer,
                                        const uint8_t *origin, size_t origin_count, const uint8_t *octets, size_t count,
                                        uint8_t *finishes, sms_refused *refused);

/* ---- the open messages of a joiner: some segments have come, and some not */

/* Its segments share the origin (TP-OA), the reference and the maximum. It holds numbers alone, so it stays as it was
 * told. */
typedef struct sms_open_message {
    uint64_t seconds;       /* the moment at which its first segment was offered */
    uint64_t opening;       /* the number of its opening: a message that is opened later has a greater one */
    uint16_t width;         /* 8 or 16, as in sms_place */
    uint16_t reference;
    uint8_t maximum;
    uint8_t count;          /* how many segments have come: from 1 to less than maximum */
    uint8_t type_of_number; /* of the origin */
    uint8_t plan;
    uint8_t come[32];       /* bit n % 8 of come[n / 8], from the lowest, is 1 where segment n has come */
} sms_open_message;

/* Where a caller stands among the open messages: with all 0 before the first. */
typedef struct sms_cursor {
    uint64_t change;  /* of which state of the joiner; 0 before the first step */
    uint64_t opening; /* where it goes on: with the first message of this opening or a later one */
} sms_cursor;

/* How many messages are open. SMS_CLOSED. Else SMS_OK. */
SMS_STATUS sms_joiner_count(sms_joiner *joiner, size_t *open_count);
/* The next open message, in order of opening. SMS_CLOSED. SMS_CHANGED: since the cursor's first step an offer was
 * answered SMS_OK (a repeat too), or the joiner was aged; with change set to 0 it goes on where it stands.
 * SMS_NOT_THERE: there is no further one. Else SMS_OK, and the cursor goes on. After another status it is as it was.
 * Other calls may come in between. A cursor ends with sms_joiner_close and the next sms_joiner_open. */
SMS_STATUS sms_joiner_each(sms_joiner *joiner, sms_cursor *cursor, sms_open_message *message);
/* The text of the origin of the open message of this opening, as sms_address_text. SMS_CLOSED. SMS_NOT_THERE: no open
 * message has it. Else SMS_OK, SMS_NO_ROOM or SMS_NO_MEMORY. */
SMS_STATUS sms_joiner_origin(sms_joiner *joiner, uint64_t opening, uint8_t *out, size_t room, size_t *needed);

/* ---- a gateway's joiner: one for many recipients. Messages of two recipients are never joined into one another, and
 * none is a repeat of the other's; the limits are for all recipients together. What is said of joiners, of their
 * ownership and of threads at the head holds of an sms_gateway too. */

typedef struct sms_gateway {
    uint32_t open;
    void *inside;
} sms_gateway;
#define SMS_GATEWAY_CLOSED SMS_JOINER_CLOSED

typedef struct sms_gateway_limits {
    size_t open_max;       /* from 1 on: the messages that may be open at a time */
    size_t remembered;     /* from 1 on: the finished ones that are remembered, so that none finishes twice */
    uint64_t open_for;     /* sms_gateway_age drops a message so many seconds after its first segment */
    uint64_t remember_for; /* and forgets a finished one so many seconds after it finished; with 0 it is remembered as
                            * long as it is among the last `remembered` */
    uint64_t seed_low;     /* the halves of a seed of 128 bits, as of sms_joiner_open_seeded */
    uint64_t seed_high;
    uint8_t has_seed;      /* 0 is no, all else yes; so below */
    uint8_t pass_alone;    /* a message in one piece finishes each time it comes, and is no repeat of another */
    uint8_t spare[6];      /* must be 0 */
} sms_gateway_limits;
/* The usual ones: a message is open for a week, no finished one is forgotten by its age, there is no seed, and messages
 * in one piece are remembered. */
#define SMS_GATEWAY_LIMITS(open_max, remembered) \
    { (open_max), (remembered), 604800, 0, 0, 0, 0, 0, { 0, 0, 0, 0, 0, 0 } }

/* Opens it. SMS_OUT_OF_RANGE: open_max or remembered is 0, or a spare octet is not, and the joiner is as it was. Else
 * an open one is closed first, and what it held is gone. SMS_NO_MEMORY: it is closed. SMS_OK: it is open, and holds
 * nothing. */
SMS_STATUS sms_gateway_open(sms_gateway *gateway, const sms_gateway_limits *limits);
/* Frees what it holds. On a closed one it does nothing. */
void sms_gateway_close(sms_gateway *gateway);
/* Offers an SMS-DELIVER, at the front of the octets, for a recipient (an address as text, as target of
 * sms_submit_write; where it is empty, it is for none: such messages are as for a recipient of their own), that came at
 * a moment. SMS_CLOSED. SMS_REFUSED, SMS_NOT_THERE: as sms_joiner_offer. SMS_NOT_UTF8, SMS_BAD_ADDRESS: the recipient.
 * SMS_TOO_MANY_OPEN, SMS_OK and *outcome: as sms_joiner_offer, but with pass_alone a message without a place is always
 * SMS_FINISHED, and nothing is held of it. From SMS_BAD_ADDRESS on SMS_NO_MEMORY may come in place of each. After
 * another status than SMS_OK the joiner is as it was. */
SMS_STATUS sms_gateway_offer(sms_gateway *gateway, uint64_t seconds, const uint8_t *recipient, size_t recipient_count,
                             const uint8_t *octets, size_t count, uint32_t *outcome, sms_refused *refused);
/* Whether it would finish its message: nothing changes. SMS_CLOSED to SMS_BAD_ADDRESS: as sms_gateway_offer; in place
 * of SMS_BAD_ADDRESS and SMS_OK SMS_NO_MEMORY may come. Else SMS_OK: *finishes is 0 or 1. */
SMS_STATUS sms_gateway_would_finish(sms_gateway *gateway, const uint8_t *recipient, size_t recipient_count,
                                    const uint8_t *octets, size_t count, uint8_t *finishes, sms_refused *refused);
/* The same two of user data alone, as sms_joiner_offer_data takes them. SMS_NOT_UTF8, SMS_BAD_ADDRESS: the recipient or
 * the origin. */
SMS_STATUS sms_gateway_offer_data(sms_gateway *gateway, uint64_t seconds, const sms_data_offer *offer,
                                  const uint8_t *recipient, size_t recipient_count,
                                  const uint8_t *origin, size_t origin_count, const uint8_t *octets, size_t count,
                                  uint32_t *outcome, sms_refused *refused);
SMS_STATUS sms_gateway_would_finish_data(sms_gateway *gateway, const sms_data_offer *offer,
                                         const uint8_t *recipient, size_t recipient_count,
                                         const uint8_t *origin, size_t origin_count, const uint8_t *octets, size_t count,
                                         uint8_t *finishes, sms_refused *refused);
/* The text that finished last, of whatever recipient, as sms_joiner_text. */
SMS_STATUS sms_gateway_text(sms_gateway *gateway, uint8_t *out, size_t room, size_t *needed);
/* Drops the messages of which the segment that came first came open_for seconds before the moment, or earlier, and
 * forgets the finished ones that finished remember_for seconds before it, or earlier; the text that finished last
 * stays. A message that finishes at an earlier moment than the one before it counts as of that one's. SMS_CLOSED. Else
 * SMS_OK. */
SMS_STATUS sms_gateway_age(sms_gateway *gateway, uint64_t seconds);

/* ---- a gateway's joiner over a restart (docs/SAVED.md) */

/* Writes all that the joiner holds as octets, for sms_gateway_read at the next start, with `taken`: a number of the
 * caller's, which tells how much of its input is in there. The text that finished last is not. Nothing changes.
 * SMS_CLOSED. Else SMS_OK, SMS_NO_ROOM or SMS_NO_MEMORY. To ask takes less than to write: no checksum is made. */
SMS_STATUS sms_gateway_save(sms_gateway *gateway, uint64_t taken, uint8_t *out, size_t room, size_t *needed);
/* Opens a joiner with what such octets, all of them, say that it held; *taken is the number that was saved. It answers
 * all that comes as the saved one would. The seed may be another; nothing is forgotten till sms_gateway_age.
 * SMS_OUT_OF_RANGE: as sms_gateway_open. SMS_REFUSED: they are no state of a joiner with these limits. SMS_NO_MEMORY.
 * After another status than SMS_OK the joiner is as it was, open or closed. SMS_OK: what an open one held is gone, its
 * cursors end, and no text has finished yet. */
SMS_STATUS sms_gateway_read(sms_gateway *gateway, const sms_gateway_limits *limits, const uint8_t *octets, size_t count,
                            uint64_t *taken, sms_refused *refused);

/* ---- the open messages of a gateway's joiner */

/* An open message, and whether it is for a recipient. */
typedef struct sms_gateway_message {
    sms_open_message message;
    uint8_t has_recipient; /* 0 or 1 */
} sms_gateway_message;

/* As sms_joiner_count, _each and _origin, over the open messages of all recipients. A cursor is of one joiner. */
SMS_STATUS sms_gateway_count(sms_gateway *gateway, size_t *open_count);
SMS_STATUS sms_gateway_each(sms_gateway *gateway, sms_cursor *cursor, sms_gateway_message *message);
SMS_STATUS sms_gateway_origin(sms_gateway *gateway, uint64_t opening, uint8_t *out, size_t room, size_t *needed);
/* The text of its recipient likewise. SMS_NOT_THERE: no open message has this opening, or it is for none. */
SMS_STATUS sms_gateway_recipient(sms_gateway *gateway, uint64_t opening, uint8_t *out, size_t room, size_t *needed);

/* ---- the size of each struct, in octets, where a pointer has eight: said to compilers that can tell (C11, C++11) */

#ifdef __LP64__
#if defined(__cplusplus) && __cplusplus >= 201103L
#define SMS_HAS(size, type) static_assert(sizeof(type) == size, #type)
#elif defined(__STDC_VERSION__) && __STDC_VERSION__ >= 201112L
#define SMS_HAS(size, type) _Static_assert(sizeof(type) == size, #type)
#endif
#endif
#ifdef SMS_HAS
SMS_HAS(16, sms_refused);
SMS_HAS(16, sms_span);
SMS_HAS(24, sms_address);
SMS_HAS(6, sms_place);
SMS_HAS(48, sms_user);
SMS_HAS(7, sms_stamp);
SMS_HAS(8, sms_validity);
SMS_HAS(8, sms_date);
SMS_HAS(96, sms_deliver);
SMS_HAS(96, sms_submit);
SMS_HAS(64, sms_report);
SMS_HAS(96, sms_status_report);
SMS_HAS(72, sms_command);
SMS_HAS(32, sms_cp);
SMS_HAS(48, sms_rp);
SMS_HAS(4, sms_envelope);
SMS_HAS(4, sms_reference);
SMS_HAS(24, sms_submit_fields);
SMS_HAS(24, sms_deliver_fields);
SMS_HAS(21, sms_report_fields);
SMS_HAS(32, sms_status_report_fields);
SMS_HAS(11, sms_data_form);
SMS_HAS(64, sms_data);
SMS_HAS(12, sms_data_fields);
SMS_HAS(24, sms_data_segment);
SMS_HAS(40, sms_record);
SMS_HAS(7, sms_record_fields);
SMS_HAS(16, sms_joiner);
SMS_HAS(19, sms_data_offer);
SMS_HAS(56, sms_open_message);
SMS_HAS(16, sms_cursor);
SMS_HAS(16, sms_gateway);
SMS_HAS(56, sms_gateway_limits);
SMS_HAS(64, sms_gateway_message);
#undef SMS_HAS
#endif

#ifdef __cplusplus
}
#endif

#endif
