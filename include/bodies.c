/* Bodies of replies through the archive: of every kind some that are read, each field as it was
   written down by hand from the table of docs/RULES.md, 13, and some that are refused; then each
   kind at every length, and every code. Prints one line, or the first thing that is wrong. */
#include "malstrink.h"
#include <stdio.h>
#include <stdlib.h>
#include <string.h>

static int looked;
static void must(bool holds, const char *what)
{
    looked++;
    if (!holds) { printf("bodies: %s\n", what); exit(1); }
}

static bool same(const MalstrinkBody *a, const MalstrinkBody *b)
{
    return a->answer.refusal == b->answer.refusal && a->answer.a == b->answer.a && a->answer.b == b->answer.b && a->code == b->code &&
           a->error == b->error && memcmp(a->vendor, b->vendor, 3) == 0 && a->model == b->model && a->version == b->version &&
           a->serial == b->serial && a->firmware_major == b->firmware_major && a->firmware_minor == b->firmware_minor &&
           a->firmware_build == b->firmware_build && a->tamper == b->tamper && a->power == b->power && a->reader == b->reader &&
           a->format == b->format && a->bits == b->bits && a->count == b->count && a->rest_start == b->rest_start &&
           a->rest_len == b->rest_len && a->has_number == b->has_number && a->number == b->number;
}

/* what is expected: all 0 but what a case sets */
static MalstrinkBody want;
static void expect(uint8_t code, size_t rest_start, size_t rest_len)
{
    memset(&want, 0, sizeof want);
    want.code = code;
    want.rest_start = rest_start;
    want.rest_len = rest_len;
}
static void reads(const uint8_t *payload, size_t n, const char *what)
{
    const MalstrinkBody got = malstrink_read_body(want.code, payload, n);
    must(same(&got, &want), what);
    must(want.code == MALSTRINK_BODY_PDCAP || !malstrink_triple(want.code, payload, n, 0).there, what);
}
/* refused by 19, carrying the code, with all else 0 and no triple */
static void refuses(uint8_t code, const uint8_t *payload, size_t n, const char *what)
{
    const MalstrinkBody got = malstrink_read_body(code, payload, n);
    const MalstrinkTriple t = malstrink_triple(code, payload, n, 0);
    expect(0, 0, 0);
    want.answer.refusal = MALSTRINK_REFUSAL_BAD_BODY;
    want.answer.a = code;
    must(same(&got, &want), what);
    must(!t.there && t.function == 0 && t.compliance == 0 && t.number == 0, what);
}
static bool triple_is(const uint8_t *payload, size_t n, size_t i, bool there, uint8_t function, uint8_t compliance, uint8_t number)
{
    const MalstrinkTriple t = malstrink_triple(MALSTRINK_BODY_PDCAP, payload, n, i);
    return t.there == there && t.function == function && t.compliance == compliance && t.number == number;
}

static uint8_t zeros[70000];

static void ack_and_nak(void)
{
    static const uint8_t nak[3] = { 0x05, 0xAA, 0xBB };
    expect(0x40, 0, 0);
    reads(NULL, 0, "ACK");
    refuses(0x40, nak, 1, "ACK of a byte");
    expect(0x41, 1, 0);
    want.error = 5;
    reads(nak, 1, "NAK");
    expect(0x41, 1, 2);
    want.error = 5;
    reads(nak, 3, "NAK with more");
    refuses(0x41, NULL, 0, "NAK of no bytes");
}

static void pdid(void)
{
    static const uint8_t p[13] = { 0xCA, 0xFE, 0x01, 2, 3, 0x78, 0x56, 0x34, 0x12, 4, 5, 6, 7 };
    expect(0x45, 12, 0);
    want.vendor[0] = 0xCA;
    want.vendor[1] = 0xFE;
    want.vendor[2] = 0x01;
    want.model = 2;
    want.version = 3;
    want.serial = 0x12345678;
    want.firmware_major = 4;
    want.firmware_minor = 5;
    want.firmware_build = 6;
    reads(p, 12, "PDID");
    refuses(0x45, p, 11, "PDID of 11 bytes");
    refuses(0x45, p, 13, "PDID of 13 bytes");
    refuses(0x45, NULL, 0, "PDID of no bytes");
}

static void pdcap(void)
{
    static const uint8_t p[6] = { 1, 2, 3, 4, 5, 0xFF };
    expect(0x46, 0, 3);
    reads(p, 3, "PDCAP of one triple");
    expect(0x46, 0, 6);
    reads(p, 6, "PDCAP of two triples");
    must(triple_is(p, 3, 0, true, 1, 2, 3) && triple_is(p, 3, 1, false, 0, 0, 0), "the triple of one");
    must(triple_is(p, 6, 0, true, 1, 2, 3) && triple_is(p, 6, 1, true, 4, 5, 0xFF), "the triples of two");
    must(triple_is(p, 6, 2, false, 0, 0, 0), "a triple after the last");
    /* where 3 times i is past 64 bits, and comes to 0 or 3 there */
    must(triple_is(p, 6, SIZE_MAX, false, 0, 0, 0) && triple_is(p, 6, SIZE_MAX / 3, false, 0, 0, 0), "a triple far out");
    must(triple_is(p, 6, SIZE_MAX / 3 + 1, false, 0, 0, 0), "a triple far out");
    must(triple_is(p, 4, 0, false, 0, 0, 0), "a triple of a PDCAP that is refused");
    refuses(0x46, NULL, 0, "PDCAP of no bytes");
    refuses(0x46, p, 1, "PDCAP of 1 byte");
    refuses(0x46, p, 2, "PDCAP of 2 bytes");
    refuses(0x46, p, 4, "PDCAP of 4 bytes");
    refuses(0x46, p, 5, "PDCAP of 5 bytes");
}

static void lstatr(void)
{
    static const uint8_t p[3] = { 1, 0xFE, 0 };
    expect(0x48, 2, 0);
    want.tamper = 1;
    want.power = 0xFE;
    reads(p, 2, "LSTATR");
    refuses(0x48, NULL, 0, "LSTATR of no bytes");
    refuses(0x48, p, 1, "LSTATR of 1 byte");
    refuses(0x48, p, 3, "LSTATR of 3 bytes");
}

static void expect_raw(uint8_t reader, uint8_t format, uint16_t bits, size_t rest_len)
{
    expect(0x50, 4, rest_len);
    want.reader = reader;
    want.format = format;
    want.bits = bits;
}
static void expect_badge(uint8_t reader, uint8_t format, uint16_t bits, size_t rest_len, uint64_t number)
{
    expect_raw(reader, format, bits, rest_len);
    want.has_number = true;
    want.number = number;
}
static void raw(void)
{
    /* 26 bits, 10001111 10100011 01000000 01: 37,653,761. The six spare ones are no part of it */
    static const uint8_t badge[9] = { 0, 1, 26, 0, 0x8F, 0xA3, 0x40, 0x40, 0 }, spare[8] = { 0, 1, 26, 0, 0x8F, 0xA3, 0x40, 0x7F };
    static const uint8_t none[5] = { 7, 0, 0, 0, 0 }, set[5] = { 2, 0, 1, 0, 0x80 }, clear[5] = { 2, 0, 1, 0, 0x7F };
    static const uint8_t high_first[8] = { 0, 1, 0, 26, 0x8F, 0xA3, 0x40, 0x40 };
    static const uint8_t b64[12] = { 3, 1, 64, 0, 0x81, 0x23, 0x45, 0x67, 0x89, 0xAB, 0xCD, 0xEF };
    static const uint8_t b63[12] = { 3, 1, 63, 0, 0x81, 0x23, 0x45, 0x67, 0x89, 0xAB, 0xCD, 0xEF };
    static const uint8_t b65[13] = { 3, 1, 65, 0, 0x81, 0x23, 0x45, 0x67, 0x89, 0xAB, 0xCD, 0xEF, 0x80 };
    uint8_t *const many = zeros;
    expect_badge(0, 1, 26, 4, 37653761);
    reads(badge, 8, "RAW of 26 bits");
    reads(spare, 8, "RAW of 26 bits, the spare ones set");
    refuses(0x50, badge, 7, "RAW of 26 bits, a byte fewer");
    refuses(0x50, badge, 9, "RAW of 26 bits, a byte more");
    refuses(0x50, high_first, 8, "RAW whose count has the high byte first");
    expect_raw(7, 0, 0, 0);
    reads(none, 4, "RAW of no bits");
    refuses(0x50, none, 5, "RAW of no bits, and a byte");
    expect_badge(2, 0, 1, 1, 1);
    reads(set, 5, "RAW of one bit, set");
    expect_badge(2, 0, 1, 1, 0);
    reads(clear, 5, "RAW of one bit, clear");
    expect_badge(3, 1, 64, 8, UINT64_C(0x8123456789ABCDEF));
    reads(b64, 12, "RAW of 64 bits");
    expect_badge(3, 1, 63, 8, UINT64_C(0x4091A2B3C4D5E6F7));
    reads(b63, 12, "RAW of 63 bits");
    expect_raw(3, 1, 65, 9);
    reads(b65, 13, "RAW of 65 bits, which has no number");
    refuses(0x50, b65, 12, "RAW of 65 bits, a byte fewer");
    many[2] = 0xFF;
    many[3] = 0xFF;
    expect_raw(0, 0, 65535, 8192);
    reads(many, 8196, "RAW of 65,535 bits");
    refuses(0x50, many, 8195, "RAW of 65,535 bits, a byte fewer");
    refuses(0x50, many, 8197, "RAW of 65,535 bits, a byte more");
    many[2] = 0;
    many[3] = 0;
    for (size_t n = 0; n < 4; n++) refuses(0x50, none, n, "RAW that is cut in its numbers");
}

static void keypad(void)
{
    static const uint8_t p[6] = { 2, 3, '1', '2', 0x0D, 0x0D }, empty[3] = { 9, 0, 0 };
    uint8_t *const many = zeros;
    expect(0x53, 2, 3);
    want.reader = 2;
    want.count = 3;
    reads(p, 5, "KEYPAD");
    refuses(0x53, p, 4, "KEYPAD, a digit too few");
    refuses(0x53, p, 6, "KEYPAD, a digit too many");
    expect(0x53, 2, 0);
    want.reader = 9;
    reads(empty, 2, "KEYPAD of no digits");
    refuses(0x53, empty, 3, "KEYPAD of no digits, and a byte");
    refuses(0x53, empty, 1, "KEYPAD of 1 byte");
    refuses(0x53, NULL, 0, "KEYPAD of no bytes");
    many[1] = 255;
    expect(0x53, 2, 255);
    want.count = 255;
    reads(many, 257, "KEYPAD of 255 digits");
    refuses(0x53, many, 256, "KEYPAD of 255 digits, one too few");
    refuses(0x53, many, 258, "KEYPAD of 255 digits, one too many");
    many[1] = 0;
}

/* zeros of every length: which of them the table has, kind by kind */
static void at_every_length(void)
{
    for (size_t n = 0; n < 300; n++) {
        must((malstrink_read_body(0x40, zeros, n).answer.refusal == 0) == (n == 0), "ACK at every length");
        must((malstrink_read_body(0x41, zeros, n).answer.refusal == 0) == (n >= 1), "NAK at every length");
        must((malstrink_read_body(0x45, zeros, n).answer.refusal == 0) == (n == 12), "PDID at every length");
        must((malstrink_read_body(0x46, zeros, n).answer.refusal == 0) == (n >= 3 && n % 3 == 0), "PDCAP at every length");
        must((malstrink_read_body(0x48, zeros, n).answer.refusal == 0) == (n == 2), "LSTATR at every length");
        must((malstrink_read_body(0x50, zeros, n).answer.refusal == 0) == (n == 4), "RAW at every length");
        must((malstrink_read_body(0x53, zeros, n).answer.refusal == 0) == (n == 2), "KEYPAD at every length");
    }
    expect(0x41, 1, sizeof zeros - 1);
    reads(zeros, sizeof zeros, "a NAK longer than any frame");
    expect(0x46, 0, 69999);
    reads(zeros, 69999, "a PDCAP longer than any frame");
    must(triple_is(zeros, 69999, 23332, true, 0, 0, 0) && triple_is(zeros, 69999, 23333, false, 0, 0, 0), "the last triple of many");
}

static void codes(void)
{
    static const uint8_t listed[7] = { MALSTRINK_BODY_ACK, MALSTRINK_BODY_NAK, MALSTRINK_BODY_PDID, MALSTRINK_BODY_PDCAP,
                                       MALSTRINK_BODY_LSTATR, MALSTRINK_BODY_RAW, MALSTRINK_BODY_KEYPAD };
    must(memcmp(listed, "\x40\x41\x45\x46\x48\x50\x53", 7) == 0, "the codes");
    must(malstrink_read_body(0x76, zeros, 32).answer.refusal == 19, "CCRYPT, which is the handshake's");
    must(malstrink_read_body(0x78, zeros, 16).answer.refusal == 19, "RMAC_I, which is the handshake's");
    must(malstrink_read_body(0x60, NULL, 0).answer.refusal == 19, "POLL, which is a command");
    for (unsigned code = 0; code < 256; code++)
        if (memchr(listed, (int)code, 7) == NULL)
            for (size_t n = 0; n < 40; n++) refuses((uint8_t)code, zeros, n, "a code that is not listed");
}

int main(void)
{
    ack_and_nak();
    pdid();
    pdcap();
    lstatr();
    raw();
    keypad();
    at_every_length();
    codes();
    printf("bodies: %d held\n", looked);
    return 0;
}
