// Reads a PDU and a telegram over the C interface of the codecs, and tries changes of them drawn from a seed: what is read is
// written as the same bytes. A tenth as many changes of a layout's text are read, too. usage: codec LAYOUT [CHANGES [SEED]]
#include "zendurai_codecs.h"

#include <stdio.h>
#include <stdlib.h>
#include <string.h>

static const struct zendurai_key key = {0x67452301, 0xefcdab89, 0x98badcfe, 0x10325476};

// The telegram by which IXL1 has S1 show proceed.
static const uint8_t proceed[61] = "\x30\x01\x00IXL1________________S1__________________\x04"
                                   "\xff\xff\xff\xff\xff\xff\xff\xff\xff\xff\xff\xff\xff\xff\xff\xff\xff";

static void expect(int holds, const char *what) {
    if (!holds) {
        fprintf(stderr, "codec: %s\n", what);
        exit(1);
    }
}

static uint64_t state;

// The numbers of SplitMix64.
static uint64_t drawn(void) {
    uint64_t z = (state += 0x9e3779b97f4a7c15u);
    z = (z ^ (z >> 30)) * 0xbf58476d1ce4e5b9u;
    z = (z ^ (z >> 27)) * 0x94d049bb133111ebu;
    return z ^ (z >> 31);
}

static size_t below(size_t limit) { return limit ? drawn() % limit : 0; }

static uint8_t likely_byte(void) {
    switch (below(4)) {
    case 0: return below(8);
    case 1: return 'A' + below(26);
    case 2: return '_';
    default: return drawn();
    }
}

// Changes up to three bytes, and sometimes how many there are; answers how many there are then.
static size_t changed(uint8_t *bytes, size_t length, size_t room) {
    for (size_t changes = 1 + below(3); changes && length; changes--) bytes[below(length)] = likely_byte();
    size_t kind = below(6);
    if (kind == 0) return below(length);
    if (kind == 1)
        for (size_t more = below(70); more && length < room; more--) bytes[length++] = likely_byte();
    return length;
}

// MD4 of fewer than 2^16 bytes from the key (RFC 1320), by itself, so that codes can be given anew.
static uint32_t turned(uint32_t x, int by) { return x << by | x >> (32 - by); }

static void after_block(uint32_t r[4], const uint8_t *block) {
    static const int order[48] = {0, 1, 2, 3, 4, 5, 6, 7, 8, 9, 10, 11, 12, 13, 14, 15, 0, 4, 8, 12, 1, 5, 9, 13, 2, 6, 10, 14, 3, 7, 11, 15,
                                  0, 8, 4, 12, 2, 10, 6, 14, 1, 9, 5, 13, 3, 11, 7, 15};
    static const int shift[12] = {3, 7, 11, 19, 3, 5, 9, 13, 3, 9, 11, 15};
    uint32_t x[16], a = r[0], b = r[1], c = r[2], d = r[3];
    for (int i = 0; i < 16; i++)
        x[i] = block[4 * i] | block[4 * i + 1] << 8 | block[4 * i + 2] << 16 | (uint32_t)block[4 * i + 3] << 24;
    for (int i = 0; i < 48; i++) {
        uint32_t f = i < 16 ? (b & c) | (~b & d) : i < 32 ? ((b & c) | (b & d) | (c & d)) + 0x5a827999 : (b ^ c ^ d) + 0x6ed9eba1;
        uint32_t next = turned(a + f + x[order[i]], shift[i / 16 * 4 + i % 4]);
        a = d, d = c, c = b, b = next;
    }
    r[0] += a, r[1] += b, r[2] += c, r[3] += d;
}

static void put_code(uint8_t *code, const uint8_t *text, size_t length) {
    uint8_t padded[512] = {0};
    uint32_t r[4] = {key.a, key.b, key.c, key.d};
    size_t whole = (length + 9 + 63) / 64 * 64;
    memcpy(padded, text, length);
    padded[length] = 0x80;
    for (int i = 0; i < 4; i++) padded[whole - 8 + i] = (uint64_t)length * 8 >> 8 * i;
    for (size_t at = 0; at < whole; at += 64) after_block(r, padded + at);
    for (int i = 0; i < 8; i++) code[i] = r[i / 4] >> 8 * (i % 4);
}

static void try_telegram(const uint8_t *bytes, size_t length, long counts[7]) {
    struct zendurai_telegram telegram;
    uint8_t again[61];
    uint32_t fault = zendurai_telegram_read(bytes, length, &telegram);
    expect(fault <= 6, "a telegram has another fault");
    counts[fault]++;
    if (fault) return;
    size_t wrote = zendurai_telegram_write(telegram.protocol, telegram.type, bytes + 3, telegram.sender_length, bytes + 23,
                                           telegram.receiver_length, bytes + 43, length - 43, again, sizeof again);
    expect(wrote == length && !memcmp(bytes, again, length), "a telegram is written otherwise than it came");
}

static void try_pdu(const uint8_t *bytes, size_t length, long counts[7]) {
    struct zendurai_pdu pdu;
    uint8_t again[225];
    uint32_t fault = zendurai_pdu_read(&key, bytes, length, &pdu);
    expect(fault <= 6, "a PDU has another fault");
    counts[fault]++;
    if (fault) return;
    size_t wrote = zendurai_pdu_write(&key, &pdu, bytes + 28, length - 36, again, sizeof again);
    expect(wrote == length && !memcmp(bytes, again, length), "a PDU is written otherwise than it came");
}

// A PDU of a type that its receiver would take; answers its length.
static size_t sample(uint8_t *out, size_t room) {
    static const uint16_t types[] = {6200, 6201, 6212, 6213, 6216, 6220, 6240, 6241};
    static const size_t lengths[] = {14, 14, 0, 0, 4, 0};
    uint8_t payload[189] = {'0', '3', '0', '3', 20};
    size_t kind = below(8), length = 0;
    struct zendurai_pdu pdu = {types[kind], 2, 1, drawn(), drawn(), drawn(), drawn()};
    if (kind < 6) {
        length = lengths[kind];
    } else {
        for (size_t items = 1 + below(3); items; items--) {
            payload[length] = below(2) ? 61 : 1 + below(61);
            payload[length + 1] = 0;
            memcpy(payload + length + 2, proceed, payload[length]);
            length += 2 + payload[length];
        }
    }
    return zendurai_pdu_write(&key, &pdu, payload, length, out, room);
}

// Changes a text in two places at most: some bytes are left out, and a word, or some bytes of the text, stand in their place.
static size_t changed_text(const char *text, size_t length, uint8_t *out) {
    static const char *words[] = {"\"", "[", "]", "{", "}", ",", "=", "\n", "GA", "G1", "S1", "P1", "E1", "R1", ".a", ".tip", ".left", "\"left\"",
                                  "\"right\"", "10", "4294967296", "0", "-1", "signal", "[[route]]\n", "approach=[]", "extra=[\"R1\"]",
                                  "flank={P1=\"left\"}", "aspect=\"slow\""};
    memcpy(out, text, length);
    for (size_t changes = 1 + below(2); changes; changes--) {
        size_t at = below(length), from = below(length), most = length - at < 12 ? length - at : 12;
        size_t gone = below(most), more = below(length - from < 80 ? length - from : 80);
        uint8_t piece[80];
        if (below(8)) {
            const char *word = words[below(sizeof words / sizeof *words)];
            more = below(4) ? strlen(word) : 0;
            memcpy(piece, word, more);
        } else {
            memcpy(piece, out + from, more);
            if (more && below(4) == 0) piece[below(more)] = drawn();
        }
        memmove(out + at + more, out + at + gone, length - at - gone);
        memcpy(out + at, piece, more);
        length += more - gone;
    }
    return length;
}

static void try_layouts(const char *text, size_t length, long changes) {
    long counts[10] = {0};
    uint8_t *out = malloc(length + 256);
    expect(out && zendurai_layout_read((const uint8_t *)text, length) == 0, "the text is a layout");
    for (; changes > 0; changes--) {
        uint32_t fault = zendurai_layout_read(out, changed_text(text, length, out));
        expect(fault <= 9 && fault != 8, "a layout has another fault");
        counts[fault]++;
    }
    free(out);
    printf("layouts: %ld read, faults 1 to 7:", counts[0]);
    for (int fault = 1; fault <= 7; fault++) printf(" %ld", counts[fault]);
    printf(", %ld no UTF-8\n", counts[9]);
}

static void show(const char *what, const long counts[7]) {
    printf("%s: %ld read and written, faults 1 to 6:", what, counts[0]);
    for (int fault = 1; fault <= 6; fault++) printf(" %ld", counts[fault]);
    printf("\n");
}

int main(int count, char **words) {
    static char text[1 << 16];
    FILE *file = count > 1 ? fopen(words[1], "rb") : NULL;
    expect(file != NULL, "usage: codec LAYOUT [CHANGES [SEED]]");
    size_t text_length = fread(text, 1, sizeof text, file);
    fclose(file);
    long changes = count > 2 ? atol(words[2]) : 1000000;
    state = count > 3 ? strtoull(words[3], NULL, 10) : 1;
    struct zendurai_pdu pdu = {6240, 2, 1, 7, 5, 10000, 9900}, seen;
    struct zendurai_telegram telegram;
    uint8_t payload[63] = {61, 0}, bytes[512];
    memcpy(payload + 2, proceed, 61);
    size_t length = zendurai_pdu_write(&key, &pdu, payload, 63, bytes, sizeof bytes);
    expect(length == 99 && !memcmp(bytes, "\x63\x00\x60\x18", 4), "a PDU with a telegram has 99 bytes");
    expect(zendurai_pdu_read(&key, bytes, length, &seen) == 0 && seen.sequence_number == 7, "it is read");
    expect(zendurai_telegram_read(bytes + 30, 61, &telegram) == 0 && telegram.sender_length == 4, "and so is its telegram");
    printf("PDU %u from %u to %u: %.*s to %.*s, %s\n", (unsigned)seen.type, (unsigned)seen.sender, (unsigned)seen.receiver,
           telegram.sender_length, (char *)bytes + 33, telegram.receiver_length, (char *)bytes + 53, bytes[73] == 4 ? "proceed" : "stop");
    long pdus[7] = {0}, telegrams[7] = {0};
    for (long change = 0; change < changes; change++) {
        length = sample(bytes, sizeof bytes);
        expect(length >= 36, "a PDU is written");
        length = changed(bytes, length - 8, 300);
        if (below(20) && length > 1) bytes[0] = length + 8, bytes[1] = (length + 8) >> 8;
        put_code(bytes + length, bytes, length);
        try_pdu(bytes, length + 8, pdus);
        memcpy(bytes, proceed, 61);
        try_telegram(bytes, changed(bytes, 61, 300), telegrams);
    }
    show("PDUs", pdus);
    show("telegrams", telegrams);
    try_layouts(text, text_length, changes / 10);
    return 0;
}
