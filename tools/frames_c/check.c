/* Calls libframes_c.a as a C program does. The sealed frame is the first one of examples/two_meters, the plain ones are those of rows/commands.rows. */
#include "frames.h"

#include <stdbool.h>
#include <stdio.h>
#include <string.h>

static int checks, wrong;

static void check(bool holds, const char *what) {
    checks++;
    if (!holds) {
        wrong++;
        printf("wrong: %s\n", what);
    }
}

static size_t from_hex(const char *text, uint8_t *octets) {
    size_t n = strlen(text) / 2;
    for (size_t i = 0; i < n; i++) {
        unsigned octet;
        sscanf(text + 2 * i, "%2x", &octet);
        octets[i] = (uint8_t)octet;
    }
    return n;
}

static bool is_filled(const uint8_t *octets, size_t n) {
    for (size_t i = 0; i < n; i++) {
        if (octets[i] != 0xA5) {
            return false;
        }
    }
    return true;
}

static const struct frames_head sealed_head = {.pan = 0x781D, .to = 2, .from = 1, .kind = FRAMES_SEALED, .version = 1, .ack = 1};

static void seals_and_opens(const uint8_t *key) {
    uint8_t want[400], payload[381], out[400], text[400];
    size_t n = from_hex("6998001d78020001000d0000000000e8c6be3fa01dc6a252e03de38f4258", want);
    size_t m = from_hex("be000100024148656c6c6f", payload);
    size_t written = 7;
    memset(out, 0xA5, sizeof out);
    check(frames_seal(key, 16, &sealed_head, payload, m, out, sizeof out, &written) == FRAMES_OK, "seals");
    check(written == n && memcmp(out, want, n) == 0, "the frame of the example");
    check(is_filled(out + n, sizeof out - n), "nothing is written behind the frame");
    check(frames_seal(key, 16, &sealed_head, payload, m, out, n, &written) == FRAMES_OK && written == n, "a buffer of just the frame's length");
    memset(text, 0xA5, sizeof text);
    check(frames_open(key, 16, want, n, text, sizeof text, &written) == FRAMES_OK, "opens");
    check(written == m && memcmp(text, payload, m) == 0, "the payload of the example");
    check(is_filled(text + m, sizeof text - m), "nothing is written behind the payload");
    check(frames_open(key, 16, want, n, text, m, &written) == FRAMES_OK && written == m, "a buffer of just the payload's length");
}

static void refuses_to_seal(const uint8_t *key) {
    uint8_t payload[382] = {0}, out[401];
    struct frames_head head = sealed_head;
    size_t written = 7;
    memset(out, 0xA5, sizeof out);
    check(frames_seal(key, 15, &head, payload, 3, out, sizeof out, &written) == FRAMES_KEY && written == 0, "a key of 15 octets");
    check(frames_seal(key, 16, &head, payload, 382, out, sizeof out, &written) == FRAMES_PAYLOAD, "a payload of 382 octets");
    check(frames_seal(key, 16, &head, payload, 3, out, 21, &written) == FRAMES_ROOM, "a buffer that is an octet short");
    head.to = 0xFFFE;
    check(frames_seal(key, 16, &head, payload, 3, out, sizeof out, &written) == FRAMES_HEAD, "the target FFFE");
    head.to = 0xFFFF;
    head.from = 0xFFFE;
    check(frames_seal(key, 16, &head, payload, 3, out, sizeof out, &written) == FRAMES_HEAD, "the sender FFFE");
    head.from = 1;
    head.index = 2;
    check(frames_seal(key, 16, &head, payload, 3, out, sizeof out, &written) == FRAMES_HEAD, "the key index 2");
    head.index = 1;
    head.kind = FRAMES_UP;
    check(frames_seal(key, 16, &head, payload, 3, out, sizeof out, &written) == FRAMES_HEAD, "a plain kind");
    check(is_filled(out, sizeof out), "refused calls write nothing");
    head.kind = FRAMES_SEALED;
    check(frames_seal(key, 16, &head, payload, 381, out, sizeof out, &written) == FRAMES_OK && written == 400, "the longest payload");
    check(is_filled(out + 400, 1), "nothing is written behind the longest frame");
}

static void refuses_to_open(const uint8_t *key) {
    uint8_t frame[400], text[400];
    size_t n = from_hex("6998001d78020001000d0000000000e8c6be3fa01dc6a252e03de38f4258", frame);
    size_t written = 7;
    memset(text, 0xA5, sizeof text);
    check(frames_open(key, 17, frame, n, text, sizeof text, &written) == FRAMES_KEY && written == 0, "a key of 17 octets");
    check(frames_open(key, 16, frame, n, text, 10, &written) == FRAMES_ROOM, "a buffer that is an octet short");
    check(frames_open(key, 16, frame, 18, text, sizeof text, &written) == FRAMES_NOT_SEALED, "a frame that is cut off");
    for (size_t i = 10; i < n; i++) {
        frame[i] ^= 1;
        uint32_t answer = frames_open(key, 16, frame, n, text, sizeof text, &written);
        /* Octet 14 is the key index, which the header's octets and so the tag have too. */
        check(answer == FRAMES_TAG && written == 0, "an octet is another one");
        frame[i] ^= 1;
    }
    check(is_filled(text, sizeof text), "refused calls write nothing");
}

static void reads(void) {
    uint8_t frame[400];
    struct frames_head head = {.counter = 9}, was = head;
    uint32_t place = 7;
    size_t n = from_hex("6998001d78020001000d0000000000e8c6be3fa01dc6a252e03de38f4258", frame);
    check(frames_read(frame, 14, &head, &place) == FRAMES_SHORT && place == 14, "cut off inside the header");
    check(memcmp(&head, &was, sizeof head) == 0, "the head stays");
    check(frames_read(frame, n, &head, &place) == FRAMES_OK && place == 0, "a sealed frame");
    check(head.device == 0 && head.counter == 0 && head.pan == 0x781D && head.to == 2 && head.from == 1, "its addresses");
    check(head.kind == FRAMES_SEALED && head.version == 1 && head.ack == 1 && head.seq == 0 && head.index == 0, "its other fields");
    frame[9] = 0x0E;
    check(frames_read(frame, n, &head, &place) == FRAMES_LEVEL && place == 9, "another security level");
    n = from_hex("61d8001d78000008070605040302014002010102030405060708", frame);
    check(frames_read(frame, n, &head, &place) == FRAMES_OK, "a plain frame from a device");
    check(head.device == 0x0102030405060708 && head.to == 0 && head.from == 0, "its addresses");
    check(head.kind == FRAMES_UP && head.version == 1 && head.ack == 1 && head.counter == 0 && head.index == 0, "its other fields");
    n = from_hex("619c071d780807060504030201010040", frame);
    check(frames_read(frame, n, &head, &place) == FRAMES_OK, "a plain frame to a device");
    check(head.device == 0x0102030405060708 && head.to == 0 && head.from == 1 && head.kind == FRAMES_DOWN && head.seq == 7, "its fields");
    check(frames_read(frame, 0, &head, &place) == FRAMES_SHORT && place == 0, "no octets");
}

int main(void) {
    uint8_t key[16];
    for (uint8_t i = 0; i < 16; i++) {
        key[i] = i;
    }
    seals_and_opens(key);
    refuses_to_seal(key);
    refuses_to_open(key);
    reads();
    printf("frames_c: %d checks, %d wrong\n", checks, wrong);
    return wrong != 0;
}
