/* MAC frames of IEEE 802.15.4-2006 in three forms (docs/FORMATS.md), sealed with CCM*: the calls of libframes_c.a, which the crate frames_c makes.
 *
 * Each call stands alone: it keeps nothing, takes no memory and may be called from any thread. It returns FRAMES_OK, or why it
 * did nothing. A refused call changes none of its buffers; a call writes no octet of a buffer beyond the length that it gives.
 *
 * Each pointer goes with the number of octets behind it. It is never null, also where that number is 0, and no buffer that a call writes overlaps
 * another of its arguments. Nothing checks this: it is the C side's part of what is proved.
 */
#ifndef FRAMES_H
#define FRAMES_H

#include <stddef.h>
#include <stdint.h>

#ifdef __cplusplus
extern "C" {
#endif

enum {
    FRAMES_OK = 0,
    /* frames_seal and frames_open: the first reason in the order in which each of them names its reasons. */
    FRAMES_KEY = 1,        /* the key does not have 16 octets */
    FRAMES_HEAD = 2,       /* the head is not one of a sealed frame, or a field of it is beyond its range */
    FRAMES_PAYLOAD = 3,    /* the payload has more than 381 octets */
    FRAMES_ROOM = 4,       /* the buffer is shorter than what would be written */
    FRAMES_NOT_SEALED = 5, /* the octets are no sealed frame: frames_read says why */
    FRAMES_TAG = 6,        /* the tag is not that of the key, the header and the payload */
    /* frames_read: what is wrong first from the left. */
    FRAMES_SHORT = 16,     /* the octets end inside the header, or before a whole tag */
    FRAMES_KIND = 17,      /* another type, version or bit of the frame control */
    FRAMES_MODE = 18,      /* addressing modes that are not taken */
    FRAMES_LEVEL = 19,     /* another security level or key index */
    FRAMES_LONG = 20,      /* more than 400 octets */
    FRAMES_ADDRESS = 21    /* an address of no node */
};

enum { FRAMES_SEALED = 0, FRAMES_UP = 1, FRAMES_DOWN = 2 };

/* The head of a frame. A field that a kind does not have is 0, but for the version of a sealed frame, which is 1. */
struct frames_head {
    uint64_t device;  /* kinds 1 and 2: the EUI-64 of the device without a short address, the first octet of its text highest */
    uint32_t counter; /* kind 0: the frame counter */
    uint16_t pan;     /* the identifier of the network */
    uint16_t to;      /* kinds 0 and 1: the target's short address, 0xFFFF for all and never 0xFFFE */
    uint16_t from;    /* kinds 0 and 2: the sender's short address, at most 0xFFFD */
    uint8_t kind;     /* FRAMES_SEALED, FRAMES_UP (plain, from the device) or FRAMES_DOWN (plain, to the device) */
    uint8_t version;  /* the frame version: 1 in kind 0, 0 or 1 in the others */
    uint8_t ack;      /* whether an acknowledgement is asked for: 0 or 1 */
    uint8_t seq;      /* the sequence number */
    uint8_t index;    /* kind 0: the key index, 0 or 1 */
};

/* Seals a payload of at most 381 octets under a key of 16: the frame is 19 octets longer. FRAMES_KEY, FRAMES_HEAD, FRAMES_PAYLOAD, FRAMES_ROOM;
 * *written is then 0. A frame counter may serve once for a sender under a key, over all restarts: a second use gives the payloads away. */
uint32_t frames_seal(const uint8_t *key, size_t key_length, const struct frames_head *head, const uint8_t *payload, size_t payload_length,
                     uint8_t *out, size_t room, size_t *written);

/* Opens a sealed frame under a key of 16 octets: its payload is 19 octets shorter. FRAMES_KEY, FRAMES_NOT_SEALED, FRAMES_ROOM, FRAMES_TAG; *written is
 * then 0. Whether the counter is fresh is for the caller to judge, after FRAMES_OK. */
uint32_t frames_open(const uint8_t *key, size_t key_length, const uint8_t *frame, size_t frame_length, uint8_t *payload, size_t room,
                     size_t *written);

/* Reads the head of a frame of any kind: its header has 15 octets, and the body follows. Else *head is as it was, and *place says at which octet, from
 * 0, something is wrong. *place is 0 after FRAMES_OK. */
uint32_t frames_read(const uint8_t *frame, size_t frame_length, struct frames_head *head, uint32_t *place);

#ifdef __cplusplus
}
#endif

#endif
