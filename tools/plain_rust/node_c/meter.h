/* A meter and a coordinator, in C: the calls of libmeter.a, which tools/plain_rust/node_c makes of the export to plain Rust. The node is the proved source as
 * plain Rust; what rustc makes of it, and this border, are tested.
 *
 * A node reads no clock, draws no random value, drives no modem, and takes no memory but what its opening is given. Within a call it reads records by load
 * and stores by store; where all of them were stored it gives frames to send, in order; then it calls joined, where the meter has joined by this call;
 * then up for a datagram. So no frame leaves before its records are stored.
 *
 * Where store fails, nothing is sent or handed up, the call answers METER_STORE_FAILED, and the node takes no call more: open the store again, which
 * settles whether the old record or the new one counts, and call meter_restart.
 *
 * One node is used by one task at a time, and one is opened at a time (else METER_MALFORMED); an interrupt calls nothing. A call from a callback is
 * METER_MALFORMED. A pointer goes with the number of octets behind it, and may be NULL where that is 0. Another NULL is METER_MALFORMED. */
#ifndef METER_H
#define METER_H
#include <stddef.h>
#include <stdint.h>
#include "meter_codes.h"

#ifdef __cplusplus
extern "C" {
#endif

struct meter_device {
    void *self;
    /* Reads a record into 64 octets, and answers how many it has, or -1 where the slot has none. */
    int (*load)(void *self, uint32_t slot, uint8_t *octets);
    /* Answers 0 once the record is stored, else -1. Where it fails, or power does, the slot has the old record or the new one, whole. Slots: 166 of a meter,
     * 1,165 of a coordinator (docs/FORMATS.md, "Store"). A record may have no octet. */
    int (*store)(void *self, uint32_t slot, const uint8_t *octets, size_t count);
    /* At most METER_FRAMES_MAX frames a call, each of at most METER_FRAME_MAX octets: copy them. note: the number that came with the datagram of the
     * frame, 0 for commands. */
    void (*send)(void *self, uint32_t note, const uint8_t *octets, size_t count);
    void (*up)(void *self, uint16_t from, uint32_t note, const uint8_t *octets, size_t count);
    /* The meter has joined, and this is its short address. NULL: it is not called. */
    void (*joined)(void *self, uint16_t address);
    /* Writes 16 octets of a generator that is fit for keys, never given before, and answers 0; else -1. It is called after an opening and a restart, and
     * wherever a value was used. NULL: give them by meter_random and coordinator_random, one before each joining and one after METER_HEARD_REPLIED,
     * METER_HEARD_CHALLENGED and coordinator_challenge. */
    int (*random)(void *self, uint8_t *octets);
};

/* What was heard, after METER_DONE of meter_hear and coordinator_hear. */
enum meter_heard {
    METER_HEARD_UP = 1,            /* a datagram was handed up */
    METER_HEARD_HELD = 2,          /* a piece is kept until the others come */
    METER_HEARD_RELAYED = 3, METER_HEARD_ANSWERED = 4, METER_HEARD_LEARNED = 5, METER_HEARD_BROKEN = 6, METER_HEARD_REPORTED = 7,
    METER_HEARD_COMMAND = 8,       /* a command that no call here reads */
    METER_HEARD_CARRIED = 9,       /* a neighbour's joining goes on */
    METER_HEARD_REPLIED = 10,      /* message 1 of a joining came */
    METER_HEARD_TOOK = 11,         /* address and keys are stored: it may send */
    METER_HEARD_NOTED = 12,
    METER_HEARD_DECLINED = 13,     /* the coordinator does not allow the meter: tell the operator */
    METER_HEARD_LEFT = 14,         /* it was kicked, and has no address and keys any more: purge the flash */
    METER_HEARD_ACTIVATED = 15,    /* another key seals from now on */
    METER_HEARD_CHALLENGED = 16, METER_HEARD_KEYED = 17, METER_HEARD_DONE = 18
};

/* Of coordinator_allow, _depot, _challenge, _rekey, _activate, _activate_self and _kick, after METER_REFUSED. */
enum coordinator_refusal {
    COORDINATOR_HALTED = 1, COORDINATOR_METERS_FULL = 2, COORDINATOR_NOT_ALLOWED = 3, COORDINATOR_INDEX_ACTIVE = 4, COORDINATOR_NOT_HELD = 5,
    COORDINATOR_NOT_ISSUED = 6, COORDINATOR_SESSIONS_FULL = 7, COORDINATOR_NO_RANDOM = 8, COORDINATOR_WAITING_FULL = 9, COORDINATOR_SEQ_SPENT = 10,
    COORDINATOR_COUNTER_SPENT = 11, COORDINATOR_STORE = 12
};

/* What may be looked at of a node between two calls: METER_DONE or why it takes no call more; after METER_REFUSED which refusal of the call it was; after
 * METER_DONE of a frame what was heard. Else refusal and heard are 0. */
struct meter { int ended, refusal, heard, is_doing; };
struct coordinator { int ended, refusal, heard, is_doing; };

/* Yours: what a stop does (a call that its contract does not allow, or a slip of the library). It resets the board or ends the program, and never returns. */
void meter_stop(const uint8_t *why, size_t count);

/* How many octets of memory a node takes, wherever they begin. The memory is the node's from its opening on, and the caller's again where that was refused. */
size_t meter_room(void);
size_t coordinator_room(void);

/* At each start: a meter over what is stored, in memory of meter_room() octets: METER_BAD_STORE, METER_MEMORY, METER_MALFORMED, and *m is NULL then. The device
 * is copied. There is no call for the end of a node. A coordinator writes its key and its address when it is opened first: METER_STORE_FAILED. */
int meter_open(struct meter **m, void *memory, size_t size, const struct meter_device *device, const uint8_t eui[8], const uint8_t psk[16]);
int coordinator_open(struct coordinator **c, void *memory, size_t size, const struct meter_device *device, const uint8_t eui[8], const uint8_t key[16]);

/* Goes on over the store, which was opened again: METER_BAD_STORE. Routes, what waited, and random values are forgotten. */
int meter_restart(struct meter *m);
int coordinator_restart(struct coordinator *c);

/* The grant of a workshop, with one group key, at index 0 or 1. */
int meter_provision(struct meter *m, uint16_t address, uint8_t index, const uint8_t key[16]);
int meter_join(struct meter *m, uint16_t agent, uint64_t now);
int meter_leave(struct meter *m);

/* now: seconds since a start, which never fall. cost: 1 to 255, of the link. */
int meter_near(struct meter *m, uint16_t neighbour, uint8_t cost, uint64_t now);
int meter_random(struct meter *m, const uint8_t value[16]);
/* It ends what waits too long: at the time of meter_next_end, or once a second. */
int meter_tick(struct meter *m, uint64_t now);
/* 1, and the first time at which a tick ends something; or 0, and *time is as it was. */
int meter_next_end(struct meter *m, uint64_t *time);
/* How many datagrams a tick at this time gives up, since they waited for a route for 30 seconds: 0 to 8, and the notes that they were sent with. */
int meter_expiring(struct meter *m, uint64_t now, uint32_t notes[8]);
/* 1 to 1,280 octets. Done: it was sent, or waits for a route for 30 seconds at most. */
int meter_send(struct meter *m, uint16_t to, uint32_t note, uint64_t now, const uint8_t *octets, size_t count);
int meter_hear(struct meter *m, uint8_t cost, uint32_t note, uint64_t now, const uint8_t *frame, size_t count);
int meter_broke(struct meter *m, uint16_t neighbour);
/* 0xFFFF where it has none. */
uint16_t meter_address(struct meter *m);

int coordinator_near(struct coordinator *c, uint16_t neighbour, uint8_t cost, uint64_t now);
int coordinator_random(struct coordinator *c, const uint8_t value[16]);
int coordinator_tick(struct coordinator *c, uint64_t now);
int coordinator_next_end(struct coordinator *c, uint64_t *time);
int coordinator_expiring(struct coordinator *c, uint64_t now, uint32_t notes[8]);
int coordinator_send(struct coordinator *c, uint16_t to, uint32_t note, uint64_t now, const uint8_t *octets, size_t count);
int coordinator_hear(struct coordinator *c, uint8_t cost, uint32_t note, uint64_t now, const uint8_t *frame, size_t count);
int coordinator_broke(struct coordinator *c, uint16_t neighbour);
uint16_t coordinator_address(struct coordinator *c);

/* What coordinator_depot gives: the arguments of meter_provision. */
struct coordinator_grant { uint16_t address; uint8_t index; uint8_t key[16]; };

/* Lets a meter join, and says which address it gets; or gives the grant of a workshop. The book has 999 meters. */
int coordinator_allow(struct coordinator *c, const uint8_t eui[8], const uint8_t psk[16], uint16_t *address);
int coordinator_depot(struct coordinator *c, const uint8_t eui[8], const uint8_t psk[16], struct coordinator_grant *grant);
/* A change of the group key, in this order (docs/OPERATING.md): the key at the index that does not seal; challenge for each meter; activate for each meter;
 * then the coordinator itself. */
int coordinator_rekey(struct coordinator *c, uint8_t index, const uint8_t key[16]);
int coordinator_challenge(struct coordinator *c, const uint8_t eui[8], uint64_t now);
int coordinator_activate(struct coordinator *c, const uint8_t eui[8], uint8_t index, uint64_t now);
int coordinator_activate_self(struct coordinator *c, uint8_t index);
int coordinator_kick(struct coordinator *c, const uint8_t eui[8]);

#ifdef __cplusplus
}
#endif
#endif
