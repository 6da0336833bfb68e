/* A meter, in C: the program meter_host holds it, and these calls talk with it over a socket.
 *
 * No call draws a random value, sends a frame or writes flash by itself. Once the answer to a call is whole and is one that this call can have,
 * meter_device is called for what is to be done: store for each record, in order; then send for each frame, in order; then joined, where the meter has
 * joined by this call; then up for a datagram. A frame is never given before each record of its call was stored, so no frame counter is used twice
 * after a loss of power. Where store fails, nothing is sent, the call answers METER_STORE_FAILED, and the meter takes no call more. The same where the
 * program ends or answers anything else (METER_GONE), does not answer in time (METER_LATE), and after METER_HALTED, METER_BAD_STORE and METER_MEMORY:
 * end the meter, and open another one over what was stored.
 *
 * One meter is used by one task at a time. A call waits for its answer, and a call from store, send, joined or up is METER_MALFORMED. A pointer goes with
 * the number of octets behind it, and may be NULL where that is 0. Signals of the owner end no call. No other program that the owner starts gets the
 * socket.
 */
#ifndef METER_H
#define METER_H
#include <stddef.h>
#include <stdint.h>
#include <sys/types.h>
#include "meter_codes.h"

#define METER_VERSION 1u

/* What the owner does. Of each only octets within the numbers above come, and slots and addresses that a meter has. */
struct meter_device {
    void *self;
    /* Answers 0 once the record is in flash, else -1. Where it fails, or power does, the slot has the old record or the new one, whole. A record may
     * have no octet. */
    int (*store)(void *self, uint32_t slot, const uint8_t *octets, size_t count);
    /* note: the number that came with the datagram of the frame, 0 for commands. */
    void (*send)(void *self, uint32_t note, const uint8_t *octets, size_t count);
    void (*up)(void *self, uint16_t from, uint32_t note, const uint8_t *octets, size_t count);
    /* The meter has joined, and this is its short address. NULL: it is not called. */
    void (*joined)(void *self, uint16_t address);
    /* For how many milliseconds a call waits for the program's whole answer, without what the functions above take. 0: METER_WAIT_MS; below 0: without
     * limit. */
    int wait_ms;
};

#define METER_WAIT_MS 10000

struct meter {
    struct meter_device device;
    pid_t program;
    int line;
    /* Whether store, send, joined or up is called now. */
    int is_doing;
    /* METER_DONE, or why the meter takes no call more. */
    int ended;
    /* After METER_REFUSED which refusal of the call it was (enum meter_refusal), 0 after any other status. */
    int refusal;
};

/* Starts the program of this path, and asks whether it speaks METER_VERSION: METER_GONE where there is none, or one of another kind. Then load each record
 * that is stored, from the lowest slot on, and open the meter: a record that leaves a gap in its table is METER_MALFORMED, and is not loaded. meter_end ends
 * the program at once, also one that hangs, and is called once after each meter_start, whatever that answered. */
int meter_start(struct meter *m, const char *program, struct meter_device device);
int meter_load(struct meter *m, uint32_t slot, const uint8_t *octets, size_t count);
int meter_open(struct meter *m, const uint8_t eui[8], const uint8_t psk[16]);
void meter_end(struct meter *m);

/* The grant of a workshop, with one group key, at index 0 or 1. */
int meter_provision(struct meter *m, uint16_t address, uint8_t index, const uint8_t key[16]);
/* now: seconds since a start, which never fall. cost: 1 to 255, of the link. */
int meter_near(struct meter *m, uint16_t neighbour, uint8_t cost, uint64_t now);
int meter_random(struct meter *m, const uint8_t value[16]);
int meter_join(struct meter *m, uint16_t agent, uint64_t now);
int meter_leave(struct meter *m);
/* Once a second: it ends what waits too long. It reports nothing. */
int meter_tick(struct meter *m, uint64_t now);
int meter_send(struct meter *m, uint16_t to, uint32_t note, uint64_t now, const uint8_t *octets, size_t count);
int meter_hear(struct meter *m, uint8_t cost, uint32_t note, uint64_t now, const uint8_t *frame, size_t count);
int meter_broke(struct meter *m, uint16_t neighbour);
#endif
