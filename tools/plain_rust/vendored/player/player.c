/* Plays vectors.bin by libmeter.a: opens, seals and reads frames; makes each call of meters and coordinators, and compares what they store, send and hand up,
 * and how the call ends, with what the proved programs did; then compares their stores. It needs no allocator, and the memory of one node at a time.
 *
 * Built in the folder of vectors.bin. Its parts are described in README.md; numbers have their highest octet first. */
#include "meter.h"
#include "frames.h"
#include "console.h"

#ifndef VECTORS
#define VECTORS "vectors.bin"
#endif
#ifndef RECORDS
#define RECORDS 64
#endif
#ifndef ROOM
#define ROOM 100000
#endif

extern const uint8_t vectors[], vectors_end[];
__asm__(".section .rodata\n.global vectors, vectors_end\nvectors:\n.incbin \"" VECTORS "\"\nvectors_end:\n.byte 0\n.text\n");

enum {
    OPEN = 0x02, GRANT, NEIGHBOUR, RANDOM, JOIN, LEAVE, TIME, SEND, FRAME, BROKE,
    OPEN_COORDINATOR = 0x20, ALLOW, DEPOT, REKEY, CHALLENGE, ACTIVATE, ACTIVATE_SELF, KICK,
    SEALED = 0x30, NODE, STARTS, STORED, LAST,
    ENDED = 0x80, RECORD, SENT, UP, JOINED, ALLOWED, GRANTED, GIVEN_OUT
};

struct item { uint8_t kind; size_t count; const uint8_t *octets; };

/* What is still to be played, and the node that is played now. */
static const uint8_t *at = vectors;
static const uint8_t *example;
static size_t example_count;
static unsigned frames, nodes, calls, call_of_node, wrong;
static int is_coordinator, differs;
static struct meter *meter;
static struct coordinator *coordinator;
static size_t stored;
static struct { uint32_t slot; size_t count; uint8_t octets[METER_RECORD_MAX]; } records[RECORDS];
static uint8_t memory[ROOM];

static uint64_t number(const uint8_t *octets, size_t count) {
    uint64_t value = 0;
    for (size_t i = 0; i < count; i++)
        value = value << 8 | octets[i];
    return value;
}

static size_t has_item(void) { return (size_t)(vectors_end - at) >= 3; }

/* The next item. Where it is not whole it is of kind 0, and nothing is left. */
static struct item next(void) {
    struct item it = {0, 0, vectors_end};
    size_t count = has_item() ? (size_t)number(at + 1, 2) : 0;
    if (!has_item() || (size_t)(vectors_end - at) - 3 < count) {
        at = vectors_end;
        return it;
    }
    it.kind = at[0], it.count = count, it.octets = at + 3;
    at = it.octets + count;
    return it;
}

static void says(const char *what) {
    char text[2] = {0};
    wrong++;
    print("wrong: ");
    for (size_t i = 0; i < example_count; i++)
        text[0] = (char)example[i], print(text);
    print(is_coordinator ? ", coordinator, call " : ", meter, call "), print_number(call_of_node), print(": "), print(what), print("\n");
}

/* Compares the next item of the answer with a kind, its first octets and the rest. After a difference nothing more of this answer is compared. */
static void expect(uint8_t kind, const uint8_t *head, size_t heads, const uint8_t *octets, size_t count) {
    const uint8_t *here = at;
    struct item it = next();
    if (differs)
        at = here;
    else if (it.kind != kind || it.count != heads + count || memcmp(it.octets, head, heads) != 0 || (count > 0 && memcmp(it.octets + heads, octets, count) != 0))
        differs = 1, at = here;
}

static void spell(uint8_t *octets, size_t count, uint64_t value) {
    while (count > 0)
        octets[--count] = (uint8_t)value, value >>= 8;
}

/* # The device of each node */

static int load(void *self, uint32_t slot, uint8_t *octets) {
    (void)self;
    for (size_t i = 0; i < stored; i++)
        if (records[i].slot == slot) {
            memcpy(octets, records[i].octets, records[i].count);
            return (int)records[i].count;
        }
    return -1;
}

static int store(void *self, uint32_t slot, const uint8_t *octets, size_t count) {
    uint8_t head[4];
    size_t i = 0;
    (void)self;
    while (i < stored && records[i].slot != slot)
        i++;
    if (i == RECORDS || count > METER_RECORD_MAX)
        return -1;
    stored += i == stored;
    records[i].slot = slot, records[i].count = count;
    memcpy(records[i].octets, octets, count);
    spell(head, 4, slot);
    if (!is_coordinator)
        expect(RECORD, head, 4, octets, count);
    return 0;
}

static void send_frame(void *self, uint32_t note, const uint8_t *octets, size_t count) {
    uint8_t head[4];
    (void)self;
    spell(head, 4, note);
    if (is_coordinator)
        expect(GIVEN_OUT, head, 0, octets, count);
    else
        expect(SENT, head, 4, octets, count);
}

static void up(void *self, uint16_t from, uint32_t note, const uint8_t *octets, size_t count) {
    uint8_t head[6];
    (void)self;
    spell(head, 2, from), spell(head + 2, 4, note);
    expect(UP, head, 6, octets, count);
}

static void joined(void *self, uint16_t address) {
    uint8_t head[2];
    (void)self;
    spell(head, 2, address);
    expect(JOINED, head, 2, NULL, 0);
}

static const struct meter_device device = {NULL, load, store, send_frame, up, joined, NULL};

/* # Calls */

static uint16_t address_in(const uint8_t *octets) { return (uint16_t)number(octets, 2); }
static uint32_t note_in(const uint8_t *octets) { return (uint32_t)number(octets, 4); }

static int call_meter(struct item it) {
    const uint8_t *o = it.octets;
    switch (it.kind) {
    case OPEN:
        meter = NULL;
        return meter_room() > sizeof memory ? METER_MEMORY : meter_open(&meter, memory, sizeof memory, &device, o, o + 8);
    case GRANT: return meter_provision(meter, address_in(o), o[2], o + 3);
    case NEIGHBOUR: return meter_near(meter, address_in(o), o[2], number(o + 3, 8));
    case RANDOM: return meter_random(meter, o);
    case JOIN: return meter_join(meter, address_in(o), number(o + 2, 8));
    case LEAVE: return meter_leave(meter);
    case TIME: return meter_tick(meter, number(o, 8));
    case SEND: return meter_send(meter, address_in(o), note_in(o + 2), number(o + 6, 8), o + 14, it.count - 14);
    case FRAME: return meter_hear(meter, o[0], note_in(o + 1), number(o + 5, 8), o + 13, it.count - 13);
    case BROKE: return meter_broke(meter, address_in(o));
    }
    return METER_MALFORMED;
}

static int call_coordinator(struct item it) {
    const uint8_t *o = it.octets;
    struct coordinator_grant grant;
    uint16_t address = 0;
    uint8_t head[3];
    int status = METER_MALFORMED;
    switch (it.kind) {
    case OPEN_COORDINATOR:
        coordinator = NULL;
        return coordinator_room() > sizeof memory ? METER_MEMORY : coordinator_open(&coordinator, memory, sizeof memory, &device, o, o + 8);
    case NEIGHBOUR: return coordinator_near(coordinator, address_in(o), o[2], number(o + 3, 8));
    case RANDOM: return coordinator_random(coordinator, o);
    case TIME: return coordinator_tick(coordinator, number(o, 8));
    case SEND: return coordinator_send(coordinator, address_in(o), note_in(o + 2), number(o + 6, 8), o + 14, it.count - 14);
    case FRAME: return coordinator_hear(coordinator, o[0], note_in(o + 1), number(o + 5, 8), o + 13, it.count - 13);
    case BROKE: return coordinator_broke(coordinator, address_in(o));
    case ALLOW:
        status = coordinator_allow(coordinator, o, o + 8, &address);
        spell(head, 2, address);
        if (status == METER_DONE)
            expect(ALLOWED, head, 2, NULL, 0);
        return status;
    case DEPOT:
        status = coordinator_depot(coordinator, o, o + 8, &grant);
        if (status == METER_DONE) {
            spell(head, 2, grant.address), head[2] = grant.index;
            expect(GRANTED, head, 3, grant.key, 16);
        }
        return status;
    case REKEY: return coordinator_rekey(coordinator, o[0], o + 1);
    case CHALLENGE: return coordinator_challenge(coordinator, o, number(o + 8, 8));
    case ACTIVATE: return coordinator_activate(coordinator, o, o[8], number(o + 9, 8));
    case ACTIVATE_SELF: return coordinator_activate_self(coordinator, o[0]);
    case KICK: return coordinator_kick(coordinator, o);
    }
    return status;
}

/* Makes a call, and compares its answer to its end. */
static void play(struct item it) {
    struct item answer;
    int status, refusal = 0;
    calls++, call_of_node++, differs = 0;
    status = is_coordinator ? call_coordinator(it) : call_meter(it);
    if (status == METER_REFUSED)
        refusal = is_coordinator ? coordinator->refusal : meter->refusal;
    do
        answer = next(), differs |= answer.kind != ENDED;
    while (answer.kind != ENDED && has_item());
    if (differs || answer.count < 2 || answer.octets[0] != status || answer.octets[1] != refusal)
        says("it answers otherwise");
}

/* Compares the whole store: so many records, and no others. */
static void compare_store(size_t count) {
    uint8_t octets[METER_RECORD_MAX];
    int same = count == stored;
    for (size_t i = 0; i < count; i++) {
        struct item it = next();
        int found = it.kind == RECORD && it.count >= 4 ? load(NULL, note_in(it.octets), octets) : -1;
        same &= found >= 0 && (size_t)found == it.count - 4 && memcmp(octets, it.octets + 4, it.count - 4) == 0;
    }
    if (!same)
        says("it has stored otherwise");
}

/* A frame: opened, read, sealed again, and refused where a bit has changed. */
static void play_frame(struct item it) {
    static uint8_t made[METER_FRAME_MAX], text[METER_FRAME_MAX];
    const uint8_t *key = it.octets, *payload = it.octets + 18;
    size_t payloads = (size_t)number(it.octets + 16, 2), count = it.count - 18 - payloads, written = 0;
    const uint8_t *frame = payload + payloads;
    struct frames_head head;
    uint32_t place = 0;
    int same = frames_open(key, 16, frame, count, text, sizeof text, &written) == FRAMES_OK && written == payloads && memcmp(text, payload, payloads) == 0;
    frames++;
    same = same && frames_read(frame, count, &head, &place) == FRAMES_OK
        && frames_seal(key, 16, &head, payload, payloads, made, sizeof made, &written) == FRAMES_OK && written == count && memcmp(made, frame, count) == 0;
    made[count - 1] ^= 1;
    same = same && frames_open(key, 16, made, count, text, sizeof text, &written) == FRAMES_TAG && written == 0;
    if (!same)
        says("a frame is another one");
}

int main(void) {
    int is_whole = 0;
    while (has_item()) {
        struct item it = next();
        switch (it.kind) {
        case SEALED: play_frame(it); break;
        case NODE:
            nodes++, call_of_node = 0, stored = 0;
            is_coordinator = it.octets[0], example = it.octets + 1, example_count = it.count - 1;
            break;
        case STARTS: break;
        case STORED: compare_store((size_t)number(it.octets, 2)); break;
        case LAST:
            is_whole = number(it.octets, 2) == frames && number(it.octets + 2, 2) == nodes && number(it.octets + 4, 4) == calls && at == vectors_end;
            break;
        case 0: break;
        default: play(it);
        }
    }
    if (!is_whole)
        wrong++, print("wrong: the vectors are not whole\n");
    print("player: "), print_number(frames), print(" frames, "), print_number(calls), print(" calls of "), print_number(nodes), print(" nodes, ");
    print_number(wrong), print(" wrong\n");
    return wrong != 0;
}
