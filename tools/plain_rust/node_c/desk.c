/* A coordinator and two meters in C, on a desk: what libmeter.a does on this target, with each code of meter.h that can be brought about here. The frames of the
 * first part are those of examples/joining_over_the_air, which it prints; of the second that of examples/two_meters. It prints how many checks were made.
 *
 * On a host it is an ordinary program. On bare metal it runs under `qemu-arm -cpu max`, by two calls of Linux. */
#include "meter.h"
#include "frames.h"
#include "console.h"

enum { NODES = 3, RECORDS = 32, QUEUE = 128, HEAP = 160000 };

static unsigned checks, wrong;

static void check(int holds, const char *what) {
    checks++;
    if (holds)
        return;
    wrong++;
    print("wrong: "), print(what), print("\n");
}

/* # Nodes, each with its store, its random values, and what it said last */

struct node {
    struct meter *meter;
    struct coordinator *coordinator;
    size_t stored;
    struct { uint32_t slot; size_t count; uint8_t octets[METER_RECORD_MAX]; } records[RECORDS];
    int fails, randoms;
    uint8_t random;
    uint16_t joined, from;
    size_t up;
    uint8_t octets[METER_DATAGRAM_MAX];
    uint8_t memory[HEAP];
};

static struct node nodes[NODES];
static struct { unsigned by; size_t count; uint8_t octets[METER_FRAME_MAX]; } queue[QUEUE];
static unsigned first, last, flights;
static int shows;

static int load(void *self, uint32_t slot, uint8_t *octets) {
    struct node *node = self;
    for (size_t i = 0; i < node->stored; i++)
        if (node->records[i].slot == slot) {
            memcpy(octets, node->records[i].octets, node->records[i].count);
            return (int)node->records[i].count;
        }
    return -1;
}

static int store(void *self, uint32_t slot, const uint8_t *octets, size_t count) {
    struct node *node = self;
    size_t at = 0;
    check(count <= METER_RECORD_MAX, "a record is too long");
    if (node->meter != NULL)
        check(meter_tick(node->meter, 0) == METER_MALFORMED, "a call from a callback");
    while (at < node->stored && node->records[at].slot != slot)
        at++;
    if (node->fails || at == RECORDS)
        return -1;
    node->stored += at == node->stored;
    node->records[at].slot = slot, node->records[at].count = count;
    memcpy(node->records[at].octets, octets, count);
    return 0;
}

static void send_frame(void *self, uint32_t note, const uint8_t *octets, size_t count) {
    struct node *node = self;
    (void)note;
    check(count <= METER_FRAME_MAX && last - first < QUEUE, "a frame is too long, or one too many");
    queue[last % QUEUE].by = (unsigned)(node - nodes), queue[last % QUEUE].count = count;
    memcpy(queue[last++ % QUEUE].octets, octets, count);
    flights++;
    if (shows) {
        print("fly "), print_number(flights), print(" "), print_number((unsigned)(node - nodes)), print(" ");
        print_octets(octets, count);
    }
}

static void up(void *self, uint16_t from, uint32_t note, const uint8_t *octets, size_t count) {
    struct node *node = self;
    (void)note;
    node->from = from, node->up = count;
    memcpy(node->octets, octets, count);
}

static void has_joined(void *self, uint16_t address) {
    ((struct node *)self)->joined = address;
}

static int random_octets(void *self, uint8_t *octets) {
    struct node *node = self;
    if (node->randoms++ >= 6)
        return -1;
    for (uint8_t i = 0; i < 16; i++)
        octets[i] = (uint8_t)(node->random + i);
    node->random = (uint8_t)(node->random + 16);
    return 0;
}

static void octets_of(uint8_t value, uint8_t *octets, uint8_t count) {
    for (uint8_t i = 0; i < count; i++)
        octets[i] = (uint8_t)(value + i);
}

/* Opens a node over what it stored. The memory begins at no even address. */
static int open_node(unsigned number, const uint8_t *eui, const uint8_t *key, size_t size) {
    struct node *node = &nodes[number];
    struct meter_device device = {node, load, store, send_frame, up, has_joined, random_octets};
    if (number == 0)
        return coordinator_open(&node->coordinator, node->memory + 1, size, &device, eui, key);
    return meter_open(&node->meter, node->memory + 1, size, &device, eui, key);
}

/* Delivers all frames to all others, until none is on its way. */
static void deliver(uint64_t now) {
    while (first != last) {
        unsigned at = first++ % QUEUE, by = queue[at].by;
        for (unsigned i = 0; i < NODES; i++)
            if (i != by && i == 0)
                coordinator_hear(nodes[0].coordinator, 1, 1, now, queue[at].octets, queue[at].count);
            else if (i != by && nodes[i].meter != NULL)
                meter_hear(nodes[i].meter, 1, 1, now, queue[at].octets, queue[at].count);
    }
}

static void opens_in_just_its_room(unsigned number, size_t room) {
    uint8_t eui[8] = {0}, key[16] = {0};
    struct node *node = &nodes[number];
    check(room < HEAP - 1 && open_node(number, eui, key, room) == METER_DONE, "it opens in its room");
    node->stored = 0;
    check(open_node(number, eui, key, room - 64) == METER_MEMORY && node->meter == NULL, "it does not in 64 octets less");
    check(open_node(number, eui, key, 1) == METER_MEMORY, "it does not in an octet");
    memset(node, 0, sizeof *node - HEAP);
}

/* # Parts */

/* examples/joining_over_the_air: declined, then allowed, and a reading to the coordinator. */
static void joins(void) {
    uint8_t eui[8], psk[16], key[16], coordinator_eui[8] = {0xAA, 0xBB, 0xCC, 0xDD, 0xEE, 0xFF, 0x00, 0x11};
    uint16_t address = 0;
    octets_of(1, eui, 8), octets_of(0x10, psk, 16), octets_of(0, key, 16);
    nodes[0].random = 0, nodes[1].random = 0xF0;
    check(open_node(0, coordinator_eui, key, HEAP - 1) == METER_DONE && open_node(1, eui, psk, HEAP - 1) == METER_DONE, "they open");
    check(meter_address(nodes[1].meter) == 0xFFFF && coordinator_address(nodes[0].coordinator) == 0, "their addresses");
    check(meter_send(nodes[1].meter, 0, 1, 0, psk, 4) == METER_REFUSED && nodes[1].meter->refusal == METER_SEND_NOT_JOINED, "it has not joined");
    shows = 1;
    check(meter_join(nodes[1].meter, 0, 0) == METER_DONE, "it asks to join");
    check(coordinator_hear(nodes[0].coordinator, 1, 1, 0, queue[0].octets, queue[0].count) == METER_DONE, "it is heard");
    check(nodes[0].coordinator->heard == METER_HEARD_DECLINED, "it is declined");
    check(meter_hear(nodes[1].meter, 1, 1, 0, queue[1].octets, queue[1].count) == METER_DONE, "it hears that");
    check(nodes[1].meter->heard == METER_HEARD_DECLINED, "it knows that");
    first = last;
    check(coordinator_allow(nodes[0].coordinator, eui, psk, &address) == METER_DONE && address == 1, "it is allowed");
    check(meter_join(nodes[1].meter, 0, 0) == METER_DONE, "it asks again");
    deliver(0);
    check(nodes[1].joined == 1 && meter_address(nodes[1].meter) == 1, "it has joined");
    check(meter_join(nodes[1].meter, 0, 0) == METER_REFUSED && nodes[1].meter->refusal == METER_JOIN_ALREADY_JOINED, "it has joined already");
    check(meter_send(nodes[1].meter, 0, 1, 0, (const uint8_t *)"\0\0\0\1", 4) == METER_DONE, "it sends a reading");
    deliver(0);
    shows = 0;
    check(nodes[0].from == 1 && nodes[0].up == 4 && nodes[0].octets[3] == 1, "the reading came");
}

/* The second meter is provisioned in the workshop; datagrams go both ways, in pieces too. */
static void talks(void) {
    uint8_t eui[8], psk[16], octets[METER_DATAGRAM_MAX];
    struct coordinator_grant grant;
    uint64_t time = 0;
    octets_of(0x60, eui, 8), octets_of(0x70, psk, 16), memset(octets, 0x5A, sizeof octets);
    check(open_node(2, eui, psk, HEAP - 1) == METER_DONE, "the second opens");
    check(coordinator_depot(nodes[0].coordinator, eui, psk, &grant) == METER_DONE && grant.address == 2, "its grant");
    check(meter_provision(nodes[2].meter, grant.address, grant.index, grant.key) == METER_DONE && meter_address(nodes[2].meter) == 2, "it takes it");
    check(meter_near(nodes[2].meter, 1, 1, 0) == METER_DONE, "the first is near");
    check(meter_near(nodes[2].meter, 1, 9, 0) == METER_REFUSED && nodes[2].meter->refusal == METER_NEAR_NOT_BETTER, "it is no better");
    for (unsigned i = 0; i < 2; i++) {
        size_t count = i == 0 ? 5 : sizeof octets;
        check(meter_send(nodes[2].meter, 1, 1, 0, octets, count) == METER_DONE, "a meter sends to a meter");
        deliver(0);
        check(nodes[1].up == count && nodes[1].from == 2 && memcmp(nodes[1].octets, octets, count) == 0, "it came");
        check(coordinator_send(nodes[0].coordinator, 2, 1, 0, octets, count) == METER_DONE, "the coordinator sends to a meter");
        deliver(0);
        check(nodes[2].up == count && nodes[2].from == 0, "that came");
    }
    check(meter_next_end(nodes[1].meter, &time) == 1 && time > 0 && meter_next_end(nodes[1].meter, NULL) == 0, "a route ends");
    check(meter_tick(nodes[1].meter, time) == METER_DONE && coordinator_tick(nodes[0].coordinator, time) == METER_DONE, "it has ended");
    check(coordinator_next_end(nodes[0].coordinator, &time) == 0 || time > 0, "the coordinator's");
}

/* A datagram to nobody waits for a route for 30 seconds. */
static void gives_up(void) {
    struct meter *m = nodes[1].meter;
    uint64_t now = 30000;
    uint32_t notes[8] = {0};
    check(meter_send(m, 9, 77, now, (const uint8_t *)"\1", 1) == METER_DONE, "it seeks a route to nobody");
    deliver(now);
    check(meter_expiring(m, now + 29, notes) == 0 && notes[0] == 0, "it waits");
    check(meter_expiring(m, now + 30, notes) == 1 && notes[0] == 77 && meter_expiring(m, now + 30, NULL) == 0, "it is given up");
    check(meter_tick(m, now + 30) == METER_DONE && meter_expiring(m, now + 30, notes) == 0, "it was given up");
    check(coordinator_expiring(nodes[0].coordinator, now + 30, notes) == 0, "nothing waits at the coordinator");
}

/* A frame that is none, or came already; arguments out of their ranges. */
static void refuses(void) {
    struct meter *m = nodes[1].meter;
    uint8_t octets[METER_DATAGRAM_MAX + 1] = {0};
    unsigned at = (first - 1) % QUEUE;
    check(meter_hear(m, 1, 1, 9, octets, 20) == METER_REFUSED && m->refusal == METER_HEAR_MALFORMED, "no frame");
    check(meter_hear(m, 1, 1, 9, NULL, 0) == METER_REFUSED && m->refusal == METER_HEAR_MALFORMED, "no octets");
    check(meter_hear(nodes[2].meter, 1, 1, 9, queue[at].octets, queue[at].count) == METER_REFUSED, "a frame again");
    check(nodes[2].meter->refusal == METER_HEAR_REPLAYED, "it is replayed");
    check(meter_hear(m, 0, 1, 9, octets, 20) == METER_MALFORMED && meter_hear(m, 1, 1, 9, NULL, 1) == METER_MALFORMED, "cost 0, and null");
    check(meter_send(m, 1, 1, 9, octets, 1) == METER_REFUSED && m->refusal == METER_SEND_TO_SELF, "to itself");
    check(meter_send(m, 0, 1, 9, NULL, 0) == METER_REFUSED && m->refusal == METER_SEND_BAD_SIZE, "no octet");
    check(meter_send(m, 0, 1, 9, octets, sizeof octets) == METER_REFUSED && m->refusal == METER_SEND_BAD_SIZE, "1,281 octets");
    check(meter_send(m, 0xFFFE, 1, 9, octets, 1) == METER_MALFORMED && m->refusal == 0, "to nobody");
    check(meter_tick(NULL, 9) == METER_MALFORMED && meter_provision(m, 1, 2, octets) == METER_MALFORMED && meter_random(m, NULL) == METER_MALFORMED, "null");
    check(meter_broke(m, 7) == METER_DONE && meter_broke(m, 0xFFFF) == METER_MALFORMED, "a neighbour that gave up");
    check(coordinator_kick(nodes[0].coordinator, octets) == METER_REFUSED && nodes[0].coordinator->refusal == COORDINATOR_NOT_ALLOWED, "who is that");
    check(coordinator_rekey(nodes[0].coordinator, 0, octets) == METER_REFUSED && nodes[0].coordinator->refusal == COORDINATOR_INDEX_ACTIVE, "it seals");
    check(coordinator_broke(nodes[0].coordinator, 7) == METER_DONE && coordinator_near(nodes[0].coordinator, 0xFFFF, 1, 9) == METER_MALFORMED, "of the other");
}

/* Random values: eight are held. */
static void takes_randoms(void) {
    uint8_t value[16] = {0};
    int status = METER_DONE, given = 0;
    for (; status == METER_DONE && given < 20; given++)
        value[0] = (uint8_t)given, status = meter_random(nodes[1].meter, value);
    check(status == METER_REFUSED && nodes[1].meter->refusal == METER_RANDOM_RANDOMS_FULL && given <= 9, "eight are held");
    check(coordinator_random(nodes[0].coordinator, value) == METER_DONE, "a coordinator takes one");
}

/* Sends from the first meter to the second until it comes: after a start frames of neighbours may be refused, so a route is sought more than once. */
static int comes(uint64_t now) {
    nodes[2].up = 0;
    for (unsigned i = 0; i < 80 && nodes[2].up == 0; i++, now += 31) {
        meter_tick(nodes[1].meter, now), meter_tick(nodes[2].meter, now);
        int status = meter_send(nodes[1].meter, 2, 1, now, (const uint8_t *)"Hello", 5);
        deliver(now);
        if (status != METER_DONE)
            return 0;
    }
    return nodes[2].up == 5;
}

/* A write fails: nothing leaves, and the meter goes on after a restart. A start finds the same, and a bad record stops it. */
static void loses_power(void) {
    uint8_t eui[8], psk[16];
    struct node *node = &nodes[1];
    unsigned before = flights;
    octets_of(1, eui, 8), octets_of(0x10, psk, 16);
    check(comes(30000), "a route");
    node->fails = 1;
    int status = METER_DONE;
    for (unsigned i = 0; i < 1100 && status == METER_DONE; i++) {
        before = flights, first = last;
        status = meter_send(node->meter, 2, 1, 30100, psk, 5);
    }
    check(status == METER_STORE_FAILED && flights == before, "a write fails, and nothing leaves");
    check(meter_tick(node->meter, 30100) == METER_STORE_FAILED && meter_address(node->meter) == 0xFFFF, "it takes no call");
    node->fails = 0, first = last;
    check(meter_restart(node->meter) == METER_DONE && meter_address(node->meter) == 1, "it goes on");
    check(comes(30200), "that came too");
    node->meter = NULL;
    check(open_node(1, eui, psk, HEAP - 1) == METER_DONE && meter_address(node->meter) == 1, "a start finds what was stored");
    node->records[0].count = 1;
    node->meter = NULL;
    check(open_node(1, eui, psk, HEAP - 1) == METER_BAD_STORE && node->meter == NULL, "a record without a reading");
}

/* The key changes over the air, and a meter is kicked. */
static void changes_keys(void) {
    uint8_t eui[8], key[16];
    octets_of(0x60, eui, 8), octets_of(0xC0, key, 16);
    nodes[0].randoms = nodes[2].randoms = 0;
    check(coordinator_random(nodes[0].coordinator, key) != METER_MALFORMED, "a value for the session");
    check(coordinator_activate(nodes[0].coordinator, eui, 1, 40000) == METER_REFUSED, "no key yet");
    check(coordinator_rekey(nodes[0].coordinator, 1, key) == METER_DONE, "another key");
    check(coordinator_challenge(nodes[0].coordinator, eui, 40000) == METER_DONE, "it goes out");
    deliver(40000);
    check(coordinator_activate(nodes[0].coordinator, eui, 1, 40000) == METER_DONE, "it is to seal");
    deliver(40000);
    check(coordinator_activate_self(nodes[0].coordinator, 1) == METER_DONE, "here too");
    nodes[2].up = 0;
    check(coordinator_send(nodes[0].coordinator, 2, 1, 40000, key, 7) == METER_DONE, "a datagram under it");
    deliver(40000);
    check(nodes[2].up == 7, "it opens");
    check(coordinator_kick(nodes[0].coordinator, eui) == METER_DONE, "a kick");
    deliver(40000);
    check(meter_address(nodes[2].meter) == 0xFFFF, "it has left");
    check(meter_leave(nodes[2].meter) == METER_REFUSED && nodes[2].meter->refusal == METER_LEAVE_NOT_JOINED, "it cannot leave again");
}

/* The frames of frames.h, with the first frame of examples/two_meters. */
static void seals(void) {
    static const uint8_t payload[] = {0xBE, 0, 1, 0, 2, 0x41, 0x48, 0x65, 0x6C, 0x6C, 0x6F};
    struct frames_head head = {.pan = 0x781D, .to = 2, .from = 1, .kind = FRAMES_SEALED, .version = 1, .ack = 1}, read;
    uint8_t key[16], frame[400], text[400];
    size_t count = 0, opened = 0;
    uint32_t place = 0;
    octets_of(0, key, 16);
    check(frames_seal(key, 16, &head, payload, sizeof payload, frame, sizeof frame, &count) == FRAMES_OK && count == 30, "it seals");
    print("fly 1 1 "), print_octets(frame, count);
    check(frames_open(key, 16, frame, count, text, sizeof text, &opened) == FRAMES_OK && opened == sizeof payload, "it opens");
    check(memcmp(text, payload, opened) == 0 && frames_read(frame, count, &read, &place) == FRAMES_OK && read.to == 2, "the same");
    frame[20] ^= 1;
    check(frames_open(key, 16, frame, count, text, sizeof text, &opened) == FRAMES_TAG && opened == 0, "a bent one does not");
    check(frames_seal(key, 15, &head, payload, 1, frame, sizeof frame, &count) == FRAMES_KEY && count == 0, "a short key");
    check(frames_seal(key, 16, &head, NULL, 0, frame, sizeof frame, &count) == FRAMES_OK && count == 19, "no payload");
}

int main(void) {
    opens_in_just_its_room(0, coordinator_room());
    opens_in_just_its_room(1, meter_room());
    joins();
    talks();
    refuses();
    gives_up();
    takes_randoms();
    loses_power();
    changes_keys();
    seals();
    print("desk: "), print_number(checks), print(" checks, "), print_number(wrong), print(" wrong; a meter takes "), print_number((unsigned)meter_room());
    print(" octets, a coordinator "), print_number((unsigned)coordinator_room()), print("\n");
    return wrong != 0;
}
