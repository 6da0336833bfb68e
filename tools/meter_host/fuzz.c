/* Gives meter.c answers that no meter_host would give, and checks that its owner is asked for nothing but what meter.h promises.
 *
 *     fuzz ANSWERS [SEED]     draws so many answers, each of some items that are mostly right and of what cuts or bends them
 *
 * Or, with clang, for as long as wanted: clang -fsanitize=fuzzer,address,undefined -DFUZZER -o fuzz fuzz.c && ./fuzz -max_total_time=60
 */
#include "meter.c"   /* its calls go to a socket that this file answers */
#include <stdio.h>
#include <stdlib.h>

enum { MOST = 40000 };

/* What the owner was asked for by one call, and the answer of which the call is to do nothing. */
static struct {
    unsigned puts, frames, ups, joined;
    int fails;
    uint64_t seen;   /* a sum of all that was given, in order */
} owner;

static void must(int holds, const char *what) {
    if (holds)
        return;
    fprintf(stderr, "fuzz: %s\n", what);
    abort();
}

static void see(uint8_t kind, uint64_t number, const uint8_t *octets, size_t count) {
    owner.seen = owner.seen * 31 + kind;
    owner.seen = owner.seen * 31 + number;
    for (size_t i = 0; i < count; i++)
        owner.seen = owner.seen * 31 + octets[i];
}

static int store(void *self, uint32_t slot, const uint8_t *octets, size_t count) {
    must(self == &owner && count <= METER_RECORD_MAX && ++owner.puts <= METER_PUTS_MAX, "a record that is too long, or one too many");
    must(owner.frames + owner.joined + owner.ups == 0, "a record after a frame");
    must(slot >= 1 && slot <= 0x31F, "a slot that no meter has");
    see(PUT, slot, octets, count);
    return owner.fails && owner.puts == 2 ? -1 : 0;
}

static void send_frame(void *self, uint32_t note, const uint8_t *octets, size_t count) {
    must(self == &owner && count >= 1 && count <= METER_FRAME_MAX && ++owner.frames <= METER_FRAMES_MAX, "a frame that is too long, or one too many");
    must(owner.joined + owner.ups == 0, "a frame after a datagram");
    must(!owner.fails || owner.puts < 2, "a frame after a store that failed");
    see(FRAME, note, octets, count);
}

static void has_joined(void *self, uint16_t address) {
    must(self == &owner && address <= 0xFFFD && ++owner.joined == 1 && owner.ups == 0, "it joined twice, late, or as nobody");
    see(JOINED, address, NULL, 0);
}

static void up(void *self, uint16_t from, uint32_t note, const uint8_t *octets, size_t count) {
    must(self == &owner && from <= 0xFFFD && count >= 1 && count <= METER_DATAGRAM_MAX && ++owner.ups == 1, "a datagram that is too long, or one too many");
    see(UP, (uint64_t)from << 32 | note, octets, count);
}

/* Makes a call of this kind. */
static int call(struct meter *m, unsigned kind) {
    static const uint8_t octets[METER_DATAGRAM_MAX];
    switch (kind) {
    case LOAD: return meter_load(m, 1, NULL, 0);
    case OPEN: return meter_open(m, octets, octets);
    case PROVISION: return meter_provision(m, 1, 0, octets);
    case NEAR: return meter_near(m, 1, 1, 0);
    case RANDOM: return meter_random(m, octets);
    case JOIN: return meter_join(m, 0, 0);
    case LEAVE: return meter_leave(m);
    case TICK: return meter_tick(m, 1);
    case SEND: return meter_send(m, 1, 0, 0, octets, sizeof octets);
    case HEAR: return meter_hear(m, 1, 0, 0, octets, METER_FRAME_MAX);
    default: return meter_broke(m, 1);
    }
}

/* Answers a call by these octets, after which the program ends. */
static int answered(unsigned kind, int fails, const uint8_t *octets, size_t count, int *refusal) {
    struct meter m = {.device = {&owner, store, send_frame, up, has_joined, 60000}, .program = -1};
    int line[2];
    memset(&owner, 0, sizeof owner);
    owner.fails = fails;
    must(socketpair(AF_UNIX, SOCK_STREAM, 0, line) == 0, "no socket");
    m.line = line[0];
    must(send(line[1], octets, count, 0) == (ssize_t)count, "no room in the socket");
    /* The other end is read from still, as by a program that ends later. */
    must(shutdown(line[1], SHUT_WR) == 0, "no end");
    int status = call(&m, kind);
    must(status >= METER_DONE && status <= METER_GONE, "a status of no meaning");
    must((status == METER_REFUSED) == (m.refusal != 0), "a refusal without its status");
    must(status != METER_GONE || owner.puts + owner.frames + owner.joined + owner.ups == 0, "half an answer was carried out");
    must((status == METER_GONE || status == METER_STORE_FAILED || status == METER_HALTED) <= (m.ended != METER_DONE), "it goes on after its end");
    *refusal = m.refusal;
    meter_end(&m);
    must(call(&m, kind) == METER_GONE, "a call after the end");
    close(line[1]);
    return status;
}

#ifdef FUZZER
int LLVMFuzzerTestOneInput(const uint8_t *octets, size_t count) {
    int refusal;
    if (count >= 2 && count < MOST)
        answered(1 + octets[0] % 11, octets[1] & 1, octets + 2, count - 2, &refusal);
    return 0;
}
#else
static uint64_t state;

static unsigned drawn(unsigned below) {
    state = state * 6364136223846793005u + 1442695040888963407u;
    return (unsigned)(state >> 33) % below;
}

/* One of ten numbers of octets is just beyond the most. */
static size_t size(size_t least, size_t most) {
    unsigned which = drawn(20);
    return which == 0 ? most + 1 : which == 1 ? least - (least > 0) : which == 2 ? most : which == 3 ? least : least + drawn((unsigned)(most - least + 1));
}

/* An answer that is drawn, and what is to come of it where it is a right one. */
static struct {
    size_t count;
    uint8_t octets[MOST];
    int is_right;
    int status, refusal;
    unsigned puts, frames;
    uint64_t seen;
} answer;

static void item(uint8_t kind, uint64_t number, unsigned width, size_t count) {
    uint8_t *at = answer.octets + answer.count;
    size_t whole = width + count;
    if (answer.count + HEAD + whole > MOST)
        return;
    at[0] = kind, at[1] = (uint8_t)(whole >> 8), at[2] = (uint8_t)whole;
    for (unsigned i = 0; i < width; i++)
        at[HEAD + i] = (uint8_t)(number >> (8 * (width - 1 - i)));
    for (size_t i = 0; i < count; i++)
        at[HEAD + width + i] = (uint8_t)drawn(256);
    answer.count += HEAD + whole;
    see(kind, number, at + HEAD + width, count);
}

static void draw_item(unsigned kind) {
    static const uint32_t slots[] = {1, 6, 0x100, 0x13F, 0x200, 0x23F, 0x300, 0x31F, 0, 7, 0xFF, 0x140, 0x320, 0x1000, 0xFFFFFFFF};
    int is_open = kind > OPEN;
    size_t count;
    uint64_t number;
    switch (drawn(8)) {
    case 0: case 1: case 2:
        count = size(0, METER_RECORD_MAX), number = slots[drawn(drawn(6) ? 8 : 15)];
        answer.is_right &= is_open && count <= METER_RECORD_MAX && is_slot(number) && ++answer.puts <= METER_PUTS_MAX;
        answer.is_right &= answer.frames + owner.joined + owner.ups == 0;
        item(PUT, number, 4, count);
        break;
    case 3: case 4: case 5:
        count = size(1, METER_FRAME_MAX), number = drawn(1000);
        answer.is_right &= is_open && count >= 1 && count <= METER_FRAME_MAX && ++answer.frames <= METER_FRAMES_MAX && owner.joined + owner.ups == 0;
        item(FRAME, number, 4, count);
        break;
    case 6:
        number = drawn(4) ? drawn(0xFFFE) : 0xFFFE;
        answer.is_right &= kind == HEAR && number <= 0xFFFD && owner.joined++ == 0 && owner.ups == 0;
        item(JOINED, number, 2, 0);
        break;
    default:
        count = size(1, METER_DATAGRAM_MAX), number = (uint64_t)(drawn(4) ? drawn(0xFFFE) : 0xFFFF) << 32 | drawn(1000);
        answer.is_right &= kind == HEAR && count >= 1 && count <= METER_DATAGRAM_MAX && number >> 32 <= 0xFFFD && owner.ups++ == 0;
        item(UP, number, 6, count);
    }
}

static void draw(unsigned kind) {
    answer.count = 0, answer.is_right = 1, answer.puts = answer.frames = 0;
    memset(&owner, 0, sizeof owner);
    for (unsigned left = drawn(3) ? drawn(4) : drawn(40); left > 0; left--)
        draw_item(kind);
    answer.seen = owner.seen;
    answer.status = drawn(4) ? METER_DONE : (int)drawn(9), answer.refusal = answer.status == METER_REFUSED ? (int)drawn(31) : 0;
    int most = kind < sizeof refusals ? refusals[kind] : 0;
    answer.is_right &= answer.status == METER_DONE || answer.status == METER_MALFORMED || (answer.status == METER_HALTED && kind > OPEN)
        || (answer.status == METER_REFUSED && answer.refusal >= 1 && answer.refusal <= most)
        || (kind == OPEN && (answer.status == METER_BAD_STORE || answer.status == METER_MEMORY));
    if (answer.status == METER_REFUSED)
        item(DONE, (uint64_t)(answer.status << 8 | answer.refusal), 2, 0);
    else
        item(DONE, (uint64_t)answer.status, 1, 0);
    /* One of ten is cut off or bent: what then comes of it is not known. */
    unsigned which = drawn(20);
    if (which == 0)
        answer.count = drawn((unsigned)answer.count), answer.is_right = 0;
    if (which == 1)
        answer.octets[drawn((unsigned)answer.count)] ^= (uint8_t)(1 << drawn(8)), answer.is_right = -1;
}

int main(int count, char **words) {
    unsigned long answers = count > 1 ? strtoul(words[1], NULL, 10) : 0, right = 0, refused = 0;
    if (answers == 0) {
        fprintf(stderr, "usage: fuzz ANSWERS [SEED]\n");
        return 2;
    }
    state = count > 2 ? strtoul(words[2], NULL, 10) : 1;
    for (unsigned long i = 0; i < answers; i++) {
        unsigned kind = drawn(3) ? HEAR : 1 + drawn(11);
        int fails = drawn(4) == 0, refusal;
        draw(kind);
        int status = answered(kind, fails, answer.octets, answer.count, &refusal);
        if (answer.is_right < 0)
            continue;
        int is_stopped = fails && answer.puts >= 2;
        int wanted = !answer.is_right ? METER_GONE : is_stopped ? METER_STORE_FAILED : answer.status;
        must(status == wanted && refusal == (wanted == METER_REFUSED ? answer.refusal : 0), "another status than that of the answer");
        must(wanted == METER_GONE || is_stopped || owner.seen == answer.seen, "the owner was given something else");
        right += wanted != METER_GONE, refused += wanted == METER_GONE;
    }
    printf("fuzz: %lu answers: %lu were carried out whole, %lu refused whole\n", answers, right, refused);
    return 0;
}
#endif
