/* The calls of meter.h, as items over a socket: a kind, a length of two octets, the highest first, and so many octets. */
#define _GNU_SOURCE   /* SOCK_CLOEXEC */
#include "meter.h"
#include <errno.h>
#include <fcntl.h>
#include <poll.h>
#include <signal.h>
#include <string.h>
#include <sys/socket.h>
#include <sys/wait.h>
#include <time.h>
#include <unistd.h>

enum { LOAD = 1, OPEN, PROVISION, NEAR, RANDOM, JOIN, LEAVE, TICK, SEND, HEAR, BROKE, VERSION, DONE = 0x80, PUT, FRAME, UP, JOINED };

enum { HEAD = 3, ITEM_MAX = 2000, ADDRESS_MAX = 0xFFFD };

/* The longest answer: each record, frame and datagram, that the meter has joined, and how the call ended. */
enum {
    ANSWER_MAX = METER_PUTS_MAX * (HEAD + 4 + METER_RECORD_MAX) + METER_FRAMES_MAX * (HEAD + 4 + METER_FRAME_MAX) + (HEAD + 2)
        + (HEAD + 6 + METER_DATAGRAM_MAX) + (HEAD + 2)
};

/* The refusals of each call by its kind, at most. */
static const uint8_t refusals[] = {
    [PROVISION] = METER_PROVISION_STORE, [NEAR] = METER_NEAR_STORE, [RANDOM] = METER_RANDOM_RANDOMS_FULL, [JOIN] = METER_JOIN_ALREADY_JOINED,
    [LEAVE] = METER_LEAVE_STORE, [SEND] = METER_SEND_STORE, [HEAR] = METER_HEAR_DROPPED_STORE, [BROKE] = 0, [VERSION] = 0
};

struct text {
    size_t count;
    uint8_t octets[HEAD + ITEM_MAX];
};

/* An answer as it comes, and how many of each kind it has. */
struct answer {
    size_t count;
    unsigned puts, frames, joined, ups;
    uint8_t octets[ANSWER_MAX];
};

static void push(struct text *t, const void *octets, size_t count) {
    if (t->count > sizeof t->octets || count > sizeof t->octets - t->count) {
        t->count = sizeof t->octets + 1;   /* too long: meter_call refuses it */
        return;
    }
    if (count > 0)
        memcpy(t->octets + t->count, octets, count);
    t->count += count;
}

static void number(struct text *t, uint64_t value, unsigned width) {
    uint8_t octets[8];
    for (unsigned i = 0; i < width; i++)
        octets[i] = (uint8_t)(value >> (8 * (width - 1 - i)));
    push(t, octets, width);
}

static uint64_t number_at(const uint8_t *octets, unsigned width) {
    uint64_t value = 0;
    for (unsigned i = 0; i < width; i++)
        value = value << 8 | octets[i];
    return value;
}

static int64_t clock_ms(void) {
    struct timespec now;
    clock_gettime(CLOCK_MONOTONIC, &now);
    return (int64_t)now.tv_sec * 1000 + now.tv_nsec / 1000000;
}

/* Waits until the socket can be read or written, to the end of the call at most. */
static int meter_wait(const struct meter *m, short what, int64_t end) {
    struct pollfd line = {m->line, what, 0};
    for (;;) {
        int64_t left = m->device.wait_ms < 0 ? -1 : end - clock_ms();
        if (m->device.wait_ms >= 0 && left <= 0)
            return METER_LATE;
        int ready = poll(&line, 1, (int)left);
        if (ready > 0)
            return METER_DONE;
        if (ready < 0 && errno != EINTR)
            return METER_GONE;
    }
}

static int meter_write(const struct meter *m, const uint8_t *octets, size_t count, int64_t end) {
    while (count > 0) {
        ssize_t done = send(m->line, octets, count, MSG_NOSIGNAL | MSG_DONTWAIT);
        if (done <= 0) {
            int status = done < 0 && errno == EINTR ? METER_DONE : done < 0 && errno == EAGAIN ? meter_wait(m, POLLOUT, end) : METER_GONE;
            if (status != METER_DONE)
                return status;
            continue;
        }
        octets += done;
        count -= (size_t)done;
    }
    return METER_DONE;
}

static int meter_read(const struct meter *m, uint8_t *octets, size_t count, int64_t end) {
    while (count > 0) {
        ssize_t done = recv(m->line, octets, count, MSG_DONTWAIT);
        if (done <= 0) {
            int status = done < 0 && errno == EINTR ? METER_DONE : done < 0 && errno == EAGAIN ? meter_wait(m, POLLIN, end) : METER_GONE;
            if (status != METER_DONE)
                return status;
            continue;
        }
        octets += done;
        count -= (size_t)done;
    }
    return METER_DONE;
}

static struct text begun(void) {
    struct text t;
    t.count = HEAD;
    return t;
}

/* Whether a meter has a slot of this number. */
static int is_slot(uint64_t slot) {
    return (slot >= 1 && slot <= 6) || (slot >= 0x100 && slot <= 0x13F) || (slot >= 0x200 && slot <= 0x23F) || (slot >= 0x300 && slot <= 0x31F);
}

/* Whether an item may come next in the answer to a call: records, then frames, then that the meter has joined, then a datagram, and not more of each than
 * a call gives. A call before the meter is open gives none. */
static int may_come(const struct answer *a, uint8_t call, uint8_t kind, size_t count) {
    int is_open = call > OPEN && call < VERSION;
    if (kind == PUT)
        return is_open && a->puts < METER_PUTS_MAX && a->frames + a->joined + a->ups == 0 && count >= 4 && count <= 4 + METER_RECORD_MAX;
    if (kind == FRAME)
        return is_open && a->frames < METER_FRAMES_MAX && a->joined + a->ups == 0 && count > 4 && count <= 4 + METER_FRAME_MAX;
    if (kind == JOINED)
        return call == HEAR && a->joined + a->ups == 0 && count == 2;
    if (kind == UP)
        return call == HEAR && a->ups == 0 && count > 6 && count <= 6 + METER_DATAGRAM_MAX;
    return kind == DONE && (count == 1 || count == 2);
}

/* Whether the fields of an item are in their ranges. */
static int is_whole(uint8_t call, uint8_t kind, const uint8_t *octets, size_t count) {
    if (kind == PUT)
        return is_slot(number_at(octets, 4));
    if (kind == JOINED || kind == UP)
        return number_at(octets, 2) <= ADDRESS_MAX;
    if (kind != DONE)
        return 1;
    if (octets[0] == METER_REFUSED)
        return count == 2 && call < sizeof refusals && octets[1] >= 1 && octets[1] <= refusals[call];
    if (octets[0] == METER_BAD_STORE || octets[0] == METER_MEMORY)
        return count == 1 && call == OPEN;
    return count == 1 && (octets[0] == METER_DONE || octets[0] == METER_MALFORMED || (octets[0] == METER_HALTED && call > OPEN && call < VERSION));
}

/* Reads an answer to its end. Of anything that is no answer to this call nothing is done, so that no frame leaves before a record that comes too late. */
static int meter_take(const struct meter *m, uint8_t call, struct answer *a, int64_t end) {
    for (a->count = 0, a->puts = a->frames = a->joined = a->ups = 0;;) {
        uint8_t *item = a->octets + a->count;
        int status = meter_read(m, item, HEAD, end);
        if (status != METER_DONE)
            return status;
        size_t count = (size_t)number_at(item + 1, 2);
        if (!may_come(a, call, item[0], count))
            return METER_GONE;
        status = meter_read(m, item + HEAD, count, end);
        if (status != METER_DONE)
            return status;
        if (!is_whole(call, item[0], item + HEAD, count))
            return METER_GONE;
        a->puts += item[0] == PUT, a->frames += item[0] == FRAME, a->joined += item[0] == JOINED, a->ups += item[0] == UP;
        a->count += HEAD + count;
        if (item[0] == DONE)
            return METER_DONE;
    }
}

/* Does what an answer says, and answers how the call ended. */
static int meter_do(struct meter *m, const struct answer *a) {
    for (const uint8_t *item = a->octets;;) {
        size_t count = (size_t)number_at(item + 1, 2);
        const uint8_t *octets = item + HEAD;
        if (item[0] == PUT) {
            if (m->device.store(m->device.self, (uint32_t)number_at(octets, 4), octets + 4, count - 4) != 0)
                return METER_STORE_FAILED;
        } else if (item[0] == FRAME) {
            m->device.send(m->device.self, (uint32_t)number_at(octets, 4), octets + 4, count - 4);
        } else if (item[0] == JOINED) {
            if (m->device.joined != NULL)
                m->device.joined(m->device.self, (uint16_t)number_at(octets, 2));
        } else if (item[0] == UP) {
            m->device.up(m->device.self, (uint16_t)number_at(octets, 2), (uint32_t)number_at(octets + 2, 4), octets + 6, count - 6);
        } else {
            m->refusal = count == 2 ? octets[1] : 0;
            return octets[0];
        }
        item = octets + count;
    }
}

static int meter_call(struct meter *m, uint8_t kind, struct text *t) {
    struct answer a;
    if (m->is_doing)
        return METER_MALFORMED;
    m->refusal = 0;
    if (m->ended != METER_DONE)
        return m->ended;
    if (t->count > sizeof t->octets)
        return METER_MALFORMED;
    size_t count = t->count - HEAD;
    t->octets[0] = kind;
    t->octets[1] = (uint8_t)(count >> 8);
    t->octets[2] = (uint8_t)count;
    int64_t end = clock_ms() + (m->device.wait_ms != 0 ? m->device.wait_ms : METER_WAIT_MS);
    int status = meter_write(m, t->octets, t->count, end);
    if (status == METER_DONE)
        status = meter_take(m, kind, &a, end);
    if (status == METER_DONE) {
        m->is_doing = 1;
        status = meter_do(m, &a);
        m->is_doing = 0;
    }
    if (status == METER_HALTED || status == METER_BAD_STORE || status >= METER_MEMORY)
        m->ended = status;
    return status;
}

/* What the child does that becomes the program: its standard input and output are the socket, which alone outlives exec. */
static void become(const char *program, int line) {
    fcntl(line, F_SETFD, 0);   /* it may be one of the two already */
    if (dup2(line, 0) == 0 && dup2(line, 1) == 1) {
        if (line > 1)
            close(line);
        execl(program, program, (char *)NULL);
    }
    _exit(127);
}

static int has_version(struct meter *m) {
    struct text t = begun();
    number(&t, METER_VERSION, 2);
    int status = meter_call(m, VERSION, &t);
    if (status == METER_MALFORMED)
        m->ended = METER_OTHER_VERSION;
    return m->ended;
}

int meter_start(struct meter *m, const char *program, struct meter_device device) {
    int line[2];
    m->device = device;
    m->program = -1;
    m->line = -1;
    m->is_doing = 0;
    m->ended = METER_GONE;
    m->refusal = 0;
    /* Both ends are closed by exec from the first moment on, so that no program which another thread starts keeps one. */
    if (socketpair(AF_UNIX, SOCK_STREAM | SOCK_CLOEXEC, 0, line) != 0)
        return METER_GONE;
    m->program = fork();
    if (m->program == 0)
        become(program, line[1]);
    close(line[1]);
    m->line = line[0];
    if (m->program < 0)
        return METER_GONE;
    m->ended = METER_DONE;
    return has_version(m);
}

void meter_end(struct meter *m) {
    if (m->line >= 0)
        close(m->line);
    /* A program that has ended is taken note of first: its number may be another's by now where the owner waits for all. It holds nothing that is not stored. */
    if (m->program > 0 && waitpid(m->program, NULL, WNOHANG) == 0) {
        kill(m->program, SIGKILL);
        while (waitpid(m->program, NULL, 0) < 0 && errno == EINTR)
            continue;
    }
    m->line = -1;
    m->program = -1;
    m->ended = METER_GONE;
}

int meter_load(struct meter *m, uint32_t slot, const uint8_t *octets, size_t count) {
    struct text t = begun();
    number(&t, slot, 4);
    push(&t, octets, count);
    return meter_call(m, LOAD, &t);
}

int meter_open(struct meter *m, const uint8_t eui[8], const uint8_t psk[16]) {
    struct text t = begun();
    push(&t, eui, 8);
    push(&t, psk, 16);
    return meter_call(m, OPEN, &t);
}

int meter_provision(struct meter *m, uint16_t address, uint8_t index, const uint8_t key[16]) {
    struct text t = begun();
    number(&t, address, 2);
    number(&t, index, 1);
    push(&t, key, 16);
    return meter_call(m, PROVISION, &t);
}

int meter_near(struct meter *m, uint16_t neighbour, uint8_t cost, uint64_t now) {
    struct text t = begun();
    number(&t, neighbour, 2);
    number(&t, cost, 1);
    number(&t, now, 8);
    return meter_call(m, NEAR, &t);
}

int meter_random(struct meter *m, const uint8_t value[16]) {
    struct text t = begun();
    push(&t, value, 16);
    return meter_call(m, RANDOM, &t);
}

int meter_join(struct meter *m, uint16_t agent, uint64_t now) {
    struct text t = begun();
    number(&t, agent, 2);
    number(&t, now, 8);
    return meter_call(m, JOIN, &t);
}

int meter_leave(struct meter *m) {
    struct text t = begun();
    return meter_call(m, LEAVE, &t);
}

int meter_tick(struct meter *m, uint64_t now) {
    struct text t = begun();
    number(&t, now, 8);
    return meter_call(m, TICK, &t);
}

int meter_send(struct meter *m, uint16_t to, uint32_t note, uint64_t now, const uint8_t *octets, size_t count) {
    struct text t = begun();
    number(&t, to, 2);
    number(&t, note, 4);
    number(&t, now, 8);
    push(&t, octets, count);
    return meter_call(m, SEND, &t);
}

int meter_hear(struct meter *m, uint8_t cost, uint32_t note, uint64_t now, const uint8_t *frame, size_t count) {
    struct text t = begun();
    number(&t, cost, 1);
    number(&t, note, 4);
    number(&t, now, 8);
    push(&t, frame, count);
    return meter_call(m, HEAR, &t);
}

int meter_broke(struct meter *m, uint16_t neighbour) {
    struct text t = begun();
    number(&t, neighbour, 2);
    return meter_call(m, BROKE, &t);
}
