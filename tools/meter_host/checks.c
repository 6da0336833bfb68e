/* Checks what meter.h promises of a program that is not as it should be, and of an owner with signals and programs of its own.
 *
 *     checks METER_HOST FOLDER    the path of the program meter_host, and a folder with links to this program by the names in `others` below
 */
#define _GNU_SOURCE
#include "meter.h"
#include <errno.h>
#include <fcntl.h>
#include <signal.h>
#include <stdio.h>
#include <stdlib.h>
#include <string.h>
#include <sys/time.h>
#include <sys/wait.h>
#include <time.h>
#include <unistd.h>

static int checks, wrong;

static void check(int holds, const char *what) {
    checks++;
    if (!holds) {
        wrong++;
        printf("wrong: %s\n", what);
    }
}

/* # What a program is that this one is called as */

static void answer(const char *octets, size_t count) {
    if (write(1, octets, count) != (ssize_t)count)
        _exit(1);
}

static void take_item(void) {
    unsigned char octets[2003];
    if (read(0, octets, sizeof octets) <= 0)
        _exit(0);
}

static void hangs(void) {
    for (;;)
        pause();
}

static void ends(void) {
}

/* As a meter_host that has no such item. */
static void older(void) {
    for (;;) {
        take_item();
        answer("\x80\0\1\4", 4);
    }
}

/* Speaks the version, and then answers nothing more. */
static void stops(void) {
    take_item();
    answer("\x80\0\1\0", 4);
    hangs();
}

/* Speaks the version, and then gives an octet now and then, for ever. */
static void drips(void) {
    struct timespec a_moment = {0, 20000000};
    take_item();
    answer("\x80\0\1\0", 4);
    take_item();
    for (;;) {
        answer("\x80", 1);
        nanosleep(&a_moment, NULL);
    }
}

/* Speaks the version and opens, and then gives a frame, and a record after it. */
static void turns_round(void) {
    take_item();
    answer("\x80\0\1\0", 4);
    take_item();
    answer("\x80\0\1\0", 4);
    take_item();
    answer("\x82\0\5\0\0\0\0\x55" "\x81\0\5\0\0\0\1\x55" "\x80\0\1\0", 20);
    hangs();
}

static const struct {
    const char *name;
    void (*run)(void);
} others[] = {{"hangs", hangs}, {"ends", ends}, {"older", older}, {"stops", stops}, {"drips", drips}, {"turns_round", turns_round}};

/* # The owner */

static int given;

static int store(void *self, uint32_t slot, const uint8_t *octets, size_t count) {
    (void)slot, (void)octets, (void)count;
    given++;
    /* A call from here is refused, and changes nothing. */
    check(self == NULL || meter_tick(self, 0) == METER_MALFORMED, "a call from store");
    return 0;
}

static void send_frame(void *self, uint32_t note, const uint8_t *octets, size_t count) {
    (void)self, (void)note, (void)octets, (void)count;
    given++;
}

static void up(void *self, uint16_t from, uint32_t note, const uint8_t *octets, size_t count) {
    (void)from;
    send_frame(self, note, octets, count);
}

static const uint8_t zeros[16];
/* Longer than a program takes to start on a machine that has much to do. */
static const struct meter_device device = {NULL, store, send_frame, up, NULL, 30000};

static int64_t now_ms(void) {
    struct timespec now;
    clock_gettime(CLOCK_MONOTONIC, &now);
    return (int64_t)now.tv_sec * 1000 + now.tv_nsec / 1000000;
}

static int has_no_child(void) {
    return waitpid(-1, NULL, WNOHANG) < 0 && errno == ECHILD;
}

static const char *path(const char *folder, const char *name) {
    static char text[4096];
    snprintf(text, sizeof text, "%s/%s", folder, name);
    return text;
}

/* A program of this name answers so to meter_start, and so to meter_open; one that is late is waited for 0.2 seconds. It ends, and leaves no child. */
static void ends_as(const char *folder, const char *name, int started, int opened) {
    struct meter m;
    struct meter_device of = device;
    given = 0;
    of.wait_ms = started == METER_LATE ? 200 : device.wait_ms;
    check(meter_start(&m, path(folder, name), of) == started, name);
    m.device.wait_ms = opened == METER_LATE ? 200 : device.wait_ms;
    int64_t begun = now_ms();
    check(meter_open(&m, zeros, zeros) == opened, name);
    if (opened != METER_DONE)
        check(meter_tick(&m, 0) == m.ended && m.ended != METER_DONE, name);
    else
        check(meter_tick(&m, 0) == METER_GONE, name);
    meter_end(&m);
    check(given == 0 && has_no_child() && now_ms() - begun < device.wait_ms, name);
    check(meter_tick(&m, 0) == METER_GONE, name);
}

static void turn(int signal) {
    (void)signal;
}

/* The sum of the octets of all calls of a meter, from the workshop to a datagram that is sent. */
static int plays(const char *program, int wait_ms) {
    struct meter m;
    struct meter_device of = device;
    of.self = &m, of.wait_ms = wait_ms;
    int right = meter_start(&m, program, of) == METER_DONE && meter_load(&m, 1, NULL, 0) == METER_DONE;
    /* No meter has written a ring of no octets. */
    right = right && meter_open(&m, zeros, zeros) == METER_BAD_STORE && meter_tick(&m, 0) == METER_BAD_STORE;
    meter_end(&m);
    given = 0;
    right = right && meter_start(&m, program, of) == METER_DONE && meter_load(&m, 7, zeros, 2) == METER_MALFORMED;
    right = right && meter_open(&m, zeros, zeros) == METER_DONE && meter_open(&m, zeros, zeros) == METER_MALFORMED;
    right = right && meter_provision(&m, 1, 0, zeros) == METER_DONE && meter_near(&m, 2, 3, 0) == METER_DONE;
    right = right && meter_send(&m, 2, 1, 0, zeros, 5) == METER_DONE && given == 4;
    right = right && meter_send(&m, 2, 1, 0, NULL, 0) == METER_REFUSED && m.refusal == METER_SEND_BAD_SIZE;
    right = right && meter_send(&m, 2, 1, 0, (const uint8_t *)path("", ""), 3000) == METER_MALFORMED && meter_tick(&m, 1) == METER_DONE;
    meter_end(&m);
    meter_end(&m);
    return right && has_no_child();
}

/* Signals come all the time, and their handlers do not restart what they interrupt. */
static void bears_signals(const char *program) {
    struct sigaction how = {.sa_handler = turn};
    struct itimerval often = {{0, 500}, {0, 500}}, never = {{0, 0}, {0, 0}};
    sigaction(SIGALRM, &how, NULL);
    setitimer(ITIMER_REAL, &often, NULL);
    int right = 1;
    for (int i = 0; i < 5; i++)
        right = right && plays(program, device.wait_ms);
    setitimer(ITIMER_REAL, &never, NULL);
    check(right, "a signal ended a call");
}

/* No other program gets the socket. */
static void keeps_its_socket(const char *program) {
    struct meter m;
    char line[256];
    int sockets = 0;
    check(meter_start(&m, program, device) == METER_DONE, "it starts");
    FILE *list = popen("ls -l /proc/self/fd", "r");
    while (list != NULL && fgets(line, sizeof line, list) != NULL)
        sockets += strstr(line, "socket:") != NULL;
    check(list != NULL && pclose(list) == 0 && sockets == 0, "another program has the socket");
    meter_end(&m);
}

/* An owner without standard input and output gives the program both. */
static void starts_without_streams(const char *program) {
    int in = fcntl(0, F_DUPFD_CLOEXEC, 10), out = fcntl(1, F_DUPFD_CLOEXEC, 10);
    fflush(stdout);
    close(0), close(1);
    int right = plays(program, device.wait_ms);
    dup2(in, 0), dup2(out, 1);
    close(in), close(out);
    check(right, "an owner without standard streams");
}

int main(int count, char **words) {
    const char *name = strrchr(words[0], '/') != NULL ? strrchr(words[0], '/') + 1 : words[0];
    for (size_t i = 0; i < sizeof others / sizeof others[0]; i++)
        if (strcmp(name, others[i].name) == 0) {
            others[i].run();
            return 0;
        }
    if (count != 3) {
        fprintf(stderr, "usage: checks METER_HOST FOLDER\n");
        return 2;
    }
    ends_as(words[2], "nothing_is_here", METER_GONE, METER_GONE);
    ends_as(words[2], "ends", METER_GONE, METER_GONE);
    ends_as(words[2], "hangs", METER_LATE, METER_LATE);
    ends_as(words[2], "older", METER_OTHER_VERSION, METER_OTHER_VERSION);
    ends_as(words[2], "stops", METER_DONE, METER_LATE);
    ends_as(words[2], "drips", METER_DONE, METER_GONE);
    ends_as(words[2], "turns_round", METER_DONE, METER_DONE);
    check(plays(words[1], device.wait_ms), "a meter");
    bears_signals(words[1]);
    keeps_its_socket(words[1]);
    starts_without_streams(words[1]);
    printf("checks: %d checks, %d wrong\n", checks, wrong);
    return wrong != 0;
}
