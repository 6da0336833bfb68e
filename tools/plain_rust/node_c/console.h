/* What a program in C needs of its surroundings: a log, an end, and a stop of the library. On a host it is an ordinary program. On bare metal it runs under
 * `qemu-arm -cpu max`, by two calls of Linux: put your board's log and a reset in their place. */
#ifndef CONSOLE_H
#define CONSOLE_H
#include <stddef.h>
#include <stdint.h>

#if __STDC_HOSTED__
#include <stdio.h>
#include <stdlib.h>
#include <string.h>
static inline void print(const char *text) { fputs(text, stdout); }
static inline void end(int status) { exit(status); }
#else
void *memcpy(void *, const void *, size_t);
int memcmp(const void *, const void *, size_t);
void *memset(void *, int, size_t);
long sys_write(int file, const void *octets, size_t count);
void sys_exit(int status);
void start(void);
__asm__(".syntax unified\n.thumb\n"
        ".global sys_write\n.thumb_func\nsys_write:\n push {r7, lr}\n movs r7, #4\n svc #0\n pop {r7, pc}\n"
        ".global sys_exit\n.thumb_func\nsys_exit:\n movs r7, #1\n svc #0\n b sys_exit\n"
        ".global start\n.thumb_func\nstart:\n bl main\n b sys_exit\n");
static inline void print(const char *text) {
    size_t count = 0;
    while (text[count] != 0)
        count++;
    sys_write(1, text, count);
}
static inline void end(int status) { sys_exit(status); }
int main(void);
#endif

static inline void print_number(unsigned number) {
    char text[12] = {0};
    unsigned at = 11;
    do
        text[--at] = (char)('0' + number % 10), number /= 10;
    while (number > 0);
    print(text + at);
}

static inline void print_octets(const uint8_t *octets, size_t count) {
    char text[3] = {0};
    for (size_t i = 0; i < count; i++) {
        text[0] = "0123456789abcdef"[octets[i] >> 4], text[1] = "0123456789abcdef"[octets[i] & 15];
        print(text);
    }
    print("\n");
}

void meter_stop(const uint8_t *why, size_t count) {
    (void)why, (void)count;
    print("stopped\n");
    end(101);
    for (;;)
        continue;
}
#endif
