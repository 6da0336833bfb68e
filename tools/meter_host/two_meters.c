/* Two meters that talk: the line of examples/two_meters. It prints the frame that goes from one to the other, and what is handed up. Then the second
 * meter is started again over what it stored, and refuses the same frame, whose counter it has kept.
 *
 *     two_meters METER_HOST     the path of the program meter_host
 */
#include "meter.h"
#include <stdio.h>
#include <stdlib.h>
#include <string.h>

enum { RECORDS = 166 };   /* as many slots as a meter has */

struct record {
    uint32_t slot;
    size_t count;
    uint8_t octets[METER_RECORD_MAX];
};

/* A meter, with its store in memory, by rising slots, and the last frame that it sent. */
struct node {
    struct meter meter;
    uint8_t number;
    size_t stored;
    struct record records[RECORDS];
    size_t count;
    uint8_t frame[METER_FRAME_MAX];
};

static void print(const uint8_t *octets, size_t count) {
    for (size_t i = 0; i < count; i++)
        printf("%02x", octets[i]);
    printf("\n");
}

static int store(void *self, uint32_t slot, const uint8_t *octets, size_t count) {
    struct node *node = self;
    size_t at = 0;
    while (at < node->stored && node->records[at].slot < slot)
        at++;
    if (at == node->stored || node->records[at].slot != slot) {
        if (node->stored == RECORDS || count > METER_RECORD_MAX)
            return -1;
        memmove(&node->records[at + 1], &node->records[at], (node->stored - at) * sizeof node->records[0]);
        node->stored++;
    }
    node->records[at].slot = slot;
    node->records[at].count = count;
    memcpy(node->records[at].octets, octets, count);
    return 0;
}

static void send_frame(void *self, uint32_t note, const uint8_t *octets, size_t count) {
    struct node *node = self;
    (void)note;
    memcpy(node->frame, octets, count);
    node->count = count;
    printf("fly ");
    print(octets, count);
}

static void up(void *self, uint16_t from, uint32_t note, const uint8_t *octets, size_t count) {
    (void)self;
    printf("up %u from %04x: ", (unsigned)note, from);
    print(octets, count);
}

static void need(const char *what, int status, int wanted) {
    if (status == wanted)
        return;
    fprintf(stderr, "%s: status %d, and not %d\n", what, status, wanted);
    exit(1);
}

/* Starts a meter over what it stored. */
static void start(struct node *node, const char *program) {
    uint8_t eui[8] = {0, 0, 0, 0, 0, 0, 0, (uint8_t)(1 + node->number)}, psk[16];
    struct meter_device device = {node, store, send_frame, up, NULL, 0};
    for (int k = 0; k < 16; k++)
        psk[k] = (uint8_t)(16 * node->number + k);
    need("start", meter_start(&node->meter, program, device), METER_DONE);
    for (size_t i = 0; i < node->stored; i++)
        need("load", meter_load(&node->meter, node->records[i].slot, node->records[i].octets, node->records[i].count), METER_DONE);
    need("open", meter_open(&node->meter, eui, psk), METER_DONE);
}

int main(int count, char **words) {
    static const uint8_t key[16] = {0, 1, 2, 3, 4, 5, 6, 7, 8, 9, 10, 11, 12, 13, 14, 15};
    static struct node nodes[2];
    struct node *one = &nodes[0], *two = &nodes[1];
    if (count != 2) {
        fprintf(stderr, "usage: two_meters METER_HOST\n");
        return 2;
    }
    for (uint8_t i = 0; i < 2; i++) {
        nodes[i].number = (uint8_t)(1 + i);
        start(&nodes[i], words[1]);
        need("provision", meter_provision(&nodes[i].meter, nodes[i].number, 0, key), METER_DONE);
        need("near", meter_near(&nodes[i].meter, (uint16_t)(3 - nodes[i].number), 3, 0), METER_DONE);
    }
    need("send", meter_send(&one->meter, 2, 1, 0, (const uint8_t *)"Hello", 5), METER_DONE);
    need("hear", meter_hear(&two->meter, 3, 1, 0, one->frame, one->count), METER_DONE);
    meter_end(&two->meter);
    start(two, words[1]);
    need("hear again", meter_hear(&two->meter, 3, 1, 0, one->frame, one->count), METER_REFUSED);
    need("why", two->meter.refusal, METER_HEAR_REPLAYED);
    printf("refused the second time, over %zu records\n", two->stored);
    meter_end(&one->meter), meter_end(&two->meter);
    return 0;
}
