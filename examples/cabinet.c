/*
 * Three cabinets, each with its controller, over one queue of messages (document 02, T-11).
 *
 * The story is that of 01's case K10 with one cabinet more: all three recover; cabinet 3 checks
 * who else coordinates, finds 1 and 2, merges their groups into its own, and gives the task 100, a
 * full peal. At the end the program prints what the bench program prints for the same events:
 * examples/cabinet.list has them as a list, and examples/cabinet.txt the text.
 *
 *     tools/archive
 *     cc -std=c99 -Iinclude -o target/cabinet examples/cabinet.c target/staticlib/libnevraspu.a
 *     target/cabinet
 *
 * In a tower each controller runs in its own cabinet, and the cable is the queue. What whoever runs
 * them has to do is (a) to (d) of include/nevraspu.h; these letters stand below where it is done.
 */
#include "nevraspu.h"

#include <stdio.h>
#include <string.h>

#define CABINETS 3
#define ROOM 64 /* how many messages may wait in the queue */

/* ---- the story: events as fields of a list, with 01's tags ---- */

struct field {
    uint8_t length;
    uint8_t bytes[6];
};

#define RECOVER(i) {4, {0x11, 0, 1, (i)}}
#define CHECK(i) {4, {0x12, 0, 1, (i)}}
#define FINISH(i, task) {6, {0x16, 0, 3, (i), (task) / 256, (task) % 256}}
#define DELIVER(a, b) {5, {0x17, 0, 2, (a), (b)}}
#define LOSE(a, b) {5, {0x18, 0, 2, (a), (b)}}

static const struct field story[] = {
    RECOVER(1), RECOVER(2), RECOVER(3),
    CHECK(3),                     /* 3 asks 1: are you coordinator? */
    DELIVER(3, 1), DELIVER(1, 3), /* 1 says yes; 3 asks 2 */
    DELIVER(3, 2), DELIVER(2, 3), /* 2 says yes; 3 merges: a new group, and it invites 2 */
    DELIVER(3, 2), DELIVER(2, 3), /* 2 calls Accept on 3, and is a member */
    DELIVER(3, 2), DELIVER(2, 3), /* 2 reorganizes and replies; 3 invites 1 */
    DELIVER(3, 1), DELIVER(1, 3), /* 1 calls Accept on 3, and is a member */
    DELIVER(3, 1), DELIVER(1, 3), /* 1 reorganizes and replies; 3 collects */
    FINISH(3, 100),               /* 3 has the task and hands Ready to 2 */
    DELIVER(3, 2), DELIVER(2, 3), /* 2 is Normal; 3 hands Ready to 1 */
    DELIVER(3, 1), DELIVER(1, 3), /* 1 is Normal; all are handed, and 3 is Normal */
};

/* ---- what each cabinet keeps, and what the cable carries ---- */

/* The record of cabinet i is at place i - 1. At the start all bytes are 0: Down, nothing else. */
static uint8_t records[CABINETS][NEVRASPU_RECORD_SIZE];

struct message {
    uint8_t length;
    uint8_t bytes[NEVRASPU_MESSAGE_MOST];
};

/* The messages that wait, the oldest first. */
static struct message queue[ROOM];
static size_t waiting;

static unsigned long sent, delivered, lost;

/* (d) The place of the oldest message from a to b, or `waiting` where there is none. A message
   names its sender in byte 3 and its receiver in byte 4. */
static size_t oldest(uint8_t a, uint8_t b)
{
    size_t at = 0;
    while (at < waiting && !(queue[at].bytes[3] == a && queue[at].bytes[4] == b))
        at++;
    return at;
}

static void take_out(size_t at)
{
    waiting--;
    memmove(&queue[at], &queue[at + 1], (waiting - at) * sizeof queue[0]);
}

/* What a controller gave with the answer 0: its record, the length of a message, the message. Both
   are kept or, (b), where the queue has no room, neither. */
static unsigned keep(uint8_t own, const uint8_t *out)
{
    uint8_t length = out[NEVRASPU_RECORD_SIZE];
    if (length > 0) {
        if (waiting == ROOM)
            return NEVRASPU_QUEUE_FULL;
        queue[waiting].length = length;
        memcpy(queue[waiting].bytes, out + NEVRASPU_RECORD_SIZE + 1, length);
        waiting++;
        sent++;
    }
    memcpy(records[own - 1], out, NEVRASPU_RECORD_SIZE); /* (a) */
    return NEVRASPU_ACCEPTED;
}

/* ---- the events: each answers 0, or the number of its refusal ---- */

/* An event of cabinet i goes to its controller; that of no cabinet to the first, which refuses. */
static unsigned tell(const struct field *f)
{
    uint8_t out[NEVRASPU_OUTCOME_SIZE];
    uint8_t i = f->bytes[3];
    uint8_t own = i >= 1 && i <= CABINETS ? i : 1;
    unsigned answer = nevraspu_controller_event(
        CABINETS, own, records[own - 1], NEVRASPU_RECORD_SIZE,
        f->bytes, f->length, out, sizeof out);
    return answer == NEVRASPU_ACCEPTED ? keep(own, out) : answer;
}

/* The oldest message from a to b goes to b. There is one only where b is a cabinet, since a
   controller sent it. */
static unsigned deliver(uint8_t a, uint8_t b)
{
    uint8_t out[NEVRASPU_OUTCOME_SIZE];
    size_t at = oldest(a, b);
    if (at == waiting)
        return NEVRASPU_NO_MESSAGE;
    const struct message *m = &queue[at];
    unsigned answer = nevraspu_controller_message(
        CABINETS, b, records[b - 1], NEVRASPU_RECORD_SIZE,
        m->bytes, m->length, out, sizeof out);
    if (answer != NEVRASPU_ACCEPTED)
        return answer; /* (c): the message waits on */
    take_out(at);
    delivered++;
    return keep(b, out); /* a place in the queue is free now */
}

/* A message that the cable loses. The story has none. */
static unsigned lose(uint8_t a, uint8_t b)
{
    size_t at = oldest(a, b);
    if (at == waiting)
        return NEVRASPU_NO_MESSAGE;
    take_out(at);
    lost++;
    return NEVRASPU_ACCEPTED;
}

static unsigned happen(const struct field *f)
{
    switch (f->bytes[0]) {
    case 0x17:
        return deliver(f->bytes[3], f->bytes[4]);
    case 0x18:
        return lose(f->bytes[3], f->bytes[4]);
    default:
        return tell(f);
    }
}

/* ---- the text of the bench program ---- */

/* A number in a record, the high byte first. */
static unsigned long number(const uint8_t *bytes, int size)
{
    unsigned long x = 0;
    while (size-- > 0)
        x = x * 256 + *bytes++;
    return x;
}

static void print_cabinet(int i)
{
    const uint8_t *r = records[i - 1];
    unsigned long members = number(r + 12, 2);
    int count = 0;
    for (; members != 0; members /= 2)
        count += (int)(members % 2);
    /* number, status, coordinator, group, task, counter, count of members */
    printf("%d %lu %lu %lu %lu %lu %d\n", i, number(r, 1), number(r + 9, 1), number(r + 5, 4),
           number(r + 10, 2), number(r + 1, 4), count);
}

int main(void)
{
    for (size_t e = 0; e < sizeof story / sizeof story[0]; e++) {
        unsigned answer = happen(&story[e]);
        if (answer != NEVRASPU_ACCEPTED) {
            fprintf(stderr, "event %lu is refused: %u\n", (unsigned long)e + 1, answer);
            return 1;
        }
    }
    printf("cabinets %d\n", CABINETS);
    for (int i = 1; i <= CABINETS; i++)
        print_cabinet(i);
    printf("messages %lu\n", (unsigned long)waiting);
    printf("sent %lu\ndelivered %lu\nlost %lu\n", sent, delivered, lost);
    return 0;
}
