/* The archive's seven calls over a script of calls (CALLS.md, operations 8 to 12, 14 and 15). Every buffer is allocated just as long as
 * it is given, so that address sanitizer sees a step outside. */
#include "../include/rack.h"

#include <stdio.h>
#include <stdlib.h>
#include <string.h>

enum { SAVE = 14, MOST_BUFFER = 16384 };

struct bytes {
    uint8_t *at;
    size_t count;
};

static size_t number(const uint8_t *at, int count)
{
    size_t value = 0;
    for (int i = count; i > 0; i--) {
        value = value << 8 | at[i - 1];
    }
    return value;
}

static struct bytes room(size_t count)
{
    struct bytes b = {malloc(count == 0 ? 1 : count), count};
    if (b.at == NULL) {
        exit(1);
    }
    return b;
}

static struct bytes take(size_t count)
{
    struct bytes b = room(count);
    if (fread(b.at, 1, count, stdin) != count) {
        exit(0); /* cut short: the script ends at its last whole call */
    }
    return b;
}

/* The buffer that a call lends: of no byte where it lends none. */
static struct bytes lend(const uint8_t *head)
{
    size_t count = head[0] == SAVE ? number(&head[14], 4) : 0;
    if (count > MOST_BUFFER) {
        fprintf(stderr, "archive: a buffer of %zu bytes\n", count);
        exit(1);
    }
    struct bytes b = room(count);
    memset(b.at, head[13], count);
    return b;
}

static uint8_t call(const uint8_t *head, struct bytes rack, struct bytes event, struct bytes bridges, struct bytes devices,
                    struct bytes buffer, uint64_t answer[RACK_ANSWER_NUMBERS])
{
    switch (head[0]) {
    case 8:
        return rack_run(rack.at, rack.count, head[11], event.at, event.count, bridges.at, bridges.count, devices.at, devices.count,
                        answer);
    case 9:
        return rack_check(rack.at, rack.count, bridges.at, bridges.count, devices.at, devices.count, answer);
    case 10:
        memset(answer, 0, RACK_ANSWER_NUMBERS * sizeof *answer);
        return rack_reset(rack.at, rack.count, bridges.at, bridges.count, devices.at, devices.count);
    case 11:
        return rack_window(rack.at, rack.count, bridges.at, bridges.count, devices.at, devices.count, head[11], head[12], answer);
    case 12:
        return rack_grant((uint16_t)number(&head[14], 2), (uint16_t)number(&head[16], 2), head[11], head[12], answer);
    case SAVE:
        return rack_save(rack.at, rack.count, bridges.at, bridges.count, devices.at, devices.count, buffer.at, buffer.count, answer);
    case 15:
        return rack_open(rack.at, rack.count, bridges.at, bridges.count, devices.at, devices.count, answer);
    default:
        fprintf(stderr, "archive: operation %u is no call of the archive\n", head[0]);
        exit(1);
    }
}

static void put(uint8_t code, const uint64_t answer[RACK_ANSWER_NUMBERS], struct bytes buffer, struct bytes bridges, struct bytes devices)
{
    putchar(code);
    for (int i = 0; i < RACK_ANSWER_NUMBERS; i++) {
        for (int shift = 0; shift < 64; shift += 8) {
            putchar((int)(answer[i] >> shift & 255));
        }
    }
    putchar((int)(buffer.count & 255));
    putchar((int)(buffer.count >> 8));
    fwrite(buffer.at, 1, buffer.count, stdout);
    fwrite(bridges.at, 1, bridges.count, stdout);
    fwrite(devices.at, 1, devices.count, stdout);
}

int main(void)
{
    uint8_t head[18];
    while (fread(head, 1, sizeof head, stdin) == sizeof head) {
        struct bytes rack = take(number(&head[1], 4)), event = take(number(&head[5], 2));
        struct bytes bridges = take(number(&head[7], 2)), devices = take(number(&head[9], 2));
        struct bytes buffer = lend(head);
        uint64_t answer[RACK_ANSWER_NUMBERS];
        memset(answer, 0xA5, sizeof answer); /* what a call leaves unwritten shows */
        uint8_t code = call(head, rack, event, bridges, devices, buffer, answer);
        put(code, answer, buffer, bridges, devices);
        free(rack.at), free(event.at), free(bridges.at), free(devices.at), free(buffer.at);
    }
    return 0;
}
