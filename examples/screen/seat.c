#include "seat.h"

#include "show.h"

#include <stdio.h>

static bool has(uint16_t mask, unsigned dword) { return (mask >> dword & 1) != 0; }

/* Registers by number, dwords that follow each other as one run: 04 to 07, 18 to 27. */
static void show_mask(uint16_t mask)
{
    const char *before = "";
    for (unsigned i = 0; i < RACK_NODE_DWORDS; i++) {
        if (!has(mask, i)) {
            continue;
        }
        if (i == 0 || !has(mask, i - 1)) {
            printf("%s%02X", before, 4 * i);
            before = ", ";
        }
        if (i + 1 == RACK_NODE_DWORDS || !has(mask, i + 1)) {
            printf(" to %02X", 4 * i + 3);
        }
    }
    puts(mask == 0 ? "nothing" : "");
}

void show_seat(const struct chassis *c)
{
    if (c->seat == RACK_SEAT_ALL) {
        printf("seat 0 acts, which may write every register\n");
        return;
    }
    printf("seat %u acts; of the registers below 40 it may write\n", c->seat);
    for (unsigned i = 0; i < c->nodes; i++) {
        if (c->grant[c->seat][i] != NULL) {
            printf("  of ");
            show_name(c, i);
            printf(": ");
            show_mask(granted(c, c->seat, i));
        }
    }
    printf("  of every other node: nothing\n");
}

void show_seats(const struct chassis *c)
{
    printf("  seat %u still acts; seats with a record:", c->seat);
    for (unsigned seat = 1; seat <= RACK_MOST_SEATS; seat++) {
        if (has_record(c, seat)) {
            printf(" %u", seat);
        }
    }
    puts(has_seats(c) ? "" : " none");
}

void show_grants(const struct chassis *c, unsigned node, int indent)
{
    for (unsigned seat = 1; seat <= RACK_MOST_SEATS; seat++) {
        if (c->grant[seat][node] != NULL) {
            printf("%*sseat %-7u may write ", indent, "", seat);
            show_mask(granted(c, seat, node));
        }
    }
}

/* The answer names no node: which one it reached the routes know, and the screen decodes no register. */
void show_denied(const struct chassis *c, const uint8_t *event, uint64_t crossings)
{
    printf("denied, and nothing stored,");
    show_crossings(crossings);
    printf("  seat %u may not write register %02X of device %02X on bus %02X; 'seat' shows what it may write\n", c->seat, event[3],
           event[2] / 8, event[1]);
}

bool is_marked(const struct chassis *c, unsigned node, unsigned at)
{
    return c->seat != RACK_SEAT_ALL && has(granted(c, c->seat, node), at / 4);
}

void show_legend(const struct chassis *c, unsigned node)
{
    if (c->seat == RACK_SEAT_ALL) {
        return;
    }
    if (granted(c, c->seat, node) == 0) {
        printf("  seat %u may write none of these\n", c->seat);
    } else {
        printf("  * seat %u may write it; a fixed bit keeps its value\n", c->seat);
    }
}
