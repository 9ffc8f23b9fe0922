/* A rack, its nodes by number, its seats, its registers, and who acts. */
#ifndef SCREEN_CHASSIS_H
#define SCREEN_CHASSIS_H

#include "../../include/rack.h"

#include <stdbool.h>

struct chassis {
    uint8_t rack[RACK_MOST_BYTES];
    size_t count; /* bytes of host, nodes and seats, which the calls take as the rack */
    const uint8_t *node[RACK_MOST_NODES];
    unsigned nodes;
    const uint8_t *grant[1 + RACK_MOST_SEATS][RACK_MOST_NODES]; /* a seat's record for a node, or null */
    uint8_t seat;                                               /* who acts */
    uint8_t bridges[RACK_MOST_BRIDGES * RACK_NODE_BYTES], devices[RACK_MOST_DEVICES * RACK_NODE_BYTES];
    size_t bridge_bytes, device_bytes;
};

/* Where the fields of a bridge's and of a device's record lie, the kind's byte counted. */
enum { AT_PARENT = 1, AT_DEVICE = 2, AT_VENDOR_ID = 3, AT_DEVICE_ID = 5 };

/* And those of a seat record. */
enum { AT_SEAT = 1, AT_NODE = 2, AT_MASK = 3 };

/* The rack of a file with the registers that it begins with, and seat 0 to act. Its events may be refused too, and are left to the class.
 * A refusal leaves the rack that was there before. */
uint8_t load(struct chassis *c, const uint8_t *file, size_t count);

uint8_t reset(struct chassis *c);

/* Of either kind. */
bool is_bridge(const struct chassis *c, unsigned node);

/* A node's 64 registers in the image that holds them. */
const uint8_t *registers_of(const struct chassis *c, unsigned node);

/* Whether a node is a bridge that resets the bus below it. */
bool is_resetting(const struct chassis *c, unsigned node);

/* The bridge that holds the bus of this holder at reset, or that holds this node: the holder itself, or one above it, that resets;
 * RACK_NODE_HOST where there is none. */
unsigned bus_held_by(const struct chassis *c, unsigned holder);
unsigned node_held_by(const struct chassis *c, unsigned node);

/* Whether a seat other than 0 has a record, and whether any has. */
bool has_record(const struct chassis *c, unsigned seat);
bool has_seats(const struct chassis *c);

/* What a seat other than 0 may write of a node: bit i for the dword at register 4 i. */
uint16_t granted(const struct chassis *c, unsigned seat, unsigned node);

#endif
