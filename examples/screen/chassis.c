#include "chassis.h"

#include <string.h>

/* The bytes of a rack record of this kind, its kind's byte too; 0 where it is none. */
static size_t record_bytes(uint8_t kind)
{
    switch (kind) {
    case RACK_KIND_HOST: return 1 + RACK_BODY_HOST;
    case RACK_KIND_BRIDGE: return 1 + RACK_BODY_BRIDGE;
    case RACK_KIND_OLDER_BRIDGE: return 1 + RACK_BODY_OLDER_BRIDGE;
    case RACK_KIND_DEVICE: return 1 + RACK_BODY_DEVICE;
    case RACK_KIND_SEAT: return 1 + RACK_BODY_SEAT;
    default: return 0;
    }
}

static void take_record(struct chassis *c, const uint8_t *record)
{
    if (record[0] == RACK_KIND_SEAT) {
        c->grant[record[AT_SEAT]][record[AT_NODE]] = record;
    } else if (record[0] != RACK_KIND_HOST) {
        c->node[c->nodes++] = record;
    }
}

/* The nodes and seats of an accepted rack, so that each of them has room. */
static void find_records(struct chassis *c)
{
    for (size_t at = 0; at < c->count; at += record_bytes(c->rack[at])) {
        take_record(c, &c->rack[at]);
    }
}

bool is_bridge(const struct chassis *c, unsigned node)
{
    uint8_t kind = c->node[node][0];
    return kind == RACK_KIND_BRIDGE || kind == RACK_KIND_OLDER_BRIDGE;
}

const uint8_t *registers_of(const struct chassis *c, unsigned node)
{
    size_t place = 0;
    for (unsigned i = 0; i < node; i++) {
        place += is_bridge(c, i) == is_bridge(c, node);
    }
    return (is_bridge(c, node) ? c->bridges : c->devices) + RACK_NODE_BYTES * place;
}

bool is_resetting(const struct chassis *c, unsigned node)
{
    return is_bridge(c, node) && (registers_of(c, node)[RACK_CONTROL_AT] & RACK_CONTROL_BUS_RESET) != 0;
}

unsigned bus_held_by(const struct chassis *c, unsigned holder)
{
    while (holder != RACK_NODE_HOST && !is_resetting(c, holder)) {
        holder = c->node[holder][AT_PARENT];
    }
    return holder;
}

unsigned node_held_by(const struct chassis *c, unsigned node) { return bus_held_by(c, c->node[node][AT_PARENT]); }

bool has_record(const struct chassis *c, unsigned seat)
{
    bool has = false;
    for (unsigned i = 0; i < c->nodes; i++) {
        has = has || c->grant[seat][i] != NULL;
    }
    return has;
}

bool has_seats(const struct chassis *c)
{
    bool has = false;
    for (unsigned seat = 1; seat <= RACK_MOST_SEATS; seat++) {
        has = has || has_record(c, seat);
    }
    return has;
}

uint16_t granted(const struct chassis *c, unsigned seat, unsigned node)
{
    const uint8_t *record = c->grant[seat][node];
    return (uint16_t)(record == NULL ? 0 : record[AT_MASK] | record[AT_MASK + 1] << 8);
}

uint8_t reset(struct chassis *c)
{
    return rack_reset(c->rack, c->count, c->bridges, c->bridge_bytes, c->devices, c->device_bytes);
}

uint8_t load(struct chassis *c, const uint8_t *file, size_t count)
{
    uint64_t answer[RACK_ANSWER_NUMBERS];
    uint8_t refusal = rack_open(file, count, c->bridges, 0, c->devices, 0, answer); /* how long are the images? */
    if (refusal != 0 && refusal != RACK_REFUSED_IMAGE_LENGTH) {
        return refusal;
    }
    memset(c, 0, sizeof *c);
    c->bridge_bytes = RACK_NODE_BYTES * (size_t)answer[1];
    c->device_bytes = RACK_NODE_BYTES * (size_t)answer[2];
    refusal = rack_open(file, count, c->bridges, c->bridge_bytes, c->devices, c->device_bytes, answer);
    c->count = (size_t)answer[0];
    memcpy(c->rack, file, c->count);
    find_records(c);
    return refusal;
}
