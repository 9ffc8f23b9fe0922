#include "held.h"

#include "show.h"

#include <stdio.h>

static bool is_held(const struct chassis *c, unsigned node) { return node_held_by(c, node) != RACK_NODE_HOST; }

void show_mark(const struct chassis *c, unsigned node)
{
    if (is_held(c, node)) {
        printf(", held at reset by ");
        show_name(c, node_held_by(c, node));
    } else if (is_resetting(c, node)) {
        printf(", resets the bus below it");
    }
}

void show_held_bus(const struct chassis *c, unsigned node, int indent)
{
    if (is_bridge(c, node) && bus_held_by(c, node) != RACK_NODE_HOST) {
        printf("%*sbus below    held at reset\n", indent, "");
    }
}

void show_hold(const struct chassis *c, unsigned node)
{
    if (is_held(c, node)) {
        printf("  held at reset by ");
        show_name(c, node_held_by(c, node));
        printf(": it claims and drives nothing, and no configuration access finds it%s\n",
               is_bridge(c, node) ? "; the bus below it is held too" : "");
    } else if (is_resetting(c, node)) {
        printf("  bit 6 of bridge control (%02X) is set: everything below is held at reset\n", RACK_CONTROL_AT);
    }
}

void show_silent(const struct chassis *c, unsigned node)
{
    printf("silent: ");
    if (is_held(c, node)) {
        show_name(c, node);
        printf(" is held at reset by ");
        show_name(c, node_held_by(c, node));
        printf(", and drives nothing\n");
    } else {
        printf("the initiator may not drive its bus\n");
    }
}

void show_bus_change(const struct chassis *c, const struct chassis *before, unsigned node)
{
    if (is_resetting(c, node) == is_resetting(before, node)) {
        return;
    }
    printf("  ");
    show_name(c, node);
    puts(is_resetting(c, node) ? " resets the bus below it, and everything below is held" : " no longer resets the bus below it");
}

bool show_node_change(const struct chassis *c, const struct chassis *before, unsigned node)
{
    if (is_held(c, node) == is_held(before, node)) {
        return false;
    }
    printf("  ");
    show_name(c, node);
    puts(is_held(c, node) ? " is held, with every register at reset" : " is let go, with every register at reset");
    return true;
}
