/* Bus resets in words: which bridge holds what at reset, and what an event did to that. */
#ifndef SCREEN_HELD_H
#define SCREEN_HELD_H

#include "chassis.h"

/* Behind the name of a node: that it is held, or resets the bus below it; nothing for any other. Ends no line. */
void show_mark(const struct chassis *c, unsigned node);

/* A line for the bus below a bridge that is held; nothing for any other. */
void show_held_bus(const struct chassis *c, unsigned node, int indent);

/* What is said of a node that is held, or that resets, below its registers; nothing for any other. */
void show_hold(const struct chassis *c, unsigned node);

/* An access that a card did not start. */
void show_silent(const struct chassis *c, unsigned node);

/* That a bridge resets its bus from now on, or no longer; nothing where it is as before. */
void show_bus_change(const struct chassis *c, const struct chassis *before, unsigned node);

/* The same of a node that is held from now on, or no longer; false where it is as before. */
bool show_node_change(const struct chassis *c, const struct chassis *before, unsigned node);

#endif
