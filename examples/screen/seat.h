/* Seats in words: who acts, what a seat may write, and a write that was denied. */
#ifndef SCREEN_SEAT_H
#define SCREEN_SEAT_H

#include "chassis.h"

/* Who acts, and what that seat may write, node by node. */
void show_seat(const struct chassis *c);

/* Who still acts, and which seats there are. */
void show_seats(const struct chassis *c);

/* What each seat may write of a node, a line each. */
void show_grants(const struct chassis *c, unsigned node, int indent);

/* A configuration write that was denied to the acting seat. */
void show_denied(const struct chassis *c, const uint8_t *event, uint64_t crossings);

/* Whether a register of a node is marked: the acting seat is not 0, and may write it. */
bool is_marked(const struct chassis *c, unsigned node, unsigned at);

/* What the marks of a node say; nothing for seat 0. */
void show_legend(const struct chassis *c, unsigned node);

#endif
