/* What the screen shows. Addresses, offsets, registers, buses and device numbers are hexadecimal, as lspci has them; nodes decimal. */
#ifndef SCREEN_SHOW_H
#define SCREEN_SHOW_H

#include "chassis.h"

void show_refusal(uint8_t number);

void show_name(const struct chassis *c, uint64_t node);

/* How many bridges an access crossed; ends the line. */
void show_crossings(uint64_t crossings);

/* The rack with both ends of every window and region, what is held at reset, and what each seat may write. */
void show_tree(const struct chassis *c);

/* How an event that was neither denied nor silent, or the check, ended. */
void show_answer(const struct chassis *c, const uint64_t answer[RACK_ANSWER_NUMBERS]);

/* The registers that an event changed; of a node that is held or let go since, that alone. */
void show_changes(const struct chassis *c, const struct chassis *before);

/* The 64 registers of a node; those that the acting seat may write are marked, unless it may write all; and whether it is held. */
void show_registers(const struct chassis *c, unsigned node);

#endif
