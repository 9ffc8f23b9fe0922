/* A lesson on sharing a bus: ten members in two groups, two rings, and whose turn it is. It has nothing to do with the rack. */
#ifndef SCREEN_ARBITER_H
#define SCREEN_ARBITER_H

#include <stdint.h>

/* A new lesson with these high members; shows both rings. */
void begin_arbiter(uint16_t high_members);

/* One step: who is granted, where both rings stand then, and who waits. */
void request(uint16_t members);

#endif
