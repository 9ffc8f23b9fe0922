/* Rack files: the one that the lesson begins with, another in its place, and the rack saved as it is now. */
#ifndef SCREEN_SAVED_H
#define SCREEN_SAVED_H

#include "chassis.h"

/* The file that the lesson begins with; false where it cannot, which is said. */
bool begin_with(struct chassis *c, const char *name);

/* Another file in place of the present rack, and its tree; where that cannot be, the present rack stays. */
void open_rack(struct chassis *c, const char *name);

/* The rack and its registers as a file, over one that has this name. */
void save_rack(const struct chassis *c, const char *name);

#endif
