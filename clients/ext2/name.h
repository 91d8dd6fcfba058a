/* name.h: the names that logs have in their headers. */
#ifndef E2TX_NAME_H
#define E2TX_NAME_H

#include <stdint.h>

enum { NAME = 16 };

/* The name that the log of a volume has: the last one of the home device's path, as it is where it is short, or else its beginning and a
 * sum of it. */
void name_of(const char *path, uint8_t name[NAME]);

/* The name that a log has whose texts count all together or not at all, where they are so many. No file can be called so: `xth recover`,
 * which lays each text for itself, leaves such a log alone. */
void name_together(const uint8_t name[NAME], uint32_t texts, uint8_t together[NAME]);

/* How many texts count together in a log with this name; 0 where each counts for itself. */
uint32_t texts_together(const uint8_t name[NAME]);

#endif
