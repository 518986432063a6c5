/* The second coder's listing: what document 01's listing program has to print for an input, written from that document alone, on top of the
 * second coder's bundles. */
#ifndef SECOND_LISTING_H
#define SECOND_LISTING_H

#include "second.h"

#include <stddef.h>
#include <stdint.h>

/* What the program serves: bytes of input, n, L. LISTING_ROOM is room for the longest listing, 256 lines of at most 18 bytes and two more. */
enum { INPUT_SERVED = 24576, N_SERVED = 256, L_SERVED = 24576, LISTING_ROOM = 8192 };

/* Writes the text with a zero byte behind it, and gives the answer that its last line tells: OK with place 0, or a refusal. */
struct second_answer second_listing(const uint8_t *input, size_t length, char *text);

#endif
