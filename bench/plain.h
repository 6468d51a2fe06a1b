/* Document 01 in plain C11: what the product is measured against. Each does what lingfallow_analyse does, on every
 * input, refused ones too.
 */
#ifndef PLAIN_H
#define PLAIN_H

#include "lingfallow.h"

enum { HOUSE_DEFAULT = LINGFALLOW_METHOD_IBN }; /* what method 0 means */

/* The fastest form (plain.c). */
struct lingfallow_returned plain_analyse(const uint8_t *plan, size_t plan_length, uint8_t *reply, size_t reply_length);

/* Flow after flow in plan order (steps.c). */
struct lingfallow_returned steps_analyse(const uint8_t *plan, size_t plan_length, uint8_t *reply, size_t reply_length);

#endif
