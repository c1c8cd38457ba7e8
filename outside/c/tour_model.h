/* The tour model checker, for C. Link libportal.a.
 *
 * A lent slice is a pointer and a length in bytes. A pointer may be null where its length is 0. Lent buffers may not overlap.
 * Every call ends on all inputs, reads and writes nothing beyond what it was lent, and keeps no state.
 *
 * The result is one 64-bit number. Its upper 32 bits are 0 exactly when the call accepts:
 *
 *     refused    rule * 2^32 + place    the lowest broken rule (1 to 31) and the first record that breaks it;
 *                                       the place is 0 where no record is at fault
 *     accepted   below 2^32             the numbers that the call reports, as said at each function
 *
 * A refusal leaves every lent byte as it was.
 *
 * No call takes memory other than its stack, and of that at most the bytes below, whatever it is lent.
 */
#ifndef TOUR_MODEL_H
#define TOUR_MODEL_H

#include <stddef.h>
#include <stdint.h>

#define TOUR_LARGEST_MODEL 13348    /* bytes of the largest model image that rule 1 lets pass */
#define TOUR_LARGEST_INSTANCE 14344 /* bytes of the largest instance image that rule 20 lets pass */
#define TOUR_LARGEST_MEMBERS 16390  /* bytes of the largest members image that rule 30 lets pass */

#define TOUR_STACK_MODEL 32768    /* bytes of stack that tour_check_model needs at most */
#define TOUR_STACK_INSTANCE 49152 /* tour_check_instance */
#define TOUR_STACK_WALK 49152     /* tour_walk */
#define TOUR_STACK_MEMBERS 32768  /* tour_check_members */

/* The numbers of a result. */
#define TOUR_REFUSED(result) ((result) >> 32 != 0)
#define TOUR_RULE(result) ((uint32_t)((result) >> 32))
#define TOUR_PLACE(result) ((uint32_t)((result) & 0xffffffffu))
#define TOUR_RESULTS(result) ((uint32_t)((result) >> 16 & 0xffffu))
#define TOUR_OPENED(result) ((uint32_t)((result) & 0xffffu))

/* Checks a model image by rules 1 to 19. Accepted: the number of segments, and in the resolution buffer two bytes for each of them,
 * high byte first: the number of the property that it resolves to, or 32768 + the type number of a cast. The buffer has at least two
 * bytes a segment (rule 2); the bytes after those stay. */
uint64_t tour_check_model(const uint8_t *image, size_t image_length, uint8_t *resolution, size_t resolution_length);

/* Checks an instance image against a model image: rules 1 and 3 to 19 of the model, then 20 to 26, whose places count in the instance
 * image. Accepted: 0. */
uint64_t tour_check_instance(const uint8_t *model, size_t model_length, const uint8_t *instance, size_t instance_length);

/* Checks a members image against a model image: rules 1 and 3 to 19 of the model, then 30 and 31, whose places count in the members
 * image. Accepted: 0. */
uint64_t tour_check_members(const uint8_t *model, size_t model_length, const uint8_t *members, size_t members_length);

/* Walks a path of the record at a place of the model (path 0, or 1 for a principal or target path) from a node of the instance:
 * the refusals of the instance check, then 27 to 29. Accepted: results * 65536 + opened slots, and the results as items of 4 bytes
 * (type reference, then a handle of 24 bits, high byte first; null is 255 with handle 0). The buffer has at least
 * 4 * (1 + slots + items) bytes (rule 29); the bytes after the results stay. */
uint64_t tour_walk(const uint8_t *model, size_t model_length, const uint8_t *instance, size_t instance_length, uint32_t place,
                   uint32_t path, uint32_t node, uint8_t *results, size_t results_length);

#endif
