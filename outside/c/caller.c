/* Calls the four exported functions on the worked example and on a model of two enumerations, with buffers of exactly the stated size, and
 * prints their answers. */
#include "tour_model.h"

#include <stdio.h>
#include <stdlib.h>
#include <string.h>

/* The worked example: 167 bytes. */
static const uint8_t tour[] = {
    4, 2, 0, 1, 0, 3, 0, 6, 0, 2, 0, 0, 0, 2, 0, 1, 0, 4, 0, 44, 0, 0, 16, 0, 0, 0, 0, 0, 0, 65, 0, 0, 0, 0, 1,
    65, 0, 2, 0, 0, 2, 65, 0, 0, 18, 192, 52, 8, 0, 0, 3, 64, 64, 60, 20, 0, 0, 4, 18, 192, 52, 8, 0, 0, 4, 128,
    128, 80, 20, 0, 0, 6, 128, 64, 100, 16, 0, 0, 8, 20, 0, 116, 16, 0, 0, 0, 0, 8, 0, 0, 0, 4, 0, 136, 0, 0, 0,
    0, 2, 16, 80, 1, 2, 96, 96, 0, 1, 16, 32, 0, 0, 0, 13, 2, 0, 13, 2, 0, 15, 5, 0, 25, 4, 103, 84, 111, 117,
    114, 83, 116, 111, 112, 84, 101, 120, 116, 78, 111, 83, 116, 111, 112, 115, 76, 97, 98, 101, 108, 78, 101,
    120, 116, 76, 97, 110, 103, 84, 111, 117, 114, 115, 83, 112, 97, 114, 101, 115,
};

/* An instance of it: a tour with two stops, the first of which leads to the second. */
static const uint8_t visit[] = {
    4, 2, 0, 4, 0, 9, 0, 8, 0, 0, 0, 64, 4, 1, 0, 96, 4, 2, 128, 96, 8, 4, 0, 32, 0, 32, 0, 0, 32, 0, 192, 2, 0,
    64, 1, 32, 6, 0, 32, 1, 128, 0, 0, 0, 2, 32, 8, 0, 32, 1, 32, 10, 0, 32, 1, 160, 12, 0, 32, 2, 0, 0, 0, 0, 2,
    160, 14, 0, 32, 75, 0, 0, 7, 1, 0, 0, 1, 1, 0, 0, 2, 75, 0, 0, 1, 1, 0, 0, 2, 75, 0, 0, 2, 2, 0, 0, 3, 80, 0,
    0, 5,
};

/* A model of two enumerations, Tone of Byte and Step of Int32: 46 bytes. */
static const uint8_t tones[] = {
    4, 2, 0, 1, 0, 2, 0, 0, 0, 0, 0, 0, 0, 0, 0, 0, 0, 0, 0, 9, 0, 0, 16, 0, 0, 4, 0, 12, 0, 65, 0, 4, 0, 44, 1,
    65, 0, 103, 84, 111, 110, 101, 83, 116, 101, 112,
};

/* Its members: Tone.Low is 0, Step.Up has no given value, Tone.High is 255. */
static const uint8_t tone_members[] = {
    4, 2, 0, 3, 0, 9, 2, 0, 0, 96, 0, 0, 0, 0, 0, 0, 0, 0, 4, 0, 96, 64, 0, 0, 0, 0, 0, 0, 0, 0, 2, 0, 160, 128, 0,
    0, 0, 0, 0, 0, 31, 224, 76, 111, 119, 85, 112, 72, 105, 103, 104,
};

enum { BINDING = 14, SEGMENTS = 4, SLOTS = 9, ITEMS = 8 };

/* Bytes on the heap, so that a checker of memory sees their exact ends. */
static uint8_t *copy(const uint8_t *bytes, size_t length)
{
    uint8_t *space = malloc(length > 0 ? length : 1);
    if (space == NULL)
        exit(2);
    if (length > 0)
        memcpy(space, bytes, length);
    return space;
}

static uint8_t *filled(size_t length)
{
    uint8_t *space = malloc(length > 0 ? length : 1);
    if (space == NULL)
        exit(2);
    memset(space, 0xa5, length > 0 ? length : 1);
    return space;
}

static void print_bytes(const uint8_t *bytes, size_t length)
{
    for (size_t i = 0; i < length; i++)
        printf("%02x", bytes[i]);
    printf("\n");
}

static void print_model(const uint8_t *bytes, size_t length, size_t room)
{
    uint8_t *image = copy(bytes, length);
    uint8_t *resolution = filled(room);
    uint64_t answer = tour_check_model(image, length, resolution, room);
    if (TOUR_REFUSED(answer))
        printf("model refused %u place %u, buffer ", TOUR_RULE(answer), TOUR_PLACE(answer));
    else
        printf("model accepted %u, buffer ", TOUR_PLACE(answer));
    print_bytes(resolution, room);
    free(resolution);
    free(image);
}

/* A check of a second image against its model. */
typedef uint64_t check(const uint8_t *model, size_t model_length, const uint8_t *second, size_t second_length);

static void print_check(check *call, const char *name, const char *conform, const uint8_t *model, size_t model_length, const uint8_t *second,
                        size_t length)
{
    uint8_t *first = copy(model, model_length);
    uint8_t *bytes = copy(second, length);
    uint64_t answer = call(first, model_length, bytes, length);
    if (TOUR_REFUSED(answer))
        printf("%s refused %u place %u\n", name, TOUR_RULE(answer), TOUR_PLACE(answer));
    else
        printf("%s %s\n", name, conform);
    free(bytes);
    free(first);
}

static void print_instance(const uint8_t *bytes, size_t length)
{
    print_check(tour_check_instance, "instance", "conforms", tour, sizeof tour, bytes, length);
}

static void print_members(const uint8_t *bytes, size_t length)
{
    print_check(tour_check_members, "members", "conform", tones, sizeof tones, bytes, length);
}

static void print_walk(uint32_t place, uint32_t path, uint32_t node, size_t room)
{
    uint8_t *model = copy(tour, sizeof tour);
    uint8_t *instance = copy(visit, sizeof visit);
    uint8_t *results = filled(room);
    uint64_t answer = tour_walk(model, sizeof tour, instance, sizeof visit, place, path, node, results, room);
    if (TOUR_REFUSED(answer)) {
        printf("walk refused %u place %u\n", TOUR_RULE(answer), TOUR_PLACE(answer));
    } else {
        printf("walk gives %u, opened %u: ", TOUR_RESULTS(answer), TOUR_OPENED(answer));
        print_bytes(results, 4 * TOUR_RESULTS(answer));
    }
    free(results);
    free(instance);
    free(model);
}

int main(void)
{
    const size_t room = 4 * (1 + SLOTS + ITEMS);
    uint8_t cycle[sizeof tour];
    memcpy(cycle, tour, sizeof tour);
    cycle[26] |= 1;    /* the base of type 0 is type 1 */
    cycle[33] |= 0x80; /* and that of type 1 is type 0 */

    uint8_t wide[sizeof tone_members];
    memcpy(wide, tone_members, sizeof tone_members);
    wide[40] = 32; /* the value of member 2 is 256 */
    wide[41] = 0;
    uint8_t spare[sizeof tone_members];
    memcpy(spare, wide, sizeof wide);
    spare[29] |= 1; /* and a spare bit of member 1 is set */

    print_model(tour, sizeof tour, 2 * SEGMENTS);
    print_model(tour, sizeof tour, 2 * SEGMENTS + 3);
    print_model(tour, sizeof tour, 2 * SEGMENTS - 1);
    print_model(tour, sizeof tour - 1, 2 * SEGMENTS);
    print_model(cycle, sizeof cycle, 2 * SEGMENTS);
    print_instance(visit, sizeof visit);
    print_instance(visit, sizeof visit - 1);
    print_members(tone_members, sizeof tone_members);
    print_members(wide, sizeof wide);
    print_members(spare, sizeof spare);
    print_members(tone_members, sizeof tone_members - 1);
    print_walk(BINDING, 0, 0, room);
    print_walk(BINDING, 1, 0, room);
    print_walk(BINDING, 0, 1, room);
    print_walk(BINDING, 0, 0, room - 1);

    /* Nothing lent at all. */
    printf("%llu\n", (unsigned long long)tour_check_model(NULL, 0, NULL, 0));
    printf("%llu\n", (unsigned long long)tour_check_instance(NULL, 0, NULL, 0));
    printf("%llu\n", (unsigned long long)tour_check_members(NULL, 0, NULL, 0));
    printf("%llu\n", (unsigned long long)tour_walk(NULL, 0, NULL, 0, 0, 0, 0, NULL, 0));
    return 0;
}
