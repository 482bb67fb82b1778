#define _GNU_SOURCE
#include "input.h"

#include <math.h>
#include <stdlib.h>
#include <string.h>
#include <sys/mman.h>

enum { PLACES = 14, PAGE = 4096, ROOM = 256 * PAGE };

uint8_t byte(struct input *input) {
    return input->next < input->end ? *input->next++ : 0;
}

static uint64_t word(struct input *input) {
    uint64_t bits = 0;
    for (int i = 0; i < 8; i++) {
        bits = bits << 8 | byte(input);
    }
    return bits;
}

size_t count(struct input *input, size_t limit) {
    static const size_t edges[] = {255, 256, 65535, 65536, 65537, SIZE_MAX / 2, SIZE_MAX - 1, SIZE_MAX};
    uint8_t first = byte(input);
    return first < 240 ? first % limit : first < 248 ? edges[first - 240] : word(input);
}

size_t length(struct input *input, size_t least) {
    uint8_t first = byte(input);
    if (first < 200) {
        return least + first % 4;
    }
    size_t less = first - 200;
    return least > less ? least - less : 0;
}

/* The float of the next eight bytes. */
static double any_number(struct input *input) {
    uint64_t bits = word(input);
    double x;
    memcpy(&x, &bits, sizeof x);
    return x;
}

double number(struct input *input) {
    static const double edges[] = {-0.0, 1e-9, -1e-9, 0x1p40, -0x1p40, 0x1.0000000000001p40, 0x1p20,
                                   0x1.0000000000001p20, 5e-324, 0.9999999990000001, 1.000000001, INFINITY,
                                   -INFINITY, NAN, 64.0, 64.00000000000001};
    uint8_t first = byte(input);
    if (first < 224) {
        return (first - 80) / 4.0;
    }
    return first < 240 ? edges[first - 224] : any_number(input);
}

double tolerance(struct input *input) {
    static const double taken[] = {1e-9,   0.25,                 0.5,  1,
                                   5e-324, 0x1.0000000000001p-2, 0.75, 0x1.fffffffffffffp-1};
    static const double edges[] = {0.0, -0.0, 0x1.0000000000001p0, -1, INFINITY, NAN, -5e-324, 2};
    uint8_t first = byte(input);
    if (first < 224) {
        return taken[first % 8];
    }
    return first < 240 ? edges[first % 8] : any_number(input);
}

/* A place of so much room between two pages that cannot be touched. */
static uint8_t *place_of_list(int place) {
    static uint8_t *places[PLACES];
    if (!places[place]) {
        uint8_t *all = mmap(NULL, ROOM + 2 * PAGE, PROT_NONE, MAP_PRIVATE | MAP_ANONYMOUS, -1, 0);
        if (all == MAP_FAILED || mprotect(all + PAGE, ROOM, PROT_READ | PROT_WRITE)) {
            abort();
        }
        places[place] = all + PAGE;
    }
    return places[place];
}

struct list lend(int place, size_t bytes, int front) {
    static uint8_t copies[PLACES][ROOM];
    uint8_t *room = place_of_list(place);
    if (bytes > ROOM) {
        abort();
    }
    struct list list = {front ? room : room + ROOM - bytes, copies[place], bytes};
    memset(list.at, 0xA5, bytes);
    keep(&list);
    return list;
}

void keep(struct list *list) {
    memcpy(list->copy, list->at, list->bytes);
}

int untouched(const struct list *list) {
    return !memcmp(list->at, list->copy, list->bytes);
}

int zero_from(const struct list *list, size_t byte) {
    const uint8_t *at = list->at;
    for (size_t i = byte; i < list->bytes; i++) {
        if (at[i]) {
            return 0;
        }
    }
    return byte <= list->bytes;
}
