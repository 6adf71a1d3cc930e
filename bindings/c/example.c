/* Reads a few sources, prints their nodes, and ends with status 1 where an answer is not the one that is wanted. */
#include "vealtikum.h"

#include <stdio.h>
#include <string.h>

static uint16_t nodes[64 * VEALTIKUM_WIDTH];
static uint8_t text[64];
static int wrong;

static void want(int good, const char *what) {
    if (!good) {
        printf("wrong: %s\n", what);
        wrong = 1;
    }
}

/* The text of the i-th record, and its length; NULL where it has none. */
static const uint8_t *text_of(const uint8_t *source, size_t len, size_t i, size_t *length) {
    size_t from;
    uint8_t side = vealtikum_text(source, len, nodes, sizeof nodes / sizeof nodes[0], text, sizeof text, i, &from, length);
    if (side == 0) return NULL;
    return (side == 1 ? source : text) + from;
}

static uint8_t show(const char *source, size_t *place, size_t *count) {
    const uint8_t *bytes = (const uint8_t *)source;
    size_t len = strlen(source), used;
    uint8_t kind = vealtikum_read(bytes, len, nodes, sizeof nodes / sizeof nodes[0], text, sizeof text, place, count, &used);
    printf("%s: kind %u, place %zu, %zu nodes, %zu text bytes\n", source, kind, *place, *count, used);
    for (size_t i = 0; kind == VEALTIKUM_ACCEPTED && i < *count; i++) {
        size_t length = 0;
        const uint8_t *t = text_of(bytes, len, i, &length);
        const uint16_t *n = nodes + i * VEALTIKUM_WIDTH;
        printf("  kind %u, %u to %u", n[0], n[2], n[3]);
        if (t != NULL) printf(", text %.*s", (int)length, (const char *)t);
        printf("\n");
    }
    return kind;
}

int main(void) {
    size_t place, count, length;
    want(show("8-3-2", &place, &count) == VEALTIKUM_ACCEPTED && place == 5 && count == 5, "8-3-2 is read");
    want(nodes[2 * VEALTIKUM_WIDTH] == 28 && nodes[2 * VEALTIKUM_WIDTH + 3] == 3, "8-3-2 groups from the left");
    want(show("{a=1,a=2}", &place, &count) == VEALTIKUM_DUPLICATE && place == 5 && count == 0, "an equal key is refused");
    want(show("\"a$${b}\"", &place, &count) == VEALTIKUM_ACCEPTED && count == 1, "a string is read");
    const uint8_t *t = text_of((const uint8_t *)"\"a$${b}\"", 8, 0, &length);
    want(t != NULL && length == 5 && memcmp(t, "a${b}", 5) == 0, "its text has no escapes");
    want(vealtikum_check((const uint8_t *)"\"a$${b}\"", 8, nodes, VEALTIKUM_WIDTH, text, 5), "it is this source's reading");
    want(!vealtikum_check((const uint8_t *)"\"a$${c}\"", 8, nodes, VEALTIKUM_WIDTH, text, 5), "and not another's");
    want(text_of((const uint8_t *)"", 0, 64, &length) == NULL && length == 0, "a bad index has no text");
    return wrong;
}
