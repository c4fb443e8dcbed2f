/*
 * Lists a frame: its conversation number, its rows, and what a row that can be had as int32 says.
 * The frame is given as hexadecimal digits; without any, it is the example of document 01.
 */
#include <stdio.h>
#include <string.h>

#include "sumqadil.h"

enum { MOST_OCTETS = 4096, MOST_ROWS = 256 };

/* The octets of pairs of digits; their count, or -1 if they are none or too many. */
static int octets_of(const char *digits, uint8_t *octets)
{
    size_t n = strlen(digits) / 2;
    if (strlen(digits) % 2 != 0 || n > MOST_OCTETS)
        return -1;
    for (size_t i = 0; i < n; i++) {
        unsigned octet;
        if (strspn(digits + 2 * i, "0123456789ABCDEFabcdef") < 2 || sscanf(digits + 2 * i, "%2x", &octet) != 1)
            return -1;
        octets[i] = (uint8_t)octet;
    }
    return (int)n;
}

int main(int argc, char **argv)
{
    static uint8_t octets[MOST_OCTETS], own[MOST_ROWS];
    static int32_t ty[MOST_ROWS], first[MOST_ROWS], second[MOST_ROWS];
    static uint32_t label[MOST_ROWS], contents[MOST_ROWS], below[MOST_ROWS], start[MOST_ROWS], end[MOST_ROWS];
    static int64_t number[MOST_ROWS];
    const sumqadil_columns columns = {ty, own, label, number, first, second, contents, below, start, end, MOST_ROWS};

    int count = octets_of(argc > 1 ? argv[1] : "0D0705000041A301024E02616240", octets);
    if (count < 0) {
        fprintf(stderr, "usage: %s [HEX]\n", argv[0]);
        return 2;
    }

    size_t rows, from, place;
    int32_t conversation;
    uint8_t refusal = sumqadil_read_frame_into(octets, (size_t)count, &columns, &rows, &conversation, &from, &place);
    if (refusal != SUMQADIL_OK) {
        printf("refused: %u at %zu\n", refusal, place);
        return 1;
    }
    printf("conversation %d, %zu rows, message at %zu\n", conversation, rows, from);
    for (size_t i = 0; i < rows; i++) {
        printf("type %d, label %u, octets %u to %u", ty[i], label[i], start[i], end[i]);
        int64_t value;
        if (sumqadil_ask_row(&columns, i, SUMQADIL_AS_INT32, &value) == SUMQADIL_OK)
            printf(", int32 %lld", (long long)value);
        else if (contents[i] != 0)
            printf(", string '%.*s'", (int)number[i], (const char *)octets + from + contents[i]);
        printf("\n");
    }
    return 0;
}
