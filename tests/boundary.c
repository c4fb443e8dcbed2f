/*
 * The boundary from C: each function on good and bad input, what it writes to the numbers and columns that are lent, and what it leaves alone.
 * Prints how many checks passed; the first that fails ends it.
 */
#include <stdio.h>
#include <stdlib.h>
#include <string.h>

#include "sumqadil.h"

static int checks;

#define CHECK(test) \
    do { \
        if (!(test)) { \
            fprintf(stderr, "%s:%d: not so: %s\n", __FILE__, __LINE__, #test); \
            exit(1); \
        } \
        checks++; \
    } while (0)

enum { ROWS = 8, MARK = 0x5A };

/* Columns of ROWS rows, all octets of which are MARK until something is read into them. */
static struct {
    int32_t ty[ROWS], first[ROWS], second[ROWS];
    uint8_t own[ROWS];
    uint32_t label[ROWS], contents[ROWS], below[ROWS], start[ROWS], end[ROWS];
    int64_t number[ROWS];
} table, marked;

static sumqadil_columns columns(size_t lent)
{
    sumqadil_columns c = {
        table.ty, table.own, table.label, table.number, table.first, table.second, table.contents, table.below, table.start, table.end, lent};
    memset(&table, MARK, sizeof table);
    return c;
}

static int untouched(void)
{
    return memcmp(&table, &marked, sizeof table) == 0;
}

/* A lent number that an answer must overwrite. */
#define LENT 12345

static void measuring(void)
{
    const uint8_t run[] = {0x41, 0xA3, 0x01, 0xFF};
    size_t length = LENT, place = LENT;
    CHECK(sumqadil_measure(run, sizeof run, &length, &place) == SUMQADIL_OK && length == 3 && place == 0);
    length = place = LENT;
    CHECK(sumqadil_measure(run, 2, &length, &place) == SUMQADIL_ENDED && length == 0 && place == 2);
    length = place = LENT;
    CHECK(sumqadil_measure(run, 0, &length, &place) == SUMQADIL_ENDED && length == 0 && place == 0);
    length = place = LENT;
    CHECK(sumqadil_measure(NULL, 0, &length, &place) == SUMQADIL_ENDED && length == 0 && place == 0);
}

static void counting(void)
{
    const uint8_t message[] = {0x55, 0x03, 0x6A, 0x6B, 0x6C, 0x00};
    size_t rows = LENT, place = LENT;
    CHECK(sumqadil_count_rows(message, 5, &rows, &place) == SUMQADIL_OK && rows == 4 && place == 0);
    rows = place = LENT;
    CHECK(sumqadil_count_rows(message, 6, &rows, &place) == SUMQADIL_LEFT_OVER && rows == 0 && place == 5);
    rows = place = LENT;
    CHECK(sumqadil_count_rows(NULL, 0, &rows, &place) == SUMQADIL_ENDED && rows == 0 && place == 0);
}

static void too_long(void)
{
    static uint8_t nulls[65536];
    memset(nulls, 0x64, sizeof nulls);
    sumqadil_columns c = columns(ROWS);
    size_t length = LENT, rows = LENT, from = LENT, place = LENT;
    int32_t conversation = LENT;
    CHECK(sumqadil_measure(nulls, 65535, &length, &place) == SUMQADIL_OK && length == 1);
    CHECK(sumqadil_measure(nulls, 65536, &length, &place) == SUMQADIL_TOO_LONG && length == 0 && place == 0);
    CHECK(sumqadil_read_message_into(nulls, 65535, &c, &rows, &place) == SUMQADIL_LEFT_OVER && place == 1);
    CHECK(sumqadil_read_message_into(nulls, 65536, &c, &rows, &place) == SUMQADIL_TOO_LONG && place == 0);
    CHECK(sumqadil_read_frame_into(nulls, 65536, &c, &rows, &conversation, &from, &place) == SUMQADIL_TOO_LONG && place == 0);
    CHECK(untouched());
}

static void messages(void)
{
    const uint8_t message[] = {0x59, 0x05, 0x00, 0x6A, 0x04, 0x4E, 0x02, 0x6F, 0x6B, 0x40};
    size_t rows = LENT, place = LENT;

    sumqadil_columns c = columns(ROWS);
    CHECK(sumqadil_read_message_into(message, sizeof message, &c, &rows, &place) == SUMQADIL_OK && rows == 3 && place == 0);
    CHECK(table.ty[0] == -26 && table.number[0] == 5 && table.below[0] == 2 && table.start[0] == 0 && table.end[0] == 10);
    CHECK(table.ty[1] == -43 && table.number[1] == 1 && table.label[1] == 0 && table.own[1] == 1 && table.start[1] == 3);
    CHECK(table.ty[2] == -15 && table.number[2] == 2 && table.label[2] == 4 && table.contents[2] == 7 && table.end[2] == 9);
    CHECK(table.first[2] == 0 && table.second[2] == 0);
    /* past the rows nothing is written */
    CHECK(memcmp(table.ty + 3, marked.ty + 3, sizeof *table.ty * (ROWS - 3)) == 0);
    CHECK(memcmp(table.own + 3, marked.own + 3, sizeof *table.own * (ROWS - 3)) == 0);
    CHECK(memcmp(table.number + 3, marked.number + 3, sizeof *table.number * (ROWS - 3)) == 0);
    CHECK(memcmp(table.end + 3, marked.end + 3, sizeof *table.end * (ROWS - 3)) == 0);

    /* a refusal leaves the columns as they were */
    c = columns(ROWS);
    rows = place = LENT;
    CHECK(sumqadil_read_message_into(message, sizeof message - 1, &c, &rows, &place) == SUMQADIL_ENDED && rows == 0 && place == 9);
    CHECK(untouched());
    c = columns(2);
    rows = place = LENT;
    CHECK(sumqadil_read_message_into(message, sizeof message, &c, &rows, &place) == SUMQADIL_FEW_ROWS && rows == 0 && place == 0);
    CHECK(untouched());
}

/* Null columns with no rows, and no octets at all. */
static void nothing(void)
{
    const uint8_t null[] = {0x64};
    const sumqadil_columns none = {NULL, NULL, NULL, NULL, NULL, NULL, NULL, NULL, NULL, NULL, 0};
    size_t rows = LENT, from = LENT, place = LENT;
    int32_t conversation = LENT;
    CHECK(sumqadil_read_message_into(NULL, 0, &none, &rows, &place) == SUMQADIL_ENDED && rows == 0 && place == 0);
    rows = place = LENT;
    CHECK(sumqadil_read_message_into(null, 1, &none, &rows, &place) == SUMQADIL_FEW_ROWS && rows == 0 && place == 0);
    rows = place = LENT;
    CHECK(sumqadil_read_frame_into(NULL, 0, &none, &rows, &conversation, &from, &place) == SUMQADIL_ENDED);
    CHECK(rows == 0 && conversation == 0 && from == 0 && place == 0);
    rows = place = from = LENT;
    conversation = LENT;
    CHECK(sumqadil_check_frame(NULL, 0, &rows, &conversation, &from, &place) == SUMQADIL_ENDED);
    CHECK(rows == 0 && conversation == 0 && from == 0 && place == 0);
}

/* Columns of unequal length: each in turn is one too short, or null and empty. The shortest counts. */
static void unequal(void)
{
    const uint8_t message[] = {0x55, 0x03, 0x6A, 0x6B, 0x6C};
    const uint8_t frame[] = {0x06, 0x07, 0x05, 0x00, 0x00, 0x6A, 0x40};
    for (int column = 0; column < 10; column++) {
        for (size_t less = 1; less <= 4; less++) {
            size_t n[10], rows = LENT, from = LENT, place = LENT;
            int32_t conversation = LENT;
            for (int i = 0; i < 10; i++)
                n[i] = i == column ? 4 - less : 4;
            sumqadil_columns c = columns(ROWS);
            void *p[10] = {c.ty, c.own, c.label, c.number, c.first, c.second, c.contents, c.below, c.start, c.end};
            if (less == 4)
                p[column] = NULL;
            CHECK(sumqadil_read_message(
                      message, sizeof message, p[0], n[0], p[1], n[1], p[2], n[2], p[3], n[3], p[4], n[4], p[5], n[5], p[6], n[6], p[7], n[7],
                      p[8], n[8], p[9], n[9], &rows, &place)
                == SUMQADIL_FEW_ROWS);
            CHECK(rows == 0 && place == 0 && untouched());
            rows = place = LENT;
            uint8_t found = sumqadil_read_frame(
                frame, sizeof frame, p[0], n[0], p[1], n[1], p[2], n[2], p[3], n[3], p[4], n[4], p[5], n[5], p[6], n[6], p[7], n[7], p[8], n[8],
                p[9], n[9], &rows, &conversation, &from, &place);
            if (less <= 2)
                CHECK(found == SUMQADIL_OK && rows == 2 && conversation == 7 && from == 2 && place == 0);
            else
                CHECK(found == SUMQADIL_FEW_ROWS && rows == 0 && conversation == 0 && from == 0 && place == 0 && untouched());
        }
    }
}

static void frames(void)
{
    const uint8_t frame[] = {0x0D, 0x07, 0x05, 0x00, 0x00, 0x41, 0xA3, 0x01, 0x02, 0x4E, 0x02, 0x61, 0x62, 0x40};
    const uint8_t other[] = {0x02, 0x40, 0x64}, negative[] = {0x04, 0x41, 0x05, 0x00, 0x40};
    sumqadil_columns c = columns(ROWS);
    size_t rows = LENT, from = LENT, place = LENT;
    int32_t conversation = LENT;
    CHECK(sumqadil_check_frame(frame, sizeof frame, &rows, &conversation, &from, &place) == SUMQADIL_OK);
    CHECK(rows == 3 && conversation == 7 && from == 2 && place == 0);
    rows = from = place = LENT;
    conversation = LENT;
    CHECK(sumqadil_read_frame_into(frame, sizeof frame, &c, &rows, &conversation, &from, &place) == SUMQADIL_OK);
    CHECK(rows == 3 && conversation == 7 && from == 2 && place == 0);
    CHECK(table.ty[0] == 5 && table.end[0] == 12 && table.ty[2] == -15 && table.contents[2] == 9);
    CHECK(memcmp(frame + from + table.contents[2], "ab", 2) == 0);

    c = columns(ROWS);
    CHECK(sumqadil_read_frame_into(other, sizeof other, &c, &rows, &conversation, &from, &place) == SUMQADIL_NO_USER_TYPE);
    CHECK(rows == 0 && conversation == 0 && from == 0 && place == 0 && untouched());
    CHECK(sumqadil_check_frame(negative, sizeof negative, &rows, &conversation, &from, &place) == SUMQADIL_OK && conversation == -2);
}

static void asking(void)
{
    int64_t value = LENT;
    CHECK(sumqadil_ask(-2, 99, SUMQADIL_AS_INT32, &value) == SUMQADIL_OK && value == 99);
    CHECK(sumqadil_ask(-3, INT64_MIN, SUMQADIL_AS_INT64, &value) == SUMQADIL_OK && value == INT64_MIN);
    CHECK(sumqadil_ask(-11, -7, SUMQADIL_AS_BOOLEAN, &value) == SUMQADIL_OK && value == 1);
    CHECK(sumqadil_ask(-37, 0, SUMQADIL_AS_CHAR, &value) == SUMQADIL_OK && value == 0);
    value = LENT;
    CHECK(sumqadil_ask(-2, 99, SUMQADIL_AS_BOOLEAN, &value) == SUMQADIL_OTHER_TYPE && value == 0);
    value = LENT;
    CHECK(sumqadil_ask(-4, 99, SUMQADIL_AS_INT64, &value) == SUMQADIL_BAD_ROW && value == 0);
    value = LENT;
    CHECK(sumqadil_ask(-2, (int64_t)1 << 31, SUMQADIL_AS_INT64, &value) == SUMQADIL_BAD_ROW && value == 0);
    /* no such type: 15, whatever the row */
    for (int what = 6; what < 256; what++) {
        value = LENT;
        CHECK(sumqadil_ask(-2, 99, (uint8_t)what, &value) == SUMQADIL_OTHER_TYPE && value == 0);
        CHECK(sumqadil_ask(-4, 99, (uint8_t)what, &value) == SUMQADIL_OTHER_TYPE && value == 0);
    }
    sumqadil_columns c = columns(ROWS);
    table.ty[1] = -12;
    table.number[1] = 200;
    CHECK(sumqadil_ask_row(&c, 1, SUMQADIL_AS_OCTET, &value) == SUMQADIL_OK && value == 200);
}

int main(void)
{
    memset(&marked, MARK, sizeof marked);
    measuring();
    counting();
    too_long();
    messages();
    nothing();
    unequal();
    frames();
    asking();
    printf("boundary from C: %d checks\n", checks);
    return 0;
}
