/*
 * Times measuring and reading. Input: lines of a name and the hexadecimal digits of a message, as bench/messages.txt has them.
 * Prints for each message its octets and values (rows), and the nanoseconds that measuring and reading take, per octet and per value.
 * A round calls a function often enough to last about a millisecond; of all rounds the best counts.
 *
 * With WITH_MSGPACK (and -lmsgpackc) the same values are also packed as MessagePack and unpacked by msgpack-c; that time is per the same values.
 */
#define _POSIX_C_SOURCE 200809L
#include <stdio.h>
#include <stdlib.h>
#include <string.h>
#include <time.h>

#ifdef WITH_MSGPACK
#include <msgpack.h>
#endif

#include "sumqadil.h"

enum { MOST_OCTETS = 65535, MOST_ROWS = 2 * MOST_OCTETS, ROUNDS = 200 };

static uint8_t octets[MOST_OCTETS], own[MOST_ROWS];
static int32_t ty[MOST_ROWS], first[MOST_ROWS], second[MOST_ROWS];
static uint32_t label[MOST_ROWS], contents[MOST_ROWS], below[MOST_ROWS], start[MOST_ROWS], end[MOST_ROWS];
static int64_t number[MOST_ROWS];
static const sumqadil_columns columns = {ty, own, label, number, first, second, contents, below, start, end, MOST_ROWS};

static void fail(const char *name, const char *why)
{
    fprintf(stderr, "%s: %s\n", name, why);
    exit(1);
}

/* ---- What is timed: each gives 0 if all went well ---- */

typedef struct {
    const uint8_t *octets;
    size_t count;
} run;

static int measure(run r)
{
    size_t length, place;
    return sumqadil_measure(r.octets, r.count, &length, &place);
}

static int read_rows(run r)
{
    size_t rows, place;
    return sumqadil_read_message_into(r.octets, r.count, &columns, &rows, &place);
}

#ifdef WITH_MSGPACK
static int unpack(run r)
{
    msgpack_unpacked result;
    msgpack_unpacked_init(&result);
    int status = msgpack_unpack_next(&result, (const char *)r.octets, r.count, NULL);
    msgpack_unpacked_destroy(&result);
    return status != MSGPACK_UNPACK_SUCCESS;
}

static size_t pack(msgpack_packer *to, size_t i);

/* The values inside row i: their indexes too, if `indexed`. */
static void pack_inside(msgpack_packer *to, size_t i, int indexed)
{
    for (size_t j = i + 1; j < i + 1 + below[i];) {
        if (indexed)
            msgpack_pack_uint32(to, label[j]);
        j = pack(to, j);
    }
}

/* Packs row i, which has none below it and is no container. */
static void pack_plain(msgpack_packer *to, size_t i)
{
    if (ty[i] == -13) {
        msgpack_pack_bin(to, (size_t)number[i]);
        msgpack_pack_bin_body(to, octets + contents[i], (size_t)number[i]);
    } else if (ty[i] == -15 || ty[i] == -35) {
        msgpack_pack_str(to, (size_t)number[i]);
        msgpack_pack_str_body(to, octets + contents[i], (size_t)number[i]);
    } else if (ty[i] == -5 || (ty[i] <= -38 && ty[i] >= -40)) {
        msgpack_pack_float(to, (float)number[i]);
    } else if (ty[i] == -6) {
        double d;
        memcpy(&d, &number[i], sizeof d);
        msgpack_pack_double(to, d);
    } else if (ty[i] == -33) {
        msgpack_pack_false(to);
    } else if (ty[i] == -34) {
        msgpack_pack_true(to);
    } else if (ty[i] == -37) {
        msgpack_pack_nil(to);
    } else {
        msgpack_pack_int64(to, number[i]);
    }
}

/* Packs row i and all below it as MessagePack has such values; gives the row past them. */
static size_t pack(msgpack_packer *to, size_t i)
{
    size_t inside = 0;
    for (size_t j = i + 1; j < i + 1 + below[i]; j += 1 + below[j])
        inside++;
    if (ty[i] >= 0 || ty[i] == -26 || ty[i] == -27) { /* a user type, a sparse array */
        msgpack_pack_map(to, inside);
        pack_inside(to, i, 1);
    } else if (ty[i] <= -28 && ty[i] >= -30) { /* a map */
        msgpack_pack_map(to, inside / 2);
        pack_inside(to, i, 0);
    } else if (inside > 0 || (ty[i] <= -22 && ty[i] >= -25) || ty[i] == -36) { /* a collection, an array, an identity, a date or time */
        msgpack_pack_array(to, inside);
        pack_inside(to, i, 0);
    } else {
        pack_plain(to, i);
    }
    return i + 1 + below[i];
}
#endif

/* ---- Timing ---- */

static double now(void)
{
    struct timespec t;
    clock_gettime(CLOCK_MONOTONIC, &t);
    return (double)t.tv_sec * 1e9 + (double)t.tv_nsec;
}

/* Nanoseconds of one call, over `calls` of them. */
static double timed(int (*call)(run), run r, long calls)
{
    int bad = 0;
    double from = now();
    for (long i = 0; i < calls; i++)
        bad |= call(r);
    double to = now();
    if (bad)
        fail("timing", "a call was refused");
    return (to - from) / (double)calls;
}

static long calls_for_a_millisecond(int (*call)(run), run r)
{
    long calls = 1;
    while (timed(call, r, calls) * (double)calls < 1e6)
        calls *= 2;
    return calls;
}

/* The best of all rounds, for each of some functions: one after the other in each round, so that all meet the same machine. */
static void best(int functions, int (*const calls[])(run), const run *runs, double *ns)
{
    long times[3];
    for (int f = 0; f < functions; f++) {
        times[f] = calls_for_a_millisecond(calls[f], runs[f]);
        ns[f] = 1e18;
    }
    for (int round = 0; round < ROUNDS; round++) {
        for (int f = 0; f < functions; f++) {
            double t = timed(calls[f], runs[f], times[f]);
            if (t < ns[f])
                ns[f] = t;
        }
    }
}

static void bench(const char *name, size_t count)
{
    size_t rows, place;
    uint8_t refusal = sumqadil_read_message_into(octets, count, &columns, &rows, &place);
    if (refusal != SUMQADIL_OK) {
        fprintf(stderr, "%s: refused: %u at %zu\n", name, refusal, place);
        exit(1);
    }
    run message = {octets, count};
    double ns[3], n = (double)count, v = (double)rows;
#ifdef WITH_MSGPACK
    msgpack_sbuffer buffer;
    msgpack_packer packer;
    msgpack_sbuffer_init(&buffer);
    msgpack_packer_init(&packer, &buffer, msgpack_sbuffer_write);
    pack(&packer, 0);
    run packed = {(const uint8_t *)buffer.data, buffer.size};
    best(3, (int (*const[])(run)){measure, read_rows, unpack}, (run[]){message, message, packed}, ns);
    printf("| %s | %zu | %zu | %.2f | %.1f | %.2f | %.1f | %zu | %.2f | %.1f |\n", name, count, rows, ns[0] / n, ns[0] / v, ns[1] / n, ns[1] / v,
        packed.count, ns[2] / (double)packed.count, ns[2] / v);
    msgpack_sbuffer_destroy(&buffer);
#else
    best(2, (int (*const[])(run)){measure, read_rows}, (run[]){message, message}, ns);
    printf("| %s | %zu | %zu | %.2f | %.1f | %.2f | %.1f |\n", name, count, rows, ns[0] / n, ns[0] / v, ns[1] / n, ns[1] / v);
#endif
    fflush(stdout);
}

int main(int argc, char **argv)
{
    static char line[2 * MOST_OCTETS + 256];
    FILE *in = argc > 1 ? fopen(argv[1], "r") : stdin;
    if (in == NULL)
        fail(argv[1], "can't be opened");
#ifdef WITH_MSGPACK
    printf("| message | octets | values | measure ns/octet | ns/value | read ns/octet | ns/value | packed octets | unpack ns/octet | ns/value |\n");
    printf("|---|---|---|---|---|---|---|---|---|---|\n");
#else
    printf("| message | octets | values | measure ns/octet | ns/value | read ns/octet | ns/value |\n");
    printf("|---|---|---|---|---|---|---|\n");
#endif
    while (fgets(line, sizeof line, in) != NULL) {
        char *name = strtok(line, " \n"), *digits = strtok(NULL, " \n");
        if (name == NULL || digits == NULL || strlen(digits) % 2 != 0 || strlen(digits) / 2 > MOST_OCTETS)
            fail("a line", "not a name and hexadecimal digits in pairs");
        size_t count = strlen(digits) / 2;
        for (size_t i = 0; i < count; i++) {
            unsigned octet;
            if (sscanf(digits + 2 * i, "%2x", &octet) != 1)
                fail(name, "not hexadecimal digits");
            octets[i] = (uint8_t)octet;
        }
        bench(name, count);
    }
    return 0;
}
