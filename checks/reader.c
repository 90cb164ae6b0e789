// A reader of OpenLR line locations, binary format, version 3, by the tables of the White Paper: a line of base64 on standard input, a
// line of JSON on standard output. checks/conformance compiles it, and once more with each of its faults, -DFAULT=1 to -DFAULT=FAULTS,
// each of which has to fail a case of conformance/bytes.
#include <stdio.h>
#include <string.h>

#define FAULTS 33
#ifndef FAULT
#define FAULT 0
#endif
#if FAULT > FAULTS
#error no such fault
#endif
#define ELSE(number, wrong, right) (FAULT == (number) ? (wrong) : (right))
#define MOST 65536

static char line[MOST];
static unsigned char data[MOST];

static int digit(int c)
{
    static const char *alphabet = "ABCDEFGHIJKLMNOPQRSTUVWXYZabcdefghijklmnopqrstuvwxyz0123456789+/";
    const char *at = c ? strchr(alphabet, c) : NULL;
    if (FAULT == 25 && (c == '-' || c == '_'))
        return c == '-' ? 62 : 63;
    return at ? (int)(at - alphabet) : -1;
}

// The number of bytes of a base64 text, or -1.
static int base64(char *text)
{
    for (char *at = text; FAULT == 27 && (at = strchr(at, ' '));)
        memmove(at, at + 1, strlen(at));
    size_t length = strlen(text);
    int size = 0, pads = 0;
    long bits = 0;
    if (FAULT != 26 && length % 4)
        return -1;
    for (size_t k = 0; k < length; k++) {
        int value = digit((unsigned char)text[k]);
        if (FAULT == 28 && text[k] == '=')
            break;
        if (text[k] == '=' && ++pads <= 2 && k + 2 >= length)
            continue;
        if (value < 0 || pads)
            return -1;
        bits = (bits << 6 | value) & 0xffffff;
        if (k % 4)
            data[size++] = (unsigned char)(bits >> (6 - k % 4 * 2));
    }
    return size;
}

static double absolute(const unsigned char *at)
{
    long steps = (long)at[0] << 16 | at[1] << 8 | at[2];
    if (steps >= ELSE(1, 1L << 24, 1L << 23))
        steps -= 1L << 24;
    double half = steps > 0 ? 0.5 : steps < 0 ? ELSE(3, 0.5, -0.5) : 0;
    return (steps - ELSE(2, 0, half)) * 360 / ELSE(4, 16777215.0, 16777216.0);
}

static double relative(const unsigned char *at)
{
    int steps = FAULT == 5 ? at[1] << 8 | at[0] : at[0] << 8 | at[1];
    if (steps >= ELSE(6, 65536, 32768))
        steps -= 65536;
    if (FAULT == 7 && steps < -32767)
        steps = 32767;
    return steps / 100000.0;
}

static void attributes(const unsigned char *at)
{
    int frc = at[0] >> 3 & 7, fow = at[0] & ELSE(9, 3, 7), sector = at[1] & ELSE(10, 15, 31);
    printf("\"frc\": %d, \"fow\": %d, \"bearing\": %g", ELSE(8, fow, frc), ELSE(8, frc, fow), (sector + ELSE(11, -0.5, 0.5)) * 11.25);
}

static double distance(int byte)
{
    if (FAULT == 12 && byte > 127)
        byte -= 256;
    return (byte + ELSE(13, 1.5, 0.5)) * ELSE(14, 60.0, 58.6);
}

static void offset(const char *name, int byte, double leg)
{
    if (FAULT == 15 && byte > 127)
        byte -= 256;
    if (FAULT == 16 && !byte)
        return;
    printf(", \"%s_offset\": %.3f", name, (byte + 0.5) / ELSE(17, 255.0, 256.0) * leg);
}

// Why bytes are no line location of version 3, or NULL.
static const char *refused(int size, int more)
{
    if (size < ELSE(18, 15, 16) || more > 2)
        return "a wrong number of bytes";
    if (FAULT == 19 ? (data[0] & 7) != 3 : FAULT == 20 ? (data[0] & 0x78) != 8 : data[0] != 0x0b)
        return "another status byte";
    int flags = data[size - more - 1];
    if (FAULT != 21 && (flags >> 6 & 1) + (flags >> 5 & 1) != more)
        return "another number of offsets";
    return NULL;
}

static void location(int size, int more)
{
    int count = (size - 16) / 7 + 2, first = 0, last = 0;
    double lon = absolute(data + 1), lat = absolute(data + 4), from_lon = lon, from_lat = lat;
    const unsigned char *at = data + 7;
    if (FAULT == 22 && count > 15)
        count = 15;
    printf("{\"points\": [");
    for (int k = 0; k < count; k++) {
        if (k) {
            lon = ELSE(23, from_lon, lon) + relative(at);
            lat = ELSE(23, from_lat, lat) + relative(at + 2);
            at += 4;
        }
        printf("%s{\"longitude\": %.7f, \"latitude\": %.7f, ", k ? ", " : "", ELSE(33, lat, lon), ELSE(33, lon, lat));
        attributes(at);
        if (k < count - 1) {
            printf(", \"lfrcnp\": %d, \"dnp\": %.2f", ELSE(32, at[0] >> 3 & 7, at[1] >> 5 & ELSE(24, 3, 7)), distance(at[2]));
            last = at[2];
            first = k ? first : last;
            at += 3;
        }
        printf("}");
    }
    printf("]");
    at = data + size - more;
    if (at[-1] & ELSE(29, 0x20, 0x40))
        offset("positive", *at++, distance(ELSE(30, last, first)));
    if (at < data + size)
        offset("negative", *at, distance(ELSE(31, first, last)));
    printf("}\n");
}

int main(void)
{
    while (fgets(line, sizeof line, stdin)) {
        line[strcspn(line, "\n")] = 0;
        int size = base64(line), more = size < 16 ? 0 : (size - 16) % 7;
        const char *why = size < 0 ? "no base64" : refused(size, more);
        if (why)
            printf("{\"error\": \"%s\"}\n", why);
        else
            location(size, more);
        fflush(stdout);
    }
    return 0;
}
