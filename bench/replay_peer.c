/* The peer of bench/replay.sh: walks recorded traces from the files that its arguments name, asks each record's kind, lengths, role, frame type and
   unused bytes as document 02 lays them out, and counts the kinds. It keeps no node and makes no call. */
#include <stdio.h>

static int blank(const unsigned char *b, size_t n)
{
    for (size_t i = 0; i < n; i++)
        if (b[i])
            return 0;
    return 1;
}

/* the bytes after the kind are a record of it */
static int good(int kind, const unsigned char *b)
{
    size_t len;
    switch (kind) {
    case 1:
        len = b[1] == 255 ? 0 : b[1];
        return b[0] <= 1 && len <= 16 && blank(b + 2 + len, 16 - len);
    case 3:
    case 4:
        len = (size_t)b[8] << 8 | b[9];
        return len <= 256 && blank(b + 10 + len, 256 - len);
    case 5:
        return b[0] <= 1;
    default:
        return 1;
    }
}

int main(int argc, char **argv)
{
    static const size_t sizes[7] = {0, 18, 12, 266, 266, 2, 8};
    static unsigned char trace[1 << 20];
    for (int i = 1; i < argc; i++) {
        unsigned long kinds[7] = {0};
        FILE *f = fopen(argv[i], "rb");
        size_t size = f ? fread(trace, 1, sizeof trace, f) : 0, at = 0;
        if (f)
            fclose(f);
        while (at < size && trace[at] >= 1 && trace[at] <= 6 && sizes[trace[at]] < size - at && good(trace[at], trace + at + 1)) {
            kinds[trace[at]]++;
            at += 1 + sizes[trace[at]];
        }
        printf("%zu %lu/%lu/%lu/%lu/%lu/%lu\n", at, kinds[1], kinds[2], kinds[3], kinds[4], kinds[5], kinds[6]);
    }
    return 0;
}
