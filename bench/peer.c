/* The peer of bench/decode.sh: reads the same lines as the tool decode, turns HEX into bytes and has libcbor read the data item.
   It knows nothing of join requests and configurations, and writes for each line only whether there was an item. */
#include <ctype.h>
#include <stddef.h>
#include <stdio.h>
#include <string.h>

/* libcbor's interface as far as it is used here, so that the library alone is needed and not its headers. */
typedef struct cbor_item_t cbor_item_t;
struct cbor_load_result {
    struct {
        size_t position;
        int code;
    } error;
    size_t read;
};
cbor_item_t *cbor_load(const unsigned char *source, size_t size, struct cbor_load_result *result);
void cbor_decref(cbor_item_t **item);

static int digit(int c)
{
    return isdigit(c) ? c - '0' : (c | 32) >= 'a' && (c | 32) <= 'f' ? (c | 32) - 'a' + 10 : -1;
}

int main(void)
{
    static char line[1 << 16];
    static unsigned char bytes[1 << 15];
    while (fgets(line, sizeof line, stdin)) {
        const char *c = strchr(line, ' ');
        size_t digits = 0;
        for (; c && *c; c++) {
            int d = digit((unsigned char)*c);
            if (d < 0)
                continue;
            bytes[digits / 2] = digits % 2 ? (unsigned char)(bytes[digits / 2] * 16 + d) : (unsigned char)d;
            digits++;
        }
        struct cbor_load_result result;
        cbor_item_t *item = cbor_load(bytes, digits / 2, &result);
        puts(item ? "item" : "error");
        if (item)
            cbor_decref(&item);
    }
    return 0;
}
