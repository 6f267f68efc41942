/* Finding over lists of TLV records that no walk need have made (rules F1 to F3): the cases are named, and each says
   what has to be answered: the refusal, and how many records were looked at. */
#include "../include/ashlar.h"
#include <stdio.h>

/* an association (kind 0x92) whose last byte is bad, one that joined, an end marker */
static const uint8_t payload[] = {
    0x92, 0x00, 0x0D, 2, 0, 0, 0, 0, 1, 2, 0, 0, 0, 0, 2, 0x81, /* at 0: does not read */
    0x92, 0x00, 0x0D, 2, 0, 0, 0, 0, 1, 2, 0, 0, 0, 0, 2, 0x80, /* at 16: joined */
    0x92, 0x00, 0x0D, 2, 0, 0, 0, 0, 1, 2, 0, 0, 0, 0, 2, 0x00, /* at 32: left */
    0x00, 0x00, 0x00,                                           /* at 48: end of message */
};
static const AshlarTlv walked[] = {{0x92, 13, 0}, {0x92, 13, 16}, {0x92, 13, 32}, {0, 0, 48}};
static int failed;

/* find says where; what lies there has to read, and to consume this many bytes */
static bool reads(AshlarTlv t, uint8_t code, size_t consumed) {
    AshlarKind got = ashlar_read_kind(code, payload + t.offset + 3, t.length);
    return got.refusal == 0 && got.consumed == consumed;
}

static void finds(const char *name, const AshlarTlv *list, size_t n, uint8_t code, size_t from, size_t looked, size_t consumed, uint8_t refusal) {
    AshlarFound got = ashlar_find(list, n, payload, sizeof payload, code, from);
    bool good = got.refusal == refusal && got.looked == looked && (refusal != 0 || reads(list[looked - 1], code, consumed));
    failed += !good;
    printf("%s finding: %s\n", good ? "ok" : "FAILED", name);
}

/* the largest payload with the most TLVs: each is found, one after the other, and then none */
static void finds_all(void) {
    enum { MOST = 15914 };
    static uint8_t urls[3 * MOST];
    static AshlarTlv list[MOST];
    for (size_t i = 0; i < sizeof urls; i += 3) urls[i] = ASHLAR_CONTROL_URL;
    size_t n = ashlar_walk_into(list, MOST, urls, sizeof urls).count, found = 0;
    AshlarFound got = {0};
    while (!(got = ashlar_find(list, n, urls, sizeof urls, ASHLAR_CONTROL_URL, got.looked)).refusal) failed += got.looked != ++found;
    bool good = n == MOST && found == MOST && got.looked == MOST && got.refusal == ASHLAR_NOT_FOUND && !failed;
    failed += !good;
    printf("%s finding: all of 15,914, each from the number before\n", good ? "ok" : "FAILED");
}

int main(void) {
    const AshlarTlv outside[] = {{0x92, 13, SIZE_MAX}, {0x92, 13, SIZE_MAX - 2}, {0x92, 13, SIZE_MAX - 15}, {0x92, 13, 51}, {0x92, 13, 36}, {0x92, 13, 16}};
    const AshlarTlv past[] = {{0x92, 13, 35}, {0x92, 13, 36}};
    const AshlarTlv longer[] = {{0x92, 13, 0}, {0x92, 13, 16}, {0x92, 13, 32}, {0, 0, 48}, {0x92, 13, 0}, {0x92, 13, 16}};
    const AshlarTlv other[] = {{0x92, 14, 16}, {0x92, 12, 16}, {1, 6, 3}, {1, 5, 3}};

    finds("an unreadable record before a readable one", walked, 4, 0x92, 0, 2, 13, 0);
    finds("the next one after it", walked, 4, 0x92, 2, 3, 13, 0);
    finds("none after the last", walked, 4, 0x92, 3, 4, 0, 15);
    finds("none from the list's end", walked, 4, 0x92, 4, 4, 0, 15);
    finds("nor from beyond it: all were looked at", walked, 4, 0x92, 5, 4, 0, 15);
    finds("the first record of the list", walked + 1, 3, 0x92, 0, 1, 13, 0);
    finds("the last record of the list", walked, 3, 0x92, 2, 3, 13, 0);
    finds("unreadable records count", walked, 1, 0x92, 0, 1, 0, 15);
    finds("none from 2 to the 64 less 1", walked, 4, 0x92, SIZE_MAX, 4, 0, 15);
    finds("records outside the payload are passed over, offsets near 2 to the 64 among them", outside, 6, 0x92, 0, 6, 13, 0);
    finds("a value that ends with the payload is inside, if it reads", past, 1, 0x92, 0, 1, 13, 0);
    finds("one that ends a byte past it is not", past + 1, 1, 0x92, 0, 1, 0, 15);
    finds("an empty list", walked, 0, 0x92, 0, 0, 0, 15);
    finds("a list longer than the walk's: entries past the walk's are searched like any other", longer, 6, 0x92, 4, 6, 13, 0);
    finds("a kind 0 record at the payload's last three bytes", walked, 4, 0, 0, 4, 0, 0);
    finds("the record's length decides, not the header's: 14 bytes leave one", other, 4, 0x92, 0, 1, 13, 0);
    finds("and 12 bytes do not read", other + 1, 1, 0x92, 0, 1, 0, 15);
    finds("the type is the record's, not the payload's", other + 2, 2, 1, 0, 1, 6, 0);
    finds("no TLV of the kind", walked, 4, 23, 0, 4, 0, 15);
    finds("a kind that is none of them", walked, 4, 3, 0, 0, 0, 16);
    finds("that, with an empty list", walked, 0, 255, 0, 0, 0, 16);
    finds_all();
    return failed != 0;
}
