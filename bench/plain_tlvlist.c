/* tlvlist in plain C: the TLVs of the payload on standard input. */
#include <stdint.h>
#include <unistd.h>

static uint8_t payload[47745];
static char text[4096];
static size_t used;

static void flush(void) {
    for (size_t at = 0; at < used;) {
        ssize_t n = write(1, text + at, used - at);
        if (n <= 0) _exit(1);
        at += (size_t)n;
    }
    used = 0;
}

static void put_number(size_t n) {
    char digits[20];
    int k = 20;
    do digits[--k] = (char)('0' + n % 10);
    while (n /= 10);
    while (k < 20) text[used++] = digits[k++];
}

static void put(const char *words) {
    while (*words) text[used++] = *words++;
}

static void put_line(const char *before, size_t a, const char *between, size_t b) {
    if (sizeof text - used < 80) flush();
    put(before);
    put_number(a);
    if (between) {
        put(between);
        put_number(b);
    }
    text[used++] = '\n';
}

static void put_bad(size_t number, size_t at, size_t missing) {
    if (sizeof text - used < 80) flush();
    put("bad ");
    put_number(number);
    put(" at ");
    put_number(at);
    put(" ");
    put_number(missing);
    text[used++] = '\n';
}

int main(void) {
    size_t n = 0, at = 0;
    for (ssize_t k; n < sizeof payload && (k = read(0, payload + n, sizeof payload - n)) > 0;) n += (size_t)k;
    unsigned bad = n > 47744 ? 12 : 0;
    size_t missing = 0;
    int marker = 0;
    while (!bad && !marker && at < n) {
        size_t length = n - at < 3 ? 0 : (size_t)payload[at + 1] << 8 | payload[at + 2];
        if (n - at < 3) bad = 1, missing = 3 - (n - at);
        else if (n - at - 3 < length) bad = 2, missing = length - (n - at - 3);
        else {
            put_line("", payload[at], " ", length);
            marker = !payload[at] && !length;
            at += 3 + length;
        }
    }
    if (bad) put_bad(bad, at, missing);
    else put_line("end ", at, 0, 0);
    flush();
    return 0;
}
