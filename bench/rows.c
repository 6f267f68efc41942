/* rows ROW TURNS [SIZE]: does a row's work so many times over, and prints its answer. What a turn needs is made before
   the first turn, and for MOST turns whatever TURNS is, so that the difference of two runs is the turns alone. */
#include "calls.h"
#include <stdio.h>
#include <stdlib.h>
#include <string.h>

/* the longest payload has as many TLVs with an address each */
enum { MOST = 64, TLVS = 15914, LONGEST = 9 * TLVS };

static uint8_t payload[LONGEST], store[ASHLAR_STORE], out[3 * ASHLAR_PAYLOAD];
static AshlarTlv list[TLVS];
static AshlarTable tables[MOST];
static AshlarStations stations[MOST];
static size_t size;

static void add(uint8_t type, size_t length) {
    payload[size] = type;
    payload[size + 1] = (uint8_t)(length >> 8);
    payload[size + 2] = (uint8_t)length;
    for (size_t i = 0; i < length; i++) payload[size + 3 + i] = (uint8_t)(size + i);
    size += 3 + length;
}

static void tlvs(size_t many, uint8_t type, size_t length, size_t last) {
    for (size_t i = 1; i < many; i++) add(type, length);
    add(type, last);
}

/* a counted list's count, then its head's bytes */
static void byte(uint8_t b) { payload[size++] = b; }

static void bytes(size_t n) {
    while (n--) byte((uint8_t)n);
}

static void ipv4(void) {
    byte(8);
    for (int i = 0; i < 8; i++) bytes(6), byte(16), bytes(16 * 9);
}

static void operational_bss(uint8_t radios) {
    byte(radios);
    for (int i = 0; i < radios; i++) {
        bytes(6), byte(4);
        for (int j = 0; j < 4; j++) bytes(6), byte(32), bytes(32);
    }
}

/* three texts without bytes, and as many radios as there can be, each with a text of 185 bytes */
static void inventory(void) {
    bytes(3), memset(payload, 0, 3);
    byte(255);
    for (int i = 0; i < 255; i++) {
        bytes(6), byte(185);
        for (int j = 0; j < 185; j++) byte((uint8_t)('a' + j % 26));
    }
}

/* a URL of so many ASCII bytes */
static void url(size_t n) {
    while (size < n) byte((uint8_t)(' ' + size % 95));
}

/* four keys are of one sender, which with two fragments each is its share (rule T6) */
static AshlarArrival piece(int key, int number, bool last) {
    return (AshlarArrival){(0x020000000000u + (unsigned)key / 4) * 65536 + (unsigned)key, 1000, {2, 0, (uint8_t)number, last}};
}

/* every table gets the first so many of: numbers 0 and 1 of key 0, of key 1, .. */
static void filled(int places) {
    AshlarTable t = CALL(fresh)();
    for (int i = 0; i < places; i++) CALL(push)(&t, store, sizeof store, out, sizeof out, piece(i / 2, i % 2, false), payload, 16);
    for (int i = 0; i < MOST; i++) tables[i] = t;
}

static int keys(const AshlarTable *t) {
    int n = 0;
    for (int i = 0; i < 16; i++) n += t->used[i];
    return n;
}

static unsigned long sum(const uint8_t *b, size_t n) {
    unsigned long s = 0;
    for (size_t i = 0; i < n; i++) s = s * 31 + b[i];
    return s;
}

static void read_header(int turns) {
    AshlarHeader h = {0};
    for (int i = 0; i < turns; i++) h = CALL(read_header)(payload, size);
    printf("%d %d %d %d %d %d %d, %d\n", h.version, h.reserved, h.message_type, h.message_id, h.number, h.flags, h.last, h.refusal);
}

static void walk(int turns) {
    AshlarWalk w = {0};
    for (int i = 0; i < turns; i++) w = CALL(walk)(payload, size);
    printf("%zu %d\n", w.count, w.refusal);
}

static void walk_into(int turns) {
    AshlarWalk w = {0};
    for (int i = 0; i < turns; i++) w = CALL(walk_into)(list, TLVS, payload, size);
    printf("%zu %d, last %d %d\n", w.count, w.refusal, list[w.count - 1].tlv_type, list[w.count - 1].length);
}

static void read_kind(int turns, uint8_t code) {
    AshlarKind k = {0};
    for (int i = 0; i < turns; i++) k = CALL(read_kind)(code, payload, size);
    printf("%zu %zu %zu %d\n", k.entries, k.consumed, k.rest, k.refusal);
}

static void find(int turns, uint8_t code) {
    tlvs(166, 2, 6, 4);
    AshlarWalk w = CALL(walk_into)(list, TLVS, payload, size);
    AshlarFound f = {0};
    uint8_t value[6];
    for (int i = 0; i < turns; i++) {
        f = CALL(find)(list, w.count, payload, size, code, 0);
        /* the original hands the value over: so it is taken out in each turn */
        if (!f.refusal) memcpy(value, payload + list[f.looked - 1].offset + 3, 6);
        __asm__ volatile("" ::"r"(value) : "memory");
    }
    if (f.refusal) printf("none\n");
    else printf("%lu\n", sum(value, 6));
}

/* every TLV of the kind, each looked for after the one before (rule F3) */
static void find_all(int turns, uint8_t code) {
    AshlarWalk w = CALL(walk_into)(list, TLVS, payload, size);
    AshlarFound f = {0};
    size_t found = 0;
    for (int i = 0; i < turns; i++) {
        found = 0;
        f.looked = 0;
        while (!(f = CALL(find)(list, w.count, payload, size, code, f.looked)).refusal) found++;
    }
    printf("%zu found, %zu looked at, %d\n", found, f.looked, f.refusal);
}

/* what a payload's copy costs by itself */
static void copy(int turns, size_t n) {
    for (int i = 0; i < turns; i++) {
        memcpy(store, payload, n);
        __asm__ volatile("" ::: "memory");
    }
    printf("%lu\n", sum(store, n));
}

static void complete(int turns, size_t n) {
    filled(0);
    AshlarPushed r = {0};
    AshlarShown s = {0};
    for (int i = 0; i < turns; i++) {
        CALL(push)(tables, store, sizeof store, out, sizeof out, piece(1, 0, false), payload, n);
        CALL(push)(tables, store, sizeof store, out, sizeof out, piece(1, 1, false), payload + n, n);
        r = CALL(push)(tables, store, sizeof store, out, sizeof out, piece(1, 2, true), payload + 2 * n, n);
        s = CALL(show)(r, payload + 2 * n, n, out, sizeof out);
    }
    printf("%zu %lu, keys %d\n", s.length, sum(out, s.length), keys(tables));
}

static void waiting(int turns, int places, size_t n) {
    filled(places);
    AshlarPushed r = {0};
    for (int i = 0; i < turns; i++) r = CALL(push)(&tables[i], store, sizeof store, out, sizeof out, piece(places / 2, places % 2, false), payload, n);
    printf("%s, keys %d\n", r.answer == ASHLAR_WAITING ? "waiting" : "something else", keys(&tables[turns - 1]));
}

static void sweep(int turns, uint64_t time) {
    filled(32);
    size_t dropped = 0;
    for (int i = 0; i < turns; i++) dropped = CALL(sweep)(&tables[i], time);
    printf("dropped %zu, keys %d\n", dropped, keys(&tables[turns - 1]));
}

static AshlarAddress address(uint8_t last) { return (AshlarAddress){{2, 0, 0, 0, 0, last}}; }

/* every station table holds the first so many stations, at access point 200; the last one is looked for longest */
static void stationed(int many) {
    AshlarStations t;
    CALL(stations_fresh)(&t);
    for (int i = 0; i < many; i++) CALL(station_event)(&t, address((uint8_t)i), address(200), true);
    for (int i = 0; i < MOST; i++) stations[i] = t;
}

static void event(int turns, int held, uint8_t station, uint8_t point, bool joined) {
    stationed(held);
    AshlarHeard h = {0};
    for (int i = 0; i < turns; i++) h = CALL(station_event)(&stations[i], address(station), address(point), joined);
    AshlarStations *t = &stations[turns - 1];
    printf("%d from %d, %d; %zu held, %d at %d\n", h.answer, h.from.bytes[5], h.refusal, CALL(station_count)(t), station, CALL(station_at)(t, address(station)).point.bytes[5]);
}

static void lookup(int turns, uint8_t station) {
    stationed(ASHLAR_STATIONS);
    AshlarAt a = {0};
    for (int i = 0; i < turns; i++) a = CALL(station_at)(stations, address(station));
    printf("%d %d\n", a.held, a.point.bytes[5]);
}

/* so many pairs of kind 10, after two addresses */
static void pairs(size_t many) {
    while (size < 12 + many * 23) byte((uint8_t)(size * size / 5));
}

static void shown(AshlarReport r) {
    printf("%d %d %lu %lu %d %d %d, %d\n", r.kind, r.count, r.errors, r.packets, r.has_lowest, r.lowest, r.sum, r.refusal);
}

/* all entries of a value one after the other, but for the bytes of names */
static void go_over(int turns, uint8_t code) {
    size_t entries = 0, starts = 0;
    for (int i = 0; i < turns; i++) {
        AshlarCursor c = CALL(entries)(code, 2, payload, size).cursor;
        AshlarEntry e;
        entries = starts = 0;
        while ((e = CALL(entry_next)(&c, payload, size)).answer == ASHLAR_ENTRY) entries++, starts += e.start;
    }
    printf("%zu, %zu\n", entries, starts);
}

static void link_report(int turns) {
    AshlarReport r = {0};
    for (int i = 0; i < turns; i++) r = CALL(link_report_rx)(payload, size);
    shown(r);
}

/* the report over all pairs, made from those over the first 512 and over the others */
static void link_merge(int turns) {
    size_t first = 12 + 512 * 23;
    AshlarReport r = {0}, a = CALL(link_report_rx)(payload, first);
    memmove(payload + 12, payload + first, size - first);
    AshlarReport b = CALL(link_report_rx)(payload, size - first + 12);
    for (int i = 0; i < turns; i++) r = CALL(link_merge)(a, b);
    shown(r);
}

/* a message is cut, and its fragments are checked */
static size_t ends[ASHLAR_FRAGMENTS];

static void cut(int turns) {
    AshlarCutting c = {0};
    for (int i = 0; i < turns; i++) c = CALL(cut)(payload, size, ends, ASHLAR_FRAGMENTS);
    printf("%zu %d, %lu\n", c.count, c.refusal, sum((const uint8_t *)ends, sizeof ends));
}

static void check(int turns) {
    AshlarProposed fragments[ASHLAR_FRAGMENTS];
    size_t count = CALL(cut)(payload, size, ends, ASHLAR_FRAGMENTS).count;
    memcpy(store, payload, size);
    for (size_t i = 0, start = 0; i < count; start = ends[i++]) fragments[i] = (AshlarProposed){1, 2, 3, (uint8_t)i, i + 1 == count, start, ends[i] - start};
    AshlarChecked c = {0};
    for (int i = 0; i < turns; i++) c = CALL(check)(payload, size, fragments, count, store, size);
    printf("%d %d\n", c.accepted, c.refusal);
}

/* a CMDU header, a frame of so many bytes of payload, and a capture of such frames, checked and listed */
static uint8_t capture[ASHLAR_FILE_HEADER + 100 * (ASHLAR_FRAME + 46)];
static AshlarFrame frames[100];

static void write_header(int turns) {
    AshlarWritten w = {0};
    AshlarFields f = {0, 2, 0x1234, 1, true};
    for (int i = 0; i < turns; i++) w = CALL(write_header)(f, out, sizeof out);
    printf("%zu, %d, %lu\n", w.length, w.refusal, sum(out, 8));
}

static void write_kind(int turns, uint8_t code) {
    AshlarWritten w = {0};
    for (int i = 0; i < turns; i++) w = CALL(write_kind)(code, payload, size, out, sizeof out);
    printf("%zu %d, %d %d\n", w.length, w.refusal, out[2], out[w.length - 1]);
}

static void write_association(int turns) {
    AshlarAssociation a = {address(7), address(200), true};
    AshlarWritten w = {0};
    for (int i = 0; i < turns; i++) w = CALL(write_association)(a, out, sizeof out);
    printf("%zu %d, %d %d\n", w.length, w.refusal, out[8], out[15]);
}

static void write_frame(int turns, size_t n) {
    AshlarWritten w = {0};
    for (int i = 0; i < turns; i++) w = CALL(capture_frame)(piece(5, 1, true), payload, n, out, sizeof out);
    printf("%zu, %d, %lu\n", w.length, w.refusal, sum(out, w.length));
}

static size_t captured(void) {
    size_t end = CALL(capture_header)(capture, sizeof capture).length;
    for (int i = 0; i < 100; i++) end += CALL(capture_frame)(piece(i, 1, i % 2), payload, 46, capture + end, sizeof capture - end).length;
    return end;
}

static void check_capture(int turns) {
    AshlarCapture c = {0};
    size_t end = captured();
    for (int i = 0; i < turns; i++) c = CALL(capture_check)(capture, end);
    printf("%zu %zu, %d\n", c.frames, c.others, c.refusal);
}

static void list_capture(int turns) {
    AshlarCapture c = {0};
    size_t end = captured(), all = 0;
    for (int i = 0; i < turns; i++) c = CALL(capture_frames)(frames, 100, capture, end);
    for (int i = 0; i < 100; i++) all += frames[i].offset * frames[i].cmdu.message_id + frames[i].length;
    printf("%zu %zu, %d, %zu\n", c.frames, c.others, c.refusal, all);
}

int main(int argc, char **argv) {
    if (argc < 3) return 2;
    const char *row = argv[1];
    int turns = atoi(argv[2]);
    size_t many = argc > 3 ? (size_t)atol(argv[3]) : 0;
    if (turns < 1 || turns > MOST) return 2;
    for (size_t i = 0; i < sizeof payload; i++) payload[i] = (uint8_t)(i * 7);
    if (!strcmp(row, "header")) bytes(8), read_header(turns);
    else if (!strcmp(row, "walk-497")) tlvs(497, 1, 0, 1), walk(turns);
    else if (!strcmp(row, "walk-165")) tlvs(165, 1, 6, 13), walk(turns);
    else if (!strcmp(row, "list-497")) tlvs(497, 1, 0, 1), walk_into(turns);
    else if (!strcmp(row, "list-165")) tlvs(165, 1, 6, 13), walk_into(turns);
    else if (!strcmp(row, "walk")) tlvs(many, 1, 0, 0), walk(turns);
    else if (!strcmp(row, "ipv4")) ipv4(), read_kind(turns, 23);
    else if (!strcmp(row, "bss")) operational_bss(2), read_kind(turns, 0x83);
    else if (!strcmp(row, "bss-255")) operational_bss(255), read_kind(turns, 0x83);
    else if (!strcmp(row, "go-bss-255")) operational_bss(255), go_over(turns, 0x83);
    else if (!strcmp(row, "inventory-255")) inventory(), read_kind(turns, 0xD4);
    else if (!strcmp(row, "go-inventory-255")) inventory(), go_over(turns, 0xD4);
    else if (!strcmp(row, "url-1400")) url(1400), read_kind(turns, 22);
    else if (!strcmp(row, "find-none")) find(turns, 1);
    else if (!strcmp(row, "find-first")) find(turns, 2);
    else if (!strcmp(row, "find-all")) tlvs(TLVS, 2, 6, 6), find_all(turns, 2);
    else if (!strcmp(row, "push-1492")) complete(turns, 1492);
    else if (!strcmp(row, "push-16")) complete(turns, 16);
    else if (!strcmp(row, "wait")) waiting(turns, (int)many, 16);
    else if (!strcmp(row, "wait-1492")) waiting(turns, (int)many, 1492);
    else if (!strcmp(row, "copy")) copy(turns, many);
    else if (!strcmp(row, "sweep-none")) sweep(turns, 3999);
    else if (!strcmp(row, "sweep-all")) sweep(turns, 4000);
    else if (!strcmp(row, "join-known")) event(turns, ASHLAR_STATIONS, ASHLAR_STATIONS - 1, 201, true);
    else if (!strcmp(row, "join-new")) event(turns, ASHLAR_STATIONS - 1, ASHLAR_STATIONS - 1, 201, true);
    else if (!strcmp(row, "leave-stale")) event(turns, ASHLAR_STATIONS, ASHLAR_STATIONS - 1, 201, false);
    else if (!strcmp(row, "where-none")) lookup(turns, ASHLAR_STATIONS);
    else if (!strcmp(row, "cut-9")) tlvs(9, 1, 1489, 1489), cut(turns);
    else if (!strcmp(row, "cut-36")) tlvs(36, 1, 370, 370), cut(turns);
    else if (!strcmp(row, "cut-3357")) tlvs(3357, 1, 1, 1), cut(turns);
    else if (!strcmp(row, "check-36")) tlvs(36, 1, 370, 370), check(turns);
    else if (!strcmp(row, "report-1024")) pairs(1024), link_report(turns);
    else if (!strcmp(row, "merge")) pairs(1024), link_merge(turns);
    else if (!strcmp(row, "write-header")) write_header(turns);
    else if (!strcmp(row, "write-association")) write_association(turns);
    else if (!strcmp(row, "write-bss")) operational_bss(2), write_kind(turns, 0x83);
    else if (!strcmp(row, "frame-46")) write_frame(turns, 46);
    else if (!strcmp(row, "frame-1492")) write_frame(turns, 1492);
    else if (!strcmp(row, "capture-check")) check_capture(turns);
    else if (!strcmp(row, "capture-list")) list_capture(turns);
    else return 2;
    return 0;
}
