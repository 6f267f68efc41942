/* hostile CALLS SEED: CALLS random calls (rules A1 to A4). Each slice ends at a page that can't be touched, lengths are
   any, tables are those that the calls made; a station table may be any bytes. Every refusal is one that the rules give
   the call. Every answer and every lent byte is the same as that of the plain C of bench/plain.c. A table's totals
   are counted anew after every call. */
#include "../bench/calls.h"
#include <stdio.h>
#include <stdlib.h>
#include <string.h>
#include <sys/mman.h>

enum { PAGE = 4096 };

/* each call, and which numbers it may give by rules N1 and N2, a bit for each; 0 is no refusal */
#define N(number) | 1u << number
#define CALLS \
    X(READ_HEADER, "read_header", 0 N(0) N(1)) \
    X(WRITE_HEADER, "write_header", 0 N(0) N(7)) \
    X(CAPTURE_HEADER, "capture_header", 0 N(0) N(7)) \
    X(CAPTURE_FRAME, "capture_frame", 0 N(0) N(7) N(12) N(23)) \
    X(WRITE_TLV, "write_tlv", 0 N(0) N(7) N(8)) \
    X(WRITE_KIND, "write_kind", 0 N(0) N(3) N(4) N(5) N(7) N(8) N(16) N(18)) \
    X(STEP, "step", 0 N(0) N(1) N(2)) \
    X(WALK, "walk", 0 N(0) N(1) N(2)) \
    X(WALK_INTO, "walk_into", 0 N(0) N(1) N(2) N(14)) \
    X(READ_KIND, "read_kind", 0 N(0) N(3) N(4) N(5) N(16) N(18)) \
    X(FIND, "find", 0 N(0) N(15) N(16)) \
    X(TEXT, "text", 0 N(0) N(3) N(4) N(5) N(6) N(16) N(18)) \
    X(RADIO, "radio", 0 N(0) N(3) N(6) N(18)) \
    X(RADIO_TEXT, "radio_text", 0 N(0) N(3) N(6) N(18)) \
    X(READ_ADDRESS, "read_address", 0 N(0) N(3) N(4) N(5) N(16)) \
    X(READ_BYTE, "read_byte", 0 N(0) N(3) N(4) N(5) N(16)) \
    X(READ_QUERY, "read_query", 0 N(0) N(3)) \
    X(READ_ASSOCIATION, "read_association", 0 N(0) N(3) N(5)) \
    X(READ_CAPABILITY, "read_capability", 0 N(0) N(3)) \
    X(WRITE_ADDRESS, "write_address", 0 N(0) N(7) N(16)) \
    X(WRITE_BYTE, "write_byte", 0 N(0) N(7) N(9) N(16)) \
    X(WRITE_QUERY, "write_query", 0 N(0) N(7) N(9)) \
    X(WRITE_ASSOCIATION, "write_association", 0 N(0) N(7)) \
    X(WRITE_CAPABILITY, "write_capability", 0 N(0) N(7) N(9)) \
    X(ENTRIES, "entries", 0 N(0) N(3) N(4) N(5) N(6) N(16) N(18)) \
    X(ENTRY_NEXT, "entry_next", 0 N(0) N(3) N(6) N(16)) \
    X(ENTRY_AT, "entry_at", 0 N(0) N(3) N(4) N(5) N(6) N(16) N(18)) \
    X(ENTRY_COUNT, "entry_count", 0 N(0) N(3) N(4) N(5) N(6) N(16) N(18)) \
    X(FRONT, "front", 0 N(0) N(3) N(16)) \
    X(ENTRY_NEIGHBOUR, "entry_neighbour", 0 N(0) N(3) N(16)) \
    X(ENTRY_INTERFACE, "entry_interface", 0 N(0) N(3) N(16)) \
    X(ENTRY_IPV4, "entry_ipv4", 0 N(0) N(3)) \
    X(ENTRY_IPV6, "entry_ipv6", 0 N(0) N(3)) \
    X(ENTRY_BYTE, "entry_byte", 0 N(0) N(3) N(16)) \
    X(ENTRY_RADIO, "entry_radio", 0 N(0) N(3) N(16)) \
    X(ENTRY_BSS, "entry_bss", 0 N(0) N(3) N(16)) \
    X(ENTRY_TX_PAIR, "entry_tx_pair", 0 N(0) N(3)) \
    X(ENTRY_RX_PAIR, "entry_rx_pair", 0 N(0) N(3)) \
    X(PUT_COUNT, "put_count", 0 N(0) N(7) N(9)) \
    X(PUT_FRONT, "put_front", 0 N(0) N(7) N(9) N(16)) \
    X(PUT_NEIGHBOUR, "put_neighbour", 0 N(0) N(7) N(9) N(16)) \
    X(PUT_INTERFACE, "put_interface", 0 N(0) N(7) N(9) N(16)) \
    X(PUT_IPV4, "put_ipv4", 0 N(0) N(7)) \
    X(PUT_IPV6, "put_ipv6", 0 N(0) N(7)) \
    X(PUT_BYTE, "put_byte", 0 N(0) N(7) N(16)) \
    X(PUT_RADIO, "put_radio", 0 N(0) N(7) N(9) N(16)) \
    X(PUT_BSS, "put_bss", 0 N(0) N(7) N(9) N(16)) \
    X(PUT_TX_PAIR, "put_tx_pair", 0 N(0) N(7)) \
    X(PUT_RX_PAIR, "put_rx_pair", 0 N(0) N(7)) \
    X(KEY, "key", 0 N(0)) \
    X(FRESH, "fresh", 0 N(0)) \
    X(PUSH, "push", 0 N(0) N(10) N(11) N(12) N(13) N(20)) \
    X(SHOW, "show", 0 N(0)) \
    X(SWEEP, "sweep", 0 N(0)) \
    X(FRAGMENTS_PUSH, "fragments_push", 0 N(0) N(10) N(11) N(12) N(13) N(20)) \
    X(FRAGMENTS_SHOW, "fragments_show", 0 N(0)) \
    X(FRAGMENTS_SWEEP, "fragments_sweep", 0 N(0)) \
    X(CHECK, "check", 0 N(0) N(1) N(2) N(4)) \
    X(CUT, "cut", 0 N(0) N(1) N(2) N(4) N(7) N(21)) \
    X(STATION_EVENT, "station_event", 0 N(0) N(17)) \
    X(STATION_EVENT_FROM, "station_event_from", 0 N(0) N(3) N(5) N(17)) \
    X(STATION_AT, "station_at", 0 N(0)) \
    X(STATION_COUNT, "station_count", 0 N(0)) \
    X(STATION_ROW, "station_row", 0 N(0)) \
    X(STATIONS_EVENT, "stations_event", 0 N(0) N(17)) \
    X(STATIONS_EVENT_FROM, "stations_event_from", 0 N(0) N(3) N(5) N(17)) \
    X(STATIONS_AT, "stations_at", 0 N(0)) \
    X(STATIONS_COUNT, "stations_count", 0 N(0)) \
    X(STATIONS_ROW, "stations_row", 0 N(0)) \
    X(LINK_REPORT_TX, "link_report_tx", 0 N(0) N(3) N(4) N(19)) \
    X(LINK_REPORT_RX, "link_report_rx", 0 N(0) N(3) N(4) N(19)) \
    X(LINK_MERGE, "link_merge", 0 N(0) N(19)) \
    X(CAPTURE_CHECK, "capture_check", 0 N(0) N(2) N(22) N(23)) \
    X(CAPTURE_STEP, "capture_step", 0 N(0) N(2) N(22) N(23)) \
    X(CAPTURE_FRAMES, "capture_frames", 0 N(0) N(2) N(14) N(22) N(23)) \
    X(CAPTURE_ARRIVAL, "capture_arrival", 0 N(0)) \

enum {
#define X(call, name, given) call,
    CALLS
#undef X
    KINDS
};
static const char *const names[KINDS] = {
#define X(call, name, given) name,
    CALLS
#undef X
};
static const unsigned numbers[KINDS] = {
#define X(call, name, given) given,
    CALLS
#undef X
};
static unsigned long calls[KINDS], wrong[KINDS];
static unsigned seen[KINDS], answers, events, records;
static uint64_t state;

static uint64_t any(void) {
    state ^= state << 13;
    state ^= state >> 7;
    state ^= state << 17;
    return state * 0x2545F4914F6CDD1Dull >> 16;
}

static size_t below(size_t n) { return any() % n; }

/* room for n bytes whose end can't be passed */
typedef struct {
    uint8_t *end;
    size_t most;
} Room;

static Room room(size_t most) {
    size_t size = (most + PAGE - 1) / PAGE * PAGE;
    uint8_t *at = mmap(0, size + PAGE, PROT_READ | PROT_WRITE, MAP_PRIVATE | MAP_ANONYMOUS, -1, 0);
    if (at == MAP_FAILED || mprotect(at + size, PAGE, PROT_NONE)) exit(2);
    return (Room){at + size, size};
}

static void told(int call, unsigned number, bool same) {
    calls[call]++;
    if (number > 23 || !(numbers[call] >> number & 1) || !same) wrong[call]++;
    else seen[call] |= 1u << number;
}

static Room payloads, lists, expected, stores[2], outs[2];
static AshlarTable tables[2];

/* bytes that often read: TLVs and counts are mostly short */
static uint8_t *bytes(size_t n) {
    uint8_t *at = payloads.end - n;
    int form = (int)below(4);
    for (size_t i = 0; i < n; i++) at[i] = (uint8_t)(form == 0 ? any() : form == 1 ? below(4) : below(3) ? below(3) : any());
    if (form == 3)
        for (size_t i = 0; i + 3 <= n;) {
            size_t length = below(5) ? below(12) : below(400);
            if (length > n - i - 3 && below(8)) length = n - i - 3;
            at[i + 1] = (uint8_t)(length >> 8);
            at[i + 2] = (uint8_t)length;
            i += 3 + length;
        }
    return at;
}

static uint8_t code(void) {
    static const uint8_t codes[25] = {0, 1, 2, 4, 6, 7, 8, 9, 10, 12, 13, 15, 16, 21, 22, 23, 24, 26, 0x80, 0x83, 0x92, 0xB3, 0xB4, 0xB7, 0xD4};
    return below(4) ? codes[below(25)] : (uint8_t)any();
}

/* a text of up to so many bytes: the first and last characters of each length, zeros, now and then what is no
   character, or one that is cut */
static size_t letters(uint8_t *at, size_t most) {
    static const char *const good[10] = {"a", "\x7F", "\xC2\x80", "\xDF\xBF", "\xE0\xA0\x80", "\xED\x9F\xBF", "\xEE\x80\x80", "\xEF\xBF\xBF", "\xF0\x90\x80\x80", "\xF4\x8F\xBF\xBF"};
    static const char *const bad[10] = {"\x80", "\xC0\x80", "\xC1\xBF", "\xC2", "\xE0\x9F\xBF", "\xED\xA0\x80", "\xF0\x8F\xBF\xBF", "\xF4\x90\x80\x80", "\xF5\x80\x80\x80", "\xFF"};
    size_t n = 0;
    bool plain = below(2);
    for (size_t many = below(4) ? below(8) : below(300); many && n < most; many--) {
        const char *c = !below(100) ? bad[below(10)] : plain ? "b" : good[below(10)];
        size_t size = below(50) ? strlen(c) : (c = "", 1);
        if (size > most - n) {
            if (below(8)) break;
            size = most - n;
        }
        memcpy(at + n, c, size);
        n += size;
    }
    return n;
}

static size_t string(uint8_t *at, size_t head) {
    for (size_t i = 0; i < head; i++) at[i] = (uint8_t)any();
    at[head] = (uint8_t)letters(at + head + 1, below(4) ? 20 : 255);
    return head + 1 + at[head];
}

/* a value of a kind that holds text, now and then cut, or with bytes after it; of a kind of pairs often whole ones; of
   any other kind any bytes */
static uint8_t *value(uint8_t k, size_t *n) {
    static uint8_t made[PAGE];
    size_t size = 0;
    if ((k == 9 || k == 10) && below(2)) return bytes(*n = 12 + below(60) * (k == 9 ? 29 : 23));
    if (k != 21 && k != 22 && k != 0xD4) return bytes(*n = below(4) ? below(40) : below(2000));
    if (k == 22) size = letters(made, 1000);
    for (; k == 21 && size < 192; size += 64) {
        size_t text = letters(made + size, 64);
        for (size_t i = text; i < 64; i++) made[size + i] = (uint8_t)(i == text || below(2) ? 0 : any());
    }
    if (k == 0xD4) {
        for (int i = 0; i < 3; i++) size += string(made + size, 0);
        size_t radios = made[size++] = (uint8_t)below(5);
        while (radios--) size += string(made + size, 6);
    }
    if (!below(6)) size = below(size + 1);
    for (size_t more = below(6) ? 0 : below(9); more; more--) made[size++] = (uint8_t)any();
    *n = size;
    return memcpy(payloads.end - size, made, size);
}

static bool same_header(AshlarHeader a, AshlarHeader b) {
    return a.shortfall == b.shortfall && a.version == b.version && a.reserved == b.reserved && a.message_type == b.message_type && a.message_id == b.message_id && a.number == b.number &&
           a.flags == b.flags && a.last == b.last && a.refusal == b.refusal;
}

static void read_header(void) {
    size_t n = below(4) ? below(12) : below(2000);
    uint8_t *p = bytes(n);
    AshlarHeader a = ashlar_read_header(p, n);
    told(READ_HEADER, a.refusal, same_header(a, plain_read_header(p, n)));
}

static bool same_walk(AshlarWalk a, AshlarWalk b) { return a.count == b.count && a.padding == b.padding && a.at == b.at && a.shortfall == b.shortfall && a.refusal == b.refusal; }

static void walk(void) {
    size_t n = below(4) ? below(64) : below(3000);
    uint8_t *p = bytes(n);
    AshlarWalk a = ashlar_walk(p, n);
    told(WALK, a.refusal, same_walk(a, plain_walk(p, n)));
}

static size_t listed(uint8_t *p, size_t n, AshlarTlv **list) {
    size_t many = below(4) ? below(20) : below(1100);
    *list = (AshlarTlv *)(lists.end - many * sizeof(AshlarTlv));
    AshlarTlv *other = (AshlarTlv *)(expected.end - many * sizeof(AshlarTlv));
    for (size_t i = 0; i < many * sizeof(AshlarTlv); i++) ((uint8_t *)*list)[i] = (uint8_t)any();
    memcpy(other, *list, many * sizeof(AshlarTlv));
    AshlarWalk a = ashlar_walk_into(*list, many, p, n), b = plain_walk_into(other, many, p, n);
    bool same = same_walk(a, b);
    for (size_t i = 0; i < many; i++) same &= (*list)[i].tlv_type == other[i].tlv_type && (*list)[i].length == other[i].length && (*list)[i].offset == other[i].offset;
    told(WALK_INTO, a.refusal, same);
    return many;
}

static void walk_into(void) {
    AshlarTlv *list;
    size_t n = below(4) ? below(64) : below(3000);
    listed(bytes(n), n, &list);
}

static bool same_kind(AshlarKind a, AshlarKind b) { return a.entries == b.entries && a.consumed == b.consumed && a.rest == b.rest && a.is_list == b.is_list && a.refusal == b.refusal; }

static void read_kind(void) {
    size_t n;
    uint8_t k = code(), *p = value(k, &n);
    AshlarKind a = ashlar_read_kind(k, p, n);
    told(READ_KIND, a.refusal, same_kind(a, plain_read_kind(k, p, n)));
}

/* the value of a record that was found */
static bool reads(uint8_t k, const uint8_t *p, AshlarTlv t) {
    AshlarKind a = ashlar_read_kind(k, p + t.offset + 3, t.length);
    return !a.refusal && same_kind(a, plain_read_kind(k, p + t.offset + 3, t.length));
}

/* the list holds what a walk left, and after it anything at all (rule F3) */
static void find(void) {
    AshlarTlv *list;
    size_t n = below(4) ? below(64) : below(3000), many;
    uint8_t *p = bytes(n), k = code();
    many = listed(p, n, &list);
    size_t from = below(4) ? 0 : below(3) ? below(20) : (size_t)any() << 32;
    AshlarFound a = ashlar_find(list, many, p, n, k, from), b = plain_find(list, many, p, n, k, from);
    bool same = a.looked == b.looked && a.refusal == b.refusal;
    told(FIND, a.refusal, same && (a.refusal || reads(k, p, list[a.looked - 1])));
}

/* the part that is answered lies in the value */
static bool same_part(AshlarPart a, AshlarPart b, size_t n) {
    return a.start == b.start && a.length == b.length && a.refusal == b.refusal && a.start <= n && a.length <= n - a.start && (!a.refusal || !(a.start || a.length));
}

static void text(void) {
    static const uint8_t codes[3] = {21, 22, 0xD4};
    size_t n, number = below(8) ? below(5) : (size_t)any() << below(48);
    uint8_t k = below(3) ? codes[below(3)] : code(), *p = value(k, &n);
    AshlarPart a = ashlar_text(k, number, p, n);
    told(TEXT, a.refusal, same_part(a, plain_text(k, number, p, n), n));
    p = value(0xD4, &n);
    a = ashlar_radio(number, p, n);
    told(RADIO, a.refusal, same_part(a, plain_radio(number, p, n), n));
    a = ashlar_radio_text(number, p, n);
    told(RADIO_TEXT, a.refusal, same_part(a, plain_radio_text(number, p, n), n));
}

/* The totals are what counting gives, in the lowest row of each sender and nowhere else, and no more than a share (rules
   T6 and T15). */
static bool in_step(const AshlarTable *t) {
    for (int row = 0; row < ASHLAR_KEYS; row++) {
        int keys = 0, places = 0;
        bool lowest = t->used[row];
        for (int i = 0; i < ASHLAR_KEYS && t->used[row]; i++) {
            if (!t->used[i] || t->row_keys[i] >> 16 != t->row_keys[row] >> 16) continue;
            lowest &= i >= row;
            keys++;
            for (int j = 0; j < ASHLAR_PLACES; j++) places += t->owners[j] == i + 1;
        }
        if (keys > ASHLAR_SENDER_KEYS || places > ASHLAR_SENDER_PLACES) return false;
        if (t->sender_keys[row] != (lowest ? keys : 0) || t->sender_places[row] != (lowest ? places : 0)) return false;
    }
    return true;
}

static void push(void) {
    size_t n = below(8) ? below(40) : below(4) ? below(1493) : below(1600);
    size_t kept = below(64) ? ASHLAR_STORE + below(2) : below(ASHLAR_STORE), space = below(3) ? 200 : below(6000);
    uint8_t *p = bytes(n);
    AshlarArrival a = {below(8) << 16 | below(6), any() % 8000, {(uint16_t)(2 + !below(30)), (uint8_t)!below(40), (uint8_t)(below(20) ? below(4) : any()), !below(4)}};
    uint8_t *out[2];
    for (int i = 0; i < 2; i++) out[i] = outs[i].end - space;
    AshlarPushed x = ashlar_push(&tables[0], stores[0].end - kept, kept, out[0], space, a, p, n);
    AshlarPushed y = plain_push(&tables[1], stores[1].end - kept, kept, out[1], space, a, p, n);
    bool same = x.length == y.length && x.answer == y.answer && x.refusal == y.refusal && !memcmp(&tables[0], &tables[1], sizeof tables[0]) && !memcmp(out[0], out[1], space);
    if (!below(16)) same &= !memcmp(stores[0].end - kept, stores[1].end - kept, kept);
    same &= in_step(&tables[0]);
    told(PUSH, x.refusal, same && x.answer <= ASHLAR_JOINED && (x.answer == ASHLAR_REFUSED) == (x.refusal != 0));
    answers |= 1u << x.answer;
    if (below(2)) x = (AshlarPushed){(size_t)any() >> below(48), (uint8_t)any(), (uint8_t)any()};
    AshlarShown s = ashlar_show(x, p, n, out[0], space), t = plain_show(x, p, n, out[0], space);
    told(SHOW, 0, s.length == t.length && s.in_output == t.in_output && s.length <= (s.in_output ? space : n));
}

static void sweep(void) {
    uint64_t time = below(20) ? any() % 11000 : any() << 40;
    size_t a = ashlar_sweep(&tables[0], time), b = plain_sweep(&tables[1], time);
    told(SWEEP, 0, a == b && !memcmp(&tables[0], &tables[1], sizeof tables[0]) && in_step(&tables[0]));
}

static void fresh(void) {
    tables[0] = ashlar_fresh();
    tables[1] = plain_fresh();
    told(FRESH, 0, !memcmp(&tables[0], &tables[1], sizeof tables[0]));
}

/* ---- Cutting ---- */

enum { MOST_ENDS = 12, MOST_PROPOSED = 24 };
static Room proposals, parts, ends[2];
static unsigned verdicts; /* a bit for not accepted, and one for accepted */

/* TLVs of about one size, some of which fill a fragment, and so many that some need ten; then now and then a marker, or
   bytes after it; or all of it cut; or any bytes */
static uint8_t *message(size_t *n) {
    static const size_t sizes[] = {3, 4, 20, 373, 746, 900, 1492};
    static uint8_t made[24000];
    size_t size = 0, usual = sizes[below(7)], most = below(5) ? below(3000) : below(4) ? ASHLAR_MESSAGE - below(4) : below(16000);
    while (size < most) {
        size_t tlv = below(50) ? usual : below(60) ? 3 + below(usual) : 1490 + below(6);
        made[size] = (uint8_t)(1 + below(3)), made[size + 1] = (uint8_t)((tlv - 3) >> 8), made[size + 2] = (uint8_t)(tlv - 3);
        memset(made + size + 3, (int)any(), tlv - 3);
        size += tlv;
    }
    if (!below(4)) size += 3, memset(made + size - 3, 0, 3 + 8);
    if (!below(8)) size += below(8);
    if (!below(8)) size = below(size + 1);
    if (!below(8)) return *n = below(64), bytes(*n);
    *n = size;
    return memcpy(payloads.end - size, made, size);
}

/* a fragment of the message, whose payload is put into the parts before this place of them */
static AshlarProposed proposed(const uint8_t *payload, size_t length, size_t *place) {
    *place -= length;
    memcpy(parts.end - parts.most + *place, payload, length);
    return (AshlarProposed){1, 2, 3, 0, false, *place, length};
}

/* a message cut between TLVs, here and there before a fragment is full: how many fragments */
static size_t cut_somewhere(const uint8_t *p, size_t n, AshlarProposed *f) {
    size_t start = 0, at = 0, count = 0, place = parts.most, often = 2 + below(40);
    while (n - at >= 3 && count < MOST_PROPOSED - 2) {
        size_t size = 3 + ((size_t)p[at + 1] << 8 | p[at + 2]);
        if (size > n - at) break;
        if (at > start && (at + size - start > ASHLAR_PAYLOAD || !below(often))) f[count++] = proposed(p + start, at - start, &place), start = at;
        at += size;
    }
    f[count++] = proposed(p + start, n - start, &place);
    for (size_t i = 0; i < count; i++) f[i].number = (uint8_t)i, f[i].last = i + 1 == count;
    return count;
}

/* one thing about the fragments is another, or nothing is */
static size_t spoilt(AshlarProposed *f, size_t count) {
    size_t i = below(count), j = below(count);
    AshlarProposed other = f[j];
    switch (below(30)) {
    case 0: f[i].version ^= 1; break;
    case 1: f[i].message_type ^= 256; break;
    case 2: f[i].message_id ^= 256; break;
    case 3: f[i].number ^= 1; break;
    case 4: f[i].last = !f[i].last; break;
    case 5: f[i].start += below(2) ? 1 : (size_t)any() << 20; break;
    case 6: f[i].length -= below(2); break;
    case 7: f[i].length = below(2) ? 0 : (size_t)any() << below(48); break;
    case 8: f[i].start = -f[i].length; break;
    case 9: parts.end[-1 - (long)below(1 + parts.most - f[count - 1].start)] ^= 1; break;
    case 10: f[j] = f[i], f[i] = other; break;
    case 11: count--; break;
    case 12: f[count++] = f[i]; break;
    case 13: f[count] = f[count - 1], f[count - 1].last = false, f[count].number++, f[count++].length = 0; break;
    }
    return count;
}

static bool checked(const uint8_t *p, size_t n, const AshlarProposed *f, size_t count, const uint8_t *parts_of, size_t size) {
    AshlarProposed *list = (AshlarProposed *)proposals.end - count;
    memcpy(list, f, count * sizeof *f);
    AshlarChecked a = ashlar_check(p, n, list, count, parts_of, size), b = plain_check(p, n, list, count, parts_of, size);
    told(CHECK, a.refusal, a.at == b.at && a.shortfall == b.shortfall && a.accepted == b.accepted && a.refusal == b.refusal);
    if (!a.refusal) verdicts |= 1u << a.accepted;
    return a.accepted;
}

static void check(void) {
    AshlarProposed f[MOST_PROPOSED];
    size_t n;
    uint8_t *p = message(&n);
    size_t count = spoilt(f, cut_somewhere(p, n, f));
    checked(p, n, f, count, parts.end - parts.most, parts.most - !below(20));
}

/* what the cutter makes is accepted (rule M6) */
static bool passes(const uint8_t *p, size_t n, const size_t *at, size_t count) {
    AshlarProposed f[MOST_ENDS];
    for (size_t i = 0; i < count; i++) f[i] = (AshlarProposed){9, 8, 7, (uint8_t)i, i + 1 == count, i ? at[i - 1] : 0, at[i] - (i ? at[i - 1] : 0)};
    return checked(p, n, f, count, p, n);
}

static void cut(void) {
    size_t n, many = below(MOST_ENDS + 1), *list[2];
    uint8_t *p = message(&n);
    for (int i = 0; i < 2; i++) list[i] = (size_t *)ends[i].end - many;
    for (size_t i = 0; i < many; i++) list[0][i] = list[1][i] = any();
    AshlarCutting a = ashlar_cut(p, n, list[0], many), b = plain_cut(p, n, list[1], many);
    bool same = a.count == b.count && a.at == b.at && a.shortfall == b.shortfall && a.refusal == b.refusal && !memcmp(list[0], list[1], many * sizeof **list);
    told(CUT, a.refusal, same && a.count <= ASHLAR_FRAGMENTS && (a.refusal || passes(p, n, list[0], a.count)));
}

/* ---- Stations ---- */

static AshlarStations *stations[2];

static void fresh_stations(void) {
    ashlar_stations_fresh(stations[0]);
    plain_stations_fresh(stations[1]);
}

/* one of so many addresses, among them all zeros and all ones, or any at all */
static AshlarAddress address(size_t of) {
    AshlarAddress a;
    size_t n = below(of);
    bool other = !below(32);
    for (int i = 0; i < 6; i++) a.bytes[i] = (uint8_t)(other ? any() : n == of - 1 ? 0xff : i == 5 ? n : 0);
    return a;
}

static AshlarAddress station(void) { return address(160); }

static AshlarAddress point(void) { return address(4); }

/* a station table that no call made, the same on both sides: any bytes, or numbers near those of addresses */
static void any_stations(void) {
    bool near = below(2);
    for (size_t i = 0; i < 2 * ASHLAR_STATIONS; i++) {
        uint64_t n = near ? below(170) : any() << 16 ^ any();
        memcpy((uint8_t *)stations[0] + i * 8, &n, 8);
    }
    *stations[1] = *stations[0];
}

static bool same_address(AshlarAddress a, AshlarAddress b) { return !memcmp(&a, &b, sizeof a); }

static bool same_heard(AshlarHeard a, AshlarHeard b) {
    events |= 1u << (a.answer & 7);
    return same_address(a.from, b.from) && a.answer == b.answer && a.refusal == b.refusal && a.answer <= ASHLAR_STALE && (a.answer == ASHLAR_REFUSED) == (a.refusal != 0);
}

static bool same_stations(void) { return !memcmp(stations[0], stations[1], sizeof *stations[0]); }

static void station_event(void) {
    AshlarAddress s = station(), p = point();
    bool joined = below(5);
    AshlarHeard a = ashlar_station_event(stations[0], s, p, joined), b = plain_station_event(stations[1], s, p, joined);
    told(STATION_EVENT, a.refusal, same_heard(a, b) && same_stations());
}

static void station_event_from(void) {
    size_t n = below(4) ? 11 + below(5) : below(2000);
    AshlarAddress s = station(), p = point();
    uint8_t *v = bytes(n);
    if (n > 12) memcpy(v, &s, 6), memcpy(v + 6, &p, 6), v[12] = (uint8_t)(below(4) ? below(5) ? 0x80 : 0 : any());
    AshlarApplied a = ashlar_station_event_from(stations[0], v, n), b = plain_station_event_from(stations[1], v, n);
    told(STATION_EVENT_FROM, a.heard.refusal, a.consumed == b.consumed && a.rest == b.rest && same_heard(a.heard, b.heard) && same_stations());
}

static void station_at(void) {
    AshlarAddress s = station();
    AshlarAt a = ashlar_station_at(stations[0], s), b = plain_station_at(stations[1], s);
    told(STATION_AT, 0, a.held == b.held && same_address(a.point, b.point));
}

static void station_rows(void) {
    size_t n = below(4) ? below(ASHLAR_STATIONS) : below(4) ? ASHLAR_STATIONS + below(9) : (size_t)any() << 40;
    AshlarRow a = ashlar_station_row(stations[0], n), b = plain_station_row(stations[1], n);
    told(STATION_ROW, 0, a.held == b.held && same_address(a.station, b.station) && same_address(a.point, b.point));
    told(STATION_COUNT, 0, ashlar_station_count(stations[0]) == plain_station_count(stations[1]) && same_stations());
}

static void of_stations(void) {
    size_t which = below(100);
    if (which < 50) station_event();
    else if (which < 75) station_event_from();
    else if (which < 85) station_at();
    else if (which < 95) station_rows();
    else if (!below(8)) any_stations();
    else if (!below(20)) fresh_stations();
}

/* ---- Link reports ---- */

/* reports that were given, to be merged */
enum { KEPT = 8 };
static AshlarReport kept[KEPT];

static bool same_report(AshlarReport a, AshlarReport b) {
    return a.errors == b.errors && a.packets == b.packets && a.sum == b.sum && a.count == b.count && a.kind == b.kind && a.lowest == b.lowest && a.has_lowest == b.has_lowest &&
           a.refusal == b.refusal;
}

/* some pairs after two addresses, now and then about as many as a report may have, cut, or with bytes after them */
static void link_report(void) {
    bool rx = below(2);
    size_t many = below(8) ? below(20) : ASHLAR_PAIRS - 4 + below(8), n = 12 + many * (rx ? 23 : 29);
    n = !below(6) ? below(n) : !below(6) ? n + below(23) : n;
    uint8_t *v = bytes(n);
    AshlarReport a = rx ? ashlar_link_report_rx(v, n) : ashlar_link_report_tx(v, n), b = rx ? plain_link_report_rx(v, n) : plain_link_report_tx(v, n);
    told(rx ? LINK_REPORT_RX : LINK_REPORT_TX, a.refusal, same_report(a, b));
    kept[below(KEPT)] = a;
}

/* a report as it was given; or one that is no value's by a little, or just is one: a total at its bound or one above it,
   a field that another report has; or any at all */
static AshlarReport lent(void) {
    AshlarReport r = kept[below(KEPT)], other = kept[below(KEPT)];
    uint64_t most = r.count * 0xFFFFFFFFull + below(2);
    switch (below(12)) {
    case 0: r.errors = most; break;
    case 1: r.packets = most; break;
    case 2: r.sum = r.count * r.lowest - (int)below(2); break;
    case 3: r.sum = r.lowest + (r.count - 1) * 127 + (int)below(2); break;
    case 4: r.lowest = other.lowest, r.has_lowest = other.has_lowest; break;
    case 5: r.count = below(2) ? other.count : (uint16_t)any(); break;
    case 6: r.kind = (uint8_t)(8 + below(4)); break;
    case 7: r.has_lowest = !r.has_lowest; break;
    case 8: r.refusal = (uint8_t)any(); break;
    case 9:
        r = (AshlarReport){any() << below(32), any() << below(32), (int32_t)any(), (uint16_t)below(1100), (uint8_t)(9 + below(2)), (int8_t)any(), below(2), 0};
        break;
    }
    return r;
}

static void link_merge(void) {
    AshlarReport a = lent(), b = lent();
    if (!below(4)) b.kind = a.kind;
    AshlarReport r = ashlar_link_merge(a, b);
    told(LINK_MERGE, r.refusal, same_report(r, plain_link_merge(a, b)));
}

/* ---- Captures ---- */

/* the writers: the answer, and the whole room, of which what is written is a part */
static void write_room(void) {
    size_t n = below(4) ? below(60) : 1480 + below(30), space = below(3) ? below(120) : below(2000);
    uint8_t *p = bytes(n), *out[2];
    for (int i = 0; i < 2; i++) out[i] = outs[i].end - space;
    for (size_t i = 0; i < space; i++) out[0][i] = out[1][i] = (uint8_t)any();
    AshlarFields f = {(uint8_t)any(), (uint16_t)any(), (uint16_t)any(), (uint8_t)any(), below(2)};
    uint64_t time = below(4) ? any() % 4294967296000 : below(2) ? 4294967295990 + below(20) : any() << below(17);
    AshlarArrival a = {any() << 16 | below(65536), time, {(uint16_t)any(), (uint8_t)any(), (uint8_t)any(), below(2)}};
    AshlarWritten x, y;
    static const int writers[3] = {WRITE_HEADER, CAPTURE_HEADER, CAPTURE_FRAME};
    int call = writers[below(3)];
    if (call == WRITE_HEADER) x = ashlar_write_header(f, out[0], space), y = plain_write_header(f, out[1], space);
    else if (call == CAPTURE_HEADER) x = ashlar_capture_header(out[0], space), y = plain_capture_header(out[1], space);
    else x = ashlar_capture_frame(a, p, n, out[0], space), y = plain_capture_frame(a, p, n, out[1], space);
    told(call, x.refusal, x.length == y.length && x.refusal == y.refusal && !memcmp(out[0], out[1], space));
}

static void put_number(uint8_t *at, uint32_t n, bool high_first) {
    for (int i = 0; i < 4; i++) at[i] = (uint8_t)(n >> 8 * (high_first ? 3 - i : i));
}

/* a file header and records in either byte order, many of 1905, few with a fault; now and then cut, or another file */
static uint8_t *file(size_t *n) {
    static uint8_t made[8 * PAGE];
    static const uint8_t headers[2][8] = {{0xD4, 0xC3, 0xB2, 0xA1, 2, 0, 4, 0}, {0xA1, 0xB2, 0xC3, 0xD4, 0, 2, 0, 4}};
    bool high_first = below(2);
    size_t size = 24, most = below(2) ? 400 : 6000;
    for (int i = 0; i < 24; i++) made[i] = (uint8_t)any();
    memcpy(made, headers[high_first], 8);
    put_number(made + 20, below(12) ? 1 : below(2) ? 0x10001 : (uint32_t)any(), high_first);
    if (!below(12)) made[below(8)] ^= (uint8_t)(1u << below(8));
    for (size_t records = below(12); records && size < most; records--) {
        size_t stored = below(8) ? 22 + below(30) : below(60);
        for (size_t i = 0; i < 16 + stored; i++) made[size + i] = (uint8_t)any();
        put_number(made + size + 8, (uint32_t)stored, high_first), put_number(made + size + 12, (uint32_t)stored, high_first);
        if (stored > 13 && below(5)) made[size + 28] = 0x89, made[size + 29] = 0x3A;
        if (!below(50)) put_number(made + size + 8 + 4 * below(2), (uint32_t)(stored + 1), high_first);
        if (!below(80)) put_number(made + size + 8, 0xFFFFFFFF, high_first), put_number(made + size + 12, 0xFFFFFFFF, high_first);
        size += 16 + stored;
    }
    *n = below(6) ? size : below(size + 1);
    return memcpy(payloads.end - *n, made, *n);
}

static bool same_frame(AshlarFrame a, AshlarFrame b) {
    AshlarCmdu c = a.cmdu, d = b.cmdu;
    return a.seconds == b.seconds && a.microseconds == b.microseconds && same_address(a.sender, b.sender) && c.version == d.version && c.reserved == d.reserved && c.message_type == d.message_type &&
           c.message_id == d.message_id && c.number == d.number && c.flags == d.flags && c.last == d.last && a.offset == b.offset && a.length == b.length;
}

static bool same_capture(AshlarCapture a, AshlarCapture b) { return a.frames == b.frames && a.others == b.others && a.shortfall == b.shortfall && a.refusal == b.refusal; }

static bool same_reached(AshlarReached a, AshlarReached b) {
    records |= 1u << (a.answer & 7);
    return same_frame(a.frame, b.frame) && a.next == b.next && a.shortfall == b.shortfall && a.answer == b.answer && a.refusal == b.refusal && (a.answer == ASHLAR_REFUSED) == (a.refusal != 0);
}

/* a frame of the file as it is pushed; its mark may not be that of its flags */
static void arrival(AshlarFrame f) {
    if (below(2)) f.cmdu.last = !f.cmdu.last;
    AshlarArrival a = ashlar_capture_arrival(f), b = plain_capture_arrival(f);
    bool same = a.fragment.message_type == b.fragment.message_type && a.fragment.version == b.fragment.version && a.fragment.number == b.fragment.number && a.fragment.last == b.fragment.last;
    told(CAPTURE_ARRIVAL, 0, same && a.key == b.key && a.time == b.time);
}

/* the check, and the steps to the end of the file or to its fault, and one anywhere; no step refuses where the check
   doesn't */
static void read_capture(void) {
    size_t n, at = ASHLAR_FILE_HEADER;
    uint8_t *p = file(&n);
    AshlarCapture c = ashlar_capture_check(p, n);
    told(CAPTURE_CHECK, c.refusal, same_capture(c, plain_capture_check(p, n)));
    for (;;) {
        AshlarReached r = ashlar_capture_step(p, n, at);
        told(CAPTURE_STEP, r.refusal, same_reached(r, plain_capture_step(p, n, at)) && (!r.refusal || c.refusal));
        if (r.answer == ASHLAR_1905_FRAME) arrival(r.frame);
        if (r.answer != ASHLAR_1905_FRAME && r.answer != ASHLAR_OTHER_FRAME) break;
        at = r.next;
    }
    at = below(2) ? below(n + 20) : (size_t)any() << below(48);
    AshlarReached r = ashlar_capture_step(p, n, at);
    told(CAPTURE_STEP, r.refusal, same_reached(r, plain_capture_step(p, n, at)));
}

static void list_capture(void) {
    size_t n, many = below(14);
    uint8_t *p = file(&n);
    AshlarFrame *list = (AshlarFrame *)(lists.end - many * sizeof(AshlarFrame)), *other = (AshlarFrame *)(expected.end - many * sizeof(AshlarFrame));
    for (size_t i = 0; i < many; i++) {
        memset(&list[i], (int)below(256), sizeof(AshlarFrame));
        list[i].cmdu.last = below(2);
    }
    memcpy(other, list, many * sizeof(AshlarFrame));
    AshlarCapture a = ashlar_capture_frames(list, many, p, n), b = plain_capture_frames(other, many, p, n);
    bool same = same_capture(a, b);
    for (size_t i = 0; i < many; i++) same &= same_frame(list[i], other[i]);
    told(CAPTURE_FRAMES, a.refusal, same);
}

#include "hostile_fields.h"
#include "hostile_tables.h"

int main(int argc, char **argv) {
    unsigned long many = argc > 1 ? strtoul(argv[1], 0, 10) : 99000, seed = argc > 2 ? strtoul(argv[2], 0, 10) : 1;
    state = seed * 0x9E3779B97F4A7C15ull | 1;
    payloads = room(8 * PAGE), lists = room(1100 * sizeof(AshlarTlv)), expected = room(1100 * sizeof(AshlarTlv));
    proposals = room(MOST_PROPOSED * sizeof(AshlarProposed)), parts = room(24000);
    for (int i = 0; i < 2; i++) ends[i] = room(MOST_ENDS * sizeof(size_t)), stores[i] = room(ASHLAR_STORE + 1), outs[i] = room(6000), stations[i] = (AshlarStations *)(room(sizeof(AshlarStations)).end - sizeof(AshlarStations));
    tables_of_todays_names();
    fresh();
    fresh_stations();
    for (unsigned long i = 0; i < many; i++) {
        size_t which = below(165);
        if (which < 4) read_header();
        else if (which < 12) walk();
        else if (which < 20) walk_into();
        else if (which < 35) read_kind();
        else if (which < 46) find();
        else if (which < 50) text();
        else if (which < 78) push();
        else if (which < 79) check();
        else if (which < 80) cut();
        else if (which < 91) of_stations();
        else if (which < 93) link_report();
        else if (which < 95) link_merge();
        else if (which < 96) write_room();
        else if (which < 98) below(2) ? read_capture() : list_capture();
        else if (which < 100) below(200) ? sweep() : fresh();
        else if (which < 102) step();
        else if (which < 104) read_records();
        else if (which < 106) write_records();
        else if (which < 108) write_values();
        else if (which < 111) go_over();
        else if (which < 113) by_number();
        else if (which < 115) fields_at();
        else if (which < 124) put_fields();
        else if (which < 152) push_fragment();
        else if (which < 163) of_todays_stations();
        else below(200) ? sweep_fragments() : fresh_fragments();
    }
    int failed = 0;
    for (int k = 0; k < KINDS; k++) {
        failed += wrong[k] != 0;
        printf("%s ashlar_%s, %lu calls, %lu wrong, numbers", wrong[k] ? "FAILED" : "ok", names[k], calls[k], wrong[k]);
        for (int n = 0; n <= 23; n++)
            if (seen[k] >> n & 1) printf(" %d", n);
        printf("\n");
    }
    bool all = answers == 0xff && events == 0x3f && fragment_answers == 0xff && event_answers == 0x3f && verdicts == 3 && records == 0xf;
    for (int k = 0; k < KINDS; k++) all &= seen[k] == numbers[k];
    printf("%s every number that a call can give came, every answer of push, of an event and of a step, and both of a check\n", all ? "ok" : "FAILED");
    return failed || !all;
}
