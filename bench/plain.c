/* The same calls in plain C, as one would write them by hand: nothing copied but the payloads, the same checks and the
   same refusals. */
#include "calls.h"
#include <string.h>

AshlarHeader plain_read_header(const uint8_t *p, size_t n) {
    if (n < 8) return (AshlarHeader){.shortfall = 8 - n, .refusal = 1};
    return (AshlarHeader){0, p[0], p[1], (uint16_t)(p[2] << 8 | p[3]), (uint16_t)(p[4] << 8 | p[5]), p[6], p[7], p[7] & 0x80, 0};
}

AshlarWalk plain_walk(const uint8_t *p, size_t n) {
    size_t at = 0, count = 0;
    while (at < n) {
        if (n - at < 3) return (AshlarWalk){.at = at, .shortfall = 3 - (n - at), .refusal = 1};
        size_t length = (size_t)p[at + 1] << 8 | p[at + 2];
        if (n - at - 3 < length) return (AshlarWalk){.at = at, .shortfall = length - (n - at - 3), .refusal = 2};
        count++;
        if (!p[at] && !length) return (AshlarWalk){.count = count, .padding = n - at - 3};
        at += 3 + length;
    }
    return (AshlarWalk){.count = count};
}

/* One pass checks and one fills, since a refusal leaves the list as lent. */
AshlarWalk plain_walk_into(AshlarTlv *list, size_t room, const uint8_t *p, size_t n) {
    AshlarWalk w = plain_walk(p, n);
    if (w.refusal) return w;
    size_t at = 0;
    if (room < w.count) {
        for (size_t i = 0; i < room; i++) at += 3 + ((size_t)p[at + 1] << 8 | p[at + 2]);
        return (AshlarWalk){.at = at, .refusal = 14};
    }
    for (size_t i = 0; i < w.count; i++) {
        uint16_t length = (uint16_t)(p[at + 1] << 8 | p[at + 2]);
        list[i] = (AshlarTlv){p[at], length, at};
        at += 3 + (size_t)length;
    }
    return w;
}

static AshlarKind refused(uint8_t number) { return (AshlarKind){0, 0, 0, false, number}; }

static AshlarKind fixed(size_t size, size_t n) { return n < size ? refused(3) : (AshlarKind){0, size, n - size, false, 0}; }

static AshlarKind listed(size_t entries, size_t end, size_t n) { return (AshlarKind){entries, end, n - end, true, 0}; }

/* a head, then entries to the end */
static AshlarKind to_end(size_t head, size_t entry, size_t n) {
    if (n < head) return refused(3);
    if ((n - head) % entry) return refused(4);
    return listed((n - head) / entry, n, n);
}

/* the count at p */
static inline bool counted(const uint8_t *v, size_t n, size_t *p, size_t *count) {
    if (n == *p) return false;
    *count = v[(*p)++];
    return true;
}

static inline __attribute__((always_inline)) AshlarKind two(size_t head, size_t entry, const uint8_t *v, size_t n) {
    size_t p = 0, entries, inner;
    if (!counted(v, n, &p, &entries)) return refused(3);
    for (size_t i = 0; i < entries; i++) {
        if (n - p < head) return refused(3);
        p += head;
        if (!counted(v, n, &p, &inner) || n - p < inner * entry) return refused(3);
        p += inner * entry;
    }
    return listed(entries, p, n);
}

static inline __attribute__((always_inline)) AshlarKind three(size_t head, size_t middle, size_t entry, const uint8_t *v, size_t n) {
    size_t p = 0, entries, middles, inner;
    if (!counted(v, n, &p, &entries)) return refused(3);
    for (size_t i = 0; i < entries; i++) {
        if (n - p < head) return refused(3);
        p += head;
        if (!counted(v, n, &p, &middles)) return refused(3);
        for (size_t j = 0; j < middles; j++) {
            if (n - p < middle) return refused(3);
            p += middle;
            if (!counted(v, n, &p, &inner) || n - p < inner * entry) return refused(3);
            p += inner * entry;
        }
    }
    return listed(entries, p, n);
}

/* ---- Texts ---- */

/* how many bytes the character at p has, 0 where none is there: the first byte's length, and the least and the most
   that the second one may be */
static size_t character(const uint8_t *p, size_t n) {
    size_t size = p[0] < 0x80 ? 1 : p[0] < 0xC2 ? 0 : p[0] < 0xE0 ? 2 : p[0] < 0xF0 ? 3 : p[0] < 0xF5 ? 4 : 0;
    uint8_t least = p[0] == 0xE0 ? 0xA0 : p[0] == 0xF0 ? 0x90 : 0x80, most = p[0] == 0xED ? 0x9F : p[0] == 0xF4 ? 0x8F : 0xBF;
    if (size > n) return 0;
    for (size_t i = 1; i < size; i++, least = 0x80, most = 0xBF)
        if (p[i] < least || p[i] > most) return 0;
    return size;
}

static bool is_utf8(const uint8_t *p, size_t n) {
    while (n) {
        uint64_t eight;
        if (n >= 8 && (memcpy(&eight, p, 8), !(eight & 0x8080808080808080))) {
            p += 8, n -= 8;
            continue;
        }
        size_t size = character(p, n);
        if (!size) return false;
        p += size, n -= size;
    }
    return true;
}

/* a string with its length, behind so many bytes, that starts at p: its text, and where it ends */
static bool string(size_t head, const uint8_t *v, size_t n, size_t *p, AshlarPart *text) {
    if (n - *p < head + 1 || n - *p - head - 1 < v[*p + head]) return false;
    *text = (AshlarPart){*p + head + 1, v[*p + head], 0};
    *p = text->start + text->length;
    return true;
}

static bool is_text(const uint8_t *v, AshlarPart part) { return is_utf8(v + part.start, part.length); }

static AshlarKind inventory(const uint8_t *v, size_t n) {
    size_t p = 0, q, radios;
    AshlarPart text;
    bool valid = true;
    for (int i = 0; i < 3; i++) {
        if (!string(0, v, n, &p, &text)) return refused(3);
        valid &= is_text(v, text);
    }
    if (!counted(v, n, &p, &radios)) return refused(3);
    for (q = 0; q < radios; q++) {
        if (!string(6, v, n, &p, &text)) return refused(3);
        valid &= is_text(v, text);
    }
    return valid ? listed(radios, p, n) : refused(18);
}

static AshlarPart field(size_t i, const uint8_t *v) {
    const uint8_t *zero = memchr(v + 64 * i, 0, 64);
    return (AshlarPart){64 * i, zero ? (size_t)(zero - v) - 64 * i : 64, 0};
}

static AshlarKind identification(const uint8_t *v, size_t n) {
    if (n < 192) return refused(3);
    for (size_t i = 0; i < 3; i++)
        if (!is_text(v, field(i, v))) return refused(18);
    return listed(0, 192, n);
}

static AshlarKind url(const uint8_t *v, size_t n) { return is_utf8(v, n) ? listed(0, n, n) : refused(18); }

/* stands in the search itself too, which needs of it only whether it reads */
static inline __attribute__((always_inline)) AshlarKind kind_in(uint8_t code, const uint8_t *v, size_t n) {
    switch (code) {
    case 0: return n ? refused(4) : fixed(0, 0);
    case 1: case 2: return fixed(6, n);
    case 13: case 15: return n && v[0] ? refused(5) : fixed(1, n);
    case 12: case 16: case 26: return fixed(1, n);
    case 8: return fixed(n && v[0] == 1 ? 8 : 2, n);
    case 0x92: return n >= 13 && v[12] & 0x7f ? refused(5) : fixed(13, n);
    case 0xB3: return n && !v[0] ? refused(5) : fixed(1, n);
    case 0xB4: return fixed(4, n);
    case 0x80: return n < 1 || n - 1 < v[0] ? refused(3) : listed(v[0], 1 + v[0], n);
    case 6: return to_end(6, 6, n);
    case 7: return to_end(6, 7, n);
    case 9: return to_end(12, 29, n);
    case 10: return to_end(12, 23, n);
    case 21: return identification(v, n);
    case 22: return url(v, n);
    case 0xD4: return inventory(v, n);
    case 23: return two(6, 9, v, n);
    case 24: return two(22, 33, v, n);
    case 4: return two(0, 6, v, n);
    case 0x83: return three(6, 6, 1, v, n);
    case 0xB7: return three(6, 8, 1, v, n);
    default: return refused(16);
    }
}

AshlarKind plain_read_kind(uint8_t code, const uint8_t *v, size_t n) { return kind_in(code, v, n); }

static bool is_kind(uint8_t code) {
    static const uint64_t known[4] = {
        1ull << 0 | 1ull << 1 | 1ull << 2 | 1ull << 4 | 1ull << 6 | 1ull << 7 | 1ull << 8 | 1ull << 9 | 1ull << 10 | 1ull << 12 | 1ull << 13 | 1ull << 15 | 1ull << 16 | 1ull << 21 | 1ull << 22 | 1ull << 23 | 1ull << 24 | 1ull << 26,
        0,
        1ull << 0 | 1ull << 3 | 1ull << 18 | 1ull << 51 | 1ull << 52 | 1ull << 55,
        1ull << 20,
    };
    return known[code / 64] >> code % 64 & 1;
}

AshlarFound plain_find(const AshlarTlv *list, size_t count, const uint8_t *p, size_t n, uint8_t code, size_t from) {
    for (size_t i = from; i < count; i++) {
        if (list[i].tlv_type != code || n < 3 || n - 3 < list[i].length || n - 3 - list[i].length < list[i].offset) continue;
        if (!kind_in(code, p + list[i].offset + 3, list[i].length).refusal) return (AshlarFound){i + 1, 0};
    }
    return is_kind(code) ? (AshlarFound){count, 15} : (AshlarFound){0, 16};
}

static AshlarPart no_part(uint8_t number) { return (AshlarPart){0, 0, number}; }

/* string number i of those that start at p, behind so many bytes each; the text alone, or the whole */
static AshlarPart string_of(size_t i, size_t head, bool whole, const uint8_t *v, size_t n, size_t p) {
    AshlarPart text;
    size_t start;
    do {
        start = p;
        string(head, v, n, &p, &text);
    } while (i--);
    return whole ? (AshlarPart){start, p - start, 0} : text;
}

AshlarPart plain_text(uint8_t code, size_t number, const uint8_t *v, size_t n) {
    AshlarKind k = kind_in(code, v, n);
    if (k.refusal) return no_part(k.refusal);
    size_t texts = code == 21 || code == 0xD4 ? 3 : code == 22;
    if (number >= texts) return no_part(6);
    return code == 21 ? field(number, v) : code == 22 ? (AshlarPart){0, n, 0} : string_of(number, 0, false, v, n, 0);
}

static AshlarPart radio(size_t number, bool whole, const uint8_t *v, size_t n) {
    AshlarKind k = kind_in(0xD4, v, n);
    if (k.refusal) return no_part(k.refusal);
    if (number >= k.entries) return no_part(6);
    AshlarPart third = string_of(2, 0, false, v, n, 0);
    return string_of(number, 6, whole, v, n, third.start + third.length + 1);
}

AshlarPart plain_radio(size_t number, const uint8_t *v, size_t n) { return radio(number, true, v, n); }

AshlarPart plain_radio_text(size_t number, const uint8_t *v, size_t n) { return radio(number, false, v, n); }

AshlarTable plain_fresh(void) { return (AshlarTable){0}; }

static int place_of(const AshlarTable *t, int owner, int number) {
    for (int i = 0; i < 32; i++)
        if (t->owners[i] == owner && t->numbers[i] == number) return i;
    return -1;
}

/* The lowest row of a sender, which has its totals. */
static int first_row(const AshlarTable *t, uint64_t sender) {
    for (int i = 0; i < 16; i++)
        if (t->used[i] && t->row_keys[i] >> 16 == sender) return i;
    return -1;
}

static void drop(AshlarTable *t, int row) {
    uint64_t sender = t->row_keys[row] >> 16;
    int first = first_row(t, sender), keys = 1, places = 0, freed = 0;
    if (first >= 0) keys = t->sender_keys[first], places = t->sender_places[first];
    t->used[row] = false;
    t->row_keys[row] = t->firsts[row] = 0;
    t->sender_keys[row] = t->sender_places[row] = 0;
    for (int i = 0; i < 32; i++) {
        if (t->owners[i] != row + 1) continue;
        t->message_types[i] = t->sizes[i] = 0;
        t->owners[i] = t->numbers[i] = t->versions[i] = 0;
        freed++;
    }
    first = first_row(t, sender);
    if (first < 0) return;
    t->sender_keys[first] = (uint8_t)(keys ? keys - 1 : 0);
    t->sender_places[first] = (uint8_t)(places > freed ? places - freed : 0);
}

static void put(AshlarTable *t, uint8_t *store, int place, int row, const AshlarFragment *f, const uint8_t *payload, size_t n) {
    t->message_types[place] = f->message_type;
    t->sizes[place] = (uint16_t)n;
    t->owners[place] = (uint8_t)(row + 1);
    t->numbers[place] = f->number;
    t->versions[place] = f->version;
    memcpy(store + (size_t)place * ASHLAR_PAYLOAD, payload, n);
}

static AshlarPushed end(AshlarTable *t, int row, uint8_t answer, size_t length) {
    if (row >= 0) drop(t, row);
    return (AshlarPushed){length, answer, 0};
}

/* A last fragment: what is kept is joined with it. */
static AshlarPushed finish(AshlarTable *t, const uint8_t *store, uint8_t *out, size_t room, int row, const AshlarFragment *f, const uint8_t *payload, size_t n) {
    int place[9], kept = 0, highest = f->number;
    size_t total = n;
    bool unlike = false;
    if (row >= 0)
        for (int i = 0; i < 32; i++) {
            if (t->owners[i] != row + 1) continue;
            unlike |= t->versions[i] != f->version || t->message_types[i] != f->message_type;
            if (t->numbers[i] > highest) highest = t->numbers[i];
            if (t->numbers[i] < 9) place[t->numbers[i]] = i;
            total += t->sizes[i];
            kept++;
        }
    if (unlike) return end(t, row, ASHLAR_INCONSISTENT, 0);
    if (highest != kept) return end(t, row, ASHLAR_MISSING, 0);
    if (highest != f->number) return end(t, row, ASHLAR_MISSING_LAST, 0);
    if (!kept) return end(t, row, ASHLAR_SINGLE, n);
    if (room < total) return (AshlarPushed){total, ASHLAR_REFUSED, 13};
    for (int k = 0; k <= kept; k++) {
        if (k == f->number) {
            memcpy(out, payload, n);
            out += n;
        } else {
            memcpy(out, store + (size_t)place[k] * ASHLAR_PAYLOAD, t->sizes[place[k]]);
            out += t->sizes[place[k]];
        }
    }
    return end(t, row, ASHLAR_JOINED, total);
}

AshlarPushed plain_push(AshlarTable *t, uint8_t *store, size_t store_length, uint8_t *out, size_t room, AshlarArrival a, const uint8_t *payload, size_t n) {
    if (store_length < ASHLAR_STORE) return (AshlarPushed){0, ASHLAR_REFUSED, 11};
    if (n > ASHLAR_PAYLOAD) return (AshlarPushed){0, ASHLAR_REFUSED, 12};
    int row = -1, spare = -1, first = -1, keys = 0, places = 0;
    for (int i = 15; i >= 0; i--) {
        if (!t->used[i]) {
            spare = i;
        } else if (t->row_keys[i] >> 16 == a.key >> 16) {
            first = i;
            if (t->row_keys[i] == a.key) row = i;
        }
    }
    if (row >= 0 && place_of(t, row + 1, a.fragment.number) >= 0) return (AshlarPushed){0, ASHLAR_DUPLICATED, 0};
    if (a.fragment.last) return finish(t, store, out, room, row, &a.fragment, payload, n);
    if (first >= 0) keys = t->sender_keys[first], places = t->sender_places[first];
    if (places >= ASHLAR_SENDER_PLACES || (row < 0 && keys >= ASHLAR_SENDER_KEYS)) return (AshlarPushed){0, ASHLAR_REFUSED, 20};
    int free = 0;
    while (free < 32 && t->owners[free]) free++;
    if (free == 32 || (row < 0 && spare < 0)) return (AshlarPushed){0, ASHLAR_REFUSED, 10};
    if (row < 0) {
        row = spare;
        t->used[row] = true;
        t->row_keys[row] = a.key;
        t->firsts[row] = a.time;
        if (first >= 0) t->sender_keys[first] = t->sender_places[first] = 0;
        if (first < 0 || row < first) first = row;
        keys++;
    }
    t->sender_keys[first] = (uint8_t)keys;
    t->sender_places[first] = (uint8_t)(places + 1);
    put(t, store, free, row, &a.fragment, payload, n);
    return (AshlarPushed){0, ASHLAR_WAITING, 0};
}

AshlarShown plain_show(AshlarPushed pushed, const uint8_t *payload, size_t n, const uint8_t *out, size_t room) {
    (void)payload;
    (void)out;
    if (pushed.answer == ASHLAR_SINGLE) return (AshlarShown){pushed.length <= n ? pushed.length : 0, false};
    if (pushed.answer == ASHLAR_JOINED) return (AshlarShown){pushed.length <= room ? pushed.length : 0, true};
    return (AshlarShown){0, false};
}

size_t plain_sweep(AshlarTable *t, uint64_t time) {
    size_t dropped = 0;
    for (int row = 0; row < 16; row++) {
        if (!t->used[row] || time < t->firsts[row] || time - t->firsts[row] < 3000) continue;
        drop(t, row);
        dropped++;
    }
    return dropped;
}

/* ---- Stations ---- */

static uint64_t number_of(AshlarAddress a) {
    uint64_t n = 0;
    for (int i = 0; i < 6; i++) n = n << 8 | a.bytes[i];
    return n;
}

static AshlarAddress address_of(uint64_t n) {
    AshlarAddress a;
    for (int i = 0; i < 6; i++) a.bytes[i] = (uint8_t)(n >> (40 - 8 * i));
    return a;
}

static int row_with(const AshlarStations *t, uint64_t code) {
    for (int i = 0; i < ASHLAR_STATIONS; i++)
        if (t->stations[i] == code) return i;
    return -1;
}

void plain_stations_fresh(AshlarStations *t) { *t = (AshlarStations){0}; }

static AshlarHeard join(AshlarStations *t, uint64_t code, uint64_t point) {
    int row = row_with(t, code);
    if (row >= 0) {
        uint64_t from = t->points[row];
        t->points[row] = point;
        return from == point ? (AshlarHeard){.answer = ASHLAR_SAME} : (AshlarHeard){address_of(from), ASHLAR_MOVED, 0};
    }
    row = row_with(t, 0);
    if (row < 0) return (AshlarHeard){.refusal = ASHLAR_NO_STATION_ROOM};
    t->stations[row] = code;
    t->points[row] = point;
    return (AshlarHeard){.answer = ASHLAR_PLACED};
}

static AshlarHeard leave(AshlarStations *t, uint64_t code, uint64_t point) {
    int row = row_with(t, code);
    if (row < 0 || t->points[row] != point) return (AshlarHeard){.answer = ASHLAR_STALE};
    t->stations[row] = t->points[row] = 0;
    return (AshlarHeard){.answer = ASHLAR_REMOVED};
}

AshlarHeard plain_station_event(AshlarStations *t, AshlarAddress station, AshlarAddress point, bool joined) {
    return joined ? join(t, number_of(station) + 1, number_of(point)) : leave(t, number_of(station) + 1, number_of(point));
}

AshlarApplied plain_station_event_from(AshlarStations *t, const uint8_t *v, size_t n) {
    AshlarAddress station, point;
    if (n < 13) return (AshlarApplied){.heard.refusal = ASHLAR_CUT_SHORT};
    if (v[12] & 0x7f) return (AshlarApplied){.heard.refusal = ASHLAR_BAD_VALUE};
    memcpy(station.bytes, v, 6);
    memcpy(point.bytes, v + 6, 6);
    AshlarHeard h = plain_station_event(t, station, point, v[12] & 0x80);
    return h.refusal ? (AshlarApplied){.heard = h} : (AshlarApplied){13, n - 13, h};
}

AshlarAt plain_station_at(const AshlarStations *t, AshlarAddress station) {
    int row = row_with(t, number_of(station) + 1);
    return row < 0 ? (AshlarAt){.held = false} : (AshlarAt){address_of(t->points[row]), true};
}

size_t plain_station_count(const AshlarStations *t) {
    size_t n = 0;
    for (int i = 0; i < ASHLAR_STATIONS; i++) n += t->stations[i] != 0;
    return n;
}

AshlarRow plain_station_row(const AshlarStations *t, size_t n) {
    if (n >= ASHLAR_STATIONS || !t->stations[n]) return (AshlarRow){.held = false};
    return (AshlarRow){address_of(t->stations[n] - 1), address_of(t->points[n]), true};
}

/* ---- Cutting ---- */

/* the walk over bytes that have to be whole TLVs and nothing else */
static AshlarWalk walk_whole(const uint8_t *p, size_t n) {
    AshlarWalk w = plain_walk(p, n);
    return w.padding ? (AshlarWalk){.refusal = 4} : w;
}

/* whether the message goes on with the payload of f at the offset `at` */
static bool goes_on(const uint8_t *p, size_t n, size_t at, AshlarProposed f, const uint8_t *payloads, size_t size) {
    if (f.length > ASHLAR_PAYLOAD || f.length > size || f.start > size - f.length || f.length > n - at) return false;
    const uint8_t *payload = payloads + f.start;
    return (f.length || !n) && !walk_whole(payload, f.length).refusal && !memcmp(payload, p + at, f.length);
}

AshlarChecked plain_check(const uint8_t *p, size_t n, const AshlarProposed *f, size_t count, const uint8_t *payloads, size_t size) {
    AshlarWalk w = walk_whole(p, n);
    if (w.refusal) return (AshlarChecked){w.at, w.shortfall, false, w.refusal};
    const AshlarChecked not_accepted = {0, 0, false, 0};
    if (!count || count > ASHLAR_FRAGMENTS || (!n && count > 1)) return not_accepted;
    size_t at = 0;
    for (size_t i = 0; i < count; i++) {
        if (f[i].number != i || f[i].last != (i + 1 == count)) return not_accepted;
        if (f[i].version != f[0].version || f[i].message_type != f[0].message_type || f[i].message_id != f[0].message_id) return not_accepted;
        if (!goes_on(p, n, at, f[i], payloads, size)) return not_accepted;
        at += f[i].length;
    }
    return (AshlarChecked){0, 0, at == n, 0};
}

/* The ends are kept aside, since a refusal leaves the list as lent. */
AshlarCutting plain_cut(const uint8_t *p, size_t n, size_t *ends, size_t room) {
    size_t found[ASHLAR_FRAGMENTS], at = 0, start = 0, last = 0;
    bool fits = true;
    while (at < n) {
        if (n - at < 3) return (AshlarCutting){.at = at, .shortfall = 3 - (n - at), .refusal = 1};
        size_t length = (size_t)p[at + 1] << 8 | p[at + 2];
        if (n - at - 3 < length) return (AshlarCutting){.at = at, .shortfall = length - (n - at - 3), .refusal = 2};
        size_t next = at + 3 + length;
        if (next - start > ASHLAR_PAYLOAD) {
            if (3 + length > ASHLAR_PAYLOAD || last == ASHLAR_FRAGMENTS - 1) fits = false;
            else found[last++] = at;
            start = at;
        }
        bool marker = !p[at] && !length;
        at = next;
        if (marker) break;
    }
    uint8_t refusal = at < n ? 4 : !fits ? 21 : room <= last ? 7 : 0;
    if (refusal) return (AshlarCutting){.refusal = refusal};
    found[last] = n;
    memcpy(ends, found, (last + 1) * sizeof *ends);
    return (AshlarCutting){.count = last + 1};
}

/* ---- Link reports ---- */

static AshlarReport no_report(uint8_t number) { return (AshlarReport){.refusal = number}; }

static uint32_t be32(const uint8_t *p) { return (uint32_t)p[0] << 24 | (uint32_t)p[1] << 16 | (uint32_t)p[2] << 8 | p[3]; }

/* the pairs have so many bytes, with errors and then packets at these places */
static inline __attribute__((always_inline)) AshlarReport report(uint8_t kind, size_t pair, size_t errors, const uint8_t *v, size_t n) {
    AshlarKind k = to_end(12, pair, n);
    if (k.refusal) return no_report(k.refusal);
    if (k.entries > ASHLAR_PAIRS) return no_report(19);
    AshlarReport r = {.count = (uint16_t)k.entries, .kind = kind};
    for (const uint8_t *p = v + 12; p < v + n; p += pair) {
        r.errors += be32(p + errors);
        r.packets += be32(p + errors + 4);
        if (kind == ASHLAR_LINK_METRIC_TX) continue;
        int8_t signal = (int8_t)p[22];
        r.sum += signal;
        if (!r.has_lowest || signal < r.lowest) r.lowest = signal;
        r.has_lowest = true;
    }
    return r;
}

AshlarReport plain_link_report_tx(const uint8_t *v, size_t n) { return report(ASHLAR_LINK_METRIC_TX, 29, 15, v, n); }

AshlarReport plain_link_report_rx(const uint8_t *v, size_t n) { return report(ASHLAR_LINK_METRIC_RX, 23, 14, v, n); }

/* whether some value gives this report */
static bool is_given(AshlarReport r) {
    uint64_t most = r.count * 0xFFFFFFFFull;
    if (r.kind != ASHLAR_LINK_METRIC_TX && r.kind != ASHLAR_LINK_METRIC_RX) return false;
    if (r.count > ASHLAR_PAIRS || r.errors > most || r.packets > most) return false;
    if (r.kind == ASHLAR_LINK_METRIC_TX || !r.count) return !r.has_lowest && !r.lowest && !r.sum;
    return r.has_lowest && r.count * r.lowest <= r.sum && r.sum <= r.lowest + (r.count - 1) * 127;
}

AshlarReport plain_link_merge(AshlarReport a, AshlarReport b) {
    if (a.kind != b.kind || a.count + b.count > ASHLAR_PAIRS || !is_given(a) || !is_given(b)) return no_report(19);
    bool second = !a.has_lowest || (b.has_lowest && b.lowest < a.lowest);
    return (AshlarReport){a.errors + b.errors, a.packets + b.packets, a.sum + b.sum, (uint16_t)(a.count + b.count), a.kind, second ? b.lowest : a.lowest, a.has_lowest || b.has_lowest, 0};
}

static AshlarWritten written(size_t size) { return (AshlarWritten){size, 0}; }

static AshlarWritten unwritten(uint8_t number) { return (AshlarWritten){0, number}; }

static uint8_t *put_two(uint8_t *at, uint16_t n) {
    at[0] = (uint8_t)(n >> 8), at[1] = (uint8_t)n;
    return at + 2;
}

/* the eight bytes of a CMDU header */
static uint8_t *put_cmdu(uint8_t *at, uint8_t version, uint16_t type, uint16_t id, uint8_t number, bool last) {
    at[0] = version, at[1] = 0;
    put_two(put_two(at + 2, type), id);
    at[6] = number, at[7] = last ? 0x80 : 0;
    return at + 8;
}

AshlarWritten plain_write_header(AshlarFields f, uint8_t *out, size_t room) {
    if (room < 8) return unwritten(7);
    put_cmdu(out, f.version, f.message_type, f.message_id, f.number, f.last);
    return written(8);
}

static uint8_t *put_little(uint8_t *at, uint32_t n) {
    for (int i = 0; i < 4; i++) at[i] = (uint8_t)(n >> 8 * i);
    return at + 4;
}

AshlarWritten plain_capture_header(uint8_t *out, size_t room) {
    static const uint8_t header[24] = {0xD4, 0xC3, 0xB2, 0xA1, 2, 0, 4, 0, [16] = 0xFF, 0xFF, [20] = 1};
    if (room < sizeof header) return unwritten(7);
    memcpy(out, header, sizeof header);
    return written(sizeof header);
}

AshlarWritten plain_capture_frame(AshlarArrival a, const uint8_t *payload, size_t n, uint8_t *out, size_t room) {
    static const uint8_t multicast[6] = {0x01, 0x80, 0xC2, 0, 0, 0x13};
    if (n > ASHLAR_PAYLOAD) return unwritten(12);
    if (a.time / 1000 >> 32) return unwritten(23);
    if (room < 38 + n) return unwritten(7);
    uint8_t *at = put_little(put_little(out, (uint32_t)(a.time / 1000)), (uint32_t)(a.time % 1000 * 1000));
    at = put_little(put_little(at, (uint32_t)(22 + n)), (uint32_t)(22 + n));
    memcpy(at, multicast, 6);
    for (int i = 0; i < 6; i++) at[6 + i] = (uint8_t)(a.key >> (56 - 8 * i));
    at = put_two(at + 12, 0x893A);
    at = put_cmdu(at, a.fragment.version, a.fragment.message_type, (uint16_t)a.key, a.fragment.number, a.fragment.last);
    memcpy(at, payload, n);
    return written(38 + n);
}

/* a number of the file's own */
static uint32_t own(const uint8_t *at, bool high_first) {
    uint32_t n;
    memcpy(&n, at, 4);
    return high_first ? __builtin_bswap32(n) : n;
}

/* what refuses the file header, 0 where nothing does, and its byte order */
static uint8_t order(const uint8_t *file, size_t n, bool *high_first) {
    static const uint8_t high[8] = {0xA1, 0xB2, 0xC3, 0xD4, 0, 2, 0, 4}, low[8] = {0xD4, 0xC3, 0xB2, 0xA1, 2, 0, 4, 0};
    if (n < 24) return 2;
    *high_first = !memcmp(file, high, 8);
    if (!*high_first && memcmp(file, low, 8)) return 22;
    return own(file + 20, *high_first) == 1 ? 0 : 22;
}

static AshlarReached no_record(uint8_t number, size_t shortfall) { return (AshlarReached){.shortfall = shortfall, .refusal = number}; }

static AshlarReached record(const uint8_t *file, size_t n, size_t at, bool high_first) {
    if (n <= at) return (AshlarReached){.answer = ASHLAR_FILE_END};
    const uint8_t *r = file + at, *f = r + 16;
    if (n - at < 16) return no_record(2, 16 - (n - at));
    uint32_t stored = own(r + 8, high_first);
    if (stored != own(r + 12, high_first)) return no_record(23, 0);
    if (n - at - 16 < stored) return no_record(2, stored - (n - at - 16));
    AshlarReached reached = {.next = at + 16 + stored, .answer = ASHLAR_OTHER_FRAME};
    if (stored < 22 || f[12] != 0x89 || f[13] != 0x3A) return reached;
    reached.answer = ASHLAR_1905_FRAME;
    reached.frame.seconds = own(r, high_first), reached.frame.microseconds = own(r + 4, high_first);
    memcpy(&reached.frame.sender, f + 6, 6);
    reached.frame.cmdu = (AshlarCmdu){f[14], f[15], (uint16_t)(f[16] << 8 | f[17]), (uint16_t)(f[18] << 8 | f[19]), f[20], f[21], f[21] & 0x80};
    reached.frame.offset = at + 38, reached.frame.length = stored - 22;
    return reached;
}

AshlarReached plain_capture_step(const uint8_t *file, size_t n, size_t at) {
    bool high_first;
    uint8_t number = order(file, n, &high_first);
    return number ? no_record(number, number == 2 ? 24 - n : 0) : record(file, n, at, high_first);
}

/* One pass checks, and one fills, where there is a list. */
static AshlarCapture capture(AshlarFrame *list, const uint8_t *file, size_t n) {
    AshlarCapture c = {0};
    bool high_first;
    c.refusal = order(file, n, &high_first);
    if (c.refusal) return (AshlarCapture){.shortfall = c.refusal == 2 ? 24 - n : 0, .refusal = c.refusal};
    for (size_t at = 24; at < n;) {
        AshlarReached r = record(file, n, at, high_first);
        if (r.refusal) return (AshlarCapture){.shortfall = r.shortfall, .refusal = r.refusal};
        if (r.answer == ASHLAR_OTHER_FRAME) c.others++;
        else if (list) list[c.frames++] = r.frame;
        else c.frames++;
        at = r.next;
    }
    return c;
}

AshlarCapture plain_capture_check(const uint8_t *file, size_t n) { return capture(NULL, file, n); }

AshlarCapture plain_capture_frames(AshlarFrame *list, size_t room, const uint8_t *file, size_t n) {
    AshlarCapture c = capture(NULL, file, n);
    if (c.refusal) return c;
    if (room < c.frames) return (AshlarCapture){.refusal = 14};
    return capture(list, file, n);
}

AshlarArrival plain_capture_arrival(AshlarFrame f) {
    uint64_t key = 0;
    for (int i = 0; i < 6; i++) key = key << 8 | f.sender.bytes[i];
    return (AshlarArrival){key << 16 | f.cmdu.message_id, f.seconds * 1000ull + f.microseconds / 1000, {f.cmdu.message_type, f.cmdu.version, f.cmdu.number, f.cmdu.last}};
}

/* ---- Today's names of calls on both tables ---- */

void plain_fragments_fresh(AshlarFragments *t) { *t = plain_fresh(); }

AshlarPushed plain_fragments_push(AshlarFragments *t, uint8_t *store, size_t store_length, uint8_t *out, size_t room,
                                  AshlarArrival a, const uint8_t *payload, size_t n) {
    return plain_push(t, store, store_length, out, room, a, payload, n);
}

AshlarShown plain_fragments_show(AshlarPushed pushed, const uint8_t *payload, size_t n, const uint8_t *out, size_t room) {
    return plain_show(pushed, payload, n, out, room);
}

size_t plain_fragments_sweep(AshlarFragments *t, uint64_t time) { return plain_sweep(t, time); }

AshlarHeard plain_stations_event(AshlarStations *t, AshlarAddress station, AshlarAddress point, bool joined) {
    return plain_station_event(t, station, point, joined);
}

AshlarApplied plain_stations_event_from(AshlarStations *t, const uint8_t *v, size_t n) {
    return plain_station_event_from(t, v, n);
}

AshlarAt plain_stations_at(const AshlarStations *t, AshlarAddress station) { return plain_station_at(t, station); }

size_t plain_stations_count(const AshlarStations *t) { return plain_station_count(t); }

AshlarRow plain_stations_row(const AshlarStations *t, size_t n) { return plain_station_row(t, n); }
