/* The calls on the fields of values and those that write TLVs in plain C, as one would write them by hand: the same
   checks and the same refusals. */
#include "calls.h"
#include <string.h>

static AshlarAddress address_in(const uint8_t *p) {
    AshlarAddress a;
    memcpy(a.bytes, p, 6);
    return a;
}

static uint16_t two_bytes(const uint8_t *p) { return (uint16_t)(p[0] << 8 | p[1]); }

static uint32_t four_bytes(const uint8_t *p) { return (uint32_t)two_bytes(p) << 16 | two_bytes(p + 2); }

uint32_t plain_version(void) { return ASHLAR_VERSION; }

uint64_t plain_key(AshlarAddress sender, uint16_t id) {
    uint64_t key = 0;
    for (int i = 0; i < 6; i++) key = key << 8 | sender.bytes[i];
    return key << 16 | id;
}

AshlarStep plain_step(const uint8_t *p, size_t n, size_t at) {
    if (at >= n) return (AshlarStep){.answer = ASHLAR_PAYLOAD_END};
    if (n - at < 3) return (AshlarStep){.tlv = {0, 0, at}, .shortfall = 3 - (n - at), .refusal = 1};
    AshlarTlv tlv = {p[at], two_bytes(p + at + 1), at};
    if (n - at - 3 < tlv.length) return (AshlarStep){.tlv = {0, 0, at}, .shortfall = tlv.length - (n - at - 3), .refusal = 2};
    return (AshlarStep){tlv, at + 3 + tlv.length, 0, !tlv.tlv_type && !tlv.length ? ASHLAR_LAST_TLV : ASHLAR_TLV, 0};
}

/* ---- Records ---- */

/* what a record of the kind reads as: a list or a text is none, and a record that is not one of these is refused last */
static AshlarKind record(uint8_t code, bool has_fields, const uint8_t *v, size_t n) {
    switch (code) {
    case 0: case 1: case 2: case 8: case 12: case 13: case 15: case 16: case 26: case 0x92: case 0xB3: case 0xB4: break;
    default: return (AshlarKind){.refusal = 16};
    }
    AshlarKind k = plain_read_kind(code, v, n);
    return k.refusal || has_fields ? k : (AshlarKind){.refusal = 16};
}

static bool is_address(uint8_t code) { return code == 1 || code == 2; }

static bool is_byte(uint8_t code) { return code == 12 || code == 13 || code == 15 || code == 16 || code == 26 || code == 0xB3; }

AshlarAddressRead plain_read_address(uint8_t code, const uint8_t *v, size_t n) {
    AshlarKind k = record(code, is_address(code), v, n);
    return k.refusal ? (AshlarAddressRead){.refusal = k.refusal} : (AshlarAddressRead){k.consumed, k.rest, address_in(v), 0};
}

AshlarByteRead plain_read_byte(uint8_t code, const uint8_t *v, size_t n) {
    AshlarKind k = record(code, is_byte(code), v, n);
    if (k.refusal) return (AshlarByteRead){.refusal = k.refusal};
    uint8_t named = code == 16 ? 2 : code == 26 ? 1 : code == 0xB3 ? 3 : 0;
    return (AshlarByteRead){k.consumed, k.rest, v[0], v[0] > named, 0};
}

AshlarQueryRead plain_read_query(const uint8_t *v, size_t n) {
    AshlarKind k = record(8, true, v, n);
    if (k.refusal) return (AshlarQueryRead){.refusal = k.refusal};
    AshlarQuery q = {.neighbour_type = v[0], .has_neighbour = v[0] == 1, .metrics = v[k.consumed - 1]};
    if (q.has_neighbour) q.neighbour = address_in(v + 1);
    return (AshlarQueryRead){k.consumed, k.rest, q, 0};
}

AshlarAssociationRead plain_read_association(const uint8_t *v, size_t n) {
    AshlarKind k = record(0x92, true, v, n);
    if (k.refusal) return (AshlarAssociationRead){.refusal = k.refusal};
    return (AshlarAssociationRead){k.consumed, k.rest, {address_in(v), address_in(v + 6), v[12] == 0x80}, v[12], 0};
}

AshlarCapabilityRead plain_read_capability(const uint8_t *v, size_t n) {
    AshlarKind k = record(0xB4, true, v, n);
    if (k.refusal) return (AshlarCapabilityRead){.refusal = k.refusal};
    uint8_t f = v[2];
    return (AshlarCapabilityRead){k.consumed, k.rest, {v[0], v[1], f >> 6, f >> 5 & 1, f >> 4 & 1, f >> 3 & 1, f & 7, v[3]}, f, 0};
}

/* ---- Writing ---- */

AshlarWritten plain_write_tlv(uint8_t type, const uint8_t *v, size_t n, uint8_t *out, size_t room) {
    if (n > 65535) return (AshlarWritten){0, 8};
    if (room < 3 + n) return (AshlarWritten){0, 7};
    out[0] = type, out[1] = (uint8_t)(n >> 8), out[2] = (uint8_t)n;
    memcpy(out + 3, v, n);
    return (AshlarWritten){3 + n, 0};
}

AshlarWritten plain_write_kind(uint8_t code, const uint8_t *v, size_t n, uint8_t *out, size_t room) {
    AshlarKind k = plain_read_kind(code, v, n);
    return k.refusal ? (AshlarWritten){0, k.refusal} : plain_write_tlv(code, v, k.consumed, out, room);
}

AshlarWritten plain_write_address(uint8_t code, AshlarAddress a, uint8_t *out, size_t room) {
    return is_address(code) ? plain_write_tlv(code, a.bytes, 6, out, room) : (AshlarWritten){0, 16};
}

AshlarWritten plain_write_byte(uint8_t code, uint8_t byte, uint8_t *out, size_t room) {
    if (!is_byte(code)) return (AshlarWritten){0, 16};
    if (((code == 13 || code == 15) && byte) || (code == 0xB3 && !byte)) return (AshlarWritten){0, 9};
    return plain_write_tlv(code, &byte, 1, out, room);
}

AshlarWritten plain_write_query(AshlarQuery q, uint8_t *out, size_t room) {
    uint8_t v[8] = {q.neighbour_type, q.metrics};
    static const AshlarAddress none;
    if (q.has_neighbour != (q.neighbour_type == 1)) return (AshlarWritten){0, 9};
    if (!q.has_neighbour && memcmp(&q.neighbour, &none, sizeof none)) return (AshlarWritten){0, 9};
    if (q.has_neighbour) memcpy(v + 1, q.neighbour.bytes, 6), v[7] = q.metrics;
    return plain_write_tlv(8, v, q.has_neighbour ? 8 : 2, out, room);
}

AshlarWritten plain_write_association(AshlarAssociation a, uint8_t *out, size_t room) {
    uint8_t v[13];
    memcpy(v, a.station.bytes, 6), memcpy(v + 6, a.point.bytes, 6), v[12] = a.joined ? 0x80 : 0;
    return plain_write_tlv(0x92, v, 13, out, room);
}

AshlarWritten plain_write_capability(AshlarCapability c, uint8_t *out, size_t room) {
    if (c.byte_counter_units > 3 || c.flags_reserved > 7) return (AshlarWritten){0, 9};
    uint8_t flags = (uint8_t)(c.byte_counter_units << 6 | c.prioritization << 5 | c.dpp_onboarding << 4 | c.traffic_separation << 3 | c.flags_reserved);
    return plain_write_tlv(0xB4, (uint8_t[]){c.max_prioritization_rules, c.reserved, flags, c.max_vids}, 4, out, room);
}

/* ---- Entries ---- */

/* the bytes of an entry before its list, for each level; how many levels; whether the outermost list has a count */
typedef struct {
    uint8_t levels;
    bool counted;
    uint8_t head[4];
} Row;

static Row row_of(uint8_t code) {
    switch (code) {
    case 4: return (Row){2, true, {0, 0, 6}};
    case 6: return (Row){1, false, {6, 6}};
    case 7: return (Row){1, false, {6, 7}};
    case 9: return (Row){1, false, {12, 29}};
    case 10: return (Row){1, false, {12, 23}};
    case 23: return (Row){2, true, {0, 6, 9}};
    case 24: return (Row){2, true, {0, 22, 33}};
    case 0x80: return (Row){1, true, {0, 1}};
    case 0x83: return (Row){3, true, {0, 6, 6, 1}};
    case 0xB7: return (Row){3, true, {0, 6, 8, 1}};
    default: return (Row){0};
    }
}

/* where the list of the entry of this level at p starts, and how many entries it has */
static bool list_in(Row r, int level, const uint8_t *v, size_t n, size_t *p, size_t *many) {
    if (*p > n || n - *p < r.head[level]) return false;
    *p += r.head[level];
    if (level == 0 && !r.counted) return *many = (n - *p) / r.head[1], true;
    if (*p == n) return false;
    *many = v[(*p)++];
    return true;
}

/* where so many entries of this level end, the first of which starts at p: those of one size in one step */
static bool entries_end(Row r, int level, size_t many, const uint8_t *v, size_t n, size_t *p) {
    size_t inner;
    if (level == r.levels) {
        if (many && (*p > n || (r.head[level] && (n - *p) / r.head[level] < many))) return false;
        return *p += many * r.head[level], true;
    }
    while (many--)
        if (!list_in(r, level, v, n, p, &inner) || !entries_end(r, level + 1, inner, v, n, p)) return false;
    return true;
}

/* where the radios of an inventory start, and how many there are; the value has read */
static size_t radios_at(const uint8_t *v, size_t *many) {
    size_t p = 0;
    for (int i = 0; i < 3; i++) p += 1 + v[p];
    *many = v[p];
    return p + 1;
}

/* the entries of an inventory are its radios: an id, and a text after its length */
static const Row radio_row = {2, true, {0, 6, 1}};

/* the entry with these numbers: its level, and where it starts; or 6 */
static uint8_t entry_in(uint8_t code, Row *r, AshlarPath path, const uint8_t *v, size_t n, size_t *p) {
    const size_t numbers[3] = {path.i0, path.i1, path.i2};
    size_t levels = code == 0xD4 ? 1 : r->levels, many = 0;
    if (path.depth > levels) return 6;
    *p = 0;
    for (size_t k = 0; k < path.depth; k++) {
        if (code == 0xD4) *p = radios_at(v, &many);
        else list_in(*r, (int)k, v, n, p, &many);
        if (numbers[k] >= many) return 6;
        entries_end(*r, (int)k + 1, numbers[k], v, n, p);
    }
    return 0;
}

AshlarPart plain_entry_at(uint8_t code, AshlarPath path, const uint8_t *v, size_t n) {
    AshlarKind k = plain_read_kind(code, v, n);
    Row r = code == 0xD4 ? radio_row : row_of(code);
    size_t start, end;
    if (k.refusal) return (AshlarPart){.refusal = k.refusal};
    if (!r.levels || !path.depth || entry_in(code, &r, path, v, n, &start)) return (AshlarPart){.refusal = 6};
    end = start;
    entries_end(r, (int)path.depth, 1, v, n, &end);
    return (AshlarPart){start, end - start, 0};
}

AshlarCount plain_entry_count(uint8_t code, AshlarPath path, const uint8_t *v, size_t n) {
    AshlarKind k = plain_read_kind(code, v, n);
    Row r = row_of(code);
    size_t at, many = 0;
    if (k.refusal) return (AshlarCount){.refusal = k.refusal};
    if (!k.is_list) return (AshlarCount){.refusal = 6};
    if (!path.depth) return (AshlarCount){k.entries, 0};
    if (path.depth >= r.levels || entry_in(code, &r, path, v, n, &at)) return (AshlarCount){.refusal = 6};
    list_in(r, (int)path.depth, v, n, &at, &many);
    return (AshlarCount){many, 0};
}

AshlarBegun plain_entries(uint8_t code, uint8_t depth, const uint8_t *v, size_t n) {
    AshlarKind k = plain_read_kind(code, v, n);
    Row r = row_of(code);
    size_t many = 0, at = 0;
    if (k.refusal || !k.is_list) return (AshlarBegun){.refusal = k.refusal ? k.refusal : 6};
    if (code == 0xD4) at = radios_at(v, &many);
    else if (r.levels) list_in(r, 0, v, n, &at, &many);
    else at = k.consumed;
    return (AshlarBegun){{at, depth ? many : 0, 0, 0, code, depth}, k.entries, k.consumed, k.rest, 0};
}

AshlarEntry plain_entry_next(AshlarCursor *c, const uint8_t *v, size_t n) {
    Row r = c->code == 0xD4 ? radio_row : row_of(c->code);
    size_t *left[4] = {0, &c->left1, &c->left2, &c->left3}, at = c->at, many = 0, start = c->at;
    int level = c->left3 ? 3 : c->left2 ? 2 : c->left1 ? 1 : 0, levels = c->code == 0xD4 ? 1 : r.levels;
    if (!level) return (AshlarEntry){.answer = ASHLAR_NO_MORE};
    if (!levels) return (AshlarEntry){.refusal = 16};
    if (level > levels) return (AshlarEntry){.refusal = 6};
    if (level < levels && !list_in(r, level, v, n, &at, &many)) return (AshlarEntry){.refusal = 3};
    if (level < levels && level < c->depth) {
        *left[level + 1] = many;
    } else {
        at = start;
        if (!entries_end(r, level, 1, v, n, &at)) return (AshlarEntry){.refusal = 3};
    }
    c->at = at;
    --*left[level];
    return (AshlarEntry){start, many, (uint8_t)level, ASHLAR_ENTRY, 0};
}

/* ---- Fields of entries ---- */

/* whether so many bytes are there */
static bool there(size_t n, size_t at, size_t size) { return at <= n && n - at >= size; }

/* a length in one byte and as many bytes after it, at `at` */
static bool counted_at(const uint8_t *v, size_t n, size_t at) { return there(n, at, 1) && there(n, at + 1, v[at]); }

AshlarFront plain_front(uint8_t code, const uint8_t *v, size_t n) {
    bool two = code == 9 || code == 10;
    if (!two && code != 6 && code != 7) return (AshlarFront){.refusal = 16};
    if (!there(n, 0, two ? 12 : 6)) return (AshlarFront){.refusal = 3};
    AshlarFront f = {.local = address_in(v)};
    if (two) f.neighbour = address_in(v + 6);
    return f;
}

AshlarNeighbour plain_entry_neighbour(uint8_t code, const uint8_t *v, size_t n, size_t at) {
    if (code != 6 && code != 7) return (AshlarNeighbour){.refusal = 16};
    if (!there(n, at, code)) return (AshlarNeighbour){.refusal = 3};
    return (AshlarNeighbour){address_in(v + at), code == 7 ? v[at + 6] : 0, 0};
}

AshlarInterface plain_entry_interface(uint8_t code, const uint8_t *v, size_t n, size_t at) {
    if (code != 4 && code != 23 && code != 24) return (AshlarInterface){.refusal = 16};
    if (!there(n, at, code == 24 ? 22 : 6)) return (AshlarInterface){.refusal = 3};
    AshlarInterface f = {.address = address_in(v + at)};
    if (code == 24) memcpy(f.link_local, v + at + 6, 16);
    return f;
}

AshlarIpv4 plain_entry_ipv4(const uint8_t *v, size_t n, size_t at) {
    if (!there(n, at, 9)) return (AshlarIpv4){.refusal = 3};
    AshlarIpv4 f = {.type = v[at]};
    memcpy(f.address, v + at + 1, 4), memcpy(f.dhcp_server, v + at + 5, 4);
    return f;
}

AshlarIpv6 plain_entry_ipv6(const uint8_t *v, size_t n, size_t at) {
    if (!there(n, at, 33)) return (AshlarIpv6){.refusal = 3};
    AshlarIpv6 f = {.type = v[at]};
    memcpy(f.address, v + at + 1, 16), memcpy(f.origin, v + at + 17, 16);
    return f;
}

AshlarByte plain_entry_byte(uint8_t code, const uint8_t *v, size_t n, size_t at) {
    if (code != 0x80 && code != 0x83 && code != 0xB7) return (AshlarByte){.refusal = 16};
    return there(n, at, 1) ? (AshlarByte){v[at], 0} : (AshlarByte){.refusal = 3};
}

AshlarRadio plain_entry_radio(uint8_t code, const uint8_t *v, size_t n, size_t at) {
    if (code != 0x83 && code != 0xB7 && code != 0xD4) return (AshlarRadio){.refusal = 16};
    if (!there(n, at, 6)) return (AshlarRadio){.refusal = 3};
    if (code != 0xD4) return (AshlarRadio){.id = address_in(v + at)};
    if (!counted_at(v, n, at + 6)) return (AshlarRadio){.refusal = 3};
    return (AshlarRadio){at + 7, v[at + 6], address_in(v + at), 0};
}

AshlarBss plain_entry_bss(uint8_t code, const uint8_t *v, size_t n, size_t at) {
    size_t head = code == 0xB7 ? 8 : 6;
    if (code != 0x83 && code != 0xB7) return (AshlarBss){.refusal = 16};
    if (!there(n, at, head) || !counted_at(v, n, at + head)) return (AshlarBss){.refusal = 3};
    AshlarBss f = {.name_start = at + head + 1, .name_length = v[at + head], .bssid = address_in(v + at)};
    if (code == 0xB7) f.flags = v[at + 6], f.reserved = v[at + 7];
    return f;
}

AshlarTxPair plain_entry_tx_pair(const uint8_t *v, size_t n, size_t at) {
    if (!there(n, at, 29)) return (AshlarTxPair){.refusal = 3};
    const uint8_t *p = v + at;
    return (AshlarTxPair){four_bytes(p + 15), four_bytes(p + 19), two_bytes(p + 12), two_bytes(p + 23), two_bytes(p + 25), two_bytes(p + 27), address_in(p), address_in(p + 6), p[14], 0};
}

AshlarRxPair plain_entry_rx_pair(const uint8_t *v, size_t n, size_t at) {
    if (!there(n, at, 23)) return (AshlarRxPair){.refusal = 3};
    const uint8_t *p = v + at;
    return (AshlarRxPair){four_bytes(p + 14), four_bytes(p + 18), two_bytes(p + 12), address_in(p), address_in(p + 6), (int8_t)p[22], 0};
}

/* ---- Fields of entries, written ---- */

/* the first `size` of `all` bytes, and a text after its length; no size: no such fields; a field past these is 0 */
static AshlarWritten put(size_t size, const uint8_t *bytes, size_t all, uint8_t *out, size_t room) {
    if (!size) return (AshlarWritten){0, 16};
    for (size_t i = size; i < all; i++)
        if (bytes[i]) return (AshlarWritten){0, 9};
    if (room < size) return (AshlarWritten){0, 7};
    memcpy(out, bytes, size);
    return (AshlarWritten){size, 0};
}

static AshlarWritten put_with_text(size_t size, const uint8_t *bytes, size_t all, const uint8_t *text, size_t n, uint8_t *out, size_t room) {
    uint8_t whole[8 + 1 + 255];
    if (!size) return (AshlarWritten){0, 16};
    if (n > 255) return (AshlarWritten){0, 9};
    AshlarWritten own = put(size, bytes, all, whole, sizeof whole);
    if (own.refusal) return own;
    whole[size] = (uint8_t)n;
    memcpy(whole + size + 1, text, n);
    return put(size + 1 + n, whole, 0, out, room);
}

AshlarWritten plain_put_count(size_t n, uint8_t *out, size_t room) {
    uint8_t count = (uint8_t)n;
    return n > 255 ? (AshlarWritten){0, 9} : put(1, &count, 1, out, room);
}

AshlarWritten plain_put_front(uint8_t code, AshlarAddress local, AshlarAddress neighbour, uint8_t *out, size_t room) {
    uint8_t b[12];
    memcpy(b, local.bytes, 6), memcpy(b + 6, neighbour.bytes, 6);
    return put(code == 6 || code == 7 ? 6 : code == 9 || code == 10 ? 12 : 0, b, 12, out, room);
}

AshlarWritten plain_put_neighbour(uint8_t code, AshlarNeighbour f, uint8_t *out, size_t room) {
    uint8_t b[7];
    memcpy(b, f.address.bytes, 6), b[6] = f.flags;
    return put(code == 6 || code == 7 ? code : 0, b, 7, out, room);
}

AshlarWritten plain_put_interface(uint8_t code, AshlarInterface f, uint8_t *out, size_t room) {
    uint8_t b[22];
    memcpy(b, f.address.bytes, 6), memcpy(b + 6, f.link_local, 16);
    return put(code == 4 || code == 23 ? 6 : code == 24 ? 22 : 0, b, 22, out, room);
}

AshlarWritten plain_put_ipv4(AshlarIpv4 f, uint8_t *out, size_t room) {
    uint8_t b[9] = {f.type};
    memcpy(b + 1, f.address, 4), memcpy(b + 5, f.dhcp_server, 4);
    return put(9, b, 9, out, room);
}

AshlarWritten plain_put_ipv6(AshlarIpv6 f, uint8_t *out, size_t room) {
    uint8_t b[33] = {f.type};
    memcpy(b + 1, f.address, 16), memcpy(b + 17, f.origin, 16);
    return put(33, b, 33, out, room);
}

AshlarWritten plain_put_byte(uint8_t code, uint8_t byte, uint8_t *out, size_t room) { return put(code == 0x80 || code == 0x83 || code == 0xB7, &byte, 1, out, room); }

AshlarWritten plain_put_radio(uint8_t code, AshlarAddress id, const uint8_t *text, size_t n, uint8_t *out, size_t room) {
    if (code == 0xD4) return put_with_text(6, id.bytes, 6, text, n, out, room);
    if (code != 0x83 && code != 0xB7) return (AshlarWritten){0, 16};
    return n ? (AshlarWritten){0, 9} : put(6, id.bytes, 6, out, room);
}

AshlarWritten plain_put_bss(uint8_t code, AshlarBss f, const uint8_t *name, size_t n, uint8_t *out, size_t room) {
    uint8_t b[8];
    memcpy(b, f.bssid.bytes, 6), b[6] = f.flags, b[7] = f.reserved;
    return put_with_text(code == 0x83 ? 6 : code == 0xB7 ? 8 : 0, b, 8, name, n, out, room);
}

static void put_two(uint8_t *p, uint16_t n) { p[0] = (uint8_t)(n >> 8), p[1] = (uint8_t)n; }

static void put_four(uint8_t *p, uint32_t n) { put_two(p, (uint16_t)(n >> 16)), put_two(p + 2, (uint16_t)n); }

AshlarWritten plain_put_tx_pair(AshlarTxPair f, uint8_t *out, size_t room) {
    uint8_t b[29];
    memcpy(b, f.own.bytes, 6), memcpy(b + 6, f.neighbour.bytes, 6);
    put_two(b + 12, f.media), b[14] = f.bridge, put_four(b + 15, f.errors), put_four(b + 19, f.packets);
    put_two(b + 23, f.throughput), put_two(b + 25, f.availability), put_two(b + 27, f.rate);
    return put(29, b, 29, out, room);
}

AshlarWritten plain_put_rx_pair(AshlarRxPair f, uint8_t *out, size_t room) {
    uint8_t b[23];
    memcpy(b, f.own.bytes, 6), memcpy(b + 6, f.neighbour.bytes, 6);
    put_two(b + 12, f.media), put_four(b + 14, f.errors), put_four(b + 18, f.packets), b[22] = (uint8_t)f.signal;
    return put(23, b, 23, out, room);
}
