/* The part of tests/header on records and entries by their fields, on the walk's step, and on what is written. Bytes of
   a value differ from each other, so that fields that are mixed up show. */
#include "header.h"
#include <string.h>

static bool is(AshlarAddress a, uint8_t first) {
    for (int i = 0; i < 6; i++)
        if (a.bytes[i] != first + i) return false;
    return true;
}

static bool zero(const void *p, size_t n) {
    for (size_t i = 0; i < n; i++)
        if (((const uint8_t *)p)[i]) return false;
    return true;
}

/* whether a struct says this refusal, in its last byte, and nothing else */
static bool refused(const void *answer, size_t refusal_at, uint8_t refusal, uint8_t said) {
    refusals |= 1u << said;
    return said == refusal && zero(answer, refusal_at);
}

#define REFUSED(answer, number) refused(&(answer), offsetof(__typeof__(answer), refusal), number, (answer).refusal)

/* 1, 2, 3, and so on */
static uint8_t rising[64];

/* ---- Records ---- */

static void records(void) {
    AshlarAddressRead a = ashlar_read_address(ASHLAR_MAC_ADDRESS, rising, 8);
    check("AshlarAddressRead", is(a.address, 1) && a.consumed == 6 && a.rest == 2 && a.refusal == ASHLAR_OK);
    a = ashlar_read_address(ASHLAR_AL_MAC_ADDRESS, rising, 5);
    check("ashlar_read_address: 3", REFUSED(a, ASHLAR_CUT_SHORT));
    a = ashlar_read_address(ASHLAR_MULTI_AP_PROFILE, rising, 6);
    check("ashlar_read_address: 16", REFUSED(a, ASHLAR_UNKNOWN_KIND));
    AshlarByteRead b = ashlar_read_byte(ASHLAR_MULTI_AP_PROFILE, rising + 2, 3);
    check("AshlarByteRead: a byte that has a name", b.byte == 3 && !b.reserved && b.consumed == 1 && b.rest == 2 && b.refusal == ASHLAR_OK);
    b = ashlar_read_byte(ASHLAR_MULTI_AP_PROFILE, rising + 3, 1);
    check("AshlarByteRead: one that is reserved", b.byte == 4 && b.reserved && b.refusal == ASHLAR_OK);
    b = ashlar_read_byte(ASHLAR_SEARCHED_ROLE, rising, 1);
    check("ashlar_read_byte: 5", REFUSED(b, ASHLAR_BAD_VALUE));
    AshlarQueryRead q = ashlar_read_query(rising, 9);
    check("AshlarQueryRead: one neighbour", q.query.neighbour_type == 1 && q.query.has_neighbour && is(q.query.neighbour, 2) && q.query.metrics == 8 && q.consumed == 8 && q.rest == 1 && !q.refusal);
    q = ashlar_read_query(rising + 4, 2);
    check("AshlarQueryRead: all neighbours", q.query.neighbour_type == 5 && !q.query.has_neighbour && zero(&q.query.neighbour, 6) && q.query.metrics == 6 && q.consumed == 2 && !q.refusal);
    q = ashlar_read_query(rising, 7);
    check("ashlar_read_query: 3", REFUSED(q, ASHLAR_CUT_SHORT));
    uint8_t event[14];
    memcpy(event, rising, 14), event[12] = 0x80;
    AshlarAssociationRead e = ashlar_read_association(event, 14);
    check("AshlarAssociationRead: the station first", is(e.association.station, 1) && is(e.association.point, 7));
    check("AshlarAssociationRead: joined", e.association.joined && e.state == 0x80 && e.consumed == 13 && e.rest == 1 && e.refusal == ASHLAR_OK);
    event[12] = 0;
    e = ashlar_read_association(event, 13);
    check("AshlarAssociationRead: left", !e.association.joined && e.state == 0 && e.refusal == ASHLAR_OK);
    e = ashlar_read_association(rising, 13);
    check("ashlar_read_association: 5", REFUSED(e, ASHLAR_BAD_VALUE));
    AshlarCapabilityRead c = ashlar_read_capability((const uint8_t[]){1, 2, 0xB5, 4, 5}, 5);
    check("AshlarCapabilityRead: its bytes", c.capability.max_prioritization_rules == 1 && c.capability.reserved == 2 && c.capability.max_vids == 4 && c.consumed == 4 && c.rest == 1 && !c.refusal);
    check("AshlarCapabilityRead: its flags", c.flags == 0xB5 && c.capability.byte_counter_units == 2 && c.capability.prioritization && c.capability.dpp_onboarding && !c.capability.traffic_separation && c.capability.flags_reserved == 5);
    c = ashlar_read_capability(rising, 3);
    check("ashlar_read_capability: 3", REFUSED(c, ASHLAR_CUT_SHORT));
}

/* ---- Entries ---- */

/* two radios; the first has two networks, "ab" and "", the second none; then a byte that belongs to nothing */
static const uint8_t bss[] = {2, 1, 2, 3, 4, 5, 6, 2, 11, 12, 13, 14, 15, 16, 2, 'a', 'b', 21, 22, 23, 24, 25, 26, 0, 31, 32, 33, 34, 35, 36, 0, 99};

static bool same(AshlarCursor a, AshlarCursor b) {
    return a.at == b.at && a.left1 == b.left1 && a.left2 == b.left2 && a.left3 == b.left3 && a.code == b.code && a.depth == b.depth;
}

static bool next_is(AshlarCursor *c, size_t start, size_t entries, uint8_t level) {
    AshlarEntry e = ashlar_entry_next(c, bss, sizeof bss);
    return e.answer == ASHLAR_ENTRY && e.start == start && e.entries == entries && e.level == level && e.refusal == ASHLAR_OK;
}

static void cursors(void) {
    AshlarBegun b = ashlar_entries(ASHLAR_AP_OPERATIONAL_BSS, 2, bss, sizeof bss);
    check("AshlarBegun", b.entries == 2 && b.consumed == 31 && b.rest == 1 && b.refusal == ASHLAR_OK);
    check("AshlarCursor", b.cursor.at == 1 && b.cursor.left1 == 2 && !b.cursor.left2 && !b.cursor.left3 && b.cursor.code == 0x83 && b.cursor.depth == 2);
    AshlarCursor c = b.cursor;
    check("AshlarEntry: radios and networks, each with its list's length", next_is(&c, 1, 2, 1) && next_is(&c, 8, 2, 2) && next_is(&c, 17, 0, 2) && next_is(&c, 24, 0, 1));
    AshlarCursor end = c;
    AshlarEntry e = ashlar_entry_next(&c, bss, sizeof bss);
    check("ASHLAR_NO_MORE, and the cursor stays", e.answer == ASHLAR_NO_MORE && !e.start && !e.entries && !e.level && !e.refusal && same(c, end));
    c = ashlar_entries(ASHLAR_AP_OPERATIONAL_BSS, ASHLAR_LEVELS, bss, sizeof bss).cursor;
    check("ASHLAR_LEVELS: the bytes of names too", next_is(&c, 1, 2, 1) && next_is(&c, 8, 2, 2) && next_is(&c, 15, 0, 3) && c.left3 == 1 && c.left2 == 1 && next_is(&c, 16, 0, 3) && next_is(&c, 17, 0, 2) && next_is(&c, 24, 0, 1));
    c = ashlar_entries(ASHLAR_AP_OPERATIONAL_BSS, 1, bss, sizeof bss).cursor;
    check("ashlar_entries: the outermost list alone", next_is(&c, 1, 2, 1) && next_is(&c, 24, 0, 1) && ashlar_entry_next(&c, bss, sizeof bss).answer == ASHLAR_NO_MORE);
    b = ashlar_entries(ASHLAR_AP_OPERATIONAL_BSS, 3, bss, 30);
    check("ashlar_entries: 3", REFUSED(b, ASHLAR_CUT_SHORT));
    b = ashlar_entries(ASHLAR_MAC_ADDRESS, 3, bss, sizeof bss);
    check("ashlar_entries: 6", REFUSED(b, ASHLAR_NO_ENTRY));
    c = (AshlarCursor){.at = 20, .left2 = 7, .code = ASHLAR_AP_OPERATIONAL_BSS, .depth = 2};
    end = c;
    e = ashlar_entry_next(&c, bss, 22);
    check("ashlar_entry_next: 3, and the cursor stays", e.refusal == ASHLAR_CUT_SHORT && e.answer == ASHLAR_REFUSED && same(c, end));
    refusals |= 1u << e.refusal;
}

static void numbered(void) {
    AshlarPart p = ashlar_entry_at(ASHLAR_AP_OPERATIONAL_BSS, (AshlarPath){1, 0, 9, 9}, bss, sizeof bss);
    check("ashlar_entry_at: a radio with its networks", p.start == 1 && p.length == 23 && p.refusal == ASHLAR_OK);
    p = ashlar_entry_at(ASHLAR_AP_OPERATIONAL_BSS, (AshlarPath){2, 0, 1, 9}, bss, sizeof bss);
    check("AshlarPath: i0 and i1", p.start == 17 && p.length == 7 && p.refusal == ASHLAR_OK);
    p = ashlar_entry_at(ASHLAR_AP_OPERATIONAL_BSS, (AshlarPath){3, 0, 0, 1}, bss, sizeof bss);
    check("AshlarPath: i2", p.start == 16 && p.length == 1 && p.refusal == ASHLAR_OK);
    p = ashlar_entry_at(ASHLAR_AP_OPERATIONAL_BSS, (AshlarPath){0, 0, 0, 0}, bss, sizeof bss);
    check("ashlar_entry_at: 6", REFUSED(p, ASHLAR_NO_ENTRY));
    AshlarCount c = ashlar_entry_count(ASHLAR_AP_OPERATIONAL_BSS, (AshlarPath){2, 0, 0, 0}, bss, sizeof bss);
    check("AshlarCount: the bytes of a name", c.entries == 2 && c.refusal == ASHLAR_OK);
    c = ashlar_entry_count(ASHLAR_AP_OPERATIONAL_BSS, (AshlarPath){0, 0, 0, 0}, bss, sizeof bss);
    check("AshlarCount: the value's own list", c.entries == 2 && c.refusal == ASHLAR_OK);
    c = ashlar_entry_count(ASHLAR_AP_OPERATIONAL_BSS, (AshlarPath){3, 0, 0, 0}, bss, sizeof bss);
    check("ashlar_entry_count: 6", REFUSED(c, ASHLAR_NO_ENTRY));
}

/* ---- Fields of entries ---- */

static void fronts(void) {
    AshlarFront f = ashlar_front(ASHLAR_LINK_METRIC_RX, rising, 12);
    check("AshlarFront: two addresses", is(f.local, 1) && is(f.neighbour, 7) && f.refusal == ASHLAR_OK);
    f = ashlar_front(ASHLAR_1905_NEIGHBOR_DEVICE, rising, 6);
    check("AshlarFront: one", is(f.local, 1) && zero(&f.neighbour, 6) && f.refusal == ASHLAR_OK);
    f = ashlar_front(ASHLAR_LINK_METRIC_TX, rising, 11);
    check("ashlar_front: 3", REFUSED(f, ASHLAR_CUT_SHORT));
    f = ashlar_front(ASHLAR_IPV4, rising, 20);
    check("ashlar_front: 16", REFUSED(f, ASHLAR_UNKNOWN_KIND));
    AshlarNeighbour n = ashlar_entry_neighbour(ASHLAR_1905_NEIGHBOR_DEVICE, rising, 15, 8);
    check("AshlarNeighbour: with its flags", is(n.address, 9) && n.flags == 15 && n.refusal == ASHLAR_OK);
    n = ashlar_entry_neighbour(ASHLAR_NON_1905_NEIGHBOR_DEVICES, rising, 14, 8);
    check("AshlarNeighbour: without", is(n.address, 9) && n.flags == 0 && n.refusal == ASHLAR_OK);
    n = ashlar_entry_neighbour(ASHLAR_1905_NEIGHBOR_DEVICE, rising, 14, 8);
    check("ashlar_entry_neighbour: 3", REFUSED(n, ASHLAR_CUT_SHORT));
}

static void interfaces(void) {
    AshlarInterface f = ashlar_entry_interface(ASHLAR_IPV6, rising, 32, 10);
    check("AshlarInterface: its link-local address", is(f.address, 11) && !memcmp(f.link_local, rising + 16, 16) && f.refusal == ASHLAR_OK);
    f = ashlar_entry_interface(ASHLAR_IPV4, rising, 16, 10);
    check("AshlarInterface: none", is(f.address, 11) && zero(f.link_local, 16) && f.refusal == ASHLAR_OK);
    f = ashlar_entry_interface(ASHLAR_IPV6, rising, 31, 10);
    check("ashlar_entry_interface: 3", REFUSED(f, ASHLAR_CUT_SHORT));
    AshlarIpv4 v4 = ashlar_entry_ipv4(rising, 19, 10);
    check("AshlarIpv4", v4.type == 11 && !memcmp(v4.address, rising + 11, 4) && !memcmp(v4.dhcp_server, rising + 15, 4) && v4.refusal == ASHLAR_OK);
    v4 = ashlar_entry_ipv4(rising, 18, 10);
    check("ashlar_entry_ipv4: 3", REFUSED(v4, ASHLAR_CUT_SHORT));
    AshlarIpv6 v6 = ashlar_entry_ipv6(rising, 43, 10);
    check("AshlarIpv6", v6.type == 11 && !memcmp(v6.address, rising + 11, 16) && !memcmp(v6.origin, rising + 27, 16) && v6.refusal == ASHLAR_OK);
    v6 = ashlar_entry_ipv6(rising, 43, 11);
    check("ashlar_entry_ipv6: 3", REFUSED(v6, ASHLAR_CUT_SHORT));
    v6 = ashlar_entry_ipv6(rising, 43, (size_t)-1);
    check("ashlar_entry_ipv6: 3, past any value", REFUSED(v6, ASHLAR_CUT_SHORT));
}

static void networks(void) {
    AshlarRadio r = ashlar_entry_radio(ASHLAR_AP_OPERATIONAL_BSS, bss, sizeof bss, 1);
    check("AshlarRadio: its id", is(r.id, 1) && !r.text_start && !r.text_length && r.refusal == ASHLAR_OK);
    static const uint8_t chip[] = {7, 1, 2, 3, 4, 5, 6, 2, 'a', 'b'};
    r = ashlar_entry_radio(ASHLAR_DEVICE_INVENTORY, chip, 10, 1);
    check("AshlarRadio: its text", is(r.id, 1) && r.text_start == 8 && r.text_length == 2 && r.refusal == ASHLAR_OK);
    r = ashlar_entry_radio(ASHLAR_DEVICE_INVENTORY, chip, 9, 1);
    check("ashlar_entry_radio: 3", REFUSED(r, ASHLAR_CUT_SHORT));
    AshlarBss b = ashlar_entry_bss(ASHLAR_AP_OPERATIONAL_BSS, bss, sizeof bss, 8);
    check("AshlarBss: BSSID and name", is(b.bssid, 11) && b.name_start == 15 && b.name_length == 2 && !b.flags && !b.reserved && b.refusal == ASHLAR_OK);
    static const uint8_t report[] = {1, 2, 3, 4, 5, 6, 0x40, 9, 1, 'x'};
    b = ashlar_entry_bss(ASHLAR_BSS_CONFIGURATION_REPORT, report, 10, 0);
    check("AshlarBss: flags and the reserved byte", is(b.bssid, 1) && b.flags == 0x40 && b.reserved == 9 && b.name_start == 9 && b.name_length == 1 && b.refusal == ASHLAR_OK);
    b = ashlar_entry_bss(ASHLAR_BSS_CONFIGURATION_REPORT, report, 9, 0);
    check("ashlar_entry_bss: 3", REFUSED(b, ASHLAR_CUT_SHORT));
    b = ashlar_entry_bss(ASHLAR_DEVICE_INVENTORY, report, 10, 0);
    check("ashlar_entry_bss: 16", REFUSED(b, ASHLAR_UNKNOWN_KIND));
    AshlarByte s = ashlar_entry_byte(ASHLAR_SUPPORTED_SERVICE, rising, 9, 8);
    check("AshlarByte", s.byte == 9 && s.refusal == ASHLAR_OK);
    s = ashlar_entry_byte(ASHLAR_SUPPORTED_SERVICE, rising, 9, 9);
    check("ashlar_entry_byte: 3", REFUSED(s, ASHLAR_CUT_SHORT));
}

static void pairs(void) {
    AshlarTxPair t = ashlar_entry_tx_pair(rising, 39, 10);
    check("AshlarTxPair: addresses, media, bridge", is(t.own, 11) && is(t.neighbour, 17) && t.media == 0x1718 && t.bridge == 0x19);
    check("AshlarTxPair: figures", t.errors == 0x1A1B1C1D && t.packets == 0x1E1F2021 && t.throughput == 0x2223 && t.availability == 0x2425 && t.rate == 0x2627 && t.refusal == ASHLAR_OK);
    t = ashlar_entry_tx_pair(rising, 38, 10);
    check("ashlar_entry_tx_pair: 3", t.refusal == ASHLAR_CUT_SHORT && !t.errors && !t.packets && !t.media && !t.rate && zero(&t.own, 12));
    uint8_t received[24];
    memcpy(received, rising, 24), received[23] = 0xCE;
    AshlarRxPair r = ashlar_entry_rx_pair(received, 24, 1);
    check("AshlarRxPair", is(r.own, 2) && is(r.neighbour, 8) && r.media == 0x0E0F && r.errors == 0x10111213 && r.packets == 0x14151617 && r.signal == -50 && r.refusal == ASHLAR_OK);
    r = ashlar_entry_rx_pair(received, 24, 2);
    check("ashlar_entry_rx_pair: 3", r.refusal == ASHLAR_CUT_SHORT && !r.errors && !r.packets && !r.media && !r.signal && zero(&r.own, 12));
}

/* ---- Steps and the key ---- */

static void steps(void) {
    static const uint8_t payload[] = {9, 1, 2, 'a', 5, 0, 1, 'b', 0, 0, 0, 7, 7};
    AshlarStep s = ashlar_step(payload, sizeof payload, 4);
    check("AshlarStep: a TLV", s.answer == ASHLAR_TLV && s.tlv.tlv_type == 5 && s.tlv.length == 1 && s.tlv.offset == 4 && s.next == 8 && !s.shortfall && !s.refusal);
    s = ashlar_step(payload, sizeof payload, 8);
    check("AshlarStep: the end marker", s.answer == ASHLAR_LAST_TLV && !s.tlv.tlv_type && !s.tlv.length && s.tlv.offset == 8 && s.next == 11);
    s = ashlar_step(payload, 8, 8);
    check("AshlarStep: the payload's end", s.answer == ASHLAR_PAYLOAD_END && !s.next && !s.tlv.offset);
    s = ashlar_step(payload, sizeof payload, 0);
    check("AshlarStep: 2, and the shortfall", s.answer == ASHLAR_REFUSED && s.refusal == ASHLAR_RUNS_PAST_END && s.shortfall == 258 - 10 && !s.next);
    s = ashlar_step(payload, sizeof payload, 11);
    check("AshlarStep: 1, where", s.answer == ASHLAR_REFUSED && s.refusal == ASHLAR_TOO_FEW_BYTES && s.shortfall == 1 && s.tlv.offset == 11);
    check("ashlar_key", ashlar_key((AshlarAddress){{1, 2, 3, 4, 5, 6}}, 0x0708) == 0x0102030405060708);
    check("ASHLAR_VERSION", ashlar_version() == ASHLAR_VERSION);
}

/* ---- Writing ---- */

static uint8_t room[32];

/* what is written at the start of the room, and that the rest stays */
static bool wrote(AshlarWritten w, const char *bytes, size_t n) {
    bool good = w.refusal == ASHLAR_OK && w.length == n && !memcmp(room, bytes, n) && room[n] == 0xEE;
    memset(room, 0xEE, sizeof room);
    return good;
}

static bool wrote_nothing(AshlarWritten w, uint8_t refusal) {
    refusals |= 1u << w.refusal;
    return w.refusal == refusal && w.length == 0 && room[0] == 0xEE;
}

static void written(void) {
    static const uint8_t longest[65536];
    AshlarAddress a = {{1, 2, 3, 4, 5, 6}}, b = {{7, 8, 9, 10, 11, 12}};
    memset(room, 0xEE, sizeof room);
    check("ashlar_write_tlv", wrote(ashlar_write_tlv(0x99, (const uint8_t *)"ab", 2, room, 32), "\x99\0\2ab", 5));
    check("ashlar_write_tlv: 8", wrote_nothing(ashlar_write_tlv(0x99, longest, 65536, room, 32), ASHLAR_VALUE_TOO_LONG));
    check("ashlar_write_tlv: 7", wrote_nothing(ashlar_write_tlv(0x99, longest, 2, room, 4), ASHLAR_NO_ROOM));
    check("ashlar_write_kind: without the rest", wrote(ashlar_write_kind(0x80, (const uint8_t *)"\2\0\1zz", 5, room, 32), "\x80\0\3\2\0\1", 6));
    check("ashlar_write_kind: an end marker of a null pointer", wrote(ashlar_write_kind(0, 0, 0, room, 32), "\0\0\0", 3));
    check("ashlar_write_kind: 3", wrote_nothing(ashlar_write_kind(0x80, (const uint8_t *)"\2\0", 2, room, 32), ASHLAR_CUT_SHORT));
    check("ashlar_write_address", wrote(ashlar_write_address(ASHLAR_AL_MAC_ADDRESS, a, room, 32), "\1\0\6\1\2\3\4\5\6", 9));
    check("ashlar_write_address: 16", wrote_nothing(ashlar_write_address(ASHLAR_SEARCHED_ROLE, a, room, 32), ASHLAR_UNKNOWN_KIND));
    check("ashlar_write_byte", wrote(ashlar_write_byte(ASHLAR_SUPPORTED_FREQ_BAND, 2, room, 32), "\x10\0\1\2", 4));
    check("ashlar_write_byte: 9", wrote_nothing(ashlar_write_byte(ASHLAR_SEARCHED_ROLE, 2, room, 32), ASHLAR_NEVER_READ));
    check("ashlar_write_query: one neighbour", wrote(ashlar_write_query((AshlarQuery){a, 1, true, 2}, room, 32), "\x08\0\x08\1\1\2\3\4\5\6\2", 11));
    check("ashlar_write_query: all", wrote(ashlar_write_query((AshlarQuery){{{0}}, 0, false, 1}, room, 32), "\x08\0\2\0\1", 5));
    check("ashlar_write_query: 9, a neighbour without its flag", wrote_nothing(ashlar_write_query((AshlarQuery){a, 0, false, 1}, room, 32), ASHLAR_NEVER_READ));
    check("ashlar_write_query: 9", wrote_nothing(ashlar_write_query((AshlarQuery){a, 1, false, 1}, room, 32), ASHLAR_NEVER_READ));
    check("ashlar_write_association", wrote(ashlar_write_association((AshlarAssociation){a, b, true}, room, 32), "\x92\0\x0D\1\2\3\4\5\6\7\x08\x09\x0A\x0B\x0C\x80", 16));
    check("ashlar_write_capability", wrote(ashlar_write_capability((AshlarCapability){1, 2, 2, true, true, false, 5, 4}, room, 32), "\xB4\0\4\1\2\xB5\4", 7));
    check("ashlar_write_capability: 9", wrote_nothing(ashlar_write_capability((AshlarCapability){.byte_counter_units = 4}, room, 32), ASHLAR_NEVER_READ));
}

/* fields of entries: each where it is read */
static void put(void) {
    AshlarAddress a = {{1, 2, 3, 4, 5, 6}}, b = {{7, 8, 9, 10, 11, 12}}, none = {{0}};
    uint8_t all[40];
    for (int i = 0; i < 40; i++) all[i] = (uint8_t)(i + 1);
    check("ashlar_put_count", wrote(ashlar_put_count(255, room, 32), "\xFF", 1) && wrote_nothing(ashlar_put_count(256, room, 32), ASHLAR_NEVER_READ));
    check("ashlar_put_front", wrote(ashlar_put_front(ASHLAR_LINK_METRIC_TX, a, b, room, 32), (const char *)all, 12) && wrote(ashlar_put_front(ASHLAR_1905_NEIGHBOR_DEVICE, a, none, room, 32), (const char *)all, 6));
    check("ashlar_put_front: 9", wrote_nothing(ashlar_put_front(ASHLAR_1905_NEIGHBOR_DEVICE, a, b, room, 32), ASHLAR_NEVER_READ));
    check("ashlar_put_neighbour", wrote(ashlar_put_neighbour(ASHLAR_1905_NEIGHBOR_DEVICE, (AshlarNeighbour){a, 7, 99}, room, 32), (const char *)all, 7));
    AshlarInterface i = ashlar_entry_interface(ASHLAR_IPV6, all, 40, 0);
    check("ashlar_put_interface", wrote(ashlar_put_interface(ASHLAR_IPV6, i, room, 32), (const char *)all, 22));
    check("ashlar_put_ipv4", wrote(ashlar_put_ipv4(ashlar_entry_ipv4(all, 40, 0), room, 32), (const char *)all, 9));
    uint8_t wide[34] = {[33] = 0xEE};
    AshlarWritten w = ashlar_put_ipv6(ashlar_entry_ipv6(all, 40, 0), wide, 34);
    check("ashlar_put_ipv6", w.length == 33 && w.refusal == ASHLAR_OK && !memcmp(wide, all, 33) && wide[33] == 0xEE);
    check("ashlar_put_byte", wrote(ashlar_put_byte(ASHLAR_SUPPORTED_SERVICE, 1, room, 32), "\1", 1) && wrote_nothing(ashlar_put_byte(ASHLAR_IPV4, 1, room, 32), ASHLAR_UNKNOWN_KIND));
    check("ashlar_put_radio", wrote(ashlar_put_radio(ASHLAR_AP_OPERATIONAL_BSS, a, 0, 0, room, 32), (const char *)all, 6) && wrote(ashlar_put_radio(ASHLAR_DEVICE_INVENTORY, a, (const uint8_t *)"ab", 2, room, 32), "\1\2\3\4\5\6\2ab", 9));
    check("ashlar_put_bss", wrote(ashlar_put_bss(ASHLAR_BSS_CONFIGURATION_REPORT, (AshlarBss){9, 9, a, 7, 8, 9}, (const uint8_t *)"x", 1, room, 32), "\1\2\3\4\5\6\7\x08\1x", 10));
    check("ashlar_put_bss: 7", wrote_nothing(ashlar_put_bss(ASHLAR_AP_OPERATIONAL_BSS, (AshlarBss){.bssid = a}, (const uint8_t *)"x", 1, room, 7), ASHLAR_NO_ROOM));
    check("ashlar_put_tx_pair", wrote(ashlar_put_tx_pair(ashlar_entry_tx_pair(all, 40, 0), room, 32), (const char *)all, 29));
    check("ashlar_put_rx_pair", wrote(ashlar_put_rx_pair(ashlar_entry_rx_pair(all, 40, 0), room, 32), (const char *)all, 23));
}

/* ---- Names and empty slices ---- */

static void texts_in_header(void) {
    bool all = true;
    for (int i = 0; i < 24; i++) all &= ashlar_refusal_name((uint8_t)i)[0] != 0;
    check("ashlar_refusal_name: each number, and another", all && strcmp(ashlar_refusal_name(23), ashlar_refusal_name(24)));
    int kinds = 0, messages = 0;
    for (int i = 0; i < 256; i++) {
        bool is_kind = ashlar_read_kind((uint8_t)i, 0, 0).refusal != ASHLAR_UNKNOWN_KIND;
        kinds += is_kind;
        all &= is_kind == (ashlar_kind_name((uint8_t)i) != 0);
    }
    check("ashlar_kind_name: of each kind, and of no other code", all && kinds == 25);
    for (int i = 0; i < 65536; i++) messages += ashlar_message_name((uint16_t)i) != 0;
    check("ashlar_message_name: some", messages == 50 && !strcmp(ashlar_message_name(ASHLAR_TOPOLOGY_QUERY), "topology query"));
    check("a null pointer is an empty slice: of bytes", ashlar_walk(0, 0).refusal == ASHLAR_OK && ashlar_cut(0, 0, 0, 0).refusal == ASHLAR_NO_ROOM);
    check("a null pointer is an empty slice: of lists", ashlar_walk_into(0, 0, 0, 0).count == 0 && ashlar_find(0, 0, 0, 0, 1, 0).refusal == ASHLAR_NOT_FOUND && ashlar_check(0, 0, 0, 0, 0, 0).refusal == ASHLAR_OK);
}

void values_by_fields(void) {
    for (size_t i = 0; i < sizeof rising; i++) rising[i] = (uint8_t)(i + 1);
    records(), cursors(), numbered(), fronts(), interfaces(), networks(), pairs(), steps(), written(), put(), texts_in_header();
}
