/* The header against the archive, the one thing that no proof ties together (rule C1): the order of a struct's fields
   in memory and of a call's parameters, the numbers of refusals and answers, the sizes. Each is seen by a call that
   gives it, with values that tell fields and parameters apart. */
#include "header.h"
#include <stdio.h>
#include <string.h>

static int failed;
unsigned refusals, answers, events;

void check(const char *name, bool good) {
    failed += !good;
    printf("%s header: %s\n", good ? "ok" : "FAILED", name);
}

static uint8_t payload[ASHLAR_PAYLOAD + 1], store[ASHLAR_STORE], out[ASHLAR_MESSAGE];

/* ---- Headers ---- */

static const uint8_t heading[9] = {0x11, 0x22, 0x33, 0x44, 0x55, 0x66, 0x77, 0x80, 0xFF};

static void headings(void) {
    AshlarHeader h = ashlar_read_header(heading, 9);
    check("ashlar_read_header: eight bytes and one more", h.refusal == ASHLAR_OK && h.shortfall == 0);
    check("AshlarHeader: version", h.version == 0x11);
    check("AshlarHeader: reserved", h.reserved == 0x22);
    check("AshlarHeader: message_type", h.message_type == 0x3344);
    check("AshlarHeader: message_id", h.message_id == 0x5566);
    check("AshlarHeader: number", h.number == 0x77);
    check("AshlarHeader: flags, last", h.flags == 0x80 && h.last);
    const uint8_t unmarked[8] = {[7] = 0x7F};
    h = ashlar_read_header(unmarked, 8);
    check("AshlarHeader: flags that are not the last mark", h.flags == 0x7F && !h.last && h.refusal == ASHLAR_OK);
    h = ashlar_read_header(heading, 5);
    check("ashlar_read_header: 1, and the shortfall", h.refusal == ASHLAR_TOO_FEW_BYTES && h.shortfall == 3);
    check("ashlar_read_header: where refused, all else is 0", !(h.version || h.reserved || h.message_type || h.message_id || h.number || h.flags || h.last));
    refusals |= 1u << h.refusal;
    bool good = true;
    for (size_t n = 0; n < 8; n++) {
        h = ashlar_read_header(heading, n);
        good &= h.refusal == ASHLAR_TOO_FEW_BYTES && h.shortfall == 8 - n;
        good &= ashlar_read_header(heading, n + h.shortfall).refusal == ASHLAR_OK;
    }
    check("ashlar_read_header: with as many bytes more as were missing it reads", good);
}

static void written_headings(void) {
    uint8_t room[9];
    AshlarFields f = {.version = 0x11, .message_type = 0x3344, .message_id = 0x5566, .number = 0x77, .last = true};
    memset(room, 0xEE, sizeof room);
    AshlarWritten w = ashlar_write_header(f, room, ASHLAR_CMDU_HEADER - 1);
    check("ashlar_write_header: 7, and the room stays", w.refusal == ASHLAR_NO_ROOM && w.length == 0 && room[0] == 0xEE && room[6] == 0xEE);
    refusals |= 1u << w.refusal;
    w = ashlar_write_header(f, room, 9);
    check("ashlar_write_header: eight bytes", w.refusal == ASHLAR_OK && w.length == ASHLAR_CMDU_HEADER);
    check("AshlarFields: each where it is read, the reserved byte and the other flags 0", !memcmp(room, (uint8_t[]){0x11, 0, 0x33, 0x44, 0x55, 0x66, 0x77, 0x80, 0xEE}, 9));
    f.last = false;
    check("AshlarFields: last", ashlar_write_header(f, room, 8).length == 8 && room[7] == 0);
}

/* ---- Walking ---- */

/* TLVs at 0, 5 and 8, the last with a length of two bytes, and one that begins at 267 and lacks its nine bytes */
static const uint8_t row[279] = {0x92, 0, 2, 0xAA, 0xBB, 7, 0, 0, 0x83, 1, 0, [267] = 1, 0, 9};

/* what a receive loop does: from so many bytes of the row it waits for those that are missing, as long as any are, and
   then has them all */
static bool waits(size_t size) {
    AshlarWalk w = ashlar_walk(row, size);
    while (w.refusal && w.shortfall && w.shortfall <= sizeof row - size) {
        for (size_t fewer = 1; fewer < w.shortfall; fewer++) {
            AshlarWalk again = ashlar_walk(row, size + fewer);
            if (again.refusal != w.refusal || again.at != w.at || again.shortfall != w.shortfall - fewer) return false;
        }
        size += w.shortfall;
        w = ashlar_walk(row, size);
    }
    return w.refusal == ASHLAR_OK && (size == 5 || size == 8 || size == 267 || size == sizeof row);
}

static void walks(void) {
    AshlarTlv list[4];
    AshlarWalk w = ashlar_walk(row, 267);
    check("ashlar_walk: count", w.count == 3 && w.padding == 0 && w.at == 0 && w.shortfall == 0 && w.refusal == ASHLAR_OK);
    w = ashlar_walk(row, 269);
    check("ashlar_walk: 1, at and shortfall", w.count == 0 && w.at == 267 && w.shortfall == 1 && w.refusal == ASHLAR_TOO_FEW_BYTES);
    refusals |= 1u << w.refusal;
    w = ashlar_walk(row, 272);
    check("ashlar_walk: 2, at and shortfall", w.count == 0 && w.at == 267 && w.shortfall == 7 && w.refusal == ASHLAR_RUNS_PAST_END);
    refusals |= 1u << w.refusal;
    bool good = true;
    for (size_t size = 1; size <= sizeof row; size++) good &= waits(size);
    check("ashlar_walk: as many bytes more as are missing, and not fewer", good);

    memset(list, 0xEE, sizeof list);
    w = ashlar_walk_into(list, 2, row, 267);
    check("ashlar_walk_into: 14, at and no shortfall", w.count == 0 && w.at == 8 && w.shortfall == 0 && w.refusal == ASHLAR_LIST_TOO_SHORT);
    check("ashlar_walk_into: a refusal leaves the list", list[0].tlv_type == 0xEE && list[1].offset == (size_t)0xEEEEEEEEEEEEEEEE);
    refusals |= 1u << w.refusal;
    w = ashlar_walk_into(list, 2, row, 268);
    check("ashlar_walk_into: 1 before 14", w.at == 267 && w.shortfall == 2 && w.refusal == ASHLAR_TOO_FEW_BYTES);
    w = ashlar_walk_into(list, 2, row, 274);
    check("ashlar_walk_into: 2 before 14", w.at == 267 && w.shortfall == 5 && w.refusal == ASHLAR_RUNS_PAST_END);
    w = ashlar_walk_into(list, 4, row, 267);
    check("ashlar_walk_into: count", w.count == 3 && w.padding == 0 && w.at == 0 && w.shortfall == 0 && w.refusal == ASHLAR_OK);
    check("AshlarTlv: tlv_type", list[0].tlv_type == 0x92 && list[1].tlv_type == 7 && list[2].tlv_type == 0x83 && list[3].tlv_type == 0xEE);
    check("AshlarTlv: length", list[0].length == 2 && list[1].length == 0 && list[2].length == 256 && list[3].length == 0xEEEE);
    check("AshlarTlv: offset", list[0].offset == 0 && list[1].offset == 5 && list[2].offset == 8 && list[3].offset == (size_t)0xEEEEEEEEEEEEEEEE);

    static const uint8_t small[9] = {1, 0, 0, 1, 0, 0, 1, 0, 0};
    AshlarTlv most[ASHLAR_TLVS(9)];
    w = ashlar_walk_into(most, ASHLAR_TLVS(9), small, 9);
    check("ASHLAR_TLVS: as many as a payload can have", w.count == ASHLAR_TLVS(9) && w.refusal == ASHLAR_OK);
}

/* a TLV of type 0 with a length, one of type 1, the end marker, and nine bytes of padding: a role that would read, and
   then no TLV */
static const uint8_t padded[20] = {0, 0, 1, 9, 1, 0, 1, 5, 0, 0, 0, 13, 0, 1, 0, 0xFF, 0xFF, 0xFF, 1, 0};

static void paddings(void) {
    AshlarTlv list[3];
    bool good = true;
    for (size_t size = 11; size <= sizeof padded; size++) {
        AshlarWalk w = ashlar_walk(padded, size);
        good &= w.count == 3 && w.padding == size - 11 && w.at == 0 && w.shortfall == 0 && w.refusal == ASHLAR_OK;
    }
    check("ashlar_walk: the marker is counted, and what follows it is padding", good);
    memset(list, 0xEE, sizeof list);
    AshlarWalk w = ashlar_walk_into(list, 3, padded, sizeof padded);
    check("ashlar_walk_into: a list that has room up to the marker, and the padding", w.count == 3 && w.padding == 9 && w.refusal == ASHLAR_OK);
    check("ashlar_walk_into: the marker is listed last", list[0].tlv_type == 0 && list[0].length == 1 && list[2].tlv_type == 0 && list[2].length == 0 && list[2].offset == 8);
    AshlarTlv one[1];
    w = ashlar_walk_into(one, 1, padded + 8, sizeof padded - 8);
    check("ashlar_walk_into: a list of one element and a marker", w.count == 1 && w.padding == 9 && w.refusal == ASHLAR_OK && one[0].tlv_type == 0 && one[0].offset == 0);
    w = ashlar_walk_into(list, 2, padded, sizeof padded);
    check("ashlar_walk_into: 14 for the marker, and no padding", w.count == 0 && w.padding == 0 && w.at == 8 && w.refusal == ASHLAR_LIST_TOO_SHORT);
    check("ashlar_find: a kind that stands only in the padding is not found", ashlar_find(list, 3, padded, sizeof padded, ASHLAR_SEARCHED_ROLE, 0).refusal == ASHLAR_NOT_FOUND);
    w = ashlar_walk(padded, 10);
    check("ashlar_walk: a marker that is cut", w.count == 0 && w.padding == 0 && w.at == 8 && w.shortfall == 1 && w.refusal == ASHLAR_TOO_FEW_BYTES);
}

/* ---- Reading and finding ---- */

/* a value of each kind, one entry at each level of a list, and what is answered where its last byte lacks: of a text,
   half of its last character is left */
static const struct {
    const char *name;
    uint8_t code, cut;
    bool is_list;
    size_t entries, size;
    uint8_t value[192];
} kinds[] = {
    {"END_OF_MESSAGE", ASHLAR_END_OF_MESSAGE, 0, false, 0, 0, {0}},
    {"AL_MAC_ADDRESS", ASHLAR_AL_MAC_ADDRESS, 3, false, 0, 6, {0}},
    {"MAC_ADDRESS", ASHLAR_MAC_ADDRESS, 3, false, 0, 6, {0}},
    {"DEVICE_BRIDGING_CAPABILITY", ASHLAR_DEVICE_BRIDGING_CAPABILITY, 3, true, 1, 8, {1, 1}},
    {"NON_1905_NEIGHBOR_DEVICES", ASHLAR_NON_1905_NEIGHBOR_DEVICES, 4, true, 1, 12, {0}},
    {"1905_NEIGHBOR_DEVICE", ASHLAR_1905_NEIGHBOR_DEVICE, 4, true, 1, 13, {0}},
    {"LINK_METRIC_QUERY", ASHLAR_LINK_METRIC_QUERY, 3, false, 0, 8, {1}},
    {"LINK_METRIC_TX", ASHLAR_LINK_METRIC_TX, 4, true, 1, 41, {0}},
    {"LINK_METRIC_RX", ASHLAR_LINK_METRIC_RX, 4, true, 1, 35, {0}},
    {"LINK_METRIC_RESULT_CODE", ASHLAR_LINK_METRIC_RESULT_CODE, 3, false, 0, 1, {9}},
    {"SEARCHED_ROLE", ASHLAR_SEARCHED_ROLE, 3, false, 0, 1, {0}},
    {"SUPPORTED_ROLE", ASHLAR_SUPPORTED_ROLE, 3, false, 0, 1, {0}},
    {"SUPPORTED_FREQ_BAND", ASHLAR_SUPPORTED_FREQ_BAND, 3, false, 0, 1, {9}},
    {"DEVICE_IDENTIFICATION_TYPE", ASHLAR_DEVICE_IDENTIFICATION_TYPE, 3, true, 0, 192, {'a', 0, 0xFF}},
    {"CONTROL_URL", ASHLAR_CONTROL_URL, 18, true, 0, 2, {0xC3, 0xA9}},
    {"IPV4", ASHLAR_IPV4, 3, true, 1, 17, {1, [7] = 1}},
    {"IPV6", ASHLAR_IPV6, 3, true, 1, 57, {1, [23] = 1}},
    {"PROFILE_VERSION", ASHLAR_PROFILE_VERSION, 3, false, 0, 1, {9}},
    {"SUPPORTED_SERVICE", ASHLAR_SUPPORTED_SERVICE, 3, true, 1, 2, {1}},
    {"AP_OPERATIONAL_BSS", ASHLAR_AP_OPERATIONAL_BSS, 3, true, 1, 16, {1, [7] = 1, [14] = 1}},
    {"CLIENT_ASSOCIATION", ASHLAR_CLIENT_ASSOCIATION, 3, false, 0, 13, {[12] = 0x80}},
    {"MULTI_AP_PROFILE", ASHLAR_MULTI_AP_PROFILE, 3, false, 0, 1, {9}},
    {"PROFILE_2_AP_CAPABILITY", ASHLAR_PROFILE_2_AP_CAPABILITY, 3, false, 0, 4, {0}},
    {"BSS_CONFIGURATION_REPORT", ASHLAR_BSS_CONFIGURATION_REPORT, 3, true, 1, 18, {1, [7] = 1, [16] = 1}},
    {"DEVICE_INVENTORY", ASHLAR_DEVICE_INVENTORY, 3, true, 1, 12, {[3] = 1, [10] = 1, 'a'}},
};

/* the TLV of an L2NeighborDevice (30), which is no kind: an interface, a neighbour, an address that it reaches */
static const uint8_t beyond[26] = {30, 0, 23, 1, [11] = 1, [19] = 1};

static uint8_t refusal_of(uint8_t code, const char *value, size_t size) {
    AshlarKind k = ashlar_read_kind(code, (const uint8_t *)value, size);
    refusals |= 1u << k.refusal;
    return k.entries || k.consumed || k.rest || k.is_list ? 255 : k.refusal;
}

static void reads(void) {
    char name[64];
    for (size_t i = 0; i < sizeof kinds / sizeof *kinds; i++) {
        size_t size = kinds[i].size;
        AshlarKind k = ashlar_read_kind(kinds[i].code, kinds[i].value, size);
        bool good = k.refusal == ASHLAR_OK && k.consumed == size && k.rest == 0 && k.is_list == kinds[i].is_list && k.entries == kinds[i].entries;
        if (size) good &= ashlar_read_kind(kinds[i].code, kinds[i].value, size - 1).refusal == kinds[i].cut;
        snprintf(name, sizeof name, "AshlarCode: %s", kinds[i].name);
        check(name, good);
    }
    AshlarKind k = ashlar_read_kind(ASHLAR_MAC_ADDRESS, row, 8);
    check("AshlarKind of a record with a rest", k.entries == 0 && k.consumed == 6 && k.rest == 2 && !k.is_list && k.refusal == ASHLAR_OK);
    k = ashlar_read_kind(ASHLAR_SUPPORTED_SERVICE, (const uint8_t *)"\3abcde", 6);
    check("AshlarKind of a list with a rest", k.entries == 3 && k.consumed == 4 && k.rest == 2 && k.is_list && k.refusal == ASHLAR_OK);
    check("ashlar_read_kind: 3", refusal_of(ASHLAR_SUPPORTED_SERVICE, "\5abcde", 5) == ASHLAR_CUT_SHORT);
    check("ashlar_read_kind: 4", refusal_of(ASHLAR_END_OF_MESSAGE, "a", 1) == ASHLAR_LEFT_OVER);
    check("ashlar_read_kind: 5", refusal_of(ASHLAR_MULTI_AP_PROFILE, "\0", 1) == ASHLAR_BAD_VALUE);
    check("ashlar_read_kind: 16", refusal_of(30, (const char *)beyond + 3, 23) == ASHLAR_UNKNOWN_KIND);
    check("ashlar_read_kind: 18", refusal_of(ASHLAR_CONTROL_URL, "ab\xC0\x80", 4) == ASHLAR_NOT_TEXT);
    check("ashlar_read_kind: 3 before 18", refusal_of(ASHLAR_DEVICE_INVENTORY, "\1\xFF\0\1", 4) == ASHLAR_CUT_SHORT);
}

/* ---- Texts ---- */

/* the texts "Schloß", "" and "m", two radios with the texts "5 GHz" and "", and two bytes after them */
static const uint8_t device[] = "\7Schlo\xC3\x9F" "\0" "\1m" "\2" "\x02\x11\x22\x33\x44\x55" "\5" "5 GHz" "\x06\xAA\xBB\xCC\xDD\xEE" "\0" "\xFF";

static bool lies(AshlarPart p, size_t start, size_t length) { return p.start == start && p.length == length && p.refusal == ASHLAR_OK; }

static bool no_part(AshlarPart p, uint8_t refusal) {
    refusals |= 1u << p.refusal;
    return p.start == 0 && p.length == 0 && p.refusal == refusal;
}

static void texts(void) {
    size_t size = sizeof device;
    AshlarKind k = ashlar_read_kind(ASHLAR_DEVICE_INVENTORY, device, size);
    check("AshlarKind of an inventory: its radios are its entries", k.is_list && k.entries == 2 && k.consumed == 31 && k.rest == 2 && k.refusal == ASHLAR_OK);
    check("ashlar_text: each text of an inventory", lies(ashlar_text(ASHLAR_DEVICE_INVENTORY, 0, device, size), 1, 7) &&
          lies(ashlar_text(ASHLAR_DEVICE_INVENTORY, 1, device, size), 9, 0) && lies(ashlar_text(ASHLAR_DEVICE_INVENTORY, 2, device, size), 10, 1));
    check("ashlar_radio: its id and its string", lies(ashlar_radio(0, device, size), 12, 12) && lies(ashlar_radio(1, device, size), 24, 7));
    check("ashlar_radio_text: its text", lies(ashlar_radio_text(0, device, size), 19, 5) && lies(ashlar_radio_text(1, device, size), 31, 0));
    check("ashlar_text: 6", no_part(ashlar_text(ASHLAR_DEVICE_INVENTORY, 3, device, size), ASHLAR_NO_ENTRY) && no_part(ashlar_text(ASHLAR_CONTROL_URL, 1, device, 9), ASHLAR_NO_ENTRY));
    check("ashlar_radio: 6", no_part(ashlar_radio(2, device, size), ASHLAR_NO_ENTRY) && no_part(ashlar_radio_text(2, device, size), ASHLAR_NO_ENTRY));
    check("ashlar_text: 3 before 6", no_part(ashlar_text(ASHLAR_DEVICE_INVENTORY, 3, device, 30), ASHLAR_CUT_SHORT));
    check("ashlar_radio: 3", no_part(ashlar_radio(0, device, 30), ASHLAR_CUT_SHORT) && no_part(ashlar_radio_text(0, device, 30), ASHLAR_CUT_SHORT));
    check("ashlar_text: 6 where a kind holds no text", no_part(ashlar_text(ASHLAR_MAC_ADDRESS, 0, device, 6), ASHLAR_NO_ENTRY) && no_part(ashlar_text(ASHLAR_SUPPORTED_SERVICE, 0, device + 8, 1), ASHLAR_NO_ENTRY));
    check("ashlar_text: its value's own refusal before 6", no_part(ashlar_text(ASHLAR_MAC_ADDRESS, 0, device, 5), ASHLAR_CUT_SHORT) && no_part(ashlar_text(ASHLAR_END_OF_MESSAGE, 0, device, 1), ASHLAR_LEFT_OVER));
    check("ashlar_text: 16, a code that no kind has", no_part(ashlar_text(30, 0, beyond + 3, 23), ASHLAR_UNKNOWN_KIND));

    uint8_t fields[192] = "name";
    memset(fields + 64, 'x', 64);
    fields[4 + 1] = fields[191] = 0xFF;
    check("ashlar_text: up to the first zero byte of a field, all 64 without one, and none of a field of zeros", lies(ashlar_text(ASHLAR_DEVICE_IDENTIFICATION_TYPE, 0, fields, 192), 0, 4) &&
          lies(ashlar_text(ASHLAR_DEVICE_IDENTIFICATION_TYPE, 1, fields, 192), 64, 64) && lies(ashlar_text(ASHLAR_DEVICE_IDENTIFICATION_TYPE, 2, fields, 192), 128, 0));
    check("ashlar_text: a zero byte ends no URL", lies(ashlar_text(ASHLAR_CONTROL_URL, 0, (const uint8_t *)"a\0b", 3), 0, 3));
    fields[127] = 0xC3;
    check("ashlar_text: 18, a character that its field cuts", no_part(ashlar_text(ASHLAR_DEVICE_IDENTIFICATION_TYPE, 0, fields, 192), ASHLAR_NOT_TEXT));
    uint8_t spoilt[sizeof device];
    memcpy(spoilt, device, sizeof device);
    spoilt[20] = 0xED;
    check("ashlar_radio: 18, of another radio's text", no_part(ashlar_radio(1, spoilt, size), ASHLAR_NOT_TEXT) && no_part(ashlar_radio_text(1, spoilt, size), ASHLAR_NOT_TEXT));
    check("ashlar_text: 18, of a radio's text", no_part(ashlar_text(ASHLAR_DEVICE_INVENTORY, 0, spoilt, size), ASHLAR_NOT_TEXT));
}

static void finds(void) {
    /* roles: 1 does not read, 0 does; kind 1 at two places, so that a code and a place that are mixed up show */
    static const uint8_t roles[] = {13, 0, 1, 1, 13, 0, 1, 0, 1, 0, 6, 1, 2, 3, 4, 5, 6, 2, 0, 6, 1, 2, 3, 4, 5, 6, 13, 0, 1, 0};
    AshlarTlv list[ASHLAR_TLVS(sizeof roles)];
    size_t n = ashlar_walk_into(list, ASHLAR_TLVS(sizeof roles), roles, sizeof roles).count;
    AshlarFound f = ashlar_find(list, n, roles, sizeof roles, ASHLAR_SEARCHED_ROLE, 0);
    check("ashlar_find: looked", n == 5 && f.looked == 2 && f.refusal == ASHLAR_OK);
    f = ashlar_find(list, n, roles, sizeof roles, ASHLAR_SEARCHED_ROLE, 2);
    check("ashlar_find: from", f.looked == 5 && f.refusal == ASHLAR_OK);
    f = ashlar_find(list, n, roles, sizeof roles, 2, 1);
    check("ashlar_find: the code comes before from", f.looked == 4 && f.refusal == ASHLAR_OK);
    f = ashlar_find(list, n, roles, sizeof roles - 1, ASHLAR_SEARCHED_ROLE, 2);
    check("ashlar_find: 15", f.looked == 5 && f.refusal == ASHLAR_NOT_FOUND);
    refusals |= 1u << f.refusal;
    f = ashlar_find(list, 2, roles, sizeof roles, 1, 0);
    check("ashlar_find: the list's length", f.looked == 2 && f.refusal == ASHLAR_NOT_FOUND);
    n = ashlar_walk_into(list, 1, beyond, sizeof beyond).count;
    f = ashlar_find(list, n, beyond, sizeof beyond, 30, 0);
    check("ashlar_find: 16", n == 1 && list[0].tlv_type == 30 && list[0].length == 23 && f.looked == 0 && f.refusal == ASHLAR_UNKNOWN_KIND);
    refusals |= 1u << f.refusal;
}

/* ---- The table ---- */

static AshlarTable table;

static AshlarArrival piece(uint64_t key, uint8_t number, bool last) { return (AshlarArrival){.key = key, .time = 5000, .fragment = {.message_type = 0x1234, .version = 0x56, .number = number, .last = last}}; }

/* the key of a sender and a message id */
static uint64_t of(uint64_t sender, uint64_t id) { return sender * 65536 + id; }

static AshlarPushed pushed(AshlarArrival a, size_t size) {
    AshlarPushed p = ashlar_push(&table, store, sizeof store, out, sizeof out, a, payload, size);
    answers |= 1u << p.answer;
    refusals |= 1u << p.refusal;
    return p;
}

static bool answered(AshlarPushed p, uint8_t answer, size_t length) { return p.answer == answer && p.length == length && p.refusal == ASHLAR_OK; }

/* a refusal is answered so, and leaves the table as it was (rule A3) */
static void refused(const char *name, AshlarArrival a, size_t store_size, size_t out_size, size_t size, uint8_t refusal, size_t length) {
    AshlarTable before = table;
    AshlarPushed p = ashlar_push(&table, store, store_size, out, out_size, a, payload, size);
    answers |= 1u << p.answer;
    refusals |= 1u << p.refusal;
    check(name, p.refusal == refusal && p.answer == ASHLAR_REFUSED && p.length == length && !memcmp(&before, &table, sizeof table));
}

static void fields(void) {
    static const AshlarTable nothing;
    table = ashlar_fresh();
    check("ASHLAR_TABLE, ashlar_fresh: all its bytes are 0", sizeof table == ASHLAR_TABLE && !memcmp(&table, &nothing, sizeof table));
    check("AshlarAnswer: waiting", answered(pushed(piece(0x1122334455667788, 7, false), 10), ASHLAR_WAITING, 0));
    AshlarArrival other = {.key = 99, .time = 6000, .fragment = {.message_type = 0x4321, .version = 0x65, .number = 8}};
    check("AshlarAnswer: waiting, another key", answered(pushed(other, 20), ASHLAR_WAITING, 0));
    check("AshlarTable: row_keys, AshlarArrival: key", table.row_keys[0] == 0x1122334455667788 && table.row_keys[1] == 99);
    check("AshlarTable: firsts, AshlarArrival: time", table.firsts[0] == 5000 && table.firsts[1] == 6000);
    check("AshlarTable: message_types, AshlarFragment: message_type", table.message_types[0] == 0x1234 && table.message_types[1] == 0x4321);
    check("AshlarTable: sizes", table.sizes[0] == 10 && table.sizes[1] == 20);
    check("AshlarTable: owners", table.owners[0] == 1 && table.owners[1] == 2 && table.owners[2] == 0);
    check("AshlarTable: numbers, AshlarFragment: number", table.numbers[0] == 7 && table.numbers[1] == 8);
    check("AshlarTable: versions, AshlarFragment: version", table.versions[0] == 0x56 && table.versions[1] == 0x65);
    check("AshlarTable: used", table.used[0] && table.used[1] && !table.used[2]);
    pushed(piece(100, 0, false), 1), pushed(piece(99, 9, false), 1);
    check("AshlarTable: sender_keys", table.sender_keys[0] == 1 && table.sender_keys[1] == 2 && table.sender_keys[2] == 0);
    check("AshlarTable: sender_places", table.sender_places[0] == 1 && table.sender_places[1] == 3 && table.sender_places[2] == 0);
    check("ASHLAR_PAYLOAD: a place in the store", !memcmp(store, payload, 10) && store[10] == 0 && !memcmp(store + ASHLAR_PAYLOAD, payload, 20));
}

/* a duplicate differs from the kept fragment in all but its key and number, and no byte of the table, the store or the
   output changes (rule T5) */
static void duplicates(void) {
    static uint8_t stored[sizeof store], lent[sizeof out];
    AshlarTable before = table;
    for (size_t i = 0; i < sizeof out; i++) out[i] = (uint8_t)(i * 7);
    memcpy(stored, store, sizeof store), memcpy(lent, out, sizeof out);
    for (size_t size = 0; size <= ASHLAR_PAYLOAD; size += size ? ASHLAR_PAYLOAD - 1 : 1) {
        AshlarArrival a = {.key = 99, .time = 7000, .fragment = {.message_type = 0x5678, .version = 0x78, .number = 8, .last = size == 1}};
        check("AshlarAnswer: duplicated", answered(pushed(a, size), ASHLAR_DUPLICATED, 0));
        check("ASHLAR_DUPLICATED: the table stays", !memcmp(&before, &table, sizeof table));
        check("ASHLAR_DUPLICATED: the store stays", !memcmp(stored, store, sizeof store));
        check("ASHLAR_DUPLICATED: the output stays", !memcmp(lent, out, sizeof out));
    }
    memset(out, 0, sizeof out);
    refused("ASHLAR_DUPLICATED: 12 comes before it", piece(99, 8, false), sizeof store, sizeof out, ASHLAR_PAYLOAD + 1, ASHLAR_PAYLOAD_TOO_LONG, 0);
    refused("ASHLAR_DUPLICATED: 11 comes before it", piece(99, 8, false), sizeof store - 1, sizeof out, 1, ASHLAR_STORE_TOO_SMALL, 0);
}

static void pushes(void) {
    table = ashlar_fresh();
    pushed(piece(1, 0, false), 5);
    AshlarArrival a = piece(1, 1, true);
    a.fragment.version = 1;
    check("AshlarAnswer: inconsistent", answered(pushed(a, 5), ASHLAR_INCONSISTENT, 0));
    check("AshlarAnswer: missing", answered(pushed(piece(1, 1, true), 5), ASHLAR_MISSING, 0));
    pushed(piece(1, 1, false), 5);
    check("AshlarAnswer: missing the last", answered(pushed(piece(1, 0, true), 5), ASHLAR_MISSING_LAST, 0));

    AshlarPushed p = pushed(piece(1, 0, true), 11);
    AshlarShown s = ashlar_show(p, payload, 11, out, sizeof out);
    check("AshlarAnswer: single, and its length", answered(p, ASHLAR_SINGLE, 11) && out[0] == 0);
    check("AshlarShown of a single", s.length == 11 && !s.in_output);
    pushed(piece(1, 0, false), 5);
    refused("AshlarPushed: 13, and the length that it wants", piece(1, 1, true), sizeof store, 11, 7, ASHLAR_OUTPUT_TOO_SMALL, 12);
    p = pushed(piece(1, 1, true), 7);
    s = ashlar_show(p, payload, 7, out, sizeof out);
    check("AshlarAnswer: joined, and its length", answered(p, ASHLAR_JOINED, 12) && !memcmp(out, payload, 5) && !memcmp(out + 5, payload, 7) && out[12] == 0);
    check("AshlarShown of a joined one", s.length == 12 && s.in_output);
    s = ashlar_show((AshlarPushed){.length = 5, .answer = ASHLAR_SINGLE}, payload, 5, out, 4);
    AshlarShown t = ashlar_show((AshlarPushed){.length = 5, .answer = ASHLAR_JOINED}, payload, 4, out, 5);
    check("ashlar_show: the payload comes before the output", s.length == 5 && !s.in_output && t.length == 5 && t.in_output);
    s = ashlar_show((AshlarPushed){.length = 5, .answer = ASHLAR_SINGLE}, payload, 4, out, 5);
    t = ashlar_show((AshlarPushed){.length = 5, .answer = ASHLAR_JOINED}, payload, 5, out, 4);
    check("ashlar_show: nothing of a slice that is too short", s.length == 0 && !s.in_output && t.length == 0 && t.in_output);
}

static void limits(void) {
    table = ashlar_fresh();
    refused("ASHLAR_STORE: 11 with a byte less", piece(1, 0, false), ASHLAR_STORE - 1, sizeof out, 5, ASHLAR_STORE_TOO_SMALL, 0);
    refused("ASHLAR_PAYLOAD: 12 with a byte more", piece(1, 0, false), sizeof store, sizeof out, ASHLAR_PAYLOAD + 1, ASHLAR_PAYLOAD_TOO_LONG, 0);
    for (uint64_t n = 0; n < ASHLAR_KEYS; n++) pushed(piece(of(n / ASHLAR_SENDER_KEYS, n), 0, false), 5);
    refused("ASHLAR_SENDER_KEYS: 20 with one more, before 10", piece(of(0, ASHLAR_KEYS), 0, false), sizeof store, sizeof out, 5, ASHLAR_SENDER_FULL, 0);
    refused("ASHLAR_KEYS: 10 with one more", piece(of(ASHLAR_KEYS, 0), 0, false), sizeof store, sizeof out, 5, ASHLAR_TABLE_FULL, 0);
    table = ashlar_fresh();
    for (int n = 0; n < ASHLAR_PLACES; n++) pushed(piece(of((uint64_t)n / ASHLAR_SENDER_PLACES, 1), (uint8_t)(n % ASHLAR_SENDER_PLACES), false), ASHLAR_PAYLOAD);
    refused("ASHLAR_SENDER_PLACES: 20 with one more, before 10", piece(of(0, 1), ASHLAR_SENDER_PLACES, false), sizeof store, sizeof out, 5, ASHLAR_SENDER_FULL, 0);
    refused("ASHLAR_PLACES: 10 with one more", piece(of(ASHLAR_PLACES, 1), 0, false), sizeof store, sizeof out, 5, ASHLAR_TABLE_FULL, 0);
    check("ASHLAR_MESSAGE: the longest that can be joined", answered(pushed(piece(of(0, 1), ASHLAR_SENDER_PLACES, true), ASHLAR_PAYLOAD), ASHLAR_JOINED, ASHLAR_MESSAGE));
}

/* sixteen keys are due, or none; a key that holds nothing, which no call leaves, is dropped and counted like others */
static void sweeps(void) {
    table = ashlar_fresh();
    for (uint64_t n = 0; n + 1 < ASHLAR_KEYS; n++) pushed(piece(of(n, 0), 0, false), 5), pushed(piece(of(n, 0), 1, false), 5);
    table.used[ASHLAR_KEYS - 1] = true, table.firsts[ASHLAR_KEYS - 1] = 5000;
    AshlarTable before = table;
    check("ASHLAR_OLD: none a millisecond before", ashlar_sweep(&table, 5000 + ASHLAR_OLD - 1) == 0 && !memcmp(&before, &table, sizeof table));
    check("ashlar_sweep: none where the clock went back", ashlar_sweep(&table, 0) == 0 && !memcmp(&before, &table, sizeof table));
    check("ashlar_sweep: how many keys", ashlar_sweep(&table, 5000 + ASHLAR_OLD) == ASHLAR_KEYS);
    before = ashlar_fresh();
    check("ashlar_sweep: what is dropped leaves nothing", !memcmp(&before, &table, sizeof table));
    check("ashlar_sweep: nothing is left to drop", ashlar_sweep(&table, UINT64_MAX) == 0);
}

/* ---- Cutting ---- */

static uint8_t message[ASHLAR_MESSAGE + 4];
static size_t ends[ASHLAR_FRAGMENTS + 1];

/* a TLV of so many bytes at this place of the message, and where it ends */
static size_t tlv(size_t at, size_t size) {
    memset(message + at, (int)(at / 256 + 1), size);
    message[at + 1] = (uint8_t)((size - 3) >> 8), message[at + 2] = (uint8_t)(size - 3);
    return at + size;
}

static size_t marker(size_t at) { return memset(message + at, 0, 3), at + 3; }

/* a refusal is answered so, and leaves the list as it was (rule A3) */
static void uncut(const char *name, size_t size, size_t room, uint8_t refusal, size_t at, size_t shortfall) {
    size_t before[ASHLAR_FRAGMENTS + 1];
    memset(ends, 0xEE, sizeof ends), memcpy(before, ends, sizeof ends);
    AshlarCutting c = ashlar_cut(message, size, ends, room);
    refusals |= 1u << c.refusal;
    check(name, c.refusal == refusal && c.count == 0 && c.at == at && c.shortfall == shortfall && !memcmp(before, ends, sizeof ends));
}

/* cut into so many fragments, of which the last but one, and the last, end here */
static bool is_cut(size_t size, size_t count, size_t end, size_t last) {
    memset(ends, 0xEE, sizeof ends);
    AshlarCutting c = ashlar_cut(message, size, ends, count);
    bool good = c.refusal == ASHLAR_OK && c.count == count && c.at == 0 && c.shortfall == 0;
    return good && (count == 1 || ends[count - 2] == end) && ends[count - 1] == last && ends[count] == (size_t)0xEEEEEEEEEEEEEEEE;
}

static void cuts(void) {
    size_t n = tlv(tlv(tlv(0, 1000), 1000), 492);
    check("ashlar_cut: 1,492 bytes in a fragment, and the list after the ends stays", is_cut(n, 2, 1000, 2492) && ends[0] == 1000);
    n = tlv(2000, 493);
    check("ashlar_cut: 1,493 bytes in two", is_cut(n, 3, 2000, 2493) && ends[0] == 1000);
    uncut("ashlar_cut: 7 with a place less", n, 2, ASHLAR_NO_ROOM, 0, 0);
    uncut("AshlarCutting: 1, at and shortfall", n + 1, 10, ASHLAR_TOO_FEW_BYTES, 2493, 2);
    uncut("AshlarCutting: 2, at and shortfall", n - 90, 10, ASHLAR_RUNS_PAST_END, 2000, 90);
    n = marker(n);
    check("ashlar_cut: the marker is among the TLVs", is_cut(n, 3, 2000, 2496));
    uncut("ashlar_cut: 4, a byte after the marker, before 7", n + 1, 0, ASHLAR_LEFT_OVER, 0, 0);
    check("ashlar_cut: a marker alone", (marker(0), is_cut(3, 1, 0, 3)));
    check("ashlar_cut: the empty message has one end, 0", is_cut(0, 1, 0, 0));
    uncut("ashlar_cut: the empty message needs a place", 0, 0, ASHLAR_NO_ROOM, 0, 0);
    n = tlv(tlv(0, 1493), 20);
    uncut("ashlar_cut: 21, a TLV of 1,493 bytes, before 7", n, 0, ASHLAR_NO_CUTTING, 0, 0);
    uncut("ashlar_cut: 2 before 21", n - 1, 0, ASHLAR_RUNS_PAST_END, 1493, 1);
    uncut("ashlar_cut: 4 before 21", marker(n) + 1, 0, ASHLAR_LEFT_OVER, 0, 0);
    for (n = 0; n < ASHLAR_MESSAGE;) n = tlv(n, ASHLAR_PAYLOAD);
    check("ASHLAR_FRAGMENTS: so many full ones, ASHLAR_MESSAGE bytes", is_cut(n, ASHLAR_FRAGMENTS, ASHLAR_MESSAGE - ASHLAR_PAYLOAD, ASHLAR_MESSAGE));
    uncut("ashlar_cut: 21, nine full ones and a marker", marker(n), ASHLAR_FRAGMENTS + 1, ASHLAR_NO_CUTTING, 0, 0);
}

/* a message in nine fragments, made of the ends as the header says, and one more */
static AshlarProposed fragments[ASHLAR_FRAGMENTS + 1];

static size_t fragments_of(size_t size) {
    size_t count = ashlar_cut(message, size, ends, ASHLAR_FRAGMENTS).count;
    for (size_t i = 0; i < count; i++) {
        size_t start = i ? ends[i - 1] : 0;
        fragments[i] = (AshlarProposed){.version = 1, .message_type = 0x8001, .message_id = 0x1234, .number = (uint8_t)i, .last = i + 1 == count, .start = start, .length = ends[i] - start};
    }
    return count;
}

static bool is_accepted(size_t size, size_t count) {
    AshlarChecked c = ashlar_check(message, size, fragments, count, message, sizeof message);
    return c.accepted && c.refusal == ASHLAR_OK && c.at == 0 && c.shortfall == 0;
}

/* with this fragment in the place i the others are not accepted any more */
static void unaccepted(const char *name, size_t size, size_t count, size_t i, AshlarProposed other) {
    AshlarProposed right = fragments[i];
    fragments[i] = other;
    AshlarChecked c = ashlar_check(message, size, fragments, count, message, sizeof message);
    fragments[i] = right;
    check(name, !c.accepted && c.refusal == ASHLAR_OK && c.at == 0 && c.shortfall == 0 && is_accepted(size, count));
}

static void unchecked(const char *name, size_t size, size_t count, uint8_t refusal, size_t at, size_t shortfall) {
    AshlarChecked c = ashlar_check(message, size, fragments, count, message, sizeof message);
    refusals |= 1u << c.refusal;
    check(name, c.refusal == refusal && !c.accepted && c.at == at && c.shortfall == shortfall);
}

static void proposals(void) {
    size_t n = 0;
    for (size_t i = 0; i < 2 * ASHLAR_FRAGMENTS; i++) n = tlv(n, ASHLAR_PAYLOAD / 2);
    size_t count = fragments_of(n);
    check("AshlarProposed: its size", sizeof(AshlarProposed) == 24);
    check("ashlar_check: what ashlar_cut made is accepted", count == ASHLAR_FRAGMENTS && is_accepted(n, count));
    AshlarProposed f = fragments[3], last = fragments[8];
    unaccepted("AshlarProposed: version", n, count, 3, (f.version = 2, f));
    f = fragments[3], unaccepted("AshlarProposed: message_type", n, count, 3, (f.message_type = 0x8002, f));
    f = fragments[3], unaccepted("AshlarProposed: message_id", n, count, 3, (f.message_id = 0x1235, f));
    f = fragments[3], unaccepted("AshlarProposed: number", n, count, 3, (f.number = 4, f));
    f = fragments[3], unaccepted("AshlarProposed: last", n, count, 3, (f.last = true, f));
    f = fragments[3], unaccepted("AshlarProposed: start", n, count, 3, (f.start = 0, f));
    f = fragments[3], unaccepted("AshlarProposed: length", n, count, 3, (f.length /= 2, f));
    f = last, unaccepted("AshlarProposed: a payload that lies outside", n, count, 8, (f.start = sizeof message - f.length + 1, f));
    f = last, unaccepted("AshlarProposed: the final one has to be marked", n, count, 8, (f.last = false, f));
    fragments[9] = last;
    unchecked("ashlar_check: ten are not accepted", n, 10, ASHLAR_OK, 0, 0);
    unchecked("ashlar_check: none is not accepted", n, 0, ASHLAR_OK, 0, 0);

    static uint8_t elsewhere[sizeof message + 1];
    memcpy(elsewhere + 1, message, n);
    for (size_t i = 0; i < count; i++) fragments[i].start++;
    AshlarChecked c = ashlar_check(message, n, fragments, count, elsewhere, n + 1), d = ashlar_check(message, n, fragments, count, elsewhere, n);
    check("ashlar_check: the message comes before the payloads", c.accepted && c.refusal == ASHLAR_OK && !d.accepted && d.refusal == ASHLAR_OK);
    unchecked("AshlarChecked: 1, at and shortfall", n + 2, count, ASHLAR_TOO_FEW_BYTES, n, 1);
    unchecked("AshlarChecked: 2, at and shortfall", n - 5, count, ASHLAR_RUNS_PAST_END, n - ASHLAR_PAYLOAD / 2, 5);
    unchecked("ashlar_check: 4, a byte after the marker", marker(n) + 1, 10, ASHLAR_LEFT_OVER, 0, 0);
    count = fragments_of(0);
    check("ashlar_check: the empty message is one empty fragment", count == 1 && is_accepted(0, 1));
    fragments[1] = fragments[0], fragments[0].last = false, fragments[1].number = 1;
    unchecked("ashlar_check: the empty message is not two", 0, 2, ASHLAR_OK, 0, 0);
}

/* ---- Stations ---- */

static AshlarStations stations;
static const AshlarAddress phone = {{0x02, 0x11, 0x22, 0x33, 0x44, 0x55}}, kitchen = {{0x06, 0xAA, 0xBB, 0xCC, 0xDD, 0xEE}}, attic = {{0x0A, 0x0F, 0x1E, 0x2D, 0x3C, 0x4B}}, none;

static bool same_address(AshlarAddress a, AshlarAddress b) { return !memcmp(&a, &b, sizeof a); }

static bool heard(AshlarHeard h, uint8_t answer, AshlarAddress from) {
    events |= 1u << h.answer;
    refusals |= 1u << h.refusal;
    return h.answer == answer && same_address(h.from, from) && h.refusal == ASHLAR_OK;
}

static bool is_at(AshlarAddress station, AshlarAddress point) {
    AshlarAt a = ashlar_station_at(&stations, station);
    return a.held && same_address(a.point, point);
}

static bool is_nowhere(AshlarAddress station) {
    AshlarAt a = ashlar_station_at(&stations, station);
    return !a.held && same_address(a.point, none);
}

static bool holds(size_t row, AshlarAddress station, AshlarAddress point) {
    AshlarRow r = ashlar_station_row(&stations, row);
    return r.held && same_address(r.station, station) && same_address(r.point, point);
}

static bool is_free(size_t row) {
    AshlarRow r = ashlar_station_row(&stations, row);
    return !r.held && same_address(r.station, none) && same_address(r.point, none);
}

static void moves(void) {
    static const AshlarStations nothing;
    memset(&stations, 0xEE, sizeof stations);
    ashlar_stations_fresh(&stations);
    check("ASHLAR_STATION_TABLE, ashlar_stations_fresh: all its bytes are 0", sizeof stations == ASHLAR_STATION_TABLE && !memcmp(&stations, &nothing, sizeof stations));
    check("AshlarAddress: six bytes", sizeof(AshlarAddress) == 6);
    check("ashlar_station_at: nowhere", is_nowhere(phone));
    check("AshlarEventAnswer: placed", heard(ashlar_station_event(&stations, phone, kitchen, true), ASHLAR_PLACED, none) && is_at(phone, kitchen) && is_nowhere(kitchen));
    check("AshlarStations: stations, points", stations.stations[0] == 0x021122334456 && stations.points[0] == 0x06AABBCCDDEE && stations.stations[1] == 0 && stations.points[1] == 0);
    check("AshlarEventAnswer: the same", heard(ashlar_station_event(&stations, phone, kitchen, true), ASHLAR_SAME, none) && is_at(phone, kitchen));
    check("AshlarEventAnswer: moved, and from where", heard(ashlar_station_event(&stations, phone, attic, true), ASHLAR_MOVED, kitchen) && is_at(phone, attic));
    AshlarStations before = stations;
    check("AshlarEventAnswer: stale, a leave that comes late", heard(ashlar_station_event(&stations, phone, kitchen, false), ASHLAR_STALE, none) && !memcmp(&before, &stations, sizeof stations));
    check("AshlarEventAnswer: stale, a station that is not held", heard(ashlar_station_event(&stations, attic, phone, false), ASHLAR_STALE, none) && !memcmp(&before, &stations, sizeof stations));
    check("AshlarRow: station, point, held", holds(0, phone, attic) && is_free(1) && ashlar_station_count(&stations) == 1);
    check("AshlarEventAnswer: removed", heard(ashlar_station_event(&stations, phone, attic, false), ASHLAR_REMOVED, none) && is_nowhere(phone) && ashlar_station_count(&stations) == 0);
    check("ashlar_station_event: a freed row is as a fresh one", !memcmp(&stations, &nothing, sizeof stations));
    check("AshlarAt, AshlarRow: addresses of zeros are held", heard(ashlar_station_event(&stations, none, none, true), ASHLAR_PLACED, none) && is_at(none, none) && holds(0, none, none) && ashlar_station_count(&stations) == 1);
}

/* a value that joins the phone to the attic, and a byte after it */
static uint8_t association[14] = {0x02, 0x11, 0x22, 0x33, 0x44, 0x55, 0x0A, 0x0F, 0x1E, 0x2D, 0x3C, 0x4B, 0x80, 0x99};

/* a value is refused so, all else is 0, and the table stays */
static void refused_value(const char *name, uint8_t last, size_t size, uint8_t refusal) {
    AshlarStations before = stations;
    association[12] = last;
    AshlarApplied a = ashlar_station_event_from(&stations, association, size);
    association[12] = 0x80;
    events |= 1u << a.heard.answer;
    refusals |= 1u << a.heard.refusal;
    check(name, a.heard.refusal == refusal && a.heard.answer == ASHLAR_REFUSED && same_address(a.heard.from, none) && a.consumed == 0 && a.rest == 0 && !memcmp(&before, &stations, sizeof stations));
}

static void values(void) {
    ashlar_stations_fresh(&stations);
    ashlar_station_event(&stations, phone, kitchen, true);
    AshlarApplied a = ashlar_station_event_from(&stations, association, 14);
    check("AshlarApplied: heard", heard(a.heard, ASHLAR_MOVED, kitchen) && is_at(phone, attic));
    check("AshlarApplied: consumed, rest", a.consumed == 13 && a.rest == 1);
    refused_value("ashlar_station_event_from: 3, a byte too few", 0x80, 12, ASHLAR_CUT_SHORT);
    refused_value("ashlar_station_event_from: 5, bits that have no meaning", 0x81, 13, ASHLAR_BAD_VALUE);
    association[12] = 0;
    a = ashlar_station_event_from(&stations, association, 13);
    association[12] = 0x80;
    check("ashlar_station_event_from: a leave", heard(a.heard, ASHLAR_REMOVED, none) && a.consumed == 13 && a.rest == 0 && is_nowhere(phone));
}

static AshlarAddress station_number(int n) { return (AshlarAddress){{0, 0, 0, 0, (uint8_t)(n >> 8), (uint8_t)n}}; }

static void crowd(void) {
    bool good = true;
    ashlar_stations_fresh(&stations);
    for (int n = 0; n < ASHLAR_STATIONS; n++) good &= heard(ashlar_station_event(&stations, station_number(n), kitchen, true), ASHLAR_PLACED, none) && holds((size_t)n, station_number(n), kitchen);
    check("ASHLAR_STATIONS: so many are held", good && ashlar_station_count(&stations) == ASHLAR_STATIONS);
    check("ashlar_station_row: past the rows there is none", is_free(ASHLAR_STATIONS) && is_free((size_t)-1));
    AshlarStations before = stations;
    AshlarHeard h = ashlar_station_event(&stations, phone, kitchen, true);
    check("ashlar_station_event: 17 with one more", h.refusal == ASHLAR_NO_STATION_ROOM && h.answer == ASHLAR_REFUSED && same_address(h.from, none) && !memcmp(&before, &stations, sizeof stations));
    events |= 1u << h.answer;
    refusals |= 1u << h.refusal;
    refused_value("ashlar_station_event_from: 17 with one more", 0x80, 13, ASHLAR_NO_STATION_ROOM);
    refused_value("ashlar_station_event_from: 3 before 17", 0x80, 12, ASHLAR_CUT_SHORT);
    refused_value("ashlar_station_event_from: 5 before 17", 0x81, 14, ASHLAR_BAD_VALUE);
    check("a full table: one that is held moves", heard(ashlar_station_event(&stations, station_number(127), attic, true), ASHLAR_MOVED, kitchen) && is_at(station_number(127), attic));
    ashlar_station_event(&stations, station_number(77), kitchen, false), ashlar_station_event(&stations, station_number(7), kitchen, false);
    check("a full table: two leave, and the lowest row is used again", heard(ashlar_station_event(&stations, phone, attic, true), ASHLAR_PLACED, none) && holds(7, phone, attic) && is_free(77));
    check("ashlar_station_count: with a free row", ashlar_station_count(&stations) == ASHLAR_STATIONS - 1);
}

/* ---- Link reports ---- */

/* the pairs of link metrics, after two addresses: errors, packets and, for kind 10, a signal strength */
static uint8_t metrics[12 + (ASHLAR_PAIRS + 1) * 29];

static void number_at(uint8_t *at, uint32_t n) {
    for (int i = 0; i < 4; i++) at[i] = (uint8_t)(n >> (24 - 8 * i));
}

static void sent(size_t i, uint32_t errors, uint32_t packets) {
    uint8_t *pair = metrics + 12 + 29 * i;
    memset(pair, 0xEE, 29);
    number_at(pair + 15, errors), number_at(pair + 19, packets);
}

static void received(size_t i, uint32_t errors, uint32_t packets, int8_t signal) {
    uint8_t *pair = metrics + 12 + 23 * i;
    memset(pair, 0xEE, 22);
    number_at(pair + 14, errors), number_at(pair + 18, packets);
    pair[22] = (uint8_t)signal;
}

static bool same_report(AshlarReport a, AshlarReport b) {
    return a.errors == b.errors && a.packets == b.packets && a.sum == b.sum && a.count == b.count && a.kind == b.kind && a.lowest == b.lowest && a.has_lowest == b.has_lowest && a.refusal == b.refusal;
}

static void unreported(const char *name, AshlarReport r, uint8_t refusal) {
    refusals |= 1u << r.refusal;
    check(name, same_report(r, (AshlarReport){.refusal = refusal}));
}

static void link_reports(void) {
    check("AshlarReport: its size", sizeof(AshlarReport) == 32);
    sent(0, 0x01020304, 0xFFFFFFFF), sent(1, 0x10203040, 0xFFFFFFFF);
    AshlarReport r = ashlar_link_report_tx(metrics, 12 + 2 * 29);
    check("AshlarReport: errors, packets", r.errors == 0x11223344 && r.packets == 0x1FFFFFFFE);
    check("AshlarReport: count, kind, refusal", r.count == 2 && r.kind == ASHLAR_LINK_METRIC_TX && r.refusal == ASHLAR_OK);
    check("ashlar_link_report_tx: no signal strength", !r.has_lowest && r.lowest == 0 && r.sum == 0);
    unreported("ashlar_link_report_tx: 3, fewer bytes than two addresses", ashlar_link_report_tx(metrics, 11), ASHLAR_CUT_SHORT);
    unreported("ashlar_link_report_tx: 4, a cut pair", ashlar_link_report_tx(metrics, 12 + 29 + 28), ASHLAR_LEFT_OVER);
    unreported("ashlar_link_report_tx: 19 with a pair more", ashlar_link_report_tx(metrics, sizeof metrics), ASHLAR_NO_REPORT);
    unreported("ashlar_link_report_tx: 4 before 19", ashlar_link_report_tx(metrics, sizeof metrics - 1), ASHLAR_LEFT_OVER);
    check("ASHLAR_PAIRS: so many pairs", ashlar_link_report_tx(metrics, sizeof metrics - 29).count == ASHLAR_PAIRS);

    received(0, 5, 0x01000000, -1), received(1, 6, 0x00020000, -128), received(2, 7, 0x00000300, 127);
    r = ashlar_link_report_rx(metrics, 12 + 3 * 23);
    check("ashlar_link_report_rx: errors, packets, count, kind", r.errors == 18 && r.packets == 0x01020300 && r.count == 3 && r.kind == ASHLAR_LINK_METRIC_RX);
    check("AshlarReport: lowest, has_lowest, sum", r.lowest == -128 && r.has_lowest && r.sum == -2 && r.refusal == ASHLAR_OK);
    unreported("ashlar_link_report_rx: 3, fewer bytes than two addresses", ashlar_link_report_rx(metrics, 11), ASHLAR_CUT_SHORT);
    unreported("ashlar_link_report_rx: 4, a cut pair", ashlar_link_report_rx(metrics, 12 + 23 + 1), ASHLAR_LEFT_OVER);
    unreported("ashlar_link_report_rx: 19 with a pair more", ashlar_link_report_rx(metrics, 12 + (ASHLAR_PAIRS + 1) * 23), ASHLAR_NO_REPORT);
    check("ashlar_link_report_rx: a signal strength of 0 is the lowest", (received(1, 0, 0, 0), received(2, 0, 0, 1), r = ashlar_link_report_rx(metrics + 23, 12 + 2 * 23), r.has_lowest && r.lowest == 0 && r.sum == 1));
    check("ashlar_link_report_rx: without pairs there is no lowest", same_report(ashlar_link_report_rx(metrics, 12), (AshlarReport){.kind = ASHLAR_LINK_METRIC_RX}));
    check("ashlar_link_report_tx: without pairs every total is 0", same_report(ashlar_link_report_tx(metrics, 12), (AshlarReport){.kind = ASHLAR_LINK_METRIC_TX}));
}

/* with one field changed the report is no value's, whichever of the two it is */
static void unmerged(const char *name, AshlarReport r, AshlarReport other) {
    unreported(name, ashlar_link_merge(r, other), ASHLAR_NO_REPORT);
    unreported(name, ashlar_link_merge(other, r), ASHLAR_NO_REPORT);
}

static void merges(void) {
    for (size_t i = 0; i < ASHLAR_PAIRS; i++) received(i, (uint32_t)(i * 77777777), (uint32_t)(i * 99999999), (int8_t)(i * 37));
    AshlarReport whole = ashlar_link_report_rx(metrics, 12 + ASHLAR_PAIRS * 23), none = ashlar_link_report_rx(metrics, 12), x, y, r;
    bool good = true;
    for (size_t first = 0; first <= ASHLAR_PAIRS; first += 64) {
        /* a value needs two addresses in front: the pair before stands in their place */
        x = ashlar_link_report_rx(metrics, 12 + first * 23), y = ashlar_link_report_rx(metrics + first * 23, 12 + (ASHLAR_PAIRS - first) * 23);
        good &= same_report(ashlar_link_merge(x, y), whole) && same_report(ashlar_link_merge(y, x), whole);
    }
    check("ashlar_link_merge: the report over the pairs of both, in either order", good && whole.refusal == ASHLAR_OK && whole.count == ASHLAR_PAIRS);
    check("ashlar_link_merge: with a report without pairs it is the other", same_report(ashlar_link_merge(none, whole), whole) && same_report(ashlar_link_merge(none, none), none));
    x = ashlar_link_report_rx(metrics, 12 + 3 * 23), y = ashlar_link_report_tx(metrics, 12);
    unmerged("ashlar_link_merge: 19, more pairs together", x, whole);
    unmerged("ashlar_link_merge: 19, two kinds", x, y);
    r = (AshlarReport){.refusal = ASHLAR_LEFT_OVER};
    unmerged("ashlar_link_merge: 19, one that was refused", r, x);
    unmerged("ashlar_link_merge: 19, both were refused", r, r);
    r = none, r.kind = 8;
    unmerged("ashlar_link_merge: 19, no kind", r, r);
    unmerged("ashlar_link_merge: 19, a lowest without its flag", (r = none, r.lowest = -1, r), none);
    unmerged("ashlar_link_merge: 19, no lowest", (r = x, r.has_lowest = false, r.lowest = 0, r), none);
    unmerged("ashlar_link_merge: 19, a lowest for kind 9", (r = y, r.has_lowest = true, r), y);
    unmerged("ashlar_link_merge: 19, too many errors", (r = x, r.errors = 3 * 0xFFFFFFFFull + 1, r), none);
    unmerged("ashlar_link_merge: 19, too many packets", (r = x, r.packets = 3 * 0xFFFFFFFFull + 1, r), none);
    unmerged("ashlar_link_merge: 19, a sum that is too low", (r = x, r.sum = 3 * r.lowest - 1, r), none);
    unmerged("ashlar_link_merge: 19, a sum that is too high", (r = x, r.sum = r.lowest + 2 * 127 + 1, r), none);
    r = x, r.errors = r.packets = 3 * 0xFFFFFFFFull, r.sum = r.lowest + 2 * 127, r.refusal = 99;
    AshlarReport most = ashlar_link_merge(none, r);
    check("ashlar_link_merge: the highest totals, and a refusal that isn't looked at", (r.refusal = ASHLAR_OK, same_report(most, r)));
}

/* ---- Captures ---- */

static uint8_t capture[ASHLAR_FILE_HEADER + 3 * (ASHLAR_FRAME + ASHLAR_PAYLOAD)];

static const AshlarArrival arrived = {0x0A0B0C0D0E0F1234, 1700000000123, {0x5678, 0x9A, 0xBC, true}};

/* a file header, and so many frames of the same fragment */
static size_t captured(size_t frames, size_t n) {
    size_t size = ashlar_capture_header(capture, sizeof capture).length;
    for (size_t i = 0; i < frames; i++) size += ashlar_capture_frame(arrived, payload, n, capture + size, sizeof capture - size).length;
    return size;
}

static void unwritten(const char *name, AshlarWritten w, uint8_t refusal) {
    refusals |= 1u << w.refusal;
    check(name, w.length == 0 && w.refusal == refusal && capture[0] == 0xEE && capture[45] == 0xEE);
}

static void written_captures(void) {
    static const uint8_t header[24] = {0xD4, 0xC3, 0xB2, 0xA1, 2, 0, 4, 0, [16] = 0xFF, 0xFF, [20] = 1};
    static const uint8_t frame[45] = {0x00, 0xF1, 0x53, 0x65, 0x78, 0xE0, 0x01, 0x00, 0x1D, 0, 0, 0, 0x1D, 0, 0, 0, 0x01, 0x80, 0xC2, 0, 0, 0x13, 0x0A, 0x0B, 0x0C, 0x0D, 0x0E, 0x0F, 0x89, 0x3A,
                                      0x9A, 0, 0x56, 0x78, 0x12, 0x34, 0xBC, 0x80, 1, 2, 3, 4, 5, 6, 7};
    memset(capture, 0xEE, sizeof capture);
    unwritten("ashlar_capture_header: 7, and the room stays", ashlar_capture_header(capture, ASHLAR_FILE_HEADER - 1), ASHLAR_NO_ROOM);
    unwritten("ashlar_capture_frame: 7, and the room stays", ashlar_capture_frame(arrived, payload, 7, capture, ASHLAR_FRAME + 6), ASHLAR_NO_ROOM);
    AshlarArrival late = arrived;
    late.time = 4294967296000;
    unwritten("ashlar_capture_frame: 23 before 7", ashlar_capture_frame(late, payload, 7, capture, 0), ASHLAR_BAD_FRAME);
    unwritten("ashlar_capture_frame: 12 before 23", ashlar_capture_frame(late, payload, ASHLAR_PAYLOAD + 1, capture, 0), ASHLAR_PAYLOAD_TOO_LONG);
    AshlarWritten w = ashlar_capture_header(capture, sizeof capture);
    check("ashlar_capture_header: 24 bytes, and no other", w.refusal == ASHLAR_OK && w.length == 24 && !memcmp(capture, header, 24) && capture[24] == 0xEE);
    w = ashlar_capture_frame(arrived, payload, 7, capture, sizeof capture);
    check("ashlar_capture_frame: the bytes of a frame, and no other", w.refusal == ASHLAR_OK && w.length == 45 && !memcmp(capture, frame, 45) && capture[45] == 0xEE);
    late.time--;
    w = ashlar_capture_frame(late, payload, ASHLAR_PAYLOAD, capture, ASHLAR_FRAME + ASHLAR_PAYLOAD);
    check("ashlar_capture_frame: the latest time, and the longest payload", w.refusal == ASHLAR_OK && w.length == ASHLAR_FRAME + ASHLAR_PAYLOAD && !memcmp(capture, "\xFF\xFF\xFF\xFF\x58\x3E\x0F", 8));
}

static bool is_pushed(AshlarFrame f, size_t offset) {
    bool times = f.seconds == 1700000000 && f.microseconds == 123000;
    bool sender = !memcmp(f.sender.bytes, "\x0A\x0B\x0C\x0D\x0E\x0F", 6);
    bool fields = f.cmdu.version == 0x9A && f.cmdu.reserved == 0 && f.cmdu.message_type == 0x5678 && f.cmdu.message_id == 0x1234 && f.cmdu.number == 0xBC;
    return times && sender && fields && f.cmdu.flags == 0x80 && f.cmdu.last && f.offset == offset && f.length == 7;
}

static bool is_no_frame(AshlarFrame f) {
    static const AshlarFrame none;
    AshlarCmdu c = f.cmdu;
    return !(f.seconds || f.microseconds || f.offset || f.length || c.version || c.reserved || c.message_type || c.message_id || c.number || c.flags || c.last) && !memcmp(&f.sender, &none.sender, 6);
}

static void refused_capture(const char *name, AshlarCapture c, size_t shortfall, uint8_t refusal) {
    refusals |= 1u << c.refusal;
    check(name, c.frames == 0 && c.others == 0 && c.shortfall == shortfall && c.refusal == refusal);
}

static void read_captures(void) {
    AshlarFrame list[4];
    size_t size = captured(3, 7), second = ASHLAR_FILE_HEADER + 45, third = second + 45;
    capture[second + 28] ^= 1; /* another EtherType */
    AshlarCapture c = ashlar_capture_check(capture, size);
    check("ashlar_capture_check: frames, others", c.frames == 2 && c.others == 1 && c.shortfall == 0 && c.refusal == ASHLAR_OK);
    memset(list, 0xEE, sizeof list);
    c = ashlar_capture_frames(list, 1, capture, size);
    refused_capture("ashlar_capture_frames: 14", c, 0, ASHLAR_LIST_TOO_SHORT);
    check("ashlar_capture_frames: a refusal leaves the list", list[0].seconds == 0xEEEEEEEE && list[0].offset == (size_t)0xEEEEEEEEEEEEEEEE);
    c = ashlar_capture_frames(list, 4, capture, size);
    check("ashlar_capture_frames: frames, others", c.frames == 2 && c.others == 1 && c.shortfall == 0 && c.refusal == ASHLAR_OK);
    check("AshlarFrame: each of its fields", sizeof(AshlarFrame) == 40 && is_pushed(list[0], 24 + 38) && is_pushed(list[1], third + 38));
    check("ashlar_capture_frames: what is past the frames stays", list[2].seconds == 0xEEEEEEEE && list[3].length == (size_t)0xEEEEEEEEEEEEEEEE);
    c = ashlar_capture_frames(list, 2, capture, size);
    check("ashlar_capture_frames: a list of as many elements", c.frames == 2 && c.refusal == ASHLAR_OK);
    refused_capture("ashlar_capture_frames: 2 of the last frame before 14, and its shortfall", ashlar_capture_frames(list, 0, capture, size - 3), 3, ASHLAR_RUNS_PAST_END);
    refused_capture("ashlar_capture_check: 2 of a file header", ashlar_capture_check(capture, 21), 3, ASHLAR_RUNS_PAST_END);
    refused_capture("ashlar_capture_check: 2 of a record header", ashlar_capture_check(capture, third + 11), 5, ASHLAR_RUNS_PAST_END);
    AshlarReached r = ashlar_capture_step(capture, size, ASHLAR_FILE_HEADER);
    check("AshlarReached: a 1905 frame", is_pushed(r.frame, 24 + 38) && r.next == second && r.shortfall == 0 && r.answer == ASHLAR_1905_FRAME && r.refusal == ASHLAR_OK);
    r = ashlar_capture_step(capture, size, second);
    check("AshlarReached: another frame", is_no_frame(r.frame) && r.next == third && r.shortfall == 0 && r.answer == ASHLAR_OTHER_FRAME && r.refusal == ASHLAR_OK);
    r = ashlar_capture_step(capture, size, size);
    check("AshlarReached: the end", is_no_frame(r.frame) && r.next == 0 && r.shortfall == 0 && r.answer == ASHLAR_FILE_END && r.refusal == ASHLAR_OK);
    r = ashlar_capture_step(capture, size - 9, third);
    check("AshlarReached: a refusal, and its shortfall", is_no_frame(r.frame) && r.next == 0 && r.shortfall == 9 && r.answer == ASHLAR_REFUSED && r.refusal == ASHLAR_RUNS_PAST_END);
    AshlarArrival a = ashlar_capture_arrival(list[0]);
    check("ashlar_capture_arrival: key, time", a.key == arrived.key && a.time == arrived.time);
    check("ashlar_capture_arrival: the fragment", a.fragment.message_type == 0x5678 && a.fragment.version == 0x9A && a.fragment.number == 0xBC && a.fragment.last);
    capture[third + 12]++;
    refused_capture("ashlar_capture_check: 23", ashlar_capture_check(capture, size), 0, ASHLAR_BAD_FRAME);
    capture[22] = 1;
    refused_capture("ashlar_capture_check: 22, by the upper half of the link type", ashlar_capture_check(capture, size), 0, ASHLAR_NOT_A_CAPTURE);
}

int main(void) {
    for (size_t i = 0; i < sizeof payload; i++) payload[i] = (uint8_t)(i + 1);
    headings(), written_headings(), walks(), paddings(), reads(), texts(), finds(), fields(), duplicates(), pushes(), limits(), sweeps(), cuts(), proposals(), moves(), values(), crowd(), link_reports(), merges(), written_captures(), read_captures();
    /* but for those of the calls that write TLVs, which come next */
    check("every refusal that a call can give came: 1 to 7 and 10 to 23", (refusals & ~1u) == 0xFFFCFE);
    check("every answer of push came: 0 to 7", answers == 0xFF);
    check("every answer of an event came: 0 to 5", events == 0x3F);
    values_by_fields(), tables_by_todays_names();
    check("every refusal came: 1 to 23", (refusals & ~1u) == 0xFFFFFE);
    return failed != 0;
}
