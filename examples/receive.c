/* receive CAPTURE: a receive loop over the frames of a capture. It prints every message with all the fields that
   include/ashlar.h names, what happened to each station, and where the stations are at the end. No byte of a value
   is looked at but through the library. A daemon takes its frames from a socket instead, and its time from a clock. */
#include "ashlar.h"
#include <stdio.h>
#include <stdlib.h>

static AshlarFragments fragments;
static AshlarStations stations;
static uint8_t store[ASHLAR_STORE], joined[ASHLAR_MESSAGE];

static void put_address(const char *name, AshlarAddress a) {
    const uint8_t *b = a.bytes;
    printf(" %s %02x:%02x:%02x:%02x:%02x:%02x", name, b[0], b[1], b[2], b[3], b[4], b[5]);
}

static void put_hex(const char *name, const uint8_t *bytes, size_t n) {
    printf(" %s ", name);
    while (n--) printf("%02x", *bytes++);
}

/* a text or a network's name: a part of the value that the library found */
static void put_part(const char *name, const uint8_t *value, size_t start, size_t length) {
    printf(" %s \"", name);
    for (const uint8_t *b = value + start; length--; b++) printf(*b < 32 || *b > 126 ? "\\x%02x" : "%c", *b);
    printf("\"");
}

/* ---- Entries of lists ---- */

static void put_tx(AshlarTxPair p) {
    put_address("own", p.own), put_address("neighbour", p.neighbour);
    printf(" media %04x bridge %u errors %u packets %u throughput %u availability %u rate %u", p.media, p.bridge,
           p.errors, p.packets, p.throughput, p.availability, p.rate);
}

static void put_rx(AshlarRxPair p) {
    put_address("own", p.own), put_address("neighbour", p.neighbour);
    printf(" media %04x errors %u packets %u signal %d", p.media, p.errors, p.packets, p.signal);
}

static void put_ip(uint8_t type, const uint8_t *address, const char *from, const uint8_t *origin, size_t n) {
    printf(" type %u", type);
    put_hex("address", address, n), put_hex(from, origin, n);
}

/* an address of an interface, by IPv4 or by IPv6 */
static void put_ip_entry(uint8_t code, const uint8_t *value, size_t size, size_t at) {
    AshlarIpv4 four = ashlar_entry_ipv4(value, size, at);
    AshlarIpv6 six = ashlar_entry_ipv6(value, size, at);
    if (code == ASHLAR_IPV4) put_ip(four.type, four.address, "DHCP server", four.dhcp_server, 4);
    else put_ip(six.type, six.address, "origin", six.origin, 16);
}

static void put_bss(uint8_t code, const uint8_t *value, size_t size, size_t at) {
    AshlarBss b = ashlar_entry_bss(code, value, size, at);
    put_address("BSSID", b.bssid);
    if (code == ASHLAR_BSS_CONFIGURATION_REPORT) printf(" flags %02x reserved %02x", b.flags, b.reserved);
    put_part("SSID", value, b.name_start, b.name_length);
}

static void put_radio(uint8_t code, const uint8_t *value, size_t size, size_t at) {
    AshlarRadio r = ashlar_entry_radio(code, value, size, at);
    put_address("radio", r.id);
    if (code == ASHLAR_DEVICE_INVENTORY) put_part("chipset", value, r.text_start, r.text_length);
}

static void put_interface(uint8_t code, const uint8_t *value, size_t size, size_t at) {
    AshlarInterface i = ashlar_entry_interface(code, value, size, at);
    put_address("interface", i.address);
    if (code == ASHLAR_IPV6) put_hex("link-local", i.link_local, 16);
}

static void put_neighbour(uint8_t code, const uint8_t *value, size_t size, size_t at) {
    AshlarNeighbour n = ashlar_entry_neighbour(code, value, size, at);
    put_address("neighbour", n.address);
    if (code == ASHLAR_1905_NEIGHBOR_DEVICE) printf(" flags %02x", n.flags);
}

static void put_entry(uint8_t code, const uint8_t *value, size_t size, AshlarEntry e) {
    printf("\n     %*s", 2 * e.level, "");
    switch (code) {
    case ASHLAR_DEVICE_BRIDGING_CAPABILITY:
        if (e.level == 1) printf(" bridge of %zu", e.entries);
        else put_interface(code, value, size, e.start);
        break;
    case ASHLAR_NON_1905_NEIGHBOR_DEVICES:
    case ASHLAR_1905_NEIGHBOR_DEVICE: put_neighbour(code, value, size, e.start); break;
    case ASHLAR_LINK_METRIC_TX: put_tx(ashlar_entry_tx_pair(value, size, e.start)); break;
    case ASHLAR_LINK_METRIC_RX: put_rx(ashlar_entry_rx_pair(value, size, e.start)); break;
    case ASHLAR_SUPPORTED_SERVICE: printf(" service %u", ashlar_entry_byte(code, value, size, e.start).byte); break;
    case ASHLAR_IPV4:
    case ASHLAR_IPV6: (e.level == 1 ? put_interface : put_ip_entry)(code, value, size, e.start); break;
    default: (e.level == 1 ? put_radio : put_bss)(code, value, size, e.start);
    }
}

/* what stands in front of a list, its texts, and its entries; with depth 2 a name comes with its network */
static void put_list(uint8_t code, const uint8_t *value, size_t size) {
    AshlarFront front = ashlar_front(code, value, size);
    if (!front.refusal) put_address("local", front.local);
    if (code == ASHLAR_LINK_METRIC_TX || code == ASHLAR_LINK_METRIC_RX) put_address("neighbour", front.neighbour);
    AshlarPart t;
    for (size_t i = 0; !(t = ashlar_text(code, i, value, size)).refusal; i++)
        put_part("text", value, t.start, t.length);
    AshlarCursor cursor = ashlar_entries(code, 2, value, size).cursor;
    AshlarEntry e;
    while ((e = ashlar_entry_next(&cursor, value, size)).answer == ASHLAR_ENTRY) put_entry(code, value, size, e);
}

static void put_capability(AshlarCapability c) {
    printf(" rules %u units %u prioritization %d", c.max_prioritization_rules, c.byte_counter_units, c.prioritization);
    printf(" DPP %d traffic separation %d VIDs %u", c.dpp_onboarding, c.traffic_separation, c.max_vids);
}

static void put_record(uint8_t code, const uint8_t *value, size_t size) {
    AshlarByteRead byte = ashlar_read_byte(code, value, size);
    AshlarAddressRead address = ashlar_read_address(code, value, size);
    AshlarQueryRead query = {.refusal = ASHLAR_UNKNOWN_KIND};
    if (code == ASHLAR_LINK_METRIC_QUERY) query = ashlar_read_query(value, size);
    if (!byte.refusal) printf(" %u%s", byte.byte, byte.reserved ? " reserved" : "");
    if (!address.refusal) put_address("address", address.address);
    if (!query.refusal) printf(" type %u metrics %u", query.query.neighbour_type, query.query.metrics);
    if (query.query.has_neighbour) put_address("neighbour", query.query.neighbour);
    if (code == ASHLAR_PROFILE_2_AP_CAPABILITY) put_capability(ashlar_read_capability(value, size).capability);
}

/* ---- Messages ---- */

/* an event: its fields, and what it does to the station table */
static void put_event(const uint8_t *value, size_t size) {
    AshlarAssociation a = ashlar_read_association(value, size).association;
    put_address("station", a.station), put_address(a.joined ? "joined" : "left", a.point);
    AshlarHeard h = ashlar_stations_event(&stations, a.station, a.point, a.joined);
    printf(": %s", h.refusal ? ashlar_refusal_name(h.refusal) : ashlar_event_name(h.answer));
    if (h.answer == ASHLAR_MOVED) put_address("from", h.from);
}

static void put_tlv(AshlarTlv t, const uint8_t *value) {
    const char *name = ashlar_kind_name(t.tlv_type);
    AshlarKind kind = ashlar_read_kind(t.tlv_type, value, t.length);
    if (name) printf("\n   %s:", name);
    else printf("\n   type 0x%02x: %u bytes", t.tlv_type, t.length);
    if (name && kind.refusal) printf(" %s", ashlar_refusal_name(kind.refusal));
    else if (t.tlv_type == ASHLAR_CLIENT_ASSOCIATION) put_event(value, t.length);
    else if (kind.is_list) put_list(t.tlv_type, value, t.length);
    else if (!kind.refusal) put_record(t.tlv_type, value, t.length);
}

/* only a message that walks to its end is believed */
static void put_message(const uint8_t *message, size_t size) {
    AshlarWalk walk = ashlar_walk(message, size);
    if (walk.refusal) {
        printf(": %s at %zu, %zu bytes missing\n", ashlar_refusal_name(walk.refusal), walk.at, walk.shortfall);
        return;
    }
    size_t at = 0;
    AshlarStep s;
    do {
        s = ashlar_step(message, size, at);
        if (s.answer == ASHLAR_TLV) put_tlv(s.tlv, message + s.tlv.offset + 3);
        at = s.next;
    } while (s.answer == ASHLAR_TLV);
    printf("\n");
}

static void take_frame(AshlarFrame f, const uint8_t *payload) {
    AshlarArrival a = ashlar_capture_arrival(f);
    size_t dropped = ashlar_fragments_sweep(&fragments, a.time);
    if (dropped) printf("%zu not whole after %d ms\n", dropped, ASHLAR_OLD);
    AshlarPushed p = ashlar_fragments_push(&fragments, store, ASHLAR_STORE, joined, ASHLAR_MESSAGE, a, payload,
                                           f.length);
    if (p.answer == ASHLAR_WAITING) return;
    const char *name = ashlar_message_name(f.cmdu.message_type);
    printf("%u.%06u %s id %u", f.seconds, f.microseconds, name ? name : "message", f.cmdu.message_id);
    put_address("from", f.sender);
    AshlarShown m = ashlar_fragments_show(p, payload, f.length, joined, ASHLAR_MESSAGE);
    if (p.answer >= ASHLAR_SINGLE) put_message(m.in_output ? joined : payload, m.length);
    else printf(": %s\n", p.refusal ? ashlar_refusal_name(p.refusal) : ashlar_answer_name(p.answer));
}

int main(int argc, char **argv) {
    static uint8_t file[1 << 20];
    FILE *in = argc > 1 ? fopen(argv[1], "rb") : stdin;
    if (!in || ashlar_version() != ASHLAR_VERSION) return 2;
    size_t size = fread(file, 1, sizeof file, in);
    AshlarCapture c = ashlar_capture_check(file, size);
    if (c.refusal) return fprintf(stderr, "%s\n", ashlar_refusal_name(c.refusal)), 1;
    ashlar_fragments_fresh(&fragments);
    ashlar_stations_fresh(&stations);
    AshlarReached r = ashlar_capture_step(file, size, ASHLAR_FILE_HEADER);
    for (; r.answer == ASHLAR_1905_FRAME || r.answer == ASHLAR_OTHER_FRAME; r = ashlar_capture_step(file, size, r.next))
        if (r.answer == ASHLAR_1905_FRAME) take_frame(r.frame, file + r.frame.offset);
    for (size_t n = 0; n < ASHLAR_STATIONS; n++) {
        AshlarRow row = ashlar_stations_row(&stations, n);
        if (row.held) put_address("station", row.station), put_address("is at", row.point), printf("\n");
    }
    return 0;
}
