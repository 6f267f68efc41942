/* answer CAPTURE OUT: reads the first topology query of a capture, writes the response of an access point with 40
   networks, cuts it into fragments, keeps these as a capture in OUT, and reads that capture again. A daemon sends each
   fragment as a frame instead: the destination, its own address, ASHLAR_ETHERTYPE, and then what is in `cmdu`. */
#include "ashlar.h"
#include <stdio.h>
#include <string.h>

static const AshlarAddress us = {{0xB6, 0x2D, 0xE8, 0x13, 0xC4, 0x60}}, radio = {{0xB6, 0x2D, 0xE8, 0x13, 0xC4, 0x61}};
static uint8_t message[ASHLAR_MESSAGE], capture[2 * ASHLAR_MESSAGE];

/* ---- Writing ---- */

/* a buffer that is filled from the front; what doesn't fit or is refused is remembered */
typedef struct {
    uint8_t *room;
    size_t size, used;
    uint8_t refusal;
} Writer;

static void took(Writer *w, AshlarWritten written) {
    w->used += written.length;
    if (written.refusal) w->refusal = written.refusal;
}

#define WRITE(w, call, ...) took(w, call(__VA_ARGS__, (w)->room + (w)->used, (w)->size - (w)->used))

/* the value of an ApOperationalBss: one radio with so many networks */
static Writer networks_of(uint8_t *value, size_t size, uint8_t many) {
    static const uint8_t name[] = "The Old Lighthouse Keepers House";
    Writer w = {value, size, 0, ASHLAR_OK};
    WRITE(&w, ashlar_put_count, 1);
    WRITE(&w, ashlar_put_radio, ASHLAR_AP_OPERATIONAL_BSS, radio, 0, 0);
    WRITE(&w, ashlar_put_count, many);
    for (uint8_t i = 0; i < many; i++) {
        AshlarBss bss = {.bssid = radio};
        bss.bssid.bytes[5] = (uint8_t)(0x62 + i);
        WRITE(&w, ashlar_put_bss, ASHLAR_AP_OPERATIONAL_BSS, bss, name, sizeof name - 1);
    }
    return w;
}

/* one TLV after the other; a TLV has to fit into a fragment, so the networks go into two */
static Writer write_response(void) {
    static uint8_t bytes[ASHLAR_PAYLOAD];
    Writer w = {message, sizeof message, 0, ASHLAR_OK}, value = {bytes, sizeof bytes, 0, ASHLAR_OK};
    WRITE(&w, ashlar_write_address, ASHLAR_AL_MAC_ADDRESS, us);
    WRITE(&value, ashlar_put_count, 1);
    WRITE(&value, ashlar_put_byte, ASHLAR_SUPPORTED_SERVICE, 1); /* the agent */
    WRITE(&w, ashlar_write_kind, ASHLAR_SUPPORTED_SERVICE, bytes, value.used);
    for (int i = 0; i < 2; i++) {
        value = networks_of(bytes, sizeof bytes, 20);
        WRITE(&w, ashlar_write_kind, ASHLAR_AP_OPERATIONAL_BSS, bytes, value.used);
    }
    WRITE(&w, ashlar_write_byte, ASHLAR_MULTI_AP_PROFILE, 2);
    WRITE(&w, ashlar_write_tlv, 0x0B, (const uint8_t *)"\x02\x5A\x31" "ours", 7);
    WRITE(&w, ashlar_write_kind, ASHLAR_END_OF_MESSAGE, 0, 0);
    return w;
}

/* ---- Sending ---- */

/* the fragments of the message under an id, each as a CMDU, and kept as a frame of the capture */
static size_t send(const uint8_t *bytes, size_t size, uint16_t id, uint64_t time) {
    size_t ends[ASHLAR_FRAGMENTS], start = 0;
    AshlarCutting cut = ashlar_cut(bytes, size, ends, ASHLAR_FRAGMENTS);
    Writer file = {capture, sizeof capture, 0, cut.refusal};
    took(&file, ashlar_capture_header(file.room, file.size));
    for (size_t i = 0; i < cut.count; start = ends[i++]) {
        uint8_t cmdu[ASHLAR_CMDU_HEADER + ASHLAR_PAYLOAD];
        bool last = i + 1 == cut.count;
        AshlarFields f = {1, ASHLAR_TOPOLOGY_RESPONSE, id, (uint8_t)i, last};
        size_t head = ashlar_write_header(f, cmdu, sizeof cmdu).length;
        memcpy(cmdu + head, bytes + start, ends[i] - start);
        printf("fragment %zu: %zu bytes%s\n", i, head + ends[i] - start, last ? ", the last" : "");
        AshlarArrival a = {ashlar_key(us, id), time, {f.message_type, f.version, f.number, f.last}};
        WRITE(&file, ashlar_capture_frame, a, bytes + start, ends[i] - start);
    }
    if (file.refusal) printf("refused: %s\n", ashlar_refusal_name(file.refusal));
    return file.refusal ? 0 : file.used;
}

/* ---- Reading ---- */

static AshlarFragments fragments;
static uint8_t store[ASHLAR_STORE], joined[ASHLAR_MESSAGE];

typedef struct {
    const uint8_t *bytes; /* null where there is none */
    size_t length;
    AshlarFrame frame; /* the one that made it whole */
} Message;

/* the first message of this type in a capture */
static Message message_of(uint16_t type, const uint8_t *file, size_t size) {
    AshlarReached r = ashlar_capture_step(file, size, ASHLAR_FILE_HEADER);
    ashlar_fragments_fresh(&fragments);
    for (; r.next; r = ashlar_capture_step(file, size, r.next)) {
        const uint8_t *payload = file + r.frame.offset;
        if (r.answer == ASHLAR_OTHER_FRAME) continue;
        AshlarPushed p = ashlar_fragments_push(&fragments, store, sizeof store, joined, sizeof joined,
                                               ashlar_capture_arrival(r.frame), payload, r.frame.length);
        AshlarShown m = ashlar_fragments_show(p, payload, r.frame.length, joined, sizeof joined);
        if (p.answer >= ASHLAR_SINGLE && r.frame.cmdu.message_type == type)
            return (Message){m.in_output ? joined : payload, m.length, r.frame};
    }
    return (Message){0};
}

/* the networks of a response, by their fields */
static size_t count_networks(const uint8_t *bytes, size_t size) {
    size_t networks = 0;
    AshlarStep s = ashlar_step(bytes, size, 0);
    for (; s.answer == ASHLAR_TLV; s = ashlar_step(bytes, size, s.next)) {
        const uint8_t *value = bytes + s.tlv.offset + 3;
        AshlarCursor c = ashlar_entries(s.tlv.tlv_type, 2, value, s.tlv.length).cursor;
        AshlarEntry e;
        while ((e = ashlar_entry_next(&c, value, s.tlv.length)).answer == ASHLAR_ENTRY)
            networks += e.level == 2 && !ashlar_entry_bss(s.tlv.tlv_type, value, s.tlv.length, e.start).refusal;
    }
    return networks;
}

int main(int argc, char **argv) {
    static uint8_t file[1 << 20];
    FILE *in = argc > 2 ? fopen(argv[1], "rb") : 0, *to;
    if (!in) return fprintf(stderr, "answer CAPTURE OUT\n"), 2;
    size_t size = fread(file, 1, sizeof file, in);
    if (ashlar_capture_check(file, size).refusal) return printf("not a capture\n"), 1;
    Message query = message_of(ASHLAR_TOPOLOGY_QUERY, file, size);
    if (!query.bytes) return printf("no topology query\n"), 1;
    uint16_t id = query.frame.cmdu.message_id;
    printf("topology query %u\n", id);
    Writer response = write_response();
    if (response.refusal) return printf("refused: %s\n", ashlar_refusal_name(response.refusal)), 1;
    printf("response: %zu bytes\n", response.used);
    /* a response has the id of its query */
    size = send(message, response.used, id, query.frame.seconds * 1000ull + 5);
    to = fopen(argv[2], "wb");
    if (!to || fwrite(capture, 1, size, to) != size || fclose(to)) return 2;
    Message again = message_of(ASHLAR_TOPOLOGY_RESPONSE, capture, size);
    bool same = again.length == response.used && !memcmp(again.bytes, message, again.length);
    printf("read again: id %u, %s bytes, %zu networks\n", again.frame.cmdu.message_id, same ? "the same" : "other",
           count_networks(again.bytes, again.length));
    return !same;
}
