/* The part of tests/header on both tables by today's names of their calls. tests/header.c asks the same of the calls by
   the names that they had first. */
#include "header.h"
#include <string.h>

static uint8_t payload[ASHLAR_PAYLOAD + 1], store[ASHLAR_STORE], out[ASHLAR_MESSAGE];

/* ---- The table ---- */

static AshlarFragments table;

static AshlarArrival piece(uint64_t key, uint8_t number, bool last) { return (AshlarArrival){.key = key, .time = 5000, .fragment = {.message_type = 0x1234, .version = 0x56, .number = number, .last = last}}; }

/* the key of a sender and a message id */
static uint64_t of(uint64_t sender, uint64_t id) { return sender * 65536 + id; }

static AshlarPushed pushed(AshlarArrival a, size_t size) {
    AshlarPushed p = ashlar_fragments_push(&table, store, sizeof store, out, sizeof out, a, payload, size);
    answers |= 1u << p.answer;
    refusals |= 1u << p.refusal;
    return p;
}

static bool answered(AshlarPushed p, uint8_t answer, size_t length) { return p.answer == answer && p.length == length && p.refusal == ASHLAR_OK; }

/* a refusal is answered so, and leaves the table as it was (rule A3) */
static void refused(const char *name, AshlarArrival a, size_t store_size, size_t out_size, size_t size, uint8_t refusal, size_t length) {
    AshlarFragments before = table;
    AshlarPushed p = ashlar_fragments_push(&table, store, store_size, out, out_size, a, payload, size);
    answers |= 1u << p.answer;
    refusals |= 1u << p.refusal;
    check(name, p.refusal == refusal && p.answer == ASHLAR_REFUSED && p.length == length && !memcmp(&before, &table, sizeof table));
}

static void fields(void) {
    static const AshlarFragments nothing;
    ashlar_fragments_fresh(&table);
    check("ASHLAR_FRAGMENT_TABLE, ashlar_fragments_fresh: all its bytes are 0", sizeof table == ASHLAR_FRAGMENT_TABLE && !memcmp(&table, &nothing, sizeof table));
    check("AshlarAnswer: waiting", answered(pushed(piece(0x1122334455667788, 7, false), 10), ASHLAR_WAITING, 0));
    AshlarArrival other = {.key = 99, .time = 6000, .fragment = {.message_type = 0x4321, .version = 0x65, .number = 8}};
    check("AshlarAnswer: waiting, another key", answered(pushed(other, 20), ASHLAR_WAITING, 0));
    check("AshlarFragments: row_keys, AshlarArrival: key", table.row_keys[0] == 0x1122334455667788 && table.row_keys[1] == 99);
    check("AshlarFragments: firsts, AshlarArrival: time", table.firsts[0] == 5000 && table.firsts[1] == 6000);
    check("AshlarFragments: message_types, AshlarFragment: message_type", table.message_types[0] == 0x1234 && table.message_types[1] == 0x4321);
    check("AshlarFragments: sizes", table.sizes[0] == 10 && table.sizes[1] == 20);
    check("AshlarFragments: owners", table.owners[0] == 1 && table.owners[1] == 2 && table.owners[2] == 0);
    check("AshlarFragments: numbers, AshlarFragment: number", table.numbers[0] == 7 && table.numbers[1] == 8);
    check("AshlarFragments: versions, AshlarFragment: version", table.versions[0] == 0x56 && table.versions[1] == 0x65);
    check("AshlarFragments: used", table.used[0] && table.used[1] && !table.used[2]);
    pushed(piece(100, 0, false), 1), pushed(piece(99, 9, false), 1);
    check("AshlarFragments: sender_keys", table.sender_keys[0] == 1 && table.sender_keys[1] == 2 && table.sender_keys[2] == 0);
    check("AshlarFragments: sender_places", table.sender_places[0] == 1 && table.sender_places[1] == 3 && table.sender_places[2] == 0);
    check("ASHLAR_PAYLOAD: a place in the store", !memcmp(store, payload, 10) && store[10] == 0 && !memcmp(store + ASHLAR_PAYLOAD, payload, 20));
}

/* a duplicate differs from the kept fragment in all but its key and number, and no byte of the table, the store or the
   output changes (rule T5) */
static void duplicates(void) {
    static uint8_t stored[sizeof store], lent[sizeof out];
    AshlarFragments before = table;
    for (size_t i = 0; i < sizeof out; i++) out[i] = (uint8_t)(i * 7);
    memcpy(stored, store, sizeof store), memcpy(lent, out, sizeof out);
    for (size_t size = 0; size <= ASHLAR_PAYLOAD; size += size ? ASHLAR_PAYLOAD - 1 : 1) {
        AshlarArrival a = {.key = 99, .time = 7000, .fragment = {.message_type = 0x5678, .version = 0x78, .number = 8, .last = size == 1}};
        check("AshlarAnswer: duplicated", answered(pushed(a, size), ASHLAR_DUPLICATED, 0));
        check("ASHLAR_DUPLICATED: the table stays", !memcmp(&before, &table, sizeof table));
        check("ASHLAR_DUPLICATED: the store stays", !memcmp(stored, store, sizeof store));
        check("ASHLAR_DUPLICATED: the output stays", !memcmp(lent, out, sizeof out));
    }
    memset(out, 0, sizeof out);
    refused("ASHLAR_DUPLICATED: 12 comes before it", piece(99, 8, false), sizeof store, sizeof out, ASHLAR_PAYLOAD + 1, ASHLAR_PAYLOAD_TOO_LONG, 0);
    refused("ASHLAR_DUPLICATED: 11 comes before it", piece(99, 8, false), sizeof store - 1, sizeof out, 1, ASHLAR_STORE_TOO_SMALL, 0);
}

static void pushes(void) {
    ashlar_fragments_fresh(&table);
    pushed(piece(1, 0, false), 5);
    AshlarArrival a = piece(1, 1, true);
    a.fragment.version = 1;
    check("AshlarAnswer: inconsistent", answered(pushed(a, 5), ASHLAR_INCONSISTENT, 0));
    check("AshlarAnswer: missing", answered(pushed(piece(1, 1, true), 5), ASHLAR_MISSING, 0));
    pushed(piece(1, 1, false), 5);
    check("AshlarAnswer: missing the last", answered(pushed(piece(1, 0, true), 5), ASHLAR_MISSING_LAST, 0));

    AshlarPushed p = pushed(piece(1, 0, true), 11);
    AshlarShown s = ashlar_fragments_show(p, payload, 11, out, sizeof out);
    check("AshlarAnswer: single, and its length", answered(p, ASHLAR_SINGLE, 11) && out[0] == 0);
    check("AshlarShown of a single", s.length == 11 && !s.in_output);
    pushed(piece(1, 0, false), 5);
    refused("AshlarPushed: 13, and the length that it wants", piece(1, 1, true), sizeof store, 11, 7, ASHLAR_OUTPUT_TOO_SMALL, 12);
    p = pushed(piece(1, 1, true), 7);
    s = ashlar_fragments_show(p, payload, 7, out, sizeof out);
    check("AshlarAnswer: joined, and its length", answered(p, ASHLAR_JOINED, 12) && !memcmp(out, payload, 5) && !memcmp(out + 5, payload, 7) && out[12] == 0);
    check("AshlarShown of a joined one", s.length == 12 && s.in_output);
    s = ashlar_fragments_show((AshlarPushed){.length = 5, .answer = ASHLAR_SINGLE}, payload, 5, out, 4);
    AshlarShown t = ashlar_fragments_show((AshlarPushed){.length = 5, .answer = ASHLAR_JOINED}, payload, 4, out, 5);
    check("ashlar_fragments_show: the payload comes before the output", s.length == 5 && !s.in_output && t.length == 5 && t.in_output);
    s = ashlar_fragments_show((AshlarPushed){.length = 5, .answer = ASHLAR_SINGLE}, payload, 4, out, 5);
    t = ashlar_fragments_show((AshlarPushed){.length = 5, .answer = ASHLAR_JOINED}, payload, 5, out, 4);
    check("ashlar_fragments_show: nothing of a slice that is too short", s.length == 0 && !s.in_output && t.length == 0 && t.in_output);
}

static void limits(void) {
    ashlar_fragments_fresh(&table);
    refused("ASHLAR_STORE: 11 with a byte less", piece(1, 0, false), ASHLAR_STORE - 1, sizeof out, 5, ASHLAR_STORE_TOO_SMALL, 0);
    refused("ASHLAR_PAYLOAD: 12 with a byte more", piece(1, 0, false), sizeof store, sizeof out, ASHLAR_PAYLOAD + 1, ASHLAR_PAYLOAD_TOO_LONG, 0);
    for (uint64_t n = 0; n < ASHLAR_KEYS; n++) pushed(piece(of(n / ASHLAR_SENDER_KEYS, n), 0, false), 5);
    refused("ASHLAR_SENDER_KEYS: 20 with one more, before 10", piece(of(0, ASHLAR_KEYS), 0, false), sizeof store, sizeof out, 5, ASHLAR_SENDER_FULL, 0);
    refused("ASHLAR_KEYS: 10 with one more", piece(of(ASHLAR_KEYS, 0), 0, false), sizeof store, sizeof out, 5, ASHLAR_TABLE_FULL, 0);
    ashlar_fragments_fresh(&table);
    for (int n = 0; n < ASHLAR_PLACES; n++) pushed(piece(of((uint64_t)n / ASHLAR_SENDER_PLACES, 1), (uint8_t)(n % ASHLAR_SENDER_PLACES), false), ASHLAR_PAYLOAD);
    refused("ASHLAR_SENDER_PLACES: 20 with one more, before 10", piece(of(0, 1), ASHLAR_SENDER_PLACES, false), sizeof store, sizeof out, 5, ASHLAR_SENDER_FULL, 0);
    refused("ASHLAR_PLACES: 10 with one more", piece(of(ASHLAR_PLACES, 1), 0, false), sizeof store, sizeof out, 5, ASHLAR_TABLE_FULL, 0);
    check("ASHLAR_MESSAGE: the longest that can be joined", answered(pushed(piece(of(0, 1), ASHLAR_SENDER_PLACES, true), ASHLAR_PAYLOAD), ASHLAR_JOINED, ASHLAR_MESSAGE));
}

/* sixteen keys are due, or none; a key that holds nothing, which no call leaves, is dropped and counted like others */
static void sweeps(void) {
    ashlar_fragments_fresh(&table);
    for (uint64_t n = 0; n + 1 < ASHLAR_KEYS; n++) pushed(piece(of(n, 0), 0, false), 5), pushed(piece(of(n, 0), 1, false), 5);
    table.used[ASHLAR_KEYS - 1] = true, table.firsts[ASHLAR_KEYS - 1] = 5000;
    AshlarFragments before = table;
    check("ASHLAR_OLD: none a millisecond before", ashlar_fragments_sweep(&table, 5000 + ASHLAR_OLD - 1) == 0 && !memcmp(&before, &table, sizeof table));
    check("ashlar_fragments_sweep: none where the clock went back", ashlar_fragments_sweep(&table, 0) == 0 && !memcmp(&before, &table, sizeof table));
    check("ashlar_fragments_sweep: how many keys", ashlar_fragments_sweep(&table, 5000 + ASHLAR_OLD) == ASHLAR_KEYS);
    ashlar_fragments_fresh(&before);
    check("ashlar_fragments_sweep: what is dropped leaves nothing", !memcmp(&before, &table, sizeof table));
    check("ashlar_fragments_sweep: nothing is left to drop", ashlar_fragments_sweep(&table, UINT64_MAX) == 0);
}

/* ---- Stations ---- */

static AshlarStations stations;
static const AshlarAddress phone = {{0x02, 0x11, 0x22, 0x33, 0x44, 0x55}}, kitchen = {{0x06, 0xAA, 0xBB, 0xCC, 0xDD, 0xEE}}, attic = {{0x0A, 0x0F, 0x1E, 0x2D, 0x3C, 0x4B}}, none;

static bool same_address(AshlarAddress a, AshlarAddress b) { return !memcmp(&a, &b, sizeof a); }

static bool heard(AshlarHeard h, uint8_t answer, AshlarAddress from) {
    events |= 1u << h.answer;
    refusals |= 1u << h.refusal;
    return h.answer == answer && same_address(h.from, from) && h.refusal == ASHLAR_OK;
}

static bool is_at(AshlarAddress station, AshlarAddress point) {
    AshlarAt a = ashlar_stations_at(&stations, station);
    return a.held && same_address(a.point, point);
}

static bool is_nowhere(AshlarAddress station) {
    AshlarAt a = ashlar_stations_at(&stations, station);
    return !a.held && same_address(a.point, none);
}

static bool holds(size_t row, AshlarAddress station, AshlarAddress point) {
    AshlarRow r = ashlar_stations_row(&stations, row);
    return r.held && same_address(r.station, station) && same_address(r.point, point);
}

static bool is_free(size_t row) {
    AshlarRow r = ashlar_stations_row(&stations, row);
    return !r.held && same_address(r.station, none) && same_address(r.point, none);
}

static void moves(void) {
    static const AshlarStations nothing;
    memset(&stations, 0xEE, sizeof stations);
    ashlar_stations_fresh(&stations);
    check("ASHLAR_STATION_TABLE, ashlar_stations_fresh: all its bytes are 0", sizeof stations == ASHLAR_STATION_TABLE && !memcmp(&stations, &nothing, sizeof stations));
    check("AshlarAddress: six bytes", sizeof(AshlarAddress) == 6);
    check("ashlar_stations_at: nowhere", is_nowhere(phone));
    check("AshlarEventAnswer: placed", heard(ashlar_stations_event(&stations, phone, kitchen, true), ASHLAR_PLACED, none) && is_at(phone, kitchen) && is_nowhere(kitchen));
    check("AshlarStations: stations, points", stations.stations[0] == 0x021122334456 && stations.points[0] == 0x06AABBCCDDEE && stations.stations[1] == 0 && stations.points[1] == 0);
    check("AshlarEventAnswer: the same", heard(ashlar_stations_event(&stations, phone, kitchen, true), ASHLAR_SAME, none) && is_at(phone, kitchen));
    check("AshlarEventAnswer: moved, and from where", heard(ashlar_stations_event(&stations, phone, attic, true), ASHLAR_MOVED, kitchen) && is_at(phone, attic));
    AshlarStations before = stations;
    check("AshlarEventAnswer: stale, a leave that comes late", heard(ashlar_stations_event(&stations, phone, kitchen, false), ASHLAR_STALE, none) && !memcmp(&before, &stations, sizeof stations));
    check("AshlarEventAnswer: stale, a station that is not held", heard(ashlar_stations_event(&stations, attic, phone, false), ASHLAR_STALE, none) && !memcmp(&before, &stations, sizeof stations));
    check("AshlarRow: station, point, held", holds(0, phone, attic) && is_free(1) && ashlar_stations_count(&stations) == 1);
    check("AshlarEventAnswer: removed", heard(ashlar_stations_event(&stations, phone, attic, false), ASHLAR_REMOVED, none) && is_nowhere(phone) && ashlar_stations_count(&stations) == 0);
    check("ashlar_stations_event: a freed row is as a fresh one", !memcmp(&stations, &nothing, sizeof stations));
    check("AshlarAt, AshlarRow: addresses of zeros are held", heard(ashlar_stations_event(&stations, none, none, true), ASHLAR_PLACED, none) && is_at(none, none) && holds(0, none, none) && ashlar_stations_count(&stations) == 1);
}

/* a value that joins the phone to the attic, and a byte after it */
static uint8_t association[14] = {0x02, 0x11, 0x22, 0x33, 0x44, 0x55, 0x0A, 0x0F, 0x1E, 0x2D, 0x3C, 0x4B, 0x80, 0x99};

/* a value is refused so, all else is 0, and the table stays */
static void refused_value(const char *name, uint8_t last, size_t size, uint8_t refusal) {
    AshlarStations before = stations;
    association[12] = last;
    AshlarApplied a = ashlar_stations_event_from(&stations, association, size);
    association[12] = 0x80;
    events |= 1u << a.heard.answer;
    refusals |= 1u << a.heard.refusal;
    check(name, a.heard.refusal == refusal && a.heard.answer == ASHLAR_REFUSED && same_address(a.heard.from, none) && a.consumed == 0 && a.rest == 0 && !memcmp(&before, &stations, sizeof stations));
}

static void values(void) {
    ashlar_stations_fresh(&stations);
    ashlar_stations_event(&stations, phone, kitchen, true);
    AshlarApplied a = ashlar_stations_event_from(&stations, association, 14);
    check("AshlarApplied: heard", heard(a.heard, ASHLAR_MOVED, kitchen) && is_at(phone, attic));
    check("AshlarApplied: consumed, rest", a.consumed == 13 && a.rest == 1);
    refused_value("ashlar_stations_event_from: 3, a byte too few", 0x80, 12, ASHLAR_CUT_SHORT);
    refused_value("ashlar_stations_event_from: 5, bits that have no meaning", 0x81, 13, ASHLAR_BAD_VALUE);
    association[12] = 0;
    a = ashlar_stations_event_from(&stations, association, 13);
    association[12] = 0x80;
    check("ashlar_stations_event_from: a leave", heard(a.heard, ASHLAR_REMOVED, none) && a.consumed == 13 && a.rest == 0 && is_nowhere(phone));
}

static AshlarAddress station_number(int n) { return (AshlarAddress){{0, 0, 0, 0, (uint8_t)(n >> 8), (uint8_t)n}}; }

static void crowd(void) {
    bool good = true;
    ashlar_stations_fresh(&stations);
    for (int n = 0; n < ASHLAR_STATIONS; n++) good &= heard(ashlar_stations_event(&stations, station_number(n), kitchen, true), ASHLAR_PLACED, none) && holds((size_t)n, station_number(n), kitchen);
    check("ASHLAR_STATIONS: so many are held", good && ashlar_stations_count(&stations) == ASHLAR_STATIONS);
    check("ashlar_stations_row: past the rows there is none", is_free(ASHLAR_STATIONS) && is_free((size_t)-1));
    AshlarStations before = stations;
    AshlarHeard h = ashlar_stations_event(&stations, phone, kitchen, true);
    check("ashlar_stations_event: 17 with one more", h.refusal == ASHLAR_NO_STATION_ROOM && h.answer == ASHLAR_REFUSED && same_address(h.from, none) && !memcmp(&before, &stations, sizeof stations));
    events |= 1u << h.answer;
    refusals |= 1u << h.refusal;
    refused_value("ashlar_stations_event_from: 17 with one more", 0x80, 13, ASHLAR_NO_STATION_ROOM);
    refused_value("ashlar_stations_event_from: 3 before 17", 0x80, 12, ASHLAR_CUT_SHORT);
    refused_value("ashlar_stations_event_from: 5 before 17", 0x81, 14, ASHLAR_BAD_VALUE);
    check("a full table: one that is held moves", heard(ashlar_stations_event(&stations, station_number(127), attic, true), ASHLAR_MOVED, kitchen) && is_at(station_number(127), attic));
    ashlar_stations_event(&stations, station_number(77), kitchen, false), ashlar_stations_event(&stations, station_number(7), kitchen, false);
    check("a full table: two leave, and the lowest row is used again", heard(ashlar_stations_event(&stations, phone, attic, true), ASHLAR_PLACED, none) && holds(7, phone, attic) && is_free(77));
    check("ashlar_stations_count: with a free row", ashlar_stations_count(&stations) == ASHLAR_STATIONS - 1);
}

/* one table, given to calls of both names */
static void both_names(void) {
    static const AshlarFragments nothing;
    table = ashlar_fresh();
    AshlarPushed p = ashlar_push(&table, store, sizeof store, out, sizeof out, piece(of(1, 7), 0, false), payload, 4);
    AshlarPushed q = ashlar_fragments_push(&table, store, sizeof store, out, sizeof out, piece(of(1, 7), 1, true), payload + 4, 4);
    AshlarShown s = ashlar_show(q, payload + 4, 4, out, sizeof out), t = ashlar_fragments_show(q, payload + 4, 4, out, sizeof out);
    check("both names of push: a message that each has a fragment of", answered(p, ASHLAR_WAITING, 0) && answered(q, ASHLAR_JOINED, 8) && !memcmp(out, payload, 8) && !memcmp(&table, &nothing, sizeof table));
    check("both names of show", s.length == 8 && s.in_output && t.length == 8 && t.in_output);
    pushed(piece(of(1, 8), 0, false), 4);
    check("both names of sweep", ashlar_fragments_sweep(&table, 5000 + ASHLAR_OLD - 1) == 0 && ashlar_sweep(&table, 5000 + ASHLAR_OLD) == 1 && !memcmp(&table, &nothing, sizeof table));
    ashlar_stations_fresh(&stations);
    check("both names of an event", heard(ashlar_station_event(&stations, phone, kitchen, true), ASHLAR_PLACED, none) && heard(ashlar_stations_event(&stations, phone, attic, true), ASHLAR_MOVED, kitchen) && is_at(phone, attic));
    AshlarApplied a = ashlar_station_event_from(&stations, association, 14), b = ashlar_stations_event_from(&stations, association, 13);
    check("both names of an event from a value", heard(a.heard, ASHLAR_SAME, none) && a.rest == 1 && heard(b.heard, ASHLAR_SAME, none) && b.rest == 0);
    AshlarAt at = ashlar_station_at(&stations, phone);
    AshlarRow held = ashlar_station_row(&stations, 0);
    check("both names of what asks", at.held && same_address(at.point, attic) && held.held && same_address(held.station, phone) && ashlar_station_count(&stations) == 1 && ashlar_stations_count(&stations) == 1);
}

void tables_by_todays_names(void) {
    for (size_t i = 0; i < sizeof payload; i++) payload[i] = (uint8_t)(i + 1);
    answers = events = 0;
    fields(), duplicates(), pushes(), limits(), sweeps(), moves(), values(), crowd(), both_names();
    check("every answer of ashlar_fragments_push came: 0 to 7", answers == 0xFF);
    check("every answer of ashlar_stations_event came: 0 to 5", events == 0x3F);
}
