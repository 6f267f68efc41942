/* The part of tests/hostile on both tables by today's names of their calls, on tables of their own. */

/* ---- Fragments ---- */

static Room fragment_stores[2];
static AshlarFragments fragments[2];
static unsigned fragment_answers, event_answers;

static void push_fragment(void) {
    size_t n = below(8) ? below(40) : below(4) ? below(1493) : below(1600);
    size_t kept = below(64) ? ASHLAR_STORE + below(2) : below(ASHLAR_STORE), space = below(3) ? 200 : below(6000);
    uint8_t *p = bytes(n);
    AshlarArrival a = {below(8) << 16 | below(6), any() % 8000, {(uint16_t)(2 + !below(30)), (uint8_t)!below(40), (uint8_t)(below(20) ? below(4) : any()), !below(4)}};
    uint8_t *out[2];
    for (int i = 0; i < 2; i++) out[i] = outs[i].end - space;
    AshlarPushed x = ashlar_fragments_push(&fragments[0], fragment_stores[0].end - kept, kept, out[0], space, a, p, n);
    AshlarPushed y = plain_fragments_push(&fragments[1], fragment_stores[1].end - kept, kept, out[1], space, a, p, n);
    bool same = x.length == y.length && x.answer == y.answer && x.refusal == y.refusal && !memcmp(&fragments[0], &fragments[1], sizeof fragments[0]) && !memcmp(out[0], out[1], space);
    if (!below(16)) same &= !memcmp(fragment_stores[0].end - kept, fragment_stores[1].end - kept, kept);
    same &= in_step(&fragments[0]);
    told(FRAGMENTS_PUSH, x.refusal, same && x.answer <= ASHLAR_JOINED && (x.answer == ASHLAR_REFUSED) == (x.refusal != 0));
    fragment_answers |= 1u << x.answer;
    if (below(2)) x = (AshlarPushed){(size_t)any() >> below(48), (uint8_t)any(), (uint8_t)any()};
    AshlarShown s = ashlar_fragments_show(x, p, n, out[0], space), t = plain_fragments_show(x, p, n, out[0], space);
    told(FRAGMENTS_SHOW, 0, s.length == t.length && s.in_output == t.in_output && s.length <= (s.in_output ? space : n));
}

static void sweep_fragments(void) {
    uint64_t time = below(20) ? any() % 11000 : any() << 40;
    size_t a = ashlar_fragments_sweep(&fragments[0], time), b = plain_fragments_sweep(&fragments[1], time);
    told(FRAGMENTS_SWEEP, 0, a == b && !memcmp(&fragments[0], &fragments[1], sizeof fragments[0]) && in_step(&fragments[0]));
}

/* and a sweep, by which every byte of what was made is compared */
static void fresh_fragments(void) {
    ashlar_fragments_fresh(&fragments[0]);
    plain_fragments_fresh(&fragments[1]);
    sweep_fragments();
}

/* ---- Stations ---- */

static AshlarStations *todays[2];

static void fresh_todays_stations(void) {
    ashlar_stations_fresh(todays[0]);
    plain_stations_fresh(todays[1]);
}

/* as any_stations */
static void any_todays_stations(void) {
    bool near = below(2);
    for (size_t i = 0; i < 2 * ASHLAR_STATIONS; i++) {
        uint64_t n = near ? below(170) : any() << 16 ^ any();
        memcpy((uint8_t *)todays[0] + i * 8, &n, 8);
    }
    *todays[1] = *todays[0];
}

/* as same_heard, whose events are those of the calls by their first names */
static bool same_told(AshlarHeard a, AshlarHeard b) {
    unsigned before = events;
    bool same = same_heard(a, b);
    event_answers |= 1u << (a.answer & 7), events = before;
    return same;
}

static bool same_todays(void) { return !memcmp(todays[0], todays[1], sizeof *todays[0]); }

static void stations_event(void) {
    AshlarAddress s = station(), p = point();
    bool joined = below(5);
    AshlarHeard a = ashlar_stations_event(todays[0], s, p, joined), b = plain_stations_event(todays[1], s, p, joined);
    told(STATIONS_EVENT, a.refusal, same_told(a, b) && same_todays());
}

static void stations_event_from(void) {
    size_t n = below(4) ? 11 + below(5) : below(2000);
    AshlarAddress s = station(), p = point();
    uint8_t *v = bytes(n);
    if (n > 12) memcpy(v, &s, 6), memcpy(v + 6, &p, 6), v[12] = (uint8_t)(below(4) ? below(5) ? 0x80 : 0 : any());
    AshlarApplied a = ashlar_stations_event_from(todays[0], v, n), b = plain_stations_event_from(todays[1], v, n);
    told(STATIONS_EVENT_FROM, a.heard.refusal, a.consumed == b.consumed && a.rest == b.rest && same_told(a.heard, b.heard) && same_todays());
}

static void stations_at(void) {
    AshlarAddress s = station();
    AshlarAt a = ashlar_stations_at(todays[0], s), b = plain_stations_at(todays[1], s);
    told(STATIONS_AT, 0, a.held == b.held && same_address(a.point, b.point));
}

static void stations_rows(void) {
    size_t n = below(4) ? below(ASHLAR_STATIONS) : below(4) ? ASHLAR_STATIONS + below(9) : (size_t)any() << 40;
    AshlarRow a = ashlar_stations_row(todays[0], n), b = plain_stations_row(todays[1], n);
    told(STATIONS_ROW, 0, a.held == b.held && same_address(a.station, b.station) && same_address(a.point, b.point));
    told(STATIONS_COUNT, 0, ashlar_stations_count(todays[0]) == plain_stations_count(todays[1]) && same_todays());
}

static void of_todays_stations(void) {
    size_t which = below(100);
    if (which < 50) stations_event();
    else if (which < 75) stations_event_from();
    else if (which < 85) stations_at();
    else if (which < 95) stations_rows();
    else if (!below(8)) any_todays_stations();
    else if (!below(20)) fresh_todays_stations();
}

static void tables_of_todays_names(void) {
    for (int i = 0; i < 2; i++) fragment_stores[i] = room(ASHLAR_STORE + 1), todays[i] = (AshlarStations *)(room(sizeof(AshlarStations)).end - sizeof(AshlarStations));
    fresh_fragments(), fresh_todays_stations();
}
