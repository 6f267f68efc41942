/* The part of tests/hostile.c on records and entries by their fields, on the walk's step, and on what is written. */

#define EQ(field) (a.field == b.field)
#define EQ_BYTES(field) (!memcmp(&a.field, &b.field, sizeof a.field))

/* an offset: mostly near a value of n bytes, now and then any */
static size_t near(size_t n) { return below(8) ? below(n + 3) : (size_t)any() << below(48); }

/* ---- Steps and the key ---- */

static void step(void) {
    size_t n = below(4) ? below(64) : below(3000), at = 0;
    uint8_t *p = bytes(n);
    for (int i = 0; i < 4; i++) {
        AshlarStep a = ashlar_step(p, n, at), b = plain_step(p, n, at);
        bool same = EQ(tlv.tlv_type) && EQ(tlv.length) && EQ(tlv.offset) && EQ(next) && EQ(shortfall) && EQ(answer) && EQ(refusal);
        told(STEP, a.refusal, same && (a.answer == ASHLAR_REFUSED) == (a.refusal != 0));
        at = a.answer == ASHLAR_TLV ? a.next : near(n);
    }
    AshlarAddress sender = address(4);
    uint16_t id = (uint16_t)any();
    told(KEY, 0, ashlar_key(sender, id) == plain_key(sender, id));
}

/* ---- Records ---- */

static void read_records(void) {
    static const uint8_t codes[12] = {0, 1, 2, 8, 12, 13, 15, 16, 26, 0x92, 0xB3, 0xB4};
    size_t n = below(4) ? below(16) : below(200);
    uint8_t *v = bytes(n), k = below(4) ? codes[below(12)] : code();
    if (n > 12 && below(2)) v[12] = below(2) ? 0x80 : 0;
    {
        AshlarAddressRead a = ashlar_read_address(k, v, n), b = plain_read_address(k, v, n);
        told(READ_ADDRESS, a.refusal, EQ(consumed) && EQ(rest) && EQ_BYTES(address) && EQ(refusal));
    }
    {
        AshlarByteRead a = ashlar_read_byte(k, v, n), b = plain_read_byte(k, v, n);
        told(READ_BYTE, a.refusal, EQ(consumed) && EQ(rest) && EQ(byte) && EQ(reserved) && EQ(refusal));
    }
    {
        AshlarQueryRead a = ashlar_read_query(v, n), b = plain_read_query(v, n);
        told(READ_QUERY, a.refusal, EQ(consumed) && EQ(rest) && EQ_BYTES(query.neighbour) && EQ(query.neighbour_type) && EQ(query.has_neighbour) && EQ(query.metrics) && EQ(refusal));
    }
    {
        AshlarAssociationRead a = ashlar_read_association(v, n), b = plain_read_association(v, n);
        told(READ_ASSOCIATION, a.refusal, EQ(consumed) && EQ(rest) && EQ_BYTES(association.station) && EQ_BYTES(association.point) && EQ(association.joined) && EQ(state) && EQ(refusal));
    }
    {
        AshlarCapabilityRead a = ashlar_read_capability(v, n), b = plain_read_capability(v, n);
        bool bits = EQ(capability.byte_counter_units) && EQ(capability.prioritization) && EQ(capability.dpp_onboarding) && EQ(capability.traffic_separation) && EQ(capability.flags_reserved) && EQ(flags);
        told(READ_CAPABILITY, a.refusal, EQ(consumed) && EQ(rest) && EQ(capability.max_prioritization_rules) && EQ(capability.reserved) && EQ(capability.max_vids) && bits && EQ(refusal));
    }
}

/* ---- Writing ---- */

/* what two calls left: the answer, and the whole room */
static void wrote(int call, AshlarWritten a, AshlarWritten b, size_t space) { told(call, a.refusal, EQ(length) && EQ(refusal) && !memcmp(outs[0].end - space, outs[1].end - space, space)); }

#define WRITE(call, name, ...) wrote(call, ashlar_##name(__VA_ARGS__, outs[0].end - space, space), plain_##name(__VA_ARGS__, outs[1].end - space, space), space)

static void write_records(void) {
    static const uint8_t codes[8] = {1, 2, 12, 13, 15, 16, 26, 0xB3};
    size_t space = below(4) ? below(24) : below(200);
    uint8_t k = below(4) ? codes[below(8)] : code();
    for (size_t i = 0; i < space; i++) outs[0].end[-1 - (ptrdiff_t)i] = outs[1].end[-1 - (ptrdiff_t)i] = (uint8_t)any();
    AshlarQuery q = {address(4), (uint8_t)below(3), below(2), (uint8_t)any()};
    AshlarAssociation e = {address(160), address(4), below(2)};
    AshlarCapability c = {(uint8_t)any(), (uint8_t)any(), (uint8_t)below(5), below(2), below(2), below(2), (uint8_t)below(9), (uint8_t)any()};
    switch (below(5)) {
    case 0: WRITE(WRITE_ADDRESS, write_address, k, e.station); break;
    case 1: WRITE(WRITE_BYTE, write_byte, k, c.byte_counter_units); break;
    case 2: WRITE(WRITE_QUERY, write_query, q); break;
    case 3: WRITE(WRITE_ASSOCIATION, write_association, e); break;
    default: WRITE(WRITE_CAPABILITY, write_capability, c);
    }
}

/* a value of any kind, now and then of more bytes than a TLV can have */
static void write_values(void) {
    static uint8_t longest[70000];
    size_t n, space = below(4) ? below(60) : below(2500);
    uint8_t k = code(), *v = value(k, &n);
    if (!below(20)) v = longest, n = 65530 + below(10), k = 22;
    for (size_t i = 0; i < space; i++) outs[0].end[-1 - (ptrdiff_t)i] = outs[1].end[-1 - (ptrdiff_t)i] = (uint8_t)any();
    if (below(2)) WRITE(WRITE_TLV, write_tlv, k, v, n);
    else WRITE(WRITE_KIND, write_kind, k, v, n);
}

/* ---- Entries ---- */

static bool same_cursor(AshlarCursor a, AshlarCursor b) { return EQ(at) && EQ(left1) && EQ(left2) && EQ(left3) && EQ(code) && EQ(depth); }

static bool same_entry(AshlarEntry a, AshlarEntry b) { return EQ(start) && EQ(entries) && EQ(level) && EQ(answer) && EQ(refusal) && (a.answer == ASHLAR_REFUSED) == (a.refusal != 0); }

/* a list of any kind whose counts are small, so that it often reads; now and then any value */
static uint8_t *listed_value(uint8_t k, size_t *n) {
    uint8_t *v = value(k, n);
    if (below(4) || k == 21 || k == 22 || k == 0xD4) return v;
    v = bytes(*n = 1 + below(400));
    for (size_t i = 0; i < *n; i++) v[i] = (uint8_t)(below(3) ? 0 : below(3));
    return v;
}

static uint8_t list_code(void) {
    static const uint8_t codes[11] = {4, 6, 7, 9, 10, 23, 24, 0x80, 0x83, 0xB7, 0xD4};
    return below(6) ? codes[below(11)] : code();
}

static AshlarCursor any_cursor(uint8_t k, size_t n) {
    AshlarCursor c = {near(n), below(3), below(3), below(3), k, (uint8_t)below(5)};
    if (!below(4)) c.left1 = (size_t)any() << below(48), c.left2 = (size_t)any() << below(48);
    return c;
}

/* from the first entry to the end, each as asking by its number has it; then from a cursor that no call made, or over a
   value that was altered */
static void go_over(void) {
    size_t n, numbers[3] = {0}, level = 0;
    uint8_t k = list_code(), *v = listed_value(k, &n), depth = (uint8_t)below(5);
    AshlarBegun a = ashlar_entries(k, depth, v, n), b = plain_entries(k, depth, v, n);
    told(ENTRIES, a.refusal, same_cursor(a.cursor, b.cursor) && EQ(entries) && EQ(consumed) && EQ(rest) && EQ(refusal));
    AshlarCursor c = a.cursor, d = b.cursor;
    for (int turns = 0; !a.refusal && turns < 40; turns++) {
        AshlarEntry x = ashlar_entry_next(&c, v, n), y = plain_entry_next(&d, v, n);
        bool same = same_entry(x, y) && same_cursor(c, d);
        if (x.answer == ASHLAR_ENTRY) {
            numbers[x.level - 1] = x.level > level ? 0 : numbers[x.level - 1] + 1;
            level = x.level;
            AshlarPart p = ashlar_entry_at(k, (AshlarPath){level, numbers[0], numbers[1], numbers[2]}, v, n);
            same &= !p.refusal && p.start == x.start;
        }
        told(ENTRY_NEXT, x.refusal, same && !x.refusal);
        if (x.answer != ASHLAR_ENTRY) break;
    }
    if (below(2)) c = d = any_cursor(below(4) ? k : code(), n);
    else if (n) v[below(n)] = (uint8_t)any(), c = d = a.cursor;
    for (int turns = 0; turns < 4; turns++) {
        AshlarEntry x = ashlar_entry_next(&c, v, n), y = plain_entry_next(&d, v, n);
        told(ENTRY_NEXT, x.refusal, same_entry(x, y) && same_cursor(c, d));
    }
}

static void by_number(void) {
    size_t n;
    uint8_t k = list_code(), *v = listed_value(k, &n);
    AshlarPath path = {below(20) ? below(4) : (size_t)any() << below(48), below(3), below(3), below(3)};
    if (!below(8)) path.i0 = (size_t)any() << below(48);
    AshlarPart part = ashlar_entry_at(k, path, v, n);
    told(ENTRY_AT, part.refusal, same_part(part, plain_entry_at(k, path, v, n), n));
    AshlarCount a = ashlar_entry_count(k, path, v, n), b = plain_entry_count(k, path, v, n);
    told(ENTRY_COUNT, a.refusal, EQ(entries) && EQ(refusal));
}

/* ---- Fields of entries ---- */

static void addresses_at(uint8_t k, const uint8_t *v, size_t n, size_t at) {
    {
        AshlarFront a = ashlar_front(k, v, n), b = plain_front(k, v, n);
        told(FRONT, a.refusal, EQ_BYTES(local) && EQ_BYTES(neighbour) && EQ(refusal));
    }
    {
        AshlarNeighbour a = ashlar_entry_neighbour(k, v, n, at), b = plain_entry_neighbour(k, v, n, at);
        told(ENTRY_NEIGHBOUR, a.refusal, EQ_BYTES(address) && EQ(flags) && EQ(refusal));
    }
    {
        AshlarInterface a = ashlar_entry_interface(k, v, n, at), b = plain_entry_interface(k, v, n, at);
        told(ENTRY_INTERFACE, a.refusal, EQ_BYTES(address) && EQ_BYTES(link_local) && EQ(refusal));
    }
    {
        AshlarIpv4 a = ashlar_entry_ipv4(v, n, at), b = plain_entry_ipv4(v, n, at);
        told(ENTRY_IPV4, a.refusal, EQ_BYTES(address) && EQ_BYTES(dhcp_server) && EQ(type) && EQ(refusal));
    }
    {
        AshlarIpv6 a = ashlar_entry_ipv6(v, n, at), b = plain_entry_ipv6(v, n, at);
        told(ENTRY_IPV6, a.refusal, EQ_BYTES(address) && EQ_BYTES(origin) && EQ(type) && EQ(refusal));
    }
}

static void fields_at(void) {
    size_t n = below(60), at = near(n);
    uint8_t k = list_code(), *v = bytes(n);
    addresses_at(k, v, n, at);
    {
        AshlarByte a = ashlar_entry_byte(k, v, n, at), b = plain_entry_byte(k, v, n, at);
        told(ENTRY_BYTE, a.refusal, EQ(byte) && EQ(refusal));
    }
    {
        AshlarRadio a = ashlar_entry_radio(k, v, n, at), b = plain_entry_radio(k, v, n, at);
        told(ENTRY_RADIO, a.refusal, EQ(text_start) && EQ(text_length) && EQ_BYTES(id) && EQ(refusal));
    }
    {
        AshlarBss a = ashlar_entry_bss(k, v, n, at), b = plain_entry_bss(k, v, n, at);
        told(ENTRY_BSS, a.refusal, EQ(name_start) && EQ(name_length) && EQ_BYTES(bssid) && EQ(flags) && EQ(reserved) && EQ(refusal));
    }
    {
        AshlarTxPair a = ashlar_entry_tx_pair(v, n, at), b = plain_entry_tx_pair(v, n, at);
        bool figures = EQ(errors) && EQ(packets) && EQ(throughput) && EQ(availability) && EQ(rate);
        told(ENTRY_TX_PAIR, a.refusal, EQ_BYTES(own) && EQ_BYTES(neighbour) && EQ(media) && EQ(bridge) && figures && EQ(refusal));
    }
    {
        AshlarRxPair a = ashlar_entry_rx_pair(v, n, at), b = plain_entry_rx_pair(v, n, at);
        told(ENTRY_RX_PAIR, a.refusal, EQ_BYTES(own) && EQ_BYTES(neighbour) && EQ(media) && EQ(errors) && EQ(packets) && EQ(signal) && EQ(refusal));
    }
}

/* ---- Fields of entries, written ---- */

/* bytes of a struct: any, or mostly zeros, since a field that a kind lacks has to be 0 */
static void some(void *to, size_t n) {
    bool zeros = below(3);
    for (size_t i = 0; i < n; i++) ((uint8_t *)to)[i] = (uint8_t)(zeros ? 0 : any());
}

static void put_fields(void) {
    size_t space = below(2) ? below(12) : below(3) ? below(60) : below(400), n = below(3) ? 0 : below(4) ? below(40) : below(300);
    uint8_t k = list_code(), *text = bytes(n);
    AshlarNeighbour neighbour = {.flags = (uint8_t)below(2)};
    AshlarInterface interface;
    AshlarIpv4 ipv4;
    AshlarIpv6 ipv6;
    AshlarBss bss;
    AshlarTxPair tx;
    AshlarRxPair rx;
    some(&interface, sizeof interface), some(&ipv4, sizeof ipv4), some(&ipv6, sizeof ipv6), some(&bss, sizeof bss), some(&tx, sizeof tx), some(&rx, sizeof rx);
    for (size_t i = 0; i < space; i++) outs[0].end[-1 - (ptrdiff_t)i] = outs[1].end[-1 - (ptrdiff_t)i] = (uint8_t)any();
    size_t count = below(4) ? below(256) : (size_t)any() << below(48);
    AshlarAddress other = {{(uint8_t)below(2)}};
    switch (below(11)) {
    case 0: WRITE(PUT_COUNT, put_count, count); break;
    case 1: WRITE(PUT_FRONT, put_front, k, bss.bssid, other); break;
    case 2: WRITE(PUT_NEIGHBOUR, put_neighbour, k, neighbour); break;
    case 3: WRITE(PUT_INTERFACE, put_interface, k, interface); break;
    case 4: WRITE(PUT_IPV4, put_ipv4, ipv4); break;
    case 5: WRITE(PUT_IPV6, put_ipv6, ipv6); break;
    case 6: WRITE(PUT_BYTE, put_byte, k, neighbour.flags); break;
    case 7: WRITE(PUT_RADIO, put_radio, k, bss.bssid, text, n); break;
    case 8: WRITE(PUT_BSS, put_bss, k, bss, text, n); break;
    case 9: WRITE(PUT_TX_PAIR, put_tx_pair, tx); break;
    default: WRITE(PUT_RX_PAIR, put_rx_pair, rx);
    }
}
