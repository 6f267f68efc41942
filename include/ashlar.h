/* Ashlargale for C: messages of IEEE 1905.1 and Wi-Fi Multi-AP, joined from fragments, taken apart field
   by field, written and cut.

   docs/RULES.md has the rules, by number, that every call follows; comments cite them as "rule T9".
   examples/receive.c is a whole receive loop, examples/answer.c writes an answer.

   A frame carries a CMDU: a header of eight bytes, which ashlar_read_header reads, and then the payload.
   The payload of a message is a row of TLVs. Each has a type byte, the length of its value in two bytes,
   higher byte first, and the value. The last TLV is the end marker, of type 0 and without a value. Bytes
   that a bridge added after it are padding. ashlar_step goes over the TLVs one by one, ashlar_walk counts
   them, and ashlar_walk_into lists them. ashlar_find looks in such a list for a TLV of one of 25 kinds.

   ashlar_read_kind reads the value of a TLV, which is one of three things (AshlarCode says which):
   - A record: its fields are had by ashlar_read_address, ashlar_read_byte, ashlar_read_query,
     ashlar_read_association or ashlar_read_capability.
   - A list, whose entries may hold lists themselves, up to three levels. ashlar_entries begins to go over
     the entries, and ashlar_entry_next goes on. ashlar_entry_at and ashlar_entry_count ask for an entry
     and for its list's length by numbers. The fields of an entry are had by ashlar_entry_bss,
     ashlar_entry_ipv4 and so on, and what stands in front of a list by ashlar_front.
   - Texts, as names and addresses of devices: ashlar_text says where a text lies.

   A message that is longer than a frame comes in fragments, numbered from 0, the last one marked.
   ashlar_fragments_push keeps them in a table and joins them, ashlar_fragments_show says where the message
   lies, and ashlar_fragments_sweep drops what has waited for three seconds.

   Access points report which stations (phones, laptops) join and leave them, each time by a TLV of kind
   0x92. A station table keeps where each station is. It has nothing to do with the fragment table.
   ashlar_stations_event takes an event, and ashlar_stations_event_from reads it from a TLV's value first.
   ashlar_stations_at says where a station is. ashlar_stations_count and ashlar_stations_row list them all.

   Devices measure their links to neighbours. A TLV of kind 9 says what was sent, one of kind 10 what was
   received, each by a list of pairs: an interface and a neighbour's, with errors and packets between them.
   ashlar_link_report_tx and ashlar_link_report_rx add up the pairs of a value, and ashlar_link_merge makes
   one report of two.

   Writing: a message is put together TLV by TLV in one lent buffer, each call writing after the one
   before: a record by ashlar_write_address and its like, from its fields; a list by ashlar_write_kind,
   from bytes that ashlar_put_count, ashlar_put_bss and so on wrote; any other TLV by ashlar_write_tlv. The
   end marker is ashlar_write_kind of code 0 without bytes. ashlar_cut says where to cut the message into
   fragments, and ashlar_write_header writes the header of each. ashlar_check says whether others cut one
   as it has to be cut.

   What was pushed can be kept for an analyser such as Wireshark: ashlar_capture_header begins a capture, a
   file of the classic pcap form, and ashlar_capture_frame writes a fragment after it. Such files are read,
   too: ashlar_capture_check looks at the whole file, ashlar_capture_frames lists its 1905 frames, and
   ashlar_capture_step goes over them one by one. ashlar_capture_arrival makes of a frame what
   ashlar_fragments_push takes.

   Where bytes arrive piece by piece: a header or a payload that ends too early is refused with the number
   of bytes that are missing. A receive loop waits for that many more and calls again.

   The archive libashlar.a is for x86-64 with the System V calling convention. It calls nothing but memcpy,
   memmove and memset, and uses no heap. A call takes at most 1,536 bytes of stack, one of the station
   table at most 1,024 (rule C3).

   Every call takes any bytes, lengths and numbers, and answers or refuses with a number of AshlarRefusal.
   A call that refuses leaves everything it was lent as it was (rules A1 to A3). The following can't be
   checked by the calls and is expected of the caller (rule C2):
   - A slice is passed as two parameters: a pointer, and the number of elements there (bytes, TLVs or
     frames of a list, fragments, or ends). The elements exist while the call runs. An empty slice may have
     any pointer, a null pointer too (see the end of this file).
   - What is lent to be written (list, table, store, out, ends, cursor) overlaps nothing else that is lent
     to the same call.
   - Pointers are aligned as their types require, and a bool is 0 or 1.
   - A fragment table is one that ashlar_fragments_fresh made and that only ashlar_fragments_push and
     ashlar_fragments_sweep changed, or the same calls by their first names. One store belongs to it, always
     the same, which only a push writes. What the store holds at first doesn't matter.
   - A station table is one that ashlar_stations_fresh made and that only ashlar_stations_event and
     ashlar_stations_event_from changed, or the same calls by their first names. Other contents are safe,
     but the answers are then about those contents: a station may be in two rows.
   - There are no globals. Threads need a lock only for what they share: a table, with its store, may be in
     one call at a time, and so may a station table. */
#ifndef ASHLAR_H
#define ASHLAR_H
#include <stdbool.h>
#include <stddef.h>
#include <stdint.h>

#ifdef __cplusplus
extern "C" {
#endif

/* ---- Version and constants ---- */

/* This header's version, 1.4.0: major times 10,000, minor times 100, patch. ashlar_version() says the
   archive's; a program that finds another number there was built with another header. */
#define ASHLAR_VERSION 10400

#define ASHLAR_ETHERTYPE 0x893A         /* of every frame that carries a CMDU (IEEE 1905.1) */
/* the six bytes of the address to which multicast CMDUs go */
#define ASHLAR_MULTICAST "\x01\x80\xC2\x00\x00\x13"
#define ASHLAR_ETHERNET_HEADER 14       /* bytes of a frame before the CMDU's header: two addresses, a type */
#define ASHLAR_LEVELS 3                 /* levels of lists, at most (rule E1) */

#define ASHLAR_KEYS 16                  /* messages that a table holds fragments of, at most (rule T1) */
#define ASHLAR_PLACES 32                /* fragments that a table holds, at most */
#define ASHLAR_PAYLOAD 1492             /* bytes of a fragment's payload, at most (rule T4) */
#define ASHLAR_STORE 47744              /* bytes of a store, at least: ASHLAR_PLACES times ASHLAR_PAYLOAD */
#define ASHLAR_SENDER_KEYS 4            /* messages of one sender among these, at most (rule T6) */
#define ASHLAR_SENDER_PLACES 8          /* fragments of one sender among these, at most */
#define ASHLAR_FRAGMENTS 9              /* fragments of a message, at most (rules M3 and T9) */
#define ASHLAR_MESSAGE 13428            /* bytes of a joined message, at most: nine fragments (rule T9) */
#define ASHLAR_FRAGMENT_TABLE 528       /* bytes of an AshlarFragments */
#define ASHLAR_STATIONS 128             /* stations that a station table holds, at most (rule P1) */
#define ASHLAR_STATION_TABLE 2048       /* bytes of an AshlarStations */
#define ASHLAR_PAIRS 1024               /* pairs that a report is over, at most (rule Q4) */
#define ASHLAR_CMDU_HEADER 8            /* bytes of a CMDU header (rule B6) */
#define ASHLAR_FILE_HEADER 24           /* bytes of a capture's file header (rule G1) */
#define ASHLAR_FRAME 38                 /* bytes of a capture's frame besides its payload (rule G5) */
#define ASHLAR_OLD 3000                 /* milliseconds after which a sweep drops a message (rule S1) */
/* TLVs of a payload of `size` bytes, at most: ashlar_walk_into never refuses a list of that length with 14.
   Both are proved, and that a payload of that size has as many (rule W7). */
#define ASHLAR_TLVS(size) ((size) / 3)

/* ---- Refusals ---- */

/* What a field `refusal` says (rule N1). ashlar_refusal_name has each as a text. */
typedef enum {
    /* Nothing is refused: the other fields hold the answer. */
    ASHLAR_OK = 0,
    /* Fewer than three bytes are left where a TLV starts (`at` says where), or a header has fewer than eight.
       `shortfall` says how many of the three or eight are missing: wait for that many more. If no more come,
       the bytes are cut or are no row of TLVs: give them up. */
    ASHLAR_TOO_FEW_BYTES = 1,
    /* A TLV declares a longer value than there are bytes left; `at` says where. `shortfall` says how many
       bytes of the value are missing: wait for that many more. If no more come, the payload is cut or is no
       row of TLVs: give it up. Or a capture ends inside its file header, a record header or a frame, of
       which `shortfall` bytes are missing. */
    ASHLAR_RUNS_PAST_END = 2,
    /* A value ends inside its kind's layout, as where a count promises more entries than there are: skip the
       TLV. Or it ends inside the fields that are asked for. */
    ASHLAR_CUT_SHORT = 3,
    /* A value has bytes after its layout, in a kind that allows none (0, 6, 7, 9, 10): skip the TLV. Or a
       message that is to be checked or cut has bytes after its end marker: leave these out. The `padding` of
       ashlar_walk says how many they are. */
    ASHLAR_LEFT_OVER = 4,
    /* A role that is not 0, an association byte that is neither 0x80 nor 0, or profile 0: skip the TLV. */
    ASHLAR_BAD_VALUE = 5,
    /* A value has no text or entry with these numbers, or its kind has no entries. */
    ASHLAR_NO_ENTRY = 6,
    /* What is to be written has more bytes than the room. Or the message needs more fragments than `ends` has
       elements: call again with ASHLAR_FRAGMENTS elements, which is always enough. */
    ASHLAR_NO_ROOM = 7,
    /* A value to be written has more than 65,535 bytes. */
    ASHLAR_VALUE_TOO_LONG = 8,
    /* A record to be written is one that reading never gives, as a role other than 0 (rule O1). */
    ASHLAR_NEVER_READ = 9,
    /* All places are taken, or all keys are and the fragment starts a new message: sweep, or drop the
       fragment. Not given while fewer than four other senders have fragments in the table (rule D7). */
    ASHLAR_TABLE_FULL = 10,
    /* The store has fewer than ASHLAR_STORE bytes: a mistake of the caller. */
    ASHLAR_STORE_TOO_SMALL = 11,
    /* A fragment's payload has more than ASHLAR_PAYLOAD bytes: drop the fragment, or don't write it. */
    ASHLAR_PAYLOAD_TOO_LONG = 12,
    /* The message is whole but longer than the output. `length` says how long it is: push the same fragment
       again with an output of that many bytes. */
    ASHLAR_OUTPUT_TOO_SMALL = 13,
    /* The payload has more TLVs than the list has elements. `at` is the offset of the first TLV that has
       none: call again with a longer list. Or a capture has more 1905 frames: ashlar_capture_check says how
       many. */
    ASHLAR_LIST_TOO_SHORT = 14,
    /* The list has no readable TLV of this kind after its first `from` TLVs. `looked` is the list's
       length. */
    ASHLAR_NOT_FOUND = 15,
    /* The code is not in AshlarCode; or its kind doesn't have the fields that are asked for, or written. */
    ASHLAR_UNKNOWN_KIND = 16,
    /* A station joined that is not held, and ASHLAR_STATIONS others are. It stays unknown until one of them
       leaves and it joins again. */
    ASHLAR_NO_STATION_ROOM = 17,
    /* A text of a value is not valid UTF-8 (RFC 3629): skip the TLV. */
    ASHLAR_NOT_TEXT = 18,
    /* A value has more than 1,024 pairs, or two reports can't be made into one. */
    ASHLAR_NO_REPORT = 19,
    /* The fragment's sender has its share of the table: ASHLAR_SENDER_PLACES fragments, or
       ASHLAR_SENDER_KEYS messages and the fragment starts another. Drop the fragment: its message will not
       become whole. The sender gets room again when one of its messages ends or is swept. Other senders are
       not affected. */
    ASHLAR_SENDER_FULL = 20,
    /* No fragments can carry the message: a TLV has more than ASHLAR_PAYLOAD bytes with its first three, or
       more than ASHLAR_FRAGMENTS fragments would be needed, however the message is cut. Send its TLVs in
       several messages; a TLV that is too long can't be sent at all. */
    ASHLAR_NO_CUTTING = 21,
    /* A file has another magic, version or link type than a capture: it is not read. */
    ASHLAR_NOT_A_CAPTURE = 22,
    /* A frame of a capture was stored in part: the file is not read. Or the time of a frame to be written is
       2 to the 32 seconds or more. */
    ASHLAR_BAD_FRAME = 23
} AshlarRefusal;

/* ---- Kinds ---- */

/* The 25 kinds by the type byte of their TLVs (rules K2 to K6 and K8), and by what their fields are had.
   In a list a number in brackets is the level of an entry, from 1 for the outermost list. [0] is what
   stands in front of the list. A list begins with a count in one byte, but those of 6, 7, 9 and 10 go to
   the value's end. A text is UTF-8, and its bytes are kept as they are: zeros, a byte order mark and
   noncharacters too. Only a text in a field of 64 bytes ends at its first zero byte, and what follows that
   byte is not looked at (rules E5 and E6). A network's name (SSID) is any bytes. */
typedef enum {
    /* ends a message; no bytes */
    ASHLAR_END_OF_MESSAGE = 0,
    /* the sender's AL MAC address, the one that names a device: ashlar_read_address */
    ASHLAR_AL_MAC_ADDRESS = 1,
    /* the address of an interface: ashlar_read_address */
    ASHLAR_MAC_ADDRESS = 2,
    /* [1] a group of bridged interfaces, without fields, [2] an interface's address:
       ashlar_entry_interface */
    ASHLAR_DEVICE_BRIDGING_CAPABILITY = 4,
    /* [0] the local interface's address: ashlar_front; [1] a neighbour's address: ashlar_entry_neighbour */
    ASHLAR_NON_1905_NEIGHBOR_DEVICES = 6,
    /* [0] the local interface's address: ashlar_front; [1] a neighbour's AL MAC address and a byte of
       flags, of which bit 7 says that a bridge stands between: ashlar_entry_neighbour */
    ASHLAR_1905_NEIGHBOR_DEVICE = 7,
    /* a type byte (0 all neighbours, 1 one), that neighbour's address only if it is 1, and a byte that says
       which metrics (0 tx, 1 rx, 2 both): ashlar_read_query */
    ASHLAR_LINK_METRIC_QUERY = 8,
    /* [0] the AL MAC addresses of the device that reports and of its neighbour: ashlar_front; [1] a pair of
       interfaces and what was sent between them: ashlar_entry_tx_pair */
    ASHLAR_LINK_METRIC_TX = 9,
    /* the same with what was received: ashlar_front, ashlar_entry_rx_pair */
    ASHLAR_LINK_METRIC_RX = 10,
    /* 0 invalid neighbour: ashlar_read_byte */
    ASHLAR_LINK_METRIC_RESULT_CODE = 12,
    /* 0 registrar: ashlar_read_byte */
    ASHLAR_SEARCHED_ROLE = 13,
    /* 0 registrar: ashlar_read_byte */
    ASHLAR_SUPPORTED_ROLE = 15,
    /* 0 the band of 2.4 GHz, 1 of 5 GHz, 2 of 60 GHz: ashlar_read_byte */
    ASHLAR_SUPPORTED_FREQ_BAND = 16,
    /* three texts in fields of 64 bytes: name, manufacturer, model: ashlar_text 0, 1, 2 */
    ASHLAR_DEVICE_IDENTIFICATION_TYPE = 21,
    /* one text, which is the whole value: ashlar_text 0 */
    ASHLAR_CONTROL_URL = 22,
    /* [1] an interface's address: ashlar_entry_interface; [2] an IPv4 address of it: ashlar_entry_ipv4 */
    ASHLAR_IPV4 = 23,
    /* [1] an interface's address and its link-local IPv6 address: ashlar_entry_interface; [2] another IPv6
       address of it: ashlar_entry_ipv6 */
    ASHLAR_IPV6 = 24,
    /* 0 for IEEE 1905.1, 1 for 1905.1a: ashlar_read_byte */
    ASHLAR_PROFILE_VERSION = 26,
    /* [1] a service, 0 Multi-AP controller, 1 Multi-AP agent: ashlar_entry_byte */
    ASHLAR_SUPPORTED_SERVICE = 0x80,
    /* [1] a radio's id: ashlar_entry_radio; [2] a network of it, BSSID and name: ashlar_entry_bss; [3] a
       byte of the name: ashlar_entry_byte */
    ASHLAR_AP_OPERATIONAL_BSS = 0x83,
    /* the station's address first, then the BSSID of the access point, then a byte, 0x80 joined or 0 left:
       ashlar_read_association, or ashlar_stations_event_from */
    ASHLAR_CLIENT_ASSOCIATION = 0x92,
    /* 1, 2 or 3, the profile; never 0: ashlar_read_byte */
    ASHLAR_MULTI_AP_PROFILE = 0xB3,
    /* four bytes: ashlar_read_capability */
    ASHLAR_PROFILE_2_AP_CAPABILITY = 0xB4,
    /* [1] a radio's id: ashlar_entry_radio; [2] a network of it, BSSID, flags and name: ashlar_entry_bss;
       [3] a byte of the name: ashlar_entry_byte */
    ASHLAR_BSS_CONFIGURATION_REPORT = 0xB7,
    /* three texts, each after its length in one byte: serial number, software version, execution environment:
       ashlar_text 0, 1, 2; then [1] a radio, its id and its chipset's vendor: ashlar_entry_radio */
    ASHLAR_DEVICE_INVENTORY = 0xD4
} AshlarCode;

/* ---- Message types ---- */

/* The types of messages (IEEE 1905.1, 6.3, and Multi-AP, 17.1). The calls take any type; ashlar_message_name
   has each as a text. */
typedef enum {
    ASHLAR_TOPOLOGY_DISCOVERY = 0x0000,
    ASHLAR_TOPOLOGY_NOTIFICATION = 0x0001,
    ASHLAR_TOPOLOGY_QUERY = 0x0002,
    ASHLAR_TOPOLOGY_RESPONSE = 0x0003,
    ASHLAR_VENDOR_SPECIFIC = 0x0004,
    ASHLAR_METRIC_QUERY = 0x0005,
    ASHLAR_METRIC_RESPONSE = 0x0006,
    ASHLAR_AUTOCONFIGURATION_SEARCH = 0x0007,
    ASHLAR_AUTOCONFIGURATION_RESPONSE = 0x0008,
    ASHLAR_AUTOCONFIGURATION_WSC = 0x0009,
    ASHLAR_AUTOCONFIGURATION_RENEW = 0x000A,
    ASHLAR_PUSH_BUTTON_EVENT = 0x000B,
    ASHLAR_PUSH_BUTTON_JOIN = 0x000C,
    ASHLAR_HIGHER_LAYER_QUERY = 0x000D,
    ASHLAR_HIGHER_LAYER_RESPONSE = 0x000E,
    ASHLAR_POWER_CHANGE_REQUEST = 0x000F,
    ASHLAR_POWER_CHANGE_RESPONSE = 0x0010,
    ASHLAR_GENERIC_PHY_QUERY = 0x0011,
    ASHLAR_GENERIC_PHY_RESPONSE = 0x0012,
    ASHLAR_ACKNOWLEDGEMENT = 0x8000,
    ASHLAR_AP_CAPABILITY_QUERY = 0x8001,
    ASHLAR_AP_CAPABILITY_REPORT = 0x8002,
    ASHLAR_POLICY_REQUEST = 0x8003,
    ASHLAR_CHANNEL_PREFERENCE_QUERY = 0x8004,
    ASHLAR_CHANNEL_PREFERENCE_REPORT = 0x8005,
    ASHLAR_CHANNEL_SELECTION_REQUEST = 0x8006,
    ASHLAR_CHANNEL_SELECTION_RESPONSE = 0x8007,
    ASHLAR_OPERATING_CHANNEL_REPORT = 0x8008,
    ASHLAR_CLIENT_CAPABILITY_QUERY = 0x8009,
    ASHLAR_CLIENT_CAPABILITY_REPORT = 0x800A,
    ASHLAR_AP_METRICS_QUERY = 0x800B,
    ASHLAR_AP_METRICS_RESPONSE = 0x800C,
    ASHLAR_STA_LINK_METRICS_QUERY = 0x800D,
    ASHLAR_STA_LINK_METRICS_RESPONSE = 0x800E,
    ASHLAR_UNASSOCIATED_STA_METRICS_QUERY = 0x800F,
    ASHLAR_UNASSOCIATED_STA_METRICS_RESPONSE = 0x8010,
    ASHLAR_BEACON_METRICS_QUERY = 0x8011,
    ASHLAR_BEACON_METRICS_RESPONSE = 0x8012,
    ASHLAR_COMBINED_METRICS = 0x8013,
    ASHLAR_CLIENT_STEERING_REQUEST = 0x8014,
    ASHLAR_CLIENT_STEERING_REPORT = 0x8015,
    ASHLAR_ASSOCIATION_CONTROL_REQUEST = 0x8016,
    ASHLAR_STEERING_COMPLETED = 0x8017,
    ASHLAR_HIGHER_LAYER_DATA = 0x8018,
    ASHLAR_BACKHAUL_STEERING_REQUEST = 0x8019,
    ASHLAR_BACKHAUL_STEERING_RESPONSE = 0x801A,
    ASHLAR_CHANNEL_SCAN_REQUEST = 0x801B,
    ASHLAR_CHANNEL_SCAN_REPORT = 0x801C,
    ASHLAR_CLIENT_DISASSOCIATION = 0x8022,
    ASHLAR_ASSOCIATION_STATUS = 0x8025
} AshlarMessageType;

/* ---- Structs ---- */

/* An address of six bytes, as they stand in a frame: copy them in and out. */
typedef struct {
    uint8_t bytes[6];
} AshlarAddress;

/* A TLV of a payload. Its value is the `length` bytes that start at payload + offset + 3. */
typedef struct {
    uint8_t tlv_type; /* its type byte */
    uint16_t length;  /* bytes of its value */
    size_t offset;    /* where its type byte stands in the payload, from 0 */
} AshlarTlv;

/* What a field `answer` of an AshlarStep says (rule W6); 0 is ASHLAR_REFUSED. */
typedef enum {
    ASHLAR_PAYLOAD_END = 1, /* no byte is left, and there was no end marker */
    ASHLAR_TLV = 2,         /* `tlv`; the next step starts at `next` */
    ASHLAR_LAST_TLV = 3     /* `tlv` is the end marker; padding starts at `next` */
} AshlarStepAnswer;

/* What a step goes over. Where there is no TLV, `tlv` is all zeros, but for its offset where refused. */
typedef struct {
    AshlarTlv tlv;
    size_t next;      /* for 2 and 3, the offset after the TLV; else 0 */
    size_t shortfall; /* for refusals 1 and 2, how many bytes are missing; else 0 */
    uint8_t answer;   /* an AshlarStepAnswer, or ASHLAR_REFUSED: see `refusal` */
    uint8_t refusal;  /* an AshlarRefusal */
} AshlarStep;

/* The fields of a CMDU header in their order, as they stand there, none of them checked (rule B6). Where
   refused, everything but `shortfall` and `refusal` is 0. */
typedef struct {
    size_t shortfall;      /* where refused, how many of the eight bytes are missing; else 0 */
    uint8_t version;       /* the message version */
    uint8_t reserved;      /* a byte that has no meaning yet */
    uint16_t message_type;
    uint16_t message_id;   /* the same in all fragments of a message; part of AshlarArrival's key */
    uint8_t number;        /* the fragment's number, from 0 */
    uint8_t flags;         /* the whole byte */
    bool last;             /* whether the fragment is marked last: bit 7 of `flags`, the highest */
    uint8_t refusal;       /* an AshlarRefusal */
} AshlarHeader;

/* What a walk answers. It ends with the first end marker; without one, at the payload's end (rules W2 and
   W3). */
typedef struct {
    size_t count;     /* how many TLVs the message has, the marker included; 0 where refused */
    size_t padding;   /* how many bytes follow the marker, which are not looked at; 0 without one or where
                         refused */
    size_t at;        /* where refused, the offset of the TLV that doesn't read (1, 2) or fit (14); else 0 */
    size_t shortfall; /* for 1 and 2, how many bytes are missing; else 0. With fewer bytes appended to the
                         payload, the walk refuses with the same number at the same offset. With exactly that
                         many appended, it doesn't refuse with that number any more (rule W4). */
    uint8_t refusal;  /* an AshlarRefusal */
} AshlarWalk;

/* What a value reads as (rule K1). Where refused, everything else is 0. */
typedef struct {
    size_t entries;  /* for a list, how many entries its outermost level has; for 0xD4, how many radios; else
                        0 */
    size_t consumed; /* how many bytes of the value its kind's layout takes, from the first on */
    size_t rest;     /* how many bytes follow these: they belong to no field, and may be skipped (rule K4) */
    bool is_list;    /* true for a list and for a kind that holds text (21 and 22 have no entries) */
    uint8_t refusal; /* an AshlarRefusal */
} AshlarKind;

/* What a search answers. The TLV that was found is list[looked - 1]. */
typedef struct {
    size_t looked;   /* how many TLVs were looked at, from the list's start: the place of the one that was
                        found, counted from 1; the list's length for 15, and 0 for 16 */
    uint8_t refusal; /* an AshlarRefusal */
} AshlarFound;

/* Where a part of a value lies: the `length` bytes that start at value + start. Where refused, everything
   else is 0. */
typedef struct {
    size_t start;    /* the place of its first byte in the value, from 0; for an empty text, where it would
                        start */
    size_t length;   /* how many bytes it has; no zero byte is added to a text */
    uint8_t refusal; /* an AshlarRefusal */
} AshlarPart;

/* The fields of records (rule C6). In each struct that reading gives, `consumed` and `rest` are as in
   AshlarKind, and where refused everything but `refusal` is 0. A byte that is a code stays as it is beside
   what it says. */

/* An address, of kinds 1 and 2. */
typedef struct {
    size_t consumed;
    size_t rest;
    AshlarAddress address;
    uint8_t refusal; /* an AshlarRefusal */
} AshlarAddressRead;

/* A byte, of kinds 12, 13, 15, 16, 26 and 0xB3; AshlarCode says what it means. */
typedef struct {
    size_t consumed;
    size_t rest;
    uint8_t byte;
    bool reserved;   /* whether the byte has no name in AshlarCode's table (rule K5) */
    uint8_t refusal; /* an AshlarRefusal */
} AshlarByteRead;

/* A link metric query, kind 8. */
typedef struct {
    AshlarAddress neighbour; /* zeros where there is none */
    uint8_t neighbour_type;  /* 0 all neighbours, 1 one; others are reserved */
    bool has_neighbour;      /* whether the type is 1 */
    uint8_t metrics;         /* 0 tx, 1 rx, 2 both; others are reserved */
} AshlarQuery;

typedef struct {
    size_t consumed;
    size_t rest;
    AshlarQuery query;
    uint8_t refusal; /* an AshlarRefusal */
} AshlarQueryRead;

/* A client association event, kind 0x92. The access point is a BSSID: one device has one for each band and
   each network, so a station that changes its band moves. */
typedef struct {
    AshlarAddress station;
    AshlarAddress point;
    bool joined; /* true: the station joined the access point; false: it left */
} AshlarAssociation;

typedef struct {
    size_t consumed;
    size_t rest;
    AshlarAssociation association;
    uint8_t state;   /* the byte: 0x80 joined, 0 left */
    uint8_t refusal; /* an AshlarRefusal */
} AshlarAssociationRead;

/* A profile-2 AP capability, kind 0xB4 (rule K6). */
typedef struct {
    uint8_t max_prioritization_rules;
    uint8_t reserved;           /* a byte that has no meaning yet */
    uint8_t byte_counter_units; /* 0 bytes, 1 KiB, 2 MiB, 3 reserved */
    bool prioritization;
    bool dpp_onboarding;
    bool traffic_separation;
    uint8_t flags_reserved;     /* three bits that have no meaning yet, 0 to 7 */
    uint8_t max_vids;
} AshlarCapability;

typedef struct {
    size_t consumed;
    size_t rest;
    AshlarCapability capability;
    uint8_t flags;   /* the byte that holds the units, the three flags and the reserved bits */
    uint8_t refusal; /* an AshlarRefusal */
} AshlarCapabilityRead;

/* The numbers of an entry (rule E1): `depth` of them, i0 in the outermost list, i1 in that entry's list,
   i2 in the next, each from 0. */
typedef struct {
    size_t depth; /* how many of the numbers count */
    size_t i0;
    size_t i1;
    size_t i2;
} AshlarPath;

/* How many entries a list has. */
typedef struct {
    size_t entries;  /* 0 where refused */
    uint8_t refusal; /* an AshlarRefusal */
} AshlarCount;

/* Where a caller stands among the entries of a value (rule E9). Made by ashlar_entries, altered by
   ashlar_entry_next. To start again from some place, keep a copy. */
typedef struct {
    size_t at;     /* where the next entry starts in the value */
    size_t left1;  /* how many entries are still to come in the outermost list, */
    size_t left2;  /* in the open list one level down, */
    size_t left3;  /* and in the one below that */
    uint8_t code;  /* the kind */
    uint8_t depth; /* how many levels are gone into */
} AshlarCursor;

/* What ashlar_entries answers. Where refused, everything else is 0. */
typedef struct {
    AshlarCursor cursor;
    size_t entries;  /* these three are as in AshlarKind */
    size_t consumed;
    size_t rest;
    uint8_t refusal; /* an AshlarRefusal */
} AshlarBegun;

/* What a field `answer` of an AshlarEntry says; 0 is ASHLAR_REFUSED. */
typedef enum {
    ASHLAR_NO_MORE = 1, /* the entries are over */
    ASHLAR_ENTRY = 2    /* an entry */
} AshlarEntryAnswer;

/* An entry that is gone over. Where there is none, everything but `answer` and `refusal` is 0. */
typedef struct {
    size_t start;    /* where it starts in the value: the `at` of the calls that read its fields */
    size_t entries;  /* how many entries its own list has, gone into or not; 0 without a list */
    uint8_t level;   /* 1 for an entry of the outermost list, 2 for one of that entry's list, 3 */
    uint8_t answer;  /* an AshlarEntryAnswer, or ASHLAR_REFUSED: see `refusal` */
    uint8_t refusal; /* an AshlarRefusal */
} AshlarEntry;

/* The fields of entries (rules K8 and E11). Where refused, everything but `refusal` is 0. A place, as
   `name_start`, is an offset in the value. Numbers of several bytes come highest byte first in the value,
   and are numbers here. */

/* What stands in front of the list of kinds 6, 7, 9 and 10. */
typedef struct {
    AshlarAddress local;     /* 6 and 7: the local interface; 9 and 10: the AL MAC address of who reports */
    AshlarAddress neighbour; /* 9 and 10: the neighbour's AL MAC address; else zeros */
    uint8_t refusal;         /* an AshlarRefusal */
} AshlarFront;

/* A neighbour, of kinds 6 and 7. */
typedef struct {
    AshlarAddress address; /* 6: its interface; 7: its AL MAC address */
    uint8_t flags;         /* 7: bit 7, the highest, says that a bridge stands between; 6: 0 */
    uint8_t refusal;       /* an AshlarRefusal */
} AshlarNeighbour;

/* An interface, of kinds 4 (level 2), 23 and 24 (level 1). */
typedef struct {
    AshlarAddress address;
    uint8_t link_local[16]; /* 24: its link-local IPv6 address; else zeros */
    uint8_t refusal;        /* an AshlarRefusal */
} AshlarInterface;

/* An IPv4 address of an interface, kind 23, level 2. */
typedef struct {
    uint8_t address[4];
    uint8_t dhcp_server[4];
    uint8_t type;    /* 0 unknown, 1 DHCP, 2 static, 3 auto-IP */
    uint8_t refusal; /* an AshlarRefusal */
} AshlarIpv4;

/* An IPv6 address of an interface, kind 24, level 2. */
typedef struct {
    uint8_t address[16];
    uint8_t origin[16]; /* who gave it: a DHCP server or a router */
    uint8_t type;       /* 0 unknown, 1 DHCP, 2 static, 3 SLAAC */
    uint8_t refusal;    /* an AshlarRefusal */
} AshlarIpv6;

/* A byte that is an entry: a service of 0x80, or a byte of a network's name (level 3 of 0x83 and 0xB7). */
typedef struct {
    uint8_t byte;
    uint8_t refusal; /* an AshlarRefusal */
} AshlarByte;

/* A radio, of kinds 0x83, 0xB7 and 0xD4. */
typedef struct {
    size_t text_start;  /* 0xD4: its chipset's vendor, a text; else 0 */
    size_t text_length;
    AshlarAddress id;
    uint8_t refusal;    /* an AshlarRefusal */
} AshlarRadio;

/* A network of a radio, kinds 0x83 and 0xB7, level 2. */
typedef struct {
    size_t name_start;   /* its name (SSID) */
    size_t name_length;
    AshlarAddress bssid; /* the access point that stations join */
    uint8_t flags;       /* 0xB7: what kind of network it is; 0x83: 0 */
    uint8_t reserved;    /* 0xB7: a byte that has no meaning yet; 0x83: 0 */
    uint8_t refusal;     /* an AshlarRefusal */
} AshlarBss;

/* A pair of kind 9: what was sent from an interface to a neighbour's (rule Q1). */
typedef struct {
    uint32_t errors;         /* packets that failed */
    uint32_t packets;
    uint16_t media;          /* the type of the medium (IEEE 1905.1, table 6-12) */
    uint16_t throughput;     /* of the MAC layer at most, in Mb/s */
    uint16_t availability;   /* the share of time at which the link is free, in percent */
    uint16_t rate;           /* of the physical layer, in Mb/s */
    AshlarAddress own;       /* the interface of who reports */
    AshlarAddress neighbour; /* the neighbour's interface */
    uint8_t bridge;          /* whether a bridge stands between */
    uint8_t refusal;         /* an AshlarRefusal */
} AshlarTxPair;

/* A pair of kind 10: what was received. */
typedef struct {
    uint32_t errors;
    uint32_t packets;
    uint16_t media;
    AshlarAddress own;
    AshlarAddress neighbour;
    int8_t signal;   /* its strength, -128 to 127 (rule Q2) */
    uint8_t refusal; /* an AshlarRefusal */
} AshlarRxPair;

/* The fragments that are held, without their payloads (rules T1 and T14). Only to be looked at. A row of the
   lists of ASHLAR_KEYS elements is a message that waits. A row of the other lists is a place with a fragment
   of it. Where a row or a place is free, all its elements are 0. No fragment that is held is marked last: one
   that is marked ends its message at once, or is a duplicate. The lowest row of a sender says how many
   messages and fragments of it are held; its other rows have 0 there (rule T15). */
typedef struct {
    uint64_t row_keys[ASHLAR_KEYS];         /* the key of the message */
    uint64_t firsts[ASHLAR_KEYS];           /* the time at which its first fragment came */
    uint16_t message_types[ASHLAR_PLACES];  /* the message type in the fragment's header */
    uint16_t sizes[ASHLAR_PLACES];          /* bytes of its payload; place i of the store starts at i times
                                               1,492 */
    uint8_t owners[ASHLAR_PLACES];          /* 1 more than its message's row, 0 where the place is free */
    uint8_t numbers[ASHLAR_PLACES];         /* its number */
    uint8_t versions[ASHLAR_PLACES];        /* the message version in its header */
    bool used[ASHLAR_KEYS];                 /* whether the row holds a message */
    uint8_t sender_keys[ASHLAR_KEYS];       /* in the sender's lowest row, how many messages it has here */
    uint8_t sender_places[ASHLAR_KEYS];     /* there too, how many fragments */
} AshlarFragments;

/* What the table keeps of a fragment's header: fields of an AshlarHeader, with the same names (rule T3). */
typedef struct {
    uint16_t message_type;
    uint8_t version; /* the message version */
    uint8_t number;  /* the fragment's number, from 0 */
    bool last;       /* whether it is marked last: bit 7 of the header's flags */
} AshlarFragment;

/* A fragment that arrives, without its payload. */
typedef struct {
    uint64_t key;            /* what ashlar_key gives for its sender and message id (rule T2) */
    uint64_t time;           /* now, in milliseconds of the caller's clock */
    AshlarFragment fragment;
} AshlarArrival;

/* What a field `answer` says (rules T5 to T9). After 3 to 7 the message has ended: its key holds nothing. */
typedef enum {
    ASHLAR_REFUSED = 0,      /* see `refusal` */
    ASHLAR_WAITING = 1,      /* the fragment is kept, and more are to come */
    ASHLAR_DUPLICATED = 2,   /* a fragment with this number is kept already, and stays. Nothing changes and
                                nothing is joined, even if this one is marked last */
    ASHLAR_INCONSISTENT = 3, /* the last one came, but the fragments don't agree on version and type */
    ASHLAR_MISSING = 4,      /* the last one came, but the numbers are not 0 to n-1: one is lost or late */
    ASHLAR_MISSING_LAST = 5, /* the last one came, but a fragment with a higher number is kept */
    ASHLAR_SINGLE = 6,       /* the message is whole: it is this fragment's payload */
    ASHLAR_JOINED = 7        /* the message is whole: it is at the start of the output */
} AshlarAnswer;

/* What a push answers. */
typedef struct {
    size_t length;   /* for 6 and 7, the bytes of the message; for refusal 13, those that the output needs;
                        else 0 */
    uint8_t answer;  /* an AshlarAnswer */
    uint8_t refusal; /* an AshlarRefusal */
} AshlarPushed;

/* Where a message lies: the first `length` bytes of the output or of the payload. */
typedef struct {
    size_t length;  /* 0 where there is no message */
    bool in_output; /* true: of the output; false: of the payload that was pushed */
} AshlarShown;

/* A fragment that somebody cut, as it is proposed to ashlar_check (rule M2): fields of an AshlarHeader, with
   the same names, and where its payload lies: the `length` bytes that start at payloads + start. Nothing is
   copied. Parts of `payloads` may lie in any order, and may overlap. */
typedef struct {
    uint8_t version;       /* the message version */
    uint16_t message_type;
    uint16_t message_id;
    uint8_t number;        /* the fragment's number, from 0 */
    bool last;             /* whether it is marked last */
    size_t start;          /* the place of its payload's first byte in `payloads`, from 0 */
    size_t length;         /* bytes of its payload */
} AshlarProposed;

/* What a check answers. Where refused, it is the message itself that is. */
typedef struct {
    size_t at;        /* for 1 and 2, the offset of the TLV that doesn't read; else 0 */
    size_t shortfall; /* for 1 and 2, how many bytes of the message are missing; else 0 */
    bool accepted;    /* whether the fragments are a cutting of the message; false where refused */
    uint8_t refusal;  /* an AshlarRefusal */
} AshlarChecked;

/* What cutting a message answers. */
typedef struct {
    size_t count;     /* how many fragments there are, and ends in the list: 1 to ASHLAR_FRAGMENTS; 0 where
                         refused */
    size_t at;        /* for 1 and 2, the offset of the TLV that doesn't read; else 0 */
    size_t shortfall; /* for 1 and 2, how many bytes of the message are missing; else 0 */
    uint8_t refusal;  /* an AshlarRefusal */
} AshlarCutting;

/* The access point that each station is at. Only to be looked at, here or by the calls. An address as a
   number is its six bytes, the first byte highest. Rows are in no order (rule P7). */
typedef struct {
    uint64_t stations[ASHLAR_STATIONS]; /* 1 more than the number of the station's address; 0 in a free row */
    uint64_t points[ASHLAR_STATIONS];   /* the number of its access point's address; 0 in a free row */
} AshlarStations;

/* What a field `answer` of an AshlarHeard says (rules P2 and P3); 0 is ASHLAR_REFUSED. */
typedef enum {
    ASHLAR_PLACED = 1,  /* a join: the station was not held, and is now at this access point */
    ASHLAR_MOVED = 2,   /* a join: the station was at another access point, `from`, and is now at this one */
    ASHLAR_SAME = 3,    /* a join: the station was at this access point already */
    ASHLAR_REMOVED = 4, /* a leave: the station was at this access point, and is not held any more */
    ASHLAR_STALE = 5    /* a leave: the station is at another access point, or not held, and nothing changes.
                           An old access point often reports a leave only after the station joined the
                           new one */
} AshlarEventAnswer;

/* What an event did. */
typedef struct {
    AshlarAddress from; /* for 2, the access point where the station was; else zeros */
    uint8_t answer;     /* an AshlarEventAnswer, or ASHLAR_REFUSED: see `refusal` */
    uint8_t refusal;    /* an AshlarRefusal */
} AshlarHeard;

/* What an event did that was read from a value. Where refused, everything else is 0. */
typedef struct {
    size_t consumed;   /* how many bytes of the value the event took: 13 */
    size_t rest;       /* how many bytes follow these: they belong to no field, and may be skipped */
    AshlarHeard heard;
} AshlarApplied;

/* Where a station is. */
typedef struct {
    AshlarAddress point; /* the access point; zeros where the station is not held */
    bool held;           /* whether the table holds the station */
} AshlarAt;

/* What a row of a station table holds. */
typedef struct {
    AshlarAddress station; /* zeros where the row is free */
    AshlarAddress point;   /* the access point where it is; zeros where the row is free */
    bool held;             /* whether the row holds a station; an address of zeros can be a station's too */
} AshlarRow;

/* The pairs of a link metric, added up (rules Q4 to Q7). The totals are exact, and nothing is divided: the
   share of errors is errors / packets, which a caller divides where packets is not 0, and the mean signal
   strength is sum / count. Where refused, everything else is 0. */
typedef struct {
    uint64_t errors;  /* the sum of the pairs' errors */
    uint64_t packets; /* the sum of their packets */
    int32_t sum;      /* for kind 10, the sum of their signal strengths; else 0 */
    uint16_t count;   /* how many pairs there are: at most ASHLAR_PAIRS */
    uint8_t kind;     /* ASHLAR_LINK_METRIC_TX or ASHLAR_LINK_METRIC_RX */
    int8_t lowest;    /* for kind 10, the lowest of their signal strengths, from -128 to 127; 0 where there is
                         none */
    bool has_lowest;  /* whether there is a lowest: for kind 10, whether there is a pair; for 9 false */
    uint8_t refusal;  /* an AshlarRefusal */
} AshlarReport;

/* What a CMDU header that is written says (rule B7). */
typedef struct {
    uint8_t version;       /* the message version */
    uint16_t message_type;
    uint16_t message_id;
    uint8_t number;        /* the fragment's number, from 0 */
    bool last;             /* whether the fragment is marked last */
} AshlarFields;

/* What a writer answers. */
typedef struct {
    size_t length;   /* how many bytes were written, from the first of the room on; 0 where refused */
    uint8_t refusal; /* an AshlarRefusal */
} AshlarWritten;

/* The CMDU header of a frame, its fields as they stand there (rule B6). */
typedef struct {
    uint8_t version;       /* the message version */
    uint8_t reserved;
    uint16_t message_type;
    uint16_t message_id;
    uint8_t number;        /* the fragment's number, from 0 */
    uint8_t flags;         /* the whole byte */
    bool last;             /* whether the fragment is marked last: bit 7 of `flags`, the highest */
} AshlarCmdu;

/* A 1905 frame of a capture (rules G4 and G9). Its payload is the `length` bytes that start at file + offset,
   padding included. */
typedef struct {
    uint32_t seconds;      /* when it was seen, as the file says */
    uint32_t microseconds; /* the file may say more than 999,999 */
    AshlarAddress sender;
    AshlarCmdu cmdu;
    size_t offset;
    size_t length;
} AshlarFrame;

/* What a field `answer` of an AshlarReached says (rule G7); 0 is ASHLAR_REFUSED. */
typedef enum {
    ASHLAR_FILE_END = 1,    /* no byte is left */
    ASHLAR_1905_FRAME = 2,  /* `frame` */
    ASHLAR_OTHER_FRAME = 3  /* a frame that is none of 1905: it is passed over */
} AshlarRecordAnswer;

/* What a step goes over. Where there is no 1905 frame, `frame` is all zeros. */
typedef struct {
    AshlarFrame frame;
    size_t next;      /* for 2 and 3, where the next step starts; else 0 */
    size_t shortfall; /* for refusal 2, how many bytes are missing; else 0 */
    uint8_t answer;   /* an AshlarRecordAnswer, or ASHLAR_REFUSED: see `refusal` */
    uint8_t refusal;  /* an AshlarRefusal */
} AshlarReached;

/* What a capture holds. Where refused, everything but `shortfall` and `refusal` is 0. */
typedef struct {
    size_t frames;    /* how many 1905 frames */
    size_t others;    /* how many others, which are passed over */
    size_t shortfall; /* for refusal 2, how many bytes are missing; else 0 */
    uint8_t refusal;  /* an AshlarRefusal */
} AshlarCapture;

/* ---- Calls ---- */

/* Returns the archive's version, to be compared with ASHLAR_VERSION. */
uint32_t ashlar_version(void);

/* ---- Bytes and TLVs ---- */

/* Reads the header of a CMDU, the first eight of the bytes. What follows these is not looked at (rule B6).
   Refusals: 1. */
AshlarHeader ashlar_read_header(const uint8_t *bytes, size_t bytes_length);

/* Writes the header of a CMDU to the first eight bytes of `out`, with the reserved byte and the other flags
   0. Bytes of `out` past these stay as they are (rule B7). Refusals: 7. */
AshlarWritten ashlar_write_header(AshlarFields fields, uint8_t *out, size_t out_length);

/* Writes a TLV of any type, its three bytes and its value, to the start of `out`. Bytes of `out` past
   these stay as they are (rule B5). Refusals: 8, 7. */
AshlarWritten ashlar_write_tlv(uint8_t tlv_type, const uint8_t *value, size_t value_length, uint8_t *out,
                               size_t out_length);

/* Goes over the TLV at the offset `at` of a payload: at 0 for the first, at an answer's `next` for those
   after it (rule W6). A task that has no room for a list goes over a payload so; and where a walk refuses,
   the TLVs before the fault are had so. Refusals: 1, 2. */
AshlarStep ashlar_step(const uint8_t *payload, size_t payload_length, size_t at);

/* Counts the TLVs of a payload up to its end marker, and the bytes of padding after it (rules W1 to W4).
   Mind a joined message: a fragment that is not the last one and was padded by Ethernet puts zeros into
   it, and three of these are taken for the end marker. What followed is then padding. So look at the
   `padding` bytes at the end of a joined message: if one of them is not 0, a tail was lost. Refusals: 1,
   2. */
AshlarWalk ashlar_walk(const uint8_t *payload, size_t payload_length);

/* The same, and lists the TLVs in the first elements of `list`, which has `list_length` elements. The others
   stay as they are (rule W5). Refusals: 1, 2, 14. */
AshlarWalk ashlar_walk_into(AshlarTlv *list, size_t list_length, const uint8_t *payload,
                            size_t payload_length);

/* ---- Values ---- */

/* Reads the value of a TLV as the kind with this code (rules K1 to K7). A value that ends inside its layout
   is refused by 3, whatever its texts are. Refusals: 3, 4, 5, 16, 18. */
AshlarKind ashlar_read_kind(uint8_t code, const uint8_t *value, size_t value_length);

/* Finds the first TLV of the list, after its first `from` TLVs, that has this code, lies inside the payload,
   and whose value reads. `from` is 0 for the first, and an answer's `looked` for the next (rules F1 to F3).
   Refusals: 15, 16. */
AshlarFound ashlar_find(const AshlarTlv *list, size_t list_length, const uint8_t *payload,
                        size_t payload_length, uint8_t code, size_t from);

/* Says where the text with this number, from 0, lies in a value of the kind with this code. Kinds 21 and 0xD4
   have three texts, 22 has one, any other kind none. The value is read whole first (rule E7). Refusals: those
   of ashlar_read_kind, and then 6 where there is no such text. */
AshlarPart ashlar_text(uint8_t code, size_t number, const uint8_t *value, size_t value_length);

/* The fields of a record by the kind with this code (rule C6). Refusals: 16 for a kind that is no record,
   then those of ashlar_read_kind (3, 4, 5), then 16 for a record that has other fields. */
AshlarAddressRead ashlar_read_address(uint8_t code, const uint8_t *value, size_t value_length);
AshlarByteRead ashlar_read_byte(uint8_t code, const uint8_t *value, size_t value_length);

/* The fields of a link metric query, kind 8. Refusals: 3. */
AshlarQueryRead ashlar_read_query(const uint8_t *value, size_t value_length);

/* The fields of a client association event, kind 0x92. Refusals: 3, 5. */
AshlarAssociationRead ashlar_read_association(const uint8_t *value, size_t value_length);

/* The fields of a profile-2 AP capability, kind 0xB4. Refusals: 3. */
AshlarCapabilityRead ashlar_read_capability(const uint8_t *value, size_t value_length);

/* Writes a record as a TLV of the kind with this code, from its fields, to the start of `out`. Bytes of
   `out` past these stay as they are (rule C7). Refusals: 16 for a kind that has no such fields; 9 for
   fields that reading never gives: a byte of kind 13 or 15 other than 0, a profile 0, a `has_neighbour`
   that isn't whether the type is 1, a neighbour without it, units above 3, reserved bits above 7; then 7. */
AshlarWritten ashlar_write_address(uint8_t code, AshlarAddress address, uint8_t *out, size_t out_length);
AshlarWritten ashlar_write_byte(uint8_t code, uint8_t byte, uint8_t *out, size_t out_length);
AshlarWritten ashlar_write_query(AshlarQuery query, uint8_t *out, size_t out_length);
AshlarWritten ashlar_write_association(AshlarAssociation association, uint8_t *out, size_t out_length);
AshlarWritten ashlar_write_capability(AshlarCapability capability, uint8_t *out, size_t out_length);

/* Writes the bytes of a value as a TLV of the kind with this code. They are read first, and what follows the
   bytes consumed is not written (rule O2). Refusals: 16, 3, 18, 4, 5, 8, 7, in this order. */
AshlarWritten ashlar_write_kind(uint8_t code, const uint8_t *value, size_t value_length, uint8_t *out,
                                size_t out_length);

/* ---- Entries of lists ---- */

/* Begins to go over the entries of a value of the kind with this code: the value is read whole, once. An
   entry comes before those of its list. Lists below the level `depth` are passed over, so that with 2 the
   networks of kind 0x83 come and not the bytes of their names; ASHLAR_LEVELS or more gives all, 0 none
   (rule E9). Refusals: those of ashlar_read_kind, then 6 for a record. */
AshlarBegun ashlar_entries(uint8_t code, uint8_t depth, const uint8_t *value, size_t value_length);

/* Goes on to the next entry of the same value, which isn't read again. Over an unaltered value the entries
   are those that ashlar_entry_at gives, every one, in order (rule E10). A cursor that ashlar_entries
   didn't make, or a value that was altered, gets an answer or a refusal. The cursor changes only where
   there is an entry. Refusals: 3, 6, 16. */
AshlarEntry ashlar_entry_next(AshlarCursor *cursor, const uint8_t *value, size_t value_length);

/* Says where the entry with these numbers lies, from its first byte to the end of the lists that it holds
   (rules E1 and E2). The value is read whole first: to have all entries, go over them by ashlar_entries.
   Refusals: those of ashlar_read_kind, then 6. */
AshlarPart ashlar_entry_at(uint8_t code, AshlarPath path, const uint8_t *value, size_t value_length);

/* Says how many entries the list of the entry with these numbers has; without numbers, the value's own list
   (rule E3). Refusals: those of ashlar_read_kind, then 6. */
AshlarCount ashlar_entry_count(uint8_t code, AshlarPath path, const uint8_t *value, size_t value_length);

/* What stands in front of the list of kinds 6, 7, 9 and 10. Refusals: 16 for another kind, 3. */
AshlarFront ashlar_front(uint8_t code, const uint8_t *value, size_t value_length);

/* The fields of the entry that starts at `at`, by the kind with this code: `at` is the `start` of an
   AshlarEntry or of an AshlarPart (rule E11). It looks at these fields alone. AshlarCode says which
   entries have them. Refusals: 16 for a kind that has none, 3 where the value ends inside them. */
AshlarNeighbour ashlar_entry_neighbour(uint8_t code, const uint8_t *value, size_t value_length, size_t at);
AshlarInterface ashlar_entry_interface(uint8_t code, const uint8_t *value, size_t value_length, size_t at);
AshlarIpv4 ashlar_entry_ipv4(const uint8_t *value, size_t value_length, size_t at);
AshlarIpv6 ashlar_entry_ipv6(const uint8_t *value, size_t value_length, size_t at);
AshlarByte ashlar_entry_byte(uint8_t code, const uint8_t *value, size_t value_length, size_t at);
AshlarRadio ashlar_entry_radio(uint8_t code, const uint8_t *value, size_t value_length, size_t at);
AshlarBss ashlar_entry_bss(uint8_t code, const uint8_t *value, size_t value_length, size_t at);
AshlarTxPair ashlar_entry_tx_pair(const uint8_t *value, size_t value_length, size_t at);
AshlarRxPair ashlar_entry_rx_pair(const uint8_t *value, size_t value_length, size_t at);

/* The same the other way round: writes the fields of an entry by the kind with this code to the start of
   `out`, and a name or a text after them with its length (rule O5). The value of a list is put together
   so: the front or the count, then each entry, after its fields the count of its own list, and so on;
   ashlar_write_kind then makes a TLV of it. `refusal`, `name_start` and `name_length` of a struct are not
   looked at. Bytes of `out` past what is written stay as they are. Refusals: 16 for a kind that has none;
   9 for fields that reading never gives: one that the kind lacks and that isn't 0, a text or name above
   255 bytes or where there is none, a count above 255; then 7. */
AshlarWritten ashlar_put_count(size_t count, uint8_t *out, size_t out_length);
AshlarWritten ashlar_put_front(uint8_t code, AshlarAddress local, AshlarAddress neighbour, uint8_t *out,
                               size_t out_length);
AshlarWritten ashlar_put_neighbour(uint8_t code, AshlarNeighbour neighbour, uint8_t *out, size_t out_length);
AshlarWritten ashlar_put_interface(uint8_t code, AshlarInterface interface, uint8_t *out, size_t out_length);
AshlarWritten ashlar_put_ipv4(AshlarIpv4 ipv4, uint8_t *out, size_t out_length);
AshlarWritten ashlar_put_ipv6(AshlarIpv6 ipv6, uint8_t *out, size_t out_length);
AshlarWritten ashlar_put_byte(uint8_t code, uint8_t byte, uint8_t *out, size_t out_length);
AshlarWritten ashlar_put_radio(uint8_t code, AshlarAddress id, const uint8_t *text, size_t text_length,
                               uint8_t *out, size_t out_length);
AshlarWritten ashlar_put_bss(uint8_t code, AshlarBss bss, const uint8_t *name, size_t name_length,
                             uint8_t *out, size_t out_length);
AshlarWritten ashlar_put_tx_pair(AshlarTxPair pair, uint8_t *out, size_t out_length);
AshlarWritten ashlar_put_rx_pair(AshlarRxPair pair, uint8_t *out, size_t out_length);

/* ---- Fragments ---- */

/* The key of a sender and a message id (rule T2). The sender is the frame's source address, which every
   fragment has. The AL MAC address of a message stands in a TLV, so it is known only once the message is
   whole; and a device that sends by two interfaces has two source addresses and one AL MAC address. */
uint64_t ashlar_key(AshlarAddress sender, uint16_t message_id);

/* Makes the table hold no fragment, whatever it held (rule T14). It is made in place. */
void ashlar_fragments_fresh(AshlarFragments *table);

/* Takes a fragment (rules T4 to T9). A message that is joined from several fragments is written to the start
   of `out`. The other bytes of `out` stay as they are; for any other answer all of them do. Mind that a
   fragment which comes again after its message has ended opens its key again: it waits until the sweep drops
   it. Refusals: 11, 12, 20, 10, 13. */
AshlarPushed ashlar_fragments_push(AshlarFragments *table, uint8_t *store, size_t store_length, uint8_t *out,
                                   size_t out_length, AshlarArrival arrival, const uint8_t *payload,
                                   size_t payload_length);

/* Says where the message of a push lies, given that push's answer, payload and output (rule T10). */
AshlarShown ashlar_fragments_show(AshlarPushed pushed, const uint8_t *payload, size_t payload_length,
                                  const uint8_t *out, size_t out_length);

/* Drops every message whose first fragment came ASHLAR_OLD milliseconds or more before `time`, with all its
   fragments, and returns how many. None of them had its last fragment. Where the clock went back, none is
   dropped (rules S1 to S3). */
size_t ashlar_fragments_sweep(AshlarFragments *table, uint64_t time);

/* Says whether fragments are a cutting of the message: whether others cut it as it has to be cut (rules M3
   and M4). They are if there are one to ASHLAR_FRAGMENTS; the one at place i, from 0, has number i; only
   the final one is marked last; all have equal version, type and id; each payload lies inside `payloads`,
   has at most ASHLAR_PAYLOAD bytes and is a run of one or more whole TLVs; and the payloads, joined, are
   the message. Only the empty message is one empty fragment. Any number of fragments may be asked about.
   The message may be without an end marker. Where it is refused, the fragments make no difference.
   Refusals: 1, 2, 4. */
AshlarChecked ashlar_check(const uint8_t *message, size_t message_length, const AshlarProposed *fragments,
                           size_t fragments_length, const uint8_t *payloads, size_t payloads_length);

/* Cuts a message into the fewest fragments that can carry it: fills each one as far as whole TLVs go, and
   writes to `ends` where each one ends (rule M5). Ends are offsets in the message, and rise; the last one is
   the message's length. From the ends a caller makes the fragments: fragment i, from 0, has number i, is
   marked last if i + 1 is `count`, and its payload is the part of the message from ends[i - 1], or 0 for the
   first, up to ends[i]. The empty message is one fragment without bytes. Under any version, type and id
   ashlar_check accepts these fragments, with the message as `payloads` (rule M6). The message may be without
   an end marker. Elements of `ends` past the last end stay as they are; where refused, all do. Refusals: 1 or
   2, 4, 21, 7, in this order. */
AshlarCutting ashlar_cut(const uint8_t *message, size_t message_length, size_t *ends, size_t ends_length);

/* ---- Stations ---- */

/* Makes the table hold no station, whatever it held: all its bytes are 0. It is made in place, so it never
   takes stack. */
void ashlar_stations_fresh(AshlarStations *table);

/* Takes an event: a station joined an access point, or left it (rules P2 to P4). A join puts the station
   there, wherever it was. A leave of any access point but the one where the station is changes nothing: it is
   stale. A station that is held is never refused. Mind that stations never age: those of an access point that
   died stay there until they join another one. When a caller knows that it died, it takes a leave of each by
   ashlar_stations_event, for each row whose `point` is that BSSID. Refusals: 17, for a join only. */
AshlarHeard ashlar_stations_event(AshlarStations *table, AshlarAddress station, AshlarAddress point,
                                  bool joined);

/* The same, read from the value of a TLV of kind 0x92 (rule P6). A value that doesn't read changes nothing.
   Refusals: 3, 5, 17, in this order. */
AshlarApplied ashlar_stations_event_from(AshlarStations *table, const uint8_t *value, size_t value_length);

/* Says where a station is: at the access point of its latest join that was not refused, unless a leave after
   that join named the same access point (rule P5). */
AshlarAt ashlar_stations_at(const AshlarStations *table, AshlarAddress station);

/* Returns how many stations are held. */
size_t ashlar_stations_count(const AshlarStations *table);

/* The station in row n, from 0, and its access point. Free rows lie between others: call it for each n below
   ASHLAR_STATIONS to list every station once. A row past these is free (rule P7). */
AshlarRow ashlar_stations_row(const AshlarStations *table, size_t n);

/* ---- Links ---- */

/* Adds up the pairs of the value of a TLV of kind 9. A value without pairs has a report too: its totals are 0
   (rule Q4). Refusals: 3, 4, then 19 for more than ASHLAR_PAIRS pairs. */
AshlarReport ashlar_link_report_tx(const uint8_t *value, size_t value_length);

/* The same for kind 10, with the signal strengths. Each is its byte as a number from -128 to 127 (rule Q2).
   Refusals: 3, 4, 19. */
AshlarReport ashlar_link_report_rx(const uint8_t *value, size_t value_length);

/* Makes one report of two of one kind, as of two shifts or two devices: the report over the pairs of both, in
   either order (rule Q7). It can be merged again. Refusals: 19, where the kinds differ, where there are more
   than ASHLAR_PAIRS pairs together, or where no value gives one of the two (rules Q6 and C4). Such a report
   has totals that so many pairs can't have, a kind that is neither 9 nor 10, or a lowest other than 0 without
   its flag. One that was refused is among them, for its kind is 0. `refusal` is not looked at. */
AshlarReport ashlar_link_merge(AshlarReport one, AshlarReport other);

/* ---- Captures ---- */

/* Writes the file header of a capture, ASHLAR_FILE_HEADER bytes, to the start of `out`. Bytes of `out` past
   these stay as they are, here and in the next call (rule G5). Refusals: 7. */
AshlarWritten ashlar_capture_header(uint8_t *out, size_t out_length);

/* Writes a fragment as a frame of a capture, ASHLAR_FRAME bytes and the payload, to the start of `out`.
   Arrival and payload are those of ashlar_fragments_push (rule G5). Refusals: 12, then 23 for a time of 2
   to the 32 seconds or more, then 7. */
AshlarWritten ashlar_capture_frame(AshlarArrival arrival, const uint8_t *payload, size_t payload_length,
                                   uint8_t *out, size_t out_length);

/* Checks a whole capture, with its numbers in either byte order, and counts its frames (rule G6). Refusals: 2
   or 22 for the file header; then record by record 2 for a cut record header, 23, 2 for a cut frame. */
AshlarCapture ashlar_capture_check(const uint8_t *file, size_t file_length);

/* Goes over the record at the offset `at` of a capture: at ASHLAR_FILE_HEADER for the first, at an answer's
   `next` for those after it. It looks at the file header and at this record alone. Where ashlar_capture_check
   refuses nothing, no such step does (rule G7). Refusals: those of ashlar_capture_check. */
AshlarReached ashlar_capture_step(const uint8_t *file, size_t file_length, size_t at);

/* Checks a whole capture as ashlar_capture_check does, and lists its 1905 frames in the first elements of
   `list`, in the file's order. The others stay as they are; where it refuses, all do (rule G8). Refusals:
   those of ashlar_capture_check, then 14. */
AshlarCapture ashlar_capture_frames(AshlarFrame *list, size_t list_length, const uint8_t *file,
                                    size_t file_length);

/* Returns what ashlar_fragments_push takes of a frame, but for its payload. The time is in milliseconds,
   rounded down (rules G3 and G9). */
AshlarArrival ashlar_capture_arrival(AshlarFrame frame);

/* ---- First names ---- */

/* The calls on both tables, and on radios, by the names that they had first: who calls them still can (rule
   C1). Each is the call of today's name, refuses with the same numbers, and may be given the same table. */
#define ASHLAR_TABLE 528                /* bytes of an AshlarTable */
typedef AshlarFragments AshlarTable;

/* Returns a table that holds nothing: the one that ashlar_fragments_fresh makes in place. */
AshlarTable ashlar_fresh(void);

/* ashlar_fragments_push, _show and _sweep. Refusals of the first: 11, 12, 20, 10, 13. */
AshlarPushed ashlar_push(AshlarTable *table, uint8_t *store, size_t store_length, uint8_t *out,
                         size_t out_length, AshlarArrival arrival, const uint8_t *payload,
                         size_t payload_length);
AshlarShown ashlar_show(AshlarPushed pushed, const uint8_t *payload, size_t payload_length,
                        const uint8_t *out, size_t out_length);
size_t ashlar_sweep(AshlarTable *table, uint64_t time);

/* ashlar_stations_event, _event_from, _at, _count and _row. Refusals of the first: 17, for a join only; of the
   second: 3, 5, 17, in this order. */
AshlarHeard ashlar_station_event(AshlarStations *table, AshlarAddress station, AshlarAddress point,
                                 bool joined);
AshlarApplied ashlar_station_event_from(AshlarStations *table, const uint8_t *value, size_t value_length);
AshlarAt ashlar_station_at(const AshlarStations *table, AshlarAddress station);
size_t ashlar_station_count(const AshlarStations *table);
AshlarRow ashlar_station_row(const AshlarStations *table, size_t n);

/* Says where the radio with this number, from 0, lies in a value of kind 0xD4: its id of 6 bytes, the length
   of its text in one byte, and its text (rule E8). It is ashlar_entry_at with one number. Refusals: 3, 18,
   6. */
AshlarPart ashlar_radio(size_t number, const uint8_t *value, size_t value_length);

/* Says where the text of that radio lies. Refusals: 3, 18, 6. */
AshlarPart ashlar_radio_text(size_t number, const uint8_t *value, size_t value_length);

#ifdef __cplusplus
}
#endif

/* ---- Empty slices ---- */

/* The archive wants a pointer that is not null, for an empty slice too. So each call above that takes
   slices is called through a function here, which puts another pointer in a null pointer's place. */
static inline const uint8_t *ashlar_bytes(const uint8_t *bytes) {
    return bytes ? bytes : (const uint8_t *)"";
}

/* An element that is never looked at. */
static inline void *ashlar_none(void) {
    static uint64_t none;
    return &none;
}

#define ASHLAR_LENT(type, lent) ((lent) ? (lent) : (type *)ashlar_none())
#define ASHLAR_CALL(answer, name, parameters, arguments) \
    static inline answer name##_of parameters { return name arguments; }

ASHLAR_CALL(AshlarHeader, ashlar_read_header, (const uint8_t *bytes, size_t bytes_length),
            (ashlar_bytes(bytes), bytes_length))
#define ashlar_read_header ashlar_read_header_of
ASHLAR_CALL(AshlarWritten, ashlar_write_header, (AshlarFields fields, uint8_t *out, size_t out_length),
            (fields, ASHLAR_LENT(uint8_t, out), out_length))
#define ashlar_write_header ashlar_write_header_of
ASHLAR_CALL(AshlarWritten, ashlar_write_tlv, (uint8_t tlv_type, const uint8_t *value, size_t value_length,
            uint8_t *out, size_t out_length), (tlv_type, ashlar_bytes(value), value_length,
            ASHLAR_LENT(uint8_t, out), out_length))
#define ashlar_write_tlv ashlar_write_tlv_of
ASHLAR_CALL(AshlarStep, ashlar_step, (const uint8_t *payload, size_t payload_length, size_t at),
            (ashlar_bytes(payload), payload_length, at))
#define ashlar_step ashlar_step_of
ASHLAR_CALL(AshlarWalk, ashlar_walk, (const uint8_t *payload, size_t payload_length),
            (ashlar_bytes(payload), payload_length))
#define ashlar_walk ashlar_walk_of
ASHLAR_CALL(AshlarWalk, ashlar_walk_into, (AshlarTlv *list, size_t list_length, const uint8_t *payload,
            size_t payload_length), (ASHLAR_LENT(AshlarTlv, list), list_length, ashlar_bytes(payload),
            payload_length))
#define ashlar_walk_into ashlar_walk_into_of
ASHLAR_CALL(AshlarKind, ashlar_read_kind, (uint8_t code, const uint8_t *value, size_t value_length), (code,
            ashlar_bytes(value), value_length))
#define ashlar_read_kind ashlar_read_kind_of
ASHLAR_CALL(AshlarFound, ashlar_find, (const AshlarTlv *list, size_t list_length, const uint8_t *payload,
            size_t payload_length, uint8_t code, size_t from), (ASHLAR_LENT(const AshlarTlv, list),
            list_length, ashlar_bytes(payload), payload_length, code, from))
#define ashlar_find ashlar_find_of
ASHLAR_CALL(AshlarPart, ashlar_text, (uint8_t code, size_t number, const uint8_t *value, size_t
            value_length), (code, number, ashlar_bytes(value), value_length))
#define ashlar_text ashlar_text_of
ASHLAR_CALL(AshlarAddressRead, ashlar_read_address, (uint8_t code, const uint8_t *value, size_t
            value_length), (code, ashlar_bytes(value), value_length))
#define ashlar_read_address ashlar_read_address_of
ASHLAR_CALL(AshlarByteRead, ashlar_read_byte, (uint8_t code, const uint8_t *value, size_t value_length),
            (code, ashlar_bytes(value), value_length))
#define ashlar_read_byte ashlar_read_byte_of
ASHLAR_CALL(AshlarQueryRead, ashlar_read_query, (const uint8_t *value, size_t value_length),
            (ashlar_bytes(value), value_length))
#define ashlar_read_query ashlar_read_query_of
ASHLAR_CALL(AshlarAssociationRead, ashlar_read_association, (const uint8_t *value, size_t value_length),
            (ashlar_bytes(value), value_length))
#define ashlar_read_association ashlar_read_association_of
ASHLAR_CALL(AshlarCapabilityRead, ashlar_read_capability, (const uint8_t *value, size_t value_length),
            (ashlar_bytes(value), value_length))
#define ashlar_read_capability ashlar_read_capability_of
ASHLAR_CALL(AshlarWritten, ashlar_write_address, (uint8_t code, AshlarAddress address, uint8_t *out, size_t
            out_length), (code, address, ASHLAR_LENT(uint8_t, out), out_length))
#define ashlar_write_address ashlar_write_address_of
ASHLAR_CALL(AshlarWritten, ashlar_write_byte, (uint8_t code, uint8_t byte, uint8_t *out, size_t out_length),
            (code, byte, ASHLAR_LENT(uint8_t, out), out_length))
#define ashlar_write_byte ashlar_write_byte_of
ASHLAR_CALL(AshlarWritten, ashlar_write_query, (AshlarQuery query, uint8_t *out, size_t out_length), (query,
            ASHLAR_LENT(uint8_t, out), out_length))
#define ashlar_write_query ashlar_write_query_of
ASHLAR_CALL(AshlarWritten, ashlar_write_association, (AshlarAssociation association, uint8_t *out, size_t
            out_length), (association, ASHLAR_LENT(uint8_t, out), out_length))
#define ashlar_write_association ashlar_write_association_of
ASHLAR_CALL(AshlarWritten, ashlar_write_capability, (AshlarCapability capability, uint8_t *out, size_t
            out_length), (capability, ASHLAR_LENT(uint8_t, out), out_length))
#define ashlar_write_capability ashlar_write_capability_of
ASHLAR_CALL(AshlarWritten, ashlar_write_kind, (uint8_t code, const uint8_t *value, size_t value_length,
            uint8_t *out, size_t out_length), (code, ashlar_bytes(value), value_length, ASHLAR_LENT(uint8_t,
            out), out_length))
#define ashlar_write_kind ashlar_write_kind_of
ASHLAR_CALL(AshlarBegun, ashlar_entries, (uint8_t code, uint8_t depth, const uint8_t *value, size_t
            value_length), (code, depth, ashlar_bytes(value), value_length))
#define ashlar_entries ashlar_entries_of
ASHLAR_CALL(AshlarEntry, ashlar_entry_next, (AshlarCursor *cursor, const uint8_t *value, size_t
            value_length), (cursor, ashlar_bytes(value), value_length))
#define ashlar_entry_next ashlar_entry_next_of
ASHLAR_CALL(AshlarPart, ashlar_entry_at, (uint8_t code, AshlarPath path, const uint8_t *value, size_t
            value_length), (code, path, ashlar_bytes(value), value_length))
#define ashlar_entry_at ashlar_entry_at_of
ASHLAR_CALL(AshlarCount, ashlar_entry_count, (uint8_t code, AshlarPath path, const uint8_t *value, size_t
            value_length), (code, path, ashlar_bytes(value), value_length))
#define ashlar_entry_count ashlar_entry_count_of
ASHLAR_CALL(AshlarFront, ashlar_front, (uint8_t code, const uint8_t *value, size_t value_length), (code,
            ashlar_bytes(value), value_length))
#define ashlar_front ashlar_front_of
ASHLAR_CALL(AshlarNeighbour, ashlar_entry_neighbour, (uint8_t code, const uint8_t *value, size_t
            value_length, size_t at), (code, ashlar_bytes(value), value_length, at))
#define ashlar_entry_neighbour ashlar_entry_neighbour_of
ASHLAR_CALL(AshlarInterface, ashlar_entry_interface, (uint8_t code, const uint8_t *value, size_t
            value_length, size_t at), (code, ashlar_bytes(value), value_length, at))
#define ashlar_entry_interface ashlar_entry_interface_of
ASHLAR_CALL(AshlarIpv4, ashlar_entry_ipv4, (const uint8_t *value, size_t value_length, size_t at),
            (ashlar_bytes(value), value_length, at))
#define ashlar_entry_ipv4 ashlar_entry_ipv4_of
ASHLAR_CALL(AshlarIpv6, ashlar_entry_ipv6, (const uint8_t *value, size_t value_length, size_t at),
            (ashlar_bytes(value), value_length, at))
#define ashlar_entry_ipv6 ashlar_entry_ipv6_of
ASHLAR_CALL(AshlarByte, ashlar_entry_byte, (uint8_t code, const uint8_t *value, size_t value_length, size_t
            at), (code, ashlar_bytes(value), value_length, at))
#define ashlar_entry_byte ashlar_entry_byte_of
ASHLAR_CALL(AshlarRadio, ashlar_entry_radio, (uint8_t code, const uint8_t *value, size_t value_length,
            size_t at), (code, ashlar_bytes(value), value_length, at))
#define ashlar_entry_radio ashlar_entry_radio_of
ASHLAR_CALL(AshlarBss, ashlar_entry_bss, (uint8_t code, const uint8_t *value, size_t value_length, size_t
            at), (code, ashlar_bytes(value), value_length, at))
#define ashlar_entry_bss ashlar_entry_bss_of
ASHLAR_CALL(AshlarTxPair, ashlar_entry_tx_pair, (const uint8_t *value, size_t value_length, size_t at),
            (ashlar_bytes(value), value_length, at))
#define ashlar_entry_tx_pair ashlar_entry_tx_pair_of
ASHLAR_CALL(AshlarRxPair, ashlar_entry_rx_pair, (const uint8_t *value, size_t value_length, size_t at),
            (ashlar_bytes(value), value_length, at))
#define ashlar_entry_rx_pair ashlar_entry_rx_pair_of
ASHLAR_CALL(AshlarWritten, ashlar_put_count, (size_t count, uint8_t *out, size_t out_length), (count,
            ASHLAR_LENT(uint8_t, out), out_length))
#define ashlar_put_count ashlar_put_count_of
ASHLAR_CALL(AshlarWritten, ashlar_put_front, (uint8_t code, AshlarAddress local, AshlarAddress neighbour,
            uint8_t *out, size_t out_length), (code, local, neighbour, ASHLAR_LENT(uint8_t, out),
            out_length))
#define ashlar_put_front ashlar_put_front_of
ASHLAR_CALL(AshlarWritten, ashlar_put_neighbour, (uint8_t code, AshlarNeighbour neighbour, uint8_t *out,
            size_t out_length), (code, neighbour, ASHLAR_LENT(uint8_t, out), out_length))
#define ashlar_put_neighbour ashlar_put_neighbour_of
ASHLAR_CALL(AshlarWritten, ashlar_put_interface, (uint8_t code, AshlarInterface interface, uint8_t *out,
            size_t out_length), (code, interface, ASHLAR_LENT(uint8_t, out), out_length))
#define ashlar_put_interface ashlar_put_interface_of
ASHLAR_CALL(AshlarWritten, ashlar_put_ipv4, (AshlarIpv4 ipv4, uint8_t *out, size_t out_length), (ipv4,
            ASHLAR_LENT(uint8_t, out), out_length))
#define ashlar_put_ipv4 ashlar_put_ipv4_of
ASHLAR_CALL(AshlarWritten, ashlar_put_ipv6, (AshlarIpv6 ipv6, uint8_t *out, size_t out_length), (ipv6,
            ASHLAR_LENT(uint8_t, out), out_length))
#define ashlar_put_ipv6 ashlar_put_ipv6_of
ASHLAR_CALL(AshlarWritten, ashlar_put_byte, (uint8_t code, uint8_t byte, uint8_t *out, size_t out_length),
            (code, byte, ASHLAR_LENT(uint8_t, out), out_length))
#define ashlar_put_byte ashlar_put_byte_of
ASHLAR_CALL(AshlarWritten, ashlar_put_radio, (uint8_t code, AshlarAddress id, const uint8_t *text, size_t
            text_length, uint8_t *out, size_t out_length), (code, id, ashlar_bytes(text), text_length,
            ASHLAR_LENT(uint8_t, out), out_length))
#define ashlar_put_radio ashlar_put_radio_of
ASHLAR_CALL(AshlarWritten, ashlar_put_bss, (uint8_t code, AshlarBss bss, const uint8_t *name, size_t
            name_length, uint8_t *out, size_t out_length), (code, bss, ashlar_bytes(name), name_length,
            ASHLAR_LENT(uint8_t, out), out_length))
#define ashlar_put_bss ashlar_put_bss_of
ASHLAR_CALL(AshlarWritten, ashlar_put_tx_pair, (AshlarTxPair pair, uint8_t *out, size_t out_length), (pair,
            ASHLAR_LENT(uint8_t, out), out_length))
#define ashlar_put_tx_pair ashlar_put_tx_pair_of
ASHLAR_CALL(AshlarWritten, ashlar_put_rx_pair, (AshlarRxPair pair, uint8_t *out, size_t out_length), (pair,
            ASHLAR_LENT(uint8_t, out), out_length))
#define ashlar_put_rx_pair ashlar_put_rx_pair_of
ASHLAR_CALL(AshlarPushed, ashlar_fragments_push, (AshlarFragments *table, uint8_t *store, size_t
            store_length, uint8_t *out, size_t out_length, AshlarArrival arrival, const uint8_t *payload,
            size_t payload_length), (table, ASHLAR_LENT(uint8_t, store), store_length, ASHLAR_LENT(uint8_t,
            out), out_length, arrival, ashlar_bytes(payload), payload_length))
#define ashlar_fragments_push ashlar_fragments_push_of
ASHLAR_CALL(AshlarShown, ashlar_fragments_show, (AshlarPushed pushed, const uint8_t *payload, size_t
            payload_length, const uint8_t *out, size_t out_length), (pushed, ashlar_bytes(payload),
            payload_length, ashlar_bytes(out), out_length))
#define ashlar_fragments_show ashlar_fragments_show_of
ASHLAR_CALL(AshlarChecked, ashlar_check, (const uint8_t *message, size_t message_length, const
            AshlarProposed *fragments, size_t fragments_length, const uint8_t *payloads, size_t
            payloads_length), (ashlar_bytes(message), message_length, ASHLAR_LENT(const AshlarProposed,
            fragments), fragments_length, ashlar_bytes(payloads), payloads_length))
#define ashlar_check ashlar_check_of
ASHLAR_CALL(AshlarCutting, ashlar_cut, (const uint8_t *message, size_t message_length, size_t *ends, size_t
            ends_length), (ashlar_bytes(message), message_length, ASHLAR_LENT(size_t, ends), ends_length))
#define ashlar_cut ashlar_cut_of
ASHLAR_CALL(AshlarApplied, ashlar_stations_event_from, (AshlarStations *table, const uint8_t *value, size_t
            value_length), (table, ashlar_bytes(value), value_length))
#define ashlar_stations_event_from ashlar_stations_event_from_of
ASHLAR_CALL(AshlarReport, ashlar_link_report_tx, (const uint8_t *value, size_t value_length),
            (ashlar_bytes(value), value_length))
#define ashlar_link_report_tx ashlar_link_report_tx_of
ASHLAR_CALL(AshlarReport, ashlar_link_report_rx, (const uint8_t *value, size_t value_length),
            (ashlar_bytes(value), value_length))
#define ashlar_link_report_rx ashlar_link_report_rx_of
ASHLAR_CALL(AshlarWritten, ashlar_capture_header, (uint8_t *out, size_t out_length), (ASHLAR_LENT(uint8_t,
            out), out_length))
#define ashlar_capture_header ashlar_capture_header_of
ASHLAR_CALL(AshlarWritten, ashlar_capture_frame, (AshlarArrival arrival, const uint8_t *payload, size_t
            payload_length, uint8_t *out, size_t out_length), (arrival, ashlar_bytes(payload),
            payload_length, ASHLAR_LENT(uint8_t, out), out_length))
#define ashlar_capture_frame ashlar_capture_frame_of
ASHLAR_CALL(AshlarCapture, ashlar_capture_check, (const uint8_t *file, size_t file_length),
            (ashlar_bytes(file), file_length))
#define ashlar_capture_check ashlar_capture_check_of
ASHLAR_CALL(AshlarReached, ashlar_capture_step, (const uint8_t *file, size_t file_length, size_t at),
            (ashlar_bytes(file), file_length, at))
#define ashlar_capture_step ashlar_capture_step_of
ASHLAR_CALL(AshlarCapture, ashlar_capture_frames, (AshlarFrame *list, size_t list_length, const uint8_t
            *file, size_t file_length), (ASHLAR_LENT(AshlarFrame, list), list_length, ashlar_bytes(file),
            file_length))
#define ashlar_capture_frames ashlar_capture_frames_of
ASHLAR_CALL(AshlarPushed, ashlar_push, (AshlarTable *table, uint8_t *store, size_t store_length, uint8_t
            *out, size_t out_length, AshlarArrival arrival, const uint8_t *payload, size_t payload_length),
            (table, ASHLAR_LENT(uint8_t, store), store_length, ASHLAR_LENT(uint8_t, out), out_length, arrival,
            ashlar_bytes(payload), payload_length))
#define ashlar_push ashlar_push_of
ASHLAR_CALL(AshlarShown, ashlar_show, (AshlarPushed pushed, const uint8_t *payload, size_t payload_length,
            const uint8_t *out, size_t out_length), (pushed, ashlar_bytes(payload), payload_length,
            ashlar_bytes(out), out_length))
#define ashlar_show ashlar_show_of
ASHLAR_CALL(AshlarApplied, ashlar_station_event_from, (AshlarStations *table, const uint8_t *value, size_t
            value_length), (table, ashlar_bytes(value), value_length))
#define ashlar_station_event_from ashlar_station_event_from_of
ASHLAR_CALL(AshlarPart, ashlar_radio, (size_t number, const uint8_t *value, size_t value_length), (number,
            ashlar_bytes(value), value_length))
#define ashlar_radio ashlar_radio_of
ASHLAR_CALL(AshlarPart, ashlar_radio_text, (size_t number, const uint8_t *value, size_t value_length),
            (number, ashlar_bytes(value), value_length))
#define ashlar_radio_text ashlar_radio_text_of

/* ---- Names ---- */

/* What a refusal's number says, in a few words. */
static inline const char *ashlar_refusal_name(uint8_t refusal) {
    static const char *const names[] = {
        "nothing is refused", "too few bytes", "runs past the end", "cut short", "left over",
        "bad value", "no such entry", "no room", "value too long", "a record that reading never gives",
        "table full", "store too small", "payload too long", "output too small", "list too short",
        "not found", "unknown kind", "no room for a station", "not text", "no report", "sender's share full",
        "no cutting", "not a capture", "bad frame"};
    return refusal < sizeof names / sizeof *names ? names[refusal] : "no refusal's number";
}

/* What the answer of a push says, in a few words. */
static inline const char *ashlar_answer_name(uint8_t answer) {
    static const char *const names[] = {
        "refused", "waiting", "duplicated", "inconsistent", "missing fragments",
        "missing its last fragment", "whole, in one fragment", "whole, joined"};
    return answer < sizeof names / sizeof *names ? names[answer] : "no answer's number";
}

/* What the answer to an event says, in a few words. */
static inline const char *ashlar_event_name(uint8_t answer) {
    static const char *const names[] = {"refused", "placed", "moved", "there already", "removed", "stale"};
    return answer < sizeof names / sizeof *names ? names[answer] : "no answer's number";
}

/* The name of a kind by its code, as the standards have it; a null pointer for a code that no kind has. */
static inline const char *ashlar_kind_name(uint8_t code) {
    switch (code) {
    case ASHLAR_END_OF_MESSAGE: return "end of message";
    case ASHLAR_AL_MAC_ADDRESS: return "AL MAC address";
    case ASHLAR_MAC_ADDRESS: return "MAC address";
    case ASHLAR_DEVICE_BRIDGING_CAPABILITY: return "bridging capability";
    case ASHLAR_NON_1905_NEIGHBOR_DEVICES: return "non-1905 neighbours";
    case ASHLAR_1905_NEIGHBOR_DEVICE: return "1905 neighbours";
    case ASHLAR_LINK_METRIC_QUERY: return "link metric query";
    case ASHLAR_LINK_METRIC_TX: return "link metric tx";
    case ASHLAR_LINK_METRIC_RX: return "link metric rx";
    case ASHLAR_LINK_METRIC_RESULT_CODE: return "link metric result";
    case ASHLAR_SEARCHED_ROLE: return "searched role";
    case ASHLAR_SUPPORTED_ROLE: return "supported role";
    case ASHLAR_SUPPORTED_FREQ_BAND: return "supported band";
    case ASHLAR_DEVICE_IDENTIFICATION_TYPE: return "device identification";
    case ASHLAR_CONTROL_URL: return "control URL";
    case ASHLAR_IPV4: return "IPv4";
    case ASHLAR_IPV6: return "IPv6";
    case ASHLAR_PROFILE_VERSION: return "profile version";
    case ASHLAR_SUPPORTED_SERVICE: return "supported service";
    case ASHLAR_AP_OPERATIONAL_BSS: return "operational BSS";
    case ASHLAR_CLIENT_ASSOCIATION: return "client association";
    case ASHLAR_MULTI_AP_PROFILE: return "Multi-AP profile";
    case ASHLAR_PROFILE_2_AP_CAPABILITY: return "AP capability (profile 2)";
    case ASHLAR_BSS_CONFIGURATION_REPORT: return "BSS configuration";
    case ASHLAR_DEVICE_INVENTORY: return "device inventory";
    default: return 0;
    }
}

/* The name of a message type; a null pointer for one that is not in AshlarMessageType. */
static inline const char *ashlar_message_name(uint16_t message_type) {
    switch (message_type) {
    case ASHLAR_TOPOLOGY_DISCOVERY: return "topology discovery";
    case ASHLAR_TOPOLOGY_NOTIFICATION: return "topology notification";
    case ASHLAR_TOPOLOGY_QUERY: return "topology query";
    case ASHLAR_TOPOLOGY_RESPONSE: return "topology response";
    case ASHLAR_VENDOR_SPECIFIC: return "vendor specific";
    case ASHLAR_METRIC_QUERY: return "link metric query";
    case ASHLAR_METRIC_RESPONSE: return "link metric response";
    case ASHLAR_AUTOCONFIGURATION_SEARCH: return "autoconfiguration search";
    case ASHLAR_AUTOCONFIGURATION_RESPONSE: return "autoconfiguration response";
    case ASHLAR_AUTOCONFIGURATION_WSC: return "autoconfiguration WSC";
    case ASHLAR_AUTOCONFIGURATION_RENEW: return "autoconfiguration renew";
    case ASHLAR_PUSH_BUTTON_EVENT: return "push button event";
    case ASHLAR_PUSH_BUTTON_JOIN: return "push button join";
    case ASHLAR_HIGHER_LAYER_QUERY: return "higher layer query";
    case ASHLAR_HIGHER_LAYER_RESPONSE: return "higher layer response";
    case ASHLAR_POWER_CHANGE_REQUEST: return "power change request";
    case ASHLAR_POWER_CHANGE_RESPONSE: return "power change response";
    case ASHLAR_GENERIC_PHY_QUERY: return "generic PHY query";
    case ASHLAR_GENERIC_PHY_RESPONSE: return "generic PHY response";
    case ASHLAR_ACKNOWLEDGEMENT: return "acknowledgement";
    case ASHLAR_AP_CAPABILITY_QUERY: return "AP capability query";
    case ASHLAR_AP_CAPABILITY_REPORT: return "AP capability report";
    case ASHLAR_POLICY_REQUEST: return "policy request";
    case ASHLAR_CHANNEL_PREFERENCE_QUERY: return "channel preference query";
    case ASHLAR_CHANNEL_PREFERENCE_REPORT: return "channel preference report";
    case ASHLAR_CHANNEL_SELECTION_REQUEST: return "channel selection request";
    case ASHLAR_CHANNEL_SELECTION_RESPONSE: return "channel selection response";
    case ASHLAR_OPERATING_CHANNEL_REPORT: return "operating channel report";
    case ASHLAR_CLIENT_CAPABILITY_QUERY: return "client capability query";
    case ASHLAR_CLIENT_CAPABILITY_REPORT: return "client capability report";
    case ASHLAR_AP_METRICS_QUERY: return "AP metrics query";
    case ASHLAR_AP_METRICS_RESPONSE: return "AP metrics response";
    case ASHLAR_STA_LINK_METRICS_QUERY: return "STA link metrics query";
    case ASHLAR_STA_LINK_METRICS_RESPONSE: return "STA link metrics response";
    case ASHLAR_UNASSOCIATED_STA_METRICS_QUERY: return "unassociated STA metrics query";
    case ASHLAR_UNASSOCIATED_STA_METRICS_RESPONSE: return "unassociated STA metrics response";
    case ASHLAR_BEACON_METRICS_QUERY: return "beacon metrics query";
    case ASHLAR_BEACON_METRICS_RESPONSE: return "beacon metrics response";
    case ASHLAR_COMBINED_METRICS: return "combined metrics";
    case ASHLAR_CLIENT_STEERING_REQUEST: return "client steering request";
    case ASHLAR_CLIENT_STEERING_REPORT: return "client steering report";
    case ASHLAR_ASSOCIATION_CONTROL_REQUEST: return "association control request";
    case ASHLAR_STEERING_COMPLETED: return "steering completed";
    case ASHLAR_HIGHER_LAYER_DATA: return "higher layer data";
    case ASHLAR_BACKHAUL_STEERING_REQUEST: return "backhaul steering request";
    case ASHLAR_BACKHAUL_STEERING_RESPONSE: return "backhaul steering response";
    case ASHLAR_CHANNEL_SCAN_REQUEST: return "channel scan request";
    case ASHLAR_CHANNEL_SCAN_REPORT: return "channel scan report";
    case ASHLAR_CLIENT_DISASSOCIATION: return "client disassociation";
    case ASHLAR_ASSOCIATION_STATUS: return "association status";
    default: return 0;
    }
}
#endif
