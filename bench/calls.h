/* What the benchmark and the tests want beside include/ashlar.h: plain C's calls of plain.c and plain_fields.c, each of its
   exported call's type, and CALL(name), which is ashlar_name, or plain_name where PLAIN is defined. */
#ifndef CALLS_H
#define CALLS_H
#include "../include/ashlar.h"

__typeof__(ashlar_version) plain_version;
__typeof__(ashlar_read_header) plain_read_header;
__typeof__(ashlar_write_header) plain_write_header;
__typeof__(ashlar_write_tlv) plain_write_tlv;
__typeof__(ashlar_step) plain_step;
__typeof__(ashlar_walk) plain_walk;
__typeof__(ashlar_walk_into) plain_walk_into;
__typeof__(ashlar_read_kind) plain_read_kind;
__typeof__(ashlar_find) plain_find;
__typeof__(ashlar_text) plain_text;
__typeof__(ashlar_radio) plain_radio;
__typeof__(ashlar_radio_text) plain_radio_text;
__typeof__(ashlar_read_address) plain_read_address;
__typeof__(ashlar_read_byte) plain_read_byte;
__typeof__(ashlar_read_query) plain_read_query;
__typeof__(ashlar_read_association) plain_read_association;
__typeof__(ashlar_read_capability) plain_read_capability;
__typeof__(ashlar_write_address) plain_write_address;
__typeof__(ashlar_write_byte) plain_write_byte;
__typeof__(ashlar_write_query) plain_write_query;
__typeof__(ashlar_write_association) plain_write_association;
__typeof__(ashlar_write_capability) plain_write_capability;
__typeof__(ashlar_write_kind) plain_write_kind;
__typeof__(ashlar_entries) plain_entries;
__typeof__(ashlar_entry_next) plain_entry_next;
__typeof__(ashlar_entry_at) plain_entry_at;
__typeof__(ashlar_entry_count) plain_entry_count;
__typeof__(ashlar_front) plain_front;
__typeof__(ashlar_entry_neighbour) plain_entry_neighbour;
__typeof__(ashlar_entry_interface) plain_entry_interface;
__typeof__(ashlar_entry_ipv4) plain_entry_ipv4;
__typeof__(ashlar_entry_ipv6) plain_entry_ipv6;
__typeof__(ashlar_entry_byte) plain_entry_byte;
__typeof__(ashlar_entry_radio) plain_entry_radio;
__typeof__(ashlar_entry_bss) plain_entry_bss;
__typeof__(ashlar_entry_tx_pair) plain_entry_tx_pair;
__typeof__(ashlar_entry_rx_pair) plain_entry_rx_pair;
__typeof__(ashlar_put_count) plain_put_count;
__typeof__(ashlar_put_front) plain_put_front;
__typeof__(ashlar_put_neighbour) plain_put_neighbour;
__typeof__(ashlar_put_interface) plain_put_interface;
__typeof__(ashlar_put_ipv4) plain_put_ipv4;
__typeof__(ashlar_put_ipv6) plain_put_ipv6;
__typeof__(ashlar_put_byte) plain_put_byte;
__typeof__(ashlar_put_radio) plain_put_radio;
__typeof__(ashlar_put_bss) plain_put_bss;
__typeof__(ashlar_put_tx_pair) plain_put_tx_pair;
__typeof__(ashlar_put_rx_pair) plain_put_rx_pair;
__typeof__(ashlar_key) plain_key;
__typeof__(ashlar_fresh) plain_fresh;
__typeof__(ashlar_push) plain_push;
__typeof__(ashlar_show) plain_show;
__typeof__(ashlar_sweep) plain_sweep;
__typeof__(ashlar_fragments_fresh) plain_fragments_fresh;
__typeof__(ashlar_fragments_push) plain_fragments_push;
__typeof__(ashlar_fragments_show) plain_fragments_show;
__typeof__(ashlar_fragments_sweep) plain_fragments_sweep;
__typeof__(ashlar_check) plain_check;
__typeof__(ashlar_cut) plain_cut;
__typeof__(ashlar_stations_fresh) plain_stations_fresh;
__typeof__(ashlar_station_event) plain_station_event;
__typeof__(ashlar_station_event_from) plain_station_event_from;
__typeof__(ashlar_station_at) plain_station_at;
__typeof__(ashlar_station_count) plain_station_count;
__typeof__(ashlar_station_row) plain_station_row;
__typeof__(ashlar_stations_event) plain_stations_event;
__typeof__(ashlar_stations_event_from) plain_stations_event_from;
__typeof__(ashlar_stations_at) plain_stations_at;
__typeof__(ashlar_stations_count) plain_stations_count;
__typeof__(ashlar_stations_row) plain_stations_row;
__typeof__(ashlar_link_report_tx) plain_link_report_tx;
__typeof__(ashlar_link_report_rx) plain_link_report_rx;
__typeof__(ashlar_link_merge) plain_link_merge;
__typeof__(ashlar_capture_header) plain_capture_header;
__typeof__(ashlar_capture_frame) plain_capture_frame;
__typeof__(ashlar_capture_check) plain_capture_check;
__typeof__(ashlar_capture_step) plain_capture_step;
__typeof__(ashlar_capture_frames) plain_capture_frames;
__typeof__(ashlar_capture_arrival) plain_capture_arrival;

#ifdef PLAIN
#define CALL(name) plain_##name
#else
#define CALL(name) ashlar_##name
#endif
#endif
