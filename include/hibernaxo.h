/* hibernaxo: reading, checking, writing, cleaning and salvaging network recordings, order sheets, the release copy, the
 * purge, fragments, bursts, ids as a line of text, captures from the switch and radio messages.
 *
 * Each function but hibernaxo_link_row, which refuses nothing, returns a refusal number, HIBERNAXO_OK for success, and
 * stores its values on every call. values[0] is then always the place of the refusal, a byte offset in the input named, or what the number says below; on success it is 0.
 * On a refusal every other value is 0, and no byte of a lent buffer changes; only the place of a walk, over packages or
 * over a radio message's TLVs, comes back as it was handed in.
 *
 * A slice is a pointer and a length in bytes. Pointers are never null, even where the length is 0: any other address
 * does there. A buffer that is written, values included, overlaps nothing else that the same call is handed. An output
 * buffer of length 0 asks how many bytes are needed, by HIBERNAXO_ROOM. The functions keep nothing and no pointer, and may
 * run on several threads at a time; what a step needs of those before it, its caller hands over as a state.
 */
#ifndef HIBERNAXO_H
#define HIBERNAXO_H

#include <stddef.h>
#include <stdint.h>

#ifdef __cplusplus
extern "C" {
#endif

/* The refusal numbers. Behind each, when it is given and what its place is. */
enum hibernaxo_refusal {
    HIBERNAXO_OK = 0,
    HIBERNAXO_SHORT = 1,     /* fewer than 24 bytes at a message's start: the message */
    HIBERNAXO_VERSION = 2,   /* the version is not 1: the message */
    HIBERNAXO_TYPE = 3,      /* the type is not 0: the message */
    HIBERNAXO_LENGTH = 4,    /* the length is below 24 + 4 W or no multiple of 4: the message; in cutting, a size that is no multiple of 4 from 4 up: 0 */
    HIBERNAXO_CUT = 5,       /* the length is above the bytes left: the message */
    HIBERNAXO_TIME = 6,      /* more than 999,999,999 nanoseconds: the message; 0 in the writer */
    HIBERNAXO_OPTION = 7,    /* the first bad option, a second 0x86 or 0x87 too, in the writer also one of kind 0x00, in cutting any 0x86: the option; 60 for the writer's run above 60 bytes, 24 where cutting has no place for 0x86 */
    HIBERNAXO_FRAGMENT = 8,  /* flag bits 5-4 are not 00: the message */
    HIBERNAXO_STANDARD = 9,  /* flag bit 7 is 1 with no payload, or 0 with one: the message; 0 in joining */
    HIBERNAXO_PACKAGE = 10,  /* a package that its header or the bytes left do not allow: the package; 0 in joining */
    HIBERNAXO_ROW = 11,      /* a row against the rules: the row; a bad size of the sheet: the sheet's length */
    HIBERNAXO_LARGE = 12,    /* an input, or the writer's message, above 65,536 bytes: 65536; in a capture a clean message above 65,507 bytes: the message */
    HIBERNAXO_ROOM = 13,     /* the output buffer is too short: the bytes needed */
    HIBERNAXO_MARKER = 14,   /* fewer than 8 bytes, or another marker: 0 */
    HIBERNAXO_BLOCKS = 15,   /* not 1 to 80 whole codeblocks: the burst's length */
    HIBERNAXO_TEXT = 16,     /* the first byte that breaks the form of a line of ids, or the line's end; then the first digit of an item against the rules; in writing, the range's index */
    HIBERNAXO_COUNT = 17,    /* option 0x87 says another number than that of the packages: the message; 0 in the writer and in joining */
    HIBERNAXO_CAPTURE = 18,  /* a capture file's bad header: 0; a record that the file's end cuts: the record */
    HIBERNAXO_RADIO = 19,    /* a radio message's header or TLV against the rules, or no TLV at all: the TLV, in writing where it would stand; 0 for the header and for no TLV */
    HIBERNAXO_IDS = 20,      /* a state with more than 64 ids or one id twice: 0; a 65th id among the delivered ones: its message */
    HIBERNAXO_GAP = 21,      /* fragments that are no whole set in order: the first that does not continue those before it; the input's end where the last is missing */
    HIBERNAXO_HOLES = 22     /* more than 64 stretches would be skipped: the first byte of the 65th */
};

/* How many values each function stores. */
#define HIBERNAXO_HEADER_VALUES 10
#define HIBERNAXO_PACKAGE_VALUES 9
#define HIBERNAXO_CHECK_VALUES 3
#define HIBERNAXO_WRITE_VALUES 2
#define HIBERNAXO_CLEAN_VALUES 2
#define HIBERNAXO_SHEET_VALUES 290
#define HIBERNAXO_COPY_MEASURE_VALUES 4
#define HIBERNAXO_COPY_WRITE_VALUES 4
#define HIBERNAXO_STEP_VALUES 6
#define HIBERNAXO_PURGE_VALUES 2
#define HIBERNAXO_CUT_VALUES 3
#define HIBERNAXO_JOIN_VALUES 2
#define HIBERNAXO_RANDOMIZE_VALUES 1
#define HIBERNAXO_OPEN_BURST_VALUES 2
#define HIBERNAXO_READ_IDS_VALUES 66
#define HIBERNAXO_WRITE_IDS_VALUES 2
#define HIBERNAXO_SALVAGE_VALUES 132
#define HIBERNAXO_READ_CAPTURE_VALUES 6
#define HIBERNAXO_WRITE_CAPTURE_VALUES 3
#define HIBERNAXO_READ_RADIO_VALUES 5
#define HIBERNAXO_RADIO_TLV_VALUES 14
#define HIBERNAXO_PUT_RADIO_TLV_VALUES 2
#define HIBERNAXO_WRITE_RADIO_VALUES 2
#define HIBERNAXO_LINK_ROW_VALUES 4

/* A state is an array of 32-bit numbers: how many ids it holds, then the ids, and as many places behind each id the
 * sequence number that its next message gets. A state with no id is all zero. */
#define HIBERNAXO_STEP_STATE 129
#define HIBERNAXO_STATE_HELD 0
#define HIBERNAXO_STATE_IDS 1
#define HIBERNAXO_STATE_NEXT 65
#define HIBERNAXO_STATE_PLACES 64

/* The most rows of a sheet, and how many values each row has. */
#define HIBERNAXO_ROWS 32
#define HIBERNAXO_ROW_VALUES 9

/* The most ranges of a line of ids, and how many numbers are the ends of so many. */
#define HIBERNAXO_ID_RANGES 32
#define HIBERNAXO_WRITE_IDS_ENDS 64

/* The most stretches that a salvage reports. */
#define HIBERNAXO_STRETCHES 64
/* Where the first TLV of a radio message stands, and how many fields the longest has. */
#define HIBERNAXO_RADIO_HEADER 10
#define HIBERNAXO_PUT_RADIO_TLV_FIELDS 11

/* How many readings a link metric has, and what each is. */
#define HIBERNAXO_LINK_ROW_KINDS 3
#define HIBERNAXO_READING_MISSING 0
#define HIBERNAXO_READING_LEVEL 1
#define HIBERNAXO_READING_RATE 2

/* Reads the header of the message at the start of bytes (refusals 12 and 1 to 7; its packages are not counted).
 * values: [1] the option word count W, [2] flag bits 7 to 0, [3] message id, [4] sequence number, [5] length,
 * [6] seconds, [7] nanoseconds, [8] where the option run begins in bytes, [9] how many bytes it has. */
uint32_t hibernaxo_header(const uint8_t *bytes, size_t bytes_length, uint64_t values[HIBERNAXO_HEADER_VALUES]);

/* One step of a package walk over run, from place at (refusals 12 and 10). A walk begins at place 0 of a payload.
 * values: [1] 1 if a package is shown and 0 at the end, [2] package id, [3] L, which counts header and data,
 * [4] status, [5] time delta in nanoseconds, [6] where its data begin in run, [7] how many bytes they are,
 * [8] the walk's next place: behind the package and its padding if one is shown, otherwise at, on a refusal too. */
uint32_t hibernaxo_package(const uint8_t *run, size_t run_length, size_t at, uint64_t values[HIBERNAXO_PACKAGE_VALUES]);

/* Checks a recording (refusals 12, 1 to 10 and 17). values: [1] messages, [2] packages. */
uint32_t hibernaxo_check(const uint8_t *recording, size_t recording_length, uint64_t values[HIBERNAXO_CHECK_VALUES]);

/* Writes one message into out (refusals 12, 6, 7, 10, 17 and 13, places within the run named). Of flags, bits 6, 3,
 * 2, 1 and 0 count. options holds whole options, none of kind 0x00 and at most one each of 0x86 and 0x87; packages is
 * a run of packages, whose reserved bytes and padding are not looked at. An option 0x87 says how many they are.
 * values: [1] bytes written; bytes of out behind them stay. */
uint32_t hibernaxo_write(uint8_t flags, uint32_t message_id, uint32_t sequence, uint32_t seconds, uint32_t nanoseconds,
                         const uint8_t *options, size_t options_length, const uint8_t *packages, size_t packages_length,
                         uint8_t *out, size_t out_length, uint64_t values[HIBERNAXO_WRITE_VALUES]);

/* Writes the clean form of the first message of bytes into out (refusals 12, 1 to 10, 17 and 13).
 * values: [1] bytes written; bytes of out behind them stay. */
uint32_t hibernaxo_clean(const uint8_t *bytes, size_t bytes_length, uint8_t *out, size_t out_length,
                         uint64_t values[HIBERNAXO_CLEAN_VALUES]);

/* Reads an order sheet (refusal 11). values: [1] how many rows it has; then from [2] on nine values for each of 32
 * rows, zero behind the last: first and last message id, first and last package id, start seconds, start nanoseconds,
 * end seconds, end nanoseconds, and 1 where the row grants acquired data only, nothing in simulated messages. */
uint32_t hibernaxo_sheet(const uint8_t *sheet, size_t sheet_length, uint64_t values[HIBERNAXO_SHEET_VALUES]);

/* Measures the copy of a recording under an order sheet, and writes nothing (refusals 11, 12, 1 to 10 and 17).
 * values: [1] bytes, [2] messages, [3] packages that the copy has. */
uint32_t hibernaxo_copy_measure(const uint8_t *recording, size_t recording_length, const uint8_t *sheet,
                                size_t sheet_length, uint64_t values[HIBERNAXO_COPY_MEASURE_VALUES]);

/* Writes the copy of a recording under an order sheet into out (refusals 11, 12, 1 to 10, 17 and 13). A buffer of
 * the measured bytes has room. values: [1] bytes, [2] messages, [3] packages written; bytes of out behind them stay. */
uint32_t hibernaxo_copy_write(const uint8_t *recording, size_t recording_length, const uint8_t *sheet,
                              size_t sheet_length, uint8_t *out, size_t out_length,
                              uint64_t values[HIBERNAXO_COPY_WRITE_VALUES]);

/* Copies the first quota messages of input, or all there are, into out, numbered on from the state (refusals 20, 11, 12,
 * then 1 to 10 and 17 for the messages within the quota, 20 and 13). A long recording is handed over whole messages at a
 * time, each step with the state that the step before left: the joined outputs are the copy of all that was consumed.
 * values: [1] messages handled, [2] bytes consumed, [3] bytes, [4] messages, [5] packages written. A refusal changes
 * neither state nor out; places of the state behind those held stay on success too. */
uint32_t hibernaxo_step(const uint8_t *input, size_t input_length, const uint8_t *sheet, size_t sheet_length,
                        size_t quota, uint32_t state[HIBERNAXO_STEP_STATE], uint8_t *out, size_t out_length,
                        uint64_t values[HIBERNAXO_STEP_VALUES]);

/* Purges a recording, which is the whole buffer, of every package that an order sheet grants (refusals 11, 12, 1 to 10
 * and 17, never 13). What is left stands in clean form from the buffer's start on, sequence numbers and options kept
 * and an option 0x87 set to the packages left; a message that loses its last package goes whole. Every byte behind it
 * is 0 and may be appended to. values: [1] bytes in use: hand over so many as the recording from then on. */
uint32_t hibernaxo_purge(uint8_t *buffer, size_t buffer_length, const uint8_t *sheet, size_t sheet_length,
                         uint64_t values[HIBERNAXO_PURGE_VALUES]);

/* Cuts the clean form of the first message into fragments with size bytes of payload each (refusals 12, 1 to 10 and 17;
 * 4 at 0 for a size that is no multiple of 4 from 4 up; 7 at an option 0x86, or at 24 where one is to be added and does
 * not fit; 13). A payload that fits is not cut. values: [1] bytes written, [2] fragments; bytes of out behind them stay. */
uint32_t hibernaxo_cut(const uint8_t *message, size_t message_length, size_t size, uint8_t *out, size_t out_length,
                       uint64_t values[HIBERNAXO_CUT_VALUES]);

/* Joins fragments, one behind the other to the last byte, into the clean form of their message, or cleans one whole
 * message (refusals 12; 1 to 7 and 21, fragment by fragment; 9, 10 and 17, each at 0; 13). What is joined is never longer
 * than the input. values: [1] bytes written; bytes of out behind them stay. */
uint32_t hibernaxo_join(const uint8_t *fragments, size_t fragments_length, uint8_t *out, size_t out_length,
                        uint64_t values[HIBERNAXO_JOIN_VALUES]);

/* Randomizes a buffer (refusal 12). A second call gives its bytes back. There is no value but the place. */
uint32_t hibernaxo_randomize(uint8_t *buf, size_t buf_length, uint64_t values[HIBERNAXO_RANDOMIZE_VALUES]);

/* Opens a burst: its codeblocks are randomized in buf (refusals 12, 14 and 15). values: [1] codeblocks. */
uint32_t hibernaxo_open_burst(uint8_t *buf, size_t buf_length, uint64_t values[HIBERNAXO_OPEN_BURST_VALUES]);

/* Reads a line of ids (refusals 12 and 16): ids and ranges of ids with commas between, as 7-9,12, without a newline.
 * values: [1] how many ranges it has; then from [2] on first and last of each of 32 ranges, zero behind the last. */
uint32_t hibernaxo_read_ids(const uint8_t *line, size_t line_length, uint64_t values[HIBERNAXO_READ_IDS_VALUES]);

/* Writes count ranges as a line of ids into out (refusals 16 and 13). ends has first and last of each range in turn, and
 * whatever else behind the last: count may be any number, and above 32 it is refused. A line has at most 703 bytes.
 * values: [1] bytes written; bytes of out behind them stay. */
uint32_t hibernaxo_write_ids(const uint32_t ends[HIBERNAXO_WRITE_IDS_ENDS], size_t count, uint8_t *out,
                             size_t out_length, uint64_t values[HIBERNAXO_WRITE_IDS_VALUES]);

/* Salvages a damaged recording: each message that passes every check is written into out unchanged, one behind the
 * other; where none passes, 4 bytes are skipped, or what is left (refusals 12, 22 and 13). Bytes that are skipped one
 * behind the other are one stretch. values: [1] bytes and [2] messages written, [3] how many stretches were skipped;
 * then from [4] on start and length of each of 64 stretches, zero behind the last. Bytes of out behind what is written
 * stay. A buffer as long as the recording always has room. */
uint32_t hibernaxo_salvage(const uint8_t *recording, size_t recording_length, uint8_t *out, size_t out_length,
                           uint64_t values[HIBERNAXO_SALVAGE_VALUES]);

/* Takes the messages of a capture file into out, each as it is, in capture order (refusals 12, 18 and 13). The file is
 * classic pcap of either byte order, version 2.4, link type Ethernet, with microseconds. A packet is kept if it is an IPv4
 * UDP datagram to port, no IP fragment, captured whole, whose data are exactly one message that passes every check.
 * values: [1] bytes written, [2] packets kept, and under the first that applies, [3] not seen to be for us, [4] cut short,
 * [5] bad message, lengths that do not fit too: all packets of the file. Bytes of out behind those written stay. */
uint32_t hibernaxo_read_capture(const uint8_t *file, size_t file_length, uint16_t port, uint8_t *out,
                                size_t out_length, uint64_t values[HIBERNAXO_READ_CAPTURE_VALUES]);

/* Writes a recording as such a file into out, big-endian: each message in clean form in a datagram of its own to port
 * (refusals 12, 1 to 10, 17, again 12, at the first message whose clean form has more than 65,507 bytes, and 13). A file of
 * at most 65,536 bytes can be read again. values: [1] bytes, [2] messages written; bytes of out behind them stay. */
uint32_t hibernaxo_write_capture(const uint8_t *recording, size_t recording_length, uint16_t port, uint8_t *out,
                                 size_t out_length, uint64_t values[HIBERNAXO_WRITE_CAPTURE_VALUES]);

/* Reads the radio message that is the whole of bytes (refusals 12 and 19).
 * values: [1] destination RF MAC address, [2] source RF MAC address, [3] sequence number, [4] how many TLVs it has. */
uint32_t hibernaxo_read_radio(const uint8_t *bytes, size_t bytes_length, uint64_t values[HIBERNAXO_READ_RADIO_VALUES]);

/* One step over the TLVs of a radio message, from place at (refusals 12 and 19). The first TLV stands at 10; at may be
 * any number, and from bytes_length on it is the end. The message's header is not looked at.
 * values: [1] the TLV's type, 0 at the end, [2] the next place: behind the TLV if one is shown, otherwise at, on a
 * refusal too; then from [3] on its fields, zero behind the last:
 *   type 1, TxOp assignment: centre frequency in units of 250 kHz, TxOp id, timeout, start and stop in microseconds;
 *   type 5, heartbeat: timeout;
 *   type 6, link metric: seconds, microseconds, centre frequency in units of 250 kHz, RSSI and CINR as their bytes
 *   (two's complement), error rate in units of 1/256;
 *   type 10, TE queue status report: seconds, microseconds, MSLPID, eight queue levels. */
uint32_t hibernaxo_radio_tlv(const uint8_t *bytes, size_t bytes_length, size_t at,
                             uint64_t values[HIBERNAXO_RADIO_TLV_VALUES]);

/* Puts one TLV of type kind at place at of out. fields are in the order in which a step shows them from values[3] on, so
 * that values + 3 may be handed over; those behind the type's own are not looked at. Refusals, in this order: 19, if kind
 * is not 1, 5, 6 or 10, or a field does not fit its bits: 8 for seconds, RSSI, CINR, error rate and a TxOp's timeout, 16
 * for centre frequency, TxOp id, a heartbeat's timeout and queue levels, 32 for start, stop, microseconds and MSLPID;
 * 12, if the TLV would end above 65,536; 19, if start, stop or microseconds are above 999,999 or seconds above 63; and
 * 13. The place of 19 is at, that of 13 where the TLV would end.
 * values: [1] bytes written, which is the TLV's length; every other byte of out stays. */
uint32_t hibernaxo_put_radio_tlv(uint32_t kind, const uint64_t fields[HIBERNAXO_PUT_RADIO_TLV_FIELDS], uint8_t *out,
                                 size_t out_length, size_t at, uint64_t values[HIBERNAXO_PUT_RADIO_TLV_VALUES]);

/* Writes a radio message into out from its header's numbers and a run of TLVs (refusals 12, 19 and 13): 12 if 10 bytes
 * and the run are above 65,536; 19 at 0 for an empty run, and at 10 + its place in the run for the first bad TLV; 13 with
 * all the bytes needed. Reserved bits of the run are not looked at, and are written zero. The bytes of a message that was
 * read, from place 10 on, are such a run.
 * values: [1] bytes written; bytes of out behind them stay. */
uint32_t hibernaxo_write_radio(uint16_t destination, uint16_t source, uint32_t sequence, const uint8_t *run,
                               size_t run_length, uint8_t *out, size_t out_length,
                               uint64_t values[HIBERNAXO_WRITE_RADIO_VALUES]);

/* The row of a link metric for a plotting tool. It refuses nothing and returns nothing.
 * kinds: what RSSI, CINR and error rate are, 0 missing, 1 a level, 2 a rate.
 * values: [0] centre frequency in MHz, [1] RSSI in dBm, [2] CINR in dB, [3] error rate, each exactly the field divided by
 * 4, 1, 1 and 256, and 0.0 where the reading is missing. */
void hibernaxo_link_row(uint16_t frequency, int8_t rssi, int8_t cinr, uint8_t errors,
                        uint8_t kinds[HIBERNAXO_LINK_ROW_KINDS], double values[HIBERNAXO_LINK_ROW_VALUES]);

#ifdef __cplusplus
}
#endif

#endif
