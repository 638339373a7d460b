/* calf.h: reading and writing Protocol Buffers messages as lists of records. Every function here is proved to do what its line says, for all arguments
 * that are what their types say: a pointer with a length is to so many elements, and what is filled is not lent twice.
 *
 * A slice is a pointer and a length, in elements. Where the length is 0 the pointer may be anything but NULL.
 * The result is the refusal's number, 0 for none:
 *   1 input or enclosing length ends too soon   2 bad varint        3 bad tag           4 end-group tag with no group open
 *   5 int32 or enum out of range                6 string not UTF-8  7 too deep          8 more records, or messages, than room
 *   9 bad schema                               10 bad list         11 above 2,147,483,647 bytes   12 output too short
 *  13 no segment: shorter than five bytes or another mark         14 a segment of another version
 * All else goes to the array `answer`, whatever the result is.
 *
 * A schema is `types` message types, 0 the root, and entries of five numbers: owner type, field number, kind (as in descriptor.proto), repeated (0 or 1), child
 * type. A record is calf_record_numbers() numbers: depth, number, kind, value, start, end, tag. start and end are the bounds of the field's value or content, and tag is
 * the place of the first byte of the field's tag; a value of a packed field has the tag of its head. Kinds are those of descriptor.proto, and 20 for the head of a packed field, 21 to 24 for fields
 * that the schema does not have, or has with another wire type (varint, fixed64, with a length, fixed32), and 25 for a dropped span, which only the calls that ask for it give.
 *
 * No function allocates, keeps state or writes outside what its line says. */
#ifndef CALF_H
#define CALF_H
#include <stdbool.h>
#include <stddef.h>
#include <stdint.h>
#ifdef __cplusplus
extern "C" {
#endif

/* How many numbers a record has: 7. A later version may have more, each after those of today. */
size_t calf_record_numbers(void);

/* ---- varints, texts */

/* The varint at s[at..]: answer = { value, the place after it }, or zeros where it is refused (1, 2). */
uint32_t calf_varint64(const uint8_t *s, size_t s_len, size_t at, uint64_t answer[2]);

/* The same of 32 bits. */
uint32_t calf_varint32(const uint8_t *s, size_t s_len, size_t at, uint64_t answer[2]);

/* Stores value at out[at..] as the shortest varint: returns the place after it, or 0 where there is no room, and then nothing is stored. */
size_t calf_put_varint(uint64_t value, uint8_t *out, size_t out_len, size_t at);

/* How many bytes at the front of s are valid UTF-8: s_len where all are. */
size_t calf_utf8_prefix(const uint8_t *s, size_t s_len);

/* ---- skipping */

/* Skips the field after `tag`, in a message or group of this level: answer = { bytes used }, 0 on refusal (11, 3, then 1, 2, 4, 7).
 * Every group counts as a level, and the end of s closes all open groups. */
uint32_t calf_skip_field_for_tag(uint32_t tag, const uint8_t *s, size_t s_len, uint32_t level, uint64_t answer[1]);

/* The same as reading does it with a field that the schema does not have: the outermost group is not counted, and must end. */
uint32_t calf_read_unknown_or_skip_group(uint32_t tag, const uint8_t *s, size_t s_len, uint32_t level, uint64_t answer[1]);

/* Whether s is a run of fields, with at most 100 groups open, each ended under its own number (reading and the skips above take any end). No length is opened. */
bool calf_is_document(const uint8_t *s, size_t s_len);

/* ---- a schema */

/* Whether a schema is valid: 0 or 9; answer = { the first bad entry }, 0 where the type count or the entry count is wrong, or nothing is. */
uint32_t calf_check_schema(uint32_t types, const uint32_t *numbers, size_t numbers_len, uint64_t answer[1]);

/* The tables of a schema, for calf_read_prepared and calf_read_prepared_dropped; the result and the answer are those of calf_check_schema. */
uint32_t calf_prepare(uint32_t types, const uint32_t *numbers, size_t numbers_len, uint64_t keys[256], uint8_t info[1024], uint64_t answer[1]);

/* ---- reading */

/* Reads the message s to records in room: answer = { count of the records in room, place of the refusal }. Room after the records is untouched.
 * For 6, a string that is not UTF-8, the place is the first byte of its broken letter. */
uint32_t calf_read(uint32_t types, const uint32_t *numbers, size_t numbers_len, const uint8_t *s, size_t s_len, uint64_t *room, size_t room_len, uint64_t answer[2]);

/* The same under the tables of a valid schema, for a caller with many messages. Any arrays are tables: what reading gives is defined for all. */
uint32_t calf_read_prepared(const uint64_t keys[256], const uint8_t info[1024], const uint8_t *s, size_t s_len, uint64_t *room, size_t room_len, uint64_t answer[2]);

/* calf_read with dropped spans: a field that reading drops, a skipped group or an empty packed field, gives a record too, after it was skipped. Its depth and number are the field's, its
 * kind is 25 and its value 0; start and tag are the place of its tag, and end is the first byte after it. A group inside a skipped group has no record of its own. These records take
 * room like the others, so 8 counts them; all else is as without them. In a list, for the calls below, kind 25 is refused with 10. */
uint32_t calf_read_dropped(uint32_t types, const uint32_t *numbers, size_t numbers_len, const uint8_t *s, size_t s_len, uint64_t *room, size_t room_len, uint64_t answer[2]);

/* calf_read_prepared with dropped spans. */
uint32_t calf_read_prepared_dropped(const uint64_t keys[256], const uint8_t info[1024], const uint8_t *s, size_t s_len, uint64_t *room, size_t room_len, uint64_t answer[2]);

/* ---- writing: the list is what lies in `list`, its contents lie in `payload`. The tag of a record is not looked at: any number may stand there. */

/* Whether a list is what reading under the schema would give: answer = { index of the record at fault }, for 9 the first bad entry. */
uint32_t calf_check_list(uint32_t types, const uint32_t *numbers, size_t numbers_len, const uint64_t *list, size_t list_len, const uint8_t *payload, size_t payload_len,
                         uint64_t answer[1]);

/* How many bytes a list takes when it is written: answer = { size, index }, the index as in calf_check_list; the size is 0 where it is refused. */
uint32_t calf_size(uint32_t types, const uint32_t *numbers, size_t numbers_len, const uint64_t *list, size_t list_len, const uint8_t *payload, size_t payload_len,
                   uint64_t answer[2]);

/* Writes a list to the front of out: answer = { size, index }; for 12 the size that is needed. After the size, and on refusal, out is untouched. */
uint32_t calf_write(uint32_t types, const uint32_t *numbers, size_t numbers_len, const uint64_t *list, size_t list_len, const uint8_t *payload, size_t payload_len,
                    uint8_t *out, size_t out_len, uint64_t answer[2]);

/* ---- segment files: the letters WFM, a version of two bytes, now 1, and then each message after its length as a varint of 32 bits.
 * A range is two numbers: where a message starts, and where it ends. A message of a segment is read by calf_read of s + start, end - start: places are then
 * counted from its start. */

/* The messages of the segment s, as ranges in room: answer = { count of the ranges in room, place of the refusal }. Refused with 13, 14, 11 (at 0), then message by
 * message with 1, 2 and 8 (more messages than room), at the first byte of its length. The ranges before a fault stand; room after them is untouched. */
uint32_t calf_segment_read(const uint8_t *s, size_t s_len, uint64_t *room, size_t room_len, uint64_t answer[2]);

/* How many bytes the segment of some ranges of the payload takes: answer = { size, index }. Refused with 10 (the index is that of the first range that does not lie in the
 * payload; a last number alone is such a range) and 11; the size is then 0. Ranges may overlap and stand in any order. ranges_len counts numbers. */
uint32_t calf_segment_size(const uint64_t *ranges, size_t ranges_len, const uint8_t *payload, size_t payload_len, uint64_t answer[2]);

/* Writes the segment to the front of out: answer = { size, index }; refused with 10, 11, and then 12, with the size that is needed. After the size, and on refusal, out is
 * untouched. */
uint32_t calf_segment_write(const uint64_t *ranges, size_t ranges_len, const uint8_t *payload, size_t payload_len, uint8_t *out, size_t out_len, uint64_t answer[2]);

/* ---- pulling: step by step over a slice, whose position and level the caller keeps; both begin with 0 */

/* Whether a slice may be pulled: 0, or 11 where it is too long. */
uint32_t calf_pull_open(const uint8_t *s, size_t s_len);

/* A step at a position and a level: answer = { what, a, b, position then }. what is 0 at the end, 1 for a number, a; 2 for a content from a to b; 3 for a refusal, which leaves the
 * position: a is its place, which is the position, and for 6 the first byte of the broken letter. kind is 0 for the raw tag, a kind of descriptor.proto for a value of it, and 10 to skip
 * the field after `tag`, where a is how many bytes; else tag is ignored. */
uint32_t calf_pull_step(const uint8_t *s, size_t s_len, size_t at, uint32_t level, uint32_t kind, uint32_t tag, uint64_t answer[4]);

/* A message at a position: the answer is its content (2), which a caller reads as a slice of its own at level + 1, and the position after it. 7 at level 100. */
uint32_t calf_pull_enter(const uint8_t *s, size_t s_len, size_t at, uint32_t level, uint64_t answer[4]);

#ifdef __cplusplus
}
#endif
#endif
