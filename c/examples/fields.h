/* Fields by their texts, for programs that have strings: of an event, and of a message that is
   written. Copy it into your program. */
#ifndef FIELDS_H
#define FIELDS_H
#include <string.h>
#include <wtransport.h>

/* The value of the first field with this name of the count fields of an event, whose texts are in
   out: *length bytes; or null. */
static inline const uint8_t *field_value(const wt_field *fields, size_t count, const uint8_t *out,
                                         const char *name, size_t *length) {
  size_t i;
  *length = 0;
  for (i = 0; i < count; i++) {
    if (fields[i].name_length != strlen(name)) continue;
    if (memcmp(out + fields[i].name_offset, name, fields[i].name_length) != 0) continue;
    *length = fields[i].value_length;
    return out + fields[i].value_offset;
  }
  return NULL;
}

/* Whether there is a field with this name, and the first one has this whole value. */
static inline int field_is(const wt_field *fields, size_t count, const uint8_t *out,
                           const char *name, const char *value) {
  size_t length;
  const uint8_t *text = field_value(fields, count, out, name, &length);
  return text != NULL && length == strlen(value) && memcmp(text, value, length) == 0;
}

/* Fields to be written: pass list, count, texts and used to wt_response_write and its like. */
typedef struct field_list {
  wt_field list[16];
  uint8_t texts[1024];
  size_t count, used;
} field_list;

/* Adds a field after those that are there; a new list is {0}. Returns whether there is room. */
static inline int field_add(field_list *fields, const char *name, const char *value) {
  size_t name_length = strlen(name), value_length = strlen(value), used = fields->used;
  wt_field *field = &fields->list[fields->count];
  if (fields->count == 16 || name_length > sizeof fields->texts - used ||
      value_length > sizeof fields->texts - used - name_length)
    return 0;
  field->name_offset = used;
  field->name_length = name_length;
  field->value_offset = used + name_length;
  field->value_length = value_length;
  memcpy(fields->texts + used, name, name_length);
  memcpy(fields->texts + used + name_length, value, value_length);
  fields->used = used + name_length + value_length;
  fields->count++;
  return 1;
}
#endif
