/* Targets for QPACK's two streams, with dynamic tables in memory of the caller (RFC 9204, section 4.2), for
   targets.c, which includes it. */

/* What a stream came to: the last answer or event, what it says, and what is said and done next. */
typedef struct came {
  uint64_t answer, code, count;
  uint8_t next[256];
  size_t size;
} came;

/* Reads the encoder stream of a client in pieces, until an error. */
static came instruct(const uint8_t *d, size_t n, size_t step) {
  static const uint8_t type[] = {WT_STREAM_QPACK_ENCODER};
  static player r;
  uint8_t table[WT_TABLE_SIZE(512)];
  came c = {0, 0, 0, {0}, 0};
  begin(&r, WT_SIDE_SERVER, 2);
  MUST(wt_table_new(512, table, sizeof table) == WT_OK);
  MUST(wt_receive(&r.connection, &r.stream, r.held, sizeof r.held, table, sizeof table, type, 1, 0, &r.event,
                  r.fields, 64, r.out, sizeof r.out) == WT_OK);
  MUST(r.event.kind == WT_EVENT_OPENED && r.event.detail == WT_PURPOSE_ENCODER && r.event.consumed == 1);
  for (size_t at = 0; at < n; at += step < n - at ? step : n - at) {
    size_t size = step < n - at ? step : n - at;
    MUST(wt_receive(&r.connection, &r.stream, r.held, sizeof r.held, table, sizeof table, d + at, size, 0,
                    &r.event, r.fields, 64, r.out, sizeof r.out) == WT_OK);
    c.answer = r.event.kind;
    c.code = r.event.number;
    note(400 + r.event.kind, r.event.number);
    if (r.event.kind == WT_EVENT_CONNECTION_ERROR) break;
    MUST(r.event.kind == WT_EVENT_INSERTED && r.event.consumed == size);
    MUST(wt_table_insert_count(table, sizeof table, &c.count) == WT_OK && c.count == r.event.number);
  }
  MUST(wt_table_increment(table, sizeof table, c.next, sizeof c.next, &c.size) == WT_OK);
  return c;
}

static void must_be_same(const came *a, const came *b) {
  MUST(a->answer == b->answer && a->code == b->code && a->count == b->count && a->size == b->size);
  MUST(memcmp(a->next, b->next, a->size) == 0);
}

/* The encoder stream, whole and cut where the first byte says: the same entries, or the same fault. */
static void encoder_stream(const uint8_t *d, size_t n) {
  came whole, cut;
  if (n < 2) return;
  whole = instruct(d + 1, n - 1, n);
  cut = instruct(d + 1, n - 1, d[0] > 0 ? d[0] : 1);
  if (whole.answer == WT_EVENT_INSERTED) must_be_same(&whole, &cut);
  else MUST(cut.answer == whole.answer && whole.code == WT_QPACK_ENCODER_STREAM_ERROR && cut.code == whole.code);
}

/* Writes a request of a stream, with instructions before it; its section refers to the table. */
static size_t write_request(const wt_connection *connection, uint64_t id, uint8_t *encoder, size_t length,
                            uint8_t out[256]) {
  static const char texts[] = ":methodGET:schemehttps:authoritya.example:path/one";
  static const wt_field list[] = {{0, 7, 7, 3}, {10, 7, 17, 5}, {22, 10, 32, 9}, {41, 5, 46, 4}};
  wt_sending sending;
  size_t size, used;
  uint32_t why;
  MUST(wt_sending_request(connection, id, &sending, &why) == WT_OK);
  MUST(wt_sending_headers_with(&sending, encoder, length, list, 4, (const uint8_t *)texts, sizeof texts - 1,
                               out, 128, &size, out + 128, 128, &used, &why) == WT_OK);
  memmove(out + size, out + 128, used);
  return size + used;
}

/* Reads the decoder stream of a server in pieces, until an error; so many requests were sent, on the
   streams from 0 on. Then one more is. */
static came acknowledge(const uint8_t *d, size_t n, uint64_t sections, size_t step) {
  static const wt_endpoint client = {WT_SIDE_CLIENT, 1, 1, 0, 4096, 2048, 100, {0, 0, 0, 0, 0}};
  static const wt_policy policy = {128, 32, 8};
  uint8_t encoder[WT_ENCODER_SIZE(512, 8)];
  came c = {WT_OK, 0, 0, {0}, 0};
  wt_connection connection;
  uint64_t before;
  size_t size;
  MUST(wt_connection_new(WT_ABI, &client, &connection) == WT_OK);
  MUST(wt_encoder_new(&policy, encoder, sizeof encoder) == WT_OK);
  MUST(wt_encoder_limits(encoder, sizeof encoder, 512, 8, c.next, sizeof c.next, &size) == WT_OK);
  for (uint64_t i = 0; i < sections; i++) write_request(&connection, 4 * i, encoder, sizeof encoder, c.next);
  MUST(wt_encoder_unacknowledged(encoder, sizeof encoder, &c.count) == WT_OK && c.count == sections);
  for (size_t at = 0; at < n && c.answer == WT_OK; at += step < n - at ? step : n - at) {
    before = c.count;
    c.answer = (uint64_t)wt_encoder_receive(encoder, sizeof encoder, d + at, step < n - at ? step : n - at, &c.code);
    MUST(wt_encoder_unacknowledged(encoder, sizeof encoder, &c.count) == WT_OK && c.count <= before);
    note(500, c.count * 2 + (c.answer == WT_OK));
  }
  c.size = write_request(&connection, 400, encoder, sizeof encoder, c.next);
  return c;
}

/* The decoder stream, whole and cut where the second byte says: the same encoder, or the same fault. The
   first byte says how many sections were sent. */
static void decoder_stream(const uint8_t *d, size_t n) {
  came whole, cut;
  if (n < 3) return;
  whole = acknowledge(d + 2, n - 2, d[0] & 7, n);
  cut = acknowledge(d + 2, n - 2, d[0] & 7, d[1] > 0 ? d[1] : 1);
  if (whole.answer == WT_OK) must_be_same(&whole, &cut);
  else MUST(cut.answer == whole.answer && whole.code == WT_QPACK_DECODER_STREAM_ERROR && cut.code == whole.code);
}
