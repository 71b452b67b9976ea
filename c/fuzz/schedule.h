/* The target of several streams of a connection, whose pieces come in the order of the input. Included by
   targets.c, which has `played` and count_event. */
#ifndef SCHEDULE_H
#define SCHEDULE_H

enum { TRACKS = 16, OUT = 4096 };

/* A stream: its bytes that came, as much as was consumed, and what was seen of it. */
typedef struct track {
  wt_stream state;
  uint64_t id;
  uint8_t *bytes, held[1100];
  size_t consumed, came;
  uint8_t fin;
  played seen;
} track;

typedef struct plan {
  wt_connection connection;
  track *tracks[TRACKS];
  size_t room; /* of the bytes of a stream */
  uint8_t side, changed;
  uint64_t closed; /* the code of the connection's error */
} plan;

static void follow_track(plan *p, track *t, const wt_event *e, const uint8_t *bytes, const uint8_t *out);

static void join_track(plan *p, track *t, uint64_t session) {
  const track *its = NULL;
  uint32_t known;
  wt_event e;
  for (size_t i = 0; i < TRACKS; i++)
    if (p->tracks[i] != NULL && p->tracks[i]->id == session) its = p->tracks[i];
  MUST(wt_session_known(&p->connection, session, its ? &its->state : NULL, its != NULL, &known) == WT_OK);
  MUST(wt_stream_join(&p->connection, &t->state, known, &e) == WT_OK);
  follow_track(p, t, &e, NULL, NULL);
}

/* Ends the streams of a session that is over. */
static void end_streams(plan *p, uint64_t session) {
  for (size_t i = 0; i < TRACKS; i++) {
    uint32_t belongs;
    uint64_t its;
    wt_event e;
    if (p->tracks[i] == NULL || p->tracks[i]->id == session) continue;
    MUST(wt_stream_belongs(&p->tracks[i]->state, &belongs, &its) == WT_OK);
    if (!belongs || its != session) continue;
    MUST(wt_stream_abandon(&p->connection, &p->tracks[i]->state, &e) == WT_OK && e.kind == WT_EVENT_MORE);
  }
}

static void follow_track(plan *p, track *t, const wt_event *e, const uint8_t *bytes, const uint8_t *out) {
  if (e->kind == WT_EVENT_WAITS) return;
  count_event(&t->seen, e, bytes, out);
  if (e->kind == WT_EVENT_JOINS) join_track(p, t, e->number);
  if (e->kind == WT_EVENT_SESSION_CLOSED || e->kind == WT_EVENT_SESSION_LOST) end_streams(p, t->id);
  if (e->kind == WT_EVENT_CONNECTION_ERROR) p->closed = e->number;
  p->changed |= e->kind != WT_EVENT_MORE;
}

/* Reads what a stream has. Each CONNECT is answered with 200. */
static void read_track(plan *p, track *t) {
  static uint8_t out[OUT];
  static wt_field fields[64];
  wt_event e;
  for (size_t calls = 0;; calls++) {
    size_t left = t->came - t->consumed;
    const uint8_t *bytes = t->bytes + t->consumed;
    MUST(calls < 8 * p->room + 64);
    MUST(wt_receive(&p->connection, &t->state, t->held, sizeof t->held, NULL, 0, bytes, left, t->fin, &e,
                    fields, 64, out, sizeof out) == WT_OK);
    MUST(e.consumed <= left && e.held <= sizeof t->held);
    follow_track(p, t, &e, bytes, out);
    t->consumed += e.consumed;
    if (e.kind == WT_EVENT_MORE) return;
    if (e.kind != WT_EVENT_WAITS) continue;
    if (e.detail != WT_WAITS_ANSWER) return;
    MUST(wt_stream_answer(&t->state, 200) == WT_OK);
    p->changed = 1;
  }
}

/* Reads the streams that wait again, until that changes nothing. */
static void wake(plan *p) {
  while (p->changed) {
    p->changed = 0;
    for (size_t i = 0; i < TRACKS; i++) {
      uint32_t waits;
      uint64_t session;
      if (p->tracks[i] == NULL) continue;
      MUST(wt_stream_waits(&p->tracks[i]->state, &waits, &session) == WT_OK);
      if (waits == WT_WAITS_SESSION) join_track(p, p->tracks[i], session);
      if (waits != WT_WAITS_NOTHING) read_track(p, p->tracks[i]);
    }
  }
}

/* The stream of a number: the first eight are requests, the others unidirectional. */
static track *track_of(plan *p, size_t i) {
  track *t = p->tracks[i];
  if (t != NULL) return t;
  MUST((t = p->tracks[i] = calloc(1, sizeof *t)) != NULL && (t->bytes = malloc(p->room)) != NULL);
  t->id = i < 8 ? 4 * i : 4 * (i - 8) + (p->side == WT_SIDE_SERVER ? 2 : 3);
  MUST((i < 8 && p->side == WT_SIDE_CLIENT ? wt_stream_of_request(&p->connection, (uint32_t)i & 3, &t->state)
                                           : wt_stream_accept(&p->connection, t->id, &t->state)) == WT_OK);
  return t;
}

/* A piece comes, in pieces of `step` bytes; or its stream is reset (1), stopped (2) or given up (3). */
static void come(plan *p, track *t, const uint8_t *d, size_t n, uint8_t fin, size_t step) {
  if (t->fin) return;
  memcpy(t->bytes + t->came, d, n);
  do {
    size_t size = n < step ? n : step;
    t->came += size;
    n -= size;
    t->fin = fin && n == 0;
    read_track(p, t);
  } while (n > 0);
}

static void other(plan *p, track *t, uint8_t what) {
  wt_event e;
  int answer = what == 1   ? wt_stream_reset(&p->connection, &t->state, &e)
               : what == 2 ? wt_stream_stop(&p->connection, &t->state, &e)
                           : wt_stream_abandon(&p->connection, &t->state, &e);
  MUST(answer == WT_OK);
  follow_track(p, t, &e, NULL, NULL);
}

/* Each piece begins with a byte for its stream and what happens, and one for its size. */
static void play_all(plan *p, const uint8_t *d, size_t n, size_t step) {
  wt_endpoint endpoint = {0, 1, 1, 1, 4096, 2048, 100, {0, 0, 0, 0, 0}};
  memset(p, 0, sizeof *p);
  p->room = n;
  p->side = endpoint.side = d[0] & 1;
  MUST(wt_connection_new(WT_ABI, &endpoint, &p->connection) == WT_OK);
  for (size_t at = 2; n - at >= 2;) {
    track *t = track_of(p, d[at] & 15);
    uint8_t what = d[at] >> 4 & 3, fin = d[at] >> 6 & 1;
    size_t size = d[at + 1] < n - at - 2 ? d[at + 1] : n - at - 2;
    at += 2;
    if (what == 0) come(p, t, d + at, size, fin, step);
    else other(p, t, what);
    if (what == 0) at += size;
    wake(p);
  }
}

static void end_plan(plan *p) {
  for (size_t i = 0; i < TRACKS; i++)
    if (p->tracks[i] != NULL) free(p->tracks[i]->bytes), free(p->tracks[i]);
}

/* A schedule, with its pieces whole and cut where the second byte says: the same events of each stream. */
static void schedule(const uint8_t *d, size_t n) {
  plan whole, cut;
  if (n < 4) return;
  play_all(&whole, d, n, n);
  play_all(&cut, d, n, d[1] > 0 ? d[1] : 1);
  MUST(whole.closed == cut.closed);
  for (size_t i = 0; i < TRACKS; i++) {
    const track *a = whole.tracks[i], *b = cut.tracks[i];
    MUST((a == NULL) == (b == NULL));
    if (a == NULL) continue;
    MUST(a->seen.sum == b->seen.sum && a->seen.events == b->seen.events && a->seen.content == b->seen.content);
  }
  end_plan(&whole);
  end_plan(&cut);
}
#endif
