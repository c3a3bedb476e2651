// Times the crate `dependence` at 24 operations and 96 edges, beside a plain C version of the same algorithms in the
// same run, and prints both and their ratio. First it holds the two to each other on random graphs.
// bench/dependence/run builds and runs it.
#include <stdbool.h>
#include <stdint.h>
#include <stdio.h>
#include <stdlib.h>
#include <string.h>
#include <time.h>

enum { OPS = 24, EDGES = 96, NO_WALK = -1000000, HIGHEST_FLOOR = 16384 };

struct edge { size_t from, to; int32_t delay; size_t distance; };
struct graph { size_t ops, latency[OPS], edge_count; struct edge edges[EDGES]; };
struct starts { size_t answer, starts[OPS], loop_length, loop_edges[OPS]; };
struct walk { size_t answer, loop_length, loop_edges[OPS]; };
struct bound { size_t answer, value; };
struct floor { size_t at[OPS]; };

// ---- the crate, by crates/bench_dependence

extern bool dependence_in_range(struct graph);
extern struct starts dependence_earliest(struct graph, size_t, struct floor);
extern struct walk dependence_bad_walk(struct graph, size_t);
extern struct bound dependence_bound(struct graph, size_t);
extern int32_t dependence_separation(struct graph, size_t, size_t, size_t);
extern int32_t dependence_lag(struct graph, size_t, size_t, size_t);

// ---- the plain C version

struct net { int ops, count; uint8_t from[EDGES], to[EDGES]; int32_t weight[EDGES]; };
typedef int32_t table[OPS][OPS];

static bool plain_in_range(const struct graph *g) {
  if (g->ops < 1 || g->ops > OPS || g->edge_count > EDGES) return false;
  for (size_t i = 0; i < g->ops; i++) if (g->latency[i] > 32) return false;
  for (size_t k = 0; k < g->edge_count; k++) {
    const struct edge *e = &g->edges[k];
    if (e->from >= g->ops || e->to >= g->ops || e->delay < -64 || e->delay > 64 || e->distance > 8) return false;
  }
  return true;
}

static void net_of(const struct graph *g, size_t interval, struct net *n) {
  n->ops = (int)g->ops;
  n->count = (int)g->edge_count;
  for (int k = 0; k < n->count; k++) {
    const struct edge *e = &g->edges[k];
    n->from[k] = (uint8_t)e->from;
    n->to[k] = (uint8_t)e->to;
    n->weight[k] = (int32_t)g->latency[e->from] + e->delay - (int32_t)(e->distance * interval);
  }
}

static bool all_met(const struct net *n, const int32_t *t) {
  for (int k = 0; k < n->count; k++) if (t[n->from[k]] + n->weight[k] > t[n->to[k]]) return false;
  return true;
}

// The least starts over t, in place; false where a bad closed walk exists.
static bool settle(const struct net *n, int32_t *t) {
  for (int r = 0; r < n->ops; r++) {
    if (all_met(n, t)) return true;
    for (int k = 0; k < n->count; k++) {
      int32_t x = t[n->from[k]] + n->weight[k];
      if (x > t[n->to[k]]) t[n->to[k]] = x;
    }
  }
  return false;
}

static void relax_row(int32_t *out, const int32_t *by, int32_t weight) {
  for (int v = 0; v < OPS; v++) {
    int32_t x = by[v] > NO_WALK ? by[v] + weight : out[v];
    out[v] = x > out[v] ? x : out[v];
  }
}

static void pass(const struct net *n, table out, table w) {
  for (int k = 0; k < n->count; k++) relax_row(out[n->from[k]], w[n->to[k]], n->weight[k]);
}

static void fill(table t, bool still) {
  for (int i = 0; i < OPS; i++) for (int j = 0; j < OPS; j++) t[i][j] = still && i == j ? 0 : NO_WALK;
}

static bool closes(int32_t weight, int32_t back) { return back > NO_WALK && weight + back > 0; }

// The rest of the first bad closed walk: after edge e, k edges more.
static void trail(const struct net *n, int k, int e, size_t *edges) {
  table back;
  int32_t row[OPS], next[OPS];
  int v = n->from[e], u = n->to[e];
  int32_t sum = n->weight[e];
  for (int i = 0; i < OPS; i++) row[i] = i == v ? 0 : NO_WALK;
  for (int r = 0; r < k; r++) {
    memcpy(back[r], row, sizeof row);
    memcpy(next, row, sizeof row);
    for (int f = 0; f < n->count; f++) {
      int32_t by = row[n->to[f]];
      if (by > NO_WALK && by + n->weight[f] > next[n->from[f]]) next[n->from[f]] = by + n->weight[f];
    }
    memcpy(row, next, sizeof row);
  }
  edges[0] = (size_t)e;
  for (int i = 1; k > 0; i++, k--) {
    int f = 0;
    while (n->from[f] != u || !closes(sum + n->weight[f], back[k - 1][n->to[f]])) f++;
    edges[i] = (size_t)f;
    u = n->to[f];
    sum += n->weight[f];
  }
}

static size_t first_bad(const struct net *n, size_t *edges) {
  table w, next;
  fill(w, true);
  for (int k = 0;; k++) {
    for (int e = 0; e < n->count; e++)
      if (closes(n->weight[e], w[n->to[e]][n->from[e]])) {
        trail(n, k, e, edges);
        return (size_t)k + 1;
      }
    memcpy(next, w, sizeof next);
    pass(n, next, w);
    memcpy(w, next, sizeof w);
  }
}

static struct starts plain_earliest(const struct graph *g, size_t interval, const struct floor *f) {
  struct starts r = {0};
  struct net n;
  int32_t t[OPS] = {0};
  if (!plain_in_range(g)) { r.answer = 3; return r; }
  net_of(g, interval, &n);
  for (int i = 0; i < n.ops; i++) t[i] = (int32_t)f->at[i];
  if (!settle(&n, t)) { r.answer = 5; r.loop_length = first_bad(&n, r.loop_edges); return r; }
  for (int i = 0; i < n.ops; i++) r.starts[i] = (size_t)t[i];
  return r;
}

static struct walk plain_bad_walk(const struct graph *g, size_t interval) {
  struct walk r = {0};
  struct net n;
  int32_t t[OPS] = {0};
  if (!plain_in_range(g)) { r.answer = 3; return r; }
  net_of(g, interval, &n);
  if (!settle(&n, t)) { r.answer = 5; r.loop_length = first_bad(&n, r.loop_edges); }
  return r;
}

static struct bound plain_bound(const struct graph *g, size_t cap) {
  if (!plain_in_range(g)) return (struct bound){3, 0};
  for (size_t l = 1; l <= cap; l++) {
    struct net n;
    int32_t t[OPS] = {0};
    net_of(g, l, &n);
    if (settle(&n, t)) return (struct bound){0, l};
  }
  return (struct bound){8, 0};
}

static int32_t plain_separation(const struct graph *g, size_t interval, size_t i, size_t j) {
  static table out, w, next;
  struct net n;
  int32_t t[OPS] = {0};
  if (!plain_in_range(g)) return 0;
  net_of(g, interval, &n);
  if (!settle(&n, t)) return 0;
  fill(w, true);
  for (int r = 0; r < n.ops; r++) {
    memcpy(next, w, sizeof next);
    pass(&n, next, w);
    memcpy(w, next, sizeof w);
  }
  fill(out, false);
  pass(&n, out, w);
  return out[i][j];
}

static int32_t plain_lag(const struct graph *g, size_t interval, size_t i, size_t j) {
  static table out;
  struct net n;
  if (!plain_in_range(g)) return 0;
  net_of(g, interval, &n);
  memset(out, 0, sizeof out);
  for (int u = 0; u < n.ops; u++) {
    int32_t t[OPS] = {0};
    t[u] = HIGHEST_FLOOR;
    if (!settle(&n, t)) return 0;
    for (int v = 0; v < n.ops; v++) out[u][v] = t[v] - HIGHEST_FLOOR;
  }
  return out[i][j];
}

// ---- graphs

static unsigned state = 1;
static unsigned under(unsigned n) { state = state * 1103515245u + 12345u; return (state >> 16) % n; }

static void any_graph(struct graph *g, size_t ops, size_t edges) {
  memset(g, 0, sizeof *g);
  g->ops = ops;
  g->edge_count = edges;
  for (size_t i = 0; i < ops; i++) g->latency[i] = under(5);
  unsigned n = (unsigned)ops;
  for (size_t k = 0; k < edges; k++) g->edges[k] = (struct edge){under(n), under(n), (int)under(9) - 5, under(3)};
}

// Forward edges, and a quarter back edges with distance 8: no bad closed walk from its bound on.
static void forward_graph(struct graph *g) {
  memset(g, 0, sizeof *g);
  g->ops = OPS;
  g->edge_count = EDGES;
  for (int i = 0; i < OPS; i++) g->latency[i] = 1 + under(4);
  for (int k = 0; k < EDGES; k++) {
    unsigned i = under(OPS - 1), j = i + 1 + under(OPS - 1 - i);
    g->edges[k] = k < 72 ? (struct edge){i, j, (int)under(3), 0} : (struct edge){j, i, 0, 8};
  }
}

// One ring of 24 edges whose sum is 1, and edges that close no bad walk: the longest first walk.
static void ring_graph(struct graph *g) {
  memset(g, 0, sizeof *g);
  g->ops = OPS;
  g->edge_count = EDGES;
  for (int k = 0; k < OPS; k++) g->edges[k] = (struct edge){k, (k + 1) % OPS, k == OPS - 1, 0};
  for (int k = OPS; k < EDGES; k++) g->edges[k] = (struct edge){under(OPS), under(OPS), -64, 8};
}

// ---- the comparison

static int differs(const char *what, int round) { printf("%s differs in round %d\n", what, round); return 1; }

static int compare(int rounds) {
  for (int r = 0; r < rounds; r++) {
    struct graph g;
    struct floor f = {{0}};
    size_t interval = 1 + under(5), cap = 1 + under(8), i = under(OPS), j = under(OPS);
    any_graph(&g, 1 + under(OPS), under(EDGES + 1));
    for (size_t v = 0; v < g.ops; v++) f.at[v] = under(10);
    struct starts s = dependence_earliest(g, interval, f), t = plain_earliest(&g, interval, &f);
    if (memcmp(&s, &t, sizeof s)) return differs("earliest", r);
    struct walk w = dependence_bad_walk(g, interval), x = plain_bad_walk(&g, interval);
    if (memcmp(&w, &x, sizeof w)) return differs("bad walk", r);
    struct bound b = dependence_bound(g, cap), c = plain_bound(&g, cap);
    if (b.answer != c.answer || b.value != c.value) return differs("bound", r);
    int32_t sum = dependence_separation(g, interval, i, j);
    if (sum != plain_separation(&g, interval, i, j)) return differs("separation", r);
    if (dependence_lag(g, interval, i, j) != plain_lag(&g, interval, i, j)) return differs("lag", r);
  }
  printf("%d random graphs: the same answers\n", rounds);
  return 0;
}

// ---- the times

// Processor time in microseconds: other work on the machine does not count.
static double now(void) {
  struct timespec t;
  clock_gettime(CLOCK_PROCESS_CPUTIME_ID, &t);
  return (double)t.tv_sec * 1e6 + (double)t.tv_nsec / 1e3;
}

static volatile size_t sink;

#define TIME(best, times, call)                                        \
  do {                                                                 \
    double begin_ = now();                                             \
    for (int n_ = 0; n_ < (times); n_++) sink += (size_t)(call);       \
    double each_ = (now() - begin_) / (times);                         \
    if (each_ < best) best = each_;                                    \
  } while (0)

// The least of eleven rounds of each, in turn.
#define BOTH(name, times, proved, plain)                               \
  do {                                                                 \
    double a_ = 1e30, b_ = 1e30;                                       \
    for (int round_ = 0; round_ < 11; round_++) {                      \
      TIME(a_, times, proved);                                         \
      TIME(b_, times, plain);                                          \
    }                                                                  \
    printf("%-36s %9.2f %9.2f %7.2f\n", name, a_, b_, a_ / b_);        \
  } while (0)

int main(void) {
  struct graph a, b, c, z;
  struct floor f = {{0}};
  if (compare(5000)) return 1;
  forward_graph(&a);
  b = a;
  for (int k = 0; k < EDGES; k++) b.edges[k] = a.edges[EDGES - 1 - k];
  ring_graph(&c);
  z = a;
  z.edges[0] = (struct edge){0, 0, 1, 0};
  size_t l = dependence_bound(a, 64).value;
  size_t ring = dependence_bad_walk(c, 1).loop_length;
  printf("24 operations, 96 edges, interval %zu; the ring's walk has %zu edges\n", l, ring);
  printf("%-36s %9s %9s %7s\n", "microseconds a call", "proved", "plain C", "ratio");
  BOTH("in_range", 20000, dependence_in_range(a), plain_in_range(&a));
  BOTH("earliest", 20000, dependence_earliest(a, l, f).starts[1], plain_earliest(&a, l, &f).starts[1]);
  BOTH("earliest, edges listed backwards", 20000, dependence_earliest(b, l, f).starts[1],
       plain_earliest(&b, l, &f).starts[1]);
  BOTH("earliest, 5 with a ring of 24", 1000, dependence_earliest(c, 1, f).loop_length,
       plain_earliest(&c, 1, &f).loop_length);
  BOTH("bad_walk, none", 20000, dependence_bad_walk(a, l).answer, plain_bad_walk(&a, l).answer);
  if (l > 1)
    BOTH("bad_walk, at the bound less 1", 2000, dependence_bad_walk(a, l - 1).loop_length,
         plain_bad_walk(&a, l - 1).loop_length);
  BOTH("bad_walk, a ring of 24", 1000, dependence_bad_walk(c, 1).loop_length, plain_bad_walk(&c, 1).loop_length);
  BOTH("separations", 2000, dependence_separation(a, l, 1, 2), plain_separation(&a, l, 1, 2));
  BOTH("lags", 2000, dependence_lag(a, l, 1, 2), plain_lag(&a, l, 1, 2));
  BOTH("recurrence_bound, cap 64", 2000, dependence_bound(a, 64).value, plain_bound(&a, 64).value);
  BOTH("recurrence_bound, 8 at cap 64", 500, dependence_bound(z, 64).answer, plain_bound(&z, 64).answer);
  return 0;
}
