/* The near pairs of a catalogue by a plain loop in C: a sweep by subchunks and heights, as the program makes one, for comparison.
 *
 *     gcc -O2 -o sweep bench/sweep.c
 *     ./sweep SKY CSV LIMIT TIMES
 *
 * Reads a sky plan and a catalogue as docs/FORMATS.md describes them (the first four fields of a row are read), and lists the
 * rows of each chunk, of its full overlap and of each subchunk. Then, TIMES times and measured: the strip of each chunk is put in
 * ascending height (order), the rows near each of its subchunks are taken of it (part), and each row of the subchunk is compared
 * with the rows in its window of heights (sweep). Writes one line: the pairs whose squared chord is at most LIMIT and whose first
 * id is the lower one, and the processor time of the three parts in milliseconds, of the run that took least.
 */
#include <stdint.h>
#include <stdio.h>
#include <stdlib.h>
#include <string.h>
#include <time.h>

typedef struct { int64_t dx, dy; } Dir;
typedef struct { int64_t low, end; int64_t chunks, columns, rows, overlap; int first; } Stripe;
typedef struct { int64_t low, high; int whole; Dir first, second; int64_t radius; } Region;
typedef struct { int *items; int count, room; } List;
typedef struct { int64_t id; int32_t x, y, z; } Row;

static Stripe stripes[256];
static int stripe_count, chunk_count, row_count;
static Row *rows;
static List *own, *overlap;

static void stop(const char *why)
{
    fprintf(stderr, "sweep: %s\n", why);
    exit(1);
}

static void *room_for(void *old, size_t bytes)
{
    void *made = realloc(old, bytes ? bytes : 1);
    if (!made) stop("out of memory");
    return made;
}

static void push(List *list, int item)
{
    if (list->count == list->room) {
        list->room = list->room ? 2 * list->room : 16;
        list->items = room_for(list->items, list->room * sizeof(int));
    }
    list->items[list->count++] = item;
}

/* ---- the sky plan */

static void read_sky(const char *name)
{
    FILE *file = fopen(name, "r");
    char line[256];
    long long all = 0, v[5];
    if (!file) stop("the sky plan cannot be read");
    while (fgets(line, sizeof line, file)) {
        if (sscanf(line, "overlap %lld", &all) == 1) continue;
        int found = sscanf(line, "stripe %lld %lld %lld %lld %lld", v, v + 1, v + 2, v + 3, v + 4);
        if (found < 4) continue;
        Stripe s = { v[0], 268435473, v[1], v[2], v[3], found == 5 ? v[4] : all, chunk_count };
        if (stripe_count) stripes[stripe_count - 1].end = s.low;
        stripes[stripe_count++] = s;
        chunk_count += s.chunks;
    }
    fclose(file);
}

/* the point, s steps along the square of half side n */
static Dir heading(int64_t n, int64_t k)
{
    int64_t s = 8 * k;
    if (s < n) return (Dir){ n, s };
    if (s < 3 * n) return (Dir){ 2 * n - s, n };
    if (s < 5 * n) return (Dir){ -n, 4 * n - s };
    if (s < 7 * n) return (Dir){ s - 6 * n, -n };
    return (Dir){ n, s - 8 * n };
}

static int64_t cross(Dir d, int64_t x, int64_t y)
{
    return d.dx * y - d.dy * x;
}

static Region wedge(int64_t n, int64_t k, int64_t low, int64_t end, int64_t radius)
{
    return (Region){ low, end - 1, n == 1, heading(n, k), heading(n, k + 1), radius };
}

static int is_near_line(Dir d, const Row *p, int64_t radius)
{
    __int128 c = cross(d, p->x, p->y);
    return c * c <= (__int128)(d.dx * d.dx + d.dy * d.dy) * (radius * radius);
}

static int is_near(const Region *r, const Row *p)
{
    if (p->z < r->low - r->radius || p->z > r->high + r->radius) return 0;
    if (r->whole) return 1;
    return (cross(r->first, p->x, p->y) >= 0 || is_near_line(r->first, p, r->radius))
        && (cross(r->second, p->x, p->y) < 0 || is_near_line(r->second, p, r->radius));
}

/* the wedge of n that holds the point: the one between whose directions it lies, found by halving each half turn */
static int64_t wedge_of(int64_t n, int64_t x, int64_t y)
{
    if (n == 1 || (x == 0 && y == 0)) return 0;
    int64_t low = 0, high = n;
    while (high - low > 1) {
        int64_t middle = (low + high) / 2;
        Dir d = heading(n, middle);
        int is_upper = y > 0 || (y == 0 && x > 0), is_turned = d.dy < 0 || (d.dy == 0 && d.dx < 0);
        int is_past = is_upper == !is_turned ? cross(d, x, y) >= 0 : is_turned ? 0 : 1;
        if (is_past) low = middle; else high = middle;
    }
    return low;
}

static int stripe_of(int64_t z)
{
    int i = 0;
    while (i + 1 < stripe_count && stripes[i + 1].low <= z) i++;
    return i;
}

static int64_t row_start(const Stripe *s, int64_t t)
{
    return s->low + t * (s->end - s->low) / s->rows;
}

static int sub_of(const Stripe *s, const Row *p)
{
    int64_t t = 0;
    while (t + 1 < s->rows && row_start(s, t + 1) <= p->z) t++;
    return t * s->columns + wedge_of(s->chunks * s->columns, p->x, p->y) % s->columns;
}

static Region sub_region(const Stripe *s, int64_t k, int sub)
{
    int64_t t = sub / s->columns, j = sub % s->columns;
    return wedge(s->chunks * s->columns, k * s->columns + j, row_start(s, t), row_start(s, t + 1), s->overlap);
}

/* ---- the catalogue */

static int by_id(const void *a, const void *b)
{
    int64_t x = ((const Row *)a)->id, y = ((const Row *)b)->id;
    return x < y ? -1 : x > y;
}

static void read_rows(const char *name)
{
    FILE *file = fopen(name, "r");
    static char line[65536];
    int room = 0;
    if (!file || !fgets(line, sizeof line, file)) stop("the catalogue cannot be read");
    while (fgets(line, sizeof line, file)) {
        char *at = line;
        if (row_count == room) rows = room_for(rows, (room = room ? 2 * room : 1024) * sizeof(Row));
        Row *r = rows + row_count++;
        r->id = strtoll(at, &at, 10);
        r->x = strtol(at + 1, &at, 10);
        r->y = strtol(at + 1, &at, 10);
        r->z = strtol(at + 1, &at, 10);
    }
    fclose(file);
    qsort(rows, row_count, sizeof(Row), by_id);
}

static void list_chunks(void)
{
    own = calloc(chunk_count, sizeof(List));
    overlap = calloc(chunk_count, sizeof(List));
    if (!own || !overlap) stop("out of memory");
    for (int i = 0; i < row_count; i++) {
        const Row *p = rows + i;
        int held = stripe_of(p->z);
        int chunk = stripes[held].first + wedge_of(stripes[held].chunks, p->x, p->y);
        push(own + chunk, i);
        for (int n = 0; n < stripe_count; n++) {
            const Stripe *s = stripes + n;
            if (p->z < s->low - s->overlap || p->z > s->end - 1 + s->overlap) continue;
            for (int64_t k = 0; k < s->chunks; k++) {
                Region r = wedge(s->chunks, k, s->low, s->end, s->overlap);
                if (s->first + k != chunk && is_near(&r, p)) push(overlap + s->first + k, i);
            }
        }
    }
}

/* ---- the sweep */

typedef struct { double order, part, sweep; } Spent;

static double now(void)
{
    struct timespec t;
    clock_gettime(CLOCK_PROCESS_CPUTIME_ID, &t);
    return 1e3 * t.tv_sec + t.tv_nsec / 1e6;
}

static int by_word(const void *a, const void *b)
{
    uint64_t x = *(const uint64_t *)a, y = *(const uint64_t *)b;
    return x < y ? -1 : x > y;
}

static Row *strip, *near;
static uint64_t *words;

static int strip_of(int chunk)
{
    int count = 0;
    for (int i = 0; i < own[chunk].count + overlap[chunk].count; i++) {
        int place = i < own[chunk].count ? own[chunk].items[i] : overlap[chunk].items[i - own[chunk].count];
        words[count++] = ((uint64_t)(rows[place].z + (1 << 29)) << 22) + place;
    }
    qsort(words, count, sizeof *words, by_word);
    for (int i = 0; i < count; i++) strip[i] = rows[words[i] & ((1 << 22) - 1)];
    return count;
}

/* the number of the first height that is not below z */
static int first_at(const Row *list, int count, int64_t z)
{
    int low = 0;
    while (count > 0) {
        int half = count / 2;
        if (list[low + half].z < z) low += half + 1, count -= half + 1; else count = half;
    }
    return low;
}

static int64_t swept(const List *held, int count, int64_t limit, int64_t root)
{
    int64_t found = 0;
    for (int i = 0; i < held->count; i++) {
        const Row *a = rows + held->items[i];
        int from = first_at(near, count, a->z - root);
        for (int k = from; k < count && near[k].z <= a->z + root; k++) {
            const Row *b = near + k;
            int64_t dx = a->x - b->x, dy = a->y - b->y, dz = a->z - b->z;
            if (dx * dx + dy * dy + dz * dz <= limit && a->id < b->id) found++;
        }
    }
    return found;
}

static int64_t chunk_pairs(const Stripe *s, int64_t k, int64_t limit, int64_t root, Spent *spent)
{
    int chunk = s->first + k, subs = s->rows * s->columns;
    double began = now();
    int count = strip_of(chunk);
    double ordered = now();
    spent->order += ordered - began;
    List held[4096];
    memset(held, 0, subs * sizeof *held);
    for (int i = 0; i < own[chunk].count; i++) push(held + sub_of(s, rows + own[chunk].items[i]), own[chunk].items[i]);
    spent->part += now() - ordered;
    int64_t found = 0;
    for (int sub = 0; sub < subs; sub++) {
        if (!held[sub].count) continue;
        Region r = sub_region(s, k, sub);
        double start = now();
        int taken = 0, from = first_at(strip, count, r.low - r.radius), to = first_at(strip, count, r.high + r.radius + 1);
        for (int i = from; i < to; i++) if (is_near(&r, strip + i)) near[taken++] = strip[i];
        double parted = now();
        found += swept(held + sub, taken, limit, root);
        spent->part += parted - start;
        spent->sweep += now() - parted;
    }
    for (int sub = 0; sub < subs; sub++) free(held[sub].items);
    return found;
}

int main(int count, char **words_given)
{
    if (count != 5) stop("SKY CSV LIMIT TIMES");
    read_sky(words_given[1]);
    read_rows(words_given[2]);
    list_chunks();
    int64_t limit = strtoll(words_given[3], 0, 10), root = 0, found = 0;
    for (int64_t bit = 1LL << 31; bit; bit /= 2) if ((root + bit) * (root + bit) <= limit) root += bit;
    strip = room_for(0, row_count * sizeof(Row));
    near = room_for(0, row_count * sizeof(Row));
    words = room_for(0, row_count * sizeof *words);
    Spent least = { 0, 0, 0 };
    for (int turn = 0; turn < atoi(words_given[4]); turn++) {
        Spent spent = { 0, 0, 0 };
        found = 0;
        for (int n = 0; n < stripe_count; n++)
            for (int64_t k = 0; k < stripes[n].chunks; k++)
                found += chunk_pairs(stripes + n, k, limit, root, &spent);
        if (!turn || spent.order + spent.part + spent.sweep < least.order + least.part + least.sweep) least = spent;
    }
    printf("%lld %.1f %.1f %.1f\n", (long long)found, least.order, least.part, least.sweep);
    return 0;
}
