/* others FOLDER: "which commit holds page p for this snapshot", asked of LMDB and of SQLite on the tables that
 * `cargo bench --bench sizes -- --write FOLDER` writes. A line for each: store, size, microseconds of a search.
 *
 * LMDB: an index whose keys are the index entries (log, page, LSN complemented) and the commits by log and LSN complemented, in one file; a search
 * is a read transaction, a cursor set to the first entry at or below the range's end, and a get of the commit.
 * SQLite: the same two tables WITHOUT ROWID in one file, a prepared statement that joins them. Both files have been read before, and nothing is written. A time is the best of 100
 * rounds of 8 searches, as in the benchmark of ours; what is found is compared with a plain search of the file. */
#include <lmdb.h>
#include <sqlite3.h>
#include <stdint.h>
#include <stdio.h>
#include <stdlib.h>
#include <string.h>
#include <time.h>

enum { COMMIT = 722, COMMIT_KEY = 25, ENTRY = 29, SNAPSHOT = 262, RANGE = 32, ROUNDS = 100, EACH = 8 };

struct books {
    const char *size;
    unsigned char *commits, *index, *snapshot;
    uint32_t pages; /* the snapshot's page count */
};

static void die(const char *what)
{
    fprintf(stderr, "others: %s\n", what);
    exit(1);
}

static void need(int ok, const char *what)
{
    if (!ok)
        die(what);
}

static uint64_t big(const unsigned char *b, int n)
{
    uint64_t x = 0;
    while (n--)
        x = x << 8 | *b++;
    return x;
}

static void put_big(unsigned char *b, uint64_t x, int n)
{
    while (n--) {
        b[n] = (unsigned char)x;
        x >>= 8;
    }
}

static unsigned char *slurp(const char *folder, const char *size, const char *name)
{
    char path[4096];
    snprintf(path, sizeof path, "%s/%s-%s.bin", folder, size, name);
    FILE *f = fopen(path, "rb");
    need(f != NULL, path);
    need(fseek(f, 0, SEEK_END) == 0, path);
    long n = ftell(f);
    rewind(f);
    unsigned char *b = malloc((size_t)n);
    need(b != NULL && fread(b, 1, (size_t)n, f) == (size_t)n, path);
    fclose(f);
    return b;
}

static unsigned held(const unsigned char *table)
{
    return (unsigned)big(table, 2);
}

static double now_us(void)
{
    struct timespec t;
    clock_gettime(CLOCK_MONOTONIC, &t);
    return (double)t.tv_sec * 1e6 + (double)t.tv_nsec / 1e3;
}

/* the page of the k-th search, as in benches/sizes/books.rs */
static uint32_t searched(const struct books *b, uint32_t k)
{
    return 1 + k * 617 % (b->pages - 1);
}

/* the commit of a page by a plain look through the index, or NULL */
static const unsigned char *plain(const struct books *b, uint32_t page)
{
    for (int r = 0; r < b->snapshot[5]; r++) {
        const unsigned char *range = b->snapshot + 6 + RANGE * r, *best = NULL;
        for (unsigned i = 0; i < held(b->index); i++) {
            const unsigned char *e = b->index + 2 + (size_t)ENTRY * i;
            uint64_t lsn = ~big(e + 21, 8);
            if (!memcmp(e + 1, range, 16) && big(e + 17, 4) == page && lsn >= big(range + 16, 8) && lsn <= big(range + 24, 8)
                && (best == NULL || lsn > ~big(best + 21, 8)))
                best = e;
        }
        for (unsigned i = 0; best != NULL && i < held(b->commits); i++) {
            const unsigned char *c = b->commits + 2 + (size_t)COMMIT * i;
            if (!memcmp(c + 1, best + 1, 16) && !memcmp(c + 17, best + 21, 8))
                return c;
        }
    }
    return NULL;
}

/* a store: a search of a page, into COMMIT bytes; whether it was found */
typedef int (*search_fn)(void *store, const struct books *b, uint32_t page, unsigned char *out);

static void measure(const char *name, search_fn search, void *store, const struct books *b)
{
    unsigned char out[COMMIT];
    for (uint32_t k = 0; k < 64; k++) {
        const unsigned char *want = plain(b, searched(b, k));
        need(want != NULL && search(store, b, searched(b, k), out) && !memcmp(out, want, COMMIT), "another commit was found");
    }
    double best = 1e30;
    uint32_t k = 0;
    for (int round = 0; round < ROUNDS; round++) {
        double start = now_us();
        for (int i = 0; i < EACH; i++)
            need(search(store, b, searched(b, k++), out), "found");
        double took = (now_us() - start) / EACH;
        best = took < best ? took : best;
    }
    printf("search\t%s\t%s\t%.2f\n", b->size, name, best);
}

/* ---- LMDB */

struct lmdb {
    MDB_env *env;
    MDB_dbi index, commits;
    MDB_txn *txn;
};

static void lmdb_fill(struct lmdb *l, MDB_dbi dbi, MDB_txn *txn, const unsigned char *table, size_t record, size_t key)
{
    (void)l;
    for (unsigned i = 0; i < held(table); i++) {
        unsigned char *r = (unsigned char *)table + 2 + record * i;
        MDB_val k = { key - 1, r + 1 }, v = { record - key, r + key };
        if (record == COMMIT)
            v = (MDB_val){ record, r };
        need(mdb_put(txn, dbi, &k, &v, 0) == 0, "mdb_put");
    }
}

static void lmdb_open(struct lmdb *l, const char *path, const struct books *b)
{
    MDB_txn *txn;
    need(mdb_env_create(&l->env) == 0 && mdb_env_set_maxdbs(l->env, 2) == 0, "mdb_env_create");
    need(mdb_env_set_mapsize(l->env, (size_t)1 << 28) == 0, "mdb_env_set_mapsize");
    need(mdb_env_open(l->env, path, MDB_NOSUBDIR | MDB_NOSYNC, 0600) == 0, "mdb_env_open");
    need(mdb_txn_begin(l->env, NULL, 0, &txn) == 0, "mdb_txn_begin");
    need(mdb_dbi_open(txn, "index", MDB_CREATE, &l->index) == 0, "mdb_dbi_open");
    need(mdb_dbi_open(txn, "commits", MDB_CREATE, &l->commits) == 0, "mdb_dbi_open");
    lmdb_fill(l, l->index, txn, b->index, ENTRY, ENTRY);
    lmdb_fill(l, l->commits, txn, b->commits, COMMIT, COMMIT_KEY);
    need(mdb_txn_commit(txn) == 0, "mdb_txn_commit");
    need(mdb_txn_begin(l->env, NULL, MDB_RDONLY, &l->txn) == 0, "mdb_txn_begin");
    mdb_txn_reset(l->txn);
}

static int lmdb_search(void *store, const struct books *b, uint32_t page, unsigned char *out)
{
    struct lmdb *l = store;
    int found = 0;
    MDB_cursor *cursor;
    need(mdb_txn_renew(l->txn) == 0 && mdb_cursor_open(l->txn, l->index, &cursor) == 0, "a read transaction");
    for (int r = 0; r < b->snapshot[5] && !found; r++) {
        const unsigned char *range = b->snapshot + 6 + RANGE * r;
        unsigned char low[28];
        memcpy(low, range, 16);
        put_big(low + 16, page, 4);
        put_big(low + 20, ~big(range + 24, 8), 8);
        MDB_val key = { sizeof low, low }, value;
        if (mdb_cursor_get(cursor, &key, &value, MDB_SET_RANGE) != 0 || memcmp(key.mv_data, low, 20) != 0)
            continue;
        const unsigned char *entry = key.mv_data;
        if (~big(entry + 20, 8) < big(range + 16, 8))
            continue;
        unsigned char at[24];
        memcpy(at, entry, 16);
        memcpy(at + 16, entry + 20, 8);
        key = (MDB_val){ sizeof at, at };
        need(mdb_get(l->txn, l->commits, &key, &value) == 0 && value.mv_size == COMMIT, "an entry without commit");
        memcpy(out, value.mv_data, COMMIT);
        found = 1;
    }
    mdb_cursor_close(cursor);
    mdb_txn_reset(l->txn);
    return found;
}

/* ---- SQLite; an LSN of 2^63 or more would not fit, and none is here */

struct sqlite {
    sqlite3 *db;
    sqlite3_stmt *search;
};

static void sqlite_run(sqlite3 *db, const char *sql)
{
    need(sqlite3_exec(db, sql, NULL, NULL, NULL) == SQLITE_OK, sqlite3_errmsg(db));
}

static void sqlite_open(struct sqlite *s, const char *path, const struct books *b)
{
    need(sqlite3_open(path, &s->db) == SQLITE_OK, "sqlite3_open");
    sqlite_run(s->db, "PRAGMA synchronous = OFF; PRAGMA cache_size = -65536;"
                      "CREATE TABLE entries (log BLOB, page INTEGER, lsn INTEGER, PRIMARY KEY (log, page, lsn DESC)) WITHOUT ROWID;"
                      "CREATE TABLE commits (log BLOB, lsn INTEGER, record BLOB, PRIMARY KEY (log, lsn DESC)) WITHOUT ROWID; BEGIN;");
    sqlite3_stmt *put;
    need(sqlite3_prepare_v2(s->db, "INSERT INTO entries VALUES (?, ?, ?)", -1, &put, NULL) == SQLITE_OK, "prepare");
    for (unsigned i = 0; i < held(b->index); i++) {
        const unsigned char *e = b->index + 2 + (size_t)ENTRY * i;
        sqlite3_bind_blob(put, 1, e + 1, 16, SQLITE_STATIC);
        sqlite3_bind_int64(put, 2, (sqlite3_int64)big(e + 17, 4));
        sqlite3_bind_int64(put, 3, (sqlite3_int64)~big(e + 21, 8));
        need(sqlite3_step(put) == SQLITE_DONE && sqlite3_reset(put) == SQLITE_OK, "insert");
    }
    sqlite3_finalize(put);
    need(sqlite3_prepare_v2(s->db, "INSERT INTO commits VALUES (?, ?, ?)", -1, &put, NULL) == SQLITE_OK, "prepare");
    for (unsigned i = 0; i < held(b->commits); i++) {
        const unsigned char *c = b->commits + 2 + (size_t)COMMIT * i;
        sqlite3_bind_blob(put, 1, c + 1, 16, SQLITE_STATIC);
        sqlite3_bind_int64(put, 2, (sqlite3_int64)~big(c + 17, 8));
        sqlite3_bind_blob(put, 3, c, COMMIT, SQLITE_STATIC);
        need(sqlite3_step(put) == SQLITE_DONE && sqlite3_reset(put) == SQLITE_OK, "insert");
    }
    sqlite3_finalize(put);
    sqlite_run(s->db, "COMMIT;");
    const char *sql = "SELECT c.record FROM entries e JOIN commits c ON c.log = e.log AND c.lsn = e.lsn"
                      " WHERE e.log = ? AND e.page = ? AND e.lsn BETWEEN ? AND ? ORDER BY e.lsn DESC LIMIT 1";
    need(sqlite3_prepare_v3(s->db, sql, -1, SQLITE_PREPARE_PERSISTENT, &s->search, NULL) == SQLITE_OK, sqlite3_errmsg(s->db));
}

static int sqlite_search(void *store, const struct books *b, uint32_t page, unsigned char *out)
{
    struct sqlite *s = store;
    int found = 0;
    for (int r = 0; r < b->snapshot[5] && !found; r++) {
        const unsigned char *range = b->snapshot + 6 + RANGE * r;
        sqlite3_bind_blob(s->search, 1, range, 16, SQLITE_STATIC);
        sqlite3_bind_int64(s->search, 2, page);
        sqlite3_bind_int64(s->search, 3, (sqlite3_int64)big(range + 16, 8));
        sqlite3_bind_int64(s->search, 4, (sqlite3_int64)big(range + 24, 8));
        if (sqlite3_step(s->search) == SQLITE_ROW && sqlite3_column_bytes(s->search, 0) == COMMIT) {
            memcpy(out, sqlite3_column_blob(s->search, 0), COMMIT);
            found = 1;
        }
        sqlite3_reset(s->search);
    }
    return found;
}

int main(int argc, char **argv)
{
    need(argc == 2, "others FOLDER");
    const char *sizes[] = { "tester", "full" };
    for (int i = 0; i < 2; i++) {
        struct books b = { sizes[i], slurp(argv[1], sizes[i], "commits"), slurp(argv[1], sizes[i], "index"), slurp(argv[1], sizes[i], "snapshot"), 0 };
        b.pages = (uint32_t)big(b.snapshot + 1, 4);
        char path[4096];
        struct lmdb l;
        snprintf(path, sizeof path, "%s/%s.mdb", argv[1], b.size);
        lmdb_open(&l, path, &b);
        measure("LMDB", lmdb_search, &l, &b);
        struct sqlite s;
        snprintf(path, sizeof path, "%s/%s.sqlite", argv[1], b.size);
        sqlite_open(&s, path, &b);
        measure("SQLite", sqlite_search, &s, &b);
    }
    return 0;
}
