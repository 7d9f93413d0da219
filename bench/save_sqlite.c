/* SQLite's save: three rows updated in one transaction, synchronous FULL, its writes and syncs counted in a VFS that passes
 * everything on to the default one. Takes a folder for the database. */
#include <sqlite3.h>
#include <stdlib.h>

#include "save.h"

/* A file of the counting VFS: the file below it stands right behind. */
struct counted {
    sqlite3_file base;
    sqlite3_file *below;
};

#define BELOW(f) (((struct counted *)(f))->below)
#define PASS(f, method, ...) BELOW(f)->pMethods->method(BELOW(f), __VA_ARGS__)

static int write_counted(sqlite3_file *f, const void *p, int n, sqlite3_int64 at)
{
    io.writes++;
    io.bytes += (uint64_t)n;
    return PASS(f, xWrite, p, n, at);
}

static int sync_counted(sqlite3_file *f, int flags)
{
    io.flushes++;
    return PASS(f, xSync, flags);
}

static int f_close(sqlite3_file *f) { return BELOW(f)->pMethods->xClose(BELOW(f)); }
static int f_read(sqlite3_file *f, void *p, int n, sqlite3_int64 at) { return PASS(f, xRead, p, n, at); }
static int f_truncate(sqlite3_file *f, sqlite3_int64 n) { return PASS(f, xTruncate, n); }
static int f_size(sqlite3_file *f, sqlite3_int64 *n) { return PASS(f, xFileSize, n); }
static int f_lock(sqlite3_file *f, int l) { return PASS(f, xLock, l); }
static int f_unlock(sqlite3_file *f, int l) { return PASS(f, xUnlock, l); }
static int f_reserved(sqlite3_file *f, int *r) { return PASS(f, xCheckReservedLock, r); }
static int f_control(sqlite3_file *f, int op, void *p) { return PASS(f, xFileControl, op, p); }
static int f_sector(sqlite3_file *f) { return BELOW(f)->pMethods->xSectorSize(BELOW(f)); }
static int f_traits(sqlite3_file *f) { return BELOW(f)->pMethods->xDeviceCharacteristics(BELOW(f)); }
static int f_map(sqlite3_file *f, int i, int n, int x, void volatile **p) { return PASS(f, xShmMap, i, n, x, p); }
static int f_shm_lock(sqlite3_file *f, int i, int n, int flags) { return PASS(f, xShmLock, i, n, flags); }
static void f_barrier(sqlite3_file *f) { BELOW(f)->pMethods->xShmBarrier(BELOW(f)); }
static int f_unmap(sqlite3_file *f, int erase) { return PASS(f, xShmUnmap, erase); }

static const sqlite3_io_methods methods = {
    .iVersion = 2,
    .xClose = f_close,
    .xRead = f_read,
    .xWrite = write_counted,
    .xTruncate = f_truncate,
    .xSync = sync_counted,
    .xFileSize = f_size,
    .xLock = f_lock,
    .xUnlock = f_unlock,
    .xCheckReservedLock = f_reserved,
    .xFileControl = f_control,
    .xSectorSize = f_sector,
    .xDeviceCharacteristics = f_traits,
    .xShmMap = f_map,
    .xShmLock = f_shm_lock,
    .xShmBarrier = f_barrier,
    .xShmUnmap = f_unmap,
};

static int open_counted(sqlite3_vfs *vfs, sqlite3_filename name, sqlite3_file *f, int flags, int *out)
{
    sqlite3_vfs *below = vfs->pAppData;
    struct counted *c = (struct counted *)f;
    c->below = (sqlite3_file *)(c + 1);
    int e = below->xOpen(below, name, c->below, flags, out);
    c->base.pMethods = c->below->pMethods ? &methods : NULL;
    return e;
}

static void use_counting_vfs(void)
{
    static sqlite3_vfs vfs;
    sqlite3_vfs *below = sqlite3_vfs_find(NULL);
    vfs = *below;
    vfs.zName = "counted";
    vfs.pAppData = below;
    vfs.szOsFile = (int)sizeof(struct counted) + below->szOsFile;
    vfs.xOpen = open_counted;
    sqlite3_vfs_register(&vfs, 1);
}

/* ---- The saves. */

static sqlite3 *db;
static sqlite3_stmt *update;

static void must(int code, int wanted)
{
    if (code != wanted) {
        fprintf(stderr, "sqlite: %s\n", sqlite3_errmsg(db));
        exit(1);
    }
}

static void run(const char *sql)
{
    must(sqlite3_exec(db, sql, NULL, NULL, NULL), SQLITE_OK);
}

static void save(int i)
{
    uint8_t block[SAVE_BLOCK];
    save_block(block, i);
    run("BEGIN");
    for (int part = 0; part < SAVE_PARTS; part++) {
        must(sqlite3_bind_blob(update, 1, block, sizeof block, SQLITE_STATIC), SQLITE_OK);
        must(sqlite3_bind_int(update, 2, (int)save_address(i, part)), SQLITE_OK);
        must(sqlite3_step(update), SQLITE_DONE);
        must(sqlite3_reset(update), SQLITE_OK);
    }
    run("COMMIT");
}

static void measure(const char *folder, const char *journal, const char *label)
{
    char text[600];
    snprintf(text, sizeof text, "%s/%s.db", folder, journal);
    must(sqlite3_open(text, &db), SQLITE_OK);
    snprintf(text, sizeof text, "PRAGMA journal_mode=%s; PRAGMA synchronous=FULL", journal);
    run(text);
    run("CREATE TABLE card(address INTEGER PRIMARY KEY, block BLOB NOT NULL)");
    snprintf(text, sizeof text,
             "WITH RECURSIVE n(i) AS (SELECT %d UNION ALL SELECT i + 1 FROM n WHERE i < %d)"
             " INSERT INTO card SELECT i, zeroblob(%d) FROM n",
             SAVE_FIRST, SAVE_BLOCKS - 1, SAVE_BLOCK);
    run(text);
    must(sqlite3_prepare_v2(db, "UPDATE card SET block=? WHERE address=?", -1, &update, NULL), SQLITE_OK);
    save_report(label, save);
    must(sqlite3_finalize(update), SQLITE_OK);
    must(sqlite3_close(db), SQLITE_OK);
}

int main(int argc, char **argv)
{
    if (argc != 2)
        return 2;
    use_counting_vfs();
    measure(argv[1], "WAL", "SQLite " SQLITE_VERSION ", WAL, FULL");
    measure(argv[1], "DELETE", "SQLite " SQLITE_VERSION ", rollback (DELETE), FULL");
    return 0;
}
