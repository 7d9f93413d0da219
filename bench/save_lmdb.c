/* LMDB's save: three values put in one transaction. Its writes and syncs are counted by the linker's --wrap, for which
 * liblmdb.a is linked. Takes an empty folder for the database. */
#define _GNU_SOURCE
#include <fcntl.h>
#include <lmdb.h>
#include <stdlib.h>
#include <sys/mman.h>
#include <sys/uio.h>
#include <unistd.h>

#include "save.h"

/* ---- The system calls of LMDB's commit. */

ssize_t __real_pwrite(int fd, const void *p, size_t n, off_t at);
ssize_t __real_writev(int fd, const struct iovec *v, int n);
int __real_msync(void *p, size_t n, int flags);
int __real_fdatasync(int fd);
int __real_fsync(int fd);

/* A write to a descriptor opened with O_DSYNC is a flush as well: LMDB writes its meta page so. */
static ssize_t counted(int fd, ssize_t bytes)
{
    io.writes++;
    io.bytes += (uint64_t)bytes;
    io.flushes += (fcntl(fd, F_GETFL) & O_DSYNC) != 0;
    return bytes;
}

ssize_t __wrap_pwrite(int fd, const void *p, size_t n, off_t at)
{
    return counted(fd, __real_pwrite(fd, p, n, at));
}

ssize_t __wrap_writev(int fd, const struct iovec *v, int n)
{
    return counted(fd, __real_writev(fd, v, n));
}

int __wrap_msync(void *p, size_t n, int flags)
{
    io.flushes++;
    return __real_msync(p, n, flags);
}

int __wrap_fdatasync(int fd)
{
    io.flushes++;
    return __real_fdatasync(fd);
}

int __wrap_fsync(int fd)
{
    io.flushes++;
    return __real_fsync(fd);
}

/* ---- The saves. */

static MDB_env *env;
static MDB_dbi dbi;

static void must(int code)
{
    if (code != MDB_SUCCESS) {
        fprintf(stderr, "lmdb: %s\n", mdb_strerror(code));
        exit(1);
    }
}

static void put(MDB_txn *txn, uint32_t address, uint8_t *block)
{
    MDB_val key = {sizeof address, &address}, value = {SAVE_BLOCK, block};
    must(mdb_put(txn, dbi, &key, &value, 0));
}

static void save(int i)
{
    uint8_t block[SAVE_BLOCK];
    MDB_txn *txn;
    save_block(block, i);
    must(mdb_txn_begin(env, NULL, 0, &txn));
    for (int part = 0; part < SAVE_PARTS; part++)
        put(txn, save_address(i, part), block);
    must(mdb_txn_commit(txn));
}

static void fill(void)
{
    uint8_t block[SAVE_BLOCK] = {0};
    MDB_txn *txn;
    must(mdb_txn_begin(env, NULL, 0, &txn));
    must(mdb_dbi_open(txn, NULL, MDB_INTEGERKEY, &dbi));
    for (uint32_t a = SAVE_FIRST; a < SAVE_BLOCKS; a++)
        put(txn, a, block);
    must(mdb_txn_commit(txn));
}

int main(int argc, char **argv)
{
    char label[80];
    if (argc != 2)
        return 2;
    must(mdb_env_create(&env));
    must(mdb_env_set_mapsize(env, (size_t)64 << 20));
    must(mdb_env_open(env, argv[1], 0, 0600));
    fill();
    snprintf(label, sizeof label, "LMDB %d.%d.%d", MDB_VERSION_MAJOR, MDB_VERSION_MINOR, MDB_VERSION_PATCH);
    save_report(label, save);
    mdb_env_close(env);
    return 0;
}
