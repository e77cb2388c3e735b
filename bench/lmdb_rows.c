/* Keeps threads as rows of LMDB, beside a service that receives them: a thread's key is its service, padded to 16 bytes, and its step, and
 * its value has as many bytes as an authenticator and the step that received it.
 *
 *     lmdb_rows FOLDER fill COUNT PEERS      COUNT threads of so many peers in turn, in one transaction
 *     lmdb_rows FOLDER add NUMBER PEERS      the thread of this number, from 0 on, in a transaction of its own, synced
 *     lmdb_rows FOLDER find NUMBER PEERS     reads it, and prints its value
 *
 * It ends with status 1 where a call fails. */
#include <lmdb.h>
#include <stdio.h>
#include <stdlib.h>
#include <string.h>

enum { NAME = 16, KEY = NAME + 8, VALUE = 32 + 8 };

static void check(int error)
{
    if (error) {
        fprintf(stderr, "lmdb_rows: %s\n", mdb_strerror(error));
        exit(1);
    }
}

static void put_number(unsigned char *bytes, unsigned long number)
{
    for (int i = 7; i >= 0; i--, number >>= 8)
        bytes[i] = number & 255;
}

static void set_key(unsigned char *key, unsigned long number, unsigned int peers)
{
    memset(key, 0, KEY);
    snprintf((char *)key, NAME, "p%u", (unsigned int)(number % peers));
    put_number(key + NAME, number / peers + 1);
}

static void add(MDB_txn *transaction, MDB_dbi rows, unsigned long number, unsigned int peers)
{
    unsigned char key[KEY], value[VALUE];
    MDB_val name = {KEY, key}, row = {VALUE, value};

    set_key(key, number, peers);
    memset(value, number & 255, VALUE);
    put_number(value + 32, number + 1);
    check(mdb_put(transaction, rows, &name, &row, 0));
}

static void find(MDB_txn *transaction, MDB_dbi rows, unsigned long number, unsigned int peers)
{
    unsigned char key[KEY];
    MDB_val name = {KEY, key}, row;

    set_key(key, number, peers);
    check(mdb_get(transaction, rows, &name, &row));
    fwrite(row.mv_data, 1, row.mv_size, stdout);
}

int main(int count, char **words)
{
    if (count != 5)
        return 2;
    unsigned long number = strtoul(words[3], NULL, 10);
    unsigned int peers = strtoul(words[4], NULL, 10);
    int is_find = strcmp(words[2], "find") == 0;
    unsigned int only_reads = is_find ? MDB_RDONLY : 0;
    MDB_env *database;
    MDB_txn *transaction;
    MDB_dbi rows;

    check(mdb_env_create(&database));
    check(mdb_env_set_mapsize(database, 1UL << 30));
    check(mdb_env_open(database, words[1], only_reads, 0666));
    check(mdb_txn_begin(database, NULL, only_reads, &transaction));
    check(mdb_dbi_open(transaction, NULL, 0, &rows));
    if (is_find)
        find(transaction, rows, number, peers);
    else if (strcmp(words[2], "add") == 0)
        add(transaction, rows, number, peers);
    else
        for (unsigned long i = 0; i < number; i++)
            add(transaction, rows, i, peers);
    check(mdb_txn_commit(transaction));
    mdb_env_close(database);
    return 0;
}
