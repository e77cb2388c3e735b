/* Keeps threads as rows of a table of SQLite, beside a service that receives them: a thread's key is its service and its step, and its row
 * has an authenticator and the step that received it too.
 *
 *     sqlite_rows FOLDER fill COUNT PEERS    COUNT threads of so many peers in turn, in one transaction
 *     sqlite_rows FOLDER add NUMBER PEERS    the thread of this number, from 0 on, in a transaction of its own, synced
 *     sqlite_rows FOLDER find NUMBER PEERS   reads it, and prints its authenticator
 *
 * Each transaction has a rollback journal, and is synced in full, as it is where nothing else is asked. It ends with status 1 where a call fails. */
#include <sqlite3.h>
#include <stdio.h>
#include <stdlib.h>
#include <string.h>

static sqlite3 *database;

static void check(int is_good)
{
    if (!is_good) {
        fprintf(stderr, "sqlite_rows: %s\n", sqlite3_errmsg(database));
        exit(1);
    }
}

static void execute(const char *text)
{
    check(sqlite3_exec(database, text, NULL, NULL, NULL) == SQLITE_OK);
}

static sqlite3_stmt *prepared(const char *text)
{
    sqlite3_stmt *statement;

    check(sqlite3_prepare_v2(database, text, -1, &statement, NULL) == SQLITE_OK);
    return statement;
}

static void bind_key(sqlite3_stmt *statement, unsigned long number, unsigned int peers)
{
    char name[16];

    snprintf(name, sizeof name, "p%u", (unsigned int)(number % peers));
    check(sqlite3_bind_text(statement, 1, name, -1, SQLITE_TRANSIENT) == SQLITE_OK);
    check(sqlite3_bind_int64(statement, 2, number / peers + 1) == SQLITE_OK);
}

static void add(sqlite3_stmt *statement, unsigned long number, unsigned int peers)
{
    unsigned char auth[32];

    memset(auth, number & 255, sizeof auth);
    bind_key(statement, number, peers);
    check(sqlite3_bind_blob(statement, 3, auth, sizeof auth, SQLITE_STATIC) == SQLITE_OK);
    check(sqlite3_bind_int64(statement, 4, number + 1) == SQLITE_OK);
    check(sqlite3_step(statement) == SQLITE_DONE);
    check(sqlite3_reset(statement) == SQLITE_OK);
}

static void find(sqlite3_stmt *statement, unsigned long number, unsigned int peers)
{
    bind_key(statement, number, peers);
    check(sqlite3_step(statement) == SQLITE_ROW);
    fwrite(sqlite3_column_blob(statement, 0), 1, sqlite3_column_bytes(statement, 0), stdout);
}

int main(int count, char **words)
{
    char path[4096];

    if (count != 5)
        return 2;
    unsigned long number = strtoul(words[3], NULL, 10);
    unsigned int peers = strtoul(words[4], NULL, 10);
    int is_find = strcmp(words[2], "find") == 0, is_fill = strcmp(words[2], "fill") == 0;
    snprintf(path, sizeof path, "%s/rows.db", words[1]);
    check(sqlite3_open(path, &database) == SQLITE_OK);
    if (is_fill)
        execute("create table threads (peer text, step integer, auth blob, received integer, primary key (peer, step)) without rowid");
    sqlite3_stmt *statement = prepared(is_find ? "select auth from threads where peer = ? and step = ?" : "insert into threads values (?, ?, ?, ?)");
    execute("begin");
    if (is_find)
        find(statement, number, peers);
    else
        for (unsigned long i = is_fill ? 0 : number; i < number + !is_fill; i++)
            add(statement, i, peers);
    check(sqlite3_finalize(statement) == SQLITE_OK);
    execute("commit");
    check(sqlite3_close(database) == SQLITE_OK);
    return 0;
}
