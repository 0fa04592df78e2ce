// SQLite's part of `bench/peers`: write-ahead log, a connection for each client, durable commits with synchronous=FULL.
//
//     peer_sqlite FOLDER rows                  puts a row of each key
//     peer_sqlite FOLDER commits CLIENTS EACH  programs of a get and a put
//     peer_sqlite FOLDER reads CLIENTS EACH    programs of 64 gets of one snapshot
//     peer_sqlite FOLDER leave COUNT           so many commits, not synced, and no end: all stay in the log alone
//     peer_sqlite FOLDER open                  opens what is there, and reads a row

#include "peer.h"
#include <sqlite3.h>
#include <unistd.h>

struct Connection {
    sqlite3* db;
    sqlite3_stmt *begin, *begin_writing, *end, *get, *put;

    Connection(const std::string& folder, const char* synchronous) {
        need(sqlite3_open((folder + "/store.db").c_str(), &db) == SQLITE_OK, "not opened");
        sqlite3_busy_timeout(db, 600000);
        run("PRAGMA journal_mode=WAL");
        run(std::string("PRAGMA synchronous=") + synchronous);
        run("CREATE TABLE IF NOT EXISTS rows (key INTEGER PRIMARY KEY, value TEXT)");
        begin = made("BEGIN");
        begin_writing = made("BEGIN IMMEDIATE");
        end = made("COMMIT");
        get = made("SELECT value FROM rows WHERE key = ?1");
        put = made("INSERT INTO rows VALUES (?1, ?2) ON CONFLICT (key) DO UPDATE SET value = excluded.value");
    }

    ~Connection() {
        for (auto it : {begin, begin_writing, end, get, put})
            sqlite3_finalize(it);
        sqlite3_close(db);
    }

    void run(const std::string& text) {
        need(sqlite3_exec(db, text.c_str(), nullptr, nullptr, nullptr) == SQLITE_OK, sqlite3_errmsg(db));
    }

    sqlite3_stmt* made(const char* text) {
        sqlite3_stmt* it;
        need(sqlite3_prepare_v2(db, text, -1, &it, nullptr) == SQLITE_OK, sqlite3_errmsg(db));
        return it;
    }

    void step(sqlite3_stmt* it, int want = SQLITE_DONE) {
        need(sqlite3_step(it) == want, sqlite3_errmsg(db));
        sqlite3_reset(it);
    }

    void read(int key) {
        sqlite3_bind_int(get, 1, key);
        need(sqlite3_step(get) == SQLITE_ROW, sqlite3_errmsg(db));
        std::string got((const char*)sqlite3_column_text(get, 0));
        sqlite3_reset(get);
    }

    void write(int key, const std::string& text) {
        sqlite3_bind_int(put, 1, key);
        sqlite3_bind_text(put, 2, text.c_str(), text.size(), SQLITE_TRANSIENT);
        step(put);
    }

    void commit(int get, int put, const std::string& text) {
        step(begin_writing);
        read(get);
        write(put, text);
        step(end);
    }
};

int main(int count, char** words) {
    need(count >= 3, "usage: peer_sqlite FOLDER COMMAND");
    std::string folder = words[1], command = words[2];
    int first = count > 3 ? atoi(words[3]) : 0, each = count > 4 ? atoi(words[4]) : 0;
    if (command == "rows") {
        Connection to(folder, "OFF");
        to.step(to.begin);
        for (int key = 0; key < KEYS; key++)
            to.write(key, value(0));
        to.step(to.end);
    }
    if (command == "commits")
        timed(first, [&](int client) {
            Connection to(folder, "FULL");
            Draw draw(client);
            for (int turn = 0; turn < each; turn++) {
                int get = draw.key(), put = draw.key();
                to.commit(get, put, value(turn));
            }
            return each;
        });
    if (command == "reads")
        timed(first, [&](int client) {
            Connection to(folder, "FULL");
            Draw draw(client);
            for (int turn = 0; turn < each; turn++) {
                to.step(to.begin);
                for (int at = 0; at < GETS; at++)
                    to.read(draw.key());
                to.step(to.end);
            }
            return each;
        });
    if (command == "leave") {
        Connection to(folder, "OFF");
        to.run("PRAGMA wal_autocheckpoint=0");
        Draw draw(0);
        for (int turn = 0; turn < first; turn++) {
            int get = draw.key(), put = draw.key();
            to.commit(get, put, value(turn));
        }
        _exit(0);
    }
    if (command == "open") {
        Connection to(folder, "FULL");
        to.read(0);
        _exit(0);
    }
}
