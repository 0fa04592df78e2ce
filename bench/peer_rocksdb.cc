// RocksDB's part of `bench/peers`: optimistic transactions, durable ones synced. What was read is checked at the commit, too.
//
//     peer_rocksdb FOLDER rows                  puts a row of each key
//     peer_rocksdb FOLDER commits CLIENTS EACH  programs of a get and a put
//     peer_rocksdb FOLDER reads CLIENTS EACH    programs of 64 gets of one snapshot
//     peer_rocksdb FOLDER leave COUNT           so many commits, not synced, and no end: 300,000 stay in the log alone
//     peer_rocksdb FOLDER open                  opens what is there, and reads a row

#include "peer.h"
#include <memory>
#include <rocksdb/utilities/optimistic_transaction_db.h>
#include <rocksdb/utilities/transaction.h>
#include <unistd.h>

using namespace rocksdb;

static std::string name(int key) { return std::to_string(key); }

static int commit(OptimisticTransactionDB* db, const WriteOptions& options, int get, int put, const std::string& text) {
    OptimisticTransactionOptions at;
    at.set_snapshot = true;
    std::unique_ptr<Transaction> program(db->BeginTransaction(options, at));
    ReadOptions snapshot;
    snapshot.snapshot = program->GetSnapshot();
    std::string got;
    need(program->GetForUpdate(snapshot, name(get), &got).ok(), "no row");
    need(program->Put(name(put), text).ok(), "no put");
    Status ended = program->Commit();
    need(ended.ok() || ended.IsBusy() || ended.IsTryAgain(), ended.ToString());
    return ended.ok();
}

int main(int count, char** words) {
    need(count >= 3, "usage: peer_rocksdb FOLDER COMMAND");
    std::string folder = words[1], command = words[2];
    int first = count > 3 ? atoi(words[3]) : 0, each = count > 4 ? atoi(words[4]) : 0;
    Options options;
    options.create_if_missing = true;
    OptimisticTransactionDB* db;
    Status opened = OptimisticTransactionDB::Open(options, folder, &db);
    need(opened.ok(), opened.ToString());
    WriteOptions synced, lazy;
    synced.sync = true;
    if (command == "rows")
        for (int key = 0; key < KEYS; key++)
            need(db->Put(lazy, name(key), value(0)).ok(), "no put");
    if (command == "commits")
        timed(first, [&](int client) {
            Draw draw(client);
            int done = 0;
            for (int turn = 0; turn < each; turn++) {
                int get = draw.key(), put = draw.key();
                done += commit(db, synced, get, put, value(turn));
            }
            return done;
        });
    if (command == "reads")
        timed(first, [&](int client) {
            Draw draw(client);
            for (int turn = 0; turn < each; turn++) {
                ReadOptions snapshot;
                snapshot.snapshot = db->GetSnapshot();
                std::string got;
                for (int at = 0; at < GETS; at++)
                    need(db->Get(snapshot, name(draw.key()), &got).ok(), "no row");
                db->ReleaseSnapshot(snapshot.snapshot);
            }
            return each;
        });
    if (command == "leave") {
        Draw draw(0);
        for (int turn = 0; turn < first; turn++) {
            int get = draw.key(), put = draw.key();
            commit(db, lazy, get, put, value(turn));
        }
    }
    if (command == "open") {
        std::string got;
        need(db->Get(ReadOptions(), name(0), &got).ok(), "no row");
    }
    if (command == "leave" || command == "open") {
        fflush(stdout);
        _exit(0);
    }
    delete db;
}
