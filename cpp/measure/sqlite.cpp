/// The same work by SQLite's C API: sqlite FOLDER [COUNT]
#include <cstdint>
#include <cstdio>
#include <cstdlib>
#include <string>

#include <sqlite3.h>

#include "histogram.h"

namespace {

sqlite3* database = nullptr;

void Must(bool isDone) {
  if (isDone) return;
  std::fprintf(stderr, "refused: %s\n", sqlite3_errmsg(database));
  std::exit(1);
}

void Do(const char* text) { Must(sqlite3_exec(database, text, nullptr, nullptr, nullptr) == SQLITE_OK); }

sqlite3_stmt* Prepared(const char* text) {
  sqlite3_stmt* statement = nullptr;
  Must(sqlite3_prepare_v2(database, text, -1, &statement, nullptr) == SQLITE_OK);
  return statement;
}

/// All of it in one way of keeping a journal. `synchronous` is FULL: a commit that has returned outlives a power loss.
void Measure(const std::string& path, const std::string& journal, std::uint32_t count) {
  Must(sqlite3_open(path.c_str(), &database) == SQLITE_OK);
  Do(("pragma journal_mode = " + journal).c_str());
  Do("pragma synchronous = full");
  Do("create table kept (key text primary key, value integer) without rowid");
  Do("begin");
  for (int key = 0; key < 16; ++key) Do(("insert into kept values ('key" + std::to_string(key) + "', 0)").c_str());
  Do("commit");
  sqlite3_stmt* const get = Prepared("select value from kept where key = ?");
  sqlite3_stmt* const set = Prepared("insert or replace into kept values (?, ?)");
  const auto setTo = [set](std::uint32_t value) {
    sqlite3_bind_text(set, 1, "key7", -1, SQLITE_STATIC);
    sqlite3_bind_int64(set, 2, value);
    Must(sqlite3_step(set) == SQLITE_DONE);
    sqlite3_reset(set);
  };
  if (journal == "delete") {
    Histogram gets{"SQLite: `select`"};
    for (std::uint32_t round = 0; round < count; ++round) {
      gets.Time([get] {
        sqlite3_bind_text(get, 1, "key7", -1, SQLITE_STATIC);
        Must(sqlite3_step(get) == SQLITE_ROW);
        (void)sqlite3_column_int64(get, 0);
        sqlite3_reset(get);
      });
    }
    gets.Print();
    Histogram sets{"SQLite: `insert or replace` in a transaction"};
    Do("begin");
    for (std::uint32_t round = 0; round < count; ++round) sets.Time([&] { setTo(round); });
    Do("rollback");
    sets.Print();
  }
  Histogram commits{"SQLite: `commit`, journal `" + journal + "`"};
  for (std::uint32_t round = 1; round <= count; ++round) {
    Do("begin");
    setTo(round);
    commits.Time([] { Do("commit"); });
  }
  commits.Print();
  sqlite3_finalize(get);
  sqlite3_finalize(set);
  sqlite3_close(database);
}

}  // namespace

int main(int words, char** word) {
  if (words < 2) return 2;
  const std::uint32_t count = words > 2 ? static_cast<std::uint32_t>(std::strtoul(word[2], nullptr, 10)) : 10'000;
  Measure(std::string{word[1]} + "/delete.db", "delete", count);
  Measure(std::string{word[1]} + "/wal.db", "wal", count);
}
