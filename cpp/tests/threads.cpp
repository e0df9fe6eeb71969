/// Many threads at once.
#include <atomic>
#include <cstdint>
#include <string>
#include <thread>
#include <utility>
#include <vector>

#include "ara/core/string.h"
#include "ara/per/file_storage.h"
#include "ara/per/key_value_storage.h"
#include "bed.h"
#include "check.h"

namespace threads_tests {

using ara::core::String;
using ara::per::OpenFileStorage;
using ara::per::OpenKeyValueStorage;

constexpr int kThreads = 8;
const char* const kManifest = R"({"version":1,"keyValueStorages":[{"name":"k"}],"fileStorages":[{"name":"f"}]})";

/// Runs `work` in eight threads, each with its number, and gives how many of its answers were false.
template <class F>
int InEightThreads(F work) {
  std::atomic<int> failed{0};
  std::vector<std::thread> threads;
  for (int number = 0; number < kThreads; ++number) {
    threads.emplace_back([&failed, work, number] {
      if (!work(number)) ++failed;
    });
  }
  for (std::thread& thread : threads) thread.join();
  return failed;
}

TEST(EightThreadsUseOneStorage) {
  const Bed bed;
  CHECK(bed.Start(kManifest));
  GET(kvs, OpenKeyValueStorage(Named("k")));
  constexpr std::uint32_t kRounds = 300;
  CHECK(InEightThreads([&kvs](int number) {
          const String key = "count" + std::to_string(number);
          for (std::uint32_t round = 1; round <= kRounds; ++round) {
            if (!kvs->SetValue(key, round)) return false;
            if (kvs->GetValue<std::uint32_t>(key).ValueOr(0U) != round) return false;
            if (round % 50 == 0 && !kvs->SyncToStorage()) return false;
          }
          return true;
        }) == 0);
  CHECK(bed.Start(kManifest));
  GET(again, OpenKeyValueStorage(Named("k")));
  for (int number = 0; number < kThreads; ++number) {
    CHECK(again->GetValue<std::uint32_t>("count" + std::to_string(number)).ValueOr(0U) == kRounds);
  }
}

TEST(EightThreadsOpenAndClose) {
  const Bed bed;
  CHECK(bed.Start(kManifest));
  CHECK(InEightThreads([](int number) {
          const String name = "n" + std::to_string(number);
          for (std::uint16_t round = 1; round <= 60; ++round) {
            auto kvs = OpenKeyValueStorage(Named("k"));
            if (!kvs || !(*kvs)->SetValue(name, round) || !(*kvs)->SyncToStorage()) return false;
            auto files = OpenFileStorage(Named("f"));
            if (!files) return false;
            auto file = (*files)->OpenFileReadWrite(name);
            if (!file || !std::move(file).Value()->WriteText("x")) return false;
          }
          return true;
        }) == 0);
  GET(kvs, OpenKeyValueStorage(Named("k")));
  GET(files, OpenFileStorage(Named("f")));
  for (int number = 0; number < kThreads; ++number) {
    const String name = "n" + std::to_string(number);
    CHECK(kvs->GetValue<std::uint16_t>(name).ValueOr(std::uint16_t{0}) == 60);
    CHECK(files->GetCurrentFileSize(name).ValueOr(0U) == 1);
  }
}

TEST(EightThreadsWriteTheirFiles) {
  const Bed bed;
  CHECK(bed.Start(R"({"version":1,"fileStorages":[{"name":"f","maximumAllowedSize":4194304}]})"));
  GET(files, OpenFileStorage(Named("f")));
  CHECK(InEightThreads([&files](int number) {
          const String name = "n" + std::to_string(number);
          const String piece(70'000, static_cast<char>('a' + number));
          auto opened = files->OpenFileReadWrite(name);
          if (!opened) return false;
          auto file = std::move(opened).Value();
          for (int round = 0; round < 5; ++round) {
            if (!file->WriteText(piece)) return false;
          }
          if (!file->SetPosition(0) || !file->SyncToFile()) return false;
          return file->ReadText().ValueOr(String{}) == String(350'000, static_cast<char>('a' + number));
        }) == 0);
}

TEST(AThreadHasItsOwnLastRefusal) {
  const Bed bed;
  CHECK(bed.Start(kManifest));
  CHECK_REFUSED(kStorageNotFound, OpenKeyValueStorage(Named("unknown")));
  bool isEmpty = false;
  std::thread other{[&isEmpty] { isEmpty = ara::per::LastRefusal().empty(); }};
  other.join();
  CHECK(isEmpty);
  CHECK(ara::per::LastRefusal() == "error 1 StorageNotFound");
}

}  // namespace threads_tests
