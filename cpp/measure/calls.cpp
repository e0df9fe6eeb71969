/// What a call over the pipe costs beside a sync: calls PROGRAM FOLDER [COUNT]
#include <cstdint>
#include <cstdio>
#include <cstdlib>
#include <string>

#include "ara/per/engine.h"
#include "ara/per/key_value_storage.h"
#include "histogram.h"

namespace {

const char* const kManifest = R"({"version": 1, "keyValueStorages": [
    {"name": "one"}, {"name": "three", "redundancy": {"m": 2, "n": 3}}]})";

void Must(bool isDone) {
  if (isDone) return;
  std::fprintf(stderr, "refused: %s\n", ara::per::LastRefusal().c_str());
  std::exit(1);
}

}  // namespace

int main(int words, char** word) {
  if (words < 3) return 2;
  const std::uint32_t count = words > 3 ? static_cast<std::uint32_t>(std::strtoul(word[3], nullptr, 10)) : 10'000;
  Must(static_cast<bool>(ara::per::StartEngine({word[1], word[2], kManifest, "", 0})));
  for (const char* const name : {"one", "three"}) {
    auto opened = ara::per::OpenKeyValueStorage(ara::core::InstanceSpecifier{name});
    Must(static_cast<bool>(opened));
    auto kvs = std::move(opened).Value();
    for (int key = 0; key < 16; ++key) Must(static_cast<bool>(kvs->SetValue("key" + std::to_string(key), 0U)));
    Must(static_cast<bool>(kvs->SyncToStorage()));
    const std::string copies = name == std::string{"one"} ? "1 copy" : "3 copies";
    if (copies == "1 copy") {
      Histogram get{"`GetValue`"};
      for (std::uint32_t round = 0; round < count; ++round) {
        get.Time([&] { Must(static_cast<bool>(kvs->GetValue<std::uint32_t>("key7"))); });
      }
      get.Print();
      Histogram set{"`SetValue`"};
      for (std::uint32_t round = 0; round < count; ++round) {
        set.Time([&] { Must(static_cast<bool>(kvs->SetValue("key7", round))); });
      }
      set.Print();
      Must(static_cast<bool>(kvs->DiscardPendingChanges()));
    }
    Histogram sync{"`SyncToStorage`, " + copies};
    for (std::uint32_t round = 1; round <= count; ++round) {
      Must(static_cast<bool>(kvs->SetValue("key7", round)));
      sync.Time([&] { Must(static_cast<bool>(kvs->SyncToStorage())); });
    }
    sync.Print();
  }
}
