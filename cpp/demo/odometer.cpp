/// An odometer that keeps its total in three copies: odometer PROGRAM FOLDER KILOMETRES..
#include <cstdint>
#include <cstdio>
#include <cstdlib>

#include "ara/per/engine.h"
#include "ara/per/key_value_storage.h"

namespace {

const char* const kManifest = R"({"version": 1, "keyValueStorages": [
    {"name": "odometer", "redundancy": {"m": 2, "n": 3},
     "keyValuePairs": [{"name": "total", "type": "u32", "initial": "u32:0"}]}]})";

int Fail(const char* what) {
  std::fprintf(stderr, "%s: %s\n", what, ara::per::LastRefusal().c_str());
  return 1;
}

}  // namespace

int main(int count, char** words) {
  if (count < 3) return Fail("usage: odometer PROGRAM FOLDER KILOMETRES..");
  if (!ara::per::StartEngine({words[1], words[2], kManifest, "", 0})) return Fail("no engine");
  auto storage = ara::per::OpenKeyValueStorage(ara::core::InstanceSpecifier{"odometer"});
  if (!storage) return Fail("not opened");
  for (int place = 3; place <= count; ++place) {
    const auto total = (*storage)->GetValue<std::uint32_t>("total");
    if (!total) return Fail("not read");
    std::printf("%u\n", static_cast<unsigned>(*total));
    if (place == count) break;
    const auto kilometres = static_cast<std::uint32_t>(std::strtoul(words[place], nullptr, 10));
    if (!(*storage)->SetValue("total", *total + kilometres)) return Fail("not set");
    if (!(*storage)->SyncToStorage()) return Fail("not durable");
  }
}
