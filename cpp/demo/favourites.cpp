/// Favourite places, each a struct with a struct in it: favourites PROGRAM FOLDER [NAME LAT LON]
#include <cstdint>
#include <cstdio>
#include <cstdlib>

#include "ara/per/engine.h"
#include "ara/per/key_value_storage.h"

namespace nav {

struct Point {
  std::int32_t lat{}, lon{};
};
ARA_PER_DESCRIBE(Point, lat, lon);

struct Favourite {
  Point at;
  ara::core::String label;
};
ARA_PER_DESCRIBE(Favourite, at, label);

}  // namespace nav

int main(int count, char** words) {
  const char* const manifest = R"({"version": 1, "keyValueStorages": [{"name": "favourites"}]})";
  if (count < 3 || !ara::per::StartEngine({words[1], words[2], manifest, "", 0})) return 1;
  auto storage = ara::per::OpenKeyValueStorage(ara::core::InstanceSpecifier{"favourites"});
  if (!storage) return 1;
  using Places = ara::core::Vector<nav::Favourite>;
  Places list = (*storage)->GetValue<Places>("places").ValueOr(Places{});
  if (count > 5) {
    list.push_back({{std::atoi(words[4]), std::atoi(words[5])}, words[3]});
    if (!(*storage)->SetValue("places", list) || !(*storage)->SyncToStorage()) return 1;
  }
  for (const nav::Favourite& place : list) std::printf("%s %d %d\n", place.label.c_str(), place.at.lat, place.at.lon);
}
