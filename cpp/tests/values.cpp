/// Values of every type there and back, and what no value is.
#include <array>
#include <cmath>
#include <cstdint>
#include <cstdlib>
#include <functional>
#include <limits>
#include <list>
#include <map>
#include <string>
#include <unordered_map>
#include <utility>
#include <vector>

#include "ara/core/array.h"
#include "ara/core/map.h"
#include "ara/core/string.h"
#include "ara/core/vector.h"
#include "ara/per/key_value_storage.h"
#include "bed.h"
#include "check.h"

namespace car {

enum class Gear : std::uint8_t { kPark, kDrive, kReverse };
enum class Temperature : std::int16_t { kCold = -300, kWarm = 200 };
enum Door { kLeft, kRight };

struct Point {
  std::int32_t lat{};
  std::int32_t lon{};
  bool operator==(const Point& other) const { return lat == other.lat && lon == other.lon; }
};
ARA_PER_DESCRIBE(Point, lat, lon);

struct Stop {
  Point at;
  ara::core::String label;
  float minutes{};
  bool operator==(const Stop& other) const {
    return at == other.at && label == other.label && minutes == other.minutes;
  }
};
ARA_PER_DESCRIBE(Stop, at, label, minutes);

struct Tour {
  ara::core::String name;
  ara::core::Vector<Stop> stops;
  Stop home;
  Gear gear{};
  ara::core::Map<ara::core::String, Point> marks;
  std::array<std::uint16_t, 3> colour{};
  ara::core::Vector<std::uint8_t> picture;
  bool operator==(const Tour& other) const {
    return name == other.name && stops == other.stops && home == other.home && gear == other.gear &&
           marks == other.marks && colour == other.colour && picture == other.picture;
  }
};
ARA_PER_DESCRIBE(Tour, name, stops, home, gear, marks, colour, picture);

/// Of its members one is not kept.
struct Partly {
  std::uint8_t kept{1};
  std::uint8_t made{7};
};
ARA_PER_DESCRIBE(Partly, kept);

/// As many members as a group may have.
struct Wide {
  std::uint8_t a0{}, a1{}, a2{}, a3{}, a4{}, a5{}, a6{}, a7{}, b0{}, b1{}, b2{}, b3{}, b4{}, b5{}, b6{}, b7{};
  std::uint8_t c0{}, c1{}, c2{}, c3{}, c4{}, c5{}, c6{}, c7{}, d0{}, d1{}, d2{}, d3{}, d4{}, d5{}, d6{}, d7{};
};
ARA_PER_DESCRIBE(Wide, a0, a1, a2, a3, a4, a5, a6, a7, b0, b1, b2, b3, b4, b5, b6, b7, c0, c1, c2, c3, c4, c5, c6, c7,
                 d0, d1, d2, d3, d4, d5, d6, d7);

}  // namespace car

namespace values_tests {

using ara::core::String;
using ara::core::Vector;
using ara::per::KeyValueStorage;
using ara::per::ManifestType;
using ara::per::ManifestValue;

const char* const kManifest = R"({"version":1,"keyValueStorages":[{"name":"k"}]})";

/// Values that come back as they were set: at once, and from the next engine.
class Kept final {
 public:
  Kept() {
    CHECK(bed_.Start(kManifest));
    kvs_ = Open();
  }

  /// Sets values of a type, whose text is `type`.
  template <class T>
  void Add(const char* type, const std::vector<T>& values) {
    CHECK(ManifestType<T>() == type);
    for (const T& value : values) {
      const std::string key = "value" + std::to_string(checks_.size());
      CHECK(kvs_->SetValue(key, value));
      checks_.push_back([key, value](const KeyValueStorage& kvs) {
        T read{};
        return kvs.GetValue(key, read) && read == value;
      });
      CHECK(checks_.back()(*kvs_));
    }
  }

  template <class T>
  void AddEnds(const char* type) {
    Add<T>(type, {0, 1, std::numeric_limits<T>::min(), std::numeric_limits<T>::max()});
  }

  /// Reads all of them from a new engine.
  void ReadAgain() {
    CHECK(kvs_->SyncToStorage());
    CHECK(bed_.Start(kManifest));
    kvs_ = Open();
    for (const auto& check : checks_) CHECK(check(*kvs_));
  }

  KeyValueStorage& Storage() { return *kvs_; }

 private:
  static ara::per::SharedHandle<KeyValueStorage> Open() {
    auto opened = ara::per::OpenKeyValueStorage(Named("k"));
    if (!CHECK(opened)) std::abort();
    return std::move(opened).Value();
  }

  Bed bed_;
  ara::per::SharedHandle<KeyValueStorage> kvs_;
  std::vector<std::function<bool(const KeyValueStorage&)>> checks_;
};

TEST(NumbersGoThereAndBack) {
  Kept kept;
  kept.Add<bool>("bool", {false, true});
  kept.AddEnds<std::uint8_t>("u8");
  kept.AddEnds<std::uint16_t>("u16");
  kept.AddEnds<std::uint32_t>("u32");
  kept.AddEnds<std::uint64_t>("u64");
  kept.AddEnds<std::int8_t>("i8");
  kept.AddEnds<std::int16_t>("i16");
  kept.AddEnds<std::int32_t>("i32");
  kept.AddEnds<std::int64_t>("i64");
  kept.AddEnds<long long>("i64");
  kept.AddEnds<unsigned long>("u64");
  kept.Add<car::Gear>("u8", {car::Gear::kPark, car::Gear::kReverse, static_cast<car::Gear>(255)});
  kept.Add<car::Temperature>("i16", {car::Temperature::kCold, car::Temperature::kWarm});
  kept.Add<car::Door>("u32", {car::kLeft, car::kRight});
  kept.ReadAgain();
}

TEST(FractionsGoThereAndBackBitByBit) {
  Kept kept;
  using Float = std::numeric_limits<float>;
  using Double = std::numeric_limits<double>;
  kept.Add<float>("{u32}", {0.0F, 1.5F, -2.25F, Float::denorm_min(), Float::max(), Float::infinity()});
  kept.Add<double>("{u64}", {0.0, 0.1, -1e300, Double::denorm_min(), Double::max(), -Double::infinity()});
  kept.ReadAgain();
  KeyValueStorage& kvs = kept.Storage();
  CHECK(kvs.SetValue("zero", -0.0));
  GET(zero, kvs.GetValue<double>("zero"));
  CHECK(zero == 0.0 && std::signbit(zero));
  CHECK(kvs.SetValue("none", std::nanf("")));
  GET(none, kvs.GetValue<float>("none"));
  CHECK(std::isnan(none));
  // The bits of 1.5 are 3fc00000, and those of -2 are c000000000000000.
  CHECK(ManifestValue(1.5F) == "{u32:1069547520}");
  CHECK(ManifestValue(-2.0) == "{u64:13835058055282163712}");
}

TEST(TextsGoThereAndBack) {
  Kept kept;
  const char all[] = "a\0b\tc\rd\x01\x7f";
  kept.Add<String>("text", {"", "Home", " two  spaces ", "\"\\\n\\n\\\"", String{all, sizeof all - 1},
                            "\xc3\xa4 \xe2\x82\xac \xf0\x9f\x9a\x97 \xf4\x8f\xbf\xbf", String(65'531, 'x')});
  kept.ReadAgain();
  CHECK(ManifestValue(String{"a\"\\\n"}) == "text:\"a\\\"\\\\\\n\"");
}

TEST(BytesGoThereAndBack) {
  Kept kept;
  Vector<std::uint8_t> every;
  for (int byte = 0; byte < 256; ++byte) every.push_back(static_cast<std::uint8_t>(byte));
  kept.Add<Vector<std::uint8_t>>("bytes", {{}, {0, 255}, every, Vector<std::uint8_t>(65'531, 7)});
  kept.Add<Vector<ara::core::Byte>>("bytes", {{}, {ara::core::Byte{1}, ara::core::Byte{254}}});
  kept.Add<std::array<std::uint8_t, 3>>("bytes", {{1, 2, 3}});
  kept.ReadAgain();
  CHECK(ManifestValue(Vector<std::uint8_t>{0, 255}) == "bytes:00ff");
}

TEST(ListsAndMapsGoThereAndBack) {
  Kept kept;
  kept.Add<Vector<std::uint16_t>>("list<u16>", {{}, {1}, {1, 2, 65'535}});
  kept.Add<Vector<bool>>("list<bool>", {{}, {true, false, true}});
  kept.Add<Vector<String>>("list<text>", {{}, {"", ",", "]\"", "b"}});
  kept.Add<Vector<Vector<std::int8_t>>>("list<list<i8>>", {{}, {{}, {-1, 2}, {}}});
  kept.Add<Vector<Vector<std::uint8_t>>>("list<bytes>", {{{}, {9}}});
  kept.Add<Vector<car::Gear>>("list<u8>", {{car::Gear::kDrive, car::Gear::kPark}});
  kept.Add<std::list<std::int64_t>>("list<i64>", {{-5, 6}});
  kept.Add<std::array<float, 2>>("list<{u32}>", {{1.5F, -0.5F}});
  kept.Add<std::pair<String, std::uint8_t>>("{text,u8}", {{"a", std::uint8_t{1}}});
  kept.Add<ara::core::Map<String, std::uint32_t>>("list<{text,u32}>", {{}, {{"a", 1U}, {"b", 2U}}});
  kept.Add<std::map<std::uint8_t, Vector<String>>>("list<{u8,list<text>}>", {{{1, {"x", "y"}}, {2, {}}}});
  kept.Add<std::unordered_map<std::string, bool>>("list<{text,bool}>", {{{"on", true}, {"off", false}}});
  // Eight levels are as deep as a type may be.
  using Deep = Vector<Vector<Vector<Vector<Vector<Vector<Vector<std::uint16_t>>>>>>>;
  kept.Add<Deep>("list<list<list<list<list<list<list<u16>>>>>>>", {{{{{{{{1, 2}}}}}}}});
  kept.ReadAgain();
}

TEST(StructsGoThereAndBack) {
  Kept kept;
  kept.Add<car::Point>("{i32,i32}", {{}, {481'351, -115'820}});
  const car::Stop stop{{1, -2}, "Caf\xc3\xa9 \"Nord\"", 12.5F};
  kept.Add<car::Stop>("{{i32,i32},text,{u32}}", {{}, stop});
  const car::Tour tour{"North, and back", {stop, {}}, stop,       car::Gear::kDrive,
                       {{"a", {3, 4}}},   {1, 2, 65'535}, {0, 9}};
  const String type =
      "{text,list<{{i32,i32},text,{u32}}>,{{i32,i32},text,{u32}},u8,list<{text,{i32,i32}}>,list<u16>,bytes}";
  kept.Add<car::Tour>(type.c_str(), {{}, tour});
  kept.Add<Vector<car::Tour>>(("list<" + type + ">").c_str(), {{tour, tour}});
  CHECK(ManifestValue(car::Point{1, -2}) == "{i32:1,i32:-2}");

  kept.ReadAgain();
  KeyValueStorage& kvs = kept.Storage();
  CHECK(kvs.SetValue("partly", car::Partly{5, 9}));
  GET(partly, kvs.GetValue<car::Partly>("partly"));
  CHECK(partly.kept == 5 && partly.made == 7);
  car::Wide wide;
  wide.a0 = 1;
  wide.d7 = 32;
  CHECK(kvs.SetValue("wide", wide));
  GET(back, kvs.GetValue<car::Wide>("wide"));
  CHECK(back.a0 == 1 && back.b0 == 0 && back.d7 == 32);
}

/// A value of a type under a key, and what can be tried with it.
struct Entry {
  template <class T>
  Entry(const char* name, const T& value)
      : key{name},
        set{[value](KeyValueStorage& kvs, const char* where) { return kvs.SetValue(where, value); }},
        get{[](const KeyValueStorage& kvs, const char* where) {
          T read{};
          return kvs.GetValue(where, read);
        }},
        isThere{[value, name](const KeyValueStorage& kvs) {
          const auto read = kvs.GetValue<T>(name);
          return read && *read == value;
        }} {}

  const char* key;
  std::function<ara::core::Result<void>(KeyValueStorage&, const char*)> set;
  std::function<ara::core::Result<void>(const KeyValueStorage&, const char*)> get;
  std::function<bool(const KeyValueStorage&)> isThere;
};

TEST(AnotherTypeIsAMismatchAndChangesNothing) {
  const Bed bed;
  CHECK(bed.Start(kManifest));
  GET(kvs, ara::per::OpenKeyValueStorage(Named("k")));
  const std::vector<Entry> entries{{"bool", true},
                                   {"u8", std::uint8_t{1}},
                                   {"u16", std::uint16_t{1}},
                                   {"u32", std::uint32_t{1}},
                                   {"u64", std::uint64_t{1}},
                                   {"i8", std::int8_t{1}},
                                   {"i16", std::int16_t{1}},
                                   {"i32", std::int32_t{1}},
                                   {"i64", std::int64_t{1}},
                                   {"float", 1.0F},
                                   {"double", 1.0},
                                   {"text", String{"1"}},
                                   {"bytes", Vector<std::uint8_t>{1}},
                                   {"list", Vector<std::uint16_t>{1}},
                                   {"list.of.text", Vector<String>{"1"}},
                                   {"map", ara::core::Map<String, std::uint8_t>{{"1", std::uint8_t{1}}}},
                                   {"point", car::Point{1, 1}},
                                   {"stop", car::Stop{}}};
  for (const Entry& entry : entries) CHECK(entry.set(*kvs, entry.key));
  for (const Entry& stored : entries) {
    for (const Entry& other : entries) {
      if (&stored == &other) continue;
      CHECK_REFUSED(kDataTypeMismatch, other.get(*kvs, stored.key));
      CHECK_REFUSED(kDataTypeMismatch, other.set(*kvs, stored.key));
    }
    CHECK(stored.isThere(*kvs));
  }
  CHECK_REFUSED(kDataTypeMismatch, kvs->GetValue<std::uint16_t>("u8"));
  CHECK(ara::per::LastRefusal() == "error 7 DataTypeMismatch u8 u16");
}

TEST(AValueThatDoesNotFitItsTypeOfCppIsAMismatch) {
  const Bed bed;
  CHECK(bed.Start(kManifest));
  GET(kvs, ara::per::OpenKeyValueStorage(Named("k")));
  CHECK(kvs->SetValue("list", Vector<std::uint16_t>{1, 2, 3}));
  CHECK_REFUSED(kDataTypeMismatch, kvs->GetValue<std::array<std::uint16_t, 2>>("list"));
  CHECK_REFUSED(kDataTypeMismatch, kvs->GetValue<std::array<std::uint16_t, 4>>("list"));
  CHECK(kvs->GetValue<std::array<std::uint16_t, 3>>("list"));
  CHECK(kvs->SetValue("bytes", Vector<std::uint8_t>{1, 2, 3}));
  CHECK_REFUSED(kDataTypeMismatch, kvs->GetValue<std::array<std::uint8_t, 4>>("bytes"));
  CHECK_REFUSED(kDataTypeMismatch, kvs->GetValue<std::array<std::uint8_t, 2>>("bytes"));
  using Map = ara::core::Map<std::uint8_t, bool>;
  using Pairs = Vector<std::pair<std::uint8_t, bool>>;
  CHECK(kvs->SetValue("twice", Pairs{{std::uint8_t{1}, true}, {std::uint8_t{1}, false}}));
  Map untouched{{std::uint8_t{9}, true}};
  CHECK_REFUSED(kDataTypeMismatch, kvs->GetValue("twice", untouched));
  CHECK(untouched == Map{{std::uint8_t{9}, true}});
}

TEST(TooLargeAValueIsALimitAndChangesNothing) {
  const Bed bed;
  CHECK(bed.Start(kManifest));
  GET(kvs, ara::per::OpenKeyValueStorage(Named("k")));
  CHECK(kvs->SetValue("text", String{"before"}));
  CHECK_REFUSED(kLimitReached, kvs->SetValue("text", String(65'532, 'x')));
  GET(text, kvs->GetValue<String>("text"));
  CHECK(text == "before");
  // Of one type code and a count, and bytes: 1 + 4 + 65,531 are the greatest value.
  CHECK(kvs->SetValue("bytes", Vector<std::uint8_t>(65'531)));
  CHECK_REFUSED(kLimitReached, kvs->SetValue("bytes", Vector<std::uint8_t>(65'532)));
  // 2 + 4 + 2 * 32,765 bytes.
  CHECK(kvs->SetValue("list", Vector<std::uint16_t>(32'765)));
  CHECK_REFUSED(kLimitReached, kvs->SetValue("list", Vector<std::uint16_t>(32'766)));
  // A list of truths that is small enough, but not on one line: `bool:false,` are 11 bytes each.
  CHECK(kvs->SetValue("truths", Vector<bool>(23'000)));
  CHECK_REFUSED(kLimitReached, kvs->SetValue("truths", Vector<bool>(24'000)));
  GET(truths, kvs->GetValue<Vector<bool>>("truths"));
  CHECK(truths == Vector<bool>(23'000));
}

TEST(ATextThatIsNotUtf8IsRefused) {
  const Bed bed;
  CHECK(bed.Start(kManifest));
  GET(kvs, ara::per::OpenKeyValueStorage(Named("k")));
  for (const char* const text :
       {"\xff", "\x80", "a\xc3", "\xc0\x80", "\xe0\x9f\xbf", "\xed\xa0\x80", "\xf0\x8f\xbf\xbf", "\xf4\x90\x80\x80",
        "\xf5\x80\x80\x80", "\xe2\x82", "\xe2\x28\xa1", "\xf0\x9f\x9a"}) {
    CHECK_REFUSED(kNotUtf8, kvs->SetValue("text", String{text}));
    CHECK_REFUSED(kNotUtf8, kvs->SetValue("stop", car::Stop{{}, text, 0.0F}));
    CHECK_REFUSED(kNotUtf8, kvs->SetValue("list", Vector<String>{"good", text}));
    CHECK(ManifestValue(String{text}).empty());
  }
  GET(keys, kvs->GetAllKeys());
  CHECK(keys.empty());
}

}  // namespace values_tests
