/// The calls on storages of keys, and each refusal that a caller can cause.
#include <cstdint>
#include <string>
#include <utility>
#include <vector>

#include "ara/core/string.h"
#include "ara/core/vector.h"
#include "ara/per/key_value_storage.h"
#include "bed.h"
#include "check.h"

namespace keys_tests {

using ara::core::String;
using ara::core::Vector;
using ara::per::OpenKeyValueStorage;

const char* const kManifest = R"({"version":1,"keyValueStorages":[
  {"name":"/cockpit/settings","keyValuePairs":[{"name":"mute","type":"bool"},
                                               {"name":"volume","type":"u8","initial":"u8:20"}]},
  {"name":"fixed","readOnly":true,"keyValuePairs":[{"name":"serial","type":"text","initial":"text:\"A7\""}]},
  {"name":"small","maximumAllowedSize":12,"keyValuePairs":[{"name":"i","type":"u64"}]}],
 "fileStorages":[{"name":"logs"}]})";

TEST(AKeyIsSetReadAndRemoved) {
  const Bed bed;
  CHECK(bed.Start(kManifest));
  GET(kvs, OpenKeyValueStorage(Named("/cockpit/settings")));
  GET(volume, kvs->GetValue<std::uint8_t>("volume"));
  CHECK(volume == 20);
  GET(exists, kvs->KeyExists("volume"));
  GET(missing, kvs->KeyExists("mute"));
  GET(impossible, kvs->KeyExists("a b"));
  CHECK(exists && !missing && !impossible);
  CHECK(kvs->SetValue("volume", std::uint8_t{35}));
  CHECK(kvs->SetValue("mute", true));
  CHECK(kvs->SetValue("a/b.c_d-E9", std::int16_t{-1}));
  GET(keys, kvs->GetAllKeys());
  CHECK(keys == Vector<String>{"a/b.c_d-E9", "mute", "volume"});
  GET(size, ara::per::GetCurrentKeyValueStorageSize(Named("/cockpit/settings")));
  CHECK(size == (10 + 3) + (4 + 2) + (6 + 2));  // names, and a code and a number each
  CHECK(kvs->RemoveKey("mute"));
  CHECK_REFUSED(kKeyNotFound, kvs->GetValue<bool>("mute"));
  CHECK_REFUSED(kKeyNotFound, kvs->RemoveKey("mute"));
  CHECK(kvs->RemoveAllKeys());
  GET(none, kvs->GetAllKeys());
  CHECK(none.empty());
  CHECK(kvs->ResetKey("volume"));
  GET(initial, kvs->GetValue<std::uint8_t>("volume"));
  CHECK(initial == 20);
  CHECK(kvs->RecoverKey("volume"));
}

TEST(WhatIsNotSynchronisedIsDropped) {
  const Bed bed;
  CHECK(bed.Start(kManifest));
  {
    GET(kvs, OpenKeyValueStorage(Named("/cockpit/settings")));
    CHECK(kvs->SetValue("volume", std::uint8_t{30}));
    CHECK(kvs->SyncToStorage());
    CHECK(kvs->SetValue("volume", std::uint8_t{31}));
    CHECK(kvs->SetValue("mute", true));
    CHECK(kvs->DiscardPendingChanges());
    GET(volume, kvs->GetValue<std::uint8_t>("volume"));
    GET(mute, kvs->KeyExists("mute"));
    CHECK(volume == 30 && !mute);
    CHECK(kvs->SetValue("volume", std::uint8_t{32}));
  }
  GET(again, OpenKeyValueStorage(Named("/cockpit/settings")));
  GET(volume, again->GetValue<std::uint8_t>("volume"));
  CHECK(volume == 30);
  CHECK(again->SyncToStorage());  // nothing to do
}

TEST(OneStorageIsSharedByItsHandles) {
  const Bed bed;
  CHECK(bed.Start(kManifest));
  GET(one, OpenKeyValueStorage(Named("/cockpit/settings")));
  GET(other, OpenKeyValueStorage(Named("/cockpit/settings")));
  CHECK(one->SetValue("volume", std::uint8_t{9}));
  GET(volume, other->GetValue<std::uint8_t>("volume"));
  CHECK(volume == 9);
  one = {};
  CHECK(!one);
  // What is pending outlives one of the handles, and not the last.
  GET(still, other->GetValue<std::uint8_t>("volume"));
  CHECK(still == 9);
  other = {};
  GET(fresh, OpenKeyValueStorage(Named("/cockpit/settings")));
  GET(initial, fresh->GetValue<std::uint8_t>("volume"));
  CHECK(initial == 20);
}

TEST(AKeyHasTheTypeOfTheManifest) {
  const Bed bed;
  CHECK(bed.Start(kManifest));
  GET(kvs, OpenKeyValueStorage(Named("/cockpit/settings")));
  CHECK_REFUSED(kDataTypeMismatch, kvs->SetValue("mute", std::uint8_t{1}));
  CHECK_REFUSED(kDataTypeMismatch, kvs->SetValue("volume", std::uint16_t{1}));
  GET(keys, kvs->GetAllKeys());
  CHECK(keys == Vector<String>{"volume"});
}

TEST(ARefusedCallOnKeysSaysWhy) {
  const Bed bed;
  CHECK(bed.Start(kManifest));
  CHECK_REFUSED(kStorageNotFound, OpenKeyValueStorage(Named("unknown")));
  CHECK_REFUSED(kStorageNotFound, OpenKeyValueStorage(Named("logs")));
  CHECK_REFUSED(kStorageNotFound, OpenKeyValueStorage(Named("a b")));
  CHECK_REFUSED(kStorageNotFound, OpenKeyValueStorage(Named("")));
  CHECK_REFUSED(kStorageNotFound, ara::per::GetCurrentKeyValueStorageSize(Named("logs")));
  CHECK_REFUSED(kStorageNotFound, ara::per::RecoverKeyValueStorage(Named("logs")));
  CHECK_REFUSED(kStorageNotFound, ara::per::ResetKeyValueStorage(Named("logs")));
  CHECK_REFUSED(kStorageNotFound, ara::per::ResetKeyValueStorage(Named("unknown")));

  GET(kvs, OpenKeyValueStorage(Named("/cockpit/settings")));
  CHECK_REFUSED(kKeyNotFound, kvs->GetValue<bool>("mute"));
  CHECK_REFUSED(kKeyNotFound, kvs->RecoverKey("mute"));
  CHECK_REFUSED(kInitValueNotAvailable, kvs->ResetKey("mute"));
  CHECK_REFUSED(kInitValueNotAvailable, kvs->ResetKey("unknown"));
  for (const String& name : {String{}, String{"a b"}, String{"a\n0 wipe"}, String{"\xc3\xa4"}, String(256, 'k')}) {
    CHECK_REFUSED(kBadName, kvs->GetValue<bool>(name));
    CHECK_REFUSED(kBadName, kvs->SetValue(name, true));
    CHECK_REFUSED(kBadName, kvs->RemoveKey(name));
    CHECK_REFUSED(kBadName, kvs->RecoverKey(name));
    CHECK_REFUSED(kBadName, kvs->ResetKey(name));
    GET(exists, kvs->KeyExists(name));
    CHECK(!exists);
  }
  CHECK(kvs->SetValue(String(255, 'k'), true));
  CHECK_REFUSED(kResourceBusy, ara::per::RecoverKeyValueStorage(Named("/cockpit/settings")));
  CHECK_REFUSED(kResourceBusy, ara::per::ResetKeyValueStorage(Named("/cockpit/settings")));
  CHECK(ara::per::LastRefusal() == "error 9 ResourceBusy storage /cockpit/settings");
}

TEST(AStorageThatMayOnlyBeReadIsNotWritten) {
  const Bed bed;
  CHECK(bed.Start(kManifest));
  GET(kvs, OpenKeyValueStorage(Named("fixed")));
  GET(serial, kvs->GetValue<String>("serial"));
  CHECK(serial == "A7");
  CHECK_REFUSED(kIllegalWriteAccess, kvs->SetValue("serial", String{"A8"}));
  CHECK_REFUSED(kIllegalWriteAccess, kvs->RemoveKey("serial"));
  CHECK_REFUSED(kIllegalWriteAccess, kvs->RemoveAllKeys());
  CHECK_REFUSED(kIllegalWriteAccess, kvs->RecoverKey("serial"));
  CHECK_REFUSED(kIllegalWriteAccess, kvs->ResetKey("serial"));
}

TEST(AFullStorageTakesNoMore) {
  const Bed bed;
  CHECK(bed.Start(kManifest));
  GET(kvs, OpenKeyValueStorage(Named("small")));
  CHECK(kvs->SetValue("i", std::uint64_t{1}));  // 1 + 1 + 8 of 12 bytes
  CHECK_REFUSED(kOutOfStorageSpace, kvs->SetValue("jj", true));
  CHECK(ara::per::LastRefusal() == "error 10 OutOfStorageSpace 14 12");
  GET(keys, kvs->GetAllKeys());
  CHECK(keys == Vector<String>{"i"});
}

TEST(AStorageHasAtMost1024Keys) {
  const Bed bed;
  CHECK(bed.Start(kManifest));
  GET(kvs, OpenKeyValueStorage(Named("/cockpit/settings")));
  for (int number = 1; number < 1024; ++number) CHECK(kvs->SetValue("k" + std::to_string(number), true));
  CHECK_REFUSED(kLimitReached, kvs->SetValue("one.more", true));
  CHECK(kvs->SetValue("k1", false));
  GET(keys, kvs->GetAllKeys());
  CHECK(keys.size() == 1024);
}

TEST(AClosedStorageIsMeasuredAndReset) {
  const Bed bed;
  CHECK(bed.Start(kManifest));
  GET(before, ara::per::GetCurrentKeyValueStorageSize(Named("/cockpit/settings")));
  CHECK(before == 6 + 2);
  {
    GET(kvs, OpenKeyValueStorage(Named("/cockpit/settings")));
    CHECK(kvs->SetValue("mute", true));
    CHECK(kvs->SyncToStorage());
  }
  GET(with, ara::per::GetCurrentKeyValueStorageSize(Named("/cockpit/settings")));
  CHECK(with == 6 + 2 + 4 + 2);
  CHECK(ara::per::RecoverKeyValueStorage(Named("/cockpit/settings")));
  GET(recovered, ara::per::GetCurrentKeyValueStorageSize(Named("/cockpit/settings")));
  CHECK(recovered == with);
  CHECK(ara::per::ResetKeyValueStorage(Named("/cockpit/settings")));
  GET(after, ara::per::GetCurrentKeyValueStorageSize(Named("/cockpit/settings")));
  CHECK(after == before);
}

}  // namespace keys_tests
