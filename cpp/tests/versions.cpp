/// Manifests: installing, updating, cleaning up, going back, and starting over.
#include <cstdint>
#include <string>
#include <utility>
#include <vector>

#include "ara/core/string.h"
#include "ara/per/file_storage.h"
#include "ara/per/key_value_storage.h"
#include "ara/per/update.h"
#include "bed.h"
#include "check.h"

namespace versions_tests {

using ara::per::OpenKeyValueStorage;
using ara::per::UpdatePersistency;

std::string Manifest(int version, const char* type, int initial) {
  return R"({"version":)" + std::to_string(version) + R"(,"keyValueStorages":[{"name":"cockpit","keyValuePairs":[)" +
         R"({"name":"volume","type":")" + type + R"(","initial":")" + type + ":" + std::to_string(initial) +
         R"("}]},{"name":"other"}]})";
}

/// What the update callback was told, as `STORAGE VERSION;`.
std::string& Told() {
  static std::string told;
  return told;
}

void Listen() {
  Told().clear();
  ara::per::RegisterApplicationDataUpdateCallback(
      [](const ara::core::InstanceSpecifier& storage, ara::core::String version) {
        const auto name = storage.ToString();
        Told() += std::string{name.data(), name.size()} + ' ' + std::string{version.data(), version.size()} + ';';
      });
}

void SetVolume(std::uint8_t volume) {
  GET(kvs, OpenKeyValueStorage(Named("cockpit")));
  CHECK(kvs->SetValue("volume", volume));
  CHECK(kvs->SyncToStorage());
}

template <class T>
T Volume() {
  auto kvs = OpenKeyValueStorage(Named("cockpit"));
  return CHECK(kvs) ? (*kvs)->GetValue<T>("volume").ValueOr(T{}) : T{};
}

TEST(WithoutAManifestNothingIsInstalled) {
  const Bed bed;
  CHECK(bed.Start(""));
  CHECK_REFUSED(kNotInstalled, OpenKeyValueStorage(Named("cockpit")));
  CHECK_REFUSED(kNotInstalled, ara::per::OpenFileStorage(Named("cockpit")));
  CHECK_REFUSED(kNotInstalled, ara::per::CleanUpPersistency());
  CHECK_REFUSED(kNotInstalled, ara::per::RollbackPersistency());
  CHECK_REFUSED(kManifestRejected, UpdatePersistency());
  CHECK_REFUSED(kManifestRejected, ara::per::ResetPersistency());
  CHECK(bed.Start(Manifest(1, "u8", 20)));
  CHECK(Volume<std::uint8_t>() == 20);
  CHECK(bed.Start(""));
  CHECK(Volume<std::uint8_t>() == 20);
}

TEST(AnUpdateCarriesValuesOver) {
  const Bed bed;
  Listen();
  CHECK(bed.Start(Manifest(1, "u8", 20)));
  CHECK(UpdatePersistency());  // installs
  CHECK(UpdatePersistency());  // and has nothing to do
  SetVolume(35);
  CHECK(Told().empty());

  CHECK(bed.Start(Manifest(2, "u16", 0)));
  CHECK(UpdatePersistency());
  CHECK(Volume<std::uint16_t>() == 35);
  CHECK(Volume<std::uint16_t>() == 35);
  CHECK(Told() == "cockpit 1;");
  CHECK(OpenKeyValueStorage(Named("other")));
  CHECK(Told() == "cockpit 1;other 1;");

  // A process that ends before it cleans up is told again.
  CHECK(bed.Start(Manifest(2, "u16", 0)));
  CHECK(UpdatePersistency());
  CHECK(Volume<std::uint16_t>() == 35);
  CHECK(Told() == "cockpit 1;other 1;cockpit 1;");
  CHECK(ara::per::CleanUpPersistency());
  CHECK(ara::per::CleanUpPersistency());
  CHECK(OpenKeyValueStorage(Named("other")));
  CHECK(bed.Start(Manifest(2, "u16", 0)));
  CHECK(Volume<std::uint16_t>() == 35);
  CHECK(Told() == "cockpit 1;other 1;cockpit 1;");
  ara::per::RegisterApplicationDataUpdateCallback({});
}

TEST(AnOpeningUpdatesByItself) {
  const Bed bed;
  CHECK(bed.Start(Manifest(1, "u8", 20)));
  SetVolume(35);
  CHECK(bed.Start(Manifest(2, "u32", 0)));
  // u8 to u32 goes over u16.
  CHECK(Volume<std::uint32_t>() == 35);
  CHECK(ara::per::GetCurrentKeyValueStorageSize(Named("cockpit")).ValueOr(0U) == 6 + 5);
}

TEST(AnUpdateCallbackMayUseTheStorage) {
  const Bed bed;
  CHECK(bed.Start(Manifest(1, "u8", 20)));
  SetVolume(35);
  ara::per::RegisterApplicationDataUpdateCallback(
      [](const ara::core::InstanceSpecifier& storage, const ara::core::String& /* version */) {
        GET(kvs, OpenKeyValueStorage(storage));
        GET(volume, kvs->GetValue<std::uint16_t>("volume"));
        CHECK(kvs->SetValue("volume", static_cast<std::uint16_t>(2 * volume)));
        CHECK(kvs->SyncToStorage());
      });
  CHECK(bed.Start(Manifest(2, "u16", 0)));
  CHECK(Volume<std::uint16_t>() == 70);
  ara::per::RegisterApplicationDataUpdateCallback({});
}

TEST(ARefusedUpdateSaysWhy) {
  const Bed bed;
  CHECK(bed.Start(Manifest(1, "u8", 20)));
  SetVolume(35);
  // No converter leads from a number to a text.
  CHECK(bed.Start(R"({"version":2,"keyValueStorages":[{"name":"cockpit",
                      "keyValuePairs":[{"name":"volume","type":"text"}]}]})"));
  CHECK_REFUSED(kDataTypeMismatch, UpdatePersistency());
  CHECK_REFUSED(kDataTypeMismatch, OpenKeyValueStorage(Named("cockpit")));
  CHECK(bed.Start(R"({"version":2,"keyValueStorages":[{"name":"cockpit","maximumAllowedSize":3}]})"));
  CHECK_REFUSED(kOutOfStorageSpace, UpdatePersistency());

  CHECK(bed.Start(Manifest(3, "u8", 0)));
  CHECK(UpdatePersistency());
  CHECK(bed.Start(Manifest(4, "u8", 0)));
  CHECK_REFUSED(kUpdateNotFinished, UpdatePersistency());
  CHECK(ara::per::CleanUpPersistency());
  CHECK(bed.Start(Manifest(2, "u8", 0)));
  CHECK_REFUSED(kVersionNotNewer, UpdatePersistency());
  CHECK_REFUSED(kVersionNotNewer, OpenKeyValueStorage(Named("cockpit")));
  CHECK(ara::per::LastRefusal() == "error 28 VersionNotNewer 3 2");
  CHECK(bed.Start(Manifest(3, "u8", 0)));
  CHECK(Volume<std::uint8_t>() == 35);
}

TEST(AnUpdateWaitsForOpenStorages) {
  const Bed bed;
  bed.Write("manifest", Manifest(1, "u8", 20));
  ara::per::EngineOptions options = bed.Options("");
  options.manifestFile = bed.Path("manifest");
  CHECK(ara::per::StartEngine(options));
  GET(kvs, OpenKeyValueStorage(Named("cockpit")));
  GET(same, ara::per::CheckForManifestUpdate());
  CHECK(!same);
  bed.Write("manifest", Manifest(2, "u16", 0));
  GET(other, ara::per::CheckForManifestUpdate());
  CHECK(other);
  CHECK(UpdatePersistency());  // still that of the start
  CHECK(ara::per::ReloadPersistencyManifest());
  CHECK_REFUSED(kResourceBusy, UpdatePersistency());
  CHECK_REFUSED(kResourceBusy, ara::per::ResetPersistency());
  GET(volume, kvs->GetValue<std::uint8_t>("volume"));
  CHECK(volume == 20);
  kvs = {};
  CHECK(UpdatePersistency());
  CHECK(Volume<std::uint16_t>() == 20);
  {
    GET(held, OpenKeyValueStorage(Named("cockpit")));
    CHECK_REFUSED(kResourceBusy, ara::per::RollbackPersistency());
  }
  CHECK(ara::per::RollbackPersistency());
  CHECK(Volume<std::uint8_t>() == 20);
  CHECK_REFUSED(kNoPreviousVersion, ara::per::RollbackPersistency());
}

TEST(AManifestIsReadFromItsFile) {
  const Bed bed;
  ara::per::EngineOptions options = bed.Options("");
  options.manifestFile = bed.Path("none");
  CHECK_REFUSED(kManifestRejected, ara::per::StartEngine(options));
  CHECK(bed.Start(Manifest(1, "u8", 20)));
  CHECK_REFUSED(kManifestRejected, ara::per::CheckForManifestUpdate());
  CHECK_REFUSED(kManifestRejected, ara::per::ReloadPersistencyManifest());
}

TEST(AVersionIsFoundWhereItStands) {
  const Bed bed;
  CHECK(bed.Start("{\n  \"keyValueStorages\" : [ {\"name\":\"version\", \"keyValuePairs\":\n [{\"name\":\"v\","
                  "\"type\":\"text\",\"initial\":\"text:\\\"version\\\"\"}]} ],\r\n\t\"version\" : 7\n}\n"));
  CHECK(OpenKeyValueStorage(Named("version")));
  CHECK(bed.Start("{\"keyValueStorages\":[{\"name\":\"version\"}],\"version\":7}"));
  CHECK(OpenKeyValueStorage(Named("version")));
  CHECK(UpdatePersistency());
}

TEST(AManifestThatBreaksARuleIsRejected) {
  const Bed bed;
  for (const std::string& manifest :
       {std::string{"no JSON"}, std::string{"{}"}, std::string{R"({"version":0})"}, std::string{R"({"version":1)"},
        std::string{"\n"}, R"({"version":1,"keyValueStorages":[]})" + std::string(65'536, ' '),
        // What is not offered: encryption, authentication, storages that may only be written, checksums but SHA-256.
        std::string{R"({"version":1,"keyValueStorages":[{"name":"k","encryption":"AES-128"}]})"},
        std::string{R"({"version":1,"keyValueStorages":[{"name":"k","authentication":"CMAC"}]})"},
        std::string{R"({"version":1,"keyValueStorages":[{"name":"k","writeOnly":true}]})"},
        std::string{R"({"version":1,"fileStorages":[{"name":"f","redundancy":{"m":1,"n":1,"crc":"CRC32"}}]})"},
        std::string{R"({"version":1,"fileStorages":[{"name":"f","uri":"file:///tmp"}]})"}}) {
    CHECK(bed.Start(manifest));
    CHECK_REFUSED(kManifestRejected, UpdatePersistency());
    CHECK_REFUSED(kManifestRejected, OpenKeyValueStorage(Named("k")));
  }
  CHECK(bed.Start(Manifest(1, "u8", 20)));
  CHECK(UpdatePersistency());
  CHECK(bed.Start(R"({"version":2,"keyValueStorages":[{"name":"cockpit","encryption":"AES-128"}]})"));
  CHECK_REFUSED(kManifestRejected, UpdatePersistency());
}

TEST(AResetStartsOver) {
  const Bed bed;
  CHECK(bed.Start(Manifest(1, "u8", 20)));
  SetVolume(35);
  CHECK(bed.Start(Manifest(2, "u8", 20)));
  CHECK(Volume<std::uint8_t>() == 35);
  CHECK(ara::per::ResetPersistency());
  CHECK(Volume<std::uint8_t>() == 20);
  CHECK_REFUSED(kNoPreviousVersion, ara::per::RollbackPersistency());
}

TEST(ApplicationsOfOneFolderAreApart) {
  const Bed bed;
  ara::per::EngineOptions options = bed.Options(Manifest(1, "u8", 20));
  CHECK(ara::per::StartEngine(options));
  SetVolume(35);
  ara::per::StopEngine();
  options.application = 7;
  CHECK(ara::per::StartEngine(options));
  CHECK(Volume<std::uint8_t>() == 20);
  ara::per::StopEngine();
  options.application = 8;
  CHECK_REFUSED(kLimitReached, ara::per::StartEngine(options));
}

}  // namespace versions_tests
