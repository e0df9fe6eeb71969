/// Damaged copies: what is mended and reported, what is corrupt, and the ways out.
#include <cstdint>
#include <string>
#include <vector>

#include "ara/core/string.h"
#include "ara/core/vector.h"
#include "ara/per/file_storage.h"
#include "ara/per/key_value_storage.h"
#include "ara/per/recovery.h"
#include "ara/per/update.h"
#include "bed.h"
#include "check.h"

namespace damage_tests {

using ara::core::String;
using ara::core::Vector;
using ara::per::OpenFileStorage;
using ara::per::OpenKeyValueStorage;
using ara::per::RecoveryReportKind;

// Storages are numbered in the order of their names: files is 0, keys is 1.
const char* const kManifest = R"({"version":1,
 "fileStorages":[{"name":"files","redundancy":{"m":2,"n":3},"files":[{"name":"map","initial":"6162"}]}],
 "keyValueStorages":[{"name":"keys","redundancy":{"m":2,"n":3},
                      "keyValuePairs":[{"name":"home","type":"u16","initial":"u16:513"}]}]})";
constexpr int kFiles = 0;
constexpr int kKeys = 1;

struct Report {
  String storage;
  RecoveryReportKind kind;
  Vector<String> elements;
  Vector<std::uint8_t> copies;
};

std::vector<Report>& Reports() {
  static std::vector<Report> reports;
  return reports;
}

/// Listens as long as it lives.
class Listening final {
 public:
  Listening() {
    Reports().clear();
    ara::per::RegisterRecoveryReportCallback([](const ara::core::InstanceSpecifier& storage, RecoveryReportKind kind,
                                                const Vector<String>& elements, const Vector<std::uint8_t>& copies) {
      const auto name = storage.ToString();
      Reports().push_back({String(name.data(), name.size()), kind, elements, copies});
    });
  }
  Listening(const Listening&) = delete;
  Listening& operator=(const Listening&) = delete;
  ~Listening() { ara::per::RegisterRecoveryReportCallback({}); }
};

/// That one report came since the last call.
void CheckReport(const char* storage, RecoveryReportKind kind, const Vector<String>& elements,
                 const Vector<std::uint8_t>& copies) {
  if (!CHECK(Reports().size() == 1)) return;
  const Report& report = Reports().front();
  CHECK(report.storage == storage);
  CHECK(report.kind == kind);
  CHECK(report.elements == elements);
  CHECK(report.copies == copies);
  Reports().clear();
}

/// A folder in which `home` is 9 and `map` is `xyz`, and no engine.
void Fill(const Bed& bed) {
  CHECK(bed.Start(kManifest));
  {
    GET(kvs, OpenKeyValueStorage(Named("keys")));
    CHECK(kvs->SetValue("home", std::uint16_t{9}));
    CHECK(kvs->SyncToStorage());
    GET(files, OpenFileStorage(Named("files")));
    GET(file, files->OpenFileWriteOnly("map"));
    CHECK(file->WriteText("xyz"));
  }
  ara::per::StopEngine();
}

TEST(ADamagedCopyIsMendedAndReported) {
  const Bed bed;
  const Listening listening;
  Fill(bed);
  bed.DamageContents(kKeys, {1});
  bed.DamageIndex(kFiles, {3});
  CHECK(bed.Start(kManifest));
  {
    GET(kvs, OpenKeyValueStorage(Named("keys")));
    CheckReport("keys", RecoveryReportKind::kKeyRecovered, {"home"}, {1});
    GET(home, kvs->GetValue<std::uint16_t>("home"));
    CHECK(home == 9);
    GET(files, OpenFileStorage(Named("files")));
    CheckReport("files", RecoveryReportKind::kFileStorageRecovered, {}, {3});
  }
  CHECK(bed.Start(kManifest));
  CHECK(OpenKeyValueStorage(Named("keys")));
  CHECK(OpenFileStorage(Named("files")));
  CHECK(Reports().empty());

  ara::per::StopEngine();
  bed.DamageIndex(kKeys, {2});
  bed.DamageContents(kFiles, {2});
  CHECK(bed.Start(kManifest));
  CHECK(ara::per::GetCurrentKeyValueStorageSize(Named("keys")));
  CheckReport("keys", RecoveryReportKind::kKeyValueStorageRecovered, {}, {2});
  CHECK(OpenFileStorage(Named("files")));
  CheckReport("files", RecoveryReportKind::kFileRecovered, {"map"}, {2});
}

TEST(AKeyWithTooFewCopiesIsCorruptUntilItIsRecovered) {
  const Bed bed;
  const Listening listening;
  Fill(bed);
  bed.DamageContents(kKeys, {1, 2});
  CHECK(bed.Start(kManifest));
  GET(kvs, OpenKeyValueStorage(Named("keys")));
  CheckReport("keys", RecoveryReportKind::kKeyRecoveryFailed, {"home"}, {1, 2});
  CHECK_REFUSED(kIntegrityCorrupted, kvs->GetValue<std::uint16_t>("home"));
  CHECK(ara::per::LastRefusal() == "error 5 IntegrityCorrupted keys:home");
  GET(exists, kvs->KeyExists("home"));
  CHECK(exists);
  CHECK(kvs->RecoverKey("home"));
  GET(home, kvs->GetValue<std::uint16_t>("home"));
  CHECK(home == 9);
  CHECK(kvs->DiscardPendingChanges());
  CHECK(kvs->ResetKey("home"));
  GET(initial, kvs->GetValue<std::uint16_t>("home"));
  CHECK(initial == 513);
}

TEST(AFileWithTooFewCopiesIsCorruptUntilItIsRecovered) {
  const Bed bed;
  const Listening listening;
  Fill(bed);
  bed.DamageContents(kFiles, {1, 3});
  CHECK(bed.Start(kManifest));
  GET(files, OpenFileStorage(Named("files")));
  CheckReport("files", RecoveryReportKind::kFileRecoveryFailed, {"map"}, {1, 3});
  CHECK_REFUSED(kIntegrityCorrupted, files->OpenFileReadOnly("map"));
  CHECK_REFUSED(kIntegrityCorrupted, files->OpenFileReadWrite("map"));
  CHECK_REFUSED(kIntegrityCorrupted, files->OpenFileWriteOnly("map"));
  CHECK(files->RecoverFile("map"));
  {
    GET(file, files->OpenFileReadOnly("map"));
    GET(text, file->ReadText());
    CHECK(text == "xyz");
  }
  GET(info, files->GetFileInfo("map"));
  CHECK(info.fileModificationState == ara::per::FileModificationState::kModifiedDuringRecovery);
}

TEST(ACorruptStorageIsRecoveredOrReset) {
  const Bed bed;
  const Listening listening;
  Fill(bed);
  bed.DamageIndex(kKeys, {1, 3});
  bed.DamageIndex(kFiles, {1, 2});
  CHECK(bed.Start(kManifest));
  CHECK_REFUSED(kIntegrityCorrupted, OpenKeyValueStorage(Named("keys")));
  CheckReport("keys", RecoveryReportKind::kKeyValueStorageRecoveryFailed, {}, {1, 2, 3});
  CHECK_REFUSED(kIntegrityCorrupted, ara::per::GetCurrentKeyValueStorageSize(Named("keys")));
  Reports().clear();
  CHECK_REFUSED(kIntegrityCorrupted, OpenFileStorage(Named("files")));
  CheckReport("files", RecoveryReportKind::kFileStorageRecoveryFailed, {}, {1, 2, 3});
  CHECK_REFUSED(kIntegrityCorrupted, ara::per::GetCurrentFileStorageSize(Named("files")));
  Reports().clear();

  CHECK(ara::per::RecoverKeyValueStorage(Named("keys")));
  GET(kvs, OpenKeyValueStorage(Named("keys")));
  GET(home, kvs->GetValue<std::uint16_t>("home"));
  CHECK(home == 9);
  CHECK(ara::per::ResetAllFiles(Named("files")));
  GET(files, OpenFileStorage(Named("files")));
  GET(size, files->GetCurrentFileSize("map"));
  CHECK(size == 2);
  CHECK(Reports().empty());
}

TEST(AllFilesAreRecoveredFromOneCopy) {
  const Bed bed;
  Fill(bed);
  bed.DamageIndex(kFiles, {2, 3});
  CHECK(bed.Start(kManifest));
  CHECK_REFUSED(kIntegrityCorrupted, OpenFileStorage(Named("files")));
  CHECK(ara::per::RecoverAllFiles(Named("files")));
  GET(files, OpenFileStorage(Named("files")));
  GET(size, files->GetCurrentFileSize("map"));
  CHECK(size == 3);
}

TEST(ACorruptRootIsReset) {
  const Bed bed;
  Fill(bed);
  bed.DamageRoot();
  CHECK(bed.Start(kManifest));
  CHECK_REFUSED(kIntegrityCorrupted, OpenKeyValueStorage(Named("keys")));
  CHECK(ara::per::LastRefusal() == "error 5 IntegrityCorrupted root");
  CHECK_REFUSED(kIntegrityCorrupted, ara::per::UpdatePersistency());
  CHECK_REFUSED(kIntegrityCorrupted, ara::per::CleanUpPersistency());
  CHECK_REFUSED(kIntegrityCorrupted, ara::per::RollbackPersistency());
  CHECK(ara::per::ResetPersistency());
  GET(kvs, OpenKeyValueStorage(Named("keys")));
  GET(home, kvs->GetValue<std::uint16_t>("home"));
  CHECK(home == 513);
}

TEST(AnUpdateDoesNotCarryOverWhatIsCorrupt) {
  const Bed bed;
  Fill(bed);
  bed.DamageContents(kKeys, {1, 2});
  std::string newer{kManifest};
  newer.replace(newer.find("\"version\":1"), 11, "\"version\":2");
  CHECK(bed.Start(newer));
  CHECK_REFUSED(kIntegrityCorrupted, ara::per::UpdatePersistency());
}

}  // namespace damage_tests
