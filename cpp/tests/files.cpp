/// The calls on storages of files and on open files, and each refusal that a caller can cause.
#include <algorithm>
#include <cstdint>
#include <ctime>
#include <string>
#include <utility>
#include <vector>

#include "ara/core/string.h"
#include "ara/core/vector.h"
#include "ara/per/file_storage.h"
#include "bed.h"
#include "check.h"

namespace files_tests {

using ara::core::Byte;
using ara::core::String;
using ara::core::Vector;
using ara::per::FileStorage;
using ara::per::OpenFileStorage;
using ara::per::OpenMode;
using ara::per::Origin;

// The file `map` has the bytes `ab`, a line feed, and `cd`.
const char* const kManifest = R"({"version":1,"fileStorages":[
  {"name":"cal","files":[{"name":"map","initial":"61620a6364"}]},
  {"name":"fixed","readOnly":true,"files":[{"name":"id","initial":"4137"}]},
  {"name":"small","maximumAllowedSize":200000}],
 "keyValueStorages":[{"name":"keys"}]})";

constexpr std::size_t kMaxFileSize = 1'048'576;

/// Texts in which each place differs from its neighbours, so that a piece in the wrong place is seen.
String Pattern(std::size_t size, unsigned seed) {
  String text(size, '\0');
  for (std::size_t place = 0; place < size; ++place) {
    seed = seed * 1'103'515'245U + 12'345U;
    text[place] = static_cast<char>(seed >> 16U);
  }
  return text;
}

String ContentOf(FileStorage& files, const char* name) {
  auto file = files.OpenFileReadOnly(name);
  if (!file) return "not open";
  return std::move(file).Value()->ReadText().ValueOr(String{});
}

TEST(AFileIsReadByBytesLinesAndTexts) {
  const Bed bed;
  CHECK(bed.Start(kManifest));
  GET(files, OpenFileStorage(Named("cal")));
  GET(file, files->OpenFileReadOnly("map"));
  GET(size, file->GetSize());
  CHECK(size == 5);
  GET(peeked, file->PeekChar());
  GET(peekedByte, file->PeekByte());
  GET(first, file->GetChar());
  GET(second, file->GetByte());
  CHECK(peeked == 'a' && peekedByte == Byte{'a'} && first == 'a' && second == Byte{'b'});
  CHECK(file->SetPosition(0));
  GET(line, file->ReadLine());
  CHECK(line == "ab");
  GET(position, file->GetPosition());
  CHECK(position == 3);
  GET(middle, file->IsEof());
  CHECK(!middle);
  GET(rest, file->ReadText(9));
  CHECK(rest == "cd");
  GET(end, file->IsEof());
  CHECK(end);
  CHECK(file->SetPosition(0));
  GET(untilC, file->ReadLine('c'));
  CHECK(untilC == "ab\n");
  CHECK(file->SetPosition(1));
  GET(two, file->ReadText(2));
  CHECK(two == "b\n");
  GET(binary, file->ReadBinary());
  CHECK(binary == Vector<Byte>{Byte{'c'}, Byte{'d'}});
  CHECK(file->SetPosition(3));
  GET(one, file->ReadBinary(1));
  CHECK(one == Vector<Byte>{Byte{'c'}});
  GET(none, file->ReadBinary(0));
  CHECK(none.empty());
}

TEST(APositionIsMovedFromItsOrigins) {
  const Bed bed;
  CHECK(bed.Start(kManifest));
  GET(files, OpenFileStorage(Named("cal")));
  GET(file, files->OpenFileReadOnly("map", OpenMode::kAtTheEnd));
  GET(end, file->GetPosition());
  CHECK(end == 5);
  GET(back, file->MovePosition(Origin::kEnd, -2));
  CHECK(back == 3);
  GET(on, file->MovePosition(Origin::kCurrent, 1));
  CHECK(on == 4);
  GET(begin, file->MovePosition(Origin::kBeginning, 2));
  CHECK(begin == 2);
  CHECK_REFUSED(kInvalidPosition, file->MovePosition(Origin::kBeginning, -1));
  CHECK_REFUSED(kInvalidPosition, file->MovePosition(Origin::kCurrent, 4));
  CHECK_REFUSED(kInvalidPosition, file->MovePosition(Origin::kEnd, INT64_MIN));
  CHECK_REFUSED(kInvalidPosition, file->SetPosition(6));
  CHECK_REFUSED(kInvalidPosition, file->SetPosition(UINT64_MAX));
  GET(stays, file->GetPosition());
  CHECK(stays == 2);
  CHECK(file->SetPosition(5));
}

TEST(NothingIsReadAtTheEnd) {
  const Bed bed;
  CHECK(bed.Start(kManifest));
  GET(files, OpenFileStorage(Named("cal")));
  GET(file, files->OpenFileReadOnly("map", OpenMode::kAtTheEnd));
  CHECK_REFUSED(kIsEof, file->PeekChar());
  CHECK_REFUSED(kIsEof, file->PeekByte());
  CHECK_REFUSED(kIsEof, file->GetChar());
  CHECK_REFUSED(kIsEof, file->GetByte());
  CHECK_REFUSED(kIsEof, file->ReadText());
  CHECK_REFUSED(kIsEof, file->ReadText(0));
  CHECK_REFUSED(kIsEof, file->ReadBinary());
  CHECK_REFUSED(kIsEof, file->ReadBinary(1));
  CHECK_REFUSED(kIsEof, file->ReadLine());
}

TEST(AFileIsWrittenAndSynchronised) {
  const Bed bed;
  CHECK(bed.Start(kManifest));
  {
    GET(files, OpenFileStorage(Named("cal")));
    GET(file, files->OpenFileReadWrite("log"));
    CHECK(file->WriteText("start\n"));
    const Vector<Byte> bytes{Byte{0}, Byte{255}};
    CHECK(file->WriteBinary(bytes));
    *file << "a" << ara::core::StringView{"bc"};
    CHECK(file->WriteText(""));
    CHECK(file->SetPosition(0));
    GET(text, file->ReadText());
    CHECK(text == String("start\n\0\xff"
                         "abc", 11));
    CHECK(file->SetPosition(1));
    CHECK(file->WriteText("T"));
    CHECK(file->SetFileSize(6));
    GET(position, file->GetPosition());
    CHECK(position == 2);
    CHECK_REFUSED(kInvalidSize, file->SetFileSize(7));
    CHECK(file->SyncToFile());
    CHECK(file->SetFileSize(0));
    GET(cut, file->GetPosition());
    CHECK(cut == 0);
  }
  // The end of the last handle has synchronised too.
  CHECK(bed.Start(kManifest));
  GET(files, OpenFileStorage(Named("cal")));
  GET(size, files->GetCurrentFileSize("log"));
  CHECK(size == 0);
}

TEST(WhatIsSynchronisedOutlivesTheEngine) {
  const Bed bed;
  CHECK(bed.Start(kManifest));
  GET(files, OpenFileStorage(Named("cal")));
  GET(file, files->OpenFileWriteOnly("log"));
  CHECK(file->WriteText("kept"));
  CHECK(file->SyncToFile());
  CHECK(file->WriteText(", and not"));
  CHECK(bed.Start(kManifest));
  GET(again, OpenFileStorage(Named("cal")));
  CHECK(ContentOf(*again, "log") == "kept");
}

TEST(AFileIsOpenedInEachMode) {
  const Bed bed;
  CHECK(bed.Start(kManifest));
  GET(files, OpenFileStorage(Named("cal")));
  {
    GET(file, files->OpenFileWriteOnly("map", OpenMode::kAppend));
    CHECK(file->SetPosition(0));
    CHECK(file->WriteText("e"));
    GET(position, file->GetPosition());
    CHECK(position == 6);
  }
  CHECK(ContentOf(*files, "map") == "ab\ncde");
  {
    GET(file, files->OpenFileReadWrite("map", OpenMode::kAtTheEnd | OpenMode::kAppend));
    CHECK(file->WriteText("f"));
  }
  CHECK(ContentOf(*files, "map") == "ab\ncdef");
  {
    OpenMode mode = OpenMode::kAtTheBeginning;
    mode |= OpenMode::kTruncate;
    GET(file, files->OpenFileReadWrite("map", mode));
    GET(size, file->GetSize());
    CHECK(size == 0);
  }
  Byte room[16];
  CHECK(files->OpenFileReadOnly("map", OpenMode::kAtTheBeginning, room));
  CHECK(files->OpenFileReadWrite("map", OpenMode::kAtTheBeginning, room));
  CHECK(files->OpenFileWriteOnly("map", OpenMode::kAtTheBeginning, room));
  CHECK(files->OpenFileReadOnly("map", static_cast<OpenMode>(0)));
  CHECK_REFUSED(kInvalidOpenMode, files->OpenFileReadOnly("map", OpenMode::kTruncate));
  CHECK_REFUSED(kInvalidOpenMode, files->OpenFileReadOnly("map", OpenMode::kAppend));
  CHECK_REFUSED(kInvalidOpenMode, files->OpenFileReadWrite("map", OpenMode::kAtTheBeginning | OpenMode::kAtTheEnd));
  CHECK_REFUSED(kInvalidOpenMode, files->OpenFileWriteOnly("map", static_cast<OpenMode>(16)));
}

TEST(AFileOpenForWritingIsNotRead) {
  const Bed bed;
  CHECK(bed.Start(kManifest));
  GET(files, OpenFileStorage(Named("cal")));
  GET(file, files->OpenFileWriteOnly("map"));
  CHECK_REFUSED(kIllegalReadAccess, file->PeekChar());
  CHECK_REFUSED(kIllegalReadAccess, file->GetByte());
  CHECK_REFUSED(kIllegalReadAccess, file->ReadText());
  CHECK_REFUSED(kIllegalReadAccess, file->ReadBinary(1));
  CHECK_REFUSED(kIllegalReadAccess, file->ReadLine());
}

TEST(AFileIsBusyWhileItIsOpen) {
  const Bed bed;
  CHECK(bed.Start(kManifest));
  GET(files, OpenFileStorage(Named("cal")));
  {
    GET(one, files->OpenFileReadOnly("map"));
    GET(other, files->OpenFileReadOnly("map"));
    CHECK_REFUSED(kResourceBusy, files->OpenFileReadWrite("map"));
    CHECK_REFUSED(kResourceBusy, files->DeleteFile("map"));
    CHECK_REFUSED(kResourceBusy, files->RecoverFile("map"));
    CHECK_REFUSED(kResourceBusy, files->ResetFile("map"));
    CHECK_REFUSED(kResourceBusy, ara::per::ResetAllFiles(Named("cal")));
    CHECK_REFUSED(kResourceBusy, ara::per::RecoverAllFiles(Named("cal")));
  }
  GET(writer, files->OpenFileReadWrite("map"));
  CHECK_REFUSED(kResourceBusy, files->OpenFileReadOnly("map"));
  CHECK_REFUSED(kResourceBusy, files->OpenFileWriteOnly("map"));
  writer = {};
  CHECK(files->DeleteFile("map"));
}

TEST(AnAccessorKeepsItsStorageOpen) {
  const Bed bed;
  CHECK(bed.Start(kManifest));
  GET(files, OpenFileStorage(Named("cal")));
  GET(file, files->OpenFileReadWrite("map"));
  files = {};
  CHECK(file->WriteText("A"));
  GET(again, OpenFileStorage(Named("cal")));
  CHECK_REFUSED(kResourceBusy, again->OpenFileReadOnly("map"));
  file = {};
  CHECK(ContentOf(*again, "map") == "Ab\ncd");
}

TEST(FilesAreListedAndDescribed) {
  const Bed bed;
  CHECK(bed.Start(kManifest));
  const auto before = static_cast<std::uint64_t>(std::time(nullptr)) * 1'000'000'000;
  GET(files, OpenFileStorage(Named("cal")));
  { GET(file, files->OpenFileWriteOnly("new/one")); }
  GET(names, files->GetAllFileNames());
  CHECK(names == Vector<String>{"map", "new/one"});
  GET(exists, files->FileExists("map"));
  GET(missing, files->FileExists("none"));
  GET(impossible, files->FileExists("a b"));
  CHECK(exists && !missing && !impossible);
  GET(size, files->GetCurrentFileSize("map"));
  CHECK(size == 5);
  GET(all, ara::per::GetCurrentFileStorageSize(Named("cal")));
  CHECK(all == 3 + 5 + 7);

  GET(info, files->GetFileInfo("new/one"));
  const auto after = static_cast<std::uint64_t>(std::time(nullptr)) * 1'000'000'000;
  CHECK(info.creationTime >= before && info.creationTime <= after);
  CHECK(info.modificationTime == info.creationTime && info.accessTime == info.creationTime);
  CHECK(info.fileCreationState == ara::per::FileCreationState::kCreatedByApplication);
  CHECK(info.fileModificationState == ara::per::FileModificationState::kModifiedByApplication);
  GET(map, files->GetFileInfo("map"));
  CHECK(map.creationTime > 0 && map.creationTime <= after);
  CHECK(map.fileCreationState == ara::per::FileCreationState::kCreatedDuringInstallation);
  CHECK(map.fileModificationState == ara::per::FileModificationState::kModifiedDuringInstallation);

  CHECK(files->ResetFile("map"));
  GET(reset, files->GetFileInfo("map"));
  CHECK(reset.fileCreationState == ara::per::FileCreationState::kCreatedDuringInstallation);
  CHECK(reset.fileModificationState == ara::per::FileModificationState::kModifiedDuringReset);
  CHECK(reset.modificationTime >= before);
  CHECK(files->RecoverFile("map"));
  CHECK(files->DeleteFile("new/one"));
  CHECK_REFUSED(kFileNotFound, files->DeleteFile("new/one"));
}

TEST(AClosedStorageOfFilesIsMeasuredAndReset) {
  const Bed bed;
  CHECK(bed.Start(kManifest));
  {
    GET(files, OpenFileStorage(Named("cal")));
    CHECK(files->DeleteFile("map"));
  }
  GET(none, ara::per::GetCurrentFileStorageSize(Named("cal")));
  CHECK(none == 0);
  CHECK(ara::per::RecoverAllFiles(Named("cal")));
  CHECK(ara::per::ResetAllFiles(Named("cal")));
  GET(size, ara::per::GetCurrentFileStorageSize(Named("cal")));
  CHECK(size == 3 + 5);
  GET(files, OpenFileStorage(Named("cal")));
  GET(info, files->GetFileInfo("map"));
  CHECK(info.fileCreationState == ara::per::FileCreationState::kCreatedDuringReset);
}

TEST(ARefusedCallOnFilesSaysWhy) {
  const Bed bed;
  CHECK(bed.Start(kManifest));
  CHECK_REFUSED(kStorageNotFound, OpenFileStorage(Named("unknown")));
  CHECK_REFUSED(kStorageNotFound, OpenFileStorage(Named("keys")));
  CHECK_REFUSED(kStorageNotFound, OpenFileStorage(Named("a b")));
  CHECK_REFUSED(kStorageNotFound, ara::per::GetCurrentFileStorageSize(Named("keys")));
  CHECK_REFUSED(kStorageNotFound, ara::per::RecoverAllFiles(Named("keys")));
  CHECK_REFUSED(kStorageNotFound, ara::per::ResetAllFiles(Named("keys")));

  GET(files, OpenFileStorage(Named("cal")));
  CHECK_REFUSED(kFileNotFound, files->OpenFileReadOnly("none"));
  CHECK_REFUSED(kFileNotFound, files->DeleteFile("none"));
  CHECK_REFUSED(kFileNotFound, files->RecoverFile("none"));
  CHECK_REFUSED(kFileNotFound, files->GetCurrentFileSize("none"));
  CHECK_REFUSED(kFileNotFound, files->GetFileInfo("none"));
  CHECK_REFUSED(kInitValueNotAvailable, files->ResetFile("none"));
  for (const String& name : {String{}, String{"a b"}, String{"a\nb"}, String(256, 'f')}) {
    CHECK_REFUSED(kBadName, files->OpenFileReadOnly(name));
    CHECK_REFUSED(kBadName, files->OpenFileReadWrite(name));
    CHECK_REFUSED(kBadName, files->OpenFileWriteOnly(name));
    CHECK_REFUSED(kBadName, files->DeleteFile(name));
    CHECK_REFUSED(kBadName, files->RecoverFile(name));
    CHECK_REFUSED(kBadName, files->ResetFile(name));
    CHECK_REFUSED(kBadName, files->GetCurrentFileSize(name));
    CHECK_REFUSED(kBadName, files->GetFileInfo(name));
    GET(exists, files->FileExists(name));
    CHECK(!exists);
  }
}

TEST(AStorageOfFilesThatMayOnlyBeReadIsNotWritten) {
  const Bed bed;
  CHECK(bed.Start(kManifest));
  GET(files, OpenFileStorage(Named("fixed")));
  CHECK(ContentOf(*files, "id") == "A7");
  CHECK_REFUSED(kIllegalWriteAccess, files->OpenFileReadWrite("id"));
  CHECK_REFUSED(kIllegalWriteAccess, files->OpenFileWriteOnly("id"));
  CHECK_REFUSED(kIllegalWriteAccess, files->DeleteFile("id"));
  CHECK_REFUSED(kIllegalWriteAccess, files->RecoverFile("id"));
  CHECK_REFUSED(kIllegalWriteAccess, files->ResetFile("id"));
}

TEST(AFileOfAMebibyteIsWrittenInOneCall) {
  const Bed bed;
  CHECK(bed.Start(R"({"version":1,"fileStorages":[{"name":"cal","maximumAllowedSize":4194304}]})"));
  GET(files, OpenFileStorage(Named("cal")));
  const String content = Pattern(kMaxFileSize, 1);
  {
    GET(file, files->OpenFileReadWrite("large"));
    CHECK(file->WriteText(content));
    GET(position, file->GetPosition());
    CHECK(position == kMaxFileSize);
    CHECK_REFUSED(kLimitReached, file->WriteText("x"));
    CHECK(file->SetPosition(0));
    GET(back, file->ReadText());
    CHECK(back == content);
    CHECK_REFUSED(kLimitReached, file->WriteText(Pattern(100'000, 2)));
    // Over what is there, without going beyond it.
    const String middle = Pattern(200'001, 3);
    CHECK(file->SetPosition(70'000));
    CHECK(file->WriteText(middle));
    GET(behind, file->GetPosition());
    CHECK(behind == 270'001);
    CHECK(file->SyncToFile());
    CHECK(file->SetPosition(0));
    GET(changed, file->ReadText());
    CHECK(changed == content.substr(0, 70'000) + middle + content.substr(270'001));
  }
  CHECK(bed.Start(""));
  GET(again, OpenFileStorage(Named("cal")));
  GET(size, again->GetCurrentFileSize("large"));
  CHECK(size == kMaxFileSize);
}

TEST(ALongWriteOverTheEndOfAFile) {
  const Bed bed;
  CHECK(bed.Start(R"({"version":1,"fileStorages":[{"name":"cal","maximumAllowedSize":4194304}]})"));
  GET(files, OpenFileStorage(Named("cal")));
  const String content = Pattern(300'000, 4);
  const String more = Pattern(200'000, 5);
  GET(file, files->OpenFileReadWrite("large"));
  CHECK(file->WriteText(content));
  CHECK(file->SetPosition(250'000));
  CHECK(file->WriteText(more));
  GET(position, file->GetPosition());
  CHECK(position == 450'000);
  CHECK(file->SetPosition(0));
  GET(back, file->ReadText());
  CHECK(back == content.substr(0, 250'000) + more);
  file = {};

  GET(appending, files->OpenFileReadWrite("large", OpenMode::kAppend));
  CHECK(appending->SetPosition(7));
  CHECK(appending->WriteText(more));
  GET(end, appending->GetPosition());
  CHECK(end == 650'000);
  CHECK(appending->SetPosition(0));
  GET(all, appending->ReadText());
  CHECK(all == content.substr(0, 250'000) + more + more);
}

TEST(ALongWriteThatHasNoRoomChangesNothing) {
  const Bed bed;
  CHECK(bed.Start(kManifest));
  GET(files, OpenFileStorage(Named("small")));
  const String content = Pattern(50'000, 6);
  for (const OpenMode mode : {OpenMode::kAtTheBeginning, OpenMode::kAppend}) {
    GET(file, files->OpenFileReadWrite("f", mode | OpenMode::kTruncate));
    CHECK(file->WriteText(content));
    CHECK(file->SetPosition(10'000));
    CHECK_REFUSED(kOutOfStorageSpace, file->WriteText(Pattern(250'000, 7)));
    CHECK(ara::per::LastRefusal().substr(0, 27) == "error 10 OutOfStorageSpace ");
    GET(position, file->GetPosition());
    CHECK(position == 10'000);
    CHECK(file->SetPosition(0));
    GET(back, file->ReadText());
    CHECK(back == content);
  }
  GET(file, files->OpenFileReadWrite("g"));
  CHECK(file->WriteText(Pattern(149'997, 8)));  // with two names of one byte there is room for one more
  CHECK_REFUSED(kOutOfStorageSpace, file->WriteText("xy"));
  CHECK(file->WriteText("x"));
  CHECK_REFUSED(kOutOfStorageSpace, files->OpenFileWriteOnly("h"));
}

TEST(ARefusedPieceIsAnsweredBySyncToFile) {
  const Bed bed;
  CHECK(bed.Start(kManifest));
  GET(files, OpenFileStorage(Named("small")));
  GET(file, files->OpenFileWriteOnly("f"));
  const String large = Pattern(200'000, 9);
  *file << "a" << large << "b";
  GET(size, file->GetSize());
  CHECK(size == 1);
  CHECK_REFUSED(kOutOfStorageSpace, file->SyncToFile());
  CHECK(file->SyncToFile());
  *file << "c";
  CHECK(file->SyncToFile());
  GET(after, file->GetSize());
  CHECK(after == 2);
}

TEST(AStorageHasAtMost64Accessors) {
  const Bed bed;
  CHECK(bed.Start(kManifest));
  GET(files, OpenFileStorage(Named("cal")));
  std::vector<ara::per::UniqueHandle<ara::per::ReadAccessor>> open;
  for (int number = 0; number < 64; ++number) {
    GET(file, files->OpenFileReadOnly("map"));
    open.push_back(std::move(file));
  }
  CHECK_REFUSED(kLimitReached, files->OpenFileReadOnly("map"));
  open.pop_back();
  CHECK(files->OpenFileReadOnly("map"));
}

TEST(AStorageHasAtMost1024Files) {
  const Bed bed;
  CHECK(bed.Start(kManifest));
  GET(files, OpenFileStorage(Named("cal")));
  for (int number = 1; number < 1024; ++number) CHECK(files->OpenFileWriteOnly("f" + std::to_string(number)));
  CHECK_REFUSED(kLimitReached, files->OpenFileWriteOnly("one.more"));
  GET(names, files->GetAllFileNames());
  CHECK(names.size() == 1024);
}

}  // namespace files_tests
