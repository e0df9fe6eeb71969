/// Engines: started, ended, killed, missing, over a failing disk, and at other descriptors.
#include <cerrno>
#include <chrono>
#include <csignal>
#include <cstdint>
#include <cstdlib>
#include <string>
#include <thread>
#include <type_traits>
#include <utility>
#include <vector>

#include <fcntl.h>
#include <sys/resource.h>
#include <sys/stat.h>
#include <sys/wait.h>
#include <unistd.h>

#include "ara/core/string.h"
#include "ara/core/vector.h"
#include "ara/per/file_storage.h"
#include "ara/per/key_value_storage.h"
#include "ara/per/update.h"
#include "bed.h"
#include "check.h"
#include "scripted.h"

namespace engines_tests {

using ara::core::String;
using ara::core::Vector;
using ara::per::OpenFileStorage;
using ara::per::OpenKeyValueStorage;
using ara::per::StartEngine;
using ara::per::StopEngine;

const char* const kManifest = R"({"version":1,"keyValueStorages":[{"name":"k"}],"fileStorages":[{"name":"f"}]})";

bool EndsWith(const String& text, const char* end) {
  const String tail{end};
  return text.size() >= tail.size() && text.substr(text.size() - tail.size()) == tail;
}

TEST(WithoutAnEngineEveryCallSaysSo) {
  CHECK(ara::per::EngineProcess() == -1);
  CHECK_REFUSED(kNotStarted, OpenKeyValueStorage(Named("k")));
  CHECK_REFUSED(kNotStarted, ara::per::RecoverKeyValueStorage(Named("k")));
  CHECK_REFUSED(kNotStarted, ara::per::ResetKeyValueStorage(Named("k")));
  CHECK_REFUSED(kNotStarted, ara::per::GetCurrentKeyValueStorageSize(Named("k")));
  CHECK_REFUSED(kNotStarted, OpenFileStorage(Named("f")));
  CHECK_REFUSED(kNotStarted, ara::per::RecoverAllFiles(Named("f")));
  CHECK_REFUSED(kNotStarted, ara::per::ResetAllFiles(Named("f")));
  CHECK_REFUSED(kNotStarted, ara::per::GetCurrentFileStorageSize(Named("f")));
  CHECK_REFUSED(kNotStarted, ara::per::UpdatePersistency());
  CHECK_REFUSED(kNotStarted, ara::per::CleanUpPersistency());
  CHECK_REFUSED(kNotStarted, ara::per::RollbackPersistency());
  CHECK_REFUSED(kNotStarted, ara::per::ResetPersistency());
  CHECK_REFUSED(kNotStarted, ara::per::CheckForManifestUpdate());
  CHECK_REFUSED(kNotStarted, ara::per::ReloadPersistencyManifest());
}

TEST(AnEngineThatCannotStartIsRefused) {
  const Bed bed;
  ara::per::EngineOptions options = bed.Options(kManifest);
  options.program = bed.Path("no-such-program");
  CHECK_REFUSED(kPhysicalStorageFailure, StartEngine(options));
  CHECK(EndsWith(ara::per::LastRefusal(), "cannot be started: No such file or directory"));
  options.program = "false";
  CHECK_REFUSED(kPhysicalStorageFailure, StartEngine(options));
  CHECK(ara::per::LastRefusal() == "the engine ended with status 1");
  CHECK_REFUSED(kNotStarted, OpenKeyValueStorage(Named("k")));
  CHECK(bed.Start(kManifest));
  CHECK(OpenKeyValueStorage(Named("k")));
}

TEST(AFolderOfSomebodyElseIsRefused) {
  const Bed bed;
  ::mkdir(bed.Folder().c_str(), 0700);
  bed.Write("kept/letter", "not the engine's");
  CHECK_REFUSED(kPhysicalStorageFailure, StartEngine(bed.Options(kManifest)));
  ara::per::EngineOptions options = bed.Options(kManifest);
  options.folder = bed.Path("no/folder/here");
  CHECK_REFUSED(kPhysicalStorageFailure, StartEngine(options));
}

TEST(AFolderHasOneEngine) {
  const Bed bed;
  CHECK(bed.Start(kManifest));
  GET(kvs, OpenKeyValueStorage(Named("k")));
  const std::string other = "'" + Program() + "' --dir '" + bed.Folder() + "' </dev/null >/dev/null 2>&1";
  const int status = std::system(other.c_str());
  CHECK(WIFEXITED(status) && WEXITSTATUS(status) != 0);
  CHECK(kvs->SetValue("a", true));
  CHECK(kvs->SyncToStorage());
}

TEST(OneEngineRunsAtATime) {
  const Bed bed;
  CHECK(bed.Start(kManifest));
  CHECK_REFUSED(kResourceBusy, StartEngine(bed.Options(kManifest)));
  const pid_t before = ara::per::EngineProcess();
  CHECK(before > 0);
  CHECK(::getpgid(before) == before);  // a Ctrl-C of the program's terminal does not reach it
  StopEngine();
  CHECK(::kill(before, 0) == -1 && errno == ESRCH);  // it has ended, and nothing is left of it
  StopEngine();
  CHECK(StartEngine(bed.Options(kManifest)));
}

TEST(HandlesOfAnEndedEngineAnswerAFailure) {
  const Bed bed;
  CHECK(bed.Start(kManifest));
  GET(kvs, OpenKeyValueStorage(Named("k")));
  CHECK(kvs->SetValue("a", true));
  CHECK(kvs->SyncToStorage());
  StopEngine();
  CHECK_REFUSED(kPhysicalStorageFailure, kvs->GetValue<bool>("a"));
  CHECK(ara::per::LastRefusal() == "the engine ended with status 0");
  CHECK(bed.Start(kManifest));
  CHECK_REFUSED(kPhysicalStorageFailure, kvs->GetValue<bool>("a"));
  GET(again, OpenKeyValueStorage(Named("k")));
  kvs = {};  // its end has nothing to do with what the new engine has open
  GET(value, again->GetValue<bool>("a"));
  CHECK(value);
}

TEST(EveryCallOnAKilledEngineIsAFailure) {
  const Bed bed;
  CHECK(bed.Start(kManifest));
  GET(kvs, OpenKeyValueStorage(Named("k")));
  GET(files, OpenFileStorage(Named("f")));
  GET(file, files->OpenFileReadWrite("a"));
  CHECK(file->WriteText("kept"));
  CHECK(file->SyncToFile());
  CHECK(kvs->SetValue("a", std::uint32_t{1}));
  CHECK(kvs->SyncToStorage());
  CHECK(kvs->SetValue("a", std::uint32_t{2}));
  CHECK(file->WriteText("lost"));
  ::kill(ara::per::EngineProcess(), SIGKILL);

  CHECK_REFUSED(kPhysicalStorageFailure, kvs->GetValue<std::uint32_t>("a"));
  CHECK(ara::per::LastRefusal() == "the engine ended with status 137");
  CHECK_REFUSED(kPhysicalStorageFailure, kvs->GetAllKeys());
  CHECK_REFUSED(kPhysicalStorageFailure, kvs->KeyExists("a"));
  CHECK_REFUSED(kPhysicalStorageFailure, kvs->SetValue("a", std::uint32_t{3}));
  CHECK_REFUSED(kPhysicalStorageFailure, kvs->RemoveKey("a"));
  CHECK_REFUSED(kPhysicalStorageFailure, kvs->RemoveAllKeys());
  CHECK_REFUSED(kPhysicalStorageFailure, kvs->RecoverKey("a"));
  CHECK_REFUSED(kPhysicalStorageFailure, kvs->ResetKey("a"));
  CHECK_REFUSED(kPhysicalStorageFailure, kvs->SyncToStorage());
  CHECK_REFUSED(kPhysicalStorageFailure, kvs->DiscardPendingChanges());
  CHECK_REFUSED(kPhysicalStorageFailure, files->GetAllFileNames());
  CHECK_REFUSED(kPhysicalStorageFailure, files->FileExists("a"));
  CHECK_REFUSED(kPhysicalStorageFailure, files->DeleteFile("a"));
  CHECK_REFUSED(kPhysicalStorageFailure, files->RecoverFile("a"));
  CHECK_REFUSED(kPhysicalStorageFailure, files->ResetFile("a"));
  CHECK_REFUSED(kPhysicalStorageFailure, files->GetCurrentFileSize("a"));
  CHECK_REFUSED(kPhysicalStorageFailure, files->GetFileInfo("a"));
  CHECK_REFUSED(kPhysicalStorageFailure, files->OpenFileReadOnly("a"));
  CHECK_REFUSED(kPhysicalStorageFailure, files->OpenFileReadWrite("a"));
  CHECK_REFUSED(kPhysicalStorageFailure, file->PeekChar());
  CHECK_REFUSED(kPhysicalStorageFailure, file->PeekByte());
  CHECK_REFUSED(kPhysicalStorageFailure, file->GetChar());
  CHECK_REFUSED(kPhysicalStorageFailure, file->GetByte());
  CHECK_REFUSED(kPhysicalStorageFailure, file->ReadText());
  CHECK_REFUSED(kPhysicalStorageFailure, file->ReadText(1));
  CHECK_REFUSED(kPhysicalStorageFailure, file->ReadBinary());
  CHECK_REFUSED(kPhysicalStorageFailure, file->ReadBinary(1));
  CHECK_REFUSED(kPhysicalStorageFailure, file->ReadLine());
  CHECK_REFUSED(kPhysicalStorageFailure, file->GetSize());
  CHECK_REFUSED(kPhysicalStorageFailure, file->GetPosition());
  CHECK_REFUSED(kPhysicalStorageFailure, file->SetPosition(0));
  CHECK_REFUSED(kPhysicalStorageFailure, file->MovePosition(ara::per::Origin::kEnd, 0));
  CHECK_REFUSED(kPhysicalStorageFailure, file->IsEof());
  CHECK_REFUSED(kPhysicalStorageFailure, file->WriteText("x"));
  CHECK_REFUSED(kPhysicalStorageFailure, file->WriteText(String(100'000, 'x')));
  CHECK_REFUSED(kPhysicalStorageFailure, file->SetFileSize(0));
  CHECK_REFUSED(kPhysicalStorageFailure, file->SyncToFile());
  *file << "x";
  CHECK_REFUSED(kPhysicalStorageFailure, file->SyncToFile());
  CHECK_REFUSED(kPhysicalStorageFailure, OpenKeyValueStorage(Named("other")));
  CHECK_REFUSED(kPhysicalStorageFailure, OpenFileStorage(Named("other")));
  CHECK_REFUSED(kPhysicalStorageFailure, ara::per::GetCurrentKeyValueStorageSize(Named("k")));
  CHECK_REFUSED(kPhysicalStorageFailure, ara::per::GetCurrentFileStorageSize(Named("f")));
  CHECK_REFUSED(kPhysicalStorageFailure, ara::per::RecoverKeyValueStorage(Named("k")));
  CHECK_REFUSED(kPhysicalStorageFailure, ara::per::ResetAllFiles(Named("f")));
  CHECK_REFUSED(kPhysicalStorageFailure, ara::per::UpdatePersistency());
  CHECK_REFUSED(kPhysicalStorageFailure, ara::per::CleanUpPersistency());
  CHECK_REFUSED(kPhysicalStorageFailure, ara::per::RollbackPersistency());
  CHECK_REFUSED(kPhysicalStorageFailure, ara::per::ResetPersistency());

  // The next one may be started at once, and has what was synchronised.
  CHECK(StartEngine(bed.Options(kManifest)));
  GET(again, OpenKeyValueStorage(Named("k")));
  GET(value, again->GetValue<std::uint32_t>("a"));
  CHECK(value == 1);
  GET(filesAgain, OpenFileStorage(Named("f")));
  GET(fileAgain, filesAgain->OpenFileReadOnly("a"));
  GET(text, fileAgain->ReadText());
  CHECK(text == "kept");
}

TEST(AnEngineKilledAtAnyMomentLosesNothingSynchronised) {
  const Bed bed;
  std::uint32_t least = 0;  // was synchronised
  std::uint32_t most = 0;   // may have been
  CHECK(bed.Start(kManifest));
  for (int round = 0; round < 12; ++round) {
    {
      GET(kvs, OpenKeyValueStorage(Named("k")));
      const pid_t engine = ara::per::EngineProcess();
      std::thread killer{[engine, round] {
        std::this_thread::sleep_for(std::chrono::microseconds{3'000 + 1'700 * round});
        ::kill(engine, SIGKILL);
      }};
      for (;;) {
        if (!kvs->SetValue("count", most + 1)) break;
        ++most;
        if (!kvs->SyncToStorage()) break;
        least = most;
      }
      killer.join();
    }
    CHECK(StartEngine(bed.Options(kManifest)));
    GET(kvs, OpenKeyValueStorage(Named("k")));
    const std::uint32_t count = kvs->GetValue<std::uint32_t>("count").ValueOr(0U);
    CHECK(least <= count && count <= most);
    least = most = count;
  }
}

TEST(ADiskThatFailsEndsTheHandleAndNotTheData) {
  const Bed bed;
  // An engine whose files may have 60 * 512 bytes, and that is not ended by the signal of that limit.
  bed.Write("limited", "#!/bin/sh\nulimit -f 60\ntrap '' XFSZ\nexec '" + Program() + "' \"$@\"\n");
  ::chmod(bed.Path("limited").c_str(), 0700);
  CHECK(bed.Start(kManifest));
  {
    GET(kvs, OpenKeyValueStorage(Named("k")));
    CHECK(kvs->SetValue("a", std::uint8_t{1}));
    CHECK(kvs->SyncToStorage());
  }
  StopEngine();
  ara::per::EngineOptions options = bed.Options(kManifest);
  options.program = bed.Path("limited");
  CHECK(StartEngine(options));
  {
    GET(kvs, OpenKeyValueStorage(Named("k")));
    CHECK(kvs->SetValue("a", std::uint8_t{2}));
    CHECK(kvs->SetValue("large", Vector<std::uint8_t>(60'000)));
    CHECK_REFUSED(kPhysicalStorageFailure, kvs->SyncToStorage());
    CHECK_REFUSED(kPhysicalStorageFailure, kvs->GetValue<std::uint8_t>("a"));
    CHECK_REFUSED(kPhysicalStorageFailure, kvs->SyncToStorage());
  }
  CHECK(bed.Start(kManifest));
  GET(kvs, OpenKeyValueStorage(Named("k")));
  GET(value, kvs->GetValue<std::uint8_t>("a"));
  GET(large, kvs->KeyExists("large"));
  CHECK(value == 1 && !large);
}

TEST(ADescriptorOfTheEngineIsNotForOtherChildren) {
  const Bed bed;
  std::vector<bool> before;
  for (int number = 0; number < 256; ++number) before.push_back(::fcntl(number, F_GETFD) >= 0);
  CHECK(bed.Start(kManifest));
  int found = 0;
  for (int number = 0; number < 256; ++number) {
    const int flags = ::fcntl(number, F_GETFD);
    if (flags < 0 || before[static_cast<std::size_t>(number)]) continue;
    CHECK((flags & FD_CLOEXEC) != 0);
    ++found;
  }
  CHECK(found == 2);
}

TEST(AProgramWithoutStandardStreamsHasAnEngine) {
  const Bed bed;
  for (const int closed : {1, 2, 3, 4, 5, 6, 7}) {  // bits of the three descriptors
    const pid_t child = ::fork();
    if (child == 0) {
      for (int number = 0; number < 3; ++number) {
        if ((closed & (1 << number)) != 0) ::close(number);
      }
      bool isGood = static_cast<bool>(StartEngine(bed.Options(kManifest)));
      if (auto kvs = OpenKeyValueStorage(Named("k")); isGood && kvs) {
        isGood = (*kvs)->SetValue("a", closed) && (*kvs)->SyncToStorage();
      } else {
        isGood = false;
      }
      StopEngine();
      std::_Exit(isGood ? 0 : 1);
    }
    int status = -1;
    ::waitpid(child, &status, 0);
    CHECK(status == 0);
    CHECK(bed.Start(kManifest));
    GET(kvs, OpenKeyValueStorage(Named("k")));
    CHECK(kvs->GetValue<int>("a").ValueOr(0) == closed);
    kvs = {};
    StopEngine();
  }
}

TEST(ABrokenPipeIsNoSignalOfTheProgram) {
  const Bed bed;
  CHECK(bed.Start(kManifest));
  GET(kvs, OpenKeyValueStorage(Named("k")));
  struct sigaction action {};
  ::sigaction(SIGPIPE, nullptr, &action);
  CHECK(action.sa_handler == SIG_DFL);
  const pid_t engine = ara::per::EngineProcess();
  ::kill(engine, SIGKILL);
  siginfo_t info{};
  ::waitid(P_PID, static_cast<id_t>(engine), &info, WEXITED | WNOWAIT);  // until nobody reads the pipe
  CHECK_REFUSED(kPhysicalStorageFailure, kvs->SetValue("a", true));
  sigset_t pending;
  ::sigpending(&pending);
  CHECK(::sigismember(&pending, SIGPIPE) == 0);
  sigset_t blocked;
  ::pthread_sigmask(SIG_SETMASK, nullptr, &blocked);
  CHECK(::sigismember(&blocked, SIGPIPE) == 0);
  ::sigaction(SIGPIPE, nullptr, &action);
  CHECK(action.sa_handler == SIG_DFL);
}

TEST(AnEngineAtTwoDescriptors) {
  const Bed bed;
  CHECK(bed.Start(kManifest));
  StopEngine();  // the folder is formatted
  int lines[2];
  int replies[2];
  CHECK(::pipe2(lines, O_CLOEXEC) == 0 && ::pipe2(replies, O_CLOEXEC) == 0);
  const pid_t child = ::fork();
  if (child == 0) {
    ::dup2(lines[0], 0);
    ::dup2(replies[1], 1);
    ::execl(Program().c_str(), "per", "--dir", bed.Folder().c_str(), static_cast<char*>(nullptr));
    std::_Exit(127);
  }
  ::close(lines[0]);
  ::close(replies[1]);
  CHECK(ara::per::AttachEngine(bed.Options(kManifest), replies[0], lines[1]));
  CHECK(ara::per::EngineProcess() == -1);
  {
    GET(kvs, OpenKeyValueStorage(Named("k")));
    CHECK(kvs->SetValue("a", true));
    CHECK(kvs->SyncToStorage());
  }
  StopEngine();
  int status = -1;
  ::waitpid(child, &status, 0);
  CHECK(status == 0);
  CHECK(bed.Start(kManifest));
  GET(kvs, OpenKeyValueStorage(Named("k")));
  CHECK(kvs->GetValue<bool>("a").ValueOr(false));
}

// ---- what only an engine that follows a script can show

TEST(EachErrorOfTheEngineHasItsCode) {
  using ara::per::PerErrc;
  const std::pair<int, PerErrc> codes[] = {
      {1, PerErrc::kStorageNotFound},         {2, PerErrc::kKeyNotFound},
      {3, PerErrc::kIllegalWriteAccess},      {4, PerErrc::kPhysicalStorageFailure},
      {5, PerErrc::kIntegrityCorrupted},      {7, PerErrc::kDataTypeMismatch},
      {8, PerErrc::kInitValueNotAvailable},   {9, PerErrc::kResourceBusy},
      {10, PerErrc::kOutOfStorageSpace},      {11, PerErrc::kFileNotFound},
      {12, PerErrc::kInvalidPosition},        {13, PerErrc::kIsEof},
      {14, PerErrc::kInvalidOpenMode},        {15, PerErrc::kInvalidSize},
      {20, PerErrc::kNotInstalled},           {21, PerErrc::kAlreadyInstalled},
      {22, PerErrc::kManifestRejected},       {23, PerErrc::kNoPreviousVersion},
      {24, PerErrc::kPhysicalStorageFailure}, {25, PerErrc::kLimitReached},
      {26, PerErrc::kIllegalReadAccess},      {27, PerErrc::kUpdateNotFinished},
      {28, PerErrc::kVersionNotNewer},        {29, PerErrc::kBadName},
      {30, PerErrc::kNoUpdateInProgress},     {31, PerErrc::kExportRejected},
  };
  for (const auto& [number, code] : codes) {
    const Scripted engine{{{"0 status", "status version 1"},
                           {"0 status", "status version 1"},
                           {"0 open-kvs k", "error " + std::to_string(number) + " Name and more"}}};
    const auto opened = OpenKeyValueStorage(Named("k"));
    CHECK(!opened && opened.Error() == ara::core::ErrorCode(code) && opened.Error().SupportData() == number);
    CHECK(!opened.Error().Message().empty());
    CHECK(opened.Error().Domain() == ara::per::GetPerErrorDomain());
  }
}

TEST(AnErrorIsThrownAsAnException) {
#ifdef __cpp_exceptions
  bool isCaught = false;
  try {
    (void)OpenKeyValueStorage(Named("k")).ValueOrThrow();
  } catch (const ara::per::PerException& exception) {
    isCaught = exception.Error() == ara::core::ErrorCode(ara::per::PerErrc::kNotStarted);
    CHECK(String{exception.what()} == "no engine was started");
  }
  CHECK(isCaught);
#endif
}

TEST(AReplyOfNoKnownFormIsUnexpected) {
  const Bed bed;
  for (const char* const reply : {"", "bad-line 3", "maybe", "error", "error x", "error 99 Unknown", "value u8:1"}) {
    const Scripted engine{{{"0 status", "status version 1"},
                           {"0 status", "status version 1"},
                           {"0 open-kvs k", "ok"},
                           {"0 exists k a", reply},
                           {"0 exists k a", "report key-unknown k:a 1\nyes"}}};
    GET(kvs, OpenKeyValueStorage(Named("k")));
    CHECK_REFUSED(kUnexpectedReply, kvs->KeyExists("a"));
    CHECK(kvs->KeyExists("a"));
  }
  const Scripted engine{{{"0 status", "status version 1"},
                         {"0 status", "status version 1"},
                         {"0 open-files f", "ok"},
                         {"0 keys f", "names a"},
                         {"0 files f", "bytes 00"},
                         {"0 info f a", "info 1 2 3 application by-magic"},
                         {"0 info f a", "info 1 2 application application"},
                         {"0 size-of f a", "number x"},
                         {"0 size-of f a", "number 1 2"}}};
  GET(files, OpenFileStorage(Named("f")));
  CHECK_REFUSED(kUnexpectedReply, files->GetAllFileNames());
  CHECK_REFUSED(kUnexpectedReply, files->GetFileInfo("a"));
  CHECK_REFUSED(kUnexpectedReply, files->GetFileInfo("a"));
  CHECK_REFUSED(kUnexpectedReply, files->GetCurrentFileSize("a"));
  CHECK_REFUSED(kUnexpectedReply, files->GetCurrentFileSize("a"));
}

TEST(AStorageThatADiskClosedIsOpenedAnew) {
  const Scripted engine{{{"0 status", "status version 1"},
                         {"0 status", "status version 1"},
                         {"0 open-kvs k", "ok"},
                         {"0 sync k", "error 4 PhysicalStorageFailure"},
                         {"0 size k", "error 24 NotOpen"},
                         {"0 close k", "error 24 NotOpen"},
                         {"0 open-kvs k", "ok"},
                         {"0 get-as k a u8", "value u8:7"},
                         {"0 close k", "ok"}}};
  GET(dead, OpenKeyValueStorage(Named("k")));
  CHECK_REFUSED(kPhysicalStorageFailure, dead->SyncToStorage());
  CHECK(ara::per::LastRefusal() == "error 4 PhysicalStorageFailure");
  CHECK_REFUSED(kPhysicalStorageFailure, dead->GetValue<std::uint8_t>("a"));  // asks nobody
  GET(kvs, OpenKeyValueStorage(Named("k")));
  CHECK_REFUSED(kPhysicalStorageFailure, dead->GetValue<std::uint8_t>("a"));
  dead = {};  // and does not close the other one
  CHECK(kvs->GetValue<std::uint8_t>("a").ValueOr(std::uint8_t{0}) == 7);
}

TEST(AStorageThatIsStillOpenAfterAFailureIsTriedAgain) {
  const Scripted engine{{{"0 status", "status version 1"},
                         {"0 status", "status version 1"},
                         {"0 open-kvs k", "ok"},
                         {"0 sync k", "error 4 PhysicalStorageFailure"},
                         {"0 size k", "number 0"},
                         {"0 sync k", "ok"},
                         {"0 close k", "ok"}}};
  GET(kvs, OpenKeyValueStorage(Named("k")));
  CHECK_REFUSED(kPhysicalStorageFailure, kvs->SyncToStorage());
  CHECK(kvs->SyncToStorage());
}

}  // namespace engines_tests
