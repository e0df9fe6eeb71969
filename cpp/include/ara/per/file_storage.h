#pragma once

#include <cstdint>
#include <memory>
#include <string>
#include <string_view>
#include <utility>

#include "ara/core/instance_specifier.h"
#include "ara/core/result.h"
#include "ara/core/span.h"
#include "ara/core/string.h"
#include "ara/core/string_view.h"
#include "ara/core/utility.h"
#include "ara/core/vector.h"
#include "ara/per/detail/engine.h"
#include "ara/per/read_accessor.h"
#include "ara/per/read_write_accessor.h"
#include "ara/per/shared_handle.h"
#include "ara/per/unique_handle.h"

namespace ara::per {

/// How a file is opened; joined by `|`.
enum class OpenMode : std::uint32_t {
  kAtTheBeginning = 1U << 0U,  ///< The position is 0, as it is without a mode.
  kAtTheEnd = 1U << 1U,        ///< The position is the size.
  kTruncate = 1U << 2U,        ///< The file is emptied first; not for reading alone.
  kAppend = 1U << 3U,          ///< Each write is at the end; not for reading alone.
};

[[nodiscard]] constexpr OpenMode operator|(OpenMode one, OpenMode other) noexcept {
  return static_cast<OpenMode>(static_cast<std::uint32_t>(one) | static_cast<std::uint32_t>(other));
}
constexpr OpenMode& operator|=(OpenMode& one, OpenMode other) noexcept { return one = one | other; }

/// By what a file came to be.
enum class FileCreationState : std::uint32_t {
  kCreatedDuringInstallation = 1,
  kCreatedDuringUpdate = 2,
  kCreatedDuringReset = 3,
  kCreatedDuringRecovery = 4,
  kCreatedByApplication = 5,
};

/// By what a file was changed last.
enum class FileModificationState : std::uint32_t {
  kModifiedDuringInstallation = 1,
  kModifiedDuringUpdate = 2,
  kModifiedDuringReset = 3,
  kModifiedDuringRecovery = 4,
  kModifiedByApplication = 5,
};

/// What is known of a file beside its content. Times are nanoseconds since 1970-01-01 00:00 UTC, in whole seconds.
struct FileInfo {
  std::uint64_t creationTime{};
  std::uint64_t modificationTime{};
  std::uint64_t accessTime{};
  FileCreationState fileCreationState{};
  FileModificationState fileModificationState{};
};

/// An open storage of files. Any number of threads may use it; an accessor is for one of them at a time.
///
/// What is written, deleted, recovered and reset is seen at once, and durable once a file is synchronised or the last
/// handle and accessor have gone, which synchronises by itself.
///
/// A file name has 1 to 255 of letters, digits, `_`, `-`, `.` and `/`. A storage has at most 1,024 files of at most
/// 1,048,576 bytes, and 64 accessors.
///
/// Every call may answer `kPhysicalStorageFailure`, and every call with a name `kBadName`.
class FileStorage final {
  template <class Accessor>
  using Opening = ara::core::Result<UniqueHandle<Accessor>>;

 public:
  /// Made by `OpenFileStorage`.
  explicit FileStorage(std::shared_ptr<detail::OpenStorage> storage) noexcept : storage_{std::move(storage)} {}
  FileStorage(const FileStorage&) = delete;
  FileStorage& operator=(const FileStorage&) = delete;
  ~FileStorage() = default;

  /// The names of all files, in the order of their bytes.
  [[nodiscard]] ara::core::Result<ara::core::Vector<ara::core::String>> GetAllFileNames() const noexcept {
    return detail::NamesOf(storage_->Ask("files"));
  }

  /// Whether there is this file. A file that cannot be read is there.
  [[nodiscard]] ara::core::Result<bool> FileExists(ara::core::StringView name) const noexcept {
    if (!detail::IsName(detail::AsText(name))) return false;
    return detail::Truth(storage_->Ask("file-exists", detail::AsText(name)));
  }

  /// # Errors
  /// - `kIllegalWriteAccess`: the storage may only be read
  /// - `kFileNotFound`
  /// - `kResourceBusy`: the file is open
  [[nodiscard]] ara::core::Result<void> DeleteFile(ara::core::StringView name) noexcept {
    return Change("delete", name);
  }

  /// Gives a file that cannot be read the content of one copy, else its initial content, else deletes it. One that can
  /// be read stays as it is.
  ///
  /// # Errors
  /// - as `DeleteFile`
  /// - `kOutOfStorageSpace`
  [[nodiscard]] ara::core::Result<void> RecoverFile(ara::core::StringView name) noexcept {
    return Change("recover-file", name);
  }

  /// Gives a file its initial content.
  ///
  /// # Errors
  /// - `kIllegalWriteAccess`
  /// - `kInitValueNotAvailable`: the manifest has none
  /// - `kResourceBusy`: the file is open
  /// - `kLimitReached`: there are 1,024 files
  /// - `kOutOfStorageSpace`
  [[nodiscard]] ara::core::Result<void> ResetFile(ara::core::StringView name) noexcept {
    return Change("reset-file", name);
  }

  /// The bytes of a file.
  ///
  /// # Errors
  /// - `kFileNotFound`
  [[nodiscard]] ara::core::Result<std::uint64_t> GetCurrentFileSize(ara::core::StringView name) const noexcept {
    if (!detail::IsName(detail::AsText(name))) return ara::core::Result<std::uint64_t>::FromError(BadName());
    return detail::NumberOf(storage_->Ask("size-of", detail::AsText(name)));
  }

  /// # Errors
  /// - `kFileNotFound`
  [[nodiscard]] ara::core::Result<FileInfo> GetFileInfo(ara::core::StringView name) const noexcept {
    if (!detail::IsName(detail::AsText(name))) return ara::core::Result<FileInfo>::FromError(BadName());
    return InfoOf(storage_->Ask("info", detail::AsText(name)));
  }

  /// Opens a file that is there for reading. It may be open for reading any number of times.
  ///
  /// # Errors
  /// - `kInvalidOpenMode`: `kAtTheBeginning` with `kAtTheEnd`; `kTruncate` or `kAppend`
  /// - `kFileNotFound`
  /// - `kIntegrityCorrupted`: too few copies agree; `RecoverFile` and `ResetFile` are ways out
  /// - `kResourceBusy`: the file is open for writing
  /// - `kLimitReached`: 64 accessors are open
  [[nodiscard]] Opening<ReadAccessor> OpenFileReadOnly(ara::core::StringView name,
                                                       OpenMode mode = OpenMode::kAtTheBeginning) noexcept {
    const auto handle = OpenFile(name, "r", mode);
    if (!handle) return Opening<ReadAccessor>::FromError(handle.Error());
    return UniqueHandle<ReadAccessor>{std::make_unique<ReadAccessor>(storage_, handle.Value())};
  }

  /// Opens a file for writing, or for reading and writing; it is made, empty, where it is not there.
  ///
  /// # Errors
  /// - `kInvalidOpenMode`: `kAtTheBeginning` with `kAtTheEnd`
  /// - `kIllegalWriteAccess`: the storage may only be read
  /// - `kIntegrityCorrupted`: too few copies agree; `RecoverFile` and `ResetFile` are ways out
  /// - `kResourceBusy`: the file is open
  /// - `kLimitReached`: 64 accessors are open, or there are 1,024 files
  /// - `kOutOfStorageSpace`: there is no room for its name
  [[nodiscard]] Opening<ReadWriteAccessor> OpenFileWriteOnly(ara::core::StringView name,
                                                             OpenMode mode = OpenMode::kAtTheBeginning) noexcept {
    return OpenToWrite(name, "w", mode);
  }
  [[nodiscard]] Opening<ReadWriteAccessor> OpenFileReadWrite(ara::core::StringView name,
                                                             OpenMode mode = OpenMode::kAtTheBeginning) noexcept {
    return OpenToWrite(name, "rw", mode);
  }

  /// The same, where a program lends a buffer. None is needed, and it is not looked at.
  [[nodiscard]] Opening<ReadAccessor> OpenFileReadOnly(ara::core::StringView name, OpenMode mode,
                                                       ara::core::Span<ara::core::Byte> /* buffer */) noexcept {
    return OpenFileReadOnly(name, mode);
  }
  [[nodiscard]] Opening<ReadWriteAccessor> OpenFileWriteOnly(ara::core::StringView name, OpenMode mode,
                                                             ara::core::Span<ara::core::Byte> /* buffer */) noexcept {
    return OpenFileWriteOnly(name, mode);
  }
  [[nodiscard]] Opening<ReadWriteAccessor> OpenFileReadWrite(ara::core::StringView name, OpenMode mode,
                                                             ara::core::Span<ara::core::Byte> /* buffer */) noexcept {
    return OpenFileReadWrite(name, mode);
  }

 private:
  [[nodiscard]] static ara::core::ErrorCode BadName() {
    return detail::Refused(PerErrc::kBadName, "no file can have this name");
  }

  [[nodiscard]] ara::core::Result<void> Change(const char* word, ara::core::StringView name) {
    if (!detail::IsName(detail::AsText(name))) return ara::core::Result<void>::FromError(BadName());
    return detail::Done(storage_->AskNow(word, detail::AsText(name)));
  }

  [[nodiscard]] static bool Has(OpenMode mode, OpenMode bit) noexcept {
    return (static_cast<std::uint32_t>(mode) & static_cast<std::uint32_t>(bit)) != 0;
  }

  /// The mode in the engine's words, and none where it has other bits.
  [[nodiscard]] static std::string WordsOf(OpenMode mode) {
    constexpr std::pair<OpenMode, const char*> words[] = {{OpenMode::kAtTheBeginning, "begin"},
                                                          {OpenMode::kAtTheEnd, "end"},
                                                          {OpenMode::kTruncate, "truncate"},
                                                          {OpenMode::kAppend, "append"}};
    if (static_cast<std::uint32_t>(mode) == 0) return "none";
    if (static_cast<std::uint32_t>(mode) > 15) return {};
    std::string text;
    for (const auto& [bit, word] : words) {
      if (!Has(mode, bit)) continue;
      if (!text.empty()) text += '+';
      text += word;
    }
    return text;
  }

  [[nodiscard]] ara::core::Result<std::uint32_t> OpenFile(ara::core::StringView name, const char* kind,
                                                          OpenMode mode) {
    using Handle = ara::core::Result<std::uint32_t>;
    if (!detail::IsName(detail::AsText(name))) return Handle::FromError(BadName());
    const std::string words = WordsOf(mode);
    if (words.empty()) return Handle::FromError(detail::Refused(PerErrc::kInvalidOpenMode, "there is no such mode"));
    return detail::NumberBehind<std::uint32_t>("handle ",
                                               storage_->AskNow("open-file", detail::AsText(name), kind, words));
  }

  [[nodiscard]] Opening<ReadWriteAccessor> OpenToWrite(ara::core::StringView name, const char* kind, OpenMode mode) {
    const auto handle = OpenFile(name, kind, mode);
    if (!handle) return Opening<ReadWriteAccessor>::FromError(handle.Error());
    return UniqueHandle<ReadWriteAccessor>{
        std::make_unique<ReadWriteAccessor>(storage_, handle.Value(), Has(mode, OpenMode::kAppend))};
  }

  /// Reads `info CREATED MODIFIED ACCESSED CREATION MODIFICATION`, with times in seconds.
  [[nodiscard]] static ara::core::Result<FileInfo> InfoOf(const ara::core::Result<std::string>& answer) {
    using Info = ara::core::Result<FileInfo>;
    if (!answer) return Info::FromError(answer.Error());
    detail::Cursor in{answer.Value()};
    FileInfo info;
    bool isRead = in.Take("info");
    for (std::uint64_t* time : {&info.creationTime, &info.modificationTime, &info.accessTime}) {
      isRead = isRead && in.Take(" ") && in.TakeNumber(*time);
      *time *= 1'000'000'000;
    }
    isRead = isRead && in.Take(" ");
    info.fileCreationState = static_cast<FileCreationState>(CauseOf(in.TakeUntil(' ')));
    isRead = isRead && in.Take(" ");
    info.fileModificationState = static_cast<FileModificationState>(CauseOf(in.TakeUntil(' ')));
    if (!isRead || !in.IsAtEnd()) return Info::FromError(detail::Unexpected(answer.Value()));
    return info;
  }

  [[nodiscard]] static std::uint32_t CauseOf(std::string_view word) noexcept {
    constexpr std::string_view causes[] = {"installation", "update", "reset", "recovery", "application"};
    std::uint32_t number = 0;
    for (const std::string_view cause : causes) {
      ++number;
      if (cause == word) return number;
    }
    return 0;
  }

  std::shared_ptr<detail::OpenStorage> storage_;
};

/// Opens a storage of files; one that is open in this process already is shared. Copies that were damaged are mended,
/// and reported (`RegisterRecoveryReportCallback`). The first opening installs or updates (`UpdatePersistency`).
///
/// # Errors
/// - `kStorageNotFound`: the manifest has no storage of files of this name
/// - `kIntegrityCorrupted`: too few copies agree; `RecoverAllFiles` and `ResetAllFiles` are ways out
/// - `kNotInstalled`: nothing is installed, and there is no manifest
/// - those of `UpdatePersistency`
[[nodiscard]] inline ara::core::Result<SharedHandle<FileStorage>> OpenFileStorage(
    const ara::core::InstanceSpecifier& fs) noexcept {
  using Handle = SharedHandle<FileStorage>;
  return detail::WithStorage<Handle>(
      fs, [](const std::shared_ptr<detail::Engine>& engine, const std::string& name) -> ara::core::Result<Handle> {
        auto opened = detail::Engine::Open(engine, name, detail::StorageKind::kFiles);
        if (!opened) return ara::core::Result<Handle>::FromError(opened.Error());
        return Handle{std::make_shared<FileStorage>(std::move(opened).Value())};
      });
}

/// Makes a storage that cannot be opened, or of which files cannot be read, good again: with what one copy has of each
/// file, else its initial content, else without it. It is durable at once.
///
/// # Errors
/// - `kStorageNotFound`
/// - `kResourceBusy`: the storage is open
/// - `kOutOfStorageSpace`
/// - those of `UpdatePersistency`
[[nodiscard]] inline ara::core::Result<void> RecoverAllFiles(const ara::core::InstanceSpecifier& fs) noexcept {
  return detail::WithStorage<void>(fs, [](const auto& engine, const std::string& name) {
    return engine->Renew("recover-storage", name, detail::StorageKind::kFiles);
  });
}

/// Gives a storage its initial files, and no other file. It is durable at once.
///
/// # Errors
/// - `kStorageNotFound`
/// - `kResourceBusy`: the storage is open
/// - those of `UpdatePersistency`
[[nodiscard]] inline ara::core::Result<void> ResetAllFiles(const ara::core::InstanceSpecifier& fs) noexcept {
  return detail::WithStorage<void>(fs, [](const auto& engine, const std::string& name) {
    return engine->Renew("reset-storage", name, detail::StorageKind::kFiles);
  });
}

/// The bytes of the names and contents of a storage, with what is not durable yet where it is open. Copies do not
/// count.
///
/// # Errors
/// - those of `OpenFileStorage`
[[nodiscard]] inline ara::core::Result<std::uint64_t> GetCurrentFileStorageSize(
    const ara::core::InstanceSpecifier& fs) noexcept {
  return detail::WithStorage<std::uint64_t>(fs, [](const auto& engine, const std::string& name) {
    return engine->SizeOf(name, detail::StorageKind::kFiles);
  });
}

}  // namespace ara::per
