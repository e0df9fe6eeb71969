/// The errors of persistency: their numbers, their texts, and which error of the engine each denotes.
#pragma once

#include <cstdlib>

#include "ara/core/error_code.h"
#include "ara/core/error_domain.h"
#include "ara/core/exception.h"

namespace ara::per {

/// What a call may answer. Those below 100 have the names and the numbers of the standard. The others are this
/// library's own: from 120 on errors that the engine alone knows, 100 above its number, and from 150 on errors that
/// are found before the engine is asked.
///
/// `ErrorCode::SupportData` has the engine's number, and 0 where the engine did not answer.
enum class PerErrc : ara::core::ErrorDomain::CodeType {
  kStorageNotFound = 1,         ///< The manifest has no storage of this name and kind.
  kKeyNotFound = 2,             ///< There is no such key.
  kIllegalWriteAccess = 3,      ///< The storage may only be read.
  kPhysicalStorageFailure = 4,  ///< The disk failed, or the engine is gone.
  kIntegrityCorrupted = 5,      ///< Too few copies agree.
  kValidationFailed = 6,        ///< Never answered: every check is of copies (`kIntegrityCorrupted`).
  kEncryptionFailed = 7,        ///< Never answered: nothing is encrypted.
  kDataTypeMismatch = 8,        ///< The value stored, or the one configured, has another type.
  kInitValueNotAvailable = 9,   ///< The manifest has no initial value of this element.
  kResourceBusy = 10,           ///< A storage or a file is open, which the call does not allow.
  kOutOfStorageSpace = 12,      ///< The storage would be larger than the manifest allows.
  kFileNotFound = 13,           ///< There is no such file.
  kInvalidPosition = 15,        ///< The position is not within the file.
  kIsEof = 16,                  ///< The position is the end of the file.
  kInvalidOpenMode = 17,        ///< Modes that exclude one another, or that a file opened for reading cannot have.
  kInvalidSize = 18,            ///< A file is only made shorter.

  kNotInstalled = 120,        ///< The application has no manifest yet.
  kAlreadyInstalled = 121,    ///< The application has a manifest already.
  kManifestRejected = 122,    ///< The manifest breaks a rule, or there is none.
  kNoPreviousVersion = 123,   ///< There is no version to go back to.
  kLimitReached = 125,        ///< Too many elements or open files, or too large a file or value.
  kIllegalReadAccess = 126,   ///< The file was opened for writing alone.
  kUpdateNotFinished = 127,   ///< The update before is still to be cleaned up.
  kVersionNotNewer = 128,     ///< The manifest is older than the one that is active.
  kBadName = 129,             ///< A key or a file name is not 1 to 255 of letters, digits, `_`, `-`, `.` and `/`.
  kNoUpdateInProgress = 130,  ///< There is no update in progress.
  kExportRejected = 131,      ///< The text is no export of a storage.

  kNotUtf8 = 150,          ///< A text is not UTF-8; bytes are kept as a vector of bytes.
  kUnexpectedReply = 151,  ///< The engine gave a reply that has no such form: it is of another version.
  kNotStarted = 152,       ///< No engine was started (`StartEngine`).
};

namespace detail {

/// An error of the engine, the one that denotes it here, and what it says.
struct ErrorRow {
  int engine;
  PerErrc code;
  const char* message;
};

/// The one table from the engine's numbers to those above. A number of 0 is an error that the engine does not have.
inline constexpr ErrorRow kErrorRows[] = {
    {1, PerErrc::kStorageNotFound, "no such storage of this kind"},
    {2, PerErrc::kKeyNotFound, "no such key"},
    {3, PerErrc::kIllegalWriteAccess, "the storage may only be read"},
    {4, PerErrc::kPhysicalStorageFailure, "the disk failed, or the engine is gone"},
    {5, PerErrc::kIntegrityCorrupted, "too few copies agree"},
    {0, PerErrc::kValidationFailed, "the check of a storage failed"},
    {0, PerErrc::kEncryptionFailed, "encryption failed"},
    {7, PerErrc::kDataTypeMismatch, "the value has another type"},
    {8, PerErrc::kInitValueNotAvailable, "there is no initial value"},
    {9, PerErrc::kResourceBusy, "the storage or the file is open"},
    {10, PerErrc::kOutOfStorageSpace, "the storage has no room for this"},
    {11, PerErrc::kFileNotFound, "no such file"},
    {12, PerErrc::kInvalidPosition, "the position is not within the file"},
    {13, PerErrc::kIsEof, "the end of the file is reached"},
    {14, PerErrc::kInvalidOpenMode, "the mode of opening is not allowed"},
    {15, PerErrc::kInvalidSize, "the size is above that of the file"},
    {20, PerErrc::kNotInstalled, "no manifest is installed"},
    {21, PerErrc::kAlreadyInstalled, "a manifest is installed already"},
    {22, PerErrc::kManifestRejected, "the manifest is missing or breaks a rule"},
    {23, PerErrc::kNoPreviousVersion, "there is no previous version"},
    // A failure of the disk in the middle of a sync closes the storage, and nothing else does.
    {24, PerErrc::kPhysicalStorageFailure, "the disk failed, or the engine is gone"},
    {25, PerErrc::kLimitReached, "a limit is reached"},
    {26, PerErrc::kIllegalReadAccess, "the file was opened for writing alone"},
    {27, PerErrc::kUpdateNotFinished, "the update before is not cleaned up"},
    {28, PerErrc::kVersionNotNewer, "the manifest is not newer than the active one"},
    {29, PerErrc::kBadName, "the name has other characters than names may have, or is too long"},
    {30, PerErrc::kNoUpdateInProgress, "there is no update in progress"},
    {31, PerErrc::kExportRejected, "the text is no export of a storage"},
    {0, PerErrc::kNotUtf8, "the text is not UTF-8"},
    {0, PerErrc::kUnexpectedReply, "the engine is of another version"},
    {0, PerErrc::kNotStarted, "no engine was started"},
};

}  // namespace detail

/// What `ErrorCode::ThrowAsException` throws for an error of persistency.
class PerException final : public ara::core::Exception {
 public:
  using Exception::Exception;
};

/// The domain of `PerErrc`.
class PerErrorDomain final : public ara::core::ErrorDomain {
 public:
  using Errc = PerErrc;
  using Exception = PerException;

  constexpr PerErrorDomain() noexcept : ErrorDomain{0x8000'0000'0000'0101} {}

  [[nodiscard]] const char* Name() const noexcept override { return "Per"; }

  [[nodiscard]] const char* Message(CodeType code) const noexcept override {
    for (const detail::ErrorRow& row : detail::kErrorRows) {
      if (static_cast<CodeType>(row.code) == code) return row.message;
    }
    return "no error of persistency";
  }

  void ThrowAsException(const ara::core::ErrorCode& code) const noexcept(false) override {
#ifdef __cpp_exceptions
    throw PerException{code};
#else
    (void)code;
    std::abort();
#endif
  }
};

namespace detail {

inline constexpr PerErrorDomain kPerErrorDomain;

}  // namespace detail

[[nodiscard]] constexpr const ara::core::ErrorDomain& GetPerErrorDomain() noexcept { return detail::kPerErrorDomain; }

[[nodiscard]] constexpr ara::core::ErrorCode MakeErrorCode(PerErrc code,
                                                           ara::core::ErrorDomain::SupportDataType data) noexcept {
  return {static_cast<ara::core::ErrorDomain::CodeType>(code), GetPerErrorDomain(), data};
}

}  // namespace ara::per
