/// The engine's replies.
#pragma once

#include <cstddef>
#include <cstdint>
#include <cstring>
#include <string>
#include <string_view>
#include <utility>
#include <vector>

#include "ara/core/instance_specifier.h"
#include "ara/core/result.h"
#include "ara/core/string.h"
#include "ara/core/vector.h"
#include "ara/per/detail/text.h"
#include "ara/per/per_error_domain.h"
#include "ara/per/recovery.h"

namespace ara::per::detail {

template <class T>
using Result = ara::core::Result<T>;

/// The engine's number of a call on a storage that is not open.
inline constexpr int kNotOpen = 24;

/// Why a call was refused, in words, cut to what there is room for. There is nothing to destroy in it, so that a handle
/// may go when the variables of its thread have gone.
class RefusalWords final {
 public:
  RefusalWords& operator=(std::string_view words) noexcept {
    size_ = words.copy(text_, sizeof text_);
    return *this;
  }

  [[nodiscard]] std::string_view Text() const noexcept { return {text_, size_}; }

 private:
  std::size_t size_{0};
  char text_[1'000]{};
};

/// The words of the last refusal on this thread.
[[nodiscard]] inline RefusalWords& Refusal() noexcept {
  static thread_local RefusalWords words;
  return words;
}

/// An error that the engine did not answer itself.
[[nodiscard]] inline ara::core::ErrorCode Refused(PerErrc code, std::string_view why) {
  Refusal() = why;
  return MakeErrorCode(code, 0);
}

[[nodiscard]] inline ara::core::ErrorCode Unexpected(std::string_view answer) {
  return Refused(PerErrc::kUnexpectedReply, answer);
}

/// The error of a line `error N NAME ..`.
[[nodiscard]] inline ara::core::ErrorCode ErrorOf(std::string_view answer) {
  Cursor in{answer};
  int number = 0;
  if (!in.Take("error ") || !in.TakeNumber(number) || number == 0) return Unexpected(answer);
  for (const ErrorRow& row : kErrorRows) {
    if (row.engine == number) {
      Refusal() = answer;
      return MakeErrorCode(row.code, number);
    }
  }
  return Unexpected(answer);
}

/// One report of an opening.
struct Report {
  RecoveryReportKind kind{};
  std::string storage;
  std::string element;  // empty where it is the storage itself
  std::vector<std::uint8_t> copies;
};

/// Reads a line `report KIND UNIT COPIES`; false where it has another form.
[[nodiscard]] inline bool ReadReport(std::string_view line, Report& report) {
  constexpr std::pair<std::string_view, RecoveryReportKind> kinds[] = {
      {"kvs-failed", RecoveryReportKind::kKeyValueStorageRecoveryFailed},
      {"kvs-recovered", RecoveryReportKind::kKeyValueStorageRecovered},
      {"key-failed", RecoveryReportKind::kKeyRecoveryFailed},
      {"key-recovered", RecoveryReportKind::kKeyRecovered},
      {"files-failed", RecoveryReportKind::kFileStorageRecoveryFailed},
      {"files-recovered", RecoveryReportKind::kFileStorageRecovered},
      {"file-failed", RecoveryReportKind::kFileRecoveryFailed},
      {"file-recovered", RecoveryReportKind::kFileRecovered},
  };
  Cursor in{line};
  if (!in.Take("report ")) return false;
  const std::string_view word = in.TakeUntil(' ');
  bool isKnown = false;
  for (const auto& [name, kind] : kinds) {
    if (name != word) continue;
    report.kind = kind;
    isKnown = true;
  }
  if (!isKnown || !in.Take(" ")) return false;
  Cursor unit{in.TakeUntil(' ')};
  report.storage = unit.TakeUntil(':');
  if (unit.Take(":")) report.element = unit.TakeUntil('\0');
  if (!in.Take(" ")) return false;
  if (in.Take("-")) return in.IsAtEnd();
  do {
    std::uint8_t copy{};
    if (!in.TakeNumber(copy)) return false;
    report.copies.push_back(copy);
  } while (in.Take(","));
  return in.IsAtEnd();
}

/// Hands the reports to the program. No lock is held, so that it may call the library.
inline void Deliver(const std::vector<Report>& reports) {
  if (reports.empty()) return;
  const RecoveryReportCallback listener = RecoveryListener().Get();
  if (!listener) return;
  for (const Report& report : reports) {
    ara::core::Vector<ara::core::String> elements;
    if (!report.element.empty()) {
      elements.push_back(ara::core::String(report.element.data(), report.element.size()));
    }
    ara::core::Vector<std::uint8_t> copies(report.copies.begin(), report.copies.end());
    const ara::core::StringView storage{report.storage.data(), report.storage.size()};
    listener(ara::core::InstanceSpecifier{storage}, report.kind, std::move(elements), std::move(copies));
  }
}

// ---- answers: each reads the one form that a call has

[[nodiscard]] inline Result<void> Done(const Result<std::string>& answer) {
  if (!answer) return Result<void>::FromError(answer.Error());
  if (answer.Value() != "ok") return Result<void>::FromError(Unexpected(answer.Value()));
  return {};
}

[[nodiscard]] inline Result<bool> Truth(const Result<std::string>& answer) {
  if (!answer) return Result<bool>::FromError(answer.Error());
  if (answer.Value() == "yes") return true;
  if (answer.Value() == "no") return false;
  return Result<bool>::FromError(Unexpected(answer.Value()));
}

/// The number after a word.
template <class Number>
[[nodiscard]] Result<Number> NumberBehind(std::string_view word, const Result<std::string>& answer) {
  if (!answer) return Result<Number>::FromError(answer.Error());
  Cursor in{answer.Value()};
  Number number{};
  if (!in.Take(word) || !in.TakeNumber(number) || !in.IsAtEnd()) {
    return Result<Number>::FromError(Unexpected(answer.Value()));
  }
  return number;
}

[[nodiscard]] inline Result<std::uint64_t> NumberOf(const Result<std::string>& answer) {
  return NumberBehind<std::uint64_t>("number ", answer);
}

[[nodiscard]] inline Result<unsigned char> ByteOf(const Result<std::string>& answer) {
  if (!answer) return Result<unsigned char>::FromError(answer.Error());
  Cursor in{answer.Value()};
  unsigned char byte{};
  if (!in.Take("byte ") || !in.TakeByte(byte) || !in.IsAtEnd()) {
    return Result<unsigned char>::FromError(Unexpected(answer.Value()));
  }
  return byte;
}

/// Bytes, as a text or as a vector of bytes.
template <class Bytes>
[[nodiscard]] Result<Bytes> BytesOf(const Result<std::string>& answer) {
  if (!answer) return Result<Bytes>::FromError(answer.Error());
  Cursor in{answer.Value()};
  if (!in.Take("bytes")) return Result<Bytes>::FromError(Unexpected(answer.Value()));
  Bytes bytes;
  if (!in.IsAtEnd()) {
    if (!in.Take(" ")) return Result<Bytes>::FromError(Unexpected(answer.Value()));
    bytes.resize(in.BytesAhead());
    for (auto& item : bytes) {
      unsigned char byte{};
      if (!in.TakeByte(byte)) return Result<Bytes>::FromError(Unexpected(answer.Value()));
      std::memcpy(&item, &byte, 1);
    }
    if (!in.IsAtEnd()) return Result<Bytes>::FromError(Unexpected(answer.Value()));
  }
  return bytes;
}

[[nodiscard]] inline Result<ara::core::Vector<ara::core::String>> NamesOf(const Result<std::string>& answer) {
  using Names = ara::core::Vector<ara::core::String>;
  if (!answer) return Result<Names>::FromError(answer.Error());
  Cursor in{answer.Value()};
  if (!in.Take("names")) return Result<Names>::FromError(Unexpected(answer.Value()));
  Names names;
  while (in.Take(" ")) {
    const std::string_view name = in.TakeUntil(' ');
    names.push_back(ara::core::String(name.data(), name.size()));
  }
  if (!in.IsAtEnd()) return Result<Names>::FromError(Unexpected(answer.Value()));
  return names;
}

}  // namespace ara::per::detail
