#pragma once

#include <cstdint>
#include <memory>
#include <string>
#include <utility>

#include "ara/core/result.h"
#include "ara/core/string.h"
#include "ara/core/utility.h"
#include "ara/core/vector.h"
#include "ara/per/detail/engine.h"
#include "ara/per/detail/text.h"

namespace ara::per {

/// From where `MovePosition` counts.
enum class Origin : std::uint32_t { kBeginning = 0, kCurrent = 1, kEnd = 2 };

/// An open file, as far as it is read. Positions and sizes are bytes, and a position is from 0 to the size.
///
/// Every call may answer `kPhysicalStorageFailure`. What reads answers `kIllegalReadAccess` where the file was opened
/// for writing alone, and else `kIsEof` where the position is the size, also for 0 bytes.
class ReadAccessor {
 public:
  /// Made by `FileStorage`.
  ReadAccessor(std::shared_ptr<detail::OpenStorage> storage, std::uint32_t handle)
      : storage_{std::move(storage)}, handle_{std::to_string(handle)} {}
  ReadAccessor(const ReadAccessor&) = delete;
  ReadAccessor& operator=(const ReadAccessor&) = delete;
  ~ReadAccessor() { (void)storage_->Ask("close-file", handle_); }

  /// The next byte, which stays the next.
  [[nodiscard]] ara::core::Result<char> PeekChar() const noexcept { return OneByte<char>("peek"); }
  [[nodiscard]] ara::core::Result<ara::core::Byte> PeekByte() const noexcept {
    return OneByte<ara::core::Byte>("peek");
  }

  /// The next byte.
  [[nodiscard]] ara::core::Result<char> GetChar() noexcept { return OneByte<char>("byte"); }
  [[nodiscard]] ara::core::Result<ara::core::Byte> GetByte() noexcept { return OneByte<ara::core::Byte>("byte"); }

  /// All that is left, or the next `count` bytes, or as many as are left.
  [[nodiscard]] ara::core::Result<ara::core::String> ReadText() noexcept { return Rest<ara::core::String>(); }
  [[nodiscard]] ara::core::Result<ara::core::String> ReadText(std::uint64_t count) noexcept {
    return Next<ara::core::String>(count);
  }
  [[nodiscard]] ara::core::Result<ara::core::Vector<ara::core::Byte>> ReadBinary() noexcept {
    return Rest<ara::core::Vector<ara::core::Byte>>();
  }
  [[nodiscard]] ara::core::Result<ara::core::Vector<ara::core::Byte>> ReadBinary(std::uint64_t count) noexcept {
    return Next<ara::core::Vector<ara::core::Byte>>(count);
  }

  /// All before the next `delimiter`, which is passed, or all that is left.
  [[nodiscard]] ara::core::Result<ara::core::String> ReadLine(char delimiter = '\n') noexcept {
    std::string digits;
    detail::PutByte(digits, static_cast<unsigned char>(delimiter));
    return detail::BytesOf<ara::core::String>(storage_->Ask("line", handle_, digits));
  }

  [[nodiscard]] ara::core::Result<std::uint64_t> GetSize() const noexcept {
    return detail::NumberOf(storage_->Ask("handle-size", handle_));
  }
  [[nodiscard]] ara::core::Result<std::uint64_t> GetPosition() const noexcept {
    return detail::NumberOf(storage_->Ask("position", handle_));
  }

  /// # Errors
  /// - `kInvalidPosition`: it is above the size
  [[nodiscard]] ara::core::Result<void> SetPosition(std::uint64_t position) noexcept {
    return detail::Done(storage_->Ask("seek", handle_, std::to_string(position)));
  }

  /// Goes `offset` bytes on from `origin`, and gives the new position.
  ///
  /// # Errors
  /// - `kInvalidPosition`: it would be below 0 or above the size, and stays
  [[nodiscard]] ara::core::Result<std::uint64_t> MovePosition(Origin origin, std::int64_t offset) noexcept {
    const char* const from = origin == Origin::kBeginning ? "begin" : origin == Origin::kCurrent ? "current" : "end";
    return detail::NumberOf(storage_->Ask("move", handle_, from, std::to_string(offset)));
  }

  /// Whether the position is the size.
  [[nodiscard]] ara::core::Result<bool> IsEof() const noexcept { return detail::Truth(storage_->Ask("eof", handle_)); }

 protected:
  [[nodiscard]] detail::OpenStorage& Storage() const noexcept { return *storage_; }
  [[nodiscard]] const std::string& Handle() const noexcept { return handle_; }

 private:
  template <class OneOf>
  [[nodiscard]] ara::core::Result<OneOf> OneByte(const char* word) const {
    const auto byte = detail::ByteOf(storage_->Ask(word, handle_));
    if (!byte) return ara::core::Result<OneOf>::FromError(byte.Error());
    return static_cast<OneOf>(byte.Value());
  }

  template <class Bytes>
  [[nodiscard]] ara::core::Result<Bytes> Rest() {
    return detail::BytesOf<Bytes>(storage_->Ask("read-all", handle_));
  }

  template <class Bytes>
  [[nodiscard]] ara::core::Result<Bytes> Next(std::uint64_t count) {
    return detail::BytesOf<Bytes>(storage_->Ask("read", handle_, std::to_string(count)));
  }

  std::shared_ptr<detail::OpenStorage> storage_;
  std::string handle_;
};

}  // namespace ara::per
