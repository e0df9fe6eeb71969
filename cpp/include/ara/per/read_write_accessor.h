#pragma once

#include <algorithm>
#include <cstddef>
#include <cstdint>
#include <memory>
#include <optional>
#include <string>
#include <string_view>
#include <utility>

#include "ara/core/result.h"
#include "ara/core/span.h"
#include "ara/core/string_view.h"
#include "ara/core/utility.h"
#include "ara/per/detail/engine.h"
#include "ara/per/detail/text.h"
#include "ara/per/read_accessor.h"

namespace ara::per {

/// An open file that is written, and read where it was opened for both. What is written is seen at once, and durable
/// once the file is synchronised or its storage is closed.
class ReadWriteAccessor final : public ReadAccessor {
 public:
  /// Made by `FileStorage`.
  ReadWriteAccessor(std::shared_ptr<detail::OpenStorage> storage, std::uint32_t handle, bool isAppending)
      : ReadAccessor{std::move(storage), handle}, isAppending_{isAppending} {}

  /// Makes the whole storage durable in every copy, this file among it: more than the standard asks.
  ///
  /// # Errors
  /// - the first refusal of a piece of `<<` since the last call, and nothing is then synchronised
  /// - `kPhysicalStorageFailure`: it may be durable or not, as a whole, and all handles of the storage are of no more
  ///   use
  [[nodiscard]] ara::core::Result<void> SyncToFile() noexcept {
    if (const auto refused = std::exchange(refused_, std::nullopt)) {
      return ara::core::Result<void>::FromError(*refused);
    }
    return detail::Done(Storage().Ask("flush", Handle()));
  }

  /// Cuts the file to `size` bytes. A position beyond becomes the new size.
  ///
  /// # Errors
  /// - `kInvalidSize`: it is above the size
  [[nodiscard]] ara::core::Result<void> SetFileSize(std::uint64_t size) noexcept {
    return detail::Done(Storage().AskNow("set-size", Handle(), std::to_string(size)));
  }

  /// Writes over what is at the position and extends the file, or with `OpenMode::kAppend` writes at its end. The
  /// position is then after what was written. Where the call is refused, content and position stay as they were.
  ///
  /// # Errors
  /// - `kLimitReached`: the file would have more than 1,048,576 bytes
  /// - `kOutOfStorageSpace`: the storage would have more bytes than the manifest allows
  [[nodiscard]] ara::core::Result<void> WriteText(ara::core::StringView text) noexcept {
    return Write(detail::AsText(text));
  }
  [[nodiscard]] ara::core::Result<void> WriteBinary(ara::core::Span<const ara::core::Byte> bytes) noexcept {
    return Write({reinterpret_cast<const char*>(bytes.data()), bytes.size()});
  }

  /// As `WriteText`. The first piece that is refused, and each one after it, is not written; `SyncToFile` answers why.
  ReadWriteAccessor& operator<<(ara::core::StringView text) noexcept {
    if (refused_) return *this;
    const ara::core::Result<void> done = WriteText(text);
    if (!done) refused_ = done.Error();
    return *this;
  }

 private:
  /// How many bytes go on a line of the engine, two digits each, beside the longest name.
  static constexpr std::size_t kPiece = 65'536;

  [[nodiscard]] ara::core::Result<void> Write(std::string_view bytes) {
    if (bytes.size() <= kPiece) return detail::Done(Storage().AskNow("write", Handle(), HexOf(bytes)));
    detail::Engine::Turn turn = Storage().TakeTurn();
    return WriteInPieces(turn, bytes);
  }

  /// What extends the file comes first: if a piece of it is refused the file is cut again, and the rest never is.
  [[nodiscard]] ara::core::Result<void> WriteInPieces(detail::Engine::Turn& turn, std::string_view bytes) {
    const auto size = detail::NumberOf(Ask(turn, "handle-size"));
    if (!size) return ara::core::Result<void>::FromError(size.Error());
    const auto position = detail::NumberOf(Ask(turn, "position"));
    if (!position) return ara::core::Result<void>::FromError(position.Error());
    const std::uint64_t begin = isAppending_ ? size.Value() : position.Value();
    const auto over = static_cast<std::size_t>(std::min<std::uint64_t>(bytes.size(), size.Value() - begin));

    ara::core::Result<void> done = WriteAt(turn, size.Value(), bytes.substr(over));
    if (!done) {
      const detail::RefusalWords refusal = detail::Refusal();
      (void)Ask(turn, "set-size", std::to_string(size.Value()));
      (void)Ask(turn, "seek", std::to_string(position.Value()));
      detail::Refusal() = refusal;
      return done;
    }
    if (over == 0) return done;
    done = WriteAt(turn, begin, bytes.substr(0, over));
    if (!done) return done;
    return detail::Done(Ask(turn, "seek", std::to_string(begin + bytes.size())));
  }

  [[nodiscard]] ara::core::Result<void> WriteAt(detail::Engine::Turn& turn, std::uint64_t position,
                                                std::string_view bytes) {
    ara::core::Result<void> done = detail::Done(Ask(turn, "seek", std::to_string(position)));
    for (; done && !bytes.empty(); bytes.remove_prefix(std::min(kPiece, bytes.size()))) {
      done = detail::Done(Ask(turn, "write", HexOf(bytes.substr(0, kPiece))));
    }
    return done;
  }

  template <class... Words>
  [[nodiscard]] ara::core::Result<std::string> Ask(detail::Engine::Turn& turn, const char* word,
                                                   const Words&... words) {
    return Storage().AskNowIn(turn, word, Handle(), words...);
  }

  [[nodiscard]] static std::string HexOf(std::string_view bytes) {
    std::string digits;
    detail::PutHex(digits, bytes.data(), bytes.size());
    return digits;
  }

  bool isAppending_;
  std::optional<ara::core::ErrorCode> refused_;
};

}  // namespace ara::per
