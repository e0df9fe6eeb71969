#pragma once

#include <cstdint>
#include <memory>
#include <string>
#include <utility>

#include "ara/core/instance_specifier.h"
#include "ara/core/result.h"
#include "ara/core/string.h"
#include "ara/core/string_view.h"
#include "ara/core/vector.h"
#include "ara/per/describe.h"
#include "ara/per/detail/engine.h"
#include "ara/per/detail/value.h"
#include "ara/per/shared_handle.h"

namespace ara::per {

/// An open storage of keys, each with a value of one type. Any number of threads may use it.
///
/// What is set, removed, recovered and reset is seen at once and pending until `SyncToStorage`; a stop of the machine
/// or of the process loses what is pending and nothing else. When the last handle goes, what is pending is dropped.
///
/// A key has 1 to 255 of letters, digits, `_`, `-`, `.` and `/`. A storage has at most 1,024 keys, and a value at most
/// 65,536 bytes.
///
/// Every call may answer `kPhysicalStorageFailure`. After one from `SyncToStorage` the handle is of no more use: let it
/// go and open the storage again.
class KeyValueStorage final {
 public:
  /// Made by `OpenKeyValueStorage`.
  explicit KeyValueStorage(std::shared_ptr<detail::OpenStorage> storage) noexcept : storage_{std::move(storage)} {}
  KeyValueStorage(const KeyValueStorage&) = delete;
  KeyValueStorage& operator=(const KeyValueStorage&) = delete;
  ~KeyValueStorage() = default;

  /// The names of all keys, in the order of their bytes.
  [[nodiscard]] ara::core::Result<ara::core::Vector<ara::core::String>> GetAllKeys() const noexcept {
    return detail::NamesOf(storage_->Ask("keys"));
  }

  /// Whether there is this key. A key that cannot be read is there.
  [[nodiscard]] ara::core::Result<bool> KeyExists(ara::core::StringView key) const noexcept {
    if (!detail::IsName(detail::AsText(key))) return false;
    return detail::Truth(storage_->Ask("exists", detail::AsText(key)));
  }

  /// The value of a key.
  ///
  /// # Errors
  /// - `kKeyNotFound`
  /// - `kDataTypeMismatch`: the value has another type than `T`, or does not fit it (the length of an array)
  /// - `kIntegrityCorrupted`: too few copies agree; `RecoverKey` and `ResetKey` are ways out
  /// - `kBadName`
  template <class T>
  [[nodiscard]] ara::core::Result<T> GetValue(ara::core::StringView key) const noexcept {
    T value{};
    const ara::core::Result<void> done = Read(key, value);
    if (!done) return ara::core::Result<T>::FromError(done.Error());
    return value;
  }

  /// The same into `value`, which stays as it is where the call is refused.
  template <class T>
  [[nodiscard]] ara::core::Result<void> GetValue(ara::core::StringView key, T& value) const noexcept {
    T read{};
    ara::core::Result<void> done = Read(key, read);
    if (done) value = std::move(read);
    return done;
  }

  /// Sets a key, which is made where it is not there. Where the call is refused nothing is changed.
  ///
  /// # Errors
  /// - `kIllegalWriteAccess`: the storage may only be read
  /// - `kDataTypeMismatch`: the manifest says another type of this key or, where it does not name the key, its value
  ///   has another type
  /// - `kOutOfStorageSpace`: names and values would have more bytes than the manifest allows
  /// - `kLimitReached`: there are 1,024 keys, or the value has more than 65,536 bytes or a text that does not go on one
  ///   line of the engine (262,144 bytes, which is less only for long lists of small numbers)
  /// - `kNotUtf8`: a text is not UTF-8
  /// - `kBadName`
  template <class T>
  [[nodiscard]] ara::core::Result<void> SetValue(ara::core::StringView key, const T& value) noexcept {
    using Done = ara::core::Result<void>;
    static_assert(detail::Codec<T>::kDepth <= detail::kMaxDepth, "this type nests more than 8 levels deep");
    if (!detail::IsName(detail::AsText(key))) return Done::FromError(BadName());
    if (detail::EncodedSize(value) > detail::kMaxValueSize) {
      return Done::FromError(detail::Refused(PerErrc::kLimitReached, "the value has more than 65,536 bytes"));
    }
    std::string text;
    if (!detail::Codec<T>::Put(text, value)) {
      return Done::FromError(detail::Refused(PerErrc::kNotUtf8, "a text is not UTF-8"));
    }
    return detail::Done(storage_->Ask("set", detail::AsText(key), text));
  }

  /// Removes a key.
  ///
  /// # Errors
  /// - `kIllegalWriteAccess`, `kKeyNotFound`, `kBadName`
  [[nodiscard]] ara::core::Result<void> RemoveKey(ara::core::StringView key) noexcept { return Change("remove", key); }

  /// Removes all keys.
  ///
  /// # Errors
  /// - `kIllegalWriteAccess`
  [[nodiscard]] ara::core::Result<void> RemoveAllKeys() noexcept { return detail::Done(storage_->Ask("remove-all")); }

  /// Gives a key that cannot be read the value of one copy, else its initial value, else removes it. One that can be
  /// read stays as it is.
  ///
  /// # Errors
  /// - `kIllegalWriteAccess`, `kKeyNotFound`, `kBadName`
  /// - `kOutOfStorageSpace`
  [[nodiscard]] ara::core::Result<void> RecoverKey(ara::core::StringView key) noexcept {
    return Change("recover-key", key);
  }

  /// Gives a key its initial value.
  ///
  /// # Errors
  /// - `kIllegalWriteAccess`, `kBadName`
  /// - `kInitValueNotAvailable`: the manifest has none
  /// - `kLimitReached`: there are 1,024 keys
  /// - `kOutOfStorageSpace`
  [[nodiscard]] ara::core::Result<void> ResetKey(ara::core::StringView key) noexcept {
    return Change("reset-key", key);
  }

  /// Makes all that is pending durable in every copy, as a whole. Where nothing changed nothing is written.
  ///
  /// # Errors
  /// - `kPhysicalStorageFailure`: it may be durable or not, as a whole, and the handle is of no more use
  [[nodiscard]] ara::core::Result<void> SyncToStorage() noexcept { return detail::Done(storage_->Ask("sync")); }

  /// Drops all that is pending.
  [[nodiscard]] ara::core::Result<void> DiscardPendingChanges() noexcept {
    return detail::Done(storage_->Ask("discard"));
  }

 private:
  [[nodiscard]] static ara::core::ErrorCode BadName() {
    return detail::Refused(PerErrc::kBadName, "no key can have this name");
  }

  [[nodiscard]] ara::core::Result<void> Change(const char* call, ara::core::StringView key) {
    if (!detail::IsName(detail::AsText(key))) return ara::core::Result<void>::FromError(BadName());
    return detail::Done(storage_->Ask(call, detail::AsText(key)));
  }

  template <class T>
  [[nodiscard]] ara::core::Result<void> Read(ara::core::StringView key, T& value) const {
    using Done = ara::core::Result<void>;
    if (!detail::IsName(detail::AsText(key))) return Done::FromError(BadName());
    const auto answer = storage_->Ask("get-as", detail::AsText(key), detail::TypeText<T>());
    if (!answer) return Done::FromError(answer.Error());
    detail::Cursor in{answer.Value()};
    if (!in.Take("value ")) return Done::FromError(detail::Unexpected(answer.Value()));
    if (!detail::Codec<T>::Get(in, value) || !in.IsAtEnd()) {
      return Done::FromError(detail::Refused(PerErrc::kDataTypeMismatch, "the value does not fit the type"));
    }
    return {};
  }

  std::shared_ptr<detail::OpenStorage> storage_;
};

/// Opens a storage of keys; one that is open in this process already is shared. Copies that were damaged are mended,
/// and reported (`RegisterRecoveryReportCallback`). The first opening installs or updates (`UpdatePersistency`).
///
/// # Errors
/// - `kStorageNotFound`: the manifest has no storage of keys of this name
/// - `kIntegrityCorrupted`: too few copies agree; `RecoverKeyValueStorage` and `ResetKeyValueStorage` are ways out
/// - `kNotInstalled`: nothing is installed, and there is no manifest
/// - those of `UpdatePersistency`
[[nodiscard]] inline ara::core::Result<SharedHandle<KeyValueStorage>> OpenKeyValueStorage(
    const ara::core::InstanceSpecifier& kvs) noexcept {
  using Handle = SharedHandle<KeyValueStorage>;
  return detail::WithStorage<Handle>(
      kvs, [](const std::shared_ptr<detail::Engine>& engine, const std::string& name) -> ara::core::Result<Handle> {
        auto opened = detail::Engine::Open(engine, name, detail::StorageKind::kKeys);
        if (!opened) return ara::core::Result<Handle>::FromError(opened.Error());
        return Handle{std::make_shared<KeyValueStorage>(std::move(opened).Value())};
      });
}

/// Makes a storage that cannot be opened, or of which keys cannot be read, good again: with what one copy has of each
/// key, else its initial value, else without it. It is durable at once.
///
/// # Errors
/// - `kStorageNotFound`
/// - `kResourceBusy`: the storage is open
/// - `kOutOfStorageSpace`
/// - those of `UpdatePersistency`
[[nodiscard]] inline ara::core::Result<void> RecoverKeyValueStorage(const ara::core::InstanceSpecifier& kvs) noexcept {
  return detail::WithStorage<void>(kvs, [](const auto& engine, const std::string& name) {
    return engine->Renew("recover-storage", name, detail::StorageKind::kKeys);
  });
}

/// Gives a storage the initial values of its keys, and no other key. It is durable at once.
///
/// # Errors
/// - `kStorageNotFound`
/// - `kResourceBusy`: the storage is open
/// - those of `UpdatePersistency`
[[nodiscard]] inline ara::core::Result<void> ResetKeyValueStorage(const ara::core::InstanceSpecifier& kvs) noexcept {
  return detail::WithStorage<void>(kvs, [](const auto& engine, const std::string& name) {
    return engine->Renew("reset-storage", name, detail::StorageKind::kKeys);
  });
}

/// The bytes of the names and values of a storage, with what is pending where it is open. Copies do not count.
///
/// # Errors
/// - those of `OpenKeyValueStorage`
[[nodiscard]] inline ara::core::Result<std::uint64_t> GetCurrentKeyValueStorageSize(
    const ara::core::InstanceSpecifier& kvs) noexcept {
  return detail::WithStorage<std::uint64_t>(kvs, [](const auto& engine, const std::string& name) {
    return engine->SizeOf(name, detail::StorageKind::kKeys);
  });
}

}  // namespace ara::per
