#pragma once

#include <cstdint>
#include <functional>
#include <mutex>
#include <utility>

#include "ara/core/instance_specifier.h"
#include "ara/core/string.h"
#include "ara/core/vector.h"

namespace ara::per {

/// What an opening found of damage. *Recovered*: enough copies agreed, and the others are mended. *Failed*: too few
/// agreed, and the storage or element is answered `kIntegrityCorrupted` until it is recovered or reset.
enum class RecoveryReportKind : std::uint32_t {
  kKeyValueStorageRecoveryFailed,
  kKeyValueStorageRecovered,
  kKeyRecoveryFailed,
  kKeyRecovered,
  kFileStorageRecoveryFailed,
  kFileStorageRecovered,
  kFileRecoveryFailed,
  kFileRecovered,
};

/// Takes a report: of which storage, what was found, of which elements (none where it is the storage itself), and in
/// which copies, counted from 1.
using RecoveryReportCallback =
    std::function<void(const ara::core::InstanceSpecifier& storage, RecoveryReportKind kind,
                       ara::core::Vector<ara::core::String> elements, ara::core::Vector<std::uint8_t> copies)>;

namespace detail {

/// What a program wants to be told, of any engine. It is called without a lock, so it may call the library.
template <class Callback>
class Listener final {
 public:
  void Set(Callback callback) {
    const std::lock_guard<std::mutex> held{lock_};
    callback_ = std::move(callback);
  }

  [[nodiscard]] Callback Get() const {
    const std::lock_guard<std::mutex> held{lock_};
    return callback_;
  }

 private:
  mutable std::mutex lock_;
  Callback callback_;
};

inline Listener<RecoveryReportCallback>& RecoveryListener() noexcept {
  static Listener<RecoveryReportCallback> listener;
  return listener;
}

}  // namespace detail

/// From now on each report of an opening goes to `callback`, one call for each storage or element that was damaged, on
/// the thread that opens and before its call returns. An empty function ends it. It must not throw.
inline void RegisterRecoveryReportCallback(RecoveryReportCallback callback) noexcept {
  detail::RecoveryListener().Set(std::move(callback));
}

}  // namespace ara::per
