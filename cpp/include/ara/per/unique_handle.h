#pragma once

#include <memory>
#include <utility>

namespace ara::per {

/// A file that one part of a program has open. It is closed when the handle goes.
template <class T>
class UniqueHandle final {
 public:
  UniqueHandle() noexcept = default;
  explicit UniqueHandle(std::unique_ptr<T> object) noexcept : object_{std::move(object)} {}

  [[nodiscard]] explicit operator bool() const noexcept { return object_ != nullptr; }
  [[nodiscard]] T* operator->() noexcept { return object_.get(); }
  [[nodiscard]] const T* operator->() const noexcept { return object_.get(); }
  [[nodiscard]] T& operator*() noexcept { return *object_; }
  [[nodiscard]] const T& operator*() const noexcept { return *object_; }

 private:
  std::unique_ptr<T> object_;
};

}  // namespace ara::per
