#pragma once

#include <memory>
#include <utility>

namespace ara::per {

/// A storage that several parts of a program use. It is closed when the last handle to it goes.
template <class T>
class SharedHandle final {
 public:
  SharedHandle() noexcept = default;
  explicit SharedHandle(std::shared_ptr<T> object) noexcept : object_{std::move(object)} {}

  [[nodiscard]] explicit operator bool() const noexcept { return object_ != nullptr; }
  [[nodiscard]] T* operator->() const noexcept { return object_.get(); }
  [[nodiscard]] T& operator*() const noexcept { return *object_; }

 private:
  std::shared_ptr<T> object_;
};

}  // namespace ara::per
