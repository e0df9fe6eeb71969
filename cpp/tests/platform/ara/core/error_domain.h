/// A platform in the small, to build the tests with: nothing in it is more than the standard asks.
#pragma once

#include <cstdint>

namespace ara::core {

class ErrorCode;

class ErrorDomain {
 public:
  using IdType = std::uint64_t;
  using CodeType = std::int32_t;
  using SupportDataType = std::int32_t;

  ErrorDomain(const ErrorDomain&) = delete;
  ErrorDomain& operator=(const ErrorDomain&) = delete;

  constexpr bool operator==(const ErrorDomain& other) const noexcept { return id_ == other.id_; }
  constexpr IdType Id() const noexcept { return id_; }
  virtual const char* Name() const noexcept = 0;
  virtual const char* Message(CodeType code) const noexcept = 0;
  virtual void ThrowAsException(const ErrorCode& code) const noexcept(false) = 0;

 protected:
  explicit constexpr ErrorDomain(IdType id) noexcept : id_{id} {}
  ~ErrorDomain() noexcept = default;

 private:
  IdType id_;
};

}  // namespace ara::core
