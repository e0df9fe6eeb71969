/// A stand-in for the platform's header of the same name; a platform's own comes first where its directory does.
#pragma once

#include <cstdint>

namespace ara::core {

class ErrorCode;

/// A set of error codes that belong together, with their texts. There is one object of each domain.
class ErrorDomain {
 public:
  using IdType = std::uint64_t;
  using CodeType = std::int32_t;
  using SupportDataType = std::int32_t;

  ErrorDomain(const ErrorDomain&) = delete;
  ErrorDomain& operator=(const ErrorDomain&) = delete;

  [[nodiscard]] constexpr IdType Id() const noexcept { return id_; }
  [[nodiscard]] constexpr bool operator==(const ErrorDomain& other) const noexcept { return id_ == other.id_; }
  [[nodiscard]] constexpr bool operator!=(const ErrorDomain& other) const noexcept { return id_ != other.id_; }

  [[nodiscard]] virtual const char* Name() const noexcept = 0;
  [[nodiscard]] virtual const char* Message(CodeType code) const noexcept = 0;

  /// Throws the domain's exception; ends the program where it is built without exceptions.
  virtual void ThrowAsException(const ErrorCode& code) const noexcept(false) = 0;

 protected:
  explicit constexpr ErrorDomain(IdType id) noexcept : id_{id} {}
  ~ErrorDomain() = default;

 private:
  IdType id_;
};

}  // namespace ara::core
