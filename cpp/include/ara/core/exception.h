/// A stand-in for the platform's header of the same name; a platform's own comes first where its directory does.
#pragma once

#include <exception>

#include "ara/core/error_code.h"

namespace ara::core {

/// What `ErrorCode::ThrowAsException` throws.
class Exception : public std::exception {
 public:
  explicit Exception(ErrorCode code) noexcept : code_{code} {}
  [[nodiscard]] const ErrorCode& Error() const noexcept { return code_; }
  [[nodiscard]] const char* what() const noexcept override { return code_.Domain().Message(code_.Value()); }

 private:
  ErrorCode code_;
};

}  // namespace ara::core
