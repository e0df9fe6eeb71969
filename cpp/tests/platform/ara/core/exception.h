/// A platform in the small, to build the tests with: nothing in it is more than the standard asks.
#pragma once

#include <exception>

#include "ara/core/error_code.h"

namespace ara::core {

class Exception : public std::exception {
 public:
  explicit Exception(ErrorCode code) noexcept : code_{code} {}
  const ErrorCode& Error() const noexcept { return code_; }
  const char* what() const noexcept override { return code_.Domain().Message(code_.Value()); }

 private:
  ErrorCode code_;
};

}  // namespace ara::core
