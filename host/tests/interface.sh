#!/bin/sh
# Compiles the C tests of the interface against the engine's archive and runs them. Where there is a C++ compiler, the
# header must serve C++ too.
set -e
cd "$(dirname "$0")/../.."
mkdir -p target/interface
for test in interface stack; do
    cc -std=c11 -O2 -Wall -Wextra -Werror -pedantic -I host/include "host/tests/$test.c" target/staticlib/libabi.a \
        -o "target/interface/$test"
    "target/interface/$test"
done
if command -v c++ > /dev/null; then
    printf '#include "codwalet.h"\nint main() { return codwalet_version() != CODWALET_VERSION; }\n' > target/interface/version.cpp
    c++ -std=c++17 -Wall -Wextra -Werror -pedantic -I host/include target/interface/version.cpp target/staticlib/libabi.a \
        -o target/interface/version
    target/interface/version
fi
