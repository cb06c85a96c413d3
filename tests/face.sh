#!/usr/bin/env bash
# The exports from C: the archive is built, the header compiles as C99 and as C++ without a warning, and two ends agree a key through it.
set -u
cd "$(dirname "$0")/.." || exit 2
. tests/counts

header() { "$@" -Wall -Wextra -pedantic -Werror -fsyntax-only -Iinclude -include ringline.h /dev/null; }
agreed() { tests/link agree && tests/program agree | diff - tests/face/agree.out; }

holds 'the archive is built' tests/archive face
holds 'the header is C99' header gcc -std=c99 -x c
holds 'the header is C++98' header g++ -std=c++98 -x c++
holds 'the header is C++17' header g++ -std=c++17 -x c++
holds 'a key is agreed in C' agreed
counted
