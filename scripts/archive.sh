# archive.sh, for bash scripts to source from the repository's root: the archive of the proved library, and programs over it in C and C++.
# The archive is for x86-64: elsewhere programs are linked whole.
# shellcheck shell=bash
command -v rt >/dev/null || {
    echo "Rattle's kit is missing: put its command rt on the PATH" >&2
    exit 2
}
if [ "$(uname -m)" = x86_64 ]; then
    c=(cc) c_packages="gcc and libc6-dev" cxx=(g++) cxx_packages="g++"
else
    c=(x86_64-linux-gnu-gcc -static) c_packages="gcc-x86-64-linux-gnu and libc6-dev-amd64-cross"
    cxx=(x86_64-linux-gnu-g++ -static) cxx_packages="g++-x86-64-linux-gnu"
fi
c+=(-Wall -Wextra -Werror -std=c11 -O2 -I include)
cxx+=(-Wall -Wextra -Werror -std=c++17 -O2 -I include)

need_c() {
    echo '#include <stdio.h>' | "${c[@]}" -E - >/dev/null 2>&1 || {
        echo "a C compiler for x86-64 is missing: install Debian's packages $c_packages" >&2
        exit 2
    }
}

need_cxx() {
    echo '#include <cstdio>' | "${cxx[@]}" -x c++ -E - >/dev/null 2>&1 || {
        echo "a C++ compiler for x86-64 is missing: install Debian's package $cxx_packages" >&2
        exit 2
    }
}

# Proves the library, writes the archive, and makes the folder for programs over it.
build_archive() {
    scripts/prove sulmirejo
    mkdir -p target/c
}

compile_c() { # PROGRAM SOURCE.., further words for the compiler may stand among the sources
    "${c[@]}" -o "$1" "${@:2}" target/staticlib/libsulmirejo.a
}

compile_cxx() { # PROGRAM SOURCE
    "${cxx[@]}" -o "$1" -x c++ "$2" -x none target/staticlib/libsulmirejo.a
}
