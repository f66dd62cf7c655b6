#!/usr/bin/env bash
# What stands over the proved library: makes it, and runs the tests and examples in C, Rust and
# Python.
#   scripts/bindings.sh [archive | c | rust | python] ..
# Without words it does all four, in this order; with words the archive too, where it is missing. As
# root it installs the Debian packages that are missing. The archive is libdaxurbi.a of the folder
# DAXURBI_LIB_DIR, if that is set; else of crates/daxurbi/out, where `archive` proves and builds it
# (hours, the first time). LDLIBS are further libraries to link.
set -euo pipefail
top=$(cd "$(dirname "$(readlink -f "$0")")/.." && pwd)
export DAXURBI_LIB_DIR=${DAXURBI_LIB_DIR:-$top/crates/daxurbi/out}
archive=$DAXURBI_LIB_DIR/libdaxurbi.a
made=$(mktemp -d)
trap 'rm -rf "$made"' EXIT

say() { echo "bindings: $*"; }

# Installs the packages that are missing.
install() {
  local package missing=()
  for package in "$@"; do
    dpkg-query -W -f '${Status}' "$package" 2>/dev/null | grep -q 'ok installed' ||
      missing+=("$package")
  done
  [ ${#missing[@]} -eq 0 ] && return
  say "installs ${missing[*]}"
  apt-get update -qq
  DEBIAN_FRONTEND=noninteractive \
    apt-get install -y -qq --no-install-recommends "${missing[@]}" >/dev/null
}

# The crates of this repository that one stands on, lowest first, and that one.
crates_below() {
  awk -F: -v top="$1" '
    /^[a-z]/ { split($1, name, " "); below[name[1]] = $2 }
    function visit(crate,  n, dep, at) {
      if (!(crate in below) || crate in seen) return
      seen[crate] = 1
      n = split(below[crate], dep, " ")
      for (at = 1; at <= n; at++) visit(dep[at])
      print crate
    }
    END { visit(top) }
  ' "$top/crates.txt"
}

# Proves and builds the library, and what it stands on; and puts into the archive the toolchain's
# three functions over malloc, realloc and free, from which the library takes its memory.
make_archive() {
  local crate kit
  if [ "$DAXURBI_LIB_DIR" != "$top/crates/daxurbi/out" ]; then
    say "the archive is $archive"
    return
  fi
  for crate in $(crates_below daxurbi); do
    say "proves $crate"
    (cd "$top/crates/$crate" && rt lib) >"$made/log" 2>&1 || { tail -n 20 "$made/log"; return 1; }
  done
  install binutils
  kit=$(dirname "$(dirname "$(readlink -f "$(command -v rt)")")")
  (cd "$made" && ar x "$kit/c/liblibc_c.a" && ar rs "$archive" ./*.o)
  say "made $archive"
}

under_valgrind() {
  valgrind -q --error-exitcode=9 --leak-check=full --errors-for-leak-kinds=all "$1"
}

# Compares what a program in C writes with what it should: as it is, under valgrind, and with the
# sanitizers.
compare_c() {
  local source=$top/bindings/c/$1.c
  gcc "${flags[@]}" -o "$made/plain" "$source" "$archive" ${LDLIBS:-}
  gcc "${flags[@]}" -fsanitize=address,undefined -fno-sanitize-recover=all \
    -o "$made/sanitized" "$source" "$archive" ${LDLIBS:-}
  "$made/plain" | diff "$2" -
  under_valgrind "$made/plain" | diff "$2" -
  "$made/sanitized" | diff "$2" -
}

# The library, each of whose allocations fails once.
starve_c() {
  gcc "${flags[@]}" -Wl,--wrap=malloc -Wl,--wrap=realloc \
    -o "$made/starved" "$top/bindings/c/starved.c" "$archive" ${LDLIBS:-}
  under_valgrind "$made/starved"
}

try_c() {
  local flags=(-std=c11 -Wall -Wextra -Wpedantic -Werror -g -O1)
  install gcc libc6-dev valgrind
  echo 'attached 0' >"$made/first_step.out"
  compare_c first_step "$made/first_step.out"
  compare_c example "$top/bindings/c/example.out"
  starve_c
  say "c: the examples write what they should, also under valgrind and with the address and" \
    "undefined sanitizers, which find nothing"
}

# A cargo of 1.74 or later: the one that is there, or Debian's.
find_cargo() {
  if cargo --version 2>/dev/null | awk '{ split($2, v, "."); exit !(v[1] > 1 || v[2] >= 74) }'; then
    return
  fi
  if apt-cache show cargo-web 2>/dev/null | grep -q .; then
    install cargo-web
  else
    install cargo
  fi
}

# The tests and the documents of the crate.
try_rust() {
  local library link=
  install gcc libc6-dev
  find_cargo
  for library in ${LDLIBS:-}; do link+=" -C link-arg=$library"; done
  export CARGO_TARGET_DIR=${CARGO_TARGET_DIR:-$top/bindings/rust/target}
  export RUSTFLAGS="-D warnings$link" RUSTDOCFLAGS="-D warnings$link"
  (
    cd "$top/bindings/rust"
    cargo test --offline
    cargo doc --offline --no-deps
    cargo run --offline --quiet --example first_commit
    cargo run --offline --quiet --example one_commit
    if cargo clippy --version >/dev/null 2>&1; then cargo clippy --offline --all-targets; fi
  )
  say "rust: the tests pass, and the documents have no warning"
}

# The tests of the Python module.
try_python() {
  install gcc libc6-dev python3
  LDFLAGS=${LDLIBS:-} "$top/bindings/python/build.sh"
  (
    cd "$top/bindings/python"
    /usr/bin/python3 first_commit.py
    /usr/bin/python3 -m unittest -v test_daxurbi
  )
  say "python: the tests pass"
}

[ $# -gt 0 ] || set -- archive c rust python
[ "$1" = archive ] || [ -f "$archive" ] || make_archive
for word in "$@"; do
  case $word in
    archive) make_archive ;;
    c) try_c ;;
    rust) try_rust ;;
    python) try_python ;;
    *)
      say "there is no $word"
      exit 2
      ;;
  esac
done
