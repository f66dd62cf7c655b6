#!/usr/bin/env bash
# Links the proved library into the shared object that daxurbi.py loads: libdaxurbi.a of the folder
# DAXURBI_LIB_DIR, else of the crate daxurbi, where `rt lib` makes it.
set -euo pipefail
here=$(cd "$(dirname "$(readlink -f "$0")")" && pwd)
folder=${DAXURBI_LIB_DIR:-$here/../../crates/daxurbi/out}
${CC:-cc} -shared -o "$here/libdaxurbi.so" \
  -Wl,--whole-archive "$folder/libdaxurbi.a" -Wl,--no-whole-archive ${LDFLAGS:-}
echo "made $here/libdaxurbi.so"
