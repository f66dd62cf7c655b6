#!/usr/bin/env bash
# Serves a real AMQP 1.0 client: each run of examples/proton_broker/real_client.py, on the loopback,
# after the tests of the broker's queues.
#   scripts/real_client.sh [NAME ..]
# Without names it makes all runs, and writes the frames on the wire of `commit` to a file that it
# names. As root it installs the Debian packages that are missing. The archive is that of
# scripts/bindings.sh, which makes it.
set -euo pipefail
top=$(cd "$(dirname "$(readlink -f "$0")")/.." && pwd)

missing=()
for package in gcc libc6-dev python3 python3-qpid-proton; do
  dpkg-query -W -f '${Status}' "$package" 2>/dev/null | grep -q 'ok installed' ||
    missing+=("$package")
done
if [ ${#missing[@]} -gt 0 ]; then
  apt-get update -qq
  DEBIAN_FRONTEND=noninteractive \
    apt-get install -y -qq --no-install-recommends "${missing[@]}" >/dev/null
fi

archive=${DAXURBI_LIB_DIR:-$top/crates/daxurbi/out}/libdaxurbi.a
[ -f "$archive" ] || "$top/scripts/bindings.sh" archive
LDFLAGS=${LDLIBS:-} "$top/bindings/python/build.sh"
(cd "$top/examples/proton_broker" && /usr/bin/python3 -m unittest -q test_queues)
trace=$(mktemp /tmp/daxurbi-trace.XXXXXX)
timeout 300 /usr/bin/python3 "$top/examples/proton_broker/real_client.py" --trace "$trace" "$@"
echo "the frames on the wire of commit, if it was run: $trace"
