#!/bin/bash
# Builds the oracle from a folder of the sources of netlink-packet-route 0.33.0 (the one that has src/).
# Usage: oracle/build.sh SOURCES [OUT [UTILS]]   The program is OUT/oracle; OUT is target/oracle if not given.
# With UTILS, a folder of the sources of netlink-packet-utils 0.5.1, the walk, the readers, the default attribute and
# the writer are taken from there and not from our stand-ins. CHECKS=off builds without overflow checks.
set -e
here="$(cd "$(dirname "${BASH_SOURCE[0]}")" && pwd)"
[ -d "$1/src" ] || { echo "usage: $0 SOURCES [OUT [UTILS]]   (SOURCES is the folder that has src/)" >&2; exit 2; }
ORIGINAL="$(cd "$1" && pwd)"
export ORIGINAL
mkdir -p "${2:-$here/../target/oracle}"
out="$(cd "${2:-$here/../target/oracle}" && pwd)"

# The figures in docs/ORACLE.md were seen with files of these sums (newlines at the end not counted).
while read -r sum file; do
  seen="$(printf %s "$(cat "$ORIGINAL/$file")" | sha256sum | cut -d' ' -f1)"
  [ "$seen" = "$sum" ] || echo "note: $file differs from the file that docs/ORACLE.md speaks of" >&2
done < "$here/originals.sha256"

compile() { # kind, name, file and what it needs
  nice -n 10 rustc --edition 2021 -O -C overflow-checks="${CHECKS:-on}" --out-dir "$out" -L "$out" \
    --crate-type "$1" --crate-name "$2" "${@:3}"
}

cd "$here/standins"
compile proc-macro zerocopy_derive zerocopy_derive.rs
compile rlib zerocopy zerocopy.rs --extern zerocopy_derive="$out/libzerocopy_derive.so"
compile rlib bitflags bitflags.rs
if [ -n "$3" ]; then
  UTILS="$(cd "$3" && pwd)"
  export UTILS
  compile rlib anyhow utils/anyhow.rs
  compile rlib byteorder utils/byteorder.rs
  compile rlib netlink_packet_core utils/lib.rs --extern anyhow="$out/libanyhow.rlib" --extern byteorder="$out/libbyteorder.rlib"
else
  compile rlib netlink_packet_core core/lib.rs
fi
compile bin oracle ../src/main.rs --extern zerocopy="$out/libzerocopy.rlib" --extern bitflags="$out/libbitflags.rlib" \
  --extern netlink_packet_core="$out/libnetlink_packet_core.rlib"
echo "$out/oracle"
