#!/usr/bin/env bash
# setup.sh [PATH]: builds the original, unchanged, in oracle/original (which git ignores).
# PATH is the folder that holds the original's crates/ (default: ../shared/docs/src, seen from the project's root).
# Every original file is compared with its SHA-256 in ORIGINAL.sha256 before it is copied; one that differs ends the script.
# The crates that the original uses and that Debian has come from its librust-* packages, which this script installs.
set -eu
here=$(cd "$(dirname "$0")" && pwd)
from=$(cd "${1:-$here/../../shared/docs/src}" && pwd)
packages=(bytes thiserror parking-lot tracing itertools static-assertions serde serde-derive blake3 xxhash-rust)

(cd "$from" && sha256sum --check --quiet --strict "$here/ORIGINAL.sha256")

missing=()
for p in "${packages[@]}"; do
  dpkg -s "librust-$p-dev" >/dev/null 2>&1 || missing+=("librust-$p-dev")
done
if [ "${#missing[@]}" -gt 0 ]; then
  apt-get update -qq
  DEBIAN_FRONTEND=noninteractive apt-get install -y -qq --no-install-recommends "${missing[@]}" >/dev/null
fi

# ours first, then the original's files; the runtime and the writer of pages are compared above but are no part of the port
rm -rf "$here/original"
cp -r "$here/graft" "$here/original"
count=0
while read -r _ path; do
  case $path in */rt/runtime.rs | */volume_writer.rs) continue ;; esac
  place=$here/original/${path#crates/graft/}
  if [ -e "$place" ]; then echo "setup.sh: $path would replace a file of ours" >&2; exit 1; fi
  cp "$from/$path" "$place"
  cmp "$from/$path" "$place"
  count=$((count + 1))
done < "$here/ORIGINAL.sha256"
echo "$count original files compared and copied"
cd "$here" && nice cargo build --offline --release -j1 -p graft
