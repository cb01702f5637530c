#!/usr/bin/env bash
# Measures the modes and their peers in one run on this machine, and prints each figure with its ratio to the plain peer tet-1.
#
#   tools/bench.sh [CC...]     the C compilers for the peers (default: gcc and, where it is there, clang)
#
# Needs the Rattle kit, a C compiler and OpenSSL's headers (Debian: libssl-dev). Run it on a machine that does nothing else.
set -euo pipefail
cd "$(dirname "$0")/.."
(cd crates/bench && rt check >&2)
build=$(mktemp -d)
trap 'rm -rf "$build"' EXIT
compilers=("$@")
if [ ${#compilers[@]} -eq 0 ]; then
  compilers=(gcc)
  if command -v clang > /dev/null; then compilers+=(clang); fi
fi
for cc in "${compilers[@]}"; do
  "$cc" -O3 -o "$build/peers-$cc" tools/peers.c -lcrypto
done
(cd crates/bench && rt run > "$build/ours")
for cc in "${compilers[@]}"; do
  "$build/peers-$cc" > "$build/theirs"
  echo "peers built by $("$cc" --version | head -n 1)"
  awk '
    FNR == NR { if ($1 == "tet-1") plain[$2] = $4; line[++n] = $0; next }
    { line[++n] = $0 }
    END {
      for (i = 1; i <= n; i++) {
        split(line[i], word, " ")
        if (word[5] == "MB/s") printf "  %-12s %5d  %-9s %8.1f MB/s  %6.2f of tet-1\n", word[1], word[2], word[3], word[4], word[4] / plain[word[2]]
        else printf "  %-12s %5d  %-9s %8.2f %s\n", word[1], word[2], word[3], word[4], word[5]
      }
    }' "$build/theirs" "$build/ours"
done
