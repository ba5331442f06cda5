#!/usr/bin/env bash
# Proves the static library, builds the host with it, and compares what the host prints with the stored text.
set -euo pipefail
cd "$(dirname "$0")/.."

work=$(mktemp -d)
trap 'rm -rf "$work"' EXIT

(cd crates/analysis_c && rt lib > "$work/proved") || { cat "$work/proved"; exit 1; }
cp crates/analysis_c/out/libanalysis_c.a "$work/libanalysis.a"
gcc -O2 -std=c11 -Wall -Wextra -Werror host/host.c "$work/libanalysis.a" -o "$work/host"
"$work/host" > "$work/printed"
diff host/expected "$work/printed"
echo "the host printed what is stored"
