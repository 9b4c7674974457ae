# What the benchmarks share; each of them sources it. It wants bash 5.
set -eu

crate=$(cd "$(dirname "${BASH_SOURCE[0]}")/../crates/lufs" && pwd)
lufs=$crate/out/lufs
if [ ! -x "$lufs" ]; then
    echo "there is no $lufs: run 'rt run -- mkfs out/volume 1 64 32 256' in $crate" >&2
    exit 1
fi

folder=$(mktemp -d)
trap 'rm -rf "$folder"' EXIT

# timed COMMAND..: how many microseconds it took, in `took`.
timed() {
    local start=${EPOCHREALTIME/[.,]/}
    "$@" >/dev/null 2>&1
    took=$((${EPOCHREALTIME/[.,]/} - start))
}
