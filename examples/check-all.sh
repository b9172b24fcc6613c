#!/bin/sh
# Synthesises a transformer for each problem of this folder, and checks each certificate. The program may be named.
set -eu
folder=$(dirname "$0")
amurth=${1:-$folder/../crates/amurth/out/amurth}
for problem in "$folder"/*.amurth; do
    printf '%s: ' "$(basename "$problem")"
    "$amurth" synth < "$problem" | "$amurth" check
done
