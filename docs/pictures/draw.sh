#!/bin/sh
# Draws the pictures of the papers into FOLDER, without it beside this script: docs/pictures/draw.sh [FOLDER]
set -eu
here=$(cd "$(dirname "$0")" && pwd)
root=$here/../..
for name in heard-with-one-stopped u11-ballot-undone; do
    "$root/bin/chart" "$root/examples/$name.txt" > "${1:-$here}/$name.svg"
done
