#!/usr/bin/env bash
# Proves and builds the program where that is still to do, and runs it on a chart file:
#   ./travel.sh charts/three-places.chart
set -euo pipefail
chart=$(realpath "${1:?usage: ./travel.sh CHART-FILE}")
cd "$(dirname "$0")/crates/travel"
mkdir -p out
log=$(mktemp)
rt run < stdin > "$log" 2>&1 || {
  mv "$log" out/travel.log
  echo "travel is not proved; see crates/travel/out/travel.log" >&2
  exit 1
}
rm -f "$log"
exec out/travel < "$chart"
