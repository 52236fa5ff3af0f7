#!/usr/bin/env sh
# Turns an array of eight slots along its second dimension.
set -eu
example=$(cd "$(dirname "$0")" && pwd)
. "$example/../build.sh"
cd "$example"
"$program" table c
exec "$program" clear c turn x
