#!/usr/bin/env sh
# Runs the first example in its folder.
set -eu
example=$(cd "$(dirname "$0")" && pwd)
. "$example/../build.sh"
cd "$example"
exec "$program" clear a prod x y
