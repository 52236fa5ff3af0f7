#!/usr/bin/env sh
# Makes a table and keys, encrypts an array, and decrypts it again, in a new folder.
set -eu
example=$(cd "$(dirname "$0")" && pwd)
. "$example/../build.sh"
folder=$(mktemp -d)
trap 'rm -rf "$folder"' EXIT
cp "$example"/a.tmpl "$example"/z.seed "$example"/x.slots "$folder"
cd "$folder"
while read -r line; do
    echo "helib_cli $line"
    # The words of a line are the words of a command.
    "$program" $line
done < "$example"/commands
