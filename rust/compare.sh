#!/usr/bin/env bash
# rust/compare.sh COMMAND [ARGS]: proves and builds the archive of the port (rust/archive) and runs rust/compare with these words.
# Where WEGRUSAMT_LIB names a folder, the archive that stands there is taken as it is.
set -eu
cd "$(dirname "$0")/.."
for tool in rt cargo; do
    command -v "$tool" >/dev/null 2>&1 || { echo "$tool is missing (README.md, 'What a fresh machine needs')" >&2; exit 2; }
done
if [ -z "${WEGRUSAMT_LIB-}" ]; then
    echo "proving and building the archive" >&2
    mkdir -p target
    folder=$(rust/archive 2> target/archive.log) || { tail -n 20 target/archive.log >&2; exit 2; }
    export WEGRUSAMT_LIB=$PWD/$folder
fi
cd rust/compare
exec cargo run --quiet --release -- "$@"
