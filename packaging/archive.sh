#!/bin/sh
# Builds the archives of static libraries: target/staticlib/libNAME.a for each NAME. What a library stands on is proved first, where it has
# changed. `rt lib` leaves an archive in the crate's own out/, and `rt ci` takes it away there, so a copy stands in target/.
set -eu
cd "$(dirname "$0")/.."
mkdir -p target/staticlib
for name in "$@"; do
    (cd "crates/$name" && rt lib)
    cp "crates/$name/out/lib$name.a" "target/staticlib/lib$name.a.new"
    mv -f "target/staticlib/lib$name.a.new" "target/staticlib/lib$name.a"
done
