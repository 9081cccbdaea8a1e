#!/bin/sh
# Links the proved archive into a shared library, target/shared/libstephylax.so.VERSION, and its name libstephylax.so.1 beside it (no
# symbolic link: `rt ci` refuses one anywhere in the repository). It exports the functions of the header alone. The linker refuses an
# archive that is not position independent (-z text) or that needs more than libc (-z defs), the compiler's own library too (-nodefaultlibs).
set -eu
cd "$(dirname "$0")/.."
version=$(sed -n 's/^version = "\(.*\)"/\1/p' host/Cargo.toml | head -n 1)
# The number changes when a program that was linked before no longer runs with the library.
name=libstephylax.so.1
mkdir -p target/shared
printf '{ global: stephylax_*; local: *; };\n' >target/shared/exports.map
"${CC:-gcc}" -shared -o "target/shared/libstephylax.so.$version" -Wl,-soname,$name -Wl,--version-script=target/shared/exports.map \
    -Wl,-z,text -Wl,-z,defs -Wl,-z,noexecstack -Wl,--whole-archive target/staticlib/libstephylax.a -Wl,--no-whole-archive \
    -nodefaultlibs -lc
ln -f "target/shared/libstephylax.so.$version" target/shared/$name
