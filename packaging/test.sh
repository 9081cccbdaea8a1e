#!/bin/sh
# Installs into a fresh prefix, uses all that is installed from another folder, and removes it again.
# Wants make, rt, cargo, gcc with its binutils and python3; pkg-config, bash and groff are used where they are.
set -eu
cd "$(dirname "$0")/.."
repository=$PWD
unset STEPHYLAX_DATA STEPHYLAX_LIBRARY PYTHONPATH LD_LIBRARY_PATH
export PYTHONDONTWRITEBYTECODE=1 LC_ALL=C
work=$(mktemp -d)
trap 'rm -rf "$work"' EXIT
prefix=$work/prefix

fail() {
    echo "packaging/test.sh: $*" >&2
    exit 1
}

same() { # WHAT IS WANTED
    [ "$2" = "$3" ] || fail "$1: '$2', not '$3'"
}

made() { # WORDS..: of make, whose lines are shown if it fails
    make "$@" >"$work/log" 2>&1 || { cat "$work/log"; fail "make $*"; }
}

is_there() { # COMMAND
    command -v "$1" >/dev/null 2>&1
}

# What the .pc says, by pkg-config or, where that is missing, by hand.
flags() { # Cflags or Libs
    if is_there pkg-config; then
        PKG_CONFIG_PATH=$prefix/lib/pkgconfig pkg-config "--$(echo "$1" | tr CL cl)" stephylax
    else
        sed -n "s|^$1: ||p" "$prefix/lib/pkgconfig/stephylax.pc" | sed "s|\${libdir}|$prefix/lib|; s|\${includedir}|$prefix/include|"
    fi
}

needs() { # PROGRAM: the shared libraries it names that are ours
    readelf -d "$1" | sed -n 's/.*(NEEDED).*\[\(libstephylax.*\)\]/\1/p'
}

made install PREFIX="$prefix"
mkdir -p "$work/elsewhere/data"
cd "$work/elsewhere"

# C: the README's program, through the flags, static and shared. It reads data/vsop87d of its folder.
ln -s "$prefix/share/stephylax/vsop87d" data/vsop87d
for kind in static shared; do
    libraries=$(flags Libs)
    [ $kind = shared ] || libraries=$prefix/lib/libstephylax.a
    # The flags are words.
    # shellcheck disable=SC2046,SC2086
    gcc -std=c99 -Wall -Wextra -Werror $(flags Cflags) -o $kind "$repository/host/tests/c/example.c" $libraries
    same "the $kind program" "$(LD_LIBRARY_PATH=$prefix/lib ./$kind)" "shut from minute 296 to 1439"
done
same "what the static program needs" "$(needs static)" ""
same "what the shared program needs" "$(needs shared)" libstephylax.so.1
./static >/dev/null || fail "the static program runs only with the library beside it"

# The shared library exports the functions of the header and nothing else, and has no text to relocate.
library=$prefix/lib/libstephylax.so.1
exported=$(nm -D --defined-only "$library" | awk '{ print $3 }' | sort)
declared=$(sed -n 's/^stephylax_[a-z]* \(stephylax_[a-z_]*\)(.*/\1/p' "$prefix/include/stephylax.h" | sort)
same "what is exported" "$exported" "$declared"
readelf -d "$library" | grep -q TEXTREL && fail "the shared library is not position independent"
readelf -lW "$library" | grep GNU_STACK | grep -q RWE && fail "the shared library wants an executable stack"

# The command finds its data beside its own folder, and not in the repository: Venus under Mercury's name is counted as Venus.
command=$prefix/bin/stephylax
"$command" check mercury | grep -q 6,827 || fail "the installed command does not know Mercury"
cp "$prefix/share/stephylax/vsop87d/venus.txt" "$prefix/share/stephylax/vsop87d/mercury.txt"
"$command" check mercury | grep -q 1,682 || fail "the installed command has other data than those installed with it"
cp "$repository/data/vsop87d/mercury.txt" "$prefix/share/stephylax/vsop87d/mercury.txt"

# A damaged series is mended to what it was.
sed 's/ /\t/g; s/$/\r/' "$prefix/share/stephylax/vsop87d/venus.txt" >mailed
"$command" check ./mailed 2>&1 | grep -q 'stephylax mend' || fail "the installed command does not tell of mending"
"$command" mend mailed mended >told || fail "the installed command does not mend"
cmp mended "$prefix/share/stephylax/vsop87d/venus.txt" || fail "a mended series is another one"

# The man page has every line of the help.
page=$prefix/share/man/man1/stephylax.1
"$command" --help | sed 's/-/\\-/g' >help
same "lines of the help in the man page" "$(grep -cxFf help "$page")" "$(wc -l <help | tr -d ' ')"
if is_there groff; then
    same "what groff says of the man page" "$(groff -man -Tascii -ww -z "$page" 2>&1)" ""
fi

# Completion: commands, options, names; files only where the command takes them.
completed() { # WORDS..: what they become
    PATH="$prefix/bin:$PATH" bash -c '
        . "$0"; COMP_WORDS=("$@"); COMP_CWORD=$(($# - 1)); _stephylax; echo "${COMPREPLY[*]}"' \
        "$prefix/share/bash-completion/completions/stephylax" "$@"
}
if is_there bash; then
    same "completion of su" "$(completed stephylax su)" sun-list
    same "completion of --keep" "$(completed stephylax sun-list mercury --keep)" --keep-out
    same "completion of merc" "$(completed stephylax check merc)" mercury
    same "completion of --da" "$(completed stephylax check --da)" --data
    for takes_none in day date pack unpack mend; do
        same "completion of $takes_none --da" "$(completed stephylax $takes_none --da)" ""
        same "completion of $takes_none --js" "$(completed stephylax $takes_none --js)" --json
    done
    touch venus-series
    same "completion of ven" "$(completed stephylax sun-list ven)" venus
    same "completion of ./ven" "$(completed stephylax sun-list ./ven)" ./venus-series
    same "completion of $PWD/ven" "$(completed stephylax sun-list "$PWD/ven")" "$PWD/venus-series"
    same "completion of --earth ./ven" "$(completed stephylax sun-list mercury --earth ./ven)" ./venus-series
    # bash parts words at a colon, unless it is told not to.
    for kind in text packed published; do
        same "completion of $kind : ven" "$(completed stephylax check $kind : ven)" venus-series
        same "completion of $kind :" "$(completed stephylax check $kind : | tr ' ' '\n' | grep ven)" venus-series
        same "completion of $kind:ven" "$(completed stephylax check $kind:ven)" $kind:venus-series
    done
    mkdir -p published
    touch published/VSOP87D.mar published/VSOP87D.mer published/mercury.txt
    same "completion of m in a folder of published files" \
        "$(export STEPHYLAX_DATA=published; completed stephylax check m)" "mercury mars"
    same "completion of pack ven" "$(completed stephylax pack ven)" venus-series
    same "completion of pack published :" "$(completed stephylax pack published : | tr ' ' '\n' | grep ven)" venus-series
    same "completion of unpack x ven" "$(completed stephylax unpack x ven)" venus-series
    same "completion of me" "$(completed stephylax me)" mend
    same "completion of mend x ven" "$(completed stephylax mend x ven)" venus-series
    same "completion of mend --" "$(completed stephylax mend --)" "--changes --dry-run --json"
    same "completion of --changes ven" "$(completed stephylax mend --changes ven)" venus-series
fi

# Python.
python=$prefix/share/stephylax/python
same "the library that Python finds" "$(PYTHONPATH=$python python3 -c 'import stephylax; print(stephylax._library._name)')" "$library"
shut="mercury  shut from 04:56 to 23:59
venus    open all day"
same "the example in Python" "$(python3 "$prefix/share/stephylax/example.py" 2019-11-11 60)" "$shut"
same "the module's folder" "$(ls "$python")" stephylax.py

# Compiled Python goes too; then nothing is left.
PYTHONPATH=$python PYTHONDONTWRITEBYTECODE='' python3 -c 'import stephylax'
cd "$repository"
made uninstall PREFIX="$prefix"
same "what is left" "$(find "$prefix" -mindepth 1 2>/dev/null)" ""

# A folder of packages keeps all of its own modules, and the example finds the one that went there.
mkdir -p "$work/packages"
echo other >"$work/packages/example.py"
made install PREFIX="$prefix" PYTHONDIR="$work/packages"
same "the example with packages" \
    "$(LD_LIBRARY_PATH=$prefix/lib PYTHONPATH=$work/packages python3 "$prefix/share/stephylax/example.py" 2019-11-11 60)" "$shut"
made uninstall PREFIX="$prefix" PYTHONDIR="$work/packages"
same "what is left of the packages" "$(cat "$work/packages"/*)" other

# DESTDIR stands before what is written, and is not told to anyone.
made install DESTDIR="$work/stage" PREFIX=/usr
same "what is staged" "$(ls "$work/stage")" usr
[ -x "$work/stage/usr/bin/stephylax" ] || fail "no command is staged"
grep -rqF "$work/stage" "$work/stage/usr/lib/pkgconfig" "$work/stage/usr/share" && fail "a staged file names the stage"
same "the staged prefix" "$(sed -n 's/^prefix=//p' "$work/stage/usr/lib/pkgconfig/stephylax.pc")" /usr
# A file that is not ours stays, with its folder.
touch "$work/stage/usr/bin/other"
made uninstall DESTDIR="$work/stage" PREFIX=/usr
same "what is left of the stage" "$(find "$work/stage/usr" -mindepth 1)" "$work/stage/usr/bin
$work/stage/usr/bin/other"
echo "installed, used and removed"
