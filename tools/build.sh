#!/usr/bin/env bash
# Proves and builds a crate by rt, and says on standard error which crate is at work: tools/build.sh -h.
set -u -o pipefail
cd "$(dirname "$(readlink -f "$0")")/.." || exit 1
usage="usage: tools/build.sh [-h] [--version] program|lib CRATE TIME"

case ${1-} in
-h | --help)
    cat <<END_OF_HELP
$usage

Runs rt run in a program's folder, which proves and builds it and then runs it on no input, or rt lib in a static library's. Before it begins it says how long, TIME,
this may take; of each crate that is to be proved or built anew it says when that is at work and which come after it. What rt prints goes to
target/log/CRATE-build.out. The status is 0 where the program or the library is built, whatever the program answers to no input.
END_OF_HELP
    exit
    ;;
--version)
    sed -n 's/^Version: /tools\/build.sh /p' mudasgup.pc
    exit
    ;;
esac
case ${1-} in
program) words=run built='^rt: running out/' ;;
# For every processor of x86-64.
lib) words='lib --cpu x86-64' built= ;;
*) words= ;;
esac
if [ $# -ne 3 ] || [ -z "$words" ]; then
    echo "$usage" >&2
    exit 2
fi
crate=$2
takes=$3
log=target/log/$crate-build.out

# The crates that may have to be proved, lowest first; the kit's own have no folder.
left=
for each in $(sed -n "s/^$crate\( [^:]*\)*://p" crates.txt); do
    [ ! -d "crates/$each" ] || left="$each $left"
done
left="$left$crate"

# Says which crate is at work, and which come after it.
said() {
    local line
    while IFS= read -r line; do
        [[ $line =~ ^rt:\ chose\ --jobs\ [0-9]+\ for\ ([a-z_]+)$ ]] || continue
        left=" $left "
        left=${left/ ${BASH_REMATCH[1]} / }
        left=${left# }
        left=${left% }
        echo "build: at work: ${BASH_REMATCH[1]}${left:+; then: $left}" >&2
    done
}

mkdir -p "$(dirname "$log")"
echo "build: $crate is proved and built first, which may take $takes; later runs answer at once" >&2
(cd "crates/$crate" && rt $words </dev/null 2>&1) | tee "$log" | said
status=${PIPESTATUS[0]}
[ -z "$built" ] || ! grep -q "$built" "$log" || status=0
exit "$status"
