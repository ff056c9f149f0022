# What ./lockers, ./fastest, ./journals and ./losses share, read by each. It builds the program of a crate where it must, hands it a file, standard input or two files, and
# says by its status whether all was read and written, since the program has no exit status of its own. Each command sets before it reads this:
# `folder`, where it is; `name`, its own, which its program's crate has before `_main`; `given`, what it is given, in a word; `most`, as many bytes as the program reads of
# it; `takes`, how long its first build may take; `words`, what its usage line names; `help`, which prints the rest of its help; and `pair`, where it is given two files.
version=2.0
crate=${name}_main
log=$folder/target/log/$crate-build.out
# How many refusals are explained on a terminal.
shown=20

fail() {
    echo "$name: $1" >&2
    exit 1
}

usage() {
    echo "usage: ./$name [-h] [--version] [--explain] [--strict] $words"
}

# What the help of every command ends with.
help_of_all() {
    cat <<END

  --explain    says of each refusal, on standard error, its line and what its number means; on a terminal the first $shown are explained without it
  --strict     ends with status 3 where anything was refused
  --version    prints the version
  -h, --help   prints this

The status is 0 where all that is given could be read and all of the answer was written, whatever was refused in it; 1 where not; 2 for a wrong call; 3 with
--strict where anything was refused.
The program is built first where it is older than its sources. That takes $takes and needs rt, the command of the Rattle kit. Copied to another folder with
command.sh, explain.awk and its program, the command runs without sources and without rt. It is for x86-64 Linux. More: docs/COMMANDS.md.
END
}

misused() {
    usage >&2
    echo "$name: $1" >&2
    exit 2
}

# Sources are where crates.txt is. Without them the program is what it is, beside the command or where a build puts it.
has_sources() {
    [ -e "$folder/crates.txt" ]
}

program=$folder/crates/$crate/out/$crate
if ! has_sources && [ -x "$folder/$crate" ]; then
    program=$folder/$crate
fi

# What a check reads of the program's crate and of those that it rests on; the kit's own have no folder.
crate_folders() {
    local each part
    for each in "$crate" $(sed -n "s/^$crate://p" crates.txt); do
        for part in src specs proofs; do
            [ ! -d "crates/$each/$part" ] || echo "crates/$each/$part"
        done
    done
}

is_built() {
    [ -x "$program" ] && { ! has_sources || [ -z "$(cd "$folder" && find crates.txt $(crate_folders) -newer "$program")" ]; }
}

build() {
    has_sources || fail "$program is missing, and there are no sources to build it from"
    command -v rt >/dev/null || fail "$program is missing or older than its sources, and rt, which builds it, is not found"
    local began
    began=$(date +@%s.%N)
    "$folder/tools/build.sh" program "$crate" "$takes" || fail "the build failed; its log is $log"
    [ -x "$program" ] || fail "rt built nothing, and there is no $program: remove $folder/crates/$crate/out and run again"
    # So that a source changed during the build is newer, and one that rt found unchanged is not.
    touch -d "$began" "$program"
}

# Says of each refusal its line and what its number means.
explain() {
    [ "$explained" = all ] || [ -t 2 ] || return 0
    [ -r "$folder/explain.awk" ] || { [ "$explained" = terminal ] || fail "explain.awk, which explains refusals, is missing beside the command"; return 0; }
    local limit=$shown
    [ "$explained" = terminal ] || limit=0
    LC_ALL=C awk -v command="$name" -v limit="$limit" -v newlines="$(cat "$held"/[12] | wc -l)" -f "$folder/explain.awk" "$held"/[12] "$held/answer" >&2
}

# Runs the program with words and the input that is held, and ends with the status of all.
answer() {
    is_built || build
    "$program" "$@" <"$held/1" | tee "$held/answer" 2>/dev/null | cat
    local ended=("${PIPESTATUS[@]}")
    [ "${ended[2]}" -eq 0 ] || fail "output was lost"
    [ "${ended[0]}" -eq 0 ] || fail "the program ended with status ${ended[0]}"
    [ "${ended[1]}" -eq 0 ] || fail "there is no place for what is answered"
    explain
    [ "$read_whole" = yes ] || fail "the $given could not be read to its end"
    [ -z "$strict" ] || ! grep -q '^refused=' "$held/answer" || exit 3
}

hold() {
    held=$(mktemp -d) || fail "there is no place for what is read"
    trap 'rm -rf "$held"' EXIT
}

run_on_pair() {
    [ $# -eq 2 ] || misused "two ${given}s are asked for"
    hold
    local place
    for place in 1 2; do
        { [ ! -d "${!place}" ] && head -c "$most" <"${!place}" >"$held/$place"; } 2>/dev/null || fail "cannot read ${!place}"
    done
    answer "$held/1" "$held/2"
}

run_on_input() {
    [ $# -le 1 ] || misused "more than one $given"
    if [ $# -eq 1 ] && [ "$1" != - ]; then
        { [ ! -d "$1" ] && exec <"$1"; } 2>/dev/null || fail "cannot read $1"
    elif [ -t 0 ]; then
        echo "$name: the $given is read from this terminal, up to Ctrl-D; ./$name -h has its lines" >&2
    fi
    hold
    # No more than the program reads.
    head -c "$most" >"$held/1" || read_whole=no
    answer
}

explained=terminal
strict=
read_whole=yes
while [ $# -gt 0 ]; do
    case $1 in
    -h | --help)
        usage && help && help_of_all
        exit
        ;;
    --version)
        echo "$name $version"
        exit
        ;;
    --explain) explained=all ;;
    --strict) strict=yes ;;
    --)
        shift
        break
        ;;
    -?*) misused "there is no option $1" ;;
    *) break ;;
    esac
    shift
done
if [ -n "${pair-}" ]; then
    run_on_pair "$@"
else
    run_on_input "$@"
fi
