# shellcheck shell=bash
# What the scripts share; each sources it as its first step. `root` is the repository, wherever a script is called from and
# through whatever link.
root=$(cd "$(dirname "$(readlink -f "${BASH_SOURCE[0]}")")/.." && pwd)
self=$(basename "$0")
build_log=$root/target/build.log

say() {
    printf '%s: %s\n' "$self" "$*" >&2
}

die() {
    say "$@"
    exit 1
}

# The tools that are called, and what each is for.
declare -A purpose=(
    [rt]="the Rattle toolchain, which proves and builds the bench"
    [cargo]="which builds the second implementation, in Rust"
    [python3]="which runs the tests"
    [gcc]="the C compiler of the tests"
    [flock]="of util-linux, which keeps two builds apart"
)

# need TOOL [PURPOSE]: ends with a line that names the tool where it is missing
need() {
    command -v "$1" >/dev/null || die "there is no $1, ${2:-${purpose[$1]}}"
}

# help_of FILE: the comment at the head of a script, which says how it is called
help_of() {
    sed -n '2,/^[^#]/s/^# \{0,1\}//p' "$1"
}

# shown PATH: a path as the caller would write it, quoted where a shell needs that
shown() {
    local path=${1#"$PWD"/}
    printf '%q' "$path"
}

# ---- proofs and builds

# crates_of NAME: the crates that a proof of this one goes through, each behind those that it stands on, itself the last
crates_of() {
    awk -v name="$1" '
        { sub(/#.*/, ""); at = index($0, ":") }
        at { split($0, words, /[ :]+/); deps[words[1]] = substr($0, at + 1) }
        function visit(crate, words, n, i) {
            if (seen[crate]++ || !(crate in deps)) return
            n = split(deps[crate], words, " ")
            for (i = 1; i <= n; i++) visit(words[i])
            print crate
        }
        END { visit(name) }' "$root/crates.txt"
}

# is_built CRATE FILE: whether the file is there, and nothing of the crates has changed since its build began. What rt makes
# stands in the folder out of each crate, and is no change.
is_built() {
    local since=$root/target/since/$1
    [ -e "$root/$2" ] && [ -e "$since" ] && [ -z "$(cd "$root" && find crates crates.txt \
        -name out -prune -o \( -type f -o -path 'crates/*/*' \) -newer "$since" -print -quit)" ]
}

# locked COMMAND..: one build at a time. What is locked is a file that stays.
locked() {
    need flock
    (
        if ! flock -n 9; then
            say "another build is under way; this one waits for it"
            flock 9
        fi
        "$@" 9<&-
    ) 9<"$root/crates.txt"
}

# told CRATE..: writes what rt says to the log, and a line for each of these crates as it is proved, or is not
told() {
    local line name=- began=$SECONDS
    local -A nth=()
    for name in "$@"; do
        nth[$name]=$((${#nth[@]} + 1))
    done
    while IFS= read -r line; do
        printf '%s\n' "$line" >>"$build_log"
        if [[ $line =~ ^rt:\ chose\ --jobs\ [0-9]+\ for\ ([A-Za-z0-9_]+)$ ]]; then
            name=${BASH_REMATCH[1]} began=$SECONDS
        elif [[ $line = "logic=proved "* ]]; then
            printf '%s of %d: %s, %d s\n' "${nth[$name]-?}" $# "$name" $((SECONDS - began)) >&2
        elif [[ $line = logic=not-proved* ]]; then
            printf '%s of %d: %s NOT PROVED\n' "${nth[$name]-?}" $# "$name" >&2
        fi
    done
}

# taken CRATE FILE: what rt made of a program or a static library, at its place below target/
taken() {
    local made=$root/crates/$1/out/$1
    [[ $2 != *.a ]] || made=$root/crates/$1/out/lib$1.a
    mkdir -p "$(dirname "$root/$2")" && install -m 755 "$made" "$root/$2.new" && mv "$root/$2.new" "$root/$2"
}

# prove_and_build CRATE FILE: the crate, a program or a static library, and all that it stands on
prove_and_build() {
    local crate=$1 file=$2 started=$SECONDS verb=run status crates
    # another build may have ended while this one waited
    if is_built "$crate" "$file"; then
        return 0
    fi
    mapfile -t crates < <(crates_of "$crate")
    mkdir -p "$root/target/since" || die "cannot write below $(shown "$root/target")"
    touch "$root/target/since/$crate.new"
    : >"$build_log"
    say "proves and builds first what is not proved yet: ${#crates[@]} crates, about seven minutes on two cores if it is all of them"
    # rt builds a program to run it; without input that ends at once
    [[ $file != *.a ]] || verb=lib
    (cd "$root/crates/$crate" && rt "$verb") </dev/null 2>&1 | told "${crates[@]}"
    status=${PIPESTATUS[0]}
    if [ "$status" -ne 0 ] || ! taken "$crate" "$file"; then
        say "$crate is not built; the whole log is $(shown "$build_log")"
        return 1
    fi
    mv "$root/target/since/$crate.new" "$root/target/since/$crate"
    say "built in $((SECONDS - started)) s"
}

# build CRATE FILE: a file that is made of a proved crate, below target/, made where it is not there or out of date
build() {
    is_built "$@" && return
    need rt
    locked prove_and_build "$@"
}
