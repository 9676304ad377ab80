# What the tools beside it share. A tool sources it at its start, and from then on stands at the top of the repository:
#
#     . "$(dirname -- "$(readlink -f -- "$0")")/build.sh"
unset CDPATH
tool=$(basename -- "$(readlink -f -- "$0")")
called_from=$PWD
cd -- "$(dirname -- "${BASH_SOURCE[0]}")/.." || exit

# ---- words ----

# fail MESSAGE: why the tool ends, in one line.
fail() {
    printf '%s: %s\n' "$tool" "$1" >&2
    exit 1
}

# wrong MESSAGE: the same for words that are wrong.
wrong() {
    printf '%s: %s\n' "$tool" "$1" >&2
    exit 2
}

# take_words SPEC.. -- WORD..: reads the tool's words. A SPEC is NAME=WHAT for an option --NAME that takes a value,
# which goes to the variable NAME; NAME for one that takes none, and sets the variable to yes; or a name in capitals
# where other words are taken, which go to `others`. WHAT is COUNT (a number, 1 or more), NUMBER, or another name in
# capitals. For --help the comment at the head of the tool is printed.
take_words() {
    local -A takes=()
    local name more=
    while [ "$1" != -- ]; do
        [[ $1 != [A-Z]* ]] || more=yes
        takes[${1%%=*}]=${1#*=}
        shift
    done
    shift
    others=()
    while [ $# -gt 0 ]; do
        case $1 in
        -h | --help)
            sed -n '2,/^[^#]/s/^# \{0,1\}//p' "tools/$tool"
            exit
            ;;
        --*=*) set -- "${1%%=*}" "${1#*=}" "${@:2}" ;;
        esac
        name=${1#--}
        if [[ $1 != -?* && $more ]]; then
            others+=("$1")
        elif [[ ! $1 =~ ^--[a-z]+$ || ! ${takes[$name]-} ]]; then
            wrong "unknown word ${1@Q}; see --help"
        elif [ "${takes[$name]}" = "$name" ]; then
            declare -g "$name=yes"
        else
            take_value "$1" "${takes[$name]}" "${@:2:1}"
            declare -g "$name=$2"
            shift
        fi
        shift
    done
}

# take_value OPTION WHAT [VALUE]: what stands behind an option must be what it takes.
take_value() {
    local takes="a word, $2" fits=
    case $2 in
    COUNT) takes="a number, 1 or more" ;;
    NUMBER) takes="a number" ;;
    esac
    case $2 in
    COUNT | NUMBER) ! is_number "${3-}" || ! is_word "$3" || [[ $2 = COUNT && $3 =~ ^0+$ ]] || fits=yes ;;
    *) fits=${3-} ;;
    esac
    [ "$fits" ] || wrong "$1 takes $takes${3+, not ${3@Q}}; see --help"
}

# need_width WIDTH: it must be one that there is.
need_width() {
    [[ $1 = 64 || $1 = 32 ]] || wrong "--width takes 64 or 32, not ${1@Q}; see --help"
}

# is_number WORD: whether it is digits alone, those of ASCII.
is_number() {
    [[ $1 =~ ^[0123456789]+$ ]]
}

# is_word NUMBER: whether it is below 2^64.
is_word() {
    local digits=${1#"${1%%[!0]*}"} most=18446744073709551615
    # As texts: the shell's own numbers end before.
    # shellcheck disable=SC2071
    [[ ${#digits} -lt ${#most} || ${#digits} -eq ${#most} && ! $digits > $most ]]
}

# absolute PATH: the path that a word names, which is meant from where the tool was called.
absolute() {
    case $1 in
    /*) printf '%s\n' "$1" ;;
    *) printf '%s\n' "$called_from/$1" ;;
    esac
}

# ---- what a tool needs ----

# need COMMAND..: each must be on PATH.
need() {
    local command get
    for command; do
        case $command in
        rt) get="it is the command of the Rattle toolchain; put the folder bin/ of its kit there" ;;
        cargo | rustc | rustfmt) get="install Rust, 1.82 or later" ;;
        python3) get="install Python, 3.10 or later" ;;
        ar | nm) get="install binutils" ;;
        flock) get="install util-linux" ;;
        *) get="install it" ;;
        esac
        command -v -- "$command" >/dev/null || fail "no $command on PATH: $get"
    done
}

# find_source [DIR]: sets `zerocopy`, the folder of the published Rust: DIR, or the one beside the repository.
find_source() {
    zerocopy=$(realpath -m -- "$(absolute "${1:-$PWD/../shared/docs/src}")")
    [ -f "$zerocopy/src/layout.rs" ]
}

# need_source [DIR]: the same, and it must be there.
need_source() {
    find_source "$@" ||
        fail "no src/layout.rs in $zerocopy: name the folder of the published zerocopy 0.8.63 by --source DIR"
}

# find_i686: sets `i686`, a rustc whose programs for 32 bits run here: the one that the variable RUSTC_I686 names, or
# one that is found; root gets Debian's where there is none. Else it fails, and `no_i686` says in a line what is
# missing.
find_i686() {
    local packages=(rustc-web libstd-rust-web-dev:i386 gcc-multilib) log=target/tools/i686.log
    ! try_i686 || return 0
    no_i686="no rustc that makes programs for i686-unknown-linux-gnu: install ${packages[*]} of Debian"
    no_i686+=" (after dpkg --add-architecture i386), or name one by RUSTC_I686"
    [ "$(id -u)" -eq 0 ] && [ -z "${RUSTC_I686-}" ] && command -v apt-get >/dev/null || return 1
    echo "$tool: installing ${packages[*]}" >&2
    # An index that cannot be had is left out: what is installed is checked against those that were.
    if ! dpkg --add-architecture i386 >"$log" 2>&1 || ! { apt-get update || true; } >>"$log" 2>&1 ||
        ! DEBIAN_FRONTEND=noninteractive apt-get install -y --no-install-recommends "${packages[@]}" >>"$log" 2>&1; then
        no_i686+="; installing them failed, see $log"
        return 1
    fi
    try_i686
}

# try_i686: the first compiler of those that may be here, by a program that it makes. Debian's is often behind another.
try_i686() {
    local try=target/tools/i686-try
    mkdir -p target/tools
    echo 'fn main() { assert_eq!(usize::BITS, 32) }' >"$try.rs"
    for i686 in ${RUSTC_I686:-rustc /usr/bin/rustc}; do
        if "$i686" --target i686-unknown-linux-gnu -o "$try" "$try.rs" >/dev/null 2>&1 && "$try"; then
            return 0
        fi
    done
    return 1
}

# ---- what is built ----

# is_stale FILE CRATE..: whether FILE is not there, or a source of these crates, or of what they depend on, is newer.
is_stale() {
    local file=$1 crates
    shift
    [ -f "$file" ] || return 0
    crates=$(awk -v wanted="$*" '
        function add(name,    names, at) {
            if (!(name in needs) || name in added) return
            added[name]
            print "crates/" name
            split(needs[name], names, " ")
            for (at in names) add(names[at])
        }
        { sub(/#.*/, "") }
        # Behind the name there may be more, as `staticlib`.
        /:/ { split($0, sides, ":"); split(sides[1], words, " "); needs[words[1]] = sides[2] }
        END { split(wanted, names, " "); for (at in names) add(names[at]) }' crates.txt)
    # A folder is newer where a file of it was removed. That of a crate does not count, which is newer where rt makes
    # out/ in it; nor do out/ itself and must-fail/, whose edits are no part of what is built.
    # shellcheck disable=SC2086
    [ -n "$(find $crates -mindepth 1 -regex 'crates/[^/]*/\(out\|must-fail\)' -prune -o \
        -newer "$file" -print -quit)" ]
}

# build_start: from here on this tool alone builds. Another one waits, and then finds what this one has made.
build_start() {
    need rt flock
    mkdir -p target/tools
    exec 9>target/tools/lock
    flock 9
    touch target/tools/start
}

# build_end: from here on another tool may build.
build_end() {
    exec 9>&-
}

# place MADE FILE: FILE becomes a copy of what rt made, with the time when the build began, so that what has changed
# since then is newer.
place() {
    mkdir -p "${2%/*}"
    # Under another name until it is complete: another tool may be using it.
    cp "$1" "$2.new"
    touch -r target/tools/start "$2.new"
    mv "$2.new" "$2"
}

# prove CRATE WORD..: runs rt in the crate's folder, and shows what it said only where it fails.
prove() {
    if ! (cd "crates/$1" && rt "${@:2}") >"target/tools/$tool.log" 2>&1 </dev/null; then
        cat "target/tools/$tool.log" >&2
        fail "rt $2 failed in crates/$1"
    fi
}

# build_c NAME [LIBRARY]: makes target/tools/NAME of tools/NAME.c, where that, the header or the library is newer.
build_c() {
    local program=target/tools/$1 part stale=
    for part in "tools/$1.c" include/lukaripe.h ${2+"$2"}; do
        [ "$program" -nt "$part" ] || stale=yes
    done
    [ "$stale" ] || return 0
    need gcc
    mkdir -p target/tools
    # Under a name of its own until it is complete: another tool may be running it.
    gcc -std=c11 -O2 -Wall -Wextra -Werror -I include -o "$program.$$" "tools/$1.c" ${2+"$2"} >&2
    mv "$program.$$" "$program"
}

# build_library OUT [WIDTH]: builds the library, which must have every export that rust/lukaripe/src/exports.rs
# declares. OUT is made. Sets `link`, by which a program is linked with it. With WIDTH 32 those of exports32.rs that it
# has not are named, without their prefix, in the variable MISSING: a program leaves out what would call them.
build_library() {
    local missing
    need nm
    tools/library
    mkdir -p "$1"
    nm --defined-only target/staticlib/liblukaripe.a | sed -n 's/.* T //p' | sort -u >"$1/exports"
    missing=$(missing_exports "$1" lukaripe_ exports.rs)
    [ -z "$missing" ] || fail "the library has no $missing"
    link=(-L native=target/staticlib -l static=lukaripe)
    [ "${2-64}" -eq 32 ] || return 0
    MISSING=$(missing_exports "$1" lukaripe32_ exports32.rs)
    export MISSING=${MISSING//lukaripe32_/}
    [ "$MISSING" ] || return 0
    need gcc
    # Something to link with, that must not be called.
    # shellcheck disable=SC2086
    printf 'void lukaripe32_%s(void) { __builtin_trap(); }\n' $MISSING >"$1/missing.c"
    gcc -c -o "$1/missing.o" "$1/missing.c"
    link+=(-C "link-arg=$1/missing.o")
}

# missing_exports OUT PREFIX FILE: the exports that begin so and are declared in the file, but not in the library.
missing_exports() {
    grep -oh "\b$2[a-z_]*" "rust/lukaripe/src/$3" | sort -u | comm -23 - "$1/exports" | xargs
}

# build_oracle OUT [WIDTH]: compiles what was ported of the published Rust, in `zerocopy`, as the crate `oracle` in OUT.
# Sets `compile`, by which it is: debug assertions are on, as document 01 asks of the oracle. With WIDTH 32 the crate
# asks OUT/oracle32, a program for a machine of 32 bits.
build_oracle() {
    local for_i686
    local -x ORACLE_TEXT=$PWD/$1/oracle.rs ORACLE32=$PWD/$1/oracle32
    compile=(rustc --edition 2021 -C opt-level=3 -C debug-assertions=on -C overflow-checks=on)
    python3 rust/oracle/extract.py "$zerocopy" "$ORACLE_TEXT"
    if [ "${2-64}" -eq 64 ]; then
        "${compile[@]}" --crate-type rlib --crate-name oracle --out-dir "$1" rust/oracle/lib.rs
        return
    fi
    find_i686 || fail "$no_i686"
    for_i686=("$i686" --target i686-unknown-linux-gnu "${compile[@]:1}")
    mkdir -p "$1/i686"
    "${for_i686[@]}" --crate-type rlib --crate-name extract --out-dir "$1/i686" rust/oracle/lib.rs
    "${for_i686[@]}" -L "$1/i686" --extern extract -o "$ORACLE32" rust/oracle/serve.rs
    compile+=(--cfg bits32)
    "${compile[@]}" --crate-type rlib --crate-name extract --out-dir "$1" rust/oracle/lib.rs
    "${compile[@]}" --crate-type rlib --crate-name oracle -L "$1" --extern extract --out-dir "$1" rust/oracle/remote.rs
}
