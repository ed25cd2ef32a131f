# shellcheck shell=bash disable=SC2154
# Sourced by tools that have something proved and built first. The caller has root, the repository, and say, which tells a line.

# is_older FILE: it is not there, or some source of the crates is newer.
is_older() {
    [ ! -e "$1" ] || [ -n "$(find "$root/crates" "$root/crates.txt" -name out -prune -o -newer "$1" \
        \( -name '*.rt' -o -name '*.antt' -o -name crates.txt \) -print -quit)" ]
}

# crates_of NAME: the crates that NAME is made of, a line each, as they are proved: each behind those that it cites, NAME last.
crates_of() {
    awk -v first="$1" '
        { sub(/#.*/, "") }
        /:/ { name = $1; sub(/:.*/, "", name); sub(/^[^:]*:/, ""); cited[name] = $0 }
        function visit(name,    k, n, names) {
            if (!(name in cited) || name in seen) return
            seen[name]
            n = split(cited[name], names, " ")
            for (k = 1; k <= n; k++) visit(names[k])
            print name
        }
        END { visit(first) }' "$root/crates.txt"
}

# tell_proved NAME COMMAND...: runs the command of rt in the folder of the crate and tells of each crate as it is proved, with its place among
# all; those that are kept from an earlier check are passed in silence. Where it fails, prints all that it said, and fails.
tell_proved() {
    order=$(crates_of "$1")
    all=$(wc -l <<<"$order")
    folder=$root/crates/$1
    shift
    said=$(mktemp) || return 1
    (cd "$folder" && "$@" 2>&1 </dev/null) | tee "$said" | {
        name=
        while IFS= read -r line; do
            case $line in
            'rt: chose --jobs '*' for '*) name=${line##* for } began=$SECONDS ;;
            'logic=proved '*)
                [ -z "$name" ] || say "$name proved ($((SECONDS - began)) s), $(grep -nx "$name" <<<"$order" | cut -d: -f1) of $all"
                name=
                ;;
            esac
        done
    }
    proving_status=${PIPESTATUS[0]}
    [ "$proving_status" -eq 0 ] || cat "$said" >&2
    rm -f "$said"
    return "$proving_status"
}

# build_library: proves the crate of the C functions and all below it, and builds the library for C, target/staticlib/libtroymantle.a.
build_library() {
    say "proving and building the library first, $(crates_of troymantle_c | wc -l) crates; from nothing this takes some minutes"
    tell_proved troymantle_c rt lib || return 1
    mkdir -p "$root/target/staticlib" &&
        cp "$root/crates/troymantle_c/out/libtroymantle_c.a" "$root/target/staticlib/libtroymantle.a.new" &&
        mv "$root/target/staticlib/libtroymantle.a.new" "$root/target/staticlib/libtroymantle.a"
}

# build_program NAME: proves a program and all below it, and builds it as target/bin/NAME. rt runs it once, on no input.
build_program() {
    say "proving and building the program first, $(crates_of "$1" | wc -l) crates; from nothing this takes some minutes"
    tell_proved "$1" rt run || return 1
    mkdir -p "$root/target/bin" &&
        cp "$root/crates/$1/out/$1" "$root/target/bin/$1.new" &&
        mv "$root/target/bin/$1.new" "$root/target/bin/$1"
}
