# What the test scripts share. `out` is the folder that they build in.

rust() { rustc --edition 2021 -D warnings "$@"; }

# A program $2 of the Rust file $1, on the rlibs in directory $3, and the words behind it.
rust_program() {
    local file=$1 program=$2 libraries=$3
    shift 3
    rust -C opt-level=1 --crate-name "$(basename "$file" .rs)" -o "$program" \
        --extern second="$libraries/libsecond.rlib" --extern generate="$out/libgenerate.rlib" \
        "$@" "$file"
}

# The second implementation.
build_second() {
    rust -C opt-level=3 --crate-type rlib --crate-name second --out-dir "$out" tests/second/src/lib.rs
}

# The bindings, with the archive in them.
build_bindings() {
    rust -C opt-level=3 --crate-type rlib --crate-name hgrpc --out-dir "$out" \
        -L native=target/staticlib -l static=hgrpc bindings/hgrpc.rs
}

# What answers lines by the archive, on the second implementation in directory $1.
build_lines() {
    rust -C opt-level=1 --crate-type rlib --crate-name replay_lines --out-dir "$1" \
        --extern second="$1/libsecond.rlib" --extern hgrpc="$out/libhgrpc.rlib" \
        tests/replay_lines/src/lib.rs
}

# The program that reads the lines of docs/REPLAY.md.
build_replay() {
    build_bindings
    build_lines "$out"
    rust -C opt-level=1 --crate-name replay -o "$out/replay" -L dependency="$out" \
        --extern replay_lines="$out/libreplay_lines.rlib" tests/replay.rs
}

# A program $2 of the Rust file $1 on the archive, with the rlibs in directory $3.
archive_program() {
    rust_program "$1" "$2" "$3" -L dependency="$3" -L dependency="$out" --extern hgrpc="$out/libhgrpc.rlib" \
        --extern replay_lines="$3/libreplay_lines.rlib"
}

# Runs a command that must fail and print $1.
must_fail() {
    local text=$1 log=$out/must_fail.$BASHPID.log
    shift
    if "$@" >"$log" 2>&1; then
        echo "no failure: $*"
        return 1
    fi
    if ! grep -q "$text" "$log"; then
        echo "failed, but not with '$text': $*"
        cat "$log"
        return 1
    fi
}

# Has the lines of file $1 answered by `replay` and by the second program $2, and
# compares the answers, which are then in folder `answers`. Adds their count to
# `answered`.
compare_lines() {
    local lines=$1 second=$2 place
    "$out/replay" <"$lines" >"$answers/replay.answers"
    "$second" <"$lines" >"$answers/second.answers"
    if ! cmp -s "$answers/replay.answers" "$answers/second.answers"; then
        place=$(cmp "$answers/replay.answers" "$answers/second.answers" 2>&1 | sed -n 's/.*line //p')
        echo "replay differs from the second program in answer $place to the lines of $lines"
        diff -a "$answers/replay.answers" "$answers/second.answers" | head -n 4 | cut -c 1-200
        return 1
    fi
    answered=$((answered + $(wc -l <"$answers/replay.answers")))
}

# Block number $2 of those between lines ``` in the text $1.
block() { awk -v wanted="$2" '/^```/ { n++; next } n == 2 * wanted - 1' <<<"$1"; }

# Writes file $2, changed by sed's expression $1, to $3.
change() {
    sed "$1" "$2" >"$3"
    if cmp -s "$2" "$3"; then
        echo "the expression $1 changes nothing in $2"
        return 1
    fi
}

# Makes a copy of the second implementation, named $1, by sed's expression $3 in
# file $2, compiled at level $4 or 0. `copy` is its folder. Copies are compiled in
# one place, one after another, so that little is compiled anew.
make_copy() {
    local level=${4:-0} place=$out/wrong/place.$BASHPID
    copy=$out/wrong/$1
    mkdir -p "$copy"
    if [ ! -d "$place" ]; then
        mkdir "$place"
        cp tests/second/src/*.rs "$place"
    fi
    change "$3" "tests/second/src/$2" "$place/$2"
    rustc --edition 2021 -A warnings -C opt-level="$level" -C incremental="$place/level$level" \
        --crate-type rlib --crate-name second --out-dir "$place" "$place/lib.rs"
    cp "tests/second/src/$2" "$place"
    cp "$place/libsecond.rlib" "$copy"
}

# The same for a wrong copy, which is counted.
wrong_copy() {
    make_copy "$@"
    wrongs=$((wrongs + 1))
}

# Wrong copies that answer lines: one for each expression of the array $1 in file
# $2, which is not counted. Their folders are in $out/wrong/$1.
make_wrong_lines() {
    local -n expressions=$1
    local name
    for name in "${!expressions[@]}"; do
        make_copy "$1/$name" "$2" "${expressions[$name]}"
        rustc --edition 2021 -o "$copy/second_replay" --extern second="$copy/libsecond.rlib" \
            tests/second_replay.rs
    done
}
