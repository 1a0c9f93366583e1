# The archives' calls on commands against the second implementation, from Rust
# and from C.

# The C program $1 of directory $2, on the archive $3 and the second
# implementation in that directory.
build_with_second() {
    rust -C opt-level=3 --crate-type staticlib --crate-name bridge --out-dir "$2" \
        --extern second="$2/libsecond.rlib" --extern generate="$out/libgenerate.rlib" \
        tests/bridge.rs
    gcc -std=gnu11 -Iinclude -Wall -Wextra -Werror -O2 -o "$2/$1_c" "tests/$1.c" \
        "$2/libbridge.a" "$3" -lpthread -ldl -lm
}

build_compare_rust() {
    rust_program tests/compare.rs "$1/compare_rust" "$1" --extern hgrpc="$out/libhgrpc.rlib"
}
build_compare_c() { build_with_second compare "$1" target/staticlib/libhgrpc.a; }

# The command archive, which has fewer calls.
build_desk_rust() {
    rust_program tests/desk.rs "$1/desk_rust" "$1" -L native=target/staticlib -l static=command
}
build_desk_c() { build_with_second desk "$1" target/staticlib/libcommand.a; }

build_compare_rust "$out"
build_compare_c "$out"

# The README's program prints 0.
sed -n '/^## Call the check from C$/,$p' README.md | sed -n '/^```c$/,/^```$/{/^```/d;p;}' >"$out/desk.c"
gcc -std=gnu11 -Iinclude -Wall -Wextra -Werror -O2 -o "$out/desk" "$out/desk.c" \
    target/staticlib/libcommand.a
printed=$("$out/desk")
[ "$printed" = 0 ] || { echo "the README's C program prints $printed"; exit 1; }

# The two long runs go on while the wrong copies are tried.
"$out/compare_rust" "$commands" >"$out/compare_rust.log" 2>&1 &
run_rust=$!
children+=("$run_rust")
"$out/compare_c" "$commands" >"$out/compare_c.log" 2>&1 &
run_c=$!
children+=("$run_c")

for copy in "${wrong_readers[@]}"; do
    build_compare_rust "$copy"
    must_fail '^compare (Rust): difference at seed' "$copy/compare_rust" "$commands"
done
for wrong in "$out/wrong/nine_levels" "$out/wrong/tags_forgotten"; do
    build_compare_c "$wrong"
    must_fail '^compare (C): difference at' "$wrong/compare_c" "$commands"
done
must_fail 'in less than 1%' "$out/compare_rust" 3
must_fail 'in less than 1%' "$out/compare_c" 3
must_fail 'came up too seldom' "$out/compare_rust" 1000

build_desk_rust "$out"
build_desk_c "$out"
"$out/desk_rust" 5000 3
"$out/desk_c" 5000 4
"$out/desk_c" 2000 5 keys
for wrong in "$out/wrong/nine_levels" "$out/wrong/tags_forgotten"; do
    build_desk_rust "$wrong"
    build_desk_c "$wrong"
    must_fail '^desk (Rust): difference at' "$wrong/desk_rust" 5000 3
    must_fail '^desk (C): difference at' "$wrong/desk_c" 5000 4
done
must_fail 'came up' "$out/desk_rust" 3 3
must_fail 'came up' "$out/desk_c" 3 4

failed=0
wait "$run_rust" || failed=1
wait "$run_c" || failed=1
cat "$out/compare_rust.log" "$out/compare_c.log"
[ "$failed" -eq 0 ] || exit 1
