# Commands for a board, as lines: the archive, through the program of tests/replay,
# against the second program; any bytes as a board; and the whole way of a command,
# from the laptop to the coil.

# What the commands meet.
rust_program tests/boards.rs "$out/boards" "$out"
"$out/boards" check 1 "$boards"
must_fail 'too seldom' "$out/boards" check 1 100

answered=0
answers=$out/boarded
mkdir "$answers"
"$out/boards" make 1 "$boards" >"$answers/lines"
compare_lines "$answers/lines" "$out/second_replay"
echo "tests: $boards commands for a board, $answered answers of replay, each as the second program's"

# A wrong board is found out by the first of them.
head -n 2000 "$answers/lines" >"$answers/first"
for name in "${!wrong_boards[@]}"; do
    must_fail '^replay differs' compare_lines "$answers/first" "$out/wrong/wrong_boards/$name/second_replay"
done

# Any bytes as a board. $1 is where the second implementation is.
build_board_bytes() {
    rust_program tests/board_bytes.rs "$1/board_bytes" "$1" -L dependency="$1" --extern hgrpc="$out/libhgrpc.rlib"
}
build_board_bytes "$out"
"$out/board_bytes" 7 20000
must_fail 'too seldom' "$out/board_bytes" 7 10
for name in "${!wrong_layouts[@]}"; do
    build_board_bytes "$out/wrong/wrong_layouts/$name"
    must_fail '^board bytes: .* \(apply\|switch\|label\) ' "$out/wrong/wrong_layouts/$name/board_bytes" 7 1000
done

# What laptops ask for is what the coils do.
archive_program tests/whole_way.rs "$out/whole_way" "$out"
"$out/whole_way" run 1 2000
must_fail 'the coils do something else' "$out/whole_way" damaged 1 20
must_fail 'too seldom' "$out/whole_way" run 1 20
mkdir -p "$out/wrong/way/whole_way"
cp tests/whole_way.rs tests/tally.rs "$out/wrong/way"
cp tests/whole_way/*.rs "$out/wrong/way/whole_way"
change 's/width != widths\[0\]/width > 1/' tests/whole_way/wish.rs "$out/wrong/way/whole_way/wish.rs"
archive_program "$out/wrong/way/whole_way.rs" "$out/wrong/way/run" "$out"
must_fail 'another mark came' "$out/wrong/way/run" run 1 20
cp tests/whole_way/wish.rs "$out/wrong/way/whole_way"
change 's/return self\.finish(record\.request);/return Ok(());/' tests/whole_way.rs "$out/wrong/way/whole_way.rs"
archive_program "$out/wrong/way/whole_way.rs" "$out/wrong/way/run" "$out"
must_fail 'a record of a request that drains came' "$out/wrong/way/run" run 1 20

if [ "$long" -eq 1 ]; then
    answered=0
    for ((seed = 2; seed <= 26; seed++)); do
        "$out/boards" make "$seed" "$boards" >"$answers/lines"
        compare_lines "$answers/lines" "$out/second_replay"
        "$out/whole_way" run "$seed" 2000
    done
    echo "tests: $((25 * boards)) commands for a board more, $answered answers of replay, each as the second program's"
fi
