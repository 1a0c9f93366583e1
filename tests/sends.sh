# Requests to be sent, as lines: the archive, through the program of tests/replay,
# against the second program; and what the archive wrote, read by the archive.

# What the requests meet, and that the second receiver reads what the second
# sender wrote.
rust_program tests/sends.rs "$out/sends" "$out"
"$out/sends" check 1 "$sends"
must_fail 'too seldom' "$out/sends" check 1 30

answered=0
answers=$out/sent
mkdir "$answers"
"$out/sends" make 1 "$sends" >"$answers/lines"
compare_lines "$answers/lines" "$out/second_replay"
echo "tests: $sends requests sent, $answered answers of replay, each as the second program's"

# A wrong sender is found out by the first of them.
head -n 400 "$answers/lines" >"$answers/first"
for name in "${!wrong_senders[@]}"; do
    must_fail '^replay differs' compare_lines "$answers/first" "$out/wrong/wrong_senders/$name/second_replay"
done

# What the archive wrote is received again.
archive_program tests/round_trip.rs "$out/round_trip" "$out"
"$out/round_trip" run 1 "$sends"
must_fail '^round trip: seed 1, request [0-9]*: ' "$out/round_trip" damaged 1 20
must_fail 'too seldom' "$out/round_trip" run 1 100
copy=$out/wrong/24_in_a_byte_is_loose
build_lines "$copy"
archive_program tests/round_trip.rs "$copy/round_trip" "$copy"
must_fail 'another mark came' "$copy/round_trip" run 1 "$sends"

if [ "$long" -eq 1 ]; then
    answered=0
    for ((seed = 2; seed <= 26; seed++)); do
        "$out/sends" make "$seed" "$sends" >"$answers/lines"
        compare_lines "$answers/lines" "$out/second_replay"
        "$out/round_trip" run "$seed" "$sends"
    done
    echo "tests: $((25 * sends)) requests more, $answered answers of replay, each as the second program's"
fi
