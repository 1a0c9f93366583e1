# Pairs of logs: as lines, the archive, through the program of tests/replay, against
# the second program; and the archive's calls on lent logs and on pieces.

# What the pairs meet, and that a list is empty exactly for equal logs.
"$out/pairs" check 1 "$pairs"
must_fail 'too seldom' "$out/pairs" check 1 100

answered=0
answers=$out/compared
mkdir "$answers"
"$out/pairs" make 1 "$pairs" >"$answers/lines"
compare_lines "$answers/lines" "$out/second_replay"
echo "tests: $pairs pairs of logs compared, $answered answers of replay, each as the second program's"

# A wrong comparison is found out by the first of them, and by the lines that were written by hand.
awk 'length < 10000 && ++taken <= 400' "$answers/lines" >"$answers/first"
for name in "${!wrong_pairs[@]}"; do
    copy=$out/wrong/wrong_pairs/$name
    must_fail '^replay differs' compare_lines "$answers/first" "$copy/second_replay"
    must_fail '^replay differs' compare_lines tests/replay_lines/requests.txt "$copy/second_replay"
done

# Lent, and in pieces of any sizes; every cut; any bytes as a state; and the longest bodies.
archive_program tests/steps.rs "$out/steps" "$out"
"$out/steps" run 1 "$pairs"
"$out/steps" cuts
"$out/steps" any 1 200000
"$out/steps" long
must_fail 'only are small' "$out/steps" run 1 50
must_fail 'too seldom' "$out/steps" any 1 100

# A wrong list is found out in pieces too.
copy=$out/wrong/wrong_pairs/last_byte_of_body_left_out
build_lines "$copy"
archive_program tests/steps.rs "$copy/steps" "$copy"
must_fail '^steps: difference' "$copy/steps" run 1 "$pairs"
must_fail '^steps: difference' "$copy/steps" cuts

if [ "$long" -eq 1 ]; then
    answered=0
    for ((seed = 2; seed <= 26; seed++)); do
        "$out/pairs" make "$seed" "$logs" >"$answers/lines"
        compare_lines "$answers/lines" "$out/second_replay"
        "$out/steps" run "$seed" "$pairs"
    done
    echo "tests: $((25 * logs)) pairs of logs more, $answered answers of replay, each as the second program's"
fi
