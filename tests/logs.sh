# Stored logs, as lines: the archive, through the program of tests/replay, against
# the second program.

# What the logs meet, and that a converted log has the old one's records.
"$out/logs" check 1 "$logs"
must_fail 'too seldom' "$out/logs" check 1 100

answered=0
answers=$out/converted
mkdir "$answers"
"$out/logs" make 1 "$logs" >"$answers/lines"
compare_lines "$answers/lines" "$out/second_replay"
echo "tests: $logs logs converted, $answered answers of replay, each as the second program's"

# A wrong converter is found out by the first of them.
awk 'NR <= 600 && length < 10000' "$answers/lines" >"$answers/first"
for name in "${!wrong_logs[@]}"; do
    must_fail '^replay differs' compare_lines "$answers/first" "$out/wrong/wrong_logs/$name/second_replay"
done

if [ "$long" -eq 1 ]; then
    answered=0
    for ((seed = 2; seed <= 26; seed++)); do
        "$out/logs" make "$seed" "$logs" >"$answers/lines"
        compare_lines "$answers/lines" "$out/second_replay"
    done
    echo "tests: $((25 * logs)) logs more, $answered answers of replay, each as the second program's"
fi
