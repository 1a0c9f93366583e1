# Sessions and commands as lines: the archive, through the program of
# tests/replay, against the second program; and its count after every call.

# Lines and their answers, by hand.
"$out/replay" <tests/replay_lines/requests.txt | cmp - tests/replay_lines/answers.txt
"$out/second_replay" <tests/replay_lines/requests.txt | cmp - tests/replay_lines/answers.txt
(cd / && "$OLDPWD/tests/replay") <tests/replay_lines/requests.txt | cmp - tests/replay_lines/answers.txt

# The papers' traces.
"$out/sessions" traces "$out/replay"
must_fail 'T3: state' "$out/sessions" traces "${wrong_receivers[0]}/second_replay"

# As many sessions, by seeds from $1 to $2.
compare_sessions() {
    local seed
    for ((seed = $1; seed <= $2; seed++)); do
        "$out/sessions" make "$seed" "$sessions" >"$out/lines"
        compare_lines "$out/lines" "$out/second_replay"
    done
}

# A wrong size, a count that is wrong and passes, and a wrong drain are found out by the lines of the first file.
answered=0
answers=$out
for copy in "$out"/wrong/wrong_{sizes,takings,limits,shapes,drains,drained_shapes}/*; do
    must_fail '^replay differs' compare_lines tests/replay_lines/requests.txt "$copy/second_replay"
done
compare_sessions 1 1

# A wrong receiver, a wrong count and a wrong answer to the panel is found out by the first of them.
awk 'length < 2000 && ++taken <= 2000' "$out/lines" >"$out/first"
for copy in "${wrong_receivers[@]}" "$out"/wrong/wrong_{counts,lamps}/*; do
    must_fail '^replay differs' compare_lines "$out/first" "$copy/second_replay"
done

# A wrong drain is found out by the first sessions of the kind that drains, too.
"$out/sessions" drains 1 40 >"$out/drains"
compare_lines "$out/drains" "$out/second_replay"
for copy in "$out"/wrong/wrong_{drains,drained_shapes}/*; do
    must_fail '^replay differs' compare_lines "$out/drains" "$copy/second_replay"
done

# The archive's count and a row after every call; wrong readings of them, and wrong tallies of what was accepted.
archive_program tests/lamp.rs "$out/lamp" "$out"
"$out/lamp" 1 "$sessions"
must_fail 'too seldom' "$out/lamp" 1 100
for wrong in count_before_streams:'the count is ' row_of_23:'row of 23 bytes: 9 '; do
    copy=$out/wrong/${wrong%%:*}
    build_lines "$copy"
    archive_program tests/lamp.rs "$copy/lamp" "$copy"
    must_fail "${wrong#*:}" "$copy/lamp" 1 100
done
mkdir -p "$out/wrong/tally/lamp"
cp tests/lamp.rs tests/tally.rs "$out/wrong/tally"
for expression in 's/i64::from(new && !refused)/i64::from(new)/' 's/frame\[7\] & 1 != 0/frame[7] \& 3 != 0/' \
    's/i64::from(number == 0 && !early)/0/' 's/number == 0 && !early/number == 0/' 's/i64::from(drained)/0/'; do
    change "$expression" tests/lamp/history.rs "$out/wrong/tally/lamp/history.rs"
    archive_program "$out/wrong/tally/lamp.rs" "$out/wrong/tally/run" "$out"
    must_fail 'the count is' "$out/wrong/tally/run" 1 100
done

"$out/sessions" commands 1 "$commands" >"$out/lines"
compare_lines "$out/lines" "$out/second_replay"
echo "tests: $sessions sessions and $commands commands, $answered answers of replay, each as the second program's"

if [ "$long" -eq 1 ]; then
    answered=0
    compare_sessions 2 201
    "$out/sessions" check 2 $((200 * sessions))
    "$out/lamp" 2 $((200 * sessions))
    echo "tests: $((200 * sessions)) sessions more, $answered answers of replay, each as the second program's"
fi
