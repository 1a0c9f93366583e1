# Commands made for the search for double keys: the archive against the second
# implementation, and wrong searches against the archive, as lines.

# $1 is where the second implementation is.
build_keys() { rust_program tests/keys.rs "$1/keys" "$1" --extern hgrpc="$out/libhgrpc.rlib"; }
build_keys "$out"
"$out/keys" run 1 "$keys"
must_fail 'came up too seldom' "$out/keys" run 1 1000
copy=$out/wrong/wrong_searches/last_key_left_out
build_keys "$copy"
must_fail '^keys: difference at' "$copy/keys" run 1 1000

# A wrong search is found out by the first of them, one that differs on long
# commands alone by the longest of more.
answered=0
answers=$out/searched
mkdir "$answers"
"$out/keys" make 1 3000 >"$answers/lines"
awk 'NR <= 600 && length < 10000' "$answers/lines" >"$answers/first"
awk 'length >= 10000' "$answers/lines" >"$answers/long"
for part in first long; do compare_lines "$answers/$part" "$out/second_replay"; done
for name in "${!wrong_searches[@]}"; do
    must_fail '^replay differs' compare_lines "$answers/first" "$out/wrong/wrong_searches/$name/second_replay"
done
for name in "${!wrong_far_searches[@]}"; do
    must_fail '^replay differs' compare_lines "$answers/long" "$out/wrong/wrong_far_searches/$name/second_replay"
done

if [ "$long" -eq 1 ]; then
    for ((seed = 2; seed <= 11; seed++)); do "$out/keys" run "$seed" "$keys"; done
fi
