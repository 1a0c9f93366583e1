# The second implementation by itself, which needs nothing of Rattle: its own
# tests, the papers' traces, demand 3, and wrong copies for the comparisons.

rust --test -C opt-level=1 -o "$out/second_unit" tests/second/src/lib.rs
"$out/second_unit" --quiet
rust -C opt-level=3 --crate-type rlib --crate-name generate --out-dir "$out" tests/generate/src/lib.rs
build_second

rust_program tests/sessions.rs "$out/sessions" "$out"
rust_program tests/second_replay.rs "$out/second_replay" "$out"
rust_program tests/programs.rs "$out/programs" "$out"
rust_program tests/logs.rs "$out/logs" "$out"
rust_program tests/pairs.rs "$out/pairs" "$out"

# Wrong senders, and wrong boards, built while the rest goes on.
declare -A wrong_senders=(
    [size_of_4097]='s/1\.\.=SIZE/1..=4097/'
    [size_of_4095]='s/1\.\.=SIZE/1..=4095/'
    [size_of_a_payload]='s/1\.\.=SIZE/1..=crate::frame::PAYLOAD as u64/'
    [even_stream]='s/ || request\.stream % 2 == 0//'
    [length_first]='s/(52, |request| command::check(&request\.command()) != 0)/(53, |request| request.command().len() > COMMAND_BYTES)/; t; s/(53, |request| request\.command()\.len() > COMMAND_BYTES)/(52, |request| command::check(\&request.command()) != 0)/'
    [longest_of_2049]='s/len() > COMMAND_BYTES/len() > 2049/'
    [total_more_by_8]='s/if output\.len() < total {/if output.len() < total + 8 {/'
    [tail_touched]='s/let mut place = 0;/if output.len() > total { output[total] = 0; } &/'
    [refused_touched]='s/if output\.len() < total {/& output.iter_mut().take(1).for_each(|byte| *byte = 0);/'
    [long_head]='s/0\.\.=23 =>/0..=22 =>/; s/24\.\.=0xff =>/23..=0xff =>/'
    [args_before_name]='s/&byte_string(b"name"),/\&byte_string(b"args"), \&head(5, self.count), self.pairs, &/; t; s/^ *&byte_string(b"args"),$//; s/^ *&head(5, self\.count),$//; s/^ *self\.pairs,$//'
    [data_announced]='s/if data\.is_some() { WITH_DATA } else { 0 }/WITH_DATA/'
    [new_again]='s/if place == 0 { NEW } else { CONTINUATION }/NEW/'
    [more_of_whole]='s/if place + 1 < payloads\.len() { MORE } else { 0 }/MORE/'
    [empty_data_left_out]='s/\[\] => vec!\[bytes\]/[] => vec![]/'
    [empty_last_frame]='s/let payloads = self\.payloads(data);/let mut payloads = self.payloads(data); if !data.is_empty() \&\& data.len() % self.size as usize == 0 { payloads.push(\&[]); }/'
    [each_data_last]='s/if last { LAST_DATA } else { MORE_DATA }/LAST_DATA/'
    [encoding_applied]='s/let mut stream_flags = 0;/let mut stream_flags = 0x04;/'
    [begin_on_each]='s/self\.begin && place == 0/self.begin/'
    [end_on_first]='s/self\.end && place == last/self.end \&\& place == 0/'
)
declare -A wrong_boards=(
    [unknown_after_unfit]='/^    (40, /{h;d;}; /^    (41, /G'
    [outside_before_unfit]='/^    (41, /{h;d;}; /^    (42, /G'
    [long_before_outside]='/^    (42, /{h;d;}; /^    (43, /G'
    [double_key_is_extra]='s/map_err(command::Refusal::number)/map_err(|refusal| if refusal.number() == 26 { 41 } else { refusal.number() })/'
    [name_by_its_beginning]='s/\*name == self\.name/self.name.starts_with(name)/'
    [args_wanted]='s/command\.args\.unwrap_or_default()/command.args.ok_or(41_u32)?/'
    [extra_passes]='s/ && self\.arguments\.len() == taken\.len()//'
    [missing_passes]='s/is_some_and(fits)/is_none_or(fits)/; s/len() == taken\.len()/len() <= taken.len()/'
    [null_is_a_switch]='s/Value::True | Value::False/& | Value::Null/'
    [null_is_a_text]='s/matches!(value, Value::Bytes(_))/matches!(value, Value::Bytes(_) | Value::Null)/'
    [large_is_no_integer]='s/Value::Unsigned(_) | Value::Negative(_)/Value::Unsigned(0..=0x7fff_ffff_ffff_ffff) | Value::Negative(0..=0x7fff_ffff_ffff_ffff)/'
    [negative_is_no_integer]='s/Value::Unsigned(_) | Value::Negative(_)/Value::Unsigned(_)/'
    [coil_16_is_0]='s/if \*number < COILS as u64 => Some(\*number as usize)/if *number <= COILS as u64 => Some(*number as usize % COILS)/'
    [coil_of_the_low_byte]='s/if \*number < COILS as u64 => Some(\*number as usize)/if *number % 256 < 16 => Some(*number as usize % 256)/'
    [minus_one_is_0]='s/^ *Value::Unsigned(number) if/Value::Negative(0) => Some(0), &/'
    [fifteen_coils]='s/\*number < COILS as u64/*number < 15/'
    [text_of_16_is_long]='s/text\.len() > LABEL/text.len() >= LABEL/'
    [old_label_kept]='s/self\.label = text\.to_vec();/let old = self.places(); &/; s/self\.unused = .*/self.unused = old[text.len()..].to_vec();/'
    [off_clears_labels]='s/|coil| coil\.on = false/|coil| { coil.on = false; coil.rename(b""); }/'
    [off_of_fifteen]='s/self\.coils\.iter_mut()/self.coils[..15].iter_mut()/'
    [on_and_off_swapped]='s/== Some(&Value::True)/== Some(\&Value::False)/'
    [set_clears_label]='s/None => self\.coils\[coil\]\.on = asked\.on(),/None => { self.coils[coil].on = asked.on(); self.coils[coil].rename(b""); }/'
    [label_switches_off]='s/Some(text) => self\.coils\[coil\]\.rename(text),/Some(text) => { self.coils[coil].on = false; self.coils[coil].rename(text); }/'
    [refused_set_switches]='s/return \*number;/if let Some(coil) = asked.coil() { self.coils[coil].on = asked.on(); } &/'
    [refused_text_is_cut]='s/return \*number;/if *number == 43 { self.coils[asked.coil().unwrap_or(0)].rename(\&asked.text().unwrap_or_default()[..LABEL]); } &/'
)
# Wrong readings of a board's bytes.
declare -A wrong_layouts=(
    [length_before_switch]='s/\[u8::from(coil\.on), coil\.label\.len() as u8\]/[coil.label.len() as u8, u8::from(coil.on)]/; s/head\[1\]/head[9]/; s/head\[0\]/head[1]/; s/head\[9\]/head[0]/'
    [switch_of_two]='s/^            1 => true,/            1.. => true,/'
    [length_of_17]='s/head\[1\]\.into()/head[1].min(16).into()/'
    [unused_is_0]='s/let on = match/if unused.iter().any(|byte| *byte != 0) { return None; } &/'
)
# Wrong searches for double keys. `seen_as` makes one that sees $1 in place of each key
# of `args`; $1 may name the key's `content`, its `length`, and its place `at`.
seen_as() {
    printf 's/has_double_key(command\.arguments())/has_double_key(\&command.arguments().iter().map(|(key, _)| match key { %s })' \
        "Value::Bytes(content) => { let (at, length) = (content.as_ptr() as usize - bytes.as_ptr() as usize, content.len()); ($1, Value::Null) } _ => (key.clone(), Value::Null)"
    printf '.collect::<Vec<_>>())/'
}
with_length() { printf 'Value::Array(vec![Value::Unsigned(length as u64), %s])' "$1"; }
searched='s/has_double_key(command\.arguments())/'
declare -A wrong_searches=(
    [length_alone]=$(seen_as 'Value::Unsigned(length as u64)')
    [first_byte_alone]=$(seen_as 'Value::Bytes(\&content[..length.min(1)])')
    [first_8_bytes_alone]=$(seen_as 'Value::Bytes(\&content[..length.min(8)])')
    [last_byte_left_out]=$(seen_as "$(with_length 'Value::Bytes(\&content[..length.max(1) - 1])')")
    [head_in_key]=$(seen_as 'Value::Bytes(\&bytes[at - 1..at + length])')
    [number_and_length_alone]=$(seen_as "$(with_length 'Value::Unsigned(content.iter().fold(0, |sum, byte| (sum * 16777619 + u64::from(*byte)) % 4294967296))')")
    [neighbours_alone]='s/^ *keys\.sort_unstable();$//'
    [beginning_is_equal]='s/pair\[0\] == pair\[1\]/matches!((pair[0], pair[1]), (Value::Bytes(one), Value::Bytes(other)) if other.starts_with(one))/'
    [first_key_left_out]="${searched}has_double_key(command.arguments().get(1..).unwrap_or_default())/"
    [last_key_left_out]="${searched}has_double_key(command.arguments().split_last().map_or(\&[][..], |(_, keys)| keys))/"
    [keys_from_the_17th_left_out]="${searched}has_double_key(command.arguments().chunks(16).next().unwrap_or_default())/"
    [keys_from_the_513th_left_out]="${searched}has_double_key(command.arguments().chunks(512).next().unwrap_or_default())/"
    [entries_from_the_9th_left_out]='s/for entry in entries {/for entry in entries.into_iter().take(8) {/'
)
# Wrong searches that differ on long commands alone.
declare -A wrong_far_searches=(
    [within_1024]='s/pair\[0\] == pair\[1\]/& \&\& (pair[0] as *const Value as usize).abs_diff(pair[1] as *const Value as usize) < 1024 * size_of::<(Value, Value)>()/'
    [keys_from_the_1025th_left_out]="${searched}has_double_key(command.arguments().chunks(1024).next().unwrap_or_default())/"
    [blocks_by_themselves]="${searched}command.arguments().chunks(1024).any(has_double_key)/"
    [keys_past_65535_left_out]=$(seen_as 'if at + length > 65535 { Value::Unsigned(at as u64) } else { key.clone() }')
    [places_cut]=$(seen_as 'Value::Bytes(\&bytes[at % 65536..][..length.min(bytes.len() - at % 65536)])')
    [lengths_cut]=$(seen_as 'Value::Bytes(\&content[..length % 65536])')
)
# Wrong counts of active requests, wrong readings of rule 3 for the count, and wrong answers to the panel (E6).
declare -A wrong_counts=(
    [finish_not_counted]='s/ - finishes - / - /'
    [drain_not_counted]='s/ - self\.drains_ended()//'
    [continuation_counted]='s/filter(|frame| frame\.is_command(NEW))$/filter(|frame| frame.is_command(NEW | CONTINUATION))/'
    [refused_new_counted]='s/^            self\.dead = number;$/& if frame.is_command(NEW) { self.history.lead(Frame::write(0, 0, 2, 0x11, \&[])); }/'
    [wrong_count_fed]='s/!plain_ways(&state)\.is_empty() || /plain_ways(\&state).iter().any(|way| *way != crate::state::Way::CountWrong) || /'
    [wrong_count_finished]='s/self\.shapeless\.is_some()/self.shapeless.as_ref().is_some_and(|state| plain_ways(state) != [crate::state::Way::CountWrong])/'
)
declare -A wrong_shapes=(
    [too_high_passes]='s/usize::from(state\.count) != used/usize::from(state.count) < used/'
    [too_low_passes]='s/usize::from(state\.count) != used/usize::from(state.count) > used/'
)
declare -A wrong_lamps=(
    [dead_count_refused]='s/match plain_ways(state)\[\.\.\] {/if state.dead != 0 { return (state.dead, 0); } &/'
    [refused_count_told]='s/(3, 0)/(3, state.count)/'
    [seven_entries]='s/length < ROW/length < ROW - ENTRY/'
    [nine_before_three]='/^    (3, /{h;d;}; /^    (9, /G'
    [dead_row_refused]='s/let mut refusals = REFUSALS\.iter();/if state.dead != 0 { return state.dead; } &/'
    [refused_row_touched]='s/return \*number;/row.iter_mut().take(1).for_each(|byte| *byte = 0); &/'
    [ninth_entry_written]='s/zip(&state\.slots)/zip(state.slots.iter().chain([\&crate::state::Slot::FREE]))/'
    [free_entry_left]='s/let \[low, high\] = /if slot.phase == crate::state::Phase::Free { continue; } &/'
    [used_slots_first]='s/zip(&state\.slots)/zip({ let mut slots = state.slots; slots.sort_by_key(|slot| slot.phase == crate::state::Phase::Free); slots })/'
    [high_byte_first]='s/slot\.id\.to_le_bytes()/slot.id.to_be_bytes()/'
)

# Wrong readings of E8, and of rule 3 for a slot that drains.
declare -A wrong_drains=(
    [freed_at_the_finish]='s/Phase::Waiting => Event::Drain(id)/Phase::Waiting => Event::Finish(id)/'
    [counted_out_at_the_finish]='s/any(|step| step\.ends_data(\*id))/any(|_| true)/'
    [waiting_not_finished]='s/^ *Phase::Waiting => Event::Drain(id),$//'
    [waiting_not_finished_in_mid_frame]='s/^            self\.history\.finish(id)$/if !self.under_way.is_empty() \&\& self.history.phase(id) == Phase::Waiting { 4 } else { self.history.finish(id) }/'
    [finished_twice]='s/Phase::Waiting => Event::Drain(id)/Phase::Waiting | Phase::Draining => Event::Drain(id)/'
    [data_refused]='s/ && phase != Phase::Draining$//'
    [last_frame_makes_it_run]='s/(LAST_DATA, Phase::Draining) => Phase::Free/(LAST_DATA, Phase::Draining) => Phase::Running/'
    [first_frame_frees]='s/^                _ => before,$/_ if before == Phase::Draining => Phase::Free, &/'
    [empty_frame_frees_not]='s/(LAST_DATA, Phase::Draining) =>/(LAST_DATA, Phase::Draining) if frame.payload().is_empty() => before, &/'
    [new_of_draining]='s/past\.phase(frame\.request()) != Phase::Free/!matches!(past.phase(frame.request()), Phase::Free | Phase::Draining)/'
    [continuation_of_draining]='s/past\.phase(frame\.request()) != Phase::Collecting/!matches!(past.phase(frame.request()), Phase::Collecting | Phase::Draining)/'
    [no_room_asked_for]='s/if self\.next_is_last() && output/if self.next_is_last() \&\& !(self.under_way.len() >= HEADER \&\& self.under_way[7] >> 4 == DATA \&\& self.history.phase(u16::from_le_bytes([self.under_way[3], self.under_way[4]])) == Phase::Draining) \&\& output/'
    [stream_flags_ignored]='s/^        self\.add(id, Event::Frame(frame));$/let frame = if frame.kind() == DATA \&\& self.phase(id) == Phase::Draining { Frame::write(id, 0, 2, DATA << 4 | frame.flags(), \&[]) } else { frame }; &/'
)
declare -A wrong_drained_shapes=(
    [without_data_bit]='s/(draining && !slot\.data, Way::DrainingWithoutData),//'
    [with_length]='s/(draining && long, Way::DrainingWithLength),//'
    [with_even_id]='s/(!free && slot\.id % 2 == 0/(!free \&\& !draining \&\& slot.id % 2 == 0/'
    [with_id_of_another]='s/(ids\.len() < used, /(ids.len() < used \&\& state.used().all(|slot| slot.phase != Phase::Draining), /'
    [not_counted]='s/(usize::from(state\.count) != used, /(usize::from(state.count) != state.used().filter(|slot| slot.phase != Phase::Draining).count(), /'
)

# Wrong sizes of E7: what the receiver takes, where it puts it, how much output it asks for, and rule 3's limits.
declare -A wrong_sizes=(
    [longest_record_of_65543]='s/BODY_HEAD + PAYLOAD;/BODY_HEAD + PAYLOAD - 1;/'
    [longest_record_of_65545]='s/BODY_HEAD + PAYLOAD;/BODY_HEAD + PAYLOAD + 1;/'
    [payload_of_65534]='s/65_535/65_534/'
)
declare -A wrong_takings=(
    [payload_of_65536]='s/claimed(&self\.under_way) > PAYLOAD/claimed(\&self.under_way) > PAYLOAD + 1/'
    [payload_of_4096]='s/claimed(&self\.under_way) > PAYLOAD/claimed(\&self.under_way) > 4096/'
    [slots_from_65544]='s/^    FRAME_PLACES + seat/    FRAME_PLACES + 1 + seat/'
    [length_of_two_bytes]='s/log::write(&\[log::Record { kind, body: &body }\])/[\&(body.len() as u16).to_le_bytes()[..], \&kind, \&body].concat()/'
    [kind_before_length]='s/log::write(&\[log::Record { kind, body: &body }\])/[\&kind[..], \&(body.len() as u32).to_le_bytes(), \&body].concat()/'
)
declare -A wrong_limits=(
    [pending_of_65541]='s/PENDING: u64 = FRAME_PLACES as u64 - 1/PENDING: u64 = FRAME_PLACES as u64 - 2/'
    [pending_of_65543]='s/PENDING: u64 = FRAME_PLACES as u64 - 1/PENDING: u64 = FRAME_PLACES as u64/'
    [pending_of_the_longest_record]='s/PENDING: u64 = FRAME_PLACES as u64 - 1/PENDING: u64 = crate::frame::RECORD as u64/'
    [held_length_of_65536]='s/held > PAYLOAD/held > PAYLOAD + 1/'
    [held_length_of_4096]='s/held > PAYLOAD/held > 4096/'
    [area_of_81926]='s/SLOTS \* COMMAND_BYTES;/SLOTS * COMMAND_BYTES - 1;/'
    [area_of_20488]='s/^pub const WORK: usize = .*/pub const WORK: usize = 20488;/'
)
# Wrong converters, and wrong places of a broken record.
declare -A wrong_logs=(
    [length_of_two_bytes]='s/(record\.body\.len() as u32)/(record.body.len() as u16)/'
    [length_of_one_byte]='s/(record\.body\.len() as u32)/(record.body.len() as u8 as u32)/'
    [high_byte_first]='s/as u32)\.to_le_bytes()/as u32).to_be_bytes()/'
    [old_high_byte_first]='s/let low_last = length\.iter()\.rev();/let low_last = length.iter();/'
    [head_counted_as_body]='s/as u32)\.to_le_bytes()/as u32 + 2).to_le_bytes()/'
    [kind_swapped]='s/record\.kind\.to_vec()/[record.kind[1], record.kind[0]].to_vec()/'
    [kind_of_one_byte]='s/record\.kind\.to_vec()/vec![record.kind[0], 0]/'
    [kinds_of_records_alone]='s/let kind = kind\.try_into()\.ok()?;/if !matches!(kind, [1 | 2, 0]) { return None; } &/'
    [short_before_broken]='s/let log = read(log, OLD);/if output.len() < log.len() { return refused(71); } &/'
    [last_end_not_looked_at]='s/behind\.split_at_checked(length)?/behind.split_at(length.min(behind.len()))/'
    [last_length_not_looked_at]='s/if !log\.broken\.is_empty() {/if log.broken.len() >= KIND + OLD {/'
    [whole_part_converted]='s/if !log\.broken\.is_empty() {/if log.records.is_empty() \&\& !log.broken.is_empty() {/'
    [empty_log_refused]='s/if !log\.broken\.is_empty() {/if log.records.is_empty() || !log.broken.is_empty() {/'
    [empty_body_left_out]='s/records\.iter()\.flat_map/records.iter().filter(|record| !record.body.is_empty()).flat_map/'
    [total_of_the_old]='s/let Some(front) = /if output.len() < converted.len() - 2 * log.records.len() { return refused(71); } let wanted = converted.len().min(output.len()); &/; s/output\.get_mut(\.\.converted\.len())/output.get_mut(..wanted)/; s/copy_from_slice(&converted)/copy_from_slice(\&converted[..wanted])/'
    [total_less_by_1]='s/let Some(front) = /let wanted = converted.len().saturating_sub(1); &/; s/output\.get_mut(\.\.converted\.len())/output.get_mut(..wanted)/; s/copy_from_slice(&converted)/copy_from_slice(\&converted[..wanted])/'
    [total_more_by_1]='s/let Some(front) = /if output.len() == converted.len() { return refused(71); } &/'
    [refused_touched]='s/return refused(70);/output.iter_mut().take(1).for_each(|byte| *byte = 0); &/'
    [short_touched]='s/let converted = write(&log\.records);/& output.iter_mut().zip(\&converted).for_each(|(out, byte)| *out = *byte);/'
    [refused_written]='s/Converted { number, written: 0 }/Converted { number, written: 1 }/'
    [tail_touched]='s/front\.copy_from_slice(&converted);/& if let Some(byte) = output.get_mut(converted.len()) { *byte = 0; }/'
    [place_behind_the_head]='s/broken\.len()$/broken.len().saturating_sub(OLD + KIND)/'
    [place_of_the_end]='s/broken\.len()$/broken.len() * 0/'
    [place_of_the_last_record]='s/log\.len() - read(log, OLD)\.broken\.len()$/{ let log = read(log, OLD); log.records[..log.records.len().saturating_sub(1)].iter().map(|record| OLD + KIND + record.body.len()).sum() }/'
)

# Wrong comparisons of two logs.
declare -A wrong_pairs=(
    [numbers_from_0]='s/place as u64 + 1/place as u64/'
    [kind_not_compared]='s/first\[\*place\] != second\[\*place\]/first[*place].body != second[*place].body/'
    [low_byte_of_kind_alone]='s/first\[\*place\] != second\[\*place\]/(first[*place].kind[0], first[*place].body) != (second[*place].kind[0], second[*place].body)/'
    [body_not_compared]='s/first\[\*place\] != second\[\*place\]/(first[*place].kind, first[*place].body.len()) != (second[*place].kind, second[*place].body.len())/'
    [first_byte_of_body_left_out]='s/first\[\*place\] != second\[\*place\]/(first[*place].kind, first[*place].body.len(), first[*place].body.get(1..)) != (second[*place].kind, second[*place].body.len(), second[*place].body.get(1..))/'
    [last_byte_of_body_left_out]='s/first\[\*place\] != second\[\*place\]/(first[*place].kind, first[*place].body.len(), first[*place].body.split_last().map(|(_, front)| front)) != (second[*place].kind, second[*place].body.len(), second[*place].body.split_last().map(|(_, front)| front))/'
    [body_as_far_as_both]='s/first\[\*place\] != second\[\*place\]/(first[*place].kind != second[*place].kind || first[*place].body.iter().zip(second[*place].body).any(|(one, other)| one != other))/'
    [first_difference_alone]='s/differ\.chain(both\.\.longest)/differ.take(1).chain(both..longest)/'
    [tail_left_out]='s/differ\.chain(both\.\.longest)/differ/'
    [tail_of_the_first_left_out]='s/first\.len()\.max(second\.len())/second.len().max(both)/'
    [tail_of_the_second_left_out]='s/first\.len()\.max(second\.len())/first.len().max(both)/'
    [tail_of_one]='s/both\.\.longest/both..longest.min(both + 1)/'
    [tail_before_the_rest]='s/differ\.chain(both\.\.longest)/(both..longest).chain(differ)/'
    [missing_length_is_0]='s/second: second\.get(place)\.map(length)/second: second.get(place).map(length).or(Some(0))/'
    [lengths_swapped]='s/first: first\.get(place)\.map(length)/first: second.get(place).map(length)/; s/second: second\.get(place)\.map(length)/second: first.get(place).map(length)/'
    [last_records_matched]='s/let both = first\.len().*/& let shift = first.len() - both;/; s/first\[\*place\] != second\[\*place\]/first[*place + shift] != second[*place]/'
    [second_break_first]='s/let first = records(1, first)?;/let (checked, first) = (records(2, second)?, records(1, first)?);/'
    [second_break_not_looked_at]='s/let second = records(2, second)?;/let second = read(second, NEW).records;/'
    [first_break_not_looked_at]='s/let first = records(1, first)?;/let first = read(first, NEW).records;/'
    [break_in_a_head_passes]='s/^        0 => Ok(read\.records),/        0..=5 => Ok(read.records),/'
    [break_in_the_first_record_passes]='s/match read\.broken\.len() {/match if read.records.is_empty() { 0 } else { read.broken.len() } {/'
    [place_from_1]='s/bytes\.len() - left,/bytes.len() - left + 1,/'
    [place_of_the_end]='s/bytes\.len() - left,/bytes.len(),/'
    [lengths_of_two_bytes]='s/read(bytes, NEW)/read(bytes, crate::log::OLD)/'
)

(
    make_wrong_lines wrong_senders sender.rs
    make_wrong_lines wrong_boards board.rs
    make_wrong_lines wrong_layouts board.rs
    make_wrong_lines wrong_searches command.rs
    make_wrong_lines wrong_far_searches command.rs
    make_wrong_lines wrong_counts receiver.rs
    make_wrong_lines wrong_shapes state.rs
    make_wrong_lines wrong_lamps lamp.rs
    make_wrong_lines wrong_sizes frame.rs
    make_wrong_lines wrong_takings receiver.rs
    make_wrong_lines wrong_drains receiver.rs
    make_wrong_lines wrong_drained_shapes state.rs
    touch "$out/wrong_copies.made"
) &
wrong_copies=$!
children+=("$wrong_copies")
wrongs=$((wrongs + ${#wrong_senders[@]} + ${#wrong_boards[@]} + ${#wrong_layouts[@]} \
    + ${#wrong_searches[@]} + ${#wrong_far_searches[@]} \
    + ${#wrong_counts[@]} + ${#wrong_shapes[@]} + ${#wrong_lamps[@]} \
    + ${#wrong_drains[@]} + ${#wrong_drained_shapes[@]} \
    + ${#wrong_sizes[@]} + ${#wrong_takings[@]} + ${#wrong_limits[@]} + ${#wrong_logs[@]} \
    + ${#wrong_pairs[@]}))

"$out/sessions" traces
"$out/sessions" check 1 "$sessions"
must_fail '^sessions: ' "$out/sessions" check 1 3

# A wrong receiver breaks demand 3 or a trace.
wrong_receiver() {
    wrong_copy "$1" receiver.rs "$2" 1
    rust_program tests/sessions.rs "$copy/sessions" "$copy"
    rust_program tests/second_replay.rs "$copy/second_replay" "$copy"
    must_fail '^sessions: ' "$copy/sessions" check 1 "$sessions"
    wrong_receivers+=("$copy")
}
wrong_receivers=()
wrong_receiver empty_is_last 's/match (frame\.flags(), before) {/match (if frame.payload().is_empty() { LAST_DATA } else { MORE_DATA }, before) {/'
wrong_receiver end_ignored 's/is_some_and(|frame| !frame\.ends())/is_some()/'
wrong_receiver mark_as_1 's/mark << 1 | data/mark | data/'
wrong_receiver mark_left_out 's/mark << 1 | data/data/'
wrong_receiver mark_of_the_last_payload 's/command::loose(&command)/command::loose(frame.payload())/'
wrong_receiver record_of_a_drain 's/ && self\.phase(frame\.request()) != Phase::Draining//'

# Wrong readers of commands, and four that write captures wrongly.
wrong_reader() {
    wrong_copy "$@"
    wrong_readers+=("$copy")
}
wrong_readers=()
wrong_reader nine_levels value.rs 's/LEVELS: usize = 8/LEVELS: usize = 9/'
wrong_reader seven_levels value.rs 's/LEVELS: usize = 8/LEVELS: usize = 7/'
wrong_reader set_without_level value.rs 's/^ *levels\.checked_sub(1)?;$//'
wrong_reader left_over value.rs 's/reader\.rest\.is_empty()\.then_some(value)/Some(value)/'
wrong_reader text value.rs 's/ 2 => Some(Value::Bytes/ 2 | 3 => Some(Value::Bytes/'
wrong_reader other_tag value.rs 's/6 if head\.argument == SET_TAG/6 if head.argument \& 0xff == 2/'
wrong_reader set_of_map value.rs 's/if head\.major != 4 {/if head.major != 4 \&\& head.major != 5 {/'
wrong_reader wide_simple value.rs 's/7 => simple(head\.info)/7 => simple(head.argument as u8)/'
wrong_reader container_key value.rs 's/self\.value(0)/self.value(1)/'
wrong_reader deeper_double value.rs 's/Some(Value::Map(entries))/if levels < 6 \&\& (1..entries.len()).any(|i| entries[..i].iter().any(|e| e.0 == entries[i].0)) { return None; } &/'
wrong_reader name_of_65 command.rs 's/(1\.\.=64)/(1..=65)/'
wrong_reader name_of_0 command.rs 's/(1\.\.=64)/(0..=64)/'
wrong_reader missing_name command.rs 's/name: name?,/name: name.unwrap_or(b"off"),/'
wrong_reader missing_args command.rs 's/name: name?, args }/name: name?, args: Some(args?) }/'
wrong_reader args_no_map command.rs 's/(Value::Bytes(b"redirect"), Value::Map(_)) => {}/& (Value::Bytes(b"args"), ref other) if !matches!(other, Value::Map(_)) => {}/'
wrong_reader args_keys command.rs 's/ if is_args(&map)//'
wrong_reader redirect_no_map command.rs 's/(Value::Bytes(b"redirect"), Value::Map(_))/(Value::Bytes(b"redirect"), _)/'
wrong_reader double_first command.rs 's/let command = shape/if double { return Err(Refusal::DoubleKey); } &/'
wrong_reader outer_double command.rs 's/if double || /if /'
wrong_reader args_double command.rs 's/ || has_double_key(command\.arguments())//'
wrong_reader negative command.rs 's/-1 - n/-n/'
wrong_reader refused_is_counted command.rs 's/read(command)\.map_or(0, |command| command\.arguments/read(command).map_or(1, |command| command.arguments/'
wrong_reader missing_args_count command.rs 's/|command| command\.arguments()\.len() as u64/|command| command.args.map_or(1, |args| args.len() as u64)/'
wrong_reader range command.rs 's/i64::try_from(n)\.map_err(|_| Refusal::OutOfRange)?/n as i64/'
# Wrong readers of loose heads. `forgotten` makes one that does not look at heads of the type $2.
forgotten() { wrong_reader "$1" value.rs "s/self\\.loose |= /&head.major != $2 \\&\\& /"; }
forgotten unsigned_forgotten 0
forgotten negative_forgotten 1
forgotten lengths_forgotten 2
forgotten array_counts_forgotten 4
forgotten map_counts_forgotten 5
forgotten tags_forgotten 6
wrong_reader 23_in_a_byte_is_shortest value.rs '/^const LEAST/s/24, /23, /'
wrong_reader 24_in_a_byte_is_loose value.rs '/^const LEAST/s/24, /25, /'
wrong_reader 255_in_two_is_shortest value.rs '/^const LEAST/s/1 << 8/255/'
wrong_reader 256_in_two_is_loose value.rs '/^const LEAST/s/1 << 8/257/'
wrong_reader 65535_in_four_is_shortest value.rs '/^const LEAST/s/1 << 16/65535/'
wrong_reader 65536_in_four_is_loose value.rs '/^const LEAST/s/1 << 16/65537/'
wrong_reader 4294967295_in_eight_is_shortest value.rs '/^const LEAST/s/1 << 32/4294967295/'
wrong_reader 4294967296_in_eight_is_loose value.rs '/^const LEAST/s/1 << 32/4294967297/'
wrong_reader eight_bytes_are_never_loose value.rs '/^const LEAST/s/1 << 32/0/'
wrong_reader outermost_alone command.rs 's/ && is_loose(command)/ \&\& command[0] \& 0x1f > 23/'
wrong_reader last_head_alone value.rs 's/self\.loose |= /self.loose = /'
wrong_reader keys_and_members_forgotten value.rs 's/^ *self\.value(0)$/let before = self.loose; let plain = self.value(0); self.loose = before; plain/'
wrong_reader set_array_forgotten value.rs '/fn set(/,/^    }/s/let head = self\.head()?;/let before = self.loose; & self.loose = before;/'
wrong_reader redirect_forgotten value.rs 's/entries\.push((key, self\.value(levels)?));/let (before, redirect) = (self.loose, key == Value::Bytes(b"redirect")); & if redirect { self.loose = before; }/'
wrong_reader refused_is_marked command.rs 's/read(command)\.is_ok() && is_loose/is_loose/'
# Wrong readings of a state's bytes.
wrong_bytes() {
    wrong_copy "$1" bytes.rs "$2" 1
    wrong_states+=("$copy")
}
wrong_states=()
wrong_bytes high_byte_first 's/&number\.to_le_bytes()\[\.\.count\]/\&number.to_be_bytes()[8 - count..]/; s/bytes\.iter()\.rev()/bytes.iter()/'
wrong_bytes data_before_phase 's/bytes\.push(slot\.phase as u8);/bytes.push(slot.data.into());/; t; s/bytes\.push(slot\.data\.into());/bytes.push(slot.phase as u8);/; s/match bytes\[2\]/match bytes[3]/; s/flag(&bytes\[3\])/flag(\&bytes[2])/'
wrong_bytes sixth_phase 's/4 => Phase::Draining/4.. => Phase::Draining/'
wrong_bytes running_is_4 's/3 => Phase::Running/3 => Phase::Draining/; s/4 => Phase::Draining/4 => Phase::Running/; s/slot\.phase as u8/[0, 1, 2, 4, 3][slot.phase as usize]/'
wrong_bytes bool_of_two 's/1 => Some(true)/1.. => Some(true)/'
wrong_bytes third_byte_of_pending_ignored 's/pending: little(&plain\[1\.\.\])/pending: little(\&plain[1..3])/'
# What no line shows: the count at another place of the bytes, and a row that is too short by one byte.
wrong_copy count_before_streams bytes.rs 's/^    let open = |index/bytes.push(state.count); &/; s/^    bytes\.push(state\.count);$//; s/let (streams, count) = rest\.split_at(STREAMS)/let (count, streams) = rest.split_at(1)/'
wrong_copy row_of_23 lamp.rs 's/length < ROW/length < ROW - 1/'

wrong_copy notation capture.rs 's/258(\[{}\])/[{}]/'
rust_program tests/programs.rs "$copy/programs" "$copy"
wrong_notation=$copy
wrong_copy quotes capture.rs "s/'\\\\'' | //"
rust_program tests/programs.rs "$copy/programs" "$copy"
wrong_quotes=$copy
wrong_copy loose_not_finished capture.rs 's/self\.bit == 0/self.bit + self.loose == 0/'
rust_program tests/programs.rs "$copy/programs" "$copy"
wrong_finish=$copy
wrong_copy mark_not_shown capture.rs 's/loose: head\[2\] \/ 2/loose: 0/'
rust_program tests/programs.rs "$copy/programs" "$copy"
wrong_shown=$copy
wrong_copy line_cut capture.rs 's/let (count, bytes) = (self\.content\.len(), byte_string(self\.content));/let mut bytes = byte_string(self.content); bytes.truncate(131_072); let count = self.content.len();/'
rust_program tests/programs.rs "$copy/programs" "$copy"
wrong_cut=$copy
make_wrong_lines wrong_limits state.rs
make_wrong_lines wrong_logs log.rs
make_wrong_lines wrong_pairs differences.rs
wait "$wrong_copies" || true
[ -e "$out/wrong_copies.made" ]
children=()
