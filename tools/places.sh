#!/bin/sh
# Prints the lines of the sources in which the places of docs/DESIGN-PASS.md are looked for, point by point.
# Run it at the top of the repository: sh tools/places.sh, or sh tools/places.sh 3 for one point.
want=$1

look() {
    point=$1
    pattern=$2
    if [ -n "$want" ] && [ "$want" != "$point" ]; then
        return 0
    fi
    echo "== point $point"
    find crates -name '*.rt' -path '*/src/*' ! -path '*/out/*' | sort | xargs grep -nE "$pattern"
}

# refusals and kinds: a match that hands a refusal on, a test of a number for a kind, a bool for a refusal, a number for a setting
look 1 '=> return Err|None => (Err|None)|Err\(_\) => None|Ok\(_\) => false|Ok\(\(\)\) => false|unreachable|\? == [0-9]|Result<bool>|\) else \{$|= next else|rows\) = .* else|number: u32|Result<u32, Fault>|Result<u32>|lowest_absent\('
# twins: tables of one kind, a constant said three times, one function at two types, two that forward one another
look 2 '^pub (struct|type) (Levels|Walls)|^impl (Levels|Walls)|fn (needed|greatest_stake|total_stake|total_upper|total_weight|put_short|put_long|read_edition|read_entry|full|new|len|as_slice|find|enter|set|enter_level|enter_wall|drop_level|drop_wall|strike)\b'
# loops: over a count, by a hand-kept count, by a hand-kept sum
look 3 'for [a-z_]+ in .*\.\.|\bwhile\b|\bloop\b|\+= 1;|\.enumerate\(\)|total \+=|^ *for '
# equality, order, copying, conversion, printing and blanks by hand; derives that leave some out
look 4 'fn (number|holds|is|of|at_most|smaller|larger|edition_at|named|clone|fmt|eq|cmp|put_[a-z]+)\b|derive\((Drop|Clone, Copy|Clone, Copy, PartialEq, Debug)\)|(height|position|force|lo): 0,'
# facts in clauses, by their word, and parameters that travel together
look 5 '(requires|ensures).*(Whole|Rising|Each|InRange|Fair|Loaded|Small|Ready|Falling|Borne)|out: &mut \[u8\], at: usize|weight: u32, (period|gravity)|portion: Portion, top: u32|text: &\[u8\], place'
# buffers with a length beside them, parallel arrays, sorted lists searched by hand
look 6 '; (64|16|N|ROOM)\]|count: usize|const RANGES|forces: &\[u32\]|(first|second|third): &|fn seek'
# what is called by a trait of one step, a pointer or a dyn
look 7 'pub trait|dyn |fn\(|Fn(Once|Mut)?\('
