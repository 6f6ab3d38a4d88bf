#!/bin/sh
# Counts in src/ the places that docs/DESIGN-PASS.md speaks of, and with -l lists them. Not every line is such a place: the page says
# which are.
cd "$(dirname "$0")/.." || exit 1
list=$1

# What it is, and the lines that have it.
count() {
    lines=$(grep -rnE "$2" --include=*.rt crates/*/src)
    echo "$1: $(printf '%s' "$lines" | grep -c .)"
    if [ "$list" = -l ]; then printf '%s\n' "$lines"; fi
}

count '1a enums' '^(pub )?enum '
count '1b numbers with a name' '^(pub )?const [A-Z_]+: u32 = [0-9]+;'
count '1c 0 for none' '(counted from 1|empty or filled|in the net).*, or 0[.:]|^// .*, or 0\.$'
count '1d a refusal as numbers' 'number: u32|Refused\(u32\)|Beyond\(u32, u32\)'
count '2 functions and structs with a twin' 'fn (script_room|text_room|word_room|byte_room|out_room|untouched_word|untouched_byte|fill_words|fill_bytes|words_untouched|bytes_untouched|load_sides|store_sides|read_number|read_wide|all_due|lower|raise|net_width|rows_width|side_width|sets_width|set_width|word_width)[(<]|struct (FreshResult|PutResult|LearnResult|NetReading) '
count '3a while and loop' "^ *('[a-z]+: )?(while .*|loop )\\{\$"
count '3b for over a range' '^ *for [a-z_]+ in [^{]*\.\.'
count '4 equality, copying, conversion and printing by hand' 'fn (same_bytes|are_same|copy_words|is_row|put_answer|answered|row_put|larger|write_answer|write_values|write_listing|write_value|write_pair|print_name|refused|is_listed|load|store)[(<]'
count '5 numbers of registers' 'requires.*r < 4'
count '6a a text and the part of it from an index to another' '(i|w|at): usize, (k: usize, )?e: usize|i: usize, w: usize|^    i: usize,$'
count '6b a buffer and an index into it' '(out|buf): &mut \[u8\], at: usize|^    at: usize,$'
count "6c arrays of a net's sides" '(masks|input_len|outputs|lengths): &'
count '7 switches on a word or a number' 'if same_bytes\((script|s), i, (w|j)|if call (==|<) '
