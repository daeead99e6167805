#!/bin/sh
# Counts the places of docs/DESIGN-PASS.md in the sources of a tree: tools/design_places.sh [FOLDER OF CRATES]
cd "${1:-crates}" || exit 1
src() { cat */src/*.rt; }
inner() { cat sectors/src/*.rt files/src/*.rt; }
flat() { src | tr '\n' ' '; }
count() { printf '%-66s %s\n' "$1" "$2"; }
facts() { src | grep -E '^ *requires' | grep -cE "$1"; }
together() { flat | grep -oE "$1" | wc -l; }

count '1 enums of the shape of Option or Result' "$(src | grep -cE '^ *pub enum (Fault|Header|Sector|Verdict)\b')"
count '1 answers that are a fault, a header, a sector or a verdict' "$(src | grep -cE '^ *(pub fn|fn|\)).* -> \[?(Fault|Header|Sector|Verdict|Expected)\b')"
count '1 answers that are a reply with a number (bridge left out)' "$(inner | grep -cE '^ *(pub fn|fn|\)).* -> (Reply|FirstTrack)$')"
count '1 comments that name a number for none' "$(src | grep -E '^ *//' | grep -cE '16 where there is none|9 where to none|0 for none|0 where it has none|the number of blocks (where|if)|or the number of|or the directory.s end|NO_FILE where it|which of the first n parts')"
count '1 constants for none' "$(src | grep -cE 'const (NO_BLOCK|NO_FILE|LATER|ELSEWHERE)\b')"
count '1 a reply tested by its number' "$(src | grep -cE '\.number [!=]= ')"
count '2 functions that differ by a width, a kind or a fixed choice' "$(src | grep -cE '^ *(pub )?fn (high2|high3|high4|low2|put_high2|put_high4|put_low2|block_word2|block_word4|put_word2|put_word4|wide|count_free|count_bad|is_free|is_bad|coded_side|write_plain_side|write_coded_side|image_side|version_side|write_version_side|least)\b')"
count '3 while' "$(src | grep -cE '^ *while ')"
count '3 for over a range' "$(src | grep -cE '^ *for [a-z_]+ in .*\.\.')"
count '4 conversions and tests by hand' "$(src | grep -cE '^ *(pub )?fn (wide|block_number|number_of|record_of|encoded_record|is_free|is_bad|is_sound|place_of|reversed_bits|lowered_byte|has_field|bytes_agree)\b')"
count '4 arms that answer true or false' "$(src | grep -cE '=> (true|false),')"
count '4 casts by as' "$(src | grep -oE ' as (u8|u16|u32|u64|usize)\b' | wc -l)"
count '4 types that derive only Clone and Copy' "$(src | grep -cE '^ *#\[derive\(Clone, Copy\)\]')"
for f in 'length image\.(now|old) ≡ image_bytes' 'table_fault hfe\.(now|old) ≡' 'PlainImage' 'MapLoaded map' 'InStep map' 'Located' 'Exchanges' 'head < sides' 'length content\.(now|old) ≡ sector_bytes' 'length places' 'w\.(start|first|count) <'; do
    count "5 requires with $f" "$(facts "$f")"
done
count '5 part, side' "$(together 'part: &\[u8\],\s+side: Side')"
count '5 w, old, new' "$(together 'w: SideBytes,\s+old: &\[u8; CHANGED\],\s+new')"
count '5 image, map' "$(together 'image: &(mut )?\[u8\],\s+map: &')"
count '5 image, dir' "$(together 'image: &\[u8\],\s+dir: &')"
count '5 first, next' "$(together 'first: &(mut )?FirstBlocks,\s+next')"
count '5 track, side, sector' "$(together '(track|t): usize,\s+(head|s): usize')"
count '5 head, content' "$(together 'head: &\[u8\],\s+content: &')"
count '6 a row with its length beside' "$(together 'name: &\[u8\],\s+namelen: usize|dir: &BlockRow,\s+unnoted: bool,\s+k: usize,\s+name: &\[u8\],\s+n: usize')"
count '6 rows that a function fills for its caller' "$(src | grep -oE '(map|row|first|next|tally|noted|places|data_places): &mut (MapNumbers|BlockRow|FirstBlocks|PartTally|BadTally|\[usize)' | wc -l)"
count '7 a bool that chooses what is done' "$(src | grep -cE 'fn (item_byte|is_counted|count_records|field_fault)\(.*bool')"
count '7 closures' "$(src | grep -cE '\|[a-z_&(), ]*\| ?[^|]')"
count '8 files of answers and invariants' "$(find */proofs -name Answers.antt -o -name Invariants.antt | wc -l)"
count '8 their lines' "$(find */proofs \( -name Answers.antt -o -name Invariants.antt \) -exec cat {} + | wc -l)"
count '8 lines of src' "$(src | wc -l)"
