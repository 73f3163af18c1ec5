#!/bin/sh
# Counts, in src/ of all crates, the places at which each form stands that docs/DESIGN-PASS.md speaks of. Run it at the top of a checkout.
count() { printf '%4d  %s\n' "$(grep -nE "$2" crates/*/src/*.rt | wc -l)" "$1"; }

count '1 enums of the shape of Option or Result' '^(pub )?enum (Chosen|Incoming|Holding|Holder)\b'
count '1 constants that number kinds, codes, answers and refusals' \
    '^(pub )?const ((DROP|CODE|WALK|CLOCK)_[A-Z_]+|NOT_REPLY|OTHER_PATH|LINKS_ROOM|SENT_ON|SENT_HOME|TO_GROUP|NOBODY_THERE|QUERY|REQUEST|REPLY|STANDARD|AUGMENTED|SOURCE_AND_GROUP|GROUP_ONLY|SOURCE_ONLY|INTERFACE_KIND|ROUTE_KIND): u(8|32)'
count '1 fields that flag or number what stands beside them' '^    (pub )?(number|valid|found|more|answer|end|rank): (u32|bool|usize|u64),'
count '1 functions that answer a number for a refusal, or 0 for none' \
    '^(    )?(pub )?fn (header_number|row|check|copy_next|augmented_at|lent_row|sheet_row|delivery_row|route_row|answer|step_by|step_lent|step|loss|send_longer|send_full|code_of|code_on|late_code|next_at|next_known|unix|start|advance)\(.*-> (u32|u8|usize|Tick|Units)$|^\) -> u32$'
count '2 functions that widen a byte' '^(pub )?fn (wide|wide32)\b'
count '2 loops over the commands of a program' '^fn (run|run_all)\b'
count '2 twins for interfaces and routes' '^(pub )?fn (interfaces_ok|routes_ok|(interface|route)_(block_ok|block_at|blocks_ok))\b'
count '2 twins by width' '^(pub )?fn (be16|be32|be64|put16|put32|put64|le32|le64|swapped32|swapped64)\b'
count '3 loops by while and loop' '^ *(while|loop)\b'
count '3 lines that count an index on' '^ *[a-z]+ (\+|-)= 1;'
count '4 smaller of two, one of two' '^(pub )?fn (smaller|least|either)\b'
count '4 numbers of bytes by factors' '\* (256|65536|16777216|4294967296|281474976710656)\b'
count '4 largest and next numbers written out' '= (18446744073709551615|4294967295|4294967296|72057594037927936|281474976710655|65535);'
count '4 lines that print a number by a call' '^ *tape::(then|then_byte|whether|text|end)\('
count '5 clauses that a format is sound' 'requires( sound)? \{ Sound f \}'
count '5 functions that take message, destination, receiving and ttl' '\bttl: u32,?$'
count '6 functions that take a text and a place in it' 'text: &mut \[u8\], (at|from): usize'
count '6 functions that take areas side by side' '^    (recent|written|handed|ends|codes): &mut \[(u8|u64; 256)\],$|^    codes: &mut'
count '7 tests of which command it is' 'if (operation|command\[0\]) =='
