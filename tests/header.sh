#!/bin/sh
# Nothing checks a declaration in C or Rust against the Rattle source when it is linked, so this compares them: types, widths
# and order, with names, since parameters of one type could change places unseen. Then it sees that a wrong type, a wrong order
# and a wrong width are each found, in the header and in the Rust declarations.
set -eu
root=$(dirname "$0")/..
source=$root/crates/marshbodkin_c/src/lib.rt
header=$root/include/marshbodkin.h
declarations=$root/rust/sys/src/lib.rs
scratch=$(mktemp -d)
trap 'rm -rf "$scratch"' EXIT

# The functions after OPENING in a Rattle or Rust file, as C prototypes. An unknown type stays as it is. The bytes of a record
# are called so in the Rattle source, where "record" is a word of the language.
as_c() {
    sed 's,//.*,,' "$2" | awk -v opening="$1" '
        BEGIN {
            c["u32"] = "uint32_t "; c["u64"] = "uint64_t "; c["&mut u32"] = c["*mut u32"] = "uint32_t *"
            c["usize"] = "size_t "; c["&mut usize"] = c["*mut usize"] = "size_t *"
            c["&[u8]"] = c["*const u8"] = "const uint8_t *"; c["&mut [u8]"] = c["*mut u8"] = "uint8_t *"
        }
        function parameter(text,    name, type) {
            name = text; sub(/ *:.*/, "", name); sub(/^ */, "", name)
            type = text; sub(/^[^:]*: */, "", type); sub(/ *$/, "", type)
            if (!(type in c)) return type " " name
            if (name == "bytes") name = "record"
            return c[type] name (type ~ /\[u8\]/ ? ", size_t " name "_length" : "")
        }
        function prototype(text,    name, result, parameters, number, i, list) {
            name = text; sub(/ ?\(.*/, "", name)
            result = text; if (!sub(/.*\) *-> */, "", result)) result = "void"
            if (result == "u32") result = "uint32_t"
            sub(/^[^(]*\(/, "", text); sub(/,? *\).*/, "", text)
            number = split(text, parameters, ",")
            for (i = 1; i <= number; i++) list = list (i > 1 ? ", " : "") parameter(parameters[i])
            return result " mb_raw_" name "(" list ")"
        }
        { text = text " " $0 }
        END {
            gsub(/[ \t]+/, " ", text)
            while ((at = index(text, opening)) > 0) {
                text = substr(text, at + length(opening))
                match(text, /^[a-z0-9_]+ ?\([^)]*\)( -> [a-z0-9]+)?/)
                print prototype(substr(text, 1, RLENGTH))
            }
        }' | sort
}

# The prototypes of the header, which stand before its first inline function.
prototypes() {
    awk '
        /^#/ { next }
        /^static inline/ { exit }
        { text = text " " $0 }
        END {
            while ((at = index(text, "/*")) > 0) {
                rest = substr(text, at)
                text = substr(text, 1, at - 1) " " substr(rest, index(rest, "*/") + 2)
            }
            gsub(/[ \t]+/, " ", text)
            while (match(text, /[a-z0-9_]+ \**mb_raw_[a-z0-9_]+\([^)]*\);/)) {
                one = substr(text, RSTART, RLENGTH - 1)
                text = substr(text, RSTART + RLENGTH)
                sub(/\(void\)/, "()", one)
                print one
            }
        }' "$1" | sort
}

# A header is held to the source, and so are Rust declarations. What differs is printed.
held_header() { prototypes "$1" | diff "$scratch/exported" -; }
held_declarations() { as_c 'pub fn mb_raw_' "$1" | diff "$scratch/exported" -; }

# The file with one edit, which must change it, is found wrong: found CHECK FILE EDIT
found() {
    sed "$3" "$2" >"$scratch/edited"
    if cmp -s "$2" "$scratch/edited" || "$1" "$scratch/edited" >/dev/null; then
        echo "header.sh: not found in $2: $3" >&2
        exit 1
    fi
}

as_c '#[unsafe(no_mangle)] pub extern "C" fn mb_raw_' "$source" >"$scratch/exported"
if [ ! -s "$scratch/exported" ]; then
    echo "header.sh: no exported function in $source" >&2
    exit 1
fi
held_header "$header"
held_declarations "$declarations"
found held_header "$header" '/mb_raw_count/s/const uint8_t/uint8_t/'
found held_header "$header" 's/uint32_t \*kind, uint32_t \*largest/uint32_t *largest, uint32_t *kind/'
found held_header "$header" 's/uint8_t \*ram, size_t ram_length/uint8_t *record, size_t record_length/; s/uint8_t \*record, size_t record_length, uint32_t budget/uint8_t *ram, size_t ram_length, uint32_t budget/'
found held_header "$header" 's/uint32_t k,/uint64_t k,/'
found held_header "$header" '/mb_raw_read_bundle/s/uint64_t never_return/uint32_t never_return/'
found held_header "$header" '/mb_raw_step/s/, uint64_t never_return//'
found held_header "$header" 's/uint32_t profile, uint32_t k/uint32_t k, uint32_t profile/'
found held_header "$header" 's/uint32_t profile, uint32_t \*count/uint32_t *count/'
found held_header "$header" 's/^uint32_t mb_raw_fresh/uint8_t mb_raw_fresh/'
found held_header "$header" 's/uint32_t \*position, uint32_t \*steps/uint32_t *steps, uint32_t *position/'
found held_header "$header" 's/size_t room_length, uint32_t \*position/size_t room_length/'
found held_header "$header" 's/size_t \*length/uint32_t *length/'
found held_header "$header" 's/size_t \*length, uint32_t \*position/uint32_t *position, size_t *length/'
found held_header "$header" 's/uint32_t window_start, uint32_t window_end/uint32_t window_end, uint32_t window_start/'
found held_header "$header" 's/uint32_t window_start, uint32_t window_end,//'
found held_header "$header" 's/uint32_t window_end/uint64_t window_end/'
found held_header "$header" 's/const uint8_t \*index/uint8_t *index/'
found held_header "$header" '/mb_raw_image_build/s/const uint8_t \*image/uint8_t *image/'
found held_header "$header" 's/uint32_t profile, uint32_t number/uint32_t number, uint32_t profile/'
found held_header "$header" 's/uint32_t number/uint64_t number/'
found held_header "$header" '/mb_raw_version/d'
found held_declarations "$declarations" 's/page: \*const u8/page: *mut u8/'
found held_declarations "$declarations" 's/value: \*mut u32/values: *mut u32/; s/literal: \*mut u32/value: *mut u32/; s/values: \*mut u32/literal: *mut u32/'
found held_declarations "$declarations" 's/budget: u32/budget: u64/'
found held_declarations "$declarations" 's/never_return: u64/never_return: u32/'
found held_declarations "$declarations" 's/profile: u32/profile: u64/'
found held_declarations "$declarations" 's/profile: u32/which: u32/; s/ k: u32/ profile: u32/; s/which: u32/k: u32/'
found held_declarations "$declarations" 's/page_length: usize/page_length: u32/'
found held_declarations "$declarations" '/mb_raw_run/,/-> u32/{ s/position: /positions: /; s/steps: /position: /; s/positions: /steps: /; }'
found held_declarations "$declarations" '/mb_raw_load/,/-> u32/{ /position: /d; }'
found held_declarations "$declarations" 's/ length: \*mut usize/ length: *mut u32/'
found held_declarations "$declarations" 's/window_start: u32/window: u32/; s/window_end: u32/window_start: u32/; s/window: u32/window_end: u32/'
found held_declarations "$declarations" '/mb_raw_step/,/-> u32/{ /window_start: /d; }'
found held_declarations "$declarations" 's/window_end: u32/window_end: u64/'
found held_declarations "$declarations" '/mb_raw_image_run/,/-> u32/s/index: \*const u8/index: *mut u8/'
found held_declarations "$declarations" '/mb_raw_image_replace/,/-> u32/{ s/image: /images: /; s/index: /image: /; s/images: /index: /; }'
found held_declarations "$declarations" 's/number: u32/number: u64/'
echo "header.sh: $(wc -l <"$scratch/exported") declarations held to the source in C and in Rust; thirty-seven wrong ones found"
