#!/bin/bash
# Lists, for each point of docs/DESIGN-PASS.md, the lines of src/ in which its places can stand. Run at the top of the repository.
CDPATH= cd -- "$(dirname -- "$0")/.." || exit 2
show() {
    echo "$1: $(grep -nE -- "$2" crates/*/src/*.rt | wc -l)"
    [ -z "$LIST" ] || grep -nE -- "$2" crates/*/src/*.rt
}
show '1a a number as an answer where none is meant' '-> (u8|u32)$'
show '1b the number of a corner or an edge' '-> Option<usize>'
show '1c a mark compared with a number' '== 1 \{'
show '1d a test that another function then requires' 'fn (fits|near_ends|are_within)\('
show '1e own enums' '^(pub )?enum'
show '2a functions that differ in a type, a size or a constant' 'fn (same_point|same_edge|way|difference|corner_number|edge_number|which_corner|which_edge|near_point|is_modest|are_near|near_ends|axis_parts|edge_parts|below_all|all_below|below|held_work|held_work_within|capped_product|capped_sum|across|along|spanned|triangle|outline|part_at|total|work)\('
show '2b types of the same fields' '^(pub )?struct (Point|Vector|Edge|Ends|Corners)\b'
show '3a loops, and counting' '^ *(for|while|loop)\b|\+= 1'
show '3b corners or edges one by one' '\b([a-z]|self|value)\.b\b|&b\b|\bbc\b'
show '4a equality and conversion by hand' 'fn (same_|natural|number)'
show '4b casts' ' as (u64|i64|usize)\b'
show '4c printing of a value' 'println!'
show '5a a triangle within the limits' '\{ modest [a-z.]+ ≡ true'
show '5b a point within the limits' 'near_point [a-z.]+ ≡ true'
show '5c a direction of a bounded length' 'Short [a-z]|short [a-z.]+ ≡ true|≤ 2 \^ 16'
show '5d values at corners within the limits' 'near_corners [a-z.]+ ≡ true'
show '5e an edge, or numbers at its ends, within the limits' '(near_edge|near_ends) [a-z.]+ ≡ true'
show '5f a bounded work' 'unsigned_abs (z|result) ≤ 2 \^ 42'
show '5g a bounded area or square' '≤ 2 \^ 33|< 2 \^ 61'
show '5h a plate and values on it' 'plate: &View, [us]: &V'
show '5i two triangles' '\bs: &[A-Za-z<>]+, t: &'
show '6a counts beside numbers' 'pub (triangles|edges): usize'
show '6b lent rows in structs' "pub [a-z]+: &'[a-z]+ \["
show '7 a parameter that says which quotient' 'kind: Kind'
echo "8a answers: $(git ls-files crates | grep '/Answers\.antt$' | xargs cat | grep -cE '^pub [^ ]+ : ')"
echo "8b lemmas: $(git ls-files crates | grep -E '^crates/[^/]+/proofs/[^/]+\.antt$' | xargs cat | grep -cE '^ *(pub )?[^ ]+ : ')"
