#!/bin/bash
# Finds, in the code of all crates, the places that docs/DESIGN-PASS.md counts: by point, each with how many lines it shows.
# It finds lines to be read, and more than are meant: the page says which of them are places.
cd "${1:-$(dirname "$0")/..}" || exit 1
rust=$(find crates/*/src -name '*.rt' | sort)

point() {
    echo "== $1"
    cat
    echo
}

show() {
    lines=$(grep -nHE -e "$1" $rust | sed 's/^crates\///')
    echo "-- $1 : $(printf '%s' "$lines" | grep -c '')"
    printf '%s\n' "$lines"
}

{
    show '^(pub(\(crate\))? )?enum '
    show 'NOBODY|=> 0,$|return 0;|^    [a-z]+\.len\(\)$'
    show '-> (Result<)?\((bool|u8|usize),|-> u8( \{)?$'
    show '^ +[0-9]+ => \{|put_field\(buffer, [0-9]|^ +[0-9],$'
} | point '1 options and results of their own, numbers for none and for kinds'

{
    show '(cell|policy|policies|cells)_?[a-z]*\('
    show 'struct (Cell|Policy)[A-Z]|enum (Cell|Policy)[A-Z]'
    show 'fn (one|two|long|place|free|number|write|values|fault|all)_[a-z_]*\('
    show 'fn [a-z]+_found|struct [A-Z][a-z]+Store|fn (read|write)\(&'
} | point '2 twins'

{
    show 'for [a-z_]+ in [^{]*\.\.|for [a-z_]+ in \(|while |loop \{'
    show '(number|count|index|at|i) \+= 1;'
    show '\.enumerate\(\)'
} | point '3 loops'

{
    show 'fn (same_|eq|number|values|to_|from_|of|get|new|reason|request)[a-z_]*\('
    show '^impl.* for '
    show 'derive\('
} | point '4 equality, conversion and printing'

{
    show 'requires '
    show 'ensures (opened|commits|places?) '
    show 'option_map fault_values'
    show 'fn [a-z_]+(<[^>]*>)?\((&(mut )?self, )?(bytes: [^,]*, count|slot: SlotIndex, transaction)|^        slot: SlotIndex,$|^    cells: &'
} | point '5 facts and parameters that travel together'

{
    show '^    [a-z]+: \[[A-Za-z0-9]+; [A-Z0-9]+\]'
    show '^    (pub(\(crate\))? )?(count|len|limit|size): usize,'
} | point '6 buffers with a length beside them'

{
    show 'fn\(|dyn |impl Fn|F: Fn'
    show 'enum (Action|Step|Call|Ask) '
} | point '7 switches on steps, tables of functions'

echo "== 8 proofs"
for crate in crates/*/; do
    files=$(find "$crate"proofs -name '*.antt' 2>/dev/null)
    answers=$(find "$crate"proofs -name 'Answers.antt' 2>/dev/null | wc -l)
    lines=$(cat $files /dev/null | wc -l)
    echo "$(basename "$crate"): $answers files of answers, $lines lines of proofs"
done
