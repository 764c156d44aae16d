#!/bin/sh
# The lines of src/ that may be places of the design pass, point by point: sh tools/places.sh [FOLDER]
# docs/DESIGN-PASS.md says what each point is, and which of these lines are places.
cd "${1:-.}" || exit 1
show() {
    echo "== $1"
    grep -nE "$2" crates/*/src/*.rt | grep -vE "${3:-^$}"
}
show "1: values that stand for none, flags, options and errors taken apart by hand" \
    'Nothing,|&mut self.*-> bool|for none|0 where|None => None|Err\(_\) =>|Ok\(\(\)\) => Ok\(\(\)\)|anyhow!\(|let mut [a-z]+ = (true|false)|number: 0 \}|seconds: 0 \}|None => 0'
echo "== 1: an option made by a test"
grep -nE -A1 'else \{$' crates/*/src/*.rt | grep -E '(None|Some\(.*\))$'
show "3: loops" 'for [a-z_()&, ]+ in |while ' '//|impl'
show "4: comparing, converting and printing by hand" \
    'fn (is_newer|same|is|number|words|name_of|name_text|method_text|method_name|answer_text|shown_text|partstat|property_number|from|try_from|four_digits|leading_zeros|is_for)\b'
show "4: texts compared one after another" 'same\(name|strip\(text, b"[A-Z]|same\(text'
show "4: ranges by two comparisons" '(<=|<|>|>=) [^|&]+ (&&|\|\|) '
show "5: parameters and facts that travel together" \
    'buffer: &mut \[u8\], at: usize|entries: &mut Vec<Entry>|to: Address, text: &\[u8\]|method: Method, read: usize|length buffer\.old|vec_capacity entries'
show "6: buffers with a length beside them" 'len: usize,|count: usize,|bytes: \[u8|further: \[Period|\[u8; [A-Z]+\], usize'
show "7: switches and closures" 'enum (Class|Fate|Made|Stage|Kind)|Fn|dyn '
