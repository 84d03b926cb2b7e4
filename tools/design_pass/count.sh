# The counts of docs/DESIGN-PASS.md: count.sh CHECKOUT.
cd $1
n() { git ls-files 'crates/*/src/*.rt' 'crates/*/src/**/*.rt' | sort -u | xargs grep -hE "$@" | wc -l; }
a() { git ls-files 'crates/*/src/*.rt' 'crates/*/src/**/*.rt' | sort -u | xargs grep -hE -A1 "$1" | grep -cE "$2"; }
echo "1a $(n '^\s*(Ok|Err|Some|None)(\([a-z_]*\))? => (return )?(Ok|Err|Some|None)\b')"
echo "1b $(a 'let (Some|Ok|[A-Za-z]+::[A-Za-z]+)\b.*else \{$' 'return (None|false|0|Err|Ok\(None\)|Ok\(false\)|Ok\(Line|Line)')"
echo "1c $(n 'Option<(Cause|ObjectFaultKind)>')"
echo "1d $(n '^\s*(None|Err\(_\)) => (false|0)\b')"
echo "1e $(n '^(pub(\(crate\))? )?enum ')"
echo "1f $(n ': bool\b|-> Result<bool')"
echo "3a $(n '^\s*for _?\w+ in 0\.\.')"
echo "3b $(n '^\s*(while|loop)\b')"
echo "3c $(a '^\s*for \w+ in [a-z_]+ \{' '^\s*if ')"
echo "3d $(n '^\s*(for|while|loop)\b')"
echo "4a $(n 'derive\(Clone, Copy\)')"
echo "4b $(n '/ (256|65536|0x100|0x1_0000|0x100_0000)\b|\* (256|65536|0x100|0x1_0000)\b')"
echo "4c $(n 'fn (number|name_of|kind_of|word|words_of|put_word|held_word|copy_word|of_cryptogram|from_information|cause_of|of_reader|cause_of_reading)\(')"
echo "8a $(git ls-files 'crates/*/proofs/**' | grep -c 'Answers.antt')"
echo "8b $(git ls-files 'crates/*/proofs/**' 'crates/*/proofs/*' | sort -u | grep antt | xargs cat | wc -l)"
echo "9 $(git ls-files 'crates/*/src/*.rt' 'crates/*/src/**/*.rt' | sort -u | xargs cat | wc -l)"
