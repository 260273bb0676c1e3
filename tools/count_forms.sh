#!/usr/bin/env bash
# Lists, line by line, the places in src/ that an older form of code may hold; docs/DESIGN-PASS.md says what they are.
# Run at the top of a checkout: tools/count_forms.sh, or tools/count_forms.sh -c for the counts alone.
set -u
only_counts=${1:-}
event='GREEN_BEGINS|GAP_OUT|MAX_OUT|FORCE_OFF|YELLOW_BEGINS|YELLOW_ENDS|RED_CLEARANCE_ENDS|DETECTOR_OFF|DETECTOR_ON'
src() { grep -rnE --include=*.rt "$@" crates/*/src; }
show() {
    local found
    found=$(cat)
    printf '%s: %s\n' "$1" "$(printf '%s' "$found" | grep -c .)"
    [ "$only_counts" = -c ] || { [ -z "$found" ] || printf '%s\n' "$found" | sed 's/^/    /'; }
}

src "\b($event)\b" | grep -vE ':use |:    [A-Z_, ]+,$' | show '1a numbers that name a kind of event'
src '(\bcode|\bcause|opening_code|further_codes|OPENING|FURTHER|fn number|fn refused|cases: )\w*(\([^)]*\)|<[^>]*>\([^)]*\))?( ->|:) *&?(.static )?\[?\(?(\[u8; 8\], )?u8' | show '1b fields, parameters, results and constants whose number is a kind'
src '^    (green|yellow|clearance|red|cause): u' | show '1c numbers that count only once a flag or a code says so'
{ src '(Err\(\w+\)|None|Ok\(\w+\)|Ok\(\(\)\)|_) => (Err|Ok|None|Some|return|0|\(0|table)'; src -A1 'else \{$' | grep -E 'return (None|Err|Ok\(0)'; } | show '1d a Result or an Option taken apart and made again'
grep -rhoE --include=*.rt '\bfn \w+' crates/*/src | sort | uniq -c | sort -k1,1nr -k3 | awk '$1>1' | show '2 names with more than one definition'
src '^\s*(for|while|loop)\b.*\{$' | show '3a loops'
src '\+= |= number;|saturating_add\(1\);|- 1\]' | show '3b numbers that count, and indices, by hand'
src 'fn (from_|to_byte|by_name|words|number|tenths|read|decode|fmt|eq|cmp|clone)\w*|<= channel|channel (==|>|<=) |phase <= ' | grep -v reads_presence | show '4 conversions, printing and range tests by hand'
src 'phase: u8, uses: Uses|phase, uses\)|channel: u8, (row|place)|channel: u8\)|text: &mut String|^    text: &mut|opened: u32, occupied|^    (mut )?measure: (&mut )?M,$' | show '5a parameters that travel together'
src '(requires|ensures).*(\.mask|\.places|\.tenths|result\.number|\.at\b)' | show '5b clauses that name a private field'
src 'ensures.*(MayClose|Whole) ' | show '5c clauses of a close and of its figures'
src 'ensures same ' | show '5d clauses that the settings stay'
src '(places|mask|at|number|log): ' | grep -vE 'fn |: &.\[u8\]\)' | show '6 buffers, places and cursors'
src '\bdyn\b|\bfn\(|match .*(code|shows|event|stage)' | show '7 switches on a kind or a state'
for crate in crates/*/; do
    [ -d "${crate}proofs" ] && echo "8 ${crate}proofs: $(find "${crate}proofs" -name '*.antt' | wc -l) files, $(find "${crate}proofs" -name '*.antt' -exec cat {} + | wc -l) lines"
done
