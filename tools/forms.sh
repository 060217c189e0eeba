#!/usr/bin/env bash
# Lists the places of one form in src/, one line each: tools/forms.sh POINT [FOLDER]. docs/DESIGN-PASS.md says what each point is, and
# what of the lists is a place.
set -uo pipefail
point=${1:?a point from 1 to 8}
cd "${2:-$(dirname "$0")/..}" || exit 1
sources() { find crates -path '*/src/*' -not -path '*/out/*' -name '*.rt' | sort; }
lines() { sources | xargs grep -nE "$@"; }
# what spans lines: a Perl expression over each whole file
spans() { sources | xargs perl -0777 -ne 'BEGIN { $re = shift @ARGV if 0 } while (/'"$1"'/g) { my $at = 1 + (substr($_, 0, $-[0]) =~ tr/\n//); my $t = $&; $t =~ s/\s+/ /g; print "$ARGV:$at:$t\n" }'; }
case $point in
1)
    echo "# a refusal handed out as an Option"
    lines -- '-> Option<(Rule|StoreRefusal|Refusal)>'
    echo "# a result passed on by hand"
    spans '(Ok\((\(\)|\w+)\) => (\{\}|\w+|Ok\(\w*(\(\))?\)),?\s*)?(Err|Some)\((\w+)\) => (return )?Err\([^;\n]*\6[^;\n]*\)|if let (Some|Err)\((\w+)\) = [^{]*\{\s*return Err\([^;]*\9[^;]*\);'
    echo "# an own enum that holds a value or nothing, or one of two"
    spans '(pub )?enum \w+(<[^>]*>)? \{[^}]*\}'
    echo "# a number for a kind, a rule or a refusal"
    lines '\b(number|rule|kind|mark|code): (u8|Option<u8>)|number -> u8|\) -> u8$|fn number\('
    echo "# a flag among fields"
    lines '^ +(pub )?\w+: bool,'
    ;;
2)
    echo "# impls of one trait"
    lines '^impl.* for '
    echo "# constants"
    lines '^(pub )?const '
    echo "# functions by their names"
    lines '^ *(pub(\(crate\))? )?fn '
    ;;
3)
    echo "# loops that are no for, and ranges"
    lines '\bwhile\b|\bloop \{|\bfor \w+ in [^{]*\.\.'
    echo "# counts by hand"
    lines '(\+|-)= 1;|\bnext \+=|= .*\.wrapping_add\(1\);'
    ;;
4)
    echo "# conversions and printing"
    lines 'fn (number|title|layer|part|print_\w+|report_of|tell|unfit|\w+_number|\w+_word|root_mark|\w+_answer)\b|impl.* (Display|From<[^>]*>|TryFrom<[^>]*>|PartialEq|Eq|Ord|PartialOrd|Clone|Copy)( |<).*for '
    ;;
5)
    echo "# facts by how many contracts hold them, three or more"
    lines -h '^ *(requires|ensures)' | sed -E 's/^[0-9]+://; s/^ *(requires|ensures)\*? *\w* *\{ *//; s/ *\}$//' | tr '\n' '\001' | sed -E 's/ × /\n/g' | tr '\001' '\n' | sed -E 's/^\(+//; s/\)+$//' | sort | uniq -c | awk '$1 >= 3' | sort -rn
    echo "# functions of four parameters or more"
    spans 'fn \w+(<[^(]*>)?\((\s*[^,()]+(\([^)]*\))?,){4,}[^)]*\)'
    ;;
6)
    echo "# buffers, lists and their lengths"
    lines '\[[a-zA-Z0-9]+; *[A-Z0-9a-z_]+\]|&mut \[|Vec<'
    ;;
7)
    echo "# closures and functions as values"
    lines '\|\w*[^|]*\| |impl Fn|dyn |fn\(|FnOnce|FnMut'
    ;;
8)
    for crate in crates/*; do
        printf '%s %s lines in %s proof files\n' "${crate#crates/}" "$(find "$crate/proofs" -name '*.antt' -exec cat {} + 2>/dev/null | wc -l)" "$(find "$crate/proofs" -name '*.antt' 2>/dev/null | wc -l)"
    done
    ;;
esac
