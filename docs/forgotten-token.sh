#!/bin/sh
# Sees that a program which forgets the token of a transaction is refused, and that the same program
# is accepted when it spends the token.
#
#     docs/forgotten-token.sh
#
# The program is made in a temporary folder, beside copies of the crates that it uses. They are proved
# there first, which takes about two minutes. Ends with status 0 if both are seen, and else with 1.
set -eu

top=$(cd "$(dirname "$0")/.." && pwd)
work=$(mktemp -d)
trap 'rm -rf "$work"' EXIT
mkdir -p "$work/crates/forgets/src"
for crate in stores transactions; do
    mkdir "$work/crates/$crate"
    cp -r "$top/crates/$crate/src" "$top/crates/$crate/specs" "$top/crates/$crate/proofs" "$work/crates/$crate/"
done
cat > "$work/crates.txt" <<'LIST'
stores:
transactions: stores
forgets: transactions stores
LIST

# The program, with what is given as its last lines.
program() {
    cat > "$work/crates/forgets/src/lib.rt" <<'CODE'
#![tactic(auto)]

use stores::fault::StoreFault;
use stores::store::TransactionalStore;
use stores::words::Words;
use transactions::journal::Journal;

pub fn set_first(words: &mut [i32]) -> Result<(), StoreFault> {
    let mut store = Words::new(words);
    let mut journal = Journal::new(&mut store);
    let token = journal.begin()?;
CODE
    printf '%s\n' "$@" '}' >> "$work/crates/forgets/src/lib.rt"
}

cd "$work/crates/forgets"
program '    journal.write(0, 1)'
if rt check > "$work/forgetting.log" 2>&1; then
    echo "a forgotten token is accepted" >&2
    exit 1
fi
if ! words=$(grep -o 'error\[linear-value-let-go\]: `token`.*`JournalToken` is not `Drop`.*' "$work/forgetting.log"); then
    echo "the program is refused, but not for its token:" >&2
    tail -n 5 "$work/forgetting.log" >&2
    exit 1
fi
echo "forgetting the token: $words"

program '    let wrote = journal.write(0, 1);' '    journal.commit(token)?;' '    wrote'
if ! rt check > "$work/spending.log" 2>&1; then
    echo "the program that spends its token is refused:" >&2
    tail -n 5 "$work/spending.log" >&2
    exit 1
fi
echo "spending the token: accepted"
