# Read by the commands here: where the Rust's source lies. A LEDGER_SRC that was given holds wherever cargo runs.
if [ -n "${LEDGER_SRC:-}" ] && [ -d "$LEDGER_SRC" ]; then
    LEDGER_SRC=$(cd "$LEDGER_SRC" && pwd)
    export LEDGER_SRC
fi
source=${LEDGER_SRC:-$(dirname "$here")/../shared/docs/src}
missing="The Rust's source is not at $source, so nothing is compared with it. LEDGER_SRC may name the folder that holds crates/execution/src/ledger.rs."
[ -r "$source/crates/execution/src/ledger.rs" ] || { echo "$missing" >&2; exit "${without_source:-2}"; }
