#!/bin/sh
# A ticket can be neither forgotten nor copied: the compiler is handed bodies that try, over the sources of es_ticket, and
# has to refuse each for the reason that stands beside it. An edit that must fail can't show that, since it has to
# compile.
#
# Usage: tickets.sh. Nothing is proved here, so it asks for nothing that was built. The last line is 'N passed, M failed'.
set -u

top=$(dirname "$(dirname "$(dirname "$(readlink -f "$0")")")")
room=$(mktemp -d)
trap 'rm -rf "$room"' EXIT
passed=0
failed=0

for crate in es_value es_event es_ticket; do
    mkdir -p "$room/crates/$crate"
    for part in src specs proofs; do cp -R "$top/crates/$crate/$part" "$room/crates/$crate/"; done
    sed -n "/^$crate:/p" "$top/crates.txt" >>"$room/crates.txt"
done
echo "bodies: es_event es_ticket" >>"$room/crates.txt"
cp "$top/HANDLES" "$room/"
mkdir -p "$room/crates/bodies/src"

# Reads lines of a name, a reason and a body, parted by @, and hands the compiler all bodies at once: the nth body stands
# in the nth line from $first on. What it says stands in the file said, its status in $status.
first=4
judge() {
    cat >"$room/bodies"
    {
        echo "//! Bodies that the compiler judges."
        echo "use es_ticket::{LedgerName, Ticket};"
        echo "fn main() {}"
        number=0
        while IFS=@ read -r _ _ body; do
            number=$((number + 1))
            echo "pub fn body_$number<L: LedgerName>$body"
        done <"$room/bodies"
    } >"$room/crates/bodies/src/main.rt"
    (cd "$room/crates/bodies" && rt try) >"$room/said" 2>&1 </dev/null
    status=$?
}

# Each body is refused in its own line and for its reason. The compiler tells of one kind of error at a time, so the
# bodies of one call are of one kind.
refused() {
    judge
    line=$first
    while IFS=@ read -r name reason _; do
        if grep -q "^src/main.rt:$line:.*error.*$reason" "$room/said"; then
            passed=$((passed + 1))
        else
            echo "FAILED: $name: not refused, or for another reason"
            grep "^src/main.rt:$line:" "$room/said"
            failed=$((failed + 1))
        fi
        line=$((line + 1))
    done <"$room/bodies"
}

judge <<'BODIES'
a ticket that is handed on@@(ticket: Ticket<L>) -> Ticket<L> { ticket }
BODIES
if [ "$status" -eq 0 ] && ! grep -q "error" "$room/said"; then
    passed=$((passed + 1))
else
    echo "FAILED: a body that hands the ticket on is refused"
    tail -n 5 "$room/said"
    failed=$((failed + 1))
fi

refused <<'BODIES'
a ticket that is handed to drop@Drop@(ticket: Ticket<L>) { drop(ticket); }
a ticket that is handed to forget@Drop@(ticket: Ticket<L>) { std::mem::forget(ticket); }
a ticket that is cloned@Clone@(ticket: &Ticket<L>) -> Ticket<L> { ticket.clone() }
a ticket that is read out of a borrow@move-out-of-place@(ticket: &Ticket<L>) -> Ticket<L> { *ticket }
a ticket that is made by hand@private-field@(row: es_event::Row) -> Ticket<L> { Ticket { row, of: std::marker::PhantomData } }
BODIES

refused <<'BODIES'
a ticket that is left@linear-value-let-go@(ticket: Ticket<L>) {}
a ticket that is left on one way out@linear-value-let-go@(ticket: Ticket<L>, keep: bool) -> Option<Ticket<L>> { if keep { Some(ticket) } else { None } }
a ticket that is overwritten@linear-value-let-go@(mut first: Ticket<L>, second: Ticket<L>) -> Ticket<L> { first = second; first }
a ticket in a box that is dropped@linear-value-let-go@(alloc: std::alloc::Global, ticket: Ticket<L>) -> bool { Box::new(alloc, ticket).is_ok() }
BODIES

refused <<'BODIES'
a ticket that is used twice@moved@(ticket: Ticket<L>) -> (Ticket<L>, Ticket<L>) { (ticket, ticket) }
BODIES

echo "$passed passed, $failed failed"
[ "$failed" -eq 0 ]
