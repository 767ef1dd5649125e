#!/usr/bin/env bash
# Two programs that have to be turned down before any proof: one closes a ticket twice, one lets a ticket lapse.
# Each stands in a copy of the crates, in a folder of its own, as the source of a client of the job book.
set -euo pipefail
cd "$(dirname "$0")/.."
work=$(mktemp -d)
trap 'rm -rf "$work"' EXIT

mkdir "$work/copy"
tar -c --exclude=out crates crates.txt | tar -x -C "$work/copy"
client="$work/copy/crates/turned_down"
mkdir -p "$client/src"
sed -n 's/^ticket_client:/turned_down:/p' crates.txt >> "$work/copy/crates.txt"

# A client that ends a job so: it has a book, the book's sheet, and the ticket of a running job.
client_that() {
    cat > "$client/src/main.rt" <<END
//! A client that is turned down.
#![tactic(auto)]

use jobs::ending::Unclosed;
use jobs::job_book::JobBook;
use jobs::ticket::Ticket;
use keys::stop_key::StopKey;
use runs::table::Table;

fn end(book: &mut JobBook, sheet: &mut [Table<StopKey>], ticket: Ticket) -> Result<(), Unclosed> {$1
}

fn main(rt: HostRuntime) -> anyhow::Result<()> {
    println!(rt; "no book, no job")?;
    Ok(())
}
END
}

# must_say NAME ERROR: rt refuses the client for this error and for nothing else.
must_say() {
    local said="$work/$1"
    if (cd "$client" && rt try) > "$said" 2>&1; then
        echo "turned_down: $1 passed" >&2
        exit 1
    fi
    if [ "$(grep -c 'error\[' "$said")" != 1 ] || ! grep -qF "$2" "$said"; then
        echo "turned_down: $1 was not refused with: $2" >&2
        cat "$said" >&2
        exit 1
    fi
    echo "turned_down: $1: $2"
}

client_that '
    book.close(sheet, ticket, &[])?;
    book.close(sheet, ticket, &[])'
must_say 'closing a ticket twice' 'error[borrow-e0382]: use of moved value: `ticket`'

client_that '
    match book.close(sheet, ticket, &[]) {
        Ok(()) => Ok(()),
        Err(Unclosed { ticket, refusal: _ }) => Ok(()),
    }'
must_say 'letting a ticket lapse' 'error[linear-value-let-go]: `ticket` is let go'
