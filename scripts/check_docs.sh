#!/bin/sh
# Looks up the names that the documents cite, and the code that they quote; make test runs it before the proofs.
#
# - Each quotation of code, a block marked rust or antt, begins with a comment that names a file, and the rest of it stands in that file as
#   it is, line by line.
# - Each path in backticks that begins with a folder of the repository or with a crate exists, and so does each one in a crate's README that
#   begins with src, specs or proofs, in the crate's folder.
# - The tables of docs/PROVED.md and docs/DEFINITIONS.md are what scripts/tables.py makes of the sources.
# - docs/MEMORY.md: scripts/check_alloc_docs.py says what is compared.
# - The structs of include/jxl_lossless.h have the offsets of those of the sources (scripts/check_structs.py).
set -eu
cd "$(dirname "$0")/.."
bad=0
docs="README.md CONTRIBUTING.md docs/*.md examples/*.md crates/*/README.md"

# Paths.
for doc in $docs; do
    for path in $(grep -o '`[A-Za-z_.]*/[A-Za-z0-9_./-]*`' "$doc" | tr -d '`' | sort -u); do
        top=${path%%/*}
        case $doc:$top in
        crates/*:src | crates/*:specs | crates/*:proofs) found=${doc%/*}/$path ;;
        *) if [ -e "$top" ]; then found=$path; elif [ -e "crates/$top" ]; then found=crates/$path; else continue; fi ;;
        esac
        case $path in *NAME* | */out/*) continue ;; esac
        if [ ! -e "$found" ]; then
            echo "$doc: no file $path"
            bad=1
        fi
    done
done

# Quotations.
for doc in $docs; do
    awk '
        function complain(text) { print FILENAME ": line " FNR ": " text; bad = 1 }
        function compare(  line, whole) {
            whole = "\n"
            while ((getline line < file) > 0) whole = whole line "\n"
            close(file)
            if (text == "" || !index(whole, "\n" text)) complain("what is quoted up to here does not stand in " file)
        }
        !inside && /^```/ { inside = 1; first = 1; file = text = ""; code = /^```(rust|antt)$/; next }
        inside && /^```$/ { inside = 0; if (code && file != "") compare(); next }
        inside && first {
            first = 0
            if ($0 ~ /^(\/\/|--) crates\/[A-Za-z0-9_.\/]+$/) { file = $2; next }
            if (code) complain("a quotation that names no file")
        }
        inside { text = text $0 "\n" }
        END { exit bad }' "$doc" || bad=1
done

# The tables that are made from the sources.
python3 scripts/tables.py --check || bad=1

# no crate cites the inner definitions of another
for crate in crates/*/; do
    name=$(basename "$crate")
    if grep -rl "Rattle\.$name\.specs\.Inner" crates/*/src crates/*/specs crates/*/proofs 2>/dev/null | grep -v "^crates/$name/"; then
        echo "the files above cite inner definitions of $name"
        bad=1
    fi
done

python3 scripts/check_alloc_docs.py || bad=1
python3 scripts/check_structs.py || bad=1

if [ "$bad" = 0 ]; then echo "docs: each name is there, and each quotation"; fi
exit "$bad"
