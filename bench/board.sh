#!/usr/bin/env bash
# What a browser makes of the pages that `board` prints for the films island, twenty and series. Each page is opened in
# headless Chromium. The style has to be applied, so the policy's hash has to be that of the style; there have to be as
# many rows and cells as the film has scenes and actors; and the validator tidy may find no error. A PDF of A4 and one of
# Letter are left in the folder that is named, to be looked at. For each film it prints the bytes of the page, the seconds of
# the command, and the pages of each PDF. It takes the built program, chromium, tidy, pdfinfo, python3 and openssl:
#
#     bench/board.sh FOLDER
set -euo pipefail
shopt -s inherit_errexit
repository=$(cd "$(dirname "$0")/.." && pwd)
folder=${1:?the folder for the PDFs}
solver=${STRIPBOARD:-$("$repository/bin/run" --path stripboard)}
mkdir -p "$folder"

# Runs Chromium without a window.
browse() {
    timeout 60 chromium --headless --no-sandbox --disable-gpu "$@" 2>/dev/null
}

# Prints a page as a PDF of this paper, and tells how many pages it has.
pages() {
    sed "s/size: landscape/size: $2 landscape/" "$1.html" >"$1-$2.html"
    # The changed style has another hash.
    local hash
    hash=$(python3 -c 'import sys; s = open(sys.argv[1]).read(); sys.stdout.write(s[s.index("<style>") + 7:s.index("</style>")])' "$1-$2.html" \
        | openssl dgst -sha256 -binary | base64)
    sed -i "s|sha256-[^']*'|sha256-$hash'|" "$1-$2.html"
    browse --no-pdf-header-footer --print-to-pdf="$1-$2.pdf" "file://$1-$2.html" >/dev/null
    pdfinfo "$1-$2.pdf" | sed -n 's/^Pages: *//p'
}

printf 'film,bytes,seconds,pages of A4,pages of Letter\n'
for name in island twenty series; do
    film="$repository/examples/$name.csv"
    page=$(realpath "$folder")/$name
    "$solver" solve "$film" --auto >"$page-plan.csv" || [ $? = 3 ]
    seconds=$( { TIMEFORMAT=%R; time "$solver" board "$film" "$page-plan.csv" >"$page.html"; } 2>&1)
    browse --dump-dom "file://$page.html" >"$page.dom"
    python3 - "$film" "$page.html" "$page.dom" <<'PYTHON'
import base64, csv, hashlib, re, sys
film, page, dom = sys.argv[1:]
rows = [row for row in csv.reader(open(film, newline='')) if row]
actors = len(rows[0]) - 2
scenes = sum(row[0].lower() not in ('scene', 'rate', 'hold', 'before') for row in rows)
tables = max(1, (actors + 23) // 24)
text = open(page).read()
style = text[text.index('<style>') + 7:text.index('</style>')]
assert base64.b64encode(hashlib.sha256(style.encode()).digest()).decode() in text, 'the hash of the style'
seen = open(dom).read()
# The heads, the scenes and the total of each table of the order, and of that of the actors.
assert len(re.findall('<tr>', seen)) == tables * (scenes + 1) + 1 + 1 + actors + 1, 'rows'
columns = tables * 5 + actors
cells = columns * (scenes + 1) + 3 * (scenes + 1)
total = 5 + (actors - 24 * (tables - 1)) + 3
assert len(re.findall('<t[dh][ >]', seen)) == cells + total + 10 * (actors + 2), 'cells'
PYTHON
    tidy -q -e "$page.html" || [ $? = 1 ]
    printf '%s,%s,%s,%s,%s\n' "$name" "$(stat -c %s "$page.html")" "$seconds" "$(pages "$page" A4)" "$(pages "$page" Letter)"
done
