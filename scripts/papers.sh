#!/bin/bash
# Prints both papers of five sheets to A4 by a real browser, checks pages and text, and makes a picture of each page: build/papers.
# Beside the gate, since it wants Chromium, Graphviz and poppler. Look at the pictures: what a browser does with a page, a program cannot judge.
set -euo pipefail
cd "$(dirname "$0")/.."

browser=$(command -v chromium || command -v chromium-browser || command -v google-chrome || true)
if [ -z "$browser" ] || ! command -v dot pdfinfo pdftotext pdftoppm > /dev/null; then
    echo "papers: wants chromium, dot, pdfinfo, pdftotext and pdftoppm: apt-get install chromium graphviz poppler-utils" >&2
    exit 2
fi
bash scripts/gemzuleg.sh
out=build/papers
rm -rf "$out"
mkdir -p "$out"
PATH=$PWD/build/bin:$PATH

# the bench sheet, the ring, the case study, one at the bounds, one with 3,432 sets
made=$(mktemp -d)
trap 'rm -rf "$made"' EXIT
(cd tests && cargo run --release --quiet -p day -- sheets "$made")
gemzuleg example > "$out/bench.sheet"
gemzuleg example kinds > "$out/bench.kinds"
cp examples/figure-02-ring.sheet "$out/ring.sheet"
cp examples/case-study-weights.sheet "$out/case.sheet"
cp "$made/largest2.sheet" "$out/bounds.sheet"
cp "$made/seven.sheet" "$out/seven.sheet"

faults=0
fault() {
    echo "papers: $1" >&2
    faults=$((faults + 1))
}

# A page to A4, checked: paper NAME TITLE MOST-PAGES ACCOUNTS..
paper() {
    local name=$1 title=$2 most=$3 pages size word
    timeout 300 "$browser" --headless --no-sandbox --disable-gpu --no-pdf-header-footer --print-to-pdf="$out/$name.pdf" "$out/$name.html" 2> /dev/null
    pages=$(pdfinfo "$out/$name.pdf" | awk '/^Pages:/ { print $2 }')
    size=$(pdfinfo "$out/$name.pdf" | sed -n 's/^Page size: *//p')
    pdftotext -layout "$out/$name.pdf" "$out/$name.txt"
    [[ $size == *A4* ]] || fault "$name: the size is $size"
    ((pages >= 1 && pages <= most)) || fault "$name: $pages pages"
    grep -qF "$title" "$out/$name.txt" || fault "$name: no title"
    for word in "${@:4}"; do
        grep -qwF -- "$word" "$out/$name.txt" || fault "$name: '$word' is not on paper"
    done
    # a page number on every page, and no page that is all but empty
    for ((page = 1; page <= pages; page++)); do
        pdftotext -f "$page" -l "$page" -layout "$out/$name.pdf" - > "$out/page.txt"
        grep -qE "(^| )$page ?/ ?$pages *$" "$out/page.txt" || fault "$name: no number on page $page"
        (($(grep -c '[a-z]' "$out/page.txt") >= 2)) || [ "$(wc -l < "$out/page.txt")" -ge 5 ] || fault "$name: page $page is all but empty"
    done
    rm -f "$out/page.txt"
    pdftoppm -r 60 -l 12 -png "$out/$name.pdf" "$out/$name"
    echo "papers: $name, $pages pages, $(wc -c < "$out/$name.html") bytes"
}

for sheet in "$out"/{bench,ring,case,bounds,seven}.sheet; do
    name=$(basename "$sheet" .sheet)
    kinds=()
    [ -e "$out/$name.kinds" ] && kinds=(--kinds "$out/$name.kinds")
    accounts=($(awk 'NR > 1 && NF == 0 { exit } NR > 1 && $2 == "a" { print $1 }' "$sheet"))
    gemzuleg paper "$sheet" > "$out/$name.html"
    gemzuleg paper --answers "${kinds[@]}" "$sheet" > "$out/$name-answers.html"
    paper "$name" 'Who can get in?' 60 "${accounts[@]}"
    paper "$name-answers" 'Who can get in? Answers' 120 "${accounts[@]}"
done
gemzuleg class --papers "$out/day" "$out"/{bench,ring,case}.sheet > /dev/null 2>&1
cp "$out/day/overview.html" "$out/overview.html"
paper overview 'Who can get in? The day' 1 bench ring case
echo "papers: $faults faults; the pages as pictures: $out/*.png"
((faults == 0))
