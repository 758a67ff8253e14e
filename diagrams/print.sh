#!/bin/sh
# What a field engineer takes along, on paper:
#   target/manual.pdf       docs/MANUAL.md, a page for each heading
#   target/narrowings.pdf   docs/NARROWINGS.md, which the manual's labels N1, N2 .. stand in
#   target/events.pdf       docs/EVENTS.md
#   target/card.pdf         docs/CARD.md, one page for the pocket
# Each page has version and date. Fails if a page of the manual or the card runs over, or if a label isn't printed.
set -eu
cd "$(dirname "$0")/.."
packages="pandoc weasyprint poppler-utils fonts-liberation fonts-dejavu-core"

missing() {
    echo "manual: $1 is missing: apt-get install $packages" >&2
    exit 2
}

for program in pandoc weasyprint pdfinfo pdftotext fc-list; do
    command -v "$program" >/dev/null || missing "$program"
done
# Another font is wider: pages would run over. DejaVu has the signs of the name check that Liberation lacks.
for font in "Liberation Sans" "Liberation Mono" "DejaVu Sans Mono"; do
    fc-list "$font" | grep -q . || missing "the font $font"
done

# 0.6.0 of 0x000600, and the day on which a page was last changed.
number=$(sed -n 's/^#define HM_VERSION 0x\([0-9A-Fa-f]*\)$/\1/p' include/hawsermole.h)
version=$(printf '%d.%d.%d' "0x$(echo "$number" | cut -c1-2)" "0x$(echo "$number" | cut -c3-4)" \
    "0x$(echo "$number" | cut -c5-6)")
changed() { git log -1 --format=%cs -- "$1" 2>/dev/null | grep . || date -r "$1" +%F; }

# print FILE NAME TITLE STYLE..
print() {
    file=$1 name=$2 title=$3
    shift 3
    echo "@page { @bottom-left { content: \"$title, version $version, $(changed "$file")\"; font: 8pt sans-serif } }" \
        >"target/$name.css"
    styles=$(for style in "$@" "target/$name.css"; do printf -- '--css %s ' "$PWD/$style"; done)
    # shellcheck disable=SC2086
    pandoc --from gfm --standalone --no-highlight --metadata pagetitle="$title" $styles "$file" \
        --output "target/$name.html"
    weasyprint --quiet --base-url "$PWD/docs/" "target/$name.html" "target/$name.pdf"
    pages=$(pdfinfo "target/$name.pdf" | sed -n 's/^Pages: *//p')
}

mkdir -p target
print docs/MANUAL.md manual "Hawsermole: the manual" diagrams/print.css
headings=$(grep -c '^##* ' docs/MANUAL.md)
echo "manual: $headings headings on $pages pages"
if [ "$pages" -ne "$headings" ]; then
    echo "manual: these pages don't begin with a heading, so that the one before runs over:" >&2
    for page in $(seq "$pages"); do
        first=$(pdftotext -f "$page" -l "$page" target/manual.pdf - | head -n 1)
        grep -qxF -e "# $first" -e "## $first" docs/MANUAL.md || echo "    $page: $first" >&2
    done
    exit 1
fi

print docs/CARD.md card "Hawsermole" diagrams/print.css diagrams/card.css
[ "$pages" -eq 1 ] || { echo "manual: the card has $pages pages" >&2; exit 1; }

print docs/EVENTS.md events "Hawsermole: events" diagrams/print.css diagrams/wide.css
echo "manual: the card on one page, events on $pages"
print docs/NARROWINGS.md narrowings "Hawsermole: where document 01 and SEMI E87-0312 part" \
    diagrams/print.css diagrams/wide.css
labels=$(sed -n 's/^| \(N[0-9]*\) |.*/\1/p' docs/NARROWINGS.md)
pdftotext -layout target/narrowings.pdf target/narrowings.txt
for label in $labels; do
    grep -q "^ *$label " target/narrowings.txt || { echo "manual: $label isn't printed" >&2; exit 1; }
done
echo "manual: $(echo "$labels" | wc -l) labels of NARROWINGS on $pages pages"
