#!/bin/sh
# Holds docs/NARROWINGS.md, docs/SCENARIOS.md and the scripts of this folder to each other.
# Says what is wrong, line by line, and ends with status 1; else one line and status 0.
# Playing the scripts is tests/cli/run.sh's work.
cd "$(dirname "$0")/../.." || exit 1

narrowings=docs/NARROWINGS.md
scenarios=docs/SCENARIOS.md
folder=tests/scenarios
wrong=$(mktemp) || exit 1
trap 'rm -f "$wrong"' EXIT

say() { echo "scenarios: $*" >>"$wrong"; }

# The labels that a text cites, each once, in the order of their numbers.
labels() { grep -owE 'N[0-9]+' "$@" | sort -u -k1.2n; }

# Cell $2 of the line of $scenarios that names the script $1.
cell() { awk -F' [|] ' -v script="\`$1\`" -v cell="$2" '$3 == script { sub(/ [|]$/, ""); print $cell }' "$scenarios"; }

# How many tables of the part $2, R1 or R3, have the coverage $1, by their lines and by the count at the end.
by_lines() {
    awk -F' [|] ' -v word="$1" -v part="^[|] $2-" '$0 ~ part && $4 == word { n++ } END { print n + 0 }' "$scenarios"
}
by_count() {
    awk -F' *[|] *' -v word="$1" -v part="$2" '
        $2 == "Coverage" { for (k = 3; k < NF; k++) if ($k ~ part) column = k }
        column && $2 == word { print $column + 0; exit }' "$scenarios"
}

check_pairs() {
    for file in "$folder"/*.script; do
        [ -s "${file%.script}.expected" ] || say "$file has no expected output"
    done
    for file in "$folder"/*.expected; do
        [ -s "${file%.expected}.script" ] || say "$file has no script"
    done
}

check_labels() {
    for label in $(grep -oE '^[|] N[0-9]+ [|]' "$narrowings" | tr -d '| ' | sort | uniq -d); do
        say "$narrowings has $label twice"
    done
    for file in docs/*.md "$folder"/*.script; do
        for label in $(labels "$file"); do
            grep -q "^| $label |" "$narrowings" || say "$file cites $label, which $narrowings doesn't have"
        done
    done
}

# A script r1_2_NN plays Table R1-NN, r3_4_NN Table R3-NN, and r1_4_NN Figure R1-NN, which is listed with that word.
check_script() {
    played=$(echo "$1" | sed -e 's/^r1_4_0*\([0-9]*\)_.*/Figure R1-\1/' \
        -e 's/^r\([13]\)_[24]_0*\([0-9]*\)_.*/Table R\1-\2/')
    [ "$(cell "$1" 1)" = "| ${played#Table }" ] || say "$1 isn't listed at $played in $scenarios"
    grep -q "$played:" "$folder/$1.script" || say "$1.script doesn't name $played"
    cited=$(labels "$folder/$1.script" | paste -sd, - | sed 's/,/, /g')
    [ "$(cell "$1" 6)" = "${cited:-none}" ] || say "$1 cites ${cited:-none}, $scenarios lists $(cell "$1" 6)"
}

# check_tables PART FIRST LAST
check_tables() {
    listed=$(grep -oE "^[|] $1-[0-9]+" "$scenarios" | cut -c3- | paste -sd' ' -)
    wanted=$(seq "$2" "$3" | sed "s/^/$1-/" | paste -sd' ' -)
    [ "$listed" = "$wanted" ] || say "$scenarios doesn't list the tables $1-$2 to $1-$3 in their order"
}

check_scripts() {
    for file in "$folder"/r1_2_*.script "$folder"/r1_4_*.script "$folder"/r3_4_*.script; do
        check_script "$(basename "$file" .script)"
    done
    for name in $(grep -oE '`r[13]_[24]_[a-z0-9_]+`' "$scenarios" | tr -d '`'); do
        [ -f "$folder/$name.script" ] || say "$scenarios lists $name, and there is no such script"
    done
}

# check_counts PART
check_counts() {
    sum=0
    for word in covered partly 'not expressible'; do
        lines=$(by_lines "$word" "$1")
        count=$(by_count "$word" "$1")
        sum=$((sum + lines))
        [ "$lines" = "$count" ] || say "$scenarios lists $lines tables of $1 as $word and counts $count"
    done
    count=$(by_count together "$1")
    [ "$sum" = "$count" ] || say "$scenarios lists $sum tables of $1 and counts $count"
}

# told PART: the counts in words
told() {
    echo "$(by_count together "$1") tables of $1, $(by_lines covered "$1") covered, $(by_lines partly "$1") partly," \
        "$(by_lines 'not expressible' "$1") not expressible"
}

check_pairs
check_labels
check_scripts
check_tables R1 2 26
check_tables R3 1 7
check_counts R1
check_counts R3
if [ -s "$wrong" ]; then
    cat "$wrong"
    exit 1
fi
echo "scenarios: $(told R1); $(told R3); $(grep -c '^| N[0-9]' "$narrowings") labels; all in order"
