# The table out of callgrind's files in their order: each names the side and the row, and has its total. A side's base comes first, and is
# subtracted. The rows of one kind, which is a row's name to its first comma, have a mean.
function mean() {
    if (rows) printf "%-52s %12s %12s %7.3f\n", kind ": geometric mean", "", "", exp(sum / rows)
    sum = rows = 0
}
BEGIN { printf "%-52s %12s %12s %7s\n", "instructions", "the Rust", "ours", "ratio" }
sub(/^desc: Trigger: Client Request: /, "") { side = $1; sub(/^[^ ]* /, ""); row = $0 }
/^totals: / && side ~ /-base$/ { base = $2 }
/^totals: / && side == "theirs" { theirs = $2 - base }
/^totals: / && side == "ours" {
    ours = $2 - base
    split(row, words, ",")
    if (words[1] != kind) mean()
    kind = words[1]
    printf "%-52s %12d %12d %7.3f\n", row, theirs, ours, ours / theirs
    sum += log(ours / theirs)
    rows++
}
END { mean() }
