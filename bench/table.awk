# From the counts of bench/run (name, units, checks, cost of one run: none, proved, hand, none-idle, proved-idle, hand-idle) the tables of docs/SPEED.md.

{
    units[$1] = $2
    whole[$1, "proved"] = $5 - $4
    whole[$1, "hand"] = $6 - $4
    less[$1, "proved"] = $5 - $4 - $3 * ($8 - $7)
    less[$1, "hand"] = $6 - $4 - $3 * ($9 - $7)
}

function grouped(x,   text, out) {
    text = sprintf("%.0f", x)
    out = ""
    while (length(text) > 3) {
        out = "," substr(text, length(text) - 2) out
        text = substr(text, 1, length(text) - 3)
    }
    return text out
}

# how: whole (calls with their checks) or less (without what a call with nothing to do costs)
function cost(name, side, how, per) {
    return (how == "whole" ? whole[name, side] : less[name, side]) / (per ? per : units[name])
}

function bounded(said, name, how, most, by_hand,   p, h) {
    p = cost(name, "proved", how)
    h = cost(name, "hand", how)
    printf "| %s | %s | %s | %s | %s | %s |\n", said, grouped(most), by_hand, grouped(p), grouped(h), p <= most ? "within" : sprintf("%.1f times the bound", p / most)
}

function grows(said, name, how, per) {
    printf "| %s | %s | %s |\n", said, grouped(cost(name, "proved", how, per)), grouped(cost(name, "hand", how, per))
}

function both(said, open, ring, how) {
    printf "| %s | %s | %s | %s | %s |\n", said, grouped(cost(open, "proved", how)), grouped(cost(ring, "proved", how)), grouped(cost(open, "hand", how)), grouped(cost(ring, "hand", how))
}

END {
    print "| workload | at most | a careful version's | proved | hand | |"
    print "|---|---|---|---|---|---|"
    bounded("check, a row of a full table, one level", "check-one-level", "whole", 280, "258")
    bounded("the same, one cell refined to level 12", "check-deep", "whole", 280, "258")
    bounded("the same, mixed levels and values", "check-mixed", "whole", 280, "258")
    bounded("a request of the mixed tape, capacity 1,000 near full", "mixed-1000", "whole", 1000, "1,220; 750")
    bounded("a request of the long tape, capacity 4,095 near full", "long-4095", "whole", 1400, "2,900; 1,130")
    bounded("refine, four sentences, remove; at most 12 numbers free, the last ones", "cycle-full", "less", 6000, "29,000; 4,600")
    bounded("the same, the free numbers scattered over the table", "cycle-scattered", "less", 6000, "29,000; 4,600")
    bounded("the same, in a sparse table", "cycle-sparse", "less", 6000, "4,600")
    bounded("one refinement without the check, nine new patches in a table just built", "refine-fresh", "less", 2500, "2,200")
    bounded("the same, at most 12 numbers free, the last ones", "refine-full", "less", 2500, "2,200")
    bounded("build 32 by 32 at capacity 4,095", "build-32", "whole", 500000, "415,000")
    bounded("one lookup without its check", "lookup", "less", 300, "254")
    bounded("page of 1,714 leaves without the check", "page", "less", 1000000, "900,000")
    bounded("scan of 1,714 leaves without the check", "scan", "less", 180000, "154,000")
    print ""
    print "How cost grows:"
    print ""
    print "| cost | proved | hand |"
    print "|---|---|---|"
    grows("check, a row, full table of 1,000 rows", "check-1000", "whole")
    grows("check, a row, full table of 4,095 rows", "check-mixed", "whole")
    grows("check, a row, 120 of 4,095 numbers in use", "check-sparse", "whole")
    grows("a tape of no request, the whole call, a row, full table of 4,095 rows", "empty-full", "whole", 4095)
    grows("the same, 120 of 4,095 numbers in use", "empty-sparse", "whole", 4095)
    grows("a request without the check, tape of 5,000", "mixed-1000-short", "less")
    grows("a request without the check, tape of 20,000", "mixed-1000", "less")
    grows("a request without the check, free numbers low and high: three families removed and refined again, capacity 1,000", "families-1000", "less")
    grows("the same, capacity 4,095", "families-4095", "less")
    grows("a tape of one request, the whole call, at capacity 1,000", "single-1000", "whole")
    grows("a lookup without its check, in the area", "lookup", "less")
    grows("the same, on its right edge: one try more", "lookup-right", "less")
    grows("the same, on its upper edge: two", "lookup-top", "less")
    grows("the same, at its upper right corner: three", "lookup-corner", "less")
    grows("a question about the counts, the whole call", "count", "whole")
    grows("page without the check, a leaf, of 427 leaves", "page-quarter", "less", 427)
    grows("page without the check, a leaf, of 1,714 leaves", "page", "less", 1714)
    grows("scan without the check, a leaf, of 427 leaves", "scan-quarter", "less", 427)
    grows("scan without the check, a leaf, of 1,714 leaves", "scan", "less", 1714)
    print ""
    print "On open grids, and on rings of the same size:"
    print ""
    print "| cost | proved, open | ring | hand, open | ring |"
    print "|---|---|---|---|---|"
    both("check, a row of a full table, one level", "check-one-level", "ring-check-one-level", "whole")
    both("the same, mixed levels and values", "check-mixed", "ring-check-mixed", "whole")
    both("a request of the mixed tape, capacity 1,000 near full", "mixed-1000", "ring-mixed-1000", "whole")
    both("refine, four sentences, remove; at most 12 numbers free, the last ones", "cycle-full", "ring-cycle-full", "less")
    both("the same, the free numbers scattered over the table", "cycle-scattered", "ring-cycle-scattered", "less")
    both("the same, in a sparse table", "cycle-sparse", "ring-cycle-sparse", "less")
    both("the same, in the ring at its seam alone", "cycle-sparse", "ring-cycle-seam", "less")
    both("one refinement without the check, nine new patches in a table just built", "refine-fresh", "ring-refine-fresh", "less")
    both("build 32 by 32 at capacity 4,095", "build-32", "ring-build-32", "whole")
    both("one lookup without its check", "lookup", "ring-lookup", "less")
    both("the same, on the right edge", "lookup-right", "ring-lookup-right", "less")
    both("page of 1,714 leaves without the check", "page", "ring-page", "less")
    both("scan of 1,714 leaves without the check", "scan", "ring-scan", "less")
}
