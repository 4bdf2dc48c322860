# Times GAP's Binomial, less an empty loop; prints lines as measure.c does.
each := function(n, k, m)
    local i, x, start, full;
    x := 0;
    start := NanosecondsSinceEpoch();
    for i in [1 .. m] do x := Binomial(n, k); od;
    full := NanosecondsSinceEpoch() - start;
    start := NanosecondsSinceEpoch();
    for i in [1 .. m] do x := i; od;
    return (full - (NanosecondsSinceEpoch() - start)) / m;
end;;
for p in [[8, 4], [40, 20], [67, 33], [80, 21]] do
    best := Minimum(List([1 .. 9], i -> each(p[1], p[2], 20000)));;
    Print("1 subsets (", p[1], ", ", p[2], ")|random|COUNT|GAP|", Int(best), "\n");
od;
QUIT;
