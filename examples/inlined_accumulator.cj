# An inlined function starts with its registers at 0 each time: 2 and 1 are printed, and not 2 and 3.
# corejit replay stats < examples/inlined_accumulator.cj
fun main(n; r) {
1: cond n -> 2, 5
2: call r = acc(n) -> 3
3: print r -> 4
4: op n = n - 1 -> 1
5: return r
}
fun acc(x; t) {
1: op t = t + x -> 2
2: return t
}
events
compile main { inline 1 const }
begin main 2 limit 1000
