# A recursive function, inlined once into itself.
# corejit replay stats < examples/recursive_sum.cj
fun sum(k; r) {
1: cond k -> 2, 4
2: op r = k - 1 -> 3
3: call r = sum(r) -> 5
4: return 0
5: op r = r + k -> 6
6: return r
}
events
compile sum { inline 2 const }
begin sum 3 limit 100
