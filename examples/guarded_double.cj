# A version that expects n = 5: the guard holds in the first run, and fails in the second.
# corejit replay stats < examples/guarded_double.cj
fun main(n; r) {
1: op r = n * 2 -> 2
2: print r -> 3
3: return r
}
events
compile main { anchors 0 assume 3 when 0 = 5 }
begin main 5 limit 100
begin main 6 limit 100
