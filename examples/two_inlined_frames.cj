# Two calls inlined into each other, and a guard that fails in the innermost: all three frames are built anew.
# corejit replay stats < examples/two_inlined_frames.cj
fun main(n; r) {
1: call r = mid(n) -> 2
2: return r
}
fun mid(x; y) {
1: call y = low(x) -> 2
2: op y = y + 1 -> 3
3: return y
}
fun low(z) {
1: print z -> 2
2: return z
}
events
compile main { inline 0 inline 2 anchors 6 assume 7 when never }
begin main 5 limit 100
