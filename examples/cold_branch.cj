# The edge of a branch that is not expected: the guard stands behind the branch, which is made again once it fails.
# corejit replay stats < examples/cold_branch.cj
fun main(n) {
1: cond n -> 2, 3
2: print 1 -> 4
3: print 2 -> 4
4: return n
}
events
compile main { anchors 0 delay 4 0 2 when never }
begin main 0 limit 100
begin main 1 limit 100
