# The increment: prints n + 1, and returns it.
# corejit alone < examples/increment.cj
fun main(n; r) {
1: op r = n + 1 -> 2
2: print r -> 3
3: return r
}
calls
call main 4 limit 100
