# Ten thousand waiting frames.
# corejit alone < examples/recursion.cj
fun main(n; r) {
1: cond n -> 2, 4
2: op r = n - 1 -> 3
3: call r = main(r) -> 4
4: return n
}
calls
call main 10000 limit 1000000
