# A zero divisor ends the run with `fault divide`.
# corejit alone < examples/zero_divisor.cj
fun main(; r) {
1: op r = 7 / 0 -> 2
2: return r
}
calls
call main limit 10
