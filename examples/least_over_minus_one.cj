# The least value over -1 is the least value, with remainder 0.
# corejit alone < examples/least_over_minus_one.cj
fun main(n; r) {
1: op r = n / -1 -> 2
2: print r -> 3
3: op r = n % -1 -> 4
4: return r
}
calls
call main -9223372036854775808 limit 10
