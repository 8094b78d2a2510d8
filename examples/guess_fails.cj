# A guess that holds and a guess that fails: main is compiled for n = 5, and called with 5 and with 6.
# corejit alone stats < examples/guess_fails.cj
fun main(n; r) {
1: op r = n * 2 -> 2
2: print r -> 3
3: return r
}
calls
guess main n 5
warm main 1
call main 5 limit 100
call main 6 limit 100
