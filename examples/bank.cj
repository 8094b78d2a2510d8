# A bank of two accounts: pays in, and transfers 200 with a fee of a tenth where the first account has them.
# corejit alone < examples/bank.cj
fun main(k; r) {
1: op r = k * 100 -> 2
2: call r = deposit(0, r) -> 3
3: call r = deposit(1, 50) -> 4
4: call r = transfer(0, 1, 200) -> 5
5: print r -> 6
6: call r = total() -> 7
7: return r
}
fun deposit(a, v; b) {
1: load b = [a] -> 2
2: op b = b + v -> 3
3: store [a] = b -> 4
4: return b
}
fun withdraw(a, v; b, s) {
1: load b = [a] -> 2
2: op s = b < v -> 3
3: cond s -> 4, 5
4: return -1
5: op b = b - v -> 6
6: store [a] = b -> 7
7: return b
}
fun fee(v; r) {
1: op r = v / 10 -> 2
2: return r
}
fun transfer(a, b, v; f, s, t) {
1: call f = fee(v) -> 2
2: op s = v + f -> 3
3: call t = withdraw(a, s) -> 4
4: op s = t < 0 -> 5
5: cond s -> 6, 7
6: return 0
7: call t = deposit(b, v) -> 8
8: return 1
}
fun total(; x, y) {
1: load x = [0] -> 2
2: load y = [1] -> 3
3: op x = x + y -> 4
4: return x
}
calls
call main 1 limit 2000
call main 2 limit 2000
call main 3 limit 2000
call main 4 limit 2000
call main 5 limit 2000
call main 6 limit 2000
call main 7 limit 2000
call main 8 limit 2000
call main 9 limit 2000
call main 10 limit 2000
call main 11 limit 2000
call main 12 limit 2000
call main 13 limit 2000
call main 14 limit 2000
call main 15 limit 2000
call main 16 limit 2000
call main 17 limit 2000
call main 18 limit 2000
call main 19 limit 2000
call main 20 limit 2000
call main 21 limit 2000
call main 22 limit 2000
call main 23 limit 2000
call main 24 limit 2000
call main 25 limit 2000
call main 26 limit 2000
call main 27 limit 2000
call main 28 limit 2000
call main 29 limit 2000
call main 30 limit 2000
call main 31 limit 2000
call main 32 limit 2000
call main 33 limit 2000
call main 34 limit 2000
call main 35 limit 2000
call main 36 limit 2000
call main 37 limit 2000
call main 38 limit 2000
call main 39 limit 2000
call main 40 limit 2000
